"""Saving: the command carry, and what replay saves opened again."""
import os
import random
import struct

import live_model as model
from support import FolderTest, command, random_file, read, run, sample, sample_boards


def record(**fields):
    """The 32 bytes of a record with these fields, 0 in the others."""
    return struct.pack(model.Record.FORMAT, *(fields.get(name, 0) for name in model.Record.FIELDS))


def session(board, *records):
    return struct.pack('<I', len(board)) + board + b''.join(records)


def save(length=8192):
    return record(kind=5, extra=length)


def replayed(whole):
    """The lines that replay prints for an input."""
    ran = run([command('replay')], input=whole, text=False)
    return ran.stdout.decode().splitlines()


def board_lines(lines):
    return [line for line in lines if line.split()[0] in ('board', 'holds', 'duty')]


# Calls on board 2: a duty done, one admitted, and one refused for its clock.
CALLS = (record(kind=2, clock=8, serial=1),
         record(kind=0, lent=128, doer=1, action=2, start=30, end=40, clock=9),
         record(kind=3, lent=128, clock=8, serial=2))

# A poke after which duty 1, a grant by user 0, is not permitted.
LEADER_HOLDS_NOTHING = record(kind=9, first=7)


class Saved(FolderTest):
    """What replay saves, opened again."""

    def saved(self, board, *records):
        """The lines of a session, and the bytes that its last record, a save, writes."""
        lines = replayed(session(board, *records, save()))
        ends = len(lines) - 1 - len(board_lines(lines))
        number, serial, length, told = lines[ends - 1].split()
        file = bytes.fromhex(told)
        self.assertEqual((number, serial, int(length)), ('0', '0', len(file)))
        return lines, file

    def test_opened_again_it_is_the_same_board(self):
        board = read(sample('case2.board'))
        lines, file = self.saved(board, *CALLS)
        again, same = self.saved(file)
        self.assertEqual(again[0], 'open 0 0')
        self.assertEqual(board_lines(again), board_lines(lines))
        self.assertEqual(same, file)
        self.assertEqual(len(board_lines(lines)), 4)

    def test_a_sample_that_was_opened_gives_its_bytes(self):
        for name in sample_boards():
            board = read(sample(name))
            if replayed(session(board))[0] == 'open 0 0':
                self.assertEqual(self.saved(board)[1], board)

    def test_a_red_board_is_saved_and_not_opened(self):
        board = read(sample('case2.board'))
        _, file = self.saved(board, LEADER_HOLDS_NOTHING)
        self.assertEqual(replayed(session(file))[0].split()[:2], ['open', '8'])


class Carry(FolderTest):

    def carried(self, whole, status, err=''):
        ran = run([command('carry')], input=whole, text=False)
        self.assertEqual((ran.returncode, ran.stderr.decode()), (status, err))
        return ran.stdout

    def test_no_call_gives_the_file_back(self):
        board = read(sample('case2.board'))
        self.assertEqual(self.carried(session(board), 0), board)

    def test_the_board_after_the_calls(self):
        whole = session(read(sample('case2.board')), *CALLS)
        file = self.carried(whole, 0)
        self.assertEqual(board_lines(replayed(session(file))), board_lines(replayed(whole)))
        self.assertEqual(file, model.carried(whole)[0])
        path = self.write('after.board', file)
        self.assertEqual(run([command('judge'), path]).returncode, 0)

    def test_calls_in_two_parts(self):
        board = read(sample('case2.board'))
        between = self.carried(session(board, *CALLS[:1]), 0)
        self.assertEqual(self.carried(session(between, *CALLS[1:]), 0),
                         self.carried(session(board, *CALLS), 0))

    def test_a_named_file(self):
        path = self.write('a.replay', session(read(sample('case2.board'))))
        ran = run([command('carry'), path], text=False)
        self.ends(ran, 0, read(sample('case2.board')), b'')

    def test_calls_in_words(self):
        ran = run([command('carry'), sample('case12.replay')], text=False)
        self.ends(ran, 0, model.carried(read(sample('case12.replay')))[0], b'')

    def test_what_changes_nothing(self):
        board = read(sample('case2.board'))
        calls = save(), save(0), record(kind=6, lent=128), record(kind=6), record(kind=7), bytes(31)
        self.assertEqual(self.carried(session(board, *calls), 0), board)

    def test_refused(self):
        board = read(sample('case2.board'))
        self.assertEqual(self.carried(b'', 1, 'carry: refused 1\n'), b'')
        self.assertEqual(self.carried(session(board[:-1]), 1, 'carry: refused 4\n'), b'')
        self.assertEqual(self.carried(session(board[:-1], *CALLS), 1, 'carry: refused 4\n'), b'')

    def test_red(self):
        red = 'carry: the board is red\n'
        self.assertEqual(self.carried(session(read(sample('case8.board'))), 1, red), b'')
        board = read(sample('case2.board'))
        self.assertEqual(self.carried(session(board, LEADER_HOLDS_NOTHING), 1, red), b'')

    def test_broken(self):
        board = read(sample('case2.board'))
        self.assertEqual(self.carried(session(board, record(kind=9, first=0)), 1, 'carry: refused 19\n'), b'')

    def test_random_boards(self):
        draw = random.Random(1)
        for _ in range(20):
            whole = session(random_file(draw), *CALLS)
            file, err = model.carried(whole)
            self.assertEqual(self.carried(whole, 1 if err else 0, err), file)

    def test_what_cannot_be_read(self):
        none = self.path('none')
        self.ends(run([command('carry'), none]), 2, '', f'carry: {none} is not there\n')
        self.ends(run([command('carry'), self.folder]), 2, '', f'carry: {self.folder} is a folder\n')

    def test_a_full_disk(self):
        with open('/dev/full', 'w') as full:
            ran = run([command('carry'), sample('case12.replay')], stdout=full)
        self.ends(ran, 2, err='carry: cannot write standard output\n')

    def test_no_temporary_file_stays(self):
        for name in ('case12.replay', 'case8.board'):
            run([command('carry'), sample(name)], text=False, env={**os.environ, 'TMPDIR': self.folder})
            self.assertEqual(os.listdir(self.folder), [])

    def test_usage(self):
        self.assertEqual(run([command('carry'), '--help']).returncode, 0)
        self.assertEqual(run([command('carry'), '--other']).returncode, 2)
        self.assertEqual(run([command('carry'), 'a', 'b']).returncode, 2)
