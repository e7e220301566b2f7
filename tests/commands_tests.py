"""The commands board, judge and tick: what they print, write and answer."""
import os
import pty
import resource
import stat
import subprocess

from support import FolderTest, ROOT, command, pack, read, run, sample

SATURDAY = '''{} is red: this order fails.

* 2  Ben  revoke bench from Mia      14:10 to 14:40
  1  Mia  use calibrate on detector  14:00 to 15:00  <- NOT PERMITTED

Read it from the top: the windows allow this order, each duty but the last is permitted when
its turn comes, and then the last one is not.
Duty 1 asks: Mia holds bench. The duties marked * change that.
'''
SATURDAY_IN_NUMBERS = '''{} is red: this order fails.

* 2  person 1  revoke role 2 from person 2  14:10 to 14:40
  1  person 2  use action 2 on object 0     14:00 to 15:00  <- NOT PERMITTED

Read it from the top: the windows allow this order, each duty but the last is permitted when
its turn comes, and then the last one is not.
Duty 1 asks: person 2 holds role 2. The duties marked * change that.
'''
GREEN = ('{} is green: in every order that the windows allow, each of the 2 duties is permitted when its turn'
         ' comes.\n')
PEOPLE = 'people Ada Ben Mia\nroles leader helper bench\nholds Ada leader\n'


def no_file_may_grow():
    """A full disk for the command that is started: no file may have a byte."""
    resource.setrlimit(resource.RLIMIT_FSIZE, (0, 0))


class Board(FolderTest):

    def test_writes_beside_the_words(self):
        path = self.write('saturday.txt', read(sample('saturday.txt')))
        self.ends(run([command('board'), path]), 0, f'{self.path("saturday.board")}: 2 duties\n', '')
        self.assertEqual(read(self.path('saturday.board')), read(sample('saturday.board')))

    def test_writes_every_board_of_a_listing(self):
        path = self.write('boards.txt', read(sample('boards.txt')))
        self.ends(run([command('board'), path]), 0, err='')
        for name in ('case1.board', 'case11.board'):
            self.assertEqual(read(self.path(name)), read(sample(name)))

    def test_writes_where_it_is_told(self):
        out = self.path('other.board')
        self.ends(run([command('board'), sample('saturday.txt'), '-o', out]), 0, f'{out}: 2 duties\n', '')
        self.assertEqual(read(out), read(sample('saturday.board')))

    def test_relative_names(self):
        self.write('saturday.txt', read(sample('saturday.txt')))
        self.ends(run([command('board'), 'saturday.txt'], cwd=self.folder), 0, 'saturday.board: 2 duties\n',
                  '')
        self.assertEqual(read(self.path('saturday.board')), read(sample('saturday.board')))

    def test_a_slip_in_one_board_writes_none(self):
        path = self.write('two.txt', f'board a\n{PEOPLE}board b\n{PEOPLE}hold\n')
        said = f'{path}:9: hold: no line begins with this word; the nearest that does is holds\n'
        self.ends(run([command('board'), path]), 2, '', said)
        self.assertEqual(os.listdir(self.folder), ['two.txt'])

    def test_a_slip_leaves_the_file_that_was(self):
        self.write('a.board', 'was')
        self.ends(run([command('board'), self.write('a.txt', PEOPLE + 'duty')]), 2, '')
        self.assertEqual(read(self.path('a.board')), b'was')

    def test_a_full_disk_leaves_the_file_that_was(self):
        self.write('a.board', 'was')
        ran = run([command('board'), self.write('a.txt', PEOPLE)], preexec_fn=no_file_may_grow)
        self.ends(ran, 2, '')
        self.assertIn('File too large', ran.stderr)
        self.assertEqual((read(self.path('a.board')), sorted(os.listdir(self.folder))),
                         (b'was', ['a.board', 'a.txt']))

    def test_a_link_stays_a_link(self):
        self.write('real.board', 'was')
        os.symlink('real.board', self.path('a.board'))
        self.ends(run([command('board'), self.write('a.txt', PEOPLE)]), 0)
        self.assertTrue(os.path.islink(self.path('a.board')))
        self.assertEqual(read(self.path('real.board'))[:2], b'\1\0')

    def test_the_file_can_be_read_by_others(self):
        self.ends(run([command('board'), self.write('a.txt', PEOPLE)], preexec_fn=lambda: os.umask(0o022)), 0)
        self.assertEqual(stat.S_IMODE(os.stat(self.path('a.board')).st_mode), 0o644)

    def test_no_device_is_replaced(self):
        os.mkfifo(self.path('a.board'))
        self.ends(run([command('board'), self.write('a.txt', PEOPLE)]), 2, '',
                  f'{self.path("a.board")}: this is no file that can be replaced\n')
        self.assertTrue(stat.S_ISFIFO(os.stat(self.path('a.board')).st_mode))

    def test_out_is_a_board_file(self):
        path = self.write('a.txt', PEOPLE)
        self.ends(run([command('board'), path, '-o', path]), 2, '')
        self.assertEqual(read(path), PEOPLE.encode())

    def test_out_is_for_one_board(self):
        out = self.path('a.board')
        self.ends(run([command('board'), sample('boards.txt'), '-o', out]), 2, '',
                  f'{sample("boards.txt")}: -o is for one board, and there are 13\n')
        self.assertFalse(os.path.exists(out))

    def test_out_in_no_folder(self):
        out = self.path('nowhere', 'a.board')
        ran = run([command('board'), sample('saturday.txt'), '-o', out])
        self.ends(ran, 2, '')
        self.assertRegex(ran.stderr,
                         r'\Aboard: .*nowhere/a\.board\.[0-9]+\.new: No such file or directory\n\Z')

    def test_no_such_file(self):
        path = self.path('a.txt')
        self.ends(run([command('board'), path]), 2, '', f'board: {path}: No such file or directory\n')

    def test_a_folder(self):
        self.ends(run([command('board'), self.folder]), 2, '', f'{self.folder}: this is a folder\n')

    def test_a_text_with_comments_alone(self):
        path = self.write('a.txt', '# nothing\n\n')
        self.ends(run([command('board'), path]), 2, '', f'{path}: there is no board in it\n')

    def test_no_text(self):
        path = self.write('a.txt', read(sample('case8.board')))
        self.ends(run([command('board'), path]), 2, '',
                  f'{path}: this is no text; a board file has a name that ends in .board\n')

    def test_no_utf_8(self):
        path = self.write('a.txt', b'people Ada\nroles chef\xe9\n')
        self.ends(run([command('board'), path]), 2, '', f'{path}:2: this is no text in UTF-8\n')

    def test_names_with_accents_and_byte_order_mark(self):
        path = self.write('a.txt', '\ufeffpeople Zoë O\'Neil Jean-Luc\nroles a\nholds Zoe\u0308 a\n')
        self.ends(run([command('board'), path], env={**os.environ, 'LC_ALL': 'C'}), 0)
        words = run([command('board'), '--words', self.path('a.board'), '--names', path],
                    env={**os.environ, 'LC_ALL': 'C', 'PYTHONIOENCODING': 'ascii'}, encoding='utf-8')
        self.ends(words, 0, "people Zoë O'Neil Jean-Luc\nroles a\n\nholds Zoë a\n", '')

    def test_a_board_file_without_words_option(self):
        self.ends(run([command('board'), sample('case8.board')]), 2, '')

    def test_words_of_a_spoilt_file(self):
        path = self.write('a.board', read(sample('case8.board'))[:-1])
        self.ends(run([command('board'), '--words', path]), 2, '',
                  f'{path}: refused 4: the parts or the length are'
                  ' not as the header says: the file is cut off or has something added (it has 145 bytes, its'
                  ' header says 146)\n')

    def test_words_on_a_full_disk(self):
        with open('/dev/full', 'w') as full:
            ran = run([command('board'), '--words', sample('case8.board')], stdout=full)
        self.ends(ran, 2, err='board: cannot write standard output: No space left on device\n')

    def test_names_of_another_board(self):
        path = self.write('a.txt', 'people Ada\nroles a b\n')
        self.ends(run([command('board'), '--words', sample('case8.board'), '--names', path]), 2, '',
                  'the names are of 1 people, and the board has 2\n')

    def test_names_from_a_listing(self):
        path = self.write('a.txt', 'board case1\npeople A B\nroles r s\nboard case8\npeople C D\nroles t u\n')
        self.assertIn('people C D',
                      run([command('board'), '--words', sample('case8.board'), '--names', path]).stdout)
        self.ends(run([command('board'), '--words', sample('case9.board'), '--names', path]), 2, '',
                  f'{path}: none of its 2 boards is called case9\n')

    def test_options_that_do_not_fit(self):
        for options in (['--names', sample('saturday.txt'), sample('saturday.txt')],
                        ['--word', sample('case8.board')],
                        ['--words', sample('case8.board'), '-o', self.path('a.board')], []):
            ran = run([command('board'), *options])
            self.ends(ran, 2, '')
            self.assertIn('usage: board', ran.stderr)

    def test_help(self):
        self.assertIn('Exit status', run([command('board'), '--help']).stdout)


class Judge(FolderTest):

    def test_red_in_words(self):
        self.ends(run([command('judge'), sample('saturday.txt')]), 1, SATURDAY.format('saturday'), '')

    def test_green_in_words(self):
        self.ends(run([command('judge'), sample('saturday-mended.txt')]), 0, GREEN.format('saturday-mended'),
                  '')

    def test_red_board_file(self):
        path = sample('saturday.board')
        self.ends(run([command('judge'), path]), 1, SATURDAY_IN_NUMBERS.format(path), '')

    def test_red_board_file_with_names(self):
        path = sample('saturday.board')
        self.ends(run([command('judge'), path, '--names', sample('saturday.txt')]), 1, SATURDAY.format(path),
                  '')

    def test_green_board_file(self):
        path = sample('case2.board')
        self.ends(run([command('judge'), path]), 0, GREEN.format(path), '')

    def test_no_duty_and_one_duty(self):
        self.ends(run([command('judge'), sample('case1.board')]), 0,
                  f'{sample("case1.board")} is green: no duty is open.\n')
        path = self.write('a.txt', PEOPLE + 'assign bench by leader\nduty Ada grant bench to Mia 1 2\n')
        self.ends(run([command('judge'), path]), 0,
                  'a is green: in every order that the windows allow, the one duty is permitted when its turn'
                  ' comes.\n')

    def test_a_listing(self):
        ran = run([command('judge'), sample('boards.txt')])
        self.ends(ran, 1, err='')
        verdicts = [line.split(':')[0] for line in ran.stdout.splitlines() if line.startswith('case')]
        self.assertEqual(verdicts,
                         ['case1 is green', 'case2 is green', 'case3 is red', 'case4 is green',
                          'case5 is red',
                                    'case6 is red', 'case6b is green', 'case7 is green', 'case8 is red',
                                    'case9 is green', 'case9b is red', 'case10 is red', 'case11 is red'])

    def test_a_star_for_what_changes_what_is_asked(self):
        path = self.write('a.txt', PEOPLE + 'holds Mia bench\nrevoke bench by leader\n'
                          'assign helper by leader\npermission bench 2 0\n'
                          'duty Ada revoke bench from Ben 1 1\n'
                          'duty Ada grant helper to Mia 2 2\nduty Ada revoke bench from Mia 3 3\n'
                          'duty Ada revoke bench from Mia 4 4\nduty Mia use 2 on 0 5 5\n')
        ran = run([command('judge'), path])
        self.ends(ran, 1, err='')
        marks = [line[:3] for line in ran.stdout.splitlines()[2:7]]
        self.assertEqual(marks, ['  1', '  2', '* 3', '* 4', '  5'])

    def asks(self, lines, said):
        ran = run([command('judge'), self.write('a.txt', PEOPLE + lines)])
        self.ends(ran, 1, err='')
        self.assertEqual(ran.stdout.splitlines()[-1], said)

    def test_asks_for_a_permission(self):
        self.asks('action saw\nobject log\nduty Ada use saw on log 1 2\n',
                  'Duty 1 asks: a permission for saw on log, and the board has none.')

    def test_asks_for_a_rule(self):
        self.asks('duty Ada grant bench to Mia 1 2\n',
                  'Duty 1 asks: an assign rule for bench, and the board has none.')
        self.asks('assign bench by leader\nduty Ada revoke bench from Mia 1 2\n',
                  'Duty 1 asks: a revoke rule for bench, and the board has none.')

    def test_asks_for_holdings(self):
        self.asks('assign bench by helper wants helper leader bars bench\nduty Ada grant bench to Mia 1 2\n',
                  'Duty 1 asks: Ada holds helper; Mia holds leader; Mia holds helper; Mia does not hold'
                  ' bench. No duty above it changes that.')

    def refused(self, data, said):
        path = self.write('a.board', data)
        self.ends(run([command('judge'), path]), 2, f'{path}: refused {said}.\n', '')

    def test_refusals_of_the_header(self):
        good = read(sample('case8.board'))
        self.refused(good[:39], '1: the file has fewer than 40 bytes: it is empty, cut off or no board file')
        self.refused(b'\2' + good[1:], '2: the file does not begin with version 1: it is no board file')
        self.refused(good[:2] + b'\x41' + good[3:], '3: a count or the next serial is outside its range'
                     ' (65 users: 1 to 64 are allowed)')
        self.refused(good[:16] + bytes(4) + good[20:], '3: a count or the next serial is outside its range'
                     ' (the next serial is 0)')
        parts = ('4: the parts or the length are not as the header says: the file is cut off or has something'
                 ' added')
        self.refused(good[:20] + b'\x29' + good[21:], parts)
        self.refused(good + b'\n', parts + ' (it has 147 bytes, its header says 146)')

    def test_refusals_of_a_record(self):
        out = '5: a number in a record is outside its range'
        permission, rule, duty = (0, 2, 0), (0, 0, 0, 0, 0, 0), (1, 0, 2, 0, 0, 5, 6)
        for records, said in (
                (([4], [], [], []), f'{out} (the holding of user 0)'),
                (([0], [permission, (2, 3, 0)], [], []), f'{out} (permission 2 of 2)'),
                (([0], [(0, 1, 0)], [], []), f'{out} (permission 1 of 1)'),
                (([0], [], [rule, (0, 0, 1, 1, 0, 0)], []), f'{out} (rule 2 of 2)'),
                (([0], [], [(0, 0, 0, 0, 4, 0)], []), f'{out} (rule 1 of 1)'),
                (([0], [], [], [(1, 1, 2, 0, 0, 5, 6)]), f'{out} (duty 1 of 1)'),
                (([0], [], [], [(1, 0, 0, 0, 2, 5, 6)]), f'{out} (duty 1 of 1)'),
                (([0], [], [], [(1, 0, 2, 0, 1, 5, 6)]), f'{out} (duty 1 of 1)'),
                (([0], [], [], [(9, 0, 2, 0, 0, 5, 6)]), f'{out} (duty 1 of 1)'),
                (([0], [permission, permission], [], []),
                 '6: a record is not above the one before it (permission 2 of 2)'),
                (([0], [], [(1, 0, 0, 0, 0, 0), rule], []),
                 '6: a record is not above the one before it (rule 2 of 2)'),
                (([0], [], [], [duty, duty]), '6: a record is not above the one before it (duty 2 of 2)'),
                (([0], [], [], [duty, (3, 0, 2, 0, 0, 6, 5)]),
                 '7: a window starts after its end (duty 2 of 2, serial 3)')):
            self.refused(pack(1, 2, 0, 9, *records), said)

    def test_a_slip(self):
        path = self.write('a.txt', PEOPLE + 'duty Ada grant bench to Mia 540\n')
        self.ends(run([command('judge'), path]), 2, '', f'{path}:4: duty: the end of the window is missing\n')

    def test_nothing_is_written(self):
        path = self.write('a.txt', PEOPLE)
        self.ends(run([command('judge'), path]), 0)
        self.assertEqual(os.listdir(self.folder), ['a.txt'])

    def test_no_such_file(self):
        for name in ('a.txt', 'a.board'):
            path = self.path(name)
            self.ends(run([command('judge'), path]), 2, '', f'judge: {path}: No such file or directory\n')

    def test_a_full_disk(self):
        for name in ('saturday.txt', 'saturday-mended.txt', 'case8.board'):
            with open('/dev/full', 'w') as full:
                ran = run([command('judge'), sample(name)], stdout=full)
            self.ends(ran, 2, err='judge: cannot write standard output: No space left on device\n')

    def test_a_tick_that_fails(self):
        for name in ('bin', 'words'):
            subprocess.run(['cp', '-r', os.path.join(ROOT, name), self.folder], check=True)
        for line in ('exit 2', 'echo maybe 2', 'true'):
            self.write('bin/tick', f'#!/bin/sh\n{line}\n')
            self.ends(run([self.path('bin', 'judge'), sample('saturday.txt')]), 2, '',
                      'judge: tick gave no verdict\n')

    def test_the_verdict_is_that_of_tick(self):
        for name in ('bin', 'words'):
            subprocess.run(['cp', '-r', os.path.join(ROOT, name), self.folder], check=True)
        self.write('bin/tick', '#!/bin/sh\ncat >/dev/null\necho yes 2\n')
        self.ends(run([self.path('bin', 'judge'), sample('saturday.txt')]), 0, GREEN.format('saturday'), '')
        self.write('bin/tick', '#!/bin/sh\ncat >/dev/null\necho no 1 2\n')
        self.ends(run([self.path('bin', 'judge'), sample('saturday-mended.txt')]), 1, err='')

    def test_from_any_folder_through_a_link(self):
        os.symlink(command('judge'), self.path('ask'))
        ran = run(['./ask', os.path.relpath(sample('saturday.txt'), self.folder)], cwd=self.folder,
                  env={**os.environ, 'CDPATH': f'{ROOT}:/'})
        self.ends(ran, 1, SATURDAY.format('saturday'), '')

    def test_options_that_do_not_fit(self):
        self.ends(run([command('judge'), sample('saturday.txt'), '--names', sample('saturday.txt')]), 2, '')
        self.ends(run([command('judge')]), 2, '')

    def test_help(self):
        self.assertIn('Exit status', run([command('judge'), '--help']).stdout)


class Tick(FolderTest):

    def test_yes(self):
        self.ends(run([command('tick'), sample('case2.board')]), 0, 'yes 2\n', '')

    def test_no(self):
        self.ends(run([command('tick'), sample('case8.board')]), 1, 'no 3 2 1 3\n', '')

    def test_refused(self):
        self.ends(run([command('tick'), self.write('a', b'')]), 2, 'refused 1\n', '')

    def test_standard_input(self):
        for name, status, line in (('case2', 0, 'yes 2\n'), ('case8', 1, 'no 3 2 1 3\n')):
            with open(sample(name + '.board'), 'rb') as board:
                self.ends(run([command('tick')], stdin=board), status, line, '')
        ran = run([command('tick')], input=read(sample('case8.board')), text=False)
        self.ends(ran, 1, b'no 3 2 1 3\n', b'')

    def test_standard_input_goes_on_where_it_stands(self):
        path = self.write('a', b'xyz' + read(sample('case8.board')))
        with open(path, 'rb', buffering=0) as board:
            board.read(3)
            self.ends(run([command('tick')], stdin=board), 1, 'no 3 2 1 3\n', '')

    def test_several(self):
        bad = self.write('bad', b'x')
        two, eight = sample('case2.board'), sample('case8.board')
        self.ends(run([command('tick'), two, two]), 0, f'{two}: yes 2\n' * 2, '')
        self.ends(run([command('tick'), eight, two]), 1, f'{eight}: no 3 2 1 3\n{two}: yes 2\n', '')
        self.ends(run([command('tick'), bad, eight]), 2, f'{bad}: refused 1\n{eight}: no 3 2 1 3\n', '')

    def test_a_missing_one_among_several(self):
        two, gone = sample('case2.board'), self.path('gone')
        self.ends(run([command('tick'), gone, two]), 2, f'{two}: yes 2\n', f'tick: {gone} is not there\n')

    def test_a_name_with_spaces(self):
        path = self.write('my board', read(sample('case2.board')))
        self.ends(run([command('tick'), path]), 0, 'yes 2\n', '')

    def test_a_folder(self):
        self.ends(run([command('tick'), self.folder]), 2, '', f'tick: {self.folder} is a folder\n')

    def test_a_folder_as_standard_input(self):
        folder = os.open(self.folder, os.O_RDONLY)
        self.addCleanup(os.close, folder)
        self.ends(run([command('tick')], stdin=folder), 2, '', 'tick: standard input is a folder\n')

    def test_closed_standard_input(self):
        self.ends(run(['sh', '-c', 'exec "$0" <&-', command('tick')]), 2, '',
                  'tick: standard input is not there\n')

    def test_an_unreadable_file(self):
        path = self.write('a', read(sample('case2.board')), 0o000)
        os.chmod(self.folder, 0o755)
        nobody = ['setpriv', '--reuid=65534', '--regid=65534', '--clear-groups'] if os.geteuid() == 0 else []
        self.ends(run([*nobody, 'sh', self.readable_tick(), path]), 2, '', f'tick: {path} cannot be read\n')

    def readable_tick(self):
        """A copy of tick where any user can read it."""
        return self.write('tick', read(command('tick')), 0o755)

    def test_a_full_disk(self):
        with open('/dev/full', 'w') as full:
            for name, line in (('case2', 'yes 2'), ('case8', 'no 3 2 1 3')):
                ran = run([command('tick'), sample(name + '.board')], stdout=full)
                self.ends(ran, 2, err=f'tick: cannot write the line: {line}\n')

    def test_closed_standard_output(self):
        self.ends(run(['sh', '-c', 'exec "$0" "$1" >&-', command('tick'), sample('case2.board')]), 2,
                  err='tick: cannot write the line: yes 2\n')

    def test_a_terminal(self):
        terminal, other = pty.openpty()
        self.addCleanup(os.close, terminal)
        self.addCleanup(os.close, other)
        ran = run([command('tick')], stdin=other, timeout=20)
        self.ends(ran, 2, '')
        self.assertTrue(ran.stderr.startswith('usage: tick [FILE..]\n'))

    def test_help(self):
        ran = run([command('tick'), '--help'])
        self.ends(ran, 0, err='')
        self.assertTrue(ran.stdout.startswith('usage: tick [FILE..]\n'))

    def test_an_unknown_option(self):
        ran = run([command('tick'), '--quick'])
        self.ends(ran, 2, '')
        self.assertTrue(ran.stderr.startswith('tick: no such option: --quick\n'))

    def test_from_any_folder(self):
        self.write('a.board', read(sample('case8.board')))
        relative = os.path.relpath(command('tick'), self.folder)
        for words in ([relative, 'a.board'], ['sh', relative, 'a.board']):
            self.ends(run(words, cwd=self.folder), 1, 'no 3 2 1 3\n', '')
        for words in (['sh', 'tick', sample('case8.board')], ['./tick', sample('case8.board')]):
            self.ends(run(words, cwd=os.path.join(ROOT, 'bin')), 1, 'no 3 2 1 3\n', '')

    def test_from_the_path(self):
        path = os.path.join(ROOT, 'bin') + ':' + os.environ['PATH']
        self.ends(run(['tick', sample('case8.board')], env={**os.environ, 'PATH': path}), 1, 'no 3 2 1 3\n',
                  '')

    def test_through_links(self):
        os.symlink(command('tick'), self.path('one'))
        os.symlink('one', self.path('two'))
        os.symlink(ROOT, self.path('root'))
        for path in ('one', 'two', 'root/bin/tick'):
            self.ends(run(['./' + path, sample('case8.board')], cwd=self.folder), 1, 'no 3 2 1 3\n', '')

    def test_with_cdpath(self):
        os.mkdir(self.path('bin'))
        self.ends(run(['bin/tick', 'samples/case8.board'], cwd=ROOT,
                      env={**os.environ, 'CDPATH': self.folder}), 1,
                  'no 3 2 1 3\n', '')
