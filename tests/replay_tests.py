"""The command replay: a session of document 01, and what cannot be read."""
import subprocess
import sys

from support import FolderTest, command, read, run, sample

FIELDS = ('kind', 'lent', 'doer', 'action', 'first', 'second', 'start', 'end', 'clock', 'serial', 'extra')

# Document 01's board 12, line by line.
CASE_12 = '''open 0 0
14 0 0
13 0 0
0 0 0
12 0 0
8 0 1 2
13 0 0
10 0 0
0 0 0
board 2 2 1 2 0 20 3
holds 1 2
list ok
'''


# Lines that a listing may not have, after `file case2.board`, and what is said of them.
SLIPS = {
    'do Raj at 5': 'do: Raj is to be a number',
    'do 1': 'do: expected N at N, N a number',
    'remove 1 at 5': 'remove: remove is to be one of: admit act do withdraw check save walk',
    'act 0 grant 2 from 3 at 1': 'act: from is to be to',
    'act 0 revoke 2 to 3 at 1': 'act: to is to be from',
    'admit 0 use 2 on 0 1 at 3': 'admit: expected N N N at N, N a number',
    'save all': 'save: all is to be a number',
    'check now': 'check: expected nothing more, N a number',
    'do 1 at 4294967296': 'do: 4294967296 is too large',
    'check lnt=3': f'check: lnt is to be one of: {" ".join(FIELDS)}',
}


class Replay(FolderTest):

    def made(self, lines):
        listing = self.write('a.calls', lines)
        return run([sys.executable, sample('replay.py'), listing]), listing

    def test_calls_in_words(self):
        ran = subprocess.run([sys.executable, sample('replay.py'), sample('case12.calls')], check=False,
                             stdout=subprocess.PIPE)
        self.assertEqual(ran.stdout, read(sample('case12.replay')))

    def test_slips_of_calls_in_words(self):
        for line, said in SLIPS.items():
            ran, listing = self.made(f'file {sample("case2.board")}\n{line}\n')
            self.ends(ran, 1, '', f'{listing}:2: {said}\n')

    def test_a_listing_begins_with_its_board(self):
        ran, listing = self.made('do 1 at 5\n')
        self.ends(ran, 1, '', f'{listing}:1: do: the first line is to be: file PATH\n')

    def test_a_named_file(self):
        self.ends(run([command('replay'), sample('case12.replay')]), 0, CASE_12, '')

    def test_standard_input(self):
        with open(sample('case12.replay'), 'rb') as session:
            self.ends(run([command('replay')], stdin=session), 0, CASE_12, '')

    def test_nothing_to_open(self):
        self.ends(run([command('replay')], stdin=subprocess.DEVNULL), 0,
                  'open 1 0\nboard 1 1 0 0 0 0 1\nholds 0\nlist ok\n', '')

    def test_what_cannot_be_read(self):
        none = self.path('none')
        self.ends(run([command('replay'), none]), 2, '', f'replay: {none} is not there\n')
        self.ends(run([command('replay'), self.folder]), 2, '', f'replay: {self.folder} is a folder\n')

    def test_usage(self):
        self.assertEqual(run([command('replay'), '--help']).returncode, 0)
        self.assertEqual(run([command('replay'), '--other']).returncode, 2)
        self.assertEqual(run([command('replay'), 'a', 'b']).returncode, 2)
