"""The command show: every order of a board, compared with what show_model.py says."""
import math
import random
import subprocess

from show_model import shown
from support import FolderTest, command, pack, random_file, read, run, sample, sample_boards

DRAWN = 40


def overlapping(count):
    """A green board of so many duties whose windows are one."""
    duties = [(serial, 0, 2, 0, 0, 10, 20) for serial in range(1, count + 1)]
    return pack(1, 1, 0, count + 1, [1], [(0, 2, 0)], [], duties)


def lines_of(data):
    """What the command prints for a board file."""
    ran = subprocess.run([command('show')], input=data, stdout=subprocess.PIPE, check=True, timeout=100)
    return ran.stdout.decode().splitlines()


class Show(FolderTest):

    def test_every_sample(self):
        for name in sample_boards():
            with self.subTest(name):
                self.assertEqual(lines_of(read(sample(name))), shown(read(sample(name))))

    def test_a_named_file(self):
        ran = run([command('show'), sample('case8.board')])
        self.ends(ran, 0, '1 2 3 yes\n2 1 3 no\norders 2\nno 3 2 1 3\n', '')

    def test_random_boards(self):
        draws = random.Random(3)
        for _ in range(DRAWN):
            data = random_file(draws)
            self.assertEqual(lines_of(data), shown(data))

    def test_every_order_of_duties_that_overlap(self):
        for count in range(1, 7):
            lines = lines_of(overlapping(count))
            self.assertEqual(lines, shown(overlapping(count)))
            self.assertEqual(lines[-2:], [f'orders {math.factorial(count)}', f'yes {count}'])

    def test_cut_at_5000_lines(self):
        lines = lines_of(overlapping(8))
        self.assertEqual(lines, shown(overlapping(8)))
        self.assertEqual(len(lines), 5003)
        self.assertEqual(lines[5000:], ['cut 35320', 'orders 40320', 'yes 8'])

    def test_more_than_8_duties(self):
        self.assertEqual(lines_of(overlapping(9)), ['refused 22'])

    def test_no_board_file(self):
        self.assertEqual(lines_of(b''), ['refused 1'])

    def test_what_cannot_be_read(self):
        for words, said in (([self.folder], f'{self.folder} is a folder'), (['none'], 'none is not there'),
                            (['a', 'b'], 'one file at a time')):
            self.ends(run([command('show'), *words]), 2, '', f'show: {said}\n')
