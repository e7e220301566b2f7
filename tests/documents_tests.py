"""What the documents show is what the commands print."""
import os
import re
import textwrap

from support import FolderTest, ROOT, command, read, run, sample, sample_boards
from words_tests import SLIPS

README = read(os.path.join(ROOT, 'README.md')).decode()
BOARDS = read(os.path.join(ROOT, 'docs', 'BOARDS.md')).decode()


class Documents(FolderTest):

    def test_the_saturday_of_the_readme(self):
        shown = run([command('judge'), sample('saturday.txt')]).stdout
        indented = ''.join(f'    {line}'.rstrip() + '\n' for line in shown.splitlines())
        self.assertIn(f':\n\n{indented}\n', README)

    def test_the_board_of_the_readme(self):
        lines = textwrap.dedent(README.split('`bin/judge mine.txt`:\n\n')[1].split('\n\n')[0])
        self.assertEqual(lines.count('\n') + 1, 10)
        ran = run([command('judge'), self.write('mine.txt', lines)])
        self.ends(ran, 0, err='')
        self.assertIn('mine is green', ran.stdout)

    def test_the_table_of_samples(self):
        rows = re.findall(r'^\| (\S+)\.board\S* .*\| `([^`]+)` \|$', read(sample('README.md')).decode(), re.M)
        self.assertEqual(sorted(name + '.board' for name, _ in rows), sample_boards())
        for name, answer in rows:
            self.assertEqual(run([command('tick'), sample(name + '.board')]).stdout, answer + '\n', name)

    def test_every_slip_is_in_the_table_of_refusals(self):
        cells = re.findall(r'^\| ([^|]+) \|', BOARDS.split('## What is refused')[1], re.M)
        patterns = [pattern_of(cell) for cell in cells]
        for name, (_, _, said) in SLIPS.items():
            self.assertTrue(any(pattern.search(said) for pattern in patterns), f'{name}: {said}')


def pattern_of(cell):
    """A sentence of the table as a pattern: the capitals X, Y, Z, N and M stand for anything."""
    return re.compile(re.sub(r'\b[XYZNM]\b', '.+', re.escape(cell)))
