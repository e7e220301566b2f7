#!/usr/bin/env python3
"""show_stored.py: makes the stored run of `show`, its stdin and stdout.

stdin is the sample board named here. stdout is not what the program printed: it comes from show_model.py,
which shares nothing with the program. Needs Python 3 alone."""
import os

from show_model import shown

HERE = os.path.dirname(os.path.abspath(__file__))
BOARD = 'turns.board'


def main():
    crate = os.path.join(HERE, '..', 'crates', 'show')
    with open(os.path.join(HERE, '..', 'samples', BOARD), 'rb') as file:
        data = file.read()
    lines = shown(data)
    with open(os.path.join(crate, 'stdin'), 'wb') as out:
        out.write(data)
    with open(os.path.join(crate, 'stdout'), 'w', encoding='ascii') as out:
        out.write('\n'.join(lines) + '\n')
    print('%d lines' % len(lines))


main()
