#!/usr/bin/env python3
"""replay_stored.py: makes the stored runs of `replay` and `carry`, stdin and stdout, from their calls.txt.

stdout is not what the program wrote: it comes from the model of live_model.py, which shares nothing with the
programs. The model has to find each failing order to be the only one, else this stops, but for those of walk,
which are fixed by definition; so every line is settled. The answers that are met are listed at the end. Needs
Python 3 alone."""
import os
import sys

import live_model as model

HERE = os.path.dirname(os.path.abspath(__file__))
sys.path.insert(0, os.path.join(HERE, '..', 'samples'))
import replay  # noqa: E402


def store(name, written):
    """Makes a program's stdin from its calls, and stdout as what is to be written for it."""
    crate = os.path.join(HERE, '..', 'crates', name)
    whole = replay.replay_input(os.path.join(crate, 'calls.txt'))
    assert len(whole) <= 65536
    for file, content in (('stdin', whole), ('stdout', written(whole))):
        with open(os.path.join(crate, file), 'wb') as out:
            out.write(content)


def lines(whole):
    """What replay is to print."""
    settled = [line.settled() for line in model.replayed(whole)]
    met = sorted({int(line.split()[0]) for line in settled if line[0].isdigit()})
    print('%d lines; answers met by calls: %s' % (len(settled), ' '.join(str(number) for number in met)))
    return ''.join(line + '\n' for line in settled).encode()


def file_after(whole):
    """What carry is to write."""
    file, refused = model.carried(whole)
    assert not refused, refused
    print('a board file of %d bytes' % len(file))
    return file


store('replay', lines)
store('carry', file_after)
