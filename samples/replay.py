#!/usr/bin/env python3
"""replay.py LISTING > INPUT: makes an input of `replay` from a board file and calls in words. Needs Python 3.

The lines of a listing, in turn:
    file PATH                                        the board file, from the listing's folder; first of all
    admit DOER WHAT START END at CLOCK               WHAT is: grant ROLE to USER, revoke ROLE from USER,
    act DOER WHAT at CLOCK                           or use ACTION on OBJECT
    do SERIAL at CLOCK
    withdraw SERIAL at CLOCK
    check
    save LENGTH                                      into a lent buffer of this length
    walk
    poke users|roles|permissions|rules|duties|clock|next VALUE
    poke holding|permission|wanted|start|end|serial|doer PLACE VALUE
    broken .. back OLD                               a poke, each of the seven calls, and a poke back to OLD
    kind NUMBER                                      a record of another kind
    bytes COUNT                                      so many zeros, for an incomplete last record
At the end of a line FIELD=NUMBER sets a field of the record otherwise; lent is 128 where it is not set.
`times N` before a line repeats it, and a number A+Bk in it grows by B each time. `#` starts a comment.
People, roles, actions and objects are numbers, times are minutes. A line that does not read so is refused."""
import os
import re
import struct
import sys

FIELDS = ('kind', 'lent', 'doer', 'action', 'first', 'second', 'start', 'end', 'clock', 'serial', 'extra')
KINDS = ('admit', 'act', 'do', 'withdraw', 'check', 'save', 'walk')
POKE = 9
COUNTS = ('users', 'roles', 'permissions', 'rules', 'duties', 'clock', 'next')
PLACES = ('holding', 'permission', 'wanted', 'start', 'end', 'serial', 'doer')
EACH_CALL = ('admit 0 use 2 on 0 0 0 at 0 lent=0', 'act 0 use 2 on 0 at 0 lent=0', 'do 0 at 0',
             'withdraw 0 at 0 lent=0', 'check lent=0', 'save 0', 'walk lent=0')


class Slip(Exception):
    """A line that does not read as a listing's lines do."""


def number(word):
    if not word.isdigit():
        raise Slip(f'{word} is to be a number')
    return int(word)


def place_in(word, words):
    if word not in words:
        raise Slip(f'{word} is to be one of: {" ".join(words)}')
    return words.index(word)


def expect(words, shape):
    """The numbers of the words, which read as the shape does: a word as it stands, N for a number."""
    wanted = shape.split()
    if len(words) != len(wanted):
        raise Slip(f'expected {shape or "nothing more"}, N a number')
    for word, want in zip(words, wanted):
        if want != 'N' and word != want:
            raise Slip(f'{word} is to be {want}')
    return [number(word) for word, want in zip(words, wanted) if want == 'N']


def doing(words):
    """The fields of what is to be done, by four words."""
    shapes = {'grant': 'grant N to N', 'revoke': 'revoke N from N', 'use': 'use N on N'}
    place_in(words[0] if words else 'nothing', list(shapes))
    thing, other = expect(words, shapes[words[0]])
    if words[0] == 'use':
        return dict(action=thing, first=other, second=0)
    return dict(action=0 if words[0] == 'grant' else 1, first=other, second=thing)


def poke(words):
    if words and words[0] in COUNTS:
        return dict(kind=POKE, first=COUNTS.index(words[0]), extra=expect(words, f'{words[0]} N')[0])
    which = place_in(words[0] if words else 'nothing', COUNTS + PLACES) - len(COUNTS)
    second, extra = expect(words, f'{words[0]} N N')
    return dict(kind=POKE, first=7 + which, second=second, extra=extra)


def fields_of(words):
    """The fields of a call in words."""
    call, rest = words[0], words[1:]
    if call == 'poke':
        return poke(rest)
    if call == 'kind':
        return dict(kind=expect(rest, 'N')[0])
    if call == 'save':
        return dict(kind=KINDS.index(call), extra=expect(rest, 'N')[0])
    fields = dict(kind=place_in(call, KINDS), lent=128)
    if call == 'admit':
        doer, start, end, clock = expect(rest[:1] + rest[5:], 'N N N at N')
        fields.update(doing(rest[1:5]), doer=doer, start=start, end=end, clock=clock)
    elif call == 'act':
        doer, clock = expect(rest[:1] + rest[5:], 'N at N')
        fields.update(doing(rest[1:5]), doer=doer, clock=clock)
    elif call in ('check', 'walk'):
        expect(rest, '')
    else:
        fields.update(zip(('serial', 'clock'), expect(rest, 'N at N')))
    return fields


def record(words):
    """The 32 bytes of a call in words."""
    fields = fields_of([word for word in words if '=' not in word])
    for name, value in (word.split('=') for word in words if '=' in word):
        fields[FIELDS[place_in(name, FIELDS)]] = number(value)
    widths = dict.fromkeys(FIELDS[:6], 16)
    for name, value in fields.items():
        if value >> widths.get(name, 32):
            raise Slip(f'{value} is too large')
    return struct.pack('<6H5I', *(fields.get(name, 0) for name in FIELDS))


def turn(word, k):
    """A number A+Bk, at its k-th turn."""
    return re.sub(r'(\d+)\+(\d+)k$', lambda m: str(int(m.group(1)) + int(m.group(2)) * k), word)


def records(words):
    """The bytes of a line."""
    if words[0] == 'times':
        return b''.join(records([turn(word, k) for word in words[2:]]) for k in range(number(words[1])))
    if words[0] == 'bytes':
        return bytes(expect(words, 'bytes N')[0])
    if words[0] == 'broken':
        there, back = ['poke'] + words[1:-2], ['poke'] + words[1:-3] + words[-1:]
        return b''.join(record(call) for call in [there] + [call.split() for call in EACH_CALL] + [back])
    return record(words)


def board_file(words, folder):
    """The board file that the first line names, with its length before it."""
    if words[0] != 'file' or len(words) != 2:
        raise Slip('the first line is to be: file PATH')
    with open(os.path.join(folder, words[1]), 'rb') as file:
        board = file.read()
    return struct.pack('<I', len(board)) + board


def replay_input(path):
    """The input that a listing says."""
    whole = b''
    with open(path) as listing:
        for count, line in enumerate(listing, 1):
            words = line.split('#')[0].split()
            try:
                if words:
                    whole += records(words) if whole else board_file(words, os.path.dirname(path))
            except (Slip, OSError) as slip:
                raise SystemExit(f'{path}:{count}: {words[0]}: {slip}') from None
    return whole


if __name__ == '__main__':
    if len(sys.argv) != 2:
        raise SystemExit(__doc__)
    sys.stdout.buffer.write(replay_input(sys.argv[1]))
