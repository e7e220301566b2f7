#!/usr/bin/env python3
"""replay_random.py [SESSIONS [SEED [PROGRAM]]]: random sessions through the program `replay`, every line
compared with the model of live_model.py; failing orders are checked for truth. 2,000 sessions with seed 1,
and the program as bin/run-program builds and runs it, where left out. Not in the gate."""
import collections
import os
import random
import struct
import subprocess
import sys

import live_model as model

HERE = os.path.dirname(os.path.abspath(__file__))
EDGES = (0, 1, 2, 63, 64, 127, 128, 255, 256, 65535, 65536, 4294967294, 4294967295)


def few(draw, count):
    """A set of few roles."""
    return draw.getrandbits(count) & draw.getrandbits(count) & draw.getrandbits(count)


def window(draw, base):
    start = base + draw.randrange(24)
    return start, start + draw.choice((0, 0, 1, 2, 3, 6))


def doing(draw, users, roles):
    """Action, first and second of something to be done."""
    kind = draw.randrange(8)
    if kind < 6:
        return kind // 3, draw.randrange(users), draw.randrange(roles)
    return draw.choice((2, 2, 63)), draw.choice((0, 0, 255)), 0


def random_file(draw, base):
    """The bytes of a random board: few users and roles, mostly green."""
    users, roles = draw.randint(1, 4), draw.randint(1, 4)
    if draw.random() < 0.05:
        users, roles = draw.choice(((64, 32), (64, 4), (2, 32)))
    holdings = [few(draw, roles) | (1 if u == 0 else 0) for u in range(users)]
    permissions = [(draw.randrange(roles), a, o) for a in (2, 63) for o in (0, 255) if draw.random() < 0.8]
    rules = [(kind, draw.choice((0, 0, 0, draw.randrange(roles))), role, few(draw, roles), few(draw, roles))
             for kind in (0, 1) for role in range(min(roles, 4)) if draw.random() < 0.9]
    duties, serial = [], 0
    for _ in range(draw.choice((0, 0, 1, 2, 3, 4, 5))):
        serial += draw.choice((1, 1, 3))
        duties.append((serial, draw.randrange(users)) + doing(draw, users, roles) + window(draw, base))
    board = model.Board()
    board.users, board.roles, board.permits, board.ruled = users, roles, len(permissions), len(rules)
    board.clock, board.next = base + draw.randrange(4), serial + 1
    if draw.random() < 0.05:
        board.next = draw.choice((4294967293, 4294967294, 4294967295))
    board.holdings[:users] = holdings
    board.permissions[:len(permissions)], board.rules[:len(rules)] = permissions, rules
    while True:
        board.with_pool(duties)
        if not duties or not model.is_red(board) or draw.random() < 0.1:
            break
        duties.pop(draw.randrange(len(duties)))
    return model.file_of(board)


def with_slips(draw, file):
    """Sometimes a file with a few wrong bytes, cut short, or longer."""
    spoilt = bytearray(file)
    if draw.random() < 0.12:
        for _ in range(draw.choice((1, 1, 2))):
            spoilt[draw.randrange(len(spoilt))] = draw.choice((0, 1, 2, 64, draw.randrange(256)))
    if draw.random() < 0.03:
        spoilt = spoilt[:draw.randrange(len(spoilt))]
    if draw.random() < 0.02:
        spoilt += bytes(draw.choice((1, 20, 7000)))
    return bytes(spoilt)


def packed(**fields):
    """A record with these fields, 0 in the others."""
    return struct.pack(model.Record.FORMAT, *(fields.get(name, 0) for name in model.Record.FIELDS))


def old_value(board, first, second):
    """What a poke would set, as it is."""
    if first < 7:
        return (board.users, board.roles, board.permits, board.ruled, board.open,
                board.clock, board.next)[first]
    part, field = ((board.holdings, None), (board.permissions, 0), (board.rules, 3), (board.duties, 5),
                   (board.duties, 6), (board.duties, 0), (board.duties, 1))[first - 7]
    if second >= len(part):
        return 0
    return part[second] if field is None else part[second][field]


def pokes(draw, base, board):
    """A poke; mostly the call after it, and then a poke that sets the number back."""
    first, second = draw.randrange(14), draw.choice((0, 0, 1, 2, 3, 63, 64, 127, 128, 512))
    extra = draw.choice(EDGES + (base + 3, 2, 3, 5, 7, old_value(board, first, second) + 1) * 2) % 4294967296
    yield packed(kind=9, first=first, second=second, extra=extra)
    yield call(draw, base, board) if draw.random() < 0.9 else packed(kind=5, extra=draw.choice((0, 8192)))
    if draw.random() < 0.9:
        yield packed(kind=9, first=first, second=second, extra=old_value(board, first, second))


def walks(draw, board):
    """A poke of a holding, which often makes the board red, a walk, and a poke that sets it back."""
    user = draw.randrange(min(max(board.users, 1), model.USERS))
    roles = few(draw, min(max(board.roles, 1), model.ROLES))
    yield packed(kind=9, first=7, second=user, extra=roles)
    yield packed(kind=6, lent=128)
    yield packed(kind=9, first=7, second=user, extra=board.holdings[user])


def call(draw, base, board):
    """A call that often fits the board, and sometimes is wrong in a field."""
    kind = draw.choice((0,) * 8 + (1,) * 5 + (2,) * 6 + (3,) * 2 + (4,) + (6,) * 2)
    action, first, second = doing(draw, board.users or 1, board.roles or 1)
    start, end = window(draw, draw.choice((base, max(base, board.clock - 2))))
    d = draw.choice(board.pool() or [model.NO_DUTY])
    clock = board.clock + draw.choice((0, 0, 0, 0, 1, 1, 3))
    if kind == 2 and draw.random() < 0.8:
        clock = max(board.clock, d[5])
    fields = dict(kind=kind, lent=draw.choice((128,) * 16 + (0, 127, 129, 200, 256, 1000)),
                  doer=draw.choice((0, draw.randrange(board.users or 1))), action=action, first=first,
                  second=second, start=start, end=end, clock=clock, serial=d[0])
    if draw.random() < 0.15:
        fields[draw.choice(model.Record.FIELDS[2:])] = draw.choice(EDGES)
    return packed(**{name: value % (65536 if name in model.Record.FIELDS[:6] else 4294967296)
                     for name, value in fields.items()})


def turns(draw, base, board):
    """The records of one turn."""
    which = draw.random()
    if which < 0.75:
        return [call(draw, base, board)]
    if which < 0.8:
        return walks(draw, board)
    if which < 0.85:
        return [save(draw, board)]
    if which < 0.98:
        return pokes(draw, base, board)
    return [packed(kind=draw.choice((7, 8, 10, 11, 12, 13, 65535)), first=7, extra=1)]


def save(draw, board):
    """A save into a buffer that is often as long as the file, or about as long."""
    length = len(model.file_of(board))
    return packed(kind=5, extra=draw.choice((length, length, length - 1, length + 1, 8192) + EDGES))


def after(board, record):
    """The live board after a record."""
    return model.after(board, model.Record(*struct.unpack(model.Record.FORMAT, record)))[2]


def session(draw):
    base = draw.choice((0, 0, 250, 65530, 4294967200))
    file = with_slips(draw, random_file(draw, base))
    board, records = model.opened(file, 128)[2], []
    if draw.random() < 0.03:  # the pool is filled to its limit: one minute each, a grant or revoke by user 0
        action = draw.choice((0, 1))
        now = board.clock
        records += [packed(lent=128, action=action, start=now, end=now, clock=now)] * 131
        for record in records:
            board = after(board, record)
    for _ in range(draw.choice((5, 20, 40))):
        for record in turns(draw, base, board):
            records.append(record)
            board = after(board, record)
    length = len(file) if draw.random() < 0.97 else draw.choice((0, 10, len(file) + 5, 4294967295))
    whole = struct.pack('<I', length) + file + b''.join(records)
    return whole if draw.random() < 0.95 else whole[:draw.randrange(len(whole) + 1)]


def main():
    count, seed = (int(word) for word in (sys.argv[1:3] + ['2000', '1'][len(sys.argv[1:3]):]))
    program = sys.argv[3:4] or [os.path.join(HERE, '..', 'bin', 'run-program'), 'replay']
    draw, numbers, openings = random.Random(seed), collections.Counter(), collections.Counter()
    lines = orders = longest = wrong = 0
    for i in range(count):
        whole = session(draw)
        told = subprocess.run(program, input=whole, stdout=subprocess.PIPE, check=True).stdout
        expected, printed = model.replayed(whole), told.decode('ascii').split('\n')
        bad = [(e.words, p) for e, p in zip(expected, printed) if not e.fits(p)]
        if bad or len(printed) != len(expected) + 1 or printed[-1] != '':
            wrong += 1
            print('session %d differs: %s' % (i, bad[:1] or 'number of lines'))
        for line in printed:
            first = line.split(' ')
            lines += 1 if line else 0
            if first[0].isdigit():
                numbers[int(first[0])] += 1
            elif first[0] == 'open':
                openings[int(first[1])] += 1
        orders += sum(e.red is not None for e in expected)
        longest = max([longest] + [int(line.split(' ')[2]) for line in printed if line.startswith('8 ')])
    print('sessions %d, lines %d, failing orders %d (longest %d)' % (count, lines, orders, longest))
    print('openings', ' '.join('%d:%d' % pair for pair in sorted(openings.items())))
    print('answers', ' '.join('%d:%d' % pair for pair in sorted(numbers.items())))
    print('differences %d' % wrong)


main()
