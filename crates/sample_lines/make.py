#!/usr/bin/env python3
"""make.py: writes what sample_lines and tick are run on, and what they have to print. Needs Python 3 alone.

The lines are not taken from a run. Each stands below beside the input that it is for, with the reason: the
marked cases and the numbers of document 01, or the way the input is made. Where a board is red it has one
failing order only, or it is a marked case, whose order document 01 prints, or the note beside it says why the
order is a true one.

sample_lines reads each input with its length before it, in 4 bytes, and prints a line for each."""
import os
import struct

HERE = os.path.dirname(os.path.abspath(__file__))
SAMPLES = os.path.join(HERE, '..', '..', 'samples')
TICK = os.path.join(HERE, '..', 'tick')

# The sample boards. caseN is case N of document 01 (6b and 9b are the second boards of cases 6 and 9); it
# prints the verdict and the order, and the number of duties is counted there. On the Saturday, 1 is Mia's
# use of the bench role and 2 takes that role from her inside her window: in the order 1 2 both are
# permitted, in 2 1 the use is not. Mended, 2 starts after the end of 1, so 1 2 is the only order. On the
# open day 6 needs a role that 7 takes away, and the two share a minute, so 7 may come first, once 1 to 5 are
# done, which are wholly before it; each of these is permitted. It is one of several failing orders: the one
# that the verdict tells. So it is at the bench: 2 needs a role that 5 takes away, and the two share five
# minutes, so 5 may come first, once 1 and 3 are done.
SAMPLE_LINES = {
    'case1': 'yes 0', 'case2': 'yes 2', 'case3': 'no 1 2', 'case4': 'yes 2', 'case5': 'no 2 1 2',
    'case6': 'no 2 2 1', 'case6b': 'yes 2', 'case7': 'yes 3', 'case8': 'no 3 2 1 3', 'case9': 'yes 2',
    'case9b': 'no 1 2', 'case10': 'no 1 1', 'case11': 'no 2 1 2',
    'saturday': 'no 2 2 1', 'saturday-mended': 'yes 2',
    'open-day': 'no 7 1 2 3 4 5 7 6', 'open-day-mended': 'yes 15', 'turns': 'no 4 1 3 5 2',
}

GRANT = 0
ASSIGN_RULE, REVOKE_RULE = 0, 1
LAST_SERIAL = 4294967294


def board(holdings, roles, permissions, rules, duties, clock=0, next_serial=None, version=1):
    """A board file by document 01's layout: tuples of fields in file order. It need not be a good one."""
    if next_serial is None:
        next_serial = duties[-1][0] + 1 if duties else 1
    parts = [b''.join(struct.pack('<I', holding) for holding in holdings),
             b''.join(struct.pack('<3H', *permission) for permission in permissions),
             b''.join(struct.pack('<4H2I', *rule) for rule in rules),
             b''.join(struct.pack('<I4H2I', *duty) for duty in duties)]
    offsets = [40]
    for part in parts:
        offsets.append(offsets[-1] + len(part))
    header = struct.pack('<6H7I', version, len(holdings), roles, len(permissions), len(rules), len(duties),
                         clock, next_serial, *offsets)
    return header + b''.join(parts)


def small(holdings=(1, 2), roles=2, permissions=((1, 2, 0), (1, 3, 5)),
          rules=((ASSIGN_RULE, 0, 1, 0, 0, 0), (REVOKE_RULE, 0, 1, 0, 0, 0)),
          duties=((1, 1, 2, 0, 0, 5, 9), (2, 1, 3, 5, 0, 5, 9)), **header):
    """A green board unless something is changed: user 0 holds role 0, user 1 holds role 1 and is to use it
    twice, where the two permissions allow it; nobody grants or revokes."""
    return board(holdings, roles, permissions, rules, duties, **header)


def with_bytes(data, at, form, *values):
    """The same bytes but for other numbers at a place."""
    changed = bytearray(data)
    struct.pack_into('<' + form, changed, at, *values)
    return bytes(changed)


def full(duties, next_serial=None):
    """Every count at its limit: each user holds each role, there is a permission for each object and the
    actions 2 and 3, and role 0 assigns and revokes each role without condition."""
    return board([0xFFFFFFFF] * 64, 32,
                 [(index % 32, 2 + index // 256, index % 256) for index in range(512)],
                 [(kind, 0, role, 0, 0, 0) for kind in (ASSIGN_RULE, REVOKE_RULE) for role in range(32)],
                 duties, next_serial=next_serial)


# 64 uses that a permission allows and 64 grants of roles that everyone holds: no duty takes a holding away,
# so each is permitted at every point of every order.
FULL_GREEN = full([(serial, serial % 64, 2, serial, 0, serial, 1000) if serial % 2 == 0 else
                   (serial, serial % 64, GRANT, serial % 64, serial % 32, serial, 1000)
                   for serial in range(1, 129)])

# One after the other, so that there is one order only: 127 uses that a permission allows, then one of action
# 4, for which there is no permission. The whole order is the failing one. The serials are the largest ones.
CHAIN = [LAST_SERIAL - 127 + place for place in range(128)]
FULL_RED = full([(serial, 0, 2 if place < 127 else 4, place, 0, place, place)
                 for place, serial in enumerate(CHAIN)])

GOOD = small()
PERMISSIONS_AT, RULES_AT, DUTIES_AT = 48, 60, 92

# name: input, line
EXTRA = {
    # green: the duties are counted, and not the two users, roles, permissions or rules
    'two duties': (small(), 'yes 2'),
    'one duty': (small(duties=[(1, 1, 2, 0, 0, 5, 9)]), 'yes 1'),
    # an empty pool is green: the smallest board, and one with everything but duties
    'smallest board': (board([0], 1, [], [], []), 'yes 0'),
    'no duties': (small(duties=[], clock=4294967295, next_serial=4294967295), 'yes 0'),
    'full and green': (FULL_GREEN, 'yes 128'),

    # red, with one failing order
    'no permission': (small(duties=[(LAST_SERIAL, 1, 4, 0, 0, 0, 0)]), 'no 1 %d' % LAST_SERIAL),
    'second of two in a row': (small(duties=[(7, 1, 2, 0, 0, 1, 2), (9, 0, 2, 0, 0, 3, 4)]), 'no 2 7 9'),
    'full and red': (FULL_RED, 'no 128 ' + ' '.join(str(serial) for serial in CHAIN)),

    # 1: fewer than 40 bytes
    'empty': (b'', 'refused 1'),
    'one byte': (b'\1', 'refused 1'),
    '39 bytes': (GOOD[:39], 'refused 1'),
    # 2: version not 1, tried before the counts
    'version 0': (small(version=0), 'refused 2'),
    'version 2, and no users': (small(version=2, holdings=()), 'refused 2'),
    '40 bytes, all zero': (bytes(40), 'refused 2'),
    # 3: a count or the next serial outside its range, tried before the layout
    'no users': (with_bytes(GOOD, 2, 'H', 0), 'refused 3'),
    '65 users': (with_bytes(GOOD, 2, 'H', 65), 'refused 3'),
    'no roles': (with_bytes(GOOD, 4, 'H', 0), 'refused 3'),
    '33 roles': (with_bytes(GOOD, 4, 'H', 33), 'refused 3'),
    '513 permissions': (with_bytes(GOOD, 6, 'H', 513), 'refused 3'),
    '65 rules': (with_bytes(GOOD, 8, 'H', 65), 'refused 3'),
    '129 duties': (with_bytes(GOOD, 10, 'H', 129), 'refused 3'),
    'next serial 0': (with_bytes(GOOD, 16, 'I', 0), 'refused 3'),
    # 4: an offset or the total not as laid out, or total not the length; tried before the records
    'holdings one byte later': (with_bytes(GOOD, 20, 'I', 41), 'refused 4'),
    'permissions one byte later': (with_bytes(GOOD, 24, 'I', PERMISSIONS_AT + 1), 'refused 4'),
    'rules one byte later': (with_bytes(GOOD, 28, 'I', RULES_AT + 1), 'refused 4'),
    'duties one byte later': (with_bytes(GOOD, 32, 'I', DUTIES_AT + 1), 'refused 4'),
    'total one more': (with_bytes(GOOD, 36, 'I', len(GOOD) + 1), 'refused 4'),
    'one byte too few': (GOOD[:-1], 'refused 4'),
    'one byte too many': (GOOD + b'\0', 'refused 4'),
    'full, one byte too few': (FULL_GREEN[:-1], 'refused 4'),
    'full, one byte too many': (FULL_GREEN + b'\0', 'refused 4'),
    'full, two bytes too many': (FULL_GREEN + b'\0\0', 'refused 4'),
    'full, in 20,000 bytes': (FULL_GREEN.ljust(20000, b'\0'), 'refused 4'),
    # the total above 6,952 is 4 as well, since no counts in range give it
    'full, its total said to be 6,953': (with_bytes(FULL_GREEN + b'\0', 36, 'I', 6953), 'refused 4'),
    '20,000 zeros': (bytes(20000), 'refused 2'),
    # 5: a file field outside its range, or spare not zero
    'holding of role 2 of 2': (small(holdings=(1, 6)), 'refused 5'),
    'permission of role 2 of 2': (small(permissions=((2, 2, 0), (1, 3, 5))), 'refused 5'),
    'permission of action 1': (small(permissions=((1, 1, 0), (1, 3, 5))), 'refused 5'),
    'permission of action 64': (small(permissions=((1, 2, 0), (1, 64, 5))), 'refused 5'),
    'permission of object 256': (small(permissions=((1, 2, 0), (1, 3, 256))), 'refused 5'),
    'rule of kind 2': (small(rules=((2, 0, 1, 0, 0, 0),)), 'refused 5'),
    'rule of actor role 2 of 2': (small(rules=((ASSIGN_RULE, 2, 1, 0, 0, 0),)), 'refused 5'),
    'rule for role 2 of 2': (small(rules=((ASSIGN_RULE, 0, 2, 0, 0, 0),)), 'refused 5'),
    'rule with spare 1': (small(rules=((ASSIGN_RULE, 0, 1, 1, 0, 0),)), 'refused 5'),
    'rule that wants role 2 of 2': (small(rules=((ASSIGN_RULE, 0, 1, 0, 4, 0),)), 'refused 5'),
    'rule that bars role 2 of 2': (small(rules=((ASSIGN_RULE, 0, 1, 0, 0, 4),)), 'refused 5'),
    'serial 0': (small(duties=[(0, 1, 2, 0, 0, 5, 9)]), 'refused 5'),
    'serial not below the next': (small(duties=[(3, 1, 2, 0, 0, 5, 9)], next_serial=3), 'refused 5'),
    'doer 2 of 2': (small(duties=[(1, 2, 2, 0, 0, 5, 9)]), 'refused 5'),
    'duty of action 64': (small(duties=[(1, 1, 64, 0, 0, 5, 9)]), 'refused 5'),
    'target 2 of 2': (small(duties=[(1, 0, GRANT, 2, 1, 5, 9)]), 'refused 5'),
    'grant of role 2 of 2': (small(duties=[(1, 0, GRANT, 1, 2, 5, 9)]), 'refused 5'),
    'use of object 256': (small(duties=[(1, 1, 2, 256, 0, 5, 9)]), 'refused 5'),
    'use with second 1': (small(duties=[(1, 1, 2, 0, 1, 5, 9)]), 'refused 5'),
    # 6: a record not above the one before it
    'permissions falling by action': (small(permissions=((1, 3, 5), (1, 2, 9))), 'refused 6'),
    'one permission twice': (small(permissions=((1, 2, 0), (0, 2, 0))), 'refused 6'),
    'one rule twice':
        (small(rules=((ASSIGN_RULE, 0, 1, 0, 0, 0), (ASSIGN_RULE, 1, 1, 0, 0, 0))), 'refused 6'),
    'rules falling by kind':
        (small(rules=((REVOKE_RULE, 0, 0, 0, 0, 0), (ASSIGN_RULE, 0, 1, 0, 0, 0))), 'refused 6'),
    'one serial twice': (small(duties=[(1, 1, 2, 0, 0, 5, 9), (1, 1, 2, 0, 0, 5, 9)]), 'refused 6'),
    # 7: start after end
    'start after end': (small(duties=[(1, 1, 2, 0, 0, 9, 8)]), 'refused 7'),
    # within a record 5 is tried, then 7, then 6; of two faulty records the first in file order counts
    'duty with 5 and 7': (small(duties=[(1, 2, 2, 0, 0, 9, 8)]), 'refused 5'),
    'duty with 7 and 6':
        (small(duties=[(2, 1, 2, 0, 0, 5, 9), (2, 1, 2, 0, 0, 9, 8)], next_serial=3), 'refused 7'),
    'permission with 6, then a duty with 5':
        (small(permissions=((1, 2, 0), (1, 2, 0)), duties=[(1, 2, 2, 0, 0, 5, 9)]), 'refused 6'),
    # a faulty file is no board: the fault counts, and not that the duties could fail
    'start after end, and no permission': (small(duties=[(1, 1, 4, 0, 0, 9, 8)]), 'refused 7'),
}


def sample_inputs():
    """Every sample board with its line; one without a line is an error."""
    for name in sorted(os.listdir(SAMPLES)):
        if name.endswith('.board'):
            with open(os.path.join(SAMPLES, name), 'rb') as sample:
                yield name, sample.read(), SAMPLE_LINES[name[:-len('.board')]]


def write(folder, stdin, stdout):
    with open(os.path.join(folder, 'stdin'), 'wb') as out:
        out.write(stdin)
    with open(os.path.join(folder, 'stdout'), 'w') as out:
        out.write(stdout)


def main():
    inputs = list(sample_inputs()) + [(name, data, line) for name, (data, line) in EXTRA.items()]
    write(HERE, b''.join(struct.pack('<I', len(data)) + data for _, data, _ in inputs),
          ''.join(line + '\n' for _, _, line in inputs))
    write(TICK, FULL_GREEN + b'\0', 'refused 4\n')
    for name, data, line in inputs:
        print('%5d bytes  %-40s %s' % (len(data), name, line if len(line) < 40 else line[:37] + '...'))


main()
