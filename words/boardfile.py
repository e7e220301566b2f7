"""A board file read back, and the first thing that is wrong with it, in the order of document 01."""
from .board import (ACTIONS, Board, DUTIES, DUTY, Duty, FIRST_USE, HEADER, HOLDING, OBJECTS, PERMISSION,
                    PERMISSIONS, Permission, ROLES, RULE, RULES, Rule, USERS, offsets)

MEANING = {
    1: 'the file has fewer than 40 bytes: it is empty, cut off or no board file',
    2: 'the file does not begin with version 1: it is no board file',
    3: 'a count or the next serial is outside its range',
    4: 'the parts or the length are not as the header says: the file is cut off or has something added',
    5: 'a number in a record is outside its range',
    6: 'a record is not above the one before it',
    7: 'a window starts after its end',
}


class BadFile(Exception):
    """No board file: the answer number, and where the fault is, in words (or '')."""

    def __init__(self, number, place=''):
        super().__init__(number, place)
        self.number = number
        self.place = place

    def __str__(self):
        return MEANING[self.number] + (f' ({self.place})' if self.place else '')


def from_bytes(data):
    """The board that a board file says. Raises BadFile with the first fault."""
    header = checked_header(data)
    users, roles, next_serial = header[1], header[2], header[7]
    at = header[8:]
    holdings = [bits for (bits,) in HOLDING.iter_unpack(data[at[0]:at[1]])]
    permissions = [Permission(*fields) for fields in PERMISSION.iter_unpack(data[at[1]:at[2]])]
    rules = [Rule(*fields) for fields in RULE.iter_unpack(data[at[2]:at[3]])]
    duties = [Duty(*fields) for fields in DUTY.iter_unpack(data[at[3]:at[4]])]
    for user, bits in enumerate(holdings):
        if bits >> roles:
            raise BadFile(5, f'the holding of user {user}')
    check_part('permission', permissions, lambda permission: permission_fits(permission, roles))
    check_part('rule', rules, lambda rule: rule_fits(rule, roles))
    check_part('duty', duties, lambda duty: duty_fits(duty, users, roles, next_serial))
    return Board(users, roles, header[6], next_serial, holdings, permissions, rules, duties)


def checked_header(data):
    """The fields of the header: answers 1 to 4."""
    if len(data) < HEADER.size:
        raise BadFile(1)
    header = HEADER.unpack_from(data)
    version, users, roles, permissions, rules, duties, _, next_serial = header[:8]
    if version != 1:
        raise BadFile(2)
    for name, number, low, high in (('users', users, 1, USERS), ('roles', roles, 1, ROLES),
                                    ('permissions', permissions, 0, PERMISSIONS), ('rules', rules, 0, RULES),
                                    ('duties', duties, 0, DUTIES)):
        if not low <= number <= high:
            raise BadFile(3, f'{number} {name}: {low} to {high} are allowed')
    if next_serial == 0:
        raise BadFile(3, 'the next serial is 0')
    if list(header[8:]) != offsets(users, permissions, rules, duties):
        raise BadFile(4)
    if header[12] != len(data):
        raise BadFile(4, f'it has {len(data)} bytes, its header says {header[12]}')
    return header


def check_part(name, records, fits):
    """The first faulty record of a part: 5 is tried, then 7, then 6."""
    for place, record in enumerate(records):
        where = f'{name} {place + 1} of {len(records)}'
        if not fits(record):
            raise BadFile(5, where)
        if isinstance(record, Duty) and record.start > record.end:
            raise BadFile(7, f'{where}, serial {record.serial}')
        if place and record.key() <= records[place - 1].key():
            raise BadFile(6, where)


def permission_fits(permission, roles):
    return (permission.role < roles and FIRST_USE <= permission.action < ACTIONS
            and permission.object < OBJECTS)


def rule_fits(rule, roles):
    return (rule.kind < 2 and rule.actor < roles and rule.role < roles and rule.spare == 0
            and rule.wanted >> roles == 0 and rule.barred >> roles == 0)


def duty_fits(duty, users, roles, next_serial):
    if not 0 < duty.serial < next_serial or duty.doer >= users:
        return False
    if duty.action < FIRST_USE:
        return duty.first < users and duty.second < roles
    return duty.action < ACTIONS and duty.first < OBJECTS and duty.second == 0
