"""A board as data, with the numbers of document 01 and the layout of a board file."""
import struct
from typing import List, NamedTuple

USERS = 64
ROLES = 32
FIRST_USE = 2
ACTIONS = 64
OBJECTS = 256
PERMISSIONS = 512
RULES = 64
DUTIES = 128
LAST_MINUTE = 4294967295
LAST_SERIAL = 4294967294
LAST_NEXT_SERIAL = 4294967295

GRANT, REVOKE = 0, 1

HEADER = struct.Struct('<6H7I')
HOLDING = struct.Struct('<I')
PERMISSION = struct.Struct('<3H')
RULE = struct.Struct('<4H2I')
DUTY = struct.Struct('<I4H2I')


class Permission(NamedTuple):
    """Who holds the role may use the action on the object."""
    role: int
    action: int
    object: int

    def key(self):
        return self.action, self.object


class Rule(NamedTuple):
    """An assign rule (kind 0) or a revoke rule (kind 1) for the role; wanted and barred are sets as bits."""
    kind: int
    actor: int
    role: int
    spare: int
    wanted: int
    barred: int

    def key(self):
        return self.kind, self.role


class Duty(NamedTuple):
    """For a grant and a revoke first is the target and second the role; for a use first is the object."""
    serial: int
    doer: int
    action: int
    first: int
    second: int
    start: int
    end: int

    def key(self):
        return self.serial


class Board(NamedTuple):
    users: int
    roles: int
    clock: int
    next_serial: int
    holdings: List[int]
    permissions: List[Permission]
    rules: List[Rule]
    duties: List[Duty]


def roles_in(bits):
    """The roles of a set, rising."""
    return [role for role in range(ROLES) if bits >> role & 1]


def set_of(roles):
    """The set that holds these roles."""
    return sum(1 << role for role in set(roles))


def offsets(users, permissions, rules, duties):
    """Where the parts begin, and the total length."""
    places = [HEADER.size]
    for count, record in ((users, HOLDING), (permissions, PERMISSION), (rules, RULE), (duties, DUTY)):
        places.append(places[-1] + count * record.size)
    return places


def to_bytes(board):
    """The board file of a board."""
    counts = (board.users, len(board.permissions), len(board.rules), len(board.duties))
    header = HEADER.pack(1, board.users, board.roles, *counts[1:], board.clock, board.next_serial,
                         *offsets(*counts))
    return b''.join([header,
                     *(HOLDING.pack(holding) for holding in board.holdings),
                     *(PERMISSION.pack(*permission) for permission in board.permissions),
                     *(RULE.pack(*rule) for rule in board.rules),
                     *(DUTY.pack(*duty) for duty in board.duties)])
