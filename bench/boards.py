"""The boards that are measured, as numbers and as board files (docs/RULES.md, section 5), and what is needed
of the rules to tell whether a failing order is a true one."""
import copy
import random
import struct

GRANT, REVOKE = 0, 1
USERS, ROLES, PERMISSIONS, RULES, DUTIES = 64, 32, 512, 64, 128


class Duty:
    def __init__(self, doer, action, first, second, start, end, serial=0):
        self.serial, self.doer, self.action, self.first, self.second = serial, doer, action, first, second
        self.start, self.end = start, end

    def packed(self):
        return struct.pack('<IHHHHII', self.serial, self.doer, self.action, self.first, self.second,
                           self.start, self.end)


class Board:
    """Sets as numbers. permissions {(action, object): role}; rules {(kind, role): (actor, wanted,
    barred)}."""

    def __init__(self, users, roles, clock=0):
        self.users, self.roles, self.clock, self.next = users, roles, clock, 1
        self.holdings = [0] * users
        self.permissions, self.rules, self.duties = {}, {}, []

    def add(self, *fields):
        self.duties.append(Duty(*fields, serial=self.next))
        self.next += 1

    def packed(self):
        permissions = b''.join(struct.pack('<HHH', role, *key)
                               for key, role in sorted(self.permissions.items()))
        rules = b''.join(struct.pack('<HHHHII', kind, actor, role, 0, wanted, barred)
                         for (kind, role), (actor, wanted, barred) in sorted(self.rules.items()))
        parts = [struct.pack('<%dI' % self.users, *self.holdings), permissions, rules,
                 b''.join(d.packed() for d in self.duties)]
        offsets = [40]
        for part in parts:
            offsets.append(offsets[-1] + len(part))
        header = struct.pack('<6H7I', 1, self.users, self.roles, len(self.permissions), len(self.rules),
                             len(self.duties), self.clock, self.next, *offsets)
        return header + b''.join(parts)

    @classmethod
    def unpacked(cls, s):
        """The board that a right file says."""
        _, users, roles, permissions, rules, duties, clock, following = struct.unpack_from('<6H2I', s)
        board = cls(users, roles, clock)
        board.next = following
        board.holdings = list(struct.unpack_from('<%dI' % users, s, 40))
        at = 40 + 4 * users
        for role, *key in struct.iter_unpack('<HHH', s[at:at + 6 * permissions]):
            board.permissions[tuple(key)] = role
        at += 6 * permissions
        for kind, actor, role, _, wanted, barred in struct.iter_unpack('<HHHHII', s[at:at + 16 * rules]):
            board.rules[kind, role] = (actor, wanted, barred)
        for serial, *fields in struct.iter_unpack('<IHHHHII', s[at + 16 * rules:]):
            board.duties.append(Duty(*fields, serial=serial))
        return board

    def copy(self):
        return copy.deepcopy(self)

    def without_last(self):
        board = self.copy()
        board.duties.pop()
        return board

    def poke(self, which, place, value):
        """Set one number as the programs do, of a board that is still good after it."""
        place %= {7: USERS, 8: PERMISSIONS, 9: RULES}.get(which, DUTIES)
        if which == 1:
            self.users = value
            self.holdings = (self.holdings + [0] * value)[:value]
        if which == 2:
            self.roles = value
        if which == 4 and value == 1 and not self.rules:
            self.rules[GRANT, 0] = (0, 0, 0)
        if which == 6:
            self.next = value
        if which == 7 and place < self.users:
            self.holdings[place] = value
        if which == 8 and place < len(self.permissions):
            action, thing = sorted(self.permissions)[place]
            self.permissions[action, value] = self.permissions.pop((action, thing))
        if which == 9 and place < len(self.rules):
            key = sorted(self.rules)[place]
            actor, _, barred = self.rules[key]
            self.rules[key] = (actor, value, barred)
        if which >= 10 and place < len(self.duties):
            d = self.duties[place]
            if which == 10:
                d.serial = value
            if which == 11:
                d.end = value
            if which == 12:
                d.action, d.first, d.second = value, 0, 0

    # ---- section 3 of the rules

    def permitted(self, holdings, doer, action, first, second):
        if action > REVOKE:
            role = self.permissions.get((action, first))
            return role is not None and holdings[doer] >> role & 1 == 1
        rule = self.rules.get((action, second))
        if rule is None:
            return False
        actor, wanted, barred = rule
        theirs = holdings[first]
        return holdings[doer] >> actor & 1 == 1 and theirs & wanted == wanted and theirs & barred == 0

    def fails(self, serials):
        """Whether the serials are a failing order (rule 4.7)."""
        left = {d.serial: d for d in self.duties}
        holdings = list(self.holdings)
        for place, serial in enumerate(serials):
            d = left.pop(serial, None)
            if d is None or any(y.end < d.start for y in left.values()):
                return False
            what = (d.action, d.first, d.second)
            if not self.permitted(holdings, d.doer, *what):
                return place == len(serials) - 1
            change(holdings, *what)
        return False


def change(holdings, action, first, second):
    if action == GRANT:
        holdings[first] |= 1 << second
    if action == REVOKE:
        holdings[first] &= ~(1 << second)


# ---- the boards of the tables

def full(clock=0):
    """Every table at its limit, no duties: role 0 assigns and revokes each role, everybody holds role 0, and
    permission i is for action 2 + i // 16 on object i % 16 and needs role i % 32."""
    board = Board(USERS, ROLES, clock)
    board.holdings = [1] * USERS
    for i in range(PERMISSIONS):
        board.permissions[2 + i // 16, i % 16] = i % ROLES
    for role in range(ROLES):
        board.rules[GRANT, role] = board.rules[REVOKE, role] = (0, 0, 0)
    return board


def use_of(role, turn=0):
    """Action and object of a use that needs the role on a full board."""
    i = role + ROLES * (turn % (PERMISSIONS // ROLES))
    return 2 + i // 16, i % 16


def case(*duties, holds=1):
    """The small boards of section 9: G, R or U with a window."""
    board = Board(2, 2)
    board.holdings = [1, 2 * holds]
    board.permissions[2, 0] = 1
    board.rules[GRANT, 1] = board.rules[REVOKE, 1] = (0, 0, 0)
    what = {'G': (0, GRANT, 1, 1), 'R': (0, REVOKE, 1, 1), 'U': (1, 2, 0, 0)}
    for letter, start, end in duties:
        board.add(*what[letter], start, end)
    return board


def heal(n=DUTIES):
    """Revokes of one role of one user (84 of 128 duties), one grant that heals them all, uses."""
    board = full()
    revokes = n * 21 // 32
    for _ in range(revokes):
        board.add(0, REVOKE, 1, 5, 10, 100)
    board.add(0, GRANT, 1, 5, 200, 210)
    for i in range(n - revokes - 1):
        board.add(1, *use_of(5, i), 0, 300, 400)
    return board


def in_turn(n=DUTIES):
    """Grant, use, then revoke, grant, use in turn, of one role of one user, windows one after the other."""
    board = full()
    for i in range(n):
        at = 10 * i
        if i % 3 == 1:
            board.add(1, *use_of(5, i), 0, at, at + 5)
        else:
            board.add(0, GRANT if i % 3 == 0 else REVOKE, 1, 5, at, at + 5)
    return board


def red_127():
    """As in turn, but the last but one, a use of another role, gets stuck."""
    board = in_turn()
    d = board.duties[-2]
    d.doer, (d.action, d.first), d.second = 2, use_of(7), 0
    return board


def calm():
    """64 grants spread over users, and 64 uses of other roles that hardly meet."""
    board = full()
    for i in range(64):
        board.add(i, GRANT, (i + 1) % USERS, 1 + i % 31, 20 * i, 20 * i + 9)
    for i in range(64):
        board.add(i, *use_of(0, i), 0, 20 * i + 5, 20 * i + 15)
    return board


def chain():
    """128 grants, each of which gives the next doer the role that the next one needs; no permissions."""
    board = full()
    board.permissions = {}
    for role in range(ROLES):
        board.rules[GRANT, role] = ((role - 1) % ROLES, 0, 0)
    board.holdings = [0] * USERS
    board.holdings[0] = 1
    person = [(k + 5 * (k // USERS)) % USERS for k in range(DUTIES + 1)]
    for k in range(DUTIES):
        board.add(person[k], GRANT, person[k + 1], (k + 1) % ROLES, 10 * k, 10 * k + 5)
    return board


def uses():
    """128 uses of 128 different actions and objects, each by somebody who holds the role."""
    board = full()
    board.holdings = [2 ** ROLES - 1] * USERS
    for i in range(DUTIES):
        action, thing = sorted(board.permissions)[4 * i + 3]
        board.add(i % USERS, action, thing, 0, i, 1000 + i)
    return board


def worst(n=DUTIES, seed=7):
    """Every duty sets a holding of its own doer, under rules that want and bar: each setter has to be looked
    at for each duty. The second duty revokes role 6, the third grants it again and the fourth wants it, so
    that what mends has to be found; nothing else that is needed changes, and the windows of the others have
    no order, so that no test can be foreseen."""
    dice = random.Random(seed)
    board = full()
    board.holdings[1] = 0b11
    for role in range(ROLES):
        board.rules[GRANT, role] = board.rules[REVOKE, role] = (0, 0b10, 1 << 31)
    board.rules[GRANT, 7] = (0, 0b1000010, 1 << 31)
    mended = {1: (REVOKE, 6), 2: (GRANT, 6), 3: (GRANT, 7)}
    for place in range(n):
        start = 10 + dice.randrange(10000)
        end = start + dice.randrange(3000)
        kind, role = dice.choice((GRANT, REVOKE)), dice.randrange(2, 6)
        if place in mended:
            kind, role = mended[place]
            start, end = 2 * place, 2 * place + 1
        board.add(1, kind, 1, role, start, end)
    return board


def worst_red():
    """The same, but the last duty, after all others, gets stuck: the order has all of them."""
    board = worst()
    board.duties[-1] = Duty(1, *use_of(31), 0, 20000, 20001, serial=DUTIES)
    return board


def random_duty(dice, board):
    start = dice.randrange(1000)
    window = (start, start + dice.randrange(60))
    doer, role = dice.randrange(USERS), dice.randrange(ROLES)
    kind = dice.randrange(4)
    if kind < 2:
        return (doer, kind, dice.randrange(USERS), role) + window
    return (doer,) + dice.choice(sorted(board.permissions)) + (0,) + window


def random_full(dice):
    """A full board with random tables and random duties; hardly ever green."""
    board = Board(USERS, ROLES)
    board.holdings = [dice.getrandbits(ROLES) | dice.getrandbits(ROLES) for _ in range(USERS)]
    keys = [(action, thing) for action in range(2, 64) for thing in range(256)]
    board.permissions = {key: dice.randrange(ROLES) for key in dice.sample(keys, PERMISSIONS)}
    for kind in (GRANT, REVOKE):
        for role in range(ROLES):
            wanted, barred = (1 << dice.randrange(ROLES) if dice.random() < 0.3 else 0 for _ in range(2))
            board.rules[kind, role] = (dice.randrange(ROLES), wanted, barred)
    for _ in range(DUTIES):
        board.add(*random_duty(dice, board))
    return board


def random_small(dice):
    """A small board with few people, roles and minutes: green about as often as red."""
    users, roles = dice.randrange(1, 4), dice.randrange(1, 4)
    board = Board(users, roles, dice.randrange(3))
    board.holdings = [dice.getrandbits(roles) | 1 for _ in range(users)]
    for action in range(2, 4):
        for thing in range(2):
            if dice.random() < 0.8:
                board.permissions[action, thing] = dice.choice((0, dice.randrange(roles)))
    for kind in (GRANT, REVOKE):
        for role in range(roles):
            if dice.random() < 0.8:
                wanted, barred = (dice.getrandbits(roles) & dice.getrandbits(roles) for _ in range(2))
                board.rules[kind, role] = (dice.choice((0, dice.randrange(roles))), wanted, barred)
    for _ in range(dice.randrange(7)):
        action = dice.randrange(4)
        first = dice.randrange(users if action < 2 else 2)
        start = dice.randrange(20)
        board.add(dice.randrange(users), action, first, dice.randrange(roles) if action < 2 else 0,
                  start, start + dice.randrange(4))
    if dice.random() < 0.05:
        board.next = 2 ** 32 - 1
    return board


def random_green(dice, is_green):
    """A full board with random tables, and 128 random duties that leave it green."""
    board = random_full(dice)
    board.duties, board.next = [], 1
    while len(board.duties) < DUTIES:
        board.add(*random_duty(dice, board))
        if not is_green(board):
            board.duties.pop()
            board.next -= 1
    return board


def random_red(dice, is_green):
    """A random green board with one duty in the middle changed so that it is red."""
    while True:
        board = random_green(dice, is_green)
        for _ in range(100):
            place = dice.randrange(DUTIES // 2, DUTIES)
            changed = board.copy()
            changed.duties[place] = Duty(*random_duty(dice, board), serial=board.duties[place].serial)
            if not is_green(changed):
                return changed
