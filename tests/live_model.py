"""live_model.py: the live board once more, in Python, written from document 01 alone. It shares nothing with
the crates: its own reading of a board file, its own test of a board value, its own verdict (every allowed
order walked, or for large pools the criterion of document 01's fact), its own calls, its own writing of a
board file. `replayed` gives the lines that `replay` has to print for an input, `carried` what `carry` has to
write. Needs Python 3 alone."""
import struct

USERS, ROLES, PERMISSIONS, RULES, DUTIES = 64, 32, 512, 64, 128
LARGEST = 4294967295
WALKED = 7  # pools of at most so many duties are judged by walking every order
MOST = 8  # the call walk takes pools of at most so many duties

# a permission is (role, action, object), a rule (kind, actor, role, wanted, barred),
# a duty (serial, doer, action, first, second, start, end)
NO_PERMISSION, NO_RULE, NO_DUTY = (0, 0, 0), (0, 0, 0, 0, 0), (0, 0, 0, 0, 0, 0, 0)


class Board:
    """A board value: its counts, and arrays that hold the filler beyond them."""

    def __init__(self):
        """The smallest board."""
        self.users, self.roles, self.permits, self.ruled, self.open = 1, 1, 0, 0, 0
        self.clock, self.next = 0, 1
        self.holdings = [0] * USERS
        self.permissions = [NO_PERMISSION] * PERMISSIONS
        self.rules = [NO_RULE] * RULES
        self.duties = [NO_DUTY] * DUTIES

    def copy(self):
        other = Board()
        for name, value in vars(self).items():
            setattr(other, name, list(value) if isinstance(value, list) else value)
        return other

    def pool(self):
        return self.duties[:self.open]

    def with_pool(self, pool):
        self.open = len(pool)
        self.duties = list(pool) + [NO_DUTY] * (DUTIES - len(pool))


# ---- the tests of records, which the file and the board value share

def set_fits(board, roles):
    return roles >> board.roles == 0


def permission_fits(board, p):
    return p[0] < board.roles and 2 <= p[1] <= 63 and p[2] <= 255


def rule_fits(board, r):
    return (r[0] <= 1 and r[1] < board.roles and r[2] < board.roles
            and set_fits(board, r[3]) and set_fits(board, r[4]))


def request_fits(board, doer, action, first, second):
    """Doer, action, first and second of a request or a duty are in their ranges."""
    if doer >= board.users or action > 63:
        return False
    if action <= 1:
        return first < board.users and second < board.roles
    return first <= 255 and second == 0


def duty_fits(board, d):
    return 0 < d[0] < board.next and request_fits(board, d[1], d[2], d[3], d[4])


def counts_fit(board):
    return (1 <= board.users <= USERS and 1 <= board.roles <= ROLES and board.permits <= PERMISSIONS
            and board.ruled <= RULES and board.open <= DUTIES and 1 <= board.next <= LARGEST)


def parts(board):
    """Each part: its records, how many count, their test, their key, and the filler."""
    return ((board.holdings, board.users, set_fits, None, 0),
            (board.permissions, board.permits, permission_fits, lambda p: (p[1], p[2]), NO_PERMISSION),
            (board.rules, board.ruled, rule_fits, lambda r: (r[0], r[2]), NO_RULE),
            (board.duties, board.open, duty_fits, lambda d: d[0], NO_DUTY))


def record_fault(board, part, i):
    """5, 7, 6 or 0 for the i-th record of a part."""
    records, _, fits, key, _ = part
    if not fits(board, records[i]):
        return 5
    if records is board.duties and records[i][5] > records[i][6]:
        return 7
    if key and i > 0 and key(records[i - 1]) >= key(records[i]):
        return 6
    return 0


def is_good(board):
    """Whether a board value breaks no file rule (19)."""
    if not counts_fit(board):
        return False
    for part in parts(board):
        records, count, _, _, filler = part
        if any(record_fault(board, part, i) for i in range(count)):
            return False
        if any(record != filler for record in records[count:]):
            return False
    return True


# ---- permitted, orders, the verdict

def needs_of(board, doer, action, first, second):
    """The holdings that something to be done needs, each (user, role, held or not); None where there is no
    permission or rule for it."""
    if action >= 2:
        for role, a, thing in board.permissions[:board.permits]:
            if (a, thing) == (action, first):
                return [(doer, role, True)]
        return None
    for kind, actor, role, wanted, barred in board.rules[:board.ruled]:
        if (kind, role) == (action, second):
            return ([(doer, actor, True)] + [(first, r, True) for r in range(32) if wanted >> r & 1]
                    + [(first, r, False) for r in range(32) if barred >> r & 1])
    return None


def held(holdings, user, role):
    return holdings[user] >> role & 1 == 1


def permitted(board, holdings, doer, action, first, second):
    needs = needs_of(board, doer, action, first, second)
    return needs is not None and all(held(holdings, u, r) == right for u, r, right in needs)


def changed(holdings, action, first, second):
    """The holdings after something is done."""
    if action > 1:
        return holdings
    after = list(holdings)
    after[first] = after[first] | 1 << second if action == 0 else after[first] & ~(1 << second)
    return tuple(after)


def wholly_before(d, e):
    return d[6] < e[5]


def may_come(pool, done, d):
    return d not in done and not any(wholly_before(e, d) for e in pool if e not in done)


def failing_orders(board, most):
    """Failing orders of a good board, as lists of serials: at most so many. Points that lead to none are not
    walked twice."""
    pool, found, barren = board.pool(), [], set()

    def walk(done, holdings, order):
        point, before = (frozenset(done), holdings), len(found)
        if point in barren:
            return
        for d in pool:
            if len(found) < most and may_come(pool, done, d):
                if permitted(board, holdings, *d[1:5]):
                    walk(done | {d}, changed(holdings, *d[2:5]), order + [d[0]])
                else:
                    found.append(order + [d[0]])
        if len(found) == before:
            barren.add(point)

    walk(frozenset(), tuple(board.holdings), [])
    return found


def red_by_walking(board):
    return failing_orders(board, 1) != []


def sets(d, user, role, right):
    """Whether a duty sets the holding to this."""
    return (d[2], d[3], d[4]) == (0 if right else 1, user, role)


def can_be_wrong(board, d, user, role, right):
    pool = board.pool()
    if held(board.holdings, user, role) != right:
        if not any(wholly_before(g, d) and sets(g, user, role, right) for g in pool):
            return True
    return any(x is not d and sets(x, user, role, not right) and not wholly_before(d, x)
               and not any(sets(g, user, role, right) and wholly_before(x, g) and wholly_before(g, d)
                           for g in pool)
               for x in pool)


def red_by_criterion(board):
    for d in board.pool():
        needs = needs_of(board, *d[1:5])
        if needs is None or any(can_be_wrong(board, d, *need) for need in needs):
            return True
    return False


def is_red(board):
    if board.open > WALKED:
        return red_by_criterion(board)
    walked = red_by_walking(board)
    assert walked == red_by_criterion(board), 'the criterion and the walk of every order disagree'
    return walked


def first_failing(board):
    """The serials of the failing order that is found first: each duty that may come next is done, lower
    serials first, and then the rest is walked in the same way. None on a green board."""
    def walk(pool, holdings):
        for d in sorted(pool):
            if not any(wholly_before(e, d) for e in pool):
                if not permitted(board, holdings, *d[1:5]):
                    return [d[0]]
                rest = walk([e for e in pool if e is not d], changed(holdings, *d[2:5]))
                if rest:
                    return [d[0]] + rest
        return None

    order = walk(board.pool(), tuple(board.holdings))
    assert (order is not None) == is_red(board), 'the plain walk and the verdict disagree'
    return order


def is_failing_order(board, order):
    """Whether these serials are the beginning of an allowed order, all permitted in turn except the last."""
    pool = board.pool()
    named = {d[0]: d for d in pool}
    done, holdings = set(), tuple(board.holdings)
    for i, serial in enumerate(order):
        d = named.get(serial)
        if d is None or not may_come(pool, done, d):
            return False
        if permitted(board, holdings, *d[1:5]) != (i < len(order) - 1):
            return False
        done, holdings = done | {d}, changed(holdings, *d[2:5])
    return order != []


# ---- the board file

def read(s):
    """The number, and the board where it is 0."""
    board = Board()
    if len(s) < 40:
        return 1, None
    (version, board.users, board.roles, board.permits, board.ruled, board.open, board.clock, board.next,
     *offsets) = struct.unpack_from('<6H7I', s)
    if version != 1:
        return 2, None
    if not counts_fit(board):
        return 3, None
    laid = [40]
    for size, count in ((4, board.users), (6, board.permits), (16, board.ruled), (20, board.open)):
        laid.append(laid[-1] + size * count)
    if offsets != laid or laid[-1] != len(s):
        return 4, None
    if len(s) > 6952:
        return 18, None
    spare = []
    for i in range(board.users):
        board.holdings[i] = struct.unpack_from('<I', s, laid[0] + 4 * i)[0]
    for i in range(board.permits):
        board.permissions[i] = struct.unpack_from('<3H', s, laid[1] + 6 * i)
    for i in range(board.ruled):
        kind, actor, role, zero, wanted, barred = struct.unpack_from('<4H2I', s, laid[2] + 16 * i)
        board.rules[i] = (kind, actor, role, wanted, barred)
        spare.append(zero)
    for i in range(board.open):
        board.duties[i] = struct.unpack_from('<I4H2I', s, laid[3] + 20 * i)
    for part in parts(board):
        for i in range(part[1]):
            fault = 5 if part[0] is board.rules and spare[i] != 0 else record_fault(board, part, i)
            if fault:
                return fault, None
    return 0, board


def file_of(board):
    """The file that a good board is saved as."""
    written = [b''.join(struct.pack('<I', h) for h in board.holdings[:board.users]),
               b''.join(struct.pack('<3H', *p) for p in board.permissions[:board.permits]),
               b''.join(struct.pack('<4H2I', *r[:3], 0, *r[3:]) for r in board.rules[:board.ruled]),
               b''.join(struct.pack('<I4H2I', *d) for d in board.pool())]
    offsets = [40]
    for part in written:
        offsets.append(offsets[-1] + len(part))
    header = struct.pack('<6H7I', 1, board.users, board.roles, board.permits, board.ruled, board.open,
                         board.clock, board.next, *offsets)
    return header + b''.join(written)


def save(board, lent):
    """The number, and the bytes written to a buffer of this length."""
    if not is_good(board):
        return 19, b''
    file = file_of(board)
    return (20, b'') if lent < len(file) else (0, file)


# ---- the calls: each gives a number, a serial, the board from then on, and with 8 the board that is red

def opened(s, lent):
    if lent < DUTIES:
        return 9, 0, Board(), None
    number, board = read(s)
    if number:
        return number, 0, Board(), None
    if is_red(board):
        return 8, 0, Board(), board
    return 0, 0, board, None


def refused(board, number):
    return number, 0, board, None


def judged(board, after, serial):
    return (8, 0, board, after) if is_red(after) else (0, serial, after, None)


def first_of(checks):
    """The number of the first check that applies, 0 where none does."""
    for number, applies in checks:
        if applies():
            return number
    return 0


def open_duty(board, serial):
    return next((d for d in board.pool() if d[0] == serial), None)


def admit(board, q):
    number = first_of((
        (19, lambda: not is_good(board)), (9, lambda: q.lent < DUTIES), (10, lambda: q.clock < board.clock),
        (11, lambda: not request_fits(board, q.doer, q.action, q.first, q.second)),
        (7, lambda: q.start > q.end), (21, lambda: q.end < q.clock), (16, lambda: board.open == DUTIES),
        (17, lambda: board.next == LARGEST)))
    if number:
        return refused(board, number)
    after = board.copy()
    after.clock, after.next = q.clock, board.next + 1
    after.with_pool(board.pool() + [(board.next, q.doer, q.action, q.first, q.second, q.start, q.end)])
    return judged(board, after, board.next)


def act(board, q):
    number = first_of((
        (19, lambda: not is_good(board)), (9, lambda: q.lent < DUTIES), (10, lambda: q.clock < board.clock),
        (11, lambda: not request_fits(board, q.doer, q.action, q.first, q.second)),
        (15, lambda: not permitted(board, board.holdings, q.doer, q.action, q.first, q.second))))
    if number:
        return refused(board, number)
    after = board.copy()
    after.clock = q.clock
    after.holdings = list(changed(board.holdings, q.action, q.first, q.second))
    return judged(board, after, 0)


def do(board, q):
    d = open_duty(board, q.serial)
    number = first_of((
        (19, lambda: not is_good(board)), (10, lambda: q.clock < board.clock), (12, lambda: d is None),
        (13, lambda: not d[5] <= q.clock <= d[6]),
        (14, lambda: any(wholly_before(e, d) for e in board.pool())),
        (15, lambda: not permitted(board, board.holdings, *d[1:5]))))
    if number:
        return refused(board, number)
    after = board.copy()
    after.clock = q.clock
    after.holdings = list(changed(board.holdings, *d[2:5]))
    after.with_pool([e for e in board.pool() if e is not d])
    return 0, 0, after, None


def withdraw(board, q):
    d = open_duty(board, q.serial)
    number = first_of((
        (19, lambda: not is_good(board)), (9, lambda: q.lent < DUTIES), (10, lambda: q.clock < board.clock),
        (12, lambda: d is None)))
    if number:
        return refused(board, number)
    after = board.copy()
    after.clock = q.clock
    after.with_pool([e for e in board.pool() if e is not d])
    return judged(board, after, 0)


def check(board, q):
    if not is_good(board):
        return refused(board, 19)
    if q.lent < DUTIES:
        return refused(board, 9)
    return (8, 0, board, board) if is_red(board) else (0, 0, board, None)


def walk(board, lent):
    """The number, and the first failing order."""
    number = first_of((
        (19, lambda: not is_good(board)), (9, lambda: lent < DUTIES), (22, lambda: board.open > MOST)))
    order = None if number else first_failing(board)
    return (8, order) if order else (number, [])


CALLS = {0: admit, 1: act, 2: do, 3: withdraw, 4: check}


def poke(board, q):
    after, at, low = board.copy(), q.second, q.extra % 65536
    names = ('users', 'roles', 'permits', 'ruled', 'open', 'clock', 'next')

    def put(records, field, value):
        if at < len(records):
            record = list(records[at])
            record[field] = value
            records[at] = tuple(record)

    if q.first < 7:
        setattr(after, names[q.first], q.extra if q.first > 4 else low)
    elif q.first == 7 and at < USERS:
        after.holdings[at] = q.extra
    elif q.first == 8:
        put(after.permissions, 0, low)
    elif q.first == 9:
        put(after.rules, 3, q.extra)
    elif 10 <= q.first <= 13:
        put(after.duties, {10: 5, 11: 6, 12: 0, 13: 1}[q.first], low if q.first == 13 else q.extra)
    return after


# ---- the format of replay

class Record:
    """A call and its fields."""
    FIELDS = ('kind', 'lent', 'doer', 'action', 'first', 'second', 'start', 'end', 'clock', 'serial', 'extra')
    FORMAT = '<6H5I'

    def __init__(self, *values):
        for name, value in zip(self.FIELDS, values):
            setattr(self, name, value)
        self.lent = min(self.lent, 256)


class Line:
    """A line to be printed: its words; with 8 those before the failing order, and the board that is red."""

    def __init__(self, words, red=None):
        self.words, self.red = words, red

    def fits(self, text):
        """Whether a printed line is this one, with a true failing order where there is one."""
        if self.red is None:
            return text == self.words
        given = text.split(' ')
        before = self.words.split(' ')
        length, order = given[len(before):len(before) + 1], given[len(before) + 1:]
        if given[:len(before)] != before or length != [str(len(order))] or text != ' '.join(given):
            return False
        serials = [int(word) for word in order]
        return [str(serial) for serial in serials] == order and is_failing_order(self.red, serials)

    def settled(self):
        """The line where it allows only one: the failing order has to be the only one."""
        if self.red is None:
            return self.words
        orders = failing_orders(self.red, 2)
        assert len(orders) == 1, 'not one failing order alone: %s' % orders
        return ' '.join([self.words, str(len(orders[0]))] + [str(serial) for serial in orders[0]])


def answer_line(words, number, red):
    return Line(words, red) if number == 8 else Line(words + ' 0')


def board_lines(board):
    def told(word, numbers):
        return Line(' '.join([word] + [str(n) for n in numbers]))

    yield told('board', (board.users, board.roles, board.permits, board.ruled, board.open,
                         board.clock, board.next))
    yield told('holds', board.holdings[:board.users])
    for d in board.pool():
        yield told('duty', d)
    yield Line('list ok')


def after(board, q):
    """The answer's number and serial, the live board after a record, and with 8 the board that is red."""
    if q.kind == 9:
        return 0, 0, poke(board, q), None
    return CALLS[q.kind](board, q) if q.kind in CALLS else (0, 0, board, None)


def session_of(s):
    """The board file and the records of an input."""
    s = s[:65536]
    length = struct.unpack_from('<I', s)[0] if len(s) >= 4 else 0
    records = s[4 + length:]
    return s[4:4 + length], [Record(*struct.unpack_from(Record.FORMAT, records, at))
                             for at in range(0, len(records) - 31, 32)]


def save_line(board, q):
    number, file = save(board, min(q.extra, 8192))
    return Line('%d 0 %d%s' % (number, len(file), ' ' + file.hex() if file else ''))


def walk_line(board, q):
    number, order = walk(board, q.lent)
    return Line(' '.join(str(word) for word in [number, 0, len(order)] + order))


def line_of(board, q):
    """The line of a record that is none of CALLS."""
    if q.kind == 5:
        return save_line(board, q)
    if q.kind == 6:
        return walk_line(board, q)
    return Line('poke' if q.kind == 9 else '?')


def replayed(s):
    """The lines for an input."""
    file, records = session_of(s)
    number, _, board, red = opened(file, 128)
    lines = [answer_line('open %d' % number, number, red)]
    for q in records:
        number, serial, left, red = after(board, q)
        if q.kind in CALLS:
            lines.append(answer_line('%d %d' % (number, serial), number, red))
        else:
            lines.append(line_of(board, q))
        board = left
    return lines + list(board_lines(board))


def carried(s):
    """The board file after the calls, and the line where there is none."""
    file, records = session_of(s)
    number, _, board, _ = opened(file, 128)
    if number == 0:
        for q in records:
            board = after(board, q)[2]
        number = 19 if not is_good(board) else 8 if is_red(board) else 0
    if number == 0:
        return file_of(board), ''
    return b'', 'carry: the board is red\n' if number == 8 else 'carry: refused %d\n' % number
