"""measure.py FOLDER [compare]: measures every call on every board with the two programs in the folder, and
prints the tables. The last line is `worst ratio X.XX`. With `compare` only random calls are compared."""
import random
import sys

import boards
import jobs
import random_jobs
import size
from jobs import ACT, ADMIT, CHECK, DO, OPEN, PUT_BACK, WITHDRAW, Job, Line, say

SIZES = (8, 16, 32, 64, 128)


class Bench:
    def __init__(self, folder):
        self.proved = jobs.Program(folder, 'proved-calls')
        self.rust = jobs.Program(folder, 'rust-calls')
        self.ratios = {True: [], False: []}
        self.count = 0

    def is_green(self, board):
        return Line(self.rust.line(Job(CHECK, board))).number == 0

    def best(self, candidates):
        """The candidate that goes the longest way: one that is accepted, or else one denied by 8."""
        for wanted in (0, jobs.RED):
            for job, line in zip(candidates, self.rust.lines(candidates)):
                if Line(line).number == wanted:
                    return job
        return candidates[0]

    def measure(self, name, together):
        """Jobs of one call, measured together."""
        self.count += 1
        say('%d: %s, %s' % (self.count, name, jobs.CALLS[together[0].kind]))
        return jobs.measured(together, self.proved, self.rust)

    def note(self, counts, pair, name, job):
        """Remember a ratio, of a full board or of a small one."""
        self.ratios[counts].append((pair.ratio(), name, jobs.CALLS[job.kind]))

    def put_back(self, board):
        """Measures putting the board back, which is taken off the times of the calls that change it."""
        pair, = jobs.measured([Job(PUT_BACK, board)], self.proved, self.rust)
        self.proved.put_back, self.rust.put_back = pair.nanoseconds()
        print('\nPutting the board back takes %.0f ns (library) and %.0f ns (Rust); it is taken off the '
              'times of admit, act, do and withdraw.' % pair.nanoseconds())


# ---- requests

def admit_of(board):
    """The last duty admitted again, to the board without it. A board with no duties: a grant."""
    if not board.duties:
        return Job(ADMIT, board, 0, boards.GRANT, 1, 1, 5, 6)
    d = board.duties[-1]
    return Job(ADMIT, board.without_last(), d.doer, d.action, d.first, d.second, d.start, d.end)


def acts_on(board):
    """Uses, and where there is no permission grants, by each user."""
    keys = sorted(board.permissions)
    some = [keys[-1 - i * len(keys) // 8] for i in range(8)] if keys else []
    uses = [Job(ACT, board, user, *key) for user in range(board.users) for key in some]
    grants = [Job(ACT, board, user, kind, user, role)
              for user in range(min(board.users, 4)) for kind, role in sorted(board.rules)]
    return uses + grants


def dos_on(board):
    """Each duty at its earliest minute, the last first."""
    return [Job(DO, board, serial=d.serial, clock=max(d.start, board.clock)) for d in board.duties[::-1]]


def withdrawals_on(board):
    return [Job(WITHDRAW, board, serial=d.serial) for d in board.duties]


def six_calls(bench, board):
    none = Job(DO, board, serial=1), Job(WITHDRAW, board, serial=1)
    return [Job(OPEN, board), Job(CHECK, board), admit_of(board), bench.best(acts_on(board)),
            bench.best(dos_on(board) or none[:1]), bench.best(withdrawals_on(board) or none[1:])]


def refusals_on(board):
    """Each call with a clock below the board's, and check of a board whose last duty has a wrong serial."""
    late = board.copy()
    late.clock = 5
    d = late.duties[-1]
    return [Job(CHECK, late, poke=(10, len(late.duties) - 1, 0)),
            Job(ADMIT, late, d.doer, d.action, d.first, d.second, d.start, d.end, clock=4),
            Job(ACT, late, d.doer, d.action, d.first, d.second, clock=4),
            Job(DO, late, serial=d.serial, clock=4),
            Job(WITHDRAW, late, serial=d.serial, clock=4)]


# ---- tables

def head(*titles):
    print('\n| ' + ' | '.join(titles) + ' |')
    print('|' + '---|' * len(titles))


def call_table(bench, rows, counts):
    head('board', 'call', 'answer', 'library ns', 'Rust ns', 'ratio')
    for name, calls in rows:
        shown = name
        for job in calls:
            pair, = bench.measure(name, [job])
            bench.note(counts, pair, name, job)
            print('| %s | %s | %s | %.0f | %.0f | %.2f |'
                  % (shown, jobs.CALLS[job.kind], pair.answer, *pair.nanoseconds(), pair.ratio()), flush=True)
            shown = ''


def growth_table(bench, name, board_of):
    """Times over the number of duties; answers how much they grow at most when it doubles, of both."""
    print('\n### Growth: %s' % name)
    head('call', *('%d duties' % n for n in SIZES), 'greatest factor of library, Rust')
    most = [0, 0]
    for call in zip(*(six_calls(bench, board_of(n)) for n in SIZES)):
        pairs = bench.measure('growth, ' + name, call)
        for n, pair, job in zip(SIZES[:-1], pairs, call):
            bench.note(False, pair, '%s, %d duties' % (name, n), job)
        factors = [max(jobs.ratio(b.samples[i], a.samples[i]) for a, b in zip(pairs, pairs[1:]))
                   for i in (0, 1)]
        most = [max(both) for both in zip(most, factors)]
        times = ' | '.join('%.0f / %.0f' % pair.nanoseconds() for pair in pairs)
        print('| %s | %s | %.2f, %.2f |' % (jobs.CALLS[call[0].kind], times, *factors), flush=True)
    return most


def full_boards(bench):
    dice = random.Random(2012)
    return [
        ('84 revokes, one grant that heals, 43 uses', boards.heal()),
        ('random, green', boards.random_green(dice, bench.is_green)),
        ('random, red', boards.random_red(dice, bench.is_green)),
        ('calm: 64 grants, 64 uses that hardly meet', boards.calm()),
        ('revoke, grant, use in turn', boards.in_turn()),
        ('red, failing order of 127', boards.red_127()),
        ('128 grants in a chain, no permissions', boards.chain()),
        ('128 different uses, 512 permissions', boards.uses()),
        ('worst: 128 setters of their own doer', boards.worst()),
        ('worst, red at the last duty', boards.worst_red()),
    ]


def small_boards():
    return [
        ('empty (case 1)', boards.case(holds=0)),
        ('three duties (case 8)', boards.case(('R', 1, 5), ('G', 5, 6), ('U', 8, 9))),
    ]


def main():
    folder, words = sys.argv[1], sys.argv[2:]
    bench = Bench(folder)
    say('comparing random calls')
    print('# Speed of the library beside Rust')
    random_jobs.compare(bench.proved, bench.rust)
    if words:
        return
    bench.put_back(boards.worst())
    print('\n## Full boards\n\nAll counts at their limits; admit is to the same board without its last duty.')
    full = full_boards(bench)
    call_table(bench, [(name, six_calls(bench, board)) for name, board in full], True)
    print('\n## Refusals on a full board')
    call_table(bench, [('worst, clock below its own; not good', refusals_on(boards.worst()))], True)
    print('\n## Small boards')
    call_table(bench, [(name, six_calls(bench, board)) for name, board in small_boards()], False)
    print('\n## Growth over 8, 16, 32, 64, 128 duties\n\nFull tables; library ns / Rust ns. Each call is '
          'made on the same board again and again: where its tests cannot be foreseen (worst), the processor '
          'may learn how they come out on a board of 64 duties and not on one of 128.')
    growth = [growth_table(bench, 'revokes, one grant that heals, uses', boards.heal),
              growth_table(bench, 'revoke, grant, use in turn', boards.in_turn),
              growth_table(bench, 'worst', boards.worst)]
    size.table(folder)
    print()
    print('The worst ratio of each call on full boards:\n')
    for call in jobs.CALLS[:6]:
        ratio, name, _ = max(row for row in bench.ratios[True] if row[2] == call)
        print('- %s: %.2f (%s)' % (call, ratio, name))
    print()
    print('greatest growth when the duties double: library %.2f, Rust %.2f'
          % tuple(max(g[i] for g in growth) for i in (0, 1)))
    print('worst ratio on small boards %.2f' % max(bench.ratios[False])[0])
    print('worst ratio %.2f' % max(bench.ratios[True])[0])


if __name__ == '__main__':
    try:
        main()
    except jobs.Difference as difference:
        sys.exit('bench: ' + str(difference))
