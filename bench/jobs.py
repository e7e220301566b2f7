"""Jobs for the two programs: one call on one board, made many times (calls.txt has the layout). They are run,
timed, and their lines compared."""
import os
import statistics
import struct
import subprocess
import sys
import tempfile

from boards import Board, Duty, change

OPEN, CHECK, ADMIT, ACT, DO, WITHDRAW, PUT_BACK = range(7)
CALLS = ('open', 'check', 'admit', 'act', 'do', 'withdraw', 'putting back')
RED = 8
A_RUN = 0.06  # seconds of processor time
RUNS = 7


class Difference(Exception):
    pass


class Job:
    def __init__(self, kind, board, doer=0, action=0, first=0, second=0, start=0, end=0, clock=None, serial=0,
                 poke=(0, 0, 0), short=0, file=None):
        self.kind, self.board, self.poke, self.short = kind, board, poke, short
        self.doer, self.action, self.first, self.second = doer, action, first, second
        self.start, self.end, self.serial = start, end, serial
        self.clock = board.clock if clock is None else clock
        self.file = board.packed() if file is None else file

    def packed(self, times):
        which, place, value = self.poke
        job = struct.pack('<4BI4H4I2HI', self.kind, 0, which, self.short, times, self.doer, self.action,
                          self.first, self.second, self.start, self.end, self.clock, self.serial,
                          place, 0, value) + self.file
        return struct.pack('<I', len(job)) + job

    def after(self):
        """The board that is judged: the one after the call, of a call that is answered 8."""
        board = Board.unpacked(self.file)
        board.poke(*self.poke)
        if self.kind == ADMIT:
            board.duties.append(Duty(self.doer, self.action, self.first, self.second, self.start, self.end,
                                     serial=board.next))
        if self.kind == ACT:
            change(board.holdings, self.action, self.first, self.second)
        if self.kind == WITHDRAW:
            board.duties = [d for d in board.duties if d.serial != self.serial]
        return board


class Line:
    def __init__(self, text):
        words = text.split()
        self.number, self.serial, length = map(int, words[:3])
        self.order = [int(word) for word in words[3:3 + length]]
        self.rest = words[3 + length:]

    def answer(self):
        return '%d, order of %d' % (RED, len(self.order)) if self.number == RED else str(self.number)


def compared(job, proved, rust):
    """Whether the two lines are the same word for word. Where only the failing orders differ (any true one is
    right: rule 12.2) both have to be true ones; every other difference is an error."""
    a, b = Line(proved), Line(rust)
    same = (a.number, a.serial, a.rest) == (b.number, b.serial, b.rest)
    if same and a.number == RED:
        after = job.after()
        same = after.fails(a.order) and after.fails(b.order)
    if not same:
        raise Difference('%s: the library answers %s, the Rust one %s' % (CALLS[job.kind], proved, rust))
    return proved == rust


class Program:
    """One of the two programs, and the folder for its input."""

    def __init__(self, folder, name):
        self.path = os.path.join(folder, name)
        self.folder = folder
        self.put_back = 0.0

    def run(self, data):
        """The lines for jobs, and the seconds of processor time that they took."""
        with tempfile.TemporaryFile(dir=self.folder) as given:
            given.write(data)
            given.seek(0)
            child = subprocess.Popen([self.path], stdin=given, stdout=subprocess.PIPE)
            with child.stdout:
                lines = child.stdout.read().decode().splitlines()
            _, status, usage = os.wait4(child.pid, 0)
            child.returncode = status
        if status:
            raise Difference('%s ended with status %d' % (os.path.basename(self.path), status))
        return lines, usage.ru_utime + usage.ru_stime

    def line(self, job):
        return self.run(job.packed(1))[0][0]

    def lines(self, jobs):
        return self.run(b''.join(job.packed(1) for job in jobs))[0]

    def seconds(self, job, times):
        return self.run(job.packed(times))[1]


class Sample:
    """The runs of one job by one program: how often the call is made in each, and nanoseconds a call."""

    def __init__(self, program, job):
        self.program, self.job = program, job
        self.empty = statistics.median(program.seconds(job, 0) for _ in range(3))
        times = 16
        while True:
            taken = program.seconds(job, times) - self.empty
            if taken > A_RUN / 8:
                break
            times *= 4
        self.times = max(1, int(times * A_RUN / taken))
        self.each = []

    def run(self):
        each = (self.program.seconds(self.job, self.times) - self.empty) / self.times * 1e9
        if self.job.kind in (ADMIT, ACT, DO, WITHDRAW):
            each -= self.program.put_back
        self.each.append(each)


class Pair:
    """One job, made by both programs in turn. A time is the median of the runs; a ratio is the median of the
    ratios of runs that stood beside each other, since a machine is faster at one time than at another."""

    def __init__(self, job, proved, rust):
        lines = proved.line(job), rust.line(job)
        compared(job, *lines)
        self.answer = Line(lines[0]).answer()
        self.samples = Sample(proved, job), Sample(rust, job)

    def run(self):
        for sample in self.samples:
            sample.run()

    def nanoseconds(self):
        return tuple(statistics.median(sample.each) for sample in self.samples)

    def ratio(self):
        return ratio(*self.samples)


def ratio(sample, other):
    return statistics.median(a / b for a, b in zip(sample.each, other.each))


def measured(jobs, proved, rust):
    """The jobs as pairs, with their runs in turn."""
    pairs = [Pair(job, proved, rust) for job in jobs]
    for _ in range(RUNS):
        for pair in pairs:
            pair.run()
    return pairs


def say(text):
    print('bench: ' + text, file=sys.stderr, flush=True)
