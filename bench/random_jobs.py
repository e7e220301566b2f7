"""Random boards and calls, damaged ones too, through both programs: their answers are compared."""
import random

import boards
import jobs
from jobs import ACT, ADMIT, CHECK, DO, OPEN, WITHDRAW, Job

SMALL, FULL = 2800, 200
LAST = 2 ** 32 - 1


def damaged(dice, file):
    """The file with a byte changed, added or left out, most often in its header."""
    at = dice.randrange(40) if dice.random() < 0.4 else dice.randrange(len(file))
    kind = dice.randrange(8)
    if kind == 0:
        return file[:at]
    if kind == 1:
        return file + b'\0'
    new = dice.choice((0, 1, 2, file[at] ^ 1, dice.randrange(256)))
    return file[:at] + bytes([new]) + file[at + 1:]


def random_job(dice, board):
    kind = dice.choice((OPEN, OPEN, CHECK, ADMIT, ADMIT, ACT, DO, WITHDRAW))
    file = board.packed()
    if kind == OPEN:
        return Job(kind, board, file=damaged(dice, file) if dice.random() < 0.5 else file,
                   short=dice.randrange(20) // 19)
    d = dice.choice(board.duties) if board.duties else boards.Duty(0, 0, 0, 0, 1, 2, serial=1)
    fields = [d.doer, d.action, d.first, d.second]
    window = [d.start, d.end]
    if dice.random() < 0.7:
        place = dice.randrange(4)
        fields[place] = dice.choice((fields[place] + 1, dice.randrange(4), dice.randrange(66)))
        window = [dice.randrange(14), dice.randrange(14)]
        window = window if dice.random() < 0.2 else sorted(window)
    clock = dice.choice((board.clock, d.start, d.end, dice.randrange(14)))
    serial = d.serial + (dice.random() < 0.1)
    poke = (0, 0, 0)
    if dice.random() < 0.15:
        poke = (dice.randrange(1, 13), dice.randrange(len(board.duties) + 2), dice.choice((0, 1, 2, 3, LAST)))
    return Job(kind, board, *fields, *window, clock=clock, serial=serial, poke=poke,
               short=dice.randrange(30) // 29)


def nearly_green(dice):
    """A full board that is green but for a few duties that are changed."""
    board = dice.choice((boards.heal, boards.in_turn, boards.calm, boards.chain, boards.uses, boards.worst))()
    for _ in range(dice.randrange(3)):
        d = dice.choice(board.duties)
        d.start = dice.randrange(d.end + 1)
        d.end += dice.randrange(30)
    return board


def compare(proved, rust, seed=2011):
    dice = random.Random(seed)
    made = [random_job(dice, boards.random_small(dice)) for _ in range(SMALL)]
    made += [random_job(dice, nearly_green(dice) if i % 4 else boards.random_full(dice)) for i in range(FULL)]
    numbers, others = {}, 0
    for job, a, b in zip(made, proved.lines(made), rust.lines(made)):
        others += not jobs.compared(job, a, b)
        number = jobs.Line(a).number
        numbers[number] = numbers.get(number, 0) + 1
    print('\n%d random calls, %d of them on full boards, have the same answer from both; %d of those with 8 '
          'have another failing order, and both orders are true ones.' % (len(made), FULL, others))
    print('How often each number was answered: '
          + ', '.join('%d: %d' % pair for pair in sorted(numbers.items())) + '.')
