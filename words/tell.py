"""A verdict of tick in words. It is tick's: what stands here looks duties and rules up on the board."""
from .board import GRANT, REVOKE, roles_in
from .boardfile import BadFile, MEANING, from_bytes
from .names import ACTION, OBJECT, PERSON, ROLE
from .times import time_of
from .writer import what_words

HOW_TO_READ = '''Read it from the top: the windows allow this order, each duty but the last is permitted when
its turn comes, and then the last one is not.'''


def green(count):
    if count == 0:
        return 'green: no duty is open.'
    duties = 'the one duty' if count == 1 else f'each of the {count} duties'
    return f'green: in every order that the windows allow, {duties} is permitted when its turn comes.'


def refused(data, number):
    """A refusal: the meaning of its number, and the place where the reader here finds the same fault."""
    try:
        from_bytes(data)
    except BadFile as fault:
        if fault.number == number:
            return f'refused {number}: {fault}.'
    return f'refused {number}: {MEANING[number]}.'


def red(board, names, serials):
    """The failing order, a line a duty, how to read it, and what the last duty asks."""
    by_serial = {duty.serial: duty for duty in board.duties}
    order = [by_serial[serial] for serial in serials]
    last = order[-1]
    asks = needs(board, last)
    if asks is None:
        marked, told = [], missing(last, names)
    else:
        marked = [duty for duty in order[:-1] if changes_one_of(duty, asks)]
        told = '; '.join(need_words(need, names) for need in asks) + '. '
        told += 'The duties marked * change that.' if marked else 'No duty above it changes that.'
    return '\n'.join(['red: this order fails.', '', *order_lines(order, marked, names), '', HOW_TO_READ,
                      f'Duty {last.serial} asks: {told}'])


def order_lines(order, marked, names):
    """The duties in columns: serial, who, what, window; the last one is said to be not permitted."""
    rows = [(str(duty.serial), names.called(PERSON, duty.doer), what_words(duty, names.called),
             f'{time_of(duty.start)} to {time_of(duty.end)}') for duty in order]
    serial, who, what, window = (max(map(len, column)) for column in zip(*rows))
    marks = ['*' if duty in marked else ' ' for duty in order]
    lines = [f'{mark} {row[0]:>{serial}}  {row[1]:{who}}  {row[2]:{what}}  {row[3]:{window}}'
             for mark, row in zip(marks, rows)]
    return [line.rstrip() for line in lines[:-1]] + [lines[-1] + '  <- NOT PERMITTED']


def needs(board, duty):
    """What a duty asks, as (person, role, held or not); None where it has no permission or rule."""
    if duty.action not in (GRANT, REVOKE):
        found = [permission for permission in board.permissions if permission.key() == (duty.action,
                                                                                        duty.first)]
        return [(duty.doer, found[0].role, True)] if found else None
    found = [rule for rule in board.rules if rule.key() == (duty.action, duty.second)]
    if not found:
        return None
    return [(duty.doer, found[0].actor, True),
            *((duty.first, role, True) for role in roles_in(found[0].wanted)),
            *((duty.first, role, False) for role in roles_in(found[0].barred))]


def changes_one_of(duty, asks):
    """Whether the duty grants or revokes a role of somebody that is asked about."""
    return (duty.action in (GRANT, REVOKE)
            and any((duty.first, duty.second) == (person, role) for person, role, _ in asks))


def need_words(need, names):
    person, role, held = need
    return f'{names.called(PERSON, person)} {"holds" if held else "does not hold"} {names.called(ROLE, role)}'


def missing(duty, names):
    """The permission or rule that a duty lacks."""
    if duty.action in (GRANT, REVOKE):
        kind = 'an assign' if duty.action == GRANT else 'a revoke'
        return f'{kind} rule for {names.called(ROLE, duty.second)}, and the board has none.'
    use = f'{names.called(ACTION, duty.action)} on {names.called(OBJECT, duty.first)}'
    return f'a permission for {use}, and the board has none.'
