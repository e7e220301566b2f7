"""A board in words: the way back from a board file, and a duty in words."""
from .board import GRANT, REVOKE, roles_in
from .line import Refused
from .names import ACTION, KINDS, OBJECT, PERSON, ROLE
from .times import time_of


def words_of(board, names):
    """The text that reads as this board, with these names."""
    check_names(board, names)
    parts = [naming(board, names), clock_and_next(board), holdings(board, names), permissions(board, names),
             [rule_words(rule, names) for rule in board.rules],
             [duty_line(duty, names) for duty in board.duties]]
    return '\n\n'.join('\n'.join(part) for part in parts if part) + '\n'


def check_names(board, names):
    """The names are those of as many people and roles as the board has, or there are none."""
    for kind, count in ((PERSON, board.users), (ROLE, board.roles)):
        named = len(names.of[kind])
        if named not in (0, count):
            raise Refused(f'the names are of {named} {kind.many}, and the board has {count}')


def naming(board, names):
    counts = {PERSON: [str(board.users)], ROLE: [str(board.roles)]}
    words = {kind: names.of[kind] or counts.get(kind, []) for kind in KINDS}
    return [' '.join([kind.many, *words[kind]]) for kind in KINDS if words[kind]]


def clock_and_next(board):
    lines = [f'clock {time_of(board.clock)}'] if board.clock else []
    above = board.duties[-1].serial + 1 if board.duties else 1
    return lines + ([f'next {board.next_serial}'] if board.next_serial != above else [])


def role_words(bits, names):
    return ' '.join(names.word(ROLE, role) for role in roles_in(bits))


def holdings(board, names):
    return [f'holds {names.word(PERSON, user)} {role_words(bits, names)}'
            for user, bits in enumerate(board.holdings) if bits]


def permissions(board, names):
    return [f'permission {names.word(ROLE, permission.role)} {names.word(ACTION, permission.action)}'
            f' {names.word(OBJECT, permission.object)}' for permission in board.permissions]


def rule_words(rule, names):
    kind = 'assign' if rule.kind == GRANT else 'revoke'
    return (f'{kind} {names.word(ROLE, rule.role)} by {names.word(ROLE, rule.actor)}'
            + (f' wants {role_words(rule.wanted, names)}' if rule.wanted else '')
            + (f' bars {role_words(rule.barred, names)}' if rule.barred else ''))


def duty_line(duty, names):
    return (f'duty {duty.serial}: {names.word(PERSON, duty.doer)} {what_words(duty, names.word)}'
            f' {time_of(duty.start)} {time_of(duty.end)}')


def what_words(duty, call):
    """What is to be done, each thing by what `call` says of its kind and number."""
    if duty.action == GRANT:
        return f'grant {call(ROLE, duty.second)} to {call(PERSON, duty.first)}'
    if duty.action == REVOKE:
        return f'revoke {call(ROLE, duty.second)} from {call(PERSON, duty.first)}'
    return f'use {call(ACTION, duty.action)} on {call(OBJECT, duty.first)}'
