"""Boards in words read strictly, word by word. docs/BOARDS.md says the language."""
import os
import re
from typing import NamedTuple

from .board import (Board, DUTIES, Duty, GRANT, LAST_NEXT_SERIAL, LAST_SERIAL, PERMISSIONS, Permission,
                    REVOKE, Rule, set_of)
from .line import DIGITS, Refused, lines_of
from .names import ACTION, KINDS, Names, OBJECT, PERSON, ROLE, fault_in_name, nearest_of
from .times import time_of

NAMING = {'users': PERSON, **{word: kind for kind in KINDS for word in (kind.one, kind.many)}}
COUNTED = (PERSON, ROLE)
SERIAL = re.compile(r'([0-9]+):')


class NamedBoard(NamedTuple):
    """A board with its own name and the names on it."""
    name: str
    board: Board
    names: Names


def read_boards(path, text):
    """The boards of a text: one, or several that each begin with a line `board NAME`."""
    lines = lines_of(path, text)
    if not lines:
        raise Refused(f'{path}: there is no board in it')
    if lines[0].words[0] != 'board':
        name = os.path.splitext(os.path.basename(path))[0]
        return [BoardReader(lines[0]).read(name, lines)]
    begins = [place for place, line in enumerate(lines) if line.words[0] == 'board']
    boards, first_lines = [], {}
    for begin, end in zip(begins, begins[1:] + [len(lines)]):
        name = board_name(lines[begin], first_lines)
        boards.append(BoardReader(lines[begin]).read(name, lines[begin + 1:end]))
    return boards


def board_name(line, first_lines):
    """The name after `board`, which no board before it has."""
    name = line.take('the name of the board')
    line.end()
    fault = fault_in_name(name)
    if fault:
        line.refuse(fault)
    if name in first_lines:
        line.refuse(f'a second board {name}; the first is in line {first_lines[name]}')
    first_lines[name] = line.number
    return name


class BoardReader:
    """Reads the lines of one board."""

    def __init__(self, first_line):
        self.first_line = first_line
        self.names = Names()
        self.counts = {}
        self.said = {}
        self.clock = 0
        self.next_serial = None
        self.holdings = {}
        self.permissions = []
        self.rules = []
        self.duties = []
        self.readers = {'clock': self.read_clock, 'next': self.read_next, 'holds': self.read_holds,
                        'permission': self.read_permission, 'assign': self.read_rule,
                        'revoke': self.read_rule, 'duty': self.read_duty, 'board': self.read_late_board}

    def read(self, name, lines):
        """The board: names first, wherever they stand, then the lines that use them."""
        for line in lines:
            if line.words[0] in NAMING:
                self.read_names(line, NAMING[line.words[0]])
            else:
                self.reader_of(line)
        for kind in COUNTED:
            if not self.count(kind):
                self.first_line.refuse(f'this board has no line {kind.many}')
        for line in lines:
            if line.words[0] not in NAMING:
                self.reader_of(line)(line)
        return NamedBoard(name, self.board(), self.names)

    def reader_of(self, line):
        word = line.words[0]
        if word not in self.readers:
            nearest = nearest_of(word, [*NAMING, *self.readers])
            line.refuse(f'no line begins with this word; the nearest that does is {nearest}')
        return self.readers[word]

    def board(self):
        users = self.count(PERSON)
        duties = sorted(self.duties, key=Duty.key)
        above = duties[-1].serial + 1 if duties else 1
        if self.next_serial is not None and self.next_serial < above:
            self.said['next'].refuse(f'serial {above - 1} is open, so the next serial is at least {above}')
        return Board(users, self.count(ROLE), self.clock, self.next_serial or above,
                     [self.holdings.get(user, 0) for user in range(users)],
                     sorted(self.permissions, key=Permission.key), sorted(self.rules, key=Rule.key), duties)

    def once(self, line, key, what):
        """Refuses what an earlier line said already; the sentence names both lines."""
        if key in self.said:
            line.refuse(f'{what} a second time; the first is in line {self.said[key].number}')
        self.said[key] = line

    # ---- people, roles, actions, objects

    def read_names(self, line, kind):
        """A count alone, or names; names may go on in a further line."""
        if kind in COUNTED and len(line.words) == 2 and DIGITS.fullmatch(line.words[1]):
            self.once(line, kind, kind.many)
            self.counts[kind] = line.take_number(f'the number of {kind.many}', 1, kind.above)
            return
        if kind in self.counts:
            self.once(line, kind, kind.many)
        self.said.setdefault(kind, line)
        self.read_name(line, kind)
        while line.more():
            self.read_name(line, kind)

    def read_name(self, line, kind):
        name = line.take('a name')
        fault = fault_in_name(name)
        if fault:
            line.refuse(fault)
        self.once(line, (kind, name), f'the {kind.one} {name}')
        if len(self.names.of[kind]) == kind.above - kind.first:
            line.refuse(f'more than {kind.above - kind.first} {kind.many}')
        self.names.of[kind].append(name)

    def count(self, kind):
        return self.counts.get(kind, len(self.names.of[kind]))

    def take(self, line, kind, what):
        """The number of what the next word names or numbers."""
        word = line.take(what)
        if not DIGITS.fullmatch(word):
            if word not in self.names.of[kind]:
                line.refuse(self.names.unknown(kind, word))
            return self.names.number(kind, word)
        if kind is ACTION and word in ('0', '1'):
            line.refuse(f'action {word} is no use but a {("grant", "revoke")[int(word)]}')
        above = self.count(kind) if kind in COUNTED else kind.above
        return line.number_in(kind.one, word, kind.first, above - 1)

    def take_roles(self, line):
        """The roles up to `wants`, `bars` or the end of the line, at least one and none twice, as a set."""
        roles = []
        while line.more() and line.next() not in ('wants', 'bars'):
            role = self.take(line, ROLE, 'a role')
            if role in roles:
                line.refuse(f'{self.names.called(ROLE, role)} is there twice')
            roles.append(role)
        if not roles:
            line.refuse('a role is missing')
        return set_of(roles)

    # ---- the lines that use them

    def read_late_board(self, line):
        line.refuse(f'it has to stand before the other lines; line {self.first_line.number} stands before it')

    def read_clock(self, line):
        self.clock = line.take_time('the time')
        line.end()
        self.once(line, 'clock', 'the clock')

    def read_next(self, line):
        self.next_serial = line.take_number('the next serial', 1, LAST_NEXT_SERIAL)
        line.end()
        self.once(line, 'next', 'the next serial')

    def read_holds(self, line):
        person = self.take(line, PERSON, 'the person')
        self.holdings[person] = self.take_roles(line)
        line.end()
        self.once(line, ('holds', person), f'what {self.names.called(PERSON, person)} holds')

    def read_permission(self, line):
        role = self.take(line, ROLE, 'the role')
        action = self.take(line, ACTION, 'the action')
        thing = self.take(line, OBJECT, 'the object')
        line.end()
        called = f'{self.names.called(ACTION, action)} on {self.names.called(OBJECT, thing)}'
        self.once(line, ('permission', action, thing), f'a permission for {called}')
        self.add(line, self.permissions, Permission(role, action, thing), PERMISSIONS)

    def read_rule(self, line):
        kind = line.words[0]
        role = self.take(line, ROLE, 'the role')
        line.take_one_of('by')
        actor = self.take(line, ROLE, 'the role after by')
        sets = {'wants': 0, 'bars': 0}
        while line.more():
            word = line.take_one_of('wants', 'bars')
            if sets[word]:
                line.refuse(f'{word} is there twice')
            sets[word] = self.take_roles(line)
        self.once(line, (kind, role), f'the {kind} rule for {self.names.called(ROLE, role)}')
        number = GRANT if kind == 'assign' else REVOKE
        self.rules.append(Rule(number, actor, role, 0, sets['wants'], sets['bars']))

    def read_duty(self, line):
        serial = self.take_serial(line)
        doer = self.take(line, PERSON, 'the doer')
        action, first, second = self.take_what(line)
        start = line.take_time('the start of the window')
        end = line.take_time('the end of the window')
        line.end()
        if start > end:
            line.refuse(f'the window is turned round: {time_of(start)} is after {time_of(end)}')
        self.once(line, ('duty', serial), f'serial {serial}')
        self.add(line, self.duties, Duty(serial, doer, action, first, second, start, end), DUTIES)

    def take_serial(self, line):
        """The serial `7:` after `duty`; where there is none, one more than that of the duty before."""
        written = SERIAL.fullmatch(line.next()) if line.more() else None
        if written:
            line.take('the serial')
            return line.number_in('serial', written.group(1), 1, LAST_SERIAL)
        serial = self.duties[-1].serial + 1 if self.duties else 1
        return line.number_in('serial', str(serial), 1, LAST_SERIAL)

    def take_what(self, line):
        """What is to be done: the action, and the fields first and second of document 01."""
        if line.more() and line.next() in self.names.of[ACTION]:
            line.refuse(f'{line.next()} is an action: write use {line.next()} on, and the object')
        word = line.take_one_of('grant', 'revoke', 'use')
        if word == 'use':
            action = self.take(line, ACTION, 'the action')
            line.take_one_of('on')
            return action, self.take(line, OBJECT, 'the object'), 0
        role = self.take(line, ROLE, 'the role')
        line.take_one_of('to' if word == 'grant' else 'from')
        return (GRANT if word == 'grant' else REVOKE), self.take(line, PERSON, 'the target'), role

    @staticmethod
    def add(line, records, record, most):
        if len(records) == most:
            line.refuse(f'more than {most} on one board')
        records.append(record)
