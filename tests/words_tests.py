"""Boards in words: what they say, and every slip that is refused."""
import os
import random
import unittest

from support import FolderTest, SAMPLES, command, random_file, read, run, sample, sample_boards
from words.board import to_bytes
from words.boardfile import BadFile, from_bytes
from words.line import Refused
from words.names import ACTION, Names, OBJECT, PERSON, ROLE
from words.reader import read_boards
from words.times import NoTime, minute_of, time_of
from words.writer import words_of

TEXTS = sorted(name for name in os.listdir(SAMPLES) if name.endswith('.txt') and name != 'boards.txt')
BEGIN = '''people Ada Ben Mia
roles leader helper bench
action calibrate
object detector
holds Ada leader
permission bench calibrate detector
assign bench by leader
'''
NUMBERS = '''users 2
roles 2
holds 0 0
permission 1 2 0
assign 1 by 0
'''
TWICE = 'a second time; the first is in line'
NO_TIME = 'is no time: write 14:10, 2+14:10 (day 2) or minutes'

# Each slip is a test: its name, the lines before, the line with the slip, and what is said of that line.
SLIPS = {
    'end_left_out': (NUMBERS, 'duty 0 grant 1 to 1 540', 'duty: the end of the window is missing'),
    'use_of_action_0': (NUMBERS, 'duty 0 use 0 on 1 540 600', 'duty: action 0 is no use but a grant'),
    'use_of_action_1': (NUMBERS, 'duty 0 use 1 on 1 540 600', 'duty: action 1 is no use but a revoke'),
    'grants_for_grant': (NUMBERS, 'duty 0 grants 1 to 1 540 600',
                         'duty: grants stands where grant, revoke or use is expected'),
    'second_holds_line': (NUMBERS, 'holds 0 1', f'holds: what person 0 holds {TWICE} 3'),
    'role_held_twice': (NUMBERS, 'holds 1 0 0', 'holds: role 0 is there twice'),
    'second_board_of_a_name': ('board a\n' + NUMBERS, 'board a',
                               'board: a second board a; the first is in line 1'),
    'unknown_person': (BEGIN, 'holds Mai bench', 'holds: there is no person Mai; the nearest name is Mia'),
    'unknown_role': (BEGIN, 'holds Mia Bench', 'holds: there is no role Bench; the nearest name is bench'),
    'unknown_role_in_capitals': (BEGIN, 'holds Mia BENCH',
                                 'holds: there is no role BENCH; the nearest name is bench'),
    'unknown_action': (BEGIN, 'duty Mia use calibrat on detector 14:00 15:00',
                       'duty: there is no action calibrat; the nearest name is calibrate'),
    'unknown_object': (BEGIN, 'duty Mia use calibrate on detectors 14:00 15:00',
                       'duty: there is no object detectors; the nearest name is detector'),
    'name_where_none_is_known': (NUMBERS, 'holds Ada 1', 'holds: there is no person Ada'),
    'name_of_another_kind': (BEGIN, 'duty Ada grant Mia to bench 14:00 15:00',
                             'duty: Mia is the name of a person, and a role is expected here'),
    'person_out_of_range': (BEGIN, 'holds 3 bench', 'holds: person 3 is outside 0 to 2'),
    'role_out_of_range': (BEGIN, 'holds Mia 3', 'holds: role 3 is outside 0 to 2'),
    'action_out_of_range': (NUMBERS, 'permission 1 64 0', 'permission: action 64 is outside 2 to 63'),
    'object_out_of_range': (NUMBERS, 'permission 1 2 256', 'permission: object 256 is outside 0 to 255'),
    'huge_number': (NUMBERS, 'permission 1 2 ' + '9' * 5000,
                    'permission: object ' + '9' * 5000 + ' is outside 0 to 255'),
    'zero_before_a_number': (NUMBERS, 'permission 1 02 0',
                             'permission: action 02: a number has no 0 before it'),
    'hour_that_cannot_be': (BEGIN, 'duty Ada grant bench to Mia 14:00 24:00',
                            'duty: the end of the window: 24:00'
                            ' cannot be: hours go from 0 to 23 and minutes from 00 to 59'),
    'minute_that_cannot_be': (BEGIN, 'duty Ada grant bench to Mia 14:60 15:00',
                              'duty: the start of the window: 14:60'
                              ' cannot be: hours go from 0 to 23 and minutes from 00 to 59'),
    'time_with_one_digit': (BEGIN, 'duty Ada grant bench to Mia 14:0 15:00',
                            f'duty: the start of the window: 14:0 {NO_TIME}'),
    'time_as_on_a_clock_face': (BEGIN, 'duty Ada grant bench to Mia 0900 15:00',
                                f'duty: the start of the window: 0900 {NO_TIME}'),
    'clock_too_long': (BEGIN, 'clock 14:00 15:00', 'clock: 15:00 is one word too many'),
    'next_too_long': (BEGIN, 'next 7 8', 'next: 8 is one word too many'),
    'holds_with_a_rule_word': (BEGIN, 'holds Mia bench bars helper', 'holds: bars is one word too many'),
    'word_for_a_time': (BEGIN, 'duty Ada grant bench to Mia 14:00 to 15:00',
                        f'duty: the end of the window: to {NO_TIME}'),
    'time_too_late': (BEGIN, 'clock 2982616+4:16',
                      'clock: the time: 2982616+4:16 is after the last minute, 4294967295 (2982616+4:15)'),
    'minutes_too_late': (BEGIN, 'clock 4294967296',
                         'clock: the time: 4294967296 is after the last minute, 4294967295 (2982616+4:15)'),
    'window_turned_round': (BEGIN, 'duty Ada grant bench to Mia 15:00 14:00',
                            'duty: the window is turned round: 15:00 is after 14:00'),
    'window_turned_round_by_a_minute': (BEGIN, 'duty Ada grant bench to Mia 14:01 14:00',
                                        'duty: the window is turned round: 14:01 is after 14:00'),
    'start_left_out': (BEGIN, 'duty Ada grant bench to Mia', 'duty: the start of the window is missing'),
    'target_left_out': (BEGIN, 'duty Ada grant bench to', 'duty: the target is missing'),
    'to_left_out': (BEGIN, 'duty Ada grant bench Mia 14:00 15:00', 'duty: Mia stands where to is expected'),
    'from_for_to': (BEGIN, 'duty Ada grant bench from Mia 14:00 15:00',
                    'duty: from stands where to is expected'),
    'to_for_from': (BEGIN, 'duty Ada revoke bench to Mia 14:00 15:00',
                    'duty: to stands where from is expected'),
    'on_left_out': (BEGIN, 'duty Mia use calibrate detector 14:00 15:00',
                    'duty: detector stands where on is expected'),
    'use_left_out': (BEGIN, 'duty Mia calibrate detector 14:00 15:00',
                     'duty: calibrate is an action: write use calibrate on, and the object'),
    'doer_left_out': (BEGIN, 'duty', 'duty: the doer is missing'),
    'what_left_out': (BEGIN, 'duty Mia', 'duty: grant, revoke or use is missing'),
    'word_too_many': (BEGIN, 'duty Ada grant bench to Mia 14:00 15:00 16:00',
                      'duty: 16:00 is one word too many'),
    'second_permission': (BEGIN, 'permission helper calibrate detector',
                          f'permission: a permission for calibrate on detector {TWICE} 6'),
    'permission_cut_off': (BEGIN, 'permission bench calibrate', 'permission: the object is missing'),
    'permission_too_long': (BEGIN, 'permission bench calibrate detector detector',
                            'permission: detector is one word too many'),
    'permission_reversed': (BEGIN, 'permission calibrate detector bench',
                            'permission: calibrate is the name of an action, and a role is expected here'),
    'second_assign_rule': (BEGIN, 'assign bench by helper', f'assign: the assign rule for bench {TWICE} 7'),
    'second_revoke_rule': (BEGIN + 'revoke bench by leader\n', 'revoke bench by helper',
                           f'revoke: the revoke rule for bench {TWICE} 8'),
    'by_left_out': (BEGIN, 'revoke bench leader', 'revoke: leader stands where by is expected'),
    'actor_left_out': (BEGIN, 'revoke bench by', 'revoke: the role after by is missing'),
    'wants_nothing': (BEGIN, 'revoke bench by leader wants', 'revoke: a role is missing'),
    'wants_nothing_but_bars': (BEGIN, 'revoke bench by leader wants bars helper',
                               'revoke: a role is missing'),
    'wants_twice': (BEGIN, 'revoke bench by leader wants helper wants bench', 'revoke: wants is there twice'),
    'bars_twice': (BEGIN, 'revoke bench by leader bars helper wants bench bars bench',
                   'revoke: bars is there twice'),
    'wanted_role_twice': (BEGIN, 'revoke bench by leader wants helper helper',
                          'revoke: helper is there twice'),
    'want_for_wants': (BEGIN, 'revoke bench by leader want helper',
                       'revoke: want stands where wants or bars is expected'),
    'holds_nothing': (BEGIN, 'holds Mia', 'holds: a role is missing'),
    'holds_nobody': (BEGIN, 'holds', 'holds: the person is missing'),
    'unknown_line': (BEGIN, 'hold Mia bench',
                     'hold: no line begins with this word; the nearest that does is holds'),
    'line_in_capitals': (BEGIN, 'Duty Ada grant bench to Mia 14:00 15:00',
                         'Duty: no line begins with this word; the nearest that does is duty'),
    'misspelt_people': ('roles leader\n', 'Peple Ada',
                        'Peple: no line begins with this word; the nearest that does is people'),
    'misspelt_roles': ('people Ada\n', 'Roles leader',
                       'Roles: no line begins with this word; the nearest that does is roles'),
    'second_clock': (BEGIN + 'clock 9:00\n', 'clock 10:00', f'clock: the clock {TWICE} 8'),
    'clock_without_time': (BEGIN, 'clock', 'clock: the time is missing'),
    'second_next': (BEGIN + 'next 7\n', 'next 8', f'next: the next serial {TWICE} 8'),
    'next_0': (BEGIN, 'next 0', 'next: the next serial 0 is outside 1 to 4294967295'),
    'next_too_high': (BEGIN, 'next 4294967296',
                      'next: the next serial 4294967296 is outside 1 to 4294967295'),
    'next_is_a_word': (BEGIN, 'next seven', 'next: the next serial is to be a number, not seven'),
    'next_below_a_serial': (BEGIN + 'duty 7: Ada grant bench to Mia 1 2\n', 'next 7',
                            'next: serial 7 is open, so the next serial is at least 8'),
    'serial_0': (BEGIN, 'duty 0: Ada grant bench to Mia 1 2', 'duty: serial 0 is outside 1 to 4294967294'),
    'serial_too_high': (BEGIN, 'duty 4294967295: Ada grant bench to Mia 1 2',
                        'duty: serial 4294967295 is outside 1 to 4294967294'),
    'serial_after_the_last': (BEGIN + 'duty 4294967294: Ada grant bench to Mia 1 2\n',
                              'duty Ada grant bench to Mia 1 2',
                              'duty: serial 4294967295 is outside 1 to 4294967294'),
    'serial_twice': (BEGIN + 'duty 7: Ada grant bench to Mia 1 2\n', 'duty 7: Ada grant bench to Mia 1 2',
                     f'duty: serial 7 {TWICE} 8'),
    'person_named_twice': (BEGIN, 'people Zoe Ben', f'people: the person Ben {TWICE} 1'),
    'people_named_and_counted': (BEGIN, 'people 4', f'people: people {TWICE} 1'),
    'people_counted_and_named': (NUMBERS, 'people Ada', f'people: people {TWICE} 1'),
    'roles_counted_twice': (NUMBERS, 'roles 3', f'roles: roles {TWICE} 2'),
    'no_people_at_all': ('', 'people 0', 'people: the number of people 0 is outside 1 to 64'),
    'people_without_names': (BEGIN, 'people', 'people: a name is missing'),
    'actions_counted': (BEGIN, 'actions 3',
                        "actions: '3' is no name: a name begins with a letter, then come letters,"
                        " digits and _ - . '"),
    'name_with_a_slash': ('', 'board ../a',
                          "board: '../a' is no name: a name begins with a letter, then come letters,"
                          " digits and _ - . '"),
    'name_of_the_language': (BEGIN, 'role to', 'role: to is a word of the language and cannot be a name'),
    'board_without_name': ('', 'board', 'board: the name of the board is missing'),
    'board_name_of_two_words': ('', 'board sunny saturday', 'board: saturday is one word too many'),
    'board_line_too_late': (BEGIN, 'board saturday',
                            'board: it has to stand before the other lines; line 1 stands'
                            ' before it'),
    'board_without_people': ('', 'board saturday\nroles 2', 'board: this board has no line people'),
    'board_without_roles': ('', 'board saturday\npeople 2', 'board: this board has no line roles'),
    '65_people': ('', 'people 65', 'people: the number of people 65 is outside 1 to 64'),
    '33_roles': ('', 'roles 33', 'roles: the number of roles 33 is outside 1 to 32'),
    '65_names_of_people': ('', 'people ' + ' '.join(f'p{n}' for n in range(65)),
                           'people: more than 64 people'),
    '33_names_of_roles': ('', 'roles ' + ' '.join(f'r{n}' for n in range(33)), 'roles: more than 32 roles'),
    '63_names_of_actions': ('', 'actions ' + ' '.join(f'a{n}' for n in range(63)),
                            'actions: more than 62 actions'),
    '257_names_of_objects': ('', 'objects ' + ' '.join(f'o{n}' for n in range(257)),
                             'objects: more than 256 objects'),
    '513_permissions': (BEGIN + ''.join(f'permission 2 {n // 256 + 3} {n % 256}\n' for n in range(511)),
                        'permission 2 63 0', 'permission: more than 512 on one board'),
    '129_duties': (BEGIN + 'duty Ada grant bench to Mia 1 2\n' * 128, 'duty Ada grant bench to Mia 1 2',
                   'duty: more than 128 on one board'),
}


class Slips(FolderTest):
    """Every slip is refused with its file and line, exit status 2, and nothing is written."""

    def refused(self, before, slip, said):
        path = self.write('slip.txt', before + slip + '\n')
        number = before.count('\n') + 1
        with self.assertRaises(Refused) as caught:
            read_boards('slip.txt', before + slip + '\n')
        self.assertEqual(str(caught.exception), f'slip.txt:{number}: {said}')
        self.ends(run([command('board'), path]), 2, '', f'{path}:{number}: {said}\n')
        self.assertEqual(run(['ls', '-A', self.folder]).stdout, 'slip.txt\n')


def add_slip(name, slip):
    setattr(Slips, 'test_' + name, lambda self: self.refused(*slip))


for slip_name, slip_parts in SLIPS.items():
    add_slip(slip_name, slip_parts)


class Limits(unittest.TestCase):
    """What is just within a limit is read."""

    def board(self, text):
        return read_boards('limits.txt', text)[0].board

    def test_people_and_roles(self):
        board = self.board('people ' + ' '.join(f'p{n}' for n in range(64)) + '\nroles 32\nholds p63 31\n')
        self.assertEqual((board.users, board.roles, board.holdings[63]), (64, 32, 1 << 31))

    def test_actions_and_objects(self):
        board = self.board(BEGIN + 'actions ' + ' '.join(f'a{n}' for n in range(61)) + '\nobjects '
                           + ' '.join(f'o{n}' for n in range(255)) + '\npermission bench a60 o254\n')
        self.assertEqual(board.permissions[-1], (2, 63, 255))

    def test_permissions(self):
        text = BEGIN + ''.join(f'permission 2 {n // 256 + 3} {n % 256}\n' for n in range(511))
        self.assertEqual(len(self.board(text).permissions), 512)

    def test_rules(self):
        lines = [f'{kind} {role} by 0\n' for kind in ('revoke', 'assign') for role in range(32)]
        self.assertEqual(len(self.board('people 1\nroles 32\n' + ''.join(lines)).rules), 64)

    def test_duties(self):
        self.assertEqual(len(self.board(BEGIN + 'duty Ada grant bench to Mia 1 2\n' * 128).duties), 128)

    def test_serials(self):
        board = self.board(BEGIN + 'duty 4294967294: Ada grant bench to Mia 0 4294967295\nnext 4294967295\n')
        self.assertEqual((board.duties[0].serial, board.duties[0].end, board.next_serial),
                         (4294967294, 4294967295, 4294967295))


class Sayings(unittest.TestCase):
    """Different words that say the same board, and what they say."""

    def same(self, one, other):
        self.assertEqual(*(to_bytes(read_boards('a.txt', text)[0].board) for text in (one, other)))

    def test_names_or_numbers(self):
        self.same(BEGIN + 'duty Ada grant bench to Mia 14:00 15:00\n'
                  'duty Mia use calibrate on detector 15:01 16:00\n',
                  'people 3\nroles 3\nholds 0 0\npermission 2 2 0\nassign 2 by 0\n'
                  'duty 0 grant 2 to 2 840 900\nduty 2 use 2 on 0 901 960\n')

    def test_names_in_one_line_or_several(self):
        self.same('people Ada Ben\nroles a b\nholds Ben b\n',
                  'person Ada\nrole a\nperson Ben\nrole b\nholds Ben b\n')

    def test_names_after_their_use(self):
        self.same(BEGIN, '\n'.join(reversed(BEGIN.split('\n'))))

    def test_permissions_and_rules_are_put_in_order(self):
        lines = ['permission 0 3 1', 'permission 1 2 9', 'revoke 0 by 1', 'assign 1 by 0', 'assign 0 by 0',
                 'permission 0 3 0']
        self.same('people 1\nroles 2\n' + '\n'.join(lines),
                  'people 1\nroles 2\n' + '\n'.join(reversed(lines)))
        board = read_boards('a.txt', 'people 1\nroles 2\n' + '\n'.join(lines))[0].board
        self.assertEqual([permission[1:] for permission in board.permissions], [(2, 9), (3, 0), (3, 1)])
        self.assertEqual([(rule.kind, rule.role) for rule in board.rules], [(0, 0), (0, 1), (1, 0)])

    def test_wants_and_bars(self):
        text = 'people 1\nroles 4\nassign 1 by 0 {}\n'
        self.same(text.format('wants 2 3 bars 0'), text.format('bars 0 wants 3 2'))
        rule = read_boards('a.txt', text.format('wants 2 3 bars 0'))[0].board.rules[0]
        self.assertEqual(tuple(rule), (0, 0, 1, 0, 0b1100, 0b0001))

    def test_serials_follow_and_are_put_in_order(self):
        line = 'Ada grant bench to Mia 1 2\n'
        board = read_boards('a.txt',
                            BEGIN + f'duty {line}duty 9: {line}duty {line}duty 4: {line}duty {line}')[0].board
        self.assertEqual([duty.serial for duty in board.duties], [1, 4, 5, 9, 10])
        self.assertEqual(board.next_serial, 11)

    def test_clock_and_next(self):
        board = read_boards('a.txt', BEGIN + 'clock 1+0:00\nnext 12\n')[0].board
        self.assertEqual((board.clock, board.next_serial), (1440, 12))

    def test_comments_tabs_ends_of_line_and_byte_order_mark(self):
        text = BEGIN.replace('\n', '  # so it is\r\n').replace('holds ', '\tholds\t') + '# the end'
        self.same(BEGIN, text)

    def test_board_of_its_own_name_or_the_file(self):
        self.assertEqual(read_boards('folder/plan.txt', BEGIN)[0].name, 'plan')
        boards = read_boards('plan.txt', f'board a\n{BEGIN}board b\n{BEGIN}')
        self.assertEqual([named.name for named in boards], ['a', 'b'])

    def test_times(self):
        for word, minute in (('0', 0), ('7', 7), ('1410', 1410), ('0:00', 0), ('9:05', 545), ('09:05', 545),
                             ('23:59', 1439), ('1+0:00', 1440), ('2+14:10', 3730), ('0+14:10', 850),
                             ('4294967295', 4294967295), ('2982616+4:15', 4294967295)):
            self.assertEqual(minute_of(word), minute, word)
        for minute in (0, 1, 59, 60, 1439, 1440, 3730, 4294967295):
            self.assertEqual(minute_of(time_of(minute)), minute)

    def test_words_that_are_no_time(self):
        for word in ('', '-1', '+1', '1.5', '1e3', '14:', ':10', '14:1', '14:100', '2+', '2+14', '+14:10',
                     '2+2+14:10', '14:10:00', '14.10', '2pm', '٣', '007', '24:00', '0:60', '999999999+0:00'):
            self.assertRaises(NoTime, minute_of, word)


class RoundTrip(FolderTest):
    """Words to file to words."""

    def test_samples_are_what_their_words_say(self):
        texts = [named for name in ('boards.txt', *TEXTS)
                 for named in read_boards(name, read(sample(name)).decode())]
        self.assertEqual(sorted(named.name + '.board' for named in texts), sample_boards())
        for named in texts:
            self.assertEqual(to_bytes(named.board), read(sample(named.name + '.board')), named.name)

    def test_samples_there_and_back_by_the_command(self):
        for name in sample_boards():
            words = run([command('board'), '--words', sample(name)])
            self.ends(words, 0, err='')
            self.ends(run([command('board'), self.write('back.txt', words.stdout)]), 0, err='')
            self.assertEqual(read(self.path('back.board')), read(sample(name)), name)

    def test_samples_there_and_back_with_names(self):
        for text in TEXTS:
            name = text.replace('.txt', '.board')
            words = run([command('board'), '--words', sample(name), '--names', sample(text)])
            self.ends(words, 0, err='')
            self.assertIn(read(sample(text)).decode().split('people ')[1].split('\n')[0], words.stdout)
            self.ends(run([command('board'), self.write('back.txt', words.stdout)]), 0, err='')
            self.assertEqual(read(self.path('back.board')), read(sample(name)), name)

    def test_1000_random_boards(self):
        for seed in range(1000):
            data = random_file(random.Random(seed))
            board = from_bytes(data)
            for names in (Names(), names_for(board)):
                words = words_of(board, names)
                again = read_boards('again.txt', words)[0]
                self.assertEqual(to_bytes(again.board), data, seed)
                self.assertEqual(words_of(again.board, again.names), words, seed)

    def test_tick_takes_random_boards_made_from_words(self):
        paths = []
        for seed in range(300):
            named = read_boards('a.txt', words_of(from_bytes(random_file(random.Random(seed))), Names()))[0]
            paths.append(self.write(f'{seed}.board', to_bytes(named.board)))
        lines = run([command('tick'), *paths]).stdout.splitlines()
        verdicts = [line.split(': ')[1].split()[0] for line in lines]
        self.assertEqual((len(verdicts), set(verdicts)), (300, {'yes', 'no'}))


def names_for(board):
    names = Names()
    for kind, count in ((PERSON, board.users), (ROLE, board.roles), (ACTION, 5), (OBJECT, 7)):
        names.of[kind] = [f'{kind.one}-{number}' for number in range(count)]
    return names


class Faults(FolderTest):
    """What the reader of board files says is wrong is what tick says, on spoilt files."""

    def test_600_spoilt_files(self):
        paths, expected = [], []
        for seed in range(600):
            data = spoilt_file(random.Random(seed))
            paths.append(self.write(f'{seed}.board', data))
            expected.append(fault_of(data))
        said = [line.split(': ')[1] for line in run([command('tick'), *paths]).stdout.splitlines()]
        told = [line if line.startswith('refused') else 'accepted' for line in said]
        self.assertEqual(told, expected)
        self.assertEqual(set(told), {'accepted', *(f'refused {number}' for number in range(1, 8))})


def fault_of(data):
    try:
        from_bytes(data)
    except BadFile as fault:
        return f'refused {fault.number}'
    return 'accepted'


def spoilt_file(chance):
    """A board file cut off, or with one or two of its two-byte numbers changed."""
    data = bytearray(random_file(chance))
    if chance.random() < 0.05:
        return bytes(data[:chance.randrange(len(data))])
    for _ in range(chance.randint(1, 2)):
        place = chance.randrange(0, 40, 2) if chance.random() < 0.15 else chance.randrange(40, len(data), 2)
        near = int.from_bytes(data[place:place + 2], 'little') + chance.choice((-1, 1))
        number = chance.choice((0, 1, 2, 3, 4, 5, 63, 64, 255, 256, 65535, near % 65536))
        data[place:place + 2] = number.to_bytes(2, 'little')
    return bytes(data)


class Strict(unittest.TestCase):
    """A text with a word lost, doubled, changed or moved is read, or refused with its line: nothing else."""

    def test_3000_spoilt_boards(self):
        refused = 0
        for seed in range(3000):
            chance = random.Random(seed)
            board = from_bytes(random_file(chance))
            names = names_for(board) if seed % 2 else Names()
            lines = [line.split(' ') for line in words_of(board, names).split('\n')[:40]]
            spoil(chance, lines)
            text = '\n'.join(' '.join(line) for line in lines)
            try:
                to_bytes(read_boards('spoilt.txt', text)[0].board)
            except Refused as fault:
                refused += 1
                self.assertRegex(str(fault), r'\Aspoilt\.txt(:[0-9]+)?: [^\n]+\Z')
        self.assertGreater(refused, 1000)

    def test_a_word_lost_from_a_duty_is_refused(self):
        for duty in ('duty 3: Ada grant bench to Mia 14:00 15:00',
                     'duty 3: Ada revoke bench from Mia 14:00 15:00',
                     'duty 3: Mia use calibrate on detector 14:00 15:00'):
            words = duty.split()
            read_boards('a.txt', BEGIN + duty)
            for place in [0, *range(2, len(words))]:
                lost = ' '.join(words[:place] + words[place + 1:])
                with self.assertRaises(Refused, msg=lost):
                    read_boards('a.txt', BEGIN + lost)


def spoil(chance, lines):
    """Spoils one word, by losing, doubling, changing or exchanging it."""
    line = chance.choice([line for line in lines if line != ['']])
    place, other = chance.randrange(len(line)), chance.randrange(len(line))
    how = chance.randrange(4)
    if how == 0:
        del line[place]
    elif how == 1:
        line.insert(place, line[place])
    elif how == 2:
        line[place] = chance.choice(('x', '0', '99999999999', '-1', '14:61', 'to', '7:', 'é', '\x00', ':'))
    else:
        line[place], line[other] = line[other], line[place]
