"""A line of a board in words, taken word by word, and the refusal that names it."""
import re

from .times import NoTime, minute_of

DIGITS = re.compile(r'[0-9]+')


class Refused(Exception):
    """Why something is no board, in one sentence."""


class Line:
    """The words of a line, with the file and the line's number."""

    def __init__(self, path, number, words):
        self.path = path
        self.number = number
        self.words = words
        self.taken = 1

    def refuse(self, text):
        raise Refused(f'{self.path}:{self.number}: {self.words[0]}: {text}')

    def more(self):
        return self.taken < len(self.words)

    def next(self):
        return self.words[self.taken]

    def take(self, what):
        """The next word, which is to be what is named."""
        if not self.more():
            self.refuse(f'{what} is missing')
        self.taken += 1
        return self.words[self.taken - 1]

    def take_one_of(self, *expected):
        """The next word, which is to be one of these."""
        listed = ', '.join(expected[:-1]) + (' or ' if expected[1:] else '') + expected[-1]
        word = self.take(listed)
        if word not in expected:
            self.refuse(f'{word} stands where {listed} is expected')
        return word

    def take_number(self, what, low, high):
        """The next word, which is to be a number in this range."""
        word = self.take(what)
        if not DIGITS.fullmatch(word):
            self.refuse(f'{what} is to be a number, not {word}')
        return self.number_in(what, word, low, high)

    def number_in(self, what, digits, low, high):
        """The number that the digits say, which is to be in this range and to have no 0 before it."""
        if len(digits) > 1 and digits[0] == '0':
            self.refuse(f'{what} {digits}: a number has no 0 before it')
        if len(digits) > len(str(high)) or not low <= int(digits) <= high:
            self.refuse(f'{what} {digits} is outside {low} to {high}')
        return int(digits)

    def take_time(self, what):
        """The next word, which is to be a time, as minutes."""
        word = self.take(what)
        try:
            return minute_of(word)
        except NoTime as fault:
            return self.refuse(f'{what}: {fault}')

    def end(self):
        """Refuses a word that stands where the line should end."""
        if self.more():
            self.refuse(f'{self.next()} is one word too many')


def lines_of(path, text):
    """The lines that have words, without comments."""
    split = (line.split('#')[0].split() for line in text.split('\n'))
    return [Line(path, number, words) for number, words in enumerate(split, 1) if words]
