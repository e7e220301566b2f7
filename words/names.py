"""Names of people, roles, actions and objects, each standing for a number."""
import difflib
import re
from typing import NamedTuple

from .board import ACTIONS, FIRST_USE, OBJECTS, ROLES, USERS

NAME = re.compile(r"[^\W\d_][\w.'-]*")
SENTENCE_WORDS = ('grant', 'revoke', 'use', 'to', 'from', 'on', 'by', 'wants', 'bars')


class Kind(NamedTuple):
    """A kind of thing: its words, its first number, the number above its last."""
    one: str
    many: str
    first: int
    above: int

    def a(self):
        return ('an ' if self.one[0] in 'ao' else 'a ') + self.one


PERSON = Kind('person', 'people', 0, USERS)
ROLE = Kind('role', 'roles', 0, ROLES)
ACTION = Kind('action', 'actions', FIRST_USE, ACTIONS)
OBJECT = Kind('object', 'objects', 0, OBJECTS)
KINDS = (PERSON, ROLE, ACTION, OBJECT)


class Names:
    """The names of a board: for each kind a list, in the order of their numbers."""

    def __init__(self):
        self.of = {kind: [] for kind in KINDS}

    def word(self, kind, number):
        """The name of a number, or the number where it has none."""
        place = number - kind.first
        return self.of[kind][place] if place < len(self.of[kind]) else str(number)

    def called(self, kind, number):
        """The name of a number, or its kind and the number: for people to read."""
        word = self.word(kind, number)
        return word if word in self.of[kind] else f'{kind.one} {word}'

    def number(self, kind, name):
        return kind.first + self.of[kind].index(name)

    def unknown(self, kind, word):
        """What to say about a word that is no name of this kind."""
        for other in KINDS:
            if word in self.of[other]:
                return f'{word} is the name of {other.a()}, and {kind.a()} is expected here'
        nearest = nearest_of(word, self.of[kind])
        return f'there is no {kind.one} {word}' + (f'; the nearest name is {nearest}' if nearest else '')


def nearest_of(word, known):
    """The known word most like this one, or None where none is known."""
    folded = {name.casefold(): name for name in known}
    found = difflib.get_close_matches(word.casefold(), folded, 1, 0.0)
    return folded[found[0]] if found else None


def fault_in_name(word):
    """Why a word cannot be a name, or None."""
    if word in SENTENCE_WORDS:
        return f'{word} is a word of the language and cannot be a name'
    if not NAME.fullmatch(word):
        return f"{word!r} is no name: a name begins with a letter, then come letters, digits and _ - . '"
    return None
