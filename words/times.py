"""Times: minutes as they stand in a board, and as people write them."""
import re

from .board import LAST_MINUTE

DAY = 24 * 60
CLOCK_TIME = re.compile(r'(?:([0-9]{1,8})\+)?([0-9]{1,2}):([0-9]{2})')
MINUTES = re.compile(r'0|[1-9][0-9]*')


class NoTime(Exception):
    """A word that is no time; says why."""


def minute_of(word):
    """The minute that a word says: minutes, 14:10, or day and time as 2+14:10."""
    clock_time = CLOCK_TIME.fullmatch(word)
    if clock_time:
        day, hour, minute = (int(number or 0) for number in clock_time.groups())
        if hour > 23 or minute > 59:
            raise NoTime(f'{word} cannot be: hours go from 0 to 23 and minutes from 00 to 59')
        found = day * DAY + hour * 60 + minute
    elif MINUTES.fullmatch(word):
        found = int(word) if len(word) <= len(str(LAST_MINUTE)) else LAST_MINUTE + 1
    else:
        raise NoTime(f'{word} is no time: write 14:10, 2+14:10 (day 2) or minutes')
    if found > LAST_MINUTE:
        raise NoTime(f'{word} is after the last minute, {LAST_MINUTE} ({time_of(LAST_MINUTE)})')
    return found


def time_of(minute):
    """A minute as people write it: 14:10, or with its day 2+14:10."""
    day, rest = divmod(minute, DAY)
    return (f'{day}+' if day else '') + f'{rest // 60}:{rest % 60:02}'
