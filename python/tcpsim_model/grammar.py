"""The grammar of the prompt: names, numbers and times as they are typed, and what refusals mean."""
import re

from tcpsim_model.debugger import MOST, number_to
from tcpsim_model.scenario import Refused

MOST_LINE = 65_536      # bytes
MOST_WORD = 32          # bytes of a word whose nearest name is told
# The names that a first word can begin, the first of them first.
NAMES = (b'step', b'back', b'break', b'breaks', b'run', b'reverse', b'until', b'state', b'lines', b'delete', b'clear', b'help', b'quit', b'why',
         b'goto', b'where', b'names', b'display', b'undisplay', b'stalls')
# Names that go before a topic behind `help`; others go behind it.
BEFORE_TOPICS = NAMES[:NAMES.index(b'goto')]
# What a refusal means, told behind it.
MEANINGS = {
    'B1': 'B1: no command has this name, or no sort of breakpoint',
    'B2': 'B2: the number of words is another',
    'B3': 'B3: a word is no number, or out of its range; there is no such node, flow or kind',
    'B4': 'B4: a 65th breakpoint, or a 65th display',
    'B5': 'B5: there is no breakpoint of this number, or no display',
}
# What a refusal tells of a time.
UNITS_TOLD = 'a time has a unit, ns, us, ms or s, as 1.5s: see help until'
# The commands that can have the number of a node, a link or a flow: where one is refused, those that there are are told.
NUMBERED = (b'break', b'state', b'why', b'display')
PLACES = {b'ns': 0, b'us': 3, b'ms': 6, b's': 9}     # of a time's unit: how many digits a nanosecond is behind it
UNIT = tuple(PLACES)
TIME = re.compile(rb'(0|[1-9][0-9]*)(?:(?:\.([0-9]+))?(ns|us|ms|s))?')


def time_in(word):
    """A moment in nanoseconds: a number, or one with a unit and then maybe with digits behind a point."""
    found = TIME.fullmatch(word)
    if not found:
        raise Refused('B3')
    whole, part, unit = found[1], found[2] or b'', found[3] or b'ns'
    if len(whole) > 20 or len(part) > PLACES[unit]:
        raise Refused('B3')
    value = int(whole + part.ljust(PLACES[unit], b'0'))
    if value > MOST:
        raise Refused('B3')
    return value


def at_most(words, count):
    if len(words) > count:
        raise Refused('B2')


def count_in(words, most, default):
    """The one number that may stand behind a name."""
    at_most(words, 1)
    return number_to(most, words[0]) if words else default


def edits(word, name):
    """How many bytes have to be put in, taken out or replaced until a word is a name."""
    row = list(range(len(name) + 1))
    for before, byte in enumerate(word, 1):
        corner, row[0] = row[0], before
        for place, wanted in enumerate(name, 1):
            corner, row[place] = row[place], min(corner + (byte != wanted), row[place] + 1, row[place - 1] + 1)
    return row[-1]


def printable(word):
    return ''.join(chr(byte) if 32 <= byte <= 126 else '?' for byte in word)
