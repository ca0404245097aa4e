"""The conditions of a breakpoint, as they are typed and as they are told, some on values: `cwnd<3000`, `queue L>50`, `time>=5s`,
`change cwnd F`."""
import re
from itertools import zip_longest

from tcpsim_model.debugger import KINDS, MOST, number_to
from tcpsim_model.grammar import time_in
from tcpsim_model.scenario import Refused
from tcpsim_model.text import FLOW, LINK, NODE

MOST_BYTE = 9 * 10**12      # of the greatest flow
SIGN, NUMBER, TIME, KIND, BYTE, PHASE, VALUE = 'sign', 'number', 'time', 'kind', 'byte', 'phase', 'value'
SORT, OTHER_SORT = 'sort', 'other sort'     # where a condition begins, and where its sort is there already
SIGNS = (b'<=', b'>=', b'<', b'>', b'=')
PARTS = re.compile(rb'<=|>=|[<>=]|[^<>=]+')
PHASES = (b'ss', b'ca', b'fr')
# Of each sort, in the order in which its words are told, what stands behind it.
BEHIND: dict[bytes, tuple[str, ...]] = {b'node': (NODE,), b'flow': (FLOW,), b'kind': (KIND,), b'drop': (), b'link': (LINK,), b'byte': (BYTE,)}
OF_SENDER: dict[bytes, tuple[str, ...]] = {
    b'cwnd': (SIGN, NUMBER), b'flight': (SIGN, NUMBER), b'ssthresh': (SIGN, NUMBER), b'una': (SIGN, NUMBER), b'nxt': (SIGN, NUMBER),
    b'rto': (SIGN, TIME), b'dups': (SIGN, NUMBER), b'phase': (PHASE,)}
OF_RECEIVER: dict[bytes, tuple[str, ...]] = {b'next': (SIGN, NUMBER)}
# What `change` can be of: what is a number.
OF_CHANGE = {*OF_SENDER, *OF_RECEIVER} - {b'phase'}
OF_LINK: dict[bytes, tuple[str, ...]] = {b'queue': (LINK, SIGN, NUMBER), b'wait': (LINK, SIGN, TIME), b'count': (LINK, SIGN, NUMBER)}
OF_VALUES: dict[bytes, tuple[str, ...]] = {**BEHIND, **OF_SENDER, **OF_RECEIVER, **OF_LINK, b'time': (SIGN, TIME), b'change': (VALUE, FLOW)}
# The words of values, behind `help`.
VALUE_WORDS = (*OF_SENDER, *OF_RECEIVER, *OF_LINK, b'time', b'change')
# What can be displayed, with the sort that stands behind it; of a flow and a link all their values.
DISPLAYED = {b'flow': FLOW, b'link': LINK, **dict.fromkeys((*OF_SENDER, *OF_RECEIVER), FLOW), **dict.fromkeys(OF_LINK, LINK)}
# What stands behind the sorts that have a node, a link or a flow alone behind them, in whatever command.
NAMED = {b'node': NODE, b'link': LINK, b'flow': FLOW, b'stall': FLOW}


def words_behind_break(words):
    """The words behind `break`, parted at signs."""
    return [part for word in words for part in PARTS.findall(word)]


def parted(words):
    """The words of each condition behind `break`."""
    while words:
        wanted = 1 + len(OF_VALUES.get(words[0], (VALUE,)))
        yield words[:wanted]
        words = words[wanted:]


def conditions_in(words, names):
    """The conditions that the words behind `break` are, in the order in which they are told; of each its sort and its value."""
    found = {}
    for part in parted(words):
        if part[0] not in OF_VALUES:
            raise Refused('B1')
        if part[0] in found:
            raise Refused('B2')
        if part[0] == b'change' and part[1:] and part[1] not in OF_CHANGE:
            raise Refused('B1')
        if len(part) < 1 + len(OF_VALUES[part[0]]):
            raise Refused('B2')
        found[part[0]] = part[1:]
    if not found:
        raise Refused('B2')
    values = {sort: tuple(read(place, word, names) for place, word in zip(OF_VALUES[sort], those)) for sort, those in found.items()}
    return tuple((sort, alone(values[sort])) for sort in OF_VALUES if sort in values)


def expected_in(words, names):
    """What is expected at the first word behind `break` that does not fit, or behind the last where one is missing; None where
    words are too many."""
    words, found = words_behind_break(words), set()
    if words[:1] == [b'stall']:
        return FLOW if len(words) == 2 else None
    for sort, *those in parted(words):
        if sort not in OF_VALUES or sort in found:
            return OTHER_SORT if sort in found else SORT
        found.add(sort)
        for place, word in zip_longest(OF_VALUES[sort], those):
            if word is None or not fits(place, word, names):
                return place
    return None if words else SORT


def fits(place, word, names):
    """Whether a word can be at a place."""
    if place == VALUE:
        return word in OF_CHANGE
    try:
        read(place, word, names)
    except Refused:
        return False
    return True


def alone(values):
    """None of no value, one by itself, several together."""
    return (values or (None,))[0] if len(values) < 2 else values


def read(place, word, names):
    """The value of a word at a place."""
    if place in (NODE, LINK, FLOW):
        return names.number_of(place, word)
    if place == TIME:
        return time_in(word)
    if place in (NUMBER, BYTE):
        return number_to(MOST if place == NUMBER else MOST_BYTE, word)
    if word not in {SIGN: SIGNS, KIND: KINDS, PHASE: PHASES, VALUE: OF_VALUES}[place]:
        raise Refused('B3')
    return word.decode()


def words_of(breakpoint, names):
    """A breakpoint's words behind `break`; `names` has what nodes, links and flows are called."""
    if isinstance(breakpoint[0], tuple):
        return ' '.join(words_of(condition, names) for condition in breakpoint)
    sort, value = breakpoint
    words = () if value is None else value if isinstance(value, tuple) else (value,)
    told = sort.decode()
    for place, word in zip(OF_VALUES.get(sort, (FLOW,)), words):
        signed = place == SIGN or told.endswith(('<', '=', '>'))
        named = names.name_of(place, word) if place in (NODE, LINK, FLOW) else word
        told += f'{"" if signed else " "}{named}{"ns" if place == TIME else ""}'
    return told


def named_in(name, words):
    """The words of a line that stand where a node, a link or a flow can, each with what it should be; `words` are those
    behind the command's name."""
    if name == b'why':
        return [(FLOW, word) for word in words[:1]]
    if name == b'state' or words[:1] == [b'stall']:
        return [(NAMED[words[0]], word) for word in words[1:2] if words[0] in NAMED]
    if name == b'display':
        return [(DISPLAYED[words[0]], words[1])]
    return [(place, word) for part in parted(words_behind_break(words)) for place, word in zip(OF_VALUES.get(part[0], ()), part[1:])
            if place in (NODE, LINK, FLOW)]
