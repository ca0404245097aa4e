"""Random lines that are typed at a prompt: valid ones, names cut short, times in each unit, refused ones, empty
lines, long ones, and spaces of all kinds."""
from tcpsim_model.debugger import KINDS, MOST, MOST_BREAKS
from tcpsim_model.conditions import BEHIND, DISPLAYED, NAMED, OF_LINK, OF_RECEIVER, OF_SENDER, OF_VALUES, PHASES, SIGNS, TIME, VALUE_WORDS
from tcpsim_model.displays import MOST_DISPLAYS
from tcpsim_model.grammar import MOST_LINE, NAMES, PLACES
from tcpsim_model.texts import TOPICS

# Numbers and times of a wrong form or out of range, and some at a bound.
WRONG_NUMBERS = (b'01', b'00', b'-1', b'+1', b'1.0', b'1_0', b'x', b'1x', b'0x1', b'\xd9\xa3', b'%d' % (MOST + 1), b'9' * 25,
                 b'1' * 5000)
TIMES_AT_BOUNDS = (b'0', b'0s', b'0.0s', b'0.5s', b'0.000000001s', b'0.0000000001s', b'1000000s', b'1000000.000000000s',
                   b'1000000.000000001s', b'1000001s', b'1000000000ms', b'1000000000us', b'1000000000000us',
                   b'1000000000000.001us', b'1000000000000000ns', b'1000000000000001ns', b'1.000us', b'1.0000us', b'1.000000ms',
                   b'1.0000000ms', b'1.0ns', b'1.ns', b'1.')
WRONG_TIMES = (b'1.5', b'1.s', b'.5s', b's', b'ms', b'.', b'.s', b'01s', b'00.5s', b'1m', b'1S', b'1Ms', b'1sec', b'1e3', b'1e3ns',
               b'1,5s', b'-1s', b'+1s', b'1.5.5s', b'1..5s', b'1 s', b'1.5 ms', b'1.-5s', b'1\xc2\xb5s', b'1\tms', b'9' * 25 + b's',
               b'1.' + b'0' * 30 + b's')
NO_COMMANDS = (b'bak', b'stepp', b'Step', b'S', b'steps', b'runn', b'x', b'?', b'---', b'#', b'# step', b'0', b'w', b'why', b'quitt',
               b'exit', b'cl ear', b'unti1', b'\xff', b'\0', b'step\t1', b'step\r', b'\tstep', b'\t', b'\r', b'\xc2\xa0', b'\x0b',
               b'step\xc2\xa01', b'run\x0c', b'gotos', b'goto', b'whe', b'where 1', b'print', b'p', b'print 3', b'watch', b'wa', b'inf', b'i', b'break foo', b'bre', b'infos', b'stal', b'stall', b'di',
               b'undo', b'und', b'display foo', b'dispaly', b'stallss')
# Words of the grammar, which a text can have for names.
GRAMMAR = (*BEHIND, b'cwnd', b'queue', b'next', *KINDS, b'stall', b'names', b'state', b'why', b'display', b'stalls')
SPACES = (b' ', b' ', b' ', b' ', b' ', b'  ', b'   ', b'      ')


def cut_short(pick, name):
    """A beginning of a name, often all of it."""
    return name if pick.random() < 0.5 else name[:pick.randint(1, len(name))]


def number(pick, *values):
    return pick.choice(WRONG_NUMBERS) if pick.random() < 0.12 else b'%d' % pick.choice(values)


def place(pick, scenario, sort, *values):
    """The number of one of a sort, or where there are names, often its name, seldom another's."""
    value = pick.choice(values)
    if not scenario.names or pick.random() < 0.4:
        return number(pick, value)
    if pick.random() < 0.2:
        name = pick.choice((*scenario.names, *scenario.names, *GRAMMAR, b'zz'))
        return name if pick.random() < 0.6 else name[:pick.randint(1, len(name))]
    return next((name for name, meant in scenario.names.items() if meant == (NAMED[sort], value)), b'%d' % value)


def time(pick, moments, end):
    """A moment near an event's, or at the end, in one of the forms; or a wrong one."""
    chance = pick.random()
    if chance < 0.2:
        return pick.choice(TIMES_AT_BOUNDS + WRONG_TIMES + WRONG_NUMBERS)
    return spelled(pick, pick.choice((*[pick.choice(moments) + pick.choice((0, 0, 1))] * 6, pick.randint(0, moments[-1] + 10**6), end,
                                      MOST)))


def spelled(pick, moment):
    """A moment in one of the forms, seldom in a wrong one."""
    unit = pick.choice((b'', *PLACES))
    places = PLACES.get(unit, 0)
    whole, part = divmod(moment, 10**places)
    digits = b'%0*d' % (places, part) if places else b''
    if pick.random() < 0.7:
        digits = digits.rstrip(b'0')
    if pick.random() < 0.05:
        digits += b'0'
    return b'%d' % whole + (b'.' + digits if digits else b'') + unit


def breakpoint_of(pick, scenario, moments):
    """The words of a breakpoint, most of them right."""
    if pick.random() < 0.5:
        words = on_value(pick, scenario, moments)
        while pick.random() < 0.3:
            words += (on_value(pick, scenario, moments) if pick.random() < 0.5 else condition(pick, scenario))
        return words
    if pick.random() < 0.3:
        return [b'stall'] + [place(pick, scenario, b'flow', pick.randrange(len(scenario.flows)))] * pick.choice((0, 1, 1))
    if pick.random() < 0.1:
        return [b'link', value_of(pick, b'link', scenario), b'drop']
    words = condition(pick, scenario)
    while pick.random() < 0.4:
        words += condition(pick, scenario)
    return words


def condition(pick, scenario):
    """The words of one condition of a breakpoint, most of them right."""
    sort = pick.choice((b'node', b'node', b'flow', b'flow', b'kind', b'kind', b'drop', b'link', b'link', b'byte'))
    if pick.random() < 0.1:
        sort = pick.choice((b'nod', b'n', b'f', b'link', b'kinds', b'queue', b'Drop', b'tx', b'break', b'', b'stall', b'byt'))
    words = [sort]
    if sort != b'drop' or pick.random() < 0.05:
        words.append(pick.choice(KINDS + (b'tx', b'Rto', b'rt')) if sort == b'kind' else value_of(pick, sort, scenario))
    return words


def value_of(pick, sort, scenario):
    """The number or the name behind the sort of a condition."""
    if sort == b'byte':
        return number(pick, pick.choice(scenario.flows).mss * pick.choice((0, 1, 2, 3, 8)), pick.choice((1, 9 * 10**12, 9 * 10**12 + 1)))
    count = counts(scenario).get(sort)
    if count is None:
        return number(pick, 0, 1)
    return place(pick, scenario, sort, pick.randrange(count), pick.randrange(count + 1))


def on_value(pick, scenario, moments):
    """The words of a condition on a value, most of them right, with or without spaces around a sign."""
    sort = pick.choice((*OF_SENDER, *OF_LINK, *OF_LINK, *OF_LINK, *OF_RECEIVER, b'time', b'change', b'change'))
    if sort == b'change':
        value = pick.choice((*OF_SENDER, *OF_RECEIVER)) if pick.random() < 0.95 else pick.choice((b'queue', b'time', b'cwn', b'0'))
        return [sort, value, value_of(pick, b'flow', scenario)]
    if sort == b'phase':
        return [sort, pick.choice((*PHASES, b'xx') if pick.random() < 0.9 else (b'=', b'<ss', b'SS'))]
    slowest = min(range(len(scenario.links)), key=lambda number: scenario.links[number].rate)
    link = [place(pick, scenario, b'link', slowest, pick.randrange(len(scenario.links)))] if sort in OF_LINK else []
    sign = pick.choice(SIGNS) if pick.random() < 0.95 else pick.choice((b'==', b'=<', b'<>', b'<<', b'!', b'=>', b''))
    words = [sort, *link, sign, bound_of(pick, sort, scenario, moments)]
    at = len(words) - 2
    if pick.random() < 0.5:
        words[at:] = [words[at] + words[at + 1]]
    if pick.random() < 0.5:
        words[at - 1:at + 1] = [words[at - 1] + words[at]]
    return words


def bound_of(pick, sort, scenario, moments):
    """What a value is compared with, often what it can be."""
    if sort == b'time':
        return time(pick, moments, scenario.end)
    if OF_VALUES[sort][-1] == TIME:
        return spelled(pick, pick.choice((0, 0, 1, 1000, 10**6, 3 * 10**6, 10**9, 2 * 10**9, *(b - a for a, b in zip(moments[:9], moments[1:])))))
    mss = pick.choice(scenario.flows).mss
    least = pick.choice((0, 1, 2, 3, 4, 5, 8))
    return number(pick, least if sort in (b'queue', b'count', b'dups') else least * mss, pick.choice((least * mss, 64_000, MOST, MOST + 1)))


def counts(scenario):
    return {b'node': len(scenario.nodes), b'link': len(scenario.links), b'flow': len(scenario.flows)}


def part(pick, scenario):
    """The words of a part of a state, most of them right."""
    if pick.random() < 0.08:
        return [pick.choice((b'nod', b'l', b'flows', b'kind', b'drop')), number(pick, 0, 1)]
    sort = pick.choice((b'node', b'link', b'flow', b'flow'))
    count = counts(scenario)[sort]
    return [sort, place(pick, scenario, sort, *(pick.randrange(count) for _ in range(4)), count)]


def displayed(pick, scenario):
    """The words behind `display`, most of them right."""
    if pick.random() < 0.15:
        return []
    item = pick.choice((b'flow', b'link', *DISPLAYED))
    count = counts(scenario)[DISPLAYED[item].encode()]
    whose = place(pick, scenario, DISPLAYED[item].encode(), *(pick.randrange(count) for _ in range(6)), count)
    if pick.random() < 0.07:
        item = pick.choice((b'flo', b'node', b'time', b'drop', b'Cwnd', b'change', b'stall', b'cwnd=', b'f', b'display'))
    return [item, whose]


def words_behind(pick, name, scenario, moments):
    """Words that go with a name."""
    if name in (b'step', b'back'):
        return [number(pick, 0, 1, 1, 2, 5, 12, 40, 300, MOST)] if pick.random() < 0.6 else []
    if name == b'until':
        return [time(pick, moments, scenario.end)]
    if name == b'goto':
        return [number(pick, 0, 1, 5, 11, 12, 40, 300, MOST, MOST + 1) if pick.random() < 0.5 else time(pick, moments, scenario.end)]
    if name == b'break':
        return breakpoint_of(pick, scenario, moments)
    if name == b'why':
        return [place(pick, scenario, b'flow', *(pick.randrange(len(scenario.flows)) for _ in range(5)), len(scenario.flows))]
    if name == b'state' and pick.random() < 0.65:
        return part(pick, scenario)
    if name == b'lines':
        return [number(pick, 0, 1, 3, 9, 10, 11, 40, 999, 1000, 1001)] if pick.random() < 0.6 else []
    if name == b'display':
        return displayed(pick, scenario)
    if name in (b'delete', b'undisplay'):
        return [number(pick, 0, 1, 1, 1, 2, 2, 3, 5, 64, 65, 100)]
    if name == b'help':
        return pick.choice(([], [cut_short(pick, pick.choice(NAMES))], [cut_short(pick, pick.choice(NAMES))],
                            [cut_short(pick, pick.choice((*TOPICS, *VALUE_WORDS)))], [pick.choice((b'n', b'k', b's', b'w', b'g', b'd', b'u'))],
                            [pick.choice(NO_COMMANDS)]))
    return []


def changed(pick, words):
    """With a word more, a word less, a word twice, or a byte changed."""
    change, at = pick.randrange(5), pick.randrange(len(words))
    if change == 0:
        return words + [pick.choice((b'1', b'0', b'x', b'drop', b'step', words[-1]))]
    if change == 1 and len(words) > 1:
        return words[:at] + words[at + 1:]
    if change == 2:
        return words[:at] + [words[at]] + words[at:]
    if change == 3:
        return words[:at] + [words[at].swapcase()] + words[at + 1:]
    place, byte = pick.randint(0, len(words[at])), pick.choice(b'0159abstxz.-\t\0 \xff')
    return words[:at] + [words[at][:place] + bytes((byte,)) + words[at][place:]] + words[at + 1:]


def spaced(pick, words):
    """The words with spaces between them, and maybe around."""
    line = words[0]
    for word in words[1:]:
        line += pick.choice(SPACES) + word
    if pick.random() < 0.15:
        line = pick.choice(SPACES) + line
    if pick.random() < 0.15:
        line += pick.choice(SPACES)
    return line


def lengthened(pick, line):
    """As long as a line may be, or longer by a little or much."""
    size = MOST_LINE + pick.choice((-1, 0, 0, 1, 1, 2, 70_000))
    if pick.random() < 0.3:
        return b'x' * size
    return line.ljust(size) if pick.random() < 0.5 else line.rjust(size)


def any_line(pick, scenario, moments):
    chance = pick.random()
    if chance < 0.12:
        return pick.choice((b'', b'', b'', b' ', b'   '))
    if chance < 0.17:
        return pick.choice(NO_COMMANDS)
    weights = {b'quit': 0.08, b'clear': 0.5, b'run': 2, b'reverse': 2, b'step': 2, b'break': 3, b'until': 2, b'goto': 2,
               b'display': 3}
    name = pick.choices(NAMES, [weights.get(name, 1) for name in NAMES])[0]
    words = [cut_short(pick, name), *words_behind(pick, name, scenario, moments)]
    if name == b'quit' and pick.random() < 0.5:
        words.append(b'now')
    if pick.random() < 0.06:
        words = changed(pick, words)
    line = spaced(pick, words)
    return lengthened(pick, line) if pick.random() < 0.004 else line


def many_breaks(pick, scenario):
    """More breakpoints than there may be, where the scenario has enough nodes and flows."""
    many = [b'break node %d' % n for n in range(len(scenario.nodes))] + [b'break flow %d' % n for n in range(len(scenario.flows))]
    many += [b'break kind ' + kind for kind in KINDS] + [b'break drop']
    pick.shuffle(many)
    return many


def many_displays(pick, scenario):
    """Of all that can be displayed more than there may be, where the scenario has so much."""
    many = [b'display %s %d' % (item, number) for item, sort in DISPLAYED.items() for number in range(counts(scenario)[sort.encode()])]
    return pick.sample(many, min(len(many), MOST_DISPLAYS + 5))


def any_session(pick, scenario, moments):
    """The bytes that are typed."""
    count = 300 if pick.random() < 0.01 else pick.choice((0, 1, 2, 5, 10, 20, 40, 40))
    lines = [any_line(pick, scenario, moments) for _ in range(count)]
    many = many_breaks(pick, scenario)
    if pick.random() < (0.5 if len(many) > MOST_BREAKS else 0.05):
        lines[:0] = many
        lines[len(many) // 2:len(many) // 2] = [any_line(pick, scenario, moments) for _ in range(5)]
        lines += [b'breaks'] + [b'delete %d' % pick.randint(1, len(many)) for _ in range(5)] + [b'breaks', pick.choice(many)]
    if pick.random() < 0.15:
        lines += [b'stalls', b'break stall', pick.choice((b'run', b'run', b'goto 99999', b'reverse')), *(b'why %d' % n for n in range(len(scenario.flows)))]
    if pick.random() < 0.04:
        many = many_displays(pick, scenario)
        lines = [*many, *lines, pick.choice(many), b'display', *(b'undisplay %d' % pick.randint(1, len(many)) for _ in range(5)), many[-1], b'step']
    return b'\n'.join(lines) + pick.choice((b'', b'\n'))
