"""One scenario over a grid of values: what is set, which values it gets, and the text of each point.

A value is a word, as 20ms or droptail:50, or a range of them, A..B/STEP. Nothing but Python's standard library.
"""
from __future__ import annotations

import functools
import itertools
import re
from collections import namedtuple
from collections.abc import Callable, Iterable, Sequence
from typing import Any

from tcpsim.command_line import Wrong
from tcpsim.scenario import units
from tcpsim.scenario.senders import initial_window, variant
from tcpsim.scenario.text import Scenario, Unreadable
from tcpsim.scenario.units import HEADER_BYTES, Products, Queue, spelled_rate, spelled_time
from tcpsim.sweeps.shape import SHAPE, Option, options_of, with_options

MOST_RUNS = 100_000
# Where in a statement's words a field stands; `lose` has statements of its own. A flow's last two words may be left out.
WHERE: dict[str, dict[str, int]] = {
    'link': {'rate': 4, 'delay': 5, 'queue': 6, 'lose': -1},
    'flow': {'mss': 4, 'segments': 5, 'start': 6, 'rwnd': 7, 'delack': 8, 'variant': 9, 'iw': 10}, 'sim': {'end': 1}}
# The units of fields that are numbers with one, as the CSV's titles have them; those of a queue are its parts.
UNITS = {'rate': 'bit_s', 'delay': 'ns', 'mss': 'bytes', 'start': 'ns', 'rwnd': 'bytes', 'delack': 'ns', 'end': 'ns'}
Value = Any             # of a setting: a number, a word, a Queue, an OwnQueue, or several of one
QUEUE_UNITS = 'packets', 'target_ns', 'interval_ns'


# ---- what is swept

class Setting(namedtuple('Setting', 'key names field values option of_shape', defaults=(None,))):
    """A part of the command line, of --set or --over: `names` get each of `values` in turn, in their statements' `field`.
    `values` are numbers, queues, words, or the numbers of packets that are lost. `of_shape` is the option of tcpsim-net where the
    whole scenario is another one with each value."""

    def label(self, value: Value) -> str:
        """A value in words."""
        return self.of_shape.words(value) if self.of_shape else spell(self.field, value)

    def titles(self) -> list[str]:
        """The columns of a value's numbers, with their units."""
        if self.of_shape:
            return [f'{self.key}_{self.of_shape.kind.unit}'] if self.of_shape.kind.unit else []
        if self.field == 'queue':
            codel = any(value.kind == 'codel' for value in self.values)
            return [f'{self.key}_{unit}' for unit in QUEUE_UNITS[:3 if codel else 1]]
        return [f'{self.key}_{UNITS[self.field]}'] if self.field in UNITS else []

    def numbers(self, value: Value, text: str) -> dict[str, object]:
        """A value's numbers by their columns; `text` is the run's, which has how many packets a product is."""
        if self.field != 'queue' or self.of_shape:
            return dict.fromkeys(self.titles(), None if isinstance(value, tuple) else value)
        limit = capacity_in(text, self.names[0]) if value.is_product else value.capacity
        times = (value.target, value.interval) if value.kind == 'codel' else (None, None)
        return dict(zip(self.titles(), (limit, *times)))


class OwnQueue(namedtuple('OwnQueue', 'kind')):
    """A queue that is a class of Python's, by its name. The text keeps the link's own, which the class can read."""

    is_product = False
    capacity: int | None = None
    target: int | None = None
    interval: int | None = None

    def __str__(self) -> str:
        return self.kind


def capacity_in(text: str, link: str) -> int:
    """The packets that a link's queue has room for, in a text."""
    return next(int(words[7]) for words in map(str.split, text.split('\n')) if words[:2] == ['link', link])


def spell(field: str, value: Value) -> str:
    """A value as a command line has it."""
    if field == 'rate':
        return spelled_rate(value)
    if field == 'lose':
        return '+'.join(map(str, value)) or 'none'
    return spelled_time(value) if units.READERS.get(field) is units.time else str(value)


class Pattern:
    """A scenario's text whose statements' words can be changed."""

    def __init__(self, text: str):
        self.lines = text.split('\n')
        self.places: dict[str, int] = {}        # of each name, and of `sim`
        self.sorts: dict[str, str] = {}
        for number, line in enumerate(self.lines):
            words = line.partition('#')[0].split()
            if words and words[0] in ('node', 'link', 'flow') and len(words) > 1:
                self.places.setdefault(words[1], number)
                self.sorts.setdefault(words[1], words[0])
            elif words and words[0] == 'sim':
                self.places['sim'], self.sorts['sim'] = number, 'sim'
        self.packet = greatest_packet(self.lines)
        self.own: dict[str, dict[str, Callable]] = {}       # of a link the classes that can be its queue, by their names

    def end(self) -> int:
        """When the scenario ends, in ns; 0 where that is no number."""
        words = self.lines[self.places['sim']].split() if 'sim' in self.places else []
        return int(words[1]) if len(words) > 1 and re.fullmatch('[0-9]{1,16}', words[1]) else 0

    def named(self, sort: str) -> list[str]:
        """The names of all nodes, links or flows."""
        return [name for name, its in self.sorts.items() if its == sort]

    def know(self, variants: Iterable[Pattern]) -> None:
        """Takes the names of these for its own too."""
        for each in variants:
            self.sorts.update({name: sort for name, sort in each.sorts.items() if name not in self.sorts})

    def point(self, settings: Sequence[Setting], values: Sequence[Value]) -> str:
        """The text with each setting's value. Queues come last: a bandwidth-delay product is that of the point."""
        shaped = [(each, value) for each, value in zip(settings, values) if each.of_shape]
        if shaped:
            rest = [(each, value) for each, value in zip(settings, values) if not each.of_shape]
            return self.shaped(shaped).point([each for each, _ in rest], [value for _, value in rest])
        lines = list(self.lines)
        queues: list[tuple[str, Queue]] = []
        for setting, value in zip(settings, values):
            for name in self.names_of(setting):
                if setting.field == 'queue':
                    queues += [] if isinstance(value, OwnQueue) else [(name, value)]
                elif setting.field == 'lose':
                    lose(lines, name, value)
                else:
                    self._put(lines, name, setting.field, [f'iw{value}' if setting.field == 'iw' else str(value)])
        packet = greatest_packet(lines) if any(each.field == 'mss' for each in settings) else self.packet
        for product in (False, True):           # the delays of all queues' links stand before a product is asked for
            for name, queue in queues:
                limit = packets_of(queue.capacity, '\n'.join(lines), name, packet) if product and queue.is_product else 1
                self._put(lines, name, 'queue', queue.words(packet, limit).split())
        return '\n'.join(lines)

    def shaped(self, given: Sequence[tuple[Setting, Value]]) -> Pattern:
        """That of the text which tcpsim-net writes with these values of its options."""
        return pattern_of(with_options('\n'.join(self.lines), tuple((each.of_shape.word, each.label(value)) for each, value in given)))

    def names_of(self, setting: Setting) -> list[str]:
        """Which links or flows a setting is of."""
        return self.named(sort_of(setting.field) or '') if setting.key.startswith('*.') else setting.names

    def _put(self, lines: list[str], name: str, field: str, values: list[str]) -> None:
        line = lines[self.places[name]]
        statement, sign, comment = line.partition('#')
        words = statement.split()
        at = WHERE[self.sorts[name]][field]
        if field in ('variant', 'iw') and len(words) == WHERE['flow']['variant']:
            words += ['reno', 'iw3']
        if field == 'queue':
            words[at:] = values
        else:
            words[at:at + 1] = values
        lines[self.places[name]] = ' '.join(words) + (f'  {sign}{comment}' if sign else '')


@functools.lru_cache(maxsize=128)
def pattern_of(text: str) -> Pattern:
    """The pattern of a text."""
    return Pattern(text)


def sort_of(field: str) -> str | None:
    """Of what a field is: a link, a flow or the run."""
    return next((sort for sort, fields in WHERE.items() if field in fields), None)


def lose(lines: list[str], name: str, numbers: Sequence[int]) -> None:
    """Has a link lose these packets and no others. Lines keep their numbers; what is new stands at the end."""
    for number, line in enumerate(lines):
        if line.partition('#')[0].split()[:2] == ['lose', name]:
            lines[number] = ''
    last = [] if lines[-1] else [lines.pop()]
    lines += [f'lose {name} {number}' for number in numbers] + last


def losses(word: str) -> tuple[int, ...]:
    """The packets of a word: 5, or 5+6 for two, or none."""
    numbers = [] if word == 'none' else [units.count(number) for number in word.split('+')]
    if len(set(numbers)) < len(numbers):
        raise Wrong(f'{word!r}: a packet stands there twice')
    return tuple(sorted(numbers))


def greatest_packet(lines: list[str]) -> int:
    """Bytes of the greatest packet of any flow, as far as the lines have flows."""
    sizes = [int(words[4]) for words in (line.partition('#')[0].split() for line in lines)
             if len(words) in (9, 11) and words[0] == 'flow' and re.fullmatch('[0-9]{1,9}', words[4])]
    return max(sizes, default=1460) + HEADER_BYTES


def packets_of(products: Products, text: str, name: str, packet: int) -> int:
    """What a capacity is in packets of this size in bytes, at a link of a text; 1 in a text that has no paths."""
    try:
        read = Scenario(text)
    except Unreadable:
        return 1
    number = [link.name for link in read.links].index(name)
    trip = units.round_trip(number, read.paths, [link.delay for link in read.links])
    return products.packets(read.links[number].rate, trip, packet, units.flows_over(number, read.paths, read.flows))


def setting(word: str, pattern: Pattern, option: str = '--set') -> Setting:
    """What an option names: NAME.FIELD=VALUE,.. with `+` between several names and `*` for all, or end=TIME,.."""
    key, sign, values = word.partition('=')
    names, dot, field = key.rpartition('.')
    if key == 'end':
        names, field = 'sim', 'end'
    elif not dot:
        return setting_of_shape(word, pattern, option)
    sort = sort_of(field)
    if sort is None or (field == 'end') != (names == 'sim'):
        raise Wrong(f'{option} {word!r}: there is no field {field!r}; of a link there are {", ".join(WHERE["link"])}, of a '
                    f'flow {", ".join(WHERE["flow"])}')
    if not sign or not values:
        raise Wrong(f'{option} {word!r}: no value is given, as {key}={EXAMPLES[field]}')
    own = {name for link in names.split('+') for name in pattern.own.get(link, ())} if field == 'queue' else ()
    read: list[Value] = []
    for is_own, group in itertools.groupby(values.split(','), lambda value: value in own):
        read += map(OwnQueue, group) if is_own else values_of(word, field, ','.join(group), option)
    listed = pattern.named(sort) if names == '*' else names.split('+')
    for name in listed:
        if pattern.sorts.get(name) != sort:
            there = pattern.named(sort)
            shown = ', '.join(there[:12]) + ', ..' * (len(there) > 12)
            raise Wrong(f'{option} {word!r}: the scenario has no {sort} {name!r}' + f', only {shown}' * bool(there))
    return check_once(Setting(key, listed, field, read, option), word)


def setting_of_shape(word: str, pattern: Pattern, option: str) -> Setting:
    """What an option of tcpsim-net's is to be: rtt=20ms,50ms, in a scenario that tcpsim-net wrote."""
    key, _, values = word.partition('=')
    key = key.replace('_', '-')
    try:
        options = options_of('\n'.join(pattern.lines))
    except Wrong as wrong:
        raise Wrong(f'{option} {word!r}: write LINK.FIELD=VALUE,.. or FLOW.FIELD=VALUE,.. or end=TIME,..; options of tcpsim-net are '
                    f'none here, as {wrong}') from None
    if key not in options or not values:
        raise Wrong(f'{option} {word!r}: write LINK.FIELD=VALUE,.. or FLOW.FIELD=VALUE,.. or end=TIME,.. or OPTION=VALUE,.., with an option '
                    f'of this tcpsim-net: {", ".join(options)}')
    of = options[key]
    try:
        if of.kind.read is units.queue:
            read = units.queues(','.join(itertools.chain.from_iterable(spread(value, 'queue') for value in values.split(','))))
        else:
            read = list(itertools.chain.from_iterable(of_shape(value, of) for value in values.split(',')))
    except Wrong as wrong:
        raise Wrong(f'{option} {word!r}: {wrong}') from None
    return check_once(Setting(key, [SHAPE], key, read, option, of), word)


def of_shape(value: str, of: Option) -> list:
    """The values of one word of an option of tcpsim-net's: one, those of a range, or one for several flows."""
    if '..' in value:
        return in_range(value, of.kind.read)
    parts = [of.kind.read(part) for part in value.split('+')]
    if len(parts) > 1 and not of.many:
        raise Wrong(f'{value!r} has several values, and {of.word} takes one')
    return parts if len(parts) == 1 else [tuple(parts)]


def check_once(found: Setting, word: str) -> Setting:
    """The setting, or Wrong where it has a value twice."""
    if len(set(found.values)) < len(found.values):
        raise Wrong(f'{found.option} {word!r}: a value stands there twice')
    return found


EXAMPLES = {'queue': 'droptail:10,50,codel:5ms:100ms', 'rate': '1M,10M', 'delay': '20ms,100ms',
            'lose': 'none,5,5+6', 'mss': '536,1460', 'segments': '100,1000', 'start': '0,1s', 'rwnd': '64000,1M',
            'delack': '0,40ms', 'variant': 'reno,newreno', 'iw': '3,10', 'end': '20s'}
READERS = {**units.READERS, 'lose': losses, 'variant': variant, 'iw': initial_window}


# ---- values

def values_of(word: str, field: str, values: str, option: str = '--set') -> list:
    """The values of a word of an option, or Wrong."""
    try:
        read = list(itertools.chain.from_iterable(spread(value, field) for value in values.split(',')))
        read = units.queues(','.join(read)) if field == 'queue' else read
    except Wrong as wrong:
        raise Wrong(f'{option} {word!r}: {wrong}') from None
    return read


def spread(value: str, field: str) -> list:
    """The values of one word: one, or those of a range. Of a queue they are words still: each of its numbers can be a
    range, and its kind can be that of the one before."""
    if field == 'queue':
        parts = [[part] if '..' not in part else list(map(str, in_range(part, units.count))) if part.replace('.', '').replace(
            '/', '').isdigit() else list(map(spelled_time, in_range(part, units.time))) for part in value.split(':')]
        return list(map(':'.join, itertools.product(*parts)))
    if '..' not in value:
        return [READERS[field](value)]
    if field in ('variant', 'iw'):
        raise Wrong(f'{value!r} is a range, and {field} has none: write {EXAMPLES[field]}')
    if field == 'lose':
        return [(number,) for number in in_range(value, units.count)]
    return in_range(value, READERS[field])


def in_range(word: str, read: Callable[[str], Value]) -> list[int]:
    """The values of A..B/STEP: A and each STEP further that is not past B. Numbers without a unit go by 1 where no STEP is
    given."""
    first, _, rest = word.partition('..')
    last, slash, step = rest.partition('/')
    examples: dict[object, str] = {units.time: '100ms..1s/100ms', units.rate: '1M..5M/1M', units.size: '500..1500/100'}
    example = examples.get(read, '10..50/10')
    if not slash and read is not units.count:
        raise Wrong(f'{word!r} is a range without a step: write {first}..{last}/STEP, as {example}')
    least, greatest, by = read(first), read(last), read(step) if slash else 1
    if by == 0:
        raise Wrong(f'{word!r} is a range with a step of 0: write a step above it, as {example}')
    if greatest < least:
        raise Wrong(f'{word!r} is a range that ends before it begins: write the lesser first, as {example}')
    if (greatest - least) // by >= MOST_RUNS:
        raise Wrong(f'{word!r} has {(greatest - least) // by + 1:,} values, and {MOST_RUNS:,} runs are the most')
    return list(range(least, greatest + 1, by))


def variants_of(pattern: Pattern, settings: Sequence[Setting]) -> dict[str, Pattern]:
    """The patterns of all choices of the values of these options of tcpsim-net, by what is chosen."""
    found = {}
    for values in itertools.product(*(each.values for each in settings)) if settings else ():
        words = ' '.join(f'{each.key}={each.label(value)}' for each, value in zip(settings, values))
        try:
            found[words] = pattern.shaped(list(zip(settings, values)))
        except Wrong as wrong:
            raise Wrong(f'{words}: {wrong}') from None
    return found


def is_of_shape(word: str) -> bool:
    """Whether a word sets an option of tcpsim-net's."""
    key = word.partition('=')[0]
    return '.' not in key and key != 'end'


def settings_of(words: Sequence[str], pattern: Pattern, over: Sequence[str] = ()) -> list[Setting]:
    """All settings, those of --over last; none sets what another sets. Where options of tcpsim-net are set, `pattern` knows the names
    of every scenario that they give."""
    given, taken = [('--set', word) for word in words] + [('--over', word) for word in over], set()
    of_shape = [setting(word, pattern, option) for option, word in given if is_of_shape(word)]
    variants = variants_of(pattern, of_shape)
    pattern.know(variants.values())
    settings = [of_shape.pop(0) if is_of_shape(word) else setting(word, pattern, option) for option, word in given]
    for words, variant in variants.items():
        for each in settings:
            if not each.of_shape and not variant.places.keys() >= set(variant.names_of(each)):
                lacks = next(name for name in each.names if name not in variant.places)
                raise Wrong(f'{each.option} {each.key}: with {words} there is no {lacks}')
    for each in settings:
        for name in each.names:
            if (name, each.field) in taken:
                raise Wrong(f'{each.option} sets {name}.{each.field} twice')
            taken.add((name, each.field))
    count = 1
    for each in settings:
        count *= len(each.values)
    if count > MOST_RUNS:
        raise Wrong(f'the grid has {count:,} runs, and {MOST_RUNS:,} is the most')
    return settings
