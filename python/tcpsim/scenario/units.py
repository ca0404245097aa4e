"""Rates, times, sizes and queues as a command line has them: 10M, 5ms, droptail:50, codel:5ms:100ms.

Each reader takes a word and answers a number in the scenario's own unit (bit/s, ns, bytes, packets), or
raises `Wrong` with what is wrong with the word. Used by the commands; nothing but Python's
standard library.
"""
from __future__ import annotations

import math
import re
import sys
import warnings
from collections import namedtuple
from collections.abc import Sequence
from fractions import Fraction

from tcpsim.command_line import Wrong

HEADER_BYTES = 40
OPEN_WINDOW = 2**30         # bytes: a receiver's window that bounds nothing
BITS_NS = 8 * 10**9         # bits of a byte times nanoseconds of a second

# From docs/FORMATS.md: the least and the greatest of each number.
RANGES = {
    'end': (1, 10**15), 'rate': (1_000, 10**12), 'delay': (1, 10**10), 'capacity': (1, 65_535),
    'target': (1, 10**10), 'interval': (1, 10**10), 'maxpacket': (1, 65_535), 'mss': (1, 9_000),
    'segments': (1, 10**9), 'start': (0, 10**15 - 1), 'rwnd': (1, 2**30), 'delack': (0, 5 * 10**8),
}
RATE_UNITS = {'': 1, 'k': 10**3, 'M': 10**6, 'G': 10**9}
RATE_WORDS = {unit + bits: scale for unit, scale in RATE_UNITS.items() for bits in ('', 'bit', 'bit/s')}
TIME_UNITS = {'ns': 1, 'us': 10**3, 'ms': 10**6, 's': 10**9}
SIZE_UNITS = {'': 1, 'k': 10**3, 'M': 10**6, 'G': 10**9}
WORD = re.compile(r'([0-9]{1,20})(?:\.([0-9]{1,20}))?([A-Za-z/]*)')
PRODUCTS = re.compile(r'([0-9]{1,6}(?:\.[0-9]{1,6})?)?BDP(/sqrt\(n\))?')
CODEL_LIMIT = 1000          # packets, where `codel:TARGET:INTERVAL` names no limit
WITHIN = 'tcpsim', 'argparse', 'contextlib'     # modules that read a word, and are not the line that named it


# ---- numbers

def _amount(word: str, units: dict[str, int], what: str, example: str) -> int:
    found = WORD.fullmatch(word)
    if not found or found[3] not in units:
        raise Wrong(f'{word!r} is no {what}: write a number and a unit, as {example}')
    amount = Fraction(int(found[1] + (found[2] or '')), 10**len(found[2] or '')) * units[found[3]]
    if amount.denominator != 1:
        raise Wrong(f'{word!r} is no {what}: it is finer than the smallest unit')
    return int(amount)


def rate(word: str) -> int:
    """Bits a second: 10M, 1.5M, 800k, 1G, 10Mbit, 10Mbit/s; a number alone is bit/s."""
    return _amount(word, RATE_WORDS, 'rate', '10M (units k, M, G of bit/s)')


def time(word: str) -> int:
    """Nanoseconds: 20ms, 0.5s, 100us, 1ns; of the numbers alone only 0."""
    if word == '0':
        return 0
    found = WORD.fullmatch(word)
    if found and not found[3]:
        raise Wrong(f'{word!r} is no time, as it has no unit: write {word}s, {word}ms, {word}us or {word}ns')
    return _amount(word, TIME_UNITS, 'time', '20ms (units ns, us, ms, s)')


def moment(word: str) -> int:
    """A time that a run can have, in nanoseconds."""
    read = time(word)
    if read > RANGES['end'][1]:
        raise Wrong(f'{word!r} is past every run: at most {RANGES["end"][1] // TIME_UNITS["s"]:,} s')
    return read


def size(word: str) -> int:
    """Bytes: 64000, 64k, 1M, units of a thousand."""
    return _amount(word, SIZE_UNITS, 'size', '64k (bytes; units k, M, G)')


def count(word: str) -> int:
    """A whole number."""
    if not re.fullmatch('[0-9]{1,20}', word):
        raise Wrong(f'{word!r} is no whole number')
    return int(word)


def within(name: str, value: int, shown: str | None = None) -> int:
    """The value, where the program's range of `name` has it."""
    least, greatest = RANGES[name]
    if not least <= value <= greatest:
        spell = SPELLED.get(name, '{:,}'.format)
        raise Wrong(f'{shown or spell(value)} is out of range: {name} is from {spell(least)} to {spell(greatest)}')
    return value


def number(name: str, word: str) -> int:
    """The number that a scenario's field `name` has by this word, in its range."""
    return within(name, READERS[name](word), repr(word))


# ---- as words again

def _spelled(value: int, units: dict[str, int]) -> str:
    unit, scale = max(((unit, scale) for unit, scale in units.items() if scale <= max(value, 1)),
                      key=lambda entry: entry[1])
    whole, rest = divmod(value, scale)
    digits = str(scale + rest)[1:].rstrip('0')
    return f'{whole}{"." + digits if digits else ""}{unit}'


def spelled_rate(bits: int) -> str:
    """A rate in bit/s as `rate` reads it: 1.5M."""
    return _spelled(bits, RATE_UNITS)


def spelled_time(ns: int) -> str:
    """Nanoseconds as `time` reads them: 20ms."""
    return _spelled(ns, TIME_UNITS) if ns else '0'


READERS = {'end': time, 'rate': rate, 'delay': time, 'capacity': count, 'target': time, 'interval': time,
           'maxpacket': size, 'mss': size, 'segments': count, 'start': time, 'rwnd': size, 'delack': time}
SPELLED = {name: {rate: spelled_rate, time: spelled_time}.get(reader, '{:,}'.format)
           for name, reader in READERS.items()}


# ---- queues

class Products(namedtuple('Products', 'times root')):
    """A queue's capacity as a number of bandwidth-delay products of its link, or by the root of how many flows send over it."""

    def __str__(self) -> str:
        times = str(int(self.times)) if self.times.denominator == 1 else f'{float(self.times):g}'
        return f'{times * (self.times != 1)}BDP{"/sqrt(n)" * self.root}'

    def packets(self, bits: int, round_trip_of: int, packet: int, flows: int) -> int:
        """The whole packets that this is, at least one, of a rate in bit/s, a round trip in ns, bytes of a packet, and how many flows."""
        exact = self.times * bits * round_trip_of / (packet * BITS_NS)
        return max(1, math.isqrt(int(exact**2 / max(1, flows))) if self.root else int(exact))


class Queue(namedtuple('Queue', 'kind capacity target interval maxpacket', defaults=(0, 0, None))):
    """A link's queue. The capacity can be Products, and CoDel's maxpacket is None where it is to be the greatest packet."""

    @property
    def is_product(self) -> bool:
        """Whether its capacity depends on the link and its flows."""
        return isinstance(self.capacity, Products)

    def __str__(self) -> str:
        if self.kind == 'droptail':
            return f'droptail:{self.capacity}'
        times = f'codel:{spelled_time(self.target)}:{spelled_time(self.interval)}'
        if self.maxpacket is not None:
            return f'{times}:{self.capacity}:{self.maxpacket}'
        return times if self.capacity == CODEL_LIMIT else f'{times}:{self.capacity}'

    def words(self, packet: int, product: int) -> str:
        """The words of a link's statement from the kind of queue on. `packet` is the greatest in bytes, `product`
        its capacity in packets where that is Products."""
        capacity = product if self.is_product else self.capacity
        if self.kind == 'droptail':
            return f'droptail {capacity}'
        maxpacket = packet if self.maxpacket is None else self.maxpacket
        return f'codel {capacity} {self.target} {self.interval} {maxpacket}'


def queue(word: str, default_kind: str | None = None) -> Queue:
    """The queue of a word: droptail:N, droptail:BDP or codel:TARGET:INTERVAL[:LIMIT[:MAXPACKET]]; BDP can be 0.5BDP, or BDP/sqrt(n).
    With `default_kind` the kind may be left out."""
    kind, *numbers = word.split(':')
    if kind not in ('droptail', 'codel') and default_kind:
        kind, numbers = default_kind, [kind, *numbers]
    if kind == 'droptail' and len(numbers) == 1:
        products = PRODUCTS.fullmatch(numbers[0])
        return Queue(kind, Products(Fraction(products[1] or 1), bool(products[2])) if products else _limit(word, numbers[0]))
    if kind == 'codel' and len(numbers) in (2, 3, 4):
        limit = _limit(word, numbers[2]) if numbers[2:] else CODEL_LIMIT
        return Queue(kind, limit, time(numbers[0]), time(numbers[1]), size(numbers[3]) if numbers[3:] else None)
    raise Wrong(f'{word!r} is no queue: write droptail:N, droptail:BDP or codel:TARGET:INTERVAL[:LIMIT[:MAXPACKET]]')


def _limit(word: str, packets: str) -> int:
    if not re.fullmatch('[0-9]{1,20}', packets):
        raise Wrong(f'{word!r} is no queue: {packets!r} is no number of packets')
    return int(packets)


def queue_in_range(word: str) -> Queue:
    """The queue of a word, each of its numbers in its range."""
    read = queue(word)
    if not read.is_product:
        within('capacity', read.capacity)
    if read.kind == 'codel':
        within('target', read.target)
        within('interval', read.interval)
        if read.maxpacket is not None:
            within('maxpacket', read.maxpacket)
    warn_of_order([read])
    return read


def queues(words: str) -> list[Queue]:
    """The queues of a list; where a kind is left out, it is that of the queue before:
    droptail:10,50,codel:5ms:100ms has three."""
    read: list[Queue] = []
    for word in words.split(','):
        read.append(queue(word, read[-1].kind if read else None))
    warn_of_order(read)
    return read


def warn_of_order(queues: Sequence[Queue]) -> None:
    """Warns once of the queues whose target is above their interval, at the line outside of the package that named them. A tool says
    the sentence on standard error."""
    doubtful = [queue for queue in queues if queue.target > queue.interval]
    if not doubtful:
        return
    level, frame = 1, sys._getframe()
    while frame.f_back and frame.f_globals['__name__'].partition('.')[0] in WITHIN:
        level, frame = level + 1, frame.f_back
    more = f' (and {len(doubtful) - 1} more)' * (len(doubtful) > 1)
    warnings.warn(f'{doubtful[0]}{more} has a target above its interval: the order is codel:TARGET:INTERVAL', stacklevel=level)


def round_trip(link: int, paths: Sequence[tuple[Sequence[int], Sequence[int]]], delays: Sequence[int]) -> int:
    """The mean round trip, of delays alone, of the flows whose data goes over a link, or of those whose
    acknowledgements do where no data does; 0 where nothing does. `paths` are each flow's links there and back."""
    for sort in (0, 1):
        trips = [sum(delays[n] for path in both for n in path) for both in paths if link in both[sort]]
        if trips:
            return sum(trips) // len(trips)
    return 0


def flows_over(link: int, paths: Sequence[tuple[Sequence[int], Sequence[int]]], flows: Sequence) -> int:
    """How many flows have their data go over a link, or where none has, their acknowledgements. `paths` are each flow's. Mice, which have
    one segment in flight, are not counted."""
    many = [both for both, flow in zip(paths, flows) if flow.rwnd >= 2 * flow.mss]
    return next(filter(None, (sum(link in both[sort] for both in many) for sort in (0, 1))), 0)
