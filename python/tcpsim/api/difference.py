"""Where two runs part: the first event that differs, in a sentence, and the figures of flows and links that differ.

Events are matched by their moment, node, kind and packet, by names: what stands elsewhere in the trace is the same event. Both
traces are read side by side, once, and of them only the present moment is kept. Nothing but Python's standard library.
"""
from __future__ import annotations

import itertools
from collections import defaultdict, deque
from collections.abc import Callable, Iterable, Iterator, Mapping, Sequence
from typing import NamedTuple

from tcpsim.api.answers import QueuedPacket
from tcpsim.api.events import Event, Names, events_of
from tcpsim.api.results import html_table
from tcpsim.api.scenarios import ScenarioText
from tcpsim.api.session import DebugSession
from tcpsim.output import aligned
from tcpsim.scenario.text import Flow, Link, Node, Scenario
from tcpsim.scenario.units import spelled_time

STATE = 'una', 'nxt', 'cwnd', 'ssthresh', 'phase', 'next'      # of an `Event`, as it leaves its node
NEVER = 1 << 62         # past every moment of a run
# How a unit is shown; counts have none but the figure's name.
UNITS: dict[str, Callable[..., str]] = {
    'ns': spelled_time, 'bit/s': lambda bits: f'{bits / 1e6:.3f} Mbit/s', 'part': lambda part: f'{100 * part:.4g} %',
    'index': '{:.4f}'.format, 'word': str, 'link': str}


class Side(NamedTuple):
    """A run that is compared: its scenario, the lines of its trace, the rows of its figures, and what waits at a link, by
    name, at a position."""

    scenario: Scenario
    lines: Iterable[str]
    figures: Sequence[tuple]
    queue: Callable[[int, str], Sequence[QueuedPacket]]


def queue_at(scenario: ScenarioText, engine: str | None, queues: Mapping[str, Callable[..., object]] | None, position: int,
             link: str) -> Sequence[QueuedPacket]:
    """What waits at a link at a position; engine and queues are those of `debug`."""
    with DebugSession(scenario, engine, queues) as at:
        at.goto(position)
        return at.state.links[link].queue


# ---- the first event that differs

class Parting(NamedTuple):
    """Where two runs part, behind the events that are the same. `here` and `there` are the lines of one event, or None in a
    run that has none now, in which it comes `later`, if it does; both None where all events are the same. `positions` are
    those before it, as the debugger's goto counts them."""

    same: int
    here: str | None
    there: str | None
    positions: tuple[int, int]
    later: int | None


def time_of(line: str) -> int:
    """The moment of a line; that of `end` is past all."""
    number, time = line.split(' ', 2)[:2]
    return NEVER if number == 'end' else int(time)


def parted(line: str) -> tuple[tuple[str, ...], tuple[str, ...]]:
    """What an event is, its node, kind and packet, and what came of it."""
    words = line.split(' ')
    at = 8 if words[5] in ('data', 'ack') else 7
    return (words[2], *words[5:at]), tuple(words[at:])


class Renaming:
    """Gives a line the numbers that another scenario has for the same names, and for others words that are no numbers."""

    def __init__(self, of: Scenario, to: Scenario):
        self._nodes, self._links = numbers(of.nodes, to.nodes), numbers(of.links, to.links)
        self._flows = numbers(of.flows, to.flows)
        self._acts = {f'tx={number}': f'tx={other}' for number, other in self._links.items()}
        self.changes = any(number != other for each in (self._nodes, self._links, self._flows) for number, other in each.items())

    def __call__(self, line: str) -> str:
        """The line; that its event came over a link stays, as an event is what it is without it."""
        words = line.split(' ')
        if words[0] == 'end':
            return line
        words[2] = self._nodes[words[2]]
        words[6] = (self._links if words[5] == 'free' else self._flows)[words[6]]
        for at, word in enumerate(words[7:], 7):
            if ':' in word:
                act, flow, number = word.split(':')
                words[at] = f'{self._acts.get(act, act)}:{self._flows[flow]}:{number}'
        return ' '.join(words)


def numbers(of: Sequence[Node | Link | Flow], to: Sequence[Node | Link | Flow]) -> dict[str, str]:
    """For the number of each thing that of the other with its name."""
    others = {each.name: str(at) for at, each in enumerate(to)}
    return {str(at): others.get(each.name, f'+{each.name}') for at, each in enumerate(of)}


def first_parting(here: Side, there: Side) -> Parting:
    """Where two runs part."""
    forth, back = Renaming(here.scenario, there.scenario), Renaming(there.scenario, here.scenario)
    count, ours, theirs = 0, iter(here.lines), iter(there.lines)
    while True:
        for a, b in zip(ours, theirs):
            if a != (back(b) if back.changes else b):
                break
            count += 1
        else:
            return Parting(count - 1, None, None, (count - 1, count - 1), None)     # `end` is no event
        time = min(time_of(a), time_of(b))
        (now, ours), (then, theirs) = moment_of(a, ours, time), moment_of(b, theirs, time)
        k, j = parting_in(now, list(map(back, then)))
        if k is None and j is None:
            count += len(now)
            continue
        same, later = len(now) if k is None else k, None
        if k is not None and j is None:
            later = next_time(parted(forth(now[k]))[0], theirs)
        elif j is not None and k is None:
            later = next_time(parted(back(then[j]))[0], ours)
        return Parting(count + same, None if k is None else now[k], None if j is None else then[j],
                       (count + same, count + (same if j is None else j)), later)


def moment_of(first: str, lines: Iterator[str], time: int) -> tuple[list[str], Iterator[str]]:
    """The lines of a moment, the first among them if it is of it, and those behind."""
    found = []
    while time_of(first) == time:
        found.append(first)
        first = next(lines)
    return found, itertools.chain([first], lines)


def parting_in(now: list[str], then: list[str]) -> tuple[int | None, int | None]:
    """The places in a moment's lines of the event that differs; None of a run that has none."""
    left: defaultdict[tuple[str, ...], deque[tuple[int, tuple[str, ...]]]] = defaultdict(deque)
    for j, line in enumerate(then):
        what, came = parted(line)
        left[what].append((j, came))
    for k, line in enumerate(now):
        what, came = parted(line)
        if not left[what]:
            return k, None
        j, other = left[what].popleft()
        if came != other:
            return k, j
    return None, min((j for places in left.values() for j, _ in places), default=None)


def next_time(what: tuple[str, ...], lines: Iterable[str]) -> int | None:
    """When an event comes next; None where it does not."""
    words = f' {" ".join(what[1:])}'
    return next((time_of(line) for line in lines if words in line and parted(line)[0] == what), None)


# ---- in words

def moment(time: int) -> str:
    """A moment of a run, in words."""
    return f'{time / 10**9:.9f}'.rstrip('0').rstrip('.') + ' s'


def happens(event: Event) -> str:
    """What an event is, in words."""
    words = {'start': f'flow {event.flow} starts', 'rto': f'the timer of {event.flow} ends',
             'delack': f'the delayed acknowledgement of {event.flow} is due', 'free': f'link {event.link} becomes free'}
    return words.get(event.kind) or f'{event.kind} {event.number} of {event.flow} comes to {event.node}'


def acts_of(event: Event, names: Names) -> list[tuple]:
    """What is done to packets: (`tx` or why it is dropped, the link, the flow, the number)."""
    split = (act.split(':') for act in event.acts)
    return [('tx' if word in names.sending else word[5:], names.sending.get(word) or names.link_of(event), names.flows[flow], int(number))
            for word, flow, number in split]


class Fate(NamedTuple):
    """What becomes of a packet in an event: at which link; `tx`, why it is dropped, or its place in the queue, if it has one."""

    link: str
    kind: str                   # data or ack
    what: str | int | None
    more: str                   # behind why it is dropped

    def told(self, packet: str) -> str:
        """In words, of a packet by its name."""
        if self.what == 'tx':
            return f'link {self.link} begins to send {packet}'
        if isinstance(self.what, str):
            return f'link {self.link} drops {packet} ({self.what}{self.more})'
        return f'{packet} {self.more} at place {self.what} of link {self.link}' if self.what else f'{packet} is not sent'

    def told_of_it(self, link: str) -> str:
        """In words, where packet and link are known."""
        if self.link != link:
            return self.told('it')
        if self.what == 'tx':
            return 'it begins to be sent'
        if isinstance(self.what, str):
            return f'it is dropped ({self.what}{self.more})'
        return f'it {self.more} at place {self.what}' if self.what else 'it is not sent'


def fate_of(side: Side, event: Event, position: int, flow: str, number: int) -> Fate:
    """What becomes of a packet in the event behind a position."""
    names = Names(side.scenario)
    what, link = next(((what, link) for what, link, *whose in acts_of(event, names) if whose == [flow, number]),
                      (None, names.link_of(event)))
    before, after = ([(at, each) for at, each in enumerate(side.queue(where, link), 1) if (each.flow, each.number) == (flow, number)]
                     for where in (position, position + 1))
    kind = before[0][1].kind if before else 'ack' if event.next is not None else 'data' if event.una is not None else event.kind
    declared = next(each for each in side.scenario.links if each.name == link)
    if what == 'full' and declared.queue in ('droptail', 'codel'):
        return Fate(link, kind, what, f': {declared.capacity} of {declared.capacity}')
    if what is not None:
        waited = before and what not in ('tx', 'lost')
        return Fate(link, kind, what, f': after {spelled_time(event.time_ns - before[0][1].entered_ns)}' if waited else '')
    return Fate(link, kind, after[-1][0] if after else None, 'enters' if len(after) > len(before) else 'waits')


def sentence(parting: Parting, here: Side, there: Side) -> str:
    """Where two runs part, in a sentence."""
    same = f'the same {parting.same:,} event{"s" * (parting.same != 1)}' if parting.same else 'no event is the same'
    if parting.here is None and parting.there is None:
        return same
    ours, theirs = (None if line is None else next(events_of([[line]], Names(side.scenario)))
                    for line, side in ((parting.here, here), (parting.there, there)))
    if ours and theirs:
        return f'{same}; at {moment(ours.time_ns)} {came_of(parting, ours, theirs, here, there)}'
    event, where, other = (ours, 'there', there) if ours else (theirs, 'here', here)
    assert event
    if event.time_ns >= other.scenario.end:
        after = f'{where} the run ends at {moment(other.scenario.end)}'
    else:
        after = f'{where} not at all' if parting.later is None else f'{where} at {moment(parting.later)}'
    return f'{same}; at {moment(event.time_ns)} {"" if ours else "there "}{happens(event)}, {after}'


def came_of(parting: Parting, ours: Event, theirs: Event, here: Side, there: Side) -> str:
    """What came of an event in either run."""
    if states := [(f'{name}={getattr(ours, name)}', f'{name}={getattr(theirs, name)}') for name in STATE
                  if getattr(ours, name) != getattr(theirs, name)]:
        mine, others = map(' '.join, zip(*states))
        return f'{happens(ours)}: {mine}, there {others}'
    acts = itertools.zip_longest(acts_of(ours, Names(here.scenario)), acts_of(theirs, Names(there.scenario)))
    *_, flow, number = next(mine or other for mine, other in acts if mine != other)
    fates = (fate_of(side, event, position, flow, number)
             for side, event, position in zip((here, there), (ours, theirs), parting.positions))
    our_fate, their_fate = fates
    return f'{our_fate.told(f"{our_fate.kind} {number} of {flow}")}, there {their_fate.told_of_it(our_fate.link)}'


# ---- figures

class Changed(NamedTuple):
    """A figure that differs; None in a run that has none."""

    what: str                   # flow, link or run
    name: str
    figure: str
    unit: str
    here: object
    there: object

    @property
    def relative(self) -> float | None:
        """The difference over the greater of both, from -1 to 1, below 0 where there is less there; None where it is of no numbers."""
        if not isinstance(self.here, (int, float)) or not isinstance(self.there, (int, float)):
            return None
        return (self.there - self.here) / max(abs(self.here), abs(self.there))

    def shown(self) -> list[str]:
        """The row of a table for people."""
        return [' '.join(filter(None, (self.what, self.name))) + f': {self.figure}', *(in_words(self, value) for value in self[-2:]),
                '' if self.relative is None else f'{100 * self.relative:+.1f} %']


def in_words(row: Changed, value: object) -> str:
    """A figure in words, `-` where there is none."""
    if value is None:
        return '-'
    unit = 'index' if row.figure.startswith('Jain') else row.unit
    return UNITS[unit](value) if unit in UNITS else f'{value:,}' if isinstance(value, int) else f'{value:.4g}'


def changes(here: Sequence[tuple], there: Sequence[tuple]) -> list[Changed]:
    """The figures that differ, of flows and links that both runs have, the greatest relative difference first."""
    ours, theirs = ({tuple(row): value for *row, value in rows} for rows in (here, there))
    both = {key[:2] for key in ours} & {key[:2] for key in theirs}
    found = [Changed(what, name, figure, unit, ours.get(key), theirs.get(key)) for key in dict.fromkeys((*ours, *theirs))
             for what, name, figure, unit in [key] if key[:2] in both and ours.get(key) != theirs.get(key)]
    return sorted(found, key=lambda row: -1 if row.relative is None else -abs(row.relative))


def names_only_in(here: Scenario, there: Scenario) -> list[str]:
    """The nodes, links and flows that one scenario has alone."""
    kinds: list[tuple[str, Sequence[Node | Link | Flow], Sequence[Node | Link | Flow]]] = [
        ('node', here.nodes, there.nodes), ('link', here.links, there.links), ('flow', here.flows, there.flows)]
    return [f'{what} {each.name}' for what, mine, others in kinds for each in mine if each.name not in {other.name for other in others}]


class Difference:
    """Where two runs part, and the figures that differ; true where they do. `events` are the same in both, `sentence` says what comes
    then, `positions` are those before it, and `figures` those that differ. Its text, and what a notebook shows, has all."""

    def __init__(self, here: Side, there: Side):
        parting = first_parting(here, there)
        self.events: int = parting.same
        self.sentence: str = sentence(parting, here, there)
        self.positions: tuple[int, int] | None = parting.positions if (parting.here or parting.there) else None
        self.only_here: list[str] = names_only_in(here.scenario, there.scenario)
        self.only_there: list[str] = names_only_in(there.scenario, here.scenario)
        self.figures: list[Changed] = changes(here.figures, there.figures)

    def __bool__(self) -> bool:
        return bool(self.positions or self.only_here or self.only_there or self.figures)

    def _head(self) -> list[str]:
        debug = [f'debug: goto {self.positions[0]}, there goto {self.positions[1]}'] if self.positions else []
        return [self.sentence, *debug, *(f'only {where}: {", ".join(names)}' for where, names in
                                         (('here', self.only_here), ('there', self.only_there)) if names)]

    def _rows(self) -> list[list[str]]:
        return [['figure', 'here', 'there', 'difference'], *(row.shown() for row in self.figures)] if self.figures else []

    def __repr__(self) -> str:
        return '\n'.join([*self._head(), *(line.rstrip() for line in aligned(self._rows()))])

    def _repr_html_(self) -> str:
        return ''.join(f'<p>{line}</p>' for line in self._head()) + (html_table(self._rows()) if self.figures else '')
