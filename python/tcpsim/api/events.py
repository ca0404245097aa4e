"""A trace as records: each event of a run with the scenario's names, read as the trace is written."""
from __future__ import annotations

import contextlib
import itertools
import os
from collections.abc import Callable, Iterable, Iterator
from typing import TYPE_CHECKING, NamedTuple

from tcpsim import output
from tcpsim.api.errors import as_api, wanted
from tcpsim.scenario.text import Scenario

if TYPE_CHECKING:
    from pandas import DataFrame

Blocks = Callable[[], contextlib.AbstractContextManager[Iterator[list[str]]]]       # opens a trace: its lines, block by block


class Sent(NamedTuple):
    """A packet that a link begins to send; `number` is its byte or its acknowledgement number."""

    link: str
    flow: str
    number: int


class Drop(NamedTuple):
    """A packet that is dropped before a link; `reason` is lost, full, codel, or the word of a class of Python's."""

    reason: str
    link: str
    flow: str
    number: int


class Fields(NamedTuple):
    """What a record of an event has."""

    n: int                      # which event it is, from 1
    time_ns: int
    node: str
    kind: str
    flow: str | None            # None of `free`
    link: str | None            # by which the packet came, or which is free; None of a timer
    number: int | None          # the byte or acknowledgement number of the packet that came
    una: int | None
    nxt: int | None
    cwnd: int | None
    ssthresh: int | None
    phase: str | None
    next: int | None
    acts: tuple[str, ...]       # the words of the trace; `sent` and `drops` have them as records


class Event(Fields):
    """An event of a run: a line of its trace (docs/FORMATS.md). What an event has not is None.

    `kind` is start, rto, delack, free, data or ack. `una` to `phase` are those of the sender at which it happens, `next` that
    of the receiver, as they are after the event; windows are bytes, `phase` is ss, ca or fr. `acts` is what is done to packets,
    in order; `sent` and `drops` say the same by names.
    """

    __slots__ = ()
    _names: Names

    @property
    def sent(self) -> tuple[Sent, ...]:
        """The packets that a link begins to send."""
        names = self._names
        return tuple(Sent(names.sending[link], names.flows[flow], int(number)) for link, flow, number in
                     (act.split(':') for act in self.acts if act[0] == 't'))

    @property
    def drops(self) -> tuple[Drop, ...]:
        """The packets that are dropped."""
        names = self._names
        return tuple(Drop(word[5:], names.link_of(self), names.flows[flow], int(number)) for word, flow, number in
                     (act.split(':') for act in self.acts if act[0] == 'd'))

    def __reduce__(self) -> tuple:
        return restored, (self._names, tuple(self))

    def __repr__(self) -> str:
        known = [f'{name}={value!r}' for name, value in zip(self._fields, self) if value is not None and name != 'acts']
        known += [f'{name}={packets}' for name in ('sent', 'drops') if (packets := getattr(self, name))]
        return f'Event({", ".join(known)})'


class Names:
    """The names of a scenario by the words of a trace."""

    def __init__(self, scenario: Scenario):
        self.scenario = scenario
        self.nodes = {str(n): node.name for n, node in enumerate(scenario.nodes)}
        self.flows = {str(n): flow.name for n, flow in enumerate(scenario.flows)}
        self.links = {str(n): link.name for n, link in enumerate(scenario.links)}
        self.sources: dict[str, str | None] = {'0': None, **{str(n + 1): link.name for n, link in enumerate(scenario.links)}}
        self.sending = {f'tx={n}': link.name for n, link in enumerate(scenario.links)}
        self.places = {str(n): (node.name, node.kind) for n, node in enumerate(scenario.nodes)}
        self.numbers = {node.name: n for n, node in enumerate(scenario.nodes)}
        self.ends = {flow.name: (flow.sender, flow.receiver) for flow in scenario.flows}
        self.kind_of_event = type('Event', (Event,), {'__slots__': (), '_names': self, '__doc__': Event.__doc__})

    def __reduce__(self) -> tuple:
        return Names, (self.scenario,)

    def link_of(self, event: Event) -> str:
        """The link before which an event drops: that which is free, or over which the node sends."""
        if event.flow is None:
            return str(event.link)
        node, (sender, receiver) = self.numbers[event.node], self.ends[event.flow]
        data = event.kind == 'data' and node != receiver or node == sender
        hop = self.scenario.hop(node, receiver if data else sender)
        assert hop is not None      # nothing is dropped where there is no link
        return self.scenario.links[hop].name


def restored(names: Names, fields: tuple) -> Event:
    """An event that was pickled."""
    return tuple.__new__(names.kind_of_event, fields)


def events_of(blocks: Iterable[list[str]], names: Names) -> Iterator[Event]:
    """The events of a trace's lines."""
    places, flows, sources, links = names.places, names.flows, names.sources, names.links
    make, kind_of_event = tuple.__new__, names.kind_of_event
    for lines in blocks:
        for line in lines:
            words = line.split(' ')
            if words[0] == 'end':
                return
            kind, at = words[5], 7
            node, role = places[words[2]]
            flow = link = number = una = nxt = cwnd = ssthresh = phase = expected = None
            if kind == 'free':
                link = links[words[6]]
            else:
                flow, link = flows[words[6]], sources[words[3]]
                if link is not None:
                    number, at = int(words[7]), 8
            if role == 'sender':
                una, nxt, cwnd, ssthresh = int(words[at][4:]), int(words[at + 1][4:]), int(words[at + 2][5:]), int(words[at + 3][9:])
                phase = words[at + 4][6:]
                at += 5
            elif role == 'receiver':
                expected = int(words[at][5:])
                at += 1
            yield make(kind_of_event, (int(words[0]), int(words[1]), node, kind, flow, link, number, una, nxt, cwnd, ssthresh,
                                       phase, expected, tuple(words[at:])))


class Trace(Iterable[Event]):
    """The events of a run, each time read anew as they are written: none is kept. `lines` are those of docs/FORMATS.md."""

    def __init__(self, opened: Blocks, names: Names):
        self._opened, self._names = opened, names

    def __iter__(self) -> Iterator[Event]:
        with as_api(), self._opened() as blocks:
            yield from events_of(blocks, self._names)

    def lines(self) -> Iterator[str]:
        """The trace's lines, its last one `end N`."""
        with as_api(), self._opened() as blocks:
            for lines in blocks:
                yield from lines

    def save(self, path: str | os.PathLike) -> None:
        """Writes the trace to a file, whole or not at all."""
        with output.written(os.fspath(path)) as file, as_api(), self._opened() as blocks:
            for lines in blocks:
                file.write('\n'.join([*lines, '']))

    def drops(self) -> Iterator[tuple[int, Drop]]:
        """The packets that are dropped: when, in ns, and which."""
        for event in self:
            for drop in event.drops:
                yield event.time_ns, drop

    def to_pandas(self) -> DataFrame:
        """A pandas DataFrame with a row for each event. `sent` and `drops` are as of an event. Of the packet that begins to be sent
        there are the link, the flow and the number; of those that are dropped the link, the first one's reason, and the count."""
        pandas, rows = wanted('pandas'), []
        for event in self:
            sent, drops = event.sent, event.drops
            rows.append((*event[:-1], sent, drops, *(sent[0] if sent else (None, None, None)),
                         *((drops[0].link, drops[0].reason) if drops else (None, None)), len(drops)))
        return pandas.DataFrame.from_records(rows, columns=[*Event._fields[:-1], 'sent', 'drops', 'sent_link', 'sent_flow', 'sent_number',
                                                            'drop_link', 'drop_reason', 'dropped'])

    def __repr__(self) -> str:
        first = []
        try:
            first = list(itertools.islice(self.lines(), 3))     # a block can have fewer, as they are written
        except Exception as wrong:      # of a class of Python's whatever it raises: a repr shows what there is
            first = [f'<{type(wrong).__name__}: {wrong}>']
        return '\n'.join([*first, '..'])


