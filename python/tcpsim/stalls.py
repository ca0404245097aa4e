"""Why a flow stood still: each span without a new acknowledgement, and its cause. A span begins at a flow's start or at a
new acknowledgement and ends at the next one, or where the run ends. Times are nanoseconds.
"""
from __future__ import annotations

from collections import namedtuple
from collections.abc import Iterable, Sequence

from tcpsim.causes import cause_of, name_of
from tcpsim.cycle import Cycle, cycle_of
from tcpsim.scenario.text import Scenario
from tcpsim.traces.lives import ACK, DATA, PARTIAL, FlowState, Packet, Port, Watch
from tcpsim.traces.walk import Walk

LONGER = 200 * 10**6
Timer = namedtuple('Timer', 'time line value doubled')
Row = namedtuple('Row', 'flow begin end length cause found positions')


class Place:
    """How many packets of a flow are at a port: those that wait and the one that the link is sending."""
    __slots__ = ('flow', 'port', 'packets')

    def __init__(self, flow: FlowState, port: Port):
        self.flow, self.port, self.packets = flow, port, 0

    def waits(self) -> bool:
        """Whether one of them waits."""
        sending = self.port.sending
        return self.packets > 1 or self.packets == 1 and (sending is None or sending.flow is not self.flow)


class Sendings(Watch):
    """What is known of a flow: its segments from una on, its acknowledgements that were dropped, and the present
    span (None before the start and after the end). `queued` is that of `Watched`."""

    walk: Walk

    def __init__(self, walk: Walk, _flow: FlowState):
        self.walk = walk
        self.copies: dict[int, list[Packet]] = {}       # by their numbers
        self.acks_dropped: list[Packet] = []
        self.span: Span | None = None
        self.flights: list[int] = []    # bytes in flight at each first timeout of a span
        self.queued: dict[Port, tuple[int, int, int]] = {}

    def sent(self, packet: Packet) -> None:
        """A segment is sent, or sent again."""
        self.copies.setdefault(packet.number, []).append(packet)

    def dropped(self, packet: Packet, port: Port) -> None:
        """A packet was dropped."""
        if packet.sort == ACK:
            self.acks_dropped.append(packet)

    def begin(self, span: Span | None) -> None:
        """A span begins, or none."""
        self.span = span

    def forget(self, flow: FlowState, before: int) -> None:
        """What is acknowledged is no longer of interest."""
        for number in range(before, flow.una, flow.mss):
            self.copies.pop(number, None)
        if self.acks_dropped:
            self.acks_dropped = [ack for ack in self.acks_dropped if ack.number >= flow.una]


class Watched(Sendings):
    """What is known of a flow, and where its packets are. Of each port at which all of
    them waited `queued` has for how long they did in the present span, the longest time of that, and the
    line in which it began."""

    def __init__(self, walk: Walk, flow: FlowState):
        super().__init__(walk, flow)
        places: dict[Port, Place] = {}
        for hop in flow.hops():
            hop.place = places.setdefault(hop.port, Place(flow, hop.port))
        self.places: set[Place] = set()     # where some of its packets are
        self.flying = 0                     # how many are under way
        self.at: Place | None = None        # the place where all wait
        self.since, self.line = 0, 0        # since when, in which line

    def entered(self, packet: Packet, port: Port) -> None:
        """A packet waits."""
        place = packet.hop.place
        place.packets += 1
        if place.packets == 1:
            self.places.add(place)
        if not self.flying:
            self.look()

    def began(self, packet: Packet, port: Port) -> None:
        """A link begins to send a packet."""
        if self.at is not None:
            self.look()

    def left(self, packet: Packet, port: Port) -> None:
        """A packet is on its way."""
        self.leave(packet.hop.place)
        self.flying += 1
        if self.at is not None:
            self.look()

    def came(self, packet: Packet, port: Port) -> None:
        """A packet has arrived."""
        self.flying -= 1
        if not self.flying:
            self.look()

    def dropped(self, packet: Packet, port: Port) -> None:
        """A packet was dropped."""
        if packet.waited:
            self.leave(packet.hop.place)
        super().dropped(packet, port)
        if not self.flying:
            self.look()

    def leave(self, place: Place) -> None:
        """A packet has left a place."""
        place.packets -= 1
        if not place.packets:
            self.places.remove(place)

    def look(self) -> None:
        """After packets moved: whether all are at one place now, and one of them waits."""
        at = None
        if not self.flying and len(self.places) == 1:
            place, = self.places
            if place.waits():
                at = place
        if at is not self.at:
            self.settle()
            self.at = at

    def settle(self) -> None:
        """Adds what the present waiting came to."""
        walk = self.walk
        if self.at is not None:
            port, waited = self.at.port, walk.time - self.since
            total, longest, line = self.queued.get(port, (0, -1, 0))
            longest, line = max((longest, line), (waited, self.line))
            self.queued[port] = total + waited, longest, line
        self.since, self.line = walk.time, walk.line

    def begin(self, span: Span | None) -> None:
        """A span begins, or none: what came before it doesn't count."""
        super().begin(span)
        self.since, self.line, self.queued = self.walk.time, self.walk.line, {}


class Span:
    """A span of a flow without a new acknowledgement, so far."""

    def __init__(self, flow: FlowState, begin: int, line: int):
        self.begin, self.line, self.una, self.nxt = begin, line, flow.una, flow.nxt
        self.full, self.duplicates, self.recover = is_full(flow), 0, flow.recover
        self.timers: list[Timer] = []


def is_again(packet: Packet, span: Span) -> bool:
    """Whether a segment was sent in the span, or by the acknowledgement with which it began since that was partial."""
    return packet.line > span.line or packet.line == span.line and packet.why is PARTIAL


def is_full(flow: FlowState) -> bool:
    """Whether the receive window has no room for the next segment."""
    return flow.nxt < flow.total and flow.nxt + flow.mss > flow.una + flow.flow.rwnd


class Stall:
    """A span of a flow without a new acknowledgement, as things are at its end.

    `copies` are the sendings of the segment at una up to the span's beginning, `resent` those after it and the
    one by the partial acknowledgement with which the span began, if there was one;
    `acks_dropped` are acknowledgements of una or above; `ack` is the one that ended the span, or None;
    `waits_since` says since when an answer waits that the run's end cut off; `queued` is that of `Watched`."""

    def __init__(self, walk: Spans, flow: FlowState, watched: Sendings, span: Span, ack: Packet | None):
        self.flow, self.una, self.nxt, self.full = flow, span.una, span.nxt, span.full
        self.begin, self.begin_line, self.end, self.end_line = span.begin, span.line, walk.time, walk.line
        self.length, self.longer, self.ack = self.end - self.begin, walk.longer, ack
        self.waits_since = flow.waits_since if ack is None else None
        self.copies = [packet for packet in watched.copies[span.una] if not is_again(packet, span)]
        self.resent = [packet for packet in watched.copies[span.una] if is_again(packet, span)]
        self.acks_dropped = [packet for packet in watched.acks_dropped if packet.number >= span.una]
        self.timers, self.duplicates, self.queued = span.timers, span.duplicates, watched.queued
        self.recover = span.recover     # NewReno's, when the span began
        self.rto, self.doubled, self.sendings = flow.rto, flow.doubled, watched.copies

    def behind(self) -> list[Packet]:
        """The segments above una that could make duplicates: the receiver asked for una when they came, or
        they didn't come."""
        return [packet for number, packets in self.sendings.items() if number > self.una
                for packet in packets if packet.asked in (None, self.una)]


class Spans(Walk):
    """Goes by spans through a run: at each new acknowledgement of a flow one ends and the next begins. `watched` has what is
    known of each flow; spans that are no longer than `longer` are of no interest."""

    kind: type[Sendings] = Sendings
    longer = 0

    def __init__(self, scenario: Scenario):
        super().__init__(scenario)
        self.watched: Sequence[Sendings] = [self.kind(self, flow) for flow in self.flows]

    def born(self, packet: Packet) -> None:
        """Watches a packet."""
        packet.watch = watched = self.watched[packet.flow.number]
        if packet.sort == DATA:
            watched.sent(packet)

    def at_sender(self, flow: FlowState, kind: str, packet: Packet | None, before: int) -> None:
        """Ends a span at a new acknowledgement, and begins the next."""
        watched = self.watched[flow.number]
        span = watched.span
        if flow.una > before:
            self.close(flow, packet)
            watched.forget(flow, before)
            self.open(flow)
        elif kind == 'start':
            self.open(flow)
        elif span is not None:
            span.full = span.full and is_full(flow)
            span.nxt = max(span.nxt, flow.nxt)
            if kind == 'rto':
                watched.flights += [span.nxt - span.una] * (not span.timers)
                span.timers.append(Timer(self.time, self.line, *self.expired))
            elif not span.timers:
                span.duplicates = flow.duplicates()

    def open(self, flow: FlowState) -> None:
        """Begins a span, where not all is acknowledged."""
        self.watched[flow.number].begin(Span(flow, self.time, self.line) if flow.una < flow.total else None)

    def close(self, flow: FlowState, ack: Packet | None) -> None:
        """Told that a span ends, if there is one: by an acknowledgement, or (None) with the run."""


class Stalls(Spans):
    """Finds the stalls of a run while it is read; `rows` has them in the order in which they ended, `others` the flow and moment of
    each timeout in a span that is no stall."""

    kind = Watched
    watched: Sequence[Watched]

    def __init__(self, scenario: Scenario, longer: int):
        super().__init__(scenario)
        self.longer = longer
        self.rows: list[Row] = []
        self.others: list[tuple[str, int]] = []

    def close(self, flow: FlowState, ack: Packet | None) -> None:
        """Ends a span, and keeps it where it was longer than asked for."""
        watched = self.watched[flow.number]
        if watched.span is None:
            return
        if self.time - watched.span.begin > self.longer:
            watched.settle()
            self.rows.append(self.row(Stall(self, flow, watched, watched.span, ack)))
        else:
            self.others += [(flow.flow.name, timer.time) for timer in watched.span.timers]

    def row(self, stall: Stall) -> Row:
        """A stall's row, made at its end: later its packets can be dropped too."""
        cause, found = cause_of(stall)
        return Row(stall.flow.flow.name, stall.begin, stall.end, stall.length, name_of(cause), found.words,
                   sorted({stall.begin_line, *found.lines, stall.end_line}))

    def finish(self) -> None:
        """The run is over: open spans end with it, or with the last line of a trace without `end`. Then
        the rows are in order, by flow and then by their beginnings."""
        if self.ended:
            self.time = self.scenario.end
        for flow in self.flows:
            self.close(flow, None)
        order = {flow.flow.name: flow.number for flow in self.flows}
        self.rows.sort(key=lambda row: (order[row.flow], row.begin))

    def cycles(self) -> list[Cycle]:
        """The flows that are in a cycle of timeouts; a timeout that follows another with nothing acknowledged is none more."""
        found = [cycle_of(self.scenario, number, watched.flights) for number, watched in enumerate(self.watched)]
        return [cycle for cycle in found if cycle is not None]


def stalls_of(scenario: Scenario, lines: Iterable[str], longer: int = LONGER) -> list[Row]:
    """The rows of all stalls of a run."""
    return walk_of(scenario, lines, longer).rows


def walk_of(scenario: Scenario, lines: Iterable[str], longer: int = LONGER) -> Stalls:
    """The walk through a whole run."""
    walk = Stalls(scenario, longer)
    walk.read(lines)
    walk.finish()
    return walk
