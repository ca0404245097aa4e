"""The life of one segment and of the acknowledgements that carry its number: what happened to it, and where its time went.

The sums part the whole time, from the first offering to the acknowledgement (or to the end of
the run). At each moment the acknowledgement above the segment that was sent first and is still in the net
counts, or else the copy of the segment that was sent first and is still in the net: it waits in a queue,
or a link is sending it (serialized), or it is under way. Where there is none the segment stands still.
Times are nanoseconds.
"""
from __future__ import annotations

from collections import namedtuple
from collections.abc import Iterable

from tcpsim.causes import counted, seconds
from tcpsim.scenario.text import Scenario, Unreadable
from tcpsim.traces.lives import ALARM, CAME, CODEL, DATA, FIRST, FULL, TIMEOUT, FlowState, Packet, Port, Watch
from tcpsim.traces.walk import Walk, check_byte

WAITED, SERIALIZED, UNDER_WAY, STOOD = 'waited', 'serialized', 'under way', 'stood still'
WHY_AGAIN = {'third duplicate': 'the third duplicate', 'timeout': 'the timeout',
             'after a timeout': 'a timeout had made the sender begin again',
             'partial acknowledgement': 'a partial acknowledgement in recovery'}
# Of the rows of one line: a packet arrives, then its end takes it, then packets are offered.
RANKS = {'arrives': 0, 'held': 1, 'answer waits': 1, 'not new': 1, 'duplicate': 1, 'acknowledged': 1}
# A state that a packet was in; `end` is None where it still is.
State = namedtuple('State', 'name begin end')


class Row:
    """One row of the table. `span` is the time that it tells of (a wait, a sending, a propagation) or None."""

    def __init__(self, line: int, time: int, order: tuple[int, int, int], packet: str, event: str, at: str,
                 words: str, span: int | None, behind: int | None):
        self.line, self.time, self.order, self.packet, self.event = line, time, order, packet, event
        self.at, self.words, self.span, self.behind = at, words, span, behind


class Life(Watch):
    """A followed packet: its name, its rows, and the states that it was in."""

    def __init__(self, walk: Follow, name: str):
        self.walk, self.name = walk, name
        self.rows: list[Row] = []
        self.states: list[State] = []
        self.wait = Row(0, 0, (0, 0, 0), name, '', '', '', None, None)     # the last of a wait

    def row(self, event: str, at: str, words: str, span: int | None = None, behind: int | None = None) -> Row:
        """Keeps a moment of its life."""
        return self.walk.row(self.rows, self.name, event, at, words, span, behind)

    def turn(self, name: str | None) -> int:
        """The packet is in another state from now on, or (None) in none. Answers how long it was in the last."""
        time, spent = self.walk.time, 0
        if self.states and self.states[-1].end is None:
            self.states[-1] = self.states[-1]._replace(end=time)
            spent = time - self.states[-1].begin
        if name is not None:
            self.states.append(State(name, time, None))
        return spent

    def entered(self, packet: Packet, port: Port) -> None:
        """It waits in a queue."""
        self.turn(WAITED)
        waiting = len(port.waiting)
        behind = waiting + (port.sending is not None)
        if not behind:
            words = 'behind no packet: the link is idle'
        else:
            words = f'behind {counted(behind, "packet")} ({waiting} in the queue, 1 being sent)'
        self.wait = self.row('waits', port.link.name, words, behind=behind)

    def began(self, packet: Packet, port: Port) -> None:
        """A link begins to send it."""
        self.wait.span = self.turn(SERIALIZED)
        if self.wait.span:
            self.wait.words += f', for {seconds(self.wait.span)}'
        span = packet.hop.span
        self.row('tx', port.link.name, f'begins to be sent, for {seconds(span)}', span)

    def left(self, packet: Packet, port: Port) -> None:
        """It is under way."""
        self.turn(UNDER_WAY)

    def came(self, packet: Packet, port: Port) -> None:
        """It has arrived."""
        span = self.turn(None)
        self.row('arrives', self.walk.name_of(port.link.to), f'over {port.link.name}, under way for {seconds(span)}', span)

    def dropped(self, packet: Packet, port: Port) -> None:
        """It was dropped."""
        waited = self.turn(None)
        if packet.fate == CODEL:
            self.wait.span = waited
            why = f'codel: dropped at the head of the queue, after {seconds(waited)}'
        elif packet.fate == FULL:
            why = f'full: {counted(len(port.waiting), "packet")} in the queue'
        elif packet.waited:
            why = f'{packet.fate}: dropped by the queue, after {seconds(waited)}'
        else:
            why = 'lost: the scenario says so'
        self.row('dropped', port.link.name, why, waited if packet.waited else None)


class Request(Watch):
    """An acknowledgement that asks for a followed segment: that it was dropped can be why it was not sent again."""

    def __init__(self, walk: Follow, segment: Segment):
        self.walk, self.segment = walk, segment

    def dropped(self, packet: Packet, port: Port) -> None:
        """The acknowledgement was dropped."""
        self.walk.row(self.segment.rows, f'ack {packet.number}', 'dropped', port.link.name,
                      f'{packet.fate}: it would have asked for the segment')


class Segment:
    """What became of one segment: its copies, the acknowledgements above it in the order in which they
    were sent, rows of its own, and when it arrived, was in order, was answered, was acknowledged."""

    def __init__(self, number: int):
        self.number = number
        self.copies: list[Packet] = []
        self.acks: list[Packet] = []
        self.rows: list[Row] = []
        self.arrived: int | None = None
        self.passed: int | None = None
        self.answered: int | None = None
        self.done: int | None = None

    def answers(self) -> list[Packet]:
        """The acknowledgements up to the first that was not dropped: it comes before all later ones."""
        for at, ack in enumerate(self.acks):
            if ack.fate in (None, CAME):
                return self.acks[:at + 1]
        return self.acks

    def table(self) -> list[Row]:
        """Its rows, in the order of time."""
        rows = self.rows + [row for packet in self.copies + self.answers() if isinstance(packet.watch, Life) for row in packet.watch.rows]
        return sorted(rows, key=lambda row: row.order)

    def stands(self, time: int) -> str:
        """Why the segment stands still from this moment on, when nothing of it is in the net."""
        if self.arrived is None or time < self.arrived:
            return 'it was dropped and not yet sent again'
        if self.passed is None or time < self.passed:
            return 'at the receiver, as a segment before it was missing'
        if self.answered is None or time < self.answered:
            return 'at the receiver, as the answer waited'
        return 'its acknowledgement was dropped'


class Follow(Walk):
    """Follows a segment of a flow while a run is read, or all of the flow where `only` is None."""

    def __init__(self, scenario: Scenario, flow: int, only: int | None = None):
        super().__init__(scenario)
        self.target, self.only = self.flows[flow], only
        self.segments: dict[int, Segment] = {}      # by number: all, and those not yet acknowledged
        self.open: dict[int, Segment] = {}
        self.made = 0                           # how many rows were made

    def name_of(self, node: int) -> str:
        """The name of a node."""
        return self.scenario.nodes[node].name

    def row(self, rows: list[Row], packet: str, event: str, at: str, words: str, span: int | None = None,
            behind: int | None = None) -> Row:
        """Keeps a row."""
        self.made += 1
        rows.append(Row(self.line, self.time, (self.line, RANKS.get(event, 2), self.made), packet, event, at,
                        words, span, behind))
        return rows[-1]

    # ---- hooks

    def born(self, packet: Packet) -> None:
        """Watches a packet of the flow that is followed."""
        if packet.flow is not self.target:
            return
        if packet.sort != DATA:
            if self.open:
                self._answers(packet)
        elif self.only is None or packet.number == self.only:
            self._sent(packet)

    def _sent(self, packet: Packet) -> None:
        segment = self.segments.get(packet.number)
        if segment is None:
            segment = self.segments[packet.number] = self.open[packet.number] = Segment(packet.number)
        segment.copies.append(packet)
        copies = len(segment.copies)
        life = packet.watch = Life(self, f'segment {packet.number}' + (f' (copy {copies})' if copies > 1 else ''))
        sender = self.name_of(self.target.flow.sender)
        if packet.why is FIRST:
            life.row('sent', sender, 'offered for the first time')
        else:
            after = f' after {seconds(self.expired[0])}' if packet.why is TIMEOUT else ''
            life.row('sent again', sender, f'offered again: {WHY_AGAIN[packet.why or ""]}{after}')

    def _answers(self, packet: Packet) -> None:
        below = [segment for number, segment in self.open.items() if number < packet.number]
        if not below:
            if packet.number in self.open:
                packet.watch = Request(self, self.open[packet.number])
            return
        for segment in below:
            segment.acks.append(packet)
            if segment.answered is None:
                segment.answered = self.time
        words, span = f'answers segment {packet.of.number} {packet.why}', None
        if packet.since is not None:
            span = self.time - packet.since
            words += f', after a wait of {seconds(span)}' + ('' if packet.why is ALARM else ' for a second segment')
        life = packet.watch = Life(self, f'ack {packet.number}')
        life.row('answered', self.name_of(self.target.flow.receiver), words, span)

    def at_receiver(self, flow: FlowState, packet: Packet | None, answer: Packet | None, before: int) -> None:
        """What the receiver makes of it."""
        if flow is not self.target:
            return
        if packet is not None and isinstance(packet.watch, Life):
            self._arrived(self.segments[packet.number], packet.watch, answer)
        if flow.next != before:
            for number, segment in self.open.items():
                if segment.passed is None and number < flow.next:
                    segment.passed = self.time

    def _arrived(self, segment: Segment, life: Life, answer: Packet | None) -> None:
        at, flow = self.name_of(self.target.flow.receiver), self.target
        if segment.arrived is not None:
            life.row('not new', at, 'the receiver has it already')
            return
        segment.arrived = self.time
        if flow.next <= segment.number:
            life.row('held', at, f'{flow.next} is missing before it, and asked for at once')
        elif answer is None:
            life.row('answer waits', at, f'for the alarm in {seconds(flow.flow.delack)}, or for another segment')

    def at_sender(self, flow: FlowState, kind: str, packet: Packet | None, before: int) -> None:
        """What the sender makes of an acknowledgement."""
        if flow is not self.target or packet is None:
            return
        name, at = f'ack {packet.number}', self.name_of(flow.flow.sender)
        if flow.una > before:
            for number in [number for number in self.open if number < flow.una]:
                segment = self.open.pop(number)
                segment.done = self.time
                whole = self.time - segment.copies[0].offered
                self.row(segment.rows, name, 'acknowledged', at, f'{seconds(whole)} after the first offering', whole)
        elif packet.number == before and flow.una < flow.nxt and before in self.open:
            self.row(self.open[before].rows, name, 'duplicate', at, f'duplicate {flow.duplicates()} asks for the segment')

    # ---- the sums

    def end_of(self, segment: Segment) -> int:
        """Where the whole time ends: the acknowledgement, else the run's end (of a trace without `end`
        its last line)."""
        return segment.done if segment.done is not None else self.scenario.end if self.ended else self.time

    def sums(self, segment: Segment) -> tuple[int, dict[str, int], list[tuple[str, int]]]:
        """The whole time, its four parts, and what the segment stood still for as (reason, time)."""
        begin, end = segment.copies[0].offered, self.end_of(segment)
        states = [(rank, state.name, state.begin, end if state.end is None else min(state.end, end))
                  for rank, packet in enumerate(segment.answers() + segment.copies)
                  if isinstance(packet.watch, Life) for state in packet.watch.states if state.begin < end]
        at = {begin, end, *(edge for _, _, since, to in states for edge in (since, to)),
                 *(edge for edge in (segment.arrived, segment.passed, segment.answered) if edge is not None and edge < end)}
        edges, parts = sorted(at), dict.fromkeys((WAITED, SERIALIZED, UNDER_WAY, STOOD), 0)
        reasons: dict[str, int] = {}
        for since, to in zip(edges, edges[1:]):
            there = min((state for state in states if state[2] <= since and to <= state[3]), default=None)
            parts[STOOD if there is None else there[1]] += to - since
            if there is None:
                reason = segment.stands(since)
                reasons[reason] = reasons.get(reason, 0) + to - since
        return end - begin, parts, list(reasons.items())


def follow(scenario: Scenario, lines: Iterable[str], flow: int, byte: int) -> tuple[Follow, Segment]:
    """The walk that followed the segment of a byte of a flow (by the flow's number), and the segment."""
    check_byte(scenario, flow, byte)
    declared = scenario.flows[flow]
    number = byte // declared.mss * declared.mss
    walk = Follow(scenario, flow, number)
    walk.read(lines)
    if number not in walk.segments:
        raise Unreadable(f'the segment {number} of flow {declared.name} was never sent in this run')
    return walk, walk.segments[number]
