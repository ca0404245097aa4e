"""Where the time of a transfer went: its critical path, from the acknowledgement that completed it back to its start.

Every event has one cause, by the rows of docs/MODEL.md, whatever other events there are at its time:

- `start f` has none: it is where a path begins;
- a packet that arrives over a link: the event that offered it to that link. At a router that is its own arrival there, at a
  flow's end the event of this table at which the end sent it;
- `rto f`: the last event at the sender that set the timer (RFC 6298 section 5). A segment was sent while the timer was off
  (5.1), an acknowledgement was new and left bytes in flight (5.3), or the timer ended before (5.5, 5.6). Of the partial
  acknowledgements of a recovery the first sets it (RFC 6582 section 3.2 step 3); a duplicate never does;
- `delack f`: the arrival of the segment that made the answer wait (RFC 5681 section 4.2).

`free l` is no cause: it is the event at which a link begins to send what was offered to it before. So the time between an
event and its cause has these parts, without a rest:

- of an arrival the wait from the offering until the link begins to send, the serialization, the propagation. While a packet
  waits its link sends without a pause: each nanosecond of the wait counts for the flow whose packet, a segment or an
  acknowledgement, the link is sending then;
- of `rto` the wait for the timer, of `delack` the wait for the delayed acknowledgement.

`CriticalPaths` keeps a record of each event that can be a cause while it reads a trace, and `path` goes back through them.
Times are nanoseconds.
"""
from __future__ import annotations

from array import array
from bisect import bisect_left
from collections import Counter, namedtuple
from collections.abc import Iterable, Iterator, Sequence

from tcpsim.causes import PARTITION, is_dropped, is_lost, lost_acknowledgement, name_of
from tcpsim.scenario.text import Scenario
from tcpsim.stalls import Sendings, Spans, Stall
from tcpsim.traces.lives import ACK, AFTER_TIMEOUT, ALARM, DATA, TIMEOUT, FlowState, Packet, Port, Watch
from tcpsim.traces.walk import check_byte

QUEUE, SERIALIZATION, PROPAGATION, TIMER, DELAY = \
    'queue', 'serialization', 'propagation', 'retransmission timer', 'delayed acknowledgement'
# A part of a path: what it is; the link, or the node of a timer; in a queue, the flow behind whose packets; of a retransmission
# timer, how often it was doubled before.
Part = namedtuple('Part', 'kind at behind doubled', defaults=(None, None))
Span = namedtuple('Span', 'part begin end')
# An event of a path: `tx` is where a link began to send a packet that had waited. `spans` part the time since the event
# before it on the path.
Event = namedtuple('Event', 'line time kind number at spans')
# A packet's drop: its words, the link, the reason, the line.
Loss = namedtuple('Loss', 'packet link reason line')
# A retransmission timer that ended on the path: the line, when it was set and in which line, how often it was doubled before;
# the loss or None; the cause of the wait and what was found, as tcpsim-stalls tells it.
Timeout = namedtuple('Timeout', 'line begin end set_line doubled loss cause found')
KINDS = 'start', 'rto', 'delack', 'data', 'ack'
START, RTO, DELACK, DATA_CAME, ACK_CAME = range(5)
# Of round trips, by the segment: sent in which phase, or sent again since the timer ended.
PHASES = {'phase=ss': 0, 'phase=ca': 1, 'phase=fr': 2}
TRIPS = 'slow start', 'congestion avoidance', 'fast recovery', 'after a timeout'
AGAIN = 3


class Others(Watch):
    """Watches the packets of flows whose path is not asked for."""

    def __init__(self, walk: CriticalPaths, flow: FlowState):
        self.walk, self.flow, self.begins, self.flows = walk, flow.number, walk.begins, walk.senders

    def began(self, packet: Packet, port: Port) -> None:
        """A link begins to send it."""
        self.begins[port.number].append(self.walk.time)
        self.flows[port.number].append(self.flow)


class Recorded(Sendings):
    """What is known of a flow whose path is asked for. `timer` is the record of the event that set its timer, `last` that of
    its last new acknowledgement up to the one that acknowledges the byte `to`."""

    walk: CriticalPaths

    def __init__(self, walk: CriticalPaths, flow: FlowState):
        super().__init__(walk, flow)
        self.flow, self.begins, self.flows = flow.number, walk.begins, walk.senders
        self.to = flow.total - 1
        self.first: int | None = None
        self.last: int | None = None
        self.timer = -1
        self.timer_sets = self.doubled = 0

    def began(self, packet: Packet, port: Port) -> None:
        """A link begins to send a packet."""
        packet.sent_line = self.walk.line
        self.begins[port.number].append(self.walk.time)
        self.flows[port.number].append(self.flow)

    def came(self, packet: Packet, port: Port) -> None:
        """A packet has arrived: it is the cause of what is offered now."""
        is_data = packet.sort == DATA
        packet.cause = self.walk.record(DATA_CAME if is_data else ACK_CAME, packet.cause, packet.number, port.number, packet.sent_line,
                                        AGAIN if is_data and packet.why in (TIMEOUT, AFTER_TIMEOUT) else 0)


class CriticalPaths(Spans):
    """Reads a trace and keeps what the paths of these flows (by number; None: of all) go by. `to`: of paths to the
    acknowledgement of this byte, else of all bytes."""

    kind = Recorded
    watched: Sequence[Recorded]

    def __init__(self, scenario: Scenario, wanted: Iterable[int] | None = None, to: int | None = None):
        # of each record: line, time, kind, the cause's record, the packet's number, its link and the line where that
        # began to send it, and at a sender the phase
        self.lines, self.times, self.causes, self.numbers, self.sent_lines = (array('q') for _ in range(5))
        self.kinds, self.phases, self.links = bytearray(), bytearray(), array('H')
        self.timeouts: dict[int, Timeout] = {}      # of each record of `rto` its Timeout
        # of each link, when it began to send each packet, and of which flow
        self.begins, self.senders = [array('q') for _ in scenario.links], [array('H') for _ in scenario.links]
        super().__init__(scenario)
        self.wanted = set(range(len(self.flows)) if wanted is None else wanted)
        if to is not None:
            for number in self.wanted:
                check_byte(scenario, number, to)
                self.watched[number].to = to
        self.others = {flow.number: Others(self, flow) for flow in self.flows if flow.number not in self.wanted}
        self.open_flows = len(self.wanted)      # those that have not acknowledged the byte

    def record(self, kind: int, cause: int, number: int = 0, link: int = 0, sent_line: int = 0, phase: int = 0) -> int:
        """Keeps the present event; answers its record's number."""
        self.lines.append(self.line)
        self.times.append(self.time)
        self.kinds.append(kind)
        self.causes.append(cause)
        self.numbers.append(number)
        self.links.append(link)
        self.sent_lines.append(sent_line)
        self.phases.append(phase)
        return len(self.kinds) - 1

    # ---- hooks

    def born(self, packet: Packet) -> None:
        """An end sends a packet. A timer's event gets its record here: each sends one at least."""
        other = self.others.get(packet.flow.number)
        if other is not None:
            packet.watch = other
            return
        if packet.why is TIMEOUT:
            self._expired(packet.flow)
        elif packet.why is ALARM:
            self.record(DELACK, packet.of.cause)
        elif packet.sort == DATA and self.watched[packet.flow.number].first is None:
            self.watched[packet.flow.number].first = self.record(START, -1)
        super().born(packet)
        packet.cause = len(self.kinds) - 1

    def _expired(self, flow: FlowState) -> None:
        watched = self.watched[flow.number]
        watched.doubled = watched.doubled + 1 if self.expired[1] else 0
        set_by = watched.timer
        assert watched.span is not None     # a timer runs where something is not acknowledged
        stall = Stall(self, flow, watched, watched.span, None)
        stall.rto, stall.doubled = self.expired     # those of the timer that ends, not of the next
        cause, found = next((cause, found) for cause in PARTITION if (found := cause(stall)) is not None)
        record = self.record(RTO, set_by)
        self.timeouts[record] = Timeout(self.line, self.times[set_by], self.time, self.lines[set_by], watched.doubled, loss_of(stall),
                                        name_of(cause), found.words)

    def at_sender(self, flow: FlowState, kind: str, packet: Packet | None, before: int) -> None:
        """Notes the phase, and whether the event set the timer or acknowledged something."""
        if flow.number not in self.wanted:
            return
        super().at_sender(flow, kind, packet, before)
        watched, record = self.watched[flow.number], len(self.kinds) - 1
        self.phases[record] = PHASES[flow.state[4]]
        if flow.timer_sets != watched.timer_sets:
            watched.timer_sets, watched.timer = flow.timer_sets, record
        if before <= watched.to and flow.una > before:
            watched.last = record
            self.open_flows -= flow.una > watched.to

    # ---- going back

    def path(self, flow: int) -> Path:
        """The path to the flow's last new acknowledgement, or to that of the byte that is asked for."""
        return Path(self, self.flows[flow], self.watched[flow])

    def waits(self, link: int, since: int, until: int) -> list[tuple[int, int, int]]:
        """Of a wait at a link which flows' packets it sent meanwhile, and from when to when, in order."""
        begins, flows = self.begins[link], self.senders[link]
        found: list[tuple[int, int, int]] = []
        at = bisect_left(begins, until)
        while until > since:
            at -= 1
            begin = max(begins[at], since)
            if found and found[-1][0] == flows[at]:
                found[-1] = flows[at], begin, found[-1][2]
            else:
                found.append((flows[at], begin, until))
            until = begin
        return found[::-1]

    def awaited(self, flow: int) -> str:
        """What a flow that is not complete waits for where the trace ends."""
        return awaited(self, self.flows[flow])


class Path:
    """The critical path of a flow: its `events` in order, `begin` and `end`, `timeouts`, `trips`, the round trips by where
    their segment was sent. `acknowledged` bytes were at its end, and `is_whole` says that all asked for were. Of a flow that
    has not started `begin` is None, and there is no event; before its first acknowledgement there is its start alone."""

    def __init__(self, walk: CriticalPaths, flow: FlowState, watched: Recorded):
        self.name, self.number = flow.flow.name, flow.number
        self.hops = {(hop.port.number, hop.kind): hop for hop in flow.hops()}
        self.is_whole = flow.una > watched.to
        self.events: list[Event] = []
        self.timeouts: list[Timeout] = []
        self.trips: Counter[str] = Counter()
        self.acknowledged = 0
        self._phase, self._again = 0, False     # of the sender's last event; whether the segment was sent again since the timer ended
        chain: list[int] = []
        at = watched.first if watched.last is None else watched.last
        while at is not None:
            chain.append(at)
            at = walk.causes[at] if walk.kinds[at] != START else None
        for cause, record in zip([-1, *chain[:0:-1]], chain[::-1]):
            self._add(walk, flow, cause, record)
        self.begin = self.events[0].time if self.events else None
        self.end = self.events[-1].time if self.events else None

    def _add(self, walk: CriticalPaths, flow: FlowState, cause: int, record: int) -> None:
        """Adds an event, and before it the one at which the link began to send the packet."""
        line, time, kind, number = walk.lines[record], walk.times[record], walk.kinds[record], walk.numbers[record]
        nodes, word = walk.scenario.nodes, KINDS[kind]
        if kind >= DATA_CAME:
            self._add_arrival(walk, cause, record, word)
            if kind == DATA_CAME:
                self._again = walk.phases[record] == AGAIN
            elif int(self.hops[walk.links[record], word].port.to) == flow.flow.sender:
                self.trips[TRIPS[AGAIN if self._again else self._phase]] += 1
                self._phase, self.acknowledged = walk.phases[record], number
            return
        at = nodes[flow.flow.receiver if kind == DELACK else flow.flow.sender].name
        spans: tuple[Span, ...] = ()
        if kind == RTO:
            self.timeouts.append(walk.timeouts[record])
            spans = Span(Part(TIMER, at, doubled=walk.timeouts[record].doubled), walk.times[cause], time),
        elif kind == DELACK:
            spans = Span(Part(DELAY, at), walk.times[cause], time),
        if kind != DELACK:
            self._phase = walk.phases[record]
        self.events.append(Event(line, time, word, number, at, spans))

    def _add_arrival(self, walk: CriticalPaths, cause: int, record: int, word: str) -> None:
        hop = self.hops[walk.links[record], word]
        port, time, number = hop.port, walk.times[record], walk.numbers[record]
        link, sent, began = port.link, walk.sent_lines[record], time - port.delay - hop.span
        if sent != walk.lines[cause]:
            waits = tuple(Span(Part(QUEUE, link.name, walk.scenario.flows[flow].name), since, until)
                          for flow, since, until in walk.waits(port.number, walk.times[cause], began))
            self.events.append(Event(sent, began, f'tx {word}', number, link.name, waits))
        self.events.append(Event(walk.lines[record], time, word, number, walk.scenario.nodes[link.to].name, (
            Span(Part(SERIALIZATION, link.name), began, time - port.delay), Span(Part(PROPAGATION, link.name), time - port.delay, time))))

    @property
    def time(self) -> int:
        """How long it took."""
        return self.end - self.begin if self.events else 0

    def spans(self) -> Iterator[Span]:
        """Its spans, in order and without a gap."""
        return (span for event in self.events for span in event.spans)

    def parts(self) -> dict[Part, int]:
        """How long each part took, the greatest first."""
        sums: Counter[Part] = Counter()
        for part, begin, end in self.spans():
            sums[part] += end - begin
        return dict(sums.most_common())


def loss_of(stall: Stall) -> Loss | None:
    """The loss behind a timer that ended: of the segment that was asked for the last sending where that was dropped, else its
    acknowledgement; else an earlier sending, where what was sent again is still on its way. None where nothing was lost."""
    copies = stall.copies + stall.resent
    ack = lost_acknowledgement(stall)
    packet = copies[-1] if is_dropped(copies[-1]) else ack if ack is not None else stall.copies[-1] if is_lost(stall) else None
    if packet is None:
        return None
    return Loss(f'{"ack" if packet.sort == ACK else "segment"} {packet.number}', packet.hop.port.link.name, packet.fate, packet.ended_line)


def awaited(walk: CriticalPaths, flow: FlowState) -> str:
    """What a flow waits for: its start; an acknowledgement of the segment at una that is on its way; the delayed
    acknowledgement; the segment itself; else its timer."""
    if not flow.high:
        return f'its start at {flow.flow.start / 1e9:.9f} s'
    packets = [(packet, f'{where} {port.link.name}') for port in walk.ports
               for where, packets in (('in the queue of', port.waiting), ('sent by', (port.sending,) if port.sending else ()),
                                      ('under way on', port.flight)) for packet in packets if packet.flow is flow]
    acks = [found for found in packets if found[0].sort == ACK and found[0].number > flow.una]
    if acks:
        packet, where = min(acks, key=lambda found: found[0].line)
        return f'acknowledgement {packet.number}, {where}'
    if flow.waits is not None and flow.next > flow.una:
        return f'the delayed acknowledgement, due at {(flow.due("delack") or 0) / 1e9:.9f} s'
    copies = [found for found in packets if found[0].sort == DATA and found[0].number == flow.una]
    if copies:
        packet, where = min(copies, key=lambda found: found[0].line)
        return f'segment {packet.number}, {where}'
    more = f', or for duplicates; packets in the net: {len(packets)}' if packets else ''
    return f'its retransmission timer, due at {(flow.deadline or 0) / 1e9:.9f} s{more}'


def critical_paths(scenario: Scenario, lines: Iterable[str], wanted: Iterable[int] | None = None, to: int | None = None,
                   stops: bool = False) -> CriticalPaths:
    """The walk through a trace; with `stops` it ends where all that are asked for are acknowledged."""
    walk = CriticalPaths(scenario, wanted, to)
    walk.read((line for line in lines if walk.open_flows) if stops else lines)
    return walk
