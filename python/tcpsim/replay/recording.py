"""The part of a run that a page shows: the events from one moment to another, and the state before the first of them."""
from __future__ import annotations

from collections.abc import Iterable, Iterator

from tcpsim.scenario.text import Scenario, Unreadable, WrongTrace
from tcpsim.scenario.units import spelled_time
from tcpsim.traces.lives import DATA, FIRST, FlowState, Packet, Port, Watch
from tcpsim.traces.reader import first_window
from tcpsim.traces.walk import Walk

MOST_EVENTS = 200_000
IN_A_TRACE = b'abcdefghijklmnopqrstuvwxyz0123456789 =:'


class Part(Walk, Watch):
    """The lines from one moment up to another, and the state before the first of them."""

    def __init__(self, scenario: Scenario, lines: Iterable[str], begin: int = 0, end: int | None = None):
        super().__init__(scenario)
        self.lines: list[str] = []
        self.first = 0
        self.base: dict[str, object] | None = None
        self.begin = begin
        self.since: dict[FlowState, int] = {}       # when a flow started, or when its una last rose
        self.coming: Packet | None = None           # what entered a queue last, until a packet is dropped
        self.gone = 0                               # the line that dropped it as it came: the page's script reads no act behind that
        self.read(self._noted(lines, end))
        self.whole = self.ended

    def _noted(self, lines: Iterable[str], end: int | None) -> Iterator[str]:
        """Passes the lines on, each of which is noted once it has been read."""
        for number, line in enumerate(lines, 1):
            time = line.split(' ', 2)[1:2]
            if line[:3] != 'end' and time and time[0].isdigit():
                if end is not None and int(time[0]) >= end:
                    break
                if self.base is None and int(time[0]) >= self.begin:
                    self._keep(number - 1)
            yield line
            if self.base is not None and not self.ended:
                self._add(line, number)
        if not self.lines:
            raise Unreadable('there is no event between --from and --to')

    def _add(self, line: str, number: int) -> None:
        wrong = line.encode('ascii').translate(None, IN_A_TRACE)
        if wrong:
            raise WrongTrace(f'line {number} is no line of a trace: it has the byte {wrong[0]}')
        self.lines.append(line)
        if len(self.lines) > MOST_EVENTS:
            raise Unreadable(self._too_many())

    def _too_many(self) -> str:
        until = int(self.lines[MOST_EVENTS].split(' ', 2)[1])
        return (f'there are more than {MOST_EVENTS:,} events; those that fit: '
                f'--from {spelled_time(self.begin)} --to {spelled_time(until)}, and then --from {spelled_time(until)}')

    # ---- the state, as the page takes it

    def _keep(self, count: int) -> None:
        self.first = count
        self.base = {'time': self.time, 'links': [link_kept(port) for port in self.ports], 'flows': [self._flow_kept(flow) for flow in self.flows]}

    def _flow_kept(self, flow: FlowState) -> dict:
        cwnd, ssthresh = map(number_of, flow.state[2:4]) if flow.state else (first_window(flow.flow), flow.flow.rwnd)
        return {'una': flow.una, 'nxt': flow.nxt, 'high': flow.high, 'cwnd': cwnd, 'ssthresh': ssthresh, 'dups': flow.dups,
                'recovering': flow.recovering, 'next': flow.next, 'above': sorted(flow.above), 'answer_waits': flow.waits is not None,
                'since': self.since.get(flow)}

    # ---- what a page needs besides, as each line is read

    def at_sender(self, flow: FlowState, kind: str, packet: Packet | None, before: int) -> None:
        """Holds the sender's words against its phase, and notes when its una rose."""
        cwnd, ssthresh = map(number_of, flow.state[2:4])
        if [word.partition('=')[0] for word in flow.state] != ['una', 'nxt', 'cwnd', 'ssthresh', 'phase']:
            raise ValueError('not a sender\'s words')
        if not flow.recovering and (flow.state[4] == 'phase=ss') != (cwnd < ssthresh):
            raise ValueError('the phase is not that of cwnd and ssthresh')
        if kind == 'start' or flow.una > before:
            self.since[flow] = self.time

    def born(self, packet: Packet) -> None:
        """Watches a packet from the event that sends it."""
        packet.watch = self

    def entered(self, packet: Packet, port: Port) -> None:
        """Notes when a packet came to a queue, and as which one."""
        packet.entered = self.time, port.offered
        self.coming, self.gone = packet, 0

    def began(self, packet: Packet, port: Port) -> None:
        """Refuses a queue that sends out of its order."""
        if port.waiting and port.waiting[0].entered < packet.entered or self.gone == self.line:
            raise Unreadable('a page shows queues whose packets leave in the order in which they came, and that of link '
                             f'{port.link.name} has another order')

    def dropped(self, packet: Packet, port: Port) -> None:
        """Refuses a queue that drops out of its order a packet that was not just coming."""
        if packet.waited and packet is self.coming:
            self.gone = self.line
        elif packet.waited:
            self.began(packet, port)
        self.coming = None


def number_of(word: str) -> int:
    """That of a word such as `cwnd=4000`."""
    return int(word.partition('=')[2])


def link_kept(port: Port) -> dict:
    """A link's state: what waits and what is under way, and the counts of the dump."""
    under_way = [*port.flight, *([] if port.sending is None else [port.sending])]
    return {'offered': port.offered, 'sent': port.sent, 'arrived': port.sent - len(under_way), 'busy': port.sending is not None,
            'waiting': [[*packet_kept(packet), packet.entered[0], is_again(packet)] for packet in port.waiting],
            'under_way': [[*packet_kept(packet), packet.due - port.delay - packet.hop.span, packet.due, is_again(packet), packet.entered[0]]
                          for packet in under_way]}


def packet_kept(packet: Packet) -> list[int]:
    """Its flow, whether it is an acknowledgement, its number."""
    return [packet.flow.number, packet.sort, packet.number]


def is_again(packet: Packet) -> bool:
    """Whether it is a segment that is sent again."""
    return packet.sort == DATA and packet.why != FIRST
