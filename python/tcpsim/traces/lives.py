"""The life of a packet: where it was offered, waited, was sent, came to its end or was dropped, and what it answers; and
the state of ports and flows that decides it. walk.py goes by them through a trace. Times are nanoseconds, sizes bytes.
"""
from __future__ import annotations

from collections import deque
from collections.abc import Container, Iterator
from typing import TYPE_CHECKING

from tcpsim.scenario.text import Flow, Link, WrongScenario
from tcpsim.scenario.units import BITS_NS, HEADER_BYTES
from tcpsim.traces.reader import ACK, DATA

if TYPE_CHECKING:
    from tcpsim.stalls import Place

SECOND = 10**9
LEAST_RTO, MOST_RTO = SECOND, 60 * SECOND
PHASES = {'phase=fr': True, 'phase=ss': False, 'phase=ca': False}
STATE_WORDS = {'sender': 5, 'receiver': 1, 'router': 0}     # of a line's state, by the kind of its node
# Why a segment is sent.
FIRST, THIRD_DUPLICATE, TIMEOUT, AFTER_TIMEOUT = 'first', 'third duplicate', 'timeout', 'after a timeout'
PARTIAL = 'partial acknowledgement'
# How an acknowledgement came to be.
AT_ONCE, ALARM = 'at once', 'by the alarm'
# What became of a packet; a queue that is a class of Python's has words of its own.
CAME, LOST, FULL, CODEL = 'came', 'lost', 'full', 'codel'


class Watch:
    """What is told of a packet on its way, where `packet.watch` is one of these."""

    def entered(self, packet: Packet, port: Port) -> None:
        """It enters the port's queue, behind those in `port.waiting`."""

    def began(self, packet: Packet, port: Port) -> None:
        """The link begins to send it."""

    def left(self, packet: Packet, port: Port) -> None:
        """Its last bit was sent; it arrives a delay later."""

    def came(self, packet: Packet, port: Port) -> None:
        """It arrives over the port's link, at a router or at its end."""

    def dropped(self, packet: Packet, port: Port) -> None:
        """It was dropped; `packet.fate` says why, and `packet.waited` whether out of a queue."""


class Packet:
    """A segment or an acknowledgement on its way."""
    __slots__ = ('flow', 'sort', 'number', 'word', 'text', 'offered', 'line', 'why', 'of', 'since', 'hop',
                 'due', 'count', 'fate', 'ended', 'ended_line', 'waited', 'asked', 'watch', 'cause', 'sent_line', 'entered')
    of: Packet              # an acknowledgement's: the segment that it answers
    due: int                # when it arrives over the link, once that sends it
    count: str              # which of those that the link sent it is
    cause: int              # for a watch that keeps records: that of the event that offered it
    sent_line: int          # and the line in which its link began to send it
    entered: tuple[int, int]        # for a page: when it entered the queue where it is, and as which of those that were offered to it

    def __init__(self, flow: FlowState, sort: int, number: int, offered: int, line: int, why: str | None):
        self.flow, self.sort, self.number = flow, sort, number  # the flow's state; DATA or ACK
        self.word = str(number)
        self.text = flow.begin + self.word                      # as an act of the trace names it
        self.offered, self.line, self.why = offered, line, why  # by its end: when, in which line, why
        self.since: int | None = None   # an acknowledgement's: since when the segment that it answers waited
        self.hop = flow.paths[sort]     # where it is
        self.fate: str | None = None    # `CAME` to its end or why it was dropped; None in the net
        self.waited = False             # whether it was dropped out of a queue
        self.asked: int | None = None   # a segment's: what the receiver asked for when it came, its next byte
        self.watch: Watch | None = None

    def end(self, fate: str, time: int, line: int) -> None:
        """Its life ends: how, when, and in which line."""
        self.fate, self.ended, self.ended_line = fate, time, line


class Hop:
    """A link on the way of a flow's packets of one sort: for how long it sends one, the words of one's
    arrival, and the next hop. `place` is for a watch that keeps account of the flow's packets at the link."""
    __slots__ = ('port', 'span', 'kind', 'flow', 'next', 'place')

    place: Place

    def __init__(self, port: Port, span: int, kind: str, flow: str, following: Hop | None):
        self.port, self.span, self.kind, self.flow, self.next = port, span, kind, flow, following


class Port:
    """The sending side of a link."""

    def __init__(self, number: int, link: Link, place: int, kind: str, lost: Container[int], own: bool):
        self.number, self.link, self.capacity, self.delay = number, link, link.capacity, link.delay
        self.lost, self.own = lost, own                 # which of those offered to it are lost; whether its queue is a class of Python's
        self.tx = f'tx={number}:'
        self.node, self.timer = str(link.source), str(3 + place)    # in the key of a line `free l`
        self.acts = 7 + STATE_WORDS[kind]               # where they begin in a line `free l`
        self.to, self.source = str(link.to), str(number + 1)    # in the key of an arrival
        self.waiting: deque[Packet] = deque()
        self.flight: deque[Packet] = deque()
        self.sending: Packet | None = None
        self.free_at = -1                               # when it becomes free that sends
        self.offered = self.sent = 0                    # how many packets


class FlowState:
    """Both ends of a flow, as the lines so far leave them."""

    def __init__(self, number: int, flow: Flow, paths: tuple[list[int], list[int]], ports: list[Port]):
        self.number, self.flow, self.word, self.begin = number, flow, str(number), f'{number}:'
        self.mss, self.total = flow.mss, flow.mss * flow.segments
        forth, back = ([ports[link] for link in links] for links in paths)
        self.paths = {DATA: first_hop(forth, HEADER_BYTES + flow.mss, 'data', self.word),
                     ACK: first_hop(back, HEADER_BYTES, 'ack', self.word)}
        sender, receiver = str(flow.sender), str(flow.receiver)
        self.timers = {'start': [sender, '0', '0'], 'rto': [sender, '0', '1'], 'delack': [receiver, '0', '2']}
        # the sender
        self.una = self.nxt = self.high = self.dups = 0
        self.dups_before = 0            # what `dups` was when una last rose: a partial acknowledgement leaves it
        self.recovering = False
        self.state: list[str] = []      # as words of the sender's last line
        self.recover: int | None = None     # NewReno's: the greatest nxt when it last noticed a loss; None before
        self.partial = False            # this recovery had a partial acknowledgement
        self.timing: tuple[int, int] | None = None      # (the acknowledgement that ends it, when it began)
        self.srtt: int | None = None
        self.deadline: int | None = None
        self.rttvar, self.rto = 0, SECOND
        self.doubled = False            # the timer was doubled and not measured since
        self.timer_sets = 0             # how often the timer was set, at first or anew
        # the receiver
        self.next = 0
        self.above: set[int] = set()
        self.waits: Packet | None = None        # the segment whose answer waits
        self.waits_since: int | None = None     # since when

    def hops(self) -> Iterator[Hop]:
        """All hops, of both paths."""
        for first in self.paths.values():
            hop: Hop | None = first
            while hop is not None:
                yield hop
                hop = hop.next

    def due(self, kind: str) -> int | None:
        """When a timer is due, or None."""
        if kind == 'delack':
            return None if self.waits_since is None else self.waits_since + self.flow.delack
        return self.flow.start if kind == 'start' else self.deadline

    def acknowledge(self, ack: int, time: int, partial: bool) -> None:
        """The sender gets a new acknowledgement. Of the partial ones of a recovery the first sets the timer anew."""
        if self.timing is not None and ack >= self.timing[0]:
            self.sample(time - self.timing[1])
            self.timing = None
        self.una, self.dups_before = ack, self.dups if partial else 0
        self.dups = self.dups_before
        if not (partial and self.partial):
            self.deadline = None
            if ack < self.nxt:
                self.set_timer(time)
        self.partial = partial

    def duplicates(self) -> int:
        """How many duplicates asked for the segment at una."""
        return self.dups - self.dups_before

    def set_timer(self, time: int) -> None:
        """The timer begins to run, or begins anew (RFC 6298 section 5)."""
        self.deadline = time + self.rto
        self.timer_sets += 1

    def notice_loss(self) -> None:
        """A recovery begins, or the timer ends."""
        self.partial = False
        if self.flow.newreno:
            self.recover = self.high

    def expire(self, time: int) -> tuple[int, bool]:
        """The timer ends; answers how long it ran, and whether it had been doubled."""
        self.notice_loss()
        expired = self.rto, self.doubled
        self.dups = self.dups_before = 0
        self.timing = None
        self.rto, self.doubled = min(2 * self.rto, MOST_RTO), True
        self.set_timer(time)
        return expired

    def receive(self, packet: Packet, time: int) -> bool:
        """The receiver gets a segment; answers whether it makes its answer wait."""
        number, above = packet.number, self.above
        in_order = number == self.next
        waits = bool(in_order and self.waits is None and self.flow.delack and not above)
        if waits:
            self.waits, self.waits_since = packet, time
        if in_order:
            self.next += self.mss
            while self.next in above:
                above.remove(self.next)
                self.next += self.mss
        elif number > self.next:
            above.add(number)
        packet.asked = self.next
        return waits

    def sample(self, trip: int) -> None:
        """The sender measured a round trip."""
        self.srtt, self.rttvar, self.rto = after_sample(self.srtt, self.rttvar, trip)
        self.doubled = False


def after_sample(srtt: int | None, rttvar: int, trip: int) -> tuple[int, int, int]:
    """RFC 6298 section 2: srtt, rttvar and rto after a measured round trip; srtt is None before the first."""
    if srtt is None:
        srtt, rttvar = trip, trip // 2
    else:
        rttvar = (3 * rttvar + abs(srtt - trip)) // 4
        srtt = (7 * srtt + trip) // 8
    return srtt, rttvar, min(max(srtt + max(1, 4 * rttvar), LEAST_RTO), MOST_RTO)


def first_hop(ports: list[Port], size: int, kind: str, flow: str) -> Hop:
    """The first hop of a path over these ports, for packets of this size."""
    hop = None
    for port in reversed(ports):
        hop = Hop(port, -(-size * BITS_NS // port.link.rate), kind, flow, hop)
    if hop is None:
        raise WrongScenario('the scenario has a flow from a node to itself')
    return hop
