"""Reads a trace (docs/FORMATS.md) line by line and finds what became of each packet.

The trace says what a link begins to send and what is dropped; what only enters a queue it leaves to
its reader. Every packet that a node offers follows from the states on the lines ("What a trace leaves
to its reader" in docs/FORMATS.md), and a queue gives its packets in their order. `Reader` goes through
a trace line by line and keeps only the present state; `Run` of curves.py keeps all curves. Nothing but Python's
standard library. All times are nanoseconds, all sizes bytes.
"""
from __future__ import annotations

from array import array
from collections import deque
from collections.abc import Container, Iterable, Sequence

from tcpsim.scenario.text import Flow, Link, Scenario, WrongTrace
from tcpsim.scenario.units import BITS_NS, HEADER_BYTES
from tcpsim.traces.own_queues import OwnQueues

DATA, ACK = 0, 1
NEVER = 1 << 62         # past every moment of a run


# ---- a trace, line by line

def first_window(flow: Flow) -> int:
    """The initial cwnd in bytes, of RFC 5681 section 3.1 or of RFC 6928 section 2."""
    if flow.iw10:
        return min(10 * flow.mss, max(2 * flow.mss, 14_600))
    return (2 if flow.mss > 2190 else 3 if flow.mss > 1095 else 4) * flow.mss


class Stream:
    """The packets of one sort that a flow sends."""
    __slots__ = 'flow', 'sort', 'size'

    def __init__(self, flow: int, sort: int, size: int):
        self.flow, self.sort, self.size = flow, sort, size


class FlowState:
    """A flow's sender and receiver as they were after their last line. The methods `on_..` do nothing here: each is told
    what happened, which a kind of its own may keep."""

    sender: str                     # its node, as a line names it
    receiver: str
    first_link: LinkState           # of its data, and of its acknowledgements
    back_link: LinkState

    def __init__(self, flow: Flow, number: int):
        self.flow, self.number, self.text = flow, number, f'{number}:'
        self.data = Stream(number, DATA, HEADER_BYTES + flow.mss)
        self.acks = Stream(number, ACK, HEADER_BYTES)
        self.high = self.nxt = self.last_una = 0
        self.recovering, self.recover = False, 0    # `recover`: what was sent when the recovery began (RFC 6582)
        self.timed: deque[tuple[int, int]] = deque()        # (the ACK that matches, when it was sent)
        self.round_trips: array[int] = array('q')
        self.completed: int | None = None   # when all was acknowledged
        self.expected = 0
        self.highest = -1               # the greatest number received: from `expected` on, there is a gap
        self.answer_waits, self.answer_due = False, 0
        # Of each router, as a word, its links for data and for acknowledgements.
        self.hops: dict[str, tuple[LinkState | None, LinkState | None]] = {}

    def on_sent(self, time: int, number: int) -> None:
        """Told that a segment was sent for the first time."""

    def on_again(self, time: int, number: int, by_dups: bool) -> None:
        """Told that it was sent again: in fast recovery, by a third duplicate or a partial acknowledgement of NewReno's, or else
        by a timeout."""

    def on_acknowledged(self, time: int) -> None:
        """Told that `last_una` rose."""

    def on_received(self, time: int) -> None:
        """Told that `expected` rose."""

    def on_delack(self, time: int) -> None:
        """Told that the receiver acknowledges `expected`, which it had held back."""

    def on_window(self, time: int, cwnd: str, ssthresh: str, flight: int) -> None:
        """Told after a sender's line; the first two are words."""

    def on_turn(self, time: int, recovering: bool) -> None:
        """Told that a recovery begins or ends."""

    def on_timeout(self, time: int) -> None:
        """Told of a timeout."""

    def on_drop(self, time: int, link: int, reason: str, sort: int, number: int) -> None:
        """Told of a packet that was dropped; `sort` is DATA or ACK."""

    def delivered(self) -> int:
        """Bytes that the receiver has in order."""
        return self.expected

    def sends(self, kind: str, words: list[str], time: int) -> tuple[Iterable[int], int]:
        """What a sender's line says: the numbers of the segments that it sends, in order, and the place of
        its first act."""
        at = 7
        low = una_before = self.last_una
        if kind == 'ack':
            low, at = int(words[7]), 8
        una, nxt, recovering = int(words[at][4:]), int(words[at + 1][4:]), words[at + 4] == 'phase=fr'
        if una != max(una_before, low):
            raise ValueError('una does not follow from the line before')
        if kind == 'start' and (time, words[at + 2]) != (self.flow.start, f'cwnd={first_window(self.flow)}'):
            raise ValueError('another start, or another initial window')
        numbers: Sequence[int]
        by_dups = False
        if kind == 'rto':
            numbers = (una,)
            self.on_timeout(time)
        elif recovering and not self.recovering and kind == 'ack' and low <= una_before:
            numbers, by_dups = (una,), True
        elif recovering and self.recovering and kind == 'ack' and low > una_before:
            numbers, by_dups = (una, *range(self.nxt, nxt, self.flow.mss)), True    # a partial acknowledgement
            if len(numbers) > 2 or not self.flow.newreno:
                raise ValueError('a recovery goes on as that of no NewReno sender')
        else:
            numbers = range(max(self.nxt, low), nxt, self.flow.mss)
            # what finds no room has an act each
            if len(numbers) > 100 and len(numbers) > self.first_link.link.capacity + len(words) and not self.first_link.own:
                raise ValueError('more is sent than there is room for')
        if recovering is not self.recovering:
            if not recovering and self.flow.newreno and kind == 'ack' and una < self.recover:
                raise ValueError('a recovery ends before all is acknowledged that was sent when it began')
            self.recovering, self.recover = recovering, self.high
            self.on_turn(time, recovering)
        if una > una_before:
            self._acknowledge(una, time)
        for number in numbers:
            self._note_sent(number, by_dups, time)
        self.nxt = nxt
        self.on_window(time, words[at + 2][5:], words[at + 3][9:], nxt - una)
        return numbers, at + 5

    def _acknowledge(self, una: int, time: int) -> None:
        self.last_una = una
        self.on_acknowledged(time)
        timed = self.timed
        while timed and timed[0][0] <= una:
            matching, sent = timed.popleft()
            if matching == una:
                self.round_trips.append(time - sent)
        if una >= self.flow.mss * self.flow.segments and self.completed is None:
            self.completed = time

    def _note_sent(self, number: int, by_dups: bool, time: int) -> None:
        """A resending ends every timing, as it ends the sender's own (RFC 6298 section 3)."""
        if number < self.high:
            self.timed.clear()
            self.on_again(time, number, by_dups)
        else:
            self.high = number + self.flow.mss
            self.timed.append((self.high, time))
            self.on_sent(time, number)

    def answers(self, seq: int | None, expected: int, time: int) -> bool:
        """Whether a receiver's line offers an acknowledgement, or waits for its delay."""
        before = self.expected
        if expected > before:
            self.expected = expected
            self.on_received(time)
        if seq == before and self.highest < before and self.flow.delack and not self.answer_waits:
            self.answer_waits, self.answer_due = True, time + self.flow.delack
            return False
        if seq is not None and seq > self.highest:
            self.highest = seq
        self.answer_waits = False
        return True


class LinkState:
    """A link's queue as it was after the last line."""

    def __init__(self, link: Link, number: int, kind: str):
        self.link, self.number, self.sends = link, number, f'tx={number}:'
        self.node, self.first = str(link.source), 7 + {'sender': 5, 'receiver': 1, 'router': 0}[kind]
        self.to = str(link.to)          # the node at its end
        self.lost: Container[int] = ()  # which of those offered to it are lost
        self.own = False                # whether its queue is a class of Python's
        self.waiting: deque[tuple[str, Stream, int]] = deque()      # (text, stream, when it entered)
        self.flight: deque[tuple[str, Stream, int]] = deque()       # (text, stream, when it arrives), the one that it is sending among them
        self.busy, self.free_at = False, 0
        self.offered = 0
        self.greatest = 0               # the most packets that waited at once
        self.waited = 0                 # moments of leaving the queue less moments of entering it, summed

    def on_taken(self, time: int, stream: Stream, entered: int) -> None:
        """Told that it begins to send a packet."""

    def on_queue(self, time: int) -> None:
        """Told that how many packets wait may have changed."""

    def on_drop(self, time: int, reason: str, flow: int, sort: int, number: int) -> None:
        """Told of a packet that was dropped; `sort` is DATA or ACK."""


class Reader(OwnQueues):
    """Goes through a trace. `flows` and `links` are what was found of each; `last` is the last line's time,
    `lines` how many were read, `whole` that the trace has its line `end N`."""

    def __init__(self, scenario: Scenario, flow_kind: type[FlowState] = FlowState,
                 link_kind: type[LinkState] = LinkState):
        self.scenario = scenario
        self.flows: Sequence[FlowState] = [flow_kind(flow, number) for number, flow in enumerate(scenario.flows)]
        self.links: Sequence[LinkState] = [link_kind(link, number, scenario.nodes[link.source].kind)
                      for number, link in enumerate(scenario.links)]
        self.last, self.lines, self.whole = 0, 0, False
        self._flows = {str(flow.number): flow for flow in self.flows}
        self._links = {str(link.number): link for link in self.links}
        self._sources = {str(link.number + 1): link for link in self.links}
        for number, lost in scenario.lost.items():
            self.links[number].lost = lost
        for number in scenario.own:
            self.links[number].own = True
        for flow in self.flows:
            sender, receiver = flow.flow.sender, flow.flow.receiver
            flow.sender, flow.receiver = str(sender), str(receiver)
            flow.first_link, flow.back_link = (self.links[scenario.leaves[end][0]] for end in (sender, receiver))
            for node in range(len(scenario.nodes)):
                if scenario.nodes[node].kind == 'router':
                    forth, back = scenario.hop(node, receiver), scenario.hop(node, sender)
                    flow.hops[str(node)] = (None if forth is None else self.links[forth],
                                            None if back is None else self.links[back])

    def reached(self, time: int) -> int | None:
        """Told before the first line that is not before the moment that it answered last; answers the next
        such moment, or None where no further line is to be read."""
        return NEVER

    def read(self, lines: Iterable[str], moment: int = NEVER) -> None:
        """Reads lines to `end N`, to their end, or until `reached` answers None."""
        count, words = self.lines, ['']
        try:
            for line in lines:
                words = line.split()
                time = int(words[1])
                if words[0] == 'end':
                    self._end(words, count)
                    break
                if int(words[0]) != count + 1 or not self.last <= time < NEVER:
                    raise ValueError('a line is missing')
                if time >= moment:
                    due = self.reached(time)
                    if due is None:
                        break
                    moment = due
                self.last = time
                self._line(words, words[5], time)
                count += 1
        except (AttributeError, IndexError, KeyError, OverflowError, ValueError) as wrong:
            raise WrongTrace(f'line {count + 1} is no line of this scenario\'s trace: '
                             f'{" ".join(words)[:200]}') from wrong
        finally:
            self.lines = count

    def _end(self, words: list[str], count: int) -> None:
        if int(words[1]) != count or len(words) != 2:
            raise ValueError('another count of events')
        if self._next_due() < self.scenario.end:
            raise ValueError('the run goes on')
        self.whole = True

    def _next_due(self) -> int:
        """When the next event is that follows from what was read: all but a retransmission timer's, which is not known."""
        due = [link.free_at for link in self.links if link.busy] + [link.flight[0][2] for link in self.links if link.flight]
        due += [flow.answer_due for flow in self.flows if flow.answer_waits]
        due += [flow.flow.start for flow in self.flows if not flow.high]
        return min(due, default=NEVER)

    def _line(self, words: list[str], kind: str, time: int) -> None:
        if kind == 'free':
            link = self._links[words[6]]
            if link.node != words[2] or not link.busy or link.free_at != time:
                raise ValueError('the link does not become free now')
            link.busy = False
            at = link.first
            if link.waiting:
                at = self._take(link, words, at, time)
        else:
            flow, node = self._flows[words[6]], words[2]
            if kind == 'data' or kind == 'ack':
                self._arrive(words, flow, kind, node, time)
            if kind == 'data' and node == flow.receiver:
                link, at = flow.back_link, 9
                if flow.answers(int(words[7]), int(words[8][5:]), time):
                    at = self._offer(link, f'{flow.text}{flow.expected}', flow.acks, words, 9, time)
            elif kind == 'data' or (kind == 'ack' and node != flow.sender):
                hop = flow.hops[node][kind == 'ack']
                if hop is None:
                    raise ValueError('a packet without a route')
                link = hop
                stream = flow.data if kind == 'data' else flow.acks
                at = self._offer(link, flow.text + words[7], stream, words, 8, time)
            else:
                link, at = self._end_line(flow, node, kind, words, time)
        if at != len(words):
            raise ValueError('an act that no packet explains')
        link.on_queue(time)

    def _arrive(self, words: list[str], flow: FlowState, kind: str, node: str, time: int) -> None:
        """Takes a packet from its way: the first that is under way on that link, at its moment."""
        link = self._sources[words[3]]
        text, stream, due = link.flight.popleft()
        if due != time or link.to != node or text != flow.text + words[7] or stream.sort != (kind == 'ack'):
            raise ValueError('another packet is the next to arrive')

    def _end_line(self, flow: FlowState, node: str, kind: str, words: list[str], time: int) -> tuple[LinkState, int]:
        """A line of a flow's end that is no segment: at its sender, or of its receiver's delayed acknowledgement."""
        if kind == 'delack' and node == flow.receiver and flow.answer_waits and time == flow.answer_due:
            flow.answers(None, int(words[7][5:]), time)
            flow.on_delack(time)
            return flow.back_link, self._offer(flow.back_link, f'{flow.text}{flow.expected}', flow.acks, words, 8, time)
        if node != flow.sender or kind not in ('ack', 'start', 'rto'):
            raise ValueError('no event of this node')
        numbers, at = flow.sends(kind, words, time)
        for number in numbers:
            at = self._offer(flow.first_link, f'{flow.text}{number}', flow.data, words, at, time)
        return flow.first_link, at

    # Offering to a link and taking from its queue. `words[at]` is the first act that is not yet used.

    def _offer(self, link: LinkState, text: str, stream: Stream, words: list[str], at: int, time: int) -> int:
        act = words[at] if at < len(words) else None
        link.offered += 1
        if link.own and link.offered not in link.lost:
            return self._offer_own(link, text, stream, words, at, time)
        if link.offered in link.lost or len(link.waiting) >= link.link.capacity:
            reason = 'lost' if link.offered in link.lost else 'full'
            if act != f'drop={reason}:{text}':
                raise ValueError('a packet is to be dropped here')
            self._drop(link, text, stream, reason, time)
            return at + 1
        if link.busy:
            link.waiting.append((text, stream, time))
            link.waited -= time
            if len(link.waiting) > link.greatest:
                link.greatest = len(link.waiting)
            return at
        if act != link.sends + text:
            raise ValueError('another packet is sent')
        self._begin(link, text, stream, time, time)
        return at + 1

    @staticmethod
    def _begin(link: LinkState, text: str, stream: Stream, time: int, entered: int) -> None:
        """The link begins to send a packet."""
        link.busy = True
        link.free_at = free_at = time - -stream.size * BITS_NS // link.link.rate
        link.flight.append((text, stream, free_at + link.link.delay))
        link.on_taken(time, stream, entered)

    def _take(self, link: LinkState, words: list[str], at: int, time: int) -> int:
        """A link that became free takes from its queue: first what CoDel drops, then what it sends."""
        if link.own:
            return self._take_own(link, words, at, time)
        while at < len(words) and link.link.queue == 'codel' and words[at].startswith('drop=codel:'):
            text, stream, _ = link.waiting.popleft()
            link.waited += time
            if words[at][11:] != text:
                raise ValueError('another packet is dropped')
            self._drop(link, text, stream, 'codel', time)
            at += 1
        if not link.waiting and at == len(words):
            return at
        text, stream, entered = link.waiting.popleft()
        link.waited += time
        if words[at] != link.sends + text:
            raise ValueError('another packet is at the head of the queue')
        self._begin(link, text, stream, time, entered)
        return at + 1

    def _drop(self, link: LinkState, text: str, stream: Stream, reason: str, time: int) -> None:
        number, flow = int(text.partition(':')[2]), self.flows[stream.flow]
        flow.on_drop(time, link.number, reason, stream.sort, number)
        link.on_drop(time, reason, stream.flow, stream.sort, number)
