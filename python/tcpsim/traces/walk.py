"""Reads a trace line by line and gives every packet its life (lives.py).

What a line leaves to its reader is found out as docs/FORMATS.md says ("What a trace leaves to its
reader"). Each line is held against the scenario: its number, its key, the packet that arrives, the
queue's order and limit, the time that a packet takes. `Walk` is a base class: follow.py and stalls.py
say in its hooks, and in the watch that they put on a packet, what they want to know. Nothing is kept but
the packets in the net.
"""
from __future__ import annotations

import argparse
import os
from collections.abc import Iterable, Iterator
from contextlib import contextmanager

from tcpsim.scenario.text import Scenario, Unreadable, WrongTrace
from tcpsim.traces.lives import (AFTER_TIMEOUT, ALARM, AT_ONCE, CAME, CODEL, FIRST, FULL, LOST, PARTIAL, PHASES, THIRD_DUPLICATE, TIMEOUT,
                                 FlowState, Packet, Port)
from tcpsim.traces.own_queues import dropped_by
from tcpsim.traces.reader import ACK, DATA
from tcpsim.whole_trace import IMAGE_BEGINS, opened_run


class Walk:
    """A run, line by line. `time` and `line` are those of the present line; `ended` says that the
    trace has its line `end N`."""

    def __init__(self, scenario: Scenario):
        self.scenario = scenario
        self.time, self.line, self.ended = 0, 0, False
        self.expired = 0, False     # of the last timer that ended: how long it ran, whether it had been doubled
        places = {link: place for links in scenario.leaves for place, link in enumerate(links)}
        self.ports = [Port(number, link, places[number], scenario.nodes[link.source].kind, scenario.lost.get(number, ()), number in scenario.own)
                      for number, link in enumerate(scenario.links)]
        self.flows = [FlowState(number, flow, scenario.paths[number], self.ports)
                      for number, flow in enumerate(scenario.flows)]
        self._flow = {flow.word: flow for flow in self.flows}
        self._port = {str(port.number): port for port in self.ports}
        self._arrives = {port.source: port for port in self.ports}
        self._states: dict[str, list[str]] = {}     # of each sender and receiver, as words of its last line

    # ---- hooks: what a reader of lives wants to know

    def born(self, packet: Packet) -> None:
        """The packet's end is about to offer it; here it can get its watch."""

    def at_sender(self, flow: FlowState, kind: str, packet: Packet | None, before: int) -> None:
        """After a sender's line: `packet` is the acknowledgement that came or None, `before` is una
        before the line."""

    def at_receiver(self, flow: FlowState, packet: Packet | None, answer: Packet | None, before: int) -> None:
        """After a receiver's line: the segment that came or None, the acknowledgement or None, the next
        byte before the line."""

    # ---- lines

    def read(self, lines: Iterable[str]) -> None:
        """Reads all lines; whatever is wrong with one becomes an `Unreadable` with its number."""
        numbered, line, words, last, end = enumerate(lines, 1), '', [''], -1, self.scenario.end
        try:
            for self.line, line in numbered:
                before, words = words, line.split(' ')
                if words[0] != str(self.line):
                    self._end(words)
                    break
                time, kind = int(words[1]), words[5]
                if not last < time < end and (time != last or not rises(words, before)):
                    raise ValueError('its key is not above that of the line before it' if time <= last else
                                     'its time is at or past the end')
                self.time = last = time
                if kind == 'free':
                    at = self._free(words)
                elif kind == 'data' or kind == 'ack':
                    at = self._arrival(words)
                else:
                    at = self._timer(words, kind)
                if at != len(words):
                    raise ValueError('a packet is named that nothing offered')
            for self.line, line in numbered:
                raise ValueError('there is a line behind `end`')
        except (IndexError, KeyError, ValueError) as wrong:
            raise WrongTrace(f'line {self.line} is no line of this scenario\'s trace ({reason(wrong)}): '
                             f'{line[:120]}') from wrong
        if not self.line:
            raise WrongTrace('the trace has no line')
        if self.ended:
            self.line -= 1

    def _end(self, words: list[str]) -> None:
        """The line `end N`, or one whose number is another."""
        if words[0] != 'end':
            raise ValueError('its number is out of order')
        if words[1:] != [str(self.line - 1)]:
            raise ValueError(f'`end` names another number than the {self.line - 1} lines before it')
        if self._next_due() < self.scenario.end:
            raise ValueError('the run goes on')
        self.ended = True

    def _next_due(self) -> int:
        """When the next event is; the run's end where none is before it."""
        due = [port.free_at for port in self.ports if port.sending is not None]
        due += [port.flight[0].due for port in self.ports if port.flight]
        due += [flow.flow.start for flow in self.flows if not flow.high]
        due += [at for flow in self.flows for at in (flow.due('delack'), flow.deadline) if at is not None]
        return min(due, default=self.scenario.end)

    def _free(self, words: list[str]) -> int:
        port = self._port[words[6]]
        packet = port.sending
        if packet is None or self.time != port.free_at or words[4] != port.timer or words[2] != port.node or words[3] != '0':
            raise ValueError('that link does not become free now')
        if words[7:port.acts] != self._states.get(port.node, []):
            raise ValueError('the node was otherwise before')
        port.sending = None
        port.flight.append(packet)
        if packet.watch is not None:
            packet.watch.left(packet, port)
        return self._take(port, words, port.acts) if port.waiting else port.acts

    def _arrival(self, words: list[str]) -> int:
        port = self._arrives[words[3]]
        if not port.flight:
            raise ValueError('nothing is under way on that link')
        packet = port.flight.popleft()
        hop = packet.hop
        if self.time != packet.due or words[7] != packet.word or words[6] != hop.flow or words[5] != hop.kind \
                or words[4] != packet.count or words[2] != port.to:
            raise ValueError('another packet, or another moment, is the next to arrive')
        if packet.watch is not None:
            packet.watch.came(packet, port)
        if hop.next is not None:
            packet.hop = hop.next
            return self._offer(packet, words, 8)
        packet.end(CAME, self.time, self.line)
        return (self._receiver if packet.sort == DATA else self._sender)(packet.flow, words[5], packet, words, 8)

    def _timer(self, words: list[str], kind: str) -> int:
        flow = self._flow[words[6]]
        if words[2:5] != flow.timers[kind] or self.time != flow.due(kind):
            raise ValueError('that node has no such timer now')
        return (self._receiver if kind == 'delack' else self._sender)(flow, kind, None, words, 7)

    # ---- offering to a link and taking from its queue; `words[at]` is the first act that is not yet used

    def _offer(self, packet: Packet, words: list[str], at: int) -> int:
        port = packet.hop.port
        port.offered += 1
        lost, act = port.offered in port.lost, words[at] if at < len(words) else ''
        if lost or len(port.waiting) >= port.capacity and not port.own:
            fate = LOST if lost else FULL
            if act != f'drop={fate}:{packet.text}':
                raise ValueError('a packet is to be dropped here')
            self._drop(port, packet, fate)
            return at + 1
        if packet.watch is not None:
            packet.watch.entered(packet, port)
        if port.own:
            return self._offer_own(port, packet, words, at)
        if port.sending is not None:
            port.waiting.append(packet)
            return at
        if act != port.tx + packet.text:
            raise ValueError('that link is idle, and does not begin to send the packet')
        self._begin(port, packet)
        return at + 1

    def _offer_own(self, port: Port, packet: Packet, words: list[str], at: int) -> int:
        """To a class of Python's, which can drop this packet or others."""
        found = dropped_by(words[at]) if at < len(words) else None
        if found and found[1] == packet.text:
            self._drop(port, packet, found[0], True)
            at += 1
        else:
            port.waiting.append(packet)
        at = self._drop_own(port, words, at)
        return self._take_own(port, words, at) if port.sending is None and port.waiting else at

    def _take(self, port: Port, words: list[str], at: int) -> int:
        """The link that became free takes from its queue, which is not empty."""
        if port.own:
            return self._take_own(port, words, at)
        packet = port.waiting[0]
        if words[at] != port.tx + packet.text:
            at = self._codel(port, words, at)
            if not port.waiting:
                return at
            packet = port.waiting[0]
            if words[at] != port.tx + packet.text:
                raise ValueError('another packet is at the head of the queue')
        port.waiting.popleft()
        self._begin(port, packet)
        return at + 1

    def _begin(self, port: Port, packet: Packet) -> None:
        port.sending = packet
        port.free_at = self.time + packet.hop.span
        packet.due = port.free_at + port.delay
        port.sent += 1
        packet.count = str(port.sent)
        if packet.watch is not None:
            packet.watch.began(packet, port)

    def _drop_own(self, port: Port, words: list[str], at: int) -> int:
        """What a class of Python's drops of the packets that wait."""
        while at < len(words) and (found := dropped_by(words[at])):
            packet = next((packet for packet in port.waiting if packet.text == found[1]), None)
            if packet is None:
                break
            port.waiting.remove(packet)
            self._drop(port, packet, found[0], True)
            at += 1
        return at

    def _take_own(self, port: Port, words: list[str], at: int) -> int:
        """What a class of Python's drops and gives."""
        at = self._drop_own(port, words, at)
        if not port.waiting:
            return at
        packet = next((packet for packet in port.waiting if words[at] == port.tx + packet.text), None)
        if packet is None:
            raise ValueError('a packet is sent that does not wait')
        port.waiting.remove(packet)
        self._begin(port, packet)
        return at + 1

    def _codel(self, port: Port, words: list[str], at: int) -> int:
        """What CoDel drops at the head of the queue."""
        while at < len(words) and words[at].startswith('drop=codel:'):
            if port.link.queue != CODEL or not port.waiting or words[at][11:] != port.waiting[0].text:
                raise ValueError('another packet is at the head of the queue')
            self._drop(port, port.waiting.popleft(), CODEL, True)
            at += 1
        return at

    def _drop(self, port: Port, packet: Packet, fate: str, waited: bool = False) -> None:
        packet.waited = waited
        packet.end(fate, self.time, self.line)
        if packet.watch is not None:
            packet.watch.dropped(packet, port)

    # ---- the ends

    def _sender(self, flow: FlowState, kind: str, packet: Packet | None, words: list[str], at: int) -> int:
        before = flow.una
        una, nxt, recovering = int(words[at][4:]), int(words[at + 1][4:]), PHASES[words[at + 4]]
        if una != (before if packet is None else max(before, packet.number)) \
                or not (una < nxt <= flow.total or una == nxt == flow.total):
            raise ValueError('the sender\'s una or nxt is another')
        numbers, why = self._sends(flow, kind, packet, una, nxt, recovering)
        flow.nxt, flow.recovering = nxt, recovering
        flow.state = self._states[words[2]] = words[at:at + 5]
        at += 5
        for number in numbers:
            at = self._offer(self._segment(flow, number, why), words, at)
        self.at_sender(flow, kind, packet, before)
        return at

    def _sends(self, flow: FlowState, kind: str, packet: Packet | None, una: int, nxt: int, recovering: bool) -> tuple[Iterable[int], str]:
        """The segments that a sender's line sends, and why."""
        if una > flow.una:
            partial = recovering and flow.recovering
            flow.acknowledge(una, self.time, partial)
            if partial:
                return self._partly(flow, una, nxt), PARTIAL
            return range(max(flow.nxt, una), nxt, flow.mss), FIRST
        if kind == 'rto':
            self.expired = flow.expire(self.time)
            return (una,), TIMEOUT
        if packet is not None and packet.number == una < flow.nxt:
            flow.dups += 1
        if recovering and not flow.recovering:
            flow.notice_loss()
            return (una,), THIRD_DUPLICATE
        return range(flow.nxt, nxt, flow.mss), FIRST

    @staticmethod
    def _partly(flow: FlowState, una: int, nxt: int) -> tuple[int, ...]:
        """What a partial acknowledgement sends: the next hole again, and at most one new segment."""
        if not flow.flow.newreno or nxt not in (flow.nxt, flow.nxt + flow.mss):
            raise ValueError('a recovery goes on as that of no NewReno sender')
        return (una,) if nxt == flow.nxt else (una, flow.nxt)

    def _segment(self, flow: FlowState, number: int, why: str) -> Packet:
        """A segment that the sender sends now."""
        if number < flow.high:
            flow.timing = None
            if why is FIRST:
                why = AFTER_TIMEOUT
        else:
            why = FIRST
            flow.high = number + flow.mss
            if flow.timing is None:
                flow.timing = flow.high, self.time
        if flow.deadline is None:
            flow.set_timer(self.time)
        packet = Packet(flow, DATA, number, self.time, self.line, why)
        self.born(packet)
        return packet

    def _receiver(self, flow: FlowState, kind: str, packet: Packet | None, words: list[str], at: int) -> int:
        before, answer = flow.next, None
        waits = packet is not None and flow.receive(packet, self.time)
        if words[at] != f'next={flow.next}':
            raise ValueError('the receiver\'s next byte is another')
        self._states[words[2]] = [words[at]]
        at += 1
        if not waits:
            answer = self._answer(flow, packet)
            at = self._offer(answer, words, at)
        self.at_receiver(flow, packet, answer, before)
        return at

    def _answer(self, flow: FlowState, segment: Packet | None) -> Packet:
        """The acknowledgement that the receiver sends now: to a segment, or at its timer."""
        answer = Packet(flow, ACK, flow.next, self.time, self.line, ALARM if segment is None else AT_ONCE)
        of = segment or flow.waits
        if of is None:
            raise ValueError('no answer waits')
        answer.of, answer.since = of, flow.waits_since
        flow.waits = flow.waits_since = None
        self.born(answer)
        return answer


def rises(words: list[str], before: list[str]) -> bool:
    """Whether the key of a line is above that of the line before it, at the same time."""
    node, other = int(words[2]), int(before[2])
    return node > other or node == other and list(map(int, words[3:5])) > list(map(int, before[3:5]))


def reason(wrong: Exception) -> str:
    """What is wrong with a line, in words."""
    if isinstance(wrong, ValueError) and not str(wrong).startswith('invalid literal'):
        return str(wrong)
    return 'a name or number in it is none of the scenario\'s, or one is missing'


# ---- files

@contextmanager
def opened(given: argparse.Namespace) -> Iterator[tuple[Scenario, Iterator[str]]]:
    """The scenario's text and its trace's lines that a command line names, of the file or of the program that runs it
    meanwhile. An image is refused, as the debugger takes texts alone; a pipe, which can be read only once, is not looked
    at before."""
    path = given.scenario
    if os.path.isfile(path) and begins_as_image(path):
        raise Unreadable(f'{path} is an image: `tcpsim dis` writes its text')
    with opened_run(path, given.trace, given.program, given.partial) as (scenario, lines):
        yield scenario, lines


def begins_as_image(path: str) -> bool:
    """Whether a file is an image."""
    with open(path, 'rb') as file:
        return file.read(len(IMAGE_BEGINS)) == IMAGE_BEGINS


class NoFlow(Unreadable):
    """A word of a command line names a flow that is not there."""

    status = 2


def flow_named(scenario: Scenario, word: str) -> int:
    """The number of the flow with this name, or with this number."""
    for number, flow in enumerate(scenario.flows):
        if word in (flow.name, str(number)):
            return number
    raise NoFlow(f'the scenario has no flow {word}; it has ' + ', '.join(flow.name for flow in scenario.flows))


def check_byte(scenario: Scenario, flow: int, byte: int) -> None:
    """Unreadable where a flow, by its number, does not have the byte."""
    declared = scenario.flows[flow]
    total = declared.mss * declared.segments
    if byte >= total:
        raise Unreadable(f'flow {declared.name} has the bytes 0 to {total - 1}, and not {byte}')
