"""The simulation: one set of pending events, and the event of the least key run next."""
from collections import namedtuple
from heapq import heappop, heappush
from typing import Optional

from tcpsim_model.queues import Own, Packet, queue_of
from tcpsim_model.receiver import Receiver
from tcpsim_model.scenario import ROUTER, SENDER
from tcpsim_model.sender import Sender
from tcpsim_model.variants import of_flow

START, RTO, DELACK, FIRST_FREE = 0, 1, 2, 3     # a node's timers; port p is free: FIRST_FREE + p
HEADER_BYTES = 40
BITS_NS = 8 * 10**9

# One event that was run: its key, its kind ('start', 'rto', 'delack', 'free', 'data', 'ack'), its
# numbers as they are written, its flow (None for 'free'), its node's state and its acts as written.
Line = namedtuple('Line', 'time node source number kind names flow after acts')


def line_text(n, line):
    time, node, source, number, kind, names, _, after, acts = line
    return f'{n} {time} {node} {source} {number} {kind} {names}{after}{"".join(acts)}\n'


class Port:
    """The sending side of a link."""
    __slots__ = ('number', 'to', 'rate', 'delay', 'lose', 'queue', 'timer', 'busy', 'offered', 'sent')

    def __init__(self, number, link, place, own=None):
        self.number, self.to, self.rate, self.delay = number, link.to, link.rate, link.delay
        self.lose = frozenset(link.lose)
        self.queue = Own(own(link)) if own else queue_of(link)
        self.timer = FIRST_FREE + place     # the node's timer for "this port is free"
        self.busy = False
        self.offered = self.sent = 0


class Network:
    """A state of the net. `position` is the number of events that were run.

    Pending events lie in a heap. A timer that was replaced or cleared stays there until it comes
    to the top, where `timers` tells that it isn't set any more."""

    def __init__(self, scenario):
        self.scenario, self.end, self.position = scenario, scenario.end, 0
        self.kinds, self.flows = scenario.nodes, scenario.flows
        count = len(scenario.nodes)
        self.timers: list[dict[int, int]] = [{} for _ in range(count)]      # of each node: timer number to its time
        self.pending = []                           # (time, node, source, number, packet or None)
        self.ends: list = [None] * count            # sender or receiver at each node
        self.flow_at: list[int | None] = [None] * count
        places = {number: place for numbers in scenario.outgoing() for place, number in enumerate(numbers)}
        self.ports = [Port(number, link, places[number], scenario.queues.get(number)) for number, link in enumerate(scenario.links)]
        self.own_ports = [[self.ports[number] for number in numbers] for numbers in scenario.outgoing()]
        self.routes = {(router, to): self.ports[link] for router, to, link in scenario.routes}
        self.inside = [0] * len(scenario.flows)     # of each flow: its packets that wait or are under way
        self.touched = set()                        # the links over which the last event sent, or where it dropped
        self.dropped = []                           # what the last event dropped: reason, link and packet of each
        for number, flow in enumerate(self.flows):
            self.ends[flow.sender] = Sender(flow.mss, flow.segments, flow.rwnd, **of_flow(flow))
            self.ends[flow.receiver] = Receiver(flow.mss, flow.delack)
            self.flow_at[flow.sender] = self.flow_at[flow.receiver] = number
            self.set_timer(flow.sender, START, flow.start)

    # Pending events.

    def set_timer(self, node, number, time):
        """Sets a timer in place of the one of that number; None clears it."""
        timers = self.timers[node]
        if time is None:
            timers.pop(number, None)
        elif timers.get(number) != time:
            timers[number] = time
            heappush(self.pending, (time, node, 0, number, None))

    def is_stale(self, event):
        return event[2] == 0 and self.timers[event[1]].get(event[3]) != event[0]

    def least(self):
        """The pending event of the least key, or None."""
        pending = self.pending
        while pending and self.is_stale(pending[0]):
            heappop(pending)
        return pending[0] if pending else None

    def due(self):
        """The event that is run next: the least, where it lies below the end."""
        event = self.least()
        return event if event is not None and event[0] < self.end else None

    # Offering a packet to a link, and taking from its queue.

    def offer(self, port, packet, now, acts):
        port.offered += 1
        self.inside[packet.flow] += 1
        if port.offered in port.lose:
            self.drop('lost', port, packet, acts)
        elif isinstance(port.queue, Own):
            for word, lost in port.queue.offer(packet, now):
                self.drop(word, port, lost, acts)
            if not port.busy and port.queue.waiting:
                self.take(port, now, acts)
        elif not port.queue.offer(packet, now):
            self.drop('full', port, packet, acts)
        elif not port.busy:
            self.take(port, now, acts)

    def drop(self, reason, port, packet, acts):
        self.inside[packet.flow] -= 1
        self.touched.add(port.number)
        self.dropped.append((reason, port.number, packet))
        acts.append(f' drop={reason}:{packet.flow}:{packet.number}')

    def take(self, port, now, acts):
        dropped, packet = port.queue.take(now)
        own = isinstance(port.queue, Own)
        for lost in dropped:
            self.drop(lost[0] if own else 'codel', port, lost[1] if own else lost, acts)
        if packet is None:
            port.busy = False
        else:
            self.send(port, packet, now, acts)

    def send(self, port, packet, now, acts):
        free = now - -packet.bytes * BITS_NS // port.rate      # rounded up
        port.busy = True
        port.sent += 1
        node = self.scenario.links[port.number].source
        self.set_timer(node, port.timer, free)
        heappush(self.pending, (free + port.delay, port.to, port.number + 1, port.sent, packet))
        self.touched.add(port.number)
        acts.append(f' tx={port.number}:{packet.flow}:{packet.number}')

    # The rows: what each event does. Each answers the acts in their order.

    def at_sender(self, node, now, numbers):
        """The packets that the sender's row sends are offered in order; the timer follows."""
        acts: list[str] = []
        flow, port = self.flow_at[node], self.own_ports[node][0]
        size = self.flows[flow].mss + HEADER_BYTES
        for seq in numbers:
            self.offer(port, Packet(flow, False, seq, size), now, acts)
        self.set_timer(node, RTO, self.ends[node].deadline)
        return acts

    def at_receiver(self, node, now, number):
        """An acknowledgement is offered at once, or (None) the answer waits."""
        acts: list[str] = []
        receiver = self.ends[node]
        if number is not None:
            self.offer(self.own_ports[node][0], Packet(self.flow_at[node], True, number, HEADER_BYTES), now, acts)
        self.set_timer(node, DELACK, receiver.timer)
        return acts

    def at_router(self, node, now, packet):
        flow = self.flows[packet[0]]
        acts: list[str] = []
        self.offer(self.routes[node, flow.sender if packet[1] else flow.receiver], packet, now, acts)
        return acts

    def arrive(self, node, now, packet):
        kind = self.kinds[node]
        if kind == ROUTER:
            return self.at_router(node, now, packet)
        if kind == SENDER:
            return self.at_sender(node, now, self.ends[node].on_ack(packet[2], now))
        return self.at_receiver(node, now, self.ends[node].on_data(packet[2], now))

    def timer(self, node, now, number):
        if number == START:
            return self.at_sender(node, now, self.ends[node].on_start(now))
        if number == RTO:
            return self.at_sender(node, now, self.ends[node].on_rto(now))
        if number == DELACK:
            return self.at_receiver(node, now, self.ends[node].on_delack())
        acts: list[str] = []
        self.take(self.own_ports[node][number - FIRST_FREE], now, acts)
        return acts

    def step(self) -> Optional[Line]:
        """Runs the event that is due; answers its line, or None where none is."""
        event = self.due()
        if event is None:
            return None
        heappop(self.pending)
        now, node, source, number, packet = event
        self.touched, self.dropped = set(), []
        if source == 0:
            del self.timers[node][number]
            acts = self.timer(node, now, number)
        else:
            self.inside[packet[0]] -= 1
            acts = self.arrive(node, now, packet)
        self.position += 1
        end, (kind, names, flow) = self.ends[node], self.naming(event)
        return Line(now, node, source, number, kind, names, flow, '' if end is None else end.after(), acts)

    def naming(self, event):
        """The kind of an event, the numbers that are written after it, and its flow."""
        _, node, source, number, packet = event
        if source != 0:
            return 'ack' if packet[1] else 'data', f'{packet[0]} {packet[2]}', packet[0]
        if number >= FIRST_FREE:
            return 'free', str(self.own_ports[node][number - FIRST_FREE].number), None
        flow = self.flow_at[node]
        return ('start', 'rto', 'delack')[number], str(flow), flow

    def is_stalled(self, flow):
        """Whether a flow has begun, is not all acknowledged, and has no packet in the net: nothing but a timer of its
        own goes on with it."""
        sender = self.flows[flow].sender
        end = self.ends[sender]
        return START not in self.timers[sender] and end.una < end.total and self.inside[flow] == 0

    # The dump of a state.

    def dump_node(self, node):
        kind = self.kinds[node]
        if kind == ROUTER:
            return f'node {node} router\n'
        return f'node {node} {"sender" if kind == SENDER else "receiver"} {self.flow_at[node]} {self.ends[node].dump()}\n'

    def dump_link(self, port):
        entries = ','.join(f'{p[0]}:{"a" if p[1] else "d"}:{p[2]}@{entry}' for p, entry in port.queue.entries)
        return (f'link {port.number} offered={port.offered} sent={port.sent} queue={entries or "-"}'
                f'{port.queue.dump()}\n')

    def dump_events(self):
        """The pending events in the order of their keys: of each its flow (None for `free`) and its line."""
        last = None
        for event in sorted(self.pending, key=lambda event: event[:4]):
            if not self.is_stale(event) and event[:4] != last:
                kind, names, flow = self.naming(event)
                yield flow, f'event {event[0]} {event[1]} {event[2]} {event[3]} {kind} {names}\n'
                last = event[:4]

    def dump(self):
        out = [f'at {self.position}\n']
        out += [self.dump_node(node) for node in range(len(self.kinds))]
        out += [self.dump_link(port) for port in self.ports]
        out += [line for _, line in self.dump_events()]
        return ''.join(out)


def trace(scenario):
    """The trace of a whole run, line by line, its last line `end N`."""
    net = Network(scenario)
    while (line := net.step()) is not None:
        yield line_text(net.position, line)
    yield f'end {net.position}\n'
