"""The cause of each event, tagged while the model runs: each packet carries the event that offered it to its link, each timer the
event that set it. So an event has the sums of its path as soon as it is run. tcpsim/critical_path.py goes back through a trace,
and has to find the same.
"""
from collections import Counter

from tcpsim_model.queues import Packet
from tcpsim_model.receiver import Receiver
from tcpsim_model.sender import Sender
from tcpsim_model.simulate import DELACK, RTO, Network
from tcpsim_model.variants import of_flow

QUEUE, SERIALIZATION, PROPAGATION, TIMER, DELAY, TRIP = 'queue', 'serialization', 'propagation', 'timer', 'delay', 'trip'
AGAIN = 'again'     # the round trip of a segment that is sent again since the timer ended; else it is of a phase


class Event:
    """An event that was run: its number in the trace, its time, its cause (None of a start), the number of the event at which a
    link began to send its packet (None of a timer), the round trip that it is in, and of its path how long each part took."""
    __slots__ = ('position', 'time', 'cause', 'sent', 'trip', 'sums')

    def __init__(self, position, time, cause=None, parts=(), sent=None, trip=None):
        self.position, self.time, self.cause, self.sent, self.trip = position, time, cause, sent, trip
        self.sums = Counter() if cause is None else cause.sums.copy()
        for part, ns in parts:
            if ns:
                self.sums[part] += ns

    def path(self):
        """The numbers of the events of its path, in order."""
        found, event = [], self
        while event is not None:
            found.append(event.position)
            if event.sent is not None and event.sent != event.cause.position:
                found.append(event.sent)
            event = event.cause
        return found[::-1]


class Tagged(Packet):
    """A packet at a link with its tags: the event `by` which it was offered, what the link had spent on each flow `before`, its
    round trip; once it is sent the number of that event, how long it `waited` for each flow, when it `began` and when it `left`."""

    by: Event
    before: Counter
    trip: str
    sent: int
    waited: list
    began: int
    left: int


class TaggedSender(Sender):
    """A sender that knows which event set its timer, and how often rto was doubled since it was measured."""
    __slots__ = ('net', 'set_by', 'runs_until', 'doubled', 'expires', 'value')

    def __init__(self, net, *given, **more):
        self.net, self.doubled, self.expires = net, 0, False
        super().__init__(*given, **more)

    @property
    def deadline(self):
        return self.runs_until

    @deadline.setter
    def deadline(self, time):
        self.runs_until = time
        if time is not None:
            self.set_by = self.net.event

    @property
    def rto(self):
        return self.value

    @rto.setter
    def rto(self, value):
        self.value = value
        self.doubled = self.doubled + 1 if self.expires else 0

    def on_rto(self, now):
        self.expires = True
        sent = super().on_rto(now)
        self.expires = False
        return sent


class TaggedReceiver(Receiver):
    """A receiver that knows which event made its answer wait."""
    __slots__ = ('net', 'held_by', 'due')

    def __init__(self, net, *given):
        self.net = net
        super().__init__(*given)

    @property
    def timer(self):
        return self.due

    @timer.setter
    def timer(self, time):
        self.due = time
        if time is not None:
            self.held_by = self.net.event


class TaggedNetwork(Network):
    """A net whose events know their causes. `acknowledged` has each flow's new acknowledgements: una, and the event."""

    def __init__(self, scenario):
        super().__init__(scenario)
        self.event, self.high = Event(0, 0), 0
        self.last = [(0, 0, 0)] * len(self.ports)           # of each link the packet that it sent last: flow, from, to
        self.spent: list[Counter] = [Counter() for _ in self.ports]         # and how long it sent all those before, by flow
        self.acknowledged: list[list[tuple[int, Event]]] = [[] for _ in self.flows]
        for flow in self.flows:
            self.ends[flow.sender] = TaggedSender(self, flow.mss, flow.segments, flow.rwnd, **of_flow(flow))
            self.ends[flow.receiver] = TaggedReceiver(self, flow.mss, flow.delack)

    def spent_at(self, port, now):
        """For how long a link has sent packets of each flow up to now."""
        flow, begin, end = self.last[port.number]
        spent = self.spent[port.number].copy()
        spent[flow] += min(now, end) - begin
        return spent

    def trip_of(self, packet):
        """The round trip of a packet that its end sends now."""
        if packet.is_ack:
            return self.event.trip
        phase = self.ends[self.flows[packet.flow].sender].phase()
        return AGAIN if packet.number < self.high and phase != 'fr' else phase

    def offer(self, port, packet, now, acts):
        tagged = Tagged(*packet)
        tagged.trip = packet.trip if isinstance(packet, Tagged) else self.trip_of(packet)
        tagged.by, tagged.before = self.event, self.spent_at(port, now)
        super().offer(port, tagged, now, acts)

    def send(self, port, packet, now, acts):
        spent = self.spent[port.number] = self.spent_at(port, now)
        packet.waited = [((QUEUE, port.number, flow), spent[flow] - packet.before[flow]) for flow in spent]
        super().send(port, packet, now, acts)
        packet.sent, packet.began = self.position + 1, now
        packet.left = self.timers[self.scenario.links[port.number].source][port.timer]
        self.last[port.number] = packet.flow, now, packet.left

    def caused(self, now, node, source, number, packet):
        """The event that is run now, with its cause."""
        position, end = self.position + 1, self.ends[node]
        if source != 0:
            parts = [*packet.waited, ((SERIALIZATION, source - 1), packet.left - packet.began), ((PROPAGATION, source - 1), now - packet.left)]
            if packet.is_ack and node == self.flows[packet.flow].sender:
                parts.append(((TRIP, packet.trip), 1))
            return Event(position, now, packet.by, parts, packet.sent, packet.trip)
        if number == RTO:
            return Event(position, now, end.set_by, [((TIMER, node, end.doubled), now - end.set_by.time)])
        if number == DELACK:
            return Event(position, now, end.held_by, [((DELAY, node), now - end.held_by.time)], trip=end.held_by.trip)
        return Event(position, now)

    def step(self):
        due = self.due()
        if due is None:
            return None
        end = self.ends[due[1]]
        self.event = self.caused(*due)
        una = 0
        if isinstance(end, Sender):
            una, self.high = end.una, end.high
        line = super().step()
        assert line is not None     # an event was due
        if line.kind == 'ack' and isinstance(end, Sender) and end.una > una:
            self.acknowledged[line.flow].append((end.una, self.event))
        return line
