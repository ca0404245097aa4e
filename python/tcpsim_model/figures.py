"""The figures of a run: what its flows delivered and sent again, and what its links carried, dropped and let wait. They are
those of a whole run, of all from a moment on, or of each step of its time.

A run is counted state by state; all numbers of which a percentile is asked for are kept."""
from array import array
from collections import Counter
from collections.abc import Sequence

from tcpsim_model.scenario import SENDER
from tcpsim_model.simulate import BITS_NS, Network, Port

HEADING = 'what,number,figure,unit,value'
# Those that each link has; a queue of another's making can have more.
REASONS = {'lost': 'dropped as lost', 'full': 'dropped as full', 'codel': 'dropped by CoDel'}
# What a step has of each flow and of each link.
FLOW_STEP = ('delivered', 'sent', 'sent again by fast retransmit', 'sent again by timeout', 'timeouts', 'cwnd', 'in flight')
LINK_STEP = ('busy', 'sent packets', 'sent bytes', *REASONS.values(), 'waited', 'greatest queue', 'median delay in the queue')
MOST_ROWS = 10**7       # of a series


# Percentiles, of numbers that are counted in classes.

def halvings(value):
    return max(0, value.bit_length() - 6)


def class_of(value):
    """Numbers below 64 have a class each; above, each power of two is parted into 32 classes."""
    return 32 * halvings(value) + (value >> halvings(value))


def top(number):
    """The greatest value of a class."""
    shift = max(0, number // 32 - 1)
    return ((number - 32 * shift + 1) << shift) - 1


def nearest_rank(values, percent):
    """The least value that at least `percent` in a hundred of the values don't exceed; None of no values."""
    return sorted(values)[-(-percent * len(values) // 100) - 1] if values else None


def percentile(values, percent):
    """The top of the class in which the nearest rank lies, or the greatest value where that is less."""
    exact = nearest_rank(values, percent)
    return None if exact is None else min(top(class_of(exact)), max(values))


# What is counted.

class FlowCount:
    __slots__ = ('received', 'completed', 'sent', 'in_recovery', 'otherwise', 'timeouts', 'trips')

    def __init__(self, received=0, completed=None):
        self.received = received    # the next byte for which the receiver waited where counting began
        self.completed = completed  # when una came to all bytes
        self.sent = 0               # segments, new or again
        self.in_recovery = self.otherwise = 0       # of them sent again
        self.timeouts = 0
        self.trips = array('q')     # samples of the round trip


class LinkCount:
    __slots__ = ('first', 'dropped', 'sent', 'bytes', 'busy', 'until', 'length', 'since', 'longest', 'waited', 'entered', 'delays')

    def __init__(self):
        self.entered = {}               # when a packet was offered that waits, by its identity
        self.until = 0                  # when the last packet was sent whole, or the scenario's end
        self.begin(0, 0, 0)

    def begin(self, moment, offered, length):
        """Counts from a moment on, before which `offered` packets were offered, and `length` wait."""
        self.first = offered
        self.dropped: Counter[str] = Counter()      # of each reason
        self.sent = self.bytes = 0
        self.busy = max(0, self.until - moment)
        self.length, self.since = length, moment        # of the queue, and from when on
        self.longest, self.waited = length, 0
        self.delays = array('q')        # of those sent: from the offering to the sending

    def state(self, now, length):
        """The queue's length in the state from this moment on."""
        self.waited += self.length * (now - self.since)
        self.length, self.since = length, now
        self.longest = max(self.longest, length)

    def close(self, moment, length):
        """Counts up to a moment: a packet that is being sent is busy with the link for longer."""
        self.state(moment, length)
        self.busy -= max(0, self.until - moment)


class Counted(Network):
    """A net that counts what its events do."""

    def __init__(self, scenario):
        super().__init__(scenario)
        self.of_flows = [FlowCount() for _ in scenario.flows]
        self.of_links = [LinkCount() for _ in scenario.links]
        self.events, self.last = 0, None        # how many, and the last one's moment
        self.plan: Sequence[int] = []       # what the event's sender sends
        self.used: list[Port] = []          # the port to which its packets went

    def begin(self, moment):
        """Counts from a moment on, which no event so far has reached. When a flow was completed is known still."""
        self.of_flows = [FlowCount(self.ends[flow.receiver].next, count.completed)
                         for flow, count in zip(self.flows, self.of_flows)]
        for port, count in zip(self.ports, self.of_links):
            count.begin(min(moment, self.end), port.offered, len(port.queue.entries))
        self.events, self.last = 0, None

    def run_before(self, moment):
        """Runs the events before a moment, and counts up to there."""
        while (event := self.due()) is not None and event[0] < moment:
            self.step()
        for port, count in zip(self.ports, self.of_links):
            count.close(min(moment, self.end), len(port.queue.entries))

    def goes_on(self, moment):
        """Whether anything is to be counted from a moment on, before which all events were run."""
        return self.due() is not None or moment < self.end and any(port.busy for port in self.ports)

    def at_sender(self, node, now, numbers):
        self.plan = numbers
        return super().at_sender(node, now, numbers)

    def offer(self, port, packet, now, acts):
        self.used = [port]
        self.of_links[port.number].entered[id(packet)] = now
        super().offer(port, packet, now, acts)

    def drop(self, reason, port, packet, acts):
        count = self.of_links[port.number]
        del count.entered[id(packet)]
        count.dropped[reason] += 1
        super().drop(reason, port, packet, acts)

    def take(self, port, now, acts):
        self.used = [port]
        super().take(port, now, acts)

    def send(self, port, packet, now, acts):
        count = self.of_links[port.number]
        count.sent += 1
        count.bytes += packet.bytes
        count.until = min(now - -packet.bytes * BITS_NS // port.rate, self.end)
        count.busy += count.until - now
        count.delays.append(now - count.entered.pop(id(packet)))
        super().send(port, packet, now, acts)

    def step(self):
        event = self.due()
        if event is None:
            return None
        self.plan, self.used = [], []
        sender = self.ends[event[1]] if self.kinds[event[1]] == SENDER else None
        before = sender and (sender.high, sender.timing)
        line = super().step()
        assert line is not None     # an event was due
        self.events, self.last = self.events + 1, line.time
        for port in self.used:
            self.of_links[port.number].state(line.time, len(port.queue.entries))
        if sender and line.flow is not None:
            self.count_sender(self.of_flows[line.flow], sender, line, *before)
        return line

    def count_sender(self, count, sender, line, high, timing):
        """`high` and `timing` are the sender's before the event."""
        again = sum(number < high for number in self.plan)
        count.sent += len(self.plan)
        count.timeouts += line.kind == 'rto'
        if line.kind == 'ack' and sender.recovery:
            count.in_recovery += again
        else:
            count.otherwise += again
        if line.kind == 'ack' and timing is not None and int(line.names.split()[1]) >= timing[0]:
            count.trips.append(line.time - timing[1])
        if count.completed is None and sender.una == sender.total:
            count.completed = line.time


def begun(scenario, since):
    """The net before its first event at a moment or past it, counted from there on."""
    net = Counted(scenario)
    net.run_before(since)
    net.begin(since)
    return net


def run(scenario, since=0):
    """The net after its last event, all counted from a moment to the scenario's end: the events at the moment or past it."""
    net = begun(scenario, since)
    net.run_before(net.end)
    return net


def steps(scenario, since, length):
    """Of each step its begin, its end, and the net there, counted from its begin on. The first begins at a moment."""
    net, begin, on = begun(scenario, since), since, True
    while on:
        end = begin + length
        net.run_before(end)
        yield begin, end, net
        on = net.goes_on(end)
        net.begin(end)
        begin = end


def are_too_many(scenario, since, length):
    """Whether a run has more rows in steps of a length than there may be: it goes on past the last one that there is room for."""
    in_step = len(FLOW_STEP) * len(scenario.flows) + len(LINK_STEP) * len(scenario.links)
    limit = since + MOST_ROWS // in_step * length
    return limit <= scenario.end and begun(scenario, limit).goes_on(limit)


# What is written.

def of_values(values, one, all_):
    """The median, the 95th and the 99th percentile and the greatest of values; one is named so, and all of them."""
    yield f'median {one}', 'ns', percentile(values, 50)
    for percent in (95, 99):
        yield f'{percent}th percentile of {all_}', 'ns', percentile(values, percent)
    yield f'greatest {one}', 'ns', max(values, default=None)


def flow_rows(net, number):
    """A flow's figures: (figure, unit, value), value None where there is none."""
    flow, count = net.flows[number], net.of_flows[number]
    return [('start', 'ns', flow.start),
            ('delivered', 'bytes', net.ends[flow.receiver].next - count.received),
            ('completed', 'ns', count.completed),
            ('sent', 'segments', count.sent),
            ('sent again by fast retransmit', 'segments', count.in_recovery),
            ('sent again by timeout', 'segments', count.otherwise),
            ('timeouts', 'times', count.timeouts),
            ('round trips', 'times', len(count.trips)),
            ('least round trip', 'ns', min(count.trips, default=None)),
            *of_values(count.trips, 'round trip', 'round trips')]


def link_rows(net, number):
    """A link's figures, as those of a flow."""
    count = net.of_links[number]
    return [('offered', 'packets', net.ports[number].offered - count.first),
            *((name, 'packets', count.dropped[reason]) for reason, name in REASONS.items()),
            *((f'dropped as {reason}', 'packets', n) for reason, n in sorted(count.dropped.items()) if reason not in REASONS),
            ('sent packets', 'packets', count.sent),
            ('sent bytes', 'bytes', count.bytes),
            ('busy', 'ns', count.busy),
            ('greatest queue', 'packets', count.longest),
            ('waited', 'packet-ns', count.waited),
            *of_values(count.delays, 'delay in the queue', 'delay in the queue')]


def rows(net):
    """All figures: (what, number, figure, unit, value)."""
    for number in range(len(net.flows)):
        yield from (('flow', number, *row) for row in flow_rows(net, number))
    for number in range(len(net.ports)):
        yield from (('link', number, *row) for row in link_rows(net, number))
    yield 'run', '', 'events', 'events', net.events
    yield 'run', '', 'end', 'ns', net.last


def window_rows(net, number, moment):
    """A flow's window in the state before a moment, as its figures; there is none before it starts."""
    flow = net.flows[number]
    sender = net.ends[flow.sender] if flow.start < moment else None
    return [('cwnd', 'bytes', sender and sender.cwnd), ('in flight', 'bytes', sender and sender.flight_size())]


def chosen(figures_, rows_):
    """The rows of these figures, in this order."""
    found = {row[0]: row for row in rows_}
    return [found[figure] for figure in figures_]


def step_rows(net, end):
    """The figures of a step, as all of a run."""
    for number in range(len(net.flows)):
        all_ = [*flow_rows(net, number), *window_rows(net, number, end)]
        yield from (('flow', number, *row) for row in chosen(FLOW_STEP, all_))
    for number in range(len(net.ports)):
        yield from (('link', number, *row) for row in chosen(LINK_STEP, link_rows(net, number)))


def names_of(scenario):
    """The names that a text gives, by sort and number; an image has none."""
    return {at: name.decode() for name, at in scenario.names.items()}


def heading(names):
    return HEADING + ('' if names is None else ',name') + '\n'


def csv_line(words, names):
    """A line of CSV: a row, with a name behind it where a column has them."""
    *before, what, number, figure, unit, value = words
    behind = [] if names is None else [names.get((what, number), '')]
    return ','.join(map(str, (*before, what, number, figure, unit, '-' if value is None else value, *behind))) + '\n'


def figures(scenario, since=0, names=None):
    """The CSV of a scenario's figures, from a moment on."""
    return heading(names) + ''.join(csv_line(row, names) for row in rows(run(scenario, since)))


def series(scenario, since, length, names=None):
    """The CSV of its figures by time, in steps from a moment on, a step at a time."""
    yield f'time,{heading(names)}'
    for begin, end, net in steps(scenario, since, length):
        yield ''.join(csv_line((begin, *row), names) for row in step_rows(net, end))
