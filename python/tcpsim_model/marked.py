"""The debugger of the prompt: it knows of each event where packets were sent or dropped, which flows were stalled by it, and what its node and that node's links were before it and after it."""
from operator import eq, ge, gt, le, lt

from tcpsim_model.conditions import OF_LINK, OF_RECEIVER, OF_SENDER
from tcpsim_model.debugger import Debugger, matches
from tcpsim_model.queues import Codel
from tcpsim_model.sender import Sender

COMPARES = {'<': lt, '<=': le, '>': gt, '>=': ge, '=': eq}


class Marked(Debugger):
    """A debugger that marks each event with the links where packets were sent or dropped, and with the flows that
    are stalled after it and were not before."""

    def __init__(self, scenario):
        super().__init__(scenario)
        self.marks, self.drops = [], []

    def stalled(self):
        return {flow for flow in range(len(self.scenario.flows)) if self.net.is_stalled(flow)}

    def event(self):
        before = self.stalled()
        line = super().event()
        if line is not None:
            self.marks.append((self.net.touched, self.stalled() - before))
            self.drops.append(self.net.dropped)
        return line

    def back(self, count):
        self.marks, self.drops = [], []
        super().back(count)

    def goto(self, position):
        if position < self.net.position:
            self.back(self.net.position - position)
        else:
            self.step(position - self.net.position)

    def is_matched(self, breakpoint, position):
        if not isinstance(breakpoint[0], tuple):
            return super().is_matched(breakpoint, position)
        drops = any(sort == b'drop' for sort, _ in breakpoint)
        return all(self.is_met(sort, value, position, drops) for sort, value in breakpoint)

    def is_met(self, sort, value, position, drops):
        line, (links, stalled) = self.lines[position - 1], self.marks[position - 1]
        if sort == b'stall':
            return bool(stalled) if value is None else value in stalled
        if sort == b'link':
            return value in links
        if sort == b'byte' and drops:
            return value in (int(act.split(':')[2]) for act in line.acts if act.startswith(' drop='))
        if sort == b'byte':
            return line.kind in ('data', 'ack') and int(line.names.split()[1]) == value
        return matches((sort, value), line)


def stalls_of(scenario):
    """The stalls of a whole run in its order, of one position by number: of each the position, the flow and the moment."""
    on = Marked(scenario)
    on.run()
    return [(position, flow, on.lines[position - 1].time) for position, (_, stalled) in enumerate(on.marks, 1) for flow in sorted(stalled)]


def of_end(end):
    """The values of a sender or a receiver by their names; of a router none."""
    if end is None:
        return {}
    if isinstance(end, Sender):
        return {b'cwnd': end.cwnd, b'flight': end.flight_size(), b'ssthresh': end.ssthresh, b'una': end.una, b'nxt': end.nxt, b'rto': end.rto,
                b'dups': end.dups, b'phase': end.phase()}
    return {b'next': end.next}


def of_port(port, now):
    """A link's values by their names, None where there is none, and what tells whether an event changes the link."""
    head = next(iter(port.queue.entries), None)
    return {b'queue': len(port.queue.entries), b'wait': None if head is None else now - head[1],
            b'count': port.queue.count if isinstance(port.queue, Codel) else None, 'changes': (port.offered, port.sent, port.busy)}


class Valued(Marked):
    """A debugger that keeps of each event the values of its node and of the links that leave it, before it and after it."""

    def __init__(self, scenario):
        super().__init__(scenario)
        self.seen = []

    def values(self, node, now):
        return of_end(self.net.ends[node]), {port.number: of_port(port, now) for port in self.net.own_ports[node]}

    def event(self):
        due = self.net.due()
        before = due and self.values(due[1], due[0])
        line = super().event()
        if line is not None:
            self.seen.append((before, self.values(line.node, line.time)))
        return line

    def back(self, count):
        self.seen = []
        super().back(count)

    def moment(self, time):
        """To the position after all events before a moment, forwards or back."""
        passed = sum(line.time < time for line in self.lines)
        if passed < self.net.position:
            self.back(self.net.position - passed)
        else:
            self.until(time)

    def is_met(self, sort, value, position, drops):
        (ends_before, links_before), (ends, links) = self.seen[position - 1]
        if sort == b'phase':
            return ends.get(sort) == value
        if sort in OF_SENDER or sort in OF_RECEIVER:
            return is_so(ends.get(sort), *value)
        if sort in OF_LINK:
            link, *bound = value
            return link in links and links[link]['changes'] != links_before[link]['changes'] and is_so(links[link][sort], *bound)
        if sort == b'time':
            return is_so(self.lines[position - 1].time, *value)
        if sort == b'change':
            return self.changed_from(value, position) is not None
        return super().is_met(sort, value, position, drops)

    def changed_from(self, change, position):
        """What the value of `change V F` was before the line at a position, None where it is the same after it."""
        name, flow = change
        (before, _), (after, _) = self.seen[position - 1]
        flow_here = self.net.flow_at[self.lines[position - 1].node]
        old = before.get(name.encode())
        return old if flow_here == flow and old != after.get(name.encode()) else None


def is_so(value, sign, bound):
    return value is not None and COMPARES[sign](value, bound)
