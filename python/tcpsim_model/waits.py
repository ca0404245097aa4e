"""What a flow waits for: first how it stands, then where its packets are, then its timers."""
from tcpsim_model.simulate import DELACK, RTO, START
from tcpsim_model.text import FLOW, LINK, NODE


def why(net, flow, names):
    """What `why` answers of a flow of the net; `names` has what nodes, links and flows are called."""
    lines = [f'{names.called(FLOW, flow)} {standing(net, flow)}']
    lines += [f'{head}: {", ".join(found)}' for head, found in (
        ('waits', waiting(net, flow, names)), ('under way', under_way(net, flow, names)), ('alarms', timers(net, flow))) if found]
    return ''.join(line + '\n' for line in lines)


def standing(net, flow):
    """How a flow stands: the first of these that holds."""
    sender = net.flows[flow].sender
    end = net.ends[sender]
    if START in net.timers[sender]:
        return f'is not started: it starts at {net.timers[sender][START]} ns'
    if end.una == end.total:
        return f'is complete: all {counted(end.total, "byte")} {be(end.total)} acknowledged'
    if net.is_stalled(flow):
        return f'is stalled: {counted(end.dups, "duplicate acknowledgement")}, and {awaited(net, flow)}'
    if end.nxt == end.total:
        return f'has sent all {counted(end.total, "byte")}: {end.una} {be(end.una)} acknowledged'
    flight = end.nxt - end.una
    told = f'{counted(flight, "byte")} in flight, a segment of {end.mss}'
    if flight + end.mss > min(end.cwnd, end.rwnd):
        window, size = ('cwnd', end.cwnd) if end.cwnd <= end.rwnd else ('rwnd', end.rwnd)
        return f'sends no more: {told}, {window} {size}'
    return f'may send at its next acknowledgement: {told}, cwnd {end.cwnd}'


def counted(count, noun):
    return f'{count} {noun}{"" if count == 1 else "s"}'


def be(count):
    return 'is' if count == 1 else 'are'


def awaited(net, flow):
    """What goes on with a flow that is stalled: the first of its timers."""
    found = own_timers(net, flow)
    if not found:
        return 'nothing goes on with it'
    time, number = found[0]
    return f'its {"retransmission timer" if number == RTO else "delayed acknowledgement"} is due at {time} ns'


def own_timers(net, flow):
    """A flow's timers, of its sender and its receiver, in the order of their keys: time and number of each."""
    ends = net.flows[flow]
    found = [(net.timers[node][number], node, number) for node, numbers in ((ends.sender, (START, RTO)), (ends.receiver, (DELACK,)))
             for number in numbers if number in net.timers[node]]
    return [(time, number) for time, _, number in sorted(found)]


def timers(net, flow):
    return [f'{("start", "rto", "delack")[number]} at {time} ns' for time, number in own_timers(net, flow)]


def waiting(net, flow, names):
    """The packets of a flow that wait, queue by queue, each with its place there from 1."""
    return [f'{sort_of(packet)} at place {place} of {names.called(LINK, port.number)}' for port in net.ports
            for place, (packet, _) in enumerate(port.queue.entries, 1) if packet[0] == flow]


def under_way(net, flow, names):
    """The packets of a flow on their way over a link, in the order in which they arrive."""
    return [f'{sort_of(packet)} to {names.called(NODE, node)} at {time} ns' for time, node, source, _, packet in sorted(net.pending, key=lambda it: it[:4])
            if source != 0 and packet[0] == flow]


def sort_of(packet):
    return f'{"ack" if packet[1] else "data"} {packet[2]}'
