#!/usr/bin/env python3
"""Writes the scenarios that are measured: bench/scenarios.py [--out DIR] [NAME ..]

Without names all of them, to bench/work. They are made by tcpsim.scenario. Each is read by the model of
python/tcpsim_model before it is written, so that none is refused; what is printed is its size.
"""
import argparse
import os
import sys

from results import TOP, saved

sys.path.insert(0, os.path.join(TOP, 'python'))

from tcpsim.scenario import net as nets  # noqa: E402
from tcpsim.scenario.net import RECEIVER, ROUTER, SENDER  # noqa: E402
from tcpsim.scenario.units import Queue  # noqa: E402
from tcpsim_model.text import assemble, disassemble  # noqa: E402

EVER = 10**15                           # ns: the flows end long before
MBIT, GBIT, MS, US = 10**6, 10**9, 10**6, 10**3
MSS = 1460


def droptail(capacity):
    return Queue('droptail', capacity)


def codel(capacity, target, interval):
    return Queue('codel', capacity, target, interval)


class Net(nets.Net):
    """A net whose nodes, links and flows are called by their numbers."""

    def ends(self, at, to, up, down, *numbers):
        """A flow with a sender on a cable to router `at` and a receiver on a cable to router `to`; `up` and
        `down` are (rate, delay, queue) of the two cables."""
        sender, receiver = self.node(SENDER), self.node(RECEIVER)
        self.cable(sender, at, *up)
        self.cable(receiver, to, *down)
        self.flow(sender, receiver, *numbers)

    def scenario(self, end, every_route=False):
        return assemble(self.text(end, notes=False, every_route=every_route).encode())


def two_ends(segments, forth, back, window, delack=0, mss=MSS):
    """One flow over a pair of links; its receiver's window in segments."""
    net = Net()
    sender, receiver = net.node(SENDER), net.node(RECEIVER)
    net.link(sender, receiver, *forth)
    net.link(receiver, sender, *back)
    net.flow(sender, receiver, mss, segments, 0, window * mss, delack)
    return net.scenario(EVER)


def one_flow(segments, delack=0):
    """100 Mbit/s, 1 ms each way, a queue of 20 packets, overflown now and then."""
    link = 100 * MBIT, MS, droptail(20)
    return two_ends(segments, link, link, 44, delack)


def under_way(packets, segments, delack=0):
    """`packets` packets under way at once, 100 ms there and 50 ms back; nothing is lost."""
    forth, back = ((10 * GBIT, delay * MS, droptail(65_535)) for delay in (100, 50))
    return two_ends(segments, forth, back, packets, delack)


def dumbbell(flows, segments, bottleneck):
    """Two routers and a bottleneck of 50 Mbit/s between them; each flow has a delay of its own."""
    net = Net()
    near, far = net.node(ROUTER), net.node(ROUTER)
    net.link(near, far, 50 * MBIT, 5 * MS, bottleneck)
    net.link(far, near, 50 * MBIT, 5 * MS, droptail(1000))
    for n in range(flows):
        cable = 100 * MBIT, (1 + 3 * n) * MS, droptail(1000)
        net.ends(near, far, cable, (100 * MBIT, MS, droptail(1000)), MSS, segments, n * 7 * MS, 500 * MSS, n % 2 * 40 * MS)
    return net.scenario(EVER)


def tree(flows, segments):
    """On each side of one bottleneck a router, seven routers below it, and 15 ends at most at each."""
    net = Net()
    tops = [net.node(ROUTER), net.node(ROUTER)]
    net.link(*tops, 100 * MBIT, 10 * MS, codel(1000, 5 * MS, 100 * MS))
    net.link(*reversed(tops), 100 * MBIT, 10 * MS, droptail(1000))
    leaves = [[net.node(ROUTER) for _ in range(7)] for _ in tops]
    for top, below in zip(tops, leaves):
        for leaf in below:
            net.cable(leaf, top, GBIT, 500 * US, droptail(1000))
    for n in range(flows):
        cable = GBIT, (100 + 37 * n) * US, droptail(1000)
        net.ends(leaves[0][n % 7], leaves[1][n // 15], cable, cable, MSS, segments, n * MS, 200 * MSS)
    return net.scenario(EVER)


def chain(routers, segments):
    """One flow through routers in a row, the last cable the slowest."""
    net = Net()
    row = [net.node(ROUTER) for _ in range(routers)]
    for a, b in zip(row, row[1:]):
        net.cable(a, b, 100 * MBIT, MS, droptail(50))
    net.ends(row[0], row[-1], (100 * MBIT, MS, droptail(50)), (90 * MBIT, MS, droptail(50)), MSS, segments, 0,
             400 * MSS)
    return net.scenario(EVER)


def islands(flows, crossing, segments, parts=4, delay=10 * MS):
    """`parts` parts, each with a bottleneck of 1 Gbit/s of its own, joined in a ring by cables of 10 ms or
    another delay; of the flows of each part some go over to the next."""
    net = Net()
    near, far = ([net.node(ROUTER) for _ in range(parts)] for _ in range(2))
    for part in range(parts):
        net.cable(near[part], far[part], GBIT, 200 * US, droptail(500))
        net.cable(far[part], near[(part + 1) % parts], GBIT, delay, droptail(1000))
    for n in range(parts * flows):
        part, cable = n % parts, (GBIT, (50 + 37 * n) * US, droptail(1000))
        to = part if n < parts * (flows - crossing) else (part + 1) % parts
        net.ends(near[part], far[to], cable, cable, MSS, segments, n * 100 * US, 200 * MSS)
    return net.scenario(EVER)


def ring(flows, segments):
    """Four parts in a ring of cables of 10 to 13 ms; all flows of each part go over to the next."""
    net = Net()
    gates, senders, receivers = ([net.node(ROUTER) for _ in range(4)] for _ in range(3))
    for part in range(4):
        net.cable(gates[part], gates[(part + 1) % 4], GBIT, (10 + part) * MS, droptail(2000))
        for leaf in senders[part], receivers[part]:
            net.cable(leaf, gates[part], 10 * GBIT, 100 * US, droptail(2000))
    for n in range(4 * flows):
        part, cable = n % 4, (GBIT, (50 + 37 * n) * US, droptail(1000))
        net.ends(senders[part], receivers[(part + 1) % 4], cable, cable, MSS, segments, n * 100 * US, 300 * MSS)
    return net.scenario(EVER)


def busy(flows, crossing, segments, window):
    """Four parts joined in a ring by cables of 10 ms, each with a bottleneck of 1 Gbit/s that is never idle
    and loses nothing: its flows have more under way than it holds, and less than its queue takes. `crossing` of
    the flows of each part go over to the next. A dozen ends share a router."""
    net = Net()
    near, far = ([net.node(ROUTER) for _ in range(4)] for _ in range(2))
    for part in range(4):
        net.cable(near[part], far[part], GBIT, 200 * US, droptail(20_000))
        net.cable(far[part], near[(part + 1) % 4], 10 * GBIT, 10 * MS, droptail(20_000))
    leaves = []
    for tops in near, far:
        below = [[net.node(ROUTER) for _ in range(flows // 12)] for _ in tops]
        for top, routers in zip(tops, below):
            for leaf in routers:
                net.cable(leaf, top, 10 * GBIT, 50 * US, droptail(20_000))
        leaves.append(below)
    for n in range(4 * flows):
        part, number = n % 4, n // 4
        to = part if number < flows - crossing else (part + 1) % 4
        cable = GBIT, (20 + 13 * number) * US, droptail(1000)
        net.ends(leaves[0][part][number // 12], leaves[1][to][number // 12], cable, cable, MSS, segments,
                 number * 100 * US, window * MSS)
    return net.scenario(EVER)


def access_line(segments):
    """Three flows over an asymmetric access line, 1 Mbit/s up and 8 Mbit/s down, into a local net with links of 0.1 ms."""
    net = Net()
    home, far = net.node(ROUTER), net.node(ROUTER)
    net.link(home, far, MBIT, 10 * MS, droptail(30))
    net.link(far, home, 8 * MBIT, 10 * MS, droptail(60))
    for n in range(3):
        cable, wide = (GBIT, 100 * US, droptail(1000)), (GBIT, (5 + 7 * n) * MS, droptail(1000))
        ends = (home, far, cable, wide) if n == 2 else (far, home, wide, cable)
        net.ends(*ends, MSS, segments // (8 if n == 2 else 1), n * 200 * MS, 64 * MSS, 40 * MS * (n == 1))
    return net.scenario(EVER)


def rate_jump(segments):
    """A flow over 1,000 bit/s, and one over 10^12 bit/s that starts 1,000 s later; each over a router."""
    net = Net()
    near, far = net.node(ROUTER), net.node(ROUTER)
    net.cable(near, far, 10**12, 1000 * MS, droptail(65_535))
    for rate, window, start in ((1_000, 4, 0), (10**12, 735_439, 1_000_000 * MS)):
        cable = rate, MS, droptail(65_535)
        net.ends(near, far, cable, cable, MSS, segments if start else 1_000, start, window * MSS)
    return net.scenario(EVER)


def largest(segments):
    """256 nodes of which 128 are routers in a ring, each with one end and with cables to its three
    neighbours on either side; 1,024 links with 64 losses each; every route."""
    net = Net()
    ring = [net.node(ROUTER) for _ in range(128)]
    for n in range(128):
        for far in (1, 2, 3):
            net.cable(ring[n], ring[(n + far) % 128], GBIT, (100 + n) * US, droptail(65_535))
    for n in range(0, 128, 2):
        cable = 100 * MBIT, MS, droptail(65_535)
        net.ends(ring[n], ring[(n + 31) % 128], cable, cable, MSS, segments, n * MS)
    for link in net.links:
        link.lose = [999_935 + 1000 * k for k in range(1, 65)]
    return net.scenario(EVER, every_route=True)


SCENARIOS = {
    'one_flow': lambda: one_flow(200_000),
    'one_flow_delayed_acks': lambda: one_flow(200_000, 50 * MS),
    'under_way_10000': lambda: under_way(10_000, 200_000),
    'under_way_10000_delayed_acks': lambda: under_way(10_000, 200_000, 50 * MS),
    'under_way_100000': lambda: under_way(100_000, 400_000),
    'dumbbell_droptail': lambda: dumbbell(14, 10_000, droptail(200)),
    'dumbbell_codel': lambda: dumbbell(14, 10_000, codel(1000, 5 * MS, 100 * MS)),
    'tree': lambda: tree(100, 1_000),
    'chain': lambda: chain(16, 20_000),
    'few_islands': lambda: islands(3, 1, 7_500),
    'four_islands': lambda: islands(12, 2, 600),
    'two_islands': lambda: islands(12, 2, 20_000, 2),
    'two_near_islands': lambda: islands(12, 2, 20_000, 2, 3 * MS),
    'three_islands': lambda: islands(12, 2, 20_000, 3),
    'islands': lambda: islands(12, 2, 20_000),
    'ring': lambda: ring(14, 10_000),
    'busy_islands': lambda: busy(24, 4, 8_000, 40),
    'busy_ring': lambda: busy(24, 24, 6_000, 100),
    'long_chain': lambda: chain(58, 4_000),
    'access_line': lambda: access_line(20_000),
    'rate_jump': lambda: rate_jump(2_000_000),
    'largest': lambda: largest(100),
}


def four_groups(s):
    """The groups of a scenario in four parts, as the program's option has them: nodes between which links
    are shorter than 10 ms are in one."""
    group = list(range(len(s.nodes)))

    def first(node):
        return node if group[node] == node else first(group[node])

    for link in s.links:
        if link.delay < 10 * MS:
            one, other = sorted((first(link.source), first(link.to)))
            group[other] = one
    firsts = sorted({first(node) for node in range(len(s.nodes))})
    assert len(firsts) == 4
    return ','.join(str(firsts.index(first(node))) for node in range(len(s.nodes)))


def started(s):
    """The scenario with an end just behind its last flow's start: what a run of it costs besides what
    its events cost is this one's, or nearly."""
    s.end = max(flow.start for flow in s.flows) + 1
    return s


def path_of(name, scenario):
    """The path of a scenario's file in bench/work."""
    return saved(name, disassemble(scenario).decode())


def paths_of(name):
    """That of a scenario of the table, behind that of the same which ends at its last flow's start."""
    return path_of(name + ' started', started(SCENARIOS[name]())), path_of(name, SCENARIOS[name]())


def main():
    parser = argparse.ArgumentParser(description=__doc__, formatter_class=argparse.RawDescriptionHelpFormatter)
    parser.add_argument('--out', default=os.path.join(TOP, 'bench', 'work'))
    parser.add_argument('names', nargs='*', metavar='NAME', help=', '.join(SCENARIOS))
    args = parser.parse_args()
    os.makedirs(args.out, exist_ok=True)
    for name in args.names or SCENARIOS:
        text = disassemble(SCENARIOS[name]())
        s = assemble(text)
        with open(os.path.join(args.out, name + '.txt'), 'wb') as file:
            file.write(text)
        print(f'{name}: {len(text)} bytes, {len(s.nodes)} nodes, {len(s.links)} links, {len(s.flows)} flows, '
              f'{len(s.routes)} routes, {sum(len(k.lose) for k in s.links)} lose')


if __name__ == '__main__':
    main()
