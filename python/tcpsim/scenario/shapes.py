"""Builders of nets: a dumbbell, a parking lot, a chain, a slow way back, a tree, islands. Every route is written out,
and comments say what each part is.
"""
from __future__ import annotations

import argparse
from collections.abc import Sequence
from typing import TypeVar

from tcpsim.command_line import Wrong
from tcpsim.scenario.net import MOST_ROUTER_LINKS, RECEIVER, ROUTER, SENDER, Net
from tcpsim.scenario.units import OPEN_WINDOW, Queue, spelled_rate, spelled_time

LONG = Queue('droptail', 1_000)
OF_FLOWS = 'start', 'segments', 'variant', 'iw'     # lists whose values go to the flows by turns
T = TypeVar('T')


# ---- shapes

def nth(values: Sequence[T], n: int) -> T:
    """The value for flow or hop n, from 0: a list that is shorter begins again."""
    return values[n % len(values)]


def not_longer(given: argparse.Namespace, count: int, what: str, *names: str) -> None:
    """Refuses a list with more values than there is use for."""
    for name in names:
        if len(getattr(given, name)) > count:
            raise Wrong(f'--{name} has {len(getattr(given, name))} values, and there are {count} {what}')


def halves(round_trip: int, parts: Sequence[int]) -> tuple[int, int]:
    """The delays, there and back, of one cable with what a round trip leaves beside delays `parts` each way."""
    there = round_trip // 2
    delays = there - sum(parts), round_trip - there - sum(parts)
    if min(delays) < 1 or min(parts, default=1) < 1:
        raise Wrong(f'a round trip of {spelled_time(round_trip)} leaves no delay for some link')
    return delays


def add_flow(net: Net, given: argparse.Namespace, n: int, routers: tuple[int, int],
             delays: tuple[tuple[int, int], int], note: str) -> None:
    """Flow fn, the n-th from 0, with a sender at the first of two routers and a receiver at the other. `delays` are the
    sender's, there and back, and the receiver's."""
    sender, receiver = net.node(SENDER, f's{n}'), net.node(RECEIVER, f'r{n}')
    net.joined(sender, routers[0], given.access, delays[0], given.access_queue)
    net.joined(routers[1], receiver, given.access, (delays[1],) * 2, given.access_queue)
    start = nth(given.start, n)
    number = net.flow(sender, receiver, given.mss, nth(given.segments, n), start,
                      OPEN_WINDOW if given.rwnd is None else given.rwnd, given.delack, f'f{n}',
                      f'{note}, from {spelled_time(start)} on')
    flow = net.flows[number]
    flow.variant, flow.initial_window = nth(given.variant, n), nth(given.iw, n)


def share_of(trips: Sequence[int], part: int) -> int:
    """A part of the least round trip, in ns."""
    return min(trips) // part


def dumbbell(net: Net, given: argparse.Namespace) -> Sequence[str]:
    """Flows over one bottleneck between two routers."""
    count = given.flows + given.mice
    if count > MOST_ROUTER_LINKS - 1:
        return wide_dumbbell(net, given, count)
    not_longer(given, given.flows, 'flows', 'rtt', *OF_FLOWS)
    p, q = net.node(ROUTER, 'p'), net.node(ROUTER, 'q')
    middle, last = share_of(given.rtt, 4), share_of(given.rtt, 8)
    net.link(p, q, given.rate, middle, given.queue, 'pq', bottleneck(given.rate, middle, given.queue))
    net.link(q, p, given.rate, middle, given.back_queue, 'qp', 'the way back of acknowledgements')
    for n in range(count):
        trip = nth(given.rtt, n)
        add_flow(net, given, n, (p, q), (halves(trip, (middle, last)), last),
                 f'a round trip of {spelled_time(trip)}')
    return (f'A dumbbell: {flows(given.flows)} over the bottleneck pq of {spelled_rate(given.rate)}bit/s with the '
            f'queue {given.queue}.', 'A round trip is that of the delays alone: waiting and sending come on top.')


def wide_dumbbell(net: Net, given: argparse.Namespace, count: int) -> Sequence[str]:
    """A dumbbell of more flows than a router has links for: a tree with as few leaves as have room for them."""
    given.leaves = -(-count // (MOST_ROUTER_LINKS - 1))
    head = tree(net, given)
    return (f'A dumbbell: {flows(given.flows)} over the bottleneck pq of {spelled_rate(given.rate)}bit/s with the '
            f'queue {given.queue}.', f'A router has {MOST_ROUTER_LINKS} links, so the ends are at leaves below p and q. {head[0]}',
            'A round trip is that of the delays alone: waiting and sending come on top.')


def bottleneck(rate: int, delay: int, queue: Queue) -> str:
    """What a comment says of the bottleneck."""
    return f'the bottleneck: {spelled_rate(rate)}bit/s, {spelled_time(delay)}, {queue}'


def many(count: int, what: str) -> str:
    """A count with its noun, as 2 flows."""
    return f'{count} {what}{"s" * (count != 1)}'


def flows(count: int) -> str:
    """A count of flows, with its noun."""
    return many(count, 'flow')


def row_of_routers(net: Net, given: argparse.Namespace) -> list[int]:
    """Routers p0, p1 and so on, with a cable at each hop."""
    routers = [net.node(ROUTER, f'p{n}') for n in range(given.hops + 1)]
    for n, (a, b) in enumerate(zip(routers, routers[1:])):
        rate, delay = nth(given.rate, n), nth(given.delay, n)
        net.link(a, b, rate, delay, given.queue, f'p{n}p{n + 1}', f'hop {n + 1}: {spelled_rate(rate)}bit/s, '
                 f'{spelled_time(delay)}, {given.queue}')
        net.link(b, a, rate, delay, given.back_queue, f'p{n + 1}p{n}')
    return routers


def parking_lot(net: Net, given: argparse.Namespace) -> Sequence[str]:
    """One flow over every hop, and others over one hop each."""
    not_longer(given, given.hops, 'hops', 'rate', 'delay')
    not_longer(given, 1 + given.hops * given.cross, 'flows', *OF_FLOWS)
    routers = row_of_routers(net, given)
    delays = (given.access_delay, given.access_delay), given.access_delay
    add_flow(net, given, 0, (routers[0], routers[-1]), delays, 'over every hop')
    for n in range(given.hops * given.cross):
        hop = n // given.cross
        add_flow(net, given, n + 1, (routers[hop], routers[hop + 1]), delays, f'over hop {hop + 1}')
    return (f'A parking lot: flow f0 goes over {given.hops} hops, and at each it meets {flows(given.cross)} that '
            f'{"goes" if given.cross == 1 else "go"} over that hop alone.',)


def chain(net: Net, given: argparse.Namespace) -> Sequence[str]:
    """Flows from one end of a row of routers to the other."""
    not_longer(given, given.hops, 'hops', 'rate', 'delay')
    not_longer(given, given.flows, 'flows', *OF_FLOWS)
    routers = row_of_routers(net, given)
    for n in range(given.flows):
        add_flow(net, given, n, (routers[0], routers[-1]), ((given.access_delay,) * 2, given.access_delay), 'over every hop')
    return (f'A chain: {flows(given.flows)} over {given.hops} hops in a row.',)


def asymmetric(net: Net, given: argparse.Namespace) -> Sequence[str]:
    """Downloads over a fast link, their acknowledgements over a slow one, and uploads against them."""
    count = given.flows + given.uploads
    if not count:
        raise Wrong('there is no flow: --flows and --uploads are both 0')
    not_longer(given, count, 'flows', 'rtt', *OF_FLOWS)
    p, q = net.node(ROUTER, 'isp'), net.node(ROUTER, 'home')
    middle, last = share_of(given.rtt, 4), share_of(given.rtt, 8)
    up_queue = given.queue if given.up_queue is None else given.up_queue
    net.link(p, q, given.down, middle, given.queue, 'down',
             f'towards the home: {spelled_rate(given.down)}bit/s, {spelled_time(middle)}, {given.queue}')
    net.link(q, p, given.up, middle, up_queue, 'up',
             f'away from it: {spelled_rate(given.up)}bit/s, {spelled_time(middle)}, {up_queue}')
    for n in range(count):
        trip, upload = nth(given.rtt, n), n >= given.flows
        at, to = (q, p) if upload else (p, q)
        add_flow(net, given, n, (at, to), (halves(trip, (middle, last)), last),
                 f'{"an upload" if upload else "a download"}, a round trip of {spelled_time(trip)}')
    return (f'An asymmetric access: {many(given.flows, "download")} over {spelled_rate(given.down)}bit/s and '
            f'{many(given.uploads, "upload")} over {spelled_rate(given.up)}bit/s.',
            'What comes down is acknowledged on the way up, behind the uploads, and the other way round.')


def tree(net: Net, given: argparse.Namespace) -> Sequence[str]:
    """On each side of one bottleneck a router with leaves below it, and the ends at the leaves."""
    count = given.leaves if given.flows is None else given.flows
    not_longer(given, count, 'flows', 'rtt', *OF_FLOWS)
    long, count = count, count + given.mice
    p, q = net.node(ROUTER, 'p'), net.node(ROUTER, 'q')
    leaves = [[net.node(ROUTER, f'{side}{n + 1}') for n in range(given.leaves)] for side in 'pq']
    middle, branch = share_of(given.rtt, 4), share_of(given.rtt, 16)
    net.link(p, q, given.rate, middle, given.queue, 'pq', bottleneck(given.rate, middle, given.queue))
    net.link(q, p, given.rate, middle, given.back_queue, 'qp', 'the way back of acknowledgements')
    for top, below in zip((p, q), leaves):
        for leaf in below:
            net.joined(leaf, top, given.access, (branch,) * 2, given.access_queue)
    for n in range(count):
        trip, leaf = nth(given.rtt, n), n % given.leaves
        add_flow(net, given, n, (leaves[0][leaf], leaves[1][leaf]), (halves(trip, (middle, branch, branch, branch)), branch),
                 f'from leaf p{leaf + 1} to leaf q{leaf + 1}, a round trip of {spelled_time(trip)}')
    return (f'A tree on each side of the bottleneck pq of {spelled_rate(given.rate)}bit/s: {given.leaves} leaves, '
            f'and {flows(long)} from those of p to those of q.',)


def islands(net: Net, given: argparse.Namespace) -> Sequence[str]:
    """Parts with a bottleneck each, joined in a ring by long cables."""
    if given.crossing > given.flows:
        raise Wrong(f'--crossing {given.crossing} is more than the {flows(given.flows)} of each island')
    count = given.islands * given.flows
    not_longer(given, count, 'flows', 'rtt', *OF_FLOWS)
    middle, last = share_of(given.rtt, 4), share_of(given.rtt, 8)
    near = [net.node(ROUTER, f'p{n + 1}') for n in range(given.islands)]
    far = [net.node(ROUTER, f'q{n + 1}') for n in range(given.islands)]
    island_of = [*range(given.islands)] * 2
    for n in range(given.islands):
        net.link(near[n], far[n], given.rate, middle, given.queue, f'p{n + 1}q{n + 1}',
                 f'the bottleneck of island {n + 1}: {spelled_rate(given.rate)}bit/s, {spelled_time(middle)}, '
                 f'{given.queue}')
        net.link(far[n], near[n], given.rate, middle, given.back_queue, f'q{n + 1}p{n + 1}')
    for n in range(given.islands):
        net.joined(far[n], near[(n + 1) % given.islands], given.access, (given.between,) * 2, given.access_queue,
                   'to the next island')
    for n in range(count):
        island, trip = n % given.islands, nth(given.rtt, n)
        crosses = n // given.islands >= given.flows - given.crossing
        to = (island + 1) % given.islands if crosses else island
        add_flow(net, given, n, (near[island], far[to]), (halves(trip, (middle, last)), last),
                 f'from island {island + 1} to {"island " + str(to + 1) if crosses else "itself"}')
        island_of += [island, to]
    return (f'{given.islands} islands in a ring of cables of {spelled_time(given.between)}, {flows(given.flows)} from '
            f'each, of which {given.crossing} to the next.',
            f'Each island is a group: --workers {min(given.islands, 64)} '
            f'--groups {",".join(str(n % 64) for n in island_of)}')
