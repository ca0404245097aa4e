"""The cycle of timeouts of a NewReno flow with an open window, as figures.py and stalls.py notice it.

In a long recovery a NewReno sender sends on for each duplicate, so that nxt - una grows past what its path holds. The
timeout that ends such a recovery leaves half of that as ssthresh, so slow start overflows the queue again
(docs/MODEL.md section 3). Sizes are bytes.
"""
from __future__ import annotations

from collections import namedtuple
from collections.abc import Sequence
from fractions import Fraction
from math import ceil

from tcpsim.scenario.text import Scenario
from tcpsim.scenario.units import BITS_NS, HEADER_BYTES

LEAST = 2           # timeouts of a cycle, at least
WIDER = Fraction(5, 4)
BEYOND, MOST, HELD = 'timeouts with more in flight than the way holds', 'most in flight at a timeout', 'held by the way'
Cycle = namedtuple('Cycle', 'flow mss timeouts beyond most held')


def held(scenario: Scenario, number: int) -> int:
    """Bytes of a flow's segments that its path holds: the bandwidth-delay product of its slowest link, and the queue there."""
    there, back = scenario.paths[number]
    flow, slowest = scenario.flows[number], min((scenario.links[link] for link in there), key=lambda link: link.rate)
    trip = sum(scenario.links[link].delay for link in there + back)
    product = Fraction(slowest.rate * trip, (flow.mss + HEADER_BYTES) * BITS_NS)
    return int((product + slowest.capacity) * flow.mss)


def cycle_of(scenario: Scenario, number: int, flights: Sequence[int]) -> Cycle | None:
    """What is noticed of a flow with these bytes in flight at its timeouts; None where it is no cycle."""
    flow, holds = scenario.flows[number], held(scenario, number)
    beyond = [flight for flight in flights if flight > holds]
    if not flow.newreno or len(beyond) < LEAST:
        return None
    return Cycle(flow.name, flow.mss, len(flights), len(beyond), max(beyond), holds)


def figures_of(cycle: Cycle | None) -> list[tuple]:
    """A cycle's figures: (figure, unit, value); none where there is none."""
    return [] if cycle is None else [(BEYOND, 'times', cycle.beyond), (MOST, 'bytes', cycle.most), (HELD, 'bytes', cycle.held)]


def words_of(cycle: Cycle) -> str:
    """What a table says of it, with the receiver's window that ends it."""
    window = ceil(WIDER * cycle.held / cycle.mss) * cycle.mss
    return (f'{cycle.flow}: a cycle of timeouts: at {cycle.beyond} of {cycle.timeouts} more was in flight than the way holds, up '
            f'to {cycle.most / cycle.held:.1f} times. Half of it becomes ssthresh, and slow start overflows the queue again: '
            f'a receiver\'s window (RWND) of {window} ends it (docs/MODEL.md, section 3)')
