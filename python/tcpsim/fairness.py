"""How fairly flows share, and which of them Jain's index compares (docs/SWEEPS.md, "Which flows are compared").

Nothing but Python's standard library. Times are nanoseconds, sizes bytes, rates bit/s.
"""
from __future__ import annotations

from collections.abc import Iterable, Sequence
from typing import NamedTuple, Protocol

from tcpsim.scenario.text import Scenario
from tcpsim.scenario.units import BITS_NS, HEADER_BYTES


def jain(shares: Sequence[float]) -> float | None:
    """Jain's index of fairness: 1 where all are equal, 1/n where one has all; None where all are zero."""
    squares = sum(share * share for share in shares)
    return sum(shares)**2 / (len(shares) * squares) if squares else None


class Goodputs(Protocol):
    """A run's figures: those of a trace, or of the program's table."""

    scenario: Scenario

    def goodput(self, number: int) -> float | None:
        """A flow's, in bit/s; None where it was not under way in the span."""

    def completed(self, number: int) -> int | None:
        """When a flow was complete; None where it was not by the span's end."""


STANDINGS = 'yes', 'mouse', 'limited by its window', 'ended'


class Compared(NamedTuple):
    """The flows that were under way in a span, by their numbers: those that Jain's index compares, and the others."""

    flows: list[int]        # that can fill their share, or that were chosen
    mice: list[int]         # that have one segment in flight, less than their share
    limited: list[int]      # whose window holds more than that, and less than their share
    ended: list[int]        # that were complete

    def standing(self, number: int) -> str:
        """Whether a flow is compared, in a word, or why it is not."""
        return next((word for word, numbers in zip(STANDINGS, self) if number in numbers), 'not started')


def compared(run: Goodputs, chosen: Sequence[int] | None = None) -> Compared:
    """Which flows are compared: those that can fill their share to the span's end. A flow that is complete cannot, nor one that
    asks for less than its share. Flows that are chosen are compared whatever they are."""
    flows = range(len(run.scenario.flows)) if chosen is None else chosen
    there = [number for number in flows if run.goodput(number) is not None]
    if chosen is not None:
        return Compared(there, [], [], [])
    on = [number for number in there if run.completed(number) is None]
    full = can_fill(run.scenario, on)
    mice = [number for number in on if number not in full and window(run.scenario, number) == 1]
    return Compared(full, mice, [number for number in on if number not in full + mice],
                    [number for number in there if number not in on])


def index(run: Goodputs, chosen: Sequence[int] | None = None) -> float | None:
    """Jain's index of the goodputs of the flows that are compared."""
    return jain([run.goodput(number) or 0 for number in compared(run, chosen).flows])


def in_words(counts: Sequence[int]) -> str:
    """Of how many flows an index is, and how many it leaves out, of the counts of a `Compared`."""
    flows, *others = counts
    left = [f'{count} {what}' for count, what in zip(others, ('mice', 'limited by their window', 'that ended')) if count]
    every = f'{sum(counts)} flow{"s" * (sum(counts) != 1)}'
    if not flows:
        return f'as none of {every} is compared ({", ".join(left)})' if left else f'as there is none of {every}'
    return f'of {flows} of {every} (without {", ".join(left)})' if left else f'of {every}'


def can_fill(scenario: Scenario, flows: Iterable[int]) -> list[int]:
    """Those of these flows that can fill their share, as a full link stops them and not their own window.

    Shares are max-min fair: the rates of all flows rise together, until each flow has what it asks for, or a link on its way to
    the receiver is full.
    """
    flows = tuple(flows)
    if flows not in scenario.kept:
        scenario.kept[flows] = stopped_by_links(scenario, flows)
    return list(scenario.kept[flows])


def stopped_by_links(scenario: Scenario, flows: Iterable[int]) -> list[int]:
    """Those whose rates rise until a full link stops them."""
    left = [link.rate for link in scenario.links]
    asks = {number: asked(scenario, number) for number in flows}
    rising = set(asks)
    full: list[int] = []
    while rising:
        over: dict[int, list[int]] = {}
        for number in rising:
            for link in scenario.paths[number][0]:
                over.setdefault(link, []).append(number)
        level, link = min((left[link] / len(numbers), link) for link, numbers in over.items())
        less = {number: asks[number] for number in rising if asks[number] < level}
        stopped = less or dict.fromkeys(over[link], level)
        full += [] if less else stopped
        for number, rate in stopped.items():
            for each in scenario.paths[number][0]:
                left[each] -= rate
        rising -= set(stopped)
    return sorted(full)


def asked(scenario: Scenario, number: int) -> float:
    """The most that a flow asks for, with headers: its receiver's window in each least round trip."""
    return window(scenario, number) * (scenario.flows[number].mss + HEADER_BYTES) * BITS_NS / least_trip(scenario, number)


def least_trip(scenario: Scenario, number: int) -> int:
    """The round trip of a flow's segment and its acknowledgement where no packet waits, in ns."""
    (there, back), links = scenario.paths[number], scenario.links
    packet = scenario.flows[number].mss + HEADER_BYTES
    return sum(links[link].delay - -size * BITS_NS // links[link].rate
               for path, size in ((there, packet), (back, HEADER_BYTES)) for link in path)


def window(scenario: Scenario, number: int) -> int:
    """The segments that a flow's receiver has room for."""
    return scenario.flows[number].rwnd // scenario.flows[number].mss
