"""Whether a run is too short for its figures, and what would do (docs/SWEEPS.md, "Runs that are too short").

Nothing but Python's standard library. All times are nanoseconds, rates bit/s.
"""
from __future__ import annotations

import statistics
from collections.abc import Sequence
from typing import NamedTuple

from tcpsim.engine import PORTIONS, EngineRun
from tcpsim.fairness import compared, least_trip, window
from tcpsim.figures import Figures
from tcpsim.samples import student
from tcpsim.scenario.text import Scenario
from tcpsim.scenario.units import BITS_NS, HEADER_BYTES, spelled_time

LEAST = .02             # a difference of less than this part of the goodput is none
TEETH = 6               # that make a mean: two for each third
RISE = 2                # in this many, a window has grown to all that the path and the queue hold, from one segment on
THIRD = PORTIONS // 3


def tooth(scenario: Scenario, number: int, flows: Sequence[int]) -> float:
    """How long a tooth of a flow's sawtooth takes, beside these flows; 0 where its receiver's window cuts the teeth off.

    In congestion avoidance the window grows by a segment in a round trip, or in two where acknowledgements are delayed, from half
    of what the flow's part of the path and the queue holds to all of it (RFC 5681 section 3.1). CoDel's queue holds what waits for
    the target. The round trip grows with the queue: its mean is that of both ends. One more is that of the recovery. What a queue
    of one's own holds nobody knows, and it has no tooth.
    """
    flow, (there, _), links = scenario.flows[number], scenario.paths[number], scenario.links
    beside = {link: sum(link in scenario.paths[other][0] for other in flows) for link in there}
    slowest = min(there, key=lambda link: links[link].rate / beside[link])
    link, trip = links[slowest], least_trip(scenario, number)
    duration = (flow.mss + HEADER_BYTES) * BITS_NS / link.rate
    most = (trip + (link.target if link.queue == 'codel' else link.capacity * duration)) / duration / beside[slowest]
    if window(scenario, number) < most or slowest in scenario.own:
        return 0
    trips = [max(trip, beside[slowest] * segments * duration) for segments in (most / 2, most)]
    return ((2 if flow.delack else 1) * most / 2 + 1) * statistics.fmean(trips)


def longest_tooth(scenario: Scenario, flows: Sequence[int], chosen: Sequence[int] | None = None) -> tuple[float, str]:
    """The longest tooth of these flows, or of those that were chosen of them, and whose it is."""
    key = (*flows, chosen and (*chosen,), *(link[5:] for link in scenario.links), *(scenario.flows[number].delack for number in flows), *scenario.own)
    if key not in scenario.kept:
        scenario.kept[key] = max(((tooth(scenario, number, flows), scenario.flows[number].name) for number in flows
                                  if chosen is None or number in chosen), default=(0, ''))
    return scenario.kept[key]


def up_to_two_digits(time: float) -> int:
    """A time upwards to one that has two digits."""
    step = 10**max(0, len(str(int(time))) - 2)
    return int(-(-time // step)) * step


def rounded(time: float) -> str:
    """A time in words, up to two digits and upwards."""
    return spelled_time(up_to_two_digits(time))


def can_end(scenario: Scenario, number: int) -> bool:
    """Whether a flow can be complete before the scenario's end, at the rate of its slowest link."""
    flow, rate = scenario.flows[number], min(scenario.links[link].rate for link in scenario.paths[number][0])
    return flow.segments * (flow.mss + HEADER_BYTES) * BITS_NS < rate * (scenario.end - flow.start)


def has_long_tooth(scenario: Scenario, begin: int, end: int, flows: Sequence[int], chosen: Sequence[int] | None = None) -> str | None:
    """A sentence on these flows' longest tooth, or on that of those that were chosen, where a run from `begin` to `end` is shorter."""
    length, name = longest_tooth(scenario, flows, chosen)
    if length <= end - begin:
        return None
    return f'Too short: a tooth of {name}\'s sawtooth takes about {rounded(length)}, and figures are of {spelled_time(end - begin)}.'


class Thirds(NamedTuple):
    """The goodput of flows in the first third of a span and in the last, bit/s, and the half width of the 95 % interval of the
    difference; whether that is less than the difference."""

    before: float
    after: float
    half: float
    changed: bool

    @property
    def part(self) -> float:
        """The difference beside the goodput."""
        return abs(self.after - self.before) / (self.before + self.after)

    def __str__(self) -> str:
        return (f'Not settled: goodput is {self.before / 1e6:.3f} Mbit/s in the first third and {self.after / 1e6:.3f} in the last, '
                f'±{self.half / 1e6:.3f} (bytes count once they are in order).')


def thirds(run: Figures | EngineRun, flows: Sequence[int]) -> Thirds | None:
    """The thirds of a run, of these flows together; None where it has no portions."""
    span, portions = run.end - run.begin, run.portions() if flows else ()
    if len(portions) < PORTIONS:
        return None
    goodputs = [sum(portion[number] for number in flows) * PORTIONS * BITS_NS / span for portion in portions]
    first, last = goodputs[:THIRD], goodputs[-THIRD:]
    before, after = statistics.fmean(first), statistics.fmean(last)
    half = student(2 * THIRD - 2) * ((statistics.variance(first) + statistics.variance(last)) / THIRD)**.5
    return Thirds(before, after, half, abs(after - before) > max(half, LEAST * statistics.fmean(goodputs)))


def advice(scenario: Scenario, begin: int, end: int, flows: Sequence[int], chosen: Sequence[int] | None = None,
           changed: bool = False) -> str:
    """A sentence with the span that would do: TEETH of the longest tooth, once the window of each flow has risen. A run whose goodput
    changed leaves out its first third and goes on to the triple. Both are the least where no tooth says how long goodput changes, or
    where it changed though all windows had the time to rise."""
    length, _ = longest_tooth(scenario, flows, chosen)
    risen = max((scenario.flows[number].start for number in flows), default=0) + RISE * length
    first = up_to_two_digits(max(begin, risen, begin + (end - begin) / 3 if changed else 0))
    last = up_to_two_digits(max(first + TEETH * length, begin + 3 * (end - begin) if changed else 0))
    least = 'at least ' if changed and (not length or begin >= risen) else ''
    return (f'For {TEETH} teeth count' if length else 'Count') + f' from {least}{spelled_time(first)} on, to an end of {least}{spelled_time(last)}.'


def too_short(run: Figures | EngineRun, chosen: Sequence[int] | None = None) -> list[str]:
    """Sentences that say why a run is too short for its figures, or for those of the flows that were chosen, and what would do; none
    where it is not. A flow that was chosen has teeth where it can fill its share."""
    flows = compared(run).flows
    tooth_in_words, goodputs = has_long_tooth(run.scenario, run.begin, run.end, flows, chosen), thirds(run, compared(run, chosen).flows)
    changed = goodputs is not None and goodputs.changed
    found = [*([tooth_in_words] if tooth_in_words else []), *([str(goodputs)] if changed else [])]
    return [*found[:-1], f'{found[-1]} {advice(run.scenario, run.begin, run.end, flows, chosen, changed)}'] if found else []
