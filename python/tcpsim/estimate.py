"""About how many events a run has, from the scenario alone: rates, windows, bytes and the end.

It serves to say how long the model would take, before it runs. On the scenarios of examples/ with more than 100 events it
is between 0.85 and 1.4 times what they have. Nothing but Python's standard library.
"""
from __future__ import annotations

from tcpsim.scenario.text import Flow, Scenario, Unreadable
from tcpsim.scenario.units import BITS_NS, HEADER_BYTES


def events_of(text: str, until: int | None = None) -> float:
    """About how many events the run of a scenario's text has, up to a moment (ns) if one is given; 0 of a text that is
    refused, as it has no run."""
    try:
        scenario = Scenario(text)
        if until is not None:
            scenario.end = min(scenario.end, until)
        return events(scenario)
    except (Unreadable, IndexError, KeyError, TypeError, ValueError, ZeroDivisionError):
        return 0


def events(scenario: Scenario) -> float:
    """About how many events the run of a scenario has.

    Each packet has two events a link: it has left, and it has arrived. A flow sends its segments once, and no more than
    its receiver's window in each of the shortest round trips. All flows over a link share what its rate carries.
    """
    segments = [_segments(scenario, flow, *paths) for flow, paths in zip(scenario.flows, scenario.paths)]
    for number, link in enumerate(scenario.links):
        over = [flow for flow, (there, _) in enumerate(scenario.paths) if number in there]
        bits = BITS_NS * sum(segments[flow] * (HEADER_BYTES + scenario.flows[flow].mss) for flow in over)
        room = link.rate * max((_span(scenario, scenario.flows[flow]) for flow in over), default=0)
        for flow in over if bits > room else ():
            segments[flow] *= room / bits
    return sum(count * (2 * len(there) + 2 * len(back) * (.5 if flow.delack else 1))
               for count, flow, (there, back) in zip(segments, scenario.flows, scenario.paths))


def _span(scenario: Scenario, flow: Flow) -> int:
    """Nanoseconds from a flow's start to the end."""
    return max(0, scenario.end - flow.start)


def _segments(scenario: Scenario, flow: Flow, there: list[int], back: list[int]) -> float:
    """How many segments a flow can send if it has each link for itself."""
    links = scenario.links
    least_trip = (sum(links[n].delay + (HEADER_BYTES + flow.mss) * BITS_NS // links[n].rate for n in there)
                  + sum(links[n].delay + HEADER_BYTES * BITS_NS // links[n].rate for n in back))
    span = _span(scenario, flow)
    by_window = max(1, flow.rwnd // flow.mss) * (span / max(1, least_trip) + 1)
    by_acks = min(links[n].rate for n in back) * span / (HEADER_BYTES * BITS_NS) * (2 if flow.delack else 1)
    return min(flow.segments, by_window, by_acks)
