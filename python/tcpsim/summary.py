"""The table with which figures begin: of each bottleneck how it is used, how long packets wait, and what its flows get.

It is made of rows of figures, (what, name, figure, unit, value), as `figures` has them. Nothing but Python's standard library.
"""
from __future__ import annotations

from collections.abc import Iterable, Mapping, Sequence
from typing import Any

from tcpsim.fairness import jain
from tcpsim.scenario.units import BITS_NS

TITLES = ('bottleneck', 'used %', 'wait ms: median', '99th', 'loss %', 'flows', 'goodput Mbit/s', 'each %', 'timeouts', 'Jain')
LITTLE = .1             # of what the busiest link is used: whose part is less, and which dropped nothing, carried little
FEW = 4                 # links that carried little and are shown, at most

Figures = Mapping[str, Any]     # of a flow, a link or the run, by name: numbers and words


def by_name(rows: Iterable[tuple], what: str) -> dict[str, dict[str, Any]]:
    """The figures of each flow or each link, or those of the run, whose name is empty."""
    found: dict[str, dict[str, Any]] = {}
    for kind, name, figure, _, value in rows:
        if kind == what:
            found.setdefault(name, {})[figure] = value
    return found


def shown(value: float | None, form: str, scale: float = 1) -> str:
    """A figure in words, `-` where there is none."""
    return '-' if value is None else form.format(value / scale)


def opening(rows: Sequence[tuple]) -> list[list[str]]:
    """A row for the flows of each bottleneck, the busiest first, and one for its mice."""
    flows, links, (of_run,) = by_name(rows, 'flow'), by_name(rows, 'link'), by_name(rows, 'run').values()
    lines = [list(TITLES)]
    at: dict[str, list[Figures]] = {}
    for flow in flows.values():
        at.setdefault(flow['bottleneck'], []).append(flow)
    for name in sorted(at, key=lambda name: -used(links.get(name))):
        link = links.get(name, {})
        of_link = [name or '-', shown(link.get('utilization'), '{:.1f}', .01),
                   *(shown(link.get(f'{which} delay in the queue'), '{:.3f}', 1e6) for which in ('median', '99th percentile of')),
                   shown(link.get('loss'), '{:.2f}', .01)]
        mice = [flow for flow in at[name] if flow['compared'] == 'mouse']
        others = [flow for flow in at[name] if flow not in mice]
        for group, title in ((others, f'{len(others)}'), (mice, f'{len(mice)} mice')):
            if group:
                lines.append([*of_link, title, *of_flows(group, at[name], of_run['span'])])
                of_link = [name or '-', *[''] * (len(of_link) - 1)]
    return lines


def of_flows(flows: Sequence[Figures], beside: Sequence[Figures], span: int) -> list[str]:
    """What these flows get together: goodput, the least and the greatest part of what all flows of the bottleneck get, timeouts,
    and Jain's index."""
    every = sum(flow['delivered'] for flow in beside)
    shares = sorted(100 * flow['delivered'] / every for flow in flows) if every else ()
    compared = [flow['goodput'] for flow in flows if flow['compared'] == 'yes']
    return [shown(sum(flow['delivered'] for flow in flows) * BITS_NS / span, '{:.3f}', 1e6),
            ' to '.join(f'{share:.1f}' for share in dict.fromkeys((shares[0], shares[-1]))) if shares else '-',
            f'{sum(flow["timeouts"] for flow in flows):,}', shown(jain(compared), '{:.4f}') if compared else '-']


def used(link: Figures | None) -> float:
    """The part of the span in which a link was sending, 1 where it cannot be told."""
    part = (link or {}).get('utilization')
    return 1 if part is None else part


def carried_little(rows: Sequence[tuple]) -> list[str]:
    """The links that carried little beside the busiest and dropped nothing, and that are no bottleneck; none where these are few."""
    links, bottlenecks = by_name(rows, 'link'), {flow['bottleneck'] for flow in by_name(rows, 'flow').values()}
    most = max(map(used, links.values()), default=0)
    found = [name for name, link in links.items()
             if used(link) < LITTLE * most and not link['dropped'] and name not in bottlenecks]
    return found if len(found) > FEW else []
