"""Fewer points, the same picture: curves of steps, clouds of dots, envelopes, busy parts. All times are ns."""
from __future__ import annotations

from collections.abc import Iterable

import numpy as np
from numpy.typing import ArrayLike

from tcpsim.traces.curves import FlowRun, LinkRun

COLUMNS = 1000          # a curve keeps the first, least, greatest and last value of each of this many times
DOTS = (500, 300)       # dots that fall into one cell of this grid are drawn once
BANDS = 300             # columns of an envelope
DENSE = 1.2             # changes a column from which on a curve is drawn as its envelope,
PARTS = 20              # and twice as many in one of this many parts of the window


def steps(times: ArrayLike, values: ArrayLike, window: tuple[int, int]) -> tuple[np.ndarray, np.ndarray]:
    """Points of a curve of steps within the window: of one moment the last value; of the values in one
    column of the picture only the first, least, greatest and last are kept."""
    times, values = within(times, values, window)
    if len(times) > 4 * COLUMNS:
        column = (times - window[0]) * COLUMNS // max(1, window[1] - window[0])
        starts = np.flatnonzero(np.diff(column, prepend=-1))
        ends = np.append(starts[1:], len(times)) - 1
        order = np.lexsort((values, column))
        kept = np.unique(np.concatenate((starts, ends, order[starts], order[ends])))
        times, values = times[kept], values[kept]
    if len(times):
        times, values = np.append(times, window[1]), np.append(values, values[-1])
    return times, values


def within(times: ArrayLike, values: ArrayLike, window: tuple[int, int]) -> tuple[np.ndarray, np.ndarray]:
    """The part of a curve of steps in the window, with the value at its begin; of one moment the last."""
    times, values = np.asarray(times, dtype=np.int64), np.asarray(values, dtype=np.int64)
    first, last = np.searchsorted(times, window, side='right')
    first = max(first - 1, 0)
    times, values = times[first:last], values[first:last]
    lasting = np.append(np.diff(times) > 0, True)[:len(times)]
    times, values = times[lasting], values[lasting]
    if len(times) and times[0] < window[0]:
        times = np.concatenate(([window[0]], times[1:]))
    return times, values


def dots(times: ArrayLike, values: ArrayLike, window: tuple[int, int]) -> tuple[np.ndarray, np.ndarray]:
    """One point for each cell of a grid over the window in which there is one."""
    times, values = np.asarray(times, dtype=np.int64), np.asarray(values, dtype=np.float64)
    seen = (times >= window[0]) & (times <= window[1])
    times, values = times[seen], values[seen]
    if len(times) > 2000:
        across = (times - window[0]) * DOTS[0] // max(1, window[1] - window[0])
        up = ((values - values.min()) * DOTS[1] / max(1, np.ptp(values))).astype(np.int64)
        kept = np.unique(across * (DOTS[1] + 1) + up, return_index=True)[1]
        times, values = times[kept], values[kept]
    return times, values


def is_dense(times: ArrayLike, window: tuple[int, int]) -> np.bool_:
    """Whether a curve of steps changes too often to be seen as one, in the whole or in one of its parts."""
    places = np.searchsorted(np.asarray(times, dtype=np.int64), np.linspace(*window, PARTS + 1))
    return places[-1] - places[0] > DENSE * BANDS or max(np.diff(places)) > 2 * DENSE * BANDS / PARTS


def envelope(times: ArrayLike, values: ArrayLike, edges: ArrayLike) -> tuple[np.ndarray, np.ndarray, np.ndarray]:
    """Of a curve of steps between each two edges: the least and the greatest value and the mean over time.
    The curve begins at the first edge or before."""
    times, values = np.asarray(times, dtype=np.int64), np.asarray(values, dtype=np.int64)
    edges = np.asarray(edges, dtype=np.int64)
    at = np.maximum(np.searchsorted(times, edges, side='right') - 1, 0)
    least, greatest = values[at[:-1]].copy(), values[at[:-1]].copy()
    for column, (first, last) in enumerate(zip(at[:-1] + 1, np.searchsorted(times, edges[1:]))):
        if first < last:
            least[column] = min(least[column], values[first:last].min())
            greatest[column] = max(greatest[column], values[first:last].max())
    area = np.concatenate(([0], np.cumsum(np.diff(times) * values[:-1])))
    below = area[at] + (edges - times[at]) * values[at]
    return least, greatest, np.diff(below) / np.maximum(np.diff(edges), 1)


def busy_parts(link: LinkRun, window: tuple[int, int], edges: np.ndarray | None = None) -> tuple[np.ndarray, np.ndarray]:
    """Edges of bins over the window, and the part of each, from 0 to 1, in which the link was sending."""
    if edges is None:
        edges = np.linspace(window[0], window[1], bins(link) + 1)
    begin, end = np.asarray(link.busy_from, dtype=float), np.asarray(link.busy_to, dtype=float)
    before = np.concatenate(([0.0], np.cumsum(end - begin)))
    at = np.searchsorted(begin, edges, side='right')
    begun = np.minimum(edges - begin[np.maximum(at - 1, 0)], (end - begin)[np.maximum(at - 1, 0)]) \
        if len(begin) else np.zeros(len(edges))
    busy = np.where(at > 0, before[np.maximum(at - 1, 0)] + begun, 0.0)
    return edges, np.diff(busy) / np.diff(edges)


def bins(link: LinkRun) -> int:
    """How many parts of the time the utilization of a link is told for."""
    return 100 if len(link.busy_from) > 200 else 50


def outside(times: np.ndarray, values: ArrayLike, spans: Iterable[tuple[int, int]]) -> np.ndarray:
    """The values as numbers with none where their time is within a span: its begin is, its end is not."""
    values = np.array(values, dtype=float)
    for begin, end in spans:
        values[(times >= begin) & (times < end)] = np.nan
    return values


def stalls(flow: FlowRun, longer: int, end: int) -> list[tuple[int, int]]:
    """Spans of at least `longer` without a new acknowledgement, from the flow's start to its completion,
    or to `end` where it has none."""
    moments = [flow.flow.start, *flow.una_times]
    if flow.completed is None and end > moments[-1]:
        moments.append(end)
    return [(begin, end) for begin, end in zip(moments, moments[1:]) if end - begin > longer]


def growth(flow: FlowRun, recovering: Iterable[tuple[int, int]], window: tuple[int, int]) -> float | None:
    """By how many bytes a second a flow's window grows in congestion avoidance, on the mean of that time within the window; None
    where there is none."""
    times, cwnd, ssthresh = (np.asarray(values, dtype=np.int64) for values in (flow.times, flow.cwnd, flow.ssthresh))
    calm = (cwnd >= ssthresh) & np.isfinite(outside(times, cwnd, recovering)) & (times >= window[0]) & (times <= window[1])
    rises, lasts = np.diff(cwnd), np.diff(times)
    counted = calm[:-1] & calm[1:] & (rises >= 0)
    spent = int(lasts[counted].sum())
    return float(rises[counted].sum()) * 10**9 / spent if spent else None
