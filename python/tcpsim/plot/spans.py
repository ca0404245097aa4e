"""What the panels of a flow share: stalls and recoveries as bands, timeouts as lines with what preceded them."""
from __future__ import annotations

from collections.abc import Iterable

import numpy as np
from matplotlib.artist import Artist
from matplotlib.axes import Axes

from tcpsim.looks import MARKS, TIMEOUT
from tcpsim.traces.curves import FlowRun

from .clock import length_text
from .picture import FlowView, Picture, recoveries
from .points import stalls
from .style import DARK_RED, NOTE, ON_WHITE, SHADES, TIMEOUT_WIDTH, band_mark, timeout_mark

MOST_TIMERS = 4         # timeouts of which the picture says what preceded them
MOST_IN_FULL = 2        # flows of which the picture says all


def mark_spans(picture: Picture, axes: Axes, view: FlowView, said: dict | None = None, in_full: bool = True,
               gap: float = 3) -> None:
    """Shades stalls and recoveries, below all curves and areas, and draws timeouts. `said` has of timeouts what is written at
    their lines, else in full how long the timer ran and how many duplicates came, or in short how many. `gap` is
    how far from the line that is, in points."""
    for kind, begin, end in bands(picture, view):
        axes.axvspan(*picture.clock.x((begin, end)), lw=0, **SHADES[kind])
    timeouts = [time for time in view.run.timeouts if picture.sees(time)]
    if said is None:
        said = {time: timeout_text(view.run, time, in_full) for time in timeouts}
    for time in timeouts:
        x = float(picture.clock.x(time))
        axes.axvline(x, color=TIMEOUT, lw=TIMEOUT_WIDTH, zorder=3.5)
        if said.get(time) and len(timeouts) <= MOST_TIMERS:
            picture.timers.setdefault(axes, []).append(axes.annotate(
                said[time], (x, 1), xycoords=('data', 'axes fraction'), xytext=(-gap, -4), textcoords='offset points', ha='right',
                va='top', fontsize=NOTE, color=DARK_RED, zorder=5, bbox=ON_WHITE))


def bands(picture: Picture, view: FlowView) -> list[tuple[str, int, int]]:
    """The spans of a flow in sight, none over another: what they are, a stall, a recovery or both, their begin and end in ns."""
    found = {'stall': picture.in_sight(stalls(view.run, picture.longer, view.until)),
             'recovery': picture.in_sight(recoveries(view))}
    edges = sorted({edge for spans in found.values() for span in spans for edge in span})
    parts = []
    for begin, end in zip(edges, edges[1:]):
        kinds = [kind for kind, spans in found.items() if covers(spans, begin, end)]
        if kinds:
            parts.append((kinds[0] if len(kinds) == 1 else 'both', begin, end))
    return parts


def covers(spans: Iterable[tuple[int, int]], begin: int, end: int) -> bool:
    """Whether one of the spans has all from begin to end."""
    return any(its[0] <= begin and end <= its[1] for its in spans)


def waited(run: FlowRun, time: int) -> int:
    """Since when the sender waited for the timer that ended then, in ns: the last new acknowledgement or timeout."""
    before = [moments[:np.searchsorted(moments, time)][-1:] for moments in (run.una_times, run.timeouts)]
    return max([run.flow.start, *(int(moment) for moments in before for moment in moments)])


def time_of_timer(run: FlowRun, time: int) -> int | None:
    """How long the timer ran that ended then, in ns. In a recovery of NewReno's only the first partial acknowledgement starts it
    anew, and nothing is said."""
    since = waited(run, time)
    if run.flow.newreno and any(begin <= since and (end is None or since < end) for begin, end in run.recoveries):
        return None
    return time - since


def duplicate_times(run: FlowRun) -> np.ndarray:
    """When duplicate acknowledgements came, in ns. A sender's line that neither begins, nor acknowledges anything new, nor is a
    timeout, is one."""
    others = np.concatenate([np.asarray(known, dtype=np.int64) for known in ([run.flow.start], run.una_times, run.timeouts)])
    return np.setdiff1d(np.asarray(run.times, dtype=np.int64), others)


def timeout_text(run: FlowRun, time: int, in_full: bool) -> str:
    """What preceded a timeout: how long its timer ran, and how many duplicate acknowledgements came meanwhile, of which the third
    would have begun a recovery."""
    length, came = time_of_timer(run, time), duplicate_times(run)
    count = int(((came > waited(run, time)) & (came < time)).sum())
    if not in_full:
        return f'{count} dup.'
    return (f'after {length_text(length)}, ' if length is not None else '') + f'{count} dup. ack{"" if count == 1 else "s"}'


def span_key(picture: Picture) -> list[Artist]:
    """The key's entries of what is shaded or drawn in any of the flows' panels."""
    drawn = {kind for view in picture.flows for kind, *_ in bands(picture, view)}
    longer = length_text(picture.longer)
    labels = {'recovery': MARKS['recovery'], 'stall': MARKS['stall'].format(longer), 'both': 'recovery, no new ack'}
    key = [band_mark(kind, label) for kind, label in labels.items() if kind in drawn]
    if any(picture.sees(time) for view in picture.flows for time in view.run.timeouts):
        several = len(picture.flows) > MOST_IN_FULL
        key.insert(0, timeout_mark(' after n dup. acks' if several else ''))
    return key
