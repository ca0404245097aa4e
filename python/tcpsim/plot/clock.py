"""The axis of time of a picture: its window, its unit, and the idle spans that it leaves out."""
from __future__ import annotations

from collections import namedtuple
from collections.abc import Sequence

import numpy as np
from matplotlib.axes import Axes
from matplotlib.ticker import FixedFormatter, FixedLocator, MaxNLocator
from numpy.typing import ArrayLike

from .style import NOTE, STEPS, TICKS, text_width

S = 10**9
IDLE, KEPT = .2, .25    # a gap is left out that is this part of the window, where what stays is at most that
APART = .85             # ticks are this part of their mean distance apart, at least
CUT_WIDTH = .09         # how wide a gap that is left out is drawn, as a part of what stays
MARGIN = .1            # what stays of a gap at either side, as a part of what stays beside it
AT_FIRST = 2           # and how many times that at the first moment, whose names have no room to the left
SLACK = 1e-8           # of the window: what a tick may lie outside by its arithmetic alone
MOST_TICKS, BETWEEN = 8, 7      # ticks at most; points between two of their numbers
RIM = .03               # how far the panel goes on beside the first and the last moment, so that their marks are whole

# What an axis leaves out, and how long nothing happens in all, in ns.
Cut = namedtuple('Cut', 'begin end idle')


def unit_of(width: float) -> tuple[int, str]:
    """How many nanoseconds the unit of an axis so wide (ns) has, and its name."""
    return (S, 's') if width >= S else (10**6, 'ms') if width >= 10**7 else (10**3, 'µs')


def idle_spans(moments: ArrayLike, begin: int, end: int, longer: int) -> list[Cut]:
    """The spans without any event that are longer than `longer`, where they are most of the time from begin
    to end. All are ns."""
    moments = np.unique(np.asarray(moments, dtype=np.int64))
    moments = moments[(moments >= begin) & (moments <= end)]
    if len(moments) < 2:
        return []
    gaps = np.diff(moments)
    long = np.flatnonzero(gaps >= max(longer, IDLE * (end - begin)))
    kept = end - begin - int(gaps[long].sum())
    if not len(long) or kept > KEPT * (end - begin):
        return []
    margin = max(1, int(kept * MARGIN))
    return [Cut(int(moments[at]) + margin * (1 if at else AT_FIRST), int(moments[at + 1]) - margin, int(gaps[at]))
            for at in long]


class Clock:
    """Where a moment is drawn. Without cuts it is the time in its unit. The window and what is cut out of it are ns."""

    def __init__(self, window: tuple[int, int], cuts: Sequence[Cut] = ()):
        self.window = window
        self.cuts = [Cut(max(cut.begin, window[0]), min(cut.end, window[1]), cut.idle) for cut in cuts
                     if cut.begin < window[1] and cut.end > window[0]]
        self.kept = window[1] - window[0] - sum(cut.end - cut.begin for cut in self.cuts)
        # where a span is left out, moments are long numbers of a small unit
        self.scale, self.unit = unit_of(max(self.kept, 10**7) if self.cuts else self.kept)
        knots, places, here = [window[0]], [window[0] / self.scale], window[0] / self.scale
        for begin, end, _ in [*self.cuts, Cut(window[1], window[1], 0)]:
            here += (begin - knots[-1]) / self.scale
            knots.append(begin)
            places.append(here)
            if end > begin:
                here += CUT_WIDTH * self.kept / self.scale
                knots.append(end)
                places.append(here)
        self._knots, self._places = np.array(knots, dtype=float), np.array(places)

    def x(self, times: ArrayLike) -> np.ndarray | np.float64:
        """Where moments (ns) within the window are drawn, or one, in the axis's unit."""
        if not self.cuts:
            return np.asarray(times, dtype=float) / self.scale
        return np.interp(np.asarray(times, dtype=float), self._knots, self._places)

    def edges(self, count: int) -> np.ndarray:
        """The moments, in ns, at the edges of `count` columns of the same width."""
        if not self.cuts:
            return np.linspace(self.window[0], self.window[1], count + 1)
        places = np.linspace(self._places[0], self._places[-1], count + 1)
        return np.interp(places, self._places, self._knots)

    def set(self, axes: Axes, width: float, size: float = TICKS) -> None:
        """Limits and ticks of an axis so wide (points), as many as have room for letters of this size."""
        rim = RIM * (self._places[-1] - self._places[0])
        axes.set_xlim(self._places[0] - rim, self._places[-1] + rim)
        across = width / (1 + 2 * RIM) / (self._places[-1] - self._places[0])       # points in the axis's unit
        for most in range(MOST_TICKS, 0, -1):
            ticks, labels = self._ticks(most)
            halves = [text_width(label, size) / 2 for label in labels]
            if all((to - at) * across >= half + other + BETWEEN for at, to, half, other in zip(ticks, ticks[1:], halves, halves[1:])):
                break
        axes.xaxis.set_major_locator(FixedLocator(ticks))
        axes.xaxis.set_major_formatter(FixedFormatter(labels))

    def mark_cuts(self, axes: Axes) -> None:
        """Marks the spans that the axis leaves out."""
        for begin, end, idle in self.cuts:
            left, right = self.x((begin, end))
            axes.axvspan(left, right, facecolor='#F4F4F4', edgecolor='#C8C8C8', hatch='////', lw=0, zorder=3)
            axes.annotate(f'no event\nfor {length_text(idle)}', ((left + right) / 2, .5),
                          xycoords=('data', 'axes fraction'), rotation=90, ha='center', va='center',
                          fontsize=NOTE, color='#333333', zorder=4,
                          bbox={'boxstyle': 'square,pad=.15', 'fc': '#F4F4F4', 'ec': 'none'})

    def cut_boxes(self, axes: Axes) -> list[tuple[float, float, float, float]]:
        """Where the spans that are left out are drawn: left, below, right, top in pixels."""
        return [(*axes.transData.transform((left, 0))[:1], axes.bbox.y0,
                 *axes.transData.transform((right, 0))[:1], axes.bbox.y1)
                for left, right in (self.x((cut.begin, cut.end)) for cut in self.cuts)]

    def _ticks(self, most: int) -> tuple[list[float], list[str]]:
        parts, begin = [], self.window[0]
        for cut_begin, cut_end, _ in [*self.cuts, Cut(self.window[1], None, 0)]:
            parts.append((begin, cut_begin))
            begin = cut_end
        ticks, labels, slack = [], [], SLACK * (self.window[1] - self.window[0])
        for begin, end in parts:
            count = max(1, round(most * (end - begin) / self.kept))
            inner = MaxNLocator(count, steps=STEPS).tick_values(begin / self.scale, end / self.scale)
            for value in inner:
                place = float(self.x(value * self.scale))
                near = ticks and place - ticks[-1] < APART / most * (self._places[-1] - self._places[0])
                if begin - slack <= value * self.scale <= end + slack and not near:
                    ticks.append(place)
                    labels.append(f'{value:,.10g}')
        return ticks, labels


def length_text(ns: int) -> str:
    """A length of time in three digits."""
    for scale, unit in ((S, 's'), (10**6, 'ms'), (10**3, 'µs')):
        if ns >= scale:
            return f'{ns / scale:.3g} {unit}' if ns < 1000 * scale else f'{ns / scale:,.0f} {unit}'
    return f'{ns} ns'
