"""The axis of windows: how high it goes, and its break where slow start overshoots all that follows."""
from __future__ import annotations

from collections import namedtuple

import numpy as np
from matplotlib.axes import Axes
from matplotlib.ticker import FixedFormatter, FixedLocator, MaxNLocator

from .picture import FlowView, Picture, recoveries
from .points import outside, within
from .style import STEPS

OVERSHOOT = 1.8         # slow start's window is this many times the greatest one later, and the axis is broken,
LATER = .4              # where what comes later is at least this part of the picture,
LEAST = 16              # and slow start's window has this many segments
ABOVE = .3              # how high the part above the break is drawn, as a part of what is below it,
GAP = .07               # and the break
CLEAR = .93             # up to which part of what is below it there are ticks
BETWEEN = .125          # two ticks above it are this part of what is below it apart
STROKE = {'marker': (2, 2, -60), 'ms': 13, 'mew': 1.4, 'color': '#000000'}      # through the side of a frame
ROOM = 1.12             # how much higher than the greatest value an axis goes

# The greatest window of a flow in sight; the greatest one after slow start, where that is much less, else the same; and the
# greatest one that is none of a recovery.
Heights = namedtuple('Heights', 'top later calm')
# How high an axis goes: in full to `knee`, and where `top` is above it, in little from there to `top`. Of the window above the
# break `calm` is the greatest value that is none of a recovery.
Axis = namedtuple('Axis', 'knee top calm')


def heights_of(picture: Picture, view: FlowView) -> Heights:
    """The heights of a flow's window in sight, in bytes; a recovery's window counts as any other."""
    times, values = within(view.run.times, view.run.cwnd, picture.until(view))
    top = max(1, int(values.max()) if len(values) else 1)
    calm = greatest(outside(times, values, recoveries(view)), top)
    over, (begin, end) = slow_start_over(view), picture.window
    if over is None or picture.until(view)[1] - max(over, begin) < LATER * (end - begin):
        return Heights(top, top, calm)
    after = greatest(outside(times, values, [(picture.window[0], over)]), top)
    return Heights(top, after if top > OVERSHOOT * after and top >= LEAST * view.run.flow.mss else top, calm)


def greatest(values: np.ndarray, without: int) -> int:
    """The greatest value, or where there is none the other one."""
    return int(np.nanmax(values)) if np.isfinite(values).any() else without


def slow_start_over(view: FlowView) -> int | None:
    """When the first slow start and the recovery that ends it are over, in ns; None where no segment was lost."""
    ends = [end for _, end in recoveries(view)[:1]] + list(view.run.timeouts[:1])
    return min(ends, default=None)


def axis_of(heights: list, shared: list, least: int = 0) -> Axis:
    """The axis of the panels that share one, at least so high."""
    mine = [its for its, common in zip(heights, shared) if common]
    knee, top, calm = max(least, *(its.later for its in mine)), max(its.top for its in mine), max(its.calm for its in mine)
    return Axis(knee, top, calm) if top > OVERSHOOT * knee else Axis(max(knee, top), max(knee, top), calm)


def set_heights(axes: Axes, axis: Axis, scale: int, most: int, low: float | None = None) -> None:
    """Limits and ticks of an axis of windows, whose unit has `scale` bytes, from `low` on; a break is drawn where it is broken."""
    knee, top = axis.knee * ROOM / scale, axis.top / scale
    low = -.1 * axis.knee / scale if low is None else low
    locator = MaxNLocator(most, steps=STEPS)
    if axis.top <= axis.knee:
        axes.set_ylim(low, knee)
        axes.yaxis.set_major_locator(FixedLocator([tick for tick in locator.tick_values(0, knee) if 0 <= tick <= knee]))
        return
    rest = ABOVE * knee / (1.06 * top - knee)

    def drawn(values: np.ndarray) -> np.ndarray:
        return np.where(values <= knee, values, knee + (values - knee) * rest)

    def meant(places: np.ndarray) -> np.ndarray:
        return np.where(places <= knee, places, knee + (places - knee) / rest)

    axes.set_yscale('function', functions=(drawn, meant))
    axes.set_ylim(low, 1.06 * top)
    over = knee + GAP * knee / rest
    ticks = [tick for tick in locator.tick_values(0, axis.knee / scale) if 0 <= tick <= CLEAR * knee]
    ticks += [tick for tick in (axis.calm / scale,) if over < tick and (top - tick) * rest > BETWEEN * knee] + [top]
    axes.yaxis.set_major_locator(FixedLocator(ticks))
    axes.yaxis.set_major_formatter(FixedFormatter([f'{tick:,.3g}' for tick in ticks]))
    draw_break(axes, knee, over)


def draw_break(axes: Axes, low: float, high: float) -> None:
    """A gap in an axis from one height to another, in the axis' unit: nothing is drawn in it, and strokes end the frame's
    sides."""
    axes.axhspan(low, high, facecolor='#FFFFFF', edgecolor='none', zorder=4)
    for height in (low, high):
        axes.axhline(height, color='#777777', lw=1, ls=':', zorder=4.1)
        axes.plot([0, 1], [height] * 2, transform=axes.get_yaxis_transform(), ls='none', clip_on=False, zorder=6, **STROKE)


def binds(view: FlowView, picture: Picture) -> bool:
    """Whether the receiver's window keeps the sender back in sight: what is in flight fills it, but for less than a
    segment."""
    _, flight = within(view.run.times, view.run.flight, picture.until(view))
    return bool((flight + view.run.flow.mss > view.run.flow.rwnd).any()) if len(flight) else False
