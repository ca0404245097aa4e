"""The retransmission timer of a sender: its value over time, what measured a round trip, and what a timeout followed."""
from __future__ import annotations

from collections import namedtuple
from collections.abc import Sequence

import numpy as np
from matplotlib.artist import Artist
from matplotlib.axes import Axes
from matplotlib.lines import Line2D
from matplotlib.ticker import MaxNLocator

from tcpsim.traces.curves import FlowRun
from tcpsim.traces.lives import MOST_RTO, SECOND, after_sample

from .clock import length_text
from .picture import FlowView, Picture
from .spans import mark_spans, span_key
from .style import STEPS, delay_unit, key_above

ROW = -.09              # where new acknowledgements are marked, as a part of the axis
MEASURED = {'marker': '.', 'ms': 8, 'color': '#000000', 'zorder': 3.2}
UNMEASURED = {'marker': 'D', 'ms': 6, 'mfc': '#FFFFFF', 'mew': 1.3, 'color': '#000000', 'zorder': 3.2}

# A sender's timer (RFC 6298): when RTO changed, and its value from there on, in ns; when an acknowledgement measured a round trip,
# and when one of new data measured none while the timer was doubled.
Timer = namedtuple('Timer', 'times values measured unmeasured')


def timer_of(run: FlowRun) -> Timer:
    """A sender's timer. One segment at a time is timed, and none that was sent again (RFC 6298 section 3)."""
    found = Timer([run.flow.start], [SECOND], [], [])
    una, new = dict(zip(run.una_times, run.una)), firsts(run.sent_times, run.sent)
    timeouts, again = set(run.timeouts), set(run.again_times)
    srtt, rttvar, rto, timing, doubled = None, 0, SECOND, None, False
    for time in sorted({*una, *new, *timeouts, *again}):
        if time in una and timing is not None and una[time] >= timing[0]:
            srtt, rttvar, rto = after_sample(srtt, rttvar, time - timing[1])
            timing, doubled = None, False
            found.measured.append(time)
        elif time in una and doubled:
            found.unmeasured.append(time)
        if time in timeouts:
            rto, doubled = min(2 * rto, MOST_RTO), True
        if time in again or time in timeouts:
            timing = None
        if time in new and timing is None:
            timing = new[time] + run.flow.mss, time
        if rto != found.values[-1]:
            found.times.append(time)
            found.values.append(rto)
    return found


def firsts(times: Sequence[int], numbers: Sequence[int]) -> dict[int, int]:
    """Of each moment the first number."""
    found = {}
    for time, number in zip(times, numbers):
        found.setdefault(time, number)
    return found


def timer_panel(picture: Picture, axes: Axes, view: FlowView, heading: list, width: float, in_full: bool = True) -> None:
    """The value of the timer, what changes it, and which acknowledgements do not."""
    timer = timer_of(view.run)
    greatest = max(int(picture.seen(its.times, its.values).max()) for its in (timer_of(each.run) for each in picture.flows))
    scale, unit = delay_unit(greatest)
    mark_spans(picture, axes, view, {time: f'doubled to {length_text(value)}' for time, value in zip(timer.times, timer.values)
                                     if time in set(view.run.timeouts)} if in_full else {})
    picture.curve(axes, view, timer.times, timer.values, scale, color=picture.color_of(view), lw=2)
    for times, look in ((timer.measured, MEASURED), (timer.unmeasured, UNMEASURED)):
        picture.points(axes, times, np.full(len(times), ROW * greatest), scale, **look)
    axes.set_ylim(2 * ROW * greatest / scale, 1.15 * greatest / scale)
    axes.yaxis.set_major_locator(MaxNLocator(4, steps=STEPS))
    axes.set_ylabel(unit)
    none = not any(map(picture.sees, timer.measured)) and any(map(picture.sees, timer.unmeasured))
    key_above(axes, heading[0], [], width, [*heading[1:], 'no round trip is measured' if none else None])


def timers_panel(picture: Picture, axes: Axes, views: Sequence[FlowView], width: float) -> None:
    """The timers of several flows in one panel, a curve each."""
    timers = [timer_of(view.run) for view in views]
    greatest = max(int(picture.seen(timer.times, timer.values).max()) for timer in timers)
    scale, unit = delay_unit(greatest)
    for view, timer in zip(views, timers):
        picture.curve(axes, view, timer.times, timer.values, scale, **{**picture.look_of(view), 'lw': 1.6})
    axes.set_ylim(0, 1.15 * greatest / scale)
    axes.yaxis.set_major_locator(MaxNLocator(6, steps=STEPS))
    axes.set_ylabel(unit)
    key_above(axes, 'retransmission timers', [Line2D([], [], label=view.name, **picture.look_of(view)) for view in views], width)


def timer_key(picture: Picture) -> list[Artist]:
    """The key of the marks of timer panels."""
    timers = [timer_of(view.run) for view in picture.flows]
    key = [Line2D([], [], color=picture.key_color(), lw=2, label='timer (RTO)')]
    if any(picture.sees(time) for timer in timers for time in timer.measured):
        key.append(Line2D([], [], ls='none', label='new ack, measures a round trip', **MEASURED))
    if any(picture.sees(time) for timer in timers for time in timer.unmeasured):
        key.append(Line2D([], [], ls='none', label='new ack of what was sent again: measures none, the timer stays', **UNMEASURED))
    return key + span_key(picture)
