"""Panels of flows: the window, sequence numbers, and the progress of several flows."""
from __future__ import annotations

from collections.abc import Sequence

import numpy as np
from matplotlib.artist import Artist
from matplotlib.axes import Axes
from matplotlib.lines import TICKDOWN, Line2D
from matplotlib.patches import Patch
from matplotlib.ticker import MaxNLocator

from tcpsim.looks import PANELS

from .broken import ROOM, Axis, axis_of, binds, heights_of, set_heights
from .clock import length_text
from .losses import color_of, loss_key, loss_rows, lost, mark_lost, mark_row, name_lost
from .picture import FlowView, Picture, recoveries
from .points import dots, growth, steps, within
from .spans import duplicate_times, mark_spans, span_key
from .style import (AGAIN, IN_FLIGHT, KEY_SIZE, NOTE, RECEIVER, RUST, SSTHRESH, WHOLE_STEPS, byte_unit, bytes_text, key_above,
                    label_room, muted, series, sign_look, text_width)

MOST_DUPLICATES = 100   # that are marked, at most
FAR = 50                # times the axis of windows: how high above it ssthresh is, is told where it is less
FEW = 60                # rings that are large
OWN_AXIS = .1           # a flow whose values are below this part of the greatest has an axis of its own
APART = 2               # flows whose byte numbers lie over this many times the longest range of one are far apart
OWN = 'an axis of its own'
ROWS = .07, .25         # how far below 0 the first row of losses is, and each further one, as parts of the axis
COMPLETE = {'marker': 'o', 'ms': 5, 'ls': 'none'}
DUPLICATE = {'marker': TICKDOWN, 'ms': 9, 'mew': 1.2, 'color': '#000000', 'zorder': 3.2}
HELD_BACK = {'marker': '>', 'ms': 9, 'color': RUST, 'zorder': 3.2}
# Of two curves of which one mostly hides the other: a wide pale one, and a thin one on it.
OTHERS = {'color': '#9A9A9A', 'lw': .7, 'zorder': 1.5}
RECEIVED, ACKNOWLEDGED = {'color': '#8FD0C2', 'lw': 4.5}, {'color': '#000000', 'lw': 1.1}


# ---- which panels share their axis

def sharing(tops: Sequence[int]) -> list[int]:
    """Of each panel the greatest value of its axis: that of all of them, but its own where that is less than
    a tenth of the greatest, so that a small flow is seen beside a large one."""
    return [max(tops) if top >= OWN_AXIS * max(tops) else top for top in tops]


# ---- the window

def window_axes(picture: Picture) -> list[tuple[Axis, list[str]]]:
    """Of each flow's window the axis, and what is said of it: all share one, but a flow far below has its own. It is
    broken for those whose window goes above the break."""
    heights, least = [heights_of(picture, view) for view in picture.flows], picture.tops.get('window', 0)
    later = [its.later for its in heights]
    shared = [level == max(later) for level in sharing(later)] if not least else [True] * len(later)
    common = axis_of(heights, shared, least)
    found = []
    for its, with_others in zip(heights, shared):
        axis = Axis(common.knee, max(common.knee, its.top), its.calm) if with_others else axis_of([its], [True])
        found.append((axis, [] if with_others else [OWN]))
    return found


def window_panel(picture: Picture, axes: Axes, view: FlowView, heading: list, width: float, in_full: bool = True) -> None:
    """Windows and what is in flight. The heading is the title and what is said of the flow."""
    flow, all_axes = view.run, window_axes(picture)
    axis, notes = all_axes[view.number]
    scale, unit = byte_unit(max(each.knee for each, _ in all_axes))
    mark_spans(picture, axes, view, in_full=in_full)
    times, flight = steps(flow.times, flow.flight, picture.until(view))
    axes.fill_between(picture.clock.x(times), flight / scale, step='post', color=IN_FLIGHT, lw=0, zorder=1)
    if binds(view, picture):
        picture.curve(axes, view, [flow.flow.start], [flow.flow.rwnd], scale, color=RECEIVER, ls='-.')
    # ssthresh starts at the receiver's window, often far above all else: it may leave the panel.
    picture.curve(axes, view, flow.times, flow.ssthresh, scale, color=SSTHRESH, ls=(0, (4, 2)), lw=1.2)
    look = picture.look_of(view)
    if picture.in_sight(recoveries(view)):
        spans = recoveries(view)
        calm = zip([picture.window[0], *(end + 1 for _, end in spans)],
                   [*(begin for begin, _ in spans), picture.window[1] + 1])
        picture.curve(axes, view, flow.times, flow.cwnd, scale, hidden=list(calm), color=muted(look['color']), lw=1.2)
    picture.curve(axes, view, flow.times, flow.cwnd, scale, hidden=recoveries(view), **{**look, 'lw': 2.2})
    if is_complete(picture, view):
        axes.plot([picture.clock.x(flow.completed)], [flow.cwnd[-1] / scale], color=look['color'], **COMPLETE)
    low = mark_losses(picture, axes, view, axis.knee / scale, width)
    set_heights(axes, axis, scale, 6 if in_full else 4, low)
    axes.set_ylabel(unit)
    key_above(axes, heading[0], [], width, [*heading[1:], growth_note(picture, view), *notes])


def growth_note(picture: Picture, view: FlowView) -> str | None:
    """How fast a window grows beyond ssthresh, where the flows' round trips differ, by which it grows."""
    rate = growth(view.run, recoveries(view), picture.until(view)) if view.trip else None
    return f'beyond ssthresh +{bytes_text(round(rate), 2)} a second' if rate else None


def is_complete(picture: Picture, view: FlowView) -> bool:
    """Whether a flow is complete in sight."""
    return view.run.completed is not None and picture.sees(view.run.completed)


def mark_losses(picture: Picture, axes: Axes, view: FlowView, greatest: float, width: float) -> float:
    """Lost segments in rows below the curves, which would hide them, one at least for each link at which segments were lost;
    answers where the axis begins."""
    rows = loss_rows(picture, lost(picture, view), width)
    for row, (name, reasons) in enumerate(rows):
        height = -(ROWS[0] + row * ROWS[1]) * greatest
        for reason, times in reasons.items():
            mark_row(picture, axes, times, height, width, color=color_of(picture, view, reason), **sign_look(reason))
        if name:
            axes.annotate(name, (1, height), xycoords=('axes fraction', 'data'), xytext=(3, 0), textcoords='offset points',
                          va='center', fontsize=NOTE)
    return -(2 * ROWS[0] + ROWS[1] * (len(rows) - 1)) * greatest


def first_thresholds(picture: Picture) -> list[int]:
    """The ssthresh of flows that leave their panels above, in bytes."""
    found = []
    for view, (axis, _) in zip(picture.flows, window_axes(picture)):
        times, values = within(view.run.times, view.run.ssthresh, picture.until(view))
        values = values[times <= view.until]
        found += [int(values.max())] if len(values) and values.max() > top_of(axis) else []
    return found


def top_of(axis: Axis) -> float:
    """How high an axis of windows goes, in bytes."""
    return axis.top * (1.06 if axis.top > axis.knee else ROOM)


def window_key(picture: Picture) -> list[Artist]:
    """The key of all windows: what is in sight."""
    def is_in_sight(view: FlowView, axis: Axis) -> bool:
        times, values = within(view.run.times, view.run.ssthresh, picture.until(view))
        return bool((values[times <= view.until] <= top_of(axis)).any())
    color, several = picture.key_color(), len(picture.flows) > 1
    key = [Line2D([], [], color=color, lw=2.2, label='cwnd, in its flow\'s colour' if several else 'cwnd')]
    if any(picture.in_sight(recoveries(view)) for view in picture.flows):
        key.append(Line2D([], [], color=muted(color), lw=1.2, label='cwnd in recovery'))
    if any(is_in_sight(view, axis) for view, (axis, _) in zip(picture.flows, window_axes(picture))):
        above = sorted(set(first_thresholds(picture)))
        told = len(above) == 1 and above[0] < FAR * max(axis.top for axis, _ in window_axes(picture))
        more = f' (first above: {bytes_text(above[0])})' if told else ' (first above)' if above else ''
        key.append(Line2D([], [], color=SSTHRESH, ls='--', lw=1.2, label=f'ssthresh{more}'))
    windows = [view.run.flow.rwnd for view in picture.flows if binds(view, picture)]
    if windows:
        where = f', {bytes_text(max(windows))}' if len(windows) == len(picture.flows) else ' where it binds'
        key.append(Line2D([], [], color=RECEIVER, ls='-.', label=f'receiver\'s window{where}'))
    key.append(Patch(color=IN_FLIGHT, label='in flight'))
    if any(is_complete(picture, view) for view in picture.flows):
        key.append(Line2D([], [], color=color, **COMPLETE, label='all is acknowledged'))
    return key + span_key(picture) + loss_key(picture)


def windows_panel(picture: Picture, axes: Axes, views: Sequence[FlowView], width: float) -> None:
    """The windows of several flows in one panel, a curve each; the timeouts and recoveries of none."""
    axis = axis_of([heights_of(picture, view) for view in views], [True] * len(views), picture.tops.get('window', 0))
    scale, unit = byte_unit(axis.knee)
    for at, view in enumerate(views):
        picture.curve(axes, view, view.run.times, view.run.cwnd, scale, **{'lw': 1.6, **series(at)})
    set_heights(axes, axis, scale, 6)
    axes.set_ylabel(unit)
    key_above(axes, 'congestion windows', [Line2D([], [], label=view.name, **series(at)) for at, view in enumerate(views)],
              width)


# ---- sequence numbers

def sequence_ranges(picture: Picture) -> list[tuple[int, int]]:
    """Of each flow the least and the greatest byte number in sight."""
    ranges = []
    for view in picture.flows:
        flow = view.run
        una = picture.seen([flow.flow.start, *flow.una_times], [0, *flow.una])
        greatest = max([1] + [loss.number for loss in lost(picture, view)])
        for seen in (picture.seen(flow.una_times, flow.una), picture.seen(flow.next_times, flow.next),
                     dots(flow.sent_times, flow.sent, picture.window)[1],
                     dots(flow.again_times, flow.again, picture.window)[1]):
            greatest = max(greatest, int(seen.max()) if len(seen) else 0)
        ranges.append((int(una[0]) if len(una) else 0, greatest))
    return ranges


def sequence_limits(picture: Picture) -> list[tuple[int, int, str | None]]:
    """Of each flow the least and the greatest byte number of its axis, and what is to be said of it. All have the same
    axis; where flows are far apart, as in a part of a run, the same scale from where each is."""
    ranges = sequence_ranges(picture)
    spans = [top - least for least, top in ranges]
    shared = [span == max(spans) for span in sharing(spans)]
    least, top = (pick(its[at] for its, common in zip(ranges, shared) if common) for at, pick in enumerate((min, max)))
    if top - least <= APART * max(spans):
        return [(least, top, None) if common else (*its, OWN) for its, common in zip(ranges, shared)]
    return [(its[0], its[0] + max(spans), 'the same scale') if common else (*its, OWN)
            for its, common in zip(ranges, shared)]


def sequence_panel(picture: Picture, axes: Axes, view: FlowView, heading: list, width: float, in_full: bool = True) -> None:
    """Bytes sent, received and acknowledged. The heading is the title and what is said of the flow."""
    flow = view.run
    least, greatest, note = sequence_limits(picture)[view.number]
    scale, unit = byte_unit(greatest)
    mark_spans(picture, axes, view, None if picture.first in (None, 'sequence') else {}, gap=AGAIN['ms'] - 1)
    begin, count = [flow.flow.start], len(flow.sent)
    picture.points(axes, flow.sent_times, flow.sent, scale, marker='.', ms=8 if count < 20 else 6 if count < 400 else 2,
                   color=picture.color_of(view), zorder=3.85)
    picture.curve(axes, view, begin + list(flow.next_times), [0] + list(flow.next), scale, **RECEIVED)
    picture.curve(axes, view, begin + list(flow.una_times), [0] + list(flow.una), scale, **ACKNOWLEDGED)
    picture.points(axes, *duplicates(picture, view), scale, **DUPLICATE)
    picture.points(axes, flow.delack_times, flow.delacks, scale, **HELD_BACK)
    missed = [*lost(picture, view), *lost(picture, view, acks=True)]
    mark_lost(picture, axes, view, missed, lambda loss: loss.number / scale, 9 if len(missed) < 20 else 5.5)
    picture.points(axes, flow.again_times, flow.again, scale, zorder=3.7,
                   **{**AGAIN, 'ms': AGAIN['ms'] if len(flow.again) < FEW else 5})
    span = max(1, greatest - least)
    axes.set_ylim((least - .05 * span) / scale, (greatest + .08 * span) / scale)
    axes.yaxis.set_major_locator(MaxNLocator(7, steps=WHOLE_STEPS))
    axes.set_ylabel('byte number' + ('' if scale == 1 else f', {unit}'))
    if in_full:
        name_lost(picture, axes, missed, scale, span / scale)
    key_above(axes, heading[0], [], width, [*heading[1:], note])


def duplicates(picture: Picture, view: FlowView) -> tuple[np.ndarray, np.ndarray] | tuple[tuple[()], tuple[()]]:
    """The duplicate acknowledgements in sight, if they are not too many: when they came, and their number."""
    times = duplicate_times(view.run)
    times = times[(times >= picture.window[0]) & (times <= picture.until(view)[1])]
    if not 0 < len(times) <= MOST_DUPLICATES:
        return (), ()
    return times, np.asarray([0, *view.run.una])[np.searchsorted(np.asarray(view.run.una_times), times)]


def sequence_key(picture: Picture) -> list[Artist]:
    """The key of the marks of sequence panels."""
    sent = 'sent, in its flow\'s colour' if len(picture.flows) > 1 else 'sent'
    key = [Line2D([], [], color=picture.key_color(), marker='.', ls='none', label=sent),
           Line2D([], [], label='received in order', **RECEIVED), Line2D([], [], label='acknowledged', **ACKNOWLEDGED)]
    if any(len(duplicates(picture, view)[0]) for view in picture.flows):
        key.append(Line2D([], [], **DUPLICATE, ls='none', label='duplicate ack'))
    held = {view.run.flow.delack for view in picture.flows for time in view.run.delack_times if picture.sees(time)}
    if held:
        key.append(Line2D([], [], **HELD_BACK, ls='none',
                          label=f'ack that was held back for {" or ".join(map(length_text, sorted(held)))}'))
    if any(picture.sees(time) for view in picture.flows for time in view.run.again_times):
        key.append(Line2D([], [], ls='none', **AGAIN))
    return key + loss_key(picture, acks=True) + span_key(picture)


# ---- progress

def progress_panel(picture: Picture, axes: Axes, views: Sequence[FlowView], width: float, title: str | None = None) -> None:
    """All flows' acknowledged bytes in one panel: who gets how much, and who is done when."""
    seen = [picture.seen([view.run.flow.start, *view.run.una_times], [0, *view.run.una]) for view in views]
    least = min((int(una[0]) for una in seen if len(una)), default=0)
    greatest = max([picture.tops.get('progress', 1), *(int(una.max()) for una in seen if len(una))])
    scale, unit = byte_unit(greatest)
    for at, view in enumerate(views):
        flow = view.run
        picture.curve(axes, view, [flow.flow.start] + list(flow.una_times), [0] + list(flow.una), scale,
                      **{'lw': 1.8, **series(at)})
        if is_complete(picture, view):
            axes.plot([picture.clock.x(flow.completed)], [flow.last_una / scale], marker='o', ms=5,
                      ls='none', color=series(at)['color'])
    labels = progress_labels(picture, views, seen)
    if any(text_width(label, KEY_SIZE) > label_room(width) for label in labels):
        labels = progress_labels(picture, [view._replace(trip='') for view in views], seen)     # windows' titles have it
    key = [Line2D([], [], label=label, **{'lw': 1.8, **series(at)}) for at, label in enumerate(labels)]
    if picture.others:
        key.append(Line2D([], [], label=f'{len(picture.others):,} other{"s" * (len(picture.others) > 1)}', **OTHERS))
    for view in picture.others:
        picture.curve(axes, view, [view.run.flow.start, *view.run.una_times], [0, *view.run.una], scale, **OTHERS)
    axes.set_ylabel(unit)
    span = max(1, greatest - least)
    axes.set_ylim((least - .03 * span) / scale, (greatest + .06 * span) / scale)
    names = {view.run.flow.name for view in views}
    of_whom = PANELS['progress'] if len(names) > 1 else f'bytes acknowledged of flow {names.pop()}'
    key_above(axes, title or of_whom, key, width)


def progress_labels(picture: Picture, views: Sequence[FlowView], seen: Sequence[np.ndarray]) -> list[str]:
    """What the key says of each flow: its name and round trip, and how long it took, or how many bytes it has. `seen` has of each
    what is acknowledged in sight."""
    labels = []
    for view, una in zip(views, seen):
        flow, label = view.run, f'{view.name}, {view.trip}:' if view.trip else view.name
        if is_complete(picture, view):
            label += f'{"" if view.trip else ","} done in {length_text(flow.completed - flow.flow.start)}'
        elif len(una) and flow.completed is None:
            label += f' {bytes_text(int(una[-1] - una[0]))}'
        labels.append(label)
    return labels
