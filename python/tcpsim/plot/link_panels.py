"""Panels of links: the queue, the delay of packets and its distribution, the utilization."""
from __future__ import annotations

from collections.abc import Callable, Sequence

import numpy as np
from matplotlib.axes import Axes
from matplotlib.axis import Axis
from matplotlib.lines import Line2D
from matplotlib.patches import Patch
from matplotlib.ticker import FixedLocator, FuncFormatter, Locator, MaxNLocator, NullLocator

from tcpsim.looks import LINKS, PANELS
from tcpsim.traces.curves import LinkRun
from tcpsim.traces.reader import ACK

from .broken import draw_break
from .losses import mark_row, rows_apart
from .picture import MOST_FLOWS, FlowView, LinkView, Picture
from .points import BANDS, bins, busy_parts, dots, envelope, is_dense
from .style import (NOTE, OF_ACKS, SIGNS, STEPS, TITLE_SIZE, delay_unit, key_above, pale, series, sign_look,
                    sign_of)

BREAK = .35, .65        # of a logarithmic axis that has 0 too, where it is broken


def link_lines(picture: Picture, links: Sequence[LinkView]) -> list[Line2D]:
    """The key's lines, one a link."""
    return [Line2D([], [], label=view.name, **picture.look_of(view)) for view in links]


# ---- the queue

def queue_panel(picture: Picture, axes: Axes, links: Sequence[LinkView], width: float, named: bool | list) -> int:
    """How many packets wait, and at a single link also whose. `named` says whether the key names the links, or is the panel's own
    heading: its title and what is said of the one link. Answers how many rows of signs there are."""
    heading = named if isinstance(named, list) else [PANELS['queue']]
    greatest = max([picture.tops.get('queue', 1), *(length for view in picture.links
                                                    for length in picture.seen(view.run.queue_times, view.run.queue))])
    key = link_lines(picture, links) if named and named is not heading else []
    by_flow = flows_at(picture, links)
    parts = by_flow if by_flow and whole(links[0].run) else []
    for flow in parts:
        acks = 'acks of ' if flow.run.number in links[0].acks else ''
        key.append(Patch(color=pale(picture.color_of(flow)), label=acks + flow.name))
    if parts:
        draw_parts(picture, axes, links[0], parts)
    for view in links:
        link, look = view.run, series(0, LINKS) if parts else picture.look_of(view)
        if is_envelope(picture, view):
            draw_envelope(picture, axes, view, look['color'], not parts)
        else:
            picture.curve(axes, view, [0, *link.queue_times], [0, *link.queue], 1, **look)
    if any(is_envelope(picture, view) for view in links):
        note = 'mean' if parts else 'mean, with the least and the greatest'
        heading = [heading[0], [*heading[1], note] if len(heading) > 1 else note]
    drops, rows = mark_drops(picture, axes, links, by_flow, greatest, width)
    if by_flow and not parts:
        drops += drop_counts(picture, links[0], by_flow)
    axes.set_ylim(0, greatest * (1.12 + picture.row * rows) + .5)
    axes.yaxis.set_major_locator(Up(greatest, MaxNLocator(6, integer=True, steps=STEPS)))
    axes.set_ylabel('packets')
    key_above(axes, heading[0], key + drops, width, heading[1:])
    return rows


def flows_at(picture: Picture, links: Sequence[LinkView]) -> list[FlowView]:
    """The flows that are told apart at a link: at a single one, of a single run, those of which packets came to it, if they are
    several, few, and all of them in the picture."""
    if len(links) > 1 or picture.beside:
        return []
    came = {*links[0].run.taken_of, *(flow for _, _, flow, *_ in links[0].run.drops)}
    found = [view for view in picture.flows if view.run.number in came]
    return found if 1 < len(found) == len(came) <= MOST_FLOWS else []


def whole(link: LinkRun) -> bool:
    """Whether of each packet that waited it is known how long: none was dropped out of the queue."""
    return all(reason in ('full', 'lost') for _, reason, *_ in link.drops)


def draw_parts(picture: Picture, axes: Axes, view: LinkView, flows: Sequence[FlowView]) -> None:
    """Whose packets wait: an area for each flow, one on another."""
    times, counts = waiting_of(view.run, [flow.run.number for flow in flows])
    begin, end = picture.until(view)
    dense = is_envelope(picture, view)
    edges = np.array([edge for edge in picture.clock.edges(BANDS) if edge <= end], dtype=np.int64) if dense else \
        np.unique(np.concatenate(([begin], times[(times > begin) & (times < end)], [end])))
    if len(edges) < 2:
        return
    below, x = np.zeros(len(edges) - 1), picture.clock.x(edges)
    for flow, count in zip(flows, counts):
        top = below + envelope(times, count, edges)[2]
        axes.stairs(top, x, baseline=below, fill=True, color=pale(picture.color_of(flow)), lw=0)
        below = top


def waiting_of(link: LinkRun, flows: Sequence[int]) -> tuple[np.ndarray, list[np.ndarray]]:
    """When packets began to wait or to be sent, in ns, and of each flow how many wait from there on."""
    left, waits, of = (np.asarray(values, dtype=np.int64) for values in (link.wait_times, link.waits, link.taken_of))
    still = np.asarray([(stream.flow, entered) for _, stream, entered in link.waiting], dtype=np.int64).reshape(-1, 2)
    entered, came = np.concatenate((left - waits, still[:, 1])), np.concatenate((of, still[:, 0]))
    times = np.unique(np.concatenate(([0], entered, left)))
    return times, [np.searchsorted(np.sort(entered[came == flow]), times, side='right') -
                   np.searchsorted(np.sort(left[of == flow]), times, side='right') for flow in flows]


class Up(Locator):
    """Ticks up to a value and none above it."""

    def __init__(self, greatest: float, inner: Locator):
        super().__init__()
        self.greatest, self.inner = greatest, inner

    def __call__(self) -> np.ndarray:
        return self.tick_values(*self.axis.get_view_interval())

    def tick_values(self, vmin: float, vmax: float) -> np.ndarray:
        """The inner locator's ticks between two values, but for those above the greatest."""
        ticks = np.asarray(self.inner.tick_values(vmin, vmax))
        return ticks[ticks <= 1.05 * self.greatest + .5]


def is_envelope(picture: Picture, view: LinkView) -> np.bool_:
    """Whether a queue changes too often for a curve."""
    return is_dense(view.run.queue_times, picture.window)


def draw_envelope(picture: Picture, axes: Axes, view: LinkView, color: str, with_band: bool) -> None:
    """A queue that changes too often for a curve: a band from the least to the greatest, and the mean."""
    begin, end = picture.until(view)
    edges = [edge for edge in picture.clock.edges(BANDS) if edge <= end]
    if len(edges) < 2:
        return
    least, greatest, mean = envelope([0, *view.run.queue_times], [0, *view.run.queue], edges)
    x = picture.clock.x(edges)
    if with_band:
        axes.stairs(greatest, x, baseline=least, fill=True, color=color, alpha=.3, lw=0)
    axes.stairs(mean, x, baseline=None, color=color, lw=1.2)


def mark_drops(picture: Picture, axes: Axes, links: Sequence[LinkView], flows: Sequence[FlowView], greatest: float,
               width: float) -> tuple[list[Line2D], int]:
    """Signs for the packets that were dropped in sight, in rows above the queue: one for each flow where flows are told apart,
    else one for each link, in its colour where there are several; and more where signs of two sorts would meet. Answers the
    key's entries, and how many rows there are."""
    several, reasons, found = len(links) > 1, list(SIGNS), {}
    whose = [(view, flow) for view in links for flow in flows or [None]]
    for view, flow in whose:
        for time, reason, of, sort, _ in view.run.drops:
            if picture.sees(time) and (flow is None or flow.run.number == of):
                found.setdefault((view, flow), {}).setdefault((reasons.index(reason), sort == ACK), []).append(time)
    rows, counts = [(*each, row) for each in whose for row in rows_apart(picture, found.get(each, {}), width)], {}
    for at, (view, flow, row) in enumerate(rows):
        for (reason, is_ack), times in row.items():
            own = picture.color_of(flow) if flow else picture.look_of(view)['color'] if several else None
            color = own or (OF_ACKS if is_ack else SIGNS[reasons[reason]][1])
            mark_row(picture, axes, times, greatest * (1.07 + picture.row * (at + .5)), width, color=color,
                     **sign_look(reasons[reason], is_ack))
            entry = reason, is_ack, '#000000' if flow else color, view.name if several else ''
            counts[entry] = counts.get(entry, 0) + len(times)
    return [sign_of(reasons[at], is_ack, color, name, None if picture.beside else count)
            for (at, is_ack, color, name), count in sorted(counts.items(), key=lambda entry: entry[0][:2])], len(rows)


def drop_counts(picture: Picture, view: LinkView, flows: Sequence[FlowView]) -> list[Line2D]:
    """The key's entries of whose packets were dropped in sight."""
    counts = {flow: sum(of == flow.run.number and picture.sees(time) for time, _, of, *_ in view.run.drops) for flow in flows}
    return [Line2D([], [], ls='none', marker='s', ms=7, color=picture.color_of(flow), label=f'{count:,} of {flow.name}')
            for flow, count in counts.items() if count]


# ---- the delay

def delays(picture: Picture, view: LinkView) -> tuple[np.ndarray, np.ndarray]:
    """Of each packet that entered in sight and was sent: when it entered, and how long it waited, in ns."""
    waits = np.asarray(view.run.waits, dtype=np.int64)
    entered = np.asarray(view.run.wait_times, dtype=np.int64) - waits
    seen = (entered >= picture.window[0]) & (entered <= picture.window[1])
    return entered[seen], waits[seen]


def delay_panel(picture: Picture, axes: Axes, links: Sequence[LinkView], width: float, named: bool) -> None:
    """How long packets waited."""
    found = [delays(picture, view) for view in links]
    greatest = max([picture.tops.get('delay', 0), *(int(waits.max()) for _, waits in found if len(waits))])
    scale, unit = delay_unit(min(greatest, 10**9) if picture.log else greatest)
    greatest = greatest or scale
    few = sum(len(waits) for _, waits in found) < 400
    for view, (entered, waits) in zip(links, found):
        times, values = dots(entered, waits, picture.window)
        if len(times):
            axes.plot(picture.clock.x(times), values / scale, marker='.', ms=6 if few else 3,
                      rasterized=len(times) > 400, clip_on=False, **{**picture.look_of(view), 'ls': 'none'})
    top = (1.5 if picture.log else 1.12) * greatest
    for target in {view.run.link.target for view in links if view.run.link.queue == 'codel' and view.run.link.target <= top}:
        axes.axhline(target / scale, color='#000000', lw=.8, ls=':')
        axes.annotate('target', (1, target / scale), xycoords=('axes fraction', 'data'), xytext=(2, 0), textcoords='offset points',
                      va='top' if target > .9 * top else 'center', fontsize=NOTE)
    if picture.log:
        log_axis(axes.set_yscale, axes.yaxis, greatest / scale)
        axes.set_ylim(-.3, top / scale)
        draw_break(axes, *BREAK)
    else:
        axes.set_ylim(-.04 * greatest / scale, top / scale)
    axes.set_ylabel(f'{unit}, logarithmic' if picture.log else unit)
    dotted = [Line2D([], [], label=view.name, marker='.', ms=9, **{**picture.look_of(view), 'ls': 'none'}) for view in links]
    key_above(axes, PANELS['delay'], dotted if named else [], width,
              ['at the moment when it entered'])


def log_axis(set_scale: Callable[..., None], axis: Axis, greatest: float) -> None:
    """A logarithmic axis that has 0 too, below 1."""
    set_scale('symlog', linthresh=1, linscale=.4)
    axis.set_major_locator(FixedLocator([0] + [10**n for n in range(7) if 10**n <= greatest]))
    axis.set_minor_locator(NullLocator())
    axis.set_major_formatter(FuncFormatter(lambda value, _: f'{value:,g}'))


def delay_cdf_panel(picture: Picture, axes: Axes, links: Sequence[LinkView], width: float, _named: bool) -> None:
    """How many percent of the packets waited at most so long: an axis of its own, and no time."""
    found = [np.sort(delays(picture, view)[1]) for view in links]
    greatest = max([0, *(int(waits[-1]) for waits in found if len(waits))])
    scale, unit = delay_unit(min(greatest, 10**9) if picture.log else greatest)
    greatest = greatest or scale
    key = []
    for view, waits in zip(links, found):
        if not len(waits):
            key.append(Line2D([], [], label=f'{view.name}: no packet', **picture.look_of(view)))
            continue
        values, last = np.unique(waits, return_index=False, return_counts=True)
        axes.step(np.concatenate(([0], values)) / scale, np.concatenate(([0], np.cumsum(last))) * 100 / len(waits),
                  where='post', lw=1.4, **picture.look_of(view))
        middle, tail = (waits[-(-len(waits) * percent // 100) - 1] / scale for percent in (50, 99))
        key.append(Line2D([], [], label=f'{view.name}: median {middle:,.4g}, 99th percentile {tail:,.4g} {unit}',
                          **picture.look_of(view)))
    if picture.log:
        log_axis(axes.set_xscale, axes.xaxis, greatest / scale)
    axes.set_xlim(-.02 * greatest / scale if not picture.log else -.1, 1.03 * greatest / scale)
    axes.set_ylim(0, 102)
    axes.set_yticks((0, 25, 50, 75, 100))
    axes.set_ylabel('% of packets')
    axes.set_xlabel(f'at most this delay in the queue, {unit}', fontsize=TITLE_SIZE)
    key_above(axes, 'distribution of the delay in the queue', key, width)


# ---- the utilization

def utilization_panel(picture: Picture, axes: Axes, links: Sequence[LinkView], width: float, named: bool) -> None:
    """Which part of the time a link is busy."""
    count = max(bins(view.run) for view in links)
    whole = picture.clock.edges(count)
    for view in links:
        edges = [edge for edge in whole if edge <= view.until]
        if len(edges) < 2:
            continue
        _, parts = busy_parts(view.run, picture.window, np.asarray(edges))
        axes.stairs(100 * parts, picture.clock.x(edges), lw=1.6, baseline=None, **picture.look_of(view))
        if len(links) == 1:
            axes.stairs(100 * parts, picture.clock.x(edges), fill=True, alpha=.2, **picture.look_of(view))
    bin_width = (whole[1] - whole[0]) / picture.clock.scale
    axes.set_ylim(0, 105)
    axes.set_yticks((0, 25, 50, 75, 100))
    axes.set_ylabel('%')
    key_above(axes, f'utilization, in steps of {bin_width:.3g} {picture.clock.unit}',
              link_lines(picture, links) if named else [], width)
