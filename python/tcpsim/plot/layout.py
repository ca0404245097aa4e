"""The whole picture: its title and the key of the flows, below them flows to the left and links to the right."""
from __future__ import annotations

import math
from collections.abc import Sequence

import numpy as np
from matplotlib.axes import Axes
from matplotlib.figure import Figure, FigureBase

from tcpsim.looks import PANELS as WORDS
from tcpsim.scenario.text import Unreadable

from .flow_panels import progress_panel, sequence_key, sequence_panel, window_key, window_panel
from .labels import leave_out, place_labels, turn_timers
from .link_panels import delay_cdf_panel, delay_panel, is_envelope, queue_panel, utilization_panel
from .losses import loss_rows, lost
from .picture import FlowView, Picture
from .spans import MOST_IN_FULL
from .style import (HEAD, KEY, LINE, NOTE, TICKS, TITLE_SIZE, columns_that_fit, filled, link_words, new_figure, wrapped)
from .timers import timer_key, timer_panel

FLOW_PANELS = ('window', 'sequence', 'timer')
LINK_PANELS = ('queue', 'delay', 'delay-cdf', 'utilization')
PANELS = FLOW_PANELS + LINK_PANELS + ('progress',)
FIRST_CHOICE = ('window', 'sequence', 'queue', 'delay', 'utilization')
OF_MANY = ('window', 'queue', 'delay', 'utilization', 'progress')       # of more flows than are told in full
DRAWING = {'queue': queue_panel, 'delay': delay_panel, 'delay-cdf': delay_cdf_panel, 'utilization': utilization_panel}
KEYS = {'window': window_key, 'sequence': sequence_key, 'timer': timer_key}
# Of each panel of a flow what draws it, what its title says, and how many inches it is high at least, in full and of many flows.
OF_FLOWS = {'window': (window_panel, WORDS['window'], (1.5, 1.25)), 'sequence': (sequence_panel, WORDS['sequence'], (1.5, 1.25)),
            'timer': (timer_panel, 'retransmission timer', (.9, .9))}
# In inches: how high a panel of all flows is at least, and a link's; what each row of signs adds; how wide a picture is, how high
# at least, and while it is measured; what is free around the head, and what the layout leaves between two rows.
OF_ALL, OF_LINK, SIGN_ROW, WIDE, LEAST_HIGH, TALL, MARGIN, BETWEEN = 1.2, 1, .16, 10, 7, 40, .06, .15
ROW = .18               # how high a row of signs above a queue is, as a part of the queue's axis
SIDES = 62              # points of a part's width that lie beside its panels
MOST_LINK_PANELS = 6    # to the right
ABOVE_LEFT = -5, 5      # of a curve that rises what is free
POINTS = 72
TEXT_LINE = 1.2         # from one line of a text to the next, as a part of its letters' size


def draw(picture: Picture, panels: Sequence[str], title: str) -> Figure:
    """The figure with these panels, of PANELS, or without any with those of the first choice, and as high as they want it;
    `Unreadable` where the picture has nothing for any of them."""
    panels = panels or (FIRST_CHOICE if len(picture.flows) <= MOST_IN_FULL else OF_MANY)
    flow_panels = [panel for panel in FLOW_PANELS if panel in panels and picture.flows]
    link_panels = [panel for panel in LINK_PANELS if panel in panels and picture.links]
    link_panels += ['progress'] if 'progress' in panels and picture.flows else []
    if not flow_panels and not link_panels:
        raise Unreadable('there is nothing to draw')
    figure, high = new_figure(figsize=(WIDE, TALL), layout='constrained'), []
    if not flow_panels or not link_panels:
        parts, widths = [figure.subfigures(1, 1)], (1, 1)
    else:
        parts, widths = figure.subfigures(1, 2, width_ratios=(3, 2), wspace=.02), (.6, .4)
    if flow_panels:
        high.append(draw_flows(picture, parts[0], flow_panels, WIDE * widths[0] * POINTS - SIDES, not link_panels))
    if link_panels:
        high.append(draw_links(picture, parts[-1], link_panels, WIDE * widths[1] * POINTS - SIDES))
    draw_head(picture, figure, title, flow_panels, max(high), LEAST_HIGH if flow_panels else 2 + 2 * len(link_panels))
    put_labels(picture, figure)
    return figure


def draw_head(picture: Picture, figure: Figure, title: str, panels: Sequence[str], below: float, least: float) -> None:
    """Draws the title and the key of the flows' panels, which has each entry once, and gives the figure the height that these want
    and the panels below them, or the least; both in inches."""
    width = WIDE * POINTS - 40
    lines, key = wrapped(title, width, HEAD, 'bold'), {}
    for panel in panels:
        for handle in KEYS[panel](picture):
            key.setdefault(handle.get_label(), handle)
    columns = columns_that_fit(list(key), width)
    ends = np.cumsum([MARGIN, len(lines) * HEAD * TEXT_LINE / POINTS, len(picture.left_out) * TEXT_LINE * NOTE / POINTS,
                      math.ceil(len(key) / columns) * LINE / POINTS + MARGIN])
    high = max(least, ends[-1] + below)
    figure.set_size_inches(WIDE, high)
    figure.get_layout_engine().set(rect=(0, 0, 1, 1 - ends[-1] / high))
    tops = 1 - ends / high
    figure.suptitle('\n'.join(lines), y=tops[0], va='top', fontsize=HEAD, fontweight='bold').set_in_layout(False)
    if picture.left_out:
        figure.text(.5, tops[1], '\n'.join(picture.left_out), ha='center', va='top', fontsize=NOTE, color='#444444')
    if key:
        figure.legend(handles=list(key.values()), loc='upper center', bbox_to_anchor=(.5, tops[2]), ncol=columns, **KEY)


def height_of(figure: FigureBase, rows: Sequence[tuple]) -> float:
    """How many inches rows of panels want. Each has its panels and how high they are at least, without what is above and below."""
    renderer = figure.canvas.get_renderer()
    return sum(inches + BETWEEN + max(axes.get_tightbbox(renderer).height - axes.bbox.height for axes in row) / figure.dpi
               for row, inches in rows)


def put_labels(picture: Picture, figure: Figure) -> None:
    """Gives labels their places, once it is known where the panels are."""
    figure.draw_without_rendering()
    renderer = figure.canvas.get_renderer()
    for axes, labels in picture.timers.items():
        turn_timers(axes, labels, [right for _, _, right, _ in picture.clock.cut_boxes(axes)])
    for axes, labels in picture.labels.items():
        others = [text.get_window_extent(renderer).extents for text in axes.texts if text not in labels]
        place_labels(axes, labels, [*others, *picture.clock.cut_boxes(axes)], ABOVE_LEFT)
    for axes in figure.get_axes():
        leave_out(axes, [*picture.timers.get(axes, ()), *picture.labels.get(axes, ())])


# ---- flows

def draw_flows(picture: Picture, figure: FigureBase, panels: Sequence[str], width: float, alone: bool) -> float:
    """Few flows: each panel for each of them. Many: a window and a timer each, and one panel of the bytes of all. Without links
    beside them they have two columns. The width is in points; answers the height that they want, in inches."""
    views, picture.first = picture.flows, panels[0]
    in_full = len(views) <= MOST_IN_FULL
    across = 1 if not alone or len(views) in (1, 3) or (in_full and len(panels) == 1) else 2
    wide = width if across == 1 else width / 2 - SIDES / 2
    rows = flow_rows(picture, panels, math.ceil(len(views) / across), wide)
    grid, drawn = figure.add_gridspec(len(rows), across, height_ratios=[inches for *_, inches in rows]), []
    for at, (panel, row, inches) in enumerate(rows):
        if panel == 'progress':
            axes = figure.add_subplot(grid[at, :])
            progress_panel(picture, axes, views, width)
            finish(picture, axes, True, width)
            drawn.append(([axes], inches))
            continue
        numbers = range(row * across, min(len(views), (row + 1) * across))
        drawn.append(([figure.add_subplot(grid[at, place]) for place in range(len(numbers))], inches))
        for axes, number in zip(drawn[-1][0], numbers):
            told = views[number], views[number].notes if panel == panels[0] else ()
            flow_panel(picture, axes, panel, told, wide)
            lowest = at == len(rows) - 1 or (not in_full and number + across >= len(views))
            finish(picture, axes, lowest, width / across - 20)
    return height_of(figure, drawn)


def flow_rows(picture: Picture, panels: Sequence[str], down: int, width: float) -> list[tuple[str, int, float]]:
    """Each row's panel, its row among those of its kind, and its least height in inches. The panels of flows are `down` rows,
    each panel so wide (points)."""
    rows, many = [], len(picture.flows) > MOST_IN_FULL
    signs = SIGN_ROW * (max(len(loss_rows(picture, lost(picture, view), width)) for view in picture.flows) - 1)
    for panel in panels:
        if panel == 'sequence' and many:
            rows.append(('progress', 0, OF_ALL))
        else:
            rows += [(panel, row, OF_FLOWS[panel][2][many] + signs * (panel == 'window')) for row in range(down)]
    return rows


def flow_panel(picture: Picture, axes: Axes, panel: str, told: tuple, width: float) -> None:
    """Draws a panel of a flow. `told` is the flow and what is said of it."""
    drawing, what, _ = OF_FLOWS[panel]
    view, notes = told
    in_full, name = len(picture.flows) <= MOST_IN_FULL, name_of(picture, view)
    drawing(picture, axes, view, [f'{name}: {what}' if in_full else name, *notes], width, in_full)


def name_of(picture: Picture, view: FlowView) -> str:
    """A flow as its panel's title names it."""
    name = view.name if picture.beside else f'flow {view.name}'
    return f'{name}, {view.trip}' if view.trip else name


# ---- links

def draw_links(picture: Picture, figure: FigureBase, panels: Sequence[str], width: float) -> float:
    """Draws the panels of links, those that all share or one for each; answers the height that they want, in inches."""
    parts, picture.row = link_parts(picture, panels), ROW
    all_axes = np.atleast_1d(figure.subplots(len(parts), 1))
    timed = [axes for (panel, _), axes in zip(parts, all_axes) if panel != 'delay-cdf']
    shared = [axes for (panel, links), axes in zip(parts, all_axes) if panel in LINK_PANELS and len(links) == len(picture.links)]
    named, heights = shared[0] if shared else None, []
    for (panel, links), axes in zip(parts, all_axes):
        if panel == 'progress':
            signs = progress_panel(picture, axes, picture.flows, width)
        elif len(links) < len(picture.links):
            view, = links
            heading = [f'packets that wait at {view.name}', *([] if shared else [[view.note, *link_words(view.run.link)]])]
            signs = queue_panel(picture, axes, links, width, heading)
        else:
            signs = DRAWING[panel](picture, axes, links, width, len(links) > 1 and axes is named)
        heights.append((OF_ALL if panel == 'progress' else OF_LINK) + SIGN_ROW * (signs or 0))
        if panel == 'delay-cdf':
            common_look(axes)
        else:
            finish(picture, axes, axes is timed[-1], width)
    all_axes[0].get_gridspec().set_height_ratios(heights)
    lines = caption(picture, width + 40) if shared else []
    if lines:
        figure.suptitle('\n'.join(lines), fontsize=NOTE, linespacing=1.12)
    return height_of(figure, [([axes], inches) for axes, inches in zip(all_axes, heights)]) + len(lines) * LINE / POINTS + BETWEEN


def link_parts(picture: Picture, panels: Sequence[str]) -> list:
    """Each panel and the links that it shows: all, but queues that change too often for curves lie in a panel each, if the
    panels are few enough."""
    links, parts = picture.links, []
    apart = 1 < len(links) <= MOST_LINK_PANELS + 1 - len(panels) and any(is_envelope(picture, view) for view in links)
    for panel in panels:
        parts += [(panel, [view]) for view in links] if panel == 'queue' and apart and not picture.beside else [(panel, links)]
    return parts


def caption(picture: Picture, width: float) -> list[str]:
    """What the links are, in lines; in the picture of one run also who uses them."""
    before = '' if picture.beside else 'link '
    lines = []
    for view in picture.links:
        first, *others = link_words(view.run.link)
        lines += filled([f'{before}{view.name}: {first}', *others], width)
        lines += filled([view.note], width) if not picture.beside else []
    return lines


# ---- what all panels have

def finish(picture: Picture, axes: Axes, lowest: bool, width: float) -> None:
    """The axis of time of a panel so wide (points); named and numbered at the lowest panel."""
    common_look(axes)
    picture.clock.set(axes, width)
    picture.clock.mark_cuts(axes)
    axes.tick_params(labelbottom=lowest)
    if lowest:
        axes.set_xlabel(f'time, {picture.clock.unit}{picture.part}', fontsize=TITLE_SIZE)


def common_look(axes: Axes) -> None:
    """Sets what all panels have."""
    axes.grid(True, color='#DDDDDD', lw=.6)
    axes.set_axisbelow(True)
    axes.tick_params(labelsize=TICKS)
    axes.yaxis.label.set_size(TITLE_SIZE)
