"""Draws a sweep: wait against utilization, or one figure against another or against a setting's values; of replicates their means with
intervals, their distribution or boxes. Rows of panels are the first setting, columns the others. Wants matplotlib."""
from __future__ import annotations

import itertools
from collections.abc import Iterable, Sequence
from typing import NamedTuple

from matplotlib.axes import Axes
from matplotlib.figure import Figure
from matplotlib.layout_engine import ConstrainedLayoutEngine
from matplotlib.ticker import FixedLocator, FuncFormatter, MaxNLocator, NullLocator

from tcpsim.plot.labels import leave_out, place_labels
from tcpsim.plot.style import BLUE, KEY_SIZE, RUST, TICKS, TITLE_SIZE, new_figure, series, text_width, wrapped
from tcpsim.scenario.units import spelled_time
from tcpsim.sweeps.columns import SHOWN
from tcpsim.sweeps.look import Look, places_of
from tcpsim.sweeps.means import Mean, mean_of
from tcpsim.sweeps.pattern import OwnQueue, Setting, capacity_in
from tcpsim.sweeps.rows import Grid
from tcpsim.sweeps.shown import MS, along, columns

COLORS = {'droptail': (BLUE, 'o', 'drop-tail, packets of queue'), 'codel': (RUST, 'v', 'CoDel, target')}
MARKERS = 'ovsD^'
ACROSS = 4              # panels side by side at most where one setting is in panels
NARROW = 40             # mm of a panel below which there are fewer side by side where a size is given
PANEL = 3.6, 2.9        # inches of a panel where no size is given: across and down
TALL = .8               # of a panel with a size: its height by its width
MM = 1 / 25.4           # inches
IN_PRINT = 7            # points of letters where a size is given: what journals ask for at least
FEW = 5                 # ticks along an axis at most
LINE = 1.45             # height of a line of text by its letters' size


class Point(NamedTuple):
    """What a picture shows of a choice of values: its label, the means of its runs across and upwards, how far a thin line goes
    on across, and the runs where there are several."""

    label: str
    x: Mean
    y: Mean
    tail: float | None
    runs: list[tuple[float, float]]


def axes_of(grid: Grid) -> tuple[tuple | None, tuple]:
    """What a picture shows across and upwards: of each the name in a row, the title, and what it is divided by. Of a single
    column nothing stands across but the values."""
    if not grid.asked.columns:
        return ('wait_median_ns', '', MS), ('utilization', '', .01)
    shown = [column[:3] for column in columns(grid)[:2]]
    return (shown[0] if len(shown) == 2 else None), shown[-1]


def panels_of(grid: Grid, rows: Sequence[dict], look: Look = Look()) -> dict[tuple[tuple[str, ...], tuple[str, ...]], dict[str, list[Point]]]:
    """{(values in rows, values in columns): {line: its points}}. Values rise, BDP among them."""
    places, panels, (across, up) = places_of(grid.chosen, look), {}, axes_of(grid)
    at, across = places.at, None if look.x or look.kind == 'box' else across
    numbers = [number_of(grid, row, at) for row in rows[::grid.replicates]] if look.x else []
    scale = scale_of(grid.chosen[at])[1] if look.x else 1
    by_number = bool(numbers) and None not in numbers
    place_of = {}                       # across, where nothing is shown there: the values one after another
    for number in sorted(range(0, len(rows), grid.replicates), key=lambda number: size_of(grid, number, at)):
        point, replicates = grid.points[number], rows[number:number + grid.replicates]
        where = tuple(tuple(said(grid.chosen[n], point[n]) for n in ns)
                      for ns in ([] if places.row is None else [places.row], places.columns))
        lines, value = panels.setdefault(where, {}), point[at] if grid.chosen else ''
        place = place_of.setdefault(value, len(place_of) + 1)
        if by_number:
            place = numbers[number // grid.replicates] / scale
        runs = [(float(row[across[0]]) / across[2] if across else place, float(row[up[0]]) / up[2]) for row in replicates
                if row['status'] == 'done' and '' not in (row[up[0]], row[across[0]] if across else place)]
        if runs:
            tail = float(replicates[0]['wait_p99_ns']) / MS if across and not grid.asked.columns and grid.replicates == 1 else None
            name = line_name(grid.chosen[places.line], point[places.line]) if places.line is not None else getattr(value, 'kind', '')
            label = '' if not grid.chosen else short(grid.chosen[at], value) if look.kind == 'mean' else grid.chosen[at].label(value)
            lines.setdefault(name, []).append(
                Point(label, *(mean_of([run[n] for run in runs]) for n in (0, 1)), tail,
                      runs if grid.replicates > 1 else []))
    every = itertools.product(*(itertools.product(*([said(grid.chosen[n], value) for value in grid.chosen[n].values] for n in ns))
                                for ns in ([] if places.row is None else [places.row], places.columns)))
    return {where: panels[where] for where in every}


def said(each: Setting, value: object) -> str:
    """A value of a setting, in words."""
    return f'{each.key} = {each.label(value)}'


def line_name(each: Setting, value: object) -> str:
    """What a line is called whose points have this value."""
    return each.label(value) if each.field == 'queue' else said(each, value)


def number_of(grid: Grid, row: dict, at: int) -> float | None:
    """The number of a setting's value in a row; None where it has none."""
    titles = grid.chosen[at].titles()
    value = row.get(titles[0]) if titles else row[grid.chosen[at].key]
    return float(value) if value and value.replace('.', '', 1).isdigit() else None


def scale_of(each: Setting) -> tuple[str, float]:
    """The unit of a setting's numbers along an axis, and what they are divided by."""
    unit = each.titles()[0][len(each.key) + 1:] if each.titles() else ''
    return SHOWN[unit][:2] if unit in ('ns', 'bit_s', 'bytes') else (unit, 1)


def size_of(grid: Grid, number: int, at: int | None) -> tuple[int, ...]:
    """By what the points of a line are in order: a queue's capacity in packets, or target in ns; without a queue none."""
    if not grid.chosen or grid.chosen[at].field != 'queue' or grid.chosen[at].of_shape or isinstance(grid.points[number][at], OwnQueue):
        return ()
    queue = grid.points[number][at]
    if queue.kind == 'codel':
        return queue.target, queue.interval, queue.capacity
    return (capacity_in(grid.text(number), grid.chosen[at].names[0]) if queue.is_product else queue.capacity,)


def short(each: Setting, value: object) -> str:
    """The label of a point: of a queue its capacity or target alone, where the rest is equal for all."""
    if each.field != 'queue':
        return each.label(value)
    if value.kind == 'droptail':
        return str(value.capacity)
    others = {(queue.interval, queue.capacity, queue.maxpacket) for queue in each.values if queue.kind == 'codel'}
    return spelled_time(value.target) if len(others) == 1 else str(value).partition(':')[2]


def draw(grid: Grid, rows: Sequence[dict], look: Look = Look()) -> Figure:
    """The figure: a point for each choice of values, of wait against utilization, of the second figure that is shown against
    the first, or against the values of a setting. Of replicates it is the mean, with the intervals of both, and each run is a pale
    point; without them a thin line goes on from the median wait to the 99th percentile."""
    panels, places, letters = panels_of(grid, rows, look), places_of(grid.chosen, look), IN_PRINT if look.width else None
    title_size, key_size, tick_size = (letters or TITLE_SIZE), (letters or KEY_SIZE), (letters or TICKS)
    across = min(ACROSS, len(panels), max(1, int(look.width // NARROW)) if look.width else ACROSS)
    if places.row is not None:
        across = len({where[1] for where in panels})
    down = -(-len(panels) // max(1, across))
    width = look.width * MM if look.width else max(5.5, PANEL[0] * across)
    labels = texts_of(grid, rows, look)
    head = wrapped(labels.head, (width - .1) * 72, title_size) if labels.head else []
    entries = key_of(grid, panels, look)
    per_row = max(1, min(len(entries), int((width - .1) * 72 // (max((text_width(text, key_size) for text, _ in entries), default=1) + 34))))
    above = (len(head) * title_size + -(-len(entries) // per_row) * key_size + .5 * key_size) * LINE / 72
    height = look.height * MM if look.height else above + down * (TALL * width / across if look.width else PANEL[1]) + .3
    figure = new_figure(figsize=(width, height), layout=ConstrainedLayoutEngine(rect=(0, 0, 1, 1 - above / height)))
    all_axes = figure.subplots(max(1, down), max(1, across), sharex=look.share, sharey=look.share, squeeze=False)
    for axes, ((in_row, in_column), lines) in zip(all_axes.flat, panels.items()):
        draw_panel(axes, lines, grid, look, key_size, entries)
        row, column = divmod(list(all_axes.flat).index(axes), across)
        if places.row is None or row == 0:
            axes.set_title('\n'.join(in_column), fontsize=title_size)
        if in_row and column == across - 1:
            axes.annotate(in_row[0], (1, .5), xycoords='axes fraction', xytext=(3, 0), textcoords='offset points', rotation=270, va='center',
                          fontsize=title_size)
        axes.grid(alpha=.3)
        axes.tick_params(labelsize=tick_size, labelbottom=True, labelleft=True)
        axes.margins(.12)
    for axes in all_axes.flat[len(panels):]:
        axes.remove()
    figure.text(.01, 1 - .2 * title_size / 72 / height, '\n'.join(head), fontsize=title_size, ha='left', va='top')
    if entries:
        figure.legend([handle for _, handle in entries], [text for text, _ in entries], loc='upper left', ncols=per_row, frameon=False,
                      fontsize=key_size, borderaxespad=0, borderpad=0, handlelength=1.5, handletextpad=.5, columnspacing=1, labelspacing=.25,
                      bbox_to_anchor=(.01, 1 - (len(head) + .35) * title_size * LINE / 72 / height)).set_in_layout(False)
    figure.supxlabel(labels.below + logarithmic(axes.get_xscale() for axes in figure.axes), fontsize=title_size)
    figure.supylabel(labels.beside + logarithmic(axes.get_yscale() for axes in figure.axes), fontsize=title_size)
    figure.draw_without_rendering()
    for axes, lines in zip(all_axes.flat, panels.values()):
        scale_ticks(axes)
        if not look.x and look.kind == 'mean' and axes_of(grid)[0]:
            texts = [axes.annotate(point.label, (point.x.mean, point.y.mean), textcoords='offset points', xytext=(0, 0), fontsize=key_size,
                                   color=color_of(name, entries)) for name, points in lines.items() for point in points]
            place_labels(axes, texts)
            leave_out(axes, [])
    return figure


def logarithmic(scales: Iterable[str]) -> str:
    """What an axis' label says of its scale."""
    return ' (logarithmic)' if {'log', 'symlog'} & {*scales} else ''


class Texts(NamedTuple):
    """What stands above a picture, and along its axes."""

    head: str
    below: str
    beside: str


def texts_of(grid: Grid, rows: Sequence[dict], look: Look) -> Texts:
    """What is the same in every panel, and what the axes are of."""
    side, up = axes_of(grid)
    link = next((row['link'] for row in rows if row.get('link')), '')
    fixed = [said(each, each.values[0]) for each in grid.chosen if len(each.values) == 1]
    if grid.replicates > 1:
        fixed.append({'mean': f'means of {grid.replicates} runs, bars are 95 % intervals', 'cdf': f'{grid.replicates} runs each',
                      'box': f'{grid.replicates} runs each: quartiles, and whiskers to the farthest within 1.5 times the box'}[look.kind])
    beside = up[1] or f'utilization of {link}, %'
    if look.x:
        each = grid.chosen[places_of(grid.chosen, look).at]
        below = ', '.join(filter(None, (each.key, scale_of(each)[0])))
    elif look.kind == 'box' or side is None:
        below = grid.chosen[along(grid.chosen)].key if grid.chosen else 'the run'
    else:
        below = side[1] or f'wait at {link}, ms: the median' + (', and a line to the 99th percentile' if grid.replicates == 1 else '')
    return Texts(', '.join(fixed), *((beside, 'part of the runs') if look.kind == 'cdf' else (below, beside)))


def key_of(grid: Grid, panels: dict, look: Look) -> list[tuple[str, object]]:
    """Each line's text and its handle, once, however many panels have it; none where there is one line and it has no name."""
    from matplotlib.lines import Line2D
    names = list(dict.fromkeys(name for lines in panels.values() for name in lines))
    if look.kind == 'cdf':
        names = list(dict.fromkeys(point.label for lines in panels.values() for points in lines.values() for point in points))
    if look.kind == 'box':
        return []
    found = []
    for number, name in enumerate(names):
        color, marker, text = COLORS.get(name, (series(number)['color'], MARKERS[number % len(MARKERS)], name))
        text = text or (grid.chosen[along(grid.chosen)].key if grid.chosen else 'the run')
        found.append((text, Line2D([], [], color=color, marker=None if look.kind == 'cdf' else marker, lw=1 if look.width else 1.4, label=name,
                                   ms=3 if look.width else 6, ls=series(number)['ls'] if name not in COLORS else '-')))
    return found


def color_of(name: str, entries: Sequence) -> str:
    """The colour of a line."""
    return next((handle.get_color() for _, handle in entries if handle.get_label() == name), COLORS['droptail'][0])


def draw_panel(axes: Axes, lines: dict[str, list[Point]], grid: Grid, look: Look, size: float, entries: Sequence) -> None:
    """What a panel shows, on its scales."""
    every = [point for points in lines.values() for point in points]
    if look.kind == 'cdf':
        for point in every:
            values = sorted(run[1] for run in point.runs) or [point.y.mean]
            handle = next(handle for _, handle in entries if handle.get_label() == point.label)
            axes.plot([values[0], *values], [n / len(values) for n in range(len(values) + 1)], drawstyle='steps-post', color=handle.get_color(),
                      ls=handle.get_linestyle(), lw=1.2)
    elif look.kind == 'box':
        axes.boxplot([[run[1] for run in point.runs] or [point.y.mean] for point in every], positions=[point.x.mean for point in every],
                     widths=.6, medianprops={'color': RUST, 'lw': 1.4}, flierprops={'ms': 3}, manage_ticks=False)
    else:
        for name, points in lines.items():
            handle = next(handle for _, handle in entries if handle.get_label() == name)
            draw_line(axes, points, handle, size)
    waits = [value for point in every for value in (point.x.mean, point.tail, *(run[0] for run in point.runs)) if value is not None]
    if not look.x and look.kind == 'mean' and not grid.asked.columns and waits and 'x' not in look.log:
        axes.set_xscale(*(['log'] if min(waits) > 0 else ['symlog']), **({} if min(waits) > 0 else {'linthresh': .1}))
    for axis, set_scale in (('x', axes.set_xscale), ('y', axes.set_yscale)):
        if axis in look.log:
            set_scale('log')
    if look.kind == 'box' or look.kind == 'mean' and not look.x and axes_of(grid)[0] is None or look.x and every[0].label and \
            all(float(point.x.mean).is_integer() for point in every) and number_of_points_are_places(every, grid, look):
        labels = {point.x.mean: point.label for point in every}
        axes.set_xticks(list(labels), list(labels.values()), rotation=90 if sum(map(len, labels.values())) > 24 else 0)


def number_of_points_are_places(points: Sequence[Point], grid: Grid, look: Look) -> bool:
    """Whether a setting's values stand one after another, as they are no numbers."""
    titles = grid.chosen[places_of(grid.chosen, look).at].titles()
    return not titles and not all(point.label.replace('.', '', 1).isdigit() for point in points)


def draw_line(axes: Axes, points: Sequence[Point], handle: object, size: float) -> None:
    """The points of a line, joined, with their intervals or their thin lines, and pale ones for single runs."""
    color, small = handle.get_color(), size <= IN_PRINT
    means = [(point.x.mean, point.y.mean) for point in points]
    axes.plot(*zip(*means), color=color, marker=handle.get_marker(), ls=handle.get_linestyle(), lw=handle.get_linewidth(),
              ms=handle.get_markersize(), zorder=3)
    tails = [(point.x.mean, point.tail, point.y.mean) for point in points if point.tail is not None]
    if tails:
        left, right, heights = zip(*tails)
        axes.hlines(heights, left, right, color=color, lw=.8 if small else 1.2, alpha=.5)
        axes.plot(right, heights, color=color, marker='|', ls='', alpha=.45, ms=3 if small else 6)
    runs = [run for point in points for run in point.runs]
    if runs:
        axes.plot(*zip(*runs), color=color, marker='o', ms=2 if small else 3, ls='', alpha=.4, mew=0, zorder=1)
        axes.errorbar(*zip(*means), [point.y.half_width or 0 for point in points], [point.x.half_width or 0 for point in points],
                      fmt='none', ecolor=color, elinewidth=1 if small else 1.4, capsize=2 if small else 3, zorder=2)


def scale_ticks(axes: Axes) -> None:
    """A few ticks along each axis, in whole words: along one by powers of ten at 1 and 3, or at 1 alone where these are many."""
    for axis, (low, high) in ((axes.xaxis, sorted(axes.get_xlim())), (axes.yaxis, sorted(axes.get_ylim()))):
        if axis.get_scale() in ('log', 'symlog'):
            ticks = [step * 10**power for power in range(-4, 8) for step in (1, 3) if low <= step * 10**power <= high]
            ticks = ticks if len(ticks) <= FEW else [tick for tick in ticks if f'{tick:e}'[0] == '1']
            axis.set_major_locator(FixedLocator(ticks))
            axis.set_major_formatter(FuncFormatter(lambda tick, _: f'{tick:,g}'))
            axis.set_minor_locator(NullLocator())
        elif not isinstance(axis.get_major_locator(), FixedLocator):
            axis.set_major_locator(MaxNLocator(FEW))
