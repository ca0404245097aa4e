"""Draws a search: each figure against the values that were tried, with what it has to meet, and the answer marked. Wants
matplotlib."""
from __future__ import annotations

from matplotlib.axes import Axes
from matplotlib.figure import Figure

from tcpsim.plot.labels import place_labels
from tcpsim.plot.style import KEY, KEY_SIZE, NOTE, TICKS, TITLE_SIZE, new_figure, series
from tcpsim.scenario.units import Queue
from tcpsim.sweeps.columns import SHOWN, ShownFigure
from tcpsim.sweeps.pattern import UNITS
from tcpsim.sweeps.search import Search, sizes_of

WIDE = 20           # how much greater the last value is than the first where they are drawn by powers of ten
QUEUE_PARTS = {'target': ('ms', 1e6), 'interval': ('ms', 1e6), 'capacity': ('packets', 1), 'maxpacket': ('bytes', 1)}


def draw(search: Search) -> Figure:
    """The figure: a panel for each figure that is asked for, a curve in it for each choice of the other values. A ring marks the
    answer, and a dashed line what a figure has to meet."""
    columns = search.grid.asked.columns
    figure = new_figure(figsize=(7, 1.2 + 2.6 * len(columns)), layout='constrained')
    all_axes = figure.subplots(len(columns), 1, sharex=True, squeeze=False)[:, 0]
    unit, scale = across_of(search)
    for axes, column in zip(all_axes, columns):
        labels = draw_figure(axes, search, column, scale)
        axes.set_ylabel(column.heading, fontsize=TITLE_SIZE)
        axes.grid(alpha=.3)
        axes.tick_params(labelsize=TICKS)
        axes.margins(y=.1)
        sizes = list(sizes_of(search.varied).values())
        if sizes[0] > 0 and sizes[-1] > WIDE * sizes[0]:
            axes.set_xscale('log')
            axes.xaxis.set_major_formatter('{x:g}')
        figure.draw_without_rendering()
        place_labels(axes, labels)
    all_axes[-1].set_xlabel(f'{search.varied.key}, {unit}' if unit else search.varied.key, fontsize=TITLE_SIZE)
    figure.suptitle(f'{search.varied.key}: {search.asked}', fontsize=TITLE_SIZE, x=.01, ha='left')
    if len(search.quests) > 1:
        all_axes[0].legend(loc='lower left', bbox_to_anchor=(0, 1), ncols=min(4, len(search.quests)), **KEY)
    return figure


def across_of(search: Search) -> tuple[str, float]:
    """The unit of the values, and what they are divided by."""
    if isinstance(search.varied.values[0], Queue):
        varied = [name for name in Queue._fields if len({getattr(value, name) for value in search.varied.values}) > 1]
        return QUEUE_PARTS[varied[0] if varied else 'capacity']
    unit = UNITS.get(search.varied.field, '')
    return SHOWN[unit][:2] if unit in ('ns', 'bit_s') else (unit, 1)


def draw_figure(axes: Axes, search: Search, column: ShownFigure, scale: float) -> list:
    """The curves of a figure; answers the labels of its answers."""
    per, labels, sizes = SHOWN[column.figure.unit][1], [], list(sizes_of(search.varied).values())
    for choice, quest in enumerate(search.quests):
        words = search.grid.labels(search.numbers(choice, 0)[0])
        name = ', '.join(f'{each.key} = {words[each.key]}' for each in search.grid.chosen[:-1] if len(each.values) > 1)
        means = {place: quest.tried[place].means[column.title] for place in sorted(quest.tried)}
        means = {place: mean for place, mean in means.items() if mean.mean is not None}
        x, y = [sizes[place] / scale for place in means], [mean.mean / per for mean in means.values()]
        look = series(choice)
        axes.plot(x, y, marker='o', ms=3, lw=1.2, label=name, **look)
        halves = [(mean.half_width or 0) / per for mean in means.values()]
        if any(halves):
            axes.errorbar(x, y, halves, fmt='none', ecolor=look['color'], elinewidth=1, capsize=2)
        if quest.answer in means:
            at = sizes[quest.answer] / scale, means[quest.answer].mean / per
            axes.plot(*at, marker='o', ms=9, mew=1.6, mfc='none', ls='', color=look['color'])
            labels.append(axes.annotate(search.label(quest.answer).partition(':')[2] or search.label(quest.answer), at, textcoords='offset points', xytext=(0, 0), fontsize=KEY_SIZE,
                                        color=look['color']))
    for each in search.asked.conditions:
        if each.column == column:
            axes.axhline(each.value / per, color='#444444', ls=(0, (5, 3)), lw=1)
            axes.annotate(f'{each.sign} {each.word}', (0, each.value / per), xycoords=('axes fraction', 'data'), xytext=(3, 2),
                          textcoords='offset points', fontsize=NOTE, color='#444444')
    return labels
