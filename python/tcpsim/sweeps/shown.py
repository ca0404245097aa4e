"""The rows of a sweep, and their means, as tables for people."""
from __future__ import annotations

from collections.abc import Iterable, Mapping, Sequence
from types import MappingProxyType
from typing import Optional

from tcpsim.fairness import can_fill
from tcpsim.output import aligned
from tcpsim.scenario.text import Scenario, Unreadable
from tcpsim.settled import Thirds, advice, can_end, has_long_tooth, longest_tooth
from tcpsim.sweeps.columns import SHOWN
from tcpsim.sweeps.means import Averaged, Mean
from tcpsim.sweeps.pattern import Setting
from tcpsim.sweeps.rows import FIGURES, Grid

MS = 10**6
SETTLED = 'settled'
# Of a row's figures where none are named: title, what it is divided by, the digits of a value, and those of a mean.
COLUMNS = (('goodput Mbit/s', 1e6, 3, 3), ('used %', .01, 1, 2), ('wait ms: median', MS, 1, 1), ('99th', MS, 1, 1),
           ('loss %', 1, 2, 2), ('timeouts', 1, 0, 1), ('Jain', 1, 3, 3))


def along(settings: Sequence[Setting]) -> int:
    """The setting whose values are the points of a line: the first of a queue, else the first."""
    return next((n for n, each in enumerate(settings) if each.field == 'queue'), 0)


def columns(grid: Grid) -> list[tuple]:
    """The figures of a table: the name in a row, the title, what it is divided by, the digits of a value and of a mean."""
    if not grid.asked.columns:
        return [(name, *shown) for name, shown in zip(FIGURES, COLUMNS)]
    return [(column.title, column.heading, *SHOWN[column.figure.unit][1:]) for column in grid.asked.columns]


def fixed_and_varied(grid: Grid, settings: Sequence[Setting], count: int) -> tuple[list[str], list[str]]:
    """What is the same in all rows, in words, and the keys of what is not."""
    fixed = [each for each in settings if len(each.values) == 1 and count > 1]
    return ([f'{each.key}={each.label(each.values[0])}' for each in fixed], [each.key for each in settings if each not in fixed])


def heads(grid: Grid, links: set[str], compared: Iterable[str | float | None]) -> list[str]:
    """What else stands above a table: of which link figures are, and of how many flows Jain's index is."""
    counts, flows = sorted({float(count) for count in compared if count is not None and count != ''}), len(grid.pattern.named('flow'))
    of_all = '' if any(each.of_shape for each in grid.settings) else f'of {flows} '
    return ([f'figures of link {next(iter(links))}'] if grid.link() and len(links) == 1 else []) + (
        [f'Jain\'s index of {" to ".join(f"{count:g}" for count in dict.fromkeys((counts[0], counts[-1])))} {of_all}flows']
        if counts and flows > 1 else [])


Looked = Mapping[int, Optional[Thirds]]         # the thirds of runs that were looked at once more, by their numbers


def settled(looked: Looked, number: int) -> str:
    """Whether a run has settled, in a word; empty where that is not known."""
    found = looked.get(number)
    return '' if found is None else 'no' if found.changed else 'yes'


def table(grid: Grid, rows: list, looked: Looked = MappingProxyType({})) -> list[str]:
    """The lines of a table of all rows. What is the same in all stands above it."""
    links = {row['link'] for row in rows if row.get('link')}
    fixed, keys = fixed_and_varied(grid, grid.settings, len(rows))
    several = grid.link() and len(links) > 1
    titles = [*keys, *(['link'] if several else []), *(title for _, title, *_ in columns(grid)), *[SETTLED] * bool(looked)]
    lines = [[row[key] for key in keys] + ([row.get('link', '')] if several else []) +
             [in_words(row.get(name), scale, digits) for name, _, scale, digits, _ in columns(grid)] +
             [settled(looked, number) or '-'] * bool(looked) for number, row in enumerate(rows)]
    refused = [' '.join(f'{key}={row[key]}' for key in keys) + f': {row["status"]}' for row in rows if row['status'] != 'done']
    if not keys:
        titles, lines = ['run', *titles], [['1', *words] for words in lines]
    head = fixed + heads(grid, links, [row.get('jain_flows') for row in rows])
    return [', '.join(head)] * bool(head) + aligned([titles, *lines]) + refused + too_short(grid, looked=looked)


def too_short(grid: Grid, numbers: Sequence[int] | None = None, looked: Looked = MappingProxyType({})) -> list[str]:
    """A sentence on the choice of values whose run is shortest beside a tooth of its flows' sawtooth, where any is too short: of all
    choices, or of those of these points. Of flows that can end in their run no teeth are told. And one on the choice whose goodput
    changes most, of the runs that were looked at."""
    found = {number: thirds for number, thirds in looked.items() if thirds and thirds.changed}
    worst = max(found, key=lambda number: found[number].part, default=None)
    lines = has_teeth(grid, numbers, worst)
    if worst is not None:
        scenario = grid.scenario(worst)
        words = advice(scenario, *span_of(grid, scenario), can_fill(scenario, range(len(scenario.flows))), changed=True)
        lines.append(f'{found[worst]} {words}' + most_of_all(grid, worst, len(found), len(looked), 'have not settled'))
    return lines


def span_of(grid: Grid, scenario: Scenario) -> tuple[int, int]:
    """From when to when the figures of a run are, where not all its flows end."""
    return max(grid.asked.skip, min(flow.start for flow in scenario.flows)), scenario.end


def most_of_all(grid: Grid, number: int, count: int, of: int, how: str) -> str:
    """How many settings of several are so, and which of them is so most."""
    chosen = ' '.join(f'{each.key}={grid.labels(number)[each.key]}' for each in grid.chosen)
    return f' {count} of {of} settings {how}, most of all {chosen}.' * (of > 1)


def has_teeth(grid: Grid, numbers: Sequence[int] | None, worst: int | None) -> list[str]:
    """The first of them; what would do stands behind the second where that is of the same choice."""
    found, choices = [], range(0, len(grid.points), grid.replicates) if numbers is None else numbers
    for number in choices:
        try:
            scenario = grid.scenario(number)
        except Unreadable:      # its row says so
            continue
        begin, end = span_of(grid, scenario)
        on = [at for at, flow in enumerate(scenario.flows) if not can_end(scenario, at)]
        flows = can_fill(scenario, on)
        if begin < end and (words := has_long_tooth(scenario, begin, end, flows)):
            words += '' if number == worst else ' ' + advice(scenario, begin, end, flows)
            found.append((longest_tooth(scenario, flows)[0] / (end - begin), number, words))
    if not found:
        return []
    _, number, words = max(found)
    return [words + most_of_all(grid, number, len(found), len(choices), 'are too short')]


def in_words(value: str | None, scale: float, digits: int) -> str:
    """A figure in words, `-` where there is none."""
    return '-' if value is None or value == '' else f'{float(value) / scale:.{digits}f}'


def mean_table(grid: Grid, means: Sequence[Averaged], pairs: Sequence[Averaged] = (), looked: Looked = MappingProxyType({})) -> list[str]:
    """The lines of a table of means, each with the half width of its interval, and below them differences."""
    fixed, keys = fixed_and_varied(grid, grid.chosen, max(len(means), len(pairs)))
    over = ', '.join(f'{each.key}={each.label(each.values[0])}..{each.label(each.values[-1])}' if len(each.values) > 1 else
                     f'{each.key}={each.label(each.values[0])}' for each in grid.over)
    every = [*means, *pairs]
    keys = [key for key in keys if any(each.values[key] for each in every)]
    runs = [max(mean.runs for mean in each.means.values()) for each in every]
    lines = [[*(each.values[key] for key in keys), *([] if not grid.over else [str(count)]),
              *(mean_in_words(each.means[name], count, scale, digits) for name, _, scale, _, digits in columns(grid)),
              *[settled(looked, at * grid.replicates) or '-'] * bool(looked)]
             for at, (each, count) in enumerate(zip(every, runs))]
    titles = [*keys, *(['runs'] if grid.over else []), *(title for _, title, *_ in columns(grid)), *[SETTLED] * bool(looked)]
    if not keys:
        titles, lines = ['', *titles], [['mean', *words] for words in lines]
    said = [' '.join(f'{key}={each.values[key]}' for key in keys) + f': {each.status}' for each in every if each.status != 'done']
    links = {each.link for each in means if each.link}
    compared = [each.means['jain_flows'].mean for each in means if 'jain_flows' in each.means]
    head = [*fixed, *heads(grid, links, compared), *([f'means over {over}, ± 95 %'] if over else [])]
    return [', '.join(head)] * bool(head) + aligned([titles, *lines]) + said + (too_short(grid, looked=looked) if means else [])


def mean_in_words(mean: Mean, runs: int, scale: float, digits: int) -> str:
    """A mean and the half width of its interval, and where it is of fewer runs than the others of its row, of how many."""
    if mean.mean is None:
        return '-'
    half = '' if mean.half_width is None else f' ±{mean.half_width / scale:.{digits}f}'
    return f'{mean.mean / scale:.{digits}f}{half}' + f' ({mean.runs})' * (mean.runs != runs)
