"""Means over the replicates of a sweep: for each figure the mean, the half width of its 95 % interval by Student's t, and
how many runs there were; and differences between two values over the same replicates.
"""
from __future__ import annotations

import statistics
from collections.abc import Sequence
from typing import NamedTuple

from tcpsim.command_line import Wrong
from tcpsim.samples import student
from tcpsim.sweeps.pattern import Setting, values_of
from tcpsim.sweeps.rows import OF_THE_LINK, Grid

PARTS = 'mean', 'half_width', 'runs'


class Mean(NamedTuple):
    """A mean, the half width of its interval, which one run alone does not have, and how many runs there were."""

    mean: float | None
    half_width: float | None
    runs: int


def mean_of(values: Sequence[float]) -> Mean:
    """The mean of values."""
    if not values:
        return Mean(None, None, 0)
    count, mean = len(values), statistics.fmean(values)
    half = student(count - 1) * statistics.stdev(values) / count**.5 if count > 1 else None
    return Mean(mean, half, count)


class Averaged(NamedTuple):
    """The means of a choice of values: its values in words and in numbers, of which link the figures are, why runs have
    none, and of each figure the mean."""

    values: dict[str, str]
    link: str
    status: str
    means: dict[str, Mean]

    def row(self) -> dict[str, object]:
        """As a row of CSV."""
        cells = {f'{name}_{part}': value for name, mean in self.means.items() for part, value in zip(PARTS, mean)}
        return {**self.values, 'status': self.status, 'link': self.link, **cells}


def titles(grid: Grid) -> list[str]:
    """The titles of a row of means."""
    cells = [f'{name}_{part}' for name in grid.figures() for part in PARTS]
    return [*grid.value_titles(grid.chosen), 'status', *grid.link(), *cells, 'from_ns']


def averaged(grid: Grid, rows: Sequence[dict]) -> list[Averaged]:
    """The means over the replicates of each choice of values."""
    return [mean_row(grid, rows[begin:begin + grid.replicates]) for begin in range(0, len(rows), grid.replicates)]


def mean_row(grid: Grid, rows: Sequence[dict]) -> Averaged:
    """The means over these replicates. Where they are of several links, as the busiest is another one, the link's figures
    have no mean."""
    done = [row for row in rows if row['status'] == 'done']
    links = sorted({row['link'] for row in done}) if grid.link() else []
    means = {name: mean_of([float(row[name]) for row in done if row[name] != ''] if len(links) < 2 or name not in OF_THE_LINK else [])
             for name in grid.figures()}
    # A product can be another number of packets in each run.
    values = {title: rows[0][title] if len({row[title] for row in rows}) == 1 else ''
              for title in grid.value_titles(grid.chosen)}
    return Averaged({**values, 'from_ns': rows[0]['from_ns']}, '+'.join(links), status_of(rows), means)


def status_of(rows: Sequence[dict]) -> str:
    """`done`, or how many runs have no figures, and why."""
    failed = [row['status'] for row in rows if row['status'] != 'done']
    if not failed:
        return 'done'
    return failed[0] if len(rows) == 1 else f'{len(failed)} of {len(rows)} runs have no figures: {failed[0]}'


# ---- pairs

def pair_of(word: str, grid: Grid) -> tuple[Setting, object, object]:
    """The setting that has the two values of a word of --pair, and these, or Wrong."""
    for each in grid.chosen:
        try:
            first, second = values_of(word, each.field, word, '--pair')
        except (Wrong, ValueError):
            continue
        if first in each.values and second in each.values:
            return each, first, second
    example = next((f'{each.label(each.values[0])},{each.label(each.values[1])}' for each in grid.chosen if len(each.values) > 1),
                   'droptail:50,codel:5ms:100ms')
    raise Wrong(f'--pair {word!r}: write two values of one --set, with a comma, as {example}')


def pairs(grid: Grid, rows: Sequence[dict], pair: tuple[Setting, object, object]) -> list[Averaged]:
    """For each choice of the other values the differences, the second value's figures less the first's, over the runs that
    are equal in all else."""
    each, first, second = pair
    at = grid.settings.index(each)
    numbers = {point: number for number, point in enumerate(grid.points)}
    title = f'{each.label(second)} - {each.label(first)}'
    found: dict[tuple, list] = {}
    for point, number in numbers.items():
        if point[at] == first:
            other = rows[numbers[(*point[:at], second, *point[at + 1:])]]
            choice = tuple(value for n, value in enumerate(point) if n != at and grid.settings[n].option != '--over')
            found.setdefault(choice, []).append(difference(grid, rows[number], other, title, each))
    return [mean_row(grid, differences) for differences in found.values()]


def difference(grid: Grid, less: dict, row: dict, title: str, each: Setting) -> dict[str, str]:
    """The figures of a run less those of another, as a row."""
    values = {**row, **dict.fromkeys(each.titles(), ''), each.key: title}
    failed = next((it['status'] for it in (less, row) if it['status'] != 'done'), None)
    if failed:
        return {**values, 'status': failed}
    other = grid.link() and less['link'] != row['link']
    for name in grid.figures():
        both = row[name] != '' != less[name] and not (other and name in OF_THE_LINK)
        values[name] = repr(float(row[name]) - float(less[name])) if both else ''
    return values
