"""`sweep`: one scenario over a grid of values, with means over replicates, as tcpsim-sweep has them."""
from __future__ import annotations

import argparse
import os
import sys
from collections.abc import Callable, Iterable, Mapping, Sequence
from typing import TYPE_CHECKING, Union

from tcpsim import output
from tcpsim.api.engines import by_model, check_own, check_queues, engine_of
from tcpsim.api.errors import as_api, wanted
from tcpsim.api.results import html_table
from tcpsim.api.scenarios import ScenarioText, as_word, scenario_of
from tcpsim.api.shown import PlottedRun, notebook
from tcpsim.api.simulation import moment
from tcpsim.cli import sweep as command
from tcpsim.command_line import Wrong, note
from tcpsim.estimate import events_of
from tcpsim.program import MODEL_SPEED, NoProgram, check_time
from tcpsim.settled import Thirds
from tcpsim.sweeps.files import csv_text
from tcpsim.sweeps.look import look_of
from tcpsim.sweeps.means import PARTS, Averaged, averaged, pair_of, pairs, titles
from tcpsim.sweeps.pattern import OwnQueue
from tcpsim.sweeps.pool import Rows, run_all
from tcpsim.sweeps.rows import QUESTION, Grid
from tcpsim.sweeps.shown import SETTLED, mean_table, table
from tcpsim.sweeps.shown import settled as has_settled

if TYPE_CHECKING:
    from pandas import DataFrame

AS_BOOL = {'yes': True, 'no': False}
Values = Union[str, int, Sequence[Union[str, int]]]      # of a setting: a word with commas, a number, or a list of them


def sweep(scenario: ScenarioText | str | os.PathLike, settings: Mapping[str, Values] | None = None, *,
          over: Mapping[str, Values] | None = None, show: str | Sequence[str] | None = None, skip: str | int = 0,
          pair: Sequence[str] | str | None = None, link: str | None = None, exact: bool = False, engine: str | None = None,
          on: str | None = None, jobs: int | None = None, settled: bool = False,
          queues: Mapping[str, Callable | Sequence[Callable]] | None = None) -> Sweep:
    """Runs a scenario once for each choice of values, several runs side by side, and gives their figures.

    `settings` has the values of each NAME.FIELD, as {"pq.queue": ["droptail:50", "codel:5ms:100ms"]}; a value can be a range,
    "100ms..1s/100ms". `over` has those of replicates, over which figures are averaged. `show` names the figures, as
    ["f3.goodput", "up.wait95"]; where it is left out there are those of docs/SWEEPS.md. `skip` leaves out what was before that
    moment, `pair` asks for the differences between two values of a setting, `link` names the link whose figures are told, and
    `exact` takes all figures from traces. `engine` is 'program', 'model' or a program's path; `on` has others run it, as
    "dask:HOST:PORT", "slurm" or "parallel"; `jobs` runs go side by side. `settled` asks of each choice of values whether its goodput
    still changes at the end: the first run of each takes about as long again, on this machine.

    `queues` gives links, by name, a class of Python's for their queue (docs/PYTHON.md), or a list of classes. A class's name is one of
    the values of {"pq.queue": ["RED", "codel:5ms:100ms"]}; where the queue is not set every run has the class. The model runs
    these, side by side, and standard error says how long that takes. NoProgram where it takes longer than a minute unasked.

    Wrong where a word is; a run that is refused, or that ends early, is a row whose status says so.
    """
    net = scenario_of(scenario)
    given = words_given(net, settings, over, show, skip, exact, on, jobs)
    given.pair, given.link, given.queues = as_word(pair) if pair else None, link, own_queues(queues, engine, on)
    with as_api():
        grid = grid_to_run(engine, given, net.text, lambda plain: range(len(plain.points)))
        rows = Rows(grid, command.engine_of(given), progress=say_own(grid, engine, jobs))
        run_all(rows)
        given.settled, done = settled, rows.in_order()
        return Sweep(grid, done, given.pair, command.looked_at(grid, done, given))


def own_queues(queues: Mapping[str, Callable | Sequence[Callable]] | None, engine: str | None, on: str | None) -> dict[str, dict[str, Callable]]:
    """Of each link the classes that can be its queue, by their names; Wrong where they are asked of another engine than the model."""
    if not check_queues(queues) or queues is None:
        return {}
    if engine not in (None, 'model') or on:
        check_own(engine or on, '')
    found = {link: makers if isinstance(makers, (list, tuple)) else [makers] for link, makers in queues.items()}
    return {link: {getattr(maker, '__name__', repr(maker)): maker for maker in makers} for link, makers in found.items()}


def say_own(grid: Grid, engine: str | None, jobs: int | None) -> bool:
    """Says how long the runs take that have queues of Python's classes; whether a terminal or a notebook shows how far they are. Wrong
    where a class is asked for at no link, or where several are and no value says which."""
    for link, makers in grid.pattern.own.items():
        values = [value for each in grid.settings if each.field == 'queue' and link in each.names for value in each.values]
        if link not in grid.pattern.named('link') or (len(makers) > 1 or values) and not any(isinstance(value, OwnQueue) for value in values):
            raise Wrong(f'queues names the link {link!r}: give it a class, and where {link}.queue is set the class\'s name as a value, '
                        f'as {{"{link}.queue": ["{next(iter(makers))}", "codel:5ms:100ms"]}}')
    own = [number for number in range(len(grid.points)) if grid.queues(number)] if grid.pattern.own else []
    if not own:
        return False
    if engine is None:
        check_own(None, *(grid.text(number) for number in own))
    seconds = sum(events_of(grid.text(number)) for number in own) / MODEL_SPEED / min(len(own), jobs or os.cpu_count() or 1)
    note(f'tcpsim: {len(own)} of {len(grid.points)} runs are by the model, in some {max(1, seconds):.0f} s')
    return notebook() is not None or sys.stderr is not None and sys.stderr.isatty()


def words_given(net: ScenarioText, settings: Mapping[str, Values] | None, over: Mapping[str, Values] | None, show: str | Sequence[str] | None,
                skip: str | int, exact: bool, on: str | None, jobs: int | None) -> argparse.Namespace:
    """The words of a command that runs a grid."""
    return argparse.Namespace(
        scenario=net.name, sets=words_of(settings), over=words_of(over), show=as_word(show) if show else None,
        skip=moment('skip', skip) or 0, pair=None, link=None, exact=exact, engine=False, jobs=jobs, on=on, folder=None, program=None)


def grid_to_run(engine: str | None, given: argparse.Namespace, text: str, numbers: Callable[[Grid], Iterable[int]]) -> Grid:
    """The grid that the words ask for, by an engine; `numbers` gives its points that are to be run. NoProgram where the model would
    take longer than a minute unasked for these."""
    runs = engine_of(engine, None)
    grid = command.grid_of(given, text, runs.path)
    if engine is None and runs.name == 'model':
        try:
            check_time(map(grid.text, numbers(grid)))
        except NoProgram as wrong:
            raise NoProgram(by_model(str(wrong))) from None
    given.program = runs.path
    if given.on:
        grid.asked = grid.asked._replace(version=command.version_of(runs.path))
    return grid


def words_of(settings: Mapping[str, Values] | None) -> list[str]:
    """The words of --set or --over."""
    return [f'{name}={as_word(values)}' for name, values in (settings or {}).items()]


class Sweep:
    """The runs of a sweep, their means over the replicates, and the differences of a pair. `rows` has a mapping for each run,
    `means` for each choice of values, and `pairs` for each difference: numbers are numbers, and what there is not is None."""

    def __init__(self, grid: Grid, rows: list[dict], pair: str | None, looked: dict[int, Thirds | None]):
        self._grid, self._rows, self._looked = grid, rows, looked
        self._means = averaged(grid, rows)
        self._pairs = pairs(grid, rows, pair_of(pair, grid)) if pair else []

    @property
    def rows(self) -> list[dict[str, object]]:
        """A row for each run, in the grid's order, with the columns of docs/SWEEPS.md."""
        words = {'status', 'link', *QUESTION} - {'from_ns'} | {each.key for each in self._grid.settings}
        return [{**{name: value if name in words else number(value) for name in self._grid.columns() for value in [row.get(name, '')]},
                 **self._settled(at)} for at, row in enumerate(self._rows)]

    @property
    def means(self) -> list[dict[str, object]]:
        """A row for each choice of values: of each figure FIGURE_mean, FIGURE_half_width and FIGURE_runs."""
        return [{**self._as_numbers(each), **self._settled(at * self._grid.replicates)} for at, each in enumerate(self._means)]

    @property
    def pairs(self) -> list[dict[str, object]]:
        """The same of the differences: the second value's figures less the first's."""
        return [self._as_numbers(each) for each in self._pairs]

    def _settled(self, number: int) -> dict[str, bool | None]:
        """Whether a run has settled, where that was asked; None of one that was not looked at."""
        return {SETTLED: AS_BOOL.get(has_settled(self._looked, number))} if self._looked else {}

    def _as_numbers(self, each: Averaged) -> dict[str, object]:
        words = {setting.key for setting in self._grid.chosen}
        values = {name: value if name in words else number(value) for name, value in each.values.items()}
        row = {**each.row(), **values}
        return {name: row.get(name) for name in titles(self._grid)}

    def to_pandas(self) -> DataFrame:
        """A pandas DataFrame with a row for each run."""
        return wanted('pandas').DataFrame(self.rows)

    def means_to_pandas(self) -> DataFrame:
        """A pandas DataFrame with a row for each choice of values, and each difference."""
        return wanted('pandas').DataFrame([*self.means, *self.pairs])

    def save(self, path: str | os.PathLike) -> None:
        """Writes the rows as CSV, as `tcpsim-sweep -o` does."""
        with output.written(os.fspath(path)) as file:
            file.write(csv_text(self._rows, self._grid.columns()))

    def plot(self, x: str | None = None, log: str = '', share: bool = False, size: str | None = None, kind: str = 'mean') -> PlottedRun:
        """A picture of wait against utilization, or of the second figure that is shown against the first, which a notebook shows.
        Options are those of `tcpsim-sweep --plot`. Wants matplotlib."""
        wanted('matplotlib')
        from tcpsim.plot.sweep import draw
        with as_api():
            look = look_of(x, log, share, size, kind)
            command.check_look(self._grid, look)
            return PlottedRun(draw(self._grid, self._rows, look))

    def _lines(self) -> list[str]:
        if self._grid.over:
            return mean_table(self._grid, self._means, self._pairs, self._looked)
        return [*table(self._grid, self._rows, self._looked), *(mean_table(self._grid, [], self._pairs) if self._pairs else [])]

    def __repr__(self) -> str:
        return '\n'.join(self._lines())

    def _repr_html_(self) -> str:
        shown = self._means if self._grid.over else []
        if not shown:
            names = self._grid.columns()[:-len(QUESTION)]
            return html_table([names, *([row.get(name, '') for name in names] for row in self._rows)])
        names = [name for name in titles(self._grid) if not name.endswith(f'_{PARTS[2]}')]
        return html_table([names, *(['' if (value := row.get(name)) is None else f'{value:.6g}' if isinstance(value, float) else str(value)
                                     for name in names] for row in [*self.means, *self.pairs])])


def number(word: str) -> int | float | None:
    """A cell of CSV as a number."""
    return None if word in ('', None) else float(word) if '.' in str(word) else int(word)
