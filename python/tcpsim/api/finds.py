"""`find`: the least value of a setting, or the greatest, that meets conditions, as tcpsim-find has it."""
from __future__ import annotations

import argparse
import functools
import os
from collections.abc import Mapping, Sequence
from typing import TYPE_CHECKING

from tcpsim import output
from tcpsim.api.errors import Wrong, as_api, wanted
from tcpsim.api.results import html_table
from tcpsim.api.scenarios import ScenarioText, as_word, scenario_of
from tcpsim.api.shown import PlottedRun
from tcpsim.api.sweeps import AS_BOOL, Values, grid_to_run, number, words_given, words_of
from tcpsim.cli import find as command, sweep
from tcpsim.sweeps.answers import ANSWER, answer_table, records, titles
from tcpsim.sweeps.files import csv_text
from tcpsim.sweeps.pool import Rows
from tcpsim.sweeps.rows import QUESTION
from tcpsim.sweeps.search import GREATEST, LEAST, Search
from tcpsim.sweeps.shown import SETTLED

if TYPE_CHECKING:
    from pandas import DataFrame


def find(scenario: ScenarioText | str | os.PathLike, vary: Mapping[str, Values], so_that: str | Sequence[str] = (), *,
         which: str = LEAST, best: str | None = None, settings: Mapping[str, Values] | None = None, over: Mapping[str, Values] | None = None,
         show: str | Sequence[str] | None = None, grid: Values | None = None, check: int | None = None, skip: str | int = 0,
         exact: bool = False, engine: str | None = None, on: str | None = None, jobs: int | None = None) -> Found:
    """The least value of a setting that meets conditions; the greatest by which="greatest", or the best by best="min f3.took".

    `vary` has the values among which it is searched, as {"pq.queue": "droptail:1..200"}, `so_that` conditions, as
    "pq.used >= 95%" or ["pq.wait95 < 20ms", "f0.goodput >= 4M"]. There is a search for each choice of the values of `settings`.
    With replicates, `over`, a condition holds if the mean's whole 95 % interval meets it. `grid` has the values that are tried first,
    and `check` says how many are tried further from which a better answer could come (docs/SWEEPS.md). The others are those of
    `sweep`.

    Wrong where a word is.
    """
    net = scenario_of(scenario)
    if which not in (LEAST, GREATEST) or not isinstance(vary, Mapping) or len(vary) != 1:
        raise Wrong('find wants one setting in vary, as {"pq.queue": "droptail:1..200"}, and which="least" or which="greatest"')
    given = words_given(net, settings, over, show, skip, exact, on, jobs)
    varied, = words_of(vary)
    given = argparse.Namespace(**vars(given), vary=varied, which=which, best=best, so_that=[so_that] if isinstance(so_that, str) else so_that,
                               grid=None if grid is None else as_word(grid), check=check)
    with as_api():
        search = command.search_of(given, net.text, functools.partial(grid_to_run, engine))
        rows = Rows(search.grid, sweep.engine_of(given), progress=False)
        search.run(rows, jobs)
        return Found(search, rows)


class Found:
    """What a search found. `answers` has a row for each choice of the other settings' values, `answer` that of the only one; None
    where no value meets the conditions. `rows` has every run."""

    def __init__(self, search: Search, rows: Rows):
        self._search, self._rows = search, rows

    @property
    def runs(self) -> int:
        """How many runs there were."""
        return len(self.rows)

    @property
    def rows(self) -> list[dict[str, object]]:
        """A row for each run, in the grid's order, with the columns of docs/SWEEPS.md."""
        words = {'status', *QUESTION} - {'from_ns'} | {each.key for each in self._search.grid.settings}
        return [{name: value if name in words else number(value) for name, value in row.items()} for row in self._rows.in_order()]

    @property
    def answers(self) -> list[dict[str, object] | None]:
        """The answer for each choice of the other settings' values: the value in words and as a number, and of each figure
        FIGURE_mean, FIGURE_half_width and FIGURE_runs. None where there is none."""
        found = [row for row in self.around if row['is'] == ANSWER]
        return [None if quest.answer is None else found.pop(0) for quest in self._search.quests]

    @property
    def answer(self) -> dict[str, object] | None:
        """The answer where there is one choice of the other settings' values; Wrong where there are several."""
        if len(self._search.quests) != 1:
            raise Wrong(f'there are {len(self._search.quests)} answers, one for each choice of the settings: take .answers')
        return self.answers[0]

    @property
    def around(self) -> list[dict[str, object]]:
        """The answers, each between its two neighbours, as the table has them."""
        words = {each.key for each in self._search.grid.chosen} | {'is'}
        return [{name: AS_BOOL.get(str(value)) if name == SETTLED else value if name in words or not isinstance(value, str) else number(value)
                 for name in titles(self._search) for value in [row.get(name)]} for row in records(self._search)]

    def to_pandas(self) -> DataFrame:
        """A pandas DataFrame with a row for each run."""
        return wanted('pandas').DataFrame(self.rows)

    def save(self, path: str | os.PathLike) -> None:
        """Writes the rows of all runs as CSV, as `tcpsim-find -o` does."""
        with output.written(os.fspath(path)) as file:
            file.write(csv_text(self._rows.in_order(), self._search.grid.columns()))

    def plot(self) -> PlottedRun:
        """A picture of the values that were tried, with the answer marked, which a notebook shows. Wants matplotlib."""
        wanted('matplotlib')
        from tcpsim.plot.search import draw
        return PlottedRun(draw(self._search))

    def __repr__(self) -> str:
        return '\n'.join(answer_table(self._search))

    def _repr_html_(self) -> str:
        names = titles(self._search)
        return html_table([names, *(['' if (value := row[name]) is None else f'{value:.6g}' if isinstance(value, float) else str(value)
                                     for name in names] for row in self.around)])
