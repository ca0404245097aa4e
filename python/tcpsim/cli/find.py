"""tcpsim-find: the least value of a setting, or the greatest, that meets conditions, or the one whose figure is best.

Usage: bin/tcpsim-find SCENARIO --vary pq.queue=droptail:1..200 --least --so-that 'pq.used >= 95%' [--set NAME.FIELD=VALUE,..]
       bin/tcpsim-find SCENARIO --vary NAME.FIELD=A..B/STEP --best 'min f3.took' [--so-that CONDITION]
       bin/tcpsim-find SCENARIO --vary .. -o f.csv [--plot f.svg]         ended early: go on by --resume f.csv
       bin/tcpsim-find SCENARIO --vary .. --on ENGINE                    slurm, dask:HOST:PORT, parallel, parallel:HOST,..
"""
from __future__ import annotations

import argparse
from collections.abc import Callable
from typing import TYPE_CHECKING

from tcpsim import output
from tcpsim.cli import sweep
from tcpsim.command_line import Words, Wrong, as_type, go_on_with
from tcpsim.scenario import units
from tcpsim.sweeps.answers import answer_table, records, titles
from tcpsim.sweeps.conditions import conditions_of, goal_of
from tcpsim.sweeps.files import csv_text
from tcpsim.sweeps.pattern import Pattern, Setting, setting, values_of
from tcpsim.sweeps.pool import Rows
from tcpsim.sweeps.rows import Grid, as_csv
from tcpsim.sweeps.search import GREATEST, LEAST, Asked, Search, first_places, places_of, rising, runs_to_check
from tcpsim.whole_trace import inputs_of

if TYPE_CHECKING:
    from matplotlib.figure import Figure


def command_line() -> Words:
    """The words of the command."""
    words = Words(description='Searches for a value that meets conditions, or whose figure is best.', epilog=sweep.FIELDS)
    words.add_argument('scenario', metavar='SCENARIO', help='a text or an image')
    words.add_argument('--vary', metavar='NAME.FIELD=VALUES', required=True,
                       help='the values among which it is searched, as pq.queue=droptail:1..200 or pq.delay=1ms..100ms/1ms')
    which = words.add_mutually_exclusive_group(required=True)
    which.add_argument('--least', action='store_const', const=LEAST, dest='which', help='the least that meets every condition')
    which.add_argument('--greatest', action='store_const', const=GREATEST, dest='which', help='the greatest that does')
    which.add_argument('--best', metavar='\'min FIGURE\'', help='the one whose figure is least, or greatest by max')
    words.add_argument('--so-that', action='append', default=[], metavar='CONDITION',
                       help='as \'pq.used >= 95%%\' or \'pq.wait95 < 20ms and f0.goodput >= 4M\'; of means the whole 95 %% interval')
    words.add_argument('--set', action='append', default=[], metavar='NAME.FIELD=VALUE,..', dest='sets',
                       help='other values: a search for each choice of them')
    words.add_argument('--grid', metavar='VALUE,..', help='the values that are tried first; else 1, 2, 5, 10, 20 and so on')
    words.add_argument('--check', metavar='N', type=as_type(units.count), default=None,
                       help='how many values are tried further, nearest first, from which a better answer could come')
    sweep.add_common(words, 'the answers and their neighbours as CSV on standard output, in the place of the table',
                     'a picture (.svg, .png, .pdf) of the values that were tried, with the answer marked')
    return words


def asked_of(given: argparse.Namespace, pattern: Pattern) -> Asked:
    """What the words search for, or Wrong; those of a sweep with the same runs stand in `given` then."""
    conditions = conditions_of(given.so_that, pattern)
    which, best = goal_of(given.best, pattern) if given.best else (given.which, None)
    if not best and not conditions:
        raise Wrong(f'--{which} wants a condition, as --so-that \'pq.used >= 95%\'')
    names = [*(each.column.name for each in conditions), *([best.name] if best else []), *(given.show.split(',') if given.show else [])]
    given.show, given.link, given.pair = ','.join(dict.fromkeys(names)), None, None
    return Asked(which, conditions, best, given.check)


def varied_of(given: argparse.Namespace, pattern: Pattern) -> Setting:
    """The setting that is varied, its values rising; it is the last of `given`'s settings then."""
    varied = rising(setting(given.vary, pattern, '--vary'))
    given.sets = [*given.sets, f'{varied.key}={",".join(map(varied.label, varied.values))}']
    return varied


def grid_places(word: str, varied: Setting) -> list[int]:
    """The places of the values of --grid, or Wrong. The kind of a queue may be left out."""
    kind = f'{varied.values[0].kind}:' if varied.field == 'queue' and word[:1].isdigit() else ''
    return places_of(varied, values_of(word, varied.field, kind + word, '--grid'), '--grid')


def search_of(given: argparse.Namespace, text: str, grid_to_run: Callable[[argparse.Namespace, str, Callable[[Grid], list[int]]], Grid]) -> Search:
    """The search that the words ask for, over the grid that `grid_to_run` makes of them."""
    pattern = Pattern(text)
    asked, varied = asked_of(given, pattern), varied_of(given, pattern)
    first = grid_places(given.grid, varied) if given.grid else first_places(varied)

    def to_run(plain: Grid) -> list[int]:
        count = len(first) + (runs_to_check(plain) if given.check is None else given.check)
        return list(range(min(len(plain.points), count * plain.replicates * max(1, len(plain.points) // plain.replicates // len(varied.values)))))
    grid = grid_to_run(given, text, to_run)
    return Search(grid, asked._replace(check=runs_to_check(grid)) if asked.check is None else asked, first)


def show(search: Search, given: argparse.Namespace) -> None:
    """Writes the answers."""
    with output.opened() as file:
        if given.csv:
            file.write(csv_text([{name: as_csv(value) for name, value in row.items()} for row in records(search)], titles(search)))
        else:
            file.write('\n'.join(answer_table(search)) + '\n')


def find(given: argparse.Namespace) -> None:
    """Searches, and writes what is asked for."""
    sweep.engine_of(given)            # refuses what is none
    search = search_of(given, sweep.text_of(given.scenario, given.program), sweep.grid_to_run)
    inputs = list(inputs_of(given))
    if given.plot:
        sweep.check_plot(given, inputs)

    def run(rows: Rows, file: output.Output | None) -> None:
        search.run(rows, given.jobs)
        if file:
            file.write(csv_text(rows.in_order(), search.grid.columns()))
    rows = sweep.run_and_write(run, search.grid, sweep.engine_of(given), given, inputs)

    def draw() -> Figure:
        from tcpsim.plot.search import draw
        return draw(search)
    sweep.show_and_draw(lambda: show(search, given), draw if given.plot else None, given.plot)
    sweep.check_all(rows)


def main() -> None:
    """Does what the words ask for."""
    given = command_line().parse_args()
    if given.plot:
        go_on_with('matplotlib')
    sweep.check_common(given)
    find(given)
