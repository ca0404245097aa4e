"""tcpsim-sweep: runs one scenario over a grid of values, side by side, a row of figures for each run.

Usage: bin/tcpsim-sweep SCENARIO --set NAME.FIELD=VALUE,.. [--over NAME.FIELD=A..B/STEP] [--show NAME.FIGURE,..] [--skip T]
       bin/tcpsim-sweep SCENARIO --set .. -o s.csv [--plot s.svg]     ended early: go on by --resume s.csv
       bin/tcpsim-sweep SCENARIO --set .. --on ENGINE                 slurm, dask:HOST:PORT, parallel, parallel:HOST,..
       bin/tcpsim-sweep SCENARIO --set .. --print DIR                 the scenarios and a list of jobs, nothing is run
       bin/tcpsim-sweep --gather DIR [-o s.csv]                       the rows of these jobs, once they are done
"""
from __future__ import annotations

import argparse
import functools
import importlib.util
import os
import sys
from collections.abc import Callable, Iterable, Sequence
from typing import TYPE_CHECKING

from tcpsim import FORMATS, output
from tcpsim.command_line import MODEL, OutputClosed, Refused, Words, Wrong, as_type, go_on_with, note, tool
from tcpsim.program import digest_of, find_program, format_of, found, is_program, version_of
from tcpsim.scenario import units
from tcpsim.scenario.units import spelled_time
from tcpsim.settled import Thirds
from tcpsim.sweeps import jobs, pool
from tcpsim.sweeps.columns import columns_of
from tcpsim.sweeps.files import csv_text, has_rows, is_answered, journal_of, rows_there
from tcpsim.sweeps.look import Look, look_of, panel_count
from tcpsim.sweeps.means import Averaged, averaged, pair_of, pairs, titles
from tcpsim.sweeps.pattern import WHERE, Pattern, settings_of
from tcpsim.sweeps.pool import Rows, Runner, here, run_all
from tcpsim.sweeps.rows import AskedOfRun, Grid
from tcpsim.sweeps.shown import SETTLED, mean_table, settled, table
from tcpsim.whole_trace import IMAGE_BEGINS, ProgramFailed, inputs_of, scenario_bytes, scenario_text

if TYPE_CHECKING:
    from matplotlib.figure import Figure

MOST_PANELS = 36
FIELDS = ('FIELD is of a link queue, rate, delay, lose; of a flow mss, segments, start, rwnd, delack, variant, iw. '
          'a+b.FIELD sets both, *.FIELD all links or all flows; end=TIME sets the end. A VALUE can be a range, A..B/STEP.')


# ---- the command line

def command_line() -> Words:
    """The words of the command."""
    words = Words(description='Runs one scenario over a grid of values, a row for each run.', epilog=FIELDS)
    words.add_argument('scenario', metavar='SCENARIO', nargs='?', help='a text or an image')
    words.add_argument('--set', action='append', default=[], metavar='NAME.FIELD=VALUE,..', dest='sets',
                       help='as pq.queue=droptail:10,50,codel:5ms:100ms or pq.delay=20ms,100ms')
    words.add_argument('--pair', metavar='A,B', help='differences between two values of a --set, over the same replicates')
    words.add_argument('--link', metavar='LINK', help='whose figures are told: else the first that is set, else the busiest')
    add_common(words, 'CSV on standard output too, in the place of the table', 'a picture (.svg, .png, .pdf): wait against utilization, or '
               'the second that is shown against the first')
    words.add_argument('--settled', action='store_true', help='say of each choice of values whether its goodput still changes at the end; '
                       'its first run takes about as long again')
    words.add_argument('--x', metavar='NAME.FIELD', help='in the picture, the values of this --set are across')
    words.add_argument('--log', metavar='AXES', help='in the picture, x, y or xy go by powers of ten')
    words.add_argument('--share', action='store_true', help='in the picture, the same axes in each panel')
    words.add_argument('--size', metavar='MM', help='of the picture, as 85mm or 180x120mm, with letters of 7 points; a .png has '
                       '300 dots an inch')
    words.add_argument('--kind', metavar='KIND', help='what the picture has of replicates: mean, cdf or box')
    words.add_argument('--print', metavar='DIR', dest='print', help='write scenarios and a list of jobs, run nothing')
    words.add_argument('--gather', metavar='DIR', help='the rows of the jobs of --print')
    words.add_argument('--expect', help=argparse.SUPPRESS)      # the version that the program has to be of: jobs say it
    return words


def add_common(words: Words, csv: str, plot: str) -> None:
    """The options that a sweep and a search have both; the helps of two differ."""
    words.add_argument('--over', action='append', default=[], metavar='NAME.FIELD=VALUE,..',
                       help='replicates, over which figures are averaged, as f2.start=100ms..1.08s/20ms')
    words.add_argument('--show', metavar='NAME.FIGURE,..',
                       help='the figures that are told, as f3.goodput,down.used,up.wait95,run.jain; a+b.FIGURE is a sum')
    words.add_argument('--skip', metavar='TIME', type=as_type(units.moment), default=0,
                       help='figures from this moment on')
    words.add_argument('--exact', action='store_true', help='all figures from traces: waits exact to the nanosecond, and slowly')
    words.add_argument('--engine', action='store_true', help='refuse figures for which a trace would be read')
    words.add_argument('-j', '--jobs', metavar='N', type=as_type(units.count), default=None,
                       help='runs side by side, else one for each processor')
    words.add_argument('-o', '--output', metavar='FILE', help='a row for each run as CSV')
    words.add_argument('--resume', metavar='FILE', help='as -o, but runs that have their row in FILE are not run again')
    words.add_argument('--csv', action='store_true', help=csv)
    words.add_argument('--plot', metavar='FILE', help=plot)
    words.add_argument('--on', metavar='ENGINE', help='who runs it: slurm, dask:HOST:PORT, parallel or parallel:HOST,..')
    words.add_argument('--folder', metavar='DIR', help='for --on slurm and parallel, one that all machines see; else a new one here')
    words.add_program('the program that is run')


def text_of(path: str, program: str | None) -> str:
    """A scenario's text; an image's is the one that the program writes."""
    source = scenario_bytes(path)
    if source.startswith(IMAGE_BEGINS):
        try:
            return scenario_text(source, path, program)
        except ProgramFailed as wrong:
            raise Wrong(f'{path}: {wrong.note or wrong}') from wrong
    return source.decode('latin-1')


def grid_of(given: argparse.Namespace, text: str, program: str, number: int | None = None) -> Grid:
    """The grid that the words ask for, by a program of this path, or Wrong. `number` is that of its format of figures; of None
    the program is asked, where that matters."""
    pattern = Pattern(text)
    pattern.own = vars(given).get('queues') or {}
    if not pattern.named('link') or not pattern.named('flow'):
        raise Wrong(f'{given.scenario} is no scenario: it has no link or no flow')
    settings = settings_of(given.sets, pattern, given.over)
    columns = tuple(columns_of(given.show, pattern)) if given.show else ()
    link = given.link or next((each.names[0] for each in settings if each.field in WHERE['link'] and not (each.of_shape or columns)), None)
    if link and pattern.sorts.get(link) != 'link':
        raise Wrong(f'--link {link!r}: the scenario has no such link, only {", ".join(pattern.named("link")[:12])}')
    if number is None:
        matters = (given.skip or any(column.figure.since > 1 for column in columns)) and not given.exact
        number = format_of(program) if matters else 1
    asked = AskedOfRun(program, link, given.skip, columns, given.exact, number, digest_of(program))
    asked.check()
    if given.engine and (wanted := asked.wants_trace() + [column.name for column in asked.wants_path()]):
        raise Wrong(f'--engine reads no trace, and {wanted[0]} wants one{" from this moment on" if given.skip else ""}: leave '
                    '--engine out')
    grid = Grid(pattern, settings, asked)
    check_skip(grid)
    if given.pair:
        pair_of(given.pair, grid)
    return grid


def check_skip(grid: Grid) -> None:
    """Refuses figures from a moment on which no run comes to. A job's one run has a row that says so."""
    ends = [value for each in grid.settings if each.field == 'end' for value in each.values] or [grid.pattern.end()]
    if grid.settings and grid.asked.skip >= max(ends) > 0:
        raise Wrong(f'--skip {spelled_time(grid.asked.skip)}: the scenario ends at {spelled_time(max(ends))}, and nothing of it is later')


def check_words(given: argparse.Namespace) -> None:
    """Refuses words that do not go together."""
    if bool(given.scenario) == bool(given.gather):
        raise Wrong('name one SCENARIO' if not given.scenario else '--gather takes no SCENARIO')
    if given.gather and (given.sets or given.over or given.print or given.on or given.resume or given.show):
        raise Wrong('--gather knows its sweep: it goes with -o, --csv, --plot and --pair alone')
    if given.settled and (given.print or given.gather):
        raise Wrong('--settled runs the program, so it goes without --print and --gather')
    if given.print and (given.plot or given.output or given.csv or given.resume or given.on):
        raise Wrong('--print runs nothing, so it goes without -o, --resume, --csv, --plot and --on')
    if given.link and given.show:
        raise Wrong(f'--show names the links of its figures, so it goes without --link: write --show {given.link}.used,{given.link}.wait50')
    check_common(given)


def check_common(given: argparse.Namespace) -> None:
    """Refuses words of `add_common` that do not go together."""
    if given.engine and given.exact:
        raise Wrong('--engine reads no traces and --exact reads all: name one of them')
    if given.output and given.resume:
        raise Wrong('--resume FILE writes FILE, so it goes without -o')
    if given.folder and (given.on or '').partition(':')[0] not in ('slurm', 'parallel'):
        raise Wrong('--folder is of --on slurm and --on parallel, as --on slurm --folder jobs.d')
    if given.jobs is not None and not 1 <= given.jobs <= 1_024:
        raise Wrong(f'-j {given.jobs} is out of range: from 1 to 1,024')
    if any(vars(given).get(word) for word in ('x', 'log', 'share', 'size', 'kind')) and not given.plot:
        raise Wrong('--x, --log, --share, --size and --kind are of --plot: name a picture')
    if given.plot and not given.plot.endswith(('.svg', '.png', '.pdf')):
        raise Wrong(f'--plot {given.plot}: the name ends with .svg, .png or .pdf')


def engine_of(given: argparse.Namespace) -> Runner:
    """Who runs the points."""
    name, _, rest = (given.on or '').partition(':')
    count = given.jobs or os.cpu_count() or 1
    if not given.on:
        return here(count)
    if name == 'slurm' and not rest:
        return jobs.by_slurm(given)
    if name == 'parallel':
        return jobs.by_parallel(given, count, rest or None)
    if name == 'dask':
        from tcpsim.sweeps.on_dask import by_dask
        return by_dask(rest)
    raise Wrong(f'--on {given.on!r} is no engine: write slurm, dask:HOST:PORT, parallel or parallel:HOST,HOST')


# ---- what is written

def looked_at(grid: Grid, rows: list, given: argparse.Namespace) -> dict[int, Thirds | None]:
    """Where it is asked for, whether the first run of each choice of values has settled, of those that have figures."""
    numbers = [number for number in range(0, len(rows), grid.replicates) if rows[number]['status'] == 'done'] if given.settled else []
    return pool.looked_at(grid, numbers, given.jobs)


def show(grid: Grid, rows: list, given: argparse.Namespace) -> None:
    """What comes to standard output: the rows, or where there are replicates their means, and differences."""
    looked = looked_at(grid, rows, given)
    if not (given.settled or given.gather) and sys.stderr is not None and sys.stderr.isatty():
        note('whether goodput still changes as the runs end was not looked at: --settled does')
    more = [SETTLED] if looked else []
    means = averaged(grid, rows) if grid.over else []
    both: list[Averaged] = pairs(grid, rows, pair_of(given.pair, grid)) if given.pair else []
    with output.opened() as file:
        if not means and not both:
            lines: list[dict] = [{**row, SETTLED: settled(looked, number)} for number, row in enumerate(rows)]
            file.write(csv_text(lines, grid.columns() + more) if given.csv else '\n'.join(table(grid, rows, looked)) + '\n')
        elif given.csv:
            lines = [{**each.row(), SETTLED: settled(looked, at * grid.replicates)} for at, each in enumerate([*(means or averaged(grid, rows)), *both])]
            file.write(csv_text(lines, titles(grid) + more))
        else:
            file.write('\n'.join(mean_table(grid, means, both, looked) if means else [*table(grid, rows, looked), *mean_table(grid, [], both)]) + '\n')


def check_all(rows: list) -> None:
    """Refuses rows some of which lack their figures for another reason than a refusal of the scenario."""
    failed = [row['status'] for row in rows if not is_answered(row)]
    if failed:
        raise Refused(f'{len(failed)} of {len(rows)} runs have no figures: {failed[0]}')


def run_and_write(run: Callable[[Rows, output.Output | None], None], grid: Grid, engine: Runner, given: argparse.Namespace, inputs: list,
                  progress: bool = True) -> list[dict]:
    """The rows of what `run` has run, which writes them into the file too that is named; what ends it early leaves those that were there
    in its journal."""
    path = given.resume or given.output
    if not path:
        rows = Rows(grid, engine, progress=progress)
        run(rows, None)
        return rows.in_order()
    journal, there, done = None, {}, False
    try:
        journal = journal_of(path, grid)
        ended = journal.ended if journal else []
        if given.resume:
            there = rows_there(path, ended, grid)
            if journal:
                journal.take(there.values())
        for each in [] if given.resume else filter(has_rows, ended):
            note(f'{tool()}: {output.printable(each)} has the rows of a sweep that was ended: --resume goes on with them')
        if there:
            note(f'{len(there)} of {len(grid.points)} runs have their row in {output.printable(path)}')
        with output.written(path, inputs) as file:
            rows = Rows(grid, engine, journal, there, progress)
            run(rows, file)
        done = True
    finally:
        if journal:
            journal.close(done)
    return rows.in_order()


def sweep(given: argparse.Namespace) -> None:
    """Runs the grid, or writes its jobs."""
    engine_of(given)            # refuses what is none
    text = text_of(given.scenario, given.program)
    if given.print:
        path = find_program(MODEL) if given.program == MODEL else given.program or found()
        grid = grid_of(given, text, path, None if is_program(path) else FORMATS['figures'])
        printed = jobs.print_jobs(grid, given)
        with output.opened() as file:
            file.write(f'{len(grid.points)} scenarios and {output.printable(printed)}\n')
        return
    grid = grid_to_run(given, text, lambda plain: range(len(plain.points)))
    if given.expect is not None:
        grid.asked = grid.asked._replace(version=given.expect)
    finish(grid, engine_of(given), given, list(inputs_of(given)))


def grid_to_run(given: argparse.Namespace, text: str, numbers: Callable[[Grid], Iterable[int]]) -> Grid:
    """The grid that the words ask for, with the program that runs it; `numbers` gives its points that are to be run."""
    plain = grid_of(argparse.Namespace(**{**vars(given), 'show': None, 'skip': 0, 'engine': False}), text, '', 1)
    program = find_program(given.program, lambda: map(plain.text, numbers(plain)))
    grid = grid_of(given, text, program)
    if given.on:
        grid.asked = grid.asked._replace(version=version_of(program))
        given.program = MODEL if given.program == MODEL else program
    say_traces(grid)
    return grid


def say_traces(grid: Grid) -> None:
    """Says on standard error for which columns a trace of each run is read."""
    wanted = grid.asked.wants_trace() + [column.name for column in grid.asked.wants_path()]
    if wanted and not grid.asked.exact:
        why = 'no table has them' if grid.asked.format > 1 or not grid.asked.skip else 'this program has no `figures --from`'
        note(f'{tool()}: each run\'s trace is read, for {", ".join(wanted[:8])}: {why}')


def finish(grid: Grid, engine: Runner, given: argparse.Namespace, inputs: list, progress: bool = True) -> None:
    """Runs the points, and writes what is asked for."""
    draw = drawing_of(grid, given, inputs) if given.plot else None
    rows = run_and_write(run_all, grid, engine, given, inputs, progress)
    show_and_draw(lambda: show(grid, rows, given), functools.partial(draw, grid, rows) if draw else None, given.plot, bool(given.size))
    check_all(rows)


def show_and_draw(show: Callable[[], None], draw: Callable[[], Figure] | None, path: str, in_print: bool = False) -> None:
    """Shows what came out, and draws it, also where nobody reads standard output any more."""
    closed = None
    try:
        show()
    except OutputClosed as wrong:
        closed = wrong
    if draw:
        from tcpsim.plot.files import PRINT, save
        save(draw(), path, PRINT * in_print)
    if closed:
        raise closed


def check_look(grid: Grid, look: Look) -> None:
    """Refuses a picture with too many panels, or whose words do not fit the sweep."""
    look.place_of_x(grid.chosen)
    if look.kind != 'mean' and not grid.over:
        raise Wrong(f'--kind {look.kind} draws replicates: give some by --over')
    panels = panel_count(grid.chosen, look)
    if panels > MOST_PANELS:
        raise Wrong(f'--plot would have {panels} panels, and {MOST_PANELS} is the most: leave values out, or average over them by --over')


def drawing_of(grid: Grid, given: argparse.Namespace, inputs: list[str]) -> Callable:
    """What draws a sweep, where the picture can be drawn."""
    look = look_of(given.x, given.log, given.share, given.size, given.kind)
    check_plot(given, inputs)
    check_look(grid, look)
    from tcpsim.plot.sweep import draw
    return lambda grid, rows: draw(grid, rows, look)


def check_plot(given: argparse.Namespace, inputs: Sequence[str | None]) -> None:
    """Refuses a picture that would be written over another file, or that cannot be drawn."""
    for each in inputs:
        if output.is_same(given.plot, each):
            raise Wrong(f'--plot {given.plot} would write over what is read, {each}')
    written = given.output or given.resume
    if written and os.path.realpath(given.plot) == os.path.realpath(written):
        raise Wrong(f'--plot {given.plot} and {"-o" if given.output else "--resume"} {written} are one file')
    if not importlib.util.find_spec('matplotlib'):
        raise Refused('--plot wants matplotlib: apt-get install python3-matplotlib, or another python3 that has it')


def gather(given: argparse.Namespace) -> None:
    """Writes the rows of jobs that are done."""
    kept = argparse.Namespace(**jobs.kept_of(given.gather))
    given.pair = kept.pair = given.pair or kept.pair
    grid = grid_of(kept, kept.scenario, '', kept.format)
    grid.asked = grid.asked._replace(digest=kept.program_sha256 or jobs.first_program(given.gather, grid))
    inputs = [entry.path for entry in os.scandir(given.gather) if entry.name.endswith(('.csv', '.json'))]
    finish(grid, jobs.gathered(given.gather), given, inputs, progress=False)


def main() -> None:
    """Does what the words ask for."""
    given = command_line().parse_args()
    if given.plot:
        go_on_with('matplotlib')
    check_words(given)
    (gather if given.gather else sweep)(given)
