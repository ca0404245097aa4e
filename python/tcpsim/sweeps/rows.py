"""The runs of a sweep: its grid, what is asked of each run, and the row of its figures.

The figures are of the table that `tcpsim figures` writes, which makes no trace; a trace is read where a column is in no
table, and kept nowhere. Nothing but Python's standard library.
"""
from __future__ import annotations

import itertools
import re
import time as clock
from collections.abc import Callable, Iterable, Iterator, Mapping, Sequence
from typing import NamedTuple

from tcpsim.breakdown import Breakdown
from tcpsim.caller import Caller
from tcpsim.command_line import Refused, Wrong
from tcpsim.critical_path import critical_paths
from tcpsim.engine import BUSY, HEADING_BY_TIME, LAST_ROW, LONGEST_TABLE, PORTIONS, EngineRun, portions_in, written_table
from tcpsim.fairness import compared
from tcpsim.figures import Figures
from tcpsim.program import digest, digest_of, version_of
from tcpsim.scenario.text import Scenario, Unreadable
from tcpsim.scenario.units import BITS_NS, spelled_time
from tcpsim.settled import Thirds, thirds
from tcpsim.sweeps.columns import FROM, LINK, RUN, ShownFigure, table_loss
from tcpsim.sweeps.pattern import OwnQueue, Pattern, Setting
from tcpsim.whole_trace import BLOCK, ProgramFailed, Rest, Running, blocks, running

# The figures of a row where none are named. The first four are of one link, or of the whole run.
FIGURES = ('goodput_bit_s', 'utilization', 'wait_median_ns', 'wait_p99_ns', 'loss_percent', 'timeouts', 'jain', 'jain_flows')
OF_THE_LINK = FIGURES[1:4]
# What each row ends with: the question that it answers, and how a row of another one is told from it.
QUESTION = {'from_ns': 'from another moment on', 'scenario_sha256': 'of another scenario', 'options': 'by other options',
            'program_sha256': 'of another program'}
S = 10**9
WAITS = .3                                      # seconds that a row waits at most for runs behind it
Ran = list[tuple[int, dict]]                    # the numbers of points, each with the values of its row, or what else was found


class AskedOfRun(NamedTuple):
    """What is asked of each run: by which program, of which version where that is compared; of which link, else of the
    busiest; from which moment on; which columns, else FIGURES; and what of it stands in a table and what in a trace."""

    program: str
    link: str | None
    skip: int
    columns: tuple[ShownFigure, ...]
    exact: bool = False
    format: int = 1             # the number of the program's figures
    digest: str = ''            # of the program's file
    version: str | None = None
    queues: Mapping[str, Callable] = {}         # of links by name, the classes of Python's that are their queues

    def options(self) -> str:
        """The options on which a row depends and of which no other column tells."""
        return ' '.join([*(['--link', self.link] if self.link else []), *(['--exact'] if self.exact else []),
                         *(f'queues={link}:{maker.__name__}' for link, maker in self.queues.items())])

    def is_elsewhere(self) -> bool:
        """Whether the program is another one on this machine than where the sweep began."""
        return self.version is not None and (version_of(self.program), digest_of(self.program)) != (self.version, self.digest)

    def by_table(self, column: ShownFigure) -> bool:
        """Whether a column is of the table."""
        return not self.exact and column.by_table(self.format, self.skip)

    def wants_table(self) -> bool:
        """Whether a table is made."""
        return any(map(self.by_table, self.columns)) if self.columns else not self.exact and self.format >= (FROM if self.skip else 1)

    def wants_trace(self) -> list[str]:
        """The columns that need a trace."""
        if not self.columns:
            return [] if self.wants_table() else list(FIGURES)
        return [column.name for column in self.columns if not self.by_table(column) and not column.figure.path]

    def wants_path(self) -> list[ShownFigure]:
        """The columns for which a further pass over a trace finds where the time of flows went."""
        return [column for column in self.columns if column.figure.path]

    def is_table(self) -> bool:
        """Whether all of it stands in the table that the program writes, which is read in a moment."""
        return not (self.queues or self.wants_trace() or self.wants_path())

    def check(self) -> None:
        """Wrong where a column stands neither in this program's table nor in a trace."""
        for column in self.columns:
            if column.figure.path:
                if self.skip:
                    raise Wrong(f'--show {column.name}: it is of the whole time of a flow, from its start on: leave --skip out')
            elif not self.by_table(column) and column.figure.trace is None:
                why = '--exact reads traces' if self.exact else f'from {spelled_time(self.skip)} on' if self.skip else 'so far'
                raise Wrong(f'--show {column.name}: {why}, and no trace has it; it is of the tables of a program that prints '
                            f'`figures {FROM}` with --version, and this one prints `figures {self.format}`' if not self.exact else
                            f'--show {column.name}: {why}, and no trace has it: leave --exact out')


# ---- one run

class RunFrom(EngineRun):
    """The figures of a run from a moment on. The span begins there."""

    def __init__(self, scenario: Scenario, table: str, skip: int, portions: Sequence[list[int]] = ()):
        if skip and table.endswith(f'{LAST_ROW}-\n') and ',completed,ns,-' not in table:
            raise Unreadable(f'every flow is complete before {skip / S:g} s: nothing of it is at or after {skip / S:g} s')
        if skip >= scenario.end:
            raise Unreadable(f'the scenario ends at {scenario.end / S:g} s: nothing of it is at or after {skip / S:g} s')
        super().__init__(scenario, table, portions)
        if skip:
            if skip >= max(self.end, self.begin + 1):
                raise Unreadable(f'the run ends at {self.end / S:g} s: nothing of it is at or after {skip / S:g} s')
            self.begin = skip

    def goodput(self, number: int) -> float | None:
        """Bits a second that came to the receiver in order, of the time in the span in which the flow was under way."""
        start, completed = max(self.begin, self.scenario.flows[number].start), self.flows[number]['completed', 'ns']
        until = self.end if completed is None else min(self.end, completed)
        return self.flows[number]['delivered', 'bytes'] * BITS_NS / (until - start) if start < until else None


class Bench:
    """What a process keeps from one run of a sweep to the next: the files of the programs that it calls, and a scenario most of which
    the next one has too."""

    def __init__(self) -> None:
        self.caller = Caller(LONGEST_TABLE)
        self._first: Scenario | None = None

    def written(self, text: str, asked: AskedOfRun, patience: float | None = None) -> Iterator[bytes | Exception | None]:
        """What the program writes of a text that is asked for its table, or what went wrong; before that None where it has not ended
        within `patience` seconds."""
        try:
            if not asked.queues and asked.is_elsewhere():
                raise Refused(f'{asked.program} is another here: {version_of(asked.program) or "it says no version"!r} and not '
                              f'{asked.version!r}, {digest_of(asked.program)} and not {asked.digest}')
            if asked.queues or not asked.wants_table():
                yield b''
                return
            words = [asked.program, 'figures', *(['--from', spelled_time(asked.skip)] if asked.skip else [])]
            yield from self.caller.output_of(words, text.encode('latin-1'), patience)
        except (Refused, MemoryError, OSError) as wrong:
            yield wrong

    def scenario(self, text: str) -> Scenario:
        """A scenario's text, read."""
        if self._first is None:
            self._first = Scenario(text)
        return self._first.changed(text)


def row_of(text: str, asked: AskedOfRun) -> dict[str, object]:
    """The row of one run: its figures, or in `status` why there are none."""
    bench = Bench()
    written, = bench.written(text, asked)
    return own_row(text, asked) if asked.queues or written is None else row_by(text, asked, bench, written)


def row_by(text: str, asked: AskedOfRun, bench: Bench, written: bytes | Exception) -> dict[str, object]:
    """The row of a run of whose table this was written."""
    try:
        if isinstance(written, Exception):
            raise written
        row: dict[str, object] = {'status': 'done'}
        if asked.wants_table():
            row.update(values_of(RunFrom(bench.scenario(text), written_table(written), asked.skip), asked))
        if asked.wants_trace():
            with running([asked.program, 'run'], text.encode('latin-1')) as process:
                row.update(values_of(trace_figures(text, process, asked.skip), asked))
        if asked.wants_path():
            with running([asked.program, 'run'], text.encode('latin-1')) as process:
                row.update(path_values(Scenario(text), blocks(process.read, 'the program\'s trace', Scenario(text), ended=process.check), asked))
        return row
    except ProgramFailed as wrong:
        return {'status': wrong.note or str(wrong)}
    except Refused as wrong:
        return {'status': str(wrong)}
    except MemoryError:
        return {'status': 'no memory for its figures'}
    except OSError as wrong:
        return {'status': f'cannot be run: {wrong.strerror}'}


def own_row(text: str, asked: AskedOfRun) -> dict[str, object]:
    """The row of a run with queues that are classes of Python's, by the model in this process. What such a queue does wrong is raised."""
    from tcpsim.api.by_model import OwnQueueRun
    from tcpsim.api.errors import Refused as TextRefused
    try:
        run, scenario = OwnQueueRun(text, asked.queues), Scenario(text)
        row: dict[str, object] = {'status': 'done'}
        scenario.replace_queues(run.names)
        if asked.wants_table():
            row.update(values_of(RunFrom(scenario, run.table(asked.skip), asked.skip), asked))
        if asked.wants_trace():
            row.update(values_of(Figures(scenario, (line.rstrip('\n') for line in run.pieces()), asked.skip or None), asked))
        if asked.wants_path():
            row.update(path_values(scenario, ([line.rstrip('\n')] for line in run.pieces()), asked))
        return row
    except TextRefused as wrong:
        return {'status': f'refused {wrong.code} line {wrong.line}'}
    except Unreadable as wrong:
        return {'status': str(wrong)}


def trace_figures(text: str, process: Running, skip: int) -> Figures:
    """The figures of the trace that a program writes, read as it is made."""
    first = process.read(BLOCK)
    if not first:
        process.check()
        raise Unreadable('the program wrote nothing')
    scenario = Scenario(text)
    lines = blocks(Rest(first, process.read).read, 'the program\'s trace', scenario, ended=process.check)
    return Figures(scenario, itertools.chain.from_iterable(lines), skip or None)


def path_values(scenario: Scenario, lines: Iterable[list[str]], asked: AskedOfRun) -> dict[str, object]:
    """Where the time of flows went, as far as it is asked for."""
    numbers = {flow.name: number for number, flow in enumerate(scenario.flows) if any(flow.name in each.names for each in asked.wants_path())}
    walk = critical_paths(scenario, itertools.chain.from_iterable(lines), list(numbers.values()))
    found = {name: Breakdown(walk, number) for name, number in numbers.items()}
    return {column.title: column.path_value(found) for column in asked.wants_path()}


def values_of(run: Figures | EngineRun, asked: AskedOfRun) -> dict[str, object]:
    """The figures that this run has of what is asked."""
    traced = isinstance(run, Figures)
    if asked.columns:
        return {column.title: column.value(run, run.scenario) for column in asked.columns
                if not column.figure.path and asked.by_table(column) != traced}
    at = link_of(run, asked.link)
    used = used_of(run, at)
    values = (RUN['goodput'].of(run, 0), used, LINK['wait50'].of(run, at), LINK['wait99'].of(run, at),
              RUN['loss'].of(run, 0) if isinstance(run, Figures) else table_loss(run, 0), *(RUN[name].of(run, 0) for name in FIGURES[5:]))
    return {'link': run.scenario.links[at].name, **dict(zip(FIGURES, values))}


def used_of(run: Figures | EngineRun, link: int) -> float | None:
    """The part of the span in which a link was sending."""
    if isinstance(run, Figures):
        return run.links[link].sending(run.end) / (run.end - run.begin)
    return run.over_span(link, BUSY)


def link_of(run: Figures | EngineRun, name: str | None) -> int:
    """The link of this name, else the one of the flows' data that is busiest, the first where equal."""
    if name is not None:
        return [link.name for link in run.scenario.links].index(name)
    paths = sorted({number for there, _ in run.scenario.paths for number in there})
    used = {number: used_of(run, number) for number in paths}
    return max(paths, key=lambda number: -1. if (part := used[number]) is None else part)


def thirds_by(text: str, asked: AskedOfRun, bench: Bench) -> Thirds | None:
    """The goodput in the first third and in the last of a run that has a row: it is run once more, and the program counts by time,
    which takes as long again. None where the program cannot, or the span has no thirds."""
    scenario = bench.scenario(text)
    begin = max(asked.skip, min(flow.start for flow in scenario.flows))
    step = (scenario.end - begin) // PORTIONS
    if step < 1 or asked.queues:
        return None
    try:
        written, = bench.caller.output_of([asked.program, 'figures', f'--from={begin}', f'--every={step}'], text.encode('latin-1'))
        table, _, by_time = (written or b'').partition(HEADING_BY_TIME)
        run = RunFrom(scenario, written_table(table), asked.skip, portions_in([by_time], begin, step, len(scenario.flows)))
        return thirds(run, compared(run).flows)
    except (Refused, MemoryError, OSError):
        return None


# ---- all runs

class Grid:
    """The points of a sweep, for each its values and its text, made when it is asked for; and what is asked of their runs.
    The last settings are those of --over: of each choice of the others there are `replicates` points, one after another."""

    def __init__(self, pattern: Pattern, settings: Sequence[Setting], asked: AskedOfRun):
        self.pattern, self.settings, self.asked = pattern, list(settings), asked
        self._first: Scenario | None = None
        self.points = list(itertools.product(*(each.values for each in settings)))
        self.chosen = [each for each in settings if each.option != '--over']
        self.over = [each for each in settings if each.option == '--over']
        self.replicates = 1
        for each in self.over:
            self.replicates *= len(each.values)

    def text(self, number: int) -> str:
        """The scenario of a point."""
        return self.pattern.point(self.settings, self.points[number])

    def queues(self, number: int) -> dict[str, Callable]:
        """The links of a point whose queue is a class of Python's, with the class: of a link whose queue is set where that is the value."""
        found = {link: next(iter(makers.values())) for link, makers in self.pattern.own.items()}
        for each, value in zip(self.settings, self.points[number]):
            for link in set(each.names) & set(found) if each.field == 'queue' else ():
                if isinstance(value, OwnQueue):
                    found[link] = self.pattern.own[link][value.kind]
                else:
                    del found[link]
        return found

    def asked_of(self, number: int) -> AskedOfRun:
        """What is asked of the run of a point."""
        return self.asked._replace(queues=self.queues(number)) if self.pattern.own else self.asked

    def scenario(self, number: int) -> Scenario:
        """The scenario of a point, read."""
        text = self.text(number)
        self._first = self._first or Scenario(text)
        read = self._first.changed(text)
        names = [link.name for link in read.links]
        read.replace_queues({names.index(link): maker.__name__ for link, maker in self.queues(number).items()})
        return read

    def labels(self, number: int) -> dict[str, str]:
        """The values of a point in words, by the keys of the settings."""
        return {each.key: each.label(value) for each, value in zip(self.settings, self.points[number])}

    def name(self, number: int) -> str:
        """A file's name for the point."""
        words = re.sub('[:/()]+', '-', '_'.join(self.labels(number).values()))
        return f'{number + 1:0{len(str(len(self.points)))}}' + f'_{words}'[:80] * bool(words)

    def figures(self) -> list[str]:
        """The titles of a row's figures."""
        return [column.title for column in self.asked.columns] or list(FIGURES)

    def link(self) -> list[str]:
        """The title of the link that a row's figures are of, where that is not in their names."""
        return [] if self.asked.columns else ['link']

    def columns(self) -> list[str]:
        """The titles of a row as CSV."""
        return [*self.value_titles(self.settings), 'status', *self.link(), *self.figures(), *QUESTION]

    def value_titles(self, settings: Iterable[Setting]) -> list[str]:
        """The titles of the settings' values: the word, and behind it its numbers."""
        return [title for each in settings for title in (each.key, *each.titles())]

    def begin_of(self, number: int, text: str) -> dict[str, object]:
        """What a row begins and ends with, whatever came out: the values, in words and in numbers, and which question it is of.
        `text` is that of the point."""
        row: dict[str, object] = {}
        for each, value in zip(self.settings, self.points[number]):
            row[each.key] = each.label(value)
            row.update(each.numbers(value, text))
        return {**row, **dict(zip(QUESTION, (self.asked.skip, digest(text.encode('latin-1')), self.asked_of(number).options(), self.asked.digest)))}

    def run(self, numbers: Sequence[int], bench: Bench) -> Iterator[Ran]:
        """The numbers of points, each with the values of its row, with the figures of its run; some at a time, within WAITS of the end of
        their runs. As many programs run before the first table is read: what a program leaves of a processor's caches costs more than
        to read a table."""
        texts = list(map(self.text, numbers))
        ended: list[tuple[int, str, AskedOfRun, bytes | Exception]] = []
        since = 0.
        for number, text in zip(numbers, texts):
            asked = self.asked_of(number)
            for table in bench.written(text, asked, max(0, since + WAITS - clock.monotonic()) if ended else None):
                if table is not None:
                    ended.append((number, text, asked, table))
                if table is None or not asked.is_table():
                    yield self.rows_by(ended, bench)
                    ended = []
            if len(ended) == 1:
                since = clock.monotonic()
        if ended:
            yield self.rows_by(ended, bench)

    def rows_by(self, ended: Iterable[tuple[int, str, AskedOfRun, bytes | Exception]], bench: Bench) -> Ran:
        """The numbers of points, each with the values of its row; of each its text and what the program wrote."""
        return [(number, {**self.begin_of(number, text), **(own_row(text, asked) if asked.queues else row_by(text, asked, bench, table))})
                for number, text, asked, table in ended]

    def look(self, numbers: Sequence[int], bench: Bench) -> Iterator[list[tuple[int, Thirds | None]]]:
        """The numbers of points, each with the thirds of its run."""
        for number in numbers:
            yield [(number, thirds_by(self.text(number), self.asked_of(number), bench))]

    def row(self, number: int, figures: dict[str, object]) -> dict[str, str]:
        """A run's row, each value as CSV has it; `figures` have the other values too where it was run here."""
        begin = {} if figures.keys() >= QUESTION.keys() else self.begin_of(number, self.text(number))
        return {name: as_csv(value) for name, value in {**begin, **figures}.items()}


def as_csv(value: object) -> str:
    """A value as a cell of CSV."""
    return '' if value is None else f'{value:.6f}' if isinstance(value, float) else str(value)
