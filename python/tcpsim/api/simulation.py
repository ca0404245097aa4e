"""`run`: a simulation of a scenario, and what can be asked of it."""
from __future__ import annotations

import contextlib
import functools
import os
import tempfile
from collections.abc import Callable, Iterator, Mapping
from typing import IO, TYPE_CHECKING

from tcpsim import output
from tcpsim.api.difference import Difference, Side, queue_at
from tcpsim.api.engines import Engine, check_own, check_queues, engine_of, reads_of
from tcpsim.api.errors import Wrong, as_api, wanted
from tcpsim.api.events import Names, Trace
from tcpsim.api.results import Results, Stalls
from tcpsim.api.scenarios import ScenarioText, Value, as_word, scenario_of
from tcpsim.api.series import TimeSeries
from tcpsim.api.shown import PlottedRun, ReplayPage
from tcpsim.api.times import FlowTime
from tcpsim.breakdown import breakdowns
from tcpsim.critical_path import critical_paths
from tcpsim.engine import EngineRun
from tcpsim.figures import engine_figures
from tcpsim.scenario import units
from tcpsim.scenario.text import Scenario
from tcpsim.stalls import stalls_of
from tcpsim.traces.series import STEPS, Series
from tcpsim.traces.walk import flow_named
from tcpsim.whole_trace import blocks

if TYPE_CHECKING:
    from tcpsim.api.by_model import OwnQueueRun
    from tcpsim.api.progress import Told


def moment(option: str, time: str | int | None) -> int | None:
    """A time in nanoseconds: a word with its unit, as 20ms, or nanoseconds themselves. Wrong, with the option's name, where
    it is neither."""
    if time is None:
        return None
    try:
        if isinstance(time, str):
            return units.moment(time)
        if isinstance(time, bool) or int(time) != time or time < 0:
            raise Wrong(f'{time!r} is no time: write a word with its unit, as "20ms", or nanoseconds')
        return int(time)
    except Wrong as wrong:
        raise Wrong(f'{option}: {wrong}') from None
    except (TypeError, ValueError, OverflowError):
        raise Wrong(f'{option}: {time!r} is no time: write a word with its unit, as "20ms", or nanoseconds') from None


def run(scenario: ScenarioText | str | os.PathLike, engine: str | None = None, queues: Mapping[str, Callable[..., object]] | None = None,
        progress: Told | None = None) -> Simulation:
    """A simulation of a scenario: of a net that was built or read, of a file, or of a text.

    `engine` is 'program', 'model', or a program's path; where it is left out the program runs, or the model where there is
    none, which `.engine` says. `queues` gives links, by name, a class of Python's for their queue (docs/PYTHON.md); the model
    alone runs these, and a terminal or a notebook shows how far they are; `progress`, where it is given, is called instead, with
    the time that has passed in the run and its end, in ns. What is asked of the simulation is computed when it is asked for.

    Refused where the scenario is refused; Wrong where a word is; NoProgram where there is nothing to run it, or where the
    model would take longer than a minute unasked.
    """
    return Simulation(scenario_of(scenario), engine, queues, progress)


class Simulation:
    """A run of a scenario: `figures`, `trace`, `series`, `stalls`, `time`, `diff`, `plot`, `replay`. `scenario` is what is run, and `engine`
    what runs it: 'program' or 'model'. The same scenario gives the same run, always."""

    def __init__(self, scenario: ScenarioText, engine: str | None = None, queues: Mapping[str, Callable[..., object]] | None = None,
                 progress: Told | None = None):
        self.scenario, self._progress = scenario, progress
        self._own, self._queues = None, dict(queues or {}) if check_queues(queues) else {}
        if self._queues:
            check_own(engine, scenario.text)
            self._own = self._own_run()
            self._engine = Engine('model', '')
        else:
            self._engine = engine_of(engine, scenario.text)
            self._engine.check(scenario.text)
        self._kept: IO[bytes] | None = None     # the model's trace, which takes long to make: a file without a name

    def _own_run(self) -> OwnQueueRun:
        from tcpsim.api.by_model import OwnQueueRun
        return OwnQueueRun(self.scenario.text, self._queues, self._progress)

    def __getstate__(self) -> dict:
        """What is pickled: the classes of queues by their names, no trace, and nobody who is told of it."""
        return {**vars(self), '_own': None, '_kept': None, '_progress': None}

    def __setstate__(self, state: dict) -> None:
        vars(self).update(state)
        self._own = self._own_run() if self._queues else None

    @property
    def engine(self) -> str:
        """'program' or 'model'."""
        return self._engine.name

    def _parsed(self) -> Scenario:
        """The scenario as readers of traces want it."""
        parsed = Scenario(self.scenario.text)
        if self._own:
            parsed.replace_queues(self._own.names)
        return parsed

    # ---- the trace

    @contextlib.contextmanager
    def _blocks(self) -> Iterator[Iterator[list[str]]]:
        """The trace's lines, block by block."""
        scenario, name = self._parsed(), 'the model\'s trace'
        if self._kept:
            yield blocks(reads_again(self._kept), name, scenario)
        elif self._own:
            yield blocks(self._keeps(reads_of(self._own.pieces())), name, scenario)
        else:
            keep = self._keeps if self.engine == 'model' else lambda read: read
            with self._engine.trace(self.scenario.text, scenario, keep) as lines:
                yield lines

    @contextlib.contextmanager
    def _lines(self) -> Iterator[Iterator[str]]:
        """The trace's lines, one by one."""
        with self._blocks() as found:
            yield (line for lines in found for line in lines)

    def _keeps(self, read: Callable[[int], bytes]) -> Callable[[int], bytes]:
        """Keeps what is read, so that it is made once; where it is not read to its end it is made again."""
        file = tempfile.TemporaryFile()

        def keep(size: int) -> bytes:
            block = read(size)
            if block:
                file.write(block)
            else:
                file.flush()
                self._kept = file
            return block
        return keep

    @property
    def trace(self) -> Trace:
        """The events of the run, as records, streamed."""
        return Trace(self._blocks, Names(self._parsed()))

    # ---- figures

    @functools.cached_property
    def figures(self) -> Results:
        """The figures of each flow, each link and the run."""
        table = self._own.table() if self._own else self._engine.table(self.scenario.text)
        if self._own:
            return Results(EngineRun(self._parsed(), table, self._own.portions))
        return Results(EngineRun(self._parsed(), table, functools.partial(self._engine.portions, self.scenario.text)))

    def series(self, step: str | int, begin: str | int | None = None, end: str | int | None = None) -> TimeSeries:
        """The run by time, a row for each step, as '10ms', from `begin` to `end`: each flow's window and goodput, each
        link's queue. Times are words with units, or nanoseconds. Wrong where the step is 0, where there are more than a million
        steps, or where nothing of the run is in that time."""
        since, until, length = moment('begin', begin), moment('end', end), moment('step', step)
        if not length:
            raise Wrong('step: a series wants a step above 0, as "10ms"')
        if since is not None and until is not None and until <= since:
            raise Wrong(f'end: {units.spelled_time(until)} is not after the begin, {units.spelled_time(since)}')
        with as_api():
            self._check_steps(length, since, until)
            with self._lines() as lines:
                return TimeSeries(Series(self._parsed(), lines, length, since, until))

    def _check_steps(self, step: int, begin: int | None, end: int | None) -> None:
        """Wrong where a series has too many steps, before any is made. The figures tell when a run ends before its scenario."""
        begin = min(flow.start for flow in self.scenario.parsed.flows) if begin is None else begin
        end = min(self.scenario.end_ns if end is None else end, self.scenario.end_ns)
        if -(-(end - begin) // step) > STEPS and -(-(min(end, self.figures.end_ns) - begin) // step) > STEPS:
            raise Wrong(f'step: {units.spelled_time(step)} is too short: the series has more than {STEPS:,} steps, so take a longer '
                        'step, or a part by `begin` and `end`')

    def stalls(self, longer: str | int = '200ms', flow: str | int | None = None) -> Stalls:
        """The spans in which a flow had no new acknowledgement for longer than that, each with its cause, as a list that shows
        as a table: `flow`, `begin`, `end`, `length` (ns), `cause`, `found`, and `positions` for the debugger's goto."""
        parsed, least = self._parsed(), moment('longer', longer) or 0
        with as_api():
            only = None if flow is None else parsed.flows[flow_named(parsed, str(flow))].name
            with self._lines() as lines:
                return Stalls(row for row in stalls_of(parsed, lines, least) if only in (None, row.flow))

    def time(self, flow: str | int, to: int | None = None, alone: bool = True) -> FlowTime:
        """Where the time of a flow went, to its last new acknowledgement or to that of the byte `to`: `parts`, `events`, `timeouts`,
        `frame()` and `plot()`. With `alone` the flow is run alone on its paths too, where the scenario has others."""
        parsed = self._parsed()
        with as_api():
            number = flow_named(parsed, str(flow))
            with self._lines() as lines:
                walk = critical_paths(parsed, lines, [number], to)
            found, = breakdowns(walk, [number], self._lines_alone if alone and len(parsed.flows) > 1 else None)
        return FlowTime(found)

    @contextlib.contextmanager
    def _lines_alone(self, text: str) -> Iterator[Iterator[str]]:
        """The trace's lines of a part of the scenario, by the same engine and with the same queues."""
        links = {link.name for link in Scenario(text).links}
        queues = {name: queue for name, queue in self._queues.items() if name in links}
        engine = 'model' if self._own else self._engine.path
        with Simulation(ScenarioText(text), engine, queues)._lines() as lines:
            yield lines

    def diff(self, other: Simulation) -> Difference:
        """Where this run and another part, and the figures that differ: `sentence`, `events`, `positions`, `figures`. It is true where
        the runs differ."""
        with as_api(), self._lines() as ours, other._lines() as theirs:
            return Difference(self._side(ours), other._side(theirs))

    def _side(self, lines: Iterator[str]) -> Side:
        queue = functools.partial(queue_at, self.scenario, None if self._own else self._engine.path, self._queues)
        return Side(self._parsed(), lines, engine_figures(self.figures._run), queue)

    # ---- pictures and pages

    def plot(self, *panels: str, **options: Value) -> PlottedRun:
        """A picture of the run, which a notebook shows: of the panels window, sequence, timer, queue, delay, delay-cdf,
        utilization and progress, else of the first choice. Options are those of tcpsim-plot: `flows` and `links` (names),
        `begin` and `end` (times), `longer`, `title`, `log`, `whole`. Wants matplotlib."""
        wanted('matplotlib')
        from tcpsim import plot
        from tcpsim.plot.choice import drawable, title_of
        from tcpsim.plot.style import add_signs
        from tcpsim.traces.curves import Run
        parsed = self._parsed()
        for name, there in (('flows', self.scenario.flows), ('links', self.scenario.links)):
            check_names(name, options.get(name), there)
        with as_api():
            given = plot.words_of(words_of_plot(panels, options))
            with self._lines() as lines:
                curves = Run(parsed, lines)
        add_signs(reason for link in curves.links for _, reason, *_ in link.drops)
        title = drawable(given.title) if given.title else title_of(drawable(self.scenario.name), curves)
        with as_api():
            figure = plot.draw(plot.picture_of(given, curves), given.panels, title)
        return PlottedRun(figure)

    def replay(self, file: str | os.PathLike | None = None, begin: str | int | None = None,
               end: str | int | None = None) -> ReplayPage:
        """A page on which the run moves, which a notebook shows, and which is written to `file` where that is given. It
        shows the events from `begin` on and before `end`, 200,000 at most."""
        from tcpsim.replay.page import page
        from tcpsim.replay.recording import Part
        parsed, begin, end = self._parsed(), moment('begin', begin) or 0, moment('end', end)
        with as_api():
            with self._lines() as lines:
                part = Part(parsed, lines, begin, end)
            text = page(self.scenario.name.replace('_', ' '), parsed, part)
        if file is not None:
            with output.written(os.fspath(file)) as out:
                out.write(text)
        return ReplayPage(text, len(part.lines), None if file is None else os.fspath(file))

    # ---- in words

    def __repr__(self) -> str:
        own, links = self._own.names if self._own else {}, self.scenario.parsed.links
        queues = ''.join(f', {name} at {links[number].name}' for number, name in own.items())
        return f'<a run by the {self.engine}{queues}, of {self.scenario!r}>'

    def _repr_html_(self) -> str:
        return self.figures._repr_html_()


def reads_again(file: IO[bytes]) -> Callable[[int], bytes]:
    """A reader of a file's blocks from its beginning, beside others of the same file."""
    at = 0

    def read(size: int) -> bytes:
        nonlocal at
        block = os.pread(file.fileno(), size, at)
        at += len(block)
        return block
    return read


def check_names(option: str, names: Value, there: Mapping[str, object]) -> None:
    """Wrong where an option of plot names what the scenario has not."""
    unknown = [name for name in ([] if names is None else as_word(names).split(',')) if name not in there]
    if unknown:
        raise Wrong(f'{option}: the scenario has no {option[:-1]} {unknown[0]}; it has {", ".join(there)}')


def words_of_plot(panels: tuple[str, ...], options: Mapping[str, Value]) -> list[str]:
    """The words of tcpsim-plot's command line."""
    words = ['-', '-o', 'shown.png']
    if panels:
        words.append(f'--panels={",".join(panels)}')
    for name, value in options.items():
        option = {'begin': '--from', 'end': '--to'}.get(name, f'--{name.replace("_", "-")}')
        if name not in ('flows', 'links', 'begin', 'end', 'longer', 'title', 'log', 'whole'):
            raise TypeError(f'plot() has no option {name!r}; it has flows, links, begin, end, longer, title, log, whole')
        if value is True:
            words.append(option)
        elif value is not None and value is not False:
            words.append(f'{option}={value}ns' if isinstance(value, int) else f'{option}={as_word(value)}')
    return words
