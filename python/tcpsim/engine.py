"""A run's figures by names, from the table that `tcpsim figures` writes: no trace is made or read.

docs/FORMATS.md has the table. Used by figures.py and sweeps; nothing but Python's standard library. All times are
nanoseconds, all sizes bytes.
"""
from __future__ import annotations

import functools
import itertools
import operator
import re
from collections.abc import Callable, Iterable, Sequence

from tcpsim.command_line import MODEL
from tcpsim.program import find_program
from tcpsim.scenario.text import Scenario, Unreadable
from tcpsim.scenario.units import BITS_NS, HEADER_BYTES
from tcpsim.whole_trace import BLOCK, ProgramFailed, naming, running, scenario_bytes, scenario_text

LONGEST_TABLE = 1 << 26         # bytes
HEADING = 'what,number,figure,unit,value'
HEADING_BY_TIME = b'time,what,number,figure,unit,value\n'
BUSY, WAITED = ('busy', 'ns'), ('waited', 'packet-ns')
LAST_ROW = 'run,,end,ns,'
PORTIONS = 30           # of a run's span, for each of which it is told what each flow delivered
# The figures that a table has (docs/FORMATS.md), and whether there may be none.
OF_A_FLOW = {('start', 'ns'): False, ('delivered', 'bytes'): False, ('completed', 'ns'): True, ('sent', 'segments'): False,
             ('sent again by fast retransmit', 'segments'): False, ('sent again by timeout', 'segments'): False,
             ('timeouts', 'times'): False, ('round trips', 'times'): False,
             **{(f'{which} round trip{"s" * (which[0] == "9")}', 'ns'): True
                for which in ('least', 'median', '95th percentile of', '99th percentile of', 'greatest')}}
OF_A_LINK = {**{(figure, 'packets'): False for figure in (
                 'offered', 'dropped as lost', 'dropped as full', 'dropped by CoDel', 'sent packets', 'greatest queue')},
             ('sent bytes', 'bytes'): False, BUSY: False, WAITED: False,
             **{(f'{which} delay in the queue', 'ns'): True
                for which in ('median', '95th percentile of', '99th percentile of', 'greatest')}}
OF_THE_RUN = {('events', 'events'): False, ('end', 'ns'): False}
REASONS = ('dropped as lost', 'dropped as full', 'dropped by CoDel')


def table_of(source: bytes, path: str) -> str:
    """The table of a scenario's bytes, as the program of this path writes it."""
    try:
        with running([path, 'figures'], source) as process:
            return written_table(process.read_all(LONGEST_TABLE))
    except ProgramFailed as wrong:
        if wrong.ended == 2:
            raise Unreadable(f'{path} has no subcommand `figures`: it is older than this script') from wrong
        raise


def written_table(written: bytes) -> str:
    """The table of what a program wrote."""
    if not written:
        raise Unreadable('the program wrote nothing: no table of figures')
    return written.decode('ascii', 'replace')


def portions_of(path: str, source: bytes, first: Callable[[], None] | None, run: EngineRun) -> list[list[int]]:
    """What each flow delivers in each of the PORTIONS of a run's span, of a further run by the program of this path, whose process
    does `first` before; none where the program is older than its option, or the span too short."""
    step = (run.end - run.begin) // PORTIONS
    if not step:
        return []
    try:
        with running([path, 'figures', f'--from={run.begin}', f'--every={step}', '--series'], source, first) as process:
            return portions_in(iter(lambda: process.read(BLOCK), b''), run.begin, step, len(run.flows), process.check)
    except ProgramFailed:
        return []


def portions_in(blocks: Iterable[bytes], begin: int, step: int, flows: int, ended: Callable[[], None] = lambda: None) -> list[list[int]]:
    """What each flow delivered in each portion, of the rows by time of these blocks. `ended` raises where what wrote them
    failed."""
    found, rest = [[0] * flows for _ in range(PORTIONS)], b''
    for block in blocks:
        *lines, rest = (rest + block).split(b'\n')
        for time, _, number, _, _, value in (line.split(b',') for line in lines if b',delivered,' in line):
            found[min((int(time) - begin) // step, PORTIONS - 1)][int(number)] += int(value)
    ended()
    return found


class Layout:
    """What stands where in the tables of a scenario. All have the same lines but for their values, so what a table lacks is found out
    once for a sweep of thousands."""

    def __init__(self, table: str):
        heading, *lines = table.splitlines() or ['']
        self._places: dict[tuple[str, str], dict[tuple[str, str], int]] = {}       # which value each figure is, by what and number
        for at, line in enumerate(lines):
            what, number, figure, unit = (*line.split(','), '', '', '', '')[:4]
            of = self._places.setdefault((what, number), {})
            if not re.fullmatch('([^,]*,){4}(-|[0-9]+)', line) or (figure, unit) in of:
                heading = line
                break
            of[figure, unit] = at
        if heading != HEADING or not lines:
            raise Unreadable(f'the program wrote no table of figures: {heading[:100]}')
        if not lines[-1].startswith(LAST_ROW) or not table.endswith('\n'):
            raise Unreadable(f'the table of figures is cut: it ends with {lines[-1][:100]}')
        names = [line[:line.rindex(',') + 1] for line in lines]
        self._lengths = list(map(len, names))
        self._text = '%s\n'.join([HEADING + '\n' + names[0].replace('%', '%%'), *(name.replace('%', '%%') for name in names[1:]), ''])
        self._sorts: dict[tuple, tuple] = {}

    def values(self, table: str) -> list[int | None] | None:
        """Those of a table with these lines, None where there is none; None of another one."""
        words = [line[length:] for line, length in zip(table[len(HEADING) + 1:].split('\n'), self._lengths)]
        try:
            found = [None if word == '-' else int(word) for word in words] if self._text % (*words,) == table else None
        except (TypeError, ValueError):         # fewer lines, or words that are no numbers
            return None
        every = ''.join(words)      # of digits and nothing else, while int takes signs, spaces and _ too
        return found if found and every.count('-') == found.count(None) and every.replace('-', '').isdecimal() else None

    def parts(self, values: list[int | None], flows: int, links: int) -> list[dict]:
        """The values by figure and unit: of each flow, of each link, and of the run."""
        if (flows, links) not in self._sorts:
            self._sorts[flows, links] = self._sorted(flows, links)
        must, parts = self._sorts[flows, links]
        if None in must[0](values):
            at = next(at for at in must[1] if values[at] is None)
            of, figure = next((of, figure) for of, its in self._places.items() for figure, place in its.items() if place == at)
            raise lacking(of, figure)
        return [dict(zip(figures, read(values))) for figures, read in parts]

    def _sorted(self, flows: int, links: int) -> tuple[tuple[operator.itemgetter, list[int]], list[tuple[list, operator.itemgetter]]]:
        """What reads the values that there have to be, with their places, and of each part its figures and what reads them."""
        wanted = {**{('flow', str(n)): OF_A_FLOW for n in range(flows)}, **{('link', str(n)): OF_A_LINK for n in range(links)},
                  ('run', ''): OF_THE_RUN}
        must, parts = [], []
        for of, its in wanted.items():
            there = self._places.get(of, {})
            for figure, may_lack in its.items():
                if figure not in there:
                    raise lacking(of, figure)
                must += [] if may_lack else [there[figure]]
            parts.append((list(there), operator.itemgetter(*there.values())))
        if len(self._places) != len(wanted):
            raise Unreadable('the table of figures is that of another scenario')
        return (operator.itemgetter(*must), must), parts


def lacking(of: tuple[str, str], figure: tuple[str, str]) -> Unreadable:
    """What a table is refused for that has no value for a figure."""
    return Unreadable(f'the table of figures lacks {" ".join(filter(None, of))}: {" ".join(figure)}')


LAYOUTS: list[Layout] = []      # that of the last table


def read_table(table: str, flows: int, links: int) -> list[dict]:
    """The values of a whole table by figure and unit, None where there is none: of each flow, of each link, and of the run."""
    for layout in LAYOUTS:
        values = layout.values(table)
        if values is not None:
            return layout.parts(values, flows, links)
    LAYOUTS[:] = layout, = Layout(table),
    return layout.parts(layout.values(table) or [], flows, links)


class EngineRun:
    """The figures of a whole run: `flows` and `links`, in the order of their numbers, have a value by figure and unit.
    The span is that of figures.py: from the first flow's start to the last event where every flow is complete, else to
    the scenario's end."""

    def __init__(self, scenario: Scenario, table: str, portions: Callable[[EngineRun], Sequence[list[int]]] | Sequence[list[int]] = ()):
        self._portions = portions
        count, links = len(scenario.flows), len(scenario.links)
        *parts, run = read_table(table, count, links)
        self.flows, self.links = parts[:count], parts[count:]
        self.last, self.events = run['end', 'ns'], run['events', 'events']
        done = all(flow['completed', 'ns'] is not None for flow in self.flows)
        self.scenario = scenario
        self.begin = min(flow.start for flow in scenario.flows)
        self.end = max(self.last if done else scenario.end, self.begin + 1)
        # Past the last event a link can be busy to the scenario's end, for less than its longest packet takes.
        self.beyond = scenario.end - self.last if done else None

    def goodput(self, number: int) -> float | None:
        """Bits a second that came to the receiver in order, from the flow's start to its completion."""
        start, completed = self.scenario.flows[number].start, self.flows[number]['completed', 'ns']
        until = self.end if completed is None else completed
        return self.flows[number]['delivered', 'bytes'] * BITS_NS / (until - start) if start < until else None

    def completed(self, number: int) -> int | None:
        """When a flow was complete; None where it was not."""
        return self.flows[number]['completed', 'ns']

    def portions(self) -> Sequence[list[int]]:
        """What each flow delivered in each of the span's PORTIONS; none where it is not told."""
        return self._portions(self) if callable(self._portions) else self._portions

    def dropped(self, number: int) -> int:
        """Packets that a link dropped."""
        return sum(self.links[number][reason, 'packets'] for reason in REASONS)

    def data_dropped(self) -> int | None:
        """Segments that were dropped at any link; None where a link dropped something to which acknowledgements come too."""
        there, back = (set(itertools.chain.from_iterable(paths)) for paths in zip(*self.scenario.paths))
        if any(map(self.dropped, there & back)):
            return None
        return sum(self.dropped(number) for number in range(len(self.links)) if number not in back)

    def is_busy(self, number: int) -> bool:
        """Whether a link dropped a packet, or one waited longer than the greatest that can come to it takes to be sent."""
        longest = self.links[number]['greatest delay in the queue', 'ns']
        return self.dropped(number) > 0 or (longest or 0) > self.longest(number)

    def over_span(self, number: int, figure: tuple[str, str]) -> float | None:
        """What was counted to the scenario's end, over the span; None where that ends earlier and it cannot be told
        whether the link was busy in between."""
        value = self.links[number][figure]
        if value and self.beyond is not None and self.beyond <= self.longest(number):
            return None
        return value / (self.end - self.begin)

    def longest(self, number: int) -> int:
        """Nanoseconds that the greatest packet takes that can come to a link."""
        sizes = [HEADER_BYTES + (flow.mss if number in there else 0)
                 for flow, (there, back) in zip(self.scenario.flows, self.scenario.paths) if number in there + back]
        return -(-max(sizes, default=0) * BITS_NS // self.scenario.links[number].rate)


def engine_run(path: str, program: str | None = None) -> EngineRun:
    """The figures of a scenario's file, a text or an image (`-`: standard input)."""
    source = scenario_bytes(path)
    with naming(path, source=source):
        program = find_program(program, lambda: [scenario_text(source, 'the scenario', MODEL)])
        table = table_of(source, program)
        return EngineRun(Scenario(scenario_text(source, path, program)), table, functools.partial(portions_of, program, source, None))
