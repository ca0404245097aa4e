"""The parts of a flow's completion time as rows and in words, beside those of the same flow alone on its paths."""
from __future__ import annotations

from collections import namedtuple
from collections.abc import Callable, Iterable, Sequence
from contextlib import AbstractContextManager

from tcpsim.causes import counted, seconds
from tcpsim.critical_path import (DELAY, PROPAGATION, QUEUE, SERIALIZATION, TIMER, TRIPS, CriticalPaths, Part, Path, Timeout,
                                  critical_paths)
from tcpsim.output import aligned
from tcpsim.scenario.text import Scenario

COLUMNS = ('flow', 'seconds', 'queue: others', 'own', 'serialization', 'propagation', 'timeouts', 'delayed ACKs', 'trips')
# A part: how many ns, which share of the whole, how many ns it is alone (None where that is not known).
Row = namedtuple('Row', 'part ns share alone')
# Runs the text of a scenario: its trace's lines.
Lines = Callable[[str], AbstractContextManager[Iterable[str]]]


class Breakdown:
    """A flow's path and its parts. `alone` is the path to the same byte where the flow has its paths for itself, or None; `awaits`
    says what the flow waits for where the trace ends, if it is not complete."""

    def __init__(self, walk: CriticalPaths, flow: int, alone: Path | None = None):
        self.path, self.alone = walk.path(flow), alone
        self.name = self.path.name
        self.total = walk.flows[flow].total
        self.flows = {each.name: number for number, each in enumerate(walk.scenario.flows)}    # of the scenario, for their colours
        self.awaits = '' if self.path.is_whole else walk.awaited(flow)

    def rows(self) -> list[Row]:
        """The parts, the greatest first; behind them those that there are alone only."""
        parts, whole = self.path.parts(), self.path.time
        alone = {} if self.alone is None else self.alone.parts()
        return [Row(part, ns, ns / whole if whole else 0., None if self.alone is None else alone.get(part, 0))
                for part, ns in {**parts, **{part: 0 for part in alone if part not in parts}}.items()]

    def trips(self) -> str:
        """Its round trips in words."""
        kinds = [f'{self.path.trips[kind]} {"" if kind.startswith("after") else "in "}{kind}' for kind in TRIPS if self.path.trips[kind]]
        return f'{counted(sum(self.path.trips.values()), "round trip")}: {", ".join(kinds)}'

    def against_alone(self) -> str:
        """How long it takes alone and here, and behind whose packets it waits longest."""
        waits = [row for row in self.rows() if row.part.kind == QUEUE and row.part.behind != self.name and row.ns]
        words = f'alone {self.alone.time / 1e9 if self.alone else 0:.6f} s, here {self.path.time / 1e9:.6f} s'
        if waits:
            words += f'; {waits[0].ns / 1e9:.6f} s of it behind packets of {waits[0].part.behind} in the queue of {waits[0].part.at}'
        return words

    def table(self) -> list[tuple[str, ...]]:
        """Its parts in words, titles first and the whole last: seconds, percent, the seconds alone where they are known, the part."""
        rows: list[tuple[str, ...]] = [
                ('seconds', '%', 'alone', 'part'),
                *((in_seconds(row.ns), f'{100 * row.share:.2f}', in_seconds(row.alone), words_of(row.part, self.name)) for row in self.rows()),
                (in_seconds(self.path.time), '100.00', in_seconds(self.alone.time if self.alone else None), 'in all')]
        return rows if self.alone else [(*row[:2], row[3]) for row in rows]

    def heading(self) -> str:
        """How long it took, from which line to which."""
        path = self.path
        if not path.acknowledged:
            return f'flow {self.unfinished()}'
        first, last = path.events[0], path.events[-1]
        return (f'flow {self.name}: {in_seconds(path.time)} s, from its start in line {first.line} at {in_seconds(first.time)} s to line {last.line} '
                f'at {in_seconds(last.time)} s, where {path.acknowledged} of {self.total} bytes are acknowledged')

    def lines(self) -> list[str]:
        """All that is told of it: its table, round trips and timeouts, and what it waits for."""
        if not self.path.acknowledged:
            return [self.heading()]
        rows = self.table()
        widths = [max(map(len, column)) for column in zip(*rows)]
        lines = ['  '.join([*(word.rjust(width) for word, width in zip(row[:-1], widths)), row[-1]]) for row in rows]
        timeouts = [line for timeout in self.path.timeouts for line in words_of_timeout(timeout)]
        return [self.heading(), *lines, self.trips(), *([self.against_alone()] if self.alone else []), *timeouts,
                *([] if self.path.is_whole else [self.unfinished()])]

    def unfinished(self) -> str:
        """Of a flow that is not complete how far it is and what it waits for."""
        return f'{self.name}: {self.path.acknowledged} of {self.total} bytes acknowledged; it waits for {self.awaits}'


def sums_of(each: Breakdown) -> list[int]:
    """The sums of a flow's parts, in the order of COLUMNS: in queues behind others and behind its own, and by their kinds."""
    sums = dict.fromkeys(('others', 'own', SERIALIZATION, PROPAGATION, TIMER, DELAY), 0)
    for part, ns in each.path.parts().items():
        sums[part.kind if part.kind != QUEUE else 'own' if part.behind == each.name else 'others'] += ns
    return list(sums.values())


def flows_table(found: Sequence[Breakdown]) -> list[str]:
    """A row for each flow, with its greatest part; behind them what those wait for that are not complete."""
    alone = any(each.alone for each in found)
    rows, greatest = [[*COLUMNS, *['alone'] * alone]], ['    %  greatest part']
    for each in found:
        rows.append([each.name, *(f'{ns / 1e9:.6f}' for ns in (each.path.time, *sums_of(each))), str(sum(each.path.trips.values())),
                     *[f'{each.alone.time / 1e9:.6f}' if each.alone else '-'] * alone])
        row = next(iter(each.rows()), None)
        greatest.append(f'{100 * row.share:5.1f}  {words_of(row.part, each.name)}' if row else '    -')
    return [f'{line}  {more}' for line, more in zip(aligned(rows), greatest)] + [each.unfinished() for each in found if not each.path.is_whole]


def in_seconds(ns: int | None) -> str:
    """Nanoseconds as seconds, to the nanosecond."""
    return '-' if ns is None else f'{ns / 10**9:.9f}'


def words_of(part: Part, flow: str) -> str:
    """A part of a flow's path in words."""
    if part.kind == QUEUE:
        return f'queue of {part.at}, behind {"its own packets" if part.behind == flow else f"packets of {part.behind}"}'
    return {SERIALIZATION: f'serialization on {part.at}', PROPAGATION: f'propagation on {part.at}',
            DELAY: f'delayed acknowledgement at {part.at}', TIMER: f'retransmission timer of {part.at}, {times(part.doubled)}'}[part.kind]


def times(doubled: int | None) -> str:
    """How often a timer was doubled."""
    return {0: 'not doubled', 1: 'doubled once', 2: 'doubled twice'}.get(doubled or 0, f'doubled {doubled} times')


def words_of_timeout(timeout: Timeout) -> list[str]:
    """A timeout in two lines: the timer and the loss, and why fast retransmit did not mend it."""
    loss = timeout.loss
    what = f'{loss.packet} was dropped at {loss.link} in line {loss.line} ({loss.reason})' if loss else 'nothing was lost'
    return [f'timeout in line {timeout.line}, {seconds(timeout.end - timeout.begin)} after line {timeout.set_line} set the timer, '
            f'{times(timeout.doubled)}: {what}', f'  {timeout.cause}: {timeout.found}']


def text_alone(scenario: Scenario, flow: int) -> str:
    """The scenario's text with this flow alone: its paths, their routes and losses, and nothing else."""
    links = {number for path in scenario.paths[flow] for number in path}
    nodes = {node for number in links for node in (scenario.links[number].source, scenario.links[number].to)}
    names = {scenario.nodes[node].name for node in nodes} | {scenario.links[number].name for number in links} | {scenario.flows[flow].name}
    kept = []
    for line in scenario.text.split('\n'):
        words = line.partition('#')[0].split()
        named = {'sim': 0, 'lose': 1, 'route': 3}.get(words[0], 1) if words else None
        if named is not None and names.issuperset(words[1:1 + named]):
            kept.append(line)
    return '\n'.join(kept) + '\n'


def path_alone(scenario: Scenario, flow: int, path: Path, lines_of: Lines) -> Path | None:
    """The path of the flow alone, up to the byte that its path here acknowledged last; None where that has none, or is not
    acknowledged alone."""
    if not path.acknowledged:
        return None
    text = text_alone(scenario, flow)
    with lines_of(text) as lines:
        walk = critical_paths(Scenario(text), lines, to=path.acknowledged - 1, stops=True)
    found = walk.path(0)
    return found if found.is_whole else None


def breakdowns(walk: CriticalPaths, wanted: Iterable[int], lines_of: Lines | None) -> list[Breakdown]:
    """Of each of these flows its parts, where `lines_of` is given beside those of the flow alone."""
    found = []
    for flow in wanted:
        alone = None if lines_of is None else path_alone(walk.scenario, flow, walk.path(flow), lines_of)
        found.append(Breakdown(walk, flow, alone))
    return found
