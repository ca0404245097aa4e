"""tcpsim-stalls: each span without a new acknowledgement, its cause and how to see it.

Usage: bin/tcpsim-stalls SCENARIO [TRACE] [--partial] [--longer 200ms] [--flow F] [--summary] [--csv] [-o FILE]
                         [--program FILE | --model]
       bin/tcpsim-stalls --causes

Without TRACE the program is run. `--summary` writes a line for each flow: how many stalls, how long in all, and by cause.
`--causes` prints the rule of each cause.
"""
from __future__ import annotations

import argparse
import csv

from tcpsim import output
from tcpsim.causes import CAUSES, counted, name_of, rule_of, seconds
from tcpsim.command_line import Words, as_type
from tcpsim.cycle import words_of as words_of_cycle
from tcpsim.output import Output, aligned
from tcpsim.scenario.units import moment
from tcpsim.stalls import LONGER, walk_of
from tcpsim.traces.walk import flow_named, opened
from tcpsim.whole_trace import inputs_of


MOST_TIMEOUTS = 10      # in no stall, that are named
# A cause as a column is headed.
SHORT = {'a loss was left to the timer': 'left to the timer', 'fast retransmit took a round trip': 'a round trip',
         'a retransmission was lost': 'retransmission lost', 'a delayed acknowledgement was waited for':
         'delayed acknowledgement', 'the timer had doubled': 'timer doubled', 'an acknowledgement was lost':
         'acknowledgement lost', 'its packets waited in one queue': 'waited in one queue',
         'the receive window was full': 'receive window full'}


def commands(positions: list[int]) -> list[str]:
    """The commands of the debugger's prompt that go to each position, from wherever it is."""
    return [f'goto {position}' for position in positions]


def write_csv(rows: list, file: Output) -> None:
    """Writes spans, one a row."""
    out = csv.writer(file, lineterminator='\n')
    out.writerow(('flow', 'from', 'to', 'ns', 'cause', 'found', 'commands'))
    for *words, positions in rows:
        out.writerow((*words, '; '.join(commands(positions))))


def words_of_others(others: list) -> str:
    """Says which timeouts are in no stall: the flow and moment of each."""
    named = [f'{flow} at {time / 10**9:.9f} s' for flow, time in others[:MOST_TIMEOUTS]]
    more = [f'and {len(others) - MOST_TIMEOUTS} more'] if len(others) > MOST_TIMEOUTS else []
    where = 'is in no stall but in a shorter span' if len(others) == 1 else 'are in no stall but in shorter spans'
    return f'{counted(len(others), "timeout")} {where}: {", ".join(named + more)}'


def write_table(rows: list, others: list, longer: int, file: Output) -> None:
    """Three lines a stall: its row, what was found, the commands of `tcpsim debug`. Below them the timeouts in no stall."""
    width = max([4, *(len(row.flow) for row in rows)])
    print(f'{"flow".ljust(width)}  {"from s":>16}  {"to s":>16}  {"long s":>14}  cause', file=file)
    for row in rows:
        begin, end, length = (f'{time / 10**9:.9f}' for time in (row.begin, row.end, row.length))
        print(f'{row.flow.ljust(width)}  {begin:>16}  {end:>16}  {length:>14}  {row.cause}', file=file)
        print(f'{"".ljust(width)}    {row.found}', file=file)
        print(f'{"".ljust(width)}    debug: {", ".join(commands(row.positions))}', file=file)
    print(f'{counted(len(rows), "stall")} longer than {seconds(longer)}', file=file)
    if others:
        print(words_of_others(others), file=file)


def summary_of(flows: list[str], rows: list) -> list[tuple]:
    """Of each flow its name, how many stalls it has, their ns in all, and both by the cause's name."""
    found: list[tuple] = []
    for flow in flows:
        own = [row for row in rows if row.flow == flow]
        causes: dict[str, tuple[int, int]] = {}
        for row in own:
            count, ns = causes.get(row.cause, (0, 0))
            causes[row.cause] = count + 1, ns + row.length
        found.append((flow, len(own), sum(row.length for row in own), causes))
    return found


def write_summary(summary: list[tuple], longer: int, file: Output) -> None:
    """A line for each flow: stalls, seconds, and of each cause that there is how often and how many seconds."""
    names = [name for name in map(name_of, CAUSES) if any(name in causes for *_, causes in summary)]
    lines = [['flow', 'stalls', 'seconds', *(SHORT.get(name, name) for name in names)]]
    for flow, count, ns, causes in summary:
        cells = [f'{causes[name][0]:,} in {causes[name][1] / 10**9:.3f}' if name in causes else '-' for name in names]
        lines.append([flow, f'{count:,}', f'{ns / 10**9:.3f}', *cells])
    print('\n'.join(aligned(lines)), file=file)
    total = sum(count for _, count, *_ in summary)
    print(f'{total:,} {"stall" if total == 1 else "stalls"} longer than {seconds(longer)}', file=file)


def write_summary_csv(summary: list[tuple], file: Output) -> None:
    """A row for each flow; times in nanoseconds."""
    out, names = csv.writer(file, lineterminator='\n'), list(map(name_of, CAUSES))
    out.writerow(('flow', 'stalls', 'ns', *(f'{name}: {what}' for name in names for what in ('stalls', 'ns'))))
    for flow, count, ns, causes in summary:
        out.writerow((flow, count, ns, *(part for name in names for part in causes.get(name, (0, 0)))))


def words_of() -> argparse.Namespace:
    """What the words ask for."""
    words = Words(description='Each span of a flow without a new acknowledgement, and its cause.')
    words.add_argument('scenario', metavar='SCENARIO', nargs='?', help='a text; - is standard input')
    words.add_trace()
    words.add_argument('--longer', metavar='TIME', type=as_type(moment), default=LONGER,
                       help='spans longer than this (default 200ms)')
    words.add_argument('--flow', metavar='F', help='only this flow, by its name or number')
    words.add_argument('--summary', action='store_true',
                       help='a line for each flow: stalls, seconds, and both by cause; with --csv a row')
    words.add_argument('--csv', action='store_true', help='flow,from,to,ns,cause,found,commands; times in nanoseconds')
    words.add_output('the table or the CSV')
    words.add_argument('--causes', action='store_true', help='print the rule of each cause')
    given = words.parse_args()
    if given.scenario is None and not given.causes:
        words.error('SCENARIO is missing')
    return given


def rows_of(given: argparse.Namespace) -> tuple[list, list, list, list]:
    """The flows that the words ask for, by name, the rows of their stalls, their timeouts in no stall, and their cycles of timeouts."""
    with opened(given) as (scenario, lines):
        only = None if given.flow is None else scenario.flows[flow_named(scenario, given.flow)].name
        walk = walk_of(scenario, lines, given.longer)
        return ([flow.name for flow in scenario.flows if only in (None, flow.name)],
                [row for row in walk.rows if only in (None, row.flow)], sorted(one for one in walk.others if only in (None, one[0])),
                [cycle for cycle in walk.cycles() if only in (None, cycle.flow)])


def main() -> None:
    """Does what the words ask for."""
    given = words_of()
    with output.opened(given.output, inputs_of(given)) as file:
        if given.causes:
            for cause in CAUSES:
                print(f'{name_of(cause)}\n    {rule_of(cause)}', file=file)
            return
        flows, rows, others, cycles = rows_of(given)
        if given.summary and given.csv:
            write_summary_csv(summary_of(flows, rows), file)
        elif given.summary:
            write_summary(summary_of(flows, rows), given.longer, file)
        elif given.csv:
            write_csv(rows, file)
        else:
            write_table(rows, others, given.longer, file)
            for cycle in cycles:
                print(words_of_cycle(cycle), file=file)
