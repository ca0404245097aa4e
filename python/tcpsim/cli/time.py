"""tcpsim-time: where the time of each flow went, by its critical path.

Usage: bin/tcpsim-time SCENARIO [TRACE] [--flow NAMES] [--to BYTE] [--path] [--csv] [--alone | --no-alone] [--partial]
                       [-o FILE] [--program FILE | --model]
       bin/tcpsim-time SCENARIO [TRACE] [SCENARIO [TRACE]].. --plot FILE.png|.svg|.pdf [--flow NAMES] [--to BYTE] ..

A path goes from the acknowledgement that completed the flow back from cause to cause to its start. Its parts sum to the
completion time, without a rest. Without --flow there is a row for each flow. With --flow, and of a scenario with one flow,
each part has a row, the greatest first, beside what it is where the flow is alone on its paths. Without TRACE the program is run.
"""
from __future__ import annotations

import argparse
import contextlib
import csv
import os
from collections.abc import Iterable

from tcpsim import output
from tcpsim.breakdown import Breakdown, breakdowns, flows_table, in_seconds, times, words_of
from tcpsim.causes import counted, seconds
from tcpsim.command_line import Refused, Words, Wrong, as_type, go_on_with
from tcpsim.critical_path import Event, Part, critical_paths
from tcpsim.output import Output
from tcpsim.program import found
from tcpsim.scenario.text import Scenario
from tcpsim.scenario.units import count
from tcpsim.traces.walk import flow_named, opened
from tcpsim.whole_trace import lines_of_text

PICTURES = '.png', '.svg', '.pdf'


def words_of_tool() -> argparse.Namespace:
    """What the words ask for."""
    words = Words(description='Where the time of each flow went: its critical path, from the acknowledgement that completed it '
                  'back to its start.')
    words.add_argument('inputs', metavar='SCENARIO [TRACE]', nargs='+', help='a text, - is standard input; without TRACE the program is run')
    words.add_argument('--flow', metavar='NAMES', action='append', help='these flows, by names or numbers with commas between them, also '
                                                                         'where it is said again: a row for each part')
    words.add_argument('--to', metavar='BYTE', type=as_type(count), help='up to the acknowledgement of this byte; else of all')
    words.add_argument('--path', action='store_true', help='the events of the path, with their lines and the debugger\'s goto')
    words.add_argument('--csv', action='store_true',
                       help='flow,part,at,behind,doubled,ns,percent,alone; with --path '
                            'flow,line,time,event,number,at,part,part at,behind,ns; times in nanoseconds')
    words.add_argument('--alone', action='store_true', default=None, help='beside each flow alone on its paths, also where a trace is given '
                                                                          'or each flow has one row')
    words.add_argument('--no-alone', action='store_false', dest='alone', help='run no flow alone')
    words.add_argument('--plot', metavar='FILE', help='a picture in the table\'s place, .png, .svg or .pdf: a bar for each flow; of several '
                                                      'scenarios below each other')
    words.add_argument('--partial', action='store_true', help='take a trace that is cut, as far as it goes')
    words.add_output('the table or the CSV')
    words.add_program('the program that is run where no trace is given, and for flows alone')
    given = words.parse_args()
    if not given.plot and len(given.inputs) > 2:
        words.error('one SCENARIO and its TRACE at most; with --plot several')
    if given.plot and not given.plot.endswith(PICTURES):
        words.error(f'--plot {given.plot}: the name ends with .png, .svg or .pdf')
    if given.plot and (given.output or given.csv or given.path or given.alone):
        words.error('--plot draws a picture alone: it goes without -o, --csv, --path and --alone')
    return given


def runs_of(given: argparse.Namespace) -> list[tuple[str, str | None]]:
    """The scenarios that are named, each with its trace or None. One of two is the trace; of a picture each that begins as one."""
    if not given.plot:
        return [(given.inputs[0], (given.inputs[1:] or [None])[0])]
    runs: list[tuple[str, str | None]] = []
    for path in given.inputs:
        if runs and runs[-1][1] is None and begins_as_trace(path):
            runs[-1] = runs[-1][0], path
        else:
            runs.append((path, None))
    return runs


def begins_as_trace(path: str) -> bool:
    """Whether a file begins with a number, as no scenario does."""
    if not os.path.isfile(path):
        return False
    with open(path, 'rb') as file:
        return file.read(1).isdigit()


def breakdowns_of(given: argparse.Namespace, scenario_path: str, trace: str | None) -> tuple[Scenario, list[Breakdown], bool]:
    """The scenario, the flows that are asked for with their parts, and whether each part has a row."""
    words = argparse.Namespace(**{**vars(given), 'scenario': scenario_path, 'trace': trace})
    with opened(words) as (scenario, lines):
        wanted = range(len(scenario.flows)) if given.flow is None else [flow_named(scenario, name) for name in ','.join(given.flow).split(',')]
        walk = critical_paths(scenario, lines, wanted, given.to)
    by_part = given.flow is not None or len(scenario.flows) == 1
    alone = (by_part and trace is None and len(scenario.flows) > 1 and not given.plot) if given.alone is None else given.alone
    return scenario, breakdowns(walk, wanted, (lambda text: lines_of_text(text, given.program)) if alone else None), by_part


# ---- tables

def write_csv(found: list[Breakdown], file: Output) -> None:
    """A row for each part of each flow, and one for the whole."""
    out = csv.writer(file, lineterminator='\n')
    out.writerow(('flow', 'part', 'at', 'behind', 'doubled', 'ns', 'percent', 'alone'))
    for each in found:
        for row in each.rows():
            out.writerow((each.name, *row.part, row.ns, f'{100 * row.share:.6f}', row.alone))
        out.writerow((each.name, 'whole', None, None, None, each.path.time, '100.000000' if each.path.time else None,
                      each.alone.time if each.alone else None))


# ---- paths

def words_of_event(event: Event) -> str:
    """What an event is: `tx data 4000` is where a link begins to send the segment."""
    return event.kind if event.kind in ('start', 'rto', 'delack') else f'{event.kind} {event.number}'


def words_of_spans(event: Event, flow: str) -> str:
    """What the time since the event before it on the path was spent on; of a wait the packets of each flow in the order of time."""
    sums: dict[Part, int] = {}
    for part, begin, end in event.spans:
        sums[part] = sums.get(part, 0) + end - begin
    return ', '.join(f'{seconds(ns)} {words_of(part, flow)}' for part, ns in sums.items() if ns)


def write_path(each: Breakdown, file: Output) -> None:
    """The events of a flow's path, each with its line, which the debugger's goto takes."""
    rows = [('line', 'time s', 'event', 'at', 'since the event before')]
    rows += [(f'goto {event.line}', in_seconds(event.time), words_of_event(event), event.at, words_of_spans(event, each.name))
             for event in each.path.events]
    widths = [max(map(len, column)) for column in zip(*rows)]
    print(f'flow {each.name}: {counted(len(each.path.events), "event")}', file=file)
    for row in rows:
        print('  '.join([row[0].ljust(widths[0]), row[1].rjust(widths[1]), row[2].ljust(widths[2]), row[3].ljust(widths[3]), row[4]]).rstrip(),
              file=file)
    if not each.path.is_whole:
        print(each.unfinished(), file=file)


def write_path_csv(found: list[Breakdown], file: Output) -> None:
    """A row for each span of each event, and one for an event without."""
    out = csv.writer(file, lineterminator='\n')
    out.writerow(('flow', 'line', 'time', 'event', 'number', 'at', 'part', 'part at', 'behind', 'ns'))
    for each in found:
        for event in each.path.events:
            words = each.name, event.line, event.time, event.kind, event.number, event.at
            for part, begin, end in event.spans:
                out.writerow((*words, part.kind, part.at, part.behind if part.doubled is None else times(part.doubled), end - begin))
            if not event.spans:
                out.writerow((*words, None, None, None, None))


def write(given: argparse.Namespace, file: Output) -> None:
    """Writes what is asked for of one run."""
    _, found, by_part = breakdowns_of(given, *runs_of(given)[0])
    if given.csv:
        (write_path_csv if given.path else write_csv)(found, file)
    elif given.path or by_part:
        for place, each in enumerate(found):
            print(end='\n' * bool(place), file=file)
            if given.path:
                write_path(each, file)
            else:
                print('\n'.join(each.lines()), file=file)
    else:
        print('\n'.join(flows_table(found)), file=file)


def draw(given: argparse.Namespace) -> bytes:
    """The picture's bytes."""
    try:
        from tcpsim.plot.bars import draw as draw_bars
        from tcpsim.plot.choice import distinct
        from tcpsim.plot.files import content_of
    except ImportError as wrong:
        raise Refused('--plot wants matplotlib: apt-get install python3-matplotlib, or another python3 that has it') from wrong
    runs = runs_of(given)
    found = [(name, breakdowns_of(given, *run)[1]) for name, run in zip(distinct([path for path, _ in runs]), runs)]
    return content_of(draw_bars(found), given.plot)


def all_inputs(given: argparse.Namespace) -> Iterable[str | None]:
    """The files that the words have it read."""
    return (*given.inputs, given.program or found())


def main() -> None:
    """Does what the words ask for."""
    given = words_of_tool()
    if given.plot and given.inputs.count('-') > 1:
        raise Wrong('standard input has one scenario: - is named twice')
    if given.plot:
        go_on_with('matplotlib')
    with contextlib.ExitStack() as opens:
        file = opens.enter_context(output.opened(given.plot or given.output, all_inputs(given)))
        if given.plot:
            file.write(draw(given))
        else:
            write(given, file)
