"""tcpsim-flows: figures of each flow and each link of a run, as a table or as CSV.

Usage: bin/tcpsim-flows SCENARIO [TRACE] [--csv | --series STEP] [--from T] [--to T] [--busy | --all] [--flows F,..] [--partial]
                        [-o FILE] [--program PATH | --model]
       bin/tcpsim-flows SCENARIO --engine [--csv] [--busy | --all] [--flows F,..] [-o FILE] [--program PATH | --model]

SCENARIO is a text or an image, `-` is standard input. Without TRACE the program is run. The trace is read as it comes
and is not kept; with --engine there is none, and the figures are from `tcpsim figures`. --from and --to (times, as 5s
or 20ms) choose a part of the span, to which what happens at --to itself does not belong. A trace that is cut is
refused, or with --partial taken as far as it goes. --series writes as CSV time,what,number,figure,unit,value: a row for
each figure of each flow and of each link in each STEP, from time 0 or --from on. The figures have the names of the table of
`tcpsim figures`, and sum to it. --busy leaves out the links at which nothing was dropped and no packet waited longer than
the greatest takes to be sent. The table begins with what each bottleneck's flows get; it folds mice, and links that carried
little, which --all shows. --flows takes these flows alone, and Jain's index compares them.
"""
from __future__ import annotations

import argparse
import csv

from tcpsim import output
from tcpsim.command_line import Words, as_type
from tcpsim.cycle import words_of as words_of_cycle
from tcpsim.engine import EngineRun, engine_run
from tcpsim.fairness import in_words as of_flows
from tcpsim.figures import S, Figures, cycles, engine_figures, figures
from tcpsim.output import Output, aligned
from tcpsim.scenario import units
from tcpsim.settled import too_short
from tcpsim.summary import by_name, carried_little, opening
from tcpsim.traces.series import Rows
from tcpsim.traces.walk import flow_named
from tcpsim.whole_trace import inputs_of, opened_run

TRACE_COLUMNS = {
    'flow': (('delivered', 'bytes', '{:,}', 1), ('goodput', 'Mbit/s', '{:.3f}', 1e6),
             ('share of the bottleneck', 'share %', '{:.1f}', .01), ('bottleneck', 'of link', '{}', 0),
             ('sent', 'sent', '{:,}', 1), ('loss', 'loss %', '{:.2f}', .01), ('timeouts', 'timeouts', '{:,}', 1),
             ('sent again by fast retransmit', 'sent again: fast', '{:,}', 1),
             ('sent again by timeout', 'after timeouts', '{:,}', 1),
             ('least round trip', 'RTT ms: least', '{:.3f}', 1e6), ('median round trip', 'median', '{:.3f}', 1e6),
             ('95th percentile of round trips', '95th', '{:.3f}', 1e6),
             ('99th percentile of round trips', '99th', '{:.3f}', 1e6),
             ('took', 'took s', '{:.6f}', 1e9), ('completed', 'completed s', '{:.6f}', 1e9)),
    'link': (('utilization', 'utilization %', '{:.1f}', .01), ('greatest queue', 'queue: greatest', '{:,}', 1),
             ('mean queue', 'mean', '{:.2f}', 1), ('median delay in the queue', 'delay ms: median', '{:.3f}', 1e6),
             ('95th percentile of delay in the queue', '95th', '{:.3f}', 1e6),
             ('99th percentile of delay in the queue', '99th', '{:.3f}', 1e6), ('dropped', 'dropped', '{:,}', 1),
             ('loss', 'loss %', '{:.2f}', .01)),
}
ENGINE_COLUMNS = {
    'flow': (*TRACE_COLUMNS['flow'][:2], ('bottleneck', 'bottleneck', '{}', 0), TRACE_COLUMNS['flow'][4],
             *TRACE_COLUMNS['flow'][6:9], ('least timed round trip', 'timed RTT ms: least', '{:.3f}', 1e6),
             ('median timed round trip', 'median', '{:.3f}', 1e6),
             ('95th percentile of timed round trips', '95th', '{:.3f}', 1e6),
             ('99th percentile of timed round trips', '99th', '{:.3f}', 1e6), *TRACE_COLUMNS['flow'][-2:]),
    'link': (*TRACE_COLUMNS['link'][:-1],
             ('dropped as lost', 'as lost', '{:,}', 1), ('dropped as full', 'as full', '{:,}', 1),
             ('dropped by CoDel', 'by CoDel', '{:,}', 1), TRACE_COLUMNS['link'][-1]),
}


FEW = 10                # timed round trips, below which a table says how many they are
FOLDED = {'flow': 'mice have their line above', 'link': 'links carried less than a tenth of the busiest, and dropped nothing'}


def shown(form: str, scale: int, value: float | None) -> str:
    """A figure in words, `-` where there is none."""
    if value is None:
        return '-'
    return form.format(value / scale if scale not in (0, 1) else value)


def folded(rows: list) -> dict[str, list[str]]:
    """The flows and links that a table leaves out: mice, which its beginning has together, and links that carried little."""
    mice = [name for name, values in by_name(rows, 'flow').items() if values['compared'] == 'mouse']
    return {'flow': mice if len(mice) > 1 else [], 'link': carried_little(rows)}


def table(rows: list, columns_of: dict[str, tuple] = TRACE_COLUMNS, every: bool = False) -> list[str]:
    """The lines of the table of figures, of all flows and links or of those that are not folded."""
    lines, left = [*aligned(opening(rows)), ''], {} if every else folded(rows)
    for what, columns in columns_of.items():
        out = left.get(what, [])
        lines += aligned([[what] + [title for _, title, _, _ in columns]] + [
            [name] + [shown(form, scale, values[figure]) for figure, _, form, scale in columns]
            for name, values in by_name(rows, what).items() if name not in out])
        lines += [f'{len(out)} {FOLDED[what]}: --all shows them'] * bool(out) + ['']
    losses = [[name, figure, f'{value:,}'] for what, name, figure, _, value in rows
              if what == 'flow' and ' dropped as ' in figure and name not in left.get('flow', [])]
    lines += (aligned([['flow', 'lost', 'packets']] + losses) + ['']) if losses else []
    of_run = {figure: (unit, value) for what, _, figure, unit, value in rows if what == 'run'}
    counts = [value for unit, value in of_run.values() if unit == 'flows']
    lines += [f'{figure}: {shown("{:.4f}", 1, value)}, {of_flows(counts)}' for figure, (unit, value) in of_run.items() if unit == 'part']
    return lines + [f'{figure}: {value / S:.6f} s' for figure, (unit, value) in of_run.items() if unit == 'ns']


def few_timed(rows: list) -> list[str]:
    """A sentence on the flows whose timed round trips are so few that a median says little; none where there are none."""
    counts = {name: values.get('timed round trips') for name, values in by_name(rows, 'flow').items()}
    few = [f'{count} of {name}' for name, count in counts.items() if count and count < FEW]
    return [f'Timed round trips are few: {", ".join(few)}.'] if few else []


def write_csv(rows: list, file: Output) -> None:
    """Writes figures, one a row."""
    out = csv.writer(file, lineterminator='\n')
    out.writerow(('what', 'name', 'figure', 'unit', 'value'))
    for *words, value in rows:
        out.writerow((*words, '' if value is None else f'{value:.6f}' if isinstance(value, float) else value))


def write_series(run: Rows, file: Output, only_busy: bool = False, chosen: list[int] | None = None) -> None:
    """Writes the figures of each step, one a row."""
    kept = [(at, ','.join(map(str, (what, number, *figure)))) for at, (what, number, *figure) in enumerate(run.columns())
            if not (what == 'link' and only_busy and not run.links[number].is_busy())
            and not (what == 'flow' and chosen is not None and number not in chosen)]
    file.write('time,what,number,figure,unit,value\n')
    for step in run.steps():
        file.write(''.join([f'{step.begin},{words},{step.values[at]}\n' for at, words in kept]))


# ---- the command

def words_of(typed: list[str] | None = None) -> argparse.Namespace:
    """What the words ask for."""
    words, moment = Words(description='Figures of each flow and each link of a run.'), as_type(units.moment)
    words.add_argument('scenario', metavar='SCENARIO', help='a text or an image; - is standard input')
    words.add_trace()
    words.add_argument('--csv', action='store_true', help='one figure a row: what,name,figure,unit,value')
    words.add_argument('--series', metavar='STEP', type=moment,
                       help='CSV of each STEP, as 1s, a figure a row: time,what,number,figure,unit,value')
    words.add_argument('--from', dest='begin', metavar='T', type=moment,
                       help='count from here on, as 5s or 20ms; else from the first flow\'s start, with --series from 0')
    words.add_argument('--to', dest='end', metavar='T', type=moment, help='count up to here; else to the run\'s end')
    words.add_argument('--busy', action='store_true',
                       help='leave out links that dropped nothing and at which no packet waited longer than the greatest '
                       'takes to be sent')
    words.add_argument('--all', action='store_true', help='in the table mice and links that carried little too')
    words.add_argument('--flows', metavar='F,..', type=lambda word: word.split(','),
                       help='only these flows, by name or number; Jain\'s index compares them, whatever they are')
    words.add_argument('--engine', action='store_true',
                       help='from `tcpsim figures`, with no trace: of the whole run, percentiles at most 1/32 above the '
                       'exact ones. It has no share of the bottleneck, no loss and no drops of a flow, and round trips '
                       'of timed segments alone')
    words.add_output('the table or the CSV')
    given = words.parse_args(typed)
    if given.series == 0:
        words.error('--series: a step of 0 has no rows')
    if given.end is not None and given.end <= (given.begin or 0):
        words.error('--to is not behind --from')
    if given.engine and (given.trace is not None or given.partial):
        words.error('--engine takes no TRACE, nor --partial: the program runs the scenario')
    if given.engine and (given.begin, given.end, given.series) != (None, None, None):
        words.error('--engine has figures of the whole run: it goes without --from, --to and --series')
    return given


def run_of(given: argparse.Namespace) -> Figures:
    """The figures that the words ask for."""
    with opened_run(given.scenario, given.trace, given.program, given.partial, given.end) as (scenario, lines):
        if given.series is not None:
            return Rows(scenario, lines, given.series, given.begin, given.end)
        return Figures(scenario, lines, given.begin, given.end)


def write(given: argparse.Namespace, file: Output) -> None:
    """Writes what is asked for."""
    run: Figures | EngineRun = engine_run(given.scenario, given.program) if given.engine else run_of(given)
    chosen = list(dict.fromkeys(flow_named(run.scenario, name) for name in given.flows)) if given.flows else None
    if isinstance(run, Rows):
        write_series(run, file, given.busy, chosen)
        return
    rows = figures(run, given.busy, chosen) if isinstance(run, Figures) else engine_figures(run, given.busy, chosen)
    if given.csv:
        write_csv(rows, file)
    else:
        print('\n'.join(table(rows, ENGINE_COLUMNS if given.engine else TRACE_COLUMNS, given.all)), file=file)
        for words in [*few_timed(rows), *too_short(run, chosen), *map(words_of_cycle, cycles(run) if isinstance(run, Figures) else [])]:
            print(words, file=file)


def main() -> None:
    """Does what the words ask for."""
    given = words_of()
    with output.opened(given.output, inputs_of(given)) as file:
        write(given, file)
