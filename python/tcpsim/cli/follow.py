"""tcpsim-follow: the life of one segment and of its acknowledgements, as a table or as CSV.

Usage: bin/tcpsim-follow SCENARIO [TRACE] --flow F --byte B [--csv] [--partial] [-o FILE] [--program FILE | --model]

The segment is the one that has byte B. The table says when it was offered, where it waited, for how long
and behind how many, when each link began to send it, when it arrived or why it was dropped, why it was
sent again, how it was answered and when it was acknowledged. Without TRACE the program is run.
"""
from __future__ import annotations

import argparse
import csv

from tcpsim import output
from tcpsim.command_line import Words, as_type
from tcpsim.follow import Follow, Segment, follow
from tcpsim.output import Output
from tcpsim.scenario.units import count
from tcpsim.traces.walk import flow_named, opened
from tcpsim.whole_trace import inputs_of


def write_table(walk: Follow, segment: Segment, file: Output) -> None:
    """Writes the rows of a segment."""
    rows = [('line', 'time s', 'packet', 'what', 'at', '')]
    rows += [(str(row.line), f'{row.time / 10**9:.9f}', row.packet, row.event, row.at, row.words) for row in segment.table()]
    widths = [max(map(len, column)) for column in zip(*rows)]
    for row in rows:
        words = [row[0].rjust(widths[0]), row[1].rjust(widths[1])]
        words += [word.ljust(width) for word, width in zip(row[2:], widths[2:])]
        print('  '.join(words).rstrip(), file=file)
    print(file=file)
    write_sums(walk, segment, file)


def write_sums(walk: Follow, segment: Segment, file: Output) -> None:
    """Writes where the time went."""
    whole, parts, reasons = walk.sums(segment)
    width = max(len(f'{whole / 10**9:.9f}'), 12)
    for name, time in parts.items():
        print(f'{name.ljust(12)} {time / 10**9:>{width}.9f} s', file=file)
    for reason, time in reasons:
        print(f'{"".ljust(12)} {time / 10**9:>{width}.9f} s of it: {reason}', file=file)
    until = 'its acknowledgement' if segment.done is not None else \
        'the end of the run, never acknowledged' if walk.ended else \
        'the last line of the trace, which has no end; not acknowledged so far'
    print(f'{"whole".ljust(12)} {whole / 10**9:>{width}.9f} s, from the first offering to {until}', file=file)


def write_csv(walk: Follow, segment: Segment, file: Output) -> None:
    """Writes the rows as CSV."""
    out = csv.writer(file, lineterminator='\n')
    out.writerow(('line', 'time', 'packet', 'event', 'at', 'ns', 'behind', 'words'))
    for row in segment.table():
        out.writerow((row.line, row.time, row.packet, row.event, row.at, row.span, row.behind, row.words))
    whole, parts, reasons = walk.sums(segment)
    name = f'segment {segment.number}'
    for words, time in parts.items():
        out.writerow((None, None, name, 'sum', None, time, None, words))
    for words, time in reasons:
        out.writerow((None, None, name, 'part of stood still', None, time, None, words))
    out.writerow((None, None, name, 'sum', None, whole, None, 'whole'))


def words_of() -> argparse.Namespace:
    """What the words ask for."""
    words = Words(description='The life of one segment and of its acknowledgements.')
    words.add_argument('scenario', metavar='SCENARIO', help='a text; - is standard input')
    words.add_trace()
    words.add_argument('--flow', metavar='F', required=True, help='the flow, by its name or number')
    words.add_argument('--byte', metavar='B', type=as_type(count), required=True, help='a byte of the segment')
    words.add_argument('--csv', action='store_true',
                       help='line,time,packet,event,at,ns,behind,words; times in nanoseconds')
    words.add_output('the table or the CSV')
    return words.parse_args()


def main() -> None:
    """Does what the words ask for."""
    given = words_of()
    with output.opened(given.output, inputs_of(given)) as file:
        with opened(given) as (scenario, lines):
            walk, segment = follow(scenario, lines, flow_named(scenario, given.flow), given.byte)
        (write_csv if given.csv else write_table)(walk, segment, file)
