"""tcpsim-replay: writes one page on which a run moves.

Usage: bin/tcpsim-replay SCENARIO [TRACE] [-o PAGE.html] [--from T] [--to T] [--beside SCENARIO [TRACE]] [--slide]
                         [--partial] [--program FILE | --model]

Without TRACE the program is run. T is a time with its unit, as `1.5s`, `20ms`, `7us` or `9ns`. The page shows
the events from --from on (that moment's own too) and before --to. With --beside a page has two nets under one clock;
--slide is for a lecture: letters of 24 pixels, and no lines of the trace.
"""
from __future__ import annotations

import argparse
import os

from tcpsim import output
from tcpsim.command_line import Words, as_type
from tcpsim.output import Output, printable
from tcpsim.replay.page import page, page_of_two
from tcpsim.replay.recording import Part
from tcpsim.scenario import units
from tcpsim.whole_trace import inputs_of, opened_run


def make(given: argparse.Namespace, file: Output) -> str:
    """Reads the run and writes its page; answers what is said of it."""
    runs = [(given.scenario, given.trace)] + ([(given.beside[0], (given.beside[1:] or [None])[0])] if given.beside else [])
    pages, said = [], []
    for path, trace in runs:
        with opened_run(path, trace, given.program, given.partial, given.end) as (scenario, lines):
            part = Part(scenario, lines, given.begin or 0, given.end)
        pages.append((title_of(path), page(title_of(path), scenario, part, given.slide, bool(given.beside))))
        said.append(f'{len(part.lines):,} events from event {part.first + 1:,} on')
    whole = page_of_two(pages, given.slide) if given.beside else pages[0][1]
    file.write(whole)
    return f'{", and ".join(said)}, {len(whole.encode("utf-8", "surrogateescape")):,} bytes'


def title_of(path: str) -> str:
    """A page's title, of its scenario's name."""
    return printable(os.path.splitext(os.path.basename(path))[0].replace('_', ' '))


def main() -> None:
    """Does what the words ask for."""
    words, moment = Words(description='One page on which a run moves.'), as_type(units.moment)
    words.add_argument('scenario', metavar='SCENARIO', help='a text or an image; - is standard input')
    words.add_trace()
    words.add_argument('-o', '--output', metavar='PAGE.html', help='else the scenario\'s name with .html, here')
    words.add_argument('--from', dest='begin', type=moment, metavar='T', help='a time, as 5s or 20ms; else the run\'s begin')
    words.add_argument('--to', dest='end', type=moment, metavar='T', help='events before this moment are shown')
    words.add_argument('--beside', nargs='+', metavar=('SCENARIO', 'TRACE'), default=None,
                       help='one more run: two nets on one page, under one clock')
    words.add_argument('--slide', action='store_true', help='for a lecture: letters of 24 pixels, no lines of the trace')
    given = words.parse_args()
    if given.beside and len(given.beside) > 2:
        words.error('--beside takes a scenario and at most a trace')
    path = given.output or os.path.splitext(os.path.basename(given.scenario))[0] + '.html'
    with output.written(path, (*inputs_of(given), *(given.beside or ()))) as file:
        said = make(given, file)
    with output.opened() as out:
        out.write(f'{path}: {said}\n')
