"""The words of the command line, and what of the runs they choose."""
from __future__ import annotations

import argparse
import os
from collections import namedtuple
from collections.abc import Iterable, Sequence

import numpy as np
from numpy.typing import ArrayLike

from tcpsim.command_line import Words, as_type
from tcpsim.output import printable
from tcpsim.scenario import units
from tcpsim.scenario.text import Flow, Link, Unreadable
from tcpsim.traces.curves import Run, read_run
from tcpsim.whole_trace import inputs_of

from .clock import Clock, Cut, idle_spans, length_text
from .layout import FIRST_CHOICE, LINK_PANELS, OF_MANY, PANELS
from .notes import differences, flow_notes, link_note, only_acks, trip_text
from .picture import MOST_FLOWS, FlowView, LinkView, Picture

S = 10**9
MOST_LINKS = 4
# The panels whose axes can be given a height, and what reads it.
TOPS = {'window': units.size, 'queue': units.count, 'delay': units.moment, 'progress': units.size}
Named = namedtuple('Named', 'name run')


# ---- words

def panel_names(text: str) -> list[str]:
    """A type of option: names of panels."""
    names = text.split(',')
    wrong = [name for name in names if name not in PANELS]
    if wrong:
        raise argparse.ArgumentTypeError(f'no panel {wrong[0]!r}: they are {", ".join(PANELS)}')
    return names


def list_of_names(text: str) -> list[str]:
    """A type of option: names, with commas."""
    names = text.split(',')
    twice = [name for name in names if names.count(name) > 1]
    if twice:
        raise argparse.ArgumentTypeError(f'{twice[0]} is named twice')
    return names


def tops(text: str) -> dict[str, int]:
    """A type of option: of panels how high their axes go at least, as `window=36k,queue=60,delay=1s`."""
    found = {}
    for part in text.split(','):
        name, _, value = part.partition('=')
        if name not in TOPS:
            raise argparse.ArgumentTypeError(f'{part!r} is no height of an axis: write one of {", ".join(TOPS)} and its value, '
                                             'as queue=60')
        found[name] = as_type(TOPS[name])(value)
    return found


def picture_file(text: str) -> str:
    """A type of option: a picture's file, by its ending."""
    if os.path.splitext(text)[1] not in ('.png', '.svg', '.pdf'):
        raise argparse.ArgumentTypeError('the file ends in .png, .svg or .pdf')
    return text


def words_of(typed: list[str] | None = None) -> argparse.Namespace:
    """What the words ask for."""
    words = Words(description='Draws a run of a scenario.')
    add_words(words)
    given = words.parse_args(typed)
    if any(len(other) > 2 for other in given.beside):
        words.error('--beside takes a scenario and at most a trace; for one more run write --beside again')
    if given.names and len(given.names) != 1 + len(given.beside):
        words.error(f'--names has {len(given.names)}, and there are {1 + len(given.beside)} runs')
    if given.slide and len(given.panels or ['window']) > 1:
        words.error(f'--slide draws one panel, and --panels names {len(given.panels)}')
    given.panels = given.panels or (['window'] if given.slide else [])
    return given


def add_words(words: Words) -> None:
    """The words that there are."""
    moment = as_type(units.moment)
    words.add_argument('scenario', metavar='SCENARIO')
    words.add_trace()
    words.add_argument('-o', '--output', dest='file', metavar='FILE', required=True, type=picture_file,
                       help='what is written: .png, .svg or .pdf')
    words.add_argument('--panels', type=panel_names,
                       help=f'of {",".join(PANELS)}; else {",".join(FIRST_CHOICE)}, '
                            f'and of more than two flows {",".join(OF_MANY)}')
    words.add_argument('--flow', '--flows', dest='flows', type=list_of_names, metavar='NAMES',
                       help='names, else all, or the four that carry most; the links are then those of their paths')
    words.add_argument('--link', '--links', dest='links', type=list_of_names, metavar='NAMES',
                       help='names, else those where packets of several flows waited longest')
    words.add_argument('--from', dest='begin', type=moment, metavar='T',
                       help='a time, as 5s or 20ms; else the first flow\'s start')
    words.add_argument('--to', dest='end', type=moment, metavar='T', help='else a little after the end of the run')
    words.add_argument('--longer', type=moment, metavar='T', default=None,
                       help='stalls are marked, spans without a new acknowledgement longer than this; else '
                            'than 200ms and a 20th of the picture')
    words.add_argument('--log', action='store_true', help='delays on a logarithmic axis')
    words.add_argument('--top', dest='tops', type=tops, metavar='PANEL=VALUE,..', default={},
                       help=f'how high axes go at least, so that two pictures can be compared: of {", ".join(TOPS)}, as '
                            'queue=60,window=36k')
    words.add_argument('--whole', action='store_true', help='leave no idle span out of the axis of time')
    words.add_argument('--slide', action='store_true',
                       help='one panel for a lecture, 1,600 pixels wide, with letters of 24 points, thick lines, and labels '
                            'on lines in place of a key; that of --panels, else the window')
    words.add_argument('--title', help='else the scenario\'s name and what is in it')
    words.add_argument('--beside', nargs='+', action='append', metavar=('SCENARIO', 'TRACE'), default=[],
                       help='one more run, drawn in the same panels or beside them; any number of times')
    words.add_argument('--names', type=list_of_names, metavar='NAMES',
                       help='of the runs, in the place of their files\' names')


# ---- names

def name_of(path: str) -> str:
    """A file's name as a picture has it."""
    return drawable(os.path.splitext(os.path.basename(path))[0])


def drawable(text: str) -> str:
    """A text as it is drawn: nothing in it is mathematics."""
    return printable(text).replace('$', r'\$')


def title_of(name: str, run: Run) -> str:
    """A run's name, and how many flows and events it has."""
    count = len(run.flows)
    return f'{name}: {count} flow{"" if count == 1 else "s"}, {run.lines:,} events'


def distinct(paths: Iterable[str]) -> list[str]:
    """The runs' names; of equal ones each but the first gets a number."""
    names = []
    for path in paths:
        name, count = name_of(path), 1
        while name in names:
            count += 1
            name = f'{name_of(path)} {count}'
        names.append(name)
    return names


def named(names: Sequence[str], entries: Sequence[Flow | Link], what: str) -> list[int]:
    """The numbers of the entries of these names, in the names' order; a name that none has is `Unreadable`."""
    by_name = {entry.name: number for number, entry in enumerate(entries)}
    unknown = [name for name in names if name not in by_name]
    if unknown:
        raise Unreadable(f'no {what} is named {unknown[0]}')
    return [by_name[name] for name in names]


# ---- what is shown

def known_until(run: Run) -> int:
    """Up to when nothing more can happen that the trace does not tell, in ns."""
    return run.scenario.end if run.whole else run.last


def ends_at(run: Run) -> int:
    """Up to when a run's links are drawn, in ns: to its last event where every flow is complete."""
    done = all(flow.completed is not None for flow in run.flows)
    return run.last if done else known_until(run)


def flow_views(chosen: list) -> list[FlowView]:
    """Flows as they are shown, each up to its completion; `chosen` has of each its run, its number there and its name."""
    found, unlike = [], differences([run.scenario.flows[number] for run, number, _ in chosen])
    trips = [trip_text(run.scenario, number) for run, number, _ in chosen]
    for at, (run, number, name) in enumerate(chosen):
        flow = run.flows[number]
        until = known_until(run) if flow.completed is None else flow.completed
        words = [word for word in unlike[at] if word not in name]
        notes = flow_notes(run.scenario, number, words, trips[at] if len(set(trips)) == 1 else None)
        found.append(FlowView(flow, name, at, until, tuple(map(drawable, notes)), trips[at] if len(set(trips)) > 1 else ''))
    return found


def link_view(run: Run, number: int, name: str) -> LinkView:
    """A link as it is shown; its number is not known yet."""
    return LinkView(run.links[number], name, 0, ends_at(run), drawable(link_note(run.scenario, number)),
                    only_acks(run.scenario, number))


def window_of(given: argparse.Namespace, runs: Sequence[Run]) -> tuple[tuple[int, int], list[Cut]]:
    """The picture's begin and end, and the idle spans that its axis leaves out, in ns; `Unreadable` where nothing
    happens then."""
    if not all(run.lines for run in runs):
        raise Unreadable('the trace has no line: there is nothing to draw')
    first, last = min(run.begin() for run in runs), max(run.last for run in runs)
    end = max(run.end() for run in runs)
    begin = first if given.begin is None else given.begin
    if given.end is not None and begin >= given.end:
        raise Unreadable('no time lies between the begin and the end of the picture')
    if begin > last:
        raise Unreadable(f'nothing happens from {length_text(begin)} on: the last event is at {length_text(last)}')
    if given.end is not None and given.end <= first:
        raise Unreadable(f'nothing happens before {length_text(given.end)}: '
                         f'the first flow starts at {length_text(first)}')
    if given.end is not None:
        end = min(given.end, max(known_until(run) for run in runs))
    end = max(end, begin + 1)
    cuts = [] if given.whole else idle_spans(moments(runs), begin, end, given.longer or S // 5)
    if given.end is None and end < max(run.scenario.end for run in runs):
        end += (end - begin - sum(cut.end - cut.begin for cut in cuts)) // 40
    return (begin, end), cuts


def stall_of(given: argparse.Namespace, window: tuple[int, int]) -> int:
    """How long a span without a new acknowledgement is at least to be marked, in ns: as asked for, else 200 ms or
    a 20th of the window, in a number of one digit."""
    if given.longer is not None:
        return given.longer
    least = max(S // 5, (window[1] - window[0]) // 20)
    return next(digit * 10**power for power in range(8, 16) for digit in (1, 2, 5) if digit * 10**power >= least)


def moments(runs: Iterable[Run]) -> np.ndarray:
    """When something happens, in ns: at senders and receivers, and at links."""
    found_times: list[ArrayLike] = [[run.last for run in runs]]
    for run in runs:
        for flow in run.flows:
            found_times += [flow.times, flow.next_times]
        for link in run.links:
            busy_to = np.asarray(link.busy_to, dtype=np.int64)
            found_times += [link.busy_from, busy_to, busy_to + link.link.delay]
    return np.concatenate([np.asarray(times, dtype=np.int64) for times in found_times])


def worst_links(run: Run, window: tuple[int, int], among: Iterable[int]) -> list[int]:
    """Of these links those at which packets of several flows waited longest in all within the window, if a tenth as long as at
    the worst, and before them the one at which a single flow's waited longer than at any of these; where none waited the busiest."""
    waited = {number: within(run.links[number].wait_times, run.links[number].waits, window) for number in among}
    if not any(waited.values()):
        waited = {number: within(run.links[number].busy_from, np.asarray(run.links[number].busy_to) -
                                 np.asarray(run.links[number].busy_from), window) for number in among}
    shared = {number: waited[number] for number in waited if waited[number] and len(set(run.links[number].taken_of)) > 1}
    worst = max(waited, key=lambda number: (waited[number], -number))
    ranked = sorted(shared or waited, key=lambda number: (-waited[number], number))
    return [worst] * (worst not in ranked) + [number for number in ranked if waited[number] * 10 >= waited[ranked[0]]]


def most_carried(run: Run, window: tuple[int, int], most: int) -> list[int]:
    """The flows of which most bytes were acknowledged within the window, `most` at most, in the scenario's order."""
    carried = [int(np.diff(np.asarray([0, *flow.una])[np.searchsorted(flow.una_times, window, side='right')])[0])
               for flow in run.flows]
    return sorted(sorted(range(len(carried)), key=lambda number: (-carried[number], number))[:most])


def within(times: ArrayLike, lengths: ArrayLike, window: tuple[int, int]) -> int:
    """The sum of the lengths of what begins in a span; all are ns."""
    times, lengths = np.asarray(times, dtype=np.int64), np.asarray(lengths, dtype=np.int64)
    return int(lengths[(times >= window[0]) & (times <= window[1])].sum())


def links_of(run: Run, flows: Iterable[int]) -> list[int]:
    """The links over which these flows go, by their numbers."""
    return sorted({link for flow in flows for path in run.scenario.paths[flow] for link in path})


def shown_of(given: argparse.Namespace, run: Run, window: tuple[int, int],
             most_links: int = MOST_LINKS) -> tuple[list[int], list[int], list[int]]:
    """The flows and links of a run that are shown, by their numbers, and the links for which there is no room."""
    flows = most_carried(run, window, max(1, MOST_FLOWS // (1 + len(given.beside)))) if given.flows is None else \
        named(given.flows, run.scenario.flows, 'flow')
    if given.links is not None:
        return flows, named(given.links, run.scenario.links, 'link'), []
    among = range(len(run.links)) if given.flows is None else links_of(run, flows)
    links = worst_links(run, window, among)
    if most_links == 1:
        links = sorted(links, key=lambda number: (-sum(run.links[number].waits), number))
    return flows, sorted(links[:most_links]), sorted(links[most_links:])


def drawn_by(given: argparse.Namespace, runs: Sequence[Run], flows: list, links: list, clock: Clock) -> Picture:
    """What is drawn of these flows and links, as the words ask for it. `flows` has of each its run, its number there and its
    name."""
    picture = Picture(flow_views(flows), [view._replace(number=at) for at, view in enumerate(links)], clock, bool(given.beside),
                      stall_of(given, clock.window), given.log)
    picture.tops, picture.part = given.tops, part_text(given)
    if given.flows is None:
        shown = [view.run for view in picture.flows]
        picture.others = flow_views([(run, flow.number, '') for run in runs for flow in run.flows if flow not in shown])
    if picture.others:
        picture.left_out.append(f'{len(flows)} of {len(flows) + len(picture.others)} flows: those that carry most' +
                                ' in each run' * bool(given.beside))
    return picture


def part_text(given: argparse.Namespace) -> str:
    """What is said of the axis of time where a part of the run is asked for."""
    begin = f' from {length_text(given.begin)}' if given.begin else ''
    end = f' {"to" if begin else "up to"} {length_text(given.end)}' if given.end else ' on' if begin else ''
    return f' (the run{begin}{end})' if begin or end else ''


def picture_of(given: argparse.Namespace, run: Run) -> Picture:
    """What is drawn of one run."""
    window, cuts = window_of(given, (run,))
    flows, links, left = shown_of(given, run, window)
    picture = drawn_by(given, [run], [(run, n, run.scenario.flows[n].name) for n in flows],
                       [link_view(run, n, run.scenario.links[n].name) for n in links], Clock(window, cuts))
    if left and (not given.panels or set(given.panels) & set(LINK_PANELS)):
        others = ','.join(run.scenario.links[number].name for number in left)
        why = 'those where packets waited longest' if any(sum(run.links[number].waits) for number in links) else 'the busiest'
        picture.left_out.append(f'{len(links)} of {len(links) + len(left)} links: {why}' +
                                f'; --links {others} draws the other{"s" * (len(left) > 1)}' * (len(left) <= MOST_LINKS))
    return picture


def beside(given: argparse.Namespace, runs: Sequence[tuple[str, Run]]) -> Picture:
    """Several runs: the flows of each, and of each the link at which packets waited longest, or those asked
    for, under the names of their scenarios."""
    window, cuts = window_of(given, [run for _, run in runs])
    flows, links = [], []
    for name, run in runs:
        of_flows, of_links, _ = shown_of(given, run, window, most_links=1)
        flows += [(run, n, name + f', flow {run.scenario.flows[n].name}') for n in of_flows]
        links += [link_view(run, n, name + ('' if len(of_links) == 1 else f', {run.scenario.links[n].name}'))
                  for n in of_links]
    return drawn_by(given, [run for _, run in runs], flows, links, Clock(window, cuts))


def runs_of(given: argparse.Namespace) -> list[tuple[str, Run]]:
    """The runs that the words name: (name, run)."""
    wanted = [(given.scenario, given.trace)] + [(other[0], (other[1:] or [None])[0]) for other in given.beside]
    names = [drawable(name) for name in given.names or ()] or distinct([path for path, _ in wanted])
    return [(name, read_run(path, trace, given.program, given.partial)) for name, (path, trace) in zip(names, wanted)]


def all_inputs(given: argparse.Namespace) -> tuple[str | None, ...]:
    """The files that the words have it read; None for one that they leave out."""
    return (*inputs_of(given), *(path for other in given.beside for path in other))
