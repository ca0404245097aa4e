"""The figures of a sweep by name: f3.goodput, down.used, up.wait95, run.jain.

Each is of the table that `tcpsim figures` writes, where that has it, else of a trace. A name with `+` is a sum, as
f0+f1.goodput, and `*` is every flow or link that has the figure. Nothing but Python's standard library.
"""
from __future__ import annotations

import functools
from collections.abc import Callable, Iterator
from typing import NamedTuple, Optional

from tcpsim.breakdown import Breakdown
from tcpsim.command_line import Wrong
from tcpsim.critical_path import DELAY, PROPAGATION, QUEUE, SERIALIZATION, TIMER
from tcpsim.engine import BUSY, WAITED, EngineRun
from tcpsim.fairness import Compared, compared, jain
from tcpsim.figures import Figures, part
from tcpsim.scenario.text import Scenario
from tcpsim.scenario.units import BITS_NS
from tcpsim.sweeps.pattern import Pattern
from tcpsim.traces.reader import DATA

Count = Optional[float]
FROM = 3                # the number of the figures' format from which on they are counted from a moment on
# How a table for people shows a unit: its title, what it is divided by, and the digits of a value and of a mean.
SHOWN = {'bit_s': ('Mbit/s', 1e6, 3, 3), 'percent': ('%', 1, 2, 2), 'ns': ('ms', 1e6, 1, 1), 'bytes': ('kB', 1e3, 1, 1),
         'packets': ('', 1, 0, 1), 'segments': ('', 1, 0, 1), 'times': ('', 1, 0, 1), 'events': ('', 1, 0, 0),
         'mean_packets': ('', 1, 1, 1), 'index': ('', 1, 3, 3), 'flows': ('', 1, 0, 1)}
WORDLESS = 'times', 'events', 'index', 'packets', 'segments', 'mean_packets', 'flows'      # units that a column's title leaves out


class Quantity(NamedTuple):
    """A figure of a flow, a link or the run. It is read from the program's table, of whose format it wants this number, or
    from a trace; None where one of them lacks it. `joins` gives that of several flows or links, as a sum. `path` reads it from where a flow's
    time went, which a further pass over the trace finds."""

    unit: str
    table: Callable[[EngineRun, int], Count] | None
    trace: Callable[[Figures, int], Count] | None
    joins: Callable[[list], Count] | None = None
    since: int = 1
    path: Callable[[Breakdown], Count] | None = None

    def of(self, run: EngineRun | Figures, number: int) -> Count:
        """Its value of a flow or link of a run; None where it is of none such."""
        if isinstance(run, Figures):
            return None if self.trace is None else self.trace(run, number)
        return None if self.table is None else self.table(run, number)


def percent(of: Count) -> Count:
    """A part in a hundred."""
    return None if of is None else 100 * of


def of_flow(*names: tuple[str, str]) -> Callable[[EngineRun, int], Count]:
    """A figure of a flow of the table, by its name and unit, whichever it has."""
    return lambda run, number: first_of(run.flows[number], names)


def of_link(*names: tuple[str, str]) -> Callable[[EngineRun, int], Count]:
    """The same of a link."""
    return lambda run, number: first_of(run.links[number], names)


def first_of(values: dict, names: tuple) -> Count:
    """The value of the first of these names that there is; None where there is none."""
    return next((values[name] for name in names if name in values), None)


def trips(percentile: int) -> Callable[[Figures, int], Count]:
    """A percentile of the round trips of a trace."""
    return lambda run, number: run.trips[number].percentile(percentile)


def waits(percentile: int) -> Callable[[Figures, int], Count]:
    """A percentile of the waits of a trace."""
    return lambda run, number: run.waits[number].percentile(percentile)


def dropped_for(reason: str) -> Callable[[Figures, int], Count]:
    """The packets that a link of a trace dropped for a reason."""
    return lambda run, number: sum(count for flow in run.flows for (why, _, at), count in flow.drops.items()
                                   if (why, at) == (reason, number))


def data_lost(run: Figures, number: int) -> int:
    """The segments of a flow of a trace that were dropped."""
    return sum(count for (_, sort, _), count in run.flows[number].drops.items() if sort == DATA)


def share_of(run: Figures, number: int) -> float:
    """The part of its bottleneck's bytes that a flow of a trace had."""
    links = [run.links[link] for link in run.scenario.paths[number][0]]
    busiest = max(links, key=lambda link: link.sending(run.end))
    return busiest.bytes_of(number) / (sum(n * stream.size for stream, n in busiest.count.items()) or 1)


def took(start: int, completed: int | None) -> int | None:
    """From a flow's start to its completion."""
    return None if completed is None else completed - start


# The parts of a flow's time by their names in columns: of which kinds of parts each is the sum, and all of none.
TIMES = {'queue': (QUEUE,), 'rto': (TIMER,), 'delack': (DELAY,), 'serialization': (SERIALIZATION,), 'propagation': (PROPAGATION,), 'total': ()}


def time_of(*kinds: str) -> Callable[[Breakdown], Count]:
    """How long the parts of these kinds are together, of a flow's time to its last new acknowledgement; None where it has none."""
    return lambda found: sum(ns for part, ns in found.path.parts().items() if not kinds or part.kind in kinds) if found.path.acknowledged else None


FLOW = {
    'goodput': Quantity('bit_s', lambda run, n: run.goodput(n), lambda run, n: run.goodput(n), sum),
    'jain': Quantity('index', lambda run, n: run.goodput(n), lambda run, n: run.goodput(n), jain),
    'delivered': Quantity('bytes', of_flow(('delivered', 'bytes')), lambda run, n: run.flows[n].delivered(), sum),
    'sent': Quantity('segments', of_flow(('sent', 'segments')), lambda run, n: run.flows[n].sent(), sum),
    'fast_retransmits': Quantity('segments', of_flow(('sent again by fast retransmit', 'segments')),
                               lambda run, n: run.flows[n].by_fast_retransmit, sum),
    'timeout_retransmits': Quantity('segments', of_flow(('sent again by timeout', 'segments')),
                                  lambda run, n: run.flows[n].by_timeout, sum),
    'timeouts': Quantity('times', of_flow(('timeouts', 'times')), lambda run, n: run.flows[n].timeouts, sum),
    'took': Quantity('ns', lambda run, n: took(run.flows[n]['start', 'ns'], run.flows[n]['completed', 'ns']),
                   lambda run, n: took(run.flows[n].flow.start, run.flows[n].completed)),
    'completed': Quantity('ns', of_flow(('completed', 'ns')), lambda run, n: run.flows[n].completed),
    'rtt_min': Quantity('ns', of_flow(('least round trip', 'ns')), None),
    'rtt50': Quantity('ns', of_flow(('median round trip', 'ns')), None),
    'rtt95': Quantity('ns', of_flow(('95th percentile of round trips', 'ns')), None, since=2),
    'rtt99': Quantity('ns', of_flow(('99th percentile of round trips', 'ns')), None),
    'rtt_max': Quantity('ns', of_flow(('greatest round trip', 'ns')), None),
    'trip_min': Quantity('ns', None, lambda run, n: run.trips[n].least()),
    'trip50': Quantity('ns', None, trips(50)), 'trip95': Quantity('ns', None, trips(95)), 'trip99': Quantity('ns', None, trips(99)),
    **{f'time.{name}': Quantity('ns', None, None, path=time_of(*kinds)) for name, kinds in TIMES.items()},
    'loss': Quantity('percent', None, lambda run, n: percent(part(data_lost(run, n), run.flows[n].sent()))),
    'share': Quantity('percent', None, lambda run, n: percent(share_of(run, n))),
}
SENT = ('sent packets', 'packets'), ('sent', 'packets')      # a link's, in the table of either format
LINK = {
    'used': Quantity('percent', lambda run, n: percent(run.over_span(n, BUSY)),
                   lambda run, n: percent(run.links[n].sending(run.end) / (run.end - run.begin))),
    'wait50': Quantity('ns', of_link(('median delay in the queue', 'ns')), waits(50)),
    'wait95': Quantity('ns', of_link(('95th percentile of delay in the queue', 'ns')), waits(95), since=2),
    'wait99': Quantity('ns', of_link(('99th percentile of delay in the queue', 'ns')), waits(99)),
    'wait_max': Quantity('ns', of_link(('greatest delay in the queue', 'ns')),
                       lambda run, n: run.links[n].longest_wait if run.links[n].sent() else None),
    'queue_mean': Quantity('mean_packets', lambda run, n: run.over_span(n, WAITED),
                         lambda run, n: run.links[n].mean_queue(run.begin, run.end)),
    'queue_max': Quantity('packets', of_link(('greatest queue', 'packets')), lambda run, n: run.links[n].greatest),
    'sent': Quantity('packets', of_link(*SENT), lambda run, n: run.links[n].sent(), sum),
    'bytes': Quantity('bytes', of_link(('sent bytes', 'bytes'), ('sent', 'bytes')),
                    lambda run, n: sum(count * stream.size for stream, count in run.links[n].count.items()), sum),
    'dropped': Quantity('packets', lambda run, n: run.dropped(n), lambda run, n: run.links[n].drops, sum),
    'lost': Quantity('packets', of_link(('dropped as lost', 'packets')), dropped_for('lost'), sum),
    'full': Quantity('packets', of_link(('dropped as full', 'packets')), dropped_for('full'), sum),
    'codel': Quantity('packets', of_link(('dropped by CoDel', 'packets')), dropped_for('codel'), sum),
    'loss': Quantity('percent', lambda run, n: percent(part(run.dropped(n), run.dropped(n) + int(first_of(run.links[n], SENT) or 0))),
                   lambda run, n: percent(part(run.links[n].drops, run.links[n].drops + run.links[n].sent()))),
}


@functools.lru_cache(maxsize=1)
def compared_of(run: EngineRun | Figures) -> Compared:
    """The flows that are compared; several figures of a run want them."""
    return compared(run)


def timeouts(run: EngineRun | Figures, of_mice: bool) -> int:
    """The timeouts of all mice, or of all other flows."""
    mice = compared_of(run).mice
    return sum(int(FLOW['timeouts'].of(run, number) or 0) for number in range(len(run.flows)) if (number in mice) == of_mice)


def jain_of(run: EngineRun | Figures) -> Count:
    """Jain's index of the flows that are compared."""
    return jain([run.goodput(number) or 0 for number in compared_of(run).flows])


def table_loss(run: EngineRun, _number: int) -> Count:
    """Segments dropped of a hundred sent, of all flows; None where a link dropped packets to which acknowledgements come."""
    dropped = run.data_dropped()
    return None if dropped is None else percent(part(dropped, sum(flow['sent', 'segments'] for flow in run.flows)))


RUN = {
    'goodput': Quantity('bit_s', lambda run, _: sum(flow['delivered', 'bytes'] for flow in run.flows) * BITS_NS / (run.end - run.begin),
                      lambda run, _: sum(flow.delivered() for flow in run.flows) * BITS_NS / (run.end - run.begin)),
    'jain': Quantity('index', lambda run, _: jain_of(run), lambda run, _: jain_of(run)),
    'jain_flows': Quantity('flows', lambda run, _: len(compared_of(run).flows), lambda run, _: len(compared_of(run).flows)),
    'timeouts': Quantity('times', lambda run, _: timeouts(run, False), lambda run, _: timeouts(run, False)),
    'mice_timeouts': Quantity('times', lambda run, _: timeouts(run, True), lambda run, _: timeouts(run, True)),
    'loss': Quantity('percent', None, lambda run, _: percent(part(sum(data_lost(run, n) for n in range(len(run.flows))),
                                                                sum(flow.sent() for flow in run.flows)))),
    'events': Quantity('events', lambda run, _: run.events, None),
    'span': Quantity('ns', lambda run, _: run.end - run.begin, lambda run, _: run.end - run.begin),
}
SORTS = {'flow': FLOW, 'link': LINK, 'run': RUN}


class ShownFigure(NamedTuple):
    """A figure that is shown: its name as it was asked for, of what it is, and of which flows or links."""

    name: str
    sort: str
    names: tuple[str, ...]

    @property
    def figure(self) -> Quantity:
        """What it is."""
        return SORTS[self.sort][split_name(self.name)[1]]

    @property
    def title(self) -> str:
        """Its column in CSV, with its unit."""
        return self.name if self.figure.unit in WORDLESS else f'{self.name}_{self.figure.unit}'

    @property
    def heading(self) -> str:
        """Its column in a table for people."""
        return ' '.join(filter(None, (self.name, SHOWN[self.figure.unit][0])))

    def by_table(self, number: int, skip: int) -> bool:
        """Whether a table of this number has it, from a moment on."""
        return self.figure.table is not None and number >= max(self.figure.since, FROM if skip else 1)

    def path_value(self, found: dict[str, Breakdown]) -> Count:
        """Its value, of where the time of each flow went, by the flows' names."""
        path = self.figure.path
        return path(found[self.names[0]]) if path and self.names[0] in found else None

    def value(self, run: EngineRun | Figures, scenario: Scenario) -> Count:
        """Its value in a run."""
        if self.sort == 'run':
            return self.figure.of(run, 0)
        there = [flow.name for flow in scenario.flows] if self.sort == 'flow' else [link.name for link in scenario.links]
        names = [name for name in self.names if name in there or not self.name.startswith('*')]
        values = [self.figure.of(run, there.index(name)) if name in there else None for name in names]
        return None if None in values else self.figure.joins(values) if self.figure.joins else values[0]


def columns_of(words: str, pattern: Pattern, option: str = '--show') -> list[ShownFigure]:
    """The columns of a word of an option, with commas, or Wrong."""
    found = []
    for word in words.split(','):
        found += [column for column in named(word, pattern, option) if column not in found]
    return found


def split_name(word: str) -> tuple[str, str]:
    """Of NAME.FIGURE both parts; a figure of a flow's time has a dot too, as f2.time.queue."""
    of, _, figure = word.rpartition('.')
    return (of.removesuffix('.time'), f'time.{figure}') if of.endswith('.time') else (of, figure)


def named(word: str, pattern: Pattern, option: str) -> Iterator[ShownFigure]:
    """The columns of NAME.FIGURE."""
    of, figure = split_name(word)
    if not of or not figure:
        raise Wrong(f'{option} {word!r}: write FLOW.FIGURE, LINK.FIGURE or run.FIGURE, as {example(pattern)}')
    if word == '*.jain':
        yield ShownFigure(word, 'flow', tuple(pattern.named('flow')))
        return
    if of == '*':
        there = [(sort, name) for sort in ('flow', 'link') if figure in SORTS[sort] for name in pattern.named(sort)]
        if not there:
            raise Wrong(f'{option} {word!r}: there is no figure {figure!r}; {offered("flow")}; {offered("link")}')
        yield from (ShownFigure(f'{name}.{figure}', sort, (name,)) for sort, name in there)
        return
    names = tuple(of.split('+'))
    sorts = {pattern.sorts.get(name) or ('run' if name == 'run' else '') for name in names}
    if not pattern.sorts:
        raise Wrong('this is no scenario: it has no flow and no link')
    for name in names:
        if not {pattern.sorts.get(name), 'run' if name == 'run' else None} & set(SORTS):
            raise Wrong(f'{option} {word!r}: the scenario has no flow or link {name!r}; there are the flows {some(pattern.named("flow"))} '
                        f'and the links {some(pattern.named("link"))}: write {example(pattern)}')
    if len(sorts) > 1 or len(set(names)) < len(names):
        raise Wrong(f'{option} {word!r}: a sum is of flows or of links, each once, as {example(pattern, 2)}')
    sort, = sorts
    if figure not in SORTS[sort]:
        raise Wrong(f'{option} {word!r}: there is no figure {figure!r}; {offered(sort)}')
    if len(names) > 1 and not SORTS[sort][figure].joins:
        raise Wrong(f'{option} {word!r}: {figure} does not add up; sums are of '
                    f'{", ".join(key for key, its in SORTS[sort].items() if its.joins is sum)}, as {example(pattern, 2)}')
    yield ShownFigure(word, sort, names)


def offered(sort: str) -> str:
    """Which figures there are."""
    return f'of {"the run" if sort == "run" else f"a {sort}"} there are {", ".join(SORTS[sort])}'


def some(names: list[str]) -> str:
    """The first names."""
    return ', '.join(names[:12]) + ', ..' * (len(names) > 12)


def example(pattern: Pattern, count: int = 1) -> str:
    """A column of the scenario's own."""
    return f'{"+".join(pattern.named("flow")[:count])}.goodput'
