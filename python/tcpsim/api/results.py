"""The figures of a run as objects: `Results` has those of each flow, each link and the run.

They are what the program counts while it runs (docs/FORMATS.md has each), so that medians and percentiles are at most 1/32
above the exact ones, and round trips are those that the sender timed (RFC 6298 section 3).
"""
from __future__ import annotations

import functools
import html
from collections.abc import Callable, Iterator, Mapping
from dataclasses import dataclass, fields
from typing import TYPE_CHECKING, Generic, TypeVar

from tcpsim.api.errors import wanted
from tcpsim.engine import BUSY, WAITED, EngineRun
from tcpsim.fairness import compared, jain
from tcpsim.fairness import in_words as of_flows
from tcpsim.figures import engine_figures
from tcpsim.output import aligned
from tcpsim.settled import too_short
from tcpsim.summary import carried_little, opening

if TYPE_CHECKING:
    from pandas import DataFrame

DROPPED = 'dropped '            # how the names of figures begin that count drops
WHICH = 'least', 'median', '95th percentile of', '99th percentile of', 'greatest'
WORDS = {'dropped as lost': 'lost', 'dropped as full': 'full', 'dropped by CoDel': 'codel'}


@dataclass(frozen=True)
class FlowResult:
    """Figures of a flow."""

    name: str
    start_ns: int
    delivered_bytes: int                # in order at its receiver
    goodput: float | None               # bit/s, from its start to its completion, or to the span's end
    bottleneck: str | None              # of its links the one that is used most
    segments_sent: int                  # new or again, lost ones too
    fast_retransmits: int               # segments that fast recovery sent again (RFC 5681, RFC 6582)
    timeout_retransmits: int            # segments sent again by a timeout and after it (RFC 6298)
    timeouts: int
    rtt_samples: int                    # round trips that the sender timed
    rtt_min_ns: int | None
    rtt_median_ns: int | None
    rtt_p95_ns: int | None
    rtt_p99_ns: int | None
    rtt_max_ns: int | None
    completed_ns: int | None            # when all its bytes were acknowledged; None where the run ended before

    @property
    def completion_time_ns(self) -> int | None:
        """From its start to its completion."""
        return None if self.completed_ns is None else self.completed_ns - self.start_ns


@dataclass(frozen=True)
class LinkResult:
    """Figures of a link and its queue."""

    name: str
    utilization: float | None           # the part of the span in which it was sending, 0 to 1
    packets_offered: int
    packets_sent: int
    bytes_sent: int                     # with 40 bytes of header each
    drops: Mapping[str, int]            # packets, by the word that a trace has: lost, full, codel, or a class's own
    queue_mean: float | None            # packets that wait
    queue_max: int                      # packets
    delay_median_ns: int | None         # delay in the queue, of the packets sent
    delay_p95_ns: int | None
    delay_p99_ns: int | None
    delay_max_ns: int | None

    @property
    def packets_dropped(self) -> int:
        """For whatever reason."""
        return sum(self.drops.values())

    @property
    def loss(self) -> float | None:
        """The part of the packets sent or dropped that was dropped, 0 to 1; None of none."""
        of = self.packets_sent + self.packets_dropped
        return self.packets_dropped / of if of else None


Row = TypeVar('Row', FlowResult, LinkResult)
# Columns of the tables that are shown: title, a figure's name or what gives it, how it is shown.
FLOW_COLUMNS = (('flow', 'name', '{}', 1), ('goodput Mbit/s', 'goodput', '{:.3f}', 1e6), ('bottleneck', 'bottleneck', '{}', 1),
                ('sent', 'segments_sent', '{:,}', 1), ('fast retransmits', 'fast_retransmits', '{:,}', 1),
                ('timeout retransmits', 'timeout_retransmits', '{:,}', 1), ('timeouts', 'timeouts', '{:,}', 1),
                ('RTT ms: min', 'rtt_min_ns', '{:.3f}', 1e6), ('median', 'rtt_median_ns', '{:.3f}', 1e6),
                ('99th', 'rtt_p99_ns', '{:.3f}', 1e6), ('completed s', 'completed_ns', '{:.6f}', 1e9))
LINK_COLUMNS = (('link', 'name', '{}', 1), ('utilization %', 'utilization', '{:.1f}', .01),
                ('queue: mean', 'queue_mean', '{:.2f}', 1), ('max', 'queue_max', '{:,}', 1),
                ('delay ms: median', 'delay_median_ns', '{:.3f}', 1e6), ('99th', 'delay_p99_ns', '{:.3f}', 1e6),
                ('sent', 'packets_sent', '{:,}', 1), ('dropped', 'packets_dropped', '{:,}', 1),
                ('loss %', 'loss', '{:.2f}', .01))


class Table(Mapping[str, Row], Generic[Row]):
    """Figures of flows or links, by name or number, in the scenario's order."""

    def __init__(self, rows: list[Row], columns: tuple):
        self._rows: list[Row] = rows
        self._columns = columns
        self._by_name: dict[str, Row] = {row.name: row for row in rows}

    def __getitem__(self, name: str | int) -> Row:
        try:
            return self._rows[name] if isinstance(name, int) else self._by_name[name]
        except (IndexError, KeyError):
            raise KeyError(f'{name!r}: there are {", ".join(self._by_name)}') from None

    def __iter__(self) -> Iterator[str]:
        return iter(self._by_name)

    def __len__(self) -> int:
        return len(self._rows)

    def shown(self, only: Callable[[Row], bool] = lambda row: True) -> list[list[str]]:
        """The table in words, its titles first."""
        return [[title for title, *_ in self._columns]] + [
            [in_words(name(row) if callable(name) else getattr(row, name), form, scale) for _, name, form, scale in self._columns]
            for row in self._rows if only(row)]

    def to_pandas(self) -> DataFrame:
        """A pandas DataFrame with a row for each flow or link and a column for each figure."""
        rows = [{field.name: getattr(row, field.name) for field in fields(row)} for row in self._rows]
        for row in rows:
            if 'drops' in row:
                row.update({f'dropped_{word}': count for word, count in row.pop('drops').items()})
        return wanted('pandas').DataFrame(rows).set_index('name')

    def __repr__(self) -> str:
        return '\n'.join(aligned(self.shown()))

    def _repr_html_(self) -> str:
        return html_table(self.shown())


def in_words(value: float | str | None, form: str, scale: float) -> str:
    """A figure in words, `-` where there is none."""
    return '-' if value is None else form.format(value if scale == 1 or isinstance(value, str) else value / scale)


def html_table(rows: list[list[str]]) -> str:
    """A table as a notebook shows it."""
    cells = [''.join(f'<{tag}>{html.escape(word)}</{tag}>' for word in row)
             for tag, row in [('th', rows[0]), *(('td', row) for row in rows[1:])]]
    return f'<table>{"".join(f"<tr>{row}</tr>" for row in cells)}</table>'


class Results:
    """The figures of a run: `flows` and `links` by name, and those of the run. Its text, and what a notebook shows, begins with the
    bottlenecks, and leaves out mice, which have their line there, and links that carried little.

    The span is from the first flow's start to the last event where every flow is complete, else to the scenario's end.
    """

    def __init__(self, run: EngineRun):
        used = [run.over_span(number, BUSY) for number in range(len(run.links))]
        self.flows: Table[FlowResult] = Table([flow_result(run, n, used) for n in range(len(run.flows))], FLOW_COLUMNS)
        links = [link_result(run, n, used) for n in range(len(run.links))]
        self.links: Table[LinkResult] = Table(links, (*LINK_COLUMNS, *drop_columns(links)))
        self._run, flows = run, compared(run)
        self._counts = [len(numbers) for numbers in flows]
        self.compared, self.mice, self.limited, self.ended = (tuple(self.flows[number].name for number in numbers) for numbers in flows)
        self.events: int = run.events
        self.begin_ns: int = run.begin
        self.end_ns: int = run.end

    @functools.cached_property
    def too_short(self) -> tuple[str, ...]:
        """Why the run is too short for its figures, and what would do; empty where it is not. The program runs a second time."""
        return tuple(too_short(self._run))

    @property
    def span_ns(self) -> int:
        """How long the span is."""
        return self.end_ns - self.begin_ns

    @property
    def jain(self) -> float | None:
        """Jain's index of the goodputs of the flows that are `compared`: 1 where all are equal, 1/n where one of n has all."""
        return self.jain_of(*self.compared)

    def jain_of(self, *names: str) -> float | None:
        """Jain's index of these flows, whichever they are."""
        return jain([goodput for name in names if (goodput := self.flows[name].goodput) is not None])

    def to_pandas(self) -> DataFrame:
        """A pandas DataFrame with a row for each figure: what (flow, link or run), name, figure, value. The frames of
        `flows` and `links` have a row for each of them."""
        of: list[FlowResult | LinkResult] = [*self.flows.values(), *self.links.values()]
        rows = [('flow' if isinstance(row, FlowResult) else 'link', row.name, figure, value) for row in of for figure, value in facts_of(row)]
        rows += [('run', '', figure, getattr(self, figure)) for figure in ('events', 'begin_ns', 'end_ns', 'jain')]
        return wanted('pandas').DataFrame(rows, columns=['what', 'name', 'figure', 'value'])

    def _last_lines(self) -> list[str]:
        fair = '' if self.jain is None else f', Jain\'s index {self.jain:.4f}, {of_flows(self._counts)}'
        left = [f'{len(self._carried_little)} links carried less than a tenth of the busiest, and dropped nothing: `links` has them'
                ] if self._carried_little else []
        return [*left, f'{self.events:,} events, span {self.span_ns / 1e9:.6f} s{fair}', *self.too_short]

    @functools.cached_property
    def _carried_little(self) -> list[str]:
        """The links that are left out of what is shown."""
        return carried_little(engine_figures(self._run))

    def _tables(self) -> list[list[list[str]]]:
        """What is shown: the bottlenecks, the flows without mice, and the links that carried more than little."""
        rows, little = engine_figures(self._run), self._carried_little
        mice = self.mice if len(self.mice) > 1 else ()
        return [opening(rows), self.flows.shown(lambda flow: flow.name not in mice),
                self.links.shown(lambda link: link.packets_sent + link.packets_dropped > 0 and link.name not in little)]

    def __repr__(self) -> str:
        return '\n'.join([*(line for rows in self._tables() for line in aligned(rows)), *self._last_lines()])

    def _repr_html_(self) -> str:
        return f'{"".join(map(html_table, self._tables()))}{"".join(f"<p>{html.escape(line)}</p>" for line in self._last_lines())}'


class Stalls(list):
    """The stalls of a run, a list whose text, and what a notebook shows, is a table."""

    def shown(self) -> list[list[str]]:
        """The table in words, its titles first: times in seconds."""
        return [['flow', 'begin s', 'length s', 'cause', 'found']] + [
            [row.flow, f'{row.begin / 1e9:.6f}', f'{row.length / 1e9:.6f}', row.cause, row.found] for row in self]

    def __repr__(self) -> str:
        rows = self.shown()
        widths = [max(map(len, column)) for column in zip(*rows)]
        lines = ('  '.join((word.rjust if ' s' in title else word.ljust)(width) for word, width, title in zip(row, widths, rows[0]))
                 for row in rows)
        return '\n'.join(line.rstrip() for line in lines) if self else 'no stalls'

    def _repr_html_(self) -> str:
        return html_table(self.shown()) if self else '<p>no stalls</p>'


def drop_columns(links: list[LinkResult]) -> list[tuple]:
    """A column for each word by which any of these links dropped."""
    words = dict.fromkeys(word for link in links for word, count in link.drops.items() if count)
    return [(f'as {word}', functools.partial(dropped_as, word), '{:,}', 1) for word in words]


def dropped_as(word: str, link: LinkResult) -> int:
    """Packets that a link dropped by this word."""
    return link.drops.get(word, 0)


def facts_of(row: FlowResult | LinkResult) -> Iterator[tuple[str, object]]:
    """The figures of a flow or link: name and value."""
    for field in fields(row):
        value = getattr(row, field.name)
        if field.name == 'drops':
            yield from ((f'dropped_{word}', count) for word, count in value.items())
        elif field.name != 'name':
            yield field.name, value


def flow_result(run: EngineRun, number: int, used: list[float | None]) -> FlowResult:
    """The figures of a flow, from the program's table."""
    values, path = run.flows[number], run.scenario.paths[number][0]
    busiest = max(path, key=lambda link: -1. if (part := used[link]) is None else part)     # the first where equal
    least, median, p95, p99, most = (values[f'{which} round trip{"s" * (which[0] == "9")}', 'ns'] for which in WHICH)
    return FlowResult(run.scenario.flows[number].name, values['start', 'ns'], values['delivered', 'bytes'], run.goodput(number),
                      None if used[busiest] is None else run.scenario.links[busiest].name, values['sent', 'segments'],
                      values['sent again by fast retransmit', 'segments'], values['sent again by timeout', 'segments'],
                      values['timeouts', 'times'], values['round trips', 'times'], least, median, p95, p99, most, values['completed', 'ns'])


def link_result(run: EngineRun, number: int, used: list[float | None]) -> LinkResult:
    """The figures of a link, from the program's table."""
    values = run.links[number]
    drops = {WORDS.get(figure, figure.rpartition(' ')[2]): count for (figure, _), count in values.items()
             if figure.startswith(DROPPED)}
    delays = [values[f'{which} delay in the queue', 'ns'] for which in WHICH[1:]]
    return LinkResult(run.scenario.links[number].name, used[number], values['offered', 'packets'], values['sent packets', 'packets'],
                      values['sent bytes', 'bytes'], drops, run.over_span(number, WAITED), values['greatest queue', 'packets'],
                      *delays)
