"""A run by time: the figures of each step, counted while its trace is read.

A step's figures stand in a file, so that no run has too many steps for the memory. Figures have the names of the table of
`tcpsim figures` (docs/FORMATS.md). All times are nanoseconds, all sizes bytes.
"""
from __future__ import annotations

import tempfile
from collections.abc import Iterable, Iterator, Sequence
from dataclasses import dataclass
from operator import sub

from tcpsim import output
from tcpsim.engine import BUSY, WAITED
from tcpsim.figures import Figures, FlowFigures, LinkFigures
from tcpsim.samples import Classes
from tcpsim.scenario.text import Link, Scenario, Unreadable
from tcpsim.traces.reader import Stream

STEPS = 10**6           # the most of a series
ROWS = 10**7            # the most of one that is written, a figure each
REASONS = 'lost', 'full', 'codel'       # as a trace has them
DELIVERED, GREATEST = ('delivered', 'bytes'), ('greatest queue', 'packets')
# What a step has of each flow and of each link.
FLOW_FIGURES = (DELIVERED, ('sent', 'segments'), ('sent again by fast retransmit', 'segments'),
                ('sent again by timeout', 'segments'), ('timeouts', 'times'), ('cwnd', 'bytes'), ('in flight', 'bytes'))
LINK_FIGURES = (BUSY, ('sent packets', 'packets'), ('sent bytes', 'bytes'), ('dropped as lost', 'packets'),
                ('dropped as full', 'packets'), ('dropped by CoDel', 'packets'), WAITED, GREATEST,
                ('median delay in the queue', 'ns'))


class FlowSeries(FlowFigures):
    """A flow's counts, and its window."""

    cwnd: int | None = None     # bytes, after the sender's last event
    in_flight: int | None = None
    area = height = 0           # the window summed over the time up to a moment t is `area + height * t`

    def on_window(self, time: int, cwnd: str, ssthresh: str, flight: int) -> None:
        """Notes the window, and sums it over the time to the flow's completion."""
        self.cwnd, self.in_flight = int(cwnd), flight
        height = int(cwnd) if self.completed is None else 0
        self.area += (self.height - height) * time
        self.height = height

    def counts(self) -> tuple[int, ...]:
        """The first figures of FLOW_FIGURES, from the span's begin on."""
        return self.delivered(), self.sent(), self.by_fast_retransmit, self.by_timeout, self.timeouts

    def summed(self, time: int) -> int:
        """The window summed over the time up to this moment, in byte-ns."""
        return self.area + self.height * time

    def under_way(self, begin: int, end: int) -> int:
        """Nanoseconds of a step between the flow's start and its completion."""
        return max(0, min(end, end if self.completed is None else self.completed) - max(begin, self.flow.start))


class LinkSeries(LinkFigures):
    """A link's counts, and the delays of a step."""

    def __init__(self, link: Link, number: int, kind: str):
        super().__init__(link, number, kind)
        self.duration_sum = self.packets = self.bytes = 0       # of those that it began to send
        self.by_reason, self.delays = dict.fromkeys(REASONS, 0), Classes()

    def on_taken(self, time: int, stream: Stream, entered: int) -> None:
        """Counts a packet that it begins to send."""
        super().on_taken(time, stream, entered)
        self.duration_sum += self.free_at - time
        self.packets += 1
        self.bytes += stream.size
        self.delays.add(time - entered)

    def on_drop(self, time: int, reason: str, flow: int, sort: int, number: int) -> None:
        """Counts a packet that was dropped."""
        super().on_drop(time, reason, flow, sort, number)
        if reason in self.by_reason:
            self.by_reason[reason] += 1

    def counts(self, time: int) -> tuple[int, ...]:
        """The first figures of LINK_FIGURES, up to this moment."""
        past = max(0, self.free_at - time)
        return self.duration_sum - past, self.packets, self.bytes, *self.by_reason.values(), self.summed(time)

    def begin_step(self) -> None:
        """The greatest queue and the delays are those from here on."""
        self.greatest = len(self.waiting)
        self.delays.clear()


@dataclass
class Step:
    """A step of a series. `values` are words, one for each column, `-` where there is none. `windows` has of each flow the
    window summed over the time, in byte-ns, and for how long it was under way, in ns."""

    begin: int
    end: int
    values: list[str]
    windows: list[tuple[int, int]]


class Series(Figures):
    """The steps of a trace's span. The last can be shorter."""

    flows: Sequence[FlowSeries]
    links: Sequence[LinkSeries]
    kinds = FlowSeries, LinkSeries
    most, too_many = STEPS, f'{STEPS:,} steps: take a longer step'

    def __init__(self, scenario: Scenario, lines: Iterable[str], step: int, begin: int | None = None, end: int | None = None):
        self._step, self._steps = step, tempfile.TemporaryFile()
        self._step_begin = 0
        self._before: tuple[list[tuple[int, ...]], list[tuple[int, ...]], list[int]] = ([], [], [])
        super().__init__(scenario, lines, begin, end)
        self.reached(self.end - 1)
        self._write(self.end)

    def columns(self) -> list[tuple[str, int, str, str]]:
        """What each value of a step is: (what, number, figure, unit)."""
        return [*(('flow', flow.number, *figure) for flow in self.flows for figure in FLOW_FIGURES),
                *(('link', link.number, *figure) for link in self.links for figure in LINK_FIGURES)]

    def steps(self) -> Iterator[Step]:
        """The steps, in order."""
        count = len(self.columns())
        with output.named(tempfile.gettempdir()):
            self._steps.seek(0)
        for line in self._steps:
            begin, end, *values = line.decode().split()
            sums = list(map(int, values[count:]))
            yield Step(int(begin), int(end), values[:count], list(zip(sums[::2], sums[1::2])))

    def reached(self, time: int) -> int | None:
        """As of any figures, and ends steps. Unreadable where they are too many."""
        if (min(time, self._stop - 1) - self.begin) // self._step >= self.most:
            raise Unreadable(f'the series has more than {self.too_many}')
        return super().reached(time)

    def _passed(self, moment: int) -> int:
        if self._started:
            self._write(moment)
        else:
            super()._passed(moment)
        return min(self._stop, self._step_begin + self._step)

    def _start(self) -> None:
        super()._start()
        self._begin_step(self.begin)

    def _begin_step(self, time: int) -> None:
        self._step_begin = time
        self._before = ([flow.counts() for flow in self.flows], [link.counts(time) for link in self.links],
                        [flow.summed(time) for flow in self.flows])
        for link in self.links:
            link.begin_step()

    def _write(self, end: int) -> None:
        """Puts the step that ends here into the file. It has no length where the last event is where it begins."""
        flows, links, windows = self._before
        values: list[int | None] = [self._step_begin, end]
        for flow, before in zip(self.flows, flows):
            values += [*map(sub, flow.counts(), before), flow.cwnd, flow.in_flight]
        for link, before in zip(self.links, links):
            values += [*map(sub, link.counts(end), before), link.greatest, link.delays.percentile(50)]
        for flow, area in zip(self.flows, windows):
            values += [flow.summed(end) - area, flow.under_way(self._step_begin, end)]
        line = ' '.join('-' if value is None else str(value) for value in values) + '\n'
        with output.named(tempfile.gettempdir()):
            self._steps.write(line.encode())
        self._begin_step(end)


class Rows(Series):
    """The series that tcpsim-flows writes, which sums to the table of `tcpsim figures`: from time 0, and where a link is still
    sending at the last event, to the scenario's end."""

    too_many = f'{ROWS:,} rows: take a longer step, or a part by --from and --to'

    def __init__(self, scenario: Scenario, lines: Iterable[str], step: int, begin: int | None = None, end: int | None = None):
        self.most = ROWS // (len(FLOW_FIGURES) * len(scenario.flows) + len(LINK_FIGURES) * len(scenario.links))
        super().__init__(scenario, lines, step, begin or 0, end)

    def _run_end(self) -> int:
        still_sends = self.whole and any(link.busy for link in self.links)
        return self.scenario.end if still_sends else super()._run_end()
