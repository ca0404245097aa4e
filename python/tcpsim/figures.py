"""Figures of each flow and each link of a run, counted while its trace is read, or from the table that the program writes.

A trace is not kept. The span is from the first flow's start to the last line where every flow is complete, else to the
scenario's end. Nothing but Python's standard library. All times are nanoseconds, all sizes bytes.
"""
from __future__ import annotations

import tempfile
from array import array
from collections import Counter, defaultdict
from collections.abc import Callable, Iterable, Sequence
from itertools import islice

from tcpsim.cycle import Cycle, cycle_of
from tcpsim.cycle import figures_of as cycle_figures
from tcpsim.engine import BUSY, PORTIONS, REASONS, WAITED, EngineRun
from tcpsim.fairness import Goodputs, compared, jain
from tcpsim.samples import Sample
from tcpsim.scenario.text import Flow, Link, Scenario, Unreadable
from tcpsim.scenario.units import BITS_NS
from tcpsim.traces.reader import ACK, DATA, NEVER, FlowState, LinkState, Reader, Stream

S = 10**9
HELD = 1 << 19          # numbers that all samples together hold in memory
PORTION = 1 << 16       # lines between two looks at how many are held
COMPARED = 'compared flows', 'mice', 'flows limited by their window', 'ended flows'      # those of `fairness.Compared`


# ---- what is counted while a trace is read

class FlowFigures(FlowState):
    """A flow's counts from the span's begin on."""

    def __init__(self, flow: Flow, number: int):
        super().__init__(flow, number)
        self.begin()

    def begin(self) -> None:
        """Counts from here on."""
        self.expected_before, self.high_before = self.expected, self.high
        self.by_fast_retransmit = self.by_timeout = self.timeouts = 0
        self.drops: Counter[tuple[str, int, int]] = Counter()       # of each reason, sort and link
        self.flights: list[int] = []    # bytes in flight at each timeout
        del self.round_trips[:]

    def on_again(self, time: int, number: int, by_dups: bool) -> None:
        """Counts a segment that was sent again."""
        if by_dups:
            self.by_fast_retransmit += 1
        else:
            self.by_timeout += 1

    def on_timeout(self, time: int) -> None:
        """Counts a timeout, and keeps what was in flight."""
        self.timeouts += 1
        self.flights.append(self.nxt - self.last_una)

    def on_drop(self, time: int, link: int, reason: str, sort: int, number: int) -> None:
        """Counts a packet that was dropped."""
        self.drops[reason, sort, link] += 1

    def delivered(self) -> int:
        """Bytes that the receiver got in order in the span."""
        return self.expected - self.expected_before

    def sent(self) -> int:
        """Segments sent in the span, again ones too."""
        first = (self.high - self.high_before) // self.flow.mss
        return first + self.by_fast_retransmit + self.by_timeout

    def goodput(self, begin: int, end: int) -> float | None:
        """Bits a second that came to the receiver in order, from the flow's start to its completion; None
        where it was not under way in the span."""
        since = max(begin, self.flow.start)
        until = end if self.completed is None else min(end, self.completed)
        return self.delivered() * BITS_NS / (until - since) if since < until else None


class LinkFigures(LinkState):
    """A link's counts from the span's begin on."""

    def __init__(self, link: Link, number: int, kind: str):
        super().__init__(link, number, kind)
        self.waits: array[int] = array('q')
        self.began = 0                      # when it began the last packet
        self.last: Stream | None = None     # and which
        self.begin(0)

    def begin(self, time: int) -> None:
        """Counts from this moment on."""
        self.overhang = 0 if self.last is None else max(0, self.began + self.duration(self.last) - time)
        self.count: defaultdict[Stream, int] = defaultdict(int)     # packets sent of each stream
        self.drops, self.greatest, self.before = 0, len(self.waiting), self.summed(time)
        self.last = None
        self.longest_wait = 0               # ns, of the packets that it began to send
        del self.waits[:]

    def duration(self, stream: Stream) -> int:
        """Nanoseconds that a packet takes to be sent."""
        return -(-stream.size * BITS_NS // self.link.rate)

    def summed(self, time: int) -> int:
        """How many packets waited, summed over the time up to this moment."""
        return self.waited + len(self.waiting) * time

    def on_taken(self, time: int, stream: Stream, entered: int) -> None:
        """Counts a packet that it begins to send."""
        self.count[stream] += 1
        wait = time - entered
        self.waits.append(wait)
        if wait > self.longest_wait:
            self.longest_wait = wait
        self.began, self.last = time, stream

    def on_drop(self, time: int, reason: str, flow: int, sort: int, number: int) -> None:
        """Counts a packet that was dropped."""
        self.drops += 1

    def sent(self) -> int:
        """Packets that it began to send."""
        return sum(self.count.values())

    def is_busy(self) -> bool:
        """Whether it dropped a packet, or one waited longer than the greatest that it sent takes to be sent."""
        return bool(self.drops) or self.longest_wait > max(map(self.duration, self.count), default=0)

    def mean_queue(self, begin: int, end: int) -> float:
        """How many packets waited, in the mean over a span in ns."""
        return (self.summed(end) - self.before) / (end - begin)

    def sending(self, end: int) -> int:
        """Nanoseconds in which it was sending."""
        past = 0 if self.last is None else max(0, self.began + self.duration(self.last) - end)
        return self.overhang + sum(n * self.duration(stream) for stream, n in self.count.items()) - past

    def bytes_of(self, number: int) -> int:
        """Bytes of a flow that it sent."""
        return sum(n * stream.size for stream, n in self.count.items() if stream.flow == number)


class Figures(Reader):
    """A trace's figures from `begin` (else the first flow's start) to `end`, read as they come."""

    flows: Sequence[FlowFigures]
    links: Sequence[LinkFigures]
    kinds: tuple[type[FlowFigures], type[LinkFigures]] = (FlowFigures, LinkFigures)

    def __init__(self, scenario: Scenario, lines: Iterable[str], begin: int | None = None, end: int | None = None):
        super().__init__(scenario, *self.kinds)
        self._file = tempfile.TemporaryFile()
        self.trips = [Sample(self._file) for _ in self.flows]
        self.waits = [Sample(self._file) for _ in self.links]
        for flow, sample in zip(self.flows, self.trips):
            flow.round_trips = sample.recent
        for link, sample in zip(self.links, self.waits):
            link.waits = sample.recent
        self.first = min(flow.start for flow in scenario.flows)
        self.begin = self.first if begin is None else begin
        self.end = self._stop = NEVER if end is None else end
        self._started = False
        self._due: int | None = self.begin
        self._delivered: list[list[int]] = []       # by each flow, up to the end of each portion but the last
        self._read_all(lines)

    def _read_all(self, lines: Iterable[str]) -> None:
        lines, before = iter(lines), -PORTION
        while self.lines - before == PORTION:
            before = self.lines
            self.read(islice(lines, PORTION), NEVER if self._due is None else self._due)
            samples = self.trips + self.waits
            if sum(len(sample.recent) for sample in samples) > HELD:
                for sample in samples:
                    sample.spill()
        if self._due is not None:
            self.end = min(self._stop, self._run_end())
        if not self._started and self.begin < max(self.end, self.first + 1):
            self.reached(self.begin)
        if not self._started:
            raise Unreadable(f'the run ends at {self.end / S:g} s: nothing of it is at or after {self.begin / S:g} s')
        self.end = max(self.end, self.begin + 1)

    def _run_end(self) -> int:
        """Where the span ends if no `end` is before that."""
        done = all(flow.completed is not None for flow in self.flows)
        return self.last if done or not self.whole else self.scenario.end

    # Moments at which the span begins, or ends.

    def reached(self, time: int) -> int | None:
        """Begins the span, or ends it; answers the next such moment in ns."""
        while self._due is not None and self._due <= time:
            if self._started and self._due == self._stop:
                self._due = None
            else:
                self._due = self._passed(self._due)
        return self._due

    def _passed(self, _moment: int) -> int:
        """Begins the span, or ends a portion; answers the next moment."""
        if self._started:
            self._delivered.append([flow.delivered() for flow in self.flows])
        else:
            self._start()
        ended = len(self._delivered) + 1
        last = min(self._stop, self.scenario.end)       # the span's end where flows go on to it
        return self._stop if ended == PORTIONS else min(self._stop, self.begin + ended * (last - self.begin) // PORTIONS)

    def portions(self) -> list[list[int]]:
        """What each flow delivered in each of the span's PORTIONS; of a span that ends with the last flow less."""
        sums = [[0] * len(self.flows), *self._delivered, [flow.delivered() for flow in self.flows]]
        return [[after - before for before, after in zip(*both)] for both in zip(sums, sums[1:])]

    # What it has of a flow, as an `EngineRun` has.

    def goodput(self, number: int) -> float | None:
        """A flow's goodput in the span, in bit/s."""
        return self.flows[number].goodput(self.begin, self.end)

    def completed(self, number: int) -> int | None:
        """When a flow was complete; None where it was not by the span's end."""
        return self.flows[number].completed

    def _start(self) -> None:
        self._started = True
        for flow in self.flows:
            flow.begin()
        for link in self.links:
            link.begin(self.begin)
        for sample in self.trips + self.waits:
            sample.clear()


def part(count: int, of: int) -> float | None:
    """The part that a count is of a whole; None of none."""
    return count / of if of else None


def cycles(run: Figures) -> list[Cycle]:
    """The flows that are in a cycle of timeouts."""
    found = [cycle_of(run.scenario, flow.number, flow.flights) for flow in run.flows]
    return [cycle for cycle in found if cycle is not None]


def flow_figures(run: Figures, number: int, used: Sequence[float]) -> list[tuple]:
    """The figures of a flow: (figure, unit, value), value None where there is none."""
    flow, trips = run.flows[number], run.trips[number]
    busiest = max(run.scenario.paths[number][0], key=lambda link: used[link])    # the first where equal
    link = run.links[busiest]
    carried = sum(n * stream.size for stream, n in link.count.items())
    lost = sum(n for (_, sort, _), n in flow.drops.items() if sort == DATA)
    rows: list[tuple] = [
            ('delivered', 'bytes', flow.delivered()),
            ('goodput', 'bit/s', flow.goodput(run.begin, run.end)),
            ('bottleneck', 'link', link.link.name),
            ('share of the bottleneck', 'part', link.bytes_of(number) / (carried or 1)),
            ('sent', 'segments', flow.sent()),
            ('loss', 'part', part(lost, flow.sent())),
            ('timeouts', 'times', flow.timeouts),
            ('sent again by fast retransmit', 'segments', flow.by_fast_retransmit),
            ('sent again by timeout', 'segments', flow.by_timeout),
            ('least round trip', 'ns', trips.least()),
            ('median round trip', 'ns', trips.percentile(50)),
            ('95th percentile of round trips', 'ns', trips.percentile(95)),
            ('99th percentile of round trips', 'ns', trips.percentile(99)),
            ('took', 'ns', None if flow.completed is None else flow.completed - flow.flow.start),
            ('completed', 'ns', flow.completed)]
    drops = sorted((reason, 'ack' if sort == ACK else 'data', run.links[at].link.name, n)
                   for (reason, sort, at), n in flow.drops.items())
    rows += cycle_figures(cycle_of(run.scenario, number, flow.flights))
    return rows + [(f'{sort} dropped as {reason} at {at}', 'packets', n) for reason, sort, at, n in drops]


def link_figures(run: Figures, number: int, used: Sequence[float]) -> list[tuple]:
    """The figures of a link, as those of a flow. Its loss is of the packets that it has sent or dropped."""
    link, waits = run.links[number], run.waits[number]
    return [('utilization', 'part', used[number]),
            ('greatest queue', 'packets', link.greatest),
            ('mean queue', 'packets', link.mean_queue(run.begin, run.end)),
            ('median delay in the queue', 'ns', waits.percentile(50)),
            ('95th percentile of delay in the queue', 'ns', waits.percentile(95)),
            ('99th percentile of delay in the queue', 'ns', waits.percentile(99)),
            ('sent', 'packets', link.sent()),
            ('dropped', 'packets', link.drops),
            ('loss', 'part', part(link.drops, link.sent() + link.drops))]


def figures(run: Figures, only_busy: bool = False, chosen: Sequence[int] | None = None) -> list[tuple]:
    """All figures: (what, name, figure, unit, value), value None where there is none; of flows that are chosen, these alone."""
    span = run.end - run.begin
    used = [link.sending(run.end) / span for link in run.links]
    rows = flow_rows(run, flow_figures, used, chosen)
    rows += [('link', link.link.name, *row) for link in run.links if link.is_busy() or not only_busy
             for row in link_figures(run, link.number, used)]
    rows += index_figures(run, chosen)
    if run.begin != run.first:
        rows.append(('run', '', 'begin', 'ns', run.begin))
    rows.append(('run', '', 'span', 'ns', span))
    return rows


def flow_rows(run: Goodputs, figures_of: Callable, used: Sequence[float | None], chosen: Sequence[int] | None) -> list[tuple]:
    """The figures of the flows, or of those that are chosen, and whether they are compared."""
    flows = compared(run, chosen)
    return [('flow', run.scenario.flows[number].name, *row) for number in (range(len(run.scenario.flows)) if chosen is None else chosen)
            for row in [*figures_of(run, number, used), ('compared', 'word', flows.standing(number))]]


def index_figures(run: Goodputs, chosen: Sequence[int] | None = None) -> list[tuple]:
    """Jain's index, of how many flows it is, and which flows it leaves out."""
    flows = compared(run, chosen)
    return [('run', '', 'Jain\'s index of goodput', 'part', jain([run.goodput(number) or 0 for number in flows.flows])),
            *(('run', '', title, 'flows', len(numbers)) for title, numbers in zip(COMPARED, flows))]


# ---- with no trace

# How the table of `tcpsim figures` has the figures of a flow that stand here under the same name, and those of its
# timed round trips: samples of one segment at a time (RFC 6298 section 3), and not of each that is sent once.
FLOW_ENGINE = (('timeouts', 'times'), ('sent again by fast retransmit', 'segments'), ('sent again by timeout', 'segments'))
TIMED = (('least timed round trip', 'least round trip'), ('median timed round trip', 'median round trip'),
         *((f'{n}th percentile of timed round trips', f'{n}th percentile of round trips') for n in (95, 99)))


def engine_flow_figures(run: EngineRun, number: int, used: Sequence[float | None]) -> list[tuple]:
    """The figures of a flow, from the program's table."""
    values, path = run.flows[number], run.scenario.paths[number][0]
    busiest = max(path, key=lambda link: -1. if (part := used[link]) is None else part)     # the first where equal
    return [('delivered', 'bytes', values['delivered', 'bytes']),
            ('goodput', 'bit/s', run.goodput(number)),
            ('bottleneck', 'link', None if used[busiest] is None else run.scenario.links[busiest].name),
            ('sent', 'segments', values['sent', 'segments']),
            *((*figure, values[figure]) for figure in FLOW_ENGINE),
            ('timed round trips', 'times', values['round trips', 'times']),
            *((name, 'ns', values[figure, 'ns']) for name, figure in TIMED),
            ('took', 'ns', None if values['completed', 'ns'] is None else values['completed', 'ns'] - values['start', 'ns']),
            ('completed', 'ns', values['completed', 'ns'])]


def engine_link_figures(run: EngineRun, number: int, used: Sequence[float | None]) -> list[tuple]:
    """The figures of a link, from the program's table."""
    values, drops = run.links[number], run.dropped(number)
    sent = values['sent packets', 'packets']
    return [('utilization', 'part', used[number]),
            ('greatest queue', 'packets', values['greatest queue', 'packets']),
            ('mean queue', 'packets', run.over_span(number, WAITED)),
            *((name, 'ns', values[name, 'ns'])
              for name in ('median delay in the queue', '95th percentile of delay in the queue', '99th percentile of delay in the queue')),
            ('sent', 'packets', sent),
            ('dropped', 'packets', drops),
            *((reason, 'packets', values[reason, 'packets']) for reason in REASONS),
            ('loss', 'part', part(drops, sent + drops))]


def engine_figures(run: EngineRun, only_busy: bool = False, chosen: Sequence[int] | None = None) -> list[tuple]:
    """As `figures`, from the program's table."""
    used = [run.over_span(number, BUSY) for number in range(len(run.links))]
    rows = flow_rows(run, engine_flow_figures, used, chosen)
    rows += [('link', link.name, *row) for number, link in enumerate(run.scenario.links)
             if run.is_busy(number) or not only_busy for row in engine_link_figures(run, number, used)]
    rows += index_figures(run, chosen)
    rows.append(('run', '', 'span', 'ns', run.end - run.begin))
    return rows
