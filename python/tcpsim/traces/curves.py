"""A run with all its curves: of each flow when it sent and what was acknowledged, of each link its queue and waits.
Nothing but Python's standard library. All times are nanoseconds, all sizes bytes.
"""
from __future__ import annotations

from array import array
from collections import Counter
from collections.abc import Iterable, Sequence

from tcpsim.scenario.text import Flow, Link, Scenario
from tcpsim.scenario.units import BITS_NS
from tcpsim.traces.reader import FlowState, LinkState, Reader, Stream
from tcpsim.whole_trace import opened_run


class FlowRun(FlowState):
    """What a run did with one flow. Columns that belong together have one entry a line."""

    def __init__(self, flow: Flow, number: int = 0):
        super().__init__(flow, number)
        self.times, self.cwnd, self.ssthresh, self.flight = (array('q') for _ in range(4))
        self.una_times, self.una = array('q'), array('q')       # where una rose
        self.next_times, self.next = array('q'), array('q')     # where the receiver's next byte rose
        self.delack_times, self.delacks = array('q'), array('q')  # where it acknowledged what it had held back
        self.sent_times, self.sent = array('q'), array('q')     # segments sent for the first time
        self.again_times, self.again = array('q'), array('q')   # segments sent again
        self.by_fast_retransmit = self.by_timeout = 0
        self.timeouts = array('q')
        self.recoveries: list[list[int | None]] = []                # [begin, end or None]
        self.drops: list[tuple[int, int, str, int, int]] = []       # (time, link, reason, DATA or ACK, number)

    def on_window(self, time: int, cwnd: str, ssthresh: str, flight: int) -> None:
        """Keeps the windows, in bytes."""
        self.times.append(time)
        self.cwnd.append(int(cwnd))
        self.ssthresh.append(int(ssthresh))
        self.flight.append(flight)

    def on_sent(self, time: int, number: int) -> None:
        """Keeps a segment that was sent for the first time."""
        self.sent_times.append(time)
        self.sent.append(number)

    def on_again(self, time: int, number: int, by_dups: bool) -> None:
        """Keeps a segment that was sent again."""
        self.again_times.append(time)
        self.again.append(number)
        if by_dups:
            self.by_fast_retransmit += 1
        else:
            self.by_timeout += 1

    def on_acknowledged(self, time: int) -> None:
        """Keeps what is acknowledged."""
        self.una_times.append(time)
        self.una.append(self.last_una)

    def on_received(self, time: int) -> None:
        """Keeps the next byte that the receiver wants."""
        self.next_times.append(time)
        self.next.append(self.expected)

    def on_delack(self, time: int) -> None:
        """Keeps an acknowledgement that was held back until its timer ended."""
        self.delack_times.append(time)
        self.delacks.append(self.expected)

    def on_timeout(self, time: int) -> None:
        """Keeps the moment of a timeout."""
        self.timeouts.append(time)

    def on_turn(self, time: int, recovering: bool) -> None:
        """Keeps where a recovery begins and ends."""
        if recovering:
            self.recoveries.append([time, None])
        else:
            self.recoveries[-1][1] = time

    def on_drop(self, time: int, link: int, reason: str, sort: int, number: int) -> None:
        """Keeps a packet that was dropped."""
        self.drops.append((time, link, reason, sort, number))


class LinkRun(LinkState):
    """What a run did at one link."""

    def __init__(self, link: Link, number: int = 0, kind: str = 'router'):
        super().__init__(link, number, kind)
        self.queue_times, self.queue = array('q'), array('q')   # packets that wait, where that changed
        self.wait_times, self.waits = array('q'), array('q')    # of each packet sent: when it began, its wait
        self.taken_of = array('q')      # of each packet sent: its flow
        self.busy_from, self.busy_to = array('q'), array('q')
        self.drops: list[tuple[int, str, int, int, int]] = []   # (time, reason, flow, DATA or ACK, number)
        self.bytes_of: Counter[int] = Counter()                 # bytes sent of each flow

    def on_taken(self, time: int, stream: Stream, entered: int) -> None:
        """Keeps how long a packet waited, and for how long the link is busy with it."""
        self.wait_times.append(time)
        self.waits.append(time - entered)
        self.taken_of.append(stream.flow)
        self.busy_from.append(time)
        self.busy_to.append(time - -stream.size * BITS_NS // self.link.rate)
        self.bytes_of[stream.flow] += stream.size

    def on_queue(self, time: int) -> None:
        """Keeps how many packets wait, where that changes."""
        length = len(self.waiting)
        if length != (self.queue[-1] if self.queue else 0):
            self.queue_times.append(time)
            self.queue.append(length)

    def on_drop(self, time: int, reason: str, flow: int, sort: int, number: int) -> None:
        """Keeps a packet that was dropped."""
        self.drops.append((time, reason, flow, sort, number))


class Run(Reader):
    """A scenario's run as its trace tells it, with all its curves: `flows`, `links`, `last` (the last line's
    time), `whole` (the trace has its line `end N`) and `lines`."""

    flows: Sequence[FlowRun]
    links: Sequence[LinkRun]

    def __init__(self, scenario: Scenario, lines: Iterable[str]):
        super().__init__(scenario, FlowRun, LinkRun)
        self.read(lines)

    def begin(self) -> int:
        """When the first flow starts, in ns."""
        return min(flow.start for flow in self.scenario.flows)

    def end(self) -> int:
        """Where the figures' span ends: the last line where every flow is complete or the trace is
        cut short, else the scenario's end."""
        done = all(flow.completed is not None for flow in self.flows)
        return self.last if done or not self.whole else self.scenario.end


def read_run(scenario_path: str, trace_path: str | None = None, program: str | None = None,
             partial: bool = False) -> Run:
    """The run of a scenario's file: from its trace's file, or else by running the program."""
    with opened_run(scenario_path, trace_path, program, partial) as (scenario, lines):
        return Run(scenario, lines)
