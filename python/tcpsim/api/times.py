"""Where the time of a flow went: the parts of its completion time, by its critical path (docs/TIME.md)."""
from __future__ import annotations

import html
from collections.abc import Mapping
from dataclasses import dataclass, fields
from typing import TYPE_CHECKING

from tcpsim.api.errors import wanted
from tcpsim.api.results import html_table
from tcpsim.api.shown import PlottedRun
from tcpsim.breakdown import Breakdown
from tcpsim.critical_path import Event, Timeout

if TYPE_CHECKING:
    from pandas import DataFrame


@dataclass(frozen=True)
class TimePart:
    """A part of a flow's time."""

    kind: str                   # queue, serialization, propagation, retransmission timer, delayed acknowledgement
    at: str                     # the link, or the node of a timer
    behind: str | None          # in a queue, the flow behind whose packets
    doubled: int | None         # of a retransmission timer, how often it was doubled since it was measured
    ns: int
    share: float                # of the whole, 0 to 1
    alone_ns: int | None        # the same where the flow is alone on its paths


class FlowTime:
    """Where the time of a flow went: `parts`, the greatest first, which sum to `time_ns`. `events` is the path, and `timeouts` are
    those on it. Of a flow that is not complete it is the time to its last new acknowledgement, and `awaits` says what it waits for."""

    def __init__(self, breakdown: Breakdown):
        self._breakdown, path = breakdown, breakdown.path
        self.flow: str = breakdown.name
        self.parts = [TimePart(row.part.kind, row.part.at, row.part.behind, row.part.doubled, row.ns, row.share, row.alone)
                      for row in breakdown.rows()]
        self.time_ns: int = path.time
        self.begin_ns: int | None = path.begin
        self.end_ns: int | None = path.end
        self.acknowledged_bytes: int = path.acknowledged
        self.complete: bool = path.is_whole
        self.awaits: str = breakdown.awaits
        self.alone_ns: int | None = breakdown.alone.time if breakdown.alone else None
        self.round_trips: Mapping[str, int] = dict(path.trips)
        self.events: list[Event] = path.events
        self.timeouts: list[Timeout] = path.timeouts

    def frame(self) -> DataFrame:
        """A pandas DataFrame with a row for each part."""
        columns = [field.name for field in fields(TimePart)]
        return wanted('pandas').DataFrame([[getattr(part, name) for name in columns] for part in self.parts], columns=columns)

    def plot(self) -> PlottedRun:
        """A bar with the parts in the order of time, which a notebook shows. Wants matplotlib."""
        wanted('matplotlib')
        from tcpsim.plot.bars import draw
        return PlottedRun(draw([('', [self._breakdown])]))

    def __repr__(self) -> str:
        return '\n'.join(self._breakdown.lines())

    def _repr_html_(self) -> str:
        heading = f'<p>{html.escape(self._breakdown.heading())}</p>'
        return heading + html_table([list(row) for row in self._breakdown.table()]) if self.parts else heading
