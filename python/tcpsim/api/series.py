"""A run by time: of each flow its mean window and goodput, of each link its mean and greatest queue, step by step."""
from __future__ import annotations

import math
from array import array
from dataclasses import dataclass, field
from typing import TYPE_CHECKING

from tcpsim.api.errors import ByName, wanted
from tcpsim.engine import WAITED
from tcpsim.figures import S
from tcpsim.scenario.units import BITS_NS
from tcpsim.traces.series import DELIVERED, GREATEST, Series, Step

if TYPE_CHECKING:
    from pandas import DataFrame


@dataclass
class FlowCurve:
    """A flow step by step; nan where it is not under way."""

    cwnd: array = field(default_factory=lambda: array('d'))         # bytes, the mean
    goodput: array = field(default_factory=lambda: array('d'))      # bit/s


@dataclass
class LinkCurve:
    """A link's queue step by step."""

    queue_mean: array = field(default_factory=lambda: array('d'))   # packets
    queue_max: array = field(default_factory=lambda: array('d'))    # packets


class TimeSeries:
    """Rows for steps of time: `begin_s` and `end_s` of each, in seconds, and by name `flows` and `links`. The last step can be
    shorter."""

    def __init__(self, run: Series):
        self.begin_s, self.end_s = array('d'), array('d')
        self.flows: dict[str, FlowCurve] = ByName((flow.flow.name, FlowCurve()) for flow in run.flows)
        self.links: dict[str, LinkCurve] = ByName((link.link.name, LinkCurve()) for link in run.links)
        places = {column: at for at, column in enumerate(run.columns())}
        for step in run.steps():
            if step.begin < step.end:
                self._add(step, places)

    def _add(self, step: Step, places: dict[tuple[str, int, str, str], int]) -> None:
        length = step.end - step.begin
        self.begin_s.append(step.begin / S)
        self.end_s.append(step.end / S)
        for number, (flow, (area, active)) in enumerate(zip(self.flows.values(), step.windows)):
            flow.cwnd.append(area / active if active else math.nan)
            flow.goodput.append(int(step.values[places['flow', number, *DELIVERED]]) * BITS_NS / length)
        for number, link in enumerate(self.links.values()):
            link.queue_mean.append(int(step.values[places['link', number, *WAITED]]) / length)
            link.queue_max.append(int(step.values[places['link', number, *GREATEST]]))

    def __len__(self) -> int:
        return len(self.begin_s)

    def to_pandas(self) -> DataFrame:
        """A pandas DataFrame with a row for each step, by its begin in seconds; columns are as `f0 cwnd`, `pq queue_mean`."""
        columns = {f'{name} {figure}': values for name, of in (*self.flows.items(), *self.links.items())
                   for figure, values in vars(of).items()}
        pandas = wanted('pandas')
        return pandas.DataFrame(columns, index=pandas.Index(self.begin_s, name='begin_s'))

    def __repr__(self) -> str:
        if not self:
            return '<no steps>'
        return (f'<{len(self)} steps from {self.begin_s[0]:g} s to {self.end_s[-1]:g} s; flows {", ".join(self.flows)}; '
                f'links {", ".join(self.links)}>')
