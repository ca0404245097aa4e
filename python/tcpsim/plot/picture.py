"""What every panel needs: the runs' flows and links that are shown, the axis of time, the choices."""
from __future__ import annotations

from collections import namedtuple
from collections.abc import Iterable, Sequence

import numpy as np
from matplotlib.axes import Axes
from numpy.typing import ArrayLike

from .clock import Clock
from .points import dots, steps
from .style import LINKS, series

DATA = 0
MOST_FLOWS = 4          # drawn at most where none are named, those that carry most

# A flow or link as it is shown: what its run did with it, its name in the picture, its number there, the moment up to which
# its run is known, and what is said of it. `trip` is the least that a flow's round trip can be, where that is not alike for
# all; `acks` has the flows of which a link carries the acknowledgements and no data.
FlowView = namedtuple('FlowView', 'run name number until notes trip', defaults=((), ''))
LinkView = namedtuple('LinkView', 'run name number until note acks', defaults=('', ()))


class Picture:
    """What is drawn: flows, links and the span. Stalls are marked that last `longer`, in ns; `beside`: the flows and links
    are those of several runs; `log`: delays have a logarithmic axis."""

    def __init__(self, flows: list[FlowView], links: list[LinkView], clock: Clock, beside: bool = False,
                 longer: int = 2 * 10**8, log: bool = False):
        self.flows, self.links, self.clock = flows, links, clock
        self.beside, self.longer, self.log = beside, longer, log
        self.tops = {}                  # of some panels, by name, how high their axes go at least
        self.window = clock.window
        self.labels = {}                # of each panel the annotations that get their place when all is laid out,
        self.timers = {}                # and those at timeouts, which stay left of their lines
        self.first = None               # the first panel of each flow, which says most of its timeouts
        self.part = ''                  # what is said where a part of the run is shown
        self.left_out = []              # what is said of the flows and the links that are not drawn
        self.others = []                # the views of those flows
        self.row = .09                  # how high a row of signs above a queue is, as a part of the queue's axis
        self.wide = None                # points that a panel is wide, where that is another than panels are told

    def look_of(self, view: FlowView | LinkView) -> dict:
        """The look of a flow's curve or a link's. Where each run has one flow, its link has the flow's."""
        alike = self.beside and len(self.flows) == len(self.links)
        return series(view.number) if alike or isinstance(view, FlowView) else series(view.number, LINKS)

    def color_of(self, view: FlowView) -> str:
        """The colour of a flow."""
        return series(view.number)['color']

    def key_color(self) -> str:
        """The colour in which a key shows what each flow has in its own."""
        return series(0)['color'] if len(self.flows) == 1 else '#222222'

    def across(self, times: ArrayLike, width: float) -> np.ndarray:
        """Where moments (ns) are in a panel so wide, in points."""
        left, right = self.clock.x(self.window)
        return (self.clock.x(times) - left) / (right - left) * (self.wide or width)

    def until(self, view: FlowView | LinkView) -> tuple[int, int]:
        """The part of the window in which the view's run is known, in ns."""
        return self.window[0], max(self.window[0], min(self.window[1], view.until))

    def curve(self, axes: Axes, view: FlowView | LinkView, times: ArrayLike, values: ArrayLike, scale: int,
              hidden: Sequence[tuple[int, int]] = (), **style: object) -> None:
        """A curve of steps, with nothing drawn in the spans that are hidden. Times and spans are ns; `scale` divides the
        values."""
        times, values = steps(times, values, self.until(view))
        shown = values / scale
        for begin, end in hidden:
            shown = np.where((times >= begin) & (times < end), np.nan, shown)
        axes.step(self.clock.x(times), shown, where='post', **{'lw': 1.4, **style})

    def points(self, axes: Axes, times: ArrayLike, values: ArrayLike, scale: int, **style: object) -> None:
        """Draws points of a curve at times in ns; `scale` divides its values."""
        times, values = dots(times, values, self.window)
        if len(times):
            axes.plot(self.clock.x(times), values / scale, ls='none', rasterized=len(times) > 400, clip_on=False, **style)

    def sees(self, time: int) -> bool:
        """Whether a moment (ns) is in the span."""
        return self.window[0] <= time <= self.window[1]

    def in_sight(self, spans: Iterable[tuple[int, int]]) -> list[tuple[int, int]]:
        """The parts of spans (ns) that lie in the window."""
        return [(max(begin, self.window[0]), min(end, self.window[1])) for begin, end in spans
                if begin < self.window[1] and end > self.window[0]]

    def seen(self, times: ArrayLike, values: ArrayLike) -> np.ndarray:
        """The values of the moments (ns) in the window, and that at its begin."""
        times, values = np.asarray(times, dtype=np.int64), np.asarray(values, dtype=np.int64)
        first, last = np.searchsorted(times, self.window[0], side='right'), \
            np.searchsorted(times, self.window[1], side='right')
        return values[max(first - 1, 0):last]


def recoveries(view: FlowView) -> list[tuple[int, int]]:
    """The spans of a flow's recoveries, in ns."""
    return [(begin, view.until if end is None else end) for begin, end in view.run.recoveries]
