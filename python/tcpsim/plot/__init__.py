"""Draws a run: each flow's window and sequence numbers, each link's queue, delay and utilization.

Wants matplotlib, and leaves pyplot and its backend, which are the caller's, as they are. All times are nanoseconds.

`choice` reads the words and picks what is shown, `clock` is the axis of time, `points` thins curves out. `flow_panels`,
`timers` and `link_panels` draw the panels; `spans` has the bands and timeouts, `losses` the signs that several of them have.
`broken` finds how high the axis of windows goes, `labels` finds where names stand, `layout` puts all together, `slide` draws
one panel for a lecture, `drawn` says what a picture shows, `files` writes it, `sweep` draws a sweep, `search` a search, and
`bars` where the time of flows went.
"""
from __future__ import annotations

import argparse

from matplotlib.figure import Figure

from tcpsim.plot.choice import beside, drawable, picture_of, runs_of, title_of, words_of
from tcpsim.plot.drawn import drawn
from tcpsim.plot.files import save
from tcpsim.plot.layout import draw
from tcpsim.plot.slide import draw_slide
from tcpsim.plot.points import busy_parts, steps

__all__ = ['busy_parts', 'draw', 'drawn', 'figure_of', 'picture_of', 'save', 'steps', 'words_of']


def figure_of(given: argparse.Namespace) -> Figure:
    """The figure that the words ask for."""
    runs = runs_of(given)
    title = drawable(given.title) if given.title else '; '.join(title_of(name, run) for name, run in runs)
    picture = beside(given, runs) if given.beside else picture_of(given, runs[0][1])
    if given.slide:
        names = '; '.join(name for name, _ in runs)
        return draw_slide(picture, given.panels[0], drawable(given.title) if given.title else names)
    return draw(picture, given.panels, title)
