"""Labels beside points, each at the place where it covers least."""
from __future__ import annotations

from collections.abc import Iterable, Sequence

import numpy as np
from matplotlib.axes import Axes
from matplotlib.lines import Line2D
from matplotlib.text import Annotation
from matplotlib.transforms import Bbox

Box = tuple[float, float, float, float]      # left, below, right, top, in pixels
STEP = 3                # pixels from one point of a curve to the next that a label can cover
FAR = 10_000            # pixels beyond which nothing is looked at
MARK = 4                # half the width of a mark, in pixels
LEADER = 11             # pixels from a mark to its label beyond which a line joins them
# Where a label can stand, in points from its mark: the first of the best is taken.
PLACES = ((5, -11), (5, 5), (-5, -11), (-5, 5), (0, 9), (0, -16), (9, 14), (9, -22), (-9, 16), (-9, -24), (0, 19),
          (0, -26), (16, 22), (-16, 24), (16, -32), (-16, -34))


def place_labels(axes: Axes, labels: Sequence[Annotation], boxes: Iterable[Box] = (),
                 first: tuple[int, int] = PLACES[0]) -> None:
    """Moves `labels`, annotations of points, off each other, off the marks of all of them, off `boxes` (left, below,
    right, top, in pixels) and off curves and dots as far as can be. `first` is the place that is preferred, in points
    from the mark. The figure has been laid out."""
    renderer, places = axes.figure.canvas.get_renderer(), sorted(PLACES, key=lambda place: place != first)
    marks = [(x, y) for x, y in (axes.transData.transform(label.xy) for label in labels)]
    taken = [(x - MARK, y - MARK, x + MARK, y + MARK) for x, y in marks] + list(boxes)
    points = drawn_points(axes)

    def put(label: Annotation, place: tuple[int, int]) -> Box:
        label.set_position(place)
        label.set_horizontalalignment('left' if place[0] > 0 else 'right' if place[0] < 0 else 'center')
        box = label.get_window_extent(renderer)
        return box.x0, box.y0, box.x1, box.y1

    def covers(box: Box, mark: tuple[float, float]) -> float:
        left, below, right, top = box
        strange = any(away(box, other) <= away(box, mark) for other in marks if other != mark)
        over = sum(left < its[2] and its[0] < right and below < its[3] and its[1] < top for its in taken)
        outside = left < axes.bbox.x0 or right > axes.bbox.x1 or below < axes.bbox.y0 or top > axes.bbox.y1
        inside = (points[:, 0] > left) & (points[:, 0] < right) & (points[:, 1] > below) & (points[:, 1] < top)
        return 1_000 * over + 3_000 * outside + 500 * strange + int(inside.sum())

    for label, mark in zip(labels, marks):
        taken.append(put(label, min(places, key=lambda place: covers(put(label, place), mark))))
        lead(axes, taken[-1], mark)


def turn_timers(axes: Axes, labels: Sequence[Annotation], walls: Sequence[float]) -> None:
    """Labels to the left of their lines stand upright, all of a panel's, where one would cover a curve or reach over the line
    before its own, over one of the walls (where they are across, in pixels) or the panel's rim. The figure has been laid out."""
    renderer, points, upright = axes.figure.canvas.get_renderer(), drawn_points(axes), False
    lines = [axes.transData.transform((label.xy[0], 0))[0] for label in labels]
    for label, line in zip(labels, lines):
        left, below, right, top = label.get_window_extent(renderer).extents
        last = max(wall for wall in (axes.bbox.x0, *walls, *lines) if wall < line or wall == axes.bbox.x0)
        inside = (points[:, 0] > left) & (points[:, 0] < right) & (points[:, 1] > below) & (points[:, 1] < top)
        upright = upright or left < last or inside.any()
    for label in labels if upright else ():
        label.set_rotation(90)


def leave_out(axes: Axes, last: Sequence[Annotation]) -> None:
    """Hides texts in a panel that cover one that was written before, or reach over the panel's upper or lower side. Those of
    `last` go first. All have their places."""
    renderer, panel = axes.figure.canvas.get_renderer(), axes.bbox
    shown: list[Bbox] = []
    for text in sorted(axes.texts, key=last.__contains__):
        box = text.get_window_extent(renderer)
        out = box.x0 < panel.x1 and (box.y0 < panel.y0 < box.y1 or box.y0 < panel.y1 < box.y1)
        if out or any(box.overlaps(other) for other in shown):
            text.set_visible(False)
        else:
            shown.append(box)


def lead(axes: Axes, box: Box, mark: tuple[float, float]) -> None:
    """A thin line from a mark to its label, where they are far from each other. It is the figure's and not the panel's, since
    its place is none of the data's."""
    left, below, right, top = box
    near = min(max(mark[0], left), right), min(max(mark[1], below), top)
    if away(box, mark) > LEADER**2:
        (x, y), (to_x, to_y) = axes.transAxes.inverted().transform((mark, near))
        axes.figure.add_artist(Line2D((x, to_x), (y, to_y), transform=axes.transAxes, color='#444444', lw=.9, zorder=5))


def away(box: Box, mark: tuple[float, float]) -> float:
    """How far a point is from a box, squared, in pixels."""
    return sum(max(low - at, at - high, 0)**2 for low, high, at in zip(box[:2], box[2:], mark))


def drawn_points(axes: Axes) -> np.ndarray:
    """Points of all curves, close to each other, and all dots, in pixels."""
    found = [np.empty((0, 2))]
    for line in axes.lines:
        points = line.get_transform().transform(line.get_path().vertices)
        found.append(points if line.get_linestyle() == 'None' else along(points))
    for lines in axes.collections:
        if hasattr(lines, 'get_segments'):
            found += [along(lines.get_transform().transform(points)) for points in lines.get_segments()]
    points = np.concatenate(found)
    return points[np.isfinite(points).all(axis=1)]


def along(points: np.ndarray) -> np.ndarray:
    """Points on the way from each to the next, in pixels."""
    points = np.clip(points, -FAR, FAR)
    if len(points) < 2:
        return points
    lengths = np.nan_to_num(np.hypot(*np.diff(points, axis=0).T))
    ends = np.concatenate(([0], np.cumsum(np.maximum(1, np.ceil(lengths / STEP)))))
    return np.column_stack([np.interp(np.arange(ends[-1] + 1), ends, column) for column in points.T])
