"""What a picture shows: one line for each artist with data, under its panel's title.

The lines are those of the data, not of the pixels: another matplotlib or another font gives the same ones.
"""
from __future__ import annotations

import hashlib

import numpy as np
from matplotlib.artist import Artist
from matplotlib.collections import LineCollection, PolyCollection
from matplotlib.figure import Figure
from matplotlib.lines import Line2D
from matplotlib.patches import Polygon, StepPatch
from matplotlib.text import Annotation


def drawn(figure: Figure) -> list[str]:
    """The lines, panel by panel in the order of drawing."""
    lines = [f'key | key: {"; ".join(text.get_text() for text in legend.get_texts())}' for legend in figure.legends]
    for axes in figure.get_axes():
        title = axes.get_title(loc='left') or axes.get_title()
        (left, right), (low, high) = axes.get_xlim(), axes.get_ylim()
        lines.append(f'{title} | x {left:.6g} to {right:.6g} | y {low:.6g} to {high:.6g} {axes.get_ylabel()}')
        lines += [f'{title} | {entry}' for entry in map(artist_line, axes.get_children()) if entry]
        if axes.get_legend():
            lines.append(f'{title} | key: ' + '; '.join(text.get_text().replace('\n', ' ') for text in axes.get_legend().get_texts()))
    return lines


def artist_line(artist: Artist) -> str | None:
    """An artist's kind, its count of points, their ranges, and a digest of them; none without data."""
    if isinstance(artist, Line2D):
        sort = 'marks ' + str(artist.get_marker()) if artist.get_linestyle() == 'None' else 'curve'
        points = np.column_stack([np.asarray(data, dtype=float) for data in artist.get_data()])
        return f'{sort} {artist.get_color()} {points_text(points)}'
    if isinstance(artist, StepPatch):
        values, edges, baseline = artist.get_data()
        low = np.zeros(len(values)) if baseline is None else np.broadcast_to(baseline, len(values))
        return f'steps {points_text(np.column_stack([edges[:-1], values, low]))}'
    if isinstance(artist, PolyCollection):
        return f'area {points_text(np.concatenate([path.vertices for path in artist.get_paths()]))}' \
            if artist.get_paths() else None
    if isinstance(artist, LineCollection):
        return f'lines {points_text(np.concatenate(artist.get_segments()))}' if artist.get_segments() else None
    if isinstance(artist, Polygon):
        return f'band {points_text(artist.get_xy())}'
    if isinstance(artist, Annotation):
        return f'text {artist.get_text()!r} at {points_text(np.array([artist.xy], dtype=float))}'
    return None


def points_text(points: np.ndarray) -> str:
    """How many points, their ranges, and a digest of all of them in nine digits."""
    if not len(points):
        return '0 points'
    ranges = ', '.join(f'{np.nanmin(column):.6g} to {np.nanmax(column):.6g}' if np.isfinite(column).any() else 'none'
                       for column in points.T)
    digits = ';'.join(','.join(f'{value:.9g}' for value in point) for point in points + 0.0)
    return f'{len(points)} points, {ranges}, {hashlib.sha256(digits.encode()).hexdigest()[:12]}'
