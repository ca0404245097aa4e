"""One panel for the back row: 24 points, thick lines, and labels on the lines in the place of a key."""
from __future__ import annotations

from collections.abc import Iterable
from itertools import product

import numpy as np
from matplotlib.artist import Artist
from matplotlib.axes import Axes
from matplotlib.colors import to_rgba
from matplotlib.figure import Figure
from matplotlib.lines import Line2D
from matplotlib.patches import Polygon, StepPatch
from matplotlib.text import Annotation
from matplotlib.transforms import BboxBase

from tcpsim.scenario.text import Unreadable

from .flow_panels import progress_panel, sequence_key, sequence_panel, window_key, window_panel, windows_panel
from .labels import drawn_points, turn_timers
from .link_panels import delay_cdf_panel, delay_panel, queue_panel, utilization_panel
from .picture import Picture
from .style import link_words, new_figure, text_width
from .timers import timer_key, timer_panel, timers_panel

SIZE, POINTS, THICKER = (16, 9), 24, 2.4        # inches, points, times
OF_LINKS = {'queue': queue_panel, 'delay': delay_panel, 'delay-cdf': delay_cdf_panel, 'utilization': utilization_panel}
TITLE_WIDTH = 1040                              # points, of the panel's 1,080 at least
WIDE = 10_000                                   # points: a key that is not drawn needs no second row
ALONG, AWAY = np.linspace(.04, .96, 24), (14, -14, 34, -34, 64, -64, 100, -100)     # where a label is tried
DARKER, STEP = .6, 4                            # of a colour; pixels from point to point
LEAST = 20                                      # pixels that an area is high in which its name is written


def draw_slide(picture: Picture, panel: str, title: str) -> Figure:
    """The figure with this one panel; `Unreadable` where the picture has nothing for it."""
    figure = new_figure(figsize=SIZE, layout='constrained')
    axes = figure.subplots()
    picture.wide = TITLE_WIDTH / THICKER
    key = draw_panel(picture, axes, panel)
    if panel != 'delay-cdf':
        picture.clock.set(axes, TITLE_WIDTH, POINTS)
        picture.clock.mark_cuts(axes)
        axes.set_xlabel(f'time, {picture.clock.unit}{picture.part}')
    axes.grid(True, color='#DDDDDD', lw=1)
    axes.set_axisbelow(True)
    enlarge(axes)
    figure.suptitle('\n'.join(filter(None, (title, *picture.left_out))), fontsize=POINTS + 2, fontweight='bold')
    figure.draw_without_rendering()
    turn_timers(axes, picture.timers.get(axes, ()), [right for _, _, right, _ in picture.clock.cut_boxes(axes)])
    label_key(axes, key)
    return figure


def draw_panel(picture: Picture, axes: Axes, panel: str) -> list[Artist]:
    """Draws the panel; answers its key, which is not drawn."""
    views = picture.flows
    if panel in OF_LINKS:
        if not picture.links:
            raise Unreadable('there is no link to draw')
        OF_LINKS[panel](picture, axes, picture.links, WIDE, len(picture.links) > 1)
        if len(picture.links) == 1 and not picture.beside:
            view, = picture.links
            rate, _, queue, *_ = link_words(view.run.link)
            axes.set_title(f'{axes.get_title(loc="left")}: {view.name}, {rate}, {queue.partition(",")[0]}', loc='left')
    elif panel == 'window' and len(views) == 1:
        window_panel(picture, axes, views[0], [f'{views[0].name}: congestion window'], WIDE)
        return window_key(picture)
    elif panel == 'window':
        windows_panel(picture, axes, views, WIDE)
    elif panel == 'sequence' and len(views) == 1:
        sequence_panel(picture, axes, views[0], [f'{views[0].name}: sequence numbers'], WIDE)
        return sequence_key(picture)
    elif panel == 'timer' and len(views) == 1:
        timer_panel(picture, axes, views[0], [f'{views[0].name}: retransmission timer'], WIDE)
        return timer_key(picture)
    elif panel == 'timer':
        timers_panel(picture, axes, views, WIDE)
    else:
        progress_panel(picture, axes, views, WIDE)
    legend = axes.get_legend()
    if legend is None:
        return []
    handles = getattr(legend, 'legend_handles', None) or legend.legendHandles
    for handle, text in zip(handles, legend.get_texts()):
        handle.set_label(text.get_text())
    return list(handles)


def enlarge(axes: Axes) -> None:
    """Letters of 24 points, thick lines, large marks; no key."""
    if axes.get_legend():
        axes.get_legend().remove()
    axes.tick_params(labelsize=POINTS, width=2, length=8)
    axes.xaxis.label.set_size(POINTS)
    axes.yaxis.label.set_size(POINTS)
    left, right = axes.get_title(loc='left'), axes.get_title(loc='right')
    axes.set_title('', loc='right')
    axes.set_title(left, loc='left', fontsize=POINTS, pad=12)
    if right:
        whole = f'{left} ({right})'
        whole = whole if text_width(whole, POINTS) <= TITLE_WIDTH else f'{left}\n({right})'
        axes.set_title(whole, loc='left', fontsize=POINTS, pad=12)
    for text in axes.texts:
        text.set_fontsize(POINTS - 4)
    for line in axes.lines:
        line.set_linewidth(line.get_linewidth() * THICKER)
        line.set_markersize(line.get_markersize() * THICKER)
        line.set_markeredgewidth(line.get_markeredgewidth() * THICKER)
    for patch in axes.patches:
        if isinstance(patch, StepPatch):
            patch.set_linewidth(patch.get_linewidth() * THICKER)


# ---- labels on lines

def label_key(axes: Axes, key: list[Artist]) -> None:
    """Writes each entry of the key once beside what it names, where it covers least. What is in the key and not in the
    panel has no label."""
    taken = [text.get_window_extent().extents for text in axes.texts]
    points = covered(axes)
    for handle in key:
        places = places_of(axes, handle)
        if not len(places):
            continue
        # An area's colour is too pale for letters.
        color = handle.get_color() if isinstance(handle, Line2D) else '#333333'
        text = axes.annotate(handle.get_label(), (0, 0), xycoords='axes fraction', fontsize=POINTS, color=darker(color),
                             ha='center', va='center', zorder=6,
                             bbox={'boxstyle': 'square,pad=.08', 'fc': '#FFFFFF', 'ec': 'none', 'alpha': .75})
        text.set_in_layout(False)       # the panel stays where it is
        size = text.get_window_extent()
        taken.append(put(axes, text, best(places, size, axes.bbox, taken, points)))


def covered(axes: Axes) -> np.ndarray:
    """Points of all that a label can cover, in pixels: of curves, of steps, and of each mark several."""
    found = [drawn_points(axes)]
    found += [dense(points_of(axes, patch)) for patch in axes.patches if isinstance(patch, StepPatch)]
    for line in axes.lines:
        if line.get_linestyle() == 'None':
            marks, half = points_of(axes, line), line.get_markersize() / 2
            found += [marks + (half * right, half * up) for right, up in product((-1, 0, 1), repeat=2)]
    return np.concatenate([points for points in found if len(points)] or [np.empty((0, 2))])


def best(places: Iterable[Iterable[float]], size: BboxBase, inside: BboxBase, taken: Iterable[Iterable[float]],
         points: np.ndarray) -> tuple[float, float]:
    """The place, in pixels, at which a text of this size covers least: of other texts, of what is drawn, of the rim."""
    def covers(place: tuple[tuple[float, float], float]) -> float:
        (x, y), away = place
        left, right = x - size.width / 2, x + size.width / 2
        low, high = y + away - size.height / 2, y + away + size.height / 2
        over = sum(left < its[2] and its[0] < right and low < its[3] and its[1] < high for its in taken)
        out = left < inside.x0 or right > inside.x1 or low < inside.y0 or high > inside.y1
        hit = (points[:, 0] > left) & (points[:, 0] < right) & (points[:, 1] > low) & (points[:, 1] < high)
        return 1_000 * (over + out) + int(hit.sum()) + abs(away) / 4
    within = [(min(max(x, inside.x0 + size.width / 2), inside.x1 - size.width / 2), y) for x, y in places]
    (x, y), away = min(product(within, AWAY), key=covers)
    return x, y + away


def put(axes: Axes, text: Annotation, place: tuple[float, float]) -> np.ndarray:
    """Moves a text to a place, in pixels; answers its box: left, below, right, top."""
    text.xy = tuple(axes.transAxes.inverted().transform(place))
    text.set_position(text.xy)
    return text.get_window_extent().extents


def places_of(axes: Axes, handle: Artist) -> np.ndarray | list:
    """Points of what a key's entry names, in pixels, within the panel: at some parts of a curve, in a band's middle."""
    found = [points_of(axes, artist) for artist in (*axes.lines, *axes.patches, *axes.collections)
             if names(handle, artist)]
    found = [points for points in found if len(points)]
    if not found:
        return []
    points = np.concatenate(found)
    points = points[np.isfinite(points).all(axis=1)]
    box = axes.bbox
    points = points[(points >= (box.x0, box.y0)).all(axis=1) & (points <= (box.x1, box.y1)).all(axis=1)]
    return points[np.unique(np.rint(ALONG * (len(points) - 1)).astype(int))] if len(points) else points


def names(handle: Artist, artist: Artist) -> bool:
    """Whether a key's entry has this artist's look."""
    if isinstance(handle, Line2D):
        if isinstance(artist, StepPatch):
            return not artist.get_fill() and same(artist.get_edgecolor(), handle.get_color())
        alone = handle.get_linestyle() == 'None'
        if not isinstance(artist, Line2D) or (artist.get_linestyle() == 'None') != alone:
            return False
        return same(artist.get_color(), handle.get_color()) and (not alone or artist.get_marker() == handle.get_marker())
    if isinstance(artist, Line2D) or (isinstance(artist, StepPatch) and not artist.get_fill()):
        return False
    colors = np.atleast_2d(artist.get_facecolor())
    return len(colors) > 0 and same(colors[0], handle.get_facecolor())


def same(color: object, other: object) -> bool:
    """Whether two colours are one, with their alphas; each as matplotlib takes it."""
    return np.allclose(to_rgba(color), to_rgba(other), atol=.01)


def points_of(axes: Axes, artist: Artist) -> np.ndarray:
    """Points along an artist, in pixels: on a curve close to each other, in an area halfway up, of a band its middle."""
    if isinstance(artist, Line2D):
        path = artist.get_transform().transform(artist.get_path().vertices)
        return path if artist.get_linestyle() == 'None' else dense(path)
    if isinstance(artist, StepPatch):
        values, edges, baseline = artist.get_data()
        middles = (edges[:-1] + edges[1:]) / 2
        if not artist.get_fill():
            return axes.transData.transform(np.column_stack([middles, values]))
        low, high = (axes.transData.transform(np.column_stack([middles, heights])) for heights in
                     (np.broadcast_to(0 if baseline is None else baseline, len(values)), values))
        return ((low + high) / 2)[high[:, 1] - low[:, 1] > LEAST]
    if isinstance(artist, Polygon):
        corners = artist.get_window_extent()
        return np.array([[(corners.x0 + corners.x1) / 2, axes.bbox.y0 + part * axes.bbox.height] for part in ALONG])
    paths = artist.get_paths()
    if not paths:
        return np.empty((0, 2))
    path = axes.transData.transform(paths[0].vertices)
    floor = axes.transData.transform((0, 0))[1]
    tops = path[path[:, 1] > floor + 1]
    return np.column_stack([tops[:, 0], floor + (tops[:, 1] - floor) / 2])


def dense(path: np.ndarray) -> np.ndarray:
    """Points on the way from each vertex to the next, at equal distances, in pixels."""
    whole = np.isfinite(path).all(axis=1)
    parts = [path[at] for at in np.split(np.arange(len(path)), np.flatnonzero(np.diff(whole.astype(int))) + 1)
             if len(at) > 1 and whole[at[0]]]
    if not parts:
        return path[whole]
    return np.concatenate([along(part) for part in parts])


def along(path: np.ndarray) -> np.ndarray:
    """Points on one unbroken way, a few pixels apart."""
    ends = np.concatenate(([0], np.cumsum(np.hypot(*np.diff(path, axis=0).T))))
    wanted = np.linspace(0, ends[-1], max(2, int(ends[-1] / STEP)))
    return np.column_stack([np.interp(wanted, ends, column) for column in path.T])


def darker(color: object) -> tuple[float, float, float]:
    """A colour in which letters can be read on white: red, green and blue from 0 to 1."""
    red, green, blue, _ = to_rgba(color)
    pale = .2126 * red + .7152 * green + .0722 * blue > .35
    return tuple(part * DARKER for part in (red, green, blue)) if pale else (red, green, blue)
