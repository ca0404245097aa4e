"""Colours, signs, names of units, and the key above a panel."""
from __future__ import annotations

import math
from collections.abc import Iterable, Sequence

from matplotlib.artist import Artist
from matplotlib.axes import Axes
from matplotlib.backends.backend_agg import FigureCanvasAgg
from matplotlib.colors import to_rgb
from matplotlib.figure import Figure
from matplotlib.font_manager import FontProperties
from matplotlib.lines import Line2D
from matplotlib.patches import Patch
from matplotlib.patheffects import withStroke
from matplotlib.textpath import text_to_path

from tcpsim.looks import DROPS, FLOWS, LINKS, MARKS, ORANGE, PURPLE, SKY, TIMEOUT  # noqa: F401  (bars.py and the tests take some from here)
from tcpsim.scenario.text import Link

SERIES = BLUE, RUST, GREEN, AMBER = FLOWS[:4]
IN_FLIGHT = '#F3E6C4'
SSTHRESH, RECEIVER = '#000000', '#6A51A3'       # none of a flow's or link's
DARK_RED = '#A8003F'    # of a timeout, in which letters can be read
# What is shaded in panels of flows. Where two of them are at once there is a look of its own.
SHADES = {'stall': {'color': '#000000', 'alpha': .13, 'zorder': .8}, 'recovery': {'color': SKY, 'alpha': .3, 'zorder': .9},
          'both': {'color': '#3E7CB1', 'alpha': .5, 'zorder': .9}}
ON_WHITE = {'boxstyle': 'square,pad=.1', 'fc': '#FFFFFF', 'ec': 'none', 'alpha': .8}
DASHES = ('-', (0, (5, 1.5)), (0, (1, 1)), (0, (5, 1, 1, 1)))  # one for each four series
# One sign for one meaning, in every panel.
SIGNS = dict(DROPS)
# Those of acknowledgements have three arms, or are hollow.
OF_ACK = {'x': ('2', 'full'), '+': ('1', 'full'), 'v': ('v', 'none')}
HALO = [withStroke(linewidth=3.2, foreground='#FFFFFF')]    # behind a sign, so that it is seen on dots and lines
# A ring that is wider than the sign of a loss, which may lie in it.
AGAIN = {'marker': 'o', 'ms': 10, 'mew': 1.4, 'mfc': 'none', 'color': ORANGE, 'label': MARKS['again']}
# Of signs of acknowledgements.
OF_ACKS = '#555555'
# Sizes of letters in points of a picture ten inches wide: 8.7 pixels and more where it is shown 600 wide.
HEAD, TITLE_SIZE, KEY_SIZE, TICKS, NOTE = 12.5, 11, 10.5, 10.5, 10.5
TITLE = {'fontsize': TITLE_SIZE, 'loc': 'left'}
KEY = {'fontsize': KEY_SIZE, 'frameon': False, 'handlelength': 1.5, 'borderpad': 0, 'labelspacing': .25,
       'columnspacing': .9, 'borderaxespad': .3, 'handletextpad': .5}
# The key's sizes, in points: of a handle with what is before and behind it, of the space between columns, of a row.
HANDLE, BETWEEN, LINE = 31, 9.5, 12.9
APART = 14                                # between two texts that stand side by side, in points
STEPS = [1, 2, 2.5, 5, 10]                # between two ticks, in a power of ten
WHOLE_STEPS = [1, 2, 5, 10]
TIMEOUT_WIDTH = 1.5


def new_figure(**given: object) -> Figure:
    """An empty figure that pyplot does not know, so that the backend of whoever calls stays as it is."""
    figure = Figure(**given)
    FigureCanvasAgg(figure)         # measures texts
    return figure


def series(number: int, colors: Sequence[str] = SERIES) -> dict:
    """The look of a flow's curve, by its number: from the fifth on the colours come again with dashes."""
    return {'color': colors[number % len(colors)], 'ls': DASHES[number // len(colors) % len(DASHES)]}


def muted(color: str) -> tuple[float, ...]:
    """A colour with half of grey in it."""
    return tuple((part + .45) / 2 for part in to_rgb(color))


def pale(color: str) -> tuple[float, ...]:
    """A colour with much of white in it."""
    return tuple(1 - .5 * (1 - part) for part in to_rgb(color))


def sign_look(reason: str, is_ack: bool = False) -> dict:
    """The marker of a reason for which packets are dropped, of segments or of acknowledgements."""
    marker = SIGNS[reason][0]
    if not is_ack:
        return {'marker': marker}
    marker, fill = OF_ACK.get(marker, (marker, 'none'))
    return {'marker': marker, 'fillstyle': fill}


def sign_of(reason: str, is_ack: bool = False, color: str | None = None, at: str = '', count: int | None = None) -> Line2D:
    """The key's mark of a reason for which segments are dropped, or acknowledgements: of all, or of those at a link, in a colour
    of theirs; with how many there were."""
    _, its_own, text = SIGNS[reason]
    text = (f'{"ack" if count in (None, 1) else "acks"} ' if is_ack else '') + text + (f' at {at}' if at else '')
    text = text if count is None else f'{count:,} {text}'
    return Line2D([], [], color=color or its_own, ls='none', mew=1.3, label=text, **sign_look(reason, is_ack))


def band_mark(kind: str, label: str) -> Patch:
    """The key's mark of spans of a kind, one of SHADES."""
    return Patch(color=SHADES[kind]['color'], alpha=SHADES[kind]['alpha'], lw=0, label=label)


def timeout_mark(more: str = '') -> Line2D:
    """The key's mark of a timeout, with what else is said: no dashes, which ssthresh has."""
    return Line2D([], [], color=TIMEOUT, lw=TIMEOUT_WIDTH, label=MARKS['timeout'] + more)


def text_width(text: str, size: float = NOTE, weight: str = 'normal') -> float:
    """How wide a text is, in points."""
    return text_to_path.get_text_width_height_descent(text, FontProperties(size=size, weight=weight), False)[0]


def wrapped(text: str, width: float, size: float = NOTE, weight: str = 'normal') -> list[str]:
    """A text in lines at most so wide, broken at spaces; of a word that is wider its middle is left out."""
    lines = []
    for word in text.split(' '):
        half = len(word) // 2
        while half and text_width(word, size, weight) > width:
            half -= 1
            word = f'{word.replace("…", "")[:half]}…{word[-half:]}'
        if lines and text_width(f'{lines[-1]} {word}', size, weight) <= width:
            lines[-1] += f' {word}'
        else:
            lines.append(word)
    return lines


def filled(parts: Iterable[str], width: float, between: str = ', ') -> list[str]:
    """Parts of a text in lines at most so wide, as far as each part allows it; the lines are about equally long."""
    parts = list(parts)
    whole = text_width(between.join(parts))
    lines = max(1, math.ceil(whole / width))
    found = packed(parts, min(width, 1.15 * whole / lines), between)
    return found if len(found) <= lines else packed(parts, width, between)


def packed(parts: Iterable[str], width: float, between: str) -> list[str]:
    """Parts in lines: as many in each as fit."""
    lines = []
    for part in parts:
        if lines and text_width(lines[-1] + between + part) <= width:
            lines[-1] += between + part
        else:
            lines += wrapped(part, width)
    return lines


def key_above(axes: Axes, title: str, handles: Sequence[Artist], width: float, notes: Iterable[str] = ()) -> None:
    """The title with its notes, in grey beside it or below it, and below them, above the panel, the key: it covers nothing, and
    an entry that is wider than the panel has several lines. A note that is a list of its parts has lines of its own. The
    width is in points."""
    rows, notes = 0, [note for note in notes if note]
    if handles:
        labels = [handle.get_label() for handle in handles]
        columns, lines = columns_that_fit(labels, width), [filled(label.split(', '), label_room(width)) for label in labels]
        rows = math.ceil(sum(map(len, lines)) / columns)
        axes.legend(handles=handles, labels=list(map('\n'.join, lines)), loc='lower left', bbox_to_anchor=(0, 1), ncol=columns,
                    **KEY)
    pad = 4 + LINE * rows + 3 * bool(rows)
    grey = {'fontsize': NOTE, 'color': '#444444'}
    words, room = [note for note in notes if isinstance(note, str)], width - text_width(title, TITLE_SIZE) - APART
    titles = wrapped(title, width, TITLE_SIZE)
    beside = next((words[:count] for count in (len(words), 1) if words and text_width(', '.join(words[:count])) <= room), [])
    blocks = [words[len(beside):], *(note for note in notes if not isinstance(note, str))]
    lines = [line for parts in blocks if parts for line in filled(parts, width)]
    axes.set_title(', '.join(beside), loc='right', **grey)      # as high as the title
    axes.set_title('\n'.join(titles), pad=pad + LINE * len(lines), **TITLE)
    if lines:
        axes.annotate('\n'.join(lines), (0, 1), xycoords='axes fraction', xytext=(0, pad), textcoords='offset points',
                      linespacing=1.12, **grey)


def label_room(width: float) -> float:
    """How wide a label of a key of one column can be, which is so wide; in points."""
    return width - HANDLE + BETWEEN


def columns_that_fit(labels: Sequence[str], width: float) -> int:
    """In how many columns a key of these labels is at most so wide: the first ones have one entry more. One at least."""
    widths = [HANDLE + text_width(label, KEY_SIZE) for label in labels]
    for columns in range(len(labels), 1, -1):
        rows, longer = divmod(len(labels), columns)
        ends = [(rows + 1) * n for n in range(1, longer + 1)]
        ends += [(rows + 1) * longer + rows * n for n in range(1, columns - longer + 1)]
        if sum(max(widths[begin:end]) for begin, end in zip([0, *ends], ends)) - BETWEEN <= width:
            return columns
    return 1


# ---- units

def byte_unit(greatest: float) -> tuple[int, str]:
    """How many bytes a unit has, and its name, by the greatest value."""
    return (10**6, 'MB') if greatest >= 2 * 10**6 else (10**3, 'kB') if greatest >= 1000 else (1, 'bytes')


def bytes_text(count: int, digits: int = 4) -> str:
    """Bytes in words, as 1.5 MB."""
    scale, unit = (10**9, 'GB') if count >= 10**9 else byte_unit(count)
    return f'{count / scale:,.{digits}g} {unit}'


def delay_unit(greatest: float) -> tuple[int, str]:
    """How many nanoseconds a unit has, and its name, by the greatest value in ns."""
    return (10**9, 's') if greatest >= 2 * 10**9 else (10**6, 'ms') if greatest >= 10**6 or greatest == 0 else (10**3, 'µs')


def rate_text(rate: int) -> str:
    """A rate in bit/s, in words."""
    for scale, unit in ((10**9, 'Gbit/s'), (10**6, 'Mbit/s'), (10**3, 'kbit/s')):
        if rate >= scale:
            return f'{rate / scale:g} {unit}'
    return f'{rate} bit/s'


def ms_text(ns: int) -> str:
    """Nanoseconds as milliseconds, in words."""
    return f'{ns / 10**6:g} ms'


def link_words(link: Link) -> list[str]:
    """What a link is: its rate, its delay, its queue."""
    kind = {'droptail': 'drop-tail', 'codel': 'CoDel'}.get(link.queue, link.queue)
    more = [f'target {ms_text(link.target)}', f'interval {ms_text(link.interval)}'] if link.queue == 'codel' else []
    return [rate_text(link.rate), ms_text(link.delay), f'{kind}, {link.capacity:,} packets', *more]


# Signs of words by which queues drop that are classes of Python's.
OWN_SIGNS = [('D', GREEN), ('^', SKY), ('s', BLUE), ('*', '#7F7F7F')]


def add_signs(words: Iterable[str]) -> None:
    """Gives a sign to each word by which a queue drops that is a class of Python's."""
    for word in sorted(set(words) - set(SIGNS)):
        marker, color = OWN_SIGNS[(len(SIGNS) - 3) % len(OWN_SIGNS)]
        SIGNS[word] = marker, color, f'dropped: {word}'
