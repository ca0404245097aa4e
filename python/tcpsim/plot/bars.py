"""Draws where the time of flows went: a bar for each, with the parts of its critical path in the order of time. Wants matplotlib."""
from __future__ import annotations

from collections.abc import Sequence

from matplotlib.figure import Figure
from matplotlib.patches import Patch

from tcpsim.breakdown import Breakdown
from tcpsim.critical_path import DELAY, PROPAGATION, QUEUE, SERIALIZATION, TIMER, Part
from tcpsim.plot.clock import length_text
from tcpsim.plot.style import HALO, HEAD, KEY, LINE, NOTE, PURPLE, SERIES, TICKS, TIMEOUT, columns_that_fit, delay_unit, new_figure, series, text_width

WIDTH = 10                      # inches
MARGIN = .25                    # inches, around
ROW, LEAST_ROW, MOST = .52, .22, 8  # inches: of a bar, of one of many, and of all bars where they are many
FINEST, COARSEST = 900, 200     # parts of the axis that are told apart, and where the bars are many
HATCHES = '', '///'             # one for each four flows, as lines have dashes
MOST_FLOWS = len(SERIES) * len(HATCHES)     # that have looks of their own
LOOKS = {SERIALIZATION: ('#3A3A3A', 'serialization'), PROPAGATION: ('#C8C8C8', 'propagation'), TIMER: (TIMEOUT, 'retransmission timer'),
         DELAY: (PURPLE, 'delayed acknowledgement')}
Look = tuple[str, str, str]     # a colour, a hatch, and what the key says
OWN, OTHERS = (SERIES[0], '', 'queue, behind its own packets'), (SERIES[1], '', 'queue, behind packets of others')


def look_of(part: Part, numbers: dict[str, int], own: str) -> Look:
    """How a part of a flow's own path looks: waits have the colour of the flow behind whose packets they are. `numbers` has the
    flows' numbers; where they are many, waits are told apart as its own and those behind others."""
    if part.kind != QUEUE:
        color, words = LOOKS[part.kind]
        return color, '', words
    if len(numbers) > MOST_FLOWS:
        return OWN if part.behind == own else OTHERS
    number = numbers[part.behind]
    return series(number)['color'], HATCHES[number // len(SERIES)], f'queue, behind packets of {part.behind}'


def all_looks(numbers: dict[str, int]) -> list[Look]:
    """Every look, in the key's order."""
    queues = [OWN, OTHERS] if len(numbers) > MOST_FLOWS else [look_of(Part(QUEUE, '', name), numbers, '')
                                                             for name in sorted(numbers, key=numbers.get)]
    return queues + [look_of(Part(kind, ''), numbers, '') for kind in LOOKS]


def pieces(each: Breakdown, numbers: dict[str, int], finest: int) -> list[tuple[Look, int, int]]:
    """The pieces of a flow's bar, ns from its start: look, begin, length. Spans that follow each other are put together by their looks
    until they last `finest` ns, so that each can be seen."""
    found, sums, begin = [], {}, 0
    for part, since, until in each.path.spans():
        look = look_of(part, numbers, each.name)
        sums[look] = sums.get(look, 0) + until - since
        if until - each.path.begin - begin >= finest:
            begin = put(found, sums, begin)
            sums = {}
    put(found, sums, begin)
    return found


def put(found: list[tuple[Look, int, int]], sums: dict[Look, int], begin: int) -> int:
    """Adds pieces one behind the other, to the last one where that looks alike; answers where they end."""
    for look, ns in sums.items():
        if found and found[-1][0] == look:
            found[-1] = look, found[-1][1], found[-1][2] + ns
        elif ns:
            found.append((look, begin, ns))
        begin += ns
    return begin


def draw(runs: Sequence[tuple[str, Sequence[Breakdown]]]) -> Figure:
    """The figure: of each run its name and its flows."""
    bars = [(f'{name}: {each.name}' if len(runs) > 1 else each.name, each) for name, flows in runs for each in flows]
    numbers = {}
    for _, each in bars:
        numbers.update(each.flows)
    longest = max([each.path.time for _, each in bars if each.path.events], default=0) or 1
    finest = longest // max(COARSEST, FINEST // (1 + len(bars) // 10))
    shown = [(label, each, pieces(each, numbers, finest) if each.path.events else []) for label, each in bars]
    looks = [look for look in all_looks(numbers) if any(look == its for _, _, parts in shown for its, *_ in parts)]
    scale, unit = delay_unit(2 * longest)       # as in the words behind the bars
    left = max(text_width(label, TICKS) for label, _ in bars) / 72 + .2
    right = max(text_width(end_words(each), NOTE) for _, each in bars) / 72 + .15
    width = (WIDTH - MARGIN - left - right) * 72
    handles = [Patch(facecolor=color, hatch=hatch, edgecolor='#FFFFFF', lw=0, label=words) for color, hatch, words in looks]
    columns = columns_that_fit([handle.get_label() for handle in handles], width + (right - MARGIN) * 72) if handles else 1
    above = MARGIN + (HEAD + 8 + LINE * -(-len(handles) // columns)) / 72
    rows = len(bars) * max(LEAST_ROW, min(ROW, MOST / len(bars)))
    height = above + rows + .55
    figure = new_figure(figsize=(WIDTH, height))
    axes = figure.add_axes((left / WIDTH, .55 / height, width / 72 / WIDTH, rows / height))
    for place, (_, each, parts) in enumerate(shown):
        by_look = {}
        for look, begin, ns in parts:
            by_look.setdefault(look, []).append((begin / scale, ns / scale))
        for (color, hatch, _), spans in by_look.items():
            axes.broken_barh(spans, (place - .34, .68), facecolors=color, hatch=hatch, edgecolor='#FFFFFF', lw=0)
        axes.annotate(end_words(each), ((each.path.time if each.path.events else 0) / scale, place), xytext=(4, 0), textcoords='offset points',
                      va='center', fontsize=NOTE, path_effects=HALO, annotation_clip=False)
    axes.set_xlim(0, longest / scale)
    axes.set_ylim(len(bars) - .5, -.5)
    axes.set_yticks(range(len(bars)), [label for label, _ in bars], fontsize=TICKS)
    axes.tick_params(axis='x', labelsize=TICKS)
    axes.tick_params(axis='y', length=0)
    axes.set_xlabel(f'{unit} since the flow\'s start', fontsize=TICKS)
    axes.spines[['top', 'right']].set_visible(False)
    if handles:
        axes.legend(handles=handles, loc='lower left', bbox_to_anchor=(0, 1), ncol=columns, **KEY)
    axes.set_title('Where the time went', loc='left', fontsize=HEAD, pad=6 + LINE * -(-len(handles) // columns))
    return figure


def end_words(each: Breakdown) -> str:
    """What is written behind a bar."""
    if not each.path.acknowledged:
        return 'nothing acknowledged'
    return length_text(each.path.time) + ('' if each.path.is_whole else ', not complete')
