"""Tests of what tcpsim-plot draws for the back row: whole windows, broken axes, runs that end, colours, slides."""
import itertools
from types import SimpleNamespace

import pytest
from clone import paths, refusal, told

pytest.importorskip('matplotlib')
import matplotlib.image
import numpy as np
import pictures
from matplotlib.figure import Figure
from tcpsim import plot
from tcpsim.plot import broken, choice, slide, style
from test_plot import key_of
from test_trace import BY_HAND, TRACE

MS, S = 10**6, 10**9
# What protanopes and deuteranopes see of linear red, green and blue: Machado, Oliveira and Fernandes 2009, severity 1.
PROTAN = ((.152286, 1.052583, -.204868), (.114503, .786281, .099216), (-.003882, -.048116, 1.051998))
DEUTAN = ((.367322, .860646, -.227968), (.280085, .672501, .047413), (-.011820, .042940, .968881))


@pytest.fixture(name='hand')
def hand_made(tmp_path):
    """A scenario and its trace that were worked out by hand."""
    paths = [tmp_path / 'hand.txt', tmp_path / 'hand.trace']
    for path, text in zip(paths, (BY_HAND, TRACE)):
        path.write_text(text, encoding='ascii')
    return [str(path) for path in paths]


def figure(*words):
    """What these words draw."""
    return plot.figure_of(plot.words_of([*words, '-o', 'x.png']))


def panel(drawn, title):
    """The panel with this title."""
    return next(axes for axes in drawn.get_axes() if axes.get_title(loc='left') == title)


# ---- colours

def lab(linear):
    """CIELAB of linear red, green and blue, under daylight."""
    r, g, b = linear
    xyz = (.4124 * r + .3576 * g + .1805 * b) / .9505, .2126 * r + .7152 * g + .0722 * b, \
        (.0193 * r + .1192 * g + .9505 * b) / 1.089
    x, y, z = (part ** (1 / 3) if part > .008856 else 7.787 * part + 16 / 116 for part in xyz)
    return np.array([116 * y - 16, 500 * (x - y), 200 * (y - z)])


def linear_of(color):
    """Linear red, green and blue of `#rrggbb`."""
    parts = [int(color[at:at + 2], 16) / 255 for at in (1, 3, 5)]
    return np.array([part / 12.92 if part <= .04045 else ((part + .055) / 1.055) ** 2.4 for part in parts])


@pytest.mark.parametrize('one, other', [*itertools.combinations(style.SERIES, 2), *itertools.combinations(style.LINKS, 2)])
def test_colours_are_told_apart(one, other):
    """By who does not see red and green, and in grey print, where lightness alone is left. (A difference of 2.3 is just
    seen; of red and green of the same lightness a protanope's is near 0.)"""
    assert abs(lab(linear_of(one))[0] - lab(linear_of(other))[0]) >= 15
    for sight in (np.eye(3), PROTAN, DEUTAN):
        seen = [lab(np.clip(np.array(sight) @ linear_of(color), 0, 1)) for color in (one, other)]
        assert np.linalg.norm(seen[0] - seen[1]) >= 35


def test_a_links_colour_is_no_flows():
    for one, other in itertools.product((*style.LINKS, style.SSTHRESH, style.RECEIVER, style.TIMEOUT), style.SERIES):
        assert np.linalg.norm(lab(linear_of(one)) - lab(linear_of(other))) >= 25, (one, other)


def test_dashes_from_the_fifth_flow_on():
    looks = [style.series(number) for number in range(16)]
    assert [look['ls'] for look in looks[:4]] == ['-'] * 4
    assert all(look['ls'] != '-' for look in looks[4:])
    assert len({(look['color'], str(look['ls'])) for look in looks}) == 16


# ---- axes

def view_of(times, cwnd, recoveries=(), timeouts=(), rwnd=10**6, flight=None):
    """A flow whose window changed at these ms."""
    run = SimpleNamespace(times=[time * MS for time in times], cwnd=list(cwnd), flight=list(flight or cwnd),
                          recoveries=[[a * MS, b * MS] for a, b in recoveries], timeouts=[time * MS for time in timeouts],
                          flow=SimpleNamespace(rwnd=rwnd, mss=1000))
    return SimpleNamespace(run=run, until=100 * MS)


def shown(begin=0, end=100):
    """A picture of these ms."""
    window = begin * MS, end * MS
    return SimpleNamespace(window=window, until=lambda view: (window[0], min(window[1], view.until)))


def test_a_recoverys_window_is_drawn_whole():
    view = view_of((0, 20, 30, 50), (8000, 16_000, 30_000, 8000), recoveries=[(20, 50)])
    assert broken.heights_of(shown(), view) == (30_000, 8000, 8000)    # the first: slow start's
    view = view_of((0, 10, 20, 50, 60, 70), (9000, 12_000, 6000, 12_000, 15_000, 6000), recoveries=[(10, 20), (60, 70)])
    assert broken.heights_of(shown(), view) == (15_000, 15_000, 12_000)


@pytest.mark.parametrize('name', ['fast_recovery', 'a_lost_retransmission'])
def test_the_lessons_window_is_in_its_panel(name):
    run = choice.read_run(*paths(name))
    axes = panel(figure(*paths(name)), 'flow f: congestion window')
    assert axes.get_ylim()[1] * 1000 >= max(run.flows[0].cwnd)
    assert axes.get_yscale() == 'linear'


def test_slow_starts_overshoot_breaks_the_axis():
    high = view_of((0, 10, 20, 60), (4000, 100_000, 10_000, 20_000), timeouts=[20])
    heights = broken.heights_of(shown(), high)
    assert heights == (100_000, 20_000, 100_000)
    assert broken.axis_of([heights], [True]) == (20_000, 100_000, 100_000)
    # an axis of a height that was asked for is broken above that, or not at all
    assert broken.axis_of([heights], [True], 40_000) == (40_000, 100_000, 100_000)
    assert broken.axis_of([heights], [True], 120_000) == (120_000, 120_000, 100_000)
    # one that is not much higher, and one after which little is seen
    assert broken.heights_of(shown(), view_of((0, 20, 60), (30_000, 10_000, 20_000), timeouts=[20])).later == 30_000
    assert broken.heights_of(shown(), view_of((0, 80, 90), (90_000, 10_000, 20_000), timeouts=[80])).later == 90_000
    # without a loss there is no overshoot
    assert broken.heights_of(shown(), view_of((0, 20), (90_000, 10_000))).later == 90_000


def test_a_broken_axis_is_told_and_has_its_top():
    axes = Figure().subplots()
    axis = broken.Axis(20_000, 100_000, 64_090)
    broken.set_heights(axes, axis, 1000, 6)
    places = axes.transData.transform([(0, y) for y in (0, 10, 20, 60, 100)])[:, 1]
    assert (np.diff(places) > 0).all()
    assert places[4] < axes.bbox.y1
    assert (places[2] - places[0]) > 2 * (places[4] - places[2])       # what comes later has most of the panel
    # no tick near the break, above it the greatest window, and the greatest outside of recoveries where that is apart
    assert [text.get_text() for text in axes.get_yticklabels()] == ['0', '5', '10', '15', '20', '64.1', '100']
    strokes = [line for line in axes.lines if line.get_linestyle() == 'None']
    assert sorted(line.get_ydata()[0] for line in strokes) == pytest.approx([22.4, 22.4 + .07 * 22.4 / (.3 * 22.4 / (106 - 22.4))])
    assert all(list(line.get_xdata()) == [0, 1] and not line.get_clip_on() for line in strokes)
    whole = Figure().subplots()
    broken.set_heights(whole, broken.Axis(100, 100, 100), 1, 6)
    assert not whole.lines


def test_a_picture_with_a_broken_axis():
    drawn = figure(*paths('four_flows_share_a_long_queue'), '--panels', 'window')
    panels = {axes.get_title(loc='left'): axes for axes in drawn.get_axes()}
    assert [text.get_text() for text in panels['flow fa'].get_yticklabels()][-1] == '75'
    sizes = {axes.bbox.height for name, axes in panels.items() if name.startswith('flow')}
    assert max(sizes) - min(sizes) < 2          # as high as the others


def test_the_receivers_window_only_where_it_binds(hand):
    assert broken.binds(view_of((0, 10), (4000, 9000), rwnd=9500), shown())
    assert not broken.binds(view_of((0, 10), (4000, 8000), rwnd=9500), shown())
    assert not broken.binds(view_of((0, 10), (4000, 9000), rwnd=9500), shown(0, 5))
    key = key_of(figure(*hand))
    assert not [text for text in key if 'receiver' in text]
    key = key_of(figure(*paths('acks_share_the_bottleneck')))
    assert 'receiver\'s window, 16 kB' in key


@pytest.mark.parametrize('ns, unit', [(0, 'ms'), (900_000, '\u00b5s'), (1_900_000_000, 'ms'), (2_000_000_000, 's')])
def test_one_unit_for_an_axis_of_delays(ns, unit):
    assert style.delay_unit(ns)[1] == unit


def test_a_run_that_has_ended_ends():
    """One segment is over after 3.08 ms; beside it a run of a minute."""
    drawn = figure(*paths('one_segment'), '--beside', *paths('fast_recovery'), '--panels', 'window,queue,utilization')
    window = panel(drawn, 'one_segment, flow f, round trip ≥ 3.08 ms: congestion window')
    cwnd = next(line for line in window.lines if line.get_color() == style.BLUE)
    assert max(cwnd.get_xdata()) == pytest.approx(3.08)
    assert window.get_xlim()[1] > 60
    queue = panel(drawn, 'packets that wait in the queue')
    ends = sorted(max(line.get_xdata()) for line in queue.lines if line.get_linestyle() == '-')
    assert ends[0] == pytest.approx(3.08) and ends[1] > 60
    used = panel(drawn, next(axes.get_title(loc='left') for axes in drawn.get_axes()
                             if axes.get_title(loc='left').startswith('utilization')))
    assert sorted(max(patch.get_data().edges) for patch in used.patches)[0] <= 3.08


# ---- slides

@pytest.mark.parametrize('name, words', [('fast_recovery', ()), ('a_lost_retransmission', ('--panels', 'sequence')),
                                         ('four_flows_share_codel', ('--panels', 'window')),
                                         ('four_flows_share_codel', ('--panels', 'queue')),
                                         ('lock_out_at_equal_times', ('--panels', 'progress'))])
def test_a_slide(name, words):
    """One panel, large letters, thick lines, labels on the lines that lie in the panel and not over each other."""
    drawn = figure(*paths(name), '--slide', *words)
    axes, = drawn.get_axes()
    assert axes.get_legend() is None
    assert tuple(drawn.get_size_inches()) == slide.SIZE
    drawn.draw_without_rendering()
    labels = [text for text in axes.texts if text.get_text()]
    assert labels and all(text.get_fontsize() >= 20 for text in labels)
    assert all(label.get_fontsize() >= 24 for label in (*axes.get_xticklabels(), *axes.get_yticklabels()))
    assert all(line.get_linewidth() >= 2.4 for line in axes.lines if line.get_linestyle() not in ('None', ':'))
    boxes = [(text.get_text(), text.get_window_extent()) for text in labels]
    for (one, box), (other, second) in itertools.combinations(boxes, 2):
        assert not (min(box.x1, second.x1) - max(box.x0, second.x0) > 2 and
                    min(box.y1, second.y1) - max(box.y0, second.y0) > 2), (one, other)
    for text, box in boxes:
        assert box.x0 >= axes.bbox.x0 - 2 and box.x1 <= axes.bbox.x1 + 2, text
        assert box.y0 >= axes.bbox.y0 - 2 and box.y1 <= axes.bbox.y1 + 2, text      # a title is none of them


def test_a_slides_label_lies_at_its_line():
    axes, = figure(*paths('four_flows_share_a_long_queue'), '--slide').get_axes()
    names = [text.get_text() for text in axes.texts]
    assert names == ['fa', 'fb', 'fc', 'fd']
    for number, text in enumerate(axes.texts):
        line = next(line for line in axes.lines if line.get_color() == style.series(number)['color'])
        points = slide.points_of(axes, line)
        box = text.get_window_extent()
        assert np.min(np.hypot(points[:, 0] - (box.x0 + box.x1) / 2, points[:, 1] - (box.y0 + box.y1) / 2)) < 150


@pytest.mark.parametrize('words, size', [((), (980, 1400)), (('--slide',), (900, 1600))])
def test_pixels(hand, tmp_path, words, size):
    out = str(tmp_path / 'x.png')
    told('plot', *hand, '-o', out, *words)
    assert matplotlib.image.imread(out).shape[:2] == size


def test_a_slide_has_one_panel(hand, tmp_path):
    status, sentence = refusal('plot', *hand, '-o', tmp_path / 'x.png', '--slide', '--panels', 'window,queue')
    assert status == 2 and '--slide draws one panel, and --panels names 2' in sentence
    assert not (tmp_path / 'x.png').exists()


def test_letters_can_be_read_at_600_pixels():
    """A picture of the documents is ten inches wide: no letters of it have less than 7 pixels where it is 600."""
    drawn = pictures.figure_of('fast_recovery')
    assert drawn.get_size_inches()[0] == 10
    drawn.draw_without_rendering()
    sizes = [text.get_fontsize() for text in drawn.legends[0].get_texts()]
    sizes += [text.get_fontsize() for axes in drawn.get_axes() for text in
             (*axes.texts, axes.title, *axes.get_xticklabels(), *axes.get_yticklabels(),
              *(axes.get_legend().get_texts() if axes.get_legend() else ()))]
    assert min(sizes) * 600 / 720 >= 7
