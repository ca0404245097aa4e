"""Tests of the default picture: of each example, and of each template of tcpsim-net with 1 to 24 flows, as .png and .svg, 600 and
1,400 pixels wide. No panel is narrower than a quarter of the picture, no text covers another or leaves the picture, and
matplotlib warns of nothing. The boxes are those that matplotlib's renderer draws. Some examples and nets are drawn, at random;
`pytest --every-picture` draws all.
"""
import contextlib
import io
import itertools
import os
import random
import re
import warnings

import pytest

from clone import NAMES, PROGRAM, TOP, paths, read_text, tool

pytest.importorskip('matplotlib', reason='no matplotlib: apt-get install python3-matplotlib')
from matplotlib.backends.backend_agg import RendererAgg  # noqa: E402
from matplotlib.backends.backend_svg import RendererSVG  # noqa: E402
from matplotlib.figure import Figure  # noqa: E402
from matplotlib.text import Text  # noqa: E402
from tcpsim import plot  # noqa: E402
from tcpsim.plot import choice  # noqa: E402

LEAST = .25             # of the picture's width a panel has
TOUCH = .5              # points by which two texts' boxes may overlap, which have room around their letters
FORMATS = ('png', 600), ('png', 1400), ('svg', 720)       # an SVG has a size and no pixels
QUEUES = 'droptail:50', 'droptail:BDP', 'codel:5ms:100ms', 'droptail:10'
RATES = ('10M', '2s'), ('100M', '300ms'), ('2M', '6s')     # and how long the runs are
# Of each shape the words that give it a number of flows, and how many it can have: at most 16 links leave a router.
SHAPES = {'dumbbell': (lambda count: ['--flows', count], range(1, 25)), 'tree': (lambda count: ['--flows', count], range(1, 25)),
          'chain': (lambda count: ['--flows', count], range(1, 16)),
          'asymmetric': (lambda count: ['--flows', count - count // 2, '--uploads', count // 2], range(1, 16)),
          'parking-lot': (lambda count: ['--hops', count - 1], range(2, 25)),
          'islands': (lambda count: ['--islands', 3, '--flows', count // 3], range(3, 25, 3))}
TRIPS = {'dumbbell', 'tree', 'islands', 'asymmetric'}       # those whose round trips are given
NETS = [(shape, count) for shape, (_, counts) in SHAPES.items() for count in counts]
# Without --every-picture some of them, and those that were wrong once: two ticks above a break, a target above all delays.
DRAWN = [*random.Random(14).sample(NETS, 6), ('chain', 5), ('chain', 10)], random.Random(16).sample(NAMES, 8)


def pytest_generate_tests(metafunc):
    nets, names = (NETS, NAMES) if metafunc.config.option.every_picture else DRAWN
    if 'net' in metafunc.fixturenames:
        metafunc.parametrize('net', nets, ids=[f'{shape}-{count}' for shape, count in nets])
    if 'name' in metafunc.fixturenames:
        metafunc.parametrize('name', names)


@contextlib.contextmanager
def texts_drawn():
    """The texts of the last drawing of a figure, each with the box that the renderer draws it in, in dots."""
    found, draw, begin = {}, Text.draw, Figure.draw

    def draw_text(text, renderer, *more, **named):
        if text.get_visible() and text.get_text().strip():
            found[text] = text.get_window_extent(renderer)
        return draw(text, renderer, *more, **named)

    def begin_figure(figure, renderer, *more, **named):
        found.clear()
        return begin(figure, renderer, *more, **named)
    Text.draw, Figure.draw = draw_text, begin_figure
    try:
        yield found
    finally:
        Text.draw, Figure.draw = draw, begin


def faults(figure, ending, width):
    """What is wrong with a figure, as this format draws it `width` pixels wide."""
    said, inches = [], figure.get_size_inches()
    figure.dpi = dots = width / inches[0]
    renderer = RendererSVG(*inches * dots, io.StringIO()) if ending == 'svg' else RendererAgg(*inches * dots, dots)
    with texts_drawn() as texts, warnings.catch_warnings(record=True) as warned, renderer._draw_disabled():
        warnings.simplefilter('always')
        figure.draw(renderer)
    said += [f'warning: {warning.message}' for warning in warned]
    for axes in figure.get_axes():
        part = axes.get_position().width * (axes.figure.bbox.width / figure.bbox.width)
        if axes.axison and part < LEAST:
            said.append(f'{axes.get_title(loc="left")!r} is {part:.0%} wide')
    for text, box in texts.items():
        if box.x0 < -1 or box.y0 < -1 or box.x1 > inches[0] * dots + 1 or box.y1 > inches[1] * dots + 1:
            said.append(f'{text.get_text()!r} leaves the picture: {box}')
    for (one, its), (other, second) in itertools.combinations(texts.items(), 2):
        across, up = (min(its.x1, second.x1) - max(its.x0, second.x0), min(its.y1, second.y1) - max(its.y0, second.y0))
        if min(across, up) > TOUCH * dots / 72:
            said.append(f'{one.get_text()!r} and {other.get_text()!r} overlap by {across:.1f}, {up:.1f}')
    return said


def check(*words):
    """No fault in any format."""
    with warnings.catch_warnings(record=True) as warned:
        warnings.simplefilter('always')
        figure = plot.figure_of(plot.words_of([*words, '-o', 'x.png']))
    assert [str(warning.message) for warning in warned] == []
    assert {(*form, fault) for form in FORMATS for fault in faults(figure, *form)} == set()


def words_of(shape, count):
    """A template's words for `count` flows, with round trips, rates and queues of each sort."""
    rate, end = RATES[count % len(RATES)]
    words = [*SHAPES[shape][0](count), '--queue', QUEUES[count % len(QUEUES)], '--end', end]
    words += ['--rtt', '40ms,80ms'] if shape in TRIPS and count % 2 and count > 2 else []
    words += ['--down' if shape == 'asymmetric' else '--rate', rate]
    return [shape, *map(str, words), *(['--mice', '20'] if shape == 'dumbbell' and count % 5 == 0 else [])]


def test_of_a_template(net, put):
    made = tool('net', *words_of(*net))
    assert (made.returncode, made.stderr) == (0, b''), net
    check(put('net.txt', made.stdout), '--program', PROGRAM)


def test_of_an_example(name):
    check(*paths(name))


def picture_of(*words):
    """What is drawn by these words."""
    given = plot.words_of([*words, '-o', 'x.png'])
    return plot.picture_of(given, choice.runs_of(given)[0][1])


def test_names_that_are_long(put):
    """The names of nodes, links and flows have as many letters as they can, and wide ones."""
    text = re.sub(r'\b(pq|qp|p|q|s[ab]|r[ab]|s[ab]p|ps[ab]|qr[ab]|r[ab]q|f[ab])\b', lambda name: f'{name[0]:w<15}',
                  read_text('examples/two_round_trips_do_not_share_fairly.txt'))
    check(put('long.txt', text), '--program', PROGRAM)


@pytest.mark.parametrize('scenario', ['six_flows_over_three_routers', 'six_flows_over_four_routers'])
def test_flows_that_are_done_and_have_long_names(scenario):
    """What the key says of a flow is wider than the progress panel."""
    check(os.path.join(TOP, 'docs', 'scenarios', f'{scenario}.txt'), '--program', PROGRAM)


def test_runs_beside_each_other_whose_flows_are_done(put):
    """The key names run and flow, both with long names."""
    files = []
    for count in (3, 7):
        made = tool('net', 'dumbbell', '--flows', str(count), '--rate', '1M', '--rtt', '40ms,80ms', '--queue', 'droptail:20',
                    '--segments', '20', '--end', '20s')
        assert (made.returncode, made.stderr) == (0, b'')
        files.append(put(f'{count}_transfers_of_twenty_segments.txt', re.sub(rb'\bf(\d)\b', rb'transfer\1', made.stdout)))
    check(files[0], '--beside', files[1], '--program', PROGRAM)


def test_links_at_which_several_flows_wait_are_drawn(put):
    """Where all links have 100 Mbit/s, one sender's has the longest wait, and pq is seen too."""
    made = tool('net', 'dumbbell', '--flows', '2', '--rate', '100M', '--access', '100M', '--end', '1s')
    links = [view.name for view in picture_of(put('net.txt', made.stdout), '--program', PROGRAM).links]
    assert links == ['pq', 's0p']


def test_the_flows_that_carry_most_are_drawn():
    file = os.path.join(TOP, 'docs', 'scenarios', 'six_flows_over_four_routers.txt')
    picture = picture_of(file, '--program', PROGRAM)
    carried = [[view.run.last_una for view in views] for views in (picture.flows, picture.others)]
    assert [len(each) for each in carried] == [4, 2] and min(carried[0]) >= max(carried[1])
    figure = plot.figure_of(plot.words_of([file, '--program', PROGRAM, '-o', 'x.png']))
    assert '4 of 6 flows: those that carry most' in [text.get_text() for text in figure.texts]
    progress = figure.get_axes()[-1]
    assert progress.get_legend().get_texts()[-1].get_text() == '2 others'
    named = picture_of(file, '--program', PROGRAM, '--flows', 'ann,ben,cleo,dan,eve')
    assert (len(named.flows), named.others, named.left_out) == (5, [], [])


def test_links_for_which_there_is_no_room_are_named(put):
    """Of five bottlenecks four are drawn, and the picture says how the fifth is; of many more only how many there are."""
    def said(hops, *words):
        made = tool('net', 'parking-lot', '--hops', hops, '--end', '5s')
        return picture_of(put('net.txt', made.stdout), '--program', PROGRAM, *words)
    picture = said('5')
    other, = {'p0p1', 'p1p2', 'p2p3', 'p3p4', 'p4p5'} - {view.name for view in picture.links}
    assert picture.left_out[-1] == f'4 of 5 links: those where packets waited longest; --links {other} draws the other'
    assert said('5', '--panels', 'window').left_out == picture.left_out[:-1]
    assert said('12').left_out[-1] == '4 of 12 links: those where packets waited longest'


def test_the_key_is_small_and_has_each_entry_once():
    figure = plot.figure_of(plot.words_of([*paths('two_flows_share_fairly'), '-o', 'x.png']))
    key, = figure.legends
    labels = [text.get_text() for text in key.get_texts()]
    assert len(set(labels)) == len(labels) and {'cwnd in recovery', 'sent again', 'timeout'} < set(labels)
    assert key.get_window_extent().height < figure.bbox.height / 8


@pytest.mark.parametrize('rwnd, said', [('500k', 'ssthresh (first above: 500 kB)'), ('1G', 'ssthresh (first above)')])
def test_ssthresh_that_is_far_above_has_no_number(put, rwnd, said):
    made = tool('net', 'dumbbell', '--flows', '1', '--rate', '1M', '--rwnd', rwnd, '--end', '4s')
    figure = plot.figure_of(plot.words_of([put('net.txt', made.stdout), '--program', PROGRAM, '-o', 'x.png']))
    assert said in [text.get_text() for text in figure.legends[0].get_texts()]
