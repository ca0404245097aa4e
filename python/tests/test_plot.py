"""Tests of bin/tcpsim-plot and of the pictures in docs/pictures. Wants matplotlib.

Each picture of docs/ that tcpsim-plot draws is drawn anew and compared by the data of each artist, which its
description has (`tcpsim/plot/drawn.py`). What a panel shows is compared with a run worked out by hand (the one of
test_trace.py: twelve milliseconds, two drops, one recovery) and with small runs of arrays written here.
"""
import html
import os
import re
import shlex
import signal
import subprocess
import sys
from types import SimpleNamespace

import pytest

import clone
from clone import BIN, TOP, Folder, read_text

pytest.importorskip('matplotlib', reason='no matplotlib: apt-get install python3-matplotlib')
import numpy as np  # noqa: E402
import pictures  # noqa: E402
from matplotlib.figure import Figure  # noqa: E402
from tcpsim import plot  # noqa: E402
from tcpsim.plot import choice, clock, points, style  # noqa: E402
from test_trace import BY_HAND, TRACE  # noqa: E402
from tcpsim.traces.curves import read_run  # noqa: E402

MS, S = 10**6, 10**9

# The sender sends one segment, which is lost; the timeout comes after a second, and what it sends again is
# acknowledged at 1003.08 ms: 1.04 ms of sending, 1 ms of way, 0.04 and 1 back.
STALL = BY_HAND.replace('sim 12000000', 'sim 2000000000').replace('1000 8 0', '1000 1 0') + 'lose a 1\n'
STALL_TRACE = '''1 0 0 0 0 start 0 una=0 nxt=1000 cwnd=4000 ssthresh=64000 phase=ss drop=lost:0:0
2 1000000000 0 0 1 rto 0 una=0 nxt=1000 cwnd=1000 ssthresh=2000 phase=ss tx=0:0:0
3 1001040000 0 0 3 free 0 una=0 nxt=1000 cwnd=1000 ssthresh=2000 phase=ss
4 1002040000 1 1 1 data 0 0 next=1000 tx=1:0:1000
5 1002080000 1 0 3 free 1 next=1000
6 1003080000 0 2 1 ack 0 1000 una=1000 nxt=1000 cwnd=2000 ssthresh=2000 phase=ca
end 6
'''


class Drawn(Folder):
    """Scenarios and traces in a folder of their own."""

    def setup_method(self):
        super().setup_method()
        self.hand = self.write('hand', BY_HAND, TRACE)
        self.stall = self.write('stall', STALL, STALL_TRACE)

    def write(self, name, text, trace):
        return [self.put(f'{name}.txt', text), self.put(f'{name}.trace', trace)]

    def figure(self, *words):
        figure = plot.figure_of(plot.words_of([*words, '-o', 'x.png']))
        return figure

    def panels(self, *words):
        return {axes.get_title(loc='left'): axes for axes in self.figure(*words).get_axes() if axes.axison}

    def refused(self, status, note, *words):
        file = os.path.join(self.folder, 'refused.png')
        found, sentence = clone.refusal('plot', *words, '-o', file)
        assert found == status and note in sentence, (found, sentence)
        assert not os.path.exists(file)


def curves(axes):
    """The curves of a panel by colour: their points."""
    return {line.get_color(): [tuple(point) for point in np.column_stack(line.get_data())]
            for line in axes.lines if line.get_linestyle() != 'None'}


def marks(axes):
    """The signs of a panel: their points."""
    found = {}
    for line in axes.lines:
        if line.get_linestyle() == 'None':
            found.setdefault(line.get_marker(), []).extend(tuple(point) for point in np.column_stack(line.get_data()))
    return found


def key_of(drawn):
    """The texts of the key of a figure or of a panel."""
    legend = drawn.legends[0] if isinstance(drawn, Figure) else drawn.get_legend()
    return [text.get_text() for text in legend.get_texts()]


class TestPicturesOfTheDocuments:
    def test_each_shows_what_is_drawn_anew(self):
        for name in pictures.PICTURES:
            with open(pictures.file_of(name), encoding='utf-8') as file:
                stored = re.search(r'<dc:description>(.*?)</dc:description>', file.read(), re.S)
            figure = pictures.figure_of(name)
            shown = plot.drawn(figure)
            panels = {line.partition(' | ')[0] for line in shown} - {'key'}
            assert len(panels) >= len(pictures.PICTURES[name][pictures.PICTURES[name].index('--panels') + 1].split(',')), name
            for panel in panels:        # each shows data
                assert any(line.startswith(f'{panel} | ') and ' points, ' in line for line in shown), (name, panel)
            assert html.unescape(stored[1]).splitlines() == shown

    def test_none_is_left_over(self):
        with open(os.path.join(TOP, 'docs', 'TUTORIAL.md'), encoding='utf-8') as file:
            named = set(re.findall(r'\(pictures/(\w+)\.svg\)', file.read()))
        assert named - {'sweep', 'dumbbell'} == {*pictures.PICTURES, *pictures.BARS}

    def test_below_each_is_its_command(self):
        page = read_text('docs', 'TUTORIAL.md')
        for name in pictures.PICTURES:
            below = page.partition(f'(pictures/{name}.svg)\n')[2]
            assert below.startswith((f'`{pictures.command_of(name)}`\n', f'\n```\n{pictures.command_of(name)}\n```\n')), name
        command = pictures.command_of('reno_and_newreno')
        assert command.startswith('bin/tcpsim-plot examples/three_losses_in_a_window.txt --beside examples/three')
        words = shlex.split(command)[1:]
        paths = [word if not word.startswith('examples/') else os.path.join(TOP, word) for word in words]
        given, whole = plot.words_of(paths), plot.words_of([*pictures.PICTURES['reno_and_newreno'], '-o', 'reno_and_newreno.svg'])
        assert vars(given) == {**vars(whole), 'trace': None, 'beside': [whole.beside[0][:1]]}

    def test_no_label_covers_another_or_a_span_that_is_left_out(self):
        for name in ('two_timeouts_in_a_row', 'a_lost_retransmission', 'sawtooth_of_congestion_avoidance'):
            figure = plot.figure_of(plot.words_of([*pictures.run_of(name), '--panels', 'window,sequence', '-o', 'x.png']))
            figure.draw_without_rendering()
            renderer = figure.canvas.get_renderer()
            axes = next(axes for axes in figure.get_axes() if axes.get_title(loc='left').endswith('sequence numbers'))
            boxes = [text.get_window_extent(renderer) for text in axes.texts]
            lost = [box for box, text in zip(boxes, axes.texts) if ' lost' in text.get_text()]
            assert len(lost) > 1
            assert not [pair for n, pair in enumerate(boxes) for other in boxes[:n] if pair.overlaps(other)], name
            hatched = [patch.get_window_extent() for patch in axes.patches if patch.get_hatch()]
            assert bool(hatched) == (not name.startswith('saw'))
            assert not [box for box in lost for span in hatched if box.overlaps(span)], name

    def test_another_point_is_another_description(self):
        figure = Figure()
        axes = figure.subplots()
        line, = axes.plot([0, 1, 2], [0, 5, 3])
        before = plot.drawn(figure)
        line.set_ydata([0, 4.9, 3])     # the ranges' ends and the axis stay as they are, but for the middle
        axes.set_ylim(*axes.get_ylim())
        assert plot.drawn(figure) != before


def test_fonts_are_found_before_the_first_test(tmp_path):
    done = subprocess.run([sys.executable, '-m', 'pytest', '-p', 'no:cacheprovider', '--collect-only', os.path.join(TOP, 'python/tests/test_net.py')],
                          capture_output=True, cwd=TOP, check=False, env={**os.environ, 'MPLCONFIGDIR': str(tmp_path)})
    assert done.returncode == 0, done.stdout
    assert [file.suffix for file in tmp_path.glob('fontlist-*')] == ['.json']


class TestWhatIsShown(Drawn):
    def test_axes_fit_what_is_shown(self):
        panels = self.panels(*self.hand, '--from', '8.5ms', '--to', '12ms')
        window, sequence = panels['flow f: congestion window'], panels['flow f: sequence numbers']
        # in sight: a recovery with cwnd 5500, then 2500; the axis goes by 5500 and 1.12 times that
        assert np.allclose(window.get_ylim(), (-.77, 6.16))
        # the window of time, and beside it a little for the marks at its ends
        left, right = window.get_xlim()
        assert 8390 < left < 8420 and 12080 < right < 12110
        assert {tick for tick in window.get_xticks()} <= set(range(8500, 12001, 500))
        # the segments from 3000, not yet acknowledged at the beginning, to 7000
        low, high = sequence.get_ylim()
        assert 2.5 < low < 3 and 7 < high < 7.5, (low, high)
        # from 6.3 to 8.2 ms nothing is sent: 3000 is acknowledged, and what was sent before, up to 7000, is not in sight
        low, high = self.panels(*self.hand, '--from', '6.3ms', '--to', '8.2ms')['flow f: sequence numbers'].get_ylim()
        assert 2.5 < low < 3 < high < 3.5, (low, high)
        # a's last packet began at 5.2 ms: its queue is empty in sight, and nothing is drawn above 0
        queue = panels['packets that wait in the queue']
        assert {y for points_ in curves(queue).values() for _, y in points_} == {0}

    def test_a_queue_in_sight_begins_with_what_waits(self):
        queue = self.panels(*self.hand, '--from', '1ms', '--to', '3ms', '--link', 'a')['packets that wait in the queue']
        assert curves(queue)[style.LINKS[0]] == [(1000, 2), (1040, 1), (2080, 0), (3000, 0)]

    def test_nothing_is_drawn_where_nothing_was(self):
        self.refused(1, 'the last event is at 11.4 ms', *self.hand, '--from', '100s')
        later = self.write('later', BY_HAND.replace('8 0 64000', '8 5000000 64000'),
                           '1 5000000 0 0 0 start 0 una=0 nxt=4000 cwnd=4000 ssthresh=64000 phase=ss tx=0:0:0 '
                           'drop=full:0:3000\n')
        self.refused(1, 'nothing happens before 2 ms', *later, '--partial', '--from', '0', '--to', '2ms')

    def test_a_window_in_which_no_packet_entered(self):
        clone.told('plot', *self.hand, '-o', os.path.join(self.folder, 'small.png'), '--from', '6ms', '--to', '6001us')

    def test_a_trace_without_a_line(self):
        self.refused(1, 'is empty', *self.write('none', BY_HAND, ''))

    def test_words_that_are_refused(self):
        for status, note, words in (
                (2, 'no time', ('--from', 'soon')), (2, 'no time', ('--from', '-1')), (2, 'no time', ('--to', 'nan')),
                (2, '1,000,000', ('--to', '9999999s')), (1, 'no flow is named x', ('--flow', 'x')),
                (2, 'named twice', ('--flow', 'f,f')), (2, 'no panel', ('--panels', 'delay,cwnd')),
                (2, 'write --beside again', ('--beside', 'a', 'b', 'c')), (2, '2, and there are 1', ('--names', 'a,b')),
                (2, 'no such', ('--beside', 'no such')),
                (1, 'no program', ('--beside', self.hand[0], '--program', '/nowhere/tcpsim'))):
            self.refused(status, note, *self.hand, *words)

    def test_without_matplotlib_one_sentence_says_what_to_install(self):
        folder = os.path.join(self.folder, 'none')
        os.makedirs(os.path.join(folder, 'matplotlib'))
        with open(os.path.join(folder, 'matplotlib', '__init__.py'), 'w', encoding='ascii') as file:
            file.write('raise ImportError\n')
        link = os.path.join(self.folder, 'tcpsim-plot')
        os.symlink(os.path.join(BIN, 'tcpsim-plot'), link)
        done = clone.ran(sys.executable, link, *self.hand, '-o', 'x.png', text=True, env={**os.environ, 'PYTHONPATH': folder})
        assert (done.returncode, done.stdout, done.stderr.count('\n')) == (1, '', 1), done.stderr
        assert done.stderr.startswith('tcpsim-plot: '), done.stderr
        assert 'apt-get install python3-matplotlib' in done.stderr

    @pytest.mark.parametrize('words', [('plot', '-o'), ('sweep', '--set', 'a.queue=droptail:1,2', '--plot')])
    def test_debians_python_draws_where_this_one_has_no_matplotlib(self, words):
        if subprocess.run(['/usr/bin/python3', '-c', 'import matplotlib'], stderr=subprocess.DEVNULL, check=False).returncode:
            pytest.skip('no matplotlib: apt-get install python3-matplotlib')
        other, file = (os.path.join(self.folder, name) for name in ('python3', 'x.png'))
        os.symlink('/usr/bin/python3', other)
        without = [other, '-S']         # no package of Debian's
        assert subprocess.run([*without, '-c', 'import matplotlib'], stderr=subprocess.DEVNULL, check=False).returncode == 1
        done = clone.ran(*without, os.path.join(BIN, f'tcpsim-{words[0]}'), self.hand[0], *words[1:], file)
        assert done.returncode == 0, done.stderr
        assert os.path.getsize(file) > 1000

    def test_an_interruption_is_quiet(self):
        program, began = (os.path.join(self.folder, name) for name in ('sleeps', 'began'))
        with open(program, 'w', encoding='ascii') as file:
            file.write(f'#!/bin/sh\ntouch {began}\nexec sleep 60\n')
        os.chmod(program, 0o700)
        process = subprocess.Popen([sys.executable, os.path.join(BIN, 'tcpsim-plot'), self.hand[0], '--program', program, '-o',
                                    os.path.join(self.folder, 'x.png')], stderr=subprocess.PIPE, start_new_session=True,
                                   preexec_fn=lambda: signal.signal(signal.SIGINT, signal.SIG_DFL))
        clone.until(lambda: os.path.exists(began), 'no program begins')
        os.killpg(process.pid, signal.SIGINT)
        assert (process.communicate(timeout=20)[1], process.returncode) == (b'', 130)

    def test_a_picture_and_bytes_in_the_place_of_a_text(self):
        path = os.path.join(self.folder, 'picture.png')
        with open(path, 'wb') as file:
            file.write(b'\x89PNG\r\n\x1a\n\x00\xff')
        self.refused(1, f'{path} is no scenario', path, self.hand[1])
        self.refused(1, f'{path} is no trace', self.hand[0], path)

    def test_links_are_those_of_the_flow(self):
        text = STALL.replace('flow f', 'node t sender\nnode u receiver\nlink c t u 8000000 1000000 droptail 2\n'
                             'link d u t 8000000 1000000 droptail 2\nflow g t u 1000 1 0 64000 0\nflow f')
        trace = STALL_TRACE.replace(' start 0', ' start 1').replace(':0:', ':1:').replace('rto 0', 'rto 1') \
            .replace('data 0', 'data 1').replace('ack 0', 'ack 1').rpartition('end ')[0]
        other = self.write('two', text, trace)
        figure = self.figure(*other, '--partial', '--flow', 'f', '--panels', 'utilization')
        assert 'link a:' in figure.subfigs[0]._suptitle.get_text()
        figure = self.figure(*other, '--partial', '--flow', 'g', '--panels', 'utilization')
        lines = figure.subfigs[0]._suptitle.get_text().split('\n')          # idle, both
        assert [line.partition(':')[0] for line in lines] == ['link c', 't→u', 'link d', 'u→t']
        assert lines[1::2] == ['t→u: data of g', 'u→t: acks of g']


class TestWindows(Drawn):
    def test_inflation_is_thin_and_muted(self):
        window = self.panels(*self.hand)['flow f: congestion window']
        drawn, muted = curves(window), style.muted(style.BLUE)
        cwnd = {x: y for x, y in drawn[style.BLUE]}
        assert cwnd[7.24 if 7.24 in cwnd else 6.2] == 7
        assert np.isnan(cwnd[8.28])
        assert cwnd[11.36] == 2.5
        assert dict(drawn[muted])[8.28] == 5.5
        assert next(line.get_linewidth() for line in window.lines if line.get_color() == muted) < 1.3
        assert np.allclose(window.get_ylim(), (-.14 * 7, 7 * 1.12))

    def test_the_receivers_window_is_a_line_where_it_keeps_the_sender_back(self):
        # At most 6000 bytes are in flight: a window of 6500 has no room for one segment more, one of 7000 has.
        def drawn(rwnd):
            run = self.write(f'rwnd{rwnd}', BY_HAND.replace('64000', str(rwnd)), TRACE.replace('64000', str(rwnd)))
            figure = self.figure(*run, '--panels', 'window')
            return curves(*figure.get_axes()).get(style.RECEIVER), key_of(figure)
        line, key = drawn(6500)
        assert line == [(0, 6.5), (12, 6.5)]
        assert 'receiver\'s window, 6.5 kB' in key
        for rwnd in (7000, 64000):
            line, key = drawn(rwnd)
            assert line is None
            assert not [text for text in key if 'receiver' in text]

    def test_windows_of_two_runs_share_their_axis(self):
        other = self.write('other', BY_HAND, TRACE.replace('cwnd=7000', 'cwnd=9000'))
        figure = self.figure(*self.hand, '--beside', *other, '--panels', 'window,sequence')
        panels = {axes.get_title(loc='left'): axes for axes in figure.get_axes() if axes.axison}
        assert list(panels) == ['hand, flow f: congestion window', 'other, flow f: congestion window',
                                        'hand, flow f: sequence numbers', 'other, flow f: sequence numbers']
        limits = [axes.get_ylim() for axes in panels.values()]
        assert limits[0] == limits[1]
        assert limits[0][1] == pytest.approx(9 * 1.12, rel=0, abs=5e-8)
        assert limits[2] == limits[3]

    def test_flows_that_are_far_apart_share_the_scale(self):
        """From 1 to 3.1 ms both flows acknowledge 1000 bytes, one from 0 on and one from 10,000 on; and in a third nothing
        moves from 5,000."""
        from tcpsim.plot.flow_panels import OWN, sequence_limits
        views = [choice.FlowView(SimpleNamespace(
            flow=SimpleNamespace(start=0), una_times=[1, 9], una=una, next_times=[1], next=una[:1], sent_times=[1],
            sent=una[:1], again_times=[], again=[], drops=[]), 'f', number, 9)
            for number, una in enumerate(([1, 1000], [10_000, 11_000], [5_000, 5_000]))]
        shown = SimpleNamespace(flows=views, window=(2, 9), sees=lambda time: True,
                                seen=lambda *both: choice.Picture.seen(SimpleNamespace(window=(2, 9)), *both))
        assert sequence_limits(shown) == [(1, 1001, 'the same scale'), (10_000, 11_000, 'the same scale'),
                                                  (5_000, 5_000, OWN)]
        shown.flows = views[:1] * 2
        assert sequence_limits(shown) == [(1, 1000, None)] * 2

    def test_no_run_is_dropped(self):
        words = [*self.hand, '--beside', *self.hand, '--beside', *self.stall, '--panels', 'delay,window', '--whole']
        figure = self.figure(*words)
        titles = [axes.get_title(loc='left') for axes in figure.get_axes() if axes.axison]
        assert titles[:3] == ['hand, flow f', 'hand 2, flow f', 'stall, flow f']
        delay = figure.get_axes()[-1]
        assert [text.get_text() for text in delay.get_legend().get_texts()] == ['hand', 'hand 2', 'stall']

    def test_names_of_runs(self):
        figure = self.figure(*self.hand, '--beside', *self.stall, '--names', 'one,two', '--panels', 'delay,window')
        titles = [axes.get_title(loc='left') for axes in figure.get_axes() if axes.axison]
        assert titles[:2] == ['one, flow f: congestion window', 'two, flow f: congestion window']
        assert 'one: 1 flow, 29 events; two: ' in figure._suptitle.get_text()
        texts = [text.get_text() for text in figure.get_axes()[-1].get_legend().get_texts()]
        assert texts == ['one', 'two']

    def test_the_key_names_what_is_in_sight(self):
        def key(*run):
            return key_of(self.figure(*run))
        assert 'ssthresh (first above: 64 kB)' in key(*self.hand)
        # from 9 ms on it is 2500 and nothing above
        assert 'ssthresh' in key(*self.hand, '--from', '9ms')
        high = self.write('high', BY_HAND.replace('64000', str(2**30)), TRACE.replace('ssthresh=2500', 'ssthresh=64000'))
        assert not [name for name in key(*high) if name.startswith('ssthresh')]
        # the recovery from 8.28 to 11.36 ms has a band, and with it an entry, in 12 ms and in a second
        assert 'recovery' in key(*self.hand)
        assert 'recovery' in key(*self.hand, '--beside', *self.stall, '--whole')
        assert 'recovery' not in key(*self.hand, '--to', '8ms')

    def test_a_small_flow_has_an_axis_of_its_own(self):
        from tcpsim.plot.flow_panels import sharing
        assert sharing([700, 69, 70]) == [700, 69, 700]


class TestStalls(Drawn):
    def test_they_are_the_spans_without_a_new_acknowledgement(self):
        flow = SimpleNamespace(flow=SimpleNamespace(start=100), una_times=[200, 700, 750], completed=None)
        assert points.stalls(flow, 100, 2000) == [(200, 700), (750, 2000)]
        assert points.stalls(flow, 99, 2000) == [(100, 200), (200, 700), (750, 2000)]
        flow.completed = 750
        assert points.stalls(flow, 100, 2000) == [(200, 700)]

    def test_they_are_those_that_stalls_py_lists(self):
        for name in ('two_timeouts_in_a_row', 'lock_out_at_equal_times', 'bufferbloat', 'four_flows_share_codel'):
            paths = pictures.run_of(name)
            listed = clone.told('stalls', *paths, '--longer', '200ms', '--csv')
            rows = sorted((row['flow'], int(row['from']), int(row['to'])) for row in clone.csv_rows(listed))
            run = read_run(*paths)
            spans = sorted((flow.flow.name, *span) for flow in run.flows
                           for span in points.stalls(flow, S // 5, choice.known_until(run)))
            assert rows
            assert rows == spans, name

    def test_they_are_a_grey_band(self):
        panels = self.panels(*self.stall, '--whole')
        for title in ('flow f: congestion window', 'flow f: sequence numbers'):
            bands = [patch.get_xy()[:, 0] for patch in panels[title].patches
                     if patch.get_facecolor()[:3] == (0, 0, 0)]
            assert [(min(band), max(band)) for band in bands] == [(0, 1.00308)]
        panels = self.panels(*self.stall, '--whole', '--longer', '1.1s')
        assert not [patch for patch in panels['flow f: sequence numbers'].patches
                          if patch.get_facecolor()[:3] == (0, 0, 0)]

    def test_the_idle_second_is_left_out(self):
        sequence = self.panels(*self.stall)['flow f: sequence numbers']
        left, right = sequence.get_xlim()
        assert right - left < 5                # milliseconds, of 1003
        assert '1,00' in ''.join(text.get_text() for text in sequence.get_xticklabels())
        texts = [text.get_text() for text in sequence.texts]
        assert '0 lost' in texts
        assert 'no event\nfor 1 s' in texts
        assert len(marks(sequence)['+']) == 1
        assert len(marks(sequence)['o']) == 1


def test_units():
    for width, unit in ((3_080_000, 'µs'), (10 * MS, 'ms'), (S - 1, 'ms'), (S, 's')):
        assert clock.unit_of(width)[1] == unit


def test_idle_spans():
    moments = [0, 10 * MS, 1000 * MS, 1010 * MS]
    # a tenth of the 20 ms that stay is left before it and behind it
    assert clock.idle_spans(moments, 0, 1010 * MS, S // 5) == [(12 * MS, 998 * MS, 990 * MS)]
    assert clock.idle_spans(moments, 0, 1010 * MS, S) == []
    assert clock.idle_spans([0, 300 * MS, 600 * MS, 900 * MS, 1100 * MS], 0, 2 * S, 2 * S) == []


def test_places_rise_and_come_back():
    axis = clock.Clock((0, 1010 * MS), [clock.Cut(12 * MS, 998 * MS, 990 * MS)])
    moments = np.array([0, 5 * MS, 12 * MS, 500 * MS, 998 * MS, 1010 * MS])
    places = axis.x(moments)
    assert (np.diff(places) > 0).all()
    assert float(places[-1]) == pytest.approx(24 + .09 * 24, rel=0, abs=5e-8)
    edges = axis.edges(100)
    assert np.allclose(np.diff(axis.x(edges)), axis.x(1010 * MS) / 100)


class TestLinks(Drawn):
    def test_delays_stand_at_the_moment_of_entry(self):
        delay = self.panels(*self.hand, '--link', 'a')['delay in the queue of each packet sent']
        found = sorted(marks(delay)['.'])
        # 0, 1000 and 2000 entered at 0, 4000 and 5000 at 3.08 ms, 6000 at 4.12, and 3000 at 8.28
        wanted = [(0, 0), (0, 1.04), (0, 2.08), (3.08, .04), (3.08, 1.08), (4.12, 1.08), (8.28, 0)]
        assert np.allclose(found, wanted), found

    def test_the_distribution(self):
        cdf = self.panels(*self.hand, '--link', 'a', '--panels', 'delay-cdf')['distribution of the delay in the queue']
        steps = curves(cdf)[style.LINKS[0]]
        wanted = [(0, 0), (0, 200 / 7), (.04, 300 / 7), (1.04, 400 / 7), (1.08, 600 / 7), (2.08, 100)]
        assert np.allclose(steps, wanted), steps
        assert cdf.get_legend().get_texts()[0].get_text() == 'a: median 1.04, 99th percentile 2.08 ms'

    def test_an_envelope_by_hand(self):
        # 3 from 0 on, 5 from 10, 1 from 14, 4 from 20; in columns of ten
        least, greatest, mean = points.envelope([0, 10, 14, 20], [3, 5, 1, 4], [0, 10, 20, 30])
        assert [list(least), list(greatest)] == [[3, 1, 4], [3, 5, 4]]
        assert np.allclose(mean, [3, (4 * 5 + 6 * 1) / 10, 4])
        # from within a value on
        least, greatest, mean = points.envelope([0, 10], [2, 8], [5, 15])
        assert (least[0], greatest[0], mean[0]) == (2, 8, 5)

    def test_a_queue_that_changes_often_is_an_envelope(self):
        assert points.is_dense(range(0, 1000), (0, 1000))
        assert not points.is_dense(range(0, 1000), (0, 300))

    def test_one_sign_for_one_meaning(self):
        panels = self.panels(*self.hand)
        for title in ('flow f: congestion window', 'flow f: sequence numbers', 'packets that wait in the queue'):
            assert len(marks(panels[title])['x']) == 2, title
        looks = [tuple(sorted(style.sign_look(reason, is_ack).items())) for reason in ('full', 'codel', 'lost') for is_ack in (False, True)]
        assert len(set(looks)) == 6
        assert style.AGAIN['marker'] not in [dict(look)['marker'] for look in looks]

    def test_keys_cover_nothing(self):
        for words in (self.hand, self.stall, [*self.hand, '--beside', *self.stall]):
            figure = self.figure(*words)
            figure.draw_without_rendering()
            all_axes = figure.get_axes()
            for legend in [*figure.legends, *filter(None, (axes.get_legend() for axes in all_axes))]:
                box = legend.get_window_extent()
                for axes in all_axes:
                    if axes.axison:
                        inner = axes.get_window_extent()
                        across = min(box.x1, inner.x1) - max(box.x0, inner.x0)
                        up = min(box.y1, inner.y1) - max(box.y0, inner.y0)
                        assert not (across > 1 and up > 1), axes.get_title(loc='left')

    def test_a_log_axis_keeps_zero(self):
        delay = self.panels(*self.hand, '--link', 'a', '--log')['delay in the queue of each packet sent']
        assert delay.get_yscale() == 'symlog'
        assert sum(y == 0 for _, y in marks(delay)['.']) == 2

    def test_progress(self):
        progress = self.panels(*self.stall, '--panels', 'progress', '--whole')['bytes acknowledged of flow f']
        assert progress.get_legend().get_texts()[0].get_text() == 'f, done in 1 s'
        assert curves(progress)[style.BLUE][:2] == [(0, 0), (1.00308, 1)]       # kB
