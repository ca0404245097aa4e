"""Tests of what tcpsim-plot draws so that a picture tells its cause and can be read: whose packets wait and are dropped, the
retransmission timer, marks that are apart and countable, bands of one meaning, notes of what an axis leaves out.
"""
import itertools
import os
from types import SimpleNamespace

import pytest

pytest.importorskip('matplotlib', reason='no matplotlib: apt-get install python3-matplotlib')
import numpy as np  # noqa: E402
import pictures  # noqa: E402
from clone import PROGRAM, TOP  # noqa: E402
from matplotlib.patches import StepPatch  # noqa: E402
from tcpsim.plot import broken, link_panels, losses, spans, style, timers  # noqa: E402
from tcpsim.plot.picture import FlowView, LinkView, Picture  # noqa: E402
from tcpsim.traces.curves import read_run  # noqa: E402
from tcpsim.traces.walk import Walk  # noqa: E402
from tcpsim.whole_trace import opened_run  # noqa: E402
from test_plot import MS, Drawn, S, key_of, marks  # noqa: E402


def panels_of(figure):
    """The panels of a figure by their titles."""
    return {axes.get_title(loc='left'): axes for axes in figure.get_axes() if axes.axison}


class Timers(Walk):
    """What a trace leaves to its reader of each sender's timer, after each of its lines."""

    def __init__(self, scenario):
        super().__init__(scenario)
        self.known = [[] for _ in scenario.flows]

    def at_sender(self, flow, kind, packet, before):
        self.known[flow.number].append((self.time, flow.rto, flow.doubled))


class TestTheTimer(Drawn):
    @pytest.mark.parametrize('name', ['a_timer_that_stays_doubled', 'lock_out_at_equal_times', 'bufferbloat',
                                      'three_losses_in_a_window_with_newreno', 'four_flows_share_a_long_queue'])
    def test_its_value_is_the_senders(self, name):
        paths = pictures.run_of(name)
        with opened_run(*paths) as (scenario, lines):
            walk = Timers(scenario)
            walk.read(lines)
        for flow, known in zip(read_run(*paths).flows, walk.known):
            timer = timers.timer_of(flow)
            assert known
            for time, rto, _ in dict((entry[0], entry) for entry in known).values():
                assert timer.values[np.searchsorted(timer.times, time, side='right') - 1] == rto, (name, time)
            doubled = {time for time, _, doubled in known if doubled}
            assert set(timer.unmeasured) <= doubled and not set(timer.measured) & doubled

    def test_a_timer_that_stays_doubled(self):
        flow, = read_run(*pictures.run_of('a_timer_that_stays_doubled')).flows
        timer = timers.timer_of(flow)
        assert (timer.times, timer.values) == ([0, S, 3_023_200_000], [S, 2 * S, 4 * S])
        assert timer.measured == [] and timer.unmeasured == [*flow.una_times]     # each was sent again
        axes = panels_of(pictures.figure_of('a_timer_that_stays_doubled'))['flow f: retransmission timer']
        curve = next(line for line in axes.lines if line.get_color() == style.BLUE)
        assert list(dict.fromkeys(curve.get_ydata())) == [1, 2, 4]
        assert [text.get_text() for text in axes.texts if 'doubled' in text.get_text()] == ['doubled to 2 s', 'doubled to 4 s']
        assert len(marks(axes)['D']) == len(flow.una_times)
        assert axes.get_title(loc='right') == 'no round trip is measured'

    def test_a_round_trip_ends_the_doubling(self):
        axes = self.panels(*self.hand, '--panels', 'timer')['flow f: retransmission timer']
        # 1000 is timed from 0 on and acknowledged at 3.08 ms, 4000 sent then, and 4000 acknowledged with all at 11.36 ms
        assert [x for x, _ in marks(axes)['.']][0] == pytest.approx(3.08)
        assert 'D' not in marks(axes)
        assert axes.get_title(loc='right') != 'no round trip is measured'
        assert 'new ack, measures a round trip' in key_of(self.figure(*self.hand, '--panels', 'timer'))

    def test_of_several_flows(self):
        words = [*pictures.run_of('lock_out_at_equal_times'), '--panels', 'timer']
        assert list(panels_of(self.figure(*words))) == ['flow fa: retransmission timer', 'flow fb: retransmission timer']
        axes, = self.figure(*words, '--slide').get_axes()
        assert 'retransmission timers' in axes.get_title(loc='left')
        assert {line.get_color() for line in axes.lines} >= {style.BLUE, style.RUST}


class TestWhoWaits(Drawn):
    def test_by_hand(self):
        # at 5 two packets of flow 0 are in the queue and one of flow 1; the one that leaves at 9 is the first of flow 0
        link = SimpleNamespace(wait_times=[9, 12, 15], waits=[8, 9, 10], taken_of=[0, 1, 0],
                               waiting=[('', SimpleNamespace(flow=1), 14)])
        times, (first, second) = link_panels.waiting_of(link, [0, 1])
        assert list(times) == [0, 1, 3, 5, 9, 12, 14, 15]
        assert list(first) == [0, 1, 1, 2, 1, 1, 1, 0]
        assert list(second) == [0, 0, 1, 1, 1, 0, 1, 1]        # the last waits on

    @pytest.mark.parametrize('name, at', [('lock_out_at_equal_times', 'pq'), ('bufferbloat', 'a')])
    def test_the_parts_are_the_whole(self, name, at):
        run = read_run(*pictures.run_of(name))
        link = next(link for link in run.links if link.link.name == at)
        times, counts = link_panels.waiting_of(link, range(len(run.flows)))
        whole = np.concatenate(([0], link.queue))[np.searchsorted(link.queue_times, times, side='right')]
        assert (sum(counts) == whole).all()
        assert whole.max() > 5

    def test_areas_in_the_flows_colours(self):
        axes = panels_of(pictures.figure_of('lock_out_at_equal_times'))['packets that wait in the queue']
        parts = [patch for patch in axes.patches if isinstance(patch, StepPatch) and patch.get_fill()]
        assert [patch.get_facecolor()[:3] for patch in parts] == [pytest.approx(style.pale(color)) for color in style.SERIES[:2]]
        assert key_of(axes) == ['fa', 'fb', '24 dropped: queue full']
        # from 4 to 9 s all that waits is fb's: the lower area, of fa, is empty, and the upper one isn't
        values, edges, _ = parts[0].get_data()
        assert values[(edges[:-1] > 4) & (edges[1:] < 9)].max() == 0
        values, edges, low = parts[1].get_data()
        assert (values - low)[(edges[:-1] > 4) & (edges[1:] < 9)].min() > 2

    def test_no_parts_where_packets_are_dropped_out_of_the_queue(self):
        axes = panels_of(pictures.figure_of('four_flows_share_codel'))['packets that wait in the queue']
        assert key_of(axes) == ['47 dropped by CoDel', '14 of fa', '11 of fb', '12 of fc', '10 of fd']
        assert not [patch for patch in axes.patches if patch.get_facecolor()[:3] == pytest.approx(style.pale(style.BLUE))]

    def test_whose_packets_are_dropped(self):
        run = read_run(*pictures.run_of('lock_out_at_equal_times'))
        axes = panels_of(pictures.figure_of('lock_out_at_equal_times'))['packets that wait in the queue']
        rows = {line.get_color(): float(line.get_ydata()[0]) for line in axes.lines if line.get_marker() == 'x'}
        assert set(rows) == {style.BLUE, style.RUST}
        assert len(set(rows.values())) == 2 and min(rows.values()) > max(run.links[0].queue)
        # from 4 to 6 s one of each
        for number, color in enumerate(rows):
            drops = [time / S for time, _, of, *_ in run.links[0].drops if of == number and 4 * S < time < 6 * S]
            at = [float(line.get_xdata()[0]) for line in axes.lines if line.get_marker() == 'x' and line.get_color() == color]
            assert [x for x in at if 4 < x < 6] == pytest.approx(drops)

    def test_acknowledgements_are_named_as_such(self):
        panels = panels_of(pictures.figure_of('acks_share_the_bottleneck'))
        assert key_of(panels['packets that wait at pq']) == ['fa', 'acks of fb']
        assert key_of(panels['packets that wait at qp']) == ['acks of fa', 'fb']

    def test_a_slide_names_areas(self):
        axes, = self.figure(*pictures.run_of('lock_out_at_equal_times'), '--panels', 'queue', '--slide').get_axes()
        assert {'fa', 'fb'} <= {text.get_text() for text in axes.texts}


class TestSignsAreApart(Drawn):
    def test_groups(self):
        assert losses.groups([0, 9, 18], [1, 2, 3]) == [[1], [2], [3]]
        assert losses.groups([0, 7, 60], [1, 2, 3]) == [[1, 2], [3]]
        assert losses.groups([0, 3, 20, 40], [1, 2, 3, 4]) == [[1, 2, 3], [4]]        # the third would lie on the count
        assert losses.groups([0, 3, 6, 9, 12, 15, 18, 21, 24, 31, 33], range(11)) == [[*range(10)], [10]]      # and a new one begins
        assert losses.groups([], []) == []

    def test_sorts_that_would_meet_have_rows_of_their_own(self):
        picture = SimpleNamespace(across=lambda times, width: np.asarray(times))
        def rows(**sorts):
            return losses.rows_apart(picture, sorts, 400)
        assert rows(full=[0, 50], codel=[9, 70]) == [{'full': [0, 50], 'codel': [9, 70]}]
        assert rows(full=[0], codel=[7]) == [{'full': [0]}, {'codel': [7]}]
        # a count reaches 32 points from its sign
        assert rows(full=[3, 0], codel=[35]) == [{'full': [3, 0]}, {'codel': [35]}]
        # the third has room in the first row
        assert rows(full=[0, 3], codel=[20], lost=[60]) == [{'full': [0, 3], 'lost': [60]}, {'codel': [20]}]
        assert rows() == []

    def test_each_sort_has_its_own_count(self):
        """At one link a segment and two acknowledgements are dropped at nearly the same time."""
        file = os.path.join(TOP, 'docs', 'scenarios', 'six_flows_over_four_routers.txt')
        axes = self.panels(file, '--program', PROGRAM, '--panels', 'queue')['packets that wait in the queue']
        (_, of_segment), = marks(axes)['x']
        (_, of_acks), = marks(axes)['2']
        assert of_segment != of_acks
        assert [(text.get_text(), text.xy[1]) for text in axes.texts if text.get_text().startswith('×')] == [('×2', of_acks)]

    @pytest.mark.parametrize('name', ['two_flows_share_fairly', 'four_flows_share_codel', 'four_flows_share_a_long_queue',
                                      'parking_lot_of_three_routers', 'a_slow_way_back', 'two_timeouts_in_a_row'])
    def test_each_loss_is_counted(self, name):
        run = read_run(*pictures.run_of(name))
        figure = pictures.figure_of(name)
        figure.draw_without_rendering()
        for title, axes in panels_of(figure).items():
            if 'sequence' in title or title.startswith('bytes'):
                continue
            signs = [line for line in axes.lines if line.get_marker() in ('x', '+', 'v', '2') and len(line.get_xdata()) == 1]
            counts = {tuple(text.xy): int(text.get_text()[1:]) for text in axes.texts if text.get_text().startswith('×')}
            places = {(float(line.get_xdata()[0]), float(line.get_ydata()[0])) for line in signs}
            assert set(counts) <= places and len(places) == len(signs)
            pixels = [axes.transData.transform(place) for place in places]
            for one, other in itertools.combinations(pixels, 2):
                assert np.abs(one - other).max() > 5, (title, one, other)
            total = sum(counts.get(place, 1) for place in places)
            if title.startswith('packets'):
                link = title.rpartition('packets that wait at ')[2] if ' at ' in title else None
                shown = [each for each in run.links if each.link.name == link] if link else \
                    [max(run.links, key=lambda each: sum(each.waits))]
                assert total == sum(len(each.drops) for each in shown), title

    def test_a_loss_has_a_halo_and_lies_in_its_ring(self):
        axes = panels_of(pictures.figure_of('a_lost_retransmission'))['flow f: sequence numbers']
        plus, ring = ([line for line in axes.lines if line.get_marker() == sign] for sign in ('+', 'o'))
        assert all(line.get_path_effects() for line in plus)
        assert all(line.get_markersize() < ring[0].get_markersize() for line in plus)

    def test_lost_and_ack_lost_have_other_shapes(self):
        axes = panels_of(pictures.figure_of('a_timer_that_stays_doubled'))['flow f: sequence numbers']
        assert len(marks(axes)['+']) == 4 and len(marks(axes)['1']) == 1
        key = key_of(pictures.figure_of('a_timer_that_stays_doubled'))
        assert '4 lost by the scenario\'s list' in key and '1 ack lost by the scenario\'s list' in key


class TestBands:
    def test_they_do_not_lie_on_each_other(self):
        run = SimpleNamespace(flow=SimpleNamespace(start=0), una_times=[10 * MS, 500 * MS, 520 * MS], completed=520 * MS,
                              recoveries=[[5 * MS, 60 * MS], [505 * MS, None]])
        view = FlowView(run, 'f', 0, 520 * MS)
        shown = SimpleNamespace(longer=200 * MS, in_sight=lambda its: list(its))
        assert spans.bands(shown, view) == [('recovery', 5 * MS, 10 * MS), ('both', 10 * MS, 60 * MS), ('stall', 60 * MS, 500 * MS),
                                            ('recovery', 505 * MS, 520 * MS)]

    def test_each_has_its_colour_and_its_name(self):
        figure = pictures.figure_of('a_lost_retransmission')
        key, = figure.legends
        names = [text.get_text() for text in key.get_texts()]
        assert 'recovery, no new ack' in names and 'no new ack for over 200 ms' in names
        drawn = {patch.get_facecolor() for patch in panels_of(figure)['flow f: congestion window'].patches if not patch.get_hatch()}
        assert len(drawn) == 2 and drawn <= {patch.get_facecolor() for patch in key.get_patches()}


class TestAxes(Drawn):
    def test_a_part_of_a_run_says_so(self):
        def below(*words):
            return {axes.get_xlabel() for axes in self.figure(*self.hand, *words).get_axes()} - {''}
        assert below() == {'time, ms'}
        assert below('--from', '2ms') == {'time, ms (the run from 2 ms on)'}
        assert below('--to', '11ms') == {'time, ms (the run up to 11 ms)'}
        assert below('--from', '1ms', '--to', '11.5ms') == {'time, ms (the run from 1 ms to 11.5 ms)'}

    def test_colours_of_links_are_none_of_flows(self):
        figure = pictures.figure_of('parking_lot_of_three_routers')
        for title, axes in panels_of(figure).items():
            lines = {line.get_color() for line in axes.lines if line.get_linestyle() == '-' and line.get_linewidth() > 1.5}
            assert not lines & set(style.LINKS), title
        view, other = LinkView(None, 'a', 0, 1), FlowView(None, 'f', 0, 1)
        apart = Picture([other, other], [view], SimpleNamespace(window=(0, 1)))
        assert apart.look_of(view)['color'] == style.LINKS[0] and apart.look_of(other)['color'] == style.BLUE
        # of runs with a flow each the link has its colour
        runs = Picture([other, other], [view, view], SimpleNamespace(window=(0, 1)), beside=True)
        assert runs.look_of(view)['color'] == style.BLUE

    def test_a_logarithmic_axis_is_broken_above_zero(self):
        axes = self.panels(*self.hand, '--link', 'a', '--log')['delay in the queue of each packet sent']
        strokes = [line for line in axes.lines if line.get_marker() == broken.STROKE['marker']]
        assert [list(line.get_ydata()) for line in strokes] == [[low] * 2 for low in link_panels.BREAK]
        plain = self.panels(*self.hand, '--link', 'a')['delay in the queue of each packet sent']
        assert not [line for line in plain.lines if line.get_marker() == broken.STROKE['marker']]
