"""Tests of what tcpsim-plot says of flows and links beside their curves: paths, round trips, who uses a link, at which link
packets were lost and of what sort, duplicates, timers, heights of axes.
"""
from types import SimpleNamespace

import pytest

pytest.importorskip('matplotlib', reason='no matplotlib: apt-get install python3-matplotlib')
import pictures  # noqa: E402
from matplotlib.lines import TICKDOWN  # noqa: E402
from tcpsim.plot import notes, spans, style  # noqa: E402
from tcpsim.plot.points import growth  # noqa: E402
from tcpsim.scenario.text import Scenario  # noqa: E402
from tcpsim.traces.curves import read_run  # noqa: E402
from test_plot import MS, Drawn, S, key_of, marks  # noqa: E402
from test_trace import TRACE  # noqa: E402


class TestNotes(Drawn):
    """What is said of flows and links: paths, round trips, in what flows differ, who uses a link."""
    def test_ways_and_round_trips(self):
        scenario = read_run(*pictures.run_of('two_round_trips_do_not_share_fairly')).scenario
        # fa: 1040 bytes take 27.733334 ms at 300 kbit/s and 83.2 us at each of two links of 100 Mbit/s, 40 bytes 1.066667 ms
        # and 3.2 us; 5 + 1 + 1 ms each way. The sender's link of fb is 199 ms longer, there and back.
        assert [notes.path_text(scenario, number) for number in (0, 1)] == ['sa→p→q→ra', 'sb→p→q→rb']
        trips = [notes.least_round_trip(scenario, number) for number in (0, 1)]
        assert trips == [27_733_334 + 2 * 83_200 + 1_066_667 + 2 * 3_200 + 14 * MS] * 1 + [trips[0] + 398 * MS]
        assert notes.trip_text(scenario, 1) == 'round trip ≥ 441 ms'
        assert notes.flow_notes(scenario, 1, (), notes.trip_text(scenario, 1)) == ('sb→p→q→rb', 'round trip ≥ 441 ms')
        assert notes.flow_notes(scenario, 1, ('Reno',), None) == ('sb→p→q→rb', 'Reno')

    def test_a_long_way_is_told_by_its_ends(self):
        count = 9
        text = 'sim 1000000\n' + ''.join(f'node n{k} {"sender" if not k else "receiver" if k == count - 1 else "router"}\n'
                                         for k in range(count))
        for a, b in [(k, k + 1) for k in range(count - 1)] + [(k + 1, k) for k in range(count - 1)]:
            text += f'link l{a}{b} n{a} n{b} 8000000 1000 droptail 9\n'
            if 0 < a < count - 1:
                text += f'route n{a} n{count - 1 if b > a else 0} l{a}{b}\n'
        text += f'flow f n0 n{count - 1} 1000 1 0 64000 0\n'
        assert notes.path_text(Scenario(text), 0) == 'n0→n1→…→n7→n8'

    def test_flows_are_told_apart_by_what_differs(self):
        first, second = read_run(*pictures.run_of('a_larger_initial_window')).scenario.flows
        assert notes.differences([first, second]) == [['initial window 3 segments'], ['initial window 10 segments']]
        assert notes.differences([first, first]) == [[], []]
        assert notes.differences([first, first._replace(newreno=True, delack=40 * MS)]) == [
            ['Reno', 'no ack delayed'], ['NewReno', 'acks delayed by up to 40 ms']]
        assert notes.differences([]) == []

    def test_who_uses_a_link(self):
        scenario = read_run(*pictures.run_of('acks_share_the_bottleneck')).scenario
        assert [notes.link_note(scenario, number) for number in (0, 1)] == ['p→q: data of fa and acks of fb',
                                                                            'q→p: data of fb and acks of fa']
        scenario = read_run(*pictures.run_of('parking_lot_of_three_routers')).scenario
        assert notes.link_note(scenario, 0) == 'p→q: data of fa, fb'
        scenario.flows = [scenario.flows[1]] * 5
        scenario.paths = [scenario.paths[1]] * 5
        assert notes.link_note(scenario, 0) == 'p→q: data of 5 flows'

    def test_round_trips_that_differ_are_in_the_flows_names(self):
        figure = pictures.figure_of('two_round_trips_do_not_share_fairly')
        titles = [axes.get_title(loc='left') for axes in figure.get_axes()]
        assert 'flow fa, round trip ≥ 43 ms: congestion window' in titles
        assert 'flow fb, round trip ≥ 441 ms: congestion window' in titles
        texts = [text.get_text() for axes in figure.get_axes() for text in axes.texts]
        assert 'beyond ssthresh +3.2 kB a second' in texts and 'beyond ssthresh +1.1 kB a second' in texts
        progress = figure.get_axes()[-1].get_legend().get_texts()
        assert [text.get_text() for text in progress] == ['fa, round trip ≥ 43 ms: 335 kB', 'fb, round trip ≥ 441 ms: 69 kB']
        alike = pictures.figure_of('two_flows_share_fairly')
        assert 'flow fa: congestion window' in [axes.get_title(loc='left') for axes in alike.get_axes()]
        progress = alike.get_axes()[-1].get_legend().get_texts()
        assert [text.get_text() for text in progress] == ['fa 225 kB', 'fb 226 kB']

    def test_how_fast_a_window_grows(self):
        # beyond ssthresh from 10 to 20 ms, by 400 bytes; then a recovery, slow start, and from 50 ms on again
        flow = SimpleNamespace(times=[0, 10 * MS, 15 * MS, 20 * MS, 30 * MS, 40 * MS, 50 * MS, 60 * MS],
                               cwnd=[1000, 2000, 2200, 2400, 5000, 1000, 2000, 2600], ssthresh=[2000] * 8)
        window = 0, 100 * MS
        assert growth(flow, [(20 * MS, 40 * MS)], window) == pytest.approx((200 + 600) * S / (15 * MS))
        assert growth(flow, [], (0, 9 * MS)) is None


class TestSigns(Drawn):
    def test_losses_have_a_row_for_each_link_where_these_are_several(self):
        figure = pictures.figure_of('parking_lot_of_three_routers')
        panels = {axes.get_title(loc='left'): axes for axes in figure.get_axes() if axes.axison}
        names = {'fa': ' 102 ms', 'fb': ' 71 ms', 'fc': ' 71 ms'}
        of = {name: panels[f'flow {name}, round trip ≥{trip}'] for name, trip in names.items()}
        rows = {name: {y for line in axes.lines if line.get_marker() == 'x' for y in line.get_ydata()} for name, axes in of.items()}
        assert len(rows['fa']) == 2 and rows['fb'] == rows['fc'] == {max(rows['fa'])}        # of a link at which none was lost none
        named = {name: [text.get_text() for text in axes.texts if text.get_text() in ('pq', 'qu')] for name, axes in of.items()}
        assert named == {'fa': ['pq', 'qu'], 'fb': ['pq'], 'fc': ['qu']}
        # a colour is a flow's, in each panel
        crosses = {title: {line.get_color() for line in axes.lines if line.get_marker() == 'x'} for title, axes in panels.items()}
        for name, color in zip(of, style.SERIES):
            assert crosses[of[name].get_title(loc='left')] == {color}
        assert crosses['packets that wait at pq'] == {style.BLUE, style.RUST}
        assert crosses['packets that wait at qu'] == {style.BLUE, style.GREEN}
        assert key_of(figure)[-1] == '35 dropped: queue full'
        assert [key_of(panels[f'packets that wait at {link}'])[-1] for link in ('pq', 'qu')] == ['17 dropped: queue full',
                                                                                                  '18 dropped: queue full']
        low, high = panels['packets that wait at pq'].get_ylim(), panels['packets that wait at qu'].get_ylim()
        assert low == high

    def test_lost_acknowledgements_are_grey(self):
        figure = pictures.figure_of('a_slow_way_back')
        panels = {axes.get_title(loc='left'): axes for axes in figure.get_axes() if axes.axison}
        run = read_run(*pictures.run_of('a_slow_way_back'))
        dropped = [time / MS for time, *_ in run.flows[0].drops]
        sign = style.sign_look('full', is_ack=True)['marker']
        assert sign != style.sign_look('full')['marker']
        line, = [line for line in panels['flow f: sequence numbers'].lines if line.get_marker() == sign]
        assert line.get_color() == style.OF_ACKS
        assert sorted(line.get_xdata()) == pytest.approx(dropped)
        assert sign not in marks(panels['flow f: congestion window'])
        queue = panels['packets that wait in the queue']
        assert key_of(queue) == ['33 acks dropped: queue full']
        assert {line.get_color() for line in queue.lines if line.get_marker() == sign} == {style.OF_ACKS}

    def test_duplicates_and_acknowledgements_that_were_held_back(self):
        # by hand: 3000 is acknowledged, and again by each acknowledgement of 3000 that comes later
        sequence = self.panels(*self.hand)['flow f: sequence numbers']
        run = read_run(*self.hand)
        told = [int(words[1]) for words in map(str.split, TRACE.splitlines()) if words[5:8] == ['ack', '0', '3000']]
        assert sorted(marks(sequence)[TICKDOWN]) == pytest.approx([(time / MS, 3) for time in told if time not in run.flows[0].una_times])
        assert len(marks(sequence)[TICKDOWN]) >= 3
        figure = pictures.figure_of('delayed_acks_and_their_alarm')
        sequence = figure.get_axes()[-1]
        # the ninth segment comes at 22.28 ms
        arrived = max(read_run(*pictures.run_of('delayed_acks_and_their_alarm')).flows[0].next_times)
        assert list(read_run(*pictures.run_of('delayed_acks_and_their_alarm')).flows[0].delack_times) == [arrived + 100 * MS]
        assert [y for _, y in marks(sequence)['>']] == [9]
        assert 'ack that was held back for 100 ms' in key_of(figure)

    def test_timeouts_say_how_long_the_timer_ran(self):
        def said(name):
            run = read_run(*pictures.run_of(name))
            return [[spans.time_of_timer(flow, time) for time in flow.timeouts] for flow in run.flows]
        assert said('a_timer_that_stays_doubled') == [[S, 2 * S]]
        assert said('two_timeouts_in_a_row') == [[S, 2 * S]]
        assert said('lock_out_at_equal_times')[0] == [S, 2 * S, 4 * S]
        texts = [text.get_text() for axes in pictures.figure_of('two_timeouts_in_a_row').get_axes() for text in axes.texts]
        # two duplicates came for 4000; and each is said once, in the first panel
        assert texts.count('after 1 s, 2 dup. acks') == texts.count('after 2 s, 0 dup. acks') == 1

    def test_timeouts_say_how_many_duplicates_came(self):
        def said(name):
            return [[spans.timeout_text(flow, time, False) for time in flow.timeouts]
                    for flow in read_run(*pictures.run_of(name)).flows]
        # Reno's second recovery ends with an acknowledgement of all up to the third loss, and then nothing comes
        assert said('three_losses_in_a_window') == [['0 dup.']]
        assert said('a_lost_retransmission') == [['12 dup.']]
        assert said('lock_out_at_equal_times') == [['0 dup.', '2 dup.', '0 dup.'], ['0 dup.']]
        counted = [text.get_text() for axes in pictures.figure_of('four_flows_share_codel').get_axes() for text in axes.texts
                   if text.get_text().endswith(' dup.')]
        assert counted == ['27 dup.', '0 dup.', '0 dup.', '2 dup.', '10 dup.', '6 dup.', '0 dup.', '0 dup.', '0 dup.', '0 dup.']

    def test_labels_of_timeouts_are_left_of_their_lines_and_off_each_other(self):
        for name in ('lock_out_at_equal_times', 'two_timeouts_in_a_row', 'four_flows_share_codel', 'a_timer_that_stays_doubled'):
            figure = pictures.figure_of(name)
            figure.draw_without_rendering()
            renderer = figure.canvas.get_renderer()
            for axes in figure.get_axes():
                labels = [text for text in axes.texts if text.get_color() == style.DARK_RED]
                boxes = [label.get_window_extent(renderer) for label in labels]
                for label, box in zip(labels, boxes):
                    assert box.x1 <= axes.transData.transform((label.xy[0], 0))[0], (name, label)
                    assert box.x0 >= axes.bbox.x0 and box.y0 >= axes.bbox.y0, (name, label)
                assert not [pair for n, pair in enumerate(boxes) for other in boxes[:n] if pair.overlaps(other)], name

    def test_axes_of_a_height_that_was_asked_for(self):
        words = [*self.hand, '--link', 'a', '--panels', 'window,queue,delay,progress', '--top',
                 'window=20k,queue=10,delay=5ms,progress=40k']
        panels = self.panels(*words)
        assert panels['flow f: congestion window'].get_ylim()[1] == pytest.approx(20 * 1.12)
        assert panels['packets that wait in the queue'].get_ylim()[1] == pytest.approx(10 * (1.12 + .18) + .5)
        assert panels['delay in the queue of each packet sent'].get_ylim()[1] == pytest.approx(5 * 1.12)
        assert panels['bytes acknowledged of flow f'].get_ylim()[1] == pytest.approx(40 * 1.06)
        # what is higher is drawn whole
        low, high = self.panels(*self.hand, '--top', 'window=1k')['flow f: congestion window'].get_ylim()
        assert (low, high) == pytest.approx((-.98, 7 * 1.12))
        for top in ('window', 'cwnd=5', 'queue=many', 'delay=5', 'queue=1.5', ''):
            self.refused(2, '--top', *self.hand, '--top', top)

    def test_names_of_losses_that_lie_close_to_each_other_are_one(self):
        figure = pictures.figure_of('reno_and_newreno')
        names = [text.get_text() for axes in figure.get_axes() for text in axes.texts if 'lost' in text.get_text()]
        assert names == ['29,000, 34,000, 39,000 lost'] * 2
