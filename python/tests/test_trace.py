"""Tests of tcpsim/traces/reader.py, tcpsim-flows and tcpsim-plot.

The first run is computed by hand, event by event. Data packets take 1.04 ms on link a (1,040 bytes at
8 Mbit/s), acknowledgements 0.04 ms on link b; both delays are 1 ms, and a's queue holds two packets.
    0     ms  0 begins to be sent; 1000 and 2000 wait; 3000 finds the queue full
    1.04      1000 begins, after 1.04 ms in the queue; 2.08: 2000, after 2.08 ms; 3.12: a is free
    2.04      0 arrives; its acknowledgement, 1000, takes until 2.08 and arrives at 3.08
    3.08      cwnd 5000: 4000 and 5000 are sent: a is busy until 3.12, both enter the queue (2000 began)
    3.12      4000 begins after 0.04 ms; 4.16: 5000, after 1.08 ms
    3.08, 4.12  1000 and 2000 arrive; acknowledgements 2000 and 3000 arrive at 4.12 and 5.16
    4.12      cwnd 6000: 6000 and 7000 are sent, the flow's last; 5000 and 6000 wait, 7000 finds it full
    5.20      6000 begins, after 1.08 ms (5000 began at 4.16)
    5.16, 6.20, 7.24  4000, 5000 and 6000 arrive: three duplicates of 3000, at the sender 6.20, 7.24, 8.28
    8.28      3000 is sent again, arrives at 10.32: 7000 is next, acknowledged at 11.36
    11.36     the recovery ends; 7000, sent once already, stays out: nothing is below the end of 12 ms

The second run by hand is that of a NewReno sender with an initial window of ten segments and a receiver's window of
eight, over the same links; 1000 and 3000 are lost.
    0     ms  0 to 7000 are sent; 0 begins, the other five wait: 2000 begins at 1.04, and so on, 7000 at 5.20
    2.04      0 arrives, acknowledgement 1000 is at the sender at 3.08: cwnd 10100, 8000 is sent and waits
    3.08      2000 arrives, then 4000 to 7000, one each 1.04 ms: duplicates of 1000 at 4.12, 5.16, 6.20, 7.24, 8.28
    6.20      the third: 1000 is sent again and waits behind 8000; ssthresh is half of 8000, cwnd that and 3000
    6.24      8000 begins, arrives at 8.28: the sixth duplicate at 9.32, cwnd 10000; 7.28: 1000 begins
    9.32      1000 arrives: 3000 is next, acknowledged at 10.36: that is below 9000, the greatest nxt at 6.20
    10.36     cwnd 10000 - 2000 + 1000; 3000 is sent again and begins at once, 9000 for the first time, and waits
    11.40     9000 begins; 12.40: 3000 arrives, 9000 is next, acknowledged at 13.44: the recovery ends, cwnd 4000
    13.44     9000 arrives, acknowledged at 14.48: all is done, cwnd 4250
"""
import math
import os

import pytest

from clone import TOP, Folder, tool

from tcpsim.cli.flows import table
from tcpsim.fairness import jain
from tcpsim.figures import Figures
from tcpsim.samples import percentile
from tcpsim.figures import figures as trace_figures
from tcpsim.scenario.text import Scenario, Unreadable
from tcpsim.traces.curves import Run
from tcpsim.traces.curves import read_run

MS = 10**6
BY_HAND = '''sim 12000000
node s sender
node r receiver
link a s r 8000000 1000000 droptail 2
link b r s 8000000 1000000 droptail 10
flow f s r 1000 8 0 64000 0
'''
TRACE = '''1 0 0 0 0 start 0 una=0 nxt=4000 cwnd=4000 ssthresh=64000 phase=ss tx=0:0:0 drop=full:0:3000
2 1040000 0 0 3 free 0 una=0 nxt=4000 cwnd=4000 ssthresh=64000 phase=ss tx=0:0:1000
3 2040000 1 1 1 data 0 0 next=1000 tx=1:0:1000
4 2080000 0 0 3 free 0 una=0 nxt=4000 cwnd=4000 ssthresh=64000 phase=ss tx=0:0:2000
5 2080000 1 0 3 free 1 next=1000
6 3080000 0 2 1 ack 0 1000 una=1000 nxt=6000 cwnd=5000 ssthresh=64000 phase=ss
7 3080000 1 1 2 data 0 1000 next=2000 tx=1:0:2000
8 3120000 0 0 3 free 0 una=1000 nxt=6000 cwnd=5000 ssthresh=64000 phase=ss tx=0:0:4000
9 3120000 1 0 3 free 1 next=2000
10 4120000 0 2 2 ack 0 2000 una=2000 nxt=8000 cwnd=6000 ssthresh=64000 phase=ss drop=full:0:7000
11 4120000 1 1 3 data 0 2000 next=3000 tx=1:0:3000
12 4160000 0 0 3 free 0 una=2000 nxt=8000 cwnd=6000 ssthresh=64000 phase=ss tx=0:0:5000
13 4160000 1 0 3 free 1 next=3000
14 5160000 0 2 3 ack 0 3000 una=3000 nxt=8000 cwnd=7000 ssthresh=64000 phase=ss
15 5160000 1 1 4 data 0 4000 next=3000 tx=1:0:3000
16 5200000 0 0 3 free 0 una=3000 nxt=8000 cwnd=7000 ssthresh=64000 phase=ss tx=0:0:6000
17 5200000 1 0 3 free 1 next=3000
18 6200000 0 2 4 ack 0 3000 una=3000 nxt=8000 cwnd=7000 ssthresh=64000 phase=ss
19 6200000 1 1 5 data 0 5000 next=3000 tx=1:0:3000
20 6240000 0 0 3 free 0 una=3000 nxt=8000 cwnd=7000 ssthresh=64000 phase=ss
21 6240000 1 0 3 free 1 next=3000
22 7240000 0 2 5 ack 0 3000 una=3000 nxt=8000 cwnd=7000 ssthresh=64000 phase=ss
23 7240000 1 1 6 data 0 6000 next=3000 tx=1:0:3000
24 7280000 1 0 3 free 1 next=3000
25 8280000 0 2 6 ack 0 3000 una=3000 nxt=8000 cwnd=5500 ssthresh=2500 phase=fr tx=0:0:3000
26 9320000 0 0 3 free 0 una=3000 nxt=8000 cwnd=5500 ssthresh=2500 phase=fr
27 10320000 1 1 7 data 0 3000 next=7000 tx=1:0:7000
28 10360000 1 0 3 free 1 next=7000
29 11360000 0 2 7 ack 0 7000 una=7000 nxt=8000 cwnd=2500 ssthresh=2500 phase=ca
end 29
'''
PARTIAL = '''sim 15000000
node s sender
node r receiver
link a s r 8000000 1000000 droptail 10
link b r s 8000000 1000000 droptail 10
flow f s r 1000 10 0 8000 0 newreno iw10
lose a 2
lose a 4
'''
PARTIAL_TRACE = '''1 0 0 0 0 start 0 una=0 nxt=8000 cwnd=10000 ssthresh=8000 phase=ca tx=0:0:0 drop=lost:0:1000 drop=lost:0:3000
2 1040000 0 0 3 free 0 una=0 nxt=8000 cwnd=10000 ssthresh=8000 phase=ca tx=0:0:2000
3 2040000 1 1 1 data 0 0 next=1000 tx=1:0:1000
4 2080000 0 0 3 free 0 una=0 nxt=8000 cwnd=10000 ssthresh=8000 phase=ca tx=0:0:4000
5 2080000 1 0 3 free 1 next=1000
6 3080000 0 2 1 ack 0 1000 una=1000 nxt=9000 cwnd=10100 ssthresh=8000 phase=ca
7 3080000 1 1 2 data 0 2000 next=1000 tx=1:0:1000
8 3120000 0 0 3 free 0 una=1000 nxt=9000 cwnd=10100 ssthresh=8000 phase=ca tx=0:0:5000
9 3120000 1 0 3 free 1 next=1000
10 4120000 0 2 2 ack 0 1000 una=1000 nxt=9000 cwnd=10100 ssthresh=8000 phase=ca
11 4120000 1 1 3 data 0 4000 next=1000 tx=1:0:1000
12 4160000 0 0 3 free 0 una=1000 nxt=9000 cwnd=10100 ssthresh=8000 phase=ca tx=0:0:6000
13 4160000 1 0 3 free 1 next=1000
14 5160000 0 2 3 ack 0 1000 una=1000 nxt=9000 cwnd=10100 ssthresh=8000 phase=ca
15 5160000 1 1 4 data 0 5000 next=1000 tx=1:0:1000
16 5200000 0 0 3 free 0 una=1000 nxt=9000 cwnd=10100 ssthresh=8000 phase=ca tx=0:0:7000
17 5200000 1 0 3 free 1 next=1000
18 6200000 0 2 4 ack 0 1000 una=1000 nxt=9000 cwnd=7000 ssthresh=4000 phase=fr
19 6200000 1 1 5 data 0 6000 next=1000 tx=1:0:1000
20 6240000 0 0 3 free 0 una=1000 nxt=9000 cwnd=7000 ssthresh=4000 phase=fr tx=0:0:8000
21 6240000 1 0 3 free 1 next=1000
22 7240000 0 2 5 ack 0 1000 una=1000 nxt=9000 cwnd=8000 ssthresh=4000 phase=fr
23 7240000 1 1 6 data 0 7000 next=1000 tx=1:0:1000
24 7280000 0 0 3 free 0 una=1000 nxt=9000 cwnd=8000 ssthresh=4000 phase=fr tx=0:0:1000
25 7280000 1 0 3 free 1 next=1000
26 8280000 0 2 6 ack 0 1000 una=1000 nxt=9000 cwnd=9000 ssthresh=4000 phase=fr
27 8280000 1 1 7 data 0 8000 next=1000 tx=1:0:1000
28 8320000 0 0 3 free 0 una=1000 nxt=9000 cwnd=9000 ssthresh=4000 phase=fr
29 8320000 1 0 3 free 1 next=1000
30 9320000 0 2 7 ack 0 1000 una=1000 nxt=9000 cwnd=10000 ssthresh=4000 phase=fr
31 9320000 1 1 8 data 0 1000 next=3000 tx=1:0:3000
32 9360000 1 0 3 free 1 next=3000
33 10360000 0 2 8 ack 0 3000 una=3000 nxt=10000 cwnd=9000 ssthresh=4000 phase=fr tx=0:0:3000
34 11400000 0 0 3 free 0 una=3000 nxt=10000 cwnd=9000 ssthresh=4000 phase=fr tx=0:0:9000
35 12400000 1 1 9 data 0 3000 next=9000 tx=1:0:9000
36 12440000 0 0 3 free 0 una=3000 nxt=10000 cwnd=9000 ssthresh=4000 phase=fr
37 12440000 1 0 3 free 1 next=9000
38 13440000 0 2 9 ack 0 9000 una=9000 nxt=10000 cwnd=4000 ssthresh=4000 phase=ca
39 13440000 1 1 10 data 0 9000 next=10000 tx=1:0:10000
40 13480000 1 0 3 free 1 next=10000
41 14480000 0 2 10 ack 0 10000 una=10000 nxt=10000 cwnd=4250 ssthresh=4000 phase=ca
end 41
'''


def by_hand():
    return Run(Scenario(BY_HAND), TRACE.splitlines())


def rows_by_hand():
    return trace_figures(Figures(Scenario(BY_HAND), TRACE.splitlines()))


# ---- the run above: what is read out of its trace, and its figures


def test_figures():
    figures = {(name, figure): value for _, name, figure, _, value in rows_by_hand()}
    busy = 7 * 1.04 / 12
    waited = 1.04 + 2.08 + 0.04 + 1.08 + 1.08      # packets times ms, of the five that waited
    for name, figure, value in (
            ('f', 'delivered', 7000), ('f', 'goodput', 7000 * 8 / .012), ('f', 'bottleneck', 'a'),
            ('f', 'share of the bottleneck', 1), ('f', 'sent', 9),
            ('f', 'sent again by fast retransmit', 1), ('f', 'sent again by timeout', 0),
            ('f', 'timeouts', 0), ('f', 'data dropped as full at a', 2), ('f', 'completed', None),
            # acknowledgements 1000, 2000, 3000 match segments sent at the beginning; 7000 comes
            # after a resending and is no sample
            ('f', 'least round trip', 3.08 * MS), ('f', 'median round trip', 4.12 * MS),
            ('f', '99th percentile of round trips', 5.16 * MS),
            ('a', 'utilization', busy), ('b', 'utilization', 7 * .04 / 12), ('a', 'dropped', 2),
            ('a', 'greatest queue', 2), ('a', 'mean queue', waited / 12), ('b', 'greatest queue', 0),
            # of 0, 1.04, 2.08, 0.04, 1.08, 1.08 and 0 ms
            ('a', 'median delay in the queue', 1.04 * MS),
            ('a', '99th percentile of delay in the queue', 2.08 * MS),
            ('', 'Jain\'s index of goodput', 1), ('', 'span', 12 * MS)):
        if isinstance(value, float):
            assert math.isclose(figures[name, figure], value), figures[name, figure]
        else:
            assert figures[name, figure] == value


def test_curves():
    run = by_hand()
    flow, link = run.flows[0], run.links[0]
    assert [entry / MS for entry in link.queue_times] == [0, 1.04, 2.08, 3.08, 3.12, 4.12, 4.16, 5.2]
    assert list(link.queue) == [2, 1, 0, 2, 1, 2, 1, 0]
    assert [wait / MS for wait in link.waits] == [0, 1.04, 2.08, .04, 1.08, 1.08, 0]
    assert list(flow.sent) == [0, 1000, 2000, 3000, 4000, 5000, 6000, 7000]
    assert (list(flow.again), list(flow.again_times)) == ([3000], [8280000])
    assert flow.recoveries == [[8280000, 11360000]]
    assert list(flow.next) == [1000, 2000, 3000, 7000]
    assert [drop[:2] for drop in link.drops] == [(0, 'full'), (4120000, 'full')]


def test_the_table_has_them():
    lines = table(rows_by_hand())
    assert lines[1].split() == 'a 60.7 1.040 2.080 22.22 1 4.667 100.0 0 1.0000'.split()
    assert lines[4].split() == 'f 7,000 4.667 100.0 a 9 22.22 0 1 0 3.080 4.120 5.160 5.160 - -'.split()
    assert 'f     data dropped as full at a        2' in lines


def test_a_trace_of_another_scenario_is_refused():
    lines = TRACE.splitlines()
    for at, old, new in ((1, 'tx=0:0:1000', 'tx=0:0:2000'), (0, 'full:0:3000', 'full:0:5000'),
                         (4, 'next=1000', 'next=1000 tx=1:0:5'), (2, 'data', 'date')):
        changed = lines[:at] + [lines[at].replace(old, new)] + lines[at + 1:]
        assert changed != lines
        with pytest.raises(Unreadable):
            Run(Scenario(BY_HAND), changed)


class TestPartialByHand:
    """The second run: an acknowledgement of less than all, in a recovery that goes on."""

    def test_curves(self):
        run = Run(Scenario(PARTIAL), PARTIAL_TRACE.splitlines())
        flow, link = run.flows[0], run.links[0]
        assert list(zip(flow.again_times, flow.again)) == [(6_200_000, 1000), (10_360_000, 3000)]
        assert (flow.by_fast_retransmit, flow.by_timeout) == (2, 0)
        assert flow.recoveries == [[6_200_000, 13_440_000]]
        assert list(zip(flow.sent_times, flow.sent))[8:] == [(3_080_000, 8000), (10_360_000, 9000)]
        assert [wait / MS for wait in link.waits] == [0, 1.04, 2.08, 3.12, 4.16, 5.2, 3.16, 1.08, 0, 1.04]
        assert list(flow.next) == [1000, 3000, 9000, 10000]
        assert flow.completed == 14_480_000

    def test_figures(self):
        figures = {figure: value for _, name, figure, _, value in
                   trace_figures(Figures(Scenario(PARTIAL), PARTIAL_TRACE.splitlines())) if name == 'f'}
        assert [figures[name] for name in ('sent', 'sent again by fast retransmit', 'sent again by timeout')] == [12, 2, 0]
        # 9000, sent after a resending, is the last that is timed: from 10.36 to 14.48 ms
        assert (figures['least round trip'], figures['99th percentile of round trips']) == (3.08 * MS, 4.12 * MS)

    def test_what_is_no_trace_of_it_is_refused(self):
        lines = PARTIAL_TRACE.splitlines()
        for text in (PARTIAL.replace('newreno', 'reno'), PARTIAL.replace(' newreno iw10', '')):
            with pytest.raises(Unreadable):
                Run(Scenario(text), lines)
        for old, new in (('nxt=10000 cwnd=9000 ssthresh=4000 phase=fr tx=0:0:3000', 'nxt=11000 cwnd=9000 ssthresh=4000 phase=fr tx=0:0:3000'),
                         ('tx=0:0:3000', 'tx=0:0:9000'), ('nxt=10000', 'nxt=9000')):
            changed = lines[:32] + [lines[32].replace(old, new)] + lines[33:]
            assert changed != lines
            with pytest.raises(Unreadable):
                Run(Scenario(PARTIAL), changed)


def test_a_flow_has_both_words_or_neither():
    for words, newreno, iw10 in (('', False, False), (' reno iw3', False, False), (' newreno iw3', True, False),
                                 (' reno iw10', False, True), (' newreno iw10', True, True)):
        flow = Scenario(PARTIAL.replace(' newreno iw10', words)).flows[0]
        assert (flow.delack, flow.newreno, flow.iw10) == (0, newreno, iw10)
    for words in (' reno', ' iw3', ' iw3 reno', ' reno iw5', ' Reno iw3', ' reno iw3 1', ' 1 2'):
        with pytest.raises(Unreadable, match='line 6'):
            Scenario(PARTIAL.replace(' newreno iw10', words))


def test_percentiles_are_by_nearest_rank():
    for values, percent, value in (([], 50, None), ([7], 99, 7), ([3, 1, 2], 50, 2), ([4, 1, 3, 2], 50, 2),
                                   (range(1, 101), 99, 99), (range(1, 102), 99, 100)):
        assert percentile(values, percent) == value


def test_jain():
    for shares, index in (([5, 5], 1), ([1, 0], .5), ([4, 2, 0], .6), ([0, 0], None)):
        assert jain(shares) == index


# ---- networks: what is read out of a trace against the model's own queues, packet by packet


def test_waits_are_those_of_the_model():
    from tcpsim_model.simulate import Network, line_text
    from tcpsim_model.text import assemble
    for path in SCENARIOS:
        with open(path, encoding='ascii') as file:
            text = file.read()
        net, lines = Network(assemble(text.encode())), []
        for port in net.ports:
            port.queue = Watched(port.queue)
        while (line := net.step()) is not None:
            lines.append(line_text(net.position, line))
        run = Run(Scenario(text), lines)
        assert len(lines) > 4
        assert [list(link.waits) for link in run.links] == [port.queue.waits for port in net.ports]


class Watched:
    """A queue of the model that notes how long each packet that it gives has waited."""

    def __init__(self, queue):
        self.queue, self.entered, self.waits = queue, [], []

    def __getattr__(self, name):
        return getattr(self.queue, name)

    def offer(self, packet, now):
        taken = self.queue.offer(packet, now)
        self.entered.extend([now] if taken else [])
        return taken

    def take(self, now):
        dropped, packet = self.queue.take(now)
        del self.entered[:len(dropped)]
        if packet is not None:
            self.waits.append(now - self.entered.pop(0))
        return dropped, packet


SCENARIOS = sorted(os.path.join(folder, name)
                   for folder in (os.path.join(TOP, 'examples'), os.path.join(TOP, 'python', 'tests', 'data'))
                   for name in os.listdir(folder) if name.endswith('.txt'))


class TestPictures(Folder):
    def setup_method(self):
        pytest.importorskip('matplotlib', reason='no matplotlib: apt-get install python3-matplotlib')
        super().setup_method()
        self.scenario, self.trace = self.put('run.txt', BY_HAND), self.put('run.trace', TRACE)

    def draw(self, ending, *words):
        path = os.path.join(self.folder, 'picture' + ending)
        return tool('plot', self.scenario, self.trace, '-o', path, *words, text=True), path

    def test_files_begin_as_their_kind_does(self):
        for ending, begin in (('.png', b'\x89PNG'), ('.svg', b'<?xml'), ('.pdf', b'%PDF')):
            done, path = self.draw(ending)
            assert (done.returncode, done.stderr) == (0, '')
            with open(path, 'rb') as file:
                assert file.read().startswith(begin)

    def test_words_that_are_refused(self):
        for ending, words, status, note in (('.gif', (), 2, '.png, .svg or .pdf'), ('.png', ('--flows', 'x'), 1, 'x'),
                                            ('.png', ('--links', 'f'), 1, 'f'), ('.png', ('--panels', 'cwnd'), 2, 'cwnd'),
                                            ('.png', ('--from', '2s', '--to', '1s'), 1, 'time'),
                                            ('.png', ('--beside', 'a', 'b', 'c'), 2, '--beside'),
                                            ('.png', ('--beside', 'no such'), 2, 'no such')):
            done, path = self.draw(ending, *words)
            assert done.returncode == status, done.stderr
            assert note in done.stderr
            assert not os.path.exists(path)

    def panels(self, *words):
        from tcpsim import plot
        given = plot.words_of([self.scenario, self.trace, '-o', 'x.png', *words])
        figure = plot.draw(plot.picture_of(given, read_run(self.scenario, self.trace)), given.panels, 'a title')
        axes = [a for a in figure.get_axes() if a.axison]
        return {a.get_title(loc='left'): a for a in axes}

    def test_panels_have_units_and_the_run(self):
        panels = self.panels()
        assert {title: axes.get_ylabel() for title, axes in panels.items()} == {'flow f: congestion window': 'kB', 'flow f: sequence numbers': 'byte number, kB',
                          'packets that wait in the queue': 'packets', 'delay in the queue of each packet sent': 'ms',
                          'utilization, in steps of 0.24 ms': '%'}
        curves = [[None if y != y else y for y in line.get_ydata()] for line in panels['flow f: congestion window'].lines]
        assert [4, 5, 6, 7, 7, 7, None, 2.5, 2.5] in curves             # the recovery from 8.28 to 11.36 ms is left to
        assert [None] * 6 + [5.5, 2.5, None] in curves                  # a thinner curve, which ends with it
        assert len([curve for curve in curves if len(curve) == 1 and curve[0] < 0]) == 2        # two losses, below the curves
        assert panels['flow f: sequence numbers'].get_xlabel() == 'time, ms'

    def test_panels_that_are_asked_for(self):
        assert list(self.panels('--panels', 'queue,window', '--links', 'b')) == \
            ['flow f: congestion window', 'packets that wait in the queue']

    def test_two_runs_in_the_same_panels(self):
        other = os.path.join(self.folder, 'other.txt')
        with open(other, 'w', encoding='ascii') as file:
            file.write(BY_HAND.replace('droptail 2', 'codel 2 1000000 9000000 1040', 1))
        from tcpsim import plot
        given = plot.words_of([self.scenario, self.trace, '--beside', other, self.trace, '--panels', 'delay,utilization',
                               '-o', 'x.png'])
        figure = plot.figure_of(given)
        delay, utilization = figure.get_axes()
        assert [text.get_text() for text in delay.get_legend().get_texts()] == ['run', 'other']
        waits = [list(line.get_ydata()) for line in delay.lines]
        assert waits[:2] == [[0, 1.04, 2.08, .04, 1.08, 1.08, 0]] * 2
        assert waits[2] == [1, 1]      # the target of the one that has it
        assert utilization.get_xlabel() == 'time, ms'

    def test_fewer_points_keep_the_extremes(self):
        from tcpsim import plot
        times = range(0, 10**6)
        values = [0] * 10**6
        values[123456], values[654321] = 77, -5
        kept = list(plot.steps(times, values, (0, 10**6))[1])
        assert len(kept) < 5000
        assert 77 in kept and -5 in kept

    def test_busy_parts(self):
        from tcpsim import plot
        edges, parts = plot.busy_parts(by_hand().links[0], (0, 12 * MS))
        assert math.isclose(sum(parts) * 12 / 50, 7 * 1.04)
        assert (len(edges), parts[0], parts[-1]) == (51, 1, 0)
