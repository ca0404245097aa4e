"""Tests of `tcpsim-flows --series` and tcpsim/traces/series.py. A small run's rows were worked out by hand; on every example and on
random scenarios the rows sum to the table that the model counts from its states (python/tcpsim_model/figures.py)."""
import random

import pytest

import clone
from clone import NAMES, Folder, paths, told, tool
from tcpsim import samples
from tcpsim.figures import Figures
from tcpsim.scenario.text import Scenario, Unreadable
from tcpsim.traces import series
from tcpsim_model import figures as model, simulate
from tcpsim_model.text import assemble
from test_engine import PAST_THE_LAST, drawn, with_traces
from test_figures import values_of
from test_trace import BY_HAND, TRACE

RANDOM = 80             # scenarios
HEADING = 'time,what,number,figure,unit,value'
MS = 10**6
STEPS = (7 * MS, 10 * MS, 33 * MS, 100 * MS, 250 * MS, 999_999_937, 1000 * MS, 3000 * MS)
# What is not summed: it is of a step's end, or of packets of the step alone.
AT_ITS_END, GREATEST, MEDIAN = ('cwnd', 'in flight'), 'greatest queue', 'median delay in the queue'


def steps_of(text, trace, step, begin=None):
    """Each step's begin, and its values by what, number, figure and unit, as words of a table."""
    run = series.Rows(Scenario(text), trace.splitlines(), step, begin)
    columns = [tuple(map(str, column)) for column in run.columns()]
    return [(it.begin, dict(zip(columns, (None if word == '-' else int(word) for word in it.values), strict=True)))
            for it in run.steps()]


def sums_to_its_table(text, trace, step, begin=0):
    """Answers the figures that were more than 0 in more than one step."""
    table = values_of(model.figures(assemble(text.encode()), begin))
    steps = steps_of(text, trace, step, begin)
    assert [time for time, _ in steps] == [begin + step * number for number in range(len(steps))]
    spread = set()
    for key in steps[0][1]:
        values = [of_step[key] for _, of_step in steps]
        if key[2] == GREATEST:
            assert max(values) == table[key], key
        elif key[2] == MEDIAN:
            assert len(steps) > 1 or values[0] == table[key], key
        elif key[2] not in AT_ITS_END:
            assert sum(values) == table[key], key
        if sum(bool(value) for value in values) > 1:
            spread.add((key[0], key[2]))
    for _, of_step in steps:
        for key, value in of_step.items():
            assert key[2] != 'busy' or value <= step, key
            assert key[2] != MEDIAN or (value is None) is (of_step[key[0], key[1], 'sent packets', 'packets'] == 0), key
    return spread


def test_examples_sum_to_their_tables():
    spread = set()
    for at, name in enumerate(NAMES):
        text, trace = map(clone.read_text, paths(name))
        spread |= sums_to_its_table(text, trace, STEPS[at % len(STEPS)])
        sums_to_its_table(text, trace, 10**15)
    assert {('flow', figure) for figure, _ in series.FLOW_FIGURES} | {('link', figure) for figure, _ in series.LINK_FIGURES} == spread


def test_random_scenarios_sum_to_their_tables():
    """From time 0, and from a moment on."""
    pick = random.Random(78)
    for _, text, trace in with_traces(drawn(78, RANDOM)):
        span = Figures(Scenario(text), trace.splitlines()).end
        step = 1 + span // pick.choice((1, 2, 3, 10, 40))
        sums_to_its_table(text, trace, step)
        sums_to_its_table(text, trace, step, pick.randrange(span))
        sums_to_its_table(text, trace, span)        # where each flow is complete, the last event is on the border


def test_a_link_that_sends_past_the_last_event():
    """The last event is at 1.04232 s; the link sends to 2.08 s, and the scenario ends at 2 s."""
    trace = ''.join(simulate.trace(assemble(PAST_THE_LAST.encode())))
    busy = [(time, of_step['link', '0', 'busy', 'ns']) for time, of_step in steps_of(PAST_THE_LAST, trace, 300 * MS)]
    assert busy == [(300 * MS * at, 200 * MS if at == 6 else 300 * MS) for at in range(7)]
    later = PAST_THE_LAST.replace('2000000000', '9000000000')
    trace = ''.join(simulate.trace(assemble(later.encode())))
    last = int(trace.splitlines()[-2].split()[1])
    assert [time for time, _ in steps_of(later, trace, 300 * MS)] == list(range(0, last + 1, 300 * MS))


def test_classes_are_those_of_the_table():
    pick = random.Random(3)
    classes = samples.Classes()
    for greatest in (1, 63, 64, 65, 128, 1000, 10**6, 10**13):
        numbers = [pick.randint(0, greatest) for _ in range(pick.randint(1, 200))]
        for number in numbers:
            classes.add(number)
        for percent in (50, 95, 99, 100):
            assert classes.percentile(percent) == model.percentile(numbers, percent)
        classes.clear()
        assert classes.percentile(50) is None


# test_trace.py has the account of this run. In steps of 4 ms link a is sending 4000 at the first border, from 3.12 to 4.16 ms.
# Its packets had waited 0, 1.04, 2.08 and 0.04 ms; 1.08 and 1.08; 0. Half of the first four are at most 0.04 ms, which is in
# the class from 39,936 to 40,959 ns. A packet waits to 4.12, two to 4.16, one to 5.2.
BY_STEP = '''flow,0,delivered,bytes: 2000 1000 4000
flow,0,sent,segments: 6 2 1
flow,0,sent again by fast retransmit,segments: 0 0 1
flow,0,sent again by timeout,segments: 0 0 0
flow,0,timeouts,times: 0 0 0
flow,0,cwnd,bytes: 5000 7000 2500
flow,0,in flight,bytes: 5000 5000 1000
link,0,busy,ns: 4000000 2240000 1040000
link,0,sent packets,packets: 4 2 1
link,0,sent bytes,bytes: 4160 2080 1040
link,0,dropped as lost,packets: 0 0 0
link,0,dropped as full,packets: 1 1 0
link,0,dropped by CoDel,packets: 0 0 0
link,0,waited,packet-ns: 4080000 1240000 0
link,0,greatest queue,packets: 2 2 0
link,0,median delay in the queue,ns: 40959 1080000 0
link,1,busy,ns: 80000 160000 40000
link,1,sent packets,packets: 2 4 1
link,1,sent bytes,bytes: 80 160 40
link,1,dropped as lost,packets: 0 0 0
link,1,dropped as full,packets: 0 0 0
link,1,dropped by CoDel,packets: 0 0 0
link,1,waited,packet-ns: 0 0 0
link,1,greatest queue,packets: 0 0 0
link,1,median delay in the queue,ns: 0 0 0
'''
ROWS = '\n'.join([HEADING, *(f'{4 * MS * step},{column},{values.split()[step]}' for step in range(3)
                                for column, values in (line.split(': ') for line in BY_STEP.splitlines())), ''])
LATER = BY_HAND.replace('sim 12000000', 'sim 20000000').replace('1000 8 0 64000 0', '1000 1 5000000 64000 0')


class TestRows(Folder):
    def setup_method(self):
        super().setup_method()
        self.scenario, self.trace = self.put('run.txt', BY_HAND), self.put('run.trace', TRACE)

    def rows(self, *words):
        heading, *rows = told('flows', *words).splitlines()
        assert heading == HEADING
        return [row.split(',') for row in rows]

    def times(self, *words):
        return sorted({int(row[0]) for row in self.rows(self.scenario, self.trace, *words)})

    def test_by_hand(self):
        assert tool('flows', self.scenario, self.trace, '--series', '4ms').stdout.decode() == ROWS

    def test_a_row_has_a_place_of_its_own(self):
        """So a frame that is pivoted has no value twice."""
        for name, step in (('four_flows_share_codel', '1s'), ('parking_lot_of_three_routers', '10ms')):
            rows = self.rows(*paths(name), '--series', step)
            assert len({tuple(row[:4]) for row in rows}) == len(rows) > 100
            assert all(len(row) == 6 for row in rows)
            columns = {tuple(row[1:4]) for row in rows}
            assert len(rows) == len(columns) * len({row[0] for row in rows})

    def test_a_last_step_that_is_shorter_and_steps_that_are_chosen(self):
        assert self.times('--series', '5ms') == [0, 5 * MS, 10 * MS]
        assert self.times('--series', '5ms', '--from', '1ms', '--to', '7ms') == [MS, 6 * MS]
        assert self.times('--series', '1ms', '--to', '3ms') == [0, MS, 2 * MS]
        assert self.times('--series', '400us', '--from', '9400us', '--to', '10ms') == [9_400_000, 9_800_000]    # without an event

    def test_steps_begin_at_0(self):
        """The flow starts at 5 ms, and is complete at 8.08 ms; before it starts it has no window."""
        path = self.put('later.txt', LATER)
        trace = self.put('later.trace', ''.join(simulate.trace(assemble(LATER.encode()))))
        rows = self.rows(path, trace, '--series', '2ms')
        assert [row[0] for row in rows if row[3] == 'cwnd'] == ['0', '2000000', '4000000', '6000000', '8000000']
        for figure, values in (('cwnd', '- - 4000 4000 5000'), ('in flight', '- - 1000 1000 0'), ('delivered', '0 0 0 1000 0'),
                               ('sent', '0 0 1 0 0')):
            assert [row[5] for row in rows if row[3] == figure] == values.split(), figure
        assert [row[5] for row in rows if row[2:4] == ['0', 'median delay in the queue']] == ['-', '-', '0', '-', '-']
        assert [row[5] for row in rows if row[2:4] == ['0', 'busy']] == ['0', '0', '1000000', '40000', '0']

    def test_idle_links_are_left_out(self):
        text = BY_HAND.replace('flow f', 'node p router\nlink c p s 8000000 1000000 droptail 2\nflow f')
        rows = self.rows(self.put('idle.txt', text), self.trace, '--series', '4ms')
        assert {row[2] for row in rows if row[1] == 'link'} == {'0', '1', '2'}
        busy = self.rows(self.put('idle.txt', text), self.trace, '--series', '4ms', '--busy')
        assert busy == [row for row in rows if row[1] == 'flow' or row[2] == '0']

    def test_a_cut_trace_as_far_as_it_goes(self):
        cut = self.put('cut', ''.join(TRACE.splitlines(True)[:11]))
        assert tool('flows', self.scenario, cut, '--series', '4ms').returncode == 1
        rows = self.rows(self.scenario, cut, '--series', '4ms', '--partial')
        assert [row[5] for row in rows if row[3] == 'delivered'] == ['2000', '1000']
        assert [row[5] for row in rows if row[2:4] == ['0', 'busy']] == ['4000000', '120000']

    def test_too_many_rows(self):
        """A step has 25 rows: 400,000 steps are the most, of 30 ns in 12 ms. Nothing is written."""
        done = tool('flows', self.scenario, self.trace, '--series', '1ns')
        assert (done.returncode, done.stdout, done.stderr.count(b'\n')) == (1, b'', 1)
        assert b'more than 10,000,000 rows: take a longer step' in done.stderr

    def test_the_most_rows(self, monkeypatch):
        monkeypatch.setattr(series, 'ROWS', 3 * 25)
        assert len(steps_of(BY_HAND, TRACE, 4 * MS)) == 3
        for step in (4 * MS - 1, 1):
            with pytest.raises(Unreadable, match='rows'):
                steps_of(BY_HAND, TRACE, step)
