"""Tests of sums: `tcpsim-stalls --summary`, and of `tcpsim-flows` busy links, how long flows took, 95th percentiles."""
import csv

import pytest
from clone import csv_rows, example, paths, told
from tcpsim.engine import EngineRun
from tcpsim.figures import Figures, figures
from tcpsim.samples import percentile
from tcpsim.scenario.text import Scenario
from tcpsim.stalls import stalls_of
from tcpsim.traces.curves import read_run
from test_trace import BY_HAND, TRACE

S = 10**9


def lines_of(tool, *words):
    """What a tool prints."""
    return told(tool, *words).splitlines()


def read(name):
    """An example's scenario and the lines of its trace."""
    text, lines = example(name)
    return Scenario(text), lines


# ---- stalls by flow

def test_a_summary_by_hand():
    """Two timeouts in a row: one stall of 3.00308 s, since what was lost was left to the timer."""
    assert lines_of('stalls', *paths('two_timeouts_in_a_row'), '--summary') == [
        'flow  stalls  seconds  left to the timer', 'f          1    3.003         1 in 3.003', '1 stall longer than 200 ms']


def test_a_flow_that_never_stood_still_has_a_line():
    assert lines_of('stalls', *paths('one_segment'), '--summary') == [
        'flow  stalls  seconds', 'f          0    0.000', '0 stalls longer than 200 ms']


@pytest.mark.parametrize('name', ['parking_lot_of_three_routers', 'two_stalls_of_different_causes', 'lock_out_at_equal_times'])
def test_a_summary_is_the_sum_of_the_spans(name):
    scenario, lines = read(name)
    rows = stalls_of(scenario, lines)
    got = csv_rows(told('stalls', *paths(name), '--summary', '--csv'))
    assert [row['flow'] for row in got] == [flow.name for flow in scenario.flows]
    assert rows
    for its in got:
        own = [row for row in rows if row.flow == its['flow']]
        assert (int(its['stalls']), int(its['ns'])) == (len(own), sum(row.length for row in own))
        for column, value in list(its.items())[3:]:
            cause, _, what = column.partition(': ')
            found = [row.length for row in own if row.cause == cause]
            assert int(value) == (len(found) if what == 'stalls' else sum(found)), column
        assert sum(int(value) for column, value in its.items() if column.endswith(': ns')) == int(its['ns'])


def test_a_summary_of_one_flow_and_of_longer_spans():
    name = paths('parking_lot_of_three_routers')
    lines = lines_of('stalls', *name, '--summary', '--flow', 'fa', '--longer', '1s')
    assert [line.split()[0] for line in lines[1:-1]] == ['fa']
    assert lines[-1].endswith('longer than 1 s')


# ---- figures

def table_of(name, *words):
    """The CSV of tcpsim-flows: a value by what, name and figure."""
    return {tuple(row[:3]): row[4] for row in csv.reader(lines_of('flows', *paths(name), '--csv', *words))}


def test_took_is_from_start_to_completion():
    """Flow g of bufferbloat starts at 3 s and is done at 6.01 s."""
    rows = table_of('bufferbloat')
    assert int(rows['flow', 'g', 'completed']) - int(rows['flow', 'g', 'took']) == 3 * S
    assert rows['flow', 'f', 'took'] == rows['flow', 'f', 'completed']
    assert table_of('two_flows_share_fairly')['flow', 'fa', 'took'] == ''
    heading, = (line for line in lines_of('flows', *paths('bufferbloat')) if line.startswith('flow '))
    assert heading.split()[-4:] == ['took', 's', 'completed', 's']


@pytest.mark.parametrize('name', ['bufferbloat_with_codel', 'sawtooth_of_congestion_avoidance'])
def test_95th_percentiles(name):
    rows, run = table_of(name), read_run(*paths(name))
    for link in run.links:
        wanted = percentile(link.waits, 95)
        assert rows['link', link.link.name, '95th percentile of delay in the queue'] == ('' if wanted is None else str(wanted))
    for flow in run.flows:
        trips = [int(rows['flow', flow.flow.name, figure]) for figure in (
            'median round trip', '95th percentile of round trips', '99th percentile of round trips')]
        assert trips == sorted(trips)


def test_busy_links_are_those_where_packets_waited_or_were_dropped():
    """At a of the run by hand two packets were dropped; at b no acknowledgement waited."""
    run = Figures(Scenario(BY_HAND), TRACE.splitlines())
    assert [(link.link.name, link.is_busy()) for link in run.links] == [('a', True), ('b', False)]
    names = {name for what, name, *_ in figures(run, only_busy=True) if what == 'link'}
    assert names == {'a'}


@pytest.mark.parametrize('name', ['bufferbloat', 'parking_lot_of_three_routers'])
def test_a_busy_links_packets_waited_longer_than_one_takes(name):
    run, scenario_lines = read_run(*paths(name)), read(name)
    counted = Figures(scenario_lines[0], scenario_lines[1])
    for link, figures_of in zip(run.links, counted.links):
        longest = max((b - a for a, b in zip(link.busy_from, link.busy_to)), default=0)
        assert figures_of.is_busy() == (bool(link.drops) or max(link.waits, default=0) > longest), link.link.name
    assert {figures_of.is_busy() for figures_of in counted.links} == {True, False}


def test_busy_without_a_trace():
    """A queue in which a packet waited longer than 1,040 bytes take at 8 Mbit/s, one that did not, and one that dropped."""
    scenario = Scenario(BY_HAND)
    for delay, dropped, wanted in ((1_040_001, 0, True), (1_040_000, 0, False), (0, 1, True), (None, 0, False)):
        run = EngineRun.__new__(EngineRun)
        run.scenario = scenario
        run.links = [{('greatest delay in the queue', 'ns'): delay, ('dropped as lost', 'packets'): 0,
                      ('dropped as full', 'packets'): dropped, ('dropped by CoDel', 'packets'): 0}]
        assert run.is_busy(0) == wanted
