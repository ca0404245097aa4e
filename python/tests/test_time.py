"""Tests of tcpsim-time: its tables, its CSV, its paths and what it refuses. The paths themselves are in test_critical_path.py; files
that are no scenarios or traces are in test_ends.py and test_inputs.py."""
import functools
import html
import re
import subprocess

import pytest

import clone
from clone import NAMES, PROGRAM, TOP, csv_rows, example, paths, read_text
from tcpsim.breakdown import breakdowns
from tcpsim.critical_path import critical_paths
from tcpsim.scenario.text import Scenario

HEAD = 'flow,part,at,behind,doubled,ns,percent,alone'.split(',')
PATH_HEAD = 'flow,line,time,event,number,at,part,part at,behind,ns'.split(',')


told = functools.partial(clone.told, 'time')


def rows(*words):
    """The rows of its CSV."""
    return csv_rows(told(*words, '--csv'))


refused = functools.partial(clone.refusal, 'time')


def test_bufferbloat_is_told():
    text = told(paths('bufferbloat')[0], '--flow', 'g', '--program', PROGRAM)
    lines = text.splitlines()
    assert lines[0] == ('flow g: 3.012038400 s, from its start in line 4955 at 3.000000000 s to line 8583 at 6.012038400 s, where 10000 of '
                        '10000 bytes are acknowledged')
    assert [line.split(None, 3) for line in lines[1:7]] == [
        ['seconds', '%', 'alone', 'part'],
        ['2.839449600', '94.27', '0.000000000', 'queue of a, behind packets of f'],
        ['0.054000000', '1.79', '0.036000000', 'propagation on a'],
        ['0.054000000', '1.79', '0.036000000', 'propagation on b'],
        ['0.026067200', '0.87', '0.041350400', 'queue of a, behind its own packets'],
        ['0.024960000', '0.83', '0.016640000', 'serialization on a']]
    assert lines[-3].split(None, 3) == ['3.012038400', '100.00', '0.139225600', 'in all']
    assert lines[-2:] == ['3 round trips: 1 in slow start, 1 in fast recovery, 1 after a timeout',
                          'alone 0.139226 s, here 3.012038 s; 2.839450 s of it behind packets of f in the queue of a']


def test_two_timeouts_take_nearly_all():
    found = rows(*paths('two_timeouts_in_a_row'))
    timers = {row['doubled']: int(row['ns']) for row in found if row['part'] == 'retransmission timer'}
    assert timers == {'0': 10**9, '1': 2 * 10**9} and sum(timers.values()) / int(found[-1]['ns']) > .994
    text = told(*paths('two_timeouts_in_a_row'))
    assert 'timeout in line 26, 1 s after line 18 set the timer, not doubled: segment 4000 was dropped at a in line 6 (lost)\n' in text
    assert 'timeout in line 27, 2 s after line 26 set the timer, doubled once: segment 4000 was dropped at a in line 26 (lost)\n' in text
    assert '2 duplicates came: 3 of 5 segments behind it were lost too\n' in text and 'alone' not in text


@pytest.mark.parametrize('name', NAMES)
def test_tables_are_the_csv(name):
    """The parts of the CSV sum to the whole, and its percents to 100; the table of all flows and that of each part have the same
    seconds, the greatest first."""
    found, flows = rows(*paths(name)), {}
    assert list(found[0]) == HEAD and {row['alone'] for row in found} == {''}
    for row in found:
        flows.setdefault(row['flow'], []).append(row)
    assert list(flows) == re.findall(r'^flow (\S+)', example(name)[0], re.M)
    names = list(flows)
    tables = told(*paths(name), '--flow', ','.join(names)).split('\n\n')
    table = told(*paths(name)).splitlines() if len(names) > 1 else None
    for place, (flow, own) in enumerate(flows.items()):
        *parts, whole = own
        assert whole['part'] == 'whole' and sum(int(row['ns']) for row in parts) == int(whole['ns'])
        if not parts:
            assert tables[place].startswith(f'flow {flow}: 0 of ')
            continue
        assert sum(float(row['percent']) for row in parts) == pytest.approx(100, abs=1e-4)
        assert [int(row['ns']) for row in parts] == sorted((int(row['ns']) for row in parts), reverse=True)
        lines = tables[place].splitlines()
        assert [line.split()[0] for line in lines[2:3 + len(parts)]] == [f'{int(row["ns"]) / 1e9:.9f}' for row in own]
        if table:
            seconds = [float(word) for word in table[1 + place].split()[1:8]]
            assert table[1 + place].split()[0] == flow and seconds[0] == pytest.approx(int(whole['ns']) / 1e9, abs=1e-6)
            assert sum(seconds[1:]) == pytest.approx(seconds[0], abs=1e-5)


@pytest.mark.parametrize('name', [name for name in NAMES if len(example(name)[1]) < 3000])
def test_a_path_has_the_lines_of_the_trace(name):
    """Each event is the trace's line of its number: its time, its kind, its number; `tx` is an act of it. The spans of an event last
    from the one before it."""
    lines = example(name)[1]
    found = csv_rows(told(*paths(name), '--path', '--csv'))
    assert list(found[0]) == PATH_HEAD
    at = {}
    for row in found:
        words, flow = lines[int(row['line']) - 1].split(), row['flow']
        assert words[:2] == [row['line'], row['time']]
        kind = row['event'].removeprefix('tx ')
        if kind == row['event']:
            assert words[5] == kind and (kind not in ('data', 'ack') or words[7] == row['number'])
        else:
            assert any(re.fullmatch(rf'tx=\d+:\d+:{row["number"]}', word) for word in words)
        if row['event'] == 'start':
            at[flow] = int(row['time'])
        elif row['ns']:
            at[flow] += int(row['ns'])
            assert at[flow] <= int(row['time'])
    assert at == {flow: int(row['time']) for flow in at for row in found if row['flow'] == flow}
    text = told(*paths(name), '--path')
    assert [word for word in re.findall(r'^goto (\d+)', text, re.M)] == [row['line'] for place, row in enumerate(found)
                                                                       if place == 0 or row['line'] != found[place - 1]['line']]


def test_a_byte_and_several_flows():
    whole, part = (rows(*paths('bufferbloat'), '--flow', 'g,0', *more) for more in ((), ('--to', '999')))
    assert [row['flow'] for row in whole if row['part'] == 'whole'] == ['g', 'f']
    assert whole == rows(*paths('bufferbloat'), '--flow', 'g', '--flow', 'f')
    ends = [[int(row['ns']) for row in found if row['part'] == 'whole'] for found in (whole, part)]
    assert all(early < late for early, late in zip(*ends[::-1]))


def test_a_flow_that_is_not_complete_says_what_it_waits_for(tmp_path):
    cut = tmp_path / 'cut.trace'
    lines = example('two_timeouts_in_a_row')[1]
    for count, says in ((30, 'f: 4000 of 10000 bytes acknowledged; it waits for '), (1, 'flow f: 0 of 10000 bytes acknowledged; it waits for '
                                                                                        'segment 0, sent by a')):
        cut.write_text('\n'.join(lines[:count]) + '\n')
        assert says in told(paths('two_timeouts_in_a_row')[0], str(cut), '--partial')
    assert told(paths('two_timeouts_in_a_row')[0], str(cut), '--partial', '--path').splitlines()[2].startswith('goto 1 ')
    only, = rows(paths('two_timeouts_in_a_row')[0], str(cut), '--partial')
    assert (only['part'], only['ns'], only['percent']) == ('whole', '0', '')


def test_alone_is_run_where_it_is_asked_for(tmp_path):
    """Nothing is run where a trace is given, or a row is for each flow, unless it is asked for."""
    none = tmp_path / 'none'
    none.write_text('#!/bin/sh\nexit 7\n')
    none.chmod(0o755)
    words = [*paths('bufferbloat'), '--flow', 'g']
    assert ' alone ' not in told(*words, '--program', str(none))
    assert refused(*words, '--alone', '--program', str(none)) == (1, 'the program ended with status 7')
    asked = rows(*words, '--alone', '--program', PROGRAM)
    assert asked == rows(words[0], '--flow', 'g', '--program', PROGRAM) and asked[-1]['alone'] == '139225600'
    assert {row['alone'] for row in rows(words[0], '--flow', 'g', '--no-alone', '--program', PROGRAM)} == {''}
    assert ' alone ' in told(words[0], '--alone', '--program', PROGRAM).splitlines()[0]
    assert ' alone ' not in told(words[0], '--program', PROGRAM).splitlines()[0]


def test_refusals():
    scenario, trace = paths('bufferbloat')
    other = paths('one_segment')[0]
    assert refused(scenario, trace, '--flow', 'x') == (2, 'the scenario has no flow x; it has f, g')
    assert refused(scenario, trace, '--flow', 'g', '--to', '10000') == (1, 'flow g has the bytes 0 to 9999, and not 10000')
    assert refused(scenario, trace, '--to', '-1')[0] == 2
    assert refused(other, trace)[0] == 1 and refused(scenario, other)[0] == 1
    assert refused(scenario, trace, other) == (2, 'one SCENARIO and its TRACE at most; with --plot several')
    assert refused(scenario, '--plot', 'a.gif') == (2, '--plot a.gif: the name ends with .png, .svg or .pdf')
    assert refused(scenario, '--plot', 'a.png', '--csv') == (2, '--plot draws a picture alone: it goes without -o, --csv, --path and --alone')
    assert refused('-', '-', '--plot', 'a.png')[0] == 2
    assert refused() == (2, 'the following arguments are required: SCENARIO [TRACE]')


def test_the_page_shows_what_is_told():
    """Each command of docs/TIME.md and of the tutorial that has an answer below it; `..` stands for lines that are left out."""
    pages = read_text('docs', 'TIME.md') + read_text('docs', 'TUTORIAL.md')
    shown = re.findall(r'^```\n\$ (bin/tcpsim-time .*)\n((?:.*\n)+?)```$', pages, re.M)
    assert len(shown) == 3
    for command, text in shown:
        done = subprocess.run(['sh', '-c', f'{command} --program {PROGRAM}' if '|' not in command else command], cwd=TOP, check=True,
                              capture_output=True, text=True)
        pattern = re.escape(text).replace(re.escape('..\n'), r'(?:.*\n)+')
        assert re.fullmatch(pattern, done.stdout), done.stdout


# ---- pictures

def breakdowns_of(name):
    """The flows of an example with their parts, by its trace."""
    text, lines = example(name)
    scenario = Scenario(text)
    return breakdowns(critical_paths(scenario, iter(lines)), range(len(scenario.flows)), None)


@pytest.mark.parametrize('name', NAMES)
def test_a_bar_has_the_parts(name):
    """Its pieces follow each other without a gap, each look has the sum of its parts, and none is finer than can be seen but as a
    part of a span that is as long."""
    bars = pytest.importorskip('tcpsim.plot.bars', reason='no matplotlib')
    for each in breakdowns_of(name):
        for finest in (0, each.path.time // 100):
            pieces = bars.pieces(each, each.flows, finest) if each.path.acknowledged else []
            at, sums = 0, {}
            for look, begin, ns in pieces:
                assert begin == at and ns > 0
                at += ns
                sums[look] = sums.get(look, 0) + ns
            wanted = {}
            for part, ns in each.path.parts().items():
                look = bars.look_of(part, each.flows, each.name)
                wanted[look] = wanted.get(look, 0) + ns
            assert at == each.path.time and sums == wanted
            assert set(wanted) <= set(bars.all_looks(each.flows))
        assert len(pieces) <= 101 * len(wanted)


def test_the_picture_of_the_page_is_what_is_drawn_anew():
    pytest.importorskip('matplotlib')
    import pictures
    from tcpsim import plot
    for name in pictures.BARS:
        stored = re.search(r'<dc:description>(.*?)</dc:description>', read_text(pictures.file_of(name)), re.S)
        assert html.unescape(stored[1]).splitlines() == plot.drawn(pictures.bars_of(name))
        assert f'pictures/{name}.svg' in read_text('docs', 'TIME.md')


def test_bars_of_two_scenarios_have_one_scale(tmp_path):
    pytest.importorskip('matplotlib')
    for ending in ('svg', 'png', 'pdf'):
        file = tmp_path / f'a.{ending}'
        assert told(*paths('bufferbloat'), *paths('bufferbloat_with_codel'), '--flow', 'g', '--plot', str(file)) == '' and file.stat().st_size > 2000
    text = (tmp_path / 'a.svg').read_text()
    assert 'Where the time went | x 0 to 3.01204 ' in text and 'queue, behind packets of f; queue, behind packets of g; ' in text
    for words in (re.escape("'3.01 s'"), re.escape("'187 ms'")):
        assert re.search(words, html.unescape(text))
    scenario, trace = tmp_path / 's.txt', tmp_path / 's.svg'
    scenario.write_text(example('one_segment')[0])
    trace.write_text('\n'.join(example('one_segment')[1]) + '\n')
    assert 'read' in refused(str(scenario), str(trace), '--plot', str(trace))[1] and trace.read_text().startswith('1 0 ')
