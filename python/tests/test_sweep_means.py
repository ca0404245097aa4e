"""Tests of sweeps over replicates: means and intervals by hand, figures by name, from a moment on, resumed, and in Python."""
import hashlib
import math
import os
import signal
import stat
import subprocess
import sys

import pytest

import clone
import tcpsim
from clone import PROGRAM, TOP, csv_rows, tool_words, until
from tcpsim.cli import net
from tcpsim.command_line import Wrong
from tcpsim.program import format_of
from tcpsim.sweeps.columns import FLOW, FROM, LINK, RUN, columns_of
from tcpsim.sweeps.files import FIRST_LINE
from tcpsim.sweeps.means import mean_of, student
from tcpsim.sweeps.pattern import Pattern, settings_of
from tcpsim.sweeps.rows import AskedOfRun, Bench, Grid
from tcpsim.whole_trace import PROGRAMS
import test_trace

SWEEP = tool_words('sweep')
# One flow of eight segments over 8 Mbit/s for 12 ms, seven of which come in order with a queue of three: the goodput is
# 56,000 bits over the time from the start on. Two of nine are dropped with a queue of two, one of eight with three.
BY_HAND = test_trace.BY_HAND.replace('droptail 2', 'droptail 7')
STARTS = '--set', 'a.queue=droptail:2,3', '--over', 'f.start=0..2ms/500us'


@pytest.fixture
def hand(put):
    return put('hand.txt', BY_HAND)


def tool(*words, program=PROGRAM, **more):
    return clone.tool('sweep', *words, '--program', program, encoding='utf-8', **more)


# ---- means and their intervals

def test_a_mean_by_hand():
    """1, 2, 3, 4: the deviation is the root of 5/3, and t of 3 degrees of freedom 3.1824463; by the normal law, or with a value
    counted twice, it would be another."""
    mean, half, runs = mean_of([1, 2, 3, 4])
    assert (mean, runs) == (2.5, 4)
    assert half == pytest.approx(3.1824463 * math.sqrt(5 / 3) / 2, rel=1e-9)
    assert mean_of([7]) == (7, None, 1)
    assert mean_of([]) == (None, None, 0)


def test_students_t_is_that_of_scipy():
    stats = pytest.importorskip('scipy.stats', reason='no scipy: apt-get install python3-scipy')
    for freedom in (*range(1, 200), 999, 99_999):
        assert student(freedom) == pytest.approx(stats.t.ppf(.975, freedom), rel=1e-7)


def test_means_and_pairs_by_hand(hand, tmp_path):
    """Of three packets the goodputs are 56,000 bits in 12, 11.5, 11, 10.5 and 10 ms: 5.112095 Mbit/s in the mean, with a deviation
    of 369,010, and t of four degrees of freedom 2.7764451. Of two the last run is left to its timer, with 24,000 bits; so the
    differences are 0 four times and 3.2 Mbit/s."""
    file = str(tmp_path / 'rows.csv')
    done = tool(hand, *STARTS, '--show', 'f.goodput,a.dropped', '--pair', 'droptail:2,3', '--csv', '-o', file)
    assert done.returncode == 0, done.stderr
    two, three, pair = csv_rows(done.stdout)
    goodputs = [56e6 / time for time in (12, 11.5, 11, 10.5, 10)]
    mean = sum(goodputs) / 5
    assert float(three['f.goodput_bit_s_mean']) == pytest.approx(mean)
    assert float(three['f.goodput_bit_s_mean']) == pytest.approx(5112094.86)
    assert float(three['f.goodput_bit_s_half_width']) == pytest.approx(458186.476)
    assert [row['f.goodput_bit_s_runs'] for row in (two, three, pair)] == ['5', '5', '5']
    assert [float(row['a.dropped_mean']) for row in (two, three, pair)] == [2, 1, -1]
    assert (pair['a.queue'], pair['a.queue_packets']) == ('droptail:3 - droptail:2', '')
    assert float(pair['f.goodput_bit_s_mean']) == pytest.approx(640_000)
    assert float(pair['f.goodput_bit_s_half_width']) == pytest.approx(2.7764451 * 640_000)
    rows = csv_rows((tmp_path / 'rows.csv').read_text())
    assert [(row['a.queue'], row['f.start'], row['f.start_ns']) for row in rows] == [
        (queue, word, number) for queue in ('droptail:2', 'droptail:3')
        for word, number in (('0', '0'), ('500us', '500000'), ('1ms', '1000000'), ('1.5ms', '1500000'), ('2ms', '2000000'))]
    assert [float(row['f.goodput_bit_s']) for row in rows[5:]] == pytest.approx(goodputs)
    assert rows[7]['scenario_sha256'] == hashlib.sha256(
        BY_HAND.replace('droptail 7', 'droptail 3').replace('8 0 64000', '8 1000000 64000').encode()).hexdigest()[:16]


def test_table_of_means(hand):
    done = tool(hand, *STARTS, '--show', 'f.goodput,a.used,a.dropped', '--pair', 'droptail:2,3')
    assert done.stdout.splitlines() == [
        'means over f.start=0..2ms, ± 95 %',
        'a.queue                  runs  f.goodput Mbit/s     a.used %  a.dropped',
        'droptail:2                  5      4.472 ±1.471  66.46 ±5.96   2.0 ±0.0',
        'droptail:3                  5      5.112 ±0.458  66.46 ±5.96   1.0 ±0.0',
        'droptail:3 - droptail:2     5      0.640 ±1.777   0.00 ±0.00  -1.0 ±0.0']


def test_a_run_that_is_refused_is_in_no_mean(hand):
    """With a queue of seven all eight come in 8 * 1.04 + 1 + 0.04 + 1 ms, whenever the flow starts."""
    done = tool(hand, '--over', 'f.start=0,1ms,1s', '--show', 'f.goodput', '--csv')
    row, = csv_rows(done.stdout)
    assert (row['f.goodput_bit_s_runs'], row['status']) == ('2', '1 of 3 runs have no figures: refused L3 line 0')
    assert float(row['f.goodput_bit_s_mean']) == pytest.approx(64e6 / 10.36)
    assert done.returncode == 0


# ---- ranges

@pytest.mark.parametrize('word, values', [
    ('f.start=100ms..1.08s/20ms', [10**6 * n for n in range(100, 1081, 20)]), ('f.start=0..5ms/2ms,1s', [0, 2 * 10**6, 4 * 10**6, 10**9]),
    ('f.segments=1..4', [1, 2, 3, 4]), ('f.segments=10..30/10', [10, 20, 30]), ('a.rate=1M..3M/1M', [10**6, 2 * 10**6, 3 * 10**6]),
    ('f.mss=500..600/100', [500, 600]), ('a.lose=2..4', [(2,), (3,), (4,)]), ('end=1s..2s/500ms', [10**9, 1500 * 10**6, 2 * 10**9])])
def test_ranges(word, values):
    assert settings_of([word], Pattern(BY_HAND))[0].values == values
    assert len(settings_of([], Pattern(BY_HAND), ['f.start=100ms..1.08s/20ms'])[0].values) == 50


def test_ranges_of_queues():
    each, = settings_of(['a.queue=droptail:10..30/10,BDP,codel:5ms..15ms/5ms:100ms'], Pattern(BY_HAND))
    assert list(map(str, each.values)) == ['droptail:10', 'droptail:20', 'droptail:30', 'droptail:BDP', 'codel:5ms:100ms',
                                           'codel:10ms:100ms', 'codel:15ms:100ms']


@pytest.mark.parametrize('word, says', [
    ('f.start=1s..2s', 'without a step: write 1s..2s/STEP, as 100ms..1s/100ms'), ('f.start=2s..1s/1ms', 'ends before it begins'),
    ('f.start=1s..2s/0', 'a step of 0'), ('f.start=0..1s/1ns', '1,000,000,001 values'), ('f.start=0..1/1', 'no unit'),
    ('f.variant=newreno..reno', 'is a range, and variant has none'), ('f.start=0..2ms/1ms,1ms', 'twice'),
    ('f.segments=..4', 'no whole number'), ('a.queue=codel:5ms..6ms:100ms', 'without a step')])
def test_ranges_that_are_none(word, says):
    with pytest.raises(Wrong, match=says):
        settings_of([word], Pattern(BY_HAND))


# ---- figures by name

ADSL = net.scenario(['asymmetric', '--flows', '2', '--uploads', '1', '--up', '1M', '--down', '4M', '--queue', 'droptail:20', '--end', '3s',
                     '--segments', '300'])


def shown(*words, **more):
    done = tool(*words, '--csv', **more)
    assert done.returncode == 0, done.stderr
    return csv_rows(done.stdout)[0], done.stderr


def test_each_figure_is_that_of_the_trace(put):
    """What a table has is what its trace gives, but for the percentiles of waits, which are the greatest values of their classes."""
    file, number = put('adsl.txt', ADSL), format_of(PROGRAM)
    names = [(of, name, its) for of, sort in (('f2', FLOW), ('up', LINK), ('run', RUN)) for name, its in sort.items()
             if its.table and its.trace and its.since <= number]
    assert len(names) >= 22
    words = file, '--show', ','.join(f'{of}.{name}' for of, name, _ in names)
    table, said = shown(*words, '--engine')
    trace, _ = shown(*words, '--exact')
    assert 'trace' not in said
    for of, name, its in names:
        title = next(title for title in table if title == f'{of}.{name}' or title.startswith(f'{of}.{name}_{its.unit}'))
        one, other = (float(row[title]) if row[title] else None for row in (table, trace))
        assert one == other if one is None or not name.startswith('wait') else other <= one <= other * 33 / 32, (title, one, other)
    assert float(table['up.used_percent']) > 50 and float(table['up.full']) > 0


def test_sums_and_stars(put):
    row, _ = shown(put('adsl.txt', ADSL), '--show', '*.goodput,f0+f1.goodput,f0+f2.sent')
    assert list(row)[1:5] == ['f0.goodput_bit_s', 'f1.goodput_bit_s', 'f2.goodput_bit_s', 'f0+f1.goodput_bit_s']
    assert float(row['f0+f1.goodput_bit_s']) == pytest.approx(float(row['f0.goodput_bit_s']) + float(row['f1.goodput_bit_s']), abs=1e-5)
    assert len(columns_of('*.loss', Pattern(ADSL))) == len(Pattern(ADSL).named('flow') + Pattern(ADSL).named('link'))


@pytest.mark.parametrize('word, says', [
    ('f3.goodput', "no flow or link 'f3'; there are the flows f0, f1, f2 and the links down, up"), ('f0.used', "no figure 'used'; of a flow there are goodput"),
    ('up.goodput', "no figure 'goodput'; of a link there are used"), ('run.x', 'of the run there are goodput'), ('goodput', 'as f0.goodput'),
    ('f0+up.sent', 'a sum is of flows or of links'), ('f0+f1.rtt50', 'rtt50 does not add up; sums are of goodput'), ('isp.sent', "'isp'"),
    ('*.x', "no figure 'x'"), ('f0+f0.sent', 'each once'), ('', 'as f0.goodput'), ('f0.', 'as f0.goodput')])
def test_figures_that_are_none(word, says, put):
    done = tool(put('adsl.txt', ADSL), f'--show={word}')
    assert (done.returncode, done.stdout, done.stderr.count('\n')) == (2, '', 1) or not word
    assert says in done.stderr or not word


# ---- from a moment on: by `figures --from` where the program has it, and by traces where not

# A program that notes what it is asked, and has `figures --from` where PROGRAM has not: then it counts the trace.
STAND_IN = '''#!{python}
import os, subprocess, sys
with open({log!r}, 'a') as file:
    print(*sys.argv[1:], file=file)
if sys.argv[1:] == ['--version']:
    print('tcpsim 0.2.0 (trace 1, image 2, figures {number}, prompt 8)')
    sys.exit()
if '--from' not in sys.argv or {theirs} >= {least}:
    os.execv({program!r}, [{program!r}, *sys.argv[1:]])
sys.path.insert(0, {path!r})
from tcpsim import engine
from tcpsim.figures import Figures
from tcpsim.scenario.text import Scenario
from tcpsim.scenario.units import time
from tcpsim.sweeps.columns import dropped_for
scenario = Scenario(sys.stdin.read())
lines = subprocess.run([{program!r}, 'run'], input=scenario.text, capture_output=True, text=True, check=True).stdout.splitlines()
run = Figures(scenario, lines, time(sys.argv[sys.argv.index('--from') + 1]))
print(engine.HEADING)
def tell(what, number, names, values):
    for (figure, unit), _ in names:
        value = values.get((figure, unit), values.get(figure, 0))
        print(what, number, figure, unit, '-' if value is None else value, sep=',')
for n, flow in enumerate(run.flows):
    tell('flow', n, engine.OF_A_FLOW.items(), {{
        'start': flow.flow.start, 'delivered': flow.delivered(), 'completed': flow.completed, 'sent': flow.sent(), 'timeouts': flow.timeouts,
        'sent again by fast retransmit': flow.by_fast_retransmit, 'sent again by timeout': flow.by_timeout}})
for n, link in enumerate(run.links):
    size = sum(count * stream.size for stream, count in link.count.items())
    waits = {{f'{{which}} delay in the queue': run.waits[n].percentile(percent) for which, percent in (
        ('median', 50), ('95th percentile of', 95), ('99th percentile of', 99), ('greatest', 100))}}
    drops = {{f'dropped {{word}}': dropped_for(reason)(run, n) for word, reason in (('as lost', 'lost'), ('as full', 'full'), ('by CoDel', 'codel'))}}
    tell('link', n, engine.OF_A_LINK.items(), {{
        ('sent', 'packets'): link.sent(), ('sent', 'bytes'): size, 'sent packets': link.sent(), 'sent bytes': size,
        'busy': link.sending(scenario.end), 'greatest queue': link.greatest,
        'waited': link.summed(scenario.end) - link.before, **drops, **waits}})
last = int(lines[-2].split()[1])
tell('run', '', engine.OF_THE_RUN.items(), {{'events': len(lines) - 1, 'end': last}})
'''


def stand_in(put, tmp_path, number):
    text = STAND_IN.format(python=sys.executable, log=str(tmp_path / 'asked'), number=number, theirs=format_of(PROGRAM), least=FROM, program=PROGRAM,
                           path=os.path.join(clone.TOP, 'python'))
    return put('stand_in', text, 0o755)


def asked(tmp_path):
    return (tmp_path / 'asked').read_text().splitlines()


def alike(row):
    """A row but for who gave it."""
    return {name: value for name, value in row.items() if name not in ('options', 'program_sha256')}


def test_skip_goes_by_figures_from(put, tmp_path):
    """The rows are those of the traces, but for waits, and no trace is made; the version is asked once."""
    words = put('adsl.txt', ADSL), '--set', 'up.queue=droptail:5,codel:20ms:100ms', '--skip', '700ms'
    done = tool(*words, '--csv', program=stand_in(put, tmp_path, FROM))
    assert done.returncode == 0, done.stderr
    assert sorted(asked(tmp_path)) == ['--version', 'figures --from 700ms', 'figures --from 700ms']
    traces = csv_rows(tool(*words, '--csv', '--exact').stdout)
    for got, wanted in zip(csv_rows(done.stdout), traces, strict=True):
        assert got.pop('loss_percent') == ''
        assert float(wanted.pop('loss_percent')) > 0
        for name in ('wait_median_ns', 'wait_p99_ns'):
            assert int(wanted[name]) <= int(got.pop(name)) <= int(wanted.pop(name)) * 33 / 32
        assert alike(got) == alike(wanted)
        assert got['from_ns'] == '700000000'


def test_skip_goes_by_traces_where_the_program_has_no_from(put, tmp_path):
    words = put('adsl.txt', ADSL), '--set', 'up.queue=droptail:5,codel:20ms:100ms', '--skip', '700ms', '--csv'
    done = tool(*words, program=stand_in(put, tmp_path, 1))
    assert sorted(asked(tmp_path)) == ['--version', 'run', 'run']
    assert list(map(alike, csv_rows(done.stdout))) == list(map(alike, csv_rows(tool(*words, '--exact').stdout)))
    assert 'tcpsim-sweep: each run\'s trace is read, for goodput_bit_s' in done.stderr
    assert 'this program has no `figures --from`' in done.stderr
    done = tool(*words, '--show', 'f0.rtt50', program=stand_in(put, tmp_path, 1))
    assert (done.returncode, done.stdout) == (2, '')
    assert 'f0.rtt50: from 700ms on, and no trace has it' in done.stderr and 'prints `figures 1`' in done.stderr


def test_a_trace_is_read_only_where_a_column_needs_one(put, tmp_path):
    words = put('adsl.txt', ADSL), '--csv'
    program = stand_in(put, tmp_path, 2)
    done = tool(*words, program=program)
    assert (asked(tmp_path), 'trace' in done.stderr) == (['figures'], False)
    os.unlink(tmp_path / 'asked')
    done = tool(*words, '--show', 'f0.goodput,f0.loss', program=program)
    assert asked(tmp_path) == ['figures', 'run']
    assert done.stderr.splitlines()[0] == 'tcpsim-sweep: each run\'s trace is read, for f0.loss: no table has them'


def test_nothing_of_a_run_past_its_end(hand, put, tmp_path):
    for program in (PROGRAM, stand_in(put, tmp_path, 2)):
        row, = csv_rows(tool(hand, '--skip', '1s', '--csv', program=program).stdout)
        assert 'nothing of it is at or after 1 s' in row['status'] or row['goodput_bit_s'] == ''


# ---- resumed

def test_resume_runs_what_is_missing(hand, put, tmp_path):
    """A row that is cut, and one of a run that was ended, are run again, and the file is that of a whole sweep."""
    file, program = tmp_path / 'rows.csv', stand_in(put, tmp_path, 1)
    whole = tool(hand, *STARTS, '--csv', '-o', str(file), program=program)
    os.unlink(tmp_path / 'asked')
    text = file.read_text()
    lines = text.splitlines(True)
    cut = lines[4].split(',')
    for rest, count in ((lines[:4] + lines[7:9], 5), (lines[:3] + [lines[3][:20]], 8), (lines[:1], 10), (lines, 0),
                        (lines[:4] + [','.join([*cut[:4], 'the program was ended by signal 9', *[''] * (len(cut) - 9), *cut[-4:]])] + lines[5:], 1)):
        file.write_text(''.join(rest))
        done = tool(hand, *STARTS, '--csv', '--resume', str(file), program=program)
        assert (done.returncode, done.stdout) == (0, whole.stdout), done.stderr
        assert file.read_text() == text
        assert len(asked(tmp_path)) == count if count else not (tmp_path / 'asked').exists()
        assert not list(tmp_path.glob('rows.csv.*'))
        if count:
            os.unlink(tmp_path / 'asked')


def test_resume_of_another_sweep(hand, put, tmp_path):
    file = tmp_path / 'rows.csv'
    tool(hand, *STARTS, '-o', str(file))
    text = file.read_text()
    for words, says in (((hand, *STARTS, '--show', 'f.sent'), 'other columns'), ((hand, '--set', 'a.queue=droptail:2'), 'other columns'),
                        ((put('other.txt', BY_HAND.replace('1000 8', '1000 7')), *STARTS), 'another scenario'),
                        ((hand, *STARTS, '--skip', '1ms'), 'from another moment on')):
        done = tool(*words, '--resume', str(file))
        assert (done.returncode, done.stdout) == (2, '')
        assert says in done.stderr and 'give the words that it was made by' in done.stderr
        assert file.read_text() == text
    wider = tool(hand, '--set', 'a.queue=droptail:2,3,4', *STARTS[2:], '--resume', str(file))
    assert '10 of 15 runs have their row' in wider.stderr


# Ends only where the queue is one of two.
SLEEPS = f'''#!/bin/sh
if grep -q "droptail 2" < /dev/stdin
then exec "{PROGRAM}" "$@" < /dev/stdin
else exec sleep 100
fi
'''


def test_no_row_waits_for_a_run_behind_it(put, tmp_path):
    """Of runs that a worker was given at once those that have ended have their rows while the next one runs; whoever wants no more
    rows then has ended it."""
    program = put('program', SLEEPS, stat.S_IRWXU)
    settings = settings_of(['a.queue=droptail:2,3'], Pattern(BY_HAND), ['f.start=0..2ms/500us'])
    ran = Grid(Pattern(BY_HAND), settings, AskedOfRun(program, None, 0, ())).run(range(2, 10), Bench())
    rows = []
    while len(rows) < 3:
        rows += next(ran)
    assert [(number, row['status']) for number, row in rows] == [(2, 'done'), (3, 'done'), (4, 'done')]
    process, = PROGRAMS
    assert process.returncode is None
    ran.close()
    assert process.returncode == -signal.SIGKILL and not PROGRAMS


@pytest.mark.parametrize('jobs', ['1', '2'])
def test_interrupted_and_resumed(jobs, hand, put, tmp_path):
    """Of ten runs, five of which end by themselves, Ctrl-C behind four leaves whole rows of those that have ended, and nobody running;
    the same words with --resume go on with them."""
    program = put('program', SLEEPS, stat.S_IRWXU)
    file = tmp_path / 'rows.csv'
    process = subprocess.Popen([*SWEEP, hand, *STARTS, '-j', jobs, '-o', str(file), '--program', program],
                               stdout=subprocess.PIPE, stderr=subprocess.PIPE, text=True, start_new_session=True,
                               preexec_fn=lambda: signal.signal(signal.SIGINT, signal.default_int_handler))
    for _ in range(4):
        process.stderr.readline()
    process.send_signal(signal.SIGINT)
    said = process.communicate(timeout=60)
    assert process.returncode == 130, said
    until(lambda: not [line for line in clone.ran('ps', '-o', 'stat=', '-s', str(process.pid), text=True).stdout.splitlines()
                       if not line.startswith('Z')], 'something runs on')
    assert not file.exists()
    journal, = tmp_path.glob('rows.csv.*.part')
    there = csv_rows(journal.read_text().removeprefix(FIRST_LINE))
    assert 4 <= len(there) <= 5
    assert {row['status'] for row in there} == {'done'}
    program = put('program', f'#!/bin/sh\nexec "{PROGRAM}" "$@"\n', stat.S_IRWXU)
    assert 'program_sha256' in tool(hand, *STARTS, '--resume', str(file), program=program).stderr
    journal.write_text(journal.read_text().replace(there[0]['program_sha256'], clone.digest(program)))
    done = tool(hand, *STARTS, '--resume', str(file), program=program)
    assert f'{len(there)} of 10 runs have their row in' in done.stderr
    assert file.read_text() == tool(hand, *STARTS, '-o', '/dev/stdout', program=program).stdout.partition('means over')[0].replace(
        'figures of link a, ', '')
    assert not list(tmp_path.glob('rows.csv.*'))


# ---- pictures

def test_picture_of_means(hand):
    """A point for each queue where the means are, bars as wide as the intervals, and a pale point for each run."""
    pytest.importorskip('matplotlib', reason='no matplotlib: apt-get install python3-matplotlib')
    result = tcpsim.sweep(BY_HAND, {'a.queue': ['droptail:2', '3']}, over={'f.start': '0..2ms/500us'}, show='f.goodput,a.used', jobs=1,
                          engine=PROGRAM)
    axes, = result.plot().figure.axes
    assert list(axes.lines[0].get_xdata()) == pytest.approx([4.47209486, 5.11209486])
    assert list(axes.lines[0].get_ydata()) == pytest.approx([66.4572720] * 2)
    assert sorted(axes.lines[1].get_xdata()) == pytest.approx(sorted([56 / t for t in (12, 11.5, 11, 10.5)] * 2 + [5.6, 2.4]))
    bars = [[list(part[:, 0]) for part in lines.get_segments()] for lines in axes.collections]
    assert bars[0] == [pytest.approx([4.47209486 - 1.47100296, 4.47209486 + 1.47100296]), pytest.approx([4.653908386, 5.570281337])]
    assert [text.get_text() for text in axes.texts] == ['2', '3']


# ---- in Python

def test_python_gives_the_same_table(hand, tmp_path):
    result = tcpsim.sweep(hand, {'a.queue': ['droptail:2', '3']}, over={'f.start': '0..2ms/500us'}, pair=['droptail:2', '3'], jobs=1,
                          engine=PROGRAM)
    words = hand, *STARTS, '--pair', 'droptail:2,3', '-o', str(tmp_path / 'rows.csv')
    assert str(result) + '\n' == tool(*words).stdout
    result.save(tmp_path / 'mine.csv')
    assert (tmp_path / 'mine.csv').read_text() == (tmp_path / 'rows.csv').read_text()
    assert result.rows[6]['goodput_bit_s'] == pytest.approx(56e6 / 11.5)
    assert (result.rows[0]['a.queue'], result.rows[0]['a.queue_packets'], result.rows[0]['timeouts']) == ('droptail:2', 2, 0)
    assert result.means[1]['goodput_bit_s_half_width'] == pytest.approx(458186.476)
    assert result.pairs[0]['goodput_bit_s_mean'] == pytest.approx(640_000)
    assert '<td>droptail:3 - droptail:2</td>' in result._repr_html_()


def test_python_refuses(hand):
    for words, says in (({'show': 'x.sent'}, "no flow or link 'x'"), ({'skip': '5'}, 'skip'), ({'pair': 'droptail:2,7'}, 'pair'),
                        ({'settings': {'a.size': 1}}, "'size'"), ({'on': 'here'}, 'no engine')):
        with pytest.raises(tcpsim.Wrong, match=says):
            tcpsim.sweep(hand, **words, engine=PROGRAM)


def test_frames(hand):
    pytest.importorskip('pandas', reason='no pandas: apt-get install python3-pandas')
    result = tcpsim.sweep(hand, {'a.queue': ['droptail:2', '3']}, over={'f.start': ['0', '1ms']}, jobs=1, engine=PROGRAM)
    assert list(result.to_pandas()['a.queue_packets']) == [2, 2, 3, 3]
    assert list(result.means_to_pandas()['jain_runs']) == [2, 2]


def test_where_the_time_went():
    """The parts are those of tcpsim-time, for each value; the whole is what the flow took."""
    scenario = os.path.join(TOP, 'examples', 'two_timeouts_in_a_row.txt')
    names = ['queue', 'rto', 'delack', 'serialization', 'propagation']
    done = tool(scenario, '--set', 'a.lose=none,5,5+6', '--csv', '--show',
                ','.join(['f.took', 'f.time.total', *(f'f.time.{name}' for name in names)]))
    assert 'each run\'s trace is read, for f.time.total, f.time.queue' in done.stderr
    for row in csv_rows(done.stdout):
        assert row['f.took_ns'] == row['f.time.total_ns'] == str(sum(int(row[f'f.time.{name}_ns']) for name in names))
    assert int(row['f.time.rto_ns']) > .98 * int(row['f.took_ns'])
    for more, why in ((['--skip', '1s'], 'leave --skip out'), (['--engine'], '--engine reads no trace')):
        done = tool(scenario, '--show', 'f.time.rto', *more)
        assert done.returncode == 2 and why in done.stderr
