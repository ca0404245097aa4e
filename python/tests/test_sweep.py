"""Tests of tcpsim-sweep: its rows against a run worked out by hand and against tcpsim-flows's figures of each run. Programs that
fail, full disks and pipes are in test_ends.py.
"""
import glob
import hashlib
import html
import importlib.util
import os
import re
import shlex
import signal
import stat
import subprocess
import sys
import tempfile
import threading
import time
from multiprocessing import Pipe, get_context

import pytest

import clone
from clone import BIN, PROGRAM, TOP, csv_rows, paths, read, read_text
from tcpsim.cli import net as command
from tcpsim.program import format_of
from tcpsim.sweeps import pattern as sweep
from tcpsim.sweeps import pool
from tcpsim.sweeps.columns import FROM, columns_of
from tcpsim.sweeps.files import FIRST_LINE
from tcpsim.sweeps.look import look_of
from tcpsim.sweeps.rows import AskedOfRun, Grid

SWEEP = os.path.join(BIN, 'tcpsim-sweep')
DIR = tempfile.TemporaryDirectory()

# One flow of eight segments; the way of each packet is in test_trace.py. Link a takes 1.04 ms for each of seven packets
# in 12 ms, and two of nine segments find its queue of two full. Of 0, 1.04, 2.08, 0.04, 1.08, 1.08 and 0 ms of waiting
# the median is 1.04, whose class ends with 2^20 - 1 ns, and the greatest 2.08. Seven segments came in order.
BY_HAND = '''sim 12000000
node s sender
node r receiver
link a s r 8000000 1000000 droptail 7   # the data's
link b r s 8000000 1000000 droptail 10
flow f s r 1000 8 0 64000 0
'''
ROW = {'a.queue': 'droptail:2', 'a.queue_packets': '2', 'status': 'done', 'link': 'a', 'goodput_bit_s': f'{7000 * 8 / .012:.6f}',
       'utilization': f'{7 * 1.04 / 12:.6f}', 'wait_median_ns': str(2**20 - 1), 'wait_p99_ns': '2080000',
       'loss_percent': f'{200 / 9:.6f}', 'timeouts': '0', 'jain': '1.000000', 'jain_flows': '1', 'from_ns': '0',
       'scenario_sha256': hashlib.sha256(BY_HAND.replace('droptail 7 ', 'droptail 2').encode()).hexdigest()[:16],
       'options': '--link a', 'program_sha256': clone.digest(PROGRAM)}


def path(name, text=None):
    where = os.path.join(DIR.name, name)
    if text is not None:
        with open(where, 'w', encoding='latin-1', newline='') as file:
            file.write(text)
    return where


def tool(*words, program=True, script=SWEEP, **more):
    return clone.ran(sys.executable, script, *words, *(['--program', PROGRAM] if program else []), encoding='utf-8', **more)


def flows_figures(text, *options):
    """What tcpsim-flows tells of a run, {(what, name, figure): value}, by its own command line."""
    scenario, trace = path('one.txt', text), path('one.trace', clone.outcome(['run'], text.encode())[2].decode())
    done = clone.tool('flows', scenario, trace, '--csv', *options, text=True)
    return {(row['what'], row['name'], row['figure']): row['value'] for row in csv_rows(done.stdout)}


FOUR = command.scenario(['dumbbell', '--flows', '4', '--rate', '2M', '--rtt', '40ms,70ms', '--start', '0,300ms', '--segments',
                     '1000', '--rwnd', '60000', '--end', '4s'])
NET = command.scenario(['dumbbell', '--flows', '2', '--rate=2M', '--rtt', '40ms', '--end', '2s'])


# ---- the rows' figures


def test_by_hand():
    done = tool(path('hand.txt', BY_HAND), '--set', 'a.queue=droptail:2', '--csv')
    assert csv_rows(done.stdout) == [ROW]
    assert done.returncode == 0
    assert len(done.stderr.splitlines()) == 1
    assert done.stderr.startswith('1 of 1 runs'), done.stderr
    done = tool(path('hand.txt', BY_HAND), '--set', 'a.queue=droptail:2', '--csv', '--exact')
    assert csv_rows(done.stdout) == [{**ROW, 'wait_median_ns': '1040000', 'options': '--link a --exact'}]


def grid_of(text, sets):
    pattern = sweep.Pattern(text)
    return Grid(pattern, sweep.settings_of(sets, pattern), AskedOfRun('', 'pq', 0, ()))


@pytest.mark.parametrize('mine, theirs', [((), ()), (('--skip', '1.5s'), ('--from', '1.5s'))])
def test_equal_flows(mine, theirs):
    """Each row of a grid that is read from traces has the figures that tcpsim-flows has, also from a moment on."""
    sets = ['--set', 'pq.queue=droptail:5,40,BDP,codel:5ms:100ms', '--set', 'pq+qp.delay=10ms,50ms']
    done = tool(path('four.txt', FOUR), *sets, '--csv', '--exact', '-j', '2', *mine)
    rows = csv_rows(done.stdout)
    assert [(row['pq.queue'], row['pq+qp.delay'], row['status'], row['link']) for row in rows] == [(queue, delay, 'done', 'pq') for queue in ('droptail:5', 'droptail:40', 'droptail:BDP',
                                                                 'codel:5ms:100ms') for delay in ('10ms', '50ms')]
    grid = grid_of(FOUR, sets[1::2])
    for number, row in enumerate(rows):
        _equal(row, flows_figures(grid.text(number), *theirs))


def _equal(row, figures):
    assert row['utilization'] == figures['link', 'pq', 'utilization']
    assert row['wait_median_ns'] == figures['link', 'pq', 'median delay in the queue']
    assert row['wait_p99_ns'] == figures['link', 'pq', '99th percentile of delay in the queue']
    assert row['jain'] == figures['run', '', 'Jain\'s index of goodput']

    def total(*wanted):
        return sum(int(value) for (what, _, figure), value in figures.items() if what == 'flow' and
                   any(figure.startswith(begin) for begin in wanted))
    assert row['timeouts'] == str(total('timeouts'))
    sent = sum(int(value) for (what, _, figure), value in figures.items() if what == 'flow' and figure == 'sent')
    assert row['loss_percent'] == f'{100 * total("data dropped as ") / sent:.6f}'
    span = int(figures['run', '', 'span'])
    assert row['goodput_bit_s'] == f'{total("delivered") * 8e9 / span:.6f}'


def test_same_rows_on_any_number_of_workers():
    words = path('four.txt', FOUR), '--set', 'pq.queue=droptail:5,0,40', '--set', '*.segments=10,20'
    outputs = [tool(*words, '-j', jobs, '-o', path('rows.csv')) for jobs in '123']
    assert len({done.stdout for done in outputs}) == 1
    assert read_text(path('rows.csv')) == tool(*words, '--csv').stdout


def test_refused():
    """A run that is refused is a row that says so."""
    done = tool(path('hand.txt', BY_HAND), '--set', 'a.queue=droptail:2,0', '--set', 'end=12ms,0', '--csv', '-j', '1')
    rows = csv_rows(done.stdout)
    assert [row['status'] for row in rows] == ['done', 'refused E5 line 1', 'refused E5 line 4',
                                                       'refused E5 line 1']
    assert {key: rows[0][key] for key in ROW} == ROW
    digest = rows[1].pop('scenario_sha256')
    assert (len(digest), set(rows[1].values())) == (16, {'droptail:2', '2', '0', 'refused E5 line 1', '', '--link a', ROW['program_sha256']})
    assert done.returncode == 0
    assert '4 of 4 runs, 3 without figures' in done.stderr
    table = tool(path('hand.txt', BY_HAND), '--set', 'a.queue=droptail:2,0').stdout
    assert 'a.queue=droptail:0: refused E5 line 4\n' in table


def test_a_target_above_the_interval_is_warned_of():
    """By the sentence of tcpsim-net, once."""
    done = tool(path('order.txt', BY_HAND), '--set', 'a.queue=codel:100ms:5ms,codel:5ms:100ms')
    warned = 'tcpsim-sweep: codel:100ms:5ms has a target above its interval: the order is codel:TARGET:INTERVAL'
    assert done.returncode == 0 and done.stderr.splitlines().count(warned) == 1 == done.stderr.count(' above ')


def test_over_before():
    done = tool(path('hand.txt', BY_HAND), '--skip', '1s', '--csv')
    assert 'nothing of it is at or after 1 s' in csv_rows(done.stdout)[0]['status']


def test_busiest_link_and_links_by_name():
    text = command.scenario(['chain', '--hops', '3', '--rate', '4M,1M,2M', '--segments', '30', '--rwnd', '30000'])
    assert csv_rows(tool(path('chain.txt', text), '--csv').stdout)[0]['link'] == 'p1p2'
    done = tool(path('chain.txt', text), '--csv', '--set', 'p1p2.rate=1M', '--link', 'p0p1')
    assert csv_rows(done.stdout)[0]['link'] == 'p0p1'


def test_image(put):
    image = clone.outcome(['asm'], BY_HAND.encode())[2]
    done = tool(put('hand.tcb', image), '--set', 'l0.queue=droptail:2', '--csv')
    assert list(csv_rows(done.stdout)[0].values())[4:-3] == list(ROW.values())[4:-3]
    done = tool(put('hand.tcb', image[:-1]), '--set', 'l0.queue=droptail:2')
    assert (done.returncode, done.stdout, len(done.stderr.splitlines())) == (2, '', 1)
    assert 'refused L1' in done.stderr


class TestTables:
    """Rows with no trace, by the program where it is there, else by the model."""

    def rows(self, *words):
        done = tool(*words, '--csv', '--program', PROGRAM, program=False)
        assert done.returncode == 0, done.stderr
        return csv_rows(done.stdout)

    def test_rows_are_those_of_traces(self):
        """But for waits, which are the greatest values of their classes."""
        words = (path('four.txt', FOUR), '--set', 'pq.queue=droptail:5,40,codel:5ms:100ms', '--set', 'end=1s,4s')
        for got, wanted in zip(self.rows(*words), self.rows(*words, '--exact'), strict=True):
            for name in ('wait_median_ns', 'wait_p99_ns'):
                one, other = int(got.pop(name)), int(wanted.pop(name))
                assert other <= one <= other * 33 / 32, (name, one, other)
            assert got == {**wanted, 'options': '--link pq'}

    def test_loss_where_acknowledgements_are_dropped_too(self):
        """Acknowledgements alone at b are no segments; where both are dropped at one link it is not told."""
        text = BY_HAND.replace('12000000', '2000000000') + 'lose b 2\n'
        got, = self.rows(path('hand.txt', text), '--set', 'a.queue=droptail:2')
        wanted, = self.rows(path('hand.txt', text), '--set', 'a.queue=droptail:2', '--exact')
        assert got['loss_percent'] == wanted['loss_percent']
        got = self.rows(paths('acks_share_the_bottleneck')[0], '--set', 'pq.queue=droptail:2,1000', '--link', 'pq')
        assert [row['status'] for row in got] == ['done', 'done']
        assert got[0]['loss_percent'] == ''

    def test_refusals(self):
        got = self.rows(path('hand.txt', BY_HAND), '--set', 'a.rate=1k,10', '--engine')
        assert [row['status'] for row in got] == ['done', 'refused E5 line 4']
        done = tool(path('hand.txt', BY_HAND), '--engine', '--show', 'f.loss')
        assert (done.returncode, done.stderr) == (2, 'tcpsim-sweep: --engine reads no trace, and f.loss wants one: leave --engine out\n')


# ---- the texts of a grid


def text(base, *sets):
    pattern = sweep.Pattern(base)
    settings = sweep.settings_of(sets, pattern)
    return pattern.point(settings, [each.values[0] for each in settings])


def test_words():
    """One line changes, and keeps its comment."""
    for given, line, changed in (
            ('a.queue=codel:5ms:100ms', 4, 'link a s r 8000000 1000000 codel 1000 5000000 100000000 1040  # the data\'s'),
            ('a.queue=codel:5ms:100ms:9', 4, 'link a s r 8000000 1000000 codel 9 5000000 100000000 1040  # the data\'s'),
            ('a.queue=codel:5ms:100ms:9:3k', 4, 'link a s r 8000000 1000000 codel 9 5000000 100000000 3000  # the data\'s'),
            ('a.rate=1.5M', 4, 'link a s r 1500000 1000000 droptail 7  # the data\'s'),
            ('b.delay=20ms', 5, 'link b r s 8000000 20000000 droptail 10'), ('end=2s', 1, 'sim 2000000000'),
            # 8 Mbit/s times 2 ms are 2,000 bytes: one packet of 1,040
            ('a.queue=droptail:BDP', 4, 'link a s r 8000000 1000000 droptail 1  # the data\'s'),
            ('f.mss=500', 6, 'flow f s r 500 8 0 64000 0'), ('*.segments=9', 6, 'flow f s r 1000 9 0 64000 0'),
            ('f.start=1ms', 6, 'flow f s r 1000 8 1000000 64000 0'), ('f.rwnd=9k', 6, 'flow f s r 1000 8 0 9000 0'),
            ('f.delack=40ms', 6, 'flow f s r 1000 8 0 64000 40000000')):
        lines = BY_HAND.split('\n')
        lines[line - 1] = changed
        assert text(BY_HAND, given) == '\n'.join(lines)


def test_product_is_that_of_the_point():
    """8 Mbit/s times 2 * 40 ms are 80,000 bytes, 76 packets of 1,040; with 500 bytes of a segment 148 of 540."""
    for sets, limit in ((('a.queue=droptail:BDP', 'a+b.delay=40ms'), 76),
                        (('a+b.delay=40ms', 'a.queue=droptail:BDP'), 76),
                        (('a+b.delay=40ms', 'a.queue=droptail:BDP', 'a.rate=16M'), 153),
                        (('a+b.delay=40ms', 'a.queue=droptail:BDP', 'f.mss=500'), 148)):
        assert f' droptail {limit}  # the data' in text(BY_HAND, *sets)


def test_codel_packet_is_that_of_the_point():
    assert 'codel 1000 1000000 2000000 540' in text(BY_HAND, 'a.queue=codel:1ms:2ms', 'f.mss=500')


def test_losses():
    """What a link loses stands in the place of what it lost, and lines keep their numbers."""
    given = BY_HAND.replace('flow f', 'lose a 3  # one\nflow f') + 'lose a 4\nlose b 2\n'
    empty = BY_HAND.replace('flow f', '\nflow f') + '\nlose b 2\n'
    for losses, lines in (('5', 'lose a 5\n'), ('7+5', 'lose a 5\nlose a 7\n'), ('none', '')):
        assert text(given, f'a.lose={losses}') == empty + lines
        assert text(BY_HAND.rstrip('\n'), f'a.lose={losses}') == (BY_HAND + lines).rstrip('\n')


def test_by_hand_way():
    """The texts are those that sed makes in docs/SWEEPS.md."""
    base = clone.example('four_flows_share_a_long_queue')[0]
    made = text(base, 'end=60s', 'pq+qp.rate=2M', 'pq+qp.delay=20ms', 'pq.queue=codel:5ms:100ms')
    lines = []
    for line in base.split('\n'):
        words = line.split(' ')
        line = 'sim 60000000000' if words[0] == 'sim' else line
        line = 'link pq p q 2000000 20000000 codel 1000 5000000 100000000 1040' if words[:2] == ['link', 'pq'] else line
        lines.append('link qp q p 2000000 20000000 droptail 1000' if words[:2] == ['link', 'qp'] else line)
    assert made.split('\n') == lines


# ---- docs/SWEEPS.md: a command with its output behind it gives this output, and the picture that is shown


def test_outputs_and_pictures():
    """What a program has to have `figures --from` for is tried where it has that."""
    blocks = re.findall('^```\n(.*?)^```', read_text('docs', 'SWEEPS.md'), re.S | re.M)
    shown = [(command, output) for command, output in zip(blocks, blocks[1:])
             if command.startswith(('bin/tcpsim-sweep ', 'bin/tcpsim-find ')) and not output.startswith(('bin/', 'rm '))]
    assert len(shown) >= 2
    for net in (block for block in blocks if block.startswith('bin/tcpsim-net ')):
        subprocess.run(['sh', '-c', net.replace('/tmp/', DIR.name + '/')], cwd=TOP, check=True)
    pictures = []
    for line, output in shown:
        script, *words = shlex.split(line.replace('\\\n', '').replace('/tmp/', DIR.name + '/'))
        if '--skip' in words and format_of(PROGRAM) < FROM or 'tcpsim-find' in script and PROGRAM == clone.MODEL:
            continue            # the latter would take the model some minutes
        if '--plot' in words and not importlib.util.find_spec('matplotlib'):
            del words[words.index('--plot'):]
        done = tool(*words, script=script, cwd=TOP)
        assert (done.returncode, done.stdout) == (0, output)
        pictures += words[words.index('--plot') + 1:][:1] if '--plot' in words else []
    for picture in pictures:
        assert description(picture) == description(os.path.join(TOP, 'docs', 'pictures', os.path.basename(picture)))


def plot_sweep():
    """What draws a sweep, where matplotlib is there."""
    from tcpsim.plot import sweep as drawn
    return drawn


def description(svg):
    """What a picture shows, a line for the data of each artist."""
    lines = html.unescape(re.search('<dc:description>(.*?)</dc:description>', read_text(svg), re.S)[1]).splitlines()
    if len(lines) < 10:
        raise ValueError(f'{svg} says little: {lines}')
    return lines


# ---- scenarios and a list of jobs, and their rows


def test_print_run_gather():
    folder, words = path('a job\'s folder'), (path('four.txt', FOUR), '--set', 'pq.queue=droptail:5,0', '--set',
                                              'end=1s,2s')
    done = tool(*words, '--print', folder)
    assert (done.returncode, done.stderr) == (0, '')
    names = sorted(os.listdir(folder))
    assert names == ['1_droptail-5_1s.txt', '2_droptail-5_2s.txt', '3_droptail-0_1s.txt', '4_droptail-0_2s.txt',
                             'grid.csv', 'jobs', 'sweep.json']
    waiting = csv_rows(tool('--gather', folder, '--csv', program=False).stdout)
    assert [row['status'] for row in waiting] == ['not run'] * 4
    jobs = read_text(folder, 'jobs').splitlines()
    assert len(jobs) == 4
    for job in jobs:
        subprocess.run(['sh', '-c', job], check=True, capture_output=True)
    gathered = tool('--gather', folder, '--csv', '-o', path('gathered.csv'), program=False)
    assert (gathered.stdout, gathered.stderr) == (tool(*words, '--csv').stdout, '')
    assert read_text(path('gathered.csv')) == gathered.stdout


class TestWrongWords:
    """Each gets one sentence, and nothing is run."""

    CASES = {
        '': (2, 'SCENARIO'), 'hand --set a.queue': (2, 'no value'), 'hand --set a.queue=': (2, 'no value'),
        'hand --set queue=droptail:5': (2, 'LINK.FIELD'), 'hand --set a.queue=5': (2, "'5' is no queue"),
        'hand --set a.size=5': (2, "'size'"), 'hand --set x.queue=droptail:5': (2, 'only a, b'),
        'hand --set f.queue=droptail:5': (2, "no link 'f'"), 'hand --set a.rate=8Mbps': (2, '8Mbps'),
        'hand --set a.delay=10': (2, "'10'"), 'hand --set a.delay=1ms --set a+b.delay=2ms': (2, 'a.delay twice'),
        'hand --set a.delay=1ms,1000us': (2, 'twice'), 'hand --set a.lose=5+5': (2, 'twice'),
        'hand --set a.lose=5,x': (2, "'x'"), 'hand --set f.lose=5': (2, "no link 'f'"), 'hand --set a.lose': (2, 'none,5,5+6'),
        'hand --set end=1s,': (2, "''"), 'hand --link s': (2, "'s'"),
        'hand --skip 5': (2, '--skip'), 'hand --skip 12ms --set a.queue=droptail:1': (2, 'the scenario ends at 12ms, and nothing of it is later'),
        'hand --settled --print x': (2, '--settled'), 'hand -j 0': (2, '-j'), 'hand -j x': (2, 'x'), 'hand --foo': (2, '--foo'),
        'hand --plot s.doc': (2, '.svg'), 'missing': (2, 'missing'), '.': (1, 'irectory'), 'empty': (2, 'no scenario'),
        'picture': (2, 'no scenario'), 'hand -o /nowhere/s.csv': (2, '/nowhere/s.csv'), 'hand --print /dev/null/x': (1, 'x'),
        'hand --print x -o y': (2, '--print'), '--gather .': (2, 'sweep.json'), '--gather . --set a.queue=droptail:5': (2, '--gather'),
        'hand --gather .': (2, 'SCENARIO'),
    }

    def test_cases(self):
        path('hand', BY_HAND)
        path('empty', '')
        path('picture', '\x89PNG\r\n\x1a\n\0\0\xff')
        for words, (status, named) in self.CASES.items():
            done = tool(*words.split(), cwd=DIR.name)
            assert (done.returncode, done.stdout) == (status, ''), done.stderr
            lines = done.stderr.splitlines()
            assert len(lines) == 1, lines
            assert lines[0].startswith('tcpsim-sweep: '), lines[0]
            assert named in lines[0]

    def test_no_program(self):
        for words in (['--program', '/nowhere/tcpsim'], ['--program', path('hand.txt', BY_HAND)]):
            done = tool(path('hand.txt'), *words, program=False)
            assert (done.returncode, done.stdout, len(done.stderr.splitlines())) == (1, '', 1)

    def test_interruption(self):
        """Ctrl-C ends all at once, and what stood in the file stays, with the rows that were there in a journal beside it; a
        pipe has them too."""
        program = path('sleeps', f'#!/bin/sh\nif grep -q "droptail 2 " > /dev/null\nthen exec "{PROGRAM}" "$1" < "$0.txt"\n'
                       'else exec sleep 60\nfi\n')
        path('sleeps.txt', BY_HAND.replace('droptail 7', 'droptail 2'))
        os.chmod(program, stat.S_IRWXU)
        rows, journals = path('interrupted.csv', 'as it was'), []
        for jobs in '12':
            process = subprocess.Popen([sys.executable, SWEEP, path('hand.txt', BY_HAND), '--set', 'a.queue=droptail:2,3,4',
                                        '-j', jobs, '-o', rows, '--program', program], stdout=subprocess.PIPE,
                                       stderr=subprocess.PIPE, start_new_session=True,
                                       preexec_fn=lambda: signal.signal(signal.SIGINT, signal.SIG_DFL))
            said = [process.stderr.readline() for _ in range(1 + len(journals))]
            assert said[-1].startswith(b'1 of 3 runs') and (not journals or b'--resume goes on with them' in said[0])
            os.killpg(process.pid, signal.SIGINT)
            output, note = process.communicate(timeout=20)
            assert (process.returncode, output, note) == (130, b'', b'')
            assert read_text(rows) == 'as it was'
            journal, = set(glob.glob(f'{rows}.*.part')) - set(journals)
            journals.append(journal)
            assert read_text(journal).startswith(FIRST_LINE)
            assert csv_rows(read_text(journal).removeprefix(FIRST_LINE)) == [{**ROW, 'program_sha256': clone.digest(program)}]
        self.piped(program)

    def piped(self, program):
        read, write = os.pipe()
        process = subprocess.Popen([sys.executable, SWEEP, path('hand.txt', BY_HAND), '--set', 'a.queue=droptail:2,3,4', '-j', '2',
                                    '-o', '/dev/stdout', '--program', program], stdout=write, stderr=subprocess.PIPE,
                                   start_new_session=True)
        os.close(write)
        process.stderr.readline()
        time.sleep(.1)
        process.terminate()
        with open(read, encoding='utf-8') as file:
            assert csv_rows(file.read()) == [{**ROW, 'program_sha256': clone.digest(program)}]
        process.communicate(timeout=20)
        assert process.returncode == 143


class TestPictures:
    """What is drawn."""

    def setup_method(self):
        pytest.importorskip('matplotlib', reason='no matplotlib: apt-get install python3-matplotlib')

    def test_panels(self):
        grid = grid_of(FOUR, ['pq.queue=droptail:5,BDP,codel:5ms:100ms,codel:1ms:100ms', 'end=1s,2s'])
        rows = [{'status': 'done', 'link': 'pq', 'wait_median_ns': str(number * 10**6), 'wait_p99_ns': str(number * 2 * 10**6),
                 'utilization': f'{number / 10}'} for number in range(1, 9)]
        rows[2] = {'status': 'refused E5 line 1'}
        panels = {others: {kind: [(point.label, point.x.mean, point.tail, point.y.mean) for point in points]
                           for kind, points in lines.items()} for others, lines in plot_sweep().panels_of(grid, rows).items()}
        assert panels == {
            ((), ('end = 1s',)): {'droptail': [('5', 1, 2, 10)], 'codel': [('1ms', 7, 14, 70), ('5ms', 5, 10, 50)]},
            ((), ('end = 2s',)): {'droptail': [('5', 2, 4, 20), ('BDP', 4, 8, 40)],
                            'codel': [('1ms', 8, 16, 80), ('5ms', 6, 12, 60)]}}
        axes = plot_sweep().draw(grid, rows).axes
        assert [each.get_title() for each in axes] == ['end = 1s', 'end = 2s']
        lines = [list(zip(*line.get_data())) for line in axes[1].lines]
        assert lines[0] == [(2, 20), (4, 40)]          # the medians
        assert lines[1] == [(4, 20), (8, 40)]          # the 99th percentiles

    def test_points_of_a_line_rise(self):
        """2 Mbit/s times 55 ms, the mean of 40 and 70, are 13,750 bytes: nine packets of 1,500."""
        grid = grid_of(FOUR, ['pq.queue=droptail:80,BDP,5,codel:5ms:100ms,1ms:100ms', 'end=1s,2s,3s,4s'])
        rows = [{'status': 'done', 'link': 'pq', 'wait_median_ns': str(10**7 + number), 'wait_p99_ns': '20000000',
                 'utilization': '.5'} for number in range(len(grid.points))]
        for lines in plot_sweep().panels_of(grid, rows).values():
            assert [point.label for point in lines['droptail']] == ['5', 'BDP', '80']
            assert [point.label for point in lines['codel']] == ['1ms', '5ms']
        axes = plot_sweep().draw(grid, rows).axes
        assert [any(label.get_visible() for label in each.get_xticklabels()) for each in axes] == [True] * 4

    @staticmethod
    def drawn(sets, look='', over=(), show=''):
        """A grid's picture, of rows that are made up: utilization falls, and waits rise, with each."""
        pattern = sweep.Pattern(NET)
        grid = Grid(pattern, sweep.settings_of(sets, pattern, over), AskedOfRun('', 'pq', 0, tuple(columns_of(show, pattern)) if show else ()))
        rows = []
        for number in range(len(grid.points)):
            row = grid.begin_of(number, grid.text(number))
            figures = {'link': 'pq', 'wait_median_ns': (number + 1) * 10**6, 'wait_p99_ns': (number + 2) * 10**6, 'utilization': 1 / (number + 2)}
            rows.append({name: str(value) for name, value in {**row, 'status': 'done', **figures, **{
                name: number + 1 for name in grid.figures() if name not in figures}}.items() if value is not None})
        return grid, plot_sweep().draw(grid, rows, look_of(*({'x': None, 'log': None, 'share': False, 'size': None, 'kind': None, **look}).values())
                                       if look else look_of(None, None, False, None, None))

    def test_rows_are_the_first_setting_and_columns_the_second(self):
        """Each panel has axes of its own, or with `share` all the same."""
        sets = ['rate=1M,2M,3M', 'rtt=10ms,20ms', 'pq.queue=droptail:5,9']
        _, figure = self.drawn(sets)
        assert [each.get_title() for each in figure.axes] == ['rtt = 10ms', 'rtt = 20ms', '', '', '', '']
        assert [[text.get_text() for text in each.texts if 'rate' in text.get_text()] for each in figure.axes] == [
            [], ['rate = 1M'], [], ['rate = 2M'], [], ['rate = 3M']]
        assert len({each.get_xlim() for each in figure.axes}) == 6 and len(figure.legends) == 1
        _, figure = self.drawn(sets, {'share': True})
        assert len({(each.get_xlim(), each.get_ylim()) for each in figure.axes}) == 1

    def test_any_setting_is_across(self):
        """Of pq+qp.delay it is pq.delay; a line has a queue."""
        sets = ['pq+qp.delay=10ms,20ms,40ms', 'pq.queue=droptail:5,9', 'rate=1M,2M']
        _, figure = self.drawn(sets, {'x': 'pq.delay', 'log': 'xy'})
        assert [each.get_title() for each in figure.axes] == ['rate = 1M', 'rate = 2M']
        assert [list(line.get_xdata()) for line in figure.axes[0].lines] == [[10, 20, 40]] * 2
        assert [(each.get_xscale(), each.get_yscale()) for each in figure.axes] == [('log', 'log')] * 2
        assert [text.get_text() for text in figure.legends[0].texts] == ['droptail:5', 'droptail:9']
        assert figure._supxlabel.get_text() == 'pq+qp.delay, ms (logarithmic)' and figure._supylabel.get_text().endswith(' (logarithmic)')
        _, figure = self.drawn(sets, {'x': 'pq.delay'})
        assert figure._supxlabel.get_text() == 'pq+qp.delay, ms' and 'logarithmic' not in figure._supylabel.get_text()

    @pytest.mark.parametrize('kind', ['cdf', 'box'])
    def test_distributions_of_replicates(self, kind):
        _, figure = self.drawn(['pq.queue=droptail:5,codel:5ms:100ms'], {'kind': kind}, ['spread=1..4'], 'f0.goodput')
        axes, = figure.axes
        if kind == 'cdf':
            assert [list(line.get_xdata()) for line in axes.lines] == [[n / 1e6 for n in (1, 1, 2, 3, 4)], [n / 1e6 for n in (5, 5, 6, 7, 8)]]
            assert [list(line.get_ydata()) for line in axes.lines] == [[0, .25, .5, .75, 1]] * 2
            assert [text.get_text() for text in figure.legends[0].texts] == ['droptail:5', 'codel:5ms:100ms']
        else:
            medians = [line.get_ydata()[0] for line in axes.lines if line.get_color() == '#9C4A1A']
            assert medians == [pytest.approx(2.5e-6), pytest.approx(6.5e-6)]
            assert [label.get_text() for label in axes.get_xticklabels()] == ['droptail:5', 'codel:5ms:100ms']

    def test_a_size_in_print(self):
        """Sixteen panels on 180 mm: letters of 7 points, no two texts of the figure's on each other, none beyond its rim."""
        _, figure = self.drawn(['rate=1M,2M,4M,8M', 'rtt=10ms,20ms,40ms,80ms', 'pq.queue=droptail:5,9,20,codel:5ms:100ms'], {'size': '180mm'})
        assert abs(figure.get_size_inches()[0] * 25.4 - 180) < .1 and len(figure.axes) == 16
        figure.draw_without_rendering()
        texts = [text for text in figure.findobj(lambda it: hasattr(it, 'get_fontsize') and it.get_visible() and it.get_text())]
        assert {text.get_fontsize() for text in texts} == {7}
        own = [*figure.texts, *figure.legends[0].texts, *(text for axes in figure.axes for text in (*axes.texts, axes.title))]
        boxes = [text.get_window_extent() for text in texts if text in own]
        assert not [(a, b) for n, a in enumerate(boxes) for b in boxes[:n] if a.overlaps(b)]
        assert all(box.x0 >= -1 and box.y0 >= -1 and box.x1 <= figure.bbox.x1 + 1 and box.y1 <= figure.bbox.y1 + 1 for box in boxes)

    @pytest.mark.parametrize('words, why', [
        (['--size', '85'], 'write 85mm or 180x120mm'), (['--size', '9999mm'], 'from 30 to 1,000 mm'), (['--log', 'z'], 'write x, y or xy'),
        (['--kind', 'pie'], 'write mean, cdf, box'), (['--kind', 'cdf'], 'give some by --over'), (['--x', 'nosuch'], 'there is no such --set')])
    def test_wrong_words_of_a_picture(self, words, why):
        for more in (['--plot', path('s.svg')], []):
            done = tool(path('hand.txt', BY_HAND), '--set', 'a.queue=droptail:1,2', *words, *more)
            assert (done.returncode, done.stdout, len(done.stderr.splitlines())) == (2, '', 1)
            assert (why if more else 'are of --plot') in done.stderr

    def test_letters_in_pdf_are_embedded(self):
        tool(path('hand.txt', BY_HAND), '--set', 'a.queue=droptail:1,2', '--plot', path('s.png'), '--size', '85mm')
        assert int.from_bytes(read(path('s.png'))[16:20], 'big') == int(85 / 25.4 * 300)        # the width that its header has
        tool(path('hand.txt', BY_HAND), '--set', 'a.queue=droptail:1,2', '--plot', path('s.pdf'), '--size', '85mm')
        assert b'/FontFile2' in read(path('s.pdf')) and b'/Type3' not in read(path('s.pdf'))

    def test_labels_do_not_collide(self):
        """Six points in nearly one place."""
        grid = grid_of(FOUR, ['pq.queue=droptail:5,6,7,codel:5ms:100ms,6ms:100ms,7ms:100ms'])
        rows = [{'status': 'done', 'link': 'pq', 'wait_median_ns': str(10**7 + number * 10**6), 'wait_p99_ns': str(10**9),
                 'utilization': f'{.5 + number / 20}'} for number in range(6)]
        figure = plot_sweep().draw(grid, rows)
        boxes = [text.get_window_extent(figure.canvas.get_renderer()) for text in figure.axes[0].texts]
        assert len(boxes) == 6
        assert not [(a, b) for n, a in enumerate(boxes) for b in boxes[:n] if a.overlaps(b)]

    def test_file(self):
        for name, begins in (('s.svg', b'<?xml'), ('s.png', b'\x89PNG'), ('s.pdf', b'%PDF')):
            done = tool(path('hand.txt', BY_HAND), '--set', 'a.queue=droptail:1,2,0', '--plot', path(name))
            assert done.returncode == 0, done.stderr
            assert read(path(name)).startswith(begins)
        done = tool(path('hand.txt', BY_HAND), '--plot', '/nowhere/s.svg')
        assert done.returncode == 2
        assert 'figures of link a' in done.stdout
        assert '/nowhere/s.svg' in done.stderr.splitlines()[-1]
        done = tool(path('hand.txt', BY_HAND), '--plot', path('s.svg'), '--set', 'a.queue=droptail:1,2', '--set',
                    'b.delay=' + ','.join(f'{n}ms' for n in range(1, 40)))
        assert (done.returncode, len(done.stderr.splitlines())) == (2, 1)
        assert '39 panels' in done.stderr


def test_options_of_the_shape_are_set():
    """Each run is of the text that tcpsim-net writes with these words; a name that not every scenario has is empty there."""
    words = '--set', 'flows=1,3', '--set', 'rtt=20ms,60ms', '--over', 'spread=1..2', '--set', 'pq.queue=droptail:9,BDP'
    pattern = sweep.Pattern(NET)
    grid = Grid(pattern, sweep.settings_of([words[1], words[3], words[7]], pattern, ['spread=1..2']), AskedOfRun('', None, 0, ()))
    assert len(grid.points) == 16
    for number in range(16):
        labels = grid.labels(number)
        net = command.scenario(['dumbbell', '--end', '2s', '--rate=2M', *(f'--{name}={labels[name]}' for name in ('flows', 'rtt', 'spread')),
                                '--queue', labels['pq.queue']])
        assert grid.text(number).split('\n')[3:] and without_comments(grid.text(number)) == without_comments(net)
    done = tool(path('net.txt', NET), *words[:4], '--show', '*.goodput,f1+f2.sent,*.jain', '--csv')
    rows = csv_rows(done.stdout)
    assert [(row['flows'], row['rtt'], row['rtt_ns']) for row in rows] == [
        ('1', '20ms', '20000000'), ('1', '60ms', '60000000'), ('3', '20ms', '20000000'), ('3', '60ms', '60000000')]
    assert [[bool(row[name]) for name in ('f0.goodput_bit_s', 'f2.goodput_bit_s', 'f1+f2.sent', '*.jain')] for row in rows] == [
        [True, False, False, True]] * 2 + [[True] * 4] * 2
    table = tool(path('net.txt', NET), '--set', 'flows=1,3').stdout
    assert table.startswith('figures of link pq, Jain\'s index of 1 to 3 flows\n')


def without_comments(text):
    return [line.partition('#')[0].split() for line in text.split('\n') if not line.startswith('#')]


@pytest.mark.parametrize('text, words, why', [
    (NET, ['flows=200'], '200 is out of range'), (NET, ['nosuch=3'], 'or OPTION=VALUE,.., with an option of this tcpsim-net: flows, rate, rtt'),
    (NET, ['flows=1,2', 'f1.start=0,1s'], '--set f1.start: with flows=1 there is no f1'), (NET, ['flows=2,2'], 'twice'),
    (NET, ['flows=1', 'rtt=20ms+30ms'], 'flows=1 rtt=20ms+30ms: --rtt has 2 values'), (NET, ['rate=1M+2M'], '--rate takes one'),
    (NET, ['rtt=20'], 'as it has no unit'), (NET, ['flows'], 'with an option of this tcpsim-net'),
    (NET.replace('link pq p q 2000000', 'link pq p q 3000000'), ['flows=1'], 'the scenario was changed since tcpsim-net wrote it'),
    (BY_HAND, ['flows=1'], 'no line of the scenario says by which words')])
def test_wrong_options_of_the_shape(text, words, why):
    done = tool(path('net.txt', text), *(word for each in words for word in ('--set', each)))
    assert (done.returncode, done.stdout, len(done.stderr.splitlines())) == (2, '', 1) and why in done.stderr


def test_parts_of_the_product():
    """At 2 Mbit/s and 48 ms a link has 8 packets of 1,500 bytes under way: half, twice that, and by the root of two flows."""
    net = command.scenario(['dumbbell', '--flows', '2', '--rate=2M', '--rtt', '48ms', '--end', '2s', '--mice', '3'])
    done = tool(path('net.txt', net), '--set', 'pq.queue=droptail:BDP,0.5BDP,2BDP,BDP/sqrt(n),0.6BDP', '--csv')
    assert [(row['pq.queue'], row['pq.queue_packets']) for row in csv_rows(done.stdout)] == [
        ('droptail:BDP', '8'), ('droptail:0.5BDP', '4'), ('droptail:2BDP', '16'), ('droptail:BDP/sqrt(n)', '5'), ('droptail:0.6BDP', '4')]
    for word, packets in (('0.5BDP', 4), ('BDP/sqrt(n)', 5)):
        text = command.scenario(['dumbbell', '--flows', '2', '--rate=2M', '--rtt', '48ms', '--end', '2s', '--mice', '3', '--queue', f'droptail:{word}'])
        assert f' droptail {packets}  # the bottleneck: 2Mbit/s, 12ms, droptail:{word}\n' in text
    done = tool(path('net.txt', net), '--set', 'pq.queue=droptail:BDP/sqrt(n),0.5BDP', '--print', path('jobs.d'))
    assert done.returncode == 0 and len([name for name in os.listdir(path('jobs.d')) if name.endswith('.txt')]) == 2


def test_progress(monkeypatch, capsys):
    """Four runs, each of 30 s: done, left, and how long the others take."""
    seconds = iter(range(0, 150, 30))
    monkeypatch.setattr(pool.clock, 'monotonic', lambda: next(seconds))
    progress = pool.Progress(4)
    for status in ('done', 'refused E5 line 1', 'done', 'done'):
        progress.note([({'a.queue': '2'}, {'status': status})])
    assert capsys.readouterr().err.splitlines() == [
        '1 of 4 runs, 30 s, about 90 s left: a.queue=2', '2 of 4 runs, 1 without figures, 60 s, about 60 s left: a.queue=2: refused E5 line 1',
        '3 of 4 runs, 1 without figures, 90 s, about 30 s left: a.queue=2', '4 of 4 runs, 1 without figures, 120 s: a.queue=2']


def ends_at_the_second_signal(ready):
    """A process that sees a signal only once another has come, as one does that was about to wait."""
    seen = []
    signal.signal(signal.SIGTERM, lambda *_: os._exit(3) if seen else seen.append(1))
    ready.send(1)
    while True:
        signal.pause()


def test_a_worker_that_misses_a_signal_is_ended():
    fork, (here, there) = get_context('fork'), Pipe()
    workers = [fork.Process(target=ends_at_the_second_signal, args=(there,), daemon=True) for _ in range(2)]
    for worker in workers:
        worker.start()
        assert here.recv() == 1
    ending = threading.Thread(target=pool.end_workers, args=(set(workers),), daemon=True)
    ending.start()
    ending.join(20)
    gone = not ending.is_alive()
    for worker in workers:
        if not gone:
            worker.kill()
        worker.join()
    assert gone and [worker.exitcode for worker in workers] == [3, 3]
