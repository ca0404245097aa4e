"""Tests of queues that are classes of Python's (docs/PYTHON.md): that page's CoDel beside the program's, byte for byte, drops
by a class's own word in figures, pictures, stalls and pages, and what no queue can do."""
import glob
import io
import os
import random
import re
import subprocess
import sys
from collections import Counter, deque

import pytest

from clone import CHROMIUM, EXAMPLES, read_text
import tcpsim
from tcpsim.api import progress
from tcpsim.program import BUILT

built = pytest.mark.skipif(not os.path.exists(BUILT) and not os.environ.get('CI'), reason='the program is not built: make run')
NET = tcpsim.dumbbell(flows=2, rate='2M', rtt=['40ms', '80ms'], queue='droptail:20', end='6s')


def codel_of_the_page():
    code, = re.findall(r'^(from collections import deque\n.*?)^mine = ', read_text('docs', 'PYTHON.md'), re.M | re.S)
    names = {}
    exec(code, names)
    return names['CoDel']


CODEL = codel_of_the_page()
WITH_CODEL = sorted(path for path in glob.glob(f'{EXAMPLES}/*.txt') if ' codel ' in read_text(path))


class Red:
    """Drops every seventh packet that comes where more than eight wait, and what finds it full, by two words."""

    word = 'early'

    def __init__(self, link):
        self.packets, self.limit, self.count = deque(), link.capacity, 0

    def offer(self, packet, now, drop):
        self.count += 1
        if len(self.packets) >= self.limit:
            drop(packet, 'full')
        elif len(self.packets) > 8 and self.count % 7 == 0:
            drop(packet)
        else:
            self.packets.append(packet)

    def take(self, now, drop):
        return self.packets.popleft() if self.packets else None


class DropHead(Red):
    """Drops at the head where it is full, and what waited too long as it takes."""

    word = 'head'

    def offer(self, packet, now, drop):
        self.packets.append((packet, now))
        if len(self.packets) > self.limit:
            drop(self.packets.popleft()[0])

    def take(self, now, drop):
        while len(self.packets) > 1 and now - self.packets[0][1] > 10**8:
            drop(self.packets.popleft()[0], 'late')
        return self.packets.popleft()[0] if self.packets else None


class Fair:
    """A list for each flow, from which it takes in turn; drops from the longest."""

    def __init__(self):
        self.lists = {}

    def offer(self, packet, now, drop):
        self.lists.setdefault(packet.flow, deque()).append(packet)
        if sum(map(len, self.lists.values())) > 20:
            drop(max(self.lists.values(), key=len).pop())

    def take(self, now, drop):
        for flow in list(self.lists):
            packets = self.lists.pop(flow)
            if packets:
                self.lists[flow] = packets
                return packets.popleft()
        return None


# ---- CoDel

@pytest.mark.parametrize('path', WITH_CODEL)
def test_codel_of_the_page_gives_the_trace_of_the_examples(path):
    net = tcpsim.read(path)
    run = tcpsim.run(net, queues={name: CODEL for name, link in net.links.items() if link.queue == 'codel'})
    with open(path[:-3] + 'trace', encoding='ascii') as file:
        assert list(run.trace.lines()) == file.read().splitlines()


@built
@pytest.mark.parametrize('seed', range(6))
def test_codel_of_the_page_gives_the_bytes_of_the_program(seed):
    pick = random.Random(seed)
    net = tcpsim.dumbbell(flows=pick.randint(1, 4), rate=pick.choice(['1M', '2M', '5M']), rtt=f'{pick.randint(10, 150)}ms',
                          queue=f'codel:{pick.randint(5, 30)}ms:{pick.randint(40, 300)}ms:{pick.choice([8, 20, 1000])}',
                          delack=pick.choice(['0', '40ms']), end='6s')
    mine, program = tcpsim.run(net, queues={'pq': CODEL}), tcpsim.run(net, engine='program')
    assert '\n'.join(mine.trace.lines()) == '\n'.join(program.trace.lines())
    # Of a queue of one's own no tooth is known, so what would do differs.
    told = [re.sub('(For . teeth c|C)ount from .*', '', repr(run.figures)) for run in (mine, program)]
    assert told[0] == told[1]
    assert mine.figures.links['pq'] == program.figures.links['pq']


# ---- words of one's own

@pytest.mark.parametrize('queue, words', [(Red, {'early', 'full'}), (DropHead, {'head', 'late'}), (Fair, {'fair'})])
def test_drops_bear_the_words_of_the_class(queue, words):
    run = tcpsim.run(NET, queues={'pq': queue})
    link = run.figures.links['pq']
    counted = Counter((drop.link, drop.reason) for _, drop in run.trace.drops())
    assert set(link.drops) == {'lost', 'full', 'codel', *words}
    assert {('pq', word): count for word, count in link.drops.items() if count} == counted
    assert all(f'as {word}' in repr(run.figures) and f'<th>as {word}</th>' in run.figures._repr_html_() for word in words if link.drops[word])
    assert link.packets_offered - link.packets_sent - link.packets_dropped in range(22)
    assert sum(run.series('1s').links['pq'].queue_mean) > 5
    own = [stall for stall in run.stalls('100ms') if any(f'({word})' in stall.found for word in words)]
    assert own


@pytest.mark.parametrize('queue', [Red, DropHead, Fair])
def test_readers_of_the_trace_agree_with_the_model(queue):
    """What is read from the trace, by two readers, is what the model counts."""
    run = tcpsim.run(NET, queues={'pq': queue})
    figures = run.figures
    from tcpsim.figures import Figures, figures as rows_of
    with run._lines() as lines:
        rows = {(name, figure): value for what, name, figure, _, value in rows_of(Figures(run._parsed(), lines))}
    for name, link in figures.links.items():
        for figure, value in (('sent', link.packets_sent), ('dropped', link.packets_dropped), ('greatest queue', link.queue_max),
                              ('utilization', link.utilization), ('mean queue', link.queue_mean)):
            assert rows[name, figure] == value, (name, figure)
        exact = rows[name, '99th percentile of delay in the queue']
        assert exact is link.delay_p99_ns is None or exact <= link.delay_p99_ns <= exact * 33 / 32
    for name, flow in figures.flows.items():
        assert (rows[name, 'delivered'], rows[name, 'sent'], rows[name, 'timeouts']) == (
            flow.delivered_bytes, flow.segments_sent, flow.timeouts)


def test_pictures_have_a_sign_for_the_word():
    pytest.importorskip('matplotlib', reason='matplotlib is not there: apt-get install python3-matplotlib')
    from tcpsim.plot import drawn
    lines = drawn(tcpsim.run(NET, queues={'pq': Red}).plot('queue', 'window').figure)
    assert any('key: ' in line and 'dropped: early' in line for line in lines)


def test_pages_have_the_word(tmp_path):
    run = tcpsim.run(NET, queues={'pq': DropHead})
    text = run.replay(tmp_path / 'page.html').text
    assert '"queue":"DropHead","own":true' in text
    with pytest.raises(tcpsim.Error, match='whose packets leave in the order in which they came, and that of link pq has another'):
        tcpsim.run(NET, queues={'pq': Fair}).replay(tmp_path / 'fair.html')
    assert os.listdir(tmp_path) == ['page.html']


@pytest.mark.skipif(not CHROMIUM and not os.environ.get('CI'), reason='chromium is not there: apt-get install chromium')
@pytest.mark.parametrize('queue', [Red, DropHead])
def test_a_page_in_a_browser_reads_its_drops(tmp_path, queue):
    run = tcpsim.run(NET, queues={'pq': queue})
    page = run.replay(tmp_path / 'page.html')
    last = [event for event in run.trace if event.drops][-1]
    with tcpsim.debug(NET, queues={'pq': queue}) as at:
        at.step(last.n)
        waiting = len(at.state.links['pq'].queue)
    done = subprocess.run([CHROMIUM, '--headless', '--no-sandbox', '--virtual-time-budget=5000', f'--user-data-dir={tmp_path}/profile',
                           '--dump-dom', f'file://{page.path}#event={last.n}'], capture_output=True, text=True, check=True, timeout=300)
    assert re.search(rf'<html [^>]*data-event="{last.n}" data-ready=', done.stdout)
    assert any(f'{drop.reason}: {drop.flow} {drop.number:,}' in done.stdout for drop in last.drops)
    assert f'is dropped: {last.drops[0].reason}' in done.stdout
    assert f'{waiting}/20' in done.stdout


def test_the_debugger_goes_backwards_over_it():
    with tcpsim.debug(NET, queues={'pq': DropHead}) as at:
        first = at.run_to(drop=True, flow='f0')
        assert first.event.drops[0].reason in ('head', 'late')
        state = str(at.state)
        at.back(200)
        assert at.reverse().position == 0
        assert at.run_to(drop=True, flow='f0').position == first.position
        assert str(at.state) == state


# ---- what is refused

def queue_that(offers=lambda self, packet, drop: self.packets.append(packet), takes=lambda self, drop: self.packets.popleft()
               if self.packets else None):
    class Queue:
        def __init__(self):
            self.packets = deque()

        def offer(self, packet, now, drop):
            offers(self, packet, drop)

        def take(self, now, drop):
            return takes(self, drop)
    return Queue


@pytest.mark.parametrize('queue, words', [
    (queue_that(takes=lambda self, drop: None), 'Queue gave no packet, and 1 wait'),
    (queue_that(offers=lambda self, packet, drop: (drop(packet), drop(packet))), 'which does not wait in it'),
    (queue_that(takes=lambda self, drop: self.packets[0] if self.packets else None), 'which does not wait in it'),
    (queue_that(offers=lambda self, packet, drop: drop(packet, 'Full!')), "by the word 'Full!'"),
    (queue_that(offers=lambda self, packet, drop: drop(packet, 'lost')), "by the word 'lost'"),
    (queue_that(takes=lambda self, drop: self.packets.popleft()._replace(bytes=1) if self.packets else None), 'which does not wait'),
])
def test_what_no_queue_can_do(queue, words):
    with pytest.raises(tcpsim.WrongQueue) as wrong:
        list(tcpsim.run(NET, queues={'pq': queue}).trace)
    assert words in str(wrong.value)
    with pytest.raises(tcpsim.WrongQueue):
        tcpsim.run(NET, queues={'pq': queue}).figures
    with pytest.raises(tcpsim.WrongQueue), tcpsim.debug(NET, queues={'pq': queue}) as at:
        at.run_to()


@pytest.mark.parametrize('call, error, words', [
    (lambda: tcpsim.run(NET, engine='program', queues={'pq': Red}), tcpsim.Wrong, 'the program has no queues but drop-tail and CoDel'),
    (lambda: tcpsim.run(NET, queues={'zz': Red}), tcpsim.Wrong, "names the link 'zz', and the scenario has pq, qp"),
    (lambda: tcpsim.run(NET, queues={'pq': type('Odd', (), {})}), tcpsim.WrongQueue, 'the queue of link pq, Odd, has no method offer'),
    (lambda: tcpsim.run(NET, queues={'pq': type('Odd', (), {'offer': Red.offer})}), tcpsim.WrongQueue, 'Odd, has no method take'),
    (lambda: tcpsim.run(NET, queues={'pq': lambda link: 'odd'}), tcpsim.WrongQueue, 'the queue of link pq, str, has no method offer'),
    (lambda: tcpsim.run(NET, queues={'pq': Fair()}), tcpsim.WrongQueue, 'give the class, Fair, without ()'),
    (lambda: tcpsim.run(NET, queues={'pq': 'Fair'}), tcpsim.WrongQueue, "with the methods offer and take, and not 'Fair'"),
    (lambda: tcpsim.run(NET, queues={'pq': type('Two', (Fair,), {'__init__': lambda self, a, b: None})}), tcpsim.WrongQueue,
     'is called with the link, or with nothing, and Two(a, b) takes something else'),
    (lambda: tcpsim.run(NET, queues=Fair), tcpsim.Wrong, 'queues is a mapping from the name of a link to a class'),
    (lambda: tcpsim.debug(NET, queues=[Fair]), tcpsim.Wrong, 'queues is a mapping from the name of a link to a class'),
    (lambda: tcpsim.run('sim 1\n', queues={'pq': Red}), tcpsim.Refused, 'L3 line 0'),
    (lambda: tcpsim.run(tcpsim.dumbbell(rate='10G', end='1000s'), queues={'pq': Red}), tcpsim.Error, 'say engine="model"'),
])
def test_what_cannot_run_is_said(call, error, words):
    with pytest.raises(error) as wrong:
        call()
    assert words in str(wrong.value)
    assert wrong.type is error


def test_what_a_class_raises_comes_through():
    def raises(self, packet, drop):
        raise ZeroDivisionError('of mine')
    run = tcpsim.run(NET, queues={'pq': queue_that(offers=raises)})
    for call in (lambda: run.figures, lambda: list(run.trace), lambda: run.series('1s')):
        with pytest.raises(ZeroDivisionError, match='of mine'):
            call()
    assert '<ZeroDivisionError: of mine>' in repr(run.trace)


def test_a_page_of_another_order_is_wrong():
    with pytest.raises(tcpsim.Error) as wrong:
        tcpsim.run(NET, queues={'pq': Fair}).replay()
    assert wrong.type is tcpsim.Wrong


# ---- how far a run is

class Terminal(io.StringIO):
    """Standard error at a terminal."""

    def isatty(self):
        return True


@pytest.fixture
def impatient(monkeypatch):
    """Progress is told at each look at the clock."""
    for name in ('PATIENCE', 'AGAIN'):
        monkeypatch.setattr(progress, name, 0)


def test_a_function_is_told_how_far_a_run_is(impatient):
    told = []
    run = tcpsim.run(NET, queues={'pq': Red}, progress=lambda passed, end: told.append((passed, end)))
    assert told == []
    events = run.figures.events
    assert len(told) == 1 + -(-events // progress.EVENTS) and {end for _, end in told} == {NET.end_ns}
    assert [passed for passed, _ in told] == sorted(passed for passed, _ in told) and told[-1][0] == NET.end_ns
    of_figures, told[:] = list(told), []
    assert sum(1 for _ in run.trace) == events
    assert told == of_figures


def test_a_terminal_shows_how_far_a_run_is(impatient, monkeypatch):
    monkeypatch.setattr(sys, 'stderr', Terminal())
    assert tcpsim.run(NET, queues={'pq': Red}).figures.events > 7 * progress.EVENTS
    *lines, last, end = sys.stderr.getvalue().split('\r')[1:]
    assert len(lines) >= 8 and all(re.fullmatch(r'\d\.\d s of 6 s are run, in \d+ s; \d+ s are left *', line) for line in lines)
    assert (last.strip(), end) == ('', '')


def test_nothing_else_says_how_far_a_run_is(impatient, monkeypatch):
    monkeypatch.setattr(sys, 'stderr', io.StringIO())
    assert tcpsim.run(NET, queues={'pq': Red}).figures.events
    assert sys.stderr.getvalue() == ''


def test_a_short_run_says_nothing(monkeypatch):
    monkeypatch.setattr(sys, 'stderr', Terminal())
    monkeypatch.setattr(progress, 'PATIENCE', 600)
    assert tcpsim.run(NET, queues={'pq': Red}).figures.events
    assert sys.stderr.getvalue() == ''


def test_the_line_is_taken_away_where_a_queue_is_wrong(impatient, monkeypatch):
    class Wrong(Red):
        def take(self, now, drop):
            return object() if now > 10**9 else super().take(now, drop)
    monkeypatch.setattr(sys, 'stderr', Terminal())
    with pytest.raises(tcpsim.WrongQueue):
        tcpsim.run(NET, queues={'pq': Wrong}).figures
    assert sys.stderr.getvalue().endswith(' \r')


# ---- sweeps over them

class Fifo:
    """Drop-tail of as many packets as the link has room for."""

    def __init__(self, link):
        self.packets, self.limit = deque(), link.capacity

    def offer(self, packet, now, drop):
        if len(self.packets) < self.limit:
            self.packets.append(packet)
        else:
            drop(packet, 'full')

    def take(self, now, drop):
        return self.packets.popleft() if self.packets else None


SWEPT = tcpsim.dumbbell(flows=2, rate='1M', rtt='40ms,70ms', queue='droptail:12', end='2s')


@pytest.mark.parametrize('more', [{}, {'skip': '500ms'}, {'show': ['f0.goodput', 'pq.wait95', 'f1.share', 'pq.dropped']}, {'exact': True},
                                  {'show': ['f0.rtt95'], 'skip': '500ms'}])
def test_a_sweep_has_them_beside_others(more, capfd):
    """A drop-tail queue in Python has the rows of drop-tail, but for the name."""
    sweep = tcpsim.sweep(SWEPT, {'pq.queue': ['Fifo', 'codel:5ms:100ms', 'droptail:12', 'Red']}, over={'f1.start': '0..200ms/100ms'},
                         queues={'pq': [Fifo, Red]}, jobs=2, **more)
    assert capfd.readouterr().err == 'tcpsim: 6 of 12 runs are by the model, in some 1 s\n'
    rows = [{name: value for name, value in row.items() if name not in ('pq.queue', 'pq.queue_packets', 'options', 'scenario_sha256')}
            for row in sweep.rows]
    assert rows[:3] == rows[6:9] and rows[9:] != rows[:3] and {row['status'] for row in sweep.rows} == {'done'}
    assert [row['options'].partition('queues=')[2] for row in sweep.rows] == ['pq:Fifo'] * 3 + [''] * 6 + ['pq:Red'] * 3
    assert [row['pq.queue_packets'] for row in sweep.rows] == [None] * 3 + [1_000] * 3 + [12] * 3 + [None] * 3
    assert str(sweep).count('Fifo') >= 1


def test_a_sweep_over_something_else_has_them_in_every_run():
    settings = {'pq+qp.delay': ['5ms', '20ms']}
    own = tcpsim.sweep(SWEPT, settings, queues={'pq': Fifo}, jobs=2)
    assert [row['jain'] for row in own.rows] == [row['jain'] for row in tcpsim.sweep(SWEPT, settings, engine='model').rows]
    assert {row['options'] for row in own.rows} == {'--link pq+qp queues=pq:Fifo'.replace('pq+qp ', 'pq ')}


@pytest.mark.parametrize('more, why', [
    ({'queues': {'pq': Fifo}}, 'give it a class'), ({'queues': {'nosuch': Fifo}}, 'names the link \'nosuch\''), ({'queues': [Fifo]}, 'is a mapping'),
    ({'queues': {'pq': Fifo}, 'engine': 'program'}, 'is the model\'s'), ({'queues': {'pq': Fifo}, 'on': 'parallel'}, 'is the model\'s')])
def test_a_sweep_refuses(more, why):
    with pytest.raises(tcpsim.Wrong, match=why):
        tcpsim.sweep(SWEPT, {'pq.queue': 'droptail:5,6'}, **more)


def test_a_sweep_that_takes_long_by_the_model_is_refused_unasked():
    with pytest.raises(tcpsim.Error, match='would take the model .* say engine="model"'):
        tcpsim.sweep(tcpsim.dumbbell(flows=2, rate='100M', rtt='40ms', end='20s'), {'pq.queue': ['Fifo']}, queues={'pq': Fifo},
                     over={'f1.start': '0..2s/100ms'})


def test_what_a_queue_does_wrong_ends_the_sweep():
    class Stubborn(Fifo):
        def take(self, now, drop):
            return 'nothing'
    with pytest.raises(tcpsim.WrongQueue):
        tcpsim.sweep(SWEPT, {'f1.start': '0,100ms'}, queues={'pq': Stubborn}, jobs=2)
    rows = tcpsim.sweep(SWEPT, {'pq.rate': '0,1M'}, queues={'pq': Fifo}, jobs=2).rows
    assert rows[0]['status'].startswith('refused E5 line ') and rows[1]['status'] == 'done'
