"""Tests of tcpsim/settled.py: runs that are too short for their figures, by tools, sweeps and Python."""
import re

import pytest

import tcpsim
from clone import PROGRAM, tool
from tcpsim.engine import PORTIONS, EngineRun, portions_of
from tcpsim.figures import Figures
from tcpsim.scenario.text import Scenario
from tcpsim.scenario.units import time
from tcpsim.settled import advice, can_end, has_long_tooth, rounded, thirds, too_short, tooth
from tcpsim_model.figures import figures
from tcpsim_model.simulate import trace
from tcpsim_model.text import assemble

# One flow whose packets of 1,000 bytes take 10 ms on a, and their acknowledgements 0.4 ms on b: an idle way, of 100 ms, holds ten of
# them, and the queue ten more.
ONE = '''sim {end}
node s sender
node r receiver
link a s r 800000 44800000 {queue}
link b r s 800000 44800000 droptail 50
flow f s r 960 {segments} 0 {rwnd} {delack}
'''


def one(end=60, queue='droptail 10', segments=1000000, rwnd=960000, delack=0):
    return Scenario(ONE.format(end=end * 10**9, queue=queue, segments=segments, rwnd=rwnd, delack=delack))


def test_a_tooth_by_hand():
    """Ten round trips from 10 segments to 20, of 100 to 200 ms, so 150 in the mean, and one for the recovery. Delayed acknowledgements
    take twenty. CoDel's target of 50 ms is five packets more: 7.5 round trips of 100 to 150 ms. A window of 19 segments fills no
    queue."""
    for more, seconds in (({}, 1.65), ({'delack': 10**7}, 3.15), ({'queue': 'codel 99 50000000 100000000 1000'}, 8.5 * .125),
                          ({'rwnd': 960 * 19}, 0), ({'rwnd': 960 * 20}, 1.65)):
        assert tooth(one(**more), 0, [0]) == pytest.approx(seconds * 1e9), more


def test_a_tooth_is_that_of_the_run():
    """The last tooth of the trace, from one fast retransmit to the next, is within three tenths of the formula's."""
    text = one(segments=10**9).text
    lines = [line for line in ''.join(trace(assemble(text.encode()))).splitlines() if ' phase=' in line]
    losses = [int(line.split()[1]) for before, line in zip(lines, lines[1:]) if ' phase=fr' in line and ' phase=fr' not in before]
    assert losses[-1] - losses[-2] == pytest.approx(tooth(Scenario(text), 0, [0]), rel=.3)


def test_flows_share_a_tooth():
    """Each of two has half of the window, and half of the tooth's length but for its recovery."""
    text = tcpsim.dumbbell(flows=2, rate='10M', rtt='100ms', queue='droptail:BDP', rwnd='1M').text
    scenario = Scenario(text)
    assert tooth(scenario, 0, [0, 1]) == pytest.approx(tooth(scenario, 0, [0]) / 2, rel=.02)


def test_what_would_do():
    assert has_long_tooth(one(), 0, 1_650_000_000, [0]) is None
    assert has_long_tooth(one(), 0, 1_649_999_999, []) is None
    assert has_long_tooth(one(), 10**9, 2 * 10**9, [0]) == (
        "Too short: a tooth of f's sawtooth takes about 1.7s, and figures are of 1s.")


def test_the_span_that_would_do():
    """Two teeth of 1.65 s for the window's rise, and then six; of a run whose goodput changed no less than from its third on to its
    triple. Both are the least where that span began late, or there is no tooth."""
    for begin, end, changed, words in (
            (0, 1, False, 'For 6 teeth count from 3.3s on, to an end of 14s.'), (0, 1, True, 'For 6 teeth count from 3.3s on, to an end of 14s.'),
            (0, 30, True, 'For 6 teeth count from 10s on, to an end of 90s.'), (4, 5, False, 'For 6 teeth count from 4s on, to an end of 14s.'),
            (4, 10, True, 'For 6 teeth count from at least 6s on, to an end of at least 22s.')):
        assert advice(one(), begin * 10**9, end * 10**9, [0], changed=changed) == words
    words = advice(one(rwnd=960), 0, 3 * 10**9, [0], changed=True)
    assert words == 'Count from at least 1s on, to an end of at least 9s.'


@pytest.mark.parametrize('time, words', [(1.5e9, '1.5s'), (1501e6, '1.6s'), (500e9, '500s'), (1, '1ns'), (2.01e11, '210s')])
def test_times_are_rounded_upwards(time, words):
    assert rounded(time) == words


def test_which_flows_can_end():
    """A packet takes 10 ms, so 6,000 take a minute."""
    assert [can_end(one(segments=count), 0) for count in (5999, 6000)] == [True, False]


class Told:
    """A run whose portions are told."""

    begin, end = 0, 30 * 10**9

    def __init__(self, *portions):
        self._portions = portions

    def portions(self):
        return [[count, 10**9] for count in self._portions]


def test_the_last_third_beside_the_first():
    """Ten portions of 1 and 2 Mbit/s by turns have the variance 10/36, so the interval is 2.1009220 * sqrt(2 * 10/36 / 10) = 0.495:
    in the last third 0.49 more is within it, and 0.5 is beyond. Without variance a difference of 2 % is none."""
    first = [125_000, 250_000] * 5
    for more, changed in ((61_250, False), (62_500, True), (-62_500, True)):
        said = thirds(Told(*first, *first, *(count + more for count in first)), [0])
        assert said.changed == changed
    assert str(said) == 'Not settled: goodput is 1.500 Mbit/s in the first third and 1.000 in the last, ±0.495 (bytes count once they are in order).'
    for last, changed in ((101_000, False), (104_000, True)):
        assert thirds(Told(*[100_000] * 20, *[last] * 10), [0]).changed == changed
    assert thirds(Told(*first), [0]) is None
    assert thirds(Told(*[1] * 20, *[9] * 10), []) is None


def test_portions_of_traces_and_of_the_program(put):
    """Each flow's are the same, and sum to what it delivered, also from a moment on."""
    net = tcpsim.dumbbell(flows=2, rate='2M', rtt='40ms', start=['50ms', '300ms'], end='4s')
    traced = Figures(net.parsed, ''.join(trace(assemble(net.text.encode()))).splitlines())
    portions = traced.portions()
    assert len(portions) == PORTIONS
    assert [sum(column) for column in zip(*portions)] == [flow.delivered() for flow in traced.flows]
    later = Figures(net.parsed, ''.join(trace(assemble(net.text.encode()))).splitlines(), 10**9, 3 * 10**9)
    assert len(later.portions()) == PORTIONS
    assert [sum(column) for column in zip(*later.portions())] == [flow.delivered() for flow in later.flows]
    for run in (tcpsim.run(net, engine=PROGRAM), tcpsim.run(net, engine='model'), tcpsim.run(net, queues={'qp': OneList})):
        assert run.figures._run.portions() == portions
    assert EngineRun(net.parsed, figures(assemble(net.text.encode()))).portions() == ()


def test_the_flows_that_were_chosen():
    """Of the last flow, which begins late, goodput changes, and of the first it does not."""
    net = tcpsim.dumbbell(flows=2, rate='2M', rtt='40ms', start=['0', '2.5s'], end='4s')
    run = Figures(net.parsed, ''.join(trace(assemble(net.text.encode()))).splitlines())
    both = {number: [sum(portion[number] for portion in part) for part in (run.portions()[:10], run.portions()[-10:])] for number in (0, 1)}
    for chosen in ([0], [1]):
        first, last = ((8 * count / (4 / 3) / 1e6) for count in both[chosen[0]])
        said = [words for words in too_short(run, chosen) if words.startswith('Not settled')]
        assert said[0].startswith(f'Not settled: goodput is {first:.3f} Mbit/s in the first third and {last:.3f} in the last')


class OneList:
    """A queue that drops nothing."""

    word = 'none'

    def __init__(self):
        self.packets = []

    def offer(self, packet, now, drop):
        self.packets.append(packet)

    def take(self, now, drop):
        return self.packets.pop(0) if self.packets else None


def test_a_queue_of_ones_own_has_no_tooth():
    net = tcpsim.dumbbell(flows=1, rate='4M', rtt='200ms', queue='droptail:BDP', end='2s')
    assert not [words for words in tcpsim.run(net, queues={'pq': OneList}).figures.too_short if words.startswith('Too short')]


@pytest.mark.parametrize('flows, rate, trip, queue, end', [
    (3, '10M', ['40ms', '80ms', '120ms'], 'droptail:BDP', '10s'), (1, '4M', '200ms', 'droptail:BDP', '12s'), (4, '1M', '200ms', 'droptail:BDP', '3s'),
    (2, '5M', '60ms', 'droptail:BDP', '10s'), (3, '5M', '200ms', 'codel:5ms:100ms', '10s'), (2, '2M', '80ms', 'codel:5ms:100ms', '10s'),
    (1, '10M', '50ms', 'codel:5ms:100ms', '2s'), (4, '10M', '40ms', 'droptail:BDP', '10s')])
def test_advice_ends_with_its_first_round(flows, rate, trip, queue, end):
    """Of a run that is too short or has not settled: one end, and a run to it says nothing more."""
    def said(end, begin=None):
        net = tcpsim.dumbbell(flows=flows, rate=rate, rtt=trip, queue=queue, end=end)
        return too_short(Portions(net, begin))
    words = said(end)
    first, last = re.search(r' from (\S+) on, to an end of (\S+)\.$', words[-1]).groups()
    assert sum(sentence.count(' an end of ') for sentence in words) == 1
    assert said(last, time(first)) == []


class Portions:
    """What flows deliver from `begin` on, of a run by the program."""

    def __init__(self, net, begin):
        self.scenario, self.begin = net.parsed, begin or 0
        self.flows, self.end = self.scenario.flows, self.scenario.end
        self._text = net.text.encode()

    def goodput(self, _number):
        return 1

    def completed(self, _number):
        return None

    def portions(self):
        return portions_of(PROGRAM, self._text, None, self)


# ---- tools, sweeps and Python

@pytest.fixture(scope='module')
def short(tmp_path_factory):
    """A flow that is in its first rise, and its file."""
    net = tcpsim.dumbbell(flows=1, rate='4M', rtt='200ms', queue='droptail:BDP', end='12s')
    path = tmp_path_factory.mktemp('short') / 'short.txt'
    net.save(path)
    return net, str(path)


LONG = "Too short: a tooth of f0's sawtooth takes about"


def test_tools_say_it(short):
    for words in ((), ('--engine',)):
        lines = tool('flows', short[1], *words, '--program', PROGRAM).stdout.decode().splitlines()
        assert [line for line in lines if line.startswith(LONG)] and not lines[-3].startswith(LONG)
    lines = tool('flows', short[1], '--program', PROGRAM).stdout.decode().splitlines()
    assert lines[-1].startswith('Not settled: goodput is ')
    assert 'short' not in tool('flows', short[1], '--csv', '--program', PROGRAM).stdout.decode()


def test_python_says_it(short):
    run = tcpsim.run(short[0], engine='model').figures
    assert run.too_short[0].startswith(LONG) and repr(run).endswith(run.too_short[-1])
    assert LONG.replace("'", '&#x27;') in run._repr_html_()
    assert tcpsim.run(tcpsim.dumbbell(flows=1, rate='1M', rtt='20ms', queue='codel:12ms:100ms', end='10s'), engine='model').figures.too_short == ()


def test_sweeps_say_it(short):
    words = short[1], '--set', 'pq.queue=droptail:5,BDP', '--program', PROGRAM
    for more in ((), ('--over', 'f0.start=0,10ms'), ('--show', 'f0.goodput')):
        last = tool('sweep', *words, *more).stdout.decode().splitlines()[-1]
        assert last.startswith(LONG) and last.endswith('2 of 2 settings are too short, most of all pq.queue=droptail:BDP.')
    assert LONG not in tool('sweep', *words, '--csv').stdout.decode()
    assert LONG not in tool('sweep', *words, '--set', 'f0.segments=20').stdout.decode()


def changes(lines):
    """The sentences on goodput that changes."""
    return [line for line in lines if line.startswith('Not settled: ')]


def test_sweeps_that_are_asked_say_what_changes(tmp_path):
    """The model's flow of 50 Mbit/s and 200 ms, in a minute: a sweep says of each setting what tcpsim-flows says of that run, and what
    would do. Its rows are those of a sweep that is not asked."""
    net = tcpsim.dumbbell(flows=1, rate='50M', rtt='200ms', queue='droptail:BDP', end='60s')
    net.save(tmp_path / 'short.txt')
    words = str(tmp_path / 'short.txt'), '--skip', '10s', '--program', PROGRAM
    alone = tool('flows', words[0], '--from', '10s', *words[3:]).stdout.decode().splitlines()
    for more in ((), ('--over', 'f0.start=0,100ms')):
        lines = tool('sweep', *words, '--set', 'pq.queue=droptail:BDP', *more, '--settled').stdout.decode().splitlines()
        assert changes(lines) == changes(alone) and lines[-1] == alone[-1] and sum(line.count(' an end of ') for line in lines) == 1
        row, = (line for line in lines if line.startswith('droptail:BDP'))
        assert row.endswith(' no')
    asked = tool('sweep', *words, '--set', 'pq.queue=droptail:BDP,20', '--settled', '--csv', '-o', tmp_path / 's.csv').stdout.decode()
    plain = tool('sweep', *words, '--set', 'pq.queue=droptail:BDP,20', '--csv').stdout.decode()
    assert [line.rpartition(',')[::2] for line in asked.splitlines()] == list(zip(plain.splitlines(), ('settled', 'no', 'no')))
    assert (tmp_path / 's.csv').read_text() == plain


def test_what_has_settled_is_told_too(short, tmp_path):
    """Of two settings one has settled. Of the first runs alone it is asked; a run that ends by itself has no thirds."""
    path = short[1]
    words = path, '--set', 'pq.rate=4M,200k', '--set', 'pq.queue=droptail:BDP', '--settled', '--program', PROGRAM
    lines = tool('sweep', *words).stdout.decode().splitlines()
    assert [line.split()[-1] for line in lines[1:4]] == ['settled', 'no', 'yes'] and lines[-1].endswith(
        ' 1 of 2 settings have not settled, most of all pq.rate=4M pq.queue=droptail:BDP.')
    rows = tool('sweep', *words, '--over', 'f0.start=0,1ms', '--csv').stdout.decode().splitlines()
    assert [line.split(',')[-1] for line in rows] == ['settled', 'no', 'yes']
    assert tool('sweep', path, '--set', 'f0.segments=9', '--settled', '--program', PROGRAM).stdout.decode().splitlines()[-1].endswith(' -')
    for more in (('--print', str(tmp_path / 'jobs')), ()):
        done = tool('sweep', *([path, '--set', 'end=1s'] if more else ['--gather', str(tmp_path)]), '--settled', *more)
        assert done.returncode == 2 and b'--settled' in done.stderr


def test_a_search_says_it_of_its_answers(short):
    words = short[1], '--vary', 'pq.queue=droptail:29..33', '--least', '--so-that', 'f0.goodput >= 1M', '--program', PROGRAM
    lines = tool('find', *words).stdout.decode().splitlines()
    answer, = (line for line in lines if ' least' in line and not line.startswith('pq.queue'))
    queue = answer.split()[0]
    swept = tool('sweep', short[1], '--set', f'pq.queue={queue}', '--settled', '--program', PROGRAM).stdout.decode().splitlines()
    assert changes(lines) == changes(swept) != []
    found = tcpsim.find(short[0], {'pq.queue': 'droptail:29..33'}, 'f0.goodput >= 1M', engine=PROGRAM)
    assert found.answer['settled'] is False and changes(repr(found).splitlines()) == changes(lines)
    assert [row['settled'] for row in found.around if row['is'] != 'answer'] == [None] * (len(found.around) - 1)


def test_python_asks_it(short):
    settings = {'pq.queue': 'droptail:5,BDP'}
    asked, plain = (tcpsim.sweep(short[0], settings, engine=PROGRAM, settled=each) for each in (True, False))
    assert [row['settled'] for row in asked.rows] == [row['settled'] for row in asked.means] == [False, False]
    assert 'settled' not in plain.rows[0] and not changes(repr(plain).splitlines()) and len(changes(repr(asked).splitlines())) == 1
