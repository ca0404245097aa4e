"""Tests of tcpsim-find: its answers against those of trying every value, its sentences, and what it reads and writes beside a sweep."""
import importlib.util
import os
import random
import re
import statistics

import pytest

from clone import PROGRAM, csv_rows, read_text, tool
import tcpsim
from tcpsim.cli import net as command
from tcpsim.sweeps.conditions import conditions_of, decimal, percent
from tcpsim.sweeps.means import Averaged, Mean
from tcpsim.sweeps.pattern import Pattern, setting
from tcpsim.sweeps.search import Asked, Quest, first_places
from tcpsim.command_line import Wrong

# Twelve segments at once over 1 Mbit/s: with room for N packets some are dropped, and with 11 none is.
BURST = '''sim 12000000000
node s sender
node r receiver
link a s r 1000000 1000000 droptail 7
link b r s 1000000 1000000 droptail 1000
flow f s r 1000 40 0 12000 0
'''
TWO = command.scenario(['dumbbell', '--flows', '2', '--rate', '1M', '--rtt', '40ms,70ms', '--end', '3s'])


def find(*words, **more):
    return tool('find', *words, '--program', PROGRAM, encoding='utf-8', **more)


def sentence(done):
    """Its one sentence behind what it says of its progress."""
    lines = [line for line in done.stderr.splitlines() if not re.match(r'\d+ of \d+ runs', line)]
    assert len(lines) == 1, lines
    return lines[0].removeprefix('tcpsim-find: ')


# ---- answers

def test_by_hand(put):
    """The window is twelve segments, of which one is sent and eleven wait: 11 is the least room in which none is dropped."""
    done = find(put('burst.txt', BURST), '--vary', 'a.queue=droptail:1..50', '--least', '--so-that', 'a.dropped <= 0')
    lines = done.stdout.splitlines()
    assert lines[0] == 'a.queue of droptail:1 to droptail:50: the least so that a.dropped <= 0'
    assert [line.split() for line in lines[2:5]] == [['droptail:10', '1', 'not', 'met'], ['droptail:11', '0', 'least', '1', '1'],
                                                     ['droptail:12', '0', 'met']]
    assert re.fullmatch(r'\d+ runs; to try every value would take 50\.', lines[5]) and len(lines) == 6 and done.returncode == 0


def test_it_tries_fewer_values_where_a_figure_rises(put):
    """Of 1,000 values ten to the left of the answer are left, and the halves of one stretch."""
    done = find(put('burst.txt', BURST), '--vary', 'a.queue=droptail:1..1000', '--least', '--so-that', 'a.dropped < 1')
    assert 'droptail:11' in done.stdout and int(re.search(r'(\d+) runs', done.stdout)[1]) < 30


QUESTIONS = [('a', 'pq.queue=droptail:1..40', ('pq.used >= {}%', (60, 99)), ''), ('b', 'pq.queue=droptail:1..40', ('pq.wait95 <= {}ms', (10, 300)), ''),
             ('c', 'pq.rate=200k..2M/50k', ('f0.goodput >= {}k', (100, 900)), ''), ('d', 'pq+qp.delay=1ms..80ms/2ms', ('pq.used > 0.{}', (60, 99)), ''),
             ('e', 'f1.start=0..2s/50ms', ('f0.timeouts < {}', (1, 4)), 'f0.goodput'), ('f', 'pq.queue=codel:1ms..40ms/1ms:100ms', ('pq.dropped <= {}', (1, 40)), 'pq.wait95'),
             ('g', '*.rwnd=3k..40k/1k', ('pq.queue_max < {}', (2, 20)), 'run.goodput'), ('h', 'end=500ms..3s/50ms', ('pq.dropped < {}', (1, 20)), 'f1.goodput')]


def questions(count, seed):
    """What is searched for, drawn: a scenario, a setting, a condition, and which value."""
    draw = random.Random(seed)
    for _ in range(count):
        _, vary, (words, (low, high)), best = draw.choice(QUESTIONS)
        words = words.format(draw.randint(low, high))
        which = draw.choice(['least', 'greatest', *(['min', 'max'] if best else [])])
        net = tcpsim.dumbbell(flows=2, rate=draw.choice(['500k', '1M', '2M']), rtt=draw.choice([['20ms', '50ms'], ['40ms']]), end='3s',
                              queue=f'droptail:{draw.randint(3, 30)}')
        yield net, vary, words, which, best


def by_trying_all(net, vary, words, which, best):
    """The word of the value that is the answer, of a sweep over all values; None where there is none."""
    pattern = Pattern(net.text)
    key, _, values = vary.partition('=')
    condition, = conditions_of([words], pattern)
    names = list(dict.fromkeys([condition.column.name, *([best] if best else [])]))
    rows = [row for row in tcpsim.sweep(net, {key: values}, show=names, engine=PROGRAM, jobs=2).rows
            if row['status'] == 'done' and row[condition.column.title] is not None and
            condition.holds(Mean(row[condition.column.title], None, 1), 1)]
    if which in ('min', 'max'):
        title = next(title for title in rows[0] if title.startswith(best)) if rows else ''
        rows = sorted((row for row in rows if row[title] is not None), key=lambda row: row[title] * (-1 if which == 'max' else 1))
    return (rows[-1 if which == 'greatest' else 0] if rows else {}).get(key)


def test_drawn_questions(request):
    """The answer is that of trying every value."""
    for number, (net, vary, words, which, best) in enumerate(questions(request.config.option.questions, 4)):
        is_best = which in ('min', 'max')
        key, _, values = vary.partition('=')
        found = tcpsim.find(net, {key: values}, words, which='least' if is_best else which, best=f'{which} {best}' if is_best else None,
                            engine=PROGRAM, jobs=2)
        wanted = by_trying_all(net, vary, words, which, best if is_best else '')
        assert (found.answer or {}).get(key) == wanted, (number, vary, words, which, best, found)


def quest(met, which='least', check=10**6, first=None, best=None):
    """The search over values of which it is known which meet the conditions, once it is over."""
    setting_ = setting(f'a.queue=droptail:1..{len(met)}', Pattern(BURST))
    it = Quest(len(met), first or first_places(setting_), Asked(which, (), best, check))
    while places := it.wanted():
        for place in places:
            assert place not in it.tried
            it.tried[place], it.met[place] = Averaged({}, '', 'done', {}), met[place]
    return it


def test_all_that_could_be_better_is_tried():
    """Of values that meet the conditions at random, the least and the greatest are found, and what is beyond them was tried."""
    draw = random.Random(3)
    for _ in range(500):
        met = [draw.random() < draw.choice([0, .02, .5]) for _ in range(draw.randint(1, 80))]
        for which, wanted in (('least', met.index(True) if True in met else None),
                              ('greatest', len(met) - 1 - met[::-1].index(True) if True in met else None)):
            it = quest(met, which)
            assert (it.answer, it.left()) == (wanted, []), (met, which)


def test_a_stretch_in_which_the_answer_changes_is_halved():
    """With no further values 1,000 take the first ones and ten more, and as many stretches as there are changes."""
    for answer in (1, 17, 499, 998):
        it = quest([False] * answer + [True] * (1_000 - answer), check=0)
        assert it.answer == answer and len(it.tried) <= 11 + 10 + 2
    it = quest([500 <= place < 503 or place > 700 for place in range(1_000)], check=0, first=[0, 501, 600, 999])
    assert it.stretches() == [(False, 0, 499), (True, 500, 502), (False, 503, 700), (True, 701, 999)] and it.answer == 500


def test_what_was_not_tried_is_told(put):
    words = put('burst.txt', BURST), '--vary', 'a.queue=droptail:1..50', '--least', '--so-that', 'a.dropped <= 0'
    done = find(*words, '--grid', '1,50', '--check', '0')
    assert 'lesser ones were not tried: --check 50 tries all.\n' in done.stdout and '\ndroptail:11' in done.stdout
    done = find(*words[:4], '--so-that', 'f.timeouts > 100', '--check', '3', '--grid', '1,2')
    assert 'None of 5 values that were tried meets it; 45 were not tried: --check 50 tries all.\n' in done.stdout
    done = find(*words[:4], '--so-that', 'f.timeouts > 100')
    assert 'None of 50 values that were tried meets it, and these are all.\n' in done.stdout and done.returncode == 0
    done = find(*words[:4], '--so-that', 'f.sent > 0')
    assert 'droptail:1 is the least value that was asked about: others beyond it may meet it too.\n' in done.stdout


def test_met_lost_and_met_again_is_told(put):
    """With room for four packets the flow has one timeout, for five two, and for six or more one at most."""
    done = find(put('burst.txt', BURST), '--vary', 'a.queue=droptail:1..30', '--least', '--so-that', 'f.timeouts < 2')
    assert 'a.queue is met, lost and met again: met at droptail:4, lost at droptail:5, met from droptail:6 to droptail:30.\n' in done.stdout
    done = find(put('burst.txt', BURST), '--vary', 'a.queue=droptail:5..30', '--least', '--so-that', 'f.timeouts < 2')
    assert 'again' not in done.stdout and done.returncode == 0


def test_of_replicates_the_whole_interval_meets_it(put):
    """The means of three starts, and their intervals by Student's t, are those of a sweep."""
    sets = {'pq.queue': 'droptail:1..25'}, {'f1.start': '0..200ms/100ms'}
    means = tcpsim.sweep(tcpsim.from_text(TWO), sets[0], over=sets[1], show='pq.used', engine=PROGRAM).means
    meets = [each['pq.used_percent_mean'] - each['pq.used_percent_half_width'] >= 60 for each in means]
    assert meets != [each['pq.used_percent_mean'] >= 60 for each in means]
    done = find(put('two.txt', TWO), '--vary', 'pq.queue=droptail:1..25', '--over', 'f1.start=0..200ms/100ms', '--least', '--so-that',
                'pq.used >= 60%', '--csv')
    rows = csv_rows(done.stdout)
    answer, = (row for row in rows if row['is'] == 'answer')
    assert answer['pq.queue_packets'] == str(meets.index(True) + 1)
    assert answer['pq.used_percent_mean'] == f'{means[meets.index(True)]["pq.used_percent_mean"]:.6f}' and answer['pq.used_percent_runs'] == '3'
    assert [row['is'] for row in rows] == ['not met', 'answer', 'met' if meets[meets.index(True) + 1] else 'not met']
    table = find(put('two.txt', TWO), '--vary', 'pq.queue=droptail:1..25', '--over', 'f1.start=0..200ms/100ms', '--least', '--so-that', 'pq.used >= 60%')
    assert table.stdout.startswith('pq.queue of droptail:1 to droptail:25: the least so that pq.used >= 60%, means over f1.start=0..200ms, whose '
                                   '95 % interval meets it\n')


def test_each_choice_has_its_answer(put):
    words = put('two.txt', TWO), '--vary', 'pq.queue=droptail:1..40', '--least', '--so-that', 'pq.used >= 68%'
    both = csv_rows(find(*words, '--set', 'pq+qp.delay=5ms,20ms', '--csv').stdout)
    for delay in ('5ms', '20ms'):
        alone = csv_rows(find(*words, '--set', f'pq+qp.delay={delay}', '--csv').stdout)
        assert [row for row in both if row['pq+qp.delay'] == delay] == alone and len(alone) > 1
        # A sender's and a receiver's cables have 5 ms each of 40 and 20 and 5 of 70, and 1 Mbit/s sends a packet of 1,500 bytes in 12 ms.
        trip = statistics.mean([2 * (int(delay[:-2]) + 10), 2 * (int(delay[:-2]) + 25)])
        answer = next(row for row in alone if row['is'] == 'answer')
        assert (answer['BDP_packets'], answer['BDP/sqrt(n)_packets']) == (str(int(trip / 12)), str(int(trip / 12 / 2**.5)))


# ---- values and conditions

def test_values_of_conditions():
    assert [percent(word) for word in ('95%', '0.95', '1', '0', '0.5%')] == [95, 95, 100, 0, .5]
    for word, why in (('95', 'write 95% or 0.95'), ('95ms', "'95ms' is no number of percent: write 95% or 0.95"), ('x%', 'is no number'), ('', 'is no number'), ('1e3', 'is no number')):
        with pytest.raises(Wrong, match=why):
            percent(word)
    assert decimal('1.5') == 1.5
    pattern = Pattern(TWO)
    with pytest.raises(Wrong, match="'5ms' is no number: f0.timeouts is in times, so write one without a unit"):
        conditions_of(['f0.timeouts < 5ms'], pattern)
    found = conditions_of(['f0.goodput >= 1M and pq.wait95<20ms', 'run.jain > 0.9 and *.timeouts <= 3'], pattern)
    assert [(each.column.name, each.sign, each.value) for each in found] == [
        ('f0.goodput', '>=', 10**6), ('pq.wait95', '<', 20 * 10**6), ('run.jain', '>', .9), ('f0.timeouts', '<=', 3), ('f1.timeouts', '<=', 3)]
    for word, why in (('pq.used', 'write FIGURE SIGN VALUE'), ('pq.used = 95%', 'write FIGURE SIGN VALUE'), ('pq.wait95 < 20', 'as it has no unit'),
                      ('pq.wait95 < 20ms or pq.used > 0.5', 'write FIGURE SIGN VALUE'), ('nosuch.used > 0.5', 'no flow or link'), ('pq.x > 1', 'no figure')):
        with pytest.raises(Wrong, match=why) as wrong:
            conditions_of([word], pattern)
        assert str(wrong.value).startswith('--so-that ')


@pytest.mark.parametrize('words, why', [
    (['--vary', 'pq.queue=droptail:1..9', '--so-that', 'pq.used > 0.5'], 'one of the arguments --least --greatest --best is required'),
    (['--vary', 'pq.queue=droptail:1..9', '--least', '--greatest', '--so-that', 'pq.used > 0.5'], 'not allowed with argument'),
    (['--vary', 'pq.queue=droptail:1..9', '--least'], '--least wants a condition'),
    (['--vary', 'pq.queue=droptail:1..9', '--best', 'f0.goodput'], 'write min or max and one figure'),
    (['--vary', 'pq.queue=droptail:1..9', '--best', 'max *.goodput'], 'write min or max and one figure'),
    (['--vary', 'pq.queue=droptail:1..9,codel:5ms:100ms', '--least', '--so-that', 'pq.used > 0.5'], 'the values rise in one number'),
    (['--vary', 'pq.queue=droptail:1,BDP', '--least', '--so-that', 'pq.used > 0.5'], 'the values rise in one number'),
    (['--vary', 'f0.variant=reno,newreno', '--least', '--so-that', 'pq.used > 0.5'], 'have no order'),
    (['--vary', 'pq.nosuch=1..2', '--least', '--so-that', 'pq.used > 0.5'], 'there is no field'),
    (['--vary', 'pq.queue=droptail:1..9', '--set', 'pq.queue=droptail:3', '--least', '--so-that', 'pq.used > 0.5'], 'twice'),
    (['--vary', 'pq.queue=droptail:1..9', '--grid', '1,20', '--least', '--so-that', 'pq.used > 0.5'], 'droptail:20 is none of the values'),
    (['--vary', 'pq.queue=droptail:1..9', '--least', '--so-that', 'pq.used > 0.5', '--resume', 'a', '-o', 'b'], 'goes without -o'),
])
def test_wrong_words(put, words, why):
    done = find(put('two.txt', TWO), *words)
    assert (done.returncode, done.stdout) == (2, '') and why in sentence(done)


# ---- beside a sweep

def test_rows_are_those_of_a_sweep_and_are_taken_up(put, tmp_path):
    words = put('two.txt', TWO), '--vary', 'pq.queue=droptail:1..30', '--least', '--so-that', 'pq.used >= 60%'
    done = find(*words, '-o', tmp_path / 'f.csv')
    rows = csv_rows(read_text(tmp_path / 'f.csv'))
    swept = tool('sweep', words[0], '--set', 'pq.queue=droptail:1..30', '--show', 'pq.used', '--program', PROGRAM, '-o', tmp_path / 's.csv')
    every = {row['pq.queue']: row for row in csv_rows(read_text(tmp_path / 's.csv'))}
    assert swept.returncode == 0 and 3 < len(rows) < 30 and [every[row['pq.queue']] for row in rows] == rows
    (tmp_path / 'cut.csv').write_text(''.join(read_text(tmp_path / 'f.csv').splitlines(True)[:4]))
    again = find(*words, '--resume', tmp_path / 'cut.csv')
    assert again.stderr.startswith('3 of 30 runs have their row in ') and again.stdout == done.stdout
    assert read_text(tmp_path / 'cut.csv') == read_text(tmp_path / 'f.csv')
    whole = find(*words, '--resume', tmp_path / 's.csv')       # a sweep's rows serve too
    assert whole.stderr == f'30 of 30 runs have their row in {tmp_path}/s.csv\n'
    other = find(*words[:4], '--so-that', 'pq.used >= 60%', '--skip', '1s', '--resume', tmp_path / 'f.csv')
    assert other.returncode == 2 and 'from another moment on' in sentence(other)


@pytest.mark.wants(parallel='parallel')
def test_on_parallel(put, tmp_path):
    words = put('two.txt', TWO), '--vary', 'pq.queue=droptail:1..30', '--least', '--so-that', 'pq.used >= 60%'
    done = find(*words, '--on', 'parallel', '-j', '2', cwd=tmp_path)
    assert (done.returncode, done.stdout) == (0, find(*words).stdout), done.stderr
    assert [name for name in os.listdir(tmp_path) if name.startswith('tcpsim-sweep-')] == []


def test_refused_values_are_told(put):
    done = find(put('burst.txt', BURST), '--vary', 'a.queue=droptail:0..20', '--least', '--so-that', 'a.dropped <= 0', '--check', '0')
    assert '1 of ' in done.stdout and ' values have no figures: refused E5 line 4.\n' in done.stdout and 'droptail:11' in done.stdout
    assert done.returncode == 0


@pytest.mark.skipif(not importlib.util.find_spec('matplotlib'), reason='no matplotlib: apt-get install python3-matplotlib')
def test_picture(put, tmp_path):
    words = put('two.txt', TWO), '--vary', 'pq.queue=droptail:1..40', '--least', '--so-that', 'pq.used >= 68% and pq.wait95 < 1s'
    assert find(*words, '--set', 'pq+qp.delay=5ms,20ms', '--plot', tmp_path / 'f.svg').returncode == 0
    answers = re.findall(r'(droptail:\d+) .* least  +\d', find(*words, '--set', 'pq+qp.delay=5ms,20ms').stdout)
    drawn = read_text(tmp_path / 'f.svg')
    assert drawn.startswith('<?xml') and len(answers) == 2 and all(f'<!-- {each} -->' in drawn for each in [*(it.partition(':')[2] for it in answers), '&gt;= 68%', '&lt; 1s'])


def test_in_python(put):
    net = tcpsim.from_text(TWO)
    found = tcpsim.find(net, {'pq.queue': 'droptail:1..40'}, 'pq.used >= 68%', engine=PROGRAM)
    table = find(put('two.txt', TWO), '--vary', 'pq.queue=droptail:1..40', '--least', '--so-that', 'pq.used >= 68%').stdout
    assert repr(found) + '\n' == table and found.answer['is'] == 'answer' and found.runs == len(found.rows)
    assert found.answer['pq.used_percent_mean'] > 68 and found.answer['pq.queue'] == f'droptail:{found.answer["pq.queue_packets"]}'
    none = tcpsim.find(net, {'pq.queue': 'droptail:1..3'}, 'pq.used > 0.99', engine=PROGRAM)
    assert none.answer is None and none.answers == [None]
    both = tcpsim.find(net, {'pq.queue': 'droptail:1..9'}, best='max f0.goodput', settings={'pq+qp.delay': ['5ms', '20ms']}, engine=PROGRAM)
    assert len(both.answers) == 2 and [each['pq+qp.delay'] for each in both.answers] == ['5ms', '20ms']
    with pytest.raises(tcpsim.Wrong, match='take .answers'):
        both.answer
    with pytest.raises(tcpsim.Wrong, match='one setting in vary'):
        tcpsim.find(net, {}, 'pq.used > 0.5')
    with pytest.raises(tcpsim.Wrong, match='one setting in vary'):
        tcpsim.find(net, {'pq.queue': 'droptail:1..9'}, 'pq.used > 0.5', which='most')


def test_a_shape_is_varied(put):
    """The least rate of a dumbbell that carries so much, of one flow and of two."""
    net = tcpsim.dumbbell(flows=1, rate='1M', rtt='40ms', end='2s')
    done = find(put('net.txt', net.text), '--set', 'flows=1,2', '--vary', 'rate=200k..2M/100k', '--least', '--so-that', 'run.goodput >= 500k', '--csv')
    answers = {row['flows']: row for row in csv_rows(done.stdout) if row['is'] == 'answer'}
    for flows in ('1', '2'):
        rates = [(rate, tcpsim.run(tcpsim.dumbbell(flows=flows, rate=f'{rate}', rtt='40ms', end='2s'), engine=PROGRAM).figures)
                 for rate in range(200_000, 2_000_001, 100_000)]
        wanted = next(rate for rate, run in rates if sum(flow.delivered_bytes for flow in run.flows.values()) * 8 / 2 >= 500_000)
        assert answers[flows]['rate_bit_s'] == str(wanted)
