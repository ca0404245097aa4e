"""Tests of `tcpsim figures --every D`, `--series` and `--names`, of the built program and of the model. Some rows are worked out by
hand; on every example they are those that tcpsim/traces/series.py finds in the trace, and sum to the table. test_figures.py has the
table."""
import re
from collections import Counter

import pytest

import clone
from clone import NAMES, of_model, outcome, paths, ran, tool
from tcpsim.figures import Figures
from tcpsim.scenario.text import Scenario
from tcpsim_model import figures, image, simulate
from tcpsim_model.text import assemble
from test_engine import PAST_THE_LAST
from test_figures import ONE_SEGMENT, random_texts
from test_series import AT_ITS_END, GREATEST, HEADING, LATER, MEDIAN, ROWS, steps_of
from test_sweep import text as sweep_text
from test_trace import BY_HAND

NO_MOMENT = b'error: --from takes a moment, as 1.5s, 20ms or 10000ns\n'
NO_STEP = b'error: --every takes a time above 0, as 1.5s or 20ms, and --series wants --every\n'
TOO_MANY = b'error: more than 10000000 rows; --every takes a longer step\n'


@pytest.fixture(params=[pytest.param(outcome, marks=pytest.mark.built), of_model], ids=['program', 'model'])
def answer(request):
    """What the program comes to with words and an input, and the model: (status, note, output)."""
    return request.param


@pytest.fixture
def written(answer):
    """What is written with these words behind `figures`, of a run that is done."""
    def write(words, text):
        status, note, out = answer(['figures', *words.split()], text if isinstance(text, bytes) else text.encode())
        assert (status, note) == (0, b'')
        return out.decode()
    return write


def values_by_time(rows, what):
    """Of each figure of one flow or link its values, a step after the other."""
    heading, *lines = rows.splitlines()
    assert heading == HEADING
    found = {}
    for time, *subject, figure, _, value in (line.split(',') for line in lines):
        if subject == what.split():
            found.setdefault('time', []).append(time)
            found.setdefault(figure, []).append(value)
    found['time'] = sorted(set(found['time']), key=int)
    return {figure: ' '.join(values) for figure, values in found.items()}


def has(rows, what, **values):
    """Each figure of one flow or link has these values, and any that is not named has 0 in each step."""
    found = values_by_time(rows, what)
    named = {name.replace('_', ' '): value for name, value in values.items()}
    assert {figure: value for figure, value in found.items() if figure in named or set(value.split()) != {'0'}} == named


# ---- by hand

def test_a_fast_retransmit_behind_a_full_queue(written):
    """test_series.py has the account of these rows."""
    assert written('--every 4ms --series', BY_HAND) == ROWS
    assert written('--every 4ms', BY_HAND) == written('', BY_HAND) + ROWS
    later = [line for line in ROWS.splitlines(True) if not line.startswith('0,')]
    assert written('--series --every=4000000 --from 4ms', BY_HAND) == ''.join(later)


def test_a_link_that_sends_past_the_last_event(written):
    """A byte takes 1 ms on a. 0 is sent from 0 to 1.04 s. At 1 s the timer sends it again: it waits for 40 ms, and is being sent
    from 1.04 s to the end. The first arrives at 1.041 s; its acknowledgement, 0.32 ms on b, is the last event, at 1.04232 s.
    cwnd is 1000 after the timeout, and one segment more after that."""
    rows = written('--every 300ms --series', PAST_THE_LAST)
    has(rows, 'flow 0', time='0 300000000 600000000 900000000 1200000000 1500000000 1800000000', delivered='0 0 0 1000 0 0 0',
        sent='1 0 0 1 0 0 0', sent_again_by_timeout='0 0 0 1 0 0 0', timeouts='0 0 0 1 0 0 0',
        cwnd='4000 4000 4000 2000 2000 2000 2000', in_flight='1000 1000 1000 0 0 0 0')
    times = values_by_time(rows, 'flow 0')['time']
    has(rows, 'link 0', time=times, busy='300000000 ' * 6 + '200000000', sent_packets='1 0 0 1 0 0 0', sent_bytes='1040 0 0 1040 0 0 0',
        waited='0 0 0 40000000 0 0 0', greatest_queue='0 0 0 1 0 0 0', median_delay_in_the_queue='0 - - 40000000 - - -')
    has(rows, 'link 1', time=times, busy='0 0 0 320000 0 0 0', sent_packets='0 0 0 1 0 0 0', sent_bytes='0 0 0 40 0 0 0',
        median_delay_in_the_queue='- - - 0 - - -')


@pytest.mark.parametrize('step, times', [('1s', '0 1000000000'), ('2s', '0'), ('1999999999', '0 1999999999'), ('20s', '0')])
def test_a_step_that_ends_with_the_scenario_is_the_last(written, step, times):
    assert values_by_time(written(f'--every {step} --series', PAST_THE_LAST), 'link 0')['time'] == times


def test_a_flow_that_starts_late(written):
    """At 5 ms; the packet is sent up to 6.04 ms and arrives at 7.04. The acknowledgement is sent up to 7.08 ms, and comes at 8.08,
    the last event."""
    rows = written('--every 2ms --series', LATER)
    times = '0 2000000 4000000 6000000 8000000'
    has(rows, 'flow 0', time=times, delivered='0 0 0 1000 0', sent='0 0 1 0 0', cwnd='- - 4000 4000 5000', in_flight='- - 1000 1000 0')
    has(rows, 'link 0', time=times, busy='0 0 1000000 40000 0', sent_packets='0 0 1 0 0', sent_bytes='0 0 1040 0 0',
        median_delay_in_the_queue='- - 0 - -')
    has(rows, 'link 1', time=times, busy='0 0 0 40000 0', sent_packets='0 0 0 1 0', sent_bytes='0 0 0 40 0',
        median_delay_in_the_queue='- - - 0 -')


@pytest.mark.parametrize('words, cwnd, sent', [
    ('--every 5ms', '- 5000', '0 1'), ('--every 5000001ns', '4000 5000', '1 0'), ('--every 8.08ms', '4000 5000', '1 0'),
    ('--every 8080001', '5000', '1'), ('--every 1ms --from 5ms', '4000 4000 4000 5000', '1 0 0 0'), ('--every 1s --from 5000001', '5000', '0')])
def test_a_step_has_its_begin_and_not_its_end(written, words, cwnd, sent):
    """The flow starts at 5 ms, and its last event is at 8.08 ms."""
    found = values_by_time(written(f'{words} --series', LATER), 'flow 0')
    assert (found['cwnd'], found['sent']) == (cwnd, sent)


def test_from_a_moment_past_the_end(written):
    """The table is that of an empty span, and one step follows. The window stays as it is at the end; what waits still waits."""
    rows = written('--every 1ms --series --from 2s', ONE_SEGMENT)
    has(rows, 'flow 0', time='2000000000', cwnd='5000', in_flight='0')
    for link in ('link 0', 'link 1'):
        has(rows, link, time='2000000000', median_delay_in_the_queue='-')
    assert written('--every 1ms --from 2s', ONE_SEGMENT) == written('--from 2s', ONE_SEGMENT) + rows
    cut = ONE_SEGMENT.replace('sim 1000000000', 'sim 500000').replace('1000 1 0', '1000 2 0')
    rows = written('--every 1ms --series --from 2s', cut)
    has(rows, 'flow 0', time='2000000000', cwnd='4000', in_flight='2000')
    has(rows, 'link 0', time='2000000000', greatest_queue='1', median_delay_in_the_queue='-')


# ---- the examples

def rows_of_trace(text, trace, step):
    return '\n'.join([HEADING, *(f'{begin},{",".join(column)},{"-" if value is None else value}'
                                 for begin, values in steps_of(text, trace, step) for column, value in values.items()), ''])


@pytest.mark.parametrize('name', NAMES)
def test_of_an_example(written, name):
    """The rows are those of its trace, and sum to the table."""
    text, trace = map(clone.read_text, paths(name))
    step = 1 + Figures(Scenario(text), trace.splitlines()).end // (3 + NAMES.index(name) % 5)
    rows = rows_of_trace(text, trace, step)
    table = written('', text)
    assert written(f'--every {step}', text) == table + rows
    sums, greatest = Counter(), Counter()
    for _, *words, value in (line.split(',') for line in rows.splitlines()[1:]):
        if words[2] == GREATEST:
            greatest[','.join(words)] = max(greatest[','.join(words)], int(value))
        elif words[2] not in (*AT_ITS_END, MEDIAN):
            sums[','.join(words)] += int(value)
    assert sums and greatest
    assert {f'{words},{value}' for found in (sums, greatest) for words, value in found.items()} <= set(table.splitlines())


def test_of_random_scenarios():
    """The model's rows are those of the trace, which go on to the end, with nothing in them, where a flow is not complete.
    dev/compare.py has the program's beside them."""
    longer = 0
    for name, text in random_texts():
        scenario = assemble(text.encode())
        trace = ''.join(simulate.trace(scenario))
        run = Figures(Scenario(text), trace.splitlines())
        step = 1 + run.end // (1 + len(trace) % 30)
        got, wanted = ''.join(figures.series(scenario, 0, step)), rows_of_trace(text, trace, step)
        assert wanted.startswith(got), name
        rest = [line.split(',') for line in wanted[len(got):].splitlines()]
        assert not rest or None in [flow.completed for flow in run.flows]
        assert {words[5] for words in rest if words[3] not in AT_ITS_END} <= {'0', '-'}
        longer += bool(rest)
    assert 0 < longer < 10


def test_they_are_those_of_tcpsim_flows(written):
    scenario, trace = paths('two_timeouts_in_a_row')
    done = tool('flows', scenario, trace, '--series', '200ms')
    assert done.stdout.decode() == written('--every 200ms --series', clone.read_text(scenario))


# ---- names

def test_names_of_a_text(written):
    """In a last column, of flows and links in the order of the text; without it the lines are the same."""
    for name in ('two_flows_share_fairly', 'parking_lot_of_three_routers'):
        text = clone.read_text(paths(name)[0])
        named = {word: re.findall(fr'^ *{word} +([a-z0-9]+) ', text, re.M) for word in ('flow', 'link')}
        assert len(named['flow']) > 1 and len(named['link']) > 1
        plain, lines = (written(f'--every 2s {more}', text).splitlines() for more in ('', '--names'))
        for without, line in zip(plain, lines, strict=True):
            before, _, last = line.rpartition(',')
            assert before == without
            words = without.split(',')
            what, number = words[-5:-3]
            assert last == ('name' if words[-1] == 'value' else '' if what == 'run' else named[what][int(number)])


def test_names_of_an_image(written):
    """It has none."""
    for version in (1, 2):
        data = image.save(assemble(BY_HAND.encode()), version)
        heading, *lines = written('--names', data).splitlines()
        assert (heading, lines) == ('what,number,figure,unit,value,name', [f'{line},' for line in written('', data).splitlines()[1:]])
        heading, *lines = written('--names --every 4ms --series', data).splitlines()
        assert (heading, lines) == (f'{HEADING},name', [f'{line},' for line in ROWS.splitlines()[1:]])


# ---- what is refused

@pytest.mark.parametrize('words', [
    *(['--every', word] for word in ('x', '0', '0s', '0.000ms', '1.5', '1.5m', '01', '1s ', '1000000000000001', '1.1234567890s')),
    ['--every=-1'], ['--series'], ['--series', '--names', '--from', '1s'], ['--every', '0', '--series']])
def test_what_is_no_step(answer, words):
    assert answer(['figures', *words], BY_HAND.encode()) == (2, NO_STEP, b'')


def test_more_rows_than_there_may_be(answer):
    """A step has 25, so that 400,000 steps are the most."""
    for end, last in ((12_000_000, 11_360_000), (10**15, 1_014_440_000)):
        text = BY_HAND.replace('sim 12000000', f'sim {end}').encode()
        assert answer(['figures'], text)[2].endswith(f'run,,end,ns,{last}\n'.encode())
        for words in (['--every', '1ns'], ['--every', '20ns', '--series'], ['--every', '1', '--from', str(last - 400_000)]):
            assert answer(['figures', *words], text) == (2, TOO_MANY, b''), words


def test_an_end_far_behind_the_last_event(answer):
    """The rows are those of the run, however many steps there would be up to the end."""
    near, far = (BY_HAND.replace('sim 12000000', f'sim {end}').encode() for end in (1_000_000_000_000, 10**15))
    for words in (['--every', '4ms'], ['--every', '4ms', '--series', '--names'], ['--every', '1ms', '--from', '2ms'],
                  ['--every', '1', '--from', '1014440000'], ['--every', '1', '--from', '999999999600000ns'], ['--every', '2500000000']):
        status, note, out = answer(['figures', *words], far)
        assert (status, note) == (0, b'') and len(out.splitlines()) > 25
        assert out == answer(['figures', *words], near)[2], words


def test_what_is_judged_first(answer):
    """The input, then the moment, then the step, then the rows."""
    for words, text, wanted in ((['--from', 'x', '--every', '0'], 'sim 01\n', (1, b'refused E4 line 1\n', b'')),
                                (['--every', '0', '--from', 'x'], BY_HAND, (2, NO_MOMENT, b'')),
                                (['--series', '--from', 'x'], BY_HAND, (2, NO_MOMENT, b'')),
                                (['--from', 'x', '--every', '1'], BY_HAND, (2, NO_MOMENT, b'')),
                                (['--every', '1'], BY_HAND, (2, TOO_MANY, b''))):
        assert answer(['figures', *words], text.encode()) == wanted


@pytest.mark.parametrize('words', [['--every'], ['--every', '1s', '--every', '1s'], ['--series=1', '--every', '1s'],
                                   ['--names', '--names'], ['--series', '--every', '1s', '--series']])
def test_words_that_are_mistaken(answer, words):
    status, note, out = answer(['figures', *words], BY_HAND.encode())
    assert (status, out) == (2, b'') and note not in (NO_MOMENT, NO_STEP, TOO_MANY)


@pytest.mark.parametrize('words, option', [('--every -1s', '-1'), ('--from -s', '-s'), ('--zz', '--zz'), ('-z', '-z'), ('--zz=1', '--zz')])
def test_an_option_that_there_is_not(answer, words, option):
    """Also where a time should be, as it begins with a sign."""
    status, note, out = answer(['figures', *words.split()], BY_HAND.encode())
    assert (status, out) == (2, b'') and note.decode() == (
        f"error: unexpected argument '{option}' found\n\n  tip: to pass '{option}' as a value, use '-- {option}'\n\n"
        "Usage: tcpsim figures [OPTIONS] [FILE]\n\nFor more information, try '--help'.\n")


# ---- the pages

def test_sweeps_has_an_example(tmp_path):
    """The scenario is that of the loop there."""
    base = clone.read_text(paths('four_flows_share_a_long_queue')[0])
    (tmp_path / 'sweep').mkdir()
    (tmp_path / 'sweep' / '20ms_codel_5.txt').write_text(sweep_text(base, 'end=60s', 'pq+qp.rate=2M', 'pq+qp.delay=20ms', 'pq.queue=codel:5ms:100ms'))
    part = clone.read_text('docs', 'SWEEPS.md').partition('\n## By time, with no trace\n')[2]
    *commands, shown = re.findall('^```\n(.*?)^```', part, re.M | re.S)
    script = ''.join(commands).replace('/tmp/', f'{tmp_path}/').replace('crates/tcpsim/out/tcpsim', clone.PROGRAM)
    done = ran('sh', '-c', script, text=True)
    assert (len(commands), done.stdout, done.stderr) == (2, shown, '')


def test_the_page_has_each_row_and_an_example():
    part = clone.read_text('docs', 'FORMATS.md').partition('\n**By time.** ')[2].partition('\n## ')[0]
    for what, of in (('each flow', 'flow'), ('each link', 'link')):
        named = re.findall('`([^`]*)`', re.search(fr'^\| {what} \| (.*) \|$', part, re.M)[1])
        assert named == [line.split(',')[3] for line in ROWS.splitlines()[1:] if line.startswith(f'4000000,{of},0,')]
    shown = re.search('^```\n(.*?)^```', part, re.M | re.S)[1]
    rows = of_model(['figures', '--every', '2ms', '--series', '--names'], ONE_SEGMENT.encode())[2].decode().splitlines(True)
    assert shown == ''.join(line for line in rows if ',link,' not in line)
