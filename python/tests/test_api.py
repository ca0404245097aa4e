"""Tests of `import tcpsim` beyond the examples of docs/PYTHON.md: figures beside those of tcpsim-flows, records beside the
trace's lines, the debugger beside its prompt, what is refused, and that processes end."""
import csv
import importlib.util
import io
import os
import pickle
import signal
import subprocess
import sys
import time

import pytest

import clone
from clone import TOP, csv_rows, paths, told, tool, until
import tcpsim
from tcpsim.api.answers import Missing, PastDrop, WaitingPacket
from tcpsim.api.events import Names, events_of
from tcpsim.program import BUILT

ENGINES = ['model', pytest.param('program', marks=pytest.mark.skipif(
    not os.path.exists(BUILT) and not os.environ.get('CI'), reason='the program is not built: make run'))]
MISTAKEN = 'sim 1000\nnode s sendr\n'


def example(name):
    return paths(name)[0]


def one():
    """A run of one segment, over within 4 ms of 1 s."""
    return tcpsim.run(example('one_segment'), engine='model')


def trace_of(name):
    return clone.example(name)[1]


def ran(*words, **more):
    return subprocess.run([sys.executable, *words], capture_output=True, text=True, check=True, timeout=600, **more).stdout


@pytest.fixture(params=ENGINES)
def engine(request):
    return request.param


def test_no_module_has_the_name_of_what_is_public():
    """Where such a module is imported it takes the name's place."""
    assert [name for name in tcpsim.__all__ if name[0] != '_' and importlib.util.find_spec(f'tcpsim.{name}')] == []
    assert set(dir(tcpsim)) == set(tcpsim.__all__)
    assert all(getattr(tcpsim, name) for name in tcpsim.__all__)


# ---- nets

def test_builders_write_the_texts_of_tcpsim_net():
    for build, words in ((tcpsim.dumbbell(flows=3, rate='2M', rtt=['20ms', '40ms']), 'dumbbell --flows=3 --rate=2M --rtt=20ms,40ms'),
                         (tcpsim.chain(hops=2, rate='1M,2M'), 'chain --hops=2 --rate=1M,2M'),
                         (tcpsim.parking_lot(cross=2, back_queue='droptail:9'), 'parking-lot --cross=2 --back-queue=droptail:9'),
                         (tcpsim.access_line(uploads=1, start=[0, '1s']), 'asymmetric --uploads=1 --start=0,1s'),
                         (tcpsim.tree(leaves=2), 'tree --leaves=2'), (tcpsim.islands(islands=3, flows=2), 'islands --islands=3 --flows=2')):
        assert build.text == told('net', *words.split())


def test_a_scenario_is_read_from_a_file_an_image_or_a_text(tmp_path, engine):
    net = tcpsim.read(example('one_segment'))
    assert (net.name, net.end_ns, list(net.links)) == ('one_segment', 10**9, ['a', 'b'])
    net.save(tmp_path / 'again.txt')
    assert tcpsim.read(tmp_path / 'again.txt').text == net.text
    image = tool('model', 'asm', example('one_segment')).stdout
    (tmp_path / 'one.tcb').write_bytes(image)
    for given in (net, example('one_segment'), net.text, str(tmp_path / 'one.tcb')):
        assert list(tcpsim.run(given, engine=engine).trace.lines()) == trace_of('one_segment')


@pytest.mark.parametrize('call, error, words', [
    (lambda: tcpsim.dumbbell(rate='10Q'), tcpsim.Wrong, "rate: '10Q' is no rate: write a number and a unit"),
    (lambda: tcpsim.dumbbell(rtt='40'), tcpsim.Wrong, 'has no unit: write 40s'),
    (lambda: tcpsim.dumbbell(flow=2), TypeError, "dumbbell() has no option 'flow'; it has flows, rate"),
    (lambda: tcpsim.run(example('one_segment'), engine='/bin/none'), tcpsim.NoProgram, '/bin/none is no program'),
    (lambda: tcpsim.run(3), TypeError, 'a scenario, its file or its text is wanted'),
    (lambda: tcpsim.read('/none/such.txt'), OSError, 'No such file'),
    (lambda: tcpsim.run(example('one_segment'), engine='model').stalls(flow='zz'), tcpsim.Error, 'no flow zz'),
    (lambda: tcpsim.run(example('one_segment'), engine='model').figures.links['zz'], KeyError, 'there are a, b'),
    (lambda: tcpsim.run(example('one_segment'), engine='model').series('0.5'), tcpsim.Error, 'has no unit'),
    (lambda: tcpsim.nothing, AttributeError, "no attribute 'nothing'"),
    (lambda: tcpsim.dumbbell(rtt=['1ms', '2ms', '3ms']), tcpsim.Wrong, 'rtt has 3 values, and there are 2 flows'),
    (lambda: tcpsim.dumbbell(rwnd=5), tcpsim.Wrong, 'rwnd 5 is below a segment'),
    (lambda: tcpsim.dumbbell(lose={'zz': 1}), tcpsim.Wrong, 'lose zz: the net has no such link, only pq, qp'),
    (lambda: tcpsim.dumbbell().links['zz'], KeyError, "'zz': there are pq, qp"),
    (lambda: one().series('1ms').flows['zz'], KeyError, "'zz': there are f"),
    (lambda: one().series('0'), tcpsim.Wrong, 'step: a series wants a step above 0'),
    (lambda: one().series(0), tcpsim.Wrong, 'step: a series wants a step above 0'),
    (lambda: one().series(-5), tcpsim.Wrong, 'step: -5 is no time'),
    (lambda: one().series(.5), tcpsim.Wrong, 'step: 0.5 is no time'),
    (lambda: one().series('soon'), tcpsim.Wrong, "step: 'soon' is no time"),
    (lambda: one().series('1ms', end='soon'), tcpsim.Wrong, "end: 'soon' is no time"),
    (lambda: one().series('1ms', begin='2ms', end='1ms'), tcpsim.Wrong, 'end: 1ms is not after the begin, 2ms'),
    (lambda: one().series('1ms', begin='9s'), tcpsim.Wrong, 'nothing of it is at or after 9 s'),
    (lambda: one().series('1ns'), tcpsim.Wrong, 'step: 1ns is too short: the series has more than 1,000,000 steps'),
    (lambda: one().stalls('x'), tcpsim.Wrong, "longer: 'x' is no time"),
    (lambda: one().stalls(flow='zz'), tcpsim.Wrong, 'the scenario has no flow zz; it has f'),
    (lambda: one().replay(begin='2s', end='3s'), tcpsim.Wrong, 'there is no event between begin and end'),
])
def test_what_is_wrong_is_said_in_a_sentence(call, error, words):
    with pytest.raises(error) as wrong:
        call()
    assert words in str(wrong.value)
    assert '--' not in str(wrong.value)
    assert error in (OSError, tcpsim.Error) or wrong.type is error


@pytest.mark.parametrize('call, words', [
    (lambda run: run.plot(end='tomorrow'), "end: 'tomorrow' is no time"), (lambda run: run.plot(begin='x'), "begin: 'x' is no time"),
    (lambda run: run.plot('windo'), "panels: no panel 'windo'"), (lambda run: run.plot(flows=['f7']), 'flows: the scenario has no flow f7'),
    (lambda run: run.plot(links='zz'), 'links: the scenario has no link zz; it has a, b'),
    (lambda run: run.plot(flows=['f', 'f']), 'flows: f is named twice'),
    (lambda run: run.plot(begin='3ms', end='1ms'), 'no time lies between'),
    (lambda run: run.plot('queue').save('a.jpgg'), 'the file ends in .png, .svg or .pdf'),
])
def test_a_plot_that_cannot_be_is_wrong(call, words):
    pytest.importorskip('matplotlib', reason='matplotlib is not there: apt-get install python3-matplotlib')
    with pytest.raises(tcpsim.Wrong) as wrong:
        call(one())
    assert words in str(wrong.value) and '--' not in str(wrong.value)
    assert wrong.type is tcpsim.Wrong


def test_a_short_run_of_a_long_scenario_has_short_steps():
    """The run is complete after 3 ms of 1 s."""
    assert len(one().series('10us')) > 300
    assert len(one().series('900ns')) > 3000


def test_errors_go_by_their_public_names():
    for name in ('Error', 'Wrong', 'Refused', 'WrongQueue', 'NotInstalled', 'NoProgram'):
        error = getattr(tcpsim, name)
        assert (error.__module__, error.__qualname__) == ('tcpsim', name)
        assert issubclass(error, tcpsim.Error)


@pytest.mark.parametrize('there', [True, False])
def test_a_text_is_judged_as_it_is_read(there, tmp_path, monkeypatch):
    if not there:
        monkeypatch.setattr('tcpsim.api.engines.is_program', lambda path: False)
    (tmp_path / 'odd.txt').write_text(MISTAKEN)
    for call in (lambda: tcpsim.from_text(MISTAKEN), lambda: tcpsim.read(tmp_path / 'odd.txt'),
                 lambda: tcpsim.ScenarioText(MISTAKEN).links):
        with pytest.raises(tcpsim.Refused) as wrong:
            call()
        assert (wrong.value.code, wrong.value.line) == ('E4', 2)
        assert wrong.value.explained.splitlines()[2] == 'the kind of a node is sender, receiver or router'
    assert repr(tcpsim.ScenarioText(MISTAKEN)) == '<scenario: a text that is refused, E4 line 2>'
    assert tcpsim.from_text(one().scenario.text, 'mine').name == 'mine'
    (tmp_path / 'odd.txt').write_bytes(b'\xff')
    with pytest.raises(tcpsim.Wrong, match='its byte 0 is not ASCII'):
        tcpsim.read(tmp_path / 'odd.txt')


def test_senders_and_losses_of_a_builder():
    net = tcpsim.dumbbell(variant=['newreno', 'reno'], iw=10, lose={'pq': [20, 21], 'qp': 7}, spread=1, mice=1)
    assert [(flow.newreno, flow.iw10) for flow in net.flows.values()] == [(True, True), (False, True), (True, True)]
    assert [line for line in net.text.splitlines() if line.startswith('lose')] == ['lose pq 20', 'lose pq 21', 'lose qp 7']
    for lose in ('pq=20,21', ['pq=20,21'], ('pq=20,21',)):
        assert tcpsim.dumbbell(lose=lose).text.count('\nlose pq ') == 2


def test_a_scenario_that_is_refused(engine):
    for call in (tcpsim.run, tcpsim.debug):
        with pytest.raises(tcpsim.Refused) as wrong:
            call(MISTAKEN, engine=engine)
        assert (wrong.value.code, wrong.value.line) == ('E4', 2)
        assert str(wrong.value).splitlines()[0] == 'E4 line 2'
        assert '^^^^^\nthe kind of a node is' in str(wrong.value)


def test_a_long_run_is_not_left_to_the_model_unasked(monkeypatch):
    monkeypatch.setattr('tcpsim.program.BUILT', '/none')
    monkeypatch.setenv('PATH', '/none')
    with pytest.raises(tcpsim.NoProgram, match='or say engine="model"'):
        tcpsim.run(tcpsim.dumbbell(rate='10G', end='1000s'))


# ---- what is asked of a run

@pytest.mark.parametrize('name', ['fast_recovery', 'four_flows_before_codel', 'two_stalls_of_different_causes'])
def test_figures_are_those_of_tcpsim_flows(name, engine):
    figures = tcpsim.run(example(name), engine=engine).figures
    table = told('flows', example(name), '--engine', '--csv', *(['--model'] if engine == 'model' else []))
    wanted = {(what, of, figure): value for what, of, figure, _, value in csv.reader(io.StringIO(table))}
    names = {'delivered': 'delivered_bytes', 'goodput': 'goodput', 'bottleneck': 'bottleneck', 'timeouts': 'timeouts',
             'sent again by fast retransmit': 'fast_retransmits', 'sent again by timeout': 'timeout_retransmits',
             'least timed round trip': 'rtt_min_ns', 'median timed round trip': 'rtt_median_ns',
             '95th percentile of timed round trips': 'rtt_p95_ns', '99th percentile of timed round trips': 'rtt_p99_ns', 'completed': 'completed_ns', 'utilization': 'utilization',
             'greatest queue': 'queue_max', 'mean queue': 'queue_mean', 'median delay in the queue': 'delay_median_ns',
             '95th percentile of delay in the queue': 'delay_p95_ns', '99th percentile of delay in the queue': 'delay_p99_ns', 'dropped': 'packets_dropped', 'loss': 'loss'}
    compared = 0
    for (what, of, figure), value in wanted.items():
        if what in ('flow', 'link') and figure in names:
            found = getattr((figures.flows if what == 'flow' else figures.links)[of], names[figure])
            assert ('' if found is None else f'{found:.6f}' if isinstance(found, float) else str(found)) == value, (of, figure)
            compared += 1
    assert compared > 20
    assert ('' if figures.jain is None else f'{figures.jain:.6f}') == wanted['run', '', "Jain's index of goodput"]


def test_records_say_what_the_lines_say(engine):
    run = tcpsim.run(example('fast_recovery'), engine=engine)
    lines, drops = trace_of('fast_recovery'), 0
    assert list(run.trace.lines()) == lines
    events = list(run.trace)
    assert len(events) == len(lines) - 1
    for event, line in zip(events, lines):
        words = line.split()
        assert [str(event.n), str(event.time_ns), event.kind] == [words[0], words[1], words[5]]
        if event.cwnd is not None:
            assert f'una={event.una} nxt={event.nxt} cwnd={event.cwnd} ssthresh={event.ssthresh} phase={event.phase}' in line
        assert (event.next is None) == (' next=' not in line)
        assert [f'{sent.number}' for sent in event.sent] == [word.split(':')[2] for word in words if word.startswith('tx=')]
        drops += len(event.drops)
    assert drops == sum(line.count('drop=') for line in lines) > 0
    assert next(run.trace.drops())[1] == tcpsim.Drop('lost', 'a', 'f', 19000)


def test_records_are_read_fast():
    """Of this processor's time, ten times what a usual machine takes."""
    scenario = tcpsim.read(example('sawtooth_of_congestion_avoidance')).parsed
    lines = trace_of('sawtooth_of_congestion_avoidance')
    begun = time.process_time()
    assert sum(1 for _ in events_of([lines], Names(scenario))) == len(lines) - 1
    assert (time.process_time() - begun) / len(lines) < 30e-6


def test_drops_name_the_link_before_which_they_are():
    run = tcpsim.run(example('four_flows_before_a_full_queue'), engine='model')
    by_link = {}
    for _, drop in run.trace.drops():
        by_link[drop.link] = by_link.get(drop.link, 0) + 1
    assert by_link == {name: link.packets_dropped for name, link in run.figures.links.items() if link.packets_dropped}


def test_a_trace_is_read_as_far_as_is_wanted(engine):
    run = tcpsim.run(tcpsim.dumbbell(flows=1, rate='1M', end='10s'), engine=engine)
    first = next(iter(run.trace))
    assert (first.n, first.kind, first.flow) == (1, 'start', 'f0')
    assert sum(1 for _ in run.trace) == run.figures.events
    assert sum(1 for _ in run.trace) == run.figures.events


def test_series_are_those_of_tcpsim_flows(engine):
    """The first flow starts at 0, where the rows of tcpsim-flows begin. Flow 1 is g, link 0 is a."""
    series = tcpsim.run(example('bufferbloat_with_codel'), engine=engine).series('2s')
    rows = csv_rows(told('flows', example('bufferbloat_with_codel'), '--series', '2s'))
    values = {}
    for row in rows:
        values.setdefault((row['what'], row['number'], row['figure']), []).append(row['value'])
    lengths = [round(end * 1e9) - round(begin * 1e9) for begin, end in zip(series.begin_s, series.end_s)]
    assert lengths[:-1] == [2 * 10**9] * 3 and lengths[-1] < 2 * 10**9
    for key, column, value in ((('flow', '1', 'delivered'), series.flows['g'].goodput, lambda count, length: count * 8 * 10**9 / length),
                               (('link', '0', 'waited'), series.links['a'].queue_mean, lambda count, length: count / length),
                               (('link', '0', 'greatest queue'), series.links['a'].queue_max, lambda count, length: count)):
        assert list(column) == [value(int(word), length) for word, length in zip(values[key], lengths, strict=True)], key
    assert all(0 < mean <= 64000 for mean in series.flows['f'].cwnd)


def test_time_is_that_of_tcpsim_time():
    run = tcpsim.run(example('bufferbloat'), engine='model')
    went = run.time('g')
    table = told('time', example('bufferbloat'), '--flow', 'g', '--csv', '--model')
    assert [[went.flow, part.kind, part.at, part.behind or '', '', str(part.ns), f'{100 * part.share:.6f}', str(part.alone_ns)]
            for part in went.parts] == [line.split(',') for line in table.splitlines()[1:-1]]
    assert (went.time_ns, went.alone_ns, went.begin_ns, went.end_ns) == (3012038400, 139225600, 3 * 10**9, 6012038400)
    assert sum(part.ns for part in went.parts) == went.time_ns and went.complete and went.acknowledged_bytes == 10_000 and went.awaits == ''
    assert (went.events[0].kind, went.events[-1].line, sum(went.round_trips.values())) == ('start', 8583, 3)
    assert repr(went) == told('time', example('bufferbloat'), '--flow', 'g', '--model').rstrip()
    assert went._repr_html_().count('<tr>') == len(went.parts) + 2
    early = run.time(1, to=0, alone=False)
    assert early.time_ns < went.time_ns and early.alone_ns is None and {part.alone_ns for part in early.parts} == {None}
    timers = tcpsim.run(example('two_timeouts_in_a_row'), engine='model').time('f')
    assert [(timeout.end - timeout.begin, timeout.loss.line) for timeout in timers.timeouts] == [(10**9, 6), (2 * 10**9, 26)]
    assert timers.alone_ns is None
    for wrong, says in ((lambda: run.time('zz'), 'the scenario has no flow zz; it has f, g'),
                        (lambda: run.time('g', to=10_000), 'flow g has the bytes 0 to 9999, and not 10000')):
        with pytest.raises(tcpsim.Error, match=says):
            wrong()


def test_a_frame_and_a_picture_of_the_time():
    pytest.importorskip('pandas')
    went = tcpsim.run(example('bufferbloat'), engine='model').time('g', alone=False)
    frame = went.frame()
    assert frame['ns'].sum() == went.time_ns and list(frame['kind']) == [part.kind for part in went.parts]
    pytest.importorskip('matplotlib')
    axes, = went.plot().figure.get_axes()
    keys = [text.get_text() for text in axes.get_legend().get_texts()]
    assert keys == ['queue, behind packets of f', 'queue, behind packets of g', 'serialization', 'propagation']


def test_time_with_a_queue_of_ones_own():
    """Alone it has the same queue."""
    class Shortest:
        """Gives what waits in the order of its numbers."""

        def __init__(self):
            self.waiting = []

        def offer(self, packet, now, drop):
            self.waiting.append(packet)

        def take(self, now, drop):
            return self.waiting.pop(self.waiting.index(min(self.waiting, key=lambda packet: packet.number))) if self.waiting else None

    run = tcpsim.run(example('bufferbloat'), queues={'a': Shortest})
    went = run.time('g')
    assert sum(part.ns for part in went.parts) == went.time_ns < 3 * 10**9
    assert went.alone_ns == tcpsim.run(example('bufferbloat')).time('g').alone_ns


def test_stalls_are_those_of_tcpsim_stalls():
    stalls = tcpsim.run(example('two_stalls_of_different_causes'), engine='model').stalls('100ms')
    table = told('stalls', example('two_stalls_of_different_causes'), '--longer', '100ms', '--csv', '--model')
    assert [(stall.flow, str(stall.begin), stall.cause) for stall in stalls] == [
        (row[0], row[1], row[4]) for row in list(csv.reader(io.StringIO(table)))[1:]]
    lines = repr(stalls).splitlines()
    assert lines[0].split() == ['flow', 'begin', 's', 'length', 's', 'cause', 'found'] and len(lines) == len(stalls) + 1
    assert all(f'{stall.length / 1e9:.6f}' in line and stall.found in line for stall, line in zip(stalls, lines[1:]))
    assert stalls._repr_html_().count('<tr>') == len(lines)
    assert (repr(one().stalls()), one().stalls()) == ('no stalls', [])


def test_frames():
    pandas = pytest.importorskip('pandas', reason='pandas is not there: apt-get install python3-pandas')
    run = tcpsim.run(example('four_flows_before_codel'), engine='model')
    frame = run.figures.to_pandas()
    assert frame[(frame.what == 'link') & (frame.name == 'pq') & (frame.figure == 'dropped_codel')].value.item() == 4
    assert list(run.figures.flows.to_pandas().index) == list(run.figures.flows)
    assert run.figures.links.to_pandas().dropped_codel['pq'] == 4
    assert len(run.trace.to_pandas()) == run.figures.events
    assert isinstance(run.series('100ms').to_pandas(), pandas.DataFrame)


def test_a_frame_of_events_has_what_is_sent_and_dropped():
    """By each link as many as its figures have; the drops are those of `drops`."""
    pytest.importorskip('pandas', reason='pandas is not there: apt-get install python3-pandas')
    run = tcpsim.run(example('four_flows_before_codel'), engine='model')
    frame = run.trace.to_pandas()
    links = {name: link for name, link in run.figures.links.items() if link.packets_sent}
    assert frame.groupby('sent_link').size().to_dict() == {name: link.packets_sent for name, link in links.items()}
    dropped = frame[frame.dropped > 0]
    assert dropped.groupby('drop_link').dropped.sum().to_dict() == {
        name: link.packets_dropped for name, link in links.items() if link.packets_dropped}
    assert [(time, drop) for time, drops in zip(dropped.time_ns, dropped.drops) for drop in drops] == list(run.trace.drops())
    assert set(dropped.drop_reason) == {drop.reason for _, drop in run.trace.drops()}
    sent = frame[frame.sent_link.notna()]
    assert [tuple(packet) for packets in sent.sent for packet in packets] == list(zip(sent.sent_link, sent.sent_flow, sent.sent_number))


def test_runs_and_their_figures_can_be_pickled(engine):
    """What comes back says the same, and goes on where it is asked for more."""
    run = tcpsim.run(example('four_flows_before_codel'), engine=engine)
    for of in (run, run.figures, run.figures.links, run.series('100ms'), run.stalls(), run.trace, list(run.trace), run.scenario,
               tcpsim.sweep(run.scenario, {'pq.queue': ['droptail:2', 'droptail:3']}, engine=engine)):
        assert repr(pickle.loads(pickle.dumps(of))) == repr(of)
    again = pickle.loads(pickle.dumps(run))
    assert list(again.trace.lines()) == list(run.trace.lines())
    assert [event.drops for event in pickle.loads(pickle.dumps(list(run.trace)))] == [event.drops for event in run.trace]


class OneByOne:
    """A queue that keeps all, which is pickled by its name."""

    word = 'one'

    def __init__(self):
        self.queue = []

    def offer(self, packet, now, drop):
        self.queue.append(packet)

    def take(self, now, drop):
        return self.queue.pop(0) if self.queue else None


def test_a_run_with_an_own_queue_can_be_pickled():
    run = tcpsim.run(tcpsim.dumbbell(flows=1, rate='1M', end='1s'), queues={'pq': OneByOne})
    again = pickle.loads(pickle.dumps(run))
    assert (repr(again), again.figures.events, list(again.trace.lines())) == (repr(run), run.figures.events, list(run.trace.lines()))


def test_tables_are_shown():
    figures = tcpsim.run(example('one_segment'), engine='model').figures
    assert repr(figures).splitlines()[-1] == '5 events, span 0.003080 s'
    assert figures._repr_html_().count('<tr>') == 7
    assert repr(figures).splitlines()[1].split() == 'a 33.8 0.000 0.000 0.00 1 2.597 100.0 0 -'.split()


def test_tables_fold_mice_and_links_that_carried_little():
    figures = tcpsim.run(tcpsim.dumbbell(flows=2, rate='2M', rtt='40ms', spread=1, mice=5, end='3s'), engine='model').figures
    lines = [line.split() for line in repr(figures).splitlines()]
    assert [words[0] for words in lines] == ['bottleneck', 'pq', 'pq', 'flow', 'f0', 'f1', 'link', 'pq', str(len(figures.links) - 1),
                                           f'{figures.events:,}', *(words.split()[0] for words in figures.too_short)]
    assert figures._repr_html_().count('<p>') == 2 + len(figures.too_short)
    assert '5 mice' in repr(figures) and len(figures.flows) == 7 and len(repr(figures.links).splitlines()) == len(figures.links) + 1


def test_pictures_and_pages(tmp_path):
    pytest.importorskip('matplotlib', reason='matplotlib is not there: apt-get install python3-matplotlib')
    run = tcpsim.run(example('one_segment'), engine='model')
    run.plot('window', title='$x$').save(tmp_path / 'one.svg')
    assert (tmp_path / 'one.svg').read_text().startswith('<?xml')
    page = run.replay(tmp_path / 'one.html')
    assert (page.events, (tmp_path / 'one.html').read_text()) == (5, page.text)
    assert sorted(os.listdir(tmp_path)) == ['one.html', 'one.svg']
    with pytest.raises(TypeError, match='no option'):
        run.plot(colour='red')
    with pytest.raises(tcpsim.Wrong, match="no panel 'windo'"):
        run.plot('windo')


@pytest.mark.parametrize('first', ['import matplotlib.pyplot as plt; plt.subplots()', 'import matplotlib'])
def test_pictures_leave_pyplot_as_it_is(first, tmp_path):
    """Its backend, its figures and its parameters are those of the user."""
    pytest.importorskip('matplotlib', reason='matplotlib is not there: apt-get install python3-matplotlib')
    code = f"""{first}
import tcpsim
before = dict(matplotlib.rcParams) if 'plt' not in globals() else dict(plt.rcParams), 'plt' in globals() and plt.get_fignums()
tcpsim.run({example('one_segment')!r}, engine='model').plot('window').save('one.svg')
import matplotlib, matplotlib.pyplot as plt
print(matplotlib.get_backend(), before[0] == dict(matplotlib.rcParams), plt.get_fignums() == (before[1] or []))
"""
    for backend in ('svg', 'agg'):
        assert ran('-c', code, cwd=tmp_path, env={**os.environ, 'PYTHONPATH': os.path.join(TOP, 'python'), 'MPLBACKEND': backend}
                   ).split() == [backend, 'True', 'True']


# ---- debugging

def test_a_hunt(engine):
    """That of docs/DEBUGGING.md."""
    with tcpsim.debug(example('two_timeouts_in_a_row'), engine=engine) as at:
        moved = at.run_to(stall=True)
        assert (moved.position, at.time_ns, moved.matched, moved.at_end) == (25, 9280000, True, False)
        why = at.why('f')
        assert why.stalled and why.stands == ('is stalled: 2 duplicate acknowledgements, and its retransmission timer is due at '
                                              '1006200000 ns')
        assert [(alarm.kind, alarm.time_ns) for alarm in why.alarms] == [('rto', 1006200000)]
        assert why.missing == Missing('receiver', 4000, (PastDrop('data', 4000, 'lost', 'a', 6),))
        assert why.text.endswith('\nmissing at the receiver: byte 4000, data 4000 lost by name at link a in line 6')
        lost = at.reverse(drop=True)
        assert (lost.position, [drop.number for drop in lost.event.drops], lost.passed) == (10, [6000, 7000], -15)
        assert at.reverse().position == 6
        assert at.until('2s').position == 26
        assert [event.kind for event in at.lines(2)] == ['ack', 'rto']
        assert at.reverse(byte=4000, drop=True).event.drops[0] == tcpsim.Drop('lost', 'a', 'f', 4000)
        assert at.reverse(kind='rto').position == 0
        assert (at.step(3).position, at.back(2).position, at.step().event.n) == (3, 1, 2)


def test_a_stall_is_gone_to_by_its_positions(engine):
    """Those of the drop, of the last new acknowledgement, and of the next one among them."""
    run = tcpsim.run(example('two_timeouts_in_a_row'), engine=engine)
    stall, *_ = run.stalls()
    with tcpsim.debug(run.scenario, engine=engine) as at:
        at.step(7)
        found = {position: at.goto(position) for position in (*stall.positions, *reversed(stall.positions))}
        assert [found[position].position for position in stall.positions] == stall.positions
        assert found[stall.positions[0]].event.drops and found[stall.positions[-1]].time_ns == stall.end
        assert sum(move.time_ns == stall.begin for move in found.values()) == 1
        assert at.goto(at.position).passed == 0
        assert (at.goto(0).position, at.goto(10**6).at_end) == (0, True)


def test_the_state_as_objects(engine):
    with tcpsim.debug(example('codel_enters_drop_state'), engine=engine) as at:
        at.run_to(drop=True, link='a')
        state = at.state
        codel = state.links['a'].codel
        assert (codel.first_above_ns, codel.drop_next_ns, codel.count, codel.last_count, codel.dropping) == (
            108320000, 216480000, 1, 1, True)
        assert [packet.number for packet in state.links['a'].queue] == [16000, 17000, 18000, 19000, 20000]
        assert (state.senders['f'].una, state.senders['f'].cwnd, state.receivers['f'].held) == (13000, 9059, ())
        assert at.why('f').waits[0] == WaitingPacket('data', 16000, 1, 'a')
        assert {event.kind for event in state.pending} >= {'free', 'rto'}
        assert str(state) == at.ask('state').rstrip('\n')


def test_a_dropped_packet_of_a_flow_is_found_wherever_it_is_dropped(engine):
    net = tcpsim.dumbbell(flows=2, rate='2M', rtt='40ms', queue='codel:5ms:100ms', end='5s')
    wanted = [(time, drop.number) for time, drop in tcpsim.run(net, engine=engine).trace.drops() if drop.flow == 'f1'][:3]
    assert len(wanted) == 3
    with tcpsim.debug(net, engine=engine) as at:
        found = [at.run_to(drop=True, flow='f1') for _ in wanted]
        assert [(move.time_ns, next(drop.number for drop in move.event.drops if drop.flow == 'f1')) for move in found] == wanted
        assert at.reverse().time_ns == wanted[1][0]
        assert at.run_to(time=f'{wanted[2][0]}ns').matched is False and at.time_ns < wanted[2][0]


@pytest.mark.parametrize('call, error, words', [
    (lambda at: at.why('zz'), tcpsim.Wrong, 'the scenario has no flow zz; it has f'),
    (lambda at: at.run_to(drops=True), tcpsim.Wrong, 'drops=True is no condition: they are kind, flow'),
    (lambda at: at.run_to(kind='acks'), tcpsim.Refused, 'B3 of `break kind acks`\nB3: a word is no number, or out of its range'),
    (lambda at: at.until('1.5'), tcpsim.Refused, 'B3 of `until 1.5`'), (lambda at: at.why(7), tcpsim.Refused, 'there are nodes 0 to 1'),
    (lambda at: at.ask('stpe'), tcpsim.Refused, 'the nearest is step'),
    (lambda at: at.until('1ns'), tcpsim.Wrong, "until('1ns') only goes on, and 1.04ms of the run have passed"),
    (lambda at: at.goto(-1), tcpsim.Wrong, 'goto: -1 is no position'), (lambda at: at.goto('1s'), tcpsim.Wrong, "goto: '1s' is no"),
])
def test_refusals_have_the_words_of_the_prompt(engine, call, error, words):
    with tcpsim.debug(example('one_segment'), engine=engine) as at:
        at.step(2)
        with pytest.raises(error) as wrong:
            call(at)
        assert words in str(wrong.value)
        assert at.goto(2).position == 2 and at.step().position == 3


def test_a_session_ends_with_its_block(engine):
    with tcpsim.debug(example('one_segment'), engine=engine) as at:
        process = at._ask._prompt.process
        assert process.poll() is None
    assert process.poll() is not None
    with pytest.raises(tcpsim.Error, match='the session has ended'):
        at.step()


LEFT = """
import os, sys, time
import tcpsim
net = tcpsim.dumbbell(flows=4, rate='1G', end='100000s')
if sys.argv[1] == 'debug':
    at = tcpsim.debug(net, engine=sys.argv[2])
    print(at._ask._prompt.process.pid, flush=True)
elif sys.argv[1] == 'trace':
    lines = tcpsim.run(net, engine=sys.argv[2]).trace.lines()
    next(lines)
    from tcpsim.whole_trace import PROGRAMS
    print(PROGRAMS[0].pid, flush=True)
else:
    import threading
    from tcpsim.whole_trace import PROGRAMS
    run = tcpsim.run(net, engine=sys.argv[2])
    threading.Thread(target=lambda: (time.sleep(2), print(PROGRAMS[0].pid, flush=True)), daemon=True).start()
    run.figures
time.sleep(600)
"""


def is_there(pid):
    try:
        with open(f'/proc/{pid}/stat', encoding='utf-8') as file:
            return file.read().rpartition(')')[2].split()[0] != 'Z'
    except OSError:
        return False


@pytest.mark.parametrize('what', ['debug', 'trace', 'figures'])
def test_processes_end_with_the_python_that_started_them(engine, what, tmp_path):
    process = subprocess.Popen([sys.executable, '-c', LEFT, what, engine], stdout=subprocess.PIPE, cwd=tmp_path,
                               env={**os.environ, 'PYTHONPATH': os.path.join(TOP, 'python')})
    with process:
        pid = int(process.stdout.readline())
        assert is_there(pid)
        process.send_signal(signal.SIGKILL)
        process.wait()
        until(lambda: not is_there(pid), 'a process goes on')
    assert os.listdir(tmp_path) == []
