"""Tests of tcpsim/fairness.py: which flows Jain's index compares, worked out by hand, and that tools, sweeps and Python compare the
same."""

import pytest

import tcpsim
from clone import PROGRAM, csv_rows, tool
from tcpsim.engine import EngineRun
from tcpsim.fairness import asked, can_fill, compared, in_words, index, jain
from tcpsim.figures import Figures
from tcpsim.scenario.text import Scenario
from tcpsim.sweeps.columns import columns_of
from tcpsim.sweeps.pattern import Pattern
from tcpsim_model.figures import figures
from tcpsim_model.simulate import trace
from tcpsim_model.text import assemble

# Over a, of 8 Mbit/s, a segment of 960 bytes is a packet of 1,000, which takes 1 ms, and an acknowledgement on b 0.04 ms. With 1.98
# ms of delay each way the least round trip is 5 ms: a window of one segment asks for 8,000 bits in 5 ms, 1.6 Mbit/s.
HEAD = 'sim {end}\nnode s sender\nnode r receiver\n'
LINKS = 'link a s r 8000000 1980000 droptail 50\nlink b r s 8000000 1980000 droptail 50\n'


def over_one_link(*windows, end=2000000000, segments=1000000):
    """Flows over one link, each with a window of its number of segments."""
    ends = ''.join(f'node s{n} sender\nnode r{n} receiver\nlink s{n}p s{n} p 1000000000000 1 droptail 50\n'
                   f'link ps{n} p s{n} 1000000000000 1 droptail 50\nlink qr{n} q r{n} 1000000000000 1 droptail 50\n'
                   f'link r{n}q r{n} q 1000000000000 1 droptail 50\nroute p s{n} ps{n}\nroute q r{n} qr{n}\nroute p r{n} pq\n'
                   f'route q s{n} qp\n' for n in range(len(windows)))
    flows = ''.join(f'flow f{n} s{n} r{n} 960 {segments} 0 {960 * window} 0\n' for n, window in enumerate(windows))
    return (f'sim {end}\nnode p router\nnode q router\nlink pq p q 8000000 1980000 droptail 50\nlink qp q p 8000000 1980000 '
            f'droptail 50\n{ends}{flows}')


def test_what_a_flow_asks_for():
    text = HEAD.format(end=10**9) + LINKS
    for window, rate in ((960, 1.6e6), (1919, 1.6e6), (1920, 3.2e6), (4800, 8e6)):
        scenario = Scenario(f'{text}flow f s r 960 1000 0 {window} 0\n')
        assert asked(scenario, 0) == rate
        assert can_fill(scenario, [0]) == ([0] if rate == 8e6 else [])


def test_a_flow_asks_for_less_than_what_the_others_leave_it():
    """A window of one asks for nearly 1.6 Mbit/s of 8, of two for 3.2, of three for 4.8. Alone each asks for less. Beside one of
    fifty that of one and that of two leave 3.2 Mbit/s, so that of two asks for less. Of three windows of two each could have 2.67,
    and asks for more."""
    for windows, full in (((1,), []), ((3,), []), ((50,), [0]), ((1, 50), [1]), ((1, 2, 50), [2]), ((2, 2, 2), [0, 1, 2]),
                          ((2, 2), []), ((1, 2, 2, 2), [1, 2, 3]), ((1, 1, 50, 50), [2, 3]), ((1,) * 6, [0, 1, 2, 3, 4, 5])):
        assert can_fill(Scenario(over_one_link(*windows)), range(len(windows))) == full, windows
    assert can_fill(Scenario(over_one_link(1, 50, 50)), [0, 1]) == [1]


def test_shares_of_several_links():
    """The long flow of a parking lot is stopped at the first hop, where it has 1 Mbit/s. At the second, of 8 Mbit/s, the other has
    the 7 that it leaves. Packets of 8,000 bits in 15.06 ms are 0.53 Mbit/s: thirteen ask for less than that, fourteen for more."""
    net = tcpsim.parking_lot(hops=2, rate=['2M', '8M'], delay='5ms', mss=960, rwnd='1M')
    for window, full in ((13, [0, 1]), (14, [0, 1, 2])):
        scenario = Scenario(net.text.replace('1000000 40000000  # over hop 2', f'{960 * window} 40000000  # over hop 2'))
        assert can_fill(scenario, range(3)) == full


def runs_of(text):
    """The figures of a trace, and those of the program's table."""
    scenario = assemble(text.encode())
    return Figures(Scenario(text), ''.join(trace(scenario)).splitlines()), EngineRun(Scenario(text), figures(scenario))


def test_the_flows_of_a_run():
    """One fills the link, one is a mouse, one has a window of two, one ends, and one starts at 1.5 s.
    Beside that one two segments ask for more than a third of what the mouse leaves; without it they ask for less than half."""
    text = over_one_link(50, 1, 2, 50, 50).replace('s3 r3 960 1000000', 's3 r3 960 9').replace('1000000 0 48000', '1000000 1500000000 48000')
    text = text.replace('s0 r0 960 1000000 1500000000', 's0 r0 960 1000000 0')
    for run in runs_of(text):
        assert compared(run) == ([0, 2, 4], [1], [], [3])
        assert index(run) == jain([run.goodput(0), run.goodput(2), run.goodput(4)])
        assert index(run, [0, 1]) == jain([run.goodput(0), run.goodput(1)])
    first = Figures(Scenario(text), ''.join(trace(assemble(text.encode()))).splitlines(), end=10**9)
    assert (compared(first), index(first)) == (([0], [1], [2], [3]), 1.0)
    assert compared(first, [1, 4, 3]) == ([1, 3], [], [], [])


def test_all_have_ended():
    for run in runs_of(over_one_link(50, 50, segments=20)):
        assert (compared(run), index(run)) == (([], [], [], [0, 1]), None)
        assert index(run, [0, 1]) > .5


@pytest.mark.parametrize('counts, words', [
    ((4, 0, 0, 0), 'of 4 flows'), ((1, 0, 0, 0), 'of 1 flow'), ((4, 20, 0, 0), 'of 4 of 24 flows (without 20 mice)'),
    ((0, 0, 0, 2), 'as none of 2 flows is compared (2 that ended)'),
    ((3, 1, 2, 1), 'of 3 of 7 flows (without 1 mice, 2 limited by their window, 1 that ended)')])
def test_how_many_it_is_of(counts, words):
    assert in_words(counts) == words


# ---- tools, sweeps and Python

@pytest.fixture(scope='module')
def mice(tmp_path_factory):
    """Four flows with ten mice, and its file."""
    net = tcpsim.dumbbell(flows=4, rate='2M', rtt='40ms', queue='droptail:BDP', spread=1, mice=10, end='8s')
    path = tmp_path_factory.mktemp('mice') / 'mice.txt'
    net.save(path)
    return net, str(path)


def of_four(net):
    """The index of the first four, and their timeouts, by goodputs and counts of Python's figures."""
    flows = tcpsim.run(net).figures.flows
    four = [flows[f'f{number}'] for number in range(4)]
    return jain([flow.goodput for flow in four]), sum(flow.timeouts for flow in four), sum(flow.timeouts for flow in flows.values())


def test_tools_compare_the_four(mice):
    net, path = mice
    wanted, *_ = of_four(net)
    assert wanted > .4 > index(EngineRun(net.parsed, figures(assemble(net.text.encode()))), range(14))
    for words in ((), ('--engine',)):
        lines = tool('flows', path, *words, '--program', PROGRAM).stdout.decode().splitlines()
        assert f"Jain's index of goodput: {wanted:.4f}, of 4 of 14 flows (without 10 mice)" in lines
        table = csv_rows(tool('flows', path, *words, '--csv', '--program', PROGRAM).stdout.decode())
        of_run = {row['figure']: row['value'] for row in table if row['what'] == 'run'}
        assert (of_run["Jain's index of goodput"], of_run['compared flows'], of_run['mice']) == (f'{wanted:.6f}', '4', '10')


def test_sweeps_compare_the_four(mice):
    net, path = mice
    wanted, of_the_four, of_all = of_four(net)
    assert of_all > of_the_four
    for words in ((), ('--exact',)):
        sweep = 'sweep', path, '--set', 'pq.queue=droptail:BDP', '--csv', '--program', PROGRAM, *words
        row, = csv_rows(tool(*sweep).stdout.decode())
        assert (row['jain'], row['jain_flows'], row['timeouts']) == (f'{wanted:.6f}', '4', str(of_the_four))
        row, = csv_rows(tool(*sweep, '--show', 'run.jain,run.jain_flows,run.timeouts,run.mice_timeouts,f0+f1+f2+f3.jain,*.jain').stdout.decode())
        assert (row['run.jain'], row['f0+f1+f2+f3.jain'], row['run.jain_flows']) == (f'{wanted:.6f}', f'{wanted:.6f}', '4')
        assert (row['run.timeouts'], row['run.mice_timeouts']) == (str(of_the_four), str(of_all - of_the_four))
        assert float(row['*.jain']) < .5


def test_a_sweep_says_how_many_flows_it_compares(mice):
    """In the table's first line, where not all rows compare as many from the least on."""
    for words, said in (((), 'figures of link pq, Jain\'s index of 4 of 14 flows'),
                        (('--over', 'f1.start=0,5ms'), 'figures of link pq, Jain\'s index of 4 of 14 flows, means over f1.start=0..5ms, ± 95 %'),
                        (('--set', 'f0.segments=9,1000000'), 'figures of link pq, Jain\'s index of 3 to 4 of 14 flows'),
                        (('--show', 'run.jain'), None)):
        lines = tool('sweep', mice[1], '--set', 'pq.queue=droptail:5,9', '--program', PROGRAM, *words).stdout.decode().splitlines()
        assert lines[0] == said if said else 'flows' not in lines[0]


def test_a_sum_of_an_index_is_no_sum(mice):
    assert [column.name for column in columns_of('f0+f1.jain,*.jain', Pattern(mice[0].text))] == ['f0+f1.jain', '*.jain']
    with pytest.raises(tcpsim.Wrong, match='took does not add up; sums are of goodput, delivered'):
        columns_of('f0+f1.took', Pattern(mice[0].text))


def test_python_compares_the_four(mice):
    net, _ = mice
    found, (wanted, *_) = tcpsim.run(net).figures, of_four(net)
    assert (found.jain, found.compared) == (wanted, ('f0', 'f1', 'f2', 'f3'))
    assert found.mice == tuple(f'f{number}' for number in range(4, 14)) and found.limited == found.ended == ()
    assert found.jain_of('f0', 'f1') == jain([found.flows['f0'].goodput, found.flows['f1'].goodput])
    assert repr(found).endswith(f"Jain's index {wanted:.4f}, of 4 of 14 flows (without 10 mice)")
