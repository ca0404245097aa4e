"""Tests of what tcpsim-net gives flows beside their paths: variants, windows, losses, mice and small differences; of the
same fields of a sweep; and of the cycle of timeouts of a NewReno flow, which tcpsim-flows and tcpsim-stalls name.

They go by the built program, and by the model where that is not built.
"""
import hashlib
import itertools
import os
import subprocess
import sys

import pytest

from clone import BUILT, MODEL, csv_rows, tool
from tcpsim import cycle
from tcpsim.sweeps import pattern as sweep
from tcpsim.cli import net as command
from tcpsim.command_line import Wrong
from tcpsim.engine import EngineRun
from tcpsim.scenario import senders
from tcpsim.scenario.text import Scenario

PROGRAM = [BUILT] if os.path.exists(BUILT) else [sys.executable, MODEL]
MINUTE = '60s'


def text_of(words):
    return command.scenario(words.split())


def statements(text, kind):
    """The words of all statements of a kind, without comments."""
    lines = (line.partition('#')[0].split() for line in text.splitlines())
    return [words for words in lines if words and words[0] == kind]


def engine(text):
    """The figures of a run, as the program counts them."""
    done = subprocess.run([*PROGRAM, 'figures'], input=text.encode('ascii'), capture_output=True, check=True)
    return EngineRun(Scenario(text), done.stdout.decode('ascii'))


# ---- variants, windows, losses

def test_variants_and_initial_windows_go_to_the_flows_by_turns():
    flows = statements(text_of('dumbbell --flows 5 --variant reno,newreno --iw 3,3,10 --rwnd 64k'), 'flow')
    assert [words[9:] for words in flows] == [[], ['newreno', 'iw3'], ['reno', 'iw10'], ['newreno', 'iw3'], []]


def test_a_text_of_reno_flows_has_no_words_more():
    """Whoever wrote a text by the options that there were has the same text now."""
    words = 'dumbbell --flows 2 --rate 10M --rtt 40ms --queue droptail:BDP'
    text = text_of(words)
    assert [len(flow) for flow in statements(text, 'flow')] == [9, 9]
    assert {flow[7] for flow in statements(text, 'flow')} == {str(2**30)}
    assert text.splitlines()[:3] == [
        '# A dumbbell: 2 flows over the bottleneck pq of 10Mbit/s with the queue droptail:BDP.',
        '# A round trip is that of the delays alone: waiting and sending come on top.', f'# Written by: tcpsim-net {words}']
    assert text.replace(words, '') == text_of(words + ' --variant reno --iw 3').replace(words + ' --variant reno --iw 3', '')


def test_packets_are_lost_by_their_number():
    text = text_of('dumbbell --flows 1 --lose pq=21,20 --lose r0q=3 --segments 40')
    assert statements(text, 'lose') == [['lose', 'pq', '20'], ['lose', 'pq', '21'], ['lose', 'r0q', '3']]
    run = engine(text)
    names = [link.name for link in run.scenario.links]
    assert {name: run.links[names.index(name)]['dropped as lost', 'packets'] for name in ('pq', 'r0q')} == {'pq': 2, 'r0q': 1}


@pytest.mark.parametrize('words, named', [
    ('--variant cubic', 'cubic'), ('--variant reno,', "''"), ('--iw 4', '4'), ('--iw iw', 'iw'), ('--lose pq', 'LINK=N'),
    ('--lose =3', 'LINK=N'), ('--lose pq=', "''"), ('--lose pq=0', 'from 1'), ('--lose pq=3,3', 'twice'),
    ('--lose pq=2000000000', '1,000,000,000'), ('--lose xy=3', 'xy'), ('--lose pq=3 --lose pq=4', 'twice'),
    ('--lose pq=' + ','.join(map(str, range(1, 66))), '64'), ('--variant reno,newreno,reno', '3 values'),
    ('--iw 3,10,3', '3 values'), ('--spread x', 'x'), ('--spread 1000000001', 'range'), ('--mice 128', '127'),
    ('--mice 118', 'nodes')])
def test_what_is_wrong_is_said_in_a_sentence(words, named):
    done = tool('net', 'dumbbell', *words.split())
    assert (done.returncode, done.stdout) == (2, b'')
    line, = done.stderr.decode().splitlines()
    assert line.startswith('tcpsim-net: ')
    assert named in line


# ---- many flows

@pytest.mark.parametrize('count', [15, 16, 30, 31, 119])
def test_a_dumbbell_of_many_flows_is_a_tree(count):
    """From 16 flows on the ends are at as few leaves as have room, and the round trip stays."""
    text = text_of(f'dumbbell --flows {count} --rtt 40ms,80ms --segments 3 --end 60s')
    read = Scenario(text)
    leaves = -(-count // 15) if count > 15 else 0
    assert sum(node.kind == 'router' for node in read.nodes) == 2 + 2 * leaves
    trips = [sum(read.links[link].delay for path in paths for link in path) for paths in read.paths]
    assert trips == [(40, 80)[n % 2] * 10**6 for n in range(count)]
    assert all('pq' in [read.links[link].name for link in there] for there, _ in read.paths)
    assert [flow['delivered', 'bytes'] for flow in engine(text).flows] == [3 * 1460] * count


# ---- the window of NewReno flows

# One flow for a minute: rate in Mbit/s, round trip in ms, queue in bandwidth-delay products. The least of what is used is
# 0.93 where there are eight packets in a product and a round trip takes no more than 100 ms. Two kinds of paths have less: of 2 Mbit/s
# and 20 ms, with three places a packet more or less counts; and those of 200 ms, where the first slow start costs a
# timeout and tens of seconds until the window is back.
GRID = [*itertools.product((2, 5, 10, 20, 50), (20, 50, 100, 200), (1, 2))]
SHORT, LONG = (2, 20, 1), 200


@pytest.mark.skipif(len(PROGRAM) > 1, reason='the model is too slow for a minute of 50 Mbit/s')
@pytest.mark.parametrize('rate, trip, times', GRID)
def test_a_newreno_flow_uses_its_link_and_has_losses(rate, trip, times):
    queue = times * rate * trip * 1000 // (8 * 1500)
    run = engine(text_of(f'dumbbell --flows 1 --rate {rate}M --rtt {trip}ms --queue droptail:{queue} --variant newreno '
                         f'--end {MINUTE}'))
    assert run.links[0]['dropped as full', 'packets'] > 0
    assert run.over_span(0, ('busy', 'ns')) >= (0.88 if (rate, trip, times) == SHORT or trip == LONG else 0.93)
    assert run.flows[0]['timeouts', 'times'] <= 1


def test_the_window_is_that_of_the_slowest_link():
    """Of 1 Mbit/s the product of a round trip of 2 x (5 + 10 + 5) ms and 12,000 bits is 3 1/3 packets; with a queue of 20
    these are 23 1/3, and 1.25 times that, rounded up, are 30 segments."""
    text = text_of('chain --flows 2 --hops 1 --delay 10ms --access-delay 5ms --rate 1M --queue droptail:20 --variant newreno,reno')
    assert [flow[7] for flow in statements(text, 'flow')] == [str(30 * 1460), str(2**30)]
    assert '1.25 x (bandwidth-delay product + queue)' in text
    assert text_of('dumbbell --variant newreno --rwnd 64k').count('1.25') == 0


def test_a_window_has_its_greatest():
    text = text_of('dumbbell --flows 1 --rate 100G --rtt 10s --queue droptail:10 --variant newreno')
    assert statements(text, 'flow')[0][7] == str(2**30)


# ---- the cycle

TRAP = ('dumbbell --flows 1 --rate 10M --rtt 20ms --queue droptail:24 --variant newreno --mss 1000 --delack 0 --end 4s')


def test_flows_and_stalls_name_the_cycle(tmp_path):
    """With an open window the flow times out again and again: each says so, and the window that they name ends it."""
    trap = tmp_path / 'trap.txt'
    trap.write_text(text_of(TRAP + ' --rwnd 1G'), encoding='ascii')
    said = [tool(name, trap).stdout.decode() for name in ('flows', 'stalls')]
    for text in said:
        line = text.splitlines()[-1]
        assert line.startswith('f0: a cycle of timeouts: at 3 of 3 more was in flight than the way holds')
        assert 'RWND) of 61000 ends it' in line
    rows = {row['figure']: row['value'] for row in csv_rows(tool('flows', trap, '--csv').stdout.decode())}
    # 10 Mbit/s x 20 ms / 8 / 1,040 bytes are 24.038 packets, and 24 places: 48,038 bytes of segments
    assert (rows[cycle.BEYOND], rows[cycle.HELD]) == ('3', '48038')
    assert int(rows[cycle.MOST]) > 5 * 48_038
    trap.write_text(text_of(TRAP + ' --rwnd 61000'), encoding='ascii')
    for name in ('flows', 'stalls'):
        assert 'cycle' not in tool(name, trap).stdout.decode()


def test_what_is_no_cycle():
    """A Reno flow, or one such timeout alone, is none."""
    for variant, flights, found in (('newreno', [10**6, 10**6], 2), ('newreno', [10**6, 1000], None), ('newreno', [], None),
                                    ('reno', [10**6, 10**6], None)):
        noticed = cycle.cycle_of(Scenario(text_of(TRAP.replace('newreno', variant))), 0, flights)
        assert (noticed and noticed.beyond) == found


# ---- small differences

def test_draws_are_those_of_the_rule():
    digest = hashlib.sha256(b'7 f0 delay').digest()
    assert senders.drawn(7, 'f0', 'delay', 10**6) == int.from_bytes(digest[:8], 'big') % (10**6 + 1)
    draws = [senders.drawn(number, 'f0', 'segment', 9) for number in range(400)]
    assert {*draws} == {*range(10)}


def test_flows_are_spread():
    plain, one, again, two = (Scenario(text_of(f'dumbbell --flows 8 --rtt 40ms{words}'))
                              for words in ('', ' --spread 1', ' --spread 1', ' --spread 2'))
    assert [*one.flows] == [*again.flows] != [*two.flows]
    for before, after in zip(plain.flows, one.flows):
        assert 1460 - 146 <= after.mss <= before.mss
        assert 0 <= after.start - before.start <= 40 * 10**6
    trips = [sum(one.links[link].delay for path in paths for link in path) for paths in one.paths]
    assert all(40 * 10**6 <= trip <= 42 * 10**6 for trip in trips)
    assert min(len({*trips}), len({flow.mss for flow in one.flows}), len({flow.start for flow in one.flows})) >= 7


def test_mice_have_one_small_segment_in_flight():
    text = text_of('dumbbell --flows 2 --mice 20 --end 10s --variant newreno')
    read = Scenario(text)
    assert len(read.flows) == 22
    assert [(flow.mss, flow.segments, flow.start) for flow in read.flows[:2]] == [(1460, 10**9, 0)] * 2
    for mouse in read.flows[2:]:
        assert 25 <= mouse.mss <= 125
        assert (mouse.rwnd, mouse.delack) == (mouse.mss, 0)
        assert 0 <= mouse.start <= 10**9
    assert len({mouse.start for mouse in read.flows[2:]}) == 20
    assert sum(node.kind == 'router' for node in read.nodes) == 2 + 2 * 2
    sent = [flow['sent', 'segments'] for flow in engine(text).flows[2:]]
    assert min(sent) > 20


# ---- sweeps

def test_a_sweep_sets_variants_and_initial_windows():
    text = 'sim 9\nnode s sender\nflow f s r 1000 5 0 64000 0  # one\nflow g s r 1000 5 0 64000 0 newreno iw10\n'
    pattern = sweep.Pattern(text)
    settings = sweep.settings_of(['*.variant=reno,newreno', 'f.iw=3,10'], pattern)
    assert [each.values for each in settings] == [['reno', 'newreno'], [3, 10]]
    lines = pattern.point(settings, ('newreno', 10)).splitlines()
    assert lines[2:] == ['flow f s r 1000 5 0 64000 0 newreno iw10  # one', 'flow g s r 1000 5 0 64000 0 newreno iw10']
    alone = sweep.settings_of(['f.iw=10'], pattern)
    assert pattern.point(alone, (10,)).splitlines()[2:] == [
        'flow f s r 1000 5 0 64000 0 reno iw10  # one', 'flow g s r 1000 5 0 64000 0 newreno iw10']


@pytest.mark.parametrize('word', ['f.variant=cubic', 'f.iw=4', 'f.variant=', 'f.iw=3,3', 's.variant=reno', 'f.variant=reno,reno'])
def test_a_sweep_refuses_what_is_none(word):
    pattern = sweep.Pattern('sim 9\nnode s sender\nflow f s r 1000 5 0 64000 0\n')
    with pytest.raises(Wrong):
        sweep.settings_of([word], pattern)
