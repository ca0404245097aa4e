"""Tests of displays and of the list of stalls at the model's prompt: by hand, beside dumps of the states and
the runs' traces, from which each value and each stall is found by other means."""
import os
import random
import re

import pytest

from clone import TOP, paths
from tcpsim_model.command_line import read as scenario_in
from typed_lines import Session, at, refuses, time_of, trace_of, unnamed

TWO, STALLS, CODEL, FAIR, ONE = (paths(name)[0] for name in (
    'two_timeouts_in_a_row', 'two_stalls_of_different_causes', 'codel_enters_drop_state', 'two_flows_share_fairly', 'one_segment'))
SIX = os.path.join(TOP, 'docs', 'scenarios', 'six_flows_over_three_routers.txt')
OF_FLOW = 'cwnd', 'flight', 'ssthresh', 'una', 'nxt', 'rto', 'dups', 'phase', 'next'
OF_LINK = 'queue', 'wait', 'count'


def shown(session, *lines):
    """The lines of displays in the last answer; they are its last lines."""
    session(*lines[:-1])
    told = session(lines[-1]).splitlines()
    found = [line for line in told if line.startswith('display ')]
    assert told[len(told) - len(found):] == found
    return found


# ---- by hand

def test_a_value():
    session = Session(TWO)
    assert session('display') == session('disp') == 'no display\n'
    assert session('display cwnd f') == session('display') == session('di cwnd 0') == 'display 1: cwnd f = 4000\n'
    # Four segments fit the window; the first acknowledgement, in line 6, widens it by one segment.
    assert shown(session, 'step 5') == ['display 1: cwnd f = 4000']
    assert session('step') == ''.join(trace_of(TWO)[5:6]) + 'of node s, flow f\nat 6 of the run, time 3080000 ns\n' \
        'display 1: cwnd f = 5000 (was 4000)\n'
    assert session('display') == session('display cwnd f') == 'display 1: cwnd f = 5000\n'
    assert shown(session, 'back') == ['display 1: cwnd f = 4000 (was 5000)']
    # A move that moves nothing leaves it.
    for line in ('step 0', 'until 1ns', 'goto 5', ''):
        assert shown(session, line) == ['display 1: cwnd f = 4000'], line
    # A timeout in line 26 doubles the timer, and leaves a window of one segment.
    assert shown(session, 'display rto f', 'goto 26') == ['display 1: cwnd f = 1000 (was 4000)', 'display 2: rto f = 2000000000ns (was 1000000000ns)']
    assert shown(session, 'display phase f', 'display dups 0', 'reverse') == [
        'display 1: cwnd f = 4000 (was 1000)', 'display 2: rto f = 1000000000ns (was 2000000000ns)', 'display 3: phase f = ss',
        'display 4: dups f = 0']


def test_a_flow():
    session = Session(TWO)
    assert session('display flow f') == ('display 1: flow f: cwnd = 4000, flight = 0, ssthresh = 64000, una = 0, nxt = 0, rto = 1000000000ns, '
                                         'dups = 0, phase = ss, next = 0\n')
    # Of ten segments four are there, six under way or lost, and two of these made duplicates.
    assert shown(session, 'goto 25') == [
        'display 1: flow f: cwnd = 8000 (was 4000), flight = 6000 (was 0), ssthresh = 64000, una = 4000 (was 0), nxt = 10000 (was 0), '
        'rto = 1000000000ns, dups = 2 (was 0), phase = ss, next = 4000 (was 0)']
    assert shown(session, 'step') == [
        'display 1: flow f: cwnd = 1000 (was 8000), flight = 1000 (was 6000), ssthresh = 3000 (was 64000), una = 4000, nxt = 5000 (was 10000), '
        'rto = 2000000000ns (was 1000000000ns), dups = 0 (was 2), phase = ss, next = 4000']


def test_a_link():
    session = Session(TWO)
    assert session('display link a') == 'display 1: link a: queue = 0, wait = -, count = -\n'
    # Three segments wait behind the first, since 0; the link takes the next at 1.04 ms.
    assert shown(session, 'step') == ['display 1: link a: queue = 3 (was 0), wait = 0ns (was -), count = -']
    assert shown(session, 'step') == ['display 1: link a: queue = 2 (was 3), wait = 1040000ns (was 0ns), count = -']
    # An event elsewhere leaves what waits, and it waits on.
    assert shown(session, 'step') == ['display 1: link a: queue = 2, wait = 2040000ns (was 1040000ns), count = -']
    assert shown(session, 'back 3') == ['display 1: link a: queue = 0 (was 2), wait = - (was 2040000ns), count = -']
    # CoDel drops its first packet in line 54.
    session = Session(CODEL)
    assert shown(session, 'display count a', 'display queue a', 'goto 54') == ['display 1: count a = 1 (was 0)', 'display 2: queue a = 5 (was 0)']
    assert shown(session, 'display wait a', 'display count b') == ['display 4: count b = -']


def test_undisplay():
    session = Session(FAIR)
    session('display cwnd fa', 'display flow fb', 'display queue pq', 'step 7')
    assert session('undisplay 2') == 'undisplayed 2: flow fb\n'
    assert [line.split(' = ')[0] for line in shown(session, 'display')] == ['display 1: cwnd fa', 'display 2: queue pq']
    assert session('undisplay 2', 'und 1', 'display') == 'undisplayed 2: queue pq\nundisplayed 1: cwnd fa\nno display\n'
    # `clear` is of breakpoints, and `undisplay` of displays.
    session('break drop', 'display dups fb')
    assert session('clear', 'breaks', 'display') == 'clear\nno breakpoint\ndisplay 1: dups fb = 0\n'
    session('break drop', 'undisplay 1')
    assert session('breaks', 'display') == 'break 1: drop\nno display\n'


def test_what_is_behind_all_else():
    session, lines = Session(TWO), trace_of(TWO)
    session('break stall', 'display una f')
    assert session('run') == '.. 15 more\n' + ''.join(lines[15:25]) + 'of node s, flow f\n' + at(lines, 25) + 'break 1: stall\n' \
        'display 1: una f = 4000 (was 0)\n'
    told = session('where', 'lines 1', 'why f', 'breaks', 'break drop', 'names', 'state', 'help', 'stalls', 'clear', 'delete 9', 'step x', 'stpe')
    assert 'display 1' not in told
    assert session('step').endswith('at 26 of the run, time 1006200000 ns\ndisplay 1: una f = 4000\n')


def test_an_image():
    session = Session(unnamed(SIX))
    assert session('display cwnd 2', 'display queue 2', 'display link 0') == ('display 1: cwnd 2 = 4000\ndisplay 2: queue 2 = 0\n'
                                                                           'display 3: link 0: queue = 0, wait = -, count = -\n')
    assert 'display 4: flow 2: cwnd = 4000, ' in session('display flow 2')
    told = session('break stall 2', 'run')
    assert '\nof ' not in told and '\nbreak 1: stall 2\ndisplay 1: cwnd 2 = 6000 (was 4000)\n' in told
    assert session('undisplay 4') == 'undisplayed 4: flow 2\n' and session('stalls') == 'goto 657: flow 2 is stalled at 327772800 ns\n'
    refuses(session, 'B3', 'display cwnd mail', 'display link bc')


# ---- beside dumps

def values_of(session, item, number):
    """What a dump has of a flow, or of a link."""
    dump = session('state')
    if item == 'link':
        words = dict(word.split('=') for word in re.search(rf'^link {number} (.*)$', dump, re.M)[1].split() if '=' in word)
        waiting = [] if words['queue'] == '-' else words['queue'].split(',')
        time = int(re.search(r'time (\d+) ns', session('where'))[1])
        return {'queue': str(len(waiting)), 'wait': f'{time - int(waiting[0].split("@")[1])}ns' if waiting else '-', 'count': words.get('count', '-')}
    words = dict(word.split('=') for word in re.search(rf'^node \d+ sender {number} (.*)$', dump, re.M)[1].split())
    grows = 'ss' if int(words['cwnd']) < int(words['ssthresh']) else 'ca'
    return {**{name: words[name] for name in ('cwnd', 'ssthresh', 'una', 'nxt', 'dups')}, 'flight': str(int(words['nxt']) - int(words['una'])),
            'rto': words['rto'] + 'ns', 'phase': 'fr' if words['fr'] == '1' else grows,
            'next': re.search(rf'^node \d+ receiver {number} next=(\d+)', dump, re.M)[1]}


def line_of(item, name, values, before):
    """The line of a display, behind its number."""
    def told(value):
        return f'= {values[value]}' + (f' (was {before[value]})' if values[value] != before[value] else '')
    if item in ('flow', 'link'):
        return f'{item} {name}: ' + ', '.join(f'{value} {told(value)}' for value in (OF_FLOW if item == 'flow' else OF_LINK))
    return f'{item} {name} {told(item)}'


@pytest.mark.parametrize('path, flow, link', [(TWO, 'f', 'a'), (CODEL, 'f', 'a'), (FAIR, 'fb', 'pq'), (SIX, 'mail', 'bc'), (SIX, 'web', 'bc')])
def test_values_beside_dumps(path, flow, link):
    session, pick = Session(path), random.Random(f'{os.path.basename(path)} {flow}')
    numbers = {name: int(number) for _, number, name in map(str.split, session('names').splitlines())}
    items = [('flow', flow), ('link', link), *((name, flow) for name in OF_FLOW), *((name, link) for name in OF_LINK)]
    pick.shuffle(items)
    for item, name in items:
        session(f'display {item} {name}')
    session('break drop')

    def now():
        return {'flow': values_of(session, 'flow', numbers[flow]), 'link': values_of(session, 'link', numbers[link])}
    before = now()
    for _ in range(60):
        move = pick.choice(('step', 'step 3', 'step 40', 'back', 'back 7', 'run', 'reverse', 'until 50ms', 'goto 100', 'goto 20ms', ''))
        found, after = shown(session, move), now()
        assert found == [f'display {n}: ' + line_of(item, name, *(of['flow' if name == flow else 'link'] for of in (after, before)))
                         for n, (item, name) in enumerate(items, 1)]
        before = after


# ---- refusals

def test_what_is_refused():
    session = Session(TWO)
    refuses(session, 'B1', 'display foo', 'display foo f g', 'display node s', 'display kind', 'display time f', 'display change cwnd f', 'display cwn f',
            'display f', 'display cwnd=f', 'displays', 'undisplays 1', 'stallss', 'help displays', 'help stallss')
    refuses(session, 'B2', 'display cwnd', 'display cwnd f f', 'display flow', 'display link a b', 'undisplay', 'undisplay 1 2', 'stalls f', 'stalls 0',
            'help display cwnd')
    refuses(session, 'B3', 'display cwnd a', 'display cwnd 1', 'display queue f', 'display queue 2', 'display flow 01', 'display link x', 'undisplay x',
            'undisplay 01', 'undisplay -1')
    refuses(session, 'B5', 'undisplay 0', 'undisplay 1', 'undisplay 99999999999999999999999')
    assert session('display cwnd a').endswith('\ntcpsim: a is a link: see help numbers\n'
                                              'tcpsim: there are nodes 0 to 1, links 0 to 1, flows 0 to 0: see help numbers\n')
    assert session('display') == 'no display\n'


def test_a_65th_is_refused():
    session = Session(SIX)
    items = [f'{name} {flow}' for name in OF_FLOW for flow in range(6)] + [f'link {link}' for link in range(10)]
    for item in items:
        session(f'display {item}')
    assert len(shown(session, 'display')) == 64 == len(items)
    refuses(session, 'B4', 'display flow mail', 'display count ab')
    # One that is set keeps its number, and breakpoints are counted by themselves.
    assert shown(session, 'display cwnd web') == ['display 4: cwnd web = 4000'] and session('break drop') == 'break 1: drop\n'
    assert session('undisplay 64', 'display flow mail').splitlines()[-1].startswith('display 64: flow mail: ')
    refuses(session, 'B4', 'display queue bc')


# ---- stalls

def test_stalls():
    assert Session(TWO)('stalls') == 'goto 25: flow f is stalled at 9280000 ns\n'
    assert Session(STALLS)('stalls') == 'goto 7: flow f is stalled at 4120000 ns\ngoto 10: flow f is stalled at 1006160000 ns\n'
    assert Session(SIX)('stal') == 'goto 657: flow mail is stalled at 327772800 ns\n'
    assert Session(ONE)('stalls') == 'no stall\n'


# Three flows of links of their own. The one segment of f1 is lost at once and that of f0 7 ns later; that of f2 arrives.
AT_ONCE = b'sim 5000000000\n' + b''.join(
    b'node s%d sender\nnode r%d receiver\nlink a%d s%d r%d 8000000 1000000 droptail 10\nlink b%d r%d s%d 8000000 1000000 droptail 10\n'
    b'flow f%d s%d r%d 1000 1 %d 64000 0\n' % (*[n] * 11, start) for n, start in enumerate((7, 0, 0))) + b'lose a0 1\nlose a1 1\n'


def test_stalls_of_several_flows():
    session = Session(scenario_in(AT_ONCE))
    assert session('stalls') == 'goto 1: flow f1 is stalled at 0 ns\ngoto 3: flow f0 is stalled at 7 ns\n'
    assert session('break stall f0', 'run').endswith('of node s0, flow f0\nat 3 of the run, time 7 ns\nbreak 1: stall f0\n')


def test_the_list_leaves_the_session_where_it_is():
    session = Session(STALLS)
    session('break drop', 'display una f', 'step 4')
    before = session('where', 'breaks', 'display', 'state')
    assert session('stalls', 'stalls').count('\n') == 4
    assert session('where', 'breaks', 'display', 'state') == before and 'known to go to 4\n' in before
    assert session('').endswith('at 8 of the run, time 1004120000 ns\ndisplay 1: una f = 2000 (was 0)\n')


@pytest.mark.parametrize('path', [TWO, STALLS, CODEL, SIX, *(paths(name)[0] for name in (
    'a_lost_retransmission', 'a_timer_that_stays_doubled', 'an_answer_that_waits_for_its_alarm', 'three_losses_in_a_window'))])
def test_stalls_are_where_a_breakpoint_stops(path):
    session, lines, found = Session(path), trace_of(path), []
    listed = re.findall(r'^goto (\d+): flow (\w+) is stalled at (\d+) ns$', session('stalls'), re.M)
    session('break stall')
    while '\nbreak 1: stall\n' in session('run'):
        found.append(session.position)
        for flow in [flow for position, flow, _ in listed if int(position) == session.position]:
            assert session(f'why {flow}').startswith(f'flow {flow} is stalled: ')
    assert found == sorted({int(position) for position, _, _ in listed})
    assert [int(time) for _, _, time in listed] == [time_of(lines[int(position) - 1]) for position, _, _ in listed]


# ---- help

def test_help():
    session = Session(TWO)
    for word in ('cwnd', 'queue', 'change', 'time', 'next', 'values'):
        assert session(f'help {word}') == session('help values'), word
    refuses(session, 'B1', 'help cwn', 'help queues', 'help cwnd<3')
    assert 'first byte that is missing' in session('help why') and '4:d:7000@102299200' in session('help state')
