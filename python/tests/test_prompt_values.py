"""Tests of conditions on values at the model's prompt, and of going to a moment: by hand, and beside the lines of the runs' traces and
dumps, from which each stop is found by other means."""
import os
import re
from operator import eq, ge, gt, le, lt

import pytest

from clone import TOP, paths
from typed_lines import START, Session, at, came_to, refuses, time_of, trace_of

TWO, CODEL, FAIR = (paths(name)[0] for name in ('two_timeouts_in_a_row', 'codel_enters_drop_state', 'two_flows_share_fairly'))
SIX = os.path.join(TOP, 'docs', 'scenarios', 'six_flows_over_three_routers.txt')
COMPARES = {'<': lt, '<=': le, '>': gt, '>=': ge, '=': eq}


def stops(path, words, most=1000):
    """The positions at which a breakpoint stops."""
    session, found = Session(path), []
    assert 'refused' not in session(f'break {words}'), words
    while len(found) < most and '\nbreak 1: ' in session('run'):
        found.append(session.position)
    return found


def shown(line):
    """The values that a line of the trace shows, by their names."""
    values = {name: int(value) for name, value in re.findall(r' (una|nxt|cwnd|ssthresh|next)=(\d+)', line)}
    return {**values, **({'flight': values['nxt'] - values['una']} if 'nxt' in values else {})}


# ---- of a sender and a receiver

@pytest.mark.parametrize('words', ['cwnd<3000', 'cwnd<=3000', 'cwnd=3333', 'cwnd>7000', 'cwnd>=7000', 'flight>5000', 'flight=0', 'ssthresh<64000', 'una=4000',
                                   'una>=9000', 'nxt<5000', 'nxt=10000', 'next>=4000', 'next<1000', 'next=0'])
def test_values_that_lines_show(words):
    name, sign, bound = re.fullmatch(r'(\w+)([<>=]+)(\d+)', words).groups()
    lines = trace_of(TWO)
    assert stops(TWO, words) == [n for n, line in enumerate(lines, 1) if name in shown(line) and COMPARES[sign](shown(line)[name], int(bound))]


def test_values_that_no_line_shows():
    assert stops(TWO, 'dups>=1') == [22, 25] and stops(TWO, 'dups=2') == [25]
    # The timer doubles twice, and what is sent then was sent before: it is not timed.
    later = [27, 28, 31, 32, 34, 36, 39, 40, 42, 44, 46, 48, 51]
    assert stops(TWO, 'rto>1s') == stops(TWO, 'rto>1000000000') == [26, *later]
    assert stops(TWO, 'rto=4s') == later and stops(TWO, 'rto=2s') == [26] and stops(TWO, 'rto<200ms') == []
    lines = trace_of(TWO)
    assert stops(TWO, 'phase ca') == [n for n, line in enumerate(lines, 1) if line.split(' phase=')[-1].startswith('ca')]
    assert stops(TWO, 'phase fr') == [] and stops(paths('fast_recovery')[0], 'phase fr')


def test_a_condition_is_of_any_flow_or_of_the_one_beside():
    lines = trace_of(FAIR)
    found = stops(FAIR, 'cwnd<2000')
    of = {flow: [n for n in found if lines[n - 1].split()[2] == node] for flow, node in (('fa', '2'), ('fb', '4'))}
    assert sorted(of['fa'] + of['fb']) == found and of['fa'] and of['fb']
    # A free link's event names no flow.
    assert stops(FAIR, 'cwnd<2000 flow fb') == [n for n in of['fb'] if lines[n - 1].split()[5] != 'free']


# ---- of a link

def test_packets_that_wait():
    # Of the first four segments one is sent at once, and each link that becomes free takes the next; what is lost does not wait.
    assert stops(TWO, 'queue a>2', 2) == [1] and stops(TWO, 'queue a>=2', 2) == [1, 2]
    assert stops(TWO, 'queue a=1', 3) == [4, 6, 14] and stops(TWO, 'queue a=0', 4) == [8, 10, 12, 17]
    assert stops(TWO, 'queue b>0') == []
    # Line 4 takes the third segment at 2.08 ms, and the fourth has waited since 0; so at line 6, which offers two that are lost.
    assert stops(TWO, 'wait a>=2ms', 2) == [4, 6] and stops(TWO, 'wait a>=3.08ms') == [6] and stops(TWO, 'wait a>3080us') == []
    assert stops(TWO, 'wait a=0', 2) == [1, 14] and stops(TWO, 'wait a<1s', 3) == [1, 2, 4]


@pytest.mark.parametrize('link, words', [('bc', 'queue bc>=10'), ('ab', 'queue ab>5'), ('bc', 'queue bc=0'), ('ba', 'queue ba>=0')])
def test_queues_beside_dumps(link, words):
    """A link changes where a packet is offered to it, and where it has sent one: then it takes the next, or is idle."""
    session, lines, found, before = Session(SIX), trace_of(SIX), [], None
    number = {'ab': 0, 'ba': 1, 'bc': 2}[link]
    sign, bound = re.search(r'([<>=]+)(\d+)', words).groups()
    for n in range(1, 400):
        session('step')
        now = session(f'state link {link}')
        queue = re.search(r'queue=(\S+)', now)[1]
        waits = 0 if queue == '-' else queue.count(',') + 1
        if (now != before and n > 1 or re.match(rf'\d+ \d+ \d+ 0 \d+ free {number} ', lines[n - 1].replace('\n', ' '))) and COMPARES[sign](waits, int(bound)):
            found.append(n)
        before = now
    assert found and [n for n in stops(SIX, words) if n < 400] == found


def test_the_count_of_codel():
    assert stops(CODEL, 'count a>=1', 1) == [54] and stops(CODEL, 'count a=1', 1) == [54] and stops(CODEL, 'count a<1', 3) == [1, 2, 5]
    assert stops(TWO, 'count a<5') == [] and stops(CODEL, 'count b>=0') == []


# ---- moments and changes

def test_moments():
    lines = trace_of(TWO)
    assert stops(TWO, 'time>=1s') == list(range(26, 52)) and stops(TWO, 'time=4160000') == stops(TWO, 'time=4.16ms') == [12, 13]
    assert stops(TWO, 'time<1.04ms') == [1] and stops(TWO, 'time>9.28ms kind rto') == [26, 27]
    assert stops(TWO, 'time<=1040us') == [n for n, line in enumerate(lines, 1) if time_of(line) <= 1_040_000]


@pytest.mark.parametrize('name', ['una', 'nxt', 'cwnd', 'ssthresh', 'flight', 'next'])
def test_changes(name):
    lines, found, before = trace_of(TWO), [], {'cwnd': 4000, 'ssthresh': 64000}.get(name, 0)
    for n, line in enumerate(lines, 1):
        now = shown(line).get(name, before)
        found += [n] * (now != before)
        before = now
    assert found and stops(TWO, f'change {name} f') == found


def test_what_a_value_changed_from():
    session, lines = Session(TWO), trace_of(TWO)
    assert session('break change cwnd f') == session('breaks') == 'break 1: change cwnd f\n'
    assert session('run').endswith(came_to(TWO, lines, 6) + 'break 1: change cwnd f (cwnd from 4000)\n')
    assert session('goto 26').endswith(came_to(TWO, lines, 26) + 'break 1: change cwnd f (cwnd from 8000)\n')
    assert session('reverse').endswith(came_to(TWO, lines, 18) + 'break 1: change cwnd f (cwnd from 7000)\n')
    assert session('step').endswith(at(lines, 19)) and session('delete 1') == 'deleted 1: change cwnd f\n'
    session('break change rto f', 'break change dups f')
    assert session('run').endswith(came_to(TWO, lines, 22) + 'break 2: change dups f (dups from 0)\n')
    assert session('goto 26').endswith(came_to(TWO, lines, 26) + 'break 1: change rto f (rto from 1000000000ns)\n')
    # That of a flow that the line is not of does not change.
    assert stops(FAIR, 'change cwnd fb', 1) == [next(n for n, line in enumerate(trace_of(FAIR), 1) if ' 4 ' in line[:30] and 'ack 1 ' in line and
                                                    line.split()[2] == '4')]


def test_a_condition_on_a_value_beside_others():
    assert stops(TWO, 'cwnd<3000 drop') == stops(TWO, 'drop cwnd <3000') == [26]
    assert stops(TWO, 'cwnd<3000 time<3.01s link a') == [26, 27, 31]
    session = Session(TWO)
    assert session('break change cwnd f time>1ms count a>0 wait b<1us queue a=1 next=1 phase ss dups>0 rto=1s nxt=1 una=1 ssthresh>1 flight<1 '
                   'cwnd>=1 byte 1 link b drop kind rto flow f node s') == (
        'break 1: node s flow f kind rto drop link b byte 1 cwnd>=1 flight<1 ssthresh>1 una=1 nxt=1 rto=1000000000ns dups>0 phase ss next=1 queue a=1 '
        'wait b<1000ns count a>0 time>1000000ns change cwnd f\n')
    told = session('breaks').partition(': ')[2]
    assert session('clear', f'break {told.rstrip()}') == f'clear\nbreak 1: {told}'


# ---- how they are typed

def test_a_word_is_parted_at_signs():
    session = Session(TWO)
    for words in ('cwnd<3000', 'cwnd <3000', 'cwnd< 3000', 'cwnd < 3000', '  cwnd  <  3000'):
        assert session(f'break {words}') == 'break 1: cwnd<3000\n', words
    for words in ('queue a>=5', 'queue a >= 5', 'queue 0 >=5', 'queue 0>= 5'):
        assert session(f'br {words}') == 'break 2: queue a>=5\n', words
    assert session('break wait b<=1.5ms', 'break time=0.5s') == 'break 3: wait b<=1500000ns\nbreak 4: time=500000000ns\n'


def test_what_is_refused():
    session = Session(TWO)
    refuses(session, 'B1', 'break cwn<3', 'break <3000', 'break cwnd<3 4', 'break =', 'break change queue f', 'break change x', 'break change phase f', 'break cwnd<=<3 4', 'break cwnd==3', 'break cwnd=<3', 'break phase=ss', 'step<3',
            'break queue a>1 stall')
    refuses(session, 'B2', 'break cwnd', 'break cwnd<', 'break cwnd 3000', 'break queue a', 'break queue a>', 'break cwnd<1 cwnd>2', 'break phase', 'break change',
            'break change cwnd', 'break queue a<1 queue b<1', 'break change cwnd f change x f', 'break time<', 'break stall cwnd<3')
    refuses(session, 'B3', 'break cwnd<x', 'break cwnd<01', 'break cwnd<-1', 'break cwnd<1.5', 'break cwnd<1000000000000001', 'break phase xx', 'break phase =',
            'break queue x>1', 'break queue s>1', 'break wait a>1.5', 'break rto<1.0ns', 'break time>1000001s', 'break change cwnd a', 'break cwnd 3000 4')
    assert 'tcpsim: a is a link: see help numbers\n' in session('break change cwnd a')


# ---- to a moment

def test_goto_a_moment():
    session, lines = Session(TWO), trace_of(TWO)
    assert session('goto 1.5s').endswith(lines[25] + came_to(TWO, lines, 26))
    assert session('') == at(lines, 26)
    assert session('goto 4160us').endswith(lines[11] + at(lines, 11))
    assert session('goto 4.160001ms') == lines[11] + lines[12] + came_to(TWO, lines, 13)
    assert session('goto 0s').endswith(lines[0] + START) and session('goto 0ns') == START
    session('break kind rto')
    assert session('goto 2s').endswith(at(lines, 26) + 'break 1: kind rto\n')
    assert session('goto 999s').endswith(at(lines, 51)) and session('goto 2000000us').endswith(at(lines, 26))
    refuses(session, 'B3', 'goto 1.5', 'goto s', 'goto 1.0ns', 'goto 01s', 'goto 1000001s', 'goto -1s', 'goto 1S')
    refuses(session, 'B2', 'goto 1 s', 'goto 1s 2')


# ---- help

def test_help():
    session = Session(TWO)
    assert 'goto N       go to position N, or to a moment as 1.5s, forwards or back\n' in session('help')
    assert session('help break').count('help values') == 1
    assert session(session('help values').splitlines()[-1]) == 'break 1: flow f cwnd<3000\n'
