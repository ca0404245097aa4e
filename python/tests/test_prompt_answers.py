"""Tests of what the model answers at the prompt: by hand, beside the lines of the runs' traces, from which each answer is found
by other means."""
import os
import random

import pytest

from clone import paths
from typed_lines import START, Session, at, came_to, refuses, trace_of

TWO, STALLS, CODEL, FAIR = (paths(name)[0] for name in ('two_timeouts_in_a_row', 'two_stalls_of_different_causes', 'four_flows_before_codel',
                                                        'two_flows_share_fairly'))


# ---- what a move shows

def test_the_last_ten_lines_are_shown():
    session, lines = Session(TWO), trace_of(TWO)
    session('break stall')
    assert session('run') == '.. 15 more\n' + ''.join(lines[15:25]) + 'of node s, flow f\nat 25 of the run, time 9280000 ns\nbreak 1: stall\n'
    assert session('step 10') == ''.join(lines[25:35]) + came_to(TWO, lines, 35)
    assert session('step 11') == '.. 1 more\n' + ''.join(lines[36:46]) + came_to(TWO, lines, 46)
    # Backwards the lines that are undone, and of `reverse` that of its breakpoint too, which is the last.
    assert session('back 11') == '.. 1 more\n' + ''.join(lines[44:34:-1]) + at(lines, 35)
    assert session('back 1') == lines[34] + at(lines, 34)
    assert session('reverse') == ''.join(lines[33:23:-1]) + came_to(TWO, lines, 25) + 'break 1: stall\n'
    assert session('back 0') == at(lines, 25)
    assert session('reverse') == '.. 15 more\n' + ''.join(lines[9::-1]) + START
    assert session('reverse') == START
    session('break kind data', 'goto 4')
    assert session('reverse') == lines[3] + lines[2] + 'of node r, flow f\nat 3 of the run, time 2040000 ns\nbreak 2: kind data\n'


@pytest.mark.parametrize('path', [TWO, STALLS, CODEL, FAIR])
def test_a_move_ends_with_the_line_of_its_breakpoint(path):
    session, lines, pick = Session(path), trace_of(path), random.Random(os.path.basename(path))
    session('break drop')
    for _ in range(30):
        move, begin = pick.choice(('run', 'run', 'reverse', 'step 3')), session.position
        told = session(move).splitlines(True)
        if told[-1] == 'break 1: drop\n':
            assert ''.join(told[-4:-1]) == lines[session.position - 1] + came_to(path, lines, session.position) and ' drop=' in told[-4]
        shown = [line for line in told if line[0].isdigit()]
        count = abs(session.position - begin) + (move == 'reverse' and session.position > 0)
        assert len(shown) == min(count, 10) and (told[0] == f'.. {count - 10} more\n') == (count > 10)


def test_where_nothing_was_done():
    session, lines = Session(TWO), trace_of(TWO)
    session('goto 25')
    told = 'nothing was done: no event before 1000000 ns is left\nat 25 of the run, time 9280000 ns\n'
    assert session('until 1ms') == session('') == session('until 1000us') == told
    assert session('until 9280001ns').startswith('nothing was done: no event before 9280001 ns is left\n')
    assert session('until 2s') == lines[25] + 'of node s, flow f\nat 26 of the run, time 1006200000 ns\n'
    assert session('') == 'nothing was done: no event before 2000000000 ns is left\nat 26 of the run, time 1006200000 ns\n'
    assert 'nothing' not in session('step 0', 'goto 26', 'until 4s')


# ---- places

def test_goto_a_position():
    session, lines = Session(TWO), trace_of(TWO)
    assert session('goto 2') == ''.join(lines[:2]) + 'of node s, link a\nat 2 of the run, time 1040000 ns\n'
    assert session('') == 'at 2 of the run, time 1040000 ns\n'
    assert session('goto 1') == lines[1] + 'at 1 of the run, time 0 ns\n'
    session('break kind rto')
    assert session('goto 26').endswith(lines[25] + 'of node s, flow f\nat 26 of the run, time 1006200000 ns\nbreak 1: kind rto\n')
    assert session('goto 27', 'goto 26').endswith(lines[26] + 'at 26 of the run, time 1006200000 ns\n')
    assert session('goto 1000000000000000').endswith(f'{lines[50]}of node s, flow f\nat 51 of the run, time 3017520000 ns, the end\n')
    assert session('goto 0').endswith(lines[0] + START)
    refuses(session, 'B2', 'goto', 'goto 1 2', 'goto 1 s')
    refuses(session, 'B3', 'goto x', 'goto 01', 'goto -1', 'goto 1.5', 'goto 1000000000000001', 'goto 1000001s', 'goto 1.0000us')


def test_where():
    session, lines = Session(TWO), trace_of(TWO)
    assert session('where') == START + f'next: {lines[0]}known to go to 0\n'
    session('goto 25')
    assert session('where') == 'at 25 of the run, time 9280000 ns\n' f'next: {lines[25]}known to go to 25\n'
    session('back 20', 'stpe')
    assert session('whe') == 'at 5 of the run, time 2080000 ns\n' f'next: {lines[5]}known to go to 25\n'
    # On its way back `reverse` runs events again: where the session stood counts alone.
    session('break kind rto', 'run', 'back 2', 'clear', 'break byte 9000', 'reverse')
    assert session.position == 23 and session('where').endswith('known to go to 26\n')
    session('clear', 'run')
    assert session('where') == at(lines, 51) + 'next: none\nknown to end at 51\n'
    assert session('back 50', 'where').endswith(at(lines, 1) + f'next: {lines[1]}known to end at 51\n')
    # It is no move.
    assert session('back', 'goto 3', 'where', '').endswith(at(lines, 3))
    refuses(session, 'B2', 'where 1', 'wher x')


# ---- refusals

def test_names_of_other_debuggers():
    session, meaning = Session(TWO), 'refused B1\nB1: no command has this name, or no sort of breakpoint\n'
    for word, told in (('print', 'display shows a value after each move, state flow F all of a flow, state link L of a link: see help display'),
                       ('watch', 'break stops where a line meets conditions: see help break'),
                       ('info', 'state shows the state, where the position, breaks the breakpoints: see help')):
        for line in (word, f'{word} cwnd', word[:-1], f'  {word[:2]} 3'):
            assert session(line) == f'{meaning}tcpsim: {told}\n', line
    assert session('p').endswith('see help display\n') and session('i').endswith('see help\n')
    assert session('infos').endswith('tcpsim: no command infos; the nearest is lines\n')


THERE_ARE = 'there are nodes 0 to 1, links 0 to 1, flows 0 to 0: see help numbers'
SORTS = ('conditions are node N, flow F, kind K, drop, link L, byte B, cwnd, flight, ssthresh, una, nxt, rto, dups, phase, next, queue L, wait L, '
         'count L, time, change V; or stall: see help break')
SIGNS = 'signs are <, <=, >, >=, =, as cwnd<3000: see help values'
UNITS = 'a time has a unit, ns, us, ms or s, as 1.5s: see help until'
KINDS = 'kinds are start, rto, delack, free, data, ack: see help kinds'
PHASES = 'phases are ss, ca, fr: see help values'
CHANGES = 'changes are of cwnd F, flight F,'
A_NUMBER = 'a number is expected, as 3000, with no unit: see help values'
ONCE = 'each sort of condition stands once: see help break'
DISPLAYS = ('displays are flow F, link L, cwnd F, flight F, ssthresh F, una F, nxt F, rto F, dups F, phase F, next F, queue L, wait L, count L: '
            'see help display')
# What is told behind a line that is refused, of the first word that does not fit.
EXPECTED = {
    'break': SORTS, 'break foo': SORTS, 'bre n 0': SORTS, 'break drop 1': SORTS, 'break cwnd<1 foo': SORTS, 'break node x foo': THERE_ARE,
    'break kind foo': KINDS, 'break kind': KINDS, 'break kind foo bar': KINDS, 'break phase xx': PHASES, 'break phase=fr': PHASES,
    'break cwnd': SIGNS, 'break cwnd 3000': SIGNS, 'break queue a 5': SIGNS, 'break cwnd<': A_NUMBER, 'break cwnd<x': A_NUMBER,
    'break cwnd==3000': A_NUMBER, 'break byte x': A_NUMBER, 'break queue a>1s': A_NUMBER, 'break cwnd<1 cwnd>2': ONCE, 'break drop drop': ONCE,
    'break rto>1.5': UNITS, 'break wait a>1.5': UNITS, 'break time>=': UNITS, 'break change': CHANGES, 'break change phase f': CHANGES,
    'break change cwnd': THERE_ARE, 'break change cwnd x': THERE_ARE, 'break queue': THERE_ARE, 'break node 9': THERE_ARE, 'break stall x': THERE_ARE,
    'w 1': THERE_ARE, 'why x': THERE_ARE, 'state link 2': THERE_ARE, 'sta node n': THERE_ARE,
    'display': None, 'display foo': DISPLAYS, 'display cwnd': DISPLAYS, 'display cwnd x': THERE_ARE, 'state f': 'parts of a state are node N,',
    'help foo': 'help is of a command, or of numbers, trace, kinds, stall, values: see help', 'until 1.5': UNITS, 'u x': UNITS, 'until 01': UNITS,
    'goto 1.5': UNITS, 'goto x': UNITS,
    'delete 9': 'breaks lists the breakpoints', 'undisplay 9': 'display lists the displays', 'break stall 0 0': None, 'delete x': None, 'step x': None,
    'lines 1001': None,
    'why': 'why F tells what flow F waits for, as why 0: see help why', 'why 0 0': 'why F tells', 'until': UNITS, 'until 1 s': UNITS, 'goto': UNITS,
    'stalls f': 'stalls lists those of all flows, and stands alone: see help stalls', 'state node': 'parts of a state are node N,',
    'delete': 'breaks lists the breakpoints', 'undisplay 1 2': 'display lists the displays', 'step 1 2': None, 'run 1': None, 'names f': None,
}


def test_what_is_expected_where_a_word_does_not_fit():
    session = Session(TWO)
    for line, told in EXPECTED.items():
        lines = session(line).splitlines()
        assert lines[2:] == [] if told is None else len(lines) == 3 and lines[2].startswith(f'tcpsim: {told}'), line
    # A name of another sort is told of before.
    assert session('break queue s>1').splitlines()[2:] == ['tcpsim: s is a node: see help numbers', f'tcpsim: {THERE_ARE}']
    assert session('break count a>x wait r>1s').splitlines()[2:] == ['tcpsim: r is a node: see help numbers', f'tcpsim: {A_NUMBER}']
    # Of a line that is too long nothing is told.
    assert len(session('break ' + 'x' * 65_536).splitlines()) == 2


# ---- names of commands

def test_short_words_mean_what_they_meant():
    session = Session(TWO)
    for word, name in {'s': 'step', 'st': 'step', 'sta': 'state', 'stal': 'stalls', 'b': 'back', 'br': 'break', 'r': 'run', 're': 'reverse', 'u': 'until',
                       'un': 'until', 'und': 'undisplay', 'l': 'lines', 'd': 'delete', 'di': 'display', 'c': 'clear', 'h': 'help', 'q': 'quit', 'w': 'why',
                       'wh': 'why', 'whe': 'where', 'g': 'goto', 'n': 'names'}.items():
        assert session.prompt.name_of(word.encode()).decode() == name, word
    for word, begin in {'n': 'A node, a link', 'k': 'The kinds', 't': 'A line of the trace', 'v': 'A condition on a value', 'stal': 'A flow is stalled',
                        'stall': 'A flow is stalled', 'stalls': 'stalls ', 's': 'step [K] ', 'd': 'delete I ', 'di': 'display [IT] ', 'u': 'until T ',
                        'und': 'undisplay I ', 'g': 'goto N ', 'w': 'why F ', 'whe': 'where '}.items():
        assert session(f'help {word}').startswith(begin), word
    assert session('goot 3').endswith('tcpsim: no command goot; the nearest is goto\n')
    assert session('wehre').endswith('tcpsim: no command wehre; the nearest is where\n')
