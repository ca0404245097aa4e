"""Tests of names at the model's prompt, in lines and in answers, by hand and beside the runs' traces."""
import os
import re

import pytest

from clone import TOP, paths, read
from tcpsim_model.command_line import read as scenario_in
from typed_lines import START, Session, at, came_to, refuses, trace_of, unnamed

TWO, LOT, FAIR = (paths(name)[0] for name in ('two_timeouts_in_a_row', 'parking_lot_of_three_routers', 'two_flows_share_fairly'))
SIX = os.path.join(TOP, 'docs', 'scenarios', 'six_flows_over_three_routers.txt')
# One segment, and names that are words of the grammar, or those of another sort with a letter more.
WORDS = scenario_in(b'''sim 5000000
node stall sender
node drop receiver
node flows sender
node n receiver
link node stall drop 8000000 1000000 droptail 10
link b drop stall 8000000 1000000 droptail 10
link kind flows n 8000000 1000000 droptail 10
link d n flows 8000000 1000000 droptail 10
flow link stall drop 1000 1 0 64000 0
flow flow flows n 500 2 1000000 64000 0
''')
WRONG = 'refused B3\nB3: a word is no number, or out of its range; there is no such node, flow or kind\n'
THERE_ARE = 'tcpsim: there are nodes 0 to 3, links 0 to 3, flows 0 to 1: see help numbers\n'
KINDS = 'tcpsim: kinds are start, rto, delack, free, data, ack: see help kinds\n'
A_NUMBER = 'tcpsim: a number is expected, as 3000, with no unit: see help values\n'


def test_names_are_listed():
    assert Session(TWO)('names') == 'node 0 s\nnode 1 r\nlink 0 a\nlink 1 b\nflow 0 f\n'
    assert Session(WORDS)('n', 'name') == 2 * ('node 0 stall\nnode 1 drop\nnode 2 flows\nnode 3 n\nlink 0 node\nlink 1 b\nlink 2 kind\n'
                                                     'link 3 d\nflow 0 link\nflow 1 flow\n')
    # It is no move, and has no words behind it.
    assert Session(TWO)('step', 'names', '').endswith('at 2 of the run, time 1040000 ns\n')
    refuses(Session(TWO), 'B2', 'names 1', 'n f')


def test_a_name_means_the_number_of_its_statement():
    session = Session(LOT)
    assert session('state node q') == session('state node 1') == 'node 1 router\n'
    assert session('state link qp') == session('state link 1') == 'link 1 offered=0 sent=0 queue=-\n'
    assert session('state flow fc') == session('state flow 2') and 'receiver 2 ' in session('state flow fc')
    assert session('why fc') == session('why 2') == 'flow fc is not started: it starts at 0 ns\nalarms: start at 0 ns\n'


def test_words_of_the_grammar_are_names_where_a_name_stands():
    session = Session(WORDS)
    for words, numbers, told in (('stall flow', 'stall 1', 'stall flow'), ('link node drop', 'link 0 drop', 'drop link node'),
                                 ('flow flow kind data', 'flow 1 kind data', 'flow flow kind data'), ('node drop drop', 'node 1 drop', 'node drop drop'),
                                 ('kind rto link kind node stall', 'kind rto link 2 node 0', 'node stall kind rto link kind')):
        assert session(f'break {words}', f'break {numbers}', 'clear') == 2 * f'break 1: {told}\n' + 'clear\n', words
    assert session('break link kind', 'run').endswith('of node flows, flow flow\nat 2 of the run, time 1000000 ns\nbreak 1: link kind\n')
    refuses(session, 'B2', 'break node node node', 'break stall link link', 'break drop drop', 'state node stall drop')
    refuses(session, 'B1', 'break node stall stall', 'break flow flow flows 1', 'state stall 1')


def test_names_are_written_out():
    session = Session(LOT)
    refuses(session, 'B3', 'break node r', 'why f', 'state link p', 'why FA', 'why fa1', 'why 00', 'why 3', 'break flow fa,')


def test_the_name_of_another_sort():
    session = Session(WORDS)
    for line, word, sort in (('why b', 'b', 'link'), ('w n', 'n', 'node'), ('state node b', 'b', 'link'), ('break stall stall', 'stall', 'node'),
                             ('break node 9 link link flow n', 'link', 'flow'),
                             ('break flow 1 link flow', 'flow', 'flow'), ('break link drop drop', 'drop', 'node'),
                             ('break node n flow b kind rto link 9', 'b', 'link')):
        assert session(line) == f'{WRONG}tcpsim: {word} is a {sort}: see help numbers\n{THERE_ARE}', line
    # The first of another sort is told, behind the first word that does not fit too.
    assert session('break kind foo flow n') == f'{WRONG}tcpsim: n is a node: see help numbers\n{KINDS}'
    assert session('break byte n link drop flow n') == f'{WRONG}tcpsim: drop is a node: see help numbers\n{A_NUMBER}'
    # None is told where no name can stand, or where there is none of that name.
    for line, told in (('why zz', THERE_ARE), ('break node 4', THERE_ARE), ('break kind b', KINDS), ('break node n kind kind', KINDS), ('break byte b', A_NUMBER),
                       ('step b', ''), ('goto link', 'tcpsim: a time has a unit, ns, us, ms or s, as 1.5s: see help until\n')):
        assert session(line) == WRONG + told, line


def test_an_image_has_numbers_alone():
    session, lines = Session(unnamed(TWO)), trace_of(TWO)
    assert session('names') == 'this scenario has no names\n'
    assert session('step') == lines[0] + at(lines, 1)
    for words in ('node 1', 'flow 0 kind rto', 'stall 0', 'queue 0>50', 'drop link 1', 'change cwnd 0'):
        assert session(f'break {words}', 'delete 1') == f'break 1: {words}\ndeleted 1: {words}\n'
    assert session('break node 1', 'run').endswith(lines[2] + at(lines, 3) + 'break 1: node 1\n')
    assert session('why 0').startswith('flow 0 sends no more: ')
    assert session('why a') == f'{WRONG}tcpsim: there are nodes 0 to 1, links 0 to 1, flows 0 to 0: see help numbers\n'


def test_help():
    session = Session(TWO)
    assert session('help na') == session('help names') == (
        'names        list the names of nodes, links and flows with their numbers\n'
        'A name can stand wherever a number of a node, a link or a flow can: help numbers. An image has none.\nnames\n')
    assert session('help n') == session('help nu') == session('help numbers') and session('help n').endswith('\nnames\n')
    assert 'goes by its name in the text, or by its number' in session('help num')


# ---- names in answers

# Conditions as they are typed, by numbers here and there, and how they are told.
CONDITIONS = (
    ('node q', 'node q'), ('node 1', 'node q'), ('flow fc kind rto', 'flow fc kind rto'), ('kind rto flow 2', 'flow fc kind rto'), ('kind data', 'kind data'),
    ('drop link qp', 'drop link qp'), ('link 2 drop', 'drop link qu'), ('byte 0 drop', 'drop byte 0'), ('byte 4000', 'byte 4000'), ('stall', 'stall'),
    ('stall fb', 'stall fb'), ('stall 1', 'stall fb'), ('cwnd<3000', 'cwnd<3000'), ('cwnd < 3000 flow fa', 'flow fa cwnd<3000'), ('flight>=2000', 'flight>=2000'),
    ('ssthresh=2000', 'ssthresh=2000'), ('una>1 nxt<=9', 'una>1 nxt<=9'), ('rto>1.5s', 'rto>1500000000ns'), ('dups=3', 'dups=3'), ('phase fr', 'phase fr'),
    ('next>=4000', 'next>=4000'), ('queue pq>50', 'queue pq>50'), ('queue 0 > 50', 'queue pq>50'), ('wait qu>100ms', 'wait qu>100000000ns'),
    ('count qu<5', 'count qu<5'), ('time>=5s', 'time>=5000000000ns'), ('change cwnd fa', 'change cwnd fa'), ('change next 2', 'change next fc'),
    ('change rto fb queue qp=1 link pq node p flow fb', 'node p flow fb link pq queue qp=1 change rto fb'))


@pytest.mark.parametrize('typed, told', CONDITIONS)
def test_breakpoints_are_told_by_names(typed, told):
    session, numbers = Session(LOT), {name.decode(): str(number) for name, (_, number) in scenario_in(read(LOT)).names.items()}
    assert session(f'break {typed}') == session('breaks') == f'break 1: {told}\n'
    # What is told can be typed again, by names or by numbers, and is the same breakpoint.
    by_numbers = re.sub(r'\w+', lambda found: numbers.get(found[0], found[0]), told)
    for words in (told, by_numbers):
        assert session(f'break {words}', 'breaks') == 2 * f'break 1: {told}\n', words
    assert session('delete 1') == f'deleted 1: {told}\n'


def test_a_breakpoint_that_stops_is_told_by_names():
    session, lines = Session(TWO), trace_of(TWO)
    session('break change cwnd f', 'break flow f node s kind rto')
    assert session('goto 26').endswith(at(lines, 26) + 'break 1: change cwnd f (cwnd from 8000)\n')
    assert session('delete 1', 'reverse', 'run').endswith(at(lines, 26) + 'break 1: node s flow f kind rto\n')


def test_what_a_flow_waits_for_is_told_by_names():
    session = Session(TWO)
    assert session('step', 'why f').endswith(
        'flow f sends no more: 4000 bytes in flight, a segment of 1000, cwnd 4000\n'
        'waits: data 1000 at place 1 of link a, data 2000 at place 2 of link a, data 3000 at place 3 of link a\n'
        'under way: data 0 to node r at 2040000 ns\nalarms: rto at 1000000000 ns\nmissing at the receiver: byte 0\n')
    assert session('goto 26', 'w 0').endswith(
        'flow f is stalled: 0 duplicate acknowledgements, and its retransmission timer is due at 3006200000 ns\nalarms: rto at 3006200000 ns\n'
        'missing at the receiver: byte 4000, data 4000 lost by name at link a in line 6, data 4000 lost by name at link a in line 26\n')
    assert session('goto 999', 'why f').endswith('flow f is complete: all 10000 bytes are acknowledged\n')
    told = Session(SIX)('goto 657', 'why mail').splitlines()
    assert told[-3:] == ['flow mail is stalled: 1 duplicate acknowledgement, and its retransmission timer is due at 1277852800 ns',
                         'alarms: rto at 1277852800 ns', 'missing at the receiver: byte 2000, data 2000 dropped (full) at link bc in line 353']
    # Words of the grammar that are names.
    assert Session(WORDS)('step', 'why link').splitlines()[-4:] == [
        'flow link has sent all 1000 bytes: 0 are acknowledged', 'under way: data 0 to node drop at 2040000 ns', 'alarms: rto at 1000000000 ns',
        'missing at the receiver: byte 0']


# Segments of one byte.
BYTES = b'''sim 10000000000
node s sender
node r receiver
link a s r 8000000 1000000 droptail 10
link b r s 8000000 1000000 droptail 10
flow f s r 1 %d 0 64000 0
'''


def test_a_count_of_one_is_singular():
    def last(session, *lines):
        return [line for line in session(*lines, 'why f').splitlines() if line.startswith('flow f ')]
    one, two = (scenario_in(BYTES % count) for count in (1, 2))
    assert last(Session(one), 'step') == ['flow f has sent all 1 byte: 0 are acknowledged']
    assert last(Session(one), 'run') == ['flow f is complete: all 1 byte is acknowledged']
    # Of two bytes the first is acknowledged 41 us before the second.
    assert {line for n in range(1, 9) for line in last(Session(two), f'goto {n}')} == {
        'flow f has sent all 2 bytes: 0 are acknowledged', 'flow f has sent all 2 bytes: 1 is acknowledged'}
    assert last(Session(two), 'run') == ['flow f is complete: all 2 bytes are acknowledged']
    # The four bytes of the first window are lost, and a timeout leaves one of one byte.
    lost = scenario_in(BYTES % 9 + b''.join(b'lose a %d\n' % number for number in (1, 2, 3, 4)))
    assert last(Session(lost), 'break kind rto', 'run') == ['flow f sends no more: 1 byte in flight, a segment of 1, cwnd 1']


@pytest.mark.parametrize('path', [TWO, FAIR, SIX])
def test_the_last_line_of_a_move_is_told_by_names(path):
    session, lines = Session(path), trace_of(path)
    for n, line in enumerate(lines[:300], 1):
        assert session('step') == line + came_to(path, lines, n)


def test_where_no_line_was_passed_none_is_told_of():
    session, lines = Session(TWO), trace_of(TWO)
    session('goto 25')
    for line in ('step 0', 'goto 25', 'back 0', 'until 1ms', 'back', 'goto 20', 'goto 1us', 'back 999', 'reverse'):
        assert not re.search('^of ', session(line), re.M), line
    assert session('goto 3us').endswith('\nof node s, flow f\n' + at(lines, 1)) and session('until 2ms').endswith('\nof node s, link a\n' + at(lines, 2))
    assert session('run').endswith('\nof node s, flow f\n' + at(lines, 51))
    # Back to a breakpoint the last line is that at the position; at the beginning there is none.
    session('break node r')
    assert session('reverse') == lines[50] + lines[49] + 'of node r, link b\n' + at(lines, 50) + 'break 1: node r\n'
    assert session('clear', 'reverse').endswith(lines[0] + START)
