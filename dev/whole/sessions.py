"""Debugging sessions, whose answers were worked out by hand over one segment that goes, and whose acknowledgement
comes, and by the model of python/tcpsim_model over two flows of equal times: their commands, and what they answer.
dev/test_whole.py has the texts, and of two more texts the sessions stand in files beside this one.
"""
from clone import example

# How a session whose commands are all there is shared out. Its answers are the same.
SHARED = [
    ['debug'],
    ['debug', '--workers', '2'],
    ['debug', '--groups', 'each'],
    ['debug', '--workers', '2', '--groups', 'each'],
    ['debug', '--groups=1,0', '--workers=64'],
    ['debug', '--workers=64', '--groups=one'],
]

# The same where a text has any number of nodes.
CREWS = [['debug', '--groups', groups, '--workers', workers] for groups in ('one', 'each') for workers in ('1', '2', '64')]

# Groups that the text's two nodes don't have.
NO_GROUPS = ['', '0', '0,0,0', '0,64', 'two']

MOVES = '''\
step 3
back 2
back 9
run
'''

# What is shown at each position.
AT_0 = '''\
at 0
node 0 sender 0 una=0 nxt=0 high=0 cwnd=4000 ssthresh=64000 dups=0 lt=0 fr=0 timing=- srtt=- rttvar=0 rto=1000000000 resent=0
node 1 receiver 0 next=0 held=-
link 0 offered=0 sent=0 queue=-
link 1 offered=0 sent=0 queue=-
event 0 0 0 0 start 0
'''
AT_1 = '''\
at 1
node 0 sender 0 una=0 nxt=1000 high=1000 cwnd=4000 ssthresh=64000 dups=0 lt=0 fr=0 timing=1000@0 srtt=- rttvar=0 rto=1000000000 resent=0
node 1 receiver 0 next=0 held=-
link 0 offered=1 sent=1 queue=-
link 1 offered=0 sent=0 queue=-
event 1040000 0 0 3 free 0
event 2040000 1 1 1 data 0 0
event 1000000000 0 0 1 rto 0
'''
AT_3 = '''\
at 3
node 0 sender 0 una=0 nxt=1000 high=1000 cwnd=4000 ssthresh=64000 dups=0 lt=0 fr=0 timing=1000@0 srtt=- rttvar=0 rto=1000000000 resent=0
node 1 receiver 0 next=1000 held=-
link 0 offered=1 sent=1 queue=-
link 1 offered=1 sent=1 queue=-
event 2080000 1 0 3 free 1
event 3080000 0 2 1 ack 0 1000
event 1000000000 0 0 1 rto 0
'''
AT_4 = '''\
at 4
node 0 sender 0 una=0 nxt=1000 high=1000 cwnd=4000 ssthresh=64000 dups=0 lt=0 fr=0 timing=1000@0 srtt=- rttvar=0 rto=1000000000 resent=0
node 1 receiver 0 next=1000 held=-
link 0 offered=1 sent=1 queue=-
link 1 offered=1 sent=1 queue=-
event 3080000 0 2 1 ack 0 1000
event 1000000000 0 0 1 rto 0
'''
AT_5 = '''\
at 5
node 0 sender 0 una=1000 nxt=1000 high=1000 cwnd=5000 ssthresh=64000 dups=0 lt=0 fr=0 timing=- srtt=3080000 rttvar=1540000 rto=1000000000 resent=0
node 1 receiver 0 next=1000 held=-
link 0 offered=1 sent=1 queue=-
link 1 offered=1 sent=1 queue=-
'''

ANSWERS = AT_3 + AT_1 + AT_0 + AT_5

BREAKS = '''\
break kind data
run
run
back 1
until 2040000
bak 1
'''

STOPS = f'break 1\n{AT_3}{AT_5}{AT_4}{AT_4}refused B1\n'

# Each refusal, the first that holds; a line with no words says nothing.
FAULTS = '''\
bak 1
break
break sort 1
break node
break drop 1
break node 2
break flow 1
break kind acks
step 01
step 1000000000000001
run 1

   
step # 1
---
break node 1
 break  drop 
break node 1
clear'''

REFUSED_FOR = '''\
refused B1
refused B2
refused B1
refused B2
refused B2
refused B3
refused B3
refused B3
refused B3
refused B3
refused B2
refused B2
refused B1
break 1
break 2
break 2
clear
'''

# How a session into which lines are typed is shared out; a file follows.
TYPED = [['debug'], ['debug', '--workers', '2', '--groups', 'each'], ['debug', '--workers=64']]

# Names are cut short, a moment has a unit, and an empty line does the last move again, whatever was refused since.
CUT_SHORT = ['', 'u 2.08ms', 'bak', 'u 1.5', 'b 2', 'step 1 2', '', 'u 1.0ns', 'q x', 'r', 'q', 'r']

# A line that is refused is told beside the answers.
REFUSED = ['bak', 'step 3', 'back x', 'back 2', 'quit 1', 'back 9', 'break node 2', 'run']

# What is answered to `step 3`, `back 2`, `back 9` and `run`.
ONE, EQUAL = ([f'{line}\n' for line in example(name)[1]] for name in ('one_segment', 'equal_times'))
BEGINNING, END = 'at 0 of the run, time 0 ns, the beginning\n', 'at 5 of the run, time 3080000 ns, the end\n'
MOVED = ''.join((*ONE[:3], 'of node r, flow f\n', 'at 3 of the run, time 2040000 ns\n', ONE[2], ONE[1], 'at 1 of the run, time 0 ns\n', ONE[0],
                 BEGINNING, *ONE[:5], 'of node s, flow f\n', END))

# Breakpoints have numbers, and help is typed.
BREAKPOINTS = ['breaks', 'break node 1', 'br drop', 'break kind delack', 'break drop', 'delete 1', 'breaks', 'delete 3', 'd 0',
               'd 65', 'd 01', 'c', 'breaks', 'h d', 'h x']

NUMBERED = '''\
no breakpoint
break 1: node r
break 2: drop
break 3: kind delack
break 2: drop
deleted 1: node r
break 1: drop
break 2: kind delack
clear
no breakpoint
delete I     take breakpoint I away
I is its number, as breaks lists it.
delete 1
'''

# A move forwards tells the first breakpoint that matches where it ends, and `lines` tells the last lines there.
LINES = ['lines', 'b', 'br kind free', 'br node 1', 'r', 's', '', 'b', 'l 2', 'l 1001', 'l 1 2', 'lines 0', 'c', 'u 1s', 'l 1', 's']

TOLD = ''.join((
    BEGINNING, 'break 1: kind free\n', 'break 2: node r\n',
    *ONE[:2], 'of node s, link a\n', 'at 2 of the run, time 1040000 ns\n', 'break 1: kind free\n',
    ONE[2], 'of node r, flow f\n', 'at 3 of the run, time 2040000 ns\n', 'break 2: node r\n',
    ONE[3], 'of node r, link b\n', 'at 4 of the run, time 2080000 ns\n', 'break 1: kind free\n',
    ONE[3], 'at 3 of the run, time 2040000 ns\n',
    *ONE[1:3], 'clear\n', *ONE[3:5], 'of node s, flow f\n', END, ONE[4], END))

# Breakpoints of several conditions over two flows of equal times, and words that are none.
CONDITIONS = ['br kind data flow 1', 'br link 4', 'br byte 0 link 2 node 2 flow 0', 'br  flow 1 kind data', 'breaks', 'r', '', 're',
              'br node 5 flow 0', 'br link 8', 'br kind ack kind ack', 'br node 5 node 1 kin ack', 'br drop drop', 'br drop byte', 'br node',
              'br link 1 0', 'br drop byte 9000000000001', 'br byte 9000000000000 link 7 drop kind delack flow 1 node 4', 'd 1', 'r']

MATCHED = '''\
break 1: flow y kind data
break 2: link e
break 3: node q flow x link c byte 0
break 1: flow y kind data
break 1: flow y kind data
break 2: link e
break 3: node q flow x link c byte 0
''' + ''.join(EQUAL[:5]) + f'''\
of node q, flow x
at 5 of the run, time 2040000 ns
break 3: node q flow x link c byte 0
{EQUAL[5]}of node q, flow y
at 6 of the run, time 2040000 ns, the end
break 1: flow y kind data
{EQUAL[5]}{EQUAL[4]}of node q, flow x
at 5 of the run, time 2040000 ns
break 3: node q flow x link c byte 0
break 4: node v flow y kind delack drop link i byte 9000000000000
deleted 1: flow y kind data
{EQUAL[5]}of node q, flow y
at 6 of the run, time 2040000 ns, the end
break 1: link e
'''

# Displays have numbers and are shown after each move, with what they were before it; stalls are listed.
DISPLAYS = ['stalls', 'display', 'di cwnd f', 'display link a', 'di cwnd 0', 's', '', 'display x', 'display cwnd', 'display cwnd a', 'und 3', 'und 1',
            'b', 's 0', 'clear', 'run', 'display flow f', 'back 99', 'undisplay 01']
SHOWN = ''.join((
    'no stall\nno display\ndisplay 1: cwnd f = 4000\ndisplay 2: link a: queue = 0, wait = -, count = -\ndisplay 1: cwnd f = 4000\n',
    ONE[0], 'of node s, flow f\nat 1 of the run, time 0 ns\ndisplay 1: cwnd f = 4000\ndisplay 2: link a: queue = 0, wait = -, count = -\n',
    ONE[1], 'of node s, link a\nat 2 of the run, time 1040000 ns\ndisplay 1: cwnd f = 4000\ndisplay 2: link a: queue = 0, wait = -, count = -\n',
    'undisplayed 1: cwnd f\n',
    ONE[1], 'at 1 of the run, time 0 ns\ndisplay 1: link a: queue = 0, wait = -, count = -\n',
    'at 1 of the run, time 0 ns\ndisplay 1: link a: queue = 0, wait = -, count = -\nclear\n',
    *ONE[1:5], 'of node s, flow f\n', END, 'display 1: link a: queue = 0, wait = -, count = -\n',
    'display 2: flow f: cwnd = 5000, flight = 0, ssthresh = 64000, una = 1000, nxt = 1000, rto = 1000000000ns, dups = 0, phase = ss, next = 1000\n',
    *ONE[4::-1], BEGINNING, 'display 1: link a: queue = 0, wait = -, count = -\n',
    'display 2: flow f: cwnd = 4000 (was 5000), flight = 0, ssthresh = 64000, una = 0 (was 1000), nxt = 0 (was 1000), rto = 1000000000ns, dups = 0, '
    'phase = ss, next = 0 (was 1000)\n'))


# What the codes mean.
MEANT = {
    'B1': 'B1: no command has this name, or no sort of breakpoint',
    'B2': 'B2: the number of words is another',
    'B3': 'B3: a word is no number, or out of its range; there is no such node, flow or kind',
    'B5': 'B5: there is no breakpoint of this number, or no display',
}


def refused(*codes):
    """The notes of lines that are refused with these codes."""
    return [note for code in codes for note in (f'refused {code}', MEANT[code])]


# The notes of lines that could have the number of a node, a link or a flow, over each of the scenarios.
OUTSIDE = [*refused('B3'), 'tcpsim: there are nodes 0 to 1, links 0 to 1, flows 0 to 0: see help numbers']

OUTSIDE_TWO = [*refused('B3'), 'tcpsim: there are nodes 0 to 4, links 0 to 7, flows 0 to 1: see help numbers']

# What a word is refused with that begins no name, and the name that is nearest to it.
NO_NAME = [*refused('B1'), 'tcpsim: no command bak; the nearest is back']

# The notes of a time that is none, and of a condition that is none.
NO_TIME = [*refused('B3'), 'tcpsim: a time has a unit, ns, us, ms or s, as 1.5s: see help until']
NO_SORT = [*refused('B1'), 'tcpsim: conditions are node N, flow F, kind K, drop, link L, byte B, cwnd, flight, ssthresh, una, nxt, rto, dups, phase, next, '
           'queue L, wait L, count L, time, change V; or stall: see help break']

NO_ITEM = [*refused('B1'), 'tcpsim: displays are flow F, link L, cwnd F, flight F, ssthresh F, una F, nxt F, rto F, dups F, phase F, next F, '
           'queue L, wait L, count L: see help display']

# What is expected in the place of a word that does not fit.
ONCE = [*refused('B2'), 'tcpsim: each sort of condition stands once: see help break']
NO_PART = [*refused('B2'), OUTSIDE_TWO[-1]]
A_NUMBER = 'tcpsim: a number is expected, as 3000, with no unit: see help values'
NO_HELP = [*refused('B1'), 'tcpsim: help is of a command, or of numbers, trace, kinds, stall, values: see help']

# Where the numbers are of breakpoints and of displays.
NO_BREAK = [*refused('B5'), 'tcpsim: breaks lists the breakpoints with their numbers']
NO_DISPLAY = [*refused('B5'), 'tcpsim: display lists the displays with their numbers']

# The lines that are typed, how many of them are read and one more where the input ends, what is answered, and what is
# told of lines that are refused.
LINES_TYPED = [
    (CUT_SHORT, 11, MOVED, NO_NAME + NO_TIME + refused('B2') + NO_TIME + refused('B2')),
    (REFUSED, 9, MOVED, NO_NAME + refused('B3', 'B2') + OUTSIDE),
    (BREAKPOINTS, 16, NUMBERED, NO_BREAK * 3 + refused('B3') + NO_HELP),
    (LINES, 17, TOLD, refused('B3', 'B2')),
    (DISPLAYS, 20, SHOWN, NO_ITEM + [*refused('B2'), NO_ITEM[-1]] + refused('B3') + ['tcpsim: a is a link: see help numbers', OUTSIDE[-1]] + NO_DISPLAY
     + refused('B3')),
]

# The same over two flows of equal times.
LINES_OF_EQUAL_TIMES = [
    (CONDITIONS, 21, MATCHED, OUTSIDE_TWO * 2 + ONCE + NO_PART + ONCE + [*refused('B2'), A_NUMBER] + NO_PART + NO_SORT + [*refused('B3'), A_NUMBER]),
]
