"""What the prompt says of its grammar: help, the pages of what is no command, and what there is to type in the place of what is refused."""
from tcpsim_model.conditions import BYTE, DISPLAYED, KIND, NUMBER, OTHER_SORT, PHASE, SIGN, SORT, TIME, VALUE
from tcpsim_model.grammar import UNITS_TOLD

# Of each name in the order of `help`: how it is used, what it does, what else there is to say, and an example.
HELP = {
    b'step': ('step [K]', 'run the next K events (1)',
        'It shows the last ten lines of the trace that it passes, how many more there are, and where it came to.\n', 'step 10'),
    b'back': ('back [K]', 'take the last K events back (1)',
        'It shows the last ten lines that it takes back, the latest first, and where it came to.\n', 'back 10'),
    b'run': ('run', 'run until a breakpoint matches, or to the end',
        'It stops after the next event whose line a breakpoint matches, and shows that breakpoint.\n', 'run'),
    b'reverse': ('reverse', 'go back until a breakpoint matches, or to the beginning',
        'It stops after the last event before this position whose line a breakpoint matches, else at position 0.\n', 'reverse'),
    b'until': ('until T', 'run all events before the moment T, as 1.5s, 20ms or 10000ns',
        'T is a number of nanoseconds, or has a unit: ns, us, ms or s. It only goes forwards, and else says so.\n', 'until 20ms'),
    b'goto': ('goto N', 'go to position N, or to a moment as 1.5s, forwards or back',
        'N is how many events were run there, as the first number of a line of the trace; past the end it is the end.\n'
        'A moment has a unit, as of until: all events before it are run, and no other.\n', 'goto 25'),
    b'where': ('where', 'show the position, the next event, and how far the run is known to go',
        'The next event is shown by the line that it gives. A run is known to go to where the session was.\n', 'where'),
    b'state': ('state [PART]', 'show all of the state, or of it: node N, link L or flow F',
        'node N and link L show one line each, flow F all that there is of a flow: both of its ends, the links\n'
        'where its packets wait, and its events to come. N, L and F are names or numbers: help numbers\n'
        'Of a link offered= and sent= count packets. queue= has those that wait: 4:d:7000@102299200 is data 7000 of flow 4, queued\n'
        'at 102299200 ns; a is an acknowledgement. Of a sender high= is the greatest nxt= so far, lt= the bytes of limited transmit.\n', 'state flow 0'),
    b'break': ('break COND..', 'stop where all match: node N, flow F, kind K, drop, link L, byte B, a value; or stall [F]',
        'node N       the event happens at node N (N, L and F are names or numbers: help numbers)\n'
        'flow F       the event is of flow F; a free is of none\n'
        'kind K       start, rto, delack, free, data or ack: help kinds\n'
        'drop         a packet is dropped\n'
        'link L       link L begins to send a packet, or drops one\n'
        'byte B       a segment that begins with byte B arrives, or an acknowledgement of B; with drop, it is dropped\n'
        'cwnd<3000    and other values of a sender, a receiver, a link, or of the time: help values\n'
        'stall [F]    a flow, or flow F, is stalled from there on: help stall; it stands alone\n', 'break flow 0 kind rto'),
    b'breaks': ('breaks', 'list the breakpoints',
        'They are counted from 1; where one is taken away, those behind it move up by one.\n', 'breaks'),
    b'delete': ('delete I', 'take breakpoint I away',
        'I is its number, as breaks lists it.\n', 'delete 1'),
    b'clear': ('clear', 'take all breakpoints away', '', 'clear'),
    b'lines': ('lines [K]', 'show the last K lines of the trace (10)',
        'K is 1000 at most. What stands in a line: help trace\n', 'lines 20'),
    b'display': ('display [IT]', 'show flow F, link L or a value of either after each move; alone, list them',
        'flow F       all values of flow F\n'
        'link L       all values of link L\n'
        'cwnd F       a value of flow F: cwnd, flight, ssthresh, una, nxt, rto, dups, phase or next\n'
        'queue L      a value of link L: queue, wait or count\n'
        'Behind a value stands what it was before the move, where that was another: cwnd f = 8000 (was 4000). A - is no value.\n'
        'What the values are: help values. Displays are counted from 1.\n', 'display cwnd 0'),
    b'undisplay': ('undisplay I', 'take display I away',
        'I is its number, as display lists it; those behind it move up by one.\n', 'undisplay 1'),
    b'why': ('why F', 'tell what flow F waits for',
        'F is the name of a flow, or its number: the first flow line of the text is flow 0, the next one flow 1.\n'
        'It tells how the flow stands, where its packets are, and when its alarms are due. It tells the first byte that is missing\n'
        'at its receiver, or else the acknowledgement that is missing at its sender, and each drop of that by its line: help goto.\n', 'why 0'),
    b'stalls': ('stalls', 'list all stalls of the run, each with a goto that goes there',
        'It lists them as goto 25: flow f is stalled at 9280000 ns: only an alarm of the flow goes on with it from there: help stall.\n'
        'The session stays where it is.\n', 'stalls'),
    b'names': ('names', 'list the names of nodes, links and flows with their numbers',
        'A name can stand wherever a number of a node, a link or a flow can: help numbers. An image has none.\n', 'names'),
    b'help': ('help [NAME]', 'show this, or more of NAME: a command, numbers, trace, kinds, stall or values',
        'NAME can be cut short, as a command can. In the shell, tcpsim explain B3 tells more of refused B3.\n', 'help until'),
    b'quit': ('quit', 'end the session',
        'The end of input (Ctrl-D) does so too.\n', 'quit'),
}
LAST_OF_HELP = (
    '(nodes N, links L and flows F go by their names, or by numbers from 0: help numbers)\n'
    '(an empty line does the last move again)\n')
# The pages of what is no command, in their order.
TOPICS = {
    b'numbers':
        'A node, a link or a flow goes by its name in the text, or by its number. Each sort is counted from 0, in the\n'
        'order of its lines there. So the first flow line is flow 0, the second one flow 1. An image has no names.\n'
        'Lines of the trace and states have the numbers, other answers the names. names lists both. In the shell, tcpsim dis FILE\n'
        'names all by their numbers: n0, l0, f0. Bytes of a flow are counted from 0 too, breakpoints and displays from 1.\n'
        'names\n',
    b'trace':
        'A line of the trace: n time node source number KIND AFTER ACTS\n'
        'n            which event it is, counted from 1\n'
        'time         when it happens, in nanoseconds\n'
        'node         where\n'
        'source       0: an alarm of the node; L + 1: a packet comes over link L\n'
        'number       which alarm; or which packet of that link, counted from 1\n'
        'KIND         what happens: help kinds\n'
        'AFTER        the node afterwards: of a sender una= (first byte not acknowledged), nxt= (next byte to send),\n'
        '             cwnd=, ssthresh= and phase= ss (slow start), ca (congestion avoidance) or fr (fast recovery);\n'
        '             of a receiver next= (the byte that it waits for); of a router nothing\n'
        'ACTS         tx=L:F:B: link L begins to send a packet of flow F, B its byte or acknowledgement number;\n'
        '             drop=lost:F:B, drop=full:F:B or drop=codel:F:B: it is dropped by its number (lose), before\n'
        '             a full queue, or by CoDel\n'
        'lines 1\n',
    b'kinds':
        'The kinds of events, as lines of the trace tell them and as break kind takes them:\n'
        'start F      flow F starts\n'
        'rto F        the retransmission timer of flow F ends\n'
        'delack F     the receiver of flow F sends an acknowledgement that it delayed\n'
        'free L       link L has sent a packet, and is free for the next one\n'
        'data F B     a segment of flow F, from byte B on, comes to a router or to the receiver\n'
        'ack F B      an acknowledgement of flow F, of all bytes before B, comes to a router or to the sender\n'
        'break kind rto\n',
    b'stall':
        'A flow is stalled where it has started, some of its bytes are not acknowledged, and none of its packets\n'
        'waits in a queue or is on its way over a link. So only an alarm goes on with it: its retransmission timer,\n'
        'or a delayed acknowledgement.\n'
        'break stall stops after an event that leaves a flow so, break stall F after one that leaves flow F so, once\n'
        'for each stall; stalls lists them all. lines 1 shows the event, which has the number of that flow, or drops a packet of\n'
        'it. why F tells which alarm is due, and when, and what was dropped.\n'
        'break stall\n',
    b'values':
        'A condition on a value is of the lines after which it holds. Its sign is <, <=, >, >= or =, with or without spaces.\n'
        'cwnd<3000    at a sender, of its state: cwnd, flight (bytes in flight), ssthresh, una, nxt or dups (duplicates)\n'
        'rto>1s       at a sender: how long its retransmission timer runs\n'
        'phase fr     at a sender: ss (slow start), ca (congestion avoidance) or fr (fast recovery)\n'
        'next>=4000   at a receiver: the byte that it waits for\n'
        'queue L>50   an event that changes link L: how many packets wait there\n'
        'wait L>100ms the same: how long the first of them has waited\n'
        'count L>4    the same: the count of CoDel; a drop-tail queue has none\n'
        'time>=5s     the moment\n'
        'change V F   an event that changes a value of flow F: cwnd, flight, ssthresh, una, nxt, rto, dups or next. It tells from what\n'
        'flow F beside these asks for the sender or the receiver of flow F, else it is any.\n'
        'break cwnd<3000 flow 0\n',
}
# Behind a command whose words are refused, what there is to type in their place.
SORTS_TOLD = (
    'conditions are node N, flow F, kind K, drop, link L, byte B, cwnd, flight, ssthresh, una, nxt, rto, dups, phase, next, queue L, wait L, '
    'count L, time, change V; or stall: see help break')
DISPLAYS_TOLD = f'displays are {", ".join(f"{name.decode()} {sort[0].upper()}" for name, sort in DISPLAYED.items())}: see help display'
# What is told of a word that begins no command: of names that other debuggers have, what does the same.
ELSEWHERE = {
    b'break': SORTS_TOLD,
    b'display': DISPLAYS_TOLD,
    b'print': 'display shows a value after each move, state flow F all of a flow, state link L of a link: see help display',
    b'watch': 'break stops where a line meets conditions: see help break',
    b'info': 'state shows the state, where the position, breaks the breakpoints: see help',
}
# What is expected behind `break` at a place, and what there is in the place of other words that are refused.
A_NUMBER = 'a number is expected, as 3000, with no unit: see help values'
EXPECTED_TOLD = {
    SORT: SORTS_TOLD,
    OTHER_SORT: 'each sort of condition stands once: see help break',
    KIND: 'kinds are start, rto, delack, free, data, ack: see help kinds',
    PHASE: 'phases are ss, ca, fr: see help values',
    VALUE: 'changes are of cwnd F, flight F, ssthresh F, una F, nxt F, rto F, dups F, next F: see help values',
    SIGN: 'signs are <, <=, >, >=, =, as cwnd<3000: see help values',
    TIME: UNITS_TOLD,
    NUMBER: A_NUMBER,
    BYTE: A_NUMBER,
}
THERE_TOLD = {
    ('B1', b'display'): DISPLAYS_TOLD,
    ('B2', b'display'): DISPLAYS_TOLD,
    ('B1', b'state'): 'parts of a state are node N, link L, flow F: see help state',
    ('B1', b'help'): 'help is of a command, or of numbers, trace, kinds, stall, values: see help',
    ('B3', b'until'): UNITS_TOLD,
    ('B3', b'goto'): UNITS_TOLD,
    ('B5', b'delete'): 'breaks lists the breakpoints with their numbers',
    ('B5', b'undisplay'): 'display lists the displays with their numbers',
}
# The same of a command that lacks a word, or has one too many.
USES_TOLD = {
    b'until': UNITS_TOLD,
    b'goto': UNITS_TOLD,
    b'state': THERE_TOLD['B1', b'state'],
    b'delete': THERE_TOLD['B5', b'delete'],
    b'undisplay': THERE_TOLD['B5', b'undisplay'],
    b'why': 'why F tells what flow F waits for, as why 0: see help why',
    b'stalls': 'stalls lists those of all flows, and stands alone: see help stalls',
}
