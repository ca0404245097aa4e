"""Canonical texts, and where the faults of lines are.

Each canonical text is as `dis` of the model in python/tcpsim_model writes it, and as docs/FORMATS.md has it.
"""
from clone import read_text

# Two flows over one router, whose routes do not rise.
ROUTED = read_text('examples', 'equal_times.txt')

ROUTED_AGAIN = '''\
sim 2040001
node n0 sender
node n1 sender
node n2 router
node n3 receiver
node n4 receiver
link l0 n0 n2 8000000 1000000 droptail 10
link l1 n1 n2 8000000 1000000 droptail 10
link l2 n2 n3 8000000 1000000 droptail 10
link l3 n3 n2 8000000 1000000 droptail 10
link l4 n2 n4 8000000 1000000 droptail 10
link l5 n4 n2 8000000 1000000 droptail 10
link l6 n2 n0 8000000 1000000 droptail 10
link l7 n2 n1 8000000 1000000 droptail 10
flow f0 n0 n3 1000 1 0 64000 0 reno iw3
flow f1 n1 n4 1000 1 0 64000 0 reno iw3
route n2 n0 l6
route n2 n1 l7
route n2 n3 l2
route n2 n4 l4
'''

# CoDel, numbers at their limits, and lost packets of two links in turn.
LIMITS = '''\
node s sender # all numbers at a limit
node r receiver
link a s r 1000000000000 10000000000 codel 65535 10000000000 9999999999 65534
 link b  r s 1000 1 droptail 65535
lose b 7
lose a 3
flow f s r 9000 1000000000 999999999999999 1073741824 500000000
lose b 1000000000
lose a 4
sim 1000000000000000
'''

LIMITS_AGAIN = '''\
sim 1000000000000000
node n0 sender
node n1 receiver
link l0 n0 n1 1000000000000 10000000000 codel 65535 10000000000 9999999999 65534
link l1 n1 n0 1000 1 droptail 65535
flow f0 n0 n1 9000 1000000000 999999999999999 1073741824 500000000 reno iw3
lose l0 3
lose l0 4
lose l1 7
lose l1 1000000000
'''

# Texts, and what `dis` makes of them.
CANONICAL = [(ROUTED, ROUTED_AGAIN), (ROUTED_AGAIN, ROUTED_AGAIN), (LIMITS, LIMITS_AGAIN), (LIMITS_AGAIN, LIMITS_AGAIN)]

# What a flow says of its sender: each stands again in the canonical text.
SENDERS = ['reno iw3', 'newreno iw3', 'reno iw10', 'newreno iw10']

# Three lines that are right.
RIGHT = 'sim 5\nnode s sender\nnode r receiver # of all\n'

# A fourth line, its code, the byte from which on it is wrong, and how many are: the whole line where it has another number
# of words than it should.
FOURTH = [
    ('node t\tsender', 'E1', 6, 1),
    ('nod t sender', 'E2', 0, 3),
    ('node t', 'E3', 0, 6),
    ('node  t  source # or so', 'E4', 9, 6),
    (' link s s s 9 9 droptail 9', 'E6', 6, 1),
    ('link a s s 9 9 droptail 9', 'E8', 9, 1),
    ('link a s r 1000 9 codel 9 9 0 9', 'E5', 28, 1),
    ('flow f s r 9 9 9 8 9', 'E5', 17, 1),
    ('flow f s r 9 9 9 9 9 reno', 'E3', 0, 25),
    ('flow f s r 9 9 9 9 9 reno iw3 0', 'E3', 0, 31),
    ('flow f s r 9 9 9 9 9 reno  iw5 # none', 'E4', 27, 3),
    ('flow f s r 9 9 9 9 9 iw3 reno', 'E4', 21, 3),
    ('flow f s r 9 9 9 9 9 Reno iw3', 'E4', 21, 4),
    ('flow f s r 9 9 9 8 9 Reno iw5', 'E5', 17, 1),
]

# As many flows as there may be, and one more, in line 132: a word for its sender is judged before it is one too many.
FLOWS = ''.join(f'flow {first}{second} s r 9 9 9 9 9 newreno iw10\n' for first in 'abcdefgh' for second in 'abcdefghijklmnop')
ONE_MORE = [
    ('flow f s r 9 9 9 9 9 reno iw10', 'E9', 0, 30),
    ('flow f s r 9 9 9 9 9', 'E9', 0, 20),
    ('flow f s r 9 9 9 9 9 reno iw5', 'E4', 26, 3),
]
