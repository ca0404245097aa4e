"""What a flow waits for, and whether it is stalled, in states of runs that were reckoned by hand: segments of 1,000 bytes
over links of a megabyte a second and a millisecond.
"""

# From n0 to n1; the acknowledgements come back over link 1.
THERE = 'node n0 sender\nnode n1 receiver\nlink a n0 n1 8000000 1000000 droptail 10\nlink b n1 n0 8000000 1000000 droptail 10\n'


def text(flow, *lost):
    """A flow from n0 to n1 with these numbers, of whose link the packets of these numbers are lost."""
    return f'sim 10000000000\n{THERE}flow f n0 n1 {flow}\n' + ''.join(f'lose a {number}\n' for number in lost)


# Each row is a text and moves over its run, with what is told of where each comes to: whether the flow is stalled there that was
# not before, at which the move `run` stops, and what it waits for.
ROWS = [
    # Of four segments that leave at the start the last two are lost, as is the one that their acknowledgement lets go: the
    # timer goes on. The segment that it sends again is acknowledged 200 ms after it came.
    (text('1000 5 0 64000 200000000', 3, 4, 5), [
        ('step 0', '''\
at 0 of the run, time 0 ns, the beginning
flow f is not started: it starts at 0 ns
alarms: start at 0 ns
'''),
        ('step 1', '''\
at 1 of the run, time 0 ns
flow f sends no more: 4000 bytes in flight, a segment of 1000, cwnd 4000
waits: data 1000 at place 1 of link a
under way: data 0 to node n1 at 2040000 ns
alarms: rto at 1000000000 ns
missing at the receiver: byte 0
'''),
        ('run', '''\
at 7 of the run, time 4120000 ns
break 1: stall f
flow f is stalled: 0 duplicate acknowledgements, and its retransmission timer is due at 1004120000 ns
alarms: rto at 1004120000 ns
missing at the receiver: byte 2000, data 2000 lost by name at link a in line 1
'''),
        ('run', '''\
at 10 of the run, time 1006160000 ns
break 1: stall f
flow f is stalled: 0 duplicate acknowledgements, and its delayed acknowledgement is due at 1206160000 ns
alarms: delack at 1206160000 ns, rto at 3004120000 ns
missing at the receiver: byte 3000, data 3000 lost by name at link a in line 1
'''),
        ('run', '''\
at 19 of the run, time 1211320000 ns, the end
flow f is complete: all 5000 bytes are acknowledged
'''),
    ]),
    # The receiver's window holds one segment and not two.
    (text('1000 3 0 1999 200000000'), [
        ('step 1', '''\
at 1 of the run, time 0 ns
flow f sends no more: 1000 bytes in flight, a segment of 1000, rwnd 1999
under way: data 0 to node n1 at 2040000 ns
alarms: rto at 1000000000 ns
missing at the receiver: byte 0
'''),
    ]),
    # Of three segments that both windows hold two wait.
    (text('1000 3 0 64000 200000000'), [
        ('step 1', '''\
at 1 of the run, time 0 ns
flow f has sent all 3000 bytes: 0 are acknowledged
waits: data 1000 at place 1 of link a, data 2000 at place 2 of link a
under way: data 0 to node n1 at 2040000 ns
alarms: rto at 1000000000 ns
missing at the receiver: byte 0
'''),
    ]),
    # Both alarms are due at one moment, and that at the node of the lower number, the receiver, comes first.
    ('''\
sim 10000000000
node n0 receiver
node n1 sender
link a n1 n0 8000000 798960000 droptail 10
link b n0 n1 8000000 1000000 droptail 10
flow f n1 n0 1000 1 0 64000 200000000
''', [
        ('run', '''\
at 3 of the run, time 800000000 ns
break 1: stall f
flow f is stalled: 0 duplicate acknowledgements, and its delayed acknowledgement is due at 1000000000 ns
alarms: delack at 1000000000 ns, rto at 1000000000 ns
missing at the sender: an acknowledgement above 0
'''),
    ]),
    # The initial window is two segments of 3,000 bytes, of which the first is lost. Two duplicates let one more segment go
    # each; by the third ssthresh is 6000, the least, and cwnd 15000. The first segment is sent again, which takes 3.04 ms
    # and 1 ms from 15.24 ms on; four are in flight, and a fifth just fits.
    (text('3000 9 0 64000 0', 1), [
        ('step 13', '''\
at 13 of the run, time 15240000 ns
flow f may send at its next acknowledgement: 12000 bytes in flight, a segment of 3000, cwnd 15000
under way: data 0 to node n1 at 19280000 ns
alarms: rto at 1000000000 ns
missing at the receiver: byte 0, data 0 lost by name at link a in line 1
'''),
    ]),
]
