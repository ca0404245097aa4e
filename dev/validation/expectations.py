"""The row `expectations`: what ns-3's unit tests (version 3.37) expect that a scenario can state, checked on tcpsim's traces.

No ns-3 is needed: each function runs a scenario and answers what was found, or raises AssertionError.
"""
import re
import subprocess

from validation.laws import LONG, MS, S, one_flow
from tcpsim.scenario.units import Queue

SENDER = re.compile(r'^(\d+) (\d+) 0 \S+ \S+ (start|ack|rto) 0(?: (\d+))? una=(\d+) nxt=(\d+) cwnd=(\d+) ssthresh=(\d+) phase=(ss|ca|fr)'
                    r'(.*)$', re.M)
MSS, OPEN = 500, 2**30


class Row:
    """A line of the sender."""

    def __init__(self, found):
        (_, time, self.kind, ack, *numbers, self.phase, acts) = found.groups()
        self.time, self.ack = int(time), None if ack is None else int(ack)
        self.una, self.nxt, self.cwnd, self.ssthresh = map(int, numbers)
        self.sent = [int(number) for number in re.findall(r'tx=0:0:(\d+)|drop=\w+:0:(\d+)', acts) for number in number if number]


def trace(net, program, end=60 * S):
    return subprocess.run([program, 'run'], input=net.text(end).encode('ascii'), capture_output=True, check=True).stdout.decode('ascii')


def rows(text):
    return [Row(found) for found in SENDER.finditer(text)]


def flow(lost=(), **more):
    """A flow over 1 Mbit/s and 100 ms, as most of these tests have it, with segments of 500 bytes."""
    given = {'rate': 10**6, 'trip': 100 * MS, 'queue': LONG, 'rwnd': 40_000, 'mss': MSS, 'segments': 100, **more}
    return one_flow(**given, lost=lost)


def pairs(lines):
    return list(zip(lines, lines[1:]))


def slow_start(program):
    steps = [(b.cwnd - a.cwnd, b.cwnd) for a, b in pairs(rows(trace(flow(), program))) if a.phase == 'ss' and b.una > a.una]
    assert steps and all(step == MSS for step, _ in steps) and max(cwnd for _, cwnd in steps) <= 40_000 + MSS
    return f'{len(steps)} acknowledgements, each adds {MSS}'


def congestion_avoidance(program):
    lines = [row for row in rows(trace(flow([20], segments=400), program)) if row.phase == 'ca']
    rounds = [(a.time, a.cwnd) for a in lines]
    grown = [max(cwnd for time, cwnd in rounds if time <= begin + 100 * MS) - first for begin, first in rounds]
    assert len(lines) > 100 and max(grown) <= MSS
    return f'at most {max(grown)} of {MSS} bytes in a round trip'


def fast_retransmit(program):
    text = trace(flow([21], segments=100), program)
    lines = rows(text)
    duplicates = [row for row in lines if row.kind == 'ack' and row.ack == 20 * MSS][1:]
    begun = next(row for row in lines if row.phase == 'fr')
    came = re.findall(r'^\d+ \d+ 1 \S+ \S+ data 0 10000 ', text, re.M)
    assert begun.time == duplicates[2].time and len(came) == 1 and not [row for row in lines if row.kind == 'rto']
    assert lines[-1].una == 100 * MSS
    return 'sent once again, at the third duplicate; no timeout; all data came'


def timeout_resends_once(program):
    lines = rows(trace(flow([10], segments=10), program))
    expired = [row for row in lines if row.kind == 'rto']
    assert len(expired) == 1 and expired[0].sent == [9 * MSS] and expired[0].cwnd == MSS
    assert lines[-1].una == 10 * MSS
    return 'one timeout, one segment sent again, with a window of one'


def ssthresh_after_timeout(program):
    lines = rows(trace(flow([8, 9, 10], segments=10), program))
    before, expired = next((a, b) for a, b in pairs(lines) if b.kind == 'rto')
    in_flight = before.nxt - before.una
    assert expired.ssthresh == max(in_flight // 2, 2 * MSS)
    return f'{in_flight} bytes in flight leave {expired.ssthresh}'


def timer_doubles(program):
    lines = rows(trace(flow([1, 2, 3, 4, 5, 6], segments=1), program, 200 * S))
    times = [row.time for row in lines if row.kind in ('start', 'rto')]
    waits = [b - a for a, b in pairs(times)]
    assert waits == [S * 2**n for n in range(6)]
    return 'waits of ' + ', '.join(str(wait // S) for wait in waits) + ' s'


def debugged(net, program, commands, end=60 * S):
    given = net.text(end, notes=False) + '---\n' + commands
    return subprocess.run([program, 'debug'], input=given.encode('ascii'), capture_output=True, check=True).stdout.decode('ascii')


def no_sample_of_a_resent_segment(program):
    said = debugged(flow([1], segments=1), program, 'step 1000000\nstate\n')
    state = re.findall(r'sender 0 una=500 .*', said)[0]
    assert ' srtt=- ' in state and ' rto=2000000000 ' in state, state
    return 'no round trip is known after the one segment was sent again'


def recovery(program):
    lines = rows(trace(flow([21], segments=100), program))
    at = next(n for n, (a, b) in enumerate(pairs(lines)) if b.phase == 'fr' and a.phase != 'fr') + 1
    assert lines[at].cwnd == lines[at].ssthresh + 3 * MSS
    inside = [n for n in range(at + 1, len(lines)) if lines[n].phase == 'fr' and lines[n - 1].phase == 'fr']
    assert inside and all(lines[n].cwnd == lines[n - 1].cwnd + MSS for n in inside)
    left = lines[inside[-1] + 1]
    assert left.cwnd == left.ssthresh and left.phase == 'ca'
    return f'ssthresh + 3 segments, {len(inside)} duplicates add one each, ssthresh at the exit'


def round_trip_estimator(program):
    """The first measured round trip is the mean, and half of it the deviation (RFC 6298, 2.2)."""
    net = flow(segments=1, rate=10**12)
    said = debugged(net, program, 'step 1000000\nstate\n')
    srtt, rttvar = map(int, re.findall(r' srtt=(\d+) rttvar=(\d+) ', said)[0])
    assert 100 * MS <= srtt < 100 * MS + 20 and rttvar == srtt // 2
    return f'srtt {srtt} ns, rttvar {rttvar} ns'


def codel_lets_a_short_queue_be(program):
    net = flow(queue=Queue('codel', 1000, 5 * MS, 100 * MS, 540), rwnd=14 * MSS, segments=400)
    text = trace(net, program)
    assert 'drop=' not in text and rows(text)[-1].una == 400 * MSS
    return 'a wait below the target drops nothing, and all packets come in their order'


def codel_drops_after_an_interval(program):
    net = flow(queue=Queue('codel', 1000, 5 * MS, 100 * MS, 540), rwnd=OPEN, segments=3000)
    text = trace(net, program)
    drops = [int(time) for time in re.findall(r'^\d+ (\d+) .* drop=codel', text, re.M)]
    begun = int(re.findall(r'^\d+ (\d+) 0 \S+ \S+ free .*', text, re.M)[0])
    assert drops and drops[0] >= begun + 100 * MS
    packet, second = 540 * 8000, 70_710_678         # ns: of a packet, and interval / sqrt(2)
    assert 0 <= drops[1] - drops[0] - 100 * MS <= packet and 0 <= drops[2] - drops[0] - 100 * MS - second <= packet
    return f'the first after an interval, then {(drops[1] - drops[0]) / MS:.1f} and {(drops[2] - drops[1]) / MS:.1f} ms later'


def drop_tail_is_full(program):
    net = flow(queue=Queue('droptail', 3), segments=5, rwnd=OPEN, iw=10)
    first = trace(net, program).splitlines()[0]
    assert first.count('tx=') == 1 and first.count('drop=full') == 1
    return 'of five packets one is sent, three wait, and one is dropped'


def advertised_window(program):
    lines = rows(trace(flow(segments=1000, rwnd=9 * MSS), program))
    assert max(row.nxt - row.una for row in lines) == 9 * MSS
    return f'at most {9 * MSS} bytes in flight'


# ns-3's file, what it expects, and the function.
ALL = (
    ('tcp-slow-start-test', 'each acknowledgement adds one segment, up to ssthresh', slow_start),
    ('tcp-cong-avoid-test', 'no more than a segment in a round trip', congestion_avoidance),
    ('tcp-fast-retr-test', 'the lost segment goes once again, at the third duplicate, with no timeout', fast_retransmit),
    ('tcp-rto-test, retransmission', 'one timeout mends a last segment', timeout_resends_once),
    ('tcp-rto-test, ssthresh', 'max(bytes in flight / 2, 2 segments)', ssthresh_after_timeout),
    ('tcp-rto-test, times', 'the timer doubles', timer_doubles),
    ('tcp-rtt-estimation', 'no sample of a segment that was sent again', no_sample_of_a_resent_segment),
    ('tcp-classic-recovery-test', 'ssthresh + 3, one more a duplicate, ssthresh at the exit', recovery),
    ('rtt-test', 'the first sample R: mean R, deviation R / 2', round_trip_estimator),
    ('codel-queue-disc-test, enqueue and dequeue', 'in order, none is dropped', codel_lets_a_short_queue_be),
    ('codel-queue-disc-test, drops', 'none before an interval above the target; then by the control law', codel_drops_after_an_interval),
    ('drop-tail-queue-test', 'what finds the queue full is dropped', drop_tail_is_full),
    ('tcp-advertised-window-test', 'never more than the window in flight', advertised_window),
)


def measure(program):
    """Of each test what was found, or what was not."""
    found = []
    for name, expected, check in ALL:
        try:
            found.append([name, expected, True, check(program)])
        except AssertionError as wrong:
            found.append([name, expected, False, str(wrong)])
    return found
