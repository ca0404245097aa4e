"""The row `laws`: what tcpsim does beside laws of papers, with no other simulator: each with its tolerance.

Figures of a part of a run are those of the program for two ends, the second less the first: a run goes on as a longer one does.
"""
import math
import subprocess
from collections import namedtuple
from collections.abc import Callable

from tcpsim.cli.net import scenario
from tcpsim.engine import WAITED, EngineRun
from tcpsim.fairness import jain
from tcpsim.scenario.net import Net, RECEIVER, SENDER
from tcpsim.scenario.text import Scenario
from tcpsim.scenario.units import Queue

MS, S, BITS_NS = 10**6, 10**9, 8 * 10**9
HEADER = 40
LONG = Queue('droptail', 60_000)
BUSY, BYTES = ('busy', 'ns'), ('delivered', 'bytes')
# A law at a point: the value that it says and the one that was found, and how far they may be apart, as a part of the law.
Point = namedtuple('Point', 'at law found within')


def engine(text, program):
    done = subprocess.run([program, 'figures'], input=text.encode('ascii'), capture_output=True, check=True)
    return EngineRun(Scenario(text), done.stdout.decode('ascii'))


def one_flow(rate, trip, queue, rwnd, mss=1460, delack=0, segments=10**9, lost=(), variant='reno', iw=3):
    """A net of one flow: the bottleneck, link 0, has no delay to speak of, and the receiver is at its end."""
    net = Net()
    s, r = net.node(SENDER), net.node(RECEIVER)
    net.link(s, r, rate, trip // 2, queue)
    net.link(r, s, 10**12, trip - trip // 2, LONG)
    flow = net.flows[net.flow(s, r, mss, segments, 0, rwnd, delack)]
    flow.variant, flow.initial_window = variant, iw
    net.links[0].lose = list(lost)
    return net


def part_of(net, program, begin, end, figure):
    """A figure of the run between two moments, by a function of the run."""
    return figure(engine(net.text(end), program)) - figure(engine(net.text(begin), program))


# ---- utilization by buffer

RATE, TRIP, PACKET = 10**7, 120 * MS, 1500
PRODUCT = RATE * TRIP // (PACKET * BITS_NS)         # packets: 100
BUFFERS = 1, 5, 10, 25, 50, 75, 100, 150


def filled(part):
    """What one Reno flow uses of a link before which a buffer has room for this part of the bandwidth-delay product. Its window
    grows by a segment a round trip from half of the product and the buffer to the whole: below the product a round trip lasts
    as without a queue, above it the link is full (as Appenzeller, Keslassy and McKeown 2004, section 2, reason)."""
    if part >= 1:
        return 1.0
    rounds_below, rounds_above = (1 - part) / 2, part
    sent = rounds_below * (3 + part) / 4 + rounds_above * (1 + part / 2)
    return sent / (rounds_below + rounds_above * (1 + part / 2))


def utilization(program, buffers=BUFFERS, length=400 * S):
    """The point of each buffer."""
    points = []
    for places in buffers:
        net = one_flow(RATE, TRIP, Queue('droptail', places), 2**30)
        busy = part_of(net, program, 100 * S, 100 * S + length, lambda run: run.links[0][BUSY])
        # the pipe holds the product and the packet that is being sent
        points.append(Point(places, filled(places / (PRODUCT + 1)), busy / length, .015))
    return points


# ---- a standing queue

def standing(program):
    """A window above the product stands in the queue: window - product - 1 packets, for ever."""
    points = []
    for window in (110, 150, 200, 300):
        net = one_flow(RATE, TRIP, LONG, window * (PACKET - HEADER))
        length = 20 * S
        waited = part_of(net, program, 40 * S, 40 * S + length, lambda run: run.links[0][WAITED])
        points.append(Point(window, window - PRODUCT - 1, waited / length, .02))
    return points


# ---- square root

# Of how many packets one is lost, and how far the law may be off: a recovery takes a round trip more, which weighs in a short one.
NEAR = {100: .25, 500: .10, 1_000: .08, 5_000: .05}


def square_root(program):
    """Every N-th packet is lost: N = 3/8 W^2 b packets from half of a window W to the whole, so that a round trip carries
    sqrt(3 N / (2 b)) segments (Mathis and others 1997), where every b-th segment is acknowledged."""
    points, trip = [], 100 * MS
    for delack, b in ((0, 1), (200 * MS, 2)):
        for n in NEAR:
            cycles = 60 if n < 5_000 else 20
            lost = [n * k for k in range(1, cycles + 1)]
            law = math.sqrt(1.5 * n / b)
            net = one_flow(10**10, trip, LONG, 2**30, delack=delack, lost=lost)
            round_of = (n / law) * trip                 # how long a cycle takes by the law, ns
            begin, end = int(round_of * cycles * .2), int(round_of * cycles * .8)
            segments = part_of(net, program, begin, end, lambda run: run.flows[0][BYTES]) / 1460
            points.append(Point(f'1/p = {n:,}, b = {b}', law, segments * trip / (end - begin), NEAR[n]))
    return points


# ---- slow start

def rounds(segments, initial, b):
    """Round trips that slow start takes: of a window w the next is w + w/b, where every b-th segment is acknowledged. With
    b = 2 an odd one waits for the next, whose window it opens."""
    count, sent, window, waiting = 0, 0, initial, 0
    while sent < segments:
        count, sent = count + 1, sent + window
        acks, waiting = divmod(window + waiting, b)
        window += acks
    return count


def slow_start(program):
    """Whole round trips until all is acknowledged; every segment is acknowledged at once."""
    points, trip = [], 100 * MS
    for initial, name in ((3, 3), (10, 10)):
        for segments in (3, 10, 30, 100, 1_000, 10_000):
            net = one_flow(10**12, trip, LONG, 2**30, segments=segments, iw=name)
            done = engine(net.text(60 * S), program).flows[0]['completed', 'ns']
            points.append(Point(f'{segments:,} segments, window of {initial}', rounds(segments, initial, 1), done / trip, .01))
    return points


# ---- fairness

def fairness(program):
    """Flows of one round trip share a CoDel queue: Jain's index is near 1."""
    points = []
    for flows in (2, 4, 8, 15):
        text = scenario(['dumbbell', '--flows', str(flows), '--rate', '10M', '--rtt', '50ms', '--queue', 'codel:5ms:100ms',
                         '--start', ','.join(f'{100 * n}ms' for n in range(flows)), '--end', '120s'])
        run = engine(text, program)
        points.append(Point(f'{flows} flows', 1.0, jain([run.goodput(n) for n in range(flows)]), .05))
    return points


def small_buffers(program):
    """n flows before a queue of product / sqrt(n) (Appenzeller, Keslassy and McKeown 2004): shown, with no tolerance. From 16
    flows on the law is not met: of so few packets a flow loses several at once, and waits for a timeout of a second."""
    points = []
    for flows in (1, 4, 16, 64):
        places = round(PRODUCT / math.sqrt(flows))
        words = ['dumbbell', '--flows', str(flows), '--rate', '10M', '--rtt', '100ms,110ms,120ms,130ms,140ms'[:5 if flows == 1 else None],
                 '--queue', f'droptail:{places}', '--delack', '0', '--start', ','.join(f'{37 * n}ms' for n in range(flows))]
        if flows == 1:
            words[words.index('100ms')] = '120ms'
        if flows == 4:
            words[words.index('--rtt') + 1] = '100ms,110ms,130ms,140ms'
        ends = [engine(scenario([*words, '--end', f'{end}s']), program) for end in (30, 130)]
        busy = ends[1].links[0][BUSY] - ends[0].links[0][BUSY]
        timeouts = sum(flow['timeouts', 'times'] for flow in ends[1].flows) - sum(flow['timeouts', 'times'] for flow in ends[0].flows)
        points.append({'flows': flows, 'queue': places, 'used': busy / (100 * S), 'timeouts': timeouts})
    return points


LAWS: dict[str, Callable] = {
    'utilization by buffer': utilization, 'a standing queue': standing, 'square root': square_root,
    'rounds of slow start': slow_start, 'fairness with CoDel': fairness}


def is_kept(point):
    return abs(point.found - point.law) <= point.within * point.law


def measure(program):
    """The points of all laws."""
    return {**{name: [point._asdict() for point in law(program)] for name, law in LAWS.items()},
            'small buffers': small_buffers(program)}
