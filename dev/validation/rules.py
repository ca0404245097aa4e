"""The row `rules`: Reno and NewReno beside ns-2's, segment by segment.

One flow over one link, in scenarios that are drawn from their number, and with the losses of Fall and Floyd. The model runs as
it stands, and with ns-2's rules (ns2_sender.py); ns-2 runs one_flow.tcl. Two runs are the same where they send the same segments
in the same order, each within 10 us, and have their timeouts at the same moments.
"""
import os
import random
import shutil
import subprocess
import tempfile
from heapq import heapify

from tcpsim_model.queues import Packet
from tcpsim_model.scenario import RECEIVER, SENDER, Flow, Link, Scenario
from tcpsim_model.sender import Sender
from tcpsim_model.simulate import FIRST_FREE, HEADER_BYTES, RTO, Network

from validation.ns2_sender import ALL, SWITCHES, TIE, Ns2Receiver, Ns2Sender

HERE = os.path.dirname(os.path.abspath(__file__))
S, US = 10**9, 10**3
NEAR = 10 * US          # ns
COUNT, NEEDS = 100, 100     # scenarios; of how many it is tried which rules they take
SET_UP = frozenset({'segment 0 has no header'})     # no rule: a packet that ns-2 sends where there is no SYN
# Fall and Floyd, Simulation-based comparisons of Tahoe, Reno, and SACK TCP (1996), section 4 and ns-2's test suite (tcl/ex/
# and tcl/test/test-suite-simple.tcl, test-suite-newreno.tcl): a link of 0.8 Mbit/s and 100 ms, segments of 1,000 bytes, of
# which 1, 2, 3 or 4 are lost, counted from 0.
FALL_AND_FLOYD = {1: [14], 2: [14, 28], 3: [14, 26, 28], 4: [14, 24, 26, 28]}


class Case:
    """A flow over a link: rate bit/s, delay, delack and end ns, capacity packets, mss bytes, windows segments; `lost` counts
    packets from 1."""

    def __init__(self, newreno, rate, delay, capacity, mss, segments, window, delack, lost, end=200 * S, iw10=False):
        self.newreno, self.rate, self.delay, self.capacity, self.mss = newreno, rate, delay, capacity, mss
        self.segments, self.window, self.delack, self.lost, self.end, self.iw10 = segments, window, delack, lost, end, iw10

    def initial(self):
        return Sender(self.mss, 1, self.mss, iw10=self.iw10).cwnd // self.mss

    def scenario(self):
        there = Link(0, 1, self.rate, self.delay, False, self.capacity, 0, 0, 0, self.lost)
        back = Link(1, 0, self.rate, self.delay, False, 65_535, 0, 0, 0, [])
        flow = Flow(0, 1, self.mss, self.segments, 0, self.window * self.mss, self.delack, self.newreno, self.iw10)
        return Scenario(self.end, [SENDER, RECEIVER], [there, back], [flow], [])

    def words(self, out):
        return ['ns', os.path.join(HERE, 'one_flow.tcl'), 'Newreno' if self.newreno else 'Reno', str(self.rate),
                str(self.delay / S), str(self.capacity), str(self.mss), str(self.segments), str(self.window), str(self.initial()),
                str(self.delack / S), str(self.end / S), '0', out, *map(str, self.lost)]


def drawn(newreno, number):
    """A scenario that is drawn from its number."""
    draw = random.Random(f'{"newreno" if newreno else "reno"} {number}')
    segments = draw.randrange(40, 240)
    losses = draw.choice((0, 1, 1, 2, 2, 3, 4, 6))
    near = draw.randrange(1, segments)
    lost = sorted({max(1, min(segments, near + draw.randrange(0, 25))) if draw.random() < .7 else draw.randrange(1, segments + 1)
                   for _ in range(losses)})
    return Case(newreno, draw.choice((400_000, 800_000, 2_000_000, 5_000_000)), draw.randrange(5_000, 50_000) * 1_000 + 300,
                draw.randrange(4, 40), draw.choice((500, 960, 1_000, 1_200, 1_460)), segments, draw.randrange(8, 50),
                draw.choice((0, 0, 0, 100)) * 10**6, lost)


class Logged(Network):
    """The model's network that keeps what the sender sends, (ns, segment), and its timeouts, ns."""

    def __init__(self, case, on=None, other_way=frozenset()):
        super().__init__(case.scenario())
        self.ties, self.other_way = [], other_way       # moments, ns; those of them that go the other way
        flow, self.on, self.sends, self.timeouts = self.flows[0], on or frozenset(), [], []
        if self.on - SET_UP:
            self.ends[0] = Ns2Sender(flow.mss, flow.segments, flow.rwnd, flow.newreno, flow.iw10, on)
            if 'a copy of the last segment is acknowledged late' in on:
                self.ends[1] = Ns2Receiver(flow.mss, flow.delack)

    def due(self):
        """The event that is next; with ns-2's rule an acknowledgement goes before the link that becomes free at its moment."""
        event = super().due()
        if event is not None and event[:3] == (event[0], 0, 0) and event[3] >= FIRST_FREE:
            for at, other in enumerate(self.pending):
                if other[:2] == event[:2] and other[2] > 0:
                    if not self.ties or self.ties[-1] != event[0]:
                        self.ties.append(event[0])
                    if (TIE in self.on) == (event[0] in self.other_way):
                        break
                    self.pending[at] = (*other[:2], -1, *other[3:])
                    heapify(self.pending)
                    return self.least()
        return event

    def at_sender(self, node, now, numbers):
        acts: list[str] = []
        mss = self.flows[0].mss
        for seq in numbers:
            header = 0 if seq == 0 and 'segment 0 has no header' in self.on else HEADER_BYTES
            self.sends.append((now, seq // mss))
            self.offer(self.own_ports[node][0], Packet(0, False, seq, mss + header), now, acts)
        self.set_timer(node, RTO, self.ends[node].deadline)
        return acts

    def timer(self, node, now, number):
        if number == RTO:
            self.timeouts.append(now)
        return super().timer(node, now, number)

    def run(self):
        while self.step() is not None:
            pass
        return self


def ns2_run(case):
    """What ns-2's sender sends, and its timeouts after which it sends something."""
    with tempfile.NamedTemporaryFile(suffix='.tr') as out:
        subprocess.run(case.words(out.name), check=True, capture_output=True)
        with open(out.name, encoding='ascii') as file:
            lines = [line.split() for line in file]
    sends = [(round(float(words[1]) * S), int(words[10])) for words in lines if words[0] == '+']
    return sends, timeouts_of(lines, sends)


def timeouts_of(lines, sends):
    """Moments at which ns-2's backoff grew: of the trace of a variable time has five places. The one after all is
    acknowledged, which sends nothing, is left out."""
    moments, before = [], 1
    for words in lines:
        if words[-2] == 'backoff_':
            if int(words[-1]) > before:
                near = min(sends, key=lambda send: abs(send[0] - float(words[0]) * S))
                if abs(near[0] - float(words[0]) * S) < 20 * US:
                    moments.append(near[0])
            before = int(words[-1])
    return moments


def same(mine, theirs):
    """Whether two lists of sends, or of moments, are the same, each within 10 us."""
    return first_other(mine, theirs) is None


def first_other(mine, theirs):
    """The place of the first send that is another, or None."""
    for at, (a, b) in enumerate(zip(mine, theirs)):
        a, b = (a, b) if isinstance(a, tuple) else ((a, 0), (b, 0))
        if a[1] != b[1] or abs(a[0] - b[0]) > NEAR:
            return at
    return None if len(mine) == len(theirs) else min(len(mine), len(theirs))


def compared(case, wanted=True):
    """One scenario: whether the model as it stands and with ns-2's rules sends as ns-2 does, and has its timeouts, and which
    rules it takes, where that is wanted: without any one of them the two part."""
    sends, timeouts = ns2_run(case)
    plain = Logged(case, SET_UP).run()
    on, ruled = next((pair for pair in ((on, Logged(case, on).run()) for on in (ALL, ALL - {TIE})) if same(pair[1].sends, sends)),
                     (ALL, None))
    row = {'plain': same(plain.sends, sends), 'ruled': ruled is not None, 'timeouts': len(timeouts),
           'timeouts plain': same(plain.timeouts, timeouts)}
    if ruled is None:
        ruled = Logged(case, ALL).run()
        at = first_other(ruled.sends, sends)
        row['first'] = [at, len(sends), ruled.sends[at:at + 1], sends[at:at + 1]]
        row['ties'] = ties_that_differ(case, sends)
    elif wanted and not row['plain']:
        row['needs'] = [name for name in SWITCHES if name in on - SET_UP and not same(Logged(case, on - {name}).run().sends, sends)]
    row['timeouts ruled'] = same(ruled.timeouts, timeouts)
    return row


def ties_that_differ(case, sends):
    """How many moments at which an acknowledgement comes as the link becomes free have to go the other way for the model, with
    ns-2's rules, to send what ns-2 does; None where none were found. Each step turns the one that leads furthest."""
    other_way: frozenset[int] = frozenset()
    for _ in range(12):
        run = Logged(case, ALL, other_way).run()
        far = first_other(run.sends, sends)
        if far is None:
            return len(other_way)
        ahead = {}
        until = max(send[far][0] for send in (run.sends, sends) if far < len(send))
        for moment in [time for time in run.ties if time <= until][-30:]:
            turned = other_way ^ {moment}
            reached = first_other(Logged(case, ALL, turned).run().sends, sends)
            ahead[turned] = 10**9 if reached is None else reached
        if not ahead or max(ahead.values()) <= far:
            return None
        other_way = max(ahead, key=ahead.__getitem__)
    return None


def version():
    """ns-2's version, or None where it is not there."""
    if shutil.which('ns') is None:
        return None
    with tempfile.NamedTemporaryFile() as out:
        done = subprocess.run(Case(False, 10**6, 10**6, 9, 1000, 1, 9, 0, [], S).words(out.name), capture_output=True, text=True,
                              check=True)
    return done.stdout.strip()


def measure(count=COUNT):
    """All rows."""
    rows = {}
    for newreno in (False, True):
        rows.update(of_one_variant(newreno, range(count)))
    return rows


def floyd(newreno, lost):
    """Fall and Floyd's flow, of which these segments are lost, counted from 0."""
    return Case(newreno, 800_000, 100 * 10**6, 25, 1_000, 60, 28, 0, [n + 1 for n in lost], 60 * S)


def of_one_variant(newreno, numbers):
    """The rows of Reno or of NewReno."""
    name = 'NewReno' if newreno else 'Reno'
    floyds = [floyd(newreno, lost) for lost in FALL_AND_FLOYD.values()]
    return {f'Fall and Floyd, {name}': [{**compared(case), 'sends': ns2_run(case)[0]} for case in floyds], name: [compared(drawn(newreno, number), number < NEEDS) for number in numbers]}
