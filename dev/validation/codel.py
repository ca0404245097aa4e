"""The row `codel`: what CoDel drops, and when, beside RFC 8289's pseudocode in doubles, Linux and ns-3.

tcpsim runs eight scenarios; the packets offered to their CoDel queue go, with their moments, before the same link with the other
queues. Compared are the moments of all drops, and the count at each.
"""
import glob
import math
import os
import re
import shutil
import subprocess
import tempfile
from collections import deque

from tcpsim.cli.net import scenario
from tcpsim.scenario.text import Scenario
from tcpsim.traces.reader import Reader
from tcpsim.whole_trace import running
from tcpsim_model.queues import Codel

HERE = os.path.dirname(os.path.abspath(__file__))
MS, S, BITS_NS = 10**6, 10**9, 8 * 10**9
TARGET, INTERVAL, MAXPACKET = 5 * MS, 100 * MS, 1500
RUNS = (('2M', 1, '60s'), ('2M', 10, '60s'), ('10M', 1, '60s'), ('10M', 10, '30s'), ('100M', 10, '6s'), ('100M', 100, '4s'),
        ('1G', 10, '1s'), ('1G', 100, '1s'))


def text_of(rate, flows, end):
    target = TARGET if rate != '2M' else 10 * MS
    return scenario(['dumbbell', '--flows', str(flows), '--rate', rate, '--rtt', '40ms,60ms' if flows > 1 else '40ms', '--access', '10G', '--start',
                     ','.join(f'{n}ms' for n in range(min(flows, 10))), '--queue', f'codel:{target}ns:100ms:60000', '--end', end])


class Offered(Reader):
    """The packets that enter the queue of link 0, (ns, bytes), and what CoDel drops there, ns."""

    def __init__(self, text, lines):
        super().__init__(Scenario(text))
        self.offered, self.drops = [], []
        self.read(lines)

    def _offer(self, link, text, stream, words, at, time):
        if link.number == 0:
            self.offered.append((time, stream.size))
        return super()._offer(link, text, stream, words, at, time)

    def _drop(self, link, text, stream, reason, time):
        if link.number == 0 and reason == 'codel':
            self.drops.append(time)
        super()._drop(link, text, stream, reason, time)


def lines_of(process):
    rest = ''
    for block in iter(lambda: process.read(1 << 16), b''):
        *lines, rest = (rest + block.decode('ascii')).split('\n')
        yield from lines


def run_of(text, program):
    """What is offered in a run of the program, and its drops."""
    with running([program, 'run'], text.encode('ascii')) as process:
        return Offered(text, lines_of(process))


# ---- queues of Python

class Pseudocode:
    """RFC 8289, sections 5.3 to 5.6, in doubles: times are seconds."""

    def __init__(self, target, interval, maxpacket):
        self.target, self.interval, self.maxpacket = target / S, interval / S, maxpacket
        self.entries: deque[tuple[int, float]] = deque()
        self.bytes = 0
        self.first_above_time = self.drop_next = 0.0
        self.count = self.lastcount = 0
        self.dropping = False

    def offer(self, size, now):
        self.entries.append((size, now / S))
        self.bytes += size

    def control_law(self, t, count):
        return t + self.interval / math.sqrt(count)

    def dodequeue(self, now):
        if not self.entries:
            self.first_above_time = 0.0
            return None, False
        size, entered = self.entries.popleft()
        self.bytes -= size
        sojourn_time = now - entered
        if sojourn_time < self.target or self.bytes <= self.maxpacket:
            self.first_above_time = 0.0
        elif self.first_above_time == 0.0:
            self.first_above_time = now + self.interval
        elif now >= self.first_above_time:
            return size, True
        return size, False

    def take(self, moment):
        """The counts at the packets that are dropped, and the size of the one that is given, or None."""
        now, dropped = moment / S, []
        packet, ok_to_drop = self.dodequeue(now)
        if self.dropping:
            if not ok_to_drop:
                self.dropping = False
            while now >= self.drop_next and self.dropping:
                self.count += 1
                dropped.append(self.count)
                packet, ok_to_drop = self.dodequeue(now)
                if not ok_to_drop:
                    self.dropping = False
                else:
                    self.drop_next = self.control_law(self.drop_next, self.count)
        elif ok_to_drop:
            dropped.append(0)           # counted below
            packet, ok_to_drop = self.dodequeue(now)
            self.dropping = True
            delta = self.count - self.lastcount
            if delta > 1 and now - self.drop_next < 16 * self.interval:
                self.count = delta
            else:
                self.count = 1
            dropped[-1] = self.count
            self.drop_next = self.control_law(now, self.count)
            self.lastcount = self.count
        return dropped, packet


class OfModel:
    """The queue of the independent model."""

    def __init__(self, target, interval, maxpacket):
        self.queue = Codel(10**9, target, interval, maxpacket)

    def offer(self, size, now):
        self.queue.offer((0, False, 0, size), now)

    def take(self, now):
        before, was = self.queue.count, self.queue.dropping
        dropped, packet = self.queue.take(now)
        counts = [before + n + 1 for n in range(len(dropped))] if was else [self.queue.count] * len(dropped)
        return counts, None if packet is None else packet[3]


def drops_at_link(queue, offered, rate):
    """What a queue of Python drops before a link: (ns, count)."""
    drops: list[tuple[int, int]] = []
    free_at = None

    def take(now):
        dropped, size = queue.take(now)
        drops.extend((now, count) for count in dropped)
        return None if size is None else now - -size * BITS_NS // rate

    for time, size in offered:
        while free_at is not None and free_at <= time:
            free_at = take(free_at)
        queue.offer(size, time)
        if free_at is None:
            free_at = take(time)
    while free_at is not None:
        free_at = take(free_at)
    return drops


# ---- Linux and ns-3

KERNEL_STUBS = 'linux/types.h', 'linux/ktime.h', 'linux/skbuff.h', 'net/inet_ecn.h'


def headers():
    """The folder of Linux's headers, or None."""
    found = sorted(glob.glob('/usr/src/linux-headers-*/include/net/codel_impl.h'))
    return os.path.dirname(os.path.dirname(found[-1])) if found else None


def linux_version():
    if headers() is None or shutil.which('cc') is None:
        return None
    return re.findall('linux-headers-([0-9.]+-[0-9]+)', headers())[0]


def ns3_version():
    if shutil.which('c++') is None or not os.path.exists('/usr/include/ns3/codel-queue-disc.h'):
        return None
    done = subprocess.run(['dpkg-query', '-W', '-f', '${Version}', 'libns3-dev'], capture_output=True, text=True, check=False)
    return done.stdout or 'of unknown version'


def build_linux(folder):
    """The harness of Linux's CoDel."""
    for stub in KERNEL_STUBS:
        os.makedirs(os.path.join(folder, os.path.dirname(stub)), exist_ok=True)
        with open(os.path.join(folder, stub), 'w', encoding='ascii'):
            pass
    for name in 'codel.h', 'codel_impl.h':
        shutil.copy(os.path.join(headers(), 'net', name), os.path.join(folder, 'net'))
    built = os.path.join(folder, 'codel_linux')
    subprocess.run(['cc', '-O1', '-w', '-I', folder, '-o', built, os.path.join(HERE, 'codel_linux.c')], check=True)
    return built


def build_ns3(folder):
    """The harness of ns-3's."""
    built = os.path.join(folder, 'codel_ns3')
    subprocess.run(['c++', '-O1', '-w', '-std=c++17', '-o', built, os.path.join(HERE, 'codel_ns3.cc'), '-lns3-traffic-control',
                    '-lns3-network', '-lns3-core'], check=True)
    return built


def drops_of(harness, target, offered, rate):
    """What a harness says that is dropped: (ns, count)."""
    given = f'{rate} {target} {INTERVAL} {MAXPACKET}\n' + ''.join(f'{time} {size}\n' for time, size in offered)
    done = subprocess.run([harness], input=given, capture_output=True, text=True, check=True)
    return [tuple(map(int, line.split())) for line in done.stdout.splitlines()]


# ---- the row

def beside(mine, theirs):
    """How a list of drops is beside ours: how many, how many are at the same nanosecond, the place of the first that is not,
    counted from 1, with its moment there and here."""
    ours, others = [time for time, _ in mine], [time for time, _ in theirs]
    at = next((n for n, (a, b) in enumerate(zip(ours, others)) if a != b), min(len(ours), len(others)))
    whole = ours == others
    return {'drops': len(others), 'same': len({*ours} & {*others}), 'same list': whole,
            'first other': None if whole else [at + 1, *([ours[at], others[at]] if at < min(len(ours), len(others)) else [])]}


def measure(program):
    """All runs, beside each queue that is there."""
    rows = []
    with tempfile.TemporaryDirectory() as folder:
        harnesses = {}
        if linux_version():
            harnesses['Linux'] = build_linux(folder)
        if ns3_version():
            harnesses['ns-3'] = build_ns3(folder)
        for rate, flows, end in RUNS:
            text = text_of(rate, flows, end)
            run = run_of(text, program)
            link = run.scenario.links[0]
            target = TARGET if rate != '2M' else 10 * MS
            numbers = target, INTERVAL, MAXPACKET
            ours = drops_at_link(OfModel(*numbers), run.offered, link.rate)
            ends = [drop for drop in ours if drop[0] < run.scenario.end]
            row = {'run': [rate, flows, end], 'offered': len(run.offered), 'drops': len(ours),
                   'trace': [time for time, _ in ends] == run.drops,
                   'RFC 8289': beside(ours, drops_at_link(Pseudocode(*numbers), run.offered, link.rate))}
            for name, harness in harnesses.items():
                row[name] = beside(ours, drops_of(harness, target, run.offered, link.rate))
            rows.append(row)
    return rows


def control_law(harness=None, count=60):
    """The moments of the drops of one drop state: packets of 1,500 bytes come twice as fast as the link of 10 Mbit/s sends."""
    rate = 10**7
    offered = [(n * 600_000, 1500) for n in range(40_000)]
    drops = drops_at_link(OfModel(TARGET, INTERVAL, MAXPACKET), offered, rate) if harness is None else (
        drops_at_link(Pseudocode(TARGET, INTERVAL, MAXPACKET), offered, rate) if harness == 'RFC 8289' else
        drops_of(harness, TARGET, offered, rate))
    return [time - drops[0][0] for time, _ in drops[:count]]


def measure_all(program):
    """The runs, and the drops of one drop state, which show the control law."""
    with tempfile.TemporaryDirectory() as folder:
        law = {'tcpsim': control_law(), 'RFC 8289': control_law('RFC 8289')}
        if linux_version():
            law['Linux'] = control_law(build_linux(folder))
        if ns3_version():
            law['ns-3'] = control_law(build_ns3(folder))
    return {'runs': measure(program), 'control law': law}


def keep(numbers, before, name):
    """Takes a queue that is not there over from numbers that were kept, where the runs are the same."""
    drops = {tuple(row['run']): row for row in before['runs']}
    for row in numbers['runs']:
        old = drops.get(tuple(row['run']), {})
        if old.get('drops') == row['drops'] and name in old:
            row[name] = old[name]
    if name in before['control law']:
        numbers['control law'][name] = before['control law'][name]
