"""Dumbbells of several flows in tcpsim and in ns-2, for the rows `phases` and `aggregates`."""
import os
import subprocess

from tcpsim.cli.net import scenario
from tcpsim.engine import WAITED, EngineRun
from tcpsim.fairness import jain
from tcpsim.scenario.text import Scenario
from tcpsim.scenario.units import spelled_time

HERE = os.path.dirname(os.path.abspath(__file__))
MS, S = 10**6, 10**9
BUSY = 'busy', 'ns'


class Dumbbell:
    """Flows over a bottleneck: rate bit/s, round trips and starts ms by turns, capacity packets, end s; `window` segments,
    None for an open one."""

    def __init__(self, name, flows, rate, trips, capacity, newreno=False, window=None, mss=1000, end=60, apart=100):
        self.name, self.flows, self.rate, self.trips, self.capacity = name, flows, rate, trips, capacity
        self.newreno, self.window, self.mss, self.end, self.apart = newreno, window, mss, end, apart

    def words(self):
        """The words of tcpsim-net, without its name."""
        words = ['dumbbell', '--flows', str(self.flows), '--rate', str(self.rate), '--rtt',
                 ','.join(f'{trip}ms' for trip in self.trips), '--queue', f'droptail:{self.capacity}', '--mss', str(self.mss),
                 '--delack', '0', '--start', ','.join(spelled_time(n * self.apart * MS) for n in range(self.flows)), '--end',
                 f'{self.end}s', '--rwnd', str(2**30 if self.window is None else self.window * self.mss)]
        return words + ['--variant', 'newreno'] * self.newreno

    def ns2_words(self, overhead, seed):
        """The command of ns-2."""
        least = min(self.trips)
        words = ['ns', os.path.join(HERE, 'dumbbell.tcl'), 'Newreno' if self.newreno else 'Reno', self.rate, least / 4000,
                 least / 8000, self.capacity, self.mss, self.end, overhead, seed]
        for n in range(self.flows):
            words += [self.trips[n % len(self.trips)] / 1000, n * self.apart / 1000, self.window or 2**30 // self.mss]
        return [str(word) for word in words]


def of_tcpsim(dumbbell, program, more=()):
    """The figures of a run of tcpsim; Jain's index and goodput are of the dumbbell's flows, without mice."""
    text = scenario([*dumbbell.words(), *more])
    done = subprocess.run([program, 'figures'], input=text.encode('ascii'), capture_output=True, check=True)
    run = EngineRun(Scenario(text), done.stdout.decode('ascii'))
    flows, link = run.flows[:dumbbell.flows], run.links[0]
    shares = [run.goodput(number) or 0 for number in range(dumbbell.flows)]
    dropped = run.dropped(0)
    return {'goodput': sum(flow['delivered', 'bytes'] for flow in flows) * 8 / dumbbell.end,
            'loss': dropped / link['offered', 'packets'], 'timeouts': sum(flow['timeouts', 'times'] for flow in flows),
            'jain': jain(shares), 'queue': link[WAITED] / (dumbbell.end * S), 'used': link[BUSY] / (dumbbell.end * S)}


def of_ns2(dumbbell, overhead=0, seed=1):
    """The figures of a run of ns-2, the same."""
    done = subprocess.run(dumbbell.ns2_words(overhead, seed), capture_output=True, text=True, check=True)
    lines = [line.split() for line in done.stdout.splitlines()]
    flows = [(int(words[1]), int(words[2])) for words in lines if words[0] == 'flow']
    drops, arrivals, queue = next(map(float, words[1:]) for words in lines if words[0] == 'link')
    starts = [n * dumbbell.apart / 1000 for n in range(dumbbell.flows)]
    return {'goodput': sum(size for size, _ in flows) * 8 / dumbbell.end, 'loss': drops / arrivals,
            'timeouts': sum(count for _, count in flows),
            'jain': jain([size / (dumbbell.end - start) for (size, _), start in zip(flows, starts)]), 'queue': queue}
