"""The row `newreno`: one flow with an open window, with the window of 1.25 times what its path holds, and in ns-2."""
from tcpsim.scenario.net import Flow
from tcpsim.scenario.senders import bounded_window
from validation.dumbbells import Dumbbell, of_ns2, of_tcpsim

PATHS = ((10_000_000, 20, 24), (10_000_000, 40, 48), (10_000_000, 100, 120), (2_000_000, 100, 24), (50_000_000, 50, 300))


def one(rate, trip, places, newreno, window=None):
    return Dumbbell(f'{rate // 10**6} Mbit/s, {trip} ms, queue {places}', 1, rate, (trip,), places, newreno, window)


def window_of(rate, trip, places, mss=1000):
    """The window that tcpsim-net writes, segments."""
    return bounded_window(Flow('f0', 0, 1, mss, 1, 0, 0, 0), rate, trip * 10**6, places) // mss


def measure(program, ns2=True):
    """What is used of the link and the timeouts in a minute, of each path and sender. ns-2's part is that of its goodput."""
    rows = []
    for path in PATHS:
        row = {'name': one(*path, True).name, 'window': window_of(*path)}
        for name, newreno, window in (('Reno, open', False, None), ('NewReno, open', True, None), ('NewReno, bounded', True, row['window'])):
            found = of_tcpsim(one(*path, newreno, window), program)
            row[name] = [found['used'], found['timeouts']]
        if ns2:
            found = of_ns2(one(*path, True))
            row['ns-2 Newreno, open'] = [found['goodput'] * 1.04 / path[0], found['timeouts']]
        rows.append(row)
    return rows
