"""The row `phases`: how drop-tail locks flows out, in tcpsim, in ns-2 with and without its random overhead_, and in tcpsim with
--spread and --mice.
"""
from validation.dumbbells import Dumbbell, of_ns2, of_tcpsim

SEEDS = 1, 2, 3
# ns-2's overhead_ is at most the time that the bottleneck takes for a packet, as Floyd and Jacobson advise.
DUMBBELLS = [Dumbbell(f'{flows} flows, {"/".join(map(str, trips))} ms, queue {queue}', flows, 8_000_000, trips, queue)
             for flows, trips, queue in ((2, (40,), 20), (4, (40,), 25), (4, (40, 80), 25), (8, (40,), 25), (8, (100,), 50),
                                         (8, (40, 80), 25), (12, (40,), 25))]
WAYS = {'--spread': lambda seed: ['--spread', str(seed)], '--mice 10': lambda _: ['--mice', '10'],
        '--mice 20': lambda _: ['--mice', '20'], '--spread --mice 20': lambda seed: ['--spread', str(seed), '--mice', '20']}


def mean(values):
    return sum(values) / len(values)


def measure(program, ns2=True):
    """Jain's index of each dumbbell, in each way; the mean of three numbers where one is drawn."""
    rows = []
    for each in DUMBBELLS:
        overhead = (each.mss + 40) * 8 / each.rate
        row = {'name': each.name, 'tcpsim': of_tcpsim(each, program)['jain']}
        if ns2:
            row['ns-2'] = of_ns2(each)['jain']
            row['ns-2 with overhead_'] = mean([of_ns2(each, overhead, seed)['jain'] for seed in SEEDS])
        for way, words in WAYS.items():
            row[way] = mean([of_tcpsim(each, program, words(seed))['jain'] for seed in (SEEDS if 'spread' in way else (0,))])
        rows.append(row)
    return rows
