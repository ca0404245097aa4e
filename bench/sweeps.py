#!/usr/bin/env python3
"""Measures what a run of a sweep costs beside the program's own work, and writes that section of bench/RESULTS.md:

    bench/sweeps.py [--rounds N] [OTHER_CLONE]

All are seconds of processors (getrusage), of the tool, its workers and the program together. In each round the program alone and the
sweep take turns, with as many side by side; what counts is the median of the rounds' ratios, as other work on the machine slows both.
Of another clone, as one of an earlier commit, it only prints them.
"""
import argparse
import os
import resource
import statistics
import subprocess
import sys
import tempfile

from results import PROGRAM, TOP, made, put_section, table

NET = ('dumbbell', '--flows', '4', '--rate', '10M', '--rtt', '40ms', '--queue', 'droptail:20')
SIZES = ('4s', 1_000), ('8s', 500), ('40s', 100)        # simulated, some 5, 10 and 50 ms of a processor; and how many runs
WORKERS = 1, 4
HEAD = '## Sweeps'
# Starts the program so often on a file, with nothing read, and prints what it took.
ALONE = '''import os, resource, sys
program, path, count = sys.argv[1], sys.argv[2], int(sys.argv[3])
null = os.open(os.devnull, os.O_WRONLY)
for _ in range(count):
    given = os.open(path, os.O_RDONLY)
    os.waitpid(os.posix_spawn(program, [program, "figures"], os.environ, file_actions=[
        (os.POSIX_SPAWN_DUP2, given, 0), (os.POSIX_SPAWN_DUP2, null, 1)]), 0)
    os.close(given)
used = resource.getrusage(resource.RUSAGE_CHILDREN)
print(used.ru_utime + used.ru_stime)'''


def alone(path, count, workers):
    """Seconds of processors of `count` runs by the program alone, in `workers` processes side by side."""
    words = [sys.executable, '-S', '-c', ALONE, PROGRAM, path, str(count // workers)]
    processes = [subprocess.Popen(words, stdout=subprocess.PIPE) for _ in range(workers)]
    return sum(float(process.communicate()[0]) for process in processes)


def swept(clone, path, count, workers, environment):
    """Those of a sweep of `count` runs."""
    def used():
        found = resource.getrusage(resource.RUSAGE_CHILDREN)
        return found.ru_utime + found.ru_stime
    before = used()
    subprocess.run([sys.executable, os.path.join(clone, 'bin', 'tcpsim-sweep'), path, '--set', f'f1.start=0..{10 * (count - 1)}us/10us',
                    '-j', str(workers), '--program', PROGRAM], stdout=subprocess.DEVNULL, stderr=subprocess.DEVNULL, check=True, env=environment)
    return used() - before


def measured(clone, path, count, workers, rounds, environment):
    """A run's ms of the program alone and of a sweep, each the least of the rounds, and the median of the rounds' ratios."""
    found = []
    for _ in range(rounds):
        before, whole, after = alone(path, count, workers), swept(clone, path, count, workers, environment), alone(path, count, workers)
        found.append((1e3 * (before + after) / 2 / count, 1e3 * whole / count))
    return (*map(min, zip(*found)), statistics.median(whole / own for own, whole in found))


def main():
    words = argparse.ArgumentParser(description='Measures what a run of a sweep costs.')
    words.add_argument('--rounds', type=int, default=5)
    words.add_argument('clone', nargs='?', default=TOP)
    given, rows, loads = words.parse_args(), [], []
    clone = os.path.abspath(given.clone)
    with tempfile.TemporaryDirectory() as folder:
        # Whoever runs a tool twice has its modules compiled.
        environment = {**{key: value for key, value in os.environ.items() if key != 'PYTHONDONTWRITEBYTECODE'}, 'PYTHONPYCACHEPREFIX': folder}
        for end, count in SIZES:
            path = os.path.join(folder, f'{end}.txt')
            with open(path, 'wb') as file:
                file.write(subprocess.run([os.path.join(TOP, 'bin', 'tcpsim-net'), *NET, '--end', end], stdout=subprocess.PIPE, check=True).stdout)
            swept(clone, path, 8, 1, environment)
            for workers in WORKERS:
                loads.append(os.getloadavg()[0])
                own, whole, ratio = measured(clone, path, count, workers, given.rounds, environment)
                rows.append((f'{end} of 10 Mbit/s, {workers} at once', f'{count:,}', f'{own:.2f}', f'{whole:.2f}', f'{ratio:.2f}'))
                loads.append(os.getloadavg()[0])
                print(*rows[-1], sep=', ', flush=True)
    if clone == TOP:
        put_section(HEAD, [HEAD, '', f'{made()}. Written by `bench/sweeps.py`: runs of four flows by one `tcpsim-sweep`, in ms of processors a run, '
                           f'each the least of {given.rounds} rounds. The program alone is started as often with the same scenario, as many side '
                           'by side, with nothing read.', '',
                           f'The ratio is the median of those of the rounds. The machine had a load of {min(loads):.0f} to {max(loads):.0f}.', '',
                           *table(('A run', 'runs', 'the program alone', 'the sweep', 'ratio'), rows)])


if __name__ == '__main__':
    main()
