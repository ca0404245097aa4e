#!/usr/bin/env python3
"""Measures the first flow of measure.py here and with ns-2, and writes that section of bench/RESULTS.md:
bench/beside_ns2.py [--program PATH] [--rounds N]

`bench/measure.py` writes the section too, where ns-2 is installed (apt-get install ns2).
"""
import os
import shutil
import subprocess
import sys

from results import BENCH, CALLGRIND, ENVIRONMENT, instructions, processor, put_section, table, timed, words_of
from scenarios import one_flow, path_of

HEAD = '## Beside ns-2\n'
CORE = '0'
FEW, MANY = 20_000, 200_000


def installed():
    return shutil.which('ns', path=ENVIRONMENT['PATH']) is not None


def simulators(program):
    """Each simulator's name, and the command and the input for a number of segments."""
    def ours(segments):
        return (program, 'run'), path_of(f'one flow {segments}', one_flow(segments))

    def theirs(*words):
        return lambda segments: (('ns', os.path.join(BENCH, 'ns2.tcl'), str(segments), *words), os.devnull)

    return ('tcpsim, with its trace', ours), ('ns-2 without a trace', theirs()), ('ns-2 with its trace', theirs('trace'))


def ran(command, given, before=()):
    with open(given) as text:
        return subprocess.run([*before, *command], stdin=text, stdout=subprocess.DEVNULL, stderr=subprocess.PIPE,
                              text=True, env=ENVIRONMENT, check=True).stderr


def seconds(kinds, rounds):
    """The least seconds of each, one after another in each round."""
    least = [float('inf')] * len(kinds)
    for _ in range(rounds):
        for at, kind in enumerate(kinds):
            least[at] = min(least[at], timed(ran, *kind, ('taskset', '-c', CORE)))
    return least


def section(program, rounds):
    version = subprocess.run(['ns', os.path.join(BENCH, 'ns2.tcl'), '1'], capture_output=True, text=True, check=True).stdout.strip()
    known = simulators(program)
    starts, few, many = ([make(segments) for _, make in known] for segments in (1, FEW, MANY))
    counts = [instructions(ran(*whole, CALLGRIND)) - instructions(ran(*start, CALLGRIND)) for start, whole in zip(starts, few)]
    took = seconds(starts + many, rounds)
    yield HEAD
    yield (f'`{version}` runs bench/ns2.tcl, the first flow above, with no headers but those that are used here. The cost of a run of '
           'one segment is subtracted. Of the two, tcpsim writes a line for each event; ns-2 writes three lines for each packet and link. '
           'Both write to /dev/null. Their rules differ too, so this only gives the order of both.\n'
           f'Instructions are those of {FEW:,} segments, seconds those of {MANY:,}. Both ran in turn on one core of {processor()}, and '
           f'the least of {rounds} rounds counts.\n')
    yield from table(('Simulator', 'Instructions per segment', 'Seconds', 'Segments per second'),
                     [(name, f'{count / FEW:,.0f}', f'{whole - start:.3f}', f'{MANY / (whole - start):,.0f}')
                      for (name, _), count, start, whole in zip(known, counts, took, took[len(known):])])


def main(words=None):
    parser = words_of(__doc__)
    parser.add_argument('--rounds', type=int, default=9)
    given = parser.parse_args(words)
    if not installed():
        sys.exit('ns-2 is not installed')
    put_section(HEAD, section(given.program, given.rounds))


if __name__ == '__main__':
    main()
