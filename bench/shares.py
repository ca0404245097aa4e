#!/usr/bin/env python3
"""Times runs and their figures, and writes that section of bench/RESULTS.md:
bench/shares.py [--program PATH] [--priority P] [--runs N] [NAME ..]

`bench/measure.py` writes the section too. With names of scenarios (bench/scenarios.py) only these are timed, and the
table is printed and not written. A run writes its trace to /dev/null, and so do its figures their table. Both are
timed in turn, and the least of each counts. On a machine with other work a real-time priority keeps a core (as root).
"""
import subprocess

from results import ENVIRONMENT, at_priority, put_section, table, timed, within, words_of
from scenarios import SCENARIOS, path_of

HEAD = '## Figures beside runs\n'
NAMES = ('one_flow', 'one_flow_delayed_acks', 'under_way_10000', 'under_way_10000_delayed_acks', 'under_way_100000', 'dumbbell_droptail',
         'dumbbell_codel', 'tree', 'chain', 'few_islands', 'four_islands', 'busy_islands', 'busy_ring', 'largest')
# The most that figures are to take of the seconds of the same run with its trace.
SHARE = 0.9


def run(program, before, subcommand, path):
    with open(path, 'rb') as given:
        subprocess.run([*before, program, subcommand], stdin=given, stdout=subprocess.DEVNULL, env=ENVIRONMENT, check=True)


def rows(program, names, before, runs):
    for name in names:
        path = path_of(name, SCENARIOS[name]())
        took = [[timed(run, program, before, it, path) for it in ('run', 'figures')] for _ in range(runs)]
        whole, figures = map(min, zip(*took))
        yield (f'`{name}`', f'{whole:.3f}', f'{figures:.3f}', f'{figures / whole:.2f}', f'{SHARE}', within(figures, SHARE * whole))


def section(given):
    yield HEAD
    yield (f'Seconds of each scenario and of its figures, both to /dev/null, the least of {given.runs} runs in turn. '
           'They say only what the machine at hand did.\n')
    heads = 'Scenario', '`run`', '`figures`', 'Ratio', 'At most', 'Within'
    yield from table(heads, list(rows(given.program, given.names or NAMES, at_priority(given.priority), given.runs)))


def main(words=None):
    parser = words_of(__doc__)
    parser.add_argument('names', nargs='*', metavar='NAME', choices=[*NAMES, []])
    parser.add_argument('--priority', type=int)
    parser.add_argument('--runs', type=int, default=3)
    given = parser.parse_args(words)
    if given.names:
        print('\n'.join(section(given)))
    else:
        put_section(HEAD, section(given))


if __name__ == '__main__':
    main()
