#!/usr/bin/env python3
"""Measures the built program and writes bench/RESULTS.md:
bench/measure.py [--jobs N] [--program PATH] [--priority P] [--alone] [--budget] [NAME ..]

Run by `make bench`. With names of scenarios (bench/scenarios.py) only what their events cost is counted
and printed, and with --budget the functions that their events' instructions go to. Instructions and bytes of heap are counted by valgrind, as are data references, misses of the nearest cache and mispredicted
branches, of the machine that it simulates: none depends on the machine's speed. Seconds do, and say only what the machine at hand did. On a machine with other work a real-time priority
keeps a core for the timed runs (as root). With --alone the sections of figures beside runs, of images, of events by themselves, of workers
and of ns-2 stay as they are; else they are made anew too.
"""
import argparse
import os
import re
import shutil
import subprocess
import sys
import tempfile
from collections import Counter, namedtuple
from concurrent.futures import ThreadPoolExecutor

import beside_ns2
import images
import shares
import steps
import workers
from results import (CALLGRIND, ENVIRONMENT, PROGRAM, RESULTS, TOP, at_priority, instructions, made, number, processor, resident, saved, table,
                     timed, words_of)
from scenarios import paths_of

FEW, MANY = 20_000, 200_000
# A link takes at most 64 losses: the 1,000th, 2,000th, .. 64,000th packet.
LOSSES = ''.join(f'lose a {1000 * k}\n' for k in range(1, 65))
FLOWS = (  # name, delayed acknowledgement in nanoseconds, losses
    ('no losses by name', 0, ''),
    ('each 1,000th packet lost', 0, LOSSES),
    ('the same, delayed ACKs', 200_000_000, LOSSES),
)
UNDER_WAY = (40, 400, 4_000)
# Segments of a run of 10^8 events, whose figures are to take `FIGURED` seconds at most.
LONGEST, FIGURED = 25_000_000, 10
# Each scenario, what it is, and the most instructions that one of its events is to cost.
BARS = (
    ('one_flow', 'one flow, 100 Mbit/s, 1 ms each way', 860),
    ('one_flow_delayed_acks', 'the same with delayed acknowledgements', 870),
    ('under_way_10000', '10,000 packets under way, 100 ms there and 50 ms back', 890),
    ('under_way_10000_delayed_acks', 'the same, acknowledgements delayed by 50 ms', 910),
    ('under_way_100000', '100,000 packets under way, 100 ms there and 50 ms back', 900),
    ('dumbbell_droptail', '14 flows, two routers, a drop-tail bottleneck', 810),
    ('dumbbell_codel', 'the same with CoDel', 810),
    ('tree', '100 flows through a tree of routers, one bottleneck', 850),
    ('chain', 'one flow through a chain of 16 routers', 730),
    ('few_islands', 'four parts of three flows each, of which one goes over to the next', 830),
    ('four_islands', 'four parts of twelve flows each, of which two go over to the next', 830),
)
# Large nets, whose figures are counted beside their runs without text: each scenario, and what it is.
LARGE = (
    ('busy_islands', '96 flows in four parts with a bottleneck each that is never idle, 432 links'),
    ('busy_ring', 'the same parts, and all flows of each go over to the next'),
    ('largest', '64 flows among 256 nodes and 1,024 links, each with 64 losses'),
)
ROWS = (*BARS, *((name, what, None) for name, what in LARGE))
# The most data references and mispredicted branches that an event of this scenario is to cost.
GUESSED, REFERENCES, MISPREDICTED = 'four_islands', 330, 6
# The sections of bench/RESULTS.md that other files of bench/ make, behind this one's.
OTHERS = re.compile(r'\n## (?!What ).*', re.S)
DHAT = ('valgrind', '--tool=dhat', '--dhat-out-file=/dev/null')
Case = namedtuple('Case', 'name segments path')
Run = namedtuple('Run', 'name segments events packets written resident seconds instructions heap')
Cost = namedtuple('Cost', 'name what events run bar figures bare')
# What is counted of an event of a run: by the names of callgrind's columns.
Count = namedtuple('Count', 'instructions references misses mispredicted')
COUNTED = (('Ir',), ('Dr', 'Dw'), ('D1mr', 'D1mw'), ('Bcm', 'Bim'))
COLUMNS = 'Ir Dr Dw I1mr D1mr D1mw ILmr DLmr DLmw Bc Bcm Bi Bim'.split()
# The caches that are simulated, and not those of the machine at hand.
SIMULATED = (*CALLGRIND, '--cache-sim=yes', '--branch-sim=yes', '--I1=32768,8,64', '--D1=49152,12,64',
             '--LL=8388608,16,64')
# How many functions of a scenario's budget are told.
TOLD = 16
# The functions that make a run's text.
TEXT = 'trace_text::'
# The most instructions that an event's figures are to cost above the same run without its text.
ABOVE = 45


def text(segments, delack=0, losses='', end=10**15, link='100000000 1000000 droptail 20', window=44):
    """One flow over a pair of links, its receiver's window in segments. As it stands the links have
    100 Mbit/s, 1 ms each way and 20 packets of queue, which the window can overflow."""
    return (f'sim {end}\nnode s sender\nnode r receiver\nlink a s r {link}\nlink b r s {link}\n'
            f'flow f s r 1460 {segments} 0 {1460 * window} {delack}\n{losses}')


def case(name, segments, scenario):
    return Case(name, segments, saved(f'{name} {segments}', scenario))


def run(path, before=(), subcommand='run'):
    """A whole run, its trace or its figures thrown away; what `before` (valgrind) wrote."""
    with open(path) as scenario:
        done = subprocess.run([*before, PROGRAM, subcommand], stdin=scenario, stdout=subprocess.DEVNULL,
                              stderr=subprocess.PIPE, text=True, env=ENVIRONMENT, check=False)
    if done.returncode != 0:
        sys.exit(f'{path}: status {done.returncode}: {done.stderr.strip()}')
    return done.stderr


def watch(path):
    """Events, packets sent, bytes written and resident memory of a run, its trace read as it comes.

    The program is never further ahead than a pipe is long, so the last look at its memory is at
    the end of its trace."""
    packets, written, memory, tail = 0, 0, 0, b''
    with open(path) as scenario:
        process = subprocess.Popen([PROGRAM, 'run'], stdin=scenario, stdout=subprocess.PIPE,
                                   env=ENVIRONMENT)
    while chunk := process.stdout.read1(1 << 16):
        memory = resident(process, memory)
        packets += (tail[-3:] + chunk).count(b' tx=')
        tail = (tail + chunk)[-40:]
        written += len(chunk)
    if process.wait() != 0:
        sys.exit(f'{path}: status {process.returncode}')
    return number(r'end (\d+)\n$', tail.decode()), packets, written, memory


def seconds(path, before, subcommand='run', runs=3):
    """The least of `runs` runs."""
    return min(timed(run, path, before, subcommand) for _ in range(runs))


def longest(before):
    """How many events a long run has, and the seconds of it and of its figures."""
    path = saved('longest', text(LONGEST))
    with open(path) as scenario:
        table = subprocess.run([PROGRAM, 'figures'], stdin=scenario, capture_output=True, text=True, env=ENVIRONMENT,
                               check=True).stdout
    return number(r'run,,events,events,(\d+)', table), *(seconds(path, before, it, 1) for it in ('run', 'figures'))


def counted(numbers):
    """What is counted of numbers that stand in callgrind's columns."""
    found = dict(zip(COLUMNS, map(int, numbers)))
    return Count(*(sum(found.get(it, 0) for it in kind) for kind in COUNTED))


def collected(said):
    """The same of what callgrind has said at its end."""
    return counted(re.search(r'Collected : (.*)', said)[1].split())


def by_function(path):
    """What each function of a whole run has been counted to do itself, by its name."""
    with tempfile.TemporaryDirectory() as work:
        out = os.path.join(work, 'functions')
        named = [it for it in SIMULATED if it not in CALLGRIND[2:]]
        run(path, [*named, f'--callgrind-out-file={out}', '--compress-strings=no', '--compress-pos=no'])
        found, name, is_call = Counter(), '', False
        with open(out) as lines:
            for line in lines:
                if line.startswith('fn='):
                    name = re.sub(r'::<#\w+>', '', line[3:].strip())
                elif line.startswith('calls='):
                    is_call = True
                elif line[:1].isdigit():
                    # Behind a call stands what it has cost, which is its function's own.
                    if not is_call:
                        for kind, many in zip(Count._fields, counted(line.split()[1:])):
                            found[name, kind] += many
                    is_call = False
        return found


def budget(name):
    """The functions that the events of a scenario go to, those with most instructions first."""
    paths = paths_of(name)
    few, many = (watch(it)[0] for it in paths)
    start, whole = map(by_function, paths)

    def an_event(function, kind):
        return (whole[function, kind] - start[function, kind]) / (many - few)

    functions = sorted({it for it, _ in whole}, key=lambda it: -an_event(it, 'instructions'))
    yield f'`{name}`, an event by function, {TOLD} of them:\n'
    yield from table(('Function', 'Instructions', 'Data references', 'Misses', 'Mispredicted branches'),
                     [(f'`{it}`', f'{an_event(it, "instructions"):,.0f}', f'{an_event(it, "references"):,.0f}',
                       *(f'{an_event(it, kind):,.1f}' for kind in ('misses', 'mispredicted')))
                      for it in functions[:TOLD]])


def without_text(path):
    """The instructions of a whole run, less those of the calls by which what is no part of the text calls what
    makes it, with all that these call. What is part of the calling loop itself stays."""
    with tempfile.TemporaryDirectory() as work:
        out = os.path.join(work, 'calls')
        named = [*CALLGRIND[:2], f'--callgrind-out-file={out}', '--compress-strings=no', '--compress-pos=no']
        whole, caller, callee, taken = instructions(run(path, named)), '', None, 0
        with open(out) as lines:
            for line in lines:
                if line.startswith('fn='):
                    caller = line[3:]
                elif line.startswith('cfn='):
                    callee = line[4:]
                elif callee and not line.startswith(('calls=', 'cob=', 'cfi=', 'cfl=')):
                    # Behind a call stands what it has cost.
                    if callee.startswith(TEXT) and not caller.startswith(TEXT):
                        taken += int(line.split()[1])
                    callee = None
    return whole - taken


def costs(names, jobs):
    """What an event of each scenario costs: the instructions of its run less those of a run that ends
    where its last flow starts, divided by the events that lie between both; and the same of its figures,
    and of its run without the text. Of a large net the run with its text is not counted."""
    bars = [bar for bar in ROWS if bar[0] in names]
    starts, wholes = zip(*(paths_of(name) for name, *_ in bars))
    paths = starts + wholes
    events = [watch(path)[0] for path in paths]
    with ThreadPoolExecutor(jobs) as pool:
        counts = [list(pool.map(lambda at: collected(run(paths[at], SIMULATED)) if bars[at % len(bars)][2] else None, range(len(paths)))),
                  list(pool.map(lambda path: (instructions(run(path, CALLGRIND, 'figures')),), paths)),
                  list(pool.map(lambda path: (without_text(path),), paths))]
    for at, (name, what, bar) in enumerate(bars):
        few, many = events[at::len(bars)]
        whole, figures, bare = ([(more - less) / (many - few) for less, more in zip(*kind[at::len(bars)])] if kind[at] else None
                                for kind in counts)
        yield Cost(name, what, many, Count(*whole) if whole else None, bar, *figures, *bare)


def within(count, bar):
    """Whether a count is at most a bar."""
    return 'yes' if count <= bar else f'no, by {count - bar:,.0f}'


def cost_table(rows):
    yield from table(('Scenario', 'Events', 'Instructions per event', 'At most', 'Within', 'Data references',
                      'Misses of the nearest cache', 'Mispredicted branches'),
                     [(f'`{r.name}`: {r.what}', f'{r.events:,}', f'{r.run.instructions:,.0f}', f'{r.bar:,}',
                       within(r.run.instructions, r.bar), f'{r.run.references:,.0f}', f'{r.run.misses:,.1f}',
                       f'{r.run.mispredicted:,.1f}') for r in rows if r.run])
    yield ('Data references, misses of the nearest cache (48 kB, of 12 ways) and mispredicted branches are those of an event. '
           f'Callgrind simulates the machine. `{GUESSED}` has a bound of {REFERENCES} data references and of {MISPREDICTED} '
           'mispredicted branches.\n')
    yield ('An event without its text: the calls that make text are subtracted, with the loop that makes these calls. '
           f'`figures` makes no text, and may take {ABOVE} instructions more.\n')
    yield from table(('Scenario', '`run` without text', '`figures`', 'At most', 'Within'),
                     [(f'`{r.name}`' if r.run else f'`{r.name}`: {r.what}', f'{r.bare:,.0f}', f'{r.figures:,.0f}', f'{r.bare + ABOVE:,.0f}',
                       within(r.figures, r.bare + ABOVE)) for r in rows])


def measured(cases, jobs, before):
    """Times the cases one after another, then counts, which may run side by side."""
    seen = [(*watch(c.path), seconds(c.path, before)) for c in cases]
    with ThreadPoolExecutor(jobs) as pool:
        counts = list(pool.map(lambda c: run(c.path, CALLGRIND), cases))
        heaps = list(pool.map(lambda c: run(c.path, DHAT), cases))
    return [Run(c.name, c.segments, *s, instructions(i), number(r't-gmax: ([\d,]+) bytes', h))
            for c, s, i, h in zip(cases, seen, counts, heaps)]


def told(*command):
    return subprocess.run(command, capture_output=True, text=True, check=True).stdout.strip()


def report(start, runs, crowded, networks, long):
    def an_event(r):
        return (r.instructions - start.instructions) / (r.events - start.events)

    yield '# What a run costs\n'
    yield (f'{made()}. Made by `make bench` with `{told("rt", "version")}` and `{told("valgrind", "--version")}`. '
           '[DEBUGGER.md](DEBUGGER.md) has the cost of the debugger, [PORT.md](PORT.md) that of one link.\n')
    yield ('In the first tables one flow sends segments of 1,460 bytes over 100 Mbit/s, 1 ms each way. It goes through a '
           'drop-tail queue of 20 packets and overflows it now and then. The program writes the whole trace, to /dev/null. '
           'A link takes at most 64 losses by name, so the last is that of its packet 64,000.\n')
    yield '## What does not depend on the machine\'s speed\n'
    yield from table(
        ('Flow', 'Segments', 'Events', 'Packets sent', 'Instructions', 'Instructions per event', 'Heap, bytes'),
        [('start: one event', '1', '1', '1', f'{start.instructions:,}', '', f'{start.heap:,}')]
        + [(r.name, f'{r.segments:,}', f'{r.events:,}', f'{r.packets:,}', f'{r.instructions:,}',
            f'{an_event(r):,.1f}', f'{r.heap:,}') for r in runs])
    yield ('Instructions are those of the whole run (callgrind); those of an event are without the start\'s. '
           'Heap is the most that was held at once (DHAT).\n')
    yield f'From {FEW:,} to {MANY:,} segments:\n'
    pairs = [[next(r for r in runs if (r.name, r.segments) == (name, n)) for n in (FEW, MANY)]
             for name, _, _ in FLOWS]
    yield from table(
        ('Flow', 'Events', 'Instructions per event', 'Bytes of trace per event', 'Heap'),
        [(a.name, f'× {b.events / a.events:.2f}', f'× {an_event(b) / an_event(a):.3f}',
          f'{a.written / a.events:.1f} to {b.written / b.events:.1f}', f'{b.heap - a.heap:+,} bytes')
         for a, b in pairs])
    yield (f'With more packets under way at once: {FEW:,} segments over 10 Gbit/s, 100 ms each way. The window has as many '
           'segments as are under way, and none is lost:\n')
    yield from table(('Packets under way', 'Events', 'Instructions per event', 'Heap, bytes'),
                     [(f'{w:,}', f'{r.events:,}', f'{an_event(r):,.1f}', f'{r.heap:,}')
                      for w, r in zip(UNDER_WAY, crowded)])
    yield ('Instructions of an event in scenarios of each kind (bench/scenarios.py), and the bound. They include the text of '
           'the trace. A run of the same scenario that ends when its last flow starts is subtracted.\n')
    yield from cost_table(networks)
    yield '## What this machine took, for information\n'
    yield f'{processor()}; seconds are the least of three runs; resident memory has the C library in it.\n'
    yield from table(
        ('Flow', 'Segments', 'Seconds', 'Packets sent per second', 'Events per second', 'Resident memory (VmHWM), bytes'),
        [(r.name, f'{r.segments:,}', f'{r.seconds:.3f}', f'{r.packets / r.seconds:,.0f}',
          f'{r.events / r.seconds:,.0f}', f'{r.resident:,}') for r in runs])
    events, whole, figures = long
    yield f'A flow of {LONGEST:,} segments, {events:,} events, once:\n'
    yield from table(('', 'Seconds', 'At most', 'Within'),
                     [('`run`', f'{whole:.2f}', '', ''),
                      ('`figures`', f'{figures:.2f}', f'{FIGURED}', within(figures, FIGURED))])


def build():
    print('building the program: dev/build.py', flush=True)
    subprocess.run([sys.executable, os.path.join(TOP, 'dev', 'build.py')], check=True)


def scenario_name(word):
    if word not in (name for name, *_ in ROWS):
        raise argparse.ArgumentTypeError(f'no scenario {word}')
    return word


def given_words():
    words = words_of('Measures the built program and writes bench/RESULTS.md.')
    words.add_argument('names', nargs='*', metavar='NAME', type=scenario_name,
                       help='count these scenarios only, and write nothing: ' + ', '.join(name for name, *_ in ROWS))
    words.add_argument('--jobs', type=int, default=os.cpu_count(), help='counts that run side by side')
    words.add_argument('--priority', type=int, help='the real-time priority of the timed runs, 1 to 99')
    words.add_argument('--budget', action='store_true', help='print the functions that the events of these scenarios go to, and write nothing')
    words.add_argument('--alone', action='store_true', help='leave the sections of figures beside runs, images, events by themselves, workers and ns-2 as they are')
    return words.parse_args()


def main():
    global PROGRAM
    given = given_words()
    if given.program != PROGRAM and not os.path.isfile(given.program):
        sys.exit(f'there is no program {given.program}')
    PROGRAM = given.program
    if not shutil.which('valgrind', path=ENVIRONMENT['PATH']):
        sys.exit('valgrind is not installed')
    if not os.path.exists(PROGRAM):
        build()
    if given.budget:
        for name in given.names or [name for name, *_ in BARS]:
            print('\n'.join(budget(name)))
        return
    if given.names:
        print('\n'.join(cost_table(list(costs(given.names, given.jobs)))))
        return
    before = at_priority(given.priority)
    start, *runs = measured(
        [case('start', 1, text(1, end=1))]
        + [case(name, n, text(n, delack, losses)) for name, delack, losses in FLOWS for n in (FEW, MANY)]
        + [case(f'{w} under way', FEW, text(FEW, link='10000000000 100000000 droptail 65535', window=w))
           for w in UNDER_WAY], given.jobs, before)
    crowded = runs[-len(UNDER_WAY):]
    networks = list(costs([name for name, *_ in ROWS], given.jobs))
    results = '\n'.join(report(start, runs[:-len(UNDER_WAY)], crowded, networks, longest(before))).rstrip('\n') + '\n'
    with open(RESULTS) as file:
        made_by_others = OTHERS.search(file.read())
    with open(RESULTS, 'w') as file:
        file.write(results + (made_by_others[0] if made_by_others else ''))
    print(results)
    if given.alone:
        return
    shares.main([f'--program={PROGRAM}'])
    images.main([f'--program={PROGRAM}'])
    steps.main([f'--jobs={given.jobs}'])
    workers.main([f'--program={PROGRAM}'])
    if beside_ns2.installed():
        beside_ns2.main([f'--program={PROGRAM}'])


if __name__ == '__main__':
    main()
