#!/usr/bin/env python3
"""Measures runs by workers and groups and writes that section of bench/RESULTS.md:
bench/workers.py [--program PATH] [--rounds N] [--priority P] [--found]

`bench/measure.py` writes the section too. Instructions are counted by valgrind, where no thread is started, and do
not depend on the machine's speed. Seconds are whole runs, their trace thrown away but in one table, each kind of run in
turn in each round, so that what else the machine does disturbs them alike; the least of all rounds counts.
On a machine with other work a real-time priority keeps the cores for them (as root). With strace the texts
are counted that two workers write, and the threads that four start. It wants valgrind, strace, taskset
and GNU time. With --found only the table of the groups that `--groups auto` finds is made, and printed, with
--drawn only that of groups drawn at random.
"""
import contextlib
import os
import random
import subprocess
import tempfile
from collections import namedtuple

from results import CALLGRIND, ENVIRONMENT, at_priority, instructions, number, processor, put_section, table, timed, words_of
from scenarios import SCENARIOS, chain, four_groups, one_flow, path_of, started, tree

HEAD = '## Workers and groups\n'
SPED_UP = 'busy_islands', 'busy_ring', 'islands', 'ring'
# With a group for each node their windows hold some tens of events at most.
SMALL = 'one_flow', 'access_line', 'dumbbell_codel', 'tree', 'chain', 'long_chain', 'islands', 'ring'
# Those of them, and those of wide windows, that are measured beside busy loops too.
LOADED, LOADED_WIDE = ('one_flow', 'access_line', 'tree', 'long_chain'), ('busy_islands', 'ring')
LOOPS = 4
# In one group a second thread makes their text.
ONE_GROUP = 'one_flow', 'dumbbell_droptail', 'dumbbell_codel', 'tree', 'chain', 'under_way_100000'
# Too short to be timed: what its events cost is counted.
UNTIMED = 'four_islands',
# A run of fewer events is over before its time says anything.
LONG = 100_000
# A run of fewer events is timed `OFTEN` times as often, since what else the machine does disturbs a short one more.
SHORT, OFTEN = 3_000_000, 4
CREWS = 1, 2, 4, 64
# Shorter than in the table of events, since valgrind is slow.
COUNTED = {'tree': lambda: tree(100, 200), 'chain': lambda: chain(16, 4_000)}
EACH = 1.6                              # at most this times the instructions of a run without options
TEXT_MOST, TEXT_LOADED = 0.78, 1.1      # two workers of one group to a run without options, and so beside busy loops
LEAST, MOST = 3, 40                     # a run without options to four workers, wide windows; megabytes of memory
ALONE_MOST = 1.15                       # one worker to a run without options, wide windows
SMALL_MOST, USED_MOST = 1.5, 2          # small windows to a run without options: seconds, and those of all processors
LOADED_MOST = 3                         # the seconds to those of a run without options beside busy loops
FOUND_LEAST, FOUND_MOST = 0.9, 1.15     # a run without options to groups that are found; these to groups by hand
# How many groups the nodes are drawn into, a draw for each.
DRAWN = 2, 3, 4, 6, 12, 32
# Where files take no disk.
IN_MEMORY = '/dev/shm'
BY_HAND = {'rate_jump': lambda _: '0,1,0,1,0,1', **{name: four_groups for name in SPED_UP}}
CORES = os.cpu_count()
FOUR = min(CORES, 4)
EACH_CORE = 'each'                      # in the place of the cores of a run: one run on each of these
Counted = namedtuple('Counted', 'name a_text plain each')


def ran(program, path, words=(), before=(), trace=subprocess.DEVNULL):
    with open(path) as scenario:
        return subprocess.run([*before, program, 'run', *words], stdin=scenario, stdout=trace,
                              stderr=subprocess.PIPE, text=True, env=ENVIRONMENT, check=True).stderr


def cost(program, name, words):
    """Instructions of a run less those of one that ends where its last flow starts."""
    whole, start = (instructions(ran(program, path, words, CALLGRIND))
                    for path in (path_of(name + ' short', COUNTED[name]()), path_of(name + ' started', started(COUNTED[name]()))))
    return whole - start


def counted(program):
    for name, scenario in COUNTED.items():
        many = texts(program, path_of(name + ' short', scenario()), ('--groups', 'each'))
        events = events_of(program, path_of(name + ' short', scenario()))
        plain, grouped = (cost(program, name, words) for words in ((), ('--workers', '2', '--groups', 'each')))
        yield Counted(name, events / many, plain, grouped)


def events_of(program, path):
    done = subprocess.run(f'{program} run < {path} | tail -n 1', shell=True, capture_output=True, text=True, check=True)
    return number(r'end (\d+)\n$', done.stdout)


def texts(program, path, groups):
    """How many texts a run by two workers writes, where it starts no thread: one of each window, and one of some thousand
    events that are run one after another."""
    return ran(program, path, ('--workers', '2', *groups), ('strace', '-qq', '-e', 'trace=write')).count('write(')


def threads(program, path, groups):
    """How many threads four workers start in a run: three at most, which stay, since the calling thread is one of the four."""
    return ran(program, path, ('--workers', '4', *groups), ('strace', '-f', '-qq', '-e', 'trace=clone3')).count('clone3(')


def seconds(kinds, rounds, before, out=os.devnull):
    """The least seconds of each kind of run, a program with its words and cores over a scenario."""
    least = [float('inf')] * len(kinds)
    for _ in range(rounds):
        for at, (program, path, words, cores) in enumerate(kinds):
            with open(out, 'wb') as trace:
                took = (timed(at_once, program, path, words, before) if cores is EACH_CORE else
                        timed(ran, program, path, words, (*before, 'taskset', '-c', cores), trace))
                least[at] = min(least[at], took)
    return least


def at_once(program, path, words, before):
    """As many runs at once as four workers have cores, one on each."""
    with contextlib.ExitStack() as files:
        running = [subprocess.Popen([*before, 'taskset', '-c', str(core), program, 'run', *words],
                                    stdin=files.enter_context(open(path)), stdout=subprocess.DEVNULL, env=ENVIRONMENT)
                   for core in range(FOUR)]
        assert not any([it.wait() for it in running])


def sped_up(program, rounds, before):
    for name in SPED_UP:
        scenario = SCENARIOS[name]()
        path, groups = path_of(name, scenario), ('--groups', four_groups(scenario))
        kinds = [(program, path, (), '0'), (program, path, (), EACH_CORE)]
        kinds += [(program, path, ('--workers', str(n), *groups), f'0-{n - 1}') for n in (1, 2, 4)]
        yield name, events_of(program, path), threads(program, path, groups), seconds(kinds, rounds, before)


def kept(program, rounds, before):
    """Seconds of runs whose trace goes into a file of the system's memory."""
    for name in SPED_UP:
        scenario = SCENARIOS[name]()
        path, groups = path_of(name, scenario), ('--groups', four_groups(scenario))
        kinds = [(program, path, (), '0'), (program, path, ('--workers', '4', *groups), f'0-{FOUR - 1}')]
        with tempfile.NamedTemporaryFile(dir=IN_MEMORY) as trace:
            took = seconds(kinds, rounds, before, trace.name)
            yield name, os.path.getsize(trace.name), took


def beside_text(program, rounds, before):
    """Seconds of runs of one group, without options and by two workers: the trace thrown away, in a file of the system's
    memory, and thrown away beside busy loops, of no priority."""
    for name in ONE_GROUP:
        path = path_of(name, SCENARIOS[name]())
        events = events_of(program, path)
        kinds = [(program, path, words, f'0-{FOUR - 1}') for words in ((), ('--workers', '2'))]
        with tempfile.NamedTemporaryFile(dir=IN_MEMORY) as trace:
            took = seconds(kinds, times(events, rounds), before), seconds(kinds, times(events, rounds), before, trace.name)
        with busy_loops():
            yield name, events, *took, seconds(kinds, rounds, ())


def processor_seconds(program, path, words, rounds):
    """The least seconds of all processors of a run."""
    return min(sum(map(float, ran(program, path, words, ('/usr/bin/time', '-f', '%U %S')).split())) for _ in range(rounds))


def small(program, rounds, before):
    """Seconds of runs with a group for each node, by crew, and the processor seconds of the largest crew to those of a
    run without options."""
    for name in SMALL:
        path = path_of(name, SCENARIOS[name]())
        cores = f'0-{FOUR - 1}'
        kinds = [(program, path, (), '0')] + [(program, path, ('--workers', str(n), '--groups', 'each'), cores) for n in CREWS]
        used, plain = (processor_seconds(program, path, words, rounds)
                       for words in (('--workers', str(CREWS[-1]), '--groups', 'each'), ()))
        events = events_of(program, path)
        yield (name, events, texts(program, path, ('--groups', 'each')), threads(program, path, ('--groups', 'each')),
               seconds(kinds, times(events, rounds), before), used / max(plain, 0.01))


@contextlib.contextmanager
def busy_loops():
    """Busy loops, as many as four workers have cores."""
    loops = [subprocess.Popen(['sh', '-c', 'while :; do :; done']) for _ in range(LOOPS)]
    try:
        yield
    finally:
        for loop in loops:
            loop.kill()


def loaded(program, rounds):
    """Seconds beside busy loops, of no priority: of `run`, and of four workers."""
    with busy_loops():
        for name in LOADED + LOADED_WIDE:
            scenario = SCENARIOS[name]()
            path, groups = path_of(name, scenario), four_groups(scenario) if name in LOADED_WIDE else 'each'
            kinds = [(program, path, words, f'0-{CORES - 1}') for words in ((), ('--workers', '4', '--groups', groups))]
            yield name, 'each' if groups == 'each' else 'four', seconds(kinds, rounds, ())


def said(rows, kind):
    """How many of the rows hold what is asked of them."""
    hold = sum(rows)
    return f'{hold} of {len(rows)} {kind}.\n'


Found = namedtuple('Found', 'name events threads plain auto by_hand')


def found(program, rounds, before):
    """Runs of each scenario by four workers, in the groups that the program finds for them and in those by hand."""
    for name in (it for it in SCENARIOS if it not in UNTIMED):
        scenario = SCENARIOS[name]()
        path, crew, auto = path_of(name, scenario), ('--workers', '4'), ('--groups', 'auto')
        kinds = [(program, path, (), '0-3'), (program, path, (*crew, *auto), '0-3')]
        if name in BY_HAND:
            kinds.append((program, path, (*crew, '--groups', BY_HAND[name](scenario)), '0-3'))
        events = events_of(program, path)
        took = seconds(kinds, times(events, rounds), before)
        yield Found(name, events, threads(program, path, auto), *took[:2], took[2] if len(took) > 2 else None)


def text_table(rows, rounds):
    yield (f'Seconds of one group by two workers: a second thread makes the text. {rounds_said(rounds)} The trace is thrown away, '
           f'or goes into a file of the system\'s memory ({IN_MEMORY}). The last three columns are beside {LOOPS} busy loops on the '
           f'same cores. The bound is {TEXT_MOST} times the seconds of `run`, beside the loops {TEXT_LOADED} times.\n')
    yield from table(('Scenario', 'Events', *(it for where in ('', ', in memory', ', beside loops') for it in
                                              (f'`run`{where}', f'2 workers{where}', f'to `run`{where}'))),
                     [(f'`{name}`', f'{events:,}', *(it for took in kinds for it in
                                                     (f'{took[0]:.3f}', f'{took[1]:.3f}', f'{took[1] / took[0]:.2f}')))
                      for name, events, *kinds in rows])
    yield said([max(it[1] / it[0] for it in kinds[:2]) <= TEXT_MOST and kinds[2][1] <= TEXT_LOADED * kinds[2][0]
                for _, _, *kinds in rows], 'hold all')


def found_table(rows):
    yield (f'Seconds with the groups that `--groups auto` finds for four workers, of `run` without options, and '
           f'of four workers with groups by hand. The bound of `run` is at least {FOUND_LEAST} times the seconds of found groups. '
           f'That of found groups is at most {FOUND_MOST} times those of groups by hand or of `run`, whichever is less. In one '
           'group a second thread makes the text.\n')
    yield from table(('Scenario', 'Events', 'Threads', '`run`', 'found', 'by hand', '`run` to found', 'found to the best', 'Within'),
                     [(f'`{r.name}`', f'{r.events:,}', f'{r.threads:,}',
                       f'{r.plain:.3f}', f'{r.auto:.3f}', f'{r.by_hand:.3f}' if r.by_hand else '-', f'{r.plain / r.auto:.2f}',
                       f'{r.auto / min(r.plain, r.by_hand or r.plain):.2f}',
                       'yes' if r.plain / r.auto >= FOUND_LEAST and r.auto / min(r.plain, r.by_hand or r.plain) <= FOUND_MOST
                       else 'no') for r in rows])


def drawn_groups(scenario, count):
    """The group of each node, drawn anew from `count` groups; the same each time that it is called."""
    draw = random.Random(count)
    return ','.join(str(draw.randrange(count)) for _ in scenario.nodes)


def few(rounds):
    """The rounds of a long table."""
    return -(-rounds // 3)


def times(events, rounds):
    """How often a run of `events` events is timed."""
    return rounds * (OFTEN if events < SHORT else 1)


def rounds_said(rounds):
    """The same in words."""
    return f'The least of {rounds} rounds counts, of {OFTEN * rounds} if a run has fewer than {SHORT:,} events.'


Drawn = namedtuple('Drawn', 'name events plain took')


def drawn(program, rounds, before):
    """Seconds of four workers with a group for each node, and with groups drawn at random. Each round goes over all
    scenarios, since what else the machine does may last longer than all rounds of one."""
    kinds, events = {}, {}
    for name in (it for it in SCENARIOS if it not in UNTIMED):
        scenario = SCENARIOS[name]()
        path, cores = path_of(name, scenario), f'0-{FOUR - 1}'
        events[name] = events_of(program, path)
        if events[name] >= LONG:
            kinds[name] = [(program, path, (), cores)] + [
                (program, path, ('--workers', '4', '--groups', groups), cores)
                for groups in ('each', *(drawn_groups(scenario, count) for count in DRAWN))]
    least = {name: [float('inf')] * len(kinds[name]) for name in kinds}
    for _ in range(rounds):
        for name in kinds:
            least[name] = [*map(min, least[name], seconds(kinds[name], times(events[name], 1), before))]
    for name, (plain, *took) in least.items():
        yield Drawn(name, events[name], plain, took)


def drawn_table(rows, rounds):
    rows = list(rows)
    yield (f'Seconds of four workers with a group for each node, and with groups drawn at random. {rounds_said(rounds)} In '
           f'drawn groups packets go from group to group at nearly every link. The bound is {SMALL_MOST} times the seconds of '
           '`run` without options.\n')
    yield from table(('Scenario', 'Events', '`run`', '`each`', *(f'of {count}' for count in DRAWN), 'most to `run`', 'Within'),
                     [(f'`{r.name}`', f'{r.events:,}', f'{r.plain:.3f}', *(f'{it:.3f}' for it in r.took),
                       f'{max(r.took) / r.plain:.2f}', 'yes' if max(r.took) <= SMALL_MOST * r.plain else 'no') for r in rows])
    yield said([max(r.took) <= SMALL_MOST * r.plain for r in rows], 'hold it')


def most_megabytes(program, path, words, rounds):
    return max(number(r'(\d+) kB', ran(program, path, words, ('/usr/bin/time', '-f', '%M kB'))) / 1024 for _ in range(rounds))


def memory(program, rounds):
    """The most resident memory of `rounds` runs, by scenario and words, and of as many beside busy loops."""
    long = path_of('ten million events', one_flow(2_500_000))
    jump, burst = (path_of(name, SCENARIOS[name]()) for name in ('rate_jump', 'under_way_100000'))
    cases = [('one flow, ten million events', long, ()), ('`rate_jump`', jump, ()),
             ('`rate_jump`', jump, ('--workers', '4', '--groups', '0,1,0,1,0,1')),
             ('`under_way_100000`', burst, ('--workers', '4', '--groups', 'each'))]
    for name in SPED_UP:
        scenario = SCENARIOS[name]()
        path, groups = path_of(name, scenario), four_groups(scenario)
        cases += [(f'`{name}`', path, ()), (f'`{name}`', path, ('--workers', '4', '--groups', groups))]
    for name, path, words in cases:
        alone = most_megabytes(program, path, words, rounds)
        with busy_loops():
            beside = most_megabytes(program, path, words, rounds)
        yield name, words, alone, beside


def shown(words):
    """The options of a run; a long list of groups by its first ones."""
    return '`run' + ''.join(' ' + (word if len(word) < 12 else word[:8] + '..') for word in words) + '`'


def section(program, rounds, before):
    yield HEAD
    yield ('Instructions of a run by two workers with small windows, and of `run` without options, each without those of its '
           'start. The calling thread runs a few windows, and nearly all events one after another. The bound is '
           f'{EACH} times those of `run`. With one worker the program runs one event at a time.\n')
    yield from table(('Scenario', '`run`', '`--workers 2 --groups each`', 'times', 'events per text'),
                     [(f'`{c.name}`', f'{c.plain:,}', f'{c.each:,}', f'{c.each / c.plain:.2f}', f'{c.a_text:,.0f}')
                      for c in counted(program)])
    yield from text_table(list(beside_text(program, rounds, before)), rounds)
    yield (f'Seconds of whole runs on {processor()}, {os.cpu_count()} cores, pinned to as many cores as workers'
           + (', with real-time priority' if before else '') + f'. {rounds_said(rounds)} The four '
           'groups are the four parts of each scenario (bench/scenarios.py), joined by links of 10 ms and more.\n'
           f'By their bounds four workers are at least {LEAST} times as fast as `run`, and one worker takes at most '
           f'{ALONE_MOST} times as long. For "cores give" {FOUR} runs go at once, a core each. The column has how many times the '
           'work of one `run` they do in the same time. Programs that share nothing gain no more.\n')
    wide = list(sped_up(program, rounds, before))
    yield from table(('Scenario', 'Events', 'Threads of 4 workers', '`run`', f'{FOUR} at once', '1 worker', '2 workers', '4 workers',
                      'four to one', '`run` to four', 'cores give', 'one to `run`'),
                     [(f'`{name}`', f'{events:,}', f'{many:,}', *(f'{s:.3f}' for s in took),
                       f'{took[2] / took[4]:.2f}', f'{took[0] / took[4]:.2f}', f'{FOUR * took[0] / took[1]:.2f}',
                       f'{took[2] / took[0]:.2f}') for name, events, many, took in wide])
    yield said([took[0] / took[4] >= LEAST for _, _, _, took in wide], 'have four workers within their bound')
    yield said([took[2] / took[0] <= ALONE_MOST for _, _, _, took in wide], 'have one worker within its bound')
    yield (f'Seconds of the same runs with the trace in a file of the system\'s memory ({IN_MEMORY}). The calling thread '
           'writes it while the others run.\n')
    yield from table(('Scenario', 'MB of trace', '`run`', '4 workers', '`run` to four'),
                     [(f'`{name}`', f'{size / 1e6:,.0f}', *(f'{s:.3f}' for s in took), f'{took[0] / took[1]:.2f}')
                      for name, size, took in kept(program, rounds, before)])
    yield ('The same with a group for each node and no trace kept, so that windows are small. The calling thread runs the first of '
           'them, and then events one after another, with a few windows now and then. The bound for any number of workers is '
           f'{SMALL_MOST} times the seconds of `run`, and {USED_MOST} times its processor time.\n')
    narrow = list(small(program, rounds, before))
    yield from table(('Scenario', 'Events', 'Events per text', 'Threads of 4 workers', '`run`', *(f'{n} worker{"s" * (n > 1)}' for n in CREWS),
                      'most to `run`', f'processor time of {CREWS[-1]} to that of `run`'),
                     [(f'`{name}`', f'{events:,}', f'{events / many:,.0f}', f'{started_:,}', *(f'{s:.3f}' for s in took),
                       f'{max(took[1:]) / took[0]:.2f}', f'{used:.2f}')
                      for name, events, many, started_, took, used in narrow])
    yield said([max(took[1:]) <= SMALL_MOST * took[0] and used <= USED_MOST for *_, took, used in narrow], 'hold both')
    yield (f'Seconds with {LOOPS} busy loops on the same cores, on all cores and with no priority, the least of {rounds} rounds. The '
           f'bound of four workers is {LOADED_MOST} times the seconds of `run` there.\n')
    under = list(loaded(program, rounds))
    yield from table(('Scenario', 'Groups', '`run`', '4 workers', 'to `run`'),
                     [(f'`{name}`', groups, *(f'{s:.3f}' for s in took), f'{took[1] / took[0]:.2f}') for name, groups, took in under])
    yield said([took[1] <= LOADED_MOST * took[0] for *_, took in under], 'hold it')
    yield from found_table(found(program, rounds, before))
    yield from drawn_table(drawn(program, few(rounds), before), few(rounds))
    yield (f'The most resident memory of {rounds} runs (GNU time), and of as many with {LOOPS} busy loops on the same cores. With these '
           f'a thread begins late and another makes its text. The bound is {MOST} MB.\n')
    taken = list(memory(program, rounds))
    yield from table(('Scenario', 'Run', 'MB', 'with loops'),
                     [(name, shown(words), *(f'{most:.1f}' for most in both)) for name, words, *both in taken])
    yield said([max(both) <= MOST for _, _, *both in taken], 'hold it')


def main(words=None):
    parser = words_of(__doc__)
    parser.add_argument('--rounds', type=int, default=9)
    parser.add_argument('--priority', type=int, help='the real-time priority of the timed runs, 1 to 99')
    parser.add_argument('--found', action='store_true', help='print the table of groups that are found alone')
    parser.add_argument('--drawn', action='store_true', help='print the table of groups drawn at random alone')
    given = parser.parse_args(words)
    before = at_priority(given.priority)
    if given.found:
        print('\n'.join(found_table(found(given.program, given.rounds, before))))
        return
    if given.drawn:
        print('\n'.join(drawn_table(drawn(given.program, given.rounds, before), given.rounds)))
        return
    put_section(HEAD, section(given.program, given.rounds, before))


if __name__ == '__main__':
    main()
