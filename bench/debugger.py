#!/usr/bin/env python3
"""Measures the debugger at its prompt and writes bench/DEBUGGER.md:
bench/debugger.py [--program PATH] [--rounds N] [--priority P] [--print]

Commands are typed into pipes, one by one; an answer has come once the next prompt is there. What is timed is
done in turn in each round, so that what else the machine does disturbs it alike; the least of all rounds counts,
and of many commands in a row the mean and the longest of the best round. On a machine with other work a real-time
priority keeps the cores for them (as root). With --print nothing is written. A command that the program does not
have yet is left out of its table. Instructions are counted where valgrind is installed. It wants python3 alone else.
"""
import os
import re
import shutil
import subprocess
import sys
import time
from collections import namedtuple

from results import BENCH, CALLGRIND, ENVIRONMENT, PROGRAM, at_priority, instructions, made, number, resident, table, within, words_of
from scenarios import EVER, GBIT, MBIT, MS, MSS, RECEIVER, ROUTER, SCENARIOS, SENDER, US, Net, droptail, four_groups, islands, path_of, two_ends, under_way
from tcpsim.prompt import Prompt

PAGE = os.path.join(BENCH, 'DEBUGGER.md')
PLACE, STRETCH = 900_000, 100_000   # the line to which `reverse` goes, and how many events behind it it is typed
ANSWER, BACK, DUMP = 0.050, 0.5, 0.020   # seconds: an answer, `reverse`, a dump
STALL = 1.15                    # times the time of a breakpoint on timeouts
STEP = 1.3                      # times the instructions of `run`
VALUE = 1.3                     # times the instructions of a breakpoint on timeouts
SAVED = 64 * 2**20              # bytes of checkpoints
Timed = namedtuple('Timed', 'mean longest')


class Session(Prompt):
    """A session at a prompt, into which lines are typed."""

    def __init__(self, path, *options, before=()):
        with open(path, 'rb') as scenario:
            super().__init__([*before, PROGRAM, 'debug', *options], scenario.read())
        self.ready()

    def __enter__(self):
        return self

    def __exit__(self, *_):
        self.end()

    def timed(self, line):
        """The answer to a line, and the seconds until the next prompt. It may not be refused."""
        begin = time.perf_counter()
        answer = self.ask(line)
        took = time.perf_counter() - begin
        assert not answer.note, f'{line}: {answer.note}'
        return answer.text, took

    def type(self, line):
        return self.timed(line)[0]

    def knows(self, line):
        """Whether a line is one of the program's; it is answered then."""
        return not self.ask(line).note


def position(answer):
    return number(r'^at (\d+) of the run', re.sub(r'(?s).*\n(?=at )', '', answer))


def two_flows(start):
    """A long flow through two routers, and one of a segment, which starts at a moment."""
    net = Net()
    near, far = net.node(ROUTER), net.node(ROUTER)
    net.cable(near, far, 50 * MBIT, 5 * MS, droptail(200))
    for segments, at in ((100_000, 0), (1, start)):
        cable = 100 * MBIT, MS, droptail(1000)
        net.ends(near, far, cable, cable, MSS, segments, at, 500 * MSS)
    return net.scenario(EVER)


def crowd(flows, segments):
    """Many flows through a tree of routers, whose windows the bottleneck's queue takes: nothing is lost."""
    net = Net()
    tops = [net.node(ROUTER), net.node(ROUTER)]
    net.cable(*tops, 50 * MBIT, 5 * MS, droptail(1000))
    leaves = [[net.node(ROUTER) for _ in range(7)] for _ in tops]
    for top, below in zip(tops, leaves):
        for leaf in below:
            net.cable(leaf, top, GBIT, 100 * US, droptail(1000))
    for n in range(flows):
        cable = GBIT, (100 + 37 * n) * US, droptail(1000)
        net.ends(leaves[0][n % 7], leaves[1][n % 7], cable, cable, MSS, segments, n * MS, 9 * MSS)
    return net.scenario(EVER)


def no_losses(segments):
    link = 100 * MBIT, MS, droptail(65_535)
    return two_ends(segments, link, link, 44)


def late_flow():
    """The islands, the last of whose flows starts late, and their groups."""
    scenario = islands(12, 2, 20_000)
    scenario.flows[47].start = 400 * MS
    return path_of('debugger islands', scenario), four_groups(scenario)


def place(before):
    """The scenario in which a flow starts near the wanted place of the run."""
    with Session(path_of('debugger place', two_flows(EVER - 1)), before=before) as session:
        moment = number(r'time (\d+) ns', session.type(f'step {PLACE}').splitlines()[-1])
    return path_of('debugger place', two_flows(moment))


def many(session, line, count):
    """The mean and the longest of a line's answers, typed `count` times in a row."""
    took = [session.timed(line)[1] for _ in range(count)]
    return Timed(sum(took) / count, max(took))


def answers(path, rounds, before):
    """Where the flow starts and where the commands are typed, their times, and that of `reverse`."""
    kinds = ('step', 100), ('back', 1000), ('step', 100), ('why 0', 100), ('state flow 0', 100)
    found, back = {}, []
    with Session(path, before=before) as session:
        session.type('break kind start')
        session.type('run')
        first = position(session.type('run'))
        for _ in range(rounds):
            session.type(f'step {STRETCH}')
            for line, count in kinds:
                found.setdefault(line, []).append(many(session, line, count))
            here = position(session.type('step 0'))
            session.type(f'step {first + STRETCH - here}' if here < first + STRETCH else f'back {here - first - STRETCH}')
            answer, took = session.timed('reverse')
            assert position(answer) == first, answer
            back.append(took)
        memory = resident(session.process)
    return first, {line: min(times) for line, times in found.items()}, min(back), memory


def until(path, breakpoint_, start, before):
    """The answer to `run` from a position until a breakpoint, and the seconds; nothing where the program has no such
    breakpoint."""
    with Session(path, before=before) as session:
        session.type(f'step {start}')
        return session.timed('run') if session.knows(f'break {breakpoint_}') else None


def stalls(rounds, before):
    """Of each scenario its name, its events, and the least seconds of a run to its end with either breakpoint."""
    for name, scenario, start in (
            ('one flow, nothing lost', no_losses(250_000), 0), ('98 flows over one bottleneck, nothing lost', crowd(98, 500), 0),
            ("a flow that its receiver's window binds, acknowledgements delayed", under_way(64, 100_000, 40 * MS), 0),
            ('from the middle of a run with 20,000 packets under way', under_way(20_000, 60_000), 50_000)):
        path, least, events = path_of(f'debugger {name}', scenario), {}, 0
        for _ in range(rounds):
            for kind in 'kind rto', 'stall':
                if done := until(path, kind, start, before):
                    assert done[0].endswith(', the end\n'), done[0][-200:]
                    events, least[kind] = position(done[0]) - start, min(done[1], least.get(kind, done[1]))
        yield name, events, least.get('kind rto'), least.get('stall')


def grouped(rounds, before):
    """Of each way to share out: the position at the breakpoint, the least seconds until it, the times of `back`."""
    path, groups = late_flow()
    crews = {'without options': (), **{f'{n} worker{"s" if n > 1 else ""}, 4 groups': ('--workers', str(n), '--groups', groups) for n in (1, 4)}}
    found = {crew: [] for crew in crews}
    for _ in range(rounds):
        for crew, options in crews.items():
            with Session(path, *options, before=before) as session:
                session.type('break flow 47')
                answer, took = session.timed('run')
                found[crew].append((position(answer), took, many(session, 'back', 100)))
    return {crew: (times[0][0], min(it[1] for it in times), min(it[2] for it in times)) for crew, times in found.items()}


def dump(rounds, before):
    """Seconds of a dump of the largest scenario in the midst of its run, and its bytes."""
    with Session(path_of('largest', SCENARIOS['largest']()), before=before) as session:
        session.type('step 100000')
        found = [session.timed('state') for _ in range(10 * rounds)]
    return min(took for _, took in found), len(found[0][0])


def crowded(before):
    """Bytes that are resident after a run with 100,000 packets under way, with the debugger's checkpoints and without."""
    path = path_of('under_way_100000', SCENARIOS['under_way_100000']())
    with Session(path, before=before) as session:
        session.type('run')
        kept = resident(session.process)
    process = subprocess.Popen([PROGRAM, 'run', path], stdout=subprocess.PIPE, env=ENVIRONMENT)
    plain = 0
    while process.stdout.read1(1 << 16):
        plain = resident(process, plain)
    process.wait()
    return kept, plain


def one_flow():
    """A flow of 26,000 segments, none of them lost."""
    link = 8 * MBIT, MS, droptail(100)
    return path_of('debugger counted', two_ends(26_000, link, link, 44))


def cost(words, lines, path):
    """The instructions of the program, into which lines are typed."""
    done = subprocess.run([*CALLGRIND, PROGRAM, *words, path], input=lines, capture_output=True, env=ENVIRONMENT, check=True)
    return instructions(done.stderr.decode())


def has_valgrind():
    return bool(shutil.which('valgrind', path=ENVIRONMENT['PATH']))


def counted():
    """Instructions per event of `step` and of `run`, over 100,000 events of one flow; nothing without valgrind."""
    if not has_valgrind():
        return None
    path = one_flow()
    step = (cost(('debug',), b'step 100000\n', path) - cost(('debug',), b'step 0\n', path)) / 100_000
    done = subprocess.run([PROGRAM, 'run', path], capture_output=True, env=ENVIRONMENT, check=True)
    events = number(r'end (\d+)\n$', done.stdout[-40:].decode())
    return step, cost(('run',), b'', path) / events


def values(path, conditions):
    """Of each breakpoint that matches nowhere the instructions of `run` to the end, and of `reverse` from there to the beginning;
    nothing without valgrind."""
    for condition in conditions if has_valgrind() else ():
        line = f'break {condition}\n'.encode()
        there, back = (cost(('debug',), lines, path) for lines in (line + b'run\n', line + b'run\nreverse\n'))
        yield condition, there, back - there


def last_nodes(segments):
    """A flow of `segments` segments between the last two of 256 nodes. The others are routers in a row, which pass nothing on."""
    net, link = Net(), (8 * MBIT, MS, droptail(100))
    row = [net.node(ROUTER) for _ in range(254)]
    for a, b in zip(row, row[1:]):
        net.cable(a, b, *link)
    sender, receiver = net.node(SENDER), net.node(RECEIVER)
    net.link(sender, receiver, *link)
    net.link(receiver, sender, *link)
    net.flow(sender, receiver, MSS, segments, 0, 44 * MSS)
    return net.scenario(EVER)


def value_table(found):
    """A row for each breakpoint, over the first of them."""
    (first, *least), *_ = found
    rows = []
    for condition, *costs in found:
        times = max(it / of for it, of in zip(costs, least))
        rows.append((f'`break {condition}`', *(f'{it / 10**6:,.0f}' for it in costs), f'{times:.2f}', f'{VALUE}', within(times, VALUE)))
    return table(('Breakpoint', '`run`', '`reverse`', f'Times `break {first}`', 'At most', 'Within'), rows)


def shown(seconds):
    return f'{seconds * 1000:.2f} ms' if seconds < 0.1 else f'{seconds:.2f} s'


def page(args, before):
    yield '# What the debugger costs\n'
    yield (f'{made()}. Made by `python3 bench/debugger.py`, which types commands at a prompt, one by one, into pipes. A time is from '
           'a line to the next prompt, so it is the program\'s and the pipes\'. '
           f'The least of {args.rounds} rounds counts, and of commands in a row the mean and the longest of the best round.\n')
    yield '## At a prompt\n'
    first, times, back, memory = answers(place(before), args.rounds, before)
    yield (f'A flow of 100,000 segments goes through two routers, with 12 events each. A second one starts at position {first:,}, to '
           f'which `reverse` goes back by `break kind start`. The script types the commands {STRETCH:,} events behind it.\n')
    names = {'step': '`step`, 100 in a row', 'back': '`back`, 1,000 in a row', 'why 0': '`why 0`', 'state flow 0': '`state flow 0`'}
    yield from table(('What', 'Mean', 'Longest', 'At most', 'Within'),
                     [(names[line], shown(it.mean), shown(it.longest), shown(ANSWER), within(it.longest, ANSWER)) for line, it in times.items()]
                     + [(f'`reverse` over {STRETCH:,} events', shown(back), '', shown(BACK), within(back, BACK))])
    yield f'Resident memory after all of that: {memory / 10**6:.1f} MB.\n'
    taken, size = dump(args.rounds, before)
    kept, plain = crowded(before)
    rows = [(f'`state` of the largest scenario: 256 nodes, 1,024 links, 64 flows, {size // 1000} KB of text', shown(taken), shown(DUMP), within(taken, DUMP)),
            ('resident after `run` with 100,000 packets under way', f'{kept / 10**6:.0f} MB',
             f'{(plain + SAVED) / 10**6:.0f} MB: {plain / 10**6:.0f} of `tcpsim run`, {SAVED / 10**6:.0f} of checkpoints', within(kept, plain + SAVED))]
    if costs := counted():
        most = STEP * costs[1]
        rows.append(('`step 100000`, instructions per event', f'{costs[0]:,.0f}', f'{most:,.0f}: {STEP} times those of `run`', within(costs[0], most)))
    yield from table(('What', 'Measured', 'At most', 'Within'), rows)
    yield '## A breakpoint on stalls\n'
    yield 'Seconds to the end, as neither breakpoint matches: `break kind rto` and `run`, and `break stall` and `run`.\n'
    rows = []
    for name, events, rto, stall in stalls(args.rounds, before):
        last = (shown(stall), f'{stall / rto:.2f}', f'{STALL}', within(stall / rto, STALL)) if stall else ('no such breakpoint', '', f'{STALL}', '')
        rows.append((f'{name}: {events:,} events', shown(rto), *last))
    yield from table(('Run', '`break kind rto`', '`break stall`', 'Times', 'At most', 'Within'), rows)
    if found := list(values(one_flow(), ('kind rto', 'cwnd<1', 'rto>999s', 'phase fr', 'time>=999999s', 'queue 0>60000', 'wait 0>999s',
                                         'change ssthresh 0'))):
        yield '## A breakpoint on a value\n'
        yield 'Millions of instructions of `run` to the end of a flow of 26,000 segments, and of `reverse` from there. No breakpoint matches.\n'
        yield from value_table(found)
        yield ('The same in `islands` of bench/scenarios.py, with 104 nodes, 208 links, and 48 flows of 2,000 segments. '
               'Link 0 is one of the first nodes, and link 207 is the last.\n')
        yield from value_table(list(values(path_of('value islands', islands(12, 2, 2_000)), (
            'kind start node 1', 'rto>999s', 'queue 0>60000', 'queue 207>60000', 'wait 207>999s', 'change ssthresh 40'))))
        yield ('The same of a flow of 26,000 segments between the last two of 256 nodes, over links 506 and 507. '
               'No other node has events.\n')
        yield from value_table(list(values(path_of('value last nodes', last_nodes(26_000)), (
            'kind rto', 'queue 506>60000', 'wait 507>999s', 'change ssthresh 0'))))
    yield '## With groups and workers\n'
    crews = grouped(args.rounds, before)
    at = next(iter(crews.values()))[0]
    assert all(it[0] == at for it in crews.values())
    alone = crews['without options'][1]
    yield (f'The scenario `islands` of bench/scenarios.py, its last flow starting at 400 ms: `break flow 47` and `run` go to position {at:,}. '
           'The answers are the same bytes.\n')
    yield from table(('What', *crews, 'At most', 'Within'),
                     [('`run` to the breakpoint', *(shown(it[1]) for it in crews.values()), f'by four workers {shown(alone)}',
                       within(crews['4 workers, 4 groups'][1], alone)),
                      ('`back` there, 100 in a row, mean', *(shown(it[2].mean) for it in crews.values()), shown(ANSWER),
                       within(max(it[2].mean for it in crews.values()), ANSWER))])


def main():
    global PROGRAM
    words = words_of('Measures the debugger at its prompt and writes bench/DEBUGGER.md.')
    words.add_argument('--rounds', type=int, default=5)
    words.add_argument('--priority', type=int, help='the real-time priority of the timed sessions, 1 to 99')
    words.add_argument('--print', action='store_true', help='write no page')
    args = words.parse_args()
    PROGRAM = args.program
    if not os.path.exists(PROGRAM):
        sys.exit(f"{PROGRAM} is not there: build it with 'make run'")
    made = '\n'.join(page(args, at_priority(args.priority))).rstrip('\n') + '\n'
    if not args.print:
        with open(PAGE, 'w') as file:
            file.write(made)
    print(made, end='')


if __name__ == '__main__':
    main()
