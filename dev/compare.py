#!/usr/bin/env python3
"""Compares the built program with the model of python/tcpsim_model on many inputs: status, output, note.

Usage: dev/compare.py [--kind texts,runs,images,debug,prompt,auto,figures,refused] [--seed S] [--count N] [--jobs J]
                          [--program PATH] [--options] [--systematic | --random] [--shrink SECONDS]

  texts    mutated and systematic texts, most of them refused     (tcpsim run)
  runs     random scenarios: one flow, dumbbells, chains, trees   (tcpsim run)
  images   images whole, cut, changed                             (tcpsim run, dis, asm)
  debug    random commands on random scenarios                    (tcpsim debug)
  prompt   random lines typed at a prompt over random scenarios   (tcpsim debug FILE)
  auto     the examples and random scenarios by 1, 2, 4 and 64 workers, many of which are worth sharing
                                                                  (tcpsim run --groups auto)
  figures  the examples and random scenarios as texts and as images of both versions, now and then with a fault. The
           model keeps each number of which a percentile is asked for: its answer is the top of the exact one's class.
           Two of three random ones are counted from a moment on, near an event's, at the end, or none at all; as many
           have rows by time, up to some 200 steps, and now and then a step that is refused
                                             (tcpsim figures --from T --every D --series --names)
  refused  mutated and systematic texts, texts of people who have not read the form, and images; and groups that do not
           fit, each with why it is refused                       (tcpsim asm --explain, tcpsim run --explain)

--options gives random --groups and --workers besides.

What differs is printed, the smallest case first, each made smaller by leaving out what isn't needed.
The status is 1 where anything differs.

Hypothesis neither draws cases here nor shrinks them. To draw one of `runs` took it 137 ms of a processor, where this takes
2.4 ms. Its `find` over what of a case stays had 17 to 32 times the processor's time of `fewer_things`, left one of three
planted differences at its 312 lines, and was no shorter.
"""
import argparse
import dataclasses
import functools
import glob
import itertools
import multiprocessing
import os
import random
import subprocess
import sys
import threading
import time

from clone import TOP
from tcpsim_model import command_line, debugger, figures, grammar, image, nets, sessions, simulate, spelling, unread
from tcpsim_model.scenario import Refused
from tcpsim_model.smaller import smaller
from tcpsim_model.text import assemble, disassemble, lines_of

SHOWN = 12              # differences that are printed
SHRINKING = 20          # seconds for making a case smaller, where none are given
LONGEST = 60            # seconds that the program may take
MOST_BYTES = 2_000_000  # of an output, that are compared; the program is then stopped
MOST_SHRUNK = 100_000   # the same while a case is made smaller
PROGRAM = os.path.join(TOP, 'crates', 'tcpsim', 'out', 'tcpsim')
CREWS = ('1', '2', '4', '64')
# A case of a prompt has scenario and lines in one, with this between them; the word stands for the scenario's file.
TYPED, FILE = b'\n--- typed\n', 'FILE'


class Enough(Exception):
    """As much was written as is compared."""


def in_memory(data=b''):
    """A file with these bytes that is nowhere on a disk."""
    file = open(os.memfd_create('input'), 'wb+')
    file.write(data)
    file.seek(0)
    return file


def parts_of(words, data):
    """A scenario's file, or nothing where the words name none, and standard input."""
    if FILE not in words:
        return b'', data
    scenario, _, keys = data.partition(TYPED)
    return scenario, keys


def program_answers(path, words, data, most):
    """Status, output and note; a longer output is cut off at `most` bytes, its status then `long`."""
    scenario, keys = parts_of(words, data)
    with in_memory(scenario) as file, in_memory(keys) as given, in_memory() as told:
        words = [f'/dev/fd/{file.fileno()}' if word == FILE else word for word in words]
        process = subprocess.Popen([path, *words], stdin=given, stdout=subprocess.PIPE, stderr=told,
                                   pass_fds=[file.fileno()], env={'PATH': '/usr/bin:/bin', 'LC_ALL': 'C'})
        silence = threading.Timer(LONGEST, process.kill)
        silence.start()
        assert process.stdout
        out = process.stdout.read(most)
        if len(out) == most:
            process.kill()
        process.communicate()
        silence.cancel()
        if len(out) == most:
            return 'long', out, ''
        told.seek(0)
        return process.returncode, out, told.read().decode(errors='replace').rstrip('\n')


def model_answers(words, data, most):
    """Status, output and note. How many workers there are, where that many are allowed, changes none."""
    if words[-2:-1] == ('--workers',) and words[-1] in CREWS:
        words = words[:-2]
    return model_answers_kept(words, data, most)


@functools.lru_cache(maxsize=1)     # of cases that differ by their workers, which stand side by side
def model_answers_kept(words, data, most):
    written, left = [], most

    def write(piece):
        nonlocal left
        written.append(piece)
        left -= len(piece)
        if left <= 0:
            raise Enough
    scenario, keys = parts_of(words, data)
    told: list[bytes] = []
    try:
        status, note = command_line.main(words, keys, write, told.append, lambda _: scenario)
    except Enough:
        return 'long', b''.join(written)[:most], ''
    return status, b''.join(written), (b''.join(told).decode(errors='replace') + note).rstrip('\n')


def agree(one, other):
    """Notes of status 2 are the command line reader's own text, but for those of words that are judged behind the input."""
    if one[0] == other[0] == 2 and not {note.partition('\n')[0] for _, _, note in (one, other)} & set(command_line.BEHIND_INPUT):
        return one[1] == other[1]
    return one == other


def compared(job, most=MOST_BYTES):
    """(case, the program's answer, the model's), the answers None where they agree."""
    path, (words, data) = job
    real = program_answers(path, words, data, most)
    model = model_answers(words, data, most)
    return ((words, data), None, None) if agree(real, model) else ((words, data), real, model)


def differs(job):
    found = compared(job, MOST_SHRUNK)
    return found if found[1] is not None else None


def shrunk(job, seconds=SHRINKING):
    """The case made as small as it goes in a while so that it stays different."""
    path, (words, data) = job
    best = differs(job)
    if best is None:            # the difference comes late in a long output
        return compared(job)
    stop = time.monotonic() + seconds
    if words[0] in ('run', 'figures') and best[2][0] in (0, 'long'):
        return fewer_things(job, best, stop)
    return best if data.startswith(b'TCB') or len(data) > 100_000 else fewer_lines(job, best, stop)


def fewer_things(job, best, stop):
    """Leaves out flows, losses, segments and more of an accepted scenario."""
    path, (words, data) = job
    kept = words if words[0] == 'figures' else words[:1]        # groups are one for each node
    scenario, goes_on = (image.load if data.startswith(b'TCB') else assemble)(data), True
    while goes_on and time.monotonic() < stop:
        goes_on = False
        for less in smaller(scenario):
            found = differs((path, (kept, disassemble(less))))
            if found:
                best, scenario = found, less
                break
            if time.monotonic() > stop:
                break
    return best


def fewer_lines(job, best, stop):
    path, (words, _) = job
    size = 64
    while size:
        lines, at = lines_of(best[0][1]), 0
        while at < len(lines) and time.monotonic() < stop:
            fewer = lines[:at] + lines[at + size:]
            found = differs((path, (words, spelling.joined(fewer))))
            best, lines, at = (found, fewer, at) if found else (best, lines, at + size)
        size //= 2
    return best


# The inputs.

def systematic_texts():
    for text in (spelling.SMALL, spelling.FULL):
        yield text
        yield from spelling.around_lines(text)
        yield from spelling.around_words(text)
        yield from spelling.around_bytes(text)
        yield from spelling.two_faults_in_a_line(text)
        yield from spelling.again_with_a_fault(text)
    yield from spelling.counts_at_limits()
    yield from spelling.great()


def short_scenario(pick):
    """One that runs a short time, for texts and sessions."""
    return (nets.one_flow(pick, ('droptail', 'codel'), pick.choice((20, 20, 60)))
            if pick.random() < 0.4 else nets.many_flows(pick, most_segments=10))


def random_texts(pick, count):
    two = max(count // 4, 1)
    for text in (spelling.SMALL, spelling.FULL):
        yield from spelling.two_faults_in_two_lines(text, pick, two)
    for _ in range(count):
        yield spelling.mutated(spelling.spelt(short_scenario(pick), pick), pick)
        yield spelling.spelt(nets.broken(nets.many_flows(pick, most_segments=5), pick), pick)


def texts(pick, args):
    if args.systematic:
        yield from ((('run',), text) for text in systematic_texts())
    if args.random:
        yield from ((('run',), text) for text in random_texts(pick, args.count))


def refused(pick, args):
    """Texts and images most of which are refused, and why."""
    for text in systematic_texts() if args.systematic else ():
        yield ('asm', '--explain'), text
    if args.random:
        for words, data in itertools.chain(texts(pick, args), images(pick, args)):
            yield ('dis' if 'dis' in words else 'asm', '--explain'), data
        for _ in range(args.count):
            scenario = short_scenario(pick)
            for _ in range(3):
                yield ('asm', '--explain'), unread.unread(spelling.spelt(scenario, pick), pick)
            groups = ','.join('0' * pick.randint(1, 2 * len(scenario.nodes)))
            yield ('run', '--explain', '--groups', pick.choice((groups, 'On', ',', '0,64'))), spelling.spelt(scenario, pick)


def long_scenario(pick):
    many = pick.choice((5, 50, 50, 300, 2000))
    if pick.random() < 0.2:
        return nets.slow_queue(pick)
    if pick.random() < 0.3:
        return nets.one_flow(pick, ('droptail', 'codel'), many)
    return nets.many_flows(pick, most_segments=many)


def runs(pick, args):
    for _ in range(args.count):
        scenario = long_scenario(pick)
        yield ('run', *options(pick, args, len(scenario.nodes))), spelling.spelt(scenario, pick)


def examples(args):
    """The texts of the examples, where systematic inputs are asked for."""
    for path in sorted(glob.glob(os.path.join(TOP, 'examples', '*.txt'))) if args.systematic else ():
        with open(path, 'rb') as file:
            yield file.read()


def auto(pick, args):
    """Groups that the program finds, by each crew."""
    random_ = (spelling.spelt(pick.choice((long_scenario, nets.islands))(pick), pick)
               for _ in range(args.count if args.random else 0))
    for text in itertools.chain(examples(args), random_):
        yield from ((('run', '--groups', 'auto', '--workers', crew), text) for crew in CREWS)


def options(pick, args, nodes):
    if not args.options:
        return ()
    groups = pick.choice(('one', 'each', 'each', 'auto', 'auto', 'list', 'list', 'wrong'))
    if groups == 'list':
        most = pick.choice((1, 2, 5, 63))
        groups = ','.join(str(pick.randint(0, most)) for _ in range(nodes))
    elif groups == 'wrong':
        groups = pick.choice(('0', '0,01', '0,64', ',', '0,', ',0', '0 ,0', 'On', 'a', 'Auto', 'auto,0', '0,' * nodes + '0'))
    words = ['--groups', groups] if pick.random() < 0.9 else []
    return (*words, '--workers', pick.choice(('1', '2', '3', '64'))) if pick.random() < 0.8 else tuple(words)


def changed_image(pick, data):
    """Cut, stretched, of another version, with bytes changed, or with a field at a bound."""
    change = pick.randrange(8)
    if change == 0:
        return data[:pick.randrange(len(data))]
    if change == 1:
        return data + pick.randbytes(pick.choice((1, 1, 2, 30)))
    if change == 6:
        return data[:3] + pick.choice((b'1', b'2', b'3', b'\0')) + data[4:] + pick.choice((b'', b'', b'\0', b'\4'))
    if change == 7:
        at = pick.choice([at for at, size in image.places(data) if size == 1])
        return data[:at] + bytes((pick.choice((0, 1, 2, 3, 4, 7, 8, 128, 255)),)) + data[at + 1:]
    data = bytearray(data)
    for _ in range(pick.choice((1, 1, 2))):
        at = pick.randrange(len(data))
        if change in (2, 3):
            data[at] = pick.choice((0, 1, 2, 3, 255, data[at] ^ 1 << pick.randrange(8), pick.randrange(256)))
        else:
            size = min(pick.choice((2, 4, 8)), len(data) - at)
            least, greatest = pick.choice(list(spelling.RANGES.values()))
            value = max(pick.choice((least - 1, least, greatest, greatest + 1, pick.randrange(6))), 0)
            data[at:at + size] = (value % 256**size).to_bytes(size, 'big')
    return bytes(data)


def images(pick, args):
    for text, version in itertools.product((spelling.SMALL, spelling.FULL), (1, 2)):
        data = image.save(assemble(text), version)
        for size in range(len(data) + 1 if args.systematic else 0):
            yield ('run',), data[:size]
        for at in range(len(data) if args.systematic else 0):
            for byte in {0, 1, 2, 3, 255, data[at] + 1 & 255, data[at] - 1 & 255, data[at] ^ 128}:
                yield ('dis',), data[:at] + bytes((byte,)) + data[at + 1:]
        yield from ((('dis',), other) for other in (spelling.other_numbers(data) if args.systematic else ()))
    for version in ((1, 2) if args.systematic else ()):
        yield from ((('asm',), data) for data in spelling.images_at_limits(version))
    for _ in range(args.count if args.random else 0):
        scenario = short_scenario(pick)
        data = image.save(scenario, pick.choice((1, 2, 2)))
        yield ('asm',), spelling.spelt(scenario, pick)
        yield (pick.choice(('dis', 'asm', 'run')),), data
        yield ('dis',), disassemble(scenario)
        for _ in range(3):
            yield (pick.choice(('dis', 'asm', 'run')),), changed_image(pick, data)
        yield ('run',), image.save(nets.broken(nets.many_flows(pick, most_segments=5), pick), pick.choice((1, 2)))


def moments(scenario):
    """Times of the first events."""
    net = simulate.Network(scenario)
    return [line.time for line in itertools.islice(iter(net.step, None), 300)]


def any_command(pick, scenario, times):
    moment = pick.choice((pick.choice(times) + pick.choice((0, 0, 0, 1)), scenario.end, 10**15, 10**15 + 1))
    number = str(pick.choice((0, 1, 1, 2, 5, 30, 200, 10**15, 10**15 + 1)))
    node, flow = pick.randrange(len(scenario.nodes) + 1), pick.randrange(len(scenario.flows) + 1)
    return pick.choice((
        f'step {number}', f'back {number}', f'until {moment}', 'run', 'run', 'state', 'step 1',
        f'break node {node}', f'break flow {flow}', 'break drop', 'clear',
        'break kind ' + pick.choice(('start', 'rto', 'delack', 'free', 'data', 'ack', 'tx')),
        pick.choice(('', ' ', 'bak 1', 'break', 'break node', 'break bus 1', 'step', 'step 01', 'step 1 2', 'run 1', '---',
                     'break node 1 2', 'until -1', 'clear 1', 'state # x', 'step\t1', 'stop', 'break drop 1', 'break tx'))))


def debug(pick, args):
    for _ in range(args.count):
        scenario = short_scenario(pick)
        text = spelling.spelt(scenario, pick)
        if not text.endswith(b'\n'):
            text += b'\n'
        times = moments(scenario) or [0]
        commands = [any_command(pick, scenario, times) for _ in range(pick.choice((0, 1, 3, 10, 30)))]
        many = []
        if pick.random() < 0.2:
            many = [f'break node {n}' for n in range(len(scenario.nodes))]
            many += [f'break flow {n}' for n in range(len(scenario.flows))]
            many += [f'break kind {kind.decode()}' for kind in debugger.KINDS] + ['break drop']
            pick.shuffle(many)
        session = '\n'.join(['---'] + many + commands) + pick.choice(('', '\n'))
        yield ('debug', *options(pick, args, len(scenario.nodes))), text + session.encode()


def prompts(pick, args):
    """Sessions at a prompt, over texts and images; now and then of segments of one byte, or one that is refused."""
    for _ in range(args.count):
        scenario = short_scenario(pick)
        if pick.random() < 0.08:
            scenario.flows = [dataclasses.replace(flow, mss=1) for flow in scenario.flows]
        data = image.save(scenario) if pick.random() < 0.1 else spelling.spelt(scenario, pick, sessions.GRAMMAR)
        scenario = command_line.read(data)
        if pick.random() < 0.03:
            data = spelling.mutated(data, pick)
        keys = sessions.any_session(pick, scenario, moments(scenario) or [0])
        yield ('debug', FILE, *options(pick, args, len(scenario.nodes))), data + TYPED + keys


def tables(pick, args):
    """Inputs of which the figures are asked."""
    for text in examples(args):
        scenario = assemble(text)
        for by_time in ((), (f'--every={1 + span_of(scenario) // 10}',)):
            yield ('figures', *by_time, '--names'), text
            yield from ((('figures', *by_time), image.save(scenario, version)) for version in (1, 2))
    for _ in range(args.count if args.random else 0):
        scenario = long_scenario(pick)
        begin = moment_words(pick, scenario)
        every = step_words(pick, scenario, begin)
        options = [begin, every, *[('--series',)] * (pick.random() < (.5 if every else .03)), *[('--names',)] * (pick.random() < .4)]
        if pick.random() < .02:
            options.append(pick.choice(options))
        pick.shuffle(options)
        yield ('figures', *itertools.chain(*options)), any_input(pick, scenario)


def span_of(scenario):
    """Up to where there is something to count."""
    net, last = simulate.Network(scenario), 0
    for line in iter(net.step, None):
        last = line.time
    return scenario.end if any(port.busy for port in net.ports) else last


def option(pick, name, word):
    """An option with its value, in one of the forms."""
    return (f'{name}={word}',) if pick.random() < .5 else (name, word)


def moment_words(pick, scenario):
    """From where on is counted, where anything is said of it."""
    if pick.random() < 1 / 3:
        return ()
    return option(pick, '--from', sessions.time(pick, moments(scenario) or [0], scenario.end).decode())


def step_words(pick, scenario, begin):
    """How long a step is, where anything is said of it, behind these words for the first one's begin."""
    chance = pick.random()
    if chance < .3:
        return ()
    if chance < .33:
        return option(pick, '--every', pick.choice(('0', '0s', '0.000ms', *map(bytes.decode, sessions.WRONG_TIMES))))
    span = span_of(scenario)
    if chance < .4:
        return option(pick, '--every', str(border_step(pick, scenario, begin, span)))
    step = max(1, span // pick.choice((1, 2, 3, 10, 30, 100, 200)) + pick.choice((0, 1)))
    return option(pick, '--every', sessions.spelled(pick, step).decode())


def border_step(pick, scenario, begin, span):
    """The shortest step with no more rows than there may be, where the run has few of them, or one that is shorter by 1."""
    try:
        begin = grammar.time_in(begin[-1].rpartition('=')[2].encode()) if begin else 0
    except Refused:
        begin = 0
    most = figures.MOST_ROWS // (len(figures.FLOW_STEP) * len(scenario.flows) + len(figures.LINK_STEP) * len(scenario.links))
    step = 1 + max(0, scenario.end - begin) // most
    return step if max(0, span - begin) // step < 300 and pick.random() < .7 else step - 1


def any_input(pick, scenario):
    """The scenario as a text or as an image of either version; now and then its ways, a word or a byte are wrong."""
    chance = pick.random()
    if chance < 0.03:
        return spelling.spelt(nets.broken(scenario, pick), pick)
    if chance < 0.06:
        return spelling.mutated(spelling.spelt(scenario, pick), pick)
    if chance < 0.6:
        return spelling.spelt(scenario, pick)
    data = image.save(scenario, pick.choice((1, 2, 2)))
    return changed_image(pick, data) if chance > 0.97 else data


KINDS = {'texts': texts, 'runs': runs, 'images': images, 'debug': debug, 'auto': auto, 'prompt': prompts,
         'figures': tables, 'refused': refused}


# What is printed.

def shortened(data, most=2000):
    text = data.decode(errors='backslashreplace')
    return text if len(text) <= most else f'{text[:most]}.. ({len(data)} bytes)\n'


def first_difference(real, model):
    for n, (a, b) in enumerate(zip(lines_of(real), lines_of(model)), 1):
        if a != b:
            return f'line {n} of the output\n  program: {shortened(a, 300)}\n  model:   {shortened(b, 300)}'
    return f'outputs of {len(lines_of(real))} and {len(lines_of(model))} lines' if real != model else 'same output'


def show(found):
    (words, data), real, model = found
    print(f'--- {" ".join(words)}, {len(data)} bytes of input')
    if FILE in words:
        data, keys = parts_of(words, data)
        print(f'typed: {[shortened(line, 200) for line in lines_of(keys)]}, over')
    print(shortened(data) if not data.startswith(b'TCB') else data[:500].hex(' '))
    for name, answer in (('program', real), ('model', model)):
        print(f'{name}: status {answer[0]}, note {answer[2][:200]!r}, {len(answer[1])} bytes')
    print(first_difference(real[1], model[1]), flush=True)


def arguments():
    parser = argparse.ArgumentParser(description=__doc__, formatter_class=argparse.RawDescriptionHelpFormatter)
    parser.add_argument('--kind', default='texts,runs,images')
    parser.add_argument('--seed', type=int, default=1)
    parser.add_argument('--count', type=int, default=1000)
    parser.add_argument('--jobs', type=int, default=2)
    parser.add_argument('--program', default=PROGRAM)
    parser.add_argument('--options', action='store_true')
    parser.add_argument('--shrink', type=float, default=SHRINKING, help='seconds for making a case that differs smaller')
    parser.add_argument('--systematic', action='store_true', help='only the systematic inputs')
    parser.add_argument('--random', action='store_true', help='only the random inputs')
    args = parser.parse_args()
    if not (args.systematic or args.random):
        args.systematic = args.random = True
    if not os.path.exists(args.program):
        sys.exit(f'{args.program}: no such program; build it with `make run`')
    return args


def main():
    args = arguments()
    differences: list[tuple] = []
    count = 0
    with multiprocessing.get_context('fork').Pool(args.jobs) as pool:
        for kind in args.kind.split(','):
            cases = KINDS[kind](random.Random(f'{kind} {args.seed}'), args)
            jobs = ((args.program, case) for case in cases)
            before = count
            for found in pool.imap_unordered(compared, jobs, 8):
                count += 1
                if found[1] is not None:
                    differences.append((args.program, found[0]))
            print(f'{kind}: {count - before} compared', flush=True)
        differences.sort(key=lambda job: len(job[1][1]))
        shortest: list[tuple] = pool.map(functools.partial(shrunk, seconds=args.shrink), differences[:SHOWN], 1)
    for found in sorted(filter(None, shortest), key=lambda found: len(found[0][1])):
        show(found)
    print(f'{count} compared, {len(differences)} different')
    sys.exit(1 if differences else 0)


if __name__ == '__main__':
    main()
