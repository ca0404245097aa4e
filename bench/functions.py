#!/usr/bin/env python3
"""What the proof of each function of a crate costs, in seconds of one processor.

    bench/functions.py [--anew | --parts] [--least SECONDS] [CRATE ..]

Prints what `dev/build.py --functions` counted last of each crate that is named. With none it prints the dearest
twenty of all crates, as the table of bench/GATE.md. With --anew each crate is counted now, over the statements that
`make run` keeps of those below it. Functions of fewer seconds than the least (1 if none is given) are left out, and
their sum is told.

The prover says when it is done with a function, and what it has used since it said so before is the cost. So a
function has with its own what stands before it: the lemmas that it cites first, and the statements of its module.
What comes before the end of the first one, mostly reading the libraries, is told apart.

What stands before a small function may be a part of a dear one: the prover walks through the bodies of those that call
a function before it is done with it. With --parts each crate is counted now by the modules that the prover makes, from
the moments at which it keeps them: of each function the walk through its body (Lts), its goals (Proof, with their answers),
and all others. A module of no function, as a lemma file, has a line of its own.
"""
import argparse
import bisect
import collections
import contextlib
import json
import os
import re
import shutil
import subprocess
import sys
import tempfile
import threading
import time

TOP = os.path.dirname(os.path.dirname(os.path.abspath(__file__)))
sys.path.insert(0, f'{TOP}/dev')
import build  # pylint: disable=wrong-import-position

DONE = re.compile(r'checked (\S+), \d+ of \d+$')
TICKS = os.sysconf('SC_CLK_TCK')
DEAREST = 20
# The modules that the prover makes of a function, by what they are counted as.
PARTS = {'Lts': 'walk'} | dict.fromkeys(('Proof', 'Answers', 'Goals', 'Invariants', 'Given'), 'goals')
PARTS |= dict.fromkeys('Carried Code Kinds Layout Met Named Reads Statement Symbol TheLink Tie'.split(), 'others')


def used(pid):
    """The seconds of processors that a process has used."""
    with open(f'/proc/{pid}/stat', encoding='utf-8', errors='replace') as file:
        fields = file.read().rpartition(')')[2].split()
    return (int(fields[11]) + int(fields[12])) / TICKS


def count(name, words):
    """Runs the check of a crate, prints what it says, and keeps the cost of each function; answers its status."""
    costs, first, before = {}, None, 0
    with subprocess.Popen([*words, '--progress'], stdin=subprocess.DEVNULL, stdout=subprocess.PIPE, stderr=subprocess.STDOUT,
                          text=True, errors='replace') as prover:
        for line in prover.stdout:
            done = DONE.match(line)
            if done:
                now = used(prover.pid)
                function = done[1].removeprefix(f'{name}::')
                if first:
                    costs[function] = round(costs.get(function, 0) + now - before, 2)
                first, before = first or (function, now), now
            else:
                print(line, end='', flush=True)
        _, status, usage = os.wait4(prover.pid, 0)
        prover.returncode = os.waitstatus_to_exitcode(status)
    if not prover.returncode:
        with open(f'{build.KEPT}/{name}.functions', 'w', encoding='utf-8') as file:
            json.dump({'seconds': round(usage.ru_utime + usage.ru_stime, 2), 'first': first, 'functions': costs}, file, indent=1)
    return prover.returncode


def sampled(prover, samples):
    """Notes every tenth of a second what a prover has used."""
    while prover.returncode is None:
        with contextlib.suppress(OSError):
            samples.append((time.time(), used(prover.pid)))
        time.sleep(0.1)


def used_at(moment, samples):
    """What was used up to a moment, between the two samples beside it."""
    at = bisect.bisect(samples, (moment,))
    (begun, before), (ended, after) = samples[max(0, at - 1)], samples[min(at, len(samples) - 1)]
    return before + (after - before) * (min(max(0, moment - begun) / (ended - begun), 1) if ended > begun else 0)


def part_of(module):
    """Whose a module is, and as what it is counted."""
    names = module.partition('-proofs.')[2].split('.')
    for at, it in enumerate(names):
        if at and it.partition('-')[0] in PARTS:
            return '.'.join(names[:at]), PARTS[it.partition('-')[0]]
    return module, 'others'


def tell_parts(name, words, least):
    """Runs the check of a crate, and prints of each function what its parts cost, the dearest first; answers the status."""
    costs, samples = collections.defaultdict(collections.Counter), []
    with tempfile.TemporaryDirectory() as folder, tempfile.TemporaryFile('w+', errors='replace') as said:
        how = {'stdin': subprocess.DEVNULL, 'stdout': said, 'stderr': subprocess.STDOUT}
        with subprocess.Popen([*words, '--incremental', folder], **how) as prover:
            watch = threading.Thread(target=sampled, args=(prover, samples))
            watch.start()
            prover.wait()
            watch.join()
        if prover.returncode:
            said.seek(0)
            print(said.read(), end='')
        files = [(os.stat(f'{at}/{it}').st_mtime, it.removesuffix('.oantt'))
                 for at, _, found in os.walk(folder) if not at.endswith('/records') for it in found if it.endswith('.oantt')]
    before = 0
    for moment, module in sorted(files):
        whose, part = part_of(module)
        now = used_at(moment, samples)
        costs[whose][part] += now - before
        before = now
    print(f'{name}: {samples[-1][1]:.0f} s\n     all    walk   goals  others')
    for whose, parts in sorted(costs.items(), key=lambda it: -it[1].total()):
        if parts.total() >= least:
            print(f'{parts.total():8.1f}' + ''.join(f'{parts[it]:8.1f}' for it in ('walk', 'goals', 'others')), whose)
    sums = [sum(parts[it] for parts in costs.values()) for it in ('walk', 'goals', 'others')]
    print(f'{sum(sums):8.1f}' + ''.join(f'{it:8.1f}' for it in sums), 'all of them', flush=True)
    return prover.returncode


def proved(name):
    """Proves a crate and keeps its statements, as dev/build.py does without this count: by a check, and a build that takes
    the check's verdict. Answers the status."""
    kit, libraries, folder = build.toolchain(), build.declared(), f'{build.KEPT}/{name}.checked'
    words = build.words_of(name, kit, 1, libraries, tools=f'{build.KEPT}/toolchain')
    more = ['--statements'] if '--statements' in words else []
    shutil.rmtree(folder, ignore_errors=True)
    status = count(name, [*build.check_words(name, kit, 1, libraries), *more, '-o', folder])
    for it in ('--logic-built', '--jobs'):
        at = words.index(it)
        del words[at : at + 2]
    status = status or subprocess.run([*words, '--crate-checked', folder], stdin=subprocess.DEVNULL).returncode
    shutil.rmtree(folder, ignore_errors=True)
    return status


def kept(name):
    """What was counted last of a crate."""
    with contextlib.suppress(FileNotFoundError), open(f'{build.KEPT}/{name}.functions', encoding='utf-8') as file:
        return json.load(file)
    raise build.Refused(f'{name} was not counted: dev/build.py --functions counts each crate that it proves, --anew this one')


def tell(name, least):
    """Prints the functions of a crate, the dearest first."""
    found = kept(name)
    costs = sorted(found['functions'].items(), key=lambda it: -it[1])
    first, seconds = found['first'] or ('none', 0)
    print(f"{name}: {found['seconds']:.0f} s\n{seconds:8.1f}  up to the end of the first, {first}")
    print(''.join(f'{cost:8.1f}  {function}\n' for function, cost in costs if cost >= least), end='')
    print(f'{sum(cost for _, cost in costs if cost < least):8.1f}  all others')
    print(f"{found['seconds'] - seconds - sum(found['functions'].values()):8.1f}  behind the last", flush=True)


def tell_dearest(names):
    """Prints the dearest functions of all crates that were counted."""
    rows, counted = [], []
    for name in names:
        with contextlib.suppress(build.Refused):
            rows += [(cost, name, function) for function, cost in kept(name)['functions'].items()]
            counted.append(name)
    print('| crate | function | seconds |\n|---|---|--:|')
    for cost, name, function in sorted(rows, reverse=True)[:DEAREST]:
        print(f'| {name} | `{function}` | {cost:.1f} |')
    total = sum(cost for cost, _, _ in rows)
    print(f'\n{len(rows)} functions of {len(counted)} crates took {total:.0f} s, {total / max(1, len(rows)):.1f} in the mean.')


def main():
    reader = argparse.ArgumentParser(description='What the proof of each function costs, in seconds.')
    reader.add_argument('crates', nargs='*', metavar='CRATE')
    reader.add_argument('--anew', action='store_true', help='count each crate now, over what `make run` keeps')
    reader.add_argument('--parts', action='store_true', help="count each crate now, by the parts of each function's proof")
    reader.add_argument('--keep', action='store_true', help='the same, and keep its statements: what dev/build.py --functions does')
    reader.add_argument('--least', type=float, default=1, metavar='SECONDS', help='leave cheaper functions out')
    words = reader.parse_args()
    libraries = build.declared()
    try:
        for crate in words.crates:
            if crate not in libraries:
                raise build.Refused(f'there is no crate {crate}')
            check = build.check_words(crate, build.toolchain(), 1, libraries)
            if words.parts:
                status = tell_parts(crate, check, words.least)
            elif words.keep:
                status = proved(crate)
            else:
                status = count(crate, check) if words.anew else 0
            if status:
                raise build.Refused(f'{crate} is not proved over what `make run` keeps')
            if not words.parts:
                tell(crate, words.least)
        if not words.crates:
            tell_dearest(libraries)
    except build.Refused as why:
        print(why, file=sys.stderr)
        return 1
    return 0


if __name__ == '__main__':
    sys.exit(main())
