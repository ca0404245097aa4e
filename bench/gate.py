#!/usr/bin/env python3
"""What the gate costs, crate by crate, in seconds of processors.

    bench/gate.py [-o bench/GATE.md] [COMMAND ..]
    bench/gate.py --kept [-o bench/GATE.md] [CRATE ..]

The first runs a command, `rt ci` with one job a processor where none is given. Every quarter of a second it
looks at the processes that the command started, and counts what each has used: of a prover the crate is in
its words (`--crate-name`), and whether it checks the crate, its tests (`--test`) or a mutant (it then
runs in a folder that `rt` or dev/mutants.py made for it).

With --kept no command is run: what is proved anew is each CRATE with its tests, over what `make run` keeps.
The table is of what was counted last of each crate, by whatever was run last: of its check by `make run`, of
its tests by --kept, of all by the first form, and of the tools' tests by dev/run_tests.py. With -o the
table between the two marks of that file is written anew. Beside a total stands the machine's measure, what a fixed
piece of work takes there: totals of two machines compare when each is divided by it.
"""
import argparse
import os
import re
import subprocess
import sys
import tempfile
import threading
import time

TOP = os.path.dirname(os.path.dirname(os.path.abspath(__file__)))
sys.path.insert(0, f'{TOP}/dev')
import build  # pylint: disable=wrong-import-position

TICKS = os.sysconf('SC_CLK_TCK')
PAGE = os.sysconf('SC_PAGE_SIZE')
KINDS = ('check', 'tests', 'mutants')
# How many turns of an empty loop are the machine's measure.
TURNS = 50_000_000
BEGIN, END = '<!-- the table of bench/gate.py -->', '<!-- its end -->'


class Process:
    """What one process was started as, and what it has used."""

    def __init__(self, pid):
        self.pid, self.words, self.folder = pid, [], ''
        self.seconds = self.memory = 0

    def read(self, fields):
        """Takes the numbers of /proc/PID/stat behind the name, and the words while it is young."""
        self.seconds = (int(fields[11]) + int(fields[12])) / TICKS
        self.memory = max(self.memory, int(fields[21]) * PAGE)
        if self.seconds < 1:
            with open(f'/proc/{self.pid}/cmdline', encoding='utf-8', errors='replace') as file:
                self.words = file.read().split('\0')
            self.folder = os.readlink(f'/proc/{self.pid}/cwd')

    def is_prover(self):
        return '--crate-name' in self.words

    def crate(self):
        return self.words[self.words.index('--crate-name') + 1]

    def kind(self):
        if '--test' in self.words:
            return 'tests'
        return 'mutants' if '/rt-edit' in self.folder or '/mutants-' in self.folder else 'check'


def look(session, seen):
    """Reads each process of the session once."""
    for pid in filter(str.isdigit, os.listdir('/proc')):
        try:
            with open(f'/proc/{pid}/stat', encoding='utf-8', errors='replace') as file:
                text = file.read()
            fields = text[text.rindex(')') + 2 :].split()
            if int(fields[3]) == session:
                seen.setdefault((pid, fields[19]), Process(pid)).read(fields)
        except (OSError, ValueError):
            continue  # it has ended


def follow(words):
    """Runs the command; answers its status, the seconds and the processes."""
    seen, begun = {}, time.time()
    how = {'stdout': subprocess.PIPE, 'stderr': subprocess.STDOUT, 'text': True, 'errors': 'replace'}
    command = subprocess.Popen(words, cwd=TOP, start_new_session=True, **how)

    def tell():
        for line in command.stdout:
            if re.match(r'rt: |\d+ passed', line):
                print(f'{(time.time() - begun) / 60:6.1f} min  {line}', end='', flush=True)

    teller = threading.Thread(target=tell)
    teller.start()
    while command.poll() is None:
        look(command.pid, seen)
        time.sleep(0.25)
    teller.join()
    return command.returncode, time.time() - begun, list(seen.values())


def counted(processes):
    """What the provers cost, by crate and kind: seconds, and the most bytes that one held. One function alone,
    and what was taken over from an earlier check, say nothing of the whole."""
    found = {}
    for it in processes:
        if it.is_prover() and '--only' not in it.words:
            seconds, memory = found.get((it.crate(), it.kind()), (0, 0))
            found[it.crate(), it.kind()] = seconds + it.seconds, max(memory, it.memory)
    return found


def prove_with_tests(name, kit, libraries):
    """Proves a crate with its tests from nothing, over what is kept; answers whether it is proved."""
    words = [*build.check_words(name, kit, build.jobs_at_once(0), libraries), '--test']
    begun = time.time()
    with tempfile.TemporaryDirectory() as folder, open(f'{build.KEPT}/{name}.tests.log', 'w', encoding='utf-8') as log:
        prover = subprocess.Popen([*words, '--incremental', folder], cwd=TOP, stdin=subprocess.DEVNULL,
                                  stdout=log, stderr=subprocess.STDOUT)
        _, status, usage = os.wait4(prover.pid, 0)
        prover.returncode = os.waitstatus_to_exitcode(status)
    seconds = usage.ru_utime + usage.ru_stime
    if status == 0:
        build.keep_cost(name, 'tests', seconds, 1024 * usage.ru_maxrss)
    else:
        print(f'{name} with its tests is not proved: see {log.name}')
    print(f'{name} with its tests: {seconds:.0f} s of processors, {time.time() - begun:.0f} s', flush=True)
    return status == 0


def table():
    """The lines of the table: a row a crate, then all."""
    rows = ['| crate | check | tests | mutants | most memory, GB |', '|---|---|---|---|---|']
    every = {name: build.cost_of(name) for name in build.declared()}
    for name, costs in every.items():
        spent = [f"{costs[kind]['seconds']:.0f}" if kind in costs else '-' for kind in KINDS]
        most = max((it['memory'] for it in costs.values()), default=0) / 1e9
        rows.append(f"| {name} | {' | '.join(spent)} | {most:.1f} |")
    spent = [sum(it[kind]['seconds'] for it in every.values() if kind in it) for kind in KINDS]
    rows.append(f"| all | {' | '.join(f'{it:.0f}' for it in spent)} | |")
    tools = build.cost_of('tools').get('tests', {'seconds': 0})['seconds']
    whole = (sum(spent) + tools) / 60
    return '\n'.join([*rows, '', f"{whole:.0f} processor minutes, {tools / 60:.1f} of them for the tools' tests."])


def write(file, rows):
    """Puts the table between the marks of the file."""
    with open(file, encoding='utf-8') as it:
        text = it.read()
    before, _, rest = text.partition(BEGIN)
    behind = rest.partition(END)[2]
    with open(file, 'w', encoding='utf-8') as it:
        it.write(f'{before}{BEGIN}\n{rows}\n{END}{behind}')


def measure():
    """The seconds of processor that a fixed piece of work takes on this machine."""
    begun = time.process_time()
    for _ in range(TURNS):
        pass
    return time.process_time() - begun


def run(command):
    """Runs a command and keeps what its provers cost; answers its status."""
    own = ['env', f'RT_JOBS={len(os.sched_getaffinity(0))}', 'rt', 'ci']
    status, seconds, processes = follow(command or own)
    for (name, kind), (spent, memory) in counted(processes).items():
        build.keep_cost(name, kind, spent, memory)
    whole, cores = sum(it.seconds for it in processes) / 60, len(os.sched_getaffinity(0))
    print(f'{whole:.0f} processor minutes, {seconds / 60:.0f} minutes on {cores} processors; {TURNS} turns of a loop: {measure():.2f} s.')
    return status


def main():
    reader = argparse.ArgumentParser(description='Counts what the gate costs, crate by crate.')
    reader.add_argument('-o', dest='output', metavar='FILE', help='write the table between the marks of this file')
    reader.add_argument('--kept', action='store_true', help='prove only the crates that are named, with their tests')
    reader.add_argument('command', nargs=argparse.REMAINDER, help='left out: rt ci, one job a processor')
    words = reader.parse_args()
    if words.kept:
        kit, libraries = build.toolchain(), build.declared()
        for name in words.command:
            if name not in libraries:
                reader.error(f'crates.txt has no crate {name}')
        status = 0 if all([prove_with_tests(name, kit, libraries) for name in words.command]) else 1
    else:
        status = run(words.command)
    rows = table()
    print(rows)
    if words.output:
        write(words.output, rows)
    sys.exit(status)


if __name__ == '__main__':
    main()
