#!/usr/bin/env python3
"""Proves the program with all its libraries, and builds it.

    dev/build.py [--jobs N] [--functions | --ready | --module]

Each crate is proved once, by `rattle build`, the prover behind `rt`, as soon as those that it stands on are:
as many crates side by side as there are jobs. The one for which the longest chain of others waits, by lines,
gets the processors that the others leave, for as many functions at once, and two at least; each of the others
gets one and gives way to it, since a crate costs a third more by four jobs than by one. Of a library its
statements are kept (crates/tcpsim/out/libs), so that what stands on it does not read its proofs; after a
change the changed crate and those that stand on it are proved again. `rt ci` trusts nothing of it and takes
it away; what it proved and left itself is kept in that place. The same run of the prover that makes the
program keeps the LLVM module that it is made of, as crates/tcpsim/out/tcpsim.bc, with a record that names
both by their sums: of that module `make page` makes the program for a browser. With --module it sees to it
that module and record are there and fit the program, and proves no more than it has to: the last crate alone,
over what `make run` or `rt ci` left of the others. Beside them NAME.cost says what each cost, for the table
of bench/gate.py. With --functions each crate is proved by one job, as bench/functions.py does it, which keeps
what each function cost. With --ready it only says whether the toolchain is the one that is wanted, whether
every file is in the layout that `rt fmt` gives, and whether a module has a library's name, as `rt ci` asks.
"""
import argparse
import contextlib
import hashlib
import json
import os
import re
import resource
import shlex
import shutil
import signal
import subprocess
import sys
import tempfile
import time

TOP = os.path.dirname(os.path.dirname(os.path.abspath(__file__)))
PROGRAM = 'tcpsim'
KEPT = f'{TOP}/crates/{PROGRAM}/out/libs'
MADE = f'{TOP}/crates/{PROGRAM}/out/{PROGRAM}'
# The program's LLVM module, and what says of which proof and which program it is.
MODULE, RECORD = f'{MADE}.bc', f'{MADE}.module'
PARTS = ('src', 'specs', 'proofs')
ENDS = signal.SIGINT, signal.SIGTERM, signal.SIGHUP     # the signals that ask a script to end
# What one of the prover's processes may take, in bytes.
JOB_MEMORY = 2_500_000_000
# How often it says how far it is where nothing else is said, in seconds.
PAUSE = 30
# Lines of the prover that say nothing of what is wrong.
QUIET = re.compile(r'so far: |antt: |rattle: |note: |\s*$')


class Refused(Exception):
    """Why nothing can be built: one sentence."""


def toolchain():
    """The folder of the toolchain, one of those that README.md names, or a refusal that says which are wanted."""
    with open(f'{TOP}/README.md', encoding='utf-8') as file:
        wanted = re.findall(r'`(rattle-kit-\S+ logic \S+)`', file.read())
    said = ' or '.join(f'`{it}`' for it in wanted)
    if not shutil.which('rt'):
        raise Refused(f'there is no command rt; the toolchain that is wanted is {said}')
    found = subprocess.run(['rt', 'version'], capture_output=True, text=True).stdout.strip()
    if found not in wanted:
        raise Refused(f'the toolchain is `{found}`, and the one that is wanted is {said}')
    page = subprocess.run(['rt', 'doc'], capture_output=True, text=True).stdout.strip()
    return os.path.dirname(page)


def look_at_layout(kit):
    """Says which files are in another layout than `rt fmt` gives; answers the status."""
    files = [os.path.relpath(it, TOP) for name in declared() for it in files_of(name) if it.endswith(('.rt', '.antt'))]
    words = [f'{kit}/bin/rattle', 'fmt', '--check', *sorted(files)]
    looked = subprocess.run(words, cwd=TOP, stdin=subprocess.DEVNULL, stderr=subprocess.STDOUT)
    return 1 if looked.returncode else 0


def look_at_names():
    """Says which modules have the name of a library of their crate, by which another file's path could reach
    them; answers the status."""
    found = []
    for crate, libraries in declared().items():
        for path in (it for it in files_of(crate) if it.endswith('.rt')):
            with open(path, encoding='utf-8') as file:
                modules = re.findall(r'^ *(?:pub(?:\([^)]*\))? )?mod (\w+)', file.read(), re.M)
            found += [f'{os.path.relpath(path, TOP)}: {it} is the name of a library: give the module another'
                      for it in sorted({*modules} & {'core', 'std', *libraries})]
    print(''.join(f'{it}\n' for it in found), end='')
    return 1 if found else 0


def declared():
    """The libraries that each crate of crates.txt stands on, by its name."""
    found = {}
    with open(f'{TOP}/crates.txt', encoding='utf-8') as file:
        for line in file:
            head, colon, below = line.partition('#')[0].partition(':')
            if colon:
                found[head.split()[0]] = below.split()
    return found


def files_of(name):
    """The files that a crate's proof reads of its own, in one order."""
    for part in PARTS:
        for at, folders, files in os.walk(f'{TOP}/crates/{name}/{part}'):
            folders.sort()
            yield from (f'{at}/{it}' for it in sorted(files))


def below(name, libraries, found=()):
    """The project's crates that a crate stands on, each behind those that it stands on itself."""
    found = list(found)
    for it in libraries[name]:
        if it in libraries and it not in found:
            found = [*below(it, libraries, found), it]
    return found


def jobs_at_once(asked):
    """As many jobs as asked, else one a processor where memory holds them."""
    if asked:
        return asked
    with open('/proc/meminfo', encoding='ascii') as file:
        free = 1024 * int(re.findall(r'MemAvailable:\s+(\d+)', file.read())[0])
    return max(1, min(len(os.sched_getaffinity(0)), free // JOB_MEMORY))


def sum_of(name, kit, sums, libraries):
    """A sum of all that a crate's proof reads: the toolchain, its own files, and what it stands on."""
    taken = hashlib.sha256(kit.encode())
    for it in libraries[name]:
        taken.update(f"{it} {sums.get(it, '')}\n".encode())
    for path in files_of(name):
        with open(path, 'rb') as file:
            taken.update(os.path.relpath(path, TOP).encode() + b'\0' + file.read() + b'\0')
    return taken.hexdigest()


def keeping_toolchain(kit):
    """A folder like the toolchain's own, whose clang keeps the module that it is given."""
    made = f'{KEPT}/toolchain'
    shutil.rmtree(made, ignore_errors=True)
    os.makedirs(f'{made}/bin')
    os.symlink(f'{kit}/toolchain/lib', f'{made}/lib')
    for it in os.listdir(f'{kit}/toolchain/bin'):
        if it != 'clang':
            os.symlink(f'{kit}/toolchain/bin/{it}', f'{made}/bin/{it}')
    with open(f'{made}/bin/clang', 'w', encoding='utf-8') as file:
        file.write(f"""#!/bin/sh
for it in "$@"; do
  case $it in *.bc) cp -- "$it" {shlex.quote(MODULE)} || exit 1;; esac
done
exec {shlex.quote(f"{kit}/toolchain/bin/clang")} "$@"
""")
    os.chmod(f'{made}/bin/clang', 0o755)
    return made


def sum_of_file(path):
    """The SHA-256 of a file, in hexadecimal digits."""
    with open(path, 'rb') as file:
        return hashlib.sha256(file.read()).hexdigest()


def forget_module():
    """Takes module and record away, before the program is made anew."""
    for it in (MODULE, RECORD):
        with contextlib.suppress(FileNotFoundError):
            os.remove(it)


def keep_record(stamp, said=()):
    """Writes what the prover said of the run that made the program and its module, in its log if in no lines that are given,
    and the sums of both."""
    if not said:
        with open(f'{KEPT}/{PROGRAM}.log', encoding='utf-8', errors='replace') as log:
            said = log.readlines()
    verdicts = [line.strip() for line in said if line.startswith('logic=proved ')]
    if not verdicts:
        raise Refused('the prover gave no verdict `logic=proved` on the program')
    found = {'verdict': verdicts[0], 'sources': stamp, 'module': sum_of_file(MODULE), 'program': sum_of_file(MADE)}
    with open(RECORD, 'w', encoding='utf-8') as file:
        json.dump(found, file, indent=1)


def module_record(stamp=None):
    """The record of the module, where module, program and, if given, the sum of the sources are those that it names.
    Raises Refused with what does not fit."""
    try:
        with open(RECORD, encoding='utf-8') as file:
            found = json.load(file)
        if not found['verdict'].startswith('logic=proved '):
            raise Refused('the module was not proved')
        for what, path in (('module', MODULE), ('program', MADE)):
            if sum_of_file(path) != found[what]:
                raise Refused(f'{os.path.relpath(path, TOP)} is not the {what} of that proof')
        if stamp is not None and found['sources'] != stamp:
            raise Refused('the sources have changed since the module was proved')
    except FileNotFoundError as gone:
        raise Refused(f'{os.path.relpath(gone.filename, TOP)} is not there') from gone
    except (KeyError, TypeError, ValueError, AttributeError) as wrong:
        raise Refused(f'{os.path.relpath(RECORD, TOP)} is no record of a module') from wrong
    return found


def check_words(name, kit, jobs, libraries, kept=None, folder=None):
    """The command that proves a crate, which lies in the folder, else in this tree. The statements of the crates below are
    where `kept` says of each, in KEPT where it is left out."""
    words = [f'{kit}/bin/rattle', 'check', '--crate-name', name]
    words.append(f"{folder or f'{TOP}/crates/{name}'}/src/{'main' if name == PROGRAM else 'lib'}.rt")
    for it in dict.fromkeys(['core', 'std', *libraries[name]]):
        place = f'{kit}/rlibs' if it not in libraries else kept[it] if kept else KEPT
        words += ['--extern', f'{it}={place}/{it}.rlib']
    words += ['-L', f'dependency={kit}/rlibs']
    for it in [KEPT] if kept is None else dict.fromkeys(kept.values()):
        words += ['-L', f'dependency={it}']
    words += ['--antt-project', f'{kit}/rattle/logic/antt-project.json', '--logic-built', f'{kit}/logic_built']
    return [*words, '--links', f'{name}=', '--jobs', str(jobs)]


def words_of(name, kit, jobs, libraries, kept=None, tools=None):
    """The command that proves a crate and writes what is kept of it; `tools` is the folder of the compiler, else the
    toolchain's."""
    words = check_words(name, kit, jobs, libraries, kept)
    words[1] = 'build'
    if name == PROGRAM:
        return [*words, '--toolchain', tools or f'{kit}/toolchain', '--backend', 'llvm', '-o', f'{KEPT}/{name}.o']
    return [*words, '--statements', '-o', f'{KEPT}/{name}.rlib']


def cost_of(name):
    """What is kept of what a crate's proof cost: by what was proved, the seconds of all processors, and the
    most bytes that one process held."""
    with contextlib.suppress(FileNotFoundError), open(f'{KEPT}/{name}.cost', encoding='utf-8') as file:
        return json.load(file)
    return {}


def keep_cost(name, kind, seconds, memory):
    """Keeps what was proved last of a crate, for the table of bench/gate.py."""
    os.makedirs(KEPT, exist_ok=True)
    costs = {**cost_of(name), kind: {'seconds': round(seconds, 1), 'memory': memory}}
    with open(f'{KEPT}/{name}.cost', 'w', encoding='utf-8') as file:
        json.dump(costs, file)


def has_module(stamp):
    """Whether the module of the program is there, of the sources with this sum."""
    try:
        return bool(module_record(stamp))
    except Refused:
        return False


class Crate:
    """One crate: what it waits for, and its prover while that runs."""

    def __init__(self, name, libraries, stamp):
        self.name, self.stamp = name, stamp
        self.waits = [it for it in libraries[name] if it in libraries]
        # The lines of this crate and of the longest chain of those that wait for it, one behind the other.
        self.chain = 0
        self.prover: subprocess.Popen[bytes] | None = None
        self.begun, self.status = 0.0, 0
        self.usage: resource.struct_rusage

    def mark(self):
        return f'{KEPT}/{self.name}.stamp'

    def is_kept(self):
        if self.name == PROGRAM:
            return has_module(self.stamp)
        with contextlib.suppress(FileNotFoundError), open(self.mark(), encoding='utf-8') as file:
            return file.read() == self.stamp
        return False

    def start(self, words, gives_way):
        """Starts its prover, one that gives way to another at work."""
        if gives_way:
            words = ['nice', '-n', '10', *words]
        with contextlib.suppress(FileNotFoundError):
            os.remove(self.mark())
        self.begun = time.time()
        with open(f'{KEPT}/{self.name}.log', 'w', encoding='utf-8') as log:
            self.prover = subprocess.Popen(words, cwd=TOP, start_new_session=True, stdin=subprocess.DEVNULL, stdout=log,
                                           stderr=subprocess.STDOUT)

    def has_ended(self):
        """Whether its prover has ended; what it used is then known."""
        if self.prover is None:
            return False
        ended, status, self.usage = os.wait4(self.prover.pid, os.WNOHANG)
        if ended:
            self.prover.returncode = self.status = os.waitstatus_to_exitcode(status)
        return bool(ended)

    def mark_as_kept(self):
        with open(self.mark(), 'w', encoding='utf-8') as file:
            file.write(self.stamp)

    def keep(self):
        self.mark_as_kept()
        keep_cost(self.name, 'check', self.usage.ru_utime + self.usage.ru_stime, 1024 * self.usage.ru_maxrss)

    def stop(self):
        if self.prover and self.prover.poll() is None:
            with contextlib.suppress(ProcessLookupError):
                os.killpg(self.prover.pid, signal.SIGKILL)

    def said(self):
        """What its prover said of what is wrong."""
        with open(f'{KEPT}/{self.name}.log', encoding='utf-8', errors='replace') as log:
            return ''.join(line for line in log if not QUIET.match(line))


def prove(crates, count, jobs, words_for):
    """Proves the crates that are not kept, each behind those that it stands on, by `count` jobs at once, and
    says how far it is; answers the crate that was refused, or None."""
    begun = told = time.time()
    done = {it.name for it in crates if it.is_kept()}
    left = [it for it in crates if it.name not in done]
    running: list[Crate] = []
    while left or running:
        ready = [it for it in left if all(name in done for name in it.waits)]
        for at, it in enumerate(ready[: jobs - len(running)]):
            beside = min(jobs, len(running) + len(ready) - at) - 1
            left.remove(it)
            gives_way = any(other.chain > it.chain for other in [*left, *running])
            it.start(words_for(it.name, 1 if gives_way else min(jobs, max(2, jobs - beside))), gives_way)
            running.append(it)
        for it in [it for it in running if it.has_ended()]:
            running.remove(it)
            if it.status:
                return it
            it.keep()
            done.add(it.name)
            told = time.time()
            took = f'{told - it.begun:.0f} s'
            print(f'{(told - begun) / 60:5.1f} min: {it.name} is proved ({took}), {len(done)} of {count} crates', flush=True)
        if time.time() - told >= PAUSE and running:
            told = time.time()
            names = ' and '.join(f'{it.name} ({told - it.begun:.0f} s)' for it in running)
            print(f'{(told - begun) / 60:5.1f} min: proving {names}', flush=True)
        time.sleep(0.1)
    return None


def link(kit):
    """Links the program; answers the status, and prints what the linker says where it fails."""
    words = [f'{kit}/bin/rattle-link', '--target', 'x86_64-unknown-linux-gnu', '--toolchain', f'{kit}/toolchain']
    words += ['-o', MADE, f'{KEPT}/{PROGRAM}.o', f'{kit}/c/libos_c.a', f'{kit}/c/liblibc_c.a']
    linked = subprocess.run(words, stdin=subprocess.DEVNULL, capture_output=True, text=True)
    if linked.returncode:
        print(linked.stdout + linked.stderr, end='')
    return linked.returncode


def sums_of(names, kit, libraries):
    """The sum of each of the crates, which come each behind those that it stands on."""
    sums: dict[str, str] = {}
    for name in names:
        sums[name] = sum_of(name, kit, sums, libraries)
    return sums


def lines_of(name):
    """How many lines a crate has."""
    lines = 0
    for path in files_of(name):
        with open(path, 'rb') as file:
            lines += file.read().count(b'\n')
    return lines


def crates_of(names, libraries, sums):
    """The crates of these names, which come each behind those that it stands on: those first for which the longest
    chain waits."""
    crates = [Crate(name, libraries, sums[name]) for name in names]
    for it in reversed(crates):
        it.chain = lines_of(it.name) + max((other.chain for other in crates if it.name in other.waits), default=0)
    return sorted(crates, key=lambda it: -it.chain)


def is_built():
    """Whether the program was built here of the crates as they stand, all proved, by this toolchain."""
    try:
        kit, libraries = toolchain(), declared()
        names = [*below(PROGRAM, libraries), PROGRAM]
        crates = crates_of(names, libraries, sums_of(names, kit, libraries))
    except Refused:
        return False
    return os.path.isfile(MADE) and all(it.is_kept() for it in crates)


def left_by_the_gate(names):
    """Where `rt ci` left the statements of these crates, which come each behind those that it stands on, by name; None where
    one is not there, or was put there before a file or a folder of its crate or of one before it was changed. (What it kept
    of an earlier run are links to older files in a new folder.)"""
    places, newest = {}, 0.0
    for it in names:
        places[it] = f'{TOP}/crates/{it}/out/rlib'
        files = [*files_of(it)]
        newest = max([newest, *map(os.path.getmtime, {*files, *map(os.path.dirname, files)})])
        made = f'{places[it]}/{it}.rlib'
        if not os.path.isdir(made) or not os.listdir(made) or os.path.getmtime(made) < newest:
            return None
    return places


def places_below(name, libraries, sums):
    """Where the statements of the crates below are: where `make run` keeps them, else where the gate left them. None where
    they are in neither place, of those crates as they stand."""
    names = below(name, libraries)
    if all(Crate(it, libraries, sums[it]).is_kept() for it in names):
        return dict.fromkeys(names, KEPT)
    return left_by_the_gate(names)


def take_from_the_gate(crates, libraries):
    """Keeps the statements that `rt ci` left of crates of which none are kept: it takes away what is kept. Those that another
    command put beside the gate's have a stamp."""
    for it in crates:
        places = None if it.is_kept() or it.name == PROGRAM else left_by_the_gate([*below(it.name, libraries), it.name])
        if places and not os.path.exists(f'{places[it.name]}/stamp'):
            shutil.rmtree(f'{KEPT}/{it.name}.rlib', ignore_errors=True)
            shutil.copytree(f'{places[it.name]}/{it.name}.rlib', f'{KEPT}/{it.name}.rlib')
            it.mark_as_kept()


@contextlib.contextmanager
def room(prefix, end=lambda: None):
    """A temporary folder, which goes however the script is ended; before it goes, `end` is called."""
    def stop(number, _):
        sys.exit(128 + number)

    ends = [it for it in ENDS if signal.getsignal(it) is not signal.SIG_IGN]
    for number in ends:
        signal.signal(number, stop)
    folder = tempfile.mkdtemp(prefix=prefix)
    try:
        yield folder
    finally:
        for number in ends:
            signal.signal(number, signal.SIG_IGN)
        end()
        shutil.rmtree(folder, ignore_errors=True)


def end_with_signals(crates):
    """Where this script is ended, so are the provers of the crates."""
    def stop(number, _):
        for it in crates:
            it.stop()
        os._exit(128 + number)

    for it in ENDS:
        signal.signal(it, stop)


def prove_last(kit, libraries, stamp, places, asked):
    """Proves the program's crate alone, over statements that are there; answers the status."""
    name = PROGRAM
    os.makedirs(KEPT, exist_ok=True)
    before = sum_of_file(MADE) if os.path.isfile(MADE) else None
    forget_module()
    crate = Crate(name, libraries, stamp)
    end_with_signals([crate])
    crate.start(words_of(name, kit, jobs_at_once(asked), libraries, places, keeping_toolchain(kit)), False)
    print(f'Proving {name} over the statements of the crates below it, for its module.', flush=True)
    try:
        while not crate.has_ended():
            time.sleep(0.1)
    finally:
        crate.stop()
    if crate.status:
        print(crate.said(), end='')
        print(f'{name} is not proved, and no module is kept')
        return 1
    if link(kit):
        return 1
    keep_record(stamp)
    crate.keep()
    same = 'the same as' if before == sum_of_file(MADE) else 'in the place of' if before else 'and no'
    print(f'{name} is proved ({time.time() - crate.begun:.0f} s): its module is kept; the program is {same} the one before')
    return 0


def make_module(asked):
    """Sees to it that the program's module is there, and of the program's proof; answers the status."""
    kit, libraries = toolchain(), declared()
    names = [*below(PROGRAM, libraries), PROGRAM]
    sums = sums_of(names, kit, libraries)
    if has_module(sums[PROGRAM]):
        return 0
    places = places_below(PROGRAM, libraries, sums)
    return prove_last(kit, libraries, sums[PROGRAM], places, asked) if places else build(asked)


def build(asked, functions=False):
    """Proves and builds the program, and counts its functions if asked to; answers the status to end with."""
    kit, libraries = toolchain(), declared()
    names = [*below(PROGRAM, libraries), PROGRAM]
    sums = sums_of(names, kit, libraries)
    crates = crates_of(names, libraries, sums)
    os.makedirs(KEPT, exist_ok=True)
    take_from_the_gate(crates, libraries)
    left = sum(not it.is_kept() for it in crates)
    if not left and os.path.isfile(MADE):
        return 0
    forget_module()
    jobs, tools = jobs_at_once(asked), keeping_toolchain(kit)
    print(f'Proving {left} of {len(crates)} crates; what is proved is kept for the next time.', flush=True)
    end_with_signals(crates)

    def words_for(name, most):
        if functions:
            return [sys.executable, f'{TOP}/bench/functions.py', '--keep', name]
        return words_of(name, kit, most, libraries, tools=tools)

    refused = prove(crates, len(crates), jobs, words_for)
    if refused:
        for it in crates:
            it.stop()
        print(refused.said(), end='')
        print(f'{refused.name} is not proved, and nothing was built')
        return 1
    if link(kit):
        return 1
    keep_record(sums[PROGRAM])
    return 0


def main():
    reader = argparse.ArgumentParser(description='Proves the program with all its libraries, and builds it.')
    reader.add_argument('--jobs', type=int, default=0, help='functions at once in all (left out: one a processor)')
    reader.add_argument('--functions', action='store_true', help='keep what each function cost, too: by one job a crate')
    reader.add_argument('--ready', action='store_true', help="only say whether the toolchain, the layout and the modules' names are right")
    reader.add_argument('--module', action='store_true', help="see that the program's module is there, and of its proof")
    words = reader.parse_args()
    try:
        if words.ready:
            return look_at_layout(toolchain()) or look_at_names()
        return make_module(words.jobs) if words.module else build(words.jobs, words.functions)
    except Refused as why:
        print(f'tcpsim cannot be built: {why}', file=sys.stderr)
        return 1


if __name__ == '__main__':
    sys.exit(main())
