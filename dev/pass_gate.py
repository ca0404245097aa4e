#!/usr/bin/env python3
"""Passes the merge gate, `rt ci`, and keeps what it came to in out/gate.txt, for the manifest of `make dist`.

    dev/pass_gate.py

What `rt ci` writes goes on to standard output as it comes, and its status is the status. out/gate.txt is taken away first,
and written where the gate has ended by itself: the commit, the toolchain's line, a sum of all that the gate reads, and the
gate's last line, 'N passed, M failed'.

The gate makes the program of an LLVM module that it does not keep. So this looks once a second whether the compiler works
on it, and then copies it, for the page: else dev/build.py --module proves the program's crate once more to have it.
"""
import contextlib
import hashlib
import os
import shutil
import signal
import subprocess
import sys
import threading

import build

TOP = os.path.dirname(os.path.dirname(os.path.abspath(__file__)))
KEPT = os.path.join(TOP, 'out', 'gate.txt')
READ = 'crates', 'crates.txt', 'HANDLES'
# The copy of the module, which is moved to its place where the gate has passed.
MODULE = os.path.join(TOP, 'out', 'gate.bc')
LOOKS = 1       # seconds


def said(*words):
    """What a command writes, without the line feed at its end, or None where it is not there or fails."""
    with contextlib.suppress(OSError):
        done = subprocess.run(words, cwd=TOP, capture_output=True, text=True, check=False, stdin=subprocess.DEVNULL)
        return done.stdout.rstrip('\n') if done.returncode == 0 else None
    return None


def files():
    """All files of the crates but what is built: their paths from the top."""
    for name in READ:
        if os.path.isfile(os.path.join(TOP, name)):
            yield name
        for folder, below, names in os.walk(os.path.join(TOP, name)):
            below[:] = [it for it in below if it != 'out']
            yield from (os.path.relpath(os.path.join(folder, it), TOP) for it in names)


def sum_of_crates():
    """A sum of all that the gate reads of the tree."""
    taken = hashlib.sha256()
    for path in sorted(files()):
        with open(os.path.join(TOP, path), 'rb') as file:
            data = file.read()
        taken.update(b'%s %d\n' % (os.fsencode(path), len(data)) + data)
    return taken.hexdigest()


def kept():
    """What is kept of the last gate, by its name, or {} where none has ended here."""
    with contextlib.suppress(OSError), open(KEPT, encoding='utf-8') as file:
        return dict(line.rstrip('\n').split(': ', 1) for line in file if ': ' in line)
    return {}


def words_of(pid):
    """What a process was started as."""
    with open(f'/proc/{pid}/cmdline', encoding='utf-8', errors='replace') as file:
        return file.read().split('\0')


def module_at_work():
    """The module, opened, that a compiler has of the gate's prover of the program in this clone, or None."""
    for pid in filter(str.isdigit, os.listdir('/proc')):
        with contextlib.suppress(OSError, IndexError):
            module = [it for it in words_of(pid) if it.endswith('.bc')][0]
            with open(f'/proc/{pid}/stat', encoding='utf-8', errors='replace') as file:
                prover = file.read().rpartition(')')[2].split()[1]
            words, folder = words_of(prover), os.path.join(TOP, 'crates', build.PROGRAM)
            if '--test' not in words and build.PROGRAM in words and os.path.samefile(f'/proc/{prover}/cwd', folder):
                return open(os.path.join(f'/proc/{pid}/cwd', module), 'rb')
    return None


def watch(ended):
    """Copies the module as soon as it is there; returns then, or where the gate has ended."""
    while not ended.wait(LOOKS):
        module = module_at_work()
        if module:
            with module, open(MODULE, 'wb') as copy:
                shutil.copyfileobj(module, copy)
            return


def main():
    """Answers the gate's status."""
    os.makedirs(os.path.dirname(KEPT), exist_ok=True)
    for it in (KEPT, MODULE):
        with contextlib.suppress(FileNotFoundError):
            os.remove(it)
    facts = {'commit': said('git', 'rev-parse', 'HEAD') or 'none', 'toolchain': said('rt', 'version') or 'none',
             'crates': sum_of_crates()}
    last, of, lines, asked = '', '', [], []
    gates: list[subprocess.Popen[bytes]] = []
    ended = threading.Event()
    watcher = threading.Thread(target=watch, args=[ended])

    def end(number, _):
        asked.append(number)
        for it in gates:
            it.send_signal(number)

    for number in (signal.SIGTERM, signal.SIGHUP):
        signal.signal(number, end)
    gate = subprocess.Popen(['rt', 'ci'], cwd=TOP, stdout=subprocess.PIPE)
    gates.append(gate)
    for number in asked:
        gate.send_signal(number)
    signal.signal(signal.SIGINT, signal.SIG_IGN)        # of a terminal it comes to the gate too
    watcher.start()
    for line in gate.stdout or ():
        sys.stdout.buffer.write(line)
        sys.stdout.buffer.flush()
        last = line.decode('utf-8', 'replace').strip() or last
        of = last[3:] if last.startswith('== ') else of
        lines += [last] if of == build.PROGRAM else []
    status = gate.wait()
    ended.set()
    watcher.join()
    if status == 0 and os.path.isfile(MODULE) and sum_of_crates() == facts['crates']:
        kit, libraries = build.toolchain(), build.declared()
        shutil.move(MODULE, build.MODULE)
        with contextlib.suppress(build.Refused):
            build.keep_record(build.sums_of(libraries, kit, libraries)[build.PROGRAM], lines)
    if status >= 0 and 'passed' in last:
        with open(KEPT, 'w', encoding='utf-8') as file:
            file.write(''.join(f'{name}: {value}\n' for name, value in {**facts, 'last line': last}.items()))
    return 128 - status if status < 0 else status


if __name__ == '__main__':
    sys.exit(main())
