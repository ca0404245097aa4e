#!/usr/bin/env python3
"""Runs the tests of dev/ and python/tests side by side, one a processor, and prints what each said, in one order.

    dev/run_tests.py [--jobs N] [--python PATH] [TEST ..]

Without names these are dev/refuse_tests.sh and each test_*.py of the two folders, by pytest. It goes after `rt ci`:
without that dev/refuse_tests.sh has the crates of its tests proved first, which takes a quarter of an hour and more.
After `make run` alone leave it out, by naming the others. Each test has a folder of its own for what it makes; all are
ended, and the folders taken away, where this script is interrupted. --python has pytest; where it is empty what wants
that is left out. What all of them cost is kept for the table of bench/gate.py.

A test that fails beside others may have lacked time alone: what failed of it is run once more when nothing else runs, and
fails where it does so again. The last lines say which tests passed alone only. The last of all is 'N tests passed, N failed', and the status
is 1 where one failed; where CI=true also where something was left out.
"""
import argparse
import contextlib
import glob
import os
import resource
import signal
import subprocess
import sys
import time

import build

TOP = os.path.dirname(os.path.dirname(os.path.abspath(__file__)))
# Those that take longest, which are begun first.
LONG = ('dev/test_page.py', 'dev/test_page_lecture.py', 'dev/test_page_debugger.py', 'dev/test_page_compare.py', 'dev/test_page_share.py',
        'python/tests/test_ends.py', 'python/tests/test_inputs.py', 'python/tests/test_debug.py', 'dev/test_refused_memory.py', 'dev/test_systematic.py',
        'dev/test_shell.py', 'dev/test_compare.py', 'python/tests/test_sweep_engines.py', 'python/tests/test_sweep_means.py', 'python/tests/test_sweep_files.py',
        'python/tests/test_sweep.py', 'python/tests/test_trace.py', 'python/tests/test_plot.py', 'dev/test_bounds.py',
        'dev/refuse_tests.sh', 'dev/test_helgrind.py', 'dev/test_dist.py', 'dev/test_types.py')
# Those that have browsers, each of several threads, and how many of them are run at once.
BROWSERS, BROWSERS_AT_ONCE = 'dev/test_page', 2
LEFT_OUT = 'LEFT OUT', 'SKIPPED'            # how a line begins that says so: ours, and pytest's
# How long what was ended may take to end, in seconds.
GRACE = 5


def all_tests():
    found = [os.path.relpath(it, TOP) for place in ('dev', 'python/tests')
             for it in sorted(glob.glob(f'{TOP}/{place}/test_*.py'))]
    return ['dev/refuse_tests.sh', *found]


class Test:
    """One test, its process while it runs, and what it said."""

    def __init__(self, name, python, folder, again=False):
        self.name, self.folder = name, f'{folder}/{os.path.basename(name)}'
        # What failed is kept where both find it: the test, and the test run again.
        kept = f'{folder}/{".." if again else "."}/{os.path.basename(name)}.failed'
        words = ['-o', f'cache_dir={os.path.normpath(kept)}', *['--last-failed'] * again]
        self.words = [f'./{name}'] if name.endswith('.sh') else [python, '-m', 'pytest', *words, name]
        self.process: subprocess.Popen[bytes] | None = None
        self.status, self.seconds, self.begun = 0, 0.0, 0.0
        self.usage: resource.struct_rusage

    def start(self):
        os.mkdir(self.folder)
        self.begun = time.monotonic()
        with open(f'{self.folder}.said', 'wb') as said:
            self.process = subprocess.Popen(self.words, cwd=TOP, stdin=subprocess.DEVNULL, stdout=said,
                                            stderr=subprocess.STDOUT, preexec_fn=os.setpgrp,
                                            env={**os.environ, 'TMPDIR': self.folder})

    def has_browsers(self):
        return self.name.startswith(BROWSERS)

    def has_ended(self):
        if self.process is None:
            return False
        ended, status, self.usage = os.wait4(self.process.pid, os.WNOHANG)
        if ended:
            self.process.returncode = self.status = os.waitstatus_to_exitcode(status)
            self.seconds = time.monotonic() - self.begun
        return bool(ended)

    def spent(self):
        """The seconds of processors that it took."""
        return self.usage.ru_utime + self.usage.ru_stime

    def end(self):
        """Asks all of it to end, and then makes it."""
        if self.process:
            for number in (signal.SIGTERM, signal.SIGKILL):
                with contextlib.suppress(ProcessLookupError):
                    os.killpg(self.process.pid, number)
                with contextlib.suppress(subprocess.TimeoutExpired):
                    self.process.wait(GRACE)

    def said(self):
        with open(f'{self.folder}.said', encoding='utf-8', errors='replace') as file:
            return file.read()

    def passed(self):
        return self.status == 0

    def tell(self):
        """Prints what it said."""
        how = 'passed' if self.passed() else f'FAILED, status {self.status}'
        took = f'{self.seconds:.0f} s, {self.spent():.0f} s of processors'
        print(f'== {self.name}: {how} ({took})\n{self.said()}', end='', flush=True)


def run(tests, jobs):
    """Runs the tests, `jobs` at once, and tells of each once those before it were told; answers those that failed."""
    rank = {name: at for at, name in enumerate(LONG)}
    left = sorted(tests, key=lambda it: rank.get(it.name, len(LONG)))
    running: list[Test] = []
    untold, failed = list(tests), []
    try:
        while untold:
            browsers = sum(it.has_browsers() for it in running)
            fit = [it for it in left if browsers < BROWSERS_AT_ONCE or not it.has_browsers()]
            if fit and len(running) < jobs:
                left.remove(fit[0])
                fit[0].start()
                running.append(fit[0])
                continue
            running = [it for it in running if not it.has_ended()]
            while untold and untold[0].process and untold[0] not in running:
                test = untold.pop(0)
                test.tell()
                failed += [] if test.passed() else [test]
            time.sleep(0.05)
    finally:
        for test in running:
            test.end()
    return failed


def main():
    reader = argparse.ArgumentParser(description='Runs the tests of dev/ and python/tests side by side.')
    reader.add_argument('--jobs', type=int, default=len(os.sched_getaffinity(0)), help='how many at once (left out: one a processor)')
    reader.add_argument('--python', metavar='PATH', help='a python3 that has pytest, or nothing where there is none')
    reader.add_argument('names', nargs='*', metavar='TEST', help='left out: all')
    words = reader.parse_args()
    python = sys.executable if words.python is None else words.python
    names = words.names or all_tests()
    gone = [it for it in names if not python and it.endswith('.py')]
    with build.room('run-tests-') as folder:
        os.chmod(folder, 0o711)         # a test that is run as nobody comes through it
        tests = [Test(it, python or sys.executable, folder) for it in names if it not in gone]
        first = run(tests, max(1, words.jobs))
        alone = os.path.join(folder, 'alone')
        os.mkdir(alone, 0o711)
        failed = run([Test(it.name, python or sys.executable, alone, True) for it in first], 1)
        out = [line for it in tests for line in it.said().splitlines() if line.startswith(LEFT_OUT)]
    if not words.names and not failed:
        build.keep_cost('tools', 'tests', sum(it.spent() for it in tests), 0)
    if gone:
        out.append(f'LEFT OUT, not passed: {" ".join(gone)} (no pytest: apt-get install python3-pytest)')
    print(''.join(f'{it}\n' for it in out), end='')
    late = {it.name for it in first} - {it.name for it in failed}
    if late:
        print(f'Failed beside others, and passed alone: {" ".join(sorted(late))}')
    print(f'{len(tests) - len(failed)} tests passed, {len(failed)} failed')
    sys.exit(1 if failed or (out and os.environ.get('CI') == 'true') else 0)


if __name__ == '__main__':
    main()
