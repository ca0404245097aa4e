"""Tests of how many threads the program starts. A library that is loaded before the program counts them."""
import contextlib
import glob
import os
import subprocess
import time
from itertools import accumulate

import pytest

import clone
from clone import PROGRAM, Folder, tool_words

pytestmark = [pytest.mark.built, pytest.mark.wants(cc='gcc')]
WIDE = (*clone.WIDE, '2s')
# Twice as many, for as many threads as share them.
WIDER = ('islands', '--islands', '8', *WIDE[3:])
# One flow over links of 1 ms: a window holds a few events.
SMALL = ('chain', '--hops', '3', '--flows', '1', '--rate', '10M', '--segments', '2000', '--end', '20s')
# Two pairs of ends that hear nothing of each other.
PAIRS = ''.join(['sim 10000000000\n', *(f'node {a} sender\nnode {b} receiver\n' for a, b in ('ab', 'cd')),
                 *(f'link {a}{b} {a} {b} 800000000 100000 droptail 100\n' for a, b in ('ab', 'ba', 'cd', 'dc')),
                 *(f'flow {f} {a} {b} 1000 20000 0 64000 0\n' for f, a, b in ('eab', 'fcd'))])
# How often a run is tried whose threads may come late beside other work.
TRIES = 10
PROCESSORS = len(os.sched_getaffinity(0)) if hasattr(os, 'sched_getaffinity') else os.cpu_count()


def times_of(process):
    """The nanoseconds of processors that each thread of a process used until now, by its number."""
    times = {}
    for name in glob.glob(f'/proc/{process}/task/*/schedstat'):
        # A thread that has gone meanwhile has no file.
        with contextlib.suppress(OSError), open(name, encoding='ascii') as file:
            times[name] = int(file.read().split()[0])
    return times


def go_first():
    """Has what this process runs go before other work, where that is allowed: beside it threads would come late."""
    with contextlib.suppress(OSError):
        os.nice(-20)


def most_hands(groups):
    """How many threads a number of groups give something to do, the program's own among them: one for each, and as many more
    for text, where there are processors."""
    return max(groups, min(PROCESSORS, 2 * groups))


class TestThreads(Folder):
    @pytest.fixture(autouse=True)
    def counting(self, library):
        self.library = library('threads')

    def text_of(self, shape):
        return subprocess.run([*tool_words('net'), *shape], check=True, capture_output=True, text=True).stdout

    def ran(self, text, *words, late=None):
        """What the program writes, and what beside it, and how many threads it started; `at_once` is then how many of
        them there were at a time at most, `writes` how often it wrote."""
        counts = self.put('counts', '')
        env = {**os.environ, 'LD_PRELOAD': self.library, 'THREADS': counts, **({'THREADS_LATE': late} if late else {})}
        done = subprocess.run([PROGRAM, *words], input=text.encode(), capture_output=True, env=env, check=True)
        marks = clone.read(counts)
        self.at_once = max(accumulate(({ord('t'): 1, ord('j'): -1}.get(mark, 0) for mark in marks), initial=0))
        self.writes = marks.count(b'w')
        return done.stdout, done.stderr, marks.count(b't')

    def counted(self, text, *words):
        """What the program writes, and how many threads it started."""
        written, _, threads = self.ran(text, *words)
        return written, threads

    def run_of(self, text, *words):
        """How many threads a run starts; its trace is that of a run without options."""
        plain, none = self.counted(text, 'run')
        trace, threads = self.counted(text, 'run', *words)
        assert none == 0
        assert trace == plain
        return threads

    def test_the_library_counts(self):
        """Where windows hold thousands of events, threads are started; without this no other row says anything."""
        assert self.run_of(self.text_of(WIDE), '--groups', self.parts(), '--workers', '4') > 0

    def parts(self, shape=WIDE, count=4):
        """The group of each node of a wide scenario: those that links of less than 40 ms join are in one."""
        words = [line.split() for line in self.text_of(shape).splitlines()]
        group = {it[1]: it[1] for it in words if it[:1] == ['node']}
        for it in words:
            if it[:1] == ['link'] and int(it[5]) < 40_000_000:
                old, new = group[it[3]], group[it[2]]
                group = {name: new if has == old else has for name, has in group.items()}
        numbers = sorted(set(group.values()))
        assert len(numbers) == count
        return ','.join(str(numbers.index(it)) for it in group.values())

    def halves(self):
        """The same with two parts in a group."""
        return self.parts().replace('1', '0').replace('2', '1').replace('3', '1')

    def test_threads_change_no_byte(self):
        """By fewer workers than groups, and where two of the groups are one."""
        text = self.text_of(WIDE)
        four = self.parts()
        for groups in (four, four.replace('1', '0'), four.replace('3', '2').replace('1', '0')):
            for workers in ('2', '3'):
                assert self.run_of(text, '--groups', groups, '--workers', workers) > 0

    def test_threads_tell_of_each_hundredth(self):
        """A window ends at each hundredth of a run that is told. One worker tells of those that an event passes."""
        text, words = self.text_of(WIDE), ('run', '--progress', '--groups', self.parts(), '--workers')
        trace, told, none = self.ran(text, *words, '1')
        assert (none, told) == (0, self.ran(text, 'run', '--progress')[1])
        noted = [self.ran(text, *words, workers) for workers in ('2', '4')]
        for found, said, threads in noted:
            assert threads > 0
            assert found == trace
            assert said.count(b'% of 2 s simulated') == 100
        assert noted[0][1] == noted[1][1]

    def test_one_worker_starts_none(self):
        assert self.run_of(self.text_of(WIDE), '--groups', self.parts(), '--workers', '1') == 0

    def test_one_group_has_one_more_for_text(self):
        """However many workers there are, on two processors or more; it stays from slice to slice, also where one is told
        of each hundredth of the run."""
        text = self.text_of(WIDE)
        for workers in ('2', '64'):
            assert self.run_of(text, '--groups', 'one', '--workers', workers) == most_hands(1) - 1
            assert self.run_of(text, '--workers', workers) == most_hands(1) - 1
        trace, told, _ = self.ran(text, 'run', '--progress')
        found, said, threads = self.ran(text, 'run', '--progress', '--workers', '2')
        assert found == trace
        assert said.count(b'% of 2 s simulated') == 100
        assert told.splitlines()[-1] == said.splitlines()[-1]
        assert (threads > 0) == (PROCESSORS > 1)

    def test_a_short_run_of_one_group_starts_none(self):
        """The first 16,384 events are run one after another, and a slice of a thousand later ones is worth a thread."""
        for segments, most, starts in (800, 16_384, 0), (2000, 40_000, most_hands(1) - 1):
            text = self.text_of((*SMALL[:8], str(segments), *SMALL[9:]))
            assert most / 2 < self.counted(text, 'run')[0].count(b'\n') < most
            assert self.run_of(text, '--workers', '2') == starts

    def test_small_windows_start_none(self):
        text = self.text_of(SMALL)
        for workers in ('2', '4', '64'):
            assert self.run_of(text, '--groups', 'each', '--workers', workers) == 0

    def test_the_calling_thread_is_one_of_the_workers(self):
        """For four workers three threads are started beside the program's own, which works too; they stay from window to
        window, and all have gone at the end."""
        text = self.text_of(WIDE)
        for workers in (2, 3, 4, 64):
            expected = min(workers, most_hands(4)) - 1
            assert self.run_of(text, '--groups', self.parts(), '--workers', str(workers)) == expected
            assert self.at_once == expected

    def test_more_threads_than_groups_make_text_where_there_are_processors(self):
        """For two groups at most two more, and none that would have no processor."""
        text, three = self.text_of(WIDE), self.parts().replace('3', '2')
        for groups, count in (self.halves(), 2), (three, 3):
            for workers in (2, 3, 4, 64):
                expected = min(workers, most_hands(count)) - 1
                assert self.run_of(text, '--groups', groups, '--workers', str(workers)) == expected

    def shares_of(self, name, groups, workers):
        """Which share of a run's processor time each of its threads used, the largest first."""
        words = [PROGRAM, 'run', '--groups', groups, '--workers', str(workers), name]
        times = {}
        with subprocess.Popen(words, stdout=subprocess.DEVNULL, preexec_fn=go_first) as running:
            while running.poll() is None:
                times |= times_of(running.pid)
                time.sleep(0.005)
        assert running.returncode == 0
        return sorted((it / sum(times.values()) for it in times.values()), reverse=True)

    @pytest.mark.skipif(not os.path.exists('/proc/self/schedstat'), reason='no times of threads')
    def test_each_thread_has_its_share_of_the_time(self):
        """As many threads as workers, and processors for them, have each a tenth of the time of a wide run at least. Beside
        other work threads come late, and the first one does more; so one run of a few has to show it."""
        name = self.put('wider.txt', self.text_of(WIDER))
        groups = self.parts(WIDER, 8)
        for workers in (2, 4, 8):
            wanted, found = min(workers, PROCESSORS), []
            while len(found) < TRIES and max(found, default=0) < wanted:
                found.append(sum(it >= 0.1 for it in self.shares_of(name, groups, workers)))
            assert max(found) >= wanted

    @pytest.mark.skipif(not hasattr(os, 'sched_setaffinity'), reason='no way to take processors away')
    def test_on_one_processor_no_thread_is_started_for_text(self):
        allowed = os.sched_getaffinity(0)
        text, two = self.text_of(WIDE), self.halves()
        os.sched_setaffinity(0, {min(allowed)})
        try:
            assert self.run_of(text, '--groups', two, '--workers', '4') == 1
            assert self.run_of(text, '--groups', 'one', '--workers', '4') == 0
        finally:
            os.sched_setaffinity(0, allowed)

    def test_nobody_waits_for_threads_that_come_late(self):
        """Threads that start 3 s late find nothing to run: the calling thread takes back what they were to do, and the
        whole trace is there before they come. The run ends once they have gone."""
        name = self.put('late.txt', self.text_of(WIDE))
        plain = subprocess.run([PROGRAM, 'run', name], capture_output=True, check=True).stdout
        env = {**os.environ, 'LD_PRELOAD': self.library, 'THREADS': os.path.join(self.folder, 'counts'),
               'THREADS_LATE': '3000000'}
        words = ['run', '--workers', '4', '--groups', self.parts(), name]
        begun = time.monotonic()
        with subprocess.Popen([PROGRAM, *words], stdout=subprocess.PIPE, env=env) as running:
            lines = running.stdout.read(plain.rindex(b'end '))
            early = time.monotonic() - begun
            last = running.stdout.read()
            late = time.monotonic() - begun
        assert running.returncode == 0
        assert lines + last == plain
        assert early < 3
        assert late >= 3

    def test_lateness_is_seen(self):
        """Where threads start 3 s late, events are run one after another after a few windows, and written by a page of text
        each, as without options. By windows alone, each is written in parts: 981 writes, where 640 are made so and 544
        without options."""
        text = self.text_of(WIDE)
        plain, _, _ = self.ran(text, 'run')
        least = self.writes
        for groups in (self.parts(), *['one'] * (PROCESSORS > 1)):
            late, _, threads = self.ran(text, 'run', '--workers', '4', '--groups', groups, late='3000000')
            assert threads > 0
            assert late == plain
            assert self.writes < 1.4 * least

    def test_the_debugger_goes_by_the_same_rule(self):
        text = self.text_of(SMALL) + '---\nuntil 19000000000\n'
        plain, none = self.counted(text, 'debug')
        answers, threads = self.counted(text, 'debug', '--workers', '4', '--groups', 'each')
        assert (none, threads) == (0, 0)
        assert answers == plain
        text = self.text_of(WIDE) + '---\nuntil 19000000000\n'
        plain, _ = self.counted(text, 'debug')
        answers, threads = self.counted(text, 'debug', '--workers', '4', '--groups', self.parts())
        assert threads > 0
        assert answers == plain

    def test_groups_that_are_found(self):
        """Two halves are two groups in a run, and one in the debugger, which would start threads for each window; four
        parts are four groups in both."""
        assert self.run_of(PAIRS, '--groups', 'auto', '--workers', '2') > 0
        for text, starts in (PAIRS, False), (self.text_of(WIDE), True):
            text += '---\nuntil 9000000000\n'
            plain, _ = self.counted(text, 'debug')
            answers, threads = self.counted(text, 'debug', '--workers', '4', '--groups', 'auto')
            assert (threads > 0) == starts
            assert answers == plain

    def test_the_debugger_starts_none_for_one_worker_or_one_group(self):
        """Neither with commands that are all there nor with lines that are typed, which by several workers start some."""
        text, commands = self.text_of(WIDE), 'until 19000000000\n'
        name = self.put('wide.txt', text)
        for given, words in ((f'{text}---\n{commands}', ('debug',)), (commands, ('debug', name))):
            plain, none = self.counted(given, *words)
            assert none == 0
            for shared, starts in (((self.parts(), '1'), False), (('one', '64'), False), ((self.parts(), '4'), True)):
                answers, threads = self.counted(given, *words, '--groups', shared[0], '--workers', shared[1])
                assert (threads > 0) == starts
                assert answers == plain
