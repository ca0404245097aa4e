"""Runs a sweep's points on this machine, several side by side, and says how far it is. A signal ends all of them."""
from __future__ import annotations

import contextlib
import itertools
import os
import signal
import sys
import threading
import time as clock
from collections import Counter
from collections.abc import Callable, Iterable, Iterator, Sequence
from multiprocessing import active_children, get_context
from multiprocessing.connection import Connection, wait
from multiprocessing.process import BaseProcess
from typing import Any, cast
from types import FrameType

from tcpsim import output
from tcpsim.command_line import ENDS, Refused, note
from tcpsim.settled import Thirds
from tcpsim.sweeps.files import Journal, csv_line
from tcpsim.sweeps.rows import Bench, Grid, Ran
from tcpsim.whole_trace import PROGRAMS

# What runs points: of a grid and the numbers of points it yields those that have ended, as they end.
Runner = Callable[[Grid, Sequence[int]], Iterator[Ran]]
FORK = get_context('fork')
AHEAD = 2                       # batches of points that a worker has: the next one waits while it runs one
BATCH = .1                     # seconds of runs that go through a pipe at once, and into a journal


def work(ends: tuple[int, int], run: Callable[[Sequence[int], Bench], Iterator[Ran]], pipe: Connection) -> None:
    """A worker: answers through a pipe what `run` finds of points whose numbers come through it, as it finds it, how many seconds that
    took, and what went wrong; until None comes. A signal ends it at once, with its program; and so does the end of its parent. `ends`
    are those of a pipe into which nobody writes: once the parent is gone, it is at its end."""
    os.close(ends[1])
    for number in ENDS:
        signal.signal(number, end_worker)
    signal.pthread_sigmask(signal.SIG_UNBLOCK, ENDS)
    threading.Thread(target=end_with_parent, args=(ends[0],), daemon=True).start()
    bench = Bench()
    while (numbers := pipe.recv()) is not None:
        began = clock.monotonic()
        try:
            for ran in run(numbers, bench):
                pipe.send((ran, clock.monotonic() - began, None))
                began = clock.monotonic()
        except Exception as wrong:          # the parent raises it
            pipe.send(([], 0, wrong))


def end_with_parent(pipe: int) -> None:
    """Ends a worker once its parent has gone."""
    os.read(pipe, 1)
    os.kill(os.getpid(), signal.SIGTERM)


def end_worker(number: int, _frame: FrameType | None) -> None:
    """A handler: ends the programs that a worker runs, and the worker. One that has just begun is in no list but the system's."""
    for each in ENDS:
        signal.signal(each, signal.SIG_IGN)
    try:
        for program in PROGRAMS:
            program.kill()
        with contextlib.suppress(OSError):      # read as bytes: an encoding would be imported in the midst of anything
            for child in os.read(os.open(f'/proc/self/task/{os.getpid()}/children', os.O_RDONLY), 1 << 16).split():
                os.kill(int(child), signal.SIGKILL)
    finally:
        os._exit(128 + number)


def end_workers(workers: set[BaseProcess]) -> None:
    """Ends workers. A signal that comes just before a call which waits is seen only once that call is interrupted: so each
    worker gets signals until it is gone."""
    left: dict[object, BaseProcess] = {worker.sentinel: worker for worker in workers}
    while left:
        for worker in left.values():
            worker.terminate()
        for gone in wait([worker.sentinel for worker in left.values()], 0.1):
            del left[gone]


def here(jobs: int) -> Runner:
    """Runs points on this machine, `jobs` side by side."""
    return lambda grid, numbers: rows_of(grid.run, numbers, jobs)


def looked_at(grid: Grid, numbers: Sequence[int], jobs: int | None) -> dict[int, Thirds | None]:
    """The thirds of runs that have their rows, by their numbers, on this machine."""
    return dict(itertools.chain.from_iterable(rows_of(grid.look, numbers, jobs or os.cpu_count() or 1)))


def rows_of(run: Callable, numbers: Sequence[int], jobs: int) -> Iterator[list[tuple[int, Any]]]:
    """What `run` finds of points, some as they end; `jobs` runs go side by side."""
    if jobs == 1 or len(numbers) < 2:
        yield from one_by_one(run, numbers)
        return
    ends, others = os.pipe(), set(active_children())
    pipes: list[Connection] = []
    try:
        with output.held_back(ENDS):
            for _ in range(min(jobs, len(numbers))):
                pipe, its = FORK.Pipe()
                pipes.append(pipe)
                FORK.Process(target=work, args=(ends, run, its), daemon=True).start()
                its.close()             # the worker alone has this end, so that its own end is heard
        waiting = Waiting(numbers, len(pipes))
        for pipe in pipes * AHEAD:
            waiting.send(pipe, 1)
        left = len(numbers)
        while left:
            for pipe in cast('list[Connection]', wait(pipes)):
                ran, seconds, failed = pipe.recv()
                if failed:
                    raise failed
                waiting.send(pipe, batch_after(len(ran), seconds), len(ran))
                left -= len(ran)
                yield ran
        for pipe in pipes:
            pipe.send(None)
        for worker in set(active_children()) - others:
            worker.join()
    except BaseException as wrong:
        end_workers(set(active_children()) - others)
        if isinstance(wrong, (EOFError, ConnectionError)):
            raise Refused('a run\'s process was ended from outside') from wrong
        raise
    finally:
        for pipe in pipes:
            pipe.close()
        for end in ends:
            os.close(end)


def one_by_one(run: Callable, numbers: Sequence[int]) -> Iterator[Ran]:
    """The runs of this process, as many at once as BATCH has."""
    bench, begin, count = Bench(), 0, 1
    while begin < len(numbers):
        began = clock.monotonic()
        yield from run(numbers[begin:begin + count], bench)
        begin, count = begin + count, batch_after(count, clock.monotonic() - began)


def batch_after(count: int, seconds: float) -> int:
    """How many runs come next where `count` took these seconds."""
    return max(1, min(2 * count, int(BATCH * count / seconds))) if seconds else 2 * count


class Waiting:
    """The numbers of points that wait for a worker."""

    def __init__(self, numbers: Sequence[int], workers: int):
        self._numbers, self._sent, self._parts = numbers, 0, 2 * AHEAD * workers
        self._out: Counter[Connection] = Counter()

    def send(self, pipe: Connection, count: int, ended: int = 0) -> None:
        """Sends a worker `count` points more, if there are any, unless it has enough; `ended` of its points have ended. At the end fewer, so
        that all workers have the same to do."""
        self._out[pipe] -= ended
        if self._sent < len(self._numbers) and self._out[pipe] < AHEAD * count:
            count = min(count, 1 + (len(self._numbers) - self._sent) // self._parts)
            pipe.send(self._numbers[self._sent:self._sent + count])
            self._sent += count
            self._out[pipe] += count


class Progress:
    """A line on standard error: how many runs are done, how long that took, and how long the others take where they are like
    them. On a terminal it is written over."""

    def __init__(self, count: int):
        self.count, self.done, self.refused, self.began = count, 0, 0, clock.monotonic()
        self.terminal = sys.stderr is not None and sys.stderr.isatty()

    def note(self, ran: Sequence[tuple[dict, dict]]) -> None:
        """Says on standard error that runs are done: of each the values in words, and its row."""
        lines = []
        for labels, row in ran:
            self.done += 1
            self.refused += row['status'] != 'done'
            failed = f', {self.refused} without figures' if self.refused else ''
            spent = clock.monotonic() - self.began
            left = f', about {spent / self.done * (self.count - self.done):.0f} s left' if self.done < self.count else ''
            line = f'{self.done} of {self.count} runs{failed}, {spent:.0f} s{left}'
            if not self.terminal:
                said = [' '.join(f'{key}={value}' for key, value in labels.items()), row['status'].replace('done', '')]
                line = ': '.join([line, *filter(None, said)])
            lines.append(line)
        if self.terminal:
            note(f'\r{lines[-1]}\x1b[K', '\n' if self.done == self.count else '')
        else:
            note('\n'.join(lines))


class Rows:
    """The rows of a grid by their numbers, as CSV has them: those that were `there`, and those of the runs that were asked for.
    Into `journal` a row goes as soon as it is there."""

    def __init__(self, grid: Grid, engine: Runner, journal: Journal | None = None, there: dict[int, dict] | None = None,
                 progress: bool = True):
        self.grid, self._engine, self._journal, self._rows = grid, engine, journal, dict(there or {})
        self._said = Progress(0) if progress else None

    def run(self, numbers: Iterable[int]) -> Iterator[None]:
        """Runs those of these points that have no row, and says of each few that they have ended."""
        missing = [number for number in numbers if number not in self._rows]
        if self._said:
            self._said.count += len(missing)
        for ran in self._engine(self.grid, missing) if missing else ():
            new = {number: self.grid.row(number, figures) for number, figures in ran}
            self._rows.update(new)
            if self._journal:
                self._journal.add(new.values())
            if self._said:
                self._said.note([(self.grid.labels(number), figures) for number, figures in ran])
            yield

    def __contains__(self, number: int) -> bool:
        return number in self._rows

    def __getitem__(self, number: int) -> dict[str, str]:
        return self._rows[number]

    def in_order(self) -> list[dict[str, str]]:
        """All that are there, in the grid's order."""
        return [self._rows[number] for number in sorted(self._rows)]


def run_all(rows: Rows, file: output.Output | None = None) -> None:
    """Runs every point. Into `file` each row goes as soon as those before it are there."""
    columns, count, written = rows.grid.columns(), len(rows.grid.points), 0

    def write_ready() -> None:
        nonlocal written
        while file and written in rows:
            file.write(csv_line(rows[written], columns))
            written += 1
        if file:
            file.flush()
    if file:
        file.write(csv_line(dict(zip(columns, columns)), columns))
        write_ready()
    for _ in rows.run(range(count)):
        write_ready()
