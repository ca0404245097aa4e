"""Reads runs: a scenario's file, and the lines of its whole trace, of a file or as the program writes them.

A trace is whole where its last line is `end N` and N events stand before it. What is cut is refused, as figures of a
part would pass for those of the run; with `partial` it is taken as far as it goes. Nothing but Python's standard
library.
"""
from __future__ import annotations

import argparse
import codecs
import contextlib
import itertools
import os
import re
import select
import signal
import subprocess
import sys
import tempfile
from collections.abc import Callable, Iterator, Mapping, Sequence
from typing import IO, TypeVar

from tcpsim.command_line import ENDS, MODEL
from tcpsim.output import named
from tcpsim.program import find_program, found
from tcpsim.scenario.text import Scenario, Unreadable, WrongScenario, WrongTrace

BLOCK = 1 << 18                 # bytes of a trace that are read at once
LONGEST_LINE = 1 << 27          # characters
LONGEST_SCENARIO = 1 << 26      # bytes
IMAGE_BEGINS = b'TCB'
# How captures begin: pcap of either byte order, in microseconds and in nanoseconds, and pcapng.
CAPTURES = b'\xd4\xc3\xb2\xa1', b'\xa1\xb2\xc3\xd4', b'\x4d\x3c\xb2\xa1', b'\xa1\xb2\x3c\x4d', b'\x0a\x0d\x0d\x0a'
NOTED = 1 << 16                 # bytes of a program's notes that are read
PATIENCE = 10                   # seconds in which a program ends that has closed its output
S = 10**9
PROGRAMS: list[Piped | subprocess.Popen[bytes] | Spawned] = []    # those that run
SOON = 0.5                      # seconds in which a program ends whose output is refused, if it ends by itself


@contextlib.contextmanager
def opened_run(scenario_path: str, trace_path: str | None = None, program: str | None = None, partial: bool = False,
               until: int | None = None) -> Iterator[tuple[Scenario, Iterator[str]]]:
    """A scenario's file, a text or an image (`-`: standard input), and its trace's lines, one by one: of the
    trace's file, or else as the program prints them. No line is wanted of events past the moment `until`."""
    source = scenario_bytes(scenario_path)
    if trace_path is not None:
        with naming(scenario_path, trace_path), open(trace_path, 'rb') as file:
            scenario = Scenario(scenario_text(source, scenario_path, program))
            yield scenario, itertools.chain.from_iterable(blocks(file.read, trace_path, scenario, partial))
        return
    path = find_program(program, lambda: [scenario_text(source, scenario_path, MODEL)], until)
    with naming(scenario_path, f'the trace of {path}', source), running([path, 'run'], source) as process:
        first = process.read(BLOCK)
        if not first:
            process.check()
        scenario = Scenario(scenario_text(source, scenario_path, program))
        read = Rest(first, process.read).read
        yield scenario, itertools.chain.from_iterable(blocks(read, f'the trace of {path}', scenario, partial, process.check))


@contextlib.contextmanager
def lines_of_text(text: str, program: str | None = None) -> Iterator[Iterator[str]]:
    """The trace's lines of a scenario's text, one by one, as the program prints them, which is ended where not all are wanted."""
    path = find_program(program, lambda: [text])
    with running([path, 'run'], text.encode()) as process:
        yield itertools.chain.from_iterable(blocks(process.read, f'the trace of {path}', Scenario(text), ended=process.check))


@contextlib.contextmanager
def naming(scenario: str, trace: str = '', source: bytes = b'') -> Iterator[None]:
    """Puts the name of its file before what is wrong in a line of a scenario or of a trace, and behind what the program
    refuses the line of the source, and what would do."""
    name = 'standard input' if scenario == '-' else scenario
    try:
        yield
    except WrongScenario as wrong:
        raise Unreadable(f'{name}: {str(wrong).removeprefix("the scenario, ")}') from wrong
    except WrongTrace as wrong:
        raise Unreadable(f'{trace}: {wrong}') from wrong
    except ProgramFailed as wrong:
        if refused := re.fullmatch(r'refused \w+(?: line (\d+))?', wrong.note):
            number = int(refused[1] or 0)
            line = source.split(b'\n')[number - 1][:100].decode('utf-8', 'replace') if number else ''
            told = meant(wrong.program, source, wrong.note) if wrong.program else ''
            wrong.args = f'{name}: {wrong}' + f': {line}' * bool(line) + f'. {told}' * bool(told),
        raise


def meant(path: str, source: bytes, note: str) -> str:
    """What is to be written instead of what the program of this path refuses, or else what the refusal means: of its explanation
    the line behind those that show the place. '' where it explains something else, or nothing."""
    words = [path, 'dis' if source.startswith(IMAGE_BEGINS) else 'asm', '--explain']
    done = subprocess.run(words, input=source, capture_output=True, check=False)
    first, *shown = done.stderr.decode('utf-8', 'replace').splitlines() or ['']
    if first != note or not shown:
        return ''
    if not shown[1:2] or shown[1].strip('^ '):
        return shown[-1]
    at = shown[1].index('^')
    word = shown[0][at:at + shown[1].count('^')]
    grouped = re.fullmatch(r"[0-9]{1,3}(?:([,_'])[0-9]{3}(?:\1[0-9]{3})*)", word) and ': write ' not in shown[2]
    return shown[2] + f': write {re.sub("[^0-9]", "", word)}' * bool(grouped)


class Rest:
    """Gives again the block that was read, and then further ones."""

    def __init__(self, first: bytes, read: Callable[[int], bytes]):
        self._first, self._read = first, read

    def read(self, size: int) -> bytes:
        """The next block; empty at the end."""
        block, self._first = self._first, b''
        return block or self._read(size)


def inputs_of(given: argparse.Namespace) -> tuple[str, str | None, str]:
    """The files that a command line has a tool read, and the program that it may run."""
    return given.scenario, getattr(given, 'trace', None), given.program or found()


# ---- scenarios

def scenario_bytes(path: str) -> bytes:
    """What stands in a scenario's file."""
    if path == '-':
        if sys.stdin is None:
            raise Unreadable('standard input is closed')
        source = sys.stdin.buffer.read(LONGEST_SCENARIO + 1)
    else:
        with open(path, 'rb') as file:
            source = file.read(LONGEST_SCENARIO + 1)
    if source.startswith(CAPTURES):
        raise Unreadable(f'{path} is a capture of packets (pcap), and no scenario')
    if len(source) > LONGEST_SCENARIO:
        raise Unreadable(f'{path} is no scenario: it is longer than {LONGEST_SCENARIO:,} bytes')
    return source


def scenario_text(source: bytes, name: str, program: str | None = None) -> str:
    """The text of a scenario: itself, or of an image what `tcpsim dis` writes."""
    if source.startswith(IMAGE_BEGINS):
        done = subprocess.run([find_program(program), 'dis'], input=source, capture_output=True, check=False)
        if done.returncode:
            raise ProgramFailed(done.returncode, done.stderr)
        source = done.stdout
    try:
        return source.decode('ascii')
    except UnicodeDecodeError as wrong:
        raise Unreadable(f'{name} is no scenario: its byte {wrong.start} is not ASCII') from wrong


# ---- lines

def blocks(read: Callable[[int], bytes], name: str, scenario: Scenario, partial: bool = False,
           ended: Callable[[], None] = lambda: None) -> Iterator[list[str]]:
    """The lines of each block of a trace, its `end N` among them. `ended` raises where what wrote the trace failed; it is
    asked before the last lines are given."""
    count, last, rest = 0, '', ''
    for text in texts(read, name):
        *lines, rest = text.split('\n')
        if text.startswith('end') or '\nend' in text:
            at = next((at for at, line in enumerate(lines) if line.startswith('end')), None)
            if at is not None:
                if lines[at + 1:] or rest or read(1):
                    raise Unreadable(f'{name}: line {count + at + 2} is behind `end`')
                ended()
                yield lines
                return
        if lines:
            count, last = count + len(lines), lines[-1]
            yield lines
    ended()
    if rest.startswith('end '):
        yield [rest]
    elif not count:
        raise Unreadable(f'{name} is empty: line 1 is not there' if not rest else f'{name}: line 1 is cut short')
    elif not partial:
        raise Unreadable(cut(name, count, last, scenario, rest))


def texts(read: Callable[[int], bytes], name: str) -> Iterator[str]:
    """The text of each block, from the beginning of the line that the block before it ended in."""
    decoder, held, size, line = codecs.getincrementaldecoder('ascii')(), [], 0, 1
    while block := read(BLOCK):
        try:
            text = decoder.decode(block)
        except UnicodeDecodeError as wrong:
            line += wrong.object[:wrong.start].count(b'\n')
            raise Unreadable(f'{name} is no trace: in line {line} there is a byte that is not ASCII') from wrong
        held.append(text)
        size += len(text)
        if '\n' in text:
            whole = ''.join(held)
            yield whole
            held = [whole[whole.rindex('\n') + 1:]]
            size, line = len(held[0]), line + whole.count('\n')
        elif size > LONGEST_LINE:
            raise Unreadable(f'{name} is no trace: line {line} has no end')
    if held and held[0]:
        yield ''.join(held)


def cut(name: str, count: int, last: str, scenario: Scenario, rest: str) -> str:
    """Says where a trace is cut."""
    where = f'line {count + 1} is cut short' if rest else f'cut behind event {count}'
    time = last.split()[1:2]
    until = f', {seconds(int(time[0]))} s of {seconds(scenario.end)} s' if time and time[0].isdigit() else ''
    return f'{name} has no "end": {where}{until} (--partial takes it)'


def seconds(time: int) -> str:
    """Nanoseconds as seconds, in words."""
    return f'{time / S:.3f}'.rstrip('0').rstrip('.')


# ---- the program

class Running:
    """A program that runs: what it writes, and how it ended."""

    def __init__(self, process: Piped | subprocess.Popen[bytes], path: str, note: IO[bytes]):
        assert process.stdout
        self._process, self._path, self._note = process, path, note
        self.read: Callable[[int], bytes] = process.stdout.read

    def check(self) -> None:
        """Raises where the program that has closed its output did not end well."""
        try:
            self.check_status(PATIENCE)
        except subprocess.TimeoutExpired:
            raise Unreadable(f'the program closed its output, and did not end in {PATIENCE} s') from None

    def check_status(self, patience: float) -> None:
        """Raises where the program does not end so soon, or not well."""
        status = self._process.wait(patience)
        if status:
            self._note.seek(0)
            raise ProgramFailed(status, self._note.read(NOTED), self._path)

    def read_all(self, most: int) -> bytes:
        """All that it writes once it has ended well; Unreadable where that is more than `most` bytes."""
        found, size = [], 0
        while block := self.read(BLOCK):
            found.append(block)
            size += len(block)
            if size > most:
                raise too_long(most)
        self.check()
        return b''.join(found)


Own = TypeVar('Own', bound='Spawned')


class Spawned:
    """A program's process with these descriptors. It costs a third of subprocess.Popen, which counts where a sweep has thousands of runs
    of some ms: it is spawned, and its end is waited for by a descriptor. What asks to end comes once it is known which process runs."""

    def __init__(self, words: list[str], files: Sequence[int], environment: Mapping[bytes, bytes] = os.environb):
        self.args = words
        self.returncode: int | None = None
        before = signal.pthread_sigmask(signal.SIG_BLOCK, ENDS)
        try:
            self.pid = os.posix_spawn(words[0], words, environment, file_actions=[
                (os.POSIX_SPAWN_DUP2, number, to) for to, number in enumerate(files)], setsigmask=(), setsigdef=(signal.SIGPIPE, signal.SIGXFSZ))
        except BaseException:
            signal.pthread_sigmask(signal.SIG_SETMASK, before)
            raise
        try:
            signal.pthread_sigmask(signal.SIG_SETMASK, before)
        except BaseException:
            self.kill()
            self.wait()
            raise

    def wait(self, patience: float | None = None) -> int:
        """The status once it has ended; subprocess.TimeoutExpired where it does not within `patience` seconds."""
        if self.returncode is None and patience is not None:
            descriptor = os.pidfd_open(self.pid)
            try:
                if not select.select([descriptor], [], [], patience)[0]:
                    raise subprocess.TimeoutExpired(self.args, patience)
            finally:
                os.close(descriptor)
        if self.returncode is None:
            self.returncode = os.waitstatus_to_exitcode(os.waitpid(self.pid, 0)[1])
        return self.returncode

    def kill(self) -> None:
        """Ends it, where it still runs."""
        if self.returncode is None:
            os.kill(self.pid, signal.SIGKILL)

    def __enter__(self: Own) -> Own:
        return self

    def __exit__(self, *_: object) -> None:
        self.wait()


class Piped(Spawned):
    """One whose output is read as it comes, with what `Running` wants of it."""

    def __init__(self, words: list[str], given: IO[bytes], note: IO[bytes]):
        read, write = os.pipe()
        self.stdout = open(read, 'rb', 0)
        try:
            super().__init__(words, (given.fileno(), write, note.fileno()))
        except BaseException:
            self.stdout.close()
            raise
        finally:
            os.close(write)


SPAWNS = all(hasattr(os, name) for name in ('pidfd_open', 'posix_spawn'))


def too_long(most: int) -> Unreadable:
    """What a program is refused for that writes more."""
    return Unreadable(f'the program wrote no table of figures: more than {most:,} bytes')


@contextlib.contextmanager
def running(words: list[str], source: bytes, first: Callable[[], None] | None = None) -> Iterator[Running]:
    """Runs a program on the bytes of a scenario, and ends it where not all that it writes is wanted. Its input and its
    notes are files, so that neither of us waits for the other. The process does `first` before it is the program."""
    with unnamed() as given, unnamed() as note:
        with named(tempfile.gettempdir()):
            given.write(source)
            given.seek(0)
        started: Piped | subprocess.Popen[bytes] = Piped(words, given, note) if SPAWNS and not first else subprocess.Popen(
            words, stdin=given, stdout=subprocess.PIPE, stderr=note, bufsize=0, preexec_fn=first)
        with started as process:
            PROGRAMS.append(process)
            program = Running(process, words[0], note)
            try:
                yield program
            except Unreadable:          # a program that ended, and not well, says better than its output what is wrong
                with contextlib.suppress(subprocess.TimeoutExpired):
                    program.check_status(SOON)
                raise
            finally:
                if process.stdout:
                    process.stdout.close()
                process.kill()
                PROGRAMS.remove(process)


def unnamed() -> IO[bytes]:
    """A new file without a name: in memory, which costs least, where the system has such files."""
    return open(os.memfd_create('tcpsim'), 'w+b') if hasattr(os, 'memfd_create') else tempfile.TemporaryFile()


class ProgramFailed(Unreadable):
    """The program did not end with status 0; `note` is what it said of that, `program` its path where a file of it ran."""

    def __init__(self, status: int, note: bytes, program: str = ''):
        self.ended, self.program = status, program
        self.note = ' '.join(note.decode('utf-8', 'replace').split())
        how = f'was ended by signal {-status}' if status < 0 else f'ended with status {status}'
        super().__init__(f'the program {how}' + f': {self.note}' * bool(self.note))
