"""Writes what a tool makes, to a file or to standard output.

A plain file is written beside its place, and put there when all is written: until then, and where anything fails, the
old one stays. It keeps its mode and its owner. What is no plain file (a device, a pipe, what a link points to) is
written into. Nothing but Python's standard library.
"""
from __future__ import annotations

import contextlib
import os
import secrets
import signal
import stat
import sys
import tempfile
from collections.abc import Iterable, Iterator, Sequence
from typing import IO

from tcpsim.command_line import ENDS, OutputClosed, Wrong

BLOCK = 1 << 16         # bytes that are held before they are written
FLAGS = os.O_CLOEXEC | os.O_NOCTTY
STANDARD_OUTPUT = 'standard output'


class Output:
    """What is written to a descriptor: text, as UTF-8, or bytes. An error has the file's name."""

    def __init__(self, number: int, name: str):
        self._number, self._name, self._held = number, name, bytearray()

    def write(self, text: str | bytes) -> int:
        """Takes a text or bytes; answers its length."""
        self._held += text.encode('utf-8', 'surrogateescape') if isinstance(text, str) else text
        if len(self._held) >= BLOCK:
            self.flush()
        return len(text)

    def flush(self) -> None:
        """Writes all that is held."""
        with named(self._name):
            while self._held:
                del self._held[:os.write(self._number, self._held)]


@contextlib.contextmanager
def named(name: str) -> Iterator[None]:
    """Errors of the operating system get the name of a file."""
    try:
        yield
    except OSError as wrong:
        raise OSError(wrong.errno, wrong.strerror, name) from wrong


@contextlib.contextmanager
def opened(path: str | None = None, inputs: Iterable[str | None] = ()) -> Iterator[Output]:
    """What a tool writes to: the file at `path`, which is none of `inputs`, or standard output."""
    if path is not None:
        with written(path, inputs) as file:
            yield file
        return
    if sys.stdout is None:
        raise OSError(None, 'it is closed', STANDARD_OUTPUT)
    file = Output(1, STANDARD_OUTPUT)
    try:
        yield file
        file.flush()
    except OSError as wrong:
        if isinstance(wrong, BrokenPipeError) and wrong.filename == STANDARD_OUTPUT:
            raise OutputClosed from wrong
        raise


@contextlib.contextmanager
def written(path: str, inputs: Iterable[str | None] = ()) -> Iterator[Output]:
    """A file that is written whole or not at all."""
    for each in inputs:
        if is_same(path, each):
            raise Wrong(f'-o {path} would write over what is read, {each}')
    with _replaced(path) if _can_be_replaced(path) else _written_into(path) as file:
        yield file


def printable(name: str) -> str:
    """A file's name where text is wanted; what in it is no text is a question mark."""
    return name.encode('utf-8', 'replace').decode('utf-8')


def is_same(path: str, other: str | None) -> bool:
    """Whether two names are of one file that can be lost. `-` is standard input, None is no file."""
    try:
        state = None if other is None else os.fstat(0) if other == '-' else os.stat(other)
        return state is not None and not stat.S_ISCHR(state.st_mode) and os.path.samestat(os.stat(path), state)
    except OSError:
        return False


# ---- a plain file

def _can_be_replaced(path: str) -> bool:
    """Whether another file can take the place of this one without anything but the contents being lost."""
    try:
        old = os.lstat(path)
    except FileNotFoundError:
        return True
    if not stat.S_ISREG(old.st_mode):
        return False
    user, effective = os.geteuid(), os.access in os.supports_effective_ids
    if not os.access(path, os.W_OK, effective_ids=effective):
        raise PermissionError(13, 'Permission denied', path)
    owner = user == 0 or old.st_uid == user and old.st_gid in {os.getegid(), *os.getgroups()}
    return owner and os.access(os.path.dirname(path) or '.', os.W_OK | os.X_OK, effective_ids=effective)


@contextlib.contextmanager
def _replaced(path: str) -> Iterator[Output]:
    beside = os.path.join(os.path.dirname(path), f'.tcpsim-{secrets.token_hex(8)}.part')
    try:
        with named(path):
            number = os.open(beside, os.O_RDWR | os.O_CREAT | os.O_EXCL | os.O_NOFOLLOW | FLAGS, 0o666)
        try:
            with named(path):
                _take_after(number, path)
            file = Output(number, path)
            yield file
            file.flush()
            with named(path):
                os.fsync(number)
        finally:
            os.close(number)
        with named(path):
            os.replace(beside, path)
    finally:
        with contextlib.suppress(FileNotFoundError):
            os.unlink(beside)


def _take_after(number: int, path: str) -> None:
    """Gives a new file the owner and the mode of the old one, if there is one."""
    with contextlib.suppress(FileNotFoundError):
        old, mine = os.lstat(path), os.fstat(number)
        if (old.st_uid, old.st_gid) != (mine.st_uid, mine.st_gid):
            os.fchown(number, old.st_uid, old.st_gid)
        os.fchmod(number, stat.S_IMODE(old.st_mode))


# ---- what is no plain file, or is another's

@contextlib.contextmanager
def _written_into(path: str) -> Iterator[Output]:
    with named(path):
        number = _opened_for_writing(path)
    try:
        if stat.S_ISREG(os.fstat(number).st_mode) and not os.path.samestat(os.fstat(number), os.fstat(1)):
            with tempfile.TemporaryFile() as kept:
                file = Output(kept.fileno(), tempfile.gettempdir())
                yield file
                file.flush()
                with named(path), held_back(ENDS):
                    _copy(kept, number)
        else:
            file = Output(number, path)
            yield file
            file.flush()
    finally:
        os.close(number)


def _opened_for_writing(path: str) -> int:
    """A descriptor of what stands at a path, or of a link's target that is not there yet."""
    try:
        if os.path.samestat(os.stat(path), os.fstat(1)):
            return os.dup(1)            # /dev/stdout, where a shell's file is written on and not from its beginning
        return os.open(path, os.O_WRONLY | FLAGS)
    except FileNotFoundError:
        return os.open(path, os.O_WRONLY | os.O_CREAT | FLAGS, 0o666)


def _copy(kept: IO[bytes], number: int) -> None:
    """Puts a file's bytes in the place of another's. Room for them is asked for first, so that on a full disk the old
    ones stay."""
    size, old = kept.seek(0, os.SEEK_END), os.fstat(number).st_size
    try:
        if size > old:
            os.posix_fallocate(number, 0, size)
    except OSError:
        os.ftruncate(number, old)
        raise
    kept.seek(0)
    while block := kept.read(BLOCK):
        while block:
            block = block[os.write(number, block):]
    os.ftruncate(number, size)


@contextlib.contextmanager
def held_back(signals: Iterable[int]) -> Iterator[None]:
    """Signals come when this is over."""
    before = signal.pthread_sigmask(signal.SIG_BLOCK, signals)
    try:
        yield
    finally:
        signal.pthread_sigmask(signal.SIG_SETMASK, before)


def aligned(rows: Sequence[Sequence[str]]) -> list[str]:
    """Rows of words, the first column to the left and the others to the right."""
    widths = [max(map(len, column)) for column in zip(*rows)]
    return [row[0].ljust(widths[0]) + ''.join('  ' + word.rjust(width) for word, width in zip(row[1:], widths[1:]))
            for row in rows]
