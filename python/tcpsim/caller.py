"""Calls programs one after another that read all of a text and write little, as the runs of a sweep. Nothing but Python's standard
library."""
from __future__ import annotations

import contextlib
import fcntl
import os
import subprocess
from collections.abc import Iterator
from typing import IO

from tcpsim.whole_trace import BLOCK, NOTED, PROGRAMS, SPAWNS, ProgramFailed, Spawned, running, too_long, unnamed

KEPT = SPAWNS and hasattr(os, 'memfd_create') and hasattr(fcntl, 'F_ADD_SEALS')


class Caller:
    """Calls programs one after another that read all of a text and write little, as the runs of a sweep. Their input, output and notes
    are the same three files in memory, so a call costs less than half of `running`. Of one thread of one process alone."""

    def __init__(self, most: int):
        self._most, self._size = most, 0        # the bytes that a program can write, and those of the last input
        self._files: list[IO[bytes]] = []
        self._environment = dict(os.environb)

    def output_of(self, words: list[str], source: bytes, patience: float | None = None) -> Iterator[bytes | None]:
        """What a program writes, and before that None where it has not ended within `patience` seconds. ProgramFailed where it does not
        end well, Unreadable where it would write more. One whose end nobody waits for is ended."""
        if not self._files and not self._make():
            with running(words, source) as program:
                written = program.read_all(self._most)
            yield written
            return
        given, output, note = (file.fileno() for file in self._files)
        os.pwrite(given, source, 0)
        if len(source) < self._size:
            os.ftruncate(given, len(source))
        self._size = len(source)
        for each in (given, output, note):
            os.lseek(each, 0, os.SEEK_SET)
        process = Spawned(words, (given, output, note), self._environment)
        PROGRAMS.append(process)
        try:
            try:
                process.wait(patience)
            except subprocess.TimeoutExpired:
                yield None
            status = process.wait()
        except BaseException:
            process.kill()
            process.wait()
            self._files = []
            raise
        finally:
            PROGRAMS.remove(process)
        size = os.lseek(output, 0, os.SEEK_CUR)
        if not status:
            yield os.pread(output, size, 0)
            return
        said = os.pread(note, min(NOTED, os.lseek(note, 0, os.SEEK_CUR)), 0)
        self._files = []        # they can be great
        raise too_long(self._most) if size > self._most - BLOCK else ProgramFailed(status, said, words[0])

    def _make(self) -> bool:
        """Makes the files, the second of which cannot grow; whether the system has such files, and lets one be so great."""
        with contextlib.suppress(OSError):
            if KEPT:
                bounded = open(os.memfd_create('tcpsim', os.MFD_CLOEXEC | os.MFD_ALLOW_SEALING), 'r+b', 0)
                os.ftruncate(bounded.fileno(), self._most)
                fcntl.fcntl(bounded, fcntl.F_ADD_SEALS, fcntl.F_SEAL_GROW)
                self._size, self._files = 0, [unnamed(), bounded, unnamed()]
        return bool(self._files)
