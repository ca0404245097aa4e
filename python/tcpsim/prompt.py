"""The debugger's prompt as a process behind pipes, of the program or the model: a line is typed, and what it is answered
is read up to the next prompt. Nothing but Python's standard library."""
from __future__ import annotations

import contextlib
import ctypes
import os
import selectors
import signal
import subprocess
import tempfile
import threading
from collections.abc import Callable, Iterable
from dataclasses import dataclass

from tcpsim.whole_trace import PATIENCE

PROMPT = b'(tcpsim) '
BLOCK = 1 << 16
SET_PARENT_DEATH_SIGNAL = 1     # prctl(2)


@dataclass(frozen=True)
class Answer:
    """What a line is answered: `text` on standard output, and `note` on standard error, but for the prompt behind it."""

    text: str
    note: str


class PromptEnded(Exception):
    """The process has ended: its status, negative the number of a signal, and what it wrote last."""

    def __init__(self, status: int, last: Answer):
        super().__init__(status)
        self.status, self.last = status, last


class Prompt:
    """The prompt of a process over the bytes of a scenario. `lines` are typed at once; their answers nobody wants. An
    interruption that is typed at the terminal does not reach the `process`."""

    def __init__(self, words: list[str], source: bytes, lines: Iterable[str] = ()):
        with tempfile.TemporaryFile() as scenario:
            scenario.write(source)
            scenario.flush()
            self.process = subprocess.Popen(
                [*words, f'/proc/self/fd/{scenario.fileno()}'], stdin=subprocess.PIPE, stdout=subprocess.PIPE,
                stderr=subprocess.PIPE, bufsize=0, pass_fds=(scenario.fileno(),), start_new_session=True,
                preexec_fn=ends_with_parent())
        assert self.process.stdin and self.process.stdout and self.process.stderr
        self._in, self._out, self._err = self.process.stdin, self.process.stdout, self.process.stderr
        self._selector = selectors.DefaultSelector()
        for end in (self._out, self._err):
            os.set_blocking(end.fileno(), False)
            self._selector.register(end, selectors.EVENT_READ)
        self._unread = 1
        for line in lines:
            self._type(line)
            self._unread += 1

    def ready(self) -> None:
        """Waits until the process has read all that was typed, and asks for a line; PromptEnded where it does not."""
        if self._unread:
            self._read(self._unread)
            self._unread = 0

    def ask(self, line: str) -> Answer:
        """What a line is answered; PromptEnded where the process ends with it."""
        self.ready()
        self._type(line)
        return self._read()

    def end(self) -> None:
        """Ends the process, whatever it does, and what it started."""
        with contextlib.suppress(OSError):
            self._in.close()
        if self.process.poll() is None:
            self.kill()
        self.process.wait()
        self._selector.close()
        self._out.close()
        self._err.close()

    def kill(self) -> None:
        """Kills the process, and what it started. A handler can call it: `ready` and `ask` then raise PromptEnded."""
        if self.process.returncode is None:             # else its number can be another's
            with contextlib.suppress(ProcessLookupError):
                os.killpg(self.process.pid, signal.SIGKILL)

    def _type(self, line: str) -> None:
        with contextlib.suppress(BrokenPipeError):      # it has ended, which its outputs say
            self._in.write(line.encode('utf-8', 'surrogateescape') + b'\n')

    def _read(self, prompts: int = 1) -> Answer:
        """What is written up to the next prompt, or up to a further one. No note has a prompt in it: none of its words has
        a space."""
        out, err = bytearray(), bytearray()
        while err.count(PROMPT) < prompts:
            for key, _ in self._selector.select():
                end = self._out if key.fileobj is self._out else self._err
                block = end.read(BLOCK)
                if block:
                    (out if end is self._out else err).extend(block)
                elif block == b'' and end is self._err:
                    out += self._out.read() or b''
                    raise PromptEnded(self.process.wait(PATIENCE), answer_of(out, err))
        while block := self._out.read(BLOCK):           # the answer was written before the prompt
            out += block
        return answer_of(out, err[:-len(PROMPT)])


def answer_of(out: bytes, err: bytes) -> Answer:
    """An answer, of what stands on both outputs."""
    return Answer(*(bytes(part).decode('utf-8', 'replace') for part in (out, err)))


def ends_with_parent(number: int = signal.SIGKILL) -> Callable[[], None] | None:
    """What a process does before it becomes the program: it asks for a signal when this process ends, however that ends.
    None in a thread, with which it would end, and where the system has no such request."""
    parent, found = os.getpid(), getattr(ctypes.CDLL(None), 'prctl', None)
    if found is None or threading.current_thread() is not threading.main_thread():
        return None
    prctl: Callable[[int, int], int] = found

    def ask() -> None:
        prctl(SET_PARENT_DEATH_SIGNAL, number)
        if os.getppid() != parent:
            os.kill(os.getpid(), signal.SIGKILL)
    return ask
