"""A session of the debugger that outlives an interruption.

The program sees no signal, and it is deterministic: where a line's answer is no longer wanted, its process is ended, and
another one goes to the position before that line, with the same breakpoints. All that is kept for it stands in answers of
the program.
"""
from __future__ import annotations

import contextlib
import re
import signal
from collections.abc import Iterator
from dataclasses import dataclass

from tcpsim.command_line import Refused
from tcpsim.prompt import Answer, Prompt, PromptEnded

# What a move is answered: where in the run it came to. Where the session is can be asked too, and is no move.
MOVED = re.compile(r'^at (\d+) of the run, .*$(?!\nnext: )', re.M)
# What a session keeps beside its position: what it is, the command that lists it, a line of the list, and the command that sets it.
LISTS = (('breakpoint', 'breaks', re.compile(r'^break \d+: (.*)$', re.M), 'break'),
         ('display', 'display', re.compile(r'^display \d+: (\w+ \w+)', re.M), 'display'))


class Lost(Refused):
    """A line has no answer, and the session is where it was before; the text is the sentence that says why."""


class Interrupted(Lost):
    """Ctrl-C ended the line."""


@dataclass(frozen=True)
class Kept:
    """What is the same in another process: the position, the lines that set what was set, and the last move's line."""

    position: int = 0
    lines: tuple[str, ...] = ()
    move: str = ''

    def again(self) -> list[str]:
        """The lines that bring a new process here."""
        return [f'step {self.position}'] * (self.position > 0) + list(self.lines)


class Session:
    """The debugger over the bytes of a scenario; `words` begin the command line of who runs it. PromptEnded where that
    refuses them."""

    def __init__(self, words: list[str], source: bytes):
        self._words, self._source, self._kept = words, source, Kept()
        self._anew = False              # whether a process runs that has seen no move of this session
        self._prompt = Prompt(words, source)
        try:
            self._prompt.ready()
        except BaseException:
            self.end()
            raise

    @property
    def counted(self) -> dict[str, list[str]]:
        """The words of the breakpoints and of the displays, in the order of their numbers."""
        return {what: [line.removeprefix(f'{setting} ') for line in self._kept.lines if line.startswith(f'{setting} ')]
                for what, _, _, setting in LISTS}

    def ask(self, line: str) -> Answer:
        """What a line is answered. Interrupted where Ctrl-C came meanwhile; Lost where the process was killed; PromptEnded
        where it ended by itself, or was killed again before it was where the session is."""
        there = False
        if self._anew and not line.strip():
            line = self._kept.move      # the last move, which the process has not seen
            if not line:
                return Answer('', '')
        try:
            with self._interruptible():
                self._prompt.ready()
                there = True
                answer = self._prompt.ask(line)
                self._kept = self._kept_after(line, answer)
        except PromptEnded as ended:
            if ended.status >= 0 or not there:
                raise
            self._start_again()
            raise Lost(f'{how_ended(ended.status)} and was started again; {self._where()}') from None
        return answer

    def end(self) -> None:
        """Ends the process, whatever it does, as one that goes on to where the session is."""
        self._prompt.end()

    @contextlib.contextmanager
    def _interruptible(self) -> Iterator[None]:
        """Ctrl-C ends the process: Interrupted then, with another one. Its handler raises nothing, so that it comes at no
        wrong moment: who waits for the process sees that it ended."""
        came: list[bool] = []

        def interrupt(*_: object) -> None:
            came.append(True)
            self._prompt.kill()
        before = signal.signal(signal.SIGINT, interrupt)
        try:
            yield
        except PromptEnded as ended:
            if not came or ended.status >= 0:
                raise
        finally:
            signal.signal(signal.SIGINT, before)
        if came:
            self._start_again()
            raise Interrupted(f'ended; {self._where()}')

    def _kept_after(self, line: str, answer: Answer) -> Kept:
        moves = MOVED.findall(answer.text)
        if moves:
            self._anew = False
        listed = tuple(f'{setting} {words}' for _, listing, row, setting in LISTS
                       for words in row.findall(self._prompt.ask(listing).text))
        return Kept(int(moves[-1]), listed, line if line.strip() else self._kept.move) if moves else \
            Kept(self._kept.position, listed, self._kept.move)

    def _start_again(self) -> None:
        self._prompt.end()
        self._prompt, self._anew = Prompt(self._words, self._source, self._kept.again()), True

    def _where(self) -> str:
        has = [f'its {what}' if len(words) == 1 else f'its {len(words)} {what}s' for what, words in self.counted.items() if words]
        return f'the session is at {self._kept.position} of the run{", with " * bool(has)}{" and ".join(has)}'


def how_ended(status: int) -> str:
    """How a process ended, as the beginning of a sentence."""
    if status >= 0:
        return f'the program ended with status {status}'
    return f'the program was ended by signal {-status} ({signal.strsignal(-status)})'
