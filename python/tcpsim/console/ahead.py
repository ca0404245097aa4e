"""Reads the run beside the session, so that `time` is answered at once: a process of its own reads from the session's begin on,
at low priority. It reads the first `AHEAD` events unasked, and the others while somebody waits for an answer.

A question is its number and those of the flows, [] for all; or NO_MORE, where nobody waits any more. An answer has the
question's number, the text, and a sentence where the run cannot be read.
"""
from __future__ import annotations

import contextlib
import os
import signal
from collections.abc import Callable, Iterable, Iterator, Sequence
from multiprocessing import get_context
from multiprocessing.connection import Connection
from types import FrameType

from tcpsim.breakdown import Breakdown, flows_table
from tcpsim.command_line import ENDS, Refused, nothing
from tcpsim.console.session import Interrupted
from tcpsim.critical_path import critical_paths
from tcpsim.prompt import ends_with_parent
from tcpsim.scenario.text import Scenario
from tcpsim.whole_trace import lines_of_text

AHEAD = 1 << 20
TURN = 4096                     # events between two looks for a question
NICE = 10
NO_MORE: tuple[int, list[int]] = (0, [])


class Ahead:
    """Who reads the run of a scenario; `path` is who runs it."""

    def __init__(self, scenario: Scenario, path: str):
        context = get_context('fork')
        self._pipe, theirs = context.Pipe()
        self._asked = 0
        self._process = context.Process(target=serve, args=(theirs, ends_with_parent(), scenario, path), daemon=True)
        self._process.start()
        theirs.close()

    def ask(self, flows: Sequence[int]) -> str:
        """Where the time of these flows went; Interrupted where Ctrl-C came meanwhile."""
        self._asked += 1
        number, text, wrong = 0, '', None
        try:
            self._pipe.send((self._asked, flows))
            while number != self._asked:        # answers that nobody waited for are before it
                with interruptible():
                    self._pipe.poll(None)
                number, text, wrong = self._pipe.recv()
        except Interrupted:
            self._pipe.send(NO_MORE)
            raise
        except (EOFError, OSError):
            raise Refused('who reads the run was ended') from None
        if wrong:
            raise Refused(wrong)
        return text

    def end(self) -> None:
        """Ends the process; the program that it runs ends with its pipe."""
        self._process.kill()
        self._process.join()


@contextlib.contextmanager
def interruptible() -> Iterator[None]:
    """Ctrl-C ends what is done meanwhile: Interrupted then."""
    def interrupt(number: int, _frame: FrameType | None) -> None:
        signal.signal(number, nothing)      # a further one would break into what follows
        raise Interrupted('ended; the session is where it was')
    before = signal.signal(signal.SIGINT, interrupt)
    try:
        yield
    finally:
        signal.signal(signal.SIGINT, before)


class Questions:
    """What the process was asked and has not answered."""

    def __init__(self, pipe: Connection):
        self._pipe, self.waiting = pipe, NO_MORE

    def look(self, patience: float | None) -> None:
        """Takes the next question, if one comes in time."""
        while self._pipe.poll(patience):
            self.waiting, patience = self._pipe.recv(), 0

    def paced(self, lines: Iterable[str]) -> Iterator[str]:
        """The lines, as far as they are to be read now."""
        for count, line in enumerate(lines):
            if not count % TURN:
                self.look(0)
                while count >= AHEAD and self.waiting == NO_MORE:
                    self.look(None)
            yield line

    def answer(self, text_of: Callable[[Sequence[int]], str], wrong: str = '') -> None:
        """Answers what was asked, and then what is, up to the session's end."""
        while True:
            if self.waiting != NO_MORE:
                self._pipe.send((self.waiting[0], '' if wrong else text_of(self.waiting[1]), wrong))
                self.waiting = NO_MORE
            self.look(None)


def serve(pipe: Connection, ends: Callable[[], None] | None, scenario: Scenario, path: str) -> None:
    """What the process does."""
    for number in ENDS:
        signal.signal(number, signal.SIG_IGN if number == signal.SIGINT else signal.SIG_DFL)
    if ends is not None:
        ends()
    os.nice(NICE)
    questions = Questions(pipe)
    with contextlib.suppress(EOFError, OSError):        # the session has ended
        try:
            with lines_of_text(scenario.text, path) as lines:
                walk = critical_paths(scenario, questions.paced(lines))
        except Refused as refused:
            questions.answer(lambda _: '', str(refused))

        def text_of(flows: Sequence[int]) -> str:
            found = [Breakdown(walk, flow) for flow in flows or range(len(scenario.flows))]
            return '\n'.join(found[0].lines() if flows else flows_table(found)) + '\n'
        questions.answer(text_of)
