"""How far a run is that takes long in this process: a line on standard error, which a terminal and a notebook show, and else nothing;
or a function of one's own is told."""
from __future__ import annotations

import sys
import time as clock
from collections.abc import Callable

from tcpsim.api.shown import notebook
from tcpsim.command_line import note

Told = Callable[[int, int], None]       # how much of the run has passed, and its end, in ns
EVENTS = 1_000          # between two looks at the clock
PATIENCE = 2            # seconds until the first line
AGAIN = .5              # seconds between two
WIDTH = 70
S = 10**9


class Progress:
    """Says from time to time how far a run is, up to its end in ns. `told` is a function of one's own."""

    def __init__(self, end: int, told: Told | None = None):
        self._end, self._told, self._said = end, told, False
        self._began = clock.monotonic()
        self._due = self._began + (AGAIN if told else PATIENCE)
        self._shown = told is not None or notebook() is not None or sys.stderr is not None and sys.stderr.isatty()

    def at(self, time: int) -> None:
        """The run has come to this moment, in ns."""
        now = clock.monotonic()
        if not self._shown or now < self._due:
            return
        self._due, self._said = now + AGAIN, True
        if self._told:
            self._told(time, self._end)
        else:
            passed, left = now - self._began, (now - self._began) * (self._end / max(time, 1) - 1)
            self._write(f'{time / S:.1f} s of {self._end / S:g} s are run, in {passed:.0f} s; {left:.0f} s are left')

    def done(self) -> None:
        """Takes the line away."""
        if self._said and self._told:
            self._told(self._end, self._end)
        elif self._said:
            self._write('')
            note('\r', end='')

    @staticmethod
    def _write(line: str) -> None:
        note(f'\r{line:{WIDTH}}', end='')
