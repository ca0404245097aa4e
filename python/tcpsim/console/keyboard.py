"""Reads lines from a terminal by Python's readline: edited, remembered in a file, and completed."""
from __future__ import annotations

import contextlib
import io
import os
import readline
import shutil
import signal
import sys
import termios
from collections.abc import Callable, Iterator, Sequence
from types import FrameType

from tcpsim.command_line import Ended, nothing

MOST_REMEMBERED = 1_000         # lines
COMPLETE = 'bind ^I rl_complete' if 'libedit' in (readline.__doc__ or '') else 'tab: complete'
SETTINGS = COMPLETE, 'set show-all-if-ambiguous on'
LFLAG = 3                       # where a terminal's settings have the flag NOFLSH


def history_file() -> str:
    """Where typed lines are remembered."""
    state = os.environ.get('XDG_STATE_HOME') or os.path.join(os.path.expanduser('~'), '.local', 'state')
    return os.path.join(state, 'tcpsim', 'debug_history')


class Keyboard:
    """Lines behind a prompt. `words` answers what can stand behind the beginning of a line, with what each means."""

    def __init__(self, prompt: str, words: Callable[[str], list[tuple[str, str]]]):
        self._prompt, self._words = prompt, words
        self._fitting: list[tuple[str, str]] = []
        if isinstance(sys.stdin, io.TextIOWrapper):
            sys.stdin.reconfigure(errors='surrogateescape')     # what is no text goes to the program as it is typed
        readline.set_completer_delims(' ')
        readline.set_completer(self._complete)
        readline.set_completion_display_matches_hook(self._display)
        for setting in SETTINGS:
            readline.parse_and_bind(setting)
        readline.set_history_length(MOST_REMEMBERED)
        with contextlib.suppress(OSError):
            readline.read_history_file(history_file())

    def line(self) -> str | None:
        """The next line, None at the end of input. Ctrl-C clears what is typed, and means no line."""
        while True:
            count = readline.get_current_history_length()
            signal.signal(signal.SIGINT, interrupt)
            try:
                line = typed(self._prompt)
            except EOFError:
                print()
                return None
            except Ended:
                raise
            except KeyboardInterrupt:
                print()
                continue
            if readline.get_current_history_length() > count:
                remember()
            return line

    def _complete(self, text: str, state: int) -> str | None:
        """The state-th word that completes the text, with the space behind it; None behind the last."""
        if state == 0:
            self._fitting = [it for it in self._words(readline.get_line_buffer()[:readline.get_begidx()]) if it[0].startswith(text)]
        return f'{self._fitting[state][0]} ' if state < len(self._fitting) else None

    def _display(self, _text: str, _words: Sequence[str], _longest: int) -> None:
        """Shows what fits, a line each, and then the line that is typed again."""
        readline.redisplay()        # what is completed by now stands in the line, and not behind what follows
        width = max(len(word) for word, _ in self._fitting)
        most = shutil.get_terminal_size().columns - 1
        for word, what in self._fitting:
            sys.stdout.write(f'\n{f"{word.ljust(width)}  {what}"[:most].rstrip()}')
        sys.stdout.write(f'\n{self._prompt}{readline.get_line_buffer()}')
        sys.stdout.flush()


def typed(prompt: str) -> str:
    """A line; KeyboardInterrupt where Ctrl-C comes meanwhile and has the handler `interrupt`."""
    return input(prompt)


def interrupt(number: int, frame: FrameType | None) -> None:
    """A handler: raises in `typed` alone, and once. What a callback of readline's raises is swallowed; and Python takes no
    second interruption before it has left input()."""
    if frame is not None and frame.f_code is typed.__code__:
        signal.signal(number, nothing)
        raise KeyboardInterrupt


@contextlib.contextmanager
def keys_kept() -> Iterator[None]:
    """Ctrl-C takes away no key that was typed before it. Readline, which saw such a key, would wait for it, and hear no
    Ctrl-C while it waits."""
    before = termios.tcgetattr(0)
    termios.tcsetattr(0, termios.TCSANOW, [*before[:LFLAG], before[LFLAG] | termios.NOFLSH, *before[LFLAG + 1:]])
    try:
        yield
    finally:
        with contextlib.suppress(termios.error):        # the terminal is gone
            termios.tcsetattr(0, termios.TCSANOW, before)


def drop_keys() -> None:
    """Takes away the keys that were typed and are not yet read."""
    with contextlib.suppress(termios.error):
        termios.tcflush(0, termios.TCIFLUSH)


def remember() -> None:
    """Writes the last line into the file; where that cannot be, it is forgotten with the session."""
    path = history_file()
    with contextlib.suppress(OSError):
        os.makedirs(os.path.dirname(path), mode=0o700, exist_ok=True)
        os.close(os.open(path, os.O_WRONLY | os.O_CREAT | os.O_CLOEXEC, 0o600))
        readline.append_history_file(1, path)
