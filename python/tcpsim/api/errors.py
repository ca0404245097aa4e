"""What the API raises. Each error is an `Error`; its text is a sentence that says why."""
from __future__ import annotations

import argparse
import contextlib
import importlib
import re
from collections.abc import Iterator
from types import ModuleType

from tcpsim.command_line import Refused as Error
from tcpsim.command_line import Wrong
from tcpsim.program import NoProgram
from tcpsim.scenario.text import Unreadable
from tcpsim.whole_trace import ProgramFailed

NOTE = re.compile(r'refused (\w+)(?: line (\d+))?\s?(.*)', re.S)
OPTION = re.compile(r'(?:\bargument )?(?<![\w-])--([a-z][\w-]*)(?:/--[a-z][\w-]*)*')      # of the tools, in a sentence
IN_PYTHON = {'from': 'begin', 'to': 'end', 'flow': 'flows', 'link': 'links'}                # those with another name
PACKAGES = {'pandas': 'python3-pandas', 'matplotlib': 'python3-matplotlib', 'IPython': 'python3-ipython'}


class Refused(Error):
    """A scenario, or a command of the debugger, is refused.

    `code` is the program's, as 'E4'; docs/FORMATS.md has each. `line` is that of the scenario's text, counted from 1, 0 where
    the text as a whole is at fault, and None of a command, which is then in `command`. `explained` is what the program shows
    with it, if anything.
    """

    def __init__(self, code: str, line: int | None = None, explained: str = '', command: str = ''):
        super().__init__(code, line, explained, command)
        self.code, self.line, self.explained, self.command = code, line, explained, command

    def __str__(self) -> str:
        words = self.code if self.line is None else f'{self.code} line {self.line}'
        words += f' of `{self.command}`' if self.command else ''
        return f'{words}\n{self.explained}' if self.explained else words


class WrongQueue(Error):
    """A class that is a queue does what no queue can, as giving a packet that does not wait in it."""


class NotInstalled(Error, ImportError):
    """A package is asked for that is not there; the text names Debian's."""


for _kind in (Error, Wrong, NoProgram, Refused, WrongQueue, NotInstalled):
    _kind.__module__ = 'tcpsim'         # as users name them
Error.__name__ = Error.__qualname__ = 'Error'


def refusal(note: str) -> Refused | None:
    """The refusal that a note of the program's or the model's tells; None where it tells none."""
    found = NOTE.match(note)
    return Refused(found[1], None if found[2] is None else int(found[2]), found[3].rstrip()) if found else None


def as_raised(wrong: ProgramFailed) -> Error:
    """What is raised where the program did not end well: its refusal, if it was one."""
    return refusal(wrong.note) or Error(str(wrong))


def in_python(sentence: str) -> str:
    """A sentence of the tools, with the names that their options have in Python."""
    return OPTION.sub(lambda found: IN_PYTHON.get(found[1], found[1]).replace('-', '_'), sentence)


@contextlib.contextmanager
def as_api() -> Iterator[None]:
    """Raises as the API's errors what the tools' modules raise: Refused, Wrong, or Error where the program did not end well.
    Decorates functions too."""
    try:
        yield
    except ProgramFailed as wrong:
        raise as_raised(wrong) from None
    except (Unreadable, Wrong, argparse.ArgumentTypeError) as wrong:
        raise Wrong(in_python(str(wrong))) from None


class ByName(dict):
    """A table by name, in the scenario's order. A KeyError says what names there are."""

    def __missing__(self, name: object) -> None:
        raise KeyError(f'{name!r}: there are {", ".join(self)}')


def wanted(name: str) -> ModuleType:
    """A package that is not Python's own; NotInstalled where it is not there."""
    try:
        return importlib.import_module(name)
    except ImportError as wrong:
        package = name.partition('.')[0]
        raise NotInstalled(f'this wants {package}, which is not there: apt-get install {PACKAGES[package]}') from wrong
