"""Command lines of the tools, and how a tool ends: done, refused in one sentence, or by a signal.

`run` is what a command calls. Nothing but Python's standard library, and little of it: until `run` is called an
interruption is Python's own.
"""
from __future__ import annotations

import argparse
import contextlib
import importlib
import os
import signal
import sys
import warnings
from collections.abc import Callable
from types import FrameType
from typing import IO, Any, NoReturn, TextIO, TypeVar

from tcpsim import VERSIONS

ENDS = signal.SIGINT, signal.SIGTERM, signal.SIGHUP     # the signals that ask a tool to end
DEBIANS = '/usr/bin/python3'      # which has the packages that apt-get installs
MODEL = '--model'       # as a program's name: the model, wherever it is
AGAIN = 0.01            # seconds after which an interruption comes again that nobody could take
WAKE = 0.5              # seconds after which a read is looked into that began just as a signal had come, and would wait


class Refused(Exception):
    """What a tool does not do; the text is the sentence that says why, without a full stop."""

    status = 1


class Wrong(Refused):
    """A command line, or a word of it, that is not what is asked for."""

    status = 2


class Ended(KeyboardInterrupt):
    """A signal asked the tool to end."""

    def __init__(self, number: int):
        super().__init__(number)
        self.number = number


class OutputClosed(Exception):
    """Nobody reads standard output any more, as behind `head`: the tool ends quietly."""

    status = 128 + signal.SIGPIPE


# ---- words

T = TypeVar('T')


def as_type(read: Callable[[str], T]) -> Callable[[str], T]:
    """A reader of words as argparse takes it."""
    def read_word(word: str) -> T:
        try:
            return read(word)
        except Wrong as wrong:
            raise argparse.ArgumentTypeError(str(wrong)) from None
    return read_word


class SayVersions(argparse.Action):
    """The option --version: one line, however narrow the terminal is."""

    def __call__(self, parser: argparse.ArgumentParser, *_: object) -> None:
        write(f'{tool()} {VERSIONS}\n')
        parser.exit()


class Words(argparse.ArgumentParser):
    """A command line whose every fault is one sentence and status 2."""

    def __init__(self, **given: Any):
        super().__init__(allow_abbrev=False, prog=given.pop('prog', tool()), **given)
        self.add_argument('--version', action=SayVersions, nargs=0, help='the version of the tools, and those of the formats')

    def error(self, message: str) -> NoReturn:
        """Raises what is wrong as `Wrong`."""
        raise Wrong(message)

    def print_help(self, file: IO[str] | None = None) -> None:
        """Writes the help to standard output."""
        write(self.format_help())

    def add_output(self, what: str) -> None:
        """The option -o; `what` says what is written."""
        self.add_argument('-o', '--output', metavar='FILE', help=f'{what}; else standard output')

    def add_trace(self) -> None:
        """What tools that read a run take: a trace, or the program that writes it."""
        self.add_argument('trace', metavar='TRACE', nargs='?', help='else the program is run')
        self.add_argument('--partial', action='store_true', help='take a trace that is cut, as far as it goes')
        self.add_program('the program that is run where no trace is given')

    def add_program(self, what: str) -> None:
        """What names who runs scenarios; `what` says what the program is."""
        self.add_argument('--program', metavar='FILE', help=what)
        self.add_argument('--model', action='store_const', const=MODEL, dest='program',
                          help='run the model, even where the program is there, however long it takes')


def tool() -> str:
    """The name under which the tool was called; by `python3 -m` it is that of its command."""
    folder, name = os.path.split(sys.argv[0])
    return f'tcpsim-{name[:-3]}' if os.path.basename(folder) == 'commands' and name.endswith('.py') else name


def write(text: str) -> None:
    """Writes a text to standard output."""
    from tcpsim import output
    with output.opened() as out:
        out.write(text)


def say(text: str) -> int:
    """Writes a text to standard output, which is all that a command does; answers the status."""
    open_standard_files()
    return status_after(lambda: write(text))


# ---- ends

def command(name: str, module: str) -> Callable[[], int]:
    """The `main` of a command, which answers the status. Where its module is the one that Python runs, it is called."""
    def main() -> int:
        return run(f'tcpsim.cli.{name}')
    if module == '__main__':
        sys.exit(main())
    return main


def run(module: str) -> int:
    """Runs a tool, the `main` of a module; answers its status. Signals that ask to end are raised as `Ended`, so that
    what was begun is taken away; those that were ignored from the start stay so, as nohup has it."""
    open_standard_files()
    warnings.showwarning = say_warning
    heard = [number for number in ENDS if signal.getsignal(number) is not signal.SIG_IGN]
    try:
        try:
            sys.unraisablehook = end_later
            signal.signal(signal.SIGALRM, nothing)
            signal.setitimer(signal.ITIMER_REAL, WAKE, WAKE)
            for number in heard:
                signal.signal(number, end)
            status = status_of(module)
        finally:                # also where a module is not there
            hear_nothing()
    except Ended as wrong:      # that came as the tool had ended, too
        status = 128 + wrong.number
        hear_nothing()
    return status


def hear_nothing() -> None:
    """No signal comes any more, nor an alarm, which would end Python's own end."""
    signal.pthread_sigmask(signal.SIG_BLOCK, ENDS)
    signal.setitimer(signal.ITIMER_REAL, 0)


def become(path: str, words: list[str]) -> None:
    """Goes on as another program; its signals and timers are as a new one's. What came before ends this one."""
    signal.setitimer(signal.ITIMER_REAL, 0)
    for number in ENDS:
        if signal.getsignal(number) != signal.SIG_IGN:
            signal.signal(number, lambda came, _: os._exit(128 + came))
    signal.pthread_sigmask(signal.SIG_UNBLOCK, ENDS)        # a new program has blocked what the one before it had
    os.execv(path, [path, *words])


def go_on_with(package: str) -> None:
    """Goes on by Debian's python3, from the first word on, where that has a package that this one lacks; else returns."""
    import importlib.util
    import subprocess
    if sys.executable == DEBIANS or importlib.util.find_spec(package) or not os.access(DEBIANS, os.X_OK):
        return
    above = os.path.dirname(os.path.dirname(os.path.abspath(__file__)))
    os.environ['PYTHONPATH'] = os.pathsep.join(filter(None, (above, os.environ.get('PYTHONPATH'))))
    if subprocess.run([DEBIANS, '-c', f'import {package}, tcpsim'], stdin=subprocess.DEVNULL, stdout=subprocess.DEVNULL,
                      stderr=subprocess.DEVNULL, check=False).returncode == 0:
        become(DEBIANS, sys.argv)


def end(number: int, _frame: FrameType | None) -> None:
    """A handler: what comes after the first signal no longer counts, so that nothing breaks into taking away."""
    for other in ENDS:
        signal.signal(other, nothing)
    raise Ended(number)


def nothing(_number: int, _frame: FrameType | None) -> None:
    """A handler."""


def end_later(unraisable: sys.UnraisableHookArgs) -> None:
    """Where a signal came while a destructor ran, nobody could take what it raised: it is raised again."""
    if isinstance(wrong := unraisable.exc_value, Ended):
        number = wrong.number
        signal.signal(signal.SIGALRM, lambda *_: end(number, None))
        signal.setitimer(signal.ITIMER_REAL, AGAIN)
    else:
        sys.__unraisablehook__(unraisable)


def status_of(module: str) -> int:
    """The status of a tool; where it is refused, standard error has the sentence."""
    return status_after(lambda: importlib.import_module(module).main())


def status_after(main: Callable[[], object]) -> int:
    """The status once `main` was called; where it is refused, standard error has the sentence."""
    try:
        main()
    except Ended as wrong:
        return 128 + wrong.number
    except SystemExit as done:          # of --help and --version
        return int(done.code or 0)
    except OutputClosed as wrong:
        return wrong.status
    except Refused as wrong:
        return refuse(wrong, wrong.status)
    except OSError as wrong:
        return refuse(sentence(wrong), Wrong.status if isinstance(wrong, FileNotFoundError) else Refused.status)
    except MemoryError:
        return refuse('there is not enough memory for this run')
    return 0


def sentence(wrong: OSError) -> str:
    """What an error of the operating system says, with the file's name where it has one."""
    return ': '.join(str(part) for part in (wrong.filename, wrong.strerror or wrong) if part is not None)


def refuse(message: object, status: int = 1) -> int:
    """Says one sentence on standard error; answers the status."""
    note(f'{tool()}: {" ".join(str(message).split())}')
    return status


def note(text: str, end: str = '\n') -> None:
    """Writes a line on standard error; where nobody can be told, nobody is."""
    if sys.stderr is not None:
        with contextlib.suppress(OSError):
            print(text, end=end, file=sys.stderr, flush=True)


def say_warning(message: Warning | str, category: type[Warning], filename: str, lineno: int, file: TextIO | None = None,
                line: str | None = None) -> None:
    """Says a warning as a tool says its sentences."""
    note(f'{tool()}: {message}')


def open_standard_files() -> None:
    """Has something at the descriptors 0 to 2 where they are closed, so that no file that is opened gets one of them."""
    for number in range(3):
        try:
            os.fstat(number)
        except OSError:
            os.open(os.devnull, os.O_WRONLY if number == 0 else os.O_RDONLY)
