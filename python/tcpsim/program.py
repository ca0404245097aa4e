"""Finds what runs a scenario: the program that is named, else the one beside the script, else the one on PATH, else the
one that is built in the clone, else the model, which gives the same bytes, slowly. Nothing but Python's standard library.
"""
from __future__ import annotations

import functools
import hashlib
import os
import re
import shutil
import subprocess
import sys
from collections.abc import Callable, Iterable

from tcpsim import estimate
from tcpsim.command_line import MODEL, Refused, note

NAME, MODEL_NAME = 'tcpsim', 'tcpsim-model'
HERE = os.path.dirname(os.path.abspath(__file__))
TOP = os.path.dirname(os.path.dirname(HERE))
BUILT = os.path.join(TOP, 'crates', NAME, 'out', NAME)
# Events a second: 445,000 took 2.97 s of a processor at 2.5 GHz, with Python 3.11.
MODEL_SPEED = 150_000
UNASKED = 60                    # seconds for which the model runs unasked
DIGITS = 16                     # of a SHA-256, in hexadecimal


class NoProgram(Refused):
    """There is no program to run; the text says where one was looked for."""


def is_program(path: str) -> bool:
    """Whether there is a file that can be run."""
    return os.path.isfile(path) and os.access(path, os.X_OK)


def is_model(path: str) -> bool:
    """Whether this is the model's command."""
    return os.path.basename(path) == MODEL_NAME


def knows(path: str, command: str) -> bool:
    """Whether the help of the program lists a command."""
    done = subprocess.run([path, '--help'], stdin=subprocess.DEVNULL, capture_output=True, check=False)
    return re.search(rb'^  %s\b' % command.encode(), done.stdout, re.M) is not None


def beside(name: str) -> list[str]:
    """Where a command can stand beside the script that runs, or in DIR/bin where this package is installed below
    DIR/lib/tcpsim."""
    script = sys.argv[0] if sys.argv and sys.argv[0] else __file__
    folders = [os.path.dirname(os.path.abspath(script)), os.path.dirname(os.path.realpath(script)), HERE]
    below = os.path.dirname(HERE)
    if os.path.basename(below) == NAME:
        folders.append(os.path.join(os.path.dirname(os.path.dirname(below)), 'bin'))
    return [os.path.join(folder, name) for folder in folders]


def found() -> str:
    """The path of the program where none is named; the clone's where there is none at all."""
    return next(filter(is_program, beside(NAME)), '') or shutil.which(NAME) or BUILT


def model() -> str:
    """The path of the model's command, or NoProgram. It is in the clone's bin/, or beside this python where the package
    is installed."""
    places = [os.path.join(TOP, 'bin', MODEL_NAME), *beside(MODEL_NAME),
              os.path.join(os.path.dirname(sys.executable), MODEL_NAME)]
    path = next(filter(is_program, places), None) or shutil.which(MODEL_NAME)
    if not path:
        raise NoProgram('the program tcpsim is neither beside the script nor on PATH nor built, and its model is not '
                        'there: build it with `make run`, or name it with --program, or give a trace')
    return path


def find_program(named: str | None = None, texts: Callable[[], Iterable[str]] = tuple, until: int | None = None) -> str:
    """The path of what runs scenarios: the program that is `named`, else the one that is found, else the model, which
    standard error says once. `texts` gives the scenarios that are to be run, up to the moment `until` (ns) if there is
    one: where the model would take longer than a minute for them, NoProgram asks for the program, or for MODEL as the
    name. It is raised where nothing can be run."""
    if named == MODEL:
        return model()
    path = named or found()
    if is_program(path):
        return path
    if named and named != BUILT:
        raise NoProgram(f'{named} is no program that can be run')
    path = model()
    check_time(texts(), until)
    say_by_model()
    return path


@functools.lru_cache(maxsize=None)
def say_by_model() -> None:
    """Says on standard error, once, that the model runs in the program's place."""
    lacks = 'built: make run' if os.path.isdir(os.path.join(TOP, 'crates')) else 'installed'
    note(f'{NAME}: by the model (the program is not {lacks}): the same trace, some {MODEL_SPEED:,} events a second')


def check_time(texts: Iterable[str], until: int | None = None) -> None:
    """NoProgram where the model would take longer than a minute for the runs of these scenarios up to a moment (ns)."""
    events = sum(estimate.events_of(text, until) for text in texts)
    seconds = events / MODEL_SPEED
    if seconds > UNASKED:
        size, unit = next(each for each in ((3600, 'hours'), (60, 'minutes'), (1, 'seconds')) if seconds >= 2 * each[0])
        raise NoProgram(f'some {events:,.0f} events would take the model {seconds / size:,.0f} {unit}: build the program '
                        'with `make run`, or say --model')


@functools.lru_cache(maxsize=None)
def version_of(program: str) -> str:
    """What a program says of its version; it is asked once."""
    try:
        done = subprocess.run([program, '--version'], stdin=subprocess.DEVNULL, capture_output=True, timeout=60, check=False)
    except (OSError, subprocess.TimeoutExpired):
        return ''
    return done.stdout.decode('utf-8', 'replace').strip().partition('\n')[0]


@functools.lru_cache(maxsize=None)
def digest_of(program: str) -> str:
    """The first digits of the SHA-256 of a program's file; of the model, which has many, with its version."""
    try:
        with open(program, 'rb') as file:
            contents = file.read()
    except OSError:
        return ''
    return digest(contents + version_of(program).encode() if is_model(program) else contents)


def format_of(program: str) -> int:
    """The number of the format of a program's figures; 1 where it says none."""
    found = re.search(r'\bfigures (\d{1,6})\b', version_of(program))
    return int(found[1]) if found else 1


def digest(contents: bytes) -> str:
    """The first digits of a SHA-256."""
    return hashlib.sha256(contents).hexdigest()[:DIGITS]
