"""tcpsim-run: what `tcpsim` does, by the program or, where there is none, by the model.

Usage: bin/tcpsim-run [run | figures | debug | asm | dis] [OPTIONS] [SCENARIO]
"""
from __future__ import annotations

import argparse
import contextlib
import difflib
import os
import tempfile

from tcpsim.command_line import Words, Wrong, become
from tcpsim.program import MODEL, find_program, is_model
from tcpsim.scenario.text import Unreadable
from tcpsim.whole_trace import scenario_bytes, scenario_text

COMMANDS = ('run', 'figures', 'debug', 'asm', 'dis')
LASTING = ('run', 'figures')            # go to the run's end
OWN = ('--progress',)                   # options that the program alone has
VALUES = ('workers', 'groups', 'from', 'every')     # options of the program and of the model, and their flags
FLAGS = ('series', 'names', 'explain')


def command_line() -> Words:
    """The words of the command."""
    words = Words(usage='%(prog)s [COMMAND] [--workers N] [--groups G] [--from T] [--every D [--series]] [--names] '
                  '[--model | --program FILE] [SCENARIO]',
                  description='Runs a scenario, by the program or else by the model: each command is that of tcpsim.')
    words.add_argument('words', metavar='COMMAND SCENARIO', nargs='*',
                       help=f'{", ".join(COMMANDS)}; where none is named: run. The scenario is a text or an image, else '
                       'standard input; with a scenario `debug` is a prompt')
    words.add_argument('--workers', metavar='N', help='of run and debug: how many run its groups side by side')
    words.add_argument('--groups', metavar='G', help='of run and debug: which nodes are in which group')
    words.add_argument('--from', metavar='T', help='of figures: count from this moment on, as 1.5s or 20ms')
    words.add_argument('--every', metavar='D', help='of figures: print rows by time behind the table, in steps as 1.5s or 20ms')
    words.add_argument('--series', action='store_true', help='of figures: print these rows without the table')
    words.add_argument('--names', action='store_true', help='of figures: print the names of flows and links in a last column')
    words.add_argument('--explain', action='store_true', help='show on standard error why an input is refused')
    for name in OWN:
        words.add_argument(name, action='store_true', help='as of tcpsim, which the model has not')
    words.add_program('the program that is run')
    return words


def check_word(words: list[str]) -> None:
    """Raises where the first word is a mistaken command rather than a file."""
    if words and words[0].isalpha() and not os.path.exists(words[0]):
        near = difflib.get_close_matches(words[0], COMMANDS, 1)
        there = f'the nearest command is {near[0]}' if near else f'commands are {", ".join(COMMANDS)}, and at the prompt of debug more'
        raise Wrong(f'{words[0]} is no command and no file: {there}')


def call_of(given: argparse.Namespace) -> tuple[str, str | None]:
    """The command and the scenario's file, None where it is standard input's."""
    words = list(given.words)
    if words and words[0] in COMMANDS:
        command = words.pop(0)
    else:
        command = 'run'
        check_word(words)
    if len(words) > 1:
        raise Wrong(f'one scenario is run at a time, and not {words[1]} too')
    return command, words[0] if words and words[0] != '-' else None


def held(source: bytes) -> None:
    """Has standard input begin again with what was read of it."""
    with tempfile.TemporaryFile() as file:
        file.write(source)
        file.seek(0)
        os.dup2(file.fileno(), 0)


def texts_of(command: str, file: str | None) -> list[str]:
    """The text of the scenario whose run goes to its end; none of another command. What cannot be read is told by who
    runs it."""
    with contextlib.suppress(OSError, Unreadable):
        if command in LASTING:
            source = scenario_bytes(file or '-')
            if file is None:
                held(source)
            return [scenario_text(source, file or '-', MODEL)]
    return []


def main() -> None:
    """Goes on as the program or as the model."""
    given = command_line().parse_intermixed_args()
    command, file = call_of(given)
    path = find_program(given.program, lambda: texts_of(command, file))
    own = [name for name in OWN if getattr(given, name[2:])]
    if own and is_model(path):
        raise Wrong(f'{own[0]} wants the program: build it with `make run`')
    options = [f'--{name}={getattr(given, name)}' for name in VALUES if getattr(given, name)]
    flags = [f'--{name}' for name in FLAGS if getattr(given, name)]
    become(path, [command, *own, *options, *flags, *([file] if file else [])])
