"""tcpsim-debug: the debugger's prompt with a line that is edited, completed and remembered, and with Ctrl-C.

Usage: bin/tcpsim-debug [--workers N] [--groups G] [--explain] [--model | --program FILE] SCENARIO

Where standard input or output is no terminal it is `tcpsim debug SCENARIO`.
"""
from __future__ import annotations

import argparse
import contextlib
import os
import signal
import sys

from tcpsim.command_line import Refused, Words, Wrong, become, note, nothing
from tcpsim.console.completion import Completion
from tcpsim.console.screen import show, tell
from tcpsim.console.session import Interrupted, Lost, Session, how_ended
from tcpsim.console.times import Times
from tcpsim.program import find_program
from tcpsim.prompt import PROMPT, PromptEnded
from tcpsim.whole_trace import scenario_bytes

HINT = 'help lists the commands. Tab completes, Ctrl-C ends a command and keeps the session, Ctrl-D ends it.'


def command_line() -> Words:
    """The words of the command."""
    words = Words(description='The debugger at a prompt, with lines that are edited, completed and remembered: what can be '
                  'typed is what tcpsim debug takes.')
    words.add_argument('scenario', metavar='SCENARIO', help='a text or an image')
    words.add_argument('--workers', metavar='N', help='as of tcpsim debug: how many run its groups side by side')
    words.add_argument('--groups', metavar='G', help='as of tcpsim debug: which nodes are in which group')
    words.add_argument('--explain', action='store_true', help='as of tcpsim debug; on a terminal it is given')
    words.add_program('the program that is run')
    return words


def options_of(given: argparse.Namespace, terminal: bool) -> list[str]:
    """The options that the program is given."""
    explained = ['--explain'] * (given.explain or terminal)
    return explained + [word for name in ('workers', 'groups') if getattr(given, name) for word in (f'--{name}', getattr(given, name))]


def hold(words: list[str], source: bytes) -> int:
    """Answers line after line, up to the end of input; answers the status, which is the program's where that ends."""
    try:
        from tcpsim.console.keyboard import Keyboard, drop_keys, keys_kept
    except ImportError as wrong:
        raise Refused(f'this python has no readline, by which lines are edited: {words[0]} debug goes without') from wrong
    with contextlib.ExitStack() as ends:
        session = Session(words, source)
        ends.callback(session.end)
        signal.signal(signal.SIGINT, nothing)
        prompt = Times(session.ask, source, words[0])
        ends.callback(prompt.end)
        completion = Completion(prompt.ask)
        keyboard = Keyboard(PROMPT.decode(), lambda before: completion.words(before, session.counted))
        ends.enter_context(keys_kept())
        note(HINT)
        while (line := keyboard.line()) is not None:
            try:
                answer = prompt.ask(line)
            except Interrupted as ended:
                drop_keys()     # those that were typed behind the line
                tell(f'\ntcpsim-debug: {ended}')
            except Lost as lost:
                tell(f'tcpsim-debug: {lost}')
            else:
                show(answer.text)
                tell(answer.note)
    return 0


def last_words(ended: PromptEnded) -> int:
    """Shows what the program said last; answers its status, or refuses where a signal ended it."""
    if ended.status < 0:
        raise Refused(how_ended(ended.status))
    show(ended.last.text)
    tell(ended.last.note)
    return ended.status


def main() -> None:
    """Holds a session, and ends with the status of the program."""
    given = command_line().parse_args()
    if given.scenario == '-':
        raise Wrong('standard input has the commands: name the file of the scenario')
    terminal = all(map(os.isatty, (0, 1)))
    path = find_program(given.program)
    words = ['debug', *options_of(given, terminal)]
    if not terminal:
        become(path, [*words, given.scenario])
    source = scenario_bytes(given.scenario)
    try:
        status = hold([path, *words], source)
    except PromptEnded as ended:
        status = last_words(ended)
    sys.exit(status)
