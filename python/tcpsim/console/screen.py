"""Shows the debugger's answers on a terminal: in colours, and by a pager where they are longer than the screen."""
from __future__ import annotations

import functools
import os
import re
import shlex
import shutil
import subprocess
import sys
from collections.abc import Sequence

from tcpsim.command_line import note

PLAIN, BOLD, FAINT, RED, GREEN, CYAN = (f'\033[{number}m' for number in (0, 1, 2, 31, 32, 36))
# What of an answer has which colour: a pattern's groups, in turn.
COLOURS = (
    (re.compile(r'^(\d+ \d+)( \d+ \d+ \d+ )([a-z]+)', re.M), (BOLD, '', CYAN)),         # a line of the trace
    (re.compile(r'(\bdrop=\S+)'), (RED,)),
    (re.compile(r'^(at \d+ of the run, .*)$', re.M), (BOLD,)),
    (re.compile(r'^(\.\. \d+ more)$', re.M), (FAINT,)),
    (re.compile(r'^(of node \w+, .*)$', re.M), (FAINT,)),
    (re.compile(r'^(break \d+: .*)$', re.M), (GREEN,)),
    (re.compile(r'( \(was [^)]*\))'), (BOLD,)),
)
# less ends where all is on the screen, takes colours, and leaves what it showed, as git has it.
LESS = 'FRX'


def is_coloured() -> bool:
    """Whether the terminal takes colours, and they are wanted (https://no-color.org)."""
    return not os.environ.get('NO_COLOR') and os.environ.get('TERM', 'dumb') != 'dumb'


def in_colours(colours: Sequence[str], found: re.Match[str]) -> str:
    """What was found, each of its groups in its colour."""
    return ''.join(f'{colour}{part}{PLAIN}' if colour else part for colour, part in zip(colours, found.groups()))


def coloured(text: str) -> str:
    """An answer with its colours."""
    for pattern, colours in COLOURS:
        text = pattern.sub(functools.partial(in_colours, colours), text)
    return text


def show(text: str) -> None:
    """Shows an answer; what is longer than the screen by $PAGER."""
    width, height = shutil.get_terminal_size()
    rows = sum(max(1, -(-len(line) // width)) for line in text.splitlines())
    text = coloured(text) if is_coloured() else text
    pager = shlex.split(os.environ.get('PAGER', 'less'))
    if rows < height or not pager or not shutil.which(pager[0]):
        sys.stdout.write(text)
        sys.stdout.flush()
    else:
        subprocess.run(pager, input=text.encode(), env={'LESS': LESS, **os.environ}, check=False)


def tell(text: str) -> None:
    """Shows what is noted of a line, in red."""
    if text:
        note(f'{RED}{text.rstrip()}{PLAIN}' if is_coloured() else text.rstrip())
