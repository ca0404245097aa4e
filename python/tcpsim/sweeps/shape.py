"""What is set of a whole shape: a scenario that tcpsim-net wrote has a line with its words, which are changed and give another one.

So rtt=20ms,50ms, flows=1,4,16 or spread=1..10 are values of a sweep as those of a link or a flow are.
"""
from __future__ import annotations

import functools
import re
import shlex
from collections.abc import Callable, Sequence
from typing import Any, NamedTuple, Union

from tcpsim.cli import net
from tcpsim.command_line import Wrong
from tcpsim.scenario import units
from tcpsim.scenario.senders import initial_window, variant
from tcpsim.scenario.units import Queue, spelled_rate, spelled_time

WRITTEN = re.compile(r'^# Written by: tcpsim-net (.+)$', re.M)
SHAPE = 'tcpsim-net'            # what stands in the place of a link's or a flow's name
Value = Union[int, str, Queue, tuple]       # of an option: one, or those of several flows


class Kind(NamedTuple):
    """How an option's words are read and written, and its unit in a column's title."""

    read: Callable[[str], Value]
    spell: Callable[[Any], str]     # of a value that `read` gives
    unit: str | None


# By what an option's help calls its words.
KINDS = {'RATE': Kind(units.rate, spelled_rate, 'bit_s'), 'TIME': Kind(units.time, spelled_time, 'ns'), 'BYTES': Kind(units.size, str, 'bytes'),
         'N': Kind(units.count, str, None), 'K': Kind(units.count, str, None), 'QUEUE': Kind(units.queue, str, None), 'VARIANT': Kind(variant, str, None)}
NOT_SET = '--lose', '--end'     # which links and the run have as fields of their own


class Option(NamedTuple):
    """An option of a shape: its word, what reads its values, and whether it takes a list."""

    word: str
    kind: Kind
    many: bool

    def words(self, value: Value) -> str:
        """A value in words, those of several flows with + between."""
        return '+'.join(map(self.kind.spell, value if isinstance(value, tuple) else (value,))) if not isinstance(value, Queue) else str(value)


@functools.lru_cache(maxsize=64)
def words_of(text: str) -> tuple[str, ...]:
    """The words of tcpsim-net that wrote a text; Wrong where there are none, or where they write another one."""
    found = WRITTEN.search(text)
    if not found:
        raise Wrong('no line of the scenario says by which words tcpsim-net wrote it')
    words = tuple(shlex.split(found[1]))
    if net.scenario(list(words)) != text:
        raise Wrong('the scenario was changed since tcpsim-net wrote it: write another one by tcpsim-net, or set its links and flows')
    return words


def options_of(text: str) -> dict[str, Option]:
    """The options of the shape that a text was written by, by their names."""
    found = {}
    for option in net.SHAPES[words_of(text)[0]][1]:
        name, many, _ = str(net.OPTIONS[option]['metavar']).partition('[')
        if option not in NOT_SET:
            word = '--rate' if option == '--rates' else option
            kind = KINDS[name]._replace(read=initial_window) if option == '--iw' else KINDS[name]
            found[word[2:]] = Option(word, kind, bool(many))
    return found


@functools.lru_cache(maxsize=1_024)
def with_options(text: str, given: Sequence[tuple[str, str]]) -> str:
    """The text that tcpsim-net writes with these options in the place of its own, of each its word and its value."""
    words, kept, rest = [f'{option}={value.replace("+", ",")}' for option, value in given], [], list(words_of(text))
    while rest:
        word = rest.pop(0)
        name, sign, _ = word.partition('=')
        if name in (option for option, _ in given):
            del rest[:not sign]
        else:
            kept.append(word)
    return net.scenario([*kept, *words])
