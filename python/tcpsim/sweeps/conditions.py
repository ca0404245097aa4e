"""What a value is searched for: conditions on figures, as `pq.used >= 95%`, and the figure that is best, as `min f3.took`.

Nothing but Python's standard library.
"""
from __future__ import annotations

import operator
import re
from collections.abc import Sequence
from typing import NamedTuple

from tcpsim.command_line import Wrong
from tcpsim.scenario import units
from tcpsim.sweeps.columns import ShownFigure, columns_of
from tcpsim.sweeps.means import Mean
from tcpsim.sweeps.pattern import Pattern

SIGNS = {'>=': operator.ge, '<=': operator.le, '>': operator.gt, '<': operator.lt}
CONDITION = re.compile(r'\s*([^\s<>=]+)\s*(>=|<=|>|<)\s*([^\s<>=]+)\s*')
GOALS = {'min': min, 'max': max}
EXAMPLE = "'pq.used >= 95% and f0.goodput > 5M'"


class Condition(NamedTuple):
    """A figure has to be at least, at most, above or below a value, in the figure's own unit."""

    column: ShownFigure
    sign: str
    value: float
    word: str               # the value as it was given

    def __str__(self) -> str:
        return f'{self.column.name} {self.sign} {self.word}'

    def holds(self, mean: Mean, replicates: int) -> bool:
        """Whether it holds of a mean, to both ends of its interval. A replicate that lacks the figure does not meet it."""
        if mean.runs < replicates or mean.mean is None:
            return False
        half = mean.half_width or 0
        return SIGNS[self.sign](mean.mean - half if self.sign[0] == '>' else mean.mean + half, self.value)


def percent(word: str) -> float:
    """A percentage: 95%, or as a part of 1, 0.95."""
    try:
        number = decimal(word.removesuffix('%'))
    except Wrong as wrong:
        raise Wrong(f'{wrong} of percent: write 95% or 0.95') from None
    if not word.endswith('%') and number > 1:
        raise Wrong(f'{word!r} is no part of 1: write {word if number <= 100 else 95}% or 0.95')
    return number if word.endswith('%') else 100 * number


def decimal(word: str) -> float:
    """A number, with decimals or without."""
    if not re.fullmatch(r'[0-9]{1,20}(\.[0-9]{1,9})?', word):
        raise Wrong(f'{word!r} is no number')
    return float(word)


# What a figure without a unit of its own counts.
COUNTED = {'mean_packets': 'packets', 'index': 'parts of 1'}
READERS = {'percent': percent, 'ns': units.time, 'bit_s': units.rate, 'bytes': units.size}


def conditions_of(words: Sequence[str], pattern: Pattern) -> list[Condition]:
    """The conditions of all --so-that, with `and` between several; a figure of several flows or links has to hold of each."""
    found = []
    for each in (each for word in words for each in re.split(r'\sand\s', word)):
        parts = CONDITION.fullmatch(each)
        if not parts:
            raise Wrong(f'--so-that {each.strip()!r}: write FIGURE SIGN VALUE, with >=, <=, > or < as the sign, and `and` between '
                        f'several, as {EXAMPLE}')
        name, sign, value = parts.groups()
        for column in columns_of(name, pattern, '--so-that'):
            try:
                found.append(Condition(column, sign, READERS.get(column.figure.unit, decimal)(value), value))
            except Wrong as wrong:
                sentence = str(wrong)
                if column.figure.unit not in READERS:
                    sentence = f'{wrong}: {column.name} is in {COUNTED.get(column.figure.unit, column.figure.unit)}, so write one without a unit, as 3'
                raise Wrong(f'--so-that {each.strip()!r}: {sentence}') from None
    return found


def goal_of(word: str, pattern: Pattern) -> tuple[str, ShownFigure]:
    """Of --best, which is best and of which figure, or Wrong."""
    which, _, name = word.partition(' ')
    columns = columns_of(name.strip(), pattern, '--best') if which in GOALS and name.strip() else []
    if len(columns) != 1:
        raise Wrong(f'--best {word!r}: write min or max and one figure, as \'min {pattern.named("flow")[0]}.took\'')
    return which, columns[0]
