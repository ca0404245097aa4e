"""The search for a value: the least or the greatest that meets conditions, or the one whose figure is best.

It does not take for granted that a figure rises or falls with the value. Of each choice of the other values it tries a few
values of the whole range, halves each stretch in which the answer changes, and then tries those from which a better answer
could still come, nearest first. Which values are tried depends on their figures alone, so a search is the same everywhere.
Nothing but Python's standard library.
"""
from __future__ import annotations

from collections.abc import Iterable, Sequence
from typing import NamedTuple

from tcpsim.command_line import Wrong
from tcpsim.estimate import events_of
from tcpsim.scenario.units import Queue
from tcpsim.settled import Thirds
from tcpsim.sweeps.conditions import GOALS, Condition
from tcpsim.sweeps.columns import ShownFigure
from tcpsim.sweeps.means import Averaged, mean_row
from tcpsim.sweeps.pattern import Setting
from tcpsim.sweeps.pool import Rows, looked_at
from tcpsim.sweeps.rows import Grid

LEAST, GREATEST = 'least', 'greatest'
EVENTS = 3 * 10**7      # of the runs that are tried further where no --check says how many
FEWEST, MOST = 20, 1_000        # runs that these are at least and at most
SPREAD = 8              # values over the whole range where few of 1, 2, 5, 10 and so on are in it


# ---- what is asked

class Asked(NamedTuple):
    """What is searched for: LEAST, GREATEST, or min or max of `best`; so that all conditions hold. `check` values are tried further."""

    which: str
    conditions: Sequence[Condition]
    best: ShownFigure | None
    check: int

    def __str__(self) -> str:
        so_that = ' and '.join(map(str, self.conditions))
        return f'the {self.which}' * (not self.best) + (f'{self.which} {self.best.name}' if self.best else '') + f' so that {so_that}' * bool(so_that)


def rising(setting: Setting) -> Setting:
    """The setting with its values in rising order, or Wrong where they have none."""
    return setting._replace(values=sorted(setting.values, key=sizes_of(setting).__getitem__))


def sizes_of(setting: Setting) -> dict[object, float]:
    """Of each value the number by which they rise."""
    word = f'{setting.option} {setting.key}'
    if isinstance(setting.values[0], Queue):
        parts = {name: [getattr(value, name) for value in setting.values] for name in Queue._fields}
        varied = [name for name, its in parts.items() if len(set(its)) > 1]
        if varied == ['kind'] or len(varied) > 1 or any(value.is_product for value in setting.values) or (
                None in parts['maxpacket'] and varied == ['maxpacket']):
            raise Wrong(f'{word}: the values rise in one number, as droptail:1..200 or codel:1ms..50ms/1ms:100ms')
        return dict(zip(setting.values, parts[varied[0] if varied else 'capacity']))
    if not all(isinstance(value, int) for value in setting.values):
        raise Wrong(f'{word}: values of this field have no order')
    return {value: value for value in setting.values}


def first_places(setting: Setting) -> list[int]:
    """The places of the values that are tried first: the ends, those at 1, 2, 5, 10, 20 and so on, and some over the whole range
    where these are few."""
    sizes, count = list(sizes_of(setting).values()), len(setting.values)
    found, step = {0, count - 1}, 1
    while step <= sizes[-1]:
        found |= {next(place for place, size in enumerate(sizes) if size >= mark) for mark in (step, 2 * step, 5 * step)
                  if sizes[0] <= mark <= sizes[-1]}
        step *= 10
    if len(found) < SPREAD:
        found |= {(count - 1) * n // (SPREAD - 1) for n in range(SPREAD)}
    return sorted(found)


def places_of(setting: Setting, values: Iterable[object], option: str) -> list[int]:
    """The places of these values, or Wrong."""
    there = {value: place for place, value in enumerate(setting.values)}
    for value in values:
        if value not in there:
            raise Wrong(f'{option}: {setting.label(value)} is none of the values of {setting.option} {setting.key}')
    return sorted(there[value] for value in values)


def runs_to_check(grid: Grid) -> int:
    """How many values are tried further where it is not said: those of EVENTS, as far as a scenario tells."""
    events = max(events_of(grid.text(0)), events_of(grid.text(len(grid.points) - 1)), 1)
    return int(min(MOST, max(FEWEST, EVENTS / events / grid.replicates)))


# ---- one choice of the other values

class Quest:
    """The search among the values of one choice of the others. `tried` has the means of each value by its place, `met` whether
    it meets all conditions."""

    def __init__(self, count: int, first: Sequence[int], asked: Asked):
        self.count, self._first, self.asked = count, first, asked
        self.tried: dict[int, Averaged] = {}
        self.met: dict[int, bool] = {}
        self._closed: set[int | None] = set()       # answers from which on what is left was tried

    def learn(self, place: int, means: Averaged, replicates: int) -> None:
        """Takes what came out of a value."""
        self.tried[place] = means
        self.met[place] = means.status == 'done' and all(
            each.holds(means.means[each.column.title], replicates) for each in self.asked.conditions)
        if self.asked.best:
            self.met[place] = self.met[place] and means.means[self.asked.best.title].runs == replicates

    @property
    def answer(self) -> int | None:
        """The place of the answer among what was tried; None where nothing meets the conditions."""
        met = [place for place in sorted(self.met) if self.met[place]]
        if not met:
            return None
        if self.asked.best:
            title = self.asked.best.title
            return GOALS[self.asked.which](met, key=lambda place: self.tried[place].means[title].mean or 0)
        return met[-1 if self.asked.which == GREATEST else 0]

    def wanted(self) -> list[int]:
        """The places that are to be tried next; none where the search is over."""
        answer, tried = self.answer, sorted(self.tried)
        found = [place for place in self._first if place not in self.tried] or [
            (one + other) // 2 for one, other in zip(tried, tried[1:])
            if other - one > 1 and (self.met[one] != self.met[other] or self.asked.best and answer in (one, other))]
        if found or answer in self._closed:
            return found
        self._closed.add(answer)
        beside = [place for place in (answer - 1, answer + 1) if 0 <= place < self.count] if answer is not None else []
        return sorted({*self.left()[:self.asked.check], *beside} - self.tried.keys())

    def left(self) -> list[int]:
        """The places from which a better answer could come and that were not tried, nearest first; where there is no answer, evenly
        over the range."""
        answer, untried = self.answer, [place for place in range(self.count) if place not in self.tried]
        if answer is None:
            step = max(1, len(untried) // max(1, self.asked.check))
            return [place for first in range(step) for place in untried[first::step]]
        near = answer
        if not self.asked.best:
            untried = [place for place in untried if (place > near) == (self.asked.which == GREATEST)]
        return sorted(untried, key=lambda place: abs(place - near))

    def stretches(self) -> list[tuple[bool, int, int]]:
        """Whether the conditions are met, and from which place to which, one after another, of those that were tried."""
        found: list[tuple[bool, int, int]] = []
        for place in sorted(self.met):
            if found and found[-1][0] == self.met[place]:
                found[-1] = found[-1][0], found[-1][1], place
            else:
                found.append((self.met[place], place, place))
        return found


# ---- all of them

class Search:
    """A search over the grid that a tool's words give: its last `chosen` setting is the one that is varied, and each choice of the
    others has its quest."""

    def __init__(self, grid: Grid, asked: Asked, first: Sequence[int]):
        self.grid, self.asked, self.varied = grid, asked, grid.chosen[-1]
        self.count = len(self.varied.values)
        self.looked: dict[int, Thirds | None] = {}
        self.quests = [Quest(self.count, first, asked) for _ in range(len(grid.points) // grid.replicates // self.count)]

    def numbers(self, choice: int, place: int) -> range:
        """The points of a value of a choice, with all replicates."""
        begin = (choice * self.count + place) * self.grid.replicates
        return range(begin, begin + self.grid.replicates)

    def run(self, rows: Rows, jobs: int | None = None) -> None:
        """Runs what has to be run, and the first run of each answer once more: whether it has settled."""
        while wanted := [(choice, place) for choice, quest in enumerate(self.quests) for place in quest.wanted()]:
            for _ in rows.run(number for each in wanted for number in self.numbers(*each)):
                pass
            for choice, place in wanted:
                means = mean_row(self.grid, [rows[number] for number in self.numbers(choice, place)])
                self.quests[choice].learn(place, means, self.grid.replicates)
        self.looked = looked_at(self.grid, [self.numbers(choice, quest.answer)[0] for choice, quest in enumerate(self.quests)
                                            if quest.answer is not None], jobs)

    def label(self, place: int) -> str:
        """The value at a place, in words."""
        return self.varied.label(self.varied.values[place])
