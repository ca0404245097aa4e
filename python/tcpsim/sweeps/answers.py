"""The answers of a search, as a table for people and as rows, and what has to be said of them."""
from __future__ import annotations

import re
from collections.abc import Iterator
from fractions import Fraction

from tcpsim.output import aligned
from tcpsim.scenario.units import Products
from tcpsim.sweeps.pattern import packets_of
from tcpsim.sweeps.search import GREATEST, Quest, Search
from tcpsim.sweeps.shown import SETTLED, columns, fixed_and_varied, mean_in_words, settled, too_short

RULES = 'BDP', 'BDP/sqrt(n)'
STRETCHES = 6           # that a sentence names at most
ANSWER, MET, NOT_MET = 'answer', 'met', 'not met'


def shown_places(quest: Quest) -> list[int]:
    """The answer and its two neighbours, as far as there are any; without an answer none."""
    answer = quest.answer
    return [] if answer is None else [place for place in range(answer - 1, answer + 2) if place in quest.tried]


def state(quest: Quest, place: int) -> str:
    """What a value is."""
    return ANSWER if place == quest.answer else NOT_MET if not quest.met[place] else MET if quest.asked.conditions else ''


def rules_of(search: Search, choice: int) -> list[int]:
    """Where a drop-tail queue's room is searched for, the rules of thumb for it in packets: the bandwidth-delay product of the link,
    and that by the square root of how many flows send their data over it."""
    value = search.varied.values[0]
    if search.varied.field != 'queue' or value.kind != 'droptail':
        return []
    text = search.grid.text(search.numbers(choice, 0)[0])
    return [packets_of(Products(Fraction(1), root), text, search.varied.names[0], search.grid.pattern.packet) for root in (False, True)]


def records(search: Search) -> list[dict[str, object]]:
    """A row for each answer and its neighbours: the values in words and as numbers, what it is, and of each figure the mean, its half
    width and how many runs there were; of the answer the rules of thumb too."""
    found = []
    for choice, quest in enumerate(search.quests):
        for place in shown_places(quest):
            number = search.numbers(choice, place)[0]
            row: dict[str, object] = {**quest.tried[place].row(), 'is': state(quest, place), SETTLED: settled(search.looked, number)}
            found.append({**row, **(dict(zip(rule_titles(search), rules_of(search, choice))) if place == quest.answer else {})})
    return found


def rule_titles(search: Search) -> list[str]:
    """The columns of the rules of thumb."""
    return [f'{rule}_packets' for rule in RULES if rules_of(search, 0)]


def titles(search: Search) -> list[str]:
    """The columns of `records`."""
    cells = [f'{name}_{part}' for name in search.grid.figures() for part in ('mean', 'half_width', 'runs')]
    return [*search.grid.value_titles(search.grid.chosen), 'is', *cells, *rule_titles(search), SETTLED, 'from_ns']


def answer_table(search: Search) -> list[str]:
    """The lines for people: what was searched for, each answer between its neighbours, and what has to be said of them."""
    grid, asked = search.grid, search.asked
    others = grid.chosen[:-1]
    fixed, keys = fixed_and_varied(grid, others, 2)
    rules = rules_of(search, 0)
    lines = [[*keys, search.varied.key, *(title for _, title, *_ in columns(grid)), '', *(f'{rule}, packets' for rule in RULES[:len(rules)])]]
    for choice, quest in enumerate(search.quests):
        for place in shown_places(quest):
            means = quest.tried[place]
            lines.append([*(means.values[key] for key in keys), search.label(place), *(
                mean_in_words(means.means[name], grid.replicates, scale, digits[bool(grid.over)])
                for name, _, scale, *digits in columns(grid)), asked.which if place == quest.answer else state(quest, place), *(
                map(str, rules_of(search, choice)) if place == quest.answer else [''] * len(rules))])
    over = ', '.join(f'{each.key}={each.label(each.values[0])}..{each.label(each.values[-1])}' for each in grid.over)
    head = [*fixed, f'{search.varied.key} of {search.label(0)} to {search.label(search.count - 1)}: {asked}',
            *([f'means over {over}, whose 95 % interval meets it' if asked.conditions else f'means over {over}'] if over else [])]
    answered = [search.numbers(choice, quest.answer)[0] for choice, quest in enumerate(search.quests) if quest.answer is not None]
    tried = sum(len(quest.tried) for quest in search.quests) * grid.replicates
    return [', '.join(head), *(map(str.rstrip, aligned(lines)) if lines[1:] else []), *said(search), *too_short(grid, answered, search.looked),
            f'{tried:,} runs; to try every value would take {len(grid.points):,}.']


def said(search: Search) -> Iterator[str]:
    """What has to be said of each choice of values: that there is no answer, that there can be others, where the answer changes."""
    for choice, quest in enumerate(search.quests):
        point = search.numbers(choice, 0)[0]
        labels = search.grid.labels(point)
        words = ' '.join(f'{each.key}={labels[each.key]}' for each in search.grid.chosen[:-1] if len(each.values) > 1)
        yield from (f'{words}: {sentence}' if words else re.sub('^none ', 'None ', sentence) for sentence in sentences(search, quest))


def sentences(search: Search, quest: Quest) -> Iterator[str]:
    """Those of one choice."""
    answer, key, left = quest.answer, search.varied.key, len(quest.left())
    failed = [means.status for _, means in sorted(quest.tried.items()) if means.status != 'done']
    if failed:
        yield f'{len(failed)} of {len(quest.tried)} values have no figures: {failed[0]}.'
    if answer is None:
        yield f'none of {len(quest.tried)} values that were tried meets it' + (
            f'; {left} were not tried: --check {len(quest.tried) + left} tries all.' if left else ', and these are all.')
        return
    end = search.count - 1 if quest.asked.which == GREATEST else 0
    if not quest.asked.best and answer == end and search.count > 1:
        yield f'{search.label(end)} is the {quest.asked.which} value that was asked about: others beyond it may meet it too.'
    if left:
        which = 'others' if quest.asked.best else 'greater ones' if quest.asked.which == GREATEST else 'lesser ones'
        yield f'{left} {which} were not tried: --check {search.count} tries all.'
    stretches = quest.stretches()
    if sum(met for met, *_ in stretches) > 1:
        parts = [f'{"met" if met else "lost"} {span(search, first, last)}' for met, first, last in stretches]
        parts = parts[not stretches[0][0]:]
        yield f'{key} is met, lost and met again: ' + ', '.join(parts[:STRETCHES]) + ', ..' * (len(parts) > STRETCHES) + '.'


def span(search: Search, first: int, last: int) -> str:
    """The values from one place to another, in words."""
    return f'at {search.label(first)}' if first == last else f'from {search.label(first)} to {search.label(last)}'
