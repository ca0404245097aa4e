"""What can be typed at the debugger's prompt, as the program itself says it: from its `help`, from the pages that this
names, from `names`, and from the numbers that it names where one is refused. No command, condition or kind stands here.

A line of `help` is a usage and what it does: `why F        tell what flow F waits for`. Words in capitals are places; behind
a colon stand the words that can fill them, each with a place of its own: `.. or of it: node N, link L or flow F`. On the
page of a command has each of these a row as well; where it ends with `: help kinds`, the rows of that page fill its place.
Where the line lists no words for a place of several letters, the rows have them: `flow F       all values of flow F`. A row
can stand for several: `queue L      a value of link L: queue, wait or count`.

The page on values has a row of each condition that has a sign, `rto>1s       at a sender: how long ..`, or is of a value:
`phase fr     at a sender: ss (slow start), ca ..`. It lists the words that the row is of, or those that can fill its place.
"""
from __future__ import annotations

import re
from collections.abc import Callable, Mapping, Sequence
from dataclasses import dataclass, field, replace
from types import MappingProxyType

from tcpsim.prompt import Answer

# A usage, with its places, and what it does; on a page two spaces part a word from what it means, as other lines have none.
USAGE = re.compile(r'^([a-z]+)((?: \[?[A-Z]+\]?(?:\.\.)?)*) +([^ A-Z].*)$', re.M)
ROW = re.compile(r'^([a-z]+)(?: \[?[A-Z]+\]?)*  +([^ ].*)$', re.M)
# A word that is listed, with its place.
ITEM = re.compile(r'([a-z]+)(?: \[?([A-Z])\]?)?')
BETWEEN = re.compile(r', | or ')
ALONE = '; or '                 # before those that stand alone
LISTED = re.compile(r'(?:[a-z]+, )+[a-z]+ or [a-z]+: help ([a-z]+)')
COUNTED = re.compile(r'([a-z]+)s (\d+) to (\d+)')
SORTS = re.compile(r'conditions are ([A-Za-z, ]+); or ')
# A row of `names`, where the program has it: a sort, a number, and the name.
NAMED = re.compile(r'^(([a-z]+) \d+) (\S+)$', re.M)
COMMANDS = 'a command'          # in a list: any of them
# A row of a page with a word and its place, and what it means; the words where it is one of several.
PLACED = re.compile(r'^([a-z]+) ([A-Z])  +([^ ].*)$', re.M)
ONE_OF = re.compile(r'a [a-z]+ of [a-z]+ [A-Z]: (.*)$')
# Where a page names that on values; a row of this, with a column of 12 signs: the word, its places, and what it means.
VALUES_AT = re.compile(r'^[a-z]+[<>=].*: help ([a-z]+)$', re.M)
VALUED = re.compile(r'^(?=.{12} [^ ])([a-z]+)((?: [A-Z])*)(?:[<>=]\S*| [a-z]+)? +([^ ].*)$', re.M)
EXPLAINED = re.compile(r'([a-z]+)(?: \((.*)\))?')       # a word that is listed there, with what it means
ABOVE = 'the same'              # in a row: what the one before has before its colon
SIGN = re.compile(r'([<>=]+)')
NO_NUMBER = '?'
NONE: Mapping[str, Sequence[str]] = MappingProxyType({})

Word = tuple[str, str]          # and what it means


@dataclass(frozen=True)
class Item:
    """A word that can stand in a line: what it means, and what stands behind it. That is one of its `items`, or what fills
    its place, and where it is `signed` a sign and a number."""

    what: str = ''
    place: str | None = None
    items: Mapping[str, Item] = field(default_factory=dict)
    signed: bool = False

    def behind(self) -> list[Mapping[str, Item] | str]:
        """What stands behind it, in turn: one of the items, or what fills a place. Nothing can fill a sign's and a number's."""
        filled = self.items or self.place
        return [*([filled] if filled else []), *['', ''] * self.signed]


NOTHING = Item()


class Usage:
    """How a command is used: `items` can fill its first place, and all further ones where `many` can stand there, each once;
    those of `alone` can fill it alone. `page` answers the page of help on a word."""

    def __init__(self, name: str, places: str, what: str, page: Callable[[str], str]):
        self.what, self.place = what, places.strip(' []') or None
        self.many = places.endswith('..')
        self.commands = COMMANDS in what
        self.of_values: set[str] = set()        # the words that have a row together
        listed = what.partition(': ')[2] if places else ''
        rows = dict(ROW.findall(page(name))) if listed else {}
        self.items, self.alone = (
            {found[1]: Item(rows.get(found[1], ''), found[2], listed_at(page, rows.get(found[1], '')))
             for found in map(ITEM.fullmatch, BETWEEN.split(part)) if found} for part in listed.partition(ALONE)[::2])
        if self.place and len(self.place) > 1 and not listed:
            for word, place, meaning in PLACED.findall(page(name)):
                several = ONE_OF.match(meaning)
                words = BETWEEN.split(several[1]) if several else [word]
                self.items.update(dict.fromkeys(words, Item(meaning.partition(': ')[0], place)))
                self.of_values.update(words if several else ())

    def left(self, used: set[str]) -> dict[str, Item]:
        """What can stand behind the words that are used."""
        if not used:
            return {**self.items, **self.alone}
        return {word: item for word, item in self.items.items() if word not in used} if self.many and used <= set(self.items) else {}

    def behind(self, words: list[str]) -> Mapping[str, Item] | str:
        """What stands behind the words of a line: items, or what fills a place."""
        used: set[str] = set()
        behind: list[Mapping[str, Item] | str] = []
        for word in words:
            if behind:
                fits = behind.pop(0)
            else:
                fits = self.left(used)
                used.add(word)
            behind[:0] = fits.get(word, NOTHING).behind() if isinstance(fits, Mapping) else []
        return behind[0] if behind else self.left(used)

    def add_values(self, sorts: str, values: Mapping[str, Item]) -> None:
        """Adds the sorts of a list that are not yet there, as those of values are."""
        for sort, place in (found.groups() for it in sorts.split(', ') if (found := ITEM.fullmatch(it))):
            of = values.get(sort, NOTHING)
            self.items.setdefault(sort, replace(of, place=place, signed=not of.items))

    def explain(self, values: Mapping[str, Item]) -> None:
        """Adds what each value means, where one row stands for several."""
        for word in self.of_values & set(values):
            what = values[word].what.partition(': ')[2]
            self.items[word] = replace(self.items[word], what=': '.join(filter(None, (self.items[word].what, what))))


def listed_at(page: Callable[[str], str], meaning: str) -> dict[str, Item]:
    """The rows of the page that a meaning names for what it lists."""
    return {word: Item(what) for topic in LISTED.findall(meaning) for word, what in ROW.findall(page(topic))}


def values_in(page: str) -> dict[str, Item]:
    """The words of the rows of a page on values, each with what it means and the words that fill its place."""
    found: dict[str, Item] = {}
    filled, head = {}, ''
    for word, places, meaning in VALUED.findall(page):
        meaning = meaning.partition('. ')[0].replace(ABOVE, head, 1)
        head, _, listed = meaning.partition(': ')
        words = {it[1]: it[2] or '' for it in map(EXPLAINED.fullmatch, BETWEEN.split(listed)) if it}
        if word in words:
            found.update({it: Item(': '.join(filter(None, (head, what)))) for it, what in words.items()})
        else:
            found[word] = Item(meaning)
            filled[word] = {it: Item(what, places[3:] or None) for it, what in words.items()} if len(words) > 1 else {}
    for word, items in filled.items():
        items = {it: replace(item, what=item.what or found.get(it, NOTHING).what) for it, item in items.items()}
        found[word] = replace(found[word], items=items)
    return found


class Completion:
    """What the program's answers name; `ask` is its prompt."""

    def __init__(self, ask: Callable[[str], Answer]):
        def page(topic: str) -> str:
            return ask(f'help {topic}').text
        self._usages = {name: Usage(name, places, what, page) for name, places, what in USAGE.findall(ask('help').text)}
        self._numbers: dict[str, list[Word]] = {}       # of each sort
        values: dict[str, Item] = {}
        for name, usage in self._usages.items():
            note = ask(f'{name} {NO_NUMBER}').note if usage.place and (len(usage.place) == 1 or usage.many) else ''
            for sort, least, most in COUNTED.findall(note):
                self._numbers[sort] = [(str(number), '') for number in range(int(least), int(most) + 1)]
            for sorts in SORTS.findall(note):
                for topic in VALUES_AT.findall(page(name)):
                    values.update(values_in(page(topic)))
                usage.add_values(sorts, values)
        for usage in self._usages.values():
            usage.explain(values)
        if 'names' in self._usages:
            rows = NAMED.findall(ask('names').text)
            for sort in {row[1] for row in rows}:
                self._numbers[sort] = [(name, numbered) for numbered, of, name in rows if of == sort]

    def words(self, before: str, counted: Mapping[str, Sequence[str]] = NONE) -> list[Word]:
        """What can stand behind the words of a line, each with what it means. `counted` has the words of the breakpoints and of
        the displays."""
        given = SIGN.sub(r' \1 ', before).split()
        if not given:
            return [(name, usage.what) for name, usage in self._usages.items()]
        usage = next((usage for name, usage in self._usages.items() if name.startswith(given[0])), None)
        if usage is None or not usage.place:
            return []
        if not given[1:]:
            found = fitting(usage.left(set())) + (self.words('') if usage.commands else [])
            return found or self._filling(usage, counted)
        fits = usage.behind(given[1:])
        return fitting(fits) if isinstance(fits, Mapping) else \
            next((numbers for sort, numbers in self._numbers.items() if sort[0].upper() == fits), [])

    def _filling(self, usage: Usage, counted: Mapping[str, Sequence[str]]) -> list[Word]:
        """The numbers that can fill the one place of a command, where it says of which sort they are, as `flow F`."""
        numbered = {what: [(str(number), words) for number, words in enumerate(given, 1)] for what, given in counted.items()}
        return next((numbers for sort, numbers in {**self._numbers, **numbered}.items() if f'{sort} {usage.place}' in usage.what), [])


def fitting(items: Mapping[str, Item]) -> list[Word]:
    """The words of items."""
    return [(word, item.what) for word, item in items.items()]
