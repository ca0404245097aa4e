"""Displays, which are shown after each move: of a flow or a link all values, or one of them, each with what it was before the
move where that was another."""
from typing import NamedTuple

from tcpsim_model import marked
from tcpsim_model.conditions import DISPLAYED, OF_VALUES, TIME
from tcpsim_model.scenario import Refused
from tcpsim_model.text import FLOW, LINK

MOST_DISPLAYS = 64
WHOLE = (b'flow', b'link')      # of which all values are displayed, in this order
VALUES = {whole: [name for name, sort in DISPLAYED.items() if sort == whole and name not in WHOLE] for whole in (FLOW, LINK)}


class Display(NamedTuple):
    """What is displayed, and the number of the flow or the link."""
    item: bytes
    number: int

    @property
    def sort(self):
        return DISPLAYED[self.item]

    def words(self, names):
        return f'{self.item.decode()} {names.name_of(self.sort, self.number)}'

    def values(self, net, now):
        """The texts of its values in a state, at a moment."""
        if self.sort == LINK:
            found = marked.of_port(net.ports[self.number], now)
        else:
            flow = net.flows[self.number]
            found = {**marked.of_end(net.ends[flow.sender]), **marked.of_end(net.ends[flow.receiver])}
        wanted = VALUES[self.sort] if self.item in WHOLE else (self.item,)
        return {name: text_of(name, found[name]) for name in wanted}

    def told(self, names, values, before):
        """Its line behind its number, of its values and those of before."""
        told = {name: f' = {value}' + (f' (was {before[name]})' if before[name] != value else '') for name, value in values.items()}
        if self.item in WHOLE:
            return f'{self.words(names)}: {", ".join(name.decode() + text for name, text in told.items())}'
        return f'{self.words(names)}{told[self.item]}'


def text_of(name, value):
    if value is None:
        return '-'
    return f'{value}{"ns" * (TIME in OF_VALUES[name])}'


def display_of(words, names):
    """The display that the words behind `display` ask for."""
    if words[0] not in DISPLAYED:
        raise Refused('B1')
    if len(words) != 2:
        raise Refused('B2')
    return Display(words[0], names.number_of(DISPLAYED[words[0]], words[1]))


class Displays:
    """The displays of a session, whose answers call flows and links by `names`."""

    def __init__(self, names):
        self.names, self.set = names, []

    def add(self, new):
        """Sets one at the end, where it isn't set yet; answers its place from 0."""
        if new not in self.set:
            if len(self.set) == MOST_DISPLAYS:
                raise Refused('B4')
            self.set.append(new)
        return self.set.index(new)

    def values(self, net, now):
        return [display.values(net, now) for display in self.set]

    def lines(self, values, before):
        """Their lines, of their values and those of before."""
        return [f'display {place}: {display.told(self.names, *both)}\n'
                for place, (display, *both) in enumerate(zip(self.set, values, before), 1)]
