"""A scenario's text, read: its nodes, links and flows, and each flow's paths. Times are nanoseconds, sizes bytes, rates
bit/s. Nothing but Python's standard library.
"""
from __future__ import annotations

import operator
from collections import namedtuple
from collections.abc import Callable
from typing import Any, TypeVar

from tcpsim.command_line import Refused

Node = namedtuple('Node', 'name kind')
Link = namedtuple('Link', 'name source to rate delay queue capacity target interval')
Flow = namedtuple('Flow', 'name sender receiver mss segments start rwnd delack newreno iw10', defaults=(False, False))
T = TypeVar('T')
VARIANTS = {'reno': False, 'newreno': True}, {'iw3': False, 'iw10': True}      # a flow's last two words: both or neither


class Unreadable(Refused):
    """A scenario or trace that cannot be read, or a trace of another scenario."""


class WrongScenario(Unreadable):
    """What is wrong in a scenario's text; who knows its file puts the file's name before it."""


class WrongTrace(Unreadable):
    """A line that is none of a scenario's trace; who knows its file puts the file's name before it."""


# ---- the scenario

# What others find out from links and flows that no start, end or queue changes.
WAY, ASKS = operator.attrgetter('rate', 'delay'), operator.attrgetter('mss', 'rwnd')


class Scenario:
    """A scenario that the program has taken: names and numbers, and each flow's two paths."""

    def __init__(self, text: str):
        self.text = text
        self.kept: dict[tuple, Any] = {}        # by whoever found it: what was found out from paths, rates, delays, segments and windows alone
        self.end = -1
        self.nodes: list[Node] = []
        self.links: list[Link] = []
        self.flows: list[Flow] = []
        self.routes: dict[tuple[int, int], int] = {}     # of each router and end the link
        self.lost: dict[int, set[int]] = {}             # of each link that loses packets, which of those that are offered to it
        self.own: dict[int, str] = {}                   # of each link whose queue is a class of Python's, the class's name
        self._numbers: dict[str, int] = {}
        statements: dict[str, Callable[..., None]] = {'sim': self._sim, 'node': self._node, 'link': self._link, 'flow': self._flow,
                      'route': self._route, 'lose': self._lose}
        for number, line in enumerate(text.split('\n'), 1):
            words = line.partition('#')[0].split()
            try:
                if words:
                    statements[words[0]](*words[1:])
            except (IndexError, KeyError, TypeError, ValueError) as wrong:
                raise WrongScenario(f'the scenario, line {number}: {line.strip()[:100]}') from wrong
        if self.end < 0 or not self.flows:
            raise WrongScenario('the scenario has no `sim` or no flow')
        self.leaves = [[n for n, link in enumerate(self.links) if link.source == node]
                       for node in range(len(self.nodes))]
        self.paths = [(self._path(f.sender, f.receiver), self._path(f.receiver, f.sender))
                     for f in self.flows]

    def _declare(self, name: str, entries: list[T], entry: T) -> None:
        self._numbers[name] = len(entries)
        entries.append(entry)

    def _sim(self, end: str) -> None:
        self.end = int(end)

    def _node(self, name: str, kind: str) -> None:
        if kind not in ('sender', 'receiver', 'router'):
            raise ValueError(kind)
        self._declare(name, self.nodes, Node(name, kind))

    def _link(self, *words: str) -> None:
        self._declare(words[0], self.links, self._as_link(*words))

    def _as_link(self, name: str, source: str, to: str, rate: str, delay: str, queue: str, capacity: str, target: str = '0',
                 interval: str = '0', _maxpacket: str = '0') -> Link:
        if queue not in ('droptail', 'codel') or int(rate) < 1:
            raise ValueError(queue)
        return Link(name, self._numbers[source], self._numbers[to], int(rate), int(delay), queue, int(capacity), int(target), int(interval))

    def _flow(self, *words: str) -> None:
        self._declare(words[0], self.flows, self._as_flow(*words))

    def _as_flow(self, name: str, sender: str, receiver: str, mss: str, segments: str, start: str, rwnd: str, delack: str,
                 *variant: str) -> Flow:
        if len(variant) not in (0, 2):
            raise ValueError(variant)
        return Flow(name, self._numbers[sender], self._numbers[receiver], *map(int, (mss, segments, start, rwnd, delack)),
                    *(words[word] for words, word in zip(VARIANTS, variant)))

    def _route(self, router: str, to: str, link: str) -> None:
        self.routes[self._numbers[router], self._numbers[to]] = self._numbers[link]

    def _lose(self, link: str, number: str) -> None:
        self.lost.setdefault(self._numbers[link], set()).add(int(number))

    def changed(self, text: str) -> Scenario:
        """The scenario of another text. Where only values of links and flows or the end differ, it shares all else with this one, as
        those of a sweep's thousands of runs do."""
        lines, before = text.split('\n'), self.text.split('\n')
        found = Scenario.__new__(Scenario)
        found.__dict__.update(self.__dict__, text=text, links=list(self.links), flows=list(self.flows))
        differ = [(line, old) for line, old in zip(lines, before) if line != old] if len(lines) == len(before) else [('', '')]
        try:
            for words, old in ([each.partition('#')[0].split() for each in both] for both in differ):
                if words[0] == old[0] == 'sim':
                    found._sim(*words[1:])
                    continue
                kinds: dict[str, tuple[list, Callable[..., Link | Flow], operator.attrgetter]] = {
                    'link': (found.links, found._as_link, WAY), 'flow': (found.flows, found._as_flow, ASKS)}
                entries, read, depends = kinds[words[0]]
                number = self._numbers[words[1]]
                was, entries[number] = entries[number], read(*words[1:])
                if words[:4] != old[:4] or was.name != words[1]:
                    return Scenario(text)
                if depends(was) != depends(entries[number]):
                    found.kept = {}
        except (IndexError, KeyError, TypeError, ValueError):
            return Scenario(text)
        return found

    def replace_queues(self, names: dict[int, str]) -> None:
        """Says of these links, by their numbers, that a class of this name is their queue, which can drop any packet at
        any time, by words of its own, and give its packets in any order."""
        self.own = dict(names)
        for number, name in names.items():
            self.links[number] = self.links[number]._replace(queue=name)

    def hop(self, node: int, to: int) -> int | None:
        """The link over which a node sends what is for `to`."""
        if self.nodes[node].kind == 'router':
            return self.routes.get((node, to))
        return self.leaves[node][0] if self.leaves[node] else None

    def _path(self, node: int, to: int) -> list[int]:
        """The links of a path, in order."""
        path: list[int] = []
        while node != to:
            link = self.hop(node, to) if node < len(self.nodes) else None
            if link is None or link in path:
                raise WrongScenario('the scenario has a flow whose way does not come to its end')
            path.append(link)
            node = self.links[link].to
        return path
