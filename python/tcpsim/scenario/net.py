"""A net that a program builds: nodes, links, flows and routes, and its text. Rates are bit/s, times nanoseconds, sizes
bytes; what is out of its range is `Wrong`.
"""
from __future__ import annotations

from collections import deque
from collections.abc import Sequence
from dataclasses import dataclass, field

from tcpsim.command_line import Wrong
from tcpsim.scenario import units
from tcpsim.scenario.units import HEADER_BYTES, Queue

SENDER, RECEIVER, ROUTER = 'sender', 'receiver', 'router'
MOST_NODES, MOST_LINKS, MOST_FLOWS, MOST_ROUTER_LINKS = 256, 1_024, 128, 16


# ---- nets

@dataclass
class Node:
    """A sender, a receiver or a router."""

    name: str
    kind: str


@dataclass
class Link:
    """A link, from a node to another, by their numbers, and the queue before it."""

    name: str
    source: int
    to: int
    rate: int                               # bit/s
    delay: int                              # ns
    queue: Queue
    lose: list = field(default_factory=list)
    note: str = ''                          # a comment


@dataclass
class Flow:
    """A flow, from a sender to a receiver, by their numbers."""

    name: str
    sender: int
    receiver: int
    mss: int
    segments: int
    start: int                              # ns
    rwnd: int                               # bytes
    delack: int                             # ns
    note: str = ''
    variant: str = 'reno'                   # or 'newreno': how its sender recovers from losses
    initial_window: int = 3                 # 3 is `iw3` (RFC 5681), 10 `iw10` (RFC 6928)

    def words(self) -> str:
        """The words of its variant, with a space before them; none where it is the one that is meant without."""
        plain = (self.variant, self.initial_window) == ('reno', 3)
        return '' if plain else f' {self.variant} iw{self.initial_window}'


class Net:
    """Nodes that links join, flows between them, and routes of fewest hops. What gets no name is called by
    its number: n0, l0, f0."""

    def __init__(self) -> None:
        self.nodes: list[Node] = []
        self.links: list[Link] = []
        self.flows: list[Flow] = []
        self.around: list[list[int]] = []       # of each node the links that begin there

    def node(self, kind: str, name: str | None = None) -> int:
        """A node more; answers its number."""
        self.nodes.append(Node(name or f'n{len(self.nodes)}', kind))
        self.around.append([])
        return len(self.nodes) - 1

    def link(self, source: int, to: int, rate: int, delay: int, queue: Queue, name: str | None = None,
             note: str = '') -> int:
        """A link more; answers its number. The rate is bit/s, the delay ns."""
        self.links.append(Link(name or f'l{len(self.links)}', source, to, rate, delay, queue, [], note))
        self.around[source].append(len(self.links) - 1)
        return len(self.links) - 1

    def cable(self, a: int, b: int, rate: int, delay: int, queue: Queue) -> tuple[int, int]:
        """A link each way, without names."""
        return self.link(a, b, rate, delay, queue), self.link(b, a, rate, delay, queue)

    def joined(self, a: int, b: int, rate: int, delays: tuple[int, int], queue: Queue, note: str = '') -> None:
        """A link each way, named by its ends; `delays` are those there and back."""
        for source, to, delay in ((a, b, delays[0]), (b, a, delays[1])):
            self.link(source, to, rate, delay, queue, self.nodes[source].name + self.nodes[to].name, note)
            note = ''

    def flow(self, sender: int, receiver: int, mss: int, segments: int, start: int = 0, rwnd: int = 2**30,
             delack: int = 0, name: str | None = None, note: str = '') -> int:
        """A flow more; answers its number. `mss` and `rwnd` are bytes, `start` and `delack` ns."""
        self.flows.append(Flow(name or f'f{len(self.flows)}', sender, receiver, mss, segments, start, rwnd,
                               delack, note))
        return len(self.flows) - 1

    def next_links(self, goal: int) -> dict[int, int]:
        """For each other node the first link of a path of fewest hops to `goal` through routers."""
        into: list[list[int]] = [[] for _ in self.nodes]
        for number, link in enumerate(self.links):
            into[link.to].append(number)
        found: dict[int, int] = {}
        queue = deque([goal])
        while queue:
            for number in into[queue.popleft()]:
                source = self.links[number].source
                if source != goal and source not in found:
                    found[source] = number
                    if self.nodes[source].kind == ROUTER:
                        queue.append(source)
        return found

    def path(self, start: int, goal: int) -> list[int]:
        """The links from one node to another."""
        hops, path = self.next_links(goal), []
        while start != goal:
            path.append(hops[start])
            start = self.links[hops[start]].to
        return path

    def routes(self, every: bool = False) -> list[tuple[int, int, int]]:
        """(router, destination, link) of all flows' paths, rising; or of every router to every end."""
        routes = set()
        for flow in self.flows:
            for start, goal in ((flow.sender, flow.receiver), (flow.receiver, flow.sender)):
                routes |= {(self.links[link].source, goal, link) for link in self.path(start, goal)[1:]}
                if every:
                    routes |= {(node, goal, link) for node, link in self.next_links(goal).items()
                               if self.nodes[node].kind == ROUTER}
        return sorted(routes)

    def check(self) -> None:
        """Refuses a net of more than the program takes."""
        ports = max((len(links) for links, node in zip(self.around, self.nodes) if node.kind == ROUTER),
                    default=0)
        for count, most, what in ((len(self.nodes), MOST_NODES, 'nodes'), (len(self.links), MOST_LINKS, 'links'),
                                  (len(self.flows), MOST_FLOWS, 'flows'),
                                  (ports, MOST_ROUTER_LINKS, 'links that leave one router')):
            if count > most:
                raise Wrong(f'this net would have {count} {what}, and {most} is the most')
        for link in self.links:
            units.within('delay', link.delay)

    # The text.

    def text(self, end: int, head: Sequence[str] = (), notes: bool = True, every_route: bool = False) -> str:
        """The scenario's text. With notes each part says what it is."""
        products = self._products()
        lines = [f'# {line}' for line in head] + [f'sim {end}']
        lines += ['# Nodes.'] * notes + [f'node {node.name} {node.kind}' for node in self.nodes]
        lines += ['# Links: name, from, to, rate in bit/s, delay in ns, queue.'] * notes
        for number, link in enumerate(self.links):
            queue = link.queue.words(self._greatest_packet(), products.get(number, 1))
            lines.append(f'link {link.name} {self.nodes[link.source].name} {self.nodes[link.to].name} {link.rate} '
                         f'{link.delay} {queue}' + f'  # {link.note}' * bool(notes and link.note))
        lines += ['# Flows: name, sender, receiver, bytes of a segment, segments, start in ns, receiver\'s window '
                  'in bytes, delay of acknowledgements in ns.'] * notes
        lines += [f'flow {flow.name} {self.nodes[flow.sender].name} {self.nodes[flow.receiver].name} {flow.mss} '
                  f'{flow.segments} {flow.start} {flow.rwnd} {flow.delack}{flow.words()}' + f'  # {flow.note}' * bool(
                      notes and flow.note) for flow in self.flows]
        routes = self.routes(every_route)
        lines += ['# Routes: at this router, what is for this end goes over this link.'] * bool(notes and routes)
        lines += [f'route {self.nodes[router].name} {self.nodes[to].name} {self.links[link].name}'
                  for router, to, link in routes]
        lines += [f'lose {link.name} {number}' for link in self.links for number in link.lose]
        return ''.join(line + '\n' for line in lines)

    def _greatest_packet(self) -> int:
        return max(flow.mss for flow in self.flows) + HEADER_BYTES

    def paths(self) -> list[tuple[list[int], list[int]]]:
        """The links of each flow's paths, there and back."""
        return [(self.path(flow.sender, flow.receiver), self.path(flow.receiver, flow.sender)) for flow in self.flows]

    def room(self, link: int) -> int:
        """How many packets a link's queue takes."""
        queue = self.links[link].queue
        return self._products()[link] if queue.is_product else queue.capacity

    def _products(self) -> dict[int, int]:
        """The bandwidth-delay product of each link whose queue asks for it."""
        wanted = [number for number, link in enumerate(self.links) if link.queue.is_product]
        if not wanted:
            return {}
        paths = self.paths()
        delays = [link.delay for link in self.links]
        products = {}
        for number in wanted:
            packets = self.links[number].queue.capacity.packets(
                self.links[number].rate, units.round_trip(number, paths, delays), self._greatest_packet(),
                units.flows_over(number, paths, self.flows))
            products[number] = units.within('capacity', packets, 'the bandwidth-delay product of link '
                                            f'{self.links[number].name}, {packets:,} packets,')
        return products
