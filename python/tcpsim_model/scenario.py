"""A scenario: its records, the ranges of its numbers, and the checks on a scenario as a whole.

Everything in this directory was written from the product's tables (docs/MODEL.md, docs/FORMATS.md),
never from the program's code, so that the two can be compared. Plain Python, all numbers whole:
nanoseconds, bytes, bits a second.
"""
from collections import Counter
from dataclasses import dataclass, field

SENDER, RECEIVER, ROUTER = 0, 1, 2
KIND_NAMES = ('sender', 'receiver', 'router')

MOST_NODES, MOST_LINKS, MOST_FLOWS, MOST_ROUTES = 256, 1024, 128, 65_536
MOST_ROUTER_LINKS, MOST_LOSSES = 16, 64

# The least and the greatest value of each number.
RANGES = {
    'end': (1, 10**15),
    'rate': (1_000, 10**12),
    'delay': (1, 10**10),
    'capacity': (1, 65_535),
    'target': (1, 10**10),
    'interval': (1, 10**10),
    'maxpacket': (1, 65_535),
    'mss': (1, 9_000),
    'segments': (1, 10**9),
    'start': (0, 10**15 - 1),
    'rwnd': (1, 2**30),
    'delack': (0, 500_000_000),
    'lose': (1, 10**9),
}


def in_range(name, value):
    least, greatest = RANGES[name]
    return least <= value <= greatest


class Refused(Exception):
    """An input that is refused: a code, and for a text the line (0: the text as a whole)."""

    def __init__(self, code, line=None):
        super().__init__(code, line)
        self.code, self.line = code, line

    def note(self):
        return f'refused {self.code}' + ('' if self.line is None else f' line {self.line}')


@dataclass
class Link:
    source: int             # the node that sends on it, where its queue is
    to: int                 # the node where it ends
    rate: int               # bits a second
    delay: int              # ns
    codel: bool
    capacity: int           # packets
    target: int = 0         # ns; the last three are 0 with drop-tail
    interval: int = 0       # ns
    maxpacket: int = 0      # bytes
    lose: list = field(default_factory=list)    # rising: which of the offered packets are lost


@dataclass
class Flow:
    sender: int
    receiver: int
    mss: int                # bytes
    segments: int
    start: int              # ns
    rwnd: int               # bytes
    delack: int             # ns; 0: every segment is acknowledged at once
    newreno: bool = False   # how its sender recovers
    iw10: bool = False      # its initial window


@dataclass
class Scenario:
    end: int                # ns
    nodes: list             # the kind of each node
    links: list
    flows: list
    routes: list            # (router, destination, link), rising by router and destination
    # Of a link what makes its queue, given the link, in the place of the queue that the text has (queues.Own).
    queues: dict = field(default_factory=dict)
    # Of a text what its names are: of each, as bytes, its sort and its number. An image has none.
    names: dict = field(default_factory=dict, compare=False)

    def outgoing(self):
        """For each node its outgoing links in rising number: its ports."""
        ports: list[list[int]] = [[] for _ in self.nodes]
        for number, link in enumerate(self.links):
            ports[link.source].append(number)
        return ports


def fault_of_ends(s):
    """L5: each end has exactly one flow and one outgoing link, each router 1 to 16 links. A flow
    that names one node twice is one flow."""
    flows = Counter(node for flow in s.flows for node in {flow.sender, flow.receiver})
    for node, ports in enumerate(s.outgoing()):
        if s.nodes[node] == ROUTER:
            if not 1 <= len(ports) <= MOST_ROUTER_LINKS:
                return 'L5'
        elif flows[node] != 1 or len(ports) != 1:
            return 'L5'


def fault_of_kinds(s):
    """L6: a node of the wrong kind, a link from a node to itself, a route by another's link. No
    text comes to it, since a text is refused at the line."""
    right = (all(link.source != link.to for link in s.links)
             and all(s.nodes[f.sender] == SENDER and s.nodes[f.receiver] == RECEIVER for f in s.flows)
             and all(s.nodes[router] == ROUTER and s.nodes[destination] != ROUTER
                     and s.links[link].source == router for router, destination, link in s.routes))
    return None if right else 'L6'


def fault_of_path(s, ports, routes, start, goal):
    """L7 where the path from one end to the other breaks off or comes to another end, L8 where it
    returns to a node."""
    here, seen = s.links[ports[start][0]].to, {start}
    while here != goal:
        if s.nodes[here] != ROUTER or (here, goal) not in routes:
            return 'L7'
        if here in seen:
            return 'L8'
        seen.add(here)
        here = s.links[routes[here, goal]].to


def fault_of_paths(s):
    """L7 over all paths, and only then L8."""
    ports = s.outgoing()
    routes = {(router, destination): link for router, destination, link in s.routes}
    faults = {fault_of_path(s, ports, routes, *ends)
              for f in s.flows for ends in ((f.sender, f.receiver), (f.receiver, f.sender))}
    return next((code for code in ('L7', 'L8') if code in faults), None)


def fault_of_whole(s):
    """The first of L5 to L8 of a scenario whose numbers are all in range."""
    return fault_of_ends(s) or fault_of_kinds(s) or fault_of_paths(s)
