"""Why an input is refused, as --explain shows it behind the note (docs/FORMATS.md, "Command line")."""
import re

from tcpsim_model import image
from tcpsim_model.advice import advice
from tcpsim_model.scenario import KIND_NAMES, MOST_ROUTER_LINKS, RECEIVER, ROUTER, SENDER
from tcpsim_model.text import FLOW, LINK, NODE, read_lines

MOST_SHOWN, MOST_BEFORE = 200, 80       # bytes of a line that are shown, and how many of them before what is wrong
MEANINGS = {
    'E1': 'a byte of the line is outside 0x20 to 0x7E, also one in its comment',
    'E2': 'the first word is no statement',
    'E3': 'the statement has another number of words',
    'E4': 'a word has the wrong form: it is no number, no name, or none of the fixed words, where one is asked',
    'E5': "a number is out of its range; RWND is below MSS; the number of a `lose` is not above the link's last one",
    'E6': 'a declared name is taken, by a node, a link or a flow; or ROUTER has a route to DEST already',
    'E7': 'a used name is not declared on an earlier line',
    'E8': 'a used name is of another sort or kind than asked: FROM or TO no node, TO the same node as FROM, SENDER no sender, '
          "RECEIVER no receiver, ROUTER no router, DEST no sender or receiver, LINK no link, a route's LINK not leaving ROUTER",
    'E9': "too many: node 257, link 1,025, flow 129, a router's 17th outgoing link, a link's 65th `lose`",
    'E10': 'the text has no `sim`, or more than one',
    'L1': 'there are fewer bytes than the counts in them, as they stand, ask for',
    'L2': 'the first four bytes are neither `TCB1` nor `TCB2`',
    'L3': 'a flow starts at END or later; there are fewer than two nodes, no link, or no flow',
    'L4': 'bytes are left over',
    'L5': 'a sender or a receiver does not have exactly one flow that names it and exactly one outgoing link, or a router has no '
          'outgoing link',
    'L6': "a flow that goes not from a sender to a receiver, a link into the node that it leaves, a route that is not a router's, "
          'not for a sender or receiver, or not over a link that leaves the router',
    'L7': "on some flow's way, for data or for acknowledgements, there is a router without a route to the way's end, or a sender "
          "or receiver that is not the way's end",
    'L8': "some flow's way returns to a node",
    'I1': 'the input has more than 16,777,216 bytes',
    'groups': 'the groups are no list, or not one for each node',
}


def meaning(code):
    return f'{code}: {MEANINGS[code]}\n'


# ---- a line

def place(line, fault):
    """The line, or the bytes of it around what is wrong, and a second line with carets under that."""
    start, count = 0, len(line)
    if fault.word is not None:
        start, count = fault.word.start, len(fault.word)
    elif fault.code == 'E1':
        start, count = next(re.finditer(rb'[^ -~]', line)).start(), 1
    first = max(start - MOST_BEFORE, 0)
    shown = re.sub(rb'[^ -~]', b'?', line[first:first + MOST_SHOWN]).decode()
    before = start - first
    return f'{shown}\n{" " * before}{"^" * max(min(count, len(shown) - before), 1)}\n'


# ---- the whole

class Parts:
    """A scenario's parts, which may make none, by their names or else by their numbers."""

    def __init__(self, scenario):
        self.nodes, self.links, self.flows, self.routes = scenario.nodes, scenario.links, scenario.flows, scenario.routes
        self.end = scenario.end
        self.names = {at: name.decode() for name, at in scenario.names.items()}
        self.by_route = {(router, destination): link for router, destination, link in reversed(self.routes)}

    def name(self, sort, number):
        return self.names.get((sort, number), str(number))

    def node(self, number):
        return self.name(NODE, number)

    def whole(self, number):
        """A node by what it does and by its name."""
        return f'{KIND_NAMES[self.nodes[number]] if number < len(self.nodes) else "node"} {self.node(number)}'

    def short(self, number):
        """A node by its name alone, if it has one."""
        return self.names.get((NODE, number)) or self.whole(number)

    def few_or_late(self):
        for things, count, least, statement in (
                ('nodes', len(self.nodes), 2, 'node NAME KIND'),
                ('links', len(self.links), 1, 'link NAME FROM TO RATE DELAY droptail CAP'),
                ('flows', len(self.flows), 1, 'flow NAME SENDER RECEIVER MSS SEGMENTS START RWND DELACK')):
            if count < least:
                return f'{things} that are declared: {count}; wanted: {least} at least', statement
        for number, flow in enumerate(self.flows):
            if flow.start >= self.end:
                told = f'flow {self.name(FLOW, number)} starts at {flow.start}, and the end is {self.end}'
                return told, f'sim {min(flow.start + 1, 2**64 - 1)}'

    def ends(self):
        for node, kind in enumerate(self.nodes):
            flows = [number for number, flow in enumerate(self.flows) if node in (flow.sender, flow.receiver)]
            links = [number for number, link in enumerate(self.links) if link.source == node]
            whole, name = self.whole(node), self.node(node)
            if kind != ROUTER and not flows:
                ends = f'SENDER {name}' if kind == RECEIVER else f'{name} RECEIVER'
                return f'no flow names {whole}', f'flow NAME {ends} MSS SEGMENTS START RWND DELACK'
            if kind != ROUTER and len(flows) > 1:
                return f'{len(flows)} flows name {whole}', f'# flow {self.name(FLOW, flows[-1])}'
            if not links:
                return f'no link leaves {whole}', f'link NAME {name} TO RATE DELAY droptail CAP'
            if len(links) > (MOST_ROUTER_LINKS if kind == ROUTER else 1):
                return f'{len(links)} links leave {whole}', f'# link {self.name(LINK, links[-1])}'

    def kinds(self):
        for number, flow in enumerate(self.flows):
            if self.nodes[flow.sender] != SENDER or self.nodes[flow.receiver] != RECEIVER:
                name = self.name(FLOW, number)
                return (f'flow {name} goes from {self.whole(flow.sender)} to {self.whole(flow.receiver)}',
                        f'flow {name} SENDER RECEIVER MSS SEGMENTS START RWND DELACK')
        for number, link in enumerate(self.links):
            if link.source == link.to:
                name = self.name(LINK, number)
                return (f'link {name} leaves {self.whole(link.source)} and comes to it',
                        f'link {name} {self.node(link.source)} TO RATE DELAY droptail CAP')
        for number, (router, destination, link) in enumerate(self.routes):
            source = self.links[link].source
            if self.nodes[router] != ROUTER or self.nodes[destination] == ROUTER or source != router:
                return (f'route {number} is of {self.whole(router)}, for {self.whole(destination)}, '
                        f'over link {self.name(LINK, link)} of {self.whole(source)}', 'route ROUTER DEST LINK')

    def paths(self, returns):
        """The first path of a flow that returns, or that breaks."""
        for number, flow in enumerate(self.flows):
            for packets, start, goal in (('data', flow.sender, flow.receiver), ('acknowledgements', flow.receiver, flow.sender)):
                if stop := self.stop(start, goal):
                    before, link, here, again = stop
                    if again == returns:
                        told, statement = self.stopped(before, link, here, goal, again)
                        return f'{packets} of flow {self.name(FLOW, number)} {told}', statement

    def stop(self, start, goal):
        """Where a path first comes to a node that it may not come to, or was at before: the node before, the link from it, the
        node, and whether it was there before. None where it comes to its end."""
        here, seen, link = start, [], next(number for number, link in enumerate(self.links) if link.source == start)
        while here != goal:
            seen.append(here)
            before, here = here, self.links[link].to
            if here == goal:
                break
            if self.nodes[here] != ROUTER or (here, goal) not in self.by_route:
                return before, link, here, False
            if here in seen:
                return before, link, here, True
            link = self.by_route[here, goal]

    def stopped(self, before, link, here, goal, again):
        if again:
            return f'come to {self.whole(here)} again, from {self.whole(before)}', f'route {self.node(before)} {self.node(goal)} LINK'
        if self.nodes[here] == ROUTER:
            return f'stop at {self.whole(here)}: no route for {self.short(goal)}', f'route {self.node(here)} {self.node(goal)} LINK'
        told = f'come to {self.whole(here)} over link {self.name(LINK, link)}, and not to {self.short(goal)}'
        if self.nodes[before] == ROUTER:
            return told, f'route {self.node(before)} {self.node(goal)} LINK'
        return told, f'link {self.name(LINK, link)} {self.node(before)} {self.node(goal)} RATE DELAY droptail CAP'

    def shown(self, code):
        """What shows first that the parts have the fault of this code, and a statement that would mend it."""
        found = {'L3': self.few_or_late, 'L5': self.ends, 'L6': self.kinds, 'L7': lambda: self.paths(False),
                 'L8': lambda: self.paths(True)}.get(code, lambda: None)()
        return f'{code}: {found[0]}\n{found[1]}\n' if found else ''


# ---- an input

def of_text(data, code):
    book, faulty = read_lines(data)
    if faulty:
        _, line, fault = faulty
        told = advice(data, line, code, fault.word)
        return place(line, fault) + f'{told}\n' * bool(told)
    return Parts(book.parts()).shown(code) if code != 'E10' else ''


def of_image(data, code):
    if code in ('L1', 'L2', 'L4'):
        return ''
    header, kinds, *records, _ = image.split(data)
    return Parts(image.parts_of(header, kinds, *records)).shown(code) if all(kind < len(KIND_NAMES) for kind in kinds) else ''


def reason(data, refused):
    """The lines that are shown behind the note where an input is refused."""
    if refused.code == 'I1':
        return meaning('I1')
    of = of_image if refused.line is None else of_text
    return of(data, refused.code) + meaning(refused.code)


def of_groups(groups, nodes):
    """The same where these are no groups of the nodes."""
    return f'groups that are given: {len(groups.split(","))}; nodes: {nodes}\n{meaning("groups")}'
