"""Scenario texts: `assemble` reads one, `disassemble` writes one."""
import re

from tcpsim_model.scenario import (KIND_NAMES, MOST_FLOWS, MOST_LINKS, MOST_LOSSES, MOST_NODES, MOST_ROUTER_LINKS,
                                   RECEIVER, ROUTER, SENDER, Flow, Link, Refused, Scenario, fault_of_whole, in_range)
from tcpsim_model.variants import TCPS, WINDOWS, of_words, words_of as variant_words

NOT_PRINTABLE = re.compile(rb'[^ -~]')
NUMBER = re.compile(rb'0|[1-9][0-9]*')
WORD = re.compile(rb'[^ ]+')
NAME = re.compile(rb'[a-z][a-z0-9]{0,14}')
DIGITS_ENOUGH = 20          # a number of more digits is out of every range
NODE, LINK, FLOW = 'node', 'link', 'flow'


class Fault(Exception):
    """What is wrong with a line: a code, and the word that is faulty, None where the line as a whole or a byte of it is."""

    def __init__(self, code, word=None):
        super().__init__(code)
        self.code, self.word = code, word


class Word(bytes):
    """A word of a line: which it is, and where in the line it begins, both counted from 0."""
    place = start = 0


def refuse_if(wrong, code, word=None):
    if wrong:
        raise Fault(code, word)


def lines_of(data):
    """The lines of a text; the last may lack its line feed."""
    lines = data.split(b'\n')
    if not lines[-1]:
        lines.pop()
    return lines


def words_of(line):
    words = []
    for place, found in enumerate(WORD.finditer(line.split(b'#', 1)[0])):
        word = Word(found[0])
        word.place, word.start = place, found.start()
        words.append(word)
    return words


def number(word):
    """The value of a word that has to be a number (E4)."""
    refuse_if(not NUMBER.fullmatch(word), 'E4', word)
    return 10**DIGITS_ENOUGH if len(word) > DIGITS_ENOUGH else int(word)


def number_in(name, word):
    value = number(word)
    refuse_if(not in_range(name, value), 'E5', word)
    return value


class Book:
    """What the lines so far have declared. Each statement's words are judged from the left; for one
    word its form comes first, then its range, then whether the name is known, of the right sort
    and kind, and not taken. Too many (E9) is judged when all words are right."""

    def __init__(self):
        self.ends, self.nodes, self.links, self.flows = [], [], [], []
        self.names = {}         # name: (sort, number)
        self.routes = {}        # (router, destination): link
        self.ports = {}         # node: how many links leave it

    def new_name(self, word):
        refuse_if(not NAME.fullmatch(word), 'E4', word)
        refuse_if(word in self.names, 'E6', word)
        return word

    def used(self, word, sort, kinds=()):
        """The number of the node, link or flow that the word names."""
        refuse_if(not NAME.fullmatch(word), 'E4', word)
        refuse_if(word not in self.names, 'E7', word)
        found, place = self.names[word]
        refuse_if(found != sort or (kinds and self.nodes[place] not in kinds), 'E8', word)
        return place

    def declare(self, name, sort, record, records, most):
        refuse_if(len(records) == most, 'E9')
        self.names[name] = (sort, len(records))
        records.append(record)

    def read(self, line):
        refuse_if(NOT_PRINTABLE.search(line), 'E1')
        words = words_of(line)
        if not words:
            return
        refuse_if(words[0] not in self.STATEMENTS, 'E2', words[0])
        counts, read = self.STATEMENTS[words[0]]
        refuse_if(len(words) not in counts, 'E3')
        read(self, words)

    def read_sim(self, words):
        self.ends.append(number_in('end', words[1]))

    def read_node(self, words):
        name = self.new_name(words[1])
        kind = words[2].decode()
        refuse_if(kind not in KIND_NAMES, 'E4', words[2])
        self.declare(name, NODE, KIND_NAMES.index(kind), self.nodes, MOST_NODES)

    def read_link(self, words):
        kind = words[6]
        refuse_if(len(words) not in {b'droptail': (8,), b'codel': (11,)}.get(kind, (8, 11)), 'E3')
        name = self.new_name(words[1])
        source = self.used(words[2], NODE)
        to = self.used(words[3], NODE)
        refuse_if(to == source, 'E8', words[3])
        link = Link(source, to, number_in('rate', words[4]), number_in('delay', words[5]), kind == b'codel', 0)
        refuse_if(kind not in (b'droptail', b'codel'), 'E4', kind)
        link.capacity = number_in('capacity', words[7])
        if link.codel:
            link.target = number_in('target', words[8])
            link.interval = number_in('interval', words[9])
            link.maxpacket = number_in('maxpacket', words[10])
        beside = self.ports.get(source, 0)
        refuse_if(self.nodes[source] == ROUTER and beside == MOST_ROUTER_LINKS, 'E9')
        self.declare(name, LINK, link, self.links, MOST_LINKS)
        self.ports[source] = beside + 1

    def read_flow(self, words):
        name = self.new_name(words[1])
        sender = self.used(words[2], NODE, (SENDER,))
        receiver = self.used(words[3], NODE, (RECEIVER,))
        mss = number_in('mss', words[4])
        segments = number_in('segments', words[5])
        start = number_in('start', words[6])
        rwnd = number_in('rwnd', words[7])
        refuse_if(rwnd < mss, 'E5', words[7])
        flow = Flow(sender, receiver, mss, segments, start, rwnd, number_in('delack', words[8]))
        if len(words) > 9:
            refuse_if(words[9] not in TCPS, 'E4', words[9])
            refuse_if(words[10] not in WINDOWS, 'E4', words[10])
            vars(flow).update(of_words(*words[9:]))
        self.declare(name, FLOW, flow, self.flows, MOST_FLOWS)

    def read_route(self, words):
        router = self.used(words[1], NODE, (ROUTER,))
        destination = self.used(words[2], NODE, (SENDER, RECEIVER))
        refuse_if((router, destination) in self.routes, 'E6', words[2])
        link = self.used(words[3], LINK)
        refuse_if(self.links[link].source != router, 'E8', words[3])
        self.routes[router, destination] = link

    def read_lose(self, words):
        lose = self.links[self.used(words[1], LINK)].lose
        offered = number_in('lose', words[2])
        refuse_if(lose and offered <= lose[-1], 'E5', words[2])
        refuse_if(len(lose) == MOST_LOSSES, 'E9')
        lose.append(offered)

    STATEMENTS = {  # first word: numbers of words, reader
        b'sim': ((2,), read_sim),
        b'node': ((3,), read_node),
        b'link': ((8, 11), read_link),
        b'flow': ((9, 11), read_flow),
        b'route': ((4,), read_route),
        b'lose': ((3,), read_lose),
    }

    def parts(self):
        """What is declared, where no line is faulty, whether it makes a scenario or not."""
        refuse_if(len(self.ends) != 1, 'E10')
        routes = sorted((*at, link) for at, link in self.routes.items())
        return Scenario(self.ends[0], self.nodes, self.links, self.flows, routes, names=self.names)

    def whole(self):
        """The scenario, where no line is faulty and the text as a whole is right."""
        scenario = self.parts()
        late = any(flow.start >= scenario.end for flow in self.flows)
        refuse_if(late or len(self.nodes) < 2 or not self.links or not self.flows, 'L3')
        fault = fault_of_whole(scenario)
        refuse_if(fault, fault)
        return scenario


def read_lines(data):
    """What the lines of a text declare, and of its first faulty line, if it has one, the number, the bytes and the fault."""
    book = Book()
    for number, line in enumerate(lines_of(data), 1):
        try:
            if line:
                book.read(line)
        except Fault as fault:
            return book, (number, line, fault)
    return book, None


def assemble(data):
    """The scenario that a text (bytes) means; raises `Refused` with its first fault."""
    book, faulty = read_lines(data)
    if faulty:
        number, _, fault = faulty
        raise Refused(fault.code, number)
    try:
        return book.whole()
    except Fault as fault:
        raise Refused(fault.code, 0) from None


def disassemble(s):
    """The text of a scenario, its names numbered."""
    out = [f'sim {s.end}']
    out += [f'node n{n} {KIND_NAMES[kind]}' for n, kind in enumerate(s.nodes)]
    for n, k in enumerate(s.links):
        queue = f'codel {k.capacity} {k.target} {k.interval} {k.maxpacket}' if k.codel else f'droptail {k.capacity}'
        out.append(f'link l{n} n{k.source} n{k.to} {k.rate} {k.delay} {queue}')
    for n, f in enumerate(s.flows):
        out.append(f'flow f{n} n{f.sender} n{f.receiver} {f.mss} {f.segments} {f.start} {f.rwnd} {f.delack}'
                   f' {variant_words(f).decode()}')
    out += [f'route n{router} n{destination} l{link}' for router, destination, link in s.routes]
    out += [f'lose l{n} {offered}' for n, k in enumerate(s.links) for offered in k.lose]
    return ''.join(line + '\n' for line in out).encode()
