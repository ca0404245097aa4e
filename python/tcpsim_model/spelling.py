"""Texts for comparing: the spellings of a scenario, texts that are nearly right, and mutations."""
import itertools

from tcpsim_model import image
from tcpsim_model.scenario import (MOST_FLOWS, MOST_LINKS, MOST_LOSSES, MOST_NODES, MOST_ROUTER_LINKS, MOST_ROUTES,
                                   RANGES, ROUTER, Flow, Link, Scenario)
from tcpsim_model.text import disassemble, lines_of, words_of
from tcpsim_model.variants import FIELDS, TCPS, WINDOWS

# The words of each statement after the first: what is asked in each place.
PLACES = {
    b'sim': ('end',),
    b'node': ('name', 'kind'),
    b'link': ('name', 'node', 'to', 'rate', 'delay', 'queue', 'capacity', 'target', 'interval', 'maxpacket'),
    b'flow': ('name', 'sender', 'receiver', 'mss', 'segments', 'start', 'rwnd', 'delack', 'recovery', 'first window'),
    b'route': ('router', 'destination', 'own link'),
    b'lose': ('link', 'lose'),
}
# Words at a flow's end, right and wrong.
VARIANT_WORDS = (*TCPS, *WINDOWS, b'Reno', b'ren', b'new', b'renonew', b'iw5', b'iw1', b'iw100', b'IW10',
                 b'iw03', b'10', b'0')
# One flow with all that it may have.
SMALL = b'''sim 5000000
node s sender
node r receiver
link a s r 8000000 1000000 droptail 10
link b r s 8000000 1000000 droptail 10
flow f s r 1000 1 0 64000 0
lose a 1
lose a 3
'''
# Two flows through two routers, each statement in it.
FULL = b'''sim 9000000
node s sender
node p router
node t sender
node u receiver
node q router
node v receiver
link a s p 8000000 1000000 droptail 10
link b p q 8000000 1000000 codel 10 1 1 1
link c q p 8000000 1000000 droptail 10
link d p s 8000000 1000000 droptail 10
link e t p 8000000 1000000 droptail 10
link g p t 8000000 1000000 droptail 10
link h u q 8000000 1000000 droptail 10
link i q u 8000000 1000000 droptail 10
link j v q 8000000 1000000 droptail 10
link k q v 8000000 1000000 droptail 10
flow x s u 1000 4 0 64000 0 newreno iw10
flow y t v 500 4 10 64000 50
route p u b
route p v b
route q u i
route q v k
route q s c
route q t c
route p s d
route p t g
lose b 3
lose b 4
lose k 1
'''
STRANGE = (b'0', b'00', b'01', b'1', b'+1', b'-1', b'1.', b'1e3', b'0x1', b'1_0', b'a1', b'1a', b'A', b'a-', b'aB',
           b'a_b', b'zz', b'sim', b'link', b'sender', b'router', b'droptail', b'codel', b'fq', b'reno', b'newreno',
           b'Reno', b'iw3', b'iw10', b'iw5', b'iw', b'"a"', b'~', b'#', b'a#b', b'a' * 15, b'a' * 16, b'z9' * 7, b'4294967296', b'18446744073709551615', b'18446744073709551616',
           b'340282366920938463463374607431768211456', b'9' * 5000, b'\t', b'\r', b'a\t', b'\x7f', b'\x80', b'\x00', b'\xff',
           b'1\x0b')


def spelt(scenario, pick, names_too=()):
    """A text of the scenario with other names, now and then one of these, with spaces, comments and another order of its lines."""
    lines = [words_of(line) for line in lines_of(disassemble(scenario))]
    names: dict[bytes, bytes] = {}
    for words in lines:
        if words[0] in (b'node', b'link', b'flow'):
            names[words[1]] = any_name(pick, names, names_too)
    lines = [[words[0]] + [names.get(word, word) for word in words[1:]] for words in lines]
    lines = [words[:9] if words[9:] == [b'reno', b'iw3'] and pick.random() < 0.6 else words for words in lines]
    sorts = [[words for words in lines if words[0] == sort] for sort in PLACES]
    nodes, links, flows, routes, lose = sorts[1:]
    out = nodes + links
    pick.shuffle(routes)
    out += merged(pick, flows, routes, lose)
    out.insert(pick.randint(0, len(out)), sorts[0][0])
    text = b''.join(line_of(words, pick) for words in out)
    return text if pick.random() < 0.8 else text[:-1]


def any_name(pick, taken, names_too=()):
    while True:
        letters = 'abcdefghijklmnopqrstuvwxyz'
        name = pick.choice(letters) + ''.join(pick.choices(letters + '0123456789', k=pick.choice((0, 1, 2, 3, 14))))
        if names_too and pick.random() < 0.15:
            name = pick.choice(names_too).decode()
        if name.encode() not in taken.values():
            return name.encode()


def merged(pick, *lists):
    """The lists put together, each in its own order."""
    left, out = [list(reversed(one)) for one in lists if one], []
    while left:
        one = pick.choice(left)
        out.append(one.pop())
        left = [one for one in left if one]
    return out


def line_of(words, pick):
    space = b' ' * pick.choice((1, 1, 1, 1, 2, 5))
    lead, trail = pick.choice((b'', b'', b'', b' ')), pick.choice((b'', b'', b'', b'', b' ', b'#', b' # note ~'))
    after = pick.choice((b'',) * 12 + (b'\n', b'# a comment\n', b'   \n'))
    return lead + space.join(words) + trail + b'\n' + after


def joined(lines):
    return b''.join(line + b'\n' for line in lines)


def places_of(words):
    """For each word after the first what is asked there."""
    return PLACES.get(words[0] if words else b'', ())


def bounds(name):
    """The numbers at a range's ends and one past them, and the values that other rules draw."""
    least, greatest = RANGES[name]
    around = {least, greatest, least - 1, least + 1, greatest + 1, greatest - 1, 999, 1000}
    return sorted(value for value in around if value >= 0)


def replaced(lines, n, words):
    return joined(lines[:n] + [b' '.join(words)] + lines[n + 1:])


def other_words(words, place, names):
    """Words to try in the place: numbers at their bounds, names of each sort, strange ones."""
    asked = places_of(words)[place - 1]
    if asked in RANGES:
        yield from (str(value).encode() for value in bounds(asked))
    yield from names
    yield from STRANGE


def around_words(text):
    """Each word left out, doubled, and replaced by others; words more at each line's end."""
    lines = lines_of(text)
    names = [words_of(line)[1] for line in lines if words_of(line)[0] in (b'node', b'link', b'flow')]
    for n, line in enumerate(lines):
        words = words_of(line)
        for place in range(len(words)):
            yield replaced(lines, n, words[:place] + words[place + 1:])
            yield replaced(lines, n, words[:place + 1] + words[place:])
            if place:
                for other in other_words(words, place, names):
                    yield replaced(lines, n, words[:place] + [other] + words[place + 1:])
            else:
                for other in (*PLACES, b'Sim', b'simm', b'si', *STRANGE):
                    yield replaced(lines, n, [other] + words[1:])
        for more in range(1, 4):
            yield replaced(lines, n, words + [b'1'] * more)
        if words[0] == b'flow':
            for variant in itertools.chain(itertools.product(VARIANT_WORDS), itertools.product(VARIANT_WORDS, repeat=2),
                                           (VARIANT_WORDS[:3], VARIANT_WORDS[:4])):
                yield replaced(lines, n, words[:9] + list(variant))


def around_lines(text):
    """Each line left out, doubled, moved to the front, to the end, behind the next; the text cut at
    each byte."""
    lines = lines_of(text)
    for n, line in enumerate(lines):
        rest = lines[:n] + lines[n + 1:]
        yield joined(rest)
        yield joined(lines[:n] + [line] + lines[n:])
        yield joined([line] + rest)
        yield joined(rest + [line])
        yield joined(rest[:n + 1] + [line] + rest[n + 1:])
        yield joined(lines + [line])
    for size in range(len(text)):
        yield text[:size]


def around_bytes(text):
    """Every byte at the front, in the midst and in the comment of some lines."""
    lines = lines_of(text)
    for byte in range(256):
        one = bytes((byte,))
        for n in (0, 3, len(lines) - 1):
            line = lines[n]
            for new in (one + line, line[:3] + one + line[3:], line[:6] + one + line[6:], line + one, line + b' #' + one):
                yield joined(lines[:n] + [new] + lines[n + 1:])


# A faulty word for each place and each fault that it can have.
FAULTY = {
    'name': (b'A', b's'), 'kind': (b'x',), 'node': (b'A', b'zz', b'f'), 'to': (b'A', b'zz', b'f', None),
    'queue': (b'fq',), 'sender': (b'A', b'zz', b'a', b'r'), 'receiver': (b'A', b'zz', b'a', b's'),
    'router': (b'A', b'zz', b'a', b's'), 'destination': (b'A', b'zz', b'a', b'p'),
    'own link': (b'A', b'zz', b's', b'a'), 'link': (b'A', b'zz', b's'), 'recovery': (b'iw3',),
    'first window': (b'reno',),
}


def faulty_words(words, place):
    """Faulty words for the place; None in the table asks for the word before it."""
    asked = places_of(words)[place - 1]
    if asked in RANGES:
        return b'x', str(RANGES[asked][1] + 1).encode()
    return tuple(words[place - 1] if word is None else word for word in FAULTY[asked])


def faulty_lines(words):
    """The line with one faulty word, for each place and fault; with a bad byte; with another first
    word; with a word fewer and more."""
    for place in range(1, min(len(words), len(places_of(words)) + 1)):
        for other in faulty_words(words, place):
            yield words[:place] + [other] + words[place + 1:]
    yield words + [b'#\t']
    yield [b'zz'] + words[1:]
    yield words[:-1]
    yield words + [b'1']


def two_faults_in_a_line(text):
    lines = lines_of(text)
    seen = set()
    for n, line in enumerate(lines):
        words = words_of(line)
        if (words[0], len(words)) in seen:
            continue
        seen.add((words[0], len(words)))
        for once in faulty_lines(words):
            for twice in faulty_lines(once):
                yield replaced(lines, n, twice)


def again_with_a_fault(text):
    """Each line a second time, with one faulty word: what it declares is taken already."""
    lines = lines_of(text)
    for n, line in enumerate(lines):
        for once in faulty_lines(words_of(line)):
            yield joined(lines[:n + 1] + [b' '.join(once)] + lines[n + 1:])


def two_faults_in_two_lines(text, pick, count):
    """Two faulty lines in one text: all codes before and after each other."""
    lines = lines_of(text)
    faulty = [(n, once) for n, line in enumerate(lines) for once in faulty_lines(words_of(line))]
    for _ in range(count):
        (m, one), (n, two) = pick.sample(faulty, 2)
        if m != n:
            both = list(lines)
            both[m], both[n] = b' '.join(one), b' '.join(two)
            yield joined(both)


def counts_at_limits():
    """Nodes, links, flows, a router's links and a link's losses: as many as may be, and one more;
    one more with a faulty word besides."""
    def nodes(count):
        return [b'node x%d router' % n for n in range(count)]

    def pairs(count):
        return [b'node s%d sender' % n for n in range(count)] + [b'node r%d receiver' % n for n in range(count)]

    def flows(count):
        return [b'flow f%d s%d r%d 1 1 0 1 0' % (n, n % 100, n % 100) for n in range(count)]
    link = b'link l%d x%d x%d 1000 1 droptail 1'
    ring = [link % (n, n // 16, 255) for n in range(1024)]
    hub = [b'node h router', b'node t router'] + [b'link l%d h t 1000 1 droptail 1' % n for n in range(16)]
    loses = [b'lose a %d' % n for n in range(1, 65)]
    small = lines_of(SMALL)[:-2]
    for lines, more in (
            (nodes(256), (b'node y router', b'node y bus', b'node x1 router', b'node y', b'sim 5', b'flow y')),
            (nodes(256) + ring, (link % (1024, 100, 0), link % (1024, 100, 100), link % (1, 100, 0), b'sim 5')),
            (pairs(100) + flows(128), (b'flow g s1 r1 1 1 0 1 0', b'flow g s1 r1 1 1 0 0 0', b'flow g s1 r1 2 1 0 1 0',
                                    b'flow g s1 r1 1 1 0 1 0 reno iw10', b'flow g s1 r1 1 1 0 1 0 reno iw5',
                                    b'flow g s1 r1 1 1 0 1 0 iw3 reno', b'flow g s1 r1 1 1 0 1 0 newreno')),
            (hub, (b'link m h t 1000 1 droptail 1', b'link m t h 1000 1 droptail 1', b'link m h h 1000 1 droptail 1',
                   b'link m h t 1000 1 droptail 0', b'link m h t 1000 1 codel 1 1 1 1', b'link m h t 1000 1 codel 1 1 1 0')),
            (small + loses, (b'lose a 65', b'lose a 64', b'lose a 1', b'lose b 1', b'lose a 1000000001', b'lose a x'))):
        yield joined(lines)
        for line in more:
            yield joined(lines + [line])
            yield joined(lines[:-1] + [line])
            yield joined(lines + [line, b'zz'])
            yield joined([b'sim 1'] + lines + [line])


def great():
    """Inputs of the most bytes and one more."""
    most = 16_777_216
    yield b'\n' * most
    yield b'\n' * (most + 1)
    yield SMALL + b'#' * (most - len(SMALL))
    yield SMALL + b'#' * (most - len(SMALL) + 1)
    yield b'a ' * (most // 2)
    yield SMALL + b' ' * (most - len(SMALL))
    yield b'sim ' + b'9' * (most - 4)
    yield b'sim 0' + b'9' * (most - 5)
    yield b'sim' + b' 1' * 1_000_000
    yield b'a' * most
    yield b' ' * most
    yield b'#' * most
    yield b'\r' * most


def other_numbers(data):
    """An image with each of its numbers in turn at the ends of every range and of its bytes, at the most records
    of a sort, one past each, and beside what it was."""
    ends = {value for least, greatest in RANGES.values() for value in (least - 1, least, greatest, greatest + 1)}
    for most in (MOST_NODES, MOST_LINKS, MOST_FLOWS, MOST_LOSSES, MOST_ROUTER_LINKS, MOST_ROUTES):
        ends |= {most, most + 1}
    for at, size in image.places(data):
        was = int.from_bytes(data[at:at + size], 'big')
        for value in sorted({*ends, was - 1, was + 1, 256**size // 2, 256**size - 1} - {was}):
            if 0 <= value < 256**size:
                yield data[:at] + value.to_bytes(size, 'big') + data[at + size:]


def images_at_limits(version):
    """Nodes, links, flows, a router's links, routes and a link's losses: as many as may be, and one more; each
    variant of a flow."""
    def link(source, to, lose=()):
        return Link(source, to, 1000, 1, False, 1, lose=list(lose))
    links, flows = [link(0, 1), link(1, 0)], [Flow(0, 1, 1, 1, 0, 1, 0)]

    def saved(nodes=(0, 1), links=links, flows=flows, routes=()):
        return image.save(Scenario(5, list(nodes), list(links), list(flows), list(routes)), version)
    for count in (1, 2, MOST_NODES, MOST_NODES + 1):
        yield saved([0, 1, *[ROUTER] * (count - 2)][:count])
    for count in (0, 1, MOST_LINKS, MOST_LINKS + 1):
        yield saved(links=(links * count)[:count])
    for count in (0, 1, MOST_FLOWS, MOST_FLOWS + 1):
        yield saved(flows=flows * count)
    for count in (0, 1, MOST_ROUTER_LINKS, MOST_ROUTER_LINKS + 1):
        yield saved((0, 1, ROUTER), links + [link(2, 0)] * count)
    for variant in itertools.product((False, True), repeat=len(FIELDS)):
        yield saved(flows=[Flow(0, 1, 1, 1, 0, 1, 0, *variant)])
    every = [(router, end, 0) for router, end in itertools.product(range(MOST_NODES), range(MOST_NODES))]
    for routes in (every, [*every, (255, 255, 0)], [*every, (256, 0, 0)], every[:2][::-1], every[:1] * 2):
        yield saved([ROUTER] * MOST_NODES, routes=routes)
    least, greatest = RANGES['lose']
    for lose in ((least - 1,), (least,), (greatest,), (greatest + 1,), (2, 2), (2, 1), (least, greatest),
                 *(range(1, count + 1) for count in (MOST_LOSSES, MOST_LOSSES + 1, 255))):
        yield saved(links=(link(0, 1, lose), link(1, 0)))


def mutated(text, pick):
    """One to three changes at a random place: a byte, a word or a line."""
    lines = lines_of(text) or [b'']
    for _ in range(pick.choice((1, 1, 1, 2, 3))):
        n = pick.randrange(len(lines))
        words = words_of(lines[n])
        change = pick.randrange(8)
        if change == 0:
            lines.insert(pick.randint(0, len(lines)), lines[n])
        elif change == 1 and len(lines) > 1:
            lines.pop(n)
        elif change == 2:
            lines.insert(pick.randint(0, len(lines) - 1), lines.pop(n))
        elif change == 3 and lines[n]:
            at = pick.randrange(len(lines[n]))
            byte = pick.choice((pick.randrange(256), pick.choice(b'019az #')))
            lines[n] = lines[n][:at] + bytes((byte,)) + lines[n][at + pick.randint(0, 1):]
        elif words:
            place = pick.randrange(len(words))
            if change == 4:
                words.pop(place)
            elif change == 5:
                words.insert(place, pick.choice(words))
            elif change == 6:
                words[place] = pick.choice(words_of(pick.choice(lines)) or [b'0'])
            else:
                asked = places_of(words)[place - 1] if 0 < place <= len(places_of(words)) else None
                words[place] = (str(pick.choice(bounds(asked))).encode() if asked in RANGES else pick.choice(STRANGE))
            lines[n] = b' '.join(words)
        if not lines:
            lines = [b'']
    return joined(lines)
