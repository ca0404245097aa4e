"""What tcpsim-net gives flows and links beside their paths: variants, initial windows, losses, the windows of NewReno flows,
and small differences between flows. Windows are bytes, times ns.
"""
from __future__ import annotations

import hashlib
from collections.abc import Sequence
from fractions import Fraction
from math import ceil

from tcpsim.command_line import Wrong
from tcpsim.scenario import units
from tcpsim.scenario.net import Flow, Net
from tcpsim.scenario.units import HEADER_BYTES, OPEN_WINDOW

VARIANTS, INITIAL_WINDOWS = ('reno', 'newreno'), (3, 10)
MOST_LOSSES, LAST_LOSS = 64, 10**9      # of one link (docs/FORMATS.md)
WIDER = Fraction(5, 4)
PART_OF_TRIP, PART_OF_SEGMENT = 20, 10
MOUSE = 25, 125         # bytes of a mouse's segments


def variant(word: str) -> str:
    """How a sender recovers from losses: reno or newreno."""
    if word not in VARIANTS:
        raise Wrong(f'{word!r} is no variant: write reno or newreno')
    return word


def initial_window(word: str) -> int:
    """The initial window of RFC 5681, 3, or of RFC 6928, 10."""
    number = word[2:] if word.startswith('iw') else word
    if number not in map(str, INITIAL_WINDOWS):
        raise Wrong(f'{word!r} is no initial window: write 3 (RFC 5681) or 10 (RFC 6928)')
    return int(number)


def variants(words: str) -> list[str]:
    """Variants with commas."""
    return [variant(word) for word in words.split(',')]


def initial_windows(words: str) -> list[int]:
    """Initial windows with commas."""
    return [initial_window(word) for word in words.split(',')]


def losses(word: str) -> tuple[str, list[int]]:
    """A link's name and the packets offered to it that are lost, counted from 1, rising: pq=20,21."""
    name, sign, numbers = word.partition('=')
    if not name or not sign:
        raise Wrong(f'{word!r} names no link and no packets: write LINK=N,.. as pq=20,21')
    read = sorted(units.count(number) for number in numbers.split(','))
    if len(set(read)) < len(read):
        raise Wrong(f'{word!r}: a packet stands there twice')
    if len(read) > MOST_LOSSES:
        raise Wrong(f'{word!r}: {len(read)} packets of one link, and {MOST_LOSSES} is the most')
    if read[0] < 1 or read[-1] > LAST_LOSS:
        raise Wrong(f'{word!r}: packets are counted from 1 to {LAST_LOSS:,}')
    return name, read


def lose_packets(net: Net, given: Sequence[tuple[str, list[int]]]) -> None:
    """Has links lose packets; each of `given` is a link's name and the packets."""
    links = {link.name: link for link in net.links}
    for name, numbers in given:
        if name not in links:
            raise Wrong(f'--lose {name}: the net has no such link, only {", ".join(list(links)[:12])}' + ', ..' * (len(links) > 12))
        if links[name].lose:
            raise Wrong(f'--lose {name} stands there twice: write all its packets in one')
        links[name].lose = numbers


def bound_windows(net: Net) -> Sequence[str]:
    """Gives each newreno flow a receiver's window of 1.25 times what its path holds, and says so: lines of a comment.
    In a long recovery an open window lets a NewReno sender send several times as much as that (docs/MODEL.md section 3)."""
    bounded, rooms = [flow for flow in net.flows if flow.variant == 'newreno' and flow.rwnd == OPEN_WINDOW], {}
    if not bounded:
        return ()
    for flow, paths in zip(net.flows, net.paths()):
        if flow in bounded:
            slowest = min(paths[0], key=lambda link: net.links[link].rate)       # the first where equal
            if slowest not in rooms:
                rooms[slowest] = net.room(slowest)
            trip = sum(net.links[link].delay for path in paths for link in path)
            flow.rwnd = bounded_window(flow, net.links[slowest].rate, trip, rooms[slowest])
            flow.note += ', a window of 1.25 x (BDP + queue)'
    return ('Receivers\' windows of newreno flows are 1.25 x (bandwidth-delay product + queue), as no --rwnd was given: with '
            'an open', 'window NewReno sends far more than the way holds in a long recovery, and times out again and again '
            '(docs/MODEL.md, 3).')


def bounded_window(flow: Flow, rate: int, trip: int, room: int) -> int:
    """1.25 times the segments of a bandwidth-delay product and a queue, in bytes: the rate is bit/s, the round trip ns,
    the room packets. At least two segments more than these, so that there are losses on a short path too."""
    held = Fraction(rate * trip, (flow.mss + HEADER_BYTES) * units.BITS_NS) + room
    segments = max(ceil(WIDER * held), ceil(held) + 2)
    return min(segments * flow.mss, units.RANGES['rwnd'][1])


# ---- small differences

def drawn(number: int, flow: str, what: str, most: int) -> int:
    """A number from 0 to `most`: the first eight bytes of the SHA-256 of `NUMBER FLOW WHAT`, as f0 and `delay`, greatest
    first, modulo most + 1."""
    digest = hashlib.sha256(f'{number} {flow} {what}'.encode('ascii')).digest()
    return int.from_bytes(digest[:8], 'big') % (most + 1)


def spread(net: Net, number: int, end: int) -> Sequence[str]:
    """Has flows differ by small amounts that are drawn from a number, and says so: lines of a comment. The sender's cable is
    longer by up to a twentieth of the flow's round trip, a segment shorter by up to a tenth, and the flow starts later by
    up to a round trip."""
    for flow, paths in zip(net.flows, net.paths()):
        trip = sum(net.links[link].delay for path in paths for link in path)
        net.links[paths[0][0]].delay += drawn(number, flow.name, 'delay', trip // PART_OF_TRIP)
        flow.mss -= drawn(number, flow.name, 'segment', flow.mss // PART_OF_SEGMENT)
        flow.start = min(flow.start + drawn(number, flow.name, 'start', trip), end - 1)
        flow.note += f', spread by {number}'
    return (f'Spread by {number}: senders\' cables are longer by up to 1/{PART_OF_TRIP} of a round trip, segments shorter by up to '
            f'1/{PART_OF_SEGMENT},', 'starts later by up to a round trip. Each is the first 8 bytes of SHA-256 of "NUMBER FLOW WHAT" '
            '(delay, segment, start), modulo the most and one.')


def make_mice(net: Net, count: int, number: int, end: int) -> Sequence[str]:
    """Makes the last `count` flows of a net mice: each has one small segment in flight for the whole run, of 25 to 125 bytes,
    and begins in the first second. What differs is drawn from a number."""
    for flow in net.flows[len(net.flows) - count:]:
        flow.mss = flow.rwnd = MOUSE[0] + drawn(number, flow.name, 'segment', MOUSE[1] - MOUSE[0])
        flow.segments, flow.delack = units.RANGES['segments'][1], 0
        flow.start = drawn(number, flow.name, 'start', min(units.TIME_UNITS['s'], end - 1))
        flow.note = f'a mouse, from {units.spelled_time(flow.start)} on'
    names = f'{net.flows[-count].name} to {net.flows[-1].name}'
    return (f'The last {count} flows, {names}, are mice: one segment of {MOUSE[0]} to {MOUSE[1]} bytes in flight, drawn as '
            f'--spread draws, from {number}.',)
