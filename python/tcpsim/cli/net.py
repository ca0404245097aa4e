"""tcpsim-net: writes a scenario's text: a dumbbell, a parking lot, a chain, a slow way back, a tree, or islands.

Usage: bin/tcpsim-net SHAPE [OPTION ..] > SCENARIO, as
       bin/tcpsim-net dumbbell --flows 4 --rate 10M --rtt 40ms,80ms --queue codel:5ms:100ms > four.txt

Rates are in bit/s with k, M, G, as 10M or 10Mbit; times in ns, us, ms, s.
"""
from __future__ import annotations

import argparse
import functools
import shlex
import sys
from collections.abc import Callable, Sequence
from typing import Any

from tcpsim import output
from tcpsim.command_line import Words, Wrong, as_type
from tcpsim.scenario import units
from tcpsim.scenario.net import MOST_FLOWS, Net
from tcpsim.scenario.senders import bound_windows, initial_windows, lose_packets, losses, make_mice, spread, variants
from tcpsim.scenario.shapes import LONG, asymmetric, chain, dumbbell, islands, parking_lot, tree
from tcpsim.scenario.units import Queue, spelled_time


def number(name: str) -> Callable[[str], int]:
    """A type of option: a number in the range of `name`."""
    return as_type(lambda word: units.number(name, word))


def numbers(name: str) -> Callable[[str], list[int]]:
    """A type of option: numbers in the range of `name`, with commas."""
    return as_type(lambda words: [units.number(name, word) for word in words.split(',')])


def between(least: int, most: int) -> Callable[[str], int]:
    """A type of option: a whole number from `least` to `most`."""
    def read(word: str) -> int:
        if not least <= units.count(word) <= most:
            raise Wrong(f'{word} is out of range: from {least} to {most}')
        return int(word)
    return as_type(read)


QUEUE = as_type(units.queue_in_range)
OPTIONS: dict[str, dict[str, Any]] = {
    '--flows': dict(type=between(1, MOST_FLOWS), metavar='N', help='how many flows'),
    '--rate': dict(type=number('rate'), metavar='RATE', help='of the bottleneck, 10M if none is given'),
    '--rates': dict(type=numbers('rate'), metavar='RATE[,..]', help='of the hops, 10M if none is given'),
    '--rtt': dict(type=numbers('delay'), metavar='TIME[,..]',
                  help='round trips of the flows, of the delays alone, 40ms if none is given'),
    '--queue': dict(type=QUEUE, metavar='QUEUE', default=Queue('droptail', 50),
                    help='before the bottleneck: droptail:N, droptail:BDP or '
                    'codel:TARGET:INTERVAL[:LIMIT[:MAXPACKET]]; droptail:50 if none is given'),
    '--back-queue': dict(type=QUEUE, metavar='QUEUE', default=LONG, help='before its way back; droptail:1000 if none'),
    '--access': dict(type=number('rate'), metavar='RATE', default=10**9, help='of the ends\' cables; 1G if none'),
    '--access-queue': dict(type=QUEUE, metavar='QUEUE', default=LONG, help='before these; droptail:1000 if none'),
    '--access-delay': dict(type=number('delay'), metavar='TIME', default=10**6, help='of these; 1ms if none'),
    '--delay': dict(type=numbers('delay'), metavar='TIME[,..]', default=[10**7], help='of the hops; 10ms if none'),
    '--mss': dict(type=number('mss'), metavar='BYTES', default=1460, help='of a segment; 1460 if none'),
    '--segments': dict(type=numbers('segments'), metavar='N[,..]', default=[10**9],
                       help='of each flow; a billion, which no run comes to, if none is given'),
    '--start': dict(type=numbers('start'), metavar='TIME[,..]', default=[0], help='of each flow; 0 if none'),
    '--rwnd': dict(type=number('rwnd'), metavar='BYTES',
                   help='of the receivers\' windows; if none is given 2^30, which bounds nothing, and of newreno flows '
                   '1.25 times the bandwidth-delay product and the queue'),
    '--delack': dict(type=number('delack'), metavar='TIME', default=40 * 10**6,
                     help='of delayed acknowledgements; 40ms if none, 0 for an answer to each segment'),
    '--variant': dict(type=as_type(variants), metavar='VARIANT[,..]', default=['reno'],
                      help='how senders recover from losses: reno or newreno; reno if none'),
    '--iw': dict(type=as_type(initial_windows), metavar='N[,..]', default=[3],
                 help='initial windows: 3 (RFC 5681) or 10 (RFC 6928); 3 if none'),
    '--lose': dict(type=as_type(losses), metavar='LINK=N[,..]', action='append', default=[],
                   help='the N-th packet offered to a link is lost, counted from 1, as pq=20,21; may stand for several links'),
    '--spread': dict(type=between(0, 10**9), metavar='N',
                     help='flows differ by small amounts that are drawn from the number N: delays of the senders\' cables, '
                     'segments and starts'),
    '--mice': dict(type=between(0, MOST_FLOWS - 1), metavar='K', default=0,
                   help='K flows more, each with one small segment in flight; 0 if none'),
    '--end': dict(type=number('end'), metavar='TIME', default=20 * 10**9, help='of the run; 20s if none'),
    '--hops': dict(type=between(1, 250), metavar='N', default=3, help='links between routers; 3 if none'),
    '--cross': dict(type=between(1, 7), metavar='N', default=1, help='flows over each hop alone; 1 if none'),
    '--down': dict(type=number('rate'), metavar='RATE', default=10**7, help='towards the home; 10M if none'),
    '--up': dict(type=number('rate'), metavar='RATE', default=10**6, help='away from it; 1M if none'),
    '--up-queue': dict(type=QUEUE, metavar='QUEUE', help='before the way up; that of --queue if none'),
    '--uploads': dict(type=between(0, MOST_FLOWS), metavar='N', default=0, help='flows on the way up; 0 if none'),
    '--leaves': dict(type=between(1, 15), metavar='N', default=4, help='routers below each top; 4 if none'),
    '--islands': dict(type=between(3, 64), metavar='N', default=4, help='how many; 4 if none'),
    '--crossing': dict(type=between(0, 15), metavar='N', default=1, help='flows of each that go to the next; 1 if none'),
    '--between': dict(type=number('delay'), metavar='TIME', default=10**7, help='of the ring\'s cables; 10ms if none'),
}
ENDS = ('--access', '--access-queue', '--mss', '--segments', '--start', '--rwnd', '--delack',
        '--variant', '--iw', '--lose', '--spread', '--end')
# Of each shape its builder, its options, and what differs from the options above.
SHAPES: dict[str, tuple[Callable[..., Sequence[str]], tuple[str, ...], dict[str, Any]]] = {
    'dumbbell': (dumbbell, ('--flows', '--rate', '--rtt', '--queue', '--back-queue', '--mice', *ENDS), {'flows': 2}),
    'parking-lot': (parking_lot, ('--hops', '--cross', '--rates', '--delay', '--queue', '--back-queue',
                                  '--access-delay', *ENDS), {}),
    'chain': (chain, ('--hops', '--flows', '--rates', '--delay', '--queue', '--back-queue', '--access-delay', *ENDS),
              {'flows': 1}),
    'asymmetric': (asymmetric, ('--down', '--up', '--queue', '--up-queue', '--flows', '--uploads', '--rtt', *ENDS),
                   {'flows': 1}),
    'tree': (tree, ('--leaves', '--flows', '--rate', '--rtt', '--queue', '--back-queue', '--mice', *ENDS), {}),
    'islands': (islands, ('--islands', '--flows', '--crossing', '--rate', '--between', '--rtt', '--queue',
                          '--back-queue', *ENDS), {'flows': 3, 'rtt': [4 * 10**6]}),
}


WITH_MICE = [name for name, (_, options, _) in SHAPES.items() if '--mice' in options]


@functools.lru_cache(maxsize=1)
def command_line() -> Words:
    """The words of the command; it is made once, as a sweep can ask for thousands of scenarios."""
    words = Words(description='Writes a scenario\'s text to standard output.',
                        epilog='Rates are in bit/s with k, M, G, as 10M or 10Mbit; times in ns, us, ms, s. A list that is shorter than '
                        'the flows or hops begins again.')
    shapes = words.add_subparsers(dest='shape', metavar='SHAPE', required=True)
    for name, (build, options, defaults) in SHAPES.items():
        shape = shapes.add_parser(name, help=build.__doc__, description=build.__doc__)
        for option in options:
            given = dict(OPTIONS[option])
            if option == '--flows' and name == 'asymmetric':
                given['type'] = between(0, MOST_FLOWS)
            shape.add_argument('--rate' if option == '--rates' else option, dest=option[2:].replace('-', '_').replace(
                'rates', 'rate'), **given)
        shape.add_output('the scenario')
        shape.set_defaults(rate=[10**7] if '--rates' in options else 10**7)
        shape.set_defaults(**{'rtt': [40 * 10**6], **defaults})
    return words


def scenario(words: list[str]) -> str:
    """The text of a command line's words."""
    return text_of(command_line().parse_args(words), words)


def text_of(given: argparse.Namespace, words: list[str]) -> str:
    """The text of what a command line asks for; its first lines have the words, but for where it is written to."""
    if given.rwnd is not None and given.rwnd < given.mss:
        raise Wrong(f'--rwnd {given.rwnd} is below a segment of {given.mss} bytes')
    if max(given.start) >= given.end:
        raise Wrong(f'--start {spelled_time(max(given.start))} is not before the end, {spelled_time(given.end)}')
    net = Net()
    head = SHAPES[given.shape][0](net, given)
    if given.spread is not None:
        head = (*head, *spread(net, given.spread, given.end))
    if given.shape in WITH_MICE and given.mice:
        head = (*head, *make_mice(net, given.mice, given.spread or 0, given.end))
    net.check()
    lose_packets(net, given.lose)
    if given.rwnd is None:
        head = (*head, *bound_windows(net))
    return net.text(given.end, (*head, 'Written by: tcpsim-net ' + ' '.join(map(shlex.quote, without_output(words)))))


def without_output(words: list[str]) -> list[str]:
    """The words without the option -o."""
    kept, rest = [], iter(words)
    for word in rest:
        if word in ('-o', '--output'):
            next(rest)
        elif not word.startswith(('-o', '--output=')):
            kept.append(word)
    return kept


def main() -> None:
    """Does what the words ask for."""
    words = sys.argv[1:]
    given = command_line().parse_args(words)
    with output.opened(given.output) as file:
        file.write(text_of(given, words))
