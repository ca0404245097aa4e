"""What a picture says of a flow and of a link in words: paths, round trips, in what the flows differ, who uses a link."""
from __future__ import annotations

from collections.abc import Sequence

from tcpsim.scenario.text import Flow, Scenario
from tcpsim.scenario.units import BITS_NS, HEADER_BYTES
from tcpsim.traces.reader import first_window

from .clock import length_text

MOST_NODES = 6          # a path with more is named by its first and last two nodes
MOST_FLOWS = 4          # of more that use a link only the number is told


# ---- flows

def path_text(scenario: Scenario, number: int) -> str:
    """A flow's path by its nodes."""
    nodes = [scenario.flows[number].sender, *(scenario.links[link].to for link in scenario.paths[number][0])]
    names = [scenario.nodes[node].name for node in nodes]
    if len(names) > MOST_NODES:
        names[2:-2] = ['…']
    return '→'.join(names)


def least_round_trip(scenario: Scenario, number: int) -> int:
    """What a segment and its acknowledgement take where neither waits, in ns."""
    sizes = HEADER_BYTES + scenario.flows[number].mss, HEADER_BYTES
    return sum(-(-size * BITS_NS // scenario.links[link].rate) + scenario.links[link].delay
               for size, path in zip(sizes, scenario.paths[number]) for link in path)


def words_of(flow: Flow) -> dict:
    """What a sender and its receiver are, but for the receiver's window, which its panel shows where it binds."""
    return {'variant': 'NewReno' if flow.newreno else 'Reno', 'mss': f'segments of {flow.mss:,} bytes',
            'first': f'initial window {first_window(flow) // flow.mss} segments',
            'delack': f'acks delayed by up to {length_text(flow.delack)}' if flow.delack else 'no ack delayed'}


def differences(flows: Sequence[Flow]) -> list[list[str]]:
    """Of each flow the words in which it and the others are not alike."""
    said = [words_of(flow) for flow in flows]
    unlike = [what for what in words_of(flows[0]) if len({words[what] for words in said}) > 1] if flows else []
    return [[words[what] for what in unlike] for words in said]


def trip_text(scenario: Scenario, number: int) -> str:
    """The least round trip of a flow, in words."""
    return f'round trip ≥ {length_text(least_round_trip(scenario, number))}'


def flow_notes(scenario: Scenario, number: int, unlike: Sequence[str], trip: str | None) -> tuple[str, ...]:
    """What is said of a flow below its name: its path, its round trip if that is not in the name, in what it is unlike others."""
    return (path_text(scenario, number), *([trip] if trip else []), *unlike)


# ---- links

def ends_text(scenario: Scenario, number: int) -> str:
    """The nodes at a link's ends."""
    link = scenario.links[number]
    return '→'.join(scenario.nodes[node].name for node in (link.source, link.to))


def carried(scenario: Scenario, number: int) -> str:
    """Of which flows a link carries the data, and of which the acknowledgements."""
    found = []
    for at, what in enumerate(('data', 'acks')):
        names = [flow.name for flow, paths in zip(scenario.flows, scenario.paths) if number in paths[at]]
        if names:
            found.append(f'{what} of ' + (', '.join(names) if len(names) <= MOST_FLOWS else f'{len(names)} flows'))
    return ' and '.join(found)


def link_note(scenario: Scenario, number: int) -> str:
    """What is said of a link beside its rate, delay and queue."""
    used = carried(scenario, number)
    return f'{ends_text(scenario, number)}: {used}' if used else ends_text(scenario, number)


def only_acks(scenario: Scenario, number: int) -> tuple[int, ...]:
    """The flows of which a link carries the acknowledgements and no data."""
    return tuple(flow for flow, (forth, back) in enumerate(scenario.paths) if number in back and number not in forth)
