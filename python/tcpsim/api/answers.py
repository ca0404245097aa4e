"""What the debugger answers, as objects with the scenario's names. Times are nanoseconds, windows and numbers bytes."""
from __future__ import annotations

import re
from dataclasses import dataclass

from tcpsim.api.events import Event, Names, events_of

WHERE = re.compile(r'^at (\d+) of the run, time (\d+) ns(, the end|, the beginning)?$', re.M)
SORTS = {'d': 'data', 'a': 'ack'}


@dataclass(frozen=True, repr=False)
class Move:
    """Where a move came to. `event` is the last that was run there, None at the beginning; `passed` says how many were run on
    the way, below 0 going back; `matched` whether it stopped where it was asked to."""

    position: int               # events that were run
    time_ns: int                # of the last of them
    event: Event | None
    passed: int
    matched: bool
    at_end: bool
    text: str                   # the prompt's answer: the last ten lines that were passed

    def __repr__(self) -> str:
        return self.text.rstrip('\n')


def move_of(text: str, before: int, last: str, names: Names) -> Move:
    """The move that the prompt answered, from the position `before`; `last` is the line of the last event that was run."""
    found = next(WHERE.finditer(text))
    position, time, where = found.groups()
    event = next(events_of([[last]], names)) if last else None
    matched = '\nbreak ' in text[found.start():]
    return Move(int(position), int(time), event, int(position) - before, matched, where == ', the end', text)


# ---- why

@dataclass(frozen=True)
class WaitingPacket:
    """A packet that waits: `place` 1 is the head of the queue of `link`."""

    kind: str                   # data or ack
    number: int
    place: int
    link: str


@dataclass(frozen=True)
class PacketUnderWay:
    """A packet on its way over a link."""

    kind: str
    number: int
    to: str                     # a node
    time_ns: int                # when it arrives


@dataclass(frozen=True)
class Alarm:
    """An alarm: start, rto or delack."""

    kind: str
    time_ns: int


@dataclass(frozen=True)
class PastDrop:
    """A packet that was dropped: why (lost, full or codel), at which link, and the number of the event."""

    kind: str
    number: int
    reason: str
    link: str
    n: int


@dataclass(frozen=True)
class Missing:
    """What is missing of what a flow has sent: the byte that its receiver waits for, or the acknowledgement above a byte for which
    its sender waits; and each drop of it."""

    at: str                     # receiver or sender
    byte: int
    drops: tuple[PastDrop, ...]


@dataclass(frozen=True, repr=False)
class Why:
    """What a flow waits for: how it `stands`, in words, where its packets are, and what is `missing`."""

    flow: str
    stands: str
    waits: tuple[WaitingPacket, ...]
    under_way: tuple[PacketUnderWay, ...]
    alarms: tuple[Alarm, ...]
    missing: Missing | None     # None where nothing is
    text: str                   # the prompt's answer

    @property
    def stalled(self) -> bool:
        """Whether nothing but an alarm goes on with it."""
        return self.stands.startswith('is stalled')

    def __repr__(self) -> str:
        return self.text


REASONS = {'lost by name': 'lost', 'dropped (full)': 'full', 'dropped (codel)': 'codel'}


def parts_of(pattern: str, text: str) -> tuple[str, ...]:
    """The groups of a pattern, which a whole text has."""
    found = re.fullmatch(pattern, text)
    if found is None:
        raise ValueError(f'{text!r} is no answer of the prompt')
    return found.groups()


def missing_of(line: str) -> Missing:
    """What the last line of an answer to `why` tells."""
    head, *drops = line.split(', ')
    at, byte = parts_of(r'missing at the (receiver|sender): .* (\d+)', head)
    found = (parts_of(r'(\w+) (\d+) (.*) at link (\w+) in line (\d+)', drop) for drop in drops)
    return Missing(at, int(byte), tuple(PastDrop(kind, int(number), REASONS[reason], link, int(n))
                                        for kind, number, reason, link, n in found))


def why_of(text: str) -> Why:
    """What `why` answered over a text, whose names it has."""
    parts: dict[str, tuple[str, ...]] = {'waits': (), 'under way': (), 'alarms': ()}
    first, *others = text.splitlines()
    missing = next((missing_of(line) for line in others if line.startswith('missing ')), None)
    for line in others:
        head, _, rest = line.partition(': ')
        parts[head] = tuple(rest.split(', '))
    waits = (parts_of(r'(\w+) (\d+) at place (\d+) of link (\w+)', word) for word in parts['waits'])
    packets = (parts_of(r'(\w+) (\d+) to node (\w+) at (\d+) ns', word) for word in parts['under way'])
    alarms = (parts_of(r'(\w+) at (\d+) ns', word) for word in parts['alarms'])
    _, flow, stands = first.split(' ', 2)
    return Why(flow, stands, tuple(WaitingPacket(kind, int(number), int(place), link) for kind, number, place, link in waits),
               tuple(PacketUnderWay(kind, int(number), node, int(time)) for kind, number, node, time in packets),
               tuple(Alarm(kind, int(time)) for kind, time in alarms), missing, text.rstrip('\n'))


# ---- the state

@dataclass(frozen=True)
class SenderNow:
    """A sender: what docs/FORMATS.md has of it in a dump."""

    una: int
    nxt: int
    high: int                   # the greatest nxt so far
    cwnd: int
    ssthresh: int
    dups: int                   # duplicate acknowledgements
    limited_transmit: int       # bytes sent by it
    in_recovery: bool
    timing: tuple[int, int] | None      # the acknowledgement number that ends a timing, and when its segment was sent
    srtt_ns: int | None
    rttvar_ns: int
    rto_ns: int
    resent: bool                # the timer sent the segment at una again


@dataclass(frozen=True)
class ReceiverNow:
    """A receiver: the next byte that it waits for, and the segments that it holds above."""

    next: int
    held: tuple[int, ...]


@dataclass(frozen=True)
class QueuedPacket:
    """A packet in a queue."""

    flow: str
    kind: str                   # data or ack
    number: int
    entered_ns: int


@dataclass(frozen=True)
class CoDelNow:
    """What CoDel keeps (RFC 8289 section 5.3)."""

    first_above_ns: int | None
    drop_next_ns: int
    count: int
    last_count: int
    dropping: bool


@dataclass(frozen=True)
class QueueNow:
    """A link's queue, from its head, and how many packets were offered and sent so far."""

    offered: int
    sent: int
    queue: tuple[QueuedPacket, ...]
    codel: CoDelNow | None


@dataclass(frozen=True)
class PendingEvent:
    """An event that is to come, at or past the scenario's end too."""

    time_ns: int
    node: str
    kind: str
    flow: str | None
    link: str | None            # that which becomes free
    number: int | None


@dataclass(frozen=True, repr=False)
class NetNow:
    """All that the net keeps at a position: `senders` and `receivers` by flow, `links` by name, the `pending` events."""

    position: int
    senders: dict[str, SenderNow]
    receivers: dict[str, ReceiverNow]
    links: dict[str, QueueNow]
    pending: tuple[PendingEvent, ...]
    text: str                   # the dump

    def __repr__(self) -> str:
        return self.text.rstrip('\n')


def none_or_int(word: str) -> int | None:
    """A number, None of `-`."""
    return None if word == '-' else int(word)


def sender_of(of: dict[str, str]) -> SenderNow:
    """The sender of a dump's words."""
    acknowledged, _, sent = of['timing'].partition('@')
    timing = None if of['timing'] == '-' else (int(acknowledged), int(sent))
    una, nxt, high, cwnd, ssthresh, dups, lt = (int(of[name]) for name in ('una', 'nxt', 'high', 'cwnd', 'ssthresh', 'dups', 'lt'))
    return SenderNow(una, nxt, high, cwnd, ssthresh, dups, lt, of['fr'] == '1', timing, none_or_int(of['srtt']), int(of['rttvar']),
                     int(of['rto']), of['resent'] == '1')


def queue_of(of: dict[str, str], names: Names) -> QueueNow:
    """The link of a dump's words."""
    found = re.findall(r'(\d+):([da]):(\d+)@(\d+)', of['queue'])
    packets = tuple(QueuedPacket(names.flows[flow], SORTS[sort], int(number), int(entered))
                    for flow, sort, number, entered in found)
    codel = None
    if 'first' in of:
        codel = CoDelNow(none_or_int(of['first']), int(of['next']), int(of['count']), int(of['last']), of['drop'] == '1')
    return QueueNow(int(of['offered']), int(of['sent']), packets, codel)


def pending_of(words: list[str], names: Names) -> PendingEvent:
    """The event of a dump's words."""
    _, time, node, _, _, kind, name, *number = words
    free = kind == 'free'
    return PendingEvent(int(time), names.nodes[node], kind, None if free else names.flows[name],
                        names.links[name] if free else None, int(number[0]) if number else None)


def state_of(text: str, names: Names) -> NetNow:
    """The state of a dump."""
    position, senders, receivers, links, pending = 0, {}, {}, {}, []
    for line in text.splitlines():
        words = line.split(' ')
        of = dict(word.split('=', 1) for word in words if '=' in word)
        if words[0] == 'at':
            position = int(words[1])
        elif words[0] == 'link':
            links[names.links[words[1]]] = queue_of(of, names)
        elif words[0] == 'event':
            pending.append(pending_of(words, names))
        elif words[2] == 'sender':
            senders[names.flows[words[3]]] = sender_of(of)
        elif words[2] == 'receiver':
            held = () if of['held'] == '-' else tuple(map(int, of['held'].split(',')))
            receivers[names.flows[words[3]]] = ReceiverNow(int(of['next']), held)
    return NetNow(position, senders, receivers, links, tuple(pending), text)
