"""Binary images of scenarios: `load` reads versions 1 and 2, `save` writes version 2. All numbers are
big-endian."""
import struct

from tcpsim_model.scenario import (MOST_FLOWS, MOST_LINKS, MOST_LOSSES, MOST_NODES, MOST_ROUTES, Flow, Link, Refused,
                                   Scenario, fault_of_whole, in_range)
from tcpsim_model.variants import ALL_BITS, byte_of, of_byte

MAGIC = {1: b'TCB1', 2: b'TCB2'}
HEADER = struct.Struct('>4sQHHHI')      # magic, end, numbers of nodes, links, flows, routes
LINK = struct.Struct('>HHQQBHQQHB')     # from, to, rate, delay, queue, capacity, target, interval,
#                                         maxpacket, number of `lose` entries, which follow
LOSE = struct.Struct('>I')
FLOW = {1: struct.Struct('>HHHIQII'),   # sender, receiver, mss, segments, start, rwnd, delack,
        2: struct.Struct('>HHHIQIIB')}  # and from version 2 on the variant
ROUTE = struct.Struct('>HHH')           # router, destination, link


class TooShort(Exception):
    """The bytes end before the layout does."""


class Reader:
    def __init__(self, data):
        self.data, self.at = data, 0

    def one(self, layout):
        if self.at + layout.size > len(self.data):
            raise TooShort
        found = layout.unpack_from(self.data, self.at)
        self.at += layout.size
        return found

    def many(self, layout, count):
        """`count` records; their bytes have to be there before any is read."""
        if self.at + layout.size * count > len(self.data):
            raise TooShort
        return [self.one(layout) for _ in range(count)]


def version_of(data):
    """By which version's layout the bytes are judged, whatever else they begin with."""
    return 2 if data[3:4] == MAGIC[2][3:] else 1


def split(data):
    """The numbers of an image as they stand, and how many bytes are left over."""
    read = Reader(data)
    header = read.one(HEADER)
    nodes, links, flows, routes = header[2:]
    kinds = [kind for kind, in read.many(struct.Struct('>B'), nodes)]
    cables = []
    for _ in range(links):
        link = read.one(LINK)
        cables.append((link[:-1], [number for number, in read.many(LOSE, link[-1])]))
    records = read.many(FLOW[version_of(data)], flows)
    return header, kinds, cables, records, read.many(ROUTE, routes), len(data) - read.at


def places(data):
    """Where each number of an image stands, the counts too, and how many bytes it has."""
    at = HEADER.size
    yield from ((4, 8), (12, 2), (14, 2), (16, 2), (18, 4))
    nodes, links, flows, routes = HEADER.unpack_from(data)[2:]
    records: list[tuple[int, ...]] = [(1,)] * nodes
    for _ in range(links):
        records.append((2, 2, 8, 8, 1, 2, 8, 8, 2, 1))
        place = at + sum(size for sizes in records for size in sizes)
        records.append((4,) * data[place - 1])
    flow_sizes = (2, 2, 2, 4, 8, 4, 4) + (1,) * (version_of(data) == 2)
    for sizes in records + [flow_sizes] * flows + [(2, 2, 2)] * routes:
        for size in sizes:
            yield at, size
            at += size


def strictly_rises(numbers):
    return all(a < b for a, b in zip(numbers, numbers[1:]))


def link_is_right(link, lose, nodes):
    source, to, rate, delay, queue, capacity, target, interval, maxpacket = link
    control = ('target', target), ('interval', interval), ('maxpacket', maxpacket)
    return (source < nodes and to < nodes and in_range('rate', rate) and in_range('delay', delay)
            and queue <= 1 and in_range('capacity', capacity)
            and all(in_range(name, value) if queue else value == 0 for name, value in control)
            and len(lose) <= MOST_LOSSES and strictly_rises(lose) and all(in_range('lose', n) for n in lose))


def flow_is_right(flow, nodes, end):
    sender, receiver, mss, segments, start, rwnd, delack, *variant = flow
    return (sender < nodes and receiver < nodes and in_range('mss', mss) and in_range('segments', segments)
            and start < end and in_range('rwnd', rwnd) and rwnd >= mss and in_range('delack', delack)
            and all(bits <= ALL_BITS for bits in variant))


def numbers_are_right(header, kinds, links, flows, routes):
    _, end, node_count, link_count, flow_count, route_count = header
    return (in_range('end', end) and 2 <= node_count <= MOST_NODES and 1 <= link_count <= MOST_LINKS
            and 1 <= flow_count <= MOST_FLOWS and route_count <= MOST_ROUTES and all(kind <= 2 for kind in kinds)
            and all(link_is_right(link, lose, node_count) for link, lose in links)
            and all(flow_is_right(flow, node_count, end) for flow in flows)
            and all(r < node_count and d < node_count and k < link_count for r, d, k in routes)
            and strictly_rises([route[:2] for route in routes]))


def link_of(record, lose):
    """The link of a record, with the numbers of the packets that it loses."""
    source, to, rate, delay, queue, capacity, target, interval, maxpacket = record
    return Link(source, to, rate, delay, queue == 1, capacity, target, interval, maxpacket, lose)


def flow_of(record):
    """The flow of a record whose numbers are right; one without a variant is `reno iw3`."""
    return Flow(*record[:7], *of_byte(record[7] if len(record) > 7 else 0))


def parts_of(header, kinds, links, flows, routes):
    """The parts that these numbers make, whether they make a scenario or not."""
    return Scenario(header[1], kinds, [link_of(link, lose) for link, lose in links],
                    [flow_of(flow) for flow in flows], routes)


def load(data):
    """The scenario of an image; raises `Refused` with its first fault."""
    try:
        *numbers, left = split(data)
    except TooShort:
        raise Refused('L1') from None
    if numbers[0][0] not in MAGIC.values():
        raise Refused('L2')
    if not numbers_are_right(*numbers):
        raise Refused('L3')
    if left:
        raise Refused('L4')
    scenario = parts_of(*numbers)
    fault = fault_of_whole(scenario)
    if fault:
        raise Refused(fault)
    return scenario


def save(s, version=2):
    """The image of a scenario; one of version 1 leaves the flows' variants out."""
    out = [HEADER.pack(MAGIC[version], s.end, len(s.nodes), len(s.links), len(s.flows), len(s.routes)), bytes(s.nodes)]
    for k in s.links:
        out.append(LINK.pack(k.source, k.to, k.rate, k.delay, k.codel, k.capacity, k.target, k.interval,
                             k.maxpacket, len(k.lose)))
        out += [LOSE.pack(number) for number in k.lose]
    for f in s.flows:
        record = f.sender, f.receiver, f.mss, f.segments, f.start, f.rwnd, f.delack
        out.append(FLOW[version].pack(*record, *(byte_of(f),) * (version == 2)))
    out += [ROUTE.pack(*route) for route in s.routes]
    return b''.join(out)
