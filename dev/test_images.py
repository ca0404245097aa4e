"""Tries the built program with images: which are a scenario, and the first fault of others, at each bound of
each number and for each fault of the whole. What is expected stands in the tables below, worked out by hand
from docs/FORMATS.md."""
import struct

import pytest

import clone

pytestmark = pytest.mark.built
S, R, P = 0, 1, 2           # sender, receiver, router

# A sender, two routers and a receiver in a row; the first link with CoDel and three lost packets, the third
# with one; a flow with the larger initial window; four routes.
ROW = bytes.fromhex('''
54434232 0000000077359400 0004 0006 0001 00000004
00 02 02 01
0000 0001 00000000007a1200 00000000000f4240 01 012c 00000000004c4b40 0000000005f5e100 05dc 03
    00000003 00000009 3b9aca00
0001 0002 000000e8d4a51000 0000000000000001 00 000a 0000000000000000 0000000000000000 0000 00
0002 0001 00000000000003e8 00000002540be400 00 ffff 0000000000000000 0000000000000000 0000 01
    00000007
0001 0000 00000000007a1200 00000000000f4240 00 000a 0000000000000000 0000000000000000 0000 00
0002 0003 00000000007a1200 00000000000f4240 00 000a 0000000000000000 0000000000000000 0000 00
0003 0002 00000000007a1200 00000000000f4240 00 000a 0000000000000000 0000000000000000 0000 00
0000 0003 03e8 00011170 0000000000000005 0000fa00 0bebc200 02
0001 0000 0003
0001 0003 0001
0002 0000 0002
0002 0003 0004
''')
# Places in that image, the bytes put there, and the fault of the bytes with them.
CHANGED = (
    # Counts that take more bytes than there are, or more than any file has.
    (12, 'ffff', 'L1'), (14, 'ffff', 'L1'), (16, 'ffff', 'L1'), (18, 'ffffffff', 'L1'), (67, '04', 'L1'),
    (0, '54434233', 'L2'),
    # The layout of version 1 is judged, so the routes begin at the variant's byte.
    (0, '54434231', 'L3'),
    # Lost packets that fall, stand, are numbered 0 or past the most, and one fewer of them.
    (68, '00000009 00000003', 'L3'), (68, '00000009 00000009', 'L3'), (68, '00000000', 'L3'), (76, '3b9aca01', 'L3'),
    (67, '02', 'L3'),
    # A variant of none of the four.
    (320, '04', 'L3'), (320, 'ff', 'L3'),
    # Routes that stand or fall, from a node and over a link that are not there.
    (327, '0001 0000', 'L3'), (333, '0000 0003', 'L3'), (339, '0004', 'L3'), (343, '0006', 'L3'),
    # A byte left over, alone, behind a number out of its range, and before a route of the wrong kind.
    (343, '0004 00', 'L4'), (343, '0006 00', 'L3'), (343, '0000 00', 'L4'),
    # A route of no router, for a router, over another node's link.
    (321, '0000', 'L6'), (329, '0002', 'L6'), (343, '0003', 'L6'),
    # No route to the receiver, and one that leads back.
    (331, '0003', 'L7'), (343, '0002', 'L8'),
)
ROUTES = (      # router, destination, link, with 4 nodes and 6 links; whether within, and whether behind (2, 1)
    (3, 0, 0, True, True), (3, 0, 5, True, True), (3, 0, 6, False, True), (4, 0, 0, False, True), (2, 2, 0, True, True),
    (2, 3, 0, True, True), (2, 4, 0, False, True), (2, 1, 0, True, False), (2, 0, 0, True, False), (1, 3, 0, True, False))
# A sender, a receiver and a router: the first two of three links (the third is from the router to the sender), the
# flow, a route, and the fault.
THERE, BACK = (0, 1), (1, 0)
OF_ONE_FLOW = (
    (THERE, BACK, (0, 1), (2, 0, 2), None), (THERE, BACK, (0, 3), (2, 0, 2), 'L3'), (THERE, (3, 0), (0, 1), (2, 0, 2), 'L3'),
    (THERE, BACK, (1, 1), (2, 3, 2), 'L3'), (THERE, THERE, (0, 1), (2, 0, 2), 'L5'), (THERE, BACK, (1, 1), (2, 0, 2), 'L5'),
    (THERE, BACK, (0, 0), (2, 0, 2), 'L5'), (THERE, BACK, (0, 0), (2, 2, 2), 'L5'), (THERE, BACK, (1, 0), (2, 0, 2), 'L6'),
    ((0, 0), BACK, (0, 1), (2, 0, 2), 'L6'), ((0, 2), BACK, (0, 1), (2, 2, 2), 'L6'), ((0, 2), BACK, (0, 1), (2, 0, 1), 'L6'),
    (THERE, BACK, (0, 1), (1, 0, 1), 'L6'), ((0, 2), BACK, (0, 1), (2, 0, 2), 'L7'), ((0, 2), BACK, (0, 1), (2, 1, 2), 'L7'),
    ((0, 2), (1, 2), (0, 1), (2, 1, 2), 'L7'))
# Two flows, from 0 to 4 and from 1 to 5, over routers 2 and 3.
TWO_LINKS = ((0, 2), (1, 2), (2, 3), (3, 2), (3, 4), (3, 5), (4, 3), (5, 3), (2, 0), (2, 1))
TWO_ROUTES = ((2, 0, 8), (2, 1, 9), (2, 4, 2), (2, 5, 2), (3, 0, 3), (3, 1, 3), (3, 4, 4), (3, 5, 5))
# Two routes in the place of those at these places, and the fault.
STAYS = (7, (3, 5, 5))
WAYS = (
    (STAYS, STAYS, None), ((6, (3, 4, 3)), STAYS, 'L8'), ((4, (3, 0, 4)), STAYS, 'L7'), ((6, (3, 4, 5)), STAYS, 'L7'),
    ((2, (2, 4, 8)), STAYS, 'L7'), ((0, (2, 0, 2)), STAYS, 'L8'), ((6, (3, 4, 3)), (7, (3, 6, 5)), 'L3'),
    ((6, (3, 4, 3)), (5, (3, 1, 2)), 'L6'), ((6, (3, 4, 3)), (7, (3, 5, 4)), 'L7'), ((6, (3, 4, 3)), (5, (3, 1, 5)), 'L7'),
    ((6, (3, 4, 3)), (7, (3, 5, 3)), 'L8'))
# A sender, a receiver and a router with a link of its own: three links before that, two flows, and whether each end
# has one link and one flow.
ENDS = (
    (THERE, BACK, (2, 0), (0, 1), (2, 2), True), (THERE, BACK, (2, 0), (1, 0), (2, 2), True),
    (THERE, BACK, (2, 0), (0, 0), (1, 1), True), (THERE, BACK, (2, 0), (0, 0), (2, 2), False),
    (THERE, BACK, (2, 0), (1, 1), (2, 2), False), (THERE, BACK, (2, 0), (0, 1), (0, 2), False),
    (THERE, BACK, (2, 0), (0, 1), (2, 1), False), (THERE, BACK, (2, 0), (0, 1), (2, 0), False),
    (THERE, BACK, (0, 1), (0, 1), (2, 2), False), (THERE, BACK, (1, 0), (0, 1), (2, 2), False),
    (THERE, (2, 0), (2, 0), (0, 1), (2, 2), False), ((2, 1), BACK, (2, 0), (0, 1), (2, 2), False))


def link(source, to, rate=8_000_000, delay=1_000_000, capacity=10, codel=None, lost=()):
    numbers = (1, capacity, *codel) if codel else (0, capacity, 0, 0, 0)
    return struct.pack(f'>HHQQBHQQHB{len(lost)}I', source, to, rate, delay, *numbers, len(lost), *lost)


def flow(sender, receiver, mss=1_000, segments=1, start=0, rwnd=64_000, delack=0):
    return struct.pack('>HHHIQIIB', sender, receiver, mss, segments, start, rwnd, delack, 0)


def image(nodes, links, flows, routes=(), end=1_000_000_000):
    """An image of kinds of nodes, of links and flows in bytes, and of routes."""
    head = struct.pack('>4sQHHHI', b'TCB2', end, len(nodes), len(links), len(flows), len(routes))
    return head + bytes(nodes) + b''.join([*links, *flows, *(struct.pack('>HHH', *it) for it in routes)])


def with_bytes(data, place, digits):
    put = bytes.fromhex(digits)
    return data[:place] + put + data[place + len(put):]


def outcome(data, word='asm'):
    """What the program comes to: its output, or the code of a refusal."""
    status, note, out = clone.outcome([word], data)
    if status == 0:
        return out
    assert (status, out) == (1, b''), note
    return note.decode().removeprefix('refused ').removesuffix('\n')


def expect(row, data, fault):
    assert outcome(data) == (fault or data), row


def judged(row, data, is_right, fault='L3'):
    """Refused for this fault exactly where it is not right; for none that is looked for before."""
    found = outcome(data)
    assert (found != fault) == is_right, row
    assert found not in (('L1', 'L2', 'L3', 'L4') if fault == 'L5' else ('L1', 'L2', 'L4')), row

# ---- loading and saving


def test_an_image_is_loaded_and_saved_again():
    expect('row', ROW, None)


def test_too_few_bytes_come_before_all_else():
    data = with_bytes(ROW, 22, '03')        # of no kind of node
    expect('whole', data, 'L3')
    for size in range(3, len(data)):
        expect(size, data[:size], 'L1')


def test_the_first_fault_of_an_image_counts():
    for place, digits, fault in CHANGED:
        expect((place, digits), with_bytes(ROW, place, digits), fault)


# ---- ranges; two senders are no scenario, but numbers are judged first. Those of links, flows and counts are in test_whole.py


def test_routes_have_limits_and_an_order():
    def of(nodes, links, *routes):
        return image([S] * nodes, [link(0, 1)] * links, [flow(0, 1)], routes, end=1)
    for *route, is_within, is_later in ROUTES:
        judged(route, of(4, 6, route), is_within)
        # With one node and one link more all of them are there, so that the order alone counts.
        judged(route, of(5, 7, route), True)
        judged(route, of(5, 7, (2, 1, 0), route), is_later)


# ---- the whole


def test_the_first_fault_of_one_flow_counts():
    for first, second, ends, route, fault in OF_ONE_FLOW:
        links = [link(*first), link(*second), link(2, 0)]
        expect((first, second, ends, route), image([S, R, P], links, [flow(*ends)], [route]), fault)


def test_a_break_of_any_way_comes_before_a_return_of_one():
    for one, other, fault in WAYS:
        routes = list(TWO_ROUTES)
        for place, route in (one, other):
            routes[place] = route
        data = image([S, S, P, P, R, R], [link(*ends) for ends in TWO_LINKS], [flow(0, 4), flow(1, 5)], routes)
        expect((one, other), data, fault)


def test_a_sender_and_a_receiver_have_a_link_and_a_flow_each():
    for *ends, one, other, is_right in ENDS:
        links = [link(*it) for it in (*ends, (2, 1))]
        judged((ends, one, other), image([S, R, P], links, [flow(*one), flow(*other)]), is_right, 'L5')


def test_a_router_has_1_to_16_links():
    for count, is_right in ((0, False), (1, True), (16, True), (17, False)):
        judged(count, image([P, P], [link(0, 1)] * count + [link(1, 0)], [flow(0, 1)]), is_right, 'L5')
