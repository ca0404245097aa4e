"""Images and what each is refused for, worked out from the layout by hand: rows of dev/test_whole.py."""
from whole.texts import RIGHT, rows

# The image of the first text: the header, the nodes, two links and a flow. In version 1 a flow has no byte
# for its sender.
FIRST_IMAGE = bytes.fromhex('''
54434232 000000003b9aca00 0002 0002 0001 00000000
00 01
0000 0001 00000000007a1200 00000000000f4240 00 000a 0000000000000000 0000000000000000 0000 00
0001 0000 00000000007a1200 00000000000f4240 00 000a 0000000000000000 0000000000000000 0000 00
0000 0001 03e8 00000001 0000000000000000 0000fa00 00000000 00
''')
IN_VERSION_1 = b'TCB1' + FIRST_IMAGE[4:134]

# The first text with the names that every image's text has.
FIRST_AGAIN = '''sim 1000000000
node n0 sender
node n1 receiver
link l0 n0 n1 8000000 1000000 droptail 10
link l1 n1 n0 8000000 1000000 droptail 10
flow f0 n0 n1 1000 1 0 64000 0 reno iw3
'''

# Places in the first image, the bytes put there, and the fault of the image with them.
CHANGED = rows(
    (0, 'L2', '54434258', '54434233'),
    (0, 'L4', '54434231'),
    (0, RIGHT, '54434232'),
    (4, RIGHT, '0000000000000001', '00038d7ea4c68000'),
    (4, 'L3', '00038d7ea4c68001', '0000000000000000'),
    (12, 'L3', '0001', '0000'),
    (14, 'L3', '0000'),
    (14, 'L1', 'ffff'),
    (16, 'L3', '0000'),
    (18, 'L1', '00000001', 'ffffffff'),
    (22, 'L3', '03'),
    (22, 'L6', '01', '02'),
    (24, 'L6', '0000 0000'),
    (24, 'L5', '0001 0000'),
    (24, 'L3', '0002', 'ffff'),
    (26, 'L3', '0002'),
    (66, 'L6', '0001 0001'),
    (66, 'L5', '0000 0001'),
    (28, 'L3', '00000000000003e7', '000000e8d4a51001'),
    (28, RIGHT, '00000000000003e8', '000000e8d4a51000'),
    (36, 'L3', '0000000000000000', '00000002540be401'),
    (36, RIGHT, '0000000000000001', '00000002540be400'),
    (44, 'L3', '01', '01 0001 0000000000000001 00000002540be401 ffff', '01 0001 0000000000000000 0000000000000001 0001',
     '01 0001 0000000000000001 0000000000000000 0001', '01 0001 0000000000000001 0000000000000001 0000',
     '01 0001 00000002540be401 0000000000000001 0001', '02', '01 000a 0000000000000000 0000000005f5e100 05dc',
     '01 000a 00000000004c4b40 0000000000000000 05dc', '01 000a 00000000004c4b40 0000000005f5e100 0000',
     '01 000a 00000002540be401 0000000000000001 0001', '01 000a 0000000000000001 00000002540be401 0001'),
    (44, RIGHT, '01 0001 0000000000000001 00000002540be400 ffff', '01 0001 0000000000000001 0000000000000001 0001',
     '01 0001 00000002540be400 0000000000000001 0001', '01 000a 0000000000000001 0000000000000001 0001',
     '01 000a 00000002540be400 0000000000000001 0001', '01 000a 0000000000000001 00000002540be400 0001',
     '01 ffff 00000002540be400 00000002540be400 ffff'),
    (45, 'L3', '0000'),
    (45, RIGHT, '0001', 'ffff'),
    (47, 'L3', '0000000000000001'),
    (55, 'L3', '0000000000000001'),
    (63, 'L3', '0001'),
    (65, 'L1', '01'),
    (108, 'L6', '0001 0000'),
    (108, 'L5', '0001 0001'),
    (108, 'L3', '0002', '0000 0001 03e8 00000000 0000000000000000 0000fa00 00000000 00 00'),
    (110, 'L3', '0002'),
    (112, 'L3', '0000', '2329'),
    (112, RIGHT, '0001', '2328'),
    (114, 'L3', '00000000', '3b9aca01'),
    (114, RIGHT, '00000001', '3b9aca00'),
    (118, RIGHT, '0000000000000001', '000000003b9ac9ff'),
    (118, 'L3', '000000003b9aca00'),
    (126, 'L3', '000003e7', '40000001'),
    (126, RIGHT, '000003e8', '40000000'),
    (130, RIGHT, '1dcd6500'),
    (130, 'L3', '1dcd6501'),
    (134, RIGHT, '01', '02', '03'),
    (134, 'L3', '04', '80', 'ff', '04 00'),
    (134, 'L4', '00 00', '03 00'),
    (108, 'L4', '0001 0001 03e8 00000001 0000000000000000 0000fa00 00000000 00 00'))

# The same in the image of version 1.
CHANGED_IN_VERSION_1 = rows(
    (0, RIGHT, '54434231'),
    (0, 'L1', '54434232'),
    (0, 'L2', '54434200', '54434202', '54434233', '54434258'),
    (12, 'L3', '0000'),
    (18, 'L1', '00000001'),
    (112, RIGHT, '2328'),
    (112, 'L3', '2329'),
    (130, RIGHT, '1dcd6500'),
    (130, 'L3', '1dcd6501', '1dcd6501 00'),
    (130, 'L4', '00000000 00'))

# How many nodes, links and flows an image has and how many routes, and its fault.
COUNTS = [
    ([2, 2, 1], 0, RIGHT), ([0, 2, 1], 0, 'L3'), ([1, 2, 1], 0, 'L3'), ([256, 2, 1], 0, 'L5'), ([257, 2, 1], 0, 'L3'),
    ([65535, 2, 1], 0, 'L3'), ([2, 0, 1], 0, 'L3'), ([2, 1, 1], 0, 'L5'), ([2, 1024, 1], 0, 'L5'), ([2, 1025, 1], 0, 'L3'),
    ([2, 2, 0], 0, 'L3'), ([2, 2, 128], 0, 'L5'), ([2, 2, 129], 0, 'L3'), ([256, 2, 1], 65536, 'L5'),
    ([256, 2, 1], 65537, 'L3'),
]

# The words of a flow's sender in a text, and its byte in the image.
SENDERS = [('', 0), (' reno iw3', 0), (' newreno iw3', 1), (' reno iw10', 2), (' newreno iw10', 3)]

# The numbers of a link behind its ends, and of a flow; the same at their greatest, the link's with 64 lost
# packets.
LINK = bytes.fromhex('00000000007a1200 00000000000f4240 00 000a 0000000000000000 0000000000000000 0000 00')
FLOW = bytes.fromhex('03e8 00000001 0000000000000000 0000fa00 00000000 00')
GREATEST_LINK = bytes.fromhex(
    '000000e8d4a51000 00000002540be400 01 ffff 00000002540be400 00000002540be400 ffff 40')
GREATEST_FLOW = bytes.fromhex('2328 3b9aca00 00038d7ea4c67fff 40000000 1dcd6500 03')

# The ends of the links of a sender, 128, a receiver, 129, and the routers there and back, 0 and 1.
PAIR = [(128, 0), (129, 1), *[(0, 129)] * 7, *[(1, 128)] * 7]


def numbers(*values):
    """Numbers of two bytes."""
    return b''.join(it.to_bytes(2, 'big') for it in values)


def header(end, counts, routes):
    return b'TCB2' + end.to_bytes(8, 'big') + numbers(*counts) + routes.to_bytes(4, 'big')


def image_of(counts, routes):
    """The image with these counts of nodes, a sender, a receiver and routers; links from node 0 to node 1 and back;
    flows from node 0 to node 1; routes over link 0, of each router to 256 nodes and then of the next."""
    nodes, links, flows = counts
    parts = [header(1_000_000_000, counts, routes), bytes(min(it, 2) for it in range(nodes))]
    parts += [numbers(it % 2, 1 - it % 2) + LINK for it in range(links)]
    parts += [(numbers(0, 1) + FLOW) * flows]
    for route in range(routes):
        _, high, router, destination = route.to_bytes(4, 'big')
        parts.append(bytes([high, router, 0, destination, 0, 0]))
    return b''.join(parts)


def greatest(end=10 ** 15, link=GREATEST_LINK, flow=GREATEST_FLOW):
    """The image with each number at its greatest, or with these, and with as many nodes, links and routes as there may be:
    128 routers and 64 flows, each over two of them."""
    lost = b''.join(it.to_bytes(4, 'big') for it in range(999_999_937, 1_000_000_001))
    parts = [header(end, (256, 1024, 64), 16_384), bytes([2] * 128 + [0, 1] * 64)]
    for behind in range(0, 128, 2):
        parts += [numbers(start + behind, to + behind) + link + lost for start, to in PAIR]
    parts += [numbers(it, it + 1) + flow for it in range(128, 256, 2)]
    for router in range(128):
        over = router // 2 * 16 + (9 if router % 2 else 2)
        parts += [numbers(router, it, over) for it in range(128, 256)]
    return b''.join(parts)


def most_flows():
    """The image with as many flows as there may be, each over a link of its own there and back."""
    parts = [header(1_000_000_000, (256, 256, 128), 0), bytes([0, 1] * 128)]
    parts += [numbers(it, it ^ 1) + LINK for it in range(256)]
    parts += [numbers(it, it + 1) + FLOW for it in range(0, 256, 2)]
    return b''.join(parts)
