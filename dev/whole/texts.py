"""Texts and what each is refused for, worked out from the grammar by hand: rows of dev/test_whole.py."""
RIGHT = 'right'


def rows(*groups):
    """Of each group, a place, a fault and what has it there, a row for each: the place, it, the fault."""
    return [(place, it, fault) for place, fault, *those in groups for it in those]


# The first text, which has a meaning, and one with a router.
LINES = [
    'sim 1000000000',
    'node s sender',
    'node r receiver',
    'link a s r 8000000 1000000 droptail 10',
    'link b r s 8000000 1000000 droptail 10',
    'flow f s r 1000 1 0 64000 0',
]
ROUTED = [
    'sim 1000000000',
    'node s sender',
    'node p router',
    'node r receiver',
    'link a s p 8000000 1000000 droptail 10',
    'link b p r 8000000 1000000 droptail 10',
    'link c r p 8000000 1000000 droptail 10',
    'link d p s 8000000 1000000 droptail 10',
    'flow f s r 1000 1 0 64000 0',
    'route p r b',
    'route p s d',
]

# Three senders, each with a receiver of its own.
ISLANDS = '''sim 1000000000
node a sender
node b receiver
node c sender
node d receiver
node e sender
node f receiver
link ab a b 800000000 100000 droptail 100
link ba b a 800000000 100000 droptail 100
link cd c d 800000000 100000 droptail 100
link dc d c 800000000 100000 droptail 100
link ef e f 800000000 100000 droptail 100
link fe f e 800000000 100000 droptail 100
flow g a b 1000 1000 0 64000 0
flow h c d 1000 1000 0 64000 0
flow i e f 1000 1000 0 64000 0
'''


def star():
    """A router in the middle, 16 routers about it, and behind each an end, which has a link to the middle; besides
    each router has 15 links to the middle that no packet takes. So 256 links come to the middle. Eight flows of one
    segment go from each second end to the next, all from time 0."""
    arms = range(1, 17)
    lines = ['sim 1000000000', 'node m router', *(f'node q{k} router' for k in arms)]
    lines += [f'node e{k} {"sender" if k % 2 else "receiver"}' for k in arms]
    for k in arms:
        ways = [f'a{k} m q{k}', f'b{k} q{k} e{k}', f'c{k} e{k} m', *(f'd{k}x{idle} q{k} m' for idle in range(15))]
        lines += [f'link {way} 8000000 1000000 droptail 10' for way in ways]
    lines += [f'flow f{k} e{k} e{k + 1} 1000 1 0 64000 0' for k in arms[::2]]
    lines += [f'route m e{k} a{k}' for k in arms]
    lines += [f'route q{k} e{k} b{k}' for k in arms]
    return ''.join(f'{line}\n' for line in lines)


# The pieces of lines that each name a number: a lost packet, a link of the router or of the first text, a
# node and a flow.
LOSSES = ('lose a ', '')
ROUTER_LINKS = ('link x', ' p r 1000 1 droptail 1')
NODES = ('node x', ' router')
LINKS = ('link x', ' s r 1000 1 droptail 1')
FLOWS = ('flow x', ' s r 1 1 0 1 0')

# Data goes to and fro between two routers, and there is no way back.
TO_AND_FRO = '''sim 1000
node s sender
node p router
node q router
node r receiver
link a s p 1000000 10 droptail 5
link b p q 1000000 10 droptail 5
link c q p 1000000 10 droptail 5
link d p s 1000000 10 droptail 5
link e r p 1000000 10 droptail 5
flow f s r 100 1 0 1000 0
route p r b
route q r c
'''

# What is refused, or is right, in each table: a fault in a line has that line's number, which stands with it where it is
# another than the row's; one of the whole has none.

# Texts, by the line of their fault.
TEXTS = rows(
    (0, 'E10', '', '\n', '\n\n \n# nothing', 'sim 5\nsim 5\n', 'node a sender\nnode b receiver\n'),
    (0, 'L3', 'sim 5', 'sim 5\n', 'sim 5\nnode a sender\nnode b receiver\n'),
    (0, 'L7', TO_AND_FRO),
    (0, 'L8', f'{TO_AND_FRO}route p s d\n'),
    (1, 'E1', 'sim 5\r\n'),
    (1, 'E3', 'link a b c d e codel 1 2 3', 'link a b c d e fast 1 2'),
    (1, 'E4', 'sim 01'),
    (1, 'E5', 'sim 0'),
    (1, 'E7', 'link x a b 1000 1 droptail 1\nsim 0', 'link a b c d e fast 1'),
    (2, 'E5', '\nsim 0'),
    (2, 'E6', 'node s sender\nnode s router', 'node s sender\nnode s sender\nsim\n'),
    (3, 'E6', 'sim 5\nnode a sender\nnode a router\n'),
    (3, 'E8', 'sim 5\nnode a sender\nlink x a a 1000 1 droptail 1'))

# Lines by their places in the first text.
PLACED = rows(
    (1, RIGHT, 'sim 1000000000', '   sim   1   # the end', 'sim 1#', 'sim 1000000000000000'),
    (1, 'E5', 'sim 0', 'sim 1000000000000001', 'sim 18446744073709551615', 'sim 18446744073709551617'),
    (1, 'E4', 'sim 00', 'sim 01', 'sim +5', 'sim 5a'),
    (1, 'E3', 'sim', 'sim 01 x'),
    (1, 'E2', 'simm 5', 'Sim'),
    (1, 'E1', 'foo\t', 'sim 5 # \x7f'),
    (1, 'E10', '# sim 5'),
    (3, RIGHT, 'node r receiver#'),
    (3, 'E3', 'node r', 'node r receiver x', 'node R router x'),
    (3, 'E4', 'node R receiver', 'node 1r receiver', 'node r-1 receiver', 'node abcdefghijklmno1 receiver', 'node r sink'),
    (3, 'E7 line 4', 'node abcdefghijklmn1 receiver'),
    (3, 'E6', 'node s receiver', 'node s sink', 'node s router'),
    (3, 'E8 line 6', 'node r sender', 'node r router'),
    (7, 'L5', 'node t sender', 'node t router', 'link c s r 1000 1 droptail 1', 'flow g s r 1000 1 0 64000 0'),
    (7, 'E6', 'node f sender', 'node b sink', 'flow a a a a a a a a a a'),
    (7, 'E4', 'node t sink', 'flow g s r 1000 1 0 64000 x', 'lose a 01', 'lose a x', 'lose A 1', 'lose A 01'),
    (7, 'E8', 'route s r a', 'link c s f 1000 1 droptail 1', 'lose s 1', 'lose f 1', 'lose s 0'),
    (7, 'E3', 'route', 'lose', 'lose a', 'lose A 0 1'),
    (7, 'E1', 'route a \x01', 'lose a 1 # \x7f'),
    (4, RIGHT, 'link a s r 1000 1 droptail 1', 'link a s r 1000000000000 10000000000 droptail 65535',
     'link a s r 1000 1 codel 1 1 1 1', 'link a s r 1000 1 codel 65535 10000000000 10000000000 65535',
     'link a s r 1000 1 codel 1 1 1 65535', 'link a s r 1000 1 codel 1 10000000000 10000000000 65535'),
    (4, 'E5', 'link a s r 999 1 droptail 1', 'link a s r 1000000000001 1 droptail 1', 'link a s r 1000 0 droptail 1',
     'link a s r 1000 10000000001 droptail 1', 'link a s r 1000 1 droptail 0', 'link a s r 1000 1 droptail 65536',
     'link a s r 1000 0 red 1', 'link a s r 1000 1 codel 0 x x x', 'link a s r 1000 1 codel 1 0 x x',
     'link a s r 1000 1 codel 1 10000000001 x x', 'link a s r 1000 1 codel 1 1 0 x', 'link a s r 1000 1 codel 1 1 1 0',
     'link a s r 1000 1 codel 1 1 10000000001 x', 'link a s r 1000 1 codel 1 1 1 65536'),
    (4, 'E3', 'link a s r 1000 1 droptail', 'link a s r 1000 1 droptail 1 1', 'link a s r 1000 1 droptail 1 1 1',
     'link a s r 1000 1 droptail 1 1 1 1', 'link a s r 1000 1 red 1 1', 'link a s r 1000 1 red 1 1 1 1 1',
     'link a s r 1000 1 codel', 'link a s r 1000 1 codel 1'),
    (4, 'E4', 'link a s r 1000 1 red 1 1 1 1', 'link a s r 1000 1 red 0', 'link a s r 1000 1 red 1 0 0 0',
     'link A x x 0 0 codel 1 1 1 1', 'link a s r 1000 1 codel 1 x 0 0', 'link a s r 1000 1 codel 1 1 x 0',
     'link a s S 999 1 droptail 1'),
    (4, 'E7', 'link a x r 999 1 droptail 1', 'link a s x 999 1 droptail 1', 'link a a r 1000 1 droptail 1', 'lose b 1'),
    (4, 'E8', 'link a s s 999 1 droptail 1'),
    (4, 'E6', 'link s x r 1000 1 droptail 1'),
    (4, 'L5', 'link a r s 1000 1 droptail 1', '# link a s r 1000 1 droptail 1'),
    (5, 'E8', 'link b a s 999 1 droptail 1'),
    (5, 'E6', 'link a r s 999 1 droptail 1'),
    (7, 'E5', 'link c s r 1000 1 droptail 0', 'sim 0', 'lose a 0', 'lose a 1000000001'),
    (6, RIGHT, 'flow f s r 1 1 999999999 1 0', 'flow f s r 9000 1 0 1073741824 0', 'flow f s r 1000 2 0 64000 0',
     'flow f s r 1000 1000000000 0 64000 0', 'flow f s r 1000 1 0 1000 0', 'flow f s r 1000 1 0 64000 1',
     'flow f s r 1000 2 0 64000 1', 'flow f s r 1000 1 0 64000 500000000', 'flow f s r 1000 1 0 64000 0 reno iw3',
     'flow f s r 1000 1 0 64000 0 reno iw10', 'flow f s r 1000 1 0 64000 0 newreno iw3',
     'flow f s r 1000 1 0 64000 0 newreno iw10'),
    (6, 'E5', 'flow f s r 0 1 0 64000 0', 'flow f s r 9001 1 0 64000 0', 'flow f s r 1000 0 0 64000 0',
     'flow f s r 1000 1000000001 0 64000 0', 'flow f s r 1000 1 1000000000000000 64000 0', 'flow f s r 1000 1 0 999 0',
     'flow f s r 1000 1 0 1073741825 0', 'flow f s r 1000 2 0 999 x', 'flow f s r 1000 1 0 64000 500000001',
     'flow f s r 1000 2 0 64000 500000001', 'flow f s r 1000 1 0 64000 500000001 x x',
     'flow f s r 1000 1 0 64000 500000001 tahoe iw3'),
    (6, 'L3', 'flow f s r 1000 1 1000000000 64000 0', 'flow f s r 1000 1 999999999999999 64000 0',
     '# flow f s r 1000 1 0 64000 0'),
    (6, 'E4', 'flow f s r 1000 1 x 999 0', 'flow f s r 1000 1 0 64000 0 reno iw5', 'flow f s r 1000 1 0 64000 0 Reno iw3',
     'flow f s r 1000 1 0 64000 0 iw3 reno', 'flow f s r 1000 1 0 64000 x 0 0', 'flow F x r 0 1 0 64000 0',
     'flow f s r 1000 1 0 64000 0 new iw10', 'flow f s r 1000 1 0 64000 x tahoe iw3'),
    (6, 'E3', 'flow f s r 1000 1 0 64000', 'flow f s r 1000 1 0 64000 0 0', 'flow f s r 1000 1 0 64000 0 reno',
     'flow f s r 1000 1 0 64000 0 reno iw3 0', 'flow f s r 1000 1 0 64000 0 reno iw3 1',
     'flow f s r 1000 1 0 64000 reno iw3'),
    (6, 'E8', 'flow f r r 0 1 0 64000 0', 'flow f s s 0 1 0 64000 0', 'flow f a r 0 1 0 64000 0'),
    (6, 'E7', 'flow f x r 0 1 0 64000 0'),
    (6, 'E6', 'flow a x r 0 1 0 64000 0'),
    (7, 'E10', 'sim 5', 'lose a 1\nsim 5'),
    (7, RIGHT, 'lose a 1', ' lose  b 1000000000 # the last', 'lose a 5\nlose a 6', 'lose a 5\nlose b 5\nlose a 6'),
    (7, 'E7', 'lose c 1', 'lose c 01'),
    (7, 'E2', 'lost a 1'),
    (7, 'E5 line 8', 'lose a 5\nlose a 5', 'lose a 5\nlose a 4', 'lose a 1000000000\nlose a 1000000000'),
    (7, 'E5 line 9', 'lose a 5\nlose b 9\nlose a 5'),
    (70, RIGHT, 'lose a 64'),
    (71, 'E9', 'lose a 65'),
    (71, 'E5', 'lose a 64'),
    (71, 'E4', 'lose a x'),
    (71, RIGHT, 'lose b 1'))

# The same of the text with a router.
ROUTES = rows(
    (10, RIGHT, 'route p r b'),
    (10, 'E3', 'route p r', 'route p r b b'),
    (10, 'E4', 'route P s b', 'route p R x', 'route p r B'),
    (10, 'E7', 'route x r b', 'route p x x', 'route p r x'),
    (10, 'E8', 'route s p b', 'route a r b', 'route p p x', 'route p b x', 'route p r r', 'route p r a', 'route p r c'),
    (10, 'L7', 'route p r d', '#'),
    (11, 'L7', '#'),
    (12, 'E6', 'route p r b', 'route p s x'),
    (12, 'E8', 'route p p b'),
    (26, 'E9', 'link z p r 1000 1 droptail 1'),
    (26, 'E5', 'link z p r 1000 1 droptail 0'),
    (26, 'E7', 'link z p x 1000 1 droptail 1'),
    (26, 'E6', 'route p r x'),
    (26, 'L5', 'node z sender'),
    (26, RIGHT, '#'))

# Lines with a name of 15 letters and of 16, at each place of a name.
NAMED = rows(
    (7, 'L5', 'node abcdefghijklmno router', 'link abcdefghijklmno s r 1000 1 droptail 1'),
    (7, 'E4', 'node abcdefghijklmnop router', 'link abcdefghijklmnop s r 1000 1 droptail 1',
     'link c abcdefghijklmnop r 1000 1 droptail 1', 'link c s abcdefghijklmnop 1000 1 droptail 1',
     'route abcdefghijklmnop r a', 'lose abcdefghijklmnop 1'),
    (7, 'E7', 'link c abcdefghijklmno r 1000 1 droptail 1', 'link c s abcdefghijklmno 1000 1 droptail 1',
     'route abcdefghijklmno r a', 'lose abcdefghijklmno 1'),
    (6, RIGHT, 'flow abcdefghijklmno s r 1000 1 0 64000 0'),
    (6, 'E4', 'flow abcdefghijklmnop s r 1000 1 0 64000 0', 'flow f abcdefghijklmnop r 1000 1 0 64000 0',
     'flow f s abcdefghijklmnop 1000 1 0 64000 0'),
    (6, 'E7', 'flow f abcdefghijklmno r 1000 1 0 64000 0', 'flow f s abcdefghijklmno 1000 1 0 64000 0'),
    (7, 'E7 line 8', 'node p router\nroute p abcdefghijklmno a', 'node p router\nroute p r abcdefghijklmno'),
    (7, 'E4 line 8', 'node p router\nroute p abcdefghijklmnop a', 'node p router\nroute p r abcdefghijklmnop'))

# What is declared many times behind the first text, the place of one more line, and that line with the fault.
COUNTED = [
    *((NODES, *row) for row in rows((260, 'L5', 'node z router'), (261, 'E9', 'node z router'), (261, 'E4', 'node z sink'))),
    *((LINKS, *row) for row in rows((1028, 'L5', 'link z s r 1000 1 droptail 1'), (1029, 'E9', 'link z s r 1000 1 droptail 1'),
                                    (1029, 'E5', 'link z s r 1000 1 droptail 0'))),
    *((FLOWS, *row) for row in rows((133, 'L5', 'flow z s r 1 1 0 1 0'),
                                    (134, 'E9', 'flow z s r 1 1 0 1 0', 'flow z s r 1 1 0 1 0 reno iw10'),
                                    (134, 'E5', 'flow z s r 1 1 0 0 0'), (134, 'E4', 'flow z s r 1 1 0 1 0 reno iw5'))),
]

# How many words stand behind the first of a line, and the fault of that line where it is a flow's, which
# alone can have eleven; of another's it is E3.
WORDS = [(9, 'E3'), (10, 'E4'), (11, 'E3'), (12, 'E3')]

# A link with CoDel has eleven words. How many more it has, and the fault of the text with them.
CODEL = 'link a s r 1000 1 codel 1 1 1 1'
MORE = [(0, RIGHT), (1, 'E3'), (2, 'E3')]

# How a text begins, what follows again and again, how often, and the note of its run: a million words, a
# word of a million digits, and inputs of the most bytes, and of one more, on one line.
LONG = [
    ('sim', ' 1', 999_999, 'refused E3 line 1'),
    ('sim ', '9999999999', 100_000, 'refused E5 line 1'),
    ('sim 0', '9999999999', 100_000, 'refused E4 line 1'),
    ('', 'a' * 16, 1_048_576, 'refused E2 line 1'),
    ('', ' ' * 16, 1_048_576, 'refused E10 line 0'),
    ('', '#' * 16, 1_048_576, 'refused E10 line 0'),
    ('#', '#' * 16, 1_048_576, 'refused I1'),
]
