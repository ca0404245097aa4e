"""Why inputs are refused, as `--explain` shows it behind the note: rows of dev/test_whole.py, by hand from docs/FORMATS.md.

Each is an input, its code, and the lines that are shown before the first line of the code's text.
"""
NAME = 'a name is a small letter and then up to 14 small letters or digits'
END = 'END is a whole number of nanoseconds, 1 to 1000000000000000'

# Texts with a faulty line, which is shown with carets under what is wrong, and texts that are refused for no line.
SHOWN = [
    ('sim 5\nnode s sendr\n', 'E4', 'node s sendr\n       ^^^^^\nthe kind of a node is sender, receiver or router\n'),
    ('  nod s\n', 'E2', '  nod s\n  ^^^\na statement is sim, node, link, flow, route or lose\n'),
    ('sim 5\nnode s # a sender\n', 'E3', 'node s # a sender\n^^^^^^^^^^^^^^^^^\nnode NAME KIND is 3 words, and this line has 2\n'),
    ('sim\t5\n', 'E1', 'sim?5\n   ^\nwords are parted by spaces: write a space for each tab\n'),
    ('sim 5\r\n', 'E1', "sim 5?\n     ^\nlines end in a line feed alone, not CRLF: tr -d '\\r' takes the carriage returns away\n"),
    ('sim 5 # \x7f\n', 'E1', 'sim 5 # ?\n        ^\n'),
    ('M<\u00b2\u00a1\x02', 'E1', 'M<?????\n  ^\n'),        # in UTF-8 it is no capture of packets
    ('\n\r\r\n\x1c', 'E1', '??\n^\nthis is a capture of packets (pcap), and tcpsim reads scenarios\n'),
    ('sim 0\n', 'E5', f'sim 0\n    ^\n{END}\n'),
    ('sim 5\nnode s sender\nnode  s receiver', 'E6', 'node  s receiver\n      ^\n'),
    ('sim 5\nnode s sender\n', 'L3', 'L3: nodes that are declared: 1; wanted: 2 at least\nnode NAME KIND\n'),
    ('', 'E10', ''),
    ('TCB', 'L1', ''),
    # Of a long line 200 bytes are shown, from 80 before what is wrong.
    ('sim ' + ' ' * 1_000 + 'a' * 300, 'E4', ' ' * 80 + 'a' * 120 + '\n' + ' ' * 80 + '^' * 120 + f'\n{END}\n'),
    # Two flows that end at each other's receivers: the one link of a start can be wrong.
    ('''sim 5
node s sender
node r receiver
node t sender
node u receiver
link a s u 1000 1 droptail 1
link b r s 1000 1 droptail 1
link c t r 1000 1 droptail 1
link d u t 1000 1 droptail 1
flow f s r 1000 1 0 64000 0
flow g t u 1000 1 0 64000 0
''', 'L7', 'L7: data of flow f come to receiver u over link a, and not to r\nlink a s r RATE DELAY droptail CAP\n'),
]

# Of a line of texts.ROUTED, counted from 1, or added behind them: what stands there, of which the word in braces is refused,
# its code, and what to write instead.
ADVISED = [
    (1, 'sim {10s}', 'E4', f'{END}: write 10000000000'),
    (1, 'sim {1.5s}', 'E4', f'{END}: write 1500000000'),
    (1, 'sim {0010}', 'E4', f'{END}: write 10'),
    (1, 'sim {2.0}', 'E4', f'{END}: write 2'),
    (1, 'sim {1.5}', 'E4', END),
    (1, 'sim {10m}', 'E4', END),
    (1, 'sim {-5}', 'E4', END),
    (1, 'sim {s}', 'E4', END),
    (1, 'sim {1000001s}', 'E4', END),
    (1, 'sim {99999999999999999999999s}', 'E4', END),
    *((1, f'sim {{{word}}}', 'E4', END + number)
      for word, number in (('1e9', ': write 1000000000'), ('1.5E6', ': write 1500000'), ('2e+09', ': write 2000000000'), ('20e-1', ''),
                           ('1e16', ''), ('1e', ''), ('1e+', ''), ('1e9s', ''), ('1e1.0', ''), ('0.5e0', ''), ('1e99', ''))),
    (1, '{sim}', 'E3', 'sim END is 2 words, and this line has 1'),
    (2, '{node s a sender}', 'E3', 'node NAME KIND is 3 words, and this line has 4'),
    (5, '{link a s p 8000000 1000000 droptail 10 5}', 'E3',
     'link NAME FROM TO RATE DELAY droptail CAP is 8 words, with codel CAP TARGET INTERVAL MAXPACKET 11, and this line has 9'),
    (9, '{flow f s r 1000 1 0 64000}', 'E3', 'flow NAME SENDER RECEIVER MSS SEGMENTS START RWND DELACK is 9 words, with a variant 11, and this line has 8'),
    (12, '{route p r}', 'E3', 'route ROUTER DEST LINK is 4 words, and this line has 3'),
    (12, '{lose a}', 'E3', 'lose LINK NUMBER is 3 words, and this line has 2'),
    (5, 'link a s p {5e6} 1000000 droptail 10', 'E4', 'RATE is a whole number of bits per second, 1000 to 1000000000000: write 5000000'),
    (1, 'sim {1000000000000001}', 'E5', END),
    (2, 'node {S} sender', 'E4', f'{NAME}: write s'),
    (2, 'node {Host_A} sender', 'E4', f'{NAME}: write hosta'),
    (2, 'node {7up_2} sender', 'E4', f'{NAME}: write up2'),
    (2, 'node {the_access_router} sender', 'E4', f'{NAME}: write theaccessrouter'),
    (2, 'node {the_access_router_2} sender', 'E4', f'{NAME}: write theaccessrouter'),
    (2, 'node {7_} sender', 'E4', NAME),
    (2, 'node s {Sender}', 'E4', 'the kind of a node is sender, receiver or router'),
    (2, '{Node} s sender', 'E2', 'a statement is sim, node, link, flow, route or lose'),
    (5, 'link a {S} p 8000000 1000000 droptail 10', 'E4', f'{NAME}: write s'),
    *((5, f'link a s p {{{rate}}} 1000000 droptail 10', 'E4', f'RATE is a whole number of bits per second, 1000 to 1000000000000{number}')
      for rate, number in (('8M', ': write 8000000'), ('10Mbit', ': write 10000000'), ('10Mbit/s', ': write 10000000'),
                           ('10mbit', ': write 10000000'), ('1.5Mbps', ': write 1500000'), ('800kb/s', ': write 800000'),
                           ('0.001T', ': write 1000000000'), ('8000bits', ': write 8000'), ('999bit', ''), ('10MB', ''), ('0.0001k', ''))),
    (5, 'link a s p {999} 1000000 droptail 10', 'E5', 'RATE is a whole number of bits per second, 1000 to 1000000000000'),
    (5, 'link a s p 8000000 {1ms} droptail 10', 'E4', 'DELAY is a whole number of nanoseconds, 1 to 10000000000: write 1000000'),
    (5, 'link a s p 8000000 {11s} droptail 10', 'E4', 'DELAY is a whole number of nanoseconds, 1 to 10000000000'),
    (5, 'link a s p 8000000 {0.5ns} droptail 10', 'E4', 'DELAY is a whole number of nanoseconds, 1 to 10000000000'),
    (5, 'link a s p 8000000 1000000 {red} 10', 'E4', 'the kind of a queue is droptail or codel'),
    (5, 'link a s p 8000000 1000000 droptail {1k}', 'E4', 'CAP is a whole number of packets, 1 to 65535: write 1000'),
    (5, 'link a s p 8000000 1000000 codel 10 {5ms} 100ms 1500', 'E4', 'TARGET is a whole number of nanoseconds, 1 to 10000000000: write 5000000'),
    (5, 'link a s p 8000000 1000000 codel 10 5 {100us} 1500', 'E4', 'INTERVAL is a whole number of nanoseconds, 1 to 10000000000: write 100000'),
    (5, 'link a s p 8000000 1000000 codel 10 5 5 {1.5kB}', 'E4', 'MAXPACKET is a whole number of bytes, 1 to 65535: write 1500'),
    (9, 'flow f s r {1kbytes} 1 0 64000 0', 'E4', 'MSS is a whole number of bytes, 1 to 9000: write 1000'),
    (9, 'flow f s r 1000 {1M} 0 64000 0', 'E4', 'SEGMENTS is a whole number of segments, 1 to 1000000000: write 1000000'),
    (9, 'flow f s r 1000 1 {0s} 64000 0', 'E4', 'START is a whole number of nanoseconds, 0 to 999999999999999, and below END: write 0'),
    (9, 'flow f s r 1000 1 0 {64k} 0', 'E4', 'RWND is a whole number of bytes, 1 to 1073741824, and at least MSS: write 64000'),
    (9, 'flow f s r 1000 1 0 {999} 0', 'E5', 'RWND is a whole number of bytes, 1 to 1073741824, and at least MSS'),
    (9, 'flow f s r 1000 1 0 64000 {40ms}', 'E4', 'DELACK is a whole number of nanoseconds, 0 to 500000000: write 40000000'),
    (9, 'flow f s r 1000 1 0 64000 0 {cubic} iw10', 'E4', 'the recovery of a flow is reno or newreno'),
    (9, 'flow f s r 1000 1 0 64000 0 reno {10}', 'E4', 'the initial window of a flow is iw3 or iw10'),
    (12, 'lose a {07}', 'E4', "NUMBER is a whole number of packets, 1 to 1000000000, and above the link's last one: write 7"),
    (12, 'lose a {0}', 'E5', "NUMBER is a whole number of packets, 1 to 1000000000, and above the link's last one"),
]

# Lines of texts.ROUTED, counted from 1, or added behind them; what stands there; the code; the witness, and a
# statement that would mend it.
CHANGED = [
    (9, 'flow f s r 1000 1 1000000000 64000 0', 'L3',
     'L3: flow f starts at 1000000000, and the end is 1000000000\nsim 1000000001\n'),
    (12, 'node t sender', 'L5', 'L5: no flow names sender t\nflow NAME t RECEIVER MSS SEGMENTS START RWND DELACK\n'),
    (12, 'node t receiver', 'L5',
     'L5: no flow names receiver t\nflow NAME SENDER t MSS SEGMENTS START RWND DELACK\n'),
    (12, 'node q router', 'L5', 'L5: no link leaves router q\nlink NAME q TO RATE DELAY droptail CAP\n'),
    (5, '# link a s p', 'L5', 'L5: no link leaves sender s\nlink NAME s TO RATE DELAY droptail CAP\n'),
    (12, 'link e s p 8000000 1000000 droptail 10', 'L5', 'L5: 2 links leave sender s\n# link e\n'),
    (12, 'flow g s r 1000 1 0 64000 0', 'L5', 'L5: 2 flows name sender s\n# flow g\n'),
    (11, '# route p s d', 'L7', 'L7: acknowledgements of flow f stop at router p: no route for s\nroute p s LINK\n'),
    (10, '# route p r b', 'L7', 'L7: data of flow f stop at router p: no route for r\nroute p r LINK\n'),
    (10, 'route p r d', 'L7', 'L7: data of flow f come to sender s over link d, and not to r\nroute p r LINK\n'),
    (10, 'node q router\nlink e p q 1000 1 droptail 1\nlink g q p 1000 1 droptail 1\nroute p r e\nroute q r g', 'L8',
     'L8: data of flow f come to router p again, from router q\nroute q r LINK\n'),
    (11, 'node q router\nlink e p q 1000 1 droptail 1\nlink g q p 1000 1 droptail 1\nroute p s e\nroute q s g', 'L8',
     'L8: acknowledgements of flow f come to router p again, from router q\nroute q s LINK\n'),
]

# The image of that text, in version 2, has 232 bytes: its nodes stand from byte 22 on, its links from 25, its flow
# from 193 and its routes, that of `s` first, from 220. Bytes that are put there, how many are kept, the code, and
# the witness and the statement by numbers.
CHANGED_BYTES = [
    (193, '0002', 232, 'L5', 'L5: no flow names sender 0\nflow NAME 0 RECEIVER MSS SEGMENTS START RWND DELACK\n'),
    (151, '0000', 232, 'L5', 'L5: 2 links leave sender 0\n# link 3\n'),
    (193, '0002 0000', 232, 'L6',
     'L6: flow 0 goes from receiver 2 to sender 0\nflow 0 SENDER RECEIVER MSS SEGMENTS START RWND DELACK\n'),
    (69, '0001', 232, 'L6', 'L6: link 1 leaves router 1 and comes to it\nlink 1 1 TO RATE DELAY droptail CAP\n'),
    (224, '0002', 232, 'L6',
     'L6: route 0 is of router 1, for sender 0, over link 2 of receiver 2\nroute ROUTER DEST LINK\n'),
    (222, '0001', 232, 'L6',
     'L6: route 0 is of router 1, for router 1, over link 3 of router 1\nroute ROUTER DEST LINK\n'),
    (18, '00000001', 226, 'L7',
     'L7: data of flow 0 stop at router 1: no route for receiver 2\nroute 1 2 LINK\n'),
    (224, '0001', 232, 'L7',
     'L7: acknowledgements of flow 0 come to receiver 2 over link 1, and not to sender 0\nroute 1 0 LINK\n'),
    (193, 'ffff', 232, 'L3', ''),
    (0, '54434233', 232, 'L2', ''),
]

# A text in which a second router can send back to the first, and where its image has that router's route for the
# receiver: over link 4 the path returns.
TWO_ROUTERS = '''sim 5
node s sender
node p router
node r receiver
node q router
link a s p 1000 1 droptail 1
link b p r 1000 1 droptail 1
link c r p 1000 1 droptail 1
link d p s 1000 1 droptail 1
link e p q 1000 1 droptail 1
link g q p 1000 1 droptail 1
flow f s r 1000 1 0 64000 0
route p r b
route q r g
route p s d
'''
RETURNING = (315, '0004', 'L8', 'L8: data of flow 0 come to router 1 again, from router 3\nroute 3 2 LINK\n')
