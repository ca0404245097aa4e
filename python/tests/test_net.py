"""Tests of tcpsim/scenario and tcpsim-net: every text of its grid is accepted and run to its end, by the program or, where
that is not built, by the model."""
import functools
import itertools
import re
import subprocess

import pytest

import tcpsim
import clone
from clone import PROGRAM
from tcpsim.cli import net as command
from tcpsim.scenario import net, units
from tcpsim.scenario.text import Scenario
from tcpsim.traces.curves import Run

MS, US, S = 10**6, 10**3, 10**9

# Two flows, round trips 40 ms and 80 ms. The bottleneck has a quarter of the least one each way, 10 ms, the
# receivers' cables an eighth, 5 ms, and the senders' what is left: 20 - 15 = 5 and 40 - 15 = 25 ms. The product
# of 8 Mbit/s and the mean round trip, 60 ms, is 60,000 bytes: 57 packets of 1,040 bytes, and 720 bytes.
DUMBBELL = '''# A dumbbell: 2 flows over the bottleneck pq of 8Mbit/s with the queue droptail:BDP.
# A round trip is that of the delays alone: waiting and sending come on top.
# Written by: tcpsim-net dumbbell --rate 8M --rtt 40ms,80ms --queue droptail:BDP --mss 1000 --segments 5,6 --start 0,0.5s \
--rwnd 64k --delack 0 --access 100M --access-queue codel:1ms:10ms:77 --end 3s
sim 3000000000
# Nodes.
node p router
node q router
node s0 sender
node r0 receiver
node s1 sender
node r1 receiver
# Links: name, from, to, rate in bit/s, delay in ns, queue.
link pq p q 8000000 10000000 droptail 57  # the bottleneck: 8Mbit/s, 10ms, droptail:BDP
link qp q p 8000000 10000000 droptail 1000  # the way back of acknowledgements
link s0p s0 p 100000000 5000000 codel 77 1000000 10000000 1040
link ps0 p s0 100000000 5000000 codel 77 1000000 10000000 1040
link qr0 q r0 100000000 5000000 codel 77 1000000 10000000 1040
link r0q r0 q 100000000 5000000 codel 77 1000000 10000000 1040
link s1p s1 p 100000000 25000000 codel 77 1000000 10000000 1040
link ps1 p s1 100000000 25000000 codel 77 1000000 10000000 1040
link qr1 q r1 100000000 5000000 codel 77 1000000 10000000 1040
link r1q r1 q 100000000 5000000 codel 77 1000000 10000000 1040
# Flows: name, sender, receiver, bytes of a segment, segments, start in ns, receiver's window in bytes, delay of \
acknowledgements in ns.
flow f0 s0 r0 1000 5 0 64000 0  # a round trip of 40ms, from 0 on
flow f1 s1 r1 1000 6 500000000 64000 0  # a round trip of 80ms, from 500ms on
# Routes: at this router, what is for this end goes over this link.
route p s0 ps0
route p r0 pq
route p s1 ps1
route p r1 pq
route q s0 qp
route q r0 qr0
route q s1 qp
route q r1 qr1
'''

QUEUES = 'droptail:1', 'droptail:50', 'droptail:BDP', 'codel:5ms:100ms', 'codel:100us:1ms:20', 'codel:5ms:50ms:30:3000'
GRID = {
    'dumbbell': [('--flows', '1', '2', '4', '15', '20'), ('--rtt', '20ms', '8ns', '7ms,33ms'), ('--rate', '1M', '2.5M')],
    'parking-lot': [('--hops', '1', '3', '7'), ('--cross', '1', '2', '7'), ('--delay', '10ms', '1ms,2ms')],
    'chain': [('--hops', '1', '2', '16', '249'), ('--flows', '1', '3'), ('--rate', '10M', '10M,5M')],
    'asymmetric': [('--down', '10M', '100M'), ('--up', '1M', '100k'), ('--uploads', '0', '2'), ('--flows', '1', '3'),
                   ('--up-queue', 'droptail:5', 'codel:5ms:100ms')],
    'tree': [('--leaves', '1', '4', '15'), ('--flows', '1', '15', '100'), ('--rtt', '20ms', '10ms,50ms')],
    'islands': [('--islands', '3', '4', '8'), ('--flows', '2', '5'), ('--crossing', '0', '2')],
}
ALWAYS = '--segments', '12', '--end', '600s'


def run(text):
    return subprocess.run([PROGRAM, 'run'], input=text.encode('ascii'), capture_output=True, check=False)


def grid(shape):
    """The words of each point of a shape's grid, the queue by turns."""
    queues = itertools.cycle(QUEUES)
    for values in itertools.product(*(options[1:] for options in GRID[shape])):
        words = [shape]
        for (option, *_), value in zip(GRID[shape], values):
            words += [option, value]
        if fits(shape, dict(zip(words[1::2], words[2::2]))):
            yield [*words, '--queue', next(queues), *ALWAYS]


def fits(shape, options):
    """No list is longer than there are flows or hops, no leaf has more than 15 ends, and a dumbbell that is a tree has a
    nanosecond for each of its links."""
    flows = int(options.get('--flows', 100))
    if shape == 'dumbbell' and flows > 15 and options['--rtt'] == '8ns':
        return False
    if shape == 'tree' and flows > 15 * int(options['--leaves']):
        return False
    hops = int(options.get('--hops', 100))
    return options.get('--rtt', '').count(',') < flows and (options.get('--rate', '') + options.get(
        '--delay', '')).count(',') < hops


tool = functools.partial(clone.tool, 'net')


# ---- words of rates, times, sizes and queues


def test_numbers():
    for read, word, value in (
            (units.rate, '10M', 10**7), (units.rate, '1.5M', 1_500_000), (units.rate, '800k', 800_000),
            (units.rate, '1G', 10**9), (units.rate, '8000', 8_000), (units.rate, '10Mbit', 10**7),
            (units.rate, '1.5Mbit/s', 1_500_000), (units.rate, '8000bit/s', 8_000), (units.time, '20ms', 20 * MS),
            (units.time, '0.5s', S // 2), (units.time, '100us', 100 * US), (units.time, '7ns', 7),
            (units.time, '0', 0), (units.size, '64k', 64_000), (units.count, '12', 12)):
        assert read(word) == value


def test_a_rate_is_taken_as_the_header_has_it():
    text = command.scenario(['dumbbell', '--rate', '1.5M'])
    rate = re.search(r'the bottleneck pq of (\S+) ', text)[1]
    assert rate == '1.5Mbit/s' and 'Written' in text
    again = command.scenario(['dumbbell', '--rate', rate])
    assert [line for line in again.splitlines() if 'Written' not in line] == [line for line in text.splitlines() if 'Written' not in line]


def test_a_target_above_the_interval_is_warned_of():
    told = b'tcpsim-net: codel:100ms:5ms has a target above its interval: the order is codel:TARGET:INTERVAL\n'
    for option in ('--queue', '--back-queue', '--access-queue'):
        done = tool('dumbbell', option, 'codel:100ms:5ms')
        assert (done.returncode, done.stderr) == (0, told) and done.stdout.startswith(b'# A dumbbell')
    assert tool('asymmetric', '--up-queue', 'codel:100ms:5ms').stderr == told
    assert tool('dumbbell', '--queue', 'codel:100ms:5ms', '--back-queue', 'codel:100ms:5ms').stderr == told
    for queue in ('codel:5ms:100ms', 'codel:5ms:5ms', 'droptail:5'):
        assert tool('dumbbell', '--queue', queue).stderr == b''


def test_python_warns_of_it_at_the_line_that_names_it():
    with pytest.warns(UserWarning, match='^codel:100ms:5ms has a target above its interval: the order is codel:TARGET:INTERVAL$') as told:
        tcpsim.dumbbell(queue='codel:100ms:5ms')
    assert [each.filename for each in told] == [__file__]
    with pytest.warns(UserWarning, match=r'^codel:100ms:5ms \(and 1 more\) has a target above') as told:
        tcpsim.sweep(tcpsim.dumbbell(end='1s'), {'pq.queue': ['codel:5ms:100ms', 'codel:100ms:5ms', 'codel:6ms:5ms']}, engine=PROGRAM)
    assert [each.filename for each in told] == [__file__]


def test_wrong_numbers():
    for read, word in ((units.rate, '10Mbps'), (units.rate, '1T'), (units.rate, '10m'), (units.rate, '-1M'),
                       (units.rate, '0.5'), (units.rate, ''), (units.rate, '1e6'), (units.rate, '1,000'),
                       (units.time, '10'), (units.time, '1h'), (units.time, '0.1ns'), (units.time, 'ms'),
                       (units.time, '1 ms'), (units.size, '1.0001k'), (units.count, '1.5'), (units.count, '٣')):
        pytest.raises(units.Wrong, read, word)


def test_spelled():
    for value, word in ((10**7, '10M'), (1_500_000, '1.5M'), (800_000, '800k'), (1_234, '1.234k'), (999, '999')):
        assert units.spelled_rate(value) == word
        assert units.rate(word) == value
    for value, word in ((20 * MS, '20ms'), (S // 2, '500ms'), (1_500 * MS, '1.5s'), (1, '1ns'), (0, '0')):
        assert units.spelled_time(value) == word
        assert units.time(word) == value


def test_queues():
    words = 'droptail:10,50,BDP,codel:5ms:100ms,1s:2s:7,1s:2s:1000:3k'
    assert [queue.words(1040, 9) for queue in units.queues(words)] == ['droptail 10', 'droptail 50', 'droptail 9', 'codel 1000 5000000 100000000 1040',
                      'codel 7 1000000000 2000000000 1040', 'codel 1000 1000000000 2000000000 3000']
    assert [str(queue) for queue in units.queues(words)] == ['droptail:10', 'droptail:50', 'droptail:BDP', 'codel:5ms:100ms', 'codel:1s:2s:7',
                      'codel:1s:2s:1000:3000']
    for word in ('50', 'droptail', 'droptail:', 'droptail:x', 'droptail:1:2', 'codel:5ms', 'codel:5:100ms',
                 'codel:5ms:100ms:', 'codel:5ms:100ms:1:', 'codel:5ms:100ms:1:2:3', 'codel:5ms:100ms:1:2ms', 'red:5', ''):
        pytest.raises(units.Wrong, units.queues, word)


def test_product():
    # 8 Mbit/s times 40 ms are 40,000 bytes: 38 packets of 1,040 and 480 bytes
    assert units.queue('droptail:BDP').capacity.packets(8 * 10**6, 40 * MS, 1040, 2) == 38
    assert units.queue('droptail:BDP').capacity.packets(1000, 1, 1500, 2) == 1


# ---- what is written


def test_by_hand():
    words = ('dumbbell --rate 8M --rtt 40ms,80ms --queue droptail:BDP --mss 1000 --segments 5,6 --start 0,0.5s --rwnd '
             '64k --delack 0 --access 100M --access-queue codel:1ms:10ms:77 --end 3s')
    assert command.scenario(words.split()) == DUMBBELL
    done = tool(*words.split())
    assert (done.stdout.decode(), done.stderr, done.returncode) == (DUMBBELL, b'', 0)


def test_odd_round_trips():
    for trip in (8, 9, 15, 81, 40 * MS + 1):
        read = Scenario(command.scenario(['dumbbell', '--flows', '1', '--rtt', f'{trip}ns']))
        assert sum(read.links[link].delay for path in read.paths[0] for link in path) == trip


def test_round_trips_and_ways():
    """Each flow's delays add up to what was asked for, and it goes over the links that it should."""
    for words, trips, hops in (
            ('dumbbell --flows 3 --rtt 40ms,80ms', (40, 80, 40), 3),
            ('asymmetric --flows 1 --uploads 1 --rtt 30ms,60ms', (30, 60), 3),
            ('tree --leaves 2 --flows 3 --rtt 64ms,96ms', (64, 96, 64), 5),
            # 3 hops of 10 ms and two cables of 1 ms, each way
            ('chain --hops 3 --delay 10ms --access-delay 1ms', (64,), 5)):
        read = Scenario(command.scenario(words.split()))
        for (there, back), trip in zip(read.paths, trips):
            assert sum(read.links[link].delay for link in there + back) == trip * MS
            assert (len(there), len(back)) == (hops, hops)
    read = Scenario(command.scenario('parking-lot --hops 3 --cross 2'.split()))
    names = [[read.links[link].name for link in there[1:-1]] for there, _ in read.paths]
    assert names == [['p0p1', 'p1p2', 'p2p3'], ['p0p1'], ['p0p1'], ['p1p2'], ['p1p2'], ['p2p3'], ['p2p3']]
    read = Scenario(command.scenario('islands --islands 3 --flows 2 --crossing 1'.split()))
    names = [[read.links[link].name for link in there[1:-1]] for there, _ in read.paths]
    assert names == [['p1q1'], ['p2q2'], ['p3q3'], ['p1q1', 'q1p2', 'p2q2'],
                             ['p2q2', 'q2p3', 'p3q3'], ['p3q3', 'q3p1', 'p1q1']]
    read = Scenario(command.scenario('asymmetric --uploads 1'.split()))
    names = [[read.links[link].name for link in there[1:-1]] for there, _ in read.paths]
    assert names == [['down'], ['up']]


def test_equal_the_model():
    """Nets that are built by `Net` and by the model's own have the same text."""
    from tcpsim_model import nets, text
    from tcpsim_model.scenario import Flow
    mine, other = net.Net(), nets.Net()
    for kind in (net.ROUTER,) * 5 + (net.SENDER, net.RECEIVER) * 2:
        mine.node(kind)
        other.node(('sender', 'receiver', 'router').index(kind))
    for a, b in ((0, 1), (1, 2), (0, 3), (3, 4), (4, 2), (2, 0), (5, 0), (2, 6), (7, 4), (8, 1)):
        mine.cable(a, b, 10**7, MS * (a + 1), units.Queue('codel', 9, MS, 5 * MS))
        other.cable(a, b, 10**7, MS * (a + 1), nets.codel(9, MS, 5 * MS, 1500))
    for sender, receiver in ((5, 6), (7, 8)):
        mine.flow(sender, receiver, 1460, 7, 3, 10**5, 4)
        other.flows.append(Flow(sender, receiver, 1460, 7, 3, 10**5, 4))
    for each in mine, other:
        each.links[3].lose = [2, 5]
    for every in False, True:
        assert mine.text(S, notes=False, every_route=every).encode() == \
            text.disassemble(other.scenario(S, every)).replace(b' reno iw3\n', b'\n')


def test_groups_of_islands():
    """The groups that the comment names are accepted and change nothing."""
    text = command.scenario('islands --islands 3 --flows 2 --segments 20'.split())
    options = next(line for line in text.splitlines() if '--groups' in line).partition('--')[2].split()
    shared = subprocess.run([PROGRAM, 'run', '--' + options[0], *options[1:]], input=text.encode(), capture_output=True,
                            check=False)
    assert (shared.returncode, shared.stderr) == (0, b'')
    assert shared.stdout == run(text).stdout


def test_whole_grid():
    for shape in GRID:
        for words in grid(shape):
            _runs(words)


def _runs(words):
    text = command.scenario(words)
    assert f'# Written by: tcpsim-net {" ".join(words)}\n' in text
    done = run(text)
    assert (done.returncode, done.stderr) == (0, b'')
    runs = Run(Scenario(text), done.stdout.decode('ascii').splitlines())
    assert runs.whole
    delivered = [flow.delivered() for flow in runs.flows]
    if 'droptail:1' in words or len(runs.flows) > 16:       # then some may be locked out
        assert max(delivered) == 12 * 1460
    else:
        assert delivered == [12 * 1460] * len(runs.flows)
    # every route is one that some flow takes
    read = runs.scenario
    taken = {(read.links[link].source, read.links[path[-1]].to, link) for paths in read.paths for path in paths
             for link in path[1:]}
    assert {(*at, link) for at, link in read.routes.items()} == taken


class TestWrongWords:
    """Each gets one sentence."""

    CASES = {
        '': 'SHAPE', 'ring': 'ring', 'dumbbell --rate 10Mbps': '10Mbps', 'dumbbell --rtt 10': "'10'",
        'dumbbell --queue codel:5ms': 'codel:5ms', 'dumbbell --queue droptail:0': '1 to 65,535',
        'dumbbell --queue codel:5ms:20s': '20s', 'dumbbell --queue codel:5ms:9ms:7:70k': '65,535',
        'dumbbell --queue red:5': 'red:5', 'dumbbell --flows 120': 'nodes',
        'dumbbell --flows 0': '0', 'dumbbell --flows 129': '128', 'dumbbell --flows x': 'x',
        'dumbbell --flows 2 --rtt 1ms,2ms,3ms': '3 values', 'dumbbell --hops 3': '--hops', 'dumbbell --flow 3': '--flow',
        'dumbbell --rtt 7ns': '7ns', 'dumbbell --rtt 40s': '10s', 'dumbbell --rate 1': '1k', 'dumbbell --rate': '--rate',
        'dumbbell --start 20s': '20s', 'dumbbell --rwnd 1000': '1460', 'dumbbell --mss 9001': '9,000',
        'dumbbell --segments 0': '0', 'dumbbell --end 0': '0', 'dumbbell --delack 1s': '500ms', 'dumbbell 4': '4',
        'dumbbell --queue droptail:BDP --rate 1G --rtt 10s': 'bandwidth-delay', 'dumbbell --rtt': '--rtt',
        'dumbbell --rtt 1ms,,2ms': "''", 'chain --rate 1M,2M,3M,4M': '4 values', 'chain --hops 0': '0',
        'parking-lot --cross 8': '8', 'parking-lot --hops 30 --cross 5': 'nodes',
        'asymmetric --flows 0': 'no flow', 'tree --leaves 16': '16', 'tree --leaves 1 --flows 16': '16',
        'islands --islands 2': '2', 'islands --flows 2 --crossing 3': '--crossing',
    }

    def test_cases(self):
        for words, named in self.CASES.items():
            status, sentence = clone.refusal('net', *words.split())
            assert status == 2 and named in sentence, sentence

    def test_pipes(self):
        for reader in ('true', 'head -n 1 > /dev/null'):
            script = f'"$0" "$1" chain --hops 200 | {reader}'
            assert clone.ran('sh', '-c', script, *clone.tool_words('net')).stderr == b''
        with open('/dev/full', 'w', encoding='ascii') as full:
            done = tool('dumbbell', stdout=full)
        assert done.returncode == 1
        assert len(done.stderr.decode().splitlines()) == 1

    def test_help_to_a_reader_that_ends_and_to_a_full_disk(self):
        done = clone.ran('sh', '-c', '"$0" "$1" --help | true', *clone.tool_words('net'))
        assert (done.returncode, done.stderr) == (0, b'')
        with open('/dev/full', 'w', encoding='ascii') as full:
            done = tool('--help', stdout=full)
        assert (done.returncode, done.stderr) == (1, b'tcpsim-net: standard output: No space left on device\n')

    def test_help(self):
        for words in (['--help'], *([shape, '--help'] for shape in command.SHAPES)):
            done = tool(*words)
            assert (done.returncode, done.stderr) == (0, b'')
            assert done.stdout
