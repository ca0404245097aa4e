"""Tests of a run's figures. On every example and on random scenarios the model's figures (python/tcpsim_model/figures.py),
which it counts from its states, are those that tcpsim/traces/reader.py and tcpsim-flows find in the trace; and the figures of the
built program are the model's, byte for byte. Some tables are worked out by hand. dev/compare.py sees a table that is wrong
by one."""
import os
import random
import re
import sys
from array import array

import pytest

import clone
from clone import TOP, of_model as model, outcome, ran
from tcpsim.figures import Figures
from tcpsim.samples import percentile
from tcpsim.scenario.text import Scenario
from tcpsim.traces.reader import FlowState, Reader
from tcpsim_model import figures as classes, image, simulate
from tcpsim_model.figures import HEADING, figures
from tcpsim_model.text import assemble
from test_engine import drawn, examples, with_traces
from test_trace import BY_HAND
from whole import texts

RANDOM = 60             # scenarios


class Sampled(FlowState):
    """A flow whose round trips are those that its sender measures, one at a time (RFC 6298 section 3)."""

    timing = None       # (acknowledgement number, when it was sent)

    def __init__(self, flow, number):
        super().__init__(flow, number)
        self.samples = array('q')

    def on_sent(self, time, number):
        if self.timing is None:
            self.timing = number + self.flow.mss, time

    def on_again(self, *_):
        self.timing = None

    def on_acknowledged(self, time):
        if self.timing is not None and self.last_una >= self.timing[0]:
            self.samples.append(time - self.timing[1])
            self.timing = None


def random_texts():
    return drawn(11, RANDOM, (5, 60, 200))


def traced():
    """Names, texts and traces of the examples and of the random scenarios."""
    yield from examples()
    yield from with_traces(random_texts())


def values_of(table):
    """The values of a CSV of figures, by what, number, figure and unit."""
    heading, *lines = table.splitlines()
    assert heading == HEADING and table.endswith('\n')
    found = {}
    for line in lines:
        *words, value = line.split(',')
        found[tuple(words)] = None if value == '-' else int(value)
    assert len(found) == len(lines)
    return found


def counted(text, trace):
    """What the trace says of each figure that is a count, a time or a sum; and the numbers of which others are
    percentiles, by their place in a word: `{} round trip`."""
    scenario, lines = Scenario(text), trace.splitlines()
    run, sampled = Figures(scenario, lines, 0, scenario.end), Reader(scenario, Sampled)
    sampled.read(lines)
    exact, values = {}, {}
    for flow, samples in zip(run.flows, (it.samples for it in sampled.flows)):
        exact.update({('flow', str(flow.number), *figure): value for figure, value in flow_counts(flow, samples)})
        values['flow', str(flow.number)] = samples
    for link in run.links:
        exact.update({('link', str(link.number), *figure): value
                      for figure, value in link_counts(run, link, scenario.end)})
        values['link', str(link.number)] = link.waits
    exact['run', '', 'events', 'events'], exact['run', '', 'end', 'ns'] = run.lines, run.last
    return exact, values


def flow_counts(flow, samples):
    return [(('start', 'ns'), flow.flow.start), (('delivered', 'bytes'), flow.delivered()),
            (('completed', 'ns'), flow.completed), (('sent', 'segments'), flow.sent()),
            (('sent again by fast retransmit', 'segments'), flow.by_fast_retransmit),
            (('sent again by timeout', 'segments'), flow.by_timeout), (('timeouts', 'times'), flow.timeouts),
            (('round trips', 'times'), len(samples)), (('least round trip', 'ns'), min(samples, default=None)),
            (('greatest round trip', 'ns'), max(samples, default=None))]


def link_counts(run, link, end):
    dropped = {reason: sum(n for flow in run.flows for (why, _, at), n in flow.drops.items()
                           if (why, at) == (reason, link.number)) for reason in ('lost', 'full', 'codel')}
    return [(('offered', 'packets'), link.sent() + link.drops + len(link.waiting)),
            (('dropped as lost', 'packets'), dropped['lost']), (('dropped as full', 'packets'), dropped['full']),
            (('dropped by CoDel', 'packets'), dropped['codel']), (('sent packets', 'packets'), link.sent()),
            (('sent bytes', 'bytes'), sum(n * stream.size for stream, n in link.count.items())),
            (('busy', 'ns'), link.sending(end)), (('greatest queue', 'packets'), link.greatest),
            (('waited', 'packet-ns'), link.summed(end)),
            (('greatest delay in the queue', 'ns'), max(link.waits, default=None))]


PERCENTILES = {what: ((50, f'median {one}'), *((n, f'{n}th percentile of {all_}') for n in (95, 99)))
               for what, one, all_ in (('flow', 'round trip', 'round trips'), ('link', *('delay in the queue',) * 2))}


def test_examples_and_random_scenarios():
    """All figures; a percentile is not below the exact one, at most a part of 32 above, and not past the
    greatest value."""
    seen = set()
    for name, text, trace in traced():
        got = values_of(figures(assemble(text.encode())))
        exact, values = counted(text, trace)
        for key, value in exact.items():
            assert got.pop(key) == value, key
            seen.add((key[0], *key[2:], bool(value)))
        for (what, number), numbers in values.items():
            for percent, figure in PERCENTILES[what]:
                is_percentile(got.pop((what, number, figure, 'ns')), numbers, percent)
        assert got == {}
    assert {key[:-1] for key in seen if key[-1]} == {key[:-1] for key in seen}, 'a figure that is always 0'


def is_percentile(answer, numbers, percent):
    exact = percentile(numbers, percent)
    if exact is None:
        assert answer is None
    else:
        assert exact <= answer <= max(numbers) and 32 * answer <= 33 * exact, (exact, answer)


# The runs by hand: links of 8 Mbit/s and 1 ms each way, on which a segment takes 1.04 ms and an acknowledgement .04.
ONE_SEGMENT = ''.join(f'{line}\n' for line in texts.LINES)
LOST = (ONE_SEGMENT.replace('sim 1', 'sim 2').replace('1000 1 0', '1000 4 0') + 'lose a 3\nlose a 4\n')
CODEL = (ONE_SEGMENT.replace('sim 1', 'sim 2').replace('1000 1 0', '1000 5 0')
         .replace('droptail 10', 'codel 10 1000000 1000000 1000', 1))
BELOW_RECOVER = (ONE_SEGMENT.replace('sim 1', 'sim 4').replace('1000 1 0 64000 0', '1000 8 0 64000 0 newreno iw3')
                 + ''.join(f'lose a {number}\n' for number in (1, 2, 3, 4, 8)))
FLOW = (('start', 'ns'), ('delivered', 'bytes'), ('completed', 'ns'), ('sent', 'segments'),
        ('sent again by fast retransmit', 'segments'), ('sent again by timeout', 'segments'), ('timeouts', 'times'),
        ('round trips', 'times'), ('least round trip', 'ns'), ('median round trip', 'ns'),
        ('95th percentile of round trips', 'ns'), ('99th percentile of round trips', 'ns'), ('greatest round trip', 'ns'))
LINK = (('offered', 'packets'), ('dropped as lost', 'packets'), ('dropped as full', 'packets'),
        ('dropped by CoDel', 'packets'), ('sent packets', 'packets'), ('sent bytes', 'bytes'), ('busy', 'ns'),
        ('greatest queue', 'packets'), ('waited', 'packet-ns'), ('median delay in the queue', 'ns'),
        ('95th percentile of delay in the queue', 'ns'), ('99th percentile of delay in the queue', 'ns'),
        ('greatest delay in the queue', 'ns'))


def table_of(flow, a, b, run):
    """The table of a run with one flow and two links, from the values in their order."""
    rows = [f'{what},{figure},{unit},{value}' for what, names, values in (('flow,0', FLOW, flow), ('link,0', LINK, a),
                                                                          ('link,1', LINK, b))
            for (figure, unit), value in zip(names, values.split(), strict=True)]
    return '\n'.join([HEADING, *rows, 'run,,events,events,{}'.format(run[0]), 'run,,end,ns,{}'.format(run[1]), ''])


# ---- the model's tables, and the program's where it has them


def has(text, *values):
    table = table_of(*values)
    assert figures(assemble(text.encode())) == table
    assert outcome(['figures'], text.encode()) == (0, b'', table.encode())


def has_from(moment, text, *values):
    """The same of what is counted from a moment on."""
    table = table_of(*values)
    assert model(['figures', '--from', moment], text.encode()) == (0, b'', table.encode())
    assert outcome(['figures', '--from', moment], text.encode()) == (0, b'', table.encode())


@pytest.mark.parametrize('text', [ONE_SEGMENT, ONE_SEGMENT.replace(' 64000 0\n', ' 64000 0 newreno iw10\n')])
def test_one_segment(text):
    """0 is sent at 0, free at 1.04 ms, arrives at 2.04; 1000 is sent at once, free at 2.08, arrives at 3.08: four
    events and the start. The one round trip is 3.08 ms, so that each percentile is the greatest. Nothing waits:
    one delay on each link, 0. 1000 + 40 and 40 bytes."""
    has(text, '0 1000 3080000 1 0 0 0 1 3080000 3080000 3080000 3080000 3080000',
             '1 0 0 0 1 1040 1040000 0 0 0 0 0 0', '1 0 0 0 1 40 40000 0 0 0 0 0 0', (5, 3080000))


def test_a_segment_that_waits():
    """Of two segments 1000 waits for 1.04 ms while 0 is sent. Acknowledgements: 1000 at 3.08 ms, the one round trip (0 is
    timed, then nothing new is sent), and 2000 at 4.12."""
    has(ONE_SEGMENT.replace('1000 1 0', '1000 2 0'), '0 2000 4120000 2 0 0 0 1 3080000 3080000 3080000 3080000 3080000',
             '2 0 0 0 2 2080 2080000 1 1040000 0 1040000 1040000 1040000', '2 0 0 0 2 80 80000 0 0 0 0 0 0', (9, 4120000))


def test_waits_of_three_segments():
    """Of three segments 1000 waits for 1.04 ms and 2000 for twice as long. The median is 1,040,000 = 63 * 2^14 + 7,808,
    whose class ends at 64 * 2^14 - 1; the 3rd is the greatest, and no percentile is above that."""
    has(ONE_SEGMENT.replace('1000 1 0', '1000 3 0'), '0 3000 5160000 3 0 0 0 1 3080000 3080000 3080000 3080000 3080000',
             '3 0 0 0 3 3120 3120000 2 3120000 1048575 2080000 2080000 2080000', '3 0 0 0 3 120 120000 0 0 0 0 0 0', (13, 5160000))


def test_a_segment_that_is_lost():
    """Of two segments 1000 is lost. Acknowledgement 1000 comes at 3.08 ms, the one round trip, and the timer, of 1 s from
    then on, ends at 1.00308 s: 1000 is sent again, and its acknowledgement comes 3.08 ms later, which is no sample.
    Events: the start, the timer, and for each of the two that arrive a free, a data, b free, an ack."""
    has(ONE_SEGMENT.replace('sim 1', 'sim 2').replace('1000 1 0', '1000 2 0') + 'lose a 2\n',
             '0 2000 1006160000 3 0 1 1 1 3080000 3080000 3080000 3080000 3080000',
             '3 1 0 0 2 2080 2080000 0 0 0 0 0 0', '2 0 0 0 2 80 80000 0 0 0 0 0 0', (10, 1006160000))


def test_a_flow_that_starts_at_the_last_moment():
    """The packet's sending is cut after 1 ns."""
    has(ONE_SEGMENT.replace(' 0 64000 0', ' 999999999 64000 0'), '999999999 0 - 1 0 0 0 0 - - - - -',
             '1 0 0 0 1 1040 1 0 0 0 0 0 0', '0 0 0 0 0 0 0 0 0 - - - -', (1, 999999999))


def test_all_segments_lost_with_a_timeout():
    """Both are lost at 0. At 1 s the timer sends 0 again, which ends the timing. It arrives at 1.00204 s, its
    acknowledgement at 1.00308; then 1000 is sent again, and acknowledged at 1.00616: neither is a sample. Events: the start,
    the timer, and twice a free, data, b free, ack."""
    has(ONE_SEGMENT.replace('sim 1', 'sim 2').replace('1000 1 0', '1000 2 0') + 'lose a 1\nlose a 2\n',
             '0 2000 1006160000 4 0 2 1 0 - - - - -',
             '4 2 0 0 2 2080 2080000 0 0 0 0 0 0', '2 0 0 0 2 80 80000 0 0 0 0 0 0', (10, 1006160000))


def test_codel_that_drops_before_it_sends():
    """Three segments wait until 1.04 ms and two until 2.08 ms, when 2000 is dropped and 3000 begins, 1 ns before the end. The
    delays are 0, 1,040,000 and 2,080,000: the class of the second ends with 64 * 2^14 - 1, that of the third is past the
    greatest."""
    has(ONE_SEGMENT.replace('sim 1000000000', 'sim 2080001').replace('1000 1 0', '1000 4 0').replace('droptail 10', 'codel 10 1 1 1', 1),
             '0 1000 - 4 0 0 0 0 - - - - -', '4 0 0 1 3 3120 2080001 3 5200000 1048575 2080000 2080000 2080000',
             '1 0 0 0 1 40 40000 0 0 0 0 0 0', (5, 2080000))


def test_a_fast_retransmit_behind_a_full_queue():
    """test_trace.py has its trace. 3000 and 7000 find two waiting, and 3000 is sent again at the third duplicate, 8.28 ms,
    while 4000, sent at 3.08 ms, is timed. Until then one round trip was measured. The queue is 2 to 1.04 ms, 1 to 2.08, 2 from
    3.08 to 3.12, 1 to 4.12, 2 to 4.16, 1 to 5.2. The delays are 0, 1.04, 2.08, .04, 1.08, 1.08 and 0 ms; the 4th of 7 is
    1,040,000."""
    has(BY_HAND, '0 7000 - 9 1 0 0 1 3080000 3080000 3080000 3080000 3080000',
             '9 0 2 0 7 7280 7280000 2 5320000 1048575 2080000 2080000 2080000', '7 0 0 0 7 280 280000 0 0 0 0 0 0', (29, 11360000))


def test_two_segments_lost_with_a_timeout():
    """0 to 3000 are offered at 0; 0 begins, 1000 waits 1.04 ms, 2000 and 3000 are lost.
    Acknowledgements: 1000 at 3.08 ms, the one round trip (0 is timed, then nothing new is sent); 2000 at 4.12.
    The timer, of 1 s from then on, ends at 1.00412 s: 2000 is sent again, and its acknowledgement, 3000, comes
    3.08 ms later, at 1.00720. Now cwnd is 2000 and nxt 3000: 3000 is sent again, as the timeout's work, and
    acknowledged at 1.01028.
    Segments: 4, and 2 again. Delays on a: 0, 1.04 ms, 0, 0: the 2nd of four is 0; the 4th is 1,040,000, whose class
    ends at 1,048,575, past the greatest. Events: the start, the timer, and for each of the four that arrive a free,
    a data, b free, an ack."""
    has(LOST, '0 4000 1010280000 6 0 2 1 1 3080000 3080000 3080000 3080000 3080000',
             '6 2 0 0 4 4160 4160000 1 1040000 0 1040000 1040000 1040000', '4 0 0 0 4 160 160000 0 0 0 0 0 0', (18, 1010280000))


TWO = ONE_SEGMENT.replace('1000 1 0', '1000 2 0')
NOTHING = '0 0 0 0 0 0 0 0 0 - - - -'


@pytest.mark.parametrize('moment, values', [
    ('1040000', ('0 2000 4120000 0 0 0 0 1 3080000 3080000 3080000 3080000 3080000',
                 '0 0 0 0 1 1040 1040000 1 0 1040000 1040000 1040000 1040000', '2 0 0 0 2 80 80000 0 0 0 0 0 0', (8, 4120000))),
    ('1.5ms', ('0 2000 4120000 0 0 0 0 1 3080000 3080000 3080000 3080000 3080000',
               '0 0 0 0 0 0 580000 0 0 - - - -', '2 0 0 0 2 80 80000 0 0 0 0 0 0', (7, 4120000))),
    ('3080us', ('0 1000 4120000 0 0 0 0 1 3080000 3080000 3080000 3080000 3080000',
                NOTHING, '1 0 0 0 1 40 40000 0 0 0 0 0 0', (4, 4120000))),
    ('4120000ns', ('0 0 4120000 0 0 0 0 0 - - - - -', NOTHING, NOTHING, (1, 4120000))),
    ('4120001', ('0 0 4120000 0 0 0 0 0 - - - - -', NOTHING, NOTHING, (0, '-'))),
    ('1000s', ('0 0 4120000 0 0 0 0 0 - - - - -', NOTHING, NOTHING, (0, '-')))])
def test_from_a_moment_on_of_a_segment_that_waits(moment, values):
    """test_a_segment_that_waits has the run. At 1.04 ms 1000 begins to be sent, before which it has waited; at 1.5 ms .58 ms of
    its sending are left. At 3.08 ms the first acknowledgement comes, and 1000 to the receiver. The flow is complete at 4.12 ms,
    which is told past that too."""
    has_from(moment, TWO, *values)


def test_from_a_moment_on_of_two_segments_lost_with_a_timeout():
    """test_two_segments_lost_with_a_timeout has the run. Two segments were received and nothing was under way: the timer is
    left, and what it has sent again, with no sample."""
    has_from('1s', LOST, '0 2000 1010280000 2 0 2 1 0 - - - - -',
                  '2 0 0 0 2 2080 2080000 0 0 0 0 0 0', '2 0 0 0 2 80 80000 0 0 0 0 0 0', (9, 1010280000))


def test_from_a_moment_on_of_codel_that_drops():
    """test_codel_that_drops_before_it_sends has the run. At 2 ms two wait, for .08 ms more, and of what is sent as much is left;
    then one is dropped, and the other begins, 1 ns before the end. It has waited since 0."""
    has_from('2ms', ONE_SEGMENT.replace('sim 1000000000', 'sim 2080001').replace('1000 1 0', '1000 4 0')
             .replace('droptail 10', 'codel 10 1 1 1', 1),
             '0 1000 - 0 0 0 0 0 - - - - -', '0 0 0 1 1 1040 80001 2 160000 2080000 2080000 2080000 2080000',
             '1 0 0 0 1 40 40000 0 0 0 0 0 0', (3, 2080000))


def test_from_0_is_the_whole_table():
    assert model(['figures', '--from', '0'], BY_HAND.encode()) == model(['figures'], BY_HAND.encode())
    assert outcome(['figures', '--from=0'], BY_HAND.encode()) == outcome(['figures'], BY_HAND.encode())


@pytest.mark.parametrize('word', ['', 'x', '1.5', '1.5m', '-1', '01', '1000000000000001', '1.1234567890s'])
def test_what_is_no_moment(word):
    note = b'error: --from takes a moment, as 1.5s, 20ms or 10000ns'
    assert model(['figures', f'--from={word}'], ONE_SEGMENT.encode())[0] == 2
    status, told, out = outcome(['figures', f'--from={word}'], ONE_SEGMENT.encode())
    assert (status, out) == (2, b'') and (not word or told.rstrip() == note)


def test_codel_that_drops():
    """Target and interval are 1 ms, maxpacket is 1000. At 0 0 begins, and 1000, 2000 and 3000 wait.
    1.04 ms  1000 has waited for longer than the target, and 2,080 bytes are behind it: first_above becomes 2.04. It is
             sent, after 1.04 ms
    2.08     2000 has waited 2.08 ms, 1,040 bytes are behind it, and 2.04 is past: it is dropped. Behind 3000 nothing
             is left, so it is sent, after 2.08 ms; drop state is on
    3.08     acknowledgement 1000, the one round trip; cwnd 5000: 4000 is sent, and waits until 3.12, .04 ms: drop
             state is off
    4.12     acknowledgement 2000: the timer is to end at 1.00412 s. 3000 and 4000 arrive at 4.12 and 5.16: two
             duplicates, at 5.16 and 6.20, and nothing is left to be sent
    1.00412 s  2000 is sent again, at once; it arrives, and 5000 is acknowledged at 1.00720
    Segments: 5, and 1 again. Waiting: 3 for 1.04 ms, 2 for 1.04, 1 for .04: 5.24 packet-ms. Delays of the five sent:
    0, 1.04, 2.08, .04, 0. The 3rd is 40,000 = 39 * 2^10 + 64, whose class ends at 40 * 2^10 - 1; the 5th 2,080,000,
    the greatest. Events: the start, the timer, and four for each of the five sent."""
    has(CODEL, '0 5000 1007200000 6 0 1 1 1 3080000 3080000 3080000 3080000 3080000',
             '6 0 0 1 5 5200 5200000 3 5240000 40959 2080000 2080000 2080000', '5 0 0 0 5 200 200000 0 0 0 0 0 0',
             (22, 1007200000))


def test_three_duplicates_that_begin_no_recovery():
    """A NewReno sender after a timeout: una is not past recover (RFC 6582 section 3.2 step 1), so that 3000, lost
    twice, waits for the timer again. 0 to 3000 are offered at 0 and lost.
    1.00000 s  the timer: ssthresh 2000, 0 is sent again, recover = 4000, the timeout doubles to 2 s
    1.00308    acknowledgement 1000: cwnd 2000; 1000 and 2000 are sent again, 2000 after 1.04 ms in the queue
    1.00616    2000: cwnd 2500, 3000 is sent again and lost
    1.00720    3000: cwnd 2900, 4000 is sent for the first time and timed. The timer is to end at 3.00720
    1.01028, 1.01336, 1.01644  duplicates, for 4000, and for 5000 and 6000, which the first two send (limited transmit).
               The third begins nothing, and nothing more comes
    3.00720    3000 is sent again, which ends the timing; acknowledgement 7000 at 3.01028: 7000 is sent and timed
    3.01336    8000: the one round trip, 3.08 ms
    Sent again: 0, 1000, 2000, 3000, 3000, none in a recovery. Sent are 8 and these 5, of which 5 are lost. Events: the
    start, two timers, and four for each of the eight that arrive."""
    has(BELOW_RECOVER, '0 8000 3013360000 13 0 5 2 1 3080000 3080000 3080000 3080000 3080000',
             '13 5 0 0 8 8320 8320000 1 1040000 0 1040000 1040000 1040000', '8 0 0 0 8 320 320000 0 0 0 0 0 0', (35, 3013360000))


def test_they_are_counted_and_begin_nothing():
    """The duplicates of the run above, one by one, and those of a Reno sender, which sends 3000 again at the third."""
    for variant, third in (('newreno', False), ('reno', True)):
        net = simulate.Network(assemble(BELOW_RECOVER.replace('newreno', variant).encode()))
        sender, got = net.ends[0], []
        while line := net.step():
            if line.kind == 'ack' and line.names == '0 3000' and sender.dups:
                got.append((sender.dups, sender.recovery, sender.nxt))
        assert got == [(1, False, 6000), (2, False, 7000), (3, third, 7000)]
    rows = values_of(figures(assemble(BELOW_RECOVER.replace('newreno', 'reno').encode())))
    assert [rows['flow', '0', figure, 'segments'] for figure, _ in FLOW[3:6]] == [13, 1, 4]


def test_classes():
    """Each number lies in one class, at most 1/32 below its top; the classes follow one another."""
    before = -1
    for number in range(3000):
        top = classes.top(number)
        assert (classes.class_of(before + 1), classes.class_of(top)) == (number, number)
        assert 32 * top <= 33 * (before + 1) or top == before + 1
        before = top


def test_percentiles_are_at_most_a_part_of_32_above():
    pick = random.Random(6)
    for _ in range(500):
        values = [pick.randrange(10**pick.randint(0, 15)) for _ in range(pick.randint(1, 60))]
        for percent in (1, 50, 99, 100):
            exact = classes.nearest_rank(values, percent)
            is_percentile(classes.percentile(values, percent), values, percent)
            assert 100 * sum(value <= exact for value in values) >= percent * len(values)
            assert 100 * sum(value < exact for value in values) < percent * len(values)
    assert (classes.nearest_rank([], 50), classes.percentile([], 50)) == (None, None)


@pytest.mark.parametrize('word', ['--groups', '--workers', '--progress', 'x'])
def test_words_that_the_model_refuses(word):
    assert clone.of_model(['figures', word, '1'])[::2] == (2, b'')


# ---- docs/FORMATS.md has each figure with its unit, in the order of the table, and the table of the first run


def test_figures():
    page = clone.read_text('docs', 'FORMATS.md').partition('\n## Figures\n')[2].partition('\n## ')[0]
    assert '\n```\n' + figures(assemble(ONE_SEGMENT.encode())) + '```\n' in page
    told = [[(name, unit) for names, unit in re.findall(r'^\| (`.*`) \| (\S+) \|', part, re.M)
             for name in re.findall('`([^`]*)`', names)]
            for part in re.split('^Of a link:|^Of the run:', page, flags=re.M)]
    assert told == [[*FLOW], [*LINK], [('events', 'events'), ('end', 'ns')]]


# ---- dev/compare.py --kind figures, with the model in the program's place, and with tables that are wrong

STAND_IN = '''#!{python}
import sys
sys.path.insert(0, {model!r})
from tcpsim_model import command_line
written = []
status, note = command_line.main(tuple(sys.argv[1:]), sys.stdin.buffer.read(), written.append)
table = b"".join(written).decode()
{change}
sys.stdout.write(table)
if note:
    print(note, file=sys.stderr)
sys.exit(status)
'''
MORE = '''
lines = table.splitlines(True)
for n, line in enumerate(lines):
    words, _, value = line.rpartition(",")
    if words == {words!r}:
        lines[n] = words + "," + str(int(value.replace("-", "0")) + 1) + "\\n"
table = "".join(lines)
'''


@pytest.fixture
def compared(put):
    def run(change, *words):
        path = put('tcpsim', STAND_IN.format(python=sys.executable, model=os.path.join(TOP, 'python'), change=change), 0o755)
        return ran(sys.executable, os.path.join(TOP, 'dev', 'compare.py'), '--kind', 'figures', '--random', '--jobs', '2', '--shrink', '0',
                   '--program', path, *words, text=True, timeout=600)
    return run


def test_the_model_is_equal(compared):
    done = compared('', '--count', '30')
    assert (done.returncode, done.stdout) == (0, 'figures: 30 compared\n30 compared, 0 different\n'), done.stderr


def test_what_is_wrong_by_one_is_seen(compared):
    """Among them a percentile that is still at most 1/32 above the exact one."""
    for words in ('flow,0,sent again by timeout,segments', 'link,0,median delay in the queue,ns', 'link,1,busy,ns',
                  'run,,events,events'):
        done = compared(MORE.format(words=words), '--count', '16')
        assert done.returncode == 1, done.stderr
        assert re.search(f'program: {words},', done.stdout)
        assert ' 0 different' not in done.stdout


def test_a_row_too_few_or_a_note_too_many_is_seen(compared):
    for change in ('table = table.rpartition("run")[0]', 'note = note or "done"', 'status = status or 3'):
        done = compared(change, '--count', '16')
        assert (done.returncode, ' 0 different' in done.stdout) == (1, False), change


@pytest.mark.built
def test_the_program_has_the_model_s_figures():
    """Of texts and of images, on standard output alone."""
    for name, text in [*((name, text) for name, text, _ in examples()), *random_texts()]:
        scenario = assemble(text.encode())
        for data in (text.encode(), image.save(scenario)):
            assert outcome(['figures'], data) == (0, b'', figures(scenario).encode()), name


@pytest.mark.built
def test_the_program_refuses_as_the_model_does():
    for data in (b'', b'sim 01\n', b'sim 5\n', b'TCB2\0', b'TCBX' + bytes(40), b'\n' * 16777217):
        refused = clone.of_model(['figures'], data)
        assert (refused[0], refused[2]) == (1, b'')
        assert outcome(['figures'], data) == refused
