"""Tests of tcpsim-follow and tcpsim/traces/lives.py. Every segment of every example
is followed, and its sums are held against another reading of the trace: tcpsim/traces/reader.py says when a packet
entered a queue and when it left it, and arithmetic when it is at the next one. Two tables were worked out by
hand from the lines. Traces that are no scenario's, which tcpsim-stalls reads by the same module, are in test_stalls.py; files
that are none are in test_ends.py.
"""
import csv
import io
import re
from bisect import bisect_right
from collections import defaultdict
from functools import cache

import clone
from clone import NAMES, PROGRAM, Folder, csv_rows, paths, refusal, told
from tcpsim import follow
from tcpsim.scenario.text import Scenario
from tcpsim.scenario.units import HEADER_BYTES
from tcpsim.traces import lives
from tcpsim.traces.curves import Run
from tcpsim.traces.reader import ACK, DATA, LinkState, Reader


@cache
def example(name):
    """The scenario and the trace's lines of an example."""
    text, lines = clone.example(name)
    return Scenario(text), lines


@cache
def followed(name, flow):
    """The walk that followed all segments of a flow of an example."""
    scenario, lines = example(name)
    walk = follow.Follow(scenario, flow)
    walk.read(iter(lines))
    return walk


@cache
def run_of(name):
    """tcpsim/traces/reader.py's account of an example."""
    scenario, lines = example(name)
    return Run(scenario, iter(lines))


def examples_flows():
    """Each flow of each example: the example's name, its scenario, its trace's lines, the flow's number."""
    for name in NAMES:
        scenario, lines = example(name)
        for flow in range(len(scenario.flows)):
            yield name, scenario, lines, flow


# ---- another reading: what each link did, and each packet put together from it by its moments

class Link(LinkState):
    """What a link took from its queue, in order, and what was dropped at it."""

    def __init__(self, *given):
        super().__init__(*given)
        self.takes, self.drops = [], defaultdict(list)

    def on_taken(self, time, stream, entered):
        self.takes.append((time, stream.sort, entered))

    def on_drop(self, time, reason, flow, sort, number):
        self.drops[sort, flow, number].append((time, reason))


class Moments:
    """The packets of an example: `taken` has of (link, sort, flow, number) the moments of entering a queue,
    each with the moment at which its sending began."""

    def __init__(self, name):
        scenario, lines = example(name)
        self.scenario, self.taken = scenario, defaultdict(dict)
        reader = Reader(scenario, link_kind=Link)
        reader.read(lines)
        self.links, sent = reader.links, defaultdict(list)
        for line in lines:
            for link, flow, number in re.findall(r' tx=(\d+):(\d+):(\d+)', line):
                sent[int(link)].append((int(line.split()[1]), int(flow), int(number)))
        for link in self.links:
            for (time, flow, number), (began, sort, entered) in zip(sent[link.number], link.takes, strict=True):
                assert time == began
                self.taken[link.number, sort, flow, number][entered] = began

    def life(self, flow, sort, number, at):
        """The states of a packet that its end offered at a moment, as (name, from, to), how it ended, when."""
        declared, states = self.scenario.flows[flow], []
        size = HEADER_BYTES + (declared.mss if sort == DATA else 0)
        for link in self.scenario.paths[flow][sort]:
            began = self.taken[link, sort, flow, number].get(at)
            if began is None:
                return self.stopped(link, (sort, flow, number), at, states)
            sent = began - -size * 8 * 10**9 // self.scenario.links[link].rate
            arrives = sent + self.scenario.links[link].delay
            states += [('waited', at, began), ('serialized', began, sent), ('under way', sent, arrives)]
            at = arrives
        return states, 'came', at

    def stopped(self, link, packet, at, states):
        """A packet that a link did not send: dropped at once, dropped by CoDel later, or it still waits."""
        drops = [drop for drop in self.links[link].drops[packet] if drop[0] >= at]
        if not drops:
            return states + [('waited', at, self.scenario.end)], 'waits', None
        time, reason = drops[0]
        return states + [('waited', at, time)] * (reason == 'codel'), reason, time


@cache
def moments_of(name):
    return Moments(name)


class Ends:
    """What the senders' and receivers' lines say of a flow by regular expressions alone."""

    def __init__(self, scenario, lines, flow):
        sender = re.compile(rf'\d+ (\d+) {scenario.flows[flow].sender} \d+ \d+ (?:start|rto|ack) {flow} .*?una=(\d+) nxt=(\d+)')
        receiver = re.compile(rf'\d+ (\d+) {scenario.flows[flow].receiver} \d+ \d+ (data|delack) {flow} .*?next=(\d+)')
        self.sent, self.acked, self.passed = [], [], []     # (moment, number up to which it was so)
        for line in lines:
            if it := sender.match(line):
                self.acked.append((int(it[1]), int(it[2])))
                self.sent.append((int(it[1]), int(it[3])))
            elif it := receiver.match(line):
                self.passed.append((int(it[1]), int(it[3])))

    @staticmethod
    def first(moments, number):
        return next((time for time, reached in moments if reached > number), None)


def up_to_one_that_came(acks):
    """Of lives in the order in which they began, the first that was not dropped and those before it."""
    for at, (_, fate, _) in enumerate(acks):
        if fate in ('came', 'waits'):
            return acks[:at + 1]
    return acks


def painted(begin, end, lives_of):
    """How long each state was the one that counts, the first of the list that is there; the rest stood still,
    given as (from, to)."""
    edges = sorted({begin, end, *(min(edge, end) for states in lives_of for _, *span in states for edge in span)})
    parts, still = dict.fromkeys(('waited', 'serialized', 'under way', 'stood still'), 0), []
    for since, to in zip(edges, edges[1:]):
        name = next((name for states in lives_of for name, begins, ends in states if begins <= since and to <= ends), None)
        parts[name or 'stood still'] += to - since
        if name is None:
            still.append((since, to))
    return parts, still


def test_every_segment_of_every_example():
    """The four parts add up to the whole and are those of the other reading, each by itself."""
    segments = sum(check_flow(*it) for it in examples_flows())
    assert segments > 5000


def check_flow(name, scenario, lines, flow):
    walk, ends, moments = followed(name, flow), Ends(scenario, lines, flow), moments_of(name)
    beyond = max((reached for _, reached in ends.sent), default=0)
    assert list(walk.segments) == list(range(0, beyond, scenario.flows[flow].mss)), (name, flow)
    answers = sorted({packet.offered: packet.number for segment in walk.segments.values()
                      for packet in segment.acks}.items())
    numbers = [number for _, number in answers]
    acks = [moments.life(flow, ACK, number, offered) for offered, number in answers]
    for number, segment in walk.segments.items():
        whole, parts, reasons = walk.sums(segment)
        where = name, flow, number
        begin, done = ends.first(ends.sent, number), ends.first(ends.acked, number)
        end = scenario.end if done is None else done
        assert (segment.copies[0].offered, segment.done, whole) == (begin, done, end - begin), where
        assert sum(parts.values()) == whole, where
        assert sum(time for _, time in reasons) == parts['stood still'], where
        copies = [moments.life(flow, DATA, number, packet.offered) for packet in segment.copies]
        above = up_to_one_that_came(acks[bisect_right(numbers, number):])
        expected, still = painted(begin, end, [states for states, _, _ in above + copies])
        assert parts == expected, where
        check_reasons(reasons, still, copies, ends.first(ends.passed, number), where)
        assert [packet.fate or 'waits' for packet in segment.copies] == \
            [fate if fate != 'came' or at < scenario.end else 'waits' for _, fate, at in copies], where
    return len(walk.segments)


def check_reasons(reasons, still, copies, passed, where):
    """What the segment stood still for: before it came, before all before it had come, and after that."""
    arrived = min((at for _, fate, at in copies if fate == 'came'), default=None)
    spent = dict.fromkeys(('sender', 'receiver', 'answer'), 0)
    for since, to in still:
        spent['sender' if arrived is None or since < arrived else 'receiver' if passed is None or since < passed else
              'answer'] += to - since
    got = dict.fromkeys(spent, 0)
    for reason, time in reasons:
        got['sender' if 'sent again' in reason else 'receiver' if 'missing' in reason else 'answer'] += time
    assert got == spent, where


def test_waits_of_the_rows_are_those_of_the_queues():
    """Each row `waits` that was followed by a `tx` has the wait that the link's queue had."""
    rows = 0
    for name, scenario, _, flow in examples_flows():
        links = {link.name: number for number, link in enumerate(scenario.links)}
        for segment in followed(name, flow).segments.values():
            for packet in segment.copies + segment.answers():
                taken = [row.time for row in packet.watch.rows if row.event == 'tx']
                for row, began in zip([row for row in packet.watch.rows if row.event == 'waits'], taken):
                    queue = moments_of(name).taken[links[row.at], packet.sort, flow, packet.number]
                    assert (queue[row.time], row.span) == (began, began - row.time), (name, row.line)
                    rows += 1
    assert rows > 20000


def test_why_segments_are_sent_again():
    """As often in fast recovery, and as often after a timeout, as tcpsim/traces/reader.py counts it."""
    seen = set()
    for name, scenario, lines, flow in examples_flows():
        run = run_of(name).flows[flow]
        why = [packet.why for segment in followed(name, flow).segments.values() for packet in segment.copies]
        seen.update(why)
        assert why.count(lives.THIRD_DUPLICATE) + why.count(lives.PARTIAL) == run.by_fast_retransmit, (name, flow)
        assert why.count(lives.THIRD_DUPLICATE) == len(run.recoveries), (name, flow)
        assert lives.PARTIAL not in why or scenario.flows[flow].newreno, (name, flow)
        assert why.count(lives.TIMEOUT) == len(run.timeouts), (name, flow)
        assert why.count(lives.TIMEOUT) + why.count(lives.AFTER_TIMEOUT) == run.by_timeout, (name, flow)
        assert why.count(lives.FIRST) == len(run.sent), (name, flow)
    assert seen == {lives.FIRST, lives.THIRD_DUPLICATE, lives.PARTIAL, lives.TIMEOUT, lives.AFTER_TIMEOUT}


def test_drops_are_those_of_the_lines():
    """Each drop of data is a row with its line and its reason."""
    reasons = set()
    for name, scenario, lines, flow in examples_flows():
        got = [(row.time, packet.number, row.words.partition(':')[0], row.line)
               for segment in followed(name, flow).segments.values() for packet in segment.copies
               for row in packet.watch.rows if row.event == 'dropped']
        drops = run_of(name).flows[flow].drops
        assert sorted(row[:3] for row in got) == \
            sorted((time, number, reason) for time, _, reason, sort, number in drops if sort == DATA), name
        for _, number, reason, line in got:
            assert f' drop={reason}:{flow}:{number}' in lines[line - 1], name
            reasons.add(reason)
    assert reasons == {'lost', 'full', 'codel'}


# ---- tables

ONE_SEGMENT = '''line       time s  packet     what          at
   1  0.000000000  segment 0  sent          s   offered for the first time
   1  0.000000000  segment 0  waits         a   behind no packet: the link is idle
   1  0.000000000  segment 0  tx            a   begins to be sent, for 1.04 ms
   3  0.002040000  segment 0  arrives       r   over a, under way for 1 ms
   3  0.002040000  ack 1000   answered      r   answers segment 0 at once
   3  0.002040000  ack 1000   waits         b   behind no packet: the link is idle
   3  0.002040000  ack 1000   tx            b   begins to be sent, for 40 us
   5  0.003080000  ack 1000   arrives       s   over b, under way for 1 ms
   5  0.003080000  ack 1000   acknowledged  s   3.08 ms after the first offering

waited        0.000000000 s
serialized    0.001080000 s
under way     0.002000000 s
stood still   0.000000000 s
whole         0.003080000 s, from the first offering to its acknowledgement
'''
# The fifth packet that is offered to link a is lost, and the next time too.
TWO_TIMEOUTS = '''line       time s  packet                 what          at
   6  0.003080000  segment 4000           sent          s   offered for the first time
   6  0.003080000  segment 4000           dropped       a   lost: the scenario says so
  22  0.008240000  ack 4000               duplicate     s   duplicate 1 asks for the segment
  25  0.009280000  ack 4000               duplicate     s   duplicate 2 asks for the segment
  26  1.006200000  segment 4000 (copy 2)  sent again    s   offered again: the timeout after 1 s
  26  1.006200000  segment 4000 (copy 2)  dropped       a   lost: the scenario says so
  27  3.006200000  segment 4000 (copy 3)  sent again    s   offered again: the timeout after 2 s
  27  3.006200000  segment 4000 (copy 3)  waits         a   behind no packet: the link is idle
  27  3.006200000  segment 4000 (copy 3)  tx            a   begins to be sent, for 1.04 ms
  29  3.008240000  segment 4000 (copy 3)  arrives       r   over a, under way for 1 ms
  29  3.008240000  ack 5000               answered      r   answers segment 4000 at once
  29  3.008240000  ack 5000               waits         b   behind no packet: the link is idle
  29  3.008240000  ack 5000               tx            b   begins to be sent, for 40 us
  31  3.009280000  ack 5000               arrives       s   over b, under way for 1 ms
  31  3.009280000  ack 5000               acknowledged  s   3.0062 s after the first offering

waited        0.000000000 s
serialized    0.001080000 s
under way     0.002000000 s
stood still   3.003120000 s
              3.003120000 s of it: it was dropped and not yet sent again
whole         3.006200000 s, from the first offering to its acknowledgement
'''


class Files(Folder):
    """The command, over files of a folder."""
    scenario, trace = paths('two_timeouts_in_a_row')
    text, lines = clone.example('two_timeouts_in_a_row')

    def told(self, *words):
        return told('follow', *words, cwd=self.folder)

    def rows(self, name, flow, byte):
        """The rows of a segment of an example: (line, packet, what, at, words)."""
        rows = csv_rows(self.told(*paths(name), '--flow', flow, '--byte', str(byte), '--csv'))
        return [(int(row['line']), row['packet'], row['event'], row['at'], row['words']) for row in rows if row['line']]


class TestTables(Files):
    def test_tables_by_hand(self):
        for name, byte, table in (('one_segment', 0, ONE_SEGMENT), ('two_timeouts_in_a_row', 4000, TWO_TIMEOUTS)):
            assert self.told(*paths(name), '--flow', 'f', '--byte', str(byte)) == table

    def test_any_byte_of_the_segment_and_the_program(self):
        scenario = paths('two_timeouts_in_a_row')[0]
        for words in (('--flow', '0', '--byte', '4999'), ('--flow', 'f', '--byte', '4001')):
            assert self.told(scenario, *words, '--program', PROGRAM) == TWO_TIMEOUTS

    def test_sent_again_by_the_third_duplicate(self):
        """14000 is dropped by CoDel in line 54; the acknowledgements of 15000 to 17000 are the duplicates."""
        rows = self.rows('codel_enters_drop_state', 'f', 14000)
        for row in ((29, 'segment 14000', 'waits', 'a', 'behind 7 packets (6 in the queue, 1 being sent)'),
                    (54, 'segment 14000', 'dropped', 'a', 'codel: dropped at the head of the queue, after 55.92 ms'),
                    (61, 'ack 14000', 'duplicate', 's', 'duplicate 1 asks for the segment'),
                    (69, 'ack 14000', 'duplicate', 's', 'duplicate 3 asks for the segment'),
                    (69, 'segment 14000 (copy 2)', 'sent again', 's', 'offered again: the third duplicate'),
                    (69, 'segment 14000 (copy 2)', 'waits', 'a', 'behind 4 packets (3 in the queue, 1 being sent), for 30.96 ms')):
            assert row in rows
        assert rows.index((69, 'ack 14000', 'duplicate', 's', 'duplicate 3 asks for the segment')) < \
            rows.index((69, 'segment 14000 (copy 2)', 'sent again', 's', 'offered again: the third duplicate'))

    def test_sent_again_after_a_timeout(self):
        rows = self.rows('a_timer_that_stays_doubled', 'f', 3000)
        assert (13, 'segment 3000 (copy 2)', 'sent again', 's',
                       'offered again: a timeout had made the sender begin again') in rows
        assert (17, 'segment 3000 (copy 3)', 'sent again', 's', 'offered again: the timeout after 2 s') in rows
        assert (16, 'ack 4000', 'dropped', 'b', 'lost: the scenario says so') in rows
        assert (19, 'segment 3000 (copy 3)', 'not new', 'r', 'the receiver has it already') in rows

    def test_a_full_queue(self):
        rows = self.rows('slow_start_into_a_full_queue', 'f', 11000)
        assert [row[2:] for row in rows if row[2] == 'dropped'] == [('dropped', 'a', 'full: 3 packets in the queue')]
        assert [row[0] for row in rows if row[2] == 'duplicate'][:3] == [62, 65, 66]

    def test_answers(self):
        """The first segment's answer waits for the second; that of the ninth for the alarm."""
        rows = self.rows('an_answer_that_waits_for_its_alarm', 'f', 0)
        assert (6, 'segment 0', 'answer waits', 'r', 'for the alarm in 400 ms, or for another segment') in rows
        assert (7, 'ack 2000', 'answered', 'r', 'answers segment 1000 at once, after a wait of 1.04 ms for a second segment') in \
            rows
        assert (28, 'ack 9000', 'answered', 'r', 'answers segment 8000 by the alarm, after a wait of 400 ms') in \
            self.rows('an_answer_that_waits_for_its_alarm', 'f', 8000)
        assert (3, 'ack 1000', 'answered', 'r', 'answers segment 0 at once') in self.rows('one_segment', 'f', 0)

    def test_a_segment_that_waits_for_one_before_it(self):
        rows = self.rows('two_timeouts_in_a_row', 'f', 8000)
        assert (19, 'segment 8000', 'held', 'r', '4000 is missing before it, and asked for at once') in rows

    def test_an_answer_that_was_dropped_is_told(self):
        """Of the duplicates that ask for segment 0 the second is lost."""
        text = self.text[:self.text.index('lose')].replace(' 10 0 64000', ' 4 0 64000') + 'lose a 1\nlose b 2\n'
        told = self.told(self.put('run.txt', text), '--program', PROGRAM, '--flow', 'f', '--byte', '0')
        assert re.search(r'ack 0 +dropped +b +lost: it would have asked for the segment', told)
        assert 'duplicate 3' not in told

    def test_csv(self):
        for name, byte in (('two_timeouts_in_a_row', 4000), ('an_answer_that_waits_for_its_alarm', 8000)):
            rows = list(csv.reader(io.StringIO(self.told(*paths(name), '--flow', 'f', '--byte', str(byte), '--csv'))))
            assert rows[0] == ['line', 'time', 'packet', 'event', 'at', 'ns', 'behind', 'words']
            sums = {row[7]: int(row[5]) for row in rows if row[3] == 'sum'}
            assert list(sums) == ['waited', 'serialized', 'under way', 'stood still', 'whole']
            assert sum(sums.values()) == 2 * sums['whole']
            assert sum(int(row[5]) for row in rows if row[3] == 'part of stood still') == sums['stood still']
            assert sum(int(row[5]) for row in rows if row[3] == 'waits') == sums['waited']
        assert ['15', '14200000', 'segment 8000', 'waits', 'a', '2080000', '2',
                       'behind 2 packets (1 in the queue, 1 being sent), for 2.08 ms'] in rows
        table = self.told(*paths(name), '--flow', 'f', '--byte', str(byte)).splitlines()
        assert len([row for row in rows if row[0]]) - 1 == table.index('') - 1

    def test_runs_that_end_before_the_acknowledgement(self):
        """At 2.5 ms the acknowledgement is under way; where the trace has no `end`, its last line is the end."""
        text, lines = clone.example('one_segment')
        short = self.put('short.txt', text.replace('sim 1000000000', 'sim 2500000'))
        told = self.told(short, '--program', PROGRAM, '--flow', 'f', '--byte', '0')
        assert ('under way     0.001420000 s\nstood still   0.000000000 s\nwhole         0.002500000 s, from the first '
                      'offering to the end of the run, never acknowledged\n') in told
        cut = self.put('cut.trace', ''.join(f'{line}\n' for line in lines[:4]))
        told = self.told(paths('one_segment')[0], cut, '--partial', '--flow', 'f', '--byte', '0')
        assert ('whole         0.002080000 s, from the first offering to the last line of the trace, which has no end; '
                      'not acknowledged so far\n') in told


class TestRefusals(Files):
    def refused(self, note, *words, status=1):
        """One sentence, with the note in it; nothing on standard output."""
        found, sentence = refusal('follow', *words, cwd=self.folder)
        assert found == status and note in sentence, (found, sentence)

    def test_flows_and_bytes_that_are_none(self):
        self.refused('no flow g; it has f', self.scenario, self.trace, '--flow', 'g', '--byte', '0', status=2)
        self.refused('has the bytes 0 to 9999, and not 10000', self.scenario, self.trace, '--flow', 'f', '--byte', '10000')
        for byte in ('-1', 'x', '1e3', '', '4_000', '²'):
            self.refused('is no whole number', self.scenario, self.trace, '--flow', 'f', f'--byte={byte}', status=2)
        self.refused('--flow', self.scenario, self.trace, '--byte', '0', status=2)
        self.refused('--byte', self.scenario, self.trace, '--flow', 'f', status=2)

    def test_a_segment_that_was_never_sent(self):
        short = self.put('short', self.text.replace('sim ' + re.search(r'sim (\d+)', self.text)[1], 'sim 2000000'))
        self.refused('the segment 9000 of flow f was never sent in this run', short, '--program', PROGRAM,
                     '--flow', 'f', '--byte', '9999')
