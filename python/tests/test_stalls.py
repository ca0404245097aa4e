"""Tests of tcpsim-stalls, tcpsim/causes.py and tcpsim/traces/lives.py. The
spans are held against another reading of the traces in examples/, a few lines of regular expressions; the causes against
what was found by hand."""
import csv
import io
import re

import tcpsim
from clone import NAMES, PROGRAM, Folder, csv_rows, example, outcome, paths, read_text, refusal, told, tool
from tcpsim import causes, follow, stalls
from tcpsim.cli import follow as cli_follow, stalls as cli_stalls
from test_follow import moments_of, run_of
from tcpsim.scenario.text import Scenario, Unreadable
from tcpsim.traces.reader import ACK, DATA

MS = 10**6
# Which example has which cause, among its spans longer than 200 ms.
SHOWN = {
    'the receive window was full': 'acks_share_the_bottleneck',
    'its packets waited in one queue': 'bufferbloat',
    'a loss was left to the timer': 'two_timeouts_in_a_row',
    'a retransmission was lost': 'a_lost_retransmission',
    'the timer had doubled': 'a_timer_that_stays_doubled',
    'an acknowledgement was lost': 'a_lost_acknowledgement',
    'a delayed acknowledgement was waited for': 'an_answer_that_waits_for_its_alarm',
    'fast retransmit took a round trip': 'sawtooth_of_congestion_avoidance',
    'the round trip took longer': 'parking_lot_of_three_routers',
}
EXAMPLES = [(name, *example(name)) for name in NAMES]
# A segment takes 1.04 ms, an acknowledgement 0.04 ms, each way 5 ms.
NET = '''sim {end}
node s sender
node r receiver
link a s r 8000000 {delay} droptail 10
link b r s 8000000 {delay} droptail 10
flow f s r 1000 {segments} 0 64000 {delack}
'''


def net(end=10**10, delay=5 * MS, segments=9, delack=0, lose=()):
    return NET.format(end=end, delay=delay, segments=segments, delack=delack) + ''.join(f'lose {it}\n' for it in lose)


def run_by_program(text):
    return outcome(['run'], text.encode())[2].decode().splitlines()


def rows_of(text, lines, longer=200 * MS):
    return stalls.stalls_of(Scenario(text), iter(lines), longer)


class Judging(stalls.Stalls):
    """Asks every cause of each stall."""

    def __init__(self, *given):
        super().__init__(*given)
        self.judged = []

    def row(self, stall):
        row = super().row(stall)
        self.judged.append((row, [causes.name_of(cause) for cause in causes.CAUSES if cause(stall) is not None]))
        return row


SENDERS_LINE = re.compile(r'(\d+) (\d+) \d+ \d+ \d+ (?:(start|rto) (\d+)|ack (\d+) \d+) una=(\d+) ')


def spans(text, lines):
    """Each flow's spans without a new acknowledgement, (flow, from, to, the lines of both), read from the words
    `una=` alone."""
    names = re.findall(r'^flow (\w+)', text, re.MULTILINE)
    totals = [int(mss) * int(count) for mss, count in re.findall(r'^flow \w+ \w+ \w+ (\d+) (\d+)', text, re.MULTILINE)]
    end = int(re.search(r'^sim (\d+)', text, re.MULTILINE)[1])
    since, una, found = {}, {}, []
    for line in filter(None, map(SENDERS_LINE.match, lines)):
        number, time, flow, new = int(line[1]), int(line[2]), int(line[4] or line[5]), int(line[6])
        if line[3] == 'start':
            since[flow], una[flow] = (time, number), 0
        elif new > una[flow]:
            found.append((names[flow], since[flow][0], time, since[flow][1], number))
            since[flow], una[flow] = (time, number), new
    return found + [(names[flow], time, end, number, len(lines) - 1)
                    for flow, (time, number) in since.items() if una[flow] < totals[flow]]


def duplicates(lines, flow, una, row):
    """How many acknowledgements of una alone came in a span before its first timeout."""
    count = 0
    for words in map(str.split, lines):
        if row.begin < int(words[1]) < row.end and words[6:7] == [str(flow)]:
            if words[5] == 'rto':
                break
            count += words[5] == 'ack' and words[7] == str(una) and words[8] == f'una={una}'
    return count


def window_is_full(text, lines, name):
    """Whether by each line of a flow's sender there is more to send and no room for it in the receiver's window."""
    flows = re.findall(r'^flow (\w+) \w+ \w+ (\d+) (\d+) \d+ (\d+)', text, re.MULTILINE)
    flow = next(number for number, words in enumerate(flows) if words[0] == name)
    mss, segments, rwnd = map(int, flows[flow][1:])
    words = re.compile(rf'\d+ \d+ \d+ \d+ \d+ (?:start|rto|ack) {flow} .*?una=(\d+) nxt=(\d+)')
    states = [tuple(map(int, it.groups())) for it in map(words.match, lines) if it]
    return all(una + rwnd - mss < nxt < mss * segments for una, nxt in states)


# ---- another reading, by the moments of test_follow.py: what of a flow was where, and what became of each copy


def stays(name, flow):
    """Of each packet of a flow that entered a queue: (link, state, from, to)."""
    moments, found = moments_of(name), []
    for sort in (DATA, ACK):
        path = moments.scenario.paths[flow][sort]
        for (link, *packet, number), taken in list(moments.taken.items()):
            if (link, *packet) == (path[0], sort, flow):
                for at in taken:
                    states = moments.life(flow, sort, number, at)[0]
                    found += [(path[place // 3], *state) for place, state in enumerate(states)]
    return found


def longest_queue(found, begin, end):
    """The link at which all packets of a flow were for the longest time of a span, one of them waiting, and that time."""
    here = [(link, state, since, to) for link, state, since, to in found if since < min(to, end) and to > begin]
    edges = sorted({begin, end, *(edge for *_, since, to in here for edge in (since, to) if begin < edge < end)})
    times = {}
    for since, to in zip(edges, edges[1:]):
        now = [(link, state) for link, state, begins, ends in here if begins <= since and to <= ends]
        links, states = {link for link, _ in now}, {state for _, state in now}
        if len(links) == 1 and 'waited' in states and 'under way' not in states:
            link, = links
            times[link] = times.get(link, 0) + to - since
    return max(times.items(), key=lambda entry: entry[1], default=(None, 0))


def copies_of(name, flow, una):
    """Each sending of a segment: when, and what became of it."""
    run = run_of(name).flows[flow]
    return [(time, moments_of(name).life(flow, DATA, una, time)[1])
            for times, numbers in ((run.sent_times, run.sent), (run.again_times, run.again))
            for time, number in zip(times, numbers) if number == una]


def woken_by(lines, flow):
    """What first made the sender send the lost segment again: 'fr' where a recovery began, 'rto', or None."""
    before = lines[0].rpartition('phase=')[2][:2]
    for line in lines[1:]:
        it = re.match(rf'\d+ \d+ \d+ \d+ \d+ (rto|ack) {flow} .*phase=(..)', line)
        if it and (it[1] == 'rto' or it[2] == 'fr' != before):
            return 'rto' if it[1] == 'rto' else 'fr'
        before = it[2] if it else before
    return None


# ---- all examples, at several lengths


def test_each_stall_has_one_cause():
    """Some cause, and of the third to the last exactly one, whatever their order."""
    partition, judged = {causes.name_of(cause) for cause in causes.PARTITION}, 0
    for name, text, lines in EXAMPLES:
        for longer in (200 * MS, 20 * MS, 2 * MS):
            walk = Judging(Scenario(text), longer)
            walk.read(iter(lines))
            walk.finish()
            for row, held in walk.judged:
                judged += 1
                assert row.cause == held[0], (name, row)
                assert sum(cause in partition for cause in held) == 1, (name, row, held)
    assert judged > 4000
    assert len(partition) == len(causes.CAUSES) - 2


def test_fewer_than_three_duplicates_came_where_the_timer_had_to_do():
    """As their numbers are counted from the acknowledgements in the lines."""
    seen = set()
    for name, text, lines in EXAMPLES:
        numbers = {flow: number for number, flow in enumerate(re.findall(r'^flow (\w+)', text, re.MULTILINE))}
        for row in rows_of(text, lines):
            if row.cause == 'a loss was left to the timer':
                una, came = map(int, re.match(r'segment (\d+) was .* and (\d) duplicates? came', row.found).groups())
                assert came == duplicates(lines, numbers[row.flow], una, row), (name, row)
                seen.add(came)
    assert seen == {0, 1, 2}


def test_queues_are_those_of_another_reading():
    """Its packets waited in one queue where they did, at that link and for that time."""
    shown = 0
    for name, text, lines in EXAMPLES:
        links, flows, found = Scenario(text).links, [flow.name for flow in Scenario(text).flows], {}
        for row in rows_of(text, lines):
            if row.flow not in found:
                found[row.flow] = stays(name, flows.index(row.flow))
            link, time = longest_queue(found[row.flow], row.begin, row.end)
            if row.cause == 'its packets waited in one queue':
                told = f'all its packets waited at link {links[link].name} for {causes.seconds(time)} of it'
                assert row.found.partition(';')[0] == told, (name, row)
                shown += 1
            waited = 2 * time > row.length and row.cause != 'the receive window was full'
            assert (row.cause == 'its packets waited in one queue') == waited, (name, row, time)
    assert shown > 50


def test_losses_are_those_of_another_reading():
    """Of the stalls with another cause than the first two: whether the segment at una was lost, what sent it again,
    and whether that was lost too."""
    told = set()
    for name, text, lines in EXAMPLES:
        found = {span[:3]: span[3:] for span in spans(text, lines)}
        flows = [flow.name for flow in Scenario(text).flows]
        for row in rows_of(text, lines):
            if row.cause in ('the receive window was full', 'its packets waited in one queue'):
                continue
            first, last = found[row.flow, row.begin, row.end]
            flow, una = flows.index(row.flow), int(re.search(r' una=(\d+) ', lines[first - 1])[1])
            copies = copies_of(name, flow, una)
            lost = all(fate in ('lost', 'full', 'codel') for time, fate in copies if time <= row.begin)
            again = any(fate in ('lost', 'full', 'codel') for time, fate in copies if row.begin < time < row.end)
            woken = woken_by(lines[first - 1:last - 1], flow)
            if not lost:
                expected = {'the timer had doubled', 'an acknowledgement was lost', 'the round trip took longer',
                            'a delayed acknowledgement was waited for'}
            else:
                expected = {'a loss was left to the timer'} if woken != 'fr' else \
                    {'a retransmission was lost'} if again else {'fast retransmit took a round trip'}
            assert row.cause in expected, (name, row, copies)
            told.add(row.cause)
    assert len(told) == 7


def test_full_windows_are_those_of_the_lines():
    """In a span the window was full if it was by every line of the sender from its first to that before its last;
    it is the cause but where that segment, or an acknowledgement, was lost."""
    causes_of_full = set()
    for name, text, lines in EXAMPLES:
        found = {span[:3]: span[3:] for span in spans(text, lines)}
        for row in rows_of(text, lines):
            first, last = found[row.flow, row.begin, row.end]
            full = window_is_full(text, lines[first - 1:last - 1], row.flow)
            if full:
                causes_of_full.add(row.cause)
                assert (row.cause == 'the receive window was full') == (' was dropped (' not in row.found), (name, row)
            assert full or row.cause != 'the receive window was full', (name, row)
    assert causes_of_full == {'the receive window was full', 'fast retransmit took a round trip'}


def test_each_cause_has_an_example():
    assert list(SHOWN) == [causes.name_of(cause) for cause in causes.CAUSES]
    for cause, name in SHOWN.items():
        assert cause in [row.cause for row in rows_of(*example(name))], name


def test_spans_are_those_of_the_lines():
    """Their first and last lines are among the positions that are told, the last one last."""
    for name, text, lines in EXAMPLES:
        found = sorted(spans(text, lines))
        for longer in (200 * MS, 20 * MS, 0):
            rows = sorted(rows_of(text, lines, longer))
            expected = [span for span in found if span[2] - span[1] > longer]
            assert [(row.flow, row.begin, row.end) for row in rows] == [span[:3] for span in expected], name
            for row, (_, begin, end, first, last) in zip(rows, expected):
                assert row.length == end - begin
                assert first in row.positions, (name, row)
                assert row.positions == sorted({*row.positions, last}), (name, row)
                assert row.positions[-1] == last, (name, row)


def test_the_debugger_shows_the_span():
    """Where the printed commands go, una is the same from the span's first line on, and more at its last."""
    for name in ('a_lost_acknowledgement', 'a_timer_that_stays_doubled', 'an_answer_that_waits_for_its_alarm',
                 'two_timeouts_in_a_row', 'a_lost_retransmission'):
        text, lines = example(name)
        first = {span[1]: span[3] for span in spans(text, lines)}
        for row in rows_of(text, lines):
            commands, una = cli_stalls.commands(row.positions), []
            with tcpsim.debug(text, engine=PROGRAM) as at:
                for command, position in zip([*commands, *reversed(commands)], [*row.positions, *reversed(row.positions)]):
                    at.ask(command)
                    assert at.state.position == position, name
                    una.append(at.state.senders['f'].una)
            assert una[len(commands):] == una[:len(commands)][::-1]
            del una[len(commands):]
            inside = una[row.positions.index(first[row.begin]):-1]
            assert set(inside) == {inside[0]}, name
            assert una[-1] > inside[0], name


def check(text, longer, *expected):
    rows = rows_of(text, run_by_program(text), longer)
    assert [(row.begin, row.end, row.cause, row.found, row.positions) for row in rows] == list(expected)


def test_why_too_few_duplicates_came():
    """Segment 0 is lost; the other three arrive from 7.08 ms on, and what they cause 5.04 ms later."""
    late = 'the timer ended after 1 s'
    check(net(segments=3, lose=['a 1']), 200 * MS, (
        0, 1_011_080_000, 'a loss was left to the timer',
        f'segment 0 was dropped (lost) and 2 duplicates came: too few were behind it (2 segments); {late}', [1, 10, 14]))
    check(net(segments=4, lose=['a 1', 'a 4']), 200 * MS, (
        0, 1_011_080_000, 'a loss was left to the timer',
        f'segment 0 was dropped (lost) and 2 duplicates came: 1 of 3 segments behind it were lost too; {late}', [1, 10, 14]))
    check(net(segments=4, lose=['a 1', 'b 2']), 200 * MS, (
        0, 1_011_080_000, 'a loss was left to the timer',
        f'segment 0 was dropped (lost) and 2 duplicates came: answers to those behind it were lost (1); {late}',
        [1, 7, 12, 16]))
    check(net(delay=600 * MS, segments=4, lose=['a 1']), 200 * MS, (
        0, 2_201_080_000, 'a loss was left to the timer',
        f'segment 0 was dropped (lost) and 0 duplicates came: those of the 3 segments behind it were still under way; '
        f'{late}', [1, 11, 21]))


def test_a_full_window_is_no_cause_of_a_loss():
    """A window of one segment is full while a lost acknowledgement, line 3, is waited for until the timer ends.
    One of four segments is full until the first acknowledgement, at 11.08 ms, line 14. Where segment 0
    is lost it is full too, up to 24.24 ms: the third duplicate comes at 13.16 ms, line 13."""
    text = net(segments=9).replace(' 64000 ', ' 4000 ')
    check(text.replace('sim 10000000000', 'sim 11500000'), 5 * MS, (
        0, 11_080_000, 'the receive window was full', '4000 of 4000 bytes were on their way, and 5000 not yet sent', [1, 14]))
    check(text + 'lose a 1\n', 15 * MS, (
        0, 24_240_000, 'fast retransmit took a round trip',
        'segment 0 was dropped (lost); the third duplicate came after 13.16 ms, and 11.08 ms went by after it', [1, 13, 17]))
    check(net(segments=2, lose=['b 1']).replace(' 64000 ', ' 1000 '), 200 * MS, (
        0, 1_011_080_000, 'an acknowledgement was lost',
        'acknowledgement 1000 was dropped (lost), and the timer ended after 1 s', [1, 3, 4, 8]))


def test_a_partial_acknowledgement():
    """Segments 1000 and 3000 of eight are lost. The third duplicate of 1000 comes at 6.2 ms, line 18; the
    acknowledgement of 3000 alone, at 10.36 ms, line 33, sends that again at once. Where this is lost too the timer
    ends, and where 9000 is, which is sent with it, duplicates of 9000 come from line 48 on and begin nothing."""
    text = net(delay=MS, segments=20).replace(' 64000 0\n', ' 8000 0 newreno iw10\n') + 'lose a 2\nlose a 4\n'
    ended = 'and 3.08 ms went by after it'
    check(text.replace('sim 10000000000', 'sim 13440001').replace(' 20 0 8000', ' 10 0 8000'), 3 * MS, (
        0, 3_080_000, 'the receive window was full', '8000 of 8000 bytes were on their way, and 2000 not yet sent', [1, 6]), (
        3_080_000, 10_360_000, 'fast retransmit took a round trip',
        'segment 1000 was dropped (lost); the third duplicate came after 3.12 ms, and 4.16 ms went by after it', [1, 6, 18, 33]), (
        10_360_000, 13_440_000, 'fast retransmit took a round trip',
        f'segment 3000 was dropped (lost); a partial acknowledgement sent it again at once, {ended}', [1, 33, 38]))
    rows = rows_of(text + 'lose a 11\n', run_by_program(text + 'lose a 11\n'))
    assert [(row.begin, row.cause, row.found) for row in rows] == [(
        10_360_000, 'a retransmission was lost',
        'segment 3000, sent again (partial acknowledgement), was dropped (lost); the timer ended after 1 s')]
    rows = rows_of(text + 'lose a 12\n', run_by_program(text + 'lose a 12\n'))
    assert [(row.begin, row.cause, row.found) for row in rows] == [(
        13_440_000, 'a loss was left to the timer',
        'segment 9000 was dropped (lost) and 5 duplicates came: none begins a recovery up to 9000, as far as was sent '
        'when the last loss was noticed; the timer ended after 1 s')]


def test_a_queue_that_makes_a_loss_last():
    """Where all waited in one queue, a segment that was lost is told besides, with the line of its drop."""
    found = 0
    for name in ('two_flows_share_fairly', 'four_flows_share_a_long_queue'):
        text, lines = example(name)
        for row in rows_of(text, lines):
            lost = re.search(r'; segment (\d+) was dropped \((\w+)\) besides$', row.found)
            if lost:
                assert row.cause == 'its packets waited in one queue'
                assert any(re.search(rf' drop={lost[2]}:\d+:{lost[1]}$', lines[at - 1]) for at in row.positions), row
                found += 1
    assert found == 6


def test_spans_that_the_runs_end_cuts_off():
    """Of nine segments the ninth is at the receiver at 22.32 ms, and its answer waits for 400 ms. Where
    the acknowledgement of it is dropped instead, it is at 21.28 ms, line 31, that the last one came."""
    check(net(end=200 * MS, delack=400 * MS), 100 * MS, (
        26_320_000, 200 * MS, 'a delayed acknowledgement was waited for',
        'the answer to segment 8000 waited for 177.68 ms when the run ended', [27]))
    check(net(end=900 * MS, lose=['b 9']), 100 * MS, (
        25_280_000, 900 * MS, 'an acknowledgement was lost', 'acknowledgement 9000 was dropped (lost)', [31, 35]))
    check(net(end=900 * MS, segments=1, lose=['a 1']), 100 * MS, (
        0, 900 * MS, 'a loss was left to the timer',
        'segment 0 was dropped (lost) and 0 duplicates came: too few were behind it (0 segments)', [1]))
    check(net(end=11 * MS, segments=1), 10 * MS, (
        0, 11 * MS, 'the round trip took longer', 'from segment 0 to its acknowledgement it takes 11 ms at least', [1, 4]))


def test_timeouts_in_no_stall(tmp_path):
    """Of twelve segments the first eight are lost, to a NewReno sender. The first partial acknowledgement, at 0.543 s, sets the timer
    anew, to end a second later; further ones come each 181 ms until it ends. Where spans of 2 s count, timeouts of Reno are named too."""
    losses = [f'a {number}' for number in range(1, 9)]
    text = net(delay=90 * MS, segments=12, lose=losses).replace('64000 0', '64000 0 newreno iw10').replace('droptail 10', 'droptail 20')
    walk = stalls.walk_of(Scenario(text), iter(run_by_program(text)))
    assert [(row.begin, row.end) for row in walk.rows] == [(0, 543_240_000)]
    assert walk.others == [('f', 1_543_240_000)]
    (tmp_path / 'net.txt').write_text(text)
    said = [tool('stalls', str(tmp_path / 'net.txt'), *more, text=True).stdout.splitlines()[-1] for more in ([], ['--longer', '100ms'])]
    assert said == ['1 timeout is in no stall but in a shorter span: f at 1.543240000 s', '8 stalls longer than 100 ms']
    reno, lines = example('two_timeouts_in_a_row')
    assert len(stalls.walk_of(Scenario(reno), iter(lines), 10**11).others) == 2


def test_a_trace_without_its_last_lines():
    """Without `end` a span that is open ends with the last line."""
    text, lines = example('a_lost_acknowledgement')
    rows = rows_of(text, lines[:37], 500 * MS)
    assert [(row.begin, row.end) for row in rows] == [(25_280_000, int(lines[36].split()[1]))]
    assert rows_of(text, lines[:33]) == []


def test_a_loss_that_doubles_the_timer_until_it_is_measured():
    """After a round trip of a segment sent once the timer is 1 s again: the second loss costs 1 s."""
    lose = ['a 1', 'a 2', 'a 3', 'a 4', 'b 9']
    rows = rows_of(net(segments=9, lose=lose), run_by_program(net(segments=9, lose=lose)))
    assert [row.cause for row in rows] == ['a loss was left to the timer', 'an acknowledgement was lost']
    assert 'after 1 s' in rows[1].found


class Files(Folder):
    text, lines = example('a_timer_that_stays_doubled')
    scenario, trace = paths('a_timer_that_stays_doubled')

    def told(self, *words):
        return told('stalls', *words)


class TestCommands(Files):
    TABLE = '''flow            from s              to s          long s  cause
f          0.000000000       1.011080000     1.011080000  a loss was left to the timer
        segment 0 was dropped (lost) and 0 duplicates came: 3 of 3 segments behind it were lost too; the timer ended after 1 s
        debug: goto 1, goto 2, goto 6
f          1.023200000       3.034280000     2.011080000  the timer had doubled
        acknowledgement 4000 was dropped (lost), and the timer had doubled to 2 s
        debug: goto 15, goto 16, goto 17, goto 21
2 stalls longer than 200 ms
'''

    def test_table(self):
        assert self.told(self.scenario, self.trace) == self.TABLE
        assert self.told(self.scenario, '--program', PROGRAM) == self.TABLE

    def test_the_tutorials_lesson(self):
        """The blocks of the lesson are what its commands print."""
        page = read_text('docs', 'TUTORIAL.md')
        lesson = re.search(r'^## \d+\. Why it stood still\n(.*?)^## ', page, re.MULTILINE | re.DOTALL)[1]
        blocks = re.findall(r'^```\n(.*?)^```$', lesson, re.MULTILINE | re.DOTALL)
        of_follow = tool('follow', self.scenario, self.trace, '--flow', 'f', '--byte', '3000', text=True)
        debug = outcome(['debug'], (self.text + '---\nstep 15\nstep 1\n').encode())[2]
        assert blocks[1::2] == [self.TABLE, of_follow.stdout, debug.decode()]
        assert [re.findall(r'bin/[\w-]+|--\w+ \w+|echo [^;]*|tcpsim debug', block) for block in blocks[::2]] == [
            ['bin/tcpsim-stalls'], ['bin/tcpsim-follow', '--flow f', '--byte 3000'],
            ['echo ---', 'echo step 15', 'echo step 1', 'tcpsim debug']]

    def test_longer(self):
        lines = self.told(self.scenario, self.trace, '--longer', '1.5s').splitlines()
        assert (len(lines), lines[-2:]) == (6, ['1 stall longer than 1.5 s', '1 timeout is in no stall but in a shorter span: f at 1.000000000 s'])
        lines = self.told(self.scenario, self.trace, '--longer', '2011080us').splitlines()
        assert lines[1:] == ['0 stalls longer than 2.01108 s', '2 timeouts are in no stall but in shorter spans: f at 1.000000000 s, f at 3.023200000 s']

    def test_csv(self):
        rows = list(csv.reader(io.StringIO(self.told(self.scenario, self.trace, '--csv'))))
        assert rows[0] == ['flow', 'from', 'to', 'ns', 'cause', 'found', 'commands']
        assert rows[2] == ['f', '1023200000', '3034280000', '2011080000', 'the timer had doubled',
                                   'acknowledgement 4000 was dropped (lost), and the timer had doubled to 2 s',
                                   'goto 15; goto 16; goto 17; goto 21']
        assert len(rows) == 3

    def test_csv_has_the_rows_of_the_table(self):
        for name in ('two_flows_share_fairly', 'four_flows_share_codel'):
            rows = csv_rows(self.told(*paths(name), '--csv'))
            assert [(row['flow'], int(row['from']), int(row['to']), int(row['ns']), row['cause'], row['found'])
                              for row in rows] == [row[:6] for row in rows_of(*example(name))]

    def test_one_flow(self):
        name = 'two_flows_share_fairly'
        whole = self.told(*paths(name), '--csv').splitlines()
        named, numbered = (self.told(*paths(name), '--csv', '--flow', flow).splitlines() for flow in ('fb', '1'))
        assert named == [line for line in whole if not line.startswith('fa,')]
        assert named == numbered
        assert 1 < len(named)

    def test_rules(self):
        told = self.told('--causes')
        assert [line for line in told.splitlines() if not line.startswith(' ')] == list(SHOWN)
        assert len(told.splitlines()) == 2 * len(SHOWN)


def table_of_follow(text, lines):
    walk, segment = follow.follow(Scenario(text), iter(lines), 0, 4000)
    cli_follow.write_table(walk, segment, io.StringIO())


class TestRefusals(Files):
    def refused(self, note, *words, status=1, **more):
        """One sentence, with the note in it; nothing on standard output."""
        found, sentence = refusal('stalls', *words, **more)
        assert found == status and note in sentence, (found, sentence)

    def trace_refused(self, note, lines, end='\n'):
        self.refused(note, self.scenario, self.put('changed', '\n'.join(lines) + end))

    def with_line(self, number, old, new):
        """The lines, of one of which a part is another."""
        line = self.lines[number - 1]
        assert old in line
        return self.lines[:number - 1] + [line.replace(old, new)] + self.lines[number:]

    def test_a_trace_that_is_not_the_scenarios(self):
        for note, number, old, new in (
                ('line 3 is no line', 3, 'free 0', 'free 7'), ('line 3 is no line', 3, 'free 0', 'fry 0'),
                ('line 4 is no line', 4, 'data 0 0', 'data 0 1000'), ('line 4 is no line', 4, 'data 0 0', 'data 1 0'),
                ('line 4 is no line', 4, '4 1006040000', '4 1006040001'), ('line 4 is no line', 4, ' 1 1 1 ', ' 0 1 1 '),
                ('line 4 is no line', 4, 'next=1000', 'next=2000'), ('line 4 is no line', 4, 'tx=1:0:1000', 'tx=1:0:2000'),
                ('line 4 is no line', 4, ' tx=1:0:1000', ''), ('line 5 is no line', 5, 'next=1000', 'next=1000 tx=1:0:1000'),
                ('line 2 is no line', 2, '1000000000', '999999999'), ('line 2 is no line', 2, 'una=0', 'una=x'),
                ('line 2 is no line', 2, '1000000000', '10000000000'), ('line 1 is no line', 1, 'lost:0:0', 'full:0:0'),
                ('line 7 is no line', 7, '7 ', '8 '), ('line 6 is no line', 6, 'una=1000', 'una=2000'), ('line 22 is no line', 22, 'end 21', 'end 20')):
            self.trace_refused(note, self.with_line(number, old, new))

    def test_lines_that_are_missing_or_too_many(self):
        self.trace_refused('line 6 is no line', self.lines[:5] + self.lines[6:])
        self.trace_refused('behind `end`', self.lines + ['23 4000000000 0 0 1 rto 0'])
        self.trace_refused('line 7 is no line', self.lines[:6] + [''] + self.lines[6:])
        self.trace_refused('line 9 is cut short', self.lines[:9], end='')
        self.trace_refused('line 9 is cut short', self.lines[:8] + [self.lines[8][:-1]], end='')
        self.trace_refused('is empty', [], end='')

    def test_a_trace_of_another_scenario(self):
        for name in ('one_segment', 'two_flows_share_fairly', 'a_lost_acknowledgement'):
            self.refused('is no line of this scenario', self.scenario, paths(name)[1])

    def test_what_is_no_text(self):
        image = self.put('i', outcome(['asm'], self.text.encode())[2])
        self.refused('is an image', image, self.trace)
        self.refused('is an image', image, '--program', PROGRAM)
        self.refused('line 1 is cut short', self.scenario, self.put('j', b'TCB2 0 0 0 0 0'))
        self.refused('not ASCII', self.scenario, image)

    def test_words_that_are_refused(self):
        self.refused('no flow g; it has f', self.scenario, self.trace, '--flow', 'g', status=2)
        self.refused('no flow 1', self.scenario, self.trace, '--flow', '1', status=2)
        for longer in ('200', 'x', '-1ms', '1e3ms', '0.1ns', ''):
            self.refused('is no time', self.scenario, self.trace, f'--longer={longer}', status=2)
        self.refused('SCENARIO is missing', status=2)
        self.refused('unrecognized arguments', self.scenario, self.trace, '--fast', status=2)

    def test_any_word_that_is_changed(self):
        """No change of one word makes anything but a refusal that names a line, or another row, or another table of tcpsim-follow."""
        for text, lines, read in ((self.text, self.lines, rows_of), (*example('two_timeouts_in_a_row'), table_of_follow)):
            refused = 0
            for number, line in enumerate(lines, 1):
                words = line.split(' ')
                for at, word in enumerate(words):
                    for new in ('x', '-1', '0', '99999999999', word + '0', word + ' ' + word):
                        changed = ' '.join(words[:at] + [new] + words[at + 1:])
                        try:
                            read(text, lines[:number - 1] + [changed] + lines[number:])
                        except Unreadable as wrong:
                            refused += 1
                            assert re.search(r'^line \d+ is no line of this scenario', str(wrong))
            assert refused > 900
