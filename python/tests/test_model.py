"""Worked examples for the model. Traces, sessions, figures, faults of texts and images that were worked out for the program
dev/test_whole.py has, which asks the model too."""
import glob
import io
import random
import re
from collections import namedtuple
from fractions import Fraction

import pytest

from clone import EXAMPLES, TOP, of_model, read, read_text
from tcpsim_model import advice, command_line, image, prompt, reasons, simulate, texts as pages
from tcpsim_model.queues import COUNT_STOPS, Codel, gap
from tcpsim_model.receiver import Receiver
from tcpsim_model.scenario import Refused
from tcpsim_model.sender import Sender, after_sample, initial_window
from tcpsim_model.text import assemble, disassemble
from whole import images, texts

ONE_SEGMENT = ''.join(f'{line}\n' for line in texts.LINES)
ONE_SEGMENT_TRACE = read_text('examples', 'one_segment.trace')
ONE_SEGMENT_IMAGE, OLD_IMAGE = images.FIRST_IMAGE, images.IN_VERSION_1
CODEL = (ONE_SEGMENT.replace('sim 1000000000', 'sim 2080001').replace('1000 1 0', '1000 4 0')
         .replace('link a s r 8000000 1000000 droptail 10', 'link a s r 8000000 1000000 codel 10 1 1 1'))
CODEL_DUMP = '''at 1
node 0 sender 0 una=0 nxt=4000 high=4000 cwnd=4000 ssthresh=64000 dups=0 lt=0 fr=0 timing=1000@0 srtt=- rttvar=0 rto=1000000000 resent=0
node 1 receiver 0 next=0 held=-
link 0 offered=4 sent=1 queue=0:d:1000@0,0:d:2000@0,0:d:3000@0 first=- next=0 count=0 last=0 drop=0
link 1 offered=0 sent=0 queue=-
event 1040000 0 0 3 free 0
event 2040000 1 1 1 data 0 0
event 1000000000 0 0 1 rto 0
'''
EQUAL_TIMES = read_text('examples', 'equal_times.txt')


def program(data, *words):
    """Status, output and note."""
    status, note, output = of_model(words, data.encode() if isinstance(data, str) else data)
    return status, output, note.decode().removesuffix('\n')


def with_variant(words):
    """The first scenario with these words at its flow's end."""
    return ONE_SEGMENT.replace(' 64000 0\n', f' 64000 0 {words}\n')


VARIANTS = 'reno iw3', 'newreno iw3', 'reno iw10', 'newreno iw10'


def test_what_a_code_means_is_what_the_page_says():
    rows = [line for page in ('FORMATS.md', 'COMMANDS.md') for line in read_text('docs', page).splitlines() if line.startswith('|')]
    for code, told in reasons.MEANINGS.items():
        assert any(re.match(rf'\| `?(refused )?{code}`? \| {re.escape(told)}', row) for row in rows), code


def test_what_is_meant_by_a_word():
    """The number is what exact arithmetic makes of digits, fraction and unit, where that is whole and in range."""
    pick = random.Random(1)
    powers = {'nanoseconds': {'': 0, 'ns': 0, 'us': 3, '\u00b5s': 3, 'ms': 6, 's': 9, 'e4': 4}, 'bits per second': {'': 0, 'bit': 0, 'E+05': 5, 'kbit': 3, 'Mbps': 6, 'G': 9, 'tb/s': 12}}
    found = set()
    for _ in range(3000):
        counted = pick.choice(list(powers))
        unit = pick.choice(list(powers[counted]))
        digits, fraction = (str(pick.randrange(10**pick.randint(1, 14))) for _ in range(2))
        word = digits + pick.choice(('', '.' + fraction, '.' + '0' * pick.randint(0, 9) + fraction[:2]))
        value = Fraction(word.rstrip('.')) * 10**powers[counted][unit]
        right = int(value) if value.denominator == 1 and 1 <= value <= 10**12 and int(word.replace('.', '')) < 2**64 else None
        assert advice.meant((word + unit).encode(), counted, 1, 10**12) == right, word + unit
        found.add(right is None)
    assert found == {False, True}
    assert MISTAKEN_MEANT == [word for word in MISTAKEN_MEANT if advice.meant(word, 'nanoseconds', 0, 10**15) is None]


MISTAKEN_MEANT = [b'', b's', b'.5s', b'1e-6', b'1e20', b'1e6s', b'1,000', b'-1', b'+1s', b'10 s', b'1h', b'1..0', b'1.0.0', b'1m', b'1S', b'0x10', b'9' * 5000]


def test_gap():
    assert [gap(10**8, c) for c in range(1, 7)] == [100000000, 70710678, 57735026, 50000000, 44721359, 40824829]
    assert [gap(1, 2), gap(10**10, 2)] == [0, 7071067811]


def test_gap_is_the_greatest():
    pick = random.Random(1)
    for _ in range(5000):
        interval, count = pick.randint(1, 10**pick.randint(1, 10)), pick.randint(1, 10**pick.randint(1, 9))
        d = gap(interval, count)
        assert d * d * count <= interval * interval < (d + 1) ** 2 * count


def test_initial_window():
    assert [initial_window(m) for m in (1095, 1096, 2190, 2191)] == [4380, 3288, 6570, 4382]
    assert [initial_window(m, True) for m in (1, 1000, 1460, 1461, 7300, 7301, 9000)] == \
        [10, 10000, 14600, 14600, 14600, 14602, 18000]


def test_round_trip_samples():
    first = after_sample(None, 0, 400000000)
    assert first[2] == 1200000000
    assert after_sample(*first[:2], 400000000)[1:] == (150000000, 1000000000)
    assert after_sample(None, 0, 200000000)[2] == 1000000000


class TestSenderAlone:
    def setup_method(self):
        self.sender = s = Sender(1000, 10**9, 64000)
        s.nxt = s.high = s.cwnd = 10000
        s.deadline = 10**9

    def test_fast_retransmit_and_recovery(self):
        s = self.sender
        assert [s.on_ack(0, 5) for _ in range(2)] == [[10000], [11000]]
        assert (s.on_ack(0, 5), s.ssthresh, s.cwnd, s.recovery) == ([0], 5000, 8000, True)
        assert (s.on_ack(0, 5), s.cwnd) == ([], 9000)
        assert (s.on_ack(0, 5), s.cwnd) == ([], 10000)
        assert (s.on_ack(12000, 5), s.cwnd, s.recovery) == ([12000, 13000, 14000, 15000, 16000], 5000, False)

    def test_two_timeouts(self):
        s = self.sender
        for rto in (2, 4):
            assert s.on_rto(10**9) == [0]
            assert (s.ssthresh, s.cwnd, s.rto, s.nxt, s.deadline) == (5000, 1000, rto * 10**9, 1000, (rto + 1) * 10**9)

    def test_congestion_avoidance(self):
        for cwnd, wider in ((10000, 10100), (1000001, 1000002)):
            s = Sender(1000, 10**9, 2**30)
            s.ssthresh, s.nxt, s.high, s.cwnd = 2000, 10000, 10000, cwnd
            s.on_ack(1000, 5)
            assert s.cwnd == wider


class TestNewRenoAlone:
    """Ten segments out; byte 0 is lost, and byte 6000."""

    def setup_method(self):
        self.sender = s = Sender(1000, 10**9, 64000, newreno=True)
        s.nxt = s.high = s.cwnd = 10000
        s.deadline = 10**9

    def recovering(self):
        """After five duplicates of 0 and the partial acknowledgement 6000 at 7."""
        for _ in range(5):
            self.sender.on_ack(0, 5)
        return self.sender.on_ack(6000, 7)

    def test_a_partial_acknowledgement_sends_the_next_hole(self):
        s = self.sender
        assert [s.on_ack(0, 5) for _ in range(5)] == [[10000], [11000], [0], [], []]
        assert (s.ssthresh, s.cwnd, s.recover, s.dups) == (5000, 10000, 12000, 5)
        assert s.on_ack(6000, 7) == [6000]
        assert (s.una, s.nxt, s.cwnd, s.deadline, s.partial, s.recovery, s.dups) == \
            (6000, 12000, 5000, 7 + 10**9, True, True, 5)
        assert (s.on_ack(6000, 8), s.cwnd) == ([], 6000)
        assert (s.on_ack(6000, 9), s.cwnd) == ([12000], 7000)
        assert (s.on_ack(12000, 10), s.cwnd, s.recovery) == ([13000, 14000, 15000, 16000], 5000, False)

    def test_a_later_partial_acknowledgement_leaves_the_timer(self):
        s = self.sender
        self.recovering()
        assert s.on_ack(8000, 9) == [8000]
        assert (s.una, s.cwnd, s.deadline, s.recovery) == (8000, 4000, 7 + 10**9, True)

    def test_the_window_is_a_segment_at_least(self):
        s = self.sender
        s.ssthresh = 2000
        self.recovering()
        s.cwnd = 2000
        assert s.on_ack(11000, 9) == [11000]
        assert (s.cwnd, s.recovery) == (1000, True)

    def test_a_partial_acknowledgement_sends_a_new_segment_where_there_is_room(self):
        s = self.sender
        for _ in range(9):
            s.on_ack(0, 5)
        assert (s.cwnd, s.nxt) == (14000, 14000)
        assert (s.on_ack(1000, 7), s.cwnd, s.recovery) == ([1000, 14000], 14000, True)

    def test_duplicates_behind_recover_start_nothing(self):
        s = self.sender
        self.recovering()
        for _ in range(2):
            s.on_ack(6000, 9)
        s.on_ack(12000, 10)
        assert [(s.on_ack(12000, 11), s.dups) for _ in range(4)] == [([17000], 1), ([18000], 2), ([], 3), ([], 4)]
        assert (s.cwnd, s.recovery, s.recover) == (5000, False, 12000)
        s.on_ack(13000, 12)
        for _ in range(3):
            s.on_ack(13000, 13)
        assert s.recovery

    def test_a_timeout_sets_recover(self):
        s = self.sender
        s.on_rto(10**9)
        assert (s.recover, s.recovery, s.nxt) == (10000, False, 1000)
        s.on_ack(3000, 2 * 10**9)
        assert [s.on_ack(3000, 2 * 10**9) for _ in range(3)] == [[], [], []]
        assert (s.dups, s.recovery, s.cwnd) == (3, False, 2000)

    def test_a_partial_acknowledgement_measures(self):
        s = self.sender
        for _ in range(3):
            s.on_ack(0, 5)
        s.timing, s.rto = (5000, 0), 4 * 10**9
        assert s.on_ack(6000, 10**8) == [6000]
        assert (s.srtt, s.rto, s.deadline, s.timing) == (10**8, 10**9, 10**8 + 10**9, None)

    def test_no_loss_shows_no_difference(self):
        pick = random.Random(4)
        both = [Sender(1000, 200, 30000, newreno) for newreno in (False, True)]
        for s in both:
            s.on_start(0)
        for now in range(1, 400):
            ack = min(both[0].una + 1000 * pick.choice((0, 1, 1, 2)), both[0].nxt)
            if both[0].dups == 2 and ack == both[0].una:
                continue
            one, other = ((s.on_ack(ack, now), s.dump()) for s in both)
            assert one == other
        assert both[0].una == 200000

    def test_facts_in_every_state_of_random_runs(self):
        """What a sender's fields keep, whatever comes."""
        pick, partial, behind = random.Random(5), 0, 0
        for _ in range(300):
            mss = pick.choice((1, 700, 1000, 9000))
            s = Sender(mss, pick.choice((5, 60, 10**9)), mss * pick.choice((1, 4, 20, 10**4)), pick.random() < 0.8,
                       pick.random() < 0.5)
            s.on_start(0)
            for now in range(1, 250):
                was = s.una, s.recovery, s.recover
                if s.una == s.nxt or (s.deadline is not None and pick.random() < 0.03):
                    s.on_rto(now) if s.deadline is not None else s.on_ack(s.una, now)
                else:
                    ack = s.una + mss * pick.choice((0, 0, 0, 0, 1, 1, 2, 5, 30))
                    s.on_ack(min(ack, s.high), now)
                    partial += was[1] and s.recovery and s.una > was[0]
                    behind += s.dups >= 3 and not s.recovery
                self.facts(s)
        assert partial > 500
        assert behind > 200

    def facts(self, s):
        assert s.una <= s.nxt <= s.high <= s.total and s.nxt - s.una <= s.rwnd and s.lt <= s.nxt - s.una
        assert s.mss <= s.cwnd and s.mss <= s.ssthresh
        assert (s.deadline is not None) == (s.una < s.nxt)
        if not s.newreno:
            assert (s.recovery, s.recover, s.partial) == (s.dups >= 3, None, False)
            return
        assert not s.recovery or s.dups >= 3
        assert s.recover is None or s.recover <= s.high
        assert s.nxt == s.high or s.recover == s.high
        assert not s.recovery or (s.una < s.recover and s.nxt == s.high)


def test_delayed_acknowledgements():
    r = Receiver(1000, 500000000)
    assert (r.on_data(0, 7), r.timer) == (None, 500000007)
    assert (r.on_data(2000, 8), r.timer) == (1000, None)
    assert (r.on_data(1000, 9), r.on_data(0, 10)) == (3000, 3000)


def test_against_the_set_of_numbers_received():
    """The rule said over the whole set of numbers received."""
    pick = random.Random(2)
    for _ in range(300):
        delack = pick.choice((0, 50))
        r, seen, waits = Receiver(10, delack), set(), False
        for now in range(40):
            seq = 10 * pick.randint(0, 15)
            old = least_missing(seen)
            wait = seq == old and not any(x > seq for x in seen) and delack > 0 and not waits
            seen.add(seq)
            assert r.on_data(seq, now) == (None if wait else least_missing(seen))
            assert r.timer == (now + delack if wait else None)
            assert r.held == {x for x in seen if x > least_missing(seen)}
            waits = wait
            if waits and pick.random() < 0.3:
                assert r.on_delack() == least_missing(seen)
                waits = False


def least_missing(seen):
    return next(x for x in range(0, 10**6, 10) if x not in seen)


def packets(first, count):
    return [(0, False, n, 1040) for n in range(first, first + count)]


def numbers(taken):
    dropped, given = taken
    return [packet[2] for packet in dropped], None if given is None else given[2]


def test_first_drop_state():
    q = Codel(100, 5000000, 100000000, 1000)
    for packet in packets(0, 3):
        q.offer(packet, 0)
    assert numbers(q.take(10000000)) == ([], 0)
    assert numbers(q.take(110000000)) == ([1], 2)
    assert (q.dropping, q.count, q.drop_next) == (True, 1, 210000000)
    assert (numbers(q.take(120000000)), q.dropping) == (([], None), False)
    q.offer(*packets(3, 1), 120000000)
    assert numbers(q.take(900000000)) == ([], 3)


def test_drop_states_one_after_another():
    q = Codel(100, 5000000, 100000000, 1500)
    for packet in packets(0, 12):
        q.offer(packet, 0)
    for now, dropped, given, count, drop_next, dropping in (
            (10000000, [], 0, 0, 0, False),
            (110000000, [1], 2, 1, 210000000, True),
            (210000000, [3], 4, 2, 280710678, True),
            (400000000, [5, 6, 7], 8, 5, 433167063, True),
            (420000000, [], 9, 5, 433167063, True),
            (425000000, [], 10, 5, 433167063, False),
            (430000000, [], 11, 5, 433167063, False),
            (530000000, [12], 13, 4, 580000000, True)):
        assert numbers(q.take(now)) == (dropped, given)
        assert (q.count, q.drop_next, q.dropping) == (count, drop_next, dropping)
        if now == 425000000:
            for packet in packets(12, 6):
                q.offer(packet, now)


def test_against_the_take_said_over_the_whole_list():
    pick, drops = random.Random(3), 0
    for _ in range(400):
        q = Codel(pick.choice((5, 30)), pick.choice((1, 40)), pick.choice((1, 10, 100)), pick.choice((1, 50)))
        q.count = pick.choice((0, COUNT_STOPS - 2)) if pick.random() < 0.1 else 0
        now = 0
        for n in range(150):
            now += pick.choice((0, 1, 3, 20, 300)) if pick.random() < 0.3 else 1
            if pick.random() < 0.6:
                q.offer((0, pick.random() < 0.1, n, pick.choice((40, 41))), now)
            else:
                wanted = taken_whole(q, now)
                dropped, given = q.take(now)
                drops += len(dropped)
                assert wanted == (list(dropped), given, list(q.entries), state(q))
                assert q.bytes == sum(packet[3] for packet, _ in q.entries)
    assert drops > 2000


State = namedtuple('State', 'first_above drop_next count lastcount dropping')


def state(q):
    return State(q.first_above, q.drop_next, q.count, q.lastcount, q.dropping)


def judgements(q, now):
    """Of each waiting packet in turn, and once past the list: first_above after it, and whether it
    may be dropped."""
    first, waiting = q.first_above, list(q.entries)
    for j, (_, entry) in enumerate(waiting):
        left = sum(packet[3] for packet, _ in waiting[j + 1:])
        if now - entry < q.target or left <= q.maxpacket:
            first = None
            yield first, False
        elif first is None:
            first = now + q.interval
            yield first, False
        else:
            yield first, now >= first
    while True:
        yield None, False


def taken_whole(q, now):
    """A take said at once: k is how many are dropped."""
    s, judged, waiting = state(q), judgements(q, now), list(q.entries)
    if s.dropping:
        k, due, before = 0, s.drop_next, s.drop_next
        first, ok = next(judged)
        while ok and now >= due:
            k += 1
            before, due = due, due + gap(q.interval, min(s.count + k, COUNT_STOPS))
            first, ok = next(judged)
        after = State(first, due if ok else before, min(s.count + k, COUNT_STOPS), s.lastcount, ok)
    else:
        first, ok = next(judged)
        k = int(ok)
        after = s._replace(first_above=first)
        if ok:
            delta = s.count - s.lastcount
            count = delta if delta > 1 and now - s.drop_next < 16 * q.interval else 1
            after = State(next(judged)[0], now + gap(q.interval, count), count, count, True)
    given = waiting[k][0] if k < len(waiting) else None
    return [packet for packet, _ in waiting[:k]], given, waiting[k + 1:], after


@pytest.mark.parametrize('groups', ['0', '0,64', '0,01', '0,', '0,1,2', ''])
def test_groups_that_are_none(groups):
    assert program(ONE_SEGMENT, 'run', '--groups=' + groups)[:2] == (2, b'')


def test_stored_traces():
    """The networks in data/, and those in examples/ that have a trace beside them."""
    for path in sorted([*glob.glob(f'{TOP}/python/tests/data/*.trace'), *glob.glob(f'{EXAMPLES}/*.trace')]):
        assert program(read(path.replace('.trace', '.txt')), 'run') == (0, read(path), ''), path


class TestTextsAndImages:
    def test_there_and_back(self):
        for text in (ONE_SEGMENT, EQUAL_TIMES, CODEL + 'lose b 3\nlose a 1\nlose b 7\n', *map(with_variant, VARIANTS)):
            scenario = assemble(text.encode())
            assert assemble(disassemble(scenario)) == image.load(image.save(scenario)) == scenario
            if 'newreno' not in text and 'iw10' not in text:
                assert image.load(image.save(scenario, 1)) == scenario

    def test_cut_and_stretched(self):
        for data in (OLD_IMAGE, ONE_SEGMENT_IMAGE):
            for size in range(len(data)):
                cut = data[:size]
                note = 'refused ' + ('E10 line 0' if size == 0 else 'E2 line 1' if size < 3 else 'L1')
                assert program(cut, 'run') == (1, b'', note)
                with pytest.raises(Refused, match='L1'):
                    image.load(cut)
            assert program(data + b'\0', 'run') == (1, b'', 'refused L4')


class TestSessions:
    def session(self, text, *commands):
        status, out, note = program(text + '---\n' + '\n'.join(commands), 'debug')
        assert (status, note) == (0, '')
        return out

    def test_refused_commands(self):
        for command, code in (
                ('steps 1', 'B1'), ('break', 'B2'), ('break bus 1', 'B1'), ('break bus', 'B1'), ('break node', 'B2'),
                ('break drop 1', 'B2'), ('step', 'B2'), ('step 1 2', 'B2'), ('state 1', 'B2'), ('step 01', 'B3'),
                ('step 1000000000000001', 'B3'), ('break node 2', 'B3'), ('break flow 1', 'B3'),
                ('break kind tx', 'B3'), ('back -1', 'B3'), ('step\t1', 'B1'), ('# step 1', 'B1')):
            assert self.session(ONE_SEGMENT, command).decode() == f'refused {code}\n', command
        assert self.session(ONE_SEGMENT, '', '   ', 'break drop', ' break  node 1 ', 'break drop', 'clear',
                                      'break drop').decode() == 'break 1\nbreak 2\nbreak 2\nclear\nbreak 1\n'

    def test_too_many_breakpoints(self):
        nodes = ''.join(f'node x{n} router\n' for n in range(64))
        links = ''.join(f'link y{n} x{n} r 1000 1 droptail 1\n' for n in range(64))
        out = self.session(ONE_SEGMENT + nodes + links, *(f'break node {n}' for n in range(65)), 'break node 63')
        assert out.decode().splitlines()[-3:] == ['break 64', 'refused B4', 'break 64']

    def test_no_commands(self):
        assert program(ONE_SEGMENT, 'debug') == (0, b'', '')
        assert program(ONE_SEGMENT + '---', 'debug') == (0, b'', '')
        assert program('---\nstate\n', 'debug') == (1, b'', 'refused E10 line 0')
        assert program(ONE_SEGMENT_IMAGE, 'debug')[0] == 1


# What `refused B1` means.
NO_NAME = 'B1: no command has this name, or no sort of breakpoint'


class TestPrompts:
    def typed(self, text, *lines):
        """What is written and what is noted, without the prompts."""
        out, notes, keys = [], [], io.BytesIO(''.join(line + '\n' for line in lines).encode())
        status, note = command_line.main(('debug', 'FILE'), keys, out.append, notes.append,
                                         lambda _: text.encode())
        assert (status, note) == (0, '')
        return b''.join(out).decode(), b''.join(notes).decode().replace(prompt.PROMPT, '').split()

    def refuses(self, code, *lines):
        for line in lines:
            out, notes = self.typed(ONE_SEGMENT, line)
            assert (out, notes[:2]) == ('', ['refused', code]), line

    def where(self, *lines):
        """The positions that the moves come to, and those of the dumps."""
        return [int(line.split()[1]) for line in self.typed(ONE_SEGMENT, *lines)[0].splitlines() if line.startswith('at ')]

    def test_names_cut_short(self):
        assert self.where('s', 'st', 'ste', 'b', 'ba', 'sta', 'r', 'u 0', 'state', 'back 9') == \
            [1, 2, 3, 2, 1, 1, 5, 5, 5, 0]
        assert self.typed(ONE_SEGMENT, 'br drop', 'brea drop', 'c', 'break node 1')[0] == \
            'break 1: drop\nbreak 1: drop\nclear\nbreak 1: node r\n'
        self.refuses('B1', 'x', 'steps', 'stepp 1', 'S', 'y', 'break no 1', 'br k rto', 'ste\tp', '#')

    def test_the_nearest_name(self):
        for line, word, name in (('stpe', 'stpe', 'step'), ('bak 1', 'bak', 'back'), ('sate', 'sate', 'state'), ('  exit', 'exit', 'quit'),
                                 ('x', 'x', 'run'), ('bt', 'bt', 'step'), ('ste\tp', 'ste?p', 'step'), ('x' * 32, 'x' * 32, 'step')):
            told = f'refused B1 {NO_NAME} tcpsim: no command {word}; the nearest is {name}'.split()
            assert self.typed(ONE_SEGMENT, line) == ('', told), line
        assert self.typed(ONE_SEGMENT, 'x' * 33) == ('', f'refused B1 {NO_NAME}'.split())

    def test_words(self):
        self.refuses('B2', 'step 1 2', 'back 1 1', 'run 1', 'until', 'until 1 s', 'clear 1', 'break', 'br drop link',
                     'quit now', 'q 1', 'x' * 65_537, ' ' * 65_537)
        self.refuses('B3', 'step 01', 'back -1', 'step 1000000000000001', 'break node 2', 'br kind tx')
        assert self.where('step 1000000000000000') == [5]

    def test_times(self):
        for time, position in (('2040000', 2), ('2040001', 3), ('2040us', 2), ('2.04ms', 2), ('0.00204s', 2), ('2.040001ms', 3),
                               ('2040.001us', 3), ('2040001ns', 3), ('0s', 0), ('0.000000001s', 1), ('1000000s', 5),
                               ('1000000000000us', 5), ('1000000000000000', 5)):
            assert self.where(f'until {time}') == [position], time
        self.refuses('B3', 'u 1.5', 'u 1.5ns', 'u 1.0ns', 'u 1.0000us', 'u 1.s', 'u .5s', 'u s', 'u 01s', 'u 00', 'u 1S', 'u 1e3',
                     'u 1000000.000000001s', 'u 1000000000000001', 'u ' + '9' * 5000 + 's')

    def test_an_empty_line(self):
        assert self.where('', 's', '', 'step 2', ' ', 'b', 'state', 'x', 'run 1', 'clear', '', '', 'u 1', '', 'r', '') == \
            [1, 2, 4, 5, 4, 4, 3, 2, 2, 2, 5, 5]
        assert self.where('state', 'br drop', '', 'back 01', '') == [0]

    def test_the_end(self):
        for line in ('quit', 'q', ' qu ', 'qui'):
            assert self.where('s', line, 's') == [1]
        assert self.typed(ONE_SEGMENT) == ('', [])

    def test_breakpoints_by_number(self):
        assert self.typed(ONE_SEGMENT, 'breaks', 'br node 1', 'break flow 0', 'break kind ack', 'break drop', 'br flow 0',
                                    'd 2', 'breaks', 'd 3', 'del 1', 'breaks', 'br node 1', 'clear', 'breaks')[0] == ('no breakpoint\nbreak 1: node r\nbreak 2: flow f\nbreak 3: kind ack\nbreak 4: drop\nbreak 2: flow f\n'
                         'deleted 2: flow f\nbreak 1: node r\nbreak 2: kind ack\nbreak 3: drop\ndeleted 3: drop\n'
                         'deleted 1: node r\nbreak 1: kind ack\nbreak 2: node r\nclear\nno breakpoint\n')
        self.refuses('B2', 'breaks 1', 'd', 'd 1 1', 'help s t')
        self.refuses('B3', 'd 01', 'd -1', 'd node')
        self.refuses('B5', 'd 0', 'd 1', 'd 18446744073709551616', 'd ' + '9' * 5000)
        self.refuses('B1', 'help x', 'help stepp', 'help x y')

    def test_moves_answer_the_lines_that_they_passed(self):
        lines = ONE_SEGMENT_TRACE.splitlines(keepends=True)
        given = ()
        for line, answer in (
                ('s', lines[0] + 'of node s, flow f\nat 1 of the run, time 0 ns\n'),
                ('s 2', ''.join(lines[1:3]) + 'of node r, flow f\nat 3 of the run, time 2040000 ns\n'),
                ('s 0', 'at 3 of the run, time 2040000 ns\n'),
                ('b 2', lines[2] + lines[1] + 'at 1 of the run, time 0 ns\n'),
                ('b', lines[0] + 'at 0 of the run, time 0 ns, the beginning\n'), ('', 'at 0 of the run, time 0 ns, the beginning\n'), ('l', ''),
                ('u 2.04ms', ''.join(lines[:2]) + 'of node s, link a\nat 2 of the run, time 1040000 ns\n'),
                ('br node 1', 'break 1: node r\n'), ('br kind free', 'break 2: kind free\n'),
                ('r', lines[2] + 'of node r, flow f\nat 3 of the run, time 2040000 ns\nbreak 1: node r\n'),
                ('s', lines[3] + 'of node r, link b\nat 4 of the run, time 2080000 ns\nbreak 1: node r\n'),
                ('s 0', 'at 4 of the run, time 2080000 ns\n'), ('d 1', 'deleted 1: node r\n'),
                ('b', lines[3] + 'at 3 of the run, time 2040000 ns\n'),
                ('u 1s', ''.join(lines[3:5]) + 'of node s, flow f\nat 5 of the run, time 3080000 ns, the end\n'),
                ('r', 'at 5 of the run, time 3080000 ns, the end\n'), ('l 2', ''.join(lines[3:5])), ('l', ''.join(lines[:5])),
                ('l 0', ''), ('b 2', lines[4] + lines[3] + 'at 3 of the run, time 2040000 ns\n'),
                ('s', lines[3] + 'of node r, link b\nat 4 of the run, time 2080000 ns\nbreak 1: kind free\n')):
            before, given = self.typed(ONE_SEGMENT, *given)[0], (*given, line)
            assert self.typed(ONE_SEGMENT, *given)[0] == before + answer, line
        self.refuses('B2', 'lines 1 1')
        self.refuses('B3', 'l 1001', 'lines -1')

    def test_lines(self):
        text = read_text('examples', 'two_timeouts_in_a_row.txt')
        lines = list(simulate.trace(assemble(text.encode())))
        assert self.typed(text, 's 20', 'l 4')[0].splitlines(True)[-4:] == lines[16:20]
        assert self.typed(text, 's 20', 'l')[0].splitlines(True)[-10:] == lines[10:20]

    def test_parts_of_a_state(self):
        dump = self.typed(CODEL, 's', 'state')[0].splitlines(True)[3:]
        assert ''.join(dump) == CODEL_DUMP
        for line, part in (('state node 0', dump[1:2]), ('sta node 1', dump[2:3]), ('state link 0', dump[3:4]), ('state link 1', dump[4:5]),
                           ('state flow 0', [line for line in dump[1:] if 'free' not in line and 'link 1' not in line])):
            assert self.typed(CODEL, 's', line)[0].splitlines(True)[3:] == part
        for flow in ('0', '1'):
            dump, part = (self.typed(EQUAL_TIMES, 's 3', line)[0].splitlines()[5:] for line in ('state', f'state flow {flow}'))
            assert [line for line in part if line.startswith('event')] == \
                [line for line in dump if line.startswith('event') and ' free ' not in line and line.split()[6] == flow]
            assert [line for line in part if line.startswith('node')] == \
                [line for line in dump if line.startswith('node') and line.split()[3:4] == [flow]]
        self.refuses('B1', 'state 1', 'state kind rto', 'state no 0', 'state x y z')
        self.refuses('B2', 'state node', 'state link 0 0')
        self.refuses('B3', 'state node 2', 'state link 2', 'state flow 1', 'state flow 00', 'state node f')

    def test_reverse(self):
        lines = ONE_SEGMENT_TRACE.splitlines(keepends=True)
        start, given = 'at 0 of the run, time 0 ns, the beginning\n', ()
        for line, answer in (
                ('re', start), ('u 1s', ''.join(lines[:5]) + 'of node s, flow f\nat 5 of the run, time 3080000 ns, the end\n'),
                ('reverse', ''.join(lines[4::-1]) + start), ('br kind free', 'break 1: kind free\n'), ('br node 1', 'break 2: node r\n'),
                ('u 1s', ''.join(lines[:5]) + 'of node s, flow f\nat 5 of the run, time 3080000 ns, the end\n'),
                ('rev', lines[4] + lines[3] + 'of node r, link b\nat 4 of the run, time 2080000 ns\nbreak 1: kind free\n'),
                ('', lines[3] + lines[2] + 'of node r, flow f\nat 3 of the run, time 2040000 ns\nbreak 2: node r\n'),
                ('', lines[2] + lines[1] + 'of node s, link a\nat 2 of the run, time 1040000 ns\nbreak 1: kind free\n'),
                ('', lines[1] + lines[0] + start), ('', start), ('c', 'clear\n')):
            before, given = self.typed(ONE_SEGMENT, *given)[0], (*given, line)
            assert self.typed(ONE_SEGMENT, *given)[0] == before + answer, line
        self.refuses('B2', 'reverse 1', 're drop')

    def example(self, name, *lines):
        return self.typed(read_text('examples', name), *lines)[0].splitlines()

    def test_breakpoints_of_several_conditions(self):
        answers = self.typed(ONE_SEGMENT, 'br kind free node 1', 'break node 1 kind free', 'br drop link 1 byte 7 flow 0', 'r')[0]
        assert answers.splitlines()[:3] == ['break 1: node r kind free', 'break 1: node r kind free',
                                                    'break 2: flow f drop link b byte 7']
        # One condition alone is met before: node 0 by events 1 and 2, a free link by event 2.
        assert answers.splitlines()[-2:] == ['at 4 of the run, time 2080000 ns', 'break 1: node r kind free']
        # A link is met where a packet is sent over it or is dropped there; a byte is the first of a segment or of what is awaited.
        for words, positions in (('link 0', (1, 5)), ('link 1', (3, 5)), ('byte 0', (3, 5)), ('byte 1000', (5, 5)), ('byte 1', (5, 5))):
            found = self.typed(ONE_SEGMENT, f'break {words}', 'r', 'r')[0].splitlines()
            assert [int(line.split()[1]) for line in found if line.startswith('at ')] == [*positions], words
        found = self.example('two_timeouts_in_a_row.txt', 'break link 0 drop kind rto', 'r')
        assert found[-2:] == ['at 26 of the run, time 1006200000 ns', 'break 1: kind rto drop link a']
        # A byte that is dropped: at the sender's own link, where no packet of it arrives, and by CoDel as the link becomes free.
        for name, words, positions in (('two_timeouts_in_a_row.txt', 'byte 4000 drop', (6, 26, 51)),
                                       ('two_timeouts_in_a_row.txt', 'drop byte 2000', (51,)),
                                       ('codel_enters_drop_state.txt', 'byte 14000 drop', (54,))):
            found = self.example(name, f'break {words}', *['r'] * len(positions))
            assert [int(line.split()[1]) for line in found if line.startswith('at ')] == [*positions], words
        self.refuses('B1', 'break drop 1', 'break node 0 no 1', 'break node 0 stall')
        self.refuses('B2', 'break', 'break node', 'break node 0 flow', 'break drop drop', 'break node 0 node 1')
        self.refuses('B3', 'break link 2', 'break drop node 2', 'break byte 9000000000001')

    def test_stalls(self):
        # All segments from 4000 on were lost but those that brought two duplicates, and the next is lost again: it is one stall.
        for words, told in (('stall', 'break 1: stall'), ('stall 0', 'break 1: stall f')):
            found = self.example('two_timeouts_in_a_row.txt', f'break {words}', 'r', 'r', 're')
            places = [line for line in found if line.startswith(('at ', 'break '))]
            assert places == [told, 'at 25 of the run, time 9280000 ns', told, 'at 51 of the run, time 3017520000 ns, the end',
                              'at 25 of the run, time 9280000 ns', told]
        self.refuses('B2', 'break stall 0 0')
        self.refuses('B3', 'break stall 1', 'break stall drop')

    def test_why(self):
        for count, lines in (
                (0, ['flow f is not started: it starts at 0 ns', 'alarms: start at 0 ns']),
                (1, ['flow f has sent all 1000 bytes: 0 are acknowledged', 'under way: data 0 to node r at 2040000 ns',
                     'alarms: rto at 1000000000 ns', 'missing at the receiver: byte 0']),
                (3, ['flow f has sent all 1000 bytes: 0 are acknowledged', 'under way: ack 1000 to node s at 3080000 ns',
                     'alarms: rto at 1000000000 ns', 'missing at the sender: an acknowledgement above 0']),
                (5, ['flow f is complete: all 1000 bytes are acknowledged'])):
            assert self.typed(ONE_SEGMENT, f's {count}', 'why 0')[0].splitlines()[-len(lines):] == lines, count
        for count, lines in (
                (25, ['flow f is stalled: 2 duplicate acknowledgements, and its retransmission timer is due at 1006200000 ns',
                      'alarms: rto at 1006200000 ns', 'missing at the receiver: byte 4000, data 4000 lost by name at link a in line 6']),
                (31, ['flow f sends no more: 2000 bytes in flight, a segment of 1000, cwnd 2000',
                      'waits: data 6000 at place 1 of link a', 'under way: data 5000 to node r at 3011320000 ns',
                      'alarms: rto at 7009280000 ns', 'missing at the receiver: byte 5000, data 5000 lost by name at link a in line 6'])):
            assert self.example('two_timeouts_in_a_row.txt', f's {count}', 'w 0')[-len(lines):] == lines, count
        self.refuses('B2', 'why', 'why 0 0')
        self.refuses('B3', 'why 1', 'why a')

    def test_help(self):
        out, notes = self.typed(ONE_SEGMENT, 'help')
        *rows, names, again = out.splitlines()
        assert (rows[0], names, again, notes) == (
            'step [K]     run the next K events (1)', '(nodes N, links L and flows F go by their names, or by numbers from 0: help numbers)',
            '(an empty line does the last move again)', [])
        assert [row.split()[0] for row in rows] == ['step', 'back', 'run', 'reverse', 'until', 'goto', 'where', 'state', 'break', 'breaks', 'delete', 'clear',
                                                    'lines', 'display', 'undisplay', 'why', 'stalls', 'names', 'help', 'quit']
        assert {row[12] for row in rows} == {' '} and all(row[13] != ' ' for row in rows)
        for word in ('u', 'unt', 'until'):
            assert self.typed(ONE_SEGMENT, f'help {word}')[0].splitlines() == ['until T      run all events before the moment T, as 1.5s, 20ms or 10000ns',
                              'T is a number of nanoseconds, or has a unit: ns, us, ms or s. It only goes forwards, and else says so.', 'until 20ms']
        assert self.typed(ONE_SEGMENT, 'h breaks')[0].startswith('breaks ')
        # Each example is a line that is not refused, but for what is not there; a wide terminal holds each page.
        for name, (_, _, _, example) in pages.HELP.items():
            *lines, last = self.typed(ONE_SEGMENT, f'help {name.decode()}')[0].splitlines()
            assert last == example and example.encode().startswith(name) and max(map(len, lines)) <= 125
            assert self.typed(ONE_SEGMENT, example)[1][:2] in ([], ['refused', 'B5'])

    def test_help_on_topics(self):
        for words, topic in (('n num numbers', b'numbers'), ('t tra trace', b'trace'), ('k ki kinds', b'kinds'), ('stal stall', b'stall'),
                             ('v val values', b'values')):
            for word in words.split():
                assert self.typed(ONE_SEGMENT, f'help {word}') == (pages.TOPICS[topic], [])
        # A command comes first.
        for word, name in (('s', 'step'), ('st', 'step'), ('sta', 'state'), ('l', 'lines')):
            assert self.typed(ONE_SEGMENT, f'help {word}')[0].startswith(f'{name} ')
        self.refuses('B1', 'help stallss', 'help numbers1', 'help traces 1')
        self.refuses('B2', 'help kinds rto', 'h k k')
        # The last line of each can be typed; a wide terminal holds it.
        for text in pages.TOPICS.values():
            lines = text.splitlines()
            assert self.typed(ONE_SEGMENT, lines[-1])[1] == []
            assert max(map(len, lines)) <= 125
        # The kinds are those that a breakpoint takes.
        for line in pages.TOPICS[b'kinds'].splitlines()[1:-1]:
            assert self.typed(ONE_SEGMENT, f'break kind {line.split()[0]}')[1] == []
