"""Tests of tcpsim-diff and of `run.diff`: drawn pairs of scenarios beside an oracle, which keeps both traces whole and compares their
moments as sets; sentences by hand; statuses and refusals. Files that fail are in test_ends.py.
"""
import collections
import random
import re

import pytest

import tcpsim
from clone import PROGRAM, csv_rows, paths, ran, read_text, refusal, tool
from tcpsim.cli import net
from tcpsim.scenario.text import Scenario
from tcpsim.sweeps.pattern import Pattern, settings_of
from tcpsim.traces.reader import Reader

PAIRS = 40


def told(*words, status=1):
    """What the tool writes; its status is that."""
    done = tool('diff', *words, '--program', PROGRAM)
    assert (done.returncode, done.stderr) == (status, b''), (done.returncode, done.stderr)
    return done.stdout.decode()


def refused(*words, **more):
    """The sentence with which it is refused, by the status 2."""
    status, sentence = refusal('diff', *words, **more)
    assert status == 2
    return sentence


# ---- drawn pairs beside the oracle

def changed(text, *words):
    """A scenario's text with a change, as --set says it."""
    pattern = Pattern(text)
    settings = settings_of(words, pattern)
    return pattern.point(settings, [each.values[0] for each in settings])


def shuffled(text, draw):
    """A text whose nodes, links and flows stand in another order: their numbers are others."""
    lines = text.split('\n')
    for sort in draw.sample(['node ', 'link ', 'flow '], draw.randint(1, 3)):
        places = [at for at, line in enumerate(lines) if line.startswith(sort)]
        for at, line in zip(places, draw.sample([lines[at] for at in places], len(places))):
            lines[at] = line
    return '\n'.join(lines)


def drawn_pair(seed):
    """Two texts: a net, and the same with a change, with other numbers, or with both."""
    draw = random.Random(seed)
    words = ['dumbbell', '--flows', str(draw.randint(1, 3)), '--rate', draw.choice(['1M', '2M', '5M']), '--rtt', draw.choice(['20ms', '60ms']),
             '--queue', draw.choice(['droptail:5', 'droptail:20', 'codel:5ms:100ms', 'codel:1ms:20ms:8']), '--end', draw.choice(['1s', '3s']),
             '--segments', draw.choice(['20', '200', '5000'])]
    text = net.scenario(words)
    changes = ['pq.queue=droptail:6', 'pq.queue=droptail:21', 'pq.queue=codel:5ms:90ms', 'pq.rate=2500k', 'pq.delay=11ms', 'f0.rwnd=20k',
               'f0.delack=40ms', 'f0.start=300ms', 'f0.iw=10', 'f0.variant=newreno', 'f0.mss=1000', 'pq.lose=12', 'pq.lose=40+41', 'qp.lose=7',
               'f0.segments=150', 'end=900ms', 'qp.queue=droptail:2', 'qp.rate=100k']
    other = changed(text, draw.choice(changes)) if draw.random() < .9 else text
    return text, shuffled(other, draw) if draw.random() < .4 else other


def named_lines(scenario, lines):
    """Of each event its moment, what it is by names, and all that came of it by names."""
    for words in (line.split(' ') for line in lines[:-1]):
        what = [scenario.nodes[int(words[2])].name, words[5]]
        if words[5] == 'free':
            what.append(scenario.links[int(words[6])].name)
        else:
            what.append(scenario.flows[int(words[6])].name)
        rest = words[7:]
        if words[5] in ('data', 'ack'):
            what.append(rest.pop(0))
        came = []
        for word in rest:
            act, *whose = word.split(':')
            if whose:
                came.append((re.sub(r'(?<=tx=)\d+', lambda found: scenario.links[int(found[0])].name, act),
                             scenario.flows[int(whose[0])].name, whose[1]))
            else:
                came.append(word)
        yield int(words[1]), tuple(what), tuple(came)


class Oracle:
    """Both traces, whole. `time` is the first moment at which they are not the same, `ours` and `theirs` its events that are in one
    alone, `before` how many there are before it."""

    def __init__(self, *texts):
        self.scenarios = list(map(Scenario, texts))
        self.lines = [ran(PROGRAM, 'run', input=text.encode()).stdout.decode().splitlines() for text in texts]
        self.events = [list(named_lines(scenario, lines)) for scenario, lines in zip(self.scenarios, self.lines)]
        moments = [collections.defaultdict(collections.Counter) for _ in texts]
        for events, moment in zip(self.events, moments):
            for time, *event in events:
                moment[time][tuple(event)] += 1
        self.time = min((time for time in {**moments[0], **moments[1]} if moments[0][time] != moments[1][time]), default=None)
        if self.time is not None:
            self.ours, self.theirs = moments[0][self.time] - moments[1][self.time], moments[1][self.time] - moments[0][self.time]
        self.before = sum(time < self.time for time, *_ in self.events[0]) if self.time is not None else len(self.events[0])

    def at(self, which, position):
        """The event behind a position of a run."""
        return self.events[which][position][1:]

    def waits(self, which, count, link):
        """How many packets wait at a link behind `count` events."""
        reader = Reader(self.scenarios[which])
        reader.read(self.lines[which][:count])
        return len(next(each for each in reader.links if each.link.name == link).waiting)

    def next_time(self, which, what):
        """When an event comes next behind the moment; None where it does not."""
        return next((time for time, event, _ in self.events[which] if time > self.time and event == what), None)


def seconds(time):
    return f'{time / 10**9:.9f}'.rstrip('0').rstrip('.') + ' s'


def check_sentence(found, oracle):
    """Whether the sentence is of an event at which the traces part, and says of both runs what they have."""
    head, _, words = found.sentence.partition('; ')
    assert head == ('no event is the same' if not found.events else f'the same {found.events:,} event{"s" * (found.events != 1)}')
    assert oracle.before <= found.events < oracle.before + sum((oracle.ours + oracle.theirs).values()) + 20
    only = ' there ' if words.startswith(f'at {seconds(oracle.time)} there ') else ''
    assert words.startswith(f'at {seconds(oracle.time)} ')
    which = 1 if only else 0
    what, came = oracle.at(which, found.positions[which])
    assert (what, came) in (oracle.theirs if only else oracle.ours)
    both = [event for event in (oracle.ours if only else oracle.theirs) if event[0] == what]
    if not both:
        other = oracle.scenarios[1 - which]
        later = oracle.next_time(1 - which, what)
        where = 'here' if only else 'there'
        says = f'the run ends at {seconds(other.end)}' if oracle.time >= other.end else f'at {seconds(later)}' if later else 'not at all'
        assert words.endswith(f', {where} {says}')
        return 'alone'
    others = oracle.at(1, found.positions[1])
    assert others[0] == what and others[1] != came
    states = [[word for word in each if isinstance(word, str)] for each in (came, others[1])]
    if states[0] != states[1]:
        mine, theirs = (' '.join(word for word in each if word not in other) for each, other in (states, states[::-1]))
        assert words.endswith(f': {mine}, there {theirs}')
        return 'state'
    for clause, which, acts in zip(words.split(', there '), (0, 1), (came, others[1])):
        position = found.positions[which]
        if sent := re.search(r'begins to send (?:data|ack) (\d+) of (\w+)$', clause):
            assert any(act[0].startswith('tx=') and act[1:] == (sent[2], sent[1]) for act in acts)
        elif full := re.search(r'\(full: (\d+) of (\d+)\)$', clause):
            link = re.search(r'link (\w+)', words)[1]
            capacity = next(each.capacity for each in oracle.scenarios[which].links if each.name == link)
            assert int(full[1]) == int(full[2]) == capacity == oracle.waits(which, position, link)
        elif place := re.search(r'(?:enters|waits) at place (\d+)', clause):
            assert int(place[1]) == oracle.waits(which, position + 1, re.search(r'link (\w+)', words)[1])
        elif clause.endswith('(lost)') or re.search(r'\(codel: after [\d.]+[um]?s\)$', clause):
            assert any(act[0].startswith('drop=') for act in acts)
        else:
            assert clause == 'it begins to be sent' and any(act[0].startswith('tx=') for act in acts) or clause.endswith('is not sent')
    return 'acts'


def rows_of(text, put, name):
    """The rows of a run's figures, as tcpsim-flows has them."""
    written = tool('flows', put(name, text), '--engine', '--csv', '--program', PROGRAM).stdout.decode()
    return {(row['what'], row['name'], row['figure']): row['value'] for row in csv_rows(written)}


def number(word):
    try:
        return float(word)
    except ValueError:
        return None


@pytest.mark.built
def test_drawn_pairs(put):
    """Where they part is where the oracle says, and all figures that differ are there."""
    kinds = collections.Counter()
    for seed in range(PAIRS):
        here, there = drawn_pair(seed)
        found, oracle = tcpsim.run(here, engine=PROGRAM).diff(tcpsim.run(there, engine=PROGRAM)), Oracle(here, there)
        if oracle.time is None:
            assert (found.sentence, found.positions) == (f'the same {oracle.before:,} events', None)
            kinds['same'] += 1
        else:
            kinds[check_sentence(found, oracle)] += 1
        sizes = [1 if row.relative is None else abs(row.relative) for row in found.figures]
        assert sizes == sorted(sizes, reverse=True)
        if seed % 4:
            continue
        rows = [rows_of(text, put, name) for text, name in ((here, 'a.txt'), (there, 'b.txt'))]
        differ = {key for key in {**rows[0], **rows[1]} if rows[0].get(key, '') != rows[1].get(key, '')}
        close = {row[:3] for row in found.figures if isinstance(row.here or row.there, float)
                 and abs((row.here or 0) - (row.there or 0)) < 2e-6}        # tcpsim-flows has 6 digits of it
        assert differ - {row[:3] for row in found.figures} == set() and {row[:3] for row in found.figures} - differ <= close
        for row in found.figures:
            pair = [number(each.get(row[:3], '')) for each in rows]
            if None not in pair and max(pair) > .1:
                assert row.relative == pytest.approx((pair[1] - pair[0]) / max(map(abs, pair)), abs=1e-4)
    assert all(kinds[kind] > 2 for kind in ('same', 'alone', 'state', 'acts')), kinds


# ---- by hand

def test_a_packet_that_has_no_room_here_and_enters_there():
    text = told(paths('bufferbloat')[0], '--set', 'a.queue=droptail:20')
    first, second, titles, *rows = text.splitlines()
    assert first == ('the same 332 events; at 0.240232 s data 47000 of f enters at place 21 of link a, there it is dropped (full: 20 of 20)')
    assert second == 'debug: goto 332, there goto 332'
    assert titles.split() == ['figure', 'here', 'there', 'difference']
    assert rows[0].split() == ['flow', 'f:', 'timeouts', '0', '2', '+100.0', '%']
    assert any(row.split() == 'flow g: took 3.0120384s 139.2256ms -95.4 %'.split() for row in rows)


def test_two_files_and_both_ways():
    files = paths('bufferbloat')[0], paths('bufferbloat_with_codel')[0]
    for words, says in ((files, 'link a begins to send data 38000 of f, there it is dropped (codel: after 125.9072ms)'),
                        (files[::-1], 'link a drops data 38000 of f (codel: after 125.9072ms), there it begins to be sent')):
        assert told(*words).startswith(f'the same 487 events; at 0.332776 s {says}\n')


@pytest.mark.parametrize('change, says', [
    ('f.iw=10', 'no event is the same; at 0 s flow f starts: nxt=4000 cwnd=4000, there nxt=10000 cwnd=10000'),
    ('a.rate=2M', 'the same 9 events; at 0.0052432 s there link a becomes free, here at 0.0094032 s'),
    ('a.delay=19ms', 'the same 12 events; at 0.0274032 s data 0 of f comes to q, there at 0.0284032 s'),
    ('f.delack=40ms', 'the same 14 events; at 0.0284864 s link rq begins to send ack 1000 of f, there it is not sent'),
    ('end=5s', 'the same 7,369 events; at 5.000296 s link a becomes free, there the run ends at 5 s'),
    ('a.lose=5', 'the same 36 events; at 0.049896 s link a begins to send data 4000 of f, there it is dropped (lost)')])
def test_sentences(change, says):
    assert told(paths('bufferbloat')[0], '--set', change).splitlines()[0] == says


def test_the_same_runs_have_the_status_0():
    path = paths('bufferbloat')[0]
    assert told(path, path, status=0) == 'the same 8,583 events\n'
    assert told(path, '--set', 'a.queue=droptail:900', status=0) == 'the same 8,583 events\n'


def test_an_event_is_the_same_by_its_name_and_not_by_its_number(put):
    """Numbers of nodes, links and flows are others, and the trace has other lines in another order; no event is another."""
    path = paths('four_flows_share_codel')[0]
    for seed in range(5):
        other = put('b.txt', shuffled(read_text(path), random.Random(seed)))
        lines = [ran(PROGRAM, 'run', each).stdout for each in (path, other)]
        assert lines[0] != lines[1]
        assert told(path, other, status=0) == 'the same 5,924 events\n'


def test_figures_alone_differ(put):
    """Where no event is another a longer end can still change what is counted over the span."""
    text = 'sim 2000000000\nnode s sender\nnode r receiver\nlink sr s r 8000000 1000000 droptail 10\nlink rs r s 8000000 1000000 droptail 10\n' \
           'flow f s r 1000 1 0 64000 0\nlose sr 1\nlose sr 2\n'
    done = told(put('a.txt', text), put('b.txt', text.replace('2000000000', '2500000000')))
    assert done.splitlines()[0].startswith('the same ') and '; ' not in done.splitlines()[0]
    assert 'run: span' in done and 'debug:' not in done


def test_what_one_has_alone_is_named(put):
    words = ['dumbbell', '--rate', '1M', '--rtt', '40ms', '--queue', 'droptail:9', '--end', '2s', '--flows']
    one, two = (put(f'{count}.txt', net.scenario([*words, count])) for count in '12')
    text = told(one, two)
    assert re.search(r'^only there: node s1, node r1, link s1p, .*, flow f1$', text, re.M)
    assert not re.search(r'^(flow|link) \w*1', text, re.M)
    assert re.search(r'^only here: node s1, node r1, .*, flow f1$', told(two, one), re.M)


def test_images_and_standard_input(put):
    path = paths('one_segment')[0]
    image = put('a.tcb', ran(PROGRAM, 'asm', path).stdout)
    names = {name: f'{name[0]}{at}' for sort in ('node', 'link', 'flow')
             for at, name in enumerate(re.findall(rf'^{sort} (\w+)', read_text(path), re.M)) for name in [name]}
    text = ran(PROGRAM, 'dis', image).stdout
    assert names and told(image, put('b.txt', text), status=0) == 'the same 5 events\n'
    done = tool('diff', image, '-', '--program', PROGRAM, input=text)
    assert (done.returncode, done.stdout) == (0, b'the same 5 events\n')


def test_refusals(put):
    path = paths('one_segment')[0]
    assert refused(path) == 'name the scenario of the other run, or say by --set what is other in it'
    assert refused(path, path, '--set', 'end=1s') == 'the other run is OTHER, or SCENARIO with --set: leave one out'
    assert refused('-', '-') == 'standard input is one scenario, and not two'
    assert refused('nowhere.txt', path) == 'nowhere.txt: No such file or directory'
    assert refused(path, '--set', 'end=1s,2s') == '--set end: the other run has one value of it, and not 2'
    assert refused(path, '--set', 'x.rate=1M').startswith('--set \'x.rate=1M\': the scenario has no link \'x\'')
    assert refused(path, put('empty.txt', '')).endswith('empty.txt: the scenario has no `sim` or no flow')
    wrong = refused(path, put('b.txt', read_text(path).replace('sim ', 'sim x')))
    assert wrong.endswith('b.txt: line 3: sim x1000000000')
    wrong = refused(path, put('c.txt', read_text(path).replace('8000000', '8')))
    assert re.match(r'\S+/c.txt: the program ended with status 1: refused E5 line 6: link ', wrong)
    assert refused(path, path, '--program', '/nowhere') == '/nowhere is no program that can be run'
    assert refused(path, path, '-o', path).endswith(f'would write over what is read, {path}')


def test_by_the_model():
    path = paths('two_timeouts_in_a_row')[0]
    words = path, '--set', 'a.lose=5'
    done = tool('diff', *words, '--model')
    assert (done.returncode, done.stdout.decode()) == (1, told(*words))


def test_runs_with_a_queue_of_one_s_own():
    """A class's drop, and the packet's place there."""
    class Short(collections.deque):
        word = 'short'

        def __init__(self, _link):
            super().__init__()

        def offer(self, packet, _now, drop):
            self.append(packet)
            if len(self) > 4:
                drop(self.popleft())

        def take(self, _now, _drop):
            return self.popleft() if self else None
    text = net.scenario('dumbbell --flows 1 --rate 1M --rtt 40ms --queue droptail:20 --end 2s'.split())
    run, own = tcpsim.run(text), tcpsim.run(text, queues={'pq': Short})
    found = run.diff(own)
    assert found.sentence == 'the same 131 events; at 0.22172528 s data 21900 of f0 waits at place 1 of link pq, there it is dropped (short: after 24.012ms)'
    assert bool(found) and found.positions == own.diff(run).positions and not own.diff(own)


def test_a_notebook_has_the_table():
    run = tcpsim.run(paths('bufferbloat')[0])
    found = run.diff(tcpsim.run(paths('bufferbloat_with_codel')[0]))
    assert found._repr_html_().startswith('<p>the same 487 events; at 0.332776 s link a begins to send')
    assert found._repr_html_().count('<tr>') == len(found.figures) + 1
    assert repr(found).splitlines()[0] == found.sentence
