"""Tests of tcpsim-flows, tcpsim/traces/reader.py and tcpsim/program.py. What is expected was worked out by hand from the lines of
TRACE, or is said by another way to the same number. test_trace.py has the account of TRACE, line by line; how the tool ends,
and files that are none, are in test_ends.py.
"""
import os
import random
import sys
import tempfile

import pytest

from clone import BIN, BUILT, MODEL, NAMES, PROGRAM, Folder, example, outcome, paths, ran, read_text, told, tool
import tcpsim
from tcpsim import figures, program
from tcpsim.program import NoProgram, find_program
from tcpsim.fairness import jain
from tcpsim.samples import Sample, percentile
from tcpsim.scenario.text import Scenario, Unreadable
from tcpsim.traces.curves import Run
from test_trace import BY_HAND as SCENARIO, TRACE

MS = 10**6
def rows(text=SCENARIO, trace=TRACE, **span):
    run = figures.Figures(Scenario(text), trace.splitlines(), **span)
    return {(name, figure): value for _, name, figure, _, value in figures.figures(run)}


class Files(Folder):
    def setup_method(self):
        super().setup_method()
        self.scenario, self.trace = self.put('run.txt', SCENARIO), self.put('run.trace', TRACE)

    def lines(self, *words):
        return told('flows', *words).splitlines()


class TestSpans:
    def check(self, expected, **span):
        got = rows(**span)
        for key, value in expected.items():
            assert got[key] == (pytest.approx(value, rel=0, abs=5e-10) if isinstance(value, float) else value), key

    def test_from(self):
        """From 4.14 ms: of a, 2000 is on its way until 4.16, 5000 and 6000 wait from 3.08 and 4.12; sent are
        5000, 6000 and 3000. Nothing is dropped; the acknowledgement 3000 matches a segment of the beginning."""
        self.check({('f', 'delivered'): 4000, ('f', 'goodput'): 4000 * 8 / .00786, ('f', 'sent'): 1,
                    ('f', 'sent again by fast retransmit'): 1, ('f', 'loss'): 0.0,
                    ('f', 'least round trip'): 5.16 * MS, ('f', 'median round trip'): 5.16 * MS,
                    ('a', 'utilization'): (.02 + 3 * 1.04) / 7.86, ('a', 'sent'): 3, ('a', 'dropped'): 0,
                    ('a', 'greatest queue'): 2, ('a', 'mean queue'): (2 * .02 + 1.04) / 7.86,
                    ('a', 'median delay in the queue'): 1080000, ('', 'span'): 7860000,
                    ('', 'begin'): 4140000}, begin=4140000)

    def test_to(self):
        """To 4.12 ms, whose own lines are left out: 0, 1000, 2000 and 4000 are begun, the last until 4.16."""
        self.check({('f', 'delivered'): 2000, ('f', 'goodput'): 2000 * 8 / .00412, ('f', 'sent'): 6,
                    ('f', 'loss'): 1 / 6, ('f', 'timeouts'): 0, ('f', 'completed'): None,
                    ('a', 'utilization'): 4.12 / 4.12, ('a', 'dropped'): 1, ('a', 'loss'): .2, ('a', 'sent'): 4,
                    ('a', 'mean queue'): (2 * 1.04 + 1.04 + .04 * 2 + 1.0) / 4.12,
                    ('b', 'utilization'): .08 / 4.12, ('', 'span'): 4120000}, end=4120000)

    def test_a_part_in_which_nothing_happens(self):
        """From 9.4 to 10 ms there is no line."""
        self.check({('f', 'delivered'): 0, ('f', 'goodput'): 0.0, ('f', 'loss'): None, ('a', 'utilization'): 0.0,
                    ('a', 'mean queue'): 0.0, ('a', 'median delay in the queue'): None, ('', 'span'): 600000},
                   begin=9400000, end=10000000)

    def test_parts_add_up(self):
        """Each count of a whole run is the sum of those of its parts, each mean their weighted mean."""
        for name in ('four_flows_share_codel', 'two_flows_share_fairly'):
            text, trace = map(read_text, paths(name))
            whole = rows(text, trace)
            cuts = [0, 1_234_567_891, 4 * 10**9, whole['', 'span']]
            parts = [(rows(text, trace, begin=begin, end=end), end - begin) for begin, end in zip(cuts, cuts[1:])]
            for key, value in whole.items():
                if key[1] in ('delivered', 'sent', 'timeouts', 'sent again by timeout', 'dropped') or ' dropped as ' in key[1]:
                    assert sum(part.get(key, 0) for part, _ in parts) == value, key
                elif key[1] in ('utilization', 'mean queue'):
                    assert sum(part[key] * span for part, span in parts) / whole['', 'span'] == \
                        pytest.approx(value, rel=0, abs=5e-10), key
                elif key[1] == 'greatest queue':
                    assert max(part[key] for part, _ in parts) == value, key

    def test_spans_that_are_refused(self):
        for span in ({'begin': 12000000}, {'begin': 10**12}):
            with pytest.raises(Unreadable):
                rows(**span)


def test_figures_are_those_of_the_curves():
    """On every example: what is counted on the way is what the kept columns of `Run` say."""
    for name in NAMES:
        text, lines = example(name)
        scenario = Scenario(text)
        run, got = Run(scenario, lines), figures.Figures(scenario, lines)
        begin, end = run.begin(), max(run.end(), run.begin() + 1)
        got = {(name, figure): value for _, name, figure, _, value in figures.figures(got)}
        for flow in run.flows:
            for figure, value in (
                    ('delivered', flow.delivered()), ('sent', len(flow.sent) + len(flow.again)),
                    ('timeouts', len(flow.timeouts)), ('sent again by timeout', flow.by_timeout),
                    ('sent again by fast retransmit', flow.by_fast_retransmit), ('completed', flow.completed),
                    ('median round trip', percentile(flow.round_trips, 50)),
                    ('99th percentile of round trips', percentile(flow.round_trips, 99))):
                assert got[flow.flow.name, figure] == value, (name, figure)
        for link in run.links:
            sending = sum(min(b, end) - max(a, begin) for a, b in zip(link.busy_from, link.busy_to) if a < end)
            queue, times = [0, *link.queue], [begin, *link.queue_times, end]
            waited = sum(length * (b - a) for length, a, b in zip(queue, times, times[1:]))
            for figure, value in (
                    ('utilization', sending / (end - begin)), ('mean queue', waited / (end - begin)),
                    ('greatest queue', max(queue)), ('dropped', len(link.drops)), ('sent', len(link.waits)),
                    ('median delay in the queue', percentile(link.waits, 50))):
                assert got[link.link.name, figure] == value, (name, figure)


def test_percentiles_of_what_stands_in_a_file():
    chance = random.Random(7)
    for greatest in (3, 1000, 10**6, 10**13):
        with tempfile.TemporaryFile() as file:
            samples, kept = [Sample(file), Sample(file)], [[], []]
            for n in range(20_000):
                number = chance.randrange(greatest)
                samples[n % 2].recent.append(number)
                kept[n % 2].append(number)
                if n % 3000 == 2999:
                    samples[0].spill()
                    samples[1].spill()
            for sample, numbers in zip(samples, kept):
                assert sample.least() == min(numbers)
                for percent in (0, 1, 50, 99, 100):
                    assert sample.percentile(percent) == percentile(numbers, percent)


def test_a_run_that_is_spilled_has_the_same_figures(monkeypatch):
    whole = rows()
    monkeypatch.setattr(figures, 'HELD', 1)
    monkeypatch.setattr(figures, 'PORTION', 2)
    assert rows() == whole


class TestIdleLinks(Files):
    def test_they_are_left_out(self):
        text = SCENARIO.replace('flow f', 'node p router\nlink c p s 8000000 1000000 droptail 2\nflow f')
        path = self.put('idle.txt', text)
        for words, idle, used in (((), '\nc  ', '\na  '), (('--csv',), 'link,c,', 'link,a,')):
            every = '\n'.join(self.lines(path, self.trace, *words))
            busy = '\n'.join(self.lines(path, self.trace, '--busy', *words))
            assert idle in every
            assert idle not in busy
            assert used in busy


class TestChosenFlows(Files):
    """Of four flows, ten mice and many links: what the table folds, and what it has of flows that are chosen."""

    @pytest.fixture(autouse=True)
    def run(self):
        text = tcpsim.dumbbell(flows=4, rate='2M', rtt='40ms', queue='droptail:BDP', spread=1, mice=10, end='8s').text
        self.path = self.put('mice.txt', text)
        self.every = '\n'.join(self.lines(self.path, '--all', '--program', PROGRAM)).split('\n\n')

    def csv(self, *words):
        return [line.split(',') for line in self.lines(self.path, '--csv', '--program', PROGRAM, *words)[1:]]

    def test_the_table_begins_with_the_bottleneck(self):
        """Its flows' figures and those of the mice are sums of the rows of --csv."""
        flows, of_run = {}, {}
        for what, name, figure, _, value in self.csv():
            if what == 'flow':
                flows.setdefault(name, {})[figure] = value
            elif what == 'run':
                of_run[figure] = value
        titles, four, mice = self.every[0].splitlines()
        every = sum(int(values['delivered']) for values in flows.values())
        assert titles.split() == 'bottleneck used % wait ms: median 99th loss % flows goodput Mbit/s each % timeouts Jain'.split()
        for line, number, names in ((four, 4, list(flows)[:4]), (mice, 10, list(flows)[4:])):
            delivered = sum(int(flows[name]['delivered']) for name in names)
            shares = [100 * int(flows[name]['delivered']) / every for name in names]
            assert f' {8e3 * delivered / int(of_run["span"]):.3f} ' in line
            assert f' {min(shares):.1f} to {max(shares):.1f} ' in line
            assert line.split()[-2:] == [str(sum(int(flows[name]['timeouts']) for name in names)),
                                         f'{float(of_run["Jain" + chr(39) + "s index of goodput"]):.4f}' if number == 4 else '-']
        assert (four.split()[0], mice.split()[:3]) == ('pq', ['pq', '10', 'mice'])
        assert {values['compared'] for name, values in flows.items()} == {'yes', 'mouse'}

    def test_mice_and_links_that_carry_little_are_folded(self):
        folded = '\n'.join(self.lines(self.path, '--program', PROGRAM)).split('\n\n')
        assert folded[0] == self.every[0] and folded[-1] == self.every[-1]
        for few, every, left, begins in ((folded[1], self.every[1], 10, 'mice have their line above'), (folded[2], self.every[2], 0, 'links carried less')):
            few, every = few.splitlines(), every.splitlines()
            count = len(every) - len(few) + 1
            assert few[-1].startswith(f'{left or count} {begins}') and few[-1].endswith(': --all shows them')
            assert [line.split()[0] for line in few[:-1]] == [line.split()[0] for line in every if line.split()[0] in ' '.join(few[:-1]).split()]
            assert count >= 10
        assert {line.split()[0] for line in folded[2].splitlines()[1:-1]} == {'pq'}
        assert self.lines(self.path, '--csv', '--program', PROGRAM) == self.lines(self.path, '--csv', '--all', '--program', PROGRAM)

    def test_of_flows_that_are_chosen_the_index_is(self):
        goodputs = {name: float(value) for what, name, figure, _, value in self.csv() if figure == 'goodput'}
        for words in ((), ('--engine',)):
            rows = self.csv('--flows', '4,f0', *words)
            assert list(dict.fromkeys(name for what, name, *_ in rows if what == 'flow')) == ['f4', 'f0']
            index, = (float(value) for *_, figure, _, value in rows if figure.startswith('Jain'))
            assert index == pytest.approx(jain([goodputs['f0'], goodputs['f4']]), abs=1e-6)
            lines = self.lines(self.path, '--flows', 'f0,f4', '--program', PROGRAM, *words)
            assert f"Jain's index of goodput: {index:.4f}, of 2 flows" in lines
        series = self.lines(self.path, '--series', '1s', '--flows', 'f2', '--program', PROGRAM)
        assert {line.split(',')[2] for line in series if ',flow,' in line} == {'2'}
        done = tool('flows', self.path, '--flows', 'f0,g', '--program', PROGRAM)
        assert (done.returncode, b'the scenario has no flow g; it has f0, f1' in done.stderr) == (2, True)


class TestCommands(Files):
    def test_the_table_has_timeouts_and_loss(self):
        lines = self.lines(self.scenario, self.trace)
        assert lines[1].split() == 'a 60.7 1.040 2.080 22.22 1 4.667 100.0 0 1.0000'.split()
        lines = lines[3:]
        assert lines[0].split('  ')[0] == 'flow'
        for title in ('loss %', 'timeouts', 'sent again: fast', 'after timeouts'):
            assert title in lines[0]
        assert lines[1].split() == 'f 7,000 4.667 100.0 a 9 22.22 0 1 0 3.080 4.120 5.160 5.160 - -'.split()
        assert lines[4].split()[-2:] == ['2', '22.22']

    def test_csv_in_a_part(self):
        lines = self.lines(self.scenario, self.trace, '--csv', '--from', '4140us', '--to', '0.012s')
        assert 'flow,f,delivered,bytes,4000' in lines
        assert 'run,,begin,ns,4140000' in lines

    def test_the_program_is_run_on_texts_and_images(self):
        image = outcome(['asm'], SCENARIO.encode())[2]
        path = self.put('run.tcb', image)
        given = self.lines(self.scenario, self.trace, '--csv')
        assert self.lines(self.scenario, '--program', PROGRAM, '--csv') == given
        named = [line.replace('flow,f,', 'flow,f0,').replace('link,a,', 'link,l0,').replace('link,b,', 'link,l1,').replace(
            'link,a', 'link,l0').replace('at a,', 'at l0,') for line in given]
        assert self.lines(path, '--program', PROGRAM, '--csv') == named
        assert self.lines(path, self.trace, '--program', PROGRAM, '--csv') == named
        done = tool('flows', '-', '--program', PROGRAM, '--csv', input=image)
        assert done.stdout.decode().splitlines() == named

    def test_a_run_that_is_left_early(self):
        """With --to the rest of a long run is not waited for: the flow has 10^9 segments to send."""
        path = self.put('long.txt', SCENARIO.replace('sim 12000000', 'sim 1000000000000000').replace(
            '1000 8 0', '1000 1000000000 0').replace('droptail', 'droptail 1', 1).replace('droptail 1 2', 'droptail 2'))
        assert 'run,,span,ns,50000000' in self.lines(path, '--program', PROGRAM, '--csv', '--to', '50ms')

    def test_what_is_refused_is_one_sentence(self):
        lines = TRACE.splitlines()
        image = self.put('i', b'TCB2\0\0')
        for words, note in (
                ((self.scenario, self.put('a', TRACE[:-300])), 'cut short'),
                ((self.scenario, self.put('b', '\n'.join(lines[:5] + lines[6:]) + '\n')), 'line 6 '),
                ((self.scenario, self.put('c', TRACE.replace('free 1 next=1000', 'free 7 next=1000'))), 'line 5 '),
                ((self.scenario, self.put('d', TRACE.replace('end 29', 'end 28'))), 'line 30 '),
                ((self.scenario, self.put('e', TRACE.replace('tx=0:0:2000', 'tx=0:0:5000'))), 'line 4 '),
                ((self.scenario, self.put('f', TRACE.replace('start 0', 'start -1'))), 'line 1 '),
                ((self.scenario, self.put('g', '\n\n')), 'line 1 '),
                ((self.scenario, self.put('o', TRACE.replace('1 0 0', f'1 {2**63} 0', 1))), 'line 1 '),
                ((self.scenario, self.put('p', TRACE.replace('nxt=4000', f'nxt={10**12}', 1))), 'line 1 '),
                ((self.scenario, self.put('q', TRACE.replace('nxt=4000', f'nxt={10**40}', 1))), 'line 1 '),
                ((self.scenario, self.put('h', TRACE.encode() + b'\xff\n')), 'not ASCII'),
                ((image, '--program', PROGRAM), 'refused L1'), ((image, self.trace, '--program', PROGRAM), 'refused L1'),
                ((self.scenario, self.trace, '--from', '100s'), 'ends at 0.012 s')):
            done = tool('flows', *words)
            text = done.stderr.decode()
            assert (done.returncode, done.stdout) == (1, b''), text
            assert note in text
            assert (text.count('\n'), text.startswith('tcpsim-flows: ')) == (1, True), text

    def test_words_that_are_refused(self):
        for words in (('--from', '5s', '--to', '4s'), ('--series', '0s'), ('--from', '5x'), ('--to', '1e9'), ('--from', '-1'),
                      ('--from', '1'), ('--to', '0.0000000001s'), ('--to', '2000000s'), ('--seri', '1s'), ('--csv', 'x'), ('--from',)):
            done = tool('flows', self.scenario, self.trace, *words)
            assert (done.returncode, done.stdout) == (2, b''), words
            assert (done.stderr.count(b'\n'), done.stderr.startswith(b'tcpsim-flows: ')) == (1, True), done.stderr

    def test_it_names_itself_as_it_was_called(self):
        link = os.path.join(self.folder, 'tcpsim-flows')
        os.symlink(os.path.join(BIN, 'tcpsim-flows'), link)
        for words in ((), ('nothing',), (self.scenario, '--program', '/nowhere')):
            done = ran(sys.executable, link, *words, text=True)
            assert (done.stdout, done.stderr.count('\n')) == ('', 1), done.stderr
            assert done.stderr.startswith('tcpsim-flows: '), done.stderr


class TestFinding(Files):
    def test_order(self, monkeypatch):
        """Named, else beside the script, else on PATH, else the clone's."""
        beside, path = os.path.join(self.folder, 'beside'), os.path.join(self.folder, 'path')
        for folder in beside, path:
            os.mkdir(folder)
            os.symlink(MODEL, os.path.join(folder, 'tcpsim'))
        monkeypatch.setenv('PATH', path)
        monkeypatch.setattr(sys, 'argv', [os.path.join(beside, 'tcpsim-flows')])
        assert find_program(MODEL) == MODEL
        assert find_program() == os.path.join(beside, 'tcpsim')
        monkeypatch.setattr(sys, 'argv', [os.path.join(self.folder, 'tcpsim-flows')])
        assert find_program() == os.path.join(path, 'tcpsim')
        monkeypatch.setenv('PATH', self.folder)
        assert program.found() == BUILT
        for named in (self.folder, self.trace, 'nothing'):
            with pytest.raises(NoProgram):
                find_program(named)
