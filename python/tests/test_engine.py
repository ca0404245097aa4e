"""Tests of `tcpsim-flows --engine` and tcpsim/engine.py. Its figures are
those of tcpsim-flows over the trace, on every example and on random scenarios; percentiles are at most a part of 32 above. """
import csv
import glob
import os
import random
import re
import stat

import pytest

import clone
from clone import NAMES, PROGRAM, TOP, Folder, paths, tool
from tcpsim import cycle, engine
from tcpsim.figures import Figures, engine_figures
from tcpsim.figures import figures as trace_figures
from tcpsim.scenario.text import Scenario, Unreadable
from tcpsim_model import image, nets, simulate
from tcpsim_model.figures import figures
from tcpsim_model.text import assemble, disassemble

RANDOM = 80             # scenarios
# What the program's table has not: parts of one flow at a link, round trips of each segment, and what is in flight at a timeout.
LEFT_OUT = {'share of the bottleneck', 'loss', 'least round trip', 'median round trip', '95th percentile of round trips',
            '99th percentile of round trips', cycle.BEYOND, cycle.MOST, cycle.HELD}
PERCENTILES = {'median delay in the queue', '95th percentile of delay in the queue', '99th percentile of delay in the queue'}
# One segment takes longer than the timer: it is sent again at 1 s, and acknowledged at 1.04232. Until 2.08 s the link
# sends what nobody waits for, and the end is 2 s.
PAST_THE_LAST = '''sim 2000000000
node s sender
node r receiver
link a s r 8000 1000000 droptail 10
link b r s 1000000 1000000 droptail 10
flow f s r 1000 1 0 64000 0
'''


def examples():
    """The texts and traces of the examples, by their names."""
    return ((name, *map(clone.read_text, paths(name))) for name in NAMES)


def drawn(seed, count, most=(5, 60)):
    """The names and texts of random scenarios, of one flow and of many; the first have `most` segments at most."""
    pick = random.Random(seed)
    for number in range(count):
        scenario = (nets.one_flow(pick, ('droptail', 'codel'), pick.choice(most)) if number % 2 else
                    nets.many_flows(pick, most_segments=pick.choice((5, 40))))
        yield f'random scenario {number}', disassemble(scenario).decode()


def with_traces(texts):
    """The same with their traces."""
    return ((name, text, ''.join(simulate.trace(assemble(text.encode())))) for name, text in texts)


def by_key(rows):
    return {tuple(row[:4]): row[4] for row in rows}


def from_trace(text, trace):
    return by_key(trace_figures(Figures(Scenario(text), trace.splitlines())))


def from_table(text, table):
    return by_key(engine_figures(engine.EngineRun(Scenario(text), table)))


def agree(got, wanted):
    """Answers which figures there are of both, and which of those have no value in the table alone."""
    both, none = set(), set()
    for key, value in wanted.items():
        what, _, figure, _ = key
        if what == 'flow' and (figure in LEFT_OUT or ' dropped as ' in figure):
            assert key not in got
            continue
        both.add((what, figure))
        if got[key] is None and value is not None:
            none.add((what, figure))
        elif figure in PERCENTILES and value is not None:
            assert value <= got[key] and 32 * got[key] <= 33 * value, (key, value, got[key])
        else:
            assert got[key] == value, key
    return both, none


def test_examples_and_random_scenarios():
    seen, none = set(), set()
    for runs, may_lack in ((examples(), False), (with_traces(drawn(12, RANDOM)), True)):
        for name, text, trace in runs:
            got = from_table(text, figures(assemble(text.encode())))
            both, lacking = agree(got, from_trace(text, trace))
            assert may_lack or not lacking, lacking
            seen |= both
            none |= lacking
            for _, link, figure, _ in got:
                if figure == 'dropped':
                    assert sum(got['link', link, reason, 'packets'] for reason in engine.REASONS) == \
                        got['link', link, 'dropped', 'packets']
    assert ({('flow', 'goodput'), ('flow', 'completed'), ('flow', 'bottleneck'), ('link', 'utilization'),
                     ('link', 'mean queue'), ('link', 'loss'), ('link', 'dropped'), ('run', 'span'),
                     ('run', 'Jain\'s index of goodput')} <= seen), seen
    assert none <= {('flow', 'bottleneck'), ('link', 'utilization'), ('link', 'mean queue')}


def test_a_link_that_sends_past_the_last_event():
    """How long it does so the table doesn't say: it has counted to the end. At a later end it is told."""
    for end, told in (('2000000000', False), ('5000000000', True)):
        text = PAST_THE_LAST.replace('2000000000', end)
        scenario = assemble(text.encode())
        got, wanted = from_table(text, figures(scenario)), from_trace(text, ''.join(simulate.trace(scenario)))
        assert wanted['flow', 'f', 'completed', 'ns'] == 1042320000
        for key in (('link', 'a', 'utilization', 'part'), ('flow', 'f', 'bottleneck', 'link')):
            assert got[key] == (wanted[key] if told else None)
        assert got['link', 'b', 'utilization', 'part'] == wanted['link', 'b', 'utilization', 'part']


class Files(Folder):
    scenario = paths('two_timeouts_in_a_row')[0]

    def run_flows(self, *words, program=None, **more):
        return tool('flows', *words, '--program', program or PROGRAM, cwd=self.folder, **more)

    def lines(self, *words, **more):
        return clone.told('flows', *words, '--program', PROGRAM, cwd=self.folder, **more).splitlines()

    def csv(self, *words):
        return {tuple(row[:4]): row[4] for row in csv.reader(self.lines(*words, '--csv'))}


class TestCommand(Files):
    def test_the_program_s_figures_are_those_of_its_traces(self):
        """On each example, by the command: whole words of the CSV, but for percentiles."""
        for path in sorted(glob.glob(os.path.join(TOP, 'examples', '*.txt'))):
            got, wanted = self.csv(path, '--engine'), self.csv(path, path[:-3] + 'trace')
            shared = set(got) & set(wanted)
            assert len(shared) > 20
            for key in shared:
                if key[2] in PERCENTILES and wanted[key]:
                    assert int(wanted[key]) <= int(got[key]) <= int(wanted[key]) * 33 / 32
                else:
                    assert got[key] == wanted[key]

    def test_the_table(self):
        """17 segments, 5 lost; 12 * 1.04 ms of 3.01752 s; the queue summed is 10.4 packet-ms, the median of twelve waits
        1.04 ms, whose class ends at 2^20 - 1 ns."""
        lines = self.lines(self.scenario, '--engine')
        assert lines[1].split() == 'a 0.4 1.049 3.120 29.41 1 0.027 100.0 2 -'.split()
        del lines[:3]
        assert lines[0].split() == ('flow bytes Mbit/s bottleneck sent timeouts sent again: fast after timeouts '
                                    'timed RTT ms: least median 95th 99th took s completed s'.split())
        assert lines[1].split() == 'f 10,000 0.027 a 17 2 0 7 3.080 3.080 3.080 3.080 3.015440 3.015440'.split()
        assert lines[3].split()[-7:] == 'dropped as lost as full by CoDel loss %'.split()[-7:]
        assert lines[4].split() == 'a 0.4 3 0.00 1.049 3.120 3.120 5 5 0 0 29.41'.split()
        assert lines[-3:] == ['Jain\'s index of goodput: -, as none of 1 flow is compared (1 that ended)', 'span: 3.017520 s',
                              'Timed round trips are few: 1 of f.']

    def test_texts_images_and_standard_input(self):
        with open(self.scenario, encoding='ascii') as file:
            text = file.read()
        names = self.lines(self.scenario, '--engine', '--csv')
        assert self.lines('-', '--engine', '--csv', input=text.encode()) == names
        numbers = [line.replace(',f,', ',f0,').replace('link,a', 'link,l0').replace('link,b,', 'link,l1,') for line in names]
        for version in (1, 2):
            path = self.put('image', image.save(assemble(text.encode()), version))
            assert self.lines(path, '--engine', '--csv') == numbers

    def test_idle_links_are_left_out(self):
        with open(self.scenario, encoding='ascii') as file:
            text = file.read()
        path = self.put('idle', text.replace('flow f', 'node p router\nlink c p s 8000000 1000000 droptail 2\nflow f'))
        assert any(line.startswith('link,c,') for line in self.lines(path, '--engine', '--csv'))
        busy = self.lines(path, '--engine', '--csv', '--busy')
        assert {line.split(',')[1] for line in busy if line.startswith('link,')} == {'a'}

    def test_words_that_are_refused(self):
        trace = self.scenario[:-3] + 'trace'
        assert b'few' not in self.run_flows(self.scenario).stdout       # of a trace they are those of each segment
        for words, note in (((trace, '--engine'), 'TRACE'), (('--engine', '--from', '1s'), '--from'),
                            (('--engine', '--from', '0'), '--from'), (('--engine', '--to', '2s'), '--to'),
                            (('--engine', '--series', '1s'), '--series'), (('--eng',), '--eng')):
            done = self.run_flows(self.scenario, *words)
            assert (done.returncode, done.stdout, done.stderr.count(b'\n')) == (2, b'', 1), words
            assert done.stderr.startswith(b'tcpsim-flows: ') and note.encode() in done.stderr, done.stderr

    def test_ends_that_fail(self):
        """One sentence and status 1; a program that has no such subcommand is named."""
        refused = self.put('refused', 'sim 01\n')
        old = self.put('old', '#!/bin/sh\necho "error: unrecognized subcommand" >&2\nexit 2\n', stat.S_IRWXU)
        full = self.put('full', '#!/bin/sh\necho "count full" >&2\nexit 4\n', stat.S_IRWXU)
        for scenario, program, note in (
                (refused, PROGRAM, 'status 1: refused E4 line 1: sim 01. END is a whole number of nanoseconds, 1 to '), (self.put('short', b'TCB2'), PROGRAM, 'refused L1'),
                (self.folder, PROGRAM, 'directory'), ('nothing', PROGRAM, 'nothing'), (self.scenario, old, f'{old} has no'),
                (self.scenario, full, 'status 4: count full'), (self.scenario, '/nowhere', '/nowhere'),
                (self.scenario, self.put('true', '#!/bin/sh\n', stat.S_IRWXU), 'no table of figures')):
            done = self.run_flows(scenario, '--engine', program=program)
            status = 2 if scenario == 'nothing' else 1
            assert (done.returncode, done.stdout, done.stderr.count(b'\n')) == (status, b'', 1), done.stderr
            assert done.stderr.startswith(b'tcpsim-flows: ') and note.encode() in done.stderr, done.stderr

    def test_signs_between_digits(self):
        """What is to be written instead of a number with signs for people, and no more of one that is another."""
        text = clone.read_text('examples/bufferbloat.txt')
        rate = re.search('^link .*? .*? .*? ([0-9]+)', text, re.M)[1]
        for word, told in (('8,000,000', ': write 8000000\n'), ('8_000', ': write 8000\n'), ("8'000", ': write 8000\n'), ('1.5', '\n'), ('8,00', '\n')):
            done = self.run_flows(self.put('signs', text.replace(f' {rate} ', f' {word} ', 1)), '--engine')
            assert done.stderr.decode().endswith('RATE is a whole number of bits per second, 1000 to 1000000000000' + told), word

    def test_what_is_no_table_is_refused(self):
        with open(self.scenario, encoding='ascii') as file:
            text = file.read()
        table = figures(assemble(text.encode()))
        lines = table.splitlines(True)
        for wrong in ('', lines[0], table[1:], table.replace('ns,0', 'ns,x'), table.replace('link,0,busy', 'link,0,0,busy'),
                      ''.join(line for line in lines if not line.startswith('link,1')),
                      ''.join(line for line in lines if 'completed' not in line), ''.join(lines[:-1]), ''.join(lines[1:])):
            with pytest.raises(Unreadable):
                engine.EngineRun(Scenario(text), wrong)
