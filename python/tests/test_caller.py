"""Tests of what a sweep's process keeps from one run to the next: the files of programs, a scenario most of which the next one has too,
and the layout of tables. What comes out is what it is without them."""
import os
import random
import signal

import pytest

import clone
from clone import NAMES, PROGRAM, paths
from tcpsim import engine
from tcpsim.caller import KEPT, Caller
from tcpsim.fairness import can_fill
from tcpsim.scenario.text import Scenario, Unreadable
from tcpsim.settled import longest_tooth
from tcpsim.whole_trace import PROGRAMS, ProgramFailed
from tcpsim_model.figures import figures
from tcpsim_model.text import assemble

MOST = 1 << 20


@pytest.fixture
def called(tmp_path):
    """Calls a shell's script with an input, by one caller."""
    caller = Caller(MOST)

    def call(script, source=b''):
        program = tmp_path / f'program{hash(script)}'
        if not program.exists():
            program.write_text('#!/bin/sh\n' + script)
            program.chmod(0o755)
        written, = caller.output_of([str(program), 'word'], source)
        return written
    return call


def test_calls_one_after_another(called):
    """Each reads its whole input and no more, and has its own output: shorter and longer ones by turns, and behind one that fails."""
    assert KEPT
    for size in (10, 100_000, 7, 0, 3, 5_000):
        source = os.urandom(size)
        assert called('exec cat', source) == source
    with pytest.raises(ProgramFailed) as wrong:
        called('echo much; echo no room >&2; exit 4', b'x' * 20)
    assert (wrong.value.ended, wrong.value.note) == (4, 'no room')
    assert called('cat; echo "$1"', b'in ') == b'in word\n'
    with pytest.raises(ProgramFailed, match=f'signal {signal.SIGKILL}'):
        called('kill -9 $$')
    assert called('exec cat', b'y') == b'y'


def test_a_program_that_writes_without_end_is_refused(called):
    for script in ('exec yes', 'exec cat /dev/zero', f'head -c {MOST + 1} /dev/zero'):
        with pytest.raises(Unreadable, match=f'more than {MOST:,} bytes'):
            called(script)
        assert called('echo right') == b'right\n'
    assert len(called(f'head -c {MOST // 2} /dev/zero')) == MOST // 2


def test_a_program_that_is_not_there(tmp_path):
    with pytest.raises(FileNotFoundError):
        list(Caller(MOST).output_of([str(tmp_path / 'none')], b''))


def test_a_program_that_takes_longer():
    """It is said once, and whoever no longer waits then has ended the program."""
    caller = Caller(MOST)
    assert list(caller.output_of(['/bin/sh', '-c', 'sleep 1; cat'], b'late', .1)) == [None, b'late']
    assert list(caller.output_of(['/bin/cat'], b'soon', 60)) == [b'soon']
    call = caller.output_of(['/bin/sh', '-c', 'exec sleep 300'], b'', .1)
    assert next(call) is None
    process, = PROGRAMS
    call.close()
    assert (process.returncode, PROGRAMS) == (-signal.SIGKILL, [])
    assert list(caller.output_of(['/bin/cat'], b'after', 60)) == [b'after']


def test_a_system_without_such_files(monkeypatch, called):
    monkeypatch.setattr('tcpsim.caller.KEPT', False)
    assert called('exec cat', b'abc') == b'abc'
    with pytest.raises(Unreadable, match=f'more than {MOST:,} bytes'):
        called('exec yes')


def other_words(rng, text):
    """A text with some other numbers, or with another statement."""
    lines = text.split('\n')
    for at in rng.sample(range(len(lines)), min(len(lines), rng.randint(0, 3))):
        words = lines[at].split(' ')
        places = [place for place, word in enumerate(words) if word.isdigit()]
        if places and rng.random() < .9:
            place = rng.choice(places)
            words[place] = str(max(1, int(words[place]) + rng.choice((-1, 1, 1_000))))
            lines[at] = ' '.join(words)
        elif rng.random() < .5:
            lines[at] = f'lose {rng.choice(text.split("link ")[1:]).split(" ")[0]} 5' if 'link ' in text else ''
        else:
            del lines[at]
            break
    return '\n'.join(lines)


def read(text, first=None):
    """All of a scenario, or that it cannot be read; and what others find out from it."""
    try:
        scenario = first.changed(text) if first else Scenario(text)
    except Unreadable as wrong:
        return str(wrong)
    flows = list(range(len(scenario.flows)))
    found = can_fill(scenario, flows), longest_tooth(scenario, flows)
    return {name: value for name, value in vars(scenario).items() if name != 'kept'}, found


def test_a_changed_scenario_is_that_of_its_text():
    rng, same = random.Random(41), 0
    for name in NAMES:
        text = clone.read_text(paths(name)[0])
        first = Scenario(text)
        read(text, first)           # what is found out is kept
        for _ in range(40):
            other = other_words(rng, text)
            assert read(other, first) == read(other), (name, other)
            same += first.changed(other).kept is first.kept if isinstance(read(other), tuple) else 0
    assert same > 200


def test_tables_by_turns():
    """The layout of the last table is that of the next one only where all its lines are; a table that is cut is none."""
    texts = [clone.read_text(paths(name)[0]) for name in NAMES[:6]]
    tables = [figures(assemble(text.encode())) for text in texts]
    wanted = []
    for text, table in zip(texts, tables):
        engine.LAYOUTS.clear()
        wanted.append(vars_of(engine.EngineRun(Scenario(text), table)))
    for _ in range(2):
        for text, table, its in zip(texts, tables, wanted):
            assert vars_of(engine.EngineRun(Scenario(text), table)) == its
            for wrong in (table[:-1], table.replace('\n', ',', 1), table.replace(',', '\n', 7), table + table, table.replace('ns,0', 'ns,x', 1),
                          table.replace('delivered,bytes,', 'delivered,bytes,-', 1), table.replace('events,events,', 'events,events,+', 1)):
                if wrong != table:
                    with pytest.raises(Unreadable):
                        engine.EngineRun(Scenario(text), wrong)


def vars_of(run):
    """The figures of a run."""
    return run.flows, run.links, run.last, run.events, run.begin, run.end


@pytest.mark.built
def test_an_interruption_ends_the_program(tmp_path):
    """Ctrl-C while a program runs that a sweep of one process has called: neither is there afterwards."""
    script = tmp_path / 'program'
    script.write_text(f'#!/bin/sh\n[ "$1" = --version ] && exec "{PROGRAM}" --version\necho $$ > "{tmp_path}/pid"\nexec sleep 300\n')
    script.chmod(0o755)
    (tmp_path / 'hand.txt').write_text(clone.read_text('examples/bufferbloat.txt'))
    process = clone.subprocess.Popen([*clone.tool_words('sweep'), str(tmp_path / 'hand.txt'), '--set', 'end=1s', '-j', '1', '--program', str(script)],
                                     stdout=clone.subprocess.PIPE, stderr=clone.subprocess.PIPE)
    while not (tmp_path / 'pid').exists() or not (tmp_path / 'pid').read_text().strip():
        assert process.poll() is None
    process.send_signal(signal.SIGTERM)
    process.communicate(timeout=clone.PATIENCE)
    assert process.returncode == 128 + signal.SIGTERM
    with pytest.raises(ProcessLookupError):
        os.kill(int((tmp_path / 'pid').read_text()), 0)
