"""Faults that hypothesis draws: traces and scenarios that are cut, changed or another's, through each tool that reads them.

A tool refuses them in one sentence, which names the file and the line and says what there is instead, and leaves what was
there; or all is there. None of them takes long, and none ends in a traceback.
"""
import contextlib
import io
import os
import re
import signal
import sys

import pytest

pytest.importorskip('hypothesis', reason='no hypothesis: apt-get install python3-hypothesis')
from hypothesis import HealthCheck, given, settings, strategies as st  # noqa: E402

from clone import PROGRAM  # noqa: E402
from seven_tools import EXAMPLE, MODULES, OLD, READERS, is_told, place, run, target, to_private, words  # noqa: E402
from tcpsim import command_line  # noqa: E402
from tcpsim.scenario.text import Scenario, WrongScenario  # noqa: E402

__all__ = ['place']
NAMES = sorted(path.stem for path in EXAMPLE.parent.glob('*.trace') if path.stat().st_size < 60_000)
FAULTS = 2000
PATIENCE = 300              # seconds for one tool, on a machine that is busy
ALIKE = (('tx=', 'drop=full:'), ('drop=full', 'drop=codel'), ('data', 'ack'), ('phase=ss', 'phase=fr'), ('una=', 'nxt='),
         ('droptail', 'codel'), ('sender', 'router'), ('link', 'lose'), ('end', 'END'))
NUMBERS = st.sampled_from(['0', '1', '-1', '9' * 25, '', 'x', '1.5', '1_0', '9' * 5000]) | st.integers(0, 10**6).map(str)
OPTIONS = {
    'flows': [(), ('--csv',), ('--series', '500ms'), ('--from', '1s'), ('--to', '1500ms'), ('--partial',)],
    'plot': [(), ('--log',), ('--partial',)], 'replay': [(), ('--to', '2s'), ('--partial',)],
    'stalls': [(), ('--csv',), ('--longer', '100ms'), ('--partial',)], 'follow': [(), ('--csv',), ('--partial',)],
    'time': [(), ('--csv',), ('--path',), ('--flow', '0'), ('--to', '0'), ('--partial',)]}
# Faults that are no line's: of a file that is cut, or lacks what it has to have.
OF_NO_LINE = re.compile(r's\.trace has no "end": cut behind event \d+|s\.txt: the scenario has |s\.txt is no scenario: its byte \d+ '
                        r'|s\.txt: the program ended with status 1: refused (L\d|E10) line 0|s\.trace: the trace has no line'
                        r'|nothing happens|there is no event between|there is nothing to draw|the run ends at|the series has more than'
                        r'|no time lies between|the scenario has no flow|there is not enough memory for this run'
                        r'|no .* is named|flow \S+ has the bytes|was never sent')


@st.composite
def changed(draw, text):
    """A text with one to three small changes."""
    for _ in range(draw(st.integers(1, 3))):
        lines = text.splitlines(True)
        at, other = (draw(st.integers(0, len(lines) - 1)) for _ in range(2))
        line = lines[at]
        given_words = line.split(' ')
        kind = draw(st.sampled_from(['left out', 'again', 'exchanged', 'number', 'sign', 'word less', 'word more', 'alike']))
        if kind == 'left out':
            del lines[at]
        elif kind == 'again':
            lines.insert(at, lines[other])
        elif kind == 'exchanged':
            lines[at], lines[other] = lines[other], line
        elif kind == 'number':
            word = draw(st.sampled_from(list(re.finditer(r'\d+', line)) or [re.search('', line)]))
            lines[at] = line[:word.start()] + draw(NUMBERS) + line[word.end():]
        elif kind == 'sign':
            spot = draw(st.integers(0, len(line) - 1))
            lines[at] = line[:spot] + draw(st.sampled_from('\0\t\r\x1b\x7fé\u2028 =:;#\n9')) + line[spot + 1:]
        elif kind == 'word less':
            del given_words[draw(st.integers(0, len(given_words) - 1))]
            lines[at] = ' '.join(given_words)
        elif kind == 'word more':
            given_words.insert(draw(st.integers(0, len(given_words))), draw(st.sampled_from(given_words)))
            lines[at] = ' '.join(given_words)
        else:
            lines[at] = line.replace(*draw(st.sampled_from(ALIKE)))
        text = ''.join(lines) or '\n'
    return text


@st.composite
def cases(draw):
    """A scenario and a trace: cut, changed, or another's; the name of the run that the scenario is of; and that of the
    other run, or of a trace that says that it ends too early what the next event would have been."""
    name, other = draw(st.sampled_from(NAMES)), draw(st.sampled_from(NAMES))
    scenario, trace = (EXAMPLE.with_name(name).with_suffix(ending).read_text() for ending in ('.txt', '.trace'))
    kind = draw(st.sampled_from(['cut', 'cut at a line', 'ended too early', 'changed', 'changed more', 'another', 'scenario',
                                 'scenario cut']))
    lines = trace.splitlines(True)
    if kind == 'cut':
        trace = trace[:draw(st.integers(0, len(trace) - 2))]
    elif kind == 'cut at a line':
        trace = ''.join(lines[:draw(st.integers(0, len(lines) - 1))])
    elif kind == 'ended too early':
        count = draw(st.integers(0, len(lines) - 2))
        trace, other = ''.join(lines[:count]) + f'end {count}\n', lines[count].split()[5]
    elif kind.startswith('changed'):
        trace = draw(changed(trace))
    elif kind == 'another':
        trace = EXAMPLE.with_name(other).with_suffix('.trace').read_text()
    elif kind == 'scenario':
        scenario = draw(changed(scenario))
    else:
        scenario = scenario[:draw(st.integers(0, len(scenario) - 1))]
    return kind, scenario, trace, name, other


def drawn(count):
    """The settings of a test that draws `count` cases, the same each time."""
    return settings(max_examples=count, derandomize=True, database=None, deadline=None, suppress_health_check=list(HealthCheck))


def is_whole(trace):
    """Whether a trace has its end, with as many lines before it as that says."""
    lines = trace.split('\n')
    last = lines.pop() or lines.pop()
    return re.fullmatch(r'end 0*\d+', last) is not None and int(last[4:]) == len(lines)


class TooLong(BaseException):
    pass


@contextlib.contextmanager
def within(limit):
    def over(*_):
        raise TooLong
    before = signal.signal(signal.SIGALRM, over)
    signal.alarm(limit)
    try:
        yield
    finally:
        signal.alarm(0)
        signal.signal(signal.SIGALRM, before)


def attempt(tool, words_given, monkeypatch):
    """The status of a tool that runs in this process, and what it says. What it raises that is not for people comes out."""
    monkeypatch.setattr(sys, 'argv', [f'tcpsim-{tool}', *map(str, words_given)])
    with contextlib.redirect_stderr(io.StringIO()) as said, within(PATIENCE):
        return command_line.status_of(MODULES[tool]), said.getvalue()


def is_named(said, tool):
    """Whether a sentence names the file and the line, or a fault that no line has."""
    assert said.count('\n') == 1 and said.startswith(f'tcpsim-{tool}: '), said
    assert OF_NO_LINE.search(said) or re.search(r's\.(txt|trace)\b.* line \d+', said), said


@given(case=cases(), data=st.data())
@drawn(FAULTS)
def test_inputs(case, data, place, monkeypatch):
    """Refused in a sentence, or all is there. What was in the file before stays where it is refused."""
    kind, scenario, trace, name, other = case
    monkeypatch.chdir(place)
    (place / 's.txt').write_text(scenario, encoding='utf-8')
    (place / 's.trace').write_text(trace, encoding='utf-8')
    flow = re.search(r'^flow (\S+)', scenario, re.M)
    # A picture takes a second: one case in twelve is drawn.
    drawn_too = ['plot'] * (data.draw(st.integers(0, 11)) == 0)
    for tool in data.draw(st.permutations([tool for tool in READERS if tool != 'plot']))[:2] + drawn_too:
        path = target(place, tool)
        to_private(path)
        given_words = [flow[1] if flow and word == 'f' else word for word in words(tool)]
        given_words[-1:] = ['0'] if tool == 'follow' else given_words[-1:]
        options = data.draw(st.sampled_from(OPTIONS[tool]))
        status, said = attempt(tool, [*given_words, *options, '-o', path], monkeypatch)
        assert os.listdir(place / 'out') == [path.name]
        if status:
            assert status in (1, 2)
            is_named(said, tool)
            assert path.read_text() == OLD
        else:
            assert said == '' and path.read_bytes() != OLD.encode()
            assert is_whole(trace) or '--partial' in options or '--to' in options
            if not options:
                assert kind != 'another' or name == other
                # Only who follows the timers knows that one of them was still to end.
                assert kind != 'ended too early' or other == 'rto' and tool not in ('stalls', 'time', 'follow')
        path.unlink()


@given(scenario=st.one_of(changed(EXAMPLE.with_suffix('.txt').read_text()),
                          st.integers(0, 300).map(lambda size: EXAMPLE.with_suffix('.txt').read_text()[:size])), data=st.data())
@drawn(40)
def test_scenarios_by_a_process(scenario, data, place):
    """Scenarios that are cut or changed, run by the program: a sentence, or a row for each run, or a table."""
    (place / 's.txt').write_text(scenario, encoding='utf-8')
    tool = data.draw(st.sampled_from(['sweep', 'sweep', 'flows', 'stalls']))
    given_words = words('sweep') if tool == 'sweep' else ['s.txt', '--program', PROGRAM]
    done = run(tool, *given_words, '-o', 'out/a.csv', cwd=place)
    assert b'Traceback' not in done.stderr, done.stderr
    if tool != 'sweep' and done.returncode:
        is_named(done.stderr.decode(), tool)
    elif done.returncode == 2:
        is_told(done, 2)
    else:
        table = (place / 'out' / 'a.csv').read_text()
        assert table.count('\n') == 3 if tool == 'sweep' else table
        (place / 'out' / 'a.csv').unlink()
    assert os.listdir(place / 'out') == []


@pytest.mark.parametrize('word', ['sim', 'node', 'link', 'flow', 'route', 'lose'])
def test_a_statement_of_one_word(word):
    """As it stands at the end of a scenario that is cut."""
    with pytest.raises(WrongScenario, match=f'^the scenario, line 2: {word}$'):
        Scenario(f'sim 1\n{word}')
