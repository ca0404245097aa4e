"""Tests of what docs/COMMANDS.md says of the debugger's prompt, by the model of python/tcpsim_model: names cut short, times,
and an example of each refusal. And of what docs/DEBUGGING.md shows of it."""
import os
import re

from clone import TOP, paths, read, read_text
from tcpsim_model import prompt
from tcpsim_model.scenario import Refused
from tcpsim_model.texts import TOPICS
from tcpsim_model.command_line import read as scenario_in


def session():
    return prompt.Prompt(scenario_in(read(paths('two_timeouts_in_a_row')[0])))


def refusal(line):
    """The code that a line gets, or None."""
    try:
        session().answer(line.encode())
    except Refused as refused:
        return refused.code
    return None


def tables():
    """The tables of the part of docs/COMMANDS.md on the prompt, by the first cell of their heads: of each row the cells."""
    part = read_text('docs', 'COMMANDS.md').partition('\n### At the prompt\n')[2].partition('\n## ')[0]
    found = {}
    for text in re.findall(r'(?:^\|.*\n)+', part, re.M):
        head, _, *rows = [[cell.strip() for cell in line.strip('|').split('|')] for line in text.splitlines()]
        found[head[0]] = rows
    return found


def words(cell):
    return re.findall(r'`([^`]*)`', cell)


def test_names():
    found, at_prompt = [], session()
    for name, also, *_ in tables()['Name']:
        if words(name):
            name, = words(name)
            found.append(name.encode())
            short = [name[:size] for size in range(1, len(name))]
            assert words(also) == [it for it in short if at_prompt.name_of(it.encode()) == name.encode()]
    assert found == [*prompt.NAMES]


def test_topics():
    row, = (cells for cells in tables()['Line'] if 'help numbers' in cells[0])
    assert words(row[0]) == [f'help {topic.decode()}' for topic in TOPICS]
    for topic in words(row[0]):
        assert refusal(topic) is None


def test_times():
    rows = tables()['Time']
    for time, nanoseconds in rows:
        for word in words(time):
            assert prompt.time_in(word.encode()) == int(nanoseconds.replace(',', '')), word
    assert {re.sub('[0-9.]', '', word) for row in rows for word in words(row[0])} == {'', 'ns', 'us', 'ms', 's'}


def test_refusals():
    for noted, _, examples in tables()['Noted']:
        code = words(noted)[0].removeprefix('refused ')
        for line in words(examples) if 'after' not in examples else ():
            assert refusal(line) == code, line


def page():
    """What docs/DEBUGGING.md shows: of each session its file, its lines and what is answered, and of each command of
    the shell what it prints. A line `...` stands for some lines that are left out. What tcpsim-debug shows has a test of
    its own."""
    blocks = re.findall(r'^```\n(.*?)^```$', read_text('docs', 'DEBUGGING.md'), re.M | re.S)
    sessions_, commands = [], []
    for block in blocks:
        for line in block.splitlines() if not block.startswith('$ bin/tcpsim-debug ') else ():
            if started := re.fullmatch(r'\$ crates/tcpsim/out/tcpsim debug (\S+)', line):
                sessions_.append((os.path.join(TOP, started[1]), [], ['']))
            elif line.startswith('{ '):
                commands.append((line, ['']))
            elif line.startswith('(tcpsim) '):
                sessions_[-1][1].append(line.removeprefix('(tcpsim) ').encode())
            else:
                (commands[-1] if commands else sessions_[-1])[-1][0] += r'(?:.*\n)+' if line == '...' else re.escape(line + '\n')
    return sessions_, commands


def test_what_the_hunts_show():
    """Behind the first session, which shows how lines are typed, each finds a cause by at most five commands."""
    (_, *hunts), _ = page()
    assert len(hunts) == 5
    for path, lines, (answer,) in hunts:
        typed = prompt.Prompt(scenario_in(read(path)))
        assert re.fullmatch(answer, ''.join(map(typed.answer, lines))), path
    text = read_text('docs', 'DEBUGGING.md')
    assert all(block.count('\n(tcpsim) ') <= 5 for block in re.findall(r'^```\n\$ crates/(.*?)^```$', text, re.M | re.S))
