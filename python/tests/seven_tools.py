"""The tools as tests call them: each command line, a folder with a run, and what is written of it."""
import functools
import os
import pathlib
import re
import shutil
import tempfile

import pytest

import clone
from clone import PROGRAM, TOP

EXAMPLE = pathlib.Path(TOP, 'examples', 'two_timeouts_in_a_row')
OLD = 'what stood here before\n'
PATIENCE = 60               # seconds in which a tool that is not waited for ends
MODULES = {name: f'tcpsim.cli.{name}' for name in ('plot', 'flows', 'net', 'sweep', 'find', 'follow', 'stalls', 'time', 'replay', 'diff')}
TOOLS = tuple(MODULES)
READERS = 'plot', 'flows', 'replay', 'stalls', 'time', 'follow'
ENDINGS = {'plot': '.svg', 'replay': '.html', 'sweep': '.csv', 'find': '.csv'}


def words(tool, scenario='s.txt', trace='s.trace'):
    """A command line of a tool, but for -o."""
    if tool == 'net':
        return ['dumbbell', '--flows', '3']
    if tool == 'diff':
        return [scenario, scenario, '--program', PROGRAM]
    if tool == 'sweep':
        return [scenario, '--set', 'a.lose=none,5', '--program', PROGRAM, '-j', '2']
    if tool == 'find':
        return [scenario, '--vary', 'a.queue=droptail:1..2', '--least', '--so-that', 'a.sent > 0', '--program', PROGRAM, '-j', '2']
    return [scenario, *([trace] if trace else []), *(['--flow', 'f', '--byte', '4000'] if tool == 'follow' else [])]


run = functools.partial(clone.tool, timeout=PATIENCE)


@pytest.fixture
def place(tmp_path):
    """A folder with a scenario and its trace, and in it one for what is written."""
    tmp_path.chmod(0o755)
    for ending in ('.txt', '.trace'):
        shutil.copy(EXAMPLE.with_suffix(ending), tmp_path / f's{ending}')
    (tmp_path / 'out').mkdir()
    return tmp_path


@functools.cache
def whole(tool):
    """What a tool writes."""
    with tempfile.TemporaryDirectory() as folder:
        for ending in ('.txt', '.trace'):
            shutil.copy(EXAMPLE.with_suffix(ending), pathlib.Path(folder, f's{ending}'))
        path = pathlib.Path(folder, 'whole' + ENDINGS.get(tool, '.txt'))
        done = run(tool, *words(tool), '-o', path, cwd=folder)
        assert done.returncode == 0, done.stderr
        assert sorted(os.listdir(folder)) == sorted(['s.txt', 's.trace', path.name])
        return path.read_bytes()


def target(place, tool, name='a'):
    return place / 'out' / (name + ENDINGS.get(tool, '.txt'))


def failed(tool):
    """The status of a tool that fails: 1 of tcpsim-diff says that runs differ."""
    return 2 if tool == 'diff' else 1


def is_told(done, status, *says):
    """Whether a tool said one sentence, and no traceback. What sweep says of its progress is left out."""
    lines = [line for line in done.stderr.decode().splitlines() if not re.match(r'\d+ of \d+ runs', line)]
    assert done.returncode == status, (done.returncode, lines)
    assert len(lines) == 1, lines
    for word in says:
        assert word in lines[0], lines


def to_old(path):
    path.write_text(OLD)
    path.chmod(0o644)


def to_private(path):
    to_old(path)
    path.chmod(0o600)
