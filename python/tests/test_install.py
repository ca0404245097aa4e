"""Tests of the package that pip installs.

A virtual environment is made, the package installed into it without a network, and each command run from there, in a
folder that has nothing of the clone.
"""
import functools
import importlib.util
import os
import re
import shutil
import sys

import pytest

import clone
from clone import BIN, TOP
from tcpsim import VERSIONS

NAMES = sorted(os.listdir(BIN))
ONE_SEGMENT = os.path.join(TOP, 'examples', 'one_segment.txt')
MATPLOTLIB = importlib.util.find_spec('matplotlib')
LACKS = [name for name in ('venv', 'ensurepip', 'setuptools', 'wheel') if not importlib.util.find_spec(name)]
pytestmark = pytest.mark.skipif(bool(LACKS), reason=f'{" ".join(LACKS)} not there: apt-get install python3-venv '
                                'python3-setuptools python3-wheel')


ran = functools.partial(clone.ran, text=True)


@pytest.fixture(scope='module')
def installed(tmp_path_factory):
    """A virtual environment with the package: a function that runs one of its commands."""
    top = tmp_path_factory.mktemp('installed')
    shutil.copytree(os.path.join(TOP, 'python'), top / 'python', ignore=shutil.ignore_patterns('__pycache__', 'build', '*.egg-info'))
    here = top / 'here'
    here.mkdir()
    environment = {'PATH': '/usr/bin:/bin', 'HOME': str(here)}
    for words in ((sys.executable, '-m', 'venv', '--system-site-packages', top / 'V'),
                  (top / 'V/bin/pip', 'install', '--no-index', '--no-build-isolation', top / 'python')):
        done = ran(*map(str, words), env=environment)
        assert done.returncode == 0, done.stderr
    shutil.rmtree(top / 'python')
    return lambda name, *words, **more: ran(str(top / 'V' / 'bin' / name), *words, cwd=here, env=environment, **more)


@pytest.mark.parametrize('name', NAMES)
def test_each_command_has_its_version(installed, name):
    if name == 'tcpsim-plot' and not MATPLOTLIB:
        pytest.skip('matplotlib is not there')
    done = installed(name, '--version')
    assert (done.returncode, done.stdout, done.stderr) == (0, f'{name} {VERSIONS}\n', '')


def test_commands_are_those_of_the_clone():
    with open(os.path.join(TOP, 'python', 'pyproject.toml'), encoding='utf-8') as file:
        scripts = file.read().partition('[project.scripts]')[2].partition('\n[')[0]
    modules = dict(re.findall(r'^(tcpsim-\w+) = "tcpsim\.commands\.(\w+):main"$', scripts, re.M))
    assert sorted(modules) == NAMES
    for name, module in modules.items():
        with open(os.path.join(BIN, name), encoding='utf-8') as file:
            assert f'from tcpsim.commands.{module} import main' in file.read()


def test_a_run_by_the_model(installed):
    done = installed('tcpsim-run', ONE_SEGMENT)
    with open(ONE_SEGMENT[:-3] + 'trace', encoding='ascii') as file:
        assert (done.returncode, done.stdout) == (0, file.read())
    assert done.stderr.startswith('tcpsim: by the model (the program is not installed): ')


def test_tools_find_the_model_and_their_files(installed, tmp_path):
    made = installed('tcpsim-net', 'dumbbell', '--flows', '2', '--rate', '1M', '--end', '2s')
    assert (made.returncode, made.stderr) == (0, '')
    scenario = tmp_path / 'mine.txt'
    scenario.write_text(made.stdout)
    figures = installed('tcpsim-flows', str(scenario))
    assert figures.returncode == 0 and 'Jain' in figures.stdout
    page = tmp_path / 'mine.html'
    done = installed('tcpsim-replay', str(scenario), '-o', str(page))
    assert done.returncode == 0, done.stderr
    assert 'version:"3.' in page.read_text()
    swept = installed('tcpsim-sweep', str(scenario), '--set', 'end=1s,2s', '--csv')
    assert [swept.returncode, swept.stdout.count('\n')] == [0, 3]


def test_it_is_imported(installed):
    done = installed('python', '-c', 'import tcpsim; run = tcpsim.run(tcpsim.dumbbell(rate="1M", end="1s")); '
                     'print(run.engine, run.figures.events == sum(1 for _ in run.trace))')
    assert done.stdout == 'model True\n', done.stderr
