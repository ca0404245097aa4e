"""What pytest does for the tests of python/tests and dev/: options, marks, fixtures, and that with CI=true nothing is left out.
What else they share is in dev/clone.py."""
import functools
import glob
import importlib.util
import os
import shutil
import sys

import pytest

import clone


def pytest_addoption(parser):
    parser.addoption('--program', metavar='FILE', help='the program to try (left out: the built one, or else the model)')
    parser.addoption('--runs', type=int, default=40, metavar='N', help='how many runs test_sweep_engines compares with single ones (left out: 40)')
    parser.addoption('--questions', type=int, default=20, metavar='N', help='how many questions test_find draws (left out: 20)')
    parser.addoption('--every-picture', action='store_true', help='draw all that test_plot_layout has (left out: some, at random)')


def pytest_configure(config):
    config.addinivalue_line('markers', 'built: wants the built program, not the model in its place')
    config.addinivalue_line('markers', "wants(command='package', ..): wants these commands, of these packages of Debian's")
    if config.option.program:
        clone.PROGRAM = os.path.abspath(config.option.program)


def pytest_sessionstart():
    """Has matplotlib find the machine's fonts before the first test: a tool for which that takes long says so on standard error."""
    caches = os.environ.get('XDG_CACHE_HOME') or os.path.expanduser('~/.cache')
    folder = os.environ.get('MPLCONFIGDIR') or os.path.join(caches, 'matplotlib')
    if importlib.util.find_spec('matplotlib') and not glob.glob(os.path.join(folder, 'fontlist-*.json')):
        clone.ran(sys.executable, '-c', 'import matplotlib.font_manager')


def pytest_runtest_setup(item):
    """Leaves a test out, and says why, where the machine lacks what its marks name."""
    if item.get_closest_marker('built') and clone.PROGRAM == clone.MODEL:
        pytest.skip('the program is not built: make run')
    packages = {name: package for mark in item.iter_markers('wants') for name, package in mark.kwargs.items()}
    lacking = [name for name in packages if not shutil.which(name)]
    if lacking:
        pytest.skip(f'no {", no ".join(lacking)}: apt-get install {" ".join(packages[it] for it in lacking)}')


@pytest.hookimpl(hookwrapper=True)
def pytest_runtest_makereport():
    outcome = yield
    leave_nothing_out(outcome.get_result())


@pytest.hookimpl(hookwrapper=True)
def pytest_make_collect_report():
    outcome = yield
    leave_nothing_out(outcome.get_result())


def leave_nothing_out(report):
    if report.skipped and os.environ.get('CI') == 'true':
        report.outcome, report.longrepr = 'failed', f'left out, where CI=true: {report.longrepr[2]}'


@pytest.fixture
def put(tmp_path):
    """Writes a file into the test's folder; answers its path."""
    def write(name, data, mode=0o644):
        path = tmp_path / name
        path.write_bytes(data.encode() if isinstance(data, str) else data)
        path.chmod(mode)
        return str(path)
    return write


@pytest.fixture(scope='session')
def library(tmp_path_factory):
    """Compiles dev/NAME.c into a library for LD_PRELOAD, once; answers its path."""
    folder = tmp_path_factory.mktemp('libraries')
    return functools.cache(lambda name: clone.library(folder, name))
