#!/usr/bin/env python3
"""Tests of docs/PYTHON.md: its examples run, in their order and in a folder of their own, and print what stands below them;
its test of an experiment is python/tests/test_delay.py; its tables name what there is. Run as a script it prints what its examples print."""
import contextlib
import dataclasses
import importlib.util
import io
import os
import re
import subprocess
import sys
import tempfile

import pytest

from clone import TOP, read_text

import tcpsim
from tcpsim.api.answers import Move
from tcpsim.program import BUILT

PAGE = os.path.join(TOP, 'docs', 'PYTHON.md')
BLOCK = re.compile(r'^```python\n(.*?)^```\n(?:\n```\n(.*?)^```\n)?', re.M | re.S)
built = pytest.mark.skipif(not os.path.exists(BUILT) and not os.environ.get('CI'), reason='the program is not built: make run')


def examples():
    """The page's examples: code, and what is shown below it, if anything."""
    return [found.groups() for found in BLOCK.finditer(read_text(PAGE))]


def is_test(code):
    return code.startswith('import pytest')


def outputs(folder):
    """What each example prints, where those before it ran; None of the test."""
    names, here = {'__name__': 'page'}, os.getcwd()
    os.chdir(folder)
    try:
        for code, _ in examples():
            if is_test(code):
                yield None
                continue
            with contextlib.redirect_stdout(io.StringIO()) as out:
                exec(compile(code, PAGE, 'exec'), names)
            yield out.getvalue()
    finally:
        os.chdir(here)


@built
@pytest.mark.skipif(not importlib.util.find_spec('matplotlib'), reason='matplotlib is not there: apt-get install python3-matplotlib')
def test_examples_print_what_is_shown(tmp_path):
    shown = examples()
    assert len(shown) >= 12
    for (code, wanted), found in zip(shown, outputs(tmp_path)):
        if found is not None:
            assert found == (wanted or ''), code
    assert sorted(os.listdir(tmp_path)) == ['page.html', 'window.png']


def test_the_experiment_is_a_test_of_ours(tmp_path):
    code, = (code for code, _ in examples() if is_test(code))
    assert code in read_text(os.path.join(TOP, 'python', 'tests', 'test_delay.py'))
    (tmp_path / 'test_delay.py').write_text(code)
    done = subprocess.run([sys.executable, '-m', 'pytest', '-q', '-p', 'no:cacheprovider', 'test_delay.py'], cwd=tmp_path,
                          capture_output=True, text=True, check=False, env={**os.environ, 'PYTHONPATH': os.path.join(TOP, 'python')})
    assert done.returncode == 0, done.stdout
    assert '3 passed' in done.stdout


def table(heading):
    """The names in the table below these words."""
    rows = read_text(PAGE).partition(heading)[2].partition('\n\n')[0]
    return set(re.findall(r'`(\w+)`', rows))


def test_the_figures_of_the_page_are_those_that_there_are():
    names = {field.name for kind in (tcpsim.FlowResult, tcpsim.LinkResult) for field in dataclasses.fields(kind)}
    names |= {'completion_time_ns', 'packets_dropped', 'loss'}
    assert table('| Of a flow | Unit |') - {'lost', 'full', 'codel'} == names - {'name'}


def test_the_fields_of_the_page_are_those_that_there_are():
    fields = set(tcpsim.Event._fields) - {'acts'} | {'sent', 'drops'}
    kinds = {'start', 'rto', 'delack', 'free', 'data', 'ack', 'ss', 'ca', 'fr', 'reason'}
    assert table('| Field | Is |') - kinds == fields
    assert {'position', 'time_ns', 'event', 'passed', 'matched', 'at_end'} <= {field.name for field in dataclasses.fields(Move)}


def test_the_page_names_each_public_name():
    page = read_text(PAGE)
    shown = {name for name in tcpsim.__all__ if re.search(rf'\b{name}\b', page)}
    kinds = {'ScenarioText', 'Simulation', 'DebugSession', 'Event', 'Sent', 'Drop', 'Trace', 'TimeSeries', 'Results', 'FlowResult',
             'LinkResult', '__version__'}
    assert set(tcpsim.__all__) - kinds <= shown


if __name__ == '__main__':
    with tempfile.TemporaryDirectory() as made:
        for number, text in enumerate(outputs(made)):
            print(f'-- {number}\n{text}', end='')
