"""Tests of examples/lecture.ipynb: it runs from top to end by jupyter-nbconvert, each cell with what it should show, and is
kept without outputs."""
import json
import os
import re
import shutil
import subprocess

import pytest

from clone import TOP
from tcpsim.program import BUILT

NOTEBOOK = os.path.join(TOP, 'examples', 'lecture.ipynb')
# Debian's command goes by Debian's python, which has the kernel.
NBCONVERT, PYTHON = shutil.which('jupyter-nbconvert'), '/usr/bin/python3'


def lacks():
    """What the test wants and is not there, with Debian's package; empty where all is."""
    wanted = {'jupyter-nbconvert': NBCONVERT, 'the program (make run)': os.path.exists(BUILT)}
    for module, package in (('ipykernel', 'python3-ipykernel'), ('matplotlib', 'python3-matplotlib')):
        done = subprocess.run([PYTHON, '-c', f'import {module}'], capture_output=True, check=False)
        wanted[package] = done.returncode == 0
    return [name for name, there in wanted.items() if not there]


def cells(path):
    with open(path, encoding='utf-8') as file:
        return [cell for cell in json.load(file)['cells'] if cell['cell_type'] == 'code']


def executed(notebook, **environment):
    """The code cells of a notebook after its run in its folder, whose parent is home."""
    if lacks() and not os.environ.get('CI'):
        pytest.skip(f'not there: {", ".join(lacks())}')
    folder = notebook.parent
    # Where matplotlib lists the fonts for the first time, and a machine is slow, it says so in a cell.
    environment = {'HOME': str(folder.parent), **environment}
    subprocess.run([PYTHON, '-c', 'import matplotlib.font_manager'], env={**os.environ, **environment}, capture_output=True, check=False)
    done = subprocess.run([NBCONVERT, '--to', 'notebook', '--execute', '--ExecutePreprocessor.timeout=900',
                           '--ExecutePreprocessor.startup_timeout=600', '--output', 'ran.ipynb',
                           notebook.name], cwd=folder, capture_output=True, text=True, check=False,
                          env={**os.environ, **environment})
    assert done.returncode == 0, done.stderr
    ran = cells(folder / 'ran.ipynb')
    for cell in ran:
        cell['outputs'] = [it for it in cell['outputs'] if not is_taken_back(it)]
    return ran


def is_taken_back(output):
    """Whether an output is a line of progress, which a slow machine shows after 2 s, and blanks in its place at the end."""
    text = ''.join(output.get('text', ''))
    return output.get('name') == 'stderr' and re.fullmatch(r'[^\n]*?\s*\r', text) is not None and not text.strip('\r').rpartition('\r')[2].strip()


def shown(cell):
    """The kinds of what a cell shows, and its text."""
    kinds, texts = set(), []
    for output in cell['outputs']:
        kinds |= set(output.get('data', {}))
        texts.append(''.join(output.get('text', '')))
    return kinds, ''.join(texts)


def test_it_is_kept_without_outputs():
    assert all(cell['outputs'] == [] and cell['execution_count'] is None for cell in cells(NOTEBOOK))


@pytest.fixture(scope='module')
def run(tmp_path_factory):
    """The cells after a run in a clone's examples/, from where it finds python/, with the program on PATH."""
    folder = tmp_path_factory.mktemp('clone')
    shutil.copytree(os.path.join(TOP, 'python'), folder / 'python', ignore=shutil.ignore_patterns('tests', '__pycache__'))
    shutil.copytree(os.path.join(TOP, 'examples'), folder / 'examples', ignore=shutil.ignore_patterns('*.trace'))
    ran = executed(folder / 'examples' / 'lecture.ipynb', PATH=f'{os.path.dirname(BUILT)}:{os.environ["PATH"]}', PYTHONPATH='')
    assert {name for name in os.listdir(folder / 'examples') if not name.endswith('.txt')} == {
        'lecture.ipynb', 'ran.ipynb', 'codel_enters_drop_state.commands', 'two_timeouts_in_a_row.commands'}
    return ran


def test_it_runs_from_top_to_end(run):
    assert [cell['execution_count'] for cell in run] == list(range(1, len(run) + 1))
    assert not [output for cell in run for output in cell['outputs'] if output['output_type'] == 'error' or output.get('name') == 'stderr']


def test_pictures_and_the_page_are_shown_once(run):
    for cell in run:
        source, (kinds, _) = ''.join(cell['source']), shown(cell)
        assert ('image/png' in kinds) == ('.plot(' in source)
        if '.plot(' in source or '.replay(' in source:
            assert len(cell['outputs']) == 1
        if '.replay(' in source:
            assert '<iframe srcdoc=' in ''.join(cell['outputs'][0]['data']['text/html'])
    assert sum('.plot(' in ''.join(cell['source']) for cell in run) == 5
    assert sum('text/html' in shown(cell)[0] for cell in run) == 2


def test_a_picture_is_shown_once_in_a_cell_and_again_in_another(tmp_path):
    sources = ['import tcpsim; import matplotlib.pyplot as plt; run = tcpsim.run(tcpsim.dumbbell(flows=1, rate="1M", end="1s"))',
               'picture = run.plot("queue"); 1', 'picture', 'run.plot("queue")', 'run', 'figure = plt.figure(); plt.plot([1, 2])']
    new = {'cells': [{'cell_type': 'code', 'id': f'c{at}', 'metadata': {}, 'source': source, 'outputs': [], 'execution_count': None}
                     for at, source in enumerate(sources)],
           'metadata': {'kernelspec': {'display_name': 'Python 3', 'language': 'python', 'name': 'python3'}}, 'nbformat': 4, 'nbformat_minor': 5}
    (tmp_path / 'here').mkdir()
    (tmp_path / 'here' / 'mine.ipynb').write_text(json.dumps(new))
    ran = executed(tmp_path / 'here' / 'mine.ipynb', PYTHONPATH=os.path.join(TOP, 'python'))
    kinds = [[kind for output in cell['outputs'] for kind in output.get('data', {}) if kind != 'text/plain'] for cell in ran]
    # The last is a picture of the notebook's own, which the package leaves to the notebook.
    assert kinds == [[], ['image/png'], ['image/png'], ['image/png'], ['text/html'], ['image/png']]


def test_it_says_what_the_text_says(run):
    said = '\n'.join(shown(cell)[1] for cell in run)
    for words in ('0.1 s     5.9 segments', 'noticed at 42.60 ms, by duplicate 3; ssthresh is 11500 bytes', 'the page takes 3.01 s',
                  'CoDel      page  0.19 s', "Jain's index 1.000", "'fairqueue': 95"):
        assert words in said
