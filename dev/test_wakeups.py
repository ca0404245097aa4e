"""Tests that no wake-up of the thread pool is lost.

spin searches the model dev/spin/thread_pool.pml whole, for two and for three threads, and has to refuse the models that
are wrong. The model has each line of the functions that it stands for, in their order. The tests of crates/thread_pool
find wrong lines by what the pool then does, but hardly a wake-up that is lost between two steps; spin does.
"""
import os
import re
import shutil
import subprocess

import pytest

from clone import TOP, read_text

MODEL = os.path.join(TOP, 'dev', 'spin', 'thread_pool.pml')
SOURCES = os.path.join(TOP, 'crates', 'thread_pool', 'src')
TWO_THREADS = {'WORKERS': 1, 'ROUNDS': 2}
THREE_THREADS = {'WORKERS': 2, 'ROUNDS': 1}
# Each wrong model, by how many threads it is searched, and what spin has to say of it.
WRONG = [
    ('NOTIFIES_AFTER_THE_LOCK', TWO_THREADS, 'invalid end state'),
    ('NOTIFIES_AFTER_THE_LOCK', THREE_THREADS, 'invalid end state'),
    ('SLEEPS_WITHOUT_ANOTHER_LOOK', TWO_THREADS, 'invalid end state'),
    ('ALL_AT_THE_FIRST_MAILBOX', THREE_THREADS, 'invalid end state'),
    ('COUNTS_AFTER_IT_GIVES', TWO_THREADS, 'assertion violated'),
    ('LEAVES_WHAT_IT_TAKES_BACK', TWO_THREADS, 'assertion violated'),
    ('GOES_WITH_A_JOB_THERE', TWO_THREADS, 'assertion violated'),
]
# Lines that are no step: braces, clauses, and what can't be reached.
NO_STEP = re.compile(r'[{}();, ]*|\} else \{|requires \{.*\}|unreachable!\(\)|//.*')


def core_sources():
    """The folder of the toolchain's core crate, of which the model has the condition variable; None where there is no
    toolchain."""
    if not shutil.which('rt'):
        return None
    page = subprocess.run(['rt', 'doc'], capture_output=True, text=True, check=True).stdout.strip()
    return os.path.join(os.path.dirname(page), 'rattle', 'core', 'src')


def steps_of(source, name):
    """The lines of a function's body in Rust, as `rt fmt` lays it out, but those that are no step."""
    lines = read_text(source).splitlines()
    head = next(at for at, line in enumerate(lines) if re.search(rf'\bfn {name}\b', line))
    begin = next(at for at in range(head, len(lines)) if lines[at].endswith('{'))
    indent = lines[head][:len(lines[head]) - len(lines[head].lstrip())]
    end = lines.index(f'{indent}}}', begin)
    body = [line.strip() for line in lines[begin + 1:end]]
    return [line for line in body if not NO_STEP.fullmatch(line)]


def functions_of_model():
    """Each function that the model stands for: (file, name, the lines that it cites)."""
    found = re.findall(r'^/\* ([\w. ]+\.rt): (?:pub )?fn (\w+) \*/\n(.*?)\n\}', read_text(MODEL), re.M | re.S)
    return [(place, name, re.findall(r'/\* (.*?) \*/', body)) for place, name, body in found]


def searched(folder, defines, *options):
    """What spin says of a model with these defines, searched whole."""
    words = [f'-D{name}={value}' for name, value in defines.items()]
    subprocess.run(['spin', *words, '-a', MODEL], cwd=folder, check=True, capture_output=True)
    subprocess.run(['cc', '-O1', '-w', *options, '-o', 'pan', 'pan.c'], cwd=folder, check=True, capture_output=True)
    # A way that is longer than -m says is an error, by -b; cycles are searched for where that is asked, by -l.
    words = ['./pan', '-b', '-m20000', *(['-l'] if '-DNP' in options else [])]
    return subprocess.run(words, cwd=folder, check=True, capture_output=True, text=True).stdout


# ---- the model has the lines of the code


def test_each_function_has_its_lines():
    core = core_sources()
    functions = functions_of_model()
    assert len(functions) == 17
    for place, name, cited in functions:
        folder = core if place.startswith('core ') else SOURCES
        if folder is None:
            continue
        assert cited == steps_of(os.path.join(folder, place.split()[-1]), name)


# ---- what spin finds

wants_spin = pytest.mark.wants(spin='spin', cc='gcc')


@wants_spin
@pytest.mark.parametrize('defines', [TWO_THREADS, THREE_THREADS])
@pytest.mark.parametrize('option', ['-DSAFETY', '-DNP'])
def test_threads_wake_each_other_and_the_end_comes(tmp_path, defines, option):
    """By -DNP: no state is met twice on one way, so each way ends."""
    assert 'errors: 0' in searched(tmp_path, defines, option)


@wants_spin
@pytest.mark.parametrize('name, threads, fault', WRONG)
def test_wrong_models_are_refused(tmp_path, name, threads, fault):
    assert f'pan:1: {fault}' in searched(tmp_path, {**threads, name: 1}, '-DSAFETY')
