"""Tests of --version and --help of each command, and of a tool that lacks a module, where the end is slow or nobody takes what is
written."""
import os
import subprocess
import sys

import pytest

from clone import BIN, TOP
from tcpsim import VERSIONS

NAMES = sorted(os.listdir(BIN))
# A module that is not there, and an end of Python's that takes a second.
SLOW_END = '''
import sys, time, types
class Slow:
    def __del__(self, sleep=time.sleep):
        sleep(1.2)
sys.modules['kept_to_the_end'] = types.ModuleType('kept_to_the_end')
sys.modules['kept_to_the_end'].it = Slow()
from tcpsim.command_line import run
run('a_module_that_is_not_there')
'''


def called(name, *words, **more):
    more = {'stdout': subprocess.PIPE, **more}
    return subprocess.run([sys.executable, os.path.join(BIN, name), *words], stdin=subprocess.DEVNULL, stderr=subprocess.PIPE,
                          text=True, check=False, timeout=120, **more)


@pytest.mark.parametrize('name', NAMES)
def test_one_line_however_narrow_the_terminal_is(name):
    done = called(name, '--version', env={**os.environ, 'COLUMNS': '20'})
    assert (done.returncode, done.stdout, done.stderr) == (0, f'{name} {VERSIONS}\n', '')


@pytest.mark.parametrize('word', ['--version', '--help'])
@pytest.mark.parametrize('name', ['tcpsim-flows', 'tcpsim-model'])
def test_a_full_disk_and_a_closed_output_are_told(name, word):
    with open('/dev/full', 'w', encoding='ascii') as full:
        done = called(name, word, stdout=full)
    assert (done.returncode, done.stderr) == (1, f'{name}: standard output: No space left on device\n')
    done = called(name, word, stdout=None, preexec_fn=lambda: os.close(1))
    assert (done.returncode, done.stderr) == (1, f'{name}: standard output: it is closed\n')


def test_a_module_that_lacks_ends_python_by_itself():
    """Not by the alarm that wakes a tool."""
    done = subprocess.run([sys.executable, '-c', SLOW_END], capture_output=True, text=True, check=False, timeout=120,
                          env={**os.environ, 'PYTHONPATH': os.path.join(TOP, 'python')})
    assert done.returncode == 1 and "No module named 'a_module_that_is_not_there'" in done.stderr
