"""The types of the packages and of dev/, as mypy.ini at the top has mypy check them."""
import sys

import pytest

import clone

pytest.importorskip('mypy', reason='mypy is not there: apt-get install python3-mypy')


def mypy(*words):
    """What mypy says, over what it kept of its last run in out/mypy."""
    return clone.ran(sys.executable, '-m', 'mypy', *words, cwd=clone.TOP, encoding='utf-8')


def test_types_are_right():
    done = mypy()
    assert done.returncode == 0, done.stdout + done.stderr


def test_a_wrong_call_of_the_package_is_found(put):
    wrong = put('wrong.py', "import tcpsim\n\ntcpsim.run('one_segment.txt').time('f0').seconds\ntcpsim.sweep(10)\n")
    said = mypy(wrong).stdout
    assert f'{wrong}:3: error: "FlowTime" has no attribute "seconds"' in said and f'{wrong}:4: error: ' in said, said
