"""Tests of the built program beside the model of python/tcpsim_model on every systematic text and image: each word
left out, doubled and replaced, each byte of two images changed and each of their numbers at every bound, each cut,
and two faults at once."""
import os
import sys

import pytest

from clone import PROGRAM, TOP, ran


@pytest.mark.built
def test_systematic_inputs():
    done = ran(sys.executable, os.path.join(TOP, 'dev', 'compare.py'), '--kind', 'texts,images', '--systematic', '--program', PROGRAM,
               '--jobs', str(len(os.sched_getaffinity(0))), text=True, timeout=1800)
    assert done.returncode == 0, done.stdout
    assert done.stderr == ''
