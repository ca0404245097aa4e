"""Tests of check.py. Nothing is proved: what is tried is which words the prover would be given, and what is refused before
that."""
import os
import sys

import build
import check

from clone import TOP, ran


def said(*words):
    return ran(sys.executable, os.path.join(TOP, 'dev', 'check.py'), *words, text=True)


def words_for(name, *more):
    return check.words_for(name, list(more), build.declared(), build.toolchain())


def test_a_crate_is_checked_over_the_statements_below_it_and_nothing_is_built():
    words = words_for('port', '--only', 'send')
    assert words[1:4] == ['check', '--crate-name', 'port']
    assert words[-2:] == ['--only', 'send']
    assert f'aqm={build.KEPT}/aqm.rlib' in words
    assert not {'-o', '--statements', '--toolchain'} & {*words}
    assert words.count('--jobs') == 1


def test_the_program_too_and_with_the_number_of_jobs_that_is_asked_for():
    words = words_for(build.PROGRAM, '--jobs', '3')
    assert f'{build.TOP}/crates/tcpsim/src/main.rt' in words
    assert not {'-o', '--toolchain', '--backend', 'llvm'} & {*words}
    assert words[words.index('--jobs') + 1] == '3'
    assert words.count('--jobs') == 1


def test_tests_have_a_folder_of_their_own():
    plain, tests = (words[words.index('--incremental') + 1] for words in (words_for('aqm'), words_for('aqm', '--test')))
    assert plain != tests


def test_a_crate_that_there_is_not_is_refused():
    done = said('nosuch')
    assert (done.returncode, done.stdout) == (1, '')
    assert done.stderr == 'nothing is checked: crates.txt has no crate nosuch\n'


def test_without_a_crate_it_says_how_it_is_used():
    done = said()
    assert done.returncode == 2
    assert 'dev/check.py CRATE [WORD ..]' in done.stdout
