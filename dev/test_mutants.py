"""Tests of mutants.py, on a tree of three crates and with a prover that is played. What a mutant writes into its crate says what
the prover then does: it refuses what has `2`, cannot read `unread`, waits at `waits`, and proves all else."""
import os
import shutil
import signal
import subprocess
import sys
import time

import pytest

from clone import TOP, ran, until

TOOLCHAIN = 'rattle-kit-1 logic abc'
RT = f'''#!/bin/sh
case $1 in version) echo '{TOOLCHAIN}';; doc) echo "${{0%/bin/rt}}/START-HERE.md";; esac
'''
RATTLE = '''#!/bin/sh
case $(cat src/lib.rt) in
  *waits*) echo $$ > ../waits; exec sleep 600;;
  *unread*) echo 'src/lib.rt:1:1: error: `unread` is not in scope'; echo 'logic=not-proved'; exit 1;;
  *2*) echo 'src/lib.rt:1:1: error: `one`: the clause does not hold'; echo 'logic=not-proved'; exit 1;;
esac
echo 'logic=proved'
'''
EDIT = 'file: src/lib.rt\nold: 1\nnew: 2\n'


@pytest.fixture
def tree(tmp_path, put):
    """A tree of crates, of which two have a mutant, and `low` one in the gate; and what the gate left of it."""
    for folder in ('dev', 'bench', 'bin', *(f'crates/{it}/src' for it in ('low', 'high', 'bare')), 'crates/low/must-fail',
                   'crates/low/mutants', 'crates/high/mutants'):
        (tmp_path / folder).mkdir(parents=True)
    for script in ('mutants', 'build', 'pass_gate'):
        shutil.copy(os.path.join(TOP, 'dev', f'{script}.py'), tmp_path / 'dev')
    put('bin/rt', RT, 0o755)
    put('bin/rattle', RATTLE, 0o755)
    put('README.md', f'`{TOOLCHAIN}`')
    put('crates.txt', 'low: std\nhigh: low\nbare: high low\n')
    for name in ('low', 'high', 'bare'):
        put(f'crates/{name}/src/lib.rt', 'fn one() -> u64 { 1 }\n')
        (tmp_path / f'crates/{name}/out/rlib/{name}.rlib/lang').mkdir(parents=True)
    for edit in ('low/must-fail/guarded', 'low/mutants/two', 'high/mutants/two'):
        put(f'crates/{edit}.edit', EDIT)
    return tmp_path


@pytest.fixture
def tried(tree):
    """Runs the script of the tree, with these constants in the place of its own; answers its status, what it printed and
    what it complained of."""
    def run(*words, ci='', **constants):
        env = {**os.environ, 'PATH': f'{tree}/bin:{os.environ["PATH"]}', 'CI': ci, 'TMPDIR': str(tree)}
        code = f'import mutants; vars(mutants).update({constants!r}); mutants.main()'
        done = ran(sys.executable, '-Bc', code, *words, env=env, cwd=tree / 'dev', text=True)
        return done.returncode, done.stdout.splitlines(), done.stderr
    return run


def record(tree):
    return [line.split(',') for line in (tree / 'bench/mutants.csv').read_text().splitlines()]


def test_every_mutant_beside_the_gate_is_tried_and_recorded(tried, tree):
    status, lines, said = tried()
    assert (status, lines[-1], said) == (0, '2 refused, 0 failed', '')
    assert 'crates/low/mutants/two.edit: refused, as it must be' in lines
    head, *rows = record(tree)
    assert head == ['crate', 'sum', 'refused', 'date', 'toolchain']
    assert [(row[0], row[2], row[4]) for row in rows] == [('low', '1', TOOLCHAIN), ('high', '1', TOOLCHAIN)]


def test_one_that_is_accepted_unread_or_does_not_fit_has_failed(tried, tree, put):
    tried()
    put('crates/high/mutants/accepted.edit', EDIT.replace('2', '3'))
    put('crates/high/mutants/gone.edit', EDIT.replace('1', '7'))
    put('crates/high/mutants/word.edit', EDIT.replace('2', 'unread'))
    status, lines, _ = tried('high')
    assert (status, lines[-1]) == (1, '1 refused, 3 failed')
    assert 'crates/high/mutants/accepted.edit: FAILED: NOT REFUSED: the crate is still proved with this edit' in lines
    assert "crates/high/mutants/gone.edit: FAILED: an 'old:' text is in src/lib.rt 0 times, and not once" in lines
    assert any(it.startswith('crates/high/mutants/word.edit: FAILED: the prover cannot read the edited text') for it in lines)
    assert [row[0] for row in record(tree)] == ['crate', 'low']
    status, lines, _ = tried('--check')
    assert (status, lines[-1]) == (1, '5 can be applied, 1 failed')


def test_where_there_is_nothing_to_try_it_fails(tried, tree):
    status, lines, said = tried('bare')
    assert (status, lines) == (1, []) and said == 'there is nothing to try: none of 1 crates has a folder mutants/ with an edit\n'
    for name in ('low', 'high'):
        shutil.rmtree(tree / f'crates/{name}/mutants')
    assert tried()[0] == 1


def test_the_clone_has_mutants_to_try():
    """Else a folder has another name than the one that is looked for."""
    done = ran(sys.executable, os.path.join(TOP, 'dev', 'mutants.py'), '--check', text=True)
    assert done.returncode == 0 and int(done.stdout.split()[0]) > 300


def test_a_crate_that_is_not_proved_or_has_nothing_below_it_has_failed(tried, tree, put):
    put('crates/low/src/lib.rt', 'fn one() -> u64 { 1 } // 2\n')
    status, lines, _ = tried()
    assert (status, lines[-1]) == (1, '0 refused, 2 failed')
    assert 'crates/low/mutants/two.edit: FAILED: not tried, as low itself is not proved: logic=not-proved' in lines
    assert 'high: of what it stands on nothing is kept; `make run` proves and keeps that' in lines
    assert [row[0] for row in record(tree)] == ['crate']


def test_the_tests_name_what_changed_since_and_try_it_where_they_are_the_gate(tried, tree, put):
    status, lines, _ = tried('--due')
    assert (status, lines) == (0, ['mutants to try again, of 2 crates (`make mutants`): low high'])
    tried()
    assert tried('--due', ci='true')[1] == ['mutants to try again, of 0 crates (`make mutants`): none']
    before = record(tree)
    put('crates/low/mutants/three.edit', EDIT.replace('2', '32'))
    assert tried('--due')[1] == ['mutants to try again, of 1 crates (`make mutants`): low']
    status, lines, _ = tried('--due', ci='true')
    assert (status, lines[-1]) == (0, '2 refused, 0 failed; left out for want of time: none, for want of a record: none')
    put('crates/low/mutants/accepted.edit', EDIT.replace('2', '3'))
    status, lines, _ = tried('--due', ci='true')
    assert (status, lines[-1]) == (1, '2 refused, 1 failed; left out for want of time: none, for want of a record: none')
    assert record(tree) == before


def test_the_most_changed_comes_first(tried, tree, put):
    def commit(day):
        env = {**os.environ, **{f'GIT_{who}_{what}': 'a@b' for who in ('AUTHOR', 'COMMITTER') for what in ('NAME', 'EMAIL')},
               'GIT_COMMITTER_DATE': f'{day} 12:00:00 +0000'}
        for words in (['init', '-q'], ['add', 'crates'], ['commit', '-qm', 'what']):
            assert ran('git', *words, cwd=tree, env=env).returncode == 0
    commit('2020-01-01')
    tried()
    put('crates/low/src/lib.rt', 'fn one() -> u64 { 1 }\n\n')
    put('crates/high/src/lib.rt', 'fn one() -> u64 { 1 }\n\n\n\n')
    commit('2099-01-01')
    assert tried('--due')[1] == ['mutants to try again, of 2 crates (`make mutants`): high low']
    put('bench/mutants.csv', (tree / 'bench/mutants.csv').read_text().replace('high', 'gone'))
    put('crates/low/src/lib.rt', 'fn one() -> u64 { 1 }\n' + '\n' * 20)
    commit('2099-01-02')
    assert tried('--due')[1] == ['mutants to try again, of 2 crates (`make mutants`): low high']


def test_it_says_what_it_has_no_time_for(tried, tree, put):
    status, lines, _ = tried('--due', ci='true')
    assert (status, lines[-1]) == (0, '0 refused, 0 failed; left out for want of time: none, for want of a record: low high')
    tried()
    put('crates/low/mutants/waits.edit', EDIT.replace('2', 'waits'))
    status, lines, _ = tried('--due', 'low', ci='true', TRYING=2)
    assert (status, lines[-1]) == (0, '1 refused, 0 failed; left out for want of time: low, for want of a record: none')
    begun = int(time.time()) - 131 * 60
    status, lines, _ = tried('--due', '--begun', str(begun), ci='true')
    assert (status, lines[-1]) == (0, 'none is tried: `make test` began 131 minutes ago')


def test_it_takes_its_folder_and_its_prover_away_when_it_is_ended(tree, put):
    put('crates/low/mutants/waits.edit', EDIT.replace('2', 'waits'))
    env = {**os.environ, 'PATH': f'{tree}/bin:{os.environ["PATH"]}', 'TMPDIR': str(tree)}
    process = subprocess.Popen([sys.executable, '-B', tree / 'dev/mutants.py'], env=env, stdin=subprocess.DEVNULL, stdout=subprocess.DEVNULL)
    until(lambda: any(it.read_text().strip() for it in tree.glob('mutants-*/*/waits')), 'no prover is asked')
    prover, = (int(it.read_text()) for it in tree.glob('mutants-*/*/waits'))
    process.send_signal(signal.SIGTERM)
    assert process.wait(60) == 128 + signal.SIGTERM and not list(tree.glob('mutants-*'))
    with pytest.raises(ProcessLookupError):
        os.kill(prover, 0)
