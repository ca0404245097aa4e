"""Tests of what is kept of the gate for the manifest of `make dist` and for the page: in a copy, with a gate that is played."""
import json
import os
import shutil
import signal
import subprocess
import sys

import pytest

from clone import TOP, until

RT = '''#!/bin/sh
[ "$1" = ci ] || { echo 'kit-1 logic abc'; exit 0; }
[ -z "$PROVES" ] || (cd crates/tcpsim && exec sh -c "$PROVES" rattle build --crate-name tcpsim)
echo first; echo "$SAID"; echo told >&2
[ -z "$WAITS" ] || { echo $$ > waits; exec sleep 60; }
exit "$STATUS"
'''
# A prover whose compiler works in a folder of its own until its module was taken; then it has made the program.
PROVES = '''
echo '== tcpsim'; echo 'logic=proved functions=1'; echo 'rt: tcpsim proved'; echo '== other'; echo 'logic=proved functions=2'
mkdir out ../../room; printf BC > ../../room/module.bc
(cd ../../room && exec sh -c 'until [ -s ../out/gate.bc ]; do sleep 0.1; done' clang -x ir module.bc)
printf program > out/tcpsim
'''
KEPT = 'import pass_gate as it; print(it.kept().get("last line"), it.kept().get("crates") == it.sum_of_crates())'


@pytest.fixture
def tree(tmp_path):
    """A tree with one crate, and a function that passes its gate."""
    (tmp_path / 'dev').mkdir()
    for script in ('pass_gate', 'build'):
        shutil.copy(os.path.join(TOP, 'dev', f'{script}.py'), tmp_path / 'dev')
    (tmp_path / 'crates/one/src').mkdir(parents=True)
    (tmp_path / 'crates/one/src/lib.rt').write_text('fn one() {}\n')
    (tmp_path / 'crates.txt').write_text('one:\n')
    (tmp_path / 'bin').mkdir()
    (tmp_path / 'bin/rt').write_text(RT)
    (tmp_path / 'bin/rt').chmod(0o755)
    return tmp_path


def words(tree, said, status=0, waits='', proves=''):
    path = f'{tree}/bin:{os.environ["PATH"]}'
    return {'args': [sys.executable, '-B', tree / 'dev/pass_gate.py'], 'cwd': tree, 'stdin': subprocess.DEVNULL,
            'env': {'PATH': path, 'SAID': said, 'STATUS': str(status), 'WAITS': waits, 'PROVES': proves}}


def kept(tree):
    done = subprocess.run([sys.executable, '-B', '-c', KEPT], cwd=tree / 'dev', capture_output=True, text=True, check=True)
    return done.stdout.split('\n')[0]


@pytest.mark.parametrize('said, status', [('12 passed, 0 failed', 0), ('11 passed, 1 failed', 1)])
def test_the_last_line_is_kept_whatever_it_is(tree, said, status):
    done = subprocess.run(**words(tree, said, status), capture_output=True, text=True, check=False)
    assert (done.returncode, done.stdout, done.stderr) == (status, f'first\n{said}\n', 'told\n')
    facts = (tree / 'out/gate.txt').read_text().splitlines()
    assert facts[1] == 'toolchain: kit-1 logic abc' and facts[3] == f'last line: {said}'
    assert kept(tree) == f'{said} True'


def test_it_is_of_no_other_crates(tree):
    subprocess.run(**words(tree, '12 passed, 0 failed'), capture_output=True, check=True)
    (tree / 'crates/one/out').mkdir()
    (tree / 'crates/one/out/one').write_text('built')
    assert kept(tree) == '12 passed, 0 failed True'
    (tree / 'crates/one/src/lib.rt').write_text('fn two() {}\n')
    assert kept(tree) == '12 passed, 0 failed False'


def test_a_gate_that_did_not_end_leaves_nothing(tree):
    subprocess.run(**words(tree, '12 passed, 0 failed'), capture_output=True, check=True)
    done = subprocess.run(**words(tree, 'rt: there is no room', 4), capture_output=True, check=False)
    assert done.returncode == 4 and kept(tree) == 'None False'
    process = subprocess.Popen(**words(tree, '12 passed, 0 failed', waits='1'), stdout=subprocess.DEVNULL, stderr=subprocess.DEVNULL)
    until((tree / 'waits').exists, 'no gate begins')
    process.send_signal(signal.SIGTERM)
    assert process.wait(60) == 128 + signal.SIGTERM and kept(tree) == 'None False'


@pytest.mark.parametrize('changes', [False, True])
def test_the_module_is_kept_of_which_the_gate_made_the_program(tree, changes):
    """But not where a file changed meanwhile."""
    (tree / 'crates/tcpsim/src').mkdir(parents=True)
    (tree / 'crates/tcpsim/src/main.rt').write_text('fn main() {}\n')
    (tree / 'crates.txt').write_text('tcpsim:\n')
    (tree / 'README.md').write_text('`kit-1 logic abc`'.replace('kit', 'rattle-kit'))
    (tree / 'bin/rt').write_text(RT.replace('kit-1', 'rattle-kit-1'))
    proves = PROVES + 'echo >> src/main.rt\n' * changes
    done = subprocess.run(**words(tree, '12 passed, 0 failed', proves=proves), capture_output=True, text=True, check=False)
    assert (done.returncode, done.stderr) == (0, 'told\n')
    if changes:
        assert not (tree / 'crates/tcpsim/out/tcpsim.module').exists()
        return
    assert (tree / 'crates/tcpsim/out/tcpsim.bc').read_text() == 'BC'
    assert json.loads((tree / 'crates/tcpsim/out/tcpsim.module').read_text())['verdict'] == 'logic=proved functions=1'
    fits = 'import build as it; k, n = it.toolchain(), it.declared(); print(it.has_module(it.sums_of(n, k, n)["tcpsim"]))'
    done = subprocess.run(**{**words(tree, ''), 'args': [sys.executable, '-Bc', fits], 'cwd': tree / 'dev'}, capture_output=True, text=True, check=False)
    assert done.stdout == 'True\n'
