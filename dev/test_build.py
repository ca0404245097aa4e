"""Tests of dev/build.py without the prover: in which order it proves crates, and what it keeps for the page with the
simulator."""
import functools
import json
import os
import subprocess
import sys

import pytest

import build
import functions


@pytest.fixture
def clone(tmp_path, monkeypatch):
    """A clone of two crates below the program's, in which nothing is made yet."""
    top = build.TOP
    for name in ('TOP', 'KEPT', 'MADE', 'MODULE', 'RECORD'):
        monkeypatch.setattr(build, name, getattr(build, name).replace(top, str(tmp_path), 1))
    os.makedirs(build.KEPT)
    for crate in ('low', 'high', build.PROGRAM):
        os.makedirs(tmp_path / 'crates' / crate / 'src')
        (tmp_path / 'crates' / crate / 'src' / 'lib.rt').write_text(f'// {crate}\n')
    return tmp_path


LIBRARIES = {'low': ['std'], 'high': ['low'], build.PROGRAM: ['high']}


def test_what_the_longest_chain_waits_for_is_proved_first(clone):
    """It gets the processors that the others leave, and two at least; the others get one, and give way."""
    lines = {'wide': 40, 'low': 20, 'small': 1, 'middle': 25, 'high': 20}
    libraries = {'wide': [], 'small': [], 'low': ['std'], 'middle': ['low'], 'high': ['small', 'middle', 'low']}
    for name, count in lines.items():
        os.makedirs(clone / 'crates' / name / 'src', exist_ok=True)
        (clone / 'crates' / name / 'src/lib.rt').write_text('\n' * count)
    crates = build.crates_of(libraries, libraries, dict.fromkeys(libraries, 'sum'))
    assert [(it.name, it.chain) for it in crates] == [('low', 65), ('middle', 45), ('wide', 40), ('small', 21), ('high', 20)]

    begun = []
    for it in crates:
        it.start = functools.partial(lambda start, words, gives_way: begun.append((*words, gives_way)) or start(['true'], False), it.start)
    assert build.prove(crates, len(crates), 3, lambda name, jobs: [name, jobs]) is None
    assert begun[:3] == [('low', 2, False), ('wide', 1, True), ('small', 1, True)]
    assert [it[0] for it in begun[3:]] == ['middle', 'high'] and all(it.is_kept() for it in crates)
    os.remove(crates[-1].mark())
    assert build.prove(crates, len(crates), 3, lambda name, jobs: [name, jobs]) is None
    assert begun[5:] == [('high', 3, False)]


# A prover that is played: a check works for 0.3 seconds after it said that it is done with `zero`, and then says so of `one`,
# and at once of `two`; a build takes a check's verdict.
PROVER = f"""#!{sys.executable}
import os, sys, time
words = sys.argv[1:]
if words[0] == 'check':
    print('checked low::zero, 1 of 3', flush=True)
    begun = time.process_time()
    while time.process_time() - begun < 0.3:
        pass
    print('checked low::one, 2 of 3', flush=True)
    print('checked low::Two::two, 3 of 3', flush=True)
    os.makedirs(words[words.index('-o') + 1])
elif not os.path.isdir(words[words.index('--crate-checked') + 1]) or '--jobs' in words:
    sys.exit('there is no check')
print('logic=proved functions=2 sum=1')
"""


def test_what_each_function_costs_is_kept(clone, monkeypatch, capfd):
    kit = clone / 'kit'
    os.makedirs(kit / 'bin')
    (kit / 'bin/rattle').write_text(PROVER)
    os.chmod(kit / 'bin/rattle', 0o755)
    monkeypatch.setattr(build, 'toolchain', lambda: str(kit))
    monkeypatch.setattr(build, 'declared', lambda: LIBRARIES)
    with pytest.raises(build.Refused, match='low was not counted'):
        functions.tell('low', 1)
    assert functions.proved('low') == 0 and not os.path.exists(f'{build.KEPT}/low.checked')
    assert 'logic=proved' in capfd.readouterr().out
    costs = functions.kept('low')['functions']
    assert list(costs) == ['one', 'Two::two'] and costs['one'] > 0.2 > costs['Two::two']
    functions.tell('low', 0.2)
    lines = capfd.readouterr().out.splitlines()
    assert lines[1].endswith('  up to the end of the first, zero') and lines[2] == f'{costs["one"]:8.1f}  one'
    functions.tell_dearest(LIBRARIES)
    assert capfd.readouterr().out.splitlines()[2:4] == [f'| low | `one` | {costs["one"]:.1f} |', f'| low | `Two::two` | {costs["Two::two"]:.1f} |']


def test_the_compiler_keeps_its_module(clone):
    """It is called with the words that it was given, and its module is kept; the other tools are the toolchain's."""
    kit = clone / "a kit's"
    tools = kit / 'toolchain' / 'bin'
    os.makedirs(tools)
    os.makedirs(kit / 'toolchain' / 'lib')
    (tools / 'clang').write_text('#!/bin/sh\nprintf "%s\\n" "$@"\nexit 3\n')
    (tools / 'ld.lld').write_text('#!/bin/sh\n')
    os.chmod(tools / 'clang', 0o755)
    made = build.keeping_toolchain(str(kit))
    module = clone / 'some module.bc'
    module.write_bytes(b'BC\xc0\xde')
    done = subprocess.run([f'{made}/bin/clang', '-x', 'ir', str(module), '-o', 'a.o'], capture_output=True, text=True, check=False)
    assert (done.returncode, done.stdout.splitlines()) == (3, ['-x', 'ir', str(module), '-o', 'a.o'])
    with open(build.MODULE, 'rb') as file:
        assert file.read() == b'BC\xc0\xde'
    assert os.path.realpath(f'{made}/bin/ld.lld') == str(tools / 'ld.lld')


def test_a_record_names_what_is_there(clone):
    for path, data in ((build.MODULE, b'module'), (build.MADE, b'program')):
        with open(path, 'wb') as file:
            file.write(data)
    log = f'{build.KEPT}/{build.PROGRAM}.log'
    with open(log, 'w', encoding='utf-8') as file:
        file.write('so far: 3\n')
    with pytest.raises(build.Refused, match='no verdict'):
        build.keep_record('sum')
    with open(log, 'a', encoding='utf-8') as file:
        file.write('logic=proved functions=7 sum=1\n')
    build.keep_record('sum')
    assert build.module_record('sum')['verdict'] == 'logic=proved functions=7 sum=1'
    assert build.has_module('sum') and not build.has_module('another')
    with open(build.MADE, 'ab') as file:
        file.write(b'!')
    with pytest.raises(build.Refused, match='tcpsim is not the program of that proof'):
        build.module_record()
    with open(build.RECORD, 'w', encoding='utf-8') as file:
        json.dump([], file)
    with pytest.raises(build.Refused, match='no record'):
        build.module_record()
    build.forget_module()
    with pytest.raises(build.Refused, match='is not there'):
        build.module_record()


def test_what_the_gate_left_is_used_while_it_is_newer(clone):
    """Statements are taken that are newer than their crate and those below it, and kept where none are."""
    names = build.below(build.PROGRAM, LIBRARIES)
    assert build.left_by_the_gate(names) is None
    places = {it: f'{build.TOP}/crates/{it}/out/rlib' for it in ('low', 'high')}
    for name, place in places.items():
        os.makedirs(f'{place}/{name}.rlib')
        with open(f'{place}/{name}.rlib/statements', 'w', encoding='utf-8'):
            pass
    assert build.left_by_the_gate(names) == places
    words = build.words_of(build.PROGRAM, '/kit', 1, LIBRARIES, places, '/tools')
    assert f'high={places["high"]}/high.rlib' in words and f'dependency={places["low"]}' in words
    assert words[words.index('--toolchain') + 1] == '/tools' and f'dependency={build.KEPT}' not in words
    with open(f'{places["high"]}/stamp', 'w', encoding='utf-8'):
        pass
    crates = build.crates_of(LIBRARIES, LIBRARIES, dict.fromkeys(LIBRARIES, 'sum'))
    build.take_from_the_gate(crates, LIBRARIES)
    assert [it.name for it in crates if it.is_kept()] == ['low'] and os.path.isfile(f'{build.KEPT}/low.rlib/statements')
    later = os.path.getmtime(f'{places["high"]}/high.rlib') + 5
    os.utime(f'{build.TOP}/crates/low/src', (later, later))
    assert build.left_by_the_gate(names) is None


def test_the_parts_of_a_function():
    for module, whose, part in (
        ('Rattle-low-proofs.part.Kind.made.Lts', 'part.Kind.made', 'walk'),
        ('Rattle-low-proofs.part.Kind.made.Lts.View', 'part.Kind.made', 'walk'),
        ('Rattle-low-proofs.part.Kind.made.Kinds-2-0-0-1', 'part.Kind.made', 'others'),
        ('Rattle-low-proofs.made.Answers', 'made', 'goals'),
        ('Rattle-low-proofs.Lemmas', 'Rattle-low-proofs.Lemmas', 'others'),
    ):
        assert functions.part_of(module) == (whose, part)
    assert [functions.used_at(it, [(1, 0), (3, 4)]) for it in (0, 1, 2, 3, 9)] == [0, 0, 2, 4, 4]
