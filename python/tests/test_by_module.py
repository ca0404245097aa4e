"""Tests of `python3 -m tcpsim SUBCOMMAND` and of `python3 -m tcpsim.commands.SUBCOMMAND`, beside tcpsim-SUBCOMMAND."""
import os
import sys

import pytest

import clone
from clone import BIN, PROGRAM, TOP, paths

COMMANDS = sorted(name.removeprefix('tcpsim-') for name in os.listdir(BIN) if name.startswith('tcpsim-'))
SCENARIO = paths('two_timeouts_in_a_row')[0]


def ways(command):
    """How a command is called, its script first."""
    return ([os.path.join(BIN, f'tcpsim-{command}')], ['-m', 'tcpsim', command], ['-m', f'tcpsim.commands.{command}'])


def ran(*words):
    """Status, standard output and standard error."""
    done = clone.ran(sys.executable, *words, text=True, env={**os.environ, 'PYTHONPATH': os.path.join(TOP, 'python')})
    return done.returncode, done.stdout, done.stderr


@pytest.mark.parametrize('command', COMMANDS)
def test_all_three_say_the_same(command):
    for words in (['--version'], ['--no-such-option']):
        script, *others = (ran(*way, *words) for way in ways(command))
        assert others == [script] * 2
        assert script[1].startswith(f'tcpsim-{command} ') if words == ['--version'] else script[0] != 0


@pytest.mark.parametrize('command, words', [
    ('flows', [SCENARIO, '--program', PROGRAM]), ('net', ['islands', '--end', '1s']), ('stalls', [SCENARIO, '--program', PROGRAM]),
    ('sweep', [SCENARIO, '--set', 'a.lose=none,5', '--program', PROGRAM, '-j', '1']), (
        'find', [SCENARIO, '--vary', 'a.queue=droptail:1..2', '--least', '--so-that', 'a.sent > 0', '--program', PROGRAM, '-j', '1']), ('model', ['run', SCENARIO])])
def test_all_three_do_the_same(command, words):
    script, *others = (ran(*way, *words)[:2] for way in ways(command))
    assert others == [script] * 2
    assert script[0] == 0 and len(script[1]) > 100


def test_scripts_are_alike():
    """So each hears Ctrl-C from its first line on."""
    def text(command):
        with open(os.path.join(BIN, f'tcpsim-{command}'), encoding='ascii') as file:
            return file.read().split('\n', 2)[2].replace(f'tcpsim.commands.{command} ', '')
    assert {command: text(command) == text('flows') for command in COMMANDS} == dict.fromkeys(COMMANDS, True)


def test_the_jobs_of_a_sweep_call_its_script(tmp_path):
    assert ran('-m', 'tcpsim', 'sweep', SCENARIO, '--set', 'a.lose=none', '--print', str(tmp_path / 'jobs'), '--program', PROGRAM)[0] == 0
    assert os.path.join(BIN, 'tcpsim-sweep') in (tmp_path / 'jobs' / 'jobs').read_text()


def test_which_subcommands_there_are():
    status, output, note = ran('-m', 'tcpsim')
    assert (status, note) == (0, '') and output.endswith(f'SUBCOMMAND is {", ".join(COMMANDS)}\n')
    assert ran('-m', 'tcpsim', '--help') == (status, output, note)
    status, output, note = ran('-m', 'tcpsim', 'sweeps')
    assert (status, output, note.count('\n')) == (2, '', 1) and note.startswith("tcpsim: 'sweeps' is no subcommand: usage: ")
    assert ran('-m', 'tcpsim', '--version')[1].startswith('tcpsim 0.')
