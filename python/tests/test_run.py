"""Tests of who runs a scenario: the program, or the model."""
import os
import shutil
import signal
import subprocess
import sys

import pytest

from clone import BIN, MODEL, TOP, ran, read
from tcpsim import estimate

ONE_SEGMENT = os.path.join(TOP, 'examples', 'one_segment.txt')
LONG = os.path.join(TOP, 'examples', 'bufferbloat.txt')


# ---- the model as a process

@pytest.mark.parametrize('command', ['run', 'figures', 'asm', 'dis'])
def test_model_reads_a_file_or_standard_input(command):
    of_file = ran(sys.executable, MODEL, command, ONE_SEGMENT)
    of_input = ran(sys.executable, MODEL, command, input=read(ONE_SEGMENT))
    assert (of_file.returncode, of_file.stderr) == (0, b'')
    assert of_file.stdout == of_input.stdout != b''


def test_model_goes_as_a_package_and_as_a_folder():
    folder = ran(sys.executable, os.path.join(TOP, 'python', 'tcpsim_model'), 'run', ONE_SEGMENT)
    package = ran(sys.executable, '-m', 'tcpsim_model', 'run', ONE_SEGMENT, env={**os.environ, 'PYTHONPATH': os.path.join(TOP, 'python')})
    assert folder.stdout == package.stdout == read(ONE_SEGMENT[:-3] + 'trace')


def test_model_takes_one_file():
    assert ran(sys.executable, MODEL, 'run', ONE_SEGMENT, ONE_SEGMENT).returncode == 2
    missing = ran(sys.executable, MODEL, 'run', 'not-there')
    assert (missing.returncode, missing.stdout, missing.stderr) == (3, b'', b'cannot read not-there\n')


def test_model_says_where_its_output_is_not_taken():
    with open('/dev/full', 'wb') as full:
        done = subprocess.run([sys.executable, MODEL, 'run', LONG], stdout=full, stderr=subprocess.PIPE, check=False)
    assert (done.returncode, done.stderr) == (3, b'write failed\n')
    with subprocess.Popen([sys.executable, MODEL, 'run', LONG], stdout=subprocess.PIPE, stderr=subprocess.PIPE) as process:
        assert process.stdout.readline().startswith(b'1 0 ')
        process.stdout.close()
        assert process.stderr.read() == b'write failed\n'
        assert process.wait() == 3


def test_model_is_interrupted_as_the_program_is():
    with subprocess.Popen([sys.executable, MODEL, 'debug', LONG], stdin=subprocess.PIPE, stdout=subprocess.PIPE,
                          stderr=subprocess.PIPE) as process:
        assert process.stderr.read(1) == b'('       # of the prompt
        process.send_signal(signal.SIGINT)
        assert process.wait(60) == -signal.SIGINT
        assert b'Traceback' not in process.stderr.read()


# ---- where the program is not built

BY_MODEL = b'tcpsim: by the model (the program is not built: make run): the same trace, some 150,000 events a second\n'


@pytest.fixture(scope='module')
def bare(tmp_path_factory):
    """A clone in which nothing is built: a function that runs one of its commands, with no program on PATH."""
    top = tmp_path_factory.mktemp('clone')
    os.mkdir(top / 'crates')
    for name in ('bin', 'python', 'examples'):
        shutil.copytree(os.path.join(TOP, name), top / name, ignore=shutil.ignore_patterns('__pycache__', 'tests'))
    environment = {'PATH': os.path.dirname(sys.executable) + ':/usr/bin:/bin'}
    return lambda name, *words, **more: ran(sys.executable, top / 'bin' / name, *words, env=environment, **more)


@pytest.mark.parametrize('words', [(), ('run',), ('run', '--workers', '2', '--groups', 'each')])
def test_run_gives_the_trace(bare, words):
    done = bare('tcpsim-run', *words, ONE_SEGMENT)
    assert (done.returncode, done.stdout, done.stderr) == (0, read(ONE_SEGMENT[:-3] + 'trace'), BY_MODEL)
    assert bare('tcpsim-run', *words, input=read(ONE_SEGMENT)).stdout == done.stdout


def test_run_goes_on_as_the_other_commands(bare, tmp_path):
    figures = bare('tcpsim-run', 'figures', ONE_SEGMENT)
    assert figures.stdout.startswith(b'what,number,figure,unit,value\n')
    for words in (['--from', '2ms'], ['--every', '1ms', '--names'], ['--series', '--every=1ms']):
        assert bare('tcpsim-run', 'figures', *words, ONE_SEGMENT).stdout == ran(sys.executable, MODEL, 'figures', *words, ONE_SEGMENT).stdout != figures.stdout
    image = tmp_path / 'image'
    image.write_bytes(bare('tcpsim-run', 'asm', ONE_SEGMENT).stdout)
    assert len(image.read_bytes()) == 135
    assert bare('tcpsim-run', 'figures', str(image)).stdout == figures.stdout
    assert bare('tcpsim-run', 'dis', str(image)).stdout.startswith(b'sim 1000000000\nnode n0 sender\n')
    prompt = bare('tcpsim-run', 'debug', ONE_SEGMENT, input=b'step 9\n')
    assert prompt.stdout.splitlines()[:5] == read(ONE_SEGMENT[:-3] + 'trace').splitlines()[:5]


def test_each_tool_says_once_that_the_model_runs(bare, tmp_path):
    for name, *words in (('tcpsim-flows',), ('tcpsim-flows', '--engine'), ('tcpsim-stalls',), ('tcpsim-sweep', '--set', 'end=1s,2s'),
                         ('tcpsim-replay', '-o', str(tmp_path / 'a.html')), ('tcpsim-follow', '--flow', 'f', '--byte', '0')):
        done = bare(name, ONE_SEGMENT, *words)
        assert (done.returncode, done.stderr.count(BY_MODEL)) == (0, 1), (name, done.stderr)


def test_refusals_are_those_of_who_runs(bare, tmp_path):
    wrong = tmp_path / 'wrong.txt'
    wrong.write_text('sim 01\n')
    for file, status, note in ((str(wrong), 1, b'refused E4 line 1\n'), ('not-there', 3, b'cannot read not-there\n')):
        done = bare('tcpsim-run', file)
        assert (done.returncode, done.stdout, done.stderr) == (status, b'', BY_MODEL + note)
    for words in (('a', 'b'), ('--progress', str(wrong)), ('--program', 'not-there', str(wrong)), ('--speed',)):
        done = bare('tcpsim-run', *words)
        assert done.returncode in (1, 2) and done.stdout == b''
        assert done.stderr.removeprefix(BY_MODEL).count(b'\n') == 1, done.stderr


def test_the_model_explains(bare, tmp_path):
    wrong = tmp_path / 'wrong.txt'
    wrong.write_text('sim 10s\n')
    shown = (b'refused E4 line 1', b'sim 10s', b'    ^^^', b'END is a whole number of nanoseconds, 1 to 1000000000000000: write 10000000000')
    for words in (('tcpsim-run',), ('tcpsim-debug',), ('tcpsim-model', 'run'), ('tcpsim-model', 'dis')):
        done = bare(words[0], *words[1:], '--explain', str(wrong))
        assert (done.returncode, done.stdout) == (1, b'')
        assert done.stderr.removeprefix(BY_MODEL).splitlines()[:-1] == list(shown), words


def test_a_word_that_is_no_command(bare, tmp_path, monkeypatch):
    there = b'commands are run, figures, debug, asm, dis, and at the prompt of debug more'
    for words, told in ((('rnu',), b'rnu is no command and no file: the nearest command is run'),
                        (('figure', 'x.txt'), b'figure is no command and no file: the nearest command is figures'),
                        (('why',), b'why is no command and no file: ' + there), (('stalls', 'f0'), b'stalls is no command and no file: ' + there),
                        (('help',), b'help is no command and no file: ' + there)):
        done = bare('tcpsim-run', *words)
        assert (done.returncode, done.stdout, done.stderr) == (2, b'', b'tcpsim-run: ' + told + b'\n')
    (tmp_path / 'rnu').write_bytes(read(ONE_SEGMENT))
    monkeypatch.chdir(tmp_path)
    assert bare('tcpsim-run', 'rnu').stdout == read(ONE_SEGMENT[:-3] + 'trace')


def test_a_capture_of_packets_is_called_one(bare, tmp_path):
    capture = tmp_path / 'trace.pcap'
    capture.write_bytes(b'\xd4\xc3\xb2\xa1\2\0\4\0')
    for name in ('tcpsim-flows', 'tcpsim-stalls', 'tcpsim-sweep'):
        done = bare(name, str(capture), *(('--set', 'end=1s') if name == 'tcpsim-sweep' else ()))
        assert (done.returncode, done.stdout) == (1, b'') and b'is a capture of packets (pcap), and no scenario' in done.stderr, done


def test_help_and_version_end_well(bare):
    """Status 0, each time: nothing that wakes a tool goes on when it has ended."""
    for name in ('tcpsim-flows', 'tcpsim-plot', 'tcpsim-run', 'tcpsim-net') * 3:
        for word in ('--help', '--version'):
            done = bare(name, word)
            assert done.returncode == 0 or b'matplotlib is not there' in done.stderr, (name, word, done)


# ---- long runs

def long_text():
    """A run of 4,700 times as many events as that of an example, some 45 million."""
    return read(LONG).decode().replace('sim ', 'sim 1000').replace(' 700 ', ' 1000000 ')


@pytest.mark.parametrize('command', ['run', 'figures'])
def test_long_runs_are_asked_for(bare, command, tmp_path):
    long = tmp_path / 'long.txt'
    long.write_text(long_text())
    for done in (bare('tcpsim-run', command, str(long)), bare('tcpsim-run', command, input=long.read_bytes())):
        assert (done.returncode, done.stdout) == (1, b'')
        assert b'events would take the model' in done.stderr and b'--model' in done.stderr
        assert done.stderr.count(b'\n') == 1
    assert bare('tcpsim-run', 'debug', str(long), input=b'step\n').returncode == 0
    with subprocess.Popen([sys.executable, os.path.join(BIN, 'tcpsim-run'), '--model', str(long)], stdout=subprocess.PIPE,
                          stderr=subprocess.PIPE) as process:
        assert process.stdout.readline().startswith(b'1 0 ')
        process.kill()


def examples():
    """The texts of the examples with more than 100 events, and how many they have."""
    for name in sorted(os.listdir(os.path.join(TOP, 'examples'))):
        if name.endswith('.trace'):
            path = os.path.join(TOP, 'examples', name)
            events = int(read(path).split()[-1])
            if events > 100:
                yield pytest.param(read(path[:-5] + 'txt').decode(), events, id=name)


@pytest.mark.parametrize('text, events', examples())
def test_estimates_are_near(text, events):
    assert .8 < estimate.events_of(text) / events < 1.4


def test_no_run_has_no_events():
    for text in ('', 'sim 01\n', 'sim 5\nnode\n', read(LONG).decode().replace('1000 700', '0 700')):
        assert estimate.events_of(text) == 0
