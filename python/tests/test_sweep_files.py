"""Tests of what sweeps write and read beside the files that are named: journals and folders of jobs. Rows of another question are
refused, what is there is not touched, and whatever a folder has in it is refused in a sentence.
"""
import contextlib
import functools
import io
import json
import os
import pathlib
import re
import signal
import stat
import subprocess
import sys
import tempfile

import pytest

pytest.importorskip('hypothesis', reason='no hypothesis: apt-get install python3-hypothesis')
from hypothesis import given, strategies as st  # noqa: E402

from clone import BIN, PATIENCE, PROGRAM, tool, until  # noqa: E402
from tcpsim import command_line  # noqa: E402
from tcpsim.sweeps.files import FIRST_LINE, LONGEST  # noqa: E402
from test_inputs import drawn  # noqa: E402
from test_trace import BY_HAND  # noqa: E402

SWEEP = os.path.join(BIN, 'tcpsim-sweep')
SCENARIO = BY_HAND.replace('droptail 2', 'droptail 7')
SETS = '--set', 'a.queue=droptail:2,3'


def swept(*words, cwd):
    """Status, standard output and notes of a sweep in this process. What it raises that is not for people comes out."""
    before, argv = os.getcwd(), sys.argv
    try:
        os.chdir(cwd)
        sys.argv = [SWEEP, *map(str, words)]
        with tempfile.TemporaryFile('w+') as written, contextlib.redirect_stderr(io.StringIO()) as said:
            kept = os.dup(1)
            os.dup2(written.fileno(), 1)
            try:
                status = command_line.status_of('tcpsim.cli.sweep')
            finally:
                os.dup2(kept, 1)
                os.close(kept)
            written.seek(0)
            return status, written.read(), said.getvalue()
    finally:
        os.chdir(before)
        sys.argv = argv


def is_told(done, status, *says):
    """Whether a sweep ended so with one sentence."""
    lines = [line for line in done[2].splitlines() if not re.match(r'\d+ of \d+ runs, ', line)]
    assert (done[0], done[1], len(lines)) == (status, '', 1), done
    for word in says:
        assert word in lines[0], lines


@pytest.fixture
def place(tmp_path):
    """A folder with a scenario, and one that differs."""
    (tmp_path / 'hand.txt').write_text(SCENARIO)
    (tmp_path / 'other.txt').write_text(SCENARIO.replace('1000 8', '1000 7'))
    return tmp_path


def started(*words, cwd, program=PROGRAM):
    return subprocess.Popen([sys.executable, SWEEP, 'hand.txt', *SETS, '--program', str(program), *words], cwd=cwd, text=True,
                            stdin=subprocess.DEVNULL, stdout=subprocess.PIPE, stderr=subprocess.PIPE, start_new_session=True)


@pytest.fixture
def held(place):
    """A program whose runs wait until the file `go` is there; each says in `begun` that it has."""
    program = place / 'held'
    program.write_text(f'#!/bin/sh\n[ "$1" = --version ] && exec "{PROGRAM}" --version\necho >> "{place}/begun"\n'
                       f'while [ ! -e "{place}/go" ]; do sleep .02; done\nexec "{PROGRAM}" "$@"\n')
    program.chmod(0o755)
    return program


# ---- rows of another question

WRAPPED = tempfile.TemporaryDirectory()
OTHER = os.path.join(WRAPPED.name, 'tcpsim')
with open(OTHER, 'w', encoding='ascii') as wrapper:
    wrapper.write(f'#!/bin/sh\nexec "{PROGRAM}" "$@"\n')
os.chmod(OTHER, stat.S_IRWXU)

OPTIONS = {'scenario': ['hand.txt', 'other.txt'], '--set': ['a.queue=droptail:2', 'a.queue=droptail:3', 'a.delay=2ms'],
           '--link': [None, 'a', 'b'], '--skip': [None, '3ms'], '--exact': [None, ''], '--show': [None, 'a.wait50', 'b.used'],
           '--program': [PROGRAM, OTHER]}


@st.composite
def questions(draw):
    """The words of two sweeps: what both say, and one to two things in which the second may differ."""
    first = {name: draw(st.sampled_from(values)) for name, values in OPTIONS.items()}
    second = {**first, **{name: draw(st.sampled_from(OPTIONS[name])) for name in draw(st.lists(st.sampled_from(list(OPTIONS)), max_size=2))}}
    for each in (first, second):
        each['--link'] = None if each['--show'] else each['--link']
    return tuple(map(words_of, (first, second)))


def words_of(question):
    return (question['scenario'], *(word for name, value in question.items() if name != 'scenario' and value is not None
                                    for word in (name, value) if word), '-j', '1')


@functools.cache
def rows_of(words):
    """The rows of a sweep alone."""
    with tempfile.TemporaryDirectory() as folder:
        pathlib.Path(folder, 'hand.txt').write_text(SCENARIO)
        pathlib.Path(folder, 'other.txt').write_text(SCENARIO.replace('1000 8', '1000 7'))
        done = swept(*words, '-o', 'alone.csv', cwd=folder)
        assert done[0] == 0, done
        return pathlib.Path(folder, 'alone.csv').read_bytes()


@given(pair=questions())
@drawn(60)
def test_resumed_rows_are_those_of_the_question(pair, place):
    first, second = pair
    (place / 'r.csv').write_bytes(rows_of(first))
    done = swept(*second, '--resume', 'r.csv', cwd=place)
    if done[0] or first == second:
        assert (done[0] == 0) == (first == second)
        assert (place / 'r.csv').read_bytes() == rows_of(first)
    else:
        assert (place / 'r.csv').read_bytes() == rows_of(second)
    if done[0]:
        is_told(done, 2, '--resume r.csv: ', 'give the words that it was made by')


@given(pair=questions())
@drawn(12)
def test_a_folder_has_the_rows_of_one_question(pair, place):
    """GNU parallel is a shell here: test_sweep_engines.py has itself."""
    engine = place / 'parallel'
    engine.write_text('#!/bin/sh\nfor last; do :; done\n[ "$last" = --version ] || exec sh "$last"\n')
    engine.chmod(0o755)
    path, os.environ['PATH'] = os.environ['PATH'], f'{place}:{os.environ["PATH"]}'
    try:
        with tempfile.TemporaryDirectory(dir=place) as folder:
            for at, words in enumerate(pair):
                before = {each: each.read_bytes() for each in pathlib.Path(folder).iterdir()}
                done = swept(*words, '--on', 'parallel', '--folder', folder, '-o', 'f.csv', cwd=place)
                if done[0] == 0:
                    assert (place / 'f.csv').read_bytes() == rows_of(words)
                else:
                    is_told(done, 2, 'is of a sweep with another ', ': name another folder')
                    assert at == 1 and pair[0] != pair[1]
                    assert before == {each: each.read_bytes() for each in pathlib.Path(folder).iterdir()}
    finally:
        os.environ['PATH'] = path


def test_printed_jobs_keep_their_question(place):
    """Nothing of a folder is written anew for another question, and rows that another program has written there are told."""
    words = 'hand.txt', *SETS, '--program', PROGRAM
    assert swept(*words, '--print', 'd', cwd=place)[0] == 0
    is_told(swept(*words, '--link', 'b', '--print', 'd', cwd=place), 2, f'{place}/d is of a sweep with another --link, \'a\' and not \'b\'')
    assert swept(*words, '--print', 'd', cwd=place)[0] == 0
    first, second = (place / 'd' / 'jobs').read_text().splitlines()
    for job in (first, second.replace(PROGRAM, OTHER)):
        subprocess.run(['sh', '-c', job], check=True)
    is_told((*swept('--gather', 'd', '--csv', '-o', '/dev/null', cwd=place)[:1], '', swept('--gather', 'd', cwd=place)[2]), 1,
            '1 of 2 runs have no figures: its row is of another program, program_sha256')
    (place / 'e').mkdir()
    (place / 'e' / '2_droptail-3.csv').write_text('mine')
    is_told(swept(*words, '--print', 'e', cwd=place), 2, '2_droptail-3.csv is there, and no sweep.json says of which sweep')
    assert os.listdir(place / 'e') == ['2_droptail-3.csv']
    assert (place / 'e' / '2_droptail-3.csv').read_text() == 'mine'


# ---- files that nobody named

def test_what_is_there_is_not_touched(place):
    """Files whose names are like a journal's: a scenario, a pipe, a link, and one that begins with another line."""
    (place / 'q.csv.part').write_text(SCENARIO)
    names = [f'q.csv.{digit * 16}.part' for digit in '0123']
    (place / names[0]).write_text('mine\n')
    os.mkfifo(place / names[1])
    (place / names[2]).symlink_to('q.csv.part')
    (place / names[3]).mkdir()
    there = sorted(os.listdir(place))
    for words in (('-o', 'q.csv'), ('--resume', 'q.csv')):
        done = tool('sweep', 'q.csv.part', *SETS, *words, '--program', PROGRAM, cwd=place)
        assert done.returncode == 0, done.stderr
        assert sorted(os.listdir(place)) == sorted([*there, 'q.csv'])
    assert (place / 'q.csv.part').read_text() == SCENARIO and (place / names[0]).read_text() == 'mine\n'
    assert (place / names[1]).is_fifo() and os.readlink(place / names[2]) == 'q.csv.part'


def test_a_pipe_is_no_file_to_go_on_with(place):
    os.mkfifo(place / 'q.csv')
    is_told(swept('hand.txt', *SETS, '--program', PROGRAM, '--resume', 'q.csv', cwd=place), 1, 'q.csv is no plain file')


def test_a_second_sweep_is_refused_while_the_first_runs(place, held):
    """At once, by whatever name of the file; and what was there stays."""
    first = started('-o', 'q.csv', '-j', '1', cwd=place, program=held)
    until((place / 'begun').exists, 'no run begins')
    (place / 'same.csv').symlink_to('q.csv')
    before = sorted(os.listdir(place))
    for words in (('-o', 'q.csv'), ('--resume', f'{place}/q.csv'), ('-o', 'same.csv')):
        done = started(*words, cwd=place).communicate(timeout=PATIENCE)
        assert done == ('', f'tcpsim-sweep: another sweep writes {words[1]}: name another file, or wait for its end\n')
        assert sorted(os.listdir(place)) == before
    (place / 'go').touch()
    assert first.communicate(timeout=PATIENCE)[1].count(' of 2 runs') == 2
    assert first.returncode == 0 and not list(place.glob('*.part'))
    assert (place / 'q.csv').read_text().count(',done,') == 2


def test_of_sweeps_that_begin_at_once_one_runs(place, held):
    many = [started('-o', 'q.csv', '-j', '1', cwd=place, program=held) for _ in range(4)]
    until(lambda: sum(each.poll() is not None for each in many) == 3, 'not three are refused')
    (place / 'go').touch()
    said = [each.communicate(timeout=PATIENCE)[1] for each in many]
    assert sorted(each.returncode for each in many) == [0, 2, 2, 2], said
    assert not list(place.glob('*.part'))


def test_killed_and_resumed(place):
    """KILL leaves the rows that were there; -o of the same file leaves them too, and says so; --resume takes them."""
    program = place / 'program'
    program.write_text(f'#!/bin/sh\n[ "$1" = --version ] && exec "{PROGRAM}" --version\ncat > "$0.in"\n'
                       f'if [ ! -e "{place}/go" ] && grep -q "droptail 3" "$0.in"; then exec sleep 100; fi\nexec "{PROGRAM}" "$@" < "$0.in"\n')
    program.chmod(0o755)
    process = started('-o', 'q.csv', '-j', '1', cwd=place, program=program)
    assert process.stderr.readline().startswith('1 of 2 runs')
    os.killpg(process.pid, signal.SIGKILL)
    process.communicate(timeout=PATIENCE)
    journal, = place.glob('q.csv.*.part')
    text = journal.read_text()
    assert text.startswith(FIRST_LINE) and text.count(',done,') == 1
    (place / 'go').touch()
    words = 'hand.txt', *SETS, '--program', program, '-j', '1'
    status, _, said = swept(*words, '-o', 'q.csv', cwd=place)
    assert (status, said.splitlines()[0]) == (0, f'tcpsim-sweep: {journal} has the rows of a sweep that was ended: --resume goes on with them')
    whole = (place / 'q.csv').read_bytes()
    assert journal.read_text() == text
    (place / 'q.csv').unlink()
    is_told(swept(*words, '--exact', '--resume', 'q.csv', cwd=place), 2, f'{journal} has runs by other options, options \'--link a\'')
    assert journal.read_text() == text
    status, _, said = swept(*words, '--resume', 'q.csv', cwd=place)
    assert (status, said.splitlines()[0]) == (0, '1 of 2 runs have their row in q.csv')
    assert (place / 'q.csv').read_bytes() == whole
    assert not list(place.glob('q.csv.*'))


# ---- folders and rows that are hostile

def hostile():
    """What can stand as a folder's sweep."""
    right = {'scenario': SCENARIO, 'program_sha256': '', 'format': 1, 'sets': ['a.queue=droptail:2'], 'over': [], 'show': None, 'link': None,
             'skip': 0, 'exact': False, 'engine': False, 'pair': None}
    values = [None, 0, -1, 1 << 64, 10**400, .5, True, '', 'x', '\ud800', '\0', 'a\nb', [], [0], [None], [['x']], ['a.queue='], {}, {'x': 1}]
    yield from ('', '[' * 100_000, '{"a":' * 100_000, 'null', '[]', '0', '1' * 5000, '{}', '"x"', '\ufeff{}', 'NaN', '{"scenario": 1}')
    for word in right:
        yield from (json.dumps({**right, word: value}) for value in values if value != right[word] or type(value) is not type(right[word]))
        yield json.dumps({name: value for name, value in right.items() if name != word})
    for words in ({'sets': ['a.queue=droptail:1..²']}, {'sets': ['*.rate=1..9999999999999/1']}, {'scenario': 'link a\nflow f'},
                  {'scenario': 'link a s r 1\nflow f s r 1\n', 'sets': ['a.queue=codel:1ms:1ms']}, {'scenario': SCENARIO * 2},
                  {'scenario': SCENARIO.replace('8000000', '9' * 5000)}, {'pair': 'droptail:2,2'}, {'show': '+.+'}, {'show': 'f.goodput,' * 9},
                  {'sets': ['a.queue=droptail:' + '9' * 5000]}, {'over': ['f.start=0..1s/1s'] * 2}, {'link': 's'}):
        yield json.dumps({**right, **words})


def test_folders_that_are_hostile(place):
    """Each gets a sentence: of the folder, of a word in it, or that no run has figures."""
    (place / 'd').mkdir()
    for number, text in enumerate(hostile()):
        (place / 'd' / 'sweep.json').write_text(text, errors='surrogatepass')
        status, _, said = swept('--gather', 'd', cwd=place)
        assert status in (1, 2) and said.count('\n') == 1 and said.startswith('tcpsim-sweep: '), (number, text[:80], status, said)
    for make, says in ((os.mkfifo, 'no plain file'), (os.mkdir, 'no plain file'), (lambda path: path.symlink_to('/dev/zero'), 'no plain file'),
                       (lambda path: os.truncate(os.open(path, os.O_CREAT | os.O_WRONLY), LONGEST + 1), 'longer than'),
                       (lambda path: path.symlink_to(path), 'symbolic links')):
        path = place / 'd' / 'sweep.json'
        path.unlink()
        make(path)
        is_told(swept('--gather', 'd', cwd=place), 1, says)
        path.rmdir() if path.is_dir() else path.unlink()
        path.touch()


@pytest.mark.parametrize('make, said', [
    (os.mkfifo, ''), (lambda path: path.symlink_to('/dev/zero'), ''), (lambda path: path.write_bytes(b'\xff\n'), ''),
    (lambda path: path.write_bytes(b'first\n\x1b[31mred\x00\n'), ': ?[31mred?'),
    (lambda path: path.write_bytes(b'a' * 1000 + b'\n'), ': ' + 'a' * 200)])
def test_the_log_of_a_job_is_a_plain_file_of_plain_letters(make, said, place):
    """Neither is a pipe waited for, nor does what a log has go to the terminal as it is."""
    assert swept('hand.txt', *SETS, '--program', PROGRAM, '--print', 'd', cwd=place)[0] == 0
    make(place / 'd' / '1_droptail-2.log')
    done = swept('--gather', 'd', '-o', 'got.csv', cwd=place)
    assert done[0] == 1 and f'not run{said}' in (place / 'got.csv').read_text().splitlines()[1]
    assert '\x1b' not in done[1] + done[2] + (place / 'got.csv').read_text()


CELLS = st.sampled_from(['', '0', '-1', 'nan', 'inf', '1e5', '٣', '1' * 5000, 'x', '\x1b[2J', 'a', 'b', 'done', 'refused E1 line 1', '"', ',', '1.5',
                         '\0', 'é']) | st.text(max_size=5)


@given(data=st.data())
@drawn(300)
def test_rows_that_are_hostile(data, place):
    """A cell of a row that is none, or a row of other lengths: in a folder a row that says so, in a file a sentence."""
    words = 'hand.txt', '--set', 'a.queue=droptail:2', '--program', PROGRAM, '-j', '1'
    heading, line = rows_of(words).decode().splitlines()
    cells = line.split(',')
    for _ in range(data.draw(st.integers(1, 2))):
        at = data.draw(st.integers(0, len(cells) - 1))
        cells[at:at + data.draw(st.integers(0, 1))] = data.draw(st.lists(CELLS, max_size=2))
        cells = cells or ['']
    text = f'{heading}\n{",".join(cells)}\n'
    (place / 'r.csv').write_text(text, errors='surrogatepass')
    status, _, said = swept(*words, '--resume', 'r.csv', cwd=place)
    assert status == 0 or status in (1, 2) and said.count('\n') == 1, said
    if not (place / 'd').exists():
        assert swept(*words, '--print', 'd', cwd=place)[0] == 0
    (place / 'd' / '1_droptail-2.csv').write_text(text, errors='surrogatepass')
    status, shown, said = swept('--gather', 'd', cwd=place)
    assert status in (0, 1) and said.count('\n') == (status == 1), said
    assert '\x1b' not in shown + said and (status == 1 or 'droptail:2' in shown)
