"""How the tools end, whatever they write to and whatever they read: by pytest, `pytest python/tests/test_ends.py`.

The table is the tools times what `-o` names, what standard output is, what fails, and which signal comes. In each
row a tool has written all and ends with 0, or says one sentence and leaves what was there. Then come whole traces and
the programs that write them. test_inputs.py has traces and scenarios that are cut, changed or another's.
"""
import contextlib
import importlib
import os
import pathlib
import re
import resource
import shutil
import signal
import stat
import subprocess
import sys
import tempfile
import threading
import time

import pytest

from clone import TOP, ran, tool_words as call, until
from seven_tools import (ENDINGS, EXAMPLE, MODULES, OLD, PATIENCE, PROGRAM, READERS, TOOLS, failed, is_told, place, run,
                         target, to_old, to_private, whole, words)

from tcpsim.cli import net as command
from tcpsim.scenario.text import Scenario

__all__ = ['place']
NOBODY = 65534
NEEDS_ROOT = pytest.mark.skipif(os.geteuid() != 0, reason='wants root: a device, another\'s file')


# ---- what -o names

def to_nothing(path):
    """No file is there."""


def to_link(path):
    to_private(path.parent / 'target')
    path.symlink_to('target')


def to_broken_link(path):
    path.symlink_to('target')


@pytest.mark.parametrize('tool', TOOLS)
@pytest.mark.parametrize('make, mode', [(to_nothing, 0o640), (to_old, 0o644), (to_private, 0o600), (to_link, 0o600),
                                        (to_broken_link, 0o640)])
def test_file(tool, make, mode, place):
    """A new file has the mode of all new files, another keeps its own; a link stays, and what it points to is written."""
    path = target(place, tool)
    make(path)
    before = sorted(os.listdir(place / 'out'))
    done = run(tool, *words(tool), '-o', path, cwd=place, preexec_fn=lambda: os.umask(0o027))
    assert done.returncode == 0, done.stderr
    assert path.read_bytes() == whole(tool)
    assert stat.S_IMODE(path.stat().st_mode) == mode
    assert path.is_symlink() == (make in (to_link, to_broken_link))
    assert sorted(os.listdir(place / 'out')) == (before if make not in (to_nothing, to_broken_link) else
                                                 sorted({*before, path.name, *(['target'] if before else [])}))


@NEEDS_ROOT
@pytest.mark.parametrize('tool', TOOLS)
def test_device(tool, place):
    path = target(place, tool)
    os.mknod(path, 0o666 | stat.S_IFCHR, os.makedev(1, 3))      # as /dev/null, of our own: a tool that replaces it harms nobody
    done = run(tool, *words(tool), '-o', path, cwd=place)
    assert done.returncode == 0, done.stderr
    assert stat.S_ISCHR(path.lstat().st_mode) and path.lstat().st_rdev == os.makedev(1, 3)
    assert os.listdir(place / 'out') == [path.name]


@pytest.mark.parametrize('tool', TOOLS)
def test_fifo(tool, place):
    path, read = target(place, tool), []
    os.mkfifo(path)
    reader = threading.Thread(target=lambda: read.append(path.read_bytes()))
    reader.start()
    done = run(tool, *words(tool), '-o', path, cwd=place)
    if reader.is_alive() and not path.is_fifo():
        path.unlink()
    with contextlib.suppress(OSError):
        os.close(os.open(path, os.O_WRONLY | os.O_NONBLOCK))      # a reader that nobody wrote to ends
    reader.join(10)
    assert done.returncode == 0, done.stderr
    assert read == [whole(tool)] and path.is_fifo()


@NEEDS_ROOT
@pytest.mark.parametrize('tool', TOOLS)
def test_others(tool, place):
    """Another's file stays another's."""
    path = target(place, tool)
    to_old(path)
    os.chown(path, NOBODY, NOBODY)
    done = run(tool, *words(tool), '-o', path, cwd=place)
    assert done.returncode == 0, done.stderr
    assert path.read_bytes() == whole(tool)
    assert (path.stat().st_uid, path.stat().st_gid) == (NOBODY, NOBODY)


def as_nobody():
    os.setgroups([])
    os.setgid(NOBODY)
    os.setuid(NOBODY)


@contextlib.contextmanager
def open_to_all(place):
    """The folder where anybody can come; above it nothing changes that is not made for this test."""
    with tempfile.TemporaryDirectory(prefix='ends-') as folder:
        os.chmod(folder, 0o755)
        moved = pathlib.Path(shutil.copytree(place, os.path.join(folder, 'place')))
        (moved / 'out').chmod(0o777)
        yield moved


@NEEDS_ROOT
@pytest.mark.skipif(not os.access('/usr/bin/python3', os.X_OK), reason='no python3 that nobody can run')
@pytest.mark.parametrize('tool', TOOLS)
@pytest.mark.parametrize('mode, fails', [(0o644, True), (0o666, False)])
def test_others_as_nobody(tool, mode, fails, place):
    """A file of root's that may not be written stays, in a folder that may; one that may be written stays root's."""
    with open_to_all(place) as moved:
        path = target(moved, tool)
        to_old(path)
        path.chmod(mode)
        done = ran('/usr/bin/python3', *call(tool)[1:], *words(tool), '-o', path, cwd=moved, preexec_fn=as_nobody,
                   env={**os.environ, 'TMPDIR': str(moved / 'out'), 'MPLCONFIGDIR': str(moved / 'out'),
                        'HOME': '/', 'PYTHONDONTWRITEBYTECODE': '1'})
        if fails:
            is_told(done, failed(tool), str(path), 'Permission denied')
        assert done.returncode == (failed(tool) if fails else 0), done.stderr
        assert path.read_bytes() == (OLD.encode() if fails else whole(tool))
        assert path.stat().st_uid == 0 and stat.S_IMODE(path.stat().st_mode) == mode


@pytest.mark.parametrize('tool', [tool for tool in TOOLS if tool != 'net'])
@pytest.mark.parametrize('way', ['itself', 'another name', 'a link'])
def test_input(tool, way, place):
    """What is read is not written over, under whatever name."""
    for read in ['s.txt'] + ['s.trace'] * (tool in READERS):
        given = words(tool)
        path = place / ('i' + ENDINGS.get(tool, '.txt'))
        if way == 'itself':
            (place / read).rename(path)
            given = [path.name if word == read else word for word in given]
        elif way == 'a link':
            path.symlink_to(read)
        else:
            path.hardlink_to(place / read)
        before = path.read_bytes()
        is_told(run(tool, *given, '-o', path, cwd=place), 2, path.name, 'read')
        assert path.read_bytes() == before
        assert not [name for name in os.listdir(place) if name.endswith('.part')]
        path.rename(place / read) if way == 'itself' else path.unlink()


def test_outputs_that_are_one(place):
    done = run('sweep', *words('sweep'), '-o', 'a.svg', '--plot', './a.svg', cwd=place)
    is_told(done, 2, 'one file')
    done = run('sweep', *words('sweep'), '--plot', 's.svg', cwd=place)
    assert done.returncode == 0 and (place / 's.svg').read_bytes().startswith(b'<?xml')
    (place / 's.txt').rename(place / 'i.svg')
    is_told(run('sweep', *words('sweep', 'i.svg'), '--plot', 'i.svg', cwd=place), 2, 'i.svg', 'read')


# ---- what fails

@contextlib.contextmanager
def full_disk(folder):
    """A folder on a disk that is full but for nothing; where none can be mounted, files can have no byte. Gives what is
    to be called in the tool's process, and what is said."""
    size = subprocess.run(['mount', '-t', 'tmpfs', '-o', 'size=64k', 'none', folder], check=False, capture_output=True)
    if size.returncode:
        yield lambda: resource.setrlimit(resource.RLIMIT_FSIZE, (0, 0)), ''
        return
    try:
        yield None, 'No space left on device'
    finally:
        subprocess.run(['umount', folder], check=True)


@pytest.mark.parametrize('tool', TOOLS)
@pytest.mark.parametrize('make', [to_nothing, to_old, to_link])
def test_full_disk(tool, make, place):
    """The old file stays, and nothing is beside it."""
    with full_disk(place / 'out') as (begin, says):
        path = target(place, tool)
        make(path)
        with contextlib.suppress(OSError), open(place / 'out' / 'filler', 'wb', 0) as filler:
            while begin is None:
                filler.write(bytes(1024))
        before = sorted(os.listdir(place / 'out'))
        done = run(tool, *words(tool), '-o', path, cwd=place, preexec_fn=begin)
        assert sorted(os.listdir(place / 'out')) == before
        if done.returncode == 0 and make is to_link and begin is None:
            assert path.read_bytes() == whole(tool)     # it had room where the old one was
            return
        is_told(done, failed(tool), says, *([str(path)] if begin is None else []))      # a limit is one of all disks
        if make is not to_nothing:
            assert path.read_text() == OLD


@pytest.mark.parametrize('tool', TOOLS)
def test_dev_full(tool, place):
    path = target(place, tool)
    path.symlink_to('/dev/full')
    is_told(run(tool, *words(tool), '-o', path, cwd=place), failed(tool), f'{path}: No space left on device')
    assert os.readlink(path) == '/dev/full' and os.listdir(place / 'out') == [path.name]


@pytest.mark.parametrize('tool', TOOLS)
def test_full_standard_output(tool, place):
    """Of plot nothing goes there but its help."""
    for given in (words(tool) + (['-o', target(place, tool)] if tool in ('plot', 'replay') else []), ['--help']):
        with open('/dev/full', 'wb', 0) as full:
            done = run(tool, *given, cwd=place, stdout=full)
        if tool == 'plot' and given != ['--help']:
            assert (done.returncode, done.stderr) == (0, b'')
        else:
            is_told(done, failed(tool), 'standard output: No space left on device')


@pytest.mark.parametrize('tool', TOOLS)
@pytest.mark.parametrize('closed', ['>&-', '<&- >&-', '>&- 2>&-', '<&- >&- 2>&-'])
def test_closed_standard_output(tool, closed, place):
    """What cannot be said is no success, and no file gets what was to be said."""
    path = target(place, tool)
    given = words(tool) + (['-o', path] if tool in ('plot', 'replay') else [])
    done = ran('sh', '-c', f'exec "$@" {closed}', 'sh', *call(tool), *given, cwd=place)
    if tool == 'plot':
        assert (done.returncode, done.stderr) == (0, b'')
    elif '2>' in closed:
        assert (done.returncode, done.stderr) == (failed(tool), b'')
    else:
        is_told(done, failed(tool), 'standard output')
    if tool in ('plot', 'replay'):
        assert path.read_bytes() == whole(tool)
    assert done.stdout == b''


@pytest.mark.parametrize('tool', [tool for tool in TOOLS if tool != 'plot'])
def test_reader_that_has_seen_enough(tool, place):
    """As behind `head`: not a word, and the status of what SIGPIPE ends."""
    read, write = os.pipe()
    os.close(read)
    given = words(tool) + (['-o', target(place, tool)] if tool == 'replay' else [])
    try:
        done = run(tool, *given, cwd=place, stdout=write)
    finally:
        os.close(write)
    assert done.returncode == 128 + signal.SIGPIPE
    assert not [line for line in done.stderr.decode().splitlines() if not re.match(r'\d of \d runs', line)]


@pytest.mark.parametrize('tool, more', [('flows', '--csv'), ('flows', '--series=1ms'), ('stalls', '--longer=0'), ('time', '--csv'), ('follow', '--csv')])
def test_reader_that_reads_a_line(tool, more, place):
    done = ran('bash', '-c', '"$@" | head -n 1; exit "${PIPESTATUS[0]}"', 'bash', *call(tool), *words(tool), more, cwd=place)
    assert done.returncode in (0, 128 + signal.SIGPIPE)      # 0 where all was written before
    assert (done.stderr, done.stdout.count(b'\n')) == (b'', 1)


@pytest.mark.parametrize('tool', TOOLS)
def test_closed_standard_error(tool, place):
    """What is written is what is written else."""
    path = target(place, tool)
    done = ran('sh', '-c', 'exec "$@" 2>&-', 'sh', *call(tool), *words(tool), '-o', path, cwd=place)
    assert (done.returncode, done.stderr) == (0, b'')
    assert path.read_bytes() == whole(tool)
    assert b' of 2 runs' not in done.stdout


@pytest.mark.parametrize('tool', TOOLS)
def test_folder_that_is_not_there(tool, place):
    path = place / 'nowhere' / target(place, tool).name
    is_told(run(tool, *words(tool), '-o', path, cwd=place), 2, f'{path}: No such file or directory')


# ---- signals

def session(leader):
    """The processes of a session, but for those that have ended and are not yet waited for."""
    found = []
    for name in os.listdir('/proc'):
        if name.isdigit():
            with contextlib.suppress(OSError):
                state, _, _, its = pathlib.Path('/proc', name, 'stat').read_text().rpartition(')')[2].split()[:4]
                if int(its) == leader and state != 'Z':
                    found.append(int(name))
    return found


def hears(process):
    """Whether a process has a handler for SIGTERM: a tool's, since Python has none."""
    caught = re.search(r'^SigCgt:\s*(\w+)$', pathlib.Path('/proc', str(process), 'status').read_text(), re.M)
    return bool(int(caught[1], 16) >> (signal.SIGTERM - 1) & 1)


@contextlib.contextmanager
def waiting(tool, place, path, **more):
    """A tool that waits: for its trace, for a program that sleeps, or for who reads what it writes."""
    given = words(tool)
    if tool == 'net':
        if path.exists():
            path.unlink()
        os.mkfifo(path)
    elif tool in ('sweep', 'find', 'diff'):
        program = place / 'sleeps'
        program.write_text('#!/bin/sh\nexec sleep 100\n')
        program.chmod(0o755)
        given[given.index(PROGRAM)] = str(program)
    else:
        (place / 's.trace').unlink()
        os.mkfifo(place / 's.trace')
    held = os.open(place / 's.trace', os.O_RDWR)
    process = subprocess.Popen([*call(tool), *map(str, given), '-o', str(path)], cwd=place, start_new_session=True,
                               stdin=subprocess.DEVNULL, stdout=subprocess.PIPE, stderr=subprocess.PIPE, **more)
    try:
        until(lambda: hears(process.pid) and (tool == 'net' or any(name.endswith('.part') for name in os.listdir(path.parent))), 'it does not wait')
        time.sleep(0.7 if tool in ('sweep', 'find', 'diff', 'net') else 0.1)
        yield process
    finally:
        for each in session(process.pid):
            with contextlib.suppress(ProcessLookupError):
                os.kill(each, signal.SIGKILL)
        process.communicate()
        os.close(held)


@pytest.mark.parametrize('tool', TOOLS)
@pytest.mark.parametrize('number', [signal.SIGINT, signal.SIGTERM, signal.SIGHUP])
def test_signal(tool, number, place):
    """A signal to the tool alone: it ends at once and says nothing, the old file stays, nothing is beside it, and no
    process is left."""
    path = target(place, tool)
    to_private(path)
    with waiting(tool, place, path, preexec_fn=lambda: signal.signal(signal.SIGINT, signal.default_int_handler)) as process:
        process.send_signal(number)
        said = process.communicate(timeout=20)
        assert (process.returncode, *said) == (128 + number, b'', b'')
        until(lambda: not session(process.pid), 'something goes on', 10)
    assert os.listdir(path.parent) == [path.name]
    if tool != 'net':
        assert path.read_text() == OLD and stat.S_IMODE(path.stat().st_mode) == 0o600


# Runs a tool, and interrupts it before the so-manieth line that any module executes, counted from its first one on; or says how
# many there are.
INTERRUPTED = '''
import os, runpy, signal, sys
at, counted, sys.argv = int(sys.argv[1]), [0], sys.argv[2:]
def trace(frame, event, _):
    if frame.f_code.co_filename == sys.argv[0] and frame.f_lineno > 3 or counted[0]:
        counted[0] += event == "line"
        if event == "line" and counted[0] == at:
            sys.settrace(None)
            os.kill(os.getpid(), signal.SIGINT)
    return trace
sys.settrace(trace)
try:
    runpy.run_path(sys.argv[0], run_name="__main__")
finally:
    sys.settrace(None)
    if not at:
        print(counted[0], file=sys.stderr)
'''


@pytest.mark.parametrize('tool', [*TOOLS, 'run', 'debug', 'model'])
def test_interrupted_at_any_line(tool, place):
    """From the first line of the command to its last: not a word, and the status of an interruption, or all was done before."""
    given = ['--version'] if tool not in TOOLS or tool == 'plot' else [*words(tool), '-o', target(place, tool)]
    given = ['1' if word == '2' else word for word in given]        # a worker of a sweep would count its own lines

    def interrupted(at):
        return ran(sys.executable, '-c', INTERRUPTED, str(at), *call(tool)[1:], *given, cwd=place,
                   preexec_fn=lambda: signal.signal(signal.SIGINT, signal.default_int_handler))
    count = int(interrupted(0).stderr.split()[-1])
    tried = sorted({1, 2, 3, 4, 5, *(int(count**(part / 12)) for part in range(12)), *range(count - 12, count + 1, 3)})
    statuses = []
    for at in tried:
        done = interrupted(at)
        assert not [line for line in done.stderr.decode().splitlines() if not re.match(r'\d of \d runs', line)], (at, count, done.stderr)
        statuses.append(done.returncode)
    assert set(statuses) <= {130, 0} and statuses.count(130) > len(tried) / 2, dict(zip(tried, statuses))


def test_another_program_hears_what_this_one_no_longer_does():
    """A tool that goes on as another program, after its own end as before it."""
    words = 'from tcpsim.command_line import become, hear_nothing; hear_nothing(); become("/bin/sleep", ["60"])'
    with subprocess.Popen([sys.executable, '-c', words], env={**os.environ, 'PYTHONPATH': os.path.join(TOP, 'python')}) as process:
        until(lambda: b'sleep' in pathlib.Path(f'/proc/{process.pid}/cmdline').read_bytes().split(b'\0')[0], 'it is no other program')
        process.send_signal(signal.SIGTERM)
        assert process.wait(PATIENCE) == -signal.SIGTERM


def test_signals_one_after_another(place):
    """What is taken away is taken away, though a second signal comes."""
    path = target(place, 'flows')
    for _ in range(20):
        with waiting('flows', place, path) as process:
            for number in (signal.SIGTERM, signal.SIGHUP, signal.SIGINT, signal.SIGTERM):
                process.send_signal(number)
            assert process.communicate(timeout=20) == (b'', b'')
            # Which of the three Python hears first; the last three where it came when all was over.
            assert process.returncode in (143, 129, 130, -1, -2, -15)
        assert os.listdir(path.parent) == []
        (place / 's.trace').unlink()
        (place / 's.trace').touch()


def test_sweep_that_is_killed(place):
    """Its workers and their programs end with it."""
    with waiting('sweep', place, target(place, 'sweep')) as process:
        assert len(session(process.pid)) == 5           # itself, two workers, two programs
        process.kill()
        process.wait()
        until(lambda: not session(process.pid), 'something goes on', 10)


def test_worker_that_is_ended(place):
    """The old file stays, and the sweep says so."""
    path = target(place, 'sweep')
    to_old(path)
    with waiting('sweep', place, path) as process:
        workers = [each for each in session(process.pid) if each != process.pid and
                   b'tcpsim-sweep' in pathlib.Path('/proc', str(each), 'cmdline').read_bytes()]
        os.kill(workers[0], signal.SIGTERM)
        said = process.communicate(timeout=20)[1]
        assert (process.returncode, said) == (1, b'tcpsim-sweep: a run\'s process was ended from outside\n')
        until(lambda: not session(process.pid), 'something goes on', 10)
    assert path.read_text() == OLD and os.listdir(path.parent) == [path.name]


def test_nohup(place):
    """A signal that was ignored from the start stays so."""
    path = target(place, 'flows')
    with waiting('flows', place, path, preexec_fn=lambda: signal.signal(signal.SIGHUP, signal.SIG_IGN)) as process:
        process.send_signal(signal.SIGHUP)
        time.sleep(0.3)
        assert process.poll() is None
        process.send_signal(signal.SIGTERM)
        process.communicate(timeout=20)
        assert process.returncode == 143


# ---- whole traces

def lines_of(path=EXAMPLE.with_suffix('.trace')):
    return path.read_text().splitlines(True)


@pytest.mark.parametrize('tool', READERS)
def test_cut_at_the_end_of_a_line(tool, place):
    """A trace without its end has no figures, but with --partial those of its part."""
    lines, path = lines_of(), target(place, tool)
    (place / 's.trace').write_text(''.join(lines[:26]))
    assert lines[25].startswith('26 1006200000 ')
    is_told(run(tool, *words(tool), '-o', path, cwd=place), 1,
            's.trace has no "end": cut behind event 26, 1.006 s of 10 s (--partial takes it)')
    assert os.listdir(place / 'out') == []
    done = run(tool, *words(tool), '--partial', '-o', path, cwd=place)
    assert (done.returncode, done.stderr) == (0, b'')
    part = path.read_bytes()
    assert part != whole(tool)
    (place / 's.trace').write_text(''.join(lines[:26]) + lines[26][:-1])
    is_told(run(tool, *words(tool), '-o', path, cwd=place), 1, 's.trace has no "end": line 27 is cut short', '--partial')
    assert run(tool, *words(tool), '--partial', '-o', path, cwd=place).returncode == 0
    assert path.read_bytes() == part


@pytest.mark.parametrize('tool', READERS)
def test_traces_that_are_none(tool, place):
    lines, path = lines_of(), target(place, tool)
    for text, says in (('', 'empty'), ('\n', 'line 1'), ('end 0\n', 'line 1 '), (''.join(lines[:9]) + 'end 8\n', 'line 10'),
                       (''.join(lines[:9]) + 'end 10\n', 'line 10'), (''.join([*lines, '\n']), 'line 53 is behind `end`'),
                       (''.join([*lines, lines[0]]), 'line 53 is behind `end`'), (''.join(lines)[:-2], 'line 52'),
                       ('\ufffd\n', 'line 1'), (''.join(lines[:30]) + 'é\n', 'line 31')):
        for more in ((), ('--partial',)):
            (place / 's.trace').write_text(text, encoding='utf-8')
            done = run(tool, *words(tool), *more, '-o', path, cwd=place)
            is_told(done, 1, says)
            assert os.listdir(place / 'out') == []


@pytest.mark.parametrize('tool', READERS)
def test_files_that_are_none(tool, place):
    right = (place / 's.txt').read_text()
    for name, data in (('ff', b'sim \xff\n'), ('words', b'sim 1 2\n'), ('itself', right.replace('flow f s r', 'flow f s s').encode()),
                       ('back', right.replace('link b r s', 'link b s r').encode()), ('01', right.replace('sim 1', 'sim 01').encode())):
        (place / name).write_bytes(data)
    for given, says in ((words(tool, 'nothing', 's.trace'), 'No such file'), (words(tool, 's.txt', 'nothing'), 'No such file'),
                        (words(tool, 'out'), 'directory'), (words(tool, 's.txt', 'out'), 'directory'), (words(tool, 'ff'), 'not ASCII'),
                        (words(tool, 'words'), 'line 1'), (words(tool, 's.trace'), 's.trace: line 1: '), (words(tool, 'back'), 'way'),
                        (words(tool, 'itself'), 'itself' if tool in ('stalls', 'time', 'follow', 'replay') else 'line '),
                        ([*words(tool, trace=None), '--program', 'out'], 'no program'),
                        ([*words(tool, '01', None), '--program', PROGRAM], 'refused E4 line')):
        is_told(run(tool, *given, '-o', target(place, tool), cwd=place), 2 if says == 'No such file' else 1, says)
    assert os.listdir(place / 'out') == []


@pytest.mark.parametrize('tool', ['flows', 'stalls', 'time', 'follow'])
def test_pipes(tool, place):
    """Both files can be pipes, which are read once, and the scenario standard input."""
    _, _, *more = words(tool)
    for files in ('<(cat s.txt) <(cat s.trace)', '- s.trace < s.txt'):
        done = subprocess.run(['bash', '-c', f'"$1" "$2" {files} "${{@:3}}"', 'bash', *call(tool), *more], cwd=place, check=False,
                              capture_output=True, timeout=PATIENCE)
        assert (done.returncode, done.stderr, done.stdout) == (0, b'', whole(tool))


PROGRAMS = {
    'wrote nothing': ('exit 0', 'is empty'), 'a status': ('echo no memory >&2; exit 4', 'status 4: no memory'),
    'a status behind its trace': ('cat "{trace}"; echo no room >&2; exit 4', 'status 4: no room'),
    'killed': ('head -n 9 "{trace}"; kill -9 $$', 'signal 9'),
    'a cut trace': ('head -n 9 "{trace}"', 'has no "end": cut behind event 9, '),
    'a long note': ('head -c 300000 /dev/zero | tr "\\0" x >&2; head -n 9 "{trace}"', 'has no "end"'),
    'no lines': ('exec yes', 'line 1'), 'a line with no end': ('exec cat /dev/zero', 'line 1'),
    'does not read': ('exec <&-; head -n 9 "{trace}"', 'has no "end"'),
}


@pytest.mark.parametrize('tool', READERS)
@pytest.mark.parametrize('sort', PROGRAMS)
def test_program(tool, sort, place):
    """A program that does not write the whole trace, or does not end well, has no figures."""
    script, says = PROGRAMS[sort]
    program, path = place / 'program', target(place, tool)
    program.write_text('#!/bin/sh\n' + script.format(trace=place / 's.trace') + '\n')
    program.chmod(0o755)
    done = run(tool, *words(tool, trace=None), '--program', program, '-o', path, cwd=place)
    is_told(done, 1, says)
    assert os.listdir(place / 'out') == []


@pytest.mark.parametrize('more', [('--exact',), ()])
@pytest.mark.parametrize('sort', [sort for sort in PROGRAMS if sort != 'a long note'])
def test_program_of_a_sweep(sort, more, place):
    """Each run has a row, and the sweep is no success."""
    script, _ = PROGRAMS[sort]
    program, path = place / 'program', target(place, 'sweep')
    program.write_text('#!/bin/sh\n' + script.format(trace=place / 's.trace') + '\n')
    program.chmod(0o755)
    done = run('sweep', 's.txt', '--set', 'a.lose=none,5', '--program', program, '-o', path, *more, cwd=place)
    is_told(done, 1, '2 of 2 runs have no figures')
    assert path.read_text().count('\n') == 3 and ',done,' not in path.read_text()
    status = {'wrote nothing': 'nothing', 'a status': 'no memory', 'no lines': 'no line of this scenario', 'killed': 'signal 9'}
    assert not more or path.read_text().count(status.get(sort, '')) >= 2


def test_table_of_figures_that_is_cut(place):
    """`flows --engine` wants the whole table of the program."""
    table = subprocess.run([PROGRAM, 'figures'], input=(place / 's.txt').read_bytes(), capture_output=True, check=True).stdout
    program = place / 'program'
    program.write_text(f'#!/bin/sh\ncat "{place}/table"\n')
    program.chmod(0o755)
    lines = table.splitlines(True)
    for cut in [b''.join(lines[:n]) for n in range(len(lines))] + [table[:-n] for n in range(1, 4)] + [
            table.replace(b'flow,0', b'flow,1', 1), table + lines[-1]]:
        (place / 'table').write_bytes(cut)
        for given in (('flows', 's.txt', '--engine'), ('sweep', 's.txt', '--set', 'a.lose=none')):
            if given[0] == 'sweep' and len(cut) % 5:
                continue            # one in five is enough of what is the same table
            is_told(run(*given, '--program', program, cwd=place), 1)


# ---- times and names

@pytest.mark.parametrize('given', [('flows', '--from'), ('flows', '--to'), ('flows', '--series'), ('plot', '--from'),
                                   ('plot', '--to'), ('plot', '--longer'), ('replay', '--from'), ('replay', '--to'),
                                   ('stalls', '--longer'), ('sweep', '--skip'), ('net', '--rtt'), ('net', '--end'),
                                   ('net', '--start')])
def test_times_have_a_unit(given, place):
    tool, option = given
    for number in ('5', '1.5'):
        done = run(tool, *words(tool), option, number, '-o', target(place, tool), cwd=place)
        is_told(done, 2, option, f'\'{number}\' is no time, as it has no unit: write {number}s, ')
    is_told(run(tool, *words(tool), option, '0.0000000001s', '-o', target(place, tool), cwd=place), 2, option, 'finer')
    assert os.listdir(place / 'out') == []


@pytest.mark.parametrize('shape', command.SHAPES)
def test_flows_are_named_by_their_numbers(shape):
    flows = Scenario(command.scenario([shape])).flows
    assert [flow.name for flow in flows] == [f'f{number}' for number in range(len(flows))]


@pytest.mark.parametrize('name', ['a\nb', b'\xff', 'a\rb', 'a b\'"$c'])
def test_folder_of_jobs(name, place):
    """A list of jobs has a line for each. What cannot stand in it is refused, and nothing is written; all else runs."""
    folder = os.fsencode(place) + b'/' + os.fsencode(name)
    done = run('sweep', 's.txt', '--set', 'a.lose=none,5', '--program', PROGRAM, '--print', folder, cwd=place)
    if name in ('a\nb', b'\xff'):
        is_told(done, 2, '--print')
        assert not os.path.exists(folder)
        return
    assert done.returncode == 0, done.stderr
    for line in pathlib.Path(os.fsdecode(folder), 'jobs').read_bytes().decode('utf-8').split('\n')[:-1]:
        subprocess.run(['sh', '-c', line], check=True, capture_output=True)
    done = run('sweep', '--gather', folder, cwd=place)
    assert (done.returncode, done.stderr) == (0, b'')


def test_jobs_that_were_not_run_or_are_cut(place):
    run('sweep', 's.txt', '--set', 'a.lose=none,5', '--program', PROGRAM, '--print', 'd', cwd=place)
    is_told(run('sweep', '--gather', 'd', cwd=place), 1, '2 of 2 runs have no figures: not run')
    (place / 'd' / '1_none.csv').write_text('a.lose,status,link\nnone,done,a\n')
    is_told(run('sweep', '--gather', 'd', cwd=place), 1, '2 of 2 runs have no figures: its row is cut')
    (place / 'd' / '1_none.csv').write_bytes(b'\xff\0,\n')
    is_told(run('sweep', '--gather', 'd', cwd=place), 1, '1_none.csv')
    (place / 'd' / '1_none.csv').write_bytes(b'')
    for name in ('grid.csv', '1_none.csv'):
        before = (place / 'd' / name).read_bytes()
        is_told(run('sweep', '--gather', 'd', '-o', f'd/{name}', cwd=place), 2, name, 'read')
        assert (place / 'd' / name).read_bytes() == before


def test_names_that_are_no_text(place):
    """A scenario whose name is no UTF-8, or looks like mathematics, is drawn and shown."""
    for name in (b'\xff.txt', b'a$\\frac$.txt', b'<b>.txt'):
        shutil.copy(os.fsencode(place / 's.txt'), os.fsencode(place) + b'/' + name)
        for tool in READERS:
            path = target(place, tool)
            done = run(tool, *[name if word == 's.txt' else word for word in words(tool)], '-o', path, cwd=place)
            assert (done.returncode, done.stderr) == (0, b'')


@pytest.mark.parametrize('prefix', ['a\'b', 'a b', 'a"b', 'a\'"; touch x; \'b'])
def test_install(prefix, tmp_path):
    """Whatever the folder's name is. The model is the program here, so that nothing need be built."""
    folder = tmp_path / prefix
    for target_name in ('install', 'uninstall'):
        done = subprocess.run(['make', '-s', 'PROGRAM=bin/tcpsim-model', f'PREFIX={folder}', target_name], cwd=TOP, check=False,
                              capture_output=True, timeout=PATIENCE)
        assert done.returncode == 0, done.stderr
        if target_name == 'install':
            for tool in TOOLS:
                done = ran(sys.executable, folder / 'bin' / f'tcpsim-{tool}', '--help')
                assert (done.returncode, done.stderr) == (0, b'')
                assert done.stdout.startswith(f'usage: tcpsim-{tool} '.encode())
    assert not [path for path in tmp_path.rglob('*') if not path.is_dir()]


@pytest.mark.parametrize('module', MODULES.values())
def test_modules_are_those_of_the_commands(module):
    assert callable(importlib.import_module(module).main)
