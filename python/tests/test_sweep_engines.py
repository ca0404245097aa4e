"""Tests of sweeps by engines that others wrote: Slurm, dask and GNU parallel, each started on this machine and ended again. The rows
are those of a sweep without them, none twice and none missing."""
import contextlib
import csv
import functools
import hashlib
import io
import os
import re
import signal
import socket
import subprocess
import sys
import tempfile
import time

import pytest

import tcpsim
from clone import PATIENCE, PROGRAM, csv_rows, digest, ran, tool, tool_words, until
from tcpsim.sweeps.jobs import job_folder
from test_trace import BY_HAND

SWEEP = tool_words('sweep')
SCENARIO = BY_HAND.replace('droptail 2', 'droptail 7')
GRID = '--set', 'a.queue=droptail:1,2,0,3', '--over', 'f.start=0..2ms/1ms', '--show', 'f.goodput,a.dropped'


def sweep_of(folder, *words, program=PROGRAM, **more):
    """A sweep's process, once it has ended; its rows are in the folder."""
    scenario = os.path.join(folder, 'hand.txt')
    if not os.path.exists(scenario):
        with open(scenario, 'w', encoding='ascii') as file:
            file.write(SCENARIO)
    return tool('sweep', scenario, *GRID, '--program', program, *words, cwd=folder, encoding='utf-8', **more)


@functools.cache
def rows_here():
    """The bytes of the rows without an engine."""
    with tempfile.TemporaryDirectory() as folder:
        done = sweep_of(folder, '-o', 'rows.csv', '-j', '2')
        assert done.returncode == 0, done.stderr
        with open(os.path.join(folder, 'rows.csv'), encoding='utf-8') as file:
            text = file.read()
    assert text.count(',done,') == 9 and text.count(',refused E5 line 4,') == 3
    return text


def is_the_same(done, folder, program=PROGRAM):
    """Whether a sweep by an engine has the rows of one without, and left nothing but them."""
    assert done.returncode == 0, done.stderr
    with open(os.path.join(folder, 'rows.csv'), encoding='utf-8') as file:
        assert file.read() == rows_here().replace(digest(PROGRAM), digest(program))
    assert done.stderr.count(' of 12 runs') == 12
    assert [name for name in os.listdir(folder) if name.startswith('tcpsim-sweep-')] == []


def free_ports(count):
    """Ports that nobody has."""
    sockets = [socket.socket() for _ in range(count)]
    for each in sockets:
        each.bind(('127.0.0.1', 0))
    ports = [each.getsockname()[1] for each in sockets]
    for each in sockets:
        each.close()
    return ports


class Started:
    """Processes that a test has started; each ends with the test, the last first."""

    def __init__(self):
        self.processes = []

    def start(self, *words, **more):
        process = subprocess.Popen(list(map(str, words)), stdin=subprocess.DEVNULL, start_new_session=True, **more)
        self.processes.append(process)
        return process

    def end(self):
        for process in reversed(self.processes):
            if process.poll() is None:
                process.terminate()
                try:
                    process.wait(20)
                except subprocess.TimeoutExpired:
                    process.kill()
                    process.wait()


@pytest.fixture
def started():
    every = Started()
    yield every
    every.end()


def put(folder, name, text):
    path = os.path.join(folder, name)
    with open(path, 'w', encoding='utf-8') as file:
        file.write(text)
    os.chmod(path, 0o755)
    return path


FIND = 'hand.txt', '--vary', 'a.queue=droptail:1..30', '--over', 'f.start=0..1ms/1ms', '--least', '--so-that', 'a.dropped <= 0', '--program', PROGRAM


def finds_the_same(folder, on, **more):
    """Whether tcpsim-find by an engine has the answer and the rows of one without, and left nothing but them. With room for three
    packets one is dropped, with four none."""
    put(folder, 'hand.txt', SCENARIO)
    tables, rows = [], []
    for words in (), ('--on', on, '-j', '2'):
        done = ran(*tool_words('find'), *FIND, '-o', 'rows.csv', *words, cwd=folder, encoding='utf-8', **more)
        assert done.returncode == 0, done.stderr
        tables.append(done.stdout)
        with open(os.path.join(folder, 'rows.csv'), encoding='utf-8') as file:
            rows.append(file.read())
    assert tables[0] == tables[1] and rows[0] == rows[1]
    assert re.findall(r'(\S+) .* least  +\d', tables[1]) == ['droptail:4'] and 10 < rows[1].count('\n') < 60
    assert [name for name in os.listdir(folder) if name.startswith('tcpsim-sweep-')] == []


# ---- the rows are those of single runs of the program

SHOWN = {'f.goodput_bit_s': None, 'f.delivered_bytes': ('flow', 'delivered'), 'f.sent': ('flow', 'sent'), 'f.timeouts': ('flow', 'timeouts'),
         'f.rtt50_ns': ('flow', 'median round trip'), 'a.wait95_ns': ('link', '95th percentile of delay in the queue'), 'a.sent': ('link', 'sent packets'),
         'a.full': ('link', 'dropped as full'), 'a.queue_max': ('link', 'greatest queue'), 'run.events': ('run', 'events')}
STARTS = 10


def single_row(path, queue, start):
    """The row of a run whose figures the program writes when it is called by itself."""
    text = SCENARIO.replace('droptail 7', f'droptail {queue}').replace(' 0 64000', f' {start * 10**6} 64000')
    path.write_text(text)
    written = subprocess.check_output([PROGRAM, 'figures', path], stdin=subprocess.DEVNULL, encoding='ascii')
    table = {(row['what'], row['figure']): row['value'].replace('-', '') for row in csv_rows(written)
             if row['number'] in ('', '0')}
    end = int(table['flow', 'completed'] or 12_000_000)
    table[None] = f'{int(table["flow", "delivered"]) * 8 * 10**9 / (end - start * 10**6):.6f}'
    return [f'droptail:{queue}', queue, f'{start}ms' if start else '0', start * 10**6, 'done', *(table[each] for each in SHOWN.values()),
            0, hashlib.sha256(text.encode()).hexdigest()[:16], '', digest(PROGRAM)]


@pytest.fixture(scope='session')
def singles(request, tmp_path_factory):
    """`--runs` runs, one after another, as the bytes of rows; and the words of the sweep."""
    queues = max(1, request.config.option.runs // STARTS)
    file, path = io.StringIO(), tmp_path_factory.mktemp('single') / 'one.txt'
    out = csv.writer(file, lineterminator='\n')
    out.writerow(['a.queue', 'a.queue_packets', 'f.start', 'f.start_ns', 'status', *SHOWN, 'from_ns', 'scenario_sha256', 'options', 'program_sha256'])
    out.writerows(single_row(path, queue, start) for queue in range(1, queues + 1) for start in range(STARTS))
    shown = ','.join(title.partition('_')[0] if title.count('_') and 'queue' not in title else title for title in SHOWN)
    return file.getvalue(), ('--set', f'a.queue=droptail:1..{queues}', '--over', f'f.start=0..{STARTS - 1}ms/1ms', '--show', shown)


def has_the_rows_of(singles, folder, *words, **more):
    """Whether a sweep has, to the byte."""
    text, grid = singles
    with open(os.path.join(folder, 'one.txt'), 'w', encoding='ascii') as file:
        file.write(SCENARIO)
    done = tool('sweep', file.name, *grid, '--program', PROGRAM, '-o', 'rows.csv', *words, cwd=folder, encoding='utf-8',
               **{'timeout': PATIENCE + text.count('\n'), **more})
    assert done.returncode == 0, done.stderr
    with open(os.path.join(folder, 'rows.csv'), encoding='utf-8') as file:
        assert file.read() == text


@pytest.mark.parametrize('jobs', ['1', '4'])
def test_rows_of_single_runs_by_processes(singles, jobs, tmp_path):
    has_the_rows_of(singles, tmp_path, '-j', jobs)


# ---- Slurm

CONF = '''ClusterName=here
SlurmctldHost={host}(127.0.0.1)
SlurmctldPort={ports[0]}
SlurmdPort={ports[1]}
AuthType=auth/munge
AuthInfo=socket={folder}/munge.socket
CredType=cred/munge
SlurmUser={user}
SlurmdUser={user}
StateSaveLocation={folder}/state
SlurmdSpoolDir={folder}/spool
SlurmctldPidFile={folder}/slurmctld.pid
SlurmdPidFile={folder}/slurmd.pid
SlurmctldLogFile={folder}/slurmctld.log
SlurmdLogFile={folder}/slurmd.log
ProctrackType=proctrack/linuxproc
TaskPlugin=task/none
JobAcctGatherType=jobacct_gather/none
SelectType=select/cons_tres
SelectTypeParameters=CR_Core
MpiDefault=none
ReturnToService=2
SchedulerParameters=sched_interval=1,batch_sched_delay=0
SlurmdParameters=config_overrides
NodeName={host} NodeAddr=127.0.0.1 CPUs=4 State=UNKNOWN
PartitionName=all Nodes=ALL Default=YES MaxTime=INFINITE State=UP
'''
needs_slurm = pytest.mark.wants(sbatch='slurm-client', slurmctld='slurmctld', slurmd='slurmd', munged='munge')


@pytest.fixture
def slurm(started):
    """A cluster of this machine alone, with a controller, a node and keys of its own; answers the environment that finds it."""
    import getpass
    with tempfile.TemporaryDirectory(prefix='slurm', dir='/tmp') as folder:
        for name in ('state', 'spool', 'munge'):
            os.mkdir(os.path.join(folder, name), 0o700)
        with open(os.path.join(folder, 'munge', 'key'), 'wb') as file:
            file.write(os.urandom(1024))
        os.chmod(file.name, 0o400)
        conf = put(folder, 'slurm.conf', CONF.format(host=socket.gethostname().partition('.')[0], ports=free_ports(2), folder=folder,
                                                     user=getpass.getuser()))
        environment, log = {**os.environ, 'SLURM_CONF': conf}, open(os.path.join(folder, 'log'), 'wb')
        with log:
            at = {name: f'--{name}-file={folder}/munge/{name.replace("-", "_")}' for name in ('key', 'pid', 'log', 'seed')}
            started.start('munged', '--foreground', '--force', *at.values(), f'--socket={folder}/munge.socket', stdout=log, stderr=log)
            until(lambda: os.path.exists(f'{folder}/munge.socket'), 'munged')
            started.start('slurmctld', '-D', env=environment, stdout=log, stderr=log)
            started.start('slurmd', '-D', env=environment, stdout=log, stderr=log)
            until(lambda: 'idle' in ran('sinfo', '-h', '-o', '%T', env=environment, encoding='utf-8').stdout, 'no node is idle')
            yield environment
            started.end()


@needs_slurm
def test_slurm(slurm, tmp_path):
    """A job array, of a task for each run, and of two tasks for all; and a run whose job ends is a row that says why."""
    for words in ((), ('-j', '2')):
        is_the_same(sweep_of(tmp_path, '--on', 'slurm', '-o', 'rows.csv', *words, env=slurm), tmp_path)
    program = put(tmp_path, 'fails', f'#!/bin/sh\n[ "$1" = --version ] && exec "{PROGRAM}" --version\ncat > "$0.$$"\n'
                  f'if grep -q "droptail 2" "$0.$$"\nthen kill -9 $PPID\nelse exec "{PROGRAM}" "$@" < "$0.$$"\nfi\n')
    done = sweep_of(tmp_path, '--on', 'slurm', '-o', 'rows.csv', program=program, env=slurm)
    assert done.returncode == 1
    rows = csv_rows((tmp_path / 'rows.csv').read_text())
    lost = [row['status'] for row in rows if row['a.queue'] == 'droptail:2']
    assert len(lost) == 3 and all(status.startswith('not run: slurm says FAILED, exit code 137:0') for status in lost)
    assert '\n'.join(','.join(row.values()) for row in rows if row['a.queue'] != 'droptail:2') == '\n'.join(
        line for line in rows_here().replace(digest(PROGRAM), digest(program)).splitlines()[1:] if 'droptail:2' not in line)


@needs_slurm
def test_rows_of_single_runs_by_slurm(singles, slurm, tmp_path):
    has_the_rows_of(singles, tmp_path, '--on', 'slurm', '-j', '4', env=slurm)


@needs_slurm
def test_find_by_slurm(slurm, tmp_path):
    """A job array for each step of the search."""
    finds_the_same(tmp_path, 'slurm', env=slurm)


@needs_slurm
def test_slurm_in_folders_that_look_like_patterns(slurm, tmp_path):
    """sbatch has % and a backslash in the names of its outputs mean something; here they are a folder's, or the current one's."""
    for name in ('100% a%b%j', 'a\\b', "'a\\%a"):
        folder = tmp_path / name
        folder.mkdir()
        is_the_same(sweep_of(folder, '--on', 'slurm', '-o', 'rows.csv', '-j', '2', env=slurm), folder)
        is_the_same(sweep_of(tmp_path, '--on', 'slurm', '-o', 'rows.csv', '-j', '2', '--folder', folder, env=slurm), tmp_path)


def test_a_job_that_writes_while_its_folder_is_taken_away(tmp_path, monkeypatch):
    """As one of an array that is cancelled may: the folder is gone once it no longer writes."""
    monkeypatch.chdir(tmp_path)
    with job_folder(None) as place:
        for number in range(2_000):
            put(place, f'row{number}', '')
        writes = subprocess.Popen([sys.executable, '-c', 'import sys, time\nbegan = time.monotonic()\nwhile time.monotonic() < began + 1:\n'
                                   '    open(f"{sys.argv[1]}/{time.monotonic()}", "w").close()', place], stderr=subprocess.DEVNULL)
        until(lambda: len(os.listdir(place)) > 2_000, 'nothing is written')
    writes.wait()
    assert os.listdir(tmp_path) == []


@needs_slurm
def test_slurm_interrupted(slurm, tmp_path):
    """Ctrl-C takes the array out of the queue."""
    program = put(tmp_path, 'sleeps', f'#!/bin/sh\n[ "$1" = --version ] && exec "{PROGRAM}" --version\nexec sleep 300\n')
    sweep_of(tmp_path, '--print', 'unused')
    process = subprocess.Popen([*SWEEP, 'hand.txt', *GRID, '--program', program, '--on', 'slurm'], cwd=tmp_path, env=slurm,
                               stdout=subprocess.PIPE, stderr=subprocess.PIPE,
                               preexec_fn=lambda: signal.signal(signal.SIGINT, signal.default_int_handler))
    queue = functools.partial(ran, 'squeue', '-h', '-r', '-o', '%i %T', env=slurm, encoding='utf-8')
    until(lambda: 'RUNNING' in queue().stdout, 'no task runs')
    process.send_signal(signal.SIGINT)
    process.communicate(timeout=PATIENCE)
    assert process.returncode == 130
    until(lambda: queue().stdout == '', 'the array is there still')


@pytest.mark.wants(sbatch='slurm-client')
def test_no_slurm(tmp_path):
    """A controller that does not answer is told within ten seconds, and nothing is left."""
    port, = free_ports(1)
    conf = put(tmp_path, 'slurm.conf', CONF.format(host='nobody', ports=(port, port), folder=tmp_path, user='root'))
    sweep_of(tmp_path, '--print', 'unused')
    before, began = sorted(os.listdir(tmp_path)), time.monotonic()
    done = sweep_of(tmp_path, '--on', 'slurm', env={**os.environ, 'SLURM_CONF': conf})
    assert (done.returncode, done.stdout, done.stderr.count('\n')) == (1, '', 1), done.stderr
    assert 'scontrol' in done.stderr
    assert time.monotonic() - began < 10 + 20       # and what a busy machine takes to begin
    assert sorted(os.listdir(tmp_path)) == before


# ---- dask

needs_dask = pytest.mark.wants(**{'dask-scheduler': 'python3-distributed', 'dask-worker': 'python3-distributed'})


@pytest.fixture
def dask(started, tmp_path):
    """A scheduler with three workers of one thread each: its address, and the workers' processes."""
    pytest.importorskip('distributed', reason='no distributed: apt-get install python3-distributed')
    port, = free_ports(1)
    with open(tmp_path / 'dask.log', 'wb') as log:
        started.start('dask-scheduler', '--host', '127.0.0.1', '--port', port, '--no-dashboard', cwd=tmp_path, stdout=log, stderr=log)
        workers = [started.start('dask-worker', f'127.0.0.1:{port}', '--nthreads', 1, '--no-nanny', '--no-dashboard', '--name', f'w{n}',
                                 '--local-directory', tmp_path / f'w{n}', cwd=tmp_path, stdout=log, stderr=log) for n in range(3)]
        until(lambda: (tmp_path / 'dask.log').read_text().count('Registered to') == 3, 'no workers')
        yield f'dask:127.0.0.1:{port}', workers
        started.end()


@needs_dask
def test_rows_of_single_runs_by_dask(singles, dask, tmp_path):
    has_the_rows_of(singles, tmp_path, '--on', dask[0])


@needs_dask
def test_find_by_dask(dask, tmp_path):
    finds_the_same(tmp_path, dask[0])


@needs_dask
def test_dask_with_a_worker_that_is_lost(dask, tmp_path):
    """One of three is killed half way, in the midst of a run: its runs are taken again by the others."""
    on, workers = dask
    program = put(tmp_path, 'slow', f'#!/bin/sh\n[ "$1" = --version ] && exec "{PROGRAM}" --version\necho $PPID >> "$0.who"\nsleep .5\n'
                  f'exec "{PROGRAM}" "$@"\n')
    sweep_of(tmp_path, '--print', 'unused')
    process = subprocess.Popen([*SWEEP, 'hand.txt', *GRID, '--program', program, '--on', on, '-o', 'rows.csv'], cwd=tmp_path,
                               stdout=subprocess.PIPE, stderr=subprocess.PIPE, text=True)
    said = [process.stderr.readline() for _ in range(4)]
    who = (tmp_path / 'slow.who').read_text().split()
    assert {str(each.pid) for each in workers} == set(who)
    lost = next(each for each in workers if str(each.pid) == who[-1])
    lost.kill()
    output, rest = process.communicate(timeout=PATIENCE)
    done = subprocess.CompletedProcess([], process.returncode, output, ''.join(said) + rest)
    is_the_same(done, tmp_path, program)
    assert len((tmp_path / 'slow.who').read_text().split()) > 12


@needs_dask
def test_dask_with_another_program(dask, tmp_path):
    """Versions are compared before anything is run."""
    on, workers = dask
    program = put(tmp_path, 'other', f'#!/bin/sh\n[ "$1" = --version ] || exec "{PROGRAM}" "$@"\n'
                  f'grep -q dask-worker /proc/$PPID/cmdline && echo tcpsim 9 || exec "{PROGRAM}" --version\n')
    done = sweep_of(tmp_path, '--on', on, program=program)
    assert (done.returncode, done.stdout) == (1, '')
    assert "is 'tcpsim 9', and here it is 'tcpsim" in done.stderr
    assert len(workers) == 3


@needs_dask
def test_no_dask_scheduler(tmp_path):
    """An unreachable scheduler is told within ten seconds."""
    pytest.importorskip('distributed', reason='no distributed: apt-get install python3-distributed')
    port, = free_ports(1)
    began = time.monotonic()
    ran(sys.executable, '-c', 'import distributed')
    import_takes, began = time.monotonic() - began, time.monotonic()
    done = sweep_of(tmp_path, '--on', f'dask:127.0.0.1:{port}')
    assert time.monotonic() - began < 10 + 5 + 3 * import_takes         # and what a busy machine takes to begin
    assert (done.returncode, done.stdout) == (1, '')
    assert done.stderr.splitlines()[-1] == (
        f'tcpsim-sweep: no dask scheduler answers at 127.0.0.1:{port} within 10 s: start one by `dask-scheduler`, and workers by '
        f'`dask-worker 127.0.0.1:{port}`')


# ---- GNU parallel

needs_parallel = pytest.mark.wants(parallel='parallel')


@needs_parallel
def test_parallel(tmp_path, monkeypatch):
    """From the shell, and in Python."""
    is_the_same(sweep_of(tmp_path, '--on', 'parallel', '-j', '2', '-o', 'rows.csv'), tmp_path)
    monkeypatch.chdir(tmp_path)
    result = tcpsim.sweep(SCENARIO, {'a.queue': ['droptail:1', '2', '0', '3']}, over={'f.start': '0..2ms/1ms'},
                          show='f.goodput,a.dropped', on='parallel', jobs=2, engine=PROGRAM)
    result.save('python.csv')
    assert (tmp_path / 'python.csv').read_text() == rows_here()


@needs_parallel
def test_parallel_over_hosts(tmp_path):
    """By an `ssh` that runs here as sshd does, with the shell of who logs in, and notes for which host: both have runs. What is
    wrong on a machine is told."""
    ssh = put(tmp_path, 'ssh', '#!/bin/sh\nhost=$1\necho "$host" >> "$0.hosts"\nshift\n[ "$1" = -- ] && shift\n'
              '[ -e "$0.down" ] && { echo "ssh: no way to $host" >&2; exit 255; }\nHOST=$host SHELL=/bin/sh exec sh -c "$*"\n')
    environment = {**os.environ, 'PARALLEL_SSH': ssh, 'PARALLEL_HOME': str(tmp_path / 'home')}
    done = sweep_of(tmp_path, '--on', 'parallel:one,two', '-j', '2', '-o', 'rows.csv', env=environment)
    is_the_same(done, tmp_path)
    hosts = (tmp_path / 'ssh.hosts').read_text().split()
    assert min(hosts.count('one'), hosts.count('two')) > 1 and len(hosts) >= 14
    program = put(tmp_path, 'other', f'#!/bin/sh\n[ "$HOST" = two ] && [ "$1" = --version ] && exec echo tcpsim 9\nexec "{PROGRAM}" "$@"\n')
    done = sweep_of(tmp_path, '--on', 'parallel:one,two', program=program, env=environment)
    assert (done.returncode, done.stdout) == (1, '')
    assert f"{program} on two is 'tcpsim 9', and here it is 'tcpsim" in done.stderr
    program = put(tmp_path, 'silent', f'#!/bin/sh\n[ "$HOST" = two ] && exit 0\nexec "{PROGRAM}" "$@"\n')
    done = sweep_of(tmp_path, '--on', 'parallel:one,two', program=program, env=environment)
    assert done.returncode == 1 and f'--on parallel:one,two: 1 of these machines say which version {program} is' in done.stderr
    program = put(tmp_path, 'cut', f'#!/bin/sh\n[ "$HOST" ] && touch "{ssh}.down"\nexec "{PROGRAM}" "$@"\n')
    done = sweep_of(tmp_path, '--on', 'parallel:one', program=program, env=environment)
    assert done.returncode == 1 and "12 of 12 runs have no figures: not run: parallel says 'ssh: no way to one', status " in done.stderr


@needs_parallel
@pytest.mark.parametrize('number', [signal.SIGINT, signal.SIGKILL])
def test_parallel_ends_with_the_sweep(number, tmp_path):
    """Ctrl-C ends its jobs too, and so does KILL, which the sweep cannot hear."""
    program = put(tmp_path, 'sleeps', f'#!/bin/sh\n[ "$1" = --version ] && exec "{PROGRAM}" --version\necho $$ >> "$0.who"\nexec sleep 300\n')
    sweep_of(tmp_path, '--print', 'unused')
    process = subprocess.Popen([*SWEEP, 'hand.txt', *GRID, '--program', program, '--on', 'parallel', '-j', '2'], cwd=tmp_path,
                               stdout=subprocess.PIPE, stderr=subprocess.PIPE,
                               preexec_fn=lambda: signal.signal(signal.SIGINT, signal.default_int_handler))
    until(lambda: os.path.exists(tmp_path / 'sleeps.who') and (tmp_path / 'sleeps.who').read_text().count('\n') == 2, 'no two run')
    assert len(in_folder(tmp_path)) > 4         # the sweep, GNU parallel, two jobs and what they run
    process.send_signal(number)
    process.communicate(timeout=PATIENCE)
    assert process.returncode == (130 if number == signal.SIGINT else -number)
    until(lambda: not in_folder(tmp_path), 'something runs on', 60)
    assert number == signal.SIGKILL or [name for name in os.listdir(tmp_path) if name.startswith('tcpsim-sweep-')] == []


def in_folder(folder):
    """The processes whose current folder this is, but for those that have ended and are not yet waited for."""
    found = []
    for number in filter(str.isdigit, os.listdir('/proc')):
        with contextlib.suppress(OSError):
            if os.readlink(f'/proc/{number}/cwd') == str(folder):
                found.append(number)
    return found


@needs_parallel
def test_a_folder_that_is_no_line(tmp_path):
    """A line feed in the current folder's name, or in that of --folder."""
    folder = tmp_path / 'a\nb'
    folder.mkdir()
    done = sweep_of(folder, '--on', 'parallel')
    assert (done.returncode, done.stdout, done.stderr.count('\n')) == (2, '', 1)
    assert done.stderr.startswith("tcpsim-sweep: the current folder, '") and done.stderr.endswith('; --folder names another folder\n')
    done = sweep_of(tmp_path, '--on', 'parallel', '--folder', 'a\nb')
    assert done.returncode == 2 and done.stderr.startswith("tcpsim-sweep: --folder 'a\\nb': jobs are lines of text")
    assert os.listdir(folder) == ['hand.txt']
    is_the_same(sweep_of(folder, '--on', 'parallel', '--folder', tmp_path / 'd', '-o', 'rows.csv'), folder)


# ---- words

@pytest.mark.parametrize('words, says', [
    (('--on', 'pbs'), "'pbs' is no engine: write slurm, dask:HOST:PORT, parallel or parallel:HOST,HOST"),
    (('--on', 'dask'), 'write dask:HOST:PORT, as dask:127.0.0.1:8786'), (('--on', 'dask:here'), 'write dask:HOST:PORT'),
    (('--on', 'dask:here:99999'), 'write dask:HOST:PORT'), (('--on', 'slurm:x'), 'no engine'),
    (('--folder', 'x'), '--folder is of --on slurm and --on parallel'), (('--on', 'parallel', '--print', 'x'), '--print runs nothing')])
def test_words_that_are_wrong(words, says, tmp_path):
    done = sweep_of(tmp_path, *words)
    assert (done.returncode, done.stdout, done.stderr.count('\n')) == (2, '', 1), done.stderr
    assert says in done.stderr


@pytest.mark.parametrize('on, package', [('slurm', 'slurm-client'), ('parallel', 'parallel')])
def test_engines_that_are_not_there(on, package, tmp_path):
    sweep_of(tmp_path, '--print', 'unused')
    done = sweep_of(tmp_path, '--on', on, env={**os.environ, 'PATH': str(tmp_path)})
    assert (done.returncode, done.stdout) == (1, '')
    assert f'which is not there: apt-get install {package}' in done.stderr
