"""A sweep's runs as jobs: their scenarios and commands in a folder that all machines see, and their rows, gathered.

`--print` writes the folder, and keeps in it of which sweep it is. `--on slurm` and `--on parallel` have an engine run it: a
job array of Slurm's, or GNU parallel, which choose the machines, and take again what one of them lost.
"""
from __future__ import annotations

import argparse
import contextlib
import csv
import json
import os
import re
import shlex
import shutil
import signal
import subprocess
import sys
import tempfile
import time
from collections.abc import Callable, Iterable, Iterator, Sequence
from typing import IO

from tcpsim import output
from tcpsim.command_line import MODEL, Refused, Wrong
from tcpsim.program import TOP, beside, is_program
from tcpsim.prompt import ends_with_parent
from tcpsim.scenario.text import Unreadable
from tcpsim.scenario.units import spelled_time
from tcpsim.sweeps.files import difference, fault_of, is_answered, plain_text, read_csv
from tcpsim.sweeps.pool import Ran, Runner
from tcpsim.sweeps.rows import QUESTION, Grid
from tcpsim.whole_trace import inputs_of

PATIENCE = 10               # seconds in which a scheduler answers
LOOK, ASK = 0.2, 1.0        # seconds between two looks into the folder, and two questions to a scheduler
LOGGING_IN = 120            # seconds in which each machine of an --sshlogin says its version
LONGEST = 600               # seconds for which a scheduler may not answer while its jobs run
MOST_SAID = 200             # characters that a job said last which its row has
MOST_TASKS = 1_000          # of a job array; Slurm's own bound is 1,001 where its MaxArraySize is left out
RETRIES = 3                 # how often GNU parallel tries a job whose machine fails
SWEEP, COMMAND = 'sweep.json', 'tcpsim-sweep'
# What a folder keeps of its sweep: each value's sort, and how it is told from another sweep's, where its rows depend on it.
TEXT, WORD, LIST, FLAG, NUMBER = 'a text', 'a word or null', 'a list of words', 'true or false', 'a whole number from 0 to 2^64'
KEPT = {'scenario': (TEXT, 'scenario'), 'program_sha256': (TEXT, 'program'), 'sets': (LIST, '--set'), 'over': (LIST, '--over'),
        'show': (WORD, '--show'), 'link': (WORD, '--link'), 'skip': (NUMBER, '--skip'), 'exact': (FLAG, '--exact'),
        'format': (NUMBER, 'format of figures'), 'engine': (FLAG, None), 'pair': (WORD, None)}
IS_OF = {TEXT: lambda it: isinstance(it, str) and all(character < '\u0100' for character in it),       # each a byte
         WORD: lambda it: it is None or isinstance(it, str), FLAG: lambda it: isinstance(it, bool),
         LIST: lambda it: isinstance(it, list) and all(isinstance(word, str) for word in it),
         NUMBER: lambda it: type(it) is int and 0 <= it < 1 << 64}


# ---- the folder

def program_words(named: str | None) -> list[str]:
    """The words by which a job names who runs its scenario."""
    if named == MODEL:
        return [MODEL]
    return ['--program', os.path.abspath(named)] if named else []


def call_of_this() -> list[str]:
    """The words that call this command: the script that runs, or where another one calls the package that of the clone, or the
    one that is installed."""
    script = os.path.abspath(sys.argv[0])
    if os.path.basename(script) != COMMAND:
        places = [os.path.join(TOP, 'bin', COMMAND), *beside(COMMAND), os.path.join(os.path.dirname(sys.executable), COMMAND)]
        script = next(filter(is_program, places), '') or shutil.which(COMMAND) or ''
    if not script:
        raise Refused(f'the command {COMMAND} is not there, which jobs call')
    return [script] if os.access(script, os.X_OK) else [sys.executable, script]


def job_of(grid: Grid, path: str, program: str | None) -> str:
    """The command that runs the scenario PATH.txt and writes its row to PATH.csv, and what is wrong to PATH.log."""
    asked, call = grid.asked, call_of_this()
    options = [*(['--link', asked.link] if asked.link else []), *(['--skip', spelled_time(asked.skip)] if asked.skip else []),
               *(['--show', ','.join(column.name for column in asked.columns)] if asked.columns else []),
               *(['--exact'] if asked.exact else []), *program_words(program),
               *(['--expect', asked.version] if asked.version is not None else []), '-j', '1']
    return (shlex.join([*call, path + '.txt', *options, '-o', path + '.csv']) +
            f' > /dev/null 2> {shlex.quote(path + ".log")}\n')


def write_jobs(grid: Grid, numbers: Sequence[int], given: argparse.Namespace, folder: str) -> str:
    """Writes these scenarios, and `jobs` with a command a line, beside the question that the folder is of; answers the path of
    `jobs`. What another sweep has left in the folder is not touched."""
    inputs = inputs_of(given)
    paths = [os.path.join(folder, grid.name(number)) for number in numbers]
    lines = [job_of(grid, path, given.program) for path in paths]
    check_lines(lines, given, folder)
    os.makedirs(folder, exist_ok=True)
    claim(folder, {**vars(given), 'scenario': '\n'.join(grid.pattern.lines), 'format': grid.asked.format, 'link': grid.asked.link,
                   'program_sha256': grid.asked.digest}, [*(path + '.txt' for path in paths), *(path + '.csv' for path in paths)])
    for number, path in zip(numbers, paths):
        check_row_before(folder, grid, number)
        with output.written(path + '.txt', inputs) as file:
            file.write(grid.text(number).encode('latin-1'))
    with output.written(os.path.join(folder, 'jobs'), inputs) as file:
        file.write(''.join(lines))
    return os.path.join(folder, 'jobs')


def check_row_before(folder: str, grid: Grid, number: int) -> None:
    """Takes away a row that says why there are no figures, so that its run is run again; Wrong where a row is no row of this
    sweep."""
    row, path = row_in(folder, grid, number), os.path.join(folder, grid.name(number) + '.csv')
    if row and len(row) == 1:
        raise Wrong(f'{path}: {row["status"]}: name another folder')
    if row and not is_answered(row):
        os.unlink(path)


def check_lines(lines: list[str], given: argparse.Namespace, folder: str) -> None:
    """Wrong where a job is no line of text, with what makes it none."""
    if not all(is_line(line[:-1]) for line in lines):
        named = {f'{option} ': vars(given).get(option[2:]) for option in ('--print', '--folder', '--program')}
        named = {**named, 'the current folder, ': folder, 'the path of ': call_of_this()[-1]}
        what, name = next((what, name) for what, name in named.items() if name and not is_line(name))
        raise Wrong(f'{what}{name!r}: jobs are lines of text, and this name has a line feed or is no text' +
                    '; --folder names another folder' * (name == folder and given.folder is None))


def is_line(name: str) -> bool:
    """Whether a name can stand in a line of text."""
    return '\n' not in name and output.printable(name) == name


def spelled(value: object) -> str:
    """What a folder keeps of an option, in words."""
    return 'none' if value in (None, False, []) else 'given' if value is True else repr(value)


def claim(folder: str, kept: dict[str, object], paths: Iterable[str]) -> None:
    """Has a folder be that of a sweep; Wrong where it is another's."""
    kept = {word: kept[word] for word in KEPT}
    path = os.path.join(folder, SWEEP)
    if os.path.lexists(path):
        there = kept_of(folder)
        for word, (_, name) in KEPT.items():
            if name and there[word] != kept[word]:
                both = '' if word == 'scenario' else f', {spelled(there[word])} and not {spelled(kept[word])}'
                raise Wrong(f'{folder} is of a sweep with another {name}{both}: name another folder')
    elif left := next(filter(os.path.lexists, paths), None):
        raise Wrong(f'{left} is there, and no {SWEEP} says of which sweep: name another folder')
    with output.written(path) as file:
        file.write(json.dumps(kept, indent=1) + '\n')


def print_jobs(grid: Grid, given: argparse.Namespace) -> str:
    """Writes a folder of all the grid's jobs, and `grid.csv`, which names each point's values."""
    jobs = write_jobs(grid, range(len(grid.points)), given, os.path.abspath(given.print))
    with output.written(os.path.join(given.print, 'grid.csv'), inputs_of(given)) as file:
        out = csv.writer(file, lineterminator='\n')
        out.writerow(['scenario', *(each.key for each in grid.settings)])
        for number in range(len(grid.points)):
            out.writerow([grid.name(number), *grid.labels(number).values()])
    return jobs


def kept_of(folder: str) -> dict[str, object]:
    """What a folder keeps of the sweep that wrote it, each value of its sort."""
    path = os.path.join(folder, SWEEP)
    try:
        kept = json.loads(plain_text(path))
    except (ValueError, RecursionError) as wrong:
        raise Wrong(f'{path} is none of --print, as it is no JSON: {wrong}') from wrong
    if not isinstance(kept, dict):
        raise Wrong(f'{path} is none of --print, as it is no object of JSON')
    for word, (sort, _) in KEPT.items():
        if word not in kept or not IS_OF[sort](kept[word]):
            raise Wrong(f'{path} is none of --print, as {word!r} is not {sort}')
    return kept


def row_in(folder: str, grid: Grid, number: int) -> dict[str, str] | None:
    """The figures of a job that is done; None where it has none. A row that is cut, or of another run, says so."""
    try:
        rows = read_csv(os.path.join(folder, grid.name(number) + '.csv'))
    except FileNotFoundError:
        return None
    if not rows:
        return None
    titles = ['status', *grid.link(), *grid.figures(), *QUESTION]
    if fault := fault_of(rows[0], grid, titles):
        return {'status': f'its row {fault}'}
    if fault := difference(rows[0], grid.begin_of(number, grid.text(number))):
        return {'status': f'its row is {fault}'}
    return {name: rows[0][name] for name in titles[:-len(QUESTION)]}


def first_program(folder: str, grid: Grid) -> str:
    """Of which program the first row of a folder is, where none was there yet when it was written."""
    for number in range(len(grid.points)):
        with contextlib.suppress(FileNotFoundError):
            for row in read_csv(os.path.join(folder, grid.name(number) + '.csv'))[:1]:
                return (re.fullmatch('[0-9a-f]{16}', row.get('program_sha256') or '') or [''])[0]
    return ''


def why_none(folder: str, grid: Grid, number: int, says: str = '') -> dict[str, str]:
    """The row of a job that has none: what it said last, and what the engine says."""
    last = []
    with contextlib.suppress(OSError, Unreadable):
        last = plain_text(os.path.join(folder, grid.name(number) + '.log')).split('\n')[-2:-1]
    said = ''.join(it if it.isprintable() else '?' for it in ''.join(last)[:MOST_SAID])
    return {'status': ': '.join(filter(None, ['not run', says, said]))}


def gathered(folder: str) -> Runner:
    """What gives the rows of a folder's jobs, as they are; a job that has not run has a row that says so."""
    def rows(grid: Grid, numbers: Sequence[int]) -> Iterator[Ran]:
        yield [(number, row_in(folder, grid, number) or why_none(folder, grid, number)) for number in numbers]
    return rows


# ---- engines that run a folder

def come(grid: Grid, numbers: Sequence[int], folder: str, goes_on: Callable[[], bool],
         says: Callable[[int], str] = lambda _: '') -> Iterator[Ran]:
    """The rows of a folder as they come, while its engine goes on, and then those of jobs that have none. `says` is what the
    engine says of a job, by its place among the numbers."""
    waiting, on = {grid.name(number) + '.csv': place for place, number in enumerate(numbers)}, True
    while waiting and on:
        on, ran = goes_on(), []
        for name in sorted(waiting.keys() & set(os.listdir(folder))):
            number = numbers[waiting[name]]
            row = row_in(folder, grid, number)
            if row is not None:
                del waiting[name]
                ran.append((number, row))
        if ran:
            yield ran
        if waiting and on:
            time.sleep(LOOK)
    for place in waiting.values():
        yield [(numbers[place], why_none(folder, grid, numbers[place], says(place)))]


@contextlib.contextmanager
def job_folder(named: str | None) -> Iterator[str]:
    """The folder that is named, or a new one here, which is taken away once all is gathered."""
    if named:
        yield os.path.abspath(named)
        return
    folder = os.path.abspath(tempfile.mkdtemp(prefix='tcpsim-sweep-', dir='.'))
    try:
        yield folder
    finally:
        until = time.monotonic() + PATIENCE
        while os.path.exists(folder) and time.monotonic() < until:      # a job that is ended may write until it is
            shutil.rmtree(folder, ignore_errors=True)


def answer_of(words: list[str], package: str, patience: int = PATIENCE) -> str:
    """What a command of an engine answers within `patience` seconds, or Refused in one sentence."""
    try:
        done = subprocess.run(words, stdin=subprocess.DEVNULL, capture_output=True, timeout=patience, encoding='utf-8', errors='replace',
                              check=False)
    except FileNotFoundError:
        raise Refused(f'--on wants {words[0]}, which is not there: apt-get install {package}') from None
    except subprocess.TimeoutExpired:
        raise Refused(f'{words[0]} has no answer within {patience} s: is all up that it asks?') from None
    if done.returncode:
        last = ' '.join((done.stderr + done.stdout).strip().split('\n')[-1].split())
        raise Refused(f'{" ".join(words[:2])}: {last or f"status {done.returncode}"}')
    return done.stdout


def by_slurm(given: argparse.Namespace) -> Runner:
    """Runs points as a job array of Slurm's, of at most as many tasks as are named."""
    def rows(grid: Grid, numbers: Sequence[int]) -> Iterator[Ran]:
        answer_of(['scontrol', 'ping'], 'slurm-client')
        with job_folder(given.folder) as place:
            jobs = write_jobs(grid, numbers, given, place)
            count = min(len(numbers), given.jobs or MOST_TASKS)
            script = os.path.join(place, 'job.sh')
            with output.written(script) as file:
                file.write(slurm_script(place, jobs, count))
            number = answer_of(['sbatch', '--parsable', script], 'slurm-client').strip().partition(';')[0]
            try:
                yield from come(grid, numbers, place, Queued(number), lambda at: state_of(number, at % count + 1))
            finally:
                subprocess.run(['scancel', number], capture_output=True, timeout=PATIENCE, check=False)
    return rows


class Queued:
    """Whether an array is in Slurm's queue. A controller that does not answer for a while may come back."""

    def __init__(self, number: str):
        self._words, self._asked, self._answered, self._on = ['squeue', '-h', '-o', '%i', '-j', number], 0.0, time.monotonic(), True

    def __call__(self) -> bool:
        if time.monotonic() - self._asked > ASK:
            try:
                self._on, self._answered = bool(answer_of(self._words, 'slurm-client').strip()), time.monotonic()
            except Refused as wrong:
                if 'Invalid job id' in str(wrong):          # it is over, and forgotten
                    self._on = False
                elif time.monotonic() - self._answered > LONGEST:
                    raise
            self._asked = time.monotonic()
        return self._on


def slurm_script(folder: str, jobs: str, tasks: int) -> str:
    """The text that sbatch takes: each task of the array has every so-manieth line of `jobs`. The shell names its output, since
    sbatch reads % and a backslash in a name as a pattern."""
    log = shlex.quote(os.path.join(folder, 'task_'))
    return ('#!/bin/sh\n#SBATCH --job-name=tcpsim-sweep\n'
            f'#SBATCH --array=1-{tasks}\n#SBATCH --requeue\n#SBATCH --output=/dev/null\nexec > {log}"$SLURM_ARRAY_TASK_ID".log 2>&1\n'
            f'sed -n "${{SLURM_ARRAY_TASK_ID}}~{tasks}p" {shlex.quote(jobs)} | sh\n')


def state_of(number: str, task: int) -> str:
    """What Slurm says of a task of an array that has ended."""
    with contextlib.suppress(Refused):
        for line in answer_of(['scontrol', '-o', 'show', 'job', f'{number}_{task}'], 'slurm-client').split('\n'):
            said = dict(word.split('=', 1) for word in line.split() if '=' in word)
            if 'JobState' in said:
                return f'slurm says {said["JobState"]}, exit code {said.get("ExitCode", "?")}'
    return 'slurm has forgotten it'


def by_parallel(given: argparse.Namespace, jobs: int, hosts: str | None) -> Runner:
    """Runs points by GNU parallel, `jobs` side by side on each machine: this one, or those of an --sshlogin."""
    def rows(grid: Grid, numbers: Sequence[int]) -> Iterator[Ran]:
        logins = ['--sshlogin', hosts] if hosts else []
        compare_versions(grid, hosts)
        with job_folder(given.folder) as place, tempfile.TemporaryFile() as said:
            path = write_jobs(grid, numbers, given, place)
            words = ['parallel', '--will-cite', '-j', str(jobs), '--retries', str(RETRIES), *logins, '-a', path]
            with subprocess.Popen(words, stdin=subprocess.DEVNULL, stdout=said, stderr=said, start_new_session=True,
                                  preexec_fn=ends_with_parent(signal.SIGINT)) as process:
                try:
                    yield from come(grid, numbers, place, lambda: process.poll() is None, lambda _: last_said(said, process))
                finally:
                    end_group(process)
    return rows


def last_said(said: IO[bytes], process: subprocess.Popen) -> str:
    """What GNU parallel says of jobs that have no row: its last line, and its status."""
    said.seek(0)
    last = said.read().decode(errors='replace').strip().split('\n')[-1]
    return f'parallel says {output.printable(last)!r}, status {process.returncode}'


def compare_versions(grid: Grid, hosts: str | None) -> None:
    """Refused where the program is not the same on each machine."""
    if not hosts:
        answer_of(['parallel', '--will-cite', '--version'], 'parallel', LOGGING_IN)
        return
    said = answer_of(['parallel', '--will-cite', '--nonall', '--tag', '--sshlogin', hosts, f'{shlex.quote(grid.asked.program)} --version'],
                     'parallel', LOGGING_IN).splitlines()
    for line in said:
        host, _, version = line.partition('\t')
        if version != grid.asked.version:
            raise Refused(f'{grid.asked.program} on {host} is {version or "none"!r}, and here it is {grid.asked.version!r}: the same '
                          'program stands at one path on all machines')
    if len(said) <= hosts.count(','):
        raise Refused(f'--on parallel:{hosts}: {len(said)} of these machines say which version {grid.asked.program} is: does `ssh HOST` '
                      'give a shell on each?')


def end_group(process: subprocess.Popen) -> None:
    """Ends an engine that still runs, and its jobs: an interruption has GNU parallel end those first."""
    if process.poll() is None:
        process.send_signal(signal.SIGINT)
        with contextlib.suppress(subprocess.TimeoutExpired):
            process.wait(PATIENCE)
    with contextlib.suppress(ProcessLookupError):
        os.killpg(process.pid, signal.SIGKILL)
