"""The clone as its tests and dev/ use it: where its parts are, how its program, model and tools are run, what a machine
lacks. Importing it puts python/ on sys.path, where the packages are. What wants pytest is in conftest.py, at the top."""
import concurrent.futures
import csv
import functools
import hashlib
import io
import os
import shutil
import subprocess
import sys
import tempfile
import time

TOP = os.path.dirname(os.path.dirname(os.path.abspath(__file__)))
BIN = os.path.join(TOP, 'bin')
EXAMPLES = os.path.join(TOP, 'examples')
MODEL = os.path.join(BIN, 'tcpsim-model')       # runs scenarios in the program's place
BUILT = os.path.join(TOP, 'crates', 'tcpsim', 'out', 'tcpsim')
# What runs scenarios in tests: `pytest --program FILE` names another.
PROGRAM = BUILT if os.path.exists(BUILT) else MODEL
CHROMIUM = next(filter(None, map(shutil.which, ('chromium', 'chromium-browser', 'google-chrome'))), None)
PATIENCE = 600      # seconds in which a process ends, on a machine that is busy
NAMES = sorted(name[:-6] for name in os.listdir(EXAMPLES) if name.endswith('.trace'))
# Four parts with a bottleneck each, joined by cables of 40 ms: each has thousands of events in a window.
WIDE = ('islands', '--islands', '4', '--flows', '10', '--rate', '200M', '--between', '40ms', '--end')
sys.path.insert(1, os.path.join(TOP, 'python'))


def read(*path):
    """The bytes of a file of the clone, or of another."""
    with open(os.path.join(TOP, *path), 'rb') as file:
        return file.read()


def read_text(*path):
    """The same as text."""
    return read(*path).decode()


def digest(path):
    """The first digits of a file's SHA-256, as a row of a sweep has that of its program."""
    said = ran(path, '--version').stdout.partition(b'\n')[0] if path == MODEL else b''
    return hashlib.sha256(read(path) + said).hexdigest()[:16]


def paths(name):
    """The scenario's file and the trace's of an example."""
    return tuple(os.path.join(EXAMPLES, name + ending) for ending in ('.txt', '.trace'))


def example(name):
    """The scenario's text, and the trace's lines."""
    scenario, trace = map(read_text, paths(name))
    return scenario, trace.splitlines()


def ran(*words, **more):
    """A process that has ended; what it wrote is kept, and there is nothing to read unless it is given."""
    streams = {} if 'input' in more else {'stdin': subprocess.DEVNULL}
    more = {**streams, 'timeout': PATIENCE, 'stdout': subprocess.PIPE, 'stderr': subprocess.PIPE, **more}
    return subprocess.run(list(words), check=False, **more)


def tool_words(name):
    """The words that begin a tool's command line."""
    return [sys.executable, os.path.join(BIN, f'tcpsim-{name}')]


def tool(name, *words, **more):
    """A tool's process, which has ended."""
    return ran(*tool_words(name), *words, **more)


def told(name, *words, **more):
    """What a tool writes, as text; its status is 0, and it says nothing else."""
    done = tool(name, *words, **more)
    assert (done.returncode, done.stderr) == (0, b''), done.stderr
    return done.stdout.decode()


def refusal(name, *words, **more):
    """The status with which a tool refuses words, and its one sentence; it writes nothing else."""
    done = tool(name, *words, text=True, **more)
    assert (done.stdout, done.stderr.count('\n'), done.stderr.startswith(f'tcpsim-{name}: ')) == ('', 1, True), done
    return done.returncode, done.stderr.removeprefix(f'tcpsim-{name}: ').rstrip()


def csv_rows(text):
    """The rows of a table of comma-separated values, by the words of its heading."""
    return list(csv.DictReader(io.StringIO(text)))


def until(is_so, what, seconds=PATIENCE):
    """Waits until something is so."""
    end = time.monotonic() + seconds
    while not is_so():
        assert time.monotonic() < end, what
        time.sleep(.02)


def outcome(words, given=b'', **more):
    """The status, the note and the output of a run of the program."""
    done = ran(PROGRAM, *words, input=given, **more)
    return done.returncode, done.stderr, done.stdout


def of_model(words, given=b''):
    """The same of the model, in this process."""
    from tcpsim_model import command_line
    written: list[bytes] = []
    told: list[bytes] = []
    status, note = command_line.main(words, given, written.append, told.append)
    return status, b''.join(told) + (f'{note}\n'.encode() if note else b''), b''.join(written)


def side_by_side(function, rows):
    """What the function answers of each row, which it takes as its words, by as many threads as there are processors."""
    with concurrent.futures.ThreadPoolExecutor(len(os.sched_getaffinity(0))) as pool:
        return list(pool.map(lambda row: function(*row), rows))


@functools.cache
def wide(end):
    """A scenario in whose windows several threads are at work, up to its end, as 1200ms."""
    return ran(*tool_words('net'), *WIDE, end).stdout


def library(folder, name, *options):
    """A library for LD_PRELOAD, compiled from dev/NAME.c into a folder."""
    path = os.path.join(folder, f'{name}.so')
    source = os.path.join(TOP, 'dev', f'{name}.c')
    subprocess.run(['cc', '-O1', '-shared', '-fPIC', *options, source, '-o', path, '-ldl'], check=True)
    return path


class Folder:
    """The base of tests that write into a folder of their own."""

    def setup_method(self):
        self.made = tempfile.TemporaryDirectory()
        self.folder = self.made.name

    def teardown_method(self):
        self.made.cleanup()

    def put(self, name, data, mode=None):
        """Writes a file of the folder; answers its path."""
        path = os.path.join(self.folder, name)
        with open(path, 'wb') as file:
            file.write(data.encode() if isinstance(data, str) else data)
        if mode is not None:
            os.chmod(path, mode)
        return path
