"""The rows of a sweep in files: as CSV, as they come, and those that are there already.

While a sweep with -o FILE runs, a journal beside FILE has its rows, each whole as soon as its run has ended; FILE is put in
its place when every row is there. So whatever ends a sweep, --resume FILE goes on with it. A journal is a new file, locked
while its sweep runs, and known by its name and its first line: no other file is read, changed or taken away.
"""
from __future__ import annotations

import contextlib
import csv
import errno
import fcntl
import glob
import io
import os
import re
import secrets
import stat
import time
from collections.abc import Collection, Iterable, Mapping

from tcpsim import output
from tcpsim.command_line import ENDS, Wrong
from tcpsim.scenario.text import Unreadable
from tcpsim.sweeps.rows import QUESTION, Grid

FIRST_LINE = '# The rows so far of a tcpsim-sweep: --resume goes on with them.\n'
LONGEST = 1 << 26               # bytes of a file that others can have written
LONGEST_ROWS = 1 << 30          # of one that has every row of a sweep
LONGEST_STATUS = 1 << 10        # characters
NUMBER = re.compile(r'-?[0-9]{1,40}(\.[0-9]{1,9})?|')
TRIES, PAUSE = 5, 0.02          # of two sweeps that begin at once each sees the other, and they draw who is first


# ---- rows as CSV

class Same:
    """A file for csv.writer, whose `writerow` answers what this one's `write` does: the line."""

    def write(self, line: str) -> str:
        """Answers the line."""
        return line


WRITER = csv.writer(Same(), lineterminator='\n')


def csv_line(row: dict[str, str], columns: list[str]) -> str:
    """A row as a line of CSV."""
    return WRITER.writerow([row.get(name, '') for name in columns])


def csv_text(rows: list[dict], columns: list[str]) -> str:
    """Rows as CSV, their titles first."""
    return ''.join([csv_line(dict(zip(columns, columns)), columns), *(csv_line(row, columns) for row in rows)])


def plain_text(path: str, most: int = LONGEST) -> str:
    """The text of a plain file of at most `most` bytes. What is none is not opened: one would wait for a pipe."""
    if not stat.S_ISREG(os.stat(path).st_mode):
        raise Unreadable(f'{path} is no plain file')
    with open(os.open(path, os.O_RDONLY | os.O_NONBLOCK | output.FLAGS), 'rb') as file:
        contents = file.read(most + 1)
    if len(contents) > most:
        raise Unreadable(f'{path} is longer than {most:,} bytes')
    try:
        return contents.decode('utf-8')
    except UnicodeDecodeError as wrong:
        raise Unreadable(f'{path} is no UTF-8: {wrong}') from wrong


def read_csv(path: str, most: int = LONGEST) -> list[dict]:
    """The rows of a file of CSV, or of a journal. A last line that has no end is none."""
    text = plain_text(path, most).removeprefix(FIRST_LINE)
    try:
        return list(csv.DictReader(io.StringIO(text[:text.rfind('\n') + 1], newline=''), strict=True))
    except csv.Error as wrong:
        raise Unreadable(f'{path} is no CSV: {wrong}') from wrong


def fault_of(row: dict, grid: Grid, titles: Iterable[str]) -> str:
    """What is wrong with a row that has to have these titles and figures of a grid; empty where nothing is."""
    if not set(titles) <= set(row) or None in row or None in row.values():
        return 'is cut'
    for name in grid.figures():
        if not NUMBER.fullmatch(row[name]):
            return f'has no number as {name}, but {row[name][:40]!r}'
    if not row['status'].isprintable() or len(row['status']) > LONGEST_STATUS:
        return f'has no status, but {row["status"][:40]!r}'
    if grid.link() and row['link'] not in ('', *grid.pattern.named('link')):
        return f'has no link of the scenario, but {row["link"][:40]!r}'
    return ''


def difference(row: Mapping[str, str], begin: Mapping[str, object]) -> str:
    """How a row's question is another one than that of a run whose row begins so; empty where it is the same."""
    name = next((name for name in QUESTION if row[name] != str(begin[name])), None)
    return f'{QUESTION[name]}, {name} {row[name][:80]!r} and not {str(begin[name])!r}' if name else ''


# ---- rows as they come

class Journal:
    """The rows of a sweep as they come. `ended` are the journals of the same file that other sweeps have left; Wrong where one
    of these runs. A folder into which nothing can be written has no journal."""

    def __init__(self, path: str, columns: list[str]):
        self._name, self._place, self._columns, self._begin = path, os.path.realpath(path), columns, ''
        self._number: int | None = None
        self.ended: list[str] = []
        self._taken: list[str] = []
        try:
            for _ in range(TRIES):
                self._make()
                states = {each: is_running(each) for each in journals_of(self._place) if each != self._path}
                self.ended = [each for each, runs in states.items() if runs is False]
                if not any(states.values()):
                    return
                self.close(False)
                time.sleep(PAUSE * secrets.randbelow(TRIES))
            raise Wrong(f'another sweep writes {path}: name another file, or wait for its end')
        except BaseException:
            self.close(False)
            raise

    def _make(self) -> None:
        self._path, self._size, self._rows = f'{self._place}.{secrets.token_hex(8)}.part', 0, 0
        with output.held_back(ENDS), contextlib.suppress(OSError):
            self._number = os.open(self._path, os.O_WRONLY | os.O_CREAT | os.O_EXCL | os.O_NOFOLLOW | output.FLAGS, 0o666)
            fcntl.lockf(self._number, fcntl.LOCK_EX | fcntl.LOCK_NB)    # a disk of several machines may have no locks
        if self._number is not None:
            self._write(self._number, FIRST_LINE)

    def take(self, rows: Iterable[dict]) -> None:
        """Takes the rows that are there, of the ended journals too; they are written with the first that is new."""
        self._begin, self._taken = csv_text(list(rows), self._columns), self.ended

    def add(self, rows: Collection[dict[str, str]]) -> None:
        """Writes rows, at once and whole."""
        if self._number is not None:
            lines = [csv_line(row, self._columns) for row in rows]
            self._write(self._number, (self._begin or csv_text([], self._columns) * (not self._rows)) + ''.join(lines))
            self._begin, self._rows = '', self._rows + len(rows)

    def _write(self, number: int, text: str) -> None:
        """Writes all of a text, or nothing."""
        contents = text.encode('utf-8', 'surrogateescape')
        with output.named(self._name):
            if os.write(number, contents) < len(contents):
                os.ftruncate(number, self._size)
                raise OSError(errno.ENOSPC, os.strerror(errno.ENOSPC))
        self._size += len(contents)

    def close(self, done: bool) -> None:
        """Ends it. It is taken away where it has no row, or where all are in their file, and then with those that it took."""
        with output.held_back(ENDS):
            gone = [self._path] * (self._number is not None and (done or not self._rows)) + self._taken * done
            for path in gone:
                with contextlib.suppress(OSError):
                    os.unlink(path)
            if self._number is not None:
                os.close(self._number)
                self._number = None


def journals_of(place: str) -> list[str]:
    """The files that are named as journals of a file."""
    return [path for path in sorted(glob.glob(f'{glob.escape(place)}.*.part'))
            if re.fullmatch('[0-9a-f]{16}', path[len(place) + 1:-len('.part')])]


def is_running(path: str) -> bool | None:
    """Whether the sweep of a journal runs; None of what is no journal, whatever its name is."""
    try:
        if not stat.S_ISREG(os.lstat(path).st_mode):
            return None
        with open(os.open(path, os.O_RDONLY | os.O_NONBLOCK | os.O_NOFOLLOW | output.FLAGS), 'rb', 0) as file:
            if file.read(len(FIRST_LINE)) != FIRST_LINE.encode():
                return None
            fcntl.lockf(file, fcntl.LOCK_SH | fcntl.LOCK_NB)
    except BlockingIOError:
        return True
    except OSError as wrong:
        return False if wrong.errno == errno.ENOLCK else None
    return False


def has_rows(path: str) -> bool:
    """Whether a journal has any."""
    return os.path.getsize(path) > len(FIRST_LINE)


def journal_of(path: str, grid: Grid) -> Journal | None:
    """The journal of a file. A device or a pipe has none, nor has the one run of a job."""
    with contextlib.suppress(OSError):
        if not stat.S_ISREG(os.stat(path).st_mode):
            return None
    return Journal(path, grid.columns()) if grid.settings else None


def rows_there(path: str, ended: Iterable[str], grid: Grid) -> dict[int, dict]:
    """The rows of a grid that stand in a file, or in the journals of it, by the numbers of their runs: those with figures, and
    those that the program refuses. Rows of values that the grid has not are passed over. Wrong where a file is of another
    sweep."""
    keys, found = [each.key for each in grid.settings], {}
    wanted = {tuple(grid.labels(number).values()): number for number in range(len(grid.points))}
    for each in (*([path] if os.path.exists(path) else []), *ended):
        for row in read_csv(each, LONGEST_ROWS):
            if list(row) != grid.columns():
                raise Wrong(f'--resume {path}: {each} has other columns, {some(filter(None, row))}: give the words that it was made by, or '
                            f'another file; this sweep has {some(grid.columns())}')
            number = wanted.get(tuple(row[key] for key in keys))
            if number is None:
                continue
            if fault := fault_of(row, grid, grid.columns()):
                raise Wrong(f'--resume {path}: a row of {each} {fault}: mend it, or take it out')
            begin = grid.row(number, {})
            if fault := difference(row, begin) or ('' if begin.items() <= row.items() else 'with other numbers'):
                raise Wrong(f'--resume {path}: {each} has runs {fault}: give the words that it was made by, or another file')
            if is_answered(row):
                found[number] = row
    return found


def some(names: Iterable[str]) -> str:
    """The first names."""
    names = list(names)
    return ', '.join(names[:12]) + ', ..' * (len(names) > 12)


def is_answered(row: dict[str, str]) -> bool:
    """Whether a run has figures, or was refused by the program."""
    return row['status'] == 'done' or row['status'].startswith('refused ')
