"""Runs a sweep's points on the workers of a dask scheduler, which takes again what a lost worker had. Wants Debian's
python3-distributed; the workers get the tools by themselves, and have the program at the path that it has here.
"""
from __future__ import annotations

import contextlib
import os
import tempfile
import zipfile
from collections.abc import Iterator, Sequence
from typing import TYPE_CHECKING

from tcpsim.command_line import Refused, Wrong
from tcpsim.program import version_of
from tcpsim.sweeps.pool import Ran, Runner
from tcpsim.sweeps.rows import Grid, row_of

if TYPE_CHECKING:
    from distributed import Future

PATIENCE = 5                # seconds in which a scheduler answers, at each of two steps
RETRIES = 3


def address_of(word: str) -> str:
    """HOST:PORT of a word, or Wrong."""
    host, _, port = word.rpartition(':')
    if not host or not port.isdigit() or not 0 < int(port) < 65_536:
        raise Wrong(f'--on dask:{word}: write dask:HOST:PORT, as dask:127.0.0.1:8786')
    return f'{host}:{port}'


def by_dask(word: str) -> Runner:
    """Runs points on the workers of the scheduler at HOST:PORT."""
    address = address_of(word)

    def rows(grid: Grid, numbers: Sequence[int]) -> Iterator[Ran]:
        try:
            from distributed import Client, as_completed
            from distributed.diagnostics.plugin import UploadFile
        except ImportError:
            raise Refused('--on dask wants distributed: apt-get install python3-distributed, or another python3 that has it') from None
        with contextlib.ExitStack() as stack:
            try:
                client = stack.enter_context(Client(f'tcp://{address}', timeout=PATIENCE, set_as_default=False, name='tcpsim-sweep'))
            except (OSError, TimeoutError, ValueError) as wrong:
                raise Refused(f'no dask scheduler answers at {address} within {2 * PATIENCE} s: start one by `dask-scheduler`, and workers by '
                              f'`dask-worker {address}`') from wrong
            if not client.scheduler_info()['workers']:
                raise Refused(f'the dask scheduler at {address} has no worker: start some by `dask-worker {address}`')
            with packed() as path:
                client.register_worker_plugin(UploadFile(path), name='tcpsim-tools')
            compare_versions(client.run(version_of, grid.asked.program), grid)
            futures = client.map(row_of, [grid.text(number) for number in numbers], asked=grid.asked, pure=False, retries=RETRIES)
            runs = dict(zip((future.key for future in futures), numbers))
            try:
                for future in as_completed(futures, loop=client.loop):
                    yield [(runs[future.key], figures_of(future))]
            finally:
                client.cancel(futures)
    return rows


def figures_of(future: Future) -> dict[str, object]:
    """What a run gave, or why it gave nothing."""
    wrong = future.exception()
    return {'status': f'dask says {type(wrong).__name__}: {" ".join(str(wrong).split())[:200]}'} if wrong else future.result()


def compare_versions(said: dict[str, str], grid: Grid) -> None:
    """Refused where the program is not the same on each worker."""
    for worker, version in said.items():
        if version != grid.asked.version:
            raise Refused(f'{grid.asked.program} on {worker} is {version or "none"!r}, and here it is {grid.asked.version!r}: the same '
                          'program stands at one path on all machines')


@contextlib.contextmanager
def packed() -> Iterator[str]:
    """The modules of the tools as one file, which a worker imports from."""
    top = os.path.dirname(os.path.dirname(os.path.dirname(os.path.abspath(__file__))))
    with tempfile.TemporaryDirectory() as folder:
        path = os.path.join(folder, 'tcpsim_tools.zip')
        with zipfile.ZipFile(path, 'w') as file:
            for place, _, names in os.walk(os.path.join(top, 'tcpsim')):
                for name in sorted(names):
                    if name.endswith('.py'):
                        full = os.path.join(place, name)
                        file.write(full, os.path.relpath(full, top))
        yield path
