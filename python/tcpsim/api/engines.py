"""Chooses what runs a scenario: the program, or else the model; and starts it so that it ends with this process."""
from __future__ import annotations

import contextlib
import subprocess
from collections.abc import Callable, Iterator, Mapping
from dataclasses import dataclass

from tcpsim.api.errors import Error, as_raised, refusal
from tcpsim.command_line import MODEL, Wrong
from tcpsim.engine import LONGEST_TABLE, EngineRun, portions_of, written_table
from tcpsim.program import NoProgram, check_time, find_program, found, is_model, is_program
from tcpsim.prompt import ends_with_parent
from tcpsim.scenario.text import Scenario
from tcpsim.whole_trace import BLOCK, ProgramFailed, blocks, running



@dataclass(frozen=True)
class Engine:
    """What runs a scenario: `name` is 'program' or 'model', `path` its file."""

    name: str
    path: str

    def check(self, text: str) -> None:
        """Raises Refused where the scenario's text is refused."""
        done = subprocess.run([self.path, 'asm', '--explain'], input=text.encode(), capture_output=True, check=False)
        if done.returncode:
            raise refusal(done.stderr.decode('utf-8', 'replace')) or as_raised(ProgramFailed(done.returncode, done.stderr))

    def table(self, text: str) -> str:
        """The table of figures of a scenario's run (docs/FORMATS.md)."""
        try:
            with running([self.path, 'figures'], text.encode(), ends_with_parent()) as process:
                return written_table(process.read_all(LONGEST_TABLE))
        except ProgramFailed as wrong:
            raise as_raised(wrong) from None

    def portions(self, text: str, run: EngineRun) -> list[list[int]]:
        """What each flow of a scenario's run delivered in each of the portions of its span."""
        return portions_of(self.path, text.encode(), ends_with_parent(), run)

    @contextlib.contextmanager
    def trace(self, text: str, scenario: Scenario, keep: Callable = lambda read: read) -> Iterator[Iterator[list[str]]]:
        """The lines of a scenario's trace, block by block, as they are written. `keep` wraps what reads them."""
        try:
            with running([self.path, 'run'], text.encode(), ends_with_parent()) as process:
                yield blocks(keep(process.read), f'the trace of {self.path}', scenario, ended=process.check)
        except ProgramFailed as wrong:
            raise as_raised(wrong) from None


def engine_of(name: str | None, text: str | None) -> Engine:
    """The engine of this name, 'program' or 'model', or with this path; of None the program where it is found, else the
    model, which standard error says once. NoProgram where it is not there, or where the model would take longer than a
    minute unasked for the run of a text; of None it is not asked how long that takes."""
    try:
        if name == 'program':
            path = found()
            if not is_program(path):
                raise NoProgram('the program tcpsim is neither on PATH nor built: build it with `make run`')
        else:
            path = find_program(MODEL if name == 'model' else name, lambda: [] if text is None else [text])
    except NoProgram as wrong:
        raise NoProgram(by_model(str(wrong))) from None
    return Engine('model' if is_model(path) else 'program', path)


def check_text(text: str) -> None:
    """Raises Refused where a scenario's text is refused: by the program, or by the model in this process, where the program is not
    there."""
    path = found()
    if is_program(path):
        Engine('program', path).check(text)
    else:
        from tcpsim.api.by_model import assembled
        assembled(text)


def check_queues(queues: object) -> bool:
    """Whether there are queues that are classes of Python's; Wrong where they are given in no mapping by links."""
    if queues is not None and not isinstance(queues, Mapping):
        raise Wrong(f'queues is a mapping from the name of a link to a class, as {{"pq": CoDel}}, and not {queues!r}')
    return bool(queues)


def check_own(name: str | None, *texts: str) -> None:
    """Raises where queues that are classes of Python's cannot run by the engine that is asked for, or long runs of these texts unasked."""
    if name not in (None, 'model'):
        raise Wrong('the program has no queues but drop-tail and CoDel: a run with `queues` is the model\'s, '
                    f'and not that of engine={name!r}')
    if name is None:
        try:
            check_time(texts)
        except NoProgram as wrong:
            long = str(wrong).partition(':')[0]
            raise Error(f'{long}, and queues of one\'s own run by the model alone: say engine="model", or take a shorter '
                        'run') from None


def by_model(sentence: str) -> str:
    """A sentence of the tools with the words of the API in the place of their options."""
    for words in ('say --model', 'name it with --program, or give a trace'):
        sentence = sentence.replace(words, 'say engine="model"')
    return sentence


def reads_of(pieces: Iterator[str]) -> Callable[[int], bytes]:
    """A reader of the blocks that texts make up."""
    def read(size: int) -> bytes:
        held, length = [], 0
        while length < min(size, BLOCK) and (piece := next(pieces, None)):
            held.append(piece)
            length += len(piece)
        return ''.join(held).encode()
    return read
