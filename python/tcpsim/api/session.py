"""`debug`: the debugger's prompt over a scenario, from Python. Answers are objects, refusals are raised."""
from __future__ import annotations

import contextlib
import os
from collections.abc import Callable, Iterator, Mapping
from dataclasses import replace

from tcpsim.api.answers import Move, NetNow, Why, move_of, state_of, why_of
from tcpsim.api.engines import check_own, check_queues, engine_of
from tcpsim.api.errors import Error, Refused, as_raised, refusal
from tcpsim.api.events import Event, Names, events_of
from tcpsim.api.scenarios import ScenarioText, scenario_of
from tcpsim.command_line import Wrong
from tcpsim.prompt import Prompt, PromptEnded
from tcpsim.scenario import units
from tcpsim.scenario.units import spelled_time
from tcpsim.whole_trace import ProgramFailed


def debug(scenario: ScenarioText | str | os.PathLike, engine: str | None = None,
          queues: Mapping[str, Callable[..., object]] | None = None) -> DebugSession:
    """A debugger's session over a scenario, at its beginning: `with tcpsim.debug(net) as at: at.run_to(drop=True)`.

    Its process ends at the end of `with`, and with this process. `engine` and `queues` are those of `run`. Refused where the
    scenario is refused.
    """
    return DebugSession(scenario_of(scenario), engine, queues)


def is_before(time: str | int, now: int) -> bool:
    """Whether a word or number is a moment before that of now, in ns. What is no time the prompt refuses."""
    try:
        return (units.moment(time) if isinstance(time, str) else time) < now
    except (Wrong, TypeError):
        return False


class ProcessPrompt:
    """The prompt of a process, of the program or the model, whose refusals are raised."""

    def __init__(self, path: str, text: str):
        self._prompt: Prompt | None = Prompt([path, 'debug'], text.encode())
        with self._ended():
            self._prompt.ready()

    def __call__(self, line: str) -> str:
        """The answer to a line; Refused where it is refused."""
        if self._prompt is None:
            raise Error('the session has ended')
        with self._ended():
            answer = self._prompt.ask(line)
        if answer.note and (wrong := refusal(answer.note.strip())):
            raise wrong
        return answer.text

    @contextlib.contextmanager
    def _ended(self) -> Iterator[None]:
        """Ends the session where the process ends, or an interruption comes, after which nobody knows what the prompt is
        answering."""
        try:
            yield
        except PromptEnded as ended:
            self.end()
            raise refusal(ended.last.note) or as_raised(ProgramFailed(ended.status, ended.last.note.encode())) from None
        except BaseException:
            self.end()
            raise

    def end(self) -> None:
        """Ends the process."""
        if self._prompt is not None:
            prompt, self._prompt = self._prompt, None
            prompt.end()


class DebugSession:
    """A session of the debugger. Nodes, links and flows go by the scenario's names. `position` is how many events were run,
    `time_ns` when the last of them was."""

    def __init__(self, scenario: ScenarioText, engine: str | None = None,
                 queues: Mapping[str, Callable[..., object]] | None = None):
        self.scenario = scenario
        self._end: Callable[[], None] = lambda: None
        if check_queues(queues) and queues is not None:
            from tcpsim.api.by_model import OwnQueueRun
            check_own(engine or 'model', scenario.text)
            self.engine, self._ask = 'model', OwnQueueRun(scenario.text, queues).answers()
        else:
            found = engine_of(engine, None)
            found.check(scenario.text)
            self.engine, self._ask = found.name, ProcessPrompt(found.path, scenario.text)
            self._end = self._ask.end
        self.names = Names(scenario.parsed)
        self.position, self.time_ns, self.at_end = 0, 0, False
        self._conditions: Mapping[str, object] = {}

    def __enter__(self) -> DebugSession:
        return self

    def __exit__(self, *_: object) -> None:
        self.close()

    def close(self) -> None:
        """Ends the session."""
        self._end()

    def ask(self, line: str) -> str:
        """The prompt's own answer to a line, whose grammar docs/FORMATS.md has; what a move changed here is not noticed."""
        try:
            return self._ask(line)
        except Refused as wrong:
            raise Refused(wrong.code, wrong.line, wrong.explained, line) from None

    # ---- moves

    def step(self, count: int = 1) -> Move:
        """So many events on."""
        return self._moved(f'step {count}')

    def back(self, count: int = 1) -> Move:
        """So many events back."""
        return self._moved(f'back {count}')

    def until(self, time: str | int) -> Move:
        """On to a moment, as '1.5s' or nanoseconds: all events before it are run. Wrong where the session is past it."""
        if is_before(time, self.time_ns):
            raise Wrong(f'until({time!r}) only goes on, and {spelled_time(self.time_ns)} of the run have passed: back, reverse and '
                        'goto go back')
        return self._moved(f'until {time}')

    def goto(self, position: int) -> Move:
        """On or back to a position, counted in events of the run as `Event.n` and a stall's `positions` count them; to the end
        where there are fewer."""
        if isinstance(position, bool) or not isinstance(position, int) or position < 0:
            raise Wrong(f'goto: {position!r} is no position: they are counted from 0, the beginning')
        return self.step(position - self.position) if position >= self.position else self.back(self.position - position)

    def run_to(self, time: str | int | None = None, **conditions: str | int | bool) -> Move:
        """On to the next event that meets all conditions, or to the run's end: `kind` (start, rto, delack, free, data, ack),
        `flow`, `node` and `link` (names or numbers), `drop=True`, `byte`, or `stall=True` or a flow's name. With `time` it
        first goes there; without conditions to that moment, or to the end. `drop` with a flow is for packets of the flow that
        are dropped, wherever."""
        moved = None if time is None else self.until(time)
        if moved and not conditions:
            return moved
        return self._to('run', conditions)

    def reverse(self, **conditions: str | int | bool) -> Move:
        """Back to the last event before this one that meets the conditions of `run_to`, or else to the beginning; where none
        are given, those of the last call."""
        return self._to('reverse', conditions or self._conditions)

    def _to(self, move: str, conditions: Mapping[str, object]) -> Move:
        flow = conditions.get('flow') if conditions.get('drop') else None
        dropped = None if flow is None else self.names.flows.get(self._number('flow', flow))
        line = self._break_line({**conditions, 'flow': None} if dropped else conditions)
        self.ask('clear')
        if line:
            self.ask(line)
        self._conditions, begin = conditions, self.position
        try:
            moved = self._moved(move)
            while dropped and moved.matched and moved.event and all(drop.flow != dropped for drop in moved.event.drops):
                moved = self._moved(move)
            return replace(moved, passed=self.position - begin)
        finally:
            self.ask('clear')

    def _moved(self, line: str) -> Move:
        answer = self.ask(line)
        moved = move_of(answer, self.position, self.ask('lines 1').rstrip('\n'), self.names)
        self.position, self.time_ns, self.at_end = moved.position, moved.time_ns, moved.at_end
        return moved

    def _break_line(self, conditions: Mapping[str, object]) -> str:
        words = []
        for name, value in conditions.items():
            if value is False or value is None:
                continue
            if name in ('node', 'link', 'flow'):
                words += [name, self._number(name, value)]
            elif name in ('kind', 'byte'):
                words += [name, str(value)]
            elif name == 'drop' and value is True:
                words.append('drop')
            elif name == 'stall':
                words += ['stall'] if value is True else ['stall', self._number('flow', value)]
            else:
                raise Wrong(f'{name}={value!r} is no condition: they are kind, flow, node, link, byte, drop=True, stall, time')
        return ' '.join(['break', *words]) if words else ''

    def _number(self, sort: str, value: object) -> str:
        """The number of a node, a link or a flow, by its name."""
        names = {'node': self.names.nodes, 'link': self.names.links, 'flow': self.names.flows}[sort]
        if isinstance(value, int):
            return str(value)
        found = next((number for number, name in names.items() if name == value), None)
        if found is None:
            raise Wrong(f'the scenario has no {sort} {value}; it has {", ".join(names.values())}')
        return found

    # ---- what there is to see

    def why(self, flow: str | int) -> Why:
        """What a flow waits for."""
        return why_of(self.ask(f'why {self._number("flow", flow)}'))

    @property
    def state(self) -> NetNow:
        """All that the net keeps here."""
        return state_of(self.ask('state'), self.names)

    def lines(self, count: int = 10) -> list[Event]:
        """The last events up to here, 1,000 at most."""
        return list(events_of([self.ask(f'lines {count}').splitlines()], self.names))

    def __repr__(self) -> str:
        end = ', the end' if self.at_end else ''
        return f'<at {self.position} of the run by the {self.engine}, {self.time_ns / 1e9:.9f} s{end}>'
