"""Runs by the model, in this process, of scenarios with queues that are classes of Python's (docs/PYTHON.md)."""
from __future__ import annotations

import contextlib
import inspect
from collections.abc import Callable, Iterator, Mapping
from typing import cast

from tcpsim.api.errors import Refused, WrongQueue
from tcpsim.api.progress import EVENTS, Progress, Told
from tcpsim.command_line import Wrong
from tcpsim.engine import PORTIONS
from tcpsim.scenario.text import Scenario
from tcpsim_model import queues as model_queues
from tcpsim_model.figures import begun, csv_line, heading, rows
from tcpsim_model.prompt import Prompt
from tcpsim_model.reasons import reason
from tcpsim_model.scenario import Refused as ModelRefused, Scenario as ModelScenario
from tcpsim_model.simulate import Network, trace
from tcpsim_model.text import assemble

METHODS = 'offer', 'take'
Maker = Callable[..., object]           # a class, or a function that gives a queue: of the link, or of nothing


def assembled(text: str) -> ModelScenario:
    """The model's scenario of a text; Refused where it is refused."""
    data = text.encode()
    try:
        return assemble(data)
    except ModelRefused as wrong:
        raise Refused(wrong.code, wrong.line, reason(data, wrong).rstrip()) from None


class OwnQueueRun:
    """A run of a scenario's text with a class for the queue of each link that is named. `told` is told how far it is."""

    def __init__(self, text: str, queues: Mapping[str, Maker], told: Told | None = None):
        self._scenario, self._told = assembled(text), told
        self.portions: list[list[int]] = []     # once the table was made: what each flow delivered in each portion of the run
        numbers = {link.name: number for number, link in enumerate(Scenario(text).links)}
        self.names: dict[int, str] = {}         # of each of these links, by its number, its class's name
        for name, maker in queues.items():
            if name not in numbers:
                raise Wrong(f'queues names the link {name!r}, and the scenario has {", ".join(numbers)}')
            number = numbers[name]
            make = makes(name, maker)
            queue = make(self._scenario.links[number])
            check_methods(name, queue, type(queue).__name__)
            self._scenario.queues[number] = make
            self.names[number] = type(queue).__name__

    def pieces(self) -> Iterator[str]:
        """The trace, line by line, each with its line feed."""
        with self._running() as progress:
            for number, line in enumerate(trace(self._scenario)):
                if number % EVENTS == 0 and not line.startswith('end'):
                    progress.at(int(line.split(' ', 2)[1]))
                yield line

    def table(self, start: int = 0) -> str:
        """The table of figures from a moment on (ns); of these links it has rows for their own words too."""
        with self._running() as progress:
            net = begun(self._scenario, start)
            sums: list[list[int]] = []
            begin = max(start, min(flow.start for flow in net.flows))
            while (due := net.due()) is not None:
                if net.events % EVENTS == 0:
                    progress.at(due[0])
                while len(sums) < PORTIONS and due[0] >= begin + len(sums) * ((net.end - begin) // PORTIONS):
                    sums.append(self._received(net))
                net.step()
            net.run_before(net.end)
            sums.append(self._received(net))
            self.portions = [[after - before for before, after in zip(*both)] for both in zip(sums, sums[1:])]
            return heading(None) + ''.join(csv_line(row, None) for row in rows(net))

    @staticmethod
    def _received(net: Network) -> list[int]:
        """The bytes that each flow's receiver has in order."""
        return [net.ends[flow.receiver].next for flow in net.flows]

    @contextlib.contextmanager
    def _running(self) -> Iterator[Progress]:
        """Says how far it is, and raises what a queue does that none can."""
        progress = Progress(self._scenario.end, self._told)
        try:
            yield progress
        except model_queues.WrongQueue as wrong:
            raise WrongQueue(str(wrong)) from None
        finally:
            progress.done()

    def answers(self) -> Callable[[str], str]:
        """A debugger's prompt over the run: gives each line's answer, or raises Refused with the prompt's words."""
        prompt = Prompt(self._scenario)

        def answer(line: str) -> str:
            try:
                return prompt.answer(line.encode())
            except ModelRefused as wrong:
                explained = prompt.noted(line.encode(), wrong).partition('\n')[2].strip()
                raise Refused(wrong.code, wrong.line, explained) from None
            except model_queues.WrongQueue as wrong:
                raise WrongQueue(str(wrong)) from None
        return answer


def check_methods(link: str, queue: object, name: str) -> None:
    """WrongQueue where a queue, or the class of one, lacks a method."""
    for method in METHODS:
        if not callable(getattr(queue, method, None)):
            raise WrongQueue(f'the queue of link {link}, {name}, has no method {method}: it wants offer(packet, now, drop) and '
                             'take(now, drop)')


def makes(link: str, maker: Maker) -> Callable[[object], object]:
    """What makes a queue of a link, by a class or a function that takes the link, or nothing; WrongQueue where this is none."""
    if not callable(maker):
        if all(hasattr(maker, method) for method in METHODS):
            name = type(maker).__name__
            raise WrongQueue(f'the queue of link {link} is an object, and each run makes its own: give the class, {name}, without ()')
        raise WrongQueue(f'the queue of link {link} is a class with the methods offer and take, and not {maker!r}')
    if isinstance(maker, type):
        check_methods(link, maker, maker.__name__)
    try:
        signature = inspect.signature(maker)
    except (TypeError, ValueError):     # of what Python cannot tell the parameters
        return maker
    for given in ((None,), ()):
        with contextlib.suppress(TypeError):
            signature.bind(*given)
            return cast(Callable[[object], object], maker if given else lambda _: maker())
    raise WrongQueue(f'the queue of link {link} is called with the link, or with nothing, and {maker.__name__}{signature} takes '
                     'something else')
