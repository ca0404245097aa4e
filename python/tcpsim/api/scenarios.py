"""Scenarios: builders of nets, by the shapes and options of tcpsim-net, and reading of a scenario's text or file."""
from __future__ import annotations

import functools
import inspect
import os
import re
from collections.abc import Callable, Mapping, Sequence
from typing import TYPE_CHECKING, Union

from tcpsim import output
from tcpsim.api.engines import check_text
from tcpsim.api.errors import ByName, Error, as_api
from tcpsim.cli import net
from tcpsim.scenario.text import Flow, Link, Node, Scenario, Unreadable
from tcpsim.scenario.units import spelled_time
from tcpsim.whole_trace import scenario_bytes, scenario_text

if TYPE_CHECKING:
    from tcpsim.api.shown import ExplorePage

Value = Union[str, int, Sequence[Union[str, int]], None]     # of an option: a word, a number, a list of them
SHAPES_RATES = {'--rates': '--rate'}


class ScenarioText:
    """A scenario: its `text` (docs/FORMATS.md), and `name`, by which pictures and pages call it.

    `nodes`, `links` and `flows` are read from the text, by name: rates are bit/s, times ns, sizes bytes, queues packets.
    Refused where they are asked for and the text is refused.
    """

    def __init__(self, text: str, name: str = 'scenario'):
        self.text, self.name = text, name

    @functools.cached_property
    def parsed(self) -> Scenario:
        """The scenario that the text means."""
        with as_api():
            try:
                return Scenario(self.text)
            except Unreadable:
                check_text(self.text)       # says better what is wrong
                raise

    @property
    def end_ns(self) -> int:
        """The run's end."""
        return self.parsed.end

    @property
    def nodes(self) -> Mapping[str, Node]:
        """The nodes by name, in the text's order."""
        return ByName((node.name, node) for node in self.parsed.nodes)

    @property
    def links(self) -> Mapping[str, Link]:
        """The links by name, in the text's order; `source` and `to` are numbers of nodes."""
        return ByName((link.name, link) for link in self.parsed.links)

    @property
    def flows(self) -> Mapping[str, Flow]:
        """The flows by name, in the text's order; `sender` and `receiver` are numbers of nodes."""
        return ByName((flow.name, flow) for flow in self.parsed.flows)

    def save(self, path: str | os.PathLike) -> None:
        """Writes the text to a file, whole or not at all."""
        with output.written(os.fspath(path)) as file:
            file.write(self.text)

    def explore(self, file: str | os.PathLike | None = None, view: str = 'net', event: int | None = None,
                shelf: str = '', page: str | os.PathLike | None = None) -> ExplorePage:
        """The page with the simulator, docs/PAGE.md, which runs this scenario and shows `view` (net, curves, trace ..) at `event`,
        with the sliders of `shelf`, as "pq.capacity=1..40; used pq".

        A notebook shows the page. Elsewhere it is written to `file`, or a browser opens it. `page` is the file of the page, else
        the one that `make page` wrote, or tcpsim.html in this folder.
        """
        from tcpsim.api.explore import explore
        return explore(self, file, view, event, shelf, page)

    def __repr__(self) -> str:
        head = re.findall(r'\A# (.*\.)$', self.text, re.M)
        try:
            what = f'{many(self.flows, "flow")} over {many(self.links, "link")}, {spelled_time(self.end_ns)}'
        except Error as wrong:
            what = f'a text that is refused, {str(wrong).partition(chr(10))[0]}'
        return f'<{self.name}: {"; ".join([what, *head])}>'


def many(things: Mapping, what: str) -> str:
    """A count with its noun."""
    return f'{len(things)} {what}{"s" * (len(things) != 1)}'


# ---- reading

def from_text(text: str, name: str = 'scenario') -> ScenarioText:
    """The scenario of a text. Refused, with code and line, where the text is refused."""
    if not isinstance(text, str):
        raise TypeError(f'a text is wanted, and not {text!r}')
    check_text(text)
    return ScenarioText(text, name)


def read(path: str | os.PathLike) -> ScenarioText:
    """The scenario of a file, a text or an image. OSError where it cannot be read, Refused where it is refused, Wrong where
    it is no text."""
    net = unchecked(path)
    check_text(net.text)
    return net


@as_api()
def unchecked(path: str | os.PathLike) -> ScenarioText:
    """The scenario of a file, whose text is not judged."""
    path = os.fspath(path)
    return ScenarioText(scenario_text(scenario_bytes(path), path), os.path.splitext(os.path.basename(path))[0])


def scenario_of(given: ScenarioText | str | os.PathLike) -> ScenarioText:
    """The scenario that is given: itself, a file, or a text, which has lines."""
    if isinstance(given, ScenarioText):
        return given
    if isinstance(given, str) and '\n' in given:
        return ScenarioText(given)
    if isinstance(given, (str, os.PathLike)):
        return unchecked(given)
    raise TypeError(f'a scenario, its file or its text is wanted, and not {given!r}')


# ---- building

def option_names(shape: str) -> dict[str, str]:
    """The options of a shape as Python has them, and as the command line does."""
    given = (SHAPES_RATES.get(option, option) for option in net.SHAPES[shape][1])
    return {option[2:].replace('-', '_'): option for option in given}


def as_word(value: Value) -> str:
    """A value as a command line has it: a list has commas."""
    return ','.join(map(str, value)) if isinstance(value, (list, tuple, range)) else str(value)


def lost_packets(value: Value | Mapping[str, Value]) -> list[str]:
    """The words of `lose`, one for each link: of {"pq": [20, 21]}, of a word, or of a list of words."""
    if isinstance(value, Mapping):
        return [f'{link}={as_word(packets)}' for link, packets in value.items()]
    return list(map(str, value)) if isinstance(value, Sequence) and not isinstance(value, str) else [str(value)]


def built(shape: str, options: Mapping[str, Value]) -> ScenarioText:
    """The scenario of a shape with these options."""
    names = option_names(shape)
    words = [shape]
    for name, value in options.items():
        if name not in names:
            raise TypeError(f'{shape.replace("-", "_")}() has no option {name!r}; it has {", ".join(names)}')
        if name == 'lose' and value is not None:
            words += [f'--lose={word}' for word in lost_packets(value)]
        elif value is True:
            words.append(names[name])
        elif value is not None and value is not False:
            words.append(f'{names[name]}={as_word(value)}')
    with as_api():
        return ScenarioText(net.scenario(words), shape)


def shaped(function: Callable[..., ScenarioText]) -> Callable[..., ScenarioText]:
    """Gives a builder the signature and the documentation of its shape's options."""
    shape = function.__name__.replace('_', '-')
    shape = {'access-line': 'asymmetric'}.get(shape, shape)
    texts = {SHAPES_RATES.get(option, option): net.OPTIONS[option]['help'] for option in net.SHAPES[shape][1]}
    lines = [f'    {name}: {texts[option]}' for name, option in option_names(shape).items()]
    function.__doc__ = '\n'.join([function.__doc__ or '', '', 'Options, those of tcpsim-net:', *lines, '',
                                  'A list gives each flow, or hop, its own value, as rtt=["40ms", "80ms"], and begins again where it is '
                                  'shorter. lose={"pq": [20, 21]} names packets by their link. Wrong where a word cannot be '
                                  'read or is out of range.'])
    signature = inspect.Signature(
        [inspect.Parameter(name, inspect.Parameter.KEYWORD_ONLY, default=None) for name in option_names(shape)],
        return_annotation='ScenarioText')
    setattr(function, '__signature__', signature)
    return function


@shaped
def dumbbell(**options: Value) -> ScenarioText:
    """Flows over one bottleneck, pq, between two routers."""
    return built('dumbbell', options)


@shaped
def chain(**options: Value) -> ScenarioText:
    """Flows from one end of a row of routers to the other."""
    return built('chain', options)


@shaped
def parking_lot(**options: Value) -> ScenarioText:
    """One flow over every hop of a row of routers, and others over one hop each."""
    return built('parking-lot', options)


@shaped
def tree(**options: Value) -> ScenarioText:
    """On each side of one bottleneck, pq, a router with leaves below it, and the ends at the leaves."""
    return built('tree', options)


@shaped
def asymmetric(**options: Value) -> ScenarioText:
    """Downloads over a fast link, their acknowledgements over a slow one, and uploads against them."""
    return built('asymmetric', options)


@shaped
def access_line(**options: Value) -> ScenarioText:
    """A home's access line, as `asymmetric`: downloads over a fast link, uploads over a slow one."""
    return built('asymmetric', options)


@shaped
def islands(**options: Value) -> ScenarioText:
    """Parts with a bottleneck each, joined in a ring by long cables."""
    return built('islands', options)
