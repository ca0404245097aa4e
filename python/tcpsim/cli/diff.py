"""tcpsim-diff: where two runs part, and the figures that differ.

Usage: bin/tcpsim-diff SCENARIO OTHER [-o FILE] [--program FILE | --model]
       bin/tcpsim-diff SCENARIO --set NAME.FIELD=VALUE .. [-o FILE] [--program FILE | --model]

With --set the other run is that of SCENARIO with these values, words as tcpsim-sweep takes them. The first line says how many events
are the same and what comes then, here and there; the second where the debugger shows it. Then each figure that differs, the greatest
relative difference first, which is over the greater of both values. The status is 0 where the runs are the same, 1 where they differ, 2 where something is wrong.
"""
from __future__ import annotations

import argparse
import contextlib
import functools
from collections.abc import Iterator, Sequence

from tcpsim import output
from tcpsim.api.difference import Difference, Side, queue_at
from tcpsim.api.scenarios import ScenarioText
from tcpsim.command_line import Refused, Words, Wrong, sentence
from tcpsim.engine import EngineRun, table_of
from tcpsim.figures import engine_figures
from tcpsim.program import find_program, found
from tcpsim.scenario.text import Scenario
from tcpsim.sweeps.pattern import Pattern, settings_of
from tcpsim.whole_trace import lines_of_text, naming, scenario_bytes, scenario_text

DIFFERENT, FAILED = 1, 2        # statuses, as diff has them


def words_of() -> argparse.Namespace:
    """What the words ask for."""
    words = Words(description='Where two runs part, and the figures of flows and links that differ. A percentage is the difference over '
                  'the greater of both values: +50 % is from 1 to 2, and -50 % from 2 to 1.')
    words.add_argument('scenario', metavar='SCENARIO', help='a text or an image; - is standard input')
    words.add_argument('other', metavar='OTHER', nargs='?', help='the scenario of the other run')
    words.add_argument('--set', metavar='NAME.FIELD=VALUE', action='append', default=[],
                       help='the other run is that of SCENARIO with this, as pq.queue=droptail:50, f0.rwnd=64k or end=20s')
    words.add_output('what differs')
    words.add_program('the program that runs both')
    given = words.parse_args()
    if given.other is None and not given.set:
        words.error('name the scenario of the other run, or say by --set what is other in it')
    if given.other is not None and given.set:
        words.error('the other run is OTHER, or SCENARIO with --set: leave one out')
    if given.scenario == given.other == '-':
        words.error('standard input is one scenario, and not two')
    return given


def changed(text: str, words: Sequence[str]) -> str:
    """A scenario's text with what the words of --set say, one value each."""
    pattern = Pattern(text)
    settings = settings_of(words, pattern)
    for each in settings:
        if len(each.values) > 1:
            raise Wrong(f'--set {each.key}: the other run has one value of it, and not {len(each.values)}')
    return pattern.point(settings, [each.values[0] for each in settings])


def figures_of(name: str, text: str, path: str) -> list[tuple]:
    """The figures of a scenario's text, as the program of this path counts them; what is wrong with it has the name of its file."""
    with naming(name, source=text.encode()):
        return engine_figures(EngineRun(Scenario(text), table_of(text.encode(), path)))


def difference(given: argparse.Namespace) -> Difference:
    """What differs in the runs that the words ask for."""
    sources = [scenario_bytes(path) for path in (given.scenario, given.other) if path]
    texts = [scenario_text(source, path, given.program) for source, path in zip(sources, (given.scenario, given.other))]
    names = given.scenario, given.other or f'{given.scenario} with {" ".join(given.set)}'
    texts += [changed(texts[0], given.set)] if given.set else []
    path = find_program(given.program, lambda: texts)
    rows = [figures_of(name, text, path) for name, text in zip(names, texts)]
    with lines_of_text(texts[0], path) as ours, lines_of_text(texts[1], path) as theirs:
        return Difference(*(Side(Scenario(text), lines, figures, functools.partial(queue_at, ScenarioText(text), path, None))
                            for text, lines, figures in zip(texts, (ours, theirs), rows)))


@contextlib.contextmanager
def failing_as_diff() -> Iterator[None]:
    """Whatever is wrong has a status of its own, as 1 says that the runs differ."""
    try:
        yield
    except Refused as wrong:
        wrong.status = FAILED
        raise
    except OSError as wrong:
        raise Wrong(sentence(wrong)) from wrong
    except MemoryError:
        raise Wrong('there is not enough memory for these runs') from None


def main() -> None:
    """Does what the words ask for."""
    with failing_as_diff():
        given = words_of()
        with output.opened(given.output, [given.scenario, given.other, given.program or found()]) as file:
            differs = difference(given)
            print(differs, file=file)
    if differs:
        raise SystemExit(DIFFERENT)
