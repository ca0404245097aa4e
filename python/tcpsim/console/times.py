"""What tcpsim-debug answers itself before the program's prompt: `time`, where the time of flows went, as tcpsim-time says it."""
from __future__ import annotations

import re
from collections.abc import Callable

from tcpsim.command_line import Refused
from tcpsim.console.ahead import Ahead
from tcpsim.console.session import Interrupted
from tcpsim.prompt import Answer
from tcpsim.scenario.text import Scenario
from tcpsim.traces.walk import flow_named
from tcpsim.whole_trace import scenario_text

NAME = 'time'
USAGE = 'time [F]     tell where the time of flow F went, in the whole run; alone, a row for each flow\n'
PAGE = f'''{USAGE}F is the name of a flow, or its number. Its critical path goes from its last new acknowledgement back from cause to cause to its
start. The parts sum to the time between. Where the session is does not matter. The run is read from the session's begin on. An
answer comes once it is read; Ctrl-C ends the wait for it.
'''
BEHIND = re.compile(r'^why F .*\n', re.M)       # in the list of help


class Times:
    """The prompt with `time`. `ask` is the program's; `source` are the scenario's bytes, and `path` is who runs it."""

    def __init__(self, ask: Callable[[str], Answer], source: bytes, path: str):
        self._ask, self._scenario = ask, Scenario(scenario_text(source, 'the scenario', path))
        self._ahead = Ahead(self._scenario, path)
        self.end = self._ahead.end

    def ask(self, line: str) -> Answer:
        """What a line is answered; Interrupted where Ctrl-C came while an answer was waited for."""
        words = line.split()
        if words[:1] == [NAME]:
            try:
                return Answer(self._told(words[1:]), '')
            except Interrupted:
                raise
            except Refused as wrong:
                return Answer('', f'{NAME}: {wrong}')
        if words[1:] == [NAME] and 'help'.startswith(words[0]):
            return Answer(PAGE, '')
        answer = self._ask(line)
        if len(words) == 1 and 'help'.startswith(words[0]):
            return Answer(BEHIND.sub(lambda found: found[0] + USAGE, answer.text), answer.note)
        return answer

    def _told(self, names: list[str]) -> str:
        if len(names) > 1:
            raise Refused('one flow, or nothing for all: help time')
        return self._ahead.ask([flow_named(self._scenario, name) for name in names])
