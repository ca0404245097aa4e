"""Lines that are typed at the model's prompt, and the lines of a run's trace, for tests of what they are answered."""
import re

from clone import read, read_text
from tcpsim.prompt import Answer
from tcpsim_model import image, prompt
from tcpsim_model.command_line import read as scenario_in
from tcpsim_model.scenario import Refused

START = 'at 0 of the run, time 0 ns, the beginning\n'


class Session:
    """A session over a file, or over a scenario."""

    def __init__(self, path):
        self.prompt = prompt.Prompt(scenario_in(read(path)) if isinstance(path, str) else path)

    def __call__(self, *lines):
        """What the lines are answered, with what is noted of them."""
        return ''.join(answer.text + answer.note for answer in map(self.ask, lines))

    def ask(self, line):
        """What a line is answered, as a process would."""
        try:
            return Answer(self.prompt.answer(line.encode()), '')
        except Refused as refusal:
            return Answer('', self.prompt.noted(line.encode(), refusal))

    @property
    def position(self):
        return self.prompt.debugger.net.position


def unnamed(path):
    """The scenario of a file's image, which has no names."""
    return scenario_in(image.save(scenario_in(read(path))))


def trace_of(path):
    """The lines of a run, as its trace has them."""
    return read_text(path.replace('.txt', '.trace')).splitlines(True)[:-1]


def time_of(line):
    return int(line.split(' ', 2)[1])


def at(lines, position):
    """The line that says where a session is."""
    time = time_of(lines[position - 1]) if position else 0
    return f'at {position} of the run, time {time} ns{", the end" * (position == len(lines)) or ", the beginning" * (position == 0)}\n'


def came_to(path, lines, position):
    """The lines behind those of a move forwards: whose the last one is, by the text's statements, and where the session is."""
    names = {sort: re.findall(rf'^{sort} (\w+)', read_text(path), re.M) for sort in ('node', 'link', 'flow')}
    _, _, node, _, _, kind, first, *_ = lines[position - 1].split()
    sort = 'link' if kind == 'free' else 'flow'
    return f'of node {names["node"][int(node)]}, {sort} {names[sort][int(first)]}\n' + at(lines, position)


def refuses(session, code, *lines):
    for line in lines:
        assert session(line).startswith(f'refused {code}\n'), line
