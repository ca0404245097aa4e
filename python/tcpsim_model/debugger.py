"""The debugger: a scenario text, a line `---`, and commands. It steps forwards and goes backwards by
running the scenario again from its beginning."""
from tcpsim_model.scenario import Refused
from tcpsim_model.simulate import Network
from tcpsim_model.text import NUMBER, assemble, lines_of

MOST_BREAKS = 64
MOST = 10**15
KINDS = (b'start', b'rto', b'delack', b'free', b'data', b'ack')
# Command: how many words.
COMMANDS = {b'step': 2, b'back': 2, b'until': 2, b'run': 1, b'state': 1, b'clear': 1}
BREAKS = {b'node': 3, b'flow': 3, b'kind': 3, b'drop': 2}


def matches(breakpoint, line):
    sort, value = breakpoint
    if sort == b'node':
        return line.node == value
    if sort == b'flow':
        return line.flow == value
    if sort == b'kind':
        return line.kind == value
    return any(act.startswith(' drop=') for act in line.acts)


class Debugger:
    def __init__(self, scenario):
        self.scenario = scenario
        self.net = Network(scenario)
        self.lines = []             # of all events up to the position
        self.breaks = []            # in the order in which they were set

    def event(self):
        """Runs the event that is due; answers its line, or None where none is."""
        line = self.net.step()
        if line is not None:
            self.lines.append(line)
        return line

    def step(self, count):
        while count > 0 and self.event() is not None:
            count -= 1

    def back(self, count):
        target = max(self.net.position - count, 0)
        self.net, self.lines = Network(self.scenario), []
        self.step(target)

    def is_matched(self, breakpoint, position):
        """Whether a breakpoint matches at a position from 1 to the present one."""
        return matches(breakpoint, self.lines[position - 1])

    def stops_at(self, position):
        return any(self.is_matched(it, position) for it in self.breaks)

    def run(self):
        """To the next position at which a breakpoint matches, else to the end."""
        while self.event() is not None:
            if self.stops_at(self.net.position):
                return

    def reverse(self):
        """Back to the last position before this one at which a breakpoint matches, else to the beginning."""
        stops = [position for position in range(1, self.net.position) if self.stops_at(position)]
        self.back(self.net.position - (stops[-1] if stops else 0))

    def until(self, time):
        """All events of a time below `time` (and below the end)."""
        while (event := self.net.due()) is not None and event[0] < time:
            self.event()


def number_to(most, word):
    """A number from 0 to `most`, else refused."""
    if not NUMBER.fullmatch(word) or len(word) > 20 or int(word) > most:
        raise Refused('B3')
    return int(word)


def breakpoint_of(words, scenario):
    sort = words[1]
    if sort == b'node':
        return sort, number_to(len(scenario.nodes) - 1, words[2])
    if sort == b'flow':
        return sort, number_to(len(scenario.flows) - 1, words[2])
    if sort == b'kind':
        if words[2] not in KINDS:
            raise Refused('B3')
        return sort, words[2].decode()
    return sort, None


def set_breakpoint(debugger, new):
    """Sets it at the end, where it isn't set yet."""
    if new in debugger.breaks:
        return
    if len(debugger.breaks) == MOST_BREAKS:
        raise Refused('B4')
    debugger.breaks.append(new)


def words_wanted(words):
    """How many words the command has to have."""
    if words[0] in COMMANDS:
        return COMMANDS[words[0]]
    if words[0] != b'break':
        raise Refused('B1')
    if len(words) == 1:
        raise Refused('B2')
    if words[1] not in BREAKS:
        raise Refused('B1')
    return BREAKS[words[1]]


def obey(debugger, words):
    """What one command prints; raises `Refused` and changes nothing where it is refused."""
    if len(words) != words_wanted(words):
        raise Refused('B2')
    if words[0] == b'break':
        new = breakpoint_of(words, debugger.scenario)
        set_breakpoint(debugger, new)
        return f'break {len(debugger.breaks)}\n'
    if words[0] == b'clear':
        debugger.breaks.clear()
        return 'clear\n'
    if words[0] == b'run':
        debugger.run()
    elif words[0] != b'state':
        move = {b'step': debugger.step, b'back': debugger.back, b'until': debugger.until}[words[0]]
        move(number_to(MOST, words[1]))
    return debugger.net.dump()


def words_in(line):
    """Words stand between spaces; all other bytes are plain."""
    return [word for word in line.split(b' ') if word]


def split(data):
    """The text's bytes and the lines of commands."""
    if data == b'---' or data.startswith(b'---\n'):
        return b'', lines_of(data[4:])
    at = data.find(b'\n---\n')
    if at < 0 and data.endswith(b'\n---'):
        at = len(data) - 4
    return (data, []) if at < 0 else (data[:at + 1], lines_of(data[at + 5:]))


def session(data):
    """What a session prints, piece by piece; the first piece comes once the text is accepted."""
    text, commands = split(data)
    debugger = Debugger(assemble(text))
    yield ''
    for command in commands:
        words = words_in(command)
        if words:
            try:
                yield obey(debugger, words)
            except Refused as refusal:
                yield refusal.note() + '\n'
