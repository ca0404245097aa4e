"""The debugger at a prompt: lines that are typed over a scenario, in the prompt's own grammar, each answered before
the next is read. Answers go to standard output, prompts and refusals to standard error, and with a refusal what there is
to type in its place.
"""
from tcpsim_model.conditions import NAMED, VALUE_WORDS, conditions_in, expected_in, named_in, words_behind_break, words_of
from tcpsim_model.debugger import MOST, number_to, set_breakpoint, words_in
from tcpsim_model.displays import Displays, display_of
from tcpsim_model.grammar import (BEFORE_TOPICS, MEANINGS, MOST_LINE, MOST_WORD, NAMES, NUMBERED, UNIT, at_most, count_in, edits, printable,
                                  time_in)
from tcpsim_model.marked import Marked, Valued, stalls_of
from tcpsim_model.missing import missing
from tcpsim_model.naming import Names, names_in
from tcpsim_model.scenario import Refused
from tcpsim_model.simulate import line_text
from tcpsim_model.text import FLOW, LINK, NODE, NUMBER
from tcpsim_model.texts import ELSEWHERE, EXPECTED_TOLD, HELP, LAST_OF_HELP, THERE_TOLD, TOPICS, USES_TOLD
from tcpsim_model.waits import why

FORMAT = 14             # the number of this grammar and its answers
PROMPT = '(tcpsim) '
MOST_SHOWN = 10         # lines that a move passed
MOST_LINES = 1_000      # of `lines`


def numbered(lines, after, to):
    """The texts of the lines that follow a position, up to another."""
    return [line_text(n, lines[n - 1]) for n in range(after + 1, to + 1)]


def last_shown(passed):
    more = len(passed) - MOST_SHOWN
    return (f'.. {more} more\n' if more > 0 else '') + ''.join(passed[-MOST_SHOWN:])


class Prompt:
    NAMES = NAMES

    def __init__(self, scenario):
        self.debugger, self.names = Valued(scenario), names_in(scenario)
        self.displays = Displays(self.names)
        self.last = None        # the last move: its name and its numbers
        self.known, self.ends = 0, False        # the greatest position where the session was; whether the run ends there

    def name_of(self, word):
        """The first name that the word begins."""
        found = next((name for name in self.NAMES if name.startswith(word)), None)
        if found is None:
            raise Refused('B1')
        return found

    def topic_of(self, word):
        """The first name that the word begins, else the first topic, else a name that goes behind the topics."""
        if word in VALUE_WORDS:
            return b'values'
        first = any(name.startswith(word) for name in BEFORE_TOPICS)
        return next((topic for topic in TOPICS if topic.startswith(word) and not first), None) or self.name_of(word)

    def quits(self, line):
        words = words_in(line)
        return len(line) <= MOST_LINE and len(words) == 1 and b'quit'.startswith(words[0])

    def answer(self, line):
        """What a line that doesn't quit answers; raises `Refused`, and has changed nothing then."""
        if len(line) > MOST_LINE:
            raise Refused('B2')
        words = words_in(line)
        if not words:
            return self.move(*self.last) if self.last else ''
        return getattr(self, 'on_' + self.name_of(words[0]).decode())(words[1:])

    def noted(self, line, refusal):
        """What is noted of a line that is refused so."""
        note = f'{refusal.note()}\n{MEANINGS[refusal.code]}\n'
        return note + ('' if len(line) > MOST_LINE else self.there(words_in(line), refusal.code))

    def there(self, words, code):
        """The lines that tell what there is in the place of what the words of a refused line are."""
        name = next((name for name in self.NAMES if name.startswith(words[0])), None)
        if name is None:
            return self.nearest(words[0])
        if name == b'break' and code in ('B1', 'B2', 'B3'):
            return (self.other_sort(words) if code == 'B3' else '') + self.expected(words[1:])
        if code == 'B3' and name in NUMBERED:
            return self.other_sort(words) + self.numbers()
        told = THERE_TOLD.get((code, name)) or code == 'B2' and USES_TOLD.get(name)
        return f'tcpsim: {told}\n' if told else ''

    def expected(self, words):
        """The line that tells what is expected at the first word behind `break` that does not fit."""
        place = expected_in(words, self.names)
        if place in (NODE, LINK, FLOW):
            return self.numbers()
        return f'tcpsim: {EXPECTED_TOLD[place]}\n' if place else ''

    def nearest(self, word):
        """The line that tells what there is in the place of a word that begins no name: what it begins elsewhere, else the nearest name."""
        begun = next((told for name, told in ELSEWHERE.items() if name.startswith(word)), None)
        if begun:
            return f'tcpsim: {begun}\n'
        if len(word) > MOST_WORD:
            return ''
        nearest = min(self.NAMES, key=lambda name: edits(word, name))
        return f'tcpsim: no command {printable(word)}; the nearest is {nearest.decode()}\n'

    def other_sort(self, words):
        """The line that tells of the first name of another sort than its place is for, if there is one."""
        name = self.name_of(words[0])
        for sort, word in named_in(name, words[1:]) if name in NUMBERED else ():
            found = self.names.sort_of(word)
            if found not in (None, sort):
                return f'tcpsim: {word.decode()} is a {found}: see help numbers\n'
        return ''

    def numbers(self):
        """The line that tells which nodes, links and flows there are."""
        found = self.debugger.scenario
        told = (f'{sort} 0 to {len(those) - 1}' for sort, those in (('nodes', found.nodes), ('links', found.links), ('flows', found.flows)))
        return f'tcpsim: there are {", ".join(told)}: see help numbers\n'

    def move(self, name, *numbers):
        self.last = name, *numbers
        before, position, values = self.debugger.lines, self.debugger.net.position, self.values()
        getattr(self.debugger, name)(*numbers)
        now = self.debugger.net.position
        passed = numbered(self.debugger.lines, position, now) if now > position else numbered(before, now, position)[::-1]
        stops = now > position or name == 'reverse' and now > 0
        matched = self.where() + (self.what_matched() if stops else '')
        self.known, self.ends = max(self.known, now), self.ends or not self.debugger.net.due()
        if name == 'reverse' and now > 0:
            passed.append(line_text(now, self.debugger.lines[-1]))
        idle = f'nothing was done: no event before {numbers[0]} ns is left\n' if name == 'until' and now == position else ''
        return idle + last_shown(passed) + (self.whose() if stops else '') + matched + ''.join(self.displays.lines(self.values(), values))

    def time(self):
        return self.debugger.lines[-1].time if self.debugger.lines else 0

    def values(self):
        """Those of the displays here."""
        return self.displays.values(self.debugger.net, self.time())

    def whose(self):
        """The line that names the node of the last line, and its flow, or the link that becomes free; none where there are no names."""
        line, called = self.debugger.lines[-1], self.names.called
        whose = called(LINK, int(line.names)) if line.flow is None else called(FLOW, line.flow)
        return f'of {called(NODE, line.node)}, {whose}\n' if isinstance(self.names, Names) else ''

    def where(self):
        """The line that says where in the run the session is."""
        net = self.debugger.net
        end = ', the end' if not net.due() else '' if net.position else ', the beginning'
        return f'at {net.position} of the run, time {self.time()} ns{end}\n'

    def what_matched(self):
        """The line of the first breakpoint that matches the last line, if one does."""
        for place, breakpoint in enumerate(self.debugger.breaks):
            if self.debugger.is_matched(breakpoint, self.debugger.net.position):
                return self.named(place, self.debugger.net.position)
        return ''

    # For each name: what its line answers, of the words behind the name.

    def on_step(self, words):
        return self.move('step', count_in(words, MOST, 1))

    def on_back(self, words):
        return self.move('back', count_in(words, MOST, 1))

    def on_run(self, words):
        at_most(words, 0)
        return self.move('run')

    def on_reverse(self, words):
        at_most(words, 0)
        return self.move('reverse')

    def on_until(self, words):
        if len(words) != 1:
            raise Refused('B2')
        return self.move('until', time_in(words[0]))

    def on_goto(self, words):
        if len(words) != 1:
            raise Refused('B2')
        if words[0].endswith(UNIT):
            return self.move('moment', time_in(words[0]))
        return self.move('goto', number_to(MOST, words[0]))

    def on_where(self, words):
        at_most(words, 0)
        on = Marked(self.debugger.scenario)
        on.step(self.debugger.net.position + 1)
        due = line_text(on.net.position, on.lines[-1]) if self.debugger.net.due() else 'none\n'
        return f'{self.where()}next: {due}known to {"end at" if self.ends else "go to"} {self.known}\n'

    def on_state(self, words):
        if not words:
            return self.debugger.net.dump()
        parts = {b'node': self.of_node, b'link': self.of_link, b'flow': self.of_flow}
        if words[0] not in parts:
            raise Refused('B1')
        if len(words) != 2:
            raise Refused('B2')
        return parts[words[0]](self.names.number_of(NAMED[words[0]], words[1]))

    def of_node(self, node):
        return self.debugger.net.dump_node(node)

    def of_link(self, link):
        return self.debugger.net.dump_link(self.debugger.net.ports[link])

    def of_flow(self, flow):
        """The lines of the dump of its ends, of the links where packets of it wait, and of its pending events, which
        are its timers and its packets under way."""
        net, ends = self.debugger.net, self.debugger.scenario.flows[flow]
        lines = [net.dump_node(node) for node in sorted((ends.sender, ends.receiver))]
        lines += [net.dump_link(port) for port in net.ports if any(packet[0] == flow for packet, _ in port.queue.entries)]
        lines += [line for of, line in net.dump_events() if of == flow]
        return ''.join(lines)

    def on_lines(self, words):
        now = self.debugger.net.position
        return ''.join(numbered(self.debugger.lines, max(now - count_in(words, MOST_LINES, 10), 0), now))

    def on_clear(self, words):
        at_most(words, 0)
        self.debugger.breaks.clear()
        return 'clear\n'

    def on_quit(self, words):
        raise Refused('B2')         # alone on its line it ends the session

    def on_why(self, words):
        if len(words) != 1:
            raise Refused('B2')
        flow = self.names.number_of(FLOW, words[0])
        return why(self.debugger.net, flow, self.names) + missing(self.debugger.net, flow, self.debugger.drops, self.names)

    def on_stalls(self, words):
        at_most(words, 0)
        return ''.join(f'goto {position}: {self.names.called(FLOW, flow)} is stalled at {time} ns\n'
                       for position, flow, time in stalls_of(self.debugger.scenario)) or 'no stall\n'

    def on_names(self, words):
        at_most(words, 0)
        return self.names.listed()

    def breakpoint(self, words):
        """The breakpoint of `break`'s words."""
        words = words_behind_break(words)
        if words[:1] == [b'stall']:
            at_most(words, 2)
            return ((b'stall', self.names.number_of(FLOW, words[1]) if words[1:] else None),)
        return conditions_in(words, self.names)

    def on_break(self, words):
        new = self.breakpoint(words)
        set_breakpoint(self.debugger, new)
        return self.named(self.debugger.breaks.index(new))

    def named(self, place, position=None):
        """The line of a breakpoint, by its place from 0; where it matches at a position, with what a value changed from there."""
        conditions, told = self.debugger.breaks[place], ''
        if position and conditions[-1][0] == b'change':
            name = conditions[-1][1][0]
            old = self.debugger.changed_from(conditions[-1][1], position)
            told = f' ({name} from {old}{"ns" * (name == "rto")})'
        return f'break {place + 1}: {words_of(conditions, self.names)}{told}\n'

    def on_breaks(self, words):
        at_most(words, 0)
        return ''.join(map(self.named, range(len(self.debugger.breaks)))) or 'no breakpoint\n'

    def on_delete(self, words):
        taken = self.debugger.breaks.pop(place_in(words, self.debugger.breaks))
        return f'deleted {words[0].decode()}: {words_of(taken, self.names)}\n'

    def on_display(self, words):
        place = self.displays.add(display_of(words, self.names)) if words else 0
        lines = self.displays.lines(self.values(), self.values())
        return lines[place] if words else ''.join(lines) or 'no display\n'

    def on_undisplay(self, words):
        taken = self.displays.set.pop(place_in(words, self.displays.set))
        return f'undisplayed {words[0].decode()}: {taken.words(self.names)}\n'

    def on_help(self, words):
        if not words:
            return ''.join(map(usage, HELP)) + LAST_OF_HELP
        topic = self.topic_of(words[0])
        at_most(words, 1)
        if topic in TOPICS:
            return TOPICS[topic]
        _, _, more, example = HELP[topic]
        return f'{usage(topic)}{more}{example}\n'


def usage(name):
    used, what, _, _ = HELP[name]
    return f'{used:12} {what}\n'


def place_in(words, of):
    """The place from 0 of what the one word behind a name counts from 1."""
    if len(words) != 1:
        raise Refused('B2')
    if not NUMBER.fullmatch(words[0]):
        raise Refused('B3')
    if len(words[0]) > 2 or not 1 <= int(words[0]) <= len(of):
        raise Refused('B5')
    return int(words[0]) - 1


def typed(scenario, lines):
    """A session of the lines over a scenario."""
    return typed_into(Prompt(scenario), lines)


def typed_into(session, lines):
    """What a session of the lines writes to standard output and to standard error, in turn. Not one line more is asked for
    than is read."""
    yield '', PROMPT
    for line in lines:
        if session.quits(line):
            return
        try:
            yield session.answer(line), ''
        except Refused as refusal:
            yield '', session.noted(line, refusal)
        yield '', PROMPT
