"""Tests of dev/compare.py at a prompt: a program that is right differs in no session, and each of some that are
wrong in one place differs in one. These programs are the model with one thing changed.
"""
import argparse
import os
import random
import sys

import pytest

import compare
from clone import TOP, ran
from tcpsim_model import conditions, debugger, displays, grammar, marked, naming, prompt, waits
from tcpsim_model.scenario import Refused

ENOUGH = 400        # sessions of each draw; a fault has to show in one
DRAWS = '', ' a', ' b', ' c'
# A program beside the model's: the folder of its package, and a statement that makes it wrong.
STAND_IN = '''#!{python}
import sys
sys.path.insert(0, {model!r})
from tcpsim_model import prompt
{fault}
with open({model!r} + '/tcpsim_model/command_line.py') as file:
    exec(compile(file.read(), 'command_line.py', 'exec'))
'''
at_prompt = prompt.Prompt
right = {name: getattr(place, name) for place, name in (
    (at_prompt, 'answer'), (at_prompt, 'quits'), (at_prompt, 'on_break'), (at_prompt, 'where'), (at_prompt, 'on_where'), (at_prompt, 'of_node'),
    (at_prompt, 'of_flow'), (at_prompt, 'move'), (prompt, 'time_in'), (prompt, 'numbered'), (prompt.Marked, 'is_met'), (waits, 'standing'),
    (waits, 'waiting'), (prompt, 'edits'), (naming.Names, 'number_of'), (naming.Names, 'sort_of'),
    (marked.Valued, 'changed_from'), (marked, 'of_port'), (marked, 'is_so'), (prompt, 'words_of'), (at_prompt, 'whose'), (at_prompt, 'on_clear'),
    (displays.Display, 'told'), (displays.Displays, 'values'), (displays.Displays, 'add'), (prompt, 'stalls_of'), (displays, 'text_of'), (prompt, 'last_shown'))}
right['is_met on values'] = marked.Valued.is_met


def empty_lines_do_nothing(self, line):
    return right['answer'](self, line) if line.strip(b' ') else ''


def refused_lines_count_as_moves(self, line):
    try:
        return right['answer'](self, line)
    except Refused:
        self.last = None
        raise


def quit_may_have_words_behind(self, line):
    return right['quits'](self, line) or right['quits'](self, line.strip(b' ').split(b' ')[0])


def times_may_begin_with_zeros(word):
    return right['time_in'](word.lstrip(b'0') or b'0' if b'.' not in word else word)


def the_last_number_is_answered(self, words):
    right['on_break'](self, words)
    return self.named(len(self.debugger.breaks) - 1)


def the_last_that_matches(self):
    now = self.debugger.net.position
    return ([''] + [self.named(place) for place, it in enumerate(self.debugger.breaks) if self.debugger.is_matched(it, now)])[-1]


def only_ends_and_events(self, flow):
    return ''.join(line for line in right['of_flow'](self, flow).splitlines(keepends=True) if not line.startswith('link'))


def back_to_where_it_is(self):
    stops = [position for position in range(1, self.net.position + 1) if self.stops_at(position)]
    self.back(self.net.position - (stops[-1] if stops else 0))


def matches_either(self, breakpoint, position):
    return any(self.is_met(*condition, position, False) for condition in breakpoint)


def drops_are_at_no_link(self, sort, value, position, drops):
    acts = self.lines[position - 1].acts
    return right['is_met'](self, sort, value, position, drops) and (sort != b'link' or any(' tx=' in act for act in acts))


def stalls_match_as_long_as_they_last(self):
    line = debugger.Debugger.event(self)
    if line is not None:
        self.marks.append((self.net.touched, self.stalled()))
    return line


def the_matching_line_is_left_out(self, name, *numbers):
    told = right['move'](self, name, *numbers)
    before, where, after = told.rpartition('\nat ')
    return before[:before.rfind('\n') + 1] + where[1:] + after if '\nbreak ' in after else told


def a_position_is_one_further(self, position):
    self.back(self.net.position)
    self.step(position + 1)


def only_the_present_position_is_known(self, words):
    self.known = self.debugger.net.position
    return right['on_where'](self, words)


def a_name_of_any_sort(self, sort, word):
    return self.meant[word][1] if word in self.meant and self.meant[word][1] < self.counts[sort] else right['number_of'](self, sort, word)


def names_cut_short(self, sort, word):
    begun = [name for name in self.meant if name.startswith(word) and self.meant[name][0] == sort]
    return right['number_of'](self, sort, min(begun, default=word))


def words_of_the_grammar_are_no_names(self, sort, word):
    if word in conditions.OF_VALUES:
        raise Refused('B3')
    return right['number_of'](self, sort, word)


def seen_one_line_late(self, change, position):
    return right['changed_from'](self, change, position - 1) if position > 1 else None


def values_before_the_line(self, sort, value, position, drops):
    if sort == b'change':
        return right['is_met on values'](self, sort, value, position, drops)
    self.seen[position - 1], kept = self.seen[position - 1][:1] * 2, self.seen[position - 1]
    try:
        return right['is_met on values'](self, sort, value, position, drops)
    finally:
        self.seen[position - 1] = kept


def links_match_where_nothing_changes_them(port, now):
    return {**right['of_port'](port, now), 'changes': object()}


def the_wait_of_the_last(port, now):
    return {**right['of_port'](port, now), b'wait': now - port.queue.entries[-1][1] if port.queue.entries else None}


def droptail_counts_nothing(port, now):
    found = right['of_port'](port, now)
    return {**found, b'count': found[b'count'] or 0}


def names_the_congestion_window(*of):
    return right['standing'](*of).replace('rwnd', 'cwnd')


def told_after_each_move(self, name, *numbers):
    told = right['move'](self, name, *numbers)
    if name != 'back' or not self.debugger.lines:
        return told
    before, place, after = told.rpartition('at ')
    return f'{before}{right["whose"](self)}{place}{after}'


def displays_before_the_place(self, name, *numbers):
    lines = right['move'](self, name, *numbers).splitlines(True)
    return ''.join(sorted(lines, key=lambda line: not line.startswith('display ')))


def shown_after_moves_that_moved(self, name, *numbers):
    before = self.debugger.net.position
    told = right['move'](self, name, *numbers)
    return told if self.debugger.net.position != before else ''.join(line for line in told.splitlines(True) if not line.startswith('display '))


def displays_are_cleared(self, words):
    told = right['on_clear'](self, words)
    self.displays.set.clear()
    return told


def the_last_display_is_set_again(self, new):
    right['add'](self, new)
    self.set.append(self.set.pop(self.set.index(new)))
    return len(self.set) - 1


def stalls_up_to_here(self, words):
    return ''.join(f'goto {position}: {self.names.called("flow", flow)} is stalled at {time} ns\n'
                   for position, flow, time in right['stalls_of'](self.debugger.scenario) if position <= self.debugger.net.position) or 'no stall\n'


def known_to_the_end(self, words):
    self.ends = True
    return right_stalls(self, words)


right_stalls = at_prompt.on_stalls


# What is wrong in each program, and what is changed.
FAULTS = {
    'a long line is read': (prompt, 'MOST_LINE', 10**9),
    'a microsecond is a millisecond': (grammar, 'PLACES', {**grammar.PLACES, b'us': 6}),
    'a time may begin with zeros': (prompt, 'time_in', times_may_begin_with_zeros),
    'the most is one less': (grammar, 'MOST', 10**15 - 1),
    'st is state': (at_prompt, 'NAMES', (b'state', *prompt.NAMES)),
    'b is break': (at_prompt, 'NAMES', (b'break', *prompt.NAMES)),
    'an empty line does nothing': (at_prompt, 'answer', empty_lines_do_nothing),
    'a refused line takes the last move away': (at_prompt, 'answer', refused_lines_count_as_moves),
    'quit may have words behind': (at_prompt, 'quits', quit_may_have_words_behind),
    'one that is set answers the last number': (at_prompt, 'on_break', the_last_number_is_answered),
    'a line is missing in help': (prompt, 'LAST_OF_HELP', ''),
    'breaks is break': (at_prompt, 'NAMES', (b'breaks', *prompt.NAMES)),
    'eleven lines are shown': (prompt, 'MOST_SHOWN', 11),
    'a thousand lines are too many': (prompt, 'MOST_LINES', 999),
    'lines are shown in another order': (prompt, 'numbered', lambda *of: right['numbered'](*of)[::-1]),
    'the end is not told': (at_prompt, 'where', lambda self: right['where'](self).replace(', the end', '')),
    'the last that matches is told': (at_prompt, 'what_matched', the_last_that_matches),
    'a node has its neighbour\'s line': (at_prompt, 'of_node', lambda self, node: right['of_node'](self, max(node - 1, 0))),
    'packets that wait are left out': (at_prompt, 'of_flow', only_ends_and_events),
    'why names cwnd where rwnd binds': (waits, 'standing', names_the_congestion_window),
    'places are told from 0': (waits, 'waiting', lambda *of: [it.replace('place 1 ', 'place 0 ') for it in right['waiting'](*of)]),
    'r is reverse': (at_prompt, 'NAMES', (b'reverse', *prompt.NAMES)),
    'reverse stops where it is': (debugger.Debugger, 'reverse', back_to_where_it_is),
    'a breakpoint of two conditions matches either': (prompt.Marked, 'is_matched', matches_either),
    'conditions are told in another order': (conditions, 'OF_VALUES', dict(reversed(conditions.OF_VALUES.items()))),
    'a drop is at no link': (prompt.Marked, 'is_met', drops_are_at_no_link),
    'a stall that goes on matches again': (prompt.Marked, 'event', stalls_match_as_long_as_they_last),
    'the first ten lines are shown': (prompt, 'last_shown', lambda passed: right['last_shown'](passed[:prompt.MOST_SHOWN])),
    'the matching line is left out': (at_prompt, 'move', the_matching_line_is_left_out),
    'goto goes one event further': (prompt.Marked, 'goto', a_position_is_one_further),
    'where knows where it is alone': (at_prompt, 'on_where', only_the_present_position_is_known),
    'w is where': (at_prompt, 'NAMES', (b'where', *prompt.NAMES)),
    'a name means the number of another sort': (naming.Names, 'number_of', a_name_of_any_sort),
    'names can be cut short': (naming.Names, 'number_of', names_cut_short),
    'a word of the grammar is no name': (naming.Names, 'number_of', words_of_the_grammar_are_no_names),
    'the other sort is not told': (naming.Names, 'sort_of', lambda self, word: next((it for it in [right['sort_of'](self, word)] if it != 'link'), None)),
    'links are listed first': (naming, 'SORTS', ('link', 'node', 'flow')),
    'an image has names': (naming, 'NO_NAMES', 'node 0 n0\n'),
    'n is names behind help': (prompt, 'BEFORE_TOPICS', (*grammar.BEFORE_TOPICS, b'names')),
    '< is <=': (marked, 'COMPARES', {**marked.COMPARES, '<': marked.COMPARES['<=']}),
    '= is >=': (marked, 'COMPARES', {**marked.COMPARES, '=': marked.COMPARES['>=']}),
    'a change is seen one line late': (marked.Valued, 'changed_from', seen_one_line_late),
    'values are those before the line': (marked.Valued, 'is_met', values_before_the_line),
    'a link matches where nothing changes it': (marked, 'of_port', links_match_where_nothing_changes_them),
    'the last packet\'s wait is told': (marked, 'of_port', the_wait_of_the_last),
    'drop-tail counts 0': (marked, 'of_port', droptail_counts_nothing),
    'where none waits a wait is 0': (marked, 'is_so', lambda value, sign, bound: right['is_so'](value or 0, sign, bound)),
    'a sign stands apart': (prompt, 'words_behind_break', lambda words: words),
    'a time is told without its unit': (prompt, 'words_of', lambda *of: right['words_of'](*of).replace('0ns', '0')),
    'a moment is only forwards': (marked.Valued, 'moment', marked.Valued.until),
    'a word with a unit is no moment': (prompt, 'UNIT', ()),
    'answers have numbers': (naming.Names, 'name_of', naming.Numbers.name_of),
    'an image has the names of nothing': (prompt, 'Names', naming.Numbers),
    'a link that becomes free is not told': (at_prompt, 'whose', lambda self: right['whose'](self) if self.debugger.lines[-1].flow is not None else ''),
    'back tells of the last line': (at_prompt, 'move', told_after_each_move),
    'a count of 1 is plural': (waits, 'counted', lambda count, noun: f'{count} {noun}s'),
    'displays are told first': (at_prompt, 'move', displays_before_the_place),
    'where nothing moved none is told': (at_prompt, 'move', shown_after_moves_that_moved),
    'what was is left out': (displays.Display, 'told', lambda self, names, values, before: right['told'](self, names, values, values)),
    'what was is what is shown first': (displays.Displays, 'values', lambda self, net, now: [
        {**it, b'cwnd': '4000'} if b'cwnd' in it and net.position else it for it in right['values'](self, net, now)]),
    'clear takes displays away': (at_prompt, 'on_clear', displays_are_cleared),
    'one that is displayed goes to the end': (displays.Displays, 'add', the_last_display_is_set_again),
    'a 64th display is refused': (displays, 'MOST_DISPLAYS', 63),
    'a wait of 0 is none': (displays, 'text_of', lambda name, value: right['text_of'](name, value or None) if name == b'wait' else right['text_of'](name, value)),
    'd is display': (at_prompt, 'NAMES', (b'display', *prompt.NAMES)),
    'the first stall alone is listed': (prompt, 'stalls_of', lambda scenario: right['stalls_of'](scenario)[:1]),
    'stalls up to the position are listed': (at_prompt, 'on_stalls', stalls_up_to_here),
    'stalls knows the run': (at_prompt, 'on_stalls', known_to_the_end),
    'a value word is no topic': (prompt, 'VALUE_WORDS', ()),
    'a word of four bytes has no nearest name': (prompt, 'MOST_WORD', 3),
    'the last of the nearest is told': (prompt, 'edits', lambda word, name: right['edits'](word, name) - prompt.NAMES.index(name) / 99),
    'a 64th breakpoint is refused': (debugger, 'MOST_BREAKS', 63),
}


def cases(count, draw):
    return compare.prompts(random.Random(f'self-test{draw} {prompt.FORMAT}'), argparse.Namespace(count=count, options=False))


def answers(case):
    return compare.model_answers_kept.__wrapped__(*case, compare.MOST_BYTES)


@pytest.mark.parametrize('place, attribute, wrong', FAULTS.values(), ids=FAULTS)
def test_each_fault_is_found(place, attribute, wrong):
    for case in (case for draw in DRAWS for case in cases(ENOUGH, draw)):
        expected = answers(case)
        with pytest.MonkeyPatch.context() as patch:
            patch.setattr(place, attribute, wrong)
            if not compare.agree(answers(case), expected):
                return
    pytest.fail('no session shows it')


@pytest.fixture
def compared(put):
    """A function that answers the status and the output of a comparison with a program that has a fault."""
    def run(fault, count):
        path = put('tcpsim', STAND_IN.format(python=sys.executable, model=os.path.join(TOP, 'python'), fault=fault), 0o755)
        done = ran(sys.executable, os.path.join(TOP, 'dev', 'compare.py'), '--kind', 'prompt', '--count', str(count), '--program', path,
                   text=True, timeout=1200)
        assert done.stderr == ''
        return done.returncode, done.stdout.splitlines()
    return run


def test_a_program_that_is_right(compared):
    assert compared('', 12) == (0, ['prompt: 12 compared', '12 compared, 0 different'])


def test_a_program_that_is_wrong(compared):
    """What differs is shown, made shorter."""
    status, shown = compared("prompt.PROMPT = '(tcpsim)'", 2)
    assert (status, shown[-1]) == (1, '2 compared, 2 different')
    assert 'same output' in shown
