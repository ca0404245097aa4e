"""Refuses requests for memory of the built program, one in each run, and looks at how the run ends.

It ends as always, or with status 4 and the note 'no memory'. Then `run` wrote a beginning of its trace in whole lines, `figures
--every` its table, or not even that, and whole steps, and every other word nothing. By several workers in several groups a trace
has the lines of all events before some moment. A thread that finds no memory to start with is done without. A session goes on:
its output is the model's for the commands that were not refused. No run takes longer than ten seconds, ends by a signal, or holds
a block of memory as it ends. As a control dev/refuse.c leaves one call to `free` out, and one block is then held.

With one worker each request is refused once. With more the order of requests is not fixed, so each number up to twice the count
of a whole run is tried once.
"""
import functools
import itertools
import os
import re

import pytest

from clone import of_model, outcome, paths, read, side_by_side, wide
from tcpsim_model import command_line, prompt

pytestmark = [pytest.mark.built, pytest.mark.wants(cc='gcc')]
SECONDS = 10
EACH, FOUND = ('--groups', 'each', '--workers', '2'), ('--groups', 'auto', '--workers', '4')
NO_MEMORY = b'no memory\n'


@pytest.fixture
def counted(library, tmp_path):
    """A function that answers how a run ended, how many blocks it still held then, and how many requests it made."""
    preload, numbers = library('refuse'), itertools.count()

    def count(words, given, **more):
        counts = {name: str(tmp_path / f'{name}.{next(numbers)}') for name in ('HELD', 'REQUESTS')}
        env = {**os.environ, 'LD_PRELOAD': preload, **counts, **{name: str(value) for name, value in more.items()}}
        ended = outcome(words, given, env=env, timeout=SECONDS)
        found = [int(read(path)) for path in counts.values()]
        for path in counts.values():
            os.remove(path)
        return ended, *found
    return count


def by_workers(words):
    """Whether there are several workers."""
    return bool(re.search(r'--workers[ =](?!1( |$))', words))


def refuse_each(counted, words, given, whole, is_right):
    """Refuses the requests of a run: it comes to `whole` as where none is refused, or to what is right. One at least is seen."""
    def tried(number):
        ended, held, requests = counted(words, given, REFUSE=number)
        assert held == 0, (number, ended)
        assert ended == whole or number and is_right(ended), (number, ended)
        return ended == whole, requests
    last = tried(0)[1] * (2 if by_workers(' '.join(words)) else 1)
    assert not all(as_always for as_always, _ in side_by_side(tried, [(number,) for number in range(1, last + 1)]))


# ---- runs

INPUTS = {**{name: read(paths(name)[0]) for name in ('one_segment', 'equal_times', 'four_flows_before_codel', 'slow_start_into_a_full_queue')},
          'two_pairs_in_four_groups': read('python/tests/data/two_pairs_in_four_groups.txt'), 'nothing': b''}
INPUTS.update({f'image of {name}': of_model(['asm'], INPUTS[name])[2] for name in ('one_segment', 'four_flows_before_codel')})
RUNS = (
    ('two_pairs_in_four_groups', 'run --groups 0,1,2,3,3 --workers 2'), ('equal_times', 'run --groups each --workers 2'),
    *(('one_segment', f'run --groups each --workers {workers}') for workers in (1, 2, 4)),
    *((name, words) for name in ('one_segment', 'image of one_segment')
      for words in ('asm', 'dis', 'run', 'figures', 'figures --every 1ms', 'figures --every=1ms --series --names')),
    *(('one_segment', words) for words in (
        '', '--help', '--version', 'run --help', 'debug --help', 'verify', '--fast run', 'run run', 'asm --workers 2', 'dis --fast',
        'run --workers', 'run --workers 65', 'debug --workers=x', 'run --groups 0,64', 'debug --groups ones')),
    *(('nothing', words) for words in ('run --workers 2 --groups each', 'run --groups=0,1 --workers=1', 'debug --workers 2 --groups each')),
    ('slow_start_into_a_full_queue', 'run'),
    *((name, word) for name in ('four_flows_before_codel', 'image of four_flows_before_codel') for word in ('asm', 'dis', 'run', 'figures')))


def moment(line):
    """The moment of a trace's line."""
    first, second = line.split(b' ')[:2]
    return second if first != b'end' else None


def step(line):
    """The step of a row by time, its heading, or the table before it."""
    first = line.partition(b',')[0]
    return first if first == b'time' or first[:1].isdigit() else b'table'


@pytest.mark.parametrize('name, words', RUNS)
def test_a_run(counted, name, words):
    whole = outcome(words.split(), INPUTS[name])
    lines = whole[2].splitlines(True)
    part = step if '--every' in words else moment if '--groups' in words and by_workers(words) else None

    def is_right(ended):
        status, note, out = ended
        count = out.count(b'\n')
        if (status, note) != (4, NO_MEMORY) or not out:
            return (status, note) == (4, NO_MEMORY)
        return ((words.startswith('run') or part is step) and count < len(lines) and out == b''.join(lines[:count])
                and (part is None or part(lines[count - 1]) != part(lines[count])))
    refuse_each(counted, words.split(), INPUTS[name], whole, is_right)


# ---- debugging sessions

PROMPT = b'(tcpsim) '
REFUSED = b'refused M\n'
# What is noted of a line that is typed and refused memory.
NOTED = REFUSED + b'M: there was no memory, the run has more than 10^15 events, or a worker did not give back what it ran\n'
COMMANDS = b'break kind data\nrun\nrun\nback 1\nuntil 2040000\nbak 1\n'
TYPED = (b'break stall\nrun\nwhy 0\nrun\nbreak drop\ndisplay flow f\nreverse\nreverse\nstalls\nuntil 2s\ndisplay wait a\nlines 3\nstate flow 0\nreverse\n'
         b'display\nbreaks\n')


class Session:
    """A session with its commands behind the scenario."""

    def __init__(self, name, commands, *_):
        self.text = read(paths(name)[0])
        self.commands = [line for line in commands.splitlines(keepends=True) if line.split()]
        self.words, self.given, self.note = (), self.text + b'---\n' + b''.join(self.commands), b''

    @functools.cache
    def without(self, refused):
        """The output where the commands at these places are refused: in the model no command stands there."""
        lines = [b'refuse\n' if at in refused else line for at, line in enumerate(self.commands)]
        status, note, out = of_model(['debug'], self.text + b'---\n' + b''.join(lines))
        answers = self.answers(out)
        assert (status, note, len(answers)) == (0, b'', len(lines)) and all(answers[at] == b'refused B1\n' for at in refused)
        return b''.join(REFUSED if at in refused else it for at, it in enumerate(answers))

    @staticmethod
    def answers(out):
        """The answers, each with its lines: the further lines of a dump begin otherwise."""
        return re.findall(rb'(?:at |break |clear|refused ).*\n(?:(?!at |break |clear|refused ).*\n)*', out)

    def refused(self, out, note):
        """The places of the commands that were refused memory."""
        assert note == b''
        return tuple(at for at, it in enumerate(self.answers(out)) if it == REFUSED)

    def is_right(self, ended):
        status, note, out = ended
        return ended == (4, NO_MEMORY, b'') or status == 0 and out == self.without(self.refused(out, note))


class Typed(Session):
    """A session over a scenario's file, whose lines are typed. None is empty: a move that is refused would be done again."""

    def __init__(self, name, commands):
        super().__init__(name, commands)
        self.words, self.given, self.note = (paths(name)[0],), b''.join(self.commands), PROMPT * (len(self.commands) + 1)

    @functools.cache
    def without(self, refused):
        session = prompt.Prompt(command_line.read(self.text))
        return ''.join(session.answer(line.rstrip(b'\n')) for at, line in enumerate(self.commands) if at not in refused).encode()

    def refused(self, out, note):
        begin, *notes, end = note.split(PROMPT)
        assert (begin, end, len(notes)) == (b'', b'', len(self.commands)) and set(notes) <= {b'', NOTED}
        return tuple(at for at, it in enumerate(notes) if it == NOTED)


@pytest.mark.parametrize('options', ['', '--groups each --workers 1', '--groups each --workers 2'])
@pytest.mark.parametrize('sort, name, commands', [
    (Session, 'one_segment', COMMANDS), *((Session, name, read('examples', f'{name}.commands')) for name in ('two_timeouts_in_a_row', 'codel_enters_drop_state')),
    (Typed, 'two_timeouts_in_a_row', TYPED)], ids=['one_segment', 'two_timeouts_in_a_row', 'codel_enters_drop_state', 'typed'])
def test_a_session(counted, sort, name, commands, options):
    session = sort(name, commands)
    refuse_each(counted, ['debug', *options.split(), *session.words], session.given, (0, session.note, session.without(())), session.is_right)


# ---- what is still held

SCENARIO, MOVES = read(paths('two_timeouts_in_a_row')[0]), b'---\nbreak drop\nrun\nback 3\nuntil 2000000000\nstate\n'
# How many requests of a run by threads are refused, one in each run.
MANY = 60


def rows():
    """Each kind of run, with what it reads; the last two by threads."""
    for words in (('asm',), ('dis',), ('figures',), ('figures', '--every', '100ms', '--names'), ('run',), ('run', *EACH), ('debug',), ('debug', *EACH)):
        yield words, SCENARIO + (MOVES if words[0] == 'debug' else b'')
    yield ('run', *FOUND), wide('200ms')
    yield ('debug', *FOUND), wide('200ms') + MOVES


def test_a_run_holds_nothing_as_it_ends(counted):
    for words, given in rows():
        ended, held, requests = counted(words, given)
        assert (ended[:2], held) == ((0, b''), 0)
        assert requests > 0


def test_figures_are_made_anew_only_where_some_were_counted(counted):
    """Before 0 no event is run, and figures from there on are those that were made at first."""
    first, later = (counted(('figures', '--from', start), SCENARIO)[2] for start in ('0', '1ns'))
    assert first < later


def test_a_block_that_is_not_given_back_is_counted(counted):
    for words, given in rows():
        for kept in (1, 2, 7):
            ended, held, _ = counted(words, given, KEEP=kept)
            assert (ended[:2], held) == ((0, b''), 1)


def test_a_run_by_threads_that_is_refused_memory_holds_nothing(counted):
    words, given = ('run', *FOUND), wide('200ms')
    _, _, requests = counted(words, given)
    refused = 0
    for number in range(1, requests, max(1, requests // MANY)):
        ended, held, _ = counted(words, given, REFUSE=number)
        assert ended[:2] in ((0, b''), (4, NO_MEMORY))
        assert held == 0
        refused += ended[0] == 4
    assert refused > 0
