"""Tests of `tcpsim debug FILE` with the built program: commands are typed one by one, into a pseudo-terminal and
into pipes, and each answer has to be out before the next command goes in. And tests of what the program says at a
terminal alone.

What a line answers is what the model of python/tcpsim_model says of it.
"""
import glob
import os
import pty
import random
import re
import select
import signal
import subprocess
import tempfile
import termios
import time
import tty

import pytest

from clone import PROGRAM, TOP, outcome, paths, ran, read
from tcpsim_model import debugger, prompt, sessions, simulate
from tcpsim_model.scenario import Refused
from tcpsim_model.command_line import read as scenario_in
from test_prompt_pages import page

pytestmark = pytest.mark.built
PROMPT = b'(tcpsim) '
LONGEST = 300       # seconds that a session may take, on a machine that is busy
MOST_LINE = 65_536  # bytes of a line
# What is noted of a line that is refused as no command.
NO_NAME = b'refused B1\nB1: no command has this name, or no sort of breakpoint\n'

ONE, TWO = (paths(name)[0] for name in ('one_segment', 'two_timeouts_in_a_row'))
HUNT = [b'break kind rto', b'run', b'run', b'back 2', b'clear', b'break drop', b'back 25', b'run', b'state']
# Lines typed over the two timeouts, and lines that are refused.
LINES = [
    *HUNT,
    b'b', b's', b'', b'st 2', b'  ', b'sta', b'u 3.08ms', b'until 3080us', b'', b'unti 3080000ns', b'u 1s', b'br kind rto',
        b'brea flow 0', b'cl', b'break drop', b'r', b'break', b'', b'ru', b'back 3', b'', b'until 0.0000000001s', b'', b'c', b'ba 99',
    b'breaks', b'br node 0', b'break drop', b'brea kind rto', b'break drop', b'breaks', b'delete 2', b'd 3', b'breaks', b'd 1', b'del 1',
        b'breaks', b'help', b'h until', b'help h', b'he br', b'help breaks', b'clear', b'help numbers', b'h t', b'h kin', b'help stal', b'h sta', b'h w',
    b'lines', b'b 99', b'l', b'lines 1000', b's', b'l', b's 10', b's 11', b'l 3', b'lines 0', b'back 10', b'back 11', b'b 0', b's 0',
        b'br kind free', b'br flow 0', b'br node 1', b's 4', b'', b'r', b'b', b'u 4s', b'd 1', b'', b'r', b'', b'', b'state', b'l 1000',
    b'back 99', b'state flow 0', b'step', b'state', b'state node 0', b'sta node 1', b'state link 0', b'sta link 1', b'state flow 0', b'',
        b's 20', b'sta flow 0', b'u 9s', b'sta flow 0',
    b'back 999', b'why 0', b'step', b'w 0', b's 20', b'wh 0', b'', b'w 0', b'b 3', b'why 0', b'u 9s', b'why 0',
    b'clear', b'reverse', b'', b'u 9s', b're', b'br kind rto', b'u 9s', b'rev', b'', b's', b'', b'', b'br drop', b'u 9s', b'reve', b'', b'', b'',
        b'', b'r', b'', b're', b's 3', b'b', b're', b'', b'c',
    b'break kind data flow 0', b'br flow 0  kind data', b'br link 0 drop', b'br link 1', b'br byte 4000 kind ack', b'breaks', b'r', b'', b'd 1',
        b'r', b'', b'', b'd 2', b'r', b'', b'', b'', b're', b'', b'c', b'br byte 5000 link 1 drop kind delack flow 0 node 1', b'br byte 9000000000000',
        b'br byte 3000', b'br node 0 link 0', b'breaks', b're', b'', b'r', b'', b'd 1', b'd 4', b'breaks', b'c', b'br byte 4000 drop',
        b'u 9s', b're', b'', b'', b'r', b'c', b'help', b'h br',
    b'back 999', b'br stall', b'break stall 0', b'br  stall', b'r', b'w 0', b'', b'w 0', b'', b're', b'', b'', b'd 1', b'r', b'br kind rto', b'r', b're',
        b'breaks', b'c',
    b'back 999', b'where', b'whe', b'goto 25', b'', b'g 3', b'', b'wher', b'goto 26', b'got 11', b'', b'go 0', b'g 1000000000000000', b'where',
        b'until 1ms', b'', b'u 9s', b'goto 12', b'break kind ack', b'g 10', b'g 18', b're', b'', b're 1', b'', b'u 3s', b'', b'', b'where', b'c', b'help goto',
        b'h g', b'h n', b'h whe', b'h w', b'goto 1000000', b'reverse', b'', b'where',
    b'back 999', b'names', b'n', b's', b'', b'b 1', b'', b'w f', b'why 0', b'state node r', b'sta link a', b'state flow f', b'goto 25', b'w f', b'br flow f kind rto link a',
         b'break flow 0 kind rto link 0', b'br stall f', b'br node s drop', b'breaks', b'r', b're', b'd 2', b'', b'na', b'c', b'help n', b'h nu', b'h names', b'help',
         b'h w', b'h sta', b'h br',
    b'back 999', b'br cwnd<3000', b'break cwnd < 3000', b'r', b'', b're', b'c', b'br change cwnd f', b'r', b'', b'', b'breaks', b're', b'd 1', b'br queue a >=2 time<4ms', b'r',
         b'', b'', b'br wait 0>2ms flow f', b'r', b'', b'c', b'br phase ca', b'br dups=2', b'br rto>1s', b'br next>=4000', b'br count a>0', b'br flight=0', b'br time>=3.01s', b'br una=4000 drop',
         b'br nxt<1 ssthresh<=1', b'breaks', b'back 99', b'r', b'', b'', b'', b'', b'', b'', b'', b'c', b'goto 1.5s', b'', b'goto 4160us', b'goto 0s', b'g 999s', b'goto 3', b'goto 4160001ns',
         b'help values', b'h v', b'help goto', b'help break', b'help',
    b'back 999', b'stalls', b'display', b'display cwnd f', b'di flow f', b's', b'', b'disp link a', b'display cwnd 0', b's 3', b'', b'b 2', b'', b'stal', b'display', b'run', b'c',
         b'undisplay 2', b'und 1', b'display phase f', b'display rto f', b'display wait a', b'display count b', b'br stall', b're', b'', b'goto 25', b'w f', b'u 2s', b'', b'goto 0', b's 0',
         b'br change cwnd f', b'br queue b>0 link a node r', b'r', b'breaks', b'd 1', b'display', b'und 5', b'und 1', b'und 1', b'und 1', b'und 1', b'display', b's', b'help display', b'h di',
         b'help undisplay', b'h und', b'help stalls', b'h stall', b'help state', b'help why', b'help numbers', b'help cwnd', b'help queue', b'help',
]
REFUSALS = [
    (b'bak 1', b'B1'), (b'step 01', b'B3'), (b'break flow 1', b'B3'), (b'run 1', b'B2'), (b'break', b'B2'),
    (b'stepp', b'B1'), (b'y', b'B1'), (b'step 1 2', b'B2'), (b'step x', b'B3'), (b'back 1000000000000001', b'B3'), (b'until', b'B2'),
        (b'until 1 s', b'B2'), (b'until 1.5', b'B3'), (b'u 1.0ns', b'B3'), (b'u 1.0000us', b'B3'), (b'u .5s', b'B3'), (b'u 5.s', b'B3'),
        (b'u 01s', b'B3'), (b'u 1000000.000000001s', b'B3'), (b'u 1S', b'B3'), (b'br n 0', b'B1'), (b'br kind', b'B2'),
        (b'clear x', b'B2'), (b'step\t1', b'B1'), (b'quit now', b'B2'),
    (b'breaks 1', b'B2'), (b'delete', b'B2'), (b'd 1 2', b'B2'), (b'd 01', b'B3'), (b'd x', b'B3'), (b'd 0', b'B5'), (b'd 1', b'B5'),
        (b'delete 99999999999999999999999', b'B5'), (b'help stepp', b'B1'), (b'h x y', b'B1'), (b'h s t', b'B2'), (b'help stallss', b'B1'), (b'h k rto', b'B2'),
    (b'lines 1 2', b'B2'), (b'l 1001', b'B3'), (b'l 01', b'B3'), (b'l x', b'B3'),
    (b'state 1', b'B1'), (b'state kind rto', b'B1'), (b'state n 1', b'B1'), (b'state flows 1 2', b'B1'), (b'state node', b'B2'),
        (b'state link 0 1', b'B2'), (b'state node 2', b'B3'), (b'state link 2', b'B3'), (b'state flow 1', b'B3'), (b'state flow 00', b'B3'),
    (b'why', b'B2'), (b'w 0 0', b'B2'), (b'why 1', b'B3'), (b'wh 00', b'B3'), (b'why x', b'B3'), (b'whys 0', b'B1'),
    (b'reverse 1', b'B2'), (b'rev drop', b'B2'), (b'reverses', b'B1'),
    (b'break drop 1', b'B1'), (b'br node 0 1', b'B1'), (b'br node 2 lin 0', b'B1'), (b'br kind acks link 0 1', b'B1'), (b'br drop drop', b'B2'),
        (b'br drop foo drop', b'B1'), (b'br node 0 node 1', b'B2'), (b'br node 2 node 1', b'B2'), (b'br node 0 node', b'B2'), (b'br node 2 flow', b'B2'),
        (b'br node 0 node 1 foo', b'B2'), (b'br link', b'B2'), (b'br drop byte', b'B2'), (b'br node node', b'B3'), (b'br flow drop', b'B3'),
        (b'br node 0 flow 1', b'B3'), (b'br link 2', b'B3'), (b'br drop byte 9000000000001', b'B3'), (b'br byte 01 kind ack', b'B3'),
    (b'br stall 1', b'B3'), (b'br stall x', b'B3'), (b'br stall 00', b'B3'), (b'br stall 0 0', b'B2'), (b'br stall 1 x', b'B2'), (b'br stal', b'B1'),
        (b'br stall drop', b'B3'), (b'br drop stall', b'B1'), (b'br node 0 stall 0', b'B1'),
    (b'goto', b'B2'), (b'goto 1 2', b'B2'), (b'g 1 s', b'B2'), (b'where 1', b'B2'), (b'goto x', b'B3'), (b'goto 01', b'B3'), (b'g 1.5', b'B3'),
        (b'goto 1000000000000001', b'B3'), (b'gotos', b'B1'), (b'wheres', b'B1'), (b'print', b'B1'), (b'p cwnd', b'B1'), (b'watch', b'B1'), (b'wa', b'B1'), (b'info', b'B1'),
        (b'i', b'B1'), (b'infos', b'B1'),
    (b'names f', b'B2'), (b'n 1', b'B2'), (b'name s', b'B2'), (b'why s', b'B3'), (b'why x', b'B3'), (b'state node a', b'B3'), (b'state link f', b'B3'), (b'break node f', b'B3'),
         (b'break stall r', b'B3'), (b'br kind s link f', b'B3'), (b'br node s node r', b'B2'), (b'br node s f', b'B1'), (b'why F', b'B3'), (b'break flow f1', b'B3'),
    (b'br cwnd', b'B2'), (b'br cwnd<', b'B2'), (b'br cwnd 3', b'B2'), (b'br cwn<3', b'B1'), (b'br cwnd<3 4', b'B1'), (b'br cwnd<x', b'B3'), (b'br cwnd<3 cwnd>1', b'B2'), (b'br phase xx', b'B3'),
         (b'br queue f>1', b'B3'), (b'br wait a>1.5', b'B3'), (b'br change cwnd a', b'B3'), (b'br change x f', b'B1'), (b'br change cwnd', b'B2'), (b'br stall cwnd<3', b'B2'),
         (b'br time>=1 s', b'B1'), (b'goto 1.0ns', b'B3'), (b'goto 1s 2', b'B2'), (b'step<3', b'B1'),
    (b'display foo', b'B1'), (b'display foo f f', b'B1'), (b'display time', b'B1'), (b'display cwnd<3', b'B1'), (b'displays', b'B1'), (b'display cwnd', b'B2'), (b'di cwnd f f', b'B2'),
         (b'display link', b'B2'), (b'display cwnd x', b'B3'), (b'display cwnd a', b'B3'), (b'display cwnd 1', b'B3'), (b'display queue f', b'B3'), (b'display link 2', b'B3'),
         (b'display flow 00', b'B3'), (b'undisplay', b'B2'), (b'und 1 2', b'B2'), (b'und x', b'B3'), (b'und 01', b'B3'), (b'und 0', b'B5'), (b'und 1', b'B5'),
         (b'undisplay 99999999999999999999999', b'B5'), (b'stalls f', b'B2'), (b'stallss', b'B1'), (b'print cwnd', b'B1'), (b'help cwn', b'B1'), (b'help display x', b'B2'),
]


def scenario(path):
    return scenario_in(read(path))


def answers(path, lines):
    """What each of the lines is answered with, and what is noted of it, where the others are typed before it."""
    session, found = prompt.Prompt(scenario(path)), []
    for line in lines:
        try:
            found.append((session.answer(line).encode(), b''))
        except Refused as refusal:
            found.append((b'', session.noted(line, refusal).encode()))
    return found


def model(path, lines):
    """What all the lines are answered with."""
    return b''.join(answer for answer, _ in answers(path, lines))


def debug(path, given, *options):
    """A session whose lines are all there: its status, what it answers, and what it notes."""
    status, noted, out = outcome(['debug', path, *options], given)
    return status, out, noted


class Typed:
    """A session into which lines are typed, by a pseudo-terminal or by pipes."""

    def __init__(self, path, *options, terminal):
        self.notes, told = os.pipe()
        if terminal:
            self.keys, theirs = pty.openpty()
            tty.setraw(theirs, termios.TCSANOW)
            self.screen, ends = self.keys, (theirs, theirs)
        else:
            theirs, self.keys = os.pipe()
            self.screen, shown = os.pipe()
            ends = (theirs, shown)
        # A shell has what it runs behind itself ignore interrupts, and what that runs would too.
        self.program = subprocess.Popen([PROGRAM, 'debug', path, *options], stdin=ends[0], stdout=ends[1], stderr=told,
                                        preexec_fn=lambda: signal.signal(signal.SIGINT, signal.SIG_DFL))
        for end in {*ends, told}:
            os.close(end)
        self.seen = b''

    def until_asked(self):
        """What is on standard error up to the next prompt. Standard output is read meanwhile, so that none is full."""
        noted, until = b'', time.monotonic() + LONGEST
        while not noted.endswith(PROMPT):
            ready, _, _ = select.select([self.notes, self.screen], [], [], max(0, until - time.monotonic()))
            assert ready, f'no prompt after {noted!r}'
            if self.notes not in ready:
                self.seen += os.read(self.screen, 65_536)
                continue
            byte = os.read(self.notes, 1)
            assert byte, f'the session ended after {noted!r}'
            noted += byte
        return noted[:-len(PROMPT)]

    def shown(self):
        """What is on standard output now, without waiting for more."""
        while select.select([self.screen], [], [], 0)[0]:
            piece = os.read(self.screen, 65_536)
            if not piece:
                break
            self.seen += piece
        found, self.seen = self.seen, b''
        return found

    def type(self, line):
        while line:
            line = line[os.write(self.keys, line):]

    def end(self):
        """The status and the rest of standard error, after the keys are taken away."""
        status = self.program.wait(LONGEST)
        rest = b''
        while piece := os.read(self.notes, 65_536):
            rest += piece
        for end in {self.keys, self.screen, self.notes}:
            os.close(end)
        return status, rest


def typed(path, lines, *options, terminal):
    """Types lines one by one: each is answered before the next one is asked for."""
    session = Typed(path, *options, terminal=terminal)
    assert session.until_asked() == b''
    assert session.shown() == b''
    for line, (answer, note) in zip(lines, answers(path, lines)):
        session.type(line + b'\n')
        noted = session.until_asked()
        assert (session.shown(), noted) == (answer, note)
    session.type(b'quit\n')
    assert session.end() == (0, b'')


def test_each_answer_is_out_before_the_next_command_goes_in():
    refused = [line for line, _ in REFUSALS]
    for terminal in (True, False):
        typed(TWO, LINES, terminal=terminal)
        typed(TWO, LINES, '--workers', '2', '--groups', 'each', terminal=terminal)
        typed(ONE, refused + [b'', b'   ', b'step 3', b' back  2 '], terminal=terminal)


def test_random_commands():
    pick = random.Random(35)
    for count in range(40):
        path = pick.choice((ONE, TWO))
        net = simulate.Network(scenario(path))
        moments = [line.time for line in iter(net.step, None)]
        session = prompt.Prompt(net.scenario)
        lines = [line for line in (sessions.any_line(pick, net.scenario, moments) for _ in range(12))
                 if not session.quits(line)]
        typed(path, lines, terminal=bool(count % 2))


def test_all_lines_at_once():
    """What is there before it is asked for is answered in turn, with a prompt a line."""
    noted = b''.join(PROMPT + note for _, note in answers(TWO, LINES)) + PROMPT
    for groups in 'one', 'each':
        for workers in '1', '2', '64':
            told = debug(TWO, b''.join(line + b'\n' for line in LINES), '--groups', groups, '--workers', workers)
            assert told == (0, model(TWO, LINES), noted)


def test_the_end_of_input():
    assert debug(ONE, b'') == (0, b'', PROMPT)
    for last in (b'step 3\n', b'step 3'):
        assert debug(ONE, last) == (0, model(ONE, [b'step 3']), PROMPT * 2)


def test_quit():
    """Nothing behind the line is read: it is there for who reads on."""
    for line in (b'quit', b'  quit ', b' quit', b'q', b' qu', b'qui'):
        with tempfile.TemporaryFile() as keys:
            keys.write(b'step 1\n' + line + b'\nstep 2\n')
            keys.seek(0)
            done = ran(PROGRAM, 'debug', ONE, stdin=keys)
            assert (done.returncode, done.stdout, done.stderr) == (0, model(ONE, [b'step 1']), PROMPT * 2)
            assert os.lseek(keys.fileno(), 0, os.SEEK_CUR) == len(b'step 1\n' + line + b'\n')


def test_refused_lines():
    for line, code in REFUSALS:
        (_, note), = answers(ONE, [line])
        assert note.startswith(b'refused ' + code + b'\n')
        assert debug(ONE, line + b'\nstep 1\n') == (0, model(ONE, [b'step 1']), PROMPT + note + PROMPT * 2)


def test_the_nearest_command():
    for word, nearest in ((b'stpe', b'step'), (b'bak', b'back'), (b'brak', b'break'), (b'brakes', b'breaks'), (b'halp', b'help'),
                          (b'exit', b'quit'), (b'x', b'run'), (b'x' * 32, b'step'), (b'\xff\trun', b'run')):
        shown = word.replace(b'\xff\t', b'??')
        noted = PROMPT + NO_NAME + b'tcpsim: no command ' + shown + b'; the nearest is ' + nearest + b'\n' + PROMPT
        for line in (word, b'  ' + word + b'  1'):
            assert debug(ONE, line + b'\n') == (0, b'', noted)
    for line, there in ((b'x' * 33, b''), (b'state kind rto', b'tcpsim: parts of a state are node N, link L, flow F: see help state\n'),
                        (b'help stpe', b'tcpsim: help is of a command, or of numbers, trace, kinds, stall, values: see help\n')):
        assert debug(ONE, line + b'\n') == (0, b'', PROMPT + NO_NAME + there + PROMPT)


def test_long_lines():
    step = model(ONE, [b'step 1'])
    for line, code in ((b'a' * MOST_LINE, b'B1'), (b'a' * (MOST_LINE + 1), b'B2'),
                       (b'step 1' + b' ' * MOST_LINE, b'B2'), (b' ' * (MOST_LINE + 2) + b'quit', b'B2'),
                       (b'b' * 3_000_000 + b' step 1', b'B2')):
        told = debug(ONE, line + b'\nstep 1\n')
        means = prompt.MEANINGS[code.decode()].encode()
        assert told == (0, step, PROMPT + b'refused ' + code + b'\n' + means + b'\n' + PROMPT * 2)
    assert debug(ONE, b'step 1'.ljust(MOST_LINE) + b'\n') == (0, step, PROMPT * 2)


def test_a_refused_scenario_has_no_prompt(put, tmp_path):
    path, none = put('short.txt', b'sim 5\nnode s sender\n'), str(tmp_path / 'none.txt')
    with tempfile.TemporaryFile() as keys:
        keys.write(b'step 1\n')
        keys.seek(0)
        done = ran(PROGRAM, 'debug', path, stdin=keys)
        assert (done.returncode, done.stdout, done.stderr) == (1, b'', b'refused L3 line 0\n')
        assert os.lseek(keys.fileno(), 0, os.SEEK_CUR) == 0
    assert debug(ONE, b'step 1\n', '--groups', '0') == (2, b'', b'refused groups\n')
    assert debug(none, b'step 1\n') == (3, b'', f'cannot read {none}\n'.encode())
    assert debug(str(tmp_path), b'step 1\n') == (3, b'', f'cannot read {tmp_path}\n'.encode())


def test_an_image(put):
    path = put('one.tcb', outcome(['asm', ONE])[2])
    assert debug(path, b'step 3\n') == (0, model(path, [b'step 3']), PROMPT * 2)


def test_standard_input_has_both_where_no_file_is_named():
    given = read(ONE) + b'---\nstep 3\nquit\n'
    expected = ''.join(debugger.session(given)).encode()
    assert expected.endswith(b'refused B1\n')
    for words in ([], ['-']):
        assert outcome(['debug', *words], given) == (0, b'', expected)


def test_the_hunts_of_the_examples():
    found = sorted(glob.glob(os.path.join(TOP, 'examples', '*.commands')))
    assert len(found) == 2
    for path in found:
        given = read(path.replace('.commands', '.txt')) + b'---\n' + read(path)
        assert outcome(['debug'], given) == (0, b'', ''.join(debugger.session(given)).encode()), path


def test_the_page():
    """What docs/DEBUGGING.md shows is what is answered."""
    shown, commands = page()
    assert (len(shown), len(commands)) == (6, 1)
    for path, lines, (answer,) in shown:
        status, out, _ = debug(path, b''.join(line + b'\n' for line in lines))
        assert status == 0
        assert re.fullmatch(answer, out.decode()) is not None, out.decode()
    for line, (answer,) in commands:
        done = ran('sh', '-c', line.replace('crates/tcpsim/out/tcpsim', PROGRAM), cwd=TOP)
        assert (done.returncode, done.stderr) == (0, b'')
        assert re.fullmatch(answer, done.stdout.decode()) is not None, done.stdout


def test_an_interrupt_ends_it_as_any_program():
    session = Typed(ONE, terminal=False)
    session.until_asked()
    session.type(b'step\n')
    session.until_asked()
    session.program.send_signal(signal.SIGINT)
    assert session.end() == (-signal.SIGINT, b'')


def test_ends_that_fail():
    with open('/dev/full', 'wb') as full:
        done = ran(PROGRAM, 'debug', ONE, input=b'step 1\nstep 1\n', stdout=full)
        assert (done.returncode, done.stderr) == (3, PROMPT + b'write failed\n')
        # What fails on standard error is ignored.
        done = ran(PROGRAM, 'debug', ONE, input=b'bak 1\nstep 3\n', stderr=full)
        assert (done.returncode, done.stdout) == (0, model(ONE, [b'step 3']))
    # A folder opens and cannot be read: no line comes.
    keys = os.open(TOP, os.O_RDONLY)
    done = ran(PROGRAM, 'debug', ONE, stdin=keys)
    assert (done.returncode, done.stdout, done.stderr) == (3, b'', PROMPT + b'read failed\n')


# What is awaited where standard input is a terminal.
WANTS_SCENARIO = b'tcpsim: waiting for a scenario on standard input, up to Ctrl-D; to read a file, name it behind the command\n'
WANTS_FILE = b'tcpsim: debug wants a file, as tcpsim debug FILE; without one it waits for a scenario, a line --- and commands, up to Ctrl-D\n'


def beside_terminal(stream, *words):
    """The status and standard error of a run in which `stdin` or `stderr` is a terminal, where Ctrl-D was typed."""
    ours, theirs = pty.openpty()
    try:
        os.write(ours, b'\x04')
        done = ran(PROGRAM, *words, **{'stdout': subprocess.DEVNULL, stream: theirs})
        shown = done.stderr or b''
        while stream == 'stderr' and select.select([ours], [], [], 0)[0]:
            shown += os.read(ours, 65_536)
        return done.returncode, shown.replace(b'\r\n', b'\n')
    finally:
        os.close(ours)
        os.close(theirs)


def test_what_is_awaited():
    nothing = b'refused E10 line 0\n'
    for words, awaited in ((('run',), WANTS_SCENARIO), (('run', '--groups', 'each', '--workers', '2'), WANTS_SCENARIO), (('asm',), WANTS_SCENARIO),
                           (('dis',), WANTS_SCENARIO), (('figures',), WANTS_SCENARIO), (('debug',), WANTS_FILE), (('run', '-'), b''), (('debug', '-'), b'')):
        assert beside_terminal('stdin', *words) == (1, awaited + nothing), words
        assert outcome(words)[:2] == (1, nothing), words
    assert beside_terminal('stdin', 'run', ONE) == (0, b'')
    assert beside_terminal('stdin', 'debug', ONE) == (0, PROMPT)


def test_a_refusal_explains_itself(put):
    path = put('wrong.txt', b'sim 5\nnode s sendr\n')
    for words in (*((word, path) for word in ('run', 'asm', 'dis', 'figures', 'debug')), ('run', '--groups', '0', ONE)):
        done, plain = ran(PROGRAM, *words, '--explain'), ran(PROGRAM, *words)
        assert done.stderr.startswith(plain.stderr) and len(done.stderr.splitlines()) > len(plain.stderr.splitlines()) == 1
        assert beside_terminal('stderr', *words) == (done.returncode, done.stderr)
        assert beside_terminal('stdin', *words) == (done.returncode, plain.stderr)
    assert beside_terminal('stderr', 'run', '/none') == (3, b'cannot read /none\nNo such file or directory\n')


def test_words_that_are_no_command_are_explained_at_a_terminal():
    of_prompt = ' is a command of the prompt: tcpsim debug FILE'
    for words, told in ((('rnu',), 'no command rnu; the nearest is run'), (('figure', ONE), 'no command figure; the nearest is figures'),
                        (('why',), 'why' + of_prompt), (('stalls', 'f0'), 'stalls' + of_prompt), (('help',), 'help' + of_prompt),
                        (('verify',), ''), ((ONE,), ''), ((), ''), (('run', 'a', 'b'), ''), (('--why',), '')):
        status, note, _ = outcome(words)
        assert status == 2 and note.startswith(b'error: ')
        assert beside_terminal('stderr', *words) == (2, note + f'tcpsim: {told}\n'.encode() * bool(told)), words
