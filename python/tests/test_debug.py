"""Tests of tcpsim-debug: lines that are typed at a terminal of their own (pexpect), and what is completed. Each session runs
the built program, or else the model."""
import os
import pathlib
import re
import signal
import subprocess
import sys
import termios
import time

import pytest

pexpect = pytest.importorskip('pexpect', reason='no pexpect: apt-get install python3-pexpect')

from clone import BIN, EXAMPLES, PROGRAM, TOP, of_model, read, read_text, tool, until  # noqa: E402
from tcpsim.console import keyboard, times  # noqa: E402
from tcpsim.console.completion import Completion  # noqa: E402
from tcpsim.prompt import Prompt  # noqa: E402
from typed_lines import Session, unnamed  # noqa: E402

TWO = os.path.join(EXAMPLES, 'two_timeouts_in_a_row.txt')
FAIR = os.path.join(EXAMPLES, 'two_flows_share_fairly.txt')
PROMPT = '(tcpsim) '
PATIENCE = 120          # seconds for one answer, on a machine that is busy
LIMIT = 600             # seconds for a test
LONG = """sim 1000000000000000
node s sender
node r receiver
link a s r 1000000000 1000000 droptail 100
link b r s 1000000000 1000000 droptail 100
lose a 5
flow f s r 1000 1000000000 0 64000 0
"""


def children(pid):
    """The processes that a process has started and that have not ended, zombies but for."""
    found = pathlib.Path(f'/proc/{pid}/task/{pid}/children').read_text().split()
    return [int(it) for it in found]


def work_of(pid):
    """How long a process has worked, in ticks of its system."""
    return sum(map(int, pathlib.Path(f'/proc/{pid}/stat').read_text().rpartition(')')[2].split()[11:13]))


def is_running(pid):
    try:
        return pathlib.Path(f'/proc/{pid}/stat').read_text().rpartition(')')[2].split()[0] != 'Z'
    except OSError:
        return False


class Terminal:
    """A session at a terminal of its own."""

    def __init__(self, home, *words, rows=100, **environment):
        inputrc = home / 'inputrc'
        inputrc.write_text('set enable-bracketed-paste off\nset bell-style none\n')
        env = {'PATH': os.environ['PATH'], 'HOME': str(home), 'TERM': 'xterm', 'LANG': 'C.UTF-8', 'NO_COLOR': '1',
               'INPUTRC': str(inputrc), **environment}
        self.child = pexpect.spawn(sys.executable, [os.path.join(BIN, 'tcpsim-debug'), *map(str, words)], dimensions=(rows, 300),
                                   env={name: value for name, value in env.items() if value}, encoding='utf-8', codec_errors='replace', timeout=PATIENCE)
        self.child.delaybeforesend = None

    def begin(self):
        """Waits for the first prompt; answers what was said before it."""
        self.child.expect_exact(PROMPT)
        return self.child.before

    def type(self, keys):
        self.child.send(keys)

    def shown(self):
        """What is shown up to the next prompt, but for the line that was typed."""
        self.child.expect_exact(PROMPT)
        return self.child.before.partition('\r\n')[2].replace('\r\n', '\n')

    def ask(self, line):
        self.type(line + '\r')
        return self.shown()

    def begin_long(self, line):
        """Types a line, up to when the program is at work on it."""
        program = self.process()
        before = work_of(program)
        self.type(line + '\r')
        self.child.expect_exact('\r\n')
        until(lambda: work_of(program) > before + 5, 'the program does nothing')

    def interrupt(self, line):
        """What is shown where Ctrl-C comes while the program is at work on a line."""
        self.begin_long(line)
        return self.interrupted()

    def interrupted(self):
        """What is shown where Ctrl-C comes while the program is at work."""
        self.type('\x03')
        return self.shown()

    def clear(self):
        """Ctrl-C at the prompt, up to the next one. Python sees it while it waits for a key alone: it comes again where a key
        that was typed just before was read meanwhile, and prompts of it may stand before the next answers."""
        for _ in range(PATIENCE):
            self.type('\x03')
            if self.child.expect_exact([PROMPT, pexpect.TIMEOUT], timeout=1) == 0:
                return
        raise AssertionError('Ctrl-C at the prompt shows no other one')

    def complete(self, line):
        """What a line is after Tab, which completes it."""
        self.type(f'{line}\t\x15\x19\r')        # cut and yanked, so that it is written anew
        self.child.expect_exact('\r\n')
        lines = self.child.before
        self.shown()
        return lines

    def process(self):
        """The program that runs for the session; beside it is what reads the run ahead."""
        only, = (it for it in children(self.child.pid) if b'\0debug\0' in pathlib.Path(f'/proc/{it}/cmdline').read_bytes())
        return only

    def end(self, keys='\x04'):
        """The status, once the session has ended by these keys; nobody is left."""
        left = children(self.child.pid)
        self.type(keys)
        status = self.ended()
        until(lambda: not any(map(is_running, left)), 'something runs on')
        return status

    def ended(self):
        """The status of a session that ends by itself."""
        self.child.expect_exact(pexpect.EOF)
        self.child.close()
        return self.child.exitstatus


@pytest.fixture(autouse=True)
def limited():
    """A test that waits for ever fails."""
    def late(*_):
        raise TimeoutError(f'the test takes more than {LIMIT} seconds')
    signal.signal(signal.SIGALRM, late)
    signal.alarm(LIMIT)
    yield
    signal.alarm(0)


@pytest.fixture
def terminal(tmp_path):
    """Begins sessions; those that a test leaves are ended."""
    every = []

    def begin(*words, **more):
        words = words if '--program' in words else ('--program', PROGRAM, *words)
        every.append(Terminal(tmp_path, *words, **more))
        return every[-1]
    yield begin
    for each in every:
        if each.child.isalive():
            each.child.kill(signal.SIGKILL)
            each.child.wait()
        each.child.close()


@pytest.fixture
def begun(terminal):
    """The same, at their first prompts."""
    def begin(*words, **more):
        session = terminal(*words, **more)
        session.begin()
        return session
    return begin


def at_once(path, *lines):
    """What each of the lines is answered by the program's own prompt, answers and notes in turn; in the list of help is `time` too,
    behind `why`."""
    prompt = Prompt([PROGRAM, 'debug'], read(path))
    try:
        answers = [answer.text + answer.note for answer in map(prompt.ask, lines)]
        return [re.sub(r'^why F .*\n', rf'\g<0>{times.USAGE}', answer, flags=re.M) if line == 'help' else answer
                for line, answer in zip(lines, answers)]
    finally:
        prompt.end()


@pytest.fixture(scope='module')
def long(tmp_path_factory):
    path = tmp_path_factory.mktemp('long') / 'long.txt'
    path.write_text(LONG)
    return str(path)


# ---- lines and their answers

LINES = ('step 3', '', 'back', 'break drop flow 0', 'break stall', 'breaks', 'run', 'run', 'why 0', 'state flow 0', 'lines 2', 'reverse', '',
         'delete 1', 'delete 7', 'stpe', 'why 9', 'step 1 2', 'help', 'help break', 'until 2s', 'clear', 'run')


def test_answers_are_the_program_s(begun):
    session = begun(TWO)
    assert [session.ask(line) for line in LINES] == at_once(TWO, *LINES)
    assert session.end('quit\r') == 0


def test_time_is_told_by_the_tool(begun):
    """Wherever the session is; and a flow is completed. What is refused changes nothing."""
    session = begun(FAIR)
    session.ask('step 9')
    table, flow = (tool('time', FAIR, '--program', PROGRAM, *words).stdout.decode() for words in ((), ('--flow', '1', '--no-alone')))
    assert session.ask('time') == table and session.ask('time 1') == flow and flow.startswith('flow ')
    assert session.ask('time zz').startswith('time: the scenario has no flow zz; it has ')
    assert session.ask('time 0 1') == 'time: one flow, or nothing for all: help time\n'
    assert session.ask('help time') == session.ask('h time') == times.PAGE and times.USAGE in session.ask('help')
    assert session.complete('tim').endswith('time ')
    assert session.ask('where').startswith('at 9 of the run')
    assert session.end() == 0


def test_time_of_a_run_that_has_no_end_is_ended(begun, long):
    """By Ctrl-C, and the session goes on. The run is read up to a bound unasked, and on while somebody waits; it is asked again."""
    session = begun(long)
    session.ask('step 3')
    ahead, = set(children(session.child.pid)) - {session.process()}

    def rests():
        before = work_of(ahead)
        time.sleep(1)
        return work_of(ahead) == before
    until(rests, 'it does not rest')
    for _ in range(2):
        before = work_of(ahead)
        session.type('time f\r')
        until(lambda: work_of(ahead) > before + 5, 'nothing runs ahead')
        assert session.interrupted().endswith('tcpsim-debug: ended; the session is where it was\n')
        until(rests, 'it does not rest')
    assert session.ask('where').startswith('at 3 of the run')
    assert session.end() == 0


def test_bytes_that_are_no_text(begun):
    session = begun(TWO, PYTHONIOENCODING='utf-8:strict')     # as Python has it but in a locale C
    os.write(session.child.child_fd, b'st\xffp \xe2\x82\r')
    assert 'refused B1\n' in session.shown()
    assert session.ask('step') == at_once(TWO, 'step')[0]


def test_all_that_the_program_started_ends(begun, put, long):
    """As where it is a script that starts it."""
    script = f'#!/bin/sh\nfor last; do :; done\n{PROGRAM} debug "$last"\nexit 5\n'
    session = begun('--program', put('script', script, 0o700), long)
    started, = children(session.process())
    before = work_of(started)
    session.type('run\r')
    until(lambda: work_of(started) > before + 5, 'the program does nothing')
    session.type('\x03')
    assert 'ended; the session is at 0' in session.shown()
    until(lambda: not is_running(started), 'the program runs on')


def test_it_ends_with_its_input(begun):
    session = begun(TWO)
    assert session.end() == 0


def test_groups_go_to_the_program(terminal, begun):
    session = begun('--workers', '2', '--groups', 'each', TWO)
    assert session.ask('run') == at_once(TWO, 'run')[0]
    session = terminal('--groups', '0', TWO)
    session.child.expect_exact('refused groups')
    assert session.ended() == 2


def test_an_image(begun, tmp_path):
    image = tmp_path / 'two.tcb'
    image.write_bytes(of_model(['asm', TWO])[2])
    session = begun(image)
    assert session.ask('step 2') == at_once(image, 'step 2')[0]


# ---- Ctrl-C

def test_ctrl_c_ends_a_move_and_keeps_the_session(begun, long):
    session = begun(long)
    for line in ('step 7', 'break drop', 'break kind rto flow 0', 'break stall'):
        session.ask(line)
    moved = session.ask('run')
    position = int(re.search(r'^at (\d+) of the run', moved, re.M)[1])
    session.ask('delete 1')
    kept = {line: session.ask(line) for line in ('breaks', 'lines 3', 'state')}
    assert kept['breaks'] == 'break 1: flow f kind rto\nbreak 2: stall\n' and position > 7
    for line in ('until 1000000s', 'step 1000000000000'):
        session.ask('clear')
        session.ask('break kind rto flow 0')
        session.ask('break stall')
        before = session.process()
        assert f'ended; the session is at {position} of the run, with its 2 breakpoints\n' in session.interrupt(line)
        until(lambda: not is_running(before), 'the program before runs on')
        assert {line: session.ask(line) for line in kept} == kept
    # The last move again is that before what was ended, which the new process has not seen.
    session.ask('clear')
    assert session.ask('step 2').endswith(f'at {position + 2} of the run, time {session.ask("lines 1").split()[1]} ns\n')
    session.interrupt('until 1000000s')
    assert f'\nat {position + 4} of the run' in session.ask('')
    assert f'\nat {position + 6} of the run' in session.ask('')
    assert session.end() == 0


def test_ctrl_c_comes_again_and_again(begun, long):
    session = begun(long)
    session.ask('step 50')
    session.ask('break stall')
    state = session.ask('state')
    for wait in (1, .3, .1, .03, 0, 0):
        session.type('until 1000000s\r')
        session.child.expect_exact('\r\n')
        session.child.expect(pexpect.TIMEOUT, timeout=wait)
        session.clear()
    session.type('\x03\x03')
    # Prompts of further interruptions may stand before the answers.
    until(lambda: session.ask('state') == state, 'it is elsewhere')
    until(lambda: session.ask('breaks') == 'break 1: stall\n', 'the breakpoint is gone')
    # An answer may still be on its way, during which Ctrl-D would end nothing; a line waits for the prompt.
    assert session.end('quit\r') == 0


def test_ctrl_c_at_the_prompt_clears_the_line(begun):
    session = begun(TWO)
    before = session.process()
    session.type('step 5')
    session.clear()
    until(lambda: session.ask('state').startswith('at 0\n'), 'it is elsewhere')
    assert session.process() == before


@pytest.mark.wants(cc='gcc')
def test_ctrl_c_behind_a_key(begun, library):
    """It comes once select has seen the key, and before readline reads it."""
    session = begun(TWO, LD_PRELOAD=library('late_keys'))
    session.type('x')
    time.sleep(.1)
    session.clear()
    assert session.ask('step') == at_once(TWO, 'step')[0]
    assert session.end() == 0


def test_ctrl_c_is_raised_by_the_wait_for_a_key(monkeypatch):
    """And not by what readline calls meanwhile, as for Tab: it would swallow it."""
    before = signal.signal(signal.SIGINT, keyboard.interrupt)
    try:
        monkeypatch.setattr(keyboard, 'input', lambda number: signal.raise_signal(number), raising=False)
        keyboard.typed(signal.SIGINT)
        monkeypatch.setattr(keyboard, 'input', signal.raise_signal)
        with pytest.raises(KeyboardInterrupt):
            keyboard.typed(signal.SIGINT)
        keyboard.typed(signal.SIGINT)       # once
    finally:
        signal.signal(signal.SIGINT, before)


def test_ctrl_c_drops_what_was_typed_behind_the_line(begun, long):
    session = begun(long)
    session.begin_long('until 1000000s')
    session.type('step\r')
    assert 'ended; the session is at 0 of the run\n' in session.interrupted()
    assert session.ask('state').startswith('at 0\n')


def test_the_terminal_is_as_before(begun):
    session = begun(TWO)

    def keeps_keys():
        return bool(termios.tcgetattr(session.child.child_fd)[keyboard.LFLAG] & termios.NOFLSH)
    assert keeps_keys()
    session.type('\x04')
    until(lambda: not keeps_keys(), 'keys are kept')
    assert session.end() == 0


def test_displays_are_kept(begun, long):
    session = begun(long)
    for line in ('display flow f', 'display cwnd f', 'display queue a', 'undisplay 2', 'step 7'):
        session.ask(line)
    kept = {line: session.ask(line) for line in ('display', 'breaks', 'state')}
    assert [line.split(' = ')[0] for line in kept['display'].splitlines()] == ['display 1: flow f: cwnd', 'display 2: queue a']
    assert 'ended; the session is at 7 of the run, with its 2 displays\n' in session.interrupt('until 1000000s')
    assert {line: session.ask(line) for line in kept} == kept
    session.ask('break stall')
    assert 'with its breakpoint and its 2 displays\n' in session.interrupt('stalls')
    assert {line: session.ask(line) for line in ('display', 'state')} == {line: kept[line] for line in ('display', 'state')}
    # A move says what was before it, which the process that was started again saw too.
    assert session.ask('').splitlines()[-2].startswith('display 1: flow f: cwnd = ') and session.ask('display').startswith('display 1: flow f: ')
    assert session.end('quit\r') == 0


# ---- a program that dies

def test_a_program_that_is_killed_is_started_again(begun):
    session = begun(TWO)
    for line in ('step 9', 'break drop'):
        session.ask(line)
    state = session.ask('state')
    os.kill(session.process(), signal.SIGKILL)
    assert session.ask('run') == ('tcpsim-debug: the program was ended by signal 9 (Killed) and was started again; '
                                  'the session is at 9 of the run, with its breakpoint\n')
    assert (session.ask('state'), session.ask('breaks')) == (state, 'break 1: drop\n')
    assert session.end() == 0


@pytest.mark.parametrize('does, status, said', [
    ('kill -9 $$', 1, 'tcpsim-debug: the program was ended by signal 9 (Killed)'),
    ('printf "(tcpsim) " >&2; read line; kill -9 $$', 1, 'tcpsim-debug: the program was ended by signal 9 (Killed) and was started again'),
    ('echo no memory >&2; exit 3', 3, 'no memory'),
    ('printf "(tcpsim) " >&2; read line; echo read failed >&2; exit 3', 3, 'read failed')])
def test_a_program_that_ends(terminal, put, does, status, said):
    session = terminal('--program', put('dies', f'#!/bin/sh\n{does}\n', 0o700), TWO)
    assert (session.ended(), said in session.child.before, 'Traceback' in session.child.before) == (status, True, False)


@pytest.mark.parametrize('number, status', [(signal.SIGTERM, 143), (signal.SIGHUP, 129), (signal.SIGKILL, None)])
def test_nobody_is_left_where_it_is_ended(begun, long, number, status):
    for busy in (False, True):
        session = begun(long)
        program = session.process()
        if busy:
            session.begin_long('run')
        session.child.kill(number)
        assert session.ended() == status
        until(lambda: not is_running(program), 'the program runs on')


# ---- what is refused

def test_a_refused_scenario(terminal, put):
    session = terminal(put('wrong.txt', 'sim 01\n'))
    assert session.ended() == 1
    assert session.child.before.splitlines()[:3] == ['refused E4 line 1', 'sim 01', '    ^^']


def test_words_that_are_refused(put):
    for words, status, said in ((['-'], 2, b'standard input has the commands'), ([], 2, b'SCENARIO'), ([TWO, TWO], 2, b''), (['--speed', TWO], 2, b''),
                                (['--program', 'not-there', TWO], 1, b'not-there is no program')):
        done = tool('debug', *words)
        assert (done.returncode, done.stdout, said in done.stderr, done.stderr.count(b'\n')) == (status, b'', True, 1), done


def test_a_file_that_is_not_there(terminal):
    session = terminal('/not/there')
    session.child.expect_exact('tcpsim-debug: /not/there: No such file or directory')
    assert session.ended() == 2


# ---- without a terminal

def test_without_a_terminal_it_is_the_program():
    lines = '\n'.join((*LINES, 'quit', 'step')).encode()
    done = tool('debug', '--program', PROGRAM, TWO, input=lines)
    theirs = subprocess.run([PROGRAM, 'debug', TWO], input=lines, capture_output=True, check=False)
    assert (done.returncode, done.stdout, done.stderr) == (0, theirs.stdout, theirs.stderr)
    assert b'\033' not in done.stdout + done.stderr


def test_output_that_is_no_terminal(tmp_path):
    """Keys of a terminal, and an output that is a file: plain answers."""
    keys, theirs = os.openpty()
    try:
        os.write(keys, b'step 2\nquit\n')
        with open(tmp_path / 'out', 'wb') as out:
            done = tool('debug', '--program', PROGRAM, TWO, stdin=theirs, stdout=out)
    finally:
        os.close(keys)
        os.close(theirs)
    assert (done.returncode, (tmp_path / 'out').read_text()) == (0, at_once(TWO, 'step 2')[0])


# ---- completion

@pytest.fixture(scope='module')
def completion():
    return Completion(Session(FAIR).ask)


COMMANDS = ['step', 'back', 'run', 'reverse', 'until', 'goto', 'where', 'state', 'break', 'breaks', 'delete', 'clear', 'lines', 'display', 'undisplay', 'why',
            'stalls', 'names', 'help', 'quit']
SORTS = ['node', 'flow', 'kind', 'drop', 'link', 'byte']
VALUES = ['cwnd', 'flight', 'ssthresh', 'una', 'nxt', 'rto', 'dups', 'phase', 'next', 'queue', 'wait', 'count', 'time', 'change']
CHANGES = ['cwnd', 'flight', 'ssthresh', 'una', 'nxt', 'rto', 'dups', 'next']
LINKS = ['pq', 'qp', 'sap', 'psa', 'qra', 'raq', 'sbp', 'psb', 'qrb', 'rbq']


@pytest.mark.parametrize('before, words', [
    ('', COMMANDS), ('  ', COMMANDS), ('state ', ['node', 'link', 'flow']), ('sta ', ['node', 'link', 'flow']),
    ('state node ', ['p', 'q', 'sa', 'ra', 'sb', 'rb']), ('state flow ', ['fa', 'fb']), ('state node 1 ', []),
    ('br drop ', [*(it for it in SORTS if it != 'drop'), *VALUES]), ('break flow 1 kind rto ', ['node', 'drop', 'link', 'byte', *VALUES]),
    ('break kind ', ['start', 'rto', 'delack', 'free', 'data', 'ack']), ('break drop kind ', ['start', 'rto', 'delack', 'free', 'data', 'ack']),
    ('break drop link ', LINKS), ('break flow ', ['fa', 'fb']),
    ('break stall ', ['fa', 'fb']), ('break stall 1 ', []), ('break byte ', []), ('why ', ['fa', 'fb']), ('why fa ', []), ('names ', []), ('delete ', ['1', '2']),
    ('help ', ['numbers', 'trace', 'kinds', 'stall', 'values', *COMMANDS]), ('step ', []), ('run ', []), ('until ', []), ('x ', []),
    ('break ', [*SORTS, *VALUES, 'stall']), ('break change ', CHANGES), ('break change cwnd ', ['fa', 'fb']), ('break change rto ', ['fa', 'fb']),
    ('break change cwnd fa ', [*SORTS, *VALUES[:-1]]), ('break phase ', ['ss', 'ca', 'fr']),
    ('break phase fr ', [*SORTS, *(it for it in VALUES if it != 'phase')]), ('break drop phase ', ['ss', 'ca', 'fr']),
    ('break cwnd ', []), ('break cwnd<', []), ('break cwnd < ', []), ('break queue pq ', []), ('break queue pq > ', []), ('break queue pq>', []),
    *((f'break {value} ', [*SORTS, *VALUES[1:]]) for value in ('cwnd<3000', 'cwnd <3000', 'cwnd< 3000', 'cwnd < 3000', 'cwnd>=3000')),
    ('break queue pq>50 ', [*SORTS, *(it for it in VALUES if it != 'queue')]), ('break time>=5s flow ', ['fa', 'fb']),
    ('break flow fa cwnd<3000 change cwnd fa kind rto ', ['node', 'drop', 'link', 'byte', *VALUES[1:-1]]), ('break stall fa ', []),
    ('break drop x ', []), ('goto ', []), ('display ', ['flow', 'link', *VALUES[:-2]]),
    ('display phase ', ['fa', 'fb']), ('display phase fa ', []), ('di flow ', ['fa', 'fb']), ('display queue ', LINKS), ('display queue pq ', []),
    ('undisplay ', []), ('stalls ', [])])
def test_words_that_fit(completion, before, words):
    assert [word for word, _ in completion.words(before, {'breakpoint': ('drop', 'stall fb')})] == words


def test_values_have_their_meaning(completion):
    told = dict(completion.words('break '))
    assert told['rto'] == 'at a sender: how long its retransmission timer runs' and all(told[it] for it in VALUES)
    assert told['flight'] == 'at a sender, of its state: bytes in flight' and told['time'] == 'the moment'
    assert told['wait'] == 'an event that changes link L: how long the first of them has waited'
    assert dict(completion.words('break phase ')) == {'ss': 'slow start', 'ca': 'congestion avoidance', 'fr': 'fast recovery'}
    assert dict(completion.words('break change ')) == {it: told[it] for it in CHANGES}
    told = dict(completion.words('display '))
    assert told['flight'] == 'a value of flow F: bytes in flight' and told['queue'] == 'a value of link L: how many packets wait there'


def test_words_have_their_meaning(completion):
    assert dict(completion.words(''))['why'] == 'tell what flow F waits for'
    assert dict(completion.words('break '))['drop'] == 'a packet is dropped'
    assert dict(completion.words('break kind '))['rto'] == 'the retransmission timer of flow F ends'
    counted = {'breakpoint': ('drop', 'stall fb'), 'display': ('flow fa',)}
    assert completion.words('delete ', counted) == [('1', 'drop'), ('2', 'stall fb')] and completion.words('undisplay ', counted) == [('1', 'flow fa')]
    assert completion.words('why ') == [('fa', 'flow 0'), ('fb', 'flow 1')] and completion.words('break link ')[0] == ('pq', 'link 0')


def test_an_image_has_numbers_that_fit():
    completion = Completion(Session(unnamed(FAIR)).ask)
    assert completion.words('why ') == [('0', ''), ('1', '')]
    assert [word for word, _ in completion.words('')] == COMMANDS


def test_every_word_that_fits_is_taken():
    """No word that is completed as the last is refused."""
    prompt = Prompt([PROGRAM, 'debug'], read(FAIR))
    try:
        completion = Completion(prompt.ask)
        for before in ('state node ', 'state flow ', 'break kind ', 'break flow ', 'break stall ', 'break phase ', 'break change cwnd ',
                       'break change next ', 'break cwnd<3000 phase ', 'display flow ', 'display phase ', 'why ', 'help '):
            for word, _ in completion.words(before):
                assert not prompt.ask(before + word).note, before + word
        # The program expects what has to follow each sort that is offered, and not another sort in its place.
        for before in ('break ', 'break drop ', 'break cwnd<3000 ', 'break queue pq > 5 phase fr ', 'break change cwnd fa kind rto ', 'break change '):
            prompt.ask('clear')
            expected = prompt.ask(before + 'x').note.splitlines()[-1]
            for word, _ in completion.words(before):
                note = prompt.ask(before + word).note
                assert expected not in note and 'stands once' not in note, before + word
    finally:
        prompt.end()


def test_tab(begun):
    session = begun(TWO)
    assert session.complete('rev').endswith('reverse ')
    assert session.complete('stat').endswith('state ') and session.complete('stal').endswith('stalls ')
    assert session.complete('display fli').endswith('display flight ')
    assert session.complete('break ki').endswith('break kind ')
    assert session.complete('break kind del').endswith('break kind delack ')
    session.type('bre\t')
    session.child.expect_exact('breaks  list the breakpoints\r\n' + PROMPT + 'break')
    session.type(' k\tr\tdrop\r')
    assert session.shown() == 'break 2: kind rto drop\n'


def test_the_page(terminal):
    """What docs/DEBUGGING.md shows of Tab is what it shows, line by line, and the list goes on."""
    block = re.search(r'^```\n\$ bin/tcpsim-debug (\S+)\n(.*?)^```$', read_text('docs', 'DEBUGGING.md'), re.M | re.S)
    hint, asked, *listed = block[2].splitlines()
    assert len(listed) > 3 and listed.pop() == '...' and asked.endswith('<Tab>')
    session = terminal(os.path.join(TOP, block[1]))
    assert session.begin().splitlines()[-1] == hint
    session.type(asked.removeprefix(PROMPT).replace('<Tab>', '\t\t'))
    session.child.expect_exact(''.join(f'\r\n{line}' for line in listed))


# ---- what is remembered

def test_history(begun, tmp_path):
    for _ in range(2):
        session = begun(TWO)
        assert session.ask('step 2') == at_once(TWO, 'step 2')[0]
        assert session.ask('step 3') == at_once(TWO, 'step 2', 'step 3')[1]
        assert session.end() == 0
    session = begun(TWO)
    session.type('\x1b[A\x1b[A')        # Up, twice
    assert session.ask('') == at_once(TWO, 'step 2')[0]
    file = tmp_path / '.local' / 'state' / 'tcpsim' / 'debug_history'
    assert file.read_text().splitlines() == ['step 2', 'step 3'] * 2 + ['step 2']
    assert file.stat().st_mode & 0o777 == 0o600


def test_history_stands_where_it_is_wanted_and_may_have_no_place(begun, tmp_path):
    session = begun(TWO, XDG_STATE_HOME=str(tmp_path / 'state'))
    session.ask('step')
    assert (tmp_path / 'state' / 'tcpsim' / 'debug_history').read_text() == 'step\n'
    session = begun(TWO, XDG_STATE_HOME=os.devnull)
    assert session.ask('step') == at_once(TWO, 'step')[0]


# ---- colours and the pager

def test_colours(begun):
    session = begun(TWO, NO_COLOR='')
    moved = session.ask('step 6')
    assert '\033[31mdrop=lost:0:4000\033[0m' in moved and '\033[36mstart\033[0m' in moved
    assert re.sub(r'\033\[\d+m', '', moved) == at_once(TWO, 'step 6')[0]
    assert '\033[31mrefused B1' in session.ask('stpe')
    assert session.ask('display cwnd f') == 'display 1: cwnd f = 5000\n'
    assert session.ask('back').endswith('display 1: cwnd f = 4000\033[1m (was 5000)\033[0m\n')
    session = begun(TWO, NO_COLOR='', TERM='dumb')
    assert '\033' not in session.ask('step 6')


def test_the_pager(begun, put):
    pager = put('pager', '#!/bin/sh\necho paged; cat; echo "so far"\n', 0o700)
    session = begun(TWO, rows=10, PAGER=pager)
    long, short = at_once(TWO, 'help', 'breaks')
    assert session.ask('help') == f'paged\n{long}so far\n'
    assert session.ask('breaks') == short
    session = begun(TWO, rows=10, PAGER='/not/there')
    assert session.ask('help') == long
