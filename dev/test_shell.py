"""Tries the built program from outside: its words, its input, its output, and how it ends. Whole
texts, images and sessions are in test_whole.py, what is at a bound in test_bounds.py, memory that is refused in
test_refused_memory.py."""
import os
import signal
import subprocess
import threading

import pytest

from clone import EXAMPLES, NAMES, PROGRAM, TOP, outcome, paths, ran, read
from tcpsim import VERSIONS
from test_bounds import FIRST, MOST_INPUT

pytestmark = pytest.mark.built
ONE = paths('one_segment')[0]
EXAMPLE, TRACE = map(read, paths('one_segment'))
BY_GROUPS = ('--groups', 'each', '--workers', '2')
TASKS = (('run',), ('asm',), ('dis',), ('figures',), ('run', *BY_GROUPS))
DEBUGS = (('debug',), ('debug', *BY_GROUPS))


def by_shell(script, *words, **more):
    """The status, the note and the output of the program behind a script of sh, or before redirections."""
    script = script if '"$@"' in script else f'exec "$@" {script}'
    done = ran('sh', '-c', script, 'sh', PROGRAM, *words, **more)
    return done.returncode, done.stderr, done.stdout


def told(status, *lines):
    """What a run comes to that writes a note, or none, and nothing else."""
    return status, ''.join(f'{line}\n' for line in lines).encode(), b''


def meaning(code):
    """The line of a code in the list of codes."""
    return next(line for line in outcome(['explain'])[2].decode().splitlines() if line.startswith(f'{code}: '))


# ---- the words

HELP = '''Simulate TCP flows through bottlenecks, packet by packet

Usage: tcpsim <COMMAND>

Commands:
  asm      Write the image of a scenario
  dis      Write the canonical text of a scenario
  run      Run a scenario and print its trace
  figures  Run a scenario and print its figures, as comma-separated values
  debug    Walk through a run by commands, forwards and backwards
  explain  Say what a code means, with an example, or list all codes

Options:
  -h, --help     Print help
  -V, --version  Print version
'''
USAGE = '''{what}

Usage: tcpsim {word} [OPTIONS] [FILE]

Arguments:
  [FILE]  {file}

Options:
'''
FILE = 'The scenario\'s file; without it, or where it is -, standard input'
SESSION_FILE = 'The scenario\'s file, and commands are typed; without it, or where it is -, standard input has both'
OPTIONS = '''      --workers <N>  Workers for --groups, 1 to 64; they pay where a window holds thousands of events, and else may take half \
again as long [default: 1]
      --groups <G>   The group of each node: one, each, auto, or numbers as in 0,0,1 [default: one]
'''
PROGRESS = '      --progress     Say on standard error how far the run is\n'
FLAGS = '''      --explain      Show on standard error why an input is refused
  -h, --help         Print help
'''
# The same beside an option of eleven letters, as figures has one.
NARROW = '''      --from <T>   Count from this moment on, as 1.5s, 20ms or 10000ns
      --every <D>  Print rows by time behind the table, a row a figure, in steps as 1.5s or 20ms
      --series     Print the rows of --every without the table
      --names      Print the names of a text's flows and links in a last column
''' + ''.join(line[:17] + line[19:] for line in (PROGRESS + FLAGS).splitlines(keepends=True))
PLAIN = '''      --explain  Show on standard error why an input is refused
  -h, --help     Print help
'''
EXPLAIN = '''{what}

Usage: tcpsim explain [CODE]

Arguments:
  [CODE]  The code, as it stands behind `refused`

Options:
  -h, --help  Print help
'''
HELPS = (
    ('asm', USAGE, FILE, PLAIN), ('dis', USAGE, FILE, PLAIN), ('run', USAGE, FILE, OPTIONS + PROGRESS + FLAGS),
    ('figures', USAGE, FILE, NARROW), ('debug', USAGE, SESSION_FILE, OPTIONS + FLAGS), ('explain', EXPLAIN, '', ''))


@pytest.mark.parametrize('flag', ['--help', '-h'])
def test_help(flag):
    assert outcome([flag], EXAMPLE) == (0, b'', HELP.encode())
    for word, form, file, options in HELPS:
        what = next(line.split(None, 1)[1] for line in HELP.splitlines() if line.startswith(f'  {word} '))
        wanted = form.format(word=word, what=what, file=file) + options
        assert outcome([word, flag], EXAMPLE) == (0, b'', wanted.encode())


def test_version():
    for flag in ('--version', '-V'):
        assert outcome([flag], EXAMPLE) == (0, b'', b'tcpsim %s\n' % VERSIONS.encode())


def unexpected(word, is_option=True):
    tip = f"\n\n  tip: to pass '{word}' as a value, use '-- {word}'" if is_option else ''
    return f"unexpected argument '{word}' found{tip}"


# Words that are refused whatever the input is, of which command the usage is shown, and what is said.
MISTAKEN = (
    ((), None, "'tcpsim' requires a subcommand but one was not provided\n  [subcommands: asm, dis, run, figures, debug, explain]"),
    (('verify',), None, "unrecognized subcommand 'verify'"), (('help',), None, "unrecognized subcommand 'help'"),
    (('--fast', 'run'), None, unexpected('--fast', False)), (('asm', '--workers', '2'), 'asm', unexpected('--workers')),
    (('dis', '--groups', 'each'), 'dis', unexpected('--groups')), (('figures', '--groups', 'each'), 'figures', unexpected('--groups')),
    (('run', ONE, 'twice'), 'run', unexpected('twice', False)), (('asm', ONE, 'twice'), 'asm', unexpected('twice', False)),
    (('debug', 'file', 'other'), 'debug', unexpected('other', False)), (('dis', '--fast'), 'dis', unexpected('--fast')),
    (('run', '--version'), 'run', unexpected('--version')), (('explain', 'E1', 'E2'), 'explain', unexpected('E2', False)),
    (('debug', '--progress'), 'debug', unexpected('--progress')), (('figures', ONE, 'twice'), 'figures', unexpected('twice', False)),
    (('run', '--explain', '--explain'), 'run', "the argument '--explain' cannot be used multiple times"),
    (('run', '--names'), 'run', unexpected('--names')), (('debug', '--every', '1s'), 'debug', unexpected('--every')),
    (('figures', '--series', '--series'), 'figures', "the argument '--series' cannot be used multiple times"))
# Values that are refused.
VALUES = (
    (('--workers', '0'), "invalid value '0' for '--workers <N>': 0 is not in 1..=64"),
    (('--workers', '65'), "invalid value '65' for '--workers <N>': 65 is not in 1..=64"),
    (('--workers=x',), "invalid value 'x' for '--workers <N>': invalid digit found in string"),
    (('--workers',), "a value is required for '--workers <N>' but none was supplied"))
MORE = "For more information, try '--help'."


@pytest.mark.parametrize('words, command, says', MISTAKEN)
def test_mistaken_words(words, command, says):
    usage = {None: '<COMMAND>', 'explain': 'explain [CODE]'}.get(command, f'{command} [OPTIONS] [FILE]')
    wanted = told(2, f'error: {says}', '', f'Usage: tcpsim {usage}', '', MORE)
    assert outcome(words, EXAMPLE) == wanted
    assert by_shell('<&-', *words) == wanted


@pytest.mark.parametrize('word', ['run', 'debug'])
@pytest.mark.parametrize('option, says', VALUES)
def test_mistaken_values(word, option, says):
    wanted = told(2, f'error: {says}', '', MORE)
    assert outcome([word, *option], EXAMPLE) == wanted
    assert by_shell('<&-', word, *option) == wanted


def test_words_that_are_no_text():
    for words in ((b'r\xffn',), ('run', b'\x80')):
        assert outcome(words, EXAMPLE) == told(2, 'error: a word is not valid UTF-8')


# ---- a code

def test_codes():
    none = told(2, 'error: no such code; there are E1 to E10, L1 to L8, I1, B1 to B5, M and groups')
    for code in ('E0', 'E11', 'e1', 'E', '1', '', 'E1:', 'L9', 'B6', 'group'):
        assert outcome(['explain', code], EXAMPLE) == none
    status, note, codes = by_shell('<&-', 'explain')
    assert (status, note, codes.count(b'\n')) == (0, b'', 26)
    for code in ('E1', 'E10', 'L8', 'groups'):
        assert by_shell('<&-', 'explain', code)[2].decode().splitlines()[0] == meaning(code)
    assert by_shell('> /dev/full', 'explain', 'E4') == told(3, 'write failed')


# ---- a file in the place of standard input

@pytest.mark.parametrize('words', TASKS)
def test_a_file(words, put, tmp_path):
    wanted = outcome(words, EXAMPLE)
    assert wanted[:2] == (0, b'')
    assert outcome([*words, '-'], EXAMPLE) == wanted
    for file in (ONE, put('one scenario.txt', EXAMPLE)):
        assert outcome([*words, file], EXAMPLE) == outcome([*words, file], b'') == by_shell('<&-', *words, file) == wanted
    for file in (tmp_path / 'none', tmp_path, tmp_path / 'none' / 'none', ''):
        assert outcome([*words, str(file)], EXAMPLE) == told(3, f'cannot read {file}')


def test_names(put, tmp_path):
    """A control character of a name, an escape among them, is shown as a question mark, and any other character as it is."""
    put('--workers', EXAMPLE)
    name = os.fsencode(tmp_path) + b'/no\033[31mne\177\302\205\t\303\251'
    assert outcome(['run', name]) == told(3, f'cannot read {tmp_path}/no?[31mne???é')
    assert outcome(['run', '--', '--workers'], cwd=tmp_path) == (0, b'', TRACE)
    assert outcome(['run', './-'], cwd=tmp_path) == told(3, 'cannot read ./-')
    assert outcome(['run', put('first.tcb', outcome(['asm', ONE])[2])]) == (0, b'', TRACE)


def test_a_pipe_with_a_name(tmp_path):
    pipe = tmp_path / 'pipe'
    os.mkfifo(pipe)
    for data, wanted in ((EXAMPLE, (0, b'', TRACE)), (b'', told(1, 'refused E10 line 0'))):
        writer = threading.Thread(target=pipe.write_bytes, args=(data,))
        writer.start()
        assert outcome(['run', str(pipe)]) == wanted
        writer.join()


def test_files_at_the_bound(put):
    most = EXAMPLE.ljust(MOST_INPUT + 1, b'\n')
    assert outcome(['run', put('most', most)]) == told(1, 'refused I1')
    assert outcome(['run', put('much', most[:-1])]) == (0, b'', TRACE)
    assert outcome(['run', put('text', 'sim 01\n')]) == told(1, 'refused E4 line 1')


def test_words_before_files_before_groups(tmp_path):
    none = str(tmp_path / 'none')
    assert outcome(['run', '--workers', '0', none])[0] == 2
    assert outcome(['run', '--groups', '0', none]) == told(3, f'cannot read {none}')


# ---- how far a run is, and why an input is refused

LAST = '100 % of 1 s simulated, 5 events'


@pytest.mark.parametrize('words', [('run', '--progress'), ('run', '--progress', '--groups', 'auto', '--workers', '4'),
                                   ('run', '--progress', *BY_GROUPS), ('figures', '--progress')])
def test_progress(words):
    out = outcome([words[0], ONE])[2]
    status, note, found = outcome([*words, ONE])
    assert (status, found, note.decode().replace('\r', '\n').splitlines()[-1]) == (0, out, LAST)
    assert by_shell('2>&-', *words, ONE) == (0, b'', out)


def test_a_note_behind_the_progress():
    status, note, _ = by_shell('> /dev/full', 'run', '--progress', ONE)
    assert (status, note.splitlines()[-1]) == (3, b'write failed')


WRONG = b'sim 5\nnode s sendr\n'


def test_explain_shows_the_place(put):
    kinds = 'the kind of a node is sender, receiver or router'
    wanted = told(1, 'refused E4 line 2', 'node s sendr', '       ^^^^^', kinds, meaning('E4'))
    for word in ('run', 'asm', 'dis', 'figures'):
        assert outcome([word, '--explain', put('text', WRONG)]) == wanted
        assert outcome([word, '--explain'], EXAMPLE) == outcome([word], EXAMPLE)
        assert outcome([word], EXAMPLE)[:2] == (0, b'')
    assert outcome(['debug', '--explain', put('text', WRONG)], EXAMPLE) == wanted
    assert outcome(['debug', '--explain'], WRONG + b'---\nsim\n') == wanted


def test_explain_of_groups_and_of_great_inputs(put):
    wanted = told(2, 'refused groups', 'groups that are given: 3; nodes: 2', meaning('groups'))
    most, much = (put(name, bytes(size)) for name, size in (('most', MOST_INPUT + 1), ('much', MOST_INPUT)))
    for word in ('run', 'debug'):
        assert outcome([word, '--explain', '--groups', '0,1,1', ONE], EXAMPLE) == wanted
        assert outcome([word, '--explain', most], EXAMPLE) == told(1, 'refused I1', meaning('I1'))
    status, note, _ = outcome(['run', '--explain', much])
    assert (status, note.splitlines()[0]) == (1, b'refused E1 line 1')
    assert len(note) < 1000


# ---- the input

@pytest.mark.parametrize('name', NAMES)
def test_examples(name):
    """Each goes to its image, from there to its canonical text and back, and runs as before. By whatever groups and workers
    the trace is the stored one; by many workers a window costs as many threads, so the larger are run by one."""
    scenario, stored = map(read, paths(name))
    right, (image, canonical) = (0, b'', stored), (outcome([word], scenario)[2] for word in ('asm', 'dis'))
    assert canonical == outcome(['dis'], image)[2]
    for data in (image, canonical):
        assert (outcome(['asm'], data), outcome(['dis'], data)) == ((0, b'', image), (0, b'', canonical))
    assert outcome(['run'], scenario) == outcome(['run'], image) == right
    for workers in ('1', '2', '4', '64') if len(stored) <= 20_000 else ('1',):
        assert outcome(['run', '--groups', 'each', '--workers', workers], scenario) == right
    for workers in ('1', '2', '4', '64'):
        assert outcome(['run', '--groups', 'auto', '--workers', workers, paths(name)[0]]) == right


def test_a_file_as_standard_input_at_the_bound(put):
    for size, wanted in ((MOST_INPUT, 'refused E10 line 0'), (MOST_INPUT + 1, 'refused I1')):
        with open(put('feeds', b'\n' * size), 'rb') as file:
            assert by_shell('', 'run', stdin=file) == told(1, wanted)


@pytest.mark.parametrize('words', [('asm',), ('dis',), ('run',), ('figures',), ('debug',)])
def test_inputs_that_are_none(words):
    assert by_shell('<&-', *words) == told(3, 'read failed')
    assert by_shell(f'< {TOP}', *words) == told(3, 'read failed')
    assert outcome(words, b'') == told(1, 'refused E10 line 0')


# ---- workers and groups

def test_groups_before_and_behind_the_input():
    assert outcome(['run', '--groups', 'auto', '--workers', '4'], EXAMPLE) == (0, b'', TRACE)
    for word in ('run', 'debug'):
        for groups in ('0', '0,1,2', '0,64', '0,01', '0,', '', 'ones'):
            assert outcome([word, '--groups', groups], EXAMPLE) == told(2, 'refused groups')
        assert by_shell('<&-', word, '--groups', '0') == told(3, 'read failed')


# ---- debugging; what commands are answered test_prompt.py knows

def commands(name):
    return read(os.path.join(EXAMPLES, f'{name}.commands'))


def test_hunts_by_groups():
    for name in ('two_timeouts_in_a_row', 'codel_enters_drop_state'):
        session = read(paths(name)[0]) + b'---\n' + commands(name)
        wanted = outcome(['debug'], session)
        assert wanted[:2] == (0, b'') and wanted[2]
    for options in ('--groups each --workers 1', '--groups each --workers 4', '--workers 64 --groups 1,0'):
        assert outcome(['debug', *options.split()], session) == wanted


def test_a_hunt_at_the_prompt():
    """A prompt before each line, and the same answers whatever the options say."""
    name = 'two_timeouts_in_a_row'
    scenario, lines = paths(name)[0], commands(name)
    answers = outcome(['debug', scenario], lines)[2]
    assert answers
    for options in ((), BY_GROUPS):
        assert outcome(['debug', scenario, *options], lines) == (0, b'(tcpsim) ' * (lines.count(b'\n') + 1), answers)
        # The file does not take the place of a standard input that is closed: no line of it is a command.
        assert by_shell('<&-', 'debug', ONE, *options) == (3, b'(tcpsim) read failed\n', b'')
    assert outcome(['debug', '/none'], EXAMPLE) == told(3, 'cannot read /none')
    assert outcome(['debug'], b'TCB\n---\n') == told(1, 'refused E2 line 1')


# ---- the output

# 200,000 segments without a loss: the start, and four events for each segment.
LONG = b'''sim 1000000000000000
node s sender
node r receiver
link a s r 8000000000 1000000 droptail 100
link b r s 8000000000 1000000 droptail 100
flow f s r 1000 200000 0 64000 0
'''
# The first dump, 500 times.
DUMPS = FIRST + b'---\n' + b'state\n' * 500
DUMP = b'''at 0
node 0 sender 0 una=0 nxt=0 high=0 cwnd=4000 ssthresh=64000 dups=0 lt=0 fr=0 timing=- srtt=- rttvar=0 rto=1000000000 resent=0
node 1 receiver 0 next=0 held=-
link 0 offered=0 sent=0 queue=-
link 1 offered=0 sent=0 queue=-
event 0 0 0 0 start 0
'''
LIMITED = 'ulimit -v 32768; exec "$@"'


def test_memory_does_not_grow_with_the_run():
    status, note, out = by_shell(LIMITED, 'run', input=LONG)
    assert (status, note, out[-11:]) == (0, b'', b'end 800001\n')
    status, note, out = by_shell(LIMITED, 'figures', input=LONG)
    assert (status, note, out.count(b'\n')) == (0, b'', 42)
    assert set(out.splitlines()) >= {b'flow,0,delivered,bytes,200000000', b'link,0,sent packets,packets,200000', b'link,1,sent bytes,bytes,8000000',
                                b'run,,events,events,800001'}


@pytest.mark.parametrize('words, data, out', [(('run',), FIRST, TRACE), (('run', *BY_GROUPS), FIRST, TRACE),
                                              *((words, DUMPS, DUMP * 500) for words in DEBUGS)],
                         ids=['run', 'run by groups', 'debug', 'debug by groups'])
def test_a_pipe_that_gives_one_byte_at_a_time(words, data, out, put):
    script = f'dd bs=1 if={put("input", data)} 2> /dev/null | "$@"'
    assert by_shell(script, *words) == (0, b'', out)


@pytest.mark.parametrize('words', [*TASKS, ('--help',), ('--version',), *DEBUGS])
def test_what_cannot_be_written(words):
    data = DUMPS if words in DEBUGS else EXAMPLE
    for where in ('> /dev/full', '>&-'):
        assert by_shell(where, *words, input=data) == told(3, 'write failed')


@pytest.mark.parametrize('words', [('run',), ('run', *BY_GROUPS), *DEBUGS])
def test_a_reader_that_has_seen_enough(words, put):
    """A pipe whose reader ends after 1,000 bytes, with the signal for that at its default."""
    data, begin = (DUMPS, (DUMP * 500)[:1000]) if words in DEBUGS else (LONG, None)
    with open(put('input', data), 'rb') as file, subprocess.Popen(
            [PROGRAM, *words], stdin=file, stdout=subprocess.PIPE, stderr=subprocess.PIPE, bufsize=0) as process:
        found = b''
        while len(found) < 1000:
            found += process.stdout.read(1000 - len(found))
        process.stdout.close()
        assert (process.stderr.read(), process.wait()) == (b'write failed\n', 3)
    assert found == (begin or outcome(['run'], LONG.replace(b'200000 0', b'2000 0'))[2][:1000])


def test_closed_ends():
    """No file takes the place of a standard output that is closed, whatever else is, nor does a note go to it."""
    for words in TASKS:
        assert by_shell('<&- >&-', *words, ONE) == told(3, 'write failed')
        assert by_shell('<&- >&- 2>&-', *words, ONE) == told(3)
    assert by_shell('<&- 2>&-', 'run', ONE) == (0, b'', TRACE)
    assert by_shell('2>&-', 'run') == told(1)


def test_a_limit_on_the_size_of_files(tmp_path):
    """It ends the program by a signal, and where that is ignored as any write that fails."""
    limited = f'ulimit -f 8; exec "$@" > {tmp_path}/limited'
    assert by_shell(limited, 'run', input=LONG) == told(-signal.SIGXFSZ)
    assert by_shell(f"trap '' XFSZ; {limited}", 'run', input=LONG) == told(3, 'write failed')
