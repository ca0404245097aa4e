"""tcpsim's model: reads a scenario, writes standard output, a note on standard error, a status.

Usage: tcpsim-model run|debug [--workers N] [--groups G] [--explain] [FILE]
       tcpsim-model figures [--from T] [--every D [--series]] [--names] [--explain] [FILE]
       tcpsim-model asm|dis [--explain] [FILE]
       tcpsim-model debug [--workers N] [--groups G] [--explain] FILE

The scenario is the file's, or where none is named standard input's. Where `debug` has a file, standard input has lines
typed at a prompt.

  --workers N  from 1 to 64; it changes nothing
  --groups G   one, each, auto, or a number for each node, with commas between them; it changes nothing
  --from T     counts from this moment on, as 1.5s, 20ms or 10000ns
  --every D    rows by time behind the table, in steps as 1.5s or 20ms
  --series     these rows without the table
  --names      the names of a text's flows and links in a last column
  --explain    shows on standard error why an input is refused, as on a terminal
  --help       show this
"""
import io
import os
import re
import signal
import sys
from collections import namedtuple

from tcpsim_model import grammar, prompt, reasons
from tcpsim_model.debugger import session, split
from tcpsim_model.figures import are_too_many, figures, names_of, series
from tcpsim_model.image import load, save
from tcpsim_model.scenario import Refused
from tcpsim_model.simulate import trace
from tcpsim_model.text import NUMBER, assemble, disassemble

MOST_INPUT = 16_777_216
GROUP = re.compile(r'0|[1-9][0-9]?')
OPTIONS = {'run': ('--workers', '--groups'), 'debug': ('--workers', '--groups'), 'figures': ('--from', '--every')}
FLAGS = {'figures': ('--series', '--names')}
EXPLAIN = '--explain'       # a flag of every command
# What the system calls a failure to read a file.
SYSTEM_WORDS = {FileNotFoundError: 'No such file or directory', PermissionError: 'Permission denied', IsADirectoryError: 'Is a directory',
                NotADirectoryError: 'Not a directory'}
# What is said of words that are judged behind the input.
NO_MOMENT = 'error: --from takes a moment, as 1.5s, 20ms or 10000ns'
NO_STEP = 'error: --every takes a time above 0, as 1.5s or 20ms, and --series wants --every'
TOO_MANY_ROWS = 'error: more than 10000000 rows; --every takes a longer step'
BEHIND_INPUT = 'refused groups', NO_MOMENT, NO_STEP, TOO_MANY_ROWS


class WrongWords(Exception):
    """A command line that can't be read: a note, and why, some lines that are shown behind it."""

    def __init__(self, note='', why=''):
        super().__init__(note)
        self.why = why


class CannotRead(WrongWords):
    """A file that cannot be read."""


Asked = namedtuple('Asked', 'command groups file begin every flags')


def options_of(words):
    """What the words ask for: the subcommand, the groups, the file, the moment from which on is counted,
    the length of a step, and the flags."""
    if not words or words[0] not in ('run', 'asm', 'dis', 'figures', 'debug'):
        raise WrongWords
    command, rest, given, file = words[0], list(words[1:]), {}, None
    while rest:
        word = rest.pop(0)
        if file is None and (word == '-' or not word.startswith('-')):
            file = word
            continue
        name, _, value = word.partition('=')
        flag = word in (*FLAGS.get(command, ()), EXPLAIN)
        if not flag and name not in OPTIONS.get(command, ()):
            raise unexpected(command, word)
        if name in given:
            raise WrongWords
        if not value and not flag:
            if rest and is_unexpected(command, rest[0]):
                raise unexpected(command, rest[0])
            if not rest or rest[0].startswith('-') and rest[0] != '-':
                raise WrongWords
            value = rest.pop(0)
        given[name] = value
    workers = given.get('--workers', '1')
    if not NUMBER.fullmatch(workers.encode()) or not 1 <= int(workers) <= 64:
        raise WrongWords
    return Asked(command, given.get('--groups', 'one'), None if file == '-' else file, given.get('--from', '0'),
                 given.get('--every'), given.keys() & {*FLAGS.get(command, ()), EXPLAIN})


def is_unexpected(command, word):
    """Whether a word is an option that the subcommand has not."""
    return word.startswith('-') and word != '-' and word.partition('=')[0] not in (*OPTIONS.get(command, ()), *FLAGS.get(command, ()), EXPLAIN)


def unexpected(command, word):
    """What a subcommand is refused for that has an option of which it does not know."""
    if not word.startswith('-') or word in ('-h', '--help', '-V', '--version', '--'):
        return WrongWords()
    option = word.partition('=')[0] if word.startswith('--') else word[:2]
    return WrongWords(f"error: unexpected argument '{option}' found\n\n  tip: to pass '{option}' as a value, use '-- {option}'\n\n"
                      f"Usage: tcpsim {command} [OPTIONS] [FILE]\n\nFor more information, try '--help'.")


def check_groups(groups, nodes):
    """Groups are `one`, `each`, `auto`, or one number from 0 to 63 for each node."""
    if groups in ('one', 'each', 'auto'):
        return True
    numbers = groups.split(',')
    return len(numbers) == nodes and all(GROUP.fullmatch(n) and int(n) <= 63 for n in numbers)


def moment_of(word, note):
    """The moment that a word names; it is judged behind the input, as groups are."""
    try:
        return grammar.time_in(word.encode())
    except Refused:
        raise WrongWords(note) from None


def pieces_of_figures(asked, scenario):
    """The table of a scenario's figures, its rows by time, or both."""
    begin, alone = moment_of(asked.begin, NO_MOMENT), '--series' in asked.flags
    step = 0 if asked.every is None else moment_of(asked.every, NO_STEP)
    if not step and (alone or asked.every is not None):
        raise WrongWords(NO_STEP)
    if step and are_too_many(scenario, begin, step):
        raise WrongWords(TOO_MANY_ROWS)
    names = names_of(scenario) if '--names' in asked.flags else None
    if not alone:
        yield figures(scenario, begin, names)
    if step:
        yield from series(scenario, begin, step, names)


def read(data):
    """An image begins with `TCB`, any other input is a text."""
    return load(data) if data.startswith(b'TCB') else assemble(data)


def scenario_of(asked, data):
    """The scenario that is read from the bytes, which the groups have to fit."""
    if len(data) > MOST_INPUT:
        raise Refused('I1')
    whole = asked.command == 'debug' and asked.file is None
    scenario = assemble(split(data)[0]) if whole else read(data)
    if not check_groups(asked.groups, len(scenario.nodes)):
        raise WrongWords('refused groups', reasons.of_groups(asked.groups, len(scenario.nodes)))
    return scenario


def output(asked, data):
    """The bytes that the command writes, piece by piece; of `debug` those of a text with commands behind it."""
    scenario = scenario_of(asked, data)
    if asked.command == 'asm':
        yield save(scenario)
    elif asked.command == 'dis':
        yield disassemble(scenario)
    else:
        texts = {'run': lambda: trace(scenario), 'debug': lambda: session(data), 'figures': lambda: pieces_of_figures(asked, scenario)}
        for piece in texts[asked.command]():
            yield piece.encode()


def contents(path):
    try:
        with open(path, 'rb') as file:
            return file.read()
    except OSError as error:
        why = next((told for kind, told in SYSTEM_WORDS.items() if isinstance(error, kind)), '')
        raise CannotRead(f'cannot read {path}', f'{why}\n' * bool(why)) from error


def lines_typed(keys):
    """The lines of a file, each read when it is asked for; the last may lack its line feed."""
    for line in iter(keys.readline, b''):
        yield line.removesuffix(b'\n')


def main(words, keys, write, tell=lambda note: None, contents=contents, explains=False):
    """Status and note; `write` takes the output, `tell` what is noted at a prompt. Standard input is `keys`, bytes or
    a file. With `explains` a refusal is explained though the words do not wish it."""
    data = b''
    try:
        asked = options_of(words)
        explains = explains or EXPLAIN in asked.flags
        keys = io.BytesIO(keys) if isinstance(keys, bytes) else keys
        data = keys.read() if asked.file is None else contents(asked.file)
        if asked.file is None or asked.command != 'debug':
            for piece in output(asked, data):
                write(piece)
        else:
            for piece, note in prompt.typed(scenario_of(asked, data), lines_typed(keys)):
                write(piece.encode())
                tell(note.encode())
    except WrongWords as wrong:
        note = str(wrong) or __doc__.strip()
        return 3 if isinstance(wrong, CannotRead) else 2, explained(note, explains, lambda: wrong.why)
    except Refused as refusal:
        text = split(data)[0] if asked.command == 'debug' and asked.file is None else data
        return 1, explained(refusal.note(), explains, lambda: reasons.reason(text, refusal))
    return 0, ''


def explained(note, explains, why):
    """A note, and behind it what explains it, if that is wished."""
    return f'{note}\n{why()}'.rstrip('\n') if explains else note


def at_once(file):
    def put(piece):
        file.write(piece)
        file.flush()
    return put


def command():
    """The words, standard input and the outputs of this process; answers the status. A signal ends it as it ends the
    program, and what cannot be written is told as the program does."""
    signal.signal(signal.SIGINT, signal.SIG_DFL)
    out, err = sys.stdout.buffer, sys.stderr.buffer
    try:
        # Not a byte more of standard input is read than a line is long.
        with open(0, 'rb', buffering=0, closefd=False) as standard_input:
            write = at_once(out) if sys.argv[1:2] == ['debug'] else out.write
            status, note = main(sys.argv[1:], standard_input, write, at_once(err), explains=os.isatty(2))
        out.flush()
    except OSError:
        os.dup2(os.open(os.devnull, os.O_WRONLY), out.fileno())     # what is held is not tried again
        status, note = 3, 'write failed'
    if note:
        print(note, file=sys.stderr)
    return status


if __name__ == '__main__':
    sys.exit(command())
