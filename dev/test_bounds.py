"""Tries the built program at the bounds of what it takes: texts and images cut at each byte, every number
at its least and greatest and one past each, as many records as there may be and one more, great inputs that
are refused, and a reader and a writer that fail at each call.

What is expected stands in the tables below, worked out by hand from docs/FORMATS.md, or in the tables of that page; faults of
lines, of fields and of counts are in test_whole.py. The model of python/tcpsim_model answers every input besides, where its
table is by hand, or says alone what is expected.
"""
import itertools
import os
import re
import resource
import signal
import struct
import subprocess
import time
import typing

import pytest

import clone
from tcpsim import VERSIONS
from clone import PROGRAM, read, read_text, side_by_side
from tcpsim_model import command_line
from tcpsim_model.image import places
from whole import images, texts

pytestmark = pytest.mark.built
MOST_INPUT = 16_777_216     # bytes
RIGHT = 'right'

FIRST = ''.join(f'{line}\n' for line in texts.LINES).encode()
# The same in its canonical text, its image, and that of version 1, which says nothing of a flow's variant.
CANONICAL, IMAGE, OLD_IMAGE = images.FIRST_AGAIN.encode(), images.FIRST_IMAGE, images.IN_VERSION_1
# With routers, CoDel, routes and lost packets.
FULL = b'''sim 1000000000
node s sender
node p router
node r receiver
link a s p 8000000 1000000 droptail 10
link b p r 8000000 1000000 codel 10 5000000 100000000 1500
link c r p 8000000 1000000 droptail 10
link d p s 8000000 1000000 droptail 10
flow f s r 1000 4 5 64000 40000000 newreno iw10
route p r b
route p s d
lose a 2
lose b 1
lose b 3
'''
BY_TIME = '--every', '2ms', '--series'
COMMANDS = b'---\nbreak kind data\nstate\nstep 1\nbak\n'


class Answer(typing.NamedTuple):
    """What a run came to."""
    status: int
    out: bytes
    note: str


def run(words, data, before=None, **more):
    status, note, out = clone.outcome(words, data, preexec_fn=before, env={'PATH': '/usr/bin:/bin', 'LC_ALL': 'C', **more})
    return Answer(status, out, note.decode(errors='replace'))


def model(words, data):
    written = []
    status, note = command_line.main(words, data, written.append)
    return Answer(status, b''.join(written), note + '\n' if note else '')


def refused(fault):
    return Answer(1, b'', f'refused {fault}\n')


def replaced(text, number, line):
    """The text with another line of this number, counted from 1, or with one more."""
    lines = text.splitlines(keepends=True)
    lines[number - 1:number] = [line.encode() + b'\n']
    return b''.join(lines)


def all_expected(cases):
    """Each case, a name, words, input and answer: the program comes to it, and the model."""
    cases = list(cases)
    assert cases
    for (name, words, data, wanted), found in zip(cases, side_by_side(run, [case[1:3] for case in cases])):
        assert found == wanted, (name, words)
        if len(data) < 1_000_000:
            assert model(words, data) == wanted, (name, words, 'the model')


def like_the_model(cases):
    """Each case, a name, words and input: the program comes to what the model comes to. Answers all the
    model's."""
    cases = list(cases)
    wanted = [model(*case[1:]) for case in cases]
    for (name, words, _), of_model, found in zip(cases, wanted, side_by_side(run, [case[1:] for case in cases])):
        assert found == of_model, (name, words)
    return wanted


# ---- cut

# How many bytes of FIRST are left, from and to, and what it then comes to.
CUT = (
    (0, 0, 'E10 line 0'), (1, 2, 'E2 line 1'), (3, 4, 'E3 line 1'), (5, 15, 'L3 line 0'),
    (16, 18, 'E2 line 2'), (19, 22, 'E3 line 2'), (23, 27, 'E4 line 2'), (28, 29, 'L3 line 0'),
    (30, 32, 'E2 line 3'), (33, 36, 'E3 line 3'), (37, 43, 'E4 line 3'), (44, 45, 'L3 line 0'),
    (46, 48, 'E2 line 4'), (49, 81, 'E3 line 4'), (82, 84, 'L3 line 0'),
    (85, 87, 'E2 line 5'), (88, 120, 'E3 line 5'), (121, 123, 'L3 line 0'),
    (124, 126, 'E2 line 6'), (127, 149, 'E3 line 6'), (150, 151, RIGHT),
)


def test_a_cut_text_has_its_fault_or_runs():
    trace = Answer(0, read('examples', 'one_segment.trace'), '')
    cases = [(size, ('run',), FIRST[:size], trace if code == RIGHT else refused(code))
             for least, most, code in CUT for size in range(least, most + 1)]
    assert [case[0] for case in cases] == list(range(len(FIRST) + 1))
    all_expected(cases)


def test_a_byte_out_of_range_is_told_by_its_line():
    all_expected(
        ((at, byte), ('run',), FIRST[:at] + byte + FIRST[at + 1:], refused(f'E1 line {1 + FIRST[:at].count(10)}'))
        for at in range(len(FIRST)) for byte in (b'\0', b'\t', b'\r', b'\x1f', b'\x7f', b'\x80', b'\xff'))


def test_a_cut_image_has_too_few_bytes():
    for data in (IMAGE, OLD_IMAGE, image_of(FULL)):
        all_expected(
            (size, ('run',), data[:size],
             refused('E10 line 0' if size == 0 else 'E2 line 1' if size < 3 else 'L1'))
            for size in range(len(data)))


def test_bytes_left_over():
    for data in (IMAGE, OLD_IMAGE, image_of(FULL)):
        all_expected((more, (words,), data + more, refused('L4'))
                     for more in (b'\0', b'\n', data) for words in ('asm', 'dis', 'run'))


def image_of(text):
    return run(('asm',), text).out


# ---- numbers

# A number's name on the page, and the statement in which it stands, with the number left open.
PLACES = {
    'END': (1, 'sim {}'),
    'RATE': (4, 'link l0 n0 n1 {} 1000000 droptail 10'),
    'DELAY': (4, 'link l0 n0 n1 8000000 {} droptail 10'),
    'CAP': (4, 'link l0 n0 n1 8000000 1000000 droptail {}'),
    'TARGET': (4, 'link l0 n0 n1 8000000 1000000 codel 10 {} 100000000 1500'),
    'INTERVAL': (4, 'link l0 n0 n1 8000000 1000000 codel 10 5000000 {} 1500'),
    'MAXPACKET': (4, 'link l0 n0 n1 8000000 1000000 codel 10 5000000 100000000 {}'),
    'MSS': (6, 'flow f0 n0 n1 {} 1 0 64000 0 reno iw3'),
    'SEGMENTS': (6, 'flow f0 n0 n1 1000 {} 0 64000 0 reno iw3'),
    'START': (6, 'flow f0 n0 n1 1000 1 {} 64000 0 reno iw3'),
    'RWND': (6, 'flow f0 n0 n1 1000 1 0 {} 0 reno iw3'),
    'DELACK': (6, 'flow f0 n0 n1 1000 1 0 64000 {} reno iw3'),
    'NUMBER': (7, 'lose l0 {}'),
}
# Where the numbers stand in the image of a text whose first link has CoDel, and their bytes.
FIELDS = {
    'END': (4, 8), 'RATE': (28, 8), 'DELAY': (36, 8), 'CAP': (45, 2), 'TARGET': (47, 8), 'INTERVAL': (55, 8),
    'MAXPACKET': (63, 2), 'MSS': (112, 2), 'SEGMENTS': (114, 4), 'START': (118, 8), 'RWND': (126, 4),
    'DELACK': (130, 4),
}
CODEL = replaced(CANONICAL, 4, 'link l0 n0 n1 8000000 1000000 codel 10 5000000 100000000 1500')
LATEST = replaced(CANONICAL, 1, 'sim 1000000000000000')


def number_table():
    """The least and the greatest of each number, as docs/FORMATS.md has them; RWND's least is the MSS of the
    texts here."""
    page = read_text('docs', 'FORMATS.md')
    table = page.partition('| Number | Least | Greatest |\n')[2].partition('\n\n')[0]
    rows = re.findall(r'^\| ([A-Z, ]+)[^|]*\| ([\dMS,]+)[^|]*\| ([\d,]+)[^|]*\|$', table, re.M)
    for names, least, greatest in rows:
        for name in names.replace(',', ' ').split():
            yield name, 1000 if least == 'MSS' else int(least.replace(',', '')), int(greatest.replace(',', ''))


def test_the_page_has_every_number():
    assert [name for name, _, _ in number_table()] == list(PLACES)


def test_numbers_of_texts():
    cases = []
    for name, least, greatest in number_table():
        for value in {least - 1, least, greatest, greatest + 1} - {-1}:
            line, statement = PLACES[name]
            text = replaced(LATEST if name == 'START' else CANONICAL, line, statement.format(value))
            wanted = Answer(0, text, '') if least <= value <= greatest else refused(f'E5 line {line}')
            cases.append(((name, value), ('dis',), text, wanted))
    assert len(cases) == 4 * len(PLACES) - 2
    all_expected(cases)


def test_numbers_of_images():
    cases, image = [], {True: image_of(CODEL), False: image_of(LATEST)}
    for name, least, greatest in number_table():
        at, size = FIELDS.get(name, (0, 0))
        for value in {least - 1, least, greatest, greatest + 1} - {-1} if size else ():
            if value < 256**size:
                data = image[name != 'START']
                data = data[:at] + value.to_bytes(size, 'big') + data[at + size:]
                cases.append(((name, value), ('asm',), data,
                              Answer(0, data, '') if least <= value <= greatest else refused('L3')))
    # START and DELACK are 0 at least, and no more than CAP and MAXPACKET may be is spelt in their two bytes.
    assert len(cases) == 4 * len(FIELDS) - 4
    all_expected(cases)


def test_each_number_of_an_image_stretched():
    """Each number, the counts too, at the ends of its bytes, one beside what it was, and doubled."""
    cases = []
    for data in (IMAGE, OLD_IMAGE, image_of(FULL)):
        assert sum(size for _, size in places(data)) == len(data) - len(b'TCB1')
        for at, size in places(data):
            was = int.from_bytes(data[at:at + size], 'big')
            most = 256**size - 1
            values = {0, 1, 2, was - 1, was + 1, 2 * was, most, most - 1, (most + 1) // 2, (most - 1) // 2} - {was}
            for value in sorted(values):
                if 0 <= value <= most:
                    other = data[:at] + value.to_bytes(size, 'big') + data[at + size:]
                    cases.append(((at, value), ('dis',), other))
    notes = {answer.note for answer in like_the_model(cases)}
    assert {'', *(f'refused L{n}\n' for n in (1, 3, 4, 5, 6, 7))} <= notes


def test_lost_packets_of_images():
    cases = []
    for numbers, code in LOST:
        data = IMAGE[:65] + struct.pack(f'>B{len(numbers)}I', len(numbers), *numbers) + IMAGE[66:]
        cases.append((numbers, ('asm',), data, Answer(0, data, '') if code == RIGHT else refused(code)))
    all_expected(cases)


# The lost packets of the image's first link.
LOST = (
    ((0,), 'L3'), ((1,), RIGHT), ((10**9,), RIGHT), ((10**9 + 1,), 'L3'), ((2**32 - 1,), 'L3'),
    (tuple(range(1, 65)), RIGHT), (tuple(range(1, 66)), 'L3'), (tuple(range(1, 256)), 'L3'),
    ((2, 2), 'L3'), ((2, 1), 'L3'), ((1, 2), RIGHT), ((10**9 - 1, 10**9), RIGHT), ((10**9, 10**9), 'L3'),
)


# ---- counts


def test_the_greatest_scenarios():
    for data in (images.greatest(10**9, images.LINK[:-1] + b'\x40', images.FLOW), images.most_flows()):
        all_expected([('image', ('asm',), data, Answer(0, data, ''))])
        text = model(('dis',), data)
        all_expected([('image', ('dis',), data, text), ('text', ('dis',), text.out, text),
                      ('text', ('asm',), text.out, Answer(0, data, ''))])
        trace = model(('run',), data)
        assert trace.status == 0
        all_expected((groups, ('run', '--groups', groups, '--workers', '2'), data, trace) for groups in ('one', 'each'))


# ---- great sessions


def flow_of(segments, *commands):
    """A session over a flow of `segments` segments of 1,000 bytes."""
    return FIRST.replace(b' 1000 1 0 ', b' 1000 %d 0 ' % segments).replace(
        b'sim 1000000000', b'sim 1000000000000000') + b'---\n' + b''.join(it.encode() + b'\n' for it in commands)


# Debugging sessions at the greatest of what may be asked: nothing is refused for want of memory.


def test_as_many_breakpoints_as_there_may_be():
    text = model(('dis',), images.most_flows()).out
    commands = b''.join(b'break node %d\n' % n for n in range(192, 257)) + b'run\nrun\n'
    like_the_model([('breakpoints', ('debug',), text + b'---\n' + commands)])
    found = run(('debug',), text + b'---\n' + commands).out
    assert [line for line in found.splitlines() if line.startswith((b'break', b'refused'))] == \
        [b'break %d' % n for n in range(1, 65)] + [b'refused B3']


def test_a_dump_at_each_position():
    forwards, backwards = ['step 1'] * 1000, ['back 1'] * 1000
    like_the_model([('forwards', ('debug',), flow_of(300, *forwards)),
                    ('backwards', ('debug',), flow_of(300, 'step 1000', *backwards))])


def test_moves_of_many_sizes():
    sizes = (99, 100, 101, 777, 1000, 1001, 9999, 10000, 10001)
    like_the_model([('moves', ('debug',), flow_of(4000, *itertools.chain.from_iterable(
        (f'step {n}', f'back {n}') for n in sizes)))])


def test_moves_of_a_million_events():
    moves = ('step 1000000', 'back 1', 'back 999998', 'step 999999', 'back 1000000', 'until 999999999999999',
             'back 1000000')
    for words in (('debug',), ('debug', '--groups', 'each', '--workers', '2')):
        found = run(words, flow_of(260_000, *moves))
        assert (found.status, found.note) == (0, '')
        places = [int(line[3:]) for line in found.out.splitlines() if line.startswith(b'at ')]
        end = places[5]
        assert end > 1_000_000
        assert places == [1_000_000, 999_999, 1, 1_000_000, 0, end, end - 1_000_000]
        assert b'refused' not in found.out


# ---- great inputs


def filled(before, piece):
    """As many bytes as an input may have: these, and the piece again and again."""
    count = (MOST_INPUT - len(before)) // len(piece)
    return (before + piece * count).ljust(MOST_INPUT, b' ')


def many(before, form):
    """The same of lines that have a number each, from 1 on; the last is left out where it is cut."""
    lines, size = [before], len(before)
    for number in itertools.count(1):
        line = form % number
        size += len(line)
        if size > MOST_INPUT:
            return b''.join(lines)
        lines.append(line)


def header(links, routes, nodes=2):
    return struct.pack('>4sQHHHI', b'TCB2', 10**9, nodes, links, 1, routes) + bytes([0, 1] + [0] * (nodes - 2))


def hostile():
    """Inputs that claim much or are great, and what they come to."""
    link, flow = IMAGE[24:65], IMAGE[108:135]
    lost = struct.pack('>50I', *range(1, 51))
    all_lost = struct.pack('>255I', *range(1, 256))
    every = b''.join(struct.pack('>HHH', router, end, 0) for router in range(256) for end in range(256))
    two = IMAGE[24:108]
    yield 'links with 255 losses, cut', (header(65535, 0) + (link + b'\xff' + all_lost) * 65535)[:MOST_INPUT], 'L1'
    yield '65,535 links', header(65535, 0) + (link + b'\0') * 65535 + flow, 'L3'
    yield '65,535 links with 50 losses', header(65535, 0) + (link + b'\x32' + lost) * 65535 + flow, 'L3'
    yield 'a claim of 4,294,967,295 routes', IMAGE[:18] + b'\xff' * 4 + IMAGE[22:], 'L1'
    yield '2,700,000 routes', header(2, 2_700_000) + two + flow + bytes(6 * 2_700_000), 'L3'
    yield 'a megabyte left over', header(2, 65536, 256) + two + flow + every + bytes(1_000_000), 'L4'
    yield 'lose lines', many(FIRST, b'lose a %d\n'), 'E9 line 71'
    yield 'node lines', many(b'', b'node x%d router\n'), 'E9 line 257'
    yield 'a word on each line', filled(b'', b'a\n'), 'E2 line 1'
    yield 'carriage returns', filled(b'', b'\r'), 'E1 line 1'
    yield 'comments behind a right text', filled(FIRST, b'# a comment\n'), RIGHT
    yield 'one line of letters', b'a' * MOST_INPUT, 'E2 line 1'
    yield 'one line of words', filled(b'', b'a '), 'E2 line 1'
    yield 'one line of spaces', b' ' * MOST_INPUT, 'E10 line 0'
    yield 'one comment', b'#' * MOST_INPUT, 'E10 line 0'
    yield 'line feeds', b'\n' * MOST_INPUT, 'E10 line 0'
    yield 'one word of digits', filled(b'sim ', b'9').rstrip(), 'E5 line 1'
    yield 'a byte too many', b'\n' * (MOST_INPUT + 1), 'I1'


def test_hostile_inputs_are_cheap_to_refuse():
    """Each ends within a second of the processor in 128 MiB of addresses."""
    def before():
        resource.setrlimit(resource.RLIMIT_AS, (2**27, 2**27))
    trace = Answer(0, read('examples', 'one_segment.trace'), '')
    for name, data, code in hostile():
        start = resource.getrusage(resource.RUSAGE_CHILDREN)
        found = run(('run',), data, before)
        end = resource.getrusage(resource.RUSAGE_CHILDREN)
        assert found == (trace if code == RIGHT else refused(code))
        seconds = end.ru_utime + end.ru_stime - start.ru_utime - start.ru_stime
        assert seconds < 1


# ---- ends that fail

MOST_A_CALL = 3     # bytes, as dev/refuse_ends.c has it
EIO, EINTR, ENOMEM, ENOSPC, EPIPE = 5, 4, 12, 28, 32
WRITE_ERRORS = (EIO, EINTR, ENOMEM, ENOSPC, EPIPE, 0)
READ_ERRORS = (EIO, EINTR, ENOMEM)


class Ends:
    """A reader and a writer that take three bytes a call, and fail at one of them; asked again they would go on."""

    def __init__(self, library, folder):
        self.library, self.folder = library, folder
        trace, commands = read('examples', 'one_segment.trace'), FIRST + COMMANDS
        answers = model(('debug',), commands).out
        assert run(('dis',), IMAGE).out == CANONICAL
        self.sessions = [
            (('run',), FIRST, trace),
            (('run', '--groups', 'each', '--workers', '1'), FIRST, trace),
            (('run', '--groups', 'each', '--workers', '2'), FIRST, trace),
            (('run',), IMAGE, trace),
            (('run',), OLD_IMAGE, trace),
            (('asm',), FIRST, IMAGE),
            (('dis',), FIRST, CANONICAL),
            (('dis',), IMAGE, CANONICAL),
            (('figures',), FIRST, model(('figures',), FIRST).out),
            (('figures', *BY_TIME), FIRST, model(('figures', *BY_TIME), FIRST).out),
            (('debug',), commands, answers),
            (('debug', '--groups', 'each', '--workers', '2'), commands, answers),
        ]
        self.texts = [(('--version',), b'', b'tcpsim %s\n' % VERSIONS.encode()),
                      *((words, b'', run(words, b'').out) for words in (('--help',), ('run', '--help')))]

    def ended(self, number, words, data, **more):
        """The answer, how many calls read, and how many bytes each call took that wrote."""
        path = os.path.join(self.folder, f'calls.{number}')
        found = run(words, data, LD_PRELOAD=self.library, CALLS=path, **more)
        reads, *took = map(int, read(path).split())
        return found, reads, took

    def all_ended(self, cases):
        """Each case, words, input, variables and what it comes to."""
        cases = list(cases)
        assert cases
        found = side_by_side(lambda at: self.ended(at, *cases[at][:2], **cases[at][2]), [(at,) for at in range(len(cases))])
        for (words, _, more, wanted), came in zip(cases, found):
            assert came == wanted, (words, more)

    def whole(self, words, data, out):
        """How many calls a session reads with, and how many bytes each call takes that writes, where none
        fails. What goes out at once takes as few calls as it can; rows by time go out a step at a time."""
        found, reads, took = self.ended('whole', words, data)
        assert found == Answer(0, out, '')
        assert sum(took) == len(out)
        if words[0] != 'debug' and not {'--groups', '--every'} & set(words):
            assert took[:-1] == [MOST_A_CALL] * (len(took) - 1)
        assert reads == (-(-len(data) // MOST_A_CALL) + 1 if data else 0)
        return reads, took


@pytest.fixture(scope='module')
def ends(library, tmp_path_factory):
    return Ends(library('refuse_ends'), tmp_path_factory.mktemp('ends'))


@pytest.mark.wants(cc='gcc')
def test_a_writer_breaks_at_each_call(ends):
    """What the calls before took is out, and the writer is not called again."""
    for words, data, out in ends.sessions + ends.texts:
        reads, took = ends.whole(words, data, out)
        ends.all_ended(
            (words, data, {'WRITE': str(call + 1), 'ERROR': str(error)},
             (Answer(3, out[:sum(took[:call])], 'write failed\n'), reads, [*took[:call], -1 if error else 0]))
            for call in range(len(took)) for error in WRITE_ERRORS)


@pytest.mark.wants(cc='gcc')
def test_a_reader_breaks_at_each_call(ends):
    """Nothing is written, and the reader is not called again."""
    for words, data, out in ends.sessions:
        reads, _ = ends.whole(words, data, out)
        ends.all_ended(
            (words, data, {'READ': str(call), 'ERROR': str(error)}, (Answer(3, b'', 'read failed\n'), call, []))
            for call in range(1, reads + 1) for error in READ_ERRORS)


@pytest.mark.wants(cc='gcc')
def test_a_reader_gives_as_many_bytes_a_call_as_it_likes(ends):
    for words, data, out in ends.sessions:
        for most in (1, 2, len(data)):
            found, reads, _ = ends.ended('likes', words, data, MOST=str(most))
            assert (found, reads) == (Answer(0, out, ''), -(-len(data) // most) + 1)


@pytest.mark.wants(cc='gcc')
def test_a_long_run_goes_out_in_pages(ends):
    """10,000 segments without a loss: the start, and four events for each segment."""
    text = FIRST.replace(b'sim 1000000000', b'sim 1000000000000000').replace(b' 8000000 ', b' 8000000000 ')
    text = text.replace(b'droptail 10', b'droptail 100').replace(b' 1000 1 0 ', b' 1000 10000 0 ')
    found, _, took = ends.ended('pages', ('run',), text, MOST='1000000000')
    assert (found.status, found.note, found.out[-11:]) == (0, '', b'\nend 40001\n')
    assert len(found.out) > 2_000_000
    assert sum(took) == len(found.out)
    assert max(took) <= 65_536


@pytest.mark.wants(cc='gcc')
def test_a_call_behind_the_last_is_not_made(ends):
    for words, data, out in ends.sessions:
        reads, took = ends.whole(words, data, out)
        ends.all_ended((words, data, {name: str(1 + last), 'ERROR': str(EIO)}, (Answer(0, out, ''), reads, took))
                  for name, last in (('READ', reads), ('WRITE', len(took))))


def test_no_signal_interrupts_a_read():
    """The program waits for its input, and is stopped and sent what it does not die of: it goes on."""
    trace = read('examples', 'one_segment.trace')
    process = subprocess.Popen([PROGRAM, 'run'], stdin=subprocess.PIPE, stdout=subprocess.PIPE,
                               stderr=subprocess.PIPE)
    with process:
        for piece in (FIRST[:50], FIRST[50:100], FIRST[100:]):
            for number in (signal.SIGSTOP, signal.SIGCONT, signal.SIGCHLD, signal.SIGURG, signal.SIGWINCH):
                assert waits(process.pid, 'T' if number == signal.SIGCONT else 'S')
                process.send_signal(number)
            process.stdin.write(piece)
            process.stdin.flush()
        out, note = process.communicate()
    assert (process.returncode, out, note) == (0, trace, b'')


def waits(process, state):
    """Whether the process comes to this state: S while it waits for input, T while it is stopped."""
    until = time.monotonic() + 10
    while time.monotonic() < until:
        with open(f'/proc/{process}/stat') as file:
            if file.read().rpartition(')')[2].split()[0] == state:
                return True
        time.sleep(0.001)
    return False
