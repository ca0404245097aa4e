"""Runs the built program on whole inputs whose outcome was worked out without it: each text of dev/whole/ against the trace
beside it, by hand from docs/MODEL.md or by the model of python/tcpsim_model, debugging sessions and what flows wait for against
what was worked out by hand, and the texts, images and words of the tables there and below against their faults. The model has
to come to the same, wherever it knows the words. Figures are in python/tests/test_figures.py.

They were tests of the crate tests_program. On bytes alone they try the program as it is run, and the prover need
not prove them.
"""
import glob
import os
import re

import pytest

from clone import PROGRAM, TOP, of_model, outcome, ran, read, side_by_side
from tcpsim_model.reasons import meaning
from whole import canonical, command_line, images, nodes, refusals, sessions, texts, waits
from whole.texts import RIGHT

HERE = os.path.join(TOP, 'dev')
MOST_INPUT = 16_777_216     # bytes
FIRST = ''.join(f'{line}\n' for line in texts.LINES).encode()
EQUAL_TIMES = read(f'{TOP}/examples/equal_times.txt')
TRACE = read(f'{TOP}/examples/one_segment.trace')


def hash_of(data):
    """A number of 64 bits that all bytes decide in their order: the hash of Fowler, Noll and Vo, variant 1a."""
    value = 0xcbf2_9ce4_8422_2325
    for byte in data:
        value = (value ^ byte) * 0x0100_0000_01b3 & 0xffff_ffff_ffff_ffff
    return value


def text_with(lines, pieces, number, line):
    """These lines with the line of this number replaced, or with one more line, at this number: before it
    stand lines that each name a number, 1, 2 and so on, between two pieces."""
    before, after = pieces
    more = [f'{before}{it}{after}' for it in range(1, number - len(lines))]
    own = [line if at == number else it for at, it in enumerate(lines, 1)]
    return ''.join(f'{it}\n' for it in [*own, *more]) + (line if number > len(lines) else '')


@pytest.fixture(params=[pytest.param(outcome, marks=pytest.mark.built), of_model], ids=['program', 'model'])
def answer(request):
    """What the program comes to with words and an input, and the model: (status, note, output)."""
    return request.param


def expect(answer, cases):
    """Each case, its words and its input, has to end with this status, note and output."""
    came = side_by_side(answer, [it[:2] for it in cases])
    for (words, given, *wanted), found in zip(cases, came):
        assert found == tuple(wanted), (words, given[:2000])


def expect_faults(answer, rows):
    """Each row is an input, what it is refused for, whatever is to be done with it, or RIGHT, and its image; None is not
    looked at."""
    for word in ('asm', 'dis', 'run', 'figures'):
        asked = [row for row in rows if word == 'asm' or row[1] != RIGHT]
        came = side_by_side(answer, [([word], given) for given, _, _ in asked])
        for (given, fault, image), (status, note, found) in zip(asked, came):
            wanted = (0, b'', found if image is None else image) if fault == RIGHT else (1, f'refused {fault}\n'.encode(), b'')
            assert (status, note, found) == wanted, (word, given[:2000])


def expect_texts(answer, rows):
    """The same of texts, by the line that a fault is in where it says none, and the fault."""
    def whole(line, fault):
        return fault if fault == RIGHT or ' ' in fault else f'{fault} line {0 if fault[0] == "L" or fault == "E10" else line}'
    expect_faults(answer, [(text.encode(), whole(line, fault), None) for line, text, fault in rows])


# ---- runs


def test_runs_have_the_stored_traces(answer):
    names = sorted(glob.glob(f'{HERE}/whole/*.txt'))
    assert len(names) >= 10
    expect(answer, [(['run'], read(it), 0, b'', read(f'{it[:-4]}.trace')) for it in names])


def test_a_hundred_thousand_events_of_a_network_run_to_their_end(answer):
    """402 drops by CoDel, 19 at the full queue, 63 timeouts."""
    text = read(f'{TOP}/examples/four_flows_before_codel.txt').decode()
    for old, new, count in [('sim 10000000000\n', 'sim 100000000000\n', 1), (' 1000 6 ', ' 1000 2100 ', 4),
                            ('codel 20 3000000 10000000 1040', 'codel 8 3000000 10000000 1040', 1)]:
        assert text.count(old) == count, old
        text = text.replace(old, new)
    status, note, trace = answer(['run'], text.encode())
    assert (status, note) == (0, b'')
    assert trace.endswith(b'\nend 103546\n')
    assert len(trace) == 5_656_297
    assert hash_of(trace) == 0x7547_0a11_fb92_3df2


def test_a_router_with_256_incoming_links_passes_all_on(answer):
    """Of each flow there are its start, and the segment and its acknowledgement, which are three times sent and have
    three times arrived."""
    status, note, trace = answer(['run'], texts.star().encode())
    assert (status, note) == (0, b'')
    *lines, end = trace.decode().splitlines()
    assert (len(lines), end) == (8 * 13, f'end {8 * 13}')
    times = [int(line.split()[1]) for line in lines]
    assert times == sorted(times)
    assert sum(' una=1000 ' in line for line in lines) == 8


@pytest.mark.built
def test_groups_that_are_found_change_no_byte():
    """Three flows of which each has its own links: a window with many events in each group."""
    for given in (FIRST, texts.ISLANDS.encode()):
        plain = outcome(['run'], given)
        assert plain[0] == 0
        expect(outcome, [(['run', '--groups', 'auto', '--workers', workers], given, *plain)
                for workers in ('1', '3', '64')])


def test_groups_and_workers_change_no_byte(answer):
    """Of one segment, of two flows of equal times, and of a run that ends on a full queue's losses, whose events
    were counted by the model."""
    many = FIRST.replace(b' 1000 1 0 ', b' 1000 200 0 ')
    plain = answer(['run'], many)
    assert (plain[0], plain[2][-9:]) == (0, b'\nend 145\n')
    trace, equal = (read(f'{TOP}/examples/{name}.trace') for name in ('one_segment', 'equal_times'))
    rows = [(FIRST, ('one', 'each', '0,1', '63,7'), ('1', '2', '64'), (0, b'', trace)),
            (EQUAL_TIMES, ('one', 'each', '0,1,0,1,0', '5,5,63,0,0'), ('1', '2', '64'), (0, b'', equal)),
            (many, ('each',), ('1', '2', '64'), plain)]
    expect(answer, [(['run', *words], given, *wanted) for given, groups, workers, wanted in rows
            for group in groups for count in workers
            for words in (('--groups', group, '--workers', count), ('--workers', count, '--groups', group))])


# ---- debugging sessions


def test_sessions_have_their_answers(answer):
    expect(answer, [(words, FIRST + b'---\n' + commands.encode(), 0, b'', answers.encode()) for words in sessions.SHARED
            for commands, answers in ((sessions.MOVES, sessions.ANSWERS), (sessions.BREAKS, sessions.STOPS),
                                      (sessions.FAULTS, sessions.REFUSED_FOR))])


def test_sessions_of_other_texts_have_their_answers(answer):
    """What waits in a queue that is CoDel's, with each event that is pending; and a NewReno flow that loses
    segments of one window, and one of them again, beside a Reno flow."""
    names = sorted(glob.glob(f'{HERE}/whole/*.session'))
    assert len(names) == 2
    expect(answer, [(words, read(it), 0, b'', read(f'{it[:-8]}.answers')) for it in names for words in sessions.CREWS])


def test_each_state_is_the_one_that_is_reached_at_once(answer):
    """A flow's events, the end, back and until a moment that is past; and 50 events forwards and 50 back, one at a
    time, of a run of 6 events and of one that is longer."""
    longer = EQUAL_TIMES.replace(b'sim 2040001', b'sim 1000000000').replace(b' 1000 1 0 ', b' 1000 20 0 ')
    for text, commands, first, positions in [
            (EQUAL_TIMES, b'break flow 1\nrun\nrun\nrun\nback 1\nuntil 2040000\n', b'break 1\n', [2, 6, 6, 5, 5]),
            *((text, b'step 1\n' * 50 + b'back 1\n' * 50, b'',
               [min(it, last) for it in range(1, 51)] + [max(0, last - it) for it in range(1, 51)])
              for text, last in ((EQUAL_TIMES, 6), (longer, 50)))]:
        reached = {it: answer(['debug'], text + b'---\nstep %d\n' % it) for it in sorted(set(positions))}
        for it, (status, note, state) in reached.items():
            assert (status, note, state[:state.index(b'\n')]) == (0, b'', b'at %d' % it)
        answers = first + b''.join(reached[it][2] for it in positions)
        expect(answer, [(words, text + b'---\n' + commands, 0, b'', answers) for words in sessions.CREWS])


def test_a_session_has_a_group_for_each_node(answer):
    expect(answer, [(['debug', '--groups', groups], FIRST + b'---\n' + sessions.MOVES.encode(), 2, b'refused groups\n', b'')
            for groups in sessions.NO_GROUPS])


def test_a_session_has_no_image(answer):
    """An image is taken for a text, whose fault comes before that of the groups."""
    expect(answer, [(['debug', *words], b'TCB1\n---\n', 1, b'refused E2 line 1\n', b'')
            for words in ([], *(['--groups', groups] for groups in sessions.NO_GROUPS))])


def test_typed_lines_have_their_answers(answer):
    for words in sessions.TYPED:
        for name, rows in (('one_segment', sessions.LINES_TYPED), ('equal_times', sessions.LINES_OF_EQUAL_TIMES)):
            for lines, prompts, answers, notes in rows:
                typed = ''.join(f'{it}\n' for it in lines).encode()
                status, noted, output = answer([*words, f'{TOP}/examples/{name}.txt'], typed)
                assert (status, output) == (0, answers.encode())
                assert noted.count(b'(tcpsim) ') == prompts
                assert noted.replace(b'(tcpsim) ', b'').decode().split('\n') == [*notes, '']


def test_nodes_have_their_ends_links_and_packets(answer):
    """By node, whose dump is the same in groups."""
    given = read(f'{HERE}/whole/two_flows_over_a_router.txt') + b'---\n' + nodes.COMMANDS.encode()
    expect(answer, [(words, given, 0, b'', nodes.ANSWERS.encode())
            for words in (['debug'], ['debug', '--groups', 'each', '--workers', '2'])])


def test_what_a_flow_waits_for_is_told(answer, put):
    """The lines that a move passed are the trace's, and left out here with that on the last of them."""
    for text, moves in waits.ROWS:
        lines = ['break stall 0', *(line for move, _ in moves for line in (move, 'why 0'))]
        wanted = ''.join(['break 1: stall f\n', *(told for _, told in moves)])
        status, _, output = answer(['debug', put('run.txt', text)], ''.join(f'{it}\n' for it in lines).encode())
        told = [it for it in output.decode().splitlines(True) if not it[0].isdigit() and not it.startswith(('.. ', 'of '))]
        assert (status, ''.join(told)) == (0, wanted)

# ---- texts


def test_texts_have_their_faults(answer):
    expect_texts(answer, texts.TEXTS)


def test_lines_have_their_faults(answer):
    expect_texts(answer, [(at, text_with(lines, pieces, at, line), fault)
                          for lines, pieces, rows in ((texts.LINES, texts.LOSSES, (*texts.PLACED, *texts.NAMED)),
                                                      (texts.ROUTED, texts.ROUTER_LINKS, texts.ROUTES))
                          for at, line, fault in rows])


def test_texts_of_many_statements_have_their_faults(answer):
    expect_texts(answer, [(at, text_with(texts.LINES, pieces, at, line), fault) for pieces, at, line, fault in texts.COUNTED])


def test_lines_of_many_words_have_their_faults(answer):
    rows = [(7, first + ' 1' * more, of_flow if first == 'flow' else 'E3')
            for more, of_flow in texts.WORDS for first in ('sim', 'node', 'flow', 'route', 'lose')]
    rows += [(4, texts.CODEL + ' 1' * more, fault) for more, fault in texts.MORE]
    expect_texts(answer, [(at, text_with(texts.LINES, texts.LOSSES, at, line), fault) for at, line, fault in rows])


def test_long_lines_have_their_faults(answer):
    expect(answer, [(['run'], (first + piece * count).encode(), 1, f'{note}\n'.encode(), b'')
            for first, piece, count, note in texts.LONG])


def test_scenarios_have_their_canonical_texts(answer):
    expect(answer, [(['dis'], given.encode(), 0, b'', again.encode()) for given, again in canonical.CANONICAL])
    flow = FIRST.decode().rstrip()
    again = images.FIRST_AGAIN.removesuffix('reno iw3\n')
    expect(answer, [(['dis'], f'{flow} {words}\n'.encode(), 0, b'', f'{again}{words}\n'.encode()) for words in canonical.SENDERS])


@pytest.mark.built
def test_a_fault_is_shown_at_its_place():
    for before, number, rows in ((canonical.RIGHT, 4, canonical.FOURTH), (canonical.RIGHT + canonical.FLOWS, 132, canonical.ONE_MORE)):
        for line, code, start, count in rows:
            shown = f"{line}\n{' ' * start}{'^' * count}\n".replace('\t', '?')
            status, said, output = outcome(['asm', '--explain'], (before + line).encode())
            note, rest = said.decode().split('\n', 1)
            assert (status, note, output) == (1, f'refused {code} line {number}', b'')
            assert rest.startswith(shown) and rest.endswith(meaning(code))
            expect_faults(outcome, [((before + line).encode(), f'{code} line {number}', None)])


# ---- images


def changed(image, rows):
    """Images with bytes put at places, what each is refused for, and itself."""
    made = [(image[:place] + bytes.fromhex(put) + image[place + len(bytes.fromhex(put)):], fault) for place, put, fault in rows]
    return [(it, fault, it) for it, fault in made]


def test_a_scenario_goes_from_text_to_image_and_back(answer):
    assert (len(images.FIRST_IMAGE), len(images.IN_VERSION_1)) == (135, 134)
    again = images.FIRST_AGAIN.encode()
    expect(answer, [(words, given, 0, b'', output)
            for given in (FIRST, again, images.FIRST_IMAGE, images.IN_VERSION_1)
            for words, output in ((['asm'], images.FIRST_IMAGE), (['dis'], again), (['run'], TRACE))])


def test_images_have_their_faults(answer):
    first = images.FIRST_IMAGE
    expect_faults(answer, [*changed(first, images.CHANGED), (first[:2], 'E2 line 1', None), (first[:3], 'L1', None),
                           (first[:-1], 'L1', None), (first.ljust(MOST_INPUT + 1, b'\0'), 'I1', None)])


def test_images_of_version_1_have_their_faults(answer):
    """What is right is the same bytes in version 2, with one more for the sender."""
    expect_faults(answer, [(it, fault, b'TCB2' + it[4:] + b'\0') for it, fault, _ in
                          changed(images.IN_VERSION_1, images.CHANGED_IN_VERSION_1)])


def test_a_sender_has_one_byte(answer):
    for words, byte in images.SENDERS:
        image = images.FIRST_IMAGE[:-1] + bytes([byte])
        expect(answer, [(['asm'], FIRST.rstrip() + f'{words}\n'.encode(), 0, b'', image),
                        (['dis'], image, 0, b'', images.FIRST_AGAIN.replace(' reno iw3', words or ' reno iw3').encode())])


def test_images_of_many_records_have_their_faults(answer):
    made = [(images.image_of(counts, routes), fault) for counts, routes, fault in images.COUNTS]
    expect_faults(answer, [(it, fault, it) for it, fault in made])


def test_the_greatest_images_are_taken(answer):
    """Each is given again, by its text too."""
    for image in (images.greatest(), images.most_flows()):
        expect(answer, [(['asm'], image, 0, b'', image)])
        status, note, text = answer(['dis'], image)
        assert (status, note) == (0, b'')
        expect(answer, [(['asm'], text, 0, b'', image)])

# ---- why


def expect_why(answer, words, given, code, lines):
    """The note with the code, these lines, and the first line of the code's text are on standard error."""
    status, said, output = answer([*words, '--explain'], given)
    note, shown = said.decode().split('\n', 1)
    assert (status, output) == (1, b'')
    assert re.search(rf'^refused {code}( line \d+)?$', note)
    assert shown == lines + meaning(code)


def test_a_refusal_of_a_text_is_shown_with_its_reason(answer):
    texts_of = [*refusals.SHOWN, *((text_with(texts.ROUTED, texts.LOSSES, place, line), code, lines)
                                   for place, line, code, lines in refusals.CHANGED)]
    for given, code, lines in texts_of:
        for word in ('asm', 'dis', 'run'):
            expect_why(answer, [word], given.encode(), code, lines)


def test_a_word_that_is_refused_is_shown_with_what_to_write_instead(answer):
    for place, line, code, sentence in refusals.ADVISED:
        carets = re.sub('[^^]', ' ', re.sub('{(.*)}', lambda found: '^' * len(found[1]), line)).rstrip()
        line = re.sub('[{}]', '', line)
        given = text_with(texts.ROUTED, texts.LOSSES, place, line)
        expect_why(answer, ['asm'], given.encode(), code, f'{line}\n{carets}\n{sentence}\n')


def test_a_micro_sign_is_shown_with_what_to_write_instead(answer):
    """It is two bytes, neither of them printable, as each other letter with more than ASCII."""
    for word, number in (('5\u00b5s', 5000), ('1.5\u03bcs', 1500), ('5\u00e9s', None), ('\u00b5s', None)):
        sentence = f'DELAY is a whole number of nanoseconds, 1 to 10000000000: write {number}\n' if number else ''
        for before, behind in (('link a s p 8000000 ', ' droptail 10'), ('   link  a s p 8000000 ', '# queue')):
            place = len(f'{before}{word}'.rpartition(word.lstrip('0123456789.'))[0])
            shown = re.sub('[^ -~]', '??', f'{before}{word}{behind}')
            given = text_with(texts.ROUTED, texts.LOSSES, 5, f'{before}{word}{behind}')
            expect_why(answer, ['asm'], given.encode(), 'E1', f'{shown}\n{" " * place}^\n{sentence}')
    for line in ('link a s p 5\u00b5s 1000000 droptail 10', 'node 5\u00b5s sender', 'link a s p 8000000 # 5\u00b5s'):
        place = len(line.partition('\u00b5')[0])
        expect_why(answer, ['asm'], text_with(texts.ROUTED, texts.LOSSES, 5, line).encode(), 'E1',
                   re.sub('[^ -~]', '??', line) + f'\n{" " * place}^\n')


def test_a_refusal_of_an_image_is_shown_with_its_reason(answer):
    image = answer(['asm'], ''.join(f'{line}\n' for line in texts.ROUTED).encode())[2]
    assert len(image) == 232
    for place, put, kept, code, lines in refusals.CHANGED_BYTES:
        put = bytes.fromhex(put)
        expect_why(answer, ['dis'], (image[:place] + put + image[place + len(put):])[:kept], code, lines)
    image = answer(['asm'], refusals.TWO_ROUTERS.encode())[2]
    place, put, code, lines = refusals.RETURNING
    put = bytes.fromhex(put)
    expect_why(answer, ['asm'], image[:place] + put + image[place + len(put):], code, lines)


def test_nothing_is_shown_unasked_and_of_a_right_input(answer):
    expect(answer, [(['run'], b'sim 0\n', 1, b'refused E5 line 1\n', b''),
            (['asm'], text_with(texts.ROUTED, texts.LOSSES, 1, 'sim 5').encode(), 0, b'',
             answer(['asm', '--explain'], text_with(texts.ROUTED, texts.LOSSES, 1, 'sim 5').encode())[2]),
            (['run', '--explain'], FIRST, 0, b'', TRACE),
            (['run', '--explain', '--groups', '0,1,1'], FIRST, 2,
             b'refused groups\ngroups that are given: 3; nodes: 2\n' + meaning('groups').encode(), b'')])


@pytest.mark.built
def test_each_hundredth_that_is_passed_is_told():
    """Of a run of 4 ms, whose events are at 0, 1.04, 2.04, 2.08 and 3.08 ms, and of one of a second; by one worker,
    whatever the groups, as without options."""
    for given, end, passed in ((FIRST.replace(b'sim 1000000000', b'sim 4000000'), '0.004',
                                [(26, 2), (51, 3), (52, 4), (77, 5), (100, 5)]),
                               (FIRST, '1', [(100, 5)])):
        told = ''.join(f'\r{percent} % of {end} s simulated, {events} events' for percent, events in passed)
        expect(outcome, [(['run', '--progress', *words], given, 0, f'{told}\n'.encode(), TRACE)
                for words in ([], ['--groups', 'each'], ['--groups', '0,1', '--workers', '1'])])
    expect(outcome, [(['run', '--progress'], b'sim 1\n', 1, b'refused L3 line 0\n', b''), (['run'], FIRST, 0, b'', TRACE)])


@pytest.mark.built
def test_by_workers_each_hundredth_is_told_up_to_the_last_event():
    """Of the run of 4 ms, with how many events are run by each hundredth."""
    moments = [0, 1040000, 2040000, 2080000, 3080000]
    passed = [(it, sum(at < it * 40000 for at in moments)) for it in range(1, 78)] + [(100, 5)]
    told = ''.join(f'\r{percent} % of 0.004 s simulated, {events} events' for percent, events in passed)
    expect(outcome, [(['run', '--progress', '--groups', 'each', '--workers', workers],
             FIRST.replace(b'sim 1000000000', b'sim 4000000'), 0, f'{told}\n'.encode(), TRACE)
            for workers in ('2', '64')])


@pytest.mark.built
def test_seconds_have_the_decimals_that_they_need():
    rows = [(1, '0.000000001'), (1_000_000_000, '1'), (90_500_000_000, '90.5'), (1_000_000_000_000_000, '1000000'),
            (2_010_000_001, '2.010000001')]
    for end, seconds in rows:
        status, said, _ = outcome(['run', '--progress'], FIRST.replace(b'sim 1000000000', b'sim %d' % end))
        events = 1 if end == 1 else 5
        assert (status, said) == (0, f'\r100 % of {seconds} s simulated, {events} events\n'.encode())

# ---- words


def unread(given):
    """The outcome of a run whose standard input is a folder, which fails whenever it is read."""
    folder = os.open(TOP, os.O_RDONLY)
    try:
        done = ran(PROGRAM, *given, stdin=folder)
    finally:
        os.close(folder)
    return done.returncode, done.stderr, done.stdout


@pytest.mark.built
def test_mistaken_words_are_refused_unread():
    assert unread(['run']) == (3, b'read failed\n', b'')
    for given in command_line.MISTAKEN:
        status, note, output = unread(given)
        assert (status, output) == (2, b'')
        assert note.startswith(b'error: ') and note.endswith(b'\n'), note
        assert outcome(given, FIRST) == (status, note, output)


@pytest.mark.built
def test_codes_are_explained_unread():
    none = b'error: no such code; there are E1 to E10, L1 to L8, I1, B1 to B5, M and groups\n'
    for code in ('E0', 'e1', '', 'E1:'):
        assert unread(['explain', code]) == (2, none, b'')
    assert unread(['explain', 'M']) == (0, b'', command_line.MEMORY.encode())


@pytest.mark.built
def test_options_are_written_in_several_ways():
    expect(outcome, [(['run', *given], FIRST, 0, b'', TRACE) for given in command_line.WRITTEN])
    expect(outcome, [(['debug', '--workers=+64', '--groups=one'], FIRST + b'---\n' + sessions.MOVES.encode(), 0, b'',
                      sessions.ANSWERS.encode())])


@pytest.mark.built
def test_groups_that_do_not_fit_the_nodes_are_refused():
    expect(outcome, [(['run', *given], FIRST, 2, b'refused groups\n', b'') for given in command_line.NO_GROUPS])


def test_an_input_is_refused_before_its_groups(answer):
    cases = [([task, '--groups', '0'], given, 1, note, b'')
             for given, note in command_line.BEFORE_GROUPS for task in ('run', 'debug')]
    expect(answer, [*cases, (['run', '--groups', '0'], b'TCB1', 1, b'refused L1\n', b'')])
