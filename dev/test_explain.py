"""Tests of `tcpsim explain` with the built program: each example is refused with just the note that its text
names, its mended form is not refused, and the list of codes says what docs/FORMATS.md says. And program and model
explain what is refused alike.
"""
import argparse
import os
import random
import re
import sys

import pytest

import compare
from clone import PROGRAM, TOP, Folder, of_model, outcome, ran, read_text
from tcpsim_model.reasons import MEANINGS

pytestmark = pytest.mark.built
CODES = [f'E{k}' for k in range(1, 11)] + [f'L{k}' for k in range(1, 9)] + ['I1'] \
    + [f'B{k}' for k in range(1, 6)] + ['M', 'groups']


def explained(*code):
    done = ran(PROGRAM, 'explain', *code, text=True)
    assert done.returncode == 0
    return done.stdout


def blocks(text):
    """The indented blocks of a text, without their indent, as texts."""
    found = re.findall(r'(?:^    .*\n)+', text, re.M)
    return [re.sub(r'^    ', '', it, flags=re.M) for it in found]


class TestExplained(Folder):
    """In a folder with the commands `tcpsim` and `tcpsim-net`, and one.txt."""

    @pytest.fixture(autouse=True)
    def commands(self):
        self.put('tcpsim', f'#!/bin/sh\nexec "{PROGRAM}" "$@"\n', 0o700)
        self.put('tcpsim-net', f'#!/bin/sh\nexec "{sys.executable}" "{TOP}/bin/tcpsim-net" "$@"\n', 0o700)
        self.put('one.txt', blocks(explained('E2'))[-1])
        self.environment = dict(os.environ, PATH=f'{self.folder}:{os.environ["PATH"]}')

    def tried(self, example):
        """What an example writes and notes beside prompts: shell commands behind `$`, or a scenario's text."""
        if example.startswith('$ '):
            words, given = ['sh', '-c', re.sub(r'^\$ ', '', example, flags=re.M)], ''
        else:
            words, given = [PROGRAM, 'run'], example
        done = ran(*words, text=True, input=given, cwd=self.folder, env=self.environment)
        return done.stdout, done.stderr.replace('(tcpsim) ', '')

    def test_each_example_is_refused_as_its_text_says(self):
        for code in CODES:
            text = explained(code)
            if code == 'M':
                assert blocks(text) == []
                continue
            refused, right = blocks(text)
            how, says = re.search(r'^Refused, with the (note|answer) `(refused [^`]+)`', text, re.M).groups()
            assert re.search(rf'^refused {code}( line \d+)?$', says)
            out, note = self.tried(refused)
            if how == 'note':
                # At a prompt the meaning follows, and what there is; of these codes B5 alone has an example there.
                there = 'tcpsim: breaks lists the breakpoints with their numbers\n'
                means = f'{text.splitlines()[0]}\n{there}' if 'tcpsim debug one.txt' in refused else ''
                assert (out, note) == ('', f'{says}\n{means}')
            else:
                assert (out.count('refused'), note) == (1, '')
                assert f'{says}\n' in out
            out, note = self.tried(right)
            assert note == ''
            assert 'refused' not in out
            assert out

    def test_only_one_place_of_an_example_is_wrong(self):
        """An example of a text differs from its mended form in a line, or in lines that one of them lacks."""
        for code in CODES:
            found = blocks(explained(code))
            if not found or found[0].startswith('$ '):
                continue
            refused, right = (it.splitlines() for it in found)
            changed = [it for it in refused if it not in right]
            assert len(changed) <= 1
            assert changed or len(refused) < len(right)

    def test_the_list_has_the_first_line_of_each_text(self):
        lines = explained().splitlines()
        assert [line.split(':')[0] for line in lines] == CODES
        assert lines == [explained(code).splitlines()[0] for code in CODES]

    def test_a_refusal_of_no_line_shows_what_the_page_says(self):
        """The rows of docs/COMMANDS.md that change a line of the text of docs/FORMATS.md: the witness and the statement."""
        page = read_text('docs', 'FORMATS.md')
        right = re.search(r'^The examples change one line of this text.*?```\n(.*?)```', page, re.M | re.S)[1]
        table = re.search(r'^\| Fault \| Changed \| Shown \|\n(?:\|.*\n)+', read_text('docs', 'COMMANDS.md'), re.M)[0]
        rows = re.findall(r'^\| (\w+) \| line (\d+): `(.*?)` \| `(.*?)`; `(.*?)` \|$', table, re.M)
        assert len(rows) >= 4
        for code, place, line, witness, statement in rows:
            lines = right.splitlines()
            lines[int(place) - 1:int(place)] = [line]
            done = ran(PROGRAM, 'run', '--explain', text=True, input='\n'.join(lines))
            assert (done.returncode, done.stdout) == (1, '')
            first = explained(code).splitlines()[0]
            assert done.stderr.splitlines() == [f'refused {code} line 0', witness, statement, first]

    def test_the_model_says_the_same_of_each_code(self):
        assert [line for line in explained().splitlines() if line.split(':')[0] in MEANINGS] == [f'{it}: {MEANINGS[it]}' for it in MEANINGS]

    def test_texts_fit_a_terminal(self):
        for code in CODES:
            text = explained(code)
            assert text.isascii()
            for line in text.splitlines()[1:]:
                assert len(line) <= 110

    def test_the_page_has_each_code_with_the_same_reason(self):
        """A row of a table of docs/FORMATS.md or docs/COMMANDS.md has the code and the reason of the list."""
        rows = [line for page in ('FORMATS.md', 'COMMANDS.md') for line in read_text('docs', page).splitlines() if line.startswith('|')]
        for line in explained().splitlines():
            code, reason = line.split(': ', 1)
            assert any(re.match(rf'\| `?(refused )?{code}`? \| {re.escape(reason)}', row) for row in rows), reason


def test_program_and_model_explain_what_is_refused_alike():
    """Drawn texts and images: of people who have not read the form, with words and bytes changed, and with groups that do not fit."""
    cases = list(compare.refused(random.Random('refused'), argparse.Namespace(count=40, systematic=False, random=True)))
    notes = []
    for case in cases:
        _, real, model = compare.compared((PROGRAM, case))
        assert real == model, case
        notes.append(compare.model_answers(*case, compare.MOST_BYTES)[2])
    for sentence in (': write ', 'number of nanoseconds', 'bits per second', 'a name is', 'CRLF', 'spaces', 'pcap', 'the kind of', 'groups: '):
        assert any(sentence in note for note in notes), sentence


def test_a_file_that_cannot_be_read_is_explained_alike(tmp_path):
    (tmp_path / 'folder').mkdir()
    (tmp_path / 'closed').write_text('sim 5\n')
    for name, why in (('none.txt', b'No such file or directory\n'), ('folder', b'Is a directory\n'),
                      ('closed/file', b'Not a directory\n')):
        path = str(tmp_path / name)
        note = b'cannot read %s\n' % path.encode()
        for word in ('run', 'debug'):
            for answer in (outcome, of_model):
                assert answer([word, path], b'') == (3, note, b'')
                assert answer([word, '--explain', path], b'') == (3, note + why, b'')
