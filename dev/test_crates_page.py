"""Tests of what crates/README.md, docs/ARCHITECTURE.md and the page of files have of the crates, beside crates.txt and the crates' files."""
import os
import re

import crates_page
import pytest
import style
from clone import TOP, read_text


@pytest.mark.parametrize('name', crates_page.PAGES)
def test_a_page_is_as_it_is_written(name):
    """`python3 dev/crates_page.py` writes it."""
    text = read_text(name)
    assert crates_page.page(text, crates_page.PAGES[name]) == text


def test_the_parts_are_read():
    rows = list(crates_page.lemmas())
    assert len(rows) > 20 and any(row.startswith('| tournament | ') and 'node_core' in row for row in rows)
    found = [word for row in list(crates_page.levels())[1:-1] for word in row.split()[1:]]
    assert sorted(found) == sorted(crates_page.crates())


def test_each_crate_has_a_row_and_a_file_to_open():
    rows = [re.match(r'\| \[(\w+)\]\(\1\) \| .+ \| \[(\S+)\]\(\1/\2\) \| [\w, ]*\|$', row) for row in crates_page.of_crates()
            if row.startswith('| [')]
    assert sorted(row[1] for row in rows) == sorted(crates_page.crates())
    for row in rows:
        assert os.path.isfile(f'{TOP}/crates/{row[1]}/{row[2]}')


def test_each_file_has_a_row():
    """But for the modules of crates of tests that begin with their first line of code."""
    page = crates_page.page_of_files()
    for crate in crates_page.crates():
        for folder, kind in (('src', 'rt'), ('specs', 'antt')):
            for at, _, names in os.walk(os.path.join(TOP, 'crates', crate, folder)):
                for name in names:
                    path = os.path.relpath(os.path.join(at, name), TOP)
                    if name.endswith('.' + kind) and not name.lower().startswith(('lib.', 'mod.')) and not crate.startswith('tests_'):
                        assert f'](../{path})' in page


@pytest.mark.parametrize('text, said', [
    ('//! A queue.\n', 'A queue'), ('//! A law (RFC 8289\n//! section 5.6). Another.\n', 'A law (RFC 8289 section 5.6)'), ('mod a;\n//! A.\n', ''),
    ('//! What a | b is.\n//!\n//! More.\n', r'What a \| b is'), (f'//! A, b; {"word " * 25}\n', 'A, b'), ('', '')])
def test_first_sentences(tmp_path, text, said):
    path = tmp_path / 'file.rt'
    path.write_text(text)
    assert crates_page.first_sentence(str(path)) == said


def test_cells_are_no_long_sentences():
    assert style.long_sentences('\n'.join(crates_page.of_files())) == []
