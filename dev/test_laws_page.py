"""Tests of docs/LAWS.md beside the laws that it shows."""
import re

import laws_page
from clone import read_text


def test_the_page_is_as_it_is_written():
    """`python3 dev/laws_page.py` writes it, so that no law changes unseen."""
    assert laws_page.page() == read_text(laws_page.PAGE)


def test_each_law_is_there_with_its_words_and_its_section():
    found = list(laws_page.laws())
    functions = re.findall(r'^pub fn (\w+)', read_text(laws_page.SOURCE), re.M)
    assert [name for name, _, _ in found] == functions and len(functions) > 30
    assert all(words and clauses for _, words, clauses in found)


def test_a_weaker_definition_is_another_page(monkeypatch):
    known = laws_page.definitions()
    text, path = known['FitsWindows']
    weaker = {**known, 'FitsWindows': (text.replace('2 * g.mss', '3 * g.mss'), path)}
    assert weaker != known
    monkeypatch.setattr(laws_page, 'definitions', lambda: weaker)
    assert laws_page.page() != read_text(laws_page.PAGE)


def test_theorem_lists_each_law():
    page = read_text('docs', 'THEOREM.md').partition('## Laws of every run')[2].partition('\n## ')[0]
    assert set(re.findall(r'`(\w+)` \|$', page, re.M)) == {name for name, _, _ in laws_page.laws()} | {'numbers_never_fall'}
