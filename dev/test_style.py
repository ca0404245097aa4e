"""Tests that no page has more long sentences or lines than dev/style.txt allows it, and that dev/style.py finds them."""
import pytest

import style


@pytest.mark.parametrize('page', style.pages())
def test_a_page_gets_no_worse(page):
    """`python3 dev/style.py PAGE` prints its long sentences."""
    now, most = style.found()[page], style.bounds()[page]
    assert all(it <= bound for it, bound in zip(now, most)), f'{page}: {now}, where {most} are allowed'


def test_no_page_is_allowed_that_is_gone():
    assert set(style.allowed()) <= set(style.pages())


WORD = 'word ' * 25


@pytest.mark.parametrize('text, long', [
    (f'A {WORD}.', 1), (f'{WORD}.', 0), (f'A. A {WORD[5:]}. A.', 0), (f'- A {WORD}\n- a', 1), (f'- {WORD}\n- a {WORD}\n', 1), (f'## {WORD}', 0), (f'1. A {WORD}\n2. a', 1),
    (f'| {WORD} | {WORD} |\n', 0), (f'```\nA {WORD}\n```\n', 0), (f'A [{WORD}](a/b.md) b.', 1), (f'A [b](x.md) {WORD[5:]}', 1),
    ('A\nb ' * 13, 1), (f'(See. A {WORD[10:]}.) End', 0), (f'A {WORD[5:]}.. B', 1), (f'A {WORD[10:]}? B', 0)])
def test_sentences(text, long):
    assert len(style.long_sentences(text)) == long


def test_lines():
    assert style.counts('a' * 401 + '\n' + 'b' * 400 + '\n')[2:] == (1, 401)
