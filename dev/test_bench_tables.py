"""Each table of a page in bench/ stands in bench/csv too, number by number."""
import csv
import io

import tables

PAGE = '''# A page

| First | a number |
|---|--:|
| `one`, two | 1,234 |
| [a link](there.md) | 0.5 |

## A section, named

| Only | heads |
|---|---|

words
'''


def rows_of(text):
    return list(csv.reader(io.StringIO(text)))


def test_tables_of_a_page():
    made = dict(tables.tables('PAGE', PAGE))
    assert list(made) == ['page-1.csv', 'page-a-section-named-1.csv']
    assert rows_of(tables.written(made['page-1.csv'])) == [['First', 'a number'], ['one, two', '1234'], ['a link', '0.5']]
    assert made['page-a-section-named-1.csv'] == [['Only', 'heads']]


def test_files_are_the_pages_tables():
    want, have = tables.wanted(), tables.present()
    assert want and sorted(want) == sorted(have), 'run bench/tables.py'
    for name, text in want.items():
        assert have[name] == text, f'{name} differs from its table: run bench/tables.py'
        widths = {len(row) for row in rows_of(text)}
        assert len(widths) == 1, f'{name}: rows of {sorted(widths)} cells'
