#!/usr/bin/env python3
"""Writes each table of the pages in bench/ as a file of comma-separated values: bench/csv/PAGE-SECTION-N.csv.

    bench/tables.py            writes the files, and removes those of tables that are gone
    bench/tables.py --check    only says which files differ from their tables; status 1 where one does

The first line has the table's heads. A number has no commas, and no words have the marks of the page. The scripts
that measure write the pages, so that a number is measured and written once. `make bench` calls this at its end.
"""
import csv
import io
import os
import re
import sys

BENCH = os.path.dirname(os.path.abspath(__file__))
FOLDER = os.path.join(BENCH, 'csv')


def named(text):
    """A head as a part of a file's name."""
    return re.sub('[^a-z0-9]+', '-', text.lower()).strip('-')


def cell(text):
    """What a cell says, with no marks of the page."""
    said = re.sub(r'\[([^]]*)\]\([^)]*\)', r'\1', text.strip()).replace('`', '')
    return said.replace(',', '') if re.fullmatch(r'[+-]?\d{1,3}(,\d{3})+(\.\d+)?', said) else said


def cells(line):
    """The cells of a table's line."""
    return [cell(it) for it in line.strip().strip('|').split('|')]


def tables(page, text):
    """Each table of a page: the name of its file, and its rows, of which the first has the heads."""
    section, count, lines = '', 0, text.split('\n')
    for at, line in enumerate(lines):
        if line.startswith('#'):
            section, count = '' if line.startswith('# ') else named(line), 0
        elif re.match(r'\|[-:| ]+\|$', line):
            count += 1
            rows = [cells(lines[at - 1])]
            for row in lines[at + 1:]:
                if not row.startswith('|'):
                    break
                rows.append(cells(row))
            yield '-'.join(it for it in (named(page), section, str(count)) if it) + '.csv', rows


def written(rows):
    """The rows as the text of a file."""
    file = io.StringIO()
    csv.writer(file, lineterminator='\n').writerows(rows)
    return file.getvalue()


def wanted():
    """What each file is to have, by its name."""
    files = {}
    for page in sorted(os.listdir(BENCH)):
        if page.endswith('.md'):
            with open(os.path.join(BENCH, page), encoding='utf-8') as file:
                files.update((name, written(rows)) for name, rows in tables(page[:-3], file.read()))
    return files


def present():
    """What each file has, by its name."""
    files = {}
    for name in sorted(os.listdir(FOLDER)) if os.path.isdir(FOLDER) else []:
        with open(os.path.join(FOLDER, name), encoding='utf-8') as file:
            files[name] = file.read()
    return files


def main():
    if sys.argv[1:] not in ([], ['--check']):
        print(__doc__, end='')
        return 0 if sys.argv[1:] in (['-h'], ['--help']) else 2
    want, have = wanted(), present()
    differ = sorted(name for name in want.keys() | have.keys() if want.get(name) != have.get(name))
    if sys.argv[1:]:
        for name in differ:
            print(f'bench/csv/{name} differs from its table: run bench/tables.py')
        return 1 if differ else 0
    os.makedirs(FOLDER, exist_ok=True)
    for name in differ:
        path = os.path.join(FOLDER, name)
        if name in want:
            with open(path, 'w', encoding='utf-8') as file:
                file.write(want[name])
        else:
            os.remove(path)
    return 0


if __name__ == '__main__':
    sys.exit(main())
