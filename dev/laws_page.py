#!/usr/bin/env python3
"""Writes docs/LAWS.md: each law of every run in the words that stand at its function, and its statement, with every definition of
run_laws and of table_run's Laws that it goes by. A law that changes changes the page.

    dev/laws_page.py
"""
import os
import re
import textwrap

from clone import TOP, read_text

PAGE = 'docs/LAWS.md'
SOURCE = 'crates/run_laws/src/laws.rt'
SPECS = ['crates/table_run/specs/Laws.antt'] + [f'crates/run_laws/specs/{it}' for it in sorted(os.listdir(f'{TOP}/crates/run_laws/specs')) if it != 'Lib.antt']
WIDTH = 118
HEAD = '''# Each law, and its statement

These laws hold in every run of every scenario. Each is the contract of a function of [run_laws](../crates/run_laws/src/laws.rt), whose body is empty. [THEOREM.md](THEOREM.md#laws-of-every-run) lists them by what they speak of.
A statement comes with the definitions that it goes by, each where it is used first. Definitions of other crates, of fields, queues and links, are in their specs. `python3 dev/laws_page.py` writes this page from the sources. `make test` fails if it differs, so a law that is weakened is a changed page.
'''


def laws():
    """Of each law its function, its words and its clauses."""
    for words, name, clauses in re.findall(r'((?:^///.*\n)+)^pub fn (\w+)\(\)\n((?: +ensures .*\n)+)', read_text(SOURCE), re.M):
        yield name, ' '.join(re.findall(r'^/// ?(.*)', words, re.M)), re.findall(r'ensures (?:\w+ )?\{ (.*) \}', clauses)


def definitions():
    """The text of each definition with its comment, by its name, and the file that it is in."""
    found = {}
    for path in SPECS:
        for block in re.split(r'\n\n+', read_text(path)):
            name = re.search(r'^(?:abbrev |unfoldable )?pub (?:record |data )?(\w+)', block, re.M)
            if name and 'use ' not in block.split('\n', 1)[0]:
                found[name[1]] = block.strip('\n'), path
    return found


def wrapped(text):
    """Code whose long lines are broken."""
    for line in text.split('\n'):
        indent = ' ' * (len(line) - len(line.lstrip()) + 4)
        yield from textwrap.wrap(line, WIDTH, subsequent_indent='-- ' if line.startswith('--') else indent, break_long_words=False, break_on_hyphens=False)


def shown_by(text, known, shown):
    """The definitions that a text goes by and that were not shown, each behind those that it goes by itself."""
    for name in re.findall(r'\w+', re.sub(r'^--.*', '', text, flags=re.M)):
        if name in known and name not in shown:
            shown.add(name)
            yield from shown_by(known[name][0], known, shown)
            yield name


def statement(law):
    """A law's clauses, and the texts of all definitions that they go by."""
    known: dict[str, tuple] = definitions()
    shown: set[str] = set()
    clauses = next(clauses for name, _, clauses in laws() if name == law)
    return [*clauses, *(known[it][0] for clause in clauses for it in shown_by(clause, known, shown))]


def page():
    known, lines = definitions(), [HEAD]
    shown: set[str] = set()
    for name, words, clauses in laws():
        lines += [f'## {name}', '', words, '', '```', *(line for it in clauses for line in wrapped(it)), '```', '']
        used = [it for clause in clauses for it in shown_by(clause, known, shown)]
        if used:
            lines += ['```', *(line for at, it in enumerate(used) for line in [*([''] if at else []), *wrapped(known[it][0])]), '```', '']
    return '\n'.join(lines).rstrip('\n') + '\n'


if __name__ == '__main__':
    with open(os.path.join(TOP, PAGE), 'w', encoding='utf-8') as out:
        out.write(page())
