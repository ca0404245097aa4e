#!/usr/bin/env python3
"""Tries the wrong tables of dev/wrong_tables.txt: mistakes in the definitions alone, which the laws of every run (docs/LAWS.md)
must refuse. The prover then cannot prove one of the laws that the table names.

    dev/wrong_tables.py [--check] [--due] [--lanes N] [WORD ..]

With words only the tables whose names have them all are tried, with --due only those of which bench/wrong_tables.csv has no row
that still fits. The crates from the edited definition up to run_laws are checked as source, so far as the proofs of the laws
cite them, over what `make run` keeps of those below. Before, the same laws are proved so without an edit. A table takes a minute
of a processor, so all are tried by hand, before a release. bench/wrong_tables.csv keeps of each table that was refused the laws
that refused it, a sum of what was tried, the day and the toolchain. --check proves nothing, and says which edits no longer fit.
The status is 1 where a table was not refused.
"""
import argparse
import concurrent.futures
import datetime
import hashlib
import os
import re
import shutil
import subprocess
import sys
import tempfile
import threading

import build
import laws_page
import mutants
from clone import read_text

TABLES, RECORD, FIELDS = f'{build.TOP}/dev/wrong_tables.txt', f'{build.TOP}/bench/wrong_tables.csv', ('table', 'refused by', 'sum', 'date', 'toolchain')
LAWS = 'run_laws'
JUDGED = re.compile(rf'fn {LAWS}::laws::(\w+): (proved|not proved)$')


class Table:
    """A wrong table: its name, the laws that it names, the changes that it asks for, by crate, and those by which the model makes
    the same mistake."""

    def __init__(self, block):
        self.name, *lines = block.split('\n')
        self.laws: list[str] = []
        self.pairs: dict[str, list[tuple[str, str, str]]] = {}
        self.model: list[tuple[str, str, str]] = []
        crate = path = old = ''
        for line in lines:
            word, _, rest = line.partition(': ')
            if word == 'laws':
                self.laws = rest.split()
            elif word == 'file':
                _, crate, path = rest.split('/', 2)
            elif word == 'old':
                old = rest.replace('\\n', '\n')
            elif word == 'new':
                pairs = self.model if crate == 'tcpsim_model' else self.pairs.setdefault(crate, [])
                pairs.append((path, old, rest.replace('\\n', '\n')))

    def fault(self):
        """Why it can't be made in the crates; None where it can."""
        known = [name for name, _, _ in laws_page.laws()]
        strange = [it for it in self.laws if it not in known]
        if strange or not self.laws:
            return f'there is no law {" ".join(strange)}'
        for crate, pairs in self.pairs.items():
            _, why = mutants.made(pairs, f'{build.TOP}/crates/{crate}')
            if why:
                return why
        return None if self.pairs else 'it has no edit'

    def sources(self, libraries):
        """The crates from the edited ones up to that of the laws."""
        below = build.below(LAWS, libraries)
        return tuple(it for it in below if it in self.pairs or any(edited in build.below(it, libraries) for edited in self.pairs))

    def sum(self, laws):
        """A sum of what a try is of: the edited files, as they are and as they are edited, and the statements of the laws."""
        taken = hashlib.sha256()
        for crate, pairs in self.pairs.items():
            texts, _ = mutants.made(pairs, f'{build.TOP}/crates/{crate}')
            for path, text in texts.items():
                taken.update(f'{crate}/{path}\0{read_text(f"crates/{crate}/{path}")}\0{text}\0'.encode())
        for law in laws:
            taken.update('\0'.join(laws_page.statement(law)).encode() + b'\0')
        return taken.hexdigest()[:16]


def tables():
    text = re.sub(r'^#.*\n', '', read_text('dev/wrong_tables.txt'), flags=re.M)
    return [Table(block) for block in re.split(r'\n\n+', text.strip('\n'))]


def kept():
    """The rows of the record, by table."""
    return mutants.record(RECORD, 'table')


def is_kept(table, row):
    """Whether a row is of what the table is now."""
    return bool(row) and table.sum(row['refused by'].split()) == row['sum']


def keep(table, laws, toolchain):
    """Keeps which laws refused a table, in the order of the tables; where none did, no row."""
    rows = kept()
    rows.pop(table.name, None)
    if laws:
        rows[table.name] = dict(zip(FIELDS, (table.name, ' '.join(laws), table.sum(laws), datetime.date.today(), toolchain)))
    mutants.keep_record(RECORD, FIELDS, [rows[it.name] for it in tables() if it.name in rows])


def check_words(kit, libraries, sources, folder, laws):
    """The command that proves laws over these crates' sources, which lie in a folder."""
    words = [f'{kit}/bin/rattle', 'check', '--crate-name', LAWS, f'{build.TOP}/crates/{LAWS}/src/lib.rt']
    for it in dict.fromkeys(['core', 'std', *(it for crate in (LAWS, *sources) for it in libraries[crate])]):
        if it not in sources:
            words += ['--extern', f'{it}={build.KEPT if it in libraries else f"{kit}/rlibs"}/{it}.rlib']
    for it in sources:
        words += ['--lib', f'{it}:{",".join(dict.fromkeys(["core", "std", *libraries[it]]))}={folder}/{it}/src/lib.rt']
    words += ['-L', f'dependency={kit}/rlibs', '-L', f'dependency={build.KEPT}', '--links', f'{LAWS}=', '--jobs', '1']
    words += ['--antt-project', f'{kit}/rattle/logic/antt-project.json', '--logic-built', f'{kit}/logic_built']
    return [*words, *(word for law in laws for word in ('--only', f'laws::{law}'))]


def prove(kit, libraries, sources, laws, pairs=()):
    """Which of the laws are proved and which are not with these changes, and what the prover found first; or None, and why there
    is no verdict."""
    with tempfile.TemporaryDirectory(prefix='wrong-tables-') as folder:
        for crate in sources:
            for part in build.PARTS:
                if os.path.isdir(f'{build.TOP}/crates/{crate}/{part}'):
                    shutil.copytree(f'{build.TOP}/crates/{crate}/{part}', f'{folder}/{crate}/{part}')
        for crate, changes in dict(pairs).items():
            texts, _ = mutants.made(changes, f'{build.TOP}/crates/{crate}')
            for path, text in texts.items():
                with open(f'{folder}/{crate}/{path}', 'w', encoding='utf-8') as file:
                    file.write(text)
        done = subprocess.run(check_words(kit, libraries, sources, folder, laws), cwd=build.TOP, stdin=subprocess.DEVNULL,
                              stdout=subprocess.PIPE, stderr=subprocess.STDOUT, text=True, errors='replace')
        said = done.stdout.splitlines()
    faults = [at for at in map(mutants.FAULT.match, said) if at]
    # A definition with a fault is no table at all, wrong or right.
    unread = [at for at in faults if '/specs/' in at[1]]
    judged = {at[1]: at[2] for at in map(JUDGED.match, said) if at}
    if unread or set(judged) != set(laws):
        return None, f'there is no verdict: {(unread[0][0] if unread else said[-1] if said else "it printed nothing")[:300]}'
    first = f'{re.sub(r".*/(?=[a-z_]+/proofs/)", "", faults[0][1])} {faults[0][2] or ""}'.strip() if faults else ''
    return judged, first


def tried(kit, libraries, table):
    """The laws that refuse a table, and what to say."""
    why = table.fault()
    if why:
        return [], f'{table.name}: FAILED: {why}'
    judged, what = prove(kit, libraries, table.sources(libraries), table.laws, table.pairs)
    if judged is None:
        return [], f'{table.name}: FAILED: {what}'
    laws = [law for law in table.laws if judged[law] == 'not proved']
    return laws, f'{table.name}: refused by {", ".join(laws)} ({what})' if laws else f'{table.name}: NOT REFUSED by {", ".join(table.laws)}'


def main():
    reader = argparse.ArgumentParser(description='Tries wrong tables, which the laws must refuse.')
    reader.add_argument('--check', action='store_true', help='prove nothing, see that each edit fits')
    reader.add_argument('--due', action='store_true', help='only tables of which the record has no row that fits')
    reader.add_argument('--lanes', type=int, default=0, help='how many at once (left out: one a processor)')
    reader.add_argument('words', nargs='*', metavar='WORD', help='words of a name (left out: all tables)')
    given = reader.parse_args()
    rows = kept()
    chosen = [it for it in tables() if all(word in it.name for word in given.words) and not (given.due and is_kept(it, rows.get(it.name)))]
    if not chosen:
        sys.exit('there is no such wrong table to try')
    if given.check:
        faults = [(it.name, why) for it in chosen for why in [it.fault()] if why]
        print(*(f'{name}: FAILED: {why}' for name, why in faults), f'{len(chosen) - len(faults)} fit, {len(faults)} failed', sep='\n')
        return 1 if faults else 0
    kit, libraries = build.toolchain(), build.declared()
    toolchain = subprocess.run(['rt', 'version'], capture_output=True, text=True, check=True).stdout.strip()
    lock, refused = threading.Lock(), 0
    with concurrent.futures.ThreadPoolExecutor(build.jobs_at_once(given.lanes)) as pool:
        plain: dict[tuple[str, ...], set[str]] = {}
        for it in chosen:
            if not it.fault():
                plain.setdefault(it.sources(libraries), set()).update(it.laws)
        for judged, what in pool.map(lambda it: prove(kit, libraries, it[0], sorted(it[1])), plain.items()):
            if judged is None or 'not proved' in judged.values():
                sys.exit(f'without an edit: {what}')
        print(f'{len(set().union(*plain.values()))} laws are proved over sources', flush=True)

        def one(table):
            laws, words = tried(kit, libraries, table)
            with lock:
                keep(table, laws, toolchain)
            return bool(laws), words

        for is_refused, words in pool.map(one, chosen):
            print(words, flush=True)
            refused += is_refused
    print(f'{refused} refused, {len(chosen) - refused} failed')
    return 0 if refused == len(chosen) else 1


if __name__ == '__main__':
    sys.exit(main())
