#!/usr/bin/env python3
"""Tries the mutants that stand beside the gate: each file of crates/NAME/mutants/ is an edit of that
crate which the prover must refuse.

Usage: dev/mutants.py [--check | --due [--begun SECONDS]] [NAME ..]

With names only these crates are looked at. Each edit is made in a copy of its crate and checked over the
statements that `make run`, or else `rt ci`, kept of the crates below; the crate itself is proved there
first. An edit is refused where `rt must-fail` would call it so: the prover can read it, and not prove it.
A line tells what became of each edit that was tried or that failed. The last line is 'N refused, M
failed', with --check 'N can be applied, M failed'; the status is 1 where one failed. bench/mutants.csv
keeps of each crate whose mutants were all refused a sum of its files and of theirs, how many there were,
the day and the toolchain.

With --check nothing is proved: it says which edits of both folders, of must-fail/ too, can't be applied any
more. With --due, the last step of `make test`, it names the crates whose sum is another than the kept one.
Where CI=true it tries theirs, if there is a kept one, the most changed first, for twenty minutes, and says what
it left out; it does not begin later than 130 minutes after the second that --begun names. It keeps nothing.
"""
import argparse
import concurrent.futures
import contextlib
import csv
import datetime
import hashlib
import os
import re
import shutil
import signal
import subprocess
import sys
import threading
import time

import build
import pass_gate

TOP = os.path.dirname(os.path.dirname(os.path.abspath(__file__)))
PARTS = build.PARTS
RECORD, FIELDS = f'{TOP}/bench/mutants.csv', ('crate', 'sum', 'refused', 'date', 'toolchain')
NAMED = re.compile(r'[A-Za-z0-9_-][A-Za-z0-9_.-]*\.edit')
# A fault that the prover found, and in it, outside of quotes, that it could not read the text.
FAULT = re.compile(r'(?:\./)?(\S+?):\d+:\d+: error: (?:(`[^`]*`): )?(.*)')
UNREAD = re.compile('is not in scope|has no field|is no name|operand is missing|expected the end|cannot continue')
REFUSED = 'refused, as it must be'
# How long --due tries mutants, and how long after the beginning of `make test` it may begin to, in seconds.
TRYING, LATEST = 20 * 60, 130 * 60


# ---- whether an edit can be applied

def pairs_of(edit):
    """The changes that an edit asks for, each as (path, old text, new text)."""
    path, old, pairs = '', '', []
    with open(edit, encoding='utf-8') as file:
        for line in file.read().split('\n'):
            if line.startswith('file: '):
                path = line.removeprefix('file: ').strip()
            elif line.startswith('old: '):
                old = line.removeprefix('old: ')
            elif line.startswith('new:'):
                pairs.append((path, old, line.removeprefix('new:').removeprefix(' ')))
                old = ''
    return pairs


def made(pairs, folder):
    """The texts, by path, that these changes make in the crate of this folder, each after those before it, and None; or
    None and why they can't be made."""
    texts = {}
    for path, old, new in pairs:
        if os.path.normpath(path) != path or path.split('/')[0] not in PARTS:
            return None, "a pair has no 'file:' line before it that names a file below src/, specs/ or proofs/"
        if not old:
            return None, "a 'new:' line has no 'old:' line before it"
        if path not in texts:
            if not os.path.isfile(f'{folder}/{path}'):
                return None, f'there is no file {path}'
            with open(f'{folder}/{path}', encoding='utf-8') as file:
                texts[path] = file.read()
        found = texts[path].count(old)
        if found != 1:
            return None, f"an 'old:' text is in {path} {found} times, and not once"
        texts[path] = texts[path].replace(old, new)
    return (texts, None) if texts else (None, "it has no pair of an 'old:' and a 'new:' line")


def edited(edit, folder):
    """The same of an edit's file."""
    if not NAMED.fullmatch(os.path.basename(edit)) or not os.path.isfile(edit):
        return None, 'it is no file whose name is of letters, digits, _, - and . and ends in .edit'
    try:
        return made(pairs_of(edit), folder)
    except (OSError, UnicodeDecodeError) as error:
        return None, f'it cannot be read ({error})'


def edits_in(folder):
    """The files of a folder of edits, in one order. A page that is only read (.md) is none."""
    names = sorted(os.listdir(folder)) if os.path.isdir(folder) else []
    return [f'{folder}/{name}' for name in names if not name.endswith('.md')]


def check(names):
    """Says which edits can't be applied; answers how many can, and how many can't."""
    fit, failed = 0, 0
    for name in names:
        folder = f'{TOP}/crates/{name}'
        for edit in [*edits_in(f'{folder}/must-fail'), *edits_in(f'{folder}/mutants')]:
            _, fault = edited(edit, folder)
            if fault:
                print(f'{os.path.relpath(edit, TOP)}: FAILED: {fault}')
            fit, failed = fit + (not fault), failed + bool(fault)
    return fit, failed


# ---- the runs

class Provers:
    """The provers that run. They end at a moment, in seconds, or where this script is ended."""

    def __init__(self, until=None):
        self.until, self.running, self.lock = until, set(), threading.Lock()

    def run(self, words, folder):
        """Runs one; its exit status and the lines that it printed, or None where it was ended, or time is over."""
        with self.lock:
            left = None if self.until is None else self.until - time.time()
            if left is not None and left <= 0:
                return None
            prover = subprocess.Popen(words, cwd=folder, start_new_session=True, stdin=subprocess.DEVNULL, stdout=subprocess.PIPE,
                                      stderr=subprocess.STDOUT, text=True, errors='replace')
            self.running.add(prover)
        try:
            said = prover.communicate(timeout=left)[0].splitlines()
        except subprocess.TimeoutExpired:
            self.end()
            prover.communicate()
        with self.lock:
            self.running.discard(prover)
            return None if self.until == 0 else (prover.returncode, said or ['it printed nothing'])

    def end(self):
        """Ends all, and begins no other."""
        with self.lock:
            self.until = 0
            for prover in self.running:
                with contextlib.suppress(ProcessLookupError):
                    os.killpg(prover.pid, signal.SIGKILL)


def verdict(status, lines, changed):
    """What a check of an edited crate says of the edit, which changed these files."""
    for line in lines:
        at = FAULT.match(line)
        if at and (at[1] in changed or at[1].startswith(('src/', 'specs/'))) and (
                not at[2] or UNREAD.search(re.sub('`[^`]*`', '', at[3]))):
            return f'the prover cannot read the edited text: {line[:200]}'
    if status == 1 and lines[-1].startswith('logic=not-proved'):
        return REFUSED
    return 'NOT REFUSED: the crate is still proved with this edit' if status == 0 else f'there is no verdict: {lines[-1][:200]}'


class Tried:
    """One crate whose mutants are tried in a folder of its own, which then goes: what is kept there is large."""

    def __init__(self, name, words, folder, provers):
        """`words` are those of its check, made in its own folder."""
        self.name, self.words, self.folder, self.provers = name, words, folder, provers
        self.own = f'{TOP}/crates/{name}'

    def check(self, texts, kept):
        """Checks the crate with these texts, by path, over what earlier checks kept in this folder."""
        folder = f'{self.folder}/crate'
        shutil.rmtree(folder, ignore_errors=True)
        for part in PARTS:
            if os.path.isdir(f'{self.own}/{part}'):
                shutil.copytree(f'{self.own}/{part}', f'{folder}/{part}')
        for path, text in texts.items():
            with open(f'{folder}/{path}', 'w', encoding='utf-8') as file:
                file.write(text)
        return self.provers.run([*self.words, '--incremental', f'{self.folder}/{kept}'], folder)

    def all(self):
        """What became of each mutant of the crate, by its file's name; None is left where time was over."""
        told, fit = {}, {}
        for edit in edits_in(f'{self.own}/mutants'):
            file = os.path.basename(edit)
            texts, told[file] = edited(edit, self.own)
            if not told[file]:
                fit[file] = texts
        plain = self.check({}, 'kept') if fit else None
        if plain and plain[0]:
            return told | dict.fromkeys(fit, f'not tried, as {self.name} itself is not proved: {plain[1][-1]}')
        for file, texts in fit.items() if plain else ():
            # What is not refused over what was kept is tried once more, from nothing.
            for folder in ('kept', file):
                done = self.check(texts, folder)
                told[file] = verdict(done[0], done[1], texts) if done else None
                if told[file] in (REFUSED, None):
                    break
        shutil.rmtree(self.folder, ignore_errors=True)
        return told


def try_all(names, provers):
    """Tries the mutants of these crates and says what became of each; answers how many were refused and how many
    failed, and the crates of which some were not tried."""
    kit, libraries = build.toolchain(), build.declared()
    sums = build.sums_of(libraries, kit, libraries)
    refused, failed, left = {}, 0, []
    with build.room('mutants-', provers.end) as place, concurrent.futures.ThreadPoolExecutor(build.jobs_at_once(0)) as pool:
        running = {}
        for name in names:
            below = build.places_below(name, libraries, sums)
            if below is None:
                print(f'{name}: of what it stands on nothing is kept; `make run` proves and keeps that', flush=True)
                left.append(name)
                continue
            words = build.check_words(name, kit, 1, libraries, below, '.')
            running[pool.submit(Tried(name, words, f'{place}/{name}', provers).all)] = name
        try:
            for done in concurrent.futures.as_completed(running):
                name, told = running[done], done.result()
                for file, why in told.items():
                    if why:
                        print(f'crates/{name}/mutants/{file}: {"" if why == REFUSED else "FAILED: "}{why}', flush=True)
                refused[name] = sum(why == REFUSED for why in told.values())
                failed += sum(why not in (REFUSED, None) for why in told.values())
                left += [name] if None in told.values() else []
        finally:
            provers.end()
    return refused, failed, left


# ---- what was tried last

def sum_of(name):
    """A sum of a crate's files and of its mutants."""
    taken = hashlib.sha256()
    for path in [*build.files_of(name), *edits_in(f'{TOP}/crates/{name}/mutants')]:
        with open(path, 'rb') as file:
            taken.update(os.path.relpath(path, TOP).encode() + b'\0' + file.read() + b'\0')
    return taken.hexdigest()[:16]


def record(path, key):
    """The rows of a record, by one of its fields."""
    with contextlib.suppress(FileNotFoundError), open(path, encoding='utf-8', newline='') as file:
        return {row[key]: row for row in csv.DictReader(file)}
    return {}


def keep_record(path, fields, rows):
    """Writes a record anew."""
    with open(path, 'w', encoding='utf-8', newline='') as file:
        table = csv.DictWriter(file, fields, lineterminator='\n')
        table.writeheader()
        table.writerows(rows)


def kept():
    """The rows of the mutants' record, by crate."""
    return record(RECORD, 'crate')


def keep(refused, names):
    """Keeps of each crate how many mutants were refused, where all were; of the others that were tried nothing is kept."""
    rows = {name: row for name, row in kept().items() if name not in names}
    for name in names:
        if refused.get(name) == len(edits_in(f'{TOP}/crates/{name}/mutants')):
            rows[name] = dict(zip(FIELDS, (name, sum_of(name), refused[name], datetime.date.today(), pass_gate.said('rt', 'version'))))
    keep_record(RECORD, FIELDS, [rows[name] for name in build.declared() if name in rows])


def changed(name, row):
    """How many lines of a crate and of its mutants changed since the day of its row; all where it has none."""
    if not row:
        return build.lines_of(name)
    words = ['git', 'log', f'--since={row["date"]}T00:00', '--format=', '--numstat', '--']
    words += [f'crates/{name}/{it}' for it in (*PARTS, 'mutants')]
    said = subprocess.run(words, cwd=TOP, stdin=subprocess.DEVNULL, capture_output=True, text=True, check=False).stdout
    return sum(int(it) for line in said.splitlines() for it in line.split('\t')[:2] if it.isdigit())


def try_due(names, begun):
    """Names the crates whose mutants were last tried over other files. Where CI=true it tries, of those with a record, as
    many as there is time for; answers how many failed."""
    rows = kept()
    due = sorted((it for it in names if rows.get(it, {}).get('sum') != sum_of(it)), key=lambda it: -changed(it, rows.get(it)))
    print(f'mutants to try again, of {len(due)} crates (`make mutants`): {" ".join(due) or "none"}', flush=True)
    if not due or os.environ.get('CI') != 'true':
        return 0
    now = time.time()
    if begun and now - begun > LATEST:
        print(f'none is tried: `make test` began {(now - begun) / 60:.0f} minutes ago')
        return 0
    # What has no record yet was never tried so, and waits for who can mend it.
    refused, failed, left = try_all([it for it in due if it in rows], Provers(now + TRYING))
    late, new = (' '.join(them) or 'none' for them in ([it for it in due if it in left], [it for it in due if it not in rows]))
    print(f'{sum(refused.values())} refused, {failed} failed; left out for want of time: {late}, for want of a record: {new}')
    return failed


def main():
    reader = argparse.ArgumentParser(description='Tries the mutants of crates/NAME/mutants/.')
    reader.add_argument('--check', action='store_true', help='prove nothing, see that each edit can be applied')
    reader.add_argument('--due', action='store_true', help='name the crates that were last tried as others; try them where CI=true')
    reader.add_argument('--begun', type=int, metavar='SECONDS', help='when `make test` began, in seconds of the epoch')
    reader.add_argument('names', nargs='*', metavar='NAME', help='a crate (left out: all)')
    words = reader.parse_args()
    crates = build.declared()
    for name in words.names:
        if name not in crates:
            reader.error(f'crates.txt has no crate {name}')
    names = [it for it in crates if not words.names or it in words.names]
    if words.check:
        fit, failed = check(names)
        print(f'{fit} can be applied, {failed} failed')
        sys.exit(1 if failed else 0)
    having = [it for it in names if edits_in(f'{TOP}/crates/{it}/mutants')]
    if not having:
        sys.exit(f'there is nothing to try: none of {len(names)} crates has a folder mutants/ with an edit')
    try:
        if words.due:
            sys.exit(1 if try_due(having, words.begun) else 0)
        # The largest first, since those of one crate are tried one after another.
        refused, failed, left = try_all(sorted(having, key=lambda it: -build.lines_of(it)), Provers())
    except build.Refused as why:
        sys.exit(f'nothing is tried: {why}')
    keep(refused, having)
    print(f'{sum(refused.values())} refused, {failed + len(left)} failed')
    sys.exit(1 if failed or left else 0)


if __name__ == '__main__':
    main()
