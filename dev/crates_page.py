#!/usr/bin/env python3
"""Writes the parts of two pages that list the crates: docs/ARCHITECTURE.md has their levels, from crates.txt, and crates/README.md
has a row for each, from the first sentence of its code.

    dev/crates_page.py [--files FILE]

With --files it writes another page, as `make install` does: a row for each file, from its first sentence, and one for each crate
whose lemmas others use, from the lines `use Rattle.CRATE.proofs..` of their files.
"""
import argparse
import glob
import os
import re
from collections import defaultdict

TOP = os.path.dirname(os.path.dirname(os.path.abspath(__file__)))
BEGIN, END = '<!-- {} of dev/crates_page.py -->\n', '<!-- its end -->'
MOST_WORDS = 25     # of a cell, as of any sentence (dev/style.py)
# The crates in the order in which one reads them, each with the file to open first.
GROUPS = {
    'The kernel: queues, senders, receivers, one event at a time': {
        'sim_time': 'src/key.rt', 'packet_chain': 'src/chain.rt', 'aqm': 'src/queue.rt', 'port': 'src/port.rt', 'reno_sender': 'src/sender.rt',
        'reno_receiver': 'src/receiver.rt', 'tournament': 'src/timetable.rt', 'node_core': 'src/fire.rt', 'table_run': 'specs/State.antt',
        'net_machine': 'src/net.rt', 'net_watch': 'src/one_loop.rt'},
    'Windows and workers': {
        'net_partition': 'src/partition.rt', 'window_law': 'src/laws.rt', 'line_merge': 'src/merge.rt', 'node_group': 'src/group.rt',
        'window_core': 'src/window.rt', 'work_board': 'src/board.rt', 'thread_pool': 'src/pool.rt', 'window_text': 'src/formatter.rt',
        'window_workers': 'src/workers.rt', 'window_engine': 'src/engine.rt'},
    'Scenarios': {'scenario_image': 'src/scenario.rt', 'scenario_asm': 'src/assembler.rt', 'explanations': 'src/texts.rt'},
    'Texts and figures': {'trace_text': 'src/line.rt', 'flow_waits': 'src/waits.rt', 'figures': 'src/figures.rt', 'figures_text': 'src/table.rt'},
    'The debugger': {'breakpoints': 'src/breaks.rt', 'debugger': 'src/moves.rt', 'prompt_words': 'src/reading.rt',
        'debug_session': 'src/typed_reply.rt'},
    'The program': {'command_line': 'src/words.rt', 'sessions': 'src/session.rt', 'tcpsim': 'src/main.rt'},
    'Laws of every run': {'run_laws': 'src/laws.rt'},
    'Tests, by public calls alone': {
        'tests_ends': 'src/senders.rt', 'tests_parts': 'src/lib.rt', 'tests_texts': 'src/texts.rt', 'tests_nets': 'src/lib.rt',
        'tests_engine': 'src/engines.rt', 'tests_program': 'src/whole.rt'}}


def crates():
    """Of each crate, in the order of crates.txt, those of the project that its line names."""
    with open(os.path.join(TOP, 'crates.txt'), encoding='utf-8') as file:
        lines = [line.partition(':') for line in file if ':' in line and not line.startswith('#')]
    below = {head.split()[0]: tail.split() for head, _, tail in lines}
    return {name: [it for it in named if it in below] for name, named in below.items()}


def levels():
    """A figure: a crate names only crates of lower levels."""
    at = {}

    def level(name):
        if name not in at:
            at[name] = 1 + max(map(level, crates()[name]), default=0)
        return at[name]
    rows = defaultdict(list)
    for name in crates():
        rows[level(name)].append(name)
    yield '```'
    yield from (f'{number:3}  {"  ".join(rows[number])}' for number in sorted(rows, reverse=True))
    yield '```'


def first_sentence(path):
    """What a file says of itself first, as much of it as a cell may have: up to a sign where it is too long."""
    mark = '//!' if path.endswith('.rt') else '--'
    with open(path, encoding='utf-8') as file:
        lines = file.read().split('\n')
    said = []
    for line in lines:
        if line.startswith(mark) and line[len(mark):].strip():
            said.append(line[len(mark):].strip())
        elif said or not line.startswith(mark):
            break
    sentence = re.split(r'(?<=[^.]\.)\s', ' '.join(said) + ' ', maxsplit=1)[0].strip().rstrip('.')
    if len(sentence.split()) > MOST_WORDS:
        begin = ' '.join(sentence.split()[:MOST_WORDS])
        sentence = (re.findall(r'^(.*)[;:]', begin) or re.findall(r'^(.*),', begin))[0]
    return sentence.replace('|', '\\|')


def files(crate, folder, kind):
    """The files of a crate's folder, each with what it says of itself; the file that lists the others is left out."""
    top = os.path.join(TOP, 'crates', crate, folder)
    for path in sorted(glob.glob(f'{top}/**/*.{kind}', recursive=True), key=lambda it: it[:-len(kind)].lower()):
        name = os.path.relpath(path, top)
        if name not in ('lib.rt', 'Lib.antt') and first_sentence(path):
            yield name, first_sentence(path)


def nearest(name):
    """The crates that a crate depends on, without those that these depend on."""
    below = crates()
    further = {it for of in below[name] for it in below[of]}
    return [it for it in below[name] if it not in further]


def of_crates():
    """For each group a table: a row for each crate, with the first sentence of its code and the crates that it depends on directly."""
    for group, files_of in GROUPS.items():
        yield from (f'## {group}', '', '| Crate | What it is | Open first | Depends on |', '|---|---|---|---|')
        for name, first in files_of.items():
            main_file, = glob.glob(f'{TOP}/crates/{name}/src/lib.rt') or glob.glob(f'{TOP}/crates/{name}/src/main.rt')
            yield f'| [{name}]({name}) | {first_sentence(main_file)} | [{first}]({name}/{first}) | {", ".join(nearest(name))} |'
        yield ''


def of_files():
    """Of each crate, a row for each file of code, and one for each file of definitions."""
    for crate in crates():
        yield f'## {crate}'
        for folder, kind, head in (('src', 'rt', 'Code'), ('specs', 'antt', 'Definitions')):
            rows = [f'| [{name}](../crates/{crate}/{folder}/{name}) | {said} |' for name, said in files(crate, folder, kind)]
            if rows:
                yield from ('', f'| {head} | What |', '|---|---|', *rows)
        yield ''


def lemmas():
    """A row for each crate whose lemmas others use: the modules in its proofs/, and who uses them."""
    taken: defaultdict[str, defaultdict[str, set[str]]] = defaultdict(lambda: defaultdict(set))
    for name in crates():
        for path in glob.glob(f'{TOP}/crates/{name}/*/**/*.*t', recursive=True):
            if path.split(os.sep)[-1].endswith(('.rt', '.antt')) and f'/{name}/out/' not in path:
                with open(path, encoding='utf-8') as file:
                    for of, module in re.findall(r'\bRattle\.(\w+)\.proofs\.([\w.]*\w)', file.read()):
                        if of != name and of in crates():
                            taken[of][module.partition('.')[0]].add(name)
    yield '| Lemmas of | In its `proofs/` | Used by |'
    yield '|---|---|---|'
    for name in crates():
        by_takers = defaultdict(list)
        for module in sorted(taken[name]):
            by_takers[', '.join(it for it in crates() if it in taken[name][module])].append(f'`{module}`')
        yield from (f'| {name} | {", ".join(modules)} | {takers} |' for takers, modules in by_takers.items())


PAGES = {'docs/ARCHITECTURE.md': {'the levels': levels}, 'crates/README.md': {'the crates': of_crates}}


def page_of_files():
    """The page of all files."""
    return '\n'.join([
        '# Crates and their files', '',
        'What does each file contain? This is the first sentence of each. Code is in a crate\'s `src/`, definitions in its `specs/`, '
        'proofs in its `proofs/`.', '',
        'A crate\'s code and definitions name only public calls, types, contracts and definitions of others. Its proofs may use lemmas of '
        'the crates that it depends on:', '', *lemmas(), '', *of_files()])


def page(text, parts):
    """The page with its parts as they are now."""
    for name, made in parts.items():
        before, begin, behind = text.partition(BEGIN.format(name))
        text = before + begin + '\n'.join(made()) + '\n' + behind[behind.index(END):]
    return text


def main():
    reader = argparse.ArgumentParser(description=__doc__.splitlines()[0])
    reader.add_argument('--files', metavar='FILE', help='write the page of all files, and no other')
    given = reader.parse_args()
    if given.files:
        with open(given.files, 'w', encoding='utf-8') as file:
            file.write(page_of_files())
        return
    for name, parts in PAGES.items():
        with open(os.path.join(TOP, name), encoding='utf-8') as file:
            now = page(file.read(), parts)
        with open(os.path.join(TOP, name), 'w', encoding='utf-8') as file:
            file.write(now)


if __name__ == '__main__':
    main()
