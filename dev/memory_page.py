#!/usr/bin/env python3
"""Writes what docs/MEMORY.md has of the public calls of the crates, from their sources: those that can be refused memory and change
nothing then, those that free what they are given, and those that are never refused. What another call leaves stands on the page by
hand, in its three tables, with the clauses that say so.

    dev/memory_page.py
"""
import collections
import functools
import os
import re

from clone import TOP, read_text

PAGE = os.path.join(TOP, 'docs', 'MEMORY.md')
BEGIN, END = '<!-- {} of dev/memory_page.py -->\n', '<!-- its end -->'
# Crates that have tests alone and what these run by, and the program, which has no call but `main`.
WITHOUT_CALLS = {'tests_ends', 'tests_texts', 'tests_parts', 'tests_nets', 'tests_engine', 'tests_program', 'tcpsim'}
# Types that are numbers or the like: who gives one keeps it.
PLAIN = re.compile(r'(u8|u16|u32|u64|u128|usize|bool|Global|Time|Key|Break|Packet|Action|Limits|Subcommand|LoadFault)$')
# The page's tables that are written by hand.
REFUSED, GOES_ON, TOLD = ('Calls that can be refused', 'Calls that go on without', 'Answers that name the refusal of another call')

Call = collections.namedtuple('Call', 'crate file owner name taken answer clauses')


def crates():
    names = re.findall(r'^(\w+).*:', read_text('crates.txt'), re.M)
    return [name for name in names if name not in WITHOUT_CALLS]


def sources(crate):
    """Each source of a crate: its path below src, and its lines."""
    top = os.path.join(TOP, 'crates', crate, 'src')
    for at, _, files in sorted(os.walk(top)):
        for file in sorted(files):
            yield os.path.relpath(os.path.join(at, file), top), read_text(at, file)


def visible(crate):
    """The modules of a crate that are seen from outside, and the names that its modules pass on."""
    texts = dict(sources(crate))
    modules, names = set(), set()

    def look(path, text):
        names.update(re.findall(r'\w+', ' '.join(re.findall(r'^pub use ([^;]+);', text, re.M))))
        for name in re.findall(r'^pub mod (\w+);', text, re.M):
            modules.add((*path, name))
            look((*path, name), texts['/'.join((*path, name)) + '.rt'])
    look((), texts['lib.rt'])
    return modules, names


def until_body(lines, at):
    """The lines of a function, or of an `impl`, up to where its body begins."""
    for end in range(at, len(lines)):
        line = lines[end].strip()
        if line in ('{', '{}') or line.endswith((' {', ' {}', ';')) and not line.startswith(('ensures', 'requires')):
            return lines[at:end + 1]
    raise ValueError(lines[at])


def call_at(crate, file, owner, lines, at):
    head = until_body(lines, at)
    words = [line for line in head if not re.match(r'\s*(ensures|requires|decreases|//|ghost)', line)]
    said = ' '.join(' '.join(words).split()).rstrip('{}; ')
    name = re.findall(r'fn (\w+)', said)[0]
    rest = said[said.index(name) + len(name):]
    if rest.startswith('<'):
        rest = rest[end_of(rest.replace('->', '  '), '<', '>'):]
    taken, _, answer = rest.partition(' -> ')
    clauses = [found[1] for found in (re.match(r'\s*ensures (\w*) ?\{', line) for line in head) if found]
    return Call(crate, file, owner, name, taken.strip('()').strip(', '), answer, clauses)


def end_of(text, opens, closes):
    depth = 0
    for at, sign in enumerate(text):
        depth += (sign == opens) - (sign == closes)
        if not depth:
            return at + 1
    raise ValueError(text)


def public_calls(crate):
    """Every public function of the crate that is seen from outside, the laws left out: they have no code."""
    modules, names = visible(crate)
    texts = list(sources(crate))
    homes = {name: tuple(file[:-3].split('/')) for file, text in texts
             for name in re.findall(r'^pub (?:struct|enum|trait) (\w+)', text, re.M)}
    for file, text in texts:
        lines, owner, is_trait, of_trait = text.split('\n'), None, False, False
        for at, line in enumerate(lines):
            begins = re.match(r'(?:unsafe )?impl\b', line)
            if begins:
                head = ' '.join(until_body(lines, at))
                head = head[begins.end():]
                if head.startswith('<'):
                    head = head[end_of(head, '<', '>'):]
                of_trait = ' for ' in head
                owner, is_trait = re.findall(r'^\s*(?:&(?:mut )?)?(\w+)', head.rpartition(' for ')[2])[0], False
            elif trait := re.match(r'pub trait (\w+)', line):
                owner, is_trait, of_trait = trait[1], True, False
            elif line == '}':
                owner, is_trait, of_trait = None, False, False
            found = re.match(r'( *)(pub )?(?:const )?fn (\w+)', line)
            if not found or of_trait or not (found[2] or is_trait):
                continue
            call = call_at(crate, file, owner, lines, at)
            home = homes.get(owner) if owner else tuple(file[:-3].split('/'))
            if (home in modules or (owner or call.name) in names) and (call.taken or call.answer):
                yield call


def refusals():
    """The types of answers that name a refusal of memory: those of the kit (`Error` is clap's), and the crates' own faults, by the
    name of the case."""
    found = {'AllocError', 'AllocFailed', 'Outcome', 'Error'}
    for crate in crates():
        for _, text in sources(crate):
            for name, cases in re.findall(r'^pub enum (\w+) \{\n(.*?)^\}', text, re.M | re.S):
                if re.search(r'^ +NoMemory\b', cases, re.M):
                    found.add(name)
    return found


def name_of(call):
    return f'{call.owner}::{call.name}' if call.owner else call.name


@functools.cache
def calls():
    """All public calls, by their crates and names."""
    return {(crate, name_of(call)): call for crate in crates() for call in public_calls(crate)}


def arguments(call):
    """What a call is given: a type for each."""
    depth, piece, pieces = 0, '', []
    for sign in call.taken + ',':
        depth += (sign in '<([') - (sign in '>)]')
        if sign == ',' and not depth:
            pieces.append(piece.strip())
            piece = ''
        else:
            piece += sign
    return [piece.partition(': ')[2] or piece for piece in pieces if piece]



def is_kept(argument):
    """Whether who gives it keeps it as it was."""
    return argument.startswith('&') and not argument.startswith('&mut') or bool(PLAIN.search(argument))


def by_hand(text, *heads):
    """The rows of tables of the page that are written by hand: crate, call, what is left or done, and what says so."""
    parts = re.split(r'^## (.*)\n', text, flags=re.M)
    for head, part in zip(parts[1::2], parts[2::2]):
        if head in heads:
            for crate, calls_, left, said in re.findall(r'^\| (\w+) \| (`[^|]*) \| ([^|]+) \| ([^|]+) \|$', part, re.M):
                for name in re.findall(r'`([^`]+)`', calls_):
                    yield crate, name, left, said


def refused():
    """The calls whose answers have a case for refused memory."""
    types = refusals()
    return [at for at, call in calls().items() if types & set(re.findall(r'\w+', call.answer))]


def left_over(text):
    """The calls that can be refused and that no table by hand has."""
    named = {(crate, name) for crate, name, _, _ in by_hand(text, REFUSED, TOLD)}
    return [at for at in refused() if at not in named]


def only_reads(at):
    return all(map(is_kept, arguments(calls()[at])))


def reading(text):
    """The calls to which nothing is lent to be changed, and nothing given away."""
    return [at for at in left_over(text) if only_reads(at)]


def freeing(text):
    """The calls that are given something, and to which nothing is lent to be changed. Of any other the page has to say more."""
    found = [at for at in left_over(text) if not only_reads(at)]
    for at in found:
        assert '&mut' not in calls()[at].taken, f'{at}: what does it leave? A table of docs/MEMORY.md has to say so'
    return found


def never(text):
    """The calls that are never refused any."""
    named = {(crate, name) for crate, name, _, _ in by_hand(text, GOES_ON, TOLD)} | set(refused())
    return [at for at in calls() if at not in named]


PARTS = {'what only reads': reading, 'what frees': freeing, 'what takes none': never}


def table(found):
    """A row for each type of a crate, and one for the calls of none."""
    yield '| Crate | Of | Calls |'
    yield '|---|---|---|'
    by_owner = collections.defaultdict(list)
    for crate, name in found:
        owner, _, call = name.rpartition('::')
        by_owner[crate, owner].append(f'`{call}`')
    for crate, owner in sorted(by_owner, key=lambda it: (crates().index(it[0]), it[1])):
        yield f'| {crate} | {f"`{owner}`" if owner else ""} | {", ".join(by_owner[crate, owner])} |'


def page(text):
    """The page with its parts as they are now."""
    for name, found in PARTS.items():
        before, begin, behind = text.partition(BEGIN.format(name))
        text = before + begin + '\n'.join(table(found(text))) + '\n' + behind[behind.index(END):]
    return text


if __name__ == '__main__':
    now = page(read_text(PAGE))
    with open(PAGE, 'w', encoding='utf-8') as page_file:
        page_file.write(now)
