"""What the program is asked natively and in the page, for dev/test_page.py: words, standard input and a file each. Inputs
come from the examples, docs/FORMATS.md and docs/COMMANDS.md, the rows of dev/whole and the draws of dev/compare.py.
"""
import argparse
import hashlib
import itertools
import os
import random
import re
import subprocess
import tempfile
from collections import namedtuple

import compare
from clone import BUILT as PROGRAM, TOP, read
from tcpsim_model import image, spelling
from tcpsim_model.text import assemble
from whole.images import CHANGED, FIRST_IMAGE, IN_VERSION_1

FILE = compare.FILE
CODES = [f'E{k}' for k in range(1, 11)] + [f'L{k}' for k in range(1, 9)] + ['I1', 'B1', 'B2', 'B3', 'B4', 'B5', 'M', 'groups']
LONGEST = 120           # seconds that the native program may take
MOST_BYTES = 4_000_000  # of the output of a drawn case

# Words of the command line, standard input, and the file that FILE among the words stands for (None where none does).
Case = namedtuple('Case', 'words input file', defaults=(b'', None))
# Status, note, and the length and the SHA-256 of the output.
Answer = namedtuple('Answer', 'status note length sum')


def on_one_processor():
    """Has this process, and what it runs, use one processor alone."""
    if hasattr(os, 'sched_setaffinity'):
        os.sched_setaffinity(0, {min(os.sched_getaffinity(0))})


def native(case, program=PROGRAM, most=None):
    """What the native program answers on one processor, as a page has: on two `run` may tell of its progress more often. None
    where it writes more than `most` bytes."""
    with tempfile.TemporaryDirectory() as folder:
        if case.file is not None:
            with open(os.path.join(folder, FILE), 'wb') as file:
                file.write(case.file)
        done = subprocess.run([program, *case.words], input=case.input, capture_output=True, cwd=folder, timeout=LONGEST, check=False,
                              env={'PATH': '/usr/bin:/bin', 'LC_ALL': 'C'}, preexec_fn=on_one_processor)
    if most and len(done.stdout) > most:
        return None
    return Answer(done.returncode, done.stderr.decode('latin1'), len(done.stdout), hashlib.sha256(done.stdout).hexdigest())


def of_examples():
    """Every example by every command, as a text and as an image of both versions, by workers, and its session."""
    for name in sorted(it[:-4] for it in os.listdir(f'{TOP}/examples') if it.endswith('.txt')):
        text = read('examples', f'{name}.txt')
        for words in (('run',), ('run', '--workers', '4', '--groups', 'each'), ('run', '--progress', '--workers', '2', '--groups', 'auto'),
                      ('figures',), ('asm',), ('dis',)):
            yield Case(words, text)
        for version in (1, 2):
            yield from (Case((word,), image.save(assemble(text), version)) for word in ('run', 'figures', 'asm', 'dis'))
        steps = [b'step 5', b'why 0', b'break drop', b'run', b'state', b'back 2', b'lines 4', b'reverse', b'until 1s', b'breaks']
        yield Case(('debug',), text + b'---\n' + b'\n'.join(steps) + b'\n')
        yield Case(('debug', FILE), b'\n'.join(steps) + b'\nquit\n', text)
        if os.path.exists(f'{TOP}/examples/{name}.commands'):
            yield Case(('debug', FILE), read('examples', f'{name}.commands'), text)


def of_words():
    """What is asked without a scenario."""
    yield from (Case(('explain', code)) for code in CODES)
    for words in ((), ('--help',), ('--version',), ('explain',), ('run', '--help'), ('debug', '--help'), ('explain', 'E99'), ('rnu',),
                  ('run', '--workers', '0'), ('run', 'none.txt'), ('run', '--groups', '0')):
        yield Case(words, spelling.SMALL)


ROW = re.compile(r'^\| ([EL]\d+) \| (.*?) \| (.*?) \| (.*) \|$', re.M)
LINE = re.compile(r'line (\d+): `([^`]*)`')


def of_formats():
    """Each refusal of the table of docs/FORMATS.md with the notes that stand there: (case, note)."""
    page = read('docs', 'FORMATS.md').decode()
    part = page.partition('### Refusals')[2].partition('### Canonical text')[0]
    right = re.findall(r'^```\n(.*?)^```', part, re.M | re.S)[0].splitlines()
    changed = {'E1': [{1: 'sim 5\r'}], 'E9': [dict(enumerate((f'lose a {k}' for k in range(1, 66)), 12))],
               'L3': [{1: 'sim 1', 9: right[8].replace(' 1 0 64000', ' 1 1 64000')}],
               'L8': [{4: f'{right[3]}\nnode q router', 8: right[7] + '\nlink e p q 8000000 1000000 droptail 10\nlink g q p 8000000 1000000 droptail 10',
                       10: 'route p r e\nroute q r g'}]}
    for code, _, example, notes in ROW.findall(part):
        texts = changed.get(code) or [{int(number): line} for number, line in LINE.findall(example)]
        notes = re.findall(r'`([^`]+)`', notes)
        assert len(texts) == len(notes), (code, texts, notes)
        for change, note in zip(texts, notes):
            lines = [*right, *[''] * max(0, max(change) - len(right))]
            for number, line in change.items():
                lines[number - 1] = line
            yield Case(('run',), '\n'.join(lines).encode() + b'\n'), note
    yield Case(('asm',), b'\n' * 16_777_217), 'refused I1'
    yield Case(('run', '--groups', '0'), '\n'.join(right).encode()), 'refused groups'


def of_refusals():
    """Refusals with their explanations, by every command that judges; those of images; and those of sessions."""
    for case, _ in of_formats():
        for words in (('run', '--explain'), ('figures', '--explain'), ('asm',), ('dis', '--explain')):
            if len(case.input) < 1_000_000:
                yield Case(words, case.input)
    for place, digits, _ in CHANGED:
        for base in (FIRST_IMAGE, IN_VERSION_1):
            new = bytes.fromhex(digits)
            yield Case(('dis', '--explain'), base[:place] + new + base[place + len(new):])
    for size in range(len(FIRST_IMAGE) + 1):
        yield Case(('run', '--explain'), FIRST_IMAGE[:size])
    for data in (FIRST_IMAGE, IN_VERSION_1):
        yield from (Case((word,), data) for word in ('run', 'figures', 'asm', 'dis'))
    page = read('docs', 'COMMANDS.md').decode()
    for code, example in re.findall(r'^\| `refused (B\d)` \|.*\| ([^|]*) \|$', page, re.M):
        lines = re.findall(r'`([^`]*)`', example)
        if code == 'B4':
            lines = [f'break node 0 byte {k}' for k in range(64)] + ['break node 1']
        keys = '\n'.join(lines).encode() + b'\n'
        yield Case(('debug', FILE), keys, spelling.FULL)
        yield Case(('debug',), spelling.FULL + b'---\n' + keys)


def drawn(count, seed=1):
    """So many drawn cases: runs most of all, and texts, images, figures, sessions and prompts."""
    args = argparse.Namespace(count=count, options=True, systematic=False, random=True)
    shares = {'runs': 10, 'figures': 4, 'images': 2, 'texts': 2, 'debug': 1, 'prompt': 1}
    for kind, share in shares.items():
        pick = random.Random(f'page {kind} {seed}')
        for words, data in itertools.islice(compare.KINDS[kind](pick, args), count * share // sum(shares.values())):
            scenario, keys = compare.parts_of(words, data)
            yield Case(words, keys, scenario if FILE in words else None)
