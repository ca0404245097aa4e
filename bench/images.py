#!/usr/bin/env python3
"""Measures what images cost and writes that section of bench/RESULTS.md: bench/images.py [--program PATH]

`bench/measure.py` writes the section too. Instructions are counted by valgrind, those of one function
and what it calls; seconds are whole runs of the program, and say only what the machine at hand did.
"""
import os
import re
import subprocess
import sys
import tempfile

from results import ENVIRONMENT, TOP, put_section, table, timed, words_of
from scenarios import SCENARIOS, assemble, disassemble
from tcpsim_model import image

HEAD = '## Images\n'
FIRST = os.path.join(TOP, 'examples', 'one_segment.txt')
NAMES = 'chain', 'dumbbell_codel', 'tree', 'largest'
LOAD_MS, SAVE_MS = 20, 10
LOAD, SAVE = 'sessions::scenario_input::reported_scenario', 'sessions::conversion::put_image'


def cost(said, name):
    found = re.search(rf'^ *([\d,]+) .*:{name}\b', said, re.M)
    if not found:
        sys.exit(f'the program has no function {name} of its own: what it costs can not be counted')
    return int(found[1].replace(',', ''))


def costs(program, subcommand, path, work):
    """Instructions of the functions that load an image and save it, with what they call."""
    out = os.path.join(work, 'callgrind')
    with open(path, 'rb') as given:
        subprocess.run(['valgrind', '--tool=callgrind', f'--callgrind-out-file={out}', program, subcommand], stdin=given,
                       stdout=subprocess.DEVNULL, stderr=subprocess.DEVNULL, env=ENVIRONMENT, check=True)
    said = subprocess.run(['callgrind_annotate', '--inclusive=yes', '--threshold=100', out], capture_output=True,
                          text=True, env=ENVIRONMENT, check=True).stdout
    return cost(said, LOAD), cost(said, SAVE)


def milliseconds(program, subcommand, path):
    """The least of eleven runs."""
    def run():
        with open(path, 'rb') as given:
            subprocess.run([program, subcommand], stdin=given, stdout=subprocess.DEVNULL, env=ENVIRONMENT, check=True)
    return min(timed(run) for _ in range(11)) * 1000


def rows(program):
    with open(FIRST, 'rb') as first:
        scenarios = [('one_segment', assemble(first.read()))]
    scenarios += [(name, SCENARIOS[name]()) for name in NAMES]
    with tempfile.TemporaryDirectory() as work:
        for name, scenario in scenarios:
            data, text = os.path.join(work, name + '.tcb'), os.path.join(work, name + '.txt')
            for path, what in ((data, image.save(scenario)), (text, disassemble(scenario))):
                with open(path, 'wb') as file:
                    file.write(what)
            size = os.path.getsize(data)
            load, save = costs(program, 'asm', data, work)
            yield (f'`{name}`', f'{size:,}', f'{load:,}', f'{load / size:.1f}', f'{save:,}', f'{save / size:.1f}',
                   *(f'{milliseconds(program, words, path):.1f}' for words, path in (('asm', data), ('dis', data), ('asm', text))))


def section(program):
    yield HEAD
    yield ('Instructions of `asm` on the images of some scenarios (bench/scenarios.py), in all and for each byte of image. Loading '
           'includes the check of the scenario, saving the writing. `largest` has 256 nodes of which 128 are routers, 1,024 links '
           'with 64 lost packets each, 64 flows and 16,384 routes. Milliseconds are whole runs of the program.\n'
           f'The bound for the largest image is {LOAD_MS} ms to load and {SAVE_MS} to save.\n')
    heads = ('Scenario', 'Bytes of image', 'Instructions to load', 'for each byte', 'to save', 'for each byte', '`asm` of the image, ms',
             '`dis` of it, ms', '`asm` of the text, ms')
    yield from table(heads, rows(program))


def main(words=None):
    put_section(HEAD, section(words_of(__doc__).parse_args(words).program))


if __name__ == '__main__':
    main()
