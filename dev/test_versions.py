"""Tests of versions and licenses: the version is one wherever it stands, each format is what its number stands for, and what
is linked or inlined is in THIRD-PARTY with its license.
"""
import functools
import hashlib
import json
import os
import re
import shutil
import subprocess

import pytest

from build import declared, toolchain
from clone import BUILT as PROGRAM, TOP, read, read_text
from tcpsim import FORMATS, VERSIONS, __version__
from tcpsim.sweeps.columns import FROM
from tcpsim_model import conditions, figures, grammar, image, missing, prompt, texts
from tcpsim_model.text import assemble

BY_TIME = 4         # the number of the figures' format from which on they are there by time and with names
SAMPLES = 'three_losses', 'newreno_in_a_network', 'codel_drops_before_it_sends', 'two_flows_over_a_router', 'delayed_acknowledgement'
# Of each format, what its samples come to under each number that it had. A row stays; a change adds one.
SUMS = {
    'trace': {1: '310741f06a26d0f03f20e82591033bcc34555b647a86cf9247ad2375b269d673'},
    'image': {1: '2b8b018d7b3d64e3a36de9d9bd6bf9060dff8e80aca2d1d6911c165993b0e344',
              2: 'de7c8e8492e842135b272ed296464491bb5cfea322acc171ee7c6c0d0b37fc62'},
    'figures': {1: '07379970f447a5675127215933c9ca806fe81777301fc3d82c037b934a872009',
                2: 'a5a273eacd6ae41ac1b2500ada1b4a7f1c60579914ef3d0a89cc3b62cebb035c',
                3: '9a91d5ca7836e1db6338b0c9b9abbaa4966552d9744570a8f1eee96d5727dca2',
                4: 'bf2d1450e862c4265a6f7b480fba19cbdcef70af53146c9474878741151a30d5'},
    # No number of the prompt below 14 was released, and their rows went with the model's grammars of those numbers. The sum
    # of 14 had the number with which each name came; now it has the names alone, and no answer changed.
    'prompt': {14: 'be25e20e35bec77dcb69e86a14ad6ca42421ce0907a9cb271d53104f57386364'},
}


def samples(of):
    return [read('dev', 'whole', f'{name}.{of}') for name in SAMPLES]


def images(version):
    return [image.save(assemble(text), version) for text in samples('txt')]


def prompt_words():
    """All that the prompt's grammar has: names, conditions, topics, fates of packets, displays, and what refusals expect."""
    told = missing.FATES, texts.EXPECTED_TOLD, texts.THERE_TOLD, texts.USES_TOLD
    return [*grammar.NAMES, *conditions.OF_VALUES, *texts.TOPICS, *conditions.DISPLAYED, *conditions.VALUE_WORDS, repr(told).encode()]


def named_by_time(scenario):
    """A table with names, and rows by time behind it."""
    names = figures.names_of(scenario)
    return ''.join([figures.figures(scenario, 0, names), *figures.series(scenario, 1_000_000, 500_000, names)]).encode()


def sum_of(format_, number):
    """What the samples of a format come to."""
    first = assemble(read('examples', 'one_segment.txt'))
    parts = {'trace': lambda: samples('trace'), 'image': lambda: images(number), 'prompt': prompt_words,
             'figures': lambda: [re.sub(r'[^,]*$', '', figures.figures(first), flags=re.M).encode(),
                                 *([figures.figures(first, 2_000_000).encode()] if number >= FROM else []),
                                 *([named_by_time(first)] if number >= BY_TIME else [])]}[format_]()
    taken = hashlib.sha256()
    for part in parts:
        taken.update(b'%d\n%s' % (len(part), part))
    return taken.hexdigest()


def said(*words):
    return subprocess.run(words, capture_output=True, text=True, check=True, stdin=subprocess.DEVNULL).stdout


def in_source():
    """The version that stands in the program's source."""
    return re.search(r'^const VERSION: &str = "(.*)";$', read_text('crates', 'command_line', 'src', 'words.rt'), re.M)[1]


# ---- versions

@pytest.mark.parametrize('name', FORMATS)
def test_a_format_is_what_its_number_stands_for(name):
    """Where this fails on purpose, raise the number in python/tcpsim/__init__.py, add its sum here, and say in CHANGELOG.md
    what changed."""
    assert sum_of(name, FORMATS[name]) == SUMS[name].get(FORMATS[name])
    assert FORMATS[name] == max(SUMS[name])


def test_images_of_the_first_version_are_what_they_were():
    assert sum_of('image', 1) == SUMS['image'][1]


def test_the_model_has_the_same_numbers():
    assert FORMATS['prompt'] == prompt.FORMAT
    assert FORMATS['image'] == max(image.MAGIC)


def test_the_version_is_one_wherever_it_stands():
    for name in os.listdir(os.path.join(TOP, 'man')):
        assert f'"tcpsim {__version__}"' in read_text('man', name).splitlines()[0], name
    assert json.loads(read_text('editors', 'vscode', 'package.json'))['version'] == __version__
    assert f'\ntcpsim {VERSIONS}\n' in read_text('docs', 'FORMATS.md')
    assert f'have one version, {__version__} now' in read_text('docs', 'FORMATS.md')


def test_the_changes_begin_with_this_version():
    head, formats = re.findall(r'^## (\S+).*\n\nFormats: (.*)\.$', read_text('CHANGELOG.md'), re.M)[0]
    assert f'{head} ({formats})' == VERSIONS


def test_the_formats_table_has_each_number():
    table = read_text('docs', 'FORMATS.md').partition('\n## Versions\n')[2]
    for name, number in FORMATS.items():
        assert f'\n| {name} | {number} | ' in table


@pytest.mark.skipif(not os.path.exists(PROGRAM), reason='the program is not built')
def test_the_program_says_what_its_source_has():
    assert said(PROGRAM, '--version') == said(PROGRAM, '-V') == f'tcpsim {in_source()}\n'


def test_the_program_has_the_version_of_all():
    assert in_source() == VERSIONS


@pytest.mark.parametrize('page', ['CHANGELOG.md', 'SECURITY.md'])
def test_links_and_files_that_a_page_names_are_there(page):
    text = read_text(page)
    for target in re.findall(r'\]\(([^)\s]+)\)', text):
        path, _, place = target.partition('#')
        heads = re.findall(r'^#+ (.*)', read_text(path), re.M)
        assert not place or place in {head.lower().replace(' ', '-') for head in heads}, target
    for path in re.findall(r'`((?:dev|python|docs)/[\w/.]+)`', text):
        assert os.path.exists(os.path.join(TOP, path)), path


# ---- licenses

kit = functools.cache(toolchain)


def linked():
    """The crates of the kit that are linked into the program, by what each names that it stands on."""
    own = declared()
    left, found = {'core', 'std', *(it for names in own.values() for it in names if it not in own)}, set()
    while left:
        crate = left.pop()
        found.add(crate)
        with open(f'{kit()}/rlibs/{crate}.rlib/format', 'rb') as file:
            left |= {it.decode() for it in re.findall(rb'^dep (\w+)$', file.read(), re.M)} - found
    return found


def listed(part):
    """The rows of a part of THIRD-PARTY: the words of each, by its first."""
    text = read_text('THIRD-PARTY').partition(f'\n{part}. ')[2].partition('\n\n\n')[0]
    rows = re.findall(r'^  (\S.*?)  +(\S.*?)  +(\S.*?)  +([A-C])$', re.split(r'^\d\. ', text, flags=re.M)[0], re.M)
    return {name: more for name, *more in rows}


@pytest.mark.skipif(not shutil.which('rt'), reason='the toolchain is not there')
def test_third_party_has_each_crate_of_the_kit():
    crates, text = listed(1), read_text('THIRD-PARTY')
    licensed = {it for it in linked() if any(name.startswith('LICENSE') for name in os.listdir(f'{kit()}/rattle/{it}'))}
    assert set(crates) == licensed
    without = re.search(r'---\n((?:  .*\n)+)\nOf the system', text)[1]
    assert set(re.findall(r'\w+', without.partition(', and the C')[0])) == linked() - licensed


@pytest.mark.skipif(not shutil.which('rt'), reason='the toolchain is not there')
def test_third_party_has_their_terms():
    """The text of each license is there as the kit has it, with the names of its holders."""
    text = ' '.join(read_text('THIRD-PARTY').split())
    for crate in listed(1):
        folder = f'{kit()}/rattle/{crate}'
        name = next(it for it in ('LICENSE-MIT', 'LICENSE') if os.path.exists(f'{folder}/{it}'))
        with open(f'{folder}/{name}', encoding='utf-8') as file:
            lines = [line for line in file.read().splitlines() if line != 'The MIT License (MIT)']
        holders = [line for line in lines if line.startswith('Copyright')]
        terms = ' '.join(' '.join(line for line in lines if line not in holders).split())
        assert terms in text, crate
        for holder in holders:
            assert f'{holder} ({crate})' in text


def test_third_party_has_what_pages_hold():
    vendor = os.path.join(TOP, 'python', 'tcpsim', 'replay', 'web', 'vendor')
    with open(os.path.join(vendor, 'LICENSE'), encoding='utf-8') as file:
        first, _, terms = file.read().partition('\n\n')
    version, license_, _ = listed(2)['d3.js']
    assert version.partition(' ')[0] in first and license_ == 'BSD-3-Clause'
    assert ' '.join(terms.split()) in ' '.join(read_text('THIRD-PARTY').split())


def test_licenses_are_named():
    mit, apache = read_text('LICENSE-MIT'), read_text('LICENSE-APACHE')
    assert mit.startswith('Copyright (c) 2026 the tcpsim authors\n\nPermission is hereby granted, free of charge, to any\n')
    assert mit.endswith('DEALINGS IN THE SOFTWARE.\n')
    assert hashlib.sha256(apache.encode()).hexdigest() == 'cfc7749b96f63bd31c3c42b5c471bf756814053e847c10f3eb003417bc523d30'
    for page in ('README.md', os.path.join('man', 'tcpsim.1')):
        assert 'LICENSE-MIT' in read_text(page) and 'LICENSE-APACHE' in read_text(page) and 'THIRD-PARTY' in read_text(page)
    for name in os.listdir(os.path.join(TOP, 'man')):
        assert 'LICENSE-MIT' in read_text('man', name)
    project = read_text('python', 'pyproject.toml')
    assert 'license = {text = "MIT OR Apache-2.0"}' in project
    assert json.loads(read_text('editors', 'vscode', 'package.json'))['license'] == '(MIT OR Apache-2.0)'
