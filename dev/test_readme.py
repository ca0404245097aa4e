"""Tests of README.md and of the lists of pages: README is two pages, each of its commands runs as it
stands and prints what stands below it, docs/index.md has every page, docs/PROOFS.md every crate, and each place that
docs/GLOSSARY.md names is there.

The commands run in a folder of their own, with the project's folders in it. Left out are `make` and `apt-get`.
"""
import importlib.util
import os
import re
import sys

import pytest

from clone import TOP, ran, read_text

MOST_LINES, MOST_OF_A_LINE = 100, 400
MOST_OF_A_CRATE = 5     # points of docs/PROOFS.md


def blocks():
    """The blocks of README between fences, as lists of lines."""
    return [it.splitlines() for it in re.findall(r'^```\n(.*?)^```$', read_text('README.md'), re.M | re.S)]


def commands():
    """Each command, and the lines that stand below it, or None where none are shown."""
    for lines in blocks():
        if not lines[0].startswith('$ '):
            if re.match(r'[a-z]', lines[0]):
                yield from ((line, None) for line in lines)
            continue
        at = [place for place, line in enumerate(lines) if line.startswith('$ ')] + [len(lines)]
        for begin, end in zip(at, at[1:]):
            yield lines[begin][2:], lines[begin + 1:end]


def test_it_is_two_pages():
    lines = read_text('README.md').splitlines()
    assert len(lines) <= MOST_LINES
    for line in lines:
        assert len(line) <= MOST_OF_A_LINE, line


def test_its_links_lead_somewhere():
    for page in ('README.md', *(f'docs/{name}' for name in os.listdir(os.path.join(TOP, 'docs')) if name.endswith('.md'))):
        for target in re.findall(r'\]\(([^)\s]+)\)', read_text(page)):
            path, _, place = target.partition('#')
            if re.match(r'[a-z]+:', path):
                continue
            path = os.path.normpath(os.path.join(TOP, os.path.dirname(page), path)) if path else os.path.join(TOP, page)
            assert os.path.exists(path)
            if place:
                heads = re.findall(r'^#+ (.*)', read_text(os.path.relpath(path, TOP)), re.M)
                assert place in {re.sub(r'[^\w -]', '', head.lower()).replace(' ', '-') for head in heads}


def test_the_first_run_prints_what_is_shown():
    assert read_text('examples', 'one_segment.trace').splitlines() in blocks()


@pytest.fixture(scope='module')
def clone_of_links(tmp_path_factory):
    """A folder for all commands, since some read what those before them wrote."""
    folder = tmp_path_factory.mktemp('readme')
    for name in ('bin', 'crates', 'docs', 'examples'):
        os.symlink(os.path.join(TOP, name), folder / name)
    return folder


@pytest.mark.built
@pytest.mark.parametrize('command, shown', [it for it in commands() if not re.match('make|apt-get', it[0])])
def test_its_commands_run_as_they_stand(clone_of_links, command, shown):
    if 'tcpsim-plot' in command and not importlib.util.find_spec('matplotlib'):
        pytest.skip('no matplotlib: apt-get install python3-matplotlib')
    command = re.sub(r'^bin/', f'{sys.executable} bin/', command)
    done = ran('sh', '-c', command, cwd=clone_of_links, text=True, timeout=1200)
    assert done.returncode == 0, done.stderr
    lines = done.stdout.splitlines()
    if shown and shown[-1] == '...':
        assert lines[:len(shown) - 1] == shown[:-1]
        assert len(lines) >= len(shown)
    elif shown is not None:
        assert lines == shown


def test_commands_are_found():
    assert len([command for command, _ in commands() if not re.match('make|apt-get', command)]) >= 9


def test_the_index_has_each_page_once():
    found = re.findall(r'^- \[[^]]+\]\(([^)]+)\): .', read_text('docs', 'index.md'), re.M)
    wanted = [name for name in os.listdir(os.path.join(TOP, 'docs')) if name.endswith('.md') and name != 'index.md']
    wanted += ['../crates/README.md', *(f'../bench/{name}' for name in os.listdir(os.path.join(TOP, 'bench')) if name.endswith('.md'))]
    assert sorted(found) == sorted(wanted)


def test_the_glossary_names_files_that_are_there():
    found = re.findall(r'`((?:\w+/)+[\w.]+)`', read_text('docs', 'GLOSSARY.md'))
    assert len(found) > 30
    for path in found:
        assert os.path.exists(os.path.join(TOP, '' if path.startswith('dev/') else 'crates', path))


def test_the_glossary_has_few_words_of_builders():
    users, builders = [re.findall(r'^\| (.*?) \|', part, re.M)[1:] for part in read_text('docs', 'GLOSSARY.md').split('\n## ')[1:]]
    assert 20 < len(builders) < 30
    assert {'rto', 'goodput', 'BDP', "Jain's index", 'bufferbloat'} <= set(users)


def test_each_crate_has_some_points():
    crates = re.findall(r'^(\w+).*:', read_text('crates.txt'), re.M)
    part = read_text('docs', 'PROOFS.md').partition('\n## The crates')[2].partition('\n## ')[0]
    found = {}
    for head, text in re.findall(r'^### (.*)\n((?:(?!### ).*\n?)*)', part, re.M):
        for crate in head.split(', '):
            found[crate] = len(re.findall(r'^- ', text, re.M))
    assert sorted(crates) == sorted(found)
    for crate, points in found.items():
        assert 1 <= points <= MOST_OF_A_CRATE, points
