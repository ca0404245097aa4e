#!/usr/bin/env python3
"""Writes the replay page of every example into a folder, with an index.html that lists them.

Usage: dev/pages.py [-o FOLDER] [--examples FOLDER]

An example is a scenario NAME.txt with its trace NAME.trace. The list has the lessons of docs/TUTORIAL.md in their order,
each with its sentence and the pages of its examples, and then those that are in no lesson, each with the remark that its
scenario begins with. The folder, `pages` where none is named, can be copied and shown without a network.
"""
import html
import os
import sys

from clone import TOP
from lessons import lessons
from tcpsim.command_line import Words, run
from tcpsim.output import opened, written
from tcpsim.replay.page import page
from tcpsim.replay.recording import Part
from tcpsim.scenario.text import Unreadable
from tcpsim.whole_trace import opened_run

INDEX = '''<!DOCTYPE html>
<html lang="en">
<head>
<meta charset="utf-8">
<meta name="viewport" content="width=device-width">
<title>Runs of tcpsim</title>
<style>
body {{ font: 16px/1.45 sans-serif; max-width: 60em; margin: 1.5em auto; padding: 0 1em; color: #111; }}
li {{ margin: 0 0 .8em; }}
li p {{ margin: .1em 0; }}
a:focus-visible {{ outline: 3px solid #0072B2; }}
</style>
</head>
<body>
<h1>Runs of tcpsim</h1>
{lists}
</body>
</html>
'''


def names_in(folder):
    """The examples of a folder: scenarios that have a trace beside them."""
    files = set(os.listdir(folder))
    return sorted(file[:-4] for file in files if file.endswith('.txt') and file[:-4] + '.trace' in files)


def remark(text):
    """The words of the comment lines that a scenario begins with."""
    words = []
    for line in text.split('\n'):
        if not line.startswith('#'):
            break
        words.append(line[1:].strip())
    return ' '.join(words)


def write_one(folder, name, out):
    """Writes one example's page; answers its link, with how many events it has, and its scenario's remark."""
    given, title = os.path.join(folder, name), name.replace('_', ' ')
    try:
        with opened_run(given + '.txt', given + '.trace') as (scenario, lines):
            part = Part(scenario, lines)
    except Unreadable as wrong:
        raise Unreadable(f'{given}.trace: {wrong}') from wrong
    with written(os.path.join(out, name + '.html')) as file:
        file.write(page(title, scenario, part))
    return (f'<a href="{html.escape(name)}.html">{html.escape(title)}</a> ({len(part.lines):,} events)',
            html.escape(remark(scenario.text)))


def lists_of(links):
    """The lists of the page: lessons in the tutorial's order with their sentences, then what is in none."""
    rest, taught = dict(links), []
    for lesson in lessons():
        own = [links[name][0] for name in lesson.examples if name in links]
        for name in lesson.examples:
            rest.pop(name, None)
        if own:
            taught.append(f'<li value="{lesson.number}"><strong>{html.escape(lesson.name)}</strong>'
                          f'<p>{html.escape(lesson.sentence)}</p><p>{", ".join(own)}</p></li>')
    rows = [f'<li>{link}<br>{words}</li>' for link, words in rest.values()]
    parts = [('Lessons', 'ol', taught), ('More', 'ul', rows)] if taught else [('', 'ol', rows)]
    return '\n'.join((f'<h2>{title}</h2>\n' if title else '') + f'<{tag}>\n' + '\n'.join(entries) + f'\n</{tag}>'
                     for title, tag, entries in parts if entries)


def write_all(folder, out):
    """Writes every example's page and the list; answers how many."""
    names = names_in(folder)
    if not names:
        raise Unreadable(f'{folder} has no scenario NAME.txt with its NAME.trace')
    os.makedirs(out, exist_ok=True)
    links = {name: write_one(folder, name, out) for name in names}
    with written(os.path.join(out, 'index.html')) as file:
        file.write(INDEX.format(lists=lists_of(links)))
    return len(names)


def main():
    words = Words(description='The replay pages of all examples, and a list of them.')
    words.add_argument('-o', dest='out', default='pages', metavar='FOLDER', help='else `pages`, here')
    words.add_argument('--examples', default=os.path.join(TOP, 'examples'), metavar='FOLDER')
    given = words.parse_args()
    said = f'{write_all(given.examples, given.out)} pages: {os.path.join(given.out, "index.html")}\n'
    with opened() as file:
        file.write(said)


if __name__ == '__main__':
    sys.exit(run('__main__'))
