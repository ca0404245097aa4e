#!/usr/bin/env python3
"""Writes the page with the simulator: one file that works from a disk, with the proved program, the tutorial's lessons and
the runs of the examples in it (`make page`).

Usage: dev/page.py [-o FILE] [--pictures FOLDER]

--pictures writes the pictures of docs/PAGE.md, by headless Chromium. The file is out/page/tcpsim.html where none is named. The program in it is made of the module that dev/build.py keeps of the
native program's proof; another one is refused. It wants libjs-codemirror and python3-markdown of Debian.
"""
import base64
import hashlib
import html
import json
import os
import re
import sys
import tempfile
import zlib

import page_lessons
import page_module
from clone import TOP
from tcpsim import VERSIONS
from tcpsim.cli import net
from tcpsim.command_line import Refused, Words, run
from tcpsim.output import opened, written
from tcpsim.replay import page as replay
from tcpsim.scenario import units

WEB = os.path.join(TOP, 'page', 'web')
SCRIPTS = ('engine.js', 'scenario.js', 'units.js', 'shapes.js', 'hints.js', 'editor.js', 'drag.js', 'fairness.js', 'figures.js', 'stall_list.js', 'trace_list.js', 'completion.js', 'prompt.js', 'lessons.js',
           'net_text.js', 'template_form.js', 'parting.js', 'compare.js', 'spread.js', 'shelf_text.js', 'strips.js', 'strip_chart.js', 'shelf.js', 'share.js', 'picture.js', 'save.js', 'lecture.js',
           'panes.js', 'simulator.js')
EXAMPLES = os.path.join(TOP, 'examples')
GRAMMAR = os.path.join(TOP, 'editors', 'vscode', 'syntaxes', 'tcpsim.tmLanguage.json')
CODEMIRROR = '/usr/share/javascript/codemirror/lib'
LICENSES = '/usr/share/doc/libjs-codemirror/copyright', os.path.join(os.path.dirname(replay.LIBRARY), 'LICENSE')
# What the page may do: its own scripts and style, by their sums, the program, workers and pictures that it makes itself.
POLICY = ("default-src 'none'; script-src {scripts} 'wasm-unsafe-eval'; style-src {style}; worker-src blob:; img-src blob:; "
          "base-uri 'none'; form-action 'none'")


def read(*path):
    """A file's text."""
    with open(os.path.join(*path), encoding='utf-8') as file:
        return file.read()


def library(name):
    """A file of CodeMirror. Raises Refused where it is not there."""
    try:
        return read(CODEMIRROR, name)
    except FileNotFoundError:
        raise Refused(f'{CODEMIRROR}/{name} is not there: apt-get install libjs-codemirror') from None


def packed(data):
    """Bytes as they stand in the page: deflated, in base64."""
    return base64.b64encode(zlib.compress(data, 9)).decode('ascii')


def summed(text):
    """A source of a content security policy: the text's sum."""
    return f"'sha256-{base64.b64encode(hashlib.sha256(text.encode()).digest()).decode('ascii')}'"


def held(name, text, kind='text/plain'):
    """Data that the page holds, which no browser runs."""
    return f'<script type="{kind}" id="{name}">{text}</script>'


def examples():
    """The examples' texts and traces by name, in the order of their names."""
    names = sorted(it[:-4] for it in os.listdir(EXAMPLES) if it.endswith('.txt'))
    return {name: (read(EXAMPLES, f'{name}.txt'), read(EXAMPLES, f'{name}.trace')) for name in names}


def data_of(program, record, lessons):
    """What the page holds as data."""
    ones = examples()
    about = {'version': VERSIONS, **record, 'wasm': hashlib.sha256(program).hexdigest()}
    yield held('about', replay.for_script(about), 'application/json')
    yield held('grammar', replay.for_script(json.loads(read(GRAMMAR))), 'application/json')
    yield held('examples', replay.for_script({name: text for name, (text, _) in ones.items()}), 'application/json')
    # In a form an option is a field.
    helps = {name.lstrip('-').replace('-', '_'): re.sub(r'--(\w)', r'\1', str(facts['help'])) for name, facts in net.OPTIONS.items()}
    yield held('templates', replay.for_script({'ranges': units.RANGES, 'help': helps}), 'application/json')
    yield held('lessons', replay.for_script([it.facts() for it in lessons]), 'application/json')
    yield held('licenses', replay.for_script([read(it) for it in LICENSES]), 'application/json')
    worker = '\n'.join(read(*it) for it in ((replay.PARTS, 'trace.js'), (replay.PARTS, 'record.js'), (WEB, 'scenario.js'), (WEB, 'host.js')))
    yield held('host', worker.replace('</script', '<\\/script'))
    for name, (_, trace) in ones.items():
        yield held(f'trace-{name}', packed(trace.encode('ascii')))
    for name in sorted({name for it in lessons for name in it.pictures}):
        yield held(f'picture-{name}', packed(read(TOP, 'docs', 'pictures', f'{name}.svg').encode()))
    yield held('program', packed(program))


def page(program, record):
    """The whole page's text, of the program's bytes and the record of its proof."""
    lessons = page_lessons.lessons()
    styles = [f'\n{text}\n' for text in (replay.style(), library('codemirror.css') + read(WEB, 'simulator.css'))]
    # What shows a run stands by itself, since a frame with one of two runs has it too.
    scripts = {name: f'\n{text}\n'.replace('</script', '<\\/script') for name, text in (
        ('d3-script', read(replay.LIBRARY)), ('editor-script', library('codemirror.js')), ('replay-script', replay.scripts()),
        ('page-script', '\n'.join((read(replay.PARTS, 'clock.js'), *(read(WEB, it) for it in SCRIPTS)))))}
    view = read(replay.PARTS, 'view.html').replace('@@TITLE@@', '')
    holes = {
        'POLICY': html.escape(POLICY.format(scripts=' '.join(map(summed, scripts.values())), style=' '.join(map(summed, styles))),
                              quote=True).replace('&#x27;', "'"),
        'REPLAYSTYLE': styles[0], 'STYLE': styles[1], 'VIEW': view, 'LESSONS': '\n'.join(it.template() for it in lessons),
        'DATA': '\n'.join(data_of(program, record, lessons)),
        'SCRIPTS': '\n'.join(f'<script id="{name}">{text}</script>' for name, text in scripts.items())}
    return re.sub(r'@@([A-Z]+)@@', lambda found: holes[found.group(1)], read(WEB, 'simulator.html'))


# The pictures of docs/PAGE.md: the reader's scheme, width and height, the lesson, its event, and what is done then.
PICTURES = {'page': ('light', 1400, 900, 17, 1657, ''), 'page_dark': ('dark', 1400, 900, 10, 5000, ''), 'page_shelf': ('light', 1400, 900, 9, 1400, ''),
            'page_lecture': ('light', 1024, 768, 17, 1657, 'simulator.lecture.begin()')}


def draw(path, folder):
    """Writes the pictures of the page into a folder."""
    import browsers     # only this wants python3-websockets
    with tempfile.TemporaryDirectory() as profile:
        browser = browsers.Chromium(profile)
        try:
            for name, (scheme, width, height, lesson, event, does) in PICTURES.items():
                browser.size(width, height)
                browser.call('Emulation.setEmulatedMedia', features=[{'name': 'prefers-color-scheme', 'value': scheme}])
                browser.open(f'file://{os.path.abspath(path)}')
                browser.wait('document.documentElement.dataset.ready')
                browser.value(f'simulator.openLesson({lesson})')
                browser.wait('window.page && document.getElementById("stop").disabled && (!simulator.shelf.shown || document.getElementById("shelf").dataset.counting === "0")')
                browser.value(f'simulator.goTo({event}); {does}')
                browser.wait('[...document.images].every(it => it.complete)')
                browser.value('new Promise(done => setTimeout(done, 500))')
                browser.picture(os.path.join(folder, f'{name}.png'))
        finally:
            browser.close()


def main():
    words = Words(description='The page with the simulator, of the proved program.')
    words.add_argument('-o', dest='out', metavar='FILE', help='else out/page/tcpsim.html')
    words.add_argument('--pictures', metavar='FOLDER', help='pictures of it besides, as PNG')
    given = words.parse_args()
    program, record = page_module.program()
    text = page(program, record)
    out = given.out or os.path.join(page_module.OUT, 'tcpsim.html')
    if not given.out:
        os.makedirs(page_module.OUT, exist_ok=True)
    with written(out) as file:
        file.write(text)
    if given.pictures:
        draw(out, given.pictures)
    said = f'{os.path.relpath(out)}: {len(text.encode()):,} bytes, the program {len(program):,} of them before packing\n'
    with opened() as file:
        file.write(said)


if __name__ == '__main__':
    sys.exit(run('__main__'))
