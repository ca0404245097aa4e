"""The lessons of docs/TUTORIAL.md as the page with the simulator has them: text, scenarios, pictures, and the lines of the
trace that the text names, which lead to their events.
"""
import html
import os
import re

from clone import TOP
from tcpsim.command_line import Refused

TUTORIAL = os.path.join(TOP, 'docs', 'TUTORIAL.md')
# `line 12`, `lines 244 and 1657`, `lines 98, 104, 108`, `Lines 4140 to 4190`.
# What the tutorial says of each lesson for who reads it outside the page.
IN_THE_PAGE = re.compile(r'^In \[the page\]\(PAGE\.md\): .*\n', re.M)
# Which panels carry a lesson, the first before all, each with the flows or links that it is about: `<!-- panels: delays a, sequence g -->`.
PANELS = re.compile(r'^<!-- panels: (.*) -->\n', re.M)
# Which numbers are on a lesson's shelf, over which ranges, and the figure of their strips: `<!-- shelf: a.capacity=1..100; used a; both -->`.
SHELF = re.compile(r'^<!-- shelf: (.*) -->\n', re.M)
# What it shows, in a sentence.
CLAIM = re.compile(r'^(?:> .*\n)+\n', re.M)
LINES = re.compile(r'\b([Ll]ines?) (\d+(?:(?:, and |, | and | to )\d+)*)(?!\d|\.\d)')


class Lesson:
    """A lesson: number, title, names of the examples that it opens, which its text names or shows, of its pictures, and its text as
    HTML."""

    def __init__(self, number, title, text):
        self.number, self.title = number, title
        named = re.findall(r'examples/(\w+)\.txt', text) + re.findall(r'pictures/(\w+)\.svg', text)
        self.examples = [name for name in dict.fromkeys(named) if os.path.exists(os.path.join(TOP, 'examples', f'{name}.txt'))]
        self.pictures = []
        panels = PANELS.search(text)
        self.panels = [one.split() for one in panels[1].split(',')] if panels else []
        shelf = SHELF.search(text)
        self.shelf = shelf[1] if shelf else ''
        self.text = self._html(SHELF.sub('', PANELS.sub('', text)))

    def _html(self, text):
        try:
            import markdown
        except ImportError:
            raise Refused('the lessons want python3-markdown: apt-get install python3-markdown, and use /usr/bin/python3') from None
        made = markdown.markdown(text, extensions=['fenced_code', 'tables'])
        made = re.sub(r'(<img [^>]*>)\s*<code>bin/tcpsim-plot [^<]*</code>', r'\1', made)     # it has the picture
        made = re.sub(r'<img alt="([^"]*)" src="pictures/(\w+)\.svg" ?/>', self._picture, made)
        made = re.sub(r' style="text-align: (\w+);"', r' class="\1"', made)        # which the page's policy would not let stand
        made = re.sub(r'<p><img alt="[^"]*" src="pictures/replay_\w+\.png" ?/></p>', '', made)        # the net itself shows it
        made = re.sub(r'<a href="[^"]*">(.*?)</a>', r'\1', made)
        if re.search(r'<(script|iframe|object|embed|style)|\son\w+=', made):
            raise Refused(f'lesson {self.number} of {TUTORIAL} has more than text in it')
        return re.sub(r'(<pre>.*?</pre>|<[^>]*>)|' + LINES.pattern, self._lines, made, flags=re.S)

    def _picture(self, found):
        self.pictures.append(found.group(2))
        return f'<img alt="{found.group(1)}" data-picture="{found.group(2)}">'

    def _lines(self, found):
        if found.group(1):
            return found.group(1)
        # The example that was named before, but for commands, which name several.
        before = re.sub(r'<pre>.*?</pre>', '', found.string[:found.start()], flags=re.S)
        of = [self.examples[0], *(name for name in re.findall(r'(?:examples/|data-picture=")(\w+)', before) if name in self.examples)][-1]
        word = found.group(2)       # beside an editor whose lines have numbers too
        return f'{"Trace" if word[0] == "L" else "trace"} {word.lower()} ' + re.sub(r'\d+', rf'<span data-line="\g<0>" data-of="{of}">\g<0></span>', found.group(3))

    def facts(self):
        """What the page's script has to know of it."""
        return {'number': self.number, 'title': self.title, 'examples': self.examples, 'panels': self.panels, 'shelf': self.shelf}

    def template(self):
        """Its text, for the page to copy."""
        return f'<template id="lesson-{self.number}">{self.text}</template>'


def lessons():
    """All lessons, in order. A part without a number is in the lesson behind it, below the claim with which that begins."""
    with open(TUTORIAL, encoding='utf-8') as file:
        parts = re.split(r'^## (.*)\n', IN_THE_PAGE.sub('', file.read()), flags=re.M)[1:]
    found, before = [], ''
    for head, text in zip(parts[::2], parts[1::2]):
        numbered = re.fullmatch(r'(\d+)\. (.*)', head)
        if numbered:
            found.append(Lesson(int(numbered.group(1)), html.unescape(numbered.group(2)), CLAIM.sub(lambda claim: claim[0] + before, text, 1)))
            before = ''
        else:
            before = f'### {head}\n{text.strip()}\n\n'
    if not found:
        raise Refused(f'{TUTORIAL} has no lesson')
    return found
