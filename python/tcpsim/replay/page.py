"""The text of a page on which a run moves: packets on their links, queues, drops, windows. It needs no network and no
server; script, style and d3 are put into it whole, from web/.
"""
from __future__ import annotations

import base64
import html
import json
import os
import re
import zlib

from tcpsim import looks
from tcpsim.replay.recording import Part
from tcpsim.scenario.text import Scenario
from tcpsim.stalls import LONGER

HERE = os.path.dirname(os.path.realpath(__file__))
PARTS = os.path.join(HERE, 'web')
# What shows a run, here and in the page with the simulator (dev/page.py); behind it what opens this page.
SCRIPTS = ('trace.js', 'record.js', 'words.js', 'layout.js', 'queue.js', 'net.js', 'charts.js', 'panels.js', 'critical_path.js', 'time_went.js', 'page.js')
STYLES = ('page.css', 'time_went.css')
OPENING = 'boot.js'
# What has two runs under one clock.
OF_TWO = ('clock.js', 'beside.js')
LIBRARY = os.path.join(PARTS, 'vendor', 'd3.v3.min.js')


# ---- the page

def about(scenario: Scenario) -> dict:
    """What the page has to know of the scenario."""
    return {
        'end': scenario.end,
        'nodes': [{'name': node.name, 'kind': node.kind} for node in scenario.nodes],
        'links': [{'name': link.name, 'from': link.source, 'to': link.to, 'rate': link.rate, 'delay': link.delay,
                   'queue': link.queue, 'own': number in scenario.own, 'limit': link.capacity, 'port': scenario.leaves[link.source].index(number)}
                  for number, link in enumerate(scenario.links)],
        'targets': [link.target for link in scenario.links],        # of CoDel, else 0
        'flows': [{'name': flow.name, 'sender': flow.sender, 'receiver': flow.receiver, 'mss': flow.mss,
                   'segments': flow.segments, 'start': flow.start, 'rwnd': flow.rwnd, 'delack': flow.delack}
                  for flow in scenario.flows],
        'ways': [[list(there), list(back)] for there, back in scenario.paths]}


def for_script(value: object) -> str:
    """JSON that may stand in a page's script."""
    return json.dumps(value, separators=(',', ':')).replace('<', '\\u003c')


def read_part(name: str) -> str:
    """A file of web/."""
    with open(name, encoding='utf-8') as file:
        return file.read()


def scripts() -> str:
    """The scripts that show a run, in their order, with the words of pictures."""
    told = {'flows': len(looks.FLOWS), 'links': len(looks.LINKS), 'drops': {reason: words for reason, (*_, words) in looks.DROPS.items()},
            'marks': {**looks.MARKS, 'stall': looks.MARKS['stall'].format(f'{LONGER // 10**6} ms')}, 'panels': looks.PANELS}
    return '\n'.join(("'use strict';", f'const LOOKS = {for_script(told)};', *(read_part(os.path.join(PARTS, name)) for name in SCRIPTS)))


def style() -> str:
    """The style of what shows a run."""
    return '\n'.join((looks.css(), *(read_part(os.path.join(PARTS, name)) for name in STYLES)))


def page(title: str, scenario: Scenario, part: Part, slide: bool = False, within: bool = False) -> str:
    """The whole page's text; with `slide` for a lecture, with large letters and no lines of the trace; `within` a page of
    two nets, which has the controls."""
    packed = base64.b64encode(zlib.compress('\n'.join(part.lines).encode('ascii'), 3)).decode('ascii')
    facts = about(scenario)
    facts.update(title=title, first=part.first, events=len(part.lines), base=part.base, whole=part.whole)
    holes = {
        'TITLE': html.escape(title),
        'LOOK': ' '.join(name for name, on in (('slide', slide), ('within', within)) if on),
        'STYLE': style(),
        'LIBRARY': read_part(LIBRARY).replace('</script', '<\\/script'),
        'FACTS': for_script(facts),
        'TRACE': packed,
        'VIEW': read_part(os.path.join(PARTS, 'view.html')).replace('@@TITLE@@', html.escape(title)),
        'SCRIPT': scripts() + '\n' + read_part(os.path.join(PARTS, OPENING))}
    return filled('page.html', holes)


def page_of_two(pages: list[tuple[str, str]], slide: bool = False) -> str:
    """The text of a page on which two runs move under one clock; `pages` are their titles and their own pages' texts."""
    (first, first_page), (second, second_page) = pages
    holes = {
        'TITLE': html.escape(f'{first}, {second}'), 'COLOURS': looks.css(), 'LETTERS': str(24 if slide else 13),
        'FIRST': html.escape(first), 'SECOND': html.escape(second),
        'FIRSTPAGE': html.escape(first_page), 'SECONDPAGE': html.escape(second_page),
        'SCRIPT': '\n'.join(read_part(os.path.join(PARTS, name)) for name in OF_TWO)}
    return filled('beside.html', holes)


def filled(name: str, holes: dict[str, str]) -> str:
    """A frame of web/ with its holes filled."""
    return re.sub(r'@@([A-Z0-9]+)@@', lambda found: holes[found.group(1)], read_part(os.path.join(PARTS, name)))
