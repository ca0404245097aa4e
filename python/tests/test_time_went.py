"""Tests of the panel "where the time went" of a replay page: the parts of every flow of every example, and of drawn scenarios, are
those of tcpsim-time, span by span; a click on a part goes to the event with which it begins, and the net marks what the path is about.
"""
import importlib.util
import json

import pytest

import browsers
from clone import CHROMIUM, NAMES, example
from tcpsim.breakdown import words_of
from tcpsim.critical_path import critical_paths
from tcpsim.replay import page
from tcpsim.replay.recording import Part
from tcpsim.scenario.text import Scenario
from test_critical_path import drawn, tags_of

pytestmark = pytest.mark.skipif(not CHROMIUM or not importlib.util.find_spec('websockets'),
                                reason='no Chromium or no websockets: apt-get install chromium python3-websockets')
DRAWN = *range(40), 113       # in the last a packet leaves a queue at the moment at which it entered
# Of each flow of a run its path, as the page's scripts find it.
PATHS = '''(async (facts, text) => {
  const record = new Record(facts);
  await fill(record, (async function* () { yield new TextEncoder().encode(text); })());
  return facts.flows.map(({name}, f) => {
    const path = new CriticalPath(record, f);
    return {begin: path.begin, end: path.end, acknowledged: path.acknowledged, whole: path.isWhole,
      spans: path.spans.map(span => [partText(span.part, name), span.begin, span.end, path.eventOf(span)]),
      parts: path.begin === null ? [] : path.parts().map(({part, ns}) => [partText(part, name), ns])};
  });
})(%s, %s)'''


@pytest.fixture(scope='module')
def browser(tmp_path_factory):
    """Chromium at the page of bufferbloat, with the panel."""
    folder = tmp_path_factory.mktemp('went')
    text, lines = example('bufferbloat')
    path = folder / 'page.html'
    path.write_text(page.page('bufferbloat', Scenario(text), Part(Scenario(text), iter(lines))))
    shown = browsers.Chromium(str(folder))
    try:
        shown.size(1280, 720)
        shown.open(f'file://{path}')
        shown.wait('document.documentElement.dataset.ready')
        yield shown
    finally:
        shown.close()


def compare(browser, text, lines):
    """Every flow's path; answers how many have one."""
    scenario, part = Scenario(text), Part(Scenario(text), iter(lines))
    walk, facts = critical_paths(scenario, iter(lines)), page.about(scenario)
    facts.update(first=part.first, base=part.base, whole=part.whole)
    found = browser.json(PATHS % (json.dumps(facts), json.dumps('\n'.join(lines) + '\n')))
    for flow, its in enumerate(found):
        path, name = walk.path(flow), scenario.flows[flow].name
        assert (its['begin'], its['acknowledged']) == (path.begin, path.acknowledged) and (path.begin is None or its['end'] == path.end)
        assert its['whole'] == path.is_whole
        assert its['parts'] == [[words_of(part, name), ns] for part, ns in path.parts().items()]
        spans = iter(its['spans'])
        for before, event in zip([None, *path.events], path.events):
            for place, span in enumerate(event.spans):
                words, begin, end, at = next(spans)
                assert (words, begin, end) == (words_of(span.part, name), span.begin, span.end)
                assert int(lines[at - 1].split()[1]) == begin and (place or at == before.line)
        assert next(spans, None) is None
    return sum(its['acknowledged'] > 0 for its in found)


@pytest.mark.parametrize('name', NAMES)
def test_the_paths_of_an_example_are_those_of_tcpsim_time(browser, name):
    text, lines = example(name)
    assert compare(browser, text, lines) or name == 'equal_times'       # in which nothing is acknowledged
    compare(browser, text, lines[:len(lines) // 2])     # a trace that is cut


def test_the_paths_of_drawn_scenarios_are_those_of_tcpsim_time(browser):
    found = 0
    for seed in DRAWN:
        text, model = drawn(seed)
        found += compare(browser, text, tags_of(model)[1])
    assert found > len(DRAWN)


# ---- the panel

STATE = '''(() => ({chosen: page.went?.chosen, said: document.querySelector('#went .said').textContent, event: page.record.at,
  rows: [...document.querySelectorAll('#went .parts button')].map(row => [row.dataset.part, +row.dataset.ns]),
  marked: [...document.querySelectorAll('.on-path')].map(e => e.dataset.packet || e.dataset.number || e.dataset.node || e.dataset.link),
  seen: getComputedStyle(document.getElementById('went')).display !== 'none', notice: document.getElementById('notice').textContent}))()'''


def test_the_panel_says_what_the_tool_says(browser):
    """By a key; of the flow that waits longest behind others. A click goes to the part's first event; the marked packet waits there."""
    text, lines = example('bufferbloat')
    browser.value('page.goEvent(0)')
    browser.press('w')
    shown = browser.json(STATE)
    path = critical_paths(Scenario(text), iter(lines)).path(1)
    assert shown['seen'] and shown['chosen'] == 1
    assert shown['said'] == '3.01 s: 94.3 % of it in the queue of a, behind packets of f'
    assert shown['rows'] == [[words_of(part, 'g'), ns] for part, ns in path.parts().items()]
    browser.click('document.querySelector("#went .parts button")')
    shown = browser.json(STATE)
    offered, = {before.line for before, event in zip(path.events, path.events[1:]) if event.line == 8390}
    assert shown['event'] == offered and shown['notice'].startswith('queue of a, behind packets of f: 2.84 s, first from event 4,963 on')
    assert shown['marked'] == [f'1:d:1000@{lines[offered - 1].split()[1]}']
    browser.press('t')
    later = browser.json(STATE)
    assert later['event'] > offered and later['notice']
    browser.press('T')
    assert browser.json(STATE)['event'] <= offered
    browser.value('page.went.choose(0)')
    assert browser.json(STATE)['said'].endswith('of it in the queue of a, behind its own packets')
    browser.press('w')
    shown = browser.json(STATE)
    assert not shown['seen'] and shown['marked'] == []


def test_what_begins_after_the_flow_s_start_tells_no_path(browser, tmp_path):
    """As with --from: no part is made up."""
    text, lines = example('bufferbloat')
    scenario = Scenario(text)
    part = Part(scenario, iter(lines), 4 * 10**9)
    facts = {**page.about(scenario), 'first': part.first, 'base': part.base, 'whole': part.whole}
    found = browser.json(PATHS % (json.dumps(facts), json.dumps('\n'.join([*part.lines, f'end {len(lines) - 1}']) + '\n')))
    assert [(its['begin'], its['parts']) for its in found] == [(None, [])] * 2
