#!/usr/bin/env python3
"""Tests of how a run is shown in the page with the simulator, part by part: python3 -m pytest dev/test_page_speed.py. No task of the page's
own thread is long, and no frame has parts of two runs.
"""
import json
import os
import sys

import pytest

sys.path.insert(0, os.path.dirname(os.path.abspath(__file__)))
import page_cases
from test_page_explore import dumbbell, opened as opens

pytest_plugins = 'page_fixtures'
pytestmark = pytest.mark.built

# A fixed piece of work in one task: no task of a run may take more of a processor. One takes half of it, and twice as much where a run is built in one.
PACE = '''new Promise(done => setTimeout(done, 100)).then(() => {
  const make = name => document.createElementNS('http://www.w3.org/2000/svg', name), svg = document.body.appendChild(make('svg'));
  for (let k = 0; k < 350; k++) {
    const text = svg.appendChild(make('text'));
    text.textContent = `event ${k}`;
    svg.appendChild(make('path')).setAttribute('d', d3.range(40).map(x => `L${x},${(k * x / 7).toFixed(1)}`).join(''));
    if (k % 20 === 0) text.getBoundingClientRect();
  }
  svg.remove();
})'''
AFTER = '.then(() => new Promise(done => setTimeout(done, 500)))'
RUN = '--rate', '50M', '--rtt', '20ms', '--queue', 'droptail:50', '--flows'
# What is seen of a run: in the net, the panels, the clock and the lines; null where nothing is.
SEEN = '''(() => {
  const all = css => [...document.querySelectorAll(css)].map(it => it.textContent + (it.getAttribute('d') || '')).join('|');
  return document.getElementById('replay') && getComputedStyle(document.getElementById('replay')).visibility === 'visible' ?
    ['#net .node .name, #net .queue > title', '#charts .area, #flows', '#where', '#lines li:not([hidden])'].map(all) : null;
})()'''
# What each frame shows until a script is done.
FRAMES = '''(async () => {
  const seen = [], look = () => %s;
  let goes = true;
  const frame = () => { seen.push(look()); if (goes) requestAnimationFrame(frame); };
  requestAnimationFrame(frame);
  await (%s)();
  await new Promise(done => setTimeout(done, 300));
  goes = false;
  return [...new Map(seen.map(it => [JSON.stringify(it), it])).values()];
})()'''
# What is seen of two runs that are compared: in both nets, the curves' names and the figures.
BOTH_SEEN = '''(() => {
  const place = document.getElementById('both'), all = (of, css) => [...of.querySelectorAll(css)].map(it => it.textContent).join('|');
  return place.firstChild && getComputedStyle(place).visibility === 'visible' ? [...[...place.querySelectorAll('iframe')].map(
    it => it.contentDocument ? all(it.contentDocument, 'h1, #net .node .name, #net .queue > title, #where') : ''), all(place, '.charts path > title, .charts label'), all(place, 'td')] : null;
})()'''
# A run is begun; while it is built another scenario is opened, and run.
IN_BETWEEN = '''async () => {
  const place = document.getElementById('tab-net');
  let second = null, parts = 0;
  const watch = new MutationObserver(() => {
    if (second || !place.classList.contains('building') || ++parts < %d) return;
    simulator.openText(%s, 'second');
    second = simulator.start();
  });
  watch.observe(place, {subtree: true, childList: true, attributes: true});
  await simulator.start();
  await second;
  watch.disconnect();
  page.play(false);
}'''
# Two runs are compared; while they are shown, part by part, others are.
BOTH_IN_BETWEEN = '''async () => {
  const {compare} = simulator, place = document.getElementById('both'), pauses = pause;
  let parts = 0, second = null, wrong = null;
  pause = async () => {
    const isTheOne = place.classList.contains('building') && ++parts === %d;
    await pauses();
    if (isTheOne) { compare.choose('example two_flows_share_fairly'); second = compare.start(); }
  };
  compare.choose('example bufferbloat_with_codel');
  compare.start().catch(it => { wrong = it; });
  while (!second) await new Promise(done => setTimeout(done, 20));
  await second;
  pause = pauses;
  if (wrong) throw wrong;
}'''


@pytest.fixture
def texts():
    """Two scenarios with other nodes, links and flows."""
    return [page_cases.read('examples', f'{name}.txt').decode() for name in ('bufferbloat', 'two_flows_share_fairly')]


def shown(browser, text):
    """What is seen of a scenario's run that is shown alone."""
    opens(browser, text)
    browser.value('simulator.start().then(() => page.play(false))')
    return browser.json(SEEN)


def times_of_pace(browser, script):
    """The longest task of a script beside the fixed piece of work in the same browser: the least of three tries each."""
    least = [min(ones) for ones in zip(*((browser.longest_task(one + AFTER)[2] for one in (script, PACE)) for _ in range(3)))]
    return least[0] / least[1]


def by_parts(browser, script):
    """No task of a script is long, whose code is compiled by now; without a pause between its parts one is."""
    browser.value(script + AFTER)
    assert times_of_pace(browser, script) < 1
    browser.value('window.pauses = pause; pause = async () => {}; 0')
    try:
        assert times_of_pace(browser, script) > 1
    finally:
        browser.value('pause = pauses; 0')


def test_no_task_is_long_after_a_run(chromium):
    """By the processor's time of the page's own thread, of a run of 30,000 events in five panels."""
    chromium.size(1400, 1600)
    opens(chromium, dumbbell(*RUN, '2', '--end', '2400ms'))
    chromium.value('simulator.choosePanels = panels => panels.name(Object.keys(PANELS).slice(0, 5)); 0')
    try:
        by_parts(chromium, 'simulator.start()')
    finally:
        chromium.value('delete simulator.choosePanels')
    assert 25_000 < chromium.value('page.record.count') <= 30_000


@pytest.mark.parametrize('panel, of', [('lengths', 'links'), ('delays', 'links'), ('sequence', 'flows')])
def test_a_panel_is_made_lane_by_lane(browser, texts, panel, of):
    """What is counted of each link's or flow's packets grows with the run: the browser answers between two of them."""
    browser.size(1400, 900)
    opens(browser, texts[1])
    browser.value(f'simulator.start().then(() => {{ page.play(false); page.panels.choose(["{panel}"]); document.querySelectorAll("#{of} input").forEach(box => {{ box.checked = true; }}); }})')
    lanes = browser.value(f'page.facts.{of}.length')
    assert lanes > 1 and browser.value(f'[...page.panels.drawing("{panel}")].length') == lanes + 1


def test_no_task_is_long_where_two_runs_are_compared(chromium, texts):
    """Both are built part by part, as one is."""
    chromium.size(1400, 900)
    opens(chromium, texts[0])
    chromium.value('simulator.showTab("compare"); simulator.compare.choose("example bufferbloat_with_codel"); 0')
    by_parts(chromium, 'simulator.compare.start()')
    chromium.value('simulator.compare.end(); simulator.showTab("net")')


@pytest.mark.parametrize('parts', [1, 4, 8])
def test_no_frame_has_parts_of_two_runs(browser, texts, parts):
    """A newer run that comes while an older one is built ends that."""
    browser.size(1400, 900)
    first, second = (shown(browser, text) for text in texts)
    assert first and second and all(one != two for one, two in zip(first, second))
    opens(browser, texts[0])
    frames = browser.json(FRAMES % (SEEN, IN_BETWEEN % (parts, json.dumps(texts[1]))))
    assert [it for it in frames if it not in (None, first, second)] == []
    assert frames[-1] == second and first not in frames
    assert browser.value('!document.getElementById("tab-net").classList.contains("building") && simulator.list.record === page.record')


@pytest.mark.parametrize('parts', [1, 7, 10])
def test_no_frame_has_parts_of_two_comparisons(browser, texts, parts):
    """Newer ones that come while older ones are built, in the frames, in figures or curves, end these."""
    browser.size(1400, 900)
    opens(browser, texts[0])
    browser.value('simulator.showTab("compare")')
    both = [browser.json(f'(simulator.compare.choose("example {name}"), simulator.compare.start()).then(() => {BOTH_SEEN})') for name in ('bufferbloat_with_codel', 'two_flows_share_fairly')]
    assert all(both) and all(one != two for one, two in zip(both[0][1:], both[1][1:]))
    frames = browser.json(FRAMES % (BOTH_SEEN, BOTH_IN_BETWEEN % parts))
    assert [it for it in frames if it not in (None, both[1])] == [] and frames[-1] == both[1]
    browser.value('simulator.compare.end(); simulator.showTab("net")')


@pytest.mark.parametrize('link, word, event', [('a', 7, 4000), ('sp', 4, 0)], ids=['capacity', 'rate'])
def test_no_frame_of_a_drag_has_parts_of_two_runs(browser, texts, link, word, event):
    """The run before stays until the next is there, whole: in the net that stays, and in one that is drawn anew."""
    browser.size(1400, 900)
    opens(browser, texts[0])
    browser.value('simulator.start().then(() => { page.play(false); page.goEvent(%d); })' % event)
    at = f'const {{box}} = simulator.editor, line = simulator.editor.text.split("\\n").findIndex(it => it.startsWith("link {link} ")); box.setCursor({{line, ch: [...box.getLine(line).matchAll(/[^ ]+/g)][{word}].index}});'
    move = f'async () => {{ {at} for (let k = 0; k < 3; k++) {{ simulator.drag.key(1); while (simulator.exploring) await new Promise(done => setTimeout(done, 20)); window.steps.push({SEEN}); }} }}'
    browser.value(f'window.steps = [{SEEN}]')
    frames = browser.json(FRAMES % (SEEN, move))
    steps = browser.json('window.steps')
    assert len({json.dumps(it) for it in steps}) == 4
    assert [it for it in frames if it not in steps] == []
    # A run before had other lines of the same numbers.
    assert browser.json("[...document.querySelectorAll('#lines li[data-event]')].filter(it => it.title !== page.record.line(+it.dataset.event)).length") == 0


if __name__ == '__main__':
    sys.exit(pytest.main([__file__, '-q', *sys.argv[1:]]))
