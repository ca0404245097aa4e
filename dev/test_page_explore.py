#!/usr/bin/env python3
"""Tests of numbers that are moved in the page with the simulator: python3 -m pytest dev/test_page_explore.py. A slide through a range
shows at each step what the native program says of the text, byte for byte.
"""
import json
import os
import subprocess
import sys
import time

import pytest

sys.path.insert(0, os.path.dirname(os.path.abspath(__file__)))
import browsers
import page_cases
from clone import PROGRAM, TOP, ran
from page_use import choose, element, look, run, text_of, wanted
from tcpsim.scenario.units import RANGES

pytest_plugins = 'page_fixtures'
pytestmark = pytest.mark.built

# Where a number stands in the window: of a statement that begins so its k-th word.
PLACE = '''(([begin, k]) => {
  const {box} = simulator.editor, line = simulator.editor.text.split('\\n').findIndex(it => it.startsWith(begin));
  const ch = [...box.getLine(line).matchAll(/[^ ]+/g)][k].index;
  box.scrollIntoView({line, ch}, 40);
  const {left, top, bottom} = box.charCoords({line, ch}, 'window');
  return [left + 3, (top + bottom) / 2, line, ch];
})'''
STATE = '''[simulator.run.text, simulator.run.csv, page ? page.record.count : 0, +(document.documentElement.dataset.explored || 0),
  document.querySelectorAll('#charts path[stroke-dasharray="5 4"]').length]'''
LEFT = 60               # seconds in which the workers of a page are gone that was left
EXPLORED = 'document.documentElement.dataset.explored || 0'


def figures(text):
    """What the native program counts of a text."""
    return ran(PROGRAM, 'figures', input=text.encode()).stdout.decode()


def is_shown(browser, text):
    """Whether figures and trace of this text are shown."""
    shown, csv, count, _, _ = browser.json(STATE)
    assert shown == text and csv == figures(text)
    return count == int(ran(PROGRAM, 'run', input=text.encode()).stdout.split()[-1])


def place_of(browser, begin, k):
    return browser.json(f'({PLACE})({json.dumps([begin, k])})')


def taken(browser, begin, k):
    """Takes the handle of a number; answers where it was taken."""
    x, y, _, _ = place_of(browser, begin, k)
    browser.mouse('moved', x - 1, y)
    browser.mouse('moved', x, y)
    browser.wait('!document.getElementById("handle").hidden')
    x, y = browser.middle(element('#handle'))
    browser.mouse('moved', x, y)
    browser.mouse('pressed', x, y)
    return x, y


def moved(browser, x, y):
    """Moves what is held, and waits until that is shown."""
    before = browser.value(EXPLORED)
    browser.mouse('moved', x, y)
    browser.wait(f'({EXPLORED}) !== {json.dumps(before)} && !simulator.exploring')


def with_word(text, begin, k, word):
    """A text with another word in a statement."""
    lines = text.split('\n')
    at = next(number for number, line in enumerate(lines) if line.startswith(begin))
    words = lines[at].split(' ')
    words[k] = str(word)
    lines[at] = ' '.join(words)
    return '\n'.join(lines)


def test_values_of_a_quantity(chromium):
    """Notches of rates and times, packets one by one up to 99; none is outside of the limits."""
    cases = [('rate', 1_000_000, 1, 2_000_000), ('rate', 2_000_000, 1, 5_000_000), ('rate', 1_500_000, -1, 1_000_000), ('rate', 1000, -1, 1000),
             ('rate', 10**12, 1, 10**12), ('delay', 18_000_000, 1, 20_000_000), ('delay', 10_000_000, -1, 5_000_000), ('delay', 1, -1, 1),
             ('capacity', 10, 1, 11), ('capacity', 1, -1, 1), ('capacity', 65_535, 1, 65_535), ('capacity', 1000, -1, 900), ('capacity', 345, 1, 355), ('capacity', 99, 1, 100), ('start', 0, 1, 10**6), ('start', 10**6, -1, 0),
             ('start', 0, -1, 0), ('delack', 0, 1, 10**6), ('delack', 5 * 10**8, 1, 5 * 10**8), ('mss', 8_990, 1, 9_000), ('end', 999, 1, 1_000)]
    for name, value, way, wanted_value in cases:
        assert chromium.value(f'nextValue({json.dumps(name)}, {value}, {way}, {json.dumps(RANGES[name])})') == wanted_value, (name, value)
    walked = chromium.json('(() => { let v = 1000, all = []; for (let k = 0; k < 40; k++) { all.push(v); v = nextValue("rate", v, 1, [1000, 1e12]); } return all; })()')
    assert walked[:6] == [1000, 2000, 5000, 10_000, 20_000, 50_000] and walked[-1] == 10**12
    assert chromium.json('numberIn("link a p q 1000 18 codel 10 5 100 1500 # 7", 26)') == \
        {'name': 'capacity', 'of': 'a', 'begin': 25, 'end': 27, 'value': 10}
    assert chromium.json('["node s sender", "link a p q 1000", "# 5 6", "route p r a"].map(line => numberIn(line, 5))') == [None] * 4


def test_a_slide_through_a_range(browser):
    """Each step shows what the native program says; one step back is the whole drag."""
    browser.size(1400, 900)
    choose(browser, 'example slow_start_into_a_full_queue')
    begin = next(line for line in browser.value('simulator.editor.text').split('\n') if line.startswith('link ')).rpartition(' ')[0] + ' '
    text = browser.value('simulator.editor.text')
    first = int(next(line for line in text.split('\n') if line.startswith(begin)).split()[7])
    assert run(browser).startswith('done in')
    undos = browser.value('simulator.editor.box.historySize().undo')
    x, y = taken(browser, begin, 7)
    for step in (1, 2, 3, 5, 8, 13, 21, 13, 2, -1, -2):
        moved(browser, x + 4 * step + (1 if step > 0 else -1), y)
        value = max(1, first + step)
        assert browser.value('simulator.editor.text') == with_word(text, begin, 7, value)
        assert is_shown(browser, with_word(text, begin, 7, value)), step
        assert f'queue {value} packet' in text_of(browser, '#said')
    assert browser.json(STATE)[4] > 0          # the curves before, whole
    below = browser.json('Object.values(page.panels.charts).flatMap(({curves, lanes}) => [...curves.node().querySelectorAll("path[stroke-dasharray=\\"5 4\\"]")].map(e => e.getBBox().y - lanes[0].from))')
    assert len(below) >= 2 and min(below) > .5, below
    assert 'before the last change' in browser.json('[...document.querySelectorAll("#windows .key")].map(e => e.textContent)')
    look(browser, 'dragged')
    browser.mouse('moved', x - 4 * (first + 50), y)
    browser.wait('simulator.editor.text.includes(" droptail 1\\n") && !simulator.exploring')
    browser.mouse('released', x - 4 * (first + 50), y)
    browser.wait('simulator.list && simulator.list.record === page.record')
    assert browser.value('document.getElementById("handle").hidden')
    assert browser.value('simulator.editor.box.historySize().undo') == undos + 1
    before = browser.value(EXPLORED)
    browser.value('simulator.editor.box.undo()')
    assert browser.value('simulator.editor.text') == text
    browser.wait(f'({EXPLORED}) !== {json.dumps(before)} && !simulator.exploring')
    assert is_shown(browser, text)
    assert f'queue {first} packet' in text_of(browser, '#said')


def test_the_handle_hides_nothing(browser):
    """Its grip lies between two lines; a press alone puts the cursor into the text below, and moves no number."""
    browser.size(1400, 900)
    choose(browser, 'example bufferbloat')
    assert run(browser).startswith('done in')
    text = browser.value('simulator.editor.text')
    x, y, line, ch = place_of(browser, 'link a ', 5)
    browser.mouse('moved', x - 1, y)
    browser.mouse('moved', x, y)
    browser.wait('!document.getElementById("handle").hidden')
    grip, ground, high = browser.json('(e => [getComputedStyle(e, "::before").height, getComputedStyle(e).backgroundColor, e.getBoundingClientRect().height])(document.getElementById("handle"))')
    assert float(grip[:-2]) <= 6 and ground == 'rgba(0, 0, 0, 0)' and high >= 24
    x, y = browser.middle(element('#handle'))
    browser.mouse('moved', x, y + 6)
    browser.mouse('pressed', x, y + 6)
    browser.mouse('released', x, y + 6)
    assert browser.value('simulator.editor.text') == text
    cursor = browser.json('simulator.editor.box.getCursor()')
    assert cursor['line'] in (line, line + 1) and browser.value('simulator.editor.box.hasFocus()')
    # A second press pins it.
    assert not browser.value('document.getElementById("handle").hidden')
    browser.value('document.getElementById("handle").dispatchEvent(new MouseEvent("dblclick"))')
    assert text_of(browser, '#shelf .pin output') == 'a delay 18 ms'


def test_by_the_keyboard_alone(browser):
    """Alt and the arrow keys at the cursor, from notch to notch."""
    choose(browser, 'example two_timeouts_in_a_row')
    text = browser.value('simulator.editor.text')
    assert run(browser).startswith('done in')
    begin = next(line for line in text.split('\n') if line.startswith('link '))[:7]
    rate = int(next(line for line in text.split('\n') if line.startswith(begin)).split()[4])
    _, _, line, ch = place_of(browser, begin, 4)
    browser.value(f'simulator.editor.box.focus(); simulator.editor.box.setCursor({line}, {ch})')
    value = rate
    for key, way in (('ArrowUp', 1), ('ArrowUp', 1), ('ArrowRight', 1), ('ArrowDown', -1), ('ArrowLeft', -1)):
        before = browser.value(EXPLORED)
        browser.press(key, 1)
        browser.wait(f'({EXPLORED}) !== {json.dumps(before)} && !simulator.exploring')
        value = browser.value(f'nextValue("rate", {value}, {way}, [1000, 1e12])')
        assert is_shown(browser, with_word(text, begin, 4, value))
    if isinstance(browser, browsers.Chromium):
        browser.press('Alt')            # in Firefox it was let go behind each arrow
    browser.wait('simulator.list && simulator.list.record === page.record')
    browser.value(f'simulator.editor.box.setCursor({line}, 1)')         # no number there
    browser.press('ArrowUp', 1)
    assert browser.value('simulator.editor.text') == with_word(text, begin, 4, value)


LONG = '--flows', '2', '--rate', '50M', '--rtt', '20ms', '--queue', 'droptail:50', '--end', '5s'


def dumbbell(*words):
    return subprocess.run([sys.executable, f'{TOP}/bin/tcpsim-net', 'dumbbell', *words], capture_output=True, text=True, check=True).stdout


def opened(browser, text):
    browser.value(f'simulator.openText({json.dumps(text)}, "net")')
    browser.wait('document.documentElement.dataset.judged === "0"')


def test_of_a_long_run_the_figures_come_first(browser):
    """Above 30,000 events; the trace once the hand rests."""
    text = dumbbell(*LONG)
    opened(browser, text)
    assert run(browser).startswith('done in')
    assert browser.value('page.record.count') > 30_000
    x, y = taken(browser, 'link pq ', 7)
    for step in (2, 5):
        moved(browser, x + 4 * step + 1, y)
        shown, csv, *_ = browser.json(STATE)
        assert (shown, csv) == (with_word(text, 'link pq ', 7, 50 + step), figures(shown))
        assert text_of(browser, '#said').endswith(f'queue {50 + step} packets: figures only, until the hand rests')
    before = browser.value('document.documentElement.dataset.run')
    browser.mouse('released', x + 21, y)
    browser.wait(f'document.documentElement.dataset.run !== {json.dumps(before)}')
    assert is_shown(browser, with_word(text, 'link pq ', 7, 55))


def test_a_drag_ends_the_run_before(browser):
    """A run of minutes; what the hand moved is shown."""
    text = dumbbell('--flows', '10', '--rate', '1G', '--rtt', '10ms', '--queue', 'droptail:100', '--end', '1000s')
    opened(browser, text)
    browser.value('(window.done = simulator.start()) && 1')
    browser.wait('simulator.run.record && simulator.run.record.count > 500')
    _, _, line, ch = place_of(browser, 'sim ', 1)
    browser.value(f'simulator.editor.box.focus(); simulator.editor.box.setCursor({line}, {ch})')
    for _ in range(16):                 # from 1000 s to 1 ms and on
        browser.press('ArrowDown', 1)
    browser.wait('!simulator.exploring')
    browser.value('window.done')
    assert browser.value('document.getElementById("stop").disabled')
    now = browser.value('simulator.editor.text')
    assert now != text and is_shown(browser, now)


def test_what_is_refused_is_said_and_the_page_goes_on(browser):
    """A receive window below a segment; and a want of memory."""
    text = page_cases.read('examples', 'two_timeouts_in_a_row.txt').decode()
    flow = next(line for line in text.split('\n') if line.startswith('flow '))
    mss = int(flow.split()[4])
    text = with_word(text, 'flow ', 7, mss)
    opened(browser, text)
    assert run(browser).startswith('done in')
    _, _, line, ch = place_of(browser, 'flow ', 7)
    browser.value(f'simulator.editor.box.focus(); simulator.editor.box.setCursor({line}, {ch})')
    browser.press('ArrowDown', 1)
    browser.wait('document.getElementById("said").textContent.includes("refused E5 line")')
    browser.wait('document.documentElement.dataset.judged === "1"')
    assert 'refused E5' in text_of(browser, '#verdict') and browser.value('!!page')
    before = browser.value(EXPLORED)
    browser.value('simulator.mostPages = 20')
    browser.press('ArrowUp', 1)
    browser.wait('!simulator.exploring && !document.getElementById("said").textContent.includes("refused")')
    assert browser.value(EXPLORED) == before
    browser.value('simulator.mostPages = MOST_PAGES')
    browser.press('ArrowUp', 1)
    browser.wait(f'({EXPLORED}) !== {json.dumps(before)} && !simulator.exploring')
    assert is_shown(browser, browser.value('simulator.editor.text'))


@pytest.mark.parametrize('how', ['left', 'closed'])
def test_a_page_that_is_left_leaves_no_worker(made, tmp_path, how):
    """In the midst of a long run, while a hand moves and strips are counted."""
    wanted(browsers.CHROMIUM, 'no Chromium: apt-get install chromium')
    browser = browsers.Chromium(str(tmp_path))

    def in_browser(method, **given):
        session, browser.session = browser.session, None
        try:
            return browser.call(method, **given)
        finally:
            browser.session = session

    def workers():
        return [it for it in in_browser('Target.getTargets')['targetInfos'] if it['type'] == 'worker']
    try:
        browser.open(f'file://{made[0]}')
        browser.wait('document.documentElement.dataset.ready')
        opened(browser, dumbbell('--flows', '10', '--rate', '1G', '--rtt', '10ms', '--queue', 'droptail:100', '--end', '1000s'))
        _, _, line, ch = place_of(browser, 'link pq ', 7)
        browser.value('simulator.shelf.open("pq.capacity=10..400; spread=1..4")')
        browser.wait('simulator.shelf.running.size > 0')
        browser.value(f'simulator.editor.box.setCursor({{line: {line}, ch: {ch}}}); simulator.drag.key(1)')
        assert len(workers()) >= 3
        if how == 'left':
            browser.call('Page.navigate', url='about:blank')
        else:
            in_browser('Target.closeTarget', targetId=browser.call('Target.getTargetInfo')['targetInfo']['targetId'])
        until = time.monotonic() + LEFT
        while workers() and time.monotonic() < until:
            time.sleep(.2)
        assert workers() == []
    finally:
        browser.close()


if __name__ == '__main__':
    sys.exit(pytest.main([__file__, '-q', *sys.argv[1:]]))
