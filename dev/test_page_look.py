#!/usr/bin/env python3
"""Tests of how the page with the simulator looks and is handled: contrast, targets, letters, borders, focus, calm, units, panels:
python3 -m pytest dev/test_page_look.py. In light and dark, at 1400, 1024 and 390 pixels.
"""
import json
import math
import os
import re
import subprocess
import sys

import pytest

sys.path.insert(0, os.path.dirname(os.path.abspath(__file__)))
import browsers
import page_cases
import page_lessons
from clone import TOP
from page_use import at_prompt, choose, dialog, element, look, pick, run, text_of, wanted, write
from tcpsim import looks

pytest_plugins = 'page_fixtures'
SIZES = {1400: 900, 1024: 768, 390: 844}
TABS = 'net', 'figures', 'stalls', 'trace', 'debug', 'compare'
# What opens each dialog, and what leaves it.
DIALOGS = ('template-open', '#template-dialog .leave'), ('save-open', '#save-close'), ('share-open', '#share-close'), ('about-open', '#about-close')
# Of each text that is seen: its words, its size as it is drawn, and the contrast of its letters with what lies behind them.
TEXTS = '''(() => {
  const parse = text => { const found = text.match(/[\\d.]+/g).map(Number); return text.startsWith('color(') ? found.map(part => part * 255) : found; };
  const light = ([r, g, b]) => {
    const of = part => { const x = part / 255; return x <= 0.03928 ? x / 12.92 : ((x + 0.055) / 1.055) ** 2.4; };
    return 0.2126 * of(r) + 0.7152 * of(g) + 0.0722 * of(b);
  };
  // What lies behind: the ground of what is around; in the net and in charts, the nearest shape before it.
  const behind = element => {
    const box = element.closest('.box, .packet, .drop, .node');
    const shape = box && !element.matches('.reason') && box.querySelector('rect, .disc');
    if (shape) return parse(getComputedStyle(shape).fill);
    for (let at = element; at; at = at.parentElement) {
      const colour = parse(getComputedStyle(at).backgroundColor);
      if (colour.length < 4 || colour[3] > 0) return colour;
    }
    return [255, 255, 255];
  };
  return [...document.querySelectorAll('body *')].filter(e => !e.matches(':disabled, option, optgroup, script, style, template, title, img') &&
    !e.closest('[display=none]') && e.checkVisibility({visibilityProperty: true}) &&
    [...e.childNodes].some(node => node.nodeType === 3 && node.data.trim())).map(e => {
      const style = getComputedStyle(e), drawn = e.closest('svg'), scale = drawn ? e.getScreenCTM().a : 1, [one, two] = [light(parse(drawn ? style.fill : style.color)), light(behind(e))].sort((a, b) => b - a);
      return [e.textContent.trim().slice(0, 30), e.getAttribute('class') || e.id || e.tagName, Math.round(100 * parseFloat(style.fontSize) * scale) / 100, Math.round(100 * (one + 0.05) / (two + 0.05)) / 100];
    });
})()'''
# What can be pressed or filled in, and is smaller than a finger or a hand that trembles wants it; a box's label is pressed too.
SMALL = '''[...document.querySelectorAll('button, select, input, summary, [role=separator]')].filter(e => e.checkVisibility() && !e.closest('.CodeMirror')).map(e => {
  const {width, height} = (e.closest('label') && e.type === 'checkbox' ? e.closest('label') : e).getBoundingClientRect();
  return [e.id || e.textContent || e.name, e.className, width, height];
}).filter(([, kind, width, height]) => kind !== 'event' && kind !== 'border' && (width < 24 || height < 24))'''
# What leaves the window to the side, but for what scrolls within something that does not.
OUTSIDE = '''[...document.querySelectorAll('body *')].filter(e => {
  if (!e.checkVisibility({visibilityProperty: true})) return false;
  const {left, right, width} = e.getBoundingClientRect();
  if (!width || right <= innerWidth + 1 && left >= -1) return false;
  for (let at = e.parentElement; at && at !== document.body; at = at.parentElement)
    if (getComputedStyle(at).overflowX !== 'visible' && at.getBoundingClientRect().right <= innerWidth + 1) return false;
  return true;
}).map(e => [e.tagName, e.id, e.className.baseVal ?? e.className])'''


@pytest.fixture
def sized(browser):
    """A browser at its usual size, which a test may change."""
    browser.value('simulator.lecture.leave()')
    browser.size(1400, 900)
    yield browser
    browser.value('simulator.lecture.leave()')
    browser.size(1280, 800)


def scheme(browser, name):
    """A reader's scheme: `light` or `dark`. Firefox has that of its profile."""
    if isinstance(browser, browsers.Chromium):
        browser.call('Emulation.setEmulatedMedia', features=[{'name': 'prefers-color-scheme', 'value': name}])
    assert browser.value('getComputedStyle(document.body).backgroundColor') == rgb(looks.PAGE['ground'][name == 'dark'])


def rgb(color):
    """A colour as a browser tells it."""
    return f'rgb({", ".join(str(int(color[at:at + 2], 16)) for at in (1, 3, 5))})'


def settle(browser):
    """Waits until all is laid out in the room that there is."""
    browser.value('new Promise(done => setTimeout(() => requestAnimationFrame(() => requestAnimationFrame(() => done(0))), 250))')


def show(browser, tab):
    """Shows a tab, with all that is in it."""
    browser.click(element(f'[data-tab={tab}]'))
    if tab == 'stalls':
        browser.wait('!!document.querySelector("#stall-list table") || document.getElementById("stall-list").textContent.startsWith("No stall")')
    if tab == 'debug' and not browser.value('document.querySelector("#debugger pre").textContent'):
        at_prompt(browser, 'step 20')
        at_prompt(browser, 'state')
    if tab == 'compare' and not browser.value('document.querySelectorAll("#both-figures tr").length'):
        browser.click(element('#compare-go'))
        browser.wait('document.querySelectorAll("#both-figures tr").length > 0')        # of heads alone where no figure differs
    settle(browser)


@pytest.mark.parametrize('width', SIZES)
@pytest.mark.parametrize('colours', ['light', 'dark'])
def test_letters_contrast_targets_and_edges(opened, width, colours):
    """In each view: letters of 12 pixels and more with a contrast of 4.5 and more, targets of 24 pixels, and nothing beyond the window."""
    browser = opened('Chromium')
    browser.value('simulator.lecture.leave()')
    browser.size(width, SIZES[width], mobile=width < 500)
    try:
        scheme(browser, colours)
        choose(browser, 'lesson 17')
        assert run(browser).startswith('done in')
        browser.value('simulator.goTo(1657)')
        for tab in TABS:
            show(browser, tab)
            check_look(browser, (width, colours, tab))
            look(browser, f'look_{width}_{colours}_{tab}')
        for button, close in DIALOGS:
            with dialog(browser, button, close):
                check_look(browser, (width, colours, button))
        browser.value('simulator.showTab("net")')
        browser.value('simulator.editor.text = simulator.editor.text.replace("droptail", "droptial")')
        browser.wait('document.documentElement.dataset.judged === "1"')
        check_look(browser, (width, colours, 'refused'))
    finally:
        scheme(browser, 'light')
        browser.size(1280, 800)


def check_look(browser, where):
    """No text that is seen is small or pale, no target small, and nothing outside."""
    texts = browser.json(TEXTS)
    assert len(texts) > 30, where
    assert not [it for it in texts if it[2] < 11.99], where
    assert not [it for it in texts if it[3] < 4.5], where
    assert browser.json(SMALL) == [], where
    assert browser.json(OUTSIDE) == [], where
    if where[0] > 900:
        assert browser.json('[document.documentElement.scrollHeight <= innerHeight, document.documentElement.scrollWidth <= innerWidth]') == [True, True], where


def test_a_look_that_is_wrong_is_found(chromium):
    """The checks see small letters, pale ones, a small button and what leaves the window."""
    chromium.size(1400, 900)
    choose(chromium, 'lesson 3')
    run(chromium)
    for css, finds in (('#lesson p { font-size: 11px }', TEXTS), ('#said { color: #aaa }', TEXTS), ('#play { min-height: 0; height: 20px; padding: 0 }', SMALL),
                       ('#said { position: absolute; left: 1390px; width: 400px }', OUTSIDE)):
        chromium.value(f'(() => {{ const style = new CSSStyleSheet(); style.replaceSync({json.dumps(css)}); document.adoptedStyleSheets = [style]; }})()')
        found = chromium.json(finds)
        assert [it for it in found if it[2] < 12 or it[3] < 4.5] if finds == TEXTS else found, css
        chromium.value('document.adoptedStyleSheets = []')
        found = chromium.json(finds)
        assert not [it for it in found if it[2] < 11.99 or it[3] < 4.5] if finds == TEXTS else not found, css


DARK = {'layout.css.prefers-color-scheme.content-override': 0, 'ui.systemUsesDarkTheme': 1}


@pytest.mark.parametrize('colours', ['light', 'dark'])
def test_in_firefox_too(made, tmp_path, colours):
    """Firefox draws letters of 12 pixels and more with a contrast of 4.5 and more, targets of 24, and nothing beyond its window."""
    wanted(browsers.FIREFOX, 'no Firefox: apt-get install firefox-esr')
    browser = browsers.Firefox(str(tmp_path), preferences=DARK if colours == 'dark' else {})
    try:
        browser.open(f'file://{made[0]}')
        browser.wait('document.documentElement.dataset.ready')
        scheme(browser, colours)
        for width, height in SIZES.items():
            browser.size(width, height)
            choose(browser, 'lesson 10')
            run(browser)
            browser.value('simulator.goTo(5000)')
            for tab in TABS:
                show(browser, tab)
                check_look(browser, (width, colours, tab))
                look(browser, f'look_{width}_{colours}_{tab}')
    finally:
        browser.close()


# The node of the present event, and whether it is seen in the net's room; how many pixels a letter of 12 has.
NODE_SEEN = '''(() => {
  const seen = page.net.room.getBoundingClientRect(), node = page.net.nodes[+page.record.line(page.record.at).split(' ')[2]].getBoundingClientRect();
  return node.left >= seen.left - 1 && node.right <= seen.right + 1 && (node.top <= seen.bottom && node.bottom >= seen.top);
})()'''


@pytest.mark.parametrize('width', SIZES)
def test_a_net_without_room_scrolls(sized, width):
    """Islands, three routers and a way that two flows share: letters of 12 pixels, and the node of the present event is seen."""
    browser = sized
    browser.size(width, SIZES[width], mobile=width < 500)
    islands = subprocess.run([sys.executable, f'{TOP}/bin/tcpsim-net', 'islands', '--end', '300ms'], capture_output=True, text=True, check=True).stdout
    texts = [islands, *(page_cases.read('examples', f'{name}.txt').decode() for name in ('parking_lot_of_three_routers', 'acks_share_the_bottleneck'))]
    larger = []
    for number, text in enumerate(texts):
        browser.value(f'simulator.openText({json.dumps(text)}, "net")')
        browser.wait('document.documentElement.dataset.judged === "0"')
        run(browser)
        larger.append(browser.value('page.net.larger'))
        for event in (1, 100, 207, browser.value('page.record.last')):
            browser.value(f'simulator.goTo({event})')
            assert browser.value(NODE_SEEN), (width, event)
        settle(browser)
        check_look(browser, (width, 'light', 'net'))
        look(browser, f'net_{width}_{number}')
    assert larger[0] and (width > 500 or larger[2]), larger
    # The wheel scrolls it, and else zooms.
    assert browser.json('page.net.svg.on("wheel.zoom") ? 1 : 0') == (0 if larger[-1] else 1)


@pytest.mark.parametrize('colours', ['light', 'dark'])
def test_a_pressed_button_is_no_hovered_one(chromium, colours):
    """What is pressed is filled, wherever the mouse is; a button below it, or the chosen tab, is not."""
    browser = chromium
    browser.size(1400, 900)
    try:
        scheme(browser, colours)
        choose(browser, 'lesson 17')
        browser.call('DOM.enable')
        browser.call('CSS.enable')
        ground = lambda css: browser.value(f'getComputedStyle({element(css)}).backgroundColor')  # noqa: E731
        accent, paper = (rgb(looks.PAGE[name][colours == 'dark']) for name in ('accent', 'raised'))
        for css, here in (('#fold', accent), ('[data-panel=lengths]', accent), ('[data-panel=windows]', None), ('#help', None)):
            before = ground(css)
            root = browser.call('DOM.getDocument')['root']['nodeId']
            node = browser.call('DOM.querySelector', nodeId=root, selector=css)['nodeId']
            browser.call('CSS.forcePseudoState', nodeId=node, forcedPseudoClasses=['hover'])
            settle(browser)
            assert (before, ground(css)) == (accent, accent) if here else before == paper and ground(css) not in (paper, accent), css
        look(browser, f'hovered_{colours}')
    finally:
        browser.call('CSS.disable')
        scheme(browser, 'light')


def test_focus_is_seen_everywhere(chromium):
    """Each stop of the Tab key has an outline of two pixels or more. (A headless Firefox's window has no focus.)"""
    browser = chromium
    browser.size(1400, 900)
    choose(browser, 'lesson 10')
    run(browser)
    browser.value('document.activeElement.blur()')
    browser.value('document.getElementById("choose").focus()')
    seen = set()
    for _ in range(70):
        browser.press('Tab')
        name, style, wide = browser.json('''(({activeElement: e}) => { const at = e.closest('.CodeMirror') || e, style = getComputedStyle(at);
          return [e === document.body ? '' : e.id || e.textContent.slice(0, 20) || e.getAttribute('class') || e.tagName, style.outlineStyle, parseFloat(style.outlineWidth)]; })(document)''')
        if not name:        # behind the last stop
            break
        assert style != 'none' and wide >= 2, name
        seen.add(name)
    assert {'run', 'border-left', 'border-net', 'play', 'of-net'} <= seen, seen


# ---- panes

def widths(browser):
    return browser.json('["scenario-side", "lesson", "net"].map(id => document.getElementById(id).getBoundingClientRect()).map((box, k) => k ? box.height : box.width)')


def test_borders_move(sized, made):
    """By the arrow keys and by a pointer; two presses put one back; the page that is loaded anew has them where they were."""
    browser = sized
    browser.value('localStorage.clear()')
    browser.open(f'file://{made[0]}')
    browser.wait('document.documentElement.dataset.ready')
    choose(browser, 'lesson 10')
    run(browser)
    usual = widths(browser)
    for number, (border, keys) in enumerate((('left', 'ArrowRight'), ('lesson', 'ArrowUp'), ('net', 'ArrowDown'))):
        browser.value(f'document.getElementById("border-{border}").focus()')
        for _ in range(4):
            browser.press(keys)
        moved = widths(browser)
        assert (moved[number] - usual[number]) * (-1 if keys == 'ArrowUp' else 1) > 30, border
    settle(browser)
    panes = browser.json('["net", "charts"].map(id => document.getElementById(id).getBoundingClientRect()).map(box => [box.width, box.height])')
    drawn = browser.json('[page.net.svg.node().viewBox.baseVal.width * page.net.pixels, Object.values(page.panels.charts)[0].wide]')
    assert drawn[0] == pytest.approx(panes[0][0], abs=2) and drawn[1] <= panes[1][0]
    browser.reload()
    browser.wait('!!window.page && document.documentElement.dataset.ready')
    assert widths(browser)[0] == pytest.approx(moved[0], abs=2)
    browser.value('document.getElementById("border-left").dispatchEvent(new MouseEvent("dblclick"))')
    assert widths(browser)[0] == pytest.approx(usual[0], abs=2)
    if isinstance(browser, browsers.Chromium):
        x, y = browser.middle(element('#border-left'))
        for kind, at in (('mousePressed', x), ('mouseMoved', x + 150), ('mouseReleased', x + 150)):
            browser.call('Input.dispatchMouseEvent', type=kind, x=at, y=y, button='left', buttons=1, clickCount=1)
        assert widths(browser)[0] == pytest.approx(usual[0] + 150, abs=6)
    browser.value('document.querySelectorAll(".border").forEach(border => border.dispatchEvent(new MouseEvent("dblclick")))')
    browser.value('localStorage.clear()')


# ---- the first view, and calm

@pytest.mark.parametrize('calm', [False, True])
def test_the_first_view_runs_at_once_and_moves(made, tmp_path, calm):
    """Unless its reader wants no motion: then it runs, and stands at its first event, and nothing on the page moves by itself."""
    wanted(browsers.CHROMIUM, 'no Chromium: apt-get install chromium')
    browser = browsers.Chromium(str(tmp_path), flags=['--force-prefers-reduced-motion'] if calm else [])
    try:
        browser.open(f'file://{made[0]}')
        browser.wait('window.page && document.documentElement.dataset.ready')
        assert text_of(browser, '#lesson h2') == '1. One segment' and browser.value('page.record.count') == 5
        if calm:
            settle(browser)
            assert browser.json('[page.playing, page.record.at]') == [False, 0]
            assert browser.value('Math.max(...[...document.querySelectorAll("body *")].map(e => parseFloat(getComputedStyle(e).transitionDuration)))') == 0
        else:
            before = browser.value('page.time')
            browser.wait(f'page.time > {before} || page.record.at === 5')
    finally:
        browser.close()


@pytest.mark.parametrize('how', ['list', 'scenario', 'fragment', 'keys'])
def test_what_is_chosen_runs_at_once(sized, how):
    """From the list, by a lesson's own button, by an address and in a lecture, without a press; it moves, but for a lecturer's."""
    browser = sized
    browser.value('page && page.play(false)')
    before = browser.value('document.documentElement.dataset.run || 0')
    if how == 'list':
        pick(browser, '#choose', 'lesson 10')
    elif how == 'scenario':
        choose(browser, 'lesson 11')
        before = browser.value('document.documentElement.dataset.run')
        browser.value('document.querySelector("#lesson button.example:nth-of-type(2)").click()')
    elif how == 'fragment':
        browser.value('location.hash = "#lesson=9"')
    else:
        browser.value('simulator.openLesson(9)')
        browser.wait(f'document.documentElement.dataset.run != {before}')
        before = browser.value('document.documentElement.dataset.run')
        browser.value('simulator.lecture.begin()')
        browser.press('PageDown')
    browser.wait(f'document.documentElement.dataset.run != {before}')
    assert browser.value('simulator.run.text === simulator.editor.text && simulator.run.title === simulator.title')
    if how == 'keys':
        assert browser.json('[page.playing, page.record.at]') == [False, 0] and browser.value('simulator.lessons.now.number') == 10
    else:
        browser.wait('page.playing && page.record.at > 0')
    browser.value('page.play(false)')


def test_the_row_of_tabs_does_not_move(sized):
    """On a phone it stays where it is, whatever it shows."""
    browser = sized
    browser.size(390, 844, mobile=True)
    choose(browser, 'lesson 10')
    run(browser)
    tops = []
    for tab in (*TABS, 'net'):
        show(browser, tab)
        browser.value('scrollTo(0, 0)')
        tops.append(browser.value('Math.round(document.getElementById("tabs").getBoundingClientRect().top + scrollY)'))
    assert {*tops} == {tops[0]}, tops
    assert browser.value('document.getElementById("tabs").getBoundingClientRect().bottom <= document.querySelector("#replay header").getBoundingClientRect().top + 1')


def test_on_a_phone_a_pressed_tab_is_seen(sized):
    """What it shows is brought into view, below the row of tabs, which stays above."""
    browser = sized
    browser.size(390, 844, mobile=True)
    choose(browser, 'lesson 17')
    run(browser)
    for tab in (*TABS, 'time', 'net'):
        browser.value('scrollTo(0, 0)')
        browser.click(element(f'[data-tab={tab}]'))
        tabs, top = browser.json(f'["tabs", "{"panel-bar" if tab == "net" else f"tab-{tab}"}"].map(id => document.getElementById(id).getBoundingClientRect()).map(({{top, bottom}}, k) => k ? top : [top, bottom])')
        assert 0 <= tabs[0] and tabs[1] - 2 <= top < 422, (tab, tabs, top)
        look(browser, f'phone_tab_{tab}')


# ---- units

def test_numbers_have_hints_and_take_units(sized):
    """Behind each statement stands what its numbers mean; 18ms, 1Mbit/s and 1.5k are written as the program reads them."""
    browser = sized
    choose(browser, 'lesson 9')
    hints = browser.json('[...document.querySelectorAll(".CodeMirror-line[data-hint]")].map(e => [e.textContent.split(" ")[0], e.dataset.hint])')
    assert ['sim', '30 s'] in hints or any(kind == 'sim' and re.fullmatch(r'[\d.]+ s', hint) for kind, hint in hints), hints
    assert any(kind == 'link' and re.fullmatch(r'\d+ [kM]bit/s, \d+ ms, \d+ packets = [\d.]+ m?s', hint) for kind, hint in hints), hints
    browser.value('simulator.editor.text = "sim 1000000000\\nnode s sender\\nnode r receiver\\nlink a s r 8000000 1000000 droptail 10\\nlink b r s 8000000 1000000 droptail 10\\nflow f s r 1000 1 0 64000 0\\n"')
    for line, typed, read in (('link a s r 8000000 18ms droptail 10', '18ms', '18000000'), ('link a s r 1Mbit/s 18000000 droptail 10', '1Mbit/s', '1000000'),
                              ('flow f s r 1000 1 0 64k 0', '64k', '64000'), ('flow f s r 1.5k 1 0 64000 0', '1.5k', '1500'), ('sim 0.5s', '0.5s', '500000000'), ('link a s r 10 18000000 codel 1000 5ms 100000000 1540', '5ms', '5000000')):
        at = browser.value(f'simulator.editor.text.split("\\n").findIndex(it => it.split(" ")[0] === {json.dumps(line.split()[0])})')
        first = line.index(typed)
        browser.value(f'(() => {{ const {{box}} = simulator.editor, at = ch => ({{line: {at}, ch}}); box.focus(); box.setSelection(at(0), at(999)); '
                      f'box.replaceSelection({json.dumps(line[:first])} + "7" + {json.dumps(line[first + len(typed):])}); '
                      f'box.setSelection(at({first}), at({first + 1})); box.replaceSelection({json.dumps(typed)}); }})()')
        assert typed in browser.value(f'simulator.editor.box.getLine({at})')        # while it is typed
        browser.value(f'simulator.editor.box.setCursor({{line: {at + 1}, ch: 0}})')
        found = browser.value(f'simulator.editor.box.getLine({at})')
        assert read in found.split(' ') and typed not in found.split(' '), (line, found)
    assert browser.value('simulator.editor.box.historySize().undo') > 5
    assert browser.json('unitsTyped("node 5ms sender # 3s")') == []
    assert browser.json('unitsTyped("link a s r 5parsec 1xs droptail 10")') == []


def test_products_are_read_where_a_round_trip_is_known(sized):
    """0.5BDP becomes the packets that `droptail:0.5BDP` has in tcpsim-net; in a text that is not whole it stays, and the program refuses it."""
    browser = sized
    words = ['dumbbell', '--flows', '4', '--rate', '10M', '--rtt', '40ms', '--end', '5s', '--queue']
    net = lambda queue: subprocess.run([sys.executable, f'{TOP}/bin/tcpsim-net', *words, queue], capture_output=True, text=True, check=True).stdout  # noqa: E731
    capacity = lambda text: next(line for line in text.split('\n') if line.startswith('link pq ')).split()[7]  # noqa: E731
    text = net('droptail:50')
    for word in ('BDP', '0.5BDP', '2BDP/sqrt(n)'):
        browser.value(f'simulator.openText({json.dumps(text)}, "net")')
        browser.value('(() => { const {box} = simulator.editor, line = simulator.editor.text.split("\\n").findIndex(it => it.startsWith("link pq ")), ch = box.getLine(line).indexOf("droptail 50") + 9; '
                      f'box.focus(); box.setSelection({{line, ch}}, {{line, ch: ch + 2}}); box.replaceSelection({json.dumps(word)}); box.setCursor({{line: line + 1, ch: 0}}); }})()')
        assert capacity(browser.value('simulator.editor.text')) == capacity(net(f'droptail:{word}')), word
    assert browser.json('unitsTyped("link a s r 10 18 droptail 0.5BDP", () => "link a s r 10 18 droptail 0.5BDP")') == []


# ---- what is said

def test_the_key_names_all_that_is_drawn(sized):
    """Each kind of band and mark that a panel has, in whatever width; a key that has no room beside the title has rows of its own."""
    browser = sized
    for width in SIZES:
        browser.size(width, SIZES[width], mobile=width < 500)
        choose(browser, 'lesson 17')
        run(browser)
        browser.value('page.panels.choose(["windows", "lengths", "sequence"])')
        settle(browser)
        told = browser.json('''Object.entries(page.panels.charts).map(([name, {svg, top, lanes, record}]) => {
          const key = [...svg.node().querySelectorAll('.key')], edges = svg.node().getBoundingClientRect(), boxes = key.map(e => e.getBoundingClientRect()), title = svg.node().querySelector('.title').getBoundingClientRect();
          const over = boxes.some((one, k) => [...boxes.slice(k + 1), title].some(two => one.left < two.right && two.left < one.right && one.top + 4 < two.bottom && two.top + 4 < one.bottom));
          return [name, key.map(e => e.textContent).sort(), keyOf(lanes, record).map(([, words]) => words).sort(), over, boxes.every(b => b.left >= edges.left && b.bottom <= edges.top + top + 4)];
        })''')
        assert len(told) == (3 if width != 1024 else len(told)) and any(name == 'windows' for name, *_ in told)
        for name, seen, there, over, within in told:
            assert seen == there and not over and within, (width, name, seen, there, over, within)
        assert any({'no new ack for over 200 ms', 'recovery', 'timeout', '35 dropped: queue full'} <= {*seen} for name, seen, *_ in told if name == 'windows'), told


# Of each drop's sign in a panel: its colour, whose it is, at which link, how many it says it is, and its box with its words.
DROPS = """(panel => [...document.querySelectorAll(`#${panel} .marks :is(.full, .codel, .lost)`)].map(e => {
  const [, flow, link] = / of (\\w+), at link (\\w+)/.exec(e.textContent), next = e.nextElementSibling, beside = next && next.matches('.many') ? next : null, words = beside ? beside.textContent : '';
  const counts = [...words.matchAll(/×([\\d,]+)/g)].map(found => +found[1].replace(/,/g, ''));
  const boxes = [e, beside].filter(Boolean).map(one => { const {x, y, width, height} = one.getBBox(), {a, e: left, f: top} = one.getScreenCTM(); return {left: left + a * x, right: left + a * (x + width), middle: top + a * (y + height / 2)}; });
  return {colour: getComputedStyle(e).stroke, flow, link, words, count: counts.reduce((one, two) => one + two, 0) || 1, left: Math.min(...boxes.map(b => b.left)), right: Math.max(...boxes.map(b => b.right)), middle: boxes[0].middle};
}))"""


@pytest.mark.parametrize('width', SIZES)
def test_each_drop_is_drawn_or_counted(sized, width):
    """Signs and the numbers beside them come to the number in the key, which is that of the trace; none lies upon another's number."""
    browser = sized
    browser.size(width, SIZES[width], mobile=width < 500)
    for lesson, links, many in ((13, ['pq'], 27), (16, ['pq'], 30), (17, ['pq', 'qu'], 35), (11, ['a'], 20)):
        choose(browser, f'lesson {lesson}')
        for panel in ('windows', 'sequence', ['lengths', *links], ['delays', *links]):
            browser.value(f'page.panels.choose([{json.dumps(panel)}])')
            name = panel if isinstance(panel, str) else panel[0]
            drops = browser.json(f'{DROPS}("{name}")')
            marks, lanes = browser.json(f'(({{lanes}}) => [lanes.flatMap(({{marks}}) => marks).filter(({{kind}}) => LOOKS.drops[kind]).length, lanes.length])(page.panels.charts.{name})')
            assert sum(it['count'] for it in drops) == marks and (marks == many or lanes == 1), (lesson, name)      # lanes without room are one
            key = browser.json(f'[...document.querySelectorAll("#{name} .key")].map(e => e.textContent)')
            assert any(re.match(f'{many} dropped', it) for it in key), (lesson, name, key)
            rows = sorted((it['flow'], it['link'] if name == 'lengths' else '', it['left'], it['right']) for it in drops if name == 'lengths')
            assert not [1 for one, two in zip(rows, rows[1:]) if one[:2] == two[:2] and two[2] < one[3] - 2], (lesson, rows)
        look(browser, f'drops_{width}_{lesson}')


def test_a_drop_says_whose_it_is_and_at_which_link(sized):
    """In lesson 17 by its flow's colour, in a row of the flow above its link's queue; in the windows of a flow with two such links by a name."""
    browser = sized
    choose(browser, 'lesson 17')
    colours = dict(browser.json('page.facts.flows.map(({name}, f) => { const e = document.body.appendChild(document.createElement("i")); e.style.color = colourOf(f); const {color} = getComputedStyle(e); e.remove(); return [name, color]; })'))
    assert len({*colours.values()}) == 3
    drops = browser.json(f'{DROPS}("lengths")')
    assert {(it['flow'], it['link']) for it in drops} == {('fa', 'pq'), ('fb', 'pq'), ('fa', 'qu'), ('fc', 'qu')} and all(it['colour'] == colours[it['flow']] for it in drops)
    strips = browser.json('page.panels.charts.lengths.lanes.map(({name, strips}) => [name, strips.map(({name, top, tall}) => [name, top, tall])])')
    assert [[name, [flow for flow, *_ in flows]] for name, flows in strips] == [['pq', ['fa', 'fb']], ['qu', ['fa', 'fc']]]
    top = browser.value('document.getElementById("lengths").getBoundingClientRect().top')
    place = {(link, flow): (up, tall) for link, flows in strips for flow, up, tall in flows}
    assert all(up <= it['middle'] - top <= up + tall for it in drops for up, tall in [place[it['link'], it['flow']]])
    browser.value('page.panels.choose(["windows"])')
    drops = browser.json(f'{DROPS}("windows")')
    assert all(bool(re.search('pq|qu', it['words'])) == (it['flow'] == 'fa') and it['colour'] == colours[it['flow']] for it in drops)
    assert {link for it in drops if it['flow'] == 'fa' for link in re.findall('pq|qu', it['words'])} == {'pq', 'qu'}
    look(browser, 'drops_of_windows')


def test_how_many_a_mark_is_lies_over_rings(sized):
    """In lesson 7 three segments are lost, and rings of what is sent again lie beside the cross."""
    browser = sized
    choose(browser, 'lesson 7')
    settle(browser)
    order = browser.json('[...document.querySelectorAll("#sequence .marks > *")].map(e => e.getAttribute("class"))')
    assert {'again', 'many'} <= {*order} and 'again' not in order[order.index('many'):], order
    # Without halo and stroke, which only Firefox has in the boxes of the window.
    (count, *hidden), = browser.json('''[...document.querySelectorAll("#sequence .many")].map(e => { const words = e.getBBox(), rings = [...document.querySelectorAll("#sequence .marks .again")];
      return [rings.length, ...rings.map(ring => ring.getBBox()).filter(ring => ring.x < words.x + words.width && ring.x + ring.width > words.x && ring.y < words.y + words.height && ring.y + ring.height > words.y)]; })''')
    assert count == 3 and not hidden
    look(browser, 'three_rings')


def test_a_timeout_among_two_flows_says_whose_it_is(sized):
    """Every second dash of its line has its flow's colour, as in lesson 15; of a flow alone it has none."""
    browser = sized
    choose(browser, 'lesson 15')
    settle(browser)
    colours = browser.json('[...document.querySelectorAll("#windows .marks .timeout-of")].map(e => e.style.stroke)')
    whose = browser.json('page.record.timeouts.map(event => `var(--flow-${page.record.line(event).split(" ")[6]})`)')
    assert sorted(colours) == sorted(whose) == ['var(--flow-0)'] * 3 + ['var(--flow-1)']
    look(browser, 'timeouts_of_two_flows')
    browser.value('page.panels.choose([["windows", "fa"]])')
    assert browser.json('["timeout", "timeout-of"].map(kind => document.querySelectorAll(`#windows .marks .${kind}`).length)') == [3, 0]


@pytest.mark.parametrize('width, panels', [(1400, ['windows', 'lengths', 'progress']), (1024, ['windows', 'lengths'])])
def test_each_of_four_flows_is_read_beside_other_panels(sized, width, panels):
    """Each has a lane whose axis its own window fills by a third and more; and what has no room on it is in the key."""
    browser = sized
    browser.size(width, SIZES[width])
    choose(browser, 'lesson 16')
    browser.value(f'page.panels.choose({json.dumps(panels)})')
    settle(browser)
    lanes = browser.json('page.panels.charts.windows.lanes.map(({name, from, to, y, series}) => [name, to - from, greatestOf(series.find(({thin}) => !thin).curve.values) / y.domain()[1]])')
    assert [name for name, *_ in lanes] == ['fa', 'fb', 'fc', 'fd'] and all(tall >= 20 and filled >= .3 for _, tall, filled in lanes), lanes
    assert 'ssthresh 64k' in browser.json('[...document.querySelectorAll("#windows .key")].map(e => e.textContent)')
    look(browser, f'four_flows_{width}')


def test_a_number_at_a_stub_is_in_the_legend(sized):
    """Where ends are drawn as stubs, a number stands above a packet."""
    browser = sized
    choose(browser, 'lesson 17')
    for folded in (True, False):
        browser.value(f'page.makeNet({json.dumps(folded)})')
        assert browser.value('document.getElementById("key").innerText.includes("3/8 25 ms, or 3: packets that wait")') == folded
    browser.value('page.makeNet()')


def test_spans_of_two_flows_are_no_curves(sized):
    """In a panel of two flows each has a strip above the frame of values, behind its name; of a flow alone the whole lane is shaded."""
    browser = sized
    choose(browser, 'lesson 13')
    found = {}
    for flows in ('fa', 'fb'), ('fa',):
        browser.value(f'page.panels.choose([["windows", ...{json.dumps(flows)}]])')
        found[flows] = browser.json('''(({lanes: [{from, to, strips}], x, bands}) => [from, to, x.range(), strips.map(({name}) => name),
          [...bands.node().querySelectorAll('rect')].map(e => [e.getAttribute('class'), ...['x', 'y', 'width', 'height'].map(name => +e.getAttribute(name))]),
          [...bands.node().querySelectorAll('text')].map(e => [e.textContent, e.getBBox().y + e.getBBox().height])])(page.panels.charts.windows)''')
        look(browser, f'spans_{len(flows)}')
    begin, _, (left, right), strips, rects, texts = found['fa', 'fb']
    assert strips == ['fa', 'fb'] and {'fa', 'fb'} <= {text for text, _ in texts} <= {'fa', 'fb', 'no new ack', 'recovery'}
    if isinstance(browser, browsers.Chromium):      # the other's letters are wider
        assert 'no new ack' in {text for text, _ in texts}
    assert {kind for kind, *_ in rects} == {'stall', 'recovery', 'strip', None}
    assert all(y + tall <= begin for *_, y, _, tall in rects) and all(below <= begin + 1 for _, below in texts)
    assert all((x + wide <= left) if kind is None else (left <= x and x + wide <= right + 1.5) for kind, x, _, wide, _ in rects)
    begin, end, _, strips, rects, texts = found['fa',]
    assert not strips and not texts and len(rects) > 10
    assert all((y, tall) == (begin, end - begin) for _, _, y, _, tall in rects)


def test_the_clock_is_told_from_the_events_time(sized):
    """Between two events it is behind the time of the first, which its line of the trace has."""
    browser = sized
    choose(browser, 'lesson 11')
    browser.value('page.goTo(319785000)')
    assert text_of(browser, '#where') == 'event 465 of 8,803   clock 0.319785 s'
    assert browser.json('[...document.querySelectorAll("#lines .present")].map(e => e.textContent.trim().split(/ +/).slice(0, 2))') == [['465', '0.319582']]


def test_what_is_a_line_of_the_trace_says_so(sized):
    """In the examples' comments and in lessons, beside an editor whose own lines have numbers, and where words are found."""
    browser = sized
    for text in browser.json('[...Object.values(simulator.examples), ...[...document.querySelectorAll("template[id^=lesson-]")].flatMap(it => [...it.content.querySelectorAll("[data-line]")].map(e => e.parentNode.textContent))]'):
        assert not re.findall(r'(?<![Tt]race )\b[Ll]ines? \d+\b', text), text
    choose(browser, 'lesson 3')
    show(browser, 'trace')
    write(browser, '#all-lines input[type=search]', 'drop=full')
    browser.press('Enter')
    browser.wait('document.querySelector("#all-lines output").textContent !== ""')
    assert text_of(browser, '#all-lines output') == 'trace line 20'


def test_heads_of_the_trace_stay(sized):
    """They stand above their columns, wherever the list is, and its first and last lines are seen whole below them."""
    browser = sized
    choose(browser, 'lesson 13')
    show(browser, 'trace')
    for exact, heads in ((False, r' *event +time +node +kind, flow, byte +state, sends, drops'), (True, 'n time node source number KIND AFTER ACTS')):
        if exact:
            browser.click(element('#all-lines input[type=checkbox]'))
        for event in (1, 2800, browser.value('page.record.last')):
            browser.value(f'simulator.goTo({event})')
            settle(browser)
            top, below, row, bottom, text = browser.json('''(([box, heads, row]) => [box.top, heads.top, [heads.bottom, row.top, row.bottom], box.bottom, document.querySelector('.lines .heads').textContent])(
              ['.lines', '.lines .heads', '.seen .present'].map(css => document.querySelector(css).getBoundingClientRect()))''')
            assert re.fullmatch(heads, text), text
            assert abs(top - below) <= 1 and row[0] - 1 <= row[1] and row[2] <= bottom + 1, (event, top, below, row, bottom)
        line, columns = text_of(browser, '.seen .present'), text_of(browser, '.lines .heads')
        if not exact:
            assert line[columns.index('node') - 1] == ' ' != line[columns.index('node')] and line[columns.index('kind') - 1] == ' ' != line[columns.index('kind')], (line, columns)
    browser.click(element('#all-lines input[type=checkbox]'))
    # The present line stays in view where the list has less room.
    browser.value('simulator.goTo(page.record.last)')
    browser.value("simulator.list.box.style.maxHeight = `${simulator.list.box.clientHeight - 12}px`")
    settle(browser)
    assert browser.value('+document.querySelector(".seen .present:not([hidden])")?.dataset.event') == browser.value('page.record.last')
    browser.value("simulator.list.box.style.maxHeight = ''")


CONTROLS = '''[...document.querySelectorAll('button, select, input, summary, textarea')].filter(e => e.checkVisibility() && !e.closest('.CodeMirror')).filter(e => {
  const title = (e.closest('label[title]') || e).title;
  // Of a button it begins with what that does.
  return !title || title === e.textContent.trim() || e.matches('button, summary') && !/^[a-z]+s /.test(title);
}).map(e => [e.tagName, e.id, e.name, e.textContent])'''


def test_each_control_has_a_tooltip(sized):
    """In each tab and each dialog, and it says more than the control does; of a button, what happens."""
    browser = sized
    choose(browser, 'lesson 9')       # it has a slider
    assert browser.json('["select", ".tick", "input[type=range]", ".end", "button"].every(css => document.querySelector(`#shelf ${css}`).checkVisibility())')
    for tab in (*TABS, 'time'):
        browser.click(element(f'[data-tab={tab}]'))
        if tab in TABS:
            show(browser, tab)
        if tab == 'debug':
            write(browser, '#debugger input', 'st')
            browser.wait('!!document.querySelector(".goes-on button")')
        assert browser.json(CONTROLS) == [], tab
    for button, close in DIALOGS:
        with dialog(browser, button, close):
            assert browser.json(CONTROLS) == [], button
    browser.value('simulator.showTab("net")')


def test_no_words_of_a_control_are_cut(sized):
    """A queue's words have room in compare, and what a list has no room for its tooltip says whole."""
    browser = sized
    for width in SIZES:
        browser.size(width, SIZES[width], mobile=width < 500)
        assert browser.json('''(e => [...e.options].every(option => {
          e.value = option.value;
          e.dispatchEvent(new PointerEvent("pointerenter"));
          return e.title.endsWith(option.textContent);
        }))(document.getElementById("choose"))''')
        choose(browser, 'lesson 17')
        browser.click(element('[data-tab=compare]'))
        browser.value('document.getElementById("compare-word").value = "codel:125ms:1250ms:1000"')
        assert browser.json('(e => e.scrollWidth <= e.clientWidth)(document.getElementById("compare-word"))'), width
        assert browser.json('["first", "second"].every(id => (e => e.title.endsWith(e.selectedOptions[0].textContent))(document.getElementById(`compare-${id}`)))')
        browser.value('document.getElementById("compare-word").value = ""')
        browser.value('simulator.showTab("net")')


def test_bars_go_by_one_rule(sized):
    """Each is the part that its number is of 100 %, or else of the greatest in its column, as the column's head says; a number alone has none."""
    browser = sized
    choose(browser, 'lesson 17')
    show(browser, 'figures')
    tables = browser.json('''[...document.querySelectorAll('#figures-table > .table table')].map(table => [...table.tHead.rows[0].cells].map((head, k) => [head.title,
      [...table.tBodies[0].rows].map(row => row.cells[k]).map(cell => [cell.textContent, cell.querySelector('.bar') && parseFloat(cell.querySelector('.bar').style.getPropertyValue('--part'))])]))''')
    compared = of_100 = 0
    for head, cells in (column for table in tables for column in table):
        bars = [(float(text.split()[0]), bar) for text, bar in cells if bar is not None]
        parts = any(' %' in text for text, bar in cells if bar is not None)
        assert head.endswith('bars: parts of 100 %') == parts and head.endswith('bars: parts of the greatest in the column') == (bool(bars) and not parts), head
        most = 100 if parts else max((number for number, _ in bars), default=0)
        assert not bars or len(bars) > 1 and (parts or max(bar for _, bar in bars) == 100)
        assert all(abs(bar - 100 * number / most) < 2 for number, bar in bars), (head, cells)
        compared += len(bars)
        of_100 += parts
    assert len(tables) == 2 and compared > 20 and of_100 == 3
    # Shares of several links are not compared; those of one are.
    bars = '[...document.querySelectorAll("#figures-table > .table:first-of-type tbody td:nth-child(3) .bar")].length'
    assert browser.value(bars) == 0
    choose(browser, 'lesson 13')
    show(browser, 'figures')
    assert browser.value(bars) == 2
    choose(browser, 'lesson 3')
    show(browser, 'figures')
    assert browser.json('[...document.querySelectorAll("#figures-table > .table:first-of-type .bar")].map(e => e.parentNode.textContent.split(" ")[1])') == ['%', '%']
    browser.value('simulator.showTab("net")')


def heads_of_flows(browser):
    """The heads of the table of flows: what each says, and its tooltip."""
    return browser.json('[...document.querySelectorAll("#figures-table > .table:first-of-type thead th")].map(e => [e.textContent, e.title])')


def test_round_trips_that_were_timed_say_so(sized):
    """With no trace they are those that the sender timed, one segment at a time: the table of flows says how many, and that the program
    counts in classes. With a trace neither is so."""
    browser = sized
    choose(browser, 'lesson 10')
    show(browser, 'figures')
    names = [name for name, _ in heads_of_flows(browser)]
    assert 'median RTT' in names and 'RTTs timed' not in names
    of_classes = '[...document.querySelectorAll("#figures-table thead th")].filter(e => e.title.includes("counts in classes")).length'
    assert browser.value(of_classes) == 0
    whole = browser.json('[...document.querySelectorAll("#figures-table > details:last-of-type tbody th")].map(e => [e.textContent, e.title])')
    assert [name for name, title in whole if 'counts in classes' in title] == [name for name, _ in whole if re.match('median|..th percentile', name)] != []
    browser.value('simulator.start({trace: false})')
    heads = heads_of_flows(browser)
    names = [name for name, _ in heads]
    at = names.index('RTTs timed')
    assert names[at:at + 3] == ['RTTs timed', 'least timed RTT', 'median of timed RTTs, at most'] and 'RFC 6298 section 3' in heads[at][1]
    assert 'the program counts in classes, and this is the bound of one: at most 1/32 above' in heads[at + 2][1]
    assert browser.value(of_classes) == 5          # of flows, and two of either table of links
    cells = browser.json('[...document.querySelectorAll("#figures-table > .table:first-of-type tbody tr")].map(row => [...row.cells].map(e => [e.textContent, e.title]))')
    assert [[text for text, _ in row[at:at + 3]] for row in cells] == [['8 of 700 segments', '48.8 ms of 8', '134 ms of 8'], ['1 of 15 segments', '58.2 ms of 1', '58.2 ms of 1']]
    assert cells[0][at + 2][1] == '134,217,727 ns, of 8 that were timed'


def test_a_wait_that_is_a_bound_says_so(sized):
    """Of lesson 9 the trace has a median wait of 529 ms, and the program's classes one of at most 537: each has its own head."""
    browser = sized
    waits = '''(([head, row]) => [...head.cells].map((cell, k) => [cell.textContent, row.cells[k].textContent]).filter(([text]) => text.includes("wait,") || text.endsWith("wait")))(
      [...document.querySelectorAll("#figures-table > .table:nth-of-type(2) tr")].slice(0, 2))'''
    choose(browser, 'lesson 9')
    show(browser, 'figures')
    exact = browser.json(waits)
    run(browser, 'figures')
    bounds = browser.json(waits)
    assert [head for head, _ in exact] == ['median wait', '99 % wait'] and [head for head, _ in bounds] == ['median wait, at most', '99 % wait, at most']
    assert exact[0][1] != bounds[0][1], (exact, bounds)


def test_goodput_and_share_say_of_which_time(sized):
    """In lesson 13 the flow with more goodput has the smaller share: it starts later, and the other sends more again."""
    browser = sized
    choose(browser, 'lesson 13')
    show(browser, 'figures')
    assert [name for name, _ in heads_of_flows(browser)][1:3] == ['goodput from its start', 'share of the whole run']


def test_a_share_says_of_which_link(sized):
    """In lesson 17 each flow's share is of the busiest link on its way; without a trace the link is told too."""
    browser = sized
    choose(browser, 'lesson 17')
    show(browser, 'figures')
    shares = '[...document.querySelectorAll("#figures-table > .table:first-of-type tbody tr")].map(row => row.cells[2].textContent)'
    found = browser.json(shares)
    assert [it.rpartition(' ')[2] for it in found] == ['qu', 'pq', 'qu'] and all(re.fullmatch(r'\d+\.\d % of \w+', it) for it in found), found
    browser.value('simulator.start({trace: false})')
    browser.wait('document.getElementById("run").disabled === false')
    assert browser.json(shares) == ['- of qu', '- of pq', '- of qu']
    run(browser)


def test_an_axis_of_delays_says_seconds(sized):
    browser = sized
    choose(browser, 'lesson 10')
    run(browser)
    labels = browser.json('[...document.querySelectorAll("#delays .axis text")].map(e => e.textContent)')
    assert '2 s' in labels and not any('k' in one for one in labels), labels


def test_the_delays_have_codels_target(sized):
    """In lesson 11 as a dotted line, as in the picture, with its number in the key; drop-tail has none."""
    browser = sized
    for lesson, key in (11, ['target 20 ms']), (10, []):
        choose(browser, f'lesson {lesson}')
        settle(browser)
        assert [it for it in browser.json('[...document.querySelectorAll("#delays .key")].map(e => e.textContent)') if 'target' in it] == key
        lines = browser.json('(({lanes: [{y}], curves}) => [...curves.node().querySelectorAll(".level")].map(e => Math.abs(+e.getAttribute("d").split(/[ H]/)[1] - y(2e7)) < 1))(page.panels.charts.delays)')
        assert lines == [True] * len(key), lines
        look(browser, f'target_{lesson}')


def test_a_lesson_picture_in_the_dark(chromium):
    """Its paper is dark, as the page's."""
    try:
        scheme(chromium, 'dark')
        choose(chromium, 'lesson 10')
        assert chromium.value('getComputedStyle(document.querySelector("#picture-dialog img")).filter').startswith('invert(')
    finally:
        scheme(chromium, 'light')


def test_stalls_have_no_backticks(sized):
    browser = sized
    choose(browser, 'lesson 10')
    run(browser)
    show(browser, 'stalls')
    assert '`' not in text_of(browser, '#stall-list') and browser.json('[...document.querySelectorAll("#stall-list code")].map(e => e.textContent)') == ['why', 'stalls']


# ---- panels

def test_each_lesson_names_the_panels_that_carry_it(sized):
    """Its panels and the flows and links that they are of are in the run; a lecture shows the first of them."""
    browser = sized
    lessons = page_lessons.lessons()
    known = browser.json('Object.fromEntries(Object.entries(PANELS).map(([name, {of}]) => [name, of]))')
    for lesson in lessons:
        assert lesson.panels, lesson.number
        for name, *ones in lesson.panels:
            if lesson.examples:
                facts = browser.json(f'factsOf(simulator.examples[{json.dumps(lesson.examples[0])}], "")')
                assert {*ones} <= {it['name'] for it in facts[known[name]]}, (lesson.number, name)
    for number in (3, 10, 17):
        choose(browser, f'lesson {number}')
        run(browser)
        names = [name for name, *_ in lessons[number - 1].panels]
        seen = browser.json('[...document.querySelectorAll("#charts > div")].filter(e => e.checkVisibility()).map(e => e.dataset.panel)')
        assert {*seen} == {*names}, number
        browser.value('simulator.lecture.begin()')
        settle(browser)
        assert browser.json('[...document.querySelectorAll("#charts > div")].filter(e => e.checkVisibility()).map(e => e.dataset.panel)') == names[:1], number
        browser.value('simulator.lecture.leave()')
    choose(browser, 'lesson 10')
    run(browser)
    # The victim is seen: its ten segments, and of the delay its packets, of its own colour.
    assert browser.json('[...document.querySelectorAll("#flows input")].map(e => [e.nextSibling.textContent, e.checked])') == [['f', True], ['g', True]]
    assert browser.value('[...document.querySelectorAll("#sequence .dots title")].map(e => e.textContent).join()') == 'segments of g,segments of f'
    assert browser.json('[...document.querySelectorAll("#delays .dots title")].map(e => e.textContent)') == ['delay of packets of f at a', 'delay of packets of g at a']


@pytest.mark.parametrize('width', [1400, 1024])
def test_a_lesson_opens_with_its_panels_in_view(sized, width):
    """All that it names, lesson 15 windows too, since it speaks of timeouts; and the heads of the trace's lines, which are one row."""
    browser = sized
    browser.size(width, SIZES[width])
    for lesson in (page_lessons.lessons()[k - 1] for k in (3, 13, 15, 17)):
        choose(browser, f'lesson {lesson.number}')
        settle(browser)
        seen, heads = browser.json("""[[...document.querySelectorAll("#charts > div")].filter(e => e.checkVisibility() && e.getBoundingClientRect().bottom <= innerHeight).map(e => e.dataset.panel),
          (({height, bottom}) => height > 0 && height <= 17 && bottom < innerHeight)(document.querySelector("#lines .heads").getBoundingClientRect())]""")
        assert {*seen} == {name for name, *_ in lesson.panels} and heads, (lesson.number, seen, heads)
        assert 'windows' in seen or lesson.number == 17
        look(browser, f'opened_{width}_{lesson.number}')


def test_small_multiples_from_three_flows_on(sized):
    """A lane a flow, each with its axis; where there is no room one flow before the others in grey."""
    browser = sized
    choose(browser, 'lesson 17')
    run(browser)
    browser.value('page.panels.choose(["windows"])')
    assert browser.json('[...document.querySelectorAll("#windows .lane")].map(e => e.textContent)') == ['fa', 'fb', 'fc']
    assert browser.value('page.panels.charts.windows.axes.node().childElementCount') == 3
    tops = browser.json('page.panels.charts.windows.lanes.map(({from, to}) => [from, to])')
    assert all(one[1] < two[0] for one, two in zip(tops, tops[1:]))
    kinds = browser.json('["timeout", "recovery", "stall", "full"].map(kind => document.querySelectorAll(`#windows .bands .${kind}, #windows .marks .${kind}`).length)')
    assert all(kinds), kinds
    assert browser.value('document.querySelectorAll("#windows .marks .timeout").length') >= len(browser.json('page.record.timeouts'))
    look(browser, 'small_multiples')
    browser.value('(() => { const chart = page.panels.charts.windows; chart.show(Array.from({length: 12}, (_, f) => PANELS.windows.lanes(page.record, [0, 1, 2])[f % 3])); })()')
    assert browser.value('page.panels.charts.windows.lanes.length') == 1
    behind, top, most = browser.json('(({curves, lanes: [{y, series}]}) => [[...curves.node().querySelectorAll("path.thin")].map(e => e.getAttribute("stroke")), y.domain()[1], topOf(series.filter(one => !one.other))])(page.panels.charts.windows)')
    # Eleven are thin, in their own colours, and the axis is that of the first.
    assert len(behind) == 12 and {*behind} == {f'var(--flow-{k})' for k in range(3)} and top <= 1.1 * 1.25 * most


DRAW = 'page.panels.charts.windows.show([{series: [{curve: window.curve, colour: "#000", name: "long"}]}]) && 1'
PASS = '(({times, values}) => { let sum = 0; for (let turn = 0; turn < 10; turn++) for (let k = 0; k < times.length; k++) sum += times[k] * values[k]; return sum; })(window.curve)'
PASSES = 60             # it takes 10 to 20, and 300 and more unthinned


def test_a_long_curve_is_thinned_to_its_pixels(chromium):
    """Of 10^6 points each column keeps the first, least, greatest and last; drawing takes few times what a pass over them does, and many unthinned."""
    chromium.size(1400, 900)
    choose(chromium, 'lesson 9')
    run(chromium)
    told = chromium.json('''(() => {
      page.panels.choose(['windows']);
      const chart = page.panels.charts.windows, many = 1e6, times = new Array(many), values = new Array(many), [begin, end] = chart.x.domain();
      let seed = 1;
      for (let k = 0; k < many; k++) { seed = (seed * 16807) % 2147483647; times[k] = begin + (end - begin) * k / many; values[k] = seed % 100000; }
      values[345678] = 1e7; values[765432] = -5;
      const curve = window.curve = {times, values};
      const points = thinned(curve, chart.x), [left, right] = chart.x.range(), column = time => Math.floor(chart.x(time)), of = new Map();
      for (let k = 0; k < many; k++) {
        const c = column(times[k]), one = of.get(c);
        if (one) { one[1] = Math.min(one[1], values[k]); one[2] = Math.max(one[2], values[k]); one[3] = values[k]; } else of.set(c, [values[k], values[k], values[k], values[k]]);
      }
      const kept = new Map();
      for (const [time, value] of points) { const c = column(time); if (!kept.has(c)) kept.set(c, []); kept.get(c).push(value); }
      const wrong = [...of].filter(([c, [first, least, most, last]]) => { const ones = kept.get(c); return !ones || ones[0] !== first || Math.min(...ones) !== least || Math.max(...ones) !== most || ones[ones.length - 1] !== last; });
      return [points.length, right - left, wrong.length, points.every(([time], k) => !k || time >= points[k - 1][0])];
    })()''')
    count, wide, wrong, ordered = told
    assert count <= 4 * (wide + 2) and wrong == 0 and ordered, told
    chromium.call('Performance.enable', timeDomain='threadTicks')
    assert times_of_passes(chromium) < PASSES
    chromium.value('window.thins = thinned; thinned = ({times, values}) => d3.range(times.length).map(k => [times[k], values[k]]); 0')
    try:
        assert times_of_passes(chromium) > PASSES
    finally:
        chromium.value('thinned = thins; 0')


def times_of_passes(browser):
    """How often its points are gone through in the time in which the long curve is drawn: of the processor, the least of five tries each."""
    least = {script: float('inf') for script in (DRAW, PASS)}
    for _ in range(5):
        for script in least:
            before = task_seconds(browser)
            browser.value(script)
            least[script] = min(least[script], task_seconds(browser) - before)
    return 10 * least[DRAW] / least[PASS]


def task_seconds(browser):
    """Seconds of its processor that the page's thread has worked."""
    return next(it['value'] for it in browser.call('Performance.getMetrics')['metrics'] if it['name'] == 'TaskDuration')


def test_who_waits_in_the_queue(chromium):
    """The areas of a column are what the model of the queue has at its fullest moment there: together as high as the queue."""
    chromium.size(1400, 900)
    choose(chromium, 'lesson 16')
    run(chromium)
    told = chromium.json('''(() => {
      page.panels.choose([['lengths', 'pq']]);
      const {x} = page.panels.charts.lengths, {record} = page, l = record.facts.links.findIndex(({name}) => name === 'pq'), areas = stacked(record, l, x), curve = record.queueCurve(l);
      const tops = new Map(), sums = new Map();
      for (const area of areas) for (const [column, low, high] of area) { if (low !== (tops.get(column) || 0)) return 'a gap'; tops.set(column, high); }
      for (let k = 0; k < curve.times.length; k++) {
        const from = Math.floor(x(curve.times[k])), to = Math.floor(x(k + 1 < curve.times.length ? curve.times[k + 1] : record.times[record.count]));
        for (let c = from; c <= to; c++) sums.set(c, Math.max(sums.get(c) || 0, curve.values[k]));
      }
      return [Math.max(...tops.values()), Math.max(...curve.values), [...sums].filter(([c, sum]) => Math.abs((tops.get(c) || 0) - sum) > 1).length, sums.size, areas.filter(area => area.length).length];
    })()''')
    assert told[0] == told[1] == 60 and told[4] == 4, told
    assert told[2] <= told[3] / 50, told


# ---- read aloud

def test_panes_of_the_debugger_and_the_trace_have_names_and_units(sized):
    """A line has names, kinds and units, its tooltip the line itself; an answer of the debugger is the program's, with a hint behind it."""
    browser = sized
    choose(browser, 'lesson 5')
    run(browser)
    browser.value('simulator.goTo(31)')
    line = browser.value('page.record.line(31)')
    assert browser.value('document.querySelector("#lines li.present").title') == line
    shown = text_of(browser, '#lines li.present')
    assert re.match(r' *31 +3\.009\d+ s +s +ack f 5,000 +una=5,000 B ', shown), shown
    show(browser, 'debug')
    hints = dict(browser.json('[...document.querySelectorAll("#debugger [data-hint]")].map(e => [e.textContent, e.dataset.hint])'))
    assert any(text.startswith('node 0 sender') and hint == 'sender s' for text, hint in hints.items()), hints
    assert all(hint == f'{int(text.split()[-2]) / 1e9:.6f} s' for text, hint in hints.items() if text.startswith('at ')) and any(text.startswith('at ') for text in hints), hints
    assert any(re.match(r'event \d+ ', text) and re.match(r'[\d.]+ s, [sr]: (data|ack|rto|free) ', hint) for text, hint in hints.items()), hints
    assert not browser.value('document.querySelector("#debugger pre").textContent.includes("sender s\\n")')


def test_a_picture_of_a_lesson_is_shown_as_large_as_the_window(sized):
    """In the lesson its letters could not be read: there is a button that says what it shows."""
    browser = sized
    choose(browser, 'lesson 10')
    assert browser.json('document.querySelectorAll("#lesson img").length') == 0
    assert text_of(browser, '#lesson .shown-larger').startswith('picture: No loss, three seconds of delay')
    browser.value(f'{element("#lesson .shown-larger")}.scrollIntoView()')
    browser.click(element('#lesson .shown-larger'))
    browser.wait('document.getElementById("picture-dialog").open')
    assert browser.value('document.querySelector("#picture-dialog img").getBoundingClientRect().width > 1000')
    settle(browser)
    browser.click(element('#picture-close'))
    browser.wait('!document.getElementById("picture-dialog").open')
    # On a phone it is as large as it was drawn, and scrolls.
    browser.size(390, 844, mobile=True)
    settle(browser)
    browser.click(element('#lesson .shown-larger'))
    browser.wait('document.getElementById("picture-dialog").open')
    assert browser.json('(e => e.getBoundingClientRect().width >= e.naturalWidth)(document.querySelector("#picture-dialog img"))')
    assert browser.value('document.documentElement.scrollWidth') <= 390
    settle(browser)
    look(browser, 'picture_390')
    browser.click(element('#picture-close'))


# ---- what a reader took for something else

# At each frame while it plays: the event that the clock, the marked line and the words have, and that of the list of all lines.
FRAMES = """(async () => {
  const seen = [], of = css => { const e = document.querySelector(css); return e && e.checkVisibility() ? e.dataset.event : null; };
  page.speed.value = 400; page.play(true);
  for (let k = 0; k < 90; k++) {
    await new Promise(done => requestAnimationFrame(done));
    seen.push([document.getElementById('where').textContent.match(/event ([\\d,]+)/)[1].replace(/,/g, ''), of('#where'), of('#lines .present'), of('#words'), of('.seen .present')]);
  }
  page.play(false);
  return seen;
})()"""


def test_while_it_plays_all_have_one_event(sized):
    """The clock, the marked line and its words; the list of all lines too, and what is seen when it is left."""
    browser = sized
    choose(browser, 'lesson 16')
    for tab, seen in (('net', 3), ('trace', 2)):
        show(browser, tab)
        browser.value('page.goEvent(0)')
        frames = [[one for one in frame if one is not None] for frame in browser.json(FRAMES) if frame[0] != '0']     # before the first event no line is marked
        assert all(len(frame) == seen + 1 and len({*frame}) == 1 for frame in frames), [frame for frame in frames if len(frame) != seen + 1 or len({*frame}) > 1]
        assert len({*map(tuple, frames)}) > 5
    browser.value('simulator.goTo(1700)')
    show(browser, 'net')
    assert browser.json('["#where", "#lines .present", "#words"].map(css => document.querySelector(css).dataset.event)') == ['1700'] * 3


def test_what_happens_last_is_seen(sized):
    """The axis of time goes on behind the last event, and what is known there is drawn: the line at the moment covers no step."""
    browser = sized
    choose(browser, 'lesson 1')
    browser.value('page.goEvent(page.record.last)')
    for name, css in (('windows', 'path[stroke]:not(.thin)'), ('sequence', '.thin')):
        end, last, drawn = browser.json(f'''(({{x, curves}}) => [x.range()[1], x(page.record.times[page.record.count]), curves.node().querySelector({json.dumps(css)}).getBBox()])(page.panels.charts.{name})
          .map(it => it.x === undefined ? it : it.x + it.width)''')
        assert end - last > 6 and drawn == pytest.approx(end, abs=1), name
    # A run that is not whole is known up to its last event.
    browser.value('(() => { page.record.facts.whole = false; page.panels.make(); })()')
    assert browser.value('page.panels.charts.windows.known === page.record.times[page.record.count]')
    browser.value('page.record.facts.whole = true')
    # A press behind the last event goes to it.
    browser.value('page.goTo(page.panels.charts.windows.x.domain()[1])')
    assert browser.json('[page.record.at, page.time === page.record.times[page.record.count]]') == [5, True]


# Of each packet that is dropped: its colour, that of its flow, and where its mark lies.
CROSSES = """[...document.querySelectorAll('.drop')].map(drop => { const cross = drop.querySelector('.cross'), box = cross.getBBox(), {a, e} = cross.getScreenCTM(), fill = css => getComputedStyle(css).fill;
  const probe = document.body.appendChild(document.createElement('i')); probe.style.color = colourOf(+drop.dataset.flow);
  const flow = getComputedStyle(probe).color; probe.remove();
  return [fill(drop.querySelector('rect, .disc')), flow, a * box.x + e, a * box.width, fill(cross)]; })"""


def test_a_dropped_packet_is_its_flows_and_crossed_out(sized):
    """Each of several that are dropped at once has its mark, which lies over no other, in the flow's colour."""
    browser = sized
    for example, event, count in (('a_timer_that_stays_doubled', 1, 4), ('two_stalls_of_different_causes', 1, 2), ('four_flows_share_a_long_queue', 1023, 1)):
        choose(browser, f'example {example}')
        browser.value(f'page.goEvent({event})')
        crosses = browser.json(CROSSES)
        assert len(crosses) == count
        assert all(fill == flow != cross and wide > 6 for fill, flow, _, wide, cross in crosses)
        assert all(abs(one[2] - two[2]) >= one[3] for one, two in zip(crosses, crosses[1:])), crosses
        look(browser, f'dropped_{example}')


# What is seen of the drops while it plays, at a moment: how many there are, what of the link they lie over, and how faded they are.
FALLING = """(time => { page.fall = 9e8; page.record.go(page.record.eventsBefore(time)); page.time = time; page.draw(); delete page.fall;
  const drops = [...document.querySelectorAll('.drop')], boxes = drops.map(drop => drop.querySelector('rect, .disc').getBoundingClientRect());
  const others = [...document.querySelectorAll('.link :is(.count, .rate, .box), .packet')].map(e => [e.textContent, e.getBoundingClientRect()]);
  return [drops.length, others.filter(([, one]) => boxes.some(two => one.left < two.right && two.left < one.right && one.top < two.bottom && two.top < one.bottom)).map(([text]) => text),
    drops.map(drop => +getComputedStyle(drop).opacity)]; })"""


def test_what_falls_covers_nothing(browser):
    """Of the many that a full queue drops in a second few are seen at once, none over words, the queue or a packet, and they fade."""
    browser.size(1280, 800)
    choose(browser, 'lesson 16')
    first = browser.value('page.record.drops[0].time')
    seen = [browser.json(f'{FALLING}({first} + {step} * 5e7)') for step in range(1, 60)]
    assert max(count for count, *_ in seen) in (3, 4) and not [others for _, others, _ in seen if others], seen
    assert {opacity for *_, all_of in seen for opacity in all_of if 0 < opacity < 1}
    browser.value(f'{FALLING}({first} + 4e8)')
    look(browser, 'falling')


@pytest.mark.parametrize('width', [1024, 1400])
def test_a_panel_that_is_pressed_is_seen(browser, width):
    """Whatever room there is, a lit button is a panel that is drawn, and the one that was pressed last is among them."""
    browser.value('simulator.lecture.leave()')
    browser.size(width, SIZES[width])
    lit = '[...document.querySelectorAll("#panels button[aria-pressed=true]")].map(e => e.dataset.panel)'
    drawn = '[...document.querySelectorAll("#charts > div")].filter(e => e.checkVisibility() && e.querySelector("svg .title")).map(e => e.dataset.panel)'
    try:
        for lesson in 10, 16:
            choose(browser, f'lesson {lesson}')
            settle(browser)
            for name in browser.json('Object.keys(PANELS)'):
                if name in browser.json(lit):
                    continue
                browser.click(element(f'#panels [data-panel={name}]'))
                assert browser.json(lit) == browser.json(drawn) and name in browser.json(lit), (lesson, name)
            look(browser, f'panels_{width}_{lesson}')
            before = browser.json(lit)
            assert len(before) < 5
            browser.click(element(f'#panels [data-panel={before[0]}]'))
            assert browser.json(lit) == browser.json(drawn) == before[1:]
    finally:
        browser.size(1280, 800)


def test_boxes_of_flows_and_links_say_what_they_are_of(sized):
    """Above the curves of a run and of two, with a word before them."""
    browser = sized
    choose(browser, 'lesson 17')
    show(browser, 'compare')
    browser.value('simulator.showTab("net")')
    for place, word in (('flows', 'flows'), ('links', 'links'), ('both-flows', 'flows'), ('both-links', 'links')):
        label, shown = browser.json(f'(e => [e.ariaLabel, getComputedStyle(e, "::before").content])(document.getElementById("{place}"))')
        assert label == word and shown in (f'"{word}"', 'attr(aria-label)'), place


def test_a_flow_whose_box_is_empty_is_in_no_panel(sized):
    """Nor in that of delays; but what waits in a queue is all that waits there."""
    browser = sized
    choose(browser, 'lesson 16')
    browser.value('page.panels.choose(["windows", "delays", "lengths"])')
    titles = '["delays", "lengths"].map(name => [...document.querySelectorAll(`#${name} :is(.dots, .area) title`)].map(e => e.textContent.split(" of ")[name === "delays" ? 2 : 1].split(" ")[0]))'
    every = ['fa', 'fb', 'fc', 'fd']
    assert browser.json(titles) == [every, every]
    for flow in every[:2]:
        browser.click(f'[...document.querySelectorAll("#flows label")].find(e => e.textContent === {json.dumps(flow)})')
    assert browser.json(titles) == [every[2:], every]
    dropped = '[...document.querySelectorAll("#delays .marks title")].map(e => / of (f.)/.exec(e.textContent)[1])'
    assert {*browser.json(dropped)} <= {*every[2:]}
    browser.value('page.panels.choose(["delays"])')
    assert browser.value('document.getElementById("flows").checkVisibility()')


def test_a_flow_has_one_colour(sized):
    """In the key and in the area of who waits, as in the net."""
    browser = sized
    choose(browser, 'lesson 16')
    browser.value('page.panels.choose([["lengths", "pq"]])')
    areas, signs = browser.json('''['.area', '.flow'].map(css => [...document.querySelectorAll(`#lengths ${css}`)].map(e => getComputedStyle(e)).map(({fill, fillOpacity, opacity}) => [fill, fillOpacity, opacity]))''')
    assert len(areas) == 4 and sorted(areas) == sorted(signs) and {*map(tuple, (it[1:] for it in areas))} == {('1', '1')}


def test_a_queue_has_flows_alone(sized):
    """In its lane nothing is drawn but the packets of the flows that the key names: no line of the link's, until it is of a run before."""
    browser = sized
    choose(browser, 'lesson 17')
    browser.value('page.panels.choose([["lengths", "pq", "qu"]])')
    colours, key = browser.json('''[[...page.panels.charts.lengths.curves.node().children].map(e => getComputedStyle(e)[e.matches('.area') ? 'fill' : 'stroke']),
      [...document.querySelectorAll('#lengths .flow')].map(e => getComputedStyle(e).fill)]''')
    assert {*colours} == {*key} and len(colours) == 4 and len(key) == 3
    browser.value('page.replace(page.record)')
    assert browser.value('document.querySelectorAll("#lengths [stroke-dasharray]").length') == 2


def test_a_link_has_one_colour(sized):
    """Beside its box and below its name, above the curves of one run and of two."""
    browser = sized
    choose(browser, 'lesson 17')
    browser.value('page.panels.choose([["lengths", "pq", "qu"]])')
    boxes = '[...document.querySelectorAll("#%s label")].map(e => [e.textContent, getComputedStyle(e.lastChild)]).map(([name, style]) => [name, style.borderBottomStyle, style.borderBottomColor])'
    alone = browser.json(boxes % 'links')
    names = browser.json('[...document.querySelectorAll("#lengths .lane")].map(e => [e.textContent, "solid", getComputedStyle(e.nextSibling).fill])')
    browser.value('simulator.compare.end()')
    show(browser, 'compare')
    both = browser.json(boxes % 'both-links')
    assert len(both) == 16 and sorted(both) == sorted(alone) and [name for name, *_ in names] == ['pq', 'qu'] and all(it in alone for it in names)
    assert len({(line, colour) for _, line, colour in both}) == 16
    look(browser, 'links_of_both')
    browser.value('simulator.showTab("net")')


def test_names_of_lanes_lie_over_no_curve(sized):
    """They stand before the axis and its labels; one without room is cut, and its tooltip has it whole."""
    browser = sized
    for width in SIZES:
        browser.size(width, SIZES[width], mobile=width < 500)
        choose(browser, 'lesson 17')
        browser.value('page.panels.choose(["windows", ["lengths", "pq", "qu"]])')
        settle(browser)
        for panel, lanes in (('windows', 3), ('lengths', 2)):
            names, labels, curves = browser.json(f'''['.lane', '.axis text', ':is(.area, path[stroke])'].map(css => [...document.querySelectorAll(`#{panel} ${{css}}`)].map(e => e.getBoundingClientRect()).filter(e => e.width))''')
            if browser.value(f'page.panels.charts.{panel}.lanes.length') == 1:       # they had no room, and are one
                assert not names and width == 1024
                continue
            assert len(names) == lanes, (width, panel)
            assert not [1 for one in names for other in labels if one['right'] > other['left'] and one['bottom'] > other['top'] + 2 and other['bottom'] > one['top'] + 2], (width, panel)
            assert max(it['right'] for it in names) < min(it['left'] for it in curves), (width, panel)
        look(browser, f'lanes_{width}')
    part, told, whole = browser.json('''((chart, lanes) => { lanes[0].name = 'a'.repeat(80); chart.show(lanes); const text = chart.names.node().querySelector('.lane');
      return [text.getComputedTextLength() / chart.wide, text.firstChild.data, text.querySelector('title').textContent]; })(page.panels.charts.windows, page.panels.charts.windows.lanes)''')
    assert part <= .21 and told.endswith('a\u2026') and whole == 'a' * 80


def test_cwnd_and_ssthresh_are_told_apart(sized):
    """The title says which is thick, also where two flows have a longer key; and ssthresh lies at no panel's edge."""
    browser = sized
    for width in SIZES:
        browser.size(width, SIZES[width], mobile=width < 500)
        choose(browser, 'lesson 13')
        settle(browser)
        assert re.search(r'cwnd \(?thick\)?, ssthresh \(?thin\)?', text_of(browser, '#windows .title')), width
        assert browser.json('(e => e.getComputedTextLength() <= page.panels.charts.windows.wide - 6)(document.querySelector("#windows .title"))')
        if width == 1024:
            assert browser.value('(({from, to}) => to - from)(page.panels.charts.windows.lanes[0])') > 80
            look(browser, 'two_flows_1024')
    browser.size(1400, 900)
    drawn = 0
    for name in ('bufferbloat', 'two_flows_share_fairly', 'slow_start_into_a_full_queue', 'fast_recovery', 'parking_lot_of_three_routers', 'a_slow_way_back', 'sawtooth_of_congestion_avoidance'):
        choose(browser, f'example {name}')
        browser.value('page.panels.choose(["windows"])')
        edges = browser.json('''page.panels.charts.windows.lanes.map(({from}) => from).flatMap(from => [...document.querySelectorAll("#windows .thin")].flatMap(e =>
          [...(e.getAttribute("d") || "").matchAll(/[MLHV]/g)].length ? [e.getBBox().y - from] : []).filter(y => y > -50))''')
        assert all(y >= 3 or y < -3 for y in edges), (name, edges)
        drawn += len(edges)
    assert drawn >= 7


# What each says, and words of its tooltip, for who has not built the page.
LABELS = {'run': ('▶ run', 'curves, trace and figures'), 'figures': ('▶ run, table only', 'no trace is kept'), 'stop': ('■ stop', 'stops the program'), 'pin': ('slider for a number', 'slider above the net'),
          'template-open': ('new from a template', 'writes the scenario'), 'lecture-open': ('full screen (l)', 'whole screen'), 'fold': ('compact (f)', 'as short stubs'),
          'save-image': ('scenario image (binary)', 'tcpsim asm')}


def test_labels_say_what_is_done(sized):
    """Those that a stranger had guessed wrong; docs/PAGE.md has the same words."""
    browser = sized
    choose(browser, 'lesson 16')
    with open(f'{TOP}/docs/PAGE.md', encoding='utf-8') as file:
        told = file.read()
    for name, (label, title) in LABELS.items():
        assert browser.json(f'(e => [e.textContent, e.title.includes({json.dumps(title)})])(document.getElementById("{name}"))') == [label, True], name
        assert name == 'run' or f'`{label}`' in told, name
    assert browser.json('(e => [e.checkVisibility(), e.ariaPressed, page.net.folded])(document.getElementById("fold"))') == [True, 'true', True]
    browser.click(element('#fold'))
    assert browser.json('[document.getElementById("fold").ariaPressed, page.net.folded]') == ['false', False]
    show(browser, 'trace')
    assert text_of(browser, '#all-lines label') == ' lines as the program writes them'
    choose(browser, 'lesson 9')
    assert browser.json('[...document.querySelectorAll("#shelf label")].map(e => e.firstChild.textContent)')[-1] == 'runs for each value '
    assert browser.json('[...document.querySelectorAll("#shelf label:last-of-type option")].map(e => e.textContent)') == ['1', '4 and their mean', '10 and their mean', '20 and their mean']


def test_a_table_alone_says_that_nothing_was_traced(sized):
    """In the net's place, with what to press for it."""
    browser = sized
    choose(browser, 'lesson 3')
    run(browser, 'figures')
    assert browser.value('document.getElementById("nothing").checkVisibility()')
    assert re.search('no trace of it was kept, .* Press ▶ run', text_of(browser, '#nothing'))
    look(browser, 'table_only')
    run(browser)


def test_compare_says_what_it_does_before_it_is_pressed(sized):
    browser = sized
    choose(browser, 'lesson 3')
    browser.value('simulator.compare.end()')
    browser.click(element('[data-tab=compare]'))
    says = element('#compare-form p')
    assert browser.value(f'{says}.checkVisibility()') and 'press run both' in text_of(browser, '#compare-form p')
    show(browser, 'compare')
    assert not browser.value(f'{says}.checkVisibility()')
    # Both nets are as large, whatever their names take.
    choose(browser, 'lesson 15')
    show(browser, 'compare')
    browser.value('simulator.compare.choose("with")')
    browser.click(element('#compare-go'))
    browser.wait('document.querySelectorAll("#both-figures tr").length > 0')
    settle(browser)
    assert len(browser.json('[...new Set([...document.querySelectorAll("#both iframe")].map(({contentDocument}) => contentDocument.getElementById("net-room").clientHeight))]')) == 1
    look(browser, 'compared_nets')
    browser.value('simulator.showTab("net")')
    # And no dialog has a gap above its first row.
    with dialog(browser, 'save-open', '#save-close'):
        assert browser.value('document.getElementById("save").getBoundingClientRect().top - document.getElementById("save-dialog").getBoundingClientRect().top') < 24


def test_on_a_phone_nothing_that_moves_the_run_is_out_of_view(sized):
    """390 pixels wide: all tabs, and all buttons of the clock; of what is above the lesson, which takes 104 pixels at most."""
    browser = sized
    browser.size(390, 844, mobile=True)
    choose(browser, 'lesson 16')
    settle(browser)
    assert browser.value('document.getElementById("top").getBoundingClientRect().height') <= 104
    assert browser.json('''[...document.querySelectorAll('#tabs button, #replay header > *, #top :is(button, select)')].filter(e => e.checkVisibility()).map(e => [e.id, e.getBoundingClientRect()])
      .filter(([, {left, right}]) => left < 0 || right > 390).map(([id]) => id)''') == []
    browser.value('scrollTo(0, 0)')
    look(browser, 'phone_top')
    show(browser, 'compare')
    assert browser.json('''[...document.querySelectorAll('#both .clock > *')].filter(e => e.checkVisibility()).map(e => [e.id, e.getBoundingClientRect()]).filter(([, {left, right}]) => left < 0 || right > 390).map(([id]) => id)''') == []
    browser.value('simulator.showTab("net")')


def test_on_a_phone_a_lesson_is_shown_whole_or_with_its_run(sized):
    """A press gives it all the room that it needs, another takes that back, and so does another lesson; elsewhere its border is moved."""
    browser = sized
    choose(browser, 'lesson 13')
    more, whole = element('#lesson-more'), '(e => e.scrollHeight <= e.clientHeight + 1)(document.getElementById("lesson"))'
    assert not browser.value(f'{more}.checkVisibility()')
    browser.size(390, 844, mobile=True)
    settle(browser)
    assert browser.json(f'[{more}.textContent, {whole}]') == ['whole lesson', False]
    browser.click(more)
    assert browser.json(f'[{more}.textContent, {more}.ariaExpanded, {whole}]') == ['less of the lesson', 'true', True]
    look(browser, 'phone_whole_lesson')
    browser.click(more)
    assert browser.json(f'[{more}.textContent, {whole}]') == ['whole lesson', False]
    browser.click(more)
    choose(browser, 'lesson 17')
    assert browser.json(f'[{more}.textContent, {whole}]') == ['whole lesson', False]
    look(browser, 'phone_lesson')
    choose(browser, 'example bufferbloat')
    assert not browser.value(f'{more}.checkVisibility()')


@pytest.mark.parametrize('width', [1400, 1024])
def test_what_moves_the_run_is_in_one_row(sized, width):
    """Also with the button `compact`, which nets with many ends have."""
    browser = sized
    browser.size(width, SIZES[width])
    choose(browser, 'lesson 17')
    settle(browser)
    look(browser, f'one_row_{width}')
    assert browser.value('document.getElementById("fold").checkVisibility()')
    assert browser.value('(([one, two]) => Math.abs(one.top + one.bottom - two.top - two.bottom) < 16)(["play", "pace"].map(id => document.getElementById(id).getBoundingClientRect()))')


def test_further_rows_of_a_line_hang(sized):
    """Of the trace around the moment: below its time, and none is cut."""
    browser = sized
    choose(browser, 'lesson 7')
    browser.value('page.goEvent(100)')
    settle(browser)
    rows, list_bottom = browser.json('''[[...document.querySelectorAll("#lines li:not(.heads)")].filter(e => !e.hidden).map(e => { const range = new Range(); range.selectNodeContents(e);
      return [e.getBoundingClientRect().bottom, e.getBoundingClientRect().left, ...[...range.getClientRects()].map(({left}) => left)]; }), document.getElementById("lines").getBoundingClientRect().bottom]''')
    wrapped = [(left, further[-1]) for _, left, _, *further in rows if further]
    assert wrapped and all(hangs > left + 50 for left, hangs in wrapped), rows
    assert max(bottom for bottom, *_ in rows) <= list_bottom


def test_what_scrolls_shows_that_there_is_more(sized, tmp_path):
    """The explanation of a line has a shadow at its lower edge, and none once it is scrolled to its end."""
    from matplotlib.image import imread
    browser = sized
    browser.size(1024, 768)
    choose(browser, 'lesson 17')
    browser.value('simulator.goTo(1657)')
    settle(browser)
    shades = []
    for scrolled in 0, 9999:
        right, bottom, more = browser.json(f'(e => {{ e.scrollTop = {scrolled}; const box = e.getBoundingClientRect(); return [box.right, box.bottom, e.scrollHeight - e.clientHeight - e.scrollTop]; }})(document.getElementById("words"))')
        assert (more > 4) == (scrolled == 0)
        settle(browser)
        browser.picture(tmp_path / 'words.png')
        shades.append(float(imread(tmp_path / 'words.png')[int(bottom) - 2, int(right) - 30, :3].mean()))
        look(browser, f'words_{scrolled}')
    assert shades[0] < .75 and shades[1] > .99, shades
    if not isinstance(browser, browsers.Chromium):
        return
    try:        # in the dark there is no bright bar, and in neither does it lie behind a whole line
        scheme(browser, 'dark')
        browser.value('document.getElementById("words").scrollTop = 0')
        settle(browser)
        browser.picture(tmp_path / 'words.png')
        column = imread(tmp_path / 'words.png')[int(bottom) - 9:int(bottom), int(right) - 30, :3].mean(axis=1)
        assert column[0] < column.max() < .28, column
    finally:
        scheme(browser, 'light')


def test_on_a_phone_all_of_a_lesson_is_in_view(chromium):
    """Lesson 17 at 390 pixels: the net, the boxes, all columns of the figures, the prompt. (Firefox's letters are wider here.)"""
    browser = chromium
    browser.value('simulator.lecture.leave()')
    browser.size(390, 844, mobile=True)
    choose(browser, 'lesson 17')
    settle(browser)
    browser.value('scrollTo(0, 0)')
    cut = '''[...document.querySelectorAll('%s')].filter(e => e.checkVisibility()).map(e => [e.textContent, e.getBoundingClientRect()]).filter(([, {left, right, bottom}]) => left < 0 || right > 390 || bottom > %d).map(([text]) => text)'''
    assert browser.json(cut % ('#net .node', 844)) == [] and not browser.value('page.net.larger')
    assert browser.json(cut % ('#panel-bar :is(button, label)', 9999)) == [] and browser.value('document.getElementById("panel-bar").scrollWidth <= innerWidth')
    look(browser, 'phone_17')
    show(browser, 'figures')
    assert browser.json('[...document.querySelectorAll("#figures-table > .table")].map(e => e.scrollWidth - e.clientWidth)') == [0, 0]
    apart = """[...document.querySelectorAll("#figures-table > h2 ~ h2 + .table tbody tr")].map(({cells: {5: dropped, 6: loss}}) => {
      const [one, two] = [dropped, loss].map(({firstChild}) => { const range = new Range(); range.selectNodeContents(firstChild); return range.getBoundingClientRect(); });
      return two.left - one.right; })"""
    assert min(browser.json(apart)) >= 8
    look(browser, 'phone_17_figures')
    show(browser, 'debug')
    browser.value('scrollTo(0, 0)')
    assert browser.json(cut % ('#debugger form *', 844)) == []
    look(browser, 'phone_17_debug')
    # All of the tools; and no gap below what a tab has, nor between numbers of two columns.
    assert browser.json(cut % ('#top :is(button, select)', 844)) == []
    for tab in 'debug', 'time':
        show(browser, tab)
        assert browser.value(f'Math.max(...["#debugger pre", "#debugger form", "#time-went *"].flatMap(css => [...document.querySelectorAll(css)]).filter(e => e.checkVisibility()).map(e => e.getBoundingClientRect().bottom)) > document.getElementById("tab-{tab}").getBoundingClientRect().bottom - 24'), tab
    browser.value('simulator.showTab("net")')
    browser.size(1280, 800)


def test_nothing_is_cut_in_a_window(chromium):
    """A net that is drawn whole at 1,400 pixels; at 1,024 each lesson's name, what the speed is, and the prompt's example."""
    browser = chromium
    browser.size(1400, 900)
    choose(browser, 'lesson 17')
    settle(browser)
    browser.value('page.makeNet(false)')
    assert browser.json('(e => [e.scrollWidth - e.clientWidth, e.scrollHeight - e.clientHeight < 2])(page.net.room)') == [0, True]
    browser.value('page.show()')
    look(browser, 'whole_1400')
    browser.size(1024, 768)
    choose(browser, 'lesson 18')
    widest, room = browser.json('''(e => { const {font, paddingLeft} = getComputedStyle(e), ARROW = 20;
      return [Math.max(...[...e.options].filter(it => it.value.startsWith('lesson')).map(it => textWidth(it.textContent, font))), e.clientWidth - 2 * parseFloat(paddingLeft) - ARROW]; })(document.getElementById("choose"))''')
    assert widest <= room
    assert browser.json('[...document.querySelectorAll("#replay header label span")].map(e => [e.textContent, e.checkVisibility()])') == [['speed', True]]
    assert browser.value('document.getElementById("pace").getBoundingClientRect().top < document.getElementById("play").getBoundingClientRect().bottom')
    show(browser, 'debug')
    assert browser.value('(e => textWidth(e.placeholder, getComputedStyle(e).font) < e.clientWidth - 16)(document.querySelector("#debugger input"))')
    look(browser, 'debug_1024')
    browser.value('simulator.showTab("net")')


def test_keys_are_found(sized):
    """A button names the list of all keys, in which are those that buttons name too."""
    browser = sized
    choose(browser, 'lesson 17')
    assert text_of(browser, '#help') == 'keys ?' and browser.value('document.querySelector("#help span").checkVisibility()')
    browser.click(element('#help'))
    keys = browser.json('[...document.querySelectorAll("#keys kbd")].flatMap(e => e.textContent.split(" "))')
    assert browser.value('document.getElementById("keys").checkVisibility()') and {'f', 'l', 'r', 't', 'T', 'w', 'n', '?'} <= {*keys}
    look(browser, 'keys')
    browser.press('Escape')
    for css, words in (('#fold', '(f)'), ('#lecture-open', 'l or Esc'), ('#timeout', '(r;'), ('#of-time', '(w); t goes')):
        assert browser.value(f'{element(css)}.title.includes({json.dumps(words)})'), css


# ---- colours

def test_colours_are_those_of_pictures():
    """A flow's colour is the same in a picture and on a page in light, and in the dark flows are told apart as well."""
    from tcpsim.plot import style
    assert style.SERIES == looks.FLOWS[:4] and style.LINKS == looks.LINKS
    for colors, paper in ((looks.FLOWS_IN_THE_DARK, '#14181d'), (looks.LINKS_IN_THE_DARK, '#14181d')):
        lights = sorted(lightness(color) for color in colors[:4])
        assert all(two - one >= 14 for one, two in zip(lights, lights[1:])), lights
        assert all(contrast(color, paper) >= 3 for color in colors)
    for name, (light, dark) in looks.PAGE.items():
        assert re.fullmatch('#[0-9A-Fa-f]{6}', light) and re.fullmatch('#[0-9A-Fa-f]{6}', dark), name
    for color in (*looks.FLOWS, *looks.FLOWS_IN_THE_DARK):
        assert contrast(color, looks.ink_on(color)) >= 4.5, color


def test_a_drop_has_no_flows_colour():
    """Its words in the net and in the trace are 30 apart in CIELAB from each flow's colour, and from a timeout's 20."""
    for scheme, flows in enumerate((looks.FLOWS, looks.FLOWS_IN_THE_DARK)):
        drop, timeout = (lab(looks.PAGE[name][scheme]) for name in ('drop', 'timeout'))
        assert min(math.dist(drop, lab(color)) for color in flows) > 30 and math.dist(drop, timeout) > 20


def luminance(color):
    parts = [int(color[at:at + 2], 16) / 255 for at in (1, 3, 5)]
    red, green, blue = (part / 12.92 if part <= .03928 else ((part + .055) / 1.055) ** 2.4 for part in parts)
    return .2126 * red + .7152 * green + .0722 * blue


def contrast(one, other):
    low, high = sorted((luminance(one), luminance(other)))
    return (high + .05) / (low + .05)


def lightness(color):
    """That of CIELAB."""
    return 116 * luminance(color) ** (1 / 3) - 16


def lab(color):
    """A colour in CIELAB, of the white point D65."""
    red, green, blue = (luminance('#' + 3 * color[at:at + 2]) for at in (1, 3, 5))
    x, y, z = (part ** (1 / 3) if part > .008856 else 7.787 * part + 16 / 116 for part in (
        .4339 * red + .3762 * green + .1899 * blue, .2126 * red + .7152 * green + .0722 * blue, .0177 * red + .1095 * green + .8728 * blue))
    return 116 * y - 16, 500 * (x - y), 200 * (y - z)
