#!/usr/bin/env python3
"""Tests of the page with the simulator in a lecture, on a phone, by the keyboard alone and for a screen reader:
python3 -m pytest dev/test_page_lecture.py.
"""
import json
import os
import re
import sys

import pytest

sys.path.insert(0, os.path.dirname(os.path.abspath(__file__)))
import browsers
import page_lessons
from clone import TOP
from page_use import choose, element, look, pick, run, text_of

pytest_plugins = 'page_fixtures'
LEAST = 24              # pixels of a lecture's letters
# The size of each text that is seen outside the net, as it is drawn.
SIZES = '''[...document.querySelectorAll("#run-side *")].filter(e => !e.closest("#net") && e.checkVisibility({visibilityProperty: true}) &&
  [...e.childNodes].some(n => n.nodeType === 3 && n.data.trim())).map(e => [e.textContent.trim().slice(0, 30), parseFloat(getComputedStyle(e).fontSize)])'''
NAMED = ('button', 'textbox', 'combobox', 'searchbox', 'slider', 'checkbox', 'tab', 'dialog', 'listbox', 'tabpanel', 'Iframe', 'image', 'region')


@pytest.fixture
def calm(browser):
    """A browser at its usual size, which a test may change."""
    browser.size(1400, 900)
    yield browser
    browser.value('simulator.lecture.leave()')
    browser.size(1280, 800)


def press(browser, *keys):
    for key in keys:
        browser.press(key)


def test_a_lecture_by_keys(calm):
    """One key for the whole screen; panels, lessons and their lines by keys; `?` shows them, and Esc leads back."""
    browser = calm
    choose(browser, 'lesson 3')
    assert run(browser).startswith('done in')
    browser.value('document.activeElement.blur()')
    browser.press('l')
    browser.wait('document.documentElement.classList.contains("lecture")')
    browser.wait('document.getElementById("net").getBoundingClientRect().width > 1200')
    hidden = browser.json('["top", "scenario-side", "runs", "tabs", "below", "play"].map(id => document.getElementById(id).checkVisibility())')
    assert not any(hidden), hidden
    assert browser.json('["net", "where", "windows"].map(id => document.getElementById(id).checkVisibility({visibilityProperty: true}))') == [True] * 3
    browser.wait('page.record.at !== undefined')
    press(browser, 'n')
    first = browser.json('[...document.querySelectorAll("#lesson button.event")].map(e => +e.dataset.event)')
    assert browser.value('page.record.at') == first[0]
    press(browser, 'n')
    assert browser.value('page.record.at') == first[1]
    press(browser, 'N')
    assert browser.value('page.record.at') == first[0]
    assert text_of(browser, '#where').startswith(f'event {first[0]} of')
    small = [it for it in browser.json(SIZES) if it[1] < LEAST]
    assert not small, small
    look(browser, 'lecture')
    press(browser, 'p')
    assert browser.json('["windows", "lengths"].map(id => document.getElementById(id).checkVisibility({visibilityProperty: true}))') == [False, True]
    assert browser.value('document.getElementById("lengths").getBoundingClientRect().width') > 1000
    look(browser, 'lecture_queue')
    # Round all panels.
    press(browser, *'p' * (browser.value('Object.keys(PANELS).length') - 1), '?')
    assert browser.json('["windows", "lengths"].map(id => document.getElementById(id).checkVisibility({visibilityProperty: true}))') == [True, False]
    assert 'lecture' in text_of(browser, '#keys') and browser.value('!document.getElementById("keys").hidden')
    look(browser, 'lecture_keys')
    press(browser, '?')
    assert browser.value('document.getElementById("keys").hidden')
    before = browser.value('document.documentElement.dataset.run')
    press(browser, 'PageDown')
    browser.wait(f'document.documentElement.dataset.run !== {json.dumps(before)}')
    assert browser.value('simulator.lessons.now.number') == 4
    assert browser.value('document.documentElement.classList.contains("lecture") && page.record.count') > 10
    press(browser, 'PageUp')
    browser.wait('simulator.lessons.now.number === 3 && window.page')
    press(browser, 'd')
    browser.wait('page.record.at === page.record.drops[0].event')
    press(browser, 'Escape')
    browser.wait('!document.documentElement.classList.contains("lecture")')
    assert browser.json('["top", "scenario-side", "net"].map(id => document.getElementById(id).checkVisibility())') == [True] * 3


def test_letters_typed_into_the_scenario_are_no_keys(calm):
    browser = calm
    choose(browser, 'example one_segment')
    browser.value('simulator.editor.box.focus()')
    browser.press('l')
    assert not browser.value('document.documentElement.classList.contains("lecture")')
    browser.click(element('[data-tab=compare]'))
    browser.click(element('#compare-word'))
    browser.type('l')
    assert not browser.value('document.documentElement.classList.contains("lecture")')
    browser.value('document.getElementById("compare-word").value = ""')


def tab_to(browser, css, most=120):
    """Presses Tab until an element has the focus."""
    for _ in range(most):
        if browser.value(f'document.activeElement.matches({json.dumps(css)})'):
            return
        browser.press('Tab')
    raise AssertionError(f'the Tab key does not come to {css}')


def enter(browser):
    """Presses Enter at a button. A headless Firefox's window has no focus, without which it takes no key for a button."""
    if isinstance(browser, browsers.Firefox):
        assert browser.value('document.activeElement.tagName') == 'BUTTON'
        browser.value('document.activeElement.click()')
    else:
        browser.press('Enter')


def test_by_the_keyboard_alone(calm):
    """A template is filled in, written and run; its lines, its figures and its packets are looked at; nothing holds the focus."""
    browser = calm
    browser.value('document.activeElement.blur()')
    browser.value('document.getElementById("choose").focus()')
    tab_to(browser, '#template-open')
    enter(browser)
    browser.wait('document.getElementById("template-dialog").open')
    tab_to(browser, '[name=flows]')
    browser.type('3')
    tab_to(browser, '[name=end]')
    browser.type('4s')
    tab_to(browser, '#template-dialog .make')
    enter(browser)
    browser.wait('!document.getElementById("template-dialog").open && simulator.editor.text.startsWith("# A dumbbell: 3 flows")')
    before = browser.value('document.documentElement.dataset.run || 0')
    # Through the editor: the Tab key leads on.
    tab_to(browser, '.CodeMirror textarea')
    tab_to(browser, '#run')
    enter(browser)
    browser.wait(f'(document.documentElement.dataset.run || 0) != {before}')
    # It moves from the begin on.
    tab_to(browser, '#play')
    press(browser, 'Home')
    tab_to(browser, '#on')
    enter(browser)
    browser.wait('page.record.at === 1')
    browser.value('document.querySelector("[data-tab=net]").focus()')
    tab_to(browser, '.node')
    browser.press('Enter')
    browser.wait('document.getElementById("words").textContent.includes("a router")')
    tab_to(browser, '.queue')
    browser.value('document.querySelector("[data-tab=net]").focus()')
    press(browser, 'ArrowRight')
    assert browser.value('document.activeElement.dataset.tab') == 'figures'
    assert browser.value('!!document.querySelector("#tab-figures table").checkVisibility()')
    press(browser, 'ArrowRight')
    assert browser.value('document.activeElement.dataset.tab') == 'stalls'
    press(browser, 'ArrowRight')
    assert browser.value('document.activeElement.dataset.tab') == 'time'
    press(browser, 'ArrowRight')
    tab_to(browser, '.lines')
    press(browser, 'ArrowDown', 'ArrowDown', 'ArrowDown')
    assert browser.value('page.record.at') == 4
    assert browser.value('document.querySelector(".seen .present").dataset.event') == '4'
    press(browser, 'ArrowUp')
    assert browser.value('page.record.at') == 3
    # Round the page, each stop is seen.
    browser.click(element('[data-tab=net]'))
    browser.value('document.getElementById("choose").focus()')
    seen = []
    for _ in range(60):
        browser.press('Tab')
        at = browser.json('(e => [e.id || e.className || e.tagName, e === document.body || e.checkVisibility()])(document.activeElement)')
        assert at[1], at
        seen.append(at[0])
    assert {'template-open', 'open', 'save-open', 'share-open', 'lecture-open', 'about-open', 'run', 'figures', 'play'} <= {*map(str, seen)}, seen


def nameless(chromium):
    """The controls of the present page that have no name."""
    nodes = chromium.call('Accessibility.getFullAXTree')['nodes']
    found = [it for it in nodes if not it.get('ignored') and it['role']['value'] in NAMED]
    return [it['role']['value'] for it in found if not it.get('name', {}).get('value')], len(found)


def test_names_for_screen_readers(chromium):
    """Each control, dialog and picture has a name, in each view."""
    chromium.size(1400, 900)
    choose(chromium, 'lesson 17')
    assert run(chromium).startswith('done in')
    for tab in ('net', 'figures', 'trace', 'debug', 'compare'):
        chromium.click(element(f'[data-tab={tab}]'))
        if tab == 'compare':
            pick(chromium, '#compare-second', 'queue')
            chromium.click(element('#compare-go'))
            chromium.wait('document.querySelectorAll("#both-figures tr").length > 1')
        without, count = nameless(chromium)
        assert not without and count > 20, (tab, without, count)
    chromium.click(element('[data-tab=net]'))
    for button, dialog, close in (('template-open', 'template-dialog', '#template-dialog .leave'), ('save-open', 'save-dialog', '#save-close'),
                                  ('share-open', 'share-dialog', '#share-close'), ('about-open', 'about-dialog', '#about-close')):
        chromium.click(element(f'#{button}'))
        chromium.wait(f'document.getElementById("{dialog}").open')
        without, count = nameless(chromium)
        assert not without and count > 1, (dialog, without)
        chromium.click(element(close))
    # What the net's queues and nodes say.
    tree = chromium.call('Accessibility.getFullAXTree')['nodes']
    names = {it.get('name', {}).get('value') for it in tree if not it.get('ignored') and it['role']['value'] == 'button'}
    assert any(name and name.startswith('router ') for name in names) and any(name and name.startswith('the queue of ') for name in names)
    assert chromium.value('document.documentElement.lang') == 'en'


@pytest.mark.parametrize('width', [390, 320])
def test_on_a_narrow_phone(browser, width):
    """Nothing leaves the page to the side; what is touched is at least 24 pixels wide and high."""
    browser.size(width, 844, mobile=True)
    try:
        choose(browser, 'lesson 10')
        assert run(browser).startswith('done in')
        for tab in ('net', 'figures', 'trace', 'debug', 'compare'):
            browser.click(element(f'[data-tab={tab}]'))
            if tab == 'compare':
                pick(browser, '#compare-second', 'example bufferbloat_with_codel')
                browser.click(element('#compare-go'))
                browser.wait('document.querySelectorAll("#both-figures tr").length > 1')
            if tab == 'net':
                browser.wait(f'({LAID})([page])')
                browser.value('simulator.goTo(Math.ceil(page.record.count / 3))')
                assert letters(browser, least=11) == READABLE
            wide = browser.json('[document.documentElement.scrollWidth, innerWidth]')
            assert wide[0] <= width, (tab, wide)
            small = browser.json('''[...document.querySelectorAll("button, select, input:not([type=checkbox]):not([type=file])")].filter(e => e.checkVisibility())
              .map(e => [e.id || e.textContent || e.name, ...(b => [b.width, b.height])(e.getBoundingClientRect())]).filter(([, w, h]) => w < 24 || h < 24)''')
            small = [it for it in small if not it[0].isdigit()]     # numbers of lines stand within their sentences
            assert not small, (tab, small)
            look(browser, f'phone_{width}_{tab}')
        for button, dialog, close in (('template-open', 'template-dialog', '#template-dialog .leave'), ('save-open', 'save-dialog', '#save-close'),
                                      ('share-open', 'share-dialog', '#share-close')):
            browser.click(element(f'#{button}'))
            browser.wait(f'document.getElementById("{dialog}").open')
            assert browser.value(f'document.getElementById("{dialog}").getBoundingClientRect().right') <= width
            look(browser, f'phone_{width}_{dialog}')
            browser.click(element(close))
        browser.click(element('#lecture-open'))
        browser.wait('document.documentElement.classList.contains("lecture")')
        assert browser.value('document.documentElement.scrollWidth') <= width
        look(browser, f'phone_{width}_lecture')
    finally:
        browser.value('simulator.lecture.leave()')
        browser.size(1280, 800)


def test_each_lesson_of_the_tutorial_is_in_the_page(chromium):
    """As many as the tutorial has, and those with a scenario run by its text."""
    lessons = page_lessons.lessons()
    assert chromium.json('simulator.lessons.lessons.map(it => [it.number, it.title])') == [[it.number, it.title] for it in lessons]
    assert isinstance(chromium, browsers.Chromium) and len(lessons) >= 20


CONTRAST = '''(() => {
  const parse = text => text.match(/[\\d.]+/g).map(Number), light = ([r, g, b]) => {
    const of = part => { const x = part / 255; return x <= 0.03928 ? x / 12.92 : ((x + 0.055) / 1.055) ** 2.4; };
    return 0.2126 * of(r) + 0.7152 * of(g) + 0.0722 * of(b);
  };
  const behind = element => {
    for (let at = element; at; at = at.parentElement) {
      const colour = parse(getComputedStyle(at).backgroundColor);
      if (colour.length < 4 || colour[3] > 0) return colour;
    }
    return [255, 255, 255];
  };
  const found = [];
  for (const element of document.querySelectorAll('body *')) {
    if (element.closest('svg') || element.matches(':disabled, option, optgroup, script, style') || !element.checkVisibility()) continue;
    if (![...element.childNodes].some(node => node.nodeType === 3 && node.data.trim())) continue;
    const [one, two] = [light(parse(getComputedStyle(element).color)), light(behind(element))].sort((a, b) => b - a);
    if ((one + 0.05) / (two + 0.05) < 4.5) found.push([element.className || element.id || element.tagName, element.textContent.slice(0, 20)]);
  }
  return found;
})()'''


def test_words_stand_out_and_no_colour_stands_alone(chromium):
    """Words have the contrast that WCAG 2.2 asks for; flows differ by dash and letter beside their colours."""
    chromium.size(1400, 900)
    choose(chromium, 'lesson 16')
    assert run(chromium).startswith('done in')
    for tab in ('net', 'figures', 'trace', 'debug', 'compare'):
        chromium.click(element(f'[data-tab={tab}]'))
        assert chromium.json(CONTRAST) == [], tab
    chromium.value('simulator.editor.text = simulator.editor.text.replace("droptail", "droptial")')
    chromium.wait('document.documentElement.dataset.judged === "1"')
    assert chromium.json(CONTRAST) == []
    assert text_of(chromium, '#verdict').startswith('refused E4')
    chromium.click(element('[data-tab=net]'))
    lines = chromium.json('[...document.querySelectorAll("#flows span")].map(e => [getComputedStyle(e).borderBottomStyle, getComputedStyle(e).borderBottomColor])')
    assert len({style for style, _ in lines}) == len({colour for _, colour in lines}) == 4
    assert len(set(chromium.json('page.facts.marks'))) == 4
    chromium.call('Emulation.setEmulatedVisionDeficiency', type='achromatopsia')
    look(chromium, 'grey')
    chromium.call('Emulation.setEmulatedVisionDeficiency', type='none')


# What lies over each other of the parts of a lecture that are seen, and parts of the time that are cut.
MEET = '''(() => {
  const ones = ['notice', 'net-room', 'panel-bar', 'charts', 'went', 'where'].map(id => [id, document.getElementById(id)]).filter(([, e]) => e.checkVisibility()).map(([id, e]) => [id, e.getBoundingClientRect()]);
  const cut = [...document.querySelectorAll('.went .parts button')].filter(e => e.checkVisibility({visibilityProperty: true}) && e.getBoundingClientRect().bottom > innerHeight + 1).map(e => e.textContent);
  return [ones.flatMap(([one, a], k) => ones.slice(k + 1).filter(([, b]) => a.left + 1 < b.right && b.left + 1 < a.right && a.top + 1 < b.bottom && b.top + 1 < a.bottom).map(([two]) => [one, two])), cut,
    document.querySelectorAll('.went .parts button').length];
})()'''


@pytest.mark.parametrize('size', [(1024, 768), (1280, 720), (1400, 900)])
def test_a_lecture_hides_nothing_behind_what_it_says(calm, size):
    """Its note lies over nothing and names nothing that a lecture lacks; of a flow's time no part is cut."""
    browser = calm
    browser.size(*size)
    choose(browser, 'lesson 10')
    run(browser)
    browser.value('simulator.lecture.begin()')
    browser.wait(f'document.getElementById("net-room").clientWidth > {size[0] - 50}')
    browser.value('document.activeElement.blur()')
    press(browser, 's')
    said = text_of(browser, '#notice')
    assert said.startswith('g: no new acknowledgement') and 'tab' not in said and '(w says why)' in said
    assert browser.json(MEET)[0] == []
    press(browser, 'w', 't')
    look(browser, f'lecture_time_{size[0]}')
    meets, cut, parts = browser.json(MEET)
    assert meets == [] and cut == [] and parts > 5
    assert browser.value('[...document.querySelectorAll(".went .parts button")].filter(e => e.checkVisibility({visibilityProperty: true})).length') >= 3


def test_what_was_said_before_a_lecture_is_said_in_its_words(calm):
    """A stall's words, which the page had above the panels, have room in a lecture with letters of 24 pixels, and name no tab."""
    browser = calm
    browser.size(1400, 900)
    choose(browser, 'lesson 15')
    browser.value('page.goEvent(0)')
    browser.click(element('#stall'))
    said = text_of(browser, '#notice')
    assert said.endswith(' (the tab stalls says why)')
    browser.value('simulator.lecture.begin()')
    browser.wait('document.getElementById("net-room").clientWidth > 1350')
    browser.wait(f'document.getElementById("notice").textContent !== {json.dumps(said)}')
    look(browser, 'lecture_said')
    assert browser.json('(e => [e.textContent.split(" (")[1], getComputedStyle(e).fontSize, e.scrollHeight <= e.clientHeight, e.scrollWidth <= e.clientWidth])(document.getElementById("notice"))') == ['w says why)', '24px', True, True]


# Every letter that is seen of a document's net, its size as it is drawn, and those that lie over each other, over a node, or outside.
LETTERS = '''((document, least = 24) => {
  const net = document.getElementById('net'), seen = e => e.textContent.trim() && !e.closest('[display=none]') && e.checkVisibility({visibilityProperty: true});
  const meet = (one, two) => one.left + 1 < two.right && two.left + 1 < one.right && one.top + 1 < two.bottom && two.top + 1 < one.bottom;
  const all = [...net.querySelectorAll('text')].filter(seen).map(e => {
    const size = parseFloat(getComputedStyle(e).fontSize) * e.getScreenCTM().a, box = e.getBoundingClientRect(), middle = (box.top + box.bottom) / 2;
    return {words: e.textContent, size, moves: !!e.closest('.packet, .box, .drop'), kind: e.getAttribute('class'), left: box.left, right: box.right,
      top: middle - 0.4 * size, bottom: middle + 0.4 * size};
  });
  const still = all.filter(t => !t.moves), frame = net.getBoundingClientRect();
  const nodes = [...net.querySelectorAll('.node rect')].map(e => e.getBoundingClientRect());
  return {
    small: all.filter(t => t.size < least - 1e-6).map(t => [t.words, t.size]),
    over: still.flatMap((t, k) => still.slice(k + 1).filter(u => meet(t, u)).map(u => [t.words, u.words])),
    cut: nodes.filter(box => box.top < frame.top - 1 || box.bottom > frame.bottom + 1 || box.left < frame.left - 1 || box.right > frame.right + 1).length,
    nodes: still.filter(t => !['name', 'kind'].includes(t.kind) && nodes.some(box => meet(t, box))).map(t => t.words),
    outside: still.filter(t => t.left < frame.left - 1 || t.right > frame.right + 1 || t.top < frame.top - 1 || t.bottom > frame.bottom + 1).map(t => t.words),
    count: all.length};
})'''
# Whether these pages' nets are laid out in the room that they have now.
LAID = '''pages => pages.every(({net: {pixels, svg}}) => {
  const {width, height} = svg.node().getBoundingClientRect(), {width: wide, height: tall} = svg.node().viewBox.baseVal;
  return Math.abs(wide * pixels - width) < 1 && Math.abs(tall * pixels - height) < 1;
})'''
MOMENTS = '''(({record, facts}) => [...new Set([(record.drops[0] || {event: Math.ceil(record.count / 3)}).event, ...facts.links.flatMap((_, l) => {
  const {times, values} = record.queueCurve(l), most = Math.max(...values);
  return most ? [record.eventsBefore(times[values.indexOf(most)] + 1)] : [];
})])])(page)'''
TEMPLATES = {'parking-lot': {}, 'chain': {}, 'dumbbell': {'flows': '6'}, 'asymmetric': {'uploads': '1'}}
SCREENS = (1280, 720), (1400, 900), (1920, 1080)


READABLE = {'small': [], 'over': [], 'nodes': [], 'outside': [], 'cut': 0}


def letters(browser, document='document', least=LEAST):
    """What is not readable of a document's net."""
    found = browser.json(f'{LETTERS}({document}, {least})')
    assert found.pop('count') > 3
    return found


def letters_of_a_lecture(browser, name, screens=SCREENS):
    """Measures the net's, the panel's and the clock's letters on each screen: at the first drop, or a third of the run, and where most
    packets wait at each link."""
    browser.value('document.activeElement.blur()')
    if not browser.value('document.documentElement.classList.contains("lecture")'):
        browser.press('l')
    for width, height in screens:
        browser.size(width, height)
        browser.wait(f'({LAID})([page])')
        for event in browser.json(MOMENTS):
            browser.value(f'simulator.goTo({event})')
            assert letters(browser) == READABLE, (name, width, height, event)
        small = [it for it in browser.json(SIZES) if it[1] < LEAST]
        assert not small, (name, width, small)
    look(browser, f'letters_{name}')


def test_each_letter_of_a_lecture_is_large(calm):
    """Over the examples with several flows or nodes, and what the templates write of several routers."""
    names = calm.json('Object.keys(simulator.examples)')
    for name in names:
        if calm.value(f'simulator.examples[{json.dumps(name)}].match(/^node/gm).length') > 2:
            calm.value('simulator.lecture.leave()')
            choose(calm, f'example {name}')
            run(calm)
            letters_of_a_lecture(calm, name)


@pytest.mark.parametrize('shape', TEMPLATES)
def test_each_letter_of_a_templates_lecture_is_large(calm, shape):
    calm.click(element('#template-open'))
    calm.value('document.querySelectorAll("#template-dialog input").forEach(field => { field.value = ""; })')
    pick(calm, '#template-dialog select', shape)
    for field, value in {'end': '2s', **TEMPLATES[shape]}.items():
        calm.click(element(f'#template-dialog [name={field}]'))
        calm.type(value)
    calm.click(element('#template-dialog .make'))
    calm.wait('!document.getElementById("template-dialog").open && document.documentElement.dataset.judged === "0"')
    run(calm)
    # A row of four routers, three of which have flows of their own, has smaller letters where it has 1280 pixels.
    letters_of_a_lecture(calm, shape, SCREENS[1:] if shape == 'parking-lot' else SCREENS)


def test_a_lecture_has_its_lessons_name(calm):
    """The lesson's number and title, and the scenario's name where the lesson has several or the scenario is no lesson's."""
    for value, wanted in (('lesson 3', ['3. Slow start into a full queue']),
                          ('lesson 7', ['7. Three losses in one window', 'three losses in a window']),
                          ('example one_segment', ['one segment'])):
        calm.value('simulator.lecture.leave()')
        choose(calm, value)
        run(calm)
        assert seen_title(calm) == wanted[-1:] or value == 'lesson 3'
        calm.value('document.activeElement.blur()')
        calm.press('l')
        assert seen_title(calm) == wanted


def seen_title(browser):
    """The parts of a lecture's heading that are seen."""
    return browser.json('[...document.querySelectorAll("#replay h1 span")].filter(e => e.checkVisibility()).map(e => e.textContent)')


@pytest.mark.parametrize('size', [(1400, 900), (390, 844)])
def test_a_lecture_by_touch(calm, size):
    """Where the browser grants no full screen: a button plays and pauses, of one run and of two, another leaves; they cover no words."""
    browser = calm
    browser.value('document.documentElement.requestFullscreen = () => Promise.reject(new TypeError())')
    try:
        browser.size(*size, mobile=size[0] < 500)
        choose(browser, 'lesson 16')
        run(browser)
        browser.click(element('#lecture-open'))
        for shown, moves, words in ((RUN_SHOWN, 'page', ['#where', '#replay h1 .of-lesson']), (BOTH_SHOWN, 'simulator.compare.clock', ['#both-time', '#both-head'])):
            browser.wait(shown)
            boxes = browser.json(f"""['#lecture-play', '#lecture-leave', ...{json.dumps(words)}].map(css => {{ const e = document.querySelector(css), range = document.createRange(); range.selectNodeContents(e);
              const b = (e.matches('button') ? e : range).getBoundingClientRect(); return [b.left, b.top, b.right, b.bottom]; }})""")
            assert all(right - left >= 44 and bottom - top >= 38 and right <= size[0] for left, top, right, bottom in boxes[:2]), boxes
            assert not [1 for one in boxes[:2] for two in boxes[2:] if one[0] < two[2] and two[0] < one[2] and one[1] < two[3] and two[1] < one[3]], boxes
            browser.click(element('#lecture-play'))
            browser.wait(f'{moves}.playing')
            browser.click(element('#lecture-play'))
            assert not browser.value(f'{moves}.playing')
            look(browser, f'touch_{size[0]}_{moves[-5:]}')
            if moves == 'page':
                browser.press('c')
        browser.click(element('#lecture-leave'))
        assert browser.json('[simulator.lecture.on, document.getElementById("lecture-leave").checkVisibility()]') == [False, False]
    finally:
        browser.value('delete document.documentElement.requestFullscreen')


# ---- two runs

def begin_lecture(browser, value):
    """Opens a lesson or an example, and its lecture, in which it is run."""
    browser.value('simulator.lecture.leave()')
    choose(browser, value)
    browser.click(element('[data-tab=net]'))
    browser.value('document.activeElement.blur()')
    browser.press('l')
    browser.wait(RUN_SHOWN)


RUN_SHOWN = 'window.page && simulator.run.text === simulator.editor.text && !document.getElementById("run").disabled'
BOTH_SHOWN = 'document.getElementById("run-side").dataset.view === "compare" && simulator.compare.clock && document.getElementById("compare-said").textContent === ""'
FRAMES = '[...document.querySelectorAll("#both iframe")]'


def readable_both(browser, name):
    """No letter of two runs is small, and their nets are whole."""
    browser.wait(f'({LAID})(simulator.compare.clock.pages)')
    for k in (0, 1):
        frame = f'{FRAMES}[{k}].contentDocument'
        assert letters(browser, frame) == READABLE, (name, k)
        small = browser.json(f'[...{frame}.querySelectorAll("#replay h1, #where")].filter(e => e.checkVisibility()).map(e => parseFloat(getComputedStyle(e).fontSize)).filter(size => size < {LEAST})')
        assert not small, (name, k)
    small = [it for it in browser.json(SIZES) if it[1] < LEAST]
    assert not small, (name, small)


def test_two_runs_in_a_lecture(calm):
    """The key c shows the lesson's two examples under one clock in large letters, each panel by p, and leads back."""
    browser = calm
    browser.value('simulator.compare.end()')
    for size in SCREENS:
        browser.size(*size)
        begin_lecture(browser, 'lesson 11')
        browser.press('c')
        browser.wait(BOTH_SHOWN)
        assert browser.json('simulator.compare.runs.map(it => it.text)') == browser.json('["bufferbloat_with_codel", "bufferbloat"].map(name => simulator.examples[name])')
        assert browser.json('["compare-form", "both-play", "both-figures", "tabs", "top"].map(id => document.getElementById(id)).map(e => e.checkVisibility() && e.getBoundingClientRect().height > 20)') == [False] * 5
        assert text_of(browser, '#both-head') == '11. The same with CoDel'
        press(browser, 'Home', 'd')
        first = browser.json('Math.min(...simulator.compare.records.flatMap(it => it.drops.map(drop => drop.time)))')
        assert browser.value('simulator.compare.clock.time') == first
        readable_both(browser, size)
        # The lesson is carried by the delay at a link: of two runs, by their queues.
        assert browser.json('["both-windows", "both-lengths"].map(id => document.getElementById(id).checkVisibility({visibilityProperty: true}))') == [False, True]
        look(browser, f'lecture_both_queues_{size[0]}')
        press(browser, 'p', 'p')
        assert browser.json('["both-windows", "both-lengths"].map(id => document.getElementById(id).checkVisibility({visibilityProperty: true}))') == [True, False]
        look(browser, f'lecture_both_{size[0]}')
        press(browser, 'p', 'p')
        assert browser.value('document.querySelectorAll("#both-figures tbody tr").length') > 5
        seen = '[...document.querySelectorAll("#both-figures tr")].map(row => row.getBoundingClientRect())'
        assert browser.value(f'Math.max(...{seen}.map(it => it.right)) <= innerWidth')
        assert browser.value(f'{seen}.filter(it => it.bottom <= innerHeight).length') > 5
        assert not [it for it in browser.json(SIZES) if it[1] < LEAST]
        look(browser, f'lecture_both_figures_{size[0]}')
        browser.press('ArrowDown')
        browser.wait('document.getElementById("both-figures").scrollTop > 0')
        assert browser.value('simulator.compare.clock.time') == first
        assert browser.json('[document.documentElement.scrollHeight <= innerHeight, document.documentElement.scrollWidth <= innerWidth]') == [True, True]
    browser.press('?')
    assert 'two runs' in text_of(browser, '#both-keys') and browser.value('!document.getElementById("both-keys").hidden')
    look(browser, 'lecture_both_keys')
    press(browser, '?', 'p')
    readable_both(browser, 'again')
    # A click on a net leads the keys there.
    browser.value(f'{FRAMES}[0].contentWindow.focus()')
    browser.value(f'{FRAMES}[0].contentWindow.dispatchEvent(new KeyboardEvent("keydown", {{key: "c", bubbles: true}}))')
    browser.wait('document.getElementById("run-side").dataset.view === "net"')
    browser.value('window.focus()')
    assert seen_title(browser) == ['11. The same with CoDel', 'bufferbloat with codel']
    browser.wait(f'({LAID})([page])')
    assert letters(browser) == READABLE
    clock = browser.value('(window.before = simulator.compare.clock) && 1')
    browser.press('c')
    browser.wait(BOTH_SHOWN)
    assert clock and browser.value('simulator.compare.clock === window.before'), 'both were run again'
    browser.press('Escape')
    browser.wait('!document.documentElement.classList.contains("lecture")')
    assert browser.json('["compare-form", "both-play", "both-windows", "both-figures"].map(id => document.getElementById(id).checkVisibility({visibilityProperty: true}))') == [True] * 4
    assert browser.json(f'{FRAMES}.map(it => it.contentDocument.documentElement.classList.contains("slide"))') == [False, False]
    assert browser.value('document.getElementById("both-head").checkVisibility()') is False


def test_one_scenario_and_another_queue_in_a_lecture(calm):
    """A lesson with one example has beside it the same with CoDel where most packets waited, one of CoDel's the same without; the next
    lesson is one run again."""
    browser = calm
    browser.size(1920, 1080)
    for value, link, queues in (('lesson 10', 'a', ['droptail', 'codel']), ('lesson 17', None, ['droptail', 'codel']),
                                ('example bufferbloat_with_codel', 'a', ['codel', 'droptail'])):
        browser.value('simulator.compare.end()')
        begin_lecture(browser, value)
        most = browser.value('page.facts.links[page.record.longest.indexOf(Math.max(...page.record.longest))].name')
        assert link in (None, most)
        browser.press('c')
        browser.wait(BOTH_SHOWN)
        found = browser.json(f'simulator.compare.records.map(it => it.facts.links.find(link => link.name === {json.dumps(most)}).queue)')
        assert found == queues, value
        differ = browser.json('(([one, two]) => one.filter((words, k) => String(words) !== String(two[k])).length)(simulator.compare.runs.map(it => [...statementsOf(it.text)]))')
        assert differ == 1
        # The lesson's own CoDel: 5 ms would be less than a packet takes at 1 Mbit/s.
        if link:
            names = browser.json('simulator.compare.runs.map(it => Object.keys(simulator.examples).find(name => simulator.examples[name] === it.text))')
            assert {*names} == {'bufferbloat', 'bufferbloat_with_codel'}
        else:
            assert browser.json('codelFor({flows: [{mss: 1000}], links: [{rate: 1e6}]}, 0)') == 'codel:13ms:130ms'
        readable_both(browser, value)
        look(browser, f'lecture_queue_of_{value.split()[1]}')
    browser.value('simulator.compare.end()')
    begin_lecture(browser, 'lesson 10')
    browser.press('c')
    browser.wait(BOTH_SHOWN)
    browser.press('PageDown')
    browser.wait(RUN_SHOWN)
    browser.wait('simulator.lessons.now.number === 11')
    assert browser.value('document.getElementById("run-side").dataset.view') == 'net'
    browser.press('c')
    # Both lessons compare the same two.
    browser.wait(f'{BOTH_SHOWN} && simulator.compare.runs.some(({{text}}) => text === simulator.examples.bufferbloat_with_codel)')


def test_a_lecture_says_why_there_is_no_run(calm):
    """A text that the program refuses: its note in large letters, for one run and for two; and nothing of it where there is a run."""
    browser = calm
    begin_lecture(browser, 'example one_segment')
    browser.value('simulator.lecture.leave()')
    browser.value('simulator.editor.text = "sim 0\\n"')
    browser.press('l')
    browser.wait('document.documentElement.classList.contains("lecture")')
    browser.wait('document.getElementById("said").textContent.startsWith("refused E5 line 1")')
    seen = '["said", "compare-said"].map(id => document.getElementById(id)).map(e => e.checkVisibility() && parseFloat(getComputedStyle(e).fontSize))'
    browser.wait(f'({seen})[0] >= {LEAST}')
    look(browser, 'lecture_refused')
    browser.press('c')
    browser.wait('document.getElementById("compare-said").textContent.includes("refused E5 line 1")')
    browser.wait(f'(([one, two]) => one === false && two >= {LEAST})({seen})')
    look(browser, 'lecture_refused_both')
    begin_lecture(browser, 'example one_segment')
    assert browser.json(seen) == [False, False]


def test_a_lecture_that_is_begun_anew_at_once_stays(calm):
    """What the browser says late of the window that was whole before does not end it."""
    browser = calm
    begin_lecture(browser, 'example one_segment')
    for _ in range(6):
        browser.press('l')
        browser.press('l')
        browser.value('new Promise(done => setTimeout(done, 300))')
        assert browser.value('simulator.lecture.on')
    browser.press('l')
    browser.wait('!simulator.lecture.on && !document.fullscreenElement')


# ---- five lessons

def named_lines(browser):
    """The lines that the lesson's text names, in order."""
    return browser.json('[...document.querySelectorAll("#lesson button.event")].map(e => +e.dataset.event)')


def test_five_lessons_are_given(calm):
    """A lecture from slow start to CoDel: lessons by the list and by keys, the lines that they name, drops, panels, playing, and two
    runs; at each all is readable, and the heading says which lesson it is."""
    browser = calm
    browser.size(1280, 720)
    given = []

    def lesson(number, title):
        browser.wait(f'simulator.lessons.now.number === {number}')
        browser.wait(RUN_SHOWN)
        assert seen_title(browser)[0] == f'{number}. {title}'
        given.append(number)

    def check(name):
        browser.wait(f'({LAID})([page])')
        assert letters(browser) == READABLE, name
        assert not [it for it in browser.json(SIZES) if it[1] < LEAST], name
        look(browser, f'five_{len(given)}_{name}')

    begin_lecture(browser, 'lesson 3')
    lesson(3, 'Slow start into a full queue')
    for line in named_lines(browser):
        browser.press('n')
        assert browser.value('page.record.at') == line
        check(f'line_{line}')
    browser.press('Home')
    browser.press('d')
    assert browser.value('page.record.at === page.record.drops[0].event')
    check('drop')
    browser.press('PageDown')
    lesson(4, 'Fast recovery')
    browser.press('n')
    check('line')
    browser.press(' ')
    browser.wait('page.record.at === page.record.last || page.record.at > 60')
    if browser.value('page.playing'):
        browser.press(' ')
    assert browser.value('page.playing') is False
    check('played')
    browser.press('Escape')
    begin_lecture(browser, 'lesson 9')
    lesson(9, 'The sawtooth')
    browser.press('d')
    check('drop')
    browser.press('PageDown')
    lesson(10, 'Bufferbloat')
    browser.press('p')
    browser.press('n')
    check('queue')
    browser.press('PageDown')
    lesson(11, 'The same with CoDel')
    browser.press('n')
    check('line')
    browser.press('c')
    browser.wait(BOTH_SHOWN)
    browser.press('d')
    readable_both(browser, 'five')
    look(browser, 'five_5_both')
    browser.press('p')
    look(browser, 'five_5_both_figures')
    browser.press('Escape')
    assert given == [3, 4, 9, 10, 11]
    assert browser.value('document.getElementById("top").checkVisibility()')


def test_a_line_is_of_the_scenario_that_its_text_speaks_of(calm):
    """A link to a line, and the key n, open the scenario that was named before it where another is shown."""
    browser = calm
    browser.size(1280, 800)

    def press_link(line):
        browser.click(f'[...document.querySelectorAll("#lesson button.event")].find(e => e.textContent === "{line}")')

    choose(browser, 'lesson 16')
    assert named_lines(browser) == [1023, 2669, 3059, 3138, 3461, 228]
    press_link(228)
    browser.wait('simulator.title === "four_flows_share_codel" && page && page.record.at === 228')
    assert 'drop=codel' in browser.value('page.record.line(228)')
    browser.wait('!document.getElementById("run").disabled')
    drop_tail, codel = 'four_flows_share_a_long_queue', 'four_flows_share_codel'
    for key, title, line in ('N', codel, 228), ('N', drop_tail, 3461), ('n', codel, 228), (None, drop_tail, 2669), ('N', codel, 228):
        browser.wait('!document.getElementById("run").disabled')
        browser.value('document.activeElement.blur()')
        if key:
            browser.press(key)
        else:
            press_link(line)
        browser.wait(f'simulator.title === "{title}" && page && page.record.at === {line}')
    browser.wait('!document.getElementById("run").disabled')
    browser.value('page.goEvent(1)')
    browser.press('n')      # the first of the scenario that is shown
    browser.wait('page.record.at === 228')
    choose(browser, 'lesson 7')
    assert browser.json('[...document.querySelectorAll("#lesson button.event")].map(e => e.dataset.of.endsWith("newreno"))') == [False] * 7 + [True] * 3


def test_a_lesson_speaks_of_what_the_page_shows():
    """Of no panel by its place; and outside of what it says of a picture only of panels that it brings. Above all is what it shows."""
    for lesson in page_lessons.lessons():
        panels = {name for name, *_ in lesson.panels}
        assert lesson.text.startswith('<blockquote>') and not re.search('<img [^>]*>\\s*<code>', lesson.text), lesson.number
        assert not re.search('(?:upper|lower|two|three|each) panels?', lesson.text), lesson.number
        for part in re.findall(r'<p>(.*?)</p>', lesson.text, re.S):
            if re.search('picture', re.sub('<[^>]*>', '', part)):
                continue
            assert not re.search('panels? to the right|received in order|crosses above shows?', part), (lesson.number, part)
            assert not re.search('panels? of the queues?', part) or 'lengths' in panels, (lesson.number, part)


def test_lesson_13_says_when_its_flows_lose():
    """Each when the queue is full, as its claim has it: three of each within half a second of the other's, and at 12 s one alone."""
    text = page_lessons.lessons()[12].text
    with open(f'{TOP}/examples/two_flows_share_fairly.trace', encoding='ascii') as file:
        drops = [(int(line.split()[1]) / 1e9, line.split()[6]) for line in file if ' drop=' in line]
    between = {flow: [time for time, of in drops if of == flow and 4 < time < 11] for flow in '01'}
    assert all(len(it) == 3 for it in between.values()) and all(.05 < abs(one - two) < .5 for one, two in zip(*between.values()))
    assert [flow for time, flow in drops if 11 < time < 13] == ['0']
    assert 'each is halved when the queue is full' in text and 'From 4 to 11 s each flow loses three segments, one within half a second of the other\'s; at 12 s fa loses alone' in text


def test_a_lesson_names_no_sign_that_its_run_has_not():
    """A plus sign is a packet that the scenario loses by its number, and a cross one for which a queue has no place."""
    for lesson in page_lessons.lessons():
        drops = ''
        for name in lesson.examples:
            with open(f'{TOP}/examples/{name}.trace', encoding='ascii') as file:
                drops += file.read()
        assert not re.search('plus sign', lesson.text) or ' drop=lost' in drops, lesson.number
        assert not re.search('cross(es)? ', lesson.text) or ' drop=full' in drops, lesson.number


def test_the_tutorial_says_of_each_lesson_that_it_is_in_the_page():
    """Below each title, with the address that opens it."""
    with open(page_lessons.TUTORIAL, encoding='utf-8') as file:
        parts = re.split(r'^## ', file.read(), flags=re.M)[1:]
    found = [(int(number[1]), text) for text in parts if (number := re.match(r'(\d+)\. ', text))]
    assert [number for number, _ in found] == [it.number for it in page_lessons.lessons()]
    for number, text in found:
        assert text.split('\n')[2] == f'In [the page](PAGE.md): `tcpsim.html#lesson={number}`.', number
