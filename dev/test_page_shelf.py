#!/usr/bin/env python3
"""Tests of the shelf of sliders in the page with the simulator: python3 -m pytest dev/test_page_shelf.py. Each step of a slider, and each
value of a strip, has the figures of the native program, byte for byte.
"""
import csv as csv_module
import json
import os
import subprocess
import sys

import pytest

sys.path.insert(0, os.path.dirname(os.path.abspath(__file__)))
import browsers
import page_lessons
from clone import PROGRAM, TOP
from page_use import choose, element, look, pick, run, text_of
from test_page_explore import EXPLORED, figures, is_shown, place_of, with_word

pytest_plugins = 'page_fixtures'
pytestmark = pytest.mark.built

# Where the strip has the k-th value of a slider, on the slider.
HANDLE = '''(([pin, k]) => {
  const {slider, strip, values, x} = simulator.shelf.pins[pin], {top, height} = slider.getBoundingClientRect();
  return [strip.getBoundingClientRect().left + x(values[k]), top + height / 2];
})'''
SHELVES = 5
REPLICATES = 4
# Words of tcpsim-net, of each kind of net and of what a number draws.
NETS = (('dumbbell', '--flows', '4', '--rtt', '20ms,80ms', '--rate', '2M', '--end', '3s'), ('dumbbell', '--flows', '3', '--queue', 'codel:5ms:100ms', '--iw', '10'),
        ('dumbbell', '--flows', '2', '--mice', '3', '--delack', '0'), ('chain', '--flows', '2'), ('parking-lot',), ('tree',), ('islands',), ('asymmetric', '--uploads', '2'),
        ('dumbbell', '--start', '0,3s', '--end', '3010ms'))


def counted(browser):
    """Waits until every value of the strips has its figures."""
    browser.wait('document.getElementById("shelf").dataset.counting === "0"')


def strips(browser):
    """Of each pinned number: its values, the texts of each, and of each text its figures as the page has them."""
    return browser.json('simulator.shelf.pins.map(({values, texts}) => values.map((value, k) => [value, texts[k].flat().map(text => [text, simulator.shelf.answers.get(text)?.csv ?? null])]))')


def made_by(*words):
    """What tcpsim-net writes."""
    return subprocess.run([sys.executable, f'{TOP}/bin/tcpsim-net', *words], capture_output=True, text=True, check=True).stdout


def statements(text):
    """A scenario without what is said of it."""
    return [line for line in (line.partition('#')[0].split() for line in text.split('\n')) if line]


def opened_net(browser, text, shelf):
    """A scenario that is run, with a shelf whose strips are counted."""
    browser.value(f'simulator.openText({json.dumps(text)}, "net"); simulator.shelf.open({json.dumps(shelf)})')
    browser.wait('document.documentElement.dataset.judged === "0"')
    assert run(browser).startswith('done in')
    counted(browser)


@pytest.fixture
def sawtooth(browser):
    """The lesson of the sawtooth, which has the capacity of its queue on the shelf, beside CoDel."""
    browser.size(1400, 900)
    choose(browser, 'lesson 9')
    yield browser
    browser.value('simulator.lecture.leave()')
    browser.size(1280, 800)


def test_a_pinned_slider_through_a_range(sawtooth):
    """Each step shows what the native program says; the whole strip has its figures; one step back is the whole drag."""
    browser = sawtooth
    text = browser.value('simulator.editor.text')
    assert text_of(browser, '#shelf .pin output') == 'a queue 10 packets'
    values = browser.json('simulator.shelf.pins[0].values')
    assert values == list(range(1, 41))
    undos = browser.value('simulator.editor.box.historySize().undo')
    browser.mouse('moved', *browser.json(f'{HANDLE}([0, {values.index(10)}])'))
    browser.mouse('pressed', *browser.json(f'{HANDLE}([0, {values.index(10)}])'))
    for value in (11, 12, 14, 18, 25, 40, 33, 20, 9, 5, 2, 1):
        before = browser.value(EXPLORED)
        browser.mouse('moved', *browser.json(f'{HANDLE}([0, {values.index(value)}])'))
        browser.wait(f'({EXPLORED}) !== {json.dumps(before)} && !simulator.exploring')
        wanted = with_word(text, 'link a ', 7, value)
        assert browser.value('simulator.editor.text') == wanted and is_shown(browser, wanted), value
        assert text_of(browser, '#shelf .pin output') == f'a queue {value} packet{"s" * (value != 1)}'
    look(browser, 'shelf_dragged')
    browser.mouse('released', *browser.json(f'{HANDLE}([0, 0])'))
    browser.wait('simulator.list && simulator.list.record === page.record')
    counted(browser)
    (strip,) = strips(browser)
    assert [value for value, _ in strip] == values
    for value, ((own, csv), (other, other_csv)) in strip:
        assert own == with_word(text, 'link a ', 7, value) and csv == figures(own), value
        line = next(line for line in other.split('\n') if line.startswith('link a '))
        assert line.split()[6:8] == ['codel', str(value)] and other_csv == figures(other), line
    before = browser.value(EXPLORED)
    assert browser.value('simulator.editor.box.historySize().undo') == undos + 1
    browser.value('simulator.editor.box.undo()')
    assert browser.value('simulator.editor.text') == text
    browser.wait(f'({EXPLORED}) !== {json.dumps(before)} && !simulator.exploring')
    assert text_of(browser, '#shelf .pin output') == 'a queue 10 packets' and browser.value('simulator.shelf.pins[0].values[simulator.shelf.pins[0].index]') == 10


def test_curves_are_of_the_figure_that_is_chosen(sawtooth):
    """Goodput, utilization, the wait, Jain's index, or any figure as the program counts it, of every value."""
    browser = sawtooth
    counted(browser)
    strip = strips(browser)[0]
    runs = browser.value('simulator.engine.count')

    def of(csv, what, figure):
        return next(int(value) for kind, number, name, _, value in (line.split(',') for line in csv.split('\n')[1:-1]) if (kind, number, name) == (what, '0', figure))
    for chosen, read in (('wait95 a', lambda csv: of(csv, 'link', '95th percentile of delay in the queue')), ('timeouts f', lambda csv: of(csv, 'flow', 'timeouts')),
                         ('dropped a', lambda csv: sum(of(csv, 'link', f'dropped {why}') for why in ('as lost', 'as full', 'by CoDel'))),
                         ('used a', lambda csv: of(csv, 'link', 'busy') / 60e9), ('goodput f', lambda csv: of(csv, 'flow', 'delivered') * 8 / 60), ('Jain', lambda csv: 1),
                         ('flow f sent', lambda csv: of(csv, 'flow', 'sent')), ('link a greatest queue', lambda csv: of(csv, 'link', 'greatest queue'))):
        pick(browser, '#shelf select', chosen)
        browser.wait('!simulator.shelf.drawing')
        curves = browser.json('simulator.shelf.pins[0].curves')
        for curve, place in zip(curves, (0, 1)):
            assert [k for k, _ in curve] == list(range(40))
            assert [value for _, value in curve] == pytest.approx([read(texts[place][1]) for _, texts in strip]), chosen
    assert browser.value('simulator.engine.count') == runs, 'a figure is read anew, not run anew'
    words = browser.json('[...document.querySelectorAll("#shelf select option")].map(e => e.textContent)')
    assert {'wait, 95 % of a', 'wait, median of a', 'round trip, least of f', 'most waiting of a'} <= {*words} and not [it for it in words if 'percentile' in it or 'delay in' in it]
    assert len({*words}) == len(words), 'each has words of its own'
    browser.click(element('#shelf .tick input'))
    browser.wait('!simulator.shelf.drawing')
    assert browser.json('simulator.shelf.pins[0].curves.map(one => one.length)') == [40, 0]


def test_a_line_joins_steps_beside_each_other(browser):
    """Between two values that are counted with others between them there is none, and none where a number has but two values."""
    browser.size(1400, 900)
    parts = '[...simulator.shelf.pins[0].strip.querySelectorAll(".curve")].map(e => ["M", "L"].map(letter => (e.getAttribute("d") || "").split(letter).length - 1))'
    dots = 'simulator.shelf.pins[0].strip.querySelectorAll(".value").length'
    choose(browser, 'lesson 9')
    counted(browser)
    browser.value('simulator.shelf.draw()')
    assert browser.json(parts) == [[1, 39], [1, 39]]
    # Of the forty values nine are counted, and two that are neighbours.
    browser.value('(() => { const {strips} = simulator.shelf, curves = strips.curves; strips.curves = function (...of) { return curves.apply(this, of).map(ones => ones.filter(([k]) => k % 5 === 0 || k === 16)); }; '
                  'simulator.shelf.draw(); strips.curves = curves; })()')
    assert browser.json(parts) == [[8, 1], [8, 1]] and browser.value(dots) == 18
    look(browser, 'strip_in_part')
    choose(browser, 'lesson 8')
    counted(browser)
    browser.value('simulator.shelf.draw()')
    assert browser.json('[simulator.shelf.pins[0].values.length, ...' + parts + '[0]]') == [2, 2, 0] and browser.value(dots) == 2
    look(browser, 'strip_of_two')
    browser.size(1280, 800)


def test_words_at_the_handle_hide_no_curve(browser):
    """They are on the side of it, and in the row, that the curve leaves free."""
    browser.size(1400, 900)
    choose(browser, 'lesson 15')
    meets = '''(() => { const {x, y, width, height} = document.querySelector('.pin .here').getBBox();
      return [...document.querySelectorAll('.pin .curve')].flatMap(path => d3.range(path.getTotalLength()).map(at => path.getPointAtLength(at)))
        .filter(one => one.x > x && one.x < x + width && one.y > y + 2 && one.y < y + height - 2).length; })()'''
    for figure in ('goodput fa', 'goodput fb'):
        browser.value(f'simulator.shelf.open("pq.capacity=1..32; {figure}")')
        counted(browser)
        browser.wait('!simulator.shelf.drawing')
        look(browser, f'words_at_the_handle_{figure[-2:]}')
        assert browser.value(meets) == 0, figure
    # The debugger below it has panels whose curves can be read.
    browser.value('simulator.showTab("debug")')
    browser.wait('page.panels.charts.windows && page.panels.charts.windows.lanes')
    look(browser, 'debugger_below_a_shelf')
    assert min(browser.json('Object.values(page.panels.charts).flatMap(({lanes}) => lanes.map(({from, to}) => to - from))')) > 60
    browser.value('simulator.showTab("net")')
    browser.size(1280, 800)


def test_a_click_in_the_strip_sets_the_value(sawtooth):
    browser = sawtooth
    counted(browser)
    text = browser.value('simulator.editor.text')
    before = browser.value(EXPLORED)
    x, y = browser.json('(({strip, x}) => { const {left, top, height} = strip.getBoundingClientRect(); return [Math.round(left + x(25)), Math.round(top + height / 2)]; })(simulator.shelf.pins[0])')
    for what in ('moved', 'pressed', 'released'):
        browser.mouse(what, x, y)
    browser.wait(f'({EXPLORED}) !== {json.dumps(before)} && !simulator.exploring')
    assert is_shown(browser, with_word(text, 'link a ', 7, 25))


def test_any_number_is_pinned(browser):
    """By the button or Alt-P at the cursor, once each; its range has units, and what is no range is refused; a cross takes it away."""
    browser.size(1400, 900)
    choose(browser, 'example two_flows_share_fairly')
    assert not browser.value('document.getElementById("shelf").checkVisibility()')
    browser.value('simulator.editor.box.setCursor({line: 0, ch: 0})')
    browser.click(element('#pin'))
    how, button = browser.json('["pin-how", "pin"].map(id => document.getElementById(id).getBoundingClientRect())')
    assert text_of(browser, '#pin-how').startswith('Put the cursor on a number') and abs(how['left'] - button['left']) < 2 and 0 < how['top'] - button['bottom'] < 8
    look(browser, 'pin_how')
    for begin, k, name in (('link pq ', 5, 'pq delay 20 ms'), ('link pq ', 4, 'pq rate 300 kbit/s'), ('flow fa ', 7, 'fa receive window'), ('sim ', 1, 'the run ends at')):
        _, _, line, ch = place_of(browser, begin, k)
        browser.value(f'simulator.editor.box.focus(); simulator.editor.box.setCursor({{line: {line}, ch: {ch}}})')
        if k == 5 and isinstance(browser, browsers.Chromium):
            browser.call('Input.dispatchKeyEvent', type='rawKeyDown', key='p', modifiers=1, windowsVirtualKeyCode=ord('P'))
        elif k == 5:
            browser.press('p', 1)
        else:
            browser.click(element('#pin'))
        assert text_of(browser, '#shelf .pin.chosen output').startswith(name) and not browser.value('document.getElementById("pin-how").checkVisibility()')
    assert browser.value('document.querySelectorAll("#shelf .pin").length') == 4
    browser.click(element('#pin'))
    assert browser.value('document.querySelectorAll("#shelf .pin").length') == 4
    assert browser.json('[...document.querySelectorAll("#shelf .pin")].map(e => [...e.querySelectorAll(".end")].map(end => end.value))')[:2] == [['2ms', '100ms'], ['20k', '2M']]

    def end(k, value):
        browser.value(f'(e => {{ e.value = {json.dumps(value)}; e.dispatchEvent(new Event("change")); }})(document.querySelectorAll("#shelf .pin .end")[{k}])')
    end(1, '0.2s')
    assert browser.json('simulator.shelf.pins[0].range') == [2_000_000, 200_000_000]
    for wrong in ('0.1ms', 'far', '99s'):
        end(1, wrong)
        assert browser.json('simulator.shelf.pins[0].range') == [2_000_000, 200_000_000] and browser.value('document.querySelectorAll("#shelf .pin .end")[1].ariaInvalid || document.querySelectorAll("#shelf .pin .end")[1].getAttribute("aria-invalid")') == 'true', wrong
    look(browser, 'shelf_of_four')
    while browser.value('document.querySelectorAll("#shelf .pin").length'):
        browser.click(element('#shelf .pin button'))
    assert not browser.value('document.getElementById("shelf").checkVisibility()')


def test_a_slider_and_its_strip_have_one_axis(browser):
    """A press on the slider right above a value's place in the strip gives that value, and a press nearer to the next one that one: linear
    and logarithmic, which the page says; both ends have a unit."""
    browser.size(1400, 900)
    opened_net(browser, made_by(*NETS[0]), 'pq.capacity=1..40; pq.rate=100k..50M; f0.start=0..1s; used pq')
    assert browser.json('[...document.querySelectorAll("#shelf .pin")].map(e => e.querySelector(".scale")?.textContent ?? "")') == ['', 'log scale', 'log scale']
    ends = browser.json('[...document.querySelectorAll("#shelf .pin svg")].map(e => [...e.querySelectorAll("text")].slice(0, 4).map(it => it.textContent))')
    # What the shelf says while it counts takes as much room as what it says then: a press goes where it was aimed.
    assert len({browser.json(f'(({{says, place}}) => {{ says.textContent = "{words}"; return place.getBoundingClientRect().height; }})(simulator.shelf)') for words in ('counting', 'one run for each value: a single sample; 80 runs refused')}) == 1
    assert [(low, least, most) for low, _, least, most in ends] == [('0.0 %', '1 packet', '40 packets'), ('0.0 %', '100 kbit/s', '50 Mbit/s'), ('0.0 %', '0 s', '1 s')]
    assert all(high.endswith(' %') for _, high, _, _ in ends)
    for pin, places in ((0, (1, 2, 19, 37, 38)), (1, (1, 4, 7)), (2, (1, 5, 8))):
        values = browser.json(f'simulator.shelf.pins[{pin}].values')
        assert browser.json(f'simulator.shelf.pins[{pin}].values.map(value => simulator.shelf.pins[{pin}].x(value))') == sorted(browser.json(f'simulator.shelf.pins[{pin}].values.map(value => simulator.shelf.pins[{pin}].x(value))'))
        for k in places:
            (x, y), (after, _), (before, _) = (browser.json(f'{HANDLE}([{pin}, {at}])') for at in (k, k + 1, k - 1))
            for across, wanted in ((x + .3 * (after - x), k), (x + .7 * (after - x), k + 1), (x - .3 * (x - before), k), (x - .7 * (x - before), k - 1)):
                # Its thumb is out of the way, which a press upon it would take as it lies.
                browser.value(f'simulator.shelf.pins[{pin}].slider.value = {int(k < len(values) / 2)}')
                for what in ('moved', 'pressed', 'released'):
                    browser.mouse(what, round(across), y)
                assert browser.value(f'simulator.shelf.pins[{pin}].now.value') == values[wanted], (pin, k, across)
            # The strips are drawn anew a moment after another number was moved.
            browser.wait('!simulator.exploring && !simulator.shelf.stale.length')
            marker = browser.value(f'+document.querySelectorAll("#shelf .pin .handle")[{pin}].getAttribute("d").match(/^M([0-9.]+) /)[1]')
            index = browser.value(f'simulator.shelf.pins[{pin}].index')
            assert abs(marker + browser.value(f'simulator.shelf.pins[{pin}].strip.getBoundingClientRect().left') - browser.json(f'{HANDLE}([{pin}, {index}])')[0]) < .01
    look(browser, 'shelf_axes')


def test_a_number_draws_what_the_tool_draws(chromium):
    """Replicates are the texts that tcpsim-net writes with --spread, statement by statement."""
    for words in NETS:
        plain = made_by(*words)
        for number in (1, 2, 1_000_000):
            made = chromium.value(f'spreadText({json.dumps(plain)}, {number})')
            assert statements(made) == statements(made_by(*words, '--spread', str(number))), (words, number)


def test_replicates_and_their_mean(browser, tmp_path):
    """Points are the native figures of the tool's texts, and the mean at each value is that of tcpsim-sweep over spread=1..N."""
    browser.size(1400, 900)
    words = NETS[0]
    text = made_by(*words)
    opened_net(browser, text, f'pq.capacity=5..20; Jain; spread=1..{REPLICATES}')
    assert browser.value('simulator.shelf.text') == f'pq.capacity=5..20; Jain; spread=1..{REPLICATES}'
    (strip,) = strips(browser)
    for value, runs in strip[::5]:
        assert len(runs) == REPLICATES
        for number, (own, csv) in enumerate(runs, 1):
            assert statements(own) == statements(made_by(*words, '--queue', f'droptail:{value}', '--spread', str(number))) and csv == figures(own), (value, number)
    (tmp_path / 'net.txt').write_text(text)
    values = [value for value, _ in strip]
    said = subprocess.run([sys.executable, f'{TOP}/bin/tcpsim-sweep', tmp_path / 'net.txt', '--set', f'pq.queue=droptail:{",".join(map(str, values))}', '--over', f'spread=1..{REPLICATES}',
                           '--show', 'f1.timeouts,pq.wait95,pq.used,run.jain', '--program', PROGRAM, '--csv'], capture_output=True, text=True, check=True).stdout
    rows = list(csv_module.DictReader(said.splitlines()))
    for chosen, column, scale in (('Jain', 'run.jain_mean', 1), ('timeouts f1', 'f1.timeouts_mean', 1), ('wait95 pq', 'pq.wait95_ns_mean', 1), ('used pq', 'pq.used_percent_mean', .01)):
        pick(browser, '#shelf select', chosen)
        browser.wait(f'simulator.shelf.figure === {json.dumps(chosen)} && !simulator.shelf.drawing')
        ((curve, _),) = browser.json('simulator.shelf.pins.map(pin => pin.curves)')
        assert [k for k, _ in curve] == list(range(len(values)))
        assert [value for _, value in curve] == pytest.approx([scale * float(row[column]) for row in rows], abs=1e-5), chosen
    assert browser.value('document.querySelectorAll("#shelf .pin .run").length') == REPLICATES * len(values)
    assert text_of(browser, '#shelf .shelf-says') == f'{REPLICATES} runs for each value, and their mean'
    # The text has 50 packets, which are outside of the range: no value of it is marked.
    assert browser.json('[".handle", ".here"].map(css => document.querySelectorAll(`#shelf .pin ${css}`).length)') == [0, 0] and browser.value('simulator.shelf.pins[0].slider.value') == '1'
    browser.value('(() => { const pin = simulator.shelf.pins[0]; pin.origin = simulator.drag.origin(); simulator.shelf.put(pin, 7); })()')
    browser.wait('!simulator.exploring && !simulator.shelf.drawing')
    assert browser.json('[".handle", ".here"].map(css => document.querySelectorAll(`#shelf .pin ${css}`).length)') == [1, 1]
    look(browser, 'shelf_replicates')
    # One run is one sample, and the page says so.
    browser.value('(e => { e.value = 0; e.dispatchEvent(new Event("change")); })(simulator.shelf.spread)')
    counted(browser)
    assert text_of(browser, '#shelf .shelf-says') == 'one run for each value: a single sample'
    browser.wait('!simulator.shelf.drawing')
    assert browser.value('document.querySelectorAll("#shelf .pin .run").length') == 0 and 'spread' not in browser.value('simulator.shelf.text')


def test_by_the_keyboard_alone(browser):
    """Tab reaches every control of the shelf, in their order; the arrow keys, PageUp and Home move a slider, and one step back is each."""
    browser.size(1400, 900)
    choose(browser, 'lesson 9')
    counted(browser)
    text = browser.value('simulator.editor.text')
    browser.value('simulator.shelf.select.focus()')
    seen = []
    for _ in range(7):
        seen.append(browser.value('(e => e.getAttribute("aria-label") || e.ariaLabel || e.closest("label")?.firstChild.textContent.trim() || e.closest("label")?.textContent)(document.activeElement)'))
        browser.press('Tab')
    assert seen == ['figure', 'beside it CoDel at a', 'runs for each value', 'least a capacity', 'greatest a capacity', 'takes a capacity from the shelf', 'a queue']
    browser.value('simulator.shelf.pins[0].slider.focus()')
    for key, value in (('ArrowUp', 11), ('ArrowRight', 12), ('ArrowDown', 11), ('ArrowLeft', 10), ('PageUp', 18), ('Home', 1), ('End', 40), ('PageDown', 32)):
        before = browser.value(EXPLORED)
        browser.press(key)
        browser.wait(f'({EXPLORED}) !== {json.dumps(before)} && !simulator.exploring')
        assert is_shown(browser, with_word(text, 'link a ', 7, value)), key
        assert browser.value('document.activeElement === simulator.shelf.pins[0].slider')
    assert browser.value('simulator.shelf.pins[0].slider.getAttribute("aria-valuetext")') == '32 packets'


def test_what_a_screen_reader_has(chromium):
    """Each control of the shelf, and the handle of a number, has a role and a name, and a slider its value with a unit."""
    browser = chromium
    browser.size(1400, 900)
    choose(browser, 'lesson 11')
    counted(browser)
    x, y, _, _ = place_of(browser, 'link a ', 5)
    browser.mouse('moved', x - 1, y)
    browser.mouse('moved', x, y)
    browser.wait('!document.getElementById("handle").hidden')

    def nodes(css):
        root = browser.call('DOM.getDocument', depth=0)['root']['nodeId']
        for node in browser.call('DOM.querySelectorAll', nodeId=root, selector=css)['nodeIds']:
            it = next(it for it in browser.call('Accessibility.getPartialAXTree', nodeId=node, fetchRelatives=False)['nodes'])
            assert not it.get('ignored'), css
            given = browser.call('DOM.getAttributes', nodeId=node)['attributes']
            # Chromium's own tool tells the place of a slider's thumb in place of the words that a reader says.
            yield it['role']['value'], it.get('name', {}).get('value'), dict(zip(given[::2], given[1::2])).get('aria-valuetext')
    assert list(nodes('#shelf .pin input[type=range]')) == [('slider', 'a target', '20 ms')]
    ((role, name, value),) = nodes('#handle')
    assert (role, name, value) == ('slider', 'a delay', '18 ms')
    for css, role in (('#shelf select', 'combobox'), ('#shelf .tick input', 'checkbox'), ('#shelf .end', 'textbox'), ('#shelf button', 'button'), ('#shelf svg', 'image')):
        found = list(nodes(css))
        assert found and all(kind == role and name for kind, name, _ in found), (css, found)
    ((_, name, _),) = nodes('#shelf svg')
    assert 'wait, 95 % of a over a target, ' in name and ' ms' in name
    assert 'status' in {kind for kind, _, _ in nodes('#shelf .shelf-says')}


def test_lessons_bring_their_shelves(browser):
    """Five lessons have one: each of its numbers is in the scenario, within its range, and every value of its strip is counted."""
    lessons = [it for it in page_lessons.lessons() if it.shelf]
    assert len(lessons) >= SHELVES
    for lesson in lessons:
        choose(browser, f'lesson {lesson.number}')
        pins = browser.json('simulator.shelf.pins.map(pin => [pin.now && pin.now.value, pin.range, pin.values.length])')
        assert len(pins) == lesson.shelf.count('=') and browser.value('simulator.shelf.text') == lesson.shelf, lesson.number
        assert all(least <= value <= most and count > 1 for value, (least, most), count in pins), (lesson.number, pins)
        counted(browser)
        assert all(csv is not None for strip in strips(browser) for _, texts in strip for _, csv in texts), lesson.number
    # The shelf is the lesson's own: it is not in what is shared, and another lesson does not have it.
    assert 'shelf' not in browser.value('fragmentOf(simulator.shared())')
    choose(browser, 'lesson 3')
    assert not browser.value('document.getElementById("shelf").checkVisibility()')


def test_the_shelf_is_shared(browser):
    """Sliders, ranges, figure and values go with the address, and the lesson's own can be taken away."""
    choose(browser, 'lesson 9')
    _, _, line, ch = place_of(browser, 'flow f ', 7)
    browser.value(f'simulator.editor.box.setCursor({{line: {line}, ch: {ch}}})')
    browser.click(element('#pin'))
    pick(browser, '#shelf select', 'link a greatest queue')
    browser.value('(() => { const pin = simulator.shelf.pins[0]; pin.origin = simulator.drag.origin(); simulator.shelf.put(pin, 17); })()')
    text, shelf = browser.json('[simulator.editor.text, simulator.shelf.text]')
    assert ' droptail 17\n' in text and shelf == 'a.capacity=1..40; f.rwnd=5000..500000; link a greatest queue; both'
    fragment = browser.value('fragmentOf(simulator.shared())')
    choose(browser, 'lesson 3')
    browser.value(f'simulator.openFragment({json.dumps(fragment)})')
    browser.wait(f'simulator.shelf.text === {json.dumps(shelf)} && simulator.run && simulator.run.text === {json.dumps(text)}')
    assert browser.json('simulator.shelf.pins.map(pin => pin.now.value)') == [17, 64_000]
    browser.value('[...document.querySelectorAll("#shelf .pin button")].forEach(button => button.click())')
    fragment = browser.value('fragmentOf(simulator.shared())')
    choose(browser, 'lesson 9')
    assert browser.value('simulator.shelf.pins.length') == 1
    browser.value(f'simulator.openFragment({json.dumps(fragment)})')
    browser.wait('!simulator.shelf.pins.length')
    browser.value('simulator.openFragment("#lesson=9&name=sawtooth_of_congestion_avoidance&shelf=a.nothing%3D1..2")')
    browser.wait('document.getElementById("said").textContent.includes("no number is named nothing")')


def test_keys_of_a_lecture(sawtooth):
    """`[` shows the shelf in the panel's place, and chooses; the arrow keys move the number; `p` leads back to the panels."""
    browser = sawtooth
    _, _, line, ch = place_of(browser, 'flow f ', 7)
    browser.value(f'simulator.editor.box.setCursor({{line: {line}, ch: {ch}}})')
    browser.click(element('#pin'))
    browser.value('simulator.lecture.begin()')
    browser.wait('document.getElementById("net-room").clientWidth > 1200')
    browser.value('document.activeElement.blur()')
    assert not browser.value('document.getElementById("shelf").checkVisibility()')
    browser.press(']')
    assert browser.json('["shelf", "charts"].map(id => document.getElementById(id).checkVisibility())') == [True, False]
    browser.press(']')
    assert text_of(browser, '#shelf .pin.chosen output') == 'a queue 10 packets'
    text = browser.value('simulator.editor.text')
    for key, value in (('ArrowUp', 11), ('ArrowUp', 12), ('ArrowDown', 11)):
        before = browser.value(EXPLORED)
        browser.press(key)
        browser.wait(f'({EXPLORED}) !== {json.dumps(before)} && !simulator.exploring')
        assert is_shown(browser, with_word(text, 'link a ', 7, value))
    counted(browser)
    small = browser.json('[...document.querySelectorAll("#shelf *")].filter(e => e.checkVisibility({visibilityProperty: true}) && [...e.childNodes].some(n => n.nodeType === 3 && n.data.trim()) && e.tagName !== "OPTION").map(e => [e.textContent, parseFloat(getComputedStyle(e).fontSize)]).filter(([, size]) => size < 24)')
    assert small == []
    look(browser, 'shelf_lecture')
    assert browser.json('(({bottom, height}) => [bottom <= innerHeight + 1, height > 100])(document.querySelector("#shelf .pin.chosen svg").getBoundingClientRect())') == [True, True]
    browser.press('p')
    assert browser.json('["shelf", "charts"].map(id => document.getElementById(id).checkVisibility())') == [False, True]


def test_a_text_that_is_refused_and_a_number_that_is_gone(sawtooth):
    """The shelf goes on: a slider whose number is gone says so, and is back with it."""
    browser = sawtooth
    counted(browser)
    text = browser.value('simulator.editor.text')
    browser.value(f'simulator.editor.box.setValue({json.dumps(text.replace("link a ", "lnk a "))})')
    assert text_of(browser, '#shelf .pin output') == 'a capacity is gone' and browser.value('simulator.shelf.pins[0].slider.disabled')
    browser.value(f'simulator.editor.box.setValue({json.dumps(text)})')
    assert text_of(browser, '#shelf .pin output') == 'a queue 10 packets' and not browser.value('simulator.shelf.pins[0].slider.disabled')


def test_memory_that_is_refused(browser):
    """The strip says how many runs were refused, and is counted once there is memory."""
    browser.size(1400, 900)
    browser.value('simulator.shelf.strips.answers.clear(); simulator.mostPages = 20')
    try:
        choose(browser, 'lesson 9')
        counted(browser)
        assert text_of(browser, '#shelf .shelf-says') == 'one run for each value: a single sample; 80 runs refused'
        assert browser.json('simulator.shelf.pins[0].curves.map(one => one.length)') == [0, 0]
    finally:
        browser.value('simulator.mostPages = MOST_PAGES')
    browser.value('simulator.shelf.strips.answers.clear()')
    choose(browser, 'lesson 9')
    counted(browser)
    assert text_of(browser, '#shelf .shelf-says') == 'one run for each value: a single sample'
    assert run(browser).startswith('done in')


def test_a_long_net_keeps_its_workers_few(browser):
    """While a strip of long runs is counted, the page has no more workers than processors and two; another scenario ends them."""
    made = subprocess.run([sys.executable, f'{TOP}/bin/tcpsim-net', 'dumbbell', '--flows', '8', '--rate', '100M', '--rtt', '20ms', '--end', '30s'], capture_output=True, text=True, check=True).stdout
    browser.value(f'simulator.openText({json.dumps(made)}, "net")')
    browser.wait('document.documentElement.dataset.judged === "0"')
    _, _, line, ch = place_of(browser, 'link pq ', 7)
    browser.value(f'simulator.editor.box.setCursor({{line: {line}, ch: {ch}}})')
    browser.click(element('#pin'))
    browser.wait('simulator.shelf.running.size > 0')
    assert browser.value('simulator.shelf.running.size <= MOST_RUNNING')
    choose(browser, 'lesson 3')
    assert browser.value('simulator.shelf.running.size') == 0 and browser.value('simulator.engine.idle.length <= MOST_IDLE')
    assert run(browser).startswith('done in')


if __name__ == '__main__':
    sys.exit(pytest.main([__file__, '-q', *sys.argv[1:]]))
