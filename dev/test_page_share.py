#!/usr/bin/env python3
"""Tests of what leaves the page with the simulator: fragments that are shared, and files that are saved, with pictures of panels:
python3 -m pytest dev/test_page_share.py.
"""
import functools
import http.server
import json
import os
import struct
import sys
import threading
import time
import xml.etree.ElementTree

import pytest

sys.path.insert(0, os.path.dirname(os.path.abspath(__file__)))
import browsers
import page_cases
from page_use import choose, element, look, pick, run, text_of

pytest_plugins = 'page_fixtures'


def shared(browser):
    """What the dialog has to be copied."""
    browser.click(element('#share-open'))
    browser.wait('document.getElementById("share-dialog").open')
    text = browser.value('document.getElementById("share-text").value')
    look(browser, 'share')
    browser.click(element('#share-close'))
    return text


def opened_with(browser, address):
    """Opens the page anew; waits until the program is ready."""
    browser.open(address)
    browser.wait('document.documentElement.dataset.ready')


def test_a_lesson_at_an_event_is_shared(browser, made):
    """Its text was changed; who opens the fragment sees text, lesson, view and position."""
    address = f'file://{made[0]}'
    browser.size(1400, 900)
    choose(browser, 'lesson 4')
    changed = browser.value('simulator.editor.text').replace('droptail 10', 'droptail 20') + '# of my own & "quoted" <b>\n'
    browser.value(f'simulator.editor.text = {json.dumps(changed)}')
    assert run(browser).startswith('done in')
    browser.value('simulator.goTo(33)')
    fragment = shared(browser)
    assert fragment.startswith('#lesson=4&name=') and 'disk' in text_of(browser, '#share-how')
    assert len(fragment) < len(changed)
    opened_with(browser, address + fragment)
    browser.wait('window.page && page.record.at === 33')
    assert browser.value('simulator.editor.text') == changed
    assert text_of(browser, '#lesson h2').startswith('4. ')
    assert browser.value('document.getElementById("run-side").dataset.view') == 'net'
    # In a page that is open, put behind its address.
    browser.click(element('[data-tab=debug]'))
    browser.wait('simulator.prompt')
    fragment = shared(browser)
    opened_with(browser, address)
    browser.value(f'location.hash = {json.dumps(fragment)}')
    browser.wait('window.page && page.record.at === 33 && document.getElementById("run-side").dataset.view === "debug"')
    browser.wait('document.querySelector("#debugger pre").textContent.includes("at 33 of the run")')
    opened_with(browser, address)


def test_the_copy_is_in_the_clipboard_or_marked(browser):
    choose(browser, 'example one_segment')
    browser.click(element('#share-open'))
    browser.wait('document.getElementById("share-dialog").open')
    browser.click(element('#share-copy'))
    browser.wait('["copied", "It is marked: copy it by Ctrl-C."].includes(document.getElementById("share-said").textContent)')
    assert browser.value('(box => box.selectionEnd - box.selectionStart === box.value.length)(document.getElementById("share-text"))')
    browser.click(element('#share-close'))


def test_every_example_comes_back(browser):
    told = browser.json('''Promise.all(Object.entries(simulator.examples).map(async ([name, text]) => {
      const given = await readFragment(await fragmentOf({text, name, lesson: null, view: "trace", event: 7}));
      return given.text === text && given.name === name && given.view === "trace" && given.event === 7 && given.lesson === null;
    }))''')
    assert len(told) > 20 and all(told)


@pytest.mark.parametrize('fragment, says', [('#scenario=%%%', 'not whole'), ('#scenario=AAAA', 'not whole'), ('#scenario=c3Rv', 'not whole')])
def test_a_fragment_that_is_not_whole(browser, fragment, says):
    before = browser.value('simulator.editor.text')
    browser.value(f'location.hash = {json.dumps(fragment)}')
    browser.wait(f'document.getElementById("said").textContent.includes({json.dumps(says)})')
    assert browser.value('simulator.editor.text') == before
    browser.value('history.replaceState(null, "", location.pathname)')


def test_of_two_fragments_the_second_is_shown(browser, made):
    """They come within a moment, and the first takes longer to be unpacked and to be run."""
    text = page_cases.read('examples', 'four_flows_share_codel.txt').decode().replace('sim ', '# a comment\n' * 400_000 + 'sim ')
    first = browser.value(f'fragmentOf({{text: {json.dumps(text)}, name: "first", view: "trace", event: 900}})')
    second = browser.value('fragmentOf({text: simulator.examples.one_segment, name: "second", view: "net", event: 3})')
    browser.value('''(() => { const open = simulator.openFragment; window.opening = 0;
      simulator.openFragment = async function (...given) { window.opening += 1; try { return await open.apply(this, given); } finally { window.opening -= 1; } }; })()''')
    for wait in (0, 5, 10, 20, 40, 80, 160):
        choose(browser, 'example fast_recovery')
        browser.value(f'''(async () => {{ location.hash = {json.dumps(first)}; await new Promise(done => setTimeout(done, {wait}));
          location.hash = {json.dumps(second)}; }})()''')
        browser.wait('!window.opening && window.page && page.record.count === 5 && page.record.at === 3')
        assert browser.json('[simulator.title, page.record.at, document.getElementById("run-side").dataset.view, simulator.editor.text.length]') == \
            ['second', 3, 'net', len(page_cases.read('examples', 'one_segment.txt'))]
    browser.value('delete simulator.openFragment')


def test_a_fragment_cannot_fill_the_memory_nor_bring_html(chromium, made):
    word = chromium.value('packedText("#".repeat(40000000))')
    assert len(word) < 100_000
    chromium.value(f'location.hash = {json.dumps("#scenario=" + word)}')
    chromium.wait('document.getElementById("said").textContent.includes("more than 16 MiB")')
    evil = '<img src=x onerror="window.hit=1">'
    fragment = chromium.value(f'fragmentOf({{text: "# " + {json.dumps(evil)} + "\\n" + simulator.examples.one_segment, name: {json.dumps(evil)}, lesson: null, view: {json.dumps(evil)}, event: 3}})')
    opened_with(chromium, f'file://{made[0]}{fragment}')
    chromium.wait('window.page && page.record.at === 3')
    chromium.click(element('[data-tab=compare]'))
    time.sleep(.3)
    assert chromium.json('[typeof window.hit, document.querySelectorAll("img[src=x]").length]') == ['undefined', 0]


def test_from_a_server_the_whole_address_is_shared(chromium, made):
    handler = functools.partial(http.server.SimpleHTTPRequestHandler, directory=os.path.dirname(made[0]))
    handler.log_message = lambda *_: None
    server = http.server.ThreadingHTTPServer(('127.0.0.1', 0), handler)
    threading.Thread(target=server.serve_forever, daemon=True).start()
    try:
        address = f'http://127.0.0.1:{server.server_port}/tcpsim.html'
        opened_with(chromium, address)
        text = shared(chromium)
        assert text.startswith(f'{address}#lesson=1&') and 'disk' not in text_of(chromium, '#share-how')
        opened_with(chromium, text)
        chromium.wait('window.page && document.getElementById("said").textContent.startsWith("done")')
    finally:
        opened_with(chromium, f'file://{made[0]}')
        server.shutdown()
        server.server_close()


# ---- from Python

def test_python_opens_the_page_with_its_net(browser, made, tmp_path):
    """As a file, and within another page, as a notebook has it: the same text, and its run at the event that was named."""
    import tcpsim
    net = tcpsim.dumbbell(flows=2, rate='5M', rtt='20ms', end='300ms')
    for given in {'shelf': 'pq.capacity=1..40; used pq'}, {'event': 40, 'view': 'trace'}:
        there = net.explore(tmp_path / 'mine.html', page=made[0], **given)
        opened_with(browser, f'file://{there.path}')
        browser.wait(f'window.page && page.record.count > 500 && {given.get("event", "page.record.at")} === page.record.at')
        assert browser.value('simulator.editor.text') == net.text
        assert browser.value('document.getElementById("run-side").dataset.view') == given.get('view', 'net')
        assert browser.value('simulator.shelf.text') == given.get('shelf', '')
        assert run(browser).startswith('done in')
    (tmp_path / 'notebook.html').write_text(f'<!doctype html><title>a notebook</title>{there._bundle()["text/html"]}', encoding='utf-8')
    browser.open(f'file://{tmp_path}/notebook.html')
    browser.value('(window.inner = document.querySelector("iframe").contentWindow, 0)')
    browser.wait('inner.document.documentElement.dataset.run')
    assert browser.value('inner.simulator.editor.text') == net.text and browser.value('inner.simulator.page.record.count') > 500
    opened_with(browser, f'file://{made[0]}')


# ---- loaded anew

def load_anew(browser):
    """As the key F5 does; waits until the program is ready."""
    browser.reload()
    browser.wait('document.documentElement.dataset.ready')


def type_at_the_end(browser, text):
    """Types behind the scenario. A headless Firefox's window has no focus, without which CodeMirror reads no letters."""
    browser.value('(() => { const {box} = simulator.editor; box.focus(); box.setCursor({line: box.lineCount(), ch: 0}); })()')
    if isinstance(browser, browsers.Firefox):
        browser.value(f'simulator.editor.box.replaceSelection({json.dumps(text)})')
    else:
        browser.type(text)


def test_nothing_typed_is_lost(browser, made):
    """A lesson, its view and position, and what was typed, are there again where the page is loaded anew."""
    opened_with(browser, f'file://{made[0]}')
    choose(browser, 'lesson 4')
    assert run(browser).startswith('done in')
    browser.value('simulator.goTo(33)')
    browser.wait('location.hash === "#lesson=4&name=fast_recovery&view=net&event=33"')
    load_anew(browser)
    browser.wait('window.page && page.record.at === 33')
    assert text_of(browser, '#lesson h2').startswith('4. ') and browser.value('document.getElementById("choose").value') == 'lesson 4'
    type_at_the_end(browser, '# my own remark')
    text = browser.value('simulator.editor.text')
    assert text.endswith('# my own remark') and browser.value('simulator.editor.edited')
    load_anew(browser)          # before the address has it
    assert browser.value('simulator.editor.text') == text and text_of(browser, '#lesson h2').startswith('4. ')
    browser.wait('location.hash.includes("scenario=")')
    assert browser.value('simulator.editor.edited')
    if isinstance(browser, browsers.Chromium):
        assert any(it.get('method') == 'Page.javascriptDialogOpening' and it['params']['type'] == 'beforeunload' for it in browser.wire.events)
    # A text that is too long for the address; and one that nobody edited asks nothing.
    long = ''.join(f'# {k} {k * k % 9973}\n' for k in range(9999)) + text
    browser.value(f'simulator.openText({json.dumps(long)}, "long")')
    browser.wait('location.hash === "#name=long"')
    load_anew(browser)
    assert browser.value('simulator.editor.text') == long and browser.value('simulator.title') == 'long'
    choose(browser, 'example a_slow_way_back')
    assert not browser.value('simulator.editor.edited')
    browser.wait('location.hash.startsWith("#name=a_slow_way_back&view=net")')
    load_anew(browser)
    assert browser.value('simulator.editor.text === simulator.examples.a_slow_way_back && document.getElementById("choose").value') == 'example a_slow_way_back'


def test_two_runs_are_shared_and_loaded_anew(browser, made):
    """What is compared, and its moment, are in what is shared and in the address."""
    opened_with(browser, f'file://{made[0]}')
    choose(browser, 'lesson 10')
    browser.click(element('[data-tab=compare]'))
    pick(browser, '#compare-second', 'queue')
    browser.value('(() => { const e = document.getElementById("compare-word"); e.value = "codel:20ms:200ms"; })()')
    browser.click(element('#compare-go'))
    browser.wait('simulator.compare.clock && document.getElementById("compare-said").textContent === ""')
    browser.value('simulator.compare.clock.jump(3e9)')
    texts = browser.json('simulator.compare.runs.map(it => it.text)')
    assert texts[0] != texts[1] and 'codel 1000 20000000 200000000' in texts[1]
    fragment = shared(browser)
    browser.wait('location.hash.includes("&second=") && location.hash.includes("time=3000000000")')
    for again in (load_anew, lambda it: opened_with(it, f'file://{made[0]}{fragment}')):
        again(browser)
        browser.wait('simulator.compare.clock && simulator.compare.clock.time === 3e9')
        assert browser.json('simulator.compare.runs.map(it => it.text)') == texts
        assert browser.json('[simulator.lessons.now.number, document.getElementById("run-side").dataset.view]') == [10, 'compare']
    opened_with(browser, f'file://{made[0]}')


def test_the_editor_shows_all_of_a_template(browser):
    """The lesson above it goes, and the editor fills its room at once."""
    choose(browser, 'lesson 3')
    browser.click(element('#template-open'))
    browser.click(element('#template-dialog .make'))
    browser.wait('simulator.editor.text.startsWith("# A dumbbell") && !document.getElementById("template-dialog").open')
    browser.wait("""(() => { const lines = [...document.querySelectorAll('.CodeMirror-line')].map(it => it.getBoundingClientRect().bottom);
      const {bottom} = document.getElementById('editor').getBoundingClientRect();
      return lines.length === simulator.editor.box.lineCount() || Math.max(...lines) >= bottom - 4; })()""", 10)


# ---- files

def folder_of(browser, tmp_path):
    """Where the browser keeps what it downloads."""
    if isinstance(browser, browsers.Chromium):
        browser.call('Browser.setDownloadBehavior', behavior='allow', downloadPath=str(tmp_path))
        return str(tmp_path)
    return os.path.join(os.path.dirname(browser.log.name), 'Downloads')


def saved(folder, name, seconds=60):
    """The bytes of a file that is being saved."""
    path, until = os.path.join(folder, name), time.monotonic() + seconds
    while time.monotonic() < until:
        if os.path.exists(path) and os.path.getsize(path) and not os.path.exists(f'{path}.part'):
            time.sleep(.2)
            with open(path, 'rb') as file:
                return file.read()
        time.sleep(.1)
    raise AssertionError(f'{name} is not saved: {os.listdir(folder) if os.path.isdir(folder) else folder}')


def test_files_are_saved(browser, tmp_path):
    browser.size(1400, 900)
    choose(browser, 'example two_flows_share_fairly')
    assert run(browser).startswith('done in')
    browser.wait('!document.getElementById("save-figures").disabled')
    folder, name = folder_of(browser, tmp_path), 'two_flows_share_fairly'
    browser.value('simulator.goTo(500)')
    browser.click(element('#save-open'))
    look(browser, 'save')
    for button, ending in (('#save', '.txt'), ('#save-image', '.tcb'), ('#save-trace', '.trace'), ('#save-figures', '.csv')):
        browser.click(element(button))
        data = saved(folder, name + ending)
        if ending in ('.txt', '.trace'):
            assert data == page_cases.read('examples', name + ending)
        assert data.startswith({'.tcb': b'TCB', '.csv': b'what,number,figure,unit,value\n'}.get(ending, data[:1]))
    panels = browser.json('[...document.getElementById("save-panel").options].map(it => it.value)')
    assert panels == ['net', 'windows', 'lengths']
    for panel, called in zip(panels, ('the_net', 'windows', 'queues')):
        pick(browser, '#save-panel', panel)
        browser.click(element('#save-svg'))
        svg = saved(folder, f'{name}_{called}.svg').decode()
        root = xml.etree.ElementTree.fromstring(svg)
        assert root.tag == '{http://www.w3.org/2000/svg}svg' and int(root.get('width')) > 300
        texts = [''.join(it.itertext()) for it in root.iter('{http://www.w3.org/2000/svg}text')]
        assert {'net': {'router', 'p', 'q', 'sa'}, 'windows': {'fa', 'fb', '5k'}, 'lengths': {'pq', '27 dropped: queue full', '×12'}}[panel] <= {*texts}, texts
        assert any(it.startswith('packets that wait') for it in texts) == (panel == 'lengths')       # in as many words as have room beside the key
        assert ('pq' in texts) == (panel == 'lengths')      # names of curves stand below their own panel
        assert 'fill: rgb' in svg and ('paint-order: stroke' in svg or panel == 'net') and 'class="catch"' not in svg
        browser.click(element('#save-png'))
        png = saved(folder, f'{name}_{called}.png')
        assert png[:8] == b'\x89PNG\r\n\x1a\n'
        assert struct.unpack('>II', png[16:24]) == (2 * int(root.get('width')), 2 * int(root.get('height')))
        if os.environ.get('PAGE_PICTURES'):
            with open(os.path.join(os.environ['PAGE_PICTURES'], f'{type(browser).__name__}_saved_{called}.png'), 'wb') as file:
                file.write(png)
    browser.click(element('#save-close'))
