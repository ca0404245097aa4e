#!/usr/bin/env python3
"""Tests of two runs under one clock in the page with the simulator: python3 -m pytest dev/test_page_compare.py."""
import csv
import io
import json
import os
import sys

import pytest

sys.path[:0] = [os.path.dirname(os.path.abspath(__file__)), os.path.join(os.path.dirname(os.path.dirname(os.path.abspath(__file__))), 'python', 'tests')]
from clone import PROGRAM, tool
from page_cases import read
from page_use import choose, element, look, pick, run, text_of, write
from test_diff import drawn_pair

pytest_plugins = 'page_fixtures'


def compare(browser, first, second):
    """Runs both, and waits until they are shown; answers what the page says."""
    pick(browser, '#compare-first', first)
    pick(browser, '#compare-second', second)
    return go(browser)


def go(browser):
    before = browser.value('document.documentElement.dataset.compared || 0')
    browser.click(element('#compare-go'))
    browser.wait(f'(document.documentElement.dataset.compared || 0) != {before}')
    return text_of(browser, '#compare-said')


def state(browser):
    """The clock's moment, and each run's position."""
    return browser.json('[simulator.compare.clock.time, ...simulator.compare.clock.pages.map(it => it.record.at)]')


def test_bufferbloat_beside_codel(browser):
    """Lessons 10 and 11: one clock, curves of both, and the figures that differ as the program counts them."""
    browser.size(1400, 900)
    choose(browser, 'lesson 10')
    browser.click(element('[data-tab=compare]'))
    assert compare(browser, 'editor', 'example bufferbloat_with_codel') == ''
    assert state(browser) == [0, 1, 1]      # the first event of each is at 0
    browser.click(element('#both-drop'))
    found = browser.json('simulator.compare.records.map(it => it.drops.map(drop => drop.time))')
    assert not found[0] and state(browser)[0] == min(found[1])
    at = [browser.json(f'simulator.compare.records[{k}].eventsBefore({min(found[1]) + 1})') for k in (0, 1)]
    assert state(browser)[1:] == at
    for k in (0, 1):
        told = browser.value(f'document.querySelectorAll("#both iframe")[{k}].contentDocument.getElementById("where").textContent')
        assert told.startswith(f'event {at[k]:,} of')
    # Both runs' curves lie in one panel, solid and dashed, and a click there moves both.
    dashes = browser.json('[...document.querySelectorAll("#both-lengths path[stroke]")].map(e => e.getAttribute("stroke-dasharray"))')
    assert dashes == [None, '7 4']
    look(browser, 'compare')
    browser.click(element('#both-windows .catch'))
    middle = state(browser)
    assert middle[0] > 1e9 and middle[1:] == [browser.json(f'simulator.compare.records[{k}].eventsBefore({middle[0]} + 1)') for k in (0, 1)]
    browser.press('Home')
    assert state(browser)[0] == 0
    browser.press('ArrowRight')
    assert state(browser)[0] > 0
    tables = browser.json('''Promise.all(["bufferbloat", "bufferbloat_with_codel"].map(async name =>
      new TextDecoder().decode((await simulator.engine.run(["figures"], toBytes(simulator.examples[name]))).bytes)))''')
    rows = [{(it['what'], it['number'], it['figure'], it['unit']): it['value'] for it in csv.DictReader(io.StringIO(one))} for one in tables]
    differ = [key for key in {**rows[0], **rows[1]} if rows[0].get(key) != rows[1].get(key)]
    shown = browser.json('[...document.querySelectorAll("#both-figures tbody tr")].map(row => [...row.cells].map(cell => cell.textContent))')
    assert len(shown) == len(differ) > 5
    assert text_of(browser, '#both-figures caption') == f'{len(differ)} of {len({**rows[0], **rows[1]})} figures differ'
    assert ['link a', 'dropped by CoDel (packets)', '0'] in [row[:3] for row in shown]
    browser.value(f'{element("#both-figures")}.scrollIntoView()')
    look(browser, 'compare_figures')


def test_one_text_with_another_queue(browser):
    """The text that is written differs in one line, and the program takes it."""
    choose(browser, 'example four_flows_share_a_long_queue')
    browser.click(element('[data-tab=compare]'))
    pick(browser, '#compare-first', 'editor')
    pick(browser, '#compare-second', 'queue')
    links = browser.json('[...document.getElementById("compare-link").options].map(it => it.text)')
    pick(browser, '#compare-link', str(links.index('pq')))
    browser.value('document.getElementById("compare-word").value = ""')
    write(browser, '#compare-word', 'codel:5ms:100ms:50')
    assert go(browser) == ''
    text = read('examples', 'four_flows_share_a_long_queue.txt').decode()
    facts = 'factsOf(simulator.editor.text, "")'
    changed = browser.json(f'withQueue(simulator.editor.text, {facts}, {links.index("pq")}, "codel:5ms:100ms:50", simulator.compare.ranges)')
    lines = [(one, two) for one, two in zip(text.split('\n'), changed.split('\n')) if one != two]
    assert len(lines) == 1 and lines[0][0].startswith('link pq p q ')
    head, comment = lines[0][0].split('#')[0].split(), lines[0][0].partition('#')[2]
    assert lines[0][1].split('#')[0].split() == [*head[:6], 'codel', '50', '5000000', '100000000', lines[0][1].split()[10]]
    assert lines[0][1].partition('#')[2] == comment
    assert browser.json('simulator.compare.records.map(it => it.facts.links.find(link => link.name === "pq").queue)') == ['droptail', 'codel']
    look(browser, 'compare_queue')
    browser.value('document.getElementById("compare-word").value = ""')
    write(browser, '#compare-word', 'red:5')
    assert "'red:5' is no queue" in go(browser)
    assert not browser.value('document.querySelector("#both iframe")')


def test_what_belongs_beside_it_is_offered_first(browser):
    """The lesson's other example, one that differs by its queues alone, or another queue, with as many places; a choice stays."""
    first = '(e => [e.value, e.options[0].value])(document.getElementById("compare-second"))'
    for value, offered in (('lesson 16', 'example four_flows_share_codel'), ('lesson 10', 'example bufferbloat_with_codel'), ('lesson 3', 'queue'), ('lesson 16', 'example four_flows_share_codel')):
        choose(browser, value)
        browser.click(element('[data-tab=compare]'))
        assert browser.json(first) == [offered] * 2, value
    pick(browser, '#compare-second', 'queue')
    browser.value('document.getElementById("compare-word").value = ""')
    browser.value('simulator.showTab("net"); simulator.showTab("compare")')
    assert browser.json(first)[0] == 'queue'
    link = browser.value('[...document.getElementById("compare-link").options].findIndex(it => it.text === "pq")')
    pick(browser, '#compare-link', str(link))
    assert browser.value('document.getElementById("compare-word").placeholder').endswith(':60')
    assert go(browser) == ''
    assert browser.json(f'simulator.compare.records.map(it => it.facts.links[{link}].limit)') == [60, 60]


@pytest.mark.parametrize('width', [1400, 1024])
def test_no_column_of_figures_is_cut(browser, width):
    """Nor is a figure named as in the program's table: its tooltip has that."""
    browser.size(width, 900)
    choose(browser, 'lesson 16')
    browser.click(element('[data-tab=compare]'))
    assert go(browser) == ''
    assert browser.json('(e => e.scrollWidth - e.clientWidth)(document.getElementById("both-figures"))') == 0
    names = browser.json('[...document.querySelectorAll("#both-figures .word")].map(e => [e.textContent, e.title])')
    assert {'wait, 95 %', 'wait, median', 'round trip, greatest'} <= {name for name, _ in names}
    assert not [name for name, _ in names if 'percentile' in name or 'delay in' in name]
    assert any(name == 'wait, 95 %' and title.startswith('95th percentile of delay in the queue; ') for name, title in names)
    browser.value(f'{element("#both-figures")}.scrollIntoView()')
    look(browser, f'compare_figures_{width}')


def test_a_refused_text_is_told(browser):
    choose(browser, 'example one_segment')
    browser.value('simulator.editor.text = "sim 0\\n"')
    browser.click(element('[data-tab=compare]'))
    assert 'refused E5 line 1' in compare(browser, 'editor', 'example one_segment')
    choose(browser, 'example one_segment')
    assert run(browser).startswith('done in')
    browser.click(element('[data-tab=compare]'))
    assert compare(browser, 'run', 'example one_segment') == ''
    assert text_of(browser, '#both-figures caption').startswith('all ')


def test_what_goes_on_is_no_refusal(browser):
    """While both run it says so in the letters of all else, and not beside how long another run took."""
    choose(browser, 'example one_segment')
    browser.click(element('[data-tab=compare]'))
    browser.value('''(() => {
      const said = document.getElementById('compare-said');
      window.told = [];
      window.told.watch = new MutationObserver(() => window.told.push([said.textContent, getComputedStyle(said).color === getComputedStyle(document.body).color, document.getElementById('said').textContent]));
      window.told.watch.observe(said, {childList: true, attributes: true});
    })()''')
    go(browser)
    browser.value('window.told.watch.disconnect()')
    assert browser.json('window.told[0]') == ['running both', True, '']


def test_bdp_as_the_package_counts_it(chromium):
    """droptail:BDP at a link of each template is what tcpsim-net writes of it."""
    for shape, link in (('dumbbell', 'pq'), ('chain', 'p1p2'), ('parking-lot', 'p0p1'), ('asymmetric', 'down')):
        told = chromium.json(f'''(() => {{
          const ranges = dataOf("templates").ranges, plain = templateText({json.dumps(shape)}, {{}}, ranges), wanted = templateText({json.dumps(shape)}, {{queue: "droptail:BDP"}}, ranges);
          const facts = factsOf(plain, ""), link = facts.links.findIndex(it => it.name === {json.dumps(link)});
          const line = text => text.split("\\n").find(it => it.startsWith("link {link} ")).split("#")[0].trim();
          return [line(withQueue(plain, facts, link, "droptail:BDP", ranges)), line(wanted)];
        }})()''')
        assert told[0] == told[1], told


def told_by_the_tool(one, two, folder):
    """The first line of tcpsim-diff."""
    files = [folder / name for name in ('one.txt', 'two.txt')]
    for file, text in zip(files, (one, two)):
        file.write_text(text)
    return tool('diff', *files, '--program', PROGRAM).stdout.decode().split('\n')[0]


PARTING = '''(async texts => {
  const records = [];
  for (const text of texts) {
    const record = new Record(factsOf(text, 'x'));
    await fill(record, simulator.engine.start(['run'], toBytes(text), {read: true}).pieces);
    records.push(record);
  }
  return partingText(...records, await partingOf(...records));
})'''


def test_where_two_runs_part(browser, tmp_path):
    """The sentence is the tool's, and the button goes there in both nets."""
    browser.size(1400, 900)
    choose(browser, 'example bufferbloat')
    browser.click(element('[data-tab=compare]'))
    assert compare(browser, 'editor', 'example bufferbloat_with_codel') == ''
    browser.wait('!document.getElementById("both-there").hidden')
    texts = [read('examples', f'{name}.txt').decode() for name in ('bufferbloat', 'bufferbloat_with_codel')]
    assert text_of(browser, '#both-parting') == told_by_the_tool(*texts, tmp_path) == \
        'the same 487 events; at 0.332776 s link a begins to send data 38000 of f, there it is dropped (codel: after 125.9072ms)'
    look(browser, 'compare_parting')
    browser.click(element('#both-there'))
    assert state(browser) == [332776000, 488, 488]
    assert browser.json('simulator.compare.records[1].drops[0].event') == 488
    # The greatest relative difference stands first.
    rows = browser.json('[...document.querySelectorAll("#both-figures tbody tr")].map(row => row.cells[2].textContent + " " + row.cells[3].textContent)')
    assert any(word.split()[0] in ('0', '-') or word.split()[-1] in ('0', '-') for word in rows[:1])
    assert compare(browser, 'editor', 'editor') == ''
    browser.wait('document.getElementById("both-parting").textContent === "the same 8,583 events"')
    assert browser.value('document.getElementById("both-there").hidden')


@pytest.mark.built
def test_drawn_pairs_part_as_the_tool_says(chromium, tmp_path):
    """Other queues, rates, losses, windows and ends, also with other numbers of nodes, links and flows."""
    for seed in range(24):
        pair = drawn_pair(seed)
        assert chromium.json(f'({PARTING})({json.dumps(pair)})') == told_by_the_tool(*pair, tmp_path), seed
