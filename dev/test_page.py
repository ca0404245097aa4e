#!/usr/bin/env python3
"""Tests of the page with the simulator (`make page`), in headless Chromium and Firefox: python3 -m pytest dev/test_page.py.

The program in the page and the native one are asked the same, and what both answer is compared byte for byte. Then the page
is used as a person would. The page is made of the module that dev/build.py keeps of the native program's proof.
"""
import base64
import concurrent.futures
import functools
import json
import os
import re
import shutil
import subprocess
import sys
import time

import pytest

sys.path.insert(0, os.path.dirname(os.path.abspath(__file__)))
import browsers
import build
import page
import page_cases
import page_module
from clone import TOP
from page_use import choose, element, look, run, text_of, wanted
from tcpsim import VERSIONS
from tcpsim.command_line import Refused
from tcpsim.figures import Figures, figures
from tcpsim.replay.page import about
from tcpsim.scenario.text import Scenario
from tcpsim.stalls import stalls_of, walk_of
from tcpsim.summary import by_name

pytest_plugins = 'page_fixtures'
DRAWN = 2000            # cases
AT_ONCE = 200           # cases that are handed to the page in one message
TRY = '''async cases => {
  const told = [];
  const hex = buffer => [...new Uint8Array(buffer)].map(byte => byte.toString(16).padStart(2, '0')).join('');
  for (const [words, input, file] of cases) {
    const files = file === null ? new Map() : new Map([['FILE', await bytesOf(file)]]);
    const {status, note, why, bytes: out} = await simulator.engine.run(words, await bytesOf(input), {files});
    told.push([why || status, note, out.length, hex(await crypto.subtle.digest('SHA-256', out))]);
  }
  return told;
}'''
# Some ten thousand packets under way at once, which want more memory than a run is given below.
MANY_UNDER_WAY = """sim 260000000
node s sender
node r receiver
link a s r 10000000000 10000000 droptail 65535
link b r s 10000000000 10000000 droptail 65535
flow f s r 1000 100000 0 1073741824 0 newreno iw10
"""


# ---- byte for byte

@functools.lru_cache(maxsize=None)
def answers(case):
    """What the native program says; the same for each browser."""
    return page_cases.native(case, most=page_cases.MOST_BYTES)


def in_page(browser, cases):
    """What the page answers to the cases, in order."""
    code = lambda data: None if data is None else page.packed(data)
    for begin in range(0, len(cases), AT_ONCE):
        some = [[list(it.words), code(it.input), code(it.file)] for it in cases[begin:begin + AT_ONCE]]
        for told in browser.json(f'({TRY})({json.dumps(some)})'):
            yield page_cases.Answer(*told)


def differences(browser, cases):
    """The cases that the page answers otherwise than the native program, and how many were compared."""
    cases = [it for it in cases if answers(it) is not None]
    found = [(case, answers(case), told) for case, told in zip(cases, in_page(browser, cases))
             if answers(case) != told]
    return found, len(cases)


def same(browser, cases, least):
    found, count = differences(browser, cases)
    assert not found, (len(found), str(found[0])[:2000])
    assert count >= least


def test_examples_by_every_command(browser):
    same(browser, list(page_cases.of_examples()), 300)


def test_words_without_a_scenario(browser):
    same(browser, list(page_cases.of_words()), 30)


def test_every_refusal_of_formats_at_its_word(browser):
    pairs = list(page_cases.of_formats())
    codes = {note.split()[1] for _, note in pairs}
    assert codes >= {*(f'E{k}' for k in range(1, 11)), 'L3', 'L5', 'L7', 'L8', 'I1', 'groups'}
    for (case, note), told in zip(pairs, in_page(browser, [case for case, _ in pairs])):
        assert (told.note, told.length) == (f'{note}\n', 0), case.words
        assert told == answers(case)


def test_refusals_of_texts_images_and_sessions(browser):
    cases = list(page_cases.of_refusals())
    same(browser, cases, 300)
    notes = ' '.join(answers(it).note for it in cases)
    for code in ('L1', 'L2', 'L4', 'L6', 'B1', 'B2', 'B3', 'B5'):
        assert f'refused {code}' in notes, code


def test_drawn_scenarios(browser):
    same(browser, list(page_cases.drawn(DRAWN + 60)), DRAWN - 40)


def test_a_page_of_another_module_is_found(made, tmp_path):
    """A program that is wrong in one byte of what it writes is seen by the comparison."""
    program = page_module.program()[0]
    assert program.count(b' ssthresh=') + program.count(b'ssthresh=') >= 1
    wrong = program.replace(b'ssthresh=', b'ssthrash=')
    path = tmp_path / 'wrong.html'
    path.write_text(page.page(wrong, made[1]), encoding='utf-8')
    wanted(browsers.CHROMIUM, 'no Chromium: apt-get install chromium')
    browser = browsers.Chromium(str(tmp_path))
    try:
        browser.open(f'file://{path}')
        browser.wait('document.documentElement.dataset.ready')
        found, count = differences(browser, list(page_cases.of_examples())[:12])
        assert count == 12 and found
    finally:
        browser.close()


def test_a_module_that_is_not_of_the_native_proof_is_refused(made, tmp_path, monkeypatch):
    for name in ('MODULE', 'RECORD', 'MADE'):
        copy = str(tmp_path / name)
        shutil.copy(getattr(build, name), copy)
        monkeypatch.setattr(build, name, copy)
    assert build.module_record() == made[1]
    for name, change in (('MODULE', b'x'), ('MADE', b'x'), ('RECORD', b'{}')):
        path = getattr(build, name)
        before = open(path, 'rb').read()
        with open(path, 'wb') as file:
            file.write(change if name == 'RECORD' else before + change)
        with pytest.raises(Refused, match='no page is made'):
            page_module.program()
        with open(path, 'wb') as file:
            file.write(before)
    record = json.loads(open(build.RECORD).read())
    with open(build.RECORD, 'w') as file:
        json.dump({**record, 'verdict': 'logic=assumed'}, file)
    with pytest.raises(Refused, match='not proved'):
        page_module.program()
    os.remove(build.RECORD)
    with pytest.raises(Refused, match='is not there'):
        page_module.program()


def test_several_that_ask_at_once_compile_once(tmp_path, monkeypatch):
    """Tests of the page run beside each other, and the first of them may find nothing compiled."""
    turns = []

    def link_in(folder, _):
        path = os.path.join(folder, 'program.wasm')
        with open(path, 'wb') as file:
            file.write(b'compiled')
        return path

    monkeypatch.setattr(page_module, 'OUT', str(tmp_path / 'page'))
    monkeypatch.setattr(page_module, 'compile_in', lambda *_: (turns.append(1), time.sleep(0.2)))
    monkeypatch.setattr(page_module, 'link_in', link_in)
    with concurrent.futures.ThreadPoolExecutor(8) as pool:
        asked = [pool.submit(page_module.compiled, __file__, build.toolchain(), lambda *_, **__: None) for _ in range(8)]
    assert [it.result() for it in asked] == [b'compiled'] * 8
    assert len(turns) == 1


def test_the_page_says_of_which_proof_it_is(chromium, made):
    said = chromium.json('JSON.parse(document.getElementById("about").textContent)')
    assert {key: said[key] for key in made[1]} == made[1]
    assert said['program'] == build.sum_of_file(page_cases.PROGRAM)
    chromium.click(element('#about-open'))
    assert text_of(chromium, '#about-text').startswith(f'tcpsim {VERSIONS}\n')
    chromium.click(element('#about-close'))


@pytest.mark.parametrize('kind', ['Chromium', 'Firefox'])
def test_nothing_in_the_page_is_against_its_own_policy(made, tmp_path, kind):
    """No element of the page, and of no lesson, is refused by the page's policy: a console without red lines."""
    wanted(getattr(browsers, kind.upper()), f'no {kind}')
    (tmp_path / kind).mkdir()
    browser = getattr(browsers, kind)(str(tmp_path / kind), before='window.seen = []; document.addEventListener("securitypolicyviolation", event => seen.push(event.effectiveDirective));')
    try:
        browser.open(f'file://{made[0]}')
        browser.wait('document.documentElement.dataset.ready')
        browser.value('simulator.lessons.lessons.forEach(({number}) => simulator.openLesson(number))')
        assert browser.json('window.seen') == []
    finally:
        browser.close()


# ---- what is shown

def test_facts_are_those_of_the_package(chromium):
    """Names, numbers and ways, as python/tcpsim reads them of every example."""
    for name in chromium.json('Object.keys(simulator.examples)'):
        with open(f'{TOP}/examples/{name}.txt', encoding='ascii') as file:
            told = json.loads(json.dumps(about(Scenario(file.read()))))
        found = chromium.json(f'factsOf(simulator.examples[{json.dumps(name)}], "x")')
        assert {key: found[key] for key in told} == told, name


def type_in_editor(browser, text):
    """Types into the scenario. A headless Firefox's window has no focus, without which CodeMirror reads no letters."""
    if isinstance(browser, browsers.Firefox):
        browser.value(f'simulator.editor.box.replaceSelection({json.dumps(text)})')
    else:
        browser.type(text)


def test_lesson_3_as_a_new_user(browser):
    """The lesson is opened, run, its lines followed; its queue is made longer, as it proposes, and nothing is lost."""
    browser.size(1280, 800)
    choose(browser, 'lesson 3')
    assert text_of(browser, '#lesson h2') == '3. Slow start into a full queue'
    assert 'done in' in run(browser)
    with open(f'{TOP}/examples/slow_start_into_a_full_queue.trace', encoding='ascii') as file:
        lines = file.read().splitlines()
    assert browser.value('page.record.count') == len(lines) - 1
    browser.click('[...document.querySelectorAll("#lesson button.event")].find(e => e.textContent === "62")')
    assert browser.value('page.record.at') == 62
    assert browser.value('document.querySelector("#lines li.present").title') == lines[61]
    assert text_of(browser, '#lines li.present').split()[:4] == ['62', f'{int(lines[61].split()[1]) / 1e9:.6f}', 's', 's']
    look(browser, 'lesson_3')
    browser.click(element('.packet'))
    assert 'of f' in text_of(browser, '#words')
    # A line of all, found by its words, leads to its event.
    browser.click(element('[data-tab=trace]'))
    browser.click(element('#all-lines input'))
    browser.type('drop=full')
    browser.click(element('#all-lines form button'))
    browser.wait('page.record.at !== 62')
    at = browser.value('page.record.at')
    number, time, *_ = lines[at - 1].split()
    shown = text_of(browser, '.seen .present')
    assert 'drop=full' in lines[at - 1] and shown.split()[:3] == [number, f'{int(time) / 1e9:.6f}', 's'] and 'drops f ' in shown and ' B ' in shown
    assert browser.value('document.querySelector(".seen .present").title') == lines[at - 1]
    look(browser, 'trace')
    browser.click(element('#all-lines [type=checkbox]'))
    assert text_of(browser, '.seen .present') == lines[at - 1]
    browser.click(element('#all-lines [type=checkbox]'))
    browser.click(f'document.querySelector(\'.seen [data-event="{at + 1}"]\')')
    assert browser.value('page.record.at') == at + 1
    browser.click(element('[data-tab=figures]'))
    rows = browser.json('[...document.querySelectorAll("#figures-table tr")].map(row => [...row.cells].map(cell => cell.textContent))')
    assert rows[0][:3] == ['flow', 'goodput from its start', 'share of the whole run'] and rows[1][0] == 'f' and rows[1][2] == '100.0 % of a'
    assert ['figure', 'f'] in rows and ['figure', 'a', 'b'] in rows
    assert ['dropped as full (packets)', '1', '0'] in rows and ['greatest round trip', '11.08 ms'] in rows
    look(browser, 'figures')
    # "To try: give link a a queue of 20 packets, and nothing is lost."
    browser.value('''(() => { const box = simulator.editor.box, line = box.getValue().split('\\n').findIndex(it => it.startsWith('link a '));
      window.line = line; box.focus(); box.setCursor({line, ch: box.getLine(line).length}); })()''')
    browser.press('Backspace')
    type_in_editor(browser, '20')
    browser.wait('simulator.editor.box.getLine(line).endsWith("droptail 20")')
    # And a link of half the rate.
    browser.value('(() => { const box = simulator.editor.box; box.focus(); box.setCursor({line: window.line, ch: 12}); })()')
    browser.press('Backspace')
    type_in_editor(browser, '4')
    browser.wait('simulator.editor.box.getLine(line).startsWith("link a s r 4000000 ")')
    browser.press('Enter', 2) if isinstance(browser, browsers.Chromium) else browser.click(element('#run'))
    browser.wait('page && page.record.last > 0 && !page.record.drops.length && document.getElementById("said").textContent.startsWith("done")')
    assert browser.json('[page.facts.links[0].rate, page.facts.links[1].rate, page.facts.links[0].limit]') == [4000000, 8000000, 20]
    browser.click(element('[data-tab=debug]'))
    browser.click(element('#debugger input'))
    browser.type('step 3')
    browser.press('Enter')
    browser.wait('document.querySelector("#debugger pre").textContent.includes("at 3")')
    look(browser, 'debugger')


def test_a_text_is_judged_as_it_is_typed(browser):
    choose(browser, 'example one_segment')
    browser.value("(() => { const box = simulator.editor.box; box.focus(); box.replaceRange('droptial', {line: 5, ch: 27}, {line: 5, ch: 35}); })()")
    browser.wait('document.documentElement.dataset.judged === "1"')
    line = browser.value('simulator.editor.box.getLine(5)')
    done = subprocess.run([page_cases.PROGRAM, 'asm', '--explain'], input=browser.value('simulator.editor.text'), text=True,
                          capture_output=True, check=False)
    head, *rest = done.stderr.rstrip('\n').split('\n')
    assert head == 'refused E4 line 6' == text_of(browser, '#verdict')
    assert text_of(browser, '#explained').split('\n') == rest
    marked = browser.json('[...document.querySelectorAll(".wrong")].map(e => e.textContent).join("")')
    assert marked == 'droptial' and 'droptial' in line
    browser.click(element('#meaning summary'))
    means = subprocess.run([page_cases.PROGRAM, 'explain', 'E4'], capture_output=True, text=True, check=True).stdout
    browser.wait('document.querySelector("#meaning pre").textContent')
    assert text_of(browser, '#meaning pre') == means
    look(browser, 'refused')
    browser.click(element('#meaning summary'))
    assert 'refused E4 line 6' in run(browser)
    choose(browser, 'example one_segment')
    assert browser.value('!document.querySelector(".wrong")')
    looks = browser.json('[...document.querySelectorAll(".CodeMirror-line")].find(e => e.textContent.startsWith("link a")).querySelectorAll("[class^=cm]").length')
    assert looks == 6       # the statement, its name, rate, delay, the queue, and its places
    assert browser.value('document.querySelectorAll(".CodeMirror-linenumber").length') >= 8


# ---- figures and stalls

def figures_of(browser, text):
    """What the tab of figures says of a text's run: its sentences, and its tables by their first heads."""
    browser.value(f'simulator.openText({json.dumps(text)}, "own")')
    browser.value('simulator.start()')
    browser.wait('document.getElementById("said").textContent.startsWith("done in")')
    browser.value('simulator.showTab("figures")')
    tables = browser.json('[...document.querySelectorAll("#figures-table table")].map(table => [...table.rows].map(row => [...row.cells].map(cell => cell.textContent)))')
    return browser.json('[...document.querySelectorAll(".says li")].map(it => it.textContent)'), tables


def test_figures_begin_with_what_people_ask(browser):
    """Goodput, share, utilization and waits, as tcpsim-flows has them; links that carried little are folded, exact numbers in tooltips."""
    text = page_cases.read('examples', 'parking_lot_of_three_routers.txt').decode()
    said, tables = figures_of(browser, text)
    assert said[0] == 'Bottleneck: qu, 90.6 % utilized in 8.000 s.' and said[1].startswith("Jain's index of goodput: 0.8491, of 3 flows")
    assert tables[0][1:] == [['fa', '64 kbit/s', '26.7 % of qu', '13.6 %', '2', '31', '184 ms', '361 ms', '-'], ['fb', '113 kbit/s', '63.3 % of pq', '8.4 %', '3', '76', '71 ms', '166 ms', '-'],
                             ['fc', '189 kbit/s', '73.3 % of qu', '5.8 %', '1', '128', '71 ms', '194 ms', '-']]
    assert [row[0] for row in tables[1]] == ['link', 'pq', 'qu'] and len(tables[2]) == 15
    closed = browser.json('[...document.querySelectorAll("#figures-table details")].map(it => [it.open, it.firstChild.textContent])')
    assert closed == [[False, '14 links carried less than a tenth of the busiest, and dropped nothing'], [False, 'all figures, as the program counts them']]
    assert browser.value('document.querySelector("#figures-table td").title') == '64,000 bit/s'


@pytest.mark.parametrize('name', ('sawtooth_of_congestion_avoidance', 'four_flows_share_a_long_queue', 'four_flows_share_codel'))
def test_figures_of_a_trace_are_those_of_tcpsim_flows(browser, name):
    """Round trips and waits to the nanosecond, loss to a tenth of a percent."""
    text, trace = (page_cases.read('examples', f'{name}.{ending}').decode() for ending in ('txt', 'trace'))
    rows = figures(Figures(Scenario(text), trace.split('\n')[:-1]))
    figures_of(browser, text)
    told = browser.json('''[...document.querySelectorAll("#figures-table > .table, #figures-table > details:first-of-type > .table")].map(place => {
      const [head, ...rows] = place.firstChild.rows;
      return rows.map(({cells}) => Object.fromEntries([...cells].map((cell, k) => [head.cells[k].textContent, [cell.textContent, cell.title.split(" ns")[0]]])));
    }).flat()''')
    shown = {what: {row[what][0]: row for row in told if what in row} for what in ('flow', 'link')}
    for what, columns in (('flow', {'least RTT': 'least round trip', 'median RTT': 'median round trip'}),
                          ('link', {'median wait': 'median delay in the queue', '99 % wait': '99th percentile of delay in the queue'})):
        for which, values in by_name(rows, what).items():
            row = shown[what][which]
            assert row['loss'][0] == f'{100 * (values["loss"] or 0):.1f} %', (which, row)
            assert {head: row[head][1] for head in columns} == {head: f'{values[figure]:,}' for head, figure in columns.items()}, which


FLOWS_OF_SORTS = """sim 20000000000
node p router
node q router
""" + ''.join(f"""node s{k} sender
node r{k} receiver
link u{k} s{k} p 100000000 1000000 droptail 1000
link v{k} p s{k} 100000000 1000000 droptail 1000
link w{k} q r{k} 100000000 1000000 droptail 1000
link x{k} r{k} q 100000000 1000000 droptail 1000
""" for k in range(4)) + """link pq p q 1000000 10000000 droptail 20
link qp q p 1000000 10000000 droptail 20
flow f0 s0 r0 1000 1000000 0 64000 0
flow f1 s1 r1 1000 1000000 100000000 64000 0
flow f2 s2 r2 100 1000000 200000000 100 0
flow f3 s3 r3 1000 20 300000000 64000 0
""" + ''.join(f'route p r{k} pq\nroute q r{k} w{k}\nroute q s{k} qp\nroute p s{k} v{k}\n' for k in range(4))


def test_jain_compares_the_flows_that_can_fill_their_share(browser):
    """A mouse, with one segment in flight, and a flow that has ended are no part of the index, and the sentence says so."""
    said, _ = figures_of(browser, FLOWS_OF_SORTS)
    index = re.fullmatch(r"Jain's index of goodput: (0\.\d{4}|1\.0000), of 2 of 4 flows \(without 1 mice, 1 that ended\)\.", said[1])
    assert index and float(index.group(1)) > .9, said
    said, _ = figures_of(browser, page_cases.read('examples', 'bufferbloat.txt').decode())
    assert said[1] == "Jain's index of goodput: -, as none of 2 flows is compared (2 that ended)."


def test_a_run_that_is_too_short_says_so(browser):
    """A tooth that is longer than the run, and a goodput that still changes: a sentence with what would do; none of a run that has settled."""
    said, _ = figures_of(browser, FLOWS_OF_SORTS.replace('sim 20000000000', 'sim 3000000000').replace('droptail 20\n', 'droptail 200\n').replace(' 64000 0', ' 1000000 0'))
    assert any(it.startswith("Too short: a tooth of f") for it in said) and any('For 6 teeth count from' in it for it in said), said
    assert not [it for it in figures_of(browser, FLOWS_OF_SORTS)[0] if it.startswith(('Too short', 'Not settled'))]


def test_stalls_have_the_causes_of_tcpsim_stalls(browser):
    """Of every example: each of its stalls, the longest first, with its cause; a click goes there."""
    compared = 0
    for name in browser.json('Object.keys(simulator.examples)'):
        text, trace = (page_cases.read('examples', f'{name}.{ending}').decode() for ending in ('txt', 'trace'))
        causes = {(row.flow, row.begin, row.end): row.cause for row in stalls_of(Scenario(text), trace.split('\n')[:-1])}
        browser.value(f'simulator.openExample({json.dumps(name)})')
        browser.value('simulator.start()')
        browser.value('simulator.showTab("stalls")')
        browser.wait('!!document.querySelector("#stall-list table") || document.getElementById("stall-list").textContent.startsWith("No stall")')
        told = browser.json("""[...document.querySelectorAll('#stall-list tbody tr')].map(({cells}, k) => [page.facts.flows[simulator.stalls.stalls[k].flow].name,
          simulator.stalls.stalls[k].from, simulator.stalls.stalls[k].to, cells[3].textContent, cells[4].textContent])""")
        assert told == sorted(told, key=lambda row: row[1] - row[2])
        assert {(flow, begin, end) for flow, begin, end, *_ in told} == set(causes), name
        for flow, begin, end, cause, found in told:
            # Whether a timer had doubled the page does not ask.
            assert {'the timer had doubled': 'an acknowledgement was lost'}.get(causes[flow, begin, end], causes[flow, begin, end]) == cause, (name, flow, begin)
            assert found.startswith(('missing at the ', 'waits: ', 'under way: ', 'all its packets waited at link', 'flow ')), found
            compared += 1
    assert compared > 150
    choose(browser, 'example parking_lot_of_three_routers')
    assert run(browser).startswith('done in')
    browser.click(element('[data-tab=stalls]'))
    browser.wait('!!document.querySelector("#stall-list table")')
    look(browser, 'stalls')
    browser.click(element('#stall-list tbody button'))
    assert browser.json('[page.record.at === simulator.stalls.stalls[0].event, document.getElementById("run-side").dataset.view]') == [True, 'net']
    assert 'fa: no new acknowledgement for 1.35' in text_of(browser, '#notice')


# A NewReno sender whose timer ends while partial acknowledgements come, and one whose first round trip is longer than its timer.
OTHERS = ['sim 4000000000', 'node s sender', 'node r receiver', 'link a s r 8000000 90000000 droptail 20', 'link b r s 8000000 90000000 droptail 20',
          'flow f s r 1000 12 0 64000 0 newreno iw10', *(f'lose a {number}' for number in range(1, 9)), '']
FIRST = [*(line.replace('90000000', '550000000') for line in OTHERS[:5]), 'flow f s r 1000 1 0 64000 0', '']


@pytest.mark.parametrize('lines, said', [
    (OTHERS, 'f at 1.543240000 s'), ([line.replace('newreno', 'reno') for line in OTHERS], None), (FIRST, None)])
def test_each_timeout_is_in_a_stall_or_named(browser, lines, said):
    """As tcpsim-stalls has it. A press on its moment goes there."""
    text = '\n'.join(lines)
    trace = subprocess.run([page_cases.PROGRAM, 'run'], input=text, text=True, capture_output=True, check=True).stdout
    walk = walk_of(Scenario(text), iter(trace.splitlines()))
    assert ([f'{flow} at {time / 1e9:.9f} s' for flow, time in walk.others] or [None]) == [said]
    browser.value(f'simulator.openText({json.dumps(text)}, "timeouts")')
    browser.wait('document.documentElement.dataset.judged === "0"')
    run(browser)
    browser.click(element('[data-tab=stalls]'))
    browser.wait('!!document.querySelector("#stall-list table")')
    assert browser.value('document.querySelectorAll("#stall-list tbody tr").length') == len(walk.rows)
    told = browser.json('[...document.querySelectorAll("#stall-list p")].map(it => it.textContent)')[1:]
    assert [it.split(': ')[1].split('. A ')[0] for it in told] == ([said] if said else []), told
    if said:
        browser.click('document.querySelector("#stall-list p button")')
        assert browser.json('[page.record.timeOf(page.record.at), page.record.line(page.record.at).split(" ")[5]]') == [1543240000, 'rto']
        assert text_of(browser, '#notice') == 'f: the retransmission timer ends'


def test_where_the_time_went_has_a_tab(browser):
    """A part leads to its event, which the net above shows; the key w comes and goes, and in a lecture it has the panel's place."""
    choose(browser, 'example bufferbloat')
    assert run(browser).startswith('done in')
    browser.click(element('[data-tab=time]'))
    assert text_of(browser, '#time-went .said') == '3.01 s: 94.3 % of it in the queue of a, behind packets of f'
    look(browser, 'time')
    browser.click(element('#time-went .parts button'))
    marked, named = '[...document.querySelectorAll(".on-path")].map(it => it.dataset.packet)', 'document.getElementById("at-path").checkVisibility()'
    assert browser.value(named) and 'thick frame: what takes the flow\'s time now' in text_of(browser, '#key')
    assert browser.json(f'[page.record.at, simulator.view, {marked}]') == [4963, 'time', ['1:d:1000@3001166400']]
    assert text_of(browser, '#notice') == 'queue of a, behind packets of f: 2.84 s, first from event 4,963 on'
    browser.value('document.activeElement.blur()')
    browser.press('w')
    assert browser.json(f'[simulator.view, {marked}, {named}]') == ['net', [], False]
    seen = '["went", "charts"].map(id => document.getElementById(id).checkVisibility())'
    browser.press('l')
    assert browser.json(seen) == [False, True]
    browser.press('w')
    assert browser.json(f'[{seen}, {marked}.length, getComputedStyle(document.querySelector("#went button")).fontSize]') == [[True, False], 1, '24px']
    browser.press('Escape')
    assert browser.json(f'[simulator.view, {seen}, {marked}]') == ['net', [False, True], []]


def opened_file(browser, name, data):
    """Opens a file as by the button; answers what the page says."""
    browser.value(f'''(async () => {{ const bytes = Uint8Array.from(atob({json.dumps(base64.b64encode(data).decode())}), c => c.charCodeAt(0));
      await simulator.openFile(new File([bytes], {json.dumps(name)})); }})()''')
    return text_of(browser, '#said')


def test_files_that_are_no_scenario(browser):
    choose(browser, 'example one_segment')
    before = browser.value('simulator.editor.text')
    with open(f'{TOP}/docs/pictures/replay_two_timeouts_in_a_row.png', 'rb') as file:
        picture = file.read(3000)
    for name, data, says in (('a.png', picture, 'a.png is a picture (PNG)'), ('b.trace', page_cases.read('examples', 'one_segment.trace'), 'b.trace is a trace of a run'),
                             ('c.csv', b'what,number,figure,unit,value\n', 'a table of figures'), ('d.html', b'<!DOCTYPE html>', 'a web page'),
                             ('e.svg', b'<?xml version="1.0"?><svg>', 'a picture (SVG)'), ('f.bin', b'a\0b', 'no text')):
        assert says in (said := opened_file(browser, name, data)) and 'no scenario' in said
        assert browser.value('simulator.editor.text') == before
    image = page_cases.FIRST_IMAGE
    assert 'is an image' in opened_file(browser, 'g.tcb', image)
    assert browser.value('simulator.editor.text').startswith('sim 1000000000\nnode n0 sender\n')
    assert 'refused L1' in opened_file(browser, 'h.tcb', image[:-1])


def picked_file(browser, path):
    """Opens a file as a person picks it; answers what the page says."""
    root = browser.call('DOM.getDocument')['root']['nodeId']
    node = browser.call('DOM.querySelector', nodeId=root, selector='#file')['nodeId']
    browser.value('document.getElementById("said").textContent = ""')
    browser.call('DOM.setFileInputFiles', nodeId=node, files=[str(path)])
    browser.wait('document.getElementById("said").textContent')
    return text_of(browser, '#said')


def test_files_that_cannot_be_read(chromium, tmp_path):
    """A folder, a file of 3 GiB, and one that is gone: the page says so, and keeps the text."""
    choose(chromium, 'example one_segment')
    before = chromium.value('simulator.editor.text')
    long = tmp_path / 'long.txt'
    with open(long, 'wb') as file:
        file.write(b'# a text\n' * 4096)
        file.truncate(3 << 30)
    folder, gone = tmp_path / 'folder', tmp_path / 'gone.txt'
    folder.mkdir()
    gone.write_bytes(b'\xef\xbb\xbfsim 1\n')
    assert picked_file(chromium, long) == 'long.txt: refused I1; I1: the input has more than 16,777,216 bytes'
    assert 'folder cannot be read, and nothing was opened' in picked_file(chromium, folder)
    chromium.value('document.getElementById("file").addEventListener("change", event => { window.kept = event.target.files[0]; }, {capture: true, once: true})')
    picked_file(chromium, gone)
    gone.unlink()
    chromium.value(f'simulator.editor.text = {json.dumps(before)}')
    chromium.value('simulator.openFile(window.kept)')
    assert 'gone.txt cannot be read, and nothing was opened' in text_of(chromium, '#said')
    assert chromium.value('simulator.editor.text') == before


def test_a_byte_order_mark_is_taken_off_with_a_word(browser):
    text = page_cases.read('examples', 'one_segment.txt')
    assert page_cases.native(page_cases.Case(('asm',), b'\xef\xbb\xbf' + text)).note.startswith('refused E1 line 1')
    said = opened_file(browser, 'marked.txt', b'\xef\xbb\xbf' + text.replace(b'\n', b'\r\n'))
    assert 'byte order mark' in said and 'Windows' in said
    assert browser.value('simulator.editor.text') == text.decode()
    assert 'byte order' not in opened_file(browser, 'plain.txt', text)


# Opens a file of 16 MiB, and answers the longest time in which the page did nothing else until the text is judged, beside that of
# going three times through as many letters. It is 0.6 to 2.4, and above 40 where the editor shows all.
MOST_PASSES = 10
LONGEST_STOP = """async part => {
  const verdict = document.getElementById('verdict'), old = verdict.textContent, seen = new Set();
  let longest = 0, last = performance.now(), on = true;
  const letters = part.repeat(Math.ceil(2 ** 24 / part.length)).slice(0, 2 ** 24), file = new File([letters], 'long.txt');
  const passes = () => {
    const begun = performance.now();
    let sum = 0;
    for (let turn = 0; turn < 3; turn++) for (let k = 0; k < letters.length; k++) sum += letters.charCodeAt(k);
    return sum && performance.now() - begun;
  };
  const {port1, port2} = new MessageChannel();
  port1.onmessage = () => {
    const now = performance.now();
    longest = Math.max(longest, now - last);
    last = now;
    seen.add(verdict.textContent);
    if (on) setTimeout(() => port2.postMessage(0), 4);
  };
  port2.postMessage(0);
  await new Promise(done => setTimeout(done, 20));
  longest = 0;
  await simulator.openFile(file);
  seen.clear();
  while (!document.documentElement.dataset.judged) await new Promise(done => setTimeout(done, 20));
  on = false;
  return {longest: longest / passes(), judged: document.documentElement.dataset.judged, verdict: verdict.textContent, old: seen.has(old), size: simulator.editor.text.length,
    lines: simulator.editor.box.lineCount()};
}"""


@pytest.mark.parametrize('part', ['\n', ' ', '# a comment\n', 'x'], ids=['line feeds', 'blanks', 'comments', 'one line'])
def test_16_mib_leave_the_page_answering(browser, part):
    """The editor shows a part, the program judges the whole, and the verdict of the text before is gone at once."""
    choose(browser, 'example one_segment')
    browser.wait('document.getElementById("verdict").textContent.startsWith("a scenario")')
    told = browser.json(f'({LONGEST_STOP})({json.dumps(part)})')
    assert told['judged'] == '1' and told['size'] == 1 << 24 and not told['old'], told
    assert 'refused' in told['verdict'] and 'the editor shows the first' in told['verdict']
    assert told['lines'] <= 1 << 14 and told['longest'] < MOST_PASSES, told
    look(browser, 'long')
    # A scenario of that size runs.
    text = page_cases.read('examples', 'one_segment.txt').decode()
    if part != 'x':
        browser.value(f'simulator.openText({json.dumps(text)} + {json.dumps(part)}.repeat({((1 << 24) - len(text)) // len(part)}), "long")')
        browser.wait('document.documentElement.dataset.judged === "0"')
        assert text_of(browser, '#verdict').startswith('a scenario: 2 nodes, 2 links, 1 flow; the editor shows')
        assert run(browser).startswith('done in') and browser.value('page.record.count') == 5
    choose(browser, 'example one_segment')
    assert not browser.value('simulator.editor.box.getOption("readOnly")')


def long_net():
    """A scenario whose run takes minutes."""
    return subprocess.run([sys.executable, f'{TOP}/bin/tcpsim-net', 'dumbbell', '--flows', '10', '--rate', '1G', '--rtt', '10ms', '--queue',
                           'droptail:100', '--end', '1000s'], capture_output=True, text=True, check=True).stdout


def test_a_lesson_that_is_chosen_ends_the_run_before(browser):
    """What was run is not shown over the other scenario, which runs at once."""
    browser.value(f'simulator.openText({json.dumps(long_net())}, "long")')
    browser.wait('document.documentElement.dataset.judged === "0"')
    browser.value('(window.done = simulator.start()) && 1')
    browser.wait('simulator.run.record && simulator.run.record.count > 500')
    choose(browser, 'lesson 1')
    browser.value('window.done')
    assert browser.json('[document.getElementById("stop").disabled, document.getElementById("run").disabled, page.record.count, simulator.run.title]') == [True, False, 5, 'one_segment']
    assert text_of(browser, '#said').startswith('done in')
    assert run(browser).startswith('done in') and browser.value('page.record.count') == 5


# Has the trace of the next run begin only when its figures are counted, and answers what stands there then.
LATE_TRACE = """new Promise(done => {
  const {engine} = simulator;
  let counted;
  engine.start = function (words, ...more) {
    const made = Engine.prototype.start.call(this, words, ...more), {begun} = made.pieces;
    if (words[0] === 'figures') counted = made.ended;
    if (words[0] !== 'run') return made;
    delete engine.start;
    made.pieces.begun = counted.then(() => new Promise(late => setTimeout(late, 100))).then(() => { done([byId('nothing').textContent, simulator.view, byId('figures-table').textContent]); return begun; });
    return made;
  };
  simulator.openLesson(15);
  OPENED
})"""


@pytest.mark.parametrize('tab', ['net', 'figures'])
def test_a_run_that_comes_is_no_table_alone(browser, tab):
    """Where the figures are counted before the trace begins, nothing says that the run has these only, nor has a share without a trace."""
    choose(browser, 'lesson 1')
    told = browser.json(LATE_TRACE.replace('OPENED', f'simulator.showTab("{tab}")'))
    assert told == ['running', tab, '']
    browser.wait('window.page && document.getElementById("stop").disabled')
    browser.value('simulator.showTab("figures")')
    assert ' % of pq' in text_of(browser, '#figures-table')
    browser.value('simulator.showTab("net")')


def test_a_line_that_is_clicked_before_the_run_is_there_is_shown(browser):
    """As soon as it is there, and meanwhile the page says so; the next run moves from its begin."""
    choose(browser, 'lesson 1')
    before = browser.value('document.documentElement.dataset.run')
    browser.json(LATE_TRACE.replace('OPENED', """document.querySelector('#lesson [data-event="1819"]').click()"""))
    assert text_of(browser, '#said') == 'running: event 1,819 is shown as soon as the run is there'
    browser.wait(f'document.documentElement.dataset.run !== "{before}"')
    assert browser.json('[page.record.at, page.playing]') == [1819, False]
    browser.value('simulator.start({plays: true}).then(() => 0)')
    assert browser.value('page.record.at') < 1819


def test_long_runs_are_asked_about(browser):
    choose(browser, 'example bufferbloat')
    browser.value('simulator.mostKept = 1000')
    try:
        browser.click(element('#run'))
        browser.wait('document.getElementById("ask").open')
        assert 'more than 1,000 events' in text_of(browser, '#ask-text')
        look(browser, 'asked')
        browser.click(element('#ask-figures'))
        browser.wait('document.getElementById("said").textContent.startsWith("the table only, in")')
        assert browser.value('!page && document.querySelectorAll("#figures-table table").length >= 5')
        assert 'no trace of it was kept' in text_of(browser, '#nothing')
        browser.click(element('#run'))
        browser.wait('document.getElementById("ask").open')
        browser.click(element('#ask-leave'))
        browser.wait('document.getElementById("run").disabled === false')
        assert text_of(browser, '#nothing') == 'ended'
        browser.click(element('#run'))
        browser.wait('document.getElementById("ask").open')
        browser.click(element('#ask-keep'))
        browser.wait('window.page && document.getElementById("said").textContent.startsWith("done")')
        assert browser.value('page.record.count') == 8583
    finally:
        browser.value('simulator.mostKept = 5000000')


def test_want_of_memory_is_told_and_the_page_lives(browser):
    browser.value(f'simulator.editor.text = {json.dumps(MANY_UNDER_WAY)}')
    browser.value('simulator.mostPages = 33')
    try:
        assert run(browser).startswith('no memory')
        kept = browser.value('page.record.count')
        assert kept > 1000
    finally:
        browser.value('simulator.mostPages = MOST_PAGES')
    assert run(browser).startswith('done in')
    assert browser.value('page.record.count') > kept
    told = browser.json('simulator.engine.run(["run"], toBytes(simulator.editor.text), {pages: 33}).then(it => [it.status, it.note])')
    assert told == [4, 'no memory\n']


def test_a_run_can_be_ended(browser):
    """A long one, by the button; the next run is whole."""
    browser.value(f'simulator.editor.text = {json.dumps(long_net())}')
    browser.click(element('#run'))
    browser.wait('simulator.run.record && simulator.run.record.count > 500')
    browser.click(element('#stop'))
    browser.wait('window.page && window.page.record.count > 0')
    assert 'ended' in text_of(browser, '#said')
    choose(browser, 'example one_segment')
    assert run(browser).startswith('done in')
    assert browser.value('page.record.count') == 5


# Runs the scenario, and ends it before piece `k` of the trace is read, once the program has written it all.
ENDED_AT = """async k => {
  const {engine, save} = simulator, start = engine.start, give = save.give;
  let count = 0, saved = null;
  engine.start = function (words, ...rest) {
    const run = start.call(this, words, ...rest), all = run.pieces;
    if (words[0] !== 'run') return run;
    const pieces = (async function* () {
      while (!all.closed) await new Promise(done => setTimeout(done, 5));
      for await (const piece of all) { if (count++ === k) simulator.stop(); yield piece; }
    })();
    return {...run, pieces: Object.assign(pieces, {begun: all.begun, ended: all.ended, reached: all.reached})};
  };
  await simulator.start();
  engine.start = start;
  const {record} = page, {facts, last} = record;
  page.goEvent(last);
  simulator.showTab('figures');
  save.give = name => { saved = name; };
  document.getElementById('save-trace').click();
  save.give = give;
  return {count, said: document.getElementById('said').textContent, left: document.getElementById('left').textContent, whole: facts.whole,
    lines: d3.sum(record.lines.pieces, piece => piece.filter(byte => byte === NEWLINE).length), last, line: record.line(last), words: document.getElementById('words').textContent, saved,
    figures: [document.getElementById('save-figures').disabled, document.querySelectorAll('#figures-table tr').length]};
}"""


def test_a_part_of_a_run_is_never_shown_as_the_whole(browser):
    """A run is ended at each piece of its trace that the page reads: what is shown then ends with a whole line, and says so."""
    choose(browser, 'example two_flows_share_fairly')
    with open(f'{TOP}/examples/two_flows_share_fairly.trace', encoding='ascii') as file:
        lines = file.read().splitlines()
    told = browser.json(f'({ENDED_AT})(-1)')
    pieces, figures = told['count'], told['figures']
    assert pieces >= 3 and figures[1] > 10
    for k in range(pieces):
        told = browser.json(f'({ENDED_AT})({k})')
        assert told['line'] == lines[told['last'] - 1], k
        assert told['words'].startswith('In the debugger step') and told['figures'] in (figures, [True, 0])
        if k == pieces - 1:         # all was read by then
            assert told['whole'] and told['last'] == len(lines) - 1 and told['saved'] == 'two_flows_share_fairly.trace'
            continue
        assert not told['whole'] and 0 < told['last'] == told['lines'] < len(lines) - 1
        assert told['said'].startswith('ended: what is shown ends at') and 'left out: what comes after' in told['left']
        assert told['saved'] == 'two_flows_share_fairly.part.trace'


# ---- nothing from outside

def test_texts_names_and_addresses_are_never_html(chromium, made):
    evil = '<img src=x onerror="window.hit=1"><script>window.hit=1</script>'
    text = f'# {evil}\n' + page_cases.read('examples', 'one_segment.txt').decode()
    opened_file(chromium, f'{evil}.txt'.replace('/', '_'), text.encode())
    assert run(chromium).startswith('done in')
    for tab in ('figures', 'trace', 'debug', 'net'):
        chromium.click(element(f'[data-tab={tab}]'))
    chromium.value(f'location.hash = {json.dumps("#event=" + evil)}')
    opened_file(chromium, f'{evil}.png', b'\x89PNG')
    chromium.click(element('[data-tab=debug]'))
    chromium.click(element('#debugger input'))
    chromium.type(evil)
    chromium.press('Enter')
    chromium.wait('document.querySelector("#debugger pre").textContent.includes("refused B1")')
    time.sleep(.3)
    assert chromium.json('[typeof window.hit, document.querySelectorAll("img[src=x]").length]') == ['undefined', 0]
    # The policy itself: neither a script of the page's own elements nor anything from outside is taken.
    told = chromium.json('''(async () => {
      const seen = [];
      document.addEventListener('securitypolicyviolation', event => seen.push(event.effectiveDirective));
      const script = document.createElement('script'); script.textContent = 'window.hit = 1'; document.body.append(script);
      const place = document.createElement('div'); place.innerHTML = '<img src="x" onerror="window.hit=1">'; document.body.append(place);
      let failed = 0;
      try { await fetch('https://example.org/'); } catch { failed = 1; }
      try { (0, eval)('window.hit = 1'); } catch { failed += 1; }
      await new Promise(done => setTimeout(done, 300));
      script.remove(); place.remove();
      return [typeof window.hit, failed, seen];
    })()''')
    assert told[:2] == ['undefined', 2] and len(told[2]) >= 3, told
    page_text = made[0].read_text(encoding='utf-8')
    assert "default-src 'none'" in page_text and 'unsafe-inline' not in page_text.partition('</head>')[0]
    own = page_text.partition('<template id="view">')[0]
    assert '<link' not in own and '<base' not in own
    # The two frames of a comparison have no address: the page writes what they show.
    assert re.findall(r'<iframe[^>]*>', own) == ['<iframe title="the first run">', '<iframe title="the second run">']


def test_a_browser_without_64_bit_memory(made, tmp_path):
    """It is told so, with the versions that have it, and shows the runs that the page carries."""
    wanted(browsers.CHROMIUM, 'no Chromium: apt-get install chromium')
    browser = browsers.Chromium(str(tmp_path), before='WebAssembly.validate = () => false;')
    try:
        browser.open(f'file://{made[0]}')
        browser.wait('document.documentElement.dataset.ready === "without" && window.page')
        said = text_of(browser, '#said')
        assert 'version 133' in said and 'version 134' in said
        browser.value('(() => { const e = document.querySelector("#choose"); e.value = "lesson 10"; e.dispatchEvent(new Event("change")); })()')
        browser.wait('window.page && window.page.record.count === 8583')
        assert browser.value('document.getElementById("run").disabled')
    finally:
        browser.close()


def test_on_a_phone(chromium):
    """390 pixels wide: nothing leaves the page to the side. A lesson that is begun is seen with the net, the clock and the first panel's
    axis of time; tabs and clock stay while the run scrolls, one below the other."""
    chromium.size(390, 844, mobile=True)
    try:
        for number in (3, 10, 13):
            choose(chromium, f'lesson {number}')
            assert run(chromium).startswith('done in')
            seen = chromium.json('["#lesson h2", "#replay header", "#where", "#net", "#charts .axis"].map(css => document.querySelector(css).getBoundingClientRect()).map(box => [box.top, box.bottom])')
            seen.append(chromium.json('[...document.querySelector("#charts > div:not([hidden])").querySelectorAll(".axis")].map(e => e.getBoundingClientRect()).map(box => [box.top, box.bottom])')[0])
            assert all(-1 <= top < bottom <= 845 for top, bottom in seen), (number, seen)
            chromium.value('document.getElementById("below").scrollIntoView()')
            tabs, clock = chromium.json('["#tabs", "#replay header"].map(css => document.querySelector(css).getBoundingClientRect()).map(box => [box.top, box.bottom])')
            assert tabs[0] == 0 and abs(clock[0] - tabs[1]) <= 1, (number, tabs, clock)
        for tab in ('net', 'figures', 'trace', 'debug'):
            chromium.click(element(f'[data-tab={tab}]'))
            wide = chromium.json('[document.documentElement.scrollWidth, innerWidth]')
            assert wide[0] <= 390, (tab, wide)
            look(chromium, f'phone_{tab}')
    finally:
        chromium.size(1280, 800)
