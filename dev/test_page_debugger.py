#!/usr/bin/env python3
"""Tests of the debugger in the page with the simulator: python3 -m pytest dev/test_page_debugger.py. Answers are the program's,
whether a session is run anew for each line or a worker keeps it, and the net goes where the session is.
"""
import json
import os
import sys

import pytest

sys.path.insert(0, os.path.dirname(os.path.abspath(__file__)))
import page_templates
from clone import TOP
from page_use import at_prompt, choose, element, look, run, text_of, write
from tcpsim.breakdown import Breakdown
from tcpsim.critical_path import critical_paths
from tcpsim.whole_trace import opened_run

pytest_plugins = 'page_fixtures'
LINES = ['step 5', 'why 0', 'break drop', 'run', 'where', 'goto 30', 'state', 'back 2', 'lines 4', 'stpe', 'reverse', 'until 1s', '', 'breaks', 'help why', 'step', 'state flow 0',
         'stalls', 'display flow f', 'back', 'undisplay 1', 'display x']


def whole_session(browser, lines):
    """What the program writes, and notes, of the session in one run."""
    return browser.json(f'''(async () => {{
      const {{bytes, note}} = await simulator.engine.run(["debug", "s"], toBytes({json.dumps("".join(line + chr(10) for line in lines))}),
        {{files: new Map([["s", toBytes(simulator.run.text)]])}});
      return [new TextDecoder("latin1").decode(bytes), note];
    }})()''')


def answers_of(browser, lines):
    """What the prompt answers to each line, without the line itself."""
    said = []
    for line in lines:
        told = at_prompt(browser, line)
        assert told.startswith(f'> {line}\n')
        said.append(told[len(line) + 3:])
    return said


@pytest.fixture
def at_debugger(browser):
    browser.size(1400, 900)
    choose(browser, 'example two_timeouts_in_a_row')
    assert run(browser).startswith('done in')
    browser.click(element('[data-tab=debug]'))
    return browser


@pytest.mark.parametrize('kept', [False, True])
def test_answers_are_the_programs(at_debugger, kept):
    """The same whether the session is run anew for each line or kept; what is noted stands between the answers."""
    browser = at_debugger
    browser.value("simulator.prompt.againWithin = Infinity")
    if kept:
        assert browser.value('canKeep()'), 'this browser keeps no session'
        browser.value('simulator.prompt.keep()')
    said = answers_of(browser, LINES)
    out, note = whole_session(browser, LINES)
    assert bool(browser.value('!!simulator.prompt.kept')) == kept
    told = ''.join(said)
    noted = note.replace('(tcpsim) ', '')
    assert 'refused B1' in noted
    for line in [*out.splitlines(), *noted.strip().splitlines()]:
        assert line in told
    wanted = [line for line in told.splitlines() if line not in noted.splitlines()]
    assert wanted == out.splitlines()


def test_the_net_and_the_panels_go_to_its_position(at_debugger):
    browser = at_debugger
    assert 'at 27 of the run' in at_prompt(browser, 'step 27')
    assert browser.value('page.record.at') == 27
    assert browser.value('!document.getElementById("tab-net").hidden && document.getElementById("net").getBoundingClientRect().height > 100')
    assert text_of(browser, '#where').startswith('event 27 of')
    assert browser.value('+document.querySelector("#charts .present").dataset.time') == browser.value('page.record.timeOf(27)')
    at_prompt(browser, 'back 3')
    assert browser.value('page.record.at') == 24
    look(browser, 'debugger')
    at_prompt(browser, 'state flow 0')
    assert browser.value('page.record.at') == 24
    browser.value('page.jump(5)')
    assert browser.value('page.record.at') == 5
    at_prompt(browser, 'step')
    assert browser.value('page.record.at') == 25


@pytest.mark.parametrize('lesson', [16, 17])
def test_no_box_beside_it_is_cut(browser, lesson):
    """Half of a window of 1,400 pixels has rows for all panels' boxes."""
    browser.size(1400, 900)
    choose(browser, f'lesson {lesson}')
    browser.value('page.panels.choose(Object.keys(PANELS)); simulator.showTab("debug"); page.lay()')
    assert browser.json("""(bar => { const {bottom, right} = bar.getBoundingClientRect();
      return [...bar.querySelectorAll('button, label')].filter(e => e.checkVisibility()).map(e => [e.textContent, e.getBoundingClientRect()]).filter(([, box]) => box.bottom > bottom + 1 || box.right > right + 1).map(([text]) => text);
    })(document.getElementById('panel-bar'))""") == []
    look(browser, f'debugger_{lesson}')
    browser.value('simulator.showTab("net")')


def test_history_and_completion(at_debugger):
    browser = at_debugger
    value = f'{element("#debugger input")}.value'
    at_prompt(browser, 'step 3')
    at_prompt(browser, 'why 0')
    browser.press('ArrowUp')
    assert browser.value(value) == 'why 0'
    browser.press('ArrowUp')
    assert browser.value(value) == 'step 3'
    browser.press('ArrowDown')
    browser.press('ArrowDown')
    assert browser.value(value) == ''
    browser.type('rev')
    browser.wait('simulator.prompt.completion.names')
    browser.press('Tab')
    assert browser.value(value) == 'reverse '
    browser.value(f'{value} = ""')
    browser.type('break n')
    browser.press('Tab')
    assert browser.value(value) == 'break node '
    offered = browser.json('[...document.querySelectorAll(".goes-on button")].map(e => e.textContent)')
    assert offered == [f'{name} (node {k})' for k, name in enumerate(browser.json('page.facts.nodes.map(it => it.name)'))]
    look(browser, 'completion')
    browser.click(element('.goes-on button'))
    browser.type('ki')
    browser.press('Tab')
    browser.type('r')
    browser.press('Tab')
    assert browser.value(value) == 'break node s kind rto '
    browser.press('Enter')
    browser.wait('document.querySelector("#debugger pre").textContent.includes("break 1: node s kind rto")')
    for typed in ('displ', 'fli'):
        browser.type(typed)
        browser.press('Tab')
    browser.press('Tab')
    assert browser.value(value) == 'display flight f '
    browser.press('Enter')
    browser.wait('document.querySelector("#debugger pre").textContent.includes("display 1: flight f = ")')
    # Each name of the help is offered, and the key leads on where there is nothing to take.
    names = browser.json('simulator.prompt.completion.names')
    assert {'step', 'back', 'run', 'reverse', 'until', 'goto', 'where', 'state', 'break', 'breaks', 'delete', 'clear', 'lines', 'display', 'undisplay', 'why', 'time', 'stalls',
            'names', 'help', 'quit'} == {*names}
    assert browser.json('simulator.prompt.completion.topics') == ['numbers', 'trace', 'kinds', 'stall', 'values']
    assert browser.json('simulator.prompt.completion.kinds') == ['start', 'rto', 'delack', 'free', 'data', 'ack']
    write(browser, '#debugger input', 'step 3')
    browser.press('Tab')
    assert browser.value('document.activeElement.tagName') == 'BUTTON'
    # The history outlives the run.
    run(browser)
    browser.click(element('[data-tab=debug]'))
    browser.click(element('#debugger input'))
    browser.press('ArrowUp')
    assert browser.value(value) == 'display flight f '


def test_a_line_is_completed_as_soon_as_the_program_has_told_its_names(at_debugger):
    """The Tab key before that does not lead away from the line."""
    browser = at_debugger
    browser.click(element('#debugger input'))
    browser.value('''(() => {
      const {completion} = simulator.prompt, ask = completion.ask, gate = new Promise(open => { window.tell = open; });
      Object.assign(completion, {names: null, learned: null, ask: async command => { await gate; return ask(command); }});
    })()''')
    browser.type('rev')
    browser.press('Tab')
    assert browser.json(f'[{element("#debugger input")}.value, document.activeElement === {element("#debugger input")}]') == ['rev', True]
    browser.value('window.tell()')
    browser.wait(f'{element("#debugger input")}.value === "reverse "')
    browser.value(f'{element("#debugger input")}.value = ""')


def test_a_long_session_is_kept_by_a_worker(browser):
    """A run of some hundred thousand events is done once; for the steps behind it nothing is run anew, and `quit` ends it."""
    text = page_templates.of_package('dumbbell', {'flows': '4', 'rate': '100M', 'end': '8s'})[0]
    browser.value(f'simulator.openText({json.dumps(text)}, "long")')
    assert run(browser).startswith('done in')
    assert browser.value('page.record.count') > 100000
    browser.click(element('[data-tab=debug]'))
    browser.value('simulator.prompt.againWithin = 0')       # a machine may be fast enough to run it anew
    lines = ['run', 'step', 'back 3', 'why 0', 'step 2']
    said = answers_of(browser, lines[:1])
    assert browser.value('!!simulator.prompt.kept')
    browser.value('simulator.prompt.caught.then(() => true)')
    runs = browser.value('simulator.engine.count')
    said += answers_of(browser, lines[1:])
    assert browser.value('simulator.engine.count') == runs, 'the session was run anew'
    assert ''.join(said) == whole_session(browser, lines)[0]
    at_prompt(browser, 'quit')
    assert not browser.value('!!simulator.prompt.kept')
    assert 'at 1 of the run' in at_prompt(browser, 'step')


def rows_of(answer):
    """The rows of an answer behind its line, with one blank between words."""
    return [' '.join(line.split()) for line in answer.strip('\n').split('\n')[1:]]


@pytest.mark.parametrize('name', ['bufferbloat', 'two_timeouts_in_a_row', 'delayed_acks_and_their_alarm'])
def test_time_is_answered_as_by_the_tool(browser, name):
    """`time F` has the parts of tcpsim-time, `time` a row for each flow, and the list of help names it."""
    choose(browser, f'example {name}')
    assert run(browser).startswith('done in')
    browser.click(element('[data-tab=debug]'))
    with opened_run(*(f'{TOP}/examples/{name}{ending}' for ending in ('.txt', '.trace'))) as (scenario, lines):
        walk = critical_paths(scenario, lines, range(len(scenario.flows)))
    rows = rows_of(at_prompt(browser, 'time'))
    for number, flow in enumerate(scenario.flows):
        found = Breakdown(walk, number)
        table = [' '.join(row) for row in found.table()]
        assert rows_of(at_prompt(browser, f'time {flow.name}')) == rows_of(at_prompt(browser, f'time {number}')) == table
        assert rows[1 + number] == ' '.join((flow.name, found.table()[-1][0], *found.table()[1][1:]))
    assert 'there is no flow nobody' in at_prompt(browser, 'time nobody')
    assert '\ntime [F]' in at_prompt(browser, 'help') and 'where the time of flow F went' in at_prompt(browser, 'help time')


def test_the_two_kinds_of_stalls_are_told_apart(browser):
    """In lesson 17 the button goes to 23, and the prompt's `stalls` lists six. Each says which it means, and the lesson how many of fa."""
    choose(browser, 'lesson 17')
    browser.click(element('[data-tab=debug]'))
    told = at_prompt(browser, 'stalls')
    hints = browser.json('[...document.querySelectorAll("#debugger pre [data-hint]")].map(e => [e.textContent, e.dataset.hint])')
    assert hints[0][0] == '> stalls' and 'nothing of a flow is under way' in hints[0][1] and 'more than 200 ms' in hints[0][1], hints
    assert hints[1] == ['goto 607: flow fc is stalled at 764306151 ns', '0.764306 s: fc stands still'], hints
    assert len(hints) == 1 + told.count('goto ') == 7
    browser.click(element('[data-tab=stalls]'))
    browser.wait('!!document.querySelector("#stall-list table")')
    said = text_of(browser, '#stall-list p')
    assert said.startswith('23 stalls of more than 200 ms') and 'the longest first' in said and 'stalls lists fewer: where nothing of a flow is under way' in said
    of_fa = browser.value('page.record.stalls.filter(({flow}) => page.facts.flows[flow].name === "fa").length'), told.count('flow fa is stalled')
    assert of_fa == (10, 2) and 'fa has ten' in text_of(browser, '#lesson') and 'two of fa' in text_of(browser, '#lesson')
    browser.value('simulator.showTab("net")')
