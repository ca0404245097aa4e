#!/usr/bin/env python3
"""Tests of the templates of the page with the simulator: python3 -m pytest dev/test_page_templates.py. What they write is what the
Python package writes of the same fields, byte for byte, and what it refuses they refuse with its sentence.
"""
import json
import os
import sys

sys.path.insert(0, os.path.dirname(os.path.abspath(__file__)))
import page_templates
from page_use import element, look, pick, run, text_of, write
from tcpsim.scenario import units

pytest_plugins = 'page_fixtures'

DRAWN = 400             # sets of fields, of which more than 200 are taken
TRY = '''cases => cases.map(([shape, fields]) => {
  try { return [templateText(shape, fields, dataOf("templates").ranges), null]; }
  catch (wrong) { if (!(wrong instanceof Wrong)) throw wrong; return [null, wrong.message]; }
})'''


def test_drawn_fields_as_the_package_writes_them(browser):
    cases = list(page_templates.drawn(DRAWN))
    told = browser.json(f'({TRY})({json.dumps(cases)})')
    taken = 0
    for (shape, fields), (text, why) in zip(cases, told):
        wanted, wrong = page_templates.of_package(shape, fields)
        assert text == wanted, (shape, fields, why, wrong)
        if wrong is None:
            taken += 1
        else:
            assert wrong.endswith(why), (shape, fields)
    assert 200 <= taken < DRAWN
    assert {shape for shape, _ in cases} == {'dumbbell', 'chain', 'parking-lot', 'asymmetric'}


def test_ranges_are_those_of_the_package(chromium):
    assert chromium.json('dataOf("templates").ranges') == {name: list(pair) for name, pair in units.RANGES.items()}


def test_a_wrong_text_is_seen(chromium):
    """The comparison finds a template whose text differs by a word."""
    wrong = chromium.json('templateText("dumbbell", {flows: "3"}, dataOf("templates").ranges).replace("3 flows", "three flows")')
    assert wrong != page_templates.of_package('dumbbell', {'flows': '3'})[0]


def test_a_dumbbell_as_a_new_user(browser):
    """Its fields are filled in, a wrong one is told beside its name, and the scenario runs."""
    browser.size(1400, 900)
    browser.click(element('#template-open'))
    browser.wait('document.getElementById("template-dialog").open')
    write(browser, '[name=flows]', '3')
    write(browser, '[name=rate]', '10')
    write(browser, '[name=queue]', 'codel:5ms:100ms')
    write(browser, '[name=end]', '4s')
    look(browser, 'template')
    browser.click(element('#template-dialog .make'))
    assert 'rate: ' in (said := text_of(browser, '#template-dialog .alert')) and "'10'" not in said.split(':')[0]
    assert browser.value('document.activeElement.name') == 'rate'
    browser.value(f'{element("[name=rate]")}.value = ""')
    write(browser, '[name=rate]', '5M')
    browser.click(element('#template-dialog .make'))
    browser.wait('!document.getElementById("template-dialog").open')
    fields = {'flows': '3', 'rate': '5M', 'queue': 'codel:5ms:100ms', 'end': '4s'}
    assert browser.value('simulator.editor.text') == page_templates.of_package('dumbbell', fields)[0]
    browser.wait('document.documentElement.dataset.judged === "0"')
    assert run(browser).startswith('done in')
    assert browser.json('[page.facts.flows.length, page.facts.links[0].queue]') == [3, 'codel']
    browser.click(element('#template-open'))
    pick(browser, '#template-dialog select', 'parking-lot')
    browser.wait('!!document.querySelector("[name=hops]")')
    look(browser, 'template_parking_lot')
    assert browser.value(f'{element("[name=queue]")}.value') == 'codel:5ms:100ms'
    browser.value(f'{element("[name=queue]")}.value = ""')
    browser.click(element('#template-dialog .make'))
    assert 'rate: ' not in text_of(browser, '#template-dialog .alert')
    browser.wait('!document.getElementById("template-dialog").open')
    assert browser.value('simulator.editor.text.split("\\n")[0]').startswith('# A parking lot: flow f0 goes over 3 hops')
