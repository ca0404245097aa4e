"""How the tests of the page with the simulator use it, as a person would: elements by their CSS, choosing, running, writing, and
pictures of what is seen.
"""
import contextlib
import json
import os

import pytest

IN_CI = os.environ.get('CI') == 'true'
PICTURES = os.environ.get('PAGE_PICTURES')      # a folder for pictures of what the tests see


def wanted(condition, why):
    """Leaves a test out where something lacks; where CI=true it has failed."""
    if not condition:
        if IN_CI:
            pytest.fail(why)
        pytest.skip(why)


def element(css):
    """The script that finds an element."""
    return f'document.querySelector({json.dumps(css)})'


def text_of(browser, css):
    """An element's text."""
    return browser.value(f'{element(css)}.textContent')


def look(browser, name):
    """Keeps a picture of what is seen, where a folder is given for them."""
    if PICTURES:
        os.makedirs(PICTURES, exist_ok=True)
        browser.picture(os.path.join(PICTURES, f'{type(browser).__name__}_{name}.png'))


def run(browser, button='run'):
    """Presses a button, and waits until the run is done, which then moves no more; answers what the page says of it."""
    before = browser.value('document.documentElement.dataset.run || 0')
    browser.click(element(f'#{button}'))
    browser.wait(f'(document.documentElement.dataset.run || 0) != {before}')
    browser.value('window.page && (page.play(false), page.goEvent(page.record.first))')
    return text_of(browser, '#said')


def pick(browser, css, value):
    """Chooses an option of a list."""
    browser.value(f'(() => {{ const e = {element(css)}; e.value = {json.dumps(value)}; e.dispatchEvent(new Event("change", {{bubbles: true}})); }})()')


def choose(browser, value):
    """Opens a lesson or an example, which runs at once; waits until it has run, and lets it move no more."""
    before = browser.value('document.documentElement.dataset.run || 0')
    pick(browser, '#choose', value)
    browser.wait(f'document.documentElement.dataset.judged === "0" && (document.documentElement.dataset.run || 0) != {before}')
    browser.value('window.page && page.play(false)')


def write(browser, css, text):
    """Types a text into a field."""
    browser.click(element(css))
    browser.type(text)


@contextlib.contextmanager
def dialog(browser, button, close):
    """A dialog, from when it is seen, which for `share` is once its address is made, until it is left."""
    browser.click(element(f'#{button}'))
    browser.wait('!!document.querySelector("dialog[open]")')
    yield
    browser.click(element(close))
    browser.wait('!document.querySelector("dialog[open]")')


def at_prompt(browser, command):
    """Types a command at the debugger's prompt, and waits for its answer; answers all that stands there since."""
    before = len(text_of(browser, '#debugger pre'))
    write(browser, '#debugger input', command)
    browser.press('Enter')
    browser.wait(f'!simulator.prompt.running && document.querySelector("#debugger pre").textContent.length > {before}')
    return text_of(browser, '#debugger pre')[before:]
