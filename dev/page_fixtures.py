"""Fixtures of the tests of the page with the simulator: the page, and browsers with it."""
import pytest

import browsers
import page
import page_module
from page_use import wanted
from tcpsim.command_line import Refused

KINDS = {'Chromium': browsers.CHROMIUM, 'Firefox': browsers.FIREFOX}


@pytest.fixture(scope='session')
def made(tmp_path_factory):
    """The page's file, and the record of the proof."""
    try:
        program, record = page_module.program()
    except Refused as why:
        wanted(False, str(why))
    path = tmp_path_factory.mktemp('page') / 'tcpsim.html'
    path.write_text(page.page(program, record), encoding='utf-8')
    return path, record


@pytest.fixture(scope='session')
def opened(made, tmp_path_factory):
    """A browser of a kind with the page ready; each is started once, and anew where it gave no answer."""
    started: dict[str, browsers.Browser] = {}

    def of(kind):
        if kind in started and started[kind].silent:
            started.pop(kind).close()
        if kind not in started:
            wanted(KINDS[kind], f'no {kind}: apt-get install {"chromium" if kind == "Chromium" else "firefox-esr"}')
            try:
                import websockets  # noqa: F401
            except ImportError:
                wanted(False, 'no websockets: apt-get install python3-websockets')
            browser = started[kind] = getattr(browsers, kind)(str(tmp_path_factory.mktemp(kind)))
            browser.open(f'file://{made[0]}')
            browser.wait('document.documentElement.dataset.ready')
        return started[kind]
    yield of
    for browser in started.values():
        browser.close()


@pytest.fixture(params=list(KINDS))
def browser(opened, request):
    return opened(request.param)


@pytest.fixture
def chromium(opened):
    return opened('Chromium')
