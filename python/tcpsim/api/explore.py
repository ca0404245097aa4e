"""The page with the simulator, opened with a scenario: what `net.explore()` does. docs/PAGE.md shows the page."""
from __future__ import annotations

import base64
import html
import os
import tempfile
import urllib.parse
import webbrowser
import zlib
from typing import TYPE_CHECKING

from tcpsim import output
from tcpsim.api.errors import Error, as_api
from tcpsim.api.shown import ExplorePage, notebook
from tcpsim.program import TOP

if TYPE_CHECKING:
    from tcpsim.api.scenarios import ScenarioText

NAME = 'tcpsim.html'
# Where `make page` writes it, and where who has it from a release may have put it.
PLACES = (os.path.join(TOP, 'out', 'page', NAME), NAME)


def text_of(page: str | os.PathLike | None) -> str:
    """The page's text, of the file that is named, else of the first place that has one."""
    path = os.fspath(page) if page else next(filter(os.path.isfile, PLACES), None)
    if path is None:
        raise Error(f'the page {NAME} is not there: write it with `make page`, or name its file, as explore(page="{NAME}")')
    with open(path, encoding='utf-8') as file:
        text = file.read()
    if '<html' not in text or 'id="program"' not in text:
        raise Error(f'{path} is not the page with the simulator')
    return text


def packed(text: str) -> str:
    """A text as a shared address has it: deflated, in base64 for addresses."""
    deflate = zlib.compressobj(9, zlib.DEFLATED, -15)
    return base64.urlsafe_b64encode(deflate.compress(text.encode()) + deflate.flush()).decode().rstrip('=')


def fragment(net: ScenarioText, view: str, event: int | None, shelf: str) -> str:
    """What the page shares of this scenario, this view, this event and this shelf."""
    given = {'name': net.name, 'view': view, 'event': event, 'shelf': shelf, 'scenario': packed(net.text)}
    return '#' + urllib.parse.urlencode({name: value for name, value in given.items() if value})


def explore(net: ScenarioText, file: str | os.PathLike | None, view: str, event: int | None, shelf: str,
            page: str | os.PathLike | None) -> ExplorePage:
    """The page with this scenario. A notebook shows it; elsewhere a browser opens the file, one of its own if none is named."""
    with as_api():
        shared = html.escape(fragment(net, view, event, shelf))
        text = text_of(page).replace('<html', f'<html data-shared="{shared}"', 1)
        path = None if file is None else os.fspath(file)
        if path is None and notebook() is None:
            path = os.path.join(tempfile.mkdtemp(prefix='tcpsim-'), NAME)
        if path is not None:
            with output.written(path) as out:
                out.write(text)
    if file is None and path is not None:
        webbrowser.open(f'file://{urllib.parse.quote(path)}')
    return ExplorePage(text, net.name, path)
