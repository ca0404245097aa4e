"""What a notebook shows: a picture, a page. Elsewhere nothing is shown."""
from __future__ import annotations

import html
import io
import os
import sys
from typing import TYPE_CHECKING, Any

from tcpsim.api.errors import as_api

if TYPE_CHECKING:
    from matplotlib.figure import Figure

MOST_IN_A_NOTEBOOK = 20 * 10**6     # bytes of a page that a notebook takes into itself
# A frame in a notebook has no address of its own in which the page could note where it is.
WITHOUT_ADDRESS = '<script>History.prototype.replaceState = function () {};</script>'


def notebook() -> Any:
    """IPython's shell where this is a notebook; else None."""
    ipython = sys.modules.get('IPython')
    shell = ipython and ipython.get_ipython()
    return shell if shell is not None and hasattr(shell, 'kernel') else None


class Shown:
    """Shown by a notebook at once, whether or not its call is the last of the cell, and once in a cell."""

    _cell: int | None = None

    def _show(self) -> None:
        shell = notebook()
        if shell is not None and self._cell != shell.execution_count:
            from IPython.display import display
            self._cell = shell.execution_count
            display(self._bundle(), raw=True)

    def _ipython_display_(self) -> None:
        if notebook() is None:
            print(repr(self))
        else:
            self._show()

    def _bundle(self) -> dict:
        """What is shown, by its MIME type."""
        raise NotImplementedError


class PlottedRun(Shown):
    """A picture of a run: `figure` is matplotlib's."""

    def __init__(self, figure: Figure):
        self.figure = figure
        self._show()

    def save(self, path: str | os.PathLike) -> None:
        """Writes it as .png, .svg or .pdf, by the file's ending. Wrong where it has another."""
        from tcpsim import plot
        from tcpsim.plot.choice import picture_file
        with as_api():
            plot.save(self.figure, picture_file(os.fspath(path)))

    def _bundle(self) -> dict:
        import base64
        png = io.BytesIO()
        self.figure.savefig(png, format='png', dpi=75)
        return {'image/png': base64.b64encode(png.getvalue()).decode(), 'text/plain': repr(self)}

    def __repr__(self) -> str:
        titles = [title for axes in self.figure.get_axes() if (title := axes.get_title(loc='left') or axes.get_title())]
        return f'<a picture: {"; ".join(titles)}>'


class Page(Shown):
    """A page: its `text`, and `path` where it is a file."""

    def __init__(self, text: str, path: str | None = None):
        self.text, self.path = text, path
        self._show()

    def _bundle(self) -> dict:
        if len(self.text) > MOST_IN_A_NOTEBOOK and self.path:
            frame = f'src="{html.escape(self.path)}"'
        else:
            frame = f'srcdoc="{html.escape(self.text.replace("<head>", "<head>" + WITHOUT_ADDRESS, 1))}"'
        return {'text/html': f'<iframe {frame} style="width: 100%; height: 760px; border: 1px solid #ccc"></iframe>',
                'text/plain': repr(self)}

    def __repr__(self) -> str:
        return f'<{self._what()}, {len(self.text.encode()):,} bytes{f": {self.path}" if self.path else ""}>'

    def _what(self) -> str:
        raise NotImplementedError


class ReplayPage(Page):
    """A page on which a run of `events` events moves."""

    def __init__(self, text: str, events: int, path: str | None = None):
        self.events = events
        super().__init__(text, path)

    def _what(self) -> str:
        return f'a page of {self.events:,} events'


class ExplorePage(Page):
    """The page with the simulator, which opens with a scenario of this `name`."""

    def __init__(self, text: str, name: str, path: str | None = None):
        self.name = name
        super().__init__(text, path)

    def _what(self) -> str:
        return f'the page with {self.name}'
