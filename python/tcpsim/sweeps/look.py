"""How the picture of a sweep looks: what its words are, and what they refuse. Nothing but Python's standard library."""
from __future__ import annotations

import re
from collections.abc import Sequence
from typing import NamedTuple

from tcpsim.command_line import Wrong
from tcpsim.sweeps.pattern import Setting
from tcpsim.sweeps.shown import along

KINDS = 'mean', 'cdf', 'box'
SIZES = 30, 1_000       # mm


class Look(NamedTuple):
    """`x` is the setting whose values are across, `log` has the axes by powers of ten, `share` asks for the same axes in each panel,
    `width` and `height` are mm, and `kind` is what is drawn of replicates."""

    x: str | None = None
    log: str = ''
    share: bool = False
    width: float | None = None
    height: float | None = None
    kind: str = KINDS[0]

    def place_of_x(self, settings: Sequence[Setting]) -> int | None:
        """Which of these settings is across; of pq.delay also pq+qp.delay. Wrong where there is none."""
        if not self.x:
            return None
        name, _, field = self.x.rpartition('.')
        for number, each in enumerate(settings):
            if each.key == self.x or name in each.names and each.field == field:
                return number
        raise Wrong(f'--x {self.x}: there is no such --set, only {", ".join(each.key for each in settings) or "none"}')


def look_of(x: str | None, log: str | None, share: bool, size: str | None, kind: str | None) -> Look:
    """The look that words ask for, or Wrong."""
    if log and not set(log) <= set('xy'):
        raise Wrong(f'--log {log}: write x, y or xy')
    if kind and kind not in KINDS:
        raise Wrong(f'--kind {kind}: write {", ".join(KINDS)}')
    width: float | None = None
    height: float | None = None
    if size:
        found = re.fullmatch(r'(\d{1,4})(?:x(\d{1,4}))?mm', size)
        width, height = (float(it) if it else None for it in found.groups()) if found else (None, None)
        if not found or any(it is not None and not SIZES[0] <= it <= SIZES[1] for it in (width, height)):
            raise Wrong(f'--size {size}: write 85mm or 180x120mm, from {SIZES[0]} to {SIZES[1]:,} mm')
    return Look(x, log or '', share, width, height, kind or KINDS[0])


class Places(NamedTuple):
    """Which of the settings that are chosen are along a line, of which a line is each value, and which are rows and columns of panels."""

    at: int | None
    line: int | None
    row: int | None
    columns: list[int]


def places_of(settings: Sequence[Setting], look: Look) -> Places:
    """Where each setting is: the first that is left is in rows, the others in columns; a single one in columns alone."""
    varied = [n for n, each in enumerate(settings) if len(each.values) > 1]
    at = look.place_of_x(settings)
    at = along(settings) if at is None and settings else at
    rest = [n for n in varied if n != at]
    line = next((n for n in rest if settings[n].field == 'queue'), rest[0] if rest else None) if look.x else None
    rest = [n for n in rest if n != line]
    return Places(at, line, *((rest[0], rest[1:]) if len(rest) > 1 else (None, rest)))


def panel_count(settings: Sequence[Setting], look: Look) -> int:
    """How many panels a picture has."""
    places, count = places_of(settings, look), 1
    for n in [*places.columns, *([] if places.row is None else [places.row])]:
        count *= len(settings[n].values)
    return count
