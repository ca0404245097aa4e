"""Writes a picture. The same run gives the same SVG to the byte, with the same matplotlib."""
from __future__ import annotations

import io
import os
import re

import matplotlib
from matplotlib.figure import Figure

from tcpsim import output

from .drawn import drawn

PRINT = 300             # dots an inch of a .png that has a size in print
WIDTH = {10: 1400}      # pixels of a .png by the picture's width in inches; of another 100 an inch


def save(figure: Figure, path: str, dots: int = 0) -> None:
    """Writes the picture into a file that ends in .png, .svg or .pdf; `OSError` where it cannot be written. A .png has this many dots an
    inch, where they are given."""
    with output.opened(path) as file:
        file.write(content_of(figure, path, dots))


def content_of(figure: Figure, path: str, dots: int = 0) -> bytes:
    """The picture's bytes, of the sort that the path's ending names; an SVG says in its description what it shows."""
    ending = os.path.splitext(path)[1]
    plain = {'.svg': {'Date': None, 'Creator': None}, '.pdf': {'CreationDate': None}, '.png': {}}[ending]
    content, wide = io.BytesIO(), figure.get_size_inches()[0]
    if ending == '.svg':
        plain['Description'] = '\n'.join(drawn(figure))
    with matplotlib.rc_context({'svg.hashsalt': 'tcpsim', 'pdf.fonttype': 42}):       # letters as TrueType, embedded
        figure.savefig(content, format=ending[1:], dpi=dots or WIDTH.get(wide, 100 * wide) / wide, metadata=plain)
    content = content.getvalue()
    if ending == '.svg':
        content = re.sub(r' d="[^"]*"', shorter, content.decode('utf-8')).encode('utf-8')
    return content


def shorter(found: re.Match[str]) -> str:
    """A path of an SVG in fewer bytes: points to a hundredth, and a step as `H` or `V` where it is one."""
    path = re.sub(r'\d+\.\d{3,}', lambda number: f'{float(number[0]):.2f}'.rstrip('0').rstrip('.'), found[0])
    if re.search(r'[A-KN-Za-km-z]', path[3:]):
        return path
    words, here = [], (None, None)
    for kind, *point in re.findall(r'([ML]) (\S+) ([^\s"]+)', path):
        if kind == 'L' and point[0] == here[0]:
            words.append('V' + point[1])
        elif kind == 'L' and point[1] == here[1]:
            words.append('H' + point[0])
        else:
            words.append(f'{kind}{point[0]} {point[1]}')
        here = point
    return f' d="{"".join(words)}"'
