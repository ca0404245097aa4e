"""Percentiles of numbers, however many there are, and Student's t. Nothing but Python's standard library."""
from __future__ import annotations

import os
import statistics
import tempfile
from array import array
from collections import Counter
from collections.abc import Iterable, Iterator
from typing import IO

from tcpsim import output

# Student's t at 0.975, of 1 to 30 degrees of freedom; beyond them its expansion by the normal law is as good.
T = (12.7062047, 4.3026527, 3.1824463, 2.7764451, 2.5705818, 2.4469119, 2.3646243, 2.3060041, 2.2621572, 2.2281389, 2.2009852,
     2.1788128, 2.1603687, 2.1447867, 2.1314495, 2.1199053, 2.1098156, 2.1009220, 2.0930241, 2.0859634, 2.0796138, 2.0738731,
     2.0686576, 2.0638986, 2.0595386, 2.0555294, 2.0518305, 2.0484071, 2.0452296, 2.0422725)


def student(freedom: int) -> float:
    """Student's t at 0.975, by the degrees of freedom (Abramowitz and Stegun, 26.7.5)."""
    if freedom <= len(T):
        return T[freedom - 1]
    x = statistics.NormalDist().inv_cdf(.975)
    return x + (x**3 + x) / (4 * freedom) + (5 * x**5 + 16 * x**3 + 3 * x) / (96 * freedom**2) + (
        3 * x**7 + 19 * x**5 + 17 * x**3 - 15 * x) / (384 * freedom**3) + (
        79 * x**9 + 776 * x**7 + 1482 * x**5 - 1920 * x**3 - 945 * x) / (92160 * freedom**4)


def percentile(values: Iterable[int], percent: int) -> int | None:
    """The least value that at least `percent` in a hundred of the values do not exceed (nearest rank);
    None of no values."""
    ranked = sorted(values)
    return ranked[max(0, -(-percent * len(ranked) // 100) - 1)] if ranked else None


class Sample:
    """Numbers not below 0, of which percentiles are asked for. `recent` takes them; `spill` puts them into a
    file, so that no run is too long for the memory."""

    def __init__(self, file: IO[bytes]):
        self.recent: array[int] = array('q')
        self._file = file
        self._parts: list[tuple[int, int]] = []     # in the file: where each begins, and how many numbers it has

    def spill(self) -> None:
        """Puts the recent numbers into the file."""
        if self.recent:
            with output.named(tempfile.gettempdir()):
                self._parts.append((self._file.seek(0, os.SEEK_END), len(self.recent)))
                self.recent.tofile(self._file)
            del self.recent[:]

    def clear(self) -> None:
        """Forgets all numbers."""
        self._parts = []
        del self.recent[:]

    def least(self) -> int | None:
        """The least number; None of none."""
        return min((min(portion) for portion in self._portions() if portion), default=None)

    def percentile(self, percent: int) -> int | None:
        """As `percentile` above. Where the numbers stand in a file, those that fall into each of 65,536
        cells are counted, and then again within the cell that has the rank, until a cell is one number."""
        if not self._parts:
            return percentile(self.recent, percent)
        rank = max(0, -(-percent * sum(map(len, self._portions())) // 100) - 1)
        low, high, width = 0, 1 + max(max(portion, default=0) for portion in self._portions()), 2
        while width > 1:
            width = -(-(high - low) // 65_536)
            counts: Counter[int] = Counter()
            for portion in self._portions():
                counts.update([(n - low) // width for n in portion if low <= n < high])
            for cell in sorted(counts):
                if rank < counts[cell]:
                    break
                rank -= counts[cell]
            low, high = low + cell * width, min(high, low + (cell + 1) * width)
        return low

    def _portions(self) -> Iterator[array[int]]:
        for at, count in self._parts:
            self._file.seek(at)
            portion = array('q')
            portion.fromfile(self._file, count)
            yield portion
        yield self.recent


class Classes:
    """How many numbers not below 0 there are of each class, as `tcpsim figures` counts them (docs/FORMATS.md, "Percentiles").
    The room for it has a bound. A number below 64 is a class; from there on each doubling has 32."""

    def __init__(self) -> None:
        self._counts: Counter[int] = Counter()      # of each class, by its greatest number
        self._greatest = 0

    def add(self, number: int) -> None:
        """Counts a number."""
        shift = max(0, number.bit_length() - 6)
        self._counts[((number >> shift) + 1 << shift) - 1] += 1
        self._greatest = max(self._greatest, number)

    def clear(self) -> None:
        """Forgets all numbers."""
        self._counts.clear()
        self._greatest = 0

    def percentile(self, percent: int) -> int | None:
        """The greatest number of the class that has the nearest rank, or of all where that is less; None of no numbers."""
        rank = -(-percent * sum(self._counts.values()) // 100)
        for top in sorted(self._counts):
            rank -= self._counts[top]
            if rank <= 0:
                return min(top, self._greatest)
        return None
