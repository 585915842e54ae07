"""Draws a chart of the measurements in the tables of bench/README.md."""
from __future__ import annotations

import os
import re
from collections.abc import Iterator
from typing import NamedTuple

from generated import read
from svg import box, path, picture, text

BENCH = os.path.join("bench", "README.md")
# The columns of the time of the library, and of the ratio, in the tables that are drawn; the columns between have the times of peers.
LIBRARY, RATIO = "Library, ms", "Ratio to the fastest"
# The greatest difference between a ratio of the page and the ratio of the times of the page, which are rounded to three digits.
TOLERANCE = 0.0125
# What the chart writes for parts of the names of operations, so that they fit into its column.
SHORT = (("ten million", "10⁷"), (" of a million cells at the border of a base pixel", ", at a border"), ("a million cells", "10⁶"))
# The left end of the bars and of the column after them, the greatest ratio that has a place, and the length of a bar of ratio 1.
LEFT, RIGHT, MAX_RATIO = 236.0, 468.0, 2
SCALE = (RIGHT - 16 - LEFT) / MAX_RATIO


class Measurement(NamedTuple):
    """A row of a table.

    Attributes
    ----------
    operation : str
        What was measured.
    ours : float
        The time of the library.
    peers : dict of str to float
        The time of each peer that was measured, by its name.
    ratio : float
        The ratio that the table has.
    """

    operation: str
    ours: float
    peers: dict[str, float]
    ratio: float

    def fastest(self) -> str:
        """Returns the name of the fastest peer."""
        return min(self.peers, key=lambda name: self.peers[name])


def cells(line: str) -> list[str]:
    """Returns the cells of a row of a table."""
    return [cell.strip() for cell in line.strip("|").split("|")]


def tables() -> Iterator[list[Measurement]]:
    """Returns the tables of the page that have the columns LIBRARY and RATIO."""
    for block in re.findall(r"(?:^\|.*\n)+", read(BENCH), re.MULTILINE):
        head, _, *rows = (cells(line) for line in block.splitlines())
        if head[1:2] == [LIBRARY] and head[-1] == RATIO:
            yield [measurement(head, row) for row in rows]


def measurement(head: list[str], row: list[str]) -> Measurement:
    """Returns the measurement of a row. A cell of a peer that is not a number is left out."""
    peers = {name.removesuffix(", ms"): float(cell) for name, cell in zip(head[2:-1], row[2:-1]) if re.fullmatch(r"[\d.]+", cell)}
    return Measurement(row[0], float(row[1]), peers, float(row[-1]))


def wrong_ratios() -> list[str]:
    """Returns the operations whose ratio differs from that of their times."""
    return [it.operation for table in tables() for it in table if abs(it.ours / it.peers[it.fastest()] - it.ratio) > TOLERANCE]


def short_name(operation: str) -> str:
    """Returns the name of an operation as the chart writes it."""
    for words, figures in SHORT:
        operation = operation.replace(words, figures)
    return operation


def bar(y: float, it: Measurement) -> str:
    """Returns the bar of a measurement, the name of the operation before it, and the ratio and the peer after it."""
    width = min(it.ratio, MAX_RATIO) * SCALE
    style = "blue" if it.ratio < 1 else "orange"
    return (text(LEFT - 10, y + 12, short_name(it.operation), "right small") + box(LEFT, y, width, 16, style)
            + text(RIGHT, y + 12, f"{it.ratio:.2f} of {it.fastest()}", "left small"))


def draw_measurements() -> str:
    """Returns the chart of the ratios, with a line at 1. Raises ValueError if a table is missing."""
    groups = list(tables())
    if len(groups) < 2:
        raise ValueError(f"{BENCH}: a table with the columns {LIBRARY!r} and {RATIO!r} is missing")
    top = y = 40.0
    bars = ""
    for group in groups:
        for it in group:
            bars += bar(y, it)
            y += 22
        y += 12
    elements = text(12, 22, "Time of the library divided by the time of the fastest peer", "left title")
    for tick in range(2 * MAX_RATIO + 1):
        x = LEFT + tick / 2 * SCALE
        elements += path([(x, top - 6), (x, y - 8)], "thick" if tick == 2 else "line") + text(x, y + 10, f"{tick / 2:g}", "soft")
    elements += bars + text(12, y + 10, "Below 1 the library is faster.", "left soft")
    about = ("A bar for each operation of two tables of bench/README.md: the time of the library divided by the time of the fastest peer. "
             "After each bar are its ratio and the name of this peer.")
    return picture(int(y) + 22, "Measurements", about, elements)
