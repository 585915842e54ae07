#!/usr/bin/env python3
"""Runs crews of 2 to 64 lanes on scripts of thousands of lines, and checks that some order of the lines gives the same answers.

A script adds and removes four disjoint sets of cells, each in one part of the sky or in up to twelve. Each line adds or removes whole sets.
So in every order of the lines each set is contained or disjoint, and no answer may report a piece of a set. Lines that change a set add and
remove it in turn. So the numbers of these changes and the cover at the end have to agree. The script does not check which line comes before
which.

The environment variable MOC has the path of the program; the default is the program of the checkout. The last line printed is
`N passed, M failed`."""
from __future__ import annotations

import os
import random
import subprocess
import sys
from collections.abc import Iterable

from tally import Tally

TOP = os.path.dirname(os.path.dirname(os.path.abspath(__file__)))
MOC = os.environ.get("MOC", os.path.join(TOP, "crates", "moc_cli", "out", "moc_cli"))
TIME_LIMIT = 300
LANES = [2, 3, 4, 8, 16, 64]
LINES = 3000
SEEDS = 2
# The number of pixels of a cell of order 5, and the number of these cells in a base pixel.
CELL_PIXELS, BASE_CELLS = 4 ** 24, 4 ** 5


class CellSet:
    """A set of one cell of order 5 in each of some base pixels, at the same place of each.

    Parameters
    ----------
    base_pixels : iterable of int
        The base pixels.
    place : int
        The number of the cell in its base pixel.
    """

    def __init__(self, base_pixels: Iterable[int], place: int) -> None:
        cells = [base_pixel * BASE_CELLS + place for base_pixel in base_pixels]
        self.text = "5/" + " ".join(map(str, cells))
        self.size = len(cells) * CELL_PIXELS

    def is_whole(self, pixels: int) -> bool:
        """Returns whether a number of pixels is that of the set. Raises ValueError if it is the number of a piece."""
        if pixels not in (0, self.size):
            raise ValueError(f"{pixels} pixels are a piece of {self.text}")
        return pixels == self.size


SETS = [CellSet(range(12), 7), CellSet([2, 3, 4], 9), CellSet([0, 11], 11), CellSet([5], 13)]
# The kinds of lines, each with a set in place of the braces.
LINE_FORMATS = {
    "add": "add {0}", "remove": "remove {0}", "count": "count {0}", "claim": "claim {0}", "read": "read {0}",
    "pass": "add {0} ; remove {0}", "fill": "count {0} ; add {0} ; count {0}",
}


def parse_number(answer: str, word: str) -> int:
    """Returns the number after this word. Raises ValueError for another answer."""
    first, _, value = answer.partition(" ")
    if first != word:
        raise ValueError(f"{answer!r} instead of {word!r}")
    return int(value)


def net_change(cells: CellSet, kind: str, answer: str) -> int:
    """Returns 1 if the answer reports that the line added the set, -1 if it removed the set, and 0 otherwise.

    Raises ValueError if no order of the lines gives this answer."""
    if kind == "add":
        return int(cells.is_whole(parse_number(answer, "changed")))
    if kind == "remove":
        return -int(cells.is_whole(parse_number(answer, "changed")))
    if kind == "count":
        cells.is_whole(parse_number(answer, "total"))
        return 0
    if kind == "claim":
        if answer == "claimed":
            return 1
        if not cells.is_whole(parse_number(answer, "taken")):
            raise ValueError(f"{answer!r} for a set that is not contained")
        return 0
    if kind == "read":
        if answer not in ("cover", f"cover {cells.text}"):
            raise ValueError(f"{answer!r} is a piece of {cells.text}")
        return 0
    replies = answer.split(" ; ")
    if kind == "pass":
        was_added = cells.is_whole(parse_number(replies[0], "changed"))
        if not cells.is_whole(parse_number(replies[1], "changed")):
            raise ValueError(f"{answer!r} does not remove what it added")
        return int(was_added) - 1
    before, was_added, after = (cells.is_whole(parse_number(reply, word))
                                for reply, word in zip(replies, ["total", "changed", "total"]))
    if before == was_added or not after:
        raise ValueError(f"{answer!r} counts what it did not add")
    return int(was_added)


def net_changes(script: list[tuple[CellSet, str]], answers: list[str]) -> dict[CellSet, int]:
    """Returns the number of additions of each set minus the number of its removals."""
    changes = dict.fromkeys(SETS, 0)
    for (cells, kind), answer in zip(script, answers, strict=True):
        changes[cells] += net_change(cells, kind, answer)
    return changes


def sets_of(cover: str) -> dict[CellSet, int]:
    """Returns 1 for each set that a cover contains, and 0 for each that is disjoint from it. Raises ValueError for a piece of a set."""
    lines = [f"add {cover.removeprefix('cover').strip()}"] + [f"count {cells.text}" for cells in SETS]
    result = subprocess.run([MOC, "run"], input="\n".join(lines), capture_output=True, text=True, timeout=TIME_LIMIT)
    answers = result.stdout.splitlines()[1:]
    return {cells: int(cells.is_whole(parse_number(answer, "total"))) for cells, answer in zip(SETS, answers, strict=True)}


def check_crew(lanes: int, seed: int) -> None:
    """Runs a crew on a random script. Raises ValueError if no order of its lines gives the same answers."""
    rng = random.Random(seed)
    script = [(rng.choice(SETS), rng.choice(list(LINE_FORMATS))) for _ in range(LINES)]
    text = "".join(LINE_FORMATS[kind].format(cells.text) + "\n" for cells, kind in script)
    result = subprocess.run([MOC, "crew", str(lanes)], input=text, capture_output=True, text=True, timeout=TIME_LIMIT)
    if result.returncode:
        raise ValueError(f"status {result.returncode}, {result.stderr!r}")
    *answers, cover = result.stdout.splitlines()
    if net_changes(script, answers) != sets_of(cover):
        raise ValueError("the sets of the cover are not those that were added and not removed")


def main() -> int:
    """Runs all crews."""
    tally = Tally()
    for lanes in LANES:
        for seed in range(SEEDS):
            failure = ""
            try:
                check_crew(lanes, seed)
            except ValueError as error:
                failure = str(error)
            tally.check(not failure, f"{lanes} lanes, seed {seed}: {failure}")
    return tally.finish()


if __name__ == "__main__":
    sys.exit(main())
