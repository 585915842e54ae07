#!/usr/bin/env python3
"""Writes the input files of the benchmarks into a folder, with the same bytes each time.

usage: bench/generate.py [FOLDER]

The default folder is `data`. The files are:

- `moc_a.txt`, `moc_b.txt`: A and B, about 1,000,000 cells each, of orders 12 to 14, in normal form.
- `moc_a.json`, `moc_a.uniq`: A in the two other formats.
- `load_a.script`, `union.script` and other scripts: the same operations as scripts for `moc run`, with lines below 1,048,576 bytes.
- `adds.txt`, `adds.script`: 100,000 random cells of order 13; after each `add` the script counts the whole sky.
- `rising.script`, `falling.script`, `shuffled.script`: 400,000 adds of every second cell of order 12, in ascending, descending and mixed
  order.
- `deep100000.script`, `deep1000000.script`: this number of adds of a random cell of order 29.
- `near.script`, `adds_big.script`, `count_big.script`: 100,000 `near`, 10,000 `add`, and 100,000 `count` of one cell, after A is loaded.
- `play.script`: 20,000 operations for `moc play`, of five lines each.
- `expected.json`: the counts that each program has to find."""
from __future__ import annotations

import json
import os
import sys
from collections.abc import Iterable, Iterator, Sequence
from typing import Any

MAX_ORDER = 29
PIXELS = 12 * 4 ** MAX_ORDER
MASK = 2 ** 64 - 1
# The maximal number of bytes of a line of a script.
MAX_LINE = 1_000_000

# Ranges of pixels, each with its first pixel and the pixel after its last one.
Ranges = list[tuple[int, int]]


def splitmix64(seed: int) -> Iterator[int]:
    """Returns the random numbers that all benchmark programs use."""
    state = seed
    while True:
        state = (state + 0x9E3779B97F4A7C15) & MASK
        z = state
        z = ((z ^ (z >> 30)) * 0xBF58476D1CE4E5B9) & MASK
        z = ((z ^ (z >> 27)) * 0x94D049BB133111EB) & MASK
        yield z ^ (z >> 31)


def normalize(ranges: Iterable[tuple[int, int]]) -> Ranges:
    """Returns sorted ranges of the same pixels, with a gap between each and the next."""
    normal: Ranges = []
    for start, end in sorted(ranges):
        if normal and start <= normal[-1][1]:
            normal[-1] = (normal[-1][0], max(normal[-1][1], end))
        else:
            normal.append((start, end))
    return normal


def cells_by_order(ranges: Ranges) -> list[list[int]]:
    """Returns the minimal cells of a set, by their order."""
    by_order: list[list[int]] = [[] for _ in range(MAX_ORDER + 1)]
    for start, end in ranges:
        while start < end:
            levels = MAX_ORDER
            if start:
                levels = min(levels, ((start & -start).bit_length() - 1) // 2)
            levels = min(levels, ((end - start).bit_length() - 1) // 2)
            by_order[MAX_ORDER - levels].append(start >> (2 * levels))
            start += 1 << (2 * levels)
    return by_order


def ascii_items(numbers: list[int]) -> list[str]:
    """Returns sorted numbers as items of an ASCII text: consecutive numbers are a range."""
    items = []
    first = 0
    while first < len(numbers):
        last = first
        while last + 1 < len(numbers) and numbers[last + 1] == numbers[last] + 1:
            last += 1
        items.append(str(numbers[first]) if last == first else f"{numbers[first]}-{numbers[last]}")
        first = last + 1
    return items


def items_by_order(ranges: Ranges) -> list[tuple[int, list[str]]]:
    """Returns the orders of a set, each with its items of an ASCII text."""
    return [(order, ascii_items(cells)) for order, cells in enumerate(cells_by_order(ranges)) if cells]


def ascii_text(ranges: Ranges) -> str:
    """Returns the normal ASCII text of a set."""
    return " ".join(f"{order}/{' '.join(items)}" for order, items in items_by_order(ranges))


def script_lines(word: str, ranges: Ranges) -> list[str]:
    """Returns lines of a script, of limited length, that together name a set after this word."""
    lines = []
    line: list[str] = []
    size, last_order = 0, -1
    for order, items in items_by_order(ranges):
        for item in items:
            text = item if order == last_order else f"{order}/{item}"
            if size + len(text) + 1 > MAX_LINE - len(word):
                lines.append(f"{word} {' '.join(line)}\n")
                line, size = [], 0
                text = f"{order}/{item}"
            line.append(text)
            size += len(text) + 1
            last_order = order
    lines.append(f"{word} {' '.join(line)}\n")
    return lines


def complement(ranges: Ranges) -> Ranges:
    """Returns the complement of a set."""
    result, previous_end = [], 0
    for start, end in ranges:
        if previous_end < start:
            result.append((previous_end, start))
        previous_end = end
    if previous_end < PIXELS:
        result.append((previous_end, PIXELS))
    return result


def intersection(first: Ranges, second: Ranges) -> Ranges:
    """Returns the intersection of two sets."""
    result = []
    i = j = 0
    while i < len(first) and j < len(second):
        start, end = max(first[i][0], second[j][0]), min(first[i][1], second[j][1])
        if start < end:
            result.append((start, end))
        if first[i][1] < second[j][1]:
            i += 1
        else:
            j += 1
    return result


def count(ranges: Ranges) -> int:
    """Returns the number of pixels of a set."""
    return sum(end - start for start, end in ranges)


def random_ranges(numbers: Iterator[int], size: int, order: int, longest: int) -> Ranges:
    """Returns random ranges.

    Parameters
    ----------
    numbers : iterator of int
        Random numbers.
    size : int
        The number of ranges.
    order : int
        The order of the cells of the ranges.
    longest : int
        The maximal number of cells of a range.
    """
    width: int = 4 ** (MAX_ORDER - order)
    cells: int = 12 * 4 ** order
    ranges = []
    for _ in range(size):
        first = next(numbers) % cells
        ranges.append((first * width, min(cells, first + 1 + next(numbers) % longest) * width))
    return ranges


def make_sets() -> tuple[Ranges, Ranges]:
    """Returns A and B, which have common pixels, pixels next to each other, and pixels of their own."""
    def parts(seed: int) -> Ranges:
        return (random_ranges(splitmix64(seed), 120_000, 14, 5) + random_ranges(splitmix64(seed + 1), 100_000, 13, 1)
                + random_ranges(splitmix64(seed + 2), 70_000, 12, 1))

    common, own_a, own_b = parts(1), parts(4), parts(7)
    width = 4 ** (MAX_ORDER - 14)
    moved = []
    for start, end in common:
        # Half of the ranges of B are moved by one cell.
        step = end - start if end - start in (4 * width, 16 * width) else width
        moved.append((start, end) if (start // width // 16) % 2 or end + step > PIXELS else (start + step, end + step))
    return normalize(common + own_a), normalize(moved + own_b)


def summarize(ranges: Ranges) -> dict[str, Any]:
    """Returns the numbers of pixels, ranges and cells of a set."""
    by_order = cells_by_order(ranges)
    return {"pixels": count(ranges), "ranges": len(ranges), "cells": sum(map(len, by_order)),
            "by_order": {order: len(cells) for order, cells in enumerate(by_order) if cells}}


def summaries(a: Ranges, b: Ranges) -> dict[str, dict[str, Any]]:
    """Returns the numbers of A, of B, and of the results of operations on them."""
    found = {"a": summarize(a), "b": summarize(b), "union": summarize(normalize(a + b)), "intersection": summarize(intersection(a, b)),
             "difference": summarize(intersection(a, complement(b))), "complement": summarize(complement(a))}
    for order in (10, 13):
        width = 4 ** (MAX_ORDER - order)
        found[f"degrade{order}"] = summarize(normalize((start // width * width, -(-end // width) * width) for start, end in a))
    return found


def write_set_files(folder: str, a: Ranges, b: Ranges) -> None:
    """Writes A and B in all formats, and the scripts of operations on them."""
    load, count_sky = script_lines("add", a), ["count 0/0-11\n"]
    by_order = list(enumerate(cells_by_order(a)))
    objects = ",".join(f'"{order}":[{",".join(map(str, cells))}]' for order, cells in by_order if cells)
    write(folder, "moc_a.txt", [ascii_text(a)])
    write(folder, "moc_b.txt", [ascii_text(b)])
    write(folder, "moc_a.json", [f"{{{objects}}}"])
    write(folder, "moc_a.uniq", [f"{4 ** (order + 1) + index}\n" for order, cells in by_order for index in cells])
    write(folder, "empty.script", [])
    write(folder, "load_a.script", load + count_sky)
    write(folder, "union.script", load + script_lines("add", b) + count_sky)
    write(folder, "difference.script", load + script_lines("remove", b) + count_sky)
    write(folder, "count_b.script", load + script_lines("count", b))
    write(folder, "complement.script", [*load, "invert\n", *count_sky])
    write(folder, "degrade.script", [*load, "degrade 10\n", *count_sky])
    write(folder, "write.script", [*load, "read 0/0-11\n"])


def write_cell_files(folder: str, a: Ranges) -> int:
    """Writes the scripts of single cells, and returns the number of different cells of `adds.script`."""
    load, count_sky = script_lines("add", a), ["count 0/0-11\n"]
    numbers = splitmix64(10)
    cells = [next(numbers) % (12 * 4 ** 13) for _ in range(100_000)]
    write(folder, "adds.txt", [f"{cell}\n" for cell in cells])
    write(folder, "adds.script", [f"add 13/{cell}\ncount 0/0-11\n" for cell in cells])
    write(folder, "adds_only.script", [*(f"add 13/{cell}\n" for cell in cells), *count_sky])
    write(folder, "adds_count_cell.script", [f"add 13/{cell}\ncount 13/{cell}\n" for cell in cells])
    every_second = [f"add 12/{2 * index}\n" for index in range(400_000)]
    write(folder, "rising.script", every_second + count_sky)
    write(folder, "falling.script", every_second[::-1] + count_sky)
    write(folder, "shuffled.script", [every_second[index * 2_654_435_761 % 400_000] for index in range(400_000)] + count_sky)
    write(folder, "near.script", [*load, *(f"near 13 {next(numbers) % (12 * 4 ** 13)}\n" for _ in range(100_000))])
    write(folder, "adds_big.script", [*load, *(f"add 13/{cell}\n" for cell in cells[:10_000]), *count_sky])
    write(folder, "count_big.script", [*load, *(f"count 13/{cell}\n" for cell in cells), *count_sky])
    part_cells = 4 ** 13
    write(folder, "play.script", [f"begin 1 add 13/{cell}\ntake 1\nedit 1 {cell // part_cells}\ngive 1 {cell // part_cells}\nend 1\n"
                                  for cell in cells[:20_000]])
    numbers = splitmix64(11)
    pixels = [f"add 29/{next(numbers) % PIXELS}\n" for _ in range(1_000_000)]
    for size in (100_000, 1_000_000):
        write(folder, f"deep{size}.script", pixels[:size] + count_sky)
    return len(set(cells))


def write(folder: str, name: str, texts: Sequence[str]) -> None:
    """Writes a file."""
    with open(os.path.join(folder, name), "w", encoding="ascii") as file:
        file.writelines(texts)


def main() -> None:
    """Writes all files, and prints the expected counts."""
    folder = sys.argv[1] if len(sys.argv) > 1 else "data"
    os.makedirs(folder, exist_ok=True)
    a, b = make_sets()
    expected = summaries(a, b)
    write_set_files(folder, a, b)
    cell_count = write_cell_files(folder, a)
    expected["adds"] = {"pixels": cell_count * 4 ** (MAX_ORDER - 13), "cells_of_order_13": cell_count}
    write(folder, "expected.json", [json.dumps(expected, indent=1)])
    for name, counts in expected.items():
        print(name, counts)


if __name__ == "__main__":
    main()
