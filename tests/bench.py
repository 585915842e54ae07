#!/usr/bin/env python3
"""Runs each operation of `moc_bench` once on a small input, and compares its checksum with that of a model.

In the model, sets of pixels are lists of ranges. Cell numbers are converted by the formulas of HEALPix, and adjacent cells are found by the
corner points that they share. The last line printed is `N passed, M failed`."""
from __future__ import annotations

import math
import os
import subprocess
import sys
from collections.abc import Iterator

from tally import Tally

TOP = os.path.dirname(os.path.dirname(os.path.abspath(__file__)))
BENCH = os.path.join(TOP, "crates", "moc_bench", "out", "moc_bench")
TIME_LIMIT = 60
MAX_ORDER = 29
PIXELS = 12 * 4**MAX_ORDER
# The cells of a coverage: for each order, ranges of indices with their last index.
Cells = dict[int, list[tuple[int, int]]]
FIRST: Cells = {3: [(0, 10), (700, 767)], 7: [(11264, 11300)], 13: [(150_000_000, 150_000_321)], 29: [(5 << 56, (5 << 56) + 77)]}
SECOND: Cells = {2: [(2, 5)], 3: [(90, 701)], 11: [(11_534_400, 11_534_402)], 13: [(150_000_017, 150_000_600)], 29: [(9, 9)]}
# The rows of the south corners of the base pixels, and the columns of their centers, in halves of a base pixel.
ROWS = (2, 2, 2, 2, 3, 3, 3, 3, 4, 4, 4, 4)
COLUMNS = (1, 3, 5, 7, 0, 2, 4, 6, 1, 3, 5, 7)
NUMBERS = 500
OPERATIONS = 1_000

# Ranges of pixels, each with its first pixel and the pixel after its last one.
Ranges = list[tuple[int, int]]
# The row of a corner point of cells, and its position in the row.
Point = tuple[int, int]


def text_of(cells: Cells) -> str:
    """Returns the ASCII text of these cells."""
    return " ".join(f"{order}/" + " ".join(f"{first}-{last}" for first, last in runs) for order, runs in cells.items())


def normalize(ranges: Ranges) -> Ranges:
    """Returns sorted ranges of the same pixels, with a gap between each and the next."""
    normal: Ranges = []
    for start, end in sorted(ranges):
        if normal and start <= normal[-1][1]:
            normal[-1] = (normal[-1][0], max(normal[-1][1], end))
        elif start < end:
            normal.append((start, end))
    return normal


def ranges_of(cells: Cells) -> Ranges:
    """Returns the ranges of the pixels of these cells."""
    return normalize([(first << 2 * (MAX_ORDER - order), last + 1 << 2 * (MAX_ORDER - order))
                      for order, runs in cells.items() for first, last in runs])


def complement(ranges: Ranges) -> Ranges:
    """Returns the complement of a set."""
    bounds = [0, *(bound for pair in ranges for bound in pair), PIXELS]
    return [(bounds[i], bounds[i + 1]) for i in range(0, len(bounds), 2) if bounds[i] < bounds[i + 1]]


def intersection(first: Ranges, second: Ranges) -> Ranges:
    """Returns the intersection of two sets."""
    return normalize([(max(a, c), min(b, d)) for a, b in first for c, d in second if max(a, c) < min(b, d)])


def degrade(ranges: Ranges, order: int) -> Ranges:
    """Returns the pixels of all cells of an order that a set meets."""
    size: int = 4 ** (MAX_ORDER - order)
    return normalize([(start // size * size, -(-end // size) * size) for start, end in ranges])


def count(ranges: Ranges) -> int:
    """Returns the number of pixels of a set."""
    return sum(end - start for start, end in ranges)


def cells_of(ranges: Ranges) -> list[tuple[int, int]]:
    """Returns the minimal cells of a set, each with its order and its index."""
    cells = []
    for start, end in ranges:
        while start < end:
            order = 0
            while start % 4 ** (MAX_ORDER - order) or start + 4 ** (MAX_ORDER - order) > end:
                order += 1
            cells.append((order, start >> 2 * (MAX_ORDER - order)))
            start += 4 ** (MAX_ORDER - order)
    return sorted(cells)


def ascii_of(ranges: Ranges) -> str:
    """Returns the normal ASCII text of a set: each order once, and consecutive cells as a range."""
    runs: list[tuple[int, int, int]] = []
    for order, index in cells_of(ranges):
        if runs and runs[-1][0] == order and runs[-1][2] + 1 == index:
            runs[-1] = (order, runs[-1][1], index)
        else:
            runs.append((order, index, index))
    words = []
    for position, (order, first, last) in enumerate(runs):
        is_first = position == 0 or runs[position - 1][0] != order
        words.append((f"{order}/" if is_first else "") + (f"{first}-{last}" if first < last else f"{first}"))
    return " ".join(words)


def json_of(ranges: Ranges) -> str:
    """Returns the JSON text of a set."""
    orders: dict[int, list[int]] = {}
    for order, index in cells_of(ranges):
        orders.setdefault(order, []).append(index)
    return "{" + ",".join(f'"{order}":[{",".join(map(str, cells))}]' for order, cells in orders.items()) + "}"


def random_numbers(limit: int) -> Iterator[int]:
    """Returns random numbers below a limit, by splitmix64 with the seed 42."""
    state, mask = 42, 2**64 - 1
    while True:
        state = state + 0x9E3779B97F4A7C15 & mask
        z = (state ^ state >> 30) * 0xBF58476D1CE4E5B9 & mask
        z = (z ^ z >> 27) * 0x94D049BB133111EB & mask
        yield (z ^ z >> 31) % limit


def face_xy(order: int, index: int) -> tuple[int, int, int]:
    """Returns the base pixel of a nested index, and the coordinates x and y in it."""
    inside = index % 4**order
    x = sum((inside >> 2 * bit & 1) << bit for bit in range(order))
    y = sum((inside >> 2 * bit + 1 & 1) << bit for bit in range(order))
    return index >> 2 * order, x, y


def nested_index(order: int, face: int, x: int, y: int) -> int:
    """Returns the nested index of a cell."""
    index: int = face * 4**order + sum((x >> bit & 1) << 2 * bit | (y >> bit & 1) << 2 * bit + 1 for bit in range(order))
    return index


def nest_to_ring(order: int, index: int) -> int:
    """Returns the ring number of a nested index, by the ring of the cell and its position in the ring."""
    side: int = 2**order
    face, x, y = face_xy(order, index)
    ring = ROWS[face] * side - x - y - 1
    if ring < side:
        length, before, shift = ring, 2 * ring * (ring - 1), 0
    elif ring > 3 * side:
        length = 4 * side - ring
        before, shift = 12 * side**2 - 2 * length * (length + 1), 0
    else:
        length, before, shift = side, 2 * side * (side - 1) + (ring - side) * 4 * side, ring - side & 1
    position = (COLUMNS[face] * length + x - y + 1 + shift) // 2
    position += 4 * side if position < 1 else 0
    return before + (position - 4 * side if position > 4 * side else position) - 1


def ring_to_nest(order: int, number: int) -> int:
    """Returns the nested index of a ring number, from the base pixels that the ring crosses."""
    side: int = 2**order
    cap, total = 2 * side * (side - 1), 12 * side**2
    if number < cap:
        ring = (1 + math.isqrt(1 + 2 * number)) // 2
        length, position, shift = ring, number + 1 - 2 * ring * (ring - 1), 0
    elif number < total - cap:
        ring = (number - cap) // (4 * side) + side
        length, position, shift = side, (number - cap) % (4 * side) + 1, ring + side & 1
    else:
        length = (1 + math.isqrt(2 * (total - number) - 1)) // 2
        ring, position, shift = 4 * side - length, 4 * length - (total - number - 1 - 2 * length * (length - 1)), 0
    for face in range(12):
        total_xy = ROWS[face] * side - ring - 1
        for turn in (-8 * side, 0, 8 * side):
            difference = 2 * position - COLUMNS[face] * length - 1 - shift + turn
            x, y = total_xy + difference >> 1, total_xy - difference >> 1
            if (total_xy + difference) % 2 == 0 and 0 <= x < side and 0 <= y < side:
                index = nested_index(order, face, x, y)
                if nest_to_ring(order, index) == number:
                    return index
    raise ValueError(number)


def corner_point(side: int, face: int, u: int, v: int) -> Point:
    """Returns a corner point of cells. In a polar cap, a row has as many positions as its distance from the pole."""
    row = ROWS[face] * side - u - v
    if face < 4 and row < side:
        return row, (face * row + side - v) % (4 * row) if row else 0
    if face >= 8 and row > 3 * side:
        distance = 4 * side - row
        return row, ((face - 8) * distance + u) % (4 * distance) if distance else 0
    return row, (COLUMNS[face] * side + u - v) % (8 * side)


def faces_at(side: int, point: Point) -> Iterator[tuple[int, int, int]]:
    """Returns each base pixel that has a corner point, and the coordinates of the point in it."""
    row, along = point
    for face in range(12):
        total = ROWS[face] * side - row
        if row < side or row > 3 * side:
            if face < 4 and row < side:
                v = side - (along - face * row) % (4 * row) if row else side
                places = [(total - v, v)]
            elif face >= 8 and row > 3 * side:
                distance = 4 * side - row
                u = (along - (face - 8) * distance) % (4 * distance) if distance else 0
                places = [(u, total - u)]
            else:
                continue
        else:
            differences = [along - COLUMNS[face] * side + turn for turn in (-8 * side, 0, 8 * side)]
            places = [(total + difference >> 1, total - difference >> 1) for difference in differences if (total + difference) % 2 == 0]
        for u, v in places:
            if 0 <= u <= side and 0 <= v <= side and corner_point(side, face, u, v) == point:
                yield face, u, v


def neighbours(order: int, index: int) -> set[int]:
    """Returns the cells that share a corner point with a cell."""
    side = 2**order
    face, x, y = face_xy(order, index)
    cells: set[int] = set()
    for point in {corner_point(side, face, x + i, y + j) for i in (0, 1) for j in (0, 1)}:
        for other, u, v in faces_at(side, point):
            cells |= {nested_index(order, other, u - i, v - j) for i in (0, 1) for j in (0, 1)
                      if 0 <= u - i < side and 0 <= v - j < side}
    return cells - {index}


def checksums() -> Iterator[tuple[str, int]]:
    """Returns each operation with its checksum."""
    first, second = ranges_of(FIRST), ranges_of(SECOND)
    yield "read_a", count(first)
    yield "count", count(first)
    yield "union", count(normalize(first + second))
    yield "intersection", count(intersection(first, second))
    yield "difference", count(intersection(first, complement(second)))
    yield "symmetric", count(intersection(first, complement(second))) + count(intersection(second, complement(first)))
    yield "complement", PIXELS - count(first)
    for order in (10, 13):
        yield f"degrade{order}", count(degrade(first, order))
    yield "write_ascii", len(ascii_of(first))
    yield "write_json", len(json_of(first))
    for order in (13, 29):
        random = random_numbers(12 * 4**order)
        numbers = [next(random) for _ in range(NUMBERS)]
        yield f"ring{order}", sum(nest_to_ring(order, number) for number in numbers) % 2**64
        yield f"nest{order}", sum(ring_to_nest(order, number) for number in numbers) % 2**64
        yield f"near{order}", sum(sum(neighbours(order, number)) for number in numbers) % 2**64
        random = random_numbers(2**64)
        border = [nested_index(order, next(random) % 12, 0, next(random) % 2**order) for _ in range(NUMBERS)]
        yield f"border{order}", sum(sum(neighbours(order, number)) for number in border) % 2**64
    yield "turns", OPERATIONS
    for clients in (10, 1_000, 100_000):
        yield f"rounds{clients}", OPERATIONS // clients * clients


def run_operation(name: str) -> tuple[int, list[str]]:
    """Runs an operation on the two coverages. Returns the exit status, and the fields of the line that it prints."""
    size = OPERATIONS if name.startswith(("turns", "rounds")) else NUMBERS
    texts = f"{text_of(FIRST)}\n{text_of(SECOND)}\n".encode()
    result = subprocess.run([BENCH, name, "1", str(size)], input=texts, stdout=subprocess.PIPE, stderr=subprocess.STDOUT,
                            timeout=TIME_LIMIT)
    return result.returncode, result.stdout.decode(errors="replace").split()


def main() -> int:
    """Checks all operations."""
    tally = Tally()
    for name, checksum in checksums():
        status, fields = run_operation(name)
        is_correct = status == 0 and len(fields) == 5 and fields[0] == name and fields[4] == str(checksum)
        tally.check(is_correct, f"{name}: status {status}, {' '.join(fields)}; the checksum is {checksum}")
    return tally.finish()


if __name__ == "__main__":
    sys.exit(main())
