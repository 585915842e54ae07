"""Cells at the border of a MOC, its connected parts, and cells by their values."""
from __future__ import annotations

import math
from array import array
from bisect import bisect_right
from collections.abc import Iterable, Iterator
from typing import TYPE_CHECKING

from ._arrays import Input, to_list
from .cells import get_all_neighbours, neighbours, uniq2nest

if TYPE_CHECKING:
    from .moc import MOC

# The directions of the results of `get_all_neighbours` in which two cells have a side in common.
_SIDES = (0, 2, 4, 6)
_ALL_DIRECTIONS = range(8)


def border_cells(moc: MOC, order: int) -> tuple[list[int], set[int]]:
    """Returns the cells of an order on both sides of the border of a MOC, which is a union of cells of the order.

    A cell of the MOC can only be at the border if a larger cell around it touches one that is not wholly in the MOC. So the search goes
    from the base pixels to the order, and drops the other cells.

    Parameters
    ----------
    moc : MOC
        The MOC.
    order : int
        The order of the cells.

    Returns
    -------
    inside : list of int
        The cells in the MOC that touch a cell that is not.
    outside : set of int
        The cells not in the MOC that touch a cell that is.
    """
    inside: list[int] = []
    outside: set[int] = set()
    largest: dict[int, list[int]] = {}
    for depth, cell in moc.cells():
        largest.setdefault(depth, []).append(cell)
    for depth in range(order + 1):
        candidates = [4 * cell + child for cell in inside for child in range(4)] + largest.get(depth, [])
        rows = neighbours(candidates, depth)
        # The union of the cells of this order that are wholly in the MOC.
        whole = ~(~moc).degrade_to_order(depth)
        shift = 2 * (29 - depth)
        flags = iter(whole.contains([cell << shift for row in rows for cell in row]))
        missing = [[cell for cell in row if not next(flags)] for row in rows]
        inside = [cell for cell, row in zip(candidates, missing) if row]
        outside = {cell for row in missing for cell in row}
    return inside, outside


def components(uniqs: array[int], has_corners: bool) -> list[list[int]]:
    """Returns the NUNIQ numbers of the cells of each connected part of a MOC, by the first pixels of the parts.

    Parameters
    ----------
    uniqs : array of int
        The NUNIQ numbers of the cells of the MOC.
    has_corners : bool
        Whether cells are connected that touch only in a corner.
    """
    nsides, numbers = uniq2nest(to_list(uniqs))
    starts = [number << 2 * (30 - nside.bit_length()) for nside, number in zip(nsides, numbers)]
    cells = sorted(zip(starts, nsides, numbers, uniqs))
    firsts = [start for start, *_ in cells]
    ends = [start + (1 << 2 * (30 - nside.bit_length())) for start, nside, *_ in cells]
    parents = list(range(len(cells)))

    def find_root(position: int) -> int:
        while parents[position] != position:
            parents[position] = position = parents[parents[position]]
        return position

    # Of two cells that touch, the larger one contains a whole cell that touches the smaller one and has its size.
    for position, start, end in _touching_cells([(nside, number) for _, nside, number, _ in cells], has_corners):
        other = bisect_right(firsts, start) - 1
        if other >= 0 and end <= ends[other]:
            first, second = sorted((find_root(position), find_root(other)))
            parents[second] = first
    parts: dict[int, list[int]] = {}
    for position, (*_, uniq) in enumerate(cells):
        parts.setdefault(find_root(position), []).append(uniq)
    return list(parts.values())


def _touching_cells(cells: list[tuple[int, int]], has_corners: bool) -> Iterator[tuple[int, int, int]]:
    """Returns the position of each cell with the range of pixels of each cell of its order that touches it.

    Each cell is an nside and a nested number."""
    directions = _ALL_DIRECTIONS if has_corners else _SIDES
    by_nside: dict[int, list[int]] = {}
    for position, (nside, _) in enumerate(cells):
        by_nside.setdefault(nside, []).append(position)
    for nside, positions in by_nside.items():
        shift = 2 * (30 - nside.bit_length())
        columns = get_all_neighbours(nside, [cells[position][1] for position in positions])
        for direction in directions:
            yield from ((position, cell << shift, (cell + 1) << shift) for position, cell in zip(positions, columns[direction])
                        if cell >= 0)


def ranges_by_value(uniqs: Input, values: Iterable[float], order: int, sums: tuple[float, float], is_ascending: bool, is_strict: bool,
                    is_whole: bool, is_reversed: bool) -> list[tuple[int, int]]:
    """Returns the ranges of pixels of the cells between two sums of values, as `MOC.from_valued_healpix_cells` describes."""
    numbers = uniqs.to_list()
    weights = [float(value) for value in values]
    if len(numbers) != len(weights):
        raise ValueError(f"there are {len(weights)} values for {len(numbers)} cells")
    for place, weight in enumerate(weights):
        if not math.isfinite(weight) or weight < 0:
            raise ValueError(f"value {place} is {weight}, not a finite number from 0")
    nsides, cells = uniq2nest(numbers)
    densities = [weight * nside**2 for weight, nside in zip(weights, nsides)]
    ranges: list[tuple[int, int]] = []
    total = 0.0
    for place in sorted(range(len(cells)), key=densities.__getitem__, reverse=not is_ascending):
        before, total = total, total + weights[place]
        depth = nsides[place].bit_length() - 1
        first, end = cells[place] << 2 * (29 - depth), (cells[place] + 1) << 2 * (29 - depth)
        if total <= sums[0]:
            continue
        if before >= sums[0] and total <= sums[1]:
            ranges.append((first, end))
        elif before >= sums[1]:
            break
        elif not is_whole:
            low, high = ((limit - before) / weights[place] for limit in sums)
            ranges.append(_part_of_cell(first, end, max(order, depth), (low, high), is_strict, is_reversed))
        elif not is_strict:
            ranges.append((first, end))
    return ranges


def _part_of_cell(first: int, end: int, order: int, shares: tuple[float, float], is_strict: bool, is_reversed: bool) -> tuple[int, int]:
    """Returns the range of the cells of an order, in a cell with these pixels, between two shares of its value."""
    size = 4**(29 - order)
    count = (end - first) // size
    low, high = max(shares[0], 0.0) * count, min(shares[1], 1.0) * count
    start, stop = (math.ceil(low), math.floor(high)) if is_strict else (math.floor(low), math.ceil(high))
    if is_reversed:
        start, stop = count - stop, count - start
    return first + start * size, first + max(start, stop) * size
