#!/usr/bin/env python3
"""Times functions of the Python package, and in turn those of Python's sets, healpy, astropy-healpix and numpy if they are installed.

usage: bench/python.py [REPEATS [GROUP..]]

Needs numpy and the library in the folder of the package (`./moc library`). The groups are `small` calls, unions of `many` sets, `numbers`
of cells, and large `sets`, which need the input of `generate.py` in bench/data, which `run.sh` makes. By default all of them are timed. A
line has the task and, for each package, the minimal time in seconds and the time of Ploverchaise divided by it. The results are compared
before they are timed."""
from __future__ import annotations

import os
import sys
import time
from collections.abc import Callable, Iterable, Iterator
from functools import partial
from itertools import chain
from typing import Any

import numpy as numpy_module

TOP = os.path.dirname(os.path.dirname(os.path.abspath(__file__)))
sys.path.insert(0, os.path.join(TOP, "python"))
import ploverchaise  # noqa: E402
from ploverchaise import MOC, SharedMap  # noqa: E402

# The packages have different types in different versions, and none is checked.
numpy: Any = numpy_module
healpy: Any = None
astropy: Any = None
try:
    import healpy as healpy_module
    healpy = healpy_module
except ImportError:
    pass
try:
    from astropy_healpix import core as astropy_module
    astropy = astropy_module
except ImportError:
    pass

DATA = os.path.join(TOP, "bench", "data")
REPEATS = int(sys.argv[1]) if len(sys.argv) > 1 else 5
MANY, FEWER, SMALL_CALLS = 10_000_000, 1_000_000, 10_000
PIXELS = 12 * 4**29

# The packages that can do a task, each with its function.
Task = dict[str, Callable[[], Any]]


def sort_rows(cells: Any) -> Any:
    """Returns the adjacent cells of healpy or astropy-healpix, which are columns, as sorted rows of eight numbers."""
    return numpy.sort(numpy.asarray(cells).T, axis=1)


def number_tasks(order: int) -> Iterator[tuple[str, Task]]:
    """Returns the tasks on random cells of an order, each with its name."""
    rng = numpy.random.default_rng(2005)
    nside, cells = 2**order, rng.integers(0, 12 * 4**order, MANY)
    rings, some = ploverchaise.nest2ring(nside, cells), cells[:FEWER]
    task: Task = {"ploverchaise": lambda: ploverchaise.nest2ring(nside, cells)}
    if healpy:
        task["healpy"] = lambda: healpy.nest2ring(nside, cells)
    if astropy:
        task["astropy-healpix"] = lambda: astropy.nested_to_ring(cells, nside)
    yield f"ten million nest to ring, order {order}", task
    task = {"ploverchaise": lambda: ploverchaise.ring2nest(nside, rings)}
    if healpy:
        task["healpy"] = lambda: healpy.ring2nest(nside, rings)
    if astropy:
        task["astropy-healpix"] = lambda: astropy.ring_to_nested(rings, nside)
    yield f"ten million ring to nest, order {order}", task
    task = {"ploverchaise": lambda: ploverchaise.neighbours(some, order)}
    if healpy:
        task["healpy"] = lambda: healpy.get_all_neighbours(nside, some, nest=True)
    if astropy:
        task["astropy-healpix"] = lambda: astropy.neighbours(some, nside, order="nested")
    yield f"adjacent cells of a million, order {order}", task


def read_bytes(name: str) -> bytes:
    """Returns the bytes of an input file."""
    with open(os.path.join(DATA, name), "rb") as file:
        return file.read()


def search(bounds: Any, pixels: Any) -> Any:
    """Returns whether each pixel is in the ranges of these bounds, by numpy."""
    return numpy.searchsorted(bounds, pixels, side="right") % 2 == 1


def lookup_task(moc: MOC, bounds: Any, pixels: Any) -> Task:
    """Returns the task to look up pixels in a coverage."""
    return {"ploverchaise": lambda: moc.contains(pixels), "numpy": lambda: search(bounds, pixels)}


def set_tasks() -> Iterator[tuple[str, Task]]:
    """Returns the tasks on two large coverages, each with its name."""
    text = read_bytes("moc_a.txt")
    a, b = MOC.from_string(text), MOC.from_string(read_bytes("moc_b.txt"))
    bounds: Any = a.to_depth29_ranges.reshape(-1)
    pixels = numpy.random.default_rng(7).integers(0, PIXELS, MANY).astype("uint64")
    yield "ten million random pixels looked up", lookup_task(a, bounds, pixels)
    yield "ten million sorted pixels looked up", lookup_task(a, bounds, numpy.sort(pixels))
    functions: dict[str, Callable[[], Any]] = {
        "read A": lambda: MOC.from_string(text), "write A": a.to_string, "union": lambda: a | b, "intersection": lambda: a & b,
        "difference": lambda: a - b, "complement": lambda: ~a, "ranges of A": lambda: a.to_depth29_ranges,
        "A from its ranges": lambda: MOC.from_ranges(bounds.reshape(-1, 2))}
    for name, function in functions.items():
        yield name, {"ploverchaise": function}


def small_tasks() -> Iterator[tuple[str, Task]]:
    """Returns the tasks with small calls, each made `SMALL_CALLS` times, and the same calls of Python's sets of cells."""
    a, b, c = MOC.from_string("3/1-30"), MOC.from_string("4/7-90"), MOC.from_string("3/1-30")
    cells, other, same = set(range(4, 124)), set(range(7, 91)), set(range(4, 124))
    calls: dict[str, tuple[Callable[[], Any], Callable[[], Any]]] = {
        "contains(5)": (lambda: a.contains(5), lambda: 5 in cells), "5 in a": (lambda: 5 in a, lambda: 5 in cells),
        "a | b": (lambda: a | b, lambda: cells | other), "a == c, which are equal": (lambda: a == c, lambda: cells == same),
        "a <= b": (lambda: a <= b, lambda: cells <= other), "a.isdisjoint(b)": (lambda: a.isdisjoint(b), lambda: cells.isdisjoint(other)),
        "count": (a.count, lambda: len(cells)), "a set of 10 cells": (lambda: MOC.from_healpix_cells(ten, 9), lambda: set(ten))}
    ten = list(range(0, 1000, 100))
    for name, (ours, theirs) in calls.items():
        yield f"{SMALL_CALLS} times {name}", {"ploverchaise": partial(repeat, ours), "set": partial(repeat, theirs)}
    client = SharedMap(a).client()
    for line in ("count 3/5", "near 3 5"):
        yield f"{SMALL_CALLS} times {line} of a client", {"ploverchaise": partial(repeat, partial(client.apply, line))}


def many_tasks() -> Iterator[tuple[str, Task]]:
    """Returns the tasks with many sets."""
    numbers = numpy.random.default_rng(8)
    for title, order in (("1000 sets of 1000 cells", 13), ("1000 sets of 1000 cells, many of them in several sets", 8)):
        mocs = [MOC.from_healpix_cells(numbers.integers(0, 12 * 4**order, 1000), order) for _ in range(1000)]
        yield f"union_all of {title}", {"ploverchaise": partial(MOC.union_all, mocs)}
    sets = [set(numbers.integers(0, 12 * 4**13, 1000).tolist()) for _ in range(1000)]
    yield "union of 1000 sets of 1000 numbers", {"set": lambda: set().union(*sets)}


def repeat(call: Callable[[], Any]) -> None:
    """Makes a call `SMALL_CALLS` times."""
    for _ in range(SMALL_CALLS):
        call()


def is_equal(ours: Any, theirs: Any) -> bool:
    """Returns whether two results are equal. The other packages return adjacent cells in any order, and as columns."""
    if getattr(ours, "ndim", 0) == 2 and ours.shape[1] == 8:
        return bool(numpy.array_equal(ours, sort_rows(theirs)))
    return bool(numpy.array_equal(ours, theirs))


def minimal_times(task: Task) -> dict[str, float]:
    """Returns the minimal time of each package in seconds. The packages do the task in turn."""
    times = {name: float("inf") for name in task}
    for _ in range(REPEATS):
        for name, function in task.items():
            start = time.perf_counter()
            function()
            times[name] = min(times[name], time.perf_counter() - start)
    return times


GROUPS: dict[str, Callable[[], Iterable[tuple[str, Task]]]] = {
    "small": small_tasks, "many": many_tasks, "numbers": lambda: chain(number_tasks(13), number_tasks(29)), "sets": set_tasks}


def main() -> None:
    """Compares and times the tasks of the groups."""
    for title, task in chain.from_iterable(GROUPS[name]() for name in sys.argv[2:] or GROUPS):
        results = {name: function() for name, function in task.items()}
        first = next(iter(results))
        for name, result in results.items():
            if name != first and not is_equal(results[first], result):
                raise SystemExit(f"{title}: the result of {name} differs")
        times = minimal_times(task)
        texts = [f"{name} {seconds:.3g} ({times[first] / seconds:.2f})" for name, seconds in times.items()]
        print(f"{title:40}  {'  '.join(texts)}", flush=True)


if __name__ == "__main__":
    main()
