#!/usr/bin/env python3
"""Unites the coverages of many catalogues in the workers of a Dask cluster, and looks pixels up in the union.

usage: examples/dask_union.py [--catalogues N] [--rows N] [--pixels N] [--workers N]

Needs dask, distributed and numpy, and the package ploverchaise in the search path. Each catalogue is simulated: replace
`cells_of_catalogue` by a function that reads a file. The union is a future, so it goes from worker to worker, and is neither in a task
graph nor in this process. The results and the times are printed in JSON."""
from __future__ import annotations

import argparse
import json
import time
from typing import Any

import numpy
from distributed import Client, LocalCluster, wait

from ploverchaise import MOC

ORDER = 9
# The number of coverages that one task unites. Each level of the tree has this part of the coverages of the level before.
FAN_IN = 8
# The number of pixels that one task looks up.
PIECE = 1_000_000


def cells_of_catalogue(number: int, rows: int) -> Any:
    """Returns the cells of the rows of a catalogue, which are random cells of a part of the sky."""
    rng = numpy.random.default_rng(number)
    field = 12 * 4**ORDER // 64
    return rng.integers(0, field, rows) + field * (number % 48)


def coverage(number: int, rows: int) -> MOC:
    """Returns the coverage of a catalogue."""
    return MOC.from_healpix_cells(cells_of_catalogue(number, rows), ORDER)


def unite(*coverages: MOC) -> MOC:
    """Returns the union of coverages."""
    return MOC.union_all(coverages)


def random_pixels(number: int, count: int) -> Any:
    """Returns random pixels of the sky."""
    return numpy.random.default_rng([number, 29]).integers(0, 12 * 4**29, count)


def count_inside(union: MOC, number: int, count: int) -> int:
    """Returns how many of the random pixels are in a coverage."""
    return int(union.contains(random_pixels(number, count)).sum())


def unite_by_tree(client: Client, level: list[Any]) -> Any:
    """Returns the future of the union of the coverages of futures. No task waits for more than FAN_IN others."""
    while len(level) > 1:
        level = [client.submit(unite, *level[start:start + FAN_IN]) for start in range(0, len(level), FAN_IN)]
    return level[0]


def pieces(count: int) -> list[int]:
    """Returns the sizes of the pieces of a number of pixels."""
    return [min(PIECE, count - start) for start in range(0, count, PIECE)]


def run(client: Client, catalogues: int, rows: int, pixels: int) -> dict[str, float]:
    """Returns the number of cells of the union, the number of pixels in it, and the times of both steps in seconds."""
    start = time.perf_counter()
    union = unite_by_tree(client, client.map(coverage, range(catalogues), rows=rows))
    wait(union)
    united = time.perf_counter()
    counts = [client.submit(count_inside, union, number, size) for number, size in enumerate(pieces(pixels))]
    inside = sum(client.gather(counts))
    ended = time.perf_counter()
    cells = client.submit(MOC.count, union).result() // 4**(29 - ORDER)
    return {"cells": cells, "inside": inside, "seconds to unite": united - start, "seconds to look up": ended - united}


def main() -> None:
    """Runs the example on a cluster of processes of this machine."""
    parser = argparse.ArgumentParser(description="Unites coverages in the workers of a Dask cluster.")
    for name, default in (("catalogues", 200), ("rows", 10_000), ("pixels", 10_000_000), ("workers", 4)):
        parser.add_argument(f"--{name}", type=int, default=default)
    options = parser.parse_args()
    with LocalCluster(n_workers=options.workers, threads_per_worker=1, processes=True, dashboard_address=None) as cluster, \
            Client(cluster) as client:
        print(json.dumps(run(client, options.catalogues, options.rows, options.pixels)))


if __name__ == "__main__":
    main()
