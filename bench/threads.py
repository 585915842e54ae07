#!/usr/bin/env python3
"""Measures how many calls of the Python package several threads make, compared with one thread.

usage: bench/threads.py [SECONDS]

Needs numpy and the library in the folder of the package (`./moc library`). Run it on a quiet machine with four processors. For each task,
the threads of a round repeat the call on the same sets for SECONDS, by default 1. There are three rounds for each number of threads, and
the round with the most calls counts. A line has the task, the time of a call on one thread in microseconds, and the number of calls of two
and of four threads in a second, divided by the number of one thread. The first task shows which ratios the machine permits.

In parentheses is the share of the time for which the threads waited for the GIL or for a lock, by Linux's statistics of the scheduler. It
does not count the time for which they waited for a processor. On a busy machine fewer threads run at once, so the share is smaller."""
from __future__ import annotations

import hashlib
import operator
import os
import sys
import threading
import time
from collections.abc import Callable, Iterator
from functools import partial
from itertools import chain
from typing import Any, NamedTuple

import numpy as numpy_module

TOP = os.path.dirname(os.path.dirname(os.path.abspath(__file__)))
sys.path.insert(0, os.path.join(TOP, "python"))
from ploverchaise import MOC, SharedMap, nest2ring  # noqa: E402

# NumPy has different types in different versions, and none is checked.
numpy: Any = numpy_module
SECONDS = float(sys.argv[1]) if len(sys.argv) > 1 else 1.0
THREADS, TURNS = (1, 2, 4), 3
RANDOM = numpy.random.default_rng(2005)

# A task with its name, and the call of each thread.
Task = tuple[str, list[Callable[[], object]]]


def random_moc(count: int, order: int) -> MOC:
    """Returns the set of random cells of an order."""
    return MOC.from_healpix_cells(RANDOM.integers(0, 12 * 4**order, count), order)


def common(title: str, call: Callable[[], object]) -> Task:
    """Returns a task with the same call on each thread."""
    return title, [call] * max(THREADS)


def reference_task() -> Task:
    """Returns a task that uses no lock and little memory. Its ratios are those that the machine permits."""
    return common("sha256 of 1 MiB, by hashlib", partial(hashlib.sha256, bytes(2**20)))


def array_tasks() -> Iterator[Task]:
    """Returns the tasks with long arrays, large sets and texts, which release the GIL."""
    for count, order in ((1000, 9), (100_000, 12), (1_000_000, 13)):
        a, b = random_moc(count, order), random_moc(count, order)
        yield common(f"union of two sets of {count} cells", partial(operator.or_, a, b))
        yield common(f"intersection of two sets of {count} cells", partial(operator.and_, a, b))
    moc = random_moc(1_000_000, 13)
    pixels = RANDOM.integers(0, 12 * 4**29, 1_000_000)
    cells, text = pixels >> 32, moc.to_string()
    yield common("contains of a million random pixels", partial(moc.contains, pixels))
    yield common("contains of a million ascending pixels", partial(moc.contains, numpy.sort(pixels)))
    yield common("contains of 10000 random pixels", partial(moc.contains, pixels[:10_000].copy()))
    yield common("a set of a million random cells", partial(MOC.from_healpix_cells, cells, 13))
    yield common("nest2ring of a million cells", partial(nest2ring, 2**13, cells))
    yield common(f"parse {len(text) / 1e6:.1f} MB of ASCII", partial(MOC.from_string, text))
    yield common(f"write {len(text) / 1e6:.1f} MB of ASCII", moc.to_string)
    yield common("union_all of 100 sets of 1000 cells", partial(MOC.union_all, [random_moc(1000, 12) for _ in range(100)]))


def small_tasks() -> Iterator[Task]:
    """Returns the tasks with small sets, which keep the GIL, and lines of a shared map on separate base pixels."""
    a, b = MOC.from_string("3/1-30"), MOC.from_string("4/7-90")
    yield common("contains(5)", partial(a.contains, 5))
    yield common("union of two small sets", partial(operator.or_, a, b))
    yield common("a small set equals another", partial(operator.eq, a, b))
    shared = SharedMap(MOC.full(), clients=max(THREADS))
    yield "count of a base pixel in a map", [partial(shared.client().apply, f"count 0/{number}") for number in range(max(THREADS))]


class Round(NamedTuple):
    """The calls per second of some threads together, and the share of the time for which they neither ran nor were ready to run."""

    rate: float
    blocked: float


def ready_time() -> float:
    """Returns the seconds for which this thread has run, or was ready and waited for a processor."""
    with open("/proc/thread-self/schedstat", encoding="ascii") as file:
        run, wait, _ = file.read().split()
    return (int(run) + int(wait)) / 1e9


def measure(calls: list[Callable[[], object]], count: int) -> Round:
    """Makes a round with this number of threads."""
    barrier, rates, ready = threading.Barrier(count, timeout=600), [0.0] * count, [0.0] * count

    def work(number: int) -> None:
        call, made = calls[number], 0
        call()
        barrier.wait()
        start, ready_before = time.perf_counter(), ready_time()
        while time.perf_counter() - start < SECONDS or not made:
            call()
            made += 1
        ready_after, elapsed = ready_time(), time.perf_counter() - start
        rates[number], ready[number] = made / elapsed, (ready_after - ready_before) / elapsed

    threads = [threading.Thread(target=work, args=(number,)) for number in range(count)]
    for thread in threads:
        thread.start()
    for thread in threads:
        thread.join()
    return Round(sum(rates), max(0.0, 1 - sum(ready) / count))


def main() -> None:
    """Measures all tasks."""
    for title, calls in chain([reference_task()], array_tasks(), small_tasks()):
        best = {count: Round(0, 0) for count in THREADS}
        for _ in range(TURNS):
            for count in THREADS:
                best[count] = max(best[count], measure(calls, count))
        parts = [f"{count} threads {best[count].rate / best[1].rate:.2f} ({best[count].blocked:.0%})" for count in THREADS[1:]]
        print(f"{title:44} {1e6 / best[1].rate:10.1f} us  {'  '.join(parts)}", flush=True)


if __name__ == "__main__":
    main()
