"""Functions and classes that the tests of the Python package share."""
from __future__ import annotations

import importlib.util
import os
import random
import threading
import unittest
from collections.abc import Callable, Iterable, Iterator
from contextlib import contextmanager
from typing import Any, TypeVar

from ploverchaise import MOC, MocError, SharedMap

TOP = os.path.dirname(os.path.dirname(os.path.dirname(os.path.abspath(__file__))))
PIXELS = 12 * 4**29
BASE = 4**29
# How often a duration may be measured until it is below its limit.
TRIES = 3
NUMBERS = random.Random(2005)

Value = TypeVar("Value")


def needs(*modules: str) -> Callable[[type[unittest.TestCase]], type[unittest.TestCase]]:
    """Returns a decorator that skips the tests of a class if a module is not installed."""
    missing = [module for module in modules if importlib.util.find_spec(module) is None]
    return unittest.skipIf(bool(missing), f"not installed: {', '.join(missing)}")


def load_factor() -> float:
    """Returns the number of threads that are ready for each processor, or 1 if this number is below 1."""
    return max(1.0, os.getloadavg()[0] / (os.cpu_count() or 1))


def random_cells(order: int, count: int) -> list[int]:
    """Returns this number of random cells of an order. A cell may occur more than once."""
    return [NUMBERS.randrange(12 * 4**order) for _ in range(count)]


def sorted_ranges(numbers: Iterable[int]) -> list[tuple[int, int]]:
    """Returns the sorted ranges of a set of numbers, each with its first number and the number after its last one."""
    ranges: list[tuple[int, int]] = []
    for number in sorted(numbers):
        if ranges and ranges[-1][1] == number:
            ranges[-1] = (ranges[-1][0], number + 1)
        else:
            ranges.append((number, number + 1))
    return ranges


@contextmanager
def held_map() -> Iterator[SharedMap]:
    """Makes a map whose parts a client of another thread holds almost all the time, in lines of some tenths of a second."""
    shared = SharedMap(MOC.from_healpix_cells(range(0, 2_000_000, 2), 11))
    holder, is_ended = shared.client(), threading.Event()

    def hold() -> None:
        while not is_ended.is_set():
            holder.apply("invert" + " ; invert" * 15)

    thread = threading.Thread(target=hold)
    thread.start()
    try:
        yield shared
    finally:
        is_ended.set()
        thread.join()


class TestCase(unittest.TestCase):
    """A test with assertions about errors and coverages."""

    def assertFault(self, name: str, place: tuple[int, ...], call: Callable[..., Any], *arguments: Any, **named: Any) -> None:
        """Checks that a call raises a MocError with this name and this position."""
        with self.assertRaises(MocError) as caught:
            call(*arguments, **named)
        self.assertEqual((caught.exception.name, caught.exception.place), (name, place))

    def run_threads(self, values: Iterable[Value], work: Callable[[Value], object]) -> None:
        """Runs the work with each value on a separate thread. The test fails if one of them raises an exception."""
        failures = []

        def run(value: Value) -> None:
            try:
                work(value)
            except BaseException as failure:
                failures.append(failure)

        threads = [threading.Thread(target=run, args=(value,)) for value in values]
        for thread in threads:
            thread.start()
        for thread in threads:
            thread.join()
        if failures:
            raise failures[0]

    def assertSoon(self, measure: Callable[[], float], limit: float) -> float:
        """Checks that a measured duration in seconds is below a limit, at least in one of three tries, and returns the duration. The limit
        is multiplied by the load factor before or after the try, whichever is larger."""
        for _ in range(TRIES):
            before = load_factor()
            duration = measure()
            scaled = limit * max(before, load_factor())
            if duration < scaled:
                break
        self.assertLess(duration, scaled)
        return duration

    def assertRanges(self, moc: MOC, ranges: list[tuple[int, int]]) -> None:
        """Checks that a coverage has exactly these ranges of pixels."""
        self.assertIsInstance(moc, MOC)
        self.assertEqual(moc.ranges(), ranges)
