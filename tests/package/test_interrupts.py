"""Signal handlers that raise exceptions during long calls."""
from __future__ import annotations

import _thread
import os
import signal
import tempfile
import threading
import time
import unittest
from array import array
from collections.abc import Callable, Iterator
from contextlib import contextmanager
from functools import partial
from typing import Any

from ploverchaise import MOC, get_all_neighbours, neighbours, nest2ring, nest2uniq, pix2xyf, ring2nest, uniq2nest
from ploverchaise.moc import Format

from .common import NUMBERS, TestCase, held_map
from .test_sharing import MAX_GROWTH_KIB, used_memory

numpy: Any = None
try:
    import numpy as numpy_module
    numpy = numpy_module
except ImportError:
    pass

# The time after which a signal arrives, and the time that a call may take from then on if processors are idle, in seconds.
DELAY, MAX_LATENCY = 0.05, 0.2
# The number of ranges of the sets, and of numbers in arrays.
RANGES, LENGTH = 600_000, 8_000_000
TURNS = 10


class Interrupted(Exception):
    """What the signal handler of the tests raises."""


@contextmanager
def interrupt_after(delay: float, times: list[float]) -> Iterator[None]:
    """Lets SIGINT arrive after a delay, and appends the time to a list. The handler raises `Interrupted`."""

    def interrupt(*_: object) -> None:
        raise Interrupted

    def send() -> None:
        times.append(time.monotonic())
        signal.pthread_kill(threading.main_thread().ident or 0, signal.SIGINT)

    before = signal.signal(signal.SIGINT, interrupt)
    timer = threading.Timer(delay, send)
    try:
        timer.start()
        yield
    finally:
        timer.join()
        signal.signal(signal.SIGINT, before)


class Interrupts(TestCase):
    """Ctrl-C during long calls. Each call is repeated until the signal arrives."""

    def assertInterrupted(self, call: Callable[[], object]) -> float:
        """Checks that a call ends soon after a signal. Returns the time in seconds."""
        return self.assertSoon(lambda: self.interrupt(call), MAX_LATENCY)

    def interrupt(self, call: Callable[[], object]) -> float:
        """Repeats a call until a signal arrives. Returns the time in seconds from the signal to the exception."""
        times: list[float] = []
        with self.assertRaises(Interrupted), interrupt_after(DELAY, times):
            end = time.monotonic() + 30
            while time.monotonic() < end:
                call()
        return time.monotonic() - times[0]

    def check(self, calls: dict[str, Callable[[], object]]) -> None:
        """Checks each call, and that the memory of interrupted calls is freed."""
        for name, call in calls.items():
            with self.subTest(call=name):
                self.assertInterrupted(call)

    def test_sets(self) -> None:
        moc, other = MOC.from_healpix_cells(range(0, 2 * RANGES, 2), 11), MOC.from_healpix_cells(range(0, 3 * RANGES, 3), 11)
        parts = [MOC.from_healpix_cells(range(start, 2 * RANGES, 101), 11) for start in range(50)]
        self.check({
            "union": lambda: moc | other, "complement": lambda: ~moc, "degrade_to_order": lambda: moc.degrade_to_order(10),
            "count_common": lambda: moc.count_common(other), "equal": lambda: moc == other, "max_order": lambda: moc.max_order,
            "cells": moc.cells, "ranges": moc.ranges, "union_all": lambda: MOC.union_all(parts), "hash": lambda: hash(moc | other),
            "add_neighbours": moc.add_neighbours, "split_count": moc.split_count, "describe": moc.describe, "draw": moc.draw})
        self.assertEqual((moc | other).count(), moc.count() + other.count() - moc.count_common(other))

    def test_texts(self) -> None:
        moc = MOC.from_healpix_cells(range(0, 2 * RANGES, 2), 11)
        formats: list[Format] = ["ascii", "json", "uniq"]
        with tempfile.TemporaryDirectory() as folder:
            path = os.path.join(folder, "moc")
            calls: dict[str, Callable[[], object]] = {}
            for format in formats:
                calls[f"read {format}"] = partial(MOC.from_string, moc.to_string(format), format)
                calls[f"write {format}"] = partial(moc.to_string, format)
            calls |= {"fold": lambda: moc.to_string(fold=80), "serialize": moc.serialize, "str": lambda: str(moc),
                      "from_json": lambda: MOC.from_json({11: range(0, 2 * RANGES, 2)}),
                      "save": lambda: moc.save(path, overwrite=True), "load": lambda: MOC.load(path)}
            moc.save(path)
            self.check(calls)

    def test_lists(self) -> None:
        cells = [NUMBERS.randrange(12 * 4**29) for _ in range(300_000)] * 5
        moc = MOC.from_healpix_cells(cells[:100_000], 29)
        calls: list[Callable[..., object]] = [nest2ring, ring2nest, nest2uniq, pix2xyf, get_all_neighbours]
        checked: dict[str, Callable[[], object]] = {
            "cells": lambda: MOC.from_healpix_cells(cells, 29), "generator": lambda: MOC.from_healpix_cells(iter(cells), 29),
            "contains": lambda: moc.contains(cells), "contains cells": lambda: moc.contains(cells, 28),
            "ranges": lambda: MOC.from_ranges((cell, cell + 1) for cell in cells),
            "neighbours": lambda: neighbours(cells, 29), "uniq": lambda: MOC.from_uniq(cell + 4**30 for cell in cells)}
        self.check(checked | {call.__name__: partial(call, 2**29, cells) for call in calls})

    @unittest.skipUnless(numpy, "numpy is not installed")
    def test_arrays(self) -> None:
        cells = numpy.random.default_rng(2005).integers(0, 12 * 4**29, LENGTH)
        moc, uniqs = MOC.from_healpix_cells(cells[:RANGES], 29), cells + 4**30
        cells_of_28, orders, ranges = cells >> 2, cells % 2 + 28, numpy.stack([cells, cells + 1], axis=1)
        calls: list[Callable[..., object]] = [nest2ring, ring2nest, nest2uniq, pix2xyf, get_all_neighbours]
        checked: dict[str, Callable[[], object]] = {
            "cells": lambda: MOC.from_healpix_cells(cells, 29), "cells of orders": lambda: MOC.from_healpix_cells(cells_of_28, orders),
            "contains": lambda: moc.contains(cells), "contains cells": lambda: moc.contains(cells, 28),
            "ranges": lambda: MOC.from_ranges(ranges), "uniq2nest": lambda: uniq2nest(uniqs),
            "uniq": lambda: MOC.from_uniq(uniqs), "flatten": lambda: MOC.full().flatten(11),
            "strided": lambda: nest2ring(2**29, cells[::-2])}
        self.check(checked | {call.__name__: partial(call, 2**29, cells) for call in calls})

    def test_a_call_of_the_library_is_left(self) -> None:
        """Checks that a signal handler runs long before the call of the library ends, which cannot be cut."""
        moc = MOC.from_healpix_cells(range(0, 8 * RANGES, 2), 13)
        start = time.monotonic()
        text = moc.to_string("json")
        MOC.from_string(text, "json")
        duration = time.monotonic() - start
        latencies = [self.assertInterrupted(lambda: MOC.from_string(text, "json")) for _ in range(5)]
        self.assertLess(sorted(latencies)[2], duration / 4)

    def test_a_call_that_waits(self) -> None:
        """Checks that signal handlers run while a call waits for a part of a map."""
        with held_map() as shared:
            client = shared.client()
            self.check({"apply": lambda: client.apply("count 0/0"), "moc": client.moc})

    def test_nothing_is_leaked(self) -> None:
        moc = MOC.from_healpix_cells(range(0, 2 * RANGES, 2), 11)
        text = moc.to_string()
        self.interrupt_calls(moc, text)
        growth: list[int] = []
        # A leak shows in every round. In some rounds the C library keeps memory for threads that ended.
        while len(growth) < 3 and min(growth, default=MAX_GROWTH_KIB) >= MAX_GROWTH_KIB:
            start = used_memory()
            self.interrupt_calls(moc, text)
            growth.append(used_memory() - start)
        self.assertLess(min(growth), MAX_GROWTH_KIB)

    def interrupt_calls(self, moc: MOC, text: str) -> None:
        """Interrupts long calls, and waits until they have ended."""
        for _ in range(TURNS):
            self.assertInterrupted(lambda: (moc | ~moc, MOC.from_string(text), moc.to_string()))
        self.wait_for_other_threads()

    def wait_for_other_threads(self) -> None:
        """Waits until the calls that were interrupted have ended."""
        end = time.monotonic() + 10
        while _thread._count() and time.monotonic() < end:
            time.sleep(0.01)


class Pieces(TestCase):
    """Arrays that are longer than a piece."""

    def test_positions_of_errors(self) -> None:
        length = 2**18
        cells = array("Q", [7]) * (2 * length + 5)
        cells[length + 3] = cells[2 * length + 1] = 12 * 4**5
        self.assertFault("NoSuchCell", (length + 3,), MOC.from_healpix_cells, cells, 5)
        self.assertFault("NoSuchCell", (length + 3,), nest2ring, 2**5, cells)
        cells[length + 3] = 7
        self.assertFault("NoSuchCell", (2 * length + 1,), neighbours, cells, 5)
        self.assertFault("NoSuchCell", (2 * length + 1,), MOC.from_healpix_cells, cells, 5)
        self.assertFault("NotUniq", (length,), MOC.from_uniq, [4] * length + [3])
        self.assertFault("Backwards", (length + 1,), MOC.from_ranges, [(3, 4)] * (length + 1) + [(4, 3)])

    def test_results_of_pieces(self) -> None:
        cells = range(12 * 4**8)
        rings = nest2ring(2**8, cells)
        # A comparison of long lists by assertEqual takes minutes if it fails.
        self.assertTrue(sorted(rings) == list(cells))
        self.assertTrue(ring2nest(2**8, rings) == list(cells))
        self.assertEqual(MOC.from_healpix_cells(cells, 8), MOC.full())
        every_second = MOC.from_healpix_cells(range(0, 12 * 4**8, 2), 8)
        self.assertEqual(every_second.ranges()[-1], ((12 * 4**8 - 2) * 4**21, (12 * 4**8 - 1) * 4**21))
        self.assertEqual(MOC.from_ranges(every_second.ranges()), every_second)
        self.assertTrue(every_second.contains([cell * 4**21 for cell in cells]) == [cell % 2 == 0 for cell in cells])
