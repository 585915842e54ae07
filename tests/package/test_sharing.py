"""Threads, processes, signal handlers, and sets that are deleted."""
from __future__ import annotations

import gc
import io
import logging
import multiprocessing
import os
import pickle
import signal
import sys
import threading
import time
import weakref
from array import array
from collections.abc import Callable
from typing import Any

from ploverchaise import MOC, MapClient, MocError, SharedMap, nest2ring, ring2nest

from .common import TestCase, random_cells, sorted_ranges

THREADS, TURNS = 8, 1500
# The number of exceptions that signal handlers raise.
ROUNDS = 1000
# The maximal growth of the memory of the process while sets are made and freed, because the allocator keeps some memory.
MAX_GROWTH_KIB = 20_000
# The longest time in seconds for which a thread may not run if processors are idle.
MAX_STALL = 0.1


def used_memory() -> int:
    """Returns the memory of the process in KiB."""
    with open("/proc/self/statm", encoding="ascii") as file:
        return int(file.read().split()[1]) * os.sysconf("SC_PAGE_SIZE") // 1024


def text_and_count(moc: MOC) -> tuple[str, int]:
    """Returns the text and the number of pixels of a set."""
    return str(moc), moc.count()


class Threads(TestCase):
    """Many threads."""

    def test_sets_of_many_threads(self) -> None:
        common = MOC.from_string("3/0-99")

        def work(number: int) -> None:
            own = set(range(number * 40, number * 40 + 60))
            moc = MOC.from_healpix_cells(own, 3)
            for turn in range(TURNS):
                other = (common | moc) - (common & moc)
                self.assertEqual(other.count(), (len(set(range(100)) ^ own)) * 4**26)
                self.assertEqual(other, common ^ moc)
                if turn % 50 == 0:
                    start, end = sorted_ranges(own)[0]
                    self.assertEqual(str(moc.degrade_to_order(3) & MOC.from_healpix_cells(range(start, end), 3)), str(moc))

        self.run_threads(range(THREADS), work)

    def test_texts_of_many_threads(self) -> None:
        texts = [f"9/{number * 1001}-{number * 1001 + 7 * number + 1}" for number in range(THREADS)]
        sets = [MOC.from_string(text) for text in texts]
        expected = [str(moc) for moc in sets]

        def work(number: int) -> None:
            for turn in range(TURNS):
                at = (number + turn) % THREADS
                self.assertEqual(str(sets[at]), expected[at])

        self.run_threads(range(THREADS), work)

    def test_numbers_of_many_threads(self) -> None:
        cells = random_cells(29, 20_000)

        def work(_: int) -> None:
            self.assertEqual(ring2nest(2**29, nest2ring(2**29, cells)), cells)

        self.run_threads(range(THREADS), work)


class DeletedSets(TestCase):
    """Sets that are deleted."""

    def test_in_a_cycle_of_references(self) -> None:
        cycle: list[Any] = [MOC.from_string("0/0")]
        cycle.append(cycle)
        reference = weakref.ref(cycle[0])
        del cycle
        gc.collect()
        self.assertIsNone(reference())

    def test_their_memory_is_freed(self) -> None:
        moc = MOC.from_healpix_cells(range(0, 40_000, 2), 8)
        for _ in range(20):
            _ = moc | ~moc
        before = used_memory()
        for _ in range(300):
            # A complement has 20,000 ranges, which are 320 KB.
            complement = ~moc
            self.assertRaises(MocError, MOC.from_string, "5/7x")
        self.assertLess(used_memory() - before, MAX_GROWTH_KIB)
        self.assertEqual(complement.range_count(), 20_000)


class Processes(TestCase):
    """Other processes."""

    def test_sets_in_forked_processes(self) -> None:
        sets = [MOC.from_healpix_cells(random_cells(6, 50), 6) for _ in range(20)]
        with multiprocessing.get_context("fork").Pool(2) as pool:
            self.assertEqual(pool.map(text_and_count, sets), [text_and_count(moc) for moc in sets])
            self.assertEqual(pool.map(MOC.complement, sets), [~moc for moc in sets])

    def test_a_fork_waits_for_calls(self) -> None:
        """Checks that no call is running at a fork, while other threads call: the child can use all MOCs and maps."""
        moc, shared = MOC.from_healpix_cells(range(0, 4000, 2), 8), SharedMap(MOC.from_string("0/0"))
        expected, ended = str(moc), threading.Event()

        def work(client: MapClient) -> None:
            while not ended.is_set():
                moc.complement()
                client.apply("invert ; invert")

        threads = [threading.Thread(target=work, args=(shared.client(),)) for _ in range(2)]
        for thread in threads:
            thread.start()
        try:
            for _ in range(20):
                child = os.fork()
                if child == 0:
                    signal.alarm(20)
                    os._exit(0 if str(moc) == expected and str(shared.moc(timeout=0)) == "0/0" else 1)
                self.assertEqual(os.waitpid(child, 0)[1], 0)
        finally:
            ended.set()
            for thread in threads:
                thread.join()

    def test_threads_of_a_forked_process(self) -> None:
        """Checks that the lock is free in a child, so that its other threads can call."""
        moc = MOC.from_string("0/0")
        child = os.fork()
        if child == 0:
            counts: list[int] = []
            thread = threading.Thread(target=lambda: counts.append(moc.count()), daemon=True)
            thread.start()
            thread.join(10)
            os._exit(0 if counts == [4**29] else 1)
        self.assertEqual(os.waitpid(child, 0)[1], 0)


class Signals(TestCase):
    """Signal handlers that call, or that raise exceptions."""

    def test_texts_are_whole(self) -> None:
        long, short = MOC.from_healpix_cells(range(0, 2000, 2), 8), MOC.from_string("0/0")
        expected = str(long)
        texts: list[str] = []
        before = signal.signal(signal.SIGALRM, lambda *_: texts.append(str(short)))
        signal.setitimer(signal.ITIMER_REAL, 0.0005, 0.0005)
        try:
            for _ in range(100_000):
                self.assertEqual(str(long), expected)
                if len(texts) > 300:
                    break
        finally:
            signal.setitimer(signal.ITIMER_REAL, 0)
            signal.signal(signal.SIGALRM, before)
        self.assertEqual(set(texts), {"0/0"})

    def test_no_exception_and_no_set_is_lost(self) -> None:
        """Raises 1,000 exceptions in signal handlers while MOCs are made and deleted. Each of them arrives, and no memory is kept."""

        def interrupt(*_: object) -> None:
            raise KeyboardInterrupt

        a, b = MOC.from_healpix_cells(range(0, 40_000, 2), 8), MOC.from_healpix_cells(range(0, 40_000, 3), 8)
        shared = SharedMap(a).client()
        lost: list[str] = []
        before, hook = signal.signal(signal.SIGALRM, interrupt), sys.unraisablehook
        sys.unraisablehook = lambda unraisable: lost.append(unraisable.exc_type.__name__)
        arrived, start = 0, 0
        try:
            for turn in range(ROUNDS):
                if turn == ROUNDS // 5:
                    start = used_memory()
                try:
                    signal.setitimer(signal.ITIMER_REAL, 0.0005 + turn % 97 * 5e-5)
                    end = time.monotonic() + 10
                    while time.monotonic() < end and not lost:
                        _ = [a | b | ~a, str(MOC.from_string("0/0")), shared.moc().count(), SharedMap(b).client(), a == b]
                except KeyboardInterrupt:
                    arrived += 1
                if lost:
                    break
        finally:
            signal.setitimer(signal.ITIMER_REAL, 0)
            signal.signal(signal.SIGALRM, before)
            sys.unraisablehook = hook
        self.assertEqual((arrived, lost), (ROUNDS, []))
        self.assertLess(used_memory() - start, MAX_GROWTH_KIB)


class Waiting(TestCase):
    """Calls that wait, or do not wait, for others."""

    def test_a_long_call_holds_no_other_call(self) -> None:
        """Checks that small calls end while a long call with the same MOC runs."""
        cells = random_cells(29, 300_000)
        ended: list[float] = []
        big, small = MOC.from_healpix_cells(cells, 29), MOC.from_string("0/0")

        def work() -> None:
            for _ in range(8):
                big.to_string()
            ended.append(time.monotonic())

        thread = threading.Thread(target=work)
        thread.start()
        for _ in range(20):
            self.assertEqual((big & small) | small, small)
            big.count()
        last = time.monotonic()
        thread.join()
        self.assertLess(last, ended[0])

    def test_other_threads_run_meanwhile(self) -> None:
        """Checks that a thread, such as the event loop of a Dask worker, runs every 0.1 seconds while another one makes and deletes large
        MOCs. The time is longer if more threads are ready than processors exist."""
        cells = array("Q", random_cells(29, 400_000))

        def work() -> None:
            for _ in range(4):
                moc = MOC.from_healpix_cells(cells, 29)
                union = moc | ~moc
                self.assertEqual((MOC.from_string(moc.to_string()) & union, union), (moc, MOC.full()))
                self.assertEqual(pickle.loads(pickle.dumps(moc)), moc)
                self.assertEqual(sum(moc.contains(cells)), len(cells))
                del moc

        self.assertSoon(lambda: self.longest_stall(work), MAX_STALL)

    def test_other_threads_run_during_an_error(self) -> None:
        """Checks that a thread runs every 0.1 seconds while another one parses long texts with an error."""
        text = '{"29":[' + "[]," * 1_300_000 + "0]}"

        def work() -> None:
            for _ in range(4):
                self.assertFault("NotWhole", (0, 0), MOC.from_string, text, "json")

        self.assertSoon(lambda: self.longest_stall(work), MAX_STALL)

    def longest_stall(self, work: Callable[[], None]) -> float:
        """Returns the longest time in seconds for which this thread does not run while another one works."""
        longest, is_ended, ended_well = 0.0, threading.Event(), []

        def run() -> None:
            try:
                work()
                ended_well.append(True)
            finally:
                is_ended.set()

        thread = threading.Thread(target=run)
        thread.start()
        while not is_ended.is_set():
            start = time.monotonic()
            time.sleep(0.001)
            longest = max(longest, time.monotonic() - start)
        thread.join()
        self.assertEqual(ended_well, [True])
        return longest

    def test_finalizers_that_call(self) -> None:
        """Checks that threads do not block each other, while garbage with finalizers is collected in calls, and logging calls `str`."""
        log = logging.getLogger("ploverchaise.test")
        handler = logging.StreamHandler(io.StringIO())
        log.addHandler(handler)
        log.propagate = False
        shared, moc, other = SharedMap(MOC.from_string("3/1-30")), MOC.from_string("3/1-30"), MOC.from_string("4/7-90")
        end = time.monotonic() + 3

        class Garbage:
            """An object in a cycle whose finalizer logs, such as an unclosed connection."""

            def __init__(self) -> None:
                self.me = self

            def __del__(self) -> None:
                log.warning("not closed")

        class Late:
            """A value whose text needs the map."""

            def __str__(self) -> str:
                return shared.apply("count 3/1")

        def make_garbage(_: int) -> None:
            while time.monotonic() < end:
                Garbage()
                self.assertEqual((moc | other).count(), moc.count() + other.count() - moc.count_common(other))
                shared.apply("count 0/0")

        def report(_: int) -> None:
            while time.monotonic() < end:
                log.warning("now %s %s", Late(), moc)
                handler.setStream(io.StringIO())

        threads = [threading.Thread(target=work, args=(0,), daemon=True) for work in (make_garbage, make_garbage, report, report)]
        for thread in threads:
            thread.start()
        for thread in threads:
            thread.join(30)
        # Garbage that is collected later logs nothing.
        log.disabled = True
        self.assertEqual([thread.is_alive() for thread in threads], [False] * 4)
