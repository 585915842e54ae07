"""Shared maps, which threads change at the same time."""
from __future__ import annotations

import math
import signal
import time
from collections.abc import Callable
from functools import partial
from typing import Any
from unittest import mock

from ploverchaise import MOC, MapClient, MocError, SharedMap, _library

from .common import BASE, TestCase, held_map

THREADS, TURNS = 6, 400
# Lines, with their errors, the numbers of the invalid commands, and the bytes of the errors.
ERRORS = [
    ("grow 0/0", "UnknownWord", 0, 0), ("", "EmptyCommand", 0, 0), ("invert;", "EmptyCommand", 1, 7),
    (";" * 16, "TooManyCommands", 16, 16), ("invert 3", "WrongCount", 0, 0), ("degrade x", "BadNumber", 0, 0),
    ("add @30 0/0", "OrderTooLarge", 0, 0), ("near 0 12", "CellTooLarge", 0, 0), ("add 0/x", "BadByte", 0, 6), ("add 7", "NoOrder", 0, 4),
    ("add 5/7-3", "Backwards", 0, 6), ("add 5/7-", "Unfinished", 0, 8), ("add 0/é", "BadByte", 0, 6),
]


class OneThread(TestCase):
    """Calls of one thread."""

    def test_answers(self) -> None:
        shared = SharedMap(MOC.from_string("0/0"), 2)
        first, second = shared.client(), shared.client()
        self.assertEqual(len({first.number, second.number}), 2)
        self.assertEqual(first.answer(), "")
        self.assertEqual(first.apply("add 0/0-1 ; count 0/0-11"), f"changed {BASE} ; total {2 * BASE}")
        self.assertEqual(second.apply(b"claim 0/1"), f"taken {BASE}")
        self.assertEqual((first.answer(), second.answer()), (f"changed {BASE} ; total {2 * BASE}", f"taken {BASE}"))
        self.assertEqual(shared.apply("near 0 0"), "near yes")
        self.assertEqual(shared.moc(), MOC.from_string("0/0-1"))
        self.assertEqual(second.moc(timeout=0), MOC.from_string("0/0-1"))

    def test_long_answers(self) -> None:
        moc = MOC.from_healpix_cells(range(0, 3000, 2), 8)
        self.assertEqual(SharedMap(moc).apply("read 0/0-11"), f"cover {moc.to_string()}")
        self.assertEqual(SharedMap().apply("read 0/0-11"), "cover")

    def test_brief_lines(self) -> None:
        """Checks which lines keep the GIL, and that their replies are those of other lines."""
        shared = SharedMap(MOC.from_string("1/0-2"))
        for line, reply in (("count 0/0", f"total {3 * BASE // 4}"), (" near\t1 3", "near yes"), ("claim 1/3 ", "claimed"),
                            ("remove 1/3", f"changed {BASE // 4}"), ("add 0/0", f"changed {BASE // 4}"), ("count", "total 0"),
                            ("count 0/0;count 0/0", f"total {BASE} ; total {BASE}"), ("add 0/0-1", f"changed {BASE}"),
                            ("remove @1 2/0", f"changed {BASE // 4}"), ("read 1/0-1", "cover 1/1")):
            with self.subTest(line=line), mock.patch("ploverchaise.shared.execute_briefly", wraps=_library.execute_briefly) as brief:
                self.assertEqual(shared.apply(line), reply)
                self.assertEqual(brief.call_count, int(line.strip() in ("count 0/0", "near\t1 3", "claim 1/3", "remove 1/3", "add 0/0")))

    def test_errors_change_nothing(self) -> None:
        shared = SharedMap(MOC.from_string("0/4"))
        answer = shared.apply("count 0/4")
        for line, name, command, byte in ERRORS:
            with self.subTest(line=line):
                self.assertFault(name, (command, byte), shared.apply, line)
                if line.strip("; "):
                    first = "invert ; "
                    self.assertFault(name, (command + 1, byte + len(first)), shared.apply, first + line)
        self.assertEqual(shared._client.answer(), answer)
        self.assertEqual(str(shared.moc()), "0/4")
        invalid: list[Any] = [5, None, ["invert"]]
        for line in invalid:
            with self.assertRaises(TypeError):
                shared.apply(line)

    def test_clients_are_counted(self) -> None:
        for count in (0, 64, -1):
            with self.assertRaises(ValueError):
                SharedMap(clients=count)
        shared = SharedMap(clients=63)
        clients = [shared.client() for _ in range(63)]
        self.assertEqual(sorted(client.number for client in clients) + [63], list(range(64)))
        self.assertFault("NoClient", (), shared.client)
        # A client that is deleted makes room for another one with its number, which has no replies.
        numbers = [client.number for client in clients[:3]]
        clients[2].apply("count 0/0")
        for number in numbers:
            del clients[0]
            clients.append(shared.client())
            self.assertEqual((clients[-1].number, clients[-1].answer()), (number, ""))
        self.assertFault("NoClient", (), shared.client)
        with self.assertRaises(TypeError):
            MapClient()

    def test_a_map_lives_with_its_clients(self) -> None:
        shared = SharedMap(MOC.full(), 1)
        client = shared.client()
        del shared
        self.assertEqual(client.apply("keep 0/3 ; read 0/0-11"), f"changed {11 * BASE} ; cover 0/3")
        self.assertEqual(str(client.moc()), "0/3")

    def test_handles_without_and_with_a_client(self) -> None:
        free, other = _library.open_client(), _library.open_client()
        used = getattr(SharedMap(clients=1)._client, "_handle")
        moc = MOC()
        calls: list[tuple[str, tuple[Any, ...]]] = [("map_apply", (b"invert",)), ("map_join", (other,)), ("map_coverage", (moc._store,)),
                                                    ("map_add", (0, None, 0)), ("map_add_coverage", (moc._store, moc._id))]
        for name, arguments in calls:
            self.assertFault("NoMap", (), _library.call_with_client, name, free, *arguments)
        self.assertFault("ClientInUse", (), _library.call_with_client, "map_join", free, used)
        self.assertFault("ClientInUse", (), _library.call_with_client, "map_begin", used, moc._store, 2**64 - 1, 65)
        self.assertFault("NoSuchSet", (2**64 - 1,), _library.call_with_client, "map_begin", free, moc._store, 2**64 - 1, 65)
        for clients in (0, 65, 254):
            self.assertFault("BadCount", (clients,), _library.call_with_client, "map_begin", free, moc._store, moc._id, clients)

    def test_a_call_in_a_signal_handler(self) -> None:
        """Checks that a signal handler can use the client that its thread uses."""
        client, replies = SharedMap(MOC.from_string("0/0")).client(), []
        before = signal.signal(signal.SIGALRM, lambda *_: replies.append(client.apply("count 0/0")))
        signal.setitimer(signal.ITIMER_REAL, 0.0005, 0.0005)
        try:
            for _ in range(100_000):
                self.assertEqual(client.apply("near 0 0"), "near yes")
                if len(replies) > 300:
                    break
        finally:
            signal.setitimer(signal.ITIMER_REAL, 0)
            signal.signal(signal.SIGALRM, before)
        self.assertEqual(set(replies), {f"total {BASE}"})


class Threads(TestCase):
    """Many threads on one map."""

    def test_lines_are_atomic_and_complete(self) -> None:
        shared = SharedMap(clients=THREADS)

        def work(client: MapClient) -> None:
            for turn in range(TURNS):
                self.assertEqual(client.apply(f"claim 9/{client.number * TURNS + turn}"), "claimed")
                client.apply("add 3/100 ; add 3/400 ; add 3/700" if turn % 2 else "remove 3/100 ; remove 3/400 ; remove 3/700")
                answer = client.apply("count 3/100 ; count 3/400 ; count 3/700")
                self.assertIn(answer, {f"total {4**26} ; total {4**26} ; total {4**26}", "total 0 ; total 0 ; total 0"})

        self.run_threads([shared.client() for _ in range(THREADS)], work)
        shared.apply("remove 3/100 400 700")
        self.assertEqual(shared.moc(), MOC.from_healpix_cells(range(THREADS * TURNS), 9))

    def test_one_client_of_many_threads(self) -> None:
        client = SharedMap().client()

        def work(number: int) -> None:
            for turn in range(TURNS):
                cell = number * TURNS + turn
                self.assertEqual(client.apply(f"claim 9/{cell}"), "claimed")

        self.run_threads(range(THREADS), work)
        self.assertEqual(client.moc().count(), THREADS * TURNS * 4**20)

    def test_a_timeout_ends(self) -> None:
        """Checks that a call that needs a held part waits until its timeout, in a few tries, and that a timeout of 0 means one try."""
        with held_map() as shared:
            client = shared.client()
            calls: list[tuple[MapClient, Callable[[float], object]]] = [
                (client, lambda timeout: client.apply("count 0/0", timeout)), (client, client.moc),
                (shared._client, lambda timeout: shared.apply("count 0/0", timeout)), (shared._client, shared.moc)]
            for user, call in calls:
                duration, tries, settings = self.busy_call(user, partial(call, 0))
                self.assertEqual((tries, user._milliseconds), (1, 0))
                self.assertIn(settings, ([], [0]))
                duration, tries, settings = self.busy_call(user, partial(call, 0.05))
                self.assertGreaterEqual(duration, 0.05)
                self.assertLessEqual(tries, 5)
                self.assertEqual(max(settings), 20)

    def busy_call(self, client: MapClient, call: Callable[[], object]) -> tuple[float, int, list[int]]:
        """Repeats a call with a client until it fails with `Busy`. Returns the duration of the last call in seconds, the number of its
        tries, and the timeouts of the library in milliseconds that it sets."""
        end = time.monotonic() + 30
        while time.monotonic() < end:
            with mock.patch("ploverchaise.shared.call_with_client", wraps=_library.call_with_client) as library, \
                    mock.patch("ploverchaise.shared.execute_briefly", wraps=_library.execute_briefly) as brief:
                start = time.monotonic()
                try:
                    call()
                except MocError as error:
                    duration = time.monotonic() - start
                    self.assertEqual(error.name, "Busy")
                    calls = [arguments for arguments, _ in library.call_args_list if arguments[1] is client._handle]
                    settings = [arguments[2] for arguments in calls if arguments[0] == "map_busy_timeout"]
                    return duration, len(calls) - len(settings) + brief.call_count, settings
        self.fail("no call has found a part held")

    def test_calls_wait(self) -> None:
        """Checks that calls with a long or no timeout end, although another client holds the parts almost all the time."""
        with held_map() as shared:
            client = shared.client()
            replies = {client.apply("count 0/4", timeout) for timeout in (None, 30, None, 30)}
            counts = [shared.moc().count(), client.moc(30).count()]
        # An even number of inversions changes nothing.
        self.assertEqual((replies, counts), ({"total 0"}, [1_000_000 * 4**18] * 2))

    def test_timeouts_that_are_no_numbers(self) -> None:
        shared = SharedMap()
        self.assertRaises(ValueError, shared.apply, "count 0/0", math.nan)
        for timeout in (-math.inf, -1, 0, math.inf):
            self.assertEqual(shared.apply("count 0/0", timeout), "total 0")

    def test_clients_are_made_and_deleted_by_many_threads(self) -> None:
        shared = SharedMap(clients=THREADS)

        def work(number: int) -> None:
            for turn in range(TURNS):
                self.assertEqual(shared.client().apply(f"claim 9/{number * TURNS + turn}"), "claimed")

        self.run_threads(range(THREADS), work)
        self.assertEqual(shared.moc().count(), THREADS * TURNS * 4**20)

    def test_busy_is_reported(self) -> None:
        error = MocError(74, 3, 5)
        self.assertEqual((error.name, error.place), ("Busy", (3, 5)))
        self.assertEqual(str(error), "Busy: another client holds a part of the map (part 3, client 5)")
