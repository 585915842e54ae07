"""Errors: their names and positions, arguments of invalid types, and allocation failures."""
from __future__ import annotations

import pickle
import subprocess
import sys
from collections.abc import Callable, Iterator, Sequence
from typing import Any

from ploverchaise import MOC, MocError, get_all_neighbours, neighbours, nest2ring, nest2uniq, pix2xyf, ring2nest, uniq2nest
from ploverchaise.moc import Format

from .common import PIXELS, TestCase

ASCII = [
    ("s29/3458764513820540928", "CellTooLarge", (4,)), ("5/7-3", "Backwards", (2,)), ("7 5/1", "NoOrder", (0,)),
    ("30/0", "OrderTooLarge", (0,)), ("s30/0", "OrderTooLarge", (1,)), ("5/7-", "Unfinished", (4,)), ("5/7x", "BadByte", (3,)),
    ("5-3/", "BadByte", (3,)), ("1/1 5 /3", "BadByte", (6,)), ("0/0\n1/48", "CellTooLarge", (6,)), ("0/é", "BadByte", (2,)),
]
JSON = [
    ('{"1":[0', "NotJson", ()), ("", "NotJson", ()), ("[1]", "NotObject", ()), ('{"x":[0]}', "BadOrder", (0,)),
    ('{"0":[],"30":[0]}', "BadOrder", (1,)), ('{"0":[],"1":3}', "NotArray", (1,)), ('{"2":[-1]}', "NotWhole", (0, 0)),
    ('{"0":[1],"2":[5,6,1.5]}', "NotWhole", (1, 2)), ('{"1":[0,48]}', "CellTooLarge", (0, 1)),
]
UNIQ = [("4\nx\n", "BadByte", (2,)), ("4\n\n3", "NotUniq", (3,)), ("4611686018427387904", "NotUniq", (1,))]
# Makes complements of 600,000 ranges each until an allocation fails, with ROOM bytes for them. Prints the error, and whether all
# complements are unchanged.
UNTIL_NO_MEMORY = """
import resource
from ploverchaise import MOC

made = [MOC.from_healpix_cells(range(0, 1_200_000, 2), 10)]
with open("/proc/self/statm") as file:
    taken = int(file.read().split()[0]) * resource.getpagesize()
resource.setrlimit(resource.RLIMIT_AS, (taken + ROOM, resource.RLIM_INFINITY))
try:
    while True:
        made.append(~made[-1])
except MemoryError as error:
    resource.setrlimit(resource.RLIMIT_AS, (resource.RLIM_INFINITY,) * 2)
    print(error, len(made) > 5, all(moc == made[place % 2] for place, moc in enumerate(made)))
"""


class FailedRead(ValueError):
    """An error that needs two values."""

    def __init__(self, reason: str, position: int) -> None:
        super().__init__(f"{reason} at {position}")


class Unreadable:
    """A value whose iterator raises an error that needs two values."""

    def __iter__(self) -> Iterator[int]:
        raise FailedRead("no number", 3)

    def __repr__(self) -> str:
        return "Unreadable()"


class Errors(TestCase):
    """Errors and their positions."""

    def test_texts(self) -> None:
        formats: list[tuple[str, Sequence[tuple[str, str, tuple[int, ...]]]]] = [("ascii", ASCII), ("json", JSON), ("uniq", UNIQ)]
        for text_format, rows in formats:
            for text, name, place in rows:
                with self.subTest(format=text_format, text=text):
                    self.assertFault(name, place, MOC.from_string, text, text_format)
        self.assertFault("CellTooLarge", (0, 1), MOC.from_json, {"1": [0, 48]})

    def test_ranges(self) -> None:
        self.assertFault("Backwards", (0,), MOC.from_ranges, [(5, 4)])
        self.assertFault("PixelTooLarge", (1,), MOC.from_ranges, [(0, 1), (0, PIXELS + 1)])
        self.assertFault("Backwards", (2,), MOC.from_ranges, [(0, 1), (1, 2), (-1, 3), (2, 1)])
        invalid: list[Any] = [[(1, 2, 3)], [(1,)], [3]]
        for ranges in invalid:
            with self.assertRaises((TypeError, ValueError)):
                MOC.from_ranges(ranges)
        unreadable: Any = Unreadable()
        with self.assertRaises(ValueError) as caught:
            MOC.from_ranges([(0, 1), unreadable])
        self.assertEqual((type(caught.exception), str(caught.exception)), (ValueError, "item 1 is not a pair (from, to): Unreadable()"))

    def test_cells(self) -> None:
        self.assertFault("NoSuchCell", (2,), MOC.from_healpix_cells, [0, 47, 48, 49], 1)
        self.assertFault("NoSuchCell", (1,), MOC.from_healpix_cells, [0, -1], 29)
        self.assertFault("NoSuchCell", (3,), MOC.from_healpix_cells, [0, 47, 11, 12], [0, 1, 0, 0])
        self.assertFault("NotUniq", (1,), MOC.from_uniq, [4, 3])
        self.assertFault("NotUniq", (0,), MOC.from_uniq, 2**62)
        with self.assertRaises(ValueError):
            MOC.from_healpix_cells([0, 1], [0])

    def test_numbers(self) -> None:
        calls: list[Callable[..., object]] = [nest2ring, ring2nest, nest2uniq, pix2xyf, get_all_neighbours]
        for call in calls:
            self.assertFault("NoSuchCell", (1,), call, 2, [47, 48, 0])
            self.assertFault("NoSuchCell", (0,), call, 2, -1)
            self.assertFault("NoSuchCell", (0,), call, 2**29, 2**70)
        self.assertFault("NoSuchCell", (2,), neighbours, [0, 1, 48], 1)
        self.assertFault("NotUniq", (2,), uniq2nest, [4, 2**62 - 1, 3])

    def test_orders(self) -> None:
        moc = MOC.from_string("0/0")
        calls: list[Callable[[int], object]] = [
            moc.degrade_to_order, MOC.new_empty, lambda order: neighbours([0], order), lambda order: moc.to_string(max_order=order),
            lambda order: MOC.from_healpix_cells([0], order), lambda order: MOC.from_depth29_ranges(order, [])]
        for call in calls:
            for order in (-1, 30, 255, 256, 2**64):
                self.assertFault("NoSuchOrder", (order,), call, order)
        self.assertFault("NoSuchOrder", (30,), MOC.from_healpix_cells, [0, 0], [0, 30])
        # The package replaces an int that 64 bits cannot hold by 2^64 - 1.
        for orders in ([0, 2**64 - 1], [2**64 - 1, -1], [2**64 - 1, 2**64], [0] * 2**18 + [2**64 - 1, -1]):
            self.assertFault("NoSuchOrder", (2**64 - 1,), MOC.from_healpix_cells, [0] * len(orders), orders)
        self.assertFault("NoSuchOrder", (-1,), MOC.from_healpix_cells, [0, 0], [-1, 2**64 - 1])
        self.assertFault("NoSuchOrder", (2**64,), MOC.from_healpix_cells, [0, 0], [2**64, 2**64 - 1])

    def test_the_first_error_is_reported(self) -> None:
        for cells, orders, name, place in (([0, 48, 12], [0, 1, 0], "NoSuchCell", 1), ([12, 48, 0], [0, 1, 0], "NoSuchCell", 0),
                                           ([0, 0, 0], [0, 31, -1], "NoSuchOrder", 31), ([0, 0, 0], [0, -2, 31], "NoSuchOrder", -2),
                                           ([0, 48, 0], [0, 1, 30], "NoSuchCell", 1), ([0, 0, 48], [0, 30, 1], "NoSuchOrder", 30)):
            with self.subTest(cells=cells, orders=orders):
                self.assertFault(name, (place,), MOC.from_healpix_cells, cells, orders)
        self.assertFault("Backwards", (1,), MOC.from_ranges, [(0, 1), (5, 4), (0, PIXELS + 1), (3, 2)])
        self.assertFault("PixelTooLarge", (1,), MOC.from_ranges, [(0, 1), (0, PIXELS + 1), (5, 4)])

    def test_messages_have_the_value_and_its_bounds(self) -> None:
        """Checks the end of each message, after the meaning of the error and its position."""
        moc, no_pair = MOC.from_string("3/5"), "a pair (from, to): "
        triple: Any = (1, 2, 3)
        number: Any = 7
        rows: list[tuple[str, Callable[[], object]]] = [
            ("(place 1): 48 is not a cell of order 1 (0 to 47)", lambda: MOC.from_healpix_cells([5, 48], 1)),
            ("(place 1): -7 is not a cell of order 1 (0 to 47)", lambda: MOC.from_healpix_cells([5, -7, -8], 1)),
            ("(place 0): -1 is not a cell of order 2 (0 to 191)", lambda: nest2ring(4, -1)),
            (f"(place 2): {2**64} is not a cell of order 0 (0 to 11)", lambda: MOC.from_healpix_cells([1, 2, 2**64], [1, 1, 0])),
            (f"(place 1): {2**64 - 1} is not a cell of order 1 (0 to 47)", lambda: MOC.from_healpix_cells([5, 2**64 - 1, -1], 1)),
            (f"(place 0): {2**64 - 1} is not a cell of order 2 (0 to 191)", lambda: nest2ring(4, 2**64 - 1)),
            ("(place 0): (-3, a number that is not 0 to 2^64 - 2)", lambda: MOC.from_ranges([(-3, 2**64 - 1)])),
            ("(place 1): 3 is not a NUNIQ number (4 to 2^62 - 1)", lambda: MOC.from_uniq([4, 3])),
            ("(place 0): (9, 8)", lambda: MOC.from_ranges([(9, 8)])),
            (f"above 12 * 4^29 (place 0): (0, {PIXELS + 1})", lambda: MOC.from_ranges([(0, PIXELS + 1)])),
            ("(place 1): (-2, 3)", lambda: MOC.from_ranges([(1, 2), (-2, 3)])),
            (f"item 1 is not {no_pair}(1, 2, 3)", lambda: MOC.from_ranges([(0, 1), triple])),
            (f"item 0 is not {no_pair}7", lambda: MOC.from_ranges([number])),
            ("the order is not 0 to 29 (order -1)", lambda: moc.degrade_to_order(-1)),
            ("the order is not 0 to 29 (order 30)", lambda: moc.degrade_to_order(30)),
            ("the order is not 0 to 29 (order 30): 1073741824 is above 2^29", lambda: nest2ring(2**30, 0)),
            ("power of two, not 3", lambda: nest2ring(3, 0)),
            ("the order is 2, and the deepest cells have order 3", lambda: moc.to_string(max_order=2)),
            ("the order is 1, and the deepest cells have order 3", lambda: moc.add_neighbours(1)),
            ("(byte 8): `2/7-5`: a range goes from its first cell to its last", lambda: MOC.from_string("1/0-3\n2/7-5")),
            ("(line 2): `3`: NUNIQ numbers go from 4 to 4611686018427387903", lambda: MOC.from_string("4\n3\n", "uniq")),
            ("(name 0, item 1): `48`: cells of order 1 go up to 47", lambda: MOC.from_json({"1": [0, 48]})),
            ("(byte 0): this looks like a NUNIQ list", lambda: MOC.from_string("4\n5\n")),
            ("at least 0, not -1", lambda: moc.to_string(fold=-1))]
        for end, call in rows:
            with self.subTest(end=end), self.assertRaises((TypeError, ValueError)) as caught:
                call()
            self.assertTrue(str(caught.exception).endswith(end), caught.exception)

    def test_quotations_of_long_texts(self) -> None:
        """Checks that the error of a text of 256 KiB has a quotation, and that of a longer text has none."""
        rows: tuple[tuple[Format, str, str, str], ...] = (
            ("ascii", "29/0", " 5/7x", "`5/7x`: words look like 3/, 10, 12-14 or 3/10"),
            ("json", '{"1":[0', ",48]}", "`48`: cells of order 1 go up to 47"),
            ("uniq", "4", "\n3", "`3`: NUNIQ numbers go from 4 to 4611686018427387903"))
        for text_format, start, end, quotation in rows:
            for length, detail in ((2**18, quotation), (2**18 + 1, "")):
                text = start + " " * (length - len(start) - len(end)) + end
                if text_format == "uniq":
                    text = "\n" * (length - len(start) - len(end)) + start + end
                with self.subTest(format=text_format, length=length), self.assertRaises(MocError) as caught:
                    MOC.from_string(text, text_format)
                self.assertEqual((len(text), caught.exception.detail), (length, detail))

    def test_stated_order_is_too_coarse(self) -> None:
        moc = MOC.from_string("1/1-2 4 2/12-14 21 23 25 8/")
        for text_format in ("ascii", "json"):
            self.assertFault("TooCoarse", (), moc.to_string, text_format, max_order=1)

    def test_arguments_that_are_not_integers(self) -> None:
        arguments: list[Any] = [1.5, [1.5], ["1"], "12", [None], None, [[1, 2], [3, 4]]]
        calls: list[Callable[[Any], object]] = [lambda numbers: nest2ring(2, numbers), MOC.full().contains, MOC.from_uniq]
        for argument in arguments:
            for call in calls:
                with self.subTest(argument=argument), self.assertRaises(TypeError):
                    call(argument)
        texts: list[Any] = [5, None, ["0/0"]]
        for text in texts:
            with self.assertRaises(TypeError):
                MOC.from_string(text)
        fraction: Any = 1.5
        with self.assertRaises(TypeError):
            _ = fraction in MOC.full()
        with self.assertRaises(TypeError):
            MOC.full().degrade_to_order(fraction)

    def test_formats(self) -> None:
        fits: Any = "fits"
        calls: list[Callable[[], object]] = [lambda: MOC.from_string("", fits), lambda: MOC().to_string(fits),
                                             lambda: MOC().serialize(fits)]
        for call in calls:
            with self.assertRaises(ValueError):
                call()

    def test_errors_leave_sets_unchanged(self) -> None:
        moc = MOC.from_string("0/0 1/4-5")
        self.assertFault("BadByte", (3,), MOC.from_string, "5/7x")
        self.assertFault("TooCoarse", (), moc.to_string, max_order=0)
        self.assertEqual(str(moc), "0/0 1/4-5")

    def test_allocation_failures(self) -> None:
        program = UNTIL_NO_MEMORY.replace("ROOM", "300_000_000")
        result = subprocess.run([sys.executable, "-c", program], stdout=subprocess.PIPE, stderr=subprocess.DEVNULL, text=True, timeout=60)
        self.assertEqual(result.stdout, "no memory is left for a coverage True True\n")

    def test_errors_are_value_errors(self) -> None:
        self.assertTrue(issubclass(MocError, ValueError))
        with self.assertRaises(MocError) as caught:
            MOC.from_json('{"1":[0,48]}')
        error = caught.exception
        self.assertEqual(str(error), "CellTooLarge: an item is not the number of a cell of its order (name 0, item 1): `48`: "
                                     "cells of order 1 go up to 47")
        copy = pickle.loads(pickle.dumps(error))
        self.assertIsInstance(copy, MocError)
        self.assertEqual((copy.code, copy.name, copy.place, str(copy)), (error.code, error.name, error.place, str(error)))
