"""Sets: examples, and comparisons of random sets with those of Python."""
from __future__ import annotations

import copy
import operator
import pathlib
import pickle
import tempfile
import xml.etree.ElementTree
from collections.abc import Callable, Iterator
from typing import Any

from ploverchaise import MOC, MocError, nest2ring, nside2order, uniq2nest
from ploverchaise.moc import Format

from .common import BASE, NUMBERS, PIXELS, TestCase, random_cells, sorted_ranges

FORMATS: list[Format] = ["ascii", "json", "uniq"]
# ASCII texts, the text of the set without a MOC order, and the deepest order of its cells.
ASCII = [
    ("", "", 0), ("8/", "", 0), ("0/0 1/3", "0/0", 0), ("2/0-3", "1/0", 1), ("2/0-3,1/1 1/2,3", "0/0", 0),
    ("1/1-2 4 2/12-14 21 23 25 8/", "1/1-2 4 2/12-14 21 23 25", 2), ("1/1 2 4\n2/12-14 21 23 25 \n8/", "1/1-2 4 2/12-14 21 23 25", 2),
    ("s29/3458764513820540927", "29/3458764513820540927", 29),
]


class Survey(MOC):
    """A subclass."""


class Examples(TestCase):
    """Examples."""

    def test_ascii(self) -> None:
        for text, expected, deepest in ASCII:
            with self.subTest(text=text):
                moc = MOC.from_string(text)
                self.assertEqual((moc.to_string(), str(moc), moc.max_order), (expected, expected, deepest))
                self.assertEqual(MOC.from_string(text.encode()), moc)

    def test_moc_orders(self) -> None:
        moc = MOC.from_string("1/1-2 4 2/12-14 21 23 25")
        self.assertEqual(moc.to_string(max_order=8), "1/1-2 4 2/12-14 21 23 25 8/")
        self.assertEqual(moc.to_string("json", max_order=8), '{"1":[1,2,4],"2":[12,13,14,21,23,25],"8":[]}')
        self.assertEqual(MOC().to_string(max_order=8), "8/")
        self.assertEqual(MOC().to_string("json"), "{}")
        self.assertEqual(MOC.from_string("1/0-3").to_string(max_order=2), "0/0 2/")

    def test_json(self) -> None:
        moc = MOC.from_json('{"10":[],"2":[5],"1":[1]}')
        self.assertEqual(moc.to_string("json", max_order=10), '{"1":[1],"10":[]}')
        self.assertEqual(moc, MOC.from_json({"2": [5], "1": [1]}))
        keys: Any = {2: [5], 1: range(1, 2)}
        self.assertEqual(moc, MOC.from_json(keys))
        self.assertEqual(moc.serialize(), {"1": [1]})
        self.assertEqual(moc.serialize("str"), "1/1")

    def test_uniq(self) -> None:
        self.assertEqual(MOC.from_string("16\n17\n\n18\n19", "uniq").to_string(), "0/0")
        moc = MOC.from_string("1/1-2 4 2/12-14 21 23 25")
        self.assertEqual(moc.to_string("uniq").split("\n"), ["17", "18", "20", "76", "77", "78", "85", "87", "89"])
        self.assertEqual(MOC.from_uniq([17, 18, 20, 76, 77, 78, 85, 87, 89]), moc)
        self.assertEqual(MOC().to_string("uniq"), "")

    def test_protocol_of_sets(self) -> None:
        small, large, other = MOC.from_string("1/4"), MOC.from_string("0/0-1"), MOC.from_string("0/2")
        self.assertTrue(small <= large and small < large and large >= small and large > small and small <= small and small >= small)
        self.assertFalse(large <= small or small < small or small > small or large < small or other <= large or other >= large)
        self.assertEqual((small.issubset(large), large.issubset(small), large.issuperset(small)), (True, False, True))
        self.assertEqual((small.isdisjoint(other), small.isdisjoint(large)), (True, False))
        number: Any = 5
        for method in (MOC.isdisjoint, MOC.issubset, MOC.issuperset, operator.le, operator.lt, operator.ge, operator.gt):
            with self.assertRaises(TypeError):
                method(small, number)

    def test_union_of_many(self) -> None:
        cells = random_cells(9, 333)
        self.assertEqual(MOC.union_all(MOC.from_healpix_cells(cell, 9) for cell in cells), MOC.from_healpix_cells(cells, 9))
        self.assertEqual((MOC.union_all([]), MOC.union_all([MOC.full()])), (MOC(), MOC.full()))
        # Small and large sets, and many sets.
        counts = (3, 50_000, 900, 40_000, 20, 30_000, *[9000] * 40)
        sets = [set(random_cells(9, count)) for count in counts]
        self.assertEqual(MOC.union_all(MOC.from_healpix_cells(each, 9) for each in sets), MOC.from_healpix_cells(set().union(*sets), 9))
        invalid: Any = [MOC(), 3]
        with self.assertRaises(TypeError):
            MOC.union_all(invalid)

    def test_copies_and_subclasses(self) -> None:
        moc = Survey.from_string("0/0 1/4")
        self.assertIs(copy.deepcopy(moc), moc)
        self.assertIs(copy.copy(moc), moc)
        for result in (moc | MOC.full(), ~moc, moc.degrade_to_order(0), Survey.union_all([moc])):
            self.assertIs(type(result), Survey)
        self.assertEqual((hash(moc), hash(moc)), (hash(MOC.from_string("0/0 1/4")),) * 2)
        self.assertGreater(MOC.from_healpix_cells(range(0, 2000, 2), 9).__sizeof__(), 16_000)
        self.assertEqual(moc.__dask_tokenize__(), MOC.from_string("1/0-4").__dask_tokenize__())
        self.assertNotEqual(moc.__dask_tokenize__(), MOC().__dask_tokenize__())

    def test_files(self) -> None:
        moc = MOC.from_string("0/0 1/4 8/")
        with tempfile.TemporaryDirectory() as folder:
            path = pathlib.Path(folder, "moc.txt")
            texts: list[tuple[Format, str]] = [("ascii", "0/0 1/4\n"), ("json", '{"0":[0],"1":[4]}\n'), ("uniq", "4\n20\n")]
            for format, text in texts:
                moc.save(path, format, overwrite=True)
                self.assertEqual((path.read_text(), MOC.load(path, format)), (text, moc))
            moc.save(str(path), max_order=8, overwrite=True)
            self.assertEqual(path.read_text(), "0/0 1/4 8/\n")
            with self.assertRaises(FileExistsError):
                MOC().save(path)
            self.assertFault("TooCoarse", (), moc.save, path, max_order=0, overwrite=True)
            self.assertEqual(path.read_text(), "0/0 1/4 8/\n")
            value: Any = path
            with self.assertRaisesRegex(TypeError, "MOC.load"):
                MOC.from_string(value)

    def test_errors_have_values(self) -> None:
        with self.assertRaises(MocError) as caught:
            MOC.from_healpix_cells([5, 48], 1)
        self.assertEqual(caught.exception.detail, "48 is not a cell of order 1 (0 to 47)")
        self.assertTrue(str(caught.exception).endswith("(place 1): 48 is not a cell of order 1 (0 to 47)"))
        again = pickle.loads(pickle.dumps(caught.exception))
        self.assertEqual((str(again), again.place, again.detail), (str(caught.exception), (1,), caught.exception.detail))
        with self.assertRaises(MocError) as caught:
            MOC.from_healpix_cells([5, 700, 3], [1, 2, 1])
        self.assertEqual((caught.exception.place, caught.exception.detail), ((1,), "700 is not a cell of order 2 (0 to 191)"))
        with self.assertRaises(MocError) as caught:
            MOC.full().degrade_to_order(30)
        self.assertEqual(str(caught.exception), "NoSuchOrder: the order is not 0 to 29 (order 30)")

        calls: list[tuple[Callable[[], object], str]] = [
            (lambda: nest2ring(2, [0, 99]), "99 is not a cell of order 1 (0 to 47)"),
            (lambda: uniq2nest([4, 3]), "3 is not a NUNIQ number (4 to 2^62 - 1)"),
            (lambda: MOC.from_uniq(2), "2 is not a NUNIQ number (4 to 2^62 - 1)"),
            (lambda: MOC.from_ranges([(0, 1), (5, 4)]), "(5, 4)"), (lambda: nside2order(2**30), "1073741824 is above 2^29")]
        for call, detail in calls:
            with self.subTest(detail=detail), self.assertRaises(MocError) as caught:
                call()
            self.assertEqual(caught.exception.detail, detail)

    def test_hints(self) -> None:
        """Checks that an error names what the text looks like, or else quotes the text and states what must be there."""
        words, cells = "words look like 3/, 10, 12-14 or 3/10", "cells of order 1 go up to 47"
        number = "each line is one number, of digits only"
        rows: list[tuple[str, Format, str]] = [
            ('{"0":[3]}', "ascii", "this looks like JSON"), (" \n{", "uniq", "this looks like JSON"),
            ("s3/1", "json", "this looks like ASCII"), ("0/1", "uniq", "this looks like ASCII"),
            ("4\n5", "ascii", "this looks like a NUNIQ list"), ("12 13", "ascii", "`12`: an order comes first, as in 3/"),
            ("4\r\n5\r\n", "ascii", "`4`: an order comes first, as in 3/"),
            ("4\n5x 6", "uniq", f"`5x 6`: {number}"), ("12 13", "uniq", f"`12 13`: {number}"),
            ("4\n, 5,13\t", "uniq", f"`, 5,13\\x09`: {number}"), ("3\n", "uniq", "`3`: NUNIQ numbers go from 4 to 4611686018427387903"),
            ("x", "ascii", f"`x`: {words}"), ("0/1 5/7x", "ascii", f"`5/7x`: {words}"), ("5/7-", "ascii", f"`5/7-`: {words}"),
            ("s", "json", 'a text is one object, as in {"3":[10,12]}'), ("9:1,5", "json", 'a text is one object, as in {"3":[10,12]}'),
            ("12 13\n3/4", "ascii", "`12`: an order comes first, as in 3/"), ("30/1", "ascii", "`30/1`: orders go up to 29"),
            ("0/3 001/48", "ascii", f"`001/48`: {cells}"), (f"{'0' * 5000}1/ 48", "ascii", f"`48`: {cells}"),
            (f'{{"{"0" * 5000}1":[48]}}', "json", f"`48`: {cells}"), ('{"0":[3],"1":[5,48]}', "json", f"`48`: {cells}"),
            ("2/7-5", "ascii", "`2/7-5`: a range goes from its first cell to its last"),
            ('{"x":[]}', "json", "`x`: names are orders from 0 to 29"),
            ('{"1":3}', "json", '`1`: the value of an order is an array, as in {"3":[10,12]}'),
            ('{"1":[-1]}', "json", "`-1`: cells are whole numbers of at most 64 bits"),
            (f"1/{'7' * 60}x{'7' * 60}", "ascii", f"..`{'7' * 20}x{'7' * 19}`..: {words}"),
            ("", "json", 'a text is one object, as in {"3":[10,12]}'), ("9:1,5", "ascii", f"`9:1`: {words}"),
            ("\ufeff0/1", "ascii", "this looks like UTF-8 with a byte order mark"), ("<svg/>", "json", "this looks like HTML or XML")]
        for text, format, detail in rows:
            with self.subTest(text=text), self.assertRaises(MocError) as caught:
                MOC.from_string(text, format)
            self.assertEqual(caught.exception.detail, detail)
        with self.assertRaises(MocError) as caught:
            MOC.from_string('{"0":[3]}')
        self.assertEqual((caught.exception.name, caught.exception.place), ("BadByte", (0,)))

    def test_ranges_are_merged(self) -> None:
        moc = MOC.from_ranges([(4, 8), (8, 9), (0, 4)])
        self.assertRanges(moc, [(0, 9)])
        self.assertEqual(moc.to_string(), "28/0-1 29/8")
        self.assertRanges(MOC.from_ranges([(7, 7)]), [])
        self.assertRanges(MOC.from_ranges(iter([(0, 8)])) ^ MOC.from_ranges([(4, 12)]), [(0, 4), (8, 12)])

    def test_cells_of_sets(self) -> None:
        self.assertEqual(MOC.from_ranges([(3, 9)]).cells(), [(28, 1), (29, 3), (29, 8)])
        rest = (~MOC.from_ranges([(0, 1)])).cells()
        self.assertEqual((len(rest), rest[0], rest[-1]), (98, (0, 1), (29, 3)))
        self.assertRanges(MOC.from_healpix_cells([47], 1), [(3386706919782612992, PIXELS)])
        self.assertEqual(MOC.full().cells(), [(0, cell) for cell in range(12)])

    def test_operations(self) -> None:
        a, b = MOC.from_string("0/0 1/4-5"), MOC.from_json({"1": [3, 4, 6, 7], "2": [20, 32]})
        self.assertEqual(str(a | b), "0/0-1 2/32")
        self.assertEqual(str(a & b), "1/3-4 2/20")
        self.assertEqual(str(a - b), "1/0-2 2/21-23")
        self.assertEqual(str(a ^ b), "1/0-2 6-7 2/21-23 32")
        self.assertEqual(str(~a), "0/2-11 1/6-7")
        self.assertEqual(a.count(), BASE // 2 * 3)
        self.assertEqual(a.sky_fraction, 0.125)
        self.assertEqual(a.count_common(b), 9 * BASE // 16)

    def test_degrading(self) -> None:
        self.assertRanges(MOC.from_ranges([(3, 4)]).degrade_to_order(28), [(0, 4)])
        self.assertEqual(str(MOC.from_string("0/0 1/4-5").degrade_to_order(0)), "0/0-1")
        self.assertRanges(MOC.from_depth29_ranges(28, [(3, 4)]), [(0, 4)])
        self.assertRanges(MOC.from_depth29_ranges(29, [(3, 4)]), [(3, 4)])
        self.assertRanges(MOC.from_healpix_cells([3], 29, max_depth=28), [(0, 4)])
        self.assertRanges(MOC.from_healpix_cells([3, 2], [29, 28], max_depth=28), [(0, 4), (8, 12)])

    def test_cells_of_several_orders(self) -> None:
        self.assertEqual(str(MOC.from_healpix_cells([0, 4, 5, 20], [0, 1, 1, 2])), "0/0 1/4-5")
        self.assertEqual(str(MOC.from_healpix_cells(7, 1)), "1/7")

    def test_generators_keep_their_order(self) -> None:
        moc = MOC.from_ranges([(3, 9)])
        self.assertEqual(moc.contains(pixel for pixel in (8, 0, 3, 9)), [True, False, True, False])
        self.assertEqual(nest2ring(2, (cell for cell in (3, 0, 18))), [0, 13, 27])

    def test_statistics(self) -> None:
        lines = MOC.from_string("1/0-3 2/20").describe().split("\n")
        self.assertEqual(lines, ["pixels 306244774661193728", "share 0.088541666666", "area 3652.605943958997", "ranges 2",
                                 "cells 2", "order 0 1", "order 2 1"])

    def test_picture_is_svg(self) -> None:
        picture = MOC.from_string("0/4").draw()
        root = xml.etree.ElementTree.fromstring(picture)
        self.assertEqual(root.tag, "{http://www.w3.org/2000/svg}svg")
        # Base pixel 4 is a diamond at the left edge and another one at the right edge.
        self.assertIn("M0 128l128 128-128 128-128-128z", picture)
        self.assertEqual(MOC.from_string("0/4")._repr_svg_(), picture)
        self.assertNotEqual(MOC().draw(), picture)


class Objects(TestCase):
    """Sets as objects of Python."""

    def test_empty(self) -> None:
        for moc in (MOC(), MOC.new_empty(5), MOC.from_ranges([]), MOC.from_uniq([]), MOC.from_healpix_cells([], 3), ~MOC.full()):
            self.assertRanges(moc, [])
            self.assertTrue(moc.empty())
            self.assertFalse(moc)
        self.assertTrue(MOC.full())
        self.assertEqual(MOC.full().count(), PIXELS)

    def test_equal_sets_have_one_hash(self) -> None:
        one, other = MOC.from_string("1/0-3"), MOC.from_string("0/0")
        self.assertEqual(one, other)
        self.assertEqual(len({one, other, MOC.from_string("0/1")}), 2)
        self.assertNotEqual(one, MOC.from_string("0/1"))
        self.assertNotEqual(one, "0/0")

    def test_sets_are_immutable(self) -> None:
        moc = MOC.from_string("0/0")
        with self.assertRaises(AttributeError):
            setattr(moc, "max_order", 3)
        with self.assertRaises(AttributeError):
            setattr(moc, "name", "mine")
        before = moc
        moc |= MOC.from_string("0/1")
        self.assertEqual((str(before), str(moc)), ("0/0", "0/0-1"))

    def test_copies_and_pickles(self) -> None:
        moc = MOC.from_string("1/1-2 4 2/12-14 21 23 25 29/77")
        for other in (copy.copy(moc), copy.deepcopy(moc), pickle.loads(pickle.dumps(moc))):
            self.assertEqual(other, moc)
        self.assertEqual(pickle.loads(pickle.dumps(MOC())), MOC())
        for protocol in range(pickle.HIGHEST_PROTOCOL + 1):
            again = pickle.loads(pickle.dumps(Survey.from_string("0/0 5/7"), protocol))
            self.assertEqual((type(again), str(again)), (Survey, "0/0"))
        buffers: list[pickle.PickleBuffer] = []
        data = pickle.dumps(moc, 5, buffer_callback=buffers.append)
        self.assertEqual((len(buffers), len(data) < 200), (1, True))
        self.assertEqual(pickle.loads(data, buffers=buffers), moc)

    def test_pickles_are_short(self) -> None:
        """Checks that a pickle has the ranges, or the NUNIQ numbers if these are fewer bytes."""
        cells = MOC.from_healpix_cells(range(0, 40_000, 2), 9)
        ranges = MOC.from_ranges((start, start + 4**20 + 2) for start in range(1, 4**26, 4**21))
        for moc, length in ((cells, 8 * 20_000), (ranges, 16 * 4**5)):
            buffers: list[pickle.PickleBuffer] = []
            data = pickle.dumps(moc, 5, buffer_callback=buffers.append)
            self.assertEqual([len(memoryview(buffer).cast("B")) for buffer in buffers], [length])
            self.assertEqual(pickle.loads(data, buffers=buffers), moc)
            self.assertLess(len(pickle.dumps(moc, 4)), length + 200)

    def test_repr(self) -> None:
        self.assertEqual(repr(MOC.from_string("0/0 1/4-5")),
                         "<MOC: 432345564227567616 pixels, 0.125 of the sky, 1 ranges, deepest order 1>")

    def test_str_is_short(self) -> None:
        moc = MOC.from_healpix_cells(range(0, 40_000, 2), 9)
        text, whole = str(moc), moc.to_string()
        self.assertLess(len(text), 2100)
        self.assertTrue(text.endswith(f" ... ({len(whole)} characters, use to_string)"))
        self.assertTrue(whole.startswith(text.partition(" ...")[0] + " "))
        self.assertRaises(MocError, MOC.from_string, text)

    def test_pictures_of_notebooks_are_small(self) -> None:
        for moc in (MOC.from_healpix_cells(random_cells(9, 50_000), 9), MOC.from_healpix_cells(range(0, 12 * 4**7, 2), 7)):
            picture = moc._repr_svg_()
            self.assertLess(len(picture), 100_000)
            self.assertEqual(xml.etree.ElementTree.fromstring(picture).tag, "{http://www.w3.org/2000/svg}svg")
            self.assertGreater(len(moc.draw()), 100_000)

    def test_other_operands(self) -> None:
        moc = MOC.from_string("0/0")
        number: Any = 3
        text: Any = "0/0"
        cells: Any = {0}
        calls: list[Callable[[], object]] = [lambda: moc | number, lambda: moc - text, lambda: moc.union(text), lambda: moc.meets(cells)]
        for call in calls:
            with self.assertRaises(TypeError):
                call()
        self.assertEqual(moc.union(), moc)
        self.assertEqual(str(moc.union(MOC.from_string("0/1"), MOC.from_string("0/2"))), "0/0-2")
        self.assertEqual(str(MOC.full().difference(MOC.from_string("0/1-5"), MOC.from_string("0/7-11"))), "0/0 6")
        self.assertEqual(str(MOC.full().intersection(MOC.from_string("0/1-5"), MOC.from_string("0/5-11"))), "0/5")


class Random(TestCase):
    """Sets of random cells of one order, compared with sets of their numbers."""

    def pairs(self) -> Iterator[tuple[int, set[int], set[int], MOC, MOC]]:
        """Returns orders, each with two sets of its cells, as sets of Python and as coverages."""
        for order in (0, 1, 2, 4, 6, 29):
            for count in (0, 1, 7, 300):
                some, more = random_cells(order, count), random_cells(order, 100)
                if order == 29:
                    # A few adjacent pixels at either end of the sky.
                    some, more = ([at % 200 + (at % 2) * (PIXELS - 200) for at in cells] for cells in (some, more))
                yield order, set(some), set(more), MOC.from_healpix_cells(some, order), MOC.from_healpix_cells(more, order)

    def assertCells(self, moc: MOC, order: int, cells: set[int]) -> None:
        """Checks that a coverage consists of these cells of an order."""
        size = 4**(29 - order)
        self.assertRanges(moc, [(start * size, end * size) for start, end in sorted_ranges(cells)])

    def test_operations(self) -> None:
        for order, a, b, moc_a, moc_b in self.pairs():
            with self.subTest(order=order, cells=len(a)):
                self.assertCells(moc_a, order, a)
                self.assertCells(moc_a | moc_b, order, a | b)
                self.assertCells(moc_a & moc_b, order, a & b)
                self.assertCells(moc_a - moc_b, order, a - b)
                self.assertCells(moc_a ^ moc_b, order, a ^ b)
                self.assertEqual(moc_a.meets(moc_b), not a.isdisjoint(b))
                self.assertEqual(moc_a.covers(moc_b), a >= b)
                self.assertEqual(moc_a.count_common(moc_b), len(a & b) * 4**(29 - order))
                self.assertEqual(moc_a == moc_b, a == b)
                self.assertTrue((moc_a & moc_b) in moc_a)
                if order < 7:
                    self.assertCells(~moc_a, order, set(range(12 * 4**order)) - a)

    def test_counts_and_cells(self) -> None:
        for order, a, _, moc, _ in self.pairs():
            with self.subTest(order=order, cells=len(a)):
                self.assertEqual(moc.count(), len(a) * 4**(29 - order))
                self.assertEqual(moc.range_count(), len(sorted_ranges(a)))
                self.assertEqual(moc.empty(), not a)
                cells = moc.cells()
                self.assertEqual(moc.max_order, max((depth for depth, _ in cells), default=0))
                self.assertEqual(cells, sorted(cells))
                self.assertEqual({cell for depth, first in cells for shift in [2 * (order - depth)]
                                  for cell in range(first << shift, (first + 1) << shift)}, a)
                self.assertEqual(moc.cell_count_by_order(), [sum(depth == each for depth, _ in cells) for each in range(30)])
                cell_set = set(cells)
                for depth, cell in cells:
                    self.assertFalse(depth and all((depth, cell // 4 * 4 + at) in cell_set for at in range(4)), "four siblings")

    def test_degrade(self) -> None:
        for order, a, _, moc, _ in self.pairs():
            for coarse in range(0, order, max(1, order // 3)):
                with self.subTest(order=order, coarse=coarse):
                    self.assertCells(moc.degrade_to_order(coarse), coarse, {cell >> 2 * (order - coarse) for cell in a})

    def test_contains(self) -> None:
        for order, a, b, moc, _ in self.pairs():
            size = 4**(29 - order)
            pixels = [cell * size + NUMBERS.randrange(size) for cell in sorted(b) + list(a)] + [PIXELS, 2**64 - 1, 2**64, -1]
            expected = [pixel // size in a for pixel in pixels]
            self.assertEqual(moc.contains(pixels), expected)
            self.assertEqual([pixel in moc for pixel in pixels], expected)
            self.assertEqual([moc.contains(pixel) for pixel in pixels[:3]], expected[:3])

    def test_texts_and_back(self) -> None:
        for _, _, _, moc, other in self.pairs():
            for text_format in FORMATS:
                for one in (moc, other, moc ^ other):
                    self.assertEqual(MOC.from_string(one.to_string(text_format), text_format), one)

    def test_ranges_and_cells_and_back(self) -> None:
        for _, _, _, moc, _ in self.pairs():
            self.assertEqual(MOC.from_ranges(reversed(moc.ranges())), moc)
            cells = moc.cells()
            self.assertEqual(MOC.from_uniq([4**(order + 1) + cell for order, cell in cells]), moc)
            self.assertEqual(MOC.from_healpix_cells([cell for _, cell in cells], [order for order, _ in cells]), moc)
