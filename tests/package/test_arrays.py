"""Arrays of numpy as arguments and as results."""
from __future__ import annotations

import sys
import unittest
from collections.abc import Callable
from typing import Any

from ploverchaise import MOC, _arrays, get_all_neighbours, neighbours, nest2ring, nest2uniq, pix2xyf, ring2nest, uniq2nest

from .common import NUMBERS, PIXELS, TestCase, random_cells

numpy: Any = None
try:
    import numpy as numpy_module
    numpy = numpy_module
except ImportError:
    pass


pandas: Any = None
try:
    import pandas as pandas_module
    pandas = pandas_module
except ImportError:
    pass


class WithoutNumpy(TestCase):
    """The package without numpy."""

    def test_numpy_is_optional(self) -> None:
        if numpy is None:
            with self.assertRaises(ImportError):
                MOC.full().to_depth29_ranges
        modules = [name for name in sys.modules if name.startswith("ploverchaise")]
        self.assertFalse([name for name in modules if hasattr(sys.modules[name], "numpy")])

    def test_results_have_the_type_of_arguments(self) -> None:
        arguments: list[tuple[Any, Any]] = [(3, 0), ([3, 0], [0, 13]), ((3, 0), [0, 13]), (range(2), [13, 5]), ({3}, [0]), (iter([3]), [0]),
                                            ([], [])]
        for argument, expected in arguments:
            result = nest2ring(2, argument)
            self.assertEqual((result, type(result)), (expected, type(expected)))
        for argument in ([], MOC()._bounds(), *([numpy.zeros(0, "int64")] if numpy else [])):
            address, count, _ = _arrays.as_input(argument).buffer(slice(0, 0))
            self.assertEqual((address != 0, count), (True, 0))
        self.assertIs(MOC.full().contains(7), True)
        self.assertEqual(MOC.full().contains([7]), [True])


@unittest.skipUnless(numpy, "numpy is not installed")
class WithNumpy(TestCase):
    """The package with numpy."""

    def assertArray(self, actual: Any, expected: Any, dtype: str) -> None:
        """Checks the elements and the type of an array."""
        numpy.testing.assert_array_equal(actual, expected)
        self.assertEqual(actual.dtype, dtype)

    def test_types_of_numbers(self) -> None:
        for kind in ("int8", "uint8", "int32", "uint32", "int64", "uint64", ">i8", ">u4"):
            self.assertArray(nest2ring(2, numpy.array([0, 1, 2, 3, 16, 18], kind)), [13, 5, 4, 0, 28, 27], "int64")
        for kind in ("float64", "bool", "object", "U2"):
            with self.assertRaises(TypeError):
                nest2ring(2, numpy.array([1, 0], kind))
        self.assertArray(nest2ring(2, numpy.array([])), [], "int64")

    def test_views_of_arrays(self) -> None:
        cells = numpy.array(random_cells(29, 600))
        expected = ring2nest(2**29, cells.tolist())
        self.assertArray(ring2nest(2**29, cells[::-1]), expected[::-1], "int64")
        self.assertArray(ring2nest(2**29, cells[1::3]), expected[1::3], "int64")
        records = numpy.zeros(600, numpy.dtype([("name", "S3"), ("cell", ">i8")]))
        records["cell"] = cells
        self.assertArray(ring2nest(2**29, records["cell"]), expected, "int64")
        shifted = numpy.frombuffer(b"." + cells.tobytes(), "i8", offset=1)
        self.assertArray(ring2nest(2**29, shifted), expected, "int64")
        self.assertEqual(_arrays.as_input(shifted).buffer(slice(0, 600)).address % 8, 0)
        bits = numpy.frombuffer(b"." + cells.tobytes(), numpy.uint8)[1:].view(numpy.uint64)
        self.assertFalse(bits.flags.aligned)
        self.assertArray(ring2nest(2**29, bits), expected, "int64")
        self.assertArray(MOC.full().contains(bits), [True] * 600, "bool")
        self.assertEqual(MOC.from_healpix_cells(bits, 29), MOC.from_healpix_cells(cells, 29))
        pairs = numpy.frombuffer(b"." + numpy.array([[3, 7], [9, 20]]).tobytes(), numpy.uint8)[1:].view(numpy.uint64).reshape(2, 2)
        self.assertFalse(pairs.flags.aligned)
        self.assertEqual(MOC.from_ranges(pairs), MOC.from_ranges([(3, 7), (9, 20)]))
        frozen = cells.copy()
        frozen.flags.writeable = False
        self.assertArray(ring2nest(2**29, frozen), expected, "int64")

    def test_shapes(self) -> None:
        cells = numpy.arange(24).reshape(2, 3, 4)
        self.assertEqual(nest2ring(2, cells).shape, (2, 3, 4))
        self.assertEqual(neighbours(cells, 1).shape, (2, 3, 4, 8))
        self.assertEqual(get_all_neighbours(2, cells).shape, (8, 2, 3, 4))
        self.assertEqual(MOC.full().contains(cells).shape, (2, 3, 4))
        self.assertEqual(nest2ring(2, cells.T)[3, 2, 1], nest2ring(2, 23))
        one = nest2ring(2, numpy.int64(3))
        self.assertEqual((one, type(one)), (0, numpy.int64))
        self.assertArray(neighbours(numpy.int64(3), 2), [0, 1, 2, 4, 6, 8, 9, 12], "int64")

    def test_missing_neighbours(self) -> None:
        self.assertArray(neighbours(numpy.array([0, 1]), 1), [[1, 2, 3, 17, 19, 22, 23, 35], [0, 2, 3, 6, 7, 22, 23, -1]], "int64")
        self.assertArray(get_all_neighbours(2, numpy.int64(1)), [0, 2, 3, 7, 6, -1, 23, 22], "int64")
        self.assertArray(get_all_neighbours(1, numpy.array([0, 4])), list(zip(
            [4, -1, 3, 2, 1, -1, 5, 8], [11, 7, 3, -1, 0, 5, 8, -1])), "int64")

    def test_pairs_and_triples(self) -> None:
        cells = numpy.array(random_cells(20, 500))
        nsides, back = uniq2nest(nest2uniq(2**20, cells))
        self.assertArray(nsides, [2**20] * 500, "int64")
        self.assertArray(back, cells, "int64")
        for actual, expected in zip(pix2xyf(2**20, cells), pix2xyf(2**20, cells.tolist())):
            self.assertArray(actual, expected, "int64")

    def test_errors_have_positions(self) -> None:
        self.assertFault("NoSuchCell", (1,), nest2ring, 2, numpy.array([0, -1, 48]))
        self.assertFault("NoSuchCell", (3,), neighbours, numpy.array([[0, 1], [2, 48]]), 1)
        self.assertFault("NoSuchCell", (1,), get_all_neighbours, 2, numpy.array([0, 48]))
        self.assertFault("NotUniq", (0,), uniq2nest, numpy.array([2**63], "uint64"))
        self.assertFault("Backwards", (1,), MOC.from_ranges, numpy.array([[0, 1], [3, 2]]))
        self.assertFault("PixelTooLarge", (0,), MOC.from_ranges, numpy.array([[0, -1]]))
        for shape in ((4,), (1, 4), (2, 2, 1)):
            with self.assertRaises(ValueError):
                MOC.from_ranges(numpy.zeros(shape, "int64"))

    def test_sets_as_arrays(self) -> None:
        cells = numpy.array(random_cells(8, 2000))
        moc = MOC.from_healpix_cells(cells, 8)
        self.assertEqual(moc, MOC.from_healpix_cells(cells.tolist(), 8))
        self.assertEqual(moc, MOC.from_healpix_cells(cells, numpy.full(2000, 8)))
        ranges, uniq = moc.to_depth29_ranges, moc.uniq_hpx
        self.assertArray(ranges, moc.ranges(), "int64")
        self.assertArray(uniq, [4**(order + 1) + cell for order, cell in moc.cells()], "int64")
        self.assertEqual(MOC.from_depth29_ranges(29, ranges), moc)
        self.assertEqual(MOC.from_uniq(uniq), moc)
        self.assertEqual((MOC().to_depth29_ranges.shape, MOC().uniq_hpx.shape), ((0, 2), (0,)))
        self.assertEqual(MOC.from_ranges(MOC().to_depth29_ranges), MOC())

    def test_masked_entries(self) -> None:
        cells = numpy.ma.masked_equal([100, 101, 0], 0)
        self.assertEqual(str(MOC.from_healpix_cells(cells, 9)), "9/100-101")
        self.assertEqual(MOC.from_uniq(numpy.ma.masked_equal([4, 0, 5], 0)), MOC.from_string("0/0-1"))
        self.assertEqual(MOC.from_ranges(numpy.ma.masked_equal([[0, 4], [7, 9]], 7)), MOC.from_ranges([(0, 4)]))
        self.assertEqual(str(MOC.from_healpix_cells(numpy.ma.array([3, 4]), 9)), "9/3-4")
        with self.assertRaises(TypeError):
            MOC.full().contains(cells)
        with self.assertRaises(TypeError):
            nest2ring(16, cells)

    @unittest.skipUnless(pandas, "pandas is not installed")
    def test_columns_of_pandas(self) -> None:
        table = pandas.DataFrame({"cell": pandas.array([100, None, 101], "Int64"), "order": [9, 9, 9]})
        self.assertEqual(str(MOC.from_healpix_cells(table["cell"], 9)), "9/100-101")
        self.assertEqual(MOC.from_uniq(pandas.Series([4, None, 5], dtype="UInt32")), MOC.from_string("0/0-1"))
        whole = table["cell"].dropna()
        self.assertArray(nest2ring(512, whole), nest2ring(512, [100, 101]), "int64")
        self.assertArray(MOC.full().contains(whole.array), [True, True], "bool")
        self.assertEqual(MOC.from_healpix_cells(whole, table["order"][whole.index]), MOC.from_healpix_cells([100, 101], 9))
        self.assertEqual(str(MOC.from_healpix_cells(table["cell"], table["order"])), "9/100-101")
        masked = numpy.ma.array([1, 2], mask=[False, True])
        self.assertEqual(str(MOC.from_healpix_cells(masked, [3, 4])), "3/1")
        self.assertEqual(str(MOC.from_healpix_cells([1, 2], masked + 2)), "3/1")
        calls: list[Callable[[], object]] = [lambda: MOC.full().contains(table["cell"]), lambda: nest2ring(512, table["cell"])]
        for call in calls:
            with self.assertRaisesRegex(TypeError, "missing"):
                call()

    def test_integers_of_numpy(self) -> None:
        moc = MOC.from_string("0/0 1/4")
        keys: Any = {numpy.int64(1): numpy.array([4]), numpy.uint8(0): [numpy.int32(0)]}
        self.assertEqual(MOC.from_json(keys), moc)
        self.assertEqual(moc.degrade_to_order(numpy.int64(0)), MOC.from_string("0/0-1"))
        self.assertEqual(nest2ring(numpy.int64(2), numpy.array(3)), 0)
        self.assertEqual((numpy.int64(0) in moc, numpy.uint64(2**63) in moc), (True, False))
        self.assertEqual(MOC.from_healpix_cells(numpy.array(4), numpy.int8(1)), MOC.from_string("1/4"))
        with self.assertRaises(TypeError):
            nest2ring(2, numpy.ma.masked)

    def test_lazy_arrays(self) -> None:
        class Lazy:
            """An array that is not computed yet, as those of Dask."""

            def __dask_graph__(self) -> None:
                """Is never called."""

        lazy: Any = Lazy()
        calls: list[Any] = [MOC.full().contains, MOC.from_uniq, MOC.from_ranges]
        for call in calls:
            with self.assertRaisesRegex(TypeError, "compute"):
                call(lazy)
        with self.assertRaisesRegex(TypeError, "compute"):
            MOC.from_healpix_cells(lazy, 3)

    def test_cells_of_an_order(self) -> None:
        for order in (0, 3, 7, 20):
            moc = MOC.from_string("3/1-30 5/2000-2100 8/70000 29/5")
            below = 12 * 4**order
            cells = numpy.array([*range(min(below, 800)), *random_cells(order, 200), -1, below, below - 1])
            sets = [MOC.from_healpix_cells(cell, order) if 0 <= cell < below else None for cell in cells.tolist()]
            whole = [cell is not None and moc.covers(cell) for cell in sets]
            partly = [cell is not None and moc.meets(cell) for cell in sets]
            self.assertArray(moc.contains(cells, order), whole, "bool")
            self.assertArray(moc.intersects_cells(cells, order), partly, "bool")
            self.assertEqual((moc.contains(cells.tolist(), order), moc.intersects_cells(cells.tolist(), order)), (whole, partly))
        self.assertArray(MOC().contains(numpy.array([0, 1]), 1), [False, False], "bool")

    def test_cells_as_one_array(self) -> None:
        cells = numpy.unique(random_cells(6, 3000))
        moc = MOC.from_healpix_cells(cells, 6)
        self.assertArray(moc.flatten(6), cells, "int64")
        self.assertArray(moc.flatten(7), (4 * cells[:, None] + numpy.arange(4)).reshape(-1), "int64")
        self.assertArray(MOC.from_string("1/0-3").flatten(), [0], "int64")
        self.assertArray(MOC().flatten(), [], "int64")
        self.assertFault("TooCoarse", (), moc.flatten, 5)
        self.assertFault("NoSuchOrder", (30,), moc.flatten, 30)

    def test_contains_and_search(self) -> None:
        for count in (0, 1, 30, 30_000):
            moc = MOC.from_healpix_cells(random_cells(9, count), 9)
            bounds = moc.to_depth29_ranges.astype("int64").reshape(-1)
            for length in (0, 1, 2000, 600_000):
                inside = bounds[:length] + NUMBERS.randrange(-1, 2)
                pixels = numpy.concatenate([numpy.array(random_cells(29, length), "int64"), inside, [0, PIXELS - 1, PIXELS, -1]])
                numpy.random.default_rng(count).shuffle(pixels)
                expected = numpy.searchsorted(bounds, pixels, side="right") % 2 == 1
                self.assertArray(moc.contains(pixels), expected, "bool")
                self.assertArray(moc.contains(numpy.sort(pixels)), expected[numpy.argsort(pixels)], "bool")
            self.assertEqual(moc.contains(pixels[:3000].tolist()), expected[:3000].tolist())
