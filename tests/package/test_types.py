"""The types of results, as mypy infers them for users, and as the calls return them.

`tests/lint.py` checks this file with `mypy --strict`."""
from __future__ import annotations

import unittest
from typing import TYPE_CHECKING, Any, assert_type

import ploverchaise
from ploverchaise import MOC, MapClient, SharedMap, get_all_neighbours, neighbours, nest2ring, nest2uniq, pix2xyf, ring2nest, uniq2nest

from .common import TestCase

if TYPE_CHECKING:
    import numpy
    from numpy.typing import NDArray

    Int64Array = NDArray[numpy.int64]
    BoolArray = NDArray[numpy.bool_]
else:
    Int64Array = BoolArray = object
    try:
        import numpy
    except ImportError:
        numpy = None


class Survey(MOC):
    """A subclass of a user."""


class Types(TestCase):
    """Types that mypy infers, and the kinds of the same values."""

    def test_numbers(self) -> None:
        number, numbers = nest2ring(8, 3), ring2nest(8, [3, 5])
        assert_type(number, int)
        assert_type(numbers, list[int])
        assert_type(nest2uniq(8, range(3)), list[int])
        assert_type(uniq2nest(266), tuple[int, int])
        assert_type(uniq2nest([266]), tuple[list[int], list[int]])
        assert_type(pix2xyf(4, 64, nest=True), tuple[int, int, int])
        assert_type(neighbours(3, 2), list[int])
        assert_type(neighbours([3], 2), list[list[int]])
        assert_type(get_all_neighbours(4, 3), list[int])
        self.assertEqual([type(value) for value in (number, numbers, uniq2nest(266), neighbours([3], 2)[0])], [int, list, tuple, list])

    def test_sets(self) -> None:
        moc, survey = MOC.from_string("0/0 1/4-5"), Survey.from_string("0/0")
        assert_type(moc | survey, MOC)
        assert_type(survey | moc, Survey)
        assert_type(~survey, Survey)
        assert_type(Survey.from_healpix_cells([3], 2), Survey)
        assert_type(Survey.union_all([moc]), Survey)
        assert_type(survey.split(), list[Survey])
        assert_type(moc.contains(3), bool)
        assert_type(moc.contains([3, 4]), list[bool])
        assert_type(moc.contains_cells({3, 4}, depth=2), list[bool])
        assert_type(moc.intersects_cells(3, 2), bool)
        assert_type(moc.serialize(), dict[str, list[int]])
        assert_type(moc.serialize("str"), str)
        assert_type(moc.ranges(), list[tuple[int, int]])
        assert_type(moc.sky_fraction, float)
        assert_type(moc == 3, bool)
        kinds = [survey | moc, ~survey, Survey.from_healpix_cells([3], 2), Survey.union_all([moc]), survey.split()[0]]
        self.assertEqual({type(value) for value in kinds}, {Survey})
        self.assertEqual((type(moc.contains(3)), type(moc.contains([3])[0]), type(moc.sky_fraction)), (bool, bool, float))

    def test_maps(self) -> None:
        shared = SharedMap(MOC.full(), clients=2)
        client = shared.client()
        assert_type(client, MapClient)
        assert_type(client.apply("count 0/0", timeout=1.5), str)
        assert_type(shared.moc(), MOC)
        self.assertIs(type(shared.moc()), MOC)

    @unittest.skipUnless(numpy, "numpy is not installed")
    def test_arrays(self) -> None:
        cells, moc = numpy.arange(4), MOC.from_string("0/0 1/4-5")
        assert_type(nest2ring(8, cells), Int64Array)
        assert_type(neighbours(cells, 3), Int64Array)
        assert_type(moc.contains(cells), BoolArray)
        assert_type(moc.intersects_cells(cells, 3), BoolArray)
        assert_type(moc.to_depth29_ranges, Int64Array)
        assert_type(moc.flatten(2), Int64Array)
        assert_type(MOC.from_ranges(moc.to_depth29_ranges), MOC)
        assert_type(MOC.from_healpix_cells(cells, numpy.full(4, 3)), MOC)
        assert_type(moc.degrade_to_order(numpy.int64(3)), MOC)
        arrays = (nest2ring(8, cells), neighbours(cells, 3), moc.uniq_hpx, moc.flatten(2))
        self.assertEqual({str(array.dtype) for array in arrays}, {"int64"})
        self.assertEqual(moc.contains(cells).dtype, bool)

    def test_all_names_are_exported(self) -> None:
        names: list[Any] = [getattr(ploverchaise, name) for name in ploverchaise.__all__]
        self.assertEqual([name.__module__.partition(".")[0] for name in names], ["ploverchaise"] * len(names))
