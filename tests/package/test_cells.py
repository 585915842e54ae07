"""Cell numbers: examples, the definitions of Górski et al. (2005), and comparisons with healpy, if it is installed."""
from __future__ import annotations

import unittest
from collections.abc import Callable
from typing import Any

from ploverchaise import get_all_neighbours, neighbours, nest2ring, nest2uniq, nside2order, order2nside, pix2xyf, ring2nest, uniq2nest

from .common import PIXELS, TestCase, random_cells

healpy: Any = None
numpy: Any = None
try:
    import healpy as healpy_module
    import numpy as numpy_module
    healpy, numpy = healpy_module, numpy_module
except ImportError:
    pass

# The rows of the southern corners of the base pixels, and the columns of their centers, in halves of a side.
SOUTHERN = (2, 2, 2, 2, 3, 3, 3, 3, 4, 4, 4, 4)
CENTER = (1, 3, 5, 7, 0, 2, 4, 6, 1, 3, 5, 7)
LAST = PIXELS - 1


def every_second_bit(number: int) -> int:
    """Returns the number whose bits are the bits of `number` at even positions."""
    return int(f"{number:b}"[::-1][::2][::-1] or "0", 2)


def face_xy(order: int, cell: int) -> tuple[int, int, int]:
    """Returns the base pixel of a nested number, and x and y in it: x has the bits at even positions, y those at odd positions."""
    face, inside = divmod(cell, 4**order)
    return face, every_second_bit(inside), every_second_bit(inside >> 1)


def row_column(order: int, cell: int) -> tuple[int, int]:
    """Returns the row and the column of a cell in the HEALPix projection."""
    nside = 2**order
    face, x, y = face_xy(order, cell)
    return SOUTHERN[face] * nside - x - y - 1, (CENTER[face] * nside + x - y) % (8 * nside)


class Examples(TestCase):
    """Examples."""

    def test_rings(self) -> None:
        self.assertEqual(nest2ring(2, [0, 1, 2, 3, 16, 18]), [13, 5, 4, 0, 28, 27])
        self.assertEqual(ring2nest(2, [13, 5, 4, 0, 28, 27]), [0, 1, 2, 3, 16, 18])
        self.assertEqual(nest2ring(4, 64), 136)
        self.assertEqual(nest2ring(2**29, [LAST, 0, 288230376151711743]), [1729382259863060480, 1729382253957480448, 0])
        self.assertEqual(ring2nest(2**29, [LAST]), [3170534137668829184])
        self.assertEqual(nest2ring(1, range(12)), list(range(12)))

    def test_uniq(self) -> None:
        for order, cell, uniq in ((0, 11, 15), (3, 10, 266), (29, LAST, 4611686018427387903)):
            self.assertEqual(nest2uniq(2**order, cell), uniq)
            self.assertEqual(uniq2nest(uniq), (2**order, cell))
        self.assertEqual(uniq2nest([15, 266]), ([1, 8], [11, 10]))

    def test_neighbours(self) -> None:
        self.assertEqual(neighbours([0, 4], 0), [[1, 2, 3, 4, 5, 8], [0, 3, 5, 7, 8, 11]])
        self.assertEqual(neighbours([0, 1, 3], 1), [[1, 2, 3, 17, 19, 22, 23, 35], [0, 2, 3, 6, 7, 22, 23], [0, 1, 2, 6, 7, 11, 13, 15]])
        self.assertEqual(neighbours(3, 2), [0, 1, 2, 4, 6, 8, 9, 12])
        self.assertEqual(neighbours([], 5), [])

    def test_neighbours_by_direction(self) -> None:
        # The expected values are those of healpy 1.16.
        self.assertEqual(get_all_neighbours(1, 0), [4, -1, 3, 2, 1, -1, 5, 8])
        self.assertEqual(get_all_neighbours(2, [32, 47]), [[44, 46], [45, 28], [34, 29], [35, 12], [33, 18], [38, 16], [36, 45], [40, 44]])
        self.assertEqual(get_all_neighbours(4, 3), [2, 8, 9, 12, 6, 4, 1, 0])
        self.assertEqual(get_all_neighbours(4, []), [[]] * 8)

    def test_nest_of_healpy(self) -> None:
        self.assertEqual(pix2xyf(4, 64, nest=True), (0, 0, 4))
        self.assertEqual(get_all_neighbours(4, 3, nest=True), get_all_neighbours(4, 3))
        ring: Any = False
        calls: list[Callable[..., object]] = [pix2xyf, get_all_neighbours]
        for call in calls:
            with self.assertRaisesRegex(ValueError, "ring2nest"):
                call(4, 64, nest=ring)

    def test_sides(self) -> None:
        for order in range(30):
            self.assertEqual((order2nside(order), nside2order(2**order)), (2**order, order))
        for nside in (0, 3, -1, 12):
            with self.assertRaises(ValueError):
                nside2order(nside)
        self.assertFault("NoSuchOrder", (30,), nside2order, 2**30)
        self.assertFault("NoSuchOrder", (-1,), order2nside, -1)


class Definitions(TestCase):
    """The definitions, for all cells of small orders and for random cells."""

    def test_coordinates_in_base_pixels(self) -> None:
        for order in range(30):
            cells = random_cells(order, 200)
            xs, ys, faces = pix2xyf(2**order, cells)
            self.assertEqual(list(zip(faces, xs, ys)), [face_xy(order, cell) for cell in cells])

    def test_ring_numbers_ascend_by_row_and_column(self) -> None:
        for order in range(5):
            cells = range(12 * 4**order)
            by_ring = sorted(cells, key=lambda cell: row_column(order, cell))
            self.assertEqual(ring2nest(2**order, cells), by_ring)
            self.assertEqual(nest2ring(2**order, by_ring), list(cells))

    def test_ring_numbers_and_back(self) -> None:
        for order in range(30):
            cells = random_cells(order, 500)
            self.assertEqual(ring2nest(2**order, nest2ring(2**order, cells)), cells)

    def test_uniq_numbers_are_those_of_the_standard(self) -> None:
        for order in range(30):
            cells = random_cells(order, 200)
            uniq = nest2uniq(2**order, cells)
            self.assertEqual(uniq, [4**(order + 1) + cell for cell in cells])
            self.assertEqual(uniq2nest(uniq), ([2**order] * 200, cells))

    def test_neighbours_are_symmetric(self) -> None:
        for order in range(5):
            rows = neighbours(range(12 * 4**order), order)
            for cell, row in enumerate(rows):
                self.assertEqual(row, sorted(set(row)))
                self.assertTrue(all(cell in rows[other] and other != cell for other in row))
            # Eight points of the sphere are corners of only three cells.
            self.assertEqual([len(row) for row in rows].count(8), 12 * 4**order - 24 if order else 0)

    def test_directions_lead_to_neighbours(self) -> None:
        for order in range(30):
            cells = random_cells(order, 200)
            rows = zip(*get_all_neighbours(2**order, cells))
            self.assertEqual([sorted(cell for cell in row if cell >= 0) for row in rows], neighbours(cells, order))


@unittest.skipUnless(healpy, "healpy is not installed")
class ComparedWithHealpy(TestCase):
    """Comparisons with healpy, on arrays."""

    def test_numbers(self) -> None:
        for order in range(30):
            nside, cells = 2**order, numpy.array(random_cells(order, 20_000))
            rings = nest2ring(nside, cells)
            numpy.testing.assert_array_equal(rings, healpy.nest2ring(nside, cells))
            numpy.testing.assert_array_equal(ring2nest(nside, cells), healpy.ring2nest(nside, cells))
            numpy.testing.assert_array_equal(numpy.stack(pix2xyf(nside, cells)), numpy.stack(healpy.pix2xyf(nside, cells, nest=True)))
            self.assertEqual(rings.dtype, numpy.int64)

    def test_neighbours(self) -> None:
        for order in range(1, 30):
            cells = numpy.array(random_cells(order, 5_000))
            ours = numpy.sort(neighbours(cells, order), axis=1)
            numpy.testing.assert_array_equal(ours, numpy.sort(healpy.get_all_neighbours(2**order, cells, nest=True).T, axis=1))

    def test_neighbours_by_direction(self) -> None:
        for order in range(30):
            nside, cells = 2**order, numpy.array(random_cells(order, 5_000))
            numpy.testing.assert_array_equal(get_all_neighbours(nside, cells), healpy.get_all_neighbours(nside, cells, nest=True))
