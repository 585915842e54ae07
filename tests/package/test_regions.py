"""Cells at borders, connected parts, cells by values, and folded lines, compared with searches over all cells of an order."""
from __future__ import annotations

import json

from ploverchaise import MOC, get_all_neighbours, neighbours

from .common import NUMBERS, TestCase, random_cells, sorted_ranges

# The directions of `get_all_neighbours` in which cells have a side in common.
SIDES = (0, 2, 4, 6)


def touching(order: int, cell: int, has_corners: bool) -> set[int]:
    """Returns the cells of an order that touch a cell along a side, or also in a corner."""
    return {other for direction, other in enumerate(get_all_neighbours(2**order, cell))
            if other >= 0 and (has_corners or direction in SIDES)}


def flood(order: int, cells: set[int], has_corners: bool) -> list[set[int]]:
    """Returns the connected parts of a set of cells of an order, by their first cells."""
    parts, rest = [], set(cells)
    while rest:
        part, found = set(), [min(rest)]
        while found:
            cell = found.pop()
            if cell in rest:
                rest.remove(cell)
                part.add(cell)
                found += touching(order, cell, has_corners)
        parts.append(part)
    return parts


def sample_sets() -> list[tuple[int, set[int]]]:
    """Returns orders, each with a set of its cells."""
    samples = [(order, set(random_cells(order, count))) for order in (0, 1, 2, 3, 5) for count in (0, 1, 5, 60)]
    samples += [(2, set(random_cells(2, 90))) for _ in range(10)]
    samples += [(4, set(range(12 * 4**4)) - set(random_cells(4, 3))), (3, set(range(12 * 4**3))), (4, set(range(256, 700)))]
    return samples + [(5, {cell for start in random_cells(5, 40) for cell in range(start & ~15, (start & ~15) + 16)})]


class Borders(TestCase):
    """Cells at the border of a MOC."""

    def test_neighbours_are_added_and_removed(self) -> None:
        for order, cells in sample_sets():
            moc = MOC.from_healpix_cells(cells, order)
            with self.subTest(order=order, moc=str(moc)):
                around = {other for cell in cells for other in neighbours(cell, order)}
                kept = {cell for cell in cells if cells.issuperset(neighbours(cell, order))}
                self.assertEqual(moc.add_neighbours(order), MOC.from_healpix_cells(cells | around, order))
                self.assertEqual(moc.remove_neighbours(order), MOC.from_healpix_cells(kept, order))

    def test_the_order_is_that_of_the_deepest_cell(self) -> None:
        moc = MOC.from_string("1/1-2 4 2/12-14 21 23 25")
        self.assertEqual(moc.add_neighbours(), moc.add_neighbours(2))
        self.assertNotEqual(moc.add_neighbours(), moc.add_neighbours(3))
        self.assertFault("TooCoarse", (), moc.add_neighbours, 1)
        self.assertFault("TooCoarse", (), moc.remove_neighbours, 0)
        self.assertFault("NoSuchOrder", (30,), moc.add_neighbours, 30)

    def test_large_cells_with_a_small_hole(self) -> None:
        """Checks that the time depends on the border, and not on the area: the sky has 3·10^18 cells of order 29."""
        hole = MOC.from_healpix_cells([2**50 + 12345], 29)
        self.assertEqual((~hole).add_neighbours(), MOC.full())
        self.assertEqual((~hole).remove_neighbours(), ~hole.add_neighbours())
        self.assertEqual(hole.add_neighbours().count(), 9)
        self.assertEqual((MOC.full().add_neighbours(29), MOC().add_neighbours(29)), (MOC.full(), MOC()))


class Parts(TestCase):
    """Connected parts."""

    def test_parts_are_those_of_a_flood(self) -> None:
        for order, cells in sample_sets():
            moc = MOC.from_healpix_cells(cells, order)
            for has_corners in (False, True):
                with self.subTest(order=order, moc=str(moc), has_corners=has_corners):
                    expected = [MOC.from_healpix_cells(part, order) for part in flood(order, cells, has_corners)]
                    self.assertEqual(moc.split(include_indirect_neighbours=has_corners), expected)
                    self.assertEqual(moc.split_count(has_corners), len(expected))

    def test_cells_of_several_orders(self) -> None:
        """Checks that a large cell is connected with the small cells at its sides, and only in a corner with others."""
        # By healpy, cell 3/277 is the neighbour of cell 3/0 to the south-west.
        self.assertEqual([str(part) for part in MOC.from_string("0/0 6 3/256 277 28/5").split()], ["0/0 3/277", "3/256", "0/6"])
        self.assertEqual(MOC.from_string("0/0 2/31").split_count(), 1)
        # Cell 2/4 is in cell 1/1, which has a side in common with cell 1/3, but 2/4 is not at this side.
        self.assertEqual([str(part) for part in MOC.from_string("1/3 2/4").split(True)], ["2/4", "1/3"])
        self.assertEqual(MOC.from_string("1/3 2/6").split_count(), 1)


class Values(TestCase):
    """Cells by their values."""

    def test_the_densest_cells(self) -> None:
        # Cells of order 1 with 16/16 of the sky's value in sixteenths, by their numbers.
        uniq, values = [16, 17, 18, 19], [2 / 16, 8 / 16, 5 / 16, 1 / 16]
        rows = [(0.5, "1/1"), (13 / 16, "1/1-2"), (15 / 16, "1/0-2"), (1.0, "0/0"), (0.6, "1/1"), (0.49, ""), (0.0, "")]
        for limit, expected in rows:
            self.assertEqual(str(MOC.from_valued_healpix_cells(uniq, values, cumul_to=limit)), expected, limit)
        self.assertEqual(str(MOC.from_valued_healpix_cells(uniq, values, cumul_to=0.6, strict=False)), "1/1-2")
        self.assertEqual(str(MOC.from_valued_healpix_cells(uniq, values, cumul_from=0.5)), "1/0 2-3")
        self.assertEqual(str(MOC.from_valued_healpix_cells(uniq, values, cumul_from=0.5, cumul_to=0.9)), "1/2")
        self.assertEqual(str(MOC.from_valued_healpix_cells(uniq, values, cumul_to=0.5, asc=True)), "1/0 2-3")

    def test_the_density_counts(self) -> None:
        """Checks that a small cell with a smaller value comes first if its density is greater."""
        self.assertEqual(str(MOC.from_valued_healpix_cells([4, 80], [0.6, 0.4], cumul_to=0.5)), "2/16")
        self.assertEqual(str(MOC.from_valued_healpix_cells([4, 80], [0.6, 0.4], cumul_to=0.5, asc=True)), "")

    def test_cells_are_split(self) -> None:
        # A quarter of the value of cell 0/0 is in each of its cells of order 1, and a sixteenth in those of order 2.
        rows = [(0.5, 1, {}, "1/0-1"), (0.5, 2, {}, "1/0-1"), (0.6, 1, {}, "1/0-1"), (0.6, 1, {"strict": False}, "1/0-2"),
                (0.6, 2, {}, "1/0-1 2/8"), (0.5, 1, {"reverse_decent": True}, "1/2-3"), (0.75, 1, {"cumul_from": 0.25}, "1/1-2")]
        for limit, order, options, expected in rows:
            moc = MOC.from_valued_healpix_cells([4], [1.0], order, cumul_to=limit, no_split=False, **options)  # type: ignore[arg-type]
            self.assertEqual(str(moc), expected, (limit, order, options))

    def test_the_order_of_the_result(self) -> None:
        self.assertEqual(str(MOC.from_valued_healpix_cells([80, 81], [0.5, 0.5], 1)), "1/4")

    def test_invalid_values(self) -> None:
        self.assertFault("NotUniq", (1,), MOC.from_valued_healpix_cells, [4, 3], [0.5, 0.5])
        self.assertFault("NoSuchOrder", (30,), MOC.from_valued_healpix_cells, [4], [0.5], 30)
        for values in ([0.5], [0.5, float("nan")]):
            with self.assertRaises(ValueError):
                MOC.from_valued_healpix_cells([4, 5], values)


class FoldedLines(TestCase):
    """Texts with lines of a maximal length."""

    def test_lines(self) -> None:
        moc = MOC.from_string("1/1-2 4 2/12-14 21 23 25")
        self.assertEqual(moc.to_string("ascii", 12, max_order=8).split("\n"), ["1/1-2 4", "2/12-14 21", "23 25 8/"])
        self.assertEqual(moc.to_string("json", 14).split("\n"), ['{"1":[1,2,4],', '"2":[12,13,14,', "21,23,25]}"])
        with self.assertRaises(ValueError):
            moc.to_string(fold=-1)

    def test_random_texts(self) -> None:
        moc = MOC.from_healpix_cells(random_cells(9, 2000), 9)
        for width in (1, 7, 20, 80, 10**6):
            ascii_lines, json_lines = moc.to_string(fold=width).split("\n"), moc.to_string("json", width).split("\n")
            self.assertEqual((" ".join(ascii_lines), "".join(json_lines)), (moc.to_string(), moc.to_string("json")))
            self.assertEqual(MOC.from_string("\n".join(ascii_lines)), moc)
            self.assertEqual(json.loads("\n".join(json_lines)), moc.serialize())
            self.assertTrue(all(len(line) <= width or " " not in line for line in ascii_lines))
            self.assertTrue(all(len(line) <= width or line.rstrip(",").count(",") == 0 for line in json_lines))
            starts = [line.partition(" ")[0] for line in ascii_lines[1:]]
            self.assertTrue(all(len(line) + 1 + len(word) > width for line, word in zip(ascii_lines, starts)))

    def test_runs_of_ranges(self) -> None:
        ranges = sorted_ranges({NUMBERS.randrange(3000) for _ in range(500)})
        moc = MOC.from_ranges(ranges)
        self.assertEqual(MOC.from_string(moc.to_string(fold=40)).ranges(), ranges)
