"""Sky coverages, which are sets of HEALPix cells."""
from __future__ import annotations

import operator
import os
from array import array
from collections.abc import Iterable, Iterator, Mapping
from functools import partial
from itertools import chain
from typing import TYPE_CHECKING, Any, Literal, Self, SupportsIndex, TypeVar, overload

from ._arrays import (MIN_RANGES_FOR_SORTING, PIECE_LENGTH, ArrayLike, Buffer, Input, Integers, Numbers, Pairs, PlainInput, as_input,
                      as_pairs, buffer_of, pieces_of, without_missing, without_missing_rows, zeros)
from ._codes import NO_SUCH_ORDER, TOO_COARSE
from ._library import (MAX_BRIEF_RANGES, NO_ORDER, brief_functions, c_arguments, call_on_rows, call_with_store, check_result, new_handle,
                       open_store, run_interruptibly, store_functions, text_of)
from ._regions import border_cells, components, ranges_by_value
from ._signatures import Result, StoreHandle
from .errors import MocError, check_order, too_coarse

if TYPE_CHECKING:
    from pickle import PickleBuffer

    import numpy
    from numpy.typing import NDArray

Format = Literal["ascii", "json", "uniq"]
"""The name of a text format."""
AnyMOC = TypeVar("AnyMOC", bound="MOC")

PIXEL_COUNT = 12 * 4**29
"""The number of pixels of the sky, which are cells of order 29."""

# The functions of the library that parse a text, by the name of its format.
_PARSERS = {"ascii": "read_ascii", "json": "read_json", "uniq": "read_uniq"}
# A call with MOCs of more ranges, or with a longer text, may take long.
_MAX_SHORT_RANGES, _MAX_SHORT_TEXT = 500_000, 2**22
# An error quotes a part only of a text that is not longer. To find the part in JSON, Python parses the text again, and no other thread of
# Python runs meanwhile.
_MAX_QUOTED_TEXT = 2**18
# At most this number of pixels is looked up without a copy of the MOC.
_MAX_SHORT_LENGTH = 1000
# At most this number of ascending pixels is looked up at once. The library walks through the ranges with them, from the first one.
_MAX_ASCENDING_LENGTH = 2**21
# The orders to which a picture is degraded until it is small. Order 29 leaves it unchanged.
_PICTURE_ORDERS = (29, 6, 5, 4, 3, 2, 1, 0)
# The maximal numbers of characters of `str`, and of bytes of the picture that a notebook displays.
_MAX_STR_LENGTH, _MAX_PICTURE_LENGTH = 2000, 100_000
_contains = brief_functions["contains"]


class MOC:
    """An immutable set of pixels, which are HEALPix cells of order 29, by their nested numbers.

    `MOC()` is the empty set. Two MOCs are equal if they have the same pixels. A MOC does not keep the MOC order that a text states. A MOC
    is true if it is not empty.

    Any thread may use any MOC. Threads run side by side while the library computes. A call raises MemoryError if an allocation fails.

    A MOC is stored as sorted ranges of pixels. If its description does not state otherwise, a method takes time that is linear in the
    number of ranges of its operands. A set operation with several MOCs combines them one after the other.

    Examples
    --------
    >>> moc = MOC.from_string("0/0 1/4-5")
    >>> print(moc - MOC.from_string("1/4"))
    0/0 1/5
    >>> moc.contains([0, 2**60])
    [True, False]
    """

    __slots__ = ("_store", "_id", "_range_bound", "_hash", "__weakref__")
    # The store that has only this coverage, and the id of the coverage in it.
    _store: StoreHandle
    _id: int
    # An upper bound of the number of ranges.
    _range_bound: int
    # The hash, after the first time that it is needed.
    _hash: int

    def __init__(self) -> None:
        self._store = open_store(0)
        self._id = call_with_store("empty", self._store).first
        self._range_bound = 0

    @classmethod
    def _from_call(cls, function: str, *arguments: Any, range_bound: int) -> Self:
        """Returns the coverage that a function of the library makes, which has at most this number of ranges."""
        store = open_store(range_bound)
        return cls._in_store(store, call_with_store(function, store, *c_arguments(*arguments)).first, range_bound)

    @classmethod
    def _from_input(cls, function: str, order: int | None, numbers: Input) -> Self:
        """Returns the coverage that a function of the library makes of an order, if there is one, and numbers."""
        count = len(numbers)
        make = partial(cls._from_call, function, range_bound=count)
        if count <= PIECE_LENGTH:
            return call_on_rows(make, order, slice(0, count), numbers)
        private = numbers.private()
        return run_interruptibly(lambda: call_on_rows(make, order, slice(0, count), private))

    @classmethod
    def _in_store(cls, store: StoreHandle, coverage_id: int, range_bound: int) -> Self:
        """Returns the only coverage of a store."""
        moc = cls.__new__(cls)
        moc._store, moc._id, moc._range_bound = store, coverage_id, range_bound
        return moc

    def _copy_to(self, store: StoreHandle) -> int:
        """Copies the coverage to a store, and returns its id there. Takes O(n / 128) for n ranges."""
        return call_with_store("share", self._store, self._id, store).first

    def _change(self, function: str, *order: int) -> Self:
        """Returns the coverage that a function makes of this MOC, and of an order if there is one."""
        bound = self._range_bound + 1
        store = open_store(bound)
        copied = self._copy_to(store)
        made = _call(function, store, copied, *order, is_long=_have_many_ranges(self)).first
        call_with_store("free", store, copied)
        return self._in_store(store, made, bound)

    def _combine(self, operation: str, other: MOC) -> Self:
        """Returns the result of an operation with another MOC. Raises TypeError if the argument is not a MOC."""
        if not isinstance(other, MOC):
            _check_moc(other)
        bound = self._range_bound + other._range_bound + 1
        store = new_handle(bound)
        return self._in_store(store, _call_with_pair(operation, bound, self, other, store).first, bound)

    # Constructors

    @classmethod
    def new_empty(cls, max_depth: SupportsIndex = 29) -> Self:
        """Returns the empty set.

        Parameters
        ----------
        max_depth : int
            The order of the MOC in mocpy. Here it is only checked.

        Raises
        ------
        MocError
            `NoSuchOrder` if `max_depth` is not 0 to 29.

        Examples
        --------
        >>> MOC.new_empty(9).empty()
        True
        """
        check_order(max_depth)
        return cls()

    @classmethod
    def full(cls) -> Self:
        """Returns the set of all pixels of the sky.

        Examples
        --------
        >>> print(MOC.full())
        0/0-11
        """
        return cls._from_call("full", range_bound=1)

    @classmethod
    def from_string(cls, value: str | bytes, format: Format = "ascii") -> Self:
        """Parses a text. Takes linear time in its length, and O(n log n) for its n cells and ranges, or O(n) if they are ascending.

        Parameters
        ----------
        value : str or bytes
            The text. A str is encoded in UTF-8.
        format : {"ascii", "json", "uniq"}
            The format: ASCII or JSON of MOC 2.0, or a list of NUNIQ numbers with one number on a line.

        Raises
        ------
        MocError
            For the first error of the text. Its `detail` names what else the text looks like. Otherwise it quotes the invalid
            part of a text of at most 256 KiB, and states what must be in its place. The errors are, by format:

            - ASCII, with the position of a byte: `BadByte`, `NoOrder`, `OrderTooLarge`, `CellTooLarge`, `Backwards`, `Unfinished`;
            - JSON, without a position: `NotJson`, `NotObject`; with the position of a name: `BadOrder`, `NotArray`; with those of a name
              and an item: `NotWhole`, `CellTooLarge`;
            - NUNIQ numbers, with the number of a line: `BadByte`, `NotUniq`.
        ValueError
            If the format is unknown.
        TypeError
            If the value is neither a str nor a bytes-like object.

        Examples
        --------
        >>> print(MOC.from_string("1/0-3 2/20"))
        0/0 2/20
        >>> print(MOC.from_string("16\\n17\\n18\\n19\\n20\\n", "uniq"))
        0/0 1/4
        """
        if format not in _PARSERS:
            raise ValueError(f"format must be one of {', '.join(_PARSERS)}, not {format}")
        if isinstance(value, os.PathLike):
            raise TypeError("expected a text, not a path: use MOC.load for a file")
        text = value.encode() if isinstance(value, str) else bytes(memoryview(value))

        store = open_store(len(text) // 2 + 1)
        try:
            made = _call(_PARSERS[format], store, text, is_long=len(text) > _MAX_SHORT_TEXT).first
        except MocError as error:
            raise _text_error(error, text, format) from None
        return cls._in_store(store, made, len(text) // 2 + 1)

    @classmethod
    def load(cls, path: str | os.PathLike[str], format: str | None = None) -> Self:
        """Reads a file, which may be compressed with gzip.

        Parameters
        ----------
        path : str or path-like
            The path of the file.
        format : {"ascii", "json", "uniq", "fits"}, optional
            The format of `from_string`, or `fits` for a FITS table of MOC 1.0, 1.1 or 2.0. By default it is recognized by the content.

        Raises
        ------
        OSError
            If the file cannot be read.
        MocError
            As in `from_string`.
        ValueError
            If the format is unknown, if a compressed file is damaged, or if a FITS file has no sky coverage.
        ImportError
            If the file is a FITS file, and astropy is not installed.

        Examples
        --------
        >>> import os, tempfile
        >>> with tempfile.TemporaryDirectory() as folder:
        ...     path = os.path.join(folder, "moc.txt")
        ...     MOC.from_string("0/0 1/4").save(path)
        ...     print(MOC.load(path))
        0/0 1/4
        """
        from ._files import load

        return load(cls, path, format)

    @classmethod
    def from_json(cls, json_moc: Mapping[Any, Iterable[SupportsIndex]] | str | bytes) -> Self:
        """Parses JSON, as `from_string` with the format `json`.

        Parameters
        ----------
        json_moc : dict, str or bytes
            A text, or a dict with a list or an array of nested numbers for each order. The orders are its keys, as str, int or an integer
            of NumPy.

        Raises
        ------
        MocError
            As in `from_string`.

        Examples
        --------
        >>> print(MOC.from_json({"1": [3, 4, 6, 7], "2": [20, 32]}))
        1/3-4 6-7 2/20 32
        """
        if isinstance(json_moc, Mapping):
            json_moc = "{" + ",".join(_json_member(order, cells) for order, cells in json_moc.items()) + "}"
        return cls.from_string(json_moc, "json")

    @classmethod
    def from_ranges(cls, ranges: Pairs) -> Self:
        """Returns the set of the pixels in any of the ranges. Takes O(n log n) for n ranges, or O(n) if they are ascending.

        Parameters
        ----------
        ranges : iterable of pairs of int, or array-like of integers with the shape (n, 2)
            Ranges (from, to) of pixels, without `to`. They may be in any order, may overlap, and may be empty.

        Raises
        ------
        MocError
            `Backwards` if a range ends before its start; `PixelTooLarge` if a range ends above the number of pixels, 12·4^29. Both have the
            position of the first invalid range. A negative number counts as one above the number of pixels.
        ValueError
            If an array has another shape and is not empty, or an item is not a pair.

        Examples
        --------
        >>> print(MOC.from_ranges([(4, 8), (8, 9), (0, 4)]))
        28/0-1 29/8
        """
        return cls._from_input("from_ranges", None, as_pairs(ranges))

    @classmethod
    def from_depth29_ranges(cls, max_depth: SupportsIndex, ranges: Pairs) -> Self:
        """Returns the set of the pixels in any of the ranges, degraded to an order.

        Parameters
        ----------
        max_depth : int
            The order of `degrade_to_order`. Order 29 leaves the set unchanged.
        ranges : iterable of pairs of int, or array-like of integers with the shape (n, 2)
            The ranges of `from_ranges`.

        Raises
        ------
        MocError
            `NoSuchOrder` if `max_depth` is not 0 to 29; otherwise as `from_ranges`.
        ValueError
            As in `from_ranges`.

        Examples
        --------
        >>> print(MOC.from_depth29_ranges(28, [(3, 9)]))
        28/0-2
        """
        check_order(max_depth)
        return cls.from_ranges(ranges)._degraded(max_depth)

    def _degraded(self, order: SupportsIndex) -> Self:
        """Returns this MOC degraded to an order, which leaves it unchanged if the order is 29."""
        return self if order == 29 else self.degrade_to_order(order)

    @classmethod
    def from_healpix_cells(cls, ipix: Numbers, depth: Numbers, max_depth: SupportsIndex = 29) -> Self:
        """Returns the set of the pixels in any of the cells. For one order, takes O(n log n) for n cells, or O(n) if they are ascending.

        For several orders, the set is the union of one set for each order.

        Parameters
        ----------
        ipix : int, iterable of int, or array-like of integers
            The nested numbers of the cells, in any order. Masked entries, and missing values of pandas, are left out.
        depth : int, iterable of int, or array-like of integers
            The order of all cells, or the order of each cell.
        max_depth : int
            The order to which the set is degraded. Order 29 leaves the set unchanged.

        Raises
        ------
        MocError
            `NoSuchOrder` if an order is not 0 to 29; `NoSuchCell` with the position of a number that is not a cell number. The error is
            about the first invalid order or number.
        ValueError
            If the number of orders differs from the number of cells.

        Examples
        --------
        >>> print(MOC.from_healpix_cells([3, 0, 1, 2, 7], 1))
        0/0 1/7
        >>> print(MOC.from_healpix_cells([0, 4, 5], [0, 1, 1]))
        0/0 1/4-5
        """
        check_order(max_depth)
        orders: Any = depth
        if hasattr(depth, "__iter__"):
            moc = cls._from_cells_of_orders(*map(as_input, without_missing_rows(ipix, orders)))
        else:
            moc = cls._from_input("from_cells", check_order(orders), as_input(without_missing(ipix)))
        return moc._degraded(max_depth)

    @classmethod
    def _from_cells_of_orders(cls, cells: Input, orders: Input) -> Self:
        """Returns the set of the pixels in any of the cells. The order of each cell is at the same position."""
        if len(cells) != len(orders):
            raise ValueError(f"depth has {len(orders)} orders for {len(cells)} cells")
        moc, errors = cls(), dict[int, MocError]()
        for order in sorted(orders.distinct()):
            positions = orders.positions_of(order)
            if not 0 <= order <= 29:
                errors[int(positions[0])] = MocError(NO_SUCH_ORDER, int(orders.text_of_row(positions[0])))
                continue
            try:
                moc |= cls._from_input("from_cells", order, cells.take(positions))
            except MocError as error:
                place = int(positions[error.place[0]])
                errors[place] = MocError(error.code, place, detail=error.detail)
        if errors:
            raise errors[min(errors)]
        return moc

    @classmethod
    def from_lonlat(cls, lon: Any, lat: Any, depth: int) -> Self:
        """Returns the cells of an order that contain positions.

        Parameters
        ----------
        lon, lat : float, sequence of float, array-like, or Quantity
            Right ascensions and declinations (ICRS) in degrees, or with a unit of astropy. A position with a masked entry is left out.
        depth : int
            The order of the cells, 0 to 29.

        Raises
        ------
        ValueError
            If a longitude is not finite, or a latitude is not -90 to 90, with the index of the position.
        MocError
            `NoSuchOrder` if the order is not 0 to 29.
        ImportError
            If neither astropy-healpix nor healpy is installed.

        Examples
        --------
        >>> MOC.from_lonlat([45, 90], [80, 0], 0).to_string()
        '0/0 5'
        """
        from ._positions import cells_of_catalogue

        return cls.from_healpix_cells(cells_of_catalogue(lon, lat, depth), depth)

    @classmethod
    def from_skycoords(cls, skycoords: Any, depth: int) -> Self:
        """Returns the cells of an order that contain the positions of a `SkyCoord` of any frame. Raises as `from_lonlat`.

        Examples
        --------
        >>> from astropy.coordinates import SkyCoord
        >>> MOC.from_skycoords(SkyCoord(0, 0, unit="deg", frame="galactic"), 2).to_string()
        '2/112'
        """
        from ._positions import positions_of

        return cls.from_lonlat(*positions_of(skycoords), depth)

    @classmethod
    def from_uniq(cls, uniq: Numbers) -> Self:
        """Returns the set of the pixels in any of the cells. Takes O(n log n) for n cells, or O(n) if they are ascending.

        Parameters
        ----------
        uniq : int, iterable of int, or array-like of integers
            The NUNIQ numbers of the cells, in any order. Masked entries are left out.

        Raises
        ------
        MocError
            `NotUniq` with the position of the first number that is not a NUNIQ number.

        Examples
        --------
        >>> print(MOC.from_uniq([4, 20, 21]))
        0/0 1/4-5
        """
        return cls._from_input("from_uniqs", None, as_input(without_missing(uniq)))

    @classmethod
    def from_valued_healpix_cells(cls, uniq: Numbers, values: Iterable[float], max_depth: SupportsIndex | None = None,
                                  cumul_from: float = 0.0, cumul_to: float = 1.0, asc: bool = False, strict: bool = True,
                                  no_split: bool = True, reverse_decent: bool = False) -> Self:
        """Returns the set of the densest cells that have a part of the sum of all values, such as a credible region.

        The cells are sorted by density, which is the value divided by the area. Cells of one density keep their sequence. The values are
        added up in this sequence. The set has the cells between two sums.

        Parameters
        ----------
        uniq : int, iterable of int, or array-like of integers
            The NUNIQ numbers of the cells, which have no pixel in common.
        values : iterable of float
            The value of each cell, such as a probability.
        max_depth : int, optional
            The order to which the set is degraded, and to which cells are split. By default, it is the deepest order of the cells.
        cumul_from, cumul_to : float
            The sums at which the set begins and ends.
        asc : bool
            Whether the densest cells are the last ones.
        strict : bool
            Whether a cell that only partly lies between the sums is left out.
        no_split : bool
            Whether a cell that only partly lies between the sums is not split. A cell is split into cells of `max_depth` with equal values.
        reverse_decent : bool
            Whether the cells of a split cell are added up from the last one to the first one. The name is that of mocpy.

        Raises
        ------
        MocError
            `NotUniq` with the position of the first number that is not a NUNIQ number; `NoSuchOrder` if `max_depth` is not 0 to 29.
        ValueError
            If the number of values differs from the number of cells, or if a value is not a finite number from 0.

        Examples
        --------
        >>> uniq, probabilities = [16, 17, 18, 19], [0.1, 0.5, 0.3, 0.1]
        >>> print(MOC.from_valued_healpix_cells(uniq, probabilities, cumul_to=0.85))
        1/1-2
        """
        order = None if max_depth is None else check_order(max_depth)
        cells = as_input(uniq)
        moc = cls._from_input("from_uniqs", None, cells)
        ranges = ranges_by_value(cells, values, moc.max_order if order is None else order, (cumul_from, cumul_to), asc, strict, no_split,
                                 reverse_decent)
        return cls.from_ranges(ranges)._degraded(29 if order is None else order)

    @classmethod
    def union_all(cls, mocs: Iterable[MOC]) -> Self:
        """Returns the pixels that are in any of the MOCs, which are united in pairs.

        Takes O(n log m) for m MOCs with n ranges together, which is less than `union` takes for many MOCs.

        Parameters
        ----------
        mocs : iterable of MOC
            The MOCs. Without any, the result is the empty set.

        Raises
        ------
        TypeError
            If an item is not a MOC.

        Examples
        --------
        >>> print(MOC.union_all(MOC.from_healpix_cells(cell, 3) for cell in range(5)))
        2/0 3/4
        """
        items: Iterator[Any] = chain([cls()], map(_check_moc, mocs))
        union: Self = _unite(items)
        return union

    # Set operations

    def _combine_all(self, operation: str, others: tuple[MOC, ...]) -> Self:
        """Returns the result of an operation with each of the other MOCs in turn. Raises TypeError if one of them is not a MOC."""
        moc = self
        for other in others:
            moc = moc._combine(operation, other)
        return moc

    def union(self, *others: MOC) -> Self:
        """Returns the pixels that are in this MOC or in any of the others.

        Raises
        ------
        TypeError
            If one of the others is not a MOC.

        Examples
        --------
        >>> print(MOC.from_string("0/0 1/4").union(MOC.from_string("0/1")))
        0/0-1
        """
        return self._combine_all("open_union", others)

    def intersection(self, *others: MOC) -> Self:
        """Returns the pixels that are in this MOC and in all others.

        Raises
        ------
        TypeError
            If one of the others is not a MOC.

        Examples
        --------
        >>> print(MOC.from_string("0/0 1/4").intersection(MOC.from_string("0/1")))
        1/4
        """
        return self._combine_all("open_intersection", others)

    def difference(self, *others: MOC) -> Self:
        """Returns the pixels that are in this MOC and in none of the others.

        Raises
        ------
        TypeError
            If one of the others is not a MOC.

        Examples
        --------
        >>> print(MOC.from_string("0/0 1/4").difference(MOC.from_string("0/1")))
        0/0
        """
        return self._combine_all("open_difference", others)

    def symmetric_difference(self, *others: MOC) -> Self:
        """Returns the pixels that are in an odd number of the MOCs.

        Raises
        ------
        TypeError
            If one of the others is not a MOC.

        Examples
        --------
        >>> print(MOC.from_string("0/0 1/4").symmetric_difference(MOC.from_string("0/1")))
        0/0 1/5-7
        """
        return self._combine_all("open_symmetric", others)

    def complement(self) -> Self:
        """Returns the pixels of the sky that are not in this MOC.

        Examples
        --------
        >>> print(MOC.from_string("0/0 1/4-5").complement())
        0/2-11 1/6-7
        """
        return self._change("complement")

    def degrade_to_order(self, new_order: SupportsIndex) -> Self:
        """Returns all pixels of each cell of an order that has a pixel in this MOC.

        Parameters
        ----------
        new_order : int
            The order of the cells, 0 to 29.

        Raises
        ------
        MocError
            `NoSuchOrder` if the order is not 0 to 29.

        Examples
        --------
        >>> print(MOC.from_string("9/77 500-503").degrade_to_order(5))
        5/0-1
        """
        return self._change("degrade", check_order(new_order))

    def add_neighbours(self, order: SupportsIndex | None = None) -> Self:
        """Returns this MOC and all cells of an order that touch it, in a corner or along a side.

        Takes O(n) for n ranges for each order up to `order`, and O(log n) for each cell at the border.

        Parameters
        ----------
        order : int, optional
            The order of the cells. By default, it is `max_order`. In mocpy, it is the order that was stated.

        Raises
        ------
        MocError
            `NoSuchOrder` if the order is not 0 to 29; `TooCoarse` if the MOC is not a union of cells of the order.

        Examples
        --------
        >>> print(MOC.from_string("2/3").add_neighbours())
        1/0 2/4 6 8-9 12
        """
        depth = self._order_of_cells(order)
        _, outside = border_cells(self, depth)
        return self | MOC.from_healpix_cells(outside, depth)

    def remove_neighbours(self, order: SupportsIndex | None = None) -> Self:
        """Returns this MOC without the cells of an order that touch the rest of the sky, in a corner or along a side.

        Parameters
        ----------
        order : int, optional
            The order of the cells, as in `add_neighbours`.

        Raises
        ------
        MocError
            As in `add_neighbours`.

        Examples
        --------
        >>> print(MOC.from_string("1/0 2/4 6 8-9 12").remove_neighbours())
        2/3
        """
        depth = self._order_of_cells(order)
        inside, _ = border_cells(self, depth)
        return self - MOC.from_healpix_cells(inside, depth)

    def _order_of_cells(self, order: SupportsIndex | None) -> int:
        """Returns an order, or `max_order` in place of None. Raises MocError `TooCoarse` if the MOC has a cell of a deeper order."""
        deepest = self.max_order
        if order is None:
            return deepest
        if (depth := check_order(order)) < deepest:
            raise too_coarse(depth, deepest)
        return depth

    def split(self, include_indirect_neighbours: bool = False) -> list[Self]:
        """Returns the connected parts of this MOC, by their first pixels. Takes O(log n) for each of n cells.

        Parameters
        ----------
        include_indirect_neighbours : bool
            Whether two cells that touch only in a corner are connected. Otherwise they must have a part of a side in common.

        Examples
        --------
        >>> for part in MOC.from_string("2/0-1 3 12").split():
        ...     print(part)
        2/0-1 3
        2/12
        """
        return [type(self).from_uniq(part) for part in components(self._uniqs(), include_indirect_neighbours)]

    def split_count(self, include_indirect_neighbours: bool = False) -> int:
        """Returns the number of MOCs that `split` returns.

        Examples
        --------
        >>> MOC.from_string("2/0 3").split_count(), MOC.from_string("2/0 3").split_count(include_indirect_neighbours=True)
        (2, 1)
        """
        return len(components(self._uniqs(), include_indirect_neighbours))

    def issubset(self, other: MOC) -> bool:
        """Returns whether every pixel of this MOC is in another one. Raises TypeError if the other is not a MOC.

        Examples
        --------
        >>> MOC.from_string("1/4").issubset(MOC.from_string("0/1"))
        True
        """
        return bool(self._query_pair("covers", other, is_reversed=True))

    def issuperset(self, other: MOC) -> bool:
        """Returns whether every pixel of another MOC is in this one. Raises TypeError if the other is not a MOC.

        Examples
        --------
        >>> MOC.from_string("0/1").issuperset(MOC.from_string("1/4"))
        True
        """
        return self.covers(other)

    def isdisjoint(self, other: MOC) -> bool:
        """Returns whether two MOCs have no pixel in common. Raises TypeError if the other is not a MOC.

        Examples
        --------
        >>> MOC.from_string("0/1").isdisjoint(MOC.from_string("0/2"))
        True
        """
        return not self.meets(other)

    def __le__(self, other: MOC) -> bool:
        return self.issubset(other) if isinstance(other, MOC) else NotImplemented

    def __lt__(self, other: MOC) -> bool:
        return self.issubset(other) and self != other if isinstance(other, MOC) else NotImplemented

    def __ge__(self, other: MOC) -> bool:
        return self.covers(other) if isinstance(other, MOC) else NotImplemented

    def __gt__(self, other: MOC) -> bool:
        return self.covers(other) and self != other if isinstance(other, MOC) else NotImplemented

    def __or__(self, other: MOC) -> Self:
        return self._combine("open_union", other) if isinstance(other, MOC) else NotImplemented

    def __and__(self, other: MOC) -> Self:
        return self._combine("open_intersection", other) if isinstance(other, MOC) else NotImplemented

    def __sub__(self, other: MOC) -> Self:
        return self._combine("open_difference", other) if isinstance(other, MOC) else NotImplemented

    def __xor__(self, other: MOC) -> Self:
        return self._combine("open_symmetric", other) if isinstance(other, MOC) else NotImplemented

    def __invert__(self) -> Self:
        return self.complement()

    # Queries

    def _query(self, function: str) -> int:
        """Returns the value that a brief function returns for this MOC."""
        result = brief_functions[function](self._store, self._id)
        return (check_result(result) if result.code else result).first

    def _long_query(self, function: str, *arguments: Any) -> Result:
        """Returns the result of a function for this MOC. The function uses a copy of the MOC, so that no other call waits for it."""
        store = open_store()
        return _call(function, store, self._copy_to(store), *arguments, is_long=_have_many_ranges(self))

    def _query_pair(self, function: str, other: MOC, is_reversed: bool = False) -> int:
        """Returns the value that a function returns for two MOCs, or for the other one and then this one.

        Raises TypeError if the other one is not a MOC."""
        first, second = (_check_moc(other), self) if is_reversed else (self, _check_moc(other))
        return _call_with_pair(f"pair_{function}", first._range_bound + second._range_bound, first, second).first

    def count(self) -> int:
        """Returns the number of pixels.

        Examples
        --------
        >>> MOC.from_string("29/3-5").count()
        3
        """
        return self._query("count")

    def count_common(self, other: MOC) -> int:
        """Returns the number of pixels that are in both MOCs.

        Raises
        ------
        TypeError
            If the other is not a MOC.

        Examples
        --------
        >>> MOC.from_string("29/3-5").count_common(MOC.from_string("29/4-9"))
        2
        """
        return self._query_pair("count_common", other)

    def range_count(self) -> int:
        """Returns the number of ranges that `ranges` returns.

        Examples
        --------
        >>> MOC.from_string("1/0-3 2/20").range_count()
        2
        """
        return self._query("range_count")

    def cell_count_by_order(self) -> list[int]:
        """Returns the number of cells of each order, from order 0 to order 29. The cells are those that `cells` returns.

        Examples
        --------
        >>> MOC.from_string("0/0 2/20-21").cell_count_by_order()[:4]
        [1, 0, 2, 0]
        """
        counts = zeros("Q", 30)
        self._long_query("cell_count_by_order", buffer_of(counts, slice(0, 30)))
        return counts.tolist()

    @property
    def sky_fraction(self) -> float:
        """The fraction of the sky, from 0 to 1: the number of pixels divided by 12·4^29.

        Examples
        --------
        >>> MOC.from_string("0/0 1/4-5").sky_fraction
        0.125
        """
        return self.count() / PIXEL_COUNT

    @property
    def max_order(self) -> int:
        """The least order at which the set is a union of cells, or 0 for the empty set. In mocpy, it is the order that was stated.

        Examples
        --------
        >>> MOC.from_string("1/0-3 2/20 9/").max_order
        2
        """
        return self._long_query("deepest_order").first

    def empty(self) -> bool:
        """Returns whether the MOC has no pixels.

        Examples
        --------
        >>> MOC().empty()
        True
        """
        return bool(self._query("is_empty"))

    def meets(self, other: MOC) -> bool:
        """Returns whether two MOCs have a pixel in common.

        Raises
        ------
        TypeError
            If the other is not a MOC.

        Examples
        --------
        >>> MOC.from_string("0/0 1/4").meets(MOC.from_string("1/4-5"))
        True
        """
        return bool(self._query_pair("meets", other))

    def covers(self, other: MOC) -> bool:
        """Returns whether the MOC contains every pixel of another one.

        Raises
        ------
        TypeError
            If the other is not a MOC.

        Examples
        --------
        >>> MOC.from_string("0/0 1/4").covers(MOC.from_string("1/4-5"))
        False
        """
        return bool(self._query_pair("covers", other))

    @overload
    def contains(self, cells: int, depth: SupportsIndex = 29) -> bool: ...
    @overload
    def contains(self, cells: ArrayLike, depth: SupportsIndex = 29) -> NDArray[numpy.bool_]: ...
    @overload
    def contains(self, cells: Integers, depth: SupportsIndex = 29) -> list[bool]: ...

    def contains(self, cells: Numbers, depth: SupportsIndex = 29) -> Any:
        """Returns for each cell whether the MOC contains all its pixels. By default the cells are pixels, which are cells of order 29.

        Takes O(log n) for each cell and n ranges, and less for pixels that are ascending. A large array of pixels that is not ascending is
        sorted in pieces before it is looked up, if the MOC has many ranges. For other orders, one pass over the ranges is added.

        Parameters
        ----------
        cells : int, iterable of int, or array-like of integers
            The cells, by their nested numbers. No MOC contains a number that is not a cell of the order.
        depth : int
            The order of the cells, 0 to 29.

        Returns
        -------
        bool, list of bool, or ndarray of bool
            The results, in the shape of `cells`.

        Raises
        ------
        MocError
            `NoSuchOrder` if the order is not 0 to 29.
        TypeError
            If a number is not an integer, or if an entry is masked.

        Examples
        --------
        >>> moc = MOC.from_string("0/0 1/4-5")
        >>> moc.contains([0, 288230376151711744, 432345564227567616])
        [True, True, False]
        >>> moc.contains([3, 4, 6], 1)
        [True, True, False]
        """
        if type(cells) is int and depth == 29:
            return cells in self
        return self._flags_of_cells(cells, depth)

    @overload
    def contains_cells(self, cells: int, depth: SupportsIndex) -> bool: ...
    @overload
    def contains_cells(self, cells: ArrayLike, depth: SupportsIndex) -> NDArray[numpy.bool_]: ...
    @overload
    def contains_cells(self, cells: Integers, depth: SupportsIndex) -> list[bool]: ...

    def contains_cells(self, cells: Numbers, depth: SupportsIndex) -> Any:
        """Returns for each cell whether the MOC contains all its pixels. Parameters, results and errors are those of `contains`.

        Examples
        --------
        >>> MOC.from_string("0/0 2/16").contains_cells([3, 4, 5], 1)
        [True, False, False]
        """
        return self._flags_of_cells(cells, depth)

    @overload
    def intersects_cells(self, cells: int, depth: SupportsIndex) -> bool: ...
    @overload
    def intersects_cells(self, cells: ArrayLike, depth: SupportsIndex) -> NDArray[numpy.bool_]: ...
    @overload
    def intersects_cells(self, cells: Integers, depth: SupportsIndex) -> list[bool]: ...

    def intersects_cells(self, cells: Numbers, depth: SupportsIndex) -> Any:
        """Returns for each cell whether the MOC contains any of its pixels. Parameters, results and errors are those of `contains`.

        Examples
        --------
        >>> MOC.from_string("0/0 2/16").intersects_cells([3, 4, 5], 1)
        [True, True, False]
        """
        return as_input(cells).flags_of_cells(self._bounds(), check_order(depth), is_whole=False)

    def _flags_of_cells(self, cells: Numbers, depth: SupportsIndex) -> Any:
        """Returns for each cell whether the MOC contains all its pixels."""
        if check_order(depth) == 29:
            return self._contains_pixels(as_input(cells))
        return as_input(cells).flags_of_cells(self._bounds(), operator.index(depth), is_whole=True)

    def contains_lonlat(self, lon: Any, lat: Any) -> Any:
        """Returns for each position whether the MOC contains its pixel.

        Parameters
        ----------
        lon, lat : float, sequence of float, array-like, or Quantity
            Right ascensions and declinations (ICRS) in degrees, or with a unit of astropy.

        Returns
        -------
        bool, list of bool, or ndarray of bool
            The results, in the shape of the positions. They are an array if `lon` or `lat` is one.

        Raises
        ------
        ValueError
            If a longitude is not finite, or a latitude is not -90 to 90, with the index of the position.
        TypeError
            If an entry is masked.
        ImportError
            If neither astropy-healpix nor healpy is installed.

        Examples
        --------
        >>> MOC.from_string("0/5").contains_lonlat([90, 180], [0, 0])
        [True, False]
        """
        from ._positions import flags_of_positions

        return flags_of_positions(self.contains, lon, lat)

    def contains_skycoords(self, skycoords: Any) -> Any:
        """Returns for each position of a `SkyCoord` of any frame whether the MOC contains its pixel. Raises as `contains_lonlat`.

        Examples
        --------
        >>> from astropy.coordinates import SkyCoord
        >>> MOC.from_string("0/5").contains_skycoords(SkyCoord([90, 180], [0, 0], unit="deg")).tolist()
        [True, False]
        """
        from ._positions import positions_of

        return self.contains_lonlat(*positions_of(skycoords))

    def _contains_pixels(self, pixels: Input) -> Any:
        """Returns for each pixel whether the MOC contains it."""
        flags, count = pixels.new_output("B"), len(pixels)
        if count <= _MAX_SHORT_LENGTH:
            rows = slice(0, count)
            call_with_store("contains_all", self._store, self._id, *c_arguments(pixels.buffer(rows), flags.buffer(rows)))
            return flags.booleans()
        store = open_store()
        copied = self._copy_to(store)

        def look_up(piece: Buffer, flags_of_piece: Buffer) -> None:
            call_with_store("contains_all", store, copied, *c_arguments(piece, flags_of_piece))

        is_ascending = pixels.is_ascending()
        is_sorted_first = not is_ascending and self.range_count() > MIN_RANGES_FOR_SORTING
        for rows in pieces_of(count, _MAX_ASCENDING_LENGTH if is_ascending else PIECE_LENGTH):
            if is_sorted_first:
                pixels.call_sorted(look_up, rows, flags)
            else:
                look_up(pixels.buffer(rows), flags.buffer(rows))
        return flags.booleans()

    def __contains__(self, what: SupportsIndex | MOC) -> bool:
        """Returns whether the MOC contains a pixel of order 29, or every pixel of another MOC. Takes O(log n) for a pixel and n ranges."""
        if isinstance(what, MOC):
            return self.covers(what)
        pixel = operator.index(what)
        if not 0 <= pixel < PIXEL_COUNT:
            return False
        result = _contains(self._store, self._id, pixel)
        return (check_result(result) if result.code else result).first == 1

    def __eq__(self, other: object) -> bool:
        if not isinstance(other, MOC):
            return NotImplemented
        return bool(self._query_pair("same", other))

    def __hash__(self) -> int:
        try:
            return self._hash
        except AttributeError:
            self._hash = hash(self._bounds().tobytes())
            return self._hash

    def __copy__(self) -> Self:
        return self

    def __deepcopy__(self, memo: object) -> Self:
        return self

    def __sizeof__(self) -> int:
        """Returns the size of the object and of its ranges in bytes. Other MOCs may share the ranges."""
        return 1900 + 16 * self.range_count()

    def __dask_tokenize__(self) -> tuple[str, bytes]:
        """Returns the value by which Dask recognizes equal MOCs."""
        return "ploverchaise.MOC", self._bounds().tobytes()

    def __bool__(self) -> bool:
        return not self.empty()

    # Ranges and cells

    def _bounds(self) -> array[int]:
        """Returns the first pixel of each range and the number after its last pixel, ascending."""
        count = self.range_count()
        bounds = zeros("Q", 2 * count)
        self._long_query("ranges", buffer_of(bounds, slice(0, count), 2))
        return bounds

    def _uniqs(self) -> array[int]:
        """Returns the NUNIQ numbers of the cells, ascending."""
        size = 2 * self.range_count() + 64
        while True:
            uniqs = zeros("Q", size)
            try:
                count = self._long_query("cells", buffer_of(uniqs, slice(0, size))).first
            except MocError as error:
                if error.name != "BufferTooShort":
                    raise
                size, = error.place
            else:
                return uniqs[:count]

    def ranges(self) -> list[tuple[int, int]]:
        """Returns the ranges (from, to) of pixels, without `to`, ascending. No range is empty, and no range touches the next one.

        Examples
        --------
        >>> MOC.from_string("28/0-1 29/9").ranges()
        [(0, 8), (9, 10)]
        """
        bounds, pairs = self._bounds(), list[tuple[int, int]]()
        for rows in pieces_of(len(bounds)):
            numbers = bounds[rows]
            pairs += zip(numbers[::2], numbers[1::2])
        return pairs

    def cells(self) -> list[tuple[int, int]]:
        """Returns the largest cells of the set as pairs (order, nested number), by ascending NUNIQ numbers.

        A largest cell is in the set, and in no larger cell of the set. Takes one pass over the ranges for each order that can have cells.

        Examples
        --------
        >>> MOC.from_string("0/0 1/4-5").cells()
        [(0, 0), (1, 4), (1, 5)]
        """
        return list(self._iterate_cells())

    def _iterate_cells(self) -> Iterator[tuple[int, int]]:
        """Returns an iterator over the pairs that `cells` returns."""
        orders = ((uniq, (uniq.bit_length() - 3) // 2) for uniq in self._uniqs())
        return ((order, uniq - 4**(order + 1)) for uniq, order in orders)

    @property
    def to_depth29_ranges(self) -> NDArray[numpy.int64]:
        """The ranges that `ranges` returns, as an array of int64 with the shape (n, 2). Raises ImportError if NumPy is not installed.

        Examples
        --------
        >>> MOC.from_string("28/0-1 29/9").to_depth29_ranges
        array([[ 0,  8],
               [ 9, 10]])
        """
        import numpy

        return numpy.asarray(self._bounds()).view("int64").reshape(-1, 2)

    @property
    def uniq_hpx(self) -> NDArray[numpy.int64]:
        """The NUNIQ numbers of the cells that `cells` returns, as an ascending array of int64.

        Raises ImportError if NumPy is not installed.

        Examples
        --------
        >>> MOC.from_string("0/0 1/4-5").uniq_hpx
        array([ 4, 20, 21])
        """
        import numpy

        return numpy.asarray(self._uniqs()).view("int64")

    def flatten(self, order: SupportsIndex | None = None) -> NDArray[numpy.int64]:
        """Returns the cells of one order that make up the MOC, as an ascending array of int64 with their nested numbers.

        Linear in the number of cells, which can be large: a base pixel has 4^order cells.

        Parameters
        ----------
        order : int, optional
            The order of the cells. By default it is `max_order`, the least order that suffices.

        Raises
        ------
        MocError
            `NoSuchOrder` if the order is not 0 to 29; `TooCoarse` if the MOC is not a union of cells of the order.
        ImportError
            If NumPy is not installed.

        Examples
        --------
        >>> MOC.from_string("1/4 2/20").flatten(2)
        array([16, 17, 18, 19, 20])
        """
        import numpy

        bounds = numpy.asarray(self._bounds()).view("int64") >> 2 * (29 - self._order_of_cells(order))
        lengths = bounds[1::2] - bounds[::2]
        ends = lengths.cumsum()
        shifts = bounds[1::2] - ends
        cells = numpy.empty(lengths.sum(), "int64")
        for rows in pieces_of(len(cells)):
            positions = numpy.arange(rows.start, rows.stop)
            cells[rows] = positions + shifts[numpy.searchsorted(ends, positions, "right")]
        return cells

    # Texts and pictures

    def to_string(self, format: Format = "ascii", fold: int = 0, *, max_order: SupportsIndex | None = None) -> str:
        """Returns the MOC as a text, without a line feed at the end.

        Takes one pass over the ranges for each order that can have cells, and is linear in the length of the text.

        Parameters
        ----------
        format : {"ascii", "json", "uniq"}
            The format: ASCII or JSON of MOC 2.0, or a list of NUNIQ numbers with one number on a line.
        fold : int
            The maximal number of characters of a line in ASCII and JSON, or 0 for one line. A longer word or number is alone on a line.
        max_order : int, optional
            The MOC order that the text states. MOC 2.0 requires it if the MOC was made of deeper cells than it needs. The format `uniq`
            states no order, and ignores this argument.

        Raises
        ------
        MocError
            `NoSuchOrder` if the order is not 0 to 29; `TooCoarse` if the MOC has a cell of a deeper order.
        ValueError
            If the format is unknown, or `fold` is negative.

        Examples
        --------
        >>> moc = MOC.from_string("0/0 1/4-5")
        >>> moc.to_string("json")
        '{"0":[0],"1":[4,5]}'
        >>> print(moc.to_string(fold=5, max_order=8))
        0/0
        1/4-5
        8/
        """
        if format not in _PARSERS:
            raise ValueError(f"format must be one of {', '.join(_PARSERS)}, not {format}")
        if fold < 0:
            raise ValueError(f"fold must be at least 0, not {fold}")
        if format == "uniq":
            return text_of(self._long_query, "write_uniq").removesuffix("\n")
        stated = NO_ORDER if max_order is None else check_order(max_order)
        try:
            text = text_of(self._long_query, f"write_{format}", stated).removesuffix("\n")
        except MocError as error:
            raise too_coarse(stated, self.max_order) if error.code == TOO_COARSE else error from None
        return "\n".join(_fold(text, fold, " " if format == "ascii" else ",")) if fold else text

    def save(self, path: str | os.PathLike[str], format: str | None = None, *, max_order: SupportsIndex | None = None,
             overwrite: bool = False, fold: int = 0) -> None:
        """Writes a file. A text is that of `to_string`, with a line feed at the end. A FITS file has a table of MOC 2.0.

        Parameters
        ----------
        path : str or path-like
            The path of the file. If it ends with `.gz`, the file is compressed with gzip.
        format : {"ascii", "json", "uniq", "fits", "fits-range"}, optional
            The format of the text, or `fits` for a table of NUNIQ numbers, or `fits-range` for a table of ranges. By default it is that of
            the suffix `.fits`, `.fit`, `.fts`, `.json` or `.uniq`, and `ascii` for other names.
        max_order : int, optional
            The MOC order that the file states, as in `to_string`. A FITS file states the deepest order of the cells by default.
        fold : int
            The maximal length of the lines of a text, as in `to_string`.
        overwrite : bool
            Whether to replace a file that exists.

        Raises
        ------
        FileExistsError
            If the file exists and `overwrite` is false.
        OSError
            If the file cannot be written.
        MocError, ValueError
            As in `to_string`; the file is then unchanged.
        ImportError
            If the format is that of a FITS file, and astropy is not installed.

        Examples
        --------
        >>> import os, tempfile
        >>> with tempfile.TemporaryDirectory() as folder:
        ...     path = os.path.join(folder, "moc.json")
        ...     MOC.from_string("0/0 1/4").save(path, "json")
        ...     print(open(path).read(), end="")
        {"0":[0],"1":[4]}
        """
        from ._files import save

        save(self, path, format, max_order, overwrite, fold)

    @overload
    def serialize(self, format: Literal["json"] = "json") -> dict[str, list[int]]: ...
    @overload
    def serialize(self, format: Literal["str"]) -> str: ...

    def serialize(self, format: Literal["json", "str"] = "json") -> dict[str, list[int]] | str:
        """Returns the MOC as a dict or as an ASCII text.

        Parameters
        ----------
        format : {"json", "str"}
            The dict has a list of nested numbers for each order; the str is that of `to_string`. The format `fits` of mocpy is not
            supported.

        Raises
        ------
        ValueError
            If the format is not one of these.

        Examples
        --------
        >>> MOC.from_string("0/0 1/4-5").serialize()
        {'0': [0], '1': [4, 5]}
        """
        if format not in ("json", "str"):
            raise ValueError(f"format must be one of json, str, not {format}")
        if format == "str":
            return self.to_string()
        cells: dict[str, list[int]] = {}
        for order, cell in self._iterate_cells():
            cells.setdefault(str(order), []).append(cell)
        return cells

    def describe(self) -> str:
        """Returns statistics, one on a line: the number of pixels, the share of the sky, the area, and the numbers of ranges and cells.

        These lines are followed by the number of cells of each order that has any. They are the lines of `moc describe` without the first
        one, which has the MOC order of a text. Takes the time of `to_string`.

        Examples
        --------
        >>> print(MOC.from_string("1/0-3 2/20").describe())
        pixels 306244774661193728
        share 0.088541666666
        area 3652.605943958997
        ranges 2
        cells 2
        order 0 1
        order 2 1
        """
        return text_of(self._long_query, "describe", NO_ORDER).removesuffix("\n").partition("\n")[2]

    def draw(self) -> str:
        """Returns a picture in SVG, as `moc draw` writes it: the HEALPix projection with north up and east to the left.

        Takes the time of `to_string`, and O(log n) for each cell of order 7 that has a pixel in this MOC of n ranges.

        Examples
        --------
        >>> MOC.from_string("0/4").draw().startswith("<svg")
        True
        """
        return text_of(self._long_query, "draw")

    def plot(self, ax: Any = None, *, center: Any = None, radius: float | None = None, label: str | None = None, **style: Any) -> Any:
        """Draws the MOC with matplotlib, on the whole sky or on a part of it.

        Parameters
        ----------
        ax : Axes, optional
            The axes of an earlier call, any other Mollweide axes of matplotlib, or any `WCSAxes` of astropy, such as those of an image.
            Without it, the function makes a figure.
        center : (float, float) or SkyCoord, optional
            The position in the middle of a new figure of a part of the sky, in degrees (ICRS). Without it, a new figure has the whole sky.
        radius : float, optional
            The distance in degrees from the center to the sides of the figure, above 0 and at most 60.
        label : str, optional
            The name of the MOC in the legend.
        **style
            Properties of a `Patch` of matplotlib, such as `facecolor`, `edgecolor`, `alpha` and `hatch`.

        Returns
        -------
        Axes
            The axes. On a Mollweide axes, the coordinates of a position are `-radians(lon)`, with lon from -180 to 180, and `radians(lat)`.

        Raises
        ------
        ValueError
            If the radius is missing or out of its bounds, if both `ax` and `center` are given, or if `ax` has another projection.
        ImportError
            If matplotlib is not installed, or if astropy is not and the figure has a part of the sky.

        Examples
        --------
        >>> ax = MOC.from_string("0/5").plot(label="first")
        >>> ax = MOC.from_string("1/16-17").plot(ax, label="second", facecolor="none", edgecolor="red")
        >>> [text.get_text() for text in ax.get_legend().get_texts()]
        ['first', 'second']
        """
        from ._plot import plot

        return plot(self, ax, center=center, radius=radius, label=label, style=style)

    def _repr_svg_(self) -> str:
        """Returns the picture that a notebook displays. It has at most 100 kB, and shows larger cells if necessary."""
        for order in _PICTURE_ORDERS:
            picture = self._degraded(order).draw()
            if len(picture) <= _MAX_PICTURE_LENGTH:
                break
        return picture

    def __str__(self) -> str:
        """Returns the text of `to_string`. A long one is cut, and ends with its length, so that no call parses it."""
        text = self.to_string()
        if len(text) <= _MAX_STR_LENGTH:
            return text
        return f"{text[:text.rindex(' ', 0, _MAX_STR_LENGTH)]} ... ({len(text)} characters, use to_string)"

    def __repr__(self) -> str:
        return (f"<MOC: {self.count()} pixels, {self.sky_fraction:.6g} of the sky, {self.range_count()} ranges, "
                f"deepest order {self.max_order}>")

    def __reduce_ex__(self, protocol: SupportsIndex) -> tuple[object, ...]:
        """Returns what pickle needs to make a copy: the class, and the ranges or the NUNIQ numbers, whichever are fewer bytes.

        They are a buffer from protocol 5 on."""
        has_few_cells = sum(self.cell_count_by_order()) < 2 * self.range_count()
        numbers = self._uniqs() if has_few_cells else self._bounds()
        data: bytes | PickleBuffer = numbers.tobytes()
        if operator.index(protocol) >= 5:
            from pickle import PickleBuffer

            data = PickleBuffer(numbers)
        return _unpickle, (type(self), "from_uniqs" if has_few_cells else "from_ranges", data)


def _unpickle(kind: type[AnyMOC], function: str, data: bytes | bytearray | PickleBuffer) -> AnyMOC:
    """Returns the MOC that a function of the library makes of the bytes of `MOC._uniqs` or of `MOC._bounds`."""
    numbers = array("Q")
    numbers.frombytes(memoryview(data).cast("B"))
    return kind._from_input(function, None, PlainInput(numbers, width=1 if function == "from_uniqs" else 2))


def _unite(mocs: Iterable[AnyMOC]) -> AnyMOC:
    """Returns the union of at least one MOC, which are united in pairs. The union has the class of the first one."""
    unions: list[AnyMOC] = []
    for position, moc in enumerate(mocs):
        while position & 1:
            moc, position = unions.pop().union(moc), position >> 1
        unions.append(moc)
    while len(unions) > 1:
        last = unions.pop()
        unions.append(unions.pop().union(last))
    return unions.pop()


def _check_moc(moc: AnyMOC) -> AnyMOC:
    """Returns a MOC. Raises TypeError if the argument is not one."""
    if not isinstance(moc, MOC):
        raise TypeError(f"expected a MOC, not {type(moc).__name__}")
    return moc


def _have_many_ranges(*mocs: MOC) -> bool:
    """Returns whether a call with these MOCs may take long."""
    if sum([moc._range_bound for moc in mocs]) <= _MAX_SHORT_RANGES:
        return False
    for moc in mocs:
        moc._range_bound = moc.range_count()
    return sum([moc._range_bound for moc in mocs]) > _MAX_SHORT_RANGES


def _call_with_pair(function: str, bound: int, first: MOC, second: MOC, *store: StoreHandle) -> Result:
    """Calls a function with two MOCs, which have at most `bound` ranges, and with the store that it opens, if there is one."""
    if bound > _MAX_SHORT_RANGES and _have_many_ranges(first, second):
        return run_interruptibly(lambda: check_result(
            store_functions[function](first._store, first._id, second._store, second._id, *store), function))
    functions = brief_functions if bound <= MAX_BRIEF_RANGES else store_functions
    result = functions[function](first._store, first._id, second._store, second._id, *store)
    return check_result(result, function) if result.code else result


def _call(function: str, store: StoreHandle, *arguments: Any, is_long: bool) -> Result:
    """Calls a function with a store that no other call uses. If the call may take long, signal handlers run meanwhile."""
    if is_long:
        return run_interruptibly(lambda: call_with_store(function, store, *c_arguments(*arguments)))
    return call_with_store(function, store, *c_arguments(*arguments))


def _text_error(error: MocError, text: bytes, format: str) -> MocError:
    """Returns the error of a text with what the text looks like, or with a quotation and what must be in its place.

    Only the error of a text of at most 256 KiB has a quotation."""
    from ._diagnostics import expectation_of, likely_content, quotation_of

    content = likely_content(text, format)
    if content is not None:
        return error._with_detail(f"this looks like {content}")
    if len(text) > _MAX_QUOTED_TEXT:
        return error
    return error._with_detail(": ".join(part for part in (quotation_of(text, format, error), expectation_of(text, format, error)) if part))


def _json_member(order: object, cells: Iterable[SupportsIndex]) -> str:
    """Returns the text in JSON of the cells of an order."""
    from json import dumps

    return f'{dumps(str(order))}:[{",".join([str(operator.index(cell)) for cell in cells])}]'


def _fold(text: str, width: int, separator: str) -> Iterator[str]:
    """Returns an iterator over the lines of a text, which is cut after separators. A blank at the end of a line is left out."""
    start, is_kept = 0, len(separator.strip())
    while len(text) - start > width:
        end = text.rfind(separator, start, start + width + 1 - is_kept)
        if end < 0:
            end = text.find(separator, start)
        if end < 0:
            break
        yield text[start:end + is_kept]
        start = end + 1
    yield text[start:]
