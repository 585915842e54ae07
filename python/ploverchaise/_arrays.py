"""Conversions between Python's integers, iterables and NumPy arrays, and the arrays that the library reads and writes.

A result has the kind of its argument: an int, a list, or a NumPy array. NumPy is imported only by functions that handle its arrays.

Python runs signal handlers between two steps of Python code only. So long arrays are handled in pieces of at most `PIECE_LENGTH` rows.
"""
from __future__ import annotations

import operator
from abc import ABC, abstractmethod
from array import array
from bisect import bisect_right
from collections.abc import Callable, Iterable, Iterator, Sequence, Set, ValuesView
from itertools import islice
from typing import TYPE_CHECKING, Any, NamedTuple, Protocol, SupportsIndex, Union

if TYPE_CHECKING:
    import numpy
    from numpy.typing import NDArray

PIECE_LENGTH = 2**18
"""The maximal number of rows that are handled without a step of Python code in between."""
INVALID_NUMBER = 2**64 - 1
"""The value that replaces an int outside 0 to 2^64 - 2. It is not a pixel, not a cell number and not a NUNIQ number. The library writes it
for a missing neighbour."""
_INVALID_BYTES = b"\xff" * 8

# The dtypes of NumPy for the type codes of `array` that outputs use.
_DTYPES = {"Q": "uint64", "B": "uint8", "I": "uint32"}
# The cell of order 6 that contains a pixel is the pixel shifted right by this number of bits.
_ORDER_6_SHIFT = 2 * (29 - 6)
MIN_RANGES_FOR_SORTING = 2000
"""An array is sorted before it is looked up only if the set has more ranges. The ranges of a smaller set are close together in memory."""
# An array is sorted before it is looked up only if it is longer.
_MIN_LENGTH_FOR_SORTING = 1000
# Memory whose address replaces the address of an array without elements, which may be null.
_PLACEHOLDER = array("Q", [0])
_PLACEHOLDER_ADDRESS, _ = _PLACEHOLDER.buffer_info()


class ArrayLike(Protocol):
    """An object that implements NumPy's array interface, such as an array or a column of a table."""

    def __array__(self) -> Any: ...


Integers = Union[Sequence[SupportsIndex], Set[SupportsIndex], Iterator[SupportsIndex], ValuesView[SupportsIndex]]
"""An iterable of integers that is not an array. Arrays have the methods of `Iterable` too, so mypy could not distinguish them."""
Numbers = Union[SupportsIndex, Integers, ArrayLike]
"""Integers as an argument: one, an iterable, or an array."""
Pairs = Union[Iterable[tuple[SupportsIndex, SupportsIndex]], ArrayLike]
"""Pairs of integers as an argument: an iterable of pairs, or an array with the shape (n, 2)."""


class Buffer(NamedTuple):
    """Contiguous memory that the library reads or writes.

    Attributes
    ----------
    address : int
        The address of its first element, which is not null.
    length : int
        The number of its rows.
    owner : object
        The object that keeps the memory alive.
    """

    address: int
    length: int
    owner: object


def pieces_of(length: int, max_length: int = PIECE_LENGTH) -> Iterator[slice]:
    """Returns slices of at most `max_length` rows that make up an array, or an empty slice for an empty array."""
    return (slice(start, min(start + max_length, length)) for start in range(0, length or 1, max_length))


def buffer_of(numbers: array[int], rows: slice, width: int = 1) -> Buffer:
    """Returns the memory of rows of an array, each of which has `width` elements."""
    address, _ = numbers.buffer_info()
    return Buffer((address or _PLACEHOLDER_ADDRESS) + rows.start * width * numbers.itemsize, rows.stop - rows.start, numbers)


def to_list(numbers: array[int]) -> list[int]:
    """Returns the elements of an array as a list."""
    if len(numbers) <= PIECE_LENGTH:
        return numbers.tolist()
    elements: list[int] = []
    for rows in pieces_of(len(numbers)):
        elements += numbers[rows].tolist()
    return elements


def zeros(code: str, length: int) -> array[int]:
    """Returns an array with a type code of `array`, whose elements are 0."""
    return array(code, [0]) * length


class Input(ABC):
    """Integers that the library reads."""

    @abstractmethod
    def __len__(self) -> int:
        """Returns the number of rows."""

    @abstractmethod
    def buffer(self, rows: slice) -> Buffer:
        """Returns the memory of rows, as unsigned integers of 64 bits."""

    @abstractmethod
    def private(self) -> Input:
        """Returns the same integers in memory that no other code changes."""

    @abstractmethod
    def new_output(self, code: str = "Q", width: int = 1) -> Output:
        """Returns an output with a row of `width` elements for each element. The type code of its elements is Q, I or B."""

    @abstractmethod
    def to_list(self) -> list[int]:
        """Returns the elements as a list."""

    @abstractmethod
    def distinct(self) -> set[int]:
        """Returns the set of the elements."""

    @abstractmethod
    def positions_of(self, number: int) -> Any:
        """Returns the positions of the elements that are equal to a number, ascending."""

    @abstractmethod
    def take(self, positions: Any) -> Input:
        """Returns the elements at these positions."""

    @abstractmethod
    def text_of_row(self, row: int) -> str:
        """Returns the text of the elements of a row, for an error."""

    def call_sorted(self, call: Callable[[Buffer, Buffer], object], rows: slice, output: Output) -> None:
        """Calls a function with the memory of pixels and of an output with one element for each. Sorts the pixels for the call if that is
        worthwhile. The output has the values in the sequence of the pixels."""
        call(self.buffer(rows), output.buffer(rows))

    @abstractmethod
    def is_ascending(self) -> bool:
        """Returns whether the elements are known to be ascending."""

    @abstractmethod
    def flags_of_cells(self, bounds: array[int], order: int, is_whole: bool) -> Any:
        """Returns for each element, a cell of an order, whether the ranges with these bounds contain all or any of its pixels."""


class Output(ABC):
    """Unsigned integers that the library writes, with the kind of an `Input`."""

    @abstractmethod
    def buffer(self, rows: slice) -> Buffer:
        """Returns the memory of rows."""

    @abstractmethod
    def result(self) -> Any:
        """Returns the elements."""

    @abstractmethod
    def booleans(self) -> Any:
        """Returns the elements, each 1 or 0, as bools."""

    @abstractmethod
    def rows(self) -> Any:
        """Returns the rows of neighbours."""

    @abstractmethod
    def columns(self) -> Any:
        """Returns the columns of neighbours. A missing neighbour is -1."""


def _to_uint64(number: SupportsIndex) -> int:
    """Returns a number if it is 0 to 2^64 - 2, and INVALID_NUMBER otherwise. Raises TypeError if it is not an integer."""
    number = operator.index(number)
    return number if 0 <= number < INVALID_NUMBER else INVALID_NUMBER


def _first_outside(numbers: list[SupportsIndex], start: int = 0) -> tuple[int, ...]:
    """Returns the position and the value of the first number outside 0 to 2^64 - 2, if there is one.

    `start` is the position of the first number. Raises TypeError if a number before it is not an integer."""
    values = ((start + position, operator.index(number)) for position, number in enumerate(numbers))
    return next((pair for pair in values if not 0 <= pair[1] < INVALID_NUMBER), ())


def _array_of(numbers: list[Any], start: int = 0) -> tuple[array[int], tuple[int, ...]]:
    """Returns numbers as an array, and what `_first_outside` returns for them. Raises TypeError if a number is not an integer."""
    try:
        elements = array("Q", numbers)
    except OverflowError:
        elements = array("Q", map(_to_uint64, numbers))
    # A search of bytes takes a fifth of the time of a search of numbers.
    return elements, _first_outside(numbers, start) if _INVALID_BYTES in elements.tobytes() else ()


def _flatten_pairs(pairs: Iterable[Any]) -> Iterator[SupportsIndex]:
    """Returns an iterator over the numbers of pairs. Raises ValueError or TypeError, with its position, for an item that is not a pair."""
    for position, pair in enumerate(pairs):
        try:
            start, end = pair
        except (TypeError, ValueError) as error:
            kind = TypeError if isinstance(error, TypeError) else ValueError
            raise kind(f"item {position} is not a pair (from, to): {pair!r}") from None
        yield start
        yield end


class PlainInput(Input):
    """An int, or the ints of an iterable, with results that are ints or lists.

    Attributes
    ----------
    numbers : array.array
        The elements.
    width : int
        The number of elements of a row.
    is_scalar : bool
        Whether the argument was a single int. Results are then ints.
    outside : tuple of int
        The position and the value of the first int outside 0 to 2^64 - 2, if there is one.
    """

    def __init__(self, numbers: array[int], is_scalar: bool = False, width: int = 1, outside: tuple[int, ...] = ()) -> None:
        self.numbers, self.is_scalar, self.width, self.outside = numbers, is_scalar, width, outside

    @classmethod
    def of(cls, numbers: Any, width: int = 1) -> PlainInput:
        """Returns an int or the ints of an iterable. Raises TypeError if a number is not an integer."""
        if not hasattr(numbers, "__iter__"):
            number = _to_uint64(numbers)
            return cls(array("Q", [number]), True, outside=_first_outside([numbers]) if number == INVALID_NUMBER else ())
        if type(numbers) is list and len(numbers) <= PIECE_LENGTH:
            whole, first = _array_of(numbers)
            return cls(whole, width=width, outside=first)
        elements, iterator = array("Q"), iter(numbers)
        outside: tuple[int, ...] = ()
        while piece := list(islice(iterator, PIECE_LENGTH)):
            part, first = _array_of(piece, len(elements))
            elements += part
            outside = outside or first
        return cls(elements, width=width, outside=outside)

    def __len__(self) -> int:
        return len(self.numbers) // self.width

    def buffer(self, rows: slice) -> Buffer:
        return buffer_of(self.numbers, rows, self.width)

    def private(self) -> PlainInput:
        return self

    def new_output(self, code: str = "Q", width: int = 1) -> PlainOutput:
        return PlainOutput(zeros(code, len(self.numbers) * width), width, self.is_scalar)

    def to_list(self) -> list[int]:
        return to_list(self.numbers)

    def distinct(self) -> set[int]:
        return set(self.numbers)

    def positions_of(self, number: int) -> list[int]:
        return [position for position, element in enumerate(self.numbers) if element == number]

    def take(self, positions: list[int]) -> PlainInput:
        outside: tuple[int, ...] = ()
        if self.outside and self.outside[0] in positions:
            outside = positions.index(self.outside[0]), self.outside[1]
        return PlainInput(array("Q", [self.numbers[position] for position in positions]), outside=outside)

    def text_of_row(self, row: int) -> str:
        """Returns the text of the elements of a row. Only for the first int outside 0 to 2^64 - 2, the value is known."""
        texts = {position: str(self.numbers[position]) for position in range(row * self.width, (row + 1) * self.width)}
        texts |= {position: "a number that is not 0 to 2^64 - 2" for position in texts if self.numbers[position] == INVALID_NUMBER}
        if self.outside and self.outside[0] in texts:
            texts[self.outside[0]] = str(self.outside[1])
        return ", ".join(texts.values())

    def is_ascending(self) -> bool:
        """Returns False: a comparison of the elements of a list takes longer than it saves."""
        return False

    def flags_of_cells(self, bounds: array[int], order: int, is_whole: bool) -> Any:
        starts, ends = bounds[::2], bounds[1::2]
        shift, count = 2 * (29 - order), 12 * 4**order

        def flag(cell: int) -> bool:
            first, end = cell << shift, (cell + 1) << shift
            index = bisect_right(ends, first)
            if cell >= count or index == len(starts):
                return False
            return starts[index] <= first and end <= ends[index] if is_whole else starts[index] < end

        flags = [flag(cell) for cell in self.numbers]
        return flags[0] if self.is_scalar else flags


class PlainOutput(Output):
    """An output whose results are an int or a list.

    Attributes
    ----------
    numbers : array.array
        The elements.
    width : int
        The number of elements of a row.
    is_scalar : bool
        Whether results are ints.
    """

    def __init__(self, numbers: array[int], width: int = 1, is_scalar: bool = False) -> None:
        self.numbers, self.width, self.is_scalar = numbers, width, is_scalar

    def buffer(self, rows: slice) -> Buffer:
        return buffer_of(self.numbers, rows, self.width)

    def result(self) -> Any:
        """Returns the elements as a list, or the element as an int."""
        return self.numbers[0] if self.is_scalar else to_list(self.numbers)

    def booleans(self) -> Any:
        """Returns the elements as a list of bools, or the element as a bool."""
        return bool(self.numbers[0]) if self.is_scalar else [number == 1 for number in self.numbers]

    def rows(self) -> Any:
        """Returns the rows as lists, without missing neighbours, or the row as a list."""
        starts = range(0, len(self.numbers), self.width)
        rows = [[number for number in self.numbers[start:start + self.width] if number != INVALID_NUMBER] for start in starts]
        return rows[0] if self.is_scalar else rows

    def columns(self) -> Any:
        """Returns a list for each column, or the row as a list."""
        numbers = [-1 if number == INVALID_NUMBER else number for number in self.numbers]
        if self.is_scalar:
            return numbers
        return [numbers[column::self.width] for column in range(self.width)]


class NumpyInput(Input):
    """A NumPy array whose results are NumPy arrays.

    A signed integer is passed with its bits, -1 as 2^64 - 1, and is converted back in results.

    Attributes
    ----------
    elements : ndarray or flatiter
        The elements along one axis, with the dtype of the argument.
    shape : tuple of int
        The shape of the argument, which is also the shape of results.
    width : int
        The number of elements of a row.
    """

    def __init__(self, elements: Any, shape: tuple[int, ...], width: int = 1) -> None:
        self.elements, self.shape, self.width = elements, shape, width

    @classmethod
    def of(cls, numbers: Any, width: int = 1) -> NumpyInput:
        """Returns the elements of an array-like object of any shape. Copies them only in pieces, unless the object must be converted.

        Raises TypeError if the dtype is not an integer type, or if an entry is missing. An array without elements may have any dtype."""
        import numpy

        if numpy.ma.is_masked(numbers):  # type: ignore[no-untyped-call]
            raise TypeError("the array has masked entries: pass array.compressed(), or array.filled(-1)")
        elements: NDArray[Any] = _without_extension(numbers)
        if elements.dtype.kind not in "iu":
            if elements.size:
                raise TypeError(f"expected an array of integers, not of {elements.dtype}")
            elements = elements.astype("int64")
        is_flat = elements.ndim == 1 or elements.flags.c_contiguous
        return cls(elements.reshape(-1) if is_flat else elements.flat, elements.shape, width)

    def __len__(self) -> int:
        return len(self.elements) // self.width

    def numbers(self, rows: slice) -> NDArray[numpy.uint64]:
        """Returns the elements of rows. Copies them only if the dtype or the layout of the memory requires it."""
        import numpy

        elements = self.elements[rows.start * self.width:rows.stop * self.width]
        wide: NDArray[Any] = numpy.require(elements, self._wide_dtype(), ["C", "A"])
        return wide.view(numpy.uint64)

    def buffer(self, rows: slice) -> Buffer:
        numbers = self.numbers(rows)
        return Buffer(numbers.ctypes.data, len(numbers) // self.width, numbers)

    def private(self) -> NumpyInput:
        import numpy

        return NumpyInput(numpy.array(self.elements, self._wide_dtype()), self.shape, self.width)

    def _wide_dtype(self) -> Any:
        """Returns the dtype of 64 bits with the kind of the elements."""
        return "uint64" if self.elements[:0].dtype.kind == "u" else "int64"

    def new_output(self, code: str = "Q", width: int = 1) -> NumpyOutput:
        import numpy

        return NumpyOutput(numpy.empty(len(self.elements) * width, _DTYPES[code]), self.shape, width)

    def to_list(self) -> list[int]:
        numbers: list[int] = []
        for rows in pieces_of(len(self)):
            numbers += self.elements[rows].tolist()
        return numbers

    def distinct(self) -> set[int]:
        import numpy

        numbers: set[int] = set()
        for rows in pieces_of(len(self)):
            numbers.update(numpy.unique(self.elements[rows]).tolist())
        return numbers

    def positions_of(self, number: int) -> NDArray[numpy.int64]:
        import numpy

        return numpy.concatenate([numpy.flatnonzero(self.elements[rows] == number) + rows.start for rows in pieces_of(len(self))])

    def take(self, positions: NDArray[numpy.int64]) -> NumpyInput:
        return NumpyInput(self.elements[positions], (len(positions),))

    def text_of_row(self, row: int) -> str:
        return ", ".join(str(number) for number in self.elements[row * self.width:(row + 1) * self.width].tolist())

    def call_sorted(self, call: Callable[[Buffer, Buffer], object], rows: slice, output: Output) -> None:
        """Sorts the pixels by the cells of order 6 that contain them, unless the array is short or ascending. A number that is not a pixel
        may be at any position."""
        import numpy

        numbers = self.numbers(rows)
        if len(numbers) <= _MIN_LENGTH_FOR_SORTING or not (numbers[1:] < numbers[:-1]).any():
            super().call_sorted(call, rows, output)
            return
        cells = (numbers >> numpy.uint64(_ORDER_6_SHIFT)).astype(numpy.uint16)
        positions = numpy.argsort(cells, kind="stable") + rows.start
        piece, all_rows = self.take(positions), slice(0, len(positions))
        piece_output = piece.new_output("B")
        call(piece.buffer(all_rows), piece_output.buffer(all_rows))
        assert isinstance(output, NumpyOutput)
        output.numbers[positions] = piece_output.numbers

    def flags_of_cells(self, bounds: array[int], order: int, is_whole: bool) -> Any:
        import numpy

        starts, ends = numpy.asarray(bounds).reshape(-1, 2).T.copy()
        flags = numpy.empty(len(self), bool)
        for rows in pieces_of(len(self)):
            numbers = self.numbers(rows)
            if len(starts) > MIN_RANGES_FOR_SORTING and (numbers[1:] < numbers[:-1]).any():
                positions = numpy.argsort(numbers)
                flags[rows][positions] = _flags_of_cells(numbers[positions], starts, ends, order, is_whole)
            else:
                flags[rows] = _flags_of_cells(numbers, starts, ends, order, is_whole)
        return flags.reshape(self.shape)[()]

    def is_ascending(self) -> bool:
        pieces = (self.numbers(slice(rows.start, min(rows.stop + 1, len(self)))) for rows in pieces_of(len(self)))
        return not any((numbers[1:] < numbers[:-1]).any() for numbers in pieces)


class NumpyOutput(Output):
    """An output whose results are NumPy arrays.

    Attributes
    ----------
    numbers : ndarray
        The elements along one axis.
    shape : tuple of int
        The shape of results, without the axis of the columns.
    width : int
        The number of elements of a row.
    """

    def __init__(self, numbers: NDArray[Any], shape: tuple[int, ...], width: int = 1) -> None:
        self.numbers, self.shape, self.width = numbers, shape, width

    def buffer(self, rows: slice) -> Buffer:
        numbers = self.numbers[rows.start * self.width:rows.stop * self.width]
        return Buffer(numbers.ctypes.data, rows.stop - rows.start, numbers)

    def result(self) -> Any:
        """Returns the elements as int64, which healpy uses too, in the shape of the argument."""
        if self.numbers.dtype == "uint64":
            return self.numbers.view("int64").reshape(self.shape)[()]
        import numpy

        signed = numpy.empty(len(self.numbers), "int64")
        for rows in pieces_of(len(self.numbers)):
            signed[rows] = self.numbers[rows]
        return signed.reshape(self.shape)[()]

    def booleans(self) -> Any:
        """Returns the elements as bools in the shape of the argument."""
        return self.numbers.view(bool).reshape(self.shape)[()]

    def rows(self) -> Any:
        """Returns the rows along the last axis. A missing neighbour is -1."""
        return self.numbers.view("int64").reshape(*self.shape, self.width)

    def columns(self) -> Any:
        """Returns the columns along the first axis."""
        import numpy

        return numpy.moveaxis(self.rows(), -1, 0)


def _flags_of_cells(cells: NDArray[numpy.uint64], starts: NDArray[numpy.uint64], ends: NDArray[numpy.uint64], order: int,
                    is_whole: bool) -> NDArray[numpy.bool_]:
    """Returns for each cell of an order whether the ranges with these bounds contain all or any of its pixels."""
    import numpy

    is_cell = cells < numpy.uint64(12 * 4**order)
    if not len(starts):
        return numpy.zeros(len(cells), bool)
    shift = numpy.uint64(2 * (29 - order))
    first = numpy.where(is_cell, cells, numpy.uint64(0)) << shift
    end = first + (numpy.uint64(1) << shift)
    index = numpy.searchsorted(ends, first, "right")
    is_cell &= index < len(starts)
    index = numpy.where(is_cell, index, 0)
    if is_whole:
        return is_cell & (starts[index] <= first) & (end <= ends[index])
    return is_cell & (starts[index] < end)


def _without_extension(numbers: Any) -> NDArray[Any]:
    """Returns an array-like object as an array. A nullable column of pandas gets the dtype of its values.

    Raises TypeError if such a column has a missing value."""
    import numpy

    dtype = getattr(getattr(numbers, "dtype", None), "numpy_dtype", None)
    if dtype is None or not hasattr(numbers, "isna"):
        return numpy.asarray(numbers)
    if numbers.isna().any():
        raise TypeError("the column has missing values: pass column.dropna()")
    elements: NDArray[Any] = numbers.to_numpy(dtype)
    return elements


def _check_not_lazy(numbers: object) -> None:
    """Raises TypeError for an array whose elements are not computed yet, as those of Dask."""
    if hasattr(numbers, "__dask_graph__"):
        raise TypeError("the array is not computed yet: call compute() first, or map the call over its blocks")


def as_input(numbers: Numbers) -> Input:
    """Returns the integers of an argument: a `NumpyInput` if it implements NumPy's array interface, and a `PlainInput` otherwise.

    Raises TypeError if a number is not an integer, if an entry is missing, or if the array is lazy."""
    _check_not_lazy(numbers)
    return NumpyInput.of(numbers) if hasattr(numbers, "__array__") else PlainInput.of(numbers)


def without_missing(numbers: Any) -> Any:
    """Returns an argument without its masked entries, or a nullable column of pandas without its missing values.

    Of an array of pairs, a pair is removed if one of its numbers is masked."""
    if hasattr(numbers, "isna") and hasattr(numbers, "dtype"):
        return numbers[~numbers.isna()]
    if not hasattr(numbers, "mask") or not hasattr(numbers, "compressed"):
        return numbers
    import numpy

    return numpy.ma.compress_rows(numbers) if numbers.ndim == 2 else numbers.compressed()  # type: ignore[no-untyped-call]


def without_missing_rows(*columns: Any) -> tuple[Any, ...]:
    """Returns columns of one length without the rows in which one of them has a masked entry or a missing value of pandas."""
    if not any(hasattr(column, "isna") or hasattr(column, "mask") for column in columns):
        return columns
    import numpy

    masked: Any = numpy.ma
    masks = [numpy.asarray(column.isna()) if hasattr(column, "isna") else masked.getmaskarray(column) for column in columns]
    if len({mask.shape for mask in masks}) > 1:
        return columns
    is_kept = ~numpy.logical_or.reduce(masks)
    return tuple(column[is_kept] if hasattr(column, "__array__") else numpy.asarray(column)[is_kept] for column in columns)


def as_pairs(pairs: Pairs) -> Input:
    """Returns an input with a row of two elements for each pair of an argument.

    Raises ValueError if a NumPy array has another shape than (n, 2) and is not empty, or if an item has not two elements. Raises TypeError
    if an item is not iterable, or if a number is not an integer. A pair with a masked number is left out."""
    _check_not_lazy(pairs)
    argument = without_missing(pairs)
    if not hasattr(argument, "__array__"):
        return PlainInput.of(_flatten_pairs(argument), width=2)
    numbers = NumpyInput.of(argument, width=2)
    if len(numbers.elements) and numbers.shape[1:] != (2,):
        raise ValueError(f"expected an array of pairs (from, to) with the shape (n, 2), not {numbers.shape}")
    return numbers
