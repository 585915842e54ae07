"""Conversions of HEALPix cell numbers, and neighbours of cells, with the names of healpy and cdshealpix.

Cell numbers are an int, an iterable of ints, or an array-like object of integers. The result is an int, a list, or an int64 array of the
same shape. A call takes O(1) for each number. Meanwhile, other threads of Python run.

Nested and ring numbers count from 0. The NUNIQ number of cell i of order k is 4^(k+1) + i. Every function raises TypeError if a number is
not an integer.
"""
from __future__ import annotations

import operator
from typing import TYPE_CHECKING, Any, Literal, SupportsIndex, overload

from ._arrays import ArrayLike, Integers, Numbers, as_input
from ._codes import NO_SUCH_ORDER
from ._library import convert
from .errors import MocError, check_order

if TYPE_CHECKING:
    import numpy
    from numpy.typing import NDArray

    Int64Array = NDArray[numpy.int64]
    IntLists = tuple[list[int], list[int], list[int]]
    Int64Arrays = tuple[Int64Array, Int64Array, Int64Array]


def order2nside(order: SupportsIndex) -> int:
    """Returns the nside of an order, 2^order.

    Parameters
    ----------
    order : int
        The order, 0 to 29.

    Raises
    ------
    MocError
        `NoSuchOrder` if the order is not 0 to 29.

    Examples
    --------
    >>> order2nside(9)
    512
    """
    return 1 << check_order(order)


def nside2order(nside: SupportsIndex) -> int:
    """Returns the order of an nside, log2(nside).

    Parameters
    ----------
    nside : int
        The nside, a power of two up to 2^29.

    Raises
    ------
    ValueError
        If nside is not a power of two.
    MocError
        `NoSuchOrder` with the order if nside is a power of two above 2^29.

    Examples
    --------
    >>> nside2order(512)
    9
    """
    nside = operator.index(nside)
    order = nside.bit_length() - 1
    if order < 0 or nside != 1 << order:
        raise ValueError(f"nside must be a power of two, not {nside}")
    if order > 29:
        raise MocError(NO_SUCH_ORDER, order, detail=f"{nside} is above 2^29")
    return order


def _check_nested(nest: bool) -> None:
    """Raises ValueError if the argument `nest` of healpy states ring numbers."""
    if not nest:
        raise ValueError("nest must be True: convert ring numbers with ring2nest first")


def _convert(function: str, nside: SupportsIndex, ipix: Numbers) -> Any:
    """Returns the number that a function of the library returns for each cell."""
    order, cells = nside2order(nside), as_input(ipix)
    output = cells.new_output()
    convert(function, order, cells, output)
    return output.result()


@overload
def nest2ring(nside: SupportsIndex, ipix: int) -> int: ...
@overload
def nest2ring(nside: SupportsIndex, ipix: ArrayLike) -> Int64Array: ...
@overload
def nest2ring(nside: SupportsIndex, ipix: Integers) -> list[int]: ...


def nest2ring(nside: SupportsIndex, ipix: Numbers) -> Any:
    """Converts nested numbers into ring numbers, as healpy's function of this name.

    Parameters
    ----------
    nside : int
        The nside of the cells, a power of two up to 2^29.
    ipix : int, iterable of int, or array-like of integers
        The nested numbers, each below 12·nside².

    Returns
    -------
    int, list of int, or ndarray of int64
        The ring numbers, in the shape of `ipix`.

    Raises
    ------
    MocError
        `NoSuchCell` with the position of the first number that is not a cell number; `NoSuchOrder` as in `nside2order`.
    ValueError
        If nside is not a power of two.

    Examples
    --------
    >>> nest2ring(2, [0, 1, 2, 3, 16, 18])
    [13, 5, 4, 0, 28, 27]
    """
    return _convert("nest_to_ring", nside, ipix)


@overload
def ring2nest(nside: SupportsIndex, ipix: int) -> int: ...
@overload
def ring2nest(nside: SupportsIndex, ipix: ArrayLike) -> Int64Array: ...
@overload
def ring2nest(nside: SupportsIndex, ipix: Integers) -> list[int]: ...


def ring2nest(nside: SupportsIndex, ipix: Numbers) -> Any:
    """Converts ring numbers into nested numbers, as healpy's function of this name.

    Parameters
    ----------
    nside : int
        The nside of the cells, a power of two up to 2^29.
    ipix : int, iterable of int, or array-like of integers
        The ring numbers, each below 12·nside².

    Returns
    -------
    int, list of int, or ndarray of int64
        The nested numbers, in the shape of `ipix`.

    Raises
    ------
    MocError
        `NoSuchCell` with the position of the first number that is not a cell number; `NoSuchOrder` as in `nside2order`.
    ValueError
        If nside is not a power of two.

    Examples
    --------
    >>> ring2nest(2, [13, 5, 4, 0, 28, 27])
    [0, 1, 2, 3, 16, 18]
    """
    return _convert("ring_to_nest", nside, ipix)


@overload
def nest2uniq(nside: SupportsIndex, ipix: int) -> int: ...
@overload
def nest2uniq(nside: SupportsIndex, ipix: ArrayLike) -> Int64Array: ...
@overload
def nest2uniq(nside: SupportsIndex, ipix: Integers) -> list[int]: ...


def nest2uniq(nside: SupportsIndex, ipix: Numbers) -> Any:
    """Converts nested numbers into NUNIQ numbers, 4·nside² + ipix.

    Parameters
    ----------
    nside : int
        The nside of the cells, a power of two up to 2^29.
    ipix : int, iterable of int, or array-like of integers
        The nested numbers, each below 12·nside².

    Returns
    -------
    int, list of int, or ndarray of int64
        The NUNIQ numbers, in the shape of `ipix`.

    Raises
    ------
    MocError
        `NoSuchCell` with the position of the first number that is not a cell number; `NoSuchOrder` as in `nside2order`.
    ValueError
        If nside is not a power of two.

    Examples
    --------
    >>> nest2uniq(8, 10)
    266
    """
    return _convert("nest_to_uniq", nside, ipix)


@overload
def uniq2nest(uniq: int) -> tuple[int, int]: ...
@overload
def uniq2nest(uniq: ArrayLike) -> tuple[Int64Array, Int64Array]: ...
@overload
def uniq2nest(uniq: Integers) -> tuple[list[int], list[int]]: ...


def uniq2nest(uniq: Numbers) -> Any:
    """Converts NUNIQ numbers into nsides and nested numbers.

    Parameters
    ----------
    uniq : int, iterable of int, or array-like of integers
        The NUNIQ numbers.

    Returns
    -------
    nside, ipix : int, list of int, or ndarray of int64
        The nside and the nested number of each cell, both in the shape of `uniq`.

    Raises
    ------
    MocError
        `NotUniq` with the position of the first number that is not a NUNIQ number.

    Examples
    --------
    >>> uniq2nest([15, 266])
    ([1, 8], [11, 10])
    """
    uniqs = as_input(uniq)
    order_output, cells = uniqs.new_output("B"), uniqs.new_output()
    convert("uniq_to_nest", None, uniqs, order_output, cells)
    orders = order_output.result()
    return [1 << order for order in orders] if isinstance(orders, list) else 1 << orders, cells.result()


@overload
def pix2xyf(nside: SupportsIndex, ipix: int, *, nest: Literal[True] = True) -> tuple[int, int, int]: ...
@overload
def pix2xyf(nside: SupportsIndex, ipix: ArrayLike, *, nest: Literal[True] = True) -> Int64Arrays: ...
@overload
def pix2xyf(nside: SupportsIndex, ipix: Integers, *, nest: Literal[True] = True) -> IntLists: ...


def pix2xyf(nside: SupportsIndex, ipix: Numbers, *, nest: bool = True) -> Any:
    """Converts nested numbers into positions in base pixels, as healpy's function of this name with `nest=True`.

    Parameters
    ----------
    nside : int
        The nside of the cells, a power of two up to 2^29.
    ipix : int, iterable of int, or array-like of integers
        The nested numbers, each below 12·nside².
    nest : True
        Accepted for healpy, whose default is False.

    Returns
    -------
    x, y, face : int, list of int, or ndarray of int64
        The position x to the north-east and y to the north-west, both from 0 to nside - 1. The base pixel `face`, 0 to 11. Each result has
        the shape of `ipix`.

    Raises
    ------
    MocError
        `NoSuchCell` with the position of the first number that is not a cell number; `NoSuchOrder` as in `nside2order`.
    ValueError
        If nside is not a power of two, or if `nest` is false.

    Examples
    --------
    >>> pix2xyf(4, 64)
    (0, 0, 4)
    """
    _check_nested(nest)
    order, cells = nside2order(nside), as_input(ipix)
    faces, xs, ys = cells.new_output("B"), cells.new_output("I"), cells.new_output("I")
    convert("nest_to_face_xy", order, cells, faces, xs, ys)
    return xs.result(), ys.result(), faces.result()


@overload
def neighbours(ipix: int, depth: SupportsIndex) -> list[int]: ...
@overload
def neighbours(ipix: ArrayLike, depth: SupportsIndex) -> Int64Array: ...
@overload
def neighbours(ipix: Integers, depth: SupportsIndex) -> list[list[int]]: ...


def neighbours(ipix: Numbers, depth: SupportsIndex) -> Any:
    """Returns the neighbours of cells: the six to eight cells that share a corner or a side with a cell, by ascending nested numbers.

    The function has the name of cdshealpix, which returns another sequence with the cell itself in the middle. `get_all_neighbours` returns
    the neighbours by direction.

    Parameters
    ----------
    ipix : int, iterable of int, or array-like of integers
        The nested numbers, each below 12·4^depth.
    depth : int
        The order of the cells, 0 to 29.

    Returns
    -------
    list of int, list of lists of int, or ndarray of int64
        A list for an int, and a list for each cell of an iterable. For an array of shape s, an array of shape (*s, 8). In an array, -1
        follows the last neighbour of a cell that has fewer than eight.

    Raises
    ------
    MocError
        `NoSuchOrder` if the depth is not 0 to 29; `NoSuchCell` with the position of the first number that is not a cell number.

    Examples
    --------
    >>> neighbours(3, 2)
    [0, 1, 2, 4, 6, 8, 9, 12]
    """
    order, cells = check_order(depth), as_input(ipix)
    output = cells.new_output(width=8)
    convert("touching", order, cells, output)
    return output.rows()


@overload
def get_all_neighbours(nside: SupportsIndex, ipix: int, *, nest: Literal[True] = True) -> list[int]: ...
@overload
def get_all_neighbours(nside: SupportsIndex, ipix: ArrayLike, *, nest: Literal[True] = True) -> Int64Array: ...
@overload
def get_all_neighbours(nside: SupportsIndex, ipix: Integers, *, nest: Literal[True] = True) -> list[list[int]]: ...


def get_all_neighbours(nside: SupportsIndex, ipix: Numbers, *, nest: bool = True) -> Any:
    """Returns the neighbours of cells by direction, as healpy's function of this name with `nest=True`.

    Parameters
    ----------
    nside : int
        The nside of the cells, a power of two up to 2^29.
    ipix : int, iterable of int, or array-like of integers
        The nested numbers, each below 12·nside².
    nest : True
        Accepted for healpy, whose default is False.

    Returns
    -------
    list of int, list of lists of int, or ndarray of int64
        The neighbours to the south-west, west, north-west, north, north-east, east, south-east and south. The number is -1 if there is no
        neighbour in a direction. For an int, the result has eight ints. For an iterable, it has eight lists, each with the neighbours of
        all cells in one direction. For an array of shape s, it is an array of shape (8, *s).

    Raises
    ------
    MocError
        `NoSuchCell` with the position of the first number that is not a cell number; `NoSuchOrder` as in `nside2order`.
    ValueError
        If nside is not a power of two, or if `nest` is false.

    Examples
    --------
    >>> get_all_neighbours(4, 3)
    [2, 8, 9, 12, 6, 4, 1, 0]
    """
    _check_nested(nest)
    order, cells = nside2order(nside), as_input(ipix)
    output = cells.new_output(width=8)
    convert("neighbours", order, cells, output)
    return output.columns()
