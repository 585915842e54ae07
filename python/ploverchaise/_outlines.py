"""Outlines and centers of HEALPix cells on the sphere, in degrees (Górski et al. 2005)."""
from __future__ import annotations

from typing import TYPE_CHECKING, Any

from .cells import pix2xyf

if TYPE_CHECKING:
    from numpy.typing import NDArray

MAX_RADIUS = 62.0
"""An upper bound, in degrees, of the distance from the center of a cell to its corners, times 2^order."""


def _sphere(row: NDArray[Any], column: NDArray[Any], middle: NDArray[Any]) -> tuple[NDArray[Any], NDArray[Any]]:
    """Returns the longitudes and latitudes of points of the HEALPix projection.

    Parameters
    ----------
    row : ndarray
        The distance from the north pole: 0 at the pole, 1 and 3 where the polar caps begin, and 4 at the south pole.
    column : ndarray
        The distance to the east from the middle meridian of the base pixel. It is 1 at the corner of a base pixel on the equator.
    middle : ndarray
        The longitude of this meridian.

    Returns
    -------
    lon, lat : ndarray
        The longitudes are continuous in a base pixel. They may be outside 0 to 360 degrees. At a pole, it is that of the meridian.
    """
    import numpy

    from_pole = numpy.minimum(row, 4 - row)
    width = numpy.clip(from_pole, 0, 1)
    height = numpy.where(from_pole >= 1, (2 - row) * 2 / 3, numpy.sign(2 - row) * (1 - width**2 / 3))
    offset = numpy.divide(column, width, out=numpy.zeros_like(row), where=width > 0)
    return middle + 45 * offset, numpy.degrees(numpy.arcsin(numpy.clip(height, -1, 1)))


def _points(order: int, cells: NDArray[Any], east: NDArray[Any], west: NDArray[Any]) -> tuple[NDArray[Any], NDArray[Any]]:
    """Returns the longitudes and latitudes of points of cells: a row for each cell, and a column for each point.

    Parameters
    ----------
    order : int
        The order of the cells.
    cells : ndarray of int64
        The nested numbers of the cells.
    east, west : ndarray of float64
        The positions of the points in a cell, from 0 at its southern corner to 1, to the north-east and to the north-west.
    """
    import numpy

    x, y, face = (numpy.asarray(numbers)[:, None] for numbers in pix2xyf(1 << order, cells))
    east, west = (x + east) / (1 << order), (y + west) / (1 << order)
    ring = face // 4
    middle = 90.0 * (face % 4) + numpy.where(ring == 1, 0.0, 45.0)
    return _sphere(2 + ring - east - west, east - west, middle)


def outlines(order: int, cells: NDArray[Any], steps: int) -> tuple[NDArray[Any], NDArray[Any]]:
    """Returns the longitudes and latitudes of the outlines of cells, counterclockwise as seen from inside the sphere with north up.

    Parameters
    ----------
    order : int
        The order of the cells.
    cells : ndarray of int64
        The nested numbers of the cells.
    steps : int
        The number of points on each side.

    Returns
    -------
    lon, lat : ndarray of float64
        Arrays of the shape (number of cells, 4·steps). The outlines begin at the southern corner, and go by the east, north and west.
    """
    import numpy

    along = numpy.arange(steps) / steps
    zeros, ones = numpy.zeros(steps), numpy.ones(steps)
    return _points(order, cells, numpy.concatenate([along, ones, 1 - along, zeros]), numpy.concatenate([zeros, along, ones, 1 - along]))


def centers(order: int, cells: NDArray[Any]) -> tuple[NDArray[Any], NDArray[Any]]:
    """Returns the longitudes and latitudes of the centers of cells."""
    import numpy

    lon, lat = _points(order, cells, numpy.array([0.5]), numpy.array([0.5]))
    return lon[:, 0], lat[:, 0]
