"""Pixels of positions on the sky, by astropy-healpix or healpy.

Positions are longitudes and latitudes in degrees, quantities of astropy with a unit of angles, or `SkyCoord` objects. They are equatorial
coordinates (ICRS), as in MOC 2.0.
"""
from __future__ import annotations

import importlib
from collections.abc import Callable
from typing import TYPE_CHECKING, Any

from ._arrays import pieces_of
from .errors import check_order

if TYPE_CHECKING:
    from numpy.typing import NDArray

# The modules that have the function `ang2pix` of healpy.
_MODULES: tuple[str, ...] = ("astropy_healpix.healpy", "healpy")


def _import_healpy() -> Any:
    """Returns the first module that is installed with the functions of healpy. Raises ImportError with advice if there is none."""
    for name in _MODULES:
        try:
            return importlib.import_module(name)
        except ImportError:
            pass
    raise ImportError("positions need the package astropy-healpix or healpy: pip install astropy-healpix, or apt install "
                      "python3-astropy-healpix")


def degrees_of(angles: Any, *, compress: bool = False) -> Any:
    """Returns angles in degrees as an array of float64. A quantity, or a column with a unit, is converted.

    Raises TypeError for an array that is not computed yet, and for masked entries, which are left out if `compress` is true."""
    import numpy

    if hasattr(angles, "__dask_graph__"):
        raise TypeError("the array is not computed yet: call compute() first, or map the call over its blocks")
    unit = getattr(angles, "unit", None)
    if unit is not None:
        angles = angles.value * unit.to("deg")
    masked: Any = numpy.ma
    if compress:
        return masked.asarray(angles, numpy.float64)
    if masked.is_masked(angles):
        raise TypeError("the array has masked entries: pass array.compressed(), or fill them")
    return numpy.asarray(angles, numpy.float64)


def positions_of(coordinates: Any) -> tuple[Any, Any]:
    """Returns the right ascensions and declinations of a `SkyCoord` of any frame, in degrees. Raises TypeError for another object."""
    if not hasattr(coordinates, "transform_to"):
        raise TypeError(f"expected a SkyCoord, not {type(coordinates).__name__}")
    equatorial = coordinates.transform_to("icrs")
    return equatorial.ra.deg, equatorial.dec.deg


def _check(lon: NDArray[Any], lat: NDArray[Any]) -> None:
    """Raises ValueError for the first longitude that is not finite, or latitude outside -90 to 90, with its index."""
    import numpy

    for name, values, is_valid in (("longitude", lon, numpy.isfinite(lon)), ("latitude", lat, abs(lat) <= 90)):
        if not is_valid.all():
            index = int((~is_valid).argmax())
            expected = "expected a finite number" if name == "longitude" else "expected -90 to 90"
            raise ValueError(f"{name} {values[index]} at index {index}: {expected}")


def pixels_of(lon: NDArray[Any], lat: NDArray[Any], depth: int) -> NDArray[Any]:
    """Returns the nested numbers of the cells that contain positions, in the shape of both arrays, which are broadcast.

    Parameters
    ----------
    lon, lat : ndarray of float64
        Longitudes and latitudes in degrees.
    depth : int
        The order of the cells, 0 to 29.

    Raises
    ------
    ValueError
        If a longitude is not finite, or a latitude is not -90 to 90, with the index in the flattened array.
    ImportError
        If neither astropy-healpix nor healpy is installed.
    """
    import numpy

    nside, healpy = 1 << check_order(depth), _import_healpy()
    lon, lat = numpy.broadcast_arrays(lon, lat)
    flat_lon, flat_lat = lon.reshape(-1), lat.reshape(-1)
    _check(flat_lon, flat_lat)
    cells = numpy.empty(flat_lon.shape, numpy.int64)
    for rows in pieces_of(len(cells)):
        cells[rows] = healpy.ang2pix(nside, flat_lon[rows], flat_lat[rows], nest=True, lonlat=True)
    return cells.reshape(lon.shape)


def cells_of_catalogue(lon: Any, lat: Any, depth: int) -> NDArray[Any]:
    """Returns the cells of positions, without the positions whose longitude or latitude is masked."""
    import numpy

    masked: Any = numpy.ma
    longitudes, latitudes = degrees_of(lon, compress=True), degrees_of(lat, compress=True)
    mask = masked.getmaskarray(longitudes + latitudes)
    # A masked position may have any value, and errors have the index in the whole array.
    longitudes, latitudes = (numpy.where(mask, 0.0, angles.data) for angles in (longitudes, latitudes))
    cells: NDArray[Any] = pixels_of(longitudes, latitudes, depth)[~mask]
    return cells


def flags_of_positions(contains: Callable[[NDArray[Any]], Any], lon: Any, lat: Any) -> Any:
    """Returns what `contains` returns for the pixels of positions, as a bool, as a list, or as an array if one of the arguments is one."""
    flags = contains(pixels_of(degrees_of(lon), degrees_of(lat), 29))
    return flags if any(hasattr(angles, "__array__") for angles in (lon, lat)) else flags.tolist()
