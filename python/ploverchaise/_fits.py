"""FITS tables of coverages (MOC 2.0), read and written with `astropy.io.fits`.

A table has one column. With ORDERING `NUNIQ` its numbers are the NUNIQ numbers of cells. With ORDERING `RANGE` they are the bounds of
half-open ranges of pixels, a start and an end in turn. Files of MOC 1.0 and 1.1 have the first kind of table.
"""
from __future__ import annotations

import io
import warnings
from types import ModuleType
from typing import TYPE_CHECKING, Any, SupportsIndex

from ._files import FileError
from .errors import MocError, check_order, too_coarse
from .moc import MOC

if TYPE_CHECKING:
    from numpy.typing import NDArray

# The values of ORDERING, each with the name of the column.
COLUMNS = {"NUNIQ": "UNIQ", "RANGE": "RANGE"}
# The values of COORDSYS that stand for equatorial coordinates (ICRS).
EQUATORIAL = ("", "C", "ICRS")
# The names of the key for the MOC order in MOC 2.0 and in MOC 1.1.
ORDER_KEYS = ("MOCORD_S", "MOCORDER")


def _import_fits() -> ModuleType:
    """Returns the module `astropy.io.fits`. Raises ImportError with advice if astropy is not installed."""
    try:
        from astropy.io import fits
    except ImportError as error:
        raise ImportError("FITS files need the package astropy: pip install astropy, or apt install python3-astropy") from error
    module: ModuleType = fits
    return module


def read_fits(data: bytes, file: str = "") -> tuple[MOC, int | None]:
    """Returns the coverage of a FITS file, and the MOC order that the file states.

    Parameters
    ----------
    data : bytes
        The content of the file.
    file : str
        The name of the file, for errors.

    Returns
    -------
    moc : MOC
        The coverage.
    order : int or None
        The MOC order, or None if the file states none. If the file has a cell of a deeper order, it is that order.

    Raises
    ------
    FileError
        If the file is not a FITS file, or does not have a table of a sky coverage.
    ImportError
        If astropy is not installed.
    """
    header, numbers = _read_table(data, file)
    ordering = header.get("ORDERING")
    moc = _moc_of(ordering, numbers, file)
    order = next((header[key] for key in ORDER_KEYS if key in header), None)
    if order is None:
        return moc, None
    if type(order) is not int or not 0 <= order <= 29:
        raise FileError("NotMoc", f"the MOC order {order!r} is not an order from 0 to 29", file)
    return moc, max(order, moc.max_order)


def _read_table(data: bytes, file: str) -> tuple[Any, NDArray[Any]]:
    """Returns the header of the first binary table, and its only column. Raises FileError if there is no table of a coverage."""
    fits = _import_fits()
    with warnings.catch_warnings():
        # Unusual keys and a missing end of the last block are warnings of astropy. Data that is missing is an error.
        warnings.simplefilter("ignore")
        try:
            with fits.open(io.BytesIO(data), memmap=False) as units:
                table = next((unit for unit in units if isinstance(unit, fits.BinTableHDU)), None)
                if table is None:
                    raise FileError("NotMoc", "the file has no binary table", file)
                _check_header(table.header, file)
                numbers = table.data.field(0)
        except (FileError, MemoryError):
            raise
        except Exception as error:
            raise FileError("NotFits", " ".join(str(error).split()), file) from error
    return table.header, numbers.reshape(-1)


def _check_header(header: Any, file: str) -> None:
    """Raises FileError if the header of a table is not that of a sky coverage in equatorial coordinates."""
    ordering, dimension, frame = (str(header.get(key, default)).strip().upper() for key, default in
                                  (("ORDERING", "missing"), ("MOCDIM", "SPACE"), ("COORDSYS", "")))
    if dimension != "SPACE":
        raise FileError("NotMoc", f"MOCDIM is {dimension}; only SPACE is supported", file)
    if ordering not in COLUMNS:
        raise FileError("NotMoc", f"ORDERING is {ordering}; expected NUNIQ or RANGE", file)
    if frame not in EQUATORIAL:
        raise FileError("NotMoc", f"COORDSYS is {frame}; only C, which is ICRS, is supported", file)
    if header["TFIELDS"] != 1:
        raise FileError("NotMoc", f"the table has {header['TFIELDS']} columns; a coverage has one", file)
    kinds = "K" if ordering == "RANGE" else "JK"
    if str(header["TFORM1"]).strip().lstrip("0123456789") not in kinds:
        raise FileError("NotMoc", f"TFORM1 is {header['TFORM1']}; expected {' or '.join(f'1{kind}' for kind in kinds)}", file)


def _moc_of(ordering: str, numbers: NDArray[Any], file: str) -> MOC:
    """Returns the coverage of the numbers of a table. Raises FileError with the row of the first invalid number."""
    import numpy

    if numbers.dtype.kind not in "iu":
        raise FileError("NotMoc", "the column has fractions: TSCAL1 or TZERO1 is not supported", file)
    integers = numbers.astype(numpy.int64)
    rows = 1
    if ordering.strip().upper() == "RANGE":
        rows = 2
        if len(integers) % 2:
            raise FileError("NotMoc", f"the table has {len(integers)} bounds of ranges; expected an even number", file)
    try:
        return MOC.from_ranges(integers.reshape(-1, 2)) if rows == 2 else MOC.from_uniq(integers)
    except MocError as error:
        row = error.place[0] * rows
        value = " to ".join(map(str, integers[row:row + rows].tolist()))
        raise FileError(error.name, f"row {row + 1}: {value}", file) from None


def write_fits(moc: MOC, *, max_order: SupportsIndex | None = None, ordering: str = "NUNIQ") -> bytes:
    """Returns a FITS file with the table of a coverage, by MOC 2.0. Readers of MOC 1.1 accept a table of NUNIQ numbers, too.

    Parameters
    ----------
    moc : MOC
        The coverage.
    max_order : int, optional
        The MOC order that the file states. By default it is the deepest order of the cells.
    ordering : {"NUNIQ", "RANGE"}
        The kind of table: NUNIQ numbers of cells, or bounds of ranges of pixels.

    Raises
    ------
    MocError
        `NoSuchOrder` if the order is not 0 to 29; `TooCoarse` if the MOC has a cell of a deeper order.
    ImportError
        If astropy is not installed.
    """
    fits = _import_fits()
    order = moc.max_order if max_order is None else check_order(max_order)
    if order < moc.max_order:
        raise too_coarse(order, moc.max_order)
    numbers = moc.uniq_hpx if ordering == "NUNIQ" else moc.to_depth29_ranges.reshape(-1)
    table = fits.BinTableHDU.from_columns([fits.Column(name=COLUMNS[ordering], format="1K", array=numbers)])
    for key, value, comment in (
            ("PIXTYPE", "HEALPIX", "HEALPix magic code"),
            ("ORDERING", ordering, "coding method"),
            ("COORDSYS", "C", "reference frame (C=ICRS)"),
            ("MOCVERS", "2.0", "version of the MOC standard"),
            ("MOCDIM", "SPACE", "physical dimension"),
            ("MOCORD_S", order, "MOC order"),
            ("MOCORDER", order, "MOC order, for readers of MOC 1.1"),
            ("MOCTOOL", "ploverchaise", "name of the MOC generator")):
        table.header[key] = value, comment
    file = io.BytesIO()
    fits.HDUList([fits.PrimaryHDU(), table]).writeto(file)
    return file.getvalue()
