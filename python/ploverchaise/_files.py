"""Files of coverages. The format of a file is recognized by its content, and that of a new file by its name."""
from __future__ import annotations

import contextlib
import json
import os
from typing import Any, NamedTuple, SupportsIndex

from ._diagnostics import likely_format
from .errors import MocError
from .moc import MOC, AnyMOC

TEXT_FORMATS = ("ascii", "json", "uniq")
FITS_FORMATS = {"fits": "NUNIQ", "fits-range": "RANGE"}
"""The names of the formats of FITS tables, each with the value of ORDERING."""

FORMATS = (*TEXT_FORMATS, *FITS_FORMATS)
"""The names of all formats."""

# The first bytes of compressed files and of FITS files.
_GZIP_MAGIC, _FITS_MAGIC = b"\x1f\x8b", b"SIMPLE  ="
# The formats of the suffixes of names. Other names are those of ASCII texts.
_SUFFIXES = {".fits": "fits", ".fit": "fits", ".fts": "fits", ".json": "json", ".uniq": "uniq"}
_COMPRESSED = ".gz"
# The number of bytes that are read or written at once. Signal handlers run between two pieces.
_PIECE = 2**22


class CoverageFile(NamedTuple):
    """The coverage of a file, the format of the file, and the MOC order that the file states, or None."""

    moc: MOC
    format: str
    order: int | None


class FileError(ValueError):
    """A compressed file that is damaged, or a FITS file without a sky coverage.

    Attributes
    ----------
    name : str
        The name of the error: `NotGzip`, `NotFits`, `NotMoc`, `NotUniq`, `Backwards` or `PixelTooLarge`.
    detail : str
        What is wrong, with the key or the row of a table.
    file : str
        The name of the file.
    """

    def __init__(self, name: str, detail: str, file: str = "") -> None:
        self.name, self.detail, self.file = name, detail, file
        super().__init__(": ".join(part for part in (file, name, detail) if part))

    def __reduce__(self) -> tuple[type[FileError], tuple[str, str, str]]:
        return type(self), (self.name, self.detail, self.file)


class TextError(Exception):
    """An error of a text, with the text and its format, from which the position of the error can be reported.

    Attributes
    ----------
    error : MocError
        The error.
    data : bytes
        The text.
    format : str
        Its format.
    """

    def __init__(self, error: MocError, data: bytes, format: str) -> None:
        self.error, self.data, self.format = error, data, format
        super().__init__(str(error))


def recognize_format(data: bytes) -> str:
    """Returns the format of the content of a file that is not compressed.

    A FITS file begins with the key SIMPLE. A text has the format that it looks like by the rules of the program `moc`. If it looks like
    none, it is read as ASCII."""
    return "fits" if data.startswith(_FITS_MAGIC) else likely_format(data) or "ascii"


def format_of_name(path: str | os.PathLike[str]) -> str:
    """Returns the format of a new file by the suffix of its name, also before the suffix `.gz`. Without a known suffix it is `ascii`."""
    _, suffix = os.path.splitext(os.fspath(path).lower().removesuffix(_COMPRESSED))
    return _SUFFIXES.get(suffix, "ascii")


def decompress(data: bytes, file: str = "") -> bytes:
    """Returns the content of a file, which may be compressed with gzip. Raises FileError if a compressed file is damaged."""
    if not data.startswith(_GZIP_MAGIC):
        return data
    import gzip
    import zlib

    try:
        return gzip.decompress(data)
    except (OSError, EOFError, zlib.error) as error:
        raise FileError("NotGzip", str(error), file) from error


def parse(data: bytes, format: str | None = None, file: str = "") -> CoverageFile:
    """Parses the content of a file.

    Parameters
    ----------
    data : bytes
        The content, which may be compressed with gzip.
    format : str, optional
        The format. By default it is recognized by the content.
    file : str
        The name of the file, for errors.

    Raises
    ------
    TextError
        If the content is an invalid text.
    FileError
        If a compressed file is damaged, if a FITS file has no sky coverage, or if the format is `fits` and the content is not a FITS file.
    ValueError
        If the format is unknown.
    """
    data = decompress(data, file)
    chosen = recognize_format(data) if format is None else format
    if chosen in FITS_FORMATS:
        from ._fits import read_fits

        moc, order = read_fits(data, file)
        return CoverageFile(moc, chosen, order)
    if chosen not in TEXT_FORMATS:
        raise ValueError(f"format must be one of {', '.join(FORMATS)}, not {chosen}")
    text_format: Any = chosen
    try:
        return CoverageFile(MOC.from_string(data, text_format), chosen, stated_order(data, chosen))
    except MocError as error:
        raise TextError(error, data, chosen) from error


def stated_order(data: bytes, format: str) -> int | None:
    """Returns the MOC order of a valid text, which is the deepest order that it names, or None if it names none."""
    if format == "uniq":
        return None
    # The last two digits before a slash suffice, because an order is at most 29.
    orders = json.loads(data) if format == "json" else (part[-2:].lstrip(b"s, \t\r\n") for part in data.split(b"/")[:-1])
    return max(map(int, orders), default=None)


def serialize(moc: MOC, format: str, order: SupportsIndex | None = None, fold: int = 0) -> bytes:
    """Returns the content of a file with a coverage.

    Parameters
    ----------
    moc : MOC
        The coverage.
    format : {"ascii", "json", "uniq", "fits", "fits-range"}
        The format. The last two are FITS files with NUNIQ numbers or with ranges.
    order : int, optional
        The MOC order that the file states.
    fold : int
        The maximal length of the lines of a text, as in `MOC.to_string`.

    Raises
    ------
    MocError
        `NoSuchOrder` if the order is not 0 to 29; `TooCoarse` if the MOC has a cell of a deeper order.
    ValueError
        If the format is unknown.
    """
    if format in FITS_FORMATS:
        from ._fits import write_fits

        return write_fits(moc, max_order=order, ordering=FITS_FORMATS[format])
    if format not in TEXT_FORMATS:
        raise ValueError(f"format must be one of {', '.join(FORMATS)}, not {format}")
    text_format: Any = format
    text = moc.to_string(text_format, fold, max_order=order)
    return (text + "\n" if text else "").encode("ascii")


def read_file(path: str | os.PathLike[str]) -> bytes:
    """Returns the content of a file. Raises OSError if it cannot be read."""
    with open(path, "rb") as file:
        return b"".join(iter(lambda: file.read(_PIECE), b""))


def write_file(path: str | os.PathLike[str], data: bytes, *, overwrite: bool) -> None:
    """Writes the content of a file, compressed with gzip if the name ends with `.gz`.

    Raises
    ------
    FileExistsError
        If the file exists and `overwrite` is false.
    OSError
        If the file cannot be written.
    """
    if os.fspath(path).lower().endswith(_COMPRESSED):
        import gzip

        data = gzip.compress(data, mtime=0)
    if not overwrite or not os.path.isfile(path):
        _write(path, data, "wb" if overwrite else "xb")
        return
    # The file is replaced as a whole, so that an exception leaves it unchanged.
    import shutil
    import tempfile

    target = os.path.realpath(os.fsdecode(path))
    descriptor, new = tempfile.mkstemp(dir=os.path.dirname(target))
    os.close(descriptor)
    try:
        _write(new, data, "wb")
        shutil.copymode(target, new)
        os.replace(new, target)
    except BaseException:
        with contextlib.suppress(OSError):
            os.remove(new)
        raise


def _write(path: str | os.PathLike[str], data: bytes, mode: str) -> None:
    """Writes the content of a file in pieces."""
    with open(path, mode) as file:
        for start in range(0, len(data), _PIECE):
            file.write(data[start:start + _PIECE])


def load(moc_type: type[AnyMOC], path: str | os.PathLike[str], format: str | None) -> AnyMOC:
    """Returns the coverage of a file, as `MOC.load` documents it."""
    data = read_file(path)
    try:
        moc = parse(data, format, os.fspath(path)).moc
    except TextError as error:
        error.error.add_note(f"in the file {os.fspath(path)}")
        raise error.error from None
    return moc if isinstance(moc, moc_type) else moc_type.union_all([moc])


def save(moc: MOC, path: str | os.PathLike[str], format: str | None, max_order: SupportsIndex | None, overwrite: bool, fold: int) -> None:
    """Writes a coverage to a file, as `MOC.save` documents it."""
    write_file(path, serialize(moc, format_of_name(path) if format is None else format, max_order, fold), overwrite=overwrite)
