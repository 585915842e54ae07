"""FITS files: the tables of the standard, errors, and files of cds.moc and Aladin."""
from __future__ import annotations

import gzip
import io
import os
import pathlib
import shutil
import subprocess
import tempfile
import unittest
from typing import Any

from ploverchaise import MOC
from ploverchaise._files import FileError, parse

from .common import BASE, TOP, TestCase, needs, random_cells

fits: Any = None
numpy: Any = None
try:
    import numpy as numpy_module
    from astropy.io import fits as fits_module
    fits, numpy = fits_module, numpy_module
except ImportError:
    pass

CDS_MOC, ALADIN = "/usr/share/java/cds.moc.jar", "/usr/share/java/aladin.jar"
# The set of an example of the standard, and its NUNIQ numbers, 4^(order + 1) + cell.
EXAMPLE = "1/1-2 4 2/12-14 21 23 25 8/"
EXAMPLE_UNIQS = [17, 18, 20, 76, 77, 78, 85, 87, 89]


def make_file(numbers: list[int], keys: dict[str, Any], name: str = "UNIQ", format: str = "1K") -> bytes:
    """Returns a FITS file with a table of one column, made by astropy."""
    table = fits.BinTableHDU.from_columns([fits.Column(name=name, format=format, array=numpy.array(numbers))])
    for key, value in keys.items():
        table.header[key] = value
    file = io.BytesIO()
    fits.HDUList([fits.PrimaryHDU(), table]).writeto(file)
    return file.getvalue()


@needs("numpy", "astropy")
class Tables(TestCase):
    """Tables of MOC 1.1 and 2.0."""

    def setUp(self) -> None:
        folder = tempfile.TemporaryDirectory()
        self.addCleanup(folder.cleanup)
        self.folder = pathlib.Path(folder.name)

    def test_written_tables(self) -> None:
        moc = MOC.from_string(EXAMPLE)
        ranges = [bound for cells in ((4, 12), (12, 15), (16, 20), (21, 22), (23, 24), (25, 26)) for bound in cells]
        expected: list[tuple[str, str, str, list[int]]] = [
            ("fits", "NUNIQ", "UNIQ", EXAMPLE_UNIQS), ("fits-range", "RANGE", "RANGE", [])]
        merged = [4 * 4**27, 15 * 4**27, *(bound * 4**27 for bound in ranges[4:])]
        for format, ordering, column, numbers in expected:
            path = self.folder / f"{format}.fits"
            moc.save(path, format, max_order=8)
            with fits.open(path) as units:
                table = units[1]
                self.assertEqual([table.header[key] for key in ("ORDERING", "MOCVERS", "MOCDIM", "COORDSYS", "MOCORD_S", "PIXTYPE")],
                                 [ordering, "2.0", "SPACE", "C", 8, "HEALPIX"])
                self.assertEqual((table.columns.names, table.header["TFORM1"]), ([column], "1K"))
                self.assertEqual(table.data.field(0).tolist(), numbers or merged)
            self.assertEqual(MOC.load(path), moc)
            self.assertEqual(parse(path.read_bytes()).order, 8)

    def test_read_tables(self) -> None:
        moc = MOC.from_string(EXAMPLE)
        nuniq: dict[str, Any] = {"ORDERING": "NUNIQ", "COORDSYS": "C"}
        for keys, order in ((nuniq, None), ({**nuniq, "MOCORDER": 8}, 8), ({**nuniq, "MOCORD_S": 9, "MOCDIM": "SPACE"}, 9),
                            ({**nuniq, "MOCORDER": 1}, 2)):
            for format in ("1J", "1K"):
                file = parse(make_file(EXAMPLE_UNIQS, keys, format=format))
                self.assertEqual((file.moc, file.format, file.order), (moc, "fits", order))
        ranges = make_file([0, BASE, 2 * BASE, 3 * BASE], {"ORDERING": "RANGE", "MOCDIM": "SPACE", "MOCORD_S": 0}, "RANGE")
        self.assertRanges(parse(ranges).moc, [(0, BASE), (2 * BASE, 3 * BASE)])
        last = 12 * BASE - 1
        self.assertRanges(parse(make_file([last, last + 1], {"ORDERING": "RANGE"})).moc, [(last, last + 1)])

    def test_compressed_files_and_suffixes(self) -> None:
        moc = MOC.from_string("0/3 29/7")
        for name, magic in (("a.fits", b"SIMPLE"), ("a.fit.gz", b"\x1f\x8b"), ("a.json", b'{"0":[3],'), ("a.uniq", b"7\n"),
                            ("a.moc", b"0/3"), ("b.moc.gz", b"\x1f\x8b")):
            path = self.folder / name
            moc.save(path)
            data = path.read_bytes()
            self.assertTrue(data.startswith(magic), name)
            self.assertEqual(MOC.load(path), moc)
            with self.assertRaises(FileExistsError):
                moc.save(str(path))
        self.assertEqual(parse(gzip.compress(make_file([4], {"ORDERING": "NUNIQ"}))).moc, MOC.from_string("0/0"))

    def test_empty_and_full(self) -> None:
        for moc in (MOC(), MOC.full(), MOC.from_ranges([(0, 1)]), ~MOC.from_ranges([(0, 1)])):
            for format in ("fits", "fits-range"):
                path = self.folder / "moc.fits"
                moc.save(path, format, overwrite=True)
                self.assertEqual(MOC.load(path), moc)

    def test_subclasses_are_kept(self) -> None:
        class Survey(MOC):
            """A subclass."""

        path = self.folder / "moc.fits"
        MOC.full().save(path)
        self.assertIs(type(Survey.load(path)), Survey)

    def test_errors(self) -> None:
        nuniq: dict[str, Any] = {"ORDERING": "NUNIQ"}
        whole = make_file(EXAMPLE_UNIQS, nuniq)
        image = io.BytesIO()
        fits.PrimaryHDU(numpy.zeros((2, 2))).writeto(image)
        invalid: list[tuple[str, str, bytes]] = [
            ("NotMoc", "no binary table", image.getvalue()),
            ("NotMoc", "ORDERING is RING", make_file([4], {"ORDERING": "RING"})),
            ("NotMoc", "ORDERING is MISSING", make_file([4], {})),
            ("NotMoc", "MOCDIM is TIME.SPACE", make_file([4], {"ORDERING": "RANGE", "MOCDIM": "TIME.SPACE"})),
            ("NotMoc", "COORDSYS is G", make_file([4], {**nuniq, "COORDSYS": "G"})),
            ("NotMoc", "MOC order 30", make_file([4], {**nuniq, "MOCORDER": 30})),
            ("NotMoc", "TFORM1 is 1E", make_file([4], nuniq, format="1E")),
            ("NotMoc", "TFORM1 is 1J", make_file([4, 5], {"ORDERING": "RANGE"}, format="1J")),
            ("NotMoc", "3 bounds", make_file([0, 1, 2], {"ORDERING": "RANGE"})),
            ("NotUniq", "row 2: 3", make_file([4, 3], nuniq)),
            ("NotUniq", "row 1: -5", make_file([-5], nuniq)),
            ("Backwards", "row 3: 9 to 8", make_file([0, 1, 9, 8], {"ORDERING": "RANGE"})),
            ("PixelTooLarge", "row 1: 0 to ", make_file([0, 12 * BASE + 1], {"ORDERING": "RANGE"})),
            ("NotFits", "", whole[:2880 * 2 + 8]), ("NotMoc", "no binary table", whole[:3000]), ("NotFits", "", whole[:40]),
            ("NotGzip", "", gzip.compress(whole)[:50])]
        for name, detail, data in invalid:
            with self.assertRaises(FileError, msg=detail) as caught:
                parse(data, file="sky.fits")
            error = caught.exception
            self.assertEqual((error.name, detail in error.detail, error.file), (name, True, "sky.fits"), error)
            self.assertTrue(str(error).startswith(f"sky.fits: {name}: "))
        path = self.folder / "moc.fits"
        self.assertFault("TooCoarse", (), MOC.from_string("5/0").save, path, max_order=4)
        self.assertFalse(path.exists())
        scaled = fits.open(io.BytesIO(make_file([8, 43], nuniq)))
        scaled[1].header["TSCAL1"] = 0.5
        scaled.writeto(path)
        with self.assertRaisesRegex(ValueError, "TSCAL1"):
            MOC.load(path)
        path.unlink()
        columns = [fits.Column(name=name, format="1K", array=numpy.array([4])) for name in ("UNIQ", "PROBDENSITY")]
        two = fits.BinTableHDU.from_columns(columns)
        two.header["ORDERING"] = "NUNIQ"
        two.writeto(path)
        with self.assertRaisesRegex(ValueError, "2 columns"):
            MOC.load(path)


def bounds_of(text: str) -> list[int]:
    """Returns the start and the end of each range of pixels of an ASCII text, without the library."""
    ranges: list[tuple[int, int]] = []
    order = 0
    for word in text.split():
        prefix, slash, cells = word.rpartition("/")
        order = int(prefix) if slash else order
        if cells:
            first, _, last = cells.partition("-")
            ranges.append((int(first) << 2 * (29 - order), (int(last or first) + 1) << 2 * (29 - order)))
    bounds: list[int] = []
    for start, end in sorted(ranges):
        if bounds and start <= bounds[-1]:
            bounds[-1] = max(bounds[-1], end)
        else:
            bounds += start, end
    return bounds


class Peer(TestCase):
    """Files that another program reads and writes: texts with their MOC orders, and a FITS file of each."""

    orders = [8, 0, 29, 14, 13, 4, 9, 17]

    def setUp(self) -> None:
        self.texts = [EXAMPLE, "0/0-11", "29/0 3458764513820540927", "13/5 14/", "12/7 13/",
                      *(MOC.from_healpix_cells(random_cells(order, 500), order).to_string(max_order=order) for order in self.orders[5:])]
        folder = tempfile.TemporaryDirectory()
        self.addCleanup(folder.cleanup)
        self.folder = pathlib.Path(folder.name)

    def paths(self, pattern: str) -> list[pathlib.Path]:
        """Returns the path of a file for each text, by a pattern for its number."""
        return [self.folder / pattern.format(number) for number in range(len(self.texts))]

    def exchange(self, jar: str, program: str, format: str) -> None:
        """Lets a program of `tests/package` write its FITS files of all texts, and read ours, which have a format. Compares both."""
        texts, theirs, ours, back = map(self.paths, ("{}.moc", "theirs{}.fits", "ours{}.fits", "{}.back.moc"))
        for text, order, text_path, path in zip(self.texts, self.orders, texts, ours):
            text_path.write_text(text + "\n")
            MOC.from_string(text).save(path, format, max_order=order)
        pairs = [*zip(texts, theirs), *zip(ours, back)]
        command = ["java", "-cp", jar, os.path.join(TOP, "tests", "package", program), *(str(path) for pair in pairs for path in pair)]
        result = subprocess.run(command, check=True, stdout=subprocess.PIPE, stderr=subprocess.DEVNULL, text=True, timeout=60)
        self.assertEqual([int(line) for line in result.stdout.split()], self.orders * 2)
        for text, order, path, text_path in zip(self.texts, self.orders, theirs, back):
            file = parse(path.read_bytes())
            self.assertEqual((file.moc, file.format, file.order), (MOC.from_string(text), "fits", order))
            # cds.moc of MOC 1.1 begins a text with a comment, which has the MOC order.
            cells = "\n".join(line for line in text_path.read_text().splitlines() if not line.startswith("#"))
            self.assertEqual(MOC.from_string(cells), MOC.from_string(text))


@needs("numpy", "astropy")
class Peers(Peer):
    """Files of cds.moc for MOC 1.1, and of the version of it for MOC 2.0 in Aladin."""

    @unittest.skipUnless(os.path.exists(CDS_MOC) and shutil.which("javac"), "not installed: cds.moc or a JDK")
    def test_tables_of_numbers(self) -> None:
        self.exchange(CDS_MOC, "CdsMoc.java", "fits")

    @unittest.skipUnless(os.path.exists(ALADIN) and shutil.which("javac"), "not installed: Aladin or a JDK")
    def test_tables_of_ranges(self) -> None:
        self.exchange(ALADIN, "RangeMoc.java", "fits-range")
        for text, *paths in zip(self.texts, self.paths("theirs{}.fits"), self.paths("ours{}.fits")):
            for path in paths:
                with fits.open(path) as units:
                    self.assertEqual(units[1].header["ORDERING"], "RANGE")
                    self.assertEqual(units[1].data.field(0).tolist(), bounds_of(text))
