"""Pixels of positions: the numbering of the base pixels, and comparisons with healpy and astropy."""
from __future__ import annotations

from typing import Any

from ploverchaise import MOC, _positions

from .common import TestCase, needs

numpy: Any = None
healpy: Any = None
try:
    import numpy as numpy_module
    numpy = numpy_module
    import healpy as healpy_module
    healpy = healpy_module
except ImportError:
    pass

# A position in each base pixel (Górski et al. 2005).
BASE_POSITIONS = [(45, 80), (135, 80), (225, 80), (315, 80), (0, 0), (90, 0), (180, 0), (270, 0),
                  (45, -80), (135, -80), (225, -80), (315, -80)]


@needs("numpy", "astropy_healpix")
class Positions(TestCase):
    """Positions in degrees."""

    def test_base_pixels(self) -> None:
        for number, (lon, lat) in enumerate(BASE_POSITIONS):
            cell = MOC.from_healpix_cells(number, 0)
            self.assertEqual(MOC.from_lonlat(lon, lat, 0), cell)
            self.assertEqual(MOC.from_lonlat([lon, lon + 360, lon - 720], [lat] * 3, 0), cell)
            self.assertIs(cell.contains_lonlat(lon, lat), True)
            self.assertIs((~cell).contains_lonlat(float(lon), lat), False)

    def test_kinds_of_arguments(self) -> None:
        moc = MOC.from_string("0/0 5")
        lon, lat = [30, 90, 270], [80.0, 0.0, 0.0]
        self.assertEqual(moc.contains_lonlat(lon, lat), [True, True, False])
        flags = moc.contains_lonlat(numpy.array(lon)[:, None], [0.0, 80.0])
        self.assertEqual((flags.dtype, flags.tolist()), (bool, [[False, True], [True, False], [False, False]]))
        self.assertEqual(moc.contains_lonlat([], []), [])
        self.assertEqual(MOC.from_lonlat([], [], 5), MOC())
        self.assertFault("NoSuchOrder", (30,), MOC.from_lonlat, 0, 0, 30)

    def test_masked_positions(self) -> None:
        lon = numpy.ma.array([45.0, 90.0, 270.0], mask=[False, True, False])
        lat = numpy.ma.array([80.0, 0.0, numpy.nan], mask=[False, False, True])
        self.assertEqual(MOC.from_lonlat(lon, lat, 0), MOC.from_string("0/0"))
        with self.assertRaisesRegex(TypeError, "masked"):
            MOC.full().contains_lonlat(lon, 0.0)
        with self.assertRaisesRegex(ValueError, "longitude nan at index 3"):
            MOC.from_lonlat(numpy.ma.array([1, 2, 3, numpy.nan], mask=[True, True, False, False]), [0, 0, 0, 0], 3)

    def test_invalid_positions(self) -> None:
        invalid: list[tuple[list[float], list[float], str]] = [
            ([0, float("nan")], [0, 0], "longitude nan at index 1"), ([0, 0], [0, float("nan")], "latitude nan at index 1"),
            ([float("inf")], [0], "longitude inf at index 0"), ([0, 0, 0], [90, -90, 90.001], "latitude 90.001 at index 2"),
            ([0, 0], [1, 2, 3], "shape")]
        for lon, lat, message in invalid:
            with self.assertRaisesRegex(ValueError, message):
                MOC.full().contains_lonlat(lon, lat)
            with self.assertRaisesRegex(ValueError, message):
                MOC.from_lonlat(lon, lat, 9)

    def test_pieces(self) -> None:
        lon = numpy.linspace(0, 359, 3 * 2**18 + 5)
        cells = _positions.pixels_of(lon, numpy.zeros(()), 0)
        # On the equator, a base pixel is 90 degrees wide, and the middle of base pixel 4 is at longitude 0.
        self.assertEqual(cells.tolist(), (4 + ((lon + 45) // 90).astype(int) % 4).tolist())


@needs("numpy", "astropy_healpix", "healpy")
class Peers(TestCase):
    """Comparisons with healpy."""

    def test_random_positions(self) -> None:
        rng = numpy.random.default_rng(2005)
        lon, lat = rng.uniform(-360, 720, 10_000), numpy.degrees(numpy.arcsin(rng.uniform(-1, 1, 10_000)))
        for depth in (0, 7, 18, 29):
            expected = healpy.ang2pix(2**depth, lon, lat, nest=True, lonlat=True)
            self.assertEqual(_positions.pixels_of(lon, lat, depth).tolist(), expected.tolist())
        moc = MOC.from_healpix_cells(range(0, 768, 3), 3)
        expected = healpy.ang2pix(2**3, lon, lat, nest=True, lonlat=True) % 3 == 0
        self.assertEqual(moc.contains_lonlat(lon, lat).tolist(), expected.tolist())

    def test_either_package_suffices(self) -> None:
        names = _positions._MODULES
        self.addCleanup(setattr, _positions, "_MODULES", names)
        for name in names:
            _positions._MODULES = ("no_such_module", name)
            self.assertEqual(MOC.from_lonlat(90, 0, 0), MOC.from_string("0/5"))
        _positions._MODULES = ("no_such_module",)
        with self.assertRaisesRegex(ImportError, "astropy-healpix or healpy"):
            MOC.from_lonlat(90, 0, 0)


@needs("numpy", "astropy_healpix", "astropy")
class Units(TestCase):
    """Positions of astropy."""

    def test_quantities(self) -> None:
        from astropy import units
        from astropy.table import Table

        moc = MOC.from_string("0/5")
        self.assertEqual(MOC.from_lonlat(90 * units.deg, 0 * units.rad, 0), moc)
        self.assertEqual(moc.contains_lonlat([6, 18] * units.hourangle, [0, 0] * units.deg).tolist(), [True, False])
        table = Table({"ra": [numpy.pi / 2, numpy.pi], "dec": [0.0, 0.0]}, units={"ra": "rad", "dec": "deg"})
        self.assertEqual(moc.contains_lonlat(table["ra"], table["dec"]).tolist(), [True, False])
        with self.assertRaises(ValueError):
            MOC.from_lonlat(90 * units.m, 0, 0)

    def test_sky_coordinates(self) -> None:
        from astropy.coordinates import SkyCoord

        # The Galactic center is at 266.4 and -28.9 degrees.
        center = SkyCoord([0, 180], [0, 0], unit="deg", frame="galactic")
        expected = MOC.from_lonlat([266.40499, 86.40499], [-28.93617, 28.93617], 8)
        self.assertEqual(MOC.from_skycoords(center, 8), expected)
        self.assertEqual(expected.contains_skycoords(center).tolist(), [True, True])
        self.assertEqual(bool(expected.contains_skycoords(SkyCoord("0h0m", "0d0m"))), False)
        value: Any = (266.4, -28.9)
        with self.assertRaisesRegex(TypeError, "SkyCoord"):
            MOC.from_skycoords(value, 8)
