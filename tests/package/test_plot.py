"""Pictures with matplotlib: the outlines of cells, and the colors at positions of known cells."""
from __future__ import annotations

import unittest
from typing import Any

from ploverchaise import MOC

from .common import TestCase, needs

numpy: Any = None
healpy: Any = None
try:
    import numpy as numpy_module
    numpy = numpy_module
    import healpy as healpy_module
    healpy = healpy_module
except ImportError:
    pass

BLACK: dict[str, Any] = {"facecolor": "black", "alpha": 1}


@needs("numpy")
class Outlines(TestCase):
    """The outlines of cells on the sphere."""

    def test_corners_of_base_pixels(self) -> None:
        from ploverchaise._outlines import centers, outlines

        lon, lat = outlines(0, numpy.arange(12), 1)
        edge = numpy.degrees(numpy.arcsin(2 / 3))
        self.assertEqual(lon[4].tolist(), [0, 45, 0, -45])
        numpy.testing.assert_allclose(lat[[0, 4, 8]], [[0, edge, 90, edge], [-edge, 0, edge, 0], [-90, -edge, 0, -edge]], atol=1e-12)
        expected = [[45, 135, 225, 315, 0, 90, 180, 270, 45, 135, 225, 315], [edge] * 4 + [0] * 4 + [-edge] * 4]
        numpy.testing.assert_allclose(centers(0, numpy.arange(12)), expected, atol=1e-12)

    @unittest.skipUnless(healpy, "not installed: healpy")
    def test_outlines_of_healpy(self) -> None:
        from ploverchaise._outlines import centers, outlines

        for order in (0, 1, 3, 12, 29):
            cells = numpy.random.default_rng(order).integers(0, 12 * 4**order, 300)
            lon, lat = (numpy.radians(angles) for angles in outlines(order, cells, 4))
            points = numpy.stack([numpy.cos(lat) * numpy.cos(lon), numpy.cos(lat) * numpy.sin(lon), numpy.sin(lat)], axis=1)
            # healpy begins at the northern corner.
            expected = numpy.roll(healpy.boundaries(2**order, cells, step=4, nest=True), 8, axis=-1)
            numpy.testing.assert_allclose(points, expected, atol=1e-14)
            lon, lat = centers(order, cells)
            expected_lon, expected_lat = healpy.pix2ang(2**order, cells, nest=True, lonlat=True)
            numpy.testing.assert_allclose([(lon - expected_lon + 180) % 360, lat], [180 + 0 * lat, expected_lat], atol=1e-9)


def picture_of(ax: Any) -> Any:
    """Returns the brightness of the pixels of a figure without its grid, from the bottom."""
    ax.figure.canvas.draw()
    return numpy.asarray(ax.figure.canvas.buffer_rgba())[::-1, :, :3].mean(axis=2)


def is_black(picture: Any, places: Any) -> Any:
    """Returns whether the pixels at places of a picture are black. They must be black or white."""
    columns, rows = places.T.astype(int)
    brightness = picture[rows, columns]
    return numpy.where((brightness > 5) & (brightness < 250), -1, brightness < 5)


def inner_positions(moc: MOC, count: int, distance: float) -> tuple[Any, Any, Any]:
    """Returns random positions that are not near the border of a coverage, and whether the coverage contains them."""
    rng = numpy.random.default_rng(7)
    lon, lat = rng.uniform(-179, 179, count), numpy.degrees(numpy.arcsin(rng.uniform(-0.99, 0.99, count)))
    inside = moc.contains_lonlat(lon, lat)
    clear = numpy.ones(count, bool)
    for angle in numpy.arange(0, 2 * numpy.pi, numpy.pi / 8):
        near_lat = numpy.clip(lat + distance * numpy.sin(angle), -90, 90)
        clear &= moc.contains_lonlat(lon + distance * numpy.cos(angle) / numpy.cos(numpy.radians(lat)), near_lat) == inside
    return lon[clear], lat[clear], inside[clear]


@needs("numpy", "matplotlib", "astropy", "astropy_healpix")
class Pictures(TestCase):
    """Pictures of the whole sky and of a part of it."""

    def setUp(self) -> None:
        import matplotlib
        from matplotlib import pyplot

        matplotlib.use("Agg")
        self.addCleanup(pyplot.close, "all")

    def test_whole_sky(self) -> None:
        for text in ("0/6", "0/0 2 11", "1/0-47", "2/0 3 9 77 100-130 3/0-3", "4/0-200 8/300000-310000"):
            moc = MOC.from_string(text)
            ax = moc.plot(**BLACK)
            ax.grid(False)
            ax.xaxis.set_ticklabels([])
            ax.spines["geo"].set_visible(False)
            lon, lat, inside = inner_positions(moc, 3000, 1.2)
            self.assertGreater(len(lon), 1000)
            picture = picture_of(ax)
            places = ax.transData.transform(numpy.radians(numpy.stack([-lon, lat], axis=1)))
            self.assertEqual(is_black(picture, places).tolist(), inside.astype(int).tolist(), text)

    def test_parts_of_the_sky(self) -> None:
        from astropy.coordinates import SkyCoord

        for text, center, radius in (("0/0-3", (10.0, 90.0), 50), ("0/4 7 11", (0.0, 0.0), 60), ("3/100-300", (180.0, 20.0), 30),
                                     ("0/0 5 8 4/1000-1100", SkyCoord(45, -45, unit="deg"), 10)):
            moc = MOC.from_string(text)
            ax = moc.plot(center=center, radius=radius, **BLACK)
            ax.coords.grid(False)
            lon, lat, inside = inner_positions(moc, 20_000, radius / 40)
            middle = center if isinstance(center, SkyCoord) else SkyCoord(*center, unit="deg")
            near = SkyCoord(lon, lat, unit="deg").separation(middle).deg < 0.95 * radius
            picture = picture_of(ax)
            places = ax.get_transform("icrs").transform(numpy.stack([lon, lat], axis=1)[near])
            self.assertGreater(near.sum(), 50)
            self.assertEqual(is_black(picture, places).tolist(), inside[near].astype(int).tolist(), text)

    def test_east_is_left(self) -> None:
        for ax in (MOC.full().plot(), MOC.full().plot(center=(20, 0), radius=30)):
            transform = ax.get_transform("icrs") if hasattr(ax, "wcs") else None
            west, east = ([10.0, 5.0], [30.0, 5.0]) if transform else ([0.3, 0.1], [-0.3, 0.1])
            transform = transform or ax.transData
            self.assertLess(transform.transform([east])[0][0], transform.transform([west])[0][0])

    def test_legend_and_styles(self) -> None:
        ax = MOC.from_string("0/0").plot(label="first")
        self.assertIs(MOC.from_string("0/1").plot(ax, label="second", hatch="//", facecolor="none", edgecolor="red"), ax)
        self.assertEqual([text.get_text() for text in ax.get_legend().get_texts()], ["first", "second"])
        self.assertEqual(ax.patches[1].get_hatch(), "//")
        self.assertNotEqual(ax.patches[0].get_facecolor(), MOC.full().plot(ax).patches[2].get_facecolor())

    def test_small_cells_are_replaced(self) -> None:
        cells = numpy.random.default_rng(1).integers(0, 12 * 4**20, 20_000)
        moc = MOC.from_healpix_cells(cells, 20)
        points = len(moc.plot().patches[0].get_path())
        # A cell of order 8 has 2 points on each side, and a closing one. Cells at the seam have more.
        self.assertLess(points, 20_000 * 12)
        self.assertEqual(len(MOC().plot().patches[0].get_path()), 0)
        self.assertLess(len(moc.plot(center=(0, 0), radius=1).patches[0].get_path()), 200)

    def test_axes_of_an_image(self) -> None:
        from astropy.wcs import WCS
        from matplotlib import pyplot

        wcs = WCS(naxis=2)
        wcs.wcs.ctype, wcs.wcs.crval, wcs.wcs.crpix, wcs.wcs.cdelt = ["GLON-TAN", "GLAT-TAN"], [0, 0], [50, 50], [-0.01, 0.01]
        ax = pyplot.figure().add_subplot(projection=wcs)
        ax.imshow(numpy.zeros((100, 100)))
        MOC.from_lonlat(266.40499, -28.93617, 8).plot(ax, **BLACK)
        path = ax.patches[0].get_path()
        # The Galactic center is at pixel 49, and a cell of order 8 is 23 pixels wide.
        self.assertTrue(path.contains_point((49, 49)))
        self.assertLess(abs(path.get_extents().size - 33).max(), 15)

    def test_invalid_arguments(self) -> None:
        from astropy.wcs import WCS
        from matplotlib import pyplot

        moc = MOC.full()
        wcs = WCS(naxis=2)
        wcs.wcs.ctype, wcs.wcs.cdelt = ["RA---MOL", "DEC--MOL"], [-1, 1]
        sky = pyplot.figure().add_subplot(projection=wcs)
        sky.set(xlim=(-170, 170), ylim=(-85, 85))
        calls: list[tuple[str, dict[str, Any]]] = [
            ("radius", {"center": (0, 0)}), ("radius", {"center": (0, 0), "radius": 0}), ("radius", {"center": (0, 0), "radius": 61}),
            ("radius needs center", {"radius": 5}), ("center", {"center": (float("nan"), 0), "radius": 5}),
            ("latitude from -90 to 90, not 10 and 100", {"center": (10, 100), "radius": 5}),
            ("existing", {"ax": moc.plot(), "center": (0, 0), "radius": 3}), ("Mollweide", {"ax": pyplot.figure().add_subplot()}),
            ("part of the sky", {"ax": sky})]
        for message, arguments in calls:
            with self.assertRaisesRegex(ValueError, message):
                moc.plot(**arguments)
