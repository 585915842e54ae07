"""Pictures of coverages with matplotlib: on the whole sky in the Mollweide projection, or on a part of it with axes of astropy.

The cells of a coverage are one path, so that no gap shows between cells, and the color is uniform. Cells that are too small for the picture
are replaced by the larger cells that contain them.
"""
from __future__ import annotations

import math
from collections.abc import Iterator
from typing import TYPE_CHECKING, Any, NamedTuple, Protocol

try:
    import numpy
    from matplotlib import pyplot
    from matplotlib.patches import PathPatch
    from matplotlib.path import Path
    from matplotlib.patheffects import withStroke
    from matplotlib.ticker import FuncFormatter
except ImportError as missing:
    raise ImportError("plots need the package matplotlib: pip install matplotlib, or apt install python3-matplotlib") from missing

from ._outlines import MAX_RADIUS, centers, outlines
from .moc import MOC

if TYPE_CHECKING:
    from numpy.typing import NDArray

# The colors of Okabe and Ito, which color-blind readers can distinguish.
PALETTE = ("#0072b2", "#e69f00", "#009e73", "#cc79a7", "#d55e00", "#56b4e9")
# The width of a cell of order 0, in degrees: the square root of its area.
CELL_WIDTH = math.degrees(math.sqrt(math.pi / 3))
# The order of the smallest cells on the whole sky. They are 0.23 degrees wide.
SKY_ORDER = 8
# The smallest cells in a picture of a part of the sky are at most this part of its width.
SMALLEST_PART = 1 / 500
# The number of points on a side of a cell of the largest order in a picture. Smaller cells have fewer, but at least MIN_STEPS.
MAX_STEPS, MIN_STEPS = 64, 2
# The number of points on the seam of the sky that replace the line between two points of it.
SEAM_STEPS = 32
# The maximal radius of a new part of the sky, and of any part of the sky on axes. Both are in degrees. The corners of a new one are at most
# 90 degrees from its center.
MAX_FIELD_RADIUS, MAX_VISIBLE_RADIUS = 60.0, 91.0


class View(Protocol):
    """What axes show: the order of the smallest cells, the order of the largest cells, and a projection. Larger cells are divided."""

    display_order: int
    coarsest: int
    transform: Any

    def select(self, order: int, cells: NDArray[Any]) -> NDArray[Any]:
        """Returns the cells of an order that may be visible."""

    def project(self, lon: NDArray[Any], lat: NDArray[Any]) -> Iterator[NDArray[Any]]:
        """Yields arrays of polygons, of the shape (polygons, points, 2), for outlines in degrees with one row for each polygon."""


class SkyView:
    """The whole sky on a Mollweide axes of matplotlib, with north up and east to the left."""

    display_order, coarsest = SKY_ORDER, 0

    def __init__(self, ax: Any) -> None:
        self._projection = ax.transProjection
        self.transform = ax.transAffine + ax.transAxes

    def select(self, order: int, cells: NDArray[Any]) -> NDArray[Any]:
        """Returns all cells."""
        return cells

    def project(self, lon: NDArray[Any], lat: NDArray[Any]) -> Iterator[NDArray[Any]]:
        """Yields the polygons that do not cross the seam at 180 degrees, and then both parts of each of the others."""
        middle = (lon.min(axis=1) + lon.max(axis=1)) / 2
        lon = lon - 360 * numpy.floor((middle + 180) / 360)[:, None]
        crosses = (lon.max(axis=1) > 180) | (lon.min(axis=1) < -180)
        yield self._to_plane(lon[~crosses], lat[~crosses])
        for row in crosses.nonzero()[0]:
            for turn in (-360, 0, 360):
                polygon = add_seam_points(clip_to_sky(numpy.stack([lon[row] + turn, lat[row]], axis=1)))
                if len(polygon):
                    yield self._to_plane(polygon[None, :, 0], polygon[None, :, 1])

    def _to_plane(self, lon: NDArray[Any], lat: NDArray[Any]) -> NDArray[Any]:
        """Returns the positions of points in the plane."""
        points = numpy.stack([-numpy.radians(lon), numpy.radians(lat)], axis=-1)
        plane: NDArray[Any] = self._projection.transform(points.reshape(-1, 2)).reshape(points.shape)
        return plane


class FieldView:
    """A part of the sky on a `WCSAxes` of astropy.

    Raises ValueError if the axes do not show a part of the sky with a radius of at most 90 degrees."""

    def __init__(self, ax: Any) -> None:
        self._wcs, self.transform = ax.wcs, ax.transData
        columns, rows = numpy.meshgrid(*(numpy.linspace(low, high, 9) for low, high in (ax.get_xlim(), ax.get_ylim())))
        positions = unit_vectors(*self._positions_of_pixels(columns, rows))
        self._center = positions[len(positions) // 2]
        self._radius = math.degrees(numpy.arccos(numpy.clip(positions @ self._center, -1, 1)).max())
        if not self._radius <= MAX_VISIBLE_RADIUS:
            raise ValueError("the axes must show a part of the sky; for the whole sky, use a Mollweide axes of matplotlib")
        self.display_order = order_of_width(2 * self._radius * SMALLEST_PART)
        # A projection may be wrong far from its center, so cells must be smaller than the axes.
        self.coarsest = min(29, max(2, order_of_width(self._radius)))

    def _positions_of_pixels(self, columns: NDArray[Any], rows: NDArray[Any]) -> tuple[NDArray[Any], NDArray[Any]]:
        """Returns the positions of pixels of the axes on the sky, in degrees."""
        positions = self._wcs.pixel_to_world(columns.reshape(-1), rows.reshape(-1)).icrs
        return positions.ra.deg, positions.dec.deg

    def select(self, order: int, cells: NDArray[Any]) -> NDArray[Any]:
        """Returns the cells whose distance from the middle of the axes is so small that they may be visible."""
        limit = min(180.0, self._radius + MAX_RADIUS / 2**order)
        selected: NDArray[Any] = cells[unit_vectors(*centers(order, cells)) @ self._center >= math.cos(math.radians(limit))]
        return selected

    def project(self, lon: NDArray[Any], lat: NDArray[Any]) -> Iterator[NDArray[Any]]:
        """Yields the polygons whose points are all in the projection."""
        from astropy.coordinates import SkyCoord

        points = numpy.stack(self._wcs.world_to_pixel(SkyCoord(lon, lat, unit="deg")), axis=-1)
        yield points[numpy.isfinite(points).all(axis=(1, 2))]


class Cells(NamedTuple):
    """Cells of an order."""

    order: int
    numbers: NDArray[Any]


def order_of_width(width: float) -> int:
    """Returns the order of the largest cells that are not wider than a number of degrees, or 29 if there are none."""
    return min(29, max(0, math.ceil(math.log2(CELL_WIDTH / width))))


def unit_vectors(lon: NDArray[Any], lat: NDArray[Any]) -> NDArray[Any]:
    """Returns the vectors of positions in degrees, one in each row."""
    lon, lat = numpy.radians(lon), numpy.radians(lat)
    return numpy.stack([numpy.cos(lat) * numpy.cos(lon), numpy.cos(lat) * numpy.sin(lon), numpy.sin(lat)], axis=-1)


def clip_to_sky(polygon: NDArray[Any]) -> NDArray[Any]:
    """Returns the part of a polygon between the longitudes -180 and 180, with points along the seam. It has no points if it is empty."""
    points = polygon
    for limit, sign in ((180.0, 1), (-180.0, -1)):
        points = numpy.array(list(_clip(points, limit, sign))).reshape(-1, 2)
    return points


def _clip(polygon: NDArray[Any], limit: float, sign: int) -> Iterator[NDArray[Any]]:
    """Yields the points of the part of a polygon whose longitudes times a sign are at most those of a limit (Sutherland and Hodgman)."""
    for start, end in zip(polygon, numpy.roll(polygon, -1, axis=0)):
        is_inside, ends_inside = sign * start[0] <= sign * limit, sign * end[0] <= sign * limit
        if is_inside:
            yield start
        if is_inside != ends_inside:
            crossing = start + (end - start) * (limit - start[0]) / (end[0] - start[0])
            yield numpy.array([limit, crossing[1]])


def add_seam_points(polygon: NDArray[Any]) -> NDArray[Any]:
    """Returns a polygon with points between each two successive points on the seam, which is curved in the plane."""
    pieces = []
    for start, end in zip(polygon, numpy.roll(polygon, -1, axis=0)):
        is_seam = abs(start[0]) == 180 and start[0] == end[0]
        pieces.append(numpy.linspace(start, end, SEAM_STEPS, endpoint=False) if is_seam else start[None])
    return numpy.concatenate(pieces) if pieces else polygon


def cells_by_order(moc: MOC) -> Iterator[Cells]:
    """Yields the cells of a coverage, by ascending order."""
    uniqs = moc.uniq_hpx
    firsts = 4**(numpy.arange(31, dtype=numpy.int64) + 1)
    bounds = numpy.searchsorted(uniqs, firsts)
    for order in range(30):
        yield Cells(order, uniqs[bounds[order]:bounds[order + 1]] - firsts[order])


def visible_cells(moc: MOC, view: View) -> Iterator[Cells]:
    """Yields the cells of a coverage that may be visible, by ascending order.

    Cells that are larger than the largest cells of the view are divided."""
    drawn = moc.degrade_to_order(view.display_order) if moc.max_order > view.display_order else moc
    parts = numpy.empty(0, numpy.int64)
    for order, numbers in cells_by_order(drawn):
        selected = view.select(order, numpy.concatenate([numbers, parts]))
        is_divided = order < view.coarsest
        parts = (4 * selected[:, None] + numpy.arange(4)).reshape(-1) if is_divided else parts[:0]
        if not is_divided and len(selected):
            yield Cells(order, selected)


def path_of(moc: MOC, view: View) -> Path:
    """Returns the outlines of all visible cells of a coverage, as one path in the plane of a view."""
    vertices, codes = [numpy.empty((0, 2))], [numpy.empty(0, Path.code_type)]
    for order, cells in visible_cells(moc, view):
        steps = max(MIN_STEPS, MAX_STEPS >> max(0, order - view.coarsest))
        for polygons in view.project(*outlines(order, cells, steps)):
            closed = numpy.concatenate([polygons, polygons[:, :1]], axis=1)
            code = numpy.full(closed.shape[:2], Path.LINETO, Path.code_type)
            code[:, 0], code[:, -1] = Path.MOVETO, Path.CLOSEPOLY
            vertices.append(closed.reshape(-1, 2))
            codes.append(code.reshape(-1))
    return Path(numpy.concatenate(vertices), numpy.concatenate(codes))


def new_sky() -> Any:
    """Returns a Mollweide axes in a new figure, with a grid and the longitudes of the sky, which increase to the left."""
    ax = pyplot.figure(figsize=(10, 5.4), layout="constrained").add_subplot(projection="mollweide")
    ax.set_longitude_grid(30)
    ax.set_latitude_grid(30)
    ax.set_longitude_grid_ends(90)
    ax.xaxis.set_major_formatter(FuncFormatter(lambda angle, _: f"{round(-math.degrees(angle)) % 360}°"))
    for text in ax.get_xticklabels():
        # These labels are on the sky.
        text.set(size="small", path_effects=[withStroke(linewidth=2, foreground="white")])
    ax.grid(color="0.6", linewidth=0.5)
    ax.set_axisbelow(False)
    return ax


def new_field(center: Any, radius: float | None) -> Any:
    """Returns a `WCSAxes` in a new figure with a part of the sky, in the zenithal equal-area projection.

    Raises ValueError if the radius is missing or out of its bounds, and ImportError if astropy is not installed."""
    if radius is None or not 0 < radius <= MAX_FIELD_RADIUS:
        raise ValueError(f"radius must be above 0 and at most {MAX_FIELD_RADIUS:g} degrees, not {radius}")
    try:
        from astropy.wcs import WCS
    except ImportError as error:
        raise ImportError("plots of a part of the sky need the package astropy: pip install astropy, or apt install "
                          "python3-astropy") from error
    if hasattr(center, "transform_to"):
        equatorial = center.transform_to("icrs")
        center = equatorial.ra.deg, equatorial.dec.deg
    longitude, latitude = map(float, center)
    if not math.isfinite(longitude) or not abs(latitude) <= 90:
        raise ValueError(f"center must be a finite longitude and a latitude from -90 to 90, not {longitude:g} and {latitude:g}")
    scale = 2 * radius * SMALLEST_PART
    wcs = WCS(naxis=2)
    wcs.wcs.ctype = ["RA---ZEA", "DEC--ZEA"]
    wcs.wcs.crval = [float(angle) for angle in center]
    wcs.wcs.crpix, wcs.wcs.cdelt, wcs.wcs.radesys = [1, 1], [-scale, scale], "ICRS"
    ax = pyplot.figure(figsize=(6.4, 6), layout="constrained").add_subplot(projection=wcs)
    half = math.degrees(2 * math.sin(math.radians(radius) / 2)) / scale
    ax.set(xlim=(-half, half), ylim=(-half, half), aspect="equal")
    for coordinate, name in zip(ax.coords, ("Right ascension", "Declination")):
        coordinate.set_axislabel(name)
        coordinate.set_format_unit("deg", decimal=True)
    ax.coords.grid(color="0.6", linewidth=0.5)
    return ax


def view_of(ax: Any) -> View:
    """Returns the view of axes. Raises ValueError if it is neither a Mollweide axes nor a `WCSAxes`."""
    if hasattr(ax, "wcs"):
        return FieldView(ax)
    if getattr(ax, "name", "") == "mollweide":
        return SkyView(ax)
    raise ValueError("ax must be a Mollweide axes of matplotlib or a WCSAxes of astropy")


def plot(moc: MOC, ax: Any, *, center: Any, radius: float | None, label: str | None, style: dict[str, Any]) -> Any:
    """Draws a coverage, and returns the axes, as `MOC.plot` documents it."""
    if ax is None:
        if center is None and radius is not None:
            raise ValueError("radius needs center")
        ax = new_sky() if center is None else new_field(center, radius)
    elif center is not None or radius is not None:
        raise ValueError("center and radius are for a new figure, and ax is for an existing one")
    view = view_of(ax)
    chosen = {"facecolor": PALETTE[len(ax.patches) % len(PALETTE)], "edgecolor": "none", "alpha": 0.55, "linewidth": 0.5, **style}
    # `add_patch` would also compute the limits of the data, which takes long for many cells.
    ax.add_artist(PathPatch(path_of(moc, view), transform=view.transform, label=label, **chosen))
    if label is not None:
        ax.legend(loc="upper right", framealpha=0.9)
    return ax
