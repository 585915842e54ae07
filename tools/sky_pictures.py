"""Draws the hierarchy of HEALPix cells, and their two numberings.

The formulas are those of HEALPix (Górski et al. 2005, section 5). `tests/texts.py` compares `ring_number` with the table of
`crates/outside_tables`, which is from healpy. As in the pictures of `moc draw`, north is up and east is left."""
from __future__ import annotations

import json
import math
from collections.abc import Iterator

from svg import WIDTH, box, diamond, picture, text

# For each base pixel, the row of its southern corner, and the column of its centre, in half diagonals of base pixels.
FACE_ROWS = (2, 2, 2, 2, 3, 3, 3, 3, 4, 4, 4, 4)
FACE_COLUMNS = (1, 3, 5, 7, 0, 2, 4, 6, 1, 3, 5, 7)
# The MOC of the picture of the hierarchy: the nested numbers of its cells by their orders.
SHOWN_MOC = {1: (2,), 2: (1, 3, 12)}
ORDER_NAMES = ("Order 0: base pixel 0", "Order 1: 4 cells", "Order 2: 16 cells")


def face_xy(order: int, nested: int) -> tuple[int, int, int]:
    """Returns the base pixel of a cell, and its coordinates x and y there, which are the even and the odd bits of its number."""
    x = sum((nested >> 2 * bit & 1) << bit for bit in range(order))
    y = sum((nested >> 2 * bit + 1 & 1) << bit for bit in range(order))
    return nested >> 2 * order, x, y


def row_column(order: int, nested: int) -> tuple[int, int]:
    """Returns the row of the centre of a cell in the HEALPix projection, from the north pole, and its column from longitude 0."""
    side = 1 << order
    face, x, y = face_xy(order, nested)
    return FACE_ROWS[face] * side - x - y - 1, (FACE_COLUMNS[face] * side + x - y) % (8 * side)


def ring_number(order: int, nested: int) -> int:
    """Returns the ring number of a nested cell."""
    side = 1 << order
    face, x, y = face_xy(order, nested)
    row, _ = row_column(order, nested)
    quarter = min(row, side, 4 * side - row)
    shift = (row - side) % 2 if side <= row <= 3 * side else 0
    place = (FACE_COLUMNS[face] * quarter + x - y + 1 + shift) // 2
    return cells_north_of(side, row) + (place - 1) % (4 * quarter)


def cells_north_of(side: int, row: int) -> int:
    """Returns the number of cells in the rows north of a row."""
    if row < side:
        return 2 * row * (row - 1)
    if row <= 3 * side:
        return 2 * side * (side - 1) + (row - side) * 4 * side
    southern = 4 * side - row
    return 12 * side * side - 2 * southern * (southern + 1)


def declination(order: int, row: int) -> float:
    """Returns the declination of the centres of a row, in degrees."""
    side = 1 << order
    if side <= row <= 3 * side:
        return math.degrees(math.asin((4 - 2 * row / side) / 3))
    quarter = min(row, 4 * side - row)
    angle = math.degrees(math.asin(1 - quarter * quarter / (3 * side * side)))
    return angle if row < side else -angle


def cells_in_base_pixel(x: float, y: float, half: float, order: int, shown: dict[int, str]) -> str:
    """Returns cells of base pixel 0.

    Parameters
    ----------
    x, y, half : float
        The centre of the base pixel, and half of its diagonal.
    order : int
        The order of the cells.
    shown : dict of int to str
        The class of each cell to draw, by its nested number.

    Returns
    -------
    str
        The cells with their numbers.
    """
    size = half / (1 << order)
    elements = ""
    for nested, style in shown.items():
        _, east, west = face_xy(order, nested)
        centre_x, centre_y = x + (west - east) * size, y + half - (east + west + 1) * size
        elements += diamond(centre_x, centre_y, size, style) + text(centre_x, centre_y + 5, nested)
    return elements


def shown_texts() -> Iterator[tuple[str, str]]:
    """Returns the name of each format with the text of the shown MOC, whose cells are sorted and never consecutive."""
    yield "ASCII", " ".join(f"{order}/{' '.join(map(str, cells))}" for order, cells in SHOWN_MOC.items())
    yield "JSON", json.dumps({str(order): list(cells) for order, cells in SHOWN_MOC.items()}, separators=(",", ":"))
    yield "NUNIQ", " ".join(str(4 ** (order + 1) + cell) for order, cells in SHOWN_MOC.items() for cell in cells)


def draw_hierarchy() -> str:
    """Returns the picture of a base pixel with its cells of orders 1 and 2, and of a MOC."""
    half, top, bottom = 95.0, 135.0, 385.0
    elements = ""
    for order, name in enumerate(ORDER_NAMES):
        x = 110 + 210.0 * order
        elements += text(x, 26, name, "title")
        elements += cells_in_base_pixel(x, top, half, order, dict.fromkeys(range(4 ** order), "box"))
    elements += text(110, bottom - half - 14, "A MOC", "title") + diamond(110, bottom, half, "dash")
    for (order, cells), style in zip(SHOWN_MOC.items(), ("deep", "blue")):
        elements += cells_in_base_pixel(110, bottom, half, order, dict.fromkeys(cells, style))
    left, line = 245.0, 24.0
    elements += text(left, bottom - 62, "Cell i is divided into the cells 4i to 4i + 3 of the next order.", "left")
    for row, ((order, cells), style) in enumerate(zip(SHOWN_MOC.items(), ("deep", "blue"))):
        y = bottom - 34 + line * row
        names = ", ".join(map(str, cells[:-1])) + f" and {cells[-1]}" if len(cells) > 1 else str(cells[0])
        elements += box(left, y - 12, 15, 15, style)
        elements += text(left + 24, y, f"order {order}: {'cells' if len(cells) > 1 else 'cell'} {names}", "left")
    for row, (name, shown) in enumerate(shown_texts()):
        y = bottom + 28 + line * row
        elements += text(left, y, name, "left soft") + text(left + 60, y, shown, "left code")
    about = ("Base pixel 0, its 4 cells of order 1 and its 16 cells of order 2, with nested numbers. Below, a MOC of cells of orders 1 and "
             "2, with its ASCII, JSON and NUNIQ texts.")
    return picture(495, "The hierarchy of HEALPix cells", about, elements)


def shown_angle(angle: float) -> str:
    """Returns an angle with its sign, to a tenth of a degree."""
    return f"{angle:+.1f}°".replace("+0.0", "0").replace("-", "−")


def numbered_cell(x: float, y: float, nested: int, ring: int) -> str:
    """Returns the two numbers of a cell."""
    return text(x, y - 3, nested, "title") + text(x, y + 15, ring, "second")


def draw_numberings() -> str:
    """Returns the picture of the cells of order 1 with both numbers."""
    order, unit, left, top = 1, 36.0, 10.0, 34.0
    right = left + 16 * unit
    cells = ""
    numbers = ""
    for nested in range(12 << 2 * order):
        row, column = row_column(order, nested)
        y = top + row * unit
        style = "box" if row % 2 else "blue"
        for x in [right - column * unit] + [left] * (column == 0):
            cells += diamond(x, y, unit, style)
            inset = 17 * ((x == left) - (x == right))
            numbers += numbered_cell(x + inset, y, nested, ring_number(order, nested))
    for face in range(12):
        row, column = row_column(0, face)
        for x in [right - 2 * column * unit] + [left] * (column == 0):
            cells += diamond(x, top + 2 * row * unit, 2 * unit, "thick")
    elements = text(left, 22, "North is up, east is left.", "left soft") + text(WIDTH - 8, 22, "declination", "right soft")
    elements += f'<clipPath id="sky"><path d="M{left:g} 0H{right:g}V600H{left:g}z"/></clipPath>\n'
    elements += f'<g clip-path="url(#sky)">\n{cells}</g>\n'
    elements += numbers
    for row in range(1, 8):
        elements += text(WIDTH - 8, top + row * unit + 5, shown_angle(declination(order, row)), "right soft")
    bottom = top + 8 * unit
    elements += text(left, bottom + 18, "longitude 360°", "left soft")
    for quarter, name in enumerate(("270°", "180°", "90°", "0°"), 1):
        elements += text(left + 4 * quarter * unit, bottom + 18, name, "soft")
    elements += text(left, bottom + 44, "Bold: nested number.", "left title")
    elements += text(left + 160, bottom + 44, "Below it: ring number.", "left second")
    elements += text(left + 320, bottom + 44, "Thick lines: the 12 base pixels.", "left")
    about = ("The 48 cells of order 1 in the HEALPix projection. Each cell has its nested number, and below it its ring number. The four "
             "nested numbers of a base pixel are consecutive. Ring numbers ascend from north to south, and to the east in each row.")
    return picture(int(bottom) + 58, "Nested and ring numbers of order 1", about, elements)
