"""Draws the storage of a map, two clients of the step machine, and the graph of the crates.

The numbers are constants of the crates, the steps are those of an example of docs/SCRIPTS.md, and the crates are those of crates.txt."""
from __future__ import annotations

import itertools
import os
import re
from typing import NamedTuple

from crates import libraries_of_crates, read_crates
from generated import read
from svg import WIDTH, box, dot, path, picture, text

# The files of constants of the storage.
BLOCK, NODE = (os.path.join("crates", "moc_blocks", "src", f"{name}.rt") for name in ("block", "node"))
PART = os.path.join("crates", "moc_parts", "src", "part.rt")
SCRIPTS = os.path.join("docs", "SCRIPTS.md")
# The heading of the section whose example is drawn, and a line of the example: client, step and reply.
EXAMPLE = "### Two clients that claim"
STEP = re.compile(r"^((begin|take|edit|give|quit|end) (\d+)[^:\n]*):(.+)$", re.MULTILINE)
ORDER = re.compile(r"^:order (.*)$", re.MULTILINE)
# What the product consists of: these crates and their libraries.
PRODUCTS = ("moc_cli", "moc_c", "moc_web")
# The widths of a crate in the graph, and of a line that passes a row.
CRATE_WIDTH, POINT_WIDTH = 134.0, 16.0


def constant(path_of_file: str, pattern: str) -> int:
    """Returns the number that a source has at a pattern. Raises ValueError if there is none."""
    found = re.search(pattern, read(path_of_file))
    if found is None:
        raise ValueError(f"{path_of_file}: nothing is like {pattern}")
    return int(found[1])


def fan(x: float, top: float, left: float, right: float, bottom: float) -> str:
    """Returns two lines from a point down to the two ends of what it points to."""
    return path([(x, top), (left, bottom)]) + path([(x, top), (right, bottom)])


def level(y: float, name: str, about: str) -> str:
    """Returns the name of a level of the storage, with a line about it."""
    return text(12, y, name, "left title") + text(12, y + 18, about, "left soft")


def draw_parts(parts: int, chosen: int, left: float, step: float) -> str:
    """Returns the parts of a map, and the line from one of them to its list."""
    elements = ""
    for part in range(parts):
        elements += box(left + part * step, 18, step - 5, 30, "blue" if part == chosen else "box")
        elements += text(left + part * step + (step - 5) / 2, 38, part)
    x = left + chosen * step + (step - 5) / 2
    return elements + path([(x, 48), (x, 88)])


def draw_storage() -> str:
    """Returns the picture of a map, from its parts to ranges."""
    ranges = constant(BLOCK, r"const MAX_BLOCK_RANGES: usize = (\d+);")
    blocks = constant(NODE, r"const MAX_NODE_BLOCKS: usize = (\d+);")
    parts = constant(PART, r"const ALL: \[Part; (\d+)\]")
    left, right = 150.0, WIDTH - 12.0
    elements = draw_parts(parts, 3, left, (right + 5 - left) / parts)
    elements += level(30, "Map", f"{parts} parts") + level(100, "Part 3", "a coverage") + level(170, "Nodes", f"1 to {blocks} blocks")
    elements += level(240, "Blocks", f"1 to {ranges} ranges") + level(310, "Ranges", "of pixels")
    elements += box(240, 88, 190, 32, "blue") + text(335, 109, "list of nodes")
    elements += box(right - 150, 88, 150, 32, "dash") + text(right - 75, 109, "copy of the list")
    for place in range(3):
        x = left + 162 * place
        elements += path([(335, 120), (x + 65, 160)]) + path([(right - 75, 120), (x + 89, 160)], "dash")
        elements += box(x, 160, 154, 32, "deep" if place == 1 else "box") + text(x + 77, 181, "from, to, counts")
    elements += fan(left + 239, 192, left, right, 230)
    for place in range(4):
        x = left + 121 * place
        elements += box(x, 230, 115, 32, "deep" if place == 2 else "box") + text(x + 57.5, 251, "from, to, count")
    elements += fan(left + 299.5, 262, left, right, 304)
    for x, width in ((0, 50), (62, 110), (182, 35), (238, 90), (345, 50), (410, 68)):
        elements += box(left + x, 304, width, 14, "orange")
    elements += path([(left, 324), (right, 324)])
    elements += text(12, 358, f"A list without nodes has up to {ranges} ranges itself. A copy of a list shares all nodes.", "left soft")
    about = (f"A map has {parts} parts, one for each base pixel. Each part is a coverage, whose list has nodes of 1 to {blocks} blocks. "
             f"A block has 1 to {ranges} ranges of pixels. A copy of a list shares all nodes.")
    return picture(372, "Storage of a map", about, elements)


class Step(NamedTuple):
    """A step of a schedule: its text, its kind, its client and its reply."""

    line: str
    kind: str
    client: int
    reply: str


def read_schedule() -> tuple[list[Step], list[int]]:
    """Returns the steps of the example with their replies, and the numbers of the lines that began the operations in their order."""
    section = read(SCRIPTS).partition(f"\n{EXAMPLE}\n")[2].partition("\n#")[0]
    steps = [Step(line, kind, int(client), reply) for line, kind, client, reply in STEP.findall(section)]
    order = ORDER.search(section)
    if not steps or order is None:
        raise ValueError(f"{SCRIPTS}: the section {EXAMPLE!r} has no schedule with its replies")
    return steps, [int(word) for word in order[1].split()]


def draw_client(client: int, y: float, steps: list[Step], places: list[float]) -> str:
    """Returns the line of a client: from its `begin` to its `end`, with the lock that it holds and each step.

    Parameters
    ----------
    client : int
        The number of the client.
    y : float
        The height of the line.
    steps : list of Step
        The steps of all clients.
    places : list of float
        The position of each step.

    Returns
    -------
    str
        The line.
    """
    mine = [(place, step) for place, step in zip(places, steps) if step.client == client]
    held = [place for place, step in mine if step.kind in ("take", "give") and step.reply == "ok"]
    elements = text(12, y + 5, f"Client {client}", "left title")
    elements += box(mine[0][0], y - 12, mine[-1][0] - mine[0][0], 24)
    elements += box(held[0], y - 12, held[-1] - held[0], 24, "blue")
    for place, step in mine:
        is_refused = step.reply.startswith("refused")
        elements += dot(place, y, 6.0) if step.kind == "edit" else path([(place, y - 12), (place, y + 12)], "thick")
        elements += text(place, y + 30, step.kind, "second" if is_refused else "")
        if is_refused:
            elements += text(place, y + 46, "refused", "second")
    elements += text(mine[0][0], y - 20, mine[0][1].line.partition(f"{client} ")[2], "left code")
    return elements + text(mine[-1][0], y - 20, mine[-1][1].reply, "right code")


def draw_claims() -> str:
    """Returns the timeline of two clients that claim, from the example of docs/SCRIPTS.md."""
    steps, order = read_schedule()
    gap = (WIDTH - 150) / (len(steps) - 1)
    places = [110 + gap * place for place in range(len(steps))]
    clients = list(dict.fromkeys(step.client for step in steps))
    lines = {client: 56.0 + 110 * row for row, client in enumerate(clients)}
    bottom = 56.0 + 110 * len(clients)
    elements = ""
    for place, step in zip(places, steps):
        if step.kind == "edit":
            elements += path([(place, lines[step.client] + 37), (place, bottom)], "dash")
    for client, y in lines.items():
        elements += draw_client(client, y, steps, places)
    elements += text(12, bottom + 5, "Order", "left title") + path([(80, bottom), (WIDTH - 12, bottom)])
    edits = [(place, step) for place, step in zip(places, steps) if step.kind == "edit"]
    for (place, step), begun in zip(edits, order):
        begin = steps[begun - 1]
        elements += dot(place, bottom, 6.0) + text(place, bottom + 22, f"client {begin.client}")
    y = bottom + 52
    elements += box(12, y - 12, 15, 15, "blue") + text(34, y, f"holds the lock of base pixel {edits[0][1].line.split()[-1]}", "left")
    elements += dot(262, y - 4, 6.0) + text(276, y, "the claim takes effect", "left")
    elements += text(WIDTH - 12, y, "Time runs to the right.", "right soft")
    about = ("Each client begins a batch, takes the lock of a base pixel, edits, gives the lock back and ends. The second client is "
             "refused the lock that the first one holds. Each claim takes effect at its edit, between its begin and its end.")
    return picture(int(y) + 16, "Two clients that claim", about, elements)


def product_crates() -> dict[str, list[str]]:
    """Returns the crates of the product after the crates that they use, each with those that no other crate that it uses depends on."""
    direct = read_crates()
    libraries = libraries_of_crates(direct)
    names = list(dict.fromkeys(name for product in PRODUCTS for name in (*libraries[product], product)))
    uses = {name: [used for used in direct[name] if used in names] for name in names}
    return {name: [used for used in used_crates if not any(used in libraries[other] for other in used_crates)]
            for name, used_crates in uses.items()}


def crate_levels(uses: dict[str, list[str]]) -> dict[str, int]:
    """Returns the level of each crate. A crate that others use is directly below the lowest of them."""
    levels: dict[str, int] = {}
    for name, used in uses.items():
        levels[name] = 1 + max((levels[other] for other in used), default=-1)
    for name in reversed(uses):
        above = [levels[other] for other, used in uses.items() if name in used]
        levels[name] = min(above) - 1 if above else levels[name]
    return levels


class Layout(NamedTuple):
    """The rows of a graph, from the lowest, and its lines between adjacent rows, from the upper end to the lower end.

    A line over several rows passes through points, which are named after the line."""

    rows: list[list[str]]
    lines: list[tuple[str, str]]


def layout_of(uses: dict[str, list[str]]) -> Layout:
    """Returns the layout of the crates, before its rows are sorted."""
    levels = crate_levels(uses)
    rows: list[list[str]] = [[] for _ in range(max(levels.values()) + 1)]
    for name in uses:
        rows[levels[name]].append(name)
    lines = []
    for name, used in uses.items():
        for other in used:
            between = [f"{name}>{other}>{row}" for row in range(levels[name] - 1, levels[other], -1)]
            for point in between:
                rows[int(point.rpartition(">")[2])].append(point)
            lines += list(itertools.pairwise([name, *between, other]))
    return Layout(rows, lines)


def crossings(layout: Layout, row: int) -> int:
    """Returns how many lines cross directly above and below a row."""
    place = {name: number for names in layout.rows for number, name in enumerate(names)}
    count = 0
    for upper in (row, row + 1):
        if 0 < upper < len(layout.rows):
            ends = [(place[high], place[low]) for high, low in layout.lines if high in layout.rows[upper]]
            count += sum((a - c) * (b - d) < 0 for (a, b), (c, d) in itertools.combinations(ends, 2))
    return count


def sort_rows(layout: Layout, rounds: int = 3) -> None:
    """Sorts the crates of each row so that few lines cross: in each row the best sequence, up and down several times."""
    rows = list(range(len(layout.rows)))
    for row in (rows + rows[::-1]) * rounds:
        sequences = [list(names) for names in itertools.permutations(layout.rows[row])]
        costs = []
        for names in sequences:
            layout.rows[row][:] = names
            costs.append(crossings(layout, row))
        layout.rows[row][:] = sequences[costs.index(min(costs))]


def centres(names: list[str]) -> dict[str, float]:
    """Returns the middle of each crate and of each point of a row, with equal gaps."""
    widths = [POINT_WIDTH if ">" in name else CRATE_WIDTH for name in names]
    gap = (WIDTH - sum(widths)) / len(names)
    ends = itertools.accumulate(width + gap for width in widths)
    return {name: end - (gap + width) / 2 for name, end, width in zip(names, ends, widths)}


def draw_crates() -> str:
    """Returns the graph of the crates of the product."""
    layout = layout_of(product_crates())
    sort_rows(layout)
    half, step = 14.0, 58.0
    place = {name: (x, 30 + step * row) for row, names in enumerate(reversed(layout.rows)) for name, x in centres(names).items()}
    elements = ""
    for upper, lower in layout.lines:
        (x, y), (to_x, to_y) = place[upper], place[lower]
        elements += path([(x, y + half), (to_x, to_y - half)])
    for name, (x, y) in place.items():
        if ">" in name:
            elements += path([(x, y - half), (x, y + half)])
        else:
            style = "deep" if name in PRODUCTS else "box"
            elements += box(x - CRATE_WIDTH / 2, y - half, CRATE_WIDTH, 2 * half, style) + text(x, y + 5, name)
    bottom = 30 + step * len(layout.rows)
    legend = "A line leads down to a crate that the upper one uses. Uses that follow from others are left out."
    elements += text(12, bottom - 12, legend, "left soft")
    about = "A graph of crates.txt: the program moc_cli and the library moc_c near the top, and below each crate the crates that it uses."
    return picture(int(bottom) + 4, "The crates of the product", about, elements)
