"""Makes SVG pictures for pages with a light or a dark background.

A picture is `WIDTH` units wide, so its sizes are pixels on a page of this width. Elements have classes of `STYLES` instead of colours. A
browser chooses the colours by the preferred colour scheme of the reader. Each picture also draws its own background, so the contrast is
right on every page."""
from __future__ import annotations

from html import escape

WIDTH = 640
# The style of each class, or of all texts: on a light background, and what differs on a dark one.
STYLES = (
    (".back", "fill:#fff", "fill:#0d1117"),
    ("text", "fill:#1f2328;font:13px sans-serif;text-anchor:middle", "fill:#e6edf3"),
    (".left", "text-anchor:start", ""),
    (".right", "text-anchor:end", ""),
    (".small", "font-size:12px", ""),
    (".title", "font-weight:bold", ""),
    (".code", "font-family:monospace", ""),
    (".soft", "fill:#57606a", "fill:#9da7b1"),
    (".second", "fill:#953800", "fill:#ffb077"),
    (".line", "fill:none;stroke:#6e7781", "stroke:#8b949e"),
    (".thick", "fill:none;stroke:#1f2328;stroke-width:2.5", "stroke:#e6edf3"),
    (".dash", "fill:none;stroke:#6e7781;stroke-dasharray:5 4", "stroke:#8b949e"),
    (".box", "fill:#f3f5f7;stroke:#6e7781", "fill:#1c2430;stroke:#8b949e"),
    (".blue", "fill:#cfe5f5;stroke:#0072b2", "fill:#0f3d5c;stroke:#56b4e9"),
    (".deep", "fill:#8cc4ea;stroke:#0072b2", "fill:#1c6a9c;stroke:#56b4e9"),
    (".orange", "fill:#fde3bd;stroke:#b35f00", "fill:#5c3a0c;stroke:#f0a05a"),
    (".dot", "fill:#1f2328", "fill:#e6edf3"),
)
HEAD = """\
<svg xmlns="http://www.w3.org/2000/svg" viewBox="0 0 {width} {height}" role="img">
<title>{title}</title>
<desc>{description}</desc>
<style>
{light}
@media (prefers-color-scheme: dark) {{
{dark}
}}
</style>
<rect class="back" width="{width}" height="{height}" rx="6"/>
"""


def number(value: float) -> str:
    """Returns a coordinate with at most one digit after the point."""
    return f"{round(value, 1) + 0:g}"


def element(name: str, style: str, content: str | None = None, **attributes: float | str) -> str:
    """Returns an element.

    Parameters
    ----------
    name : str
        The name of the element.
    style : str
        Its classes, separated by spaces.
    content : str, optional
        Its text.
    **attributes : float or str
        Its attributes.

    Returns
    -------
    str
        The element, with a line feed.
    """
    parts = [name] + ([f'class="{style}"'] if style else [])
    parts += [f'{key}="{value if isinstance(value, str) else number(value)}"' for key, value in attributes.items()]
    return f"<{' '.join(parts)}/>\n" if content is None else f"<{' '.join(parts)}>{escape(content, quote=False)}</{name}>\n"


def text(x: float, y: float, content: object, style: str = "") -> str:
    """Returns a text whose base line is at y. It is centred at x, or begins or ends there by its class `left` or `right`."""
    return element("text", style, str(content), x=x, y=y)


def box(left: float, top: float, width: float, height: float, style: str = "box") -> str:
    """Returns a rectangle with rounded corners."""
    return element("rect", style, x=left, y=top, width=width, height=height, rx=4.0)


def path(points: list[tuple[float, float]], style: str = "line", end: str = "") -> str:
    """Returns a line through points. An `end` of `z` closes it."""
    return element("path", style, d="M" + "L".join(f"{number(x)} {number(y)}" for x, y in points) + end)


def diamond(x: float, y: float, half: float, style: str) -> str:
    """Returns a square on its corner, with its centre and half of its diagonal."""
    return path([(x, y - half), (x + half, y), (x, y + half), (x - half, y)], style, "z")


def dot(x: float, y: float, radius: float = 5.0, style: str = "dot") -> str:
    """Returns a circle."""
    return element("circle", style, cx=x, cy=y, r=radius)


def picture(height: int, title: str, description: str, elements: str) -> str:
    """Returns a picture.

    Parameters
    ----------
    height : int
        Its height.
    title, description : str
        What it shows, for readers who do not see it.
    elements : str
        Its elements. Later ones cover earlier ones.

    Returns
    -------
    str
        The file.
    """
    light = "\n".join(f"{name} {{{style}}}" for name, style, _ in STYLES)
    dark = "\n".join(f"{name} {{{style}}}" for name, _, style in STYLES if style)
    head = HEAD.format(width=WIDTH, height=height, title=escape(title), description=escape(description), light=light, dark=dark)
    return f"{head}{elements}</svg>\n"
