"""Formats of texts, and positions and quotations of errors in texts, in the words of the program `moc`."""
from __future__ import annotations

import json
import re
from typing import Any

from .errors import MocError

# The maximal number of bytes of a text that a quotation has.
MAX_QUOTED = 40
_SEPARATORS = (b" ", b",", b"\t", b"\r", b"\n")
# The first bytes of contents that no format has.
_CONTENTS = (
    (b"\xef\xbb\xbf", "UTF-8 with a byte order mark"), (b"\xff\xfe", "UTF-16"), (b"\xfe\xff", "UTF-16"), (b"\x1f\x8b", "gzip"),
    (b"SIMPLE", "FITS; python -m ploverchaise convert reads it"), (b"<", "HTML or XML"))
_FORMAT_NAMES = {"ascii": "ASCII", "json": "JSON", "uniq": "a NUNIQ list"}
# What a text must have in place of an error, by its format and the name of the error.
_EXPECTED = {
    ("ascii", "BadByte"): "words look like 3/, 10, 12-14 or 3/10", ("ascii", "Unfinished"): "words look like 3/, 10, 12-14 or 3/10",
    ("ascii", "NoOrder"): "an order comes first, as in 3/", ("ascii", "OrderTooLarge"): "orders go up to 29",
    ("ascii", "Backwards"): "a range goes from its first cell to its last",
    ("json", "NotJson"): 'a text is one object, as in {"3":[10,12]}', ("json", "NotObject"): 'a text is one object, as in {"3":[10,12]}',
    ("json", "BadOrder"): "names are orders from 0 to 29",
    ("json", "NotArray"): 'the value of an order is an array, as in {"3":[10,12]}',
    ("json", "NotWhole"): "cells are whole numbers of at most 64 bits",
    ("uniq", "BadByte"): "each line is one number, of digits only", ("uniq", "NotUniq"): "NUNIQ numbers go from 4 to 4611686018427387903"}


def likely_format(text: bytes) -> str | None:
    """Returns the format that a text looks like, by the rules of the program `moc`, or None if it looks like none."""
    first = text.lstrip(b" \t\r\n")[:1]
    if first == b"{":
        return "json"
    has_digit = re.search(rb"[0-9]", text) is not None
    if first and first in b"0123456789s," and has_digit and b"/" in text:
        return "ascii"
    return "uniq" if has_digit and re.fullmatch(rb"[0-9\n]*", text) else None


def likely_content(text: bytes, format: str) -> str | None:
    """Returns what an invalid text looks like, by the rules of the program `moc`, or None if this is nothing or the format itself."""
    for first_bytes, content in _CONTENTS:
        if text.startswith(first_bytes):
            return content
    likely = likely_format(text)
    return None if likely is None or likely == format else _FORMAT_NAMES[likely]


def expectation_of(text: bytes, format: str, error: MocError) -> str:
    """Returns what a text must have in place of an error, in the words of the program `moc`, or an empty text for another error."""
    if error.name != "CellTooLarge":
        return _EXPECTED.get((format, error.name), "")
    if format == "ascii":
        before = text[:text.rindex(b"/", 0, error.place[0])]
        order = _order_of(before[len(before.rstrip(b"0123456789")):])
    else:
        order = _order_of(_sorted_names(json.loads(text))[error.place[0]].encode())
    return f"cells of order {order} go up to {12 * 4**order - 1}"


def quote(part: bytes, at: int = 0) -> str:
    """Returns a part of a text between backquotes, around the byte at a position.

    Bytes that are not printable ASCII, backquotes and backslashes are in hexadecimal, and two points stand for what is left out."""
    start = max(0, min(at - MAX_QUOTED // 2, len(part) - MAX_QUOTED))
    shown = part[start:start + MAX_QUOTED]
    plain = "".join(chr(byte) if 32 <= byte <= 126 and byte not in b"\\`" else f"\\x{byte:02x}" for byte in shown)
    return (".." if start else "") + f"`{plain}`" + (".." if start + MAX_QUOTED < len(part) else "")


def position_of(data: bytes, format: str, error: MocError) -> str:
    """Returns the position of the error of a text, with a quotation, or an empty text if the error has no position."""
    return ": ".join(part for part in _position_and_quotation(data, format, error) if part)


def quotation_of(data: bytes, format: str, error: MocError) -> str:
    """Returns the quotation of the part of a text that an error is about, or an empty text if the error has no position."""
    return _position_and_quotation(data, format, error)[1]


def _position_and_quotation(data: bytes, format: str, error: MocError) -> tuple[str, str]:
    """Returns the position of the error of a text, and the quotation. Each may be an empty text."""
    if format == "json":
        return _position_in_json(data, error)
    if not error.place:
        return "", ""
    place = error.place[0]
    if format == "uniq":
        part = _line(data, place)
        digits = re.match(rb"[0-9]*", part)
        return f"line {place}", quote(part, digits.end() if digits else 0)
    line, start = data.count(b"\n", 0, place) + 1, data.rfind(b"\n", 0, place) + 1
    begin, end = _word_bounds(data, place)
    return f"byte {place}, line {line}, byte {place - start} of it", quote(data[begin:end], place - begin)


def _line(data: bytes, number: int) -> bytes:
    """Returns the line with a number, counted from 1."""
    return data.split(b"\n", number)[number - 1]


def _word_bounds(data: bytes, place: int) -> tuple[int, int]:
    """Returns the positions of the bytes between the separators around a position."""
    start = max(data.rfind(separator, 0, place) for separator in _SEPARATORS) + 1
    return start, min((end for end in (data.find(separator, place) for separator in _SEPARATORS) if end >= 0), default=len(data))


def _order_of(digits: bytes) -> int:
    """Returns the order that digits denote. Python limits the number of digits of an integer, and leading zeros are allowed."""
    return int(digits.lstrip(b"0") or b"0")


def _sorted_names(content: dict[str, Any]) -> list[str]:
    """Returns the names of a JSON object in byte order."""
    return sorted(content, key=str.encode)


def _position_in_json(data: bytes, error: MocError) -> tuple[str, str]:
    """Returns the position of the error of a JSON text, and the quotation. For an invalid text it is the position of Python's parser."""
    try:
        content: Any = json.loads(data)
    except json.JSONDecodeError as failure:
        return f"line {failure.lineno}, column {failure.colno}", ""
    except (ValueError, RecursionError):
        return "", ""
    if not error.place:
        return "", ""
    name = _sorted_names(content)[error.place[0]]
    if error.name == "BadOrder":
        return f"name {error.place[0]}", quote(name.encode())
    if error.name == "NotArray":
        return f"order {_order_of(name.encode())}", quote(name.encode())
    item = json.dumps(content[name][error.place[1]], separators=(",", ":"), ensure_ascii=False)
    return f"order {_order_of(name.encode())}, number {error.place[1]}", quote(item.encode())
