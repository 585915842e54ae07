#!/usr/bin/env python3
"""Tests the program: its command line, failing devices, inputs of the maximal size, conversations through pipes, and failing allocations.

A run that ends with `fault Memory` has written only whole answers, and only those to the lines before. If a run succeeds, no allocation
failed. The environment variable MOC has the path of the program; the default is the program of the checkout. The last line printed is
`N passed, M failed`."""
from __future__ import annotations

import gzip
import os
import resource
import select
import signal
import subprocess
import sys
import tempfile
import time
from collections.abc import Callable, Iterable, Sequence
from typing import IO, Any, Optional, Union

from tally import Tally

TOP = os.path.dirname(os.path.dirname(os.path.abspath(__file__)))
sys.path.insert(0, os.path.join(TOP, "tools"))
import version  # noqa: E402

MOC = os.environ.get("MOC", os.path.join(TOP, "crates", "moc_cli", "out", "moc_cli"))
# The maximal numbers of bytes of a text, of a text that is converted, and of a line.
INPUT_LIMIT = 1_073_741_824
CONVERSION_LIMIT = 16_777_216
LINE_LIMIT = 1_048_576
TIME_LIMIT = 60

# The arguments of the program. Bytes are not always UTF-8.
Arguments = Sequence[Union[str, bytes]]
# The exit status, the standard output and the standard error of a run, or the first two of them.
Result = tuple[Any, ...]

SCRIPT = (b"add 0/0 2\ncount 0/2 3\nadd 0/1\nread 0/0 1 2 3\nadd @0 29/0 ; count 0/0-1\n\nadd 5/7-3\n"
          b"add 3/17 5/999-1200,29/0\nread 1/0-5")
ANSWERS = (b"changed 576460752303423488\ntotal 288230376151711744\nchanged 288230376151711744\ncover 0/0-2\n"
           b"changed 0 ; total 576460752303423488\nfault Backwards\nchanged 0\ncover 0/0 1/4-5\n")
CHANGES = b"add 0/0\nadd 0/0\nclaim 1/0 0/5\nread 0/5\ninvert\nread 0/0-11\n"
CHANGE_ANSWERS = (b"changed 288230376151711744\nchanged 0\ntaken 72057594037927936\ncover\nchanged 3458764513820540928\n"
                  b"cover 0/1-11\n")
INVALID_LINES = b"add 5/7-3\nhop 1\ndegrade 30\nnear 1\nnear 1 1x\nnear 0 12\ninvert now\nadd\nread\n"
INVALID_ANSWERS = (b"fault Backwards\nfault UnknownWord\nfault OrderTooLarge\nfault WrongCount\nfault BadNumber\n"
                   b"fault CellTooLarge\nfault WrongCount\nchanged 0\ncover\n")
SCHEDULE = (b"begin 1 add 0/0-1\nbegin 2 count 0/0-1\ntake 1\ntake 1\nedit 1 0\ngive 1 0\ntake 2\ntake 2\nedit 1 1\n"
            b"give 1 1\ntake 2\nend 1\nhop\n\nedit 2 0\nedit 2 1\ngive 2 0\ngive 2 1\nend 2\n")
SCHEDULE_ANSWERS = (b"ok\n" * 7 + b"refused PartHeld\n" + b"ok\n" * 3 + b"changed 576460752303423488\nfault UnknownWord\n"
                    + b"ok\n" * 4 + b"total 576460752303423488\n")
SCHEDULE_END = b"order 1 2\ncover 0/0-1\n"
CREW_SCRIPT = b"add 0/0\nadd 0/1\ncount 0/0\ncount 0/1\n"
CREW_ANSWERS = (b"changed 288230376151711744\nchanged 288230376151711744\ntotal 288230376151711744\n"
                b"total 288230376151711744\ncover 0/0-1\n")
CLAIMS = b"claim 0/4\nhop\n\nclaim 1/17"
CLAIM_ANSWERS = [b"claimed\nfault UnknownWord\ntaken 72057594037927936\ncover 0/4\n",
                 b"taken 72057594037927936\nfault UnknownWord\nclaimed\ncover 1/17\n"]
# Lines that each invert a set of 30,000 ranges sixteen times. The whole script takes minutes.
INVERSIONS = (b"add 9/" + b" ".join(b"%d" % cell for cell in range(0, 60_000, 2)) + b"\n"
              + (b" ; ".join([b"invert"] * 16) + b"\n") * 20_000)
# The calls of a shared map that `refusals calls` makes, in order.
CALLS = [b"new", b"try_apply of an update", b"try_apply of a query", b"apply of an update", b"apply of a query",
         b"finish of an update", b"finish of a query", b"answer of an add", b"answer of an add to a shared list", b"answer", b"close"]
VERSION_LINE = f"moc {version.read_version()}\n".encode()
STATISTICS = (b"deepest 2\npixels 306244774661193728\nshare 0.088541666666\narea 3652.605943958997\nranges 2\ncells 2\norder 0 1\n"
              b"order 2 1\n")
RING_ANSWERS = b"13\n0\nfault CellTooLarge\n27\nfault WrongCount\nfault BadNumber\n35\n"
NINES = b"9" * 1000
# The rows and columns of the centers of the twelve base pixels in the HEALPix projection.
BASE_PIXELS = [(1, 1), (1, 3), (1, 5), (1, 7), (2, 0), (2, 2), (2, 4), (2, 6), (3, 1), (3, 3), (3, 5), (3, 7)]


# The tones of a picture: four shades, from the lightest, of blue, orange and black.
TONES = ["#8cc0dc", "#5ea6cf", "#2e8bc0", "#0072b2", "#f4d48c", "#efc35e", "#ebb02e", "#e69f00", "#8c8c8c", "#5e5e5e", "#2e2e2e", "#000000"]


def diamonds(half: int, row: int, column: int) -> str:
    """Returns the diamond of a cell, and a second one at the right edge for a cell at the left edge."""
    return "".join(f"M{x} {(row - 1) * half}l{half} {half}-{half} {half}-{half}-{half}z"
                   for x in [column * half] + [1024] * (column == 0))


def text_at(x: int, y: int, text: str) -> str:
    """Returns a text of a legend at a position."""
    return f'<text x="{x}" y="{y}">{text}</text>'


def picture(meaning: str, cells: dict[int, str], names: list[str]) -> bytes:
    """Returns a picture, which has the base pixels, their numbers, the cells with east to the left, and a legend.

    Parameters
    ----------
    meaning : str
        The text after the shades.
    cells : dict[int, str]
        The diamonds of each tone. The tones are counted from 1.
    names : list[str]
        The name of each colour.
    """
    sky = "".join(diamonds(128, row, column) for row, column in BASE_PIXELS)
    labels = [text_at(x, row * 128 + 7, str(number)) for number, (row, column) in enumerate(BASE_PIXELS)
              for x in ([1024 - column * 128] if column else [16, 1008])]
    tones = TONES[:4 * len(names)]
    paths = [f'<path fill="{colour}" stroke="{colour}" vector-effect="non-scaling-stroke" d="{cells.get(tone, "")}"/>'
             for tone, colour in enumerate(tones, 1)]
    legend = []
    for row, name in enumerate(names):
        squares = [f'<path fill="{colour}" d="M{60 + 40 * column} {580 + 28 * row}h24v16h-24z"/>'
                   for column, colour in enumerate(tones[4 * row:4 * row + 4])]
        legend += [*squares, text_at(216, 595 + 28 * row, name)]
    height = 628 + 28 * len(names)
    lines = [f'<svg xmlns="http://www.w3.org/2000/svg" viewBox="-40 -40 1104 {height}">', "<title>Sky coverage</title>",
             '<clipPath id="plane"><path d="M0 0h1024v512H0z"/></clipPath>',
             f'<rect x="-40" y="-40" width="1104" height="{height}" fill="#fff"/>',
             f'<path fill="#eee" stroke="#bbb" clip-path="url(#plane)" d="{sky}"/>',
             '<g font-family="sans-serif" font-size="20" text-anchor="middle" fill="#bbb">', *labels, "</g>",
             '<g transform="translate(1024 0) scale(-1 1)" clip-path="url(#plane)" shape-rendering="crispEdges">', *paths, "</g>",
             '<g font-family="sans-serif" font-size="20" fill="#444">', text_at(-34, 263, "E"), text_at(1036, 263, "W"),
             text_at(0, 566, "up to"), text_at(60, 566, "1/4"), text_at(100, 566, "1/2"), text_at(140, 566, "3/4"), text_at(180, 566, "1"),
             text_at(216, 566, meaning), *legend, "</g>", "</svg>"]
    return "".join(f"{line}\n" for line in lines).encode()


def cells(order: int) -> bytes:
    """Returns the line that states how far the cells of an order go."""
    return b"\ncells of order %d go up to %d" % (order, 12 * 4 ** order - 1)


# A picture of base pixel 4, the northern quarter of base pixel 0, and three quarters of cell 0 of order 7.
ONE_MEANING = "of a cell of order 7"
PICTURE_CELLS = {3: diamonds(1, 255, 128), 4: diamonds(128, 2, 0) + diamonds(64, 1, 2)}
PICTURE = picture(ONE_MEANING, PICTURE_CELLS, ["covered"])
# A picture of two sets: base pixel 5 and a piece of cell 0 of order 7, and base pixel 5 and cell 16 of order 1. That cell is the southern
# quarter of base pixel 4.
TWO_MEANING = "of a cell of order 7; its colour is that of most of its covered pixels"
CELLS_OF_TWO = {1: diamonds(1, 255, 128), 8: diamonds(64, 5, 0), 12: diamonds(128, 2, 2)}
PICTURE_OF_TWO = picture(TWO_MEANING, CELLS_OF_TWO, ["first only", "second only", "both"])
# A name of 40 bytes, and a picture with this name and another name.
LONG_NAME = "<&>\"" + "W" * 36
NAMED_PICTURE = picture(TWO_MEANING, CELLS_OF_TWO, ["&lt;&amp;&gt;&quot;" + "W" * 36, "B~ '", "both"])
# The lines that state what a text must have in place of an error.
WORDS = b"\nwords look like 3/, 10, 12-14 or 3/10"
FIRST_ORDER = b"\nan order comes first, as in 3/"
ORDERS = b"\norders go up to 29"
RANGES = b"\na range goes from its first cell to its last"
OBJECT = b'\na text is one object, as in {"3":[10,12]}'
NAMES = b"\nnames are orders from 0 to 29"
ARRAY = b'\nthe value of an order is an array, as in {"3":[10,12]}'
WHOLE = b"\ncells are whole numbers of at most 64 bits"
DIGITS = b"\neach line is one number, of digits only"
NUNIQ = b"\nNUNIQ numbers go from 4 to 4611686018427387903"
# Arguments, standard input, and the error that the program reports: each error of an invalid value or text.
INVALID_INPUTS: list[tuple[Arguments, bytes, bytes]] = [
    (["ring", "0", "12"], b"", b"CellTooLarge"),
    (["cell", "3"], b"", b"NotUniq"),
    (["nest", "0", "12"], b"", b"RingTooLarge"),
    (["convert", "ascii", "uniq"], b"0/0 x", b"BadByte"),
    (["convert", "ascii", "uniq"], b"7", b"NoOrder"),
    (["convert", "ascii", "uniq"], b"30/0", b"OrderTooLarge"),
    (["convert", "ascii", "uniq"], b"0/12", b"CellTooLarge"),
    (["convert", "ascii", "uniq"], b"5/7-3", b"Backwards"),
    (["convert", "ascii", "uniq"], b"5/7-", b"Unfinished"),
    (["convert", "json", "uniq"], b'{"0":[0', b"NotJson"),
    (["convert", "json", "uniq"], b"[1]", b"NotObject"),
    (["convert", "json", "uniq"], b'{"x":[0]}', b"BadOrder"),
    (["convert", "json", "uniq"], b'{"0":0}', b"NotArray"),
    (["convert", "json", "uniq"], b'{"0":["a"]}', b"NotWhole"),
    (["convert", "json", "uniq"], b'{"0":[12]}', b"CellTooLarge"),
    (["convert", "uniq", "ascii"], b"4\nx", b"BadByte"),
    (["convert", "uniq", "ascii"], b"3", b"NotUniq"),
    (["convert", "ascii", "ascii"], b" " * (CONVERSION_LIMIT + 1), b"TooLong"),
    (["describe", "ascii"], b"0/12", b"CellTooLarge\nbyte 2, line 1, byte 2 of it: `0/12`" + cells(0)),
    (["describe", "uniq"], b"4\n3", b"NotUniq\nline 2: `3`" + NUNIQ),
    (["describe", "json"], b"[1]", b"NotObject" + OBJECT),
    (["combine", "union", "ascii"], b"0/0 ; 0/12", b"CellTooLarge\ntext 2, byte 3, line 1, byte 3 of it: `0/12`" + cells(0)),
    (["combine", "difference", "ascii"], b"5/7-3 ; 0/12", b"Backwards\ntext 1, byte 2, line 1, byte 2 of it: `5/7-3`" + RANGES),
    (["combine", "union", "ascii"], b"0/0;" * 16 + b"\n7;0/0",
     b"NoOrder\ntext 17, byte 1, line 2, byte 0 of it: `7`" + FIRST_ORDER + b"\nthis looks like a NUNIQ list"),
    (["combine", "symmetric", "json"], b'{"0":[0]};{', b"NotJson\ntext 2, line 1, column 1" + OBJECT),
    (["combine", "symmetric", "json"], b'{"0":[0]};[1];{}', b"NotObject\ntext 2" + OBJECT),
    (["combine", "intersection", "uniq"], b"4;5\n;3", b"NotUniq\ntext 3, line 1: `3`" + NUNIQ),
    (["degrade", "3", "ascii"], b"0/12", b"CellTooLarge\nbyte 2, line 1, byte 2 of it: `0/12`" + cells(0)),
    (["complement", "json"], b'{"x":[]}', b"BadOrder\nname 0: `x`" + NAMES),
    (["complement", "uniq"], b"4\n3", b"NotUniq\nline 2: `3`" + NUNIQ),
    (["draw", "ascii"], b"0/12", b"CellTooLarge\nbyte 2, line 1, byte 2 of it: `0/12`" + cells(0)),
    (["draw", "json"], b'{"9":[0,1,true]}', b"NotWhole\norder 9, number 2: `true`" + WHOLE),
    (["draw", "json"], b"[1]", b"NotObject" + OBJECT),
    (["renumber", "nest", "ring", "0"], b" " * (LINE_LIMIT + 1), b"LineTooLong"),
    (["check", "json"], b"[1]", b"NotObject" + OBJECT),
    (["check", "ascii"], b"0/0\n1/5 x7", b"BadByte\nbyte 8, line 2, byte 4 of it: `x7`" + WORDS),
    (["check", "ascii"], b"7", b"NoOrder\nbyte 0, line 1, byte 0 of it: `7`" + FIRST_ORDER + b"\nthis looks like a NUNIQ list"),
    (["check", "ascii"], b"1/0\n\n\n30/0", b"OrderTooLarge\nbyte 6, line 4, byte 0 of it: `30/0`" + ORDERS),
    (["check", "ascii"], b"0/12", b"CellTooLarge\nbyte 2, line 1, byte 2 of it: `0/12`" + cells(0)),
    (["check", "ascii"], b"1/0-3\n2/7-5", b"Backwards\nbyte 8, line 2, byte 2 of it: `2/7-5`" + RANGES),
    (["check", "ascii"], b"1/0\n5-", b"Unfinished\nbyte 6, line 2, byte 2 of it: `5-`" + WORDS),
    (["check", "json"], b'{\n"0":[0', b"NotJson\nline 2, column 6" + OBJECT),
    (["check", "json"], b'{"0":[],"x":[0]}', b"BadOrder\nname 1: `x`" + NAMES),
    (["check", "json"], b'{"1":[],"007":0}', b"NotArray\norder 7: `007`" + ARRAY),
    (["check", "json"], b'{"9":[0,1,true]}', b"NotWhole\norder 9, number 2: `true`" + WHOLE),
    (["check", "json"], b'{"10":[],"2":[0,192]}', b"CellTooLarge\norder 2, number 1: `192`" + cells(2)),
    (["check", "uniq"], b"4\nx", b"BadByte\nline 2: `x`" + DIGITS),
    (["check", "uniq"], b"4\n\n3", b"NotUniq\nline 3: `3`" + NUNIQ),
    # At most 40 bytes are quoted, with the byte of the error among them. Bytes that are not printable ASCII are quoted by their digits.
    (["check", "ascii"], b"1/" + b"1" * 38 + b"x", b"BadByte\nbyte 40, line 1, byte 40 of it: ..`/" + b"1" * 38 + b"x`" + WORDS),
    (["check", "ascii"], b"x" + b"1" * 40, b"BadByte\nbyte 0, line 1, byte 0 of it: `x" + b"1" * 39 + b"`.." + WORDS),
    (["check", "ascii"], b"0/3 " + b"1" * 50 + b"x" + b"2" * 50,
     b"BadByte\nbyte 54, line 1, byte 54 of it: ..`" + b"1" * 20 + b"x" + b"2" * 19 + b"`.." + WORDS),
    (["check", "uniq"], b"4\n" + b"1" * 50 + b"x", b"BadByte\nline 2: ..`" + b"1" * 39 + b"x`" + DIGITS),
    (["check", "ascii"], b"1/" + b"1" * 37 + b"-,", b"Unfinished\nbyte 40, line 1, byte 40 of it: `1/" + b"1" * 37 + b"-`" + WORDS),
    (["check", "ascii"], b"0/0,\x1b[31m\xff`\\\x7f~\t3",
     b"BadByte\nbyte 4, line 1, byte 4 of it: `\\x1b[31m\\xff\\x60\\x5c\\x7f~`" + WORDS),
    (["check", "uniq"], b"4 \r\n5", b"BadByte\nline 1: `4 \\x0d`" + DIGITS),
    (["check", "json"], b'{"\\u0007":[]}', b"BadOrder\nname 0: `\\x07`" + NAMES),
    (["check", "json"], b'{"3":[[1, "a"]]}', b'NotWhole\norder 3, number 0: `[1,"a"]`' + WHOLE),
    (["check", "json"], b'{"3":[1.5]}', b"NotWhole\norder 3, number 0: `1.5`" + WHOLE),
    # Hints at the format of a text that is read in another format.
    (["check", "ascii"], b'\n{"0":[3]}',
     b'BadByte\nbyte 1, line 2, byte 0 of it: `{"0":[3]}`' + WORDS + b'\nthis looks like JSON'),
    (["check", "uniq"], b'{"0":[3]}', b'BadByte\nline 1: `{"0":[3]}`' + DIGITS + b'\nthis looks like JSON'),
    (["check", "uniq"], b"0/3", b"BadByte\nline 1: `0/3`" + DIGITS + b"\nthis looks like ASCII"),
    (["check", "json"], b" ,s0/3", b"NotJson\nline 1, column 2" + OBJECT + b"\nthis looks like ASCII"),
    (["check", "json"], b",4\n5", b"NotJson\nline 1, column 1" + OBJECT),
    (["check", "json"], b"s", b"NotJson\nline 1, column 1" + OBJECT),
    (["check", "json"], b"s/", b"NotJson\nline 1, column 1" + OBJECT),
    (["check", "ascii"], b"9:1,5", b"BadByte\nbyte 1, line 1, byte 1 of it: `9:1`" + WORDS),
    # Hints at other contents, by their first bytes.
    (["check", "auto"], b"\xef\xbb\xbf3/1",
     b"BadByte\nbyte 0, line 1, byte 0 of it: `\\xef\\xbb\\xbf3/1`" + WORDS + b"\nthis looks like UTF-8 with a byte order mark"),
    (["check", "uniq"], "4\n".encode("utf-16"), b"BadByte\nline 1: `\\xff\\xfe4\\x00`" + DIGITS + b"\nthis looks like UTF-16"),
    (["check", "ascii"], b"\xfe\xff" + "3/1".encode("utf-16-be"),
     b"BadByte\nbyte 0, line 1, byte 0 of it: `\\xfe\\xff\\x003\\x00/\\x001`" + WORDS + b"\nthis looks like UTF-16"),
    (["describe", "ascii"], gzip.compress(b"3/1", mtime=0)[:4],
     b"BadByte\nbyte 0, line 1, byte 0 of it: `\\x1f\\x8b\\x08\\x00`" + WORDS + b"\nthis looks like gzip"),
    (["combine", "union", "ascii"], b"SIMPLE  =                    T", b"BadByte\ntext 1, byte 0, line 1, byte 0 of it: `SIMPLE`" + WORDS
     + b"\nthis looks like FITS; python -m ploverchaise convert reads it"),
    (["check", "json"], b"<html>", b"NotJson\nline 1, column 1" + OBJECT + b"\nthis looks like HTML or XML"),
    # The order in force at an error.
    (["check", "ascii"], b"3/1 s09/1,5-3145728", b"CellTooLarge\nbyte 12, line 1, byte 12 of it: `5-3145728`" + cells(9)),
    (["check", "json"], b"4", b"NotObject" + OBJECT + b"\nthis looks like a NUNIQ list"),
    (["convert", "json", "ascii"], b"0/3", b"NotJson"),
    # The detected format, and two coverages in a picture.
    (["check", "auto"], b" {\"0\":[12]}", b"CellTooLarge\norder 0, number 0: `12`" + cells(0)),
    (["check", "auto"], b"4\n5", b"NoOrder\nbyte 0, line 1, byte 0 of it: `4`" + FIRST_ORDER + b"\nthis looks like a NUNIQ list"),
    (["combine", "union", "auto"], b'0/0;{"0":[12]}', b"CellTooLarge\ntext 2, order 0, number 0: `12`" + cells(0)),
    (["draw", "ascii"], b"0/12;0/0", b"CellTooLarge\ntext 1, byte 2, line 1, byte 2 of it: `0/12`" + cells(0)),
    (["draw", "ascii"], b"0/0;0/1;0/2", b"BadByte\ntext 2, byte 3, line 1, byte 3 of it: `0/1;0/2`" + WORDS),
    (["run"], b" " * (LINE_LIMIT + 1), b"LineTooLong"),
    (["play"], b" " * (LINE_LIMIT + 1), b"LineTooLong"),
    (["crew", "2"], b"add 0/0\n" + b" " * (LINE_LIMIT + 1), b"LineTooLong"),
]
# Arguments, standard input and output of runs that succeed. Each allocation of these runs also fails in turn.
VALID_INPUTS: list[tuple[Arguments, bytes, bytes]] = [
    (["run"], SCRIPT, ANSWERS),
    (["run"], CHANGES, CHANGE_ANSWERS),
    (["run"], INVALID_LINES, INVALID_ANSWERS),
    (["ring", "1", "18"], b"", b"27\n"),
    (["nest", "1", "27"], b"", b"18\n"),
    (["uniq", "3", "10"], b"", b"266\n"),
    (["cell", "266"], b"", b"3/10\n"),
    (["near", "2", "3"], b"", b"0 1 2 4 6 8 9 12\n"),
    (["convert", "json", "uniq"], b'{"0":[3],"2":[5]}', b"7\n69\n"),
    (["convert", "ascii", "json"], b"2/0-3", b'{"1":[0],"2":[]}\n'),
    (["convert", "uniq", "ascii"], b"16\n17\n\n18\n19", b"0/0\n"),
    (["check", "json"], b'{"0":[3],"2":[5]}\n', b"ok\n"),
    (["check", "auto"], b'\r\n\t {"0":[3],"2":[5]}\n', b"ok\n"),
    (["combine", "union", "auto"], b'0/0;{"0":[1],"3":[]}', b"0/0-1 3/\n"),
    (["combine", "union", "auto"], b'{"0":[1],"3":[]};0/0', b'{"0":[0,1],"3":[]}\n'),
    (["degrade", "0", "auto"], b'{"1":[5],"4":[]}', b'{"0":[1]}\n'),
    (["complement", "auto"], b"0/0-10 1/44 2/", b"1/45-47 2/\n"),
    (["describe", "ascii"], b"1/0-3 2/20", STATISTICS),
    (["combine", "union", "ascii"], b"0/0 1/4-5;1/3-4 6-7 2/20 32", b"0/0-1 2/32\n"),
    (["combine", "intersection", "uniq"], b"4\n;16\n5\n", b"16\n"),
    (["combine", "difference", "json"], b'{"0":[0]};{"1":[3]};{"2":[]}', b'{"1":[0,1,2],"2":[]}\n'),
    (["combine", "intersection", "json"], b'{"0":[0]};{"1":[3]}; \t\r\n', b'{"1":[3]}\n'),
    (["combine", "symmetric", "ascii"], b"0/0-1 ; 0/1-2 ; 0/1", b"0/0-2\n"),
    (["draw", "ascii"], b"0/4 1/3 8/0-2", PICTURE),
    (["draw", "auto"], b'0/5 29/0\n;{"1":[16],"0":[5]}', PICTURE_OF_TWO),
    (["draw", "ascii"], b"0/4 1/3 8/0-2; \t\r\n", PICTURE),
    (["draw", "ascii", "A"], b"0/4 1/3 8/0-2", picture(ONE_MEANING, PICTURE_CELLS, ["A"])),
    (["draw", "ascii", "A", "B"], b"0/4 1/3 8/0-2", picture(ONE_MEANING, PICTURE_CELLS, ["A"])),
    (["draw", "ascii", "A"], b"0/5 29/0;1/16 0/5", picture(TWO_MEANING, CELLS_OF_TWO, ["A", "second only", "both"])),
    (["draw", "ascii", LONG_NAME, "B~ '"], b"0/5 29/0;1/16 0/5", NAMED_PICTURE),
    (["degrade", "1", "ascii"], b"0/0 3/300 5/", b"0/0 1/18\n"),
    (["degrade", "5", "ascii"], b"0/0 3/300 4/", b"0/0 3/300 4/\n"),
    (["degrade", "0", "json"], b'{"1":[5],"4":[]}', b'{"0":[1]}\n'),
    (["degrade", "1", "uniq"], b"16\n1088\n", b"16\n17\n"),
    (["complement", "ascii"], b"0/0-10 1/44 2/", b"1/45-47 2/\n"),
    (["check", "json"], b'{"0":[3]}', b"ok\n"),
    (["check", "auto"], b' {"0":[3]} ', b"ok\n"),
    (["complement", "json"], b'{"3":[]}', b'{"0":[0,1,2,3,4,5,6,7,8,9,10,11],"3":[]}\n'),
    (["complement", "uniq"], b"4\n5\n6\n7\n8\n9\n10\n11\n12\n13\n14\n61\n62\n63\n", b"60\n"),
    (["renumber", "nest", "ring", "1"], b"0\n3\n48\n\n\t18 \r\n1 2\n-1\n47", RING_ANSWERS),
    (["renumber", "uniq", "nest", "3"], b"266\n63\n3\n", b"10\nfault OtherOrder\nfault NotUniq\n"),
    (["renumber", "ring", "uniq", "1"], b"0\n27\n48", b"19\n34\nfault RingTooLarge\n"),
]
ONE_TEXT = b"note: only one text; a semicolon separates texts\n"
INCOMPLETE = b"note: the last line has no line feed; the text may be incomplete\n"
# Arguments, standard input, output and notes of runs that succeed with notes on standard error. Each allocation of these runs also fails
# in turn.
NOTED_INPUTS: list[tuple[Arguments, bytes, bytes, bytes]] = [
    (["check", "auto"], b"", b"ok\n", b"note: the input is empty\n"),
    (["check", "ascii"], b"1/0-3\n2/7", b"ok\n", INCOMPLETE),
    (["check", "uniq"], b"4\n5", b"ok\n", INCOMPLETE),
    (["combine", "union", "ascii"], b"0/3 1/2; \n", b"0/3 1/2\n", ONE_TEXT),
    (["combine", "union", "auto"], b'{"0":[3]}', b'{"0":[3]}\n', ONE_TEXT),
    (["combine", "union", "ascii"], b"", b"\n", ONE_TEXT + b"note: text 1 has no cells\n"),
    (["combine", "union", "ascii"], b"0/3;;0/1;,\n;", b"0/1 3\n", b"note: text 2 has no cells\n"),
    (["combine", "difference", "json"], b'{"0":[3]};{"0":[]};{}\n', b'{"0":[3]}\n', b"note: text 3 has no cells\n"),
]
# Invalid command lines, and a part of the error message.
INVALID_COMMAND_LINES: list[tuple[Arguments, bytes]] = [
    ([], b"subcommand"),
    (["ring", "30", "0"], b"30"),
    (["ring", "1"], b"CELL"),
    (["fly"], b"fly"),
    (["faults", "now"], b"now"),
    (["run", "now"], b"now"),
    (["play", "now"], b"now"),
    (["crew"], b"N"),
    (["crew", "0"], b"0"),
    (["crew", "65"], b"65"),
    (["convert", "ascii", "fits"], b"fits"),
    (["cell", "x"], b"x"),
    (["check"], b"FORM"),
    (["check", "fits"], b"fits"),
    (["describe", "ascii", "json"], b"json"),
    (["draw"], b"FORM"),
    (["draw", "ascii", "a", "b", "svg"], b"svg"),
    (["draw", "ascii", "W" * 41], b"error: a name is not 1 to 40 bytes of printable ASCII\n"),
    (["draw", "ascii", "A", ""], b"error: a name is not 1 to 40 bytes of printable ASCII\n"),
    (["draw", "ascii", "A", "\u00e9"], b"error: a name is not 1 to 40 bytes of printable ASCII\n"),
    (["draw", "ascii", "A\tB"], b"control character"),
    (["renumber", "nest", "ring"], b"ORDER"),
    (["renumber", "nest", "rang", "1"], b"rang"),
    (["renumber", "nest", "ring", "30"], b"30"),
    (["degrade", "ascii"], b"ascii"),
    (["degrade", "30", "ascii"], b"30"),
    (["complement"], b"FORM"),
    (["combine", "ascii"], b"ascii"),
    (["combine", "union"], b"FORM"),
    (["combine", "minus", "ascii"], b"minus"),
    (["\x1b[31mfly"], b"error: a word of the command line has a control character\n"),
    (["check", "ascii\n"], b"error: a word of the command line has a control character\n"),
    (["convert", "auto", "ascii"], b"auto"),
    (["convert", "ascii", "auto"], b"auto"),
]
# What to use, and the words that users type instead.
SUGGESTIONS = [
    ("'combine union'", ["union", "merge", "join"]),
    ("'combine intersection'", ["intersection", "intersect", "inter", "overlap"]),
    ("'combine difference'", ["difference", "diff", "subtract", "minus"]),
    ("'combine symmetric'", ["symmetric", "xor"]),
    ("'complement'", ["invert", "inverse"]),
    ("'degrade'", ["coarsen", "downgrade"]),
    ("'draw'", ["plot", "show"]),
    ("'describe'", ["info", "area", "stat", "stats", "summary"]),
    ("'check'", ["validate", "verify"]),
    ("'run'", ["script"]),
    ("'run' with the command 'count'", ["contains", "count"]),
    ("'run' with the command 'add'", ["add"]),
    ("'run' with the command 'remove'", ["remove"]),
    ("'run' with the command 'claim'", ["claim"]),
    ("'run' with the command 'read'", ["read"]),
    ("'near'", ["neighbours"]),
]
# Arguments that print help, and a part of the help.
HELP: list[tuple[Arguments, bytes]] = [
    (["--help"], b"Multi-Order Coverage maps (IVOA MOC 2.0) and HEALPix cell numbers"),
    (["-h"], b"Multi-Order Coverage maps (IVOA MOC 2.0) and HEALPix cell numbers"),
    (["help"], b"Multi-Order Coverage maps (IVOA MOC 2.0) and HEALPix cell numbers"),
    (["help", "ring"], b"Prints the ring number of a nested cell"),
    (["run", "--help"], b"Reads a script from standard input, one command per line"),
    (["play", "--help"], b"Reads a schedule from standard input, one step per line"),
    (["crew", "--help"], b"deals its lines that are not\nblank to N threads in turn"),
    (["ring", "--help"], b"Prints the ring number of a nested cell"),
    (["ring", "--help"], b"Order of the cell, 0 to 29"),
    (["help", "near"], b"Number of the cell in the nested scheme, below 12 times 4^ORDER"),
    (["near", "--help"], b"Prints the nested cells that share a corner point with a cell"),
    (["nest", "--help"], b"Ring number of the cell, from the north, below 12 times 4^ORDER"),
    (["cell", "--help"], b"NUNIQ number of the cell, which is 4^(ORDER+1) + CELL"),
    (["crew", "--help"], b"Number of threads, 1 to 64"),
    (["--help"], b"Coverages, from standard input:\n  convert "),
    (["faults"], b"  CellTooLarge     the order has no such cell"),
    (["help", "faults"], b"  TooLong          a text of more than 1 GiB; for `convert`, 16 MiB"),
    (["--version"], VERSION_LINE),
    (["-V"], VERSION_LINE),
    (["convert", "--help"], b"Converts a coverage from one text format to another"),
    (["check", "--help"], b"Validates a coverage, or reports the first error and its position"),
    (["describe", "--help"], b"Prints statistics of a coverage"),
    (["combine", "--help"], b"Prints a union, an intersection or a difference of coverages"),
    (["draw", "--help"], b"Draws one or two coverages as an SVG picture"),
    (["renumber", "--help"], b"Converts cell numbers from one numbering to another"),
]


# Subcommands that read an input, each with a valid one.
READERS: list[tuple[Arguments, bytes]] = [
    (["run"], SCRIPT), (["play"], SCHEDULE), (["crew", "2"], CREW_SCRIPT), (["convert", "ascii", "json"], b"2/0-3"),
    (["check", "ascii"], b"2/0-3\n"), (["describe", "ascii"], b"2/0-3"), (["combine", "union", "ascii"], b"2/0-3;0/1"),
    (["draw", "ascii"], b"2/0-3"), (["degrade", "1", "ascii"], b"2/0-3"), (["complement", "ascii"], b"2/0-3"),
    (["renumber", "nest", "ring", "1"], b"0"),
]
OUT_OF_MEMORY = (3, b"", b"fault Memory\n")
NO_THREAD = (3, b"", b"fault Spawn\n")
# The maximal number of runs of a crew in which each allocation fails, until each line was reported once.
MAX_CREW_RUNS = 20


def run(arguments: Arguments, standard_input: bytes = b"", **options: Any) -> Result:
    """Runs the program. Returns its exit status, its standard output and its standard error.

    Parameters
    ----------
    arguments : sequence of str or bytes
        The arguments.
    standard_input : bytes
        The standard input, if the options do not redirect it.
    **options
        Options of `subprocess.run`, for example redirections.
    """
    options = {"stdout": subprocess.PIPE, "stderr": subprocess.PIPE, **options}
    if "stdin" not in options:
        options["input"] = standard_input
    result = subprocess.run([MOC, *arguments], timeout=TIME_LIMIT, **options)
    return result.returncode, result.stdout, result.stderr


def check_command_lines(tally: Tally) -> None:
    """Checks errors of values and texts, help texts, and invalid command lines."""
    for arguments, standard_input, error in INVALID_INPUTS:
        tally.check_equal(f"{arguments} on {standard_input[:20]!r}", run(arguments, standard_input), (1, b"", b"fault " + error + b"\n"))
    for arguments, standard_input, output, notes in NOTED_INPUTS:
        tally.check_equal(f"{arguments} on {standard_input[:20]!r}", run(arguments, standard_input), (0, output, notes))
    for arguments, standard_input, output in VALID_INPUTS:
        tally.check_equal(f"{arguments} on {standard_input[:20]!r}", run(arguments, standard_input), (0, output, b""))
    for arguments, part in HELP:
        status, output, errors = run(arguments)
        tally.check((status, errors) == (0, b"") and part in output, f"{arguments}: {(status, output, errors)}")
    _, listed_errors, _ = run(["faults"])
    for _, _, error in INVALID_INPUTS:
        name = error.splitlines()[0]
        tally.check(b"  " + name in listed_errors, f"{name!r} is not in the list of errors: {listed_errors!r}")
    for arguments, part in INVALID_COMMAND_LINES:
        status, output, errors = run(arguments)
        tally.check((status, output) == (2, b"") and part in errors, f"{arguments}: {(status, output, errors)}")
    for subcommand, guesses in SUGGESTIONS:
        for guess in guesses:
            text = (f"error: unrecognized subcommand '{guess}'\n\n  tip: use {subcommand}\n\n"
                    "Usage: moc <COMMAND>\n\nFor more information, try '--help'.\n")
            for command_line in [[guess], [guess, "ascii"], ["help", guess]]:
                tally.check_equal(f"{command_line}", run(command_line), (2, b"", text.encode()))
    tally.check_equal("an argument that is not UTF-8", run([b"ring", b"1", b"\xff"]),
                      (2, b"", b"error: a word of the command line is not UTF-8\n"))


def check_crews(tally: Tally) -> None:
    """Checks the answers of crews.

    One lane answers like `run`, and prints the cover after the answers. Two lanes work on separate parts. Three lanes answer in either
    order."""
    scripts = [(SCRIPT, ANSWERS, b"cover 0/0-2\n"), (INVALID_LINES, INVALID_ANSWERS, b"cover\n"), (b"", b"", b"cover\n")]
    for script, answers, cover in scripts:
        tally.check_equal("a crew of one lane", run(["crew", "1"], script), (0, answers + cover, b""))
    for lanes in ["1", "2"]:
        tally.check_equal(f"a crew of {lanes} lanes", run(["crew", lanes], CREW_SCRIPT), (0, CREW_ANSWERS, b""))
    status, output, errors = run(["crew", "64"], CREW_SCRIPT)
    tally.check((status, errors) == (0, b"") and output.endswith(b"\ncover 0/0-1\n"), f"a crew of 64 lanes: {(status, output, errors)}")
    status, output, errors = run(["crew", "3"], CLAIMS)
    tally.check((status, errors) == (0, b"") and output in CLAIM_ANSWERS, f"a crew of three lanes: {(status, output, errors)}")


def check_limits(tally: Tally) -> None:
    """Checks inputs and lines of the maximal length, and numbers of many digits."""
    blanks = b" " * CONVERSION_LIMIT
    tally.check_equal("the longest text to convert", run(["convert", "ascii", "ascii"], blanks), (0, b"\n", b""))
    tally.check_equal("a longer text", run(["check", "ascii"], blanks + b" "), (0, b"ok\n", INCOMPLETE))
    tally.check_equal("longer texts, and many blanks", run(["combine", "union", "ascii"], blanks + b"0/1;" + blanks + b"0/0;0/2;" + blanks),
                      (0, b"0/0-2\n", b""))
    check_long_texts(tally)
    tally.check_equal("a million empty texts", run(["combine", "symmetric", "ascii"], b";" * LINE_LIMIT + b"0/3"),
                      (0, b"0/3\n", b"note: text 1 has no cells\n"))
    tally.check_equal("a million texts, and one without cells", run(["combine", "union", "ascii"], b"0/3;" * LINE_LIMIT + b"\n;0/3"),
                      (0, b"0/3\n", b"note: text 1048577 has no cells\n"))
    tally.check_equal("the longest line", run(["run"], b" " * LINE_LIMIT + b"\nread"), (0, b"cover\n", b""))
    lines = b"near 0 " + NINES + b"\nnear " + NINES + b" 0\nadd 0/" + NINES + b"\nadd " + NINES + b"/0\n"
    tally.check_equal("numbers of a thousand nines", run(["run"], lines),
                      (0, b"fault CellTooLarge\nfault OrderTooLarge\nfault CellTooLarge\nfault OrderTooLarge\n", b""))


def check_long_texts(tally: Tally) -> None:
    """Checks texts that are too long. They are files without blocks on the disk, which are read as bytes of value 0."""
    too_long = b"fault TooLong\n"
    for arguments, front, back, error in [
            (["check", "ascii"], b"", b"", too_long), (["describe", "uniq"], b"", b"", too_long), (["draw", "json"], b"", b"", too_long),
            (["combine", "union", "ascii"], b"0/0;", b"", too_long + b"text 2\n"),
            (["combine", "union", "ascii"], b"", b";0/12", too_long + b"text 1\n")]:
        with tempfile.TemporaryFile() as text:
            text.write(front)
            text.seek(INPUT_LIMIT + 1, os.SEEK_CUR)
            text.write(back)
            text.truncate()
            text.seek(0)
            tally.check_equal(f"{arguments} on a text that is too long", run(arguments, stdin=text), (1, b"", error))


def check_many_lines(tally: Tally) -> None:
    """Checks scripts of more than a million lines."""
    lines = 1_100_000
    command_lines: list[tuple[Arguments, bytes]] = [(["run"], b""), (["crew", "2"], b"cover\n")]
    for arguments, end in command_lines:
        status, output, errors = run(arguments, b"x\n" * lines)
        is_correct = (status, errors) == (0, b"") and output == b"fault UnknownWord\n" * lines + end
        tally.check(is_correct, f"{lines} lines of {arguments}: {(status, len(output), errors)}")


def check_failing_devices(tally: Tally) -> None:
    """Checks a full device as output, a folder as input, and a full device as standard error."""
    for arguments, standard_input in [*READERS, (["ring", "1", "18"], b""), (["--help"], b"")]:
        with open("/dev/full", "wb") as full:
            result = run(arguments, standard_input, stdout=full)
        tally.check_equal(f"{arguments} on a full device", result, (3, None, b"fault Write\n"))
    for arguments, _ in READERS:
        folder = os.open(TOP, os.O_RDONLY)
        result = run(arguments, stdin=folder)
        os.close(folder)
        tally.check_equal(f"{arguments} on a folder", result, (3, b"", b"fault Read\n"))
    command_lines: list[tuple[Arguments, int]] = [
        (["cell", "3"], 1), (["check", "uniq"], 1), (["ring", "30", "0"], 2), ([], 2), (["union"], 2), (["\x1b[31mfly"], 2),
        ([b"ring", b"1", b"\xff"], 2)]
    for arguments, status in command_lines:
        with open("/dev/full", "wb") as full:
            result = run(arguments, b"3", stderr=full)
        tally.check_equal(f"{arguments} with a full device as standard error", result, (status, b"", None))
    for arguments, standard_input, output, _ in NOTED_INPUTS:
        with open("/dev/full", "wb") as full:
            result = run(arguments, standard_input, stderr=full)
        tally.check_equal(f"{arguments} with a full device as standard error", result, (0, output, None))
        with open("/dev/full", "wb") as full:
            result = run(arguments, standard_input, stdout=full)
        tally.check_equal(f"{arguments} on a full device", result, (3, None, b"fault Write\n"))


def limit_file_size() -> None:
    """Limits the size of files that the process writes."""
    resource.setrlimit(resource.RLIMIT_FSIZE, (4096, 4096))


def check_file_limits(tally: Tally) -> None:
    """Checks an output file that exceeds its limit. The signal of the system ends the program; if it is ignored, the write fails."""
    for is_killed, expected in [(True, (-signal.SIGXFSZ, b"", 4096)), (False, (3, b"fault Write\n", 4096))]:
        with tempfile.TemporaryFile() as file:
            result = subprocess.run([MOC, "run"], input=b"read\n" * 1000, stdout=file, stderr=subprocess.PIPE, timeout=TIME_LIMIT,
                                    preexec_fn=limit_file_size, restore_signals=is_killed)
            size = os.fstat(file.fileno()).st_size
        actual = result.returncode, result.stderr, size
        tally.check_equal(f"a file limit with {'a' if is_killed else 'an ignored'} signal", actual, expected)


def read_line(pipe: IO[bytes], deadline: float) -> bytes:
    """Returns the next line of a pipe, or the part of it that arrives before the deadline."""
    line = b""
    while not line.endswith(b"\n"):
        ready, _, _ = select.select([pipe], [], [], max(0, deadline - time.monotonic()))
        byte = os.read(pipe.fileno(), 1) if ready else b""
        if not byte:
            break
        line += byte
    return line


def check_conversation(tally: Tally, arguments: Arguments, lines: Iterable[tuple[bytes, bytes]], end: bytes = b"") -> None:
    """Checks that the program answers each line before the next line is sent.

    Parameters
    ----------
    tally : Tally
        The counts of the checks.
    arguments : sequence of str or bytes
        The arguments of the program.
    lines : iterable of tuple of bytes
        The lines with their answers. A blank line has an empty answer.
    end : bytes
        The output at the end of the input.
    """
    with subprocess.Popen([MOC, *arguments], stdin=subprocess.PIPE, stdout=subprocess.PIPE) as process:
        standard_input, output = process.stdin, process.stdout
        assert standard_input is not None and output is not None
        deadline = time.monotonic() + TIME_LIMIT
        for line, answer in lines:
            standard_input.write(line)
            standard_input.flush()
            result = read_line(output, deadline) if answer else b""
            if not tally.check_equal(f"{arguments}: the answer to {line!r} before the next line", result, answer):
                process.kill()
                return
        standard_input.close()
        tally.check_equal(f"{arguments}: the end of a conversation", (output.read(), process.wait(TIME_LIMIT)), (end, 0))


def check_conversations(tally: Tally) -> None:
    """Checks that the program answers scripts, schedules and numbers line by line."""
    check_conversation(tally, ["run"], zip(CHANGES.splitlines(keepends=True), CHANGE_ANSWERS.splitlines(keepends=True)))
    answers = iter(SCHEDULE_ANSWERS.splitlines(keepends=True))
    steps = [(line, next(answers) if line.strip() else b"") for line in SCHEDULE.splitlines(keepends=True)]
    check_conversation(tally, ["play"], steps, SCHEDULE_END)
    numbers = [(b"0\n", b"13\n"), (b"\n", b""), (b" 3\t\n", b"0\n"), (b"48\n", b"fault CellTooLarge\n"), (b"1 1\n", b"fault WrongCount\n")]
    check_conversation(tally, ["renumber", "nest", "ring", "1"], numbers)


def prefixes(text: bytes) -> set[bytes]:
    """Returns the prefixes of a text that consist of whole lines."""
    lines = text.splitlines(keepends=True)
    return {b"".join(lines[:count]) for count in range(len(lines) + 1)}


class FailingAllocations:
    """Runs programs while one of their allocations fails.

    Parameters
    ----------
    tally : Tally
        The counts of the checks.
    folder : str
        A folder for the shim, which makes the allocation fail.
    """

    def __init__(self, tally: Tally, folder: str) -> None:
        self.tally = tally
        self.shim = os.path.join(folder, "fail_allocation.so")
        subprocess.run(["cc", "-O1", "-shared", "-fPIC", "-o", self.shim, os.path.join(TOP, "tests", "fail_allocation.c")], check=True)

    def run(self, command: Arguments, standard_input: bytes, allocation: int) -> tuple[Result, int]:
        """Runs a command while this allocation fails, counted from 1, or while none fails if it is 0.

        Returns the result and the number of allocations."""
        count = self.shim + ".count"
        environment = dict(os.environ, FAIL_ALLOCATION=str(allocation), ALLOCATION_COUNT=count, LD_PRELOAD=self.shim)
        result = subprocess.run(command, input=standard_input, capture_output=True, env=environment, timeout=TIME_LIMIT)
        with open(count, encoding="ascii") as file:
            return (result.returncode, result.stdout, result.stderr), int(file.read())

    def check(self, name: str, command: Arguments, standard_input: bytes, success: Result, failures: set[Result]) -> set[Result]:
        """Checks the results of a command while each of its allocations fails in turn.

        Parameters
        ----------
        name : str
            The name of the command.
        command : sequence of str or bytes
            The command.
        standard_input : bytes
            Its standard input.
        success : Result
            Its result if no allocation fails. Without a standard error, standard errors are not compared.
        failures : set of Result
            The results that are also possible if an allocation fails.

        Returns
        -------
        set of Result
            The results while allocations failed.
        """
        result, allocations = self.run(command, standard_input, 0)
        self.tally.check_equal(f"{name} with enough memory", result[:len(success)], success)
        results = set()
        for allocation in range(1, allocations + 1):
            result, _ = self.run(command, standard_input, allocation)
            compared = result[:len(success)]
            results.add(compared)
            self.tally.check(compared == success or compared in failures, f"{name} with failing allocation {allocation}: {result}")
        return results

    def check_failure(self, name: str, arguments: Arguments, standard_input: bytes, success: Result, failures: set[Result],
                      required: Optional[Result] = None) -> None:
        """Checks the results of the program as `check` does, and that one failure occurs: a required one, or any."""
        results = self.check(name, [MOC, *arguments], standard_input, success, failures)
        occurs = not results.isdisjoint(failures) if required is None else required in results
        self.tally.check(occurs, f"no failing allocation of {name} is reported: {results}")


def check_answers_without_memory(failing: FailingAllocations) -> None:
    """Checks subcommands that answer, while allocations fail: they write whole answers.

    `play` writes its last two lines both or not at all."""
    for arguments, standard_input, answers in VALID_INPUTS:
        failures: set[Result] = {(3, prefix, b"fault Memory\n") for prefix in prefixes(answers)}
        failing.check_failure(f"{arguments}", arguments, standard_input, (0, answers, b""), failures)
    for arguments, standard_input, output, notes in NOTED_INPUTS:
        failing.check_failure(f"{arguments}", arguments, standard_input, (0, output, notes), {OUT_OF_MEMORY}, OUT_OF_MEMORY)
    failures = {(3, prefix, b"fault Memory\n") for prefix in prefixes(SCHEDULE_ANSWERS)}
    failing.check_failure("play", ["play"], SCHEDULE, (0, SCHEDULE_ANSWERS + SCHEDULE_END, b""), failures)


def check_errors_without_memory(failing: FailingAllocations) -> None:
    """Checks subcommands that write everything or nothing, while allocations fail: crews, help, and the lines of an error."""
    failing.check_failure("crew", ["crew", "2"], CREW_SCRIPT, (0, CREW_ANSWERS, b""), {OUT_OF_MEMORY, NO_THREAD}, OUT_OF_MEMORY)
    error = (1, b"", b"fault CellTooLarge\norder 2, number 1: `192`" + cells(2) + b"\n")
    for subcommand in ["check", "describe", "draw", "complement"]:
        failing.check_failure(subcommand, [subcommand, "json"], b'{"10":[],"2":[0,192]}', error, {OUT_OF_MEMORY}, OUT_OF_MEMORY)
    error = (1, b"", b"fault CellTooLarge\ntext 2, order 2, number 1: `192`" + cells(2) + b"\n")
    texts = b'{"0":[0]};{"10":[],"2":[0,192]}'
    failing.check_failure("combine", ["combine", "union", "json"], texts, error, {OUT_OF_MEMORY}, OUT_OF_MEMORY)
    _, text, _ = run(["--help"])
    failing.check_failure("--help", ["--help"], b"", (0, text, b""), {OUT_OF_MEMORY}, OUT_OF_MEMORY)


def refusals_command(work: str) -> list[str]:
    """Returns the command that runs a work of the program `refusals`. Builds the program if CI has not built it."""
    folder = os.path.join(TOP, "crates", "refusals")
    program = os.path.join(folder, "out", "refusals")
    if not os.path.exists(program):
        subprocess.run(["rt", "run"], cwd=folder, stdin=subprocess.DEVNULL, capture_output=True, check=True)
    return [program, work]


def check_map_without_memory(failing: FailingAllocations) -> None:
    """Checks that a failing allocation leaves the twelve parts of a map unchanged, or occurs before there is a map."""
    unchanged, no_map = (0, b"unchanged\n"), (1, b"")
    results = failing.check("an inversion", refusals_command("inversion"), b"", (0, b"inverted\n"), {unchanged, no_map})
    failing.tally.check(unchanged in results, f"no failing allocation leaves a map unchanged: {results}")


def check_script_lines(failing: FailingAllocations) -> None:
    """Checks the line at which a script runs out of memory: 0 before the first line is read, else the line after the written answers.

    The first two lines of the script are blank, and the script answers the other four."""
    end = (0, b"the end behind 4 answers\n")
    failures = [(0, b"out of memory at line %d behind %d answers\n" % (line, max(0, line - 3))) for line in range(7)]
    results = failing.check("a script", refusals_command("script"), b"", end, {*failures, (1, b"")})
    for line in [0, 1, 3, 4, 5]:
        failing.tally.check(failures[line] in results, f"no allocation of a script fails at line {line}: {results}")


def check_crew_lines(failing: FailingAllocations) -> None:
    """Checks the line at which a crew runs out of memory, or that it cannot start a thread. In both cases the crew writes nothing.

    The third line of the script is blank, and two lanes answer the other four; 6 is after all five. The lane that runs out of memory is
    random, so the allocations fail again until each line was reported once."""
    end = (0, b"the end behind 5 lines\n")
    no_thread = (0, b"a thread could not be started behind 0 lines\n")
    failures = [(0, b"out of memory at line %d behind 0 lines\n" % line) for line in range(7)]
    lines = [0, 1, 2, 4, 5, 6]
    results: set[Result] = set()
    for _ in range(MAX_CREW_RUNS):
        results |= failing.check("a crew", refusals_command("crew"), b"", end, {*failures, no_thread, (1, b"")})
        if all(failures[line] in results for line in lines):
            break
    for line in lines:
        failing.tally.check(failures[line] in results, f"no allocation of a crew fails at line {line}: {results}")


def check_shared_calls(failing: FailingAllocations) -> None:
    """Checks that a call of a shared map that fails changes nothing, and that all other calls succeed.

    A run with exit status 1 failed outside the calls, after some of them."""
    def report(failed: Optional[bytes]) -> bytes:
        return b"".join(b"%s: %s\n" % (call, b"refused" if call == failed else b"done") for call in CALLS)

    success = report(None)
    failures: dict[bytes, Result] = {call: (0, report(call)) for call in CALLS}
    others: set[Result] = {(1, prefix) for prefix in prefixes(success)}
    results = failing.check("shared calls", refusals_command("calls"), b"", (0, success), {*failures.values(), *others})
    for call, failure in failures.items():
        failing.tally.check(failure in results, f"no allocation of {call!r} fails: {results}")


def check_calls_without_allocations(failing: FailingAllocations) -> None:
    """Checks that some calls allocate nothing: thirty rounds of them make as many allocations as one round."""
    counts = {}
    for work in ["once", "often"]:
        result, counts[work] = failing.run(refusals_command(work), b"", 0)
        failing.tally.check_equal(f"the work {work}", result[:2], (0, b"steady\n"))
    failing.tally.check(counts["once"] == counts["often"] > 0, f"the numbers of allocations differ: {counts}")


def check_closed_pipes(tally: Tally) -> None:
    """Checks that the program reports an error if the reader of its output has closed the pipe, and that no signal ends it."""
    for arguments, standard_input in [*READERS, (["ring", "1", "18"], b""), (["faults"], b""), (["--help"], b"")]:
        to_read, to_write = os.pipe()
        os.close(to_read)
        result = run(arguments, standard_input, stdout=to_write)
        os.close(to_write)
        tally.check_equal(f"{arguments} with a closed pipe", result, (3, None, b"fault Write\n"))


def check_slow_readers(tally: Tally) -> None:
    """Checks that the program reads no more lines while the pipe of its output is full, and writes all answers later."""
    lines = 200_000
    with subprocess.Popen([MOC, "run"], stdin=subprocess.PIPE, stdout=subprocess.PIPE) as process:
        standard_input = process.stdin
        assert standard_input is not None
        os.set_blocking(standard_input.fileno(), False)
        script = b"count 0/0\n" * lines
        sent, idle = 0, 0
        while idle < 20 and sent < len(script):
            try:
                count = os.write(standard_input.fileno(), script[sent:sent + 65_536])
            except BlockingIOError:
                count = 0
                time.sleep(0.05)
            sent, idle = sent + count, 0 if count else idle + 1
        tally.check(sent < len(script), "a program whose answers are not read reads all lines")
        os.set_blocking(standard_input.fileno(), True)
        answers, _ = process.communicate(script[sent:], timeout=TIME_LIMIT)
        tally.check((answers, process.returncode) == (b"total 0\n" * lines, 0), f"a slow reader gets {len(answers)} bytes")


def compile_shim(folder: str, name: str, source: str) -> str:
    """Compiles a shared library from a source in C, and returns its path."""
    path, shim = os.path.join(folder, f"{name}.c"), os.path.join(folder, f"{name}.so")
    with open(path, "w", encoding="utf-8") as file:
        file.write(source)
    subprocess.run(["cc", "-shared", "-fPIC", "-o", shim, path], check=True)
    return shim


def check_failing_threads(tally: Tally, folder: str) -> None:
    """Checks that a crew reports an error and writes nothing if it cannot start a thread. A single lane starts no thread."""
    shim = compile_shim(folder, "threads", "int pthread_create(void *thread, const void *kind, void *(*work)(void *), void *argument)\n"
                                           "{\n    return 11;\n}\n")
    tally.check_equal("a crew without threads", run(["crew", "2"], CREW_SCRIPT, env=dict(os.environ, LD_PRELOAD=shim)), NO_THREAD)
    without = run(["crew", "1"], CREW_SCRIPT, env=dict(os.environ, LD_PRELOAD=shim))
    tally.check_equal("a single lane without threads", without, run(["crew", "1"], CREW_SCRIPT))
    tally.check_equal("the status of a single lane without threads", without[0], 0)


def limit_address_space() -> None:
    """Limits the address space of the process to 96 MiB."""
    resource.setrlimit(resource.RLIMIT_AS, (96 << 20, 96 << 20))


def check_crews_that_stop(tally: Tally, folder: str, shim: str) -> None:
    """Checks that the lanes of a crew stop before their next line as soon as a thread or an allocation fails."""
    second = compile_shim(folder, "second", """#define _GNU_SOURCE
#include <dlfcn.h>
#include <pthread.h>
int pthread_create(pthread_t *thread, const pthread_attr_t *kind, void *(*work)(void *), void *argument)
{
    static int calls;
    int (*create)(pthread_t *, const pthread_attr_t *, void *(*)(void *), void *) = dlsym(RTLD_NEXT, "pthread_create");
    return calls++ ? 11 : create(thread, kind, work, argument);
}
""")
    crews: list[tuple[str, set[Result], Callable[[], Result]]] = [
        ("a crew without its second thread", {NO_THREAD},
         lambda: run(["crew", "2"], INVERSIONS, env=dict(os.environ, LD_PRELOAD=second))),
        ("a crew with a failing allocation", {OUT_OF_MEMORY},
         lambda: run(["crew", "2"], INVERSIONS, env=dict(os.environ, FAIL_ALLOCATION="2000", LD_PRELOAD=shim))),
        ("a crew in a small address space", {OUT_OF_MEMORY, NO_THREAD},
         lambda: run(["crew", "64"], INVERSIONS, preexec_fn=limit_address_space))]
    for name, expected, run_crew in crews:
        result: object
        try:
            result = run_crew()
        except subprocess.TimeoutExpired as timeout:
            result = timeout
        tally.check(result in expected, f"{name} does not stop soon: {result}")


def main() -> int:
    """Runs all checks."""
    tally = Tally()
    check_command_lines(tally)
    check_crews(tally)
    check_limits(tally)
    check_many_lines(tally)
    check_failing_devices(tally)
    check_file_limits(tally)
    with tempfile.TemporaryDirectory() as folder:
        failing = FailingAllocations(tally, folder)
        check_answers_without_memory(failing)
        check_errors_without_memory(failing)
        check_map_without_memory(failing)
        check_script_lines(failing)
        check_crew_lines(failing)
        check_shared_calls(failing)
        check_calls_without_allocations(failing)
        check_failing_threads(tally, folder)
        check_crews_that_stop(tally, folder, failing.shim)
    check_conversations(tally)
    check_closed_pipes(tally)
    check_slow_readers(tally)
    return tally.finish()


if __name__ == "__main__":
    sys.exit(main())
