#!/usr/bin/env python3
"""Times hostile texts of 4, 8 and 16 MiB with `moc convert`, and measures the memory that the program uses.

usage: bench/sizes.py [PROGRAM]

Prints a table. A row has a kind of text, the result, and for each size the minimal processor time of three runs in seconds and the maximal
memory in MiB. The memory includes the text, because the program reads the whole text first."""
from __future__ import annotations

import os
import random
import subprocess
import sys
import tempfile
from collections.abc import Callable, Iterable, Iterator
from typing import NamedTuple

TOP = os.path.dirname(os.path.dirname(os.path.abspath(__file__)))
MOC = sys.argv[1] if len(sys.argv) > 1 else os.path.join(TOP, "crates", "moc_cli", "out", "moc_cli")
MIB = 1 << 20
SIZES = [4, 8, 16]
RUNS = 3


class Kind(NamedTuple):
    """A kind of text.

    Attributes
    ----------
    name : str
        Its name in the table.
    text_format : str
        The format of the text.
    make : callable
        Returns a text of at most this number of bytes.
    """

    name: str
    text_format: str
    make: Callable[[int], bytes]


class Measurement(NamedTuple):
    """The processor time of a run in seconds, its maximal memory in MiB, and its result."""

    seconds: float
    memory: float
    result: str


def repeat(start: bytes, unit: bytes, end: bytes, size: int) -> bytes:
    """Returns a text of this size: a start, repetitions of a unit, and an end."""
    count = (size - len(start) - len(end)) // len(unit)
    return start + unit * count + end


def join(start: bytes, words: Iterable[bytes], separator: bytes, end: bytes, size: int) -> bytes:
    """Returns a text of at most this size: a start, as many words as fit, and an end."""
    parts, free = [], size - len(start) - len(end)
    for word in words:
        free -= len(word) + len(separator)
        if free < 0:
            break
        parts.append(word)
    return start + separator.join(parts) + end


def random_cells(order: int, first: int = 0) -> Iterator[bytes]:
    """Returns random cells of an order, the same each time, plus a number."""
    rng = random.Random(1)
    while True:
        yield b"%d" % (first + rng.randrange(12 << 2 * order))


def names_without_order() -> Iterator[bytes]:
    """Returns different names of an object that are not orders."""
    return (b'"%07d":[]' % number for number in range(1_000_000, 10_000_000))


def names_of_orders() -> Iterator[bytes]:
    """Returns different names of an object that are orders, with leading zeros."""
    return (b'"%s%d":[]' % (b"0" * zeros, order) for zeros in range(1, 5_000) for order in range(10, 30))


KINDS = [
    Kind("digits of one number", "ascii", lambda size: repeat(b"0/", b"0", b"5", size)),
    Kind("separators", "ascii", lambda size: repeat(b"", b" ", b"", size)),
    Kind("one cell, repeated", "ascii", lambda size: repeat(b"0/0", b" 0", b"", size)),
    Kind("cells of order 29 in random order", "ascii", lambda size: join(b"29/", random_cells(29), b" ", b"", size)),
    Kind("cells of order 8 in random order", "ascii", lambda size: join(b"8/", random_cells(8), b" ", b"", size)),
    Kind("NUNIQ numbers of order 29 in random order", "uniq", lambda size: join(b"", random_cells(29, 4 << 58), b"\n", b"\n", size)),
    Kind("`[`", "json", lambda size: repeat(b"", b"[", b"", size)),
    Kind("names that are not orders", "json", lambda size: join(b"{", names_without_order(), b",", b"}", size)),
    Kind("names that are orders", "json", lambda size: join(b"{", names_of_orders(), b",", b"}", size)),
    Kind("cells of order 29 in random order", "json", lambda size: join(b'{"29":[', random_cells(29), b",", b"]}", size)),
]


def write_text(path: str, make: Callable[[int], bytes], size: int) -> None:
    """Writes a text in a separate process, because the maximal memory of a child process is at least that of its parent."""
    writer = os.fork()
    if writer == 0:
        with open(path, "wb") as file:
            file.write(make(size))
        os._exit(0)
    os.waitpid(writer, 0)


def measure(text_format: str, path: str) -> Measurement:
    """Runs the program once, and measures it."""
    with open(path, "rb") as file, tempfile.TemporaryFile() as errors:
        process = subprocess.Popen([MOC, "convert", text_format, "uniq"], stdin=file, stdout=subprocess.DEVNULL, stderr=errors)
        _, status, usage = os.wait4(process.pid, 0)
        process.returncode = os.waitstatus_to_exitcode(status)
        errors.seek(0)
        error = errors.read().decode().strip()
    return Measurement(usage.ru_utime + usage.ru_stime, usage.ru_maxrss / 1024, error or "read")


def main() -> None:
    """Prints the table."""
    print("| Text | Format | Result |" + "".join(f" {size} MiB: s, memory |" for size in SIZES))
    print("|---|---|---|" + "---|" * len(SIZES))
    for kind in KINDS:
        columns, result = [], ""
        for size in SIZES:
            with tempfile.NamedTemporaryFile() as file:
                write_text(file.name, kind.make, size * MIB)
                runs = [measure(kind.text_format, file.name) for _ in range(RUNS)]
            result = runs[0].result
            columns.append(f" {min(run.seconds for run in runs):.3f}, {max(run.memory for run in runs):.0f} |")
        print(f"| {kind.name} | {kind.text_format} | {result} |" + "".join(columns), flush=True)


if __name__ == "__main__":
    main()
