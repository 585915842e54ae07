#!/usr/bin/env python3
"""Times scripts with `moc crew`.

usage: bench/crews.py [REPEATS]

Compares lanes on separate parts with one lane, and with the same number of processes that share nothing. Also compares one lane with
`moc run`, on the same lines, on ten times the number of lines, and on no line. Runs the variants in turn. Prints the minimum and the median
of the times of each variant in milliseconds."""
from __future__ import annotations

import os
import random
import statistics
import subprocess
import sys
import tempfile
import time
from collections.abc import Iterable

TOP = os.path.dirname(os.path.dirname(os.path.abspath(__file__)))
MOC = os.environ.get("MOC", os.path.join(TOP, "crates", "moc_cli", "out", "moc_cli"))
LINES = 60_000
LARGE_LINES = 2_000
MAX_LANES = 64
PARTS = 12

# The arguments of the program, and the file of its standard input.
Run = tuple[list[str], str]
# The name of a variant, and the runs that it does at the same time.
Variant = tuple[str, list[Run]]


def small_line(part: int, rng: random.Random) -> str:
    """Returns an add or a count of one cell of order 5 in a base pixel."""
    return f"{rng.choice(['add', 'count'])} 5/{part * 1024 + rng.randrange(1024)}\n"


def large_line(rng: random.Random) -> str:
    """Returns an add or a count of three hundred cells of order 9."""
    cells = " ".join(str(rng.randrange(12 << 18)) for _ in range(300))
    return f"{rng.choice(['add', 'count'])} 9/{cells}\n"


def write_script(folder: str, name: str, lines: Iterable[str]) -> str:
    """Writes a script into a folder, and returns its path."""
    path = os.path.join(folder, name)
    with open(path, "w", encoding="ascii") as file:
        file.writelines(lines)
    return path


def time_runs(runs: list[Run]) -> float:
    """Returns the seconds of these runs of the program, which start at the same time."""
    start = time.monotonic()
    processes = []
    for arguments, path in runs:
        with open(path, "rb") as file:
            processes.append(subprocess.Popen([MOC, *arguments], stdin=file, stdout=subprocess.DEVNULL))
    for process in processes:
        if process.wait() != 0:
            raise SystemExit("the program failed")
    return time.monotonic() - start


def make_variants(folder: str) -> list[Variant]:
    """Writes the scripts of all variants, and returns the variants."""
    rng = random.Random(21)
    processors = os.cpu_count() or 1
    one = write_script(folder, "one", [small_line(0, rng) for _ in range(LINES)])
    ten = write_script(folder, "ten", [small_line(0, rng) for _ in range(10 * LINES)])
    none = write_script(folder, "none", [])
    variants: list[Variant] = [
        ("crew 1 on one part", [(["crew", "1"], one)]), ("run on the same lines", [(["run"], one)]),
        ("crew 1 on ten times the lines", [(["crew", "1"], ten)]), ("run on the same lines, ten times", [(["run"], ten)]),
        ("crew 1 on no line", [(["crew", "1"], none)]), ("run on no line", [(["run"], none)])]
    for lanes in sorted({2, processors}):
        path = write_script(folder, f"small{lanes}", [small_line(number % lanes, rng) for number in range(lanes * LINES)])
        variants.append((f"crew {lanes}, the same lines per lane", [(["crew", str(lanes)], path)]))
        variants.append((f"{lanes} processes of crew 1", [(["crew", "1"], one)] * lanes))
    many = write_script(folder, "many", [small_line(number % PARTS, rng) for number in range(processors * LINES)])
    variants.append((f"crew {MAX_LANES}, the same lines in total", [(["crew", str(MAX_LANES)], many)]))
    large = write_script(folder, "large", [large_line(rng) for _ in range(LARGE_LINES)])
    return [*variants, ("crew 1 on large lines", [(["crew", "1"], large)]), ("run on the same large lines", [(["run"], large)])]


def main() -> None:
    """Times all variants in turn, and prints their times."""
    repeats = int(sys.argv[1]) if len(sys.argv) > 1 else 15
    with tempfile.TemporaryDirectory() as folder:
        variants = make_variants(folder)
        times: dict[str, list[float]] = {name: [] for name, _ in variants}
        for _ in range(repeats):
            for name, runs in variants:
                times[name].append(time_runs(runs))
    for name, seconds in times.items():
        print(f"{name:36} {1000 * min(seconds):7.1f} {1000 * statistics.median(seconds):7.1f}")


if __name__ == "__main__":
    main()
