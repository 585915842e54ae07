#!/usr/bin/env python3
"""Makes the paragraph of docs/ASSURANCE.md that has the size of the proof base.

usage: tools/sizes.py [--write]

The numbers are those of the crates of the product, so without the crates of tests, examples and benchmarks. Lines include comments, and are
rounded to thousands; mutants are rounded to tens. Without `--write` the tool prints the page. `tests/texts.py` compares it in CI."""
from __future__ import annotations

import glob
import os
import re
import sys

from crates import read_crates
from generated import TOP, read, write_or_print

PAGE = os.path.join("docs", "ASSURANCE.md")
# The lines of the page between which the paragraph is.
BEGIN, END = "<!-- sizes, made by tools/sizes.py -->\n", "<!-- end of sizes -->\n"
EXCEPTIONS = os.path.join("tests", "functions_without_mutant.txt")
# The crate of the benchmarks.
BENCHMARKS = "moc_bench"


def files_of(folder: str, *suffixes: str) -> list[str]:
    """Returns the files below this folder of each crate of the product that have one of the suffixes."""
    crates = [name for name in read_crates() if name.startswith("moc_") and name != BENCHMARKS]
    names = [name for crate in crates for name in glob.glob(os.path.join(TOP, "crates", crate, folder, "**", "*"), recursive=True)]
    return [os.path.relpath(name, TOP) for name in sorted(names) if name.endswith(suffixes)]


def line_count(names: list[str]) -> str:
    """Returns the number of lines of files, rounded to thousands."""
    return f"{round(sum(read(name).count(chr(10)) for name in names), -3):,}"


def paragraph() -> str:
    """Returns the paragraph."""
    sources, definitions = files_of("src", ".rt"), files_of("specs", ".antt")
    public = [name for name in definitions if f"{os.sep}Private" not in name and f"{os.sep}Lemmas" not in name]
    mutants = round(len(files_of("mutants", ".edit")), -1)
    exceptions = len([line for line in read(EXCEPTIONS).splitlines() if line and not line.startswith("#")])
    code = "\n".join(read(name) for name in sources)
    expressions, implementations = len(re.findall(r"\bunsafe \{", code)), len(re.findall(r"\bunsafe impl ", code))
    return (f"The crates of the product have {line_count(sources)} lines in `src`, {line_count(definitions)} in `specs` and\n"
            f"{line_count(files_of('proofs', '.antt'))} in `proofs`, with comments. Of `specs`, {line_count(public)} lines are public\n"
            f"([DEFINITIONS](DEFINITIONS.md)). CI tries some {mutants:,} mutants; {exceptions} public functions have none of their own\n"
            f"([GATE](GATE.md#mutants-and-tests-of-each-crate)). `unsafe` is used in {expressions} expressions and {implementations}\n"
            "implementations of `Send`; proofs cover it.\n")


def make_files() -> dict[str, str]:
    """Returns the page with the paragraph."""
    before, _, rest = read(PAGE).partition(BEGIN)
    return {PAGE: before + BEGIN + paragraph() + END + rest.partition(END)[2]}


def find_failures() -> list[str]:
    """Returns what keeps the tool from writing the page."""
    page = read(PAGE)
    is_marked = page.count(BEGIN) == 1 and page.count(END) == 1 and page.index(BEGIN) < page.index(END)
    return [] if is_marked else [f"{PAGE}: the paragraph is not between its two lines"]


def main() -> int:
    """Prints or writes the page."""
    return write_or_print("Makes the size of the proof base in docs/ASSURANCE.md.", make_files, find_failures)


if __name__ == "__main__":
    sys.exit(main())
