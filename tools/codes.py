#!/usr/bin/env python3
"""Makes the tables of result codes of the library for C and Python from `crates/moc_c/include/codes.tsv`.

usage: tools/codes.py [--write]

The tables are the constants in `ploverchaise.h`, between the two lines that enclose them, `crates/moc_c/src/codes.rt` and
`python/ploverchaise/_codes.py`. Without `--write` the tool prints the files. `tests/texts.py` compares them in CI."""
from __future__ import annotations

import os
import sys
from typing import NamedTuple

from generated import read, write_or_print

TABLE = os.path.join("crates", "moc_c", "include", "codes.tsv")
HEADER = os.path.join("crates", "moc_c", "include", "ploverchaise.h")
CONSTANTS = os.path.join("crates", "moc_c", "src", "codes.rt")
PYTHON = os.path.join("python", "ploverchaise", "_codes.py")
# The lines of the header between which the constants are.
BEGIN, END = "/* Codes: made by tools/codes.py from codes.tsv. */\n", "/* End of the codes. */\n"
# The codes of errors in the arguments of a call, which only the guards in C return.
GUARD_CODES = frozenset(["NULL", "MISALIGNED", "OVERLAP"])
# The meanings of codes in Python that differ from those in C, where an order is not negative.
PYTHON_MEANINGS = {"NO_SUCH_ORDER": "the order is not 0 to 29"}


class Code(NamedTuple):
    """A code, or the heading of a group of codes.

    Attributes
    ----------
    number : int
        The code.
    name : str
        The name for C and Rattle. It is empty if this is a heading.
    python_name : str
        The name of the error in Python, or an empty text if Python has no such error.
    numbers : list of tuple of str
        The numbers of the result: for each its word, and its description, which may be empty.
    meaning : str
        The meaning, or the text of the heading.
    """

    number: int
    name: str
    python_name: str
    numbers: list[tuple[str, str]]
    meaning: str


def parse_numbers(field: str) -> list[tuple[str, str]]:
    """Returns the words of the numbers of a code, with their descriptions."""
    if field == "-":
        return []
    if ":" not in field:
        return [(word.strip(), "") for word in field.split(",")]
    return [(word.strip(), text.strip()) for word, _, text in (part.partition(":") for part in field.split(";"))]


def read_codes() -> list[Code]:
    """Returns the codes and headings of the table."""
    codes = []
    for line in read(TABLE).splitlines():
        if line.startswith("## "):
            codes.append(Code(0, "", "", [], line.removeprefix("## ")))
        elif not line.startswith("#"):
            number, name, python_name, numbers, meaning = line.split("\t")
            codes.append(Code(int(number), name, python_name, parse_numbers(numbers), meaning))
    return codes


def header_comment(code: Code) -> str:
    """Returns the comment of a code in the header: its meaning, and its numbers if the heading of its group does not describe them."""
    parts = [code.meaning]
    parts += [f"{place}: {text}" for place, (_, text) in zip(("first", "second"), code.numbers) if text]
    return "; ".join(parts)


def header_table(codes: list[Code]) -> str:
    """Returns the constants of the header."""
    lines = ["enum {"]
    for code in codes:
        if not code.name:
            lines += ["", f"    /* {code.meaning} */"]
        else:
            lines += [f"    /* {header_comment(code)} */", f"    MOC_{code.name} = {code.number},"]
    return "\n".join([*lines, "};", ""]).replace(",\n};", "\n};")


def rattle_table(codes: list[Code]) -> str:
    """Returns the module of constants of `moc_c`."""
    lines = ["//! The codes of results, named as in `ploverchaise.h`. Made by `tools/codes.py` from `include/codes.tsv`."]
    for code in codes:
        if code.name and code.name not in GUARD_CODES:
            lines += ["", f"/// The code if {code.meaning}." if code.number else "/// The code of success.",
                      f"pub(crate) const {code.name}: u32 = {code.number};"]
    return "\n".join([*lines, ""])


def python_table(codes: list[Code]) -> str:
    """Returns the module of the Python package."""
    lines = ['"""The codes of results. Made by `tools/codes.py` from `crates/moc_c/include/codes.tsv`."""',
             "from __future__ import annotations", "", "from typing import NamedTuple", "", "", "class Kind(NamedTuple):",
             '    """A kind of error: its name, its meaning, and what the numbers of its position count."""', "", "    name: str",
             "    meaning: str", "    place: tuple[str, ...] = ()", "", ""]
    lines += [f"{code.name} = {code.number}" for code in codes if code.name]
    lines += ["", "# The kinds of errors by their codes. An allocation failure is Python's MemoryError.", "KINDS = {"]
    for code in codes:
        if code.python_name:
            words = "".join(f'"{word}", ' for word, _ in code.numbers).rstrip()
            words = words.rstrip(",") if len(code.numbers) > 1 else words
            place = f", ({words})" if words else ""
            meaning = PYTHON_MEANINGS.get(code.name, code.meaning)
            lines.append(f'    {code.name}: Kind("{code.python_name}", "{meaning}"{place}),')
    return "\n".join([*lines, "}", ""])


def generated_files() -> dict[str, str]:
    """Returns the text of each file that has a table."""
    codes = read_codes()
    before, _, rest = read(HEADER).partition(BEGIN)
    after = rest.partition(END)[2]
    if not after:
        raise ValueError(f"{HEADER}: the lines that enclose the codes are missing")
    return {HEADER: before + BEGIN + header_table(codes) + END + after, CONSTANTS: rattle_table(codes), PYTHON: python_table(codes)}


def main() -> int:
    """Prints or writes the tables."""
    return write_or_print("Makes the tables of result codes.", generated_files, list)


if __name__ == "__main__":
    sys.exit(main())
