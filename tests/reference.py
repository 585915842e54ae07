#!/usr/bin/env python3
"""Compares the pages in docs/reference with the sources.

The pages have to be the output of tools/reference.py. Each crate of the product that has a library needs a page, except those of
WITHOUT_PAGE. Each name that the root file of a crate exports has one entry on the page of the crate, and each public method of an exported
type has one heading. The script finds the names and methods without the parser of tools/reference.py.

usage: tests/reference.py

The last line is `N passed, M failed`."""
from __future__ import annotations

import collections
import difflib
import glob
import itertools
import os
import re
import subprocess
import sys
from collections.abc import Iterator

from tally import Tally

TOP = os.path.dirname(os.path.dirname(os.path.abspath(__file__)))
sys.path.insert(0, os.path.join(TOP, "tools"))
from generated import read  # noqa: E402

FOLDER = os.path.join("docs", "reference")
TOOL = os.path.join("tools", "reference.py")
# Crates without a page: three that only other crates of the project call, the one for C, which docs/C.md describes, and the program.
WITHOUT_PAGE = ("moc_blocks", "moc_lists", "moc_operations", "moc_c", "moc_cli")
# The most differing lines of a page that are printed.
MAX_DIFFERENCES = 20
# The line before a page in the output of the tool.
PAGE_LINE = re.compile(r"^=== (\S+)\n", re.MULTILINE)
# What a file exports again, as one text.
EXPORT = re.compile(r"^pub use (.*?);", re.MULTILINE | re.DOTALL)
# The heading of an item, the heading of a method, and a link to an item of another page.
ITEM = re.compile(r"^## \w+ `(\w+)`$", re.MULTILINE)
METHOD = re.compile(r"^### `(\w+::\w+)`$", re.MULTILINE)
OTHER_ITEM = re.compile(r"\[`(\w+)`\]\(\w+\.md#[\w-]+\)")
# The first line of the methods of a type, and a public method.
METHODS_OF = re.compile(r"^impl(?:<[^>]*>)? (\w+)(?:<[^>]*>)? \{$")
PUBLIC_METHOD = re.compile(r"^ {4}pub (?:const )?fn (\w+)")


def crates() -> list[str]:
    """Returns the crates of the product that export something, except those without a page."""
    names = [line.split(":")[0].split()[0] for line in read("crates.txt").splitlines() if line.startswith("moc_")]
    return [name for name in names if name not in WITHOUT_PAGE and exported_names(name)]


def exported_names(crate: str) -> list[str]:
    """Returns the names that a crate exports."""
    names = []
    for path in EXPORT.findall(read(f"crates/{crate}/src/lib.rt") or read(f"crates/{crate}/src/main.rt")):
        names += re.findall(r"\w+", path.partition("{")[2]) if "{" in path else [path.split("::")[-1]]
    return names


def public_methods(crate: str) -> Iterator[str]:
    """Yields each public method of a crate, with its type."""
    for path in sorted(glob.glob(f"crates/{crate}/src/**/*.rt", root_dir=TOP, recursive=True)):
        owner = ""
        for line in read(path).splitlines():
            begins, method = METHODS_OF.match(line), PUBLIC_METHOD.match(line)
            if not line.startswith((" ", "}")) and line:
                owner = begins[1] if begins else ""
            elif owner and method:
                yield f"{owner}::{method[1]}"


def compare_pages(tally: Tally) -> None:
    """Compares the pages with the output of the tool."""
    tool = subprocess.run([sys.executable, os.path.join(TOP, TOOL)], capture_output=True, encoding="utf-8",
                          env={**os.environ, "PYTHONIOENCODING": "utf-8"})
    tally.check(tool.returncode == 0, f"{TOOL} fails:\n{tool.stderr}")
    parts = PAGE_LINE.split(tool.stdout)
    pages = dict(zip(parts[1::2], parts[2::2]))
    for path, text in pages.items():
        difference = list(itertools.islice(
            difflib.unified_diff(read(path).splitlines(), text.splitlines(), path, TOOL, lineterm="", n=0), MAX_DIFFERENCES))
        tally.check(read(path) == text, "\n".join([*difference, f"{path} is out of date; run {TOOL} --write"]))
    files = set(glob.glob(f"{FOLDER}/*", root_dir=TOP))
    tally.check(files == set(pages), f"{FOLDER}: files that {TOOL} does not write, or that are missing: {sorted(files ^ set(pages))}")
    expected = {os.path.join(FOLDER, f"{crate}.md") for crate in crates()} | {os.path.join(FOLDER, "README.md")}
    tally.check(set(pages) == expected, f"{TOOL}: crates without a page, or pages without a crate: {sorted(expected ^ set(pages))}")


def main() -> int:
    """Checks the pages."""
    tally = Tally()
    compare_pages(tally)
    methods = 0
    for crate in crates():
        path = os.path.join(FOLDER, f"{crate}.md")
        page = read(path)
        names = exported_names(crate)
        items = collections.Counter(ITEM.findall(page))
        others = set(OTHER_ITEM.findall(page.partition("## Items of other crates\n")[2]))
        for name in names:
            tally.check(items[name] + (name in others) == 1, f"{path} has {items[name] + (name in others)} entries for {name}")
        tally.check(set(items) <= set(names), f"{path} has items that {crate} does not export: {sorted(set(items) - set(names))}")
        headings = collections.Counter(METHOD.findall(page))
        for method in public_methods(crate):
            if items[method.split("::")[0]]:
                methods += 1
                tally.check(headings[method] == 1, f"{path} has {headings[method]} headings for {method}")
    print(f"{methods} public methods")
    return tally.finish()


if __name__ == "__main__":
    sys.exit(main())
