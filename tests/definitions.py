#!/usr/bin/env python3
"""Compares docs/DEFINITIONS.md with the definitions, and checks the length of lines of code and definitions.

The page has to be the output of tools/definitions.py. Each definition, record or data type of `crates/moc_*/specs` that is marked `pub`
has to be on the page in the section of its file, unless its file is in `specs/Private` or has lemmas. No line of `src` or `specs` has more
than MAX_COLUMNS columns. The script also prints the number of definitions, and of the lines of their files.

usage: tests/definitions.py

The last line is `N passed, M failed`."""
from __future__ import annotations

import difflib
import glob
import itertools
import os
import re
import subprocess
import sys
from collections.abc import Iterator

from tally import Tally

TOP = os.path.dirname(os.path.dirname(os.path.abspath(__file__)))
sys.path.insert(0, os.path.join(TOP, "tools"))
from generated import read  # noqa: E402

PAGE = os.path.join("docs", "DEFINITIONS.md")
TOOL = os.path.join("tools", "definitions.py")
# The most columns of a line of code or of a definition.
MAX_COLUMNS = 120
# The most differing lines of the page that are printed.
MAX_DIFFERENCES = 40
# A definition, record or data type that a file marks `pub`, found without the parser of tools/definitions.py.
PUBLIC = re.compile(r"^ *(?:abbrev pub|unfoldable pub|pub record|pub data) (\S+)", re.MULTILINE)
# A file of definitions as a heading of the page, and a definition in its list.
FILE = re.compile(r"^### \[`([^`]+)`\]")
ENTRY = re.compile(r"^- `([^`]+)` \(")


def public_definitions() -> Iterator[tuple[str, str]]:
    """Yields each public definition with its file, as `crate/file`."""
    for path in sorted(glob.glob("crates/moc_*/specs/**/*.antt", root_dir=TOP, recursive=True)):
        file = path.removeprefix("crates/").removesuffix(".antt").replace("/specs/", "/")
        if not re.match(r"moc_\w+/(Private|Lemmas)(/|$)", file):
            yield from ((file, name) for name in PUBLIC.findall(read(path)))


def page_entries(page: str) -> Iterator[tuple[str, str]]:
    """Yields each definition of the page with its file."""
    file = ""
    for line in page.splitlines():
        heading, entry = FILE.match(line), ENTRY.match(line)
        if heading:
            file = heading[1]
        elif entry:
            yield file, entry[1]


def long_lines() -> Iterator[str]:
    """Yields the place of each line of code or definitions that is too long."""
    for pattern in ("crates/*/src/**/*.rt", "crates/*/specs/**/*.antt"):
        for path in sorted(glob.glob(pattern, root_dir=TOP, recursive=True)):
            for number, line in enumerate(read(path).splitlines(), 1):
                if len(line) > MAX_COLUMNS:
                    yield f"{path}:{number}: more than {MAX_COLUMNS} columns"


def main() -> int:
    """Checks the page and the lines."""
    tally = Tally()
    tool = subprocess.run([sys.executable, os.path.join(TOP, TOOL)], capture_output=True, encoding="utf-8",
                          env={**os.environ, "PYTHONIOENCODING": "utf-8"})
    tally.check(tool.returncode == 0, f"{TOOL} fails:\n{tool.stderr}")
    page, generated = read(PAGE), tool.stdout.removeprefix(f"=== {PAGE}\n")
    difference = list(itertools.islice(
        difflib.unified_diff(page.splitlines(), generated.splitlines(), PAGE, TOOL, lineterm="", n=0), MAX_DIFFERENCES))
    tally.check(not difference, "\n".join([*difference, f"{PAGE} is out of date; run {TOOL} --write"]))
    public, entries = list(public_definitions()), list(page_entries(page))
    for file, name in public:
        tally.check(entries.count((file, name)) == 1, f"{PAGE} has {entries.count((file, name))} entries for {file}: {name}")
    too_long = list(long_lines())
    tally.check(not too_long, "\n".join(too_long))
    paths = {f"crates/{file.replace('/', '/specs/', 1)}.antt" for file, _ in public}
    lines = [line.strip() for path in sorted(paths) for line in read(path).splitlines()]
    content = [line for line in lines if line and not line.startswith(("use ", "pub use "))]
    print(f"{len(public)} public definitions in {len(paths)} files of {len(lines)} lines; {len(content)} lines are definitions or comments")
    print(f"{len(re.findall(r'[A-Za-z]+', page))} words on the page")
    return tally.finish()


if __name__ == "__main__":
    sys.exit(main())
