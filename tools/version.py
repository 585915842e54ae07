#!/usr/bin/env python3
"""Prints the version of the project, or sets it.

The version is in `ploverchaise.h`. Other files repeat it, because they are read without this tool. `tests/texts.py` checks that all of them
have the same version.

usage: tools/version.py [--set VERSION]"""
from __future__ import annotations

import argparse
import os
import re
import sys
from typing import NamedTuple

TOP = os.path.dirname(os.path.dirname(os.path.abspath(__file__)))
HEADER = os.path.join("crates", "moc_c", "include", "ploverchaise.h")
MACRO = re.compile(r"^(#define MOC_VERSION_(?:MAJOR|MINOR|PATCH)) (\d+)$", re.MULTILINE)
VERSION = re.compile(r"\d+\.\d+\.\d+")


class Place(NamedTuple):
    """A place that repeats the version: the path of a file, and the text before and after the version."""

    path: str
    before: str
    after: str

    def pattern(self) -> re.Pattern[str]:
        """Returns a regular expression for the place, whose group is the version."""
        return re.compile(rf"(?<={re.escape(self.before)}){VERSION.pattern}(?={re.escape(self.after)})")


PLACES = (
    Place(os.path.join("crates", "moc_command_line", "src", "commands.rt"), '.version("', '")'),
    Place(os.path.join("python", "ploverchaise", "__init__.py"), '__version__ = "', '"\n'),
    Place("CITATION.cff", "\nversion: ", "\n"),
    Place(os.path.join("docs", "COMMANDS.md"), "`moc ", "` |"),
)
# The heading of the newest version in the changelog.
NEWEST = re.compile(rf"^## ({VERSION.pattern}) - ", re.MULTILINE)


def read(path: str) -> str:
    """Returns the text of a file of the repository."""
    with open(os.path.join(TOP, path), encoding="utf-8") as file:
        return file.read()


def write(path: str, text: str) -> None:
    """Writes the text of a file of the repository."""
    with open(os.path.join(TOP, path), "w", encoding="utf-8") as file:
        file.write(text)


def read_version() -> str:
    """Returns the version of the project."""
    return ".".join(number for _, number in MACRO.findall(read(HEADER)))


def repeated_versions() -> dict[str, list[str]]:
    """Returns the versions that other files have, by their paths. The changelog has the version of its first section."""
    found = {place.path: place.pattern().findall(read(place.path)) for place in PLACES}
    return {**found, "CHANGELOG.md": NEWEST.findall(read("CHANGELOG.md"))[:1]}


def set_version(version: str) -> None:
    """Sets the version in all files except the changelog."""
    numbers = iter(version.split("."))
    write(HEADER, MACRO.sub(lambda macro: f"{macro[1]} {next(numbers)}", read(HEADER)))
    for place in PLACES:
        write(place.path, place.pattern().sub(version, read(place.path)))


def main() -> int:
    """Prints or sets the version."""
    parser = argparse.ArgumentParser(description="Prints the version of the project, or sets it.")
    parser.add_argument("--set", metavar="VERSION", help="write this version into all files except CHANGELOG.md")
    options = parser.parse_args()
    if options.set is None:
        print(read_version())
        return 0
    if not VERSION.fullmatch(options.set):
        parser.error(f"{options.set} is not a version such as 1.2.3")
    set_version(options.set)
    return 0


if __name__ == "__main__":
    sys.exit(main())
