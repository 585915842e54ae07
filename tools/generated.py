"""Reads files of the project, and writes or prints the files that a tool generates."""
from __future__ import annotations

import argparse
import os
import sys
from collections.abc import Callable
from functools import lru_cache

TOP = os.path.dirname(os.path.dirname(os.path.abspath(__file__)))


@lru_cache(maxsize=None)
def read(path: str) -> str:
    """Returns the text of a file of the project, or an empty text if the file does not exist."""
    name = os.path.join(TOP, path)
    if not os.path.isfile(name):
        return ""
    with open(name, encoding="utf-8") as file:
        return file.read()


def write_or_print(description: str, make_files: Callable[[], dict[str, str]], find_failures: Callable[[], list[str]]) -> int:
    """Runs a tool that generates files.

    With `--write` it writes the files. Otherwise it prints each after a line `=== PATH`. It prints failures on standard error.

    Parameters
    ----------
    description : str
        The description of the tool.
    make_files : callable
        Returns the text of each file by its path.
    find_failures : callable
        Returns what is wrong in the sources.

    Returns
    -------
    int
        The exit status: 1 if there are failures, or else 0.
    """
    parser = argparse.ArgumentParser(description=description)
    parser.add_argument("--write", action="store_true", help="write the files instead of printing them")
    options = parser.parse_args()
    for path, text in make_files().items():
        if options.write:
            with open(os.path.join(TOP, path), "w", encoding="utf-8") as file:
                file.write(text)
        else:
            sys.stdout.write(f"=== {path}\n{text}")
    failures = find_failures()
    for failure in failures:
        print(failure, file=sys.stderr)
    return 1 if failures else 0
