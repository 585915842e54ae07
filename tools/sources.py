#!/usr/bin/env python3
"""Compares the sources of the program with those that it was built from.

`tools/build.py` records two files when it has built the program. SOURCE_LIST has the path of each file and folder of the sources. Its
modification time is the time at which the build started. RECORD has the checksum of the sources at that time.

`./moc` compares only the times of the listed files and folders. If one is newer, it runs this script, which compares the checksum. If the
sources have the recorded content, this script records the present time. So a file that was only touched leads to no build.

The sources are the code with its contracts, and the definitions. A changed proof leads to no build, because the program was proved by the
earlier proof of the same sources.

usage: tools/sources.py

The exit status is 0 if the sources are those of the program, and 1 if the program has to be built."""
from __future__ import annotations

import hashlib
import json
import os
import sys
import time
from typing import NamedTuple

from crates import TOP, digest_of_files, folder_of, libraries_of_crates, read_crates, source_files, stat_files

PROGRAM = "moc_cli"
BUILT = os.path.join(folder_of(PROGRAM), "out", PROGRAM)
# The paths of the sources from the folder `crates`, each with a null byte after it.
SOURCE_LIST = os.path.join(folder_of(PROGRAM), "out", "sources")
RECORD = f"{SOURCE_LIST}.json"
# The folders of a crate whose changes lead to a build.
BUILD_FOLDERS = ("src", "specs")
# Files that all crates depend on.
COMMON_FILES = ("crates.txt", "HANDLES")
# The maximal error of the time of a change, in nanoseconds: a file system takes it from a clock that ticks seldom.
CLOCK_TICK = 20_000_000


class Snapshot(NamedTuple):
    """The state of the sources at a time: the time in nanoseconds, the listed paths, and the checksum of the content."""

    time: int
    paths: list[str]
    digest: str


def program_crates() -> list[str]:
    """Returns the program and all crates that it depends on."""
    return [*libraries_of_crates(read_crates())[PROGRAM], PROGRAM]


def listed_paths() -> list[str]:
    """Returns the paths of all files and folders of the sources of the program, from the folder `crates`."""
    paths = [os.path.join(os.pardir, name) for name in COMMON_FILES]
    for crate in program_crates():
        folders = [os.path.join(crate, os.path.relpath(parent, folder_of(crate))) for part in BUILD_FOLDERS
                   for parent, _, _ in os.walk(os.path.join(folder_of(crate), part))]
        paths += [crate, *folders, *(os.path.join(crate, path) for path in source_files(crate, *BUILD_FOLDERS))]
    return paths


def take_snapshot() -> Snapshot:
    """Returns the present state of the sources of the program."""
    now = time.time_ns() - CLOCK_TICK
    digests = [digest_of_files(folder_of(crate), source_files(crate, *BUILD_FOLDERS)) for crate in program_crates()]
    digests.append(digest_of_files(TOP, list(COMMON_FILES)))
    return Snapshot(now, listed_paths(), hashlib.sha256("".join(digests).encode()).hexdigest())


def write_record(snapshot: Snapshot) -> None:
    """Records that the program was built from the sources of a snapshot."""
    for path, content in ((RECORD, json.dumps({"program": os.stat(BUILT).st_mtime_ns, "sources": snapshot.digest})),
                          (SOURCE_LIST, "".join(f"{path}\0" for path in snapshot.paths))):
        with open(f"{path}.new", "w", encoding="utf-8") as file:
            file.write(content)
        os.utime(f"{path}.new", ns=(snapshot.time, snapshot.time))
        os.replace(f"{path}.new", path)


def recorded_digest() -> str | None:
    """Returns the recorded checksum of the sources of the program, or None if nothing was recorded about this program."""
    try:
        with open(RECORD, encoding="utf-8") as file:
            record = json.load(file)
    except (OSError, ValueError):
        return None
    return record["sources"] if record["program"] == os.stat(BUILT).st_mtime_ns else None


def newest_change() -> int:
    """Returns the time of the last change of a source, in nanoseconds."""
    common = [os.stat(os.path.join(TOP, name)) for name in COMMON_FILES]
    files = [status for crate in program_crates() for status in stat_files(crate, *BUILD_FOLDERS)]
    return max(status.st_mtime_ns for status in (*common, *files))


def is_built() -> bool:
    """Returns whether the program exists, and was built from the present sources.

    `rt ci` builds the program without a record. Then the times of the files decide."""
    if not os.access(BUILT, os.X_OK):
        return False
    snapshot, recorded = take_snapshot(), recorded_digest()
    if recorded is None and newest_change() >= os.stat(BUILT).st_mtime_ns or recorded not in (None, snapshot.digest):
        return False
    write_record(snapshot)
    return True


if __name__ == "__main__":
    sys.exit(0 if is_built() else 1)
