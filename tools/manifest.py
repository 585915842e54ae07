#!/usr/bin/env python3
"""Compares the sources of this checkout with the manifest of a package.

usage: tools/manifest.py FILE

A manifest (`./moc package`) has the version, the commit and the toolchain. For each crate of the program and of the library it has the
checksum of the sources, and the last line that `rt` printed when it proved them. It also has the checksums of the other files from which a
package is made.

The exit status is 0 if all checksums agree, 1 if not, and 2 if the file is not a manifest."""
from __future__ import annotations

import argparse
import glob
import hashlib
import json
import os
import shutil
import subprocess
import sys
from typing import Any

import linking
import version
from crates import TOP, digest_of_crate, libraries_of_crates, read_crates, read_verdict
from sources import PROGRAM

# The files outside the sources of the crates from which a package is made.
OTHER_SOURCES = ("crates.txt", "HANDLES", "crates/moc_c/c/*.c", "crates/moc_c/include/*", "python/*.py", "python/pyproject.toml",
                 "python/ploverchaise/*.py", "python/ploverchaise/py.typed", "tools/*.py", "tools/install/*")


def packaged_crates() -> list[str]:
    """Returns the crates of the program and of the library for C, each after the libraries that it depends on."""
    libraries = libraries_of_crates(read_crates())
    return list(dict.fromkeys(crate for target in (PROGRAM, linking.CRATE) for crate in (*libraries[target], target)))


def sha256(path: str) -> str:
    """Returns the SHA-256 checksum of a file."""
    with open(path, "rb") as file:
        return hashlib.file_digest(file, "sha256").hexdigest()


def crate_checksums() -> dict[str, str]:
    """Returns the checksum of the sources of each packaged crate."""
    return {crate: digest_of_crate(crate) for crate in packaged_crates()}


def unproved_crates() -> list[str]:
    """Returns the packaged crates whose present sources have no verdict."""
    return [crate for crate, digest in crate_checksums().items() if read_verdict(crate, digest) is None]


def other_checksums() -> dict[str, str]:
    """Returns the checksum of each other file from which a package is made."""
    paths = sorted({path for pattern in OTHER_SOURCES for path in glob.glob(pattern, root_dir=TOP)})
    return {path: sha256(os.path.join(TOP, path)) for path in paths}


def git(*arguments: str) -> str | None:
    """Returns the output of git, or None if this folder is not the top of a repository of git."""
    if not os.path.exists(os.path.join(TOP, ".git")) or shutil.which("git") is None:
        return None
    result = subprocess.run(["git", *arguments], cwd=TOP, stdin=subprocess.DEVNULL, stdout=subprocess.PIPE, text=True)
    return result.stdout.strip() if result.returncode == 0 else None


def toolchain() -> str | None:
    """Returns the version of the toolchain, or None if it is not installed."""
    if shutil.which("rt") is None:
        return None
    return subprocess.run(["rt", "version"], check=True, stdout=subprocess.PIPE, text=True).stdout.strip()


def make_manifest() -> dict[str, Any]:
    """Returns the manifest of a package that is made from this checkout.

    Without a repository of git, the commit is None, and so is whether files differ from the commit."""
    crates = {crate: {"sources": digest, "verdict": read_verdict(crate, digest)} for crate, digest in crate_checksums().items()}
    changes = git("status", "--porcelain")
    return {"version": version.read_version(), "commit": git("rev-parse", "HEAD"), "modified": None if changes is None else bool(changes),
            "toolchain": toolchain(), "crates": crates, "other_sources": other_checksums()}


def differences(kind: str, recorded: dict[str, str], present: dict[str, str]) -> list[str]:
    """Returns a line for each entry that differs between the recorded checksums and the present ones."""
    lines = []
    for name in sorted({*recorded, *present}):
        if name not in present:
            lines.append(f"{kind} {name}: only in the manifest")
        elif name not in recorded:
            lines.append(f"{kind} {name}: only in this checkout")
        elif recorded[name] != present[name]:
            lines.append(f"{kind} {name}: the sources differ")
    return lines


def compare(manifest: dict[str, Any]) -> list[str]:
    """Returns a line for each difference between the sources of a manifest and those of this checkout."""
    recorded = {crate: entry["sources"] for crate, entry in manifest["crates"].items()}
    return [*differences("crate", recorded, crate_checksums()), *differences("file", manifest["other_sources"], other_checksums())]


def main() -> int:
    """Compares this checkout with a manifest."""
    parser = argparse.ArgumentParser(prog="moc check-manifest", description="Compares the sources of this checkout with a manifest.")
    parser.add_argument("file", metavar="FILE", help="the manifest of a package")
    options = parser.parse_args()
    try:
        with open(options.file, encoding="utf-8") as file:
            manifest = json.load(file)
        lines = compare(manifest)
        built = manifest["toolchain"]
    except (OSError, ValueError, KeyError, TypeError, AttributeError) as error:
        print(f"moc: {options.file} is not a manifest: {error!r}", file=sys.stderr)
        return 2
    for line in lines:
        print(line)
    installed = toolchain()
    if installed not in (None, built):
        print(f"moc: the package was made with {built}; {installed} is installed", file=sys.stderr)
    if not lines:
        print(f"the sources are those of {manifest['version']}, commit {manifest['commit'] or 'unknown'}")
    return 1 if lines else 0


if __name__ == "__main__":
    sys.exit(main())
