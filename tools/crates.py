"""Reads the list of crates, and makes workspaces in which crates are proved side by side.

While `rt` works on a crate, it locks the folder of the crate and the folders of all its libraries. So two crates of one tree are proved one
after the other. A workspace has one crate, with the results of its last proof, and the last builds of its libraries."""
from __future__ import annotations

import hashlib
import json
import os
import shutil

TOP = os.path.dirname(os.path.dirname(os.path.abspath(__file__)))
# The folders of a crate that the prover reads.
SOURCE_FOLDERS = ("src", "specs", "proofs")
SOURCE_SUFFIXES = (".rt", ".antt")


def folder_of(crate: str, top: str = TOP) -> str:
    """Returns the folder of a crate."""
    return os.path.join(top, "crates", crate)


def root_of(crate: str, top: str = TOP) -> str:
    """Returns the path of the root file of a crate: `src/lib.rt` of a library, `src/main.rt` of a program."""
    library = os.path.join(folder_of(crate, top), "src", "lib.rt")
    return library if os.path.exists(library) else os.path.join(folder_of(crate, top), "src", "main.rt")


def stat_files(crate: str, *folders: str) -> list[os.stat_result]:
    """Returns the status of each file in these folders of a crate."""
    paths = [os.path.join(folder_of(crate), folder) for folder in folders]
    return [os.stat(os.path.join(parent, name)) for path in paths for parent, _, names in os.walk(path) for name in names]


def source_files(crate: str, *folders: str, top: str = TOP) -> list[str]:
    """Returns the paths of the sources in these folders of a crate, from the folder of the crate."""
    root = folder_of(crate, top)
    return sorted(os.path.relpath(os.path.join(parent, name), root) for folder in folders
                  for parent, _, names in os.walk(os.path.join(root, folder)) for name in names if name.endswith(SOURCE_SUFFIXES))


def digest_of_files(folder: str, paths: list[str]) -> str:
    """Returns the SHA-256 checksum of the output that `sha256sum` prints for these files of a folder."""
    lines = []
    for path in paths:
        with open(os.path.join(folder, path), "rb") as file:
            lines.append(f"{hashlib.sha256(file.read()).hexdigest()}  {path}\n")
    return hashlib.sha256("".join(lines).encode()).hexdigest()


def digest_of_crate(crate: str, top: str = TOP) -> str:
    """Returns the checksum of all sources of a crate."""
    return digest_of_files(folder_of(crate, top), source_files(crate, *SOURCE_FOLDERS, top=top))


def verdict_file(crate: str) -> str:
    """Returns the path of the file that has the verdict about a crate."""
    return os.path.join(folder_of(crate), "out", "verdict.json")


def save_verdict(crate: str, digest: str, verdict: str) -> None:
    """Saves the verdict about a crate, which is the last line that `rt` printed, with the checksum of the sources that `rt` checked."""
    os.makedirs(os.path.dirname(verdict_file(crate)), exist_ok=True)
    with open(verdict_file(crate), "w", encoding="utf-8") as file:
        json.dump({"sources": digest, "verdict": verdict}, file)


def read_verdict(crate: str, digest: str) -> str | None:
    """Returns the verdict about the sources of a crate that have this checksum, or None if no verdict about these sources was saved."""
    if not os.path.exists(verdict_file(crate)):
        return None
    with open(verdict_file(crate), encoding="utf-8") as file:
        saved = json.load(file)
    return saved["verdict"] if saved["sources"] == digest else None


def crate_name(line: str) -> str:
    """Returns the crate of a line of `crates.txt`, which is its first word. After it, the line of a static library has one more word."""
    return line.partition("#")[0].partition(":")[0].partition(" ")[0].strip()


def read_crates(top: str = TOP) -> dict[str, list[str]]:
    """Returns the crates in the order of `crates.txt`, each with the libraries that its line names."""
    crates = {}
    with open(os.path.join(top, "crates.txt"), encoding="utf-8") as file:
        for line in file:
            if ":" in line.partition("#")[0]:
                crates[crate_name(line)] = line.partition("#")[0].partition(":")[2].split()
    return crates


def libraries_of_crates(crates: dict[str, list[str]]) -> dict[str, list[str]]:
    """Returns each crate with all libraries of the repository that it depends on, each after the libraries that it depends on itself."""
    libraries: dict[str, list[str]] = {}

    def visit(name: str) -> list[str]:
        if name not in libraries:
            direct = [library for library in crates[name] if library in crates]
            libraries[name] = list(dict.fromkeys(indirect for library in direct for indirect in [*visit(library), library]))
        return libraries[name]

    for name in crates:
        visit(name)
    return libraries


def link_or_copy(source: str, target: str) -> str:
    """Links a file that checks replace and never write into, which is a built library or a proved module. Copies any other file."""
    if "/out/rlib/" in source or source.endswith(".oantt"):
        try:
            os.link(source, target)
            return target
        except OSError:
            # The workspace is on another file system.
            pass
    shutil.copy2(source, target)
    return target


def make_workspace(workspace: str, crate: str, libraries: list[str]) -> str:
    """Makes a workspace for a crate, where a check starts from the results of the last one.

    Parameters
    ----------
    workspace : str
        The folder to make.
    crate : str
        The crate.
    libraries : list of str
        All libraries of the repository that the crate depends on.

    Returns
    -------
    str
        The folder of the crate in the workspace.
    """
    os.makedirs(os.path.join(workspace, "crates"))
    with open(os.path.join(TOP, "crates.txt"), encoding="utf-8") as file, \
            open(os.path.join(workspace, "crates.txt"), "w", encoding="utf-8") as target:
        target.writelines(line for line in file if crate_name(line) in (*libraries, crate))
    shutil.copy(os.path.join(TOP, "HANDLES"), workspace)
    for name in (*libraries, crate):
        for part in (*SOURCE_FOLDERS, "out/rlib", *["out/incremental"] * (name == crate)):
            source = os.path.join(folder_of(name), part)
            if os.path.isdir(source):
                shutil.copytree(source, os.path.join(folder_of(name, workspace), part), copy_function=link_or_copy)
    return folder_of(crate, workspace)


def stamp_of(crate: str, top: str = TOP) -> str:
    """Returns the path of the file that `rt` writes last when it builds a library."""
    return os.path.join(folder_of(crate, top), "out", "rlib", "stamp")


def archive_of(crate: str, top: str = TOP) -> str:
    """Returns the path of the archive that `rt` makes from a static library, which has no stamp."""
    return os.path.join(folder_of(crate, top), "out", f"lib{crate}.a")


def save_results(workspace: str, crate: str) -> None:
    """Moves the proofs and the library that were made in a workspace into the folder of the crate."""
    if os.path.exists(archive_of(crate, workspace)):
        os.makedirs(os.path.dirname(archive_of(crate)), exist_ok=True)
        os.replace(archive_of(crate, workspace), archive_of(crate))
    for part in ("incremental", "rlib"):
        new, old = (os.path.join(folder_of(crate, top), "out", part) for top in (workspace, TOP))
        if os.path.isdir(new):
            shutil.rmtree(old, ignore_errors=True)
            os.makedirs(os.path.dirname(old), exist_ok=True)
            os.rename(new, old)
    stamp = stamp_of(crate)
    if os.path.exists(stamp):
        # The library may be a link to an earlier one of the same source. The new stamp makes it newer than its sources.
        shutil.copyfile(stamp, f"{stamp}.new")
        os.replace(f"{stamp}.new", stamp)


def is_current(crate: str, libraries: list[str]) -> bool:
    """Returns whether the library of a crate was built after the last change of its sources and of its libraries."""
    built = next(filter(os.path.exists, (stamp_of(crate), archive_of(crate))), None)
    if built is None:
        return False
    time = os.stat(built).st_mtime
    return all(status.st_mtime <= time for status in stat_files(crate, *SOURCE_FOLDERS)) and all(
        os.path.exists(stamp_of(library)) and os.stat(stamp_of(library)).st_mtime <= time for library in libraries)
