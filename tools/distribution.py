#!/usr/bin/env python3
"""Installs the program and the library, or makes a package of them. First proves and builds what has changed.

usage: tools/distribution.py install [PREFIX]
       tools/distribution.py package [FOLDER]

`install` copies the files below the prefix, which is /usr/local by default. If the environment variable DESTDIR is set, it is put before
the prefix. The file `share/ploverchaise/install_manifest.txt` lists the installed files, so `xargs -d '\\n' rm < FILE` uninstalls them.

`package` writes into the folder, which is `dist` by default: an archive that is unpacked below any prefix, the wheel of the Python package,
the manifest (`manifest.py`), and SHA256SUMS. The same sources and tools make the same bytes. The time of the files is that of the commit,
or SOURCE_DATE_EPOCH."""
from __future__ import annotations

import argparse
import gzip
import hashlib
import io
import json
import os
import platform
import subprocess
import sys
import tarfile
import tempfile
from typing import NamedTuple

import help_pages
import linking
import manifest
import sources
from crates import TOP
from version import read_version

sys.path.insert(0, os.path.join(TOP, "python"))
import backend  # noqa: E402

NAME = "ploverchaise"
TEMPLATES = os.path.join(TOP, "tools", "install")
# The permissions of programs and libraries, and of other files.
EXECUTABLE, DATA = 0o755, 0o644
INSTALL_MANIFEST = f"share/{NAME}/install_manifest.txt"
SYSTEM = f"linux-{platform.machine()}"


class File(NamedTuple):
    """A file of a package: its content and its permissions. A symbolic link has its target as the content, and no permissions."""

    content: bytes
    mode: int


# The files of a package, by their paths below the prefix.
Files = dict[str, File]


def read(*path: str) -> bytes:
    """Returns the content of a file."""
    with open(os.path.join(*path), "rb") as file:
        return file.read()


def build() -> bool:
    """Proves and builds the program and the library, if a source or a proof has changed. Returns whether this succeeds."""
    script = os.path.join(TOP, "tools", "build.py")
    is_proved = sources.is_built() and not manifest.unproved_crates()
    return (is_proved or subprocess.run([script]).returncode == 0) and subprocess.run([script, "--library"]).returncode == 0


def link(target: str) -> File:
    """Returns a symbolic link."""
    return File(target.encode(), 0)


def template(name: str) -> bytes:
    """Returns a file of TEMPLATES with the version of the project."""
    text = read(TEMPLATES, name).decode()
    return text.replace("@VERSION@", read_version()).replace("@SONAME@", linking.SONAME).encode()


def program_files() -> Files:
    """Returns the program with its script, its man page and its completions."""
    page = help_pages.read_help(sources.BUILT)
    return {"bin/moc": File(template("moc.sh"), EXECUTABLE),
            f"libexec/{NAME}/moc": File(read(sources.BUILT), EXECUTABLE),
            "share/man/man1/moc.1": File(help_pages.man_page(page).encode(), DATA),
            "share/bash-completion/completions/moc": File(help_pages.bash_completion(page).encode(), DATA),
            "share/zsh/site-functions/_moc": File(help_pages.zsh_completion(page).encode(), DATA)}


def library_files() -> Files:
    """Returns the libraries for C with their headers, and the files by which pkg-config and CMake find them."""
    shared = f"{linking.SHARED}.{read_version()}"
    headers = {f"include/{os.path.basename(header)}": File(read(header), DATA) for header in linking.HEADERS}
    configs = {f"lib/cmake/{NAME}/{name}": File(template(name), DATA) for name in (f"{NAME}-config.cmake", f"{NAME}-config-version.cmake")}
    return {f"lib/{shared}": File(read(linking.FOLDER, linking.SHARED), EXECUTABLE), f"lib/{linking.SONAME}": link(shared),
            f"lib/{linking.SHARED}": link(linking.SONAME), f"lib/{linking.STATIC}": File(read(linking.FOLDER, linking.STATIC), DATA),
            f"lib/pkgconfig/{NAME}.pc": File(template(f"{NAME}.pc"), DATA), **headers, **configs}


def make_folders(path: str) -> None:
    """Makes a folder and the folders above it that do not exist. All users may read them, whatever the umask is."""
    if path and not os.path.isdir(path):
        make_folders(os.path.dirname(path))
        os.mkdir(path)
        os.chmod(path, 0o755)


def write_file(path: str, file: File) -> None:
    """Writes a file with its folders. Replaces an earlier file as a whole, so that a running program keeps its own."""
    make_folders(os.path.dirname(path))
    new = f"{path}.new"
    if os.path.lexists(new):
        os.remove(new)
    if file.mode:
        with open(new, "wb") as target:
            target.write(file.content)
        os.chmod(new, file.mode)
    else:
        os.symlink(file.content.decode(), new)
    os.replace(new, path)


def install(prefix: str) -> None:
    """Installs the program and the library below a prefix, and below DESTDIR if it is set."""
    prefix = os.path.abspath(prefix)
    files = {**program_files(), **library_files()}
    listed = "".join(f"{os.path.join(prefix, name)}\n" for name in (*files, INSTALL_MANIFEST))
    root = os.environ.get("DESTDIR", "") + prefix
    for name, file in {**files, INSTALL_MANIFEST: File(listed.encode(), DATA)}.items():
        write_file(os.path.join(root, name), file)
    print(f"moc: installed below {root}; the files are listed in {os.path.join(root, INSTALL_MANIFEST)}", file=sys.stderr)


def source_date() -> int:
    """Returns the time of the files of a package: SOURCE_DATE_EPOCH, the time of the commit, or the earliest time of a wheel."""
    return int(os.environ.get("SOURCE_DATE_EPOCH") or manifest.git("log", "-1", "--format=%ct") or backend.EARLIEST)


def archive(folder: str, files: Files, date: int) -> bytes:
    """Returns a compressed archive that has these files in a folder."""
    packed = io.BytesIO()
    with tarfile.open(fileobj=packed, mode="w", format=tarfile.PAX_FORMAT) as tar:
        for name, file in sorted(files.items()):
            entry = tarfile.TarInfo(f"{folder}/{name}")
            entry.mtime, entry.mode, entry.uname, entry.gname = date, file.mode or 0o777, "root", "root"
            if file.mode:
                entry.size = len(file.content)
            else:
                entry.type, entry.linkname = tarfile.SYMTYPE, file.content.decode()
            tar.addfile(entry, io.BytesIO(file.content) if file.mode else None)
    return gzip.compress(packed.getvalue(), mtime=date)


def make_wheel(date: int) -> tuple[str, File]:
    """Returns the name and the content of the wheel of the Python package."""
    os.environ["SOURCE_DATE_EPOCH"] = str(date)
    with tempfile.TemporaryDirectory() as folder:
        name = backend.build_wheel(folder)
        return name, File(read(folder, name), DATA)


def checksums(files: Files) -> File:
    """Returns the file that `sha256sum --check` reads, for files that are not links."""
    lines = [f"{hashlib.sha256(file.content).hexdigest()}  {name}\n" for name, file in sorted(files.items()) if file.mode]
    return File("".join(lines).encode(), DATA)


def package(folder: str) -> None:
    """Makes a package of the program and the library in a folder."""
    date, name = source_date(), f"{NAME}-{read_version()}-{SYSTEM}"
    files = {**program_files(), **library_files()}
    wheel_name, wheel = make_wheel(date)
    record = manifest.make_manifest()
    unproved = manifest.unproved_crates()
    if unproved:
        print(f"moc: no verdict was recorded about {', '.join(unproved)}. To prove a crate again, remove its folder `out`", file=sys.stderr)
    record["files"] = {path: hashlib.sha256(file.content).hexdigest() for path, file in sorted(files.items()) if file.mode}
    manifest_file = File(f"{json.dumps(record, indent=2)}\n".encode(), DATA)
    packed = {**files, f"share/{NAME}/{wheel_name}": wheel, f"share/{NAME}/manifest.json": manifest_file}
    results = {f"{name}.tar.gz": File(archive(name, packed, date), DATA), wheel_name: wheel, f"{name}.json": manifest_file}
    for path, file in {**results, "SHA256SUMS": checksums(results)}.items():
        write_file(os.path.join(folder, path), file)
        print(f"moc: {os.path.join(folder, path)}", file=sys.stderr)


def main() -> int:
    """Installs, or makes a package."""
    parser = argparse.ArgumentParser(prog="moc", description="Installs the program and the library, or makes a package of them.")
    commands = parser.add_subparsers(dest="command", required=True)
    installing = commands.add_parser("install", help="install the program and the library")
    installing.add_argument("prefix", nargs="?", default="/usr/local", metavar="PREFIX", help="the folder of bin, lib and share")
    packaging = commands.add_parser("package", help="make an archive, a wheel, a manifest and their checksums")
    packaging.add_argument("folder", nargs="?", default="dist", metavar="FOLDER", help="the folder for these files")
    options = parser.parse_args()
    if not build():
        return 1
    if options.command == "install":
        install(options.prefix)
    else:
        package(options.folder)
    return 0


if __name__ == "__main__":
    sys.exit(main())
