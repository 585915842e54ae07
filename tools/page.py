#!/usr/bin/env python3
"""Makes the web page, one file that works in a browser without a server. First proves the crate `moc_web` and its libraries.

usage: tools/page.py [FILE] [--module MODULE]

FILE is by default `ploverchaise.html` in the current folder. With `--module`, the script writes only the module of WebAssembly, which the
page contains.

The toolchain builds no crate for WebAssembly that allocates memory. Therefore it builds `moc_web` as a static library for x86-64, for the
first processors of this kind, and this script keeps the LLVM module that the toolchain compiles. `wasm.py` compiles the LLVM module for
WebAssembly, and `web/bundle.py` puts the result into the page ([the page](../docs/WEB.md))."""
from __future__ import annotations

import argparse
import os
import shlex
import subprocess
import sys
import tempfile

import build
import toolchain
import wasm  # adds the folder `web` to the folders of modules
from bundle import BundleError, bundle
from crates import archive_of, folder_of, libraries_of_crates, read_crates, stamp_of

CRATE = "moc_web"
JOBS = ("web_examine", "web_draw", "web_convert", "web_change", "web_combine", "web_measure", "web_run")
DEFAULT_FILE = "ploverchaise.html"
# The LLVM module of the crate, which is made again if it is older than the proof.
LLVM_MODULE = os.path.join(folder_of(CRATE), "out", f"{CRATE}.bc")
# A clang that copies the LLVM module that it compiles.
COPYING_CLANG = """#!/bin/sh
for argument in "$@"; do
    case "$argument" in
        *.bc) cp "$argument" {copy} || exit ;;
    esac
done
exec {clang} "$@"
"""


def make_toolchain(folder: str, copy: str) -> None:
    """Makes a folder with the programs of the toolchain, whose clang copies the LLVM module that it compiles.

    Parameters
    ----------
    folder : str
        The folder to make.
    copy : str
        The path of the copy.
    """
    programs = toolchain.path_of("toolchain", "bin")
    os.makedirs(os.path.join(folder, "bin"))
    os.symlink(toolchain.path_of("toolchain", "lib"), os.path.join(folder, "lib"))
    for name in os.listdir(programs):
        if name != "clang":
            os.symlink(os.path.join(programs, name), os.path.join(folder, "bin", name))
    clang = os.path.join(folder, "bin", "clang")
    with open(clang, "w", encoding="utf-8") as file:
        file.write(COPYING_CLANG.format(copy=shlex.quote(copy), clang=shlex.quote(os.path.join(programs, "clang"))))
    os.chmod(clang, 0o755)


def library_options() -> list[str]:
    """Returns the options by which `rattle` finds the libraries of the crate: those of the repository and those of the toolchain."""
    crates = read_crates()
    options = ["-L", f"dependency={toolchain.path_of('rlibs')}"]
    for name in ("std", *crates[CRATE]):
        folder = os.path.dirname(stamp_of(name)) if name in crates else toolchain.path_of("rlibs")
        options += ["--extern", f"{name}={os.path.join(folder, name)}.rlib"]
    for name in libraries_of_crates(crates)[CRATE]:
        options += ["-L", f"dependency={os.path.dirname(stamp_of(name))}"]
    return options


def build_llvm_module() -> None:
    """Builds the crate from its proofs, and keeps the LLVM module.

    Raises
    ------
    wasm.ModuleError
        If the crate is not built.
    """
    folder = folder_of(CRATE)
    with tempfile.TemporaryDirectory() as work:
        copy = os.path.join(work, "copy.bc")
        make_toolchain(os.path.join(work, "toolchain"), copy)
        command = [toolchain.path_of("bin", "rattle"), "build", "--crate-name", CRATE, "src/lib.rt", *library_options(),
                   "--antt-project", toolchain.path_of("rattle", "logic", "antt-project.json"),
                   "--logic-built", toolchain.path_of("logic_built"), "--incremental", os.path.join(folder, "out", "incremental"),
                   "--links", f"{CRATE}=", "--crate-type", "staticlib", "--cpu=x86-64", "--backend", "llvm",
                   "--toolchain", os.path.join(work, "toolchain"), "-o", os.path.join(work, "unused.a")]
        result = subprocess.run(command, cwd=folder, stdin=subprocess.DEVNULL, stdout=subprocess.PIPE, stderr=subprocess.STDOUT, text=True)
        if result.returncode or not os.path.exists(copy):
            print(result.stdout, file=sys.stderr)
            raise wasm.ModuleError(f"the toolchain did not compile {CRATE} (status {result.returncode})")
        with open(copy, "rb") as file:
            replace(LLVM_MODULE, file.read())


def is_llvm_module_current() -> bool:
    """Returns whether the LLVM module was made after the last proof of the crate."""
    return os.path.exists(LLVM_MODULE) and os.stat(LLVM_MODULE).st_mtime >= os.stat(archive_of(CRATE)).st_mtime


def make_module() -> bytes:
    """Proves the crate and its libraries, if a source has changed, and returns the module of WebAssembly.

    Raises
    ------
    wasm.ModuleError
        If the crate is not proved, or the module cannot be made.
    """
    with build.exclusive():
        if not build.Build([CRATE]).run():
            raise wasm.ModuleError(f"{CRATE} is not proved")
        if not is_llvm_module_current():
            build_llvm_module()
        with tempfile.TemporaryDirectory() as work:
            return wasm.make_module(work, JOBS, LLVM_MODULE)


def make_page(module: bytes) -> bytes:
    """Returns the page with a module.

    Raises
    ------
    wasm.ModuleError
        If the scripts of the page cannot be put into one file.
    """
    try:
        return bundle(module).encode()
    except BundleError as error:
        raise wasm.ModuleError(f"the scripts of the page: {error}") from None


def replace(path: str, content: bytes) -> None:
    """Writes a file, and replaces an earlier file as a whole."""
    new = f"{path}.new"
    with open(new, "wb") as file:
        file.write(content)
    os.replace(new, path)


def main() -> int:
    """Makes the page or the module."""
    parser = argparse.ArgumentParser(prog="moc page", description="Proves the crate of the web page and its libraries, and makes the page.")
    kinds = parser.add_mutually_exclusive_group()
    kinds.add_argument("file", nargs="?", default=DEFAULT_FILE, metavar="FILE", help=f"the page; by default {DEFAULT_FILE}")
    kinds.add_argument("--module", metavar="MODULE", help="write only the module of WebAssembly, into this file")
    options = parser.parse_args()
    path = options.module or options.file
    if not os.path.isdir(os.path.dirname(path) or "."):
        parser.error(f"the folder {os.path.dirname(path)} does not exist")
    try:
        module = make_module()
        content = module if options.module is not None else make_page(module)
        replace(path, content)
    except (wasm.ModuleError, OSError) as error:
        print(f"moc: {error}", file=sys.stderr)
        return 1
    print(f"moc: {path}, {len(content)} bytes", file=sys.stderr)
    return 0


if __name__ == "__main__":
    sys.exit(main())
