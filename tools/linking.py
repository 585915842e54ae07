"""Links the library for C and Python.

Its parts are the proved crate `moc_c`, the libraries of this crate, the guards in C (`guards.py`) and the toolchain's heap."""
from __future__ import annotations

import os
import shutil
import subprocess
import sys
import tempfile

import toolchain
from crates import TOP, archive_of
from guards import HEADER, PROVED, Function, guards_source, parse_header, proved_declarations

CRATE = "moc_c"
# The folder of the Python package, which is installed with the library.
FOLDER = os.path.join(TOP, "python", "ploverchaise")
SHARED, STATIC = "libploverchaise.so", "libploverchaise.a"
# The name by which a linked program finds the shared library. Its number changes if a program has to be compiled again.
SONAME = f"{SHARED}.0"
# The headers for C and C++, which are copied beside the libraries.
HEADERS = [HEADER, HEADER.removesuffix(".h") + ".hpp"]
WARNINGS = ["-Wall", "-Wextra", "-Wpedantic", "-Werror"]


def heap() -> str:
    """Returns the path of the toolchain's archive that calls malloc, realloc and free."""
    return toolchain.path_of("c", "liblibc_c.a")


def input_files(functions: list[Function]) -> dict[str, str]:
    """Returns the files that the commands read: the guards, the new names of the proved functions, and the exported names."""
    proved = [line.partition(PROVED)[2].partition("(")[0] for line in proved_declarations(functions)]
    exported = [f"moc_{function.name}" for function in functions]
    return {"guards.c": guards_source(functions),
            "renamed": "".join(f"moc_{name} {PROVED}{name}\n" for name in proved),
            "kept": "".join(f"{name}\n" for name in exported),
            "exported": f"{{ global: {' '.join(f'{name};' for name in exported)} local: *; }};\n"}


def commands(options: list[str]) -> list[tuple[list[str], str]]:
    """Returns the commands that link the libraries in the current folder, each with its standard input.

    The archive has one object, in which only the functions of the header are global."""
    compiler, parts = os.environ.get("CC", "cc"), ["proved.a", heap()]
    whole = ["-Wl,--whole-archive", *parts, "-Wl,--no-whole-archive"]
    shared = [] if options else [([compiler, "-shared", "-o", SHARED, f"-Wl,-soname,{SONAME}", "-Wl,-z,defs,-z,now",
                                   "-Wl,--version-script=exported", "guards.o", *whole], "")]
    return [([compiler, "-std=c11", "-O2", "-fPIC", "-fno-omit-frame-pointer", *WARNINGS, *options, f"-I{os.path.dirname(HEADER)}", "-c",
              "guards.c"], ""),
            (["objcopy", "--redefine-syms=renamed", archive_of(CRATE), "proved.a"], ""), *shared,
            ([compiler, "-nostdlib", "-r", "-o", "library.o", "guards.o", *whole], ""),
            (["objcopy", "--keep-global-symbols=kept", "library.o"], ""),
            (["ar", "rcsD", STATIC, "library.o"], "")]


def link(folder: str, options: list[str]) -> bool:
    """Links the libraries, and puts them and their header into a folder.

    Parameters
    ----------
    folder : str
        The folder. Each file in it is replaced as a whole.
    options : list of str
        Options of the compiler for the guards. With options, the shared library is not made, because it may need other libraries.

    Returns
    -------
    bool
        Whether all commands succeeded. If not, the folder is unchanged.
    """
    with open(HEADER, encoding="utf-8") as file:
        functions = parse_header(file.read())
    os.makedirs(folder, exist_ok=True)
    with tempfile.TemporaryDirectory(dir=folder, prefix=".library") as work:
        for name, text in input_files(functions).items():
            with open(os.path.join(work, name), "w", encoding="utf-8") as file:
                file.write(text)
        for command, standard_input in commands(options):
            if subprocess.run(command, cwd=work, input=standard_input, text=True).returncode:
                return False
        linked = {SHARED, STATIC}
        for header in HEADERS:
            name = os.path.basename(header)
            shutil.copyfile(header, os.path.join(work, name))
            linked.add(name)
        for name in sorted(linked.intersection(os.listdir(work))):
            os.replace(os.path.join(work, name), os.path.join(folder, name))
            print(f"moc: {os.path.join(folder, name)}", file=sys.stderr)
        if not options:
            os.symlink(SHARED, os.path.join(work, SONAME))
            os.replace(os.path.join(work, SONAME), os.path.join(folder, SONAME))
    return True
