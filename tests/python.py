#!/usr/bin/env python3
"""Installs the Python package from `python/` without a network, and tests the installed package.

The library has to be in the folder of the package, where `./moc library` puts it. The tests are those of `tests/package`. They run without
numpy. They run again with the optional packages if this Python or the system's has them; a message reports which are missing. The last line
printed is `N passed, M failed`."""
from __future__ import annotations

import os
import subprocess
import sys
import tempfile

from tally import Tally

TOP = os.path.dirname(os.path.dirname(os.path.abspath(__file__)))
PACKAGE = os.path.join(TOP, "python")
# This Python, and the one for which Debian's packages are.
PYTHONS = [sys.executable, "/usr/bin/python3"]
TIME_LIMIT = 600
INSTALLED = ["__init__.py", "__main__.py", "_arrays.py", "_codes.py", "_command_line.py", "_diagnostics.py", "_files.py", "_fits.py",
             "_library.py", "_outlines.py", "_plot.py", "_positions.py", "_regions.py", "_signatures.py", "cells.py", "errors.py",
             "libploverchaise.so", "moc.py", "py.typed", "shared.py"]


def python_with(*modules: str) -> str | None:
    """Returns the path of the first Python that has all of the modules, or None."""
    for python in PYTHONS:
        command = "".join(f"import {module}\n" for module in modules)
        if subprocess.run([python, "-c", command], stderr=subprocess.DEVNULL).returncode == 0:
            return python
    return None


def install(tally: Tally, folder: str) -> bool:
    """Installs the package with pip into a folder. Returns whether pip succeeds without a registry, and installs the expected files."""
    command = [sys.executable, "-m", "pip", "install", "--quiet", "--no-index", "--disable-pip-version-check", "--root-user-action=ignore",
               "--no-compile", "--target", folder, PACKAGE]
    if subprocess.run(command, timeout=TIME_LIMIT, stdout=sys.stderr).returncode:
        return tally.check(False, "pip does not install the package")
    tally.check_equal("the program", os.access(os.path.join(folder, "bin", "ploverchaise"), os.X_OK), True)
    return tally.check_equal("the installed files", sorted(os.listdir(os.path.join(folder, "ploverchaise"))), INSTALLED)


def run_tests(tally: Tally, python: str, folder: str, *arguments: str) -> None:
    """Runs the tests with a Python, and adds their counts."""
    environment = {name: value for name, value in os.environ.items() if name != "PLOVERCHAISE_LIBRARY"}
    environment.update(PYTHONPATH=os.pathsep.join([folder, os.path.join(TOP, "tests")]), PYTHONDONTWRITEBYTECODE="1")
    result = subprocess.run([python, "-m", "package.run", *arguments], env=environment, cwd=folder, timeout=TIME_LIMIT,
                            stdout=subprocess.PIPE, text=True)
    tally.add_summary(f"tests with {python}", result.returncode, result.stdout)


def main() -> int:
    """Installs the package, and tests it without and with numpy."""
    tally = Tally()
    with tempfile.TemporaryDirectory() as folder:
        if install(tally, folder):
            run_tests(tally, sys.executable, folder, "--without-numpy")
            numerical = python_with("astropy") or python_with("numpy")
            if numerical is None:
                print("numpy is not installed: arrays are not tested", file=sys.stderr)
            else:
                run_tests(tally, numerical, folder)
    return tally.finish()


if __name__ == "__main__":
    sys.exit(main())
