#!/usr/bin/env python3
"""Runs flake8 and mypy on all Python scripts, and shellcheck on all shell scripts.

usage: tests/lint.py

A tool that is not installed is reported. It counts as a failed check only if the environment variable CI_TOOLS is `required`. The last line
printed is `N passed, M failed`."""
from __future__ import annotations

import glob
import os
import shutil
import subprocess
import sys

from tally import Tally

TOP = os.path.dirname(os.path.dirname(os.path.abspath(__file__)))
SHELL_SCRIPTS = ["moc", ".ci/run", "bench/run.sh", "tools/install/moc.sh"]
FLAKE8 = ["flake8", "--isolated", "--max-line-length", "140"]
# The imports that mypy follows are checked with their own folder, and packages for arrays are optional.
MYPY = ["mypy", "--strict", "--config-file=", "--cache-dir", os.devnull, "--follow-imports", "silent",
        "--ignore-missing-imports"]
# The examples call packages without types.
MORE_OPTIONS = {"examples": ["--allow-untyped-calls"]}
# The folders of Python scripts, each with the folders of the modules that its scripts import. Each folder is checked separately, because
# some modules of different folders have the same names.
PYTHON_FOLDERS: list[tuple[str, list[str]]] = [
    ("tests", ["tools", "web"]), ("tests/package", ["python"]), ("tools", ["web"]), ("bench", ["python"]), ("examples", ["python"]),
    ("web", []), ("web/tests", ["tests", "web"]), ("python/ploverchaise", [])]


def check_command(tally: Tally, name: str, command: list[str], folder: str = TOP, environment: dict[str, str] | None = None) -> None:
    """Runs a tool, if it is installed, and checks its exit status.

    Parameters
    ----------
    tally : Tally
        The counts of the checks.
    name : str
        What the tool checks.
    command : list of str
        The command.
    folder : str
        The folder in which it runs.
    environment : dict of str to str, optional
        The environment variables, if they differ from those of this program.
    """
    if shutil.which(command[0]) is None:
        print(f"{command[0]} is not installed: it does not check {name}", flush=True)
        if os.environ.get("CI_TOOLS") == "required":
            tally.check(False, f"{command[0]} is required")
        return
    result = subprocess.run(command, cwd=folder, env=environment, stdin=subprocess.DEVNULL, stdout=subprocess.PIPE,
                            stderr=subprocess.STDOUT, text=True)
    tally.check(result.returncode == 0, f"{command[0]} on {name}: status {result.returncode}\n{result.stdout}")


def main() -> int:
    """Runs all tools."""
    tally = Tally()
    tally.check(all(os.path.isfile(os.path.join(TOP, script)) for script in SHELL_SCRIPTS), "a shell script is missing")
    check_command(tally, "the shell scripts", ["shellcheck", *SHELL_SCRIPTS])
    for folder, imports in PYTHON_FOLDERS:
        scripts = sorted(glob.glob(os.path.join(folder, "*.py"), root_dir=TOP))
        tally.check(bool(scripts), f"there is no Python script in {folder}")
        check_command(tally, folder, [*FLAKE8, *scripts])
        path = os.pathsep.join(os.path.join(TOP, name) for name in imports)
        is_package = os.path.join(folder, "__init__.py") in scripts
        parent = os.path.dirname(folder) if is_package else folder
        targets = [f"--package={os.path.basename(folder)}"] if is_package else [os.path.basename(script) for script in scripts]
        command = [*MYPY, *MORE_OPTIONS.get(folder, []), *targets]
        check_command(tally, folder, command, os.path.join(TOP, parent), dict(os.environ, MYPYPATH=path))
    return tally.finish()


if __name__ == "__main__":
    sys.exit(main())
