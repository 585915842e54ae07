"""Finds the parts of the installed Rattle toolchain."""
from __future__ import annotations

import os
import shutil
import subprocess


def is_installed() -> bool:
    """Returns whether the toolchain is installed."""
    return shutil.which("rt") is not None


def path_of(*parts: str) -> str:
    """Returns the path of a file or folder of the toolchain, from the folder of the toolchain."""
    page = subprocess.run(["rt", "doc"], check=True, stdout=subprocess.PIPE, text=True).stdout.strip()
    return os.path.join(os.path.dirname(page), *parts)
