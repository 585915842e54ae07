#!/usr/bin/env python3
"""Writes docs/pictures/*.svg, the pictures of the pages that are not made by `moc draw`.

usage: tools/pictures.py [--write]

The pictures need no package. Their numbers are computed, or are those of sources and pages: the constants of the crates, crates.txt, an
example of docs/SCRIPTS.md, and tables of bench/README.md. Without `--write` the tool prints the pictures, each after a line with its path.
`tests/texts.py` compares them with the files in CI. The exit status is 1 if a ratio of bench/README.md is not that of its times."""
from __future__ import annotations

import os
import sys

from charts import BENCH, draw_measurements, wrong_ratios
from diagrams import draw_claims, draw_crates, draw_storage
from generated import write_or_print
from sky_pictures import draw_hierarchy, draw_numberings

FOLDER = os.path.join("docs", "pictures")
PICTURES = {
    "cells": draw_hierarchy, "numberings": draw_numberings, "storage": draw_storage, "claims": draw_claims, "crates": draw_crates,
    "measurements": draw_measurements,
}


def generated_files() -> dict[str, str]:
    """Returns the text of each picture by its path."""
    return {os.path.join(FOLDER, f"{name}.svg"): draw() for name, draw in PICTURES.items()}


def failures() -> list[str]:
    """Returns the operations of bench/README.md whose ratio is not that of their times."""
    return [f"{BENCH}: the ratio of {operation!r} is not that of its times" for operation in wrong_ratios()]


def main() -> int:
    """Prints or writes the pictures."""
    return write_or_print("Writes docs/pictures/*.svg.", generated_files, failures)


if __name__ == "__main__":
    sys.exit(main())
