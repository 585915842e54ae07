"""The example for Dask, on two worker processes."""
from __future__ import annotations

import importlib.util
import json
import os
import subprocess
import sys
from typing import Any

from .common import TOP, TestCase, needs

EXAMPLE = os.path.join(TOP, "examples", "dask_union.py")


def load_example() -> Any:
    """Returns the module of the example."""
    spec = importlib.util.spec_from_file_location("dask_union", EXAMPLE)
    assert spec is not None and spec.loader is not None
    module = importlib.util.module_from_spec(spec)
    spec.loader.exec_module(module)
    return module


@needs("numpy", "distributed")
class Example(TestCase):
    """The example of docs/PYTHON.md."""

    def test_union_and_counts(self) -> None:
        import numpy

        catalogues, rows, pixels = 20, 500, 50_000
        result = subprocess.run([sys.executable, EXAMPLE, "--catalogues", str(catalogues), "--rows", str(rows), "--pixels", str(pixels),
                                 "--workers", "2"], check=True, stdout=subprocess.PIPE, text=True, timeout=120)
        report = json.loads(result.stdout)
        example = load_example()
        cells = numpy.unique(numpy.concatenate([example.cells_of_catalogue(number, rows) for number in range(catalogues)]))
        inside = numpy.isin(example.random_pixels(0, pixels) >> 2 * (29 - example.ORDER), cells).sum()
        self.assertEqual((report["cells"], report["inside"]), (len(cells), inside))
        self.assertGreater(report["inside"], 0)
