"""The examples of the docstrings, and their sections."""
from __future__ import annotations

import doctest
import importlib.util
import inspect
import pkgutil
import re
import unittest
from collections.abc import Iterator
from types import ModuleType
from typing import Any

import ploverchaise
from ploverchaise import cells, errors, moc, shared

from .common import TestCase

MODULES = [cells, errors, moc, shared]
# What examples contain that need other packages, and these packages.
OPTIONAL = {r"to_depth29_ranges|uniq_hpx|flatten|numpy": ("numpy",), r"_lonlat": ("numpy", "astropy_healpix"),
            r"SkyCoord": ("numpy", "astropy", "astropy_healpix"), r"\.plot\(": ("numpy", "matplotlib")}
MISSING = [text for text, modules in OPTIONAL.items() if any(importlib.util.find_spec(module) is None for module in modules)]


def examples_of(module: ModuleType) -> Iterator[doctest.DocTest]:
    """Returns the docstrings of a module that have examples, without those that need a package that is not installed."""
    for test in doctest.DocTestFinder(exclude_empty=True).find(module):
        source = "".join(example.source for example in test.examples)
        if source and not any(re.search(text, source) for text in MISSING):
            yield test


def public_callables() -> Iterator[tuple[str, Any]]:
    """Returns the names and the values of the public functions, classes, methods and properties."""
    for name in ploverchaise.__all__:
        value = getattr(ploverchaise, name)
        yield name, value
        if inspect.isclass(value):
            members = ((member, inspect.getattr_static(value, member)) for member in vars(value) if not member.startswith("_"))
            for member, attribute in members:
                if isinstance(attribute, (classmethod, property)) or inspect.isfunction(attribute):
                    yield f"{name}.{member}", attribute


class Docstrings(TestCase):
    """Docstrings."""

    def test_examples(self) -> None:
        count = 0
        for module in MODULES:
            for test in examples_of(module):
                report: list[str] = []
                with self.subTest(name=test.name):
                    result = doctest.DocTestRunner(optionflags=doctest.NORMALIZE_WHITESPACE).run(test, out=report.append)
                    self.assertEqual(result.failed, 0, "".join(report))
                count += len(test.examples)
        self.assertGreater(count, 50)

    def test_each_public_name_has_an_example(self) -> None:
        without = [name for name, value in public_callables() if ">>> " not in (inspect.getdoc(value) or "")]
        self.assertEqual(without, [])

    def test_sections_are_those_of_numpydoc(self) -> None:
        sections = ["Parameters", "Returns", "Attributes", "Raises", "Examples"]
        for name, value in public_callables():
            lines = (inspect.getdoc(value) or "").split("\n")
            titles = [title for title, rule in zip(lines, lines[1:]) if rule and set(rule) == {"-"}]
            with self.subTest(name=name):
                self.assertEqual(titles, sorted(titles, key=sections.index))
                self.assertTrue(all(len(rule) == len(title) for title, rule in zip(lines, lines[1:]) if rule and set(rule) == {"-"}))

    def test_all_modules_are_known(self) -> None:
        # The library has the suffix of a module.
        known = {"libploverchaise"} | {module.__name__.rpartition(".")[2] for module in MODULES}
        names = {module.name for module in pkgutil.iter_modules(ploverchaise.__path__) if not module.name.startswith("_")}
        self.assertEqual(names - known, set())


if __name__ == "__main__":
    unittest.main()
