"""The functions of the library, as the header declares them, with invalid identifiers, orders, numbers and lengths."""
from __future__ import annotations

import ctypes
import os
import re
import subprocess
from collections.abc import Sequence
from typing import Any, Optional

from ploverchaise import MOC, _codes, _library, _signatures

from .common import TestCase

TOP = os.path.dirname(os.path.dirname(os.path.dirname(os.path.abspath(__file__))))
HEADER = os.path.join(TOP, "crates", "moc_c", "include", "ploverchaise.h")
BUFFER_TOO_SHORT, NO_SUCH_SET, NO_SUCH_ORDER, LENGTHS_DIFFER, NO_SUCH_CELL, NULL, MISALIGNED, OVERLAP = 2, 3, 4, 5, 6, 9, 80, 81
NO_ID = 2**64 - 1


def read_header() -> str:
    """Returns the header without its comments."""
    with open(HEADER, encoding="utf-8") as file:
        return re.sub(r"/\*.*?\*/", "", file.read(), flags=re.DOTALL)


def make_array(*numbers: int) -> Any:
    """Returns an array of numbers, as C has it."""
    return (ctypes.c_uint64 * len(numbers))(*numbers)


# The types of an array, which are those of its address and its length.
ARRAY = (ctypes.c_void_p, ctypes.c_size_t)
# The functions that take an order and numbers of cells, and write a number or a row for each, and those that list something of a set.
CONVERSIONS = [name for name, types in _signatures.NUMBER_CALLS.items() if types == (ctypes.c_uint32, *ARRAY, *ARRAY)]
LISTS = [name for name, types in _signatures.STORE_CALLS.items() if types == (ctypes.c_uint64, *ARRAY)]


class Header(TestCase):
    """The functions that the package imports, and the exports of the library."""

    def test_functions_are_those_of_the_header(self) -> None:
        store, handle = _signatures.STORE, _signatures.CLIENT
        handles = {"moc_store": store, "moc_client": handle, "moc_text": _signatures.TEXT}
        types: dict[str, Any] = {**handles, "uint32_t": ctypes.c_uint32, "uint64_t": ctypes.c_uint64, "size_t": ctypes.c_size_t}
        declared = dict(re.findall(r"\bmoc_result moc_(\w+)\(([^;]*)\);", read_header()))
        imported: dict[str, tuple[Any, ...]] = {**{name: (store, *kinds) for name, kinds in _signatures.STORE_CALLS.items()},
                                                **{name: (handle, *kinds) for name, kinds in _signatures.CLIENT_CALLS.items()},
                                                **_signatures.NUMBER_CALLS}
        self.assertEqual(sorted(declared), sorted(imported))
        for name, arguments in declared.items():
            expected = []
            for argument in arguments.replace("(*out)[8]", "*out").split(","):
                kind = argument.replace("const", "").split()[0]
                expected.append(types[kind] if "*" not in argument or kind in handles else ctypes.c_void_p)
            self.assertEqual(list(imported[name]), expected, name)

    def test_the_library_exports_nothing_else(self) -> None:
        path = _library.library._name
        exported = subprocess.run(["nm", "-D", "--defined-only", path], check=True, stdout=subprocess.PIPE, text=True).stdout
        declared = re.findall(r"\b(?:moc_result |bool |void |const char \*)(moc_\w+)\(", read_header())
        self.assertEqual(sorted(re.findall(r" T (\w+)$", exported, re.MULTILINE)), sorted(declared))
        self.assertEqual(len(exported.splitlines()), len(declared))
        dynamic = subprocess.run(["readelf", "-d", path], check=True, stdout=subprocess.PIPE, text=True).stdout
        self.assertIn("Library soname: [libploverchaise.so.0]", dynamic)
        self.assertEqual(re.findall(r"Shared library: \[(.*)\]", dynamic), ["libc.so.6"])

    def test_errors_are_those_of_the_header(self) -> None:
        in_header = {int(code): name for name, code in re.findall(r"\bMOC_(\w+) = (\d+)", read_header())}
        errors = {0: "Ok", _codes.MEMORY: "Memory", **{code: kind.name for code, kind in _codes.KINDS.items()}}
        self.assertEqual(sorted(errors), sorted(in_header))
        for code, name in in_header.items():
            # The first word of some names of the header is that of a group of errors, such as ASCII.
            words = [word.capitalize() for word in name.split("_")]
            self.assertIn(errors[code], ("".join(words), "".join(words[1:])))


class InvalidArguments(TestCase):
    """Arguments that the package never passes."""

    def call(self, name: str, *arguments: Any) -> tuple[int, int, int]:
        """Calls a function of the library with the store of the set, and returns its result. An error of a call that returns an id has its
        position as the first number, where the call returns no id."""
        store = (self.moc._store,) if name in _signatures.STORE_CALLS else ()
        functions = _library.store_functions if store else _library.number_functions
        result = functions[name](*store, *arguments)
        if result.code and name in _signatures.ID_CALLS:
            self.assertEqual(result.first, NO_ID, name)
            return result.code, result.second, 0
        return result.code, result.first, result.second

    def make_arguments(self, types: Sequence[Any], set_id: Optional[int] = None, order: int = 3) -> list[Any]:
        """Returns arguments of these types, which are valid except the identifier of the set or the order. Each array has one number."""
        arguments: list[Any] = []
        for previous, kind in zip((None, *types), types):
            if kind is ctypes.c_void_p:
                arguments.append(make_array(*[0] * 8))
            elif previous is ctypes.c_void_p:
                arguments.append(1)
            elif kind is ctypes.c_uint32:
                arguments.append(order)
            elif kind is _signatures.TEXT:
                arguments.append(_signatures.Text())
            elif kind is _signatures.STORE:
                arguments.append(_library.open_store())
            else:
                arguments.append(self.moc._id if set_id is None else set_id)
        return arguments

    def setUp(self) -> None:
        self.moc = MOC.from_string("1/1-2 4 2/12-14 21 23 25")

    def test_identifiers_without_a_set(self) -> None:
        code, stale, _ = self.call("empty")
        self.assertEqual((code, self.call("free", stale)[0]), (0, 0))
        # The last two are the id of another store, and 0.
        for set_id in (stale, NO_ID, MOC()._id, 0):
            for name, types in _signatures.STORE_CALLS.items():
                if types[:1] == (ctypes.c_uint64,):
                    with self.subTest(name=name, set_id=set_id):
                        self.assertEqual(self.call(name, *self.make_arguments(types, set_id=set_id)), (NO_SUCH_SET, set_id, 0))
        for name in re.findall(r"moc_(\w+)\((?:const )?moc_store \*store, uint64_t a, uint64_t b\);", read_header()):
            self.assertEqual(self.call(name, self.moc._id, NO_ID), (NO_SUCH_SET, NO_ID, 0))

    def test_identifiers_are_not_reused(self) -> None:
        _, first, _ = self.call("empty")
        self.assertEqual(self.call("free", first), (0, 0, 0))
        self.assertEqual(self.call("empty"), (0, first + 1, 0))
        self.assertEqual(self.call("free", first), (NO_SUCH_SET, first, 0))

    def test_invalid_orders(self) -> None:
        for name, types in {**_signatures.STORE_CALLS, **_signatures.NUMBER_CALLS}.items():
            if ctypes.c_uint32 in types:
                for order in (30, 31, 254, 255, 256, 259, 2**32 - 1):
                    if order == _library.NO_ORDER and name in ("write_ascii", "write_json", "describe"):
                        continue
                    with self.subTest(name=name, order=order):
                        # An order above 255 is reported as 254.
                        reported = order if order < 256 else 254
                        self.assertEqual(self.call(name, *self.make_arguments(types, order=order)), (NO_SUCH_ORDER, reported, 0))

    def test_lengths_that_differ(self) -> None:
        one, two, out = make_array(0), make_array(0, 0), make_array(*[0] * 16)
        for name in CONVERSIONS:
            for array, length in ((two, 1), (one, 2), (one, 0)):
                self.assertEqual(self.call(name, 1, array, len(array), out, length), (LENGTHS_DIFFER, 0, 0), name)
        for first, second in ((0, 1), (1, 0), (2, 1), (1, 2)):
            self.assertEqual(self.call("uniq_to_nest", make_array(4), 1, out, first, make_array(0, 0), second), (LENGTHS_DIFFER, 0, 0))
            pixels = make_array(*[0] * first)
            self.assertEqual(self.call("contains_all", self.moc._id, pixels, first, out, second), (LENGTHS_DIFFER, 0, 0))
        for lengths in ((0, 1, 1), (1, 0, 1), (1, 1, 0), (2, 1, 1)):
            faces, xs, ys = (part for length in lengths for part in [(make_array(0, 0), length)])
            self.assertEqual(self.call("nest_to_face_xy", 1, one, 1, *faces, *xs, *ys), (LENGTHS_DIFFER, 0, 0))

    def test_short_buffers(self) -> None:
        set_id = self.moc._id
        buffer = make_array(*[7] * 64)
        for name in LISTS:
            code, length, _ = self.call(name, set_id, None, 0)
            self.assertEqual((code, length > 0), (BUFFER_TOO_SHORT, True), name)
            self.assertEqual(self.call(name, set_id, buffer, length - 1), (BUFFER_TOO_SHORT, length, 0), name)
            self.assertEqual(self.call(name, set_id, make_array(*[7] * 64), length), (0, length, 0), name)
        # The set has nine cells in five ranges.
        self.assertEqual([self.call(name, set_id, None, 0)[1] for name in ("cells", "ranges")], [9, 5])

    def test_empty_arrays(self) -> None:
        none = make_array()
        for name in CONVERSIONS:
            self.assertEqual(self.call(name, 1, none, 0, none, 0), (0, 0, 0))
        self.assertEqual(self.call("uniq_to_nest", none, 0, none, 0, none, 0), (0, 0, 0))
        _, empty, _ = self.call("empty")
        for name in ("ranges", "cells"):
            self.assertEqual(self.call(name, empty, none, 0), (0, 0, 0))
        self.assertEqual(self.call("contains_all", self.moc._id, none, 0, none, 0), (0, 0, 0))

    def test_null_pointers(self) -> None:
        for name, types in {**_signatures.STORE_CALLS, **_signatures.NUMBER_CALLS}.items():
            for place, kind in enumerate(types):
                if kind is ctypes.c_void_p:
                    arguments = self.make_arguments(types)
                    arguments[place] = None
                    with self.subTest(name=name, argument=place):
                        self.assertEqual(self.call(name, *arguments), (NULL, place + (name in _signatures.STORE_CALLS), 0))
        handles = (_signatures.STORE, _signatures.CLIENT, _signatures.TEXT)
        for name, call in {**_library.store_functions, **_library.client_functions}.items():
            with self.subTest(name=name):
                result = call(*(None if kind in handles else 0 for kind in getattr(call, "argtypes")))
                self.assertEqual((result.code, result.first, result.second), (NULL, NO_ID if name in _signatures.ID_CALLS else 0, 0))

    def test_misaligned_pointers(self) -> None:
        misaligned = ctypes.addressof(out := make_array(0, 0)) + 1
        for name in CONVERSIONS:
            self.assertEqual(self.call(name, 1, misaligned, 1, make_array(*[0] * 8), 1), (MISALIGNED, 1, 0), name)
            self.assertEqual(self.call(name, 1, make_array(0), 1, misaligned, 1), (MISALIGNED, 3, 0), name)
        self.assertEqual(self.call("cells", self.moc._id, misaligned, 1), (MISALIGNED, 2, 0))
        self.assertEqual(list(out), [0, 0])

    def test_overlapping_arrays(self) -> None:
        out = make_array(*[0] * 16)
        for name in CONVERSIONS:
            self.assertEqual(self.call(name, 1, out, 1, out, 1), (OVERLAP, 3, 0), name)
        self.assertEqual(self.call("contains_all", self.moc._id, out, 1, out, 1), (OVERLAP, 4, 0))
        self.assertEqual(list(out), [0] * 16)

    def test_numbers_without_a_cell(self) -> None:
        out = make_array(*[0] * 32)
        for name in CONVERSIONS:
            self.assertEqual(self.call(name, 1, make_array(0, 48, 49), 3, out, 3), (NO_SUCH_CELL, 1, 0))
