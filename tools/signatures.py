#!/usr/bin/env python3
"""Makes the table of the functions of the library that the Python package calls, from `crates/moc_c/include/ploverchaise.h`.

usage: tools/signatures.py [--write]

The table is `python/ploverchaise/_signatures.py`. Without `--write` the tool prints the file. `tests/texts.py` compares it in CI."""
from __future__ import annotations

import os
import re
import sys

import guards
from codes import HEADER
from generated import read, write_or_print

PYTHON = os.path.join("python", "ploverchaise", "_signatures.py")
STRUCT = re.compile(r"^typedef struct (\w+) \{\n(.*?)^\}", re.MULTILINE | re.DOTALL)
# The names in Python of the structs, and of the pointers to handles and texts.
STRUCTS = {guards.STORE: "StoreHandle", guards.CLIENT: "ClientHandle", guards.TEXT: "Text", guards.RESULT: "Result"}
POINTERS = {guards.STORE: "STORE", guards.CLIENT: "CLIENT", guards.TEXT: "TEXT"}
# The types of `ctypes` for the numbers of the header.
NUMBERS = {"uint8_t": "c_uint8", "uint32_t": "c_uint32", "uint64_t": "c_uint64", "size_t": "c_size_t"}
# The tables, each with the handle that the functions take first.
TABLES = [("STORE_CALLS", guards.STORE, "The functions of a store, each with the types of its arguments after the store."),
          ("CLIENT_CALLS", guards.CLIENT, "The functions of a client handle, each with the types of its arguments after the handle."),
          ("NUMBER_CALLS", "", "The functions without a store and a client handle, each with the types of its arguments.")]


def ctypes_of(declared_type: str) -> str:
    """Returns the type of `ctypes` for a number or a pointer in C."""
    return "c_void_p" if "*" in declared_type else NUMBERS[declared_type]


def argument_type(argument: str) -> str:
    """Returns the type of a declared argument. An array is passed as an address, and a length."""
    kind = argument.removeprefix("const ").split()[0]
    return POINTERS[kind] if kind in POINTERS else ctypes_of("*" if "*" in argument else kind)


def struct_class(name: str, fields: str) -> list[str]:
    """Returns the lines of the class of a struct."""
    pairs = [(field.strip(" *"), ctypes_of(kind + "*" * ("*" in field)))
             for kind, _, names in (line.strip().partition(" ") for line in fields.split(";")) for field in names.split(",") if field]
    attributes = [f"    {field}: int{' | None' * (kind == 'c_void_p')}" for field, kind in pairs]
    fields_of_class = ", ".join(f'("{field}", {kind})' for field, kind in pairs)
    return [f"class {STRUCTS[name]}(ctypes.Structure):", f'    """`{name}`."""', "", f"    _fields_ = [{fields_of_class}]", *attributes,
            "", ""]


def signatures(functions: list[guards.Function], handle: str) -> list[str]:
    """Returns a line for each function that returns a result and takes a handle first, or no handle."""
    lines = []
    for function in functions:
        first = function.arguments[0].removeprefix("const ").split()[0]
        if function.result == guards.RESULT and (first if first in (guards.STORE, guards.CLIENT) else "") == handle:
            types = [argument_type(argument) for argument in function.arguments[bool(handle):]]
            lines.append(f'    "{function.name}": ({", ".join(types)}{"," * (len(types) == 1)}),')
    return lines


def python_module(header: str) -> str:
    """Returns the module of the Python package."""
    lines: list[str] = []
    for name, fields in STRUCT.findall(header):
        if name in STRUCTS:
            lines += struct_class(name, fields)
    lines += [f"{POINTERS[name]} = ctypes.POINTER({STRUCTS[name]})" for name in POINTERS]
    functions = guards.parse_header(header)
    for table, handle, comment in TABLES:
        lines += ["", f"# {comment}", f"{table}: dict[str, tuple[Any, ...]] = {{", *signatures(functions, handle), "}"]
    lines += ["", "# The functions that return the id of a new coverage.", "ID_CALLS = frozenset(["]
    lines += [f'    "{function.name}",' for function in functions if function.name in guards.RETURNING_ID]
    used = [name for name in ("c_size_t", "c_uint8", "c_uint32", "c_uint64", "c_void_p") if any(name in line for line in lines)]
    head = ['"""The functions of the library, with the types of their arguments.', "",
            f'Made by `tools/signatures.py` from `{HEADER}`."""', "from __future__ import annotations", "", "import ctypes",
            f"from ctypes import {', '.join(used)}", "from typing import Any", "", ""]
    return "\n".join([*head, *lines, "])", ""])


def generated_files() -> dict[str, str]:
    """Returns the text of the module by its path."""
    return {PYTHON: python_module(read(HEADER))}


def main() -> int:
    """Prints or writes the module."""
    return write_or_print("Makes the table of the functions that the Python package calls.", generated_files, list)


if __name__ == "__main__":
    sys.exit(main())
