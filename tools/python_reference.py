#!/usr/bin/env python3
"""Writes docs/PYTHON_API.md, the reference of the Python package, from its docstrings.

usage: tools/python_reference.py [--write]

The page has each name of `ploverchaise.__all__`, and each public method, property and attribute of its classes, with its signature and its
docstring in numpydoc. Without `--write` the tool prints the page. The exit status is 1 if something public has no docstring.
`tests/texts.py` compares the page in CI."""
from __future__ import annotations

import ast
import os
import re
import sys
import textwrap
from typing import NamedTuple, Union

from generated import read, write_or_print

PACKAGE = os.path.join("python", "ploverchaise")
PAGE = os.path.join("docs", "PYTHON_API.md")
HEAD = """\
# Python API

This page is the reference of the Python package `ploverchaise`, for Python programmers. [Python](PYTHON.md) introduces the package, and has
examples by task. `tools/python_reference.py --write` takes the text from the docstrings, and CI compares the page and runs the examples.

A **MOC** (Multi-Order Coverage map, [MOC 2.0](https://www.ivoa.net/documents/MOC/)) is a set of
[HEALPix](https://healpix.sourceforge.io/) cells of **orders** 0 to 29. Order k has 12·4^k cells, with nested numbers from 0. The **NUNIQ**
number of cell i of order k is 4^(k+1) + i. A **pixel** is a cell of order 29, by its nested number. If a description does not state
otherwise, n is the number of ranges of the MOC. After a signature is the type of the result, if it does not depend on the arguments. The
types of arguments are in the lists of parameters.

## Contents

"""
COLUMNS = 140
# The groups of the methods of a class in the contents, each with its first method.
GROUPS = {"MOC": {"new_empty": "Constructors", "union": "Set operations", "issubset": "Comparisons and queries",
                  "ranges": "Ranges, cells and texts"}}
# A heading of a section of a docstring, and the sections whose entries are indented descriptions.
SECTION = re.compile(r"^(\w[\w ]*)\n-+\n", re.MULTILINE)
# The indentation of the description of an entry.
INDENTATION = "    "
WITH_ENTRIES = frozenset(["Parameters", "Returns", "Yields", "Raises", "Attributes"])
Function = Union[ast.FunctionDef, ast.AsyncFunctionDef]


class Entry(NamedTuple):
    """Something public: its name, its signature or nothing, the level of its heading, and its docstring."""

    name: str
    signature: str
    level: int
    docstring: str


def decorators_of(function: Function) -> list[str]:
    """Returns the names of the decorators of a function."""
    return [ast.unparse(decorator).split("(")[0].split(".")[-1] for decorator in function.decorator_list]


def result_of(name: str, function: Function) -> str:
    """Returns the type of the result of a function, or nothing if it depends on the arguments."""
    if function.returns is None or function.name == "__init__" or ast.unparse(function.returns) == "Any":
        return ""
    return re.sub(r"\bSelf\b", name.split(".")[0], ast.unparse(function.returns))


def signature_of(name: str, function: Function) -> str:
    """Returns the name and the arguments of a function, without `self` and types, and the type of its result."""
    kinds = decorators_of(function)
    result = result_of(name, function)
    if "property" in kinds:
        return f"{name}: {result}"
    arguments = function.args
    is_bound = "." in name and "staticmethod" not in kinds
    for argument in (*arguments.posonlyargs, *arguments.args, *arguments.kwonlyargs, arguments.vararg, arguments.kwarg):
        if argument is not None:
            argument.annotation = None
    if is_bound:
        (arguments.posonlyargs or arguments.args).pop(0)
    return f"{name}({ast.unparse(arguments)})" + (f" -> {result}" if result else "")


def members_of(name: str, nodes: list[ast.stmt]) -> dict[str, Function]:
    """Returns the public functions of a class or a module. The last one of each name counts, after its overloads."""
    functions = [node for node in nodes if isinstance(node, (ast.FunctionDef, ast.AsyncFunctionDef))]
    return {f"{name}{node.name}": node for node in functions if not node.name.startswith("_") and "setter" not in decorators_of(node)}


def exported_names() -> dict[str, str]:
    """Returns the module of each name of `__all__`, in the order of the package's imports."""
    tree = ast.parse(read(os.path.join(PACKAGE, "__init__.py")))
    modules = {alias.name: node.module or "" for node in tree.body if isinstance(node, ast.ImportFrom) for alias in node.names}
    exported = next(ast.literal_eval(node.value) for node in tree.body
                    if isinstance(node, ast.Assign) and ast.unparse(node.targets[0]) == "__all__")
    return {name: modules[name] for name in exported}


def entries() -> list[Entry]:
    """Returns what is public: classes with their members, and then functions."""
    classes, functions = [], []
    for name, module in exported_names().items():
        body = ast.parse(read(os.path.join(PACKAGE, f"{module}.py"))).body
        definition = next((node for node in body if isinstance(node, ast.ClassDef) and node.name == name), None)
        if definition is None:
            function = members_of("", body)[name]
            functions.append(Entry(name, signature_of(name, function), 2, ast.get_docstring(function) or ""))
            continue
        docstring = ast.get_docstring(definition) or ""
        constructors = [node for node in definition.body if isinstance(node, ast.FunctionDef) and node.name == "__init__"]
        has_arguments = "\nParameters\n" in docstring
        signature = signature_of(f"{name}.__init__", constructors[0]).replace(".__init__", "") if has_arguments else ""
        classes.append(Entry(name, signature, 2, docstring))
        members = members_of(f"{name}.", definition.body)
        classes += [Entry(path, signature_of(path, node), 3, ast.get_docstring(node) or "") for path, node in members.items()]
    return [*classes, *functions]


def entry_lines(text: str) -> list[str]:
    """Returns the entries of a section, each with its description, as a list."""
    lines: list[str] = []
    for line in text.strip("\n").splitlines():
        if line.startswith(" ") or not line:
            lines.append(f"  {line.removeprefix(INDENTATION)}" if line else "")
        else:
            name, separator, kind = line.partition(" : ")
            lines.append(f"- `{name}`: {kind}. " if separator else f"- {line}: ")
    joined = re.sub(r"(: |\. )\n  ", r"\1", "\n".join(lines))
    items = re.split(r"(?m)^(?=- )", joined)
    wrapped = []
    for item in filter(None, items):
        parts = item.strip("\n").split("\n\n")
        wrapped += textwrap.wrap(" ".join(parts[0].split()), COLUMNS, subsequent_indent="  ", break_long_words=False,
                                 break_on_hyphens=False)
        for part in parts[1:]:
            wrapped += ["", *part.splitlines()]
    return wrapped


def docstring_lines(docstring: str) -> list[str]:
    """Returns a docstring in numpydoc as Markdown."""
    introduction, *sections = SECTION.split(docstring)
    lines = [introduction.strip("\n")]
    for title, text in zip(sections[::2], sections[1::2]):
        lines += ["", f"**{title}**", ""]
        if title in WITH_ENTRIES:
            lines += entry_lines(text)
        elif ">>>" in text:
            lines += ["```pycon", text.strip("\n"), "```"]
        else:
            lines.append(text.strip("\n"))
    return lines


def anchor_of(heading: str) -> str:
    """Returns the anchor of a heading, by the rules of GitHub."""
    return re.sub(r"[^\w\- ]", "", heading.lower()).replace(" ", "-")


def link_to(entry: Entry) -> str:
    """Returns a link to an entry, with the name of a member alone."""
    return f"[`{entry.name.split('.')[-1]}`](#{anchor_of(entry.name)})"


def contents_of(all_entries: list[Entry]) -> list[str]:
    """Returns the contents: a line for each class or function, and below a class a line for each group of members."""
    lines: list[str] = []
    for entry in all_entries:
        if entry.level == 2:
            lines.append(f"- {link_to(entry)}")
            continue
        class_name, _, member = entry.name.partition(".")
        group = GROUPS.get(class_name, {}).get(member)
        if group is not None or not lines[-1].startswith("  "):
            lines.append(f"  - {group or 'Methods'}: {link_to(entry)}")
        else:
            lines[-1] += f", {link_to(entry)}"
    return [part for line in lines
            for part in textwrap.wrap(line, COLUMNS, subsequent_indent="    ", break_long_words=False, break_on_hyphens=False)]


def make_files() -> dict[str, str]:
    """Returns the page."""
    lines: list[str] = []
    for entry in entries():
        lines += ["", f"{'#' * entry.level} `{entry.name}`", ""]
        if entry.signature:
            lines += ["```text", *textwrap.wrap(entry.signature, COLUMNS, subsequent_indent="    "), "```", ""]
        lines += docstring_lines(entry.docstring)
    return {PAGE: HEAD + "\n".join([*contents_of(entries()), *lines]) + "\n"}


def find_failures() -> list[str]:
    """Returns what has no docstring, and the first methods of groups that do not exist."""
    names = {entry.name for entry in entries()}
    unknown = [f"{class_name}.{method}" for class_name, groups in GROUPS.items() for method in groups]
    return [*(f"{entry.name} has no docstring" for entry in entries() if not entry.docstring),
            *(f"{name} does not exist" for name in unknown if name not in names)]


def main() -> int:
    """Prints or writes the page."""
    return write_or_print("Makes the reference of the Python package.", make_files, find_failures)


if __name__ == "__main__":
    sys.exit(main())
