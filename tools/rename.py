#!/usr/bin/env python3
"""Renames identifiers in the sources, definitions, proofs and mutants of the crates, and in the code that pages quote.

A name of a crate also occurs in its proofs, in the names of their files and folders, in mutants, and in proofs of crates above. This tool
renames it in all these places. It replaces whole identifiers only, and changes comments and pages only between backquotes.

usage: tools/rename.py TABLE..

A table has one rename a line: a scope, the old name and the new name, separated by tabs. Lines that begin with `#` are skipped. Scopes are

  *                    every crate
  moc_lists            one crate
  moc_lists:ranges     one module: `src/ranges.rt`, `src/ranges/`, `proofs/ranges/`, and mutants of these sources
  clause:*             clauses of contracts with this name, in every crate; `clause:moc_lists` in one crate

The narrowest scope of a file counts. The tool prints each file in which the new name is in use already, or in which two names become one.
It leaves strings alone, but for names in braces (`{name}`). Afterwards run `rt fmt` and `rt check` in each changed crate,
`tests/mutants.py --files`, `tests/texts.py`, and `tools/definitions.py --write`."""
from __future__ import annotations

import collections
import os
import re
import subprocess
import sys
from collections.abc import Callable
from typing import NamedTuple

TOP = os.path.dirname(os.path.dirname(os.path.abspath(__file__)))
IDENTIFIER = re.compile(r"[A-Za-z_][A-Za-z0-9_]*")
STRING = r"(?P<string>b?r?\"(?:\\[\s\S]|[^\"\\])*\")"
SOURCE = re.compile(rf"(?P<comment>//[^\n]*)|{STRING}|(?P<character>b?'(?:\\.|[^\\'\n])')|(?P<name>{IDENTIFIER.pattern})")
PROOF = re.compile(rf"(?P<comment>--[^\n]*)|{STRING}|(?P<name>{IDENTIFIER.pattern})")
CAPTURE = re.compile(r"(?<!\{)\{([a-z_][a-z0-9_]*)(?=[:}])")
# A name that the toolchain gives to a step of a proof, in front of a hyphen.
TOOLCHAIN_STEPS = frozenset(["told"])
# The mark of a clause name while the other names of a file are replaced.
CLAUSE_MARK = "clause_to_rename_"


class Rename(NamedTuple):
    """A rename in a scope."""

    scope: str
    old: str
    new: str


def read_tables(paths: list[str]) -> list[Rename]:
    """Returns the renames of all tables."""
    renames = []
    for path in paths:
        with open(path, encoding="utf-8") as table:
            for number, line in enumerate(table, 1):
                if not line.strip() or line.startswith("#"):
                    continue
                fields = [field.strip() for field in line.split("\t")]
                if len(fields) != 3 or not all(IDENTIFIER.fullmatch(name) for name in fields[1:]):
                    raise ValueError(f"{path}:{number}: a scope and two names are expected, separated by tabs")
                renames.append(Rename(*fields))
    return renames


def depth_of_scope(scope: str, path: str, mutated: str) -> int:
    """Returns how narrow a scope is that contains a file, or 0 if it does not contain the file.

    Parameters
    ----------
    scope : str
        The scope, without `clause:`.
    path : str
        The path of the file in the checkout.
    mutated : str
        The path of the source that the file mutates, in its crate, if the file is a mutant.
    """
    if scope == "*":
        return 1
    crate, _, module = scope.partition(":")
    if not path.startswith(f"crates/{crate}/"):
        return 0
    if not module:
        return 2
    rest = mutated or path[len(f"crates/{crate}/"):]
    folders = (f"src/{module}/", f"proofs/{module}/", f"{module}/")
    is_inside = rest in (f"src/{module}.rt", f"{module}.antt") or rest.startswith(folders)
    return 3 + module.count("/") if is_inside else 0


def names_in(renames: list[Rename], path: str, mutated: str, prefix: str = "") -> dict[str, str]:
    """Returns the new name of each name that is renamed in a file."""
    found: dict[str, tuple[int, str]] = {}
    for scope, old, new in renames:
        if scope.startswith("clause:") != bool(prefix):
            continue
        depth = depth_of_scope(scope[len(prefix):], path, mutated)
        if depth > found.get(old, (0, ""))[0]:
            found[old] = (depth, new)
    return {old: new for old, (_, new) in found.items() if old != new}


def replace_in_backquotes(text: str, names: dict[str, str], is_renamed: Callable[[str], bool]) -> str:
    """Replaces names in code between backquotes."""
    def replace(name: re.Match[str]) -> str:
        return names.get(name[0], name[0]) if is_renamed(name[0]) else name[0]
    return re.sub(r"`[^`\n]*`", lambda code: IDENTIFIER.sub(replace, code[0]), text)


def replace_in_code(text: str, names: dict[str, str], tokens: re.Pattern[str]) -> str:
    """Replaces names in a source or a proof."""
    def replace(token: re.Match[str]) -> str:
        if token.lastgroup == "name":
            is_step = tokens is PROOF and token[0] in TOOLCHAIN_STEPS and text[token.end():token.end() + 1] == "-"
            return token[0] if is_step else names.get(token[0], token[0])
        if token.lastgroup == "comment":
            return replace_in_backquotes(token[0], names, lambda name: True)
        if token.lastgroup == "string":
            return CAPTURE.sub(lambda capture: "{" + names.get(capture[1], capture[1]), token[0])
        return token[0]
    return tokens.sub(replace, text)


def is_distinctive(name: str) -> bool:
    """Returns whether a name is surely an identifier, and no English word."""
    return "_" in name or re.search(r"[a-z][A-Z]", name) is not None


def replace_in_page(text: str, names: dict[str, str]) -> str:
    """Replaces names in the Rattle blocks of a page, and distinctive names in its other code."""
    lines, language = [], None
    for line in text.split("\n"):
        if line.lstrip().startswith("```"):
            language = line.strip()[3:] if language is None else None
        elif language is None:
            line = replace_in_backquotes(line, names, is_distinctive)
        elif language.startswith("rust"):
            line = replace_in_code(line, names, SOURCE)
        lines.append(line)
    return "\n".join(lines)


def mark_clauses(text: str, clauses: dict[str, str], path: str) -> str:
    """Puts a mark before each renamed clause name, so that the renames of other names leave it alone."""
    if not clauses:
        return text
    words = "|".join(clauses)
    form = (rf"(\b(?:ensures|requires)\.|-clause-)({words})\b" if path.endswith(".antt")
            else rf"(\b(?:ensures|requires)\s+)({words})(?=\s*\{{)")
    return re.sub(form, rf"\g<1>{CLAUSE_MARK}\g<2>", text)


def report_collisions(path: str, text: str, names: dict[str, str], tokens: re.Pattern[str]) -> None:
    """Prints the new names of a file that are in use already, and those that two names get."""
    present = {token[0] for token in tokens.finditer(text) if token.lastgroup == "name"}
    used = [name for name in names if name in present]
    counts = collections.Counter(names[name] for name in used)
    for name in used:
        if names[name] in present and names[name] not in names:
            print(f"{path}: {names[name]} is in use already, and becomes the new name of {name}")
        if counts[names[name]] > 1:
            print(f"{path}: {name} is one of {counts[names[name]]} names that become {names[name]}")


def renamed_path(renames: list[Rename], path: str) -> str:
    """Returns the path of a source, a definition or a proof after the renames of modules, types and functions."""
    parts = path.split("/")
    for place in range(2, len(parts)):
        stem, extension = os.path.splitext(parts[place])
        plus = "+" if stem.startswith("+") else ""
        inside = path if extension else "/".join(parts[:place + 1]) + "/"
        new = names_in(renames, inside, "").get(stem.lstrip("+"))
        if new and parts[place] not in ("src", "specs", "proofs"):
            parts[place] = plus + new + extension
    return "/".join(parts)


def renamed_text(renames: list[Rename], path: str, text: str) -> str:
    """Returns the text of a file after all renames."""
    if path.endswith(".md"):
        return replace_in_page(text, names_in(renames, path, ""))
    tokens = PROOF if path.endswith(".antt") else SOURCE
    mutated = text.split("\n", 1)[0][len("file: "):] if path.endswith(".edit") else ""
    names, clauses = names_in(renames, path, mutated), names_in(renames, path, mutated, "clause:")
    marked = mark_clauses(text, clauses, path)
    report_collisions(path, marked, names, tokens)
    if mutated:
        crate = "/".join(path.split("/")[:2])
        source = renamed_path(renames, f"{crate}/{mutated}")[len(crate) + 1:]
        marked = f"file: {source}\n" + replace_in_code(marked.split("\n", 1)[1], names, tokens)
    else:
        marked = replace_in_code(marked, names, tokens)
    return re.sub(rf"{CLAUSE_MARK}(\w+)", lambda clause: clauses[clause[1]], marked)


def main() -> int:
    """Renames all names of the tables."""
    if len(sys.argv) < 2:
        print(__doc__)
        return 2
    renames = read_tables(sys.argv[1:])
    listing = subprocess.run(["git", "ls-files"], cwd=TOP, stdout=subprocess.PIPE, text=True, check=True).stdout
    for path in listing.splitlines():
        full = os.path.join(TOP, path)
        if not path.endswith((".rt", ".antt", ".edit", ".md")) or not os.path.exists(full):
            continue
        with open(full, encoding="utf-8") as file:
            text = file.read()
        is_code = path.startswith("crates/") and path.endswith((".rt", ".antt"))
        target = os.path.join(TOP, renamed_path(renames, path)) if is_code else full
        new = renamed_text(renames, path, text)
        if target != full:
            os.makedirs(os.path.dirname(target), exist_ok=True)
            os.rename(full, target)
        if new != text:
            with open(target, "w", encoding="utf-8") as file:
                file.write(new)
    return 0


if __name__ == "__main__":
    sys.exit(main())
