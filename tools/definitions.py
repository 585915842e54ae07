#!/usr/bin/env python3
"""Writes docs/DEFINITIONS.md from the definitions in `crates/moc_*/specs`.

The page has the text of docs/DEFINITIONS.head.md, and then a section for each crate in the order of crates.txt. A section has the first
comment of each public file of definitions, and each definition with the comment above it. Records are listed with their fields, data types
with their constructors. Files of lemmas are left out. The last section lists the definitions in `specs/Private` that the contracts of
public functions or public definitions use. docs/definitions_examples.tsv has examples: a file, a name and an example in each row.

usage: tools/definitions.py [--write]

Without `--write` it prints the page. The exit status is 1 if a definition has no comment, or an example belongs to no definition."""
from __future__ import annotations

import glob
import itertools
import os
import re
import sys
import textwrap
from collections.abc import Iterator
from typing import NamedTuple

from crates import root_of
from generated import TOP, read, write_or_print

PAGE = os.path.join("docs", "DEFINITIONS.md")
HEAD = os.path.join("docs", "DEFINITIONS.head.md")
EXAMPLES = os.path.join("docs", "definitions_examples.tsv")

# The most columns of a line of the page.
COLUMNS = 140
# A definition: its kind and its name.
DEFINITION = re.compile(r"^( {0,2})(abbrev pub|unfoldable pub|pub record|pub data) (\S+)")
# A field of a record, or a constructor of a data type.
MEMBER = re.compile(r"^ +(?:pub )?([^\s:(]+) :(?: |$)")
# Names that a file of definitions re-exports, with the file that has them.
RE_EXPORT = re.compile(r"^pub use Rattle\.(\w+)\.specs\.([\w.]+)\.\{([^}]*)\}", re.MULTILINE)
# Names that a file uses from private definitions.
PRIVATE_USE = re.compile(r"\buse Rattle\.(\w+)\.specs\.(Private\.[\w.]+)\.\{([^}]*)\}", re.DOTALL)
# A name that is exported at the top of a crate.
EXPORT = re.compile(r"^pub use ([^;]*);", re.MULTILINE | re.DOTALL)


class Member(NamedTuple):
    """A field of a record, or a constructor of a data type, with its comment."""

    name: str
    comment: str


class Definition(NamedTuple):
    """A definition, with the comment above it as one line."""

    kind: str
    name: str
    comment: str
    members: list[Member]


class Heading(NamedTuple):
    """A comment of its own, which begins a part of a file."""

    text: str


class SpecFile(NamedTuple):
    """A file of definitions."""

    crate: str
    name: str
    path: str
    introduction: str
    items: list[Definition | Heading]
    re_exports: list[tuple[str, str]]

    def definitions(self) -> list[Definition]:
        """Returns the definitions, without the headings."""
        return [item for item in self.items if isinstance(item, Definition)]

    def is_private(self) -> bool:
        """Returns whether only contracts of the crates below `moc_ranges` and of private functions use the file."""
        return self.name == "Private" or self.name.startswith("Private/")

    def is_lemmas(self) -> bool:
        """Returns whether the file has lemmas with proofs, which state nothing that a reader must trust."""
        return self.name == "Lemmas" or self.name.startswith("Lemmas/")


def is_comment(line: str) -> bool:
    """Returns whether a line is a comment."""
    return line.lstrip().startswith("--")


def comment_text(lines: list[str]) -> str:
    """Returns the text of the lines of a comment, as one line."""
    return " ".join(filter(None, (re.sub(r"^\s*--\s*(-+ +)?", "", line).strip() for line in lines)))


def comment_above(lines: list[str], number: int) -> str:
    """Returns the comment that ends directly above a line."""
    first = number
    while first > 0 and is_comment(lines[first - 1]):
        first -= 1
    return comment_text(lines[first:number])


def members_below(lines: list[str], number: int, indent: int) -> Iterator[Member]:
    """Yields the fields or constructors of the declaration that begins in a line."""
    begins = number
    while begins < len(lines) and "where" not in lines[begins].split():
        begins += 1
    for at in range(begins + 1, len(lines)):
        line = lines[at]
        if not line.strip() or len(line) - len(line.lstrip()) <= indent:
            return
        found = MEMBER.match(line)
        if found and len(line) - len(line.lstrip()) == indent + 2 and not is_comment(line):
            yield Member(found[1], comment_above(lines, at))


def items_of(lines: list[str], first: int) -> Iterator[Definition | Heading]:
    """Yields the definitions and headings of a file after its introduction."""
    for number, line in enumerate(lines):
        found = DEFINITION.match(line)
        if found:
            kind = found[2].replace("pub", "").strip()
            members = list(members_below(lines, number, len(found[1]))) if kind in ("record", "data") else []
            yield Definition(kind, found[3], comment_above(lines, number), members)
        elif number >= first and is_comment(line) and (number + 1 == len(lines) or not lines[number + 1].strip()):
            yield Heading(comment_above(lines, number + 1))


def spec_file(path: str) -> SpecFile:
    """Reads a file of definitions."""
    crate, _, name = path.removeprefix("crates/").removesuffix(".antt").partition("/specs/")
    text = read(path)
    lines = text.splitlines()
    first = next((number for number, line in enumerate(lines) if not is_comment(line)), len(lines))
    exports = [(f"{of}/{file.replace('.', '/')}", word) for of, file, words in RE_EXPORT.findall(text) for word in words.split(", ")]
    return SpecFile(crate, name, path, comment_text(lines[:first]), list(items_of(lines, first)), exports)


def crates() -> list[str]:
    """Returns the crates of the library and the program with definitions, in the order of crates.txt."""
    names = [line.split(":")[0].split()[0] for line in read("crates.txt").splitlines() if line.startswith("moc_")]
    return [name for name in names if os.path.isdir(os.path.join(TOP, "crates", name, "specs"))]


def files_in_order(crate: str, files: list[SpecFile]) -> list[SpecFile]:
    """Returns the files of a crate in the order of its Lib.antt, which lists a file after those that it uses."""
    library = os.path.join("crates", crate, "specs", "Lib.antt")
    order = re.findall(r"^pub mod (\w+)", read(library), re.MULTILINE) if os.path.exists(os.path.join(TOP, library)) else []
    return sorted(files, key=lambda file: (order.index(file.name) if file.name in order else len(order), file.name))


def spec_files() -> list[SpecFile]:
    """Returns all files of definitions of the library and the program, by crate."""
    found = []
    for crate in crates():
        paths = sorted(glob.glob(f"crates/{crate}/specs/**/*.antt", root_dir=TOP, recursive=True))
        found += files_in_order(crate, [spec_file(path) for path in paths if not path.endswith("/Lib.antt")])
    return found


def public_contracts(crate: str) -> Iterator[tuple[str, str]]:
    """Yields the sources of a crate, each with the contracts of its public functions.

    A function is public if it or the type of its methods is exported at the top of the crate."""
    exported = {word for names in EXPORT.findall(read(os.path.relpath(root_of(crate), TOP))) for word in re.findall(r"\w+", names)}
    for path in sorted(glob.glob(f"crates/{crate}/src/**/*.rt", root_dir=TOP, recursive=True)):
        text = read(path)
        contracts, is_public_type, is_contract = [], False, False
        for line in text.splitlines():
            if line.startswith("impl"):
                is_public_type = bool(exported & set(re.findall(r"\w+", line)))
            function = re.match(r"^( *)pub fn (\w+)", line)
            if function:
                is_contract = is_public_type if function[1] else function[2] in exported
            elif is_contract and line.strip() == "{":
                is_contract = False
            elif is_contract:
                contracts.append(line)
            if is_contract and line.endswith("{"):
                is_contract = False
        yield text, "\n".join(contracts)


def words_in(text: str) -> set[str]:
    """Returns the names in a text of code or definitions."""
    return set(re.split(r"[\s(){}\[\];,.]+", text))


def private_names(files: list[SpecFile]) -> set[tuple[str, str]]:
    """Returns the private definitions, each with its file, that public contracts or public definitions use."""
    found = set()
    texts = [it for crate in crates() for it in public_contracts(crate)]
    texts += [(text, text) for text in (read(file.path) for file in files if not file.is_private() and not file.is_lemmas())]
    for text, contracts in texts:
        used = words_in(contracts)
        for crate, file, names in PRIVATE_USE.findall(text):
            for name in filter(None, re.split(r"[\s,]+", names)):
                if name in used:
                    found.add((f"{crate}/{file.replace('.', '/')}", name))
    return found


def examples() -> dict[tuple[str, str], str]:
    """Returns the example of each definition that has one, by file and name."""
    if not os.path.exists(os.path.join(TOP, EXAMPLES)):
        return {}
    rows = [line.split("\t") for line in read(EXAMPLES).splitlines() if line.strip()]
    return {(file, name): text for file, name, text in rows}


def sentence(text: str) -> str:
    """Returns a comment as a sentence: with a capital, unless it begins with a name, and with a period."""
    begins_with_name = re.match(r"`|[a-z]\w*[._]\w|[a-z]'s |[b-z] ", text)
    text = text if begins_with_name else text[:1].upper() + text[1:]
    return text if text.endswith((".", "?", "!", ":")) else f"{text}."


def wrapped(text: str, first: str, rest: str) -> str:
    """Returns a paragraph or an item of a list, in lines that Markdown takes for no other construct."""
    lines = textwrap.wrap(text, COLUMNS - 1, initial_indent=first, subsequent_indent=rest, break_long_words=False, break_on_hyphens=False)
    escaped = [re.sub(r"^(\s*)(\d+)([.)])(?= |$)", r"\1\2\\\3", re.sub(r"^(\s*)([-+*#>])(?= |$)", r"\1\\\2", line)) for line in lines[1:]]
    return "\n".join([*lines[:1], *escaped])


def entry(definition: Definition, example: str | None) -> list[str]:
    """Returns the lines of a definition."""
    text = f"`{definition.name}` ({definition.kind}). {sentence(definition.comment)}"
    if example:
        text += f" Example: {example if example.endswith('.') else example + '.'}"
    bare = [f"`{member.name}`" for member in definition.members if not member.comment]
    kind = "Fields" if definition.kind == "record" else "Constructors"
    commented = [member for member in definition.members if member.comment]
    if bare and commented:
        kind = f"{kind} without a comment"
    if bare:
        text += f" {kind}: {', '.join(bare)}."
    lines = [wrapped(text, "- ", "  ")]
    lines += [wrapped(f"`{member.name}`: {sentence(member.comment)}", "  - ", "    ") for member in commented]
    return lines


def link(file: SpecFile) -> str:
    """Returns the name of a file as a link to it."""
    return f"[`{file.crate}/{file.name}`](../{file.path})"


def section_of_file(file: SpecFile, given: dict[tuple[str, str], str], only: set[str] | None = None) -> Iterator[str]:
    """Yields the paragraphs of a file, with all of its definitions or only some."""
    yield f"### {link(file)}"
    if file.introduction:
        yield wrapped(sentence(file.introduction), "", "")
    for source in sorted({source for source, _ in file.re_exports}):
        names = ", ".join(f"`{name}`" for of, name in file.re_exports if of == source)
        yield wrapped(f"Re-exports {names} from `{source}`.", "", "")
    lines: list[str] = []
    for item in file.items:
        if isinstance(item, Heading):
            if lines:
                yield "\n".join(lines)
            lines = []
            if only is None:
                yield f"**{item.text.rstrip('.:')}**"
        elif only is None or item.name in only:
            lines += entry(item, given.get((f"{file.crate}/{file.name}", item.name)))
    if lines:
        yield "\n".join(lines)


def introduction(crate: str) -> str:
    """Returns the first paragraph of the documentation of a crate."""
    for root in ("lib", "main"):
        path = os.path.join("crates", crate, "src", f"{root}.rt")
        if os.path.exists(os.path.join(TOP, path)):
            lines = read(path).splitlines()
            first = next((number for number, line in enumerate(lines) if line.startswith("//! ")), len(lines))
            rest = list(itertools.takewhile(lambda line: line.startswith("//! "), lines[first:]))
            return " ".join(line.removeprefix("//! ") for line in rest)
    return ""


def page() -> str:
    """Returns the page."""
    files = spec_files()
    public = [file for file in files if not file.is_private() and not file.is_lemmas() and (file.definitions() or file.re_exports)]
    given = examples()
    private = private_names(files)
    count = sum(len(file.definitions()) for file in public)
    lines = sum(len(read(file.path).splitlines()) for file in public)
    paragraphs = [re.sub(r"<!--.*?-->\s*", "", read(HEAD), flags=re.DOTALL).strip()]
    counts = f"The sections below list {count} public definitions. They are in {len(public)} files with {lines} lines."
    paragraphs.append(wrapped(counts, "", ""))
    for crate in crates():
        here = [file for file in public if file.crate == crate]
        if here:
            paragraphs += [f"## `{crate}`", wrapped(introduction(crate), "", "")]
            for file in here:
                paragraphs += section_of_file(file, given)
    paragraphs += ["## Private definitions that public contracts use", wrapped(
        "These definitions are in `specs/Private`, but a contract of a public function or a public definition uses them. Most belong to "
        "the crates below `moc_ranges`, which no program calls.", "", "")]
    for file in files:
        only = {name for path, name in private if path == f"{file.crate}/{file.name}"}
        if only:
            paragraphs += section_of_file(file, given, only)
    return "\n\n".join(paragraphs) + "\n"


def failures() -> list[str]:
    """Returns what is wrong with the definitions: one without a comment, or an example of none."""
    files = spec_files()
    private = private_names(files)
    found = []
    known = set()
    for file in files:
        for definition in file.definitions():
            name = (f"{file.crate}/{file.name}", definition.name)
            known.add(name)
            is_listed = name in private if file.is_private() else not file.is_lemmas()
            if is_listed and not definition.comment:
                found.append(f"{name[0]}: no comment above {name[1]}")
    found += [f"{EXAMPLES}: {file} has no definition {name}" for file, name in examples() if (file, name) not in known]
    return found


def main() -> int:
    """Prints or writes the page."""
    return write_or_print("Writes docs/DEFINITIONS.md from the definitions.", lambda: {PAGE: page()}, failures)


if __name__ == "__main__":
    sys.exit(main())
