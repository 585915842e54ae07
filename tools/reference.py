#!/usr/bin/env python3
"""Writes docs/reference/*.md, the reference of the public API, from the sources of the crates.

Each crate of CRATES has a page, with what its root file exports: types with their variants, fields, error texts and traits, and
functions and methods with their contracts as they are in the source. The text is that of the doc comments. An item of a crate of INTERNAL
is on the page of the crate that exports it again; an item of another crate is a link. docs/reference/README.md has the text INDEX, and then
a line for each crate.

usage: tools/reference.py [--write]

Without `--write` it prints the pages, each after a line with its path. The exit status is 1 if an exported item has no doc comment and is
not in UNDOCUMENTED, or if an entry of UNDOCUMENTED is documented or does not exist."""
from __future__ import annotations

import os
import re
import sys
import textwrap
from collections.abc import Iterator
from functools import lru_cache
from glob import glob
from typing import NamedTuple

from crates import root_of
from generated import TOP, read, write_or_print

FOLDER = os.path.join("docs", "reference")
# The crates with a page, each after the crates that it uses.
CRATES = ("moc_devices", "moc_sphere", "moc_ranges", "moc_text", "moc_forms", "moc_conversion", "moc_parts", "moc_steps", "moc_shared",
          "moc_lines", "moc_script", "moc_command_line")
# The crates that only other crates of the project call.
INTERNAL = ("moc_blocks", "moc_lists", "moc_operations")
# Exported items without a doc comment. The list may only shrink.
UNDOCUMENTED = (
    "moc_devices::Log::bytes",
    "moc_sphere::Direction::East",
    "moc_sphere::Direction::North",
    "moc_sphere::Direction::NorthEast",
    "moc_sphere::Direction::NorthWest",
    "moc_sphere::Direction::South",
    "moc_sphere::Direction::SouthEast",
    "moc_sphere::Direction::SouthWest",
    "moc_sphere::Direction::West",
)

# The index, without the list of crates.
INDEX = """\
# API reference

This reference is for Rattle programmers who call the crates. It has each exported type, function and method, with its signature, its
contract, its errors and its costs. Other pages have the rest:

- [Library](../LIBRARY.md) explains how to add the crates to a project, and maps the names of other libraries to these calls.
- [C](../C.md) and [Python](../PYTHON.md) describe the library for C and for Python.
- [Definitions](../DEFINITIONS.md) has the definitions that the contracts use.

The pages are generated. `tools/reference.py --write` takes the text from the doc comments and the contracts in `crates/CRATE/src`.
`tests/reference.py` compares the pages with the sources in [CI](../GATE.md).

## How to read a clause

A signature is followed by the clauses of its contract. They are copied from the source, and the prover checks them.

- `requires NAME { P }`: the caller must meet the condition P. The prover checks P at each call. A test before the call or the type of an
  argument meets most conditions.
- `ensures NAME { P }`: P holds after each call that meets the requirements. The prover checks P against the body.

The name of a clause is optional. `result` is the value that the call returns. For an argument `x`, `x.now` is the value behind `&x`, and
`x.old` and `x.new` are the values behind `&mut x` before and after the call. `IfOk result (λ r. P)` states that P holds for the value `r`
if the call succeeds. [How to read a contract](../DEFINITIONS.md#how-to-read-a-contract) explains all other notation.

- **Model.** A clause uses a mathematical value instead of the Rattle value, for example a set of pixels instead of a `Coverage`. If a type
  has such a value, its section states the type of the value. `FinSet nat_cmp` is a finite set of numbers.
- **Ghost members** exist only in clauses and proofs. They take no memory and no time.
- A **theorem** is a function without code. A proof calls it to use its statement.

A function never panics, and terminates unless it waits for a thread or for input. This is proved for every function, without a clause.
Statements of the text about memory and costs are not proved, unless a clause has them ([Assurance](../ASSURANCE.md)).

## Crates
"""

# The most columns of a line of a page outside code.
COLUMNS = 140
# What `pub use` exports: a path and a name, or names in braces.
EXPORT = re.compile(r"^pub use ([\w:]+?)::(?:(\w+)|\{([^}]*)\});", re.MULTILINE)
# The declaration of a public item at the top of a file.
ITEM = re.compile(r"pub (?:unsafe )?(struct|enum|trait|fn|const|type) (\w+)")
# The first line of an implementation of a trait, or of the methods of a type.
IMPLEMENTATION = re.compile(r"(?:unsafe )?impl\b(.*)\{(?:\})?$")
# A link of a doc comment to an item.
ITEM_LINK = re.compile(r"\[`([\w:]+)`\](?:\(((?:crate::|moc_\w+::)[\w:]+)\))?(?!\()")
# What begins an item of a list in a doc comment, and what begins a list after another line.
LIST_MARK, FIRST_MARK = r"\s*(?:[-*]|\d+\.) ", r"\s*(?:[-*]|1\.) "
# A file of definitions that a source uses in clauses, with the names.
USED_DEFINITIONS = re.compile(r"^\s*ghost use Rattle\.(moc_\w+)\.specs\.([\w.]+)\.\{([^}]*)\};", re.MULTILINE)

KINDS = {"struct": "Struct", "enum": "Enum", "trait": "Trait", "fn": "Function", "const": "Constant", "type": "Type", "theorem": "Theorem"}


class Member(NamedTuple):
    """A variant, a field, a method, a constant or a ghost member of a type."""

    kind: str
    name: str
    code: str
    doc: list[str]
    error: str
    fields: list[Member]


class Item(NamedTuple):
    """An exported item of a crate."""

    kind: str
    name: str
    code: str
    doc: list[str]
    error: str
    members: list[Member]
    # The traits that the type implements, each with the doc comment of the implementation.
    traits: list[tuple[str, list[str]]]
    # The values that stand for those of the type in clauses, if a model defines them.
    model: str
    # The definitions in the clauses of the item, each with its file.
    definitions: set[tuple[str, str]]


class Implementation(NamedTuple):
    """A block `impl`: its generic parameters, its trait or nothing, its type, its doc comment and its lines."""

    path: str
    parameters: str
    trait: str
    type: str
    doc: list[str]
    lines: list[str]


def module_path(crate: str, module: str) -> str:
    """Returns the path of the file of a module, which is given as `a::b`, or of the crate if it is empty."""
    return f"crates/{crate}/src/{module.replace('::', '/')}.rt" if module else os.path.relpath(root_of(crate), TOP)


def exports(crate: str, module: str = "") -> Iterator[tuple[str, str]]:
    """Yields each name that a module exports again, after the path of the module that it is from."""
    for path, name, names in EXPORT.findall(read(module_path(crate, module))):
        for word in [name] if name else re.findall(r"\w+", names):
            yield path, word


def attributes_above(lines: list[str], number: int) -> tuple[list[str], str]:
    """Returns the doc comment above a line, and its error text."""
    first = number
    while first > 0 and re.match(r"\s*(///|#\[|\)\]|[^/]*\)\]$)", lines[first - 1]):
        first -= 1
    doc = [re.sub(r"^\s*/// ?", "", line) for line in lines[first:number] if line.lstrip().startswith("///")]
    error = re.search(r'#\[error\(\s*(?:"(.*?)"|(transparent))[^"]*\)\]', "\n".join(lines[first:number]), re.DOTALL)
    return doc, error[1] or error[2] if error else ""


def derived_traits(lines: list[str], number: int) -> list[str]:
    """Returns the traits that the attribute above a type derives."""
    first = number
    while first > 0 and lines[first - 1].strip():
        first -= 1
    found = re.search(r"#\[derive\(([^)]*)\)\]", "\n".join(lines[first:number]))
    return re.findall(r"\w+", found[1]) if found else []


def declaration(lines: list[str], number: int) -> str:
    """Returns the signature of a function with its clauses, without the body."""
    indent = len(lines[number]) - len(lines[number].lstrip())
    found: list[str] = []
    for line in lines[number:]:
        text = line[indent:] if not line[:indent].strip() else line
        if text in ("{", "{}"):
            break
        is_clause = any(re.match(r" +(requires|ensures)\b", before) for before in [*found, text])
        if not is_clause and text.endswith((" {", " {}")):
            found.append(text[:text.rindex(" {")])
            break
        found.append(text.removesuffix(";"))
        if text.endswith(";"):
            break
    return "\n".join(found)


def constant(line: str) -> str:
    """Returns the declaration of a constant, with its value if this is on the same line."""
    text = line.strip()
    return text.removesuffix(";") if text.endswith(";") else text.split(" =")[0]


def block(lines: list[str], number: int) -> list[str]:
    """Returns the lines of the block that begins in a line, up to a closing brace with the same indentation."""
    indent = len(lines[number]) - len(lines[number].lstrip())
    if lines[number].rstrip().endswith(("}", ";")):
        return []
    end = number + 1
    while end < len(lines) and lines[end][:indent + 1] not in (f"{' ' * indent}}}", f"{' ' * indent})"):
        end += 1
    return lines[number + 1:end]


def fields(lines: list[str], pattern: str) -> Iterator[Member]:
    """Yields the fields of a struct or a variant. The pattern is what comes before the name."""
    for number, line in enumerate(lines):
        found = re.match(rf"{pattern}(ghost )?(\w+): (.*?)[,;]?$", line)
        if found:
            doc, _ = attributes_above(lines, number)
            yield Member("field", found[2], f"{found[1] or ''}{found[2]}: {found[3]}", doc, "", [])


def variants(lines: list[str]) -> Iterator[Member]:
    """Yields the variants of an enum."""
    for number, line in enumerate(lines):
        found = re.match(r" {4}(\w+)(\([^{]*\))?(?: \{|,)?(?: = \w+,)?$", line)
        if found:
            doc, error = attributes_above(lines, number)
            inner = list(fields(block(lines, number), " {8}")) if line.endswith("{") else []
            names = f" {{ {', '.join(it.code for it in inner)} }}" if inner else found[2] or ""
            yield Member("variant", found[1], f"{found[1]}{names}", doc, error, inner)


def methods(lines: list[str], mark: str) -> Iterator[Member]:
    """Yields the methods and constants in the block of a type, with a mark such as `pub ` before each, and the ghost members of a trait."""
    for number, line in enumerate(lines):
        method = re.match(rf" {{4}}{mark}(?:const )?(?:unsafe )?fn (\w+)", line)
        value = re.match(rf" {{4}}{mark}const (\w+):", line)
        ghost = re.match(r" {4}ghost (\w+): (.*);$", line) if not mark else None
        doc, _ = attributes_above(lines, number)
        if method:
            yield Member("method", method[1], declaration(lines, number), doc, "", [])
        elif value:
            yield Member("constant", value[1], constant(line), doc, "", [])
        elif ghost:
            yield Member("ghost", ghost[1], f"ghost {ghost[1]}: {ghost[2]}", doc, "", [])


def split_generics(text: str) -> str:
    """Returns the text after the generic parameters at its start."""
    depth = 0
    for at, char in enumerate(text):
        depth += {"<": 1, ">": -1}.get(char, 0)
        if depth == 0:
            return text[at + 1:] if at or char == ">" else text
    return text


@lru_cache(maxsize=None)
def implementations(crate: str) -> list[Implementation]:
    """Returns the blocks `impl` of a crate, in the order of its files."""
    found = []
    for path in sorted(glob(f"crates/{crate}/src/**/*.rt", root_dir=TOP, recursive=True)):
        lines = read(path).splitlines()
        for number, line in enumerate(lines):
            if not re.match(r"(unsafe )?impl\b", line):
                continue
            last = number
            while "{" not in lines[last]:
                last += 1
            head = IMPLEMENTATION.match(" ".join(it.strip() for it in lines[number:last + 1]))
            if head:
                text = split_generics(head[1]) if head[1].startswith("<") else head[1]
                trait, _, name = text.split(" where ")[0].strip().removeprefix("fmt::").rpartition(" for ")
                doc, _ = attributes_above(lines, number)
                parameters = head[1].removesuffix(text)[1:-1]
                found.append(Implementation(path, parameters, trait.strip(), name.strip(), doc, block(lines, last)))
    return found


def base_name(text: str) -> str:
    """Returns the name of a type without borrows and generic parameters."""
    found = re.match(r"(?:&\s*(?:'\w+\s+)?(?:mut\s+)?)?(?:\w+::)*(\w+)", text)
    return found[1] if found else ""


def definition_file(crate: str, name: str) -> str:
    """Returns the file of definitions with a name, as `crate/file`, also if the crate only exports it again."""
    again = re.search(rf"^pub use Rattle\.(\w+)\.specs\.{re.escape(name)}$", read(f"crates/{crate}/specs/Lib.antt"), re.MULTILINE)
    return definition_file(again[1], name) if again else f"{crate}/{name.replace('.', '/')}"


def definitions_in(path: str, code: list[str]) -> set[tuple[str, str]]:
    """Returns the definitions of the project that some clauses use, each with its file, for clauses in the file with this path."""
    words = set(re.split(r"[\s(){}\[\];,.:]+", "\n".join(code)))
    return {(definition_file(crate, file), name) for crate, file, names in USED_DEFINITIONS.findall(read(path))
            for name in re.findall(r"[^\s,]+", names) if name in words}


def is_private_type(crate: str, name: str) -> bool:
    """Returns whether a name is that of a type of a crate that the crate does not export."""
    declared = re.compile(rf"^(?:pub(?:\(crate\))? )?(?:struct|enum) {name}\b", re.MULTILINE)
    paths = glob(f"crates/{crate}/src/**/*.rt", root_dir=TOP, recursive=True)
    return name not in {word for _, word in exports(crate)} and any(declared.search(read(path)) for path in paths)


def item_in(crate: str, path: str, kind: str, number: int) -> Item:
    """Returns the item that is declared in a line of a file."""
    lines = read(path).splitlines()
    found = ITEM.match(lines[number])
    name = found[2] if found else ""
    doc, error = attributes_above(lines, number)
    body = block(lines, number)
    code = constant(lines[number]).split(" {")[0]
    members: list[Member] = []
    traits: list[tuple[str, list[str]]] = [(trait, []) for trait in derived_traits(lines, number)]
    if kind == "fn":
        code = declaration(lines, number)
        is_theorem = "->" not in code.split("\n")[0] and "()" in code.split("\n")[0]
        return Item("theorem" if is_theorem else kind, name, code, doc, error, [], [], "", definitions_in(path, [code]))
    if kind == "struct":
        members += fields(body, " {4}pub ")
    elif kind == "enum":
        members += variants(body)
    elif kind == "trait":
        members += methods(body, "")
    used = definitions_in(path, [it.code for it in members])
    model = ""
    blocks = sorted(implementations(crate), key=lambda it: it.path != path) if kind in ("struct", "enum") else []
    for it in blocks:
        if it.trait == "Model" and base_name(it.type) == name:
            values = re.findall(r"^ {4}ghost Value = \{ (.*) \};", "\n".join(it.lines), re.MULTILINE)
            model = values[0] if values else ""
        if not it.trait and base_name(it.type) == name:
            more = list(methods(it.lines, "pub "))
            bounds = ["", f"The method exists if `{it.parameters}`."] if ":" in it.parameters else []
            members += [method._replace(doc=[*method.doc, *bounds]) if method.doc else method for method in more]
            used |= definitions_in(it.path, [method.code for method in more])
        elif it.trait and base_name(it.type) == name:
            traits.append((it.trait if it.type[0] != "&" else f"{it.trait} for {it.type}", it.doc))
        elif re.search(rf"\b{name}\b", it.trait) and not is_private_type(crate, base_name(it.type)):
            traits.append((f"{it.trait} for {it.type}", it.doc))
    return Item(kind, name, code, doc, error, members, traits, model, used)


@lru_cache(maxsize=None)
def find_item(crate: str, module: str, name: str) -> Item:
    """Returns the item with a name that a module declares or exports again."""
    path = module_path(crate, module)
    for number, line in enumerate(read(path).splitlines()):
        found = ITEM.match(line)
        if found and found[2] == name:
            return item_in(crate, path, found[1], number)
    for source, word in exports(crate, module):
        if word == name:
            return find_item(crate, f"{module}::{source}" if module else source, name)
    raise LookupError(f"{path} neither declares nor exports {name}")


@lru_cache(maxsize=None)
def items_of(crate: str) -> list[Item]:
    """Returns the items of the page of a crate: types before functions, functions before constants, theorems last."""
    order = ["struct", "enum", "trait", "type", "fn", "const", "theorem"]
    found = []
    for source, name in exports(crate):
        if source in INTERNAL:
            found += [find_item(source, module, name) for module, word in exports(source) if word == name]
        elif source not in CRATES:
            found.append(find_item(crate, source, name))
    return sorted(found, key=lambda item: (max(order.index(item.kind), 2), item.name))


def re_exports(crate: str) -> list[tuple[str, str]]:
    """Returns the names that a crate exports from other crates with a page, each with the crate that declares it."""
    found = []
    for source, name in exports(crate):
        while source in CRATES:
            before = [module for module, word in exports(source) if word == name]
            if not before or before[0] not in CRATES:
                found.append((source, name))
                break
            source = before[0]
    return found


def heading(item: Item) -> str:
    """Returns the heading of an item."""
    return f"{KINDS[item.kind]} `{item.name}`"


def anchor_of(text: str) -> str:
    """Returns the anchor that GitHub gives to a heading."""
    return re.sub(r"[^\w\- ]", "", text.lower()).replace(" ", "-")


@lru_cache(maxsize=None)
def anchors(crate: str) -> dict[str, str]:
    """Returns the anchors of the items and methods of a page, by their names."""
    found = {}
    for item in items_of(crate):
        found[item.name] = anchor_of(heading(item))
        for member in item.members:
            has_heading = member.kind in ("method", "constant")
            found[f"{item.name}::{member.name}"] = anchor_of(f"{item.name}::{member.name}") if has_heading else anchor_of(heading(item))
    return found


def link(crate: str, name: str) -> str:
    """Returns the target of a link from the page of a crate to an item, or an empty text if the item is on no page."""
    words = name.split("::")
    other = words[0] if words[0] in CRATES else crate
    name = "::".join(words[1:] if words[0] in (*CRATES, "crate") else words)
    if name in anchors(other):
        return f"{other}.md#{anchors(other)[name]}" if other != crate else f"#{anchors(other)[name]}"
    for declaring, word in re_exports(other):
        if word == name.split("::")[0] and name in anchors(declaring):
            return f"{declaring}.md#{anchors(declaring)[name]}"
    holders = [page for page in CRATES if name in anchors(page)]
    return f"{holders[0]}.md#{anchors(holders[0])[name]}" if len(holders) == 1 else ""


def with_links(crate: str, text: str) -> str:
    """Returns a text of a doc comment, with the links to items as links of Markdown."""

    def replacement(found: re.Match[str]) -> str:
        target = link(crate, found[2] or found[1])
        return f"[`{found[1]}`]({target})" if target else f"`{found[1]}`"

    return ITEM_LINK.sub(replacement, text)


def wrapped(text: str, first: str = "", rest: str = "") -> str:
    """Returns a paragraph or an item of a list, in lines that Markdown takes for no other construct."""
    lines = textwrap.wrap(text, COLUMNS - 1, initial_indent=first, subsequent_indent=rest, break_long_words=False, break_on_hyphens=False)
    escaped = [re.sub(r"^(\s*)([-+*#>]|\d+[.)])(?= |$)", r"\1\\\2", line) for line in lines[1:]]
    return "\n".join([*lines[:1], *escaped])


def doc_parts(doc: list[str]) -> Iterator[list[str]]:
    """Yields the parts of a doc comment: paragraphs, items of lists, headings, and whole blocks of code."""
    part: list[str] = []
    is_code = False
    for line in [*doc, ""]:
        is_list = part and re.match(LIST_MARK, part[0])
        begins = re.match(LIST_MARK if is_list else rf"{FIRST_MARK}|#+ |\|", line) is not None
        if part and not is_code and (not line.strip() or begins or line.startswith("```") or part[0].startswith("#")):
            yield part
            part = []
        if line.startswith("```"):
            is_code = not is_code
        if line.strip() or is_code:
            part.append(line)


def paragraphs(crate: str, doc: list[str], indent: str = "") -> str:
    """Returns the text of a doc comment, with its headings in bold at the start of the first paragraph after them."""
    found = ""
    title = ""
    for part in doc_parts(doc):
        text = with_links(crate, " ".join(line.strip() for line in part))
        mark = re.match(r"([-*]|\d+\.) ", text)
        if part[0].startswith("#"):
            title = f"**{text.lstrip('# ')}.** "
            continue
        if part[0].startswith("```"):
            text = "\n".join(f"{indent}{line}" for line in part)
        elif mark and not title:
            text = wrapped(text, indent, indent + " " * len(mark[0]))
        elif mark:
            text = f"{indent}{title.strip()}\n\n" + wrapped(text, indent, indent + " " * len(mark[0]))
        elif not text.startswith("|"):
            text = wrapped(title + text, indent, indent)
        last = found.rpartition("\n\n")[2]
        is_joined = all(re.match(rf"{LIST_MARK}|\|", it) for it in (text, last))
        found += ("\n" if is_joined else "\n\n") * bool(found) + text
        title = ""
    return found.removeprefix(indent)


def summary(doc: list[str]) -> str:
    """Returns the first sentence of a doc comment."""
    first: list[str] = next(doc_parts(doc), [])
    text = re.split(r"(?<=[.:;])\s", " ".join(line.strip() for line in first) + " ", maxsplit=1)[0].strip(" .:;")
    return f"{text}." if text else ""


def message(error: str) -> str:
    """Returns the sentence about an error text, or an empty text if there is none."""
    if re.fullmatch(r"transparent|\{\w+\}", error):
        return "The message is that of the error that it contains."
    return f"Message: \"{error}\"." if error else ""


def list_entry(crate: str, member: Member, indent: str = "") -> str:
    """Returns a variant or a field as an item of a list, with its error text and its fields."""
    doc = paragraphs(crate, member.doc, f"{indent}  ")
    first, _, rest = doc.partition("\n\n")
    line = f"`{member.code}`: {' '.join(first.split())}" if doc else f"`{member.code}`"
    text = wrapped(f"{line} {message(member.error)}".strip(), f"{indent}- ", f"{indent}  ")
    inner = [list_entry(crate, it, f"{indent}  ") for it in member.fields]
    return "\n".join([text, *inner]) + (f"\n\n{rest}" if rest else "")


def code_block(code: str) -> str:
    """Returns code as a block of Rust."""
    return f"```rust\n{code}\n```"


def section(crate: str, item: Item) -> Iterator[str]:
    """Yields the paragraphs of an item."""
    yield f"## {heading(item)}"
    if item.kind in ("fn", "theorem", "const", "type") or re.search("[<:]", item.code):
        yield code_block(item.code)
    if item.doc:
        yield paragraphs(crate, item.doc)
    if item.error:
        yield wrapped(message(item.error))
    for kind, title in (("variant", "Variants"), ("field", "Public fields"), ("ghost", "Ghost members, which clauses use")):
        entries = [list_entry(crate, member) for member in item.members if member.kind == kind]
        if entries:
            yield f"**{title}.**"
            yield "\n".join(entries)
    if item.model:
        yield wrapped(f"**Model.** In clauses, a value of the type stands for a value of `{item.model.replace('set.', '')}`.")
    if item.traits:
        yield wrapped(f"**Traits.** {', '.join(f'`{trait}`' for trait in sorted({trait for trait, _ in item.traits}))}.")
    documented = sorted((trait, doc) for trait, doc in item.traits if doc)
    if documented:
        yield "\n".join(list_entry(crate, Member("trait", trait, trait, doc, "", [])) for trait, doc in documented)
    for member in item.members:
        if member.kind in ("method", "constant"):
            yield f"### `{item.name}::{member.name}`"
            yield code_block(member.code)
            if member.doc:
                yield paragraphs(crate, member.doc)


def introduction(crate: str) -> str:
    """Returns the first paragraph of the documentation of a crate."""
    lines = [line.removeprefix("//! ") for line in read(module_path(crate, "")).splitlines() if line.startswith("//!")]
    return " ".join(next(doc_parts(lines), []))


def used_definitions(crate: str) -> Iterator[str]:
    """Yields the section about the definitions in the clauses of a page, without the types of the code."""
    used = sorted({it for item in items_of(crate) for it in item.definitions if "/declared/" not in it[0]})
    files = sorted({file for file, _ in used})
    page = read(os.path.join("docs", "DEFINITIONS.md"))
    if not files:
        return
    yield "## Definitions in the clauses"
    yield wrapped("The clauses on this page use these definitions of the project. All other names are those of Rattle's libraries, of the "
                  "arguments, or of exported types.")
    entries = []
    for file in files:
        path = f"crates/{file.replace('/', '/specs/', 1)}.antt"
        target = f"../DEFINITIONS.md#{anchor_of(file)}" if f"### [`{file}`]" in page else f"../../{path}"
        entries.append(wrapped(f"[`{file}`]({target}): {', '.join(f'`{name}`' for it, name in used if it == file)}", "- ", "  "))
    yield "\n".join(entries)


def page(crate: str) -> str:
    """Returns the page of a crate."""
    items = items_of(crate)
    calling = f"[conditions, guarantees and an example](../../crates/{crate}/CALLING.md)"
    others_of_page = [*([calling] if read(f"crates/{crate}/CALLING.md") else []), "[how to read a clause](README.md#how-to-read-a-clause)"]
    parts = [f"# `{crate}`", wrapped(introduction(crate)), wrapped(
        f"This page is for Rattle programmers who call the crate. See also {' and '.join(others_of_page)}."), "## Contents"]
    lines = [wrapped(f"[{heading(item)}](#{anchor_of(heading(item))}): {with_links(crate, summary(item.doc))}".rstrip(": "), "- ", "  ")
             for item in items]
    others = re_exports(crate)
    if others:
        lines.append("- [Items of other crates](#items-of-other-crates)")
    definitions = list(used_definitions(crate))
    if definitions:
        lines.append("- [Definitions in the clauses](#definitions-in-the-clauses)")
    parts.append("\n".join(lines))
    for item in items:
        parts += section(crate, item)
    if others:
        parts += ["## Items of other crates", "The crate also exports these items."]
        entries = []
        for source in sorted({it for it, _ in others}):
            names = ", ".join(f"[`{name}`]({source}.md#{anchors(source)[name]})" for it, name in others if it == source)
            entries.append(wrapped(f"[`{source}`]({source}.md): {names}", "- ", "  "))
        parts.append("\n".join(entries))
    return "\n\n".join([*parts, *definitions]) + "\n"


def index() -> str:
    """Returns the index of the reference."""
    entries = [wrapped(f"[`{crate}`]({crate}.md): {introduction(crate)}", "- ", "  ") for crate in CRATES]
    names = ", ".join(f"`{crate}`" for crate in INTERNAL)
    internal = wrapped(f"The crates {names} are internal. Only other crates of the project call them.")
    return "\n".join([INDEX, *entries, "", internal]) + "\n"


def pages() -> dict[str, str]:
    """Returns each page by its path."""
    return {os.path.join(FOLDER, "README.md"): index(), **{os.path.join(FOLDER, f"{crate}.md"): page(crate) for crate in CRATES}}


def documentation() -> Iterator[tuple[str, bool]]:
    """Yields the name of each exported item, variant, field and method, and whether it has a doc comment."""
    for crate in CRATES:
        for item in items_of(crate):
            yield f"{crate}::{item.name}", bool(item.doc)
            for member in item.members:
                yield f"{crate}::{item.name}::{member.name}", bool(member.doc)
                yield from ((f"{crate}::{item.name}::{member.name}::{inner.name}", bool(inner.doc)) for inner in member.fields)


def failures() -> list[str]:
    """Returns what is wrong: items without a doc comment, and entries of UNDOCUMENTED that are documented or do not exist."""
    found = dict(documentation())
    missing = [f"{name} has no doc comment" for name, is_documented in found.items() if not is_documented and name not in UNDOCUMENTED]
    gone = [f"UNDOCUMENTED: {name} is documented or does not exist" for name in UNDOCUMENTED if found.get(name, True)]
    return missing + gone


def main() -> int:
    """Prints or writes the pages."""
    return write_or_print("Writes docs/reference/*.md from the sources of the crates.", pages, failures)


if __name__ == "__main__":
    sys.exit(main())
