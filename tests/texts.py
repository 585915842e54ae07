#!/usr/bin/env python3
"""Checks texts that have to agree with other texts, without running the program.

- `always_failing.py` and `plants.py` replace correct code with wrong code, and CI tries a third of their cases on each day. Every function
  and every line that they replace has to be in its source exactly once, also on days when its case is not tried.
- No line of a page is longer than 140 columns, except rows of tables. No cell of a table is longer than 120 columns.
- Each picture of `tools/pictures.py` is the file in `docs/pictures`, and a page shows each file there. The ring numbers of its formulas are
  those of the table of `crates/outside_tables`, which is from healpy, and the ratios of measurements are those of their times.
- The table of crates in docs/ARCHITECTURE.md has each crate of the product, after the crates that it uses.
- Each relative link of a page leads to a file of the repository, and its anchor to a heading. Anchors are made by GitHub's rules.
- The name of a page in the text of another page is a link. A path of a page in a script or a source leads to a page.
- The records of docs/DECISIONS.md have the numbers from 1, each once, and parts with fixed names.
- Each line of the program in README.md is in the crate `example_library`, which CI proves and runs.
- The output that README.md shows for its first command is the output that CI compares with the program's.
- The reference of the Python package is that which `tools/python_reference.py` makes from the docstrings.
- The size of the proof base in docs/ASSURANCE.md is that which `tools/sizes.py` counts.
- The tables of docs/GATE.md with the times of CI have the form that `tools/times.py` writes. Their numbers are not checked.
- Each file that repeats the version of the project has the version of `ploverchaise.h`.

usage: tests/texts.py

The last line printed is `N passed, M failed`."""
from __future__ import annotations

import glob
import os
import re
import sys
import urllib.parse
import xml.etree.ElementTree
from collections.abc import Iterator, Sequence

import always_failing
import plants
from tally import Tally

TOP = os.path.dirname(os.path.dirname(os.path.abspath(__file__)))
sys.path.insert(0, os.path.join(TOP, "tools"))
import codes  # noqa: E402
import diagrams  # noqa: E402
import pictures  # noqa: E402
import signatures  # noqa: E402
import python_reference  # noqa: E402
import sizes  # noqa: E402
import sky_pictures  # noqa: E402
import times  # noqa: E402
import version  # noqa: E402

# The maximal number of columns of a line of a page, and of a cell of a table.
MAX_COLUMNS, MAX_CELL_COLUMNS = 140, 120
PAGES = ("*.md", "docs/*.md", "docs/reference/*.md", "bench/*.md", "crates/*/CALLING.md", "python/*.md")
# Scripts and sources that may have paths of pages. This script has wrong paths as examples.
SOURCES = ("moc", ".ci/run", "bench/*.sh", "bench/*.py", "tests/**/*.py", "tests/**/*.c", "tests/**/*.cpp", "tools/**/*.py",
           "web/**/*.py", "web/**/*.c", "web/**/*.js", "web/**/*.mjs", "python/**/*.py", "crates/*/src/**/*.rt",
           "crates/*/specs/**/*.antt", "crates/*/include/*.h", "crates/*/include/*.hpp")
SELF = os.path.join("tests", "texts.py")
# The parts of a record of docs/DECISIONS.md, each at most once.
RECORD_PARTS = {"Context", "Decision", "Consequences", "Alternative", "Alternatives"}
# The first part of a generated page, whose links may lead to headings of the rest.
HEAD = os.path.join("docs", "DEFINITIONS.head.md")
# A block of code; code in backquotes; a comment; a link with its target, and a definition of a target.
BLOCK = re.compile(r"^( *)(```+|~~~+)[^\n]*\n.*?^ *\2[`~]* *$", re.DOTALL | re.MULTILINE)
CODE = re.compile(r"(?<!`)(`+)(?!`)(.+?)(?<!`)\1(?!`)", re.DOTALL)
COMMENT = re.compile(r"<!--.*?-->", re.DOTALL)
LINK = re.compile(r"\[((?:[^][]|\[[^][]*\])*)\]\(\s*<?([^()\s>]*)>?[^()]*\)")
DEFINED_LINK = re.compile(r"^ {0,3}\[[^]]+\]:\s*<?([^\s>]+)", re.MULTILINE)
# The target of a link that is not relative.
ABSOLUTE = re.compile(r"[a-z][a-z0-9+.-]*:|//", re.IGNORECASE)
HEADING = re.compile(r"^ {0,3}#{1,6} +(.*?)(?: +#+)? *$", re.MULTILINE)

# A statement that has to hold, and whether it holds.
Check = tuple[str, bool]


def read_file(*path: str) -> str:
    """Returns the text of a file of the repository, or an empty text if the file does not exist."""
    name = os.path.join(TOP, *path)
    if not os.path.isfile(name):
        return ""
    with open(name, encoding="utf-8") as file:
        return file.read()


def check_replaced_functions() -> Iterator[Check]:
    """Checks that each function of `always_failing.py` is in its source once."""
    for body in always_failing.BODIES:
        source = read_file("crates", body.crate, "src", f"{body.file}.rt")
        matches = re.findall(rf"^ *pub fn {body.function}\b", source, re.MULTILINE)
        yield f"{body.crate}/{body.file}: {body.function} is there once, to always return {body.value}", len(matches) == 1


def check_replaced_lines() -> Iterator[Check]:
    """Checks that each line that `plants.py` replaces is in its source once."""
    for defect in plants.DEFECTS:
        source = read_file(plants.path_of(TOP, defect))
        yield f"{defect.crate}/{defect.file}: the line that {defect.name} replaces is there once", source.count(defect.old) == 1


def check_codes() -> Iterator[Check]:
    """Checks that the tables of result codes are those that `tools/codes.py` makes."""
    for path, text in codes.generated_files().items():
        yield f"{path}: its codes are those of {codes.TABLE}", read_file(path) == text


def check_signatures() -> Iterator[Check]:
    """Checks that the table of the functions that the Python package calls is that which `tools/signatures.py` makes."""
    for path, text in signatures.generated_files().items():
        yield f"{path}: its functions are those of {codes.HEADER}", read_file(path) == text


def check_pictures() -> Iterator[Check]:
    """Checks the pictures that `tools/pictures.py` makes, and that a page shows each picture."""
    made = pictures.generated_files()
    for path, text in made.items():
        yield f"{path}: it is the picture that tools/pictures.py makes", read_file(path) == text
        yield f"{path}: it is well-formed, with a title and a description", names_of_elements(text)[:3] == ["svg", "title", "desc"]
    folder = os.path.join("docs", "pictures")
    files = {os.path.join(folder, name) for name in os.listdir(os.path.join(TOP, folder))}
    yield f"{folder}: tools/pictures.py makes all pictures", files == set(made)
    shown = {os.path.normpath(os.path.join(os.path.dirname(name), target))
             for name in page_names() for target in targets_of(read_file(name))}
    yield f"a page shows each picture; not shown: {sorted(files - shown)}", files <= shown
    for name, text in sky_pictures.shown_texts():
        shown_text = f"\n{text.replace(' ', chr(10))}\n" if name == "NUNIQ" else text
        yield f"docs/FORMATS.md: the {name} text of the MOC of cells.svg is {text!r}", shown_text in read_file("docs", "FORMATS.md")
    yield f"{pictures.failures()}: no ratio differs from that of its times", not pictures.failures()


def check_crate_table() -> Iterator[Check]:
    """Checks that the table of crates in docs/ARCHITECTURE.md has each crate of the product once, after the crates that it uses."""
    uses = diagrams.product_crates()
    section = read_file("docs", "ARCHITECTURE.md").partition("\n## Crates\n")[2].partition("\n## ")[0]
    rows = re.findall(r"^\| `(\w+)` \|", section, re.MULTILINE)
    yield f"docs/ARCHITECTURE.md: the table has each crate once; it has {rows}", sorted(rows) == sorted(uses)
    early = [name for number, name in enumerate(rows) if not set(uses.get(name, ())) <= set(rows[:number])]
    yield f"docs/ARCHITECTURE.md: each crate is after the crates that it uses; too early: {early}", not early


def names_of_elements(picture: str) -> list[str]:
    """Returns the names of the elements of an SVG picture, or an empty list if it is not well-formed."""
    try:
        return [element.tag.rpartition("}")[2] for element in xml.etree.ElementTree.fromstring(picture).iter()]
    except xml.etree.ElementTree.ParseError:
        return []


def check_numberings() -> Iterator[Check]:
    """Checks the ring numbers of the pictures against a table from healpy, which has all cells of orders 0 to 4."""
    lines = re.findall(r"^(\d+) (\d+) (\d+)$", read_file("crates", "outside_tables", "stdin"), re.MULTILINE)
    rows = [tuple(map(int, line)) for line in lines]
    yield "the table of ring numbers has all cells of orders 0 to 4", len(set(rows)) == sum(12 * 4 ** order for order in range(5))
    wrong = [row for row in rows if sky_pictures.ring_number(*row[:2]) != row[2]]
    yield f"sky_pictures.py: ring_number returns the ring number of healpy; wrong: {wrong}", not wrong


def page_names() -> list[str]:
    """Returns the paths of all pages, from the top of the repository."""
    return sorted(path for pattern in PAGES for path in glob.glob(pattern, root_dir=TOP))


def check_line_lengths() -> Iterator[Check]:
    """Checks the lengths of the lines of each page."""
    for name in page_names():
        lines = enumerate(read_file(name).splitlines(), 1)
        long = [number for number, line in lines if len(line) > MAX_COLUMNS and not line.startswith("|")]
        yield f"{name}: no line is longer than {MAX_COLUMNS} columns; too long: {long}", not long


def cells_of(row: str) -> list[str]:
    """Returns the cells of a row of a table."""
    return [cell.strip() for cell in re.split(r"(?<!\\)\|", row)[1:-1]]


def check_cell_lengths() -> Iterator[Check]:
    """Checks the lengths of the cells of the tables of each page."""
    for name in page_names():
        long = [number for number, line in enumerate(read_file(name).splitlines(), 1)
                if line.startswith("|") and any(len(cell) > MAX_CELL_COLUMNS for cell in cells_of(line))]
        yield f"{name}: no cell is longer than {MAX_CELL_COLUMNS} columns; too long in lines {long}", not long


def strip_blocks(page: str) -> str:
    """Returns the text of a page without blocks of code and comments."""
    return COMMENT.sub("", BLOCK.sub("", page))


def anchors_of(page: str) -> set[str]:
    """Returns the anchors that GitHub gives to the headings of a page.

    An anchor is the text of the heading in lower case, without markup and punctuation, with a hyphen for each space. If an earlier
    heading has the same anchor, a number follows."""
    anchors: set[str] = set()
    for heading in HEADING.findall(strip_blocks(page)):
        text = LINK.sub(r"\1", heading).replace("`", "")
        name = anchor = re.sub(r"[^\w\- ]", "", text.lower()).replace(" ", "-")
        number = 0
        while anchor in anchors:
            number += 1
            anchor = f"{name}-{number}"
        anchors.add(anchor)
    return anchors


def targets_of(page: str) -> list[str]:
    """Returns the targets of the relative links of a page."""
    prose = CODE.sub("X", strip_blocks(page))
    targets = [target for _, target in LINK.findall(prose)] + DEFINED_LINK.findall(prose)
    return [target for target in targets if not ABSOLUTE.match(target)]


def leads_nowhere(name: str, page: str, target: str) -> bool:
    """Returns whether there is no file, or no heading, for a relative link of the page with this name."""
    path, _, anchor = target.partition("#")
    file = os.path.normpath(os.path.join(os.path.dirname(name), urllib.parse.unquote(path))) if path else name
    if file.startswith(("..", "/")) or (path and not os.path.exists(os.path.join(TOP, file))) or not target:
        return True
    return bool(anchor) and anchor not in anchors_of(page if file == name else read_file(file))


def broken_links(name: str, page: str) -> list[str]:
    """Returns the targets of relative links that lead nowhere, for a page with this name."""
    return [target for target in targets_of(page) if leads_nowhere(name, page, target)]


def check_links() -> Iterator[Check]:
    """Checks the relative links of each page, and that a page with broken links would be found."""
    for name in page_names():
        if name != HEAD:
            broken = broken_links(name, read_file(name))
            yield f"{name}: each link leads to a file, and its anchor to a heading; broken: {broken}", not broken
    heading = "# The `moc_a` crate: *x*, y\n## Same\n## Same\n```text\n# Code\n```\n"
    valid = "[a](#the-moc_a-crate-x-y) [b](#same) [c](#same-1) [`d`](../README.md#why) [e](https://e.f/#g) `[h](no.md)` [i](../crates)"
    yield "links that lead somewhere are not broken", not broken_links("docs/PAGE.md", heading + valid)
    for link in ("[a](NO.md)", "[a\nb](#no)", "[c](#code)", "[d](#same-2)", "![e](no.svg)", "[f](../README.md#no-heading)",
                 "[g](../../README.md)", "[`h`](README.md)", "[i]: NO.md", "[j]()", "| [k](#Same) |"):
        yield f"{link!r} is found as a broken link", len(broken_links("docs/PAGE.md", heading + link)) == 1


def unlinked_names(name: str, page: str, names: Sequence[str]) -> list[str]:
    """Returns the pages that the text of a page names without a link, by file name or in capitals. Its own name needs no link."""
    prose = LINK.sub("", re.sub(r"^ {4}.*", "", strip_blocks(page), flags=re.MULTILINE))
    files = {os.path.basename(other) for other in names} - {os.path.basename(name)}
    titles = {file.removesuffix(".md") for file in files if file[1].isupper()}
    return [word for word in re.findall(r"\b\w+(?:\.head)?(?:\.md\b)?", prose) if word in files | titles]


def check_names_of_pages() -> Iterator[Check]:
    """Checks that the names of pages are links, and that a name without a link would be found."""
    names = page_names()
    for name in names:
        unlinked = unlinked_names(name, read_file(name), names)
        yield f"{name}: each name of a page is a link; without link: {unlinked}", not unlinked
    for text in ("see GATE", "`docs/GATE.md`", "the README's example", "crates/moc_c/CALLING.md"):
        yield f"the name of a page without a link is found in {text!r}", len(unlinked_names("docs/PAGE.md", text, names)) == 1
    for text in ("[GATE](GATE.md)", "[what `GATE.md`\nhas](GATE.md)", "    cat README.md", "```text\nREADME\n```", "INVESTIGATE"):
        yield f"no name of a page without a link is found in {text!r}", not unlinked_names("docs/PAGE.md", text, names)


def missing_pages(source: str) -> list[str]:
    """Returns the paths of pages in a source that lead to no page."""
    paths = re.findall(r"(?<![\w./])(?:docs|bench|crates/\w+)/[\w./]*\.md\b", source)
    return [path for path in paths if not os.path.exists(os.path.join(TOP, path))]


def check_paths_of_pages() -> Iterator[Check]:
    """Checks the paths of pages in scripts and sources, and that a wrong path would be found."""
    names = {path for pattern in SOURCES for path in glob.glob(pattern, root_dir=TOP, recursive=True)} - {SELF}
    for name in sorted(names):
        source = read_file(name)
        if ".md" in source:
            yield f"{name}: each path of a page leads to a page; wrong: {missing_pages(source)}", not missing_pages(source)
    found = missing_pages("docs/NO.md docs/GATE.md other/docs/NO.md")
    yield "a path that leads to no page is found, and no other path", found == ["docs/NO.md"]


def wrong_records(page: str) -> list[str]:
    """Returns what is wrong with the records of a page of decisions: a number twice, a missing number, or a part without its name."""
    records = re.split(r"^### ", page, flags=re.MULTILINE)[1:]
    numbers = sorted(int(number) for number in re.findall(r"^### (\d+)\. ", page, re.MULTILINE))
    wrong = [] if numbers == list(range(1, len(records) + 1)) else ["the numbers"]
    for record in records:
        heading, _, body = record.partition("\n")
        items = re.findall(r"^- ([^:\n]*)", body.partition("\n## ")[0], re.MULTILINE)
        if not set(items) <= RECORD_PARTS or len(set(items)) < len(items):
            wrong.append(heading)
    return wrong


def check_decisions() -> Iterator[Check]:
    """Checks the records of the page of decisions, and that a wrong record would be found."""
    wrong = wrong_records(read_file("docs", "DECISIONS.md"))
    yield f"docs/DECISIONS.md: the records have the numbers from 1, and parts with names; wrong: {wrong}", not wrong
    yield "records with right numbers and parts are accepted", not wrong_records("### 2. B\n- Context: c\n- Decision: d\n### 1. A\n")
    for page in ("### 2. A\n", "### 1. A\n### 1. B\n", "### A\n", "### 1. A\n- Reason: b\n", "### 1. A\n- Context: b\n- Context: c\n"):
        yield f"{page!r} is found as a wrong record", len(wrong_records(page)) == 1


def check_first_output() -> Iterator[Check]:
    """Checks that README.md shows the output that CI compares with the program's."""
    shown = "".join(f"    {line}\n" for line in read_file("crates", "moc_cli", "stdout").splitlines())
    yield "README.md: the output of the first example is that of moc_cli/stdout", f"\n\n{shown}\n" in read_file("README.md")


def check_sizes() -> Iterator[Check]:
    """Checks that the size of the proof base is that which `tools/sizes.py` counts."""
    for path, text in sizes.make_files().items():
        yield f"{path} is as tools/sizes.py makes it", read_file(path) == text


def check_python_reference() -> Iterator[Check]:
    """Checks that the reference of the Python package is that which `tools/python_reference.py` makes, with all public names."""
    for path, text in python_reference.make_files().items():
        yield f"{path} is as tools/python_reference.py makes it", read_file(path) == text
        headings = re.findall(r"^#{2,3} `([\w.]+)`$", text, re.MULTILINE)
        yield "each exported name of the Python package has a heading", set(python_reference.exported_names()) <= set(headings)
        yield "each heading of the reference of the Python package is there once", len(headings) == len(set(headings)) > 60
    missing = python_reference.find_failures()
    yield f"all that the Python package exports has a docstring; not: {missing}", not missing


def check_times() -> Iterator[Check]:
    """Checks the form of the tables of times, that of the times of two logs, and that a wrong form would be found."""
    page = read_file(times.PAGE)
    wrong = times.failures(page)
    yield f"{times.PAGE}: the tables of times have the form of tools/times.py; wrong: {wrong}", not wrong
    report = "moc: 7 functions checked, 9% of the time"
    logs = [f"{report}, 0:10: moc_text, moc_ranges (reading its libraries)\n{report}, 2:00: moc_text\ntime: python 70.04 60.5 0.25\n"
            "time: moc_text 3000\ntime: tests-of-map_tests 61\ntime: whole 5400 12m0,500s 1m0,000s\n",
            "time: python 600.2 1m2.3s 0m0.000s\ntime: moc_text 3600\n"]
    made = times.page_with(page, times.cells_of(logs))
    for row in ("| `.ci/run`, whole | 90 min | 13 min |", "| `tests/python.py` | 70 s to 10 min | 61 to 62 s |",
                "| `moc_text` | 50 to 60 min | | 2.0 min |", "| `moc_ranges` | | | 10 s |", "| `map_tests` | | 61 s | |"):
        yield f"tools/times.py writes {row!r}", f"\n{row}\n" in made
    yield "tools/times.py leaves out a row without a time", "`tests/pages.py` |" not in made
    yield "the tables that tools/times.py writes have the right form", not times.failures(made)
    yield "tools/times.py keeps the times of the page without logs", made == times.page_with(made)
    for old, new in (("| 90 min |", "| about 90 min |"), ("| `tests/python.py` |", "| tests/python.py |"), ("Elapsed time |", "Time |"),
                     ("<!-- end of times -->", "")):
        yield f"{new!r} in place of {old!r} is found as a wrong form", len(times.failures(made.replace(old, new, 1))) == 1
    passed = "time: whole 5400 12m0.500s 1m0.000s\n3 passed, 0 failed\n"
    for log, is_whole in ((passed, True), (f"rt: moc_text is kept: an earlier run on this machine proved it\n{passed}", False),
                          (passed.replace("0 failed", "1 failed"), False), ("3 passed, 0 failed\n", False)):
        yield f"tools/times.py knows whether a run was whole: {log!r}", times.is_whole(log) is is_whole


def check_versions() -> Iterator[Check]:
    """Checks that each file that repeats the version has it once, and that it is the version of `ploverchaise.h`."""
    expected = version.read_version()
    yield f"{version.HEADER}: {expected!r} is a version", version.VERSION.fullmatch(expected) is not None
    for path, found in version.repeated_versions().items():
        yield f"{path}: its version {found} is {expected}", found == [expected]


def strip_layout(code: str) -> str:
    """Returns code without comments, blanks, borrows, and the comma after the last argument of a call over several lines."""
    return re.sub(r"[\s&]", "", re.sub(r"//.*", "", code)).replace(",)", ")")


def check_shown_program() -> Iterator[Check]:
    """Checks that each line of the program in README.md is in the example crate."""
    example = strip_layout(read_file("crates", "example_library", "src", "main.rt"))
    programs = re.findall(r"^```rust\n(.*?)^```$", read_file("README.md"), re.DOTALL | re.MULTILINE)
    yield "README.md: there is one program", len(programs) == 1
    for line in filter(strip_layout, "".join(programs).splitlines()):
        yield f"README.md: `{line.strip()}` is in the first example", strip_layout(line) in example


def main() -> int:
    """Runs all checks."""
    tally = Tally()
    for statement, holds in (*check_replaced_functions(), *check_replaced_lines(), *check_codes(), *check_signatures(),
                             *check_pictures(), *check_numberings(), *check_crate_table(),
                             *check_line_lengths(), *check_cell_lengths(), *check_links(), *check_names_of_pages(),
                             *check_paths_of_pages(), *check_decisions(),
                             *check_shown_program(), *check_first_output(), *check_times(), *check_sizes(), *check_python_reference(),
                             *check_versions()):
        tally.check(holds, f"does not hold: {statement}")
    return tally.finish()


if __name__ == "__main__":
    sys.exit(main())
