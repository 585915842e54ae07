#!/usr/bin/env python3
"""Checks the language of comments, docstrings, help texts and pages, and the names of functions, types and definitions.

The project was first written in a private dialect. The table PHRASES lists its phrases, each with the standard term. Every group of files
has a limit: the number of such phrases in a thousand words. No comment has a sentence of more than MAX_WORDS words. No function, type or
definition has a bare participle as its name, because a participle names neither an action nor a thing.

usage: tests/language.py [--all]

With `--all` it prints every position of a phrase, also in a group within its limit. The last line printed is `N passed, M failed`."""
from __future__ import annotations

import argparse
import collections
import glob
import os
import re
import sys
from collections.abc import Iterator
from typing import NamedTuple

from tally import Tally

TOP = os.path.dirname(os.path.dirname(os.path.abspath(__file__)))

# A phrase of the dialect, and the standard term.
PHRASES = {
    r"want of memory|memory is lacked|memory lacks|lacks memory|memory (?:is|was) refused": "out of memory, an allocation fails",
    r"\b(?:is|are|was|were) (?:not )?told\b|\btells?\b|\btold\b": "reports, returns",
    r"\b(?:is|are) said\b|\bsaid of\b|\bsays of\b": "states",
    r"\b(?:is|are) answered\b": "returns, replies",
    r"\brefus(?:ed|al|als|es)\b": "fails, is rejected",
    r"(?<!there )\b(?:is|are) no\b(?! longer)|\b(?:is|are) none\b(?!\.)": "is invalid, is not a, is empty",
    r"\bbehind\b": "after",
    r"\bparted\b": "separated, split",
    r"\bdear(?:er|est)?\b": "expensive",
    r"\bforetell\b|\bforetold\b": "predict",
    r"\b(?:is|are|be) had\b": "exists, is allocated",
    r"\bhangs on\b": "depends on",
    r"\bbesides\b": "also",
    r"\bof which\b|\bof whose\b|\bin whose\b|\bof whom\b": "two sentences",
    r"\bas (?:it was|they were)\b": "unchanged",
    r"\bwant(?:s|ed)?\b": "needs, requires, expected",
    r"\bnobody\b": "no client, no thread",
    r"\bwho (?:uses|reads|judges|wants|has|looks|meets|comes|matches)\b": "users who",
    r"\bdesks?\b|\bseats?\b|\bsitters?\b|\bshel(?:f|ves)\b": "store, client handle",
    r"\bwrong bod(?:y|ies)\b": "mutant",
    r"\brising\b|\bfalling\b": "ascending, descending",
    r"\b(?:one's|of its) own\b": "own, separate",
    r"\bso many\b|\bas often as\b|\bas much as\b": "the number",
}

# Words that are terms of a part of the project: a step of the step machine is refused, as its output says, and `atomic_table`, on which the
# shared map is built, calls the state of a client its seat.
TERMS = (
    (re.compile(r"crates/(?:moc_steps|moc_script|map_tests|script_tests)/"), re.compile(r"refus(?:ed|al|als|es)", re.IGNORECASE)),
    (re.compile(r"crates/(?:moc_shared|map_tests)/"), re.compile(r"seats?", re.IGNORECASE)),
)

# Bare participles that do not end with "ed".
PARTICIPLES = frozenset(
    "begun bound built cut drawn fed felt found given gone grown held kept known laid left lent lost made meant met put read said "
    "seen sent shown spent split spoken stood taken told thought understood won written".split())
# Names of this form that are nouns, adjectives or verbs of the field, or fixed by the specification.
STANDARD_NAMES = frozenset("feed need prepared put read seed shared speed split".split())

# The maximal number of words of a sentence in a comment.
MAX_WORDS = 40


class Group(NamedTuple):
    """Files with a limit, which is the maximal number of phrases of the dialect in a thousand words."""

    name: str
    patterns: tuple[str, ...]
    limit: float


GROUPS = (
    Group("comments of the crates", ("crates/*/src/**/*.rt", "crates/*/specs/**/*.antt", "crates/*/proofs/**/*.antt"), 1.0),
    Group("scripts", ("tests/**/*.py", "tools/*.py", "bench/*.py", "bench/*.sh", "moc", ".ci/run"), 1.0),
    Group("pages", ("*.md", "docs/*.md", "docs/reference/*.md", "bench/*.md", "crates/*/CALLING.md", "python/*.md"), 2.0),
    Group("the package for Python", ("python/**/*.py",), 2.0),
    Group("the web page", ("web/**/*.py", "web/**/*.js", "web/**/*.mjs"), 1.0),
    Group("C and C++", ("crates/moc_c/include/*.h", "tests/**/*.c", "tests/**/*.h", "bench/*.cpp"), 1.0),
)


class Line(NamedTuple):
    """A line of prose."""

    path: str
    number: int
    text: str


def comment_lines(path: str, lines: list[str]) -> Iterator[tuple[int, str]]:
    """Returns the lines of comments that begin with a mark, and all lines of help texts."""
    mark = "--" if path.endswith(".antt") else "//" if path.endswith((".rt", ".js", ".mjs")) else "#"
    for number, line in enumerate(lines, 1):
        if line.lstrip().startswith(mark) or path.endswith("help.rt"):
            yield number, line.lstrip().lstrip("/!-# ")


def page_lines(lines: list[str]) -> Iterator[tuple[int, str]]:
    """Returns the lines of a page outside code blocks."""
    is_code = False
    for number, line in enumerate(lines, 1):
        if line.lstrip().startswith("```"):
            is_code = not is_code
        elif not is_code:
            yield number, line


def enclosed_lines(lines: list[str], first: str, last: str) -> Iterator[tuple[int, str]]:
    """Returns the lines from each with an opening mark to the next with a closing mark."""
    is_inside = False
    for number, line in enumerate(lines, 1):
        begins = not is_inside and first in line
        if begins or is_inside:
            yield number, line.replace("*", " ").replace('"""', " ")
        rest = line.split(first, 1)[1] if begins else line
        is_inside = (begins or is_inside) and last not in rest


def prose_lines(path: str) -> Iterator[Line]:
    """Returns the lines of prose of a file, without code in backquotes."""
    with open(os.path.join(TOP, path), encoding="utf-8") as file:
        lines = file.read().splitlines()
    if path.endswith(".md"):
        prose = page_lines(lines)
    elif path.endswith((".h", ".c", ".cpp")):
        prose = enclosed_lines(lines, "/*", "*/")
    elif path.endswith((".py", ".js", ".mjs")):
        first, last = ('"""', '"""') if path.endswith(".py") else ("/**", "*/")
        prose = iter(sorted({**dict(comment_lines(path, lines)), **dict(enclosed_lines(lines, first, last))}.items()))
    else:
        prose = comment_lines(path, lines)
    for number, line in prose:
        yield Line(path, number, re.sub(r"`[^`]*`", "X", line))


def files_of(group: Group) -> list[str]:
    """Returns the files of a group, without this file, because its table has all phrases."""
    own = os.path.join("tests", "language.py")
    found = {path for pattern in group.patterns for path in glob.glob(pattern, root_dir=TOP, recursive=True)}
    return sorted(path for path in found if path != own and "/out/" not in path)


def find_phrases(lines: list[Line]) -> Iterator[str]:
    """Returns each phrase of the dialect in these lines, with its position and the standard term."""
    for line in lines:
        for phrase, term in PHRASES.items():
            for it in re.finditer(phrase, line.text, re.IGNORECASE):
                if any(path.match(line.path) and word.fullmatch(it[0]) for path, word in TERMS):
                    continue
                yield f"{line.path}:{line.number}: \"{it[0]}\"; write: {term}"


def find_long_sentences(lines: list[Line]) -> Iterator[str]:
    """Returns the sentences of comments that are too long, without tables. A comment ends before a blank line or a line without comment."""
    blocks: dict[tuple[str, int], list[Line]] = collections.defaultdict(list)
    first = last = Line("", 0, "")
    for line in (line for line in lines if not line.text.startswith("|")):
        if (line.path, line.number) != (last.path, last.number + 1) or not line.text.strip() or line.text.startswith("- "):
            first = line
        blocks[(first.path, first.number)].append(line)
        last = line
    for block in blocks.values():
        if block[0].path.endswith("help.rt"):
            continue
        text = " ".join(line.text for line in block)
        for sentence in re.split(r"(?<=[.:;!?])\s+", text):
            if len(sentence.split()) > MAX_WORDS:
                yield f"{block[0].path}:{block[0].number}: a sentence of {len(sentence.split())} words: {sentence[:60]}.."


def declared_names() -> Iterator[tuple[str, str]]:
    """Returns the names of functions, types and definitions of the crates, each with its position."""
    source = re.compile(r"\b(?:fn|struct|enum|trait|const|type|mod) ([A-Za-z_]\w*)")
    definition = re.compile(r"^(?:abbrev pub|unfoldable pub|pub record|pub data) (\w+)")
    for pattern, form in (("crates/moc_*/src/**/*.rt", source), ("crates/moc_*/specs/**/*.antt", definition)):
        for path in sorted(glob.glob(pattern, root_dir=TOP, recursive=True)):
            with open(os.path.join(TOP, path), encoding="utf-8") as file:
                for number, line in enumerate(file, 1):
                    for name in form.findall(line.split("//")[0]):
                        yield f"{path}:{number}", name


def is_participle(name: str) -> bool:
    """Returns whether a name is a single participle."""
    word = name.lower()
    is_one_word = re.fullmatch(r"[A-Z]?[a-z]+|[A-Z]+", name) is not None
    return is_one_word and word not in STANDARD_NAMES and (word in PARTICIPLES or word.endswith("ed"))


def main() -> int:
    """Checks every group and every name."""
    parser = argparse.ArgumentParser(description="Checks the language of comments, pages and names.")
    parser.add_argument("--all", action="store_true", help="print every position of a phrase")
    options = parser.parse_args()
    tally = Tally()
    for group in GROUPS:
        lines = [line for path in files_of(group) for line in prose_lines(path)]
        words = sum(len(re.findall(r"[A-Za-z]+", line.text)) for line in lines)
        found = list(find_phrases(lines))
        rate = 1000 * len(found) / max(words, 1)
        if options.all or rate > group.limit:
            print("\n".join(found))
        print(f"{group.name}: {len(found)} phrases in {words} words, {rate:.2f} a thousand; the limit is {group.limit}")
        tally.check(words > 0 and rate <= group.limit, f"{group.name}: too many phrases of the dialect")
        if group.limit <= 1.0:
            sentences = list(find_long_sentences(lines))
            tally.check(not sentences, "\n".join(sentences))
    for place, name in declared_names():
        tally.check(not is_participle(name), f"{place}: `{name}` is a bare participle")
    return tally.finish()


if __name__ == "__main__":
    sys.exit(main())
