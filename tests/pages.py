#!/usr/bin/env python3
"""Runs the examples of the pages and of the program's help, and compares their output with what the texts say.

- In a block `console`, each line that begins with `$` is a command for bash, and the lines up to the next command are its complete output
  with all error messages. The commands under one heading run in one shell and one folder. On the pages of CONTINUED_PAGES, all commands of
  the page run in one shell and one folder, and then its programs in this folder.
- A block `python` is a program, and the block `text` after it is its complete output. Commands and programs can import the Python package
  of the checkout. A program that needs an optional package needs it in this Python or in the system's; otherwise the script skips it.
- The commands of a page write each picture that the page shows, with the same bytes. Another page has the commands for README's picture.
- The help of each subcommand begins with the line that the list of subcommands has for it. It has at most 80 columns. It has an example,
  which is a command with its output.

The environment variable MOC has the path of the program; the default is the program of the checkout. The last line printed is
`N passed, M failed`."""
from __future__ import annotations

import itertools
import os
import re
import shlex
import subprocess
import sys
import tempfile
from collections.abc import Iterator
from typing import NamedTuple

from python import python_with
from tally import Tally

TOP = os.path.dirname(os.path.dirname(os.path.abspath(__file__)))
MOC = os.environ.get("MOC", os.path.join(TOP, "crates", "moc_cli", "out", "moc_cli"))
PAGES = ["README.md", "docs/TUTORIAL.md", "docs/RECIPES.md", "docs/FORMATS.md", "docs/COMMANDS.md", "docs/SCRIPTS.md", "docs/PYTHON.md"]
# The page whose picture is made by the commands of another page.
FRONT_PAGE = "README.md"
# Pages whose sections use the files and shell functions of the sections before.
CONTINUED_PAGES = ["docs/TUTORIAL.md"]
PACKAGE = os.path.join(TOP, "python")
TIME_LIMIT = 60
MAX_COLUMNS = 80
# The minimal number of checks of the help texts.
MIN_HELP_CHECKS = 40
# What a program contains that needs an optional package.
OPTIONAL = {"import numpy": "numpy", ".fits": "astropy", "_lonlat(": "astropy_healpix", ".plot(": "matplotlib"}
END = "--- end of the output of this command ---"
# The line of a help text that names the stream of its example, and the number of the other stream.
OTHER_STREAM = {"prints": 2, "writes to standard error": 1}


class Block(NamedTuple):
    """A code block of a page: the heading of its section, its language and its lines."""

    heading: str
    language: str
    lines: list[str]


class Example(NamedTuple):
    """A command and its output."""

    command: str
    output: str


def parse_blocks(page: str) -> Iterator[Block]:
    """Returns the code blocks of a page. Raises ValueError if a block has no end."""
    heading, language = "", ""
    lines: list[str] = []
    for line in page.splitlines():
        if not language and line.startswith("#"):
            heading = line
        elif not language and re.fullmatch("```[a-z]+", line):
            language, lines = line[3:], []
        elif language and line == "```":
            yield Block(heading, language, lines)
            language = ""
        elif language:
            lines.append(line)
    if language:
        raise ValueError(f"a block under {heading} has no end")


def parse_commands(lines: list[str]) -> list[Example]:
    """Returns the commands of a console block."""
    examples: list[Example] = []
    for line in lines:
        if line.startswith("$ "):
            examples.append(Example(line[2:], ""))
        else:
            command, output = examples.pop()
            examples.append(Example(command, f"{output}{line}\n"))
    return examples


def run_commands(folder: str, commands: list[str]) -> list[str]:
    """Runs the commands in one shell, and returns the output of each."""
    script = "".join(f"{command}\nprintf '%s\\n' '{END}'\n" for command in commands)
    path = os.path.join(folder, "bin") + os.pathsep + os.environ["PATH"]
    environment = dict(os.environ, PATH=path, PYTHONPATH=PACKAGE, PYTHONDONTWRITEBYTECODE="1")
    result = subprocess.run(["bash", "-c", script], cwd=folder, env=environment, timeout=TIME_LIMIT,
                            stdin=subprocess.DEVNULL, stdout=subprocess.PIPE, stderr=subprocess.STDOUT, text=True)
    return result.stdout.split(END + "\n")[:-1]


def install_program(folder: str) -> str:
    """Links the program as `moc` into a folder `bin` of this folder, and returns the folder."""
    os.mkdir(os.path.join(folder, "bin"))
    os.symlink(MOC, os.path.join(folder, "bin", "moc"))
    return folder


def consoles(page: str, is_continued: bool = False) -> dict[str, list[Example]]:
    """Returns the commands of the console blocks of each section, by the headings; of a continued page, all commands as one section."""
    sections: dict[str, list[Example]] = {}
    for block in parse_blocks(page):
        if block.language == "console":
            sections.setdefault("all sections" if is_continued else block.heading, []).extend(parse_commands(block.lines))
    return sections


def programs(page: str) -> Iterator[Example]:
    """Returns the Python programs of a page with their output. Raises ValueError if a program has no output."""
    blocks = list(parse_blocks(page))
    for block, following in itertools.zip_longest(blocks, blocks[1:], fillvalue=Block("", "", [])):
        if block.language == "python":
            if following.language != "text":
                raise ValueError(f"the page does not show the output of the program under {block.heading}")
            yield Example("\n".join(block.lines), "".join(line + "\n" for line in following.lines))


def read_bytes(*path: str) -> bytes:
    """Returns the bytes of a file."""
    with open(os.path.join(*path), "rb") as file:
        return file.read()


def picture_names(page: str) -> list[str]:
    """Returns the names of the pictures in the folder `docs` that a page of the top or of this folder shows."""
    return re.findall(r"^!\[.*\]\((?:docs/)?([a-z]+\.svg)\)$", page, re.MULTILINE)


def read_page(name: str) -> str:
    """Returns the text of a page."""
    with open(os.path.join(TOP, name), encoding="utf-8") as file:
        return file.read()


def check_page(tally: Tally, page: str, is_continued: bool) -> None:
    """Checks all commands, pictures and programs of a page."""
    with tempfile.TemporaryDirectory() as top:
        folders = (install_program(tempfile.mkdtemp(dir=top)) for _ in itertools.count())
        check_examples(tally, page, is_continued, itertools.repeat(next(folders)) if is_continued else folders)


def check_examples(tally: Tally, page: str, is_continued: bool, folders: Iterator[str]) -> None:
    """Checks all commands, pictures and programs of a page. Each section and each program takes the next folder."""
    pictures: dict[str, bytes] = {}
    for heading, examples in consoles(page, is_continued).items():
        folder = next(folders)
        outputs = run_commands(folder, [example.command for example in examples])
        pictures.update({name: read_bytes(folder, name) for name in picture_names(page) if name in os.listdir(folder)})
        for example, output in itertools.zip_longest(examples, outputs[:len(examples)]):
            tally.check_equal(f"{heading}: {example.command}", output, example.output)
    for name in picture_names(page):
        if page != read_page(FRONT_PAGE):
            tally.check(pictures.get(name) == read_bytes(TOP, "docs", name), f"no command makes the picture {name}")
    for program, expected in programs(page):
        modules = [module for text, module in OPTIONAL.items() if text in program]
        python = python_with(*modules)
        if python is None:
            print(f"a program is skipped because a package is not installed: {', '.join(modules)}", file=sys.stderr)
            continue
        outputs = run_commands(next(folders), [f"{shlex.quote(python)} - <<'EOF'\n{program}\nEOF"])
        tally.check_equal(f"the program\n{program}", outputs, [expected])


def help_text(*arguments: str) -> str:
    """Returns the help of the program, or of one of its subcommands."""
    return subprocess.run([MOC, *arguments, "--help"], timeout=TIME_LIMIT, stdout=subprocess.PIPE, text=True).stdout


def parse_example(text: str) -> tuple[Example, str]:
    """Returns the example of a help text, and the line that names the stream of its output."""
    lines = text.splitlines()
    example = lines[lines.index("Example:") + 1:]
    stream = example[1] if example[1:] and example[1] in OTHER_STREAM else "prints"
    following = example[2:] if example[1:2] == [stream] else []
    output = itertools.takewhile(lambda line: line.startswith("  "), following)
    return Example(example[0].strip(), "".join(line[2:] + "\n" for line in output)), stream


def check_help(tally: Tally) -> None:
    """Checks the first line, the line lengths and the example of each help text."""
    overview = help_text()
    listed = [(word, about) for word, about in re.findall(r"^  ([a-z]+) {2,}(\S.*)$", overview, re.MULTILINE) if word != "help"]
    texts = {"moc": overview, **{f"moc {word}": help_text(word) for word, _ in listed}}
    for word, about in listed:
        tally.check_equal(f"the first line of moc {word} --help", texts[f"moc {word}"].splitlines()[:1], [about])
    for name, text in texts.items():
        tally.check_equal(f"lines of {name} --help that are too long", [line for line in text.splitlines() if len(line) > MAX_COLUMNS], [])
        example, stream = parse_example(text)
        with tempfile.TemporaryDirectory() as folder:
            outputs = run_commands(install_program(folder), [f"{{ {example.command}; }} {OTHER_STREAM[stream]}> /dev/null"])
        tally.check_equal(f"{name} --help: {example.command}", outputs, [example.output])


def main() -> int:
    """Checks the help texts and the pages."""
    tally = Tally()
    check_help(tally)
    tally.check(tally.passed + tally.failed > MIN_HELP_CHECKS, "moc --help lists too few subcommands")
    for name in PAGES:
        page = read_page(name)
        tally.check(bool(consoles(page) or list(programs(page))), f"{name} has no example")
        check_page(tally, page, name in CONTINUED_PAGES)
    shown = picture_names(read_page(FRONT_PAGE))
    others = {picture for name in PAGES if name != FRONT_PAGE for picture in picture_names(read_page(name))}
    tally.check(bool(shown) and others.issuperset(shown), f"{FRONT_PAGE} shows a picture that another page makes")
    return tally.finish()


if __name__ == "__main__":
    sys.exit(main())
