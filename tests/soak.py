#!/usr/bin/env python3
"""Gives random texts to the program for some minutes, and compares the answers of its subcommands.

usage: tests/soak.py MINUTES [SEED]

`run` and `crew 1` answer a script alike. `play` gives the same answers if each line is begun, takes its parts, edits and gives each
part, and ends. A coverage is the same after conversions from ASCII to any two formats in turn, except that some formats state no order.
The commands and the formats are those of the help of `run` and `convert`. CI does not run this script. It prints its seed, each
difference, and at the end `N passed, M failed`. The environment variable MOC has the path of the program; the default is the program of
the checkout."""
from __future__ import annotations

import functools
import os
import random
import re
import subprocess
import sys
import time

from tally import Tally

TOP = os.path.dirname(os.path.dirname(os.path.abspath(__file__)))
sys.path.insert(0, os.path.join(TOP, "tools"))
from help_pages import parse_values  # noqa: E402

MOC = os.environ.get("MOC", os.path.join(TOP, "crates", "moc_cli", "out", "moc_cli"))
TIME_LIMIT = 60
# A command in the help of `run`: its name and its fields.
COMMAND = re.compile(r"^  ([a-z]+)((?: [A-Z]+)*)  ", re.MULTILINE)
# How often a command is chosen, if not once, and words that are not the name of a command.
WEIGHTS = {"add": 9, "remove": 5, "claim": 4, "count": 6, "read": 3, "near": 4}
OTHER_WORDS = {"hop": " MOC", "Add": " MOC", "": ""}
# The stated order at the end of an ASCII text, which has no cell of this order.
STATED_ORDER = re.compile(r" ?[0-9]+/$")
# The formats that state no order.
WITHOUT_ORDER = {"uniq"}
BLANKS = [" ", " ", " ", "\t", "  ", "\r "]
PARTS = 12
MAX_CLIENT = 4_294_967_295


def run_program(arguments: list[str], text: str) -> list[str]:
    """Returns the lines that the program prints for a text, or its exit status and error."""
    result = subprocess.run([MOC, *arguments], input=text.encode(), capture_output=True, timeout=TIME_LIMIT)
    if result.returncode == 0:
        return result.stdout.decode().splitlines()
    return [f"status {result.returncode}: {result.stderr.decode()}"]


@functools.cache
def command_fields() -> dict[str, str]:
    """Returns the fields of each word that a random command may begin with: of the commands in the help of `run`, and of other words."""
    return dict(COMMAND.findall("\n".join(run_program(["run", "--help"], "")))) | OTHER_WORDS


@functools.cache
def formats() -> list[str]:
    """Returns the formats that `convert` writes, by its help."""
    return parse_values("\n".join(run_program(["convert", "--help"], "")))[1]


def random_order(rng: random.Random) -> int:
    """Returns a random order, often a low one."""
    return rng.choice([0, 0, 1, 1, 2, 3, 5, 9, 29, rng.randrange(30)])


def random_cell(rng: random.Random, order: int) -> int:
    """Returns a random cell of an order, often one of the first, and sometimes one that does not exist."""
    count = 12 << 2 * order
    return rng.choice([rng.randrange(min(count, 30)), rng.randrange(count), count - 1, rng.randrange(count + 3)])


def random_coverage(rng: random.Random) -> str:
    """Returns a random coverage in ASCII, sometimes with an error."""
    words = []
    for _ in range(rng.choice([0, 1, 1, 2, 3])):
        order = random_order(rng)
        items = []
        for _ in range(rng.choice([0, 1, 1, 2, 5])):
            first = random_cell(rng, order)
            items.append(rng.choice([str(first), f"{first}-{first + rng.randrange(4)}", f"0{first}"]))
        words.append(rng.choice(["", "", "s"]) + f"{order}/" + rng.choice([" ", ","]).join(items))
    if rng.random() < 0.03:
        words.insert(rng.randrange(len(words) + 1), rng.choice(["7", "5/7-3", "30/0", "1/x", "2/3-", "/", "s"]))
    return " ".join(words)


def random_command(rng: random.Random) -> str:
    """Returns a random command, sometimes an invalid one."""
    words = command_fields()
    word = rng.choices(list(words), [WEIGHTS.get(word, 1) for word in words])[0]
    if words[word] == "":
        fields = [""] if rng.random() < 0.9 else ["x"]
    elif words[word] == " K":
        fields = [str(rng.choice([29, 28, 12, 5, 30, random_order(rng)]))]
    elif words[word] == " K I":
        order = random_order(rng)
        fields = [str(order), str(random_cell(rng, order))]
    else:
        fields = [rng.choice(["", "", "", f"@{random_order(rng)} ", "@ ", "@30 "]) + random_coverage(rng)]
    return rng.choice(["", " "]) + rng.choice(BLANKS).join([word, *fields])


def random_line(rng: random.Random) -> str:
    """Returns a random line of a script."""
    return ";".join(random_command(rng) for _ in range(rng.choice([1, 1, 1, 1, 2, 3, 16, 17])))


def is_blank(line: str) -> bool:
    """Returns whether a line has only blanks."""
    return not line.strip(" \t\r")


def schedule_of(lines: list[str], rng: random.Random) -> list[str]:
    """Returns the steps of one client for each line. Steps on parts outside the footprint of the line fail."""
    steps = []
    for line in lines:
        client = rng.choice([1, 7, MAX_CLIENT])
        steps.append(f"begin {client} {line}")
        steps += [f"take {client}"] * PARTS
        steps += [f"{step} {client} {part}" for part in range(PARTS) for step in ("edit", "give")]
        steps.append(f"end {client}")
    return steps


def check_script(tally: Tally, rng: random.Random) -> None:
    """Checks that `run`, `crew` and `play` answer a random script alike."""
    lines = [random_line(rng) for _ in range(rng.randrange(1, 40))]
    text = "\n".join(lines) + "\n"
    run = run_program(["run"], text + "read 0/0-11\n")
    crew = run_program(["crew", "1"], text)
    steps = run_program(["play"], "\n".join(schedule_of([line for line in lines if not is_blank(line)], rng)) + "\n")
    play = [answer for answer in steps[:-2] if answer != "ok" and not answer.startswith("refused ")] + steps[-1:]
    tally.check(run == crew == play, f"the script\n{text}\nrun: {run}\ncrew 1: {crew}\nplay: {play}")


def check_text(tally: Tally, rng: random.Random) -> None:
    """Checks that conversions do not change a random coverage, or that its error is reported."""
    text = random_coverage(rng)
    ascii_text = run_program(["convert", "ascii", "ascii"], text)
    if ascii_text[:1] and ascii_text[0].startswith("status"):
        tally.check(ascii_text[0].startswith("status 1: fault "), f"the coverage {text}\n{ascii_text}")
        return
    for first in formats():
        lines = run_program(["convert", "ascii", first], text)
        source = [STATED_ORDER.sub("", line) if first in WITHOUT_ORDER else line for line in ascii_text]
        for second in formats():
            expected = run_program(["convert", "ascii", second], "\n".join(source))
            found = run_program(["convert", first, second], "\n".join(lines))
            tally.check(found == expected, f"the coverage {text}\n{first}: {lines}\n{second}: {found}\nexpected: {expected}")


def main() -> int:
    """Compares answers until the time has passed."""
    minutes = float(sys.argv[1])
    seed = int(sys.argv[2]) if len(sys.argv) > 2 else random.randrange(1 << 32)
    print(f"seed {seed}")
    rng, tally = random.Random(seed), Tally()
    end = time.monotonic() + 60 * minutes
    while time.monotonic() < end:
        check_script(tally, rng)
        check_text(tally, rng)
    return tally.finish()


if __name__ == "__main__":
    sys.exit(main())
