#!/usr/bin/env python3
"""Writes the tables of docs/GATE.md that have the times of CI.

usage: tools/times.py [--write] [LOG..]

A LOG is the output of a whole run of `.ci/run`. Before its last line it has a line `time: STEP ELAPSED USER SYSTEM` in seconds for each
step, and `time: CRATE ELAPSED` for each crate that `rt ci` proved. The first command reports every ten seconds which crates it checks. If
there are several logs, a cell has the least and the greatest time. A cell is empty if no log has its time, and a row without a time is left
out. Without a log, the tool keeps the times of the page.

Without `--write` the tool prints the page. `tests/texts.py` checks that the tables have the form that the tool writes. The exit status is 1
if the form is wrong or a line of a log is unknown."""
from __future__ import annotations

import argparse
import os
import re
import sys
from collections.abc import Iterable, Sequence
from typing import NamedTuple

from crates import read_crates
from generated import TOP, read

PAGE = os.path.join("docs", "GATE.md")
# The steps, each with its text on the page.
STEPS = {
    "whole": "`.ci/run`, whole", "rt-ci": "`rt ci`", "example": "the example, by the program of `rt ci`",
    "first-command": "the first command", "library-build": "`./moc library`", "module-build": "`./moc page --module`",
    "try": "`./moc try`", "mutants": "`tests/mutants.py`",
    **{name: f"`tests/{name}.py --of-the-day`" for name in ("plants", "always_failing")},
    **{name: f"`tests/{name}.py`" for name in (
        "definitions", "reference", "texts", "language", "lint", "program", "crews", "bench", "library", "python", "web", "pages",
        "install")}}
STEP_COLUMNS = ("Step", "Elapsed time", "Processor time")
CRATE_COLUMNS = ("Crate", "Proved after, in `rt ci`", "Its tests proved after", "Check in the first command")
# A line of a log with a time, and a report of the first command.
TIME_LINE = re.compile(r"^time: (\S+) ([\d.,]+)(?: (\S+) (\S+))?$", re.MULTILINE)
PROGRESS_LINE = re.compile(r"^moc: \d+ functions checked, \d+% of the time, (\d+):(\d\d): (.*)$", re.MULTILINE)
# The seconds between two reports of the first command.
PROGRESS_INTERVAL = 10
TESTS = "tests-of-"
# The cell of a time. The times of a range have one unit if they can.
CELL = re.compile(r"(\d+(\.\d)?( to \d+(\.\d)?)? (s|min)|\d+(\.\d)? s to \d+(\.\d)? min|)")


class Times(NamedTuple):
    """The times of some runs in seconds, by the column of a table and the name of the row."""

    seconds: dict[tuple[str, str], list[float]]
    unknown: list[str]


class Table(NamedTuple):
    """A table of the page: the name in its marker, its columns, and the text of each row by the name of the row."""

    name: str
    columns: Sequence[str]
    rows: dict[str, str]

    def markers(self) -> tuple[str, str]:
        """Returns the lines before and after the table."""
        return f"<!-- times of {self.name}, written by tools/times.py -->\n", "<!-- end of times -->\n"

    def is_marked(self, page: str) -> bool:
        """Returns whether the table is between its markers, before another table."""
        start, end = self.markers()
        return page.count(start) == 1 and end in page.partition(start)[2].partition("<!-- times of")[0]

    def cells_of(self, page: str) -> dict[tuple[str, str], str]:
        """Returns the cells of the page, by column and text of the row."""
        start, end = self.markers()
        lines = page.partition(start)[2].partition(end)[0].splitlines()[2:]
        rows = [[cell.strip() for cell in line.strip("|").split("|")] for line in lines]
        return {(column, row[0]): cell for row in rows for column, cell in zip(self.columns[1:], row[1:])}

    def text(self, cells: dict[tuple[str, str], str]) -> str:
        """Returns the table with these cells. Other cells are empty, and a row without a time is left out."""
        rows = [[shown, *(cells.get((column, shown), "") for column in self.columns[1:])] for shown in self.rows.values()]
        lines = [f"| {' | '.join(row)} |" for row in (self.columns, *(row for row in rows if any(row[1:])))]
        lines.insert(1, "|---" * len(self.columns) + "|")
        return "".join(re.sub(" +", " ", line) + "\n" for line in lines)


def tables() -> list[Table]:
    """Returns the tables of the page."""
    return [Table("steps", STEP_COLUMNS, STEPS), Table("crates", CRATE_COLUMNS, {name: f"`{name}`" for name in read_crates()})]


def seconds_of(time: str) -> float:
    """Returns the seconds of a time such as `3.5`, or `12m3,500s` in a locale with a decimal comma."""
    minutes, _, seconds = time.replace(",", ".").rpartition("m")
    return 60 * float(minutes or 0) + float(seconds.removesuffix("s"))


def show_seconds(seconds: float) -> tuple[str, str]:
    """Returns a time as a rounded number and its unit."""
    if seconds < 99.5:
        return f"{seconds:.0f}" if seconds >= 9.95 else f"{seconds:.1f}", "s"
    minutes = seconds / 60
    return f"{minutes:.0f}" if minutes >= 9.95 else f"{minutes:.1f}", "min"


def show_times(times: Iterable[float]) -> str:
    """Returns the cell of the times of some runs."""
    (least, unit), (greatest, last_unit) = show_seconds(min(times := list(times))), show_seconds(max(times))
    if (least, unit) == (greatest, last_unit):
        return f"{least} {unit}"
    return f"{least} to {greatest} {unit}" if unit == last_unit else f"{least} {unit} to {greatest} {last_unit}"


def check_times(log: str) -> dict[str, float]:
    """Returns how long the first command, `./moc library` and `./moc page` checked each crate, by their reports."""
    first: dict[str, int] = {}
    last: dict[str, int] = {}
    for minutes, seconds, names in PROGRESS_LINE.findall(log):
        elapsed = 60 * int(minutes) + int(seconds)
        for name in re.findall(r"\w+", re.sub(r"\(.*?\)", "", names)):
            first.setdefault(name, elapsed)
            last[name] = elapsed
    return {name: last[name] - first[name] + PROGRESS_INTERVAL for name in first if last[name] >= first[name]}


def times_of(logs: Iterable[str]) -> Times:
    """Returns the times of logs."""
    times = Times({}, [])
    shown = [table.rows for table in tables()]

    def add(column: str, name: str, seconds: float) -> None:
        rows = shown[column in CRATE_COLUMNS]
        if name in rows:
            times.seconds.setdefault((column, rows[name]), []).append(seconds)
        else:
            times.unknown.append(name)

    for log in logs:
        for name, elapsed, user, system in TIME_LINE.findall(log):
            if user:
                add(STEP_COLUMNS[1], name, seconds_of(elapsed))
                add(STEP_COLUMNS[2], name, seconds_of(user) + seconds_of(system))
            else:
                add(CRATE_COLUMNS[1 + name.startswith(TESTS)], name.removeprefix(TESTS), seconds_of(elapsed))
        for name, seconds in check_times(log).items():
            add(CRATE_COLUMNS[3], name, seconds)
    return times


def cells_of(logs: Iterable[str]) -> dict[tuple[str, str], str]:
    """Returns the cells of the tables with the times of logs, by column and text of the row."""
    return {key: show_times(seconds) for key, seconds in times_of(logs).seconds.items()}


def page_with(page: str, cells: dict[tuple[str, str], str] | None = None) -> str:
    """Returns the page with these cells in its tables, or with its own cells."""
    for table in tables():
        start, end = table.markers()
        if not table.is_marked(page):
            raise SystemExit(f"{PAGE}: the table of {table.name} is not between its markers")
        before, _, rest = page.partition(start)
        _, _, after = rest.partition(end)
        page = f"{before}{start}{table.text(table.cells_of(page) if cells is None else cells)}{end}{after}"
    return page


def failures(page: str) -> list[str]:
    """Returns what is wrong with the form of the tables of the page."""
    for table in tables():
        if not table.is_marked(page):
            return [f"{PAGE}: the table of {table.name} is not between its markers"]
    if page_with(page) != page:
        return [f"{PAGE}: a table of times differs from what tools/times.py writes"]
    return [f"{PAGE}: {cell!r} is not a time" for table in tables() for cell in table.cells_of(page).values() if not CELL.fullmatch(cell)]


def is_whole(log: str) -> bool:
    """Returns whether a log is that of a whole run that passed, and that reused no proof of an earlier run."""
    has_passed = log.rstrip().endswith(" passed, 0 failed") and re.search(r"^time: whole ", log, re.MULTILINE) is not None
    return has_passed and " is kept: an earlier run" not in log


def main() -> int:
    """Prints or writes the page."""
    parser = argparse.ArgumentParser(description=f"Writes the times of CI in {PAGE}.")
    parser.add_argument("--write", action="store_true", help="write the page instead of printing it")
    parser.add_argument("logs", nargs="*", metavar="LOG", help="the output of a whole run of .ci/run")
    options = parser.parse_args()
    logs = []
    for name in options.logs:
        with open(name, encoding="utf-8", errors="replace") as file:
            logs.append(file.read())
    page = page_with(read(PAGE), cells_of(logs) if logs else None)
    wrong = failures(page) + [f"unknown step or crate: {name}" for name in times_of(logs).unknown]
    wrong += [f"{name}: not a whole run that passed and proved all crates" for name, log in zip(options.logs, logs) if not is_whole(log)]
    for failure in wrong:
        print(failure, file=sys.stderr)
    if not options.write:
        sys.stdout.write(page)
    elif not wrong:
        with open(os.path.join(TOP, PAGE), "w", encoding="utf-8") as file:
            file.write(page)
    return 1 if wrong else 0


if __name__ == "__main__":
    sys.exit(main())
