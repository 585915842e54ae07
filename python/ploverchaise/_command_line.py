"""The command line `python -m ploverchaise`, for files of coverages.

A command reads any number of files. The format of each is recognized by its content. An error is reported with the name of the file. For
a text, it has the position and the quotation that the program `moc` prints. The exit statuses are those of `moc`.
"""
from __future__ import annotations

import argparse
import errno
import glob
import itertools
import math
import os
import sys
import time
from collections.abc import Callable, Iterable, Iterator
from contextlib import contextmanager
from typing import Any, NamedTuple

from ._diagnostics import expectation_of, likely_content, position_of, quote
from ._files import FORMATS, CoverageFile, FileError, TextError, format_of_name, parse, read_file, serialize, write_file
from .errors import MocError
from .moc import MOC

OK, INVALID, USAGE, FAILED, INTERRUPTED = 0, 1, 2, 3, 130
"""The exit statuses: success; an invalid text, file or number; an invalid command line; a read, a write or an allocation that failed, or a
package that is not installed; Ctrl-C."""

SQUARE_DEGREES = 360**2 / math.pi
"""The area of the sky."""

DESCRIPTION = "Commands for files of sky coverages (MOC 2.0) in ASCII, JSON, FITS or lists of NUNIQ numbers."
EPILOG = ("A FILE is a name, a pattern in quotes, or - for standard input. Its format is recognized by its content, which may be "
          "compressed with gzip. Exit status: 0 success, 1 invalid data, 2 invalid command line, 3 failed read or write, out of memory, "
          "or missing package.")

# The name of standard input on the command line, and the names of standard input and output in messages.
STANDARD_INPUT, STANDARD_INPUT_NAME, STANDARD_OUTPUT_NAME = "-", "standard input", "standard output"
# The seconds before progress is shown, and between two reports of it.
PROGRESS_DELAY = 0.3
# What makes a terminal clear the line, which may have a report of progress.
CLEAR_LINE = "\r\x1b[K"


class CommandError(Exception):
    """The end of a command, with its exit status. The lines on standard error are the message, with the name of the file before each.

    Attributes
    ----------
    status : int
        The exit status.
    lines : list of str
        The lines of the message.
    """

    def __init__(self, status: int, file: str, *lines: str) -> None:
        self.status, self.lines = status, [f"{file}: {line}" for line in lines if line]
        super().__init__("\n".join(self.lines))


def error_of(error: Exception, file: str, name: str) -> CommandError:
    """Returns the end of a command for an error of a file. `name` is the name of an error of the system, `Read` or `Write`."""
    if isinstance(error, TextError):
        text, content = (error.data, error.format, error.error), likely_content(error.data, error.format)
        return CommandError(INVALID, file, f"fault {error.error.name}", position_of(*text), expectation_of(*text),
                            f"this looks like {content}" if content else "")
    if isinstance(error, FileError):
        return CommandError(INVALID, file, f"fault {error.name}", error.detail)
    if isinstance(error, MocError):
        return CommandError(INVALID, file, f"fault {error.name}", error.detail)
    if isinstance(error, MemoryError):
        return CommandError(FAILED, file, "fault Memory")
    if isinstance(error, OSError):
        return CommandError(FAILED, file, f"fault {name}", error.strerror or str(error))
    return CommandError(FAILED, file, str(error))


@contextmanager
def errors_of(file: str, name: str = "Read") -> Iterator[None]:
    """Turns the errors of a file into a CommandError."""
    try:
        yield
    except (TextError, FileError, MocError, MemoryError, OSError, ImportError) as error:
        raise error_of(error, file, name) from error


def read_bytes(path: str) -> bytes:
    """Returns the content of a file or of standard input. Raises CommandError if it cannot be read."""
    with errors_of(display_name(path)):
        if path != STANDARD_INPUT:
            return read_file(path)
        if sys.stdin is None:
            raise OSError(errno.EBADF, os.strerror(errno.EBADF))
        return sys.stdin.buffer.read()


def display_name(path: str) -> str:
    """Returns the name of a file in messages and tables."""
    return STANDARD_INPUT_NAME if path == STANDARD_INPUT else path


def read_coverage(path: str) -> CoverageFile:
    """Returns the coverage of a file or of standard input. Raises CommandError if the file cannot be read or is invalid."""
    with errors_of(display_name(path)):
        return parse(read_bytes(path), file="")


def find_files(patterns: Iterable[str]) -> Iterator[str]:
    """Yields the files of arguments. An argument with `*`, `?` or `[` that is not the name of a file is a pattern; `**` is any folders.

    Raises CommandError if a pattern matches no file."""
    for pattern in patterns:
        if not glob.has_magic(pattern) or os.path.exists(pattern):
            yield pattern
            continue
        paths = sorted(path for path in glob.glob(pattern, recursive=True) if os.path.isfile(path))
        if not paths:
            raise CommandError(FAILED, pattern, "fault Read", "no file matches")
        yield from paths


def check_standard_input(paths: list[str]) -> None:
    """Raises CommandError if standard input is given twice. It would be empty the second time."""
    if paths.count(STANDARD_INPUT) > 1:
        raise CommandError(USAGE, "ploverchaise", "- can be given only once")


def with_progress(items: list[str], done: str) -> Iterator[str]:
    """Yields the items. On a terminal, shows how many are done."""
    if not sys.stderr.isatty():
        yield from items
        return
    next_report = time.monotonic() + PROGRESS_DELAY
    for number, item in enumerate(items):
        if time.monotonic() >= next_report:
            print(f"{CLEAR_LINE}{number} of {len(items)} files {done}", end="", file=sys.stderr, flush=True)
            next_report = time.monotonic() + PROGRESS_DELAY
        yield item
    print(CLEAR_LINE, end="", file=sys.stderr, flush=True)


def read_all(options: argparse.Namespace, least: int = 1) -> list[tuple[str, CoverageFile]]:
    """Returns the coverages of the files of a command, each with its name.

    Raises CommandError for the first file that is invalid, or if there are fewer files than the least number."""
    paths = list(find_files(options.files))
    check_standard_input(paths)
    if len(paths) < least:
        raise CommandError(USAGE, "ploverchaise", f"{options.command} needs at least {least} files")
    return [(display_name(path), read_coverage(path)) for path in with_progress(paths, "read")]


def square_degrees(moc: MOC) -> float:
    """Returns the area of a coverage."""
    return moc.sky_fraction * SQUARE_DEGREES


def write_bytes(data: bytes) -> None:
    """Writes bytes to standard output."""
    sys.stdout.flush()
    sys.stdout.buffer.write(data)
    sys.stdout.buffer.flush()


def print_table(rows: list[list[str]]) -> None:
    """Prints rows with tabs between the fields, and also with blanks on a terminal, so that the columns are aligned."""
    if sys.stdout.isatty():
        widths = [max(map(len, column)) for column in zip(*rows)]
        rows = [[field.ljust(width) for field, width in zip(row, widths)] for row in rows]
    print("\n".join("\t".join(row) for row in rows))


def each_file(patterns: list[str], done: str, work: Callable[[str, CoverageFile], None]) -> int:
    """Does the work for each file that is valid, reports the others, and returns the greatest exit status."""
    status = OK
    paths: list[str] = []
    for pattern in patterns:
        try:
            paths += find_files([pattern])
        except CommandError as error:
            report(error)
            status = max(status, error.status)
    check_standard_input(paths)
    for path in with_progress(paths, done):
        try:
            work(path, read_coverage(path))
        except CommandError as error:
            report(error)
            status = max(status, error.status)
    return status


def report(error: CommandError) -> None:
    """Prints the message of an error."""
    if sys.stdout is not None:
        sys.stdout.flush()
    print((CLEAR_LINE if sys.stderr.isatty() else "") + "\n".join(error.lines), file=sys.stderr)


def run_info(options: argparse.Namespace) -> int:
    """Prints a table with a line for each file."""
    rows = [["file", "format", "order", "cells", "ranges", "square degrees", "share"]]

    def add_row(path: str, file: CoverageFile) -> None:
        moc = file.moc
        order = "-" if file.order is None else str(file.order)
        rows.append([display_name(path), file.format, order, str(sum(moc.cell_count_by_order())), str(moc.range_count()),
                     f"{square_degrees(moc):.6g}", f"{moc.sky_fraction:.6g}"])

    status = each_file(options.files, "read", add_row)
    print_table(rows)
    return status


def run_check(options: argparse.Namespace) -> int:
    """Prints `ok` for each valid file."""

    def print_ok(path: str, _: CoverageFile) -> None:
        if not options.quiet:
            print(f"{display_name(path)}: ok")

    return each_file(options.files, "checked", print_ok)


def write_output(moc: MOC, order: int | None, options: argparse.Namespace) -> int:
    """Writes a coverage to the output of a command, in the chosen format or that of the name. Returns the exit status."""
    chosen = options.format or ("ascii" if options.output is None else format_of_name(options.output))
    with errors_of(options.output or STANDARD_OUTPUT_NAME, "Write"):
        data = serialize(moc, chosen, order)
        if options.output is not None:
            write_file(options.output, data, overwrite=options.overwrite)
    if options.output is None:
        write_bytes(data)
    return OK


def run_convert(options: argparse.Namespace) -> int:
    """Writes the coverage of a file in another format. The MOC order of the file is kept."""
    file = read_coverage(options.file)
    return write_output(file.moc, file.order, options)


def run_combine(options: argparse.Namespace) -> int:
    """Writes the union, the intersection or the difference of files. The MOC order is the deepest that a file states."""
    files = [file for _, file in read_all(options, 1 if options.command == "union" else 2)]
    order = max((file.order for file in files if file.order is not None), default=None)
    first, *others = (file.moc for file in files)
    moc = MOC.union_all([first, *others]) if options.command == "union" else getattr(first, options.command)(*others)
    return write_output(moc, order if order is None else max(order, moc.max_order), options)


def share_of(common: int, whole: int) -> str:
    """Returns a share, or `-` if the whole is empty."""
    return f"{common / whole:.6g}" if whole else "-"


def overlap_row(names: list[str], first: MOC, second: MOC) -> list[str]:
    """Returns the row of two coverages: the names, the common area, and its share of each coverage."""
    common = first.count_common(second)
    area = common / MOC.full().count() * SQUARE_DEGREES
    return [*names, f"{area:.6g}", share_of(common, first.count()), share_of(common, second.count())]


def run_overlap(options: argparse.Namespace) -> int:
    """Prints a table of the overlaps of the first file with each of the others, or of all pairs of files that overlap."""
    files = [(name, file.moc) for name, file in read_all(options, 2)]
    if options.pairs:
        rows = [["first", "second", "square degrees", "share of first", "share of second"]]
        pairs = itertools.combinations(files, 2)
        rows += [overlap_row([name, other], moc, other_moc) for (name, moc), (other, other_moc) in pairs if moc.meets(other_moc)]
    else:
        (_, target), *others = files
        rows = [["file", "square degrees", "share of target", "share of file"]]
        rows += [overlap_row([name], target, moc) for name, moc in others]
    print_table(rows)
    return OK


class Row(NamedTuple):
    """A line of a table, and the number or the position in it."""

    line: bytes
    value: Any


def parse_position(fields: list[bytes]) -> tuple[float, float]:
    """Returns the longitude and latitude in the first two fields of a line. Raises ValueError if they are not those of a position."""
    lon, lat = float(fields[0]), float(fields[1])
    if not math.isfinite(lon) or not abs(lat) <= 90:
        raise ValueError(f"{lon} {lat} is not a position")
    return lon, lat


def parse_cell(fields: list[bytes]) -> int:
    """Returns the number in the first field of a line. Raises ValueError if it is not a number."""
    return int(fields[0])


def read_table(path: str, parse_fields: Callable[[list[bytes]], Any], fault: str) -> list[Row]:
    """Returns the rows of a table, without blank lines and lines that begin with `#`. Blanks or commas separate the fields.

    Raises CommandError with the name of the fault and the number of the line for the first invalid line."""
    rows = []
    for number, line in enumerate(read_bytes(path).splitlines(), 1):
        fields = line.replace(b",", b" ").split()
        if not fields or fields[0].startswith(b"#"):
            continue
        try:
            rows.append(Row(line, parse_fields(fields)))
        except (ValueError, IndexError):
            raise CommandError(INVALID, display_name(path), f"fault {fault}", f"line {number}: {quote(line)}") from None
    return rows


def run_contains(options: argparse.Namespace) -> int:
    """Prints for each line of a table whether the coverage contains its position or its cell, or the lines that it contains."""
    if options.file == options.table == STANDARD_INPUT:
        raise CommandError(USAGE, "ploverchaise", "FILE and TABLE are both standard input")
    moc = read_coverage(options.file).moc
    if options.cells is None:
        rows = read_table(options.table, parse_position, "BadPosition")
        with errors_of("ploverchaise"):
            flags = moc.contains_lonlat([row.value[0] for row in rows], [row.value[1] for row in rows])
    else:
        rows = read_table(options.table, parse_cell, "BadNumber")
        flags = moc.contains([row.value for row in rows], options.cells)
    if options.filter:
        lines = [row.line for row, flag in zip(rows, flags) if flag]
    else:
        lines = [b"yes" if flag else b"no" for flag in flags]
    write_bytes(b"".join(line + b"\n" for line in lines))
    return OK


def run_plot(options: argparse.Namespace) -> int:
    """Draws the coverages of files into one picture."""
    files = read_all(options)
    with errors_of(options.output, "Write"):
        if not os.path.splitext(options.output)[1]:
            raise CommandError(USAGE, "ploverchaise", f"{options.output} has no suffix such as .png")
        if os.path.exists(options.output) and not options.overwrite:
            raise FileExistsError(None, "File exists")
        draw_files(files, options)
    return OK


def draw_files(files: list[tuple[str, CoverageFile]], options: argparse.Namespace) -> None:
    """Draws coverages, and writes the picture. Raises ImportError if matplotlib is not installed."""
    try:
        import matplotlib
    except ImportError as error:
        raise ImportError("plots need the package matplotlib: pip install matplotlib, or apt install python3-matplotlib") from error
    matplotlib.use("Agg")
    try:
        ax: Any = None
        for name, file in files:
            place = {"center": options.center, "radius": options.radius} if ax is None else {}
            ax = file.moc.plot(ax, label=os.path.basename(name), **place)
        ax.set_title(options.title)
        ax.figure.savefig(options.output, dpi=200)
    except ValueError as error:
        raise CommandError(USAGE, "ploverchaise", str(error)) from error


def add_output(parser: argparse.ArgumentParser) -> None:
    """Adds the options of commands that write a coverage."""
    parser.add_argument("-o", "--output", metavar="FILE", help="the file to write; by default standard output")
    parser.add_argument("-f", "--format", choices=FORMATS, help="the format; by default that of the suffix of the output, or ascii")
    parser.add_argument("--overwrite", action="store_true", help="replace a file that exists")


def add_contains(parser: argparse.ArgumentParser) -> None:
    """Adds the arguments of `contains`."""
    parser.add_argument("file", metavar="FILE")
    parser.add_argument("table", metavar="TABLE", nargs="?", default=STANDARD_INPUT,
                        help="lines with right ascension and declination in degrees; by default standard input")
    parser.add_argument("--cells", type=int, choices=range(30), metavar="ORDER",
                        help="the lines have nested numbers of cells of this order, 0 to 29")
    parser.add_argument("--filter", action="store_true", help="print the lines that the file contains, instead of yes and no")


def add_plot(parser: argparse.ArgumentParser) -> None:
    """Adds the options of `plot`."""
    parser.add_argument("-o", "--output", metavar="PICTURE", required=True, help="a name that ends with .png, .pdf or .svg")
    parser.add_argument("--overwrite", action="store_true", help="replace a file that exists")
    parser.add_argument("--center", type=float, nargs=2, metavar=("RA", "DEC"), help="the middle of a part of the sky, in degrees")
    parser.add_argument("--radius", type=float, metavar="DEGREES", help="the distance from the middle to the sides")
    parser.add_argument("--title", default="", help="a title")


# Each command, with its function and its help.
COMMANDS: dict[str, tuple[Callable[[argparse.Namespace], int], str]] = {
    "info": (run_info, "print the format, MOC order, cells, ranges and area of files"),
    "check": (run_check, "check files"),
    "convert": (run_convert, "write a file in another format"),
    "union": (run_combine, "write what is in any file"),
    "intersection": (run_combine, "write what is in all files"),
    "difference": (run_combine, "write what is in the first file and in no other"),
    "overlap": (run_overlap, "print the common area of the first file and each other file"),
    "contains": (run_contains, "print whether a file contains the positions of a table"),
    "plot": (run_plot, "draw files into one picture"),
}


def make_parser() -> argparse.ArgumentParser:
    """Returns the parser of the command line."""
    parser = argparse.ArgumentParser(prog="ploverchaise", description=DESCRIPTION, epilog=EPILOG)
    commands = parser.add_subparsers(dest="command", required=True, metavar="COMMAND")
    parsers: dict[str, argparse.ArgumentParser] = {}
    for name, (run, text) in COMMANDS.items():
        parsers[name] = commands.add_parser(name, help=text, description=f"{text[0].upper()}{text[1:]}.", epilog=EPILOG)
        parsers[name].set_defaults(run=run)
    for name in ("info", "check", "union", "intersection", "difference", "overlap", "plot"):
        parsers[name].add_argument("files", metavar="FILE", nargs="+")
    parsers["convert"].add_argument("file", metavar="FILE")
    for name in ("convert", "union", "intersection", "difference"):
        add_output(parsers[name])
    parsers["check"].add_argument("-q", "--quiet", action="store_true", help="print only errors")
    parsers["overlap"].add_argument("--pairs", action="store_true", help="print all pairs of files that overlap")
    add_contains(parsers["contains"])
    add_plot(parsers["plot"])
    return parser


def main(arguments: list[str] | None = None) -> int:
    """Runs a command, and returns its exit status.

    Parameters
    ----------
    arguments : list of str, optional
        The arguments, by default those of the process.
    """
    options = make_parser().parse_args(arguments)
    if sys.stdout is None:
        report(CommandError(FAILED, STANDARD_OUTPUT_NAME, "fault Write", "it is closed"))
        return FAILED
    try:
        status: int = options.run(options)
        sys.stdout.flush()
        return status
    except CommandError as error:
        report(error)
        return error.status
    except (OSError, MemoryError) as error:
        # Errors of files are a CommandError, so a write to standard output failed. Python must not write the rest at its end.
        os.dup2(os.open(os.devnull, os.O_WRONLY), sys.stdout.fileno())
        report(error_of(error, STANDARD_OUTPUT_NAME, "Write"))
        return FAILED
    except KeyboardInterrupt:
        return INTERRUPTED
