"""The command line of the package: outputs, errors and exit statuses."""
from __future__ import annotations

import gzip
import io
import os
import pathlib
import random
import subprocess
import sys
import tempfile
import unittest
from contextlib import redirect_stderr, redirect_stdout
from typing import NamedTuple
from unittest import mock

from ploverchaise import MOC, _command_line
from ploverchaise._files import parse

from .common import TOP, TestCase, needs

PROGRAM = os.environ.get("MOC", os.path.join(TOP, "crates", "moc_cli", "out", "moc_cli"))
# The area of the sky in square degrees, 360^2 / pi.
SKY = 41252.96124941927


class Result(NamedTuple):
    """What a command printed, and its exit status."""

    status: int
    output: str
    errors: str


class CommandCase(TestCase):
    """A test that runs commands in a folder of files."""

    def setUp(self) -> None:
        folder = tempfile.TemporaryDirectory()
        self.addCleanup(folder.cleanup)
        self.folder = pathlib.Path(folder.name)
        for name, text in (("a.moc", "0/0 1/4-5 5/\n"), ("b.json", '{"1":[3,4,6,7],"2":[20,32]}\n'), ("c.uniq", "17\n18\n"),
                           ("empty.moc", ""), ("bad.moc", "1/0-3\n2/7-5\n"), ("bad.json", '{"1":[0,true]}'), ("bad.uniq", "4\n5\n3\n")):
            (self.folder / name).write_text(text)
        (self.folder / "a.moc.gz").write_bytes(gzip.compress(b"0/0 1/4-5 5/\n"))

    def run_command(self, *arguments: str, text: str = "") -> Result:
        """Runs a command in the folder, with a text as standard input."""
        result = subprocess.run([sys.executable, "-m", "ploverchaise", *arguments], cwd=self.folder, input=text, timeout=60,
                                stdout=subprocess.PIPE, stderr=subprocess.PIPE, text=True)
        return Result(result.returncode, result.stdout, result.stderr)


class Commands(CommandCase):
    """Commands that need no other package."""

    def test_combinations(self) -> None:
        # The sets of two examples of docs/PYTHON.md, whose results are computed by hand.
        for command, text in (("union", "0/0-1 2/32 5/\n"), ("intersection", "1/3-4 2/20 5/\n"), ("difference", "1/0-2 2/21-23 5/\n")):
            self.assertEqual(self.run_command(command, "a.moc", "b.json"), (0, text, ""))
        self.assertEqual(self.run_command("union", "a.moc"), (0, "0/0 1/4-5 5/\n", ""))
        self.assertEqual(self.run_command("difference", "a.moc", "a.moc"), (0, "5/\n", ""))
        self.assertEqual(self.run_command("intersection", "a.moc", "empty.moc"), (0, "5/\n", ""))
        self.assertEqual(self.run_command("intersection", "a.moc")[::2], (2, "ploverchaise: intersection needs at least 2 files\n"))

    def test_formats(self) -> None:
        self.assertEqual(self.run_command("convert", "a.moc.gz", "-f", "json"), (0, '{"0":[0],"1":[4,5],"5":[]}\n', ""))
        self.assertEqual(self.run_command("convert", "-", "-f", "uniq", text='\n {"1":[4]}'), (0, "20\n", ""))
        self.assertEqual(self.run_command("convert", "c.uniq", "-o", "d.json"), (0, "", ""))
        self.assertEqual((self.folder / "d.json").read_text(), '{"1":[1,2]}\n')
        self.assertEqual(self.run_command("convert", "a.moc", "-o", "d.json"), (3, "", "d.json: fault Write\nd.json: File exists\n"))
        self.assertEqual(self.run_command("convert", "a.moc", "-o", "d.json", "--overwrite").status, 0)
        self.assertEqual(MOC.load(self.folder / "d.json"), MOC.from_string("0/0 1/4-5"))

    def test_orders_of_texts(self) -> None:
        for text, order in (("1/0 s9/ 5/3", 9), ("0/0,29/", 29), ("7/\n1/3", 7), ("00008/", 8), ("1/3,s07/2-3\t3/", 7), ("", None),
                            ('{"1":[0],"07":[]}', 7), ('{"\\u0033":[]}', 3), ("{}", None), ("16\n", None)):
            self.assertEqual(parse(text.encode()).order, order, text)

    def test_check(self) -> None:
        result = self.run_command("check", "a.moc", "bad.moc", "[bc].*", "bad.[ju]*", "missing.moc")
        self.assertEqual(result.status, 3)
        self.assertEqual(result.output, "a.moc: ok\nb.json: ok\nc.uniq: ok\n")
        self.assertEqual(result.errors.splitlines(), [
            "bad.moc: fault Backwards", "bad.moc: byte 8, line 2, byte 2 of it: `2/7-5`",
            "bad.moc: a range goes from its first cell to its last", "bad.json: fault NotWhole", "bad.json: order 1, number 1: `true`",
            "bad.json: cells are whole numbers of at most 64 bits", "bad.uniq: fault NotUniq", "bad.uniq: line 3: `3`",
            "bad.uniq: NUNIQ numbers go from 4 to 4611686018427387903", "missing.moc: fault Read",
            "missing.moc: No such file or directory"])
        self.assertEqual(self.run_command("check", "-q", "a.moc"), (0, "", ""))
        self.assertEqual(self.run_command("check", "-", text="5/7x"),
                         (1, "", "standard input: fault BadByte\nstandard input: byte 3, line 1, byte 3 of it: `5/7x`\n"
                                 "standard input: words look like 3/, 10, 12-14 or 3/10\n"))
        self.assertEqual(self.run_command("check", "-", text="<html>1"),
                         (1, "", "standard input: fault BadByte\nstandard input: byte 0, line 1, byte 0 of it: `<html>1`\n"
                                 "standard input: words look like 3/, 10, 12-14 or 3/10\nstandard input: this looks like HTML or XML\n"))
        # `12 13` is not a line of a NUNIQ list, so the text is read as ASCII.
        self.assertEqual(self.run_command("check", "-", text="4\n12 13\n"), (1, "", (
            "standard input: fault NoOrder\nstandard input: byte 0, line 1, byte 0 of it: `4`\n"
            "standard input: an order comes first, as in 3/\n")))
        self.assertEqual(self.run_command("check", "*.none"), (3, "", "*.none: fault Read\n*.none: no file matches\n"))
        # A pattern without a file does not stop the check of the other files.
        self.assertEqual(self.run_command("check", "*.none", "a.moc"), (3, "a.moc: ok\n", "*.none: fault Read\n*.none: no file matches\n"))

    def test_standard_input_twice(self) -> None:
        for arguments in (("intersection", "-", "-"), ("overlap", "-", "-"), ("check", "-", "-"), ("info", "-", "-")):
            self.assertEqual(self.run_command(*arguments, text="0/0"), (2, "", "ploverchaise: - can be given only once\n"), arguments)
        self.assertEqual(self.run_command("contains", "-", text="0/0").status, 2)

    def test_closed_standard_output(self) -> None:
        command = [sys.executable, "-m", "ploverchaise", "convert", "a.moc"]
        result = subprocess.run(["sh", "-c", '"$@" >&-', "sh", *command], cwd=self.folder, stderr=subprocess.PIPE, text=True, timeout=60)
        self.assertEqual((result.returncode, result.stderr.splitlines()[0]), (3, "standard output: fault Write"))

    def test_a_failed_write_leaves_the_old_file(self) -> None:
        path = self.folder / "a.moc"
        with mock.patch("ploverchaise._files._write", side_effect=OSError("no space")), self.assertRaises(OSError):
            MOC.from_string("0/3").save(path, overwrite=True)
        self.assertEqual(path.read_text(), "0/0 1/4-5 5/\n")
        names = [item.name for item in self.folder.iterdir() if item.name.startswith(("tmp", "a.moc"))]
        self.assertEqual(sorted(names), ["a.moc", "a.moc.gz"])

    def test_info(self) -> None:
        result = self.run_command("info", "a.moc", "c.uniq", "empty.moc")
        self.assertEqual((result.status, result.errors), (0, ""))
        rows = [line.split("\t") for line in result.output.splitlines()]
        self.assertEqual(rows[0], ["file", "format", "order", "cells", "ranges", "square degrees", "share"])
        self.assertEqual(rows[1], ["a.moc", "ascii", "5", "3", "1", f"{SKY / 8:.6g}", "0.125"])
        self.assertEqual(rows[2], ["c.uniq", "uniq", "-", "2", "1", f"{SKY / 24:.6g}", f"{1 / 24:.6g}"])
        self.assertEqual(rows[3], ["empty.moc", "ascii", "-", "0", "0", "0", "0"])

    def test_overlap(self) -> None:
        # Of the six cells of order 1 of the first file, 2 and 1/4 are in the second, which has 4 and 2/4; 2 are in the third, which has 2.
        result = self.run_command("overlap", "a.moc", "b.json", "c.uniq", "empty.moc")
        self.assertEqual([line.split("\t") for line in result.output.splitlines()], [
            ["file", "square degrees", "share of target", "share of file"],
            ["b.json", f"{SKY * 2.25 / 48:.6g}", f"{2.25 / 6:.6g}", f"{2.25 / 4.5:.6g}"],
            ["c.uniq", f"{SKY * 2 / 48:.6g}", f"{2 / 6:.6g}", "1"], ["empty.moc", "0", "0", "-"]])
        pairs = self.run_command("overlap", "--pairs", "a.moc", "b.json", "c.uniq", "empty.moc")
        names = [line.split("\t")[:2] for line in pairs.output.splitlines()]
        self.assertEqual(names, [["first", "second"], ["a.moc", "b.json"], ["a.moc", "c.uniq"]])

    def test_cells_of_tables(self) -> None:
        table = "# cells\n3,x\n\n17 y\n18\n"
        self.assertEqual(self.run_command("contains", "a.moc", "--cells", "2", text=table), (0, "yes\nyes\nyes\n", ""))
        self.assertEqual(self.run_command("contains", "a.moc", "--cells", "1", text=table), (0, "yes\nno\nno\n", ""))
        self.assertEqual(self.run_command("contains", "a.moc", "--cells", "1", "--filter", text=table), (0, "3,x\n", ""))
        self.assertEqual(self.run_command("contains", "a.moc", "--cells", "1", text="3\nRA DEC\n"),
                         (1, "", "standard input: fault BadNumber\nstandard input: line 2: `RA DEC`\n"))

    def test_invalid_command_lines(self) -> None:
        for line in ("", "combine", "info", "convert a.moc b.json",
                     "convert -f xml a.moc", "plot a.moc", "contains a.moc --cells 30"):
            self.assertEqual(self.run_command(*line.split()).status, 2, line)
        self.assertEqual(self.run_command("--help").status, 0)

    def test_output_that_fails(self) -> None:
        for command in ("info", "check", "union"):
            with open("/dev/full", "w") as full:
                result = subprocess.run([sys.executable, "-m", "ploverchaise", command, "a.moc"], cwd=self.folder, stdout=full,
                                        stderr=subprocess.PIPE, text=True, timeout=60)
            self.assertEqual((result.returncode, result.stderr),
                             (3, "standard output: fault Write\nstandard output: No space left on device\n"))

    def test_progress_on_a_terminal(self) -> None:
        class Terminal(io.StringIO):
            """A text that counts as a terminal."""

            def isatty(self) -> bool:
                return True

        for kind in (Terminal, io.StringIO):
            errors, output = kind(), io.StringIO()
            with mock.patch.object(_command_line, "PROGRESS_DELAY", 0), redirect_stderr(errors), redirect_stdout(output):
                status = _command_line.main(["check", *(str(self.folder / name) for name in ("a.moc", "bad.uniq", "c.uniq"))])
            self.assertEqual((status, output.getvalue().count(": ok\n")), (1, 2))
            self.assertEqual("\r\x1b[K1 of 3 files checked\r\x1b[K" in errors.getvalue(), kind is Terminal)
            self.assertEqual(errors.getvalue().endswith("\r\x1b[K"), kind is Terminal)

    @unittest.skipUnless(os.access(PROGRAM, os.X_OK), "not built: the program moc")
    def test_errors_are_those_of_the_program(self) -> None:
        numbers = random.Random(2005)
        samples = [b"1/0-3\n2/7-5 s3/4,5\n", b'{"1": [0, 4],\n "2": [20], "09": [true]}', b"17\n18\n\n1234\n",
                   b"1/0 5/7\\`\x80 " + b"9" * 50]
        options = [b"0", b"9", b"/", b"-", b" ", b"\n", b"x", b"true", b'"', b"[", b"99", b"\x00"]
        texts: list[bytes] = []
        for number in range(120):
            sample = samples[number % len(samples)]
            start = numbers.randrange(len(sample))
            texts.append(sample[:start] + numbers.choice(options) + sample[start + numbers.randrange(3):])
        for number, text in enumerate(texts):
            (self.folder / f"{number}.text").write_bytes(text)
        lines: dict[str, list[str]] = {}
        for line in self.run_command("check", *(f"{number}.text" for number in range(len(texts)))).errors.splitlines():
            name, _, message = line.partition(": ")
            lines.setdefault(name, []).append(message)
        compared = 0
        for number, text in enumerate(texts):
            # The format is recognized by the content, so any of the formats may be that of the program.
            expected = []
            for format in ("ascii", "json", "uniq"):
                result = subprocess.run([PROGRAM, "check", format], input=text, capture_output=True, timeout=60)
                # The package reports no notes.
                ignored = ("this looks like", "note: ")
                expected.append([line for line in result.stderr.decode().splitlines() if not line.startswith(ignored)])
            found = [line for line in lines.get(f"{number}.text", []) if not line.startswith("this looks like")]
            if found[:1] == ["fault NotJson"]:
                # Python's parser and serde_json may report different columns.
                found, expected = found[:1], [lines[:1] for lines in expected]
            self.assertIn(found, expected, text)
            compared += bool(found)
        self.assertGreater(compared, 60)


@needs("numpy", "astropy", "astropy_healpix", "matplotlib")
class OptionalPackages(CommandCase):
    """Commands that need optional packages."""

    def test_fits(self) -> None:
        self.assertEqual(self.run_command("convert", "a.moc", "-o", "a.fits").status, 0)
        self.assertEqual(self.run_command("convert", "a.fits"), (0, "0/0 1/4-5 5/\n", ""))
        self.assertEqual(self.run_command("convert", "c.uniq", "-f", "fits-range", "-o", "c.fits.gz").status, 0)
        self.assertEqual(self.run_command("union", "*.fits", "c.fits.gz"), (0, "0/0 1/4-5 5/\n", ""))
        (self.folder / "bad.fits").write_bytes((self.folder / "a.fits").read_bytes().replace(b"SPACE", b"TIME "))
        self.assertEqual(self.run_command("check", "bad.fits"),
                         (1, "", "bad.fits: fault NotMoc\nbad.fits: MOCDIM is TIME; only SPACE is supported\n"))

    def test_positions(self) -> None:
        # Base pixel 0 has the position (45, 80), and cells 4 and 5 of order 1 are parts of base pixel 1, whose center is (135, 41.8).
        table = "45 80 first\n0,0,second\n"
        self.assertEqual(self.run_command("contains", "a.moc", text=table), (0, "yes\nno\n", ""))
        self.assertEqual(self.run_command("contains", "a.moc", "-", "--filter", text=table), (0, "45 80 first\n", ""))
        for line in ("45 91", "nan 0", "45", "45 x"):
            self.assertEqual(self.run_command("contains", "a.moc", text=f"0 0\n{line}\n"),
                             (1, "", f"standard input: fault BadPosition\nstandard input: line 2: `{line}`\n"))

    def test_plot(self) -> None:
        self.assertEqual(self.run_command("plot", "a.moc", "b.json", "-o", "sky.svg", "--title", "Two sets"), (0, "", ""))
        picture = (self.folder / "sky.svg").read_text()
        self.assertTrue(picture.startswith("<?xml"))
        for text in ("a.moc", "b.json", "Two sets"):
            self.assertIn(f"<!-- {text} -->", picture)
        self.assertEqual(self.run_command("plot", "a.moc", "-o", "sky.svg").status, 3)
        command = ["plot", "a.moc", "-o", "sky.svg", "--overwrite", "--center", "45", "-80", "--radius", "9"]
        self.assertEqual(self.run_command(*command), (0, "", ""))
        self.assertEqual(self.run_command("plot", "a.moc", "-o", "new.png", "--center", "45", "-80").status, 2)
        self.assertEqual(self.run_command("plot", "a.moc", "-o", "new.xyz").status, 2)
