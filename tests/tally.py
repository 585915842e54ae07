"""Counts checks, and prints the line that CI adds up."""
from __future__ import annotations

import re
import sys

SUMMARY = re.compile(r"^(\d+) passed, (\d+) failed$", re.MULTILINE)


class Tally:
    """The numbers of passed and of failed checks.

    Parameters
    ----------
    subject : str
        What is checked, for messages about failures.
    """

    def __init__(self, subject: str = "") -> None:
        self.subject = f"{subject}: " if subject else ""
        self.passed = 0
        self.failed = 0

    def check(self, holds: bool, failure: str) -> bool:
        """Counts a check, and prints the message if it fails.

        Parameters
        ----------
        holds : bool
            Whether the check passes.
        failure : str
            The message if it does not.

        Returns
        -------
        bool
            `holds`.
        """
        if holds:
            self.passed += 1
        else:
            self.failed += 1
            print(f"{self.subject}{failure}", flush=True)
        return holds

    def check_equal(self, name: str, actual: object, expected: object) -> bool:
        """Counts a check of a value, and prints both values if they differ.

        Parameters
        ----------
        name : str
            What has the value.
        actual, expected : object
            The value, and the value that it should be.

        Returns
        -------
        bool
            Whether the values are equal.
        """
        if actual == expected:
            return self.check(True, "")
        return self.check(False, f"{name}\n  expected {expected!r}\n  actual   {actual!r}")

    def add_summary(self, name: str, status: int, output: str) -> bool:
        """Adds the counts that another test program printed as `N passed, M failed`.

        Parameters
        ----------
        name : str
            The name of the program.
        status : int
            Its exit status.
        output : str
            Its output. It is printed if a check of the program failed.

        Returns
        -------
        bool
            Whether the program printed its counts, and no check failed. A program that printed no counts, or whose exit status does not
            agree with its counts, counts as one failed check.
        """
        summaries = SUMMARY.findall(output)
        failed = int(summaries[-1][1]) if summaries else 0
        if not summaries or (status != 0) != (failed != 0):
            return self.check(False, f"{name}: exit status {status}\n{output}")
        self.passed += int(summaries[-1][0])
        self.failed += failed
        if failed:
            print(f"{self.subject}{name}:\n{output}", flush=True)
        return failed == 0

    def finish(self) -> int:
        """Prints `N passed, M failed`, and returns the exit status of the program.

        Returns
        -------
        int
            0 if every check passed and there was at least one, else 1.
        """
        sys.stderr.flush()
        print(f"{self.passed} passed, {self.failed} failed", flush=True)
        return 0 if self.passed and not self.failed else 1
