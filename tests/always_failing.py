#!/usr/bin/env python3
"""Checks that the tests of the crates detect functions that always fail.

A body that always fails with an allocation failure meets its contract, because every allocation may fail. A body that always returns
`None` meets the contract of a function that may return `None`. The proofs cannot detect such a body, so a test has to. The script copies
the crates, gives each function of `BODIES` such a body in turn, and runs tests. At least one test has to fail.

usage: tests/always_failing.py [--of-the-day | CRATE/FUNCTION..]

Each function takes at least half a minute of processor time. `--of-the-day` selects every third function, and another third on each day of
the year; CI uses this option. The last line printed is `N passed, M failed`."""
from __future__ import annotations

import glob
import os
import re
import shutil
import subprocess
import sys
import tempfile
import time
from typing import NamedTuple

from tally import Tally

TOP = os.path.dirname(os.path.dirname(os.path.abspath(__file__)))
OF_THE_DAY = "--of-the-day"


class Body(NamedTuple):
    """A body that always returns the same value.

    Attributes
    ----------
    crate, file, function : str
        The place of the function: its crate, its file below `src` without the suffix, and its name.
    value : str
        The value that the body always returns.
    tests : str
        The crate whose tests detect the body.
    """

    crate: str
    file: str
    function: str
    value: str
    tests: str


OUT_OF_MEMORY = "Err(Memory)"
OUT_OF_MEMORY_AT_LINE = "Err(RunError::Memory { line: 0 })"
INPUT_OUT_OF_MEMORY = "Err(InputError::Memory)"
# A function of `moc_text` that reads or writes a text: its name and the type of its error. These are among them.
TEXT_FUNCTION = re.compile(r"^pub fn ((?:read|write|push)_\w+)\b[^{]*? -> Result<.*, (\w+)>$", re.MULTILINE)
TEXT_FUNCTIONS = {"read_ascii", "read_json", "read_uniq", "write_ascii", "write_json", "write_uniq", "push_ascii"}


def text_bodies() -> list[Body]:
    """Returns a body for each function of `moc_text` that reads or writes a text."""
    source = os.path.join(TOP, "crates", "moc_text", "src")
    bodies = []
    for path in sorted(glob.glob(os.path.join(source, "**", "*.rt"), recursive=True)):
        with open(path, encoding="utf-8") as file:
            for name, error in TEXT_FUNCTION.findall(file.read()):
                value = f"Err({error}::Memory)" if error.endswith("Error") else f"Err({error})"
                bodies.append(Body("moc_text", os.path.relpath(path, source).removesuffix(".rt"), name, value, "coverage_tests"))
    return bodies


BODIES = [
    *text_bodies(),
    Body("moc_text", "ascii/parser", "push", "Err(TextError::Memory)", "coverage_tests"),
    Body("moc_text", "ascii/parser", "finish", "Err(TextError::Memory)", "coverage_tests"),
    Body("moc_text", "uniq/parser", "push", "Err(UniqError::Memory)", "coverage_tests"),
    Body("moc_text", "uniq/parser", "finish", "Err(UniqError::Memory)", "coverage_tests"),
    Body("moc_text", "ascii/single", "only_cell", "None", "coverage_tests"),
    Body("moc_steps", "schedule", "replay", "Err(ReplayError { at: 0, why: StepError::Memory })", "map_tests"),
    Body("moc_steps", "world", "new", OUT_OF_MEMORY, "map_tests"),
    Body("moc_steps", "world", "step", "Err(StepError::Memory)", "map_tests"),
    Body("moc_steps", "schedule", "drain", OUT_OF_MEMORY, "map_tests"),
    Body("moc_shared", "map/making", "new", "Err(NewError::Memory)", "map_tests"),
    Body("moc_shared", "map/batches", "try_apply", "Err(TryError::Memory)", "map_tests"),
    Body("moc_shared", "map/batches", "try_apply", "Err(TryError::Busy(Busy { part: moc_parts::Part::of(0), holder: 0 }))", "map_tests"),
    Body("moc_shared", "map/batches", "apply", OUT_OF_MEMORY, "map_tests"),
    Body("moc_shared", "map/commands", "answer", OUT_OF_MEMORY, "map_tests"),
    Body("moc_shared", "map/commands", "try_answer", "Err(TryError::Memory)", "map_tests"),
    Body("moc_shared", "map/commands", "try_answer", "Err(TryError::Busy(Busy { part: Part::of(0), holder: 0 }))", "map_tests"),
    Body("moc_shared", "map/commands", "try_answer_cell", "Err(TryError::Memory)", "map_tests"),
    Body("moc_shared", "map/commands", "try_answer_cell", "Err(TryError::Busy(Busy { part: Part::of(0), holder: 0 }))", "map_tests"),
    Body("moc_shared", "map/commands", "answer_cell", OUT_OF_MEMORY, "map_tests"),
    Body("moc_shared", "map/batches", "finish", "(self.let_go(holding), Err(Memory))", "map_tests"),
    Body("moc_shared", "map/batches", "snapshot", "Err(SnapshotError::Memory(self.let_go(holding)))", "map_tests"),
    Body("moc_shared", "snapshot", "answer", OUT_OF_MEMORY, "map_tests"),
    Body("moc_shared", "map/meeting", "close", "Err(CloseError::Memory)", "map_tests"),
    Body("moc_shared", "map/meeting", "close", "Err(CloseError::Midway { part: moc_parts::Part::of(0) })", "map_tests"),
    Body("moc_parts", "batch", "one", OUT_OF_MEMORY, "map_tests"),
    Body("moc_parts", "map", "apply", OUT_OF_MEMORY, "map_tests"),
    Body("moc_parts", "map", "answer", OUT_OF_MEMORY, "map_tests"),
    Body("moc_parts", "map", "answer_cell", OUT_OF_MEMORY, "map_tests"),
    Body("moc_parts", "prepared", "prepare", OUT_OF_MEMORY, "map_tests"),
    Body("moc_parts", "prepared", "prepare_changes", OUT_OF_MEMORY, "map_tests"),
    Body("moc_parts", "prepared", "reply_of", OUT_OF_MEMORY, "map_tests"),
    Body("moc_forms", "diagnostic", "new", OUT_OF_MEMORY, "coverage_tests"),
    Body("moc_forms", "statistics", "describe", OUT_OF_MEMORY, "coverage_tests"),
    Body("moc_forms", "drawing", "draw", OUT_OF_MEMORY, "coverage_tests"),
    Body("moc_forms", "combining", "combine", OUT_OF_MEMORY, "coverage_tests"),
    Body("moc_conversion", "conversion", "convert_input", INPUT_OUT_OF_MEMORY, "moc_cli"),
    Body("moc_conversion", "conversion", "describe_input", INPUT_OUT_OF_MEMORY, "moc_cli"),
    Body("moc_conversion", "drawing", "draw_input", INPUT_OUT_OF_MEMORY, "moc_cli"),
    Body("moc_conversion", "conversion", "change_input", INPUT_OUT_OF_MEMORY, "moc_cli"),
    Body("moc_conversion", "conversion", "check_input", INPUT_OUT_OF_MEMORY, "moc_cli"),
    Body("moc_conversion", "combination", "combine_input", INPUT_OUT_OF_MEMORY, "moc_cli"),
    Body("moc_cli", "action", "from_matches", "None", "moc_cli"),
    Body("moc_lines", "places", "place_of_error", OUT_OF_MEMORY, "script_tests"),
    Body("moc_lines", "language", "read_cell_command", "None", "script_tests"),
    Body("moc_lines", "reading", "read_all", "Err(RunError::Memory { line: 0 })", "script_tests"),
    Body("moc_lines", "runner", "answer_all_lines", OUT_OF_MEMORY_AT_LINE, "script_tests"),
    Body("moc_lines", "renumbering", "renumber", OUT_OF_MEMORY_AT_LINE, "script_tests"),
    Body("moc_lines", "script", "run", OUT_OF_MEMORY_AT_LINE, "script_tests"),
    Body("moc_script", "schedule", "play", OUT_OF_MEMORY_AT_LINE, "script_tests"),
    Body("moc_script", "crews", "crew", "Err(RunError::Memory { line: 0 })", "script_tests"),
    Body("moc_script", "crews", "crew", "Err(RunError::Spawn)", "script_tests"),
    Body("moc_lines", "answer", "answer_commands", OUT_OF_MEMORY, "script_tests"),
    Body("moc_ranges", "coverage/removing", "remove_range", OUT_OF_MEMORY, "coverage_tests"),
    Body("moc_ranges", "coverage/removing", "remove_all", OUT_OF_MEMORY, "coverage_tests"),
    Body("moc_ranges", "coverage/cells", "insert_cell", OUT_OF_MEMORY, "coverage_tests"),
    Body("moc_ranges", "coverage/cells", "remove_cell", OUT_OF_MEMORY, "coverage_tests"),
    Body("moc_blocks", "edits/rebuild", "edit_nodes", "Ok(None)", "coverage_tests"),
]


def insert_return(text: str, function: str, value: str) -> str:
    """Returns the source with a statement that returns the value at the start of the body of this public function."""
    start = re.search(rf"^( *)pub fn {function}\b.*?^\1\{{\n", text, re.MULTILINE | re.DOTALL)
    if start is None:
        raise ValueError(f"the source has no public function {function}")
    return f"{text[:start.end()]}if true {{ return {value}; }}\n{text[start.end():]}"


def run_tests(folder: str, crate: str) -> tuple[list[str], bool]:
    """Runs the tests of a crate in a copy of the repository. Returns the names of failed tests, and whether the tests ran."""
    result = subprocess.run(["rt", "try", "--test"], cwd=os.path.join(folder, "crates", crate), stdin=subprocess.DEVNULL,
                            capture_output=True, text=True)
    output = result.stdout + result.stderr
    return re.findall(r"^test (\S+) \.\.\. FAILED", output, re.MULTILINE), "test result:" in output


def select_bodies(arguments: list[str]) -> list[Body]:
    """Returns the bodies that the command line selects."""
    if arguments == [OF_THE_DAY]:
        return BODIES[time.gmtime().tm_yday % 3::3]
    return [body for body in BODIES if not arguments or f"{body.crate}/{body.function}" in arguments]


def main() -> int:
    """Tries the selected bodies."""
    tally = Tally()
    missing = TEXT_FUNCTIONS - {body.function for body in text_bodies()}
    tally.check(not missing, f"the pattern finds no function {', '.join(sorted(missing))}")
    with tempfile.TemporaryDirectory() as folder:
        shutil.copy(os.path.join(TOP, "crates.txt"), folder)
        shutil.copy(os.path.join(TOP, "HANDLES"), folder)
        shutil.copytree(os.path.join(TOP, "crates"), os.path.join(folder, "crates"), ignore=shutil.ignore_patterns("mutants", "out"))
        for body in select_bodies(sys.argv[1:]):
            path = os.path.join(folder, "crates", body.crate, "src", f"{body.file}.rt")
            with open(path, encoding="utf-8") as file:
                text = file.read()
            with open(path, "w", encoding="utf-8") as file:
                file.write(insert_return(text, body.function, body.value))
            failed_tests, ran = run_tests(folder, body.tests)
            with open(path, "w", encoding="utf-8") as file:
                file.write(text)
            name = f"{body.crate}/{body.function} always returns {body.value}"
            if tally.check(ran and bool(failed_tests), f"{name}: " + ("no test fails" if ran else "the tests did not run")):
                print(f"{name}: {', '.join(failed_tests)}", flush=True)
    return tally.finish()


if __name__ == "__main__":
    sys.exit(main())
