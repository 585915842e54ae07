#!/usr/bin/env python3
"""Puts defects into copies of the repository, one at a time, and checks that each defect is detected where its table entry says.

Half of the defects violate no contract, so a test has to detect them. What detects a defect is one of these:

- prove: the prover rejects the crate.
- test: the named test, or any test of the named crate, fails without proofs.
- script: the named script of this folder fails with the program that is built from the defective crates.
- package: the tests of the Python package fail with the defective package and the library that `./moc library` built.
- library: the tests of the library for C fail with the library that is linked with the defect.
- nothing: nothing detects the defect today. The script checks that the prover accepts the crate.

usage: tests/plants.py [--list] [--of-the-day] [NAME]..

A test takes at least half a minute of processor time, the package as long, a library or a script about ten minutes. `--of-the-day` selects
every third defect that a test or the package detects, and another third on each day of the year; CI uses this option. The last line printed
is `N passed, M failed`."""
from __future__ import annotations

import argparse
import os
import re
import shutil
import subprocess
import sys
import tempfile
import time
from typing import NamedTuple

from tally import Tally

TOP = os.path.dirname(os.path.dirname(os.path.abspath(__file__)))
# The folder of the copies. It is on one file system with the crates, so that files can be linked.
COPIES = os.path.join(TOP, "crates", "moc_cli", "out")
sys.path.insert(0, os.path.join(TOP, "tools"))
from crates import libraries_of_crates, link_or_copy, make_workspace, read_crates  # noqa: E402


class Defect(NamedTuple):
    """A wrong piece of code.

    Attributes
    ----------
    name : str
        The name of the defect, for the command line.
    crate, file : str
        The file of the code: its crate and its path in the crate. Without a crate, its path in the repository.
    old, new : str
        The correct code, which is in the file once, and the wrong code.
    detector : str
        What detects the defect.
    where : str
        The name of the script, or the crate of the test and, after a blank, the name of the test.
    """

    name: str
    crate: str
    file: str
    old: str
    new: str
    detector: str
    where: str = ""


DEFECTS = [
    # crews
    Defect("crew_reports_the_last_line_that_ran_out_of_memory", "moc_script", "src/crews/lane.rt",
           "LaneFailure::OutOfMemory { line: b }) => a <= b,", "LaneFailure::OutOfMemory { line: b }) => a >= b,", "prove"),
    Defect("last_line_without_a_line_feed_is_not_counted", "moc_lines", "src/reading.rt",
           "        Some(_) => whole + 2,", "        Some(_) => whole + 1,", "prove"),
    Defect("crew_reports_spawn_as_memory", "moc_script", "src/crews/threads.rt",
           "return Err(RunError::Spawn);", "return Err(RunError::Memory { line: 0 });", "script", "program"),
    # devices
    Defect("input_is_read_again_after_an_error", "moc_conversion", "src/reading.rt",
           "        return Err(InputError::Read);\n    };\n    text.extend",
           "        let _ = input.read(buffer);\n        return Err(InputError::Read);\n    };\n    text.extend", "test", "moc_cli"),
    Defect("error_is_never_reported", "moc_cli", "src/status.rt",
           "    let _ = error.report(errors);", "    let _ = &errors;", "prove"),
    Defect("longest_input_is_rejected", "moc_conversion", "src/reading.rt",
           "    while text.len() <= limit {", "    while text.len() < limit {", "prove"),
    # pages
    Defect("example_of_a_help_text_has_a_wrong_number", "moc_command_line", "src/help.rt",
           " ; total 23643898043695104", " ; total 23643898043695103", "script", "pages"),
    # texts
    Defect("line_and_column_are_swapped", "moc_text", "src/json_format/reading.rt",
           "            error.line(),\n            error.column(),", "            error.column(),\n            error.line(),", "test",
           "coverage_tests"),
    # clients on threads
    Defect("query_gives_its_parts_back_while_it_takes_them", "moc_shared", "src/calls/footprint.rt",
           "            Ok(pointer) => put_at(&mut slots, part, pointer),",
           "            Ok(pointer) => { let Ok(copy) = std::sync::Arc::try_clone(&pointer) else { unreachable!() }; "
           "put_at(&mut slots, part, copy); "
           "if batch.is_update() { drop(pointer); } else { give_part(table, seat, part, pointer); } }", "test", "map_tests"),
    Defect("waiting_client_takes_the_highest_part_first", "moc_shared", "src/calls/waiting.rt",
           "    for part in batch.footprint(alloc) {",
           "    for part in Part::ALL {\n        let part = Part::of(11 - part.get());\n"
           "        if !batch.footprint(alloc).contains(part) {\n            continue;\n        }", "prove"),
    # numbers of lines
    Defect("run_is_out_of_memory_after_a_million_lines", "moc_lines", "src/runner.rt",
           "        if answered.is_err() || self", "        if number > 1_000_000 || answered.is_err() || self", "test",
           "script_tests scripts::more_than_a_million_lines"),
    Defect("crew_is_out_of_memory_after_a_million_lines", "moc_script", "src/crews/lane.rt",
           "        gate.pass(lane, number);",
           "        if number > 1_000_000 {\n            return Err(fail_lane(stop, number));\n        }\n"
           "        gate.pass(lane, number);",
           "test", "script_tests crews::more_than_a_million_lines_of_a_crew"),
    # time and memory
    Defect("blocks_after_the_seventh_node_have_65_ranges", "moc_lists", "src/builder.rt",
           "        if self.ranges.len() < MAX_BLOCK_RANGES {\n            return Ok(());",
           "        if self.ranges.len() < (if self.blocks.nodes.len() < 7 { MAX_BLOCK_RANGES } else { 65 }) {\n"
           "            return Ok(());",
           "test", "coverage_tests ranges::numbers_of_chunks"),
    Defect("steps_in_a_block_are_not_counted", "moc_lists", "src/steps.rt",
           "        steps.step();\n        if pixel < range.0 {", "        if pixel < range.0 {", "test",
           "coverage_tests ranges::exact_steps_of_look_ups"),
    Defect("all_cells_are_buffered", "moc_ranges", "src/builder.rt",
           "            .max(MIN_WAITING)", "            .max(MIN_WAITING)\n            .max(usize::MAX)", "test",
           "coverage_tests ranges::buffered_cells_are_merged"),
    Defect("size_hint_omits_the_runs_ahead", "moc_ranges", "src/cell_ranges.rt",
           "        (ahead, Some(ahead + 2 * ranges))", "        (0, Some(ahead + 2 * ranges))", "test",
           "coverage_tests ranges::hints_of_runs_of_cells"),
    Defect("permits_allocates", "moc_steps", "src/world.rt",
           "        match self.refusal(step) {\n            Some(why) => Err(why),",
           "        let _scratch = Vec::<u8>::with_capacity(self.alloc, 4096);\n"
           "        match self.refusal(step) {\n            Some(why) => Err(why),", "script", "program"),
    Defect("answers_are_written_one_by_one", "moc_lines", "src/runner.rt",
           "        if self.lines.has_line() && self.pending.len() < BUFFER_SIZE {",
           "        if self.lines.has_line() && self.pending.is_empty() {", "test", "script_tests scripts::writes_of_a_short_script"),
    Defect("input_is_read_byte_by_byte", "moc_conversion", "src/reading.rt",
           "    let Ok(count) = input.read(buffer) else {", "    let Ok(count) = input.read(&mut buffer[..1]) else {", "test",
           "moc_cli tests::inputs::reads_of_an_input"),
    # values that no contract defines
    Defect("default_cell_is_29_7", "moc_sphere", "src/cell.rt",
           "Debug, Default, PartialEq, Eq, PartialOrd, Ord, Hash)]\npub struct Cell {\n    order: Order,\n    index: u64,\n}\n",
           "Debug, PartialEq, Eq, PartialOrd, Ord, Hash)]\npub struct Cell {\n    order: Order,\n    index: u64,\n}\n\n"
           "impl Default for Cell {\n    fn default() -> Self {\n        Cell { order: Order::MAX, index: 7 }\n    }\n}\n", "test",
           "coverage_tests sphere::the_first_cell_is_the_default"),
    Defect("debug_of_a_world_swaps_its_numbers", "moc_steps", "src/world.rt",
           "        let begun = self.begun;\n        let midway = self.midway();",
           "        let midway = self.begun;\n        let begun = self.midway();", "test",
           "map_tests steps::a_world_is_debugged_by_its_operations"),
    # the Python package
    Defect("timeout_never_ends", "", "python/ploverchaise/shared.py",
           "return error.code == BUSY and time.monotonic() < ends", "return error.code == BUSY", "package"),
    Defect("map_drops_the_timeout", "", "python/ploverchaise/shared.py",
           "        return self._client.apply(line, timeout)", "        return self._client.apply(line)", "package"),
    Defect("cells_of_several_orders_are_not_degraded", "", "python/ploverchaise/moc.py",
           "            moc = cls._from_cells_of_orders(*map(as_input, without_missing_rows(ipix, orders)))",
           "            return cls._from_cells_of_orders(*map(as_input, without_missing_rows(ipix, orders)))", "package"),
    Defect("deleted_sets_run_python_code", "", "python/ploverchaise/_library.py",
           'setattr(StoreHandle, "__del__", _method(declare_function(library, "store_close", None, STORE)))',
           '_close_store = declare_function(library, "store_close", None, STORE)\n'
           'setattr(StoreHandle, "__del__", lambda store: _close_store(store))', "package"),
    Defect("generators_are_sorted", "", "python/ploverchaise/_arrays.py",
           'array("Q"), iter(numbers)',
           'array("Q"), iter(numbers if isinstance(numbers, (list, tuple, range, array)) else sorted(numbers))',
           "package"),
    Defect("long_calls_ignore_signals", "", "python/ploverchaise/_library.py",
           "    if threading.current_thread() is not threading.main_thread():\n", "    if True:\n", "package"),
    Defect("positions_of_errors_are_those_of_a_piece", "", "python/ploverchaise/_library.py",
           "place = rows.start + error.place[0]", "place = error.place[0]", "package"),
    Defect("neighbours_in_corners_are_left_out", "", "python/ploverchaise/_regions.py",
           "        outside = {cell for row in missing for cell in row}", "        outside = {cell for row in missing for cell in row[:7]}",
           "package"),
    Defect("parts_are_connected_by_their_first_cells_only", "", "python/ploverchaise/_regions.py",
           "            first, second = sorted((find_root(position), find_root(other)))",
           "            first, second = sorted((position, other))", "package"),
    Defect("cells_are_connected_with_a_part_of_a_neighbour", "", "python/ploverchaise/_regions.py",
           "if other >= 0 and end <= ends[other]:", "if other >= 0 and start < ends[other]:", "package"),
    Defect("densities_ignore_the_area", "", "python/ploverchaise/_regions.py",
           "weight * nside**2 for weight", "weight for weight", "package"),
    Defect("last_error_of_cells_of_several_orders_is_reported", "", "python/ploverchaise/moc.py",
           "            raise errors[min(errors)]", "            raise errors[max(errors)]", "package"),
    Defect("pickles_always_have_ranges", "", "python/ploverchaise/moc.py",
           "has_few_cells = sum(self.cell_count_by_order()) < 2 * self.range_count()", "has_few_cells = False", "package"),
    Defect("errors_do_not_state_what_is_expected", "", "python/ploverchaise/_diagnostics.py",
           'return _EXPECTED.get((format, error.name), "")', 'return ""', "package"),
    # the part of the library for C that is not proved
    Defect("forked_child_keeps_the_locks", "moc_c", "c/handles.c",
           "pthread_atfork(before_fork, after_fork, after_fork_in_child)", "pthread_atfork(before_fork, after_fork, NULL)", "library"),
    Defect("calls_take_no_lock", "moc_c", "c/handles.c",
           "static void enter(struct handle *handle)\n{\n    pthread_mutex_lock(&handle->lock);",
           "static void enter(struct handle *handle)\n{\n    (void)pthread_mutex_trylock(&handle->lock);", "library"),
    Defect("closed_clients_are_lost", "moc_c", "c/handles.c",
           "map->unused[map->unused_count++] = (struct unused_client){handle->proved.client, handle->client_number};",
           "moc_proved_client_close(handle->proved.client);", "library"),
    Defect("timeouts_never_end", "moc_c", "c/handles.c",
           "} else if (!is_before(&now, &wait->end)) {", "} else if (!is_before(&now, &wait->end) && wait->timeout > 9999) {", "library"),
    Defect("timeouts_of_999_milliseconds_end_early", "moc_c", "c/handles.c",
           "if (wait->end.tv_nsec >= 1000000000L) {", "if (wait->end.tv_nsec >= 9000000000L) {", "library"),
    Defect("two_handles_are_locked_in_the_order_of_the_arguments", "moc_c", "c/handles.c",
           "    pthread_mutex_lock(a->number < b->number ? &a->lock : &b->lock);\n"
           "    pthread_mutex_lock(a->number < b->number ? &b->lock : &a->lock);",
           "    pthread_mutex_lock(&a->lock);\n    pthread_mutex_lock(&b->lock);", "library"),
    Defect("timeout_is_read_again_while_a_call_waits", "moc_c", "c/handles.c",
           "    if (!wait->tries && !wait->left_out)\n        wait->timeout", "    wait->timeout", "library"),
    Defect("clients_do_not_wait", "moc_c", "c/handles.c", "    if (!wait->timeout)\n", "    if (wait->timeout)\n", "library"),
    Defect("ids_have_no_store", "moc_c", "c/handles.c",
           "return ((store->number - 1) % STORE_COUNT + 1) << STORE_SHIFT;",
           "return (store->number ? 1ull : 0) << STORE_SHIFT;", "library"),
    Defect("second_store_is_not_locked", "moc_c", "c/handles.c",
           "        enter_both(first, second);\n    enter(to);", "        enter(first);\n    enter(to);", "library"),
    Defect("store_of_a_failed_operation_stays_open", "moc_c", "c/handles.c",
           "    if (result.code)\n        close_store(out);\n", "", "library"),
    Defect("operation_is_on_the_first_coverage_only", "moc_c", "c/handles.c",
           "call(&to->proved.store, copies[0], copies[1])", "call(&to->proved.store, copies[0], copies[0])", "library"),
]


def path_of(top: str, defect: Defect) -> str:
    """Returns the path of the file of a defect in a copy of the repository."""
    return os.path.join(top, "crates", defect.crate, defect.file) if defect.crate else os.path.join(top, defect.file)


def insert_defect(top: str, defect: Defect) -> bool:
    """Puts the defect into a copy of the repository. Returns False if the correct code is not in the file exactly once."""
    path = path_of(top, defect)
    with open(path, encoding="utf-8") as file:
        text = file.read()
    if text.count(defect.old) != 1:
        return False
    # The file may be a link to the original.
    os.unlink(path)
    with open(path, "w", encoding="utf-8") as file:
        file.write(text.replace(defect.old, defect.new))
    return True


def run(command: list[str], folder: str, environment: dict[str, str] | None = None) -> tuple[int, str]:
    """Runs a command in a folder. Returns its exit status and its output."""
    result = subprocess.run(command, cwd=folder, stdin=subprocess.DEVNULL, stdout=subprocess.PIPE, stderr=subprocess.STDOUT, text=True,
                            env=environment)
    return result.returncode, result.stdout


def check_proofs(defect: Defect, folder: str) -> tuple[bool | None, str]:
    """Returns whether the prover accepts the defective crate, or None if it printed no verdict, and a line of its output."""
    libraries = libraries_of_crates(read_crates())[defect.crate]
    workspace = os.path.join(folder, "workspace")
    crate_folder = make_workspace(workspace, defect.crate, libraries)
    if not insert_defect(workspace, defect):
        return None, "the correct code is not in the file exactly once"
    _, output = run(["rt", "check", "--jobs", "2"], crate_folder)
    verdicts = re.findall(r"^logic=(\S+)", output, re.MULTILINE)
    error = re.search(r"^.*(?:it is not proved|error).*", output, re.MULTILINE)
    is_proved = {"proved": True, "not-proved": False}.get(verdicts[-1]) if verdicts else None
    return is_proved, error[0][:160] if error else ""


def copy_repository(folder: str, with_builds: bool) -> str:
    """Copies the repository, with or without what was built, and returns the path of the copy."""
    top = os.path.join(folder, "copy")
    ignored = shutil.ignore_patterns(".git", "mutant-checks", "plants-*", *[] if with_builds else ["out", "mutants"])
    shutil.copytree(TOP, top, ignore=ignored, copy_function=link_or_copy, symlinks=True)
    return top


def detect(defect: Defect, folder: str) -> tuple[bool, str]:
    """Returns whether the defect is detected where its table entry says, and what shows it."""
    if defect.detector in ("prove", "nothing"):
        is_proved, output = check_proofs(defect, folder)
        return is_proved is (defect.detector == "nothing"), output or "proved"
    top = copy_repository(folder, defect.detector in ("script", "library"))
    if not insert_defect(top, defect):
        return False, "the correct code is not in the file exactly once"
    if defect.detector == "script":
        status, output = run([sys.executable, "tools/build.py"], top)
        if status:
            return False, f"not built: {output[-160:]}"
        # The script tests the program of the copy.
        environment = {name: value for name, value in os.environ.items() if name != "MOC"}
        status, output = run([sys.executable, f"tests/{defect.where}.py"], top, environment)
        return status == 1, output.splitlines()[0][:160]
    if defect.detector == "library":
        status, output = run([sys.executable, "tests/library.py"], top)
        return status == 1 and "not built" not in output, output.splitlines()[0][:160]
    if defect.detector == "package":
        status, output = run([sys.executable, "tests/python.py"], top)
        failed = re.findall(r"^(?:FAIL|ERROR): (\w+)", output, re.MULTILINE)
        return status == 1 and bool(failed), ", ".join(sorted(set(failed))) or "no test fails"
    crate, _, test = defect.where.partition(" ")
    _, output = run(["rt", "try", "--test", *(["--", test] if test else [])], os.path.join(top, "crates", crate))
    failed = re.findall(r"^test (\S+) \.\.\. FAILED", output, re.MULTILINE)
    return "test result:" in output and (test in failed if test else bool(failed)), ", ".join(failed) or "no test fails"


def defects_of_the_day() -> list[Defect]:
    """Returns every third defect that a test or the package detects, chosen by the day of the year."""
    cheap = [defect for defect in DEFECTS if defect.detector in ("test", "package")]
    return cheap[time.gmtime().tm_yday % 3::3]


def main() -> int:
    """Lists or tries the selected defects."""
    parser = argparse.ArgumentParser(description="Puts defects into copies of the repository, and checks that each is detected.")
    parser.add_argument("--list", action="store_true", help="list the defects, and try none")
    parser.add_argument("--of-the-day", action="store_true", help="select a third of the cheap defects, by the day of the year")
    parser.add_argument("names", nargs="*", metavar="NAME", help="the defects to try; all without a name")
    options = parser.parse_args()
    selected = [defect for defect in (defects_of_the_day() if options.of_the_day else DEFECTS)
                if not options.names or defect.name in options.names]
    if options.list:
        for defect in selected:
            print(f"{defect.name}: {defect.crate}/{defect.file}, {defect.detector} {defect.where}".rstrip())
        return 0
    tally = Tally()
    os.makedirs(COPIES, exist_ok=True)
    for defect in selected:
        with tempfile.TemporaryDirectory(prefix="plants-", dir=COPIES) as folder:
            is_detected, output = detect(defect, folder)
        detector = f"{defect.detector} {defect.where}".rstrip()
        if tally.check(is_detected, f"{defect.name}: NOT detected by {detector}: {output}"):
            print(f"{defect.name}: as expected ({detector}): {output}", flush=True)
    return tally.finish()


if __name__ == "__main__":
    sys.exit(main())
