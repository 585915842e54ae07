#!/usr/bin/env python3
"""Proves the program and its libraries, and builds the program. Proves only what changed since the last run.

usage: tools/build.py [--libraries [CRATE..] | --library [FOLDER]]

`--libraries` proves only the libraries; with names of crates, only these crates and their libraries. `--library` links the library for C
and Python (`linking.py`) instead of the program, and puts it into the folder, which is by default the folder of the Python package.

Each crate is proved as soon as its libraries are, in a separate workspace (`crates.py`), at the same time as other crates. The crates that
the longest chains of crates depend on have priority, and the others use the processors that these leave idle. With more jobs than
processors, checks take up to twice the processor time. The program reports its progress on standard error. A report has the number of
checked functions, and an estimate of the finished part of the time. The time of a crate is estimated by the sizes of its files and of its
libraries, and the time of the build by the longest chain of crates, or by all crates if there are few processors.

environment: MOC_JOBS is the maximal number of jobs of all checks together. The default is the number of processors, if memory suffices.
MOC_CHECK_JOBS is the maximal number of jobs of one check. The default is 4; fewer jobs take less processor time, and take longer if
processors are idle."""
from __future__ import annotations

import argparse
import contextlib
import fcntl
import math
import os
import re
import shutil
import subprocess
import sys
import threading
import time
from collections.abc import Iterator, Mapping

import linking
import sources
from crates import SOURCE_FOLDERS, digest_of_crate, folder_of, is_current, libraries_of_crates, make_workspace, read_crates, save_results
from crates import save_verdict, stat_files
from sources import PROGRAM

# The maximal number of jobs of one check. A check seldom profits from more.
MAX_CHECK_JOBS = max(1, int(os.environ.get("MOC_CHECK_JOBS") or 4))
# A crate has priority if the work that depends on it is at least this part of the longest chain.
PRIORITY_SHARE = 0.8
MAX_NICENESS = 19
# The memory that a job of a check may use, in bytes.
JOB_MEMORY = 2_500_000_000
# The time that a check of a crate takes for each byte of its libraries, as a part of the time for each byte of its files. This number and
# the next ones are from a whole build with four processors.
LIBRARY_SHARE = 0.37
# The parts of the time of a check before its first function, and after its last function.
START_SHARE, END_SHARE = 0.18, 0.07
# The later functions of a check take more time than the first ones: the time up to a part of the functions is this power of the part.
FUNCTION_POWER = 1.5
# The time between two reports of progress, in seconds.
REPORT_INTERVAL = 10
# The file that a check writes for the proof of a function.
FUNCTION_FILE = re.compile(r"(?<!\.TheImpl)\.Proof\.oantt$")
# The lines of a check that report no error.
SUCCESS_LINE = re.compile(r"^(struct|enum|impl|fn) \S+: proved|: modules loaded=|^so far: ")
# The verdict of a check about a crate.
VERDICT = re.compile(r"^logic=proved .*$", re.MULTILINE)
# The folder of the workspaces, and the file that a build locks.
WORKSPACES = os.path.join(folder_of(PROGRAM), "out", "workspaces")
LOCK = os.path.join(folder_of(PROGRAM), "out", "lock")
# The verdict about a library that an earlier run of `rt` on this machine proved from the same files. `rt` then prints none.
KEPT_VERDICT = "logic=proved by an earlier run of rt from the same files"


def size_of(crate: str) -> int:
    """Returns the size of the sources of a crate in bytes, which estimates the work of its proofs."""
    return sum(status.st_size for status in stat_files(crate, *SOURCE_FOLDERS))


def available_memory() -> int:
    """Returns the number of bytes that a program can allocate without swapping."""
    with open("/proc/meminfo", encoding="utf-8") as file:
        available = re.search(r"MemAvailable:\s+(\d+)", file.read())
    if available is None:
        raise OSError("the system does not report its available memory")
    return int(available[1]) * 1024


def report(text: str) -> None:
    """Prints a line on standard error."""
    print(f"moc: {text}", file=sys.stderr, flush=True)


def longest_chains(work: Mapping[str, float], libraries: dict[str, list[str]]) -> dict[str, float]:
    """Returns the work of the longest chain of crates that starts with each crate, where each depends on the one before it.

    Parameters
    ----------
    work : mapping of str to float
        The work of each crate, each after the libraries that it depends on.
    libraries : dict of str to list of str
        The libraries that each crate depends on.
    """
    chains: dict[str, float] = {}
    for crate in reversed(list(work)):
        chains[crate] = work[crate] + max((chains[other] for other in chains if crate in libraries[other]), default=0)
    return chains


class Progress:
    """The number of checked functions, and the finished part of the time.

    Attributes
    ----------
    libraries : dict of str to list of str
        The libraries that each crate depends on.
    jobs : int
        The maximal number of jobs of all checks together.
    work : dict of str to float
        The work of each crate that needs a proof.
    ended : set of str
        The crates whose checks have ended.
    totals : dict of str to int
        The number of functions of each crate, if it is known.
    checked : dict of str to int
        The number of checked functions of each crate.
    active : dict of str to str
        The crates that are being proved, and the folders of the results of their checks.
    """

    def __init__(self, sizes: dict[str, int], libraries: dict[str, list[str]], jobs: int) -> None:
        self.libraries, self.jobs = libraries, jobs
        self.work = {crate: sizes[crate] + LIBRARY_SHARE * sum(sizes[library] for library in libraries[crate]) for crate in sizes}
        self.ended: set[str] = set()
        self.totals: dict[str, int] = {}
        self.checked: dict[str, int] = {}
        self.active: dict[str, str] = {}
        self.start = time.monotonic()
        self.lock = threading.Lock()

    def elapsed(self) -> str:
        """Returns the elapsed time in minutes and seconds."""
        seconds = int(time.monotonic() - self.start)
        return f"{seconds // 60}:{seconds % 60:02}"

    @contextlib.contextmanager
    def follow(self, crate: str, folder: str) -> Iterator[None]:
        """Follows the proof of a crate in this folder, as a context."""
        with self.lock:
            self.active[crate] = os.path.join(folder, "out", "incremental")
        try:
            yield
        finally:
            with self.lock:
                self.count()
                del self.active[crate]
                self.ended.add(crate)

    def count(self) -> None:
        """Counts the files of functions that the active checks wrote."""
        for crate, results in self.active.items():
            self.checked[crate] = sum(bool(FUNCTION_FILE.search(name)) for _, _, names in os.walk(results) for name in names)

    def skip(self, crate: str) -> None:
        """Leaves out a crate that needs no proof."""
        del self.work[crate]

    def checked_share(self, crate: str) -> float:
        """Returns the checked part of the functions of a crate, from 0 to 1."""
        checked, total = self.checked.get(crate, 0), self.totals.get(crate)
        return min(1, checked / total) if total else 0

    def remaining_work(self, crate: str) -> float:
        """Returns the work of a crate that is not finished."""
        if crate in self.ended:
            return 0
        share = self.checked_share(crate)
        finished = START_SHARE + (1 - START_SHARE - END_SHARE) * math.pow(share, FUNCTION_POWER) if share else 0
        return self.work[crate] * (1 - finished)

    def time_of(self, work: Mapping[str, float]) -> float:
        """Returns the time of the work of these crates, in its unit."""
        return max(max(longest_chains(work, self.libraries).values(), default=0), sum(work.values()) / self.jobs)

    def finished_share(self) -> float:
        """Returns the finished part of the time, from 0 to 1."""
        remaining = {crate: self.remaining_work(crate) for crate in self.work}
        return 1 - self.time_of(remaining) / self.time_of(self.work) if self.work else 1

    def stage_of(self, crate: str) -> str:
        """Returns the name of an active crate, with the stage of its check if that is not a proof."""
        return crate if 0 < self.checked_share(crate) < 1 else f"{crate} (reading its libraries)"

    def report(self) -> None:
        """Reports the progress. The share is rounded down, so that it is 100% only at the end."""
        with self.lock:
            self.count()
            report(f"{sum(self.checked.values())} functions checked, {math.floor(100 * self.finished_share())}% of the time, "
                   f"{self.elapsed()}: {', '.join(map(self.stage_of, self.active))}")

    @contextlib.contextmanager
    def reports(self) -> Iterator[None]:
        """Reports the progress every few seconds, as a context."""
        ended = threading.Event()

        def report_often() -> None:
            while not ended.wait(REPORT_INTERVAL):
                self.report()

        reporter = threading.Thread(target=report_often)
        reporter.start()
        try:
            yield
        finally:
            ended.set()
            reporter.join()


def run_rt(folder: str, arguments: list[str], crate: str, progress: Progress, niceness: int = 0) -> str | None:
    """Runs `rt` in the folder of a crate, and prints its errors if it fails.

    Parameters
    ----------
    folder : str
        The folder of the crate.
    arguments : list of str
        The arguments of `rt`.
    crate : str
        The crate.
    progress : Progress
        Receives the number of functions of the crate.
    niceness : int
        The niceness of the process.

    Returns
    -------
    str or None
        The verdict, which is empty if `rt` printed none, or None if the exit status is not 0.
    """
    lines = []
    with subprocess.Popen(["nice", "-n", str(niceness), "rt", *arguments], cwd=folder, stdin=subprocess.DEVNULL,
                          stdout=subprocess.PIPE, stderr=subprocess.STDOUT, text=True) as process:
        for line in process.stdout or ():
            lines.append(line)
            total = re.match(r"so far: \d+ of (\d+) functions", line)
            if total:
                progress.totals[crate] = int(total[1])
    if process.returncode:
        print("".join(line for line in lines if not SUCCESS_LINE.search(line)), file=sys.stderr)
        return None
    return "".join(VERDICT.findall("".join(lines))[-1:])


class Build:
    """A run of the proofs of crates.

    Parameters
    ----------
    targets : list of str
        The crates to prove, with all their libraries.
    """

    def __init__(self, targets: list[str]) -> None:
        libraries = libraries_of_crates(read_crates())
        needed = {*targets, *(library for crate in targets for library in libraries[crate])}
        self.libraries = {crate: libraries[crate] for crate in libraries if crate in needed}
        crates = [crate for crate in self.libraries if crate != PROGRAM]
        self.remaining = crates[:]
        sizes = {crate: size_of(crate) for crate in self.libraries}
        self.chain_work = longest_chains(sizes, self.libraries)
        processors = len(os.sched_getaffinity(0))
        self.max_jobs = int(os.environ.get("MOC_JOBS") or min(processors, max(1, available_memory() // JOB_MEMORY)))
        self.progress = Progress(sizes, self.libraries, self.max_jobs)
        self.running: dict[str, int] = {}
        self.finished: set[str] = set()
        self.failed = False
        for crate in crates:
            if self.finished.issuperset(libraries[crate]) and is_current(crate, libraries[crate]):
                self.remaining.remove(crate)
                self.finished.add(crate)
                self.progress.skip(crate)
        self.changed = threading.Condition()

    def prove(self, crate: str, jobs: int, niceness: int) -> None:
        """Proves a library in a workspace, and saves the proofs, also if some proofs fail."""
        workspace, is_proved = os.path.join(WORKSPACES, crate), False
        try:
            folder = make_workspace(workspace, crate, self.libraries[crate])
            with self.progress.follow(crate, folder):
                verdict = run_rt(folder, ["lib", "--jobs", str(jobs)], crate, self.progress, niceness)
            is_proved = verdict is not None
            save_results(workspace, crate)
            if is_proved:
                save_verdict(crate, digest_of_crate(crate, workspace), verdict or KEPT_VERDICT)
            shutil.rmtree(workspace, ignore_errors=True)
        finally:
            with self.changed:
                del self.running[crate]
                self.failed |= not is_proved
                self.finished.add(crate)
                self.changed.notify_all()

    def start_ready(self) -> None:
        """Starts the proofs of libraries whose own libraries are proved.

        Each library without priority gets one job. The libraries with priority share all other jobs. A library on which less work depends
        has a higher niceness."""
        ready = sorted((crate for crate in self.remaining if self.finished.issuperset(self.libraries[crate])),
                       key=lambda crate: -self.chain_work[crate])
        longest = max((self.chain_work[crate] for crate in (*ready, *self.running)), default=0)
        for position, crate in enumerate(ready):
            idle = self.max_jobs - sum(self.running.values())
            if idle == 0:
                break
            others = ready[position + 1:]
            priority_count = sum(self.chain_work[other] >= PRIORITY_SHARE * longest for other in others)
            share = math.ceil((idle - (len(others) - priority_count)) / (priority_count + 1))
            jobs = max(1, min(MAX_CHECK_JOBS, share)) if self.chain_work[crate] >= PRIORITY_SHARE * longest else 1
            self.remaining.remove(crate)
            self.running[crate] = jobs
            niceness = round(MAX_NICENESS * (1 - self.chain_work[crate] / longest))
            threading.Thread(target=self.prove, args=(crate, jobs, niceness)).start()

    def prove_libraries(self) -> bool:
        """Proves all libraries that are not current. Returns whether all are proved."""
        with self.changed:
            while (self.remaining and not self.failed) or self.running:
                if not self.failed:
                    self.start_ready()
                self.changed.wait()
        return not self.failed

    def build_program(self) -> bool:
        """Proves and builds the program, and runs it once. Returns whether the program succeeds."""
        folder, digest = folder_of(PROGRAM), digest_of_crate(PROGRAM)
        with self.progress.follow(PROGRAM, folder):
            jobs = min(MAX_CHECK_JOBS, self.max_jobs)
            verdict = run_rt(folder, ["run", "--jobs", str(jobs), "--", "uniq", "0", "0"], PROGRAM, self.progress)
        if verdict:
            save_verdict(PROGRAM, digest, verdict)
        return verdict is not None

    def run(self, with_program: bool = False) -> bool:
        """Proves the libraries, and with `with_program` the program. Reports the progress. Returns whether all are proved."""
        shutil.rmtree(WORKSPACES, ignore_errors=True)
        with self.progress.reports():
            succeeded = self.prove_libraries() and (not with_program or self.build_program())
        shutil.rmtree(WORKSPACES, ignore_errors=True)
        return succeeded


@contextlib.contextmanager
def exclusive() -> Iterator[None]:
    """Waits until no other build works in this repository, and keeps others waiting, as a context."""
    os.makedirs(os.path.dirname(LOCK), exist_ok=True)
    with open(LOCK, "w", encoding="utf-8") as lock:
        fcntl.flock(lock, fcntl.LOCK_EX)
        yield


def main() -> int:
    """Proves and builds what the command line selects."""
    parser = argparse.ArgumentParser(description="Proves the program and builds it.")
    kinds = parser.add_mutually_exclusive_group()
    kinds.add_argument("--libraries", nargs="*", metavar="CRATE", help="prove only the libraries, or only these crates and their libraries")
    kinds.add_argument("--library", nargs="?", const=linking.FOLDER, metavar="FOLDER", help="link the library for C and Python")
    options = parser.parse_args()
    targets = [linking.CRATE] if options.library is not None else options.libraries or [PROGRAM]
    with_program = options.library is None and options.libraries is None
    with exclusive():
        snapshot = sources.take_snapshot()
        build = Build(targets)
        succeeded = build.run(with_program)
        if succeeded and options.library is not None:
            succeeded = linking.link(options.library, [])
    if not with_program or not succeeded:
        return 0 if succeeded else 1
    sources.write_record(snapshot)
    report(f"proved and built after {build.progress.elapsed()}: {os.path.relpath(sources.BUILT)}")
    return 0


if __name__ == "__main__":
    sys.exit(main())
