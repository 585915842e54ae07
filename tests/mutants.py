#!/usr/bin/env python3
"""Checks that the prover rejects every mutant, crates/*/mutants/*.edit.

A mutant is a file in the format of the toolchain's must-fail edits: a line `file: src/NAME.rt`, then pairs of lines `old: TEXT` and
`new: TEXT`. Each old text occurs once in the source. If a line `after: TEXT` precedes a pair, the pair changes the first occurrence after
that text, which occurs once.

`rt must-fail` checks a crate once for each mutant. This script checks a group of mutants at once, each of another function. The prover
proves a function from its body and from the contracts of the functions that it calls, so mutants of different functions are independent.
A mutant is rejected if the check reports an error in the function that the mutant changes. An error in any other function shows that the
mutants of the group are not independent, and then no mutant of the group passes. A mutant that changes something outside a function, for
example a constant, has a separate check. It has a line `error: TEXT` with a part of the error that counts.

There are three kinds of rejection, and the last lines report the number of each:

- clause: the mutated body does not meet a clause of its contract, or a requirement of a call.
- answers: only the manual proof of the function fails, at two values that differ.
- name: a name that the mutant removed is missing. This shows nothing about the contract, so the mutant fails.

usage: tests/mutants.py [--jobs N] [--logs FOLDER] [--files] [CRATE | CRATE/MUTANT]..

`--jobs N` runs N checks at a time if memory suffices; the default is the number of processors. `--logs FOLDER` writes the output of each
check into the folder. `--files` checks only the files of the mutants, and runs no proof.

The checks run in workspaces, which reuse the proofs in the `out` folders of the crates. `tools/build.py` first brings these proofs up to
date. Reused proofs cannot change a verdict, because the prover checks a changed function again. If a check takes too long, its mutants
fail. If all crates are checked, each public function needs a mutant, except those of `tests/functions_without_mutant.txt`. So the deletion
of the last mutant of a function is detected. The last line printed is `N passed, M failed`."""
from __future__ import annotations

import argparse
import contextlib
import glob
import os
import re
import signal
import subprocess
import sys
import tempfile
import threading
from collections.abc import Iterator
from concurrent.futures import ThreadPoolExecutor
from typing import NamedTuple, Union

from tally import Tally

TOP = os.path.dirname(os.path.dirname(os.path.abspath(__file__)))
sys.path.insert(0, os.path.join(TOP, "tools"))
from crates import folder_of, libraries_of_crates, make_workspace, read_crates, root_of  # noqa: E402

# The maximal number of mutants of a check. The memory of a check grows with its mutants.
MAX_MUTANTS = 24
# The memory that a check may use, the additional memory for each of its mutants, and the memory that is left to other programs, in bytes.
CHECK_MEMORY, MUTANT_MEMORY, SPARE_MEMORY = 1_500_000_000, 150_000_000, 2_000_000_000
# The folder of the workspaces. It is on one file system with the crates, so that files can be linked.
WORKSPACES = os.path.join(folder_of("moc_cli"), "out", "mutant-checks")
# The time limit of a check in seconds: several times what the longest check takes.
TIME_LIMIT = 3600
# The public functions that have no mutant.
EXCEPTIONS = os.path.join(TOP, "tests", "functions_without_mutant.txt")
# Errors about a name that the mutant removed. They show nothing about the contract.
MISSING_NAME = re.compile(
    r"has no field|is not a field|\(nearest: |is not in scope|has no `|was not admitted|(?:expected|takes) \d+ argument")
# The kinds of rejection, and the strongest first.
KINDS = ("clause", "answers", "name")
IMPL = re.compile(r"^impl\b(?:<[^{]*?>)?\s+(?:[^{;]*?\bfor\s+)?&?(?:'\w+\s+)?(\w+)[^{;]*\{", re.MULTILINE)
EXPORTS = re.compile(r"^pub use [\w:]+::(?:\{([^}]*)\}|(\w+));", re.MULTILINE)

# The position of an error: a file and a line of it, or the folder of a proof.
Position = Union[tuple[str, int], str]
# The file, the text before, the old and the new text of a change.
Change = tuple[str, Union[str, None], str, str]


def blank_quiet_text(text: str) -> str:
    """Returns the source with blanks in place of comments, strings and characters. All other text keeps its position."""
    quiet = r"//[^\n]*|\"(?:\\.|[^\"\\])*\"|'(?:\\.[^']*|[^\\'])'"
    return re.sub(quiet, lambda match: re.sub(r"[^\n]", " ", match[0]), text, flags=re.DOTALL)


def block_end(text: str, start: int) -> int:
    """Returns the position after the braces that open at `start`."""
    depth = 0
    for position in range(start, len(text)):
        depth += {"{": 1, "}": -1}.get(text[position], 0)
        if depth == 0:
            return position + 1
    return len(text)


def body_start(text: str, position: int) -> int | None:
    """Returns the start of the body of the function whose name ends at a position, after its clauses, or None if it has no body."""
    depth = 0
    while position < len(text):
        depth += {"(": 1, "[": 1, ")": -1, "]": -1}.get(text[position], 0)
        if depth == 0 and text[position] == ";":
            return None
        if depth == 0 and text[position] == "{":
            line = text[text.rfind("\n", 0, position) + 1:position]
            if not re.match(r"\s*(requires|ensures|ghost|decreases)\b", line):
                return position
            position = block_end(text, position)
            continue
        position += 1
    return None


class Function:
    """A function of a crate.

    Parameters
    ----------
    file : str
        The path of its source in the crate.
    owner : str
        The type of the impl block that has the function, or an empty text.
    name : str
        Its name.
    first, last : int
        Its first and its last line.
    """

    def __init__(self, file: str, owner: str, name: str, first: int, last: int) -> None:
        self.key = (file, owner, name)
        self.first, self.last = first, last
        module = re.sub(r"^src/|\.rt$", "", file)
        # The proof of a method is in the module of its type, in whichever module the impl block is.
        parent = r"(?:\w+/)*" if owner else "" if module in ("lib", "main") else f"{module}/"
        own = rf"(?:Ref|RefMut)?{owner}\w*/{name}" if owner else name
        self.path = re.compile(rf"{parent}({own}|fn/{own}/.*)$")

    def has(self, position: Position) -> bool:
        """Returns whether an error is in this function: in a line of its source, or in a folder of its proof."""
        if isinstance(position, tuple):
            file, line = position
            return file == self.key[0] and self.first <= line <= self.last
        return bool(self.path.match(position))


def impl_blocks(blank: str) -> list[tuple[int, int, str]]:
    """Returns the start, the end and the type of each impl block of a source without quiet text."""
    return [(match.start(), block_end(blank, match.end() - 1), match[1]) for match in IMPL.finditer(blank)]


def owner_at(blocks: list[tuple[int, int, str]], position: int) -> str:
    """Returns the type of the impl block at a position, or an empty text."""
    return next((name for start, end, name in blocks if start <= position < end), "")


def function_at(file: str, text: str, start: int, end: int) -> Function | None:
    """Returns the innermost function that contains a span of a source, or None."""
    blank = blank_quiet_text(text)
    blocks = impl_blocks(blank)
    innermost = None
    for match in re.finditer(r"\bfn\s+(\w+)", blank):
        body = body_start(blank, match.end())
        if body is None:
            continue
        header, last = blank.rfind("\n", 0, match.start()) + 1, block_end(blank, body)
        if header <= start and end <= last:
            above = re.search(r"(?:^[ \t]*(?:#\[|//).*\n)*\Z", text[:header], re.MULTILINE)
            first = text.count("\n", 0, above.start() if above else header) + 1
            innermost = Function(file, owner_at(blocks, header), match[1], first, text.count("\n", 0, last) + 1)
    return innermost


def find_old_text(text: str, after: str | None, old: str) -> int | None:
    """Returns the position of the old text of a change, or None if the position is not unique."""
    if text.count(after or old) != 1:
        return None
    position = text.find(old, text.index(after) if after else 0)
    return None if position < 0 else position


class Mutant:
    """A mutant: its changes, and the function that it changes.

    Attributes
    ----------
    label : str
        The crate and the name of the file.
    changes : list of Change
        The texts that the mutant changes.
    function : Function or None
        The only function that the mutant changes.
    error : str or None
        A part of the error that counts.
    invalid : str or None
        The reason why the file is invalid.
    """

    def __init__(self, crate: str, name: str) -> None:
        self.crate = crate
        self.label = f"{crate}/{name}"
        self.changes: list[Change] = []
        self.function: Function | None = None
        self.error: str | None = None
        self.invalid: str | None = None
        folder = folder_of(crate)
        functions: list[Function | None] = []
        texts: dict[str, str] = {}
        file, old = "", ""
        after: str | None = None
        for line in read_text(os.path.join(folder, "mutants", name)).split("\n"):
            key, _, value = line.partition(": ")
            if key == "file":
                file = value.strip()
                if file not in texts:
                    texts[file] = read_text(os.path.join(folder, file))
            elif key == "error":
                self.error = value
            elif key == "after":
                after = value
            elif key == "old":
                old = value
            elif line.startswith("new:"):
                new = line[5:]
                start = find_old_text(texts[file], after, old)
                if start is None:
                    self.invalid = f"its old text occurs {texts[file].count(old)} times in {file}, and not once"
                    return
                functions.append(function_at(file, texts[file], start, start + len(old)))
                texts[file] = texts[file][:start] + new + texts[file][start + len(old):]
                self.changes.append((file, after, old, new))
                after = None
        if len({function and function.key for function in functions}) == 1:
            self.function = functions[0]
        if self.function is None and self.error is None:
            self.invalid = "it is not inside a single function, and has no line `error: TEXT`"

    def apply(self, texts: dict[str, str]) -> bool:
        """Changes these texts. Returns False, and changes nothing, if another mutant changed an old text."""
        changed = dict(texts)
        for file, after, old, new in self.changes:
            start = find_old_text(changed[file], after, old)
            if start is None:
                return False
            changed[file] = changed[file][:start] + new + changed[file][start + len(old):]
        texts.update(changed)
        return True


def read_text(path: str) -> str:
    """Returns the text of a file."""
    with open(path, encoding="utf-8") as file:
        return file.read()


def find_errors(output: str) -> list[tuple[Position, str]]:
    """Returns the errors that a check reports: the position of each, and its line of the output."""
    errors: list[tuple[Position, str]] = []
    for line in output.split("\n"):
        source = re.match(r"(?:note: )?(?:\./)?(src/\S+?):(\d+):\d+: (.*)", line)
        proof = re.match(r"(?:note: )?(?:\./)?proofs/(\S+?)(?:/\w+)?\.antt:\d+:\d+: (error.*)", line)
        verdict = re.match(r"fn \w+::(\S+): (?:not proved$|no proof: expected answers)", line)
        if source and re.match(r"error|it is not proved", source[3]):
            errors.append(((source[1], int(source[2])), line))
        elif proof:
            errors.append((proof[1], line))
        elif verdict:
            errors.append((verdict[1].replace("::", "/"), line))
    return errors


def available_memory() -> int:
    """Returns the number of bytes that a program can allocate without swapping."""
    available = re.search(r"MemAvailable:\s+(\d+)", read_text("/proc/meminfo"))
    if available is None:
        raise OSError("the system does not report its available memory")
    return int(available[1]) * 1024


def memory_of(process: int) -> int:
    """Returns the number of bytes that a process and all its descendants use."""
    sizes: dict[int, int] = {}
    children: dict[int, list[int]] = {}
    for name in filter(str.isdigit, os.listdir("/proc")):
        with contextlib.suppress(OSError):
            fields = read_text(f"/proc/{name}/stat").rpartition(")")[2].split()
            sizes[int(name)] = int(fields[21])
            children.setdefault(int(fields[1]), []).append(int(name))
    pages, remaining = 0, [process]
    while remaining:
        one = remaining.pop()
        pages += sizes.get(one, 0)
        remaining += children.get(one, [])
    return pages * os.sysconf("SC_PAGE_SIZE")


class Scheduler:
    """Starts checks as far as memory suffices.

    Attributes
    ----------
    limits : dict of int to int
        The running processes, and the memory that each may use.
    """

    def __init__(self) -> None:
        self.limits: dict[int, int] = {}
        self.changed = threading.Condition()

    def has_memory(self, limit: int) -> bool:
        """Returns whether memory suffices for one more check, if the running checks use all that they may. It always suffices for one."""
        growth = sum(max(0, own - memory_of(process)) for process, own in self.limits.items())
        return not self.limits or available_memory() - growth >= limit + SPARE_MEMORY

    def start(self, command: list[str], folder: str, limit: int) -> subprocess.Popen[str]:
        """Starts a command in a folder as soon as memory suffices."""
        with self.changed:
            while not self.has_memory(limit):
                self.changed.wait(1)
            # A process group but no session, because Linux gives each session the same share of the processors, whatever its niceness.
            process = subprocess.Popen(command, cwd=folder, stdin=subprocess.DEVNULL, stdout=subprocess.PIPE, stderr=subprocess.DEVNULL,
                                       text=True, process_group=0)
            self.limits[process.pid] = limit
            return process

    def run(self, command: list[str], folder: str, mutants: int) -> str:
        """Runs a command that checks this number of mutants, and returns its output. Kills it and its descendants at the time limit."""
        process = self.start(command, folder, CHECK_MEMORY + mutants * MUTANT_MEMORY)
        try:
            return process.communicate(timeout=TIME_LIMIT)[0]
        except subprocess.TimeoutExpired:
            os.killpg(process.pid, signal.SIGKILL)
            process.communicate()
            return f"error: no verdict in {TIME_LIMIT} seconds"
        finally:
            with self.changed:
                del self.limits[process.pid]
                self.changed.notify_all()


def kind_of(line: str) -> str:
    """Returns the kind of rejection that an error shows."""
    if MISSING_NAME.search(line) or re.search(r"\berror\[", line):
        return "name"
    return "answers" if re.match(r"(?:note: )?(?:\./)?proofs/", line) else "clause"


class Verdict(NamedTuple):
    """The verdict on a mutant: the kind of its rejection, or None if it is not rejected, and the error or the reason."""

    mutant: Mutant
    kind: str | None
    text: str


def strongest_rejection(mutant: Mutant, lines: list[str]) -> Verdict:
    """Returns the verdict by these errors: the strongest kind, and the first error of that kind."""
    detailed = [line for line in lines if not line.endswith(": not proved")] or lines
    kind = min(map(kind_of, detailed), key=KINDS.index)
    return Verdict(mutant, kind, next(line for line in detailed if kind_of(line) == kind))


class Group:
    """Mutants of different functions of a crate that are checked together, or one mutant that is not inside a function.

    Attributes
    ----------
    mutants : list of Mutant
        The mutants.
    texts : dict of str to str
        The changed sources.
    """

    def __init__(self, crate: str) -> None:
        self.crate = crate
        self.mutants: list[Mutant] = []
        self.texts: dict[str, str] = {}

    def accepts(self, mutant: Mutant) -> bool:
        """Returns whether a mutant of a function is independent of the mutants of this group."""
        keys = [other.function and other.function.key for other in self.mutants]
        return (mutant.function is not None and len(keys) < MAX_MUTANTS and None not in keys and mutant.function.key not in keys
                and mutant.apply(self.read(mutant)))

    def read(self, mutant: Mutant) -> dict[str, str]:
        """Returns the texts that a mutant changes, with the changes of the mutants of the group."""
        texts = {}
        for file, *_ in mutant.changes:
            if file not in self.texts:
                self.texts[file] = read_text(os.path.join(folder_of(self.crate), file))
            texts[file] = self.texts[file]
        return texts

    def add(self, mutant: Mutant) -> None:
        """Adds a mutant to the group."""
        texts = self.read(mutant)
        mutant.apply(texts)
        self.texts.update(texts)
        self.mutants.append(mutant)

    def check(self, libraries: list[str], scheduler: Scheduler) -> str:
        """Checks the crate with the changed sources, and returns the output of the check."""
        with tempfile.TemporaryDirectory(prefix="group-", dir=WORKSPACES) as parent:
            folder = make_workspace(os.path.join(parent, "workspace"), self.crate, libraries)
            for name, text in self.texts.items():
                with open(os.path.join(folder, name), "w", encoding="utf-8") as file:
                    file.write(text)
            # One job, because a second one takes a sixth more processor time, and checks run side by side.
            return scheduler.run(["rt", "check", "--jobs", "1"], folder, len(self.mutants))

    def judge(self, output: str) -> list[Verdict]:
        """Returns the verdict on each mutant, from the output of the check."""
        verdicts = re.findall(r"^logic=(\S+)", output, re.MULTILINE)[-1:]
        errors = find_errors(output)
        if verdicts != ["not-proved"] or not errors:
            error = re.search(r"^.*\berror\b.*", output, re.MULTILINE)
            reason = f"INVALID MUTANT: {(error[0] if error else output)[:160]}"
            if verdicts == ["proved"]:
                reason = "NOT REJECTED: the crate is still proved"
            return [Verdict(mutant, None, reason) for mutant in self.mutants]
        first = self.mutants[0]
        if first.function is None:
            counting = [line for _, line in errors if first.error is not None and first.error in line]
            if counting:
                return [strongest_rejection(first, counting)]
            return [Verdict(first, None, f"not rejected for the error that counts: {errors[0][1][:160]}")]
        functions = [mutant.function for mutant in self.mutants if mutant.function is not None]
        others = [line for position, line in errors if not any(function.has(position) for function in functions)]
        if others:
            return [Verdict(mutant, None, f"NOT INDEPENDENT: an error is not in a changed function: {others[0][:160]}")
                    for mutant in self.mutants]
        return [self.judge_mutant(mutant, errors) for mutant in self.mutants]

    @staticmethod
    def judge_mutant(mutant: Mutant, errors: list[tuple[Position, str]]) -> Verdict:
        """Returns the verdict on a mutant of a function, from the errors of the check."""
        own = [line for position, line in errors
               if mutant.function is not None and mutant.function.has(position) and (mutant.error or "") in line]
        if own:
            return strongest_rejection(mutant, own)
        return Verdict(mutant, None, "NOT REJECTED: the function is still proved, or the error that counts is missing")


def group_mutants(crate: str, mutants: list[Mutant]) -> list[Group]:
    """Groups the mutants of a crate."""
    groups: list[Group] = []
    for mutant in mutants:
        group = next((group for group in groups if group.accepts(mutant)), None)
        if group is None:
            group = Group(crate)
            groups.append(group)
        group.add(mutant)
    return groups


def public_functions(crate: str) -> Iterator[str]:
    """Returns the public functions of a crate, each as `CRATE NAME` or `CRATE TYPE::NAME`.

    A function is public if the root file of the crate exports it or the type of its impl block, or if C can call it."""
    folder = folder_of(crate)
    exported = set()
    for several, one in EXPORTS.findall(read_text(root_of(crate))):
        exported.update(re.findall(r"\w+", several or one))
    for path in sorted(glob.glob(os.path.join(folder, "src", "**", "*.rt"), recursive=True)):
        blank = blank_quiet_text(read_text(path))
        blocks = impl_blocks(blank)
        for match in re.finditer(r"\bpub (extern +)?fn (\w+)", blank):
            owner = owner_at(blocks, match.start())
            if match[1] or (owner or match[2]) in exported:
                yield f"{crate} {owner}{'::' * bool(owner)}{match[2]}"


def find_mutants(crates: list[str]) -> list[Mutant]:
    """Returns all mutants of the crates."""
    return [Mutant(crate, os.path.basename(path)) for crate in crates
            for path in sorted(glob.glob(os.path.join(folder_of(crate), "mutants", "*.edit")))]


def read_exceptions() -> list[str]:
    """Returns the public functions without a mutant that `EXCEPTIONS` lists."""
    lines = (line.partition("#")[0].strip() for line in read_text(EXCEPTIONS).splitlines())
    return [line for line in lines if line]


def check_functions(tally: Tally, mutants: list[Mutant]) -> None:
    """Checks that each public function has a mutant or is an exception, given all mutants of all crates."""
    mutated = set()
    for mutant in mutants:
        if mutant.function is not None:
            _, owner, name = mutant.function.key
            mutated.add(f"{mutant.crate} {owner}{'::' * bool(owner)}{name}")
    exceptions = read_exceptions()
    public = {function for crate in read_crates() if crate.startswith("moc_") for function in public_functions(crate)}
    tally.check(bool(public), "no public function is found")
    tally.check_equal(f"the lines of {os.path.relpath(EXCEPTIONS, TOP)}", exceptions, sorted(set(exceptions)))
    for function in sorted(public):
        is_exception = function in exceptions
        tally.check(function in mutated or is_exception, f"{function}: the public function has no mutant")
        tally.check(function not in mutated or not is_exception, f"{function}: has a mutant; remove its line from the list of exceptions")
    for function in exceptions:
        tally.check(function in public, f"{function}: is in the list of exceptions, and is not a public function")


def is_selected(mutant: Mutant, names: list[str]) -> bool:
    """Returns whether the command line selects a mutant."""
    return not names or mutant.crate in names or mutant.label in names or mutant.label.removesuffix(".edit") in names


def try_mutants(tally: Tally, mutants: list[Mutant], jobs: int, logs: str | None) -> None:
    """Checks the mutants, and prints the verdict on each.

    Parameters
    ----------
    tally : Tally
        The counts of the checks. The function counts one check for each mutant.
    mutants : list of Mutant
        The mutants to check.
    jobs : int
        The maximal number of checks at a time.
    logs : str or None
        The folder for the output of each check.
    """
    libraries = libraries_of_crates(read_crates())
    kinds = dict.fromkeys(KINDS, 0)
    printing, scheduler = threading.Lock(), Scheduler()

    def try_group(group: Group) -> None:
        output = group.check(libraries[group.crate], scheduler)
        if logs:
            name = group.mutants[0].label.replace("/", "-").removesuffix(".edit")
            with open(os.path.join(logs, f"{name}.log"), "w", encoding="utf-8") as file:
                file.write(output)
        for verdict in group.judge(output):
            prefix = "rejected only for a missing name" if verdict.kind == "name" else f"rejected ({verdict.kind})"
            text = f"{verdict.mutant.label}: {prefix if verdict.kind else 'FAILED'}: {verdict.text[:240]}"
            with printing:
                if verdict.kind:
                    kinds[verdict.kind] += 1
                if tally.check(verdict.kind in ("clause", "answers"), text):
                    print(text, flush=True)

    crates = dict.fromkeys(mutant.crate for mutant in mutants)
    groups = [group for crate in crates for group in group_mutants(crate, [mutant for mutant in mutants if mutant.crate == crate])]
    # The checks with the most mutants take the longest, and start first.
    groups.sort(key=lambda group: -len(group.mutants))
    os.makedirs(WORKSPACES, exist_ok=True)
    if logs:
        os.makedirs(logs, exist_ok=True)
    with ThreadPoolExecutor(jobs) as pool:
        list(pool.map(try_group, groups))
    print("rejected: " + ", ".join(f"{kind} {number}" for kind, number in kinds.items()))


def main() -> int:
    """Checks the selected mutants."""
    parser = argparse.ArgumentParser(description="Checks that the prover rejects every mutant.")
    parser.add_argument("--jobs", type=int, default=len(os.sched_getaffinity(0)), help="the maximal number of checks at a time")
    parser.add_argument("--logs", metavar="FOLDER", help="write the output of each check into this folder")
    parser.add_argument("--files", action="store_true", help="check only the files of the mutants")
    parser.add_argument("names", nargs="*", metavar="CRATE or CRATE/MUTANT", help="the mutants to check; all without a name")
    options = parser.parse_args()
    mutants = [mutant for mutant in find_mutants(list(libraries_of_crates(read_crates()))) if is_selected(mutant, options.names)]
    # These checks are counted only if they fail, or if they are the only ones.
    files = Tally()
    files.check(bool(mutants), "there is no such mutant")
    for mutant in mutants:
        files.check(mutant.invalid is None, f"{mutant.label}: INVALID MUTANT: {mutant.invalid}")
    if not options.names:
        check_functions(files, mutants)
    if files.failed or options.files:
        return files.finish()
    tally = Tally()
    crates = dict.fromkeys(mutant.crate for mutant in mutants)
    if subprocess.run([os.path.join(TOP, "tools", "build.py"), "--libraries", *crates], stdout=sys.stderr).returncode:
        tally.check(False, "the crates are not proved without a mutant")
        return tally.finish()
    try_mutants(tally, mutants, options.jobs, options.logs)
    return tally.finish()


if __name__ == "__main__":
    sys.exit(main())
