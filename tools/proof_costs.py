#!/usr/bin/env python3
"""Reports which functions and which files of lemmas of a crate are expensive to prove.

usage: tools/proof_costs.py [--top N] [--test] CRATE..

Proves each crate from scratch with one job, over the last builds of its libraries (`./moc`, or `rt lib`). With `--test` it also proves
the tests of the crate. The prover writes a file for each module that it checks, and the time between two files is the cost of the later
module. A function has several modules: the borrow checker writes `Lts`, the tactics write `Proof`, and `Answers` has the manual proof in
`proofs/`. The results of earlier proofs are neither read nor changed. Other programs on the machine increase the times."""
from __future__ import annotations

import argparse
import collections
import os
import re
import shutil
import subprocess
import sys
import tempfile

from crates import SOURCE_FOLDERS, folder_of, libraries_of_crates, read_crates, root_of

# The modules of a function or of a derived impl block, after its name.
PARTS = re.compile(
    r"^(Lts|Proof|Met|Goals|Answers|Tie|Statement|Code|Key|Carried|Kinds|Invariants|Named|Reads|Given|View|Mir|Symbol"
    r"|The\w+|Layout|Derivation|Open|Facts|decls)")
# The parts of the cost of a function that are reported. The other parts are added up.
REPORTED_PARTS = ("Lts", "Proof", "Answers")

# The seconds of each part of each function.
Costs = dict[str, dict[str, float]]


def find_prover() -> tuple[str, str]:
    """Returns the paths of the prover, which is in the folder of `rt`, and of its toolchain."""
    rt = shutil.which("rt")
    if rt is None:
        raise FileNotFoundError("rt is not installed")
    toolchain = os.path.dirname(os.path.dirname(os.path.realpath(rt)))
    return os.path.join(toolchain, "bin", "rattle"), toolchain


def check_command(crate: str, dependencies: list[str], libraries: list[str], results: str) -> list[str]:
    """Returns the command that checks a crate with one job.

    Parameters
    ----------
    crate : str
        The crate.
    dependencies : list of str
        The libraries that its line in `crates.txt` names.
    libraries : list of str
        All libraries of the repository that it depends on.
    results : str
        The folder for the results of the check.
    """
    program, toolchain = find_prover()
    archives = {library: os.path.join(folder_of(library), "out", "rlib", f"{library}.rlib") for library in libraries}
    command = [program, "check", "--crate-name", crate, os.path.relpath(root_of(crate), folder_of(crate))]
    for name in ["std", *dependencies]:
        command += ["--extern", f"{name}={archives.get(name, f'{toolchain}/rlibs/{name}.rlib')}"]
    command += ["-L", f"dependency={toolchain}/rlibs"]
    for archive in archives.values():
        command += ["-L", f"dependency={os.path.dirname(archive)}"]
    return [*command, "--antt-project", f"{toolchain}/rattle/logic/antt-project.json", "--logic-built", f"{toolchain}/logic_built",
            "--links", f"{crate}=", "--jobs", "1", "--incremental", results]


def measure_costs(crate: str, results: str) -> Costs:
    """Returns the costs of the functions of a crate, from the times of the files that its check wrote."""
    files = sorted((os.stat(os.path.join(parent, name)).st_mtime_ns, name) for parent, _, names in os.walk(results)
                   for name in names if name.endswith(".oantt"))
    costs: Costs = collections.defaultdict(lambda: collections.defaultdict(float))
    last = files[0][0] if files else 0
    for time, file in files:
        names = re.sub(rf"^Rattle-{crate}(-proofs|-specs)?\.?", "", file.removesuffix(".oantt")).split(".")
        length = len(names)
        while length > 1 and PARTS.match(names[length - 1]):
            length -= 1
        part = names[length] if length < len(names) else ""
        seconds = (time - last) / 1e9
        costs["::".join(names[:length])][part if part in REPORTED_PARTS else ""] += seconds
        last = time
    return costs


def report_costs(crate: str, options: argparse.Namespace, dependencies: list[str], libraries: list[str]) -> bool:
    """Checks a crate, prints its costs, and returns whether the exit status of the check is 0."""
    with tempfile.TemporaryDirectory(prefix="proof-costs-") as folder:
        for part in SOURCE_FOLDERS:
            source = os.path.join(folder_of(crate), part)
            if os.path.isdir(source):
                shutil.copytree(source, os.path.join(folder, part))
        results = os.path.join(folder, "results")
        os.mkdir(results)
        command = check_command(crate, dependencies, libraries, results) + ["--test"] * options.test
        check = subprocess.run(command, cwd=folder, stdin=subprocess.DEVNULL, stdout=subprocess.PIPE, stderr=subprocess.STDOUT, text=True)
        verdicts = re.findall(r"^logic=\S+", check.stdout, re.MULTILINE) or [f"no verdict: {check.stdout.strip()[-400:]}"]
        costs = measure_costs(crate, results)
    total = sum(sum(parts.values()) for parts in costs.values())
    totals = {part: sum(parts.get(part, 0) for parts in costs.values()) for part in REPORTED_PARTS}
    print(f"{crate}: {total:.0f} s; " + ", ".join(f"{part} {totals[part]:.0f}" for part in REPORTED_PARTS) + f"; {verdicts[0]}")
    for name, parts in sorted(costs.items(), key=lambda item: -sum(item[1].values()))[:options.top]:
        details = " ".join(f"{part} {parts[part]:.1f}" for part in REPORTED_PARTS if parts.get(part, 0) >= 0.1)
        print(f"{sum(parts.values()):7.1f}  {name}  {details}")
    return check.returncode == 0


def main() -> int:
    """Reports the costs of the crates that the command line names."""
    parser = argparse.ArgumentParser(description="Reports which functions of a crate are expensive to prove.")
    parser.add_argument("--top", type=int, default=20, help="the number of functions to report")
    parser.add_argument("--test", action="store_true", help="also prove the tests of the crate")
    parser.add_argument("names", nargs="+", metavar="CRATE", help="the crates")
    options = parser.parse_args()
    crates = read_crates()
    libraries = libraries_of_crates(crates)
    return 0 if all([report_costs(name, options, crates[name], libraries[name]) for name in options.names]) else 1


if __name__ == "__main__":
    sys.exit(main())
