#!/usr/bin/env python3
"""Times the library and its peers on the same input, in turn, and prints a table with the ratio to the fastest peer.

usage: bench/peers.py [--turns N] [OPERATION..]

The peers are Healpix_cxx 3.80 (`peer`), cds.moc 5.0 with cdshealpix 0.30.2, and healpix.essentials 3.60 (`PeerJava`). `run.sh` builds them.
Each operation of each program runs N times in a separate process, by default three times, one program after another. A time is the minimum
of all repetitions in milliseconds. "wrong" means that the checksum of the peer differs from that of the library. The checksums of texts are
not compared, because peers write the same cells in different ways. The exit status is 1 if a peer is wrong and PEERS does not say so."""
from __future__ import annotations

import argparse
import os
import subprocess
import sys
from typing import NamedTuple

HERE = os.path.dirname(os.path.abspath(__file__))
DATA = os.path.join(HERE, "data")
LIBRARY = os.path.join(HERE, "..", "crates", "moc_bench", "out", "moc_bench")
LIBRARY_REPEATS = 9
JARS = ":".join([*(f"/usr/share/java/{name}.jar" for name in ("cds.moc", "cdshealpix", "healpix")), DATA])
JAVA = ["java", "-Xmx2g", "-XX:+UseSerialGC", "-cp", JARS, "PeerJava"]


class Peer(NamedTuple):
    """A program to compare with.

    Attributes
    ----------
    command : list of str
        The command, without the operation.
    repeats : int
        The repetitions in a process. Java compiles while it runs, and needs more.
    wrong_operations : tuple of str
        The operations with a wrong result.
    """

    command: list[str]
    repeats: int
    wrong_operations: tuple[str, ...] = ()


PEERS = {"Healpix_cxx": Peer([os.path.join(HERE, "peer"), DATA], 9),
         "cds.moc": Peer([*JAVA, "cds", DATA], 15, ("nest29",)),
         "essentials": Peer([*JAVA, "essentials", DATA], 15)}
SET_OPERATIONS = ("read_a", "count", "union", "intersection", "difference", "symmetric", "complement", "degrade10", "degrade13")
NUMBER_OPERATIONS = ("ring13", "ring29", "nest13", "nest29", "near13", "near29")
TEXT_OPERATIONS = ("write_ascii", "write_json")
# The faster way of cds.moc to write a text: its cells, one after another into a string.
FASTER_OPERATIONS = {"write_ascii": "cells_ascii", "write_json": "cells_json"}


def run_operation(command: list[str], texts: list[bytes]) -> tuple[float, int]:
    """Runs an operation. Returns its minimal time in milliseconds, and its checksum."""
    fields = subprocess.run(command, input=b"\n".join(texts), stdout=subprocess.PIPE, check=True).stdout.split()
    return float(fields[3]) * 1000, int(fields[4])


def time_programs(operation: str, turns: int, texts: list[bytes]) -> tuple[dict[str, float], set[str]]:
    """Times an operation of the library and of all peers.

    Parameters
    ----------
    operation : str
        The operation.
    turns : int
        The number of processes of each program.
    texts : list of bytes
        The coverages, as texts.

    Returns
    -------
    times : dict of str to float
        The minimal times of the library and of the peers with a correct result.
    unexpected : set of str
        The peers with a wrong result that PEERS does not list.
    """
    times: dict[str, float] = {}
    wrong = set()
    for _ in range(turns):
        time, expected = run_operation([LIBRARY, operation, str(LIBRARY_REPEATS)], texts)
        times["library"] = min(time, times.get("library", time))
        for name, peer in PEERS.items():
            peer_operation = FASTER_OPERATIONS.get(operation, operation) if name == "cds.moc" else operation
            time, checksum = run_operation([*peer.command, peer_operation, str(peer.repeats)], [])
            times[name] = min(time, times.get(name, time))
            if checksum != expected and operation not in TEXT_OPERATIONS:
                wrong.add(name)
    for name in wrong:
        del times[name]
    return times, {name for name in wrong if operation not in PEERS[name].wrong_operations}


def main() -> int:
    """Prints the table."""
    parser = argparse.ArgumentParser(description="Times the library and its peers, in turn.")
    parser.add_argument("--turns", type=int, default=3, help="the number of processes of each program")
    parser.add_argument("operations", nargs="*", metavar="OPERATION", default=[*SET_OPERATIONS, *TEXT_OPERATIONS, *NUMBER_OPERATIONS])
    options = parser.parse_args()
    texts = []
    for name in ("moc_a.txt", "moc_b.txt"):
        with open(os.path.join(DATA, name), "rb") as file:
            texts.append(file.read().strip())
    print(f"| Operation | Library, ms | {', ms | '.join(PEERS)}, ms | Ratio to the fastest |\n|{'---|' * (len(PEERS) + 3)}")
    is_expected = True
    for operation in options.operations:
        times, unexpected = time_programs(operation, options.turns, texts)
        ratio = times["library"] / min(times[name] for name in PEERS if name in times)
        columns = [f"{times[name]:.3g}" if name in times else "wrong" for name in ("library", *PEERS)]
        print("|", " | ".join([operation, *columns, f"{ratio:.2f}"]), "|", flush=True)
        for name in sorted(unexpected):
            is_expected = False
            print(f"{operation}: the result of {name} is wrong", file=sys.stderr)
    return 0 if is_expected else 1


if __name__ == "__main__":
    sys.exit(main())
