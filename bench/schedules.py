#!/usr/bin/env python3
"""Times schedules with `moc play`.

usage: bench/schedules.py

Times a million steps of a thousand clients, the same commands with `moc run`, and the steps while many other clients are midway. Prints the
minimum of five times in seconds."""
from __future__ import annotations

import os
import random
import subprocess
import time

TOP = os.path.dirname(os.path.dirname(os.path.abspath(__file__)))
MOC = os.environ.get("MOC", os.path.join(TOP, "crates", "moc_cli", "out", "moc_cli"))
REPEATS = 5


def random_commands(count: int, rng: random.Random) -> list[str]:
    """Returns adds and counts of one cell of order 5 each."""
    return [f"{rng.choice(['add', 'count'])} 5/{rng.randrange(12 << 10)}" for _ in range(count)]


def operation_steps(client: int, command: str) -> list[str]:
    """Returns the five steps of an operation on one part."""
    part = int(command.split("/")[1]) >> 10
    return [f"begin {client} {command}", f"take {client}", f"edit {client} {part}", f"give {client} {part}", f"end {client}"]


def sequential_steps(clients: int, commands: list[str]) -> list[str]:
    """Returns operations of clients in turn, one after another."""
    return [step for number, command in enumerate(commands) for step in operation_steps(number % clients, command)]


def interleaved_steps(clients: int, commands: list[str]) -> list[str]:
    """Returns rounds of operations. In a round all clients begin; then each takes, edits and gives its part; then all end."""
    lines = []
    for first in range(0, len(commands), clients):
        operations = [operation_steps(client, command) for client, command in enumerate(commands[first:first + clients])]
        lines += [steps[0] for steps in operations]
        lines += [step for steps in operations for step in steps[1:4]]
        lines += [steps[4] for steps in operations]
    return lines


def minimal_time(subcommand: str, lines: list[str]) -> float:
    """Returns the minimal time of a subcommand on these lines."""
    text = "".join(line + "\n" for line in lines).encode()
    times = []
    for _ in range(REPEATS):
        start = time.monotonic()
        subprocess.run([MOC, subcommand], input=text, stdout=subprocess.DEVNULL, check=True)
        times.append(time.monotonic() - start)
    return min(times)


def main() -> None:
    """Prints all times."""
    rng = random.Random(20)
    commands = random_commands(200_000, rng)
    print(f"a million steps, 1,000 clients in turn          {minimal_time('play', sequential_steps(1_000, commands)):.3f}")
    print(f"a million steps, rounds of 1,000 clients        {minimal_time('play', interleaved_steps(1_000, commands)):.3f}")
    print(f"the same 200,000 commands with run              {minimal_time('run', commands):.3f}")
    few_commands = random_commands(20_000, rng)
    for midway in [10, 1_000, 100_000]:
        waiting = [f"begin {10_000_000 + client} add" for client in range(midway)]
        without = minimal_time("play", waiting)
        with_steps = minimal_time("play", waiting + sequential_steps(1_000, few_commands))
        print(f"100,000 steps with {midway:>7,} clients midway         {with_steps - without:.3f}")


if __name__ == "__main__":
    main()
