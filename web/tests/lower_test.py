#!/usr/bin/env python3
"""Tests lower.py with modules of few instructions, which node runs.

usage: web/tests/lower_test.py

Each instruction that lower.py changes is in a function that the test calls. The expected results are those of the core specification,
computed by Python's `struct` over a copy of the memory. Other modules have instructions that do not use the memory, or must be rejected. If
node is not installed, the script reports this, and only tests the rejected modules. The last line printed is `N passed, M failed`."""
from __future__ import annotations

import json
import os
import shutil
import struct
import subprocess
import sys
import tempfile
from typing import Any, NamedTuple

TOP = os.path.dirname(os.path.dirname(os.path.dirname(os.path.abspath(__file__))))
sys.path[:0] = [os.path.join(TOP, "tests"), os.path.join(TOP, "web")]
from lower import F32, F64, I32, I64, UnknownModule, lower_module, read_signed, read_unsigned, write_signed, write_unsigned  # noqa: E402
from tally import Tally  # noqa: E402

PAGE = 65536
# The bytes that a module has at an address, with both signs at each width.
DATA_ADDRESS = 40
DATA = bytes(range(120, 136)) + struct.pack("<fdqi", 1.5, -2.25e300, -3, -4) + bytes(16)
# The loads, each with the type of its result and its format in `struct`. The formats of stores are those of the bytes that they write.
LOADS = {0x28: (I32, "i"), 0x29: (I64, "q"), 0x2A: (F32, "f"), 0x2B: (F64, "d"), 0x2C: (I32, "b"), 0x2D: (I32, "B"), 0x2E: (I32, "h"),
         0x2F: (I32, "H"), 0x30: (I64, "b"), 0x31: (I64, "B"), 0x32: (I64, "h"), 0x33: (I64, "H"), 0x34: (I64, "i"), 0x35: (I64, "I")}
STORES = {0x36: (I32, "I"), 0x37: (I64, "Q"), 0x38: (F32, "f"), 0x39: (F64, "d"), 0x3A: (I32, "B"), 0x3B: (I32, "H"), 0x3C: (I64, "B"),
          0x3D: (I64, "H"), 0x3E: (I64, "I")}
OFFSET = 3
# The program that calls the functions. An integer of 64 bits is a text in JSON. A trap is null.
RUNNER = """
const input = JSON.parse(require("fs").readFileSync(0, "utf8"));
const { exports } = new WebAssembly.Instance(new WebAssembly.Module(Buffer.from(input.module, "hex")));
const results = input.calls.map(([name, ...values]) => {
    try {
        return exports[name](...values.map((value) => typeof value === "string" ? BigInt(value) : value));
    } catch (error) {
        if (error instanceof WebAssembly.RuntimeError) return null;
        throw error;
    }
});
const memory = Buffer.from(exports.memory.buffer, 0, 4096).toString("hex");
console.log(JSON.stringify({ results, memory }, (_, value) => typeof value === "bigint" ? value.toString() : value));
"""


class Function(NamedTuple):
    """A function of a module: its name, the types of its parameters and results, its code without the last `end`, and its other locals."""

    name: str
    parameters: list[int]
    results: list[int]
    code: bytes
    locals: list[int] = []


def vector(items: list[bytes]) -> bytes:
    """Returns a vector of the binary format."""
    return write_unsigned(len(items)) + b"".join(items)


def section(kind: int, items: list[bytes]) -> bytes:
    """Returns a section with a vector."""
    content = vector(items)
    return bytes([kind]) + write_unsigned(len(content)) + content


def sized(content: bytes) -> bytes:
    """Returns bytes after their number."""
    return write_unsigned(len(content)) + content


def module_of(functions: list[Function], memory: bytes = b"\4\1", more: dict[int, bytes] | None = None) -> bytes:
    """Returns a module with a memory of 64-bit addresses, a global of 64 bits, and the bytes DATA."""
    types = [b"\x60" + sized(bytes(each.parameters)) + sized(bytes(each.results)) for each in functions]
    exports = [sized(each.name.encode()) + b"\0" + write_unsigned(number) for number, each in enumerate(functions)]
    bodies = [sized(vector([b"\1" + bytes([kind]) for kind in each.locals]) + each.code + b"\x0B") for each in functions]
    sections = {1: section(1, types), 3: section(3, [write_unsigned(number) for number in range(len(functions))]),
                5: section(5, [memory]), 6: section(6, [bytes([I64, 1, 0x42]) + write_signed(-5) + b"\x0B"]),
                7: section(7, [*exports, sized(b"memory") + b"\2\0"]), 10: section(10, bodies),
                11: section(11, [b"\0\x42" + write_signed(DATA_ADDRESS) + b"\x0B" + sized(DATA)]), **(more or {})}
    return b"\0asm\1\0\0\0" + b"".join(sections[kind] for kind in sorted(sections))


def run(functions: list[Function], calls: list[list[Any]], memory: bytes = b"\4\1") -> tuple[list[Any], bytes]:
    """Returns the results of calls of a module after `lower_module`, and the first bytes of the memory after them."""
    request = {"module": lower_module(module_of(functions, memory)).hex(), "calls": calls}
    output = subprocess.run(["node", "-e", RUNNER], input=json.dumps(request), stdout=subprocess.PIPE, text=True, timeout=60, check=True)
    answer = json.loads(output.stdout)
    return answer["results"], bytes.fromhex(answer["memory"])


def local(number: int) -> bytes:
    """Returns the instruction that pushes a local."""
    return b"\x20" + write_unsigned(number)


def shown(kind: int, value: Any) -> Any:
    """Returns a value as the runner prints it."""
    return str(value) if kind == I64 else value


def first_memory() -> bytearray:
    """Returns the first bytes of the memory of a module."""
    memory = bytearray(4096)
    memory[DATA_ADDRESS:DATA_ADDRESS + len(DATA)] = DATA
    return memory


def test_loads(tally: Tally) -> None:
    """Loads at each position of the data, with an offset, and after the end of the memory."""
    access = b"\0" + write_unsigned(OFFSET)
    functions = [Function(f"f{code:x}", [I64], [kind], local(0) + bytes([code]) + access) for code, (kind, _) in LOADS.items()]
    places = [*range(DATA_ADDRESS - OFFSET, DATA_ADDRESS + 28), PAGE - OFFSET]
    calls = [[f"f{code:x}", str(place)] for code in LOADS for place in places]
    results, _ = run(functions, calls)
    expected = []
    memory = first_memory()
    for kind, form in LOADS.values():
        for place in places[:-1]:
            value, = struct.unpack_from(f"<{form}", memory, place + OFFSET)
            expected.append(shown(kind, value))
        expected.append(None)
    for call, result, value in zip(calls, results, expected):
        # JSON has no NaN, and writes some floating-point numbers as integers.
        tally.check_equal(f"load {call}", float(result) if isinstance(value, float) and result is not None else result,
                          None if value != value else value)


def test_stores(tally: Tally) -> None:
    """Stores with an offset at addresses that do not overlap, and after the end of the memory."""
    access = b"\0" + write_unsigned(OFFSET)
    functions = [Function(f"f{code:x}", [I64, kind], [], local(0) + local(1) + bytes([code]) + access)
                 for code, (kind, _) in STORES.items()]
    memory, calls = first_memory(), []
    for number, (code, (kind, form)) in enumerate(STORES.items()):
        place, size = 1000 + 16 * number, struct.calcsize(form)
        value: Any = 0x1122334455667788 & (1 << (64 if kind == I64 else 32)) - 1 if kind in (I32, I64) else -0.15625
        struct.pack_into(f"<{form}", memory, place, value & (1 << 8 * size) - 1 if isinstance(value, int) else value)
        calls += [[f"f{code:x}", str(start - OFFSET), shown(kind, value)] for start in (place, PAGE - size + 1)]
    results, after = run(functions, calls)
    tally.check_equal("the memory after stores", after, bytes(memory))
    tally.check_equal("results of stores", results, [None] * len(calls))


def test_memory(tally: Tally) -> None:
    """The size and the growth of the memory, copies that overlap, and fills."""
    functions = [Function("size", [], [I64], b"\x3F\0"), Function("grow", [I64], [I64], local(0) + b"\x40\0"),
                 Function("copy", [I64] * 3, [], local(0) + local(1) + local(2) + b"\xFC\x0A\0\0"),
                 Function("fill", [I64, I32, I64], [], local(0) + local(1) + local(2) + b"\xFC\x0B\0")]
    calls: list[list[Any]] = [
        ["size"], ["grow", "2"], ["size"], ["grow", "7"], ["grow", "0"], ["copy", "45", "40", "30"], ["fill", "200", 0x1FE, "9"],
        ["copy", "300", "200", "4"], ["fill", str(3 * PAGE), 1, "1"], ["copy", "0", str(3 * PAGE - 1), "2"], ["fill", "7", 1, "0"]]
    results, after = run(functions, calls, b"\5\1\4")
    tally.check_equal("results", results, ["1", "1", "3", "-1", "3", *[None] * 6])
    memory = first_memory()
    memory[45:75] = memory[40:70]
    memory[200:209] = b"\xFE" * 9
    memory[300:304] = b"\xFE" * 4
    tally.check_equal("the memory after copies and fills", after, bytes(memory))


def test_other_instructions(tally: Tally) -> None:
    """Instructions that do not use the memory, beside a store and a load, whose added locals come after those of the function."""
    total = (b"\x42\0\x21\2" b"\x02\x40\x03\x40" + local(0) + local(1) + b"\x5A\x0D\1" + local(2) + local(0) + b"\x31\0\0\x7C\x21\2"
             + local(0) + b"\x42\1\x7C\x22\0\x1A\x0C\0\x0B\x0B" + local(2))
    choose = b"\x02\x40\x02\x40\x02\x40" + local(0) + b"\x0E\2\0\1\2\x0B\x41\x0A\x0F\x0B\x41\x14\x0F\x0B\x41\x1E"
    store = (b"\x43" + struct.pack("<f", 0.5) + b"\x21\3" + local(0) + local(1) + b"\x39\0\0" + local(0) + b"\x2B\0\0\x44"
             + struct.pack("<d", 2.0) + b"\xA2" + local(3) + b"\xBB\xA0\x21\2" + local(2))
    keep = b"\x44" + struct.pack("<d", 7.5) + b"\x21\2" + local(0) + local(1) + b"\x39\0\0" + local(2)
    # The number of the last label would be an unknown instruction.
    leave = b"\x02\x40" * 7 + local(0) + b"\x0E\1\0\6" + b"\x0B" * 7
    functions = [Function("sum", [I64, I64], [I64], total, [I64]), Function("choose", [I32], [I32], choose),
                 Function("store", [I64, F64], [F64], store, [F64, F32]),
                 Function("global", [I64], [I64], b"\x23\0" + local(0) + b"\x7C\x24\0\x23\0"),
                 Function("call", [I32], [I32], local(0) + b"\x04\x7F" + local(0) + b"\x10\1\x05\x41" + write_signed(-9) + b"\x0B"),
                 Function("select", [I32], [I64], b"\x42\1\x42" + write_signed(-2**63) + local(0) + b"\x1C\1\x7E"),
                 Function("saturate", [F64], [I64], local(0) + b"\xFC\6"), Function("stop", [], [], b"\x00"),
                 Function("keep", [I64, F64], [F64], keep, [F64]), Function("leave", [I32], [], leave)]
    calls: list[list[Any]] = [
        ["sum", "40", "56"], ["choose", 0], ["choose", 1], ["choose", 7], ["store", "500", 3.25], ["global", "3"], ["global", "4"],
        ["call", 1], ["call", 0], ["select", 1], ["select", 0], ["saturate", 1e300], ["stop"], ["keep", "600", 1.0], ["leave", 1]]
    results, after = run(functions, calls)
    tally.check_equal("results", results, [str(sum(DATA[:16])), 10, 20, 30, 7.0, "-2", "2", 20, -9, "1", str(-2**63), str(2**63 - 1), None,
                                           7.5, None])
    tally.check_equal("the memory after a store", struct.unpack_from("<d", after, 500), (3.25,))


def test_data_at_high_addresses(tally: Tally) -> None:
    """A segment of data at an address above 2^31, whose constant is negative in 32 bits."""
    address = 2**31 + 12
    load = Function("load", [I64], [I64], local(0) + b"\x31\0\0")
    segments = {11: section(11, [b"\0\x42" + write_signed(address) + b"\x0B" + sized(b"\x2A")])}
    lowered = lower_module(module_of([load], b"\4" + write_unsigned(2**15 + 1), segments))
    constant = lowered[lowered.rindex(b"\0\x41") + 2:]
    value, end = read_signed(constant, 0)
    tally.check_equal("the constant", (value, constant[end:]), (address - 2**32, b"\x0B\1\x2A"))


def test_numbers(tally: Tally) -> None:
    """Numbers in LEB128, whose writers and readers are each other's inverses."""
    for value in {sign * 2**power + more for power in range(64) for more in (-1, 0, 1) for sign in (-1, 1)}:
        tally.check_equal(f"signed {value}", read_signed(write_signed(value), 0), (value, len(write_signed(value))))
        if value >= 0:
            tally.check_equal(f"unsigned {value}", read_unsigned(write_unsigned(value), 0), (value, len(write_unsigned(value))))
    # The examples of the DWARF standard, section 7.6.
    for value, text in ((2, "02"), (-2, "7e"), (127, "ff00"), (-127, "817f"), (128, "8001"), (-128, "807f"), (129, "8101"), (-129, "ff7e")):
        tally.check_equal(f"the bytes of {value}", write_signed(value).hex(), text)
    tally.check_equal("a long number", read_unsigned(b"\x83\x80\x80\0", 0), (3, 4))


def test_rejected_modules(tally: Tally) -> None:
    """Modules that lower.py does not accept."""
    plain = Function("f", [I64], [], b"")
    codes = {"an indirect call": b"\x11\0\0", "a tail call": b"\x12\0", "a vector": b"\xFD\x0C" + bytes(16),
             "a load of a vector": b"\xFD\0\0\0", "memory.init": b"\xFC\x08\0\0", "a reference": b"\xD0\x70",
             "an offset of 2^32": local(0) + b"\x28\0" + write_unsigned(2**32) + b"\x1A", "a table access": b"\x25\0",
             "an atomic load": local(0) + b"\xFE\x10\0\0", "a constant that is cut": b"\x44\0"}
    modules = {name: module_of([plain._replace(code=code)]) for name, code in codes.items()}
    modules |= {
        "imports": module_of([plain], more={2: section(2, [sized(b"m") + sized(b"n") + b"\0\0"])}),
        "elements": module_of([plain], more={9: section(9, [b"\0\x41\0\x0B\1\0"])}),
        "a memory with 32-bit addresses": module_of([plain], b"\0\1"), "a shared memory": module_of([plain], b"\7\1\2"),
        "two memories": module_of([plain], more={5: section(5, [b"\4\1", b"\4\1"])}),
        "two tables": module_of([plain], more={4: section(4, [b"\x70\0\1", b"\x70\0\1"])}),
        "a passive segment": module_of([plain], more={11: section(11, [b"\1\1a"])}),
        "a segment at a global": module_of([plain], more={11: section(11, [b"\0\x23\0\x0B\1a"])}),
        "a segment at 2^32": module_of([plain], more={11: section(11, [b"\0\x42" + write_signed(2**32) + b"\x0B\1a"])}),
        "a type of a structure": module_of([plain], more={1: section(1, [b"\x5F\0"])}),
        "a module that is cut": module_of([plain])[:-5], "no module": b"\0asm\2\0\0\0", "an empty file": b""}
    for name, module in modules.items():
        try:
            lower_module(module)
        except UnknownModule:
            tally.check(True, "")
        else:
            tally.check(False, f"accepted: {name}")
    tally.check(bool(lower_module(module_of([plain]))), "the module without changes is accepted")
    table = lower_module(module_of([plain], more={4: section(4, [b"\x70\5\1\2"])}))
    tally.check(section(4, [b"\x70\1\1\2"]) in table, "a table has 32-bit addresses")


def test_command(tally: Tally) -> None:
    """The command line: a module, an error, and wrong arguments."""
    with tempfile.TemporaryDirectory() as folder:
        source, target = os.path.join(folder, "in.wasm"), os.path.join(folder, "out.wasm")
        for module, status in ((module_of([]), 0), (b"x", 1)):
            with open(source, "wb") as file:
                file.write(module)
            tool = os.path.join(TOP, "web", "lower.py")
            result = subprocess.run([sys.executable, tool, source, target], stderr=subprocess.PIPE, text=True)
            expected = "" if not status else f"{source}: not a module of WebAssembly\n"
            tally.check_equal("the status and the error", (result.returncode, result.stderr), (status, expected))
        with open(target, "rb") as file:
            tally.check_equal("the output", file.read(), lower_module(module_of([])))
        tally.check_equal("no arguments", subprocess.run([sys.executable, tool], stderr=subprocess.DEVNULL).returncode, 2)


def main() -> int:
    """Runs all tests."""
    tally = Tally()
    for test in (test_numbers, test_rejected_modules, test_data_at_high_addresses, test_command):
        test(tally)
    if shutil.which("node"):
        for test in (test_loads, test_stores, test_memory, test_other_instructions):
            test(tally)
    else:
        print("node is not installed: no module is run")
    return tally.finish()


if __name__ == "__main__":
    sys.exit(main())
