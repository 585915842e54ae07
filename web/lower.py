#!/usr/bin/env python3
"""Gives a module of WebAssembly a memory and a table with 32-bit addresses, which every browser supports.

usage: web/lower.py MODULE OUTPUT

The module is one that LLVM compiled for wasm64, without vectors. In the output, addresses still have 64 bits in locals, globals, arguments
and results. They are cut to 32 bits at each instruction that uses the memory, so the functions have the same types as before. An address of
2^32 or more traps in the module, and is cut in the output. Proved code computes no such address, and the heap returns none.

The tool only accepts modules in which it knows each instruction and section: one memory with 64-bit addresses, at most one table, no
imports and no elements of tables, and segments of data at constant addresses. It reports anything else as an error.

The binary format is that of the WebAssembly Core Specification 3.0, section 5."""
from __future__ import annotations

import sys
from collections.abc import Iterator

MAGIC = b"\0asm\1\0\0\0"
# Types of values.
I32, I64, F32, F64 = 0x7F, 0x7E, 0x7D, 0x7C
FUNCTION_TYPE = 0x60
# Sections.
TYPES, IMPORTS, FUNCTIONS, TABLES, MEMORIES, ELEMENTS, CODE, DATA = 1, 2, 3, 4, 5, 9, 10, 11
# Bits of the limits of a memory or a table.
HAS_MAXIMUM, HAS_64_BITS = 1, 4
# Instructions.
BLOCK, LOOP, IF, END, BR_TABLE, TYPED_SELECT = 0x02, 0x03, 0x04, 0x0B, 0x0E, 0x1C
LOCAL_GET, LOCAL_SET, I32_CONST, I64_CONST, F32_CONST, F64_CONST = 0x20, 0x21, 0x41, 0x42, 0x43, 0x44
MEMORY_SIZE, MEMORY_GROW, I32_WRAP_I64, I64_EXTEND_I32_S, PREFIX = 0x3F, 0x40, 0xA7, 0xAC, 0xFC
# Instructions after the prefix.
LAST_CONVERSION, MEMORY_COPY, MEMORY_FILL = 7, 10, 11
# Loads, and stores with the type of the value.
LOADS = range(0x28, 0x36)
STORES = {0x36: I32, 0x37: I64, 0x38: F32, 0x39: F64, 0x3A: I32, 0x3B: I32, 0x3C: I64, 0x3D: I64, 0x3E: I64}
# Instructions without an operand, and with one number as the operand: jumps, direct calls, locals and globals, integer constants, blocks.
PLAIN = {0x00, 0x01, 0x05, END, 0x0F, 0x1A, 0x1B, *range(0x45, 0xC5)}
WITH_NUMBER = {0x0C, 0x0D, 0x10, LOCAL_GET, LOCAL_SET, 0x22, 0x23, 0x24, I32_CONST, I64_CONST, BLOCK, LOOP, IF}
FLOAT_SIZES = {F32_CONST: 4, F64_CONST: 8}
MAX_32_BITS = 2**32
# The maximal number of pages of a memory with 32-bit addresses.
MAX_LIMIT = 65536


class UnknownModule(ValueError):
    """A module that the tool does not accept."""


def read_unsigned(data: bytes, start: int) -> tuple[int, int]:
    """Returns the unsigned number in LEB128 at a position, and the position after it."""
    value = shift = 0
    for position in range(start, len(data)):
        value |= (data[position] & 127) << shift
        shift += 7
        if data[position] < 128:
            return value, position + 1
    raise UnknownModule("a number does not end")


def read_signed(data: bytes, start: int) -> tuple[int, int]:
    """Returns the signed number in LEB128 at a position, and the position after it."""
    value, end = read_unsigned(data, start)
    return value - (1 << 7 * (end - start) if data[end - 1] & 64 else 0), end


def write_unsigned(value: int) -> bytes:
    """Returns an unsigned number in LEB128."""
    parts = bytearray()
    while value >= 128:
        parts.append(value & 127 | 128)
        value >>= 7
    return bytes([*parts, value])


def write_signed(value: int) -> bytes:
    """Returns a signed number in LEB128."""
    parts = bytearray()
    while not -64 <= value < 64:
        parts.append(value & 127 | 128)
        value >>= 7
    return bytes([*parts, value & 127])


def sections_of(module: bytes) -> Iterator[tuple[int, bytes]]:
    """Yields the number and the content of each section of a module."""
    if not module.startswith(MAGIC):
        raise UnknownModule("not a module of WebAssembly")
    position = len(MAGIC)
    while position < len(module):
        kind = module[position]
        size, start = read_unsigned(module, position + 1)
        position = start + size
        if position > len(module):
            raise UnknownModule("a section does not end")
        yield kind, module[start:position]


def parameter_counts(types: bytes, functions: bytes) -> list[int]:
    """Returns the number of parameters of each function, from the sections of types and of functions."""
    count, position = read_unsigned(types, 0)
    counts = []
    for _ in range(count):
        if types[position] != FUNCTION_TYPE:
            raise UnknownModule("a type is not that of a function")
        parameters, position = read_unsigned(types, position + 1)
        results, position = read_unsigned(types, position + parameters)
        position += results
        counts.append(parameters)
    count, position = read_unsigned(functions, 0)
    of_functions = []
    for _ in range(count):
        number, position = read_unsigned(functions, position)
        of_functions.append(counts[number])
    return of_functions


class FunctionBody:
    """The code of a function.

    Parameters
    ----------
    code : bytes
        The locals and the instructions of the function.
    parameter_count : int
        The number of its parameters, which are its first locals.
    """

    def __init__(self, code: bytes, parameter_count: int) -> None:
        self.code = code
        self.output = bytearray()
        self.group_count, self.start_of_groups = read_unsigned(code, 0)
        self.local_count, position = parameter_count, self.start_of_groups
        for _ in range(self.group_count):
            count, position = read_unsigned(code, position)
            self.local_count += count
            position += 1
        self.start = position
        # The locals that are added, each with its type. The number distinguishes locals of one type.
        self.added: dict[tuple[int, int], int] = {}

    def added_local(self, kind: int, number: int = 0) -> bytes:
        """Returns the number of an added local in LEB128."""
        return write_unsigned(self.local_count + self.added.setdefault((kind, number), len(self.added)))

    def put(self, *parts: int | bytes) -> None:
        """Appends instructions and operands to the output."""
        for part in parts:
            self.output += bytes([part]) if isinstance(part, int) else part

    def end_of_plain(self, position: int) -> int:
        """Returns the position after an instruction that does not use the memory."""
        code, instruction = self.code, self.code[position]
        position += 1
        if instruction in PLAIN:
            return position
        if instruction in WITH_NUMBER:
            return read_unsigned(code, position)[1]
        if instruction in FLOAT_SIZES:
            return position + FLOAT_SIZES[instruction]
        if instruction == TYPED_SELECT:
            count, position = read_unsigned(code, position)
            return position + count
        if instruction == BR_TABLE:
            count, position = read_unsigned(code, position)
            for _ in range(count + 1):
                position = read_unsigned(code, position)[1]
            return position
        raise UnknownModule(f"instruction 0x{instruction:02x}")

    def lower_access(self, position: int) -> int:
        """Writes a load or a store with a 32-bit address. Returns the position after the instruction."""
        instruction = self.code[position]
        alignment, start = read_unsigned(self.code, position + 1)
        offset, end = read_unsigned(self.code, start)
        if offset >= MAX_32_BITS:
            raise UnknownModule("an offset is 2^32 or more")
        if instruction in STORES:
            value = self.added_local(STORES[instruction])
            self.put(LOCAL_SET, value, I32_WRAP_I64, LOCAL_GET, value)
        else:
            self.put(I32_WRAP_I64)
        self.put(instruction, write_unsigned(alignment), write_unsigned(offset))
        return end

    def lower_prefixed(self, position: int) -> int:
        """Writes an instruction with a prefix. Returns the position after it."""
        kind, end = read_unsigned(self.code, position + 1)
        if kind == MEMORY_COPY:
            source, length = self.added_local(I64), self.added_local(I64, 1)
            end += 2
            self.put(LOCAL_SET, length, LOCAL_SET, source, I32_WRAP_I64, LOCAL_GET, source, I32_WRAP_I64, LOCAL_GET, length, I32_WRAP_I64)
        elif kind == MEMORY_FILL:
            value, length = self.added_local(I32), self.added_local(I64, 1)
            end += 1
            self.put(LOCAL_SET, length, LOCAL_SET, value, I32_WRAP_I64, LOCAL_GET, value, LOCAL_GET, length, I32_WRAP_I64)
        elif kind > LAST_CONVERSION:
            raise UnknownModule(f"instruction 0x{PREFIX:02x} {kind}")
        self.put(self.code[position:end])
        return end

    def lower_instruction(self, position: int) -> int:
        """Writes an instruction. Returns the position after it."""
        instruction = self.code[position]
        if instruction in LOADS or instruction in STORES:
            return self.lower_access(position)
        if instruction == PREFIX:
            return self.lower_prefixed(position)
        if instruction == MEMORY_SIZE:
            self.put(self.code[position:position + 2], I64_EXTEND_I32_S)
            return position + 2
        if instruction == MEMORY_GROW:
            # If the memory cannot grow, the result is -1, whose sign is kept.
            self.put(I32_WRAP_I64, self.code[position:position + 2], I64_EXTEND_I32_S)
            return position + 2
        end = self.end_of_plain(position)
        self.put(self.code[position:end])
        return end

    def lowered(self) -> bytes:
        """Returns the code for a memory with 32-bit addresses, after its size."""
        position = self.start
        while position < len(self.code):
            position = self.lower_instruction(position)
        if position > len(self.code):
            raise UnknownModule("an instruction does not end")
        added = b"".join(bytes([1, kind]) for kind, _ in self.added)
        body = write_unsigned(self.group_count + len(self.added)) + self.code[self.start_of_groups:self.start] + added + bytes(self.output)
        return write_unsigned(len(body)) + body


def lower_code(section: bytes, counts: list[int]) -> bytes:
    """Returns the section of code, for functions with these numbers of parameters."""
    count, position = read_unsigned(section, 0)
    if count != len(counts):
        raise UnknownModule("the numbers of functions differ")
    output = bytearray(write_unsigned(count))
    for parameter_count in counts:
        size, start = read_unsigned(section, position)
        position = start + size
        output += FunctionBody(section[start:position], parameter_count).lowered()
    return bytes(output)


def lower_limits(section: bytes, start: int) -> tuple[bytes, int]:
    """Returns limits for 32-bit addresses, and the position after those of the section."""
    flags = section[start]
    if flags & ~(HAS_MAXIMUM | HAS_64_BITS):
        raise UnknownModule("a memory or a table is shared")
    minimum, end = read_unsigned(section, start + 1)
    limits = [minimum]
    if flags & HAS_MAXIMUM:
        maximum, end = read_unsigned(section, end)
        limits.append(maximum)
    if max(limits) > MAX_LIMIT:
        raise UnknownModule("a memory or a table has a limit above 65536")
    return bytes([flags & HAS_MAXIMUM]) + b"".join(map(write_unsigned, limits)), end


def lower_memory(section: bytes) -> bytes:
    """Returns the section of the memory."""
    count, start = read_unsigned(section, 0)
    if count != 1 or not section[start] & HAS_64_BITS:
        raise UnknownModule("the module has not one memory with 64-bit addresses")
    return write_unsigned(1) + lower_limits(section, start)[0]


def lower_table(section: bytes) -> bytes:
    """Returns the section of the table. Code that uses the table is not accepted."""
    count, start = read_unsigned(section, 0)
    if count != 1:
        raise UnknownModule("the module has more than one table")
    return write_unsigned(1) + section[start:start + 1] + lower_limits(section, start + 1)[0]


def lower_data(section: bytes) -> bytes:
    """Returns the section of data, whose segments have constant addresses."""
    count, position = read_unsigned(section, 0)
    output = bytearray(write_unsigned(count))
    for _ in range(count):
        if section[position:position + 2] != bytes([0, I64_CONST]):
            raise UnknownModule("a segment of data has no constant address")
        address, end = read_signed(section, position + 2)
        if section[end] != END or not 0 <= address < MAX_32_BITS:
            raise UnknownModule("a segment of data has no constant address below 2^32")
        # The constant is signed, and has 32 bits.
        low = address - MAX_32_BITS if address >= MAX_32_BITS // 2 else address
        length, start = read_unsigned(section, end + 1)
        position = start + length
        output += bytes([0, I32_CONST]) + write_signed(low) + bytes([END]) + write_unsigned(length) + section[start:position]
    return bytes(output)


def lower_module(module: bytes) -> bytes:
    """Returns a module with 32-bit addresses. Raises UnknownModule if the tool does not accept the module."""
    try:
        sections = list(sections_of(module))
        content = dict(sections)
        if IMPORTS in content or ELEMENTS in content:
            raise UnknownModule("the module has imports or elements")
        counts = parameter_counts(content.get(TYPES, b"\0"), content.get(FUNCTIONS, b"\0"))
        output = bytearray(MAGIC)
        for kind, section in sections:
            if kind == CODE:
                section = lower_code(section, counts)
            elif kind in CHANGES:
                section = CHANGES[kind](section)
            output += bytes([kind]) + write_unsigned(len(section)) + section
    except IndexError:
        raise UnknownModule("a section is too short") from None
    return bytes(output)


CHANGES = {TABLES: lower_table, MEMORIES: lower_memory, DATA: lower_data}


def main() -> int:
    """Writes the module with 32-bit addresses."""
    if len(sys.argv) != 3:
        print(__doc__, file=sys.stderr)
        return 2
    with open(sys.argv[1], "rb") as file:
        module = file.read()
    try:
        lowered = lower_module(module)
    except UnknownModule as error:
        print(f"{sys.argv[1]}: {error}", file=sys.stderr)
        return 1
    with open(sys.argv[2], "wb") as file:
        file.write(lowered)
    return 0


if __name__ == "__main__":
    sys.exit(main())
