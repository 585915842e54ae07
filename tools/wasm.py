"""Compiles and links a module of WebAssembly with 32-bit addresses, and checks its imports and exports.

The parts of a module are an LLVM module of proved code, if there is one, and the C files of `web`: the heap, and the functions that LLVM
calls for numbers of 128 bits. The toolchain's clang compiles them for 64-bit addresses, because the proved code has 64-bit addresses. The
linker makes one module of them, and `web/lower.py` gives it 32-bit addresses."""
from __future__ import annotations

import os
import re
import subprocess
import sys
from collections.abc import Iterable

import toolchain
from crates import TOP

WEB = os.path.join(TOP, "web")
sys.path.insert(0, WEB)
from lower import UnknownModule, lower_module, read_unsigned, sections_of  # noqa: E402

C_FILES = ("heap.c", "wide_numbers.c")
TARGET = "wasm64-unknown-unknown"
# Lime1 is the set of extensions of WebAssembly that browsers have in common. It has no vectors.
COMPILE_OPTIONS = ["--no-default-config", f"--target={TARGET}", "-mcpu=lime1", "-O3", "-c"]
C_OPTIONS = ["-fwrapv", "-ffreestanding", "-nostdinc", "-Wall", "-Wextra", "-Werror"]
# Code after a call that does not return traps, and divisions of 128 bits are computed without a call. The toolchain has the same options
# for WebAssembly.
LLVM_OPTIONS = ["-mllvm", "-trap-unreachable", "-mllvm", "-no-trap-after-noreturn", "-mllvm", "-expand-div-rem-bits=64"]
# The stack is at the start of the memory.
LINK_OPTIONS = ["-flavor", "wasm", "-mwasm64", "--no-entry", "--stack-first", "--gc-sections", "--strip-all"]
STACK_SIZE = 2**20
# The memory never has the last page of the addresses of 32 bits, so that an overflow of the stack, whose addresses are there, traps.
MAX_MEMORY = 2**32 - 2**16
# The lines of an LLVM module that name its target, and the attributes of functions that name a processor or a way to check the stack.
TARGET_LINES = re.compile(r"^target (datalayout|triple) = .*$", re.MULTILINE)
PROCESSOR_ATTRIBUTES = re.compile(r'"(?:probe-stack|stack-probe-size|target-cpu|target-features|tune-cpu)"="[^"]*" ?')
# What an LLVM module for one kind of processor may have: intrinsic functions, types, and assembly. An empty text of assembly only keeps
# LLVM from moving accesses to the memory.
PROCESSOR_CODE = re.compile(r'@(llvm\.(?:x86|aarch64|arm)\.[\w.]+)|\b(x86_(?:fp80|mmx|amx))\b|\bcall\b[^"\n]*\b(asm\b[^"\n]*"[^"]+")')
EXPORT_SECTION = 7
# The functions that heap.c exports, and the memory.
COMMON_EXPORTS = ("memory", "page_alloc", "page_free")


class ModuleError(Exception):
    """A module that cannot be made, with the reason."""


def run_tool(program: str, *arguments: str, standard_input: str | None = None) -> str:
    """Runs a program of the toolchain, and returns its output. Its errors go to standard error.

    Raises
    ------
    ModuleError
        If the program fails.
    """
    command = [toolchain.path_of("toolchain", "bin", program), *arguments]
    result = subprocess.run(command, input=standard_input, stdout=subprocess.PIPE, text=True)
    if result.returncode:
        raise ModuleError(f"{program} of the toolchain failed with status {result.returncode}")
    return result.stdout


def target_lines() -> dict[str, str]:
    """Returns the lines by which an LLVM module names the target, by the word after `target`."""
    text = run_tool("clang", "--no-default-config", f"--target={TARGET}", "-S", "-emit-llvm", "-x", "c", "-", "-o", "-", standard_input="")
    return {found[1]: found[0] for found in TARGET_LINES.finditer(text)}


def retarget(text: str) -> str:
    """Returns an LLVM module as text that is compiled for WebAssembly instead of another processor with 64-bit addresses.

    Raises
    ------
    ModuleError
        If the module has code for a processor, or does not name its target once.
    """
    code = sorted({found[1] or found[2] or found[3] for found in PROCESSOR_CODE.finditer(text)})
    if code:
        raise ModuleError(f"the LLVM module has code for a processor: {', '.join(code)}")
    lines = target_lines()
    if sorted(found[1] for found in TARGET_LINES.finditer(text)) != sorted(lines):
        raise ModuleError("the LLVM module does not name its data layout and its target once")
    return PROCESSOR_ATTRIBUTES.sub("", TARGET_LINES.sub(lambda found: lines[found[1]], text))


def compile_parts(folder: str, llvm_module: str | None) -> list[str]:
    """Compiles the parts of a module in a folder. Returns the paths of the object files.

    Parameters
    ----------
    folder : str
        The folder for the object files.
    llvm_module : str or None
        The path of the LLVM module of proved code, if there is one.
    """
    sources = [(os.path.join(WEB, name), C_OPTIONS) for name in C_FILES]
    if llvm_module is not None:
        path = os.path.join(folder, "retargeted.ll")
        text = run_tool("clang", "--no-default-config", "-S", "-emit-llvm", "-x", "ir", llvm_module, "-o", "-")
        with open(path, "w", encoding="utf-8") as file:
            file.write(retarget(text))
        sources.insert(0, (path, ["-x", "ir"]))
    objects = []
    for path, options in sources:
        objects.append(os.path.join(folder, f"{os.path.basename(path)}.o"))
        run_tool("clang", *COMPILE_OPTIONS, *LLVM_OPTIONS, *options, path, "-o", objects[-1])
    return objects


def exports_of(module: bytes) -> list[str]:
    """Returns the sorted names that a module exports."""
    names = []
    for kind, section in sections_of(module):
        if kind == EXPORT_SECTION:
            count, position = read_unsigned(section, 0)
            for _ in range(count):
                length, start = read_unsigned(section, position)
                names.append(section[start:start + length].decode())
                # After the name are the kind of the export, in one byte, and its number.
                position = read_unsigned(section, start + length + 1)[1]
    return sorted(names)


def make_module(folder: str, exports: Iterable[str], llvm_module: str | None = None, stack_size: int = STACK_SIZE,
                max_memory: int = MAX_MEMORY) -> bytes:
    """Returns a module of WebAssembly with 32-bit addresses. It has no imports.

    Parameters
    ----------
    folder : str
        An empty folder for temporary files.
    exports : iterable of str
        The functions that the module exports, with those of `COMMON_EXPORTS`.
    llvm_module : str, optional
        The path of the LLVM module of proved code, if there is one.
    stack_size : int, optional
        The size of the stack in bytes.
    max_memory : int, optional
        The maximal size of the memory in bytes.

    Raises
    ------
    ModuleError
        If a program of the toolchain fails, if the module needs an import, or if its exports are others.
    """
    names, linked = sorted(exports), os.path.join(folder, "linked.wasm")
    objects = compile_parts(folder, llvm_module)
    run_tool("ld.lld", *LINK_OPTIONS, "-z", f"stack-size={stack_size}", f"--max-memory={max_memory}",
             *(f"--export={name}" for name in names), "-o", linked, *objects)
    with open(linked, "rb") as file:
        module = file.read()
    try:
        lowered = lower_module(module)
    except UnknownModule as error:
        raise ModuleError(f"web/lower.py does not accept the module: {error}") from None
    expected = sorted({*names, *COMMON_EXPORTS})
    if exports_of(lowered) != expected:
        raise ModuleError(f"the module exports {', '.join(exports_of(lowered))} instead of {', '.join(expected)}")
    return lowered
