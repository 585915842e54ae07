#!/usr/bin/env python3
"""Tests the web page and its module of WebAssembly, and the parts of the module that are not proved.

usage: tests/web.py

The C files, which are the heap and the numbers of 128 bits, run on Linux under the address and undefined-behaviour sanitizers, and without
them. The heap meets a memory that grows, one that is soon full, and one that cannot grow. Then the toolchain compiles the C files for
WebAssembly, and node runs the module after it got 32-bit addresses.

`./moc page` proves and builds the module of the page, and node compares its jobs with the program. Each job also runs with little memory.
The example of docs/WEB.md must print what the page says. The scripts of the page run in node, and the page in Chromium.

If the toolchain, node, Chromium or the program `moc` is missing, the script reports this, and leaves the tests out that need it. The
environment variable MOC has the path of the program; the default is the program of the checkout. The last line printed is
`N passed, M failed`."""
from __future__ import annotations

import os
import re
import shutil
import subprocess
import sys
import tempfile

from tally import Tally

TOP = os.path.dirname(os.path.dirname(os.path.abspath(__file__)))
WEB = os.path.join(TOP, "web")
sys.path[:0] = [os.path.join(TOP, "tools"), WEB]
import toolchain  # noqa: E402
import wasm  # noqa: E402
from sources import BUILT  # noqa: E402

WEB_TESTS = os.path.join(WEB, "tests")
MOC = os.environ.get("MOC", BUILT)
TIME_LIMIT = 600
WARNINGS = ["-Wall", "-Wextra", "-Werror"]
SANITIZERS = ["-fsanitize=address,undefined", "-fno-sanitize-recover=all"]
# The line of heap.c that the test replaces.
HEAP_BASE = "extern byte __heap_base;\n"
# The maximal numbers of pages of 64 KiB.
PAGE_LIMITS = (20_000, 400, 40, 3)
STEPS = 100_000
# The module of the C files alone: its stack, its maximal memory and its exports.
STACK_SIZE, MAX_MEMORY = 2**16, 4 * 2**20
EXPORTS = ["rattle_alloc", "rattle_realloc", "rattle_dealloc", "__multi3", "__ashlti3", "__lshrti3", "__ashrti3"]
# A program in JavaScript on a page, and its output.
EXAMPLE = re.compile(r"^```js\n(.*?)^```\n\n```text\n(.*?)^```$", re.MULTILINE | re.DOTALL)


def compile_test(name: str, folder: str, options: list[str]) -> str | None:
    """Returns the path of a compiled test, or None if the compiler rejects it."""
    program = os.path.join(folder, name)
    command = [os.environ.get("CC", "cc"), "-std=gnu11", "-O2", "-g", *WARNINGS, *options, f"-I{folder}", f"-I{WEB}",
               os.path.join(WEB, "tests", f"{name}.c"), "-o", program]
    return None if subprocess.run(command).returncode else program


def run_test(tally: Tally, *command: str) -> None:
    """Runs a test, and checks its exit status."""
    result = subprocess.run(command, timeout=TIME_LIMIT, stdout=subprocess.PIPE, stderr=subprocess.STDOUT, text=True)
    tally.check(result.returncode == 0, f"{' '.join(command)}: status {result.returncode}\n{result.stdout}")


def test_c_files(tally: Tally, folder: str) -> None:
    """Runs the tests of the C files."""
    with open(os.path.join(WEB, "heap.c"), encoding="utf-8") as file:
        source = file.read()
    tally.check(source.count(HEAP_BASE) == 1, "heap.c declares __heap_base once")
    with open(os.path.join(folder, "heap_source.c"), "w", encoding="utf-8") as file:
        file.write(source.replace(HEAP_BASE, ""))
    choices: list[list[str]] = [[], SANITIZERS]
    for options in choices:
        heap, numbers = compile_test("heap_test", folder, options), compile_test("wide_numbers_test", folder, options)
        if not tally.check(heap is not None and numbers is not None, f"the tests do not compile with {options}") or not heap or not numbers:
            continue
        for seed, limit in enumerate(PAGE_LIMITS):
            run_test(tally, heap, str(seed), str(STEPS), str(limit))
        run_test(tally, numbers)


def run_node(tally: Tally, name: str, *arguments: str) -> None:
    """Runs a test of `web/tests` in node, and adds its counts."""
    result = subprocess.run(["node", os.path.join(WEB_TESTS, name), *arguments], timeout=TIME_LIMIT, stdin=subprocess.DEVNULL,
                            stdout=subprocess.PIPE, stderr=subprocess.STDOUT, text=True)
    tally.add_summary(name, result.returncode, result.stdout)


def test_c_module(tally: Tally, folder: str) -> None:
    """Runs the module of the C files alone in node."""
    module = os.path.join(folder, "c_files.wasm")
    try:
        content = wasm.make_module(folder, EXPORTS, stack_size=STACK_SIZE, max_memory=MAX_MEMORY)
    except wasm.ModuleError as error:
        tally.check(False, f"the module of the C files: {error}")
        return
    with open(module, "wb") as file:
        file.write(content)
    run_node(tally, "module_test.mjs", module)


def test_retargeting(tally: Tally) -> None:
    """Checks what `wasm.py` changes in an LLVM module, and that it rejects code for a processor and a module without a target."""
    lines = wasm.target_lines()
    native = 'target datalayout = "e-m:e"\ntarget triple = "x86_64-unknown-linux-gnu"\n'
    code = 'define void @f() #0 { ret void }\nattributes #0 = { nounwind "target-cpu"="x86-64" "tune-cpu"="generic" }\n'
    expected = f'{lines["datalayout"]}\n{lines["triple"]}\n' + code.replace('"target-cpu"="x86-64" "tune-cpu"="generic" ', "")
    tally.check_equal("the changed module", wasm.retarget(native + code), expected)
    fence = 'define void @f() { call void asm sideeffect "", "~{memory}"() ret void }\n'
    tally.check(fence in wasm.retarget(native + fence), "an empty text of assembly stays")
    for text in (f"{native}declare <16 x i8> @llvm.x86.ssse3.pshuf.b.128(<16 x i8>, <16 x i8>)\n", f"{native}declare x86_fp80 @f()\n",
                 native + fence.replace('""', '"nop"'), code, native + native):
        try:
            wasm.retarget(text)
        except wasm.ModuleError:
            tally.check(True, "")
        else:
            tally.check(False, f"accepted: {text}")


def test_example(tally: Tally, module: str, folder: str) -> None:
    """Runs the program of the page about the module, which reads `module.wasm` in the current folder."""
    with open(os.path.join(TOP, "docs", "WEB.md"), encoding="utf-8") as file:
        found = EXAMPLE.findall(file.read())
    if tally.check(len(found) == 1, "docs/WEB.md has one example in JavaScript"):
        work = os.path.join(folder, "example")
        os.mkdir(work)
        shutil.copy(module, os.path.join(work, "module.wasm"))
        with open(os.path.join(work, "example.mjs"), "w", encoding="utf-8") as file:
            file.write(found[0][0])
        result = subprocess.run(["node", "example.mjs"], cwd=work, timeout=TIME_LIMIT, stdin=subprocess.DEVNULL, stdout=subprocess.PIPE,
                                stderr=subprocess.STDOUT, text=True)
        tally.check_equal("the output of the example of docs/WEB.md", (result.returncode, result.stdout), (0, found[0][1]))


def make_page(tally: Tally, *arguments: str) -> bool:
    """Makes the page or its module with `./moc page`. Returns whether this succeeds."""
    result = subprocess.run([os.path.join(TOP, "moc"), "page", *arguments], stdin=subprocess.DEVNULL, stdout=subprocess.PIPE,
                            stderr=subprocess.STDOUT, text=True)
    return tally.check(result.returncode == 0, f"moc page {' '.join(arguments)}: status {result.returncode}\n{result.stdout}")


def test_page(tally: Tally, folder: str) -> None:
    """Makes the module and the page, and runs their tests."""
    module, page = os.path.join(folder, "module.wasm"), os.path.join(folder, "page.html")
    if not make_page(tally, "--module", module):
        return
    test_example(tally, module, folder)
    run_node(tally, "memory_test.mjs", module)
    has_program = os.path.exists(MOC)
    if has_program:
        run_node(tally, "jobs_test.mjs", module, MOC)
    else:
        print(f"{MOC} does not exist: the module and the page are not compared with the program")
    if not make_page(tally, page):
        return
    if shutil.which("chromium") is None:
        print("chromium is not installed: the page is not tested in a browser")
    elif has_program:
        run_node(tally, "page_test.mjs", page, MOC)


def main() -> int:
    """Runs all tests."""
    tally = Tally()
    with tempfile.TemporaryDirectory() as folder:
        test_c_files(tally, folder)
        has_node, has_toolchain = shutil.which("node") is not None, toolchain.is_installed()
        for name, is_installed in (("node", has_node), ("the toolchain", has_toolchain)):
            if not is_installed:
                print(f"{name} is not installed: the tests that need it are left out")
        if has_node:
            run_node(tally, "scripts_test.mjs")
        if has_toolchain:
            test_retargeting(tally)
        if has_toolchain and has_node:
            test_c_module(tally, folder)
            test_page(tally, folder)
    result = subprocess.run([sys.executable, os.path.join(WEB_TESTS, "lower_test.py")], timeout=TIME_LIMIT, stdout=subprocess.PIPE,
                            text=True)
    tally.add_summary("lower_test.py", result.returncode, result.stdout)
    return tally.finish()


if __name__ == "__main__":
    sys.exit(main())
