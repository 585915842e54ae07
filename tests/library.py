#!/usr/bin/env python3
"""Tests the library for C.

- `tests/c/calls.c` calls each function of `ploverchaise.h` with valid, empty, short and invalid arguments. `tests/c/guards.c` calls each
  function with each of its pointers null, not aligned, and overlapping another pointer; `guard_rows.py` makes these calls from
  `ploverchaise.h`. Both run with the sanitizers for addresses, undefined behaviour and leaks, and without them.
- `tests/c/allocations.c` makes sets and texts while each allocation in turn fails (`tests/fail_allocation.c`).
- `tests/c/wrapper.cpp` tests `ploverchaise.hpp`, `tests/c/fuzz.cpp` makes random calls, and `tests/c/service.cpp` compares a map that
  threads change with a vector behind a mutex. They run with and without the sanitizers.
- `tests/c/stack.c` measures the stack that calls need, and `tests/c/unload.c` unloads the shared library. Some programs run under valgrind.
- `tests/c/threads.c` tests locks, waiting and forks with the thread sanitizer, and with replacements of the proved functions.
- Frama-C's plug-in Eva follows all calls of the guards and of `handles.c`, if it is installed (`analysis.py`).
- The programs of `docs/C.md` print what the page says.
- The archive has no global names but those of the header. Its functions set their frame pointers.
- The header compiles as C99 and as C++. Its codes, functions, types and structs agree with those of the crate.
- Guards pass an aligned address for an empty array that is not aligned. The test replaces the proved functions for this check.

The test links the library with `./moc library` into a temporary folder. The last line printed is `N passed, M failed`."""
from __future__ import annotations

import os
import re
import shutil
import signal
import subprocess
import sys
import tempfile

from analysis import check_with_eva
from guard_rows import make_rows
from tally import Tally

TOP = os.path.dirname(os.path.dirname(os.path.abspath(__file__)))
CRATE = os.path.join(TOP, "crates", "moc_c")
sys.path.insert(0, os.path.join(TOP, "tools"))
import codes  # noqa: E402
import linking  # noqa: E402
from guards import CLIENT, HEADER, ID_FUNCTIONS, OPENING, PROVED, RESULT, RETURNING_ID, STORE, TEXT  # noqa: E402
from guards import Function, guards_source, parse_header, proved_declarations  # noqa: E402

CC, CXX = os.environ.get("CC", "cc"), os.environ.get("CXX", "c++")
WARNINGS = ["-Wall", "-Wextra", "-Wpedantic", "-Werror"]
SANITIZERS = ["-fsanitize=address,undefined", "-fno-sanitize-recover=all"]
CODE = re.compile(r"^\s*(?:MOC|pub\(crate\) const) ?_?(\w+)(?:: u32)? = (\d+)", re.MULTILINE)
# The codes that only guards return. No pointer that a guard passes to a proved function is invalid.
GUARD_CODES = [("NULL", "9"), ("MISALIGNED", "80"), ("OVERLAP", "81")]
# The functions and structs of the header, and those of the crate.
DECLARATION = re.compile(rf"^(?:MOC_CHECKED )?(bool|void|{RESULT}) (moc_\w+)\(([^;]*)\);", re.MULTILINE)
STRUCT = re.compile(r"^typedef struct (moc_\w+) \{([^}]*)\}", re.MULTILINE)
EXPORT = re.compile(r"extern \"C\" fn (moc_\w+)\(([^)]*)\)(?: -> (\w+))?")
REPR_C = re.compile(r"^#\[repr\(C\)\]\n(?:#[^\n]*\n)*pub struct (\w+) \{\n(.*?)^\}", re.MULTILINE | re.DOTALL)
COMMENT = re.compile(r"/\*.*?\*/", re.DOTALL)
# The types of the crate, and their types in C. C has no argument for a `Global`, and no field for a ghost field.
TYPES = {"u8": "uint8_t", "u32": "uint32_t", "u64": "uint64_t", "bool": "bool", "[u64; 8]": "uint64_t[8]", "CallResult": RESULT,
         "Range": "moc_range", "Store": STORE, "ClientHandle": CLIENT, "*mut u8": "void*"}
# Declarations that guards cannot check: another result, a pointer without a length, a length alone, elements without a size or with
# pointers, and a `const` at another place.
UNSUPPORTED = [f"int moc_x({STORE} *store);", f"{RESULT} *moc_x({STORE} *store);", f"bool moc_x({STORE} *out, uint8_t order);",
               f"void moc_x({STORE} store);", f"{RESULT} moc_x({STORE} store);", f"{RESULT} moc_x(const uint8_t *text);",
               f"{RESULT} moc_x(const uint8_t *text, uint64_t length);", f"{RESULT} moc_x(const uint8_t **texts, size_t count);",
               f"{RESULT} moc_x(size_t length);", f"{RESULT} moc_x(void *at, size_t length);",
               f"{RESULT} moc_x(const void *at, size_t length);", f"{RESULT} moc_x(const {STORE} *stores, size_t count);",
               f"{RESULT} moc_x(uint8_t const *text, size_t length);", f"{RESULT} moc_x(const uint8_t *const text, size_t length);"]
TIME_LIMIT = 300
# The programs of `tests/c` that run under valgrind, each with its arguments, and the command.
VALGRIND_TESTS = [["allocations"], ["wrapper"], ["fuzz", "3000"]]
VALGRIND = ["valgrind", "--quiet", "--error-exitcode=99", "--leak-check=full", "--errors-for-leak-kinds=definite,indirect,possible"]
# The instructions that set the frame pointer.
FRAME = re.compile(r"\tpush +%rbp\n(?:.*\n)*?.*\tmov +%rsp,%rbp\n")
# The test programs in C++.
CXX_TESTS = ["wrapper", "fuzz", "service"]
# The minimal number of failing allocations that `allocations.c` has to report.
MIN_FAILURES = 20


def run(command: list[str], **environment: str) -> subprocess.CompletedProcess[str]:
    """Runs a command with additional environment variables. A command that takes longer than the time limit ends with status -9."""
    try:
        return subprocess.run(command, stdin=subprocess.DEVNULL, stdout=subprocess.PIPE, stderr=subprocess.PIPE, text=True,
                              timeout=TIME_LIMIT, env=dict(os.environ, **environment))
    except subprocess.TimeoutExpired:
        return subprocess.CompletedProcess(command, -signal.SIGKILL, "", f"{command[0]} takes longer than {TIME_LIMIT} seconds\n")


def read_text(*path: str) -> str:
    """Returns the text of a file."""
    with open(os.path.join(*path), encoding="utf-8") as file:
        return file.read()


def write_text(path: str, text: str) -> None:
    """Writes a text into a file."""
    with open(path, "w", encoding="utf-8") as file:
        file.write(text)


def crate_sources() -> str:
    """Returns the concatenated sources of the crate."""
    return "\n".join(read_text(folder, name) for folder, _, names in os.walk(os.path.join(CRATE, "src")) for name in names)


def types_in_c(kind: str) -> list[str]:
    """Returns the types in C of an argument or a field of the crate: none, one, or those of a pointer and a length."""
    if kind == "Global":
        return []
    for start, pointer in (("&mut [", "{}*"), ("&[", "const {}*")):
        if kind.startswith(start):
            return [pointer.format(TYPES[kind[len(start):-1]]), "size_t"]
    for start in ("&mut ", "*mut "):
        if kind.startswith(start) and kind not in TYPES:
            return [TYPES[kind[len(start):]] + "*"]
    return [TYPES[kind]]


def crate_declarations() -> dict[str, list[str]]:
    """Returns the types in C of each exported function, with its result first, and of the fields of each struct."""
    declarations, text = {}, crate_sources()
    for name, arguments, result in EXPORT.findall(text):
        kinds = [argument.partition(":")[2].strip() for argument in arguments.split(",") if argument.strip()]
        declarations[name] = [TYPES[result] if result else "void", *(part for kind in kinds for part in types_in_c(kind))]
    for name, fields in REPR_C.findall(text):
        kinds = re.findall(r"^ +(?:pub )?(?!ghost)\w+: (.*),$", fields, re.MULTILINE)
        declarations[TYPES.get(name, name)] = ["struct", *(part for kind in kinds for part in types_in_c(kind))]
    return declarations


def remove_name(declaration: str) -> str:
    """Returns the type of a declared argument. A pointer to rows of eight numbers is a pointer to an array."""
    declaration = re.sub(r"\(\*\w+\)(\[\d+\])", r"\1*", declaration.strip())
    return re.sub(r" ?\*", "*", re.sub(r"\b\w+$", "", declaration).strip().replace(" [", "["))


def functions_in(text: str) -> dict[str, list[str]]:
    """Returns the types of each function that a text in C declares, with its result first."""
    return {name: [result, *map(remove_name, arguments.split(","))] for result, name, arguments in DECLARATION.findall(text)}


def declared_types() -> dict[str, list[str]]:
    """Returns the types of each proved function, as the guards declare it, by its name in the crate, and of the fields of each struct that
    proved functions use."""
    text = COMMENT.sub("", read_text(HEADER))
    lines = proved_declarations(parse_header(read_text(HEADER)))
    declarations = functions_in("".join(f"{line};\n".replace(PROVED, "moc_") for line in lines))
    for name, fields in STRUCT.findall(text):
        if name == TEXT:
            continue
        declarations[name] = ["struct"]
        for line in fields.split(";"):
            kind, _, names = line.strip().partition(" ")
            declarations[name] += [kind + "*" * field.count("*") for field in names.split(",") if field]
    return declarations


def check_header(tally: Tally, folder: str) -> None:
    """Checks that the header compiles as C99 and as C++, and that it agrees with the crate and with the tests."""
    for compiler, standard, name in ((CC, "c99", "header.c"), (CXX, "c++11", "header.cc")):
        write_text(os.path.join(folder, name), '#include "ploverchaise.h"\n' * 2 + "int main(void) { return MOC_NULL == 0; }\n")
        result = run([compiler, f"-std={standard}", *WARNINGS, f"-I{folder}", "-fsyntax-only", os.path.join(folder, name)])
        tally.check(result.returncode == 0, f"the header does not compile as {standard}\n{result.stderr}")
    header_codes = CODE.findall(read_text(HEADER))
    codes = CODE.findall(read_text(CRATE, "src", "codes.rt"))
    tally.check(bool(codes), "the crate has no codes")
    tally.check_equal("the codes of the header", header_codes, sorted([*codes, *GUARD_CODES], key=lambda code: int(code[1])))
    declared, crate = declared_types(), crate_declarations()
    tally.check_equal("the proved functions and structs", sorted(declared), sorted(crate))
    for name in {*declared} & {*crate}:
        tally.check_equal(f"the types of {name}", declared[name], crate[name])
    contracts = re.findall(r'extern "C" fn moc_(\w+)\((.*?)\n\{', crate_sources(), re.DOTALL)
    makers = {name for name, contract in contracts if re.search(r"\b(Makes\w*|Reads\w*|StoresMapSet) ", contract)}
    tally.check_equal("the functions that make coverages", makers, ID_FUNCTIONS)
    functions, tests = parse_header(read_text(HEADER)), read_text(TOP, "tests", "c", "calls.c")
    tally.check(bool(functions), "the header has no functions")
    names = [f"moc_{function.name}" for function in functions]
    tally.check_equal("the functions that calls.c does not call", [name for name in names if f"{name}(" not in tests], [])


def write_rows(tally: Tally, folder: str) -> None:
    """Writes the calls with invalid pointers for `tests/c/guards.c`, and checks that it opens and closes null handles."""
    text, functions = read_text(TOP, "tests", "c", "guards.c"), functions_in(COMMENT.sub("", read_text(HEADER)))
    with_result = {name: types for name, (result, *types) in functions.items() if result == RESULT}
    tally.check(any("*" in kind for types in with_result.values() for kind in types), "no function has a pointer")
    write_text(os.path.join(folder, "guard_rows.h"),
               make_rows(with_result, {f"moc_{name}" for name in RETURNING_ID}, {f"moc_{name}" for name in OPENING}))
    others = [name for name, (result, *_) in functions.items() if result in ("bool", "void")]
    tally.check(bool(others) and all(f"{name}(NULL)" in text for name in others),
                f"guards.c does not call functions with null pointers: {others}")


def check_unsupported(tally: Tally) -> None:
    """Checks that no guard is generated for a function with a pointer that it could not check."""
    for line in UNSUPPORTED:
        source = ""
        try:
            source = guards_source(parse_header(line))
        except ValueError:
            pass
        tally.check_equal(f"the guard of {line}", source, "")


def compile_test(tally: Tally, folder: str, name: str, libraries: str, options: list[str]) -> str | None:
    """Compiles a program of `tests/c` with the archive of a folder. Returns its path, or None if it does not compile."""
    program = os.path.join(folder, name + ("-checked" if options else ""))
    compiler = [CXX, "-std=c++17"] if name in CXX_TESTS else [CC, "-std=c99", "-D_POSIX_C_SOURCE=200809L"]
    source = os.path.join(TOP, "tests", "c", name + (".cpp" if name in CXX_TESTS else ".c"))
    result = run([*compiler, "-g", "-O1", *WARNINGS, *options, f"-I{folder}", source, os.path.join(libraries, linking.STATIC),
                  "-pthread", "-o", program])
    return program if tally.check(result.returncode == 0, f"{name} does not compile\n{result.stderr}") else None


def add_results(tally: Tally, name: str, program: str, *arguments: str, **environment: str) -> None:
    """Runs a program that prints `N passed, M failed`, and adds its counts."""
    result = run([program, *arguments], **environment)
    tally.add_summary(name, result.returncode, result.stdout + result.stderr)
    if result.stderr:
        print(f"{name}:\n{result.stderr}")


def check_calls(tally: Tally, folder: str) -> None:
    """Runs `calls.c`, `guards.c` and the programs in C++, without and with the sanitizers. The guards then have them too."""
    checked = os.path.join(folder, "checked")
    if not tally.check(linking.link(checked, SANITIZERS), "the library with sanitizers is not built"):
        return
    variants: list[tuple[str, list[str]]] = [(folder, []), (checked, SANITIZERS)]
    for name in ("calls", "guards", *CXX_TESTS):
        for libraries, options in variants:
            program = compile_test(tally, folder, name, libraries, options)
            if program is not None:
                add_results(tally, os.path.basename(program), program, ASAN_OPTIONS="detect_leaks=1")


def check_stack_and_unloading(tally: Tally, folder: str) -> None:
    """Runs `stack.c`, and `unload.c` on the shared library."""
    programs: list[list[str]] = [["stack"], ["unload", os.path.join(folder, linking.SHARED)]]
    for name, *arguments in programs:
        program = compile_test(tally, folder, name, folder, [])
        if program is not None:
            add_results(tally, name, program, *arguments)


def check_with_valgrind(tally: Tally, folder: str) -> None:
    """Runs some programs under valgrind, if it is installed. They must access only valid memory, and free what they allocate."""
    if shutil.which("valgrind") is None:
        print("valgrind is not installed: it does not check the library", flush=True)
        return
    for name, *arguments in VALGRIND_TESTS:
        program = compile_test(tally, folder, name, folder, [])
        if program is not None:
            result = run([*VALGRIND, program, *arguments])
            tally.check(result.returncode == 0, f"{name} under valgrind: status {result.returncode}\n{result.stdout}{result.stderr}")


def check_frame_pointers(tally: Tally, folder: str) -> None:
    """Checks that each function of the header sets its frame pointer before it calls another function."""
    listing = run(["objdump", "-d", "--no-show-raw-insn", os.path.join(folder, linking.STATIC)]).stdout
    bodies = dict(re.findall(r"^[0-9a-f]+ <(moc_\w+)>:\n((?:.+\n)*)", listing, re.MULTILINE))
    names = {f"moc_{function.name}" for function in parse_header(read_text(HEADER))}
    calling = {name: bodies[name].partition("\tcall ") for name in names & {*bodies} if "\tcall " in bodies[name]}
    tally.check(len(calling) > len(names) // 2, f"only {len(calling)} functions of the archive call another one")
    without = [name for name, (start, *_) in calling.items() if not FRAME.search(start)]
    tally.check_equal("the functions without a frame pointer", without, [])


def replacement_of(function: Function) -> str:
    """Returns a replacement in C of a proved function, which checks only that its arrays are aligned."""
    handles = (STORE, CLIENT)
    names = (re.search(r"\*(\w+)", argument) for argument in function.arguments if not argument.startswith(handles))
    checks = "".join(f" is_aligned &= (uintptr_t){name[1]} % __alignof__(*{name[1]}) == 0;" for name in names if name)
    statement = {RESULT: f"return ({RESULT}){{0, 0, 0}};", "bool": "return true;", "void": ""}[function.result]
    return f"{function.result} moc_{function.name}({', '.join(function.arguments)}) {{ calls++;{checks} {statement} }}\n"


def call_on_empty_arrays(function: Function) -> str:
    """Returns a line in C that calls a function with empty arrays that are not aligned, and counts whether the guard aligned them."""
    clients, stores = iter(("&client", "&other")), iter(("&store", "&target"))
    arguments = [next(stores) if STORE in argument else next(clients) if CLIENT in argument else "&text" if TEXT in argument
                 else "askew" if "*" in argument else "0" for argument in function.arguments]
    return (f"    calls = 0; is_aligned = true; moc_{function.name}({', '.join(arguments)}); "
            f"count(calls > 0 && is_aligned, \"{function.name}\");\n")


def check_empty_arrays(tally: Tally, folder: str) -> None:
    """Checks that guards pass an aligned address for an empty array that is not aligned."""
    functions = parse_header(read_text(HEADER))
    replaced = parse_header("".join(f"{line};\n" for line in proved_declarations(functions)))
    tested = [function for function in functions if any(argument.startswith("size_t ") for argument in function.arguments)]
    program = os.path.join(folder, "empty")
    write_text(program + ".c", "".join([
        "#define _POSIX_C_SOURCE 200809L\n#include <stdio.h>\n", guards_source(functions),
        "static int calls, passed, failed;\nstatic bool is_aligned;\n",
        "static void count(bool holds, const char *name)\n{\n    passed += holds;\n    failed += !holds;\n"
        "    if (!holds)\n        printf(\"an empty array of %s is not aligned\\n\", name);\n}\n",
        *map(replacement_of, replaced),
        "int main(void)\n{\n    static uint64_t at[2];\n    void *askew = (char *)at + 1;\n"
        f"    {STORE} store, target;\n    {CLIENT} client, other;\n    {TEXT} text;\n"
        '    count(moc_store_open(&store) && moc_store_open(&target), "stores");\n'
        '    count(moc_client_open(&client) && moc_client_open(&other), "clients");\n',
        *(call_on_empty_arrays(function) for function in tested),
        '    printf("%d passed, %d failed\\n", passed, failed);\n    return failed != 0;\n}\n']))
    result = run([CC, "-std=c11", "-Wno-unused", f"-I{folder}", program + ".c", "-pthread", "-o", program])
    if tally.check(result.returncode == 0, f"the program of empty arrays does not compile\n{result.stderr}"):
        add_results(tally, "empty arrays", program)


def stub_of(function: Function) -> str:
    """Returns a replacement in C of a proved function for `threads.c`, which may run in several threads."""
    codes_of = {"proved_map_apply": "(__atomic_fetch_add(&tries, 1, __ATOMIC_SEQ_CST), __atomic_load_n(&applied, __ATOMIC_SEQ_CST)), "
                                    "length",
                "proved_map_join": "0, __atomic_fetch_add(&joined, 1, __ATOMIC_SEQ_CST)"}
    value = {RESULT: f"return ({RESULT}){{{codes_of.get(function.name, '0, 0')}, 0}};", "bool": "return true;", "void": ""}[function.result]
    return f"{function.result} moc_{function.name}({', '.join(function.arguments)}) {{ {value} }}\n"


def check_locks(tally: Tally, folder: str) -> None:
    """Runs `threads.c` with replacements of the proved functions and the thread sanitizer, which does not know the proved code."""
    functions = parse_header(read_text(HEADER))
    replaced = parse_header("".join(f"{line};\n" for line in proved_declarations(functions)))
    program = os.path.join(folder, "threads")
    write_text(program + ".c", "".join([guards_source(functions), "static uint32_t applied, tries;\nstatic uint64_t joined;\n",
                                        *map(stub_of, replaced), read_text(TOP, "tests", "c", "threads.c")]))
    result = run([CC, "-std=c11", "-g", "-O1", "-fsanitize=thread", f"-I{folder}", f"-I{os.path.join(TOP, 'tests', 'c')}", program + ".c",
                  "-pthread", "-o", program])
    if tally.check(result.returncode == 0, f"threads.c does not compile\n{result.stderr}"):
        add_results(tally, "threads", program, TSAN_OPTIONS="report_thread_leaks=0")


def check_page(tally: Tally, folder: str) -> None:
    """Checks that the programs of `docs/C.md`, in C and C++, print what the page says."""
    page = read_text(TOP, "docs", "C.md")
    in_c = re.search(r"^```c\n(.*?)^```\n\nIt writes `(.*?)`", page, re.MULTILINE | re.DOTALL)
    with_text = re.search(r"^```c\n((?:(?!```)[^\n]*\n)*)```\n\n```text\n(.*?)\n```", page, re.MULTILINE | re.DOTALL)
    in_cxx = list(re.finditer(r"^```cpp\n(.*?)^```\n\n```text\n(.*?)\n```", page, re.MULTILINE | re.DOTALL))
    tally.check_equal("the number of programs in C++ in docs/C.md", len(in_cxx), len(re.findall(r"^```cpp$", page, re.MULTILINE)))
    programs = [(in_c, [CC, "-std=c99"], "page.c"), (with_text, [CC, "-std=c99"], "page_of_map.c"),
                *((shown, [CXX, "-std=c++17"], f"page{number}.cc") for number, shown in enumerate(in_cxx))]
    tally.check(len(programs) > 3, "docs/C.md has two programs in C, and two in C++")
    for shown, compiler, name in programs:
        if not tally.check(shown is not None, f"docs/C.md has no program with its output for {name}") or shown is None:
            continue
        program = os.path.join(folder, name)
        write_text(program, shown[1])
        result = run([*compiler, *WARNINGS, f"-I{folder}", program, os.path.join(folder, linking.STATIC), "-pthread",
                      "-o", program + ".out"])
        if tally.check(result.returncode == 0, f"{name} of docs/C.md does not compile\n{result.stderr}"):
            result = run([program + ".out"])
            tally.check_equal(f"the output of {name}", (result.returncode, result.stdout), (0, shown[2] + "\n"))


def check_readme(tally: Tally, folder: str) -> None:
    """Checks that the C++ lines of `README.md` print what their comments begin with."""
    shown = re.search(r"^```cpp\n(.*?)^```", read_text(TOP, "README.md"), re.MULTILINE | re.DOTALL)
    if not tally.check(shown is not None, "README.md has no lines in C++") or shown is None:
        return
    expected = re.findall(r"^std::cout .*// ([^,\n]*)", shown[1], re.MULTILINE)
    tally.check_equal("the number of lines in C++ that print", len(expected), 2)
    program = os.path.join(folder, "readme.cc")
    write_text(program, f'#include "ploverchaise.hpp"\n#include <iostream>\nint main() {{\n{shown[1]}}}\n')
    result = run([CXX, "-std=c++17", *WARNINGS, f"-I{folder}", program, os.path.join(folder, linking.STATIC), "-pthread",
                  "-o", program + ".out"])
    if tally.check(result.returncode == 0, f"the lines in C++ of README.md do not compile\n{result.stderr}"):
        result = run([program + ".out"])
        tally.check_equal("the output of the lines in C++ of README.md", (result.returncode, result.stdout),
                          (0, "".join(f"{line}\n" for line in expected)))


def check_archive(tally: Tally, folder: str) -> None:
    """Checks that the archive has no global names but those of the header."""
    names = run(["nm", "--defined-only", "--extern-only", os.path.join(folder, linking.STATIC)]).stdout
    exported = re.findall(r"^[0-9a-f]+ [A-Z] (\w+)$", names, re.MULTILINE)
    tally.check_equal("the global names of the archive", sorted(exported), sorted(f"moc_{function.name}" for function in parse_header(
        read_text(HEADER))))
    # No call that makes a coverage executes a line.
    pairs = {f"MOC_{code.name}" for code in codes.read_codes() if len(code.numbers) > 1 and not code.name.startswith("LINE_")}
    wrapper = re.search(r"inline moc_result checked_id\(.*?\n\}", read_text(HEADER + "pp"), re.DOTALL)
    tally.check(wrapper is not None and set(re.findall(r"MOC_\w+", wrapper[0])) == pairs | {"MOC_OK"},
                "ploverchaise.hpp has other codes with two numbers than codes.tsv")


def check_failing_allocations(tally: Tally, folder: str) -> None:
    """Runs `allocations.c` while each allocation in turn fails, and checks that it succeeds after at most one repetition of a call."""
    program = compile_test(tally, folder, "allocations", folder, [])
    shim, count = os.path.join(folder, "fail_allocation.so"), os.path.join(folder, "count")
    result = run([CC, "-shared", "-fPIC", "-O1", "-o", shim, os.path.join(TOP, "tests", "fail_allocation.c")])
    if not tally.check(result.returncode == 0, f"the shim does not compile\n{result.stderr}") or program is None:
        return

    def run_with_failure(path: str, allocation: int) -> subprocess.CompletedProcess[str]:
        return run([path], LD_PRELOAD=shim, FAIL_ALLOCATION=str(allocation), ALLOCATION_COUNT=count, FAIL_CALLOC="1")

    result = run_with_failure(program, 0)
    tally.check_equal("allocations.c without a failing allocation", (result.returncode, result.stdout), (0, "0\n"))
    failures = 0
    for allocation in range(1, int(read_text(count)) + 1):
        result = run_with_failure(program, allocation)
        is_expected = result.returncode == 0 and result.stdout in ("0\n", "1\n")
        tally.check(is_expected, f"allocations.c with failing allocation {allocation}: {result}")
        failures += result.stdout == "1\n"
    tally.check(failures > MIN_FAILURES, f"allocations.c reports only {failures} failures")


def main() -> int:
    """Links the library, and runs all checks."""
    tally = Tally()
    with tempfile.TemporaryDirectory() as folder:
        check_with_eva(tally, folder)
        status = subprocess.run([os.path.join(TOP, "moc"), "library", folder], stdout=sys.stderr).returncode
        if tally.check(status == 0, "the library is not built"):
            check_header(tally, folder)
            write_rows(tally, folder)
            check_unsupported(tally)
            check_calls(tally, folder)
            check_empty_arrays(tally, folder)
            check_locks(tally, folder)
            check_page(tally, folder)
            check_readme(tally, folder)
            check_archive(tally, folder)
            check_failing_allocations(tally, folder)
            check_stack_and_unloading(tally, folder)
            check_frame_pointers(tally, folder)
            check_with_valgrind(tally, folder)
    return tally.finish()


if __name__ == "__main__":
    sys.exit(main())
