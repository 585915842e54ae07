"""Checks the guards and `handles.c` with Frama-C's plug-in Eva, over the models of `tests/c/eva.c`.

Eva follows all arguments, results and failing allocations at once, for calls in one thread. It must report no access to memory that may be
invalid, and no requirement of `eva.c` that may not hold. It must reach every statement, and find each of the planted defects. Eva decides
neither which pointers are aligned nor which arrays overlap, so these two checks of the guards are replaced: all pointers are aligned, and
only equal pointers overlap."""
from __future__ import annotations

import os
import re
import shutil
import subprocess
import sys
from concurrent.futures import ThreadPoolExecutor

from tally import Tally

TOP = os.path.dirname(os.path.dirname(os.path.abspath(__file__)))
sys.path.insert(0, os.path.join(TOP, "tools"))
from guards import ARRAY, CLIENT, HEADER, POINTER_TO_HANDLE, PROVED, RESULT, STORE, TEXT, TEXT_FUNCTIONS, TEXTS, WAITING  # noqa: E402
from guards import Function, guards_source, parse_header, proved_declarations  # noqa: E402

MODELS = os.path.join(TOP, "tests", "c", "eva.c")
# Each state of the program is followed separately: up to this many at a statement.
STATES = 5000
COMMAND = ["frama-c", "-c11", "-machdep", "gcc_x86_64", f"-cpp-extra-args=-I{os.path.dirname(HEADER)}", "-eva", "-eva-slevel", str(STATES),
           "-eva-split-return", "full", "-eva-alloc-builtin", "by_stack", "-eva-no-results", "-eva-msg-key=-initial-state,-final-states"]
TIME_LIMIT = 600
# What Eva prints for each finding, and at its end. The number of bytes at the end of its output that a failure shows.
FINDING, FINISHED, OUTPUT_END = "[eva:alarm]", "[eva] done for function", 1500
# The proved functions that `eva.c` has a model of.
WITH_MODEL = frozenset(["store_open", "store_close", "client_open", "client_close", "text", "map_answer", "map_begin", "map_join"])
# The functions that `any_call` does not call: each handle is opened once, and each text is freed.
NOT_CALLED = frozenset([*TEXTS, "store_open", "client_open", "text_free"])
# What is replaced in the guards: the checks that Eva does not decide.
REPLACED = [("#define IS_ALIGNED(pointer) ((uintptr_t)(pointer) % __alignof__(*(pointer)) == 0)", "#define IS_ALIGNED(pointer) true"),
            ("count && other_count && (from < other ? (other - from) / size < count : (from - other) / other_size < other_count)",
             "count && other_count && a == b")]
ALLOCATION = re.compile(r"\b(malloc|calloc|free)\(")
PROTOTYPES = "void *model_malloc(size_t size);\nvoid *model_calloc(size_t count, size_t size);\nvoid model_free(void *block);\n"
# Eva has no models of atomic functions. It analyses one thread, which needs none.
ATOMICS = ("#define __atomic_load_n(at, order) (*(at))\n#define __atomic_fetch_add(at, number, order) ((void)(*(at) += (number)))\n"
           "#define __atomic_fetch_sub(at, number, order) ((void)(*(at) -= (number)))\n"
           "#define __atomic_store_n(at, number, order) ((void)(*(at) = (number)))\n")
# Defects of `handles.c`: what is wrong, the correct code, and the wrong code.
DEFECTS = [("a lock that is not released", "    pthread_mutex_unlock(&maps_lock);\n    if (!has_client)", "    if (!has_client)"),
           ("two locks in the wrong order", "    pthread_mutex_lock(a->number < b->number ? &a->lock : &b->lock);\n"
            "    pthread_mutex_lock(a->number < b->number ? &b->lock : &a->lock);\n",
            "    pthread_mutex_lock(&a->lock);\n    pthread_mutex_lock(&b->lock);\n"),
           ("a handle that is used after it was freed", "        free_map(map);\n    free_handle(handle);\n",
            "        free_map(map);\n    free_handle(handle);\n    handle->map = NULL;\n"),
           ("a text that is left after a failed call", "    if (result.code)\n        free_text(text);\n    return result;",
            "    return result;"),
           ("a call that goes first forever", "    if (wait->first_in)\n        __atomic_fetch_sub",
            "    if (wait->first_in && !wait->map)\n        __atomic_fetch_sub"),
           ("a client that is not closed", "    moc_proved_client_close(closed);\n", "    (void)closed;\n")]


def replace_once(text: str, old: str, new: str) -> str:
    """Replaces a part of a text. Raises ValueError if the text has the part not exactly once."""
    if text.count(old) != 1:
        raise ValueError(f"the guards have this {text.count(old)} times: {old}")
    return text.replace(old, new)


def model_of(function: Function) -> str:
    """Returns a model in C of a proved function: it uses its handles and arrays, and returns any result."""
    name, lines = function.name.removeprefix("proved_"), []
    for place, argument in enumerate(function.arguments):
        if match := POINTER_TO_HANDLE.fullmatch(argument):
            lines.append(f"use({match[3]}->at);")
        elif match := ARRAY.fullmatch(argument):
            array, length = match[3] or match[4], function.arguments[place + 1].split()[-1]
            lines.append(f"{'read' if match[1] else 'write'}_array({array}, {length} * sizeof *{array});")
    result = "text_result()" if name in TEXT_FUNCTIONS else "busy_result()" if name in WAITING else "any_result()"
    return f"{RESULT} {PROVED}{name}({', '.join(function.arguments)}) {{ {' '.join(lines)} return {result}; }}\n"


def any_argument(argument: str) -> str:
    """Returns an expression in C for an argument with any value."""
    for part, expression in (("moc_store *out", "any_new_store()"), (STORE, "any_store()"), (CLIENT, "any_client()"),
                             (TEXT, "any_text()"), ("*", "any_array()"), ("size_t", "any_length()"),
                             ("uint32_t clients", "any_client_count()"), ("uint32_t", "any_small_number()")):
        if part in argument:
            return expression
    return "any_number()"


def any_call(functions: list[Function]) -> str:
    """Returns the function `any_call` in C, which makes one of the calls of the header."""
    called = [function for function in functions if function.name not in NOT_CALLED]
    cases = []
    for number, function in enumerate(called):
        call = f"moc_{function.name}({', '.join(map(any_argument, function.arguments))})"
        has_text = any(TEXT in argument for argument in function.arguments)
        statement = f"check_text({call})" if has_text else f"(void){call}" if function.result == RESULT else call
        if "moc_store *out" in function.arguments and function.result == RESULT:
            statement += "; moc_store_close(&new_store)"
        cases.append(f"    case {number}: {statement}; break;\n")
    return ("static void any_call(void)\n{\n    switch (Frama_C_interval(0, %d)) {\n%s    default: any_fork();\n    }\n}\n"
            % (len(called), "".join(cases)))


def source(old: str = "", new: str = "") -> str:
    """Returns the guards, with one part replaced by another if there is one, and with the models and calls."""
    with open(HEADER, encoding="utf-8") as file:
        functions = parse_header(file.read())
    guards = guards_source(functions)
    if old:
        guards = replace_once(guards, old, new)
    for checked, replacement in REPLACED:
        guards = replace_once(guards, checked, replacement)
    include = '#include "ploverchaise.h"\n'
    guards = replace_once(ALLOCATION.sub(r"model_\1(", guards), include, include + PROTOTYPES + ATOMICS)
    with open(MODELS, encoding="utf-8") as file:
        models = file.read()
    proved = parse_header("".join(f"{line};\n" for line in proved_declarations(functions)))
    rest = [model_of(function) for function in proved if function.name.removeprefix("proved_") not in WITH_MODEL]
    return "".join([guards, models, *rest, any_call(functions)])


def run_eva(folder: str, name: str, main: str, text: str) -> str:
    """Runs Eva on a source from one of its functions. Returns its output, or an empty text if it takes longer than the time limit."""
    path = os.path.join(folder, f"{name}.c")
    with open(path, "w", encoding="utf-8") as file:
        file.write(text)
    try:
        return subprocess.run([*COMMAND, "-main", main, path], stdin=subprocess.DEVNULL, stdout=subprocess.PIPE, stderr=subprocess.STDOUT,
                              text=True, timeout=TIME_LIMIT).stdout
    except subprocess.TimeoutExpired:
        return ""


def is_accepted(output: str) -> bool:
    """Returns whether Eva finished, reported nothing, and reached every statement of the functions that are called."""
    reached = re.search(r" (\d+) statements reached \(out of (\d+)\)", output)
    return (FINISHED in output and FINDING not in output and " 0 alarms generated by the analysis." in output
            and " 100% of the logical properties reached have been proven." in output
            and reached is not None and reached[1] == reached[2])


def findings(output: str) -> str:
    """Returns the findings of Eva, and the end of its output."""
    return "".join(re.findall(r"\[eva:alarm\].*\n(?: .*\n)*", output)) + output[-OUTPUT_END:]


def check_with_eva(tally: Tally, folder: str) -> None:
    """Runs Eva on all calls and on calls with planted defects, if Frama-C is installed."""
    if shutil.which("frama-c") is None:
        print("frama-c is not installed: it does not check handles.c and the guards", flush=True)
        return
    correct = source()
    runs = [("all calls", "check_calls", correct), ("all orders", "check_clients", correct), ("some calls", "check_once", correct),
            *((name, "check_once", source(old, new)) for name, old, new in DEFECTS)]
    with ThreadPoolExecutor(max(1, (os.cpu_count() or 1) // 2)) as pool:
        outputs = list(pool.map(lambda run: run_eva(folder, run[0].replace(" ", "_"), *run[1:]), runs))
    tally.check(is_accepted(outputs[0]), f"Eva does not accept all calls\n{findings(outputs[0])}")
    tally.check(is_accepted(outputs[1]), f"Eva does not accept all orders of calls\n{findings(outputs[1])}")
    # Without a defect, the calls in which Eva finds the defects have no finding.
    tally.check(FINISHED in outputs[2] and FINDING not in outputs[2], f"Eva does not accept some calls\n{findings(outputs[2])}")
    for (name, *_), output in zip(runs[3:], outputs[3:]):
        tally.check(FINISHED in output and FINDING in output, f"Eva does not find {name}\n{output[-OUTPUT_END:]}")
