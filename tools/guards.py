#!/usr/bin/env python3
"""Generates guards in C for the proved functions of the library, from the functions that `ploverchaise.h` declares.

A proved function takes a handle as a borrow and an array as a slice. Neither is null, each is aligned for its type, and what the function
writes does not overlap its other arguments. C guarantees nothing of this. So the proved functions have other names, and each function of
the header is a guard that checks its pointers. A guard returns MOC_NULL for the first null pointer. Otherwise it returns MOC_MISALIGNED for
the first pointer that is not aligned, and otherwise MOC_OVERLAP for the first pointer that overlaps an earlier one, or is a copy of an
earlier handle. The result has the number of the argument.

If all pointers are valid, the guard takes the locks of its handles, and calls the proved function, or a function of
`crates/moc_c/c/handles.c`. It replaces the address of an empty array by an aligned address, and an id by the id that the proved functions
use. The proved functions take bytes, so it replaces a number above 255, which is not an order or a number of clients, by 254. A call that
may find a part held is repeated until the timeout of its client. A failed call that returns an id on success returns UINT64_MAX in its
place, so that the position of the error cannot be used as an id.

usage: tools/guards.py

Prints the guards, after `handles.c`."""
from __future__ import annotations

import os
import re
import sys
from collections.abc import Iterator
from typing import NamedTuple

import codes
from crates import folder_of

HEADER = os.path.join(folder_of("moc_c"), "include", "ploverchaise.h")
HANDLES = os.path.join(folder_of("moc_c"), "c", "handles.c")
# The types of the header: the result of a function, the store, the client, and a text.
RESULT, STORE, CLIENT, TEXT = "moc_result", "moc_store", "moc_client", "moc_text"
# The name of the proved function of `moc_NAME`, without NAME.
PROVED = "moc_proved_"
# The last line of a guard. It returns the fields one by one: a copy of the whole result would wait until the stores of its fields, which
# are smaller, have reached the cache.
RETURNED = f"return ({RESULT}){{result.code, result.first, result.second}};"
# The attribute of a proved function that takes pointers. It lets a sanitizer check the arguments that a guard passes.
NO_NULL = " __attribute__((nonnull))"

HEAD = """/* Generated from ploverchaise.h and handles.c by tools/guards.py. */
#define _POSIX_C_SOURCE 200809L
#include "ploverchaise.h"
"""
# Functions of the guards, after the declarations of the proved functions.
HELPERS = """
/* The address of an empty array. It is aligned for all types of the header. */
static uint64_t nothing;
#define NOTHING ((void *)&nothing)

#define IS_ALIGNED(pointer) ((uintptr_t)(pointer) % __alignof__(*(pointer)) == 0)

/* Returns whether two arrays, of the given numbers and sizes of elements, have a common byte. Divides, because a product may overflow. */
static bool overlap(const void *a, size_t size, size_t count, const void *b, size_t other_size, size_t other_count)
{
    uintptr_t from = (uintptr_t)a, other = (uintptr_t)b;
    return count && other_count && (from < other ? (other - from) / size < count : (from - other) / other_size < other_count);
}

/* Returns the byte that is passed for a number. */
static uint8_t byte(uint32_t number)
{
    return number > 255 ? 254 : (uint8_t)number;
}

#define TEXT_OF(number) #number
#define VERSION(major, minor, patch) TEXT_OF(major) "." TEXT_OF(minor) "." TEXT_OF(patch)
const char *moc_version(void)
{
    return VERSION(MOC_VERSION_MAJOR, MOC_VERSION_MINOR, MOC_VERSION_PATCH);
}
"""

# The functions that return the id of a new coverage.
ID_FUNCTIONS = frozenset(["empty", "full", "from_ranges", "from_cells", "from_uniqs", "read_ascii", "read_json", "read_uniq", "union",
                          "intersection", "difference", "symmetric", "complement", "degrade", "share", "map_coverage"])
# The functions that make a text in a store, with a proved function.
TEXT_FUNCTIONS = frozenset(["write_ascii", "write_json", "write_uniq", "describe", "draw"])
# The functions of `handles.c` that guards call in place of a proved function.
WRITTEN = {"store_open": "open_store", "store_close": "close_store", "client_open": "open_client", "client_close": "close_client",
           "text_free": "free_text", "map_begin": "begin_map", "map_join": "join_map", "map_busy_timeout": "set_timeout",
           "map_execute": "execute_line", "map_apply": "apply_line", "map_answer": "replies_of"}
# The functions that open a store with the result of an operation on coverages of two stores, and those that query coverages of two stores,
# each with the proved function that is called on copies of the coverages. They take the locks of their handles.
OPENING = {f"open_{operation}": operation for operation in ("union", "intersection", "difference", "symmetric")}
QUERYING = {f"pair_{query}": query for query in ("count_common", "meets", "covers", "same")}
CALLED_ON_COPIES = {**OPENING, **QUERYING}
WRITTEN |= {**dict.fromkeys(OPENING, "open_result"), **dict.fromkeys(QUERYING, "query_copies")}
# The functions whose result has an id.
RETURNING_ID = ID_FUNCTIONS | {*OPENING}
# The functions that execute a line of commands.
LINES = frozenset(["map_execute", "map_apply"])
# The functions that wait if a part is held.
VERBS = ("add", "remove", "claim", "count", "contains")
WAITING = frozenset(["map_execute", "map_apply", "map_coverage",
                     *(f"map_{verb}{operand}" for verb in VERBS for operand in ("", "_coverage"))])
# The functions that need no guard, because they take no pointer.
TEXTS = ("version", "message")
# The proved functions that only `handles.c` calls, or whose guards take other arguments.
PROVED_DECLARATIONS = [f"bool {PROVED}store_open({STORE} *out)", f"void {PROVED}store_close({STORE} store)",
                       f"bool {PROVED}client_open({CLIENT} *out)", f"void {PROVED}client_close({CLIENT} client)",
                       f"{RESULT} {PROVED}text({STORE} *store, uint8_t *out, size_t length)",
                       f"{RESULT} {PROVED}map_answer({CLIENT} *client, uint8_t *out, size_t length)"]
# The functions of the header without a proved function.
UNPROVED = frozenset([*TEXTS, "text_free", "map_execute", "map_busy_timeout", *CALLED_ON_COPIES])

# The other parts of the header: comments, preprocessor lines, types, and the braces for C++.
OTHER_PARTS = [re.compile(r"/\*.*?\*/", re.DOTALL), re.compile(r"^#.*", re.MULTILINE),
               re.compile(r"^(?:typedef struct \w+|enum) \{[^{}]*\}[^{};]*;", re.MULTILINE),
               re.compile(r'^(?:extern "C" \{|\})$', re.MULTILINE)]
FUNCTION = re.compile(r"^(?:MOC_CHECKED )?(const char \*|\w+ )moc_(\w+)\(([^;{}]*)\);", re.MULTILINE)

# The arguments that a guard can check.
NUMBER = re.compile(r"(uint\d+_t) (\w+)")
POINTER_TO_HANDLE = re.compile(rf"(const )?({STORE}|{CLIENT}) \*(\w+)")
POINTER_TO_TEXT = re.compile(rf"{TEXT} \*(\w+)")
ARRAY = re.compile(rf"(const )?(?!void |{STORE} |{CLIENT} |{TEXT} )(\w+) (?:\*(\w+)|\(\*(\w+)\)\[\d+\])")
LENGTH = re.compile(r"size_t (\w+)")
# The names of the arguments that are ids, and of the store that a function opens.
IDS = ("a", "b")
OPENED = "out"


class Function(NamedTuple):
    """A function of the header.

    Attributes
    ----------
    result : str
        The type of its result.
    name : str
        Its name without `moc_`.
    arguments : list of str
        The declarations of its arguments.
    """

    result: str
    name: str
    arguments: list[str]

    def handles(self) -> list[tuple[str, str]]:
        """Returns the member of a handle, `store` or `client`, and the name of each argument that is an open handle."""
        matches = map(POINTER_TO_HANDLE.fullmatch, self.arguments)
        return [(match[2].removeprefix("moc_"), match[3]) for match in matches if match and not self.opens(match[3])]

    def opens(self, name: str) -> bool:
        """Returns whether an argument is the handle of a store that the function opens for its result."""
        return self.name in OPENING and name == OPENED

    def ids(self) -> list[str]:
        """Returns the names of the arguments that are ids."""
        return [name for name in IDS if f"uint64_t {name}" in self.arguments]

    def stores(self) -> list[str]:
        """Returns the name in a guard of each argument that is a store. Ids are of the first one, and a new coverage is in the last one."""
        return [f"{name}_handle" for kind, name in self.handles() if kind == "store"]


class Pointer(NamedTuple):
    """A pointer argument of a function.

    Attributes
    ----------
    place : int
        The number of the argument, from 0.
    name : str
        Its name.
    length : str
        The name of the argument that has the length of the array, or an empty text if the argument is a pointer to a handle or a text.
    is_read : bool
        Whether the function only reads what is at the pointer.
    is_bytes : bool
        Whether the elements are bytes, which need no alignment.
    handle : str
        The type of the open handle, or an empty text.
    zero : str
        The value of what the function makes if it fails, or an empty text if the pointer is to something else than what it makes.
    """

    place: int
    name: str
    length: str = ""
    is_read: bool = False
    is_bytes: bool = False
    handle: str = ""
    zero: str = ""

    def null_condition(self) -> str:
        """Returns the condition in C that the pointer is null."""
        if self.length:
            return f"!{self.name} && {self.length}"
        return f"!{self.name} || (IS_ALIGNED({self.name}) && !{self.name}->at)" if self.handle else f"!{self.name}"

    def misaligned_condition(self) -> str:
        """Returns the condition in C that the pointer is not aligned."""
        return f"{self.length} && !IS_ALIGNED({self.name})" if self.length else f"!IS_ALIGNED({self.name})"

    def overlap_condition(self, other: Pointer) -> str:
        """Returns the condition in C that two arguments have a common byte, or are the same handle."""
        extents = (f"{pointer.name}, sizeof *{pointer.name}, {pointer.length or 1}" for pointer in (self, other))
        same = f" || {self.name}->at == {other.name}->at" if self.handle and self.handle == other.handle else ""
        return f"overlap({', '.join(extents)}){same}"


def parse_header(header: str) -> list[Function]:
    """Returns the functions of the header. Raises ValueError for any part that it cannot parse."""
    for part in OTHER_PARTS:
        header = part.sub("", header)
    rest = FUNCTION.sub("", header).strip()
    if rest:
        raise ValueError(f"ploverchaise.h has a part that is not a function: {rest}")
    return [Function(result.strip(), name, [" ".join(argument.split()) for argument in arguments.split(",")])
            for result, name, arguments in FUNCTION.findall(header)]


def parse_arguments(function: Function) -> tuple[list[Pointer], list[str]]:
    """Returns the pointers of a function with a result, and the arguments that the guard passes on."""
    pointers, passed = [], []
    is_written = function.name in WRITTEN
    ids, stores = function.ids(), function.stores()
    places = iter(enumerate(function.arguments))
    for place, argument in places:
        if match := NUMBER.fullmatch(argument):
            if match[2] in ids and not is_written:
                passed.append(f"proved_id({stores[0]}, {match[2]})")
            else:
                passed.append(f"byte({match[2]})" if match[1] == "uint32_t" and match[2] != "milliseconds" else match[2])
        elif (match := POINTER_TO_HANDLE.fullmatch(argument)) and function.opens(match[3]):
            pointers.append(Pointer(place, match[3], zero=f"({STORE}){{NULL}}"))
            passed.append(match[3])
        elif match:
            pointers.append(Pointer(place, match[3], is_read=bool(match[1]), handle=match[2]))
            passed.append(f"{match[3]}_handle" if is_written else f"&{match[3]}_handle->proved.{match[2].removeprefix('moc_')}")
        elif match := POINTER_TO_TEXT.fullmatch(argument):
            pointers.append(Pointer(place, match[1], zero=f"({TEXT}){{NULL, 0}}"))
            passed += [match[1]] if is_written else []
        elif match := ARRAY.fullmatch(argument):
            array, length = match[3] or match[4], LENGTH.fullmatch(next(places, (0, ""))[1])
            if length is None:
                raise ValueError(f"moc_{function.name}: no length follows {argument}")
            pointers.append(Pointer(place, array, length[1], bool(match[1]), match[2] == "uint8_t"))
            passed += [f"{length[1]} ? {array} : NOTHING", length[1]]
        else:
            raise ValueError(f"moc_{function.name}: a guard cannot check {argument}")
    return pointers, passed


def failures(pointers: list[Pointer]) -> Iterator[tuple[str, str, int]]:
    """Returns the conditions that a guard checks, in their order, each with its code and the number of the argument."""
    yield from ((pointer.null_condition(), "MOC_NULL", pointer.place) for pointer in pointers)
    yield from ((pointer.misaligned_condition(), "MOC_MISALIGNED", pointer.place) for pointer in pointers if not pointer.is_bytes)
    for position, later in enumerate(pointers):
        for earlier in pointers[:position]:
            if not (earlier.is_read and later.is_read):
                yield earlier.overlap_condition(later), "MOC_OVERLAP", later.place


def zero_output(pointers: list[Pointer]) -> list[str]:
    """Returns the lines of a guard that zero the text or the store that the function makes, if the pointer to it is valid."""
    lines = []
    for made in pointers:
        if made.zero:
            overlaps = "".join(f" && !{other.overlap_condition(made)}" for other in pointers if other is not made)
            lines += [f"if ({made.name} && IS_ALIGNED({made.name}){overlaps})", f"    *{made.name} = {made.zero};"]
    return lines


def callee(function: Function) -> str:
    """Returns the name of the function that a guard calls."""
    return WRITTEN.get(function.name, f"{PROVED}{function.name}")


def proved_argument(argument: str) -> str:
    """Returns the declaration of an argument of a proved function. An order is a byte."""
    if POINTER_TO_HANDLE.fullmatch(argument):
        return argument.removeprefix("const ")
    return re.sub(r"^uint32_t (?=\w)", "uint8_t ", argument)


def proved_declaration(function: Function) -> str:
    """Returns the declaration of a proved function."""
    for declaration in PROVED_DECLARATIONS:
        if f" {PROVED}{function.name}(" in declaration:
            return declaration
    arguments = ", ".join(proved_argument(argument) for argument in function.arguments if not POINTER_TO_TEXT.fullmatch(argument))
    return f"{function.result} {PROVED}{function.name}({arguments})"


def proved_declarations(functions: list[Function]) -> list[str]:
    """Returns the declarations of all proved functions."""
    others = [proved_declaration(function) for function in functions if function.name not in UNPROVED]
    return [*PROVED_DECLARATIONS, *(declaration for declaration in others if declaration not in PROVED_DECLARATIONS)]


def call_lines(function: Function, passed: list[str]) -> list[str]:
    """Returns the lines of a guard that enter the handles, call a function and leave the handles. `result` is the result.

    A function that takes the locks of its handles is only called."""
    handles = function.handles()
    names = [f"{name}_handle" for _, name in handles]
    if function.name in CALLED_ON_COPIES:
        return [f"result = {callee(function)}({', '.join([f'{PROVED}{CALLED_ON_COPIES[function.name]}', *passed])});"]
    call = f"{callee(function)}({', '.join(passed)})"
    if function.name in ID_FUNCTIONS:
        call = f"id_result({call}, {function.stores()[-1]})"
    if function.name in TEXT_FUNCTIONS:
        call = f"store_text({call}, {function.stores()[0]}, text)"
    if function.name in WAITING:
        call = f"leaves_out(client_handle, &wait) ? failure(MOC_BUSY, 0) : {call}"
    lines = [f"result = {call};"]
    if len(names) == 1:
        lines = [f"enter({names[0]});", *lines]
    elif names:
        lines = [f"enter_both({', '.join(names)});", *lines]
    if function.name in WAITING:
        lines.append("note_client(&wait, client_handle);")
    return [*lines, *(f"leave({name});" for name in names)]


def tries_before_first(function: Function) -> str:
    """Returns the expression of the number of failed tries after which a call of a map goes first."""
    if "size_t count" in function.arguments:
        return "tries_for(count)"
    return "TRIES_FOR_ONE" if function.name in LINES else "TRIES_FOR_MANY"


def call_of(function: Function, passed: list[str]) -> list[str]:
    """Returns the lines of a guard that compute its result if all pointers are valid."""
    handles = [f"struct handle *{name}_handle = {name}->at;" for _, name in function.handles()]
    lines = call_lines(function, passed)
    if function.name in WAITING:
        body = [f"    {line}" for line in lines]
        lines = [f"struct wait wait = {{.tries_before_first = {tries_before_first(function)}}};",
                 "do {", *body, "} while (result.code == MOC_BUSY && pause_for_retry(&wait));", "end_wait(&wait);"]
    if (ids := function.ids()) and function.name not in WRITTEN:
        store = function.stores()[0]
        place = "second" if function.name in ID_FUNCTIONS else "first"
        wanted = ids[0] if len(ids) == 1 else f"result.{place} == proved_id({store}, {ids[0]}) ? {ids[0]} : {ids[1]}"
        lines += ["if (result.code == MOC_NO_SUCH_SET)", f"    result.{place} = {wanted};"]
    return [*handles, f"{RESULT} result;", *lines, RETURNED]


def guard_body(function: Function) -> list[str]:
    """Returns the lines of the body of a guard. Raises ValueError for a function that a guard cannot check."""
    argument = ", ".join(function.arguments)
    handle, text = POINTER_TO_HANDLE.fullmatch(argument), POINTER_TO_TEXT.fullmatch(argument)
    if function.result == RESULT:
        pointers, passed = parse_arguments(function)
        wrapped = "id_failure({})" if function.name in RETURNING_ID else "{}"
        lines = zero_output(pointers)
        for condition, code, place in failures(pointers):
            lines += [f"if ({condition})", "    return " + wrapped.format(f"failure({code}, {place})") + ";"]
        if not function.handles():
            return [*lines, f"return {callee(function)}({', '.join(passed)});"]
        return [*lines, *call_of(function, passed)]
    if function.result == "bool" and handle and function.name in WRITTEN:
        out = handle[3]
        return [f"if (!{out} || !IS_ALIGNED({out}))", "    return false;", f"{out}->at = NULL;", f"return {callee(function)}({out});"]
    if function.result == "void" and handle and function.name in WRITTEN:
        closed = handle[3]
        return [f"if ({closed} && IS_ALIGNED({closed}) && {closed}->at)", f"    {callee(function)}({closed});"]
    if function.result == "void" and text and function.name in WRITTEN:
        return [f"if ({text[1]} && IS_ALIGNED({text[1]}))", f"    {callee(function)}({text[1]});"]
    raise ValueError(f"moc_{function.name}: a guard cannot return {function.result}")


def guard_source(function: Function) -> str:
    """Returns a guard in C."""
    body = "".join(f"    {line}\n" for line in guard_body(function))
    return f"\n{function.result} moc_{function.name}({', '.join(function.arguments)})\n{{\n{body}}}\n"


def message_source() -> str:
    """Returns the function that returns the meaning of a code, in C."""
    cases = "".join(f'    case MOC_{code.name}:\n        return "{code.meaning}";\n' for code in codes.read_codes() if code.name)
    return ("\nconst char *moc_message(uint32_t code)\n{\n    switch (code) {\n" + cases
            + '    default:\n        return "unknown code";\n    }\n}\n')


def id_source() -> str:
    """Returns the function that puts the position of an error into `second`, in C."""
    pairs = " || ".join(f"code == MOC_{code.name}" for code in codes.read_codes() if len(code.numbers) > 1)
    return (f"\nstatic bool has_two_numbers(uint32_t code)\n{{\n    return {pairs};\n}}\n"
            f"\nstatic {RESULT} id_failure({RESULT} result)\n{{\n    bool is_pair = has_two_numbers(result.code);\n"
            "    result.second = is_pair ? (uint32_t)result.first | result.second << 32 : result.first;\n"
            "    result.first = UINT64_MAX;\n    return result;\n}\n")


def guards_source(functions: list[Function]) -> str:
    """Returns a source in C that has the guards of these functions."""
    with open(HANDLES, encoding="utf-8") as file:
        handles = file.read()
    declarations = "".join(f"{line}{NO_NULL if '*' in line else ''};\n" for line in proved_declarations(functions))
    guards = "".join(guard_source(function) for function in functions if function.name not in TEXTS)
    return "".join([HEAD, "\n", declarations, id_source(), "\n", handles, HELPERS, message_source(), guards])


def main() -> None:
    """Prints the guards of the functions of the header."""
    with open(HEADER, encoding="utf-8") as file:
        sys.stdout.write(guards_source(parse_header(file.read())))


if __name__ == "__main__":
    main()
