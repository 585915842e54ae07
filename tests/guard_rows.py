"""Makes the calls with invalid pointers that `tests/c/guards.c` tests, from the functions and types of `ploverchaise.h`.

The functions of the made file check each pointer of each function: null, not aligned, as an empty array at a null pointer, and overlapping
each other pointer unless the call only reads both. Two arrays, or an array and a handle, overlap at the same address, at the first
element, and at the last element. `library.py` makes the file and compiles it with `guards.c`, which has the macros and the memory."""
from __future__ import annotations

import itertools
from collections.abc import Iterator

# The sizes and alignments of the types of elements, and a valid array of each.
SIZES = {"uint8_t": (1, 1), "uint32_t": (4, 4), "uint64_t": (8, 8), "moc_range": (16, 8), "uint64_t[8]": (64, 8), "moc_text": (16, 8),
         "moc_store": (8, 8)}
ARRAYS = {"uint8_t": "at.bytes", "uint32_t": "at.xs", "uint64_t": "at.cells", "moc_range": "at.ranges", "uint64_t[8]": "at.rows"}
# A valid text, and a valid handle of a store that a call opens.
TEXT, VALID_TEXT, VALID_OUTPUT = "moc_text", "&at.text", "&at.opened"
# Of the handles: valid ones, a zeroed one, and one in the memory of `guards.c`, with its offset.
VALID_HANDLES = {"moc_store": ["&store", "&target"], "moc_client": ["&client", "&other"]}
NULL_HANDLES = {"moc_store": "&no_store", "moc_client": "&no_client"}
PLACED_HANDLES = {"moc_store": ("stores + 4", 32), "moc_client": ("clients + 12", 96)}
HANDLE_SIZE = 8
# The number of elements of an array that overlaps, and the offset of one of the two arrays in its memory.
LENGTH, OFFSET = 2, 64

HEAD = """/* Made by guard_rows.py from ploverchaise.h. */
/* Memory for the arrays of a call that do not overlap. */
static uint64_t spare[16][16];
/* The address at an offset of a memory area. No call accesses it. */
#define AT(area, offset) ((void *)((uintptr_t)&(area) + (uintptr_t)(offset)))
"""


class Call:
    """A function of the header, with the types of its arguments.

    Attributes
    ----------
    name : str
        Its name.
    macro : str
        The macro of `guards.c` that checks a call with an invalid pointer.
    types : list of str
        The types of its arguments, without `const` and `*`.
    pointers : list of int
        The numbers of the arguments that are pointers.
    read : set of int
        The numbers of the pointers that the function only reads.
    opened : int or None
        The number of the handle of the store that the function opens.
    """

    def __init__(self, name: str, types: list[str], id_functions: set[str], opening: set[str]) -> None:
        self.name = name
        self.macro = "NO_ID_AT" if name in id_functions else "WRONG_AT"
        self.types = [kind.removeprefix("const ").removesuffix("*") for kind in types]
        self.pointers = [place for place, kind in enumerate(types) if "*" in kind]
        self.read = {place for place, kind in enumerate(types) if kind.startswith("const ")}
        self.opened = len(types) - 1 if name in opening else None

    def is_handle(self, place: int) -> bool:
        """Returns whether an argument is a pointer to an open handle."""
        return self.types[place] in VALID_HANDLES and place != self.opened

    def is_array(self, place: int) -> bool:
        """Returns whether an argument is a pointer with a length."""
        return place in self.pointers and not self.is_handle(place) and self.types[place] != TEXT and place != self.opened

    def text(self, changed: dict[int, str], is_apart: bool = False) -> str:
        """Returns the call in C. Arguments without a text in the dictionary are valid. All arrays have distinct memory if `is_apart`."""
        handles = {kind: iter(names) for kind, names in VALID_HANDLES.items()}
        arguments = []
        for place, kind in enumerate(self.types):
            if self.is_handle(place):
                valid = next(handles[kind])
            elif place == self.opened:
                valid = VALID_OUTPUT
            elif kind == TEXT:
                valid = VALID_TEXT
            elif place in self.pointers:
                valid = f"(void *)spare[{place}]" if is_apart else ARRAYS[kind]
            else:
                valid = "1" if kind == "size_t" else "0"
            arguments.append(changed.get(place, valid))
        return f"{self.name}({', '.join(arguments)})"

    def extent(self, place: int) -> int:
        """Returns the size in bytes of a text, of the handle of a store, or of an array of `LENGTH` elements."""
        size = SIZES[self.types[place]][0]
        return LENGTH * size if self.is_array(place) else size

    def overlap(self, earlier: int, later: int) -> Iterator[dict[int, str]]:
        """Returns the changed arguments of the calls in which two pointers overlap."""
        if self.is_handle(earlier) and self.is_handle(later):
            yield dict.fromkeys((earlier, later), f"(void *)({PLACED_HANDLES[self.types[earlier]][0]})")
            return
        fixed, moved = earlier, later
        if self.is_handle(later) or (not self.is_handle(earlier) and SIZES[self.types[later]][1] > SIZES[self.types[earlier]][1]):
            fixed, moved = later, earlier
        if self.is_handle(fixed):
            area, (name, offset), extent = "handles", PLACED_HANDLES[self.types[fixed]], HANDLE_SIZE
        else:
            area, offset, extent = "numbers", OFFSET, self.extent(fixed)
            name = f"AT(numbers, {offset})"
        alignment = SIZES[self.types[moved]][1]
        lengths = {place + 1: str(LENGTH) for place in (earlier, later) if self.is_array(place)}
        for start in (offset, offset - self.extent(moved) + alignment, offset + extent - alignment):
            yield {**lengths, fixed: name, moved: f"AT({area}, {start})"}


def null_rows(call: Call) -> Iterator[str]:
    """Returns the checks of null pointers and of pointers to zeroed handles."""
    for place in call.pointers:
        for wrong in ["NULL", NULL_HANDLES[call.types[place]]] if call.is_handle(place) else ["NULL"]:
            yield f"{call.macro}(MOC_NULL, {place}, {call.text({place: wrong})});"


def misaligned_rows(call: Call, alignment: int) -> Iterator[str]:
    """Returns the checks of pointers that are not aligned, for types with this alignment."""
    for place in call.pointers:
        if (HANDLE_SIZE if call.is_handle(place) else SIZES[call.types[place]][1]) == alignment:
            yield f"{call.macro}(MOC_MISALIGNED, {place}, {call.text({place: 'misaligned'})});"


def overlap_rows(call: Call) -> Iterator[str]:
    """Returns the checks of pointers that overlap."""
    for earlier, later in itertools.combinations(call.pointers, 2):
        if not {earlier, later} <= call.read:
            for changed in call.overlap(earlier, later):
                yield f"{call.macro}(MOC_OVERLAP, {later}, {call.text(changed, True)});"


def empty_rows(call: Call) -> Iterator[str]:
    """Returns the checks of empty arrays at null pointers."""
    for place in call.pointers:
        if call.is_array(place):
            yield f"VALID({call.text({place: 'NULL', place + 1: '0'}, True)});"


def function(name: str, parameter: str, rows: list[str]) -> str:
    """Returns a function in C."""
    return f"\nstatic void {name}({parameter})\n{{\n" + "".join(f"    {row}\n" for row in rows) + "}\n"


def make_rows(functions: dict[str, list[str]], id_functions: set[str], opening: set[str]) -> str:
    """Returns the checks, as a file in C.

    Parameters
    ----------
    functions : dict of str to list of str
        The functions of the header that return a result, each with the types of its arguments.
    id_functions : set of str
        The functions that return the id of a new coverage.
    opening : set of str
        The functions whose last argument is the handle of a store that they open.
    """
    calls = [Call(name, types, id_functions, opening) for name, types in functions.items()]
    return "".join([HEAD, function("null_pointers", "void", [row for call in calls for row in null_rows(call)]),
                    function("misaligned_pointers", "void *misaligned", [row for call in calls for row in misaligned_rows(call, 8)]),
                    function("misaligned_halves", "void *misaligned", [row for call in calls for row in misaligned_rows(call, 4)]),
                    function("overlapping_pointers", "void", [row for call in calls for row in overlap_rows(call)]),
                    function("empty_arrays_at_null", "void", [row for call in calls for row in empty_rows(call)])])
