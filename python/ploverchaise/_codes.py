"""The codes of results. Made by `tools/codes.py` from `crates/moc_c/include/codes.tsv`."""
from __future__ import annotations

from typing import NamedTuple


class Kind(NamedTuple):
    """A kind of error: its name, its meaning, and what the numbers of its position count."""

    name: str
    meaning: str
    place: tuple[str, ...] = ()


OK = 0
MEMORY = 1
BUFFER_TOO_SHORT = 2
NO_SUCH_SET = 3
NO_SUCH_ORDER = 4
LENGTHS_DIFFER = 5
NO_SUCH_CELL = 6
NOT_UNIQ = 7
TOO_COARSE = 8
NULL = 9
ASCII_BAD_BYTE = 10
ASCII_NO_ORDER = 11
ASCII_ORDER_TOO_LARGE = 12
ASCII_CELL_TOO_LARGE = 13
ASCII_BACKWARDS = 14
ASCII_UNFINISHED = 15
JSON_NOT_JSON = 20
JSON_NOT_OBJECT = 21
JSON_BAD_ORDER = 22
JSON_NOT_ARRAY = 23
JSON_NOT_WHOLE = 24
JSON_CELL_TOO_LARGE = 25
UNIQ_BAD_BYTE = 30
UNIQ_NOT_UNIQ = 31
RANGE_BACKWARDS = 40
RANGE_PIXEL_TOO_LARGE = 41
LINE_UNKNOWN_WORD = 50
LINE_EMPTY_COMMAND = 51
LINE_TOO_MANY_COMMANDS = 52
LINE_WRONG_COUNT = 53
LINE_BAD_NUMBER = 54
LINE_ORDER_TOO_LARGE = 55
LINE_CELL_TOO_LARGE = 56
LINE_BAD_BYTE = 57
LINE_NO_ORDER = 58
LINE_BACKWARDS = 59
LINE_UNFINISHED = 60
LINE_CLIENT_TOO_LARGE = 61
LINE_PART_TOO_LARGE = 62
NO_MAP = 70
CLIENT_IN_USE = 71
BAD_COUNT = 72
NO_CLIENT = 73
BUSY = 74
MISALIGNED = 80
OVERLAP = 81

# The kinds of errors by their codes. An allocation failure is Python's MemoryError.
KINDS = {
    BUFFER_TOO_SHORT: Kind("BufferTooShort", "the buffer is too short", ("wanted",)),
    NO_SUCH_SET: Kind("NoSuchSet", "no set has the id, or the set was freed", ("key",)),
    NO_SUCH_ORDER: Kind("NoSuchOrder", "the order is not 0 to 29", ("order",)),
    LENGTHS_DIFFER: Kind("LengthsDiffer", "two arrays that belong together differ in length"),
    NO_SUCH_CELL: Kind("NoSuchCell", "a number is not the number of a cell of the order", ("place",)),
    NOT_UNIQ: Kind("NotUniq", "a number is not a NUNIQ number", ("place",)),
    TOO_COARSE: Kind("TooCoarse", "a cell of the set is deeper than the stated order"),
    NULL: Kind("Null", "a pointer is null", ("argument",)),
    ASCII_BAD_BYTE: Kind("BadByte", "a byte is not allowed there", ("byte",)),
    ASCII_NO_ORDER: Kind("NoOrder", "a cell has no order before it", ("byte",)),
    ASCII_ORDER_TOO_LARGE: Kind("OrderTooLarge", "an order is above 29", ("byte",)),
    ASCII_CELL_TOO_LARGE: Kind("CellTooLarge", "a number is not the number of a cell of its order", ("byte",)),
    ASCII_BACKWARDS: Kind("Backwards", "the last cell of a range is before its first cell", ("byte",)),
    ASCII_UNFINISHED: Kind("Unfinished", "a word is incomplete", ("byte",)),
    JSON_NOT_JSON: Kind("NotJson", "the text is not valid JSON"),
    JSON_NOT_OBJECT: Kind("NotObject", "the value is not an object"),
    JSON_BAD_ORDER: Kind("BadOrder", "a name is not an order from 0 to 29", ("name",)),
    JSON_NOT_ARRAY: Kind("NotArray", "the value of a name is not an array", ("name",)),
    JSON_NOT_WHOLE: Kind("NotWhole", "an item is not an unsigned integer of 64 bits", ("name", "item")),
    JSON_CELL_TOO_LARGE: Kind("CellTooLarge", "an item is not the number of a cell of its order", ("name", "item")),
    UNIQ_BAD_BYTE: Kind("BadByte", "a byte is not a digit", ("line",)),
    UNIQ_NOT_UNIQ: Kind("NotUniq", "a number is not a NUNIQ number", ("line",)),
    RANGE_BACKWARDS: Kind("Backwards", "the end of a range is before its start", ("place",)),
    RANGE_PIXEL_TOO_LARGE: Kind("PixelTooLarge", "the end of a range is above 12 * 4^29", ("place",)),
    LINE_UNKNOWN_WORD: Kind("UnknownWord", "the first word is not a command", ("command", "byte")),
    LINE_EMPTY_COMMAND: Kind("EmptyCommand", "a command is blank", ("command", "byte")),
    LINE_TOO_MANY_COMMANDS: Kind("TooManyCommands", "the line has more than 16 commands", ("command", "byte")),
    LINE_WRONG_COUNT: Kind("WrongCount", "a command has too many or too few fields", ("command", "byte")),
    LINE_BAD_NUMBER: Kind("BadNumber", "a field is not a number", ("command", "byte")),
    LINE_ORDER_TOO_LARGE: Kind("OrderTooLarge", "an order is above 29", ("command", "byte")),
    LINE_CELL_TOO_LARGE: Kind("CellTooLarge", "a number is not the number of a cell of its order", ("command", "byte")),
    LINE_BAD_BYTE: Kind("BadByte", "a byte of a coverage is not allowed there", ("command", "byte")),
    LINE_NO_ORDER: Kind("NoOrder", "a cell has no order before it", ("command", "byte")),
    LINE_BACKWARDS: Kind("Backwards", "the last cell of a range is before its first cell", ("command", "byte")),
    LINE_UNFINISHED: Kind("Unfinished", "a word of a coverage is incomplete", ("command", "byte")),
    LINE_CLIENT_TOO_LARGE: Kind("ClientTooLarge", "a client number of a schedule is above 4294967295"),
    LINE_PART_TOO_LARGE: Kind("PartTooLarge", "a part number of a schedule is above 11"),
    NO_MAP: Kind("NoMap", "the client has no map"),
    CLIENT_IN_USE: Kind("ClientInUse", "the client has a map already"),
    BAD_COUNT: Kind("BadCount", "the number of clients is not 1 to 64", ("clients",)),
    NO_CLIENT: Kind("NoClient", "no further client can join the map"),
    BUSY: Kind("Busy", "another client holds a part of the map", ("part", "client")),
    MISALIGNED: Kind("Misaligned", "a pointer is not aligned for its type", ("argument",)),
    OVERLAP: Kind("Overlap", "what the call writes overlaps another argument", ("argument",)),
}
