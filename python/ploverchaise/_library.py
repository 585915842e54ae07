"""Loads the library with ctypes, and calls its functions.

Each coverage is in a separate store. The library has a lock for each store and each client, and no Python code runs while a lock is held.
A call that may take long uses a copy of the coverage in a temporary store, so that no other call waits for it. A copy shares the ranges of
the coverage.

During a call, ctypes releases the global interpreter lock (GIL), so that other threads of Python run. Only brief calls, which take some
microseconds, keep it. To release it, and to wait until it is free again, would take longer than the call.

The library closes handles and frees texts without Python code. So an exception that a signal handler raises is never lost in a finalizer.

Python runs signal handlers in the main thread, and not during a call of the library. So the main thread passes arrays in pieces, and lets
another thread make calls that may take long.
"""
from __future__ import annotations

import _thread
import ctypes
import os
import threading
from collections.abc import Callable
from ctypes import c_bool
from typing import Any, TypeVar

from ._arrays import Buffer, Input, Output, pieces_of
from ._codes import KINDS, MEMORY, NO_SUCH_CELL, NOT_UNIQ, RANGE_BACKWARDS, RANGE_PIXEL_TOO_LARGE
from ._signatures import CLIENT, CLIENT_CALLS, ID_CALLS, NUMBER_CALLS, STORE, STORE_CALLS, TEXT, ClientHandle, Result, StoreHandle, Text
from .errors import MocError

Value = TypeVar("Value")

NO_ORDER = 255
"""The value of an optional order that is not stated, `MOC_NO_ORDER` in C."""
MAX_BRIEF_RANGES = 200
"""A call is brief if its coverages have at most this number of ranges together."""
# The time in seconds after which another thread that has not begun a call does not make it.
_MAX_START_TIME = 0.2
_NUMBER_ERRORS = (NO_SUCH_CELL, NOT_UNIQ, RANGE_BACKWARDS, RANGE_PIXEL_TOO_LARGE)


def _library_path() -> str:
    """Returns the value of PLOVERCHAISE_LIBRARY if it is set, or the path of the library in this folder.

    Raises ImportError if the variable is not set and the folder has no library."""
    chosen = os.environ.get("PLOVERCHAISE_LIBRARY")
    default = os.path.join(os.path.dirname(os.path.abspath(__file__)), "libploverchaise.so")
    if not chosen and not os.path.exists(default):
        raise ImportError(f"{default} does not exist: run `./moc library` at the top of the repository to prove and build it, or set "
                          "PLOVERCHAISE_LIBRARY to the path of another library")
    return chosen or default


def declare_function(library: ctypes.CDLL, name: str, result: Any, *arguments: Any) -> Callable[..., Any]:
    """Returns the function `moc_NAME` of a library, with the type of its result and the types of its arguments."""
    function: Any = getattr(library, f"moc_{name}")
    function.argtypes, function.restype = arguments, result
    return function  # type: ignore[no-any-return]


class _BriefFunctions(dict[str, Callable[..., Result]]):
    """The functions of a store by their names, as functions that keep the GIL. Each is declared when it is first used."""

    def __missing__(self, name: str) -> Callable[..., Result]:
        self[name] = declare_function(_brief_library, name, Result, STORE, *STORE_CALLS[name])
        return self[name]


class BriefStoreHandle(StoreHandle):
    """A store with few ranges. Its calls are brief."""


library = ctypes.CDLL(_library_path())
# The same library. Calls of its functions keep the GIL.
_brief_library = ctypes.PyDLL(_library_path())
store_functions: dict[str, Callable[..., Result]] = {name: declare_function(library, name, Result, STORE, *types)
                                                     for name, types in STORE_CALLS.items()}
brief_functions = _BriefFunctions()
client_functions = {name: declare_function(library, name, Result, CLIENT, *types) for name, types in CLIENT_CALLS.items()}
number_functions = {name: declare_function(library, name, Result, *types) for name, types in NUMBER_CALLS.items()}
_brief_execute = declare_function(_brief_library, "map_execute", Result, CLIENT, *CLIENT_CALLS["map_execute"])
_store_open = declare_function(_brief_library, "store_open", c_bool, STORE)
_client_open = declare_function(library, "client_open", c_bool, CLIENT)

# Python calls a method of this type with the object, and runs no Python code for it.
_method = ctypes.pythonapi.PyInstanceMethod_New
_method.argtypes, _method.restype = [ctypes.py_object], ctypes.py_object
setattr(StoreHandle, "__del__", _method(declare_function(library, "store_close", None, STORE)))
setattr(BriefStoreHandle, "__del__", _method(declare_function(_brief_library, "store_close", None, STORE)))
setattr(ClientHandle, "__del__", _method(declare_function(library, "client_close", None, CLIENT)))
setattr(Text, "__del__", _method(declare_function(_brief_library, "text_free", None, TEXT)))


def check_result(result: Result, name: str = "") -> Result:
    """Returns the result of the function `moc_NAME` if its code is `OK`.

    If a function that returns an id fails, `second` has the position of the error. Two numbers of a position have 32 bits each in it.

    Raises
    ------
    MemoryError
        If an allocation failed.
    MocError
        For any other error.
    """
    if not result.code:
        return result
    if result.code == MEMORY:
        raise MemoryError("no memory is left for a coverage")
    if name in ID_CALLS:
        if len(KINDS[result.code].place) > 1:
            raise MocError(result.code, result.second & 0xFFFFFFFF, result.second >> 32)
        raise MocError(result.code, result.second, 0)
    raise MocError(result.code, result.first, result.second)


def c_arguments(*arguments: Any) -> list[Any]:
    """Returns the arguments for C: a buffer and bytes become an address and a length. The caller keeps their memory alive."""
    converted: list[Any] = []
    for argument in arguments:
        if type(argument) is Buffer:
            converted += argument[:2]
        elif type(argument) is bytes:
            converted += argument, len(argument)
        else:
            converted.append(argument)
    return converted


def new_handle(range_bound: int) -> StoreHandle:
    """Returns the handle of a store that is not open, for a coverage with at most this number of ranges."""
    return BriefStoreHandle() if range_bound <= MAX_BRIEF_RANGES else StoreHandle()


def open_store(range_bound: int | None = None) -> StoreHandle:
    """Returns a new store. Its calls are brief if its coverages have few ranges together.

    Raises MemoryError if an allocation fails."""
    store = BriefStoreHandle() if range_bound is not None and range_bound <= MAX_BRIEF_RANGES else StoreHandle()
    if not _store_open(store):
        raise MemoryError("no memory is left for a coverage")
    return store


def open_client() -> ClientHandle:
    """Returns a new client without a map. Raises MemoryError if an allocation fails."""
    client = ClientHandle()
    if not _client_open(client):
        raise MemoryError("no memory is left for a client")
    return client


def call_with_store(name: str, store: StoreHandle, *arguments: Any) -> Result:
    """Calls `moc_NAME` with a store and arguments for C, and returns its result. Raises as `check_result`."""
    functions = brief_functions if type(store) is BriefStoreHandle else store_functions
    result = functions[name](store, *arguments)
    return check_result(result, name) if result.code else result


def call_with_client(name: str, client: ClientHandle, *arguments: Any) -> Result:
    """Calls `moc_NAME` with a client, and returns its result. Raises as `check_result`."""
    return check_result(client_functions[name](client, *c_arguments(*arguments)), name)


def execute_briefly(client: ClientHandle, commands: bytes) -> str:
    """Executes a line of a map and keeps the GIL. Returns the replies, with a line feed. Raises as `check_result`."""
    text = Text()
    check_result(_brief_execute(client, commands, len(commands), text), "map_execute")
    return ctypes.string_at(text.bytes or 0, text.length).decode("utf-8")


def call_on_rows(call: Callable[..., Value], order: int | None, rows: slice, numbers: Input, *outputs: Output) -> Value:
    """Returns the value of a call for rows of an input, and of outputs with the same number of rows.

    Parameters
    ----------
    call : callable
        The call. It takes the order, if there is one, and the buffers of the rows.
    order : int or None
        The order of the numbers.
    rows : slice
        The rows.
    numbers : Input
        The input.
    *outputs : Output
        The outputs.

    Raises
    ------
    MocError
        As the call, with the position in the whole input, and with the number and its bounds.
    """
    buffers = [numbers.buffer(rows), *[output.buffer(rows) for output in outputs]]
    try:
        return call(*buffers) if order is None else call(order, *buffers)
    except MocError as error:
        if error.code not in _NUMBER_ERRORS:
            raise
        place = rows.start + error.place[0]
        raise MocError(error.code, place, detail=_describe_number(error.code, numbers.text_of_row(place), order)) from None


def _describe_number(code: int, text: str, order: int | None) -> str:
    """Returns what is wrong with a number or a range that an error is about."""
    if code == NO_SUCH_CELL and order is not None:
        return f"{text} is not a cell of order {order} (0 to {12 * 4**order - 1})"
    return f"{text} is not a NUNIQ number (4 to 2^62 - 1)" if code == NOT_UNIQ else f"({text})"


def convert(name: str, order: int | None, numbers: Input, *outputs: Output) -> None:
    """Calls `moc_NAME`, which takes neither a store nor a client, with all pieces of arrays. Raises as `call_on_rows`."""
    function = number_functions[name]
    for rows in pieces_of(len(numbers)):
        call_on_rows(lambda *arguments: check_result(function(*c_arguments(*arguments)), name), order, rows, numbers, *outputs)


def text_of(call: Callable[..., Result], *arguments: Any) -> str:
    """Returns the text that a call makes. The call takes the arguments, and then the text that it makes. Raises as `call`."""
    text = Text()
    call(*arguments, text)
    return ctypes.string_at(text.bytes or 0, text.length).decode("utf-8")


def run_interruptibly(call: Callable[[], Value]) -> Value:
    """Returns the value of a call that takes long. Raises as the call.

    In the main thread, another thread makes the call, so that signal handlers run meanwhile. If one of them raises an exception, the call
    continues until it ends, and its value is dropped. So the call must only use memory that nothing else changes.
    """
    if threading.current_thread() is not threading.main_thread():
        return call()
    begun, ended = _thread.allocate_lock(), _thread.allocate_lock()
    ended.acquire()
    values: list[Value] = []
    errors: list[BaseException] = []

    def run() -> None:
        if begun.acquire(blocking=False):
            try:
                values.append(call())
            except BaseException as error:
                errors.append(error)
            finally:
                ended.release()

    try:
        _thread.start_new_thread(run, ())
    except (RuntimeError, MemoryError):
        return call()
    # If little memory is left, the other thread may end before it begins the call.
    if not ended.acquire(timeout=_MAX_START_TIME):
        if begun.acquire(blocking=False):
            return call()
        ended.acquire()
    if values:
        return values.pop()
    if errors and not isinstance(errors[0], MemoryError):
        raise errors.pop()
    # This thread has more memory than the other one, if the memory of the process is limited.
    return call()
