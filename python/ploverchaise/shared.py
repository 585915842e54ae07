"""A set of pixels that threads change and query at the same time."""
from __future__ import annotations

import math
import operator
import re
import time
from functools import partial
from typing import Callable, TypeVar

from ._codes import BUSY
from ._library import call_with_client, call_with_store, execute_briefly, open_client, open_store, text_of
from ._signatures import ClientHandle
from .errors import MocError
from .moc import MOC, _check_moc

Value = TypeVar("Value")

# For how many milliseconds a try waits in the library for a part that another client holds. Signal handlers run between two tries.
_TRY_MILLISECONDS = 20
# A line that takes some microseconds on any map: a query with a short operand, or another command on one cell.
_BRIEF_LINE = re.compile(rb"[ \t]*(?:(?:count|near)[ \t][^;]{1,40}|(?:add|remove|claim)[ \t]+[0-9]{1,2}/[0-9]+[ \t]*)")
# The pause between two tries, in seconds.
_PAUSE = 20e-6
# The time that calls with a client wait in the library, if it is not known.
_UNKNOWN = -1


def _may_repeat(error: MocError, ends: float) -> bool:
    """Returns whether a call with this error may be made again, if the time for it ends at `ends`."""
    return error.code == BUSY and time.monotonic() < ends


class MapClient:
    """A client of a `SharedMap`, which `SharedMap.client` creates.

    Any thread may use a client, but calls of one client wait for each other. Calls of different clients run in parallel if they touch
    different base pixels.

    Attributes
    ----------
    number : int
        The number of the client, from 0. A `Busy` error has the number of the other client.

    Examples
    --------
    >>> client = SharedMap().client()
    >>> client.apply("claim 9/0-6 ; claim 9/6-9")
    'claimed ; taken 1099511627776'
    """

    __slots__ = ("number", "_handle", "_milliseconds")
    number: int
    _handle: ClientHandle
    _milliseconds: int

    def __init__(self) -> None:
        raise TypeError("use SharedMap.client to create a client")

    @classmethod
    def _create(cls, attach: Callable[[ClientHandle], int]) -> MapClient:
        """Returns a client with a new handle. `attach` makes the handle a client of a map, and returns its number."""
        client = cls.__new__(cls)
        client._handle = open_client()
        client.number = attach(client._handle)
        client._milliseconds = 0
        return client

    def _set_timeout(self, milliseconds: int) -> None:
        """Sets for how long later calls of the library with the client wait for parts."""
        call_with_client("map_busy_timeout", self._handle, milliseconds)
        self._milliseconds = milliseconds

    def apply(self, line: str | bytes, timeout: float | None = None) -> str:
        """Executes a line of commands as one atomic step, and returns the replies.

        If another client holds a base pixel that the commands touch, the call waits until the timeout has passed. Other threads run
        meanwhile. A call that has waited usually goes before calls that begin later. If several threads use the client with different
        timeouts, a call may wait up to 20 milliseconds longer.

        Parameters
        ----------
        line : str or bytes
            The commands of `moc run`, separated by `;`.
        timeout : float, optional
            The number of seconds after which the call does not try again. With 0 it tries once, and without a timeout it tries until it
            succeeds.

        Returns
        -------
        str
            The replies, as `moc run` prints them, without a line feed.

        Raises
        ------
        MocError
            `Busy` with the base pixel and the number of the client that holds it, if the timeout has passed. `UnknownWord`, `EmptyCommand`,
            `TooManyCommands`, `WrongCount`, `BadNumber`, `OrderTooLarge`, `CellTooLarge`, `BadByte`, `NoOrder`, `Backwards` or `Unfinished`
            for an invalid line. The set is then unchanged.
        MemoryError
            If an allocation fails. Either the set is unchanged, or the line was executed and `answer` returns its replies.
        TypeError
            If the line is neither a str nor a bytes-like object.

        Examples
        --------
        >>> SharedMap(MOC.from_string("0/0")).client().apply("count 0/0 ; near 0 4", timeout=0.5)
        'total 288230376151711744 ; near yes'
        """
        commands = line.encode() if isinstance(line, str) else bytes(memoryview(line))
        call = partial(text_of, call_with_client, "map_execute", self._handle, commands)
        first = partial(execute_briefly, self._handle, commands) if _BRIEF_LINE.fullmatch(commands) else None
        return self._wait(call, timeout, first).removesuffix("\n")

    def answer(self) -> str:
        """Returns the replies to the last line that this client executed, or an empty str before the first line.

        Examples
        --------
        >>> client = SharedMap().client()
        >>> client.apply("add 29/3-4")
        'changed 2'
        >>> client.answer()
        'changed 2'
        """
        return text_of(call_with_client, "map_answer", self._handle).removesuffix("\n")

    def moc(self, timeout: float | None = None) -> MOC:
        """Returns the set of the map as a MOC.

        Parameters
        ----------
        timeout : float, optional
            The number of seconds after which the call does not try again, as in `apply`.

        Raises
        ------
        MocError
            `Busy` if another client holds a base pixel and the timeout has passed.
        MemoryError
            If an allocation fails.

        Examples
        --------
        >>> client = SharedMap(MOC.from_string("0/0")).client()
        >>> client.apply("add 1/4")
        'changed 72057594037927936'
        >>> print(client.moc())
        0/0 1/4
        """
        store = open_store()
        coverage_id = self._wait(partial(call_with_client, "map_coverage", self._handle, store), timeout).first
        return MOC._in_store(store, coverage_id, call_with_store("range_count", store, coverage_id).first)

    def _wait(self, call: Callable[[], Value], timeout: float | None, first: Callable[[], Value] | None = None) -> Value:
        """Returns the value of a call with the client. Repeats the call if it raises MocError `Busy` and the timeout has not passed.

        The first try can be another call, which does not wait in the library and keeps the GIL."""
        if timeout is not None and math.isnan(timeout):
            raise ValueError("the timeout is not a number")
        ends = math.inf if timeout is None else time.monotonic() + timeout
        if first:
            try:
                return self._try_for(0, first)
            except MocError as error:
                if not _may_repeat(error, ends):
                    raise
        while True:
            left = math.inf if timeout is None else 1000 * max(0.0, ends - time.monotonic())
            try:
                return self._try_for(_TRY_MILLISECONDS if left >= _TRY_MILLISECONDS else math.ceil(left), call)
            except MocError as error:
                if not _may_repeat(error, ends):
                    raise
            # Another thread that uses the client may have set another time.
            self._milliseconds = _UNKNOWN
            time.sleep(_PAUSE)

    def _try_for(self, milliseconds: int, call: Callable[[], Value]) -> Value:
        """Returns the value of a call with the client that waits in the library for at most this time."""
        if self._milliseconds != milliseconds:
            self._set_timeout(milliseconds)
        return call()


class SharedMap:
    """A set of pixels that threads change and query at the same time. Each thread uses a separate client.

    The map has no lock for the whole set: a client holds the base pixels that its line touches. Each finished line is the last one of one
    sequential history. The history begins with all lines that the client had seen, and each reply in it is that of one single set.

    A client that is garbage-collected is closed, and `client` can create another one with its number.

    Parameters
    ----------
    start : MOC, optional
        The initial set. Without it, the map begins with the empty set.
    clients : int
        The number of clients that can exist at the same time, 1 to 63.

    Raises
    ------
    ValueError
        If `clients` is not 1 to 63.
    MemoryError
        If an allocation fails.

    Examples
    --------
    >>> shared = SharedMap(MOC.from_string("0/0"), clients=4)
    >>> shared.client().apply("remove 1/3")
    'changed 72057594037927936'
    >>> print(shared.moc())
    1/0-2
    """

    __slots__ = ("_client",)

    def __init__(self, start: MOC | None = None, clients: int = 8) -> None:
        clients = operator.index(clients)
        if not 1 <= clients <= 63:
            raise ValueError(f"clients must be 1 to 63, not {clients}")
        initial = MOC() if start is None else _check_moc(start)
        store = open_store()
        copied = initial._copy_to(store)
        self._client = MapClient._create(lambda handle: call_with_client("map_begin", handle, store, copied, clients + 1).first)

    def client(self) -> MapClient:
        """Returns a new client of the map.

        Raises
        ------
        MocError
            `NoClient` if as many clients exist as the map can have.
        MemoryError
            If an allocation fails.

        Examples
        --------
        >>> shared = SharedMap(clients=2)
        >>> sorted(client.number for client in (shared.client(), shared.client()))
        [0, 1]
        """
        return MapClient._create(lambda handle: call_with_client("map_join", self._client._handle, handle).first)

    def apply(self, line: str | bytes, timeout: float | None = None) -> str:
        """Executes a line as `MapClient.apply`, with a client that the map keeps for these calls. They wait for each other.

        Examples
        --------
        >>> SharedMap(MOC.full()).apply("count 0/0")
        'total 288230376151711744'
        """
        return self._client.apply(line, timeout)

    def moc(self, timeout: float | None = None) -> MOC:
        """Returns the set of the map as `MapClient.moc`, with the client that the map keeps.

        Examples
        --------
        >>> print(SharedMap(MOC.from_string("0/0-3")).moc())
        0/0-3
        """
        return self._client.moc(timeout)
