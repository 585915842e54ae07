"""The exception for invalid arguments, and the check of orders."""
from __future__ import annotations

import operator
from typing import SupportsIndex

from ._codes import KINDS, NO_SUCH_ORDER, TOO_COARSE


class MocError(ValueError):
    """An error that the library reports, such as an invalid text, number or order.

    Attributes
    ----------
    code : int
        The code of the error in `ploverchaise.h`.
    name : str
        The name of the error. If the program `moc` reports the error too, it prints this name.
    place : tuple of int
        The position of the first error, or the numbers that the error is about. Empty for some errors.

        - In an ASCII text, it is the position of a byte, from 0.
        - In a list of NUNIQ numbers, it is the number of a line, from 1.
        - In JSON, it is the position of the name, in byte order of the names, and the position of the item in its array. Both count from 0.
        - In an argument with numbers or ranges, it is the position of the number or range, from 0. An array with several axes is flattened.
        - For `NoSuchOrder` it is the order, and for `Busy` the base pixel and the number of the other client.

    detail : str
        The value and its bounds, the quoted part of a text with what must be there, or what a text looks like. Empty for some errors.

    Examples
    --------
    >>> from ploverchaise import MOC, MocError
    >>> try:
    ...     MOC.from_healpix_cells([5, 48], 1)
    ... except MocError as error:
    ...     print(error.name, error.place, error.detail)
    NoSuchCell (1,) 48 is not a cell of order 1 (0 to 47)
    """

    def __init__(self, code: int, *numbers: int, detail: str = "") -> None:
        kind = KINDS[code]
        self.code, self.name, self.place, self.detail = code, kind.name, numbers[:len(kind.place)], detail
        position = ", ".join(f"{word} {number}" for word, number in zip(kind.place, self.place))
        super().__init__(f"{kind.name}: {kind.meaning}" + (f" ({position})" if position else "") + (f": {detail}" if detail else ""))
        self._numbers = numbers

    def _with_detail(self, detail: str) -> MocError:
        """Returns the same error with another detail."""
        return MocError(self.code, *self._numbers, detail=detail)

    def __reduce__(self) -> tuple[object, ...]:
        return _error, (self.code, self._numbers, self.detail)


def _error(code: int, numbers: tuple[int, ...], detail: str) -> MocError:
    """Returns an error that was pickled."""
    return MocError(code, *numbers, detail=detail)


def check_order(order: SupportsIndex) -> int:
    """Returns an order as an int. Raises MocError `NoSuchOrder` if it is not 0 to 29, and TypeError if it is not an integer."""
    order = operator.index(order)
    if not 0 <= order <= 29:
        raise MocError(NO_SUCH_ORDER, order)
    return order


def too_coarse(order: int, deepest: int) -> MocError:
    """Returns the error for an order that is not as deep as the deepest cells."""
    return MocError(TOO_COARSE, detail=f"the order is {order}, and the deepest cells have order {deepest}")
