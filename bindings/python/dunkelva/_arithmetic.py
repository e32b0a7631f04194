"""Arithmetic on columns of whole numbers."""
from __future__ import annotations

import ctypes
from typing import TYPE_CHECKING, Any, Callable, List, Tuple

import numpy as np
import numpy.typing as npt

from ._library import (BITS, COLUMN, NotServed, TypesDiffer, bits_for, declare, joined, refusal,
                       unpacked, windows)
from ._numbers import NUMBER, is_one_value, number_of_value, one_column, two_columns
from ._structs import address_of, part_of
from ._types import NUMBERS, Type

__all__ = ["add", "subtract", "multiply", "floor_divide", "truncating_divide", "mod", "negative",
           "absolute"]

_RESULTS = (ctypes.c_void_p, ctypes.c_size_t, *BITS, ctypes.POINTER(ctypes.c_uint64))
_arithmetic = declare("dunkelva_arithmetic", ctypes.c_int, *COLUMN, *COLUMN, *_RESULTS)
_arithmetic_number = declare("dunkelva_arithmetic_number", ctypes.c_int, ctypes.c_int, NUMBER,
                             *COLUMN, *_RESULTS)
_sign = declare("dunkelva_sign", ctypes.c_int, *COLUMN, *_RESULTS)

_ADD, _SUBTRACT, _MULTIPLY, _FLOOR_DIVIDE, _TRUNCATING_DIVIDE, _MODULO = range(6)
_LEFT, _RIGHT = range(2)
_NEGATE, _ABSOLUTE = range(2)

if TYPE_CHECKING:
    Results = np.ma.MaskedArray[Any, np.dtype[Any]]
else:
    Results = np.ma.MaskedArray


def _kind_of(type: Type, what: str) -> str:
    """Returns the type of numpy of a column that has arithmetic."""
    if type.entries is not None or type.format not in "csilCSIL":
        raise NotServed(f"{what} is {type}, which has no arithmetic")
    return NUMBERS[type.format]


class _Out:
    """Results of the chunks of a column."""

    def __init__(self, type: Type, what: str):
        self.type, self.what, self.kind = type, what, _kind_of(type, what)
        self.values: List[npt.NDArray[Any]] = []
        self.masks: List[npt.NDArray[np.bool_]] = []
        self.nulls = 0

    def add(self, rows: int, call: Callable[..., int]) -> None:
        """Makes a call that writes results."""
        values, present, nulls = np.empty(rows, self.kind), bits_for(rows), ctypes.c_uint64()
        status = call(address_of(values), rows, address_of(present), present.size,
                      ctypes.byref(nulls))
        if status:
            raise refusal(status, self.what, self.type)
        self.values.append(values)
        self.masks.append(unpacked(np.invert(present, out=present), rows))
        self.nulls += nulls.value

    def joined(self) -> Results:
        """Returns all results."""
        masked: Any = np.ma.MaskedArray
        mask = joined(self.masks) if self.nulls else np.ma.nomask
        array: Results = masked(joined(self.values), mask=mask)
        return array


def _calculated(operation: int, left: object, right: object) -> Results:
    if is_one_value(right):
        return _with_value(operation, _RIGHT, left, right, ("left", "right"))
    if is_one_value(left):
        return _with_value(operation, _LEFT, right, left, ("right", "left"))
    lefts, rights = two_columns(left, right)
    out = _Out(lefts.type, "left and right")
    for one, first, other, second, rows in windows(lefts, rights):
        sides = part_of(one, first, rows), part_of(other, second, rows)
        out.add(rows, lambda *results: int(_arithmetic(
            operation, sides[0].schema, sides[0].array, sides[1].schema, sides[1].array,
            *results)))
    return out.joined()


def _with_value(operation: int, side: int, column: object, value: object,
                names: Tuple[str, str]) -> Results:
    held = one_column(column, names[0])
    out = _Out(held.type, names[0])
    number = number_of_value(held, value, names)
    for chunk in held.chunks:
        out.add(len(chunk), lambda *results: int(_arithmetic_number(
            operation, side, ctypes.byref(number), chunk.schema, chunk.array, *results)))
    return out.joined()


def _changed(sign: int, column: object) -> Results:
    held = one_column(column, "column")
    out = _Out(held.type, "column")
    for chunk in held.chunks:
        out.add(len(chunk), lambda *results: int(_sign(
            sign, chunk.schema, chunk.array, *results)))
    return out.joined()


def add(left: object, right: object) -> Results:
    """Adds two columns row by row, or one value to each row of a column.

    Results have the type of the column and wrap around in it: in columns of int8 100 + 100 is -56.

    Parameters
    ----------
    left, right : column of integers, or one value
        At least one side is a column, of integers of 8 to 64 bits. Two columns need the same type
        and length. A value must be a value of the column's type.

    Returns
    -------
    numpy.ma.MaskedArray
        The sums. A sum is masked if one of the two rows is null.

    Raises
    ------
    TypesDiffer
        If the columns differ in type or length, or if the type of the column has no such value.
    NotServed
        If a side is a table or a column of another type.
    BadArray
        If an array breaks the rules of Arrow.

    Examples
    --------
    >>> add([1, None, 3], [10, 20, 30]).tolist()
    [11, None, 33]
    >>> add(np.array([100, 27], np.int8), 100).tolist()
    [-56, 127]
    >>> add(np.array([1, 2], np.uint8), -1)
    Traceback (most recent call last):
        ...
    dunkelva.TypesDiffer: right: -1 is no uint8
    """
    return _calculated(_ADD, left, right)


def subtract(left: object, right: object) -> Results:
    """Subtracts `right` from `left` row by row.

    Parameters, type of the result and exceptions are those of `add`.

    >>> subtract(np.array([5, 3], np.uint8), np.array([3, 5], np.uint8)).tolist()
    [2, 254]
    >>> subtract(10, [1, None]).tolist()
    [9, None]
    """
    return _calculated(_SUBTRACT, left, right)


def multiply(left: object, right: object) -> Results:
    """Multiplies `left` by `right` row by row.

    Parameters, type of the result and exceptions are those of `add`.

    >>> multiply([2, 3], [4, None]).tolist()
    [8, None]
    """
    return _calculated(_MULTIPLY, left, right)


def floor_divide(left: object, right: object) -> Results:
    """Divides `left` by `right` row by row, and rounds the quotients down.

    A quotient is also masked if the divisor is 0. Parameters, type of the result and exceptions are
    those of `add`.

    >>> floor_divide([7, -7, 7], [2, 2, 0]).tolist()
    [3, -4, None]
    """
    return _calculated(_FLOOR_DIVIDE, left, right)


def truncating_divide(left: object, right: object) -> Results:
    """Divides `left` by `right` row by row, and rounds the quotients toward 0.

    A quotient is also masked if the divisor is 0. Parameters, type of the result and exceptions are
    those of `add`.

    >>> truncating_divide([7, -7, 7], [2, 2, 0]).tolist()
    [3, -3, None]
    """
    return _calculated(_TRUNCATING_DIVIDE, left, right)


def mod(left: object, right: object) -> Results:
    """Returns the remainders of the division by `floor_divide`, row by row.

    A remainder is 0 or has the sign of the divisor, as with Python's `%`. A remainder is also
    masked if the divisor is 0. Parameters, type of the result and exceptions are those of `add`.

    >>> mod([7, -7, 7], 3).tolist()
    [1, 2, 1]
    >>> mod(7, [3, -3, 0]).tolist()
    [1, -2, None]
    """
    return _calculated(_MODULO, left, right)


def negative(column: object) -> Results:
    """Negates each row of a column of integers.

    Results wrap around in the type of the column: in a column of int8 the negative of -128 is -128.

    Parameters
    ----------
    column : column of integers
        A column of integers of 8 to 64 bits.

    Returns
    -------
    numpy.ma.MaskedArray
        The negated rows. Null rows are masked.

    Raises
    ------
    NotServed
        If the argument is a table or a column of another type.

    Examples
    --------
    >>> negative(np.array([1, -128], np.int8)).tolist()
    [-1, -128]
    """
    return _changed(_NEGATE, column)


def absolute(column: object) -> Results:
    """Returns the absolute value of each row of a column of integers.

    Results wrap around in the type of the column: in a column of int8 the absolute value of -128 is
    -128. The parameter, the type of the result and the exceptions are those of `negative`.

    >>> absolute([-3, None, 3]).tolist()
    [3, None, 3]
    """
    return _changed(_ABSOLUTE, column)
