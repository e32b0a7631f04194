"""Calls for columns that are kept as whole numbers: numbers, dates, times, spans, some decimals."""
from __future__ import annotations

import builtins
import ctypes
from typing import TYPE_CHECKING, Any, Callable, List, Optional, Tuple

import numpy as np
import numpy.typing as npt

from ._library import (BITS, COLUMN, NotServed, TypesDiffer, bits_for, declare, joined, not_served,
                       refusal, unpacked, windows)
from ._rows import Unfit, build
from ._sources import Table, pair, read, typed
from ._structs import Chunk, Column, address_of, part_of
from ._types import Type
from ._values import named, numbers_of, present_rows

__all__ = ["is_null", "compare", "sum", "min", "max", "min_max", "reduce_and", "reduce_or",
           "reduce_xor", "count_ones", "count_zeros", "leading_ones", "leading_zeros",
           "trailing_ones", "trailing_zeros"]


class Number(ctypes.Structure):
    """A number of 128 bits, or none."""

    _fields_ = [("low", ctypes.c_uint64), ("high", ctypes.c_uint64), ("exists", ctypes.c_uint64)]


NUMBER = ctypes.POINTER(Number)
_is_null = declare("dunkelva_is_null", *COLUMN, *BITS, ctypes.POINTER(ctypes.c_uint64))
_compare = declare("dunkelva_compare", ctypes.c_int, *COLUMN, *COLUMN, *BITS)
_compare_number = declare("dunkelva_compare_number", ctypes.c_int, *COLUMN, NUMBER, *BITS)
_sum = declare("dunkelva_sum", *COLUMN, NUMBER)
_min_max = declare("dunkelva_min_max", *COLUMN, NUMBER, NUMBER)
_reduce_bits = declare("dunkelva_reduce_bits", ctypes.c_int, *COLUMN, NUMBER)
_count_bits = declare("dunkelva_count_bits", ctypes.c_int, *COLUMN, ctypes.c_void_p,
                      ctypes.c_size_t)

_TESTS = ("==", "!=", "<", "<=", ">", ">=")
_AND, _OR, _XOR = range(3)

if TYPE_CHECKING:
    Counts = np.ma.MaskedArray[Any, np.dtype[np.uint32]]
else:
    Counts = np.ma.MaskedArray


def one_column(value: object, what: str) -> Column:
    """Reads a column."""
    source = read(value, what)
    if isinstance(source, Table):
        raise NotServed(f"{what}: it is a table")
    return typed(source, None, what)


def _column(value: object) -> Column:
    return one_column(value, "column")


# Attributes that a DataFrame, a Table or a RecordBatch has, and a column of structs has not.
_OF_TABLES = ("__dataframe__", "columns", "column_names")


def _rows_of(value: object) -> Column:
    """Reads a column. A column of structs is no table here, also if no row is null."""
    source = read(value, "column")
    if not isinstance(source, Table):
        return typed(source, None, "column")
    if source.whole is None or any(hasattr(value, name) for name in _OF_TABLES):
        raise NotServed("column: it is a table")
    return source.whole


def is_one_value(value: object) -> bool:
    """Says whether an argument is one value for all rows, and no column."""
    return isinstance(value, (str, bytes)) or not any(hasattr(value, name) for name in (
        "__len__", "__arrow_c_array__", "__arrow_c_stream__", "__dataframe__"))


def two_columns(left: object, right: object) -> Tuple[Column, Column]:
    """Reads two columns of one type and one length."""
    sides = read(left, "left"), read(right, "right")
    if isinstance(sides[0], Table) or isinstance(sides[1], Table):
        raise NotServed(f"{'left' if isinstance(sides[0], Table) else 'right'} is a table")
    lefts, rights = pair(sides[0], sides[1])
    if lefts.type is not rights.type and lefts.type != rights.type:
        raise TypesDiffer(lefts.type.difference(rights.type) or "the sides differ in type")
    if len(lefts) != len(rights):
        raise TypesDiffer(f"left has {len(lefts)} rows, right has {len(rights)}")
    return lefts, rights


def number_of_value(column: Column, value: object, names: Tuple[str, str]) -> Number:
    """Returns a value as a number of a column. `names` are those of the column and the value."""
    kind = column.type
    is_number = (kind.number() is not None and kind.entries is None and not kind.has_floats()
                 and kind.format != "tiD")
    try:
        kept = build([value], kind) if is_number else None
    except Unfit as error:
        raise TypesDiffer(f"{names[1]}: {error}") from None
    numbers = None if kept is None else numbers_of(kept)
    if kept is None or numbers is None:
        raise not_served(f"{names[0]} is {kind}, which is not served here", kind)
    if not present_rows(kept)[0]:
        raise TypesDiffer(f"{names[1]}: a value for all rows is no null")
    number = int(numbers[0])
    return Number(number & 2 ** 64 - 1, number >> 64 & 2 ** 64 - 1, 1)


def is_null(column: object) -> npt.NDArray[np.bool_]:
    """Finds the null rows of a column.

    Parameters
    ----------
    column : column
        A column of any type that `equal` takes, or of floats. A column of structs is taken whether
        or not a row is null. Tables are refused: DataFrames, dicts, and Arrow objects with
        `__dataframe__`, `columns` or `column_names`.

    Returns
    -------
    numpy.ndarray of bool
        For each row True if the row is null.

    Raises
    ------
    NotServed
        If the argument is a table, or a column of another type.
    BadArray
        If an array breaks the rules of Arrow.

    Examples
    --------
    >>> is_null(["a", None, "c"])
    array([False,  True, False])
    """
    masks = []
    held = _rows_of(column)
    for chunk in held.chunks:
        out = bits_for(len(chunk))
        status = _is_null(chunk.schema, chunk.array, address_of(out), out.size, None)
        if status:
            raise refusal(status, "column", held.type)
        masks.append(unpacked(out, len(chunk)))
    return joined(masks)


def compare(left: object, test: str, right: object) -> npt.NDArray[np.bool_]:
    """Compares two columns of numbers row by row, or each row of a column with one value.

    Parameters
    ----------
    left : column of numbers
        A column of integers of 8 to 64 bits, dates, times, durations, timestamps, intervals of
        months, or decimals of 32 or 64 bits. For other columns, also intervals of days and
        milliseconds, see `equal`.
    test : {"==", "!=", "<", "<=", ">", ">="}
        The comparison. For "==" and "!=" a null is equal only to a null. The other comparisons are
        False if a row is null.
    right : column of numbers, or one value
        A column of the same type and length as `left`, or a value of this type.

    Returns
    -------
    numpy.ndarray of bool
        For each row True if the comparison is true.

    Raises
    ------
    ValueError
        If `test` is none of the six comparisons.
    TypesDiffer
        If the columns differ in type or length, or if the type of `left` has no such value.
    NotServed
        If a side is a table or a column of another type.
    BadArray
        If an array breaks the rules of Arrow.

    Examples
    --------
    >>> compare([1, None, 3], "<", [2, 2, 2])
    array([ True, False, False])
    >>> compare(np.array([1, 2, 3], np.uint8), ">=", 2)
    array([False,  True,  True])
    >>> compare(np.array([1, 2, 3], np.uint8), "<", 300)
    Traceback (most recent call last):
        ...
    dunkelva.TypesDiffer: right: 300 is no uint8
    """
    if test not in _TESTS:
        raise ValueError(f"{test!r} is none of the tests {' '.join(_TESTS)}")
    number = _TESTS.index(test)
    if is_one_value(right):
        return _compare_value(_column(left), number, right)
    lefts, rights = two_columns(left, right)
    masks = []
    for one, first, other, second, rows in windows(lefts, rights):
        out, parts = bits_for(rows), (part_of(one, first, rows), part_of(other, second, rows))
        status = _compare(number, parts[0].schema, parts[0].array, parts[1].schema, parts[1].array,
                          address_of(out), out.size)
        if status:
            raise refusal(status, "left and right", lefts.type)
        masks.append(unpacked(out, rows))
    return joined(masks)


def _compare_value(column: Column, test: int, value: object) -> npt.NDArray[np.bool_]:
    """Compares each row with one value."""
    right = number_of_value(column, value, ("left", "right"))
    masks = []
    for chunk in column.chunks:
        out = bits_for(len(chunk))
        status = _compare_number(test, chunk.schema, chunk.array, ctypes.byref(right),
                                 address_of(out), out.size)
        if status:
            raise refusal(status, "left", column.type)
        masks.append(unpacked(out, len(chunk)))
    return joined(masks)


def _reduced(value: object, call: Any, join: Callable[[int, int], int],
             *before: int) -> Tuple[Type, Optional[int]]:
    """Makes a call for each chunk, and joins the results of chunks with a row that is not null."""
    column = _column(value)
    found: Optional[int] = None
    for chunk in column.chunks:
        number = Number()
        status = call(*before, chunk.schema, chunk.array, ctypes.byref(number))
        if status:
            raise refusal(status, "column", column.type)
        if number.exists:
            new = _as_int(number, column.type)
            found = new if found is None else _wrapped(join(found, new), column.type)
    return column.type, found


def _as_int(number: Number, type: Type) -> int:
    is_unsigned = np.dtype(type.number() or "i8").kind == "u"
    low = int(number.low)
    return low if is_unsigned or low < 2 ** 63 else low - 2 ** 64


def _wrapped(number: int, type: Type) -> int:
    dtype = np.dtype(type.number() or "i8")
    bits: int = 8 * dtype.itemsize
    number %= 1 << bits
    return number if dtype.kind == "u" or number < 1 << bits - 1 else number - (1 << bits)


def sum(column: object) -> Any:
    """Adds all rows of a column that are not null.

    The sum wraps around in the type of the column: in a column of int8 the sum of 100 and 100 is
    -56.

    Parameters
    ----------
    column : column of numbers
        A column of integers of 8 to 64 bits, durations, or decimals of 32 or 64 bits. Dates, times
        of day and timestamps have no sum.

    Returns
    -------
    int, numpy.timedelta64, decimal.Decimal or None
        The sum, or None if all rows are null or there are no rows.

    Raises
    ------
    NotServed
        If the argument is a table or a column of another type.

    Examples
    --------
    >>> sum([1, None, 3])
    4
    >>> sum(np.array([100, 100], np.int8))
    -56
    """
    kind, total = _reduced(column, _sum, lambda one, other: one + other)
    if kind.format[:2] in ("td", "tt", "ts"):
        raise NotServed(f"column is {kind}, which has no sum")
    return None if total is None else named(total, kind.format)


def min_max(column: object) -> Tuple[Any, Any]:
    """Finds the least and the greatest row of a column that are not null.

    Parameters
    ----------
    column : column of numbers
        A column of a type that `compare` takes.

    Returns
    -------
    tuple of two values
        The least and the greatest row, or (None, None) if all rows are null or there are no rows.
        Numbers are Python's, and dates and timestamps are numpy's.

    Raises
    ------
    NotServed
        If the argument is a table or a column of another type.

    Examples
    --------
    >>> min_max([3, None, 1])
    (1, 3)
    >>> min_max(np.array(["2024-02-01", "2024-01-01"], "M8[s]"))[0]
    numpy.datetime64('2024-01-01T00:00:00')
    """
    held = _column(column)
    least, greatest = extremes(held)
    if least is None or greatest is None:
        return None, None
    return named(least, held.type.format), named(greatest, held.type.format)


def extremes(held: Column) -> Tuple[Optional[int], Optional[int]]:
    """Returns the least and the greatest number of a column, or None twice if all are null."""
    lows: List[int] = []
    highs: List[int] = []
    for chunk in held.chunks:
        least, greatest = Number(), Number()
        status = _min_max(chunk.schema, chunk.array, ctypes.byref(least), ctypes.byref(greatest))
        if status:
            raise refusal(status, "column", held.type)
        if least.exists:
            lows.append(_as_int(least, held.type))
            highs.append(_as_int(greatest, held.type))
    if not lows:
        return None, None
    return builtins.min(lows), builtins.max(highs)


def min(column: object) -> Any:
    """Returns the least row that is not null, or None if there is no such row.

    The parameter and the exceptions are those of `min_max`.

    >>> min([3, None, 1])
    1
    """
    return min_max(column)[0]


def max(column: object) -> Any:
    """Returns the greatest row that is not null, or None if there is no such row.

    The parameter and the exceptions are those of `min_max`.

    >>> max([3, None, 1])
    3
    """
    return min_max(column)[1]


def _bits_of(column: object, join: int, by: Callable[[int, int], int]) -> Optional[int]:
    return _reduced(column, _reduce_bits, by, join)[1]


def reduce_and(column: object) -> Optional[int]:
    """Combines all rows that are not null by bitwise and.

    Returns an int, or None if all rows are null or there are no rows. The parameter and the
    exceptions are those of `min_max`.

    >>> reduce_and([6, None, 3])
    2
    """
    return _bits_of(column, _AND, lambda one, other: one & other)


def reduce_or(column: object) -> Optional[int]:
    """Combines all rows that are not null by bitwise or.

    Returns an int, or None if all rows are null or there are no rows. The parameter and the
    exceptions are those of `min_max`.

    >>> reduce_or([6, None, 3])
    7
    """
    return _bits_of(column, _OR, lambda one, other: one | other)


def reduce_xor(column: object) -> Optional[int]:
    """Combines all rows that are not null by bitwise exclusive or.

    Returns an int, or None if all rows are null or there are no rows. The parameter and the
    exceptions are those of `min_max`.

    >>> reduce_xor([6, None, 3])
    5
    """
    return _bits_of(column, _XOR, lambda one, other: one ^ other)


def _counted(value: object, which: int) -> Counts:
    """Counts bits of each row. Null rows are masked."""
    column, counts, nulls = _column(value), [], []
    for chunk in column.chunks:
        out = np.zeros(len(chunk), np.uint32)
        status = _count_bits(which, chunk.schema, chunk.array, address_of(out), out.size)
        if status:
            raise refusal(status, "column", column.type)
        counts.append(out)
        nulls.append(~present_rows(chunk))
    masked: Any = np.ma.MaskedArray
    array: Counts = masked(joined(counts), mask=joined(nulls))
    return array


def count_ones(column: object) -> Counts:
    """Counts the bits of each row that are 1.

    Parameters
    ----------
    column : column of numbers
        A column of a type that `compare` takes.

    Returns
    -------
    numpy.ma.MaskedArray of uint32
        The count of each row. Null rows are masked.

    Raises
    ------
    NotServed
        If the argument is a table or a column of another type.

    Examples
    --------
    >>> count_ones(np.array([0, 7, -1], np.int8)).tolist()
    [0, 3, 8]
    >>> count_ones([5, None]).tolist()
    [2, None]
    """
    return _counted(column, 0)


def count_zeros(column: object) -> Counts:
    """Counts the bits of each row that are 0.

    The parameter, the type of the result and the exceptions are those of `count_ones`.

    >>> count_zeros(np.array([0, 7, -1], np.int8)).tolist()
    [8, 5, 0]
    """
    return _counted(column, 1)


def leading_ones(column: object) -> Counts:
    """Counts the highest bits of each row that are 1, down to the first 0.

    The parameter, the type of the result and the exceptions are those of `count_ones`.

    >>> leading_ones(np.array([0, 7, -4], np.int8)).tolist()
    [0, 0, 6]
    """
    return _counted(column, 2)


def leading_zeros(column: object) -> Counts:
    """Counts the highest bits of each row that are 0, down to the first 1.

    The parameter, the type of the result and the exceptions are those of `count_ones`.

    >>> leading_zeros(np.array([0, 7, -4], np.int8)).tolist()
    [8, 5, 0]
    """
    return _counted(column, 3)


def trailing_ones(column: object) -> Counts:
    """Counts the lowest bits of each row that are 1, up to the first 0.

    The parameter, the type of the result and the exceptions are those of `count_ones`.

    >>> trailing_ones(np.array([0, 7, -4], np.int8)).tolist()
    [0, 3, 0]
    """
    return _counted(column, 4)


def trailing_zeros(column: object) -> Counts:
    """Counts the lowest bits of each row that are 0, up to the first 1.

    The parameter, the type of the result and the exceptions are those of `count_ones`.

    >>> trailing_zeros(np.array([0, 7, -4], np.int8)).tolist()
    [8, 0, 2]
    """
    return _counted(column, 5)
