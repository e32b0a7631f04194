"""Compares columns and tables row by row, with kernels that are proved.

>>> equal([1, None, 3], [1, None, 4])
array([ True,  True, False])

A column is one of these objects:

- a numpy array, which can be masked;
- a Series, an Index or an array of pandas;
- a list or tuple of Python values, in which None is a null;
- an object with `__arrow_c_array__` or `__arrow_c_stream__`, such as a column of pyarrow, polars or
  duckdb.

A table is one of these objects:

- a DataFrame of pandas, whose index is not compared;
- a dict of columns;
- an object with `__arrow_c_array__`, `__arrow_c_stream__` or `__dataframe__`, such as a table of
  pyarrow, polars or duckdb.

A null is equal only to a null. Lists are compared item by item, structs field by field, and
dictionaries (categories) by the entries that their keys name.
"""
from __future__ import annotations

import numpy as np
import numpy.typing as npt

from ._arithmetic import (absolute, add, floor_divide, mod, multiply, negative, subtract,
                          truncating_divide)
from ._diff import Diff, Difference, assert_equal, diff
from ._library import (CHECK_TEXTS, FLOATS_BY_BITS, VERSION, BadArray, DunkelvaError, NotServed,
                       OutOfRange, TypesDiffer)
from ._library import compare as _compare
from ._numbers import (compare, count_ones, count_zeros, is_null, leading_ones, leading_zeros, max,
                       min, min_max, reduce_and, reduce_or, reduce_xor, sum, trailing_ones,
                       trailing_zeros)
from ._plain import equal_plain
from ._sources import Table, as_rows, pair, pair_rows, read, refuse_unread
from ._unique import Unique, n_unique, unique

__all__ = ["equal", "not_equal", "assert_equal", "diff", "Diff", "Difference",
           "is_null", "compare", "sum", "min", "max", "min_max", "reduce_and", "reduce_or",
           "reduce_xor", "count_ones", "count_zeros", "leading_ones", "leading_zeros",
           "trailing_ones", "trailing_zeros",
           "add", "subtract", "multiply", "floor_divide", "truncating_divide", "mod", "negative",
           "absolute",
           "unique", "n_unique", "Unique",
           "DunkelvaError", "TypesDiffer", "BadArray", "NotServed", "OutOfRange", "__version__"]
__version__ = VERSION


def equal(left: object, right: object, *, floats_by_bits: bool = False,
          check_texts: bool = False) -> npt.NDArray[np.bool_]:
    """Compares two columns or two tables row by row.

    A null is equal only to a null. The columns of two tables are matched by name, in any order, and
    two rows are equal if all their cells are equal. Rows that are structs are compared like tables,
    whether or not a row is null: their fields are matched by name. Structs inside of rows, such as
    the items of lists, need the same fields in the same order.

    Parameters
    ----------
    left, right : column or table
        Both sides need the same type and the same number of rows. The package's documentation says
        which objects are columns and tables. A list takes the type of the other side.
    floats_by_bits : bool
        If True, floats are compared by their bits: a NaN is equal to a NaN with the same bits, and
        -0.0 is not equal to 0.0. If False, floats are refused.
    check_texts : bool
        If True, texts that are not UTF-8 are refused. The check takes several times as long as the
        comparison.

    Returns
    -------
    numpy.ndarray of bool
        For each row True if the two rows are equal.

    Raises
    ------
    TypesDiffer
        If the sides differ in type, in the number of rows, or in the names of columns or fields.
    NotServed
        If rows of a type can't be compared.
    BadArray
        If an array breaks the rules of Arrow.
    MemoryError
        If an allocation fails.

    Examples
    --------
    >>> equal(np.array([1, 2, 3]), np.ma.array([1, 5, 3], mask=[False, False, True]))
    array([ True, False, False])
    >>> equal({"a": [1, 2], "b": [5, None]}, {"b": [5, 6], "a": [1, 2]})
    array([ True, False])
    >>> equal(np.array([1, 2]), ["1", "2"])
    Traceback (most recent call last):
        ...
    dunkelva.TypesDiffer: right: a row of str is no int64
    """
    plain = equal_plain(left, right)
    if plain is not None:
        return plain
    flags = (FLOATS_BY_BITS if floats_by_bits else 0) | (CHECK_TEXTS if check_texts else 0)
    lefts, rights = read(left, "left"), read(right, "right")
    if isinstance(lefts, Table) and isinstance(rights, Table):
        return _equal_tables(lefts, rights, flags)
    return _compare(*pair_rows(as_rows(lefts, rights), as_rows(rights, lefts)), flags)


def _equal_tables(left: Table, right: Table, flags: int) -> npt.NDArray[np.bool_]:
    for table in (left, right):
        refuse_unread(table)
    lone = [f"{side} alone has the columns {alone}"
            for one, other, side in ((left, right, "left"), (right, left, "right"))
            if (alone := [name for name in one.columns if name not in other.columns])]
    if lone:
        raise TypesDiffer(", and ".join(lone))
    if len(left) != len(right):
        raise TypesDiffer(f"left has {len(left)} rows, right has {len(right)}")
    same = np.ones(len(left), np.bool_)
    for name, column in left.columns.items():
        what = f"column {name!r}: "
        same &= _compare(*pair(column, right.columns[name], what), flags, what)
    return same


def not_equal(left: object, right: object, *, floats_by_bits: bool = False,
              check_texts: bool = False) -> npt.NDArray[np.bool_]:
    """Compares two columns or two tables row by row, and returns True for rows that differ.

    The result is `~equal(left, right)`. The parameters and the exceptions are those of `equal`.

    Returns
    -------
    numpy.ndarray of bool
        For each row True if the two rows differ.

    Examples
    --------
    >>> not_equal([1, None, 3], [1, 2, None])
    array([False,  True,  True])
    """
    return ~equal(left, right, floats_by_bits=floats_by_bits, check_texts=check_texts)
