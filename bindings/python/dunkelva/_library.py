"""The library itself, through ctypes, which lets other threads run while a call computes."""
from __future__ import annotations

import ctypes
import os
from typing import Any, Iterator, List, Optional, Tuple

import numpy as np
import numpy.typing as npt

from ._structs import ArrowArray, ArrowSchema, Chunk, Column, address_of
from ._types import Type

FLOATS_BY_BITS = 1
CHECK_TEXTS = 2

_TRUTHS = np.dtype(np.bool_)

_BAD_ARRAY, _TYPES_DIFFER, _, _NO_MEMORY, _NOT_SERVED, _BAD_STRUCTS, _BAD_ARGUMENT = range(1, 8)
OUT_OF_RANGE = 8


class DunkelvaError(ValueError):
    """The base class of the exceptions of this package. MemoryError and KeyError are not among
    them.
    """


class TypesDiffer(DunkelvaError, TypeError):
    """The two sides differ in type, in length or in their columns, or a value is not of a type."""


class BadArray(DunkelvaError):
    """An array breaks the rules of Arrow."""


class NotServed(DunkelvaError, TypeError):
    """A call does not take this object or this type of column."""


class OutOfRange(DunkelvaError):
    """A row is outside of the range of a state of distinct values."""


for _error in (DunkelvaError, TypesDiffer, BadArray, NotServed, OutOfRange):
    _error.__module__ = "dunkelva"


def _load() -> ctypes.CDLL:
    here = os.path.dirname(os.path.abspath(__file__))
    path = os.environ.get("DUNKELVA_LIBRARY") or os.path.join(here, "libdunkelva.so")
    try:
        library = ctypes.CDLL(path)
    except OSError as error:
        raise ImportError(f"dunkelva: {error}. The library is part of the wheel; in a checkout "
                          "DUNKELVA_LIBRARY names the one that `make library` made.") from error
    library.dunkelva_status_text.restype = ctypes.c_char_p
    library.dunkelva_status_text.argtypes = [ctypes.c_int32]
    library.dunkelva_version.restype = ctypes.c_char_p
    return library


def declare(name: str, *parts: Any) -> Any:
    """Returns a call of the library that returns a status."""
    call = getattr(LIBRARY, name)
    call.restype, call.argtypes = ctypes.c_int32, parts
    return call


LIBRARY = _load()
COLUMN = (ctypes.POINTER(ArrowSchema), ctypes.POINTER(ArrowArray))
BITS = (ctypes.c_void_p, ctypes.c_size_t)
_equal_bytes = declare("dunkelva_equal_bytes", *COLUMN, *COLUMN, ctypes.c_uint32, *BITS)
_equal_rows = declare("dunkelva_equal_rows", *COLUMN, ctypes.c_int64, *COLUMN, ctypes.c_int64,
                      ctypes.c_int64, ctypes.c_uint32, *BITS, ctypes.c_void_p)
VERSION: str = LIBRARY.dunkelva_version().decode()


def _said(status: int) -> str:
    text: Optional[bytes] = LIBRARY.dunkelva_status_text(status)
    return (text or b"").decode()


# What is said where floats are refused.
FLOATS_OF_PANDAS = "In pandas, whole numbers with gaps are floats unless their dtype is \"Int64\""


def not_served(text: str, type: Type) -> NotServed:
    """Returns the exception of a type that is not taken, with a hint where it has floats."""
    return NotServed(f"{text}. {FLOATS_OF_PANDAS}" if type.has_floats() else text)


def refusal(status: int, what: str, type: Type) -> Exception:
    """Returns the exception of a status other than 0 of a call on one column."""
    if status == _NO_MEMORY:
        return MemoryError("dunkelva: an allocation failed")
    if status == _NOT_SERVED:
        verb = "are" if " and " in what else "is"
        return not_served(f"{what} {verb} {type}, which is not served here", type)
    if status == _TYPES_DIFFER:
        return TypesDiffer(f"{what}, {type}: {_said(status)}")
    if status in (_BAD_ARRAY, _BAD_STRUCTS, _BAD_ARGUMENT):
        return BadArray(f"{what}, {type}: {_said(status)}")
    return DunkelvaError(f"{what}, {type}: {_said(status)}")


def _explained(status: int, left: Chunk, right: Chunk, flags: int, what: str) -> Exception:
    """Returns the exception of a status, which says which side was refused and why."""
    if status == _TYPES_DIFFER:
        return TypesDiffer(what + _said(status))
    for side, chunk in (("left", left), ("right", right)):
        again, _ = _compared(chunk, 0, chunk, 0, len(chunk), flags)
        if again == _NOT_SERVED and chunk.type.has_floats() and not flags & FLOATS_BY_BITS:
            return not_served(
                f"{what}{side} is {chunk.type}: floats are compared with floats_by_bits=True alone "
                "(a NaN is then equal to a NaN of the same bits, and -0.0 is not equal to 0.0)",
                chunk.type)
        if again:
            return refusal(again, what + side, chunk.type)
    return refusal(status, what + "left", left.type)


def _compared(left: Chunk, left_first: int, right: Chunk, right_first: int, rows: int,
              flags: int) -> Tuple[int, npt.NDArray[Any]]:
    """Compares rows of two arrays, and returns a status and, where it is 0, truth values."""
    if left_first == right_first == 0 and rows == left.rows == right.rows:
        same: npt.NDArray[Any] = np.empty(rows, np.bool_)
        return int(_equal_bytes(left.schema, left.array, right.schema, right.array, flags,
                                address_of(same), rows)), same
    bits = bits_for(rows)
    status = int(_equal_rows(left.schema, left.array, left_first, right.schema, right.array,
                             right_first, rows, flags, address_of(bits), bits.size, None))
    return status, unpacked(bits, rows)


def compare_rows(left: Chunk, left_first: int, right: Chunk, right_first: int, rows: int,
                 flags: int, what: str) -> npt.NDArray[np.bool_]:
    """Compares rows of two arrays. `what` begins the message of an exception."""
    status, same = _compared(left, left_first, right, right_first, rows, flags)
    if status:
        raise _explained(status, left, right, flags, what)
    return same


def bits_for(rows: int) -> npt.NDArray[np.uint8]:
    """Returns room for a bit for each row."""
    return np.empty((rows + 7) // 8, np.uint8)


def unpacked(bits: npt.NDArray[np.uint8], rows: int) -> npt.NDArray[np.bool_]:
    """Returns bits as truth values."""
    return np.unpackbits(bits, None, rows, "little").view(_TRUTHS)


def joined(parts: List[npt.NDArray[Any]]) -> npt.NDArray[Any]:
    """Returns the results of windows, one after another."""
    return parts[0] if len(parts) == 1 else np.concatenate(parts)


def compare(left: Column, right: Column, flags: int, what: str = "") -> npt.NDArray[np.bool_]:
    """Compares two columns of one length, whose chunks may end at different rows."""
    if left.rows != right.rows:
        raise TypesDiffer(f"{what}left has {left.rows} rows, right has {right.rows}")
    # types may have other names of items, which are not compared
    if left.type is not right.type and left.type != right.type:
        difference = left.type.difference(right.type)
        if difference is not None:
            raise TypesDiffer(what + difference)
    if len(left.chunks) == len(right.chunks) == 1:
        return compare_rows(left.chunks[0], 0, right.chunks[0], 0, left.rows, flags, what)
    return joined([compare_rows(one, first, other, second, rows, flags, what)
                   for one, first, other, second, rows in windows(left, right)])


def windows(left: Column, right: Column) -> Iterator[Tuple[Chunk, int, Chunk, int, int]]:
    """Cuts two columns of one length where a chunk of one of them ends.

    Gives for each window its chunk and its first row of both sides, and its rows. There is at least
    one window, of no rows where the columns have none.
    """
    columns, places, first = (left, right), [0, 0], [0, 0]
    while True:
        one, other = (column.chunks[place] for column, place in zip(columns, places))
        rows = min(len(one) - first[0], len(other) - first[1])
        yield one, first[0], other, first[1], rows
        for side, chunk in enumerate((one, other)):
            first[side] += rows
            if first[side] == len(chunk):
                places[side], first[side] = places[side] + 1, 0
        if any(place == len(column.chunks) for place, column in zip(places, columns)):
            return
