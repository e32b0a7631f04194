"""Equality of plain arrays of numpy: whole numbers in one piece, without nulls.

For short columns, most of the time is spent around the call. So what other columns need is left out
here. A helper in C (quick.c) reads the arrays and calls the library. If it was not compiled or this
Python can't load it, the library is called through ctypes: structs are made once, and each call
writes lengths and addresses into them.
"""
from __future__ import annotations

import ctypes
import importlib
from typing import Any, Callable, Dict, List, Optional

import numpy as np
import numpy.typing as npt

from ._library import LIBRARY
from ._structs import ArrowArray, address_of, make, make_schema
from ._types import NUMBERS, flat_type

_Equal = Callable[[object, object], Optional[npt.NDArray[np.bool_]]]

# Its arguments are values of ctypes that were made before, which takes less time than checks of
# their types in each call. It writes a byte for each row, as numpy keeps truth values.
_equal: Any = LIBRARY["dunkelva_equal_bytes"]
_equal.restype = ctypes.c_int32

# The schema of each type of numbers. Floats have none: they are compared by a flag alone.
_KEPT = {np.dtype(kind): make_schema(flat_type(form)) for form, kind in NUMBERS.items()
         if kind[0] != "f"}
_SCHEMAS: Dict[Any, ctypes.c_void_p] = {
    kind: ctypes.c_void_p(ctypes.addressof(schema)) for kind, schema in _KEPT.items()}

# Words of a struct of an array, in which its length is the first.
_WORDS = ctypes.sizeof(ArrowArray) // 8
_NO_FLAGS = ctypes.c_uint32(0)
_TRUTHS = np.dtype(np.bool_)


class _Call:
    """Memory of one call: both structs, each with pointers to its two buffers, and arguments."""

    __slots__ = ("words", "left", "right", "out", "room")

    def __init__(self) -> None:
        self.words: Any = (ctypes.c_int64 * (2 * (_WORDS + 2)))()
        first = ctypes.addressof(self.words)
        places = first, first + 8 * (_WORDS + 2)
        for at in places:
            array = make(flat_type("i"), 0, [None, None]).array
            ctypes.memmove(at, ctypes.addressof(array), 8 * _WORDS)
            ArrowArray.from_address(at).buffers = ctypes.cast(
                at + 8 * _WORDS, ctypes.POINTER(ctypes.c_void_p))
        self.left, self.right = map(ctypes.c_void_p, places)
        self.out, self.room = ctypes.c_void_p(), ctypes.c_size_t()


# Calls that are not running. A thread takes one out, so that no two use the same.
_IDLE: List[_Call] = []


def equal_by_ctypes(left: Any, right: Any) -> Optional[npt.NDArray[np.bool_]]:
    """Compares two objects, or returns None where they are not plain.

    Plain are two contiguous arrays of whole numbers, of one type and one length, with at least one
    row.
    """
    if type(left) is not np.ndarray or type(right) is not np.ndarray:
        return None
    rows, kind = left.size, left.dtype
    schema = _SCHEMAS.get(kind)
    if (schema is None or right.dtype != kind or left.shape != (rows,) or right.shape != (rows,)
            or rows == 0 or not left.flags.c_contiguous or not right.flags.c_contiguous):
        return None
    try:
        call = _IDLE.pop()
    except IndexError:
        call = _Call()
    same: npt.NDArray[np.bool_] = np.empty(rows, _TRUTHS)
    words = call.words
    words[0] = words[_WORDS + 2] = call.room.value = rows
    words[_WORDS + 1] = address_of(left)
    words[2 * _WORDS + 3] = address_of(right)
    call.out.value = address_of(same)
    status = _equal(schema, call.left, schema, call.right, _NO_FLAGS, call.out, call.room)
    _IDLE.append(call)
    return same if status == 0 else None


def by_helper() -> Optional[_Equal]:
    """Returns a function that does the same by the helper, or None if there is no helper."""
    try:
        helper: Any = importlib.import_module("dunkelva._quick")
    except ImportError:
        return None
    call = ctypes.cast(_equal, ctypes.c_void_p).value
    equal: _Equal = helper.keeping((call, np.ndarray, np.empty, _TRUTHS))
    return equal


equal_plain: _Equal = by_helper() or equal_by_ctypes
