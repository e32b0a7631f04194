"""Columns as other libraries export them: by capsules of the Arrow C data interface."""
from __future__ import annotations

import ctypes
import pathlib
import random
import sys
from typing import Any, List, Sequence, Tuple

import numpy as np

sys.path.insert(0, str(pathlib.Path(__file__).resolve().parent.parent / "c"))

import arrow  # noqa: E402
import trees  # noqa: E402

__all__ = ["Exported", "Streamed", "arrow", "trees", "column", "masked"]

masked: Any = np.ma.array  # which has no types

_new = ctypes.pythonapi.PyCapsule_New
_new.restype = ctypes.py_object
_new.argtypes = [ctypes.c_void_p, ctypes.c_char_p, ctypes.c_void_p]

_GET = ctypes.CFUNCTYPE(ctypes.c_int, ctypes.c_void_p, ctypes.c_void_p)
_ERROR = ctypes.CFUNCTYPE(ctypes.c_void_p, ctypes.c_void_p)
_RELEASE = ctypes.CFUNCTYPE(None, ctypes.c_void_p)


def column(kind: Any, rows: Sequence[Any], seed: int) -> Any:
    """Makes a column of rows. How it is kept is left to chance."""
    return arrow.make_column(kind, rows, random.Random(seed))


class Exported:
    """A column with `__arrow_c_array__`."""

    def __init__(self, held: Any):
        self.held = held

    def __arrow_c_array__(self, requested_schema: object = None) -> Tuple[object, object]:
        return (_new(ctypes.addressof(self.held.schema), b"arrow_schema", None),
                _new(ctypes.addressof(self.held.array), b"arrow_array", None))


class _Stream(ctypes.Structure):
    _fields_ = [("get_schema", _GET), ("get_next", _GET), ("get_last_error", _ERROR),
                ("release", _RELEASE), ("private_data", ctypes.c_void_p)]


class Streamed:
    """Columns of one type with `__arrow_c_stream__`, one after another.

    `released` counts the structs that were handed over and released. Asked for chunk number
    `fails_at` the stream fails.
    """

    def __init__(self, columns: Sequence[Any], schema: Any = None, fails_at: int = -1):
        self.chunks, self.fails_at = list(columns), fails_at
        self.schema = self.chunks[0].schema if schema is None else schema
        self.handed = self.released = 0
        self.held: List[Any] = []
        self.text = ctypes.create_string_buffer(b"the disk is gone")

    def _hand(self, out: int, struct: Any) -> None:
        """Copies a struct, with a release of its own."""
        ctypes.memmove(out, ctypes.addressof(struct), ctypes.sizeof(struct))
        release = _RELEASE(self._release)
        self.held.append(release)
        field = type(struct).release.offset
        pointer = ctypes.cast(release, ctypes.c_void_p).value
        ctypes.c_void_p.from_address(out + field).value = pointer
        self.handed += 1

    def _release(self, struct: int) -> None:
        self.released += 1
        kind = arrow.ArrowSchema if self._is_schema(struct) else arrow.ArrowArray
        ctypes.c_void_p.from_address(struct + kind.release.offset).value = None

    def _is_schema(self, struct: int) -> bool:
        pointer = ctypes.c_void_p.from_address(struct).value
        return pointer == ctypes.c_void_p.from_address(ctypes.addressof(self.schema)).value

    def __arrow_c_stream__(self, requested_schema: object = None) -> object:
        left = iter(enumerate(self.chunks))

        def get_schema(_: int, out: int) -> int:
            self._hand(out, self.schema)
            return 0

        def get_next(_: int, out: int) -> int:
            number, chunk = next(left, (-2, None))
            if number == self.fails_at:
                return 5
            if chunk is None:
                ctypes.memset(out, 0, ctypes.sizeof(arrow.ArrowArray))
            else:
                self._hand(out, chunk.array)
            return 0

        stream = _Stream(_GET(get_schema), _GET(get_next),
                         _ERROR(lambda _: ctypes.addressof(self.text)), _RELEASE(lambda _: None))
        self.held.append(stream)
        return _new(ctypes.addressof(stream), b"arrow_array_stream", None)
