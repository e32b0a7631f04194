"""Distinct values of columns that are kept as whole numbers."""
from __future__ import annotations

import ctypes
import sys
from typing import TYPE_CHECKING, Any, Iterator, Optional, Tuple

import numpy as np
import numpy.typing as npt

from ._library import (COLUMN, LIBRARY, OUT_OF_RANGE, NotServed, OutOfRange, TypesDiffer, compare,
                       declare, joined, not_served, refusal)
from ._numbers import NUMBER, Number, _column, extremes
from ._rows import Unfit, build
from ._sources import Table, read, typed
from ._structs import Chunk, Column, address_of, is_made_here, part_of
from ._types import NUMBERS, Type
from ._values import named, numbers_of, present_rows

__all__ = ["Unique", "unique", "n_unique"]

# For a state, `unique` takes at most as many words of 64 bits as there are rows, or this many if
# the rows are fewer. If the range of a column needs more words, its rows are sorted.
_FEW_WORDS = 1 << 13

# Rows that are read in one step. The library reads them twice: the second time from a cache.
_ROWS = 1 << 16


class _State(ctypes.Structure):
    """A state as the library sees it: its range, where its bits lie, whether a null was seen."""

    _fields_ = [("least", Number), ("greatest", Number), ("bits", ctypes.c_void_p),
                ("words", ctypes.c_size_t), ("has_null", ctypes.c_uint64)]


_STATE, _WHOLE = ctypes.POINTER(_State), ctypes.POINTER(ctypes.c_uint64)
_init = declare("dunkelva_unique_init", _STATE, NUMBER, NUMBER, ctypes.c_void_p, ctypes.c_size_t)
_append = declare("dunkelva_unique_append", _STATE, *COLUMN)
_merge = declare("dunkelva_unique_merge", _STATE, _STATE)
_count = declare("dunkelva_unique_count", _STATE, _WHOLE, _WHOLE)
_finish = declare("dunkelva_unique_finish", _STATE, ctypes.c_void_p, ctypes.c_size_t, _WHOLE)
_words = LIBRARY.dunkelva_unique_words
_words.restype, _words.argtypes = ctypes.c_size_t, (NUMBER, NUMBER)

if TYPE_CHECKING:
    Masked = np.ma.MaskedArray[Any, np.dtype[Any]]
else:
    Masked = np.ma.MaskedArray


def _type_of(dtype: object) -> Type:
    """Returns the type of rows of a dtype of numpy or pandas."""
    pandas = sys.modules.get("pandas")
    if pandas is not None and isinstance(dtype, pandas.api.extensions.ExtensionDtype):
        rows = read(pandas.Series([], dtype=dtype), "dtype")
    else:
        rows = read(np.zeros(0, np.dtype(dtype)), "dtype")  # type: ignore[call-overload]
    if isinstance(rows, Table):
        raise NotServed("dtype: it is one of tables")
    return typed(rows, None, "dtype").type


def _ends(low: object, high: object, kind: Type) -> Tuple[int, int]:
    """Returns the ends of a range as the numbers that keep them."""
    ends = [end.item() if isinstance(end, np.generic) else end for end in (low, high)]
    try:
        kept = build(ends, kind)
    except Unfit as error:
        raise TypesDiffer(f"range: {error}") from None
    numbers = numbers_of(kept)
    if numbers is None or kind.entries is not None or kind.has_floats():
        raise not_served(f"range: {kind} is not served here", kind)
    if not present_rows(kept).all():
        raise TypesDiffer("range: an end is no null")
    return int(numbers[0]), int(numbers[1])


def _number(value: int) -> Number:
    return Number(value & 2 ** 64 - 1, value >> 64 & 2 ** 64 - 1, 1)


class Unique:
    """A state that collects the distinct values of columns with a known range.

    A state has one bit for each number from `low` to `high`. States of the same range and type can
    be merged in any order, and a state can be pickled. So parts of a column can be read in
    different threads, processes or machines. Two threads must not use one state at the same time:
    give each its own, and merge them.

    Parameters
    ----------
    low, high : value
        The least and the greatest value that the columns may have.
    dtype : dtype of numpy or pandas
        The type of the columns. `compare` says which types are taken.

    Raises
    ------
    ValueError
        If `low` is greater than `high`, or the range has 2**64 - 1 numbers or more.
    TypesDiffer
        If `low` or `high` is no value of the type.
    NotServed
        If the type is not taken.
    MemoryError
        If there is not enough memory for the bits.

    Examples
    --------
    >>> state = Unique(0, 9)
    >>> state.append([3, None, 1, 3])
    >>> state.values.tolist(), state.has_null, len(state)
    ([1, 3], True, 2)
    >>> other = Unique(0, 9)
    >>> other.append(np.array([7]))
    >>> state.merge(other)
    >>> state.finish().tolist()
    [1, 3, 7, None]
    >>> state.append([10])
    Traceback (most recent call last):
        ...
    dunkelva.OutOfRange: column, int64: a row lies outside of the range from 0 to 9
    """

    def __init__(self, low: object, high: object, dtype: object = np.int64) -> None:
        """Makes an empty state."""
        kind = _type_of(dtype)
        self._make(kind, _ends(low, high, kind))

    def _make(self, kind: Type, ends: Tuple[int, int]) -> None:
        self._type, self._ends = kind, ends
        least, greatest = _number(ends[0]), _number(ends[1])
        words = int(_words(least, greatest))
        if words == 0:
            raise ValueError(f"there is no range from {self.low!r} to {self.high!r}")
        self._bits: npt.NDArray[np.uint64] = np.empty(words, np.uint64)
        self._state = _State()
        self._check(_init(self._state, least, greatest, address_of(self._bits), words), "range")

    @property
    def low(self) -> object:
        """The least value of the range."""
        return named(self._ends[0], self._type.format)

    @property
    def high(self) -> object:
        """The greatest value of the range."""
        return named(self._ends[1], self._type.format)

    def _check(self, status: int, what: str) -> None:
        if status == OUT_OF_RANGE:
            raise OutOfRange(f"{what}, {self._type}: a row lies outside of the range from "
                             f"{self.low} to {self.high}")
        if status:
            raise refusal(status, what, self._type)

    def append(self, column: object) -> None:
        """Adds the rows of a column to the state.

        If the call fails, the state is unchanged.

        Parameters
        ----------
        column : column
            A column of the type of the state. Each row is null or from `low` to `high`.

        Raises
        ------
        OutOfRange
            If a row is outside of the range.
        TypesDiffer
            If the column has another type.
        NotServed
            If the argument is a table.
        """
        source = read(column, "column")
        if isinstance(source, Table):
            raise NotServed("column: it is a table")
        self._append(typed(source, self._type, "column"))

    def _append(self, column: Column) -> None:
        if column.type is not self._type and column.type != self._type:
            raise TypesDiffer(f"column: it is {column.type}, and the state of {self._type}")
        to = self if len(column.chunks) == 1 else self._copy()
        for chunk in column.chunks:
            self._check(_append(to._state, chunk.schema, chunk.array), "column")
        if to is not self:
            self.merge(to)

    def _takes(self, part: Chunk) -> bool:
        """Adds rows of the type of the state, or returns False where one is out of its range."""
        status = _append(self._state, part.schema, part.array)
        if status != OUT_OF_RANGE:
            self._check(status, "column")
        return bool(status == 0)

    def _copy(self) -> "Unique":
        made: Unique = Unique.__new__(type(self))
        made.__setstate__(self.__getstate__())
        return made

    def merge(self, other: "Unique") -> None:
        """Adds the values of another state, and its null if it has one.

        Raises
        ------
        TypesDiffer
            If the states differ in range or type.
        """
        if other is self:  # what the library writes must not overlap what it reads
            return
        if self._type != other._type:
            raise TypesDiffer(f"a state of {other._type}, merged into one of {self._type}")
        if self._ends != other._ends:
            raise TypesDiffer(f"a state of the range from {other.low} to {other.high}, merged into "
                              f"one of the range from {self.low} to {self.high}: only states of "
                              "one range can be merged")
        status = _merge(self._state, other._state)
        if status:
            raise refusal(status, "states", self._type)

    def __len__(self) -> int:
        """Returns the number of distinct values. Null is not counted, unlike in `n_unique`."""
        values, rows = ctypes.c_uint64(), ctypes.c_uint64()
        self._check(_count(self._state, ctypes.byref(values), ctypes.byref(rows)), "state")
        return int(values.value)

    @property
    def has_null(self) -> bool:
        """True if a null was appended."""
        return bool(self._state.has_null)

    def _listed(self, spare: int) -> npt.NDArray[Any]:
        """Returns the values that were seen, ascending, and some zeros behind them."""
        count, null = len(self), ctypes.c_uint64()
        words: npt.NDArray[np.uint64] = np.empty(count + spare, np.uint64)
        words[count:] = 0
        self._check(_finish(self._state, address_of(words), count, ctypes.byref(null)), "state")
        numbers = words.view(np.int64).astype(self._type.number() or "i8", copy=False)
        return _as_rows(numbers, self._type)

    @property
    def values(self) -> npt.NDArray[Any]:
        """The distinct values in ascending order without null, as a numpy array."""
        return self._listed(0)

    def finish(self) -> Masked:
        """Returns the distinct values in ascending order as a masked array, with null last if there
        is one.
        """
        null = self.has_null
        return _with_null(self._listed(int(null)), null)

    def __getstate__(self) -> Tuple[Type, Tuple[int, int], bytes, bool]:
        return self._type, self._ends, self._bits.tobytes(), self.has_null

    def __setstate__(self, kept: Tuple[Type, Tuple[int, int], bytes, bool]) -> None:
        kind, ends, bits, null = kept
        self._make(kind, ends)
        self._bits[:] = np.frombuffer(bits, np.uint64)
        self._state.has_null = int(null)

    def __repr__(self) -> str:
        null = " and null" if self.has_null else ""
        return f"<Unique of {self._type} from {self.low!r} to {self.high!r}: {len(self)}{null}>"


def _as_rows(numbers: npt.NDArray[Any], kind: Type) -> npt.NDArray[Any]:
    """Returns numbers as rows of the type that keeps them."""
    if kind.format in NUMBERS:
        return numbers
    if kind.format == "tdD" or kind.format[:2] in ("ts", "tD"):
        unit = {"s": "s", "m": "ms", "u": "us", "n": "ns"}.get(kind.format[2], "D")
        return numbers.astype(np.int64).view(f"{'m' if kind.format[:2] == 'tD' else 'M'}8[{unit}]")
    rows = np.empty(numbers.size, object)
    rows[:] = [named(number, kind.format) for number in numbers.tolist()]
    return rows


def _with_null(values: npt.NDArray[Any], null: bool) -> Masked:
    """Returns values as a masked array. The last one stands for a null, if there is one."""
    mask = np.zeros(values.size, np.bool_)
    if null:
        mask[-1] = True
    masked: Any = np.ma.MaskedArray
    array: Masked = masked(values, mask=mask)
    return array


def _ends_of(chunk: Chunk, first: int, part: Chunk) -> Iterator[Tuple[int, int]]:
    """Gives the least and the greatest number of some rows of an array, once or twice.

    The first pair is found in less time, but numbers stored under nulls count too. Arrays of other
    programs get only the second pair: they are not read before the library has checked them.
    """
    stored = numbers_of(chunk) if part.rows > 0 and is_made_here(chunk) else None
    if stored is not None and stored.dtype.kind != "f" and chunk.type.entries is None:
        rows = stored if part is chunk else stored[first:first + part.rows]
        yield int(rows.min()), int(rows.max())
    least, greatest = extremes(Column([part]))
    yield (0, 0) if least is None or greatest is None else (least, greatest)


def _new_state(kind: Type, low: int, high: int) -> Unique:
    """Returns a state of a range that begins and ends at multiples of 64, as that of a type does.

    So each word of its bits is also a word of a wider state.
    """
    made: Unique = Unique.__new__(Unique)
    made._make(kind, (low // 64 * 64, high // 64 * 64 + 63))
    return made


def _widened(state: Unique, ends: Tuple[int, int], most: int) -> Optional[Unique]:
    """Copies a state to one that also has room for `ends`, or returns None if that is too wide.

    If rows lie outside of the range on one side, later rows probably do too. So the range is
    extended on that side, by up to its own width.
    """
    low, high = ends
    used = np.flatnonzero(state._bits)
    if used.size:
        first = state._ends[0] + 64 * int(used[0])
        last = state._ends[0] + 64 * int(used[-1]) + 63
        low, high = min(low, first), max(high, last)
    if high - low >= most:
        return None
    more, limits = min(high - low, most - (high - low)), np.iinfo(state._type.number() or "i8")
    if ends[0] < state._ends[0]:
        low = max(low - more, int(limits.min))
    if ends[1] > state._ends[1]:
        high = min(high + more, int(limits.max))
    wide = _new_state(state._type, low, high)
    wide._state.has_null = state._state.has_null
    wide._bits[used + (state._ends[0] - wide._ends[0]) // 64] = state._bits[used]
    return wide


def _with_room(state: Optional[Unique], column: Column, ends: Tuple[int, int]) -> Optional[Unique]:
    """Returns a state with room for some ends, or None where it takes more than the rows do."""
    most = 64 * max(column.rows, _FEW_WORDS)
    if state is not None:
        return _widened(state, ends, most)
    return None if ends[1] - ends[0] >= most else _new_state(column.type, *ends)


def _state_of(column: Column) -> Optional[Unique]:
    """Collects a column, or returns None where a state takes more room than its rows."""
    if column.type.format == "tiD":  # of these no row is the least
        compare(column, column, 0, "column: ")  # refuses a bad array
        return None
    state: Optional[Unique] = None
    for chunk in column.chunks:
        for first in range(0, chunk.rows, _ROWS) or (0,):
            part = part_of(chunk, first, min(_ROWS, chunk.rows - first))
            if state is not None and state._takes(part):
                continue
            for ends in _ends_of(chunk, first, part):
                wider = _with_room(state, column, ends)
                if wider is not None:
                    break
            else:
                return None
            state = wider
            state._check(_append(state._state, part.schema, part.array), "column")
    return state


def _sorted(column: Column) -> Tuple[npt.NDArray[Any], bool]:
    """Returns the distinct numbers of a column, ascending, and whether a row is null."""
    numbers, null = [], False
    for chunk in column.chunks:
        stored, present = numbers_of(chunk), present_rows(chunk)
        assert stored is not None
        is_whole = bool(present.all())
        numbers.append(stored if is_whole else stored[present])
        null = null or not is_whole
    return np.unique(joined(numbers)), null


def unique(column: object) -> Masked:
    """Returns the distinct rows of a column that stores whole numbers, ascending, null last.

    If the rows have a wide range, numpy sorts them. This sorting is not proved. The range is wide
    if it has more than 524,288 numbers, and more than 64 numbers for each row.

    Parameters
    ----------
    column : column of numbers
        A column of a type that `compare` takes, or of intervals of days and milliseconds. The rows
        of such intervals are returned as the integers of 64 bits that are stored.

    Returns
    -------
    numpy.ma.MaskedArray
        The distinct rows in ascending order. If a row is null, the last element is masked.

    Raises
    ------
    NotServed
        If the argument is a table or a column of another type.

    Examples
    --------
    >>> unique([3, None, 1, 3]).tolist()
    [1, 3, None]
    >>> unique(np.array(["2024-02-01", "2024-01-01"], "M8[D]")).tolist()
    [datetime.date(2024, 1, 1), datetime.date(2024, 2, 1)]
    """
    held = _column(column)
    state = _state_of(held)
    if state is not None:
        return state.finish()
    numbers, null = _sorted(held)
    if null:
        numbers = np.concatenate([numbers, np.zeros(1, numbers.dtype)])
    return _with_null(_as_rows(numbers, held.type), null)


def n_unique(column: object) -> int:
    """Returns the number of distinct rows of a column. Null counts as one.

    `len` of a `Unique` leaves null out. The parameter and the exceptions are those of `unique`.

    >>> n_unique([3, None, 1, 3])
    3
    """
    held = _column(column)
    state = _state_of(held)
    if state is not None:
        return len(state) + state.has_null
    numbers, null = _sorted(held)
    return len(numbers) + null
