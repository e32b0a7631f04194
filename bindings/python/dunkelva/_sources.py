"""Sources of columns: numpy, pandas, Arrow, the interchange protocol of data frames, lists."""
from __future__ import annotations

import operator
import sys
from typing import Any, Dict, List, Mapping, NoReturn, Optional, Sequence, Tuple, Union

import numpy as np
import numpy.typing as npt

from ._library import NotServed, TypesDiffer, BadArray
from ._rows import Unfit, build, infer, is_missing, with_none
from ._structs import (Chunk, Column, fields_of, from_capsules, from_stream, make, memory,
                       no_rows, packed, reordered, validity)
from ._types import NUMBERS, Type

_FORMATS = {kind: form for form, kind in NUMBERS.items()}
_NUMBERS = {np.dtype(kind): Type(form) for form, kind in NUMBERS.items()}
_UNITS = {"s": "s", "ms": "m", "us": "u", "ns": "n"}
_Nulls = Optional[npt.NDArray[np.bool_]]

# Exceptions of a column that can't be read, though other columns of its table can.
_REFUSED = (NotServed, TypesDiffer, Unfit)


class Rows:
    """Python values whose type is open: that of the other side, or what both sides need."""

    def __init__(self, values: Sequence[object]):
        self.values = values

    def __len__(self) -> int:
        return len(self.values)


class Unread:
    """A column of a table that can't be read. Its exception is raised where it is used."""

    def __init__(self, error: ValueError, rows: int):
        self.error, self.rows = error, rows

    def __len__(self) -> int:
        return self.rows

    def refuse(self) -> NoReturn:
        """Raises a new exception each time, since raising the stored one keeps frames alive."""
        raise type(self.error)(str(self.error))


class Table:
    """Columns by their names."""

    def __init__(self, columns: Mapping[str, Union[Column, Rows, Unread]], rows: int,
                 whole: Optional[Column] = None):
        self.columns, self.rows, self.whole = dict(columns), rows, whole

    def __len__(self) -> int:
        return self.rows


Side = Union[Column, Rows, Unread]
Source = Union[Side, Table]


def read(value: object, side: str) -> Source:
    """Reads what an argument holds. `side` is its name in messages."""
    try:
        source = _read(value)
    except _REFUSED as error:
        raise _refusal(error, side) from None
    except ValueError as error:
        raise BadArray(f"{side}: {error}") from error
    if isinstance(source, Table):
        for column in source.columns.values():
            if isinstance(column, Unread):
                column.error = _refusal(column.error, side)
    return source


def _refusal(error: ValueError, side: str) -> ValueError:
    """Returns the exception that a caller sees, with the name of the argument."""
    text = f"{side}: {error}"
    return NotServed(text) if isinstance(error, NotServed) else TypesDiffer(text)


def refuse_unread(table: Table) -> None:
    """Raises the exception of the first column that can't be read, if there is one."""
    for column in table.columns.values():
        if isinstance(column, Unread):
            column.refuse()


def _read(value: Any) -> Source:
    if isinstance(value, np.ndarray):
        return _numpy(value)
    pandas = sys.modules.get("pandas")
    if pandas is not None:
        if isinstance(value, pandas.DataFrame):
            return _frame(value)
        if isinstance(value, (pandas.Series, pandas.Index)):
            return _series(value)
        if isinstance(value, pandas.api.extensions.ExtensionArray):
            return _series(pandas.Series(value))
    if hasattr(value, "__arrow_c_array__"):
        return _table_or_column(Column([from_capsules(*value.__arrow_c_array__())]))
    if hasattr(value, "__arrow_c_stream__"):
        return _table_or_column(from_stream(value.__arrow_c_stream__()))
    if hasattr(value, "__dataframe__"):
        return _interchanged(value.__dataframe__())
    if isinstance(value, Mapping):
        return _columns({str(name): column for name, column in value.items()})
    if isinstance(value, (list, tuple)):
        return Rows(value)
    raise NotServed(
        f"{type(value).__name__} is no column and no table: give a numpy array, a Series or a "
        "DataFrame of pandas, an object with __arrow_c_array__, __arrow_c_stream__ or "
        "__dataframe__, or a list")


def _columns(columns: Mapping[str, object]) -> Table:
    """Reads a table of columns by name."""
    made: Dict[str, Side] = {}
    for name, column in columns.items():
        try:
            inner = _read(column)
            made[name] = whole(inner) if isinstance(inner, Table) else inner
        except _REFUSED as error:
            made[name] = _unread(error, name, operator.length_hint(column))
    were_read = {name: side for name, side in made.items() if not isinstance(side, Unread)}
    lengths = {name: len(side) for name, side in (were_read or made).items()}
    if were_read and len(set(lengths.values())) > 1:
        raise Unfit("the columns have " + ", ".join(
            f"{length} ({name})" for name, length in lengths.items()) + " rows")
    return Table(made, max(lengths.values(), default=0))


def _unread(error: ValueError, name: str, rows: int) -> Unread:
    """Keeps the exception of a column."""
    return Unread(type(error)(f"column {name!r}: {error}"), rows)


def _table_or_column(column: Column) -> Source:
    """Returns structs without null rows as a table, and other rows as they are.

    Null rows decide which form structs have here, but not which rows are equal: the fields of both
    forms are matched by name (`pair_rows`).
    """
    if column.type.format != "+s" or column.type.entries is not None:
        return column
    names = [name for name, _ in column.type.children]
    if len(set(names)) < len(names):
        raise Unfit(f"a name comes twice among the columns {names}")
    if any(map(_has_null, column.chunks)):
        return column
    fields = [fields_of(chunk) for chunk in column.chunks]
    columns = {name: Column([chunk[k] for chunk in fields]) for k, name in enumerate(names)}
    return Table(columns, len(column), column)


def _has_null(chunk: Chunk) -> bool:
    array = chunk.array
    if array.length == 0 or array.n_buffers != 1 or not array.buffers[0]:
        return False
    first = array.offset // 8
    count = (array.offset + array.length + 7) // 8 - first
    bits = np.unpackbits(memory(array.buffers[0] + first, count), bitorder="little")
    return not bits[array.offset % 8:][:array.length].all()


def whole(table: Table, kind: Optional[Type] = None) -> Column:
    """Returns a table as a column of structs.

    Python values take the types of the fields of `kind`, if this is a type of structs.
    """
    if table.whole is not None:
        return table.whole
    kinds = dict(kind.children) if kind is not None and kind.format == "+s" else {}
    columns: List[Tuple[str, Column]] = []
    for name, side in table.columns.items():
        columns.append((name, typed(side, kinds.get(name), name)))
    if any(len(column.chunks) > 1 for _, column in columns):
        raise NotServed("a table in chunks is no column")
    kind = Type("+s", tuple((name, column.type) for name, column in columns))
    return Column([make(kind, table.rows, [None], [column.chunks[0] for _, column in columns])])


def as_rows(source: Source, other: Source) -> Side:
    """Returns a table as a column of structs, to compare it with `other`."""
    if isinstance(source, Table):
        return whole(source, other.type if isinstance(other, Column) else None)
    return source


def typed(side: Side, kind: Optional[Type], what: str) -> Column:
    """Makes a column of Python values of a type, or of the type that they need."""
    if isinstance(side, Column):
        return side
    if isinstance(side, Unread):
        side.refuse()
    try:
        return Column([build(side.values, infer(side.values) if kind is None else kind)])
    except (Unfit, UnicodeEncodeError) as error:
        raise TypesDiffer(f"{what}: {error}") from None


def pair(left: Side, right: Side, what: str = "") -> Tuple[Column, Column]:
    """Makes columns of one type of two sides, where one of them or both are Python values."""
    if isinstance(left, Rows) and isinstance(right, Rows):
        try:
            kind = infer([*left.values, *right.values])
        except Unfit as error:
            for side, rows in (("left", left), ("right", right)):
                typed(rows, None, what + side)
            raise TypesDiffer(f"{what}left and right: {error}") from None
        return typed(left, kind, what + "left"), typed(right, kind, what + "right")
    left_type = left.type if isinstance(left, Column) else None
    right_type = right.type if isinstance(right, Column) else None
    return typed(left, right_type, what + "left"), typed(right, left_type, what + "right")


def pair_rows(left: Side, right: Side, what: str = "") -> Tuple[Column, Column]:
    """Makes columns of two sides as `pair` does. The fields of structs get the order of left."""
    lefts, rights = pair(left, right, what)
    names = [name for name, _ in lefts.type.children]
    others = [name for name, _ in rights.type.children]
    if lefts.type.format != "+s" or rights.type.format != "+s" or names == others or (
            len(set(names)) < len(names) or sorted(names) != sorted(others)):
        return lefts, rights
    try:
        order = [others.index(name) for name in names]
        return lefts, Column([reordered(chunk, order) for chunk in rights.chunks])
    except ValueError as error:
        raise BadArray(f"{what}right: {error}") from error


def _numpy(array: npt.NDArray[Any], nulls: _Nulls = None) -> Side:
    """Reads an array of numpy. One of two dimensions has lists of one length as rows."""
    numbers = _NUMBERS.get(array.dtype)
    if numbers is not None and array.ndim == 1 and not isinstance(array, np.ma.MaskedArray):
        return Column([make(numbers, len(array), [validity(nulls), np.ascontiguousarray(array)])])
    if array.ndim == 2:
        width, rows = array.shape[1], array.shape[0]
        inner = _numpy(array.reshape(-1))
        item = typed(inner, None, "items").chunks[0]
        return Column([make(Type(f"+w:{width}", (("item", item.type),)), rows, [None], [item])])
    if array.ndim != 1:
        raise Unfit(f"an array of {array.ndim} dimensions: a column has one, or two where each "
                    "row is a list")
    if array.dtype.names is not None:
        names = array.dtype.names
        fields = [typed(_numpy(array[name]), None, name).chunks[0] for name in names]
        kind = Type("+s", tuple((name, field.type) for name, field in zip(names, fields)))
        return Column([make(kind, len(array), [validity(nulls)], fields)])
    if isinstance(array, np.ma.MaskedArray):
        masked: Any = np.ma
        nulls = masked.getmask(array)
        nulls = None if nulls is masked.nomask else nulls
        array = masked.getdata(array, subok=False)
    if array.dtype.kind in "OU":
        values = array.tolist()
        if nulls is not None:
            values = [None if null else value for value, null in zip(values, nulls)]
        return Rows(values)
    return Column([_flat(np.ascontiguousarray(array), nulls)])


def _flat(array: npt.NDArray[Any], nulls: _Nulls) -> Chunk:
    if array.dtype.byteorder == ">":
        array = array.astype(array.dtype.newbyteorder("="))
    numbers, rows = _NUMBERS.get(array.dtype), len(array)
    if numbers is not None:
        return make(numbers, rows, [validity(nulls), array])
    letter = array.dtype.kind
    if letter in "mM":
        return _times(array, nulls)
    if letter == "b":
        return make(Type("b"), rows, [validity(nulls), packed(array)])
    if letter == "S":
        kind = Type(f"w:{array.dtype.itemsize}")
        return make(kind, rows, [validity(nulls), array.view(np.uint8)], held=array)
    raise NotServed(f"an array of {array.dtype} is not served")


def _times(array: npt.NDArray[Any], nulls: _Nulls) -> Chunk:
    gone = np.isnat(array)
    if gone.any():
        nulls = gone if nulls is None else nulls | gone
    unit, count = np.datetime_data(array.dtype)
    letter, bits = array.dtype.kind, validity(nulls)
    if letter == "M" and (unit, count) == ("D", 1):
        days = np.where(gone, 0, array.view(np.int64))
        if rows_fit(days, np.int32):
            return make(Type("tdD"), len(array), [bits, days.astype(np.int32)])
    if unit in ("W", "D", "h", "m") or count != 1 and unit in _UNITS:
        unit = unit if unit in _UNITS else "s"
        exact = array.astype(f"{letter}8[{unit}]")
        if not (exact.astype(array.dtype) == array)[~gone].all():
            raise NotServed(f"{array.dtype} does not fit into {exact.dtype}")
        array = exact
    elif unit not in _UNITS:
        raise NotServed(f"an array of {array.dtype} is not served: give days or a shorter unit")
    form = "ts" + _UNITS[unit] + ":" if letter == "M" else "tD" + _UNITS[unit]
    return make(Type(form), len(array), [bits, array.view(np.int64)], held=array)


def rows_fit(numbers: npt.NDArray[Any], dtype: Any) -> bool:
    """Says whether numbers fit into a type."""
    limits = np.iinfo(dtype)
    return len(numbers) == 0 or bool(limits.min <= numbers.min() and numbers.max() <= limits.max)


def _frame(frame: Any) -> Table:
    names = [str(name) for name in frame.columns]
    if len(set(names)) < len(names):
        raise Unfit(f"a name comes twice among the columns {names}")
    made: Dict[str, Side] = {}
    for place, name in enumerate(names):
        try:
            made[name] = _series(frame.iloc[:, place])
        except _REFUSED as error:
            made[name] = _unread(error, name, len(frame))
    return Table(made, len(frame))


def _series(series: Any) -> Side:
    """Reads a Series or an Index of pandas."""
    dtype, array, name = series.dtype, series.array, type(series.dtype).__name__
    if hasattr(array, "__arrow_array__") and (
            name == "ArrowDtype" or getattr(dtype, "storage", "python").startswith("pyarrow")):
        exported = array.__arrow_array__()
        column = _read(exported)
        return whole(column) if isinstance(column, Table) else column
    if name == "CategoricalDtype":
        entries = typed(_series(array.categories), None, "categories").chunks[0]
        codes = np.ascontiguousarray(array.codes, np.int32)
        kind = Type("i", (), entries.type)
        return Column([make(kind, len(codes), [validity(codes < 0), codes], entries=entries)])
    if hasattr(array, "_mask") and hasattr(array, "_data"):
        return _numpy(array._data, array._mask)
    if name == "DatetimeTZDtype":
        zone, unit = str(dtype.tz), getattr(dtype, "unit", "ns")
        numbers = np.ascontiguousarray(array.asi8)
        nulls = numbers == np.iinfo(np.int64).min
        kind = Type(f"ts{_UNITS[unit]}:{zone}")
        return Column([make(kind, len(numbers), [validity(nulls), numbers])])
    if name in ("PeriodDtype", "IntervalDtype"):
        raise NotServed(f"{dtype} is not served: convert it")
    if name == "SparseDtype":
        return _numpy(np.asarray(array))
    values = series.to_numpy()
    if values.dtype.kind != "O":
        return _numpy(values)
    return Rows(with_none(values.tolist(), _is_gap))


def _is_gap(value: object) -> bool:
    """Says whether pandas takes a value of a column of objects for missing."""
    return isinstance(value, float) and value != value or is_missing(value)


# Kinds of the interchange protocol, and how it marks nulls. A NaN stays the float that it is.
_INT, _UINT, _FLOAT, _BOOL, _STRING, _DATETIME, _CATEGORICAL = 0, 1, 2, 20, 21, 22, 23
_NOT_NULLABLE, _NAN, _SENTINEL, _BITMASK, _BYTEMASK = range(5)


def _interchanged(frame: Any) -> Table:
    """Reads a table by the interchange protocol of data frames."""
    names = [str(name) for name in frame.column_names()]
    if len(set(names)) < len(names):
        raise Unfit(f"a name comes twice among the columns {names}")
    parts = list(frame.get_chunks())
    rows = sum(part.num_rows() for part in parts)
    columns: Dict[str, Side] = {}
    for place, name in enumerate(names):
        try:
            chunks = [_interchanged_column(part.get_column(place)) for part in parts]
            if not chunks:
                chunks = [no_rows(_interchanged_column(frame.get_column(place)).type)]
            columns[name] = Column(chunks)
        except NotServed as error:
            columns[name] = _unread(error, name, rows)
    return Table(columns, rows)


def _numbers_of(buffer: Tuple[Any, Any], first: int, rows: int) -> npt.NDArray[Any]:
    """Returns the numbers of a buffer of the protocol, some rows of them."""
    content, (kind, bits, _, _) = buffer
    letter = {_INT: "i", _UINT: "u", _FLOAT: "f", _BOOL: "u", _STRING: "u", _DATETIME: "i"}[kind]
    width = max(bits // 8, 1)
    if (first + rows) * width > content.bufsize:
        raise Unfit(f"a buffer has {content.bufsize} bytes, where {(first + rows) * width} are "
                    "needed")
    if rows == 0:
        return np.zeros(0, f"{letter}{width}")
    return memory(content.ptr + first * width, rows * width).view(f"{letter}{width}")


def _interchanged_column(column: Any) -> Chunk:
    kind, bits, form, _ = column.dtype
    rows = column.size() if callable(column.size) else column.size
    buffers, first = column.get_buffers(), column.offset
    nulls = _interchanged_nulls(column, buffers, first, rows)
    if kind == _STRING:
        offsets = _numbers_of(buffers["offsets"], first, rows + 1).astype(np.int64)
        content = buffers["data"][0]
        if rows and offsets[-1] > content.bufsize:
            raise Unfit(f"texts have {content.bufsize} bytes, where {offsets[-1]} are needed")
        data = memory(content.ptr, content.bufsize) if content.bufsize else np.zeros(1, np.uint8)
        return make(Type("U"), rows, [validity(nulls), offsets, data], held=buffers)
    if kind == _CATEGORICAL:
        described = column.describe_categorical
        if not described["is_dictionary"]:
            raise NotServed("categories without a dictionary are not served")
        entries = _interchanged_column(described["categories"])
        codes = _numbers_of(buffers["data"], first, rows).astype(np.int32)
        return make(Type("i", (), entries.type), rows, [validity(nulls), codes],
                    entries=entries, held=buffers)
    if kind == _BOOL and bits == 1:
        packed_bits = memory(buffers["data"][0].ptr, (first + rows + 7) // 8)
        truth = np.unpackbits(packed_bits, bitorder="little")[first:first + rows]
        return make(Type("b"), rows, [validity(nulls), packed(truth)])
    numbers = _numbers_of(buffers["data"], first, rows)
    if kind == _BOOL:
        return make(Type("b"), rows, [validity(nulls), packed(numbers)])
    if kind == _DATETIME and form[:2] == "ts":
        return make(Type(form), rows, [validity(nulls), numbers.view(np.int64)], held=buffers)
    name = _FORMATS.get(numbers.dtype.str[1:])
    if name is None or kind == _DATETIME:
        raise NotServed(f"rows of format {form!r} are not served")
    return make(Type(name), rows, [validity(nulls), numbers], held=buffers)


def _interchanged_nulls(column: Any, buffers: Any, first: int, rows: int) -> _Nulls:
    how, mark = column.describe_null
    nulls: _Nulls = None
    if how == _BITMASK:
        content = buffers["validity"][0]
        bits = np.unpackbits(memory(content.ptr, (first + rows + 7) // 8), bitorder="little")
        nulls = bits[first:first + rows] == mark
    elif how == _BYTEMASK:
        nulls = _numbers_of(buffers["validity"], first, rows) == mark
    elif how == _SENTINEL:
        nulls = _numbers_of(buffers["data"], first, rows) == mark
    return nulls
