"""Python values as rows: which type they have, and arrays of them."""
from __future__ import annotations

import datetime
import decimal
import sys
from typing import Any, Callable, Dict, Iterable, List, Optional, Sequence, Tuple

import numpy as np
import numpy.typing as npt

from ._structs import Chunk, make, no_rows, packed, validity
from ._types import NUMBERS, Type, list_of

EPOCH = datetime.datetime(1970, 1, 1)
_DAY = datetime.date(1970, 1, 1).toordinal()
_MICROSECOND = datetime.timedelta(microseconds=1)
_EXACT = decimal.Context(prec=200, traps=[decimal.InvalidOperation, decimal.Inexact])
_PER_SECOND = {"s": 1, "m": 10 ** 3, "u": 10 ** 6, "n": 10 ** 9}

# The units of numpy's times and spans that have one length. Spans without a unit are nanoseconds.
_ATTOSECONDS = {"as": 1, "fs": 10 ** 3, "ps": 10 ** 6, "ns": 10 ** 9, "generic": 10 ** 9,
                "us": 10 ** 12, "ms": 10 ** 15, "s": 10 ** 18, "m": 60 * 10 ** 18,
                "h": 3600 * 10 ** 18, "D": 86_400 * 10 ** 18, "W": 604_800 * 10 ** 18}


class Unfit(ValueError):
    """Values that make no column."""


def is_missing(value: object) -> bool:
    """Says whether a value stands for a null."""
    if value is None:
        return True
    pandas = sys.modules.get("pandas")
    if pandas is not None and (value is pandas.NA or value is pandas.NaT):
        return True
    return isinstance(value, (np.datetime64, np.timedelta64)) and bool(np.isnat(value))


# Classes whose values are never missing, and the class of None.
_PLAIN = frozenset({type(None), bool, int, str, bytes, bytearray, list, tuple, dict,
                    decimal.Decimal, datetime.date, datetime.datetime, datetime.time,
                    datetime.timedelta})


def with_none(values: Sequence[object],
              is_gap: Callable[[object], bool] = is_missing) -> Sequence[Any]:
    """Returns rows in which None stands for each value that is missing."""
    others = set(map(type, values)) - _PLAIN
    if not others:
        return values
    return [None if type(value) in others and is_gap(value) else value for value in values]


# Classes of values, the narrower ones first, and their names. np.timedelta64 is an np.integer.
_CLASSES: Tuple[Tuple[str, Tuple[type, ...]], ...] = (
    ("timedelta", (datetime.timedelta, np.timedelta64)),
    ("bool", (bool, np.bool_)), ("int", (int, np.integer)), ("float", (float, np.floating)),
    ("str", (str,)), ("bytes", (bytes, bytearray)),
    ("datetime", (datetime.datetime, np.datetime64)), ("date", (datetime.date,)),
    ("time", (datetime.time,)),
    ("Decimal", (decimal.Decimal,)), ("dict", (dict,)), ("list", (list, tuple, np.ndarray)))


def _class_of(kind: type) -> str:
    for name, members in _CLASSES:
        if issubclass(kind, members):
            return name
    raise Unfit(f"there is no column of {kind.__name__}")


def infer(values: Iterable[object]) -> Type:
    """Returns the type of rows.

    Numbers are int64 where they fit, else uint64, else decimals. Dicts are structs of all members
    that any of them has.
    """
    rows = with_none(list(values))
    kinds = set(map(type, rows))
    present = [row for row in rows if row is not None] if type(None) in kinds else list(rows)
    classes = {_class_of(kind) for kind in kinds - {type(None)}}
    if classes == {"int", "float"}:
        if not all(_is_float(value, "f8") for value in present if _is_whole(type(value))):
            raise Unfit("there are floats, and whole numbers that no float is")
        return Type("g")
    if classes == {"int", "Decimal"}:
        return _decimals(present)
    if len(classes) > 1:
        raise Unfit("there are rows of " + " and of ".join(sorted(classes)))
    return _INFER[classes.pop()](present) if classes else Type("n")


def _is_whole(kind: type) -> bool:
    """Says whether a class is one of whole numbers. np.timedelta64, an np.integer, is not."""
    return issubclass(kind, (int, np.integer)) and not issubclass(kind, (bool, np.timedelta64))


def _is_float(number: Any, kind: str) -> bool:
    """Says whether a whole number is a float of a type, without rounding."""
    size, limits = abs(int(number)), np.finfo(kind)
    length = size.bit_length()
    return length <= limits.maxexp and length - (size & -size).bit_length() <= limits.nmant


def _ints(values: List[Any]) -> List[int]:
    """Returns whole numbers as ints. Numpy would compare an np.int64 and an np.uint64 as floats."""
    return values if set(map(type, values)) <= {int} else [int(value) for value in values]


def _integers(values: List[Any]) -> Type:
    numbers = _ints(values)
    low, high = min(numbers), max(numbers)
    if -2 ** 63 <= low and high < 2 ** 63:
        return Type("l")
    return Type("L") if low >= 0 and high < 2 ** 64 else _decimals(numbers)


def _decimals(values: List[Any]) -> Type:
    numbers = [decimal.Decimal(int(v)) if _is_whole(type(v)) else v for v in values]
    if not all(number.is_finite() for number in numbers):
        raise Unfit("there are decimals that are no numbers")
    parts = [number.as_tuple() for number in numbers]
    scale = max(max(0, -int(part.exponent)) for part in parts)
    digits = max(len(part.digits) + int(part.exponent) for part in parts) + scale
    if digits > 76 or scale > 76:
        raise Unfit("there are decimals of more than 76 digits")
    return Type(f"d:38,{scale}" if digits <= 38 else f"d:76,{scale},256")


def _datetimes(values: List[Any]) -> Type:
    if any(isinstance(value, np.datetime64) for value in values):
        return Type("tsn:")
    zones = {value.tzinfo is not None for value in values}
    if len(zones) > 1:
        raise Unfit("there are datetimes with a time zone, and some without")
    unit = "n" if any(getattr(value, "nanosecond", 0) for value in values) else "u"
    return Type(f"ts{unit}:UTC" if zones.pop() else f"ts{unit}:")


def _structs(values: List[Any]) -> Type:
    names = list(dict.fromkeys(name for value in values for name in value))
    for name in names:
        if not isinstance(name, str):
            raise Unfit(f"a struct has the field {name!r}, which is no text")
    return Type("+s", tuple((name, infer(value.get(name) for value in values)) for name in names))


_INFER: Dict[str, Callable[[List[Any]], Type]] = {
    "bool": lambda _: Type("b"), "int": _integers, "float": lambda _: Type("g"),
    "str": lambda _: Type("U"), "bytes": lambda _: Type("Z"), "datetime": _datetimes,
    "date": lambda _: Type("tdD"), "timedelta": lambda _: Type("tDn"),
    "time": lambda _: Type("ttu"), "Decimal": _decimals, "dict": _structs,
    "list": lambda values: list_of(infer(item for value in values for item in value))}


def build(values: Sequence[object], type: Type) -> Chunk:
    """Makes an array of Python values, each of which has to be a value of the type."""
    rows = with_none(values)
    if type.entries is not None:
        return _dictionary(rows, type)
    if type.format == "n":
        for row in rows:
            if row is not None:
                raise Unfit(f"{row!r} is not null")
        return make(type, len(rows), [])
    bits, form = validity(_nulls(rows)), type.format
    if form == "+s":
        names = [name for name, _ in type.children]
        for row in rows:
            if row is not None and not (isinstance(row, dict) and set(row) <= set(names)):
                raise Unfit(f"{row!r} is no {type}")
        children = [build([None if row is None else row.get(name) for row in rows], child)
                    for name, child in type.children]
        return make(type, len(rows), [bits], children)
    if form in ("+l", "+L") or form.startswith("+w:"):
        return _lists(rows, type, bits)
    if form == "b":
        for row in rows:
            if row is not None and not isinstance(row, (bool, np.bool_)):
                raise Unfit(f"{row!r} is no {type}")
        return make(type, len(rows), [bits, packed([bool(row) for row in rows])])
    if form in ("u", "U", "z", "Z", "vu", "vz"):
        return _strings(rows, type, bits)
    if form.startswith(("w:", "d:")):
        width = int(form[2:]) if form[0] == "w" else _decimal_width(form)
        fixed = [bytes(width) if row is None else _fixed(row, type, width) for row in rows]
        data = np.frombuffer(b"".join(fixed) or b"\0", np.uint8)
        return make(type, len(rows), [bits, data])
    return make(type, len(rows), [bits, _numbers(rows, type)])


def _nulls(rows: Sequence[object]) -> Optional[npt.NDArray[np.bool_]]:
    """Returns which rows are None, or None where no row is."""
    if type(None) not in set(map(type, rows)):
        return None
    return np.array([row is None for row in rows], np.bool_)


def _lists(rows: Sequence[Any], type: Type, bits: Optional[npt.NDArray[np.uint8]]) -> Chunk:
    width = int(type.format[3:]) if type.format.startswith("+w:") else None
    for row in rows:
        fits = row is None or isinstance(row, (list, tuple, np.ndarray))
        if not fits or row is not None and width is not None and len(row) != width:
            raise Unfit(f"{row!r} is no {type}")
    under_null: List[object] = [None] * (width or 0)
    items = [item for row in rows for item in (under_null if row is None else row)]
    child = build(items, type.children[0][1])
    if width is not None:
        return make(type, len(rows), [bits], [child])
    offsets = _offsets([0 if row is None else len(row) for row in rows], type.format == "+L")
    return make(type, len(rows), [bits, offsets], [child])


def _offsets(lengths: npt.ArrayLike, is_large: bool) -> npt.NDArray[Any]:
    ends = np.cumsum(lengths, dtype=np.int64)
    offsets: npt.NDArray[Any] = np.concatenate([np.zeros(1, np.int64), ends])
    if is_large:
        return offsets
    if offsets[-1] > np.iinfo(np.int32).max:
        raise Unfit("offsets of 32 bits are too small for all items or bytes")
    return offsets.astype(np.int32)


def _strings(rows: Sequence[Any], type: Type, bits: Optional[npt.NDArray[np.uint8]]) -> Chunk:
    is_text = type.format in ("u", "U", "vu")
    wanted: Tuple[Any, ...] = (str,) if is_text else (bytes, bytearray)
    for kind in _classes(rows):
        if not issubclass(kind, wanted):
            raise Unfit(f"a row of {kind.__name__} is no {type}")
    if bits is not None:
        empty: Any = "" if is_text else b""
        rows = [empty if row is None else row for row in rows]
    lengths, data = _joined(rows)
    if type.format in ("vu", "vz"):
        return _views(lengths, data, type, bits)
    content = np.frombuffer(data or b"\0", np.uint8)
    return make(type, len(rows), [bits, _offsets(lengths, type.format in "UZ"), content])


def _classes(rows: Sequence[object]) -> List[type]:
    """Returns the classes of the rows that are not None."""
    return [kind for kind in set(map(type, rows)) if kind is not type(None)]


def _joined(strings: Sequence[Any]) -> Tuple[npt.NDArray[np.int64], bytes]:
    """Returns the lengths of texts or byte strings, and their bytes."""
    if strings and isinstance(strings[0], str):
        lengths = np.fromiter(map(len, strings), np.int64, len(strings))
        data = "".join(strings).encode("utf-8", "surrogatepass")
        if len(data) == lengths.sum():
            return lengths, data
        strings = [text.encode("utf-8", "surrogatepass") for text in strings]
    return np.fromiter(map(len, strings), np.int64, len(strings)), b"".join(strings)


def _views(lengths: npt.NDArray[np.int64], data: bytes, type: Type,
           bits: Optional[npt.NDArray[np.uint8]]) -> Chunk:
    views, place = bytearray(), 0
    for length in lengths.tolist():
        content = data[place:place + length]
        views += length.to_bytes(4, "little")
        if length <= 12:
            views += content.ljust(12, b"\0")
        else:
            views += content[:4] + bytes(4) + place.to_bytes(4, "little")
        place += length
    buffers = [np.frombuffer(content or b"\0", np.uint8) for content in (bytes(views), data)]
    return make(type, len(lengths), [bits, *buffers, np.array([len(data)], np.int64)])


def _decimal_width(form: str) -> int:
    parts = form[2:].split(",")
    return int(parts[2]) // 8 if len(parts) > 2 else 16


def _fixed(row: Any, type: Type, width: int) -> bytes:
    """Returns the bytes of a row of one size."""
    if type.format[0] == "w":
        if not isinstance(row, (bytes, bytearray)) or len(row) != width:
            raise Unfit(f"{row!r} is no {type}")
        return bytes(row)
    try:
        number = decimal.Decimal(int(row)) if _is_whole(row.__class__) else row
        scaled = number.scaleb(int(type.format.split(",")[1]), _EXACT)
        return int(_EXACT.to_integral_exact(scaled)).to_bytes(width, "little", signed=True)
    except (ArithmeticError, AttributeError, ValueError, decimal.DecimalException) as error:
        raise Unfit(f"{row!r} is no {type}") from error


def _numbers(rows: Sequence[Any], type: Type) -> npt.NDArray[Any]:
    kind = type.number()
    if kind is None:
        raise Unfit(f"Python values can't be a column of {type}")
    dtype = np.dtype(kind)
    if type.format not in NUMBERS:
        rows = [None if row is None else _time(row, type) for row in rows]
    has_floats = dtype.kind == "f"
    for row_class in _classes(rows):
        if not _is_whole(row_class) and not (
                has_floats and issubclass(row_class, (float, np.floating))):
            raise Unfit(f"a row of {row_class.__name__} is no {type}")
    if has_floats:
        return _floats(rows, type, kind)
    filled = _ints([0 if row is None else row for row in rows])
    if filled:
        limits = np.iinfo(dtype)
        for extreme in (min(filled), max(filled)):
            if not limits.min <= extreme <= limits.max:
                raise Unfit(f"{extreme} is no {type}")
    return np.array(filled, dtype)


def _floats(rows: Sequence[Any], type: Type, kind: str) -> npt.NDArray[Any]:
    """Returns numbers as floats of a type, to which floats of Python are rounded.

    Refused are whole numbers that no float of the type is, an np.longdouble with more digits than a
    float of Python has, and finite floats that would be rounded to infinity.
    """
    filled = [0.0 if row is None else row for row in rows]
    for row_class in _classes(filled):
        if _is_whole(row_class) or issubclass(row_class, np.longdouble):
            for row in filled:
                if row.__class__ is row_class and not _is_kept(row, kind):
                    raise Unfit(f"{row!s} is no {type}")
    with np.errstate(over="ignore"):
        made: npt.NDArray[Any] = np.array(filled, kind)
    for place in np.flatnonzero(np.isinf(made)).tolist():
        if not np.isinf(filled[place]):
            raise Unfit(f"{filled[place]!s} is no {type}")
    return made


def _is_kept(row: Any, kind: str) -> bool:
    """Says whether a whole number is exact in a float type, or an np.longdouble in Python's."""
    if isinstance(row, np.longdouble):
        return bool(float(row) == row or row != row)
    return _is_float(row, kind)


def _time(row: Any, type: Type) -> int:
    """Returns the number of a date, a time or a span in the unit of a type."""
    form = type.format
    if form == "tdD" and isinstance(row, datetime.date) and not isinstance(row, datetime.datetime):
        return row.toordinal() - _DAY
    if form[:2] == "ts" and isinstance(row, datetime.datetime):
        if (row.tzinfo is not None) == bool(form[4:]):
            plain = row if row.tzinfo is None else row.astimezone(datetime.timezone.utc)
            micro = (plain.replace(tzinfo=None) - EPOCH) // _MICROSECOND
            return _in_unit(1000 * int(micro) + getattr(row, "nanosecond", 0), form[2], row, type)
    if form[:2] == "ts" and not form[4:] and isinstance(row, np.datetime64):
        return _in_unit(_nanoseconds(row, type), form[2], row, type)
    if form[:2] == "tD" and isinstance(row, np.timedelta64):
        return _in_unit(_nanoseconds(row, type), form[2], row, type)
    if form[:2] == "tD" and isinstance(row, datetime.timedelta):
        nano = 1000 * (row // _MICROSECOND) + getattr(row, "nanoseconds", 0) % 1000
        return _in_unit(nano, form[2], row, type)
    if form[:2] == "tt" and isinstance(row, datetime.time) and row.tzinfo is None:
        second = 3600 * row.hour + 60 * row.minute + row.second
        return _in_unit(10 ** 9 * second + 1000 * row.microsecond, form[2], row, type)
    raise Unfit(f"{row!r} is no {type}")


def _nanoseconds(row: Any, type: Type) -> int:
    """Returns a time or a span of numpy in nanoseconds. Numpy itself would round or wrap around."""
    unit, count = np.datetime_data(row.dtype)
    if unit in ("Y", "M") and isinstance(row, np.datetime64):
        row, unit, count = row.astype("M8[D]"), "D", 1
    if unit not in _ATTOSECONDS:
        raise Unfit(f"{row!r} is no {type}")
    number, rest = divmod(int(row.astype(np.int64)) * count * _ATTOSECONDS[unit], 10 ** 9)
    if rest:
        raise Unfit(f"{row!r} is no {type}")
    return number


def _in_unit(nano: int, unit: str, row: object, type: Type) -> int:
    number, rest = divmod(nano, 10 ** 9 // _PER_SECOND[unit])
    if rest:
        raise Unfit(f"{row!r} is no {type}")
    return number


def _dictionary(rows: Sequence[Any], type: Type) -> Chunk:
    assert type.entries is not None
    places: Dict[str, int] = {}
    entries: List[object] = []
    keys: List[Optional[int]] = []
    for row in rows:
        name = repr(row)
        if row is not None and name not in places:
            places[name] = len(entries)
            entries.append(row)
        keys.append(None if row is None else places[name])
    held = build(entries, type.entries) if entries else no_rows(type.entries)
    bits = validity(_nulls(keys))
    return make(type, len(rows), [bits, _numbers(keys, Type(type.format))], entries=held)
