"""Rows of columns as Python values."""
from __future__ import annotations

import ctypes
import datetime
import decimal
from typing import Any, Dict, Hashable, List, Optional, Sequence

import numpy as np
import numpy.typing as npt

from ._rows import EPOCH
from ._structs import ArrowArray, Chunk, Column, borrowed, make, memory, validity
from ._types import Type

_UNITS = {"s": "s", "m": "ms", "u": "us", "n": "ns"}


def values_at(column: Column, rows: Sequence[int]) -> List[object]:
    """Returns the values of rows, those of Python where there are such, else those of numpy."""
    ends = np.cumsum([0, *map(len, column.chunks)])
    places = np.searchsorted(ends, rows, side="right") - 1
    return [_value(column.type, column.chunks[place].array, int(row - ends[place]))
            for row, place in zip(rows, places)]


def gathered(chunk: Chunk, rows: npt.NDArray[np.int64]) -> Chunk:
    """Returns rows of an array in another order.

    Numbers are copied. Other rows are not: they are a dictionary whose entries are the array.
    """
    if chunk.type.entries is None:
        numbers = numbers_of(chunk)
        if numbers is not None:
            nulls = ~present_rows(chunk)[rows]
            return make(chunk.type, len(rows), [validity(nulls), numbers[rows]])
    keys = np.ascontiguousarray(rows, np.int64)
    return make(Type("l", (), chunk.type), len(keys), [None, keys], entries=chunk)


def names_of(chunk: Chunk) -> List[Hashable]:
    """Returns rows as values that can be looked up: the same value for the same row."""
    form, array, rows = chunk.type.format, chunk.array, len(chunk)
    present = present_rows(chunk)
    if chunk.type.entries is not None:
        numbers = numbers_of(chunk)
        assert numbers is not None
        inner = array.dictionary.contents
        entries = names_of(borrowed(chunk.schema.dictionary.contents, inner, chunk))
        return [entries[key] if there else None for key, there in zip(numbers, present)]
    if form not in ("u", "U", "z", "Z") or rows == 0:
        return [_name(value) for value in values_at(Column([chunk]), range(rows))]
    large = form in "UZ"
    offsets = _numbers(array, rows + 1, "i8" if large else "i4")
    start, end = int(offsets[0]), int(offsets[-1])
    content = ctypes.string_at(array.buffers[2] + start, end - start) if end > start else b""
    ends = (offsets - start).tolist()
    return [content[first:last] if there else None
            for first, last, there in zip(ends, ends[1:], present)]


def _name(value: object) -> Hashable:
    if isinstance(value, list):
        return tuple(_name(item) for item in value)
    if isinstance(value, dict):
        return tuple(_name(item) for item in value.values())
    return value


def numbers_of(chunk: Chunk) -> Optional[npt.NDArray[Any]]:
    """Returns numbers or keys, arbitrary ones under nulls, or None for other rows."""
    kind = chunk.type.number()
    return None if kind is None else _numbers(chunk.array, len(chunk), kind)


def _numbers(array: ArrowArray, count: int, kind: str) -> npt.NDArray[Any]:
    if count == 0:
        return np.zeros(0, kind)
    width = np.dtype(kind).itemsize
    start = array.buffers[1] + array.offset * width
    if start % width:
        return np.frombuffer(ctypes.string_at(start, count * width), kind)
    return memory(start, count * width).view(kind)


def present_rows(chunk: Chunk) -> npt.NDArray[np.bool_]:
    """Says of each row whether it is no null."""
    array = chunk.array
    if chunk.type.format == "n":
        return np.zeros(array.length, np.bool_)
    if array.length == 0 or not array.buffers[0]:
        return np.ones(array.length, np.bool_)
    first, count = array.offset // 8, (array.offset + array.length + 7) // 8
    bits = np.unpackbits(memory(array.buffers[0] + first, count - first), bitorder="little")
    return bits[array.offset % 8:][:array.length].view(np.bool_)


def _bit(pointer: int, place: int) -> bool:
    return bool(ctypes.string_at(pointer + place // 8, 1)[0] >> place % 8 & 1)


def _number(array: ArrowArray, buffer: int, place: int, kind: str) -> Any:
    width = np.dtype(kind).itemsize
    content = ctypes.string_at(array.buffers[buffer] + place * width, width)
    return np.frombuffer(content, kind)[0].item()


def _value(type: Type, array: ArrowArray, row: int) -> object:
    place, form = array.offset + row, type.format
    if form == "n" or array.buffers[0] and not _bit(array.buffers[0], place):
        return None
    number = type.number()
    if type.entries is not None:
        key = _number(array, 1, place, number or "i4")
        return _value(type.entries, array.dictionary.contents, key)
    if form == "b":
        return _bit(array.buffers[1], place)
    if number is not None:
        return named(_number(array, 1, place, number), form)
    if form in ("u", "U", "z", "Z", "vu", "vz"):
        content = _string(form, array, place)
        return content.decode("utf-8", "backslashreplace") if form in ("u", "U", "vu") else content
    if form[:2] in ("w:", "d:") or form == "tin":
        return _fixed(form, array, place)
    return _nested(type, array, place)


def _string(form: str, array: ArrowArray, place: int) -> bytes:
    if form[0] == "v":
        view = ctypes.string_at(array.buffers[1] + 16 * place, 16)
        length, _, buffer, start = (int(number) for number in np.frombuffer(view, "u4"))
        if length <= 12:
            return view[4:4 + length]
        return ctypes.string_at(array.buffers[2 + buffer] + start, length)
    kind = "i8" if form in "UZ" else "i4"
    start, end = (_number(array, 1, place + step, kind) for step in (0, 1))
    return ctypes.string_at(array.buffers[2] + start, end - start) if end > start else b""


def _fixed(form: str, array: ArrowArray, place: int) -> object:
    parts = form[2:].split(",")
    width = 16
    if form[0] == "w":
        width = int(parts[0])
    elif form[0] == "d" and len(parts) > 2:
        width = int(parts[2]) // 8
    content = ctypes.string_at(array.buffers[1] + width * place, width) if width else b""
    if form[0] == "d":
        return _scaled(int.from_bytes(content, "little", signed=True), form)
    return content


def _scaled(number: int, form: str) -> decimal.Decimal:
    scale = int(form[2:].split(",")[1])
    return decimal.Decimal(number).scaleb(-scale, decimal.Context(prec=100))


def _nested(type: Type, array: ArrowArray, place: int) -> object:
    form = type.format
    if form == "+s":
        return {name: _value(child, array.children[k].contents, place)
                for k, (name, child) in enumerate(type.children)}
    if form.startswith("+w:"):
        start = int(form[3:]) * place
        end = start + int(form[3:])
    else:
        kind = "i8" if form == "+L" else "i4"
        start, end = (_number(array, 1, place + step, kind) for step in (0, 1))
    item, inner = type.children[0][1], array.children[0].contents
    rows = [_value(item, inner, row) for row in range(start, end)]
    if form == "+m":
        return [tuple(row.values()) if isinstance(row, dict) else row for row in rows]
    return rows


def named(number: Any, form: str) -> object:
    """Returns a number as the date, the time, the span or the decimal that it stands for."""
    if form[:2] == "d:":
        return _scaled(number, form)
    if form == "tdD":
        return _or_number(np.datetime64(number, "D"), number)
    if form == "tdm":
        return _or_number(np.datetime64(number // 86_400_000, "D"), number)
    if form[:2] == "ts":
        return _or_number(np.datetime64(number, _UNITS[form[2]]), number)
    if form[:2] == "tD":
        return _or_number(np.timedelta64(number, _UNITS[form[2]]), number)
    if form[:2] == "tt":
        unit: Dict[str, int] = {"s": 10 ** 6, "m": 10 ** 3, "u": 1}
        if form[2] in unit and 0 <= number * unit[form[2]] < 86_400_000_000:
            return (EPOCH + datetime.timedelta(microseconds=number * unit[form[2]])).time()
    return number


def _or_number(time: Any, number: Any) -> object:
    return number if np.isnat(time) else time
