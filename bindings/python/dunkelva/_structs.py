"""The structs of the Arrow C data interface, and arrays that are held while they are read."""
from __future__ import annotations

import ctypes
import functools
import struct
from typing import Any, List, Optional, Sequence

import numpy as np
import numpy.typing as npt

from ._types import Type, flat_type, type_of_format


class ArrowSchema(ctypes.Structure):
    """The type of a column."""


class ArrowArray(ctypes.Structure):
    """The rows of a column."""


class ArrowArrayStream(ctypes.Structure):
    """Arrays of one type, one after another."""


_POINTER = ctypes.POINTER
ArrowSchema._fields_ = [
    ("format", ctypes.c_char_p), ("name", ctypes.c_char_p), ("metadata", ctypes.c_void_p),
    ("flags", ctypes.c_int64), ("n_children", ctypes.c_int64),
    ("children", _POINTER(_POINTER(ArrowSchema))), ("dictionary", _POINTER(ArrowSchema)),
    ("release", ctypes.CFUNCTYPE(None, _POINTER(ArrowSchema))), ("private_data", ctypes.c_void_p)]
ArrowArray._fields_ = [
    ("length", ctypes.c_int64), ("null_count", ctypes.c_int64), ("offset", ctypes.c_int64),
    ("n_buffers", ctypes.c_int64), ("n_children", ctypes.c_int64),
    ("buffers", _POINTER(ctypes.c_void_p)), ("children", _POINTER(_POINTER(ArrowArray))),
    ("dictionary", _POINTER(ArrowArray)),
    ("release", ctypes.CFUNCTYPE(None, _POINTER(ArrowArray))), ("private_data", ctypes.c_void_p)]
ArrowArrayStream._fields_ = [
    ("get_schema", ctypes.CFUNCTYPE(ctypes.c_int, _POINTER(ArrowArrayStream),
                                    _POINTER(ArrowSchema))),
    ("get_next", ctypes.CFUNCTYPE(ctypes.c_int, _POINTER(ArrowArrayStream), _POINTER(ArrowArray))),
    ("get_last_error", ctypes.CFUNCTYPE(ctypes.c_char_p, _POINTER(ArrowArrayStream))),
    ("release", ctypes.CFUNCTYPE(None, _POINTER(ArrowArrayStream))),
    ("private_data", ctypes.c_void_p)]

# The library borrows and never calls `release`, but a struct without one counts as released.
_release_schema = ctypes.CFUNCTYPE(None, _POINTER(ArrowSchema))(lambda _: None)
_release_array = ctypes.CFUNCTYPE(None, _POINTER(ArrowArray))(lambda _: None)
_RELEASE = ctypes.cast(_release_array, ctypes.c_void_p).value


class _Lent(ArrowArray):
    """An array of at most four buffers, with the pointers to these."""

    _fields_ = [("pointers", ctypes.c_void_p * 4)]


# Write an array and its pointers, one for each number of buffers. To set the fields one by one
# takes several times as long.
_write_array = [struct.Struct(f"@5q5P{buffers}P").pack_into for buffers in range(5)]
_POINTERS: int = _Lent.pointers.offset

_NULLABLE = 2

# Rows among which a null is looked for before all rows are looked at.
_FIRST = 1 << 14

_capsule_pointer = ctypes.pythonapi.PyCapsule_GetPointer
_capsule_pointer.restype = ctypes.c_void_p
_capsule_pointer.argtypes = [ctypes.py_object, ctypes.c_char_p]


class Chunk:
    """A type and rows of it, with what keeps their memory."""

    __slots__ = ("schema", "array", "held", "type", "rows")

    def __init__(self, schema: ArrowSchema, array: ArrowArray, held: object, type: Type, rows: int):
        self.schema, self.array, self.held, self.type, self.rows = schema, array, held, type, rows

    def __len__(self) -> int:
        return self.rows


class Column:
    """Rows of one type in one chunk or more."""

    __slots__ = ("chunks", "type", "rows")

    def __init__(self, chunks: Sequence[Chunk]):
        self.chunks = tuple(chunks)
        first = self.chunks[0]
        self.type = first.type
        self.rows = first.rows if len(self.chunks) == 1 else sum(map(len, self.chunks))

    def __len__(self) -> int:
        return self.rows


def borrowed(schema: ArrowSchema, array: ArrowArray, held: object,
              type: Optional[Type] = None) -> Chunk:
    """Checks an array that another program made, and borrows it."""
    if not array.release:
        raise ValueError("its array was released")
    if array.length < 0:
        raise ValueError(f"its length is {array.length}")
    kind = type_of_schema(schema) if type is None else type
    return Chunk(schema, array, held, kind, int(array.length))


def type_of_schema(schema: ArrowSchema) -> Type:
    """Reads a type."""
    if not schema.release:
        raise ValueError("its schema was released")
    if not schema.format:
        raise ValueError("its schema has no format")
    text = schema.format.decode("utf-8", "backslashreplace")
    if schema.n_children <= 0 and not schema.dictionary:
        return flat_type(text)
    children = tuple(
        ((schema.children[k].contents.name or b"").decode("utf-8", "backslashreplace"),
         type_of_schema(schema.children[k].contents)) for k in range(schema.n_children))
    entries = type_of_schema(schema.dictionary.contents) if schema.dictionary else None
    return type_of_format(text, children, entries)


def memory(address: int, count: int) -> npt.NDArray[np.uint8]:
    """Returns the bytes at an address, which are not kept."""
    if count == 0:
        return np.zeros(0, np.uint8)
    content: Any = (ctypes.c_uint8 * count).from_address(address)
    return np.frombuffer(content, np.uint8)


_first_byte: Any = ctypes.c_char.from_buffer
_place = ctypes.addressof


def address_of(array: npt.NDArray[Any]) -> int:
    """Returns where the first row of an array lies."""
    try:
        return _place(_first_byte(array))
    except (TypeError, ValueError, BufferError):  # no rows, read only, or times
        address: int = array.__array_interface__["data"][0]
        return address


def packed(mask: npt.ArrayLike) -> npt.NDArray[np.uint8]:
    """Packs truth values into bits, the first one lowest."""
    return np.packbits(np.asarray(mask, np.bool_), bitorder="little")


def validity(nulls: Optional[npt.NDArray[np.bool_]]) -> Optional[npt.NDArray[np.uint8]]:
    """Returns the bits of a validity, given which rows are null, or None if no row is."""
    if nulls is None or not (np.count_nonzero(nulls[:_FIRST]) or np.count_nonzero(nulls[_FIRST:])):
        return None
    bits = packed(nulls)
    return np.invert(bits, out=bits)


def make(type: Type, length: int, buffers: Sequence[Optional[npt.NDArray[Any]]],
         children: Sequence[Chunk] = (), entries: Optional[Chunk] = None,
         held: object = None) -> Chunk:
    """Makes an array of buffers, children and entries, which it borrows."""
    inside = None
    if children:
        inside = (ctypes.c_void_p * len(children))(
            *[ctypes.addressof(child.array) for child in children])
    array = _Lent()
    _write_array[len(buffers)](
        array, 0, length, -1, 0, len(buffers), len(children), ctypes.addressof(array) + _POINTERS,
        0 if inside is None else ctypes.addressof(inside),
        0 if entries is None else ctypes.addressof(entries.array), _RELEASE, 0,
        *[0 if buffer is None else address_of(buffer) for buffer in buffers])
    # the struct has addresses alone, and keeps nothing of what lies there
    kept = (inside, buffers, children, entries, held)
    return Chunk(make_schema(type), array, kept, type, length)


def is_made_here(chunk: Chunk) -> bool:
    """Says whether `make` made an array, so that its buffers are known to be long enough."""
    return isinstance(chunk.array, _Lent)


def make_schema(type: Type) -> ArrowSchema:
    """Returns the schema of a type, which nobody changes."""
    if type.children or type.entries is not None:
        return _named_schema(type, "")
    return _flat_schema(type.format)


@functools.lru_cache(maxsize=256)
def _flat_schema(format: str) -> ArrowSchema:
    """Makes the schema of a type that has no others inside, found again by its format alone."""
    return _named_schema(flat_type(format), "")


@functools.lru_cache(maxsize=256)
def _named_schema(type: Type, name: str) -> ArrowSchema:
    """Makes the schema of a type with a name."""
    schema = ArrowSchema()
    schema.format, schema.name = type.format.encode(), name.encode()
    schema.flags, schema.release = _NULLABLE, _release_schema
    if type.children:
        inside = (_POINTER(ArrowSchema) * len(type.children))(
            *[ctypes.pointer(_named_schema(child, its)) for its, child in type.children])
        schema.n_children, schema.children = len(type.children), inside
    if type.entries is not None:
        schema.dictionary = ctypes.pointer(make_schema(type.entries))
    return schema


def no_rows(type: Type) -> Chunk:
    """Makes an array of no rows."""
    entries = None if type.entries is None else no_rows(type.entries)
    children = [no_rows(child) for _, child in type.children]
    return make(type, 0, [None] * type.buffers(), children, entries)


def _check_fields(chunk: Chunk) -> None:
    """Refuses structs whose array has more or fewer fields than their type."""
    if chunk.array.n_children != len(chunk.type.children):
        raise ValueError(f"its type has {len(chunk.type.children)} fields, its array has "
                         f"{chunk.array.n_children}")


def reordered(chunk: Chunk, order: Sequence[int]) -> Chunk:
    """Returns structs with their fields in another order. `order` has the index of each field."""
    _check_fields(chunk)
    schema = ArrowSchema.from_buffer_copy(chunk.schema)
    array = ArrowArray.from_buffer_copy(chunk.array)
    schemas = (_POINTER(ArrowSchema) * len(order))(*[chunk.schema.children[k] for k in order])
    arrays = (_POINTER(ArrowArray) * len(order))(*[chunk.array.children[k] for k in order])
    schema.children, array.children = schemas, arrays
    type = Type(chunk.type.format, tuple(chunk.type.children[k] for k in order))
    return Chunk(schema, array, (schemas, arrays, chunk), type, chunk.rows)


def fields_of(chunk: Chunk) -> List[Chunk]:
    """Returns the fields of structs, cut to the rows of these."""
    fields = []
    _check_fields(chunk)
    for place, (_, type) in enumerate(chunk.type.children):
        inner = chunk.array.children[place].contents
        field = ArrowArray.from_buffer_copy(inner)
        if inner.length < chunk.array.offset + chunk.array.length:
            raise ValueError(f"its field {chunk.type.children[place][0]!r} has {inner.length} "
                             f"rows, where {chunk.array.offset + chunk.array.length} are needed")
        field.offset += chunk.array.offset
        field.length = chunk.array.length
        fields.append(borrowed(chunk.schema.children[place].contents, field, chunk, type))
    return fields


def part_of(chunk: Chunk, first: int, rows: int) -> Chunk:
    """Returns some rows of an array, those from row `first` on."""
    if first == 0 and rows == chunk.rows:
        return chunk
    array = ArrowArray.from_buffer_copy(chunk.array)
    array.offset += first
    array.length = rows
    return Chunk(chunk.schema, array, chunk, chunk.type, rows)


class _Released:
    """A struct that a producer handed over, released when it is no longer used."""

    def __init__(self, struct: Any):
        self.struct = struct

    def __del__(self) -> None:
        if self.struct.release:
            self.struct.release(ctypes.byref(self.struct))


def from_capsules(schema: object, array: object) -> Chunk:
    """Borrows an array from its two capsules."""
    return borrowed(ArrowSchema.from_address(_capsule_pointer(schema, b"arrow_schema")),
                     ArrowArray.from_address(_capsule_pointer(array, b"arrow_array")),
                     (schema, array))


def from_stream(capsule: object) -> Column:
    """Reads all arrays of a stream."""
    stream = ArrowArrayStream.from_address(_capsule_pointer(capsule, b"arrow_array_stream"))
    if not stream.release:
        raise ValueError("its stream was read before")
    schema = _Released(ArrowSchema())
    chunks: List[Chunk] = []
    _ask(stream, stream.get_schema, schema.struct)
    type = type_of_schema(schema.struct)
    while True:
        array = _Released(ArrowArray())
        _ask(stream, stream.get_next, array.struct)
        if not array.struct.release:
            return Column(chunks or [no_rows(type)])
        chunks.append(borrowed(schema.struct, array.struct, (schema, array, capsule), type))


def _ask(stream: ArrowArrayStream, call: Any, struct: ctypes.Structure) -> None:
    status = call(ctypes.byref(stream), ctypes.byref(struct))
    if status:
        said = stream.get_last_error(ctypes.byref(stream)) or b"no reason is given"
        raise ValueError(f"its stream failed: {said.decode('utf-8', 'replace')} ({status})")
