"""Columns of the Arrow C data interface, made of Python values, and the library as ctypes sees it.

A type is a format ("i", "u", "w:3", "d:9,2" ..) or one of

    ("+l", ITEM), ("+L", ITEM), ("+w:N", ITEM), ("+m", KEY, VALUE)
    ("+s", [(NAME, TYPE), ..])
    ("dict", FORMAT OF THE KEYS, ENTRY)

A row is None, or a truth value, a number, bytes (of strings, of "tin"), a list of items, a list of
pairs (of maps), or a tuple of the fields of a struct. Floats are given as numbers with their bits.

How rows are kept is left to chance: rows before and after the window, what lies under a null, a
validity where no row is null, items and bytes that no row uses, entries that no key names, the
buffers of views, odd addresses.
"""
import ctypes

NUMBERS = {
    "c": 1,
    "C": 1,
    "s": 2,
    "S": 2,
    "i": 4,
    "I": 4,
    "l": 8,
    "L": 8,
    "e": 2,
    "f": 4,
    "g": 8,
    "tdD": 4,
    "tdm": 8,
    "tts": 4,
    "ttm": 4,
    "ttu": 8,
    "ttn": 8,
    "tDs": 8,
    "tDm": 8,
    "tDu": 8,
    "tDn": 8,
    "tiM": 4,
    "tiD": 8,
}
UNSIGNED = "CSILefg"
STRINGS = {"z": 4, "u": 4, "Z": 8, "U": 8}

OK, BAD_ARRAY, TYPES_DIFFER, NO_ROOM, NO_MEMORY, NOT_SERVED, BAD_STRUCTS, BAD_ARGUMENT = range(8)
OUT_OF_RANGE = 8
FLOATS_BY_BITS, CHECK_TEXTS = 1, 2


class ArrowSchema(ctypes.Structure):
    """The type of a column."""


ArrowSchema._fields_ = [
    ("format", ctypes.c_char_p),
    ("name", ctypes.c_char_p),
    ("metadata", ctypes.c_void_p),
    ("flags", ctypes.c_int64),
    ("n_children", ctypes.c_int64),
    ("children", ctypes.POINTER(ctypes.POINTER(ArrowSchema))),
    ("dictionary", ctypes.POINTER(ArrowSchema)),
    ("release", ctypes.c_void_p),
    ("private_data", ctypes.c_void_p),
]


class ArrowArray(ctypes.Structure):
    """The rows of a column."""


ArrowArray._fields_ = [
    ("length", ctypes.c_int64),
    ("null_count", ctypes.c_int64),
    ("offset", ctypes.c_int64),
    ("n_buffers", ctypes.c_int64),
    ("n_children", ctypes.c_int64),
    ("buffers", ctypes.POINTER(ctypes.c_void_p)),
    ("children", ctypes.POINTER(ctypes.POINTER(ArrowArray))),
    ("dictionary", ctypes.POINTER(ArrowArray)),
    ("release", ctypes.c_void_p),
    ("private_data", ctypes.c_void_p),
]


class Number(ctypes.Structure):
    """A number of 128 bits, or none."""

    _fields_ = [("low", ctypes.c_uint64), ("high", ctypes.c_uint64), ("exists", ctypes.c_uint64)]

    @classmethod
    def of(cls, value):
        """Returns a number."""
        return cls(value & (1 << 64) - 1, value >> 64 & (1 << 64) - 1, 1)

    def value(self):
        """Returns the number, or None."""
        whole = self.high << 64 | self.low
        return (whole - (whole >> 127 << 128)) if self.exists else None


class State(ctypes.Structure):
    """A state of distinct values."""

    _fields_ = [
        ("least", Number),
        ("greatest", Number),
        ("bits", ctypes.POINTER(ctypes.c_uint64)),
        ("words", ctypes.c_size_t),
        ("has_null", ctypes.c_uint64),
    ]


_release = ctypes.CFUNCTYPE(None, ctypes.c_void_p)(lambda _: None)
RELEASE = ctypes.cast(_release, ctypes.c_void_p).value


def load(path):
    """Loads the library."""
    library = ctypes.CDLL(path)
    schema, array = ctypes.POINTER(ArrowSchema), ctypes.POINTER(ArrowArray)
    column, place = [schema, array], ctypes.c_int64
    out = [ctypes.c_uint32, ctypes.c_void_p, ctypes.c_size_t]
    library.dunkelva_equal.argtypes = [*column, *column, *out]
    library.dunkelva_equal_rows.argtypes = [
        *column,
        place,
        *column,
        place,
        place,
        *out,
        ctypes.c_void_p,
    ]
    library.dunkelva_compare.argtypes = [ctypes.c_uint32, *column, *column, *out[1:]]
    library.dunkelva_is_null.argtypes = [*column, *out[1:], ctypes.c_void_p]
    library.dunkelva_sum.argtypes = [*column, ctypes.POINTER(Number)]
    number = ctypes.POINTER(Number)
    library.dunkelva_min_max.argtypes = [*column, number, number]
    library.dunkelva_compare_number.argtypes = [ctypes.c_uint32, *column, number, *out[1:]]
    library.dunkelva_reduce_bits.argtypes = [ctypes.c_uint32, *column, number]
    library.dunkelva_count_bits.argtypes = [ctypes.c_uint32, *column, *out[1:]]
    results = [ctypes.c_void_p, ctypes.c_size_t, *out[1:], ctypes.c_void_p]
    library.dunkelva_arithmetic.argtypes = [ctypes.c_uint32, *column, *column, *results]
    library.dunkelva_arithmetic_number.argtypes = [
        ctypes.c_uint32,
        ctypes.c_uint32,
        number,
        *column,
        *results,
    ]
    library.dunkelva_sign.argtypes = [ctypes.c_uint32, *column, *results]
    state, whole = ctypes.POINTER(State), ctypes.POINTER(ctypes.c_uint64)
    library.dunkelva_unique_words.argtypes = [number, number]
    library.dunkelva_unique_words.restype = ctypes.c_size_t
    library.dunkelva_unique_init.argtypes = [state, number, number, whole, ctypes.c_size_t]
    library.dunkelva_unique_append.argtypes = [state, *column]
    library.dunkelva_unique_merge.argtypes = [state, state]
    library.dunkelva_unique_count.argtypes = [state, whole, whole]
    library.dunkelva_unique_finish.argtypes = [state, whole, ctypes.c_size_t, whole]
    library.dunkelva_status_text.restype = library.dunkelva_version.restype = ctypes.c_char_p
    return library


class Column:
    """A schema and an array, with what keeps them alive."""

    def __init__(self, schema, array, held=()):
        self.schema, self.array, self.held = schema, array, held

    def __len__(self):
        return self.array.length


class Buffers:
    """The bytes of buffers, each at an address that is chosen by chance."""

    def __init__(self, chance):
        self.chance = chance
        self.pointers, self.held = [], []

    def add(self, content, is_missing=False):
        """Adds a buffer, or a null pointer."""
        skew = self.chance.choice((0, 0, 0, 1, 3))
        kept = ctypes.create_string_buffer(bytes(skew) + content, skew + len(content) or 1)
        self.held.append(kept)
        self.pointers.append(None if is_missing else ctypes.addressof(kept) + skew)


def bits(values):
    """Packs truth values, the first one lowest."""
    packed = bytearray((len(values) + 7) // 8)
    for place, value in enumerate(values):
        packed[place // 8] |= bool(value) << place % 8
    return bytes(packed)


def inner_types(kind):
    """Returns the names and the types inside a type."""
    if isinstance(kind, str) or kind[0] == "dict":
        return []
    if kind[0] == "+s":
        return kind[1]
    if kind[0] == "+m":
        return [("entries", ("+s", [("key", kind[1]), ("value", kind[2])]))]
    return [("item", kind[1])]


def format_of(kind):
    """Returns the format of a type."""
    return kind if isinstance(kind, str) else kind[1] if kind[0] == "dict" else kind[0]


def make_schema(kind, name=""):
    """Makes the schema of a type, and returns it with what keeps it alive."""
    schema, held = ArrowSchema(), []
    schema.format, schema.name = format_of(kind).encode(), name.encode()
    schema.flags, schema.release = 2, RELEASE
    children = [make_schema(inner, name) for name, inner in inner_types(kind)]
    schema.n_children = len(children)
    if children:
        inside = [ctypes.pointer(child) for child, _ in children]
        pointers = (ctypes.POINTER(ArrowSchema) * len(children))(*inside)
        schema.children = ctypes.cast(pointers, ctypes.POINTER(ctypes.POINTER(ArrowSchema)))
        held += [pointers, children]
    if kind[0] == "dict":
        entries = make_schema(kind[2])
        schema.dictionary = ctypes.pointer(entries[0])
        held.append(entries)
    return schema, held


def some_value(kind, chance, null=0.2):
    """Returns a row of a type. Few values are different, so that many rows are the same."""
    if chance.random() < null or kind == "n":
        return None
    if isinstance(kind, str):
        if kind == "b":
            return chance.random() < 0.5
        if kind in ("z", "Z", "vz"):
            return chance.choice((b"", b"a", b"\xff\0", b"a string of twenty two", b"twelve bytes"))
        if kind in ("u", "U", "vu"):
            return chance.choice(("", "a", "é", "a string of twenty two", "thirteen byte")).encode()
        if kind == "tin" or kind.startswith("w:"):
            width = 16 if kind == "tin" else int(kind[2:])
            return bytes(chance.randrange(2) if place < 3 else 7 for place in range(width))
        if kind.startswith("d:"):
            return chance.choice((-1, 0, 10**9))
        return chance.randrange(3)
    if kind[0] == "dict":
        return some_value(kind[2], chance, null / 2)
    if kind[0] == "+s":
        return tuple(some_value(inner, chance) for _, inner in kind[1])
    if kind[0] == "+m":
        pairs = range(chance.randrange(3))
        return [(some_value(kind[1], chance, 0), some_value(kind[2], chance)) for _ in pairs]
    count = int(kind[0][3:]) if kind[0].startswith("+w:") else chance.randrange(4)
    return [some_value(kind[1], chance) for _ in range(count)]


def width_of(kind):
    """Returns the bytes of each row of a type of one size."""
    if kind in NUMBERS:
        return NUMBERS[kind]
    if kind.startswith("w:"):
        return int(kind[2:])
    if kind.startswith("d:") and kind.count(",") == 2:
        return int(kind.rsplit(",", 1)[1]) // 8
    return 8 if kind.startswith("ts") else 16


def fixed_row(kind, row):
    """Returns the bytes of a row of a type of one size."""
    if isinstance(row, bytes):
        return row
    return row.to_bytes(width_of(kind), "little", signed=kind not in UNSIGNED)


def add_views(buffers, rows, chance):
    """Adds the views of rows and what they point to: buffers of which some are used by no row.

    The view of a null row is that of another row, or any sixteen bytes."""
    data = [bytearray(chance.choice((b"", b"unused"))) for _ in range(chance.randrange(1, 4))]
    views = b""
    for row in rows:
        if row is None and chance.random() < 0.5:
            views += chance.randbytes(16)
            continue
        row = b"a string under a null" if row is None else row
        length = len(row).to_bytes(4, "little")
        if len(row) <= 12:
            views += length + row.ljust(12, b"\0")
            continue
        number = chance.randrange(len(data))
        place = data[number].find(row) if chance.random() < 0.5 else -1
        if place < 0:
            place = len(data[number])
            data[number] += row
        views += length + row[:4] + number.to_bytes(4, "little") + place.to_bytes(4, "little")
    buffers.add(views)
    is_long = any(row is None or len(row) > 12 for row in rows)
    used = data if is_long or chance.random() < 0.5 else []
    for content in used:
        buffers.add(bytes(content), is_missing=not content and chance.random() < 0.5)
    lengths = b"".join(len(content).to_bytes(8, "little") for content in used)
    buffers.add(lengths, is_missing=not used)


def filled(rows, hidden):
    """Returns rows in which null ones hold something that is not seen."""
    return [hidden() if row is None else row for row in rows]


def add_offsets(buffers, lengths, size, first):
    """Adds the offsets of rows."""
    ends = [first]
    for length in lengths:
        ends.append(ends[-1] + length)
    buffers.add(b"".join(end.to_bytes(size, "little") for end in ends), is_missing=False)


def make_column(kind, rows, chance, name=""):
    """Makes a column of rows."""
    schema, held = make_schema(kind, name)
    array, kept = make_array(kind, list(rows), chance)
    return Column(schema, array, (held, kept))


def make_array(kind, rows, chance):
    """Makes an array of rows, a window of a longer one, and returns it with what keeps it alive."""
    before, behind = (chance.choice((0, 0, 1, 3, 8, 13)) for _ in range(2))
    array = ArrowArray()
    array.length, array.offset, array.release = len(rows), before, RELEASE
    array.null_count = chance.choice((-1, -1, 5))
    hidden = [some_value(kind, chance) for _ in range(before + behind)]
    rows = hidden[:before] + rows + hidden[before:]
    buffers, children, dictionary = Buffers(chance), [], None
    through = [kind[0] == "dict" and row is None and chance.random() < 0.5 for row in rows]
    if kind != "n":
        present = [row is not None or is_through for row, is_through in zip(rows, through)]
        is_bare = all(present[before : before + array.length]) and chance.random() < 0.5
        buffers.add(bits(present), is_missing=is_bare)
    if kind[0] == "dict":
        dictionary = add_keys(buffers, kind, rows, through, chance)
    elif kind != "n":
        children = add_rows(buffers, kind, rows, chance)
    pointers = (ctypes.c_void_p * (len(buffers.pointers) or 1))(*buffers.pointers)
    array.buffers = ctypes.cast(pointers, ctypes.POINTER(ctypes.c_void_p))
    array.n_buffers = len(buffers.pointers)
    array.n_children = len(children)
    inside = (ctypes.POINTER(ArrowArray) * (len(children) or 1))()
    inside[: len(children)] = [ctypes.pointer(child) for child, _ in children]
    array.children = ctypes.cast(inside, ctypes.POINTER(ctypes.POINTER(ArrowArray)))
    if dictionary:
        array.dictionary = ctypes.pointer(dictionary[0])
    return array, (buffers.held, pointers, inside, children, dictionary)


def add_rows(buffers, kind, rows, chance):
    """Adds the buffers of rows after the validity, and returns the arrays inside."""
    if isinstance(kind, str):
        add_flat(buffers, kind, rows, chance)
        return []
    names = inner_types(kind)
    if kind[0] == "+s":
        full = filled(rows, lambda: tuple(some_value(field, chance) for _, field in names))
        fields = enumerate(names)
        return [make_array(field, [row[k] for row in full], chance) for k, (_, field) in fields]
    inner = names[0][1]
    if kind[0].startswith("+w:"):
        width = int(kind[0][3:])
        full = filled(rows, lambda: [some_value(inner, chance) for _ in range(width)])
        return [make_array(inner, [item for row in full for item in row], chance)]
    full = filled(rows, lambda: [some_value(inner, chance)] if chance.random() < 0.3 else [])
    first = chance.randrange(3)
    add_offsets(buffers, map(len, full), 8 if kind[0] == "+L" else 4, first)
    unused = [some_value(inner, chance) for _ in range(first + chance.randrange(3))]
    items = unused[:first] + [item for row in full for item in row] + unused[first:]
    return [make_array(inner, items, chance)]


def add_flat(buffers, kind, rows, chance):
    """Adds the buffers of an array of one level, which keeps something under nulls too."""
    if kind in ("vz", "vu"):
        add_views(buffers, rows, chance)
        return
    full = filled(rows, lambda: some_value(kind, chance, 0))
    if kind == "b":
        buffers.add(bits(full))
    elif kind in STRINGS:
        first = chance.randrange(3)
        add_offsets(buffers, map(len, full), STRINGS[kind], first)
        buffers.add(b"~" * first + b"".join(full) + b"~" * chance.randrange(2))
    else:
        buffers.add(b"".join(fixed_row(kind, row) for row in full))


def add_keys(buffers, kind, rows, through, chance):
    """Adds the keys of rows, and returns their entries. Some come twice, some are named by no key.

    `through` says which null rows have a key, of a null entry."""
    entries, places, keys = [], {}, b""
    for row, is_through in zip(rows, through):
        key = chance.randrange(100)
        if row is not None or is_through:
            known = places.setdefault(repr(row), [])
            if not known or len(entries) < 60 and chance.random() < 0.05:
                known.append(len(entries))
                entries.append(row)
            key = chance.choice(known)
        keys += key.to_bytes(NUMBERS[kind[1]], "little")
        if len(entries) < 60 and chance.random() < 0.05:
            entries.append(some_value(kind[2], chance, 0.5))
    buffers.add(keys)
    return make_array(kind[2], entries, chance)
