"""Which parts make an array, why others make none, and the rows of an array: an account of its own,
which reads arrays as recorded cases write them and follows the rules below.

An array is written as its first row, how many rows, its kind, and the parts of the kind; arrays in
it are written in the same way, and are made before the one that holds them. So the fault that is
told is that of the innermost array first, then of the next one beside it, and at last that of the
whole. Of one array it is the first of these that holds:

1. Lengths do not fit: a validity has not exactly one bit a row; or of byte strings of one size, or
   lists of one width, there are not size times rows bytes, or width times rows items, in whole
   numbers without a bound. Between offsets there is one row less than there are offsets, and none
   where there is no offset.
2. Offsets of row i are not good: they do not rise, or the first is negative, or the second is
   greater than the number of bytes or items. Without an offset that is row 0. A single offset has
   no row, and is itself at least 0 and at most that number; else it is row 0.
3. Field i does not fit: column i has not as many rows as the struct, or not the type of the field;
   where all pairs fit and there are more of the one than of the other, i is the lesser count.
4. View i is not good: a row of at most 12 bytes stands in the view, with zeros after it; a longer
   one stands in the buffer of that number, from the offset on and whole, and its first four bytes
   stand in the view too.
5. Row i is not UTF-8, of texts: the bytes of that row by themselves.
6. Key i is out of range: a key that no validity masks is negative, or not less than the number of
   entries.

All of these but the last are asked of null rows too. Row i is always the first such row.
"""
TYPES = {
    sign + str(width): (-(2 ** (width - 1)) if sign == "i" else 0, 2 ** (width - (sign == "i")) - 1)
    for sign in "iu"
    for width in (8, 16, 32, 64, 128)
}
KEYS = ("i8", "i16", "i32", "i64", "u8", "u16", "u32", "u64")
OFFSETS = {
    "binary": "i32",
    "utf8": "i32",
    "list": "i32",
    "largebinary": "i64",
    "largeutf8": "i64",
    "largelist": "i64",
}
COUNT = "u64"
GREATEST_COUNT = TYPES[COUNT][1]
SHORT = 12


class Unreadable(Exception):
    """A word is missing, or is not what should stand in its place."""


class NoArray(Exception):
    """Why parts make no array."""


def number_of(word, kind):
    """The number of a type that a word writes."""
    low, high = TYPES[kind]
    digits = word[1:] if word[:1] == "+" or (word[:1] == "-" and low < 0) else word
    if not (digits.isdigit() and digits.isascii()):
        raise Unreadable
    digits = digits.lstrip("0")
    if len(digits) > 40:
        raise Unreadable
    number = int(digits or "0")
    number = -number if word[0] == "-" else number
    if not low <= number <= high:
        raise Unreadable
    return number


def bits_of(word):
    """The digits of bits, those before the first one cut off."""
    at, colon, digits = word.partition(":")
    if not colon or at[:1] != "b":
        raise Unreadable
    at = number_of(at[1:], COUNT)
    if digits.strip("01") or at > len(digits):
        raise Unreadable
    return digits[at:]


def bytes_of(word):
    if word[:1] != "x" or len(word) % 2 == 0 or word[1:].strip("0123456789abcdef"):
        raise Unreadable
    return bytes.fromhex(word[1:])


class Words:
    """The words of a line, one after the other."""

    def __init__(self, words):
        self.words, self.next = words, 0

    def read(self):
        if self.next >= len(self.words):
            raise Unreadable
        self.next += 1
        return self.words[self.next - 1]

    def take(self, word):
        is_next = self.words[self.next : self.next + 1] == [word]
        self.next += is_next
        return is_next

    def are_read(self):
        return self.next >= len(self.words)

    def number(self, kind=COUNT):
        return number_of(self.read(), kind)

    def numbers(self, kind):
        n = self.number()
        if n > len(self.words):
            raise Unreadable
        return [self.number(kind) for _ in range(n)]

    def strings(self):
        n = self.number()
        if n > len(self.words):
            raise Unreadable
        return [bytes_of(self.read()) for _ in range(n)]

    def validity(self):
        """A digit for each bit, or None."""
        word = self.read()
        return None if word == "-" else bits_of(word)


# ---- arrays


class Array:
    """Rows, of which a validity masks some: the `n` rows from row `at` on of what its parts store.

    `slots` are the leaf slots of stored rows, and `visits` how many rows a walk over them meets."""

    def __init__(self, dtype, n, present=None):
        self.dtype, self.at, self.n, self.present = dtype, 0, n, present

    def cut(self, at, n):
        if at + n > self.n:
            raise Unreadable
        self.at, self.n = self.at + at, n
        return self

    def is_null(self, i):
        return self.present is not None and self.present[i] == "0"

    def stored_row(self, i):
        return "null" if self.is_null(i) else self.stored(i)

    def row(self, i):
        return self.stored_row(self.at + i)

    def rows(self):
        return [self.row(i) for i in range(self.n)]

    def nulls(self):
        """How many rows a validity masks; of dictionaries, how many keys."""
        return 0 if self.present is None else self.present[self.at : self.at + self.n].count("0")

    def slots(self, _at, n):
        return n

    def visits(self, _at, n):
        return n

    def all_slots(self):
        return self.slots(self.at, self.n)

    def all_visits(self):
        return self.visits(self.at, self.n)


class Nulls(Array):
    def is_null(self, _i):
        return True

    def nulls(self):
        return self.n

    def slots(self, _at, _n):
        return 0


class Values(Array):
    """Values that are text already."""

    def __init__(self, dtype, values, present):
        super().__init__(dtype, len(values), present)
        self.values = values

    def stored(self, i):
        return self.values[i]


class Strings(Values):
    def stored(self, i):
        return "x" + self.values[i].hex()


class Sized(Array):
    def __init__(self, size, n, data, present):
        super().__init__(f"fixedbinary({size})", n, present)
        self.size, self.data = size, data

    def stored(self, i):
        return "x" + self.data[self.size * i : self.size * (i + 1)].hex()


class Lists(Array):
    def __init__(self, kind, offsets, items, present):
        super().__init__(f"{kind}({items.dtype})", max(len(offsets) - 1, 0), present)
        self.offsets, self.items = offsets, items

    def window(self, at, n):
        return self.items.at + self.offsets[at], self.offsets[at + n] - self.offsets[at]

    def stored(self, i):
        first, n = self.window(i, 1)
        return "[" + ",".join([self.items.stored_row(k) for k in range(first, first + n)]) + "]"

    def slots(self, at, n):
        return self.items.slots(*self.window(at, n))

    def visits(self, at, n):
        return n + self.items.visits(*self.window(at, n))


class FixedLists(Lists):
    def __init__(self, width, n, items, present):
        Array.__init__(self, f"fixedlist({width} {items.dtype})", n, present)
        self.width, self.items = width, items

    def window(self, at, n):
        return self.items.at + self.width * at, self.width * n


class Structs(Array):
    def __init__(self, n, names, columns, present):
        fields = ", ".join(
            f"{name} {column.dtype}" for name, column in zip(names, columns, strict=True)
        )
        super().__init__(f"struct({fields})", n, present)
        self.columns = columns

    def stored(self, i):
        return "{" + ",".join([column.row(i) for column in self.columns]) + "}"

    def slots(self, at, n):
        return min(sum(column.slots(column.at + at, n) for column in self.columns), GREATEST_COUNT)

    def visits(self, at, n):
        return n + sum(column.visits(column.at + at, n) for column in self.columns)


class Dictionary(Array):
    """A row whose key names a null entry is null; its key is present all the same."""

    def __init__(self, kind, keys, entries, present):
        super().__init__(f"dict({kind} {entries.dtype})", len(keys), present)
        self.keys, self.entries = keys, entries

    def stored(self, i):
        row = self.entries.row(self.keys[i])
        return row if row == "null" else f"<{row}>"

    def places(self, at, n):
        return [self.entries.at + self.keys[i] for i in range(at, at + n) if not self.is_null(i)]

    def slots(self, at, n):
        return min(
            sum(self.entries.slots(place, 1) for place in self.places(at, n)), GREATEST_COUNT
        )

    def visits(self, at, n):
        return n + sum(self.entries.visits(place, 1) for place in self.places(at, n))


# ---- rules


def ask_length(n, present):
    if present is not None and len(present) != n:
        raise NoArray("lengths do not fit")


def ask_offsets(offsets, n):
    pairs = list(zip(offsets, offsets[1:])) if len(offsets) > 1 else [2 * tuple(offsets)]
    for row, pair in enumerate(pairs):
        if not pair or not 0 <= pair[0] <= pair[1] <= n:
            raise NoArray(f"offsets of row {row} are not good")


def string_of(view, buffers):
    """The byte string that a view describes, or None."""
    n = int.from_bytes(view[:4], "little")
    if n <= SHORT:
        return view[4 : 4 + n] if not any(view[4 + n :]) else None
    number, at = int.from_bytes(view[8:12], "little"), int.from_bytes(view[12:], "little")
    if (
        number >= len(buffers)
        or at + n > len(buffers[number])
        or buffers[number][at : at + 4] != view[4:8]
    ):
        return None
    return buffers[number][at : at + n]


def ask_texts(strings):
    for row, string in enumerate(strings):
        try:
            string.decode("utf-8")
        except UnicodeDecodeError:
            raise NoArray(f"row {row} is not UTF-8") from None


def ask_keys(keys, n, present):
    for row, key in enumerate(keys):
        if not 0 <= key < n and (present is None or present[row] == "1"):
            raise NoArray(f"key {row} is out of range")


def ask_columns(n, dtypes, columns):
    for at, (dtype, column) in enumerate(zip(dtypes, columns)):
        if column.n != n or column.dtype != dtype:
            raise NoArray(f"field {at} does not fit")
    if len(dtypes) != len(columns):
        raise NoArray(f"field {min(len(dtypes), len(columns))} does not fit")


# ---- arrays of parts, in the order in which words write these


def booleans(words, _kind):
    bits, present = bits_of(words.read()), words.validity()
    ask_length(len(bits), present)
    return Values("bool", ["true" if bit == "1" else "false" for bit in bits], present)


def integers(words, kind):
    values, present = words.numbers(kind), words.validity()
    ask_length(len(values), present)
    return Values(kind, list(map(str, values)), present)


def strings(words, kind):
    offsets, data, present = words.numbers(OFFSETS[kind]), bytes_of(words.read()), words.validity()
    ask_length(max(len(offsets) - 1, 0), present)
    ask_offsets(offsets, len(data))
    rows = [data[first:last] for first, last in zip(offsets, offsets[1:])]
    if "utf8" in kind:
        ask_texts(rows)
    return Strings(kind, rows, present)


def viewed(words, kind):
    views, buffers, present = words.strings(), None, None
    if any(len(view) != 16 for view in views):
        raise Unreadable
    buffers, present = words.strings(), words.validity()
    ask_length(len(views), present)
    rows = [string_of(view, buffers) for view in views]
    if None in rows:
        raise NoArray(f"view {rows.index(None)} is not good")
    if kind == "utf8view":
        ask_texts(rows)
    return Strings(kind, rows, present)


def sized(words, _kind):
    size, n, data, present = (
        words.number(),
        words.number(),
        bytes_of(words.read()),
        words.validity(),
    )
    ask_length(n, present)
    if size * n != len(data):
        raise NoArray("lengths do not fit")
    return Sized(size, n, data, present)


def lists(words, kind):
    offsets, present = words.numbers(OFFSETS[kind]), words.validity()
    items = array_of(words)
    ask_length(max(len(offsets) - 1, 0), present)
    ask_offsets(offsets, items.n)
    return Lists(kind, offsets, items, present)


def fixed_lists(words, _kind):
    width, n, present = words.number(), words.number(), words.validity()
    items = array_of(words)
    ask_length(n, present)
    if width * n != items.n:
        raise NoArray("lengths do not fit")
    return FixedLists(width, n, items, present)


def structs(words, _kind):
    n, count, present = words.number(), words.number(), words.validity()
    names, columns = [], []
    for _ in range(count):
        names.append(words.read())
        columns.append(array_of(words))
    ask_length(n, present)
    ask_columns(n, [column.dtype for column in columns], columns)
    return Structs(n, names, columns, present)


def dictionary(words, _kind):
    kind = words.read()
    if kind not in KEYS:
        raise Unreadable
    keys, present = words.numbers(kind), words.validity()
    ask_length(len(keys), present)
    entries = array_of(words)
    ask_keys(keys, entries.n, present)
    return Dictionary(kind, keys, entries, present)


READERS = {
    "null": lambda words, kind: Nulls(kind, words.number()),
    "bool": booleans,
    **dict.fromkeys(TYPES, integers),
    **dict.fromkeys(("binary", "largebinary", "utf8", "largeutf8"), strings),
    **dict.fromkeys(("binaryview", "utf8view"), viewed),
    "fixedbinary": sized,
    "list": lists,
    "largelist": lists,
    "fixedlist": fixed_lists,
    "struct": structs,
    "dict": dictionary,
}


def array_of(words):
    """The array that the next words write."""
    at, n, kind = words.number(), words.number(), words.read()
    if kind not in READERS:
        raise Unreadable
    return READERS[kind](words, kind).cut(at, n)


def named_array(words):
    """The array of a line, after its name and the sign: after it no word stands."""
    words.take("shared")
    array = array_of(words)
    if not words.are_read():
        raise Unreadable
    return array


def struct_of(words, arrays):
    """What `struct_try_new` makes: how many rows, their validity, fields of a name and an array's
    type, and columns."""
    n, present = words.number(), words.validity()
    fields = [(words.read(), arrays[words.read()]) for _ in range(words.number())]
    columns = [arrays[words.read()] for _ in range(words.number())]
    ask_length(n, present)
    ask_columns(n, [array.dtype for _, array in fields], columns)
    return Structs(n, [name for name, _ in fields], columns, present)
