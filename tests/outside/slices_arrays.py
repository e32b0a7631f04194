"""Arrays of any kind, as the words of a line keep them, and what is said of their rows by the Arrow
layout.

A row is null (None), a truth value, a whole number, a byte string, the rows of a list, the fields
of a struct, or what the key of a dictionary names. A row whose validity bit is 0 is null, whatever
is stored there, and so is one whose key names an entry that is null.
"""
import copy
from typing import NamedTuple

import reductions
from bits import shown


class Rows(NamedTuple):
    """A row of a list."""

    rows: tuple


class Fields(NamedTuple):
    """A row of a struct."""

    rows: tuple


class Entry(NamedTuple):
    """What a present key names."""

    row: object


def is_null(row):
    """Whether a row is null, as one is whose key names a null entry. Nothing else in these scripts
    decides that."""
    return is_null(row.row) if isinstance(row, Entry) else row is None


def same(a, b):
    """Whether two rows of one type are the same tree, null being the same as null alone."""
    if is_null(a) or is_null(b):
        return is_null(a) and is_null(b)
    if isinstance(a, (Rows, Fields)):
        return len(a.rows) == len(b.rows) and all(map(same, a.rows, b.rows))
    return same(a.row, b.row) if isinstance(a, Entry) else a == b


def row_text(row):
    if is_null(row):
        return "null"
    if isinstance(row, Rows):
        return f"[{','.join(map(row_text, row.rows))}]"
    if isinstance(row, Fields):
        return "{" + ",".join(map(row_text, row.rows)) + "}"
    return f"<{row_text(row.row)}>" if isinstance(row, Entry) else reductions.shown(row)


def raw_bits(left, right, passes):
    """Where two rows pass, with `x` where one of them is null."""
    pairs = zip(left, right, strict=True)
    return "b0:" + "".join(
        "x" if is_null(a) or is_null(b) else "01"[passes(a, b)] for a, b in pairs
    )


def missing_bits(left, right, wanted):
    """Where two rows are the same, or where they are not."""
    return shown([same(a, b) == wanted for a, b in zip(left, right, strict=True)])


class Array:
    """Stored rows, of which there is a window: `n` from place `at` on, and whether each stored row
    is present."""

    def __init__(self, kind, present, validity):
        self.kind, self.present, self.validity = kind, present, validity
        self.at, self.n = 0, len(present)

    def cut(self, at, n):
        assert at + n <= self.n
        part = copy.copy(self)
        part.at, part.n = self.at + at, n
        return part

    def is_present(self, i):
        return self.present[self.at + i]

    def row(self, i):
        assert i < self.n
        return self.stored(i) if self.is_present(i) else None

    def rows(self):
        return [self.row(i) for i in range(self.n)]

    def null_count(self):
        """How many rows the validity masks; of dictionaries, how many keys."""
        return sum(not self.is_present(i) for i in range(self.n))

    def validity_bits(self):
        """The validity of the window as text."""
        if self.validity == "-":
            return "none"
        return shown([self.is_present(i) for i in range(self.n)])

    def presence(self):
        """Which rows of the window are not null, as far as bits are kept that say so; else None."""
        return None if self.validity == "-" else [self.is_present(i) for i in range(self.n)]

    def text(self):
        return f"{self.at} {self.n} {self.kind} {self.parts()}"


class Nulls(Array):
    """A null array."""

    def __init__(self, n):
        super().__init__("null", n * [False], "-")

    def stored(self, _):
        return None

    def presence(self):
        return self.n * [False]

    def parts(self):
        return str(len(self.present))

    def leaves(self, _at, _n):
        return 0

    def tally(self, *_):
        return 0


class Leaves(Array):
    """An array of one level: its stored rows, and the words that keep them."""

    def __init__(self, kind, values, words, present, validity):
        super().__init__(kind, present, validity)
        self.values, self.words = values, words

    def stored(self, i):
        return self.values[self.at + i]

    def window(self):
        return self.values[self.at : self.at + self.n]

    def parts(self):
        return f"{self.words} {self.validity}"

    def leaves(self, _, n):
        return n

    def tally(self, _other, _a, _b, n):
        return n


class Lists(Array):
    """Lists of the items between offsets."""

    def __init__(self, kind, offsets, items, present, validity):
        super().__init__(kind, present, validity)
        self.offsets, self.items = offsets, items

    def span(self, i):
        return self.offsets[self.at + i], self.offsets[self.at + i + 1]

    def stored(self, i):
        return Rows(tuple(map(self.items.row, range(*self.span(i)))))

    def parts(self):
        numbers = " ".join(map(str, self.offsets))
        return f"{len(self.offsets)} {numbers} {self.validity} {self.items.text()}"

    def leaves(self, at, n):
        first, last = self.offsets[self.at + at], self.offsets[self.at + at + n]
        return self.items.leaves(first, last - first)

    def tally(self, other, a, b, n):
        """Those of the items of rows that are present on both sides and as long."""
        total = 0
        for i in range(n):
            (first, end), (there, last) = self.span(a + i), other.span(b + i)
            if self.is_present(a + i) and other.is_present(b + i) and end - first == last - there:
                total += self.items.tally(other.items, first, there, end - first)
        return total


class FixedLists(Array):
    """Lists of one width."""

    def __init__(self, width, items, present, validity):
        super().__init__("fixedlist", present, validity)
        self.width, self.items = width, items

    def stored(self, i):
        first = self.width * (self.at + i)
        return Rows(tuple(map(self.items.row, range(first, first + self.width))))

    def parts(self):
        return f"{self.width} {len(self.present)} {self.validity} {self.items.text()}"

    def leaves(self, at, n):
        return self.items.leaves(self.width * (self.at + at), self.width * n)

    def tally(self, other, a, b, n):
        """Those of all items, the ones under nulls among them."""
        assert self.width == other.width
        here, there = self.width * (self.at + a), self.width * (other.at + b)
        return self.items.tally(other.items, here, there, self.width * n)


class Structs(Array):
    """Structs of a row of each column."""

    def __init__(self, names, columns, present, validity):
        super().__init__("struct", present, validity)
        self.names, self.columns = names, columns

    def stored(self, i):
        return Fields(tuple(column.row(self.at + i) for column in self.columns))

    def parts(self):
        fields = "".join(
            f" {name} {column.text()}"
            for name, column in zip(self.names, self.columns, strict=True)
        )
        return f"{len(self.present)} {len(self.names)} {self.validity}{fields}"

    def leaves(self, at, n):
        return sum(column.leaves(self.at + at, n) for column in self.columns)

    def tally(self, other, a, b, n):
        """Those of all columns, the ones under nulls among them."""
        pairs = zip(self.columns, other.columns, strict=True)
        return sum(here.tally(there, self.at + a, other.at + b, n) for here, there in pairs)


class Keyed(Array):
    """Keys of a type, and their entries. A key under a null may be any number."""

    def __init__(self, key_kind, keys, entries, present, validity):
        super().__init__("dict", present, validity)
        self.key_kind, self.keys, self.entries = key_kind, keys, entries

    def key(self, i):
        return self.keys[self.at + i]

    def stored(self, i):
        has_entry = 0 <= self.key(i) < self.entries.n
        return Entry(self.entries.row(self.key(i))) if has_entry else None

    def presence(self):
        """The bits of the keys, joined with those of the entries where there are such."""
        entries = self.entries.presence()
        if entries is None:
            return super().presence()
        return [self.is_present(i) and entries[self.key(i)] for i in range(self.n)]

    def parts(self):
        numbers = " ".join(map(str, [len(self.keys), *self.keys]))
        return f"{self.key_kind} {numbers} {self.validity} {self.entries.text()}"

    def leaves(self, at, n):
        return sum(
            self.entries.leaves(self.key(i), 1) for i in range(at, at + n) if self.is_present(i)
        )

    def tally(self, other, a, b, n):
        """Those of the two entries of each row whose keys are both present."""
        places = (i for i in range(n) if self.is_present(a + i) and other.is_present(b + i))
        return sum(
            self.entries.tally(other.entries, self.key(a + i), other.key(b + i), 1) for i in places
        )
