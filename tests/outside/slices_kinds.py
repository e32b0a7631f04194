"""Kinds of arrays: how rows are drawn, and how they are kept, with junk under nulls or without.

A keeper with junk puts rows between others, begins validity in mid-word, spreads long strings over
buffers, begins offsets past 0, and stores under each null what no row of the array is, where the
kind has so many rows. One without begins at 0, and keeps no more than it must.
"""
import itertools

from arithmetic import wrapped
from bits import TYPES, highest, lowest
from reductions import STRINGS, VIEWS, Columns
from slices_arrays import Entry, Fields, FixedLists, Keyed, Leaves, Lists, Nulls, Rows, Structs

SHARE_OF_NULLS = 0.25
TRIES = 60


class Keeper(Columns):
    """Ways to keep rows, at random and the same in each run. No junk is one of the rows that are
    taken."""

    def __init__(self, seed, has_junk):
        super().__init__(seed)
        self.has_junk = has_junk
        self.taken = set()

    def chance(self, share):
        return self.random.random() < share

    def validity(self, present):
        """A validity that must be there where a row is null, and else may be."""
        if all(present) and self.chance(0.5):
            return "-"
        return self.bits(present)

    def edge(self, kind, most):
        """Rows that no array has, to stand beside those that it has."""
        return (
            [kind.some(self) for _ in range(self.random.randint(1, most))] if self.has_junk else []
        )

    def held(self, kind, rows):
        """The array of these rows that another one holds: a slice, where there is junk."""
        front, behind = self.edge(kind, 3), self.edge(kind, 2)
        return kind.kept(self, [*front, *rows, *behind]).cut(len(front), len(rows))

    def under(self, kind, rows, under):
        """The rows, with what is stored under each null in its place: as told, or no row of the
        array."""
        taken, stored = {*rows, *under.values(), *self.taken}, list(rows)
        for i in (i for i, row in enumerate(rows) if row is None):
            stored[i] = under[i] if i in under else self.junk_beside(kind, taken)
            taken.add(stored[i])
        return stored

    def junk_beside(self, kind, taken):
        """Junk that is not yet taken, where the kind has so many rows."""
        drawn = (kind.junk(self) for _ in range(TRIES))
        return next((row for row in drawn if row not in taken), kind.junk(self))

    def offset(self, values):
        """Byte strings between offsets, of which the first is 0 where there is no junk."""
        if self.has_junk:
            return super().offset(values)
        offsets = list(itertools.accumulate(map(len, values), initial=0))
        return f"{len(offsets)} {' '.join(map(str, offsets))} x{b''.join(values).hex()}"

    def viewed(self, values):
        """Byte strings by views, the long ones in one of three buffers, or one after the other,
        the last one first."""
        if self.has_junk:
            return self.spread(values, [b"\xffz", b"", b"abcdz"], values)
        return self.spread(values, [b""], values[::-1])

    def spread(self, values, buffers, stored):
        places = {}
        for value in stored:
            if len(value) > 12 and (value not in places or (self.has_junk and self.chance(0.5))):
                to = self.random.randrange(len(buffers))
                places[value] = (to, len(buffers[to]))
                buffers[to] += value
        views = [view_of(value, places.get(value)) for value in values]
        words = [str(len(views)), *("x" + view.hex() for view in views)]
        return " ".join([*words, str(len(buffers)), *("x" + buffer.hex() for buffer in buffers)])


def view_of(value, place):
    size = len(value).to_bytes(4, "little")
    if len(value) <= 12:
        return size + value.ljust(12, b"\0")
    return size + value[:4] + b"".join(number.to_bytes(4, "little") for number in place)


def few_bits(chance, width):
    """Ones in about an eighth of the places."""
    return (
        chance.random.getrandbits(width)
        & chance.random.getrandbits(width)
        & chance.random.getrandbits(width)
    )


class Kind:
    """What the kinds have in common."""

    def some(self, chance):
        return None if chance.chance(SHARE_OF_NULLS) else self.row(chance)

    def junk(self, chance):
        return self.row(chance)

    def other(self, chance, row):
        """A row that differs from this one, where the kind has one."""
        drawn = (
            (self.row(chance) if row is None else self.changed(chance, row)) for _ in range(TRIES)
        )
        return next((other for other in drawn if other != row), None)

    def changed(self, chance, _):
        return self.row(chance)


class NullKind(Kind):
    name = "null"

    def row(self, _):
        return None

    def kept(self, _keeper, rows, _under=None):
        return Nulls(len(rows))


class LeafKind(Kind):
    """A kind of one level."""

    def kept(self, keeper, rows, under=None):
        stored = keeper.under(self, rows, under or {})
        present = [row is not None for row in rows]
        return Leaves(
            self.kind, stored, self.words(keeper, stored), present, keeper.validity(present)
        )


class Numbers(LeafKind):
    """Numbers that have some bits alike, or of a range; any other ones are junk."""

    def __init__(self, kind, size=0):
        self.kind, self.name, self.span = kind, kind, None
        chance = Columns(f"bits of {kind}")
        self.ones, self.zeros = (few_bits(chance, TYPES[kind][1]) for _ in range(2))
        if size:
            least = chance.random.choice((lowest(kind), highest(kind) - size + 1, 0))
            self.span, self.name = range(least, least + size), f"{kind} of {size} values"

    def row(self, chance):
        if self.span:
            return chance.random.choice(
                (self.span[0], self.span[-1], *chance.random.choices(self.span, k=9))
            )
        return wrapped(self.kind, chance.number(self.kind) & ~self.zeros | self.ones)

    def junk(self, chance):
        """A number outside of the range, or any."""
        low, high = lowest(self.kind), highest(self.kind)
        numbers = [
            low,
            high,
            0,
            chance.number(self.kind),
            *(chance.random.randint(low, high) for _ in range(TRIES)),
        ]
        others = [number for number in numbers if not self.span or number not in self.span]
        return chance.random.choice(others[:5])

    def words(self, _, stored):
        return " ".join(map(str, [len(stored), *stored]))


class Truths(LeafKind):
    """Truth values of which this share is true, over others of which the rest is."""

    kind = "bool"

    def __init__(self, share=0.5):
        self.share, self.name = share, "bool" if share == 0.5 else f"bool, {share} of them true"

    def row(self, chance):
        return chance.chance(self.share)

    def junk(self, chance):
        return not self.row(chance)

    def changed(self, _, row):
        return not row

    def words(self, keeper, stored):
        return keeper.bits(stored)


class Strings(LeafKind):
    """Byte strings or texts whose beginnings are alike, over some at both ends of their order."""

    def __init__(self, kind):
        self.kind = self.name = kind

    def row(self, chance):
        letters = "ab\0\xe9\xff" if "binary" in self.kind else "ab\0\xe9\u20ac"
        if chance.chance(0.1):
            return chance.random.choice(
                (b"", b"a", b"a\0", b"abcd", b"abcdefghijkl", b"abcdefghijklm")
            )
        return chance.string(self.kind, letters, (1, 2, 4, 9) if self.kind in VIEWS else (1, 2, 3))

    def junk(self, chance):
        greatest = b"\xff" if "binary" in self.kind else "\U0010ffff".encode()
        begun = chance.random.choice((b"", b"", greatest, b"abcd", b"abcdefghijkl"))
        return begun + (
            b"" if chance.chance(0.1) else str(chance.random.randrange(10**4)).encode()
        )

    def words(self, keeper, stored):
        return keeper.viewed(stored) if self.kind in VIEWS else keeper.offset(stored)


class Sized(LeafKind):
    """Byte strings of one size."""

    kind = "fixedbinary"

    def __init__(self, size):
        self.size, self.name = size, f"fixedbinary({size})"

    def row(self, chance):
        return bytes(chance.random.choice(b"ab\0") for _ in range(self.size))

    def junk(self, chance):
        return chance.random.randbytes(self.size)

    def words(self, _, stored):
        return f"{self.size} {len(stored)} x{b''.join(stored).hex()}"


def changed_part(chance, parts, kinds):
    """The parts of a row with one of them changed."""
    at = chance.random.randrange(len(parts))
    return (*parts[:at], kinds[at].other(chance, parts[at]), *parts[at + 1 :])


class ListKind(Kind):
    """Lists of up to three items, between offsets of 32 bits or of 64."""

    def __init__(self, kind, item):
        self.kind, self.item, self.name = kind, item, f"{kind}({item.name})"

    def row(self, chance):
        return Rows(
            tuple(self.item.some(chance) for _ in range(chance.random.choice((0, 1, 1, 2, 3))))
        )

    def changed(self, chance, row):
        if row.rows and chance.chance(0.7):
            return Rows(changed_part(chance, row.rows, len(row.rows) * [self.item]))
        return (
            Rows(row.rows[:-1])
            if row.rows and chance.chance(0.5)
            else Rows((*row.rows, self.item.some(chance)))
        )

    def kept(self, keeper, rows, under=None):
        if not keeper.has_junk:
            under = {**dict.fromkeys(range(len(rows)), Rows(())), **(under or {})}
        stored = keeper.under(self, rows, under or {})
        front, behind = keeper.edge(self.item, 2), keeper.edge(self.item, 2)
        offsets = list(itertools.accumulate((len(row.rows) for row in stored), initial=len(front)))
        items = [*front, *(item for row in stored for item in row.rows), *behind]
        present = [row is not None for row in rows]
        return Lists(
            self.kind, offsets, keeper.held(self.item, items), present, keeper.validity(present)
        )


class FixedListKind(Kind):
    """Lists of one width."""

    def __init__(self, width, item):
        self.width, self.item, self.name = width, item, f"fixedlist({width} {item.name})"

    def row(self, chance):
        return Rows(tuple(self.item.some(chance) for _ in range(self.width)))

    def changed(self, chance, row):
        return Rows(changed_part(chance, row.rows, self.width * [self.item])) if self.width else row

    def kept(self, keeper, rows, under=None):
        stored = keeper.under(self, rows, under or {})
        present = [row is not None for row in rows]
        items = keeper.held(self.item, [item for row in stored for item in row.rows])
        return FixedLists(self.width, items, present, keeper.validity(present))


class StructKind(Kind):
    """Structs of fields of these kinds, by their names."""

    def __init__(self, **fields):
        self.fields = fields
        self.name = f"struct({', '.join(f'{name} {kind.name}' for name, kind in fields.items())})"

    def row(self, chance):
        return Fields(tuple(kind.some(chance) for kind in self.fields.values()))

    def changed(self, chance, row):
        return (
            Fields(changed_part(chance, row.rows, list(self.fields.values())))
            if self.fields
            else row
        )

    def kept(self, keeper, rows, under=None):
        stored = keeper.under(self, rows, under or {})
        present = [row is not None for row in rows]
        columns = [
            keeper.held(kind, [row.rows[k] for row in stored])
            for k, kind in enumerate(self.fields.values())
        ]
        return Structs(list(self.fields), columns, present, keeper.validity(present))


class DictKind(Kind):
    """Rows of a few entries, of which some are null and some are equal."""

    def __init__(self, keys, entry):
        self.keys, self.entry, self.name = keys, entry, f"dict({keys} {entry.name})"
        chance = Keeper(self.name, False)
        self.pool = [None, *(entry.row(chance) for _ in range(6))]

    def row(self, chance):
        return Entry(chance.random.choice(self.pool))

    def other(self, chance, row):
        """Another row; in place of a null one often a key to a null entry, which is the same row
        kept in another way."""
        return Entry(None) if row is None and chance.chance(0.5) else super().other(chance, row)

    def junk_key(self, keeper, entries):
        """A key that may name no entry."""
        return keeper.random.choice(
            (
                lowest(self.keys),
                highest(self.keys),
                len(entries),
                0,
                max(len(entries) - 1, 0),
                keeper.random.randint(lowest(self.keys), highest(self.keys)),
            )
        )

    def entries(self, keeper, rows):
        """The entries that rows name; where there is junk, in any order, with some twice and some
        that none names."""
        entries = list(dict.fromkeys(row.row for row in rows if row is not None))
        if keeper.has_junk:
            entries += [keeper.random.choice(self.pool) for _ in range(3)]
            keeper.random.shuffle(entries)
        return entries

    def kept(self, keeper, rows, under=None):
        stored = [(under or {}).get(i) if row is None else row for i, row in enumerate(rows)]
        entries = self.entries(keeper, stored)
        keys = [
            self.junk_key(keeper, entries) if row is None else self.key_of(keeper, row, entries)
            for row in stored
        ]
        return self.keyed(keeper, keys, entries, rows)

    def key_of(self, keeper, row, entries):
        return keeper.random.choice([at for at, entry in enumerate(entries) if entry == row.row])

    def keyed(self, keeper, keys, entries, rows):
        present = [row is not None for row in rows]
        return Keyed(
            self.keys, keys, keeper.held(self.entry, entries), present, keeper.validity(present)
        )

    def with_keys_of(self, keeper, array):
        """The same present keys over the same entries, kept anew."""
        rows, entries = array.rows(), array.entries.rows()
        keys = [
            self.junk_key(keeper, entries) if row is None else array.key(i)
            for i, row in enumerate(rows)
        ]
        return self.keyed(keeper, keys, entries, rows)


# how many values the numbers of each type have that states are asked of: about 127 stand in a word
SPANS = {"i8": 3, "i16": 126, "i32": 127, "i64": 128, "u8": 150, "u16": 5, "u32": 40, "u64": 1}

LEAVES = [
    NullKind(),
    *(Truths(share) for share in (0.5, 0.04, 0.96)),
    *map(Numbers, TYPES),
    *itertools.starmap(Numbers, SPANS.items()),
    *map(Strings, (*STRINGS, *VIEWS)),
    *map(Sized, (5, 0)),
]

NESTED = [
    ListKind("list", Numbers("i32")),
    ListKind("list", ListKind("largelist", Strings("utf8view"))),
    ListKind("list", DictKind("i8", Strings("utf8"))),
    ListKind("list", NullKind()),
    ListKind("largelist", Strings("binaryview")),
    ListKind("largelist", StructKind(a=Truths(), b=Numbers("u64"))),
    ListKind("largelist", FixedListKind(2, Numbers("i16"))),
    FixedListKind(3, Numbers("u8")),
    FixedListKind(2, ListKind("list", Strings("binary"))),
    FixedListKind(1, StructKind(a=Sized(2), b=Truths())),
    FixedListKind(0, Numbers("i32")),
    StructKind(a=Numbers("i64"), b=Strings("utf8")),
    StructKind(
        a=Truths(), b=ListKind("list", Numbers("i8")), c=DictKind("u8", Strings("largebinary"))
    ),
    StructKind(a=StructKind(b=Numbers("i128")), c=FixedListKind(2, Strings("utf8view"))),
    StructKind(),
    DictKind("i8", Strings("utf8")),
    DictKind("i16", Numbers("i32")),
    DictKind("i32", Strings("binaryview")),
    DictKind("i64", ListKind("list", Numbers("u8"))),
    DictKind("u8", Truths()),
    DictKind("u16", StructKind(a=Numbers("i16"), b=Strings("utf8"))),
    DictKind("u32", Strings("largeutf8")),
    DictKind("u32", FixedListKind(2, Truths())),
    DictKind("u64", DictKind("i8", Strings("utf8view"))),
    DictKind("i16", NullKind()),
    DictKind("i32", DictKind("u8", DictKind("i64", Sized(2)))),
]

ALL_KINDS = [*LEAVES, *NESTED]
