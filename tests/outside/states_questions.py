"""Questions on states of distinct values, at random, the same in each run.

usage: states_questions.py    prints the file data/states_sweeps.txt: questions, and the answers of
                              `states.py`

A state has a slot for each value of its range and one for null; up to 128 stand in one word, and
more in a bitmap. In a chunk without nulls it is asked before each 512 rows whether all values were
seen. So many ranges have about 127 values, and some chunks about 512 rows. The dictionaries of
states have null entries or none, are of nulls alone, or name entries of further dictionaries; those
of the arrays that are appended are of nulls alone.
"""
import itertools

from arithmetic import KINDS
from bits import TYPES, highest, lowest
from reductions import Columns
from states import answered

SMALL = (0, 1, 2, 5, 9, 33, 65)
SIZES = (1, 2, 3, 126, 127, 128, 129, 200)
ENTRIES = (0, 1, 2, 5, 126, 127, 128, 130)
# of ranges of a few values: how many rows, and in which of them the last value comes
PLACES = (
    (511, 0),
    (512, 511),
    (513, 512),
    (513, 511),
    (1024, 512),
    (1024, 1023),
    (1500, 511),
    (1500, 1499),
    (1500, 1024),
)
ENTRY_KINDS = ("i32", "utf8", "utf8view", "largebinary", "bool")
# pairs of entries that are null where no validity of their own says so: nulls, and dictionaries so
# many levels deep
NULL_ENTRIES = (("null", 1), (1, "utf8"), (1, 2), (3, "null"), ("bool", 2))


def spans(kind):
    """Ranges of the type: from its least number on, up to its greatest, and about 0."""
    for size in (*SIZES, *((256,) if TYPES[kind][1] == 8 else (3000,))):
        places = {lowest(kind), highest(kind) - size + 1, max(lowest(kind), -(size // 2))}
        for least in sorted(places):
            yield range(least, least + size)


class Chunks(Columns):
    """Chunks of columns at random, which begin after other rows, over any values."""

    def chance(self, share):
        return self.random.random() < share

    def drawn(self, span, n, nulls):
        """Values of a range, its ends more often than others, and nulls in this share."""
        return [None if self.chance(nulls) else self.value(span) for _ in range(n)]

    def value(self, span):
        places = (0, len(span) - 1) if self.chance(0.1) else (self.random.randrange(len(span)),)
        return span[self.random.choice(places)]

    def small(self, span):
        nulls = self.random.choice((0, 0, 0.3, 1)) if len(span) > 0 else 1
        return self.drawn(span, self.random.choice(SMALL), nulls)

    def whole(self, span, n):
        """Rows in any order that hold all values of a range, one of them in the last row alone."""
        values = list(span)
        self.random.shuffle(values)
        rows = [self.random.choice(values[:-1] or values) for _ in range(n - len(values))] + values[
            :-1
        ]
        self.random.shuffle(rows)
        return [*rows, values[-1]]

    def late(self, span, n, place):
        """Rows that begin with all values of a range but one, which comes at a place alone."""
        values = list(span)
        self.random.shuffle(values)
        others = values[:-1] or values
        rows = [*others, *(self.random.choice(others) for _ in range(n))][:n]
        rows[place] = values[-1]
        return rows

    def junk(self, kind, span):
        """A number that no row has to be."""
        return self.random.choice(
            (lowest(kind), highest(kind), span[0], span[-1], self.random.randrange(100))
        )

    def parts(self, kind, span, rows, may_stand):
        """Rows between others, of which those that may stand can be present: the first one, how
        many, and the array."""
        edges = [
            [self.junk(kind, span) for _ in range(self.random.choice((0, 0, 1, 3)))]
            for _ in range(2)
        ]
        middle = [self.junk(kind, span) if row is None else row for row in rows]
        values = [*edges[0], *middle, *edges[1]]
        validity = "-"
        if None in rows or not all(map(may_stand, values)) or self.chance(0.25):
            sides = [[may_stand(value) and self.chance(0.5) for value in edge] for edge in edges]
            validity = self.bits([*sides[0], *(row is not None for row in rows), *sides[1]])
        return (
            len(edges[0]),
            len(rows),
            f"{kind} {' '.join(map(str, [len(values), *values]))} {validity}",
        )

    def numbers(self, name, kind, span, rows):
        at, n, parts = self.parts(kind, span, rows, lambda _: True)
        return f"{name} = {at} {n} {parts}"

    def keys(self, name, rows, entries):
        """Keys over as many null entries."""
        at, n, parts = self.parts("u32", range(max(entries, 1)), rows, lambda key: key < entries)
        return f"{name} = {at} {n} dict {parts} 0 {entries} null {entries}"

    def dictionary(self, levels, n):
        """Rows of so many dictionaries, the last of them over numbers or nulls."""
        size = self.random.randint(1, 9)
        entries = f"0 {size} null {size}"
        if levels > 1:
            entries = self.dictionary(levels - 1, size)
        elif self.chance(0.8):
            entries = super().numbers("", "i16", "nulls", size).removeprefix(" = ")
        rows = self.drawn(range(size), n, self.random.choice((0, 0.2)))
        at, n, parts = self.parts("u16", range(size), rows, lambda key: key < size)
        return f"{at} {n} dict {parts} {entries}"

    def entries(self, name, kind, n):
        if kind == "null":
            return f"{name} = 0 {n} null {n}"
        if not isinstance(kind, str):
            return f"{name} = {self.dictionary(kind, n)}"
        nulls = self.random.choice(("no null", "nulls"))
        if kind == "bool":
            return self.truths(name, nulls, n)
        return (
            super().numbers(name, kind, nulls, n)
            if kind in TYPES
            else self.strings(name, kind, nulls, n)
        )

    def tree(self, words):
        """A tree in postfix with these leaves, of any shape."""
        if len(words) == 1:
            return words[0]
        at = self.random.randrange(1, len(words))
        return f"{self.tree(words[:at])} {self.tree(words[at:])} +"

    def some_leaves(self, words):
        return self.tree([self.random.choice(words) for _ in range(self.random.randint(1, 6))])


def within(kind, span, chance):
    """Whether rows are accepted, of the whole range and of the range less an end."""
    yield f"accepts_numbers {kind} {span[0]} {span[-1]} {chance.random.choice('abcd')}"
    if len(span) > 1:
        yield f"accepts_numbers {kind} {span[1]} {span[-1]} {chance.random.choice('abcd')}"
        yield f"accepts_numbers {kind} {span[0]} {span[-2]} {chance.random.choice('abcd')}"


def asked_of_numbers(kind, span, chance):
    ends = f"{kind} {span[0]} {span[-1]}"
    yield f"state_numbers {ends} a b | c d"
    yield f"append_all_numbers {ends} d b"
    yield f"merge_tree_numbers {ends} {chance.some_leaves('abcd')}"
    yield from within(kind, span, chance)


def number_case(kind, span, chance):
    yield f"# {kind}: {len(span)} values from {span[0]} on"
    for name in "abcd":
        yield chance.numbers(name, kind, span, chance.small(span))
    yield from asked_of_numbers(kind, span, chance)


def full_case(kind, span, n, chance):
    """A state that a chunk makes full, before others with and without a null."""
    yield f"# {kind}: all of {len(span)} values from {span[0]} on, in {n} rows"
    yield chance.numbers("a", kind, span, chance.whole(span, n))
    yield chance.numbers("b", kind, span, chance.drawn(span, 5, 0))
    yield chance.numbers("c", kind, span, [None])
    ends = f"{kind} {span[0]} {span[-1]}"
    yield f"state_numbers {ends} a b c | c b a b"
    yield f"append_all_numbers {ends} b a"


def late_case(kind, span, n, place, chance):
    """A chunk whose last value comes late, into a new state and into a full one."""
    yield f"# {kind}: {len(span)} values from {span[0]} on, the last of them in row {place} of {n}"
    rows = chance.late(span, n, place)
    yield chance.numbers("a", kind, span, rows)
    yield chance.numbers("b", kind, span, [*rows[:2], None])
    yield f"state_numbers {kind} {span[0]} {span[-1]} a a b | b a a"


def late_cases(kind, chance):
    """Chunks about a block in every type, and of several blocks in two types."""
    many = kind in ("i64", "u8")
    sizes = itertools.cycle((1, 2, 3, 127, 128) if many else (2, 3))
    for (n, place), size in zip(PLACES if many else PLACES[:5], sizes):
        least = highest(kind) - size + 1 if kind == "u8" else 0
        yield from late_case(kind, range(least, least + size), n, place, chance)


def empty_case(kind, chance):
    yield f"# {kind}: a range of no value"
    for name in "abcd":
        yield chance.numbers(name, kind, range(1), chance.small(range(0)))
    yield f"state_empty {kind} a b | c"
    yield f"state_empty {kind} | d"


def range_cases(kind, chance):
    """Whether ends make a range, and ranges are one."""
    yield f"# {kind}: ranges"
    low, high = lowest(kind), highest(kind)
    ends = [
        *itertools.product((low, low + 1, low + 2), (high - 2, high - 1, high)),
        (low, low),
        (high, high),
        (1, 1),
    ]
    for least, greatest in (*ends, (1, 0), (high, low), (high, high - 1), (low + 1, low)):
        yield f"range_fits {kind} {least} {greatest}"
    words = [f"{at} {at + size}" for at in (low, 0, high - 9) for size in (0, 1, 9)]
    for word in words:
        yield f"same_range_numbers {kind} {word} {chance.random.choice((word, *words))}"
        leaves = (word, word, word, word, chance.random.choice(words))
        yield f"one_range_numbers {kind} {chance.some_leaves(leaves)}"


def truth_cases(chance):
    for nulls, n in itertools.product(
        ("no null", "nulls", "nulls alone"), (0, 1, 2, 63, 64, 65, 130, 513)
    ):
        yield f"# truth values: {n} rows with {nulls}"
        yield chance.truths("a", nulls, n)
        yield chance.truths(
            "b", chance.random.choice(("no null", "nulls")), chance.random.choice((0, 1, 2, 9))
        )
        yield chance.truths("c", "nulls alone", chance.random.choice((0, 1)))
        for name in ("unique", "n_unique", "n_unique_non_null", "accepts_truths"):
            yield f"{name} a"
        yield "state_truths a b | c"
        yield f"append_all_truths {chance.random.choice(('a b', 'b c', 'b b', 'c'))}"
        yield f"merge_tree_truths {chance.some_leaves('abc')}"


def asked_of_keys(chance):
    yield "state_keys v a b | w c d"
    yield "state_keys_rows v a | w c"
    yield "state_keys_rows w d b | v"
    yield "append_all_keys v c a d"
    yield f"merge_tree_keys {chance.some_leaves(('v a', 'w b', 'v c', 'w d'))}"
    yield f"accepts_keys v {chance.random.choice('abcd')}"
    yield "accepts_keys fewer a"
    yield "accepts_keys fewer c"
    yield "same_range_keys v w"
    yield "same_range_keys w fewer"
    yield f"one_range_keys {chance.some_leaves('vw')}"
    yield "one_range_keys v w + fewer v + +"


def named(kind):
    return kind if isinstance(kind, str) else f"dictionaries {kind} deep"


def key_case(kind, other_kind, n, chance):
    """States of the keys of two dictionaries of n entries."""
    yield f"# keys of {n} entries: {named(kind)} and {named(other_kind)}"
    yield chance.entries("v", kind, n)
    yield chance.entries("w", other_kind, n)
    yield chance.entries("fewer", kind, max(n - 1, 0) if n != 0 else 1)
    for name in "abc":
        yield chance.keys(name, chance.small(range(n)), chance.random.choice((n, n + 1, 300)))
    every = [key for key in range(n) if n < 3 or chance.chance(0.9)] + [None]
    chance.random.shuffle(every)
    yield chance.keys("d", every, n)
    yield "keys_fit v"
    yield from asked_of_keys(chance)


def replaced_case(n, chance, kind="utf8"):
    """Key states whose range goes beyond the entries, or ends before."""
    yield f"# a range written over that of {n} keys{'' if kind == 'utf8' else f' of {named(kind)}'}"
    yield chance.entries("v", kind, n)
    ends = (
        (0, n + 9),
        (n, n + 200),
        (0, max(n - 1, 0)),
        (max(n - 3, 0), n),
        (highest("u32") - 5, highest("u32")),
    )
    for name, (least, greatest) in zip("abcde", ends):
        span = range(least, greatest + 1)
        yield chance.numbers(name, "u32", span, chance.small(span))
        yield f"key_state v {least} {greatest} {name}"
        yield f"key_state v {least} {greatest} {name} {name}"


def cases():
    for kind in KINDS:
        chance = Chunks(f"states of {kind}")
        for span in spans(kind):
            yield from number_case(kind, span, chance)
        for size in (127, 128, 256):
            least = (
                chance.random.choice((lowest(kind), highest(kind) - size + 1))
                if TYPES[kind][1] < 32
                else 0
            )
            yield from full_case(kind, range(least, least + size), 300, chance)
        yield from late_cases(kind, chance)
        yield from empty_case(kind, chance)
        yield from range_cases(kind, chance)
    chance = Chunks("wide states")
    for kind, n in (("u16", 2000), ("i32", 1024)):
        yield from full_case(kind, range(n), n, chance)
    yield from truth_cases(Chunks("states of truth values"))
    chance = Chunks("states of keys")
    pairs = itertools.cycle(itertools.product(ENTRY_KINDS, ENTRY_KINDS[1:]))
    for n, (kind, other_kind) in zip((*ENTRIES, *ENTRIES[:4], *ENTRIES[:4]), pairs):
        yield from key_case(kind, other_kind, n, chance)
    for n in (0, 1, 2, 9, 127, 128):
        yield from replaced_case(n, chance)
    chance = Chunks("states of keys to nulls")
    for (kind, other_kind), n in itertools.product(NULL_ENTRIES, (1, 2, 9, 127, 130)):
        yield from key_case(kind, other_kind, n, chance)
        yield from replaced_case(n, chance, kind)


if __name__ == "__main__":
    print("\n".join(answered(cases())))
