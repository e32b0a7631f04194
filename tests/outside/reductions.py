"""The answers to questions on counts of bits, reductions, sums and extremes, found from lists of
rows.

usage: reductions.py             prints the file data/reductions_sweeps.txt: questions, and their
                                 answers
       reductions.py FILE..      prints the files, with the answers that are found here

A row is a whole number, a truth value, a byte string or null. The bits of a number are those of the
number modulo 2 to its width, the lowest first; a truth value is one bit. A reduction takes each
place of the present rows by itself. The least row is the present one that no present row is less
than; texts are compared by their bytes.
"""
import itertools

import recorded
from arithmetic import (
    KINDS,
    Chance,
    array_line,
    sum_of_masked,
    sum_of_rows,
    sum_of_two,
    sum_of_values,
    wrapped,
    written,
)
from bits import TYPES, Words, highest, lowest, text

STRINGS = ("binary", "largebinary", "utf8", "largeutf8")
VIEWS = ("binaryview", "utf8view")
HOLDERS = ("null", "list", "largelist", "fixedlist", "struct", "dict")
WITHOUT_ORDER = ("fixedbinary", *HOLDERS)

NAMES = (
    "min_ignore_nan",
    "max_ignore_nan",
    "min_max_ignore_nan",
    "min_propagate_nan",
    "max_propagate_nan",
    "min_max_propagate_nan",
)
# there is no call of an array of any kind that has this name
NOT_DISPATCHED = "min_max_ignore_nan"


def run(bits, wanted):
    """How many bits are the wanted one, up to the first that is not."""
    return len(list(itertools.takewhile(lambda bit: bit == wanted, bits)))


# of a row's bits, the lowest first
COUNTS = {
    "count_ones": lambda bits: bits.count(True),
    "count_zeros": lambda bits: bits.count(False),
    "leading_ones": lambda bits: run(bits[::-1], True),
    "leading_zeros": lambda bits: run(bits[::-1], False),
    "trailing_ones": lambda bits: run(bits, True),
    "trailing_zeros": lambda bits: run(bits, False),
}

# of the bits at one place
JOINS = {"and": all, "or": any, "xor": lambda bits: sum(bits) % 2 == 1}


def width(kind):
    return 1 if kind == "bool" else TYPES[kind][1]


def bits_of(kind, row):
    number = int(row) % 2 ** width(kind)
    return [number // 2**place % 2 == 1 for place in range(width(kind))]


def row_of(kind, bits):
    number = sum(2**place for place, bit in enumerate(bits) if bit)
    return number == 1 if kind == "bool" else wrapped(kind, number)


def reduced(join, kind, rows):
    """What present rows reduce to, each place by itself."""
    if not rows:
        return None
    return row_of(
        kind, [join(column) for column in zip(*(bits_of(kind, row) for row in rows), strict=True)]
    )


def shown(row):
    """A row or none as text, and two of them."""
    if isinstance(row, tuple):
        return " ".join(shown(part) for part in row)
    return "x" + row.hex() if isinstance(row, bytes) else text(row)


def extremes(name, rows):
    """The least of the rows, or the greatest, or both, by the name of the call."""
    if not rows:
        return None
    least = next(a for a in rows if not any(b < a for b in rows))
    greatest = next(a for a in rows if not any(a < b for b in rows))
    return {"min": least, "max": greatest, "min_max": (least, greatest)}[name.rsplit("_", 2)[0]]


class Array:
    """Stored values of a kind, and whether each row is present."""

    def __init__(self, kind, values, present):
        assert len(values) == len(present)
        self.kind, self.values, self.present = kind, values, present

    def rows(self):
        return [
            value if there else None for value, there in zip(self.values, self.present, strict=True)
        ]

    def present_rows(self):
        return [value for value, there in zip(self.values, self.present, strict=True) if there]

    def cut(self, at, n):
        assert at + n <= len(self.values)
        return Array(self.kind, self.values[at : at + n], self.present[at : at + n])


class Case(Words):
    """The words of a line, which may name the arrays of a case."""

    def __init__(self, words, arrays):
        super().__init__(words)
        self.arrays = arrays

    def array(self):
        return self.arrays[self.word()]

    def bytes(self):
        word = self.word()
        assert word[0] == "x"
        return bytes.fromhex(word[1:])

    def strings(self):
        offsets, data = self.numbers(), self.bytes()
        return [data[at:end] for at, end in itertools.pairwise(offsets)]

    def sized(self):
        size, n, data = self.number(), self.number(), self.bytes()
        assert len(data) == size * n
        return [data[size * i : size * (i + 1)] for i in range(n)]

    def viewed(self):
        views = [self.bytes() for _ in range(self.number())]
        buffers = [self.bytes() for _ in range(self.number())]
        return [string_of(view, buffers) for view in views]

    def stored(self, kind):
        if kind in TYPES:
            return self.numbers()
        if kind == "bool":
            return self.bits()
        if kind == "fixedbinary":
            return self.sized()
        return self.viewed() if kind in VIEWS else self.strings()

    def defined(self):
        if self.words[0] == "shared":
            self.word()
        at, n, kind = self.number(), self.number(), self.word()
        if kind in HOLDERS:
            self.words.clear()
            return Array(kind, [], [])
        values = self.stored(kind)
        present = len(values) * [True]
        if self.words[0] == "-":
            self.word()
        else:
            present = self.bits()
        return Array(kind, values, present).cut(at, n)


def string_of(view, buffers):
    """The byte string of a view: its length, then up to twelve bytes; or four bytes, a buffer and a
    place in it."""
    parts = [int.from_bytes(view[at : at + 4], "little") for at in (0, 4, 8, 12)]
    if parts[0] <= 12:
        assert not any(view[4 + parts[0] :])
        return view[4 : 4 + parts[0]]
    string = buffers[parts[2]][parts[3] : parts[3] + parts[0]]
    assert len(string) == parts[0] and string[:4] == view[4:8]
    return string


def count(name, case):
    array = case.array()
    return written(
        None if row is None else COUNTS[name](bits_of(array.kind, row)) for row in array.rows()
    )


def reduction(name, case):
    array = case.array()
    return shown(reduced(JOINS[name], array.kind, array.present_rows()))


def joined(name, case):
    kind = case.word()
    rows = [case.truth() if kind == "bool" else case.number() for _ in range(2)]
    return shown(reduced(JOINS[name], kind, rows))


def of_kinds(name, case, kinds):
    array = case.array()
    assert array.kind in kinds
    return shown(extremes(name, array.present_rows()))


def of_stored(name, case):
    array = case.array()
    assert array.kind in TYPES
    return shown(extremes(name, array.values))


def best(case):
    """The first place at which a best present row stands, and the row; None without a present
    one."""
    preference, array = case.word(), case.array()
    assert array.kind in (*STRINGS, *VIEWS, "fixedbinary")
    found = extremes(
        {"less": "min_", "greater": "max_"}[preference] + "ignore_nan", array.present_rows()
    )
    return None if found is None else (array.rows().index(found), found)


def of_any(name, case):
    array = case.array()
    if array.kind in WITHOUT_ORDER:
        return "refused: not supported"
    found = extremes(name, array.present_rows())
    if isinstance(found, tuple):
        return " ".join(f"{array.kind} {shown(row)}" for row in found)
    return "none" if found is None else f"{array.kind} {shown(found)}"


CALLS = {
    "wrapping_sum_arr": sum_of_rows,
    "wrapping_sum": sum_of_values,
    "wrapping_sum_with_validity": sum_of_masked,
    "wrapping_add_number": sum_of_two,
    "best_place": lambda case: shown((best(case) or [None])[0]),
    "best_string": lambda case: shown((best(case) or [None])[-1]),
}
for called in COUNTS:
    CALLS[called] = lambda case, name=called: count(name, case)
for called in JOINS:
    CALLS["reduce_" + called] = lambda case, name=called: reduction(name, case)
    CALLS["bit_" + called] = lambda case, name=called: joined(name, case)
for called in NAMES:
    CALLS[called + "_kernel"] = lambda case, name=called: of_kinds(name, case, (*TYPES, "bool"))
    CALLS[f"slice_{called}_kernel"] = lambda case, name=called: of_stored(name, case)
    CALLS[f"bytes_{called}_kernel"] = lambda case, name=called: of_kinds(
        name, case, ("binary", "largebinary", "binaryview")
    )
    CALLS[f"text_{called}_kernel"] = lambda case, name=called: of_kinds(
        name, case, ("utf8", "largeutf8", "utf8view")
    )
    if called != NOT_DISPATCHED:
        CALLS["dyn_array_" + called] = lambda case, name=called: of_any(name, case)


def answered(lines):
    """The lines, with the answers that are found here."""
    arrays = {}
    for line in map(recorded.question_of, lines):
        words = line.split(" ")
        if line.startswith("#"):
            arrays = {}
        elif words[1:2] == ["="]:
            case = Case(words[2:], arrays)
            arrays[words[0]] = case.defined()
            assert not case.words, line
        elif line:
            case = Case(words[1:], arrays)
            line = f"{line} -> {CALLS[words[0]](case)}"
            assert not case.words, line
        yield line


LENGTHS = {"no null": (0, 1, 64, 130), "nulls": (1, 63, 64, 65, 130), "nulls alone": (1, 65)}


class Columns(Chance):
    """Arrays at random, the same in each run, whose rows begin after others and whose validity
    begins in mid-word."""

    def presences(self, nulls, n):
        """Which of n rows are present, at least one of them where there are not nulls alone."""
        if nulls == "nulls alone" or n == 0:
            return n * [False]
        present = [self.random.random() < 0.7 for _ in range(n)]
        present[self.random.randrange(n)] = True
        return present

    def column(self, nulls, n, present_value, other_value):
        """The stored values and a validity: of n rows, of some in front of them, the first place,
        and some after."""
        before, behind = self.random.choice((0, 1, 3, 5, 7)), self.random.randint(0, 3)
        if nulls == "no null":
            values = [other_value() for _ in range(before)]
            values += [present_value() for _ in range(n)] + [other_value() for _ in range(behind)]
            return values, None, before
        present = self.presences(nulls, n)
        values = [other_value() for _ in range(before)]
        values += [present_value() if there else other_value() for there in present]
        values += [other_value() for _ in range(behind)]
        edges = [[self.random.random() < 0.5 for _ in range(m)] for m in (before, behind)]
        return values, edges[0] + present + edges[1], before

    def bits(self, bits):
        cut = self.random.randint(0, 70)
        return (
            f"b{cut}:"
            + "".join(self.random.choice("01") for _ in range(cut))
            + "".join("01"[bit] for bit in bits)
        )

    def validity(self, present):
        return "-" if present is None else self.bits(present)

    def numbers(self, name, kind, nulls, n):
        """Numbers of which the present ones have some bits alike, over any numbers."""
        ones, zeros = (
            self.random.getrandbits(width(kind)) & self.random.getrandbits(width(kind))
            for _ in range(2)
        )
        values, present, at = self.column(
            nulls,
            n,
            lambda: wrapped(kind, self.number(kind) & ~zeros | ones),
            lambda: self.other(kind),
        )
        return array_line(name, kind, values, self.validity(present), at, n)

    def other(self, kind):
        return self.random.choice((lowest(kind), highest(kind), 0, self.number(kind)))

    def truths(self, name, nulls, n):
        """Truth values of which none, few or all present ones are true, over others."""
        share = self.random.choice((0, 0.03, 0.5, 0.97, 1))
        values, present, at = self.column(
            nulls, n, lambda: self.random.random() < share, lambda: self.random.random() >= share
        )
        return f"{name} = {at} {n} bool {self.bits(values)} {self.validity(present)}"

    def string(self, kind, letters, sizes):
        """A byte string, or the bytes of a text, whose beginning is that of many others."""
        size = self.random.choice(sizes)
        string = "".join(self.random.choice(letters) for _ in range(size))
        begun = self.random.choice(("", "a", "abcd", "abcdefgh")) + string
        return begun.encode("latin-1" if "binary" in kind else "utf-8")

    def any_string(self, kind):
        greatest = b"\xff" if "binary" in kind else "\U0010ffff".encode()
        return self.random.choice((b"", greatest, self.string(kind, "ab", (1, 2))))

    def strings(self, name, kind, nulls, n):
        letters = "ab\0\xe9\xff" if "binary" in kind else "ab\0\xe9\u20ac\U0001f600"
        sizes = (1, 2, 5, 9) if kind in VIEWS else (1, 2, 3)
        values, present, at = self.column(
            nulls, n, lambda: self.string(kind, letters, sizes), lambda: self.any_string(kind)
        )
        stored = self.viewed(values) if kind in VIEWS else self.offset(values)
        return f"{name} = {at} {n} {kind} {stored} {self.validity(present)}"

    def offset(self, values):
        """Byte strings between offsets, of which the first need not be 0."""
        front = self.random.choice((b"", b"z", b"zz"))
        offsets = list(itertools.accumulate((len(value) for value in values), initial=len(front)))
        return f"{len(offsets)} {' '.join(map(str, offsets))} x{(front + b''.join(values)).hex()}"

    def viewed(self, values):
        """Byte strings by views, the long ones in one of two buffers."""
        buffers, views = [b"zz", b"z"], []
        for value in values:
            if len(value) <= 12:
                views.append(len(value).to_bytes(4, "little") + value.ljust(12, b"\0"))
            else:
                to = self.random.randrange(2)
                place = len(buffers[to])
                buffers[to] += value
                views.append(
                    len(value).to_bytes(4, "little")
                    + value[:4]
                    + to.to_bytes(4, "little")
                    + place.to_bytes(4, "little")
                )
        return " ".join(
            [
                str(len(views)),
                *("x" + view.hex() for view in views),
                "2",
                *("x" + each.hex() for each in buffers),
            ]
        )


def named_extremes(before, nulls):
    """The names of the extremes; fewer of them where all rows are null."""
    names = (
        NAMES
        if nulls != "nulls alone"
        else ("min_max_ignore_nan", "min_propagate_nan", "max_propagate_nan")
    )
    for name in names:
        yield f"{before}{name}_kernel a"


def dispatched(nulls):
    yield from ("dyn_array_min_max_propagate_nan a", "dyn_array_min_ignore_nan a")
    if nulls == "nulls":
        yield from (
            "dyn_array_max_ignore_nan a",
            "dyn_array_min_propagate_nan a",
            "dyn_array_max_propagate_nan a",
        )


def bitwise(nulls):
    if nulls != "no null":
        for name in COUNTS:
            yield f"{name} a"
    for name in JOINS:
        yield f"reduce_{name} a"


def number_cases(kind, nulls, n, chance):
    yield chance.numbers("a", kind, nulls, n)
    if kind in KINDS:
        yield from bitwise(nulls)
        yield "wrapping_sum_arr a"
        if nulls != "nulls alone":
            yield "wrapping_sum a"
            yield f"wrapping_sum_with_validity a {chance.bits(chance.presences(nulls, n))}"
    yield from named_extremes("", nulls)
    if nulls == "no null":
        yield from named_extremes("slice_", nulls)
    yield from dispatched(nulls)


def truth_cases(nulls, n, chance):
    yield chance.truths("a", nulls, n)
    yield from bitwise(nulls)
    yield from named_extremes("", nulls)
    yield from dispatched(nulls)


def string_cases(kind, nulls, n, chance):
    yield chance.strings("a", kind, nulls, n)
    yield from named_extremes("bytes_" if "binary" in kind else "text_", nulls)
    yield from dispatched(nulls)
    for preference in ("less", "greater"):
        yield f"best_place {preference} a"


def scalar_cases(kind, chance):
    yield f"# {kind}: operators on two scalars"
    for name in JOINS:
        for _ in range(8):
            yield f"bit_{name} {kind} {chance.number(kind)} {chance.number(kind)}"


def cases():
    for kind in (*TYPES, "bool", *STRINGS, *VIEWS):
        chance = Columns(kind)
        for nulls, n in ((nulls, n) for nulls in LENGTHS for n in LENGTHS[nulls]):
            for _ in range(3 if kind == "bool" and n > 1 else 1):
                yield f"# {kind}: {n} rows with {nulls}"
                if kind in TYPES:
                    yield from number_cases(kind, nulls, n, chance)
                elif kind == "bool":
                    yield from truth_cases(nulls, n, chance)
                else:
                    yield from string_cases(kind, nulls, n, chance)
        if kind in KINDS:
            yield from scalar_cases(kind, chance)


if __name__ == "__main__":
    recorded.main(__doc__, answered, cases)
