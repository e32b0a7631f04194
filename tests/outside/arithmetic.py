"""The answers to questions of arithmetic, found from rows that are whole numbers or null.

usage: arithmetic.py             prints the file data/arithmetic_sweeps.txt: questions, and their
                                 answers
       arithmetic.py FILE..      prints the files, with the answers that are found here

A row is null where an operand is null or a divisor is 0. Else it is the exact answer in whole
numbers, and of those that are congruent to it the one that the type has. Of single numbers a
quotient by 0, and what it leaves, is 0.
"""
import random

import recorded
from bits import TYPES, Words, highest, lowest

KINDS = ("i8", "i16", "i32", "i64", "u8", "u16", "u32", "u64")

# types that have sums of two numbers alone, and the types of their numbers
SIZES = {"isize": "i64", "usize": "u64"}


def wrapped(kind, number):
    """The one number of the type that is congruent modulo 2 to its width."""
    return lowest(kind) + (number - lowest(kind)) % 2 ** TYPES[kind][1]


def floor_quotient(a, b):
    """The greatest whole number that is at most a / b."""
    quotient = a // b
    assert 0 <= (a - b * quotient) * (1 if b > 0 else -1) < abs(b)
    return quotient


def truncated_quotient(a, b):
    """a / b without what stands after the point."""
    quotient = abs(a) // abs(b)
    return quotient if (a < 0) == (b < 0) else -quotient


FUNCTIONS = {"wrapping_abs": abs, "wrapping_neg": lambda a: -a}

QUOTIENTS = {
    "wrapping_floor_div": floor_quotient,
    "wrapping_trunc_div": truncated_quotient,
    "wrapping_mod": lambda a, b: a - b * floor_quotient(a, b),
    "legacy_div": floor_quotient,
}

OPERATIONS = {
    "wrapping_add": lambda a, b: a + b,
    "wrapping_sub": lambda a, b: a - b,
    "wrapping_mul": lambda a, b: a * b,
    **QUOTIENTS,
}

# those that take a number on the left and an array on the right
FROM_NUMBERS = ("wrapping_sub", *QUOTIENTS)

UNARY_VALUES = {
    "doubled": ("u8", "u16", lambda x: 2 * x),
    "widened": ("i32", "i128", lambda x: x),
    "negated": ("i64", "i64", lambda x: -x),
    "is_zero": ("u64", "i8", lambda x: 1 if x == 0 else 0),
}

BINARY_VALUES = {
    "joined": ("u8", "u8", "u16", lambda x, y: 256 * x + y),
    "product": ("i8", "i16", "i32", lambda x, y: x * y),
    "is_less": ("i64", "u32", "u8", lambda x, y: 1 if x < y else 0),
}

UNARY_IN_PLACE = {"next": lambda x: x + 1, "square": lambda x: x * x}
BINARY_IN_PLACE = {"left": lambda x, y: x, "right": lambda x, y: y, "greater": max}


class Array:
    """Stored numbers of a type, and whether each row is present."""

    def __init__(self, kind, values, present):
        assert all(lowest(kind) <= value <= highest(kind) for value in values)
        self.kind, self.values, self.present = kind, values, present

    def rows(self):
        return [
            value if there else None for value, there in zip(self.values, self.present, strict=True)
        ]

    def cut(self, at, n):
        assert at + n <= len(self.values)
        return Array(self.kind, self.values[at : at + n], self.present[at : at + n])


class Case(Words):
    """The words of a line, which may name the arrays of a case."""

    def __init__(self, words, arrays):
        super().__init__(words)
        self.arrays = arrays

    def array(self):
        if self.words[0] != "slice":
            return self.arrays[self.word()]
        self.word()
        return self.arrays[self.word()].cut(self.number(), self.number())

    def defined(self):
        if self.words[0] == "shared":
            self.word()
        at, n, kind = self.number(), self.number(), self.word()
        values = self.numbers()
        present = len(values) * [True]
        if self.words[0] == "-":
            self.word()
        else:
            present = self.bits()
        return Array(kind, values, present).cut(at, n)


def written(rows):
    return " ".join("null" if row is None else str(row) for row in rows)


def answer_rows(kind, function, *columns):
    """The rows of a function's answers, each wrapped to a type; None where a row or the answer is
    none."""
    rows = []
    for row in zip(*columns, strict=True):
        answer = None if None in row else function(*row)
        rows.append(None if answer is None else wrapped(kind, answer))
    return written(rows)


def row_operation(name):
    """An operation on two rows that are present."""
    operation = OPERATIONS[name]
    if name in QUOTIENTS:
        return lambda a, b: operation(a, b) if b != 0 else None
    return operation


def number_operation(name):
    """An operation on two single numbers."""
    operation = OPERATIONS[name]
    if name in QUOTIENTS:
        return lambda a, b: operation(a, b) if b != 0 else 0
    return operation


def of_array(name, case):
    array = case.array()
    return answer_rows(array.kind, FUNCTIONS[name], array.rows())


def of_arrays(name, case):
    left, right = case.array(), case.array()
    assert left.kind == right.kind
    return answer_rows(left.kind, row_operation(name), left.rows(), right.rows())


def of_array_and_number(name, case):
    left, number = case.array(), case.number()
    return answer_rows(left.kind, lambda a: row_operation(name)(a, number), left.rows())


def of_number_and_array(name, case):
    number, right = case.number(), case.array()
    return answer_rows(right.kind, lambda b: row_operation(name)(number, b), right.rows())


def single_numbers(case):
    name, kind = case.word(), case.word()
    if name in FUNCTIONS:
        return wrapped(kind, FUNCTIONS[name](case.number()))
    return wrapped(kind, number_operation(name)(case.number(), case.number()))


def unary_values(case):
    before, after, function = UNARY_VALUES[case.word()]
    array = case.array()
    assert array.kind == before
    return answer_rows(after, function, array.rows())


def binary_values(case):
    left_kind, right_kind, after, function = BINARY_VALUES[case.word()]
    left, right = case.array(), case.array()
    assert (left.kind, right.kind) == (left_kind, right_kind)
    return answer_rows(after, function, left.rows(), right.rows())


def unary_in_place(case):
    function, array = UNARY_IN_PLACE[case.word()], case.array()
    return answer_rows(array.kind, function, array.rows())


def binary_in_place(case):
    function, left, right = BINARY_IN_PLACE[case.word()], case.array(), case.array()
    assert left.kind == right.kind
    return answer_rows(left.kind, function, left.rows(), right.rows())


def sum_of_rows(case):
    array = case.array()
    return wrapped(array.kind, sum(row for row in array.rows() if row is not None))


def sum_of_values(case):
    array = case.array()
    return wrapped(array.kind, sum(array.values))


def sum_of_masked(case):
    array, bits = case.array(), case.bits()
    return wrapped(
        array.kind, sum(value for value, bit in zip(array.values, bits, strict=True) if bit)
    )


def sum_of_two(case):
    kind = case.word()
    kind = SIZES.get(kind, kind)
    return wrapped(kind, case.number() + case.number())


CALLS = {
    "rows": lambda case: written(case.array().rows()),
    "pl_num": single_numbers,
    "prim_unary_values": unary_values,
    "prim_binary_values": binary_values,
    "prim_unary_in_place": unary_in_place,
    "prim_binary_in_place": binary_in_place,
    "wrapping_sum_arr": sum_of_rows,
    "wrapping_sum": sum_of_values,
    "wrapping_sum_with_validity": sum_of_masked,
    "wrapping_add_number": sum_of_two,
}
for called in FUNCTIONS:
    CALLS[called] = lambda case, name=called: of_array(name, case)
for called in OPERATIONS:
    CALLS[called] = lambda case, name=called: of_arrays(name, case)
    CALLS[called + "_scalar"] = lambda case, name=called: of_array_and_number(name, case)
for called in FROM_NUMBERS:
    CALLS[called + "_scalar_lhs"] = lambda case, name=called: of_number_and_array(name, case)


def answered(lines):
    """The lines, with the answers that are found here."""
    arrays = {}
    for line in map(recorded.question_of, lines):
        words = line.split(" ")
        if line.startswith("#"):
            arrays = {}
        elif words[1:2] == ["="]:
            case = Case(words[2:], arrays)
            arrays[words[0]] = case.defined()
            assert not case.words, line
        elif line:
            case = Case(words[1:], arrays)
            line = f"{line} -> {CALLS[words[0]](case)}"
            assert not case.words, line
        yield line


def ends(kind):
    """The numbers at which a type's arithmetic turns: its ends, 0, and those beside them."""
    low, high = lowest(kind), highest(kind)
    if low < 0:
        return [low, low + 1, -2, -1, 0, 1, 2, high - 1, high]
    half = (high + 1) // 2
    return [0, 1, 2, half - 1, half, half + 1, high - 1, high]


def array_line(name, kind, values, validity="-", at=0, n=None, kept=""):
    count = len(values) - at if n is None else n
    parts = [name, "=", *([kept] if kept else []), at, count, kind, len(values), *values, validity]
    return " ".join(str(part) for part in parts)


def by_numbers(array, numbers):
    """Each operation on an array and a number, and on the number and the array."""
    for number in numbers:
        for name in OPERATIONS:
            yield f"{name}_scalar {array} {number}"
        for name in FROM_NUMBERS:
            yield f"{name}_scalar_lhs {number} {array}"


def end_cases(kind):
    numbers = ends(kind)
    pairs = [(a, b) for a in numbers for b in numbers]
    yield f"# {kind}: each pair of the ends of the type, 0 and the numbers beside them"
    yield array_line("left", kind, [a for a, _ in pairs])
    yield array_line("right", kind, [b for _, b in pairs])
    for name in OPERATIONS:
        yield f"{name} left right"
    yield f"# {kind}: the same numbers, beside each of them as a scalar"
    yield array_line("numbers", kind, numbers)
    for name in FUNCTIONS:
        yield f"{name} numbers"
    yield "wrapping_sum_arr numbers"
    yield from by_numbers("numbers", numbers)
    yield f"# {kind}: single numbers"
    for a in numbers:
        for name in FUNCTIONS:
            yield f"pl_num {name} {kind} {a}"
    singles = [
        (numbers[0], numbers[-1]),
        (numbers[-1], numbers[0]),
        (numbers[0], numbers[0]),
        (numbers[-1], numbers[-1]),
    ]
    singles += [(a, b) for a in (7, wrapped(kind, -7)) for b in (0, 2, wrapped(kind, -2))]
    if lowest(kind) < 0:
        singles += [(lowest(kind), -1), (highest(kind), -1)]
    for a, b in singles:
        for name in OPERATIONS:
            yield f"pl_num {name} {kind} {a} {b}"


class Chance:
    """Arrays and numbers at random, the same in each run."""

    def __init__(self, seed):
        self.random = random.Random(seed)

    def number(self, kind):
        """A number of any size, often one at which arithmetic turns."""
        if self.random.random() < 0.25:
            return self.random.choice(ends(kind))
        size = self.random.getrandbits(self.random.randint(1, TYPES[kind][1]))
        return wrapped(kind, self.random.choice((size, -size)))

    def array(self, name, kind, n, kept=""):
        """An array of n rows, which may begin after other rows, and of which some may be null."""
        at = self.random.randint(0, 9)
        count = at + n + self.random.randint(0, 3)
        values = [self.number(kind) for _ in range(count)]
        if self.random.random() < 0.25:
            return array_line(name, kind, values, "-", at, n, kept)
        bits = "".join(self.random.choice("0111") for _ in range(count))
        cut = self.random.randint(0, 70)
        return array_line(name, kind, values, f"b{cut}:{cut * '0'}{bits}", at, n, kept)


def by_columns(left, right):
    """Each operation on two arrays, and each function of one."""
    for name in OPERATIONS:
        yield f"{name} {left} {right}"
    for name in FUNCTIONS:
        yield f"{name} {left}"
    yield f"prim_unary_in_place next {left}"
    yield f"prim_unary_in_place square {right}"
    for name in BINARY_IN_PLACE:
        yield f"prim_binary_in_place {name} {left} {right}"
    yield f"wrapping_sum_arr {left}"


def random_cases(kind, chance):
    keeping = [(left, right) for left in ("", "shared") for right in ("", "shared")]
    for left, right in keeping:
        yield (
            f"# {kind}: {left or 'owned'} rows beside {right or 'owned'} ones, of slices, with "
            "nulls over any numbers"
        )
        yield chance.array("left", kind, 14, left)
        yield chance.array("right", kind, 14, right)
        yield from by_columns("left", "right")
        yield from by_numbers("left", [chance.number(kind) for _ in range(3)])
        at = chance.random.randint(1, 6)
        yield from by_columns(f"slice left {at} 7", f"slice right {7 - at} 7")
        yield "rows left"
        yield "rows right"
    yield f"# {kind}: rows past a word of validity"
    yield chance.array("left", kind, 70)
    yield chance.array("right", kind, 70, "shared")
    yield from by_columns("left", "right")


def zero_and_one_cases(kind):
    low, high = lowest(kind), highest(kind)
    yield f"# {kind}: single numbers, the ends of the type beside 0 and 1"
    pairs = [(0, 0)] + [
        pair for end in (low, high) if end != 0 for pair in ((end, 0), (end, 1), (0, end), (1, end))
    ]
    for a, b in pairs:
        for name in OPERATIONS:
            yield f"pl_num {name} {kind} {a} {b}"


def sums_of_ends(kind):
    low, high = lowest(SIZES.get(kind, kind)), highest(SIZES.get(kind, kind))
    yield f"# {kind}: sums of two ends of the type"
    for a, b in ((low, low), (low, high), (high, high), (high, 1), (high, 0), (low, 0)):
        yield f"wrapping_add_number {kind} {a} {b}"


def by_masks(array, n, chance):
    """The sums of the stored numbers, of all and of those under bits at random."""
    yield f"wrapping_sum {array}"
    for _ in range(2):
        cut = chance.random.randint(0, 70)
        bits = "".join(chance.random.choice("01") for _ in range(cut + n))
        yield f"wrapping_sum_with_validity {array} b{cut}:{bits}"


def overlapping_cases(kind, chance):
    """Slices of one array on both sides, slices beside a number, and sums."""
    for kept in ("", "shared"):
        yield (
            f"# {kind}: slices of one array of {kept or 'owned'} rows, which overlap, and sums "
            "under bits"
        )
        yield chance.array("whole", kind, 70, kept)
        at, n = chance.random.randint(1, 4), chance.random.randint(64, 66)
        here, there = f"slice whole 0 {n}", f"slice whole {at} {n}"
        for name in OPERATIONS:
            yield f"{name} {here} {there}"
        yield "wrapping_sub whole whole"
        yield "wrapping_mod whole whole"
        yield from by_numbers(there, [chance.number(kind)])
        yield from by_masks("whole", 70, chance)
        yield from by_masks(there, n, chance)
        yield f"wrapping_sum_arr {there}"
        yield "rows whole"


def value_cases(chance):
    """The functions that have types of their own, at random rows."""
    for kept in ("", "shared"):
        for name, (before, _, _) in UNARY_VALUES.items():
            yield f"# {name}: {kept or 'owned'} rows at random"
            yield chance.array("array", before, 70, kept)
            yield f"prim_unary_values {name} array"
            yield f"prim_unary_values {name} slice array 5 64"
            yield "rows array"
        for name, (before, beside, _, _) in BINARY_VALUES.items():
            yield f"# {name}: {kept or 'owned'} rows at random"
            yield chance.array("left", before, 70, kept)
            yield chance.array("right", beside, 70)
            yield f"prim_binary_values {name} left right"
            yield f"prim_binary_values {name} slice left 5 64 slice right 3 64"
        for kind in ("i128", "u128"):
            yield f"# {kind}: {kept or 'owned'} rows at random, written in place"
            yield chance.array("left", kind, 14, kept)
            yield chance.array("right", kind, 14)
            for name in BINARY_IN_PLACE:
                yield f"prim_binary_in_place {name} left right"
                yield f"prim_binary_in_place {name} slice left 2 9 slice right 4 9"


def cases():
    for kind in KINDS:
        yield from end_cases(kind)
        yield from random_cases(kind, Chance(kind))
    for kind in KINDS:
        yield from zero_and_one_cases(kind)
        yield from overlapping_cases(kind, Chance(f"{kind} overlapping"))
    for kind in (*KINDS, *SIZES):
        yield from sums_of_ends(kind)
    yield from value_cases(Chance("values"))


if __name__ == "__main__":
    recorded.main(__doc__, answered, cases)
