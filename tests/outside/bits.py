"""The answers to questions on numbers, bits and buffers, found from lists of truth values and
numbers.

usage: bits.py FILE..    prints the files, with the answers that are found here
"""
import recorded

TYPES = {sign + str(width): (sign == "i", width) for sign in "iu" for width in (8, 16, 32, 64, 128)}
GREATEST_COUNT = 2**64 - 1

OPERATORS = {
    "and": lambda a, b: a and b,
    "or": lambda a, b: a or b,
    "xor": lambda a, b: a != b,
    "xnor": lambda a, b: a == b,
    "and_not": lambda a, b: a and not b,
    "or_not": lambda a, b: a or not b,
}

# q: whether the values are equal, or unequal; l, r: whether the rows are present
MERGES = {
    "merge_eq": lambda q, l, r: q if l and r else l == r,
    "merge_ne": lambda q, l, r: q if l and r else l != r,
}

TESTS = {
    "equal": lambda a, b: a == b,
    "unequal": lambda a, b: a != b,
    "less": lambda a, b: a < b,
    "less_or_equal": lambda a, b: a <= b,
    "greater": lambda a, b: a > b,
    "greater_or_equal": lambda a, b: a >= b,
}


def lowest(kind):
    signed, width = TYPES[kind]
    return -(2 ** (width - 1)) if signed else 0


def highest(kind):
    signed, width = TYPES[kind]
    return 2 ** (width - 1) - 1 if signed else 2**width - 1


class Words:
    """The words of a line, one after the other."""

    def __init__(self, words):
        self.words = list(words)

    def word(self):
        return self.words.pop(0)

    def number(self):
        return int(self.word())

    def numbers(self):
        return [self.number() for _ in range(self.number())]

    def truth(self):
        return {"true": True, "false": False}[self.word()]

    def truths(self):
        return [self.truth() for _ in range(self.number())]

    def bits(self):
        at, digits = self.word().split(":")
        assert at[0] == "b" and int(at[1:]) <= len(digits)
        return [digit == "1" for digit in digits][int(at[1:]) :]

    def mask(self):
        return window(self.bits(), self.number(), self.number())


def window(items, at, n):
    assert at + n <= len(items)
    return items[at : at + n]


def text(answer):
    """An answer as text: a truth value, a number, `none`, or several of them."""
    if answer is None:
        return "none"
    if isinstance(answer, bool):
        return "true" if answer else "false"
    if isinstance(answer, tuple):
        return " ".join(text(part) for part in answer)
    return str(answer)


def shown(bits):
    return "b0:" + "".join("1" if bit else "0" for bit in bits)


def listed(numbers):
    return "[" + " ".join(str(number) for number in numbers) + "]"


def each(function, *lists):
    assert len({len(one) for one in lists}) == 1
    return shown([function(*row) for row in zip(*lists)])


def place(number):
    return number if number >= 0 else None


def builder(words):
    capacity = words.number()
    bits, told = [], []
    while True:
        operation = words.word()
        if operation == "push":
            bits.append(words.truth())
        elif operation == "fill":
            bits += words.number() * [words.truth()]
        elif operation in ("values", "wide_values"):
            bits += words.bits()
        elif operation == "len":
            told.append(len(bits))
        elif operation == "fallen":
            told.append(len(bits))
        elif operation == "room":
            asked = words.number()
            # more than was asked for at first is not promised
            assert asked <= capacity - len(bits)
            told.append(True)
        else:
            assert operation == "freeze" and len(bits) <= capacity
            return (*told, shown(bits))


def mutable(words):
    begin = words.word()
    bits = (
        words.bits() if begin == "of" else words.number() * [{"zeroed": False, "set": True}[begin]]
    )
    told = []
    while True:
        operation = words.word()
        if operation == "set":
            i = words.number()
            window(bits, i, 1)
            bits[i] = words.truth()
        elif operation in ("and_values", "and_wide_values"):
            bits = [a and b for a, b in zip(bits, words.bits(), strict=True)]
        elif operation in ("or", "and", "and_mask", "or_not_mask"):
            bits = [
                OPERATORS[operation.removesuffix("_mask")](a, b)
                for a, b in zip(bits, words.bits(), strict=True)
            ]
        elif operation in ("merge_eq", "merge_ne"):
            bits = [
                MERGES[operation](*each)
                for each in zip(bits, words.bits(), words.bits(), strict=True)
            ]
        elif operation == "get":
            told.append(bits[words.number()])
        elif operation == "len":
            told.append(len(bits))
        elif operation == "count":
            told.append(sum(bits))
        else:
            assert operation == "freeze"
            return (*told, shown(bits))


def few_bits(words):
    bits = window(words.mask(), words.number(), words.number())
    assert len(bits) <= 64
    return sum(bit << i for i, bit in enumerate(bits))


def buffer(words):
    kind = words.word()
    items, first, owned, told = words.numbers(), None, True, []
    while True:
        assert all(lowest(kind) <= item <= highest(kind) for item in items)
        operation = words.word()
        if operation == "slice":
            items = window(items, words.number(), words.number())
        elif operation == "share":
            owned = False
        elif operation == "clone":
            first, items = items, list(items)
        elif operation in ("get_mut", "as_mut_slice"):
            i, number = words.number(), words.number()
            if operation == "get_mut":
                told.append("some" if owned else "none")
            if operation == "as_mut_slice" or owned:
                window(items, i, 1)
                items[i] = number
        elif operation == "is_owned":
            told.append(owned)
        elif operation == "len":
            told.append(len(items))
        elif operation == "list":
            told.append(listed(items))
        elif operation == "first":
            told.append(listed(first))
        else:
            assert operation == "end"
            return tuple(told)


def compare(words, ask):
    passes, kind = TESTS[words.word()], words.word()
    return ask(passes, kind)


def slice_clone(words):
    first = words.bits()
    return (shown(window(first, words.number(), words.number())), shown(first))


def meet_shared(words):
    bits = words.bits()
    p, q, n = words.number(), words.number(), words.number()
    return sum(a and b for a, b in zip(window(bits, p, n), window(bits, q, n)))


def from_words(words):
    numbers = words.numbers()
    bits = [number >> i & 1 == 1 for number in numbers for i in range(64)]
    return shown(window(bits, words.number(), words.number()))


def from_counted(words):
    bits, costs = words.bits(), words.numbers()
    assert len(bits) == len(costs)
    return (shown(bits), min(sum(costs), GREATEST_COUNT))


def blocks(words):
    bits, width, n = words.mask(), words.number(), words.number()
    return shown([all(window(bits, width * i, width)) for i in range(n)])


def windows(words, passes):
    left, left_at = words.numbers(), words.number()
    right, right_at = words.numbers(), words.number()
    n = words.number()
    return each(passes, window(left, left_at, n), window(right, right_at, n))


def constant(words, passes):
    left, right = words.numbers(), words.number()
    return shown([passes(number, right) for number in left])


def saturated(words):
    return min(sum(words.numbers()), GREATEST_COUNT)


COMPUTE_ERRORS = {
    "memory": lambda w: "out of memory",
    "unsupported": lambda w: "not supported",
    "key": lambda w: f"key {w.number()} is not below {w.number()}",
}

ARRAY_ERRORS = {
    "length": lambda w: "lengths do not fit",
    "offsets": lambda w: f"offsets of row {w.number()} are not good",
    "field": lambda w: f"field {w.number()} does not fit",
    "view": lambda w: f"view {w.number()} is not good",
    "not_utf8": lambda w: f"row {w.number()} is not UTF-8",
    "key": lambda w: f"key {w.number()} is out of range",
}

CALLS = {
    "compute_error": lambda w: COMPUTE_ERRORS[w.word()](w),
    "array_error": lambda w: ARRAY_ERRORS[w.word()](w),
    "least_value": lambda w: lowest(w.word()),
    "greatest_value": lambda w: highest(w.word()),
    "number_width": lambda w: TYPES[w.word()][1],
    "is_signed": lambda w: TYPES[w.word()][0],
    "has_wide_values": lambda w: TYPES[w.word()][1] > 64,
    "to_place": lambda w: (w.word(), place(w.number()))[1],
    "place": lambda w: (w.word(), w.number())[1],
    "to_entry": lambda w: (w.word(), place(w.number()))[1],
    "steps": saturated,
    "default_steps": saturated,
    "compare": lambda w: compare(w, lambda passes, kind: passes(w.number(), w.number())),
    "packs_in_registers": lambda w: compare(w, lambda passes, kind: TYPES[kind][1] > 64),
    "compare_pairs": lambda w: compare(
        w, lambda passes, kind: each(passes, w.numbers(), w.numbers())
    ),
    "compare_windows": lambda w: compare(w, lambda passes, kind: windows(w, passes)),
    "compare_constant": lambda w: compare(w, lambda passes, kind: constant(w, passes)),
    "not": lambda w: each(lambda a: not a, w.bits()),
    "mask_not": lambda w: each(lambda a: not a, w.mask()),
    "set_bits": lambda w: sum(w.bits()),
    "unset_bits": lambda w: w.bits().count(False),
    "bitmap_len": lambda w: len(w.bits()),
    "num_intersections_with": lambda w: sum(
        a and b for a, b in zip(w.bits(), w.bits(), strict=True)
    ),
    "get_bit": lambda w: w.bits()[w.number()],
    "bitmap_get": lambda w: dict(enumerate(w.bits())).get(w.number()),
    "bitmap_slice": lambda w: shown(window(w.bits(), w.number(), w.number())),
    "bitmap_share": lambda w: shown(w.bits()),
    "clone_bitmap": lambda w: shown(w.bits()),
    "slice_clone": slice_clone,
    "meet_shared": meet_shared,
    "new_zeroed": lambda w: shown(w.number() * [False]),
    "new_with_value": lambda w: shown([w.truth()] * w.number()),
    "set_bits_filled": lambda w: sum([w.truth()] * w.number()),
    "from_bools": lambda w: shown(w.truths()),
    "from_words": from_words,
    "from_values": lambda w: shown(w.bits()),
    "from_wide_values": lambda w: shown(w.bits()),
    "from_counted": from_counted,
    "to_bitmap": lambda w: shown(w.mask()),
    "window": lambda w: shown(window(w.mask(), w.number(), w.number())),
    "mask_len": lambda w: len(w.mask()),
    "mask_unset_bits": lambda w: w.mask().count(False),
    "mask_get": lambda w: w.mask()[w.number()],
    "few_bits": few_bits,
    "all_set": lambda w: all(window(w.mask(), w.number(), w.number())),
    "all_in_blocks": blocks,
    "builder": builder,
    "mutable": mutable,
    "buffer": buffer,
}
for name, function in OPERATORS.items():
    CALLS[name] = lambda w, f=function: each(f, w.bits(), w.bits())
    CALLS["mask_" + name] = lambda w, f=function: each(f, w.mask(), w.mask())
for name, function in MERGES.items():
    CALLS[name] = lambda w, f=function: each(f, w.bits(), w.bits(), w.bits())
    CALLS["mask_" + name] = lambda w, f=function: each(f, w.mask(), w.mask(), w.mask())


def answered(lines):
    """The lines, with the answers that are found here."""
    for line in map(recorded.question_of, lines):
        if line and not line.startswith("#"):
            words = Words(line.split(" "))
            line = f"{line} -> {text(CALLS[words.word()](words))}"
            assert not words.words, line
        yield line


if __name__ == "__main__":
    recorded.main(__doc__, answered)
