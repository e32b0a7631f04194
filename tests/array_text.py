"""Arrays at random as words, and changes of single words, after which the parts may make no array.

A word is kept with what it is and with what its neighbours say of it, so that a change can be a
likely one: an offset just past the bytes, a validity one bit short, a text cut within a
character. Mostly a line can be read after it.
"""
from array_rules import KEYS, OFFSETS, SHORT, TYPES

HUGE = (2**31, 2**32, 2**32 - 1, 2**62, 2**63 - 1, 2**63, 2**64 - 1)
NUMBERS = tuple(TYPES)
STRINGS = ("binary", "largebinary", "utf8", "largeutf8")
VIEWS = ("binaryview", "utf8view")
LEAVES = ("null", "bool", "fixedbinary", *NUMBERS, *STRINGS, *VIEWS)
# as the leaves are many, and of numbers little can be said, the others stand here more often
HOLDERS = ("list", "largelist", "fixedlist", "struct", "dict", "dict")
KINDS = (*LEAVES, *STRINGS, *VIEWS, *VIEWS, *(3 * ("fixedbinary", *HOLDERS)))
ALIKE = [STRINGS, VIEWS, ("list", "largelist"), NUMBERS]
PIECES = (
    "",
    "a",
    "b",
    "é",
    "€",
    "😀",
    "\0",
    "abcd",
    "abcdé",
    "ab",
    "zzzzzzz",
    "\x7f",
    "\x80",
    "\ud7ff",
    "\ue000",
    "\U0010ffff",
)
# bytes that no text has, or that cut a character
NO_TEXT = (
    b"\x80",
    b"\xbf",
    b"\xc0\x80",
    b"\xc1\xbf",
    b"\xc3",
    b"\xe2\x82",
    b"\xe0\x9f\xbf",
    b"\xed\xa0\x80",
    b"\xed\xbf\xbf",
    b"\xf0\x8f\xbf\xbf",
    b"\xf0\x9f\x98",
    b"\xf4\x90\x80\x80",
    b"\xf5\x80\x80\x80",
    b"\xff",
)
ANY_TEXT = (
    b"\xc2\x80",
    b"\xdf\xbf",
    b"\xe0\xa0\x80",
    b"\xed\x9f\xbf",
    b"\xee\x80\x80",
    b"\xf0\x90\x80\x80",
    b"\xf4\x8f\xbf\xbf",
    b"\xc3\xa9",
)


def view_bytes(string, number, at):
    """The view of a string, which stands in a buffer if it is long."""
    n = len(string).to_bytes(4, "little")
    if len(string) <= SHORT:
        return n + string.ljust(SHORT, b"\0")
    return n + string[:4] + number.to_bytes(4, "little") + at.to_bytes(4, "little")


class Maker:
    """Good arrays at random: words, each with what it is, and what is known of it."""

    def __init__(self, random):
        self.random, self.tokens = random, []

    def put(self, word, role, known=None):
        self.tokens.append((str(word), role, known))

    def array(self, n, depth, kind=None):
        """An array of so many rows, which holds arrays at most so deep; after other rows and
        before others."""
        choose = self.random.choice
        kind = kind or choose(KINDS if depth else LEAVES)
        at = choose((0, 0, 0, 1, 3))
        self.put(at, "place")
        self.put(n, "rows")
        self.put(kind, "kind")
        PARTS[kind](self, kind, at + n + choose((0, 0, 0, 1, 2)), depth)
        return self

    def presence(self, n):
        """A digit for each row, or None."""
        shape = self.random.randrange(10)
        if shape < 4:
            return None
        bits = self.random.getrandbits(n or 1)
        if shape < 8:
            bits |= self.random.getrandbits(n or 1)
        digits = f"{bits:0{n}b}"[:n]
        return n * str(shape % 2) if shape == 9 else digits

    def put_validity(self, n, present):
        before = (
            self.random.choice(("1", "0101010", 63 * "0", 64 * "1"))
            if self.random.random() < 0.15
            else ""
        )
        self.put("-" if present is None else f"b{len(before)}:{before}{present}", "validity", n)

    def put_list(self, words, role, known=None):
        self.put(len(words), "count")
        for word in words:
            self.put(word, role, known)

    def string(self, is_text):
        if not is_text and self.random.random() < 0.4:
            return self.random.randbytes(self.random.choice((1, 2, 11, 12, 13, 14)))
        pieces = [self.random.choice(PIECES) for _ in range(self.random.choice((0, 1, 1, 2, 3, 4)))]
        return "".join(pieces).encode()

    def data(self, strings):
        """Strings after one another, with bytes before and after, and the offsets."""
        before, behind = (self.random.choice((b"", b"", b"\xff", b"\x80z")) for _ in range(2))
        offsets = [len(before)]
        for string in strings:
            offsets.append(offsets[-1] + len(string))
        return before + b"".join(strings) + behind, offsets

    def put_bytes(self, data, known="bytes"):
        self.put("x" + data.hex(), "bytes", known)

    # ---- kinds

    def nulls(self, _kind, n, _depth):
        self.put(n, "nulls")

    def booleans(self, _kind, n, _depth):
        self.put("b0:" + "".join(self.random.choice("01") for _ in range(n)), "bits")
        self.put_validity(n, self.presence(n))

    def integers(self, kind, n, _depth):
        low, high = TYPES[kind]
        ends = (low, high, 0, 1, low + 1, high - 1, self.random.randint(low, high))
        self.put_list([self.random.choice(ends) for _ in range(n)], "number", kind)
        self.put_validity(n, self.presence(n))

    def strings(self, kind, n, _depth):
        data, offsets = self.data([self.string("utf8" in kind) for _ in range(n)])
        self.put_list(offsets, "offset", (OFFSETS[kind], len(data)))
        self.put_bytes(data, "text" if "utf8" in kind else "bytes")
        self.put_validity(n, self.presence(n))

    def viewed(self, kind, n, _depth):
        buffers = [
            bytearray(self.random.choice((b"", b"", b"abcd", b"\xff")))
            for _ in range(self.random.randrange(4))
        ]
        views = []
        for _ in range(n):
            string = self.string("utf8" in kind)
            if len(string) > SHORT and not buffers:
                string = string[:0]
            number = self.random.randrange(len(buffers) or 1)
            at = len(buffers[number]) if len(string) > SHORT else 0
            views.append("x" + view_bytes(string, number, at).hex())
            if len(string) > SHORT:
                buffers[number] += string
        self.put_list(views, "view", buffers)
        self.put_list(
            ["x" + buffer.hex() for buffer in buffers],
            "bytes",
            "text" if "utf8" in kind else "bytes",
        )
        self.put_validity(n, self.presence(n))

    def sized(self, _kind, n, _depth):
        size = self.random.choice((0, 0, 1, 2, 3, 13))
        self.put(size, "width", size * n)
        self.put(n, "len")
        self.put_bytes(self.random.randbytes(size * n))
        self.put_validity(n, self.presence(n))

    def lists(self, kind, n, depth):
        offsets = [self.random.choice((0, 0, 0, 1, 2))]
        for _ in range(n):
            offsets.append(offsets[-1] + self.random.choice((0, 1, 1, 2, 3)))
        items = offsets[-1] + self.random.choice((0, 0, 1, 3))
        self.put_list(offsets, "offset", (OFFSETS[kind], items))
        self.put_validity(n, self.presence(n))
        self.array(items, depth - 1)

    def fixed_lists(self, _kind, n, depth):
        width = self.random.choice((0, 1, 1, 2, 3))
        self.put(width, "width", width * n)
        self.put(n, "len")
        self.put_validity(n, self.presence(n))
        self.array(width * n, depth - 1)

    def structs(self, _kind, n, depth):
        count = self.random.choice((0, 1, 1, 2, 2, 3))
        self.put(n, "len")
        self.put(count, "fields")
        self.put_validity(n, self.presence(n))
        for name in "pqr"[:count]:
            self.put(name, "name")
            self.array(n, depth - 1)

    def dictionary(self, _kind, n, depth):
        kind = self.random.choice(KEYS)
        low, high = TYPES[kind]
        entries = self.random.choice((0, 1, 2, 3, 5))
        present = self.presence(n) if entries else n * "0"
        junk = (low, high, entries, min(entries + 1, high))
        choose = {
            "0": lambda: self.random.choice(junk),
            "1": lambda: self.random.randrange(entries),
        }
        keys = [choose[digit]() for digit in (n * "1" if present is None else present)]
        self.put(kind, "key type")
        self.put_list(keys, "key", (kind, entries))
        self.put_validity(n, present)
        self.array(entries, depth - 1)


PARTS = {
    "null": Maker.nulls,
    "bool": Maker.booleans,
    **dict.fromkeys(NUMBERS, Maker.integers),
    **dict.fromkeys(STRINGS, Maker.strings),
    **dict.fromkeys(VIEWS, Maker.viewed),
    "fixedbinary": Maker.sized,
    "list": Maker.lists,
    "largelist": Maker.lists,
    "fixedlist": Maker.fixed_lists,
    "struct": Maker.structs,
    "dict": Maker.dictionary,
}


def good_array(random):
    """The words of a good array of any kind."""
    n = random.choice((0, 1, 1, 2, 3, 3, 4, 5, 7, 8))
    depth = random.choice((0, 1, 1, 2, 3))
    if depth == 0 and random.random() < 0.1:
        n = random.choice((62, 63, 64, 65, 66, 128, 130))
    return Maker(random).array(n, depth).tokens


def text_of(tokens):
    return " ".join([word for word, _, _ in tokens])


# ---- changes


class Mutation:
    """Changes of one word of an array, or of a few that belong together."""

    def __init__(self, random):
        self.random = random

    def change(self, tokens):
        """Changes one word."""
        roles = {role for _, role, _ in tokens}
        liked = [role for role in CHANGES if role in roles for _ in range(CHANGES[role][0])]
        role = self.random.choice(liked)
        at = self.random.choice([i for i, token in enumerate(tokens) if token[1] == role])
        CHANGES[role][1](self, tokens, at)

    def set(self, tokens, i, word):
        tokens[i] = (str(word), *tokens[i][1:])

    def count(self, tokens, i):
        """A number of rows, or a place, about the one that stands there."""
        n = int(tokens[i][0])
        likely = (n + 1, n + 1, max(n - 1, 0), max(n - 1, 0), 0, 2 * n, n + 8)
        self.set(tokens, i, self.random.choice(likely if self.random.random() < 0.85 else HUGE))

    def kind(self, tokens, i):
        alike = [kinds for kinds in ALIKE if tokens[i][0] in kinds]
        if alike:
            self.set(tokens, i, self.random.choice(alike[0]))

    def key_type(self, tokens, i):
        self.set(tokens, i, self.random.choice(KEYS))

    def bits(self, tokens, i):
        """Bits, or a validity: more, fewer, others, or none."""
        word, role, n = tokens[i]
        digits = (
            "1" * n if word == "-" else word.partition(":")[2][int(word[1 : word.index(":")]) :]
        )
        before = self.random.choice(("", "", "1", 64 * "0"))
        half = len(digits) // 2
        changed = self.random.choice(
            (
                digits + "1",
                digits[:-1],
                digits[1:] + "0",
                "0" * len(digits),
                "",
                digits + 8 * "0",
                digits.translate({48: 49, 49: 48}),
                digits[:half] + "0" + digits[half + 1 :],
            )
        )
        is_none = role == "validity" and word != "-" and self.random.random() < 0.2
        self.set(tokens, i, "-" if is_none else f"b{len(before)}:{before}{changed}")

    def elements(self, tokens, i):
        """One element more or fewer in a list of them, or two exchanged."""
        n = int(tokens[i][0])
        if n == 0:
            return
        at = i + 1 + self.random.randrange(n)
        shape = self.random.randrange(3)
        if shape == 0:
            del tokens[at]
            self.set(tokens, i, n - 1)
        elif shape == 1:
            tokens.insert(at, tokens[at])
            self.set(tokens, i, n + 1)
        else:
            other = i + 1 + self.random.randrange(n)
            tokens[at], tokens[other] = tokens[other], tokens[at]

    def among(self, kind, numbers):
        """One of the numbers that the type has."""
        low, high = TYPES[kind]
        return self.random.choice([number for number in numbers if low <= number <= high])

    def number(self, tokens, i):
        kind = tokens[i][2]
        self.set(tokens, i, self.among(kind, (0, *TYPES[kind], self.random.randint(*TYPES[kind]))))

    def offset(self, tokens, i):
        """An offset about its neighbours and the ends of the items, and one that wraps to itself in
        fewer bits."""
        word, _, (kind, n) = tokens[i]
        here = int(word)
        near = [int(tokens[k][0]) for k in (i - 1, i + 1) if tokens[k][1] == "offset"] or [0]
        likely = [
            here + 1,
            here - 1,
            *(place + step for place in near for step in (-1, 0, 1)),
            n,
            n,
            n + 1,
            0,
            -1,
        ]
        seldom = [*TYPES[kind], here + 2**32, here - 2**32, here + 2**31, 2**31 - 1, -here]
        self.set(
            tokens, i, self.among(kind, likely if self.random.random() < 0.8 else seldom + [0])
        )

    def key(self, tokens, i):
        word, _, (kind, n) = tokens[i]
        seldom = (
            *TYPES[kind],
            int(word) + 2**8,
            int(word) + 2**16,
            int(word) + 2**32,
            2**31,
            2**63,
            -1,
        )
        likely = (n, n, n + 1, max(n - 1, 0), 0, -1)
        self.set(
            tokens, i, self.among(kind, likely if self.random.random() < 0.7 else seldom + (0,))
        )

    def bytes(self, tokens, i):
        """Bytes cut, longer, or with others among them; of as many bytes mostly."""
        word, _, known = tokens[i]
        data = bytes.fromhex(word[1:])
        shape, at = self.random.randrange(10), self.random.randrange(len(data) + 1)
        if shape == 0:
            data = data[:-1]
        elif shape == 1:
            data = data + b"a"
        else:
            others = NO_TEXT + ANY_TEXT if known == "text" else (self.random.randbytes(1), b"\0")
            piece = self.random.choice(others)
            at = max(min(at, len(data) - len(piece)), 0)
            data = (data[:at] + piece + data[at + len(piece) :])[: len(data)]
        self.set(tokens, i, "x" + data.hex())

    def view(self, tokens, i):
        """A view with another length, prefix, buffer or offset, or bytes after a short row."""
        word, _, buffers = tokens[i]
        n, first, number, at = (
            int.from_bytes(bytes.fromhex(word[1:])[k : k + 4], "little") for k in (0, 4, 8, 12)
        )
        shape = self.random.randrange(6)
        if shape == 0:
            n = self.random.choice(
                (n + 1, max(n - 1, 0), SHORT, SHORT + 1, 0, 4, 2**32 - 1, 2**31, n + 2**31)
            )
        elif shape == 1:
            first ^= 1 << self.random.randrange(32)
        elif shape == 2:
            number = self.random.choice(
                (number + 1, max(number - 1, 0), len(buffers), 2**32 - 1, 2**31, 0)
            )
        elif shape == 3:
            here = self.random.choice(
                (at + 1, max(at - 1, 0), 2**32 - 1, 2**32 - n, 2**32 - n + at, 2**31, 0)
            )
            at = here
        elif shape == 4:
            at ^= 1 << self.random.randrange(32)
        else:
            n, first, number, at = self.other_short(n, first, number, at)
        parts = (n % 2**32, first, number % 2**32, at % 2**32)
        self.set(tokens, i, "x" + b"".join(part.to_bytes(4, "little") for part in parts).hex())

    def other_short(self, n, first, number, at):
        """A short row whose length hides its last byte, or one that is long after all."""
        if 0 < n <= SHORT:
            return self.random.choice((n - 1, n + 1)), first, number, at
        return self.random.choice(((SHORT, first, number, at), (n, first, at, number)))

    def width(self, tokens, i):
        """A width or size about the one that stands there, or one whose product with some length
        wraps to it."""
        items = tokens[i][2]
        if self.random.random() < 0.6:
            self.count(tokens, i)
            return
        if items == 0 and self.random.random() < 0.5:
            power = self.random.randrange(1, 64)
            width, n = 2**power, 2 ** (64 - power)
        else:
            n = self.random.randrange(3, 100, 2)
            wraps = -items * pow(2**64, -1, n) % n
            width = (wraps * 2**64 + items) // n
        self.set(tokens, i, width)
        self.set(tokens, i + 1, n)
        validity = i + 2 if tokens[i + 2][1] == "validity" else i + 3
        self.set(tokens, validity, "-")

    def name(self, tokens, i):
        self.set(tokens, i, self.random.choice(("p", "q", "é", "-", "null")))


# how often a word of a role is changed, and how
CHANGES = {
    "place": (2, Mutation.count),
    "rows": (4, Mutation.count),
    "nulls": (3, Mutation.count),
    "len": (5, Mutation.count),
    "kind": (2, Mutation.kind),
    "key type": (1, Mutation.key_type),
    "bits": (2, Mutation.bits),
    "validity": (5, Mutation.bits),
    "count": (4, Mutation.elements),
    "number": (1, Mutation.number),
    "offset": (9, Mutation.offset),
    "bytes": (8, Mutation.bytes),
    "view": (10, Mutation.view),
    "key": (10, Mutation.key),
    "width": (7, Mutation.width),
    "name": (1, Mutation.name),
}

# ---- lines that may no longer be readable

ODD_WORDS = (
    "",
    "-",
    "+",
    "x",
    "x0",
    "xzz",
    "xAB",
    "b",
    "b:",
    "b0",
    "b0:",
    "b1:",
    "b9:01",
    "b0:2",
    "b-1:0",
    "b+0:1",
    "nul",
    "null",
    "NULL",
    "i7",
    "i32",
    "list",
    "struct",
    "dict",
    "shared",
    "copy",
    "=",
    "0",
    "-0",
    "+0",
    "007",
    "-1",
    "1.0",
    "0x1",
    "1e1",
    "1_0",
    str(2**64 - 1),
    str(2**64),
    str(2**128),
    "9" * 60,
    "é",
    "１",
    "\t",
    "\r",
    "\0",
    "a",
    "=a",
)
ODD_BYTES = (
    b"\0",
    b"\t",
    b"\r",
    b"\x80",
    b"\xc3",
    b"\xff",
    b"\xed\xa0\x80",
    b"\xc3\xa9",
    b"\xe2\x80\x82",
    b" ",
    b"#",
    b"-",
    b"+",
    b"=",
    b":",
    b"x",
    b"1",
)


def change_words(random, words):
    """Drops, repeats, replaces or joins words."""
    i, k = sorted(random.randrange(len(words)) for _ in range(2))
    odd = random.choice(ODD_WORDS).encode()
    first, last, instead = random.choice(
        (
            (i, i + 1, []),
            (i, k, []),
            (i, i, [words[k]]),
            (i, i, [odd]),
            (i, i + 1, [odd]),
            (i, i + 1, [odd]),
            (i, i + 1, [words[k]]),
            (i, i + 1, [words[i] + words[k]]),
        )
    )
    words[first:last] = instead


def change_bytes(random, line):
    """Cuts a line, or puts odd bytes in."""
    at = random.randrange(len(line) + 1)
    return random.choice(
        (line[:at], line[:at] + random.choice(ODD_BYTES) + line[at + random.randrange(2) :])
    )


def broken(random, line):
    """The line after some changes of words or of bytes."""
    for _ in range(random.choice((1, 1, 1, 2, 3))):
        words = line.split(b" ")
        change_words(random, words)
        line = change_bytes(random, line) if random.random() < 0.3 else b" ".join(words)
    return line
