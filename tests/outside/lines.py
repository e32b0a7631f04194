"""The answers to lines of the program, found from lists of rows.

usage: lines.py             prints the file data/lines_sweeps.txt: questions, and their answers
       lines.py FILE..      prints the files, with the answers that are found here

A line is an operation, a type and lists of rows, which bars part. It is refused for the first of
these reasons: the operation, the type, a row, the length of a list or how many there are, a scalar
or a range. A row is a whole number, a truth value or null.
"""
import random

import recorded
from arithmetic import KINDS, OPERATIONS, QUOTIENTS, row_operation, wrapped
from bits import highest, lowest
from reductions import COUNTS, JOINS, bits_of, reduced

TYPES = (*KINDS, "bool")
MOST_VALUES = 1_000_000

TESTS = {
    "eq": lambda a, b: a == b,
    "ne": lambda a, b: a != b,
    "lt": lambda a, b: a < b,
    "le": lambda a, b: a <= b,
    "gt": lambda a, b: a > b,
    "ge": lambda a, b: a >= b,
}

CALCULATIONS = {name.removeprefix("wrapping_"): name for name in OPERATIONS}
FROM_SCALARS = ("sub", *(name.removeprefix("wrapping_") for name in QUOTIENTS))
FAULTS = ("op", "type", "row", "length", "range", "memory")


class Refused(Exception):
    """Why a line is refused, by its word."""


def word_of(row):
    if row is None:
        return "null"
    return str(row).lower() if isinstance(row, bool) else str(row)


def words_of(rows):
    return " ".join(map(word_of, rows))


def row_of(kind, word):
    """The row of a type that a word writes."""
    if word == "null":
        return None
    if kind == "bool":
        if word not in ("true", "false"):
            raise Refused("row")
        return word == "true"
    signs = "+-" if lowest(kind) < 0 else "+"
    digits = word[1:] if word[0] in signs else word
    if not digits or any(digit not in "0123456789" for digit in digits):
        raise Refused("row")
    number = 0
    for digit in digits.lstrip("0"):
        number = 10 * number + int(digit)
        if number > 2**64:
            raise Refused("row")
    number = -number if word[0] == "-" else number
    if not lowest(kind) <= number <= highest(kind):
        raise Refused("row")
    return number


def lists_of(kind, words):
    lists = [[]]
    for word in words:
        if word == "|":
            lists.append([])
        else:
            lists[-1].append(row_of(kind, word))
    return lists


def many(lists, n):
    if len(lists) != n:
        raise Refused("length")
    return lists


def same_length(left, right):
    if len(left) != len(right):
        raise Refused("length")


def scalar_of(rows):
    if len(rows) != 1:
        raise Refused("length")
    if rows[0] is None:
        raise Refused("range")
    return rows[0]


def compared(test, left, right):
    return words_of(
        None if None in (a, b) else test(a, b) for a, b in zip(left, right, strict=True)
    )


def compared_missing(wanted, left, right):
    return words_of(
        (a is b if None in (a, b) else a == b) == wanted for a, b in zip(left, right, strict=True)
    )


def comparison(answer):
    def answered(_kind, lists):
        left, right = many(lists, 2)
        same_length(left, right)
        return answer(left, right)

    return answered


def broadcast(answer):
    def answered(_kind, lists):
        rows, scalars = many(lists, 2)
        return answer(rows, len(rows) * [scalar_of(scalars)])

    return answered


def calculated(kind, operation, left, right):
    def row(a, b):
        answer = None if None in (a, b) else operation(a, b)
        return None if answer is None else wrapped(kind, answer)

    return words_of(row(a, b) for a, b in zip(left, right, strict=True))


def calculation(operation):
    def answered(kind, lists):
        left, right = many(lists, 2)
        same_length(left, right)
        return calculated(kind, operation, left, right)

    return answered


def with_scalar(operation):
    def answered(kind, lists):
        rows, scalars = many(lists, 2)
        return calculated(kind, operation, rows, len(rows) * [scalar_of(scalars)])

    return answered


def from_scalar(operation):
    def answered(kind, lists):
        scalars, rows = many(lists, 2)
        return calculated(kind, operation, len(rows) * [scalar_of(scalars)], rows)

    return answered


def of_one(answer):
    return lambda kind, lists: answer(kind, *many(lists, 1))


def changed(change):
    return of_one(
        lambda kind, rows: words_of(
            None if row is None else wrapped(kind, change(row)) for row in rows
        )
    )


def counted(count):
    return of_one(
        lambda kind, rows: words_of(
            None if row is None else count(bits_of(kind, row)) for row in rows
        )
    )


def found(rows):
    return "none" if rows is None else words_of(rows)


def reduction(join):
    def answered(kind, rows):
        row = reduced(join, kind, [row for row in rows if row is not None])
        return found(None if row is None else [row])

    return of_one(answered)


def extreme(*choices):
    def answered(_kind, rows):
        present = [row for row in rows if row is not None]
        return found([choose(present) for choose in choices] if present else None)

    return of_one(answered)


def distinct(rows):
    return sorted(set(rows) - {None}), None in rows


def listed(rows):
    values, is_null = distinct(rows)
    return words_of(values + is_null * [None])


def in_range(answer):
    def answered(_kind, lists):
        ends, rows = many(lists, 2)
        first, last = many(ends, 2)
        if None in ends or not 0 < last - first + 1 <= MOST_VALUES:
            raise Refused("range")
        if any(row is not None and not first <= row <= last for row in rows):
            raise Refused("range")
        return answer(last - first + 1, rows)

    return answered


def answers():
    """For each name of an operation its types, and what it answers to lists of rows of a type."""
    for name, test in TESTS.items():
        yield name, TYPES, comparison(lambda left, right, test=test: compared(test, left, right))
        yield name + "_broadcast", TYPES, broadcast(
            lambda left, right, test=test: compared(test, left, right)
        )
    for name, wanted in (("eq_missing", True), ("ne_missing", False)):
        yield name, TYPES, comparison(
            lambda left, right, wanted=wanted: compared_missing(wanted, left, right)
        )
        yield name + "_broadcast", TYPES, broadcast(
            lambda left, right, wanted=wanted: compared_missing(wanted, left, right)
        )
    yield "abs", KINDS, changed(abs)
    yield "neg", KINDS, changed(lambda a: -a)
    for name, operation in CALCULATIONS.items():
        yield name, KINDS, calculation(row_operation(operation))
        yield name + "_scalar", KINDS, with_scalar(row_operation(operation))
        if name in FROM_SCALARS:
            yield name + "_scalar_lhs", KINDS, from_scalar(row_operation(operation))
    for name, count in COUNTS.items():
        yield name, TYPES, counted(count)
    for name, join in JOINS.items():
        yield "reduce_" + name, TYPES, reduction(join)
    yield "min", TYPES, extreme(min)
    yield "max", TYPES, extreme(max)
    yield "min_max", TYPES, extreme(min, max)
    yield "sum", KINDS, of_one(
        lambda kind, rows: word_of(wrapped(kind, sum(row for row in rows if row is not None)))
    )
    yield "unique", ("bool",), of_one(lambda kind, rows: listed(rows))
    yield "n_unique", ("bool",), of_one(lambda kind, rows: str(len(set(rows))))
    yield "n_unique_non_null", ("bool",), of_one(lambda kind, rows: str(len(distinct(rows)[0])))
    yield "unique_range", KINDS, in_range(lambda size, rows: listed(rows))
    yield "n_unique_range", KINDS, in_range(lambda size, rows: str(len(set(rows))))
    yield "n_unique_non_null_range", KINDS, in_range(lambda size, rows: str(len(distinct(rows)[0])))
    yield "seen_all_range", KINDS, in_range(lambda size, rows: word_of(len(set(rows)) == size + 1))


ANSWERS = {name: (types, answer) for name, types, answer in answers()}


def line_answer(line):
    """The answer to a line; `Refused` says why there is none."""
    words = [word for word in line.split(" ") if word]
    if not words or words[0] not in ANSWERS:
        raise Refused("op")
    types, answer = ANSWERS[words[0]]
    if len(words) < 2 or words[1] not in types:
        raise Refused("type")
    return answer(words[1], lists_of(words[1], words[2:]))


def told(line):
    try:
        return line_answer(line)
    except Refused as reason:
        return f"refused: {reason}"


def output_of(data):
    """What a run over an input reports and writes."""
    lines = data.split(b"\n")
    if not lines[-1]:
        lines.pop()
    refused, output = 0, b""
    for number, line in enumerate(lines, 1):
        try:
            answer = line_answer(line.decode("utf-8"))
        except (Refused, UnicodeDecodeError) as reason:
            refused += 1
            word = "op" if isinstance(reason, UnicodeDecodeError) else reason
            answer = f"line {number}: refused: {word}"
        output += answer.encode() + b"\n"
    return f"lines {len(lines)} refused {refused} x{output.hex()}"


# rows that are the same, null equal to null alone, and how many leaves are compared until that is
# known
DEMO = """\
struct: true false; 2 comparisons
two fields: true true true; 6 comparisons
list: true false true; 2 comparisons
width 0: true false false; 0 comparisons
null child: true false; 0 comparisons
dictionary: true true false; 2 comparisons
view: false false; 2 comparisons
list of struct: false true; 4 comparisons
"""


def bytes_of(word):
    assert word[0] == "x"
    return bytes.fromhex(word[1:])


def repeated(times, piece, beginning):
    """The line that ends in a piece of text so many times."""
    return (bytes_of(beginning) + int(times) * bytes_of(piece)).decode("utf-8")


def status(words):
    return "0" if words[0] == "lines" and words[2:] == ["refused", "0"] else "1"


COMMANDS = {(): "lines", ("demo",): "demo", ("--help",): "help", ("--version",): "version"}

CALLS = {
    "line": told,
    "line_bytes": lambda text: told(bytes_of(text).decode("utf-8")),
    "line_repeated": lambda text: told(repeated(*text.split(" "))),
    "run": lambda text: output_of(bytes_of(text)),
    "demo": lambda text: "x" + DEMO.encode().hex(),
    "command": lambda text: COMMANDS.get(tuple(text.split()), "usage"),
    "exit_status": lambda text: status(text.split(" ")),
    "fault_text": {"read": "read failed", "write": "write failed", "memory": "out of memory"}.get,
}


def answered(lines):
    """The lines, with the answers that are found here."""
    for line in map(recorded.question_of, lines):
        call, _, text = line.partition(" ")
        if line and not line.startswith("#"):
            line = f"{line} -> {CALLS[call](text)}"
        yield line


# ---- questions

SCALAR = ("_broadcast", "_scalar", "_scalar_lhs")


def is_scalar(name):
    return name.endswith(SCALAR)


def takes_one(name):
    return name in (
        "abs",
        "neg",
        "min",
        "max",
        "min_max",
        "sum",
        "unique",
        "n_unique",
        "n_unique_non_null",
        *COUNTS,
    ) or name.startswith("reduce_")


def ends(kind):
    if kind == "bool":
        return [False, True]
    low, high = lowest(kind), highest(kind)
    return sorted({low, low + 1, max(low, -1), 0, 1, high // 2, high - 1, high})


def end_lines(name, kind):
    """An operation at the ends of a type."""
    rows = ends(kind)
    if takes_one(name):
        yield [[*rows, None]]
        yield [[rows[0]]]
        yield [[rows[-1]]]
    elif name.endswith("_range"):
        for first in (rows[0], rows[-1] - 3):
            yield [[first, first + 3], [first + 3, first, None, first + 3]]
            yield [[first, first + 3], [*range(first, first + 4), None]]
    elif is_scalar(name):
        for scalar in rows:
            lists = [[*rows, None], [scalar]]
            yield lists[::-1] if name.endswith("_lhs") else lists
    else:
        for row in rows:
            yield [[*rows, None, row], [*(len(rows) * [row]), row, None]]


def line_of(name, kind, lists):
    return " ".join(["line", name, kind, *" | ".join(words_of(rows) for rows in lists).split()])


def fault_lines(name, kind):
    """What an operation refuses, and two reasons at once, of which the first is told."""
    yield f"line {name}"
    yield f"line {name} i128 1"
    yield f"line {name} {kind} null x | null | null"
    lists = 1 if takes_one(name) else 2
    good = (
        "null"
        if takes_one(name) or name in TESTS or name in CALCULATIONS or name.endswith("_missing")
        else word_of(ends(kind)[0])
    )
    yield f"line {name} {kind} " + " | ".join((lists + 1) * [good])
    if lists == 2:
        yield f"line {name} {kind} {good}"
        yield f"line {name} {kind} {good} | {good} {good} {good}"
        yield f"line {name} {kind} {good} {good} {good} | {good}"
    if is_scalar(name):
        yield f"line {name} {kind} |"
        yield f"line {name} {kind} null | null"
    if name.endswith("_range"):
        top, bottom = highest(kind), lowest(kind)
        yield f"line {name} {kind} null {good} | {good}"
        yield f"line {name} {kind} {good} null | null"
        yield f"line {name} {kind} {good} | {good}"
        yield f"line {name} {kind} 2 1 |"
        yield f"line {name} {kind} 1 2 | 0"
        yield f"line {name} {kind} 1 2 | 3 null"
        yield f"line {name} {kind} {bottom} {top} | {top} {bottom}"
    others = [other for other in TYPES if other not in ANSWERS[name][0]]
    if others:
        yield f"line {name} {others[0]} x"


class Chance:
    """Lines at random, the same in each run."""

    def __init__(self, seed):
        self.random = random.Random(seed)

    def number(self, kind):
        if kind == "bool":
            return self.random.random() < 0.5
        low, high = lowest(kind), highest(kind)
        near = self.random.choice((low, high, 0, 0, self.random.randint(low, high)))
        return min(max(near + self.random.randint(-4, 4), low), high)

    def rows(self, kind, n, nulls=True):
        return [
            None if nulls and self.random.random() < 0.2 else self.number(kind) for _ in range(n)
        ]

    def word(self, row):
        """One of the words of a row."""
        word = word_of(row)
        if row is None or isinstance(row, bool) or self.random.random() < 0.8:
            return word
        sign, digits = ("-", word[1:]) if word[0] == "-" else (self.random.choice(("", "+")), word)
        return sign + self.random.choice((0, 1, 5)) * "0" + digits

    def line(self, name, kind):
        n = self.random.choice((0, 1, 2, 3, 7, 20))
        if takes_one(name):
            lists = [self.rows(kind, n)]
        elif name.endswith("_range"):
            first = self.number(kind)
            last = min(first + self.random.choice((0, 1, 5, 200)), highest(kind))
            lists = [
                [first, last],
                [self.random.choice((None, self.random.randint(first, last))) for _ in range(n)],
            ]
        elif is_scalar(name):
            lists = [self.rows(kind, n), self.rows(kind, 1, nulls=False)]
            if name.endswith("_lhs"):
                lists.reverse()
        else:
            lists = [self.rows(kind, n), self.rows(kind, n)]
        parts = [" ".join(map(self.word, rows)) for rows in lists]
        space = self.random.choice((" ", " ", "  ", "    "))
        return "line " + space.join((name, kind, " | ".join(parts))).rstrip()


def questions():
    for name, (types, _) in ANSWERS.items():
        yield f"# lines: {name} at the ends of its types"
        for kind in types:
            for lists in end_lines(name, kind):
                yield line_of(name, kind, lists)
        yield f"# lines: {name}, what is refused"
        yield from fault_lines(name, types[0])
        yield from fault_lines(name, types[-1])
        chance = Chance(name)
        yield f"# lines: {name} at random"
        for kind in types:
            yield from (chance.line(name, kind) for _ in range(2))


if __name__ == "__main__":
    recorded.main(__doc__, answered, questions)
