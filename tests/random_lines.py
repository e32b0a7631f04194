"""Random and mutated lines through the program `polars_tables`, whose answers are compared with
those of a model.

usage: random_lines.py [--number 1000000] [--seed 1] [--jobs 2] [--program PROGRAM] [--keep FILE]

A line is one of the recorded cases of lines, or made at random, and is then changed up to four
times: its bytes, words, numbers, bars, signs, spaces, operation and type. Some are bytes alone. So
about a half can still be answered. Lines go to the program some thousands a run. Of each run is
asked:

- it ends, with status 1 where a line is refused and 0 where none is, and says nothing on standard
  error;
- it prints a line for each line, which is the answer of `tests/outside/lines.py`, or
  `line N: refused: WORD` with the number of the line and the word that the model refuses it by.

Lines that fail are kept as `run BYTES`, as recorded cases ask them. The status is 1 where any
failed.
"""
import collections
import functools
import pathlib
import random
import sys

import runs

sys.path.insert(0, str(runs.ROOT / "tests/outside"))

import recorded as cases  # noqa: E402
from bits import highest, lowest  # noqa: E402
from lines import (
    ANSWERS,
    Chance,
    MOST_VALUES,
    Refused,
    TYPES,
    is_scalar,
    line_answer,
    takes_one,
)  # noqa: E402

FILES = ("lines.txt", "lines_outside.txt", "lines_sweeps.txt", "language.txt")
A_RUN = 4_000
# bytes that parse or print in a way of their own, or are no UTF-8
SPECIAL = (
    b"\0",
    b"\r",
    b"\t",
    b"\x7f",
    b"\x80",
    b"\xbf",
    b"\xc0\x80",
    b"\xc3",
    b"\xc3\xa9",
    b"\xe2\x82",
    b"\xe2\x88\x92",
    b"\xed\xa0\x80",
    b"\xef\xbb\xbf",
    b"\xef\xbc\x91",
    b"\xf0\x9f\x98\x80",
    b"\xf4\x90\x80\x80",
    b"\xff",
    b"\xc2\xa0",
    b"|",
    b" ",
    b"+",
    b"-",
    b"_",
    b".",
    b"0",
    b"e",
)
WORDS = (
    "null",
    "true",
    "false",
    "|",
    "none",
    "NULL",
    "True",
    "nul",
    "||",
    "-",
    "+",
    "+-1",
    "--1",
    "-0",
    "+0",
    "0x10",
    "1_0",
    "1.0",
    "1e3",
    "i128",
    "f64",
    "usize",
    "NaN",
    "inf",
    "memory",
    "refused:",
    "line",
)
# rows about the ends of a word of bits, and of a block of words
MANY = (31, 32, 33, 63, 64, 65, 127, 128, 129, 511, 512, 513)
SPANS = (
    0,
    1,
    5,
    126,
    127,
    128,
    1000,
    MOST_VALUES - 2,
    MOST_VALUES - 1,
    MOST_VALUES,
    MOST_VALUES + 1,
)


def shape(name):
    """Which lists an operation takes."""
    if takes_one(name):
        return "one"
    if name.endswith("_range"):
        return "range"
    if name.endswith("_lhs"):
        return "scalar first"
    return "scalar" if is_scalar(name) else "two"


NAMES = sorted(ANSWERS)
ALIKE = {name: [other for other in NAMES if shape(other) == shape(name)] for name in NAMES}


def recorded():
    """The lines of the recorded cases."""
    lines = []
    for name in FILES:
        for line in cases.lines_of(cases.DATA / name):
            call, _, text = cases.question_of(line).partition(" ")
            if call == "line":
                lines.append(text.encode())
            elif call in ("line_bytes", "run"):
                lines.extend(bytes.fromhex(text[1:]).split(b"\n"))
    return lines


RECORDED = recorded()


class Mutation:
    """Changes of lines at random, the same for one seed."""

    def __init__(self, seed):
        self.chance = Chance(seed)
        self.random = random.Random(seed + " changes")

    def is_one_in(self, n):
        return self.random.randrange(n) == 0

    def place(self, items, first=0):
        """A place from the first one on, or None."""
        return self.random.randrange(first, len(items)) if len(items) > first else None

    # ---- bytes

    def changed_byte(self, line):
        at = self.random.randrange(len(line) + 1)
        byte = bytes([self.random.randrange(256)]).replace(b"\n", b"\xfe")
        instead = self.random.choice((b"", byte, byte, self.random.choice(SPECIAL)))
        return line[:at] + instead + line[at + self.random.randrange(2) :]

    def cut_bytes(self, line):
        at = self.random.randrange(len(line) + 1)
        return self.random.choice((line[:at], line[at:]))

    def spaced(self, line):
        """More spaces between some words, and at the ends."""
        space = self.random.choice((b" ", b"  ", b"      "))
        return self.random.choice(
            (space + line, line + space, line.replace(b" ", space + b" "), space + line + space)
        )

    # ---- words

    def swapped(self, words):
        i, k = self.place(words), self.place(words)
        if i is not None:
            words[i], words[k] = words[k], words[i]

    def dropped(self, words):
        i = self.place(words)
        if i is not None:
            del words[i]

    def repeated(self, words):
        i = self.place(words)
        if i is not None:
            words[i:i] = self.random.choice((1, 1, 2, 7)) * [words[i]]

    def cut_word(self, words):
        i = self.place(words)
        if i is not None:
            at = self.random.randrange(len(words[i]) + 1)
            words[i] = self.random.choice(
                (words[i][:at], words[i][at:], words[i][:at] + words[i][at + 1 :])
            )

    def other_word(self, words):
        i = self.place(words)
        if i is not None:
            words[i] = self.random.choice(WORDS)

    def other_operation(self, words):
        if words:
            alike = ALIKE.get(words[0], NAMES)
            words[0] = self.random.choice(alike if self.random.random() < 0.8 else NAMES)

    def other_type(self, words):
        if len(words) > 1:
            words[1] = self.random.choice(TYPES)

    def moved_bar(self, words):
        if "|" in words:
            words.remove("|")
        for _ in range(self.random.choice((0, 1, 1, 1, 2))):
            words.insert(self.random.randrange(min(2, len(words)), len(words) + 1), "|")

    def other_number(self, words):
        """A row at an end of a type, past it, or anywhere."""
        kind = self.random.choice(TYPES[:-1]) if self.is_one_in(6) or len(words) < 2 else words[1]
        i = self.place(words, 2)
        if i is None or words[i] == "|":
            return
        if kind not in TYPES[:-1]:
            words[i] = self.random.choice(("true", "false", "null"))
        elif self.is_one_in(6):
            past = (
                lowest(kind) - 1,
                highest(kind) + 1,
                2**64 - 1,
                2**64,
                -(2**63) - 1,
                10**30,
            )
            words[i] = str(self.random.choice(past))
        else:
            ends = (lowest(kind), highest(kind), lowest(kind) + 1, 0, 1, self.chance.number(kind))
            words[i] = str(self.random.choice(ends))

    def signed(self, words):
        i = self.place(words, 2)
        if i is not None and words[i] != "|":
            words[i] = self.random.choice(("+", "+", "-")) + words[i].lstrip(
                "+-" if self.is_one_in(2) else ""
            )

    def zeros(self, words):
        i = self.place(words, 2)
        if i is not None and words[i][-1:].isdigit():
            digits = words[i].lstrip("+-")
            words[i] = (
                words[i][: len(words[i]) - len(digits)]
                + self.random.choice((1, 3, 20, 300)) * "0"
                + digits
            )

    def null_row(self, words):
        i = self.place(words, 2)
        if i is not None and words[i] != "|":
            words[i] = "null"

    def more_rows(self, words):
        """All lists, or the longest one, with their rows again and again, up to some number of
        rows."""
        lists = [part.split() for part in " ".join(words[2:]).split("|")]
        n = self.random.choice(MANY)
        longest = max(map(len, lists))
        for k, rows in enumerate(lists):
            if (
                rows
                and (len(rows) > 1 or longest == 1)
                and not (k == 0 and words[0].endswith("_range"))
            ):
                lists[k] = (n * rows)[:n]
        words[2:] = " | ".join(map(" ".join, lists)).split()

    def span(self, words):
        """Ends of a range at some distance."""
        if len(words) > 3 and words[0].endswith("_range") and words[2].isdigit():
            words[3] = str(int(words[2]) + self.random.choice(SPANS))

    def long_word(self, words):
        """A word of very many digits or letters, or very many words; seldom."""
        if not self.is_one_in(20):
            return self.zeros(words)
        n, i = self.random.choice((1_000, 4_096, 70_000)), self.random.randrange(len(words) + 1)
        piece = self.random.choice(("0", "9", "x", "é", "+", "-", "null ", "0 ", "| "))
        words[i:i] = (
            (n * piece).split() if piece[1:] == " " else [n * piece + self.random.choice(("", "1"))]
        )
        return None

    # ---- lines

    OF_BYTES = (changed_byte, cut_bytes, spaced, spaced)
    OF_WORDS = (
        swapped,
        dropped,
        repeated,
        cut_word,
        other_word,
        moved_bar,
        other_type,
        long_word,
        *(2 * (swapped, other_operation, other_type, signed, zeros, null_row, more_rows, span)),
        *(4 * (other_operation, other_number, null_row)),
    )

    def changed(self, line):
        """The line after one change."""
        if self.is_one_in(5):
            return self.random.choice(self.OF_BYTES)(self, line)
        try:
            words = line.decode().split(" ")
        except UnicodeDecodeError:
            return self.changed_byte(line)
        words = [word for word in words if word]
        self.random.choice(self.OF_WORDS)(self, words)
        return " ".join(words).encode()

    def fresh(self):
        """A line that can be answered, or nearly."""
        name = self.random.choice(NAMES)
        return (
            self.chance.line(name, self.random.choice(ANSWERS[name][0]))
            .removeprefix("line ")
            .encode()
        )

    def junk(self):
        """Bytes at random, some of which are what lines are made of."""
        n = self.random.choice((0, 0, 1, 2, 5, 30, 300))
        if self.is_one_in(2):
            return self.random.randbytes(n).replace(b"\n", b"")
        return b"".join(
            self.random.choice((*SPECIAL, b"eq i8 ", b"sum u64 ", b" null", b" 1", b"7"))
            for _ in range(n)
        )

    def line(self):
        if self.is_one_in(40):
            return self.junk()
        line = self.fresh() if self.is_one_in(4) else self.random.choice(RECORDED)
        for _ in range(self.random.choice((0, 1, 1, 1, 1, 2, 2, 3, 4))):
            line = self.changed(line)
        return line


def answer(line):
    """The answer to a line, or the word that it is refused by, and which of the two it is."""
    try:
        return line_answer(line.decode("utf-8")), True
    except UnicodeDecodeError:
        return "op", False
    except Refused as reason:
        return str(reason), False


def expected(lines):
    """What a run over these lines prints, line by line, and a Counter of answers and of refusals by
    their word."""
    printed, counts = [], collections.Counter()
    for number, line in enumerate(lines, 1):
        text, is_answer = answer(line)
        counts["answered" if is_answer else "refused: " + text] += 1
        printed.append((text if is_answer else f"line {number}: refused: {text}").encode())
    return printed, counts


def kept(lines):
    """A recorded case that asks these lines."""
    return b"run x" + b"".join(line + b"\n" for line in lines).hex().encode() + b"\n"


def faults(program, lines, printed):
    """What a run over these lines did wrong, each with the input that shows it."""
    given = b"\n".join(lines)
    ran = runs.run([program], given + (b"\n" if len(given) % 2 == 0 or not lines[-1] else b""))
    if not runs.is_ended(ran):
        return faults_alone(program, lines) or [(runs.ending(ran), kept(lines))]
    found = []
    if ran.printed[-1:] not in (b"", b"\n"):
        found.append(("the last line has no end", kept(lines)))
    told = ran.printed.split(b"\n")[:-1]
    if len(told) != len(lines):
        found.append((f"{len(lines)} lines have {len(told)} answers", kept(lines)))
    for line, is_told, wanted in zip(lines, told, printed):
        if is_told != wanted:
            found.append(
                (f"{line[:300]!r}: {is_told[:300]!r} and not {wanted[:300]!r}", kept([line]))
            )
    status = 1 if any(is_refusal(wanted) for wanted in printed) else 0
    if ran.status != status or ran.said:
        found.append((f"{runs.ending(ran)} and not {status}, and {ran.said[:300]!r}", kept(lines)))
    return found


def is_refusal(wanted):
    return wanted.startswith(b"line ")


def faults_alone(program, lines):
    """The lines over which a run has no end of its own, each in a run of its own."""
    ended = ((line, runs.run([program], line + b"\n")) for line in lines)
    return [
        (f"{line[:300]!r}: {runs.ending(ran)}", kept([line]))
        for line, ran in ended
        if not runs.is_ended(ran)
    ]


def try_part(program, seed, part):
    """Makes the lines of a part, and gives them to the program in one run."""
    number, size = part
    mutation = Mutation(f"lines {seed} {number}")
    lines = [mutation.line() for _ in range(size)]
    printed, counts = expected(lines)
    counts["lines"] = size
    return counts, faults(program, lines, printed)


def main():
    chosen = runs.options(__doc__, "polars_tables")
    parts = list(enumerate(runs.sizes(chosen.number, A_RUN)))
    return runs.end(
        "random_lines", chosen, functools.partial(try_part, chosen.program, chosen.seed), parts
    )


if __name__ == "__main__":
    sys.exit(main())
