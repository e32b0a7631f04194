#!/usr/bin/env python3
"""Compares random columns of all types, and looks at each row by Python's own ==.

usage: trees.py LIBRARY [--number 400] [--seed 1]

A column has a random type, up to four levels, and up to 200 rows; a few have 20,000 to 40,000,
which takes several windows. Each pair is compared whole, with sides exchanged, and in a window at
random rows of each side. Ends with `N passed, M failed`.
"""
import argparse
import ctypes
import random
import sys

import arrow

FLAT = ["n", "b", "b", *arrow.NUMBERS, *5 * ["z", "Z", "u", "U", "vz", "vu"], "w:0", "w:3", "d:9,2",
        "d:9,-2,128", "d:9,2,256", "d:9,2,64", "d:9,2,32", "tss:", "tsm:UTC", "tsu:Europe/Oslo",
        "tsn:", "tin"]
KEYS = ["i", "u", "vu"]
LENGTHS = (0, 1, 7, 8, 63, 64, 65, 200)


def some_type(chance, depth):
    """Returns a random type."""
    form = chance.random()
    if depth == 0 or form < 0.35:
        return chance.choice(FLAT)
    if form < 0.6:
        sized = f"+w:{chance.randrange(3)}"
        return chance.choice(("+l", "+L", sized)), some_type(chance, depth - 1)
    if form < 0.68:
        return "+m", chance.choice(KEYS), some_type(chance, depth - 1)
    if form < 0.86:
        names = chance.sample(("a", "b", "", "é"), chance.randrange(4))
        return "+s", [(name, some_type(chance, depth - 1)) for name in names]
    entry = chance.choice(FLAT)
    return "dict", chance.choice("cCsSiIlL"), ("+l", entry) if chance.random() < 0.1 else entry


def equal(library, left, right):
    """Returns a status and truth values, one a row."""
    out = (ctypes.c_uint8 * ((len(left) + 7) // 8))()
    status = library.dunkelva_equal(left.schema, left.array, right.schema, right.array,
                                    arrow.FLOATS_BY_BITS, out, len(out))
    return status, unpacked(out, len(left))


def equal_rows(library, left, left_first, right, right_first, rows):
    """Returns a status and truth values, one a row."""
    out = (ctypes.c_uint8 * ((rows + 7) // 8))()
    status = library.dunkelva_equal_rows(
        left.schema, left.array, left_first, right.schema, right.array, right_first, rows,
        arrow.FLOATS_BY_BITS, out, len(out), None)
    return status, unpacked(out, rows)


def is_null(library, column):
    """Returns a status and truth values, one a row, or what is wrong with the number of nulls."""
    out, nulls = (ctypes.c_uint8 * ((len(column) + 7) // 8))(), ctypes.c_uint64()
    status = library.dunkelva_is_null(column.schema, column.array, out, len(out),
                                      ctypes.byref(nulls))
    found = unpacked(out, len(column))
    return status, found if nulls.value == sum(found) else f"{nulls.value} nulls"


def unpacked(out, rows):
    """Returns bits as truth values."""
    return [bool(out[row // 8] >> row % 8 & 1) for row in range(rows)]


def try_pair(library, chance, depth, rows):
    """Compares two random columns, and returns what was wrong, and how many rows were the same."""
    kind = some_type(chance, depth) if depth else chance.choice([*arrow.NUMBERS])
    left_rows = [arrow.some_value(kind, chance) for _ in range(rows)]
    right_rows = [row if chance.random() < 0.6 else arrow.some_value(kind, chance)
                  for row in left_rows]
    left, right = (arrow.make_column(kind, side, chance) for side in (left_rows, right_rows))
    wanted = [one == other for one, other in zip(left_rows, right_rows)]
    tried = [("whole", equal(library, left, right), wanted),
             ("exchanged", equal(library, right, left), wanted),
             ("itself", equal(library, left, left), [True] * rows)]
    first, second = (chance.randrange(rows + 1) for _ in range(2))
    count = chance.randrange(rows - max(first, second) + 1)
    window = zip(left_rows[first:first + count], right_rows[second:second + count])
    tried.append((f"rows {first} {second} {count}",
                  equal_rows(library, left, first, right, second, count),
                  [one == other for one, other in window]))
    tried.append(("nulls", is_null(library, left), [row is None for row in left_rows]))
    faults = [f"{what}: {kind}, status {got[0]}" for what, got, hoped in tried
              if got != (arrow.OK, hoped)]
    return faults, sum(wanted)


def main():
    """Tries all pairs, and returns the status."""
    asked = argparse.ArgumentParser(description=__doc__.split("\n", maxsplit=1)[0])
    asked.add_argument("library")
    asked.add_argument("--number", type=int, default=400)
    asked.add_argument("--seed", type=int, default=1)
    chosen = asked.parse_args()
    library = arrow.load(chosen.library)
    failed = rows = same = 0
    for number in range(chosen.number):
        chance = random.Random(f"trees {chosen.seed} {number}")
        is_long = number % 100 == 99
        count = chance.randrange(20_000, 40_000) if is_long else chance.choice(LENGTHS)
        depth = 1 if is_long else 3
        faults, equal_count = try_pair(library, chance, depth, count)
        failed += bool(faults)
        rows, same = rows + count, same + equal_count
        for fault in faults:
            print(f"pair {number}: {fault}")
    print(f"trees: {chosen.number} pairs, {rows} rows, of which {same} are the same")
    print(f"{chosen.number - failed} passed, {failed} failed")
    return failed > 0


if __name__ == "__main__":
    sys.exit(main())
