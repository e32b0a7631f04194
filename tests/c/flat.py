#!/usr/bin/env python3
"""Calls on columns of numbers, with random rows, and looks at each result by Python's numbers.

usage: flat.py LIBRARY [--number 400] [--seed 1]

Comparisons, sums, extremes, arithmetic, bits and nulls of columns of each format of whole numbers,
also as windows, with odd addresses and with numbers under nulls. Ends with `N passed, M failed`.
"""
import argparse
import ctypes
import functools
import operator
import random
import sys

import arrow

# "tiD" has two numbers in a row, so no call on numbers takes it.
FORMATS = [form for form in arrow.NUMBERS if form not in ("e", "f", "g", "tiD")] + [
    "tss:", "tsu:UTC", "d:9,2,64"]
TESTS = [operator.eq, operator.ne, operator.lt, operator.le, operator.gt, operator.ge]


def limits(form):
    """Returns the least and the greatest number of a format."""
    count = 2 ** (8 * arrow.width_of(form))
    return (0, count - 1) if form in arrow.UNSIGNED else (-count // 2, count // 2 - 1)


def some_rows(form, chance, count):
    """Returns rows, of which many are equal to others or lie at an end of the type."""
    least, greatest = limits(form)
    nulls = chance.choice((0, 0, 0.2, 1))
    numbers = (least, greatest, 0, 1, 2, chance.randint(least, greatest))
    return [None if chance.random() < nulls else chance.choice(numbers) for _ in range(count)]


def holds(test, one, other):
    """Says what a comparison of two rows is."""
    if test < 2:
        return TESTS[test](one, other)
    return one is not None and other is not None and TESTS[test](one, other)


def bits_of(call, rows):
    """Makes a call that writes bits, and returns its status and the bits."""
    out = (ctypes.c_uint8 * ((rows + 7) // 8))()
    status = call(out, len(out))
    return status, [bool(out[row // 8] >> row % 8 & 1) for row in range(rows)]


def wrapped_sum(form, rows):
    """Returns the sum of the present rows, wrapped to the type, or None."""
    least, greatest = limits(form)
    present = [row for row in rows if row is not None]
    return (sum(present) - least) % (greatest - least + 1) + least if present else None


def counted_bits(which, number, width):
    """Returns a count of bits of a number, by its digits."""
    digits = f"{number % 2 ** width:0{width}b}"
    wanted = "10"[which % 2]
    if which < 2:
        return digits.count(wanted)
    end = digits if which < 4 else digits[::-1]
    return len(end) - len(end.lstrip(wanted))


def try_reductions(library, form, rows, column):
    """Reduces a column and counts its bits. Yields what each call gave, and what it should."""
    given = column.schema, column.array
    least, greatest, joined = arrow.Number(), arrow.Number(), arrow.Number()
    present = [row for row in rows if row is not None]
    status = library.dunkelva_min_max(*given, least, greatest)
    yield ("min_max", (status, least.value(), greatest.value()),
           (arrow.OK, min(present, default=None), max(present, default=None)))
    for number, join in enumerate((operator.and_, operator.or_, operator.xor)):
        status = library.dunkelva_reduce_bits(number, *given, joined)
        wanted = functools.reduce(join, present) if present else None
        yield join.__name__, (status, joined.value()), (arrow.OK, wanted)
    for which in range(6):
        counts = (ctypes.c_uint32 * len(rows))()
        status = library.dunkelva_count_bits(which, *given, counts, len(counts))
        got = [count for count, row in zip(counts, rows) if row is not None]
        wanted = [counted_bits(which, row, 8 * arrow.width_of(form)) for row in present]
        yield f"bits {which}", (status, got), (arrow.OK, wanted)


def try_number(library, form, rows, column, number):
    """Compares a column with a number. Yields what each call gave, and what it should."""
    least, greatest = limits(form)
    for test in range(6):
        got = bits_of(lambda *out: library.dunkelva_compare_number(
            test, column.schema, column.array, arrow.Number.of(number), *out), len(rows))
        if least <= number <= greatest:
            wanted = arrow.OK, [holds(test, row, number) for row in rows]
        else:
            wanted = arrow.TYPES_DIFFER, [False] * len(rows)
        yield f"{TESTS[test].__name__} {number}", got, wanted


def quotient(one, other):
    """Returns the quotient that is rounded toward 0."""
    return abs(one) // abs(other) * (1 if (one < 0) == (other < 0) else -1)


OPERATIONS = [operator.add, operator.sub, operator.mul, operator.floordiv, quotient, operator.mod]
SIGNS = [operator.neg, abs]


def wrapped(form, number):
    """Returns a number, wrapped to a type."""
    least, greatest = limits(form)
    return (number - least) % (greatest - least + 1) + least


def result(form, which, one, other):
    """Returns the result of an operation on two rows, or None."""
    if one is None or other is None or which > 2 and other == 0:
        return None
    return wrapped(form, OPERATIONS[which](one, other))


def results_of(form, rows, call):
    """Makes a call that writes results, and returns its status, the results and the nulls."""
    size = arrow.width_of(form)
    values, nulls = (ctypes.c_uint64 * (rows * size // 8 + 2))(), ctypes.c_uint64()
    status, bits = bits_of(lambda *out: call(values, rows, *out, ctypes.byref(nulls)), rows)
    kept, signed = bytes(values), form not in arrow.UNSIGNED
    numbers = [int.from_bytes(kept[size * row:size * (row + 1)], "little", signed=signed)
               for row in range(rows)]
    return status, [number if bit else None for number, bit in zip(numbers, bits)], nulls.value


def try_arithmetic(library, form, lefts, rights, left, right):
    """Calculates with columns and numbers. Yields what each call gave, and what it should."""
    count, one, two = len(lefts), (left.schema, left.array), (right.schema, right.array)
    for which, name in enumerate(it.__name__ for it in OPERATIONS):
        wanted = [result(form, which, *pair) for pair in zip(lefts, rights)]
        yield name, results_of(form, count, lambda *out: library.dunkelva_arithmetic(
            which, *one, *two, *out)), (arrow.OK, wanted, wanted.count(None))
    least, greatest = limits(form)
    for number in (least, greatest, -1, 0, 1, 3, 7, greatest + 1):
        for which, side in ((which, side) for which in range(6) for side in range(2)):
            got = results_of(form, count, lambda *out: library.dunkelva_arithmetic_number(
                which, side, arrow.Number.of(number), *one, *out))
            wanted = [result(form, which, *((number, row) if side == 0 else (row, number)))
                      for row in lefts]
            hoped = arrow.OK, wanted, wanted.count(None)
            if not least <= number <= greatest:
                hoped = arrow.TYPES_DIFFER, [None] * count, 0
            yield f"{OPERATIONS[which].__name__} {number} {side}", got, hoped
    for which, sign in enumerate(SIGNS):
        wanted = [None if row is None else wrapped(form, sign(row)) for row in lefts]
        yield sign.__name__, results_of(form, count, lambda *out: library.dunkelva_sign(
            which, *one, *out)), (arrow.OK, wanted, wanted.count(None))


def try_column(library, form, chance):
    """Makes all calls on two random columns, and returns what was wrong."""
    count = chance.choice((0, 1, 7, 64, 65, 200, 1000))
    left_rows, right_rows = (some_rows(form, chance, count) for _ in range(2))
    left, right = (arrow.make_column(form, rows, chance) for rows in (left_rows, right_rows))
    nulls, total = ctypes.c_uint64(), arrow.Number()
    tried = [("is_null", bits_of(lambda *out: library.dunkelva_is_null(
        left.schema, left.array, *out, ctypes.byref(nulls)), count),
              (arrow.OK, [row is None for row in left_rows])),
             ("nulls", nulls.value, left_rows.count(None)),
             ("sum", (library.dunkelva_sum(left.schema, left.array, total), total.value()),
              (arrow.OK, wrapped_sum(form, left_rows)))]
    for test in range(6):
        got = bits_of(lambda *out: library.dunkelva_compare(
            test, left.schema, left.array, right.schema, right.array, *out), count)
        wanted = [holds(test, one, other) for one, other in zip(left_rows, right_rows)]
        tried.append((TESTS[test].__name__, got, (arrow.OK, wanted)))
    tried += try_reductions(library, form, left_rows, left)
    tried += try_arithmetic(library, form, left_rows, right_rows, left, right)
    least, greatest = limits(form)
    for number in (least, greatest, 1, least - 1, greatest + 1, 2 ** 64 + 1):
        tried += try_number(library, form, left_rows, left, number)
    return [f"{form} {what}: {got}, and not {hoped}" for what, got, hoped in tried if got != hoped]


def main():
    """Tries all columns, and returns the status."""
    asked = argparse.ArgumentParser(description=__doc__.split("\n", maxsplit=1)[0])
    asked.add_argument("library")
    asked.add_argument("--number", type=int, default=400)
    asked.add_argument("--seed", type=int, default=1)
    chosen = asked.parse_args()
    library = arrow.load(chosen.library)
    failed = 0
    for number in range(chosen.number):
        chance = random.Random(f"flat {chosen.seed} {number}")
        faults = try_column(library, FORMATS[number % len(FORMATS)], chance)
        failed += bool(faults)
        for fault in faults:
            print(f"column {number}: {fault[:300]}")
    print(f"{chosen.number - failed} passed, {failed} failed")
    return failed > 0


if __name__ == "__main__":
    sys.exit(main())
