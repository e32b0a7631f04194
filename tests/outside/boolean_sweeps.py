"""Prints what the program has to print, worked out from the rows alone.

    python3 tests/outside/boolean_sweeps.py > crates/boolean_sweeps/stdout     # about ten seconds

The numbers of calls and answers are products of rounds, lengths and offsets. How many bits are
promised depends on which rows are null, so the rows are drawn here again, by the same generator.
Nothing differs but where a row is told wrong.
"""

LENGTHS = [0, 1, 63, 64, 65, 127, 128, 129]
OFFSETS = 66
PLACES = OFFSETS * OFFSETS

# A sort of rows: in how many of 32 chances a row is null, and in how many a present one is true.
PLAIN = (0, 16)
ALL_TRUE = (0, 32)
HALF_NULL = (16, 16)
NULL_OR_TRUE = (16, 32)
FEW_FALSE = (29, 0)
ALL_NULL = (32, 16)

PAIRS = [
    (PLAIN, PLAIN),
    (HALF_NULL, HALF_NULL),
    (ALL_TRUE, FEW_FALSE),
    (HALF_NULL, PLAIN),
    (PLAIN, FEW_FALSE),
]
SINGLES = [PLAIN, ALL_TRUE, HALF_NULL, NULL_OR_TRUE, FEW_FALSE, ALL_NULL]

MISSING = ["tot_eq_missing_kernel", "tot_ne_missing_kernel"]
KERNELS = ["tot_eq_kernel", "tot_ne_kernel"] + MISSING + [
    "tot_lt_kernel", "tot_le_kernel", "tot_gt_kernel", "tot_ge_kernel"]
COUNTS = ["count_ones", "count_zeros", "leading_ones", "leading_zeros",
          "trailing_ones", "trailing_zeros"]
REDUCTIONS = ["reduce_and", "reduce_or", "reduce_xor"] + [
    f"{which}_{how}_nan_kernel"
    for how in ("ignore", "propagate") for which in ("min", "max", "min_max")]
DISTINCT = ["unique", "n_unique", "n_unique_non_null", "has_seen_all",
            "finalize_unique", "finalize_n_unique", "finalize_n_unique_non_null"]

WORD = 2**64 - 1


def step(state):
    return (state * 6364136223846793005 + 1442695040888963407) & WORD


def present_bits(sort, length, place):
    """The rows of a place, as a number whose bit i is set where row i is present."""
    state = 0
    for number in place:
        state = step((state + number) & WORD)
    bits = 0
    for row in range(length):
        state = step(step(state))  # drawn are the truth value and whether it is null
        if state >> 59 >= sort[0]:
            bits |= 1 << row
    return bits


def both_present():
    """How many rows of the pairs are present on both sides."""
    total = 0
    for number, (left, right) in enumerate(PAIRS):
        for length in LENGTHS:
            lefts = [present_bits(left, length, (number, 0, length, at)) for at in range(OFFSETS)]
            rights = [present_bits(right, length, (number, 1, length, at)) for at in range(OFFSETS)]
            total += sum((these & those).bit_count() for these in lefts for those in rights)
    return total


def present():
    """How many rows of the single arrays are present."""
    return sum(
        present_bits(sort, length, (number, length, values, validity)).bit_count()
        for number, sort in enumerate(SINGLES)
        for length in LENGTHS
        for values in range(OFFSETS)
        for validity in range(OFFSETS)
    )


def line(name, calls, answers, compared, differ):
    print(f"{name}: {calls} calls, {answers} answers, {compared} compared, {differ} differ")


def sweeps():
    calls, rows = len(PAIRS) * PLACES * len(LENGTHS), len(PAIRS) * PLACES * sum(LENGTHS)
    promised = both_present()
    for name in KERNELS:
        line(name, calls, rows, rows if name in MISSING else promised, 0)
    calls, rows = len(SINGLES) * PLACES * len(LENGTHS), len(SINGLES) * PLACES * sum(LENGTHS)
    promised = present()
    for name in KERNELS:  # each with two scalars
        compared = rows if name in MISSING else promised
        line(f"{name}_broadcast", 2 * calls, 2 * rows, 2 * compared, 0)
    for name in COUNTS:
        line(name, calls, rows, rows, 0)
    for name in REDUCTIONS + DISTINCT:
        line(name, calls, calls, calls, 0)


def told_wrong():
    """What differs where one row is told wrong, by hand.

    Pairs: 129 true rows on both sides, of which row 100 of the right array is told false, and then
    that of the left. Equality is told wrong both times, each order once: 1 < 0 is as false as
    1 < 1, and 0 < 1 is not.

    Singles: 1, told as 0; 129 times 1, the first told as 0; 1 0 null, told as 0 0 null. Equality to
    a scalar is told wrong for both scalars, each order for one of them. WRONG says of how many
    arrays the other answers are told wrong.
    """
    print("Row 100 told wrong, of the right array and then of the left:")
    for name in KERNELS:
        line(name, 2, 2 * 129, 2 * 129, 2 if name in KERNELS[:4] else 1)
    print("The first row told wrong:")
    rows, promised = 1 + 129 + 3, 1 + 129 + 2
    for name in KERNELS:
        compared = 2 * (rows if name in MISSING else promised)
        line(f"{name}_broadcast", 2 * 3, 2 * rows, compared, 2 * 3 if name in KERNELS[:4] else 3)
    for name in COUNTS:
        line(name, 3, rows, rows, 3)
    for name in REDUCTIONS + DISTINCT:
        line(name, 3, 3, 3, WRONG[name])


# Of 1 as 0, 1 1 .. as 0 1 .., and 1 0 null as 0 0 null.
WRONG = {
    "reduce_and": 2,  # not of the third: 0
    "reduce_or": 2,  # not of the second: 1
    "reduce_xor": 3,
    "min_ignore_nan_kernel": 2,  # not of the third: 0
    "max_ignore_nan_kernel": 2,  # not of the second: 1
    "min_max_ignore_nan_kernel": 3,
    "min_propagate_nan_kernel": 2,
    "max_propagate_nan_kernel": 2,
    "min_max_propagate_nan_kernel": 3,
    "unique": 3,
    "n_unique": 2,  # not of the first: 1
    "n_unique_non_null": 2,  # not of the first: 1
    "has_seen_all": 1,  # of the third alone
    "finalize_unique": 3,
    "finalize_n_unique": 2,
    "finalize_n_unique_non_null": 2,
}


if __name__ == "__main__":
    sweeps()
    told_wrong()
