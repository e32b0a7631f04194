"""The sums over the answers to calls at all places of words, found from lists of truth values.

usage: sweeps.py    prints the file data/sweeps.txt: questions, and their answers
"""
from bits import MERGES, OPERATORS

PLACES = 66
LENGTHS = (0, 1, 63, 64, 65, 127, 128, 129)
BLOCKS = ((0, 67), (1, 129), (2, 65), (3, 44), (4, 33), (8, 16), (16, 8), (64, 2), (65, 2))


def bit_at(i, number):
    """Bit i of a long list with no pattern that words would have."""
    mixed = (i * 2654435761 + number * 40503) % 2**64
    return (mixed ^ (mixed >> 7)) % 3 == 0


# truth values with few false ones, in no step with words
PATTERN = [i % 37 != 3 for i in range(200)]


def summed(numbers):
    """FNV-1a of 64 bits, with a number in place of a byte, as 16 hexadecimal digits."""
    total = 0xCBF29CE484222325
    for number in numbers:
        total = (total ^ number) * 0x100000001B3 % 2**64
    return f"{total:016x}"


def pair_answers(n):
    """What each call answers to lists of n bits, as the numbers that go into the sum."""
    x, y, z = ([bit_at(i, number) for i in range(n)] for number in (1, 2, 3))
    for mask in ("", "mask_"):
        for name, operator in OPERATORS.items():
            yield mask + name, [operator(a, b) for a, b in zip(x, y)]
        for name, merge in MERGES.items():
            yield mask + name, [merge(a, b, c) for a, b, c in zip(x, y, z)]
        yield mask + "not", [not a for a in x]
    yield "to_bitmap", x
    yield "set_bits", [sum(x)]
    yield "mask_unset_bits", [x.count(False)]
    yield "num_intersections_with", [sum(a and b for a, b in zip(x, y))]


def run_answers(n):
    """What each call answers to runs of n bits, at all places in order."""
    yield "all_set", [all(PATTERN[at : at + n]) for at in range(PLACES)]
    bits = [bit for at in range(PLACES) for bit in at * [True] + PATTERN[:n] + [False]]
    yield "extend_values", bits
    yield "extend_wide_values", bits


def block_answers(width, n):
    """Whether the blocks from each place on are true throughout, at all places in order."""
    for at in range(PLACES):
        assert at + width * n <= len(PATTERN)
        for i in range(n):
            begin = at + width * i
            yield all(PATTERN[begin : begin + width])


print("# calls at all pairs of places of words")
for n in LENGTHS:
    for call, numbers in pair_answers(n):
        # at whichever places the lists lie, the result is the same
        print(f"sweep {call} {n} -> {summed(PLACES * PLACES * numbers)}")
print("# runs at all places of words")
for n in LENGTHS:
    for call, numbers in run_answers(n):
        print(f"sweep {call} {n} -> {summed(numbers)}")
print("# blocks at all places of words")
for width, n in BLOCKS:
    print(f"sweep_blocks {width} {n} -> {summed(block_answers(width, n))}")
