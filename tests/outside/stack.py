"""How deep arrays may lie in others until the stack ends, found by runs that end by a signal.

usage: stack.py PROGRAM..     prints a table for each built program (as out/recorded_cases)

A run makes arrays of so many levels, asks one question, and drops the arrays. The least stack with
which it ends well is searched at two numbers of levels; what a level takes is the difference, and
from it follows how many levels 8 MiB hold. Where that is at most as many as a line may ask for,
runs just below and just above it are tried with 8 MiB too.
"""
import functools
import sys

from deep import FAR_DEPTH, READ_DEPTH, SHAPES, Deep, run

STACK = 8 << 20
PAGE = 4096
SMALLEST, LARGEST = 32 << 10, 256 << 20
FEW, MANY = 250, 500
# structs keep the types of all that they hold, so that arrays of far more levels of them would take
# too much memory
MOST_STRUCTS = 6000
QUESTIONS = {
    "make and drop": None,
    "eq_missing": "array_tot_eq_missing_kernel_counted l r",
    "clone_array": "c = copy l",
    "clone_array, slice, rows": "array_slice l 0 1",
    "same_type": "same_type l r",
    "dtype, has_type": "has_type l r",
    "dtype, ==": "type_eq l r",
    "clone_type, text": "clone_type l",
    "rows as text": "rows l",
    "leaf slots": "leaves l r",
}


def lines_of(levels, kinds, question, is_read):
    """The lines of a run: arrays that words write level by level, or wrapped ones."""
    left, right = Deep(levels, kinds, [1]), Deep(levels, kinds, [1])
    words = [it.words() if is_read else it.wrapped() for it in (left, right)]
    return ["# deep", f"l = {words[0]}", f"r = {words[1]}", *([question] if question else [])]


def ends_well(program, lines, stack):
    """Whether the run ends with status 0; a signal is the end of the stack."""
    status, printed, _ = run([program, "--print"], lines, stack)
    if status > 0 or (status == 0 and "refused" in printed):
        raise RuntimeError(f"status {status}: {printed[-200:]}")
    return status == 0


def least_stack(program, lines):
    """The least stack, to a page, with which a run ends well."""
    too_small, enough = SMALLEST // PAGE, LARGEST // PAGE
    while enough - too_small > 1:
        middle = (too_small + enough) // 2
        if ends_well(program, lines, middle * PAGE):
            enough = middle
        else:
            too_small = middle
    return enough * PAGE


def held(program, lines_at):
    """How many bytes a level takes, and how many levels 8 MiB hold."""
    few, many = least_stack(program, lines_at(FEW)), least_stack(program, lines_at(MANY))
    level = (many - few) / (MANY - FEW)
    if level < 1:
        return level, None
    return level, int(MANY + (STACK - many) / level)


def tried(program, lines_at, levels, most):
    """What runs just below and just above a number of levels say with 8 MiB, where lines may ask
    for so many."""
    if levels is None or levels * 1.05 > most:
        return ""
    below, above = (
        ends_well(program, lines_at(int(levels * share)), STACK) for share in (0.95, 1.05)
    )
    return "tried" if below and not above else f"NOT so: {below} {above}"


def print_row(program, kinds, name, question, is_read):
    lines_at = functools.partial(lines_of, kinds=kinds, question=question, is_read=is_read)
    level, levels = held(program, lines_at)
    most = READ_DEPTH if is_read else MOST_STRUCTS if "struct" in kinds else FAR_DEPTH
    said = "no end" if levels is None else f"{levels} levels"
    print(
        f"{', '.join(kinds):20} {name:26} {level:8.0f} {said:>16} "
        f"{tried(program, lines_at, levels, most)}",
        flush=True,
    )


def main(programs):
    for program in programs:
        print(f"{program}\n{'levels of':20} {'call':26} {'bytes a level':>8} {'8 MiB hold':>11}")
        for kinds in SHAPES:
            for name, question in QUESTIONS.items():
                print_row(program, kinds, name, question, False)
            print_row(program, kinds, "read from words", None, True)
    return 0


if __name__ == "__main__":
    sys.exit(main(sys.argv[1:]) if len(sys.argv) > 1 else __doc__)
