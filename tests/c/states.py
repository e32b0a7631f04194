#!/usr/bin/env python3
"""Collects distinct values of random columns in states, and looks at each by a set of Python.

usage: states.py LIBRARY [--number 300] [--seed 1]

Columns of each format of whole numbers, with offsets, odd addresses and numbers under nulls, are
appended to states whose ranges lie anywhere in the type, also with rows outside of them. States are
copied as bytes and merged in any order. Ends with `N passed, M failed`.
"""
import argparse
import ctypes
import random
import sys

import arrow
from flat import FORMATS as NUMBERS, limits

# A state takes the two numbers of "tiD" as one.
FORMATS = NUMBERS + ["tiD"]

# What lies past the bits of a state, and has to stay.
BEHIND = 0xA5A5A5A5A5A5A5A5


class Tried:
    """A state beside the set of what it should have seen."""

    def __init__(self, library, least, greatest):
        self.library, self.least, self.greatest = library, least, greatest
        self.seen, self.null = set(), False
        ends = arrow.Number.of(least), arrow.Number.of(greatest)
        self.words = library.dunkelva_unique_words(*ends)
        self.bits = (ctypes.c_uint64 * (self.words + 1))()
        self.bits[self.words] = BEHIND
        self.state = arrow.State()
        self.made = library.dunkelva_unique_init(self.state, *ends, self.bits, self.words)

    def append(self, column, rows):
        """Appends a column, and returns the status and that which it should be."""
        present = {row for row in rows if row is not None}
        wanted = arrow.OK
        if any(not self.least <= row <= self.greatest for row in present):
            wanted = arrow.OUT_OF_RANGE
        else:
            self.seen |= present
            self.null |= None in rows
        return self.library.dunkelva_unique_append(self.state, column.schema, column.array), wanted

    def merge(self, other):
        """Merges another state, and returns the status and that which it should be."""
        self.seen |= other.seen
        self.null |= other.null
        return self.library.dunkelva_unique_merge(self.state, other.state), arrow.OK

    def copied(self):
        """Returns a state of the same bytes elsewhere."""
        other = Tried(self.library, self.least, self.greatest)
        ctypes.memmove(other.bits, bytes(self.bits), ctypes.sizeof(self.bits))
        other.state.has_null = int(self.state.has_null)
        other.seen, other.null = set(self.seen), self.null
        return other

    def told(self):
        """Returns what the state says: its numbers of values and rows, its values, null or not."""
        values, rows, null = ctypes.c_uint64(), ctypes.c_uint64(), ctypes.c_uint64(7)
        self.library.dunkelva_unique_count(self.state, values, rows)
        room = (ctypes.c_uint64 * (values.value + 1))(*[BEHIND] * (values.value + 1))
        status = self.library.dunkelva_unique_finish(self.state, room, len(room), null)
        wide = 2 ** 64 if self.least < 0 else 0
        numbers = [row - wide if row >= 2 ** 63 else row for row in room[:values.value]]
        return (status, values.value, rows.value, numbers, null.value, room[values.value],
                self.bits[self.words])

    def hoped(self):
        """Returns what it should say."""
        return (arrow.OK, len(self.seen), len(self.seen) + self.null, sorted(self.seen),
                int(self.null), BEHIND, BEHIND)


def some_range(form, chance):
    """Returns the ends of a range of a type."""
    least, greatest = limits(form)
    wide = min(chance.choice((0, 1, 62, 63, 64, 65, 126, 127, 128, 300, 5000)), greatest - least)
    start = chance.choice((least, greatest - wide, min(max(-wide // 2, least), greatest - wide),
                           chance.randint(least, greatest - wide)))
    return start, start + wide


def some_rows(ends, form, chance):
    """Returns rows of a range, sometimes with one outside of it."""
    least, greatest = limits(form)
    nulls = chance.choice((0, 0, 0.2, 1))
    rows = [None if chance.random() < nulls else
            chance.choice((ends[0], ends[1], chance.randint(*ends)))
            for _ in range(chance.choice((0, 1, 7, 64, 65, 200, 1000)))]
    outside = [row for row in (ends[0] - 1, ends[1] + 1) if least <= row <= greatest]
    if rows and outside and chance.random() < 0.2:
        rows[chance.randrange(len(rows))] = chance.choice(outside)
    return rows


def try_states(library, form, chance):
    """Appends to some states and merges them, and returns what was wrong."""
    ends = some_range(form, chance)
    states = [Tried(library, *ends) for _ in range(chance.randrange(1, 5))]
    tried = [("init", state.made, arrow.OK) for state in states]
    for state in states:
        for _ in range(chance.randrange(3)):
            rows = some_rows(ends, form, chance)
            tried.append(("append", *state.append(arrow.make_column(form, rows, chance), rows)))
            tried.append(("appended", state.told(), state.hoped()))
    while len(states) > 1:
        chance.shuffle(states)
        other = states.pop().copied()
        tried.append(("merge", *states[0].merge(other)))
        tried.append(("merged", states[0].told(), states[0].hoped()))
        tried.append(("the other one", other.told(), other.hoped()))
    return [f"{form} {ends} {what}: {got}, and not {hoped}" for what, got, hoped in tried
            if got != hoped]


def main():
    """Tries all states, and returns the status."""
    asked = argparse.ArgumentParser(description=__doc__.split("\n", maxsplit=1)[0])
    asked.add_argument("library")
    asked.add_argument("--number", type=int, default=300)
    asked.add_argument("--seed", type=int, default=1)
    chosen = asked.parse_args()
    library = arrow.load(chosen.library)
    failed = 0
    for number in range(chosen.number):
        chance = random.Random(f"states {chosen.seed} {number}")
        faults = try_states(library, FORMATS[number % len(FORMATS)], chance)
        failed += bool(faults)
        for fault in faults:
            print(f"state {number}: {fault[:300]}")
    print(f"{chosen.number - failed} passed, {failed} failed")
    return failed > 0


if __name__ == "__main__":
    sys.exit(main())
