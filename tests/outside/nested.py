"""The answers to questions on dictionaries, and on other arrays that recorded cases write, found
from their rows.

usage: nested.py FILE..    prints the files, with the answers that are found here
       nested.py --check   finds the answers anew to all questions of data/ on arrays in which a
                           dictionary lies, and on states of keys, and compares them with those that
                           stand there; status 1 where one differs

What the calls mean, and which rows are null, is said by `slices_arrays.py`, `slices_answers.py` and
`states.py`; here are the arrays that words make, and the calls that no slice is asked. Arrays that
lie `wrapped` in many levels are those of `deep.py`.
"""
import sys

import recorded
import reductions
import slices_answers
import states
from slices_answers import by_script, texts
from slices_arrays import (
    Entry,
    Fields,
    FixedLists,
    Keyed,
    Leaves,
    Lists,
    Nulls,
    Rows,
    Structs,
    is_null,
)

# those whose result is no matter of rows, or that return bits at null rows too
OTHERS = (
    "dtype",
    "clone_type",
    "has_type",
    "is_struct_of",
    "same_field",
    "same_fields",
    "same_kind",
    "same_type",
    "type_eq",
    "field_eq",
    "can_broadcast",
    "can_compare",
    "keys",
    "keys_fit",
    "list_broadcast",
    "fixed_size_list_broadcast",
)
STATES = (
    "accepts_keys",
    "append_all_keys",
    "ended_keys",
    "key_state",
    "key_state_accepts",
    "merge_tree_keys",
    "one_range_keys",
    "same_range_keys",
    "state_keys",
    "state_keys_rows",
    "stored_keys",
)

# what is made by a loop, or has more entries than a list holds: `deep.py` computes these
ELSEWHERE = ("deep_mixed.txt",)


class Parts(reductions.Case):
    """The words of an array: its first row, how many rows, its kind, and the parts of the kind."""

    def made(self):
        at, n, kind = self.number(), self.number(), self.word()
        return self.stored_rows(kind).cut(at, n)

    def stored_rows(self, kind):
        readers = {
            "null": self.nulls,
            "list": self.lists,
            "largelist": self.lists,
            "fixedlist": self.fixed_lists,
            "struct": self.structs,
            "dict": self.keyed,
        }
        return readers[kind](kind) if kind in readers else self.leaves(kind)

    def validity(self, n):
        """The word of a validity, and which of n rows are present."""
        word = self.words[0]
        if word == "-":
            self.word()
            return word, n * [True]
        present = self.bits()
        assert len(present) == n
        return word, present

    def nulls(self, _):
        return Nulls(self.number())

    def leaves(self, kind):
        before = list(self.words)
        values = self.stored(kind)
        words = " ".join(before[: len(before) - len(self.words)])
        validity, present = self.validity(len(values))
        return Leaves(kind, values, words, present, validity)

    def lists(self, kind):
        offsets = self.numbers()
        validity, present = self.validity(len(offsets) - 1)
        return Lists(kind, offsets, self.made(), present, validity)

    def fixed_lists(self, _):
        width, n = self.number(), self.number()
        validity, present = self.validity(n)
        return FixedLists(width, self.made(), present, validity)

    def structs(self, _):
        n, count = self.number(), self.number()
        validity, present = self.validity(n)
        fields = [(self.word(), self.made()) for _ in range(count)]
        return Structs(
            [name for name, _ in fields], [column for _, column in fields], present, validity
        )

    def keyed(self, _):
        kind, keys = self.word(), self.numbers()
        validity, present = self.validity(len(keys))
        return Keyed(kind, keys, self.made(), present, validity)


def array_of(words):
    """The array that words write, which are those of an array."""
    parts = Parts(words[1:] if words[0] == "shared" else words, {})
    array = parts.made()
    assert not parts.words
    return array


def type_of(array):
    """What arrays have to have in common, to be of one type."""
    if isinstance(array, Lists):
        return array.kind, type_of(array.items)
    if isinstance(array, FixedLists):
        return array.kind, array.width, type_of(array.items)
    if isinstance(array, Structs):
        return array.kind, *(
            (name, type_of(column)) for name, column in zip(array.names, array.columns, strict=True)
        )
    if isinstance(array, Keyed):
        return array.kind, array.key_kind, type_of(array.entries)
    return array.kind, array.words.split(" ")[0] if array.kind == "fixedbinary" else None


# ---- equality where leaves are said to agree all, or none of them

AGREE = {"always": lambda a, b: True, "never": lambda a, b: False, "": lambda a, b: a == b}


def same_by(agree, a, b):
    """Whether two rows of one type are the same, where leaves that are present agree so."""
    if is_null(a) or is_null(b):
        return is_null(a) and is_null(b)
    if isinstance(a, (Rows, Fields)):
        return len(a.rows) == len(b.rows) and all(
            same_by(agree, *pair) for pair in zip(a.rows, b.rows, strict=True)
        )
    return same_by(agree, a.row, b.row) if isinstance(a, Entry) else agree(a, b)


def digits(left, right, agree, wanted, is_raw):
    """A digit for each pair of rows, or an `x` where no raw bit is promised."""

    def digit(a, b):
        return (
            "x" if is_raw and (is_null(a) or is_null(b)) else "01"[same_by(agree, a, b) == wanted]
        )

    return "b0:" + "".join(map(digit, left, right))


def windows(arrays, left, a, right, b, n, leaves="", is_raw=True):
    """Equality of as many rows from `a` and from `b` on, and the comparisons."""
    left, right, a, b, n = arrays[left], arrays[right], int(a), int(b), int(n)
    assert type_of(left) == type_of(right)
    bits = digits(left.rows()[a : a + n], right.rows()[b : b + n], AGREE[leaves], True, is_raw)
    return f"{bits} in {left.tally(right, a, b, n)} comparisons"


def any_windows(*words):
    return windows(*words, is_raw=False)


def dispatched(name, arrays, left, right, leaves=""):
    """Missing equality of arrays of one type, and the comparisons where they are counted."""
    left, right = arrays[left], arrays[right]
    assert type_of(left) == type_of(right)
    bits = digits(left.rows(), right.rows(), AGREE[leaves], "_eq_" in name, False)
    if not name.endswith("_counted"):
        return bits
    tally = left.tally(right, 0, 0, left.n)
    assert tally <= min(left.leaves(0, left.n), right.leaves(0, right.n))
    return f"{bits} in {tally} comparisons"


def kernel(name, arrays, left, right):
    """Raw or missing equality, which asks of rows that are present that the types are one."""
    left, right = arrays[left], arrays[right]
    is_raw, wanted = "missing" not in name and left.kind != "null", "_eq_" in name
    if type_of(left) == type_of(right):
        return digits(left.rows(), right.rows(), AGREE[""], wanted, is_raw)
    return digits(
        *(
            [row if is_null(row) else Rows((of,)) for row in array.rows()]
            for of, array in enumerate((left, right))
        ),
        AGREE[""],
        wanted,
        is_raw,
    )


def stored(arrays, name):
    """What an array holds, those rows too that no row of it is."""
    array = arrays[name]
    if isinstance(array, (Lists, Keyed, FixedLists)):
        held = array.entries if isinstance(array, Keyed) else array.items
        if isinstance(array, FixedLists):
            held = held.cut(array.width * array.at, array.width * array.n)
        return texts(held.rows())
    if isinstance(array, Structs):
        return " | ".join(texts(column.cut(array.at, array.n).rows()) for column in array.columns)
    return None


def column(arrays, name, k):
    array = arrays[name]
    return texts(array.columns[int(k)].cut(array.at, array.n).rows())


def struct_made(arrays, *words):
    """The rows of structs of named fields, of which each has the type of its column."""
    parts = Parts(words, {})
    n = parts.number()
    validity, present = parts.validity(n)
    fields = [(parts.word(), arrays[parts.word()]) for _ in range(parts.number())]
    columns = [arrays[parts.word()] for _ in range(parts.number())]
    assert [type_of(of) for _, of in fields] == list(map(type_of, columns)) and all(
        of.n == n for of in columns
    )
    return texts(Structs([name for name, _ in fields], columns, present, validity).rows())


def of_states(name, arrays, *words):
    """What the script of states answers."""
    return by_script(
        states, {word: arrays[word] for word in arrays.names_in(words)}, [name, *words]
    )


CALLS = {
    **slices_answers.OWN,
    "values": stored,
    "column": column,
    "struct_try_new": struct_made,
    "key_value": lambda arrays, name, i: str(arrays[name].key(int(i))),
    "array_len": lambda arrays, name: str(arrays[name].n),
    "equal_windows": any_windows,
    **{f"eq_{kind}": windows for kind in ("lists", "fixed_size_lists", "structs", "dictionaries")},
    "array_tot_eq_missing_kernel_with_steps": lambda *words: dispatched("_eq_counted", *words),
}
for relation in ("eq", "ne"):
    for called in (f"tot_{relation}_kernel", f"tot_{relation}_missing_kernel"):
        CALLS[called] = lambda *words, name=called: kernel(name, *words)
    for called in (
        f"array_tot_{relation}_missing_kernel",
        f"array_tot_{relation}_missing_kernel_counted",
    ):
        CALLS[called] = lambda *words, name=called: dispatched(name, *words)
for called in STATES:
    CALLS[called] = lambda *words, name=called: of_states(name, *words)


class Named(dict):
    """The arrays of a case by their names, each made where it is first asked for."""

    def __init__(self):
        super().__init__()
        self.words = {}

    def add(self, name, words):
        self.words[name] = self.words[words[1]] if words[0] == "copy" else words

    def __missing__(self, name):
        self[name] = array_of(self.words[name])
        return self[name]

    def names_in(self, words):
        return [word for word in words if word in self.words]


def answered(lines):
    """The lines, with the answers that are found here."""
    arrays = Named()
    for line in map(recorded.question_of, lines):
        words = line.split(" ")
        if line.startswith("#"):
            arrays = Named()
        elif words[1:2] == ["="]:
            arrays.add(words[0], words[2:])
        elif line:
            line = f"{line} -> {CALLS[words[0]](arrays, *words[1:])}"
        yield line


def asked(path):
    """Each question of a data file, with the arrays of its case and its line."""
    arrays = Named()
    for line in recorded.lines_of(path):
        words = recorded.question_of(line).split(" ")
        if line.startswith("#"):
            arrays = Named()
        elif recorded.is_array(line):
            if not recorded.is_refused(line):
                arrays.add(words[0], words[2:])
        elif line:
            yield arrays, words, line


def has_keys(arrays, words):
    """Whether a question is on states of keys, or on arrays in one of which a dictionary lies."""
    return words[0] in STATES or any(
        "dict" in arrays.words[name] for name in arrays.names_in(words[1:])
    )


def is_asked_here(call):
    return call not in OTHERS and not call.startswith("dyn_array")


def check_file(path):
    """Finds the answers anew to a file's questions on dictionaries. Returns how many were compared,
    and how many differ."""
    compared = differing = 0
    for arrays, words, line in asked(path):
        if not has_keys(arrays, words) or not is_asked_here(words[0]):
            continue
        answer = CALLS[words[0]](arrays, *words[1:])
        compared += 1
        if answer is not None and recorded.answer_of(line) != answer:
            differing += 1
            print(f"{path.name}: {line[:300]}\n    and not {answer[:300]}")
    return compared, differing


def check():
    """Finds the answers anew to all questions on dictionaries, and returns the status."""
    compared = differing = 0
    for path in sorted(recorded.DATA.glob("*.txt")):
        if path.name not in ELSEWHERE:
            counts = check_file(path)
            compared, differing = compared + counts[0], differing + counts[1]
    print(f"{compared} answers on dictionaries compared, {differing} differ")
    return 1 if differing or not compared else 0


def main(arguments):
    sys.setrecursionlimit(100_000)
    if arguments == ["--check"]:
        return check()
    for path in arguments:
        print("\n".join(answered(recorded.lines_of(path))))
    return 0


if __name__ == "__main__":
    sys.exit(main(sys.argv[1:]) if len(sys.argv) > 1 else __doc__)
