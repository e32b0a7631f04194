"""Arrays that hold arrays many levels deep, and wide ones: questions, and their answers from what
the rows are.

usage: deep.py                  prints the file data/deep_mixed.txt: questions, and their answers
       deep.py --all PROGRAM    asks a built program those questions, and those that are too large
                                for the gate: 5,000 levels, structs of 10,000 fields, and 10,000,000
                                items. Prints the time of each case, and ends with status 1 where an
                                answer differs

A level has one row for each row of the array that it holds: a list of that row alone, between
offsets or of width 1, a struct whose one field `f` has it, or a key that names it. A row of the
whole is thus a leaf in so many levels, or null at some level; where keys name it, it is null at the
level of the first of these.
"""
import resource
import subprocess
import sys
import time

import recorded

MIXED = ("list", "struct", "dict")
SHAPES = (MIXED, ("list",), ("fixedlist",), ("struct",), ("dict",))
BRACKETS = {"list": "[]", "fixedlist": "[]", "struct": "{}", "dict": "<>"}
TYPE_NAMES = {
    "list": "list(",
    "fixedlist": "fixedlist(1 ",
    "struct": "struct(f ",
    "dict": "dict(i32 ",
}
# how deep arrays lie in others at the most: in words, where they are wrapped, and where the stack
# is said to be larger
READ_DEPTH = 500
WRAPPED_DEPTH = 1000
FAR_DEPTH = 100_000
LARGE_STACK = 1 << 30


def bits_of(truths):
    return "b0:" + "".join("01"[truth] for truth in truths)


def validity(present):
    """The word of a validity, `-` where no row is null."""
    return "-" if all(present) else bits_of(present)


def numbers(values):
    return " ".join(map(str, [len(values), *values]))


class Deep:
    """Rows in so many levels of these kinds: each is a number, None for a null leaf, or a pair of
    the level at which the row is null and the number that lies under it."""

    def __init__(self, levels, kinds, rows, leaf="i32"):
        self.levels, self.kinds, self.rows, self.leaf = levels, kinds, rows, leaf

    def kind(self, level):
        return self.kinds[level % len(self.kinds)]

    def null_level(self, row):
        """The level at which a row is masked, or how many levels there are where it is a leaf."""
        return row[0] if isinstance(row, tuple) else self.levels

    def row_level(self, row):
        """The level at which a row is null: that of the first key of those which name it. Else as
        `null_level`."""
        level = self.null_level(row)
        while level > 0 and self.kind(level - 1) == "dict" and self.is_null(row):
            level -= 1
        return level

    def is_null(self, row):
        return row is None or isinstance(row, tuple)

    def words(self):
        """The array in words, level by level."""
        n = len(self.rows)
        words = []
        for level in range(self.levels):
            present = validity([self.null_level(row) != level for row in self.rows])
            words.append(f"0 {n} {self.level_words(self.kind(level), n, present)}")
        return " ".join([*words, self.leaf_words()])

    @staticmethod
    def level_words(kind, n, present):
        return {
            "list": f"list {numbers(range(n + 1))} {present}",
            "fixedlist": f"fixedlist 1 {n} {present}",
            "struct": f"struct {n} 1 {present} f",
            "dict": f"dict i32 {numbers(range(n))} {present}",
        }[kind]

    def leaf_words(self):
        stored = [
            row[1] if isinstance(row, tuple) else 7 if row is None else row for row in self.rows
        ]
        present = validity([row is not None for row in self.rows])
        return f"0 {len(stored)} {self.leaf} {numbers(stored)} {present}"

    def wrapped(self, word=None):
        """The array in words that name the kinds once."""
        word = word or ("wrapped" if self.levels <= WRAPPED_DEPTH else "wrapped_far")
        assert not any(isinstance(row, tuple) for row in self.rows)
        return f"{word} {self.levels} {','.join(self.kinds)} {self.leaf_words()}"

    def row_text(self, row):
        depth = self.row_level(row)
        held = "null" if self.is_null(row) else str(row)
        brackets = [BRACKETS[self.kind(level)] for level in range(depth)]
        return (
            "".join(pair[0] for pair in brackets)
            + held
            + "".join(pair[1] for pair in reversed(brackets))
        )

    def text(self, at=0, n=None):
        rows = self.rows[at:] if n is None else self.rows[at : at + n]
        return " ".join(map(self.row_text, rows))

    def type_text(self):
        names = [TYPE_NAMES[self.kind(level)] for level in range(self.levels)]
        return "".join(names) + self.leaf + ")" * self.levels

    def slots(self, row):
        """How many leaf slots a row has: none under a null key, or else one."""
        depth = self.null_level(row)
        return 0 if depth < self.levels and self.kind(depth) == "dict" else 1

    def shown(self, row):
        """What a row is, as a value: what lies under a null is no part of it."""
        return (self.row_level(row),) if self.is_null(row) else row

    def is_compared(self, row):
        """Whether a comparison goes on to the leaf: not under null keys and null lists between
        offsets."""
        depth = self.null_level(row)
        return depth == self.levels or self.kind(depth) not in ("dict", "list")


def equal_rows(left, right):
    return [left.shown(a) == right.shown(b) for a, b in zip(left.rows, right.rows)]


def comparisons(left, right):
    return sum(left.is_compared(a) and right.is_compared(b) for a, b in zip(left.rows, right.rows))


def is_one_type(left, right):
    return (left.levels, left.kinds, left.leaf) == (right.levels, right.kinds, right.leaf)


def true_word(truth):
    return "true" if truth else "false"


def pair_answers(left, right, other):
    """Each question on `l` and `r`, which are of one type, and `o`, which is of another, and its
    answer."""
    equal, unequal = bits_of(equal_rows(left, right)), bits_of(
        [not it for it in equal_rows(left, right)]
    )
    count = f"in {comparisons(left, right)} comparisons"
    yield "array_tot_eq_missing_kernel l r", equal
    yield "array_tot_ne_missing_kernel l r", unequal
    yield "array_tot_eq_missing_kernel_counted l r", f"{equal} {count}"
    yield "array_tot_ne_missing_kernel_counted l r", f"{unequal} {count}"
    yield "rows l", left.text()
    yield "copy r", right.text()
    yield "array_slice l 1 1", left.text(1, 1)
    yield "leaves l r", " ".join(str(sum(map(it.slots, it.rows))) for it in (left, right))
    yield "dtype l", left.type_text()
    yield "clone_type r", right.type_text()
    for call in ("same_type", "has_type", "same_kind", "type_eq"):
        yield f"{call} l r", "true"
        yield f"{call} l o", true_word(is_one_type(left, other))


def asked(heading, names, pairs):
    """The lines of a case: its arrays, and its questions with their answers."""
    arrays = (f"{name} = {words}" for name, words in names.items())
    return [f"# {heading}", *arrays, *(f"{call} -> {answer}" for call, answer in pairs), ""]


def deep_case(levels, kinds):
    """Arrays in words, against wrapped ones, with nulls at the leaves."""
    left = Deep(levels, kinds, [5, None, -6])
    right = Deep(levels, kinds, [5, None, 6])
    other = Deep(levels, kinds, [5, None, -6], "i64")
    names = {"l": left.words(), "r": right.wrapped(), "o": other.wrapped()}
    return asked(
        f"{levels} levels of {', '.join(kinds)}", names, list(pair_answers(left, right, other))
    )


def null_case(levels, kinds):
    """Rows that are null at some level, over other numbers: both at one level, the left one alone,
    and neither; and one that is null at a key on the right, and below it on the left."""
    middle, last = levels // 2, levels - 1
    assert kinds[(middle + 1) % len(kinds)] == "dict"
    rows = [
        (middle, 1),
        (middle + 1, 2),
        (middle + 2, 3),
        (last, 4),
        5,
        None,
        (middle, 6),
        7,
        (middle + 2, 8),
    ]
    others = [
        (middle, 8),
        (middle + 1, 9),
        (middle + 2, 1),
        (last - 1, 2),
        (last, 5),
        None,
        6,
        7,
        (middle + 1, 3),
    ]
    left, right, other = (
        Deep(levels, kinds, rows),
        Deep(levels, kinds, others),
        Deep(levels - 1, kinds, [5] * len(rows)),
    )
    names = {"l": left.words(), "r": right.words(), "o": other.wrapped()}
    return asked(
        f"{levels} levels of {', '.join(kinds)}, with nulls",
        names,
        list(pair_answers(left, right, other)),
    )


def refused_case():
    """One level more than arrays may lie deep."""
    heading = "arrays that lie too deep"
    arrays = {
        "words": Deep(READ_DEPTH + 1, ("list",), [1]).words(),
        "mixed": Deep(READ_DEPTH + 1, MIXED, [1]).words(),
        "wrapped": Deep(WRAPPED_DEPTH + 1, ("list",), [1]).wrapped("wrapped"),
        "most": Deep(2**63, ("struct",), [1]).wrapped("wrapped"),
        "far": Deep(FAR_DEPTH + 1, ("dict",), [1]).wrapped(),
    }
    depths = {
        "words": READ_DEPTH,
        "mixed": READ_DEPTH,
        "wrapped": WRAPPED_DEPTH,
        "most": WRAPPED_DEPTH,
        "far": FAR_DEPTH,
    }
    refusals = (
        f"{name} = {words} -> refused: arrays hold arrays more than {depths[name]} levels deep"
        for name, words in arrays.items()
    )
    return [f"# {heading}", *refusals, ""]


def entries_case():
    """Dictionaries of 2^32 entries and more, which are nulls: keys name the last, and states hold
    2^32 at the most."""
    names, pairs = {}, []
    for name, count in (("most", 2**32), ("more", 2**32 + 1)):
        names[name] = f"0 {count} null {count}"
        names[f"l_{name}"] = f"0 3 dict u64 3 0 {count - 1} 5 b0:110 {names[name]}"
        names[f"r_{name}"] = f"0 3 dict u64 3 1 {count - 2} {2**64 - 1} b0:110 {names[name]}"
        names[
            f"beyond_{name}"
        ] = f"0 3 dict u64 3 0 {count} 5 b0:110 {names[name]} -> refused: key 1 is out of range"
        pairs.append((f"keys_fit {name}", true_word(count <= 2**32)))
        pairs.append((f"rows l_{name}", "null null null"))
        pairs.append((f"copy r_{name}", "null null null"))
        pairs.append(
            (f"array_tot_eq_missing_kernel_counted l_{name} r_{name}", "b0:111 in 0 comparisons")
        )
    return asked("dictionaries of 2^32 nulls and of one more", names, pairs)


def wide_case(width):
    """Structs of so many fields, that differ in the last one's name, type or row alone."""

    def words(last_name, last):
        fields = [f"n{i} 0 2 i32 2 {i} {-i} -" for i in range(width - 1)]
        return " ".join([f"0 2 struct 2 {width} -", *fields, last_name, last])

    names = {
        "l": words("z", "0 2 i32 2 0 0 -"),
        "r": words("z", "0 2 i32 2 0 1 -"),
        "n": words("y", "0 2 i32 2 0 0 -"),
        "t": words("z", "0 2 i64 2 0 0 -"),
    }
    rows = [[*range(width - 1), 0], [*range(0, 1 - width, -1), 0]]
    text = ["{" + ",".join(map(str, row)) + "}" for row in rows]
    dtype = "struct(" + "".join(f"n{i} i32, " for i in range(width - 1)) + "z i32)"
    tests = [
        (f"{call} l {to}", true_word(to == "r"))
        for call in ("same_type", "has_type", "type_eq")
        for to in "rnt"
    ]
    pairs = [
        *tests,
        ("array_tot_eq_missing_kernel_counted l r", f"b0:10 in {2 * width} comparisons"),
        ("rows l", " ".join(text)),
        ("copy l", " ".join(text)),
        ("array_slice l 1 1", text[1]),
        ("leaves l r", f"{2 * width} {2 * width}"),
        ("dtype l", dtype),
        ("clone_type l", dtype),
    ]
    return asked(f"structs of {width} fields", names, pairs)


def long_list_case(items):
    """One list of so many numbers, and of so many nulls."""
    values = " ".join(str(i % 10) for i in range(items - 1))
    names = {
        "l": f"0 1 list 2 0 {items} - 0 {items} i8 {items} {values} 1 -",
        "r": f"0 1 list 2 0 {items} - 0 {items} i8 {items} {values} 2 -",
        "s": f"0 1 list 2 0 {items} - 0 {items} null {items}",
    }
    pairs = [
        ("array_tot_eq_missing_kernel_counted l l", f"b0:1 in {items} comparisons"),
        ("array_tot_eq_missing_kernel_counted l r", f"b0:0 in {items} comparisons"),
        ("array_tot_eq_missing_kernel_counted s s", "b0:1 in 0 comparisons"),
        ("leaves l s", f"{items} 0"),
        ("same_type l r", "true"),
        ("same_type l s", "false"),
        ("array_slice l 1 0", ""),
        ("rows l", f"[{values.replace(' ', ',')},1]"),
        ("copy r", f"[{values.replace(' ', ',')},2]"),
    ]
    return asked(f"a list of {items} items", names, pairs)


def many_lists_case(lists):
    """So many lists of ten items, of which the last list alone differs; as large lists too, by the
    numbers of another."""
    items = 10 * lists
    offsets = " ".join(str(10 * i) for i in range(lists + 1))
    values = " ".join(str(i % 7) for i in range(items - 1))
    held = {"l": "1", "r": "2"}
    names = {
        name: f"0 {lists} list {lists + 1} {offsets} - 0 {items} i8 {items} {values} {last} -"
        for name, last in held.items()
    }
    names["n"] = f"0 {lists} list {lists + 1} {offsets} - 0 {items} null {items}"
    last_row = [*(str(i % 7) for i in range(items - 10, items - 1)), "1"]
    pairs = [
        (
            "array_tot_eq_missing_kernel_counted l r",
            f"{bits_of([1] * (lists - 1) + [0])} in {items} comparisons",
        ),
        ("array_tot_eq_missing_kernel_counted n n", f"{bits_of([1] * lists)} in 0 comparisons"),
        ("leaves l n", f"{items} 0"),
        ("same_type l r", "true"),
        ("same_type l n", "false"),
        (f"array_slice l {lists - 1} 1", f"[{','.join(last_row)}]"),
    ]
    return asked(f"{lists} lists of ten items", names, pairs)


def one_width_case(width, lists, kind, last):
    """So many lists of one length after three items that no list has, but the last list has `last`
    items more. Every eleventh item differs on the right. The same of lists from the sixth on."""
    places = [3 + width * i for i in range(lists)] + [3 + width * lists + last]
    count = places[-1]
    items = {
        "l": [i * 7 % 5 for i in range(count)],
        "r": [i * 7 % 5 + (i % 11 == 0) for i in range(count)],
    }
    same = [items["l"][a:b] == items["r"][a:b] for a, b in zip(places, places[1:])]
    leaves = {
        "i32": lambda numbers: f"i32 {count} {' '.join(map(str, numbers))} -",
        "utf8": lambda numbers: (
            f"utf8 {count + 1} {' '.join(map(str, range(count + 1)))} "
            f"x{''.join(f'{97 + n:x}' for n in numbers)} -"
        ),
    }
    names, pairs = {}, []
    for at in (0, 5):
        for leaf, words in leaves.items():
            for side, numbers in items.items():
                names[f"{side}_{leaf}_{at}"] = (
                    f"{at} {lists - at} {kind} {lists + 1} {' '.join(map(str, places))} - 0 "
                    f"{count} {words(numbers)}"
                )
            counted = f"{bits_of(same[at:])} in {count - places[at]} comparisons"
            pairs.append(
                (f"array_tot_eq_missing_kernel_counted l_{leaf}_{at} r_{leaf}_{at}", counted)
            )
    behind = f", and {last} items more in the last" if last else ""
    return asked(f"{lists} {kind}s of {width} items{behind}", names, pairs)


def gate_cases():
    """The cases of data/deep_mixed.txt."""
    for levels in (200, READ_DEPTH):
        for kinds in SHAPES:
            yield deep_case(levels, kinds)
        yield null_case(levels, MIXED)
    for kinds in SHAPES:
        yield wrapped_case(WRAPPED_DEPTH, kinds)
    yield null_case(200, ("fixedlist", "dict", "struct", "list"))
    yield refused_case()
    yield entries_case()
    for width in (0, 1, 2, 3, 4, 8):
        yield one_width_case(width, 70, "list", 0)
    for width in (2, 4):
        yield one_width_case(width, 150, "largelist", 0)
    yield one_width_case(4, 70, "list", 1)
    yield one_width_case(4, 63, "list", 0)


def all_cases():
    """Those of the gate and those that are too large for it, one at a time."""
    yield from gate_cases()
    for kinds in SHAPES:
        yield wrapped_case(5000, kinds)
    yield wide_case(10_000)
    yield long_list_case(10_000_000)
    yield many_lists_case(1_000_000)


def wrapped_case(levels, kinds):
    """Wrapped arrays alone, of more levels than words may have."""
    left = Deep(levels, kinds, [5, None, -6])
    right = Deep(levels, kinds, [5, None, 6])
    other = Deep(levels, kinds, [5, None, -6], "i64")
    names = {"l": left.wrapped(), "r": right.wrapped(), "o": other.wrapped()}
    return asked(
        f"{levels} levels of {', '.join(kinds)}", names, list(pair_answers(left, right, other))
    )


def run(command, lines, stack=LARGE_STACK):
    """Runs a command on lines with so large a stack, and returns its status, what it printed, and
    its time."""

    def limit():
        resource.setrlimit(
            resource.RLIMIT_STACK, (stack, resource.getrlimit(resource.RLIMIT_STACK)[1])
        )
        resource.setrlimit(resource.RLIMIT_CORE, (0, 0))

    begun = time.monotonic()
    text = "\n".join([*lines, ""]).encode()
    ran = subprocess.run(command, input=text, capture_output=True, preexec_fn=limit, check=False)
    return ran.returncode, ran.stdout.decode(), time.monotonic() - begun


def run_all(program):
    """Asks the program all cases, each in a run of its own, and says whether every answer is the
    expected one."""
    well = True
    for lines in all_cases():
        status, printed, seconds = run([program], lines)
        asked = sum(recorded.ARROW in line for line in lines)
        is_well = status == 0 and printed == f"standard input: {asked} as recorded\n"
        well = well and is_well
        print(
            f"{lines[0]}: {'as expected' if is_well else f'NOT as expected, status {status}'}, "
            f"{seconds:.2f} s",
            flush=True,
        )
    return well


def main(arguments):
    if arguments[:1] == ["--all"] and len(arguments) == 2:
        return 0 if run_all(arguments[1]) else 1
    if arguments:
        return __doc__
    for lines in gate_cases():
        print("\n".join(lines))
    return 0


if __name__ == "__main__":
    sys.exit(main(sys.argv[1:]))
