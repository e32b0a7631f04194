"""The answers to questions on states of distinct values, found from sets.

usage: states.py FILE..      prints the files, with the answers that are found here

A state is a range, a set of values of it, and whether there was a null. An array adds its present
rows to the set, and a state adds its set; the rows of a state are its set in order, and a null
after it. The values of a dictionary's rows are the keys, whatever they name; what was seen is told
by the dictionary of the state, in which a key that names a null entry is null: it is no value of
the range, and where it was seen there was a null. A key without an entry is a value.
"""
import itertools

import recorded
import reductions
from bits import highest, lowest, text
from reductions import Array

BLOCK = 512
TRUTHS = (False, True)
MOST_ENTRIES = 2**32


def row_text(row):
    """A row as text; one that is a text already stays."""
    if isinstance(row, str):
        return row
    return "null" if row is None else reductions.shown(row)


def texts(array):
    return [row_text(row) for row in array.rows()]


def entry_text(row):
    """An entry as a row of a dictionary, which is null where the entry is."""
    return None if row is None else f"<{row_text(row)}>"


class Nulls:
    """A null array, of any length."""

    kind = "null"

    def __init__(self, n):
        self.n = n

    def size(self):
        return self.n

    def rows(self):
        return self.n * [None]

    def cut(self, at, n):
        assert at + n <= self.n
        return Nulls(n)


class Rows(Array):
    """Stored values of a kind, and whether each row is present."""

    def size(self):
        return len(self.values)

    def cut(self, at, n):
        part = super().cut(at, n)
        return Rows(part.kind, part.values, part.present)


class Keyed(Rows):
    """Keys of a kind, whether each is present, and the array of their entries."""

    def __init__(self, kind, values, present, entries):
        super().__init__(kind, values, present)
        assert all(0 <= key < entries.size() for key in self.present_rows())
        self.entries = entries

    def cut(self, at, n):
        part = super().cut(at, n)
        return Keyed(part.kind, part.values, part.present, self.entries)

    def rows(self):
        """The entries that are named, as texts; a null one as None."""
        entries = self.entries.rows()
        return [None if key is None else entry_text(entries[key]) for key in self.keys()]

    def keys(self):
        return super().rows()


def type_text(array):
    """The type of an array as text."""
    if isinstance(array, Keyed):
        return f"dict({array.kind} {type_text(array.entries)})"
    assert array.kind not in ("list", "fixedbinary", "dict")
    return array.kind


class State:
    """A range, the values of it that were seen, and whether a null was. Of the range some values
    may stand for null."""

    def __init__(self, span, nulls=()):
        self.span, self.seen, self.has_null = span, set(), False
        self.nulls = {value for value in nulls if value in span}

    def accepts(self, rows):
        return all(row is None or row in self.span for row in rows)

    def is_full(self):
        return len(self.seen) == len(self.span) - len(self.nulls)

    def read_by(self, entries):
        """A state of keys as a dictionary reads it: those of null entries stand for null."""
        read = State(self.span, [key for key, row in enumerate(entries.rows()) if row is None])
        read.seen = self.seen - read.nulls
        read.has_null = self.has_null or bool(self.seen & read.nulls)
        return read

    def fed(self, rows):
        """The state once it has seen these rows too."""
        assert self.accepts(rows)
        fed = State(self.span)
        fed.seen = self.seen | {row for row in rows if row is not None}
        fed.has_null = self.has_null or None in rows
        return fed

    def merged(self, other):
        assert self.span == other.span
        return self.fed([*other.seen, *([None] if other.has_null else [])])

    def fullpoint(self, rows):
        """After how many of the rows all values were seen, or how many rows there are."""
        seen = set(self.seen)
        for n, row in enumerate(rows):
            if len(seen) == len(self.span):
                return n
            seen.add(row)
        return len(rows)

    def rows_read(self, rows):
        """All rows where one is null, else whole blocks until all values were seen."""
        if None in rows:
            return len(rows)
        blocks = -(-self.fullpoint(rows) // BLOCK)
        return min(len(rows), BLOCK * blocks)

    def values(self):
        return sorted(self.seen)

    def rows(self):
        return self.values() + self.has_null * [None]

    def counts(self):
        return f"{text(self.is_full() and self.has_null)} {len(self.rows())} {len(self.values())}"

    def shown(self):
        return " ".join([self.counts(), *map(row_text, self.rows())])


def span_of(least, greatest):
    assert least <= greatest
    return range(least, greatest + 1)


def key_span(entries):
    return range(entries.size())


def all_fed(state, lists):
    for rows in lists:
        state = state.fed(rows)
    return state


def counted(state, lists):
    """The state once it has seen these lists of rows, and how many rows were read of each."""
    steps = []
    for rows in lists:
        steps.append(str(state.rows_read(rows)))
        state = state.fed(rows)
    return state, " ".join(steps)


def leaves(tree):
    return [*leaves(tree[0]), *leaves(tree[1])] if isinstance(tree, tuple) else [tree]


def merged_tree(tree):
    return merged_tree(tree[0]).merged(merged_tree(tree[1])) if isinstance(tree, tuple) else tree


class Case(reductions.Case):
    """The words of a line, which may name the arrays of a case."""

    def defined(self):
        if self.words[0] == "shared":
            self.word()
        return self.built()

    def built(self):
        """An array: its first row, how many rows, its kind, and the parts of the kind."""
        at, n, kind = self.number(), self.number(), self.word()
        if kind == "null":
            return Nulls(self.number()).cut(at, n)
        if kind == "dict":
            return self.keyed().cut(at, n)
        if kind == "list":
            return self.lists_of_rows().cut(at, n)
        values = self.stored(kind)
        return Rows(kind, values, self.presence(len(values))).cut(at, n)

    def keyed(self):
        kind, keys = self.word(), self.numbers()
        present = self.presence(len(keys))
        return Keyed(kind, keys, present, self.built())

    def lists_of_rows(self):
        """Lists of the rows of another array, as texts."""
        offsets = self.numbers()
        present = self.presence(len(offsets) - 1)
        items = texts(self.built())
        return Rows(
            "list",
            [f"[{','.join(items[at:end])}]" for at, end in itertools.pairwise(offsets)],
            present,
        )

    def presence(self, n):
        if self.words[0] != "-":
            return self.bits()
        self.word()
        return n * [True]

    def rows(self, kind):
        """The rows of an array of this kind, those of a dictionary being its keys."""
        array = self.array()
        assert array.kind == kind
        return array.keys() if isinstance(array, Keyed) else array.rows()

    def lists(self, kind):
        """The rows of each array up to a bar, or to the end of the line."""
        lists = []
        while self.words and self.words[0] != "|":
            lists.append(self.rows(kind))
        return lists

    def bar(self):
        assert self.word() == "|"

    def span(self, kind):
        ends = self.number(), self.number()
        assert all(lowest(kind) <= end <= highest(kind) for end in ends)
        return span_of(*ends)

    def tree(self, leaf):
        """A tree in postfix: pairs of trees, down to the leaves."""
        trees = []
        while self.words:
            if self.words[0] == "+":
                self.word()
                right = trees.pop()
                trees.append((trees.pop(), right))
            else:
                trees.append(leaf())
        assert len(trees) == 1
        return trees[0]


def two_counted(case, kind, span):
    first, steps = counted(State(span), case.lists(kind))
    case.bar()
    second, other_steps = counted(State(span), case.lists(kind))
    return " | ".join(
        [steps, other_steps, first.shown(), second.shown(), first.merged(second).shown()]
    )


def state_numbers(case):
    kind = case.word()
    return two_counted(case, kind, case.span(kind))


def state_truths(case):
    first = all_fed(State(TRUTHS), case.lists("bool"))
    case.bar()
    second = all_fed(State(TRUTHS), case.lists("bool"))
    return " | ".join(state.shown() for state in (first, second, first.merged(second)))


def keyed(case):
    """A state of keys, and the entries that they name."""
    entries = case.array()
    return all_fed(State(key_span(entries)), case.lists("u32")), entries


def two_keyed(case):
    first = keyed(case)
    case.bar()
    return first, keyed(case)


def state_keys(case):
    (first, entries), (second, others) = two_keyed(case)
    read = (
        first.read_by(entries),
        second.read_by(others),
        first.merged(second).read_by(entries),
        second.merged(first).read_by(others),
    )
    return " | ".join(state.shown() for state in read)


def state_keys_rows(case):
    (first, entries), (second, _) = two_keyed(case)
    named = entries.rows()
    keys = first.merged(second).read_by(entries).rows()
    return " ".join(row_text(None if key is None else entry_text(named[key])) for key in keys)


def key_state(case):
    """A state of keys whose range was written from outside."""
    entries = case.array()
    state = all_fed(State(case.span("u32")), case.lists("u32"))
    missing = [key for key in state.values() if key >= entries.size()]
    read = state.read_by(entries)
    if missing:
        return f"{read.counts()} refused: key {missing[0]} is not below {entries.size()}"
    return read.shown()


def key_state_accepts(case):
    """Whether a state of keys whose range was written from outside accepts keys."""
    case.array()
    state, array = State(case.span("u32")), case.array()
    return text(array.kind == "u32" and state.accepts(array.keys()))


def range_fits(case):
    kind = case.word()
    least, greatest = case.number(), case.number()
    return text(least <= greatest and greatest - least + 2 <= highest("u64"))


def accepts_numbers(case):
    kind = case.word()
    return text(State(case.span(kind)).accepts(case.rows(kind)))


def accepts_keys(case):
    entries, array = case.array(), case.array()
    return text(array.kind == "u32" and State(key_span(entries)).accepts(array.keys()))


def accepts_truths(case):
    return text(State(TRUTHS).accepts(case.rows("bool")))


def same_range_numbers(case):
    kind = case.word()
    return text(case.span(kind) == case.span(kind))


def append_all_numbers(case):
    kind = case.word()
    return all_fed(State(case.span(kind)), case.lists(kind)).shown()


def append_all_keys(case):
    state, entries = keyed(case)
    return state.read_by(entries).shown()


def ended(state):
    """The stored values of the array that a state ends in, and which of them are present."""
    values, null = state.values(), state.has_null
    return values + null * [0], len(values) * [True] + null * [False]


def stored(state, under_null):
    """The stored values of the array that a state ends in, where one stands under a null."""
    return " ".join(map(row_text, state.values() + state.has_null * [under_null]))


def stored_numbers(case):
    kind = case.word()
    return stored(all_fed(State(case.span(kind)), case.lists(kind)), 0)


def stored_keys(case):
    state, entries = keyed(case)
    return stored(state.read_by(entries), 0)


def ended_keys(case):
    """The type of the array that a state of keys ends in, and another state that has seen it."""
    state, entries = keyed(case)
    array = Keyed("u32", *ended(state.read_by(entries)), entries)
    again = State(key_span(entries)).fed(array.keys())
    return f"{type_text(array)} | {again.read_by(entries).shown()}"


def merge_tree(case, leaf):
    return merged_tree(case.tree(leaf)).shown()


def merge_tree_numbers(case):
    kind = case.word()
    span = case.span(kind)
    return merge_tree(case, lambda: State(span).fed(case.rows(kind)))


def merge_tree_keys(case):
    """The union of what was fed, read by the dictionary of the leftmost leaf."""
    dictionaries = []

    def leaf():
        dictionaries.append(case.array())
        return State(key_span(dictionaries[-1])).fed(case.rows("u32"))

    return merged_tree(case.tree(leaf)).read_by(dictionaries[0]).shown()


def one_range(case, leaf):
    first, *others = leaves(case.tree(leaf))
    return text(all(other == first for other in others))


def one_range_numbers(case):
    kind = case.word()
    return one_range(case, lambda: case.span(kind))


def unique(case):
    return State(TRUTHS).fed(case.rows("bool"))


CALLS = {
    "state_numbers": state_numbers,
    "state_empty": lambda case: two_counted(case, case.word(), range(0)),
    "state_truths": state_truths,
    "state_keys": state_keys,
    "state_keys_rows": state_keys_rows,
    "key_state": key_state,
    "key_state_accepts": key_state_accepts,
    "range_fits": range_fits,
    "keys_fit": lambda case: text(case.array().size() <= MOST_ENTRIES),
    "accepts_numbers": accepts_numbers,
    "accepts_keys": accepts_keys,
    "accepts_truths": accepts_truths,
    "same_range_numbers": same_range_numbers,
    "same_range_keys": lambda case: text(key_span(case.array()) == key_span(case.array())),
    "append_all_numbers": append_all_numbers,
    "append_all_truths": lambda case: all_fed(State(TRUTHS), case.lists("bool")).shown(),
    "append_all_keys": append_all_keys,
    "stored_numbers": stored_numbers,
    "stored_truths": lambda case: stored(all_fed(State(TRUTHS), case.lists("bool")), False),
    "stored_keys": stored_keys,
    "ended_keys": ended_keys,
    "merge_tree_numbers": merge_tree_numbers,
    "merge_tree_truths": lambda case: merge_tree(
        case, lambda: State(TRUTHS).fed(case.rows("bool"))
    ),
    "merge_tree_keys": merge_tree_keys,
    "one_range_numbers": one_range_numbers,
    "one_range_keys": lambda case: one_range(case, lambda: key_span(case.array())),
    "unique": lambda case: " ".join(map(row_text, unique(case).rows())),
    "n_unique": lambda case: text(len(unique(case).rows())),
    "n_unique_non_null": lambda case: text(len(unique(case).values())),
}


def answered(lines):
    """The lines, with the answers that are found here."""
    arrays = {}
    for line in map(recorded.question_of, lines):
        words = line.split(" ")
        if line.startswith("#"):
            arrays = {}
        elif words[1:2] == ["="]:
            case = Case(words[2:], arrays)
            assert words[0] not in arrays, line
            arrays[words[0]] = case.defined()
            assert not case.words, line
        elif line:
            case = Case(words[1:], arrays)
            line = f"{line} -> {CALLS[words[0]](case)}"
            assert not case.words, line
        yield line


if __name__ == "__main__":
    recorded.main(__doc__, answered)
