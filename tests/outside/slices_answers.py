"""The answers to questions on the arrays of a case, found from their rows and, for counts, from how
they are kept."""
import arithmetic
import reductions
import states
from bits import TYPES, shown, text
from reductions import VIEWS
from slices_arrays import Keyed, Leaves, Rows, is_null, missing_bits, raw_bits, row_text, same

UNSUPPORTED = "refused: not supported"

ORDERS = {
    "lt": lambda a, b: a < b,
    "le": lambda a, b: not b < a,
    "gt": lambda a, b: b < a,
    "ge": lambda a, b: not a < b,
}
EQUALITIES = {"eq": same, "ne": lambda a, b: not same(a, b)}


def compared(name, kind, left, right):
    """The bits of `eq`, `lt_kernel`, `eq_missing_kernel` and so on. A null array says the same at
    each row."""
    relation = name.split("_")[0]
    if "missing" in name or kind == "null":
        return missing_bits(left, right, relation == "eq")
    return raw_bits(left, right, {**ORDERS, **EQUALITIES}[relation])


def of_two(name, arrays, left, right):
    left, right = arrays[left], arrays[right]
    return compared(name, left.kind, left.rows(), right.rows())


def counted(name, arrays, left, right):
    """The bits, and the comparisons; these are no more than either side has leaf slots."""
    left, right = arrays[left], arrays[right]
    tally = left.tally(right, 0, 0, left.n)
    assert left.n == right.n and tally <= min(left.leaves(0, left.n), right.leaves(0, right.n))
    return f"{compared(name, left.kind, left.rows(), right.rows())} in {tally} comparisons"


def windows(arrays, left, a, right, b, n):
    """The bits of missing equality and the comparisons of `n` rows from `a` and from `b` on."""
    left, right, a, b, n = arrays[left], arrays[right], int(a), int(b), int(n)
    bits = compared("eq_missing_kernel", left.kind, left.rows()[a : a + n], right.rows()[b : b + n])
    return f"{bits} in {left.tally(right, a, b, n)} comparisons"


def scalar_row(arrays, array, word):
    """The row that a word writes for an array of its kind, or the items that it names."""
    if array.kind in TYPES:
        return int(word)
    if array.kind == "bool":
        return word == "true"
    return Rows(tuple(arrays[word].rows())) if "list" in array.kind else bytes.fromhex(word[1:])


def broadcast(name, arrays, array, word):
    array = arrays[array]
    if array.kind in ("null", "struct", "dict"):
        return UNSUPPORTED
    return compared(name, array.kind, array.rows(), array.n * [scalar_row(arrays, array, word)])


def followed(arrays, left, right):
    """How many pairs of stored rows are looked up in buffers, by equality and by order."""
    pairs = list(zip(arrays[left].window(), arrays[right].window(), strict=True))
    equal = sum(len(a) == len(b) > 12 and a[:4] == b[:4] for a, b in pairs)
    less = sum(
        max(len(a), len(b)) > 12 and a[:4].ljust(4, b"\0") == b[:4].ljust(4, b"\0")
        for a, b in pairs
    )
    return f"{equal} {less}"


def leaf_slots(arrays, *names):
    return " ".join(str(arrays[name].leaves(0, arrays[name].n)) for name in names)


def missing_mask(arrays, name):
    """Which rows are present, as far as bits are kept that say so; rows of nulls are not masked."""
    bits = None if arrays[name].kind == "null" else arrays[name].presence()
    return "none" if bits is None else shown(bits)


def window_mask(arrays, name, at, n):
    """The bits of n rows from row `at` on."""
    bits = missing_mask(arrays, name)
    return bits if bits == "none" else f"b0:{bits.removeprefix('b0:')[int(at) : int(at) + int(n)]}"


def is_null_row(arrays, name, i):
    return text(is_null(arrays[name].row(int(i))))


def may_have_nulls(arrays, name):
    """Whether bits are kept that could say of a row that it is null."""
    return text(arrays[name].presence() is not None)


def texts(rows):
    return " ".join(map(row_text, rows))


OWN = {
    "rows": lambda arrays, name: texts(arrays[name].rows()),
    "copy": lambda arrays, name: texts(arrays[name].rows()),
    "array_slice": lambda arrays, name, at, n: texts(
        arrays[name].rows()[int(at) : int(at) + int(n)]
    ),
    "null_count": lambda arrays, name: str(arrays[name].null_count()),
    "validity": lambda arrays, name: arrays[name].validity_bits(),
    "missing_mask": missing_mask,
    "array_missing_mask": missing_mask,
    "window_mask": window_mask,
    "is_null_row": is_null_row,
    "dictionary_is_null_row": is_null_row,
    "may_have_nulls": may_have_nulls,
    "leaves": leaf_slots,
    "followed": followed,
    "equal_windows": windows,
}
for called in (
    "eq_missing_kernel",
    "ne_missing_kernel",
    *(f"{relation}_kernel" for relation in (*EQUALITIES, *ORDERS)),
):
    OWN["tot_" + called] = lambda *words, name=called: of_two(name, *words)
    for before in ("", "bytes_", "text_"):
        OWN[f"{before}tot_{called}_broadcast"] = lambda *words, name=called: broadcast(name, *words)
    if "missing" in called:
        OWN[f"array_tot_{called}_counted"] = lambda *words, name=called: counted(name, *words)


def flat(array):
    """What the other scripts take for an array: stored values and which are present, of
    dictionaries the keys; or rows as texts."""
    present = [array.is_present(i) for i in range(array.n)]
    if isinstance(array, Leaves):
        return states.Rows(array.kind, array.window(), present)
    if isinstance(array, Keyed):
        keys = [array.key(i) for i in range(array.n)]
        return states.Keyed(array.key_kind, keys, present, as_texts(array.entries))
    return as_texts(array)


def as_texts(array):
    rows = array.rows()
    return states.Rows(array.kind, list(map(row_text, rows)), [not is_null(row) for row in rows])


def by_script(script, arrays, words):
    """The answer of another script to a question."""
    named = {name: flat(arrays[name]) for name in {*words} & {*arrays}}
    case = script.Case(words[1:], named)
    answer = str(script.CALLS[words[0]](case))
    assert not case.words
    return answer


def answer(arrays, question):
    """The answer to a question on named arrays."""
    words = question.split(" ")
    if words[0] in OWN:
        return OWN[words[0]](arrays, *words[1:])
    if words[0].startswith("dyn_array") and not is_ordered(arrays[words[1]].kind):
        return UNSUPPORTED
    for script in (arithmetic, reductions, states):
        if words[0] in script.CALLS:
            return by_script(script, arrays, words)
    raise KeyError(words[0])


def is_ordered(kind):
    return kind in (*TYPES, "bool", *reductions.STRINGS, *VIEWS)
