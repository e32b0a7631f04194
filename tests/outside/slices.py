"""Slices of arrays with junk under their nulls, beside arrays that are built afresh from the same
rows.

usage: slices.py --part              prints the file data/slices.txt: questions, and their answers
       slices.py --all PROGRAM       asks a built program of all slices; status 1 where an answer is
                                     another one

Of each kind there is an array of 70 rows, of which every third is null (of null arrays each), over
stored values that are no row of it. It is sliced at each place from 0 to 70, with the lengths 0, 1,
63, 64, 65 and all that are left, where they fit.

`w` is the whole array, `a0` a slice, `b0` an array that is built afresh from its rows, and `c0` one
that differs in a row; `a1`, `b1` and `c1` are those of the next length. `d` are divisors, `v` has
as many rows as `w` has entries, some of them null, and `s0` are the items of a list. Answers are
found from rows, so a slice has those of the array built afresh. A null row of a dictionary is a
masked key or one to a null entry, in `a0`, `b0` and `c0` by chance, so that `c0` may have the same
rows. All is drawn at random and the same in each run: each seed is the name of the kind, with the
place.
"""
import subprocess
import sys

import recorded
from arithmetic import BINARY_IN_PLACE, FROM_NUMBERS, KINDS, OPERATIONS, UNARY_IN_PLACE, wrapped
from bits import TYPES
from reductions import COUNTS, JOINS, NAMES, NOT_DISPATCHED, VIEWS, shown
from slices_answers import ORDERS, answer, is_ordered
from slices_arrays import Entry, Keyed, Leaves, is_null
from slices_kinds import ALL_KINDS, DictKind, FixedListKind, Keeper, ListKind, Numbers

ROWS = 70
LENGTHS = (0, 1, 63, 64, 65)
# the places of the part that is stored as data; each array has every second one
PLACES = (0, 1, 2, 3, 5, 6, 7, 31, 62, 63, 64, 65, 69, 70)
# of the questions beside the first three the part asks every fourth one
SHARE = 4


def lengths(at):
    return sorted({n for n in (*LENGTHS, ROWS - at) if at + n <= ROWS})


class Case:
    """The arrays of a case by their names, the lines that make them, and the questions on them."""

    def __init__(self, heading):
        self.heading, self.arrays, self.lines, self.asked = heading, {}, {}, []

    def add(self, name, array, kept=""):
        self.arrays[name] = array
        self.lines[name] = f"{name} = {kept}{array.text()}"

    def answers(self):
        """The questions, with their answers."""
        return [f"{question} -> {answer(self.arrays, question)}" for question in self.asked]

    def text(self):
        """The lines of the case, without arrays that nothing is asked of."""
        used = {word for question in self.asked for word in question.split(" ")}
        return [
            f"# {self.heading}",
            *(line for name, line in self.lines.items() if name in used),
            *self.answers(),
        ]


class Subject:
    """A kind, its array of 70 rows, and the cases of its slices."""

    def __init__(self, kind, number):
        self.kind, self.number = kind, number
        keeper = Keeper(f"slices of {kind.name}", True)
        self.rows = [None if (i + number) % 3 == 0 else kind.row(keeper) for i in range(ROWS)]
        self.whole = kind.kept(keeper, self.rows)
        assert self.whole.rows() == self.rows
        self.divisors = divisors(kind, keeper) if is_computed(kind) else None
        self.slices = 0

    def case(self, at, sizes):
        """The case of slices at a place, with each of these lengths."""
        case = Case(f"{self.kind.name}: rows from {at} on")
        keeper = Keeper(f"rows of {self.kind.name} from {at} on", False)
        case.add("w", self.whole)
        if self.divisors:
            case.add("d", self.divisors)
        if isinstance(self.kind, DictKind):
            entries = range(self.whole.entries.n)
            case.add(
                "v",
                Numbers("u8").kept(
                    keeper, [None if keeper.chance(0.3) else place for place in entries]
                ),
            )
        for k, n in enumerate(sizes):
            self.add_slice(case, keeper, str(k), at, n)
        return case

    def add_slice(self, case, keeper, k, at, n):
        """A slice, the same rows built afresh, and those with one of them changed."""
        part = self.whole.cut(at, n)
        case.add("a" + k, part, keeper.random.choice(("", "shared ")))
        keeper.taken = set(self.whole.values) if isinstance(self.whole, Leaves) else set()
        case.add("b" + k, self.afresh(keeper, part), keeper.random.choice(("", "shared ")))
        case.add("c" + k, self.with_change(keeper, part))
        if isinstance(self.kind, (ListKind, FixedListKind)):
            rows = [row for row in part.rows() if row is not None] or [self.kind.row(keeper)]
            case.add("s" + k, self.kind.item.kept(keeper, list(keeper.random.choice(rows).rows)))

    def afresh(self, keeper, part):
        """The rows of a slice kept anew; keys that states are asked of stay what they are."""
        if not isinstance(part, Keyed):
            return self.kind.kept(keeper, part.rows())
        if part.key_kind == "u32":
            return self.kind.with_keys_of(keeper, part)
        nulls = (None, Entry(None))
        return self.kind.kept(
            keeper, [keeper.random.choice(nulls) if is_null(row) else row for row in part.rows()]
        )

    def with_change(self, keeper, part):
        """The rows of a slice with one of them another one, null or present; what was stored there
        may stay there."""
        rows = part.rows()
        if not rows:
            return self.kind.kept(keeper, rows)
        i = keeper.random.randrange(len(rows))
        before, stored = rows[i], part.stored(i)
        rows[i] = self.kind.other(keeper, before)
        if before is None and not self.has_span() and keeper.chance(0.5):
            rows[i] = stored
        elif before is not None and keeper.chance(0.4):
            rows[i] = None
        return self.kind.kept(
            keeper, rows, {i: before} if rows[i] is None and before is not None else None
        )

    def has_span(self):
        return isinstance(self.kind, Numbers) and self.kind.span is not None

    def ask(self, case, at, sizes, share):
        """Asks some questions of each slice, and of the others those whose turn it is among so
        many."""
        for k, n in enumerate(sizes):
            always = [
                f"rows a{k}",
                f"array_tot_eq_missing_kernel_counted a{k} b{k}",
                f"array_tot_ne_missing_kernel_counted a{k} c{k}",
            ]
            others = [question.format(k=k, at=at, n=n) for question in self.templates(at, n)]
            turn = (self.slices + self.number) % share
            case.asked += always + others[turn::share]
            self.slices += 1

    def templates(self, at, n):
        """The other questions that a kind has, with the number of the slice left open."""
        keeper = Keeper(f"questions on {self.kind.name} from {at} on, {n} rows", False)
        yield from asked_of_all(keeper, n)
        yield from self.broadcasts(keeper)
        if is_ordered(self.whole.kind):
            yield from asked_of_ordered(self.whole.kind)
        if is_computed(self.kind):
            yield from asked_of_numbers(self.kind.kind, keeper)
        if is_computed(self.kind) or self.whole.kind == "bool":
            yield from asked_of_bits()
        if self.has_span():
            yield from asked_of_span(self.kind)
        if self.whole.kind == "bool":
            yield from asked_of_truths()
        if isinstance(self.kind, DictKind):
            yield from asked_of_keys(self.kind)
        yield from asked_of_nulls(keeper, n)

    def broadcasts(self, keeper):
        """Comparisons with one scalar: a row of the array, the items of a list, or what is not
        supported."""
        kind, scalar = self.whole.kind, "s{k}" if "list" in self.whole.kind else "b{k}"
        if isinstance(self.whole, Leaves):
            scalar = shown(keeper.random.choice([row for row in self.rows if row is not None]))
        for name in ("eq_kernel", "ne_missing_kernel", "eq_missing_kernel", "ne_kernel"):
            yield f"tot_{name}_broadcast a{{k}} {scalar}"
        if is_ordered(kind):
            before = keeper.random.choice(("", borrowed(kind)))
            for name in ORDERS:
                yield f"{before}tot_{name}_kernel_broadcast a{{k}} {scalar}"


def is_computed(kind):
    """Whether there is arithmetic on a kind."""
    return isinstance(kind, Numbers) and kind.kind in KINDS


def borrowed(kind):
    """What stands before the names of calls that lend or borrow strings of a kind."""
    if kind in TYPES or kind == "bool":
        return ""
    return "bytes_" if "binary" in kind else "text_"


def divisors(kind, keeper):
    """Numbers of which some are 0, under nulls too."""
    drawn = (0, 0, 1, 2, wrapped(kind.kind, -1), *(keeper.number(kind.kind) for _ in range(4)))
    values = [keeper.random.choice(drawn) for _ in range(ROWS)]
    present = [keeper.chance(0.8) for _ in range(ROWS)]
    return Leaves(kind.kind, values, kind.words(keeper, values), present, keeper.bits(present))


def asked_of_all(keeper, n):
    yield "array_tot_eq_missing_kernel_counted c{k} a{k}"
    yield "array_tot_ne_missing_kernel_counted b{k} a{k}"
    yield from ("tot_eq_kernel a{k} b{k}", "tot_ne_kernel a{k} c{k}")
    yield from ("tot_eq_kernel c{k} a{k}", "tot_ne_kernel b{k} a{k}")
    yield from ("tot_eq_missing_kernel a{k} c{k}", "tot_ne_missing_kernel a{k} b{k}")
    yield "equal_windows w {at} c{k} 0 {n}"
    yield from ("null_count a{k}", "null_count b{k}", "validity a{k}", "validity b{k}")
    yield from ("leaves a{k} b{k}", "rows b{k}", "copy a{k}")
    first = keeper.random.randint(0, n)
    yield f"array_slice a{{k}} {first} {keeper.random.randint(0, n - first)}"
    for name in NAMES:
        if name != NOT_DISPATCHED:
            yield f"dyn_array_{name} a{{k}}"


def asked_of_ordered(kind):
    for name in ORDERS:
        yield f"tot_{name}_kernel a{{k}} c{{k}}"
        yield f"tot_{name}_kernel b{{k}} a{{k}}"
    for name in NAMES:
        yield f"{borrowed(kind)}{name}_kernel a{{k}}"
    if kind in VIEWS:
        yield from ("followed a{k} b{k}", "followed a{k} c{k}")


def asked_of_bits():
    for name in COUNTS:
        yield f"{name} a{{k}}"
    for name in JOINS:
        yield f"reduce_{name} a{{k}}"


def asked_of_numbers(kind, keeper):
    """Arithmetic with divisors that are sliced too, among them 0, and with a scalar."""
    scalar = keeper.random.choice(
        (0, 1, 2, 8, wrapped(kind, -1), wrapped(kind, -3), keeper.number(kind))
    )
    for name in OPERATIONS:
        yield f"{name} a{{k}} slice d {{at}} {{n}}"
        yield f"{name}_scalar a{{k}} {scalar}"
    for name in FROM_NUMBERS:
        yield f"{name}_scalar_lhs {scalar} a{{k}}"
    yield from ("wrapping_floor_div c{k} a{k}", "wrapping_mod slice w {at} {n} slice d {at} {n}")
    yield from (
        "wrapping_abs a{k}",
        "wrapping_neg a{k}",
        "wrapping_sum_arr a{k}",
        "wrapping_sum_arr b{k}",
    )
    for name in UNARY_IN_PLACE:
        yield f"prim_unary_in_place {name} a{{k}}"
    for name in BINARY_IN_PLACE:
        yield f"prim_binary_in_place {name} a{{k}} c{{k}}"


def asked_of_span(kind):
    """States of the range that the present numbers are in."""
    ends = f"{kind.kind} {kind.span[0]} {kind.span[-1]}"
    yield f"append_all_numbers {ends} a{{k}}"
    yield f"state_numbers {ends} a{{k}} | c{{k}} b{{k}}"
    yield f"stored_numbers {ends} a{{k}}"
    yield f"merge_tree_numbers {ends} c{{k}} a{{k}} + b{{k}} +"
    yield f"accepts_numbers {ends} a{{k}}"
    yield f"accepts_numbers {kind.kind} {kind.span[len(kind.span) // 2]} {kind.span[-1]} a{{k}}"


def asked_of_truths():
    yield from ("unique a{k}", "n_unique a{k}", "n_unique_non_null a{k}", "accepts_truths a{k}")
    yield from ("append_all_truths a{k}", "stored_truths a{k}")
    yield from ("state_truths a{k} | c{k}", "merge_tree_truths c{k} a{k} +")


def asked_of_keys(kind):
    """States of keys, which are of 32 bits; no others are accepted."""
    yield "accepts_keys v a{k}"
    if kind.keys == "u32":
        yield from ("append_all_keys v a{k} b{k}", "stored_keys v a{k}", "accepts_keys v b{k}")
        yield from ("state_keys v a{k} | v b{k}", "merge_tree_keys v b{k} v a{k} +")


def asked_of_nulls(keeper, n):
    yield from ("missing_mask a{k}", "missing_mask b{k}")
    if n > 0:
        yield f"is_null_row a{{k}} {keeper.random.randrange(n)}"


def all_cases(subject):
    for at in range(ROWS + 1):
        case = subject.case(at, lengths(at))
        subject.ask(case, at, lengths(at), 1)
        yield case


def part_cases(subject):
    """Every second place, each with one length, which is 0 at the end alone."""
    for turn, at in list(enumerate(PLACES))[subject.number % 2 :: 2]:
        sizes = lengths(at)[1:] or [0]
        sizes = [sizes[(subject.number + turn) // 2 % len(sizes)]]
        case = subject.case(at, sizes)
        subject.ask(case, at, sizes, SHARE)
        yield case


def subjects():
    for number, kind in enumerate(ALL_KINDS):
        yield Subject(kind, number)


def compare(subject, program):
    """Asks a program of all slices of a kind, and returns how many answers it compared, and its
    complaints."""
    texts = [case.text() for case in all_cases(subject)]
    asked = sum(recorded.ARROW in line for text in texts for line in text)
    given = "".join(line + "\n" for text in texts for line in text)
    ran = subprocess.run([program], input=given, capture_output=True, text=True, check=False)
    *wrong, counts = ran.stdout.splitlines() or ["(nothing)"]
    if counts != f"standard input: {asked} as recorded" or ran.returncode != 0:
        wrong.append(f"status {ran.returncode}, {counts} of {asked}: {ran.stderr.strip()[:2000]}")
    return asked, wrong


def check_all(program):
    """Asks a program of all slices of all kinds, and prints how many answers differ."""
    lines = slices = differing = 0
    for subject in subjects():
        compared, wrong = compare(subject, program)
        lines, slices, differing = lines + compared, slices + subject.slices, differing + len(wrong)
        for line in wrong[:5]:
            print(f"{subject.kind.name}: {line}")
    print(
        f"{slices} slices of {len(ALL_KINDS)} arrays: {lines} answers compared, {differing} differ"
    )
    return 1 if differing else 0


def main(arguments):
    if arguments[:1] == ["--all"] and len(arguments) == 2:
        return check_all(arguments[1])
    if arguments != ["--part"]:
        return __doc__
    for subject in subjects():
        for case in part_cases(subject):
            print("\n".join(case.text()))
    return 0


if __name__ == "__main__":
    sys.exit(main(sys.argv[1:]))
