"""Mutated arrays through the program `recorded_cases`, whose answers are compared with an account
of its own.

usage: mutated_arrays.py [--number 1000000] [--seed 1] [--jobs 2] [--program PROGRAM] [--keep FILE]

Good arrays at random of all 31 kinds, nested to depth 3, sliced, with junk under nulls and beside
the rows, have one word changed, or a few (`array_text.py`): offsets, views, bytes, keys,
validities, lengths, windows, kinds, widths, among them such whose product with the length wraps.
Some hundreds go to the program in one run. `array_rules.py` says of the same words what they make,
and of each is asked:

- whether the parts make an array, and else for which fault and row they don't;
- of an array its rows, and of one row whether it is null; that it equals a copy or itself in every
  row, and the good array in the rows that are the same, in at most as many comparisons as it has
  leaf slots; and how many these are. Of one with very many rows (of nulls, or of strings and lists
  of width 0) only how many, and how many a validity masks.

Some cases make structs of fields and columns that need not fit (`struct_try_new`). Beside these
every 50th text has its words dropped, exchanged or replaced, or its bytes changed, and goes to the
program in a run of its own, after a good case: the run ends with status 1 and names the line if it
can't be read, and else goes on. Last come arrays nested up to 3,000 deep: those runs end with
status 0 or 1, whatever the depth that can be read, and print only right answers.

Cases that fail are kept as recorded cases ask them. The status is 1 where any failed.
"""
import collections
import functools
import random
import re
import sys

import runs
from array_rules import NoArray, Unreadable, Words, named_array, struct_of
from array_text import Mutation, broken, good_array, text_of

A_RUN = 500
ONE_IS_BROKEN = 50
# how many arrays are made by changes of one
CHANGED = 6
MOST_VISITS = 2_000
DEPTHS = (1, 50, 200, 500, 999, 1000, 1001, 1500, 2000, 2500, 3000)

# a case is its lines, and for each line that is printed what it must be: bytes, or a Counted
Case = collections.namedtuple("Case", "lines printed counted")
Counted = collections.namedtuple("Counted", "before most")


def made(words):
    """The array that words write, or why they make none. `Unreadable` where a word is wrong."""
    try:
        return named_array(Words(words.split(" "))), None
    except NoArray as fault:
        return None, str(fault)


def kind_of_fault(fault):
    return "refused: " + re.sub(r" \d+ ", " N ", fault)


def equality(left, right, names):
    """The question which rows of two arrays are the same, null and null too, and how the answer
    begins."""
    question = f"array_tot_eq_missing_kernel_counted {names}"
    bits = "".join(
        "1" if row == other else "0" for row, other in zip(left.rows(), right.rows(), strict=True)
    )
    return question, Counted(f"{question} -> b0:{bits} in ".encode(), left.all_slots())


def can_compare(left, right):
    return left.n == right.n and left.dtype == right.dtype and right.all_visits() <= MOST_VISITS


def questions(chance, array, good):
    """What is asked of an array that is named `a`, with the answers. `good` are the words that were
    changed to it."""
    if array.all_visits() > MOST_VISITS:
        counts = (("array_len a", array.n), ("null_count a", array.nulls()))
        return [(question, f"{question} -> {count}".encode()) for question, count in counts]
    asked = [("rows a", ("rows a -> " + " ".join(array.rows())).encode())]
    other, name = made(good)[0] if good else array, "a"
    if good and other and can_compare(array, other):
        asked += [
            (f"g = {good}", None),
            equality(array, other, "a g"),
            equality(other, array, "g a"),
        ]
    elif chance.random() < 0.5:
        asked.append(("b = copy a", None))
        name = "b"
    slots = array.all_slots()
    asked += [
        equality(array, array, f"a {name}"),
        (f"leaves a {name}", f"leaves a {name} -> {slots} {slots}".encode()),
    ]
    if array.n > 0:
        i = slots % array.n
        question = f"is_null_row a {i}"
        asked.append(
            (question, f"{question} -> {'true' if array.row(i) == 'null' else 'false'}".encode())
        )
    return asked


def array_case(chance, words, good=None, heading="# array"):
    """The case of one array."""
    array, fault = made(words)
    line = f"a = shared {words}" if chance.random() < 0.3 else f"a = {words}"
    if array is None:
        return Case(
            [heading, line],
            [heading.encode(), f"a = refused: {fault}".encode()],
            kind_of_fault(fault),
        )
    asked = questions(chance, array, good)
    printed = [heading.encode(), *(answer for _, answer in asked if answer is not None)]
    counted = "accepted, and compared with the good array" if len(asked) > 5 else "accepted"
    return Case([heading, line, *(question for question, _ in asked)], printed, counted)


# ---- structs of fields and columns


def alike(chance, tokens):
    """An array whose type is nearly that of another one."""
    for _ in range(8):
        changed = list(tokens)
        Mutation(chance).change(changed)
        try:
            if made(text_of(changed))[0] is not None:
                return changed
        except Unreadable:
            pass
    return tokens


def struct_question(chance, arrays):
    """A question for structs of some of these arrays."""
    columns = [chance.choice("abc") for _ in range(chance.choice((0, 1, 2, 2, 3)))]
    fields = list(columns)
    for names in (fields, columns):
        if chance.random() < 0.3 and names:
            names[chance.randrange(len(names))] = chance.choice("abc")
        if chance.random() < 0.2:
            names[-1:] = chance.choice(([], ["a"], ["a", "b"]))
    n = arrays[columns[0]].n if columns else 2
    n = chance.choice((n, n, n, n + 1, max(n - 1, 0))) if n <= MOST_VISITS else 1
    bits = n + chance.choice((0, 0, 0, 0, 1))
    validity = (
        "-" if chance.random() < 0.5 else "b0:" + "".join(chance.choice("01") for _ in range(bits))
    )
    fields = [word for k, name in enumerate(fields) for word in ("pqrs"[k], name)]
    return " ".join(
        [
            "struct_try_new",
            str(n),
            validity,
            str(len(fields) // 2),
            *fields,
            str(len(columns)),
            *columns,
        ]
    )


def struct_case(chance):
    first = good_array(chance)
    texts = dict(
        zip(
            "abc",
            map(text_of, (first, alike(chance, first), chance.choice((first, good_array(chance))))),
        )
    )
    arrays = {name: made(text)[0] for name, text in texts.items()}
    question = struct_question(chance, arrays)
    try:
        array = struct_of(Words(question.split(" ")[1:]), arrays)
        if array.all_visits() > MOST_VISITS:
            return struct_case(chance)
        answer, counted = " ".join(array.rows()), "structs accepted"
    except NoArray as fault:
        answer, counted = f"refused: {fault}", "structs " + kind_of_fault(str(fault))
    lines = ["# structs", *(f"{name} = {text}" for name, text in texts.items()), question]
    return Case(lines, [b"# structs", f"{question} -> {answer}".encode()], counted)


# ---- mutated arrays


def mutated(chance):
    """Cases without an end, and between them words that can't be read, as text."""
    mutation = Mutation(chance)
    while True:
        good = good_array(chance)
        for times in [0] * (chance.random() < 0.3) + [
            chance.choice((1, 1, 1, 2, 3)) for _ in range(CHANGED)
        ]:
            tokens = list(good)
            for _ in range(times):
                mutation.change(tokens)
            try:
                yield array_case(
                    chance,
                    text_of(tokens),
                    text_of(good) if times and chance.random() < 0.7 else None,
                )
            except Unreadable:
                yield text_of(tokens)
            if chance.random() < 0.05:
                yield struct_case(chance)


def case_that_ends(chance, given):
    """A text after a good case, in a run of its own; whether it can be read, and if so what is
    printed."""
    before = array_case(chance, text_of(good_array(chance)), heading="# before")
    data = given.replace(b"\n", b" ")
    given = "\n".join(before.lines).encode() + b"\n#\n" + data + b"\n# behind\n"
    try:
        line = data.decode().removesuffix("\r")
    except UnicodeDecodeError:
        return given, [], None, "broken: no UTF-8"
    printed = [*before.printed, b"#"]
    outcome, answer = outcome_of(line)
    if outcome == "ends":
        return given, printed, line.encode(), "broken: not readable"
    return given, [*printed, *answer, b"# behind"], None, "broken: readable after all"


def outcome_of(line):
    """What a line does that may be any: `ends` the run, or prints lines."""
    if not line or line[0] == "#":
        return "prints", [line.encode()] if line else []
    words = line.split(" ")
    if words[1:2] != ["="] or words[2:3] == ["copy"]:
        return "ends", []
    try:
        fault = made(" ".join(words[2:]))[1] if len(words) > 2 else None
    except Unreadable:
        return "ends", []
    if len(words) == 2:
        return "ends", []
    return "prints", [] if fault is None else [f"{words[0]} = refused: {fault}".encode()]


# ---- deep arrays

LEVELS = {
    "list": ("list 2 0 1 -", "[]"),
    "largelist": ("largelist 2 0 1 -", "[]"),
    "fixedlist": ("fixedlist 1 1 -", "[]"),
    "struct": ("struct 1 1 - p", "{}"),
    "dict": ("dict u8 1 0 -", "<>"),
}
DEEP = [
    (depth, kind, leaf)
    for depth in DEPTHS
    for kind in (*LEVELS, "all")
    for leaf in ("good", "faulty")
]


def deep_run(depth, kind, leaf):
    """An input with an array so deep, and all lines that it may print."""
    levels = [
        LEVELS[kind] if kind in LEVELS else list(LEVELS.values())[k % len(LEVELS)]
        for k in range(depth)
    ]
    words = " ".join(
        [
            *(f"0 1 {words}" for words, _ in levels),
            "0 1 i32 1 7 " + ("-" if leaf == "good" else "b0:11"),
        ]
    )
    if leaf == "faulty":
        return f"# deep\na = {words}\n# behind\n", ["# deep", "# behind"]
    row = (
        "".join(ends[0] for _, ends in levels)
        + "7"
        + "".join(ends[1] for _, ends in reversed(levels))
    )
    answers = {
        "rows a": row,
        "array_slice a 0 1": row,
        "copy a": row,
        "b = copy a": None,
        "array_tot_eq_missing_kernel_counted a b": "b0:1 in 1 comparisons",
        "leaves a b": "1 1",
    }
    told = [f"{question} -> {answer}" for question, answer in answers.items()]
    return "\n".join(["# deep", f"a = {words}", *answers, "# behind", ""]), [
        "# deep",
        *told,
        "# behind",
    ]


def deep_faults(program, depth, kind, leaf):
    given, right = deep_run(depth, kind, leaf)
    ran = runs.run([program, "--print"], given.encode())
    told = ran.printed.decode(errors="replace").splitlines()
    wrong = [
        line[:200] for line in told if line not in right and not line.startswith("a = refused: ")
    ]
    if runs.is_ended(ran) and not wrong:
        return collections.Counter({f"deep: status {ran.status}": 1}), []
    return collections.Counter(), [
        (f"depth {depth} of {kind}, {leaf}: {runs.ending(ran)}, {wrong}", given.encode())
    ]


# ---- runs


def input_of(cases):
    return "\n".join(line for case in cases for line in (*case.lines, "")).encode()


def is_right(line, wanted):
    if isinstance(wanted, bytes):
        return line == wanted
    count, _, unit = line.removeprefix(wanted.before).partition(b" ")
    return (
        line.startswith(wanted.before)
        and count.isdigit()
        and int(count) <= wanted.most
        and unit == b"comparisons"
    )


def wrong_answers(cases, printed):
    """The cases that were answered wrongly, by what a run over all printed."""
    at, found = 0, []
    for case in cases:
        told, at = printed[at : at + len(case.printed)], at + len(case.printed)
        if len(told) != len(case.printed) or not all(map(is_right, told, case.printed)):
            found.append(
                (
                    f"{case.lines[-1][:300]}: {told!r:.600} and not {case.printed!r:.600}",
                    input_of([case]),
                )
            )
    return found


def case_faults(program, cases):
    """What a run over these cases did wrong, each with an input that shows it."""
    ran = runs.run([program, "--print"], input_of(cases))
    printed = ran.printed.split(b"\n")
    lines = sum(len(case.printed) for case in cases)
    if ran.status == 0 and not ran.said and printed.pop() == b"" and len(printed) == lines:
        return wrong_answers(cases, printed)
    how = f"{runs.ending(ran)}, {ran.printed[-300:]!r}, {ran.said[:300]!r}"
    if len(cases) == 1:
        return [(f"{cases[0].lines[1][:300]}: {how}", input_of(cases))]
    alone = [fault for case in cases for fault in case_faults(program, [case])]
    return alone or [(f"{len(cases)} cases, though none alone: {how}", input_of(cases))]


def broken_faults(program, given, printed, named):
    """What a run over an input did wrong that may not be readable. `named` is the line that it ends
    at."""
    ran = runs.run([program, "--print"], given)
    told = ran.printed.split(b"\n")[:-1]
    status = 0 if printed[-1:] == [b"# behind"] else 1
    is_named = ran.said.endswith(b": " + named + b"\n") if named is not None else not ran.said
    if (
        ran.status == status
        and is_named
        and len(told) == len(printed)
        and all(map(is_right, told, printed))
    ):
        return []
    how = (
        f"{runs.ending(ran)} and not {status}, {told!r:.300} and not {printed!r:.300}, "
        f"{ran.said[:300]!r}"
    )
    return [(f"{given[-300:]!r}: {how}", given)]


def is_broken_turn(cases):
    return len(cases) % ONE_IS_BROKEN == 0


def try_part(program, seed, part):
    """Makes the cases of a part, and gives them to the program: readable ones in one run, each
    other one in its own."""
    number, size = part
    if isinstance(size, tuple):
        return deep_faults(program, *size)
    chance = random.Random(f"arrays {seed} {number}")
    counts, failures, cases, last = collections.Counter(), [], [], None
    for case in mutated(chance):
        if isinstance(case, str):
            last = case
            continue
        cases.append(case)
        counts[case.counted] += 1
        if is_broken_turn(cases):
            words = (
                last if last is not None and chance.random() < 0.3 else text_of(good_array(chance))
            )
            line = f"a = {words}".encode()
            *run, counted = case_that_ends(chance, line if words is last else broken(chance, line))
            counts[counted] += 1
            failures += broken_faults(program, *run)
            last = None
        if len(cases) == size:
            break
    return counts, failures + case_faults(program, cases)


def main():
    chosen = runs.options(__doc__, "recorded_cases")
    parts = list(enumerate([*runs.sizes(chosen.number, A_RUN), *DEEP]))
    return runs.end(
        "mutated_arrays", chosen, functools.partial(try_part, chosen.program, chosen.seed), parts
    )


if __name__ == "__main__":
    sys.exit(main())
