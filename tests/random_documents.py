"""Pairs of small random files of JSON documents, one a line, with options to compare them by.

A value is made as a tree (`document_reports.py`), in which differences are planted, and is then
written in one of many ways: members in any order, blanks, numbers in any notation, characters as
they are or escaped. Where lines that are no documents are passed over, some are put between the
others.
"""
import collections
import json
import pathlib

import document_reports
import runs
from document_reports import ANY, MISSING, Number, Object

# é as one character, and as two
TEXTS = (
    "",
    "a",
    "b",
    "ab",
    "A",
    "null",
    "missing",
    "1",
    'say "so"',
    "back\\slash",
    "a/b",
    "\0",
    "\b\f\n\r\t",
    "\x1b[31m",
    "\x7f",
    "\x80",
    "\x9b31m",
    "\xa0",
    "é",
    "e\u0301",
    "Å",
    "A\u030a",
    "日本",
    "\ufffd",
    "\ufeff",
    "\u2028",
    "😀",
    "\U0010ffff",
    "\ue000",
    "a,b=c",
    " ",
    "-" * 70,
    "\ud7ff",
)
NAMES = (
    "n",
    "name",
    "x1",
    "_",
    "-",
    "0",
    "A-b_9",
    "",
    "a.b",
    "a[0]",
    "[0]",
    "x y",
    'a"b',
    "\\",
    "\0",
    "\n",
    "\x1f",
    "\x7f",
    "\x9b",
    "é",
    "e\u0301",
    "日本",
    "😀",
    "\ue000",
    "a,b",
    "a=b",
    "null",
    "\ufeff",
    "\u2028",
    "__proto__",
    ".",
    "/",
)
# the words of a key, and the steps that they mean
PATHS = (
    ("id", ["id"]),
    (".id", ["id"]),
    ('."id"', ["id"]),
    ("order.id", ["order", "id"]),
    ("k[0]", ["k", 0]),
    ("k[1].id", ["k", 1, "id"]),
    ('."a.b"', ["a.b"]),
    ('a."b c"', ["a", "b c"]),
    ('.""', [""]),
    ('."é"', ["é"]),
    ('."e\u0301"', ["e\u0301"]),
    (r'."\u009b\"\\"', ['\x9b"\\']),
    (r'."\ud83d\ude00\n"', ["😀\n"]),
    ('a[2]."[0]"', ["a", 2, "[0]"]),
    ("A-b_9._", ["A-b_9", "_"]),
    ("0[0][0]", ["0", 0, 0]),
)
FILES = ("left.ndjson", "right.ndjson", "le ft.jsonl", "a=b.jsonl", "Å.ndjson", "a.csv.jsonl")
BIGGEST = 10**30 - 1000
# characters that a name without quotes can't have in a word
QUOTED = set('."[],\0')
# lines that are no documents, whatever the keys
BAD_LINES = (
    b"",
    b" \t",
    b"nul",
    b"{",
    b'{"id":1',
    b"{} {}",
    b"\xef\xbb\xbf{}",
    b'{"a":"\xff"}',
    b"[]",
    b'"id"',
    b"-0.5",
    b'{"a":1,"a":1}',
    b'{"id":{"a":[{"b":1,"b":2}]}}',
    b'{"a":1e1%s}' % (b"0" * 30),
)
# how deep the parts of a random value lie; chains are deeper
DEEP = 4

# `planted` counts the differences, each as the texts of its path and of both parts, and is None
# where keys may come twice; `options` is a dict, the others are the bytes of the files
Pair = collections.namedtuple("Pair", "left_bytes right_bytes options planted")


# ---- values


def made_number(chance):
    """Makes a number, as its normal text."""
    size = chance.choice((1, 1, 1, 2, 3, 5, 17, 20, 40, 400))
    digits = "".join(chance.choices("0123456789", k=size)).strip("0")
    tens = chance.choice((0, 0, 0, *(chance.randrange(-most, most) for most in (4, 400, BIGGEST))))
    return document_reports.normal(Number(f"{chance.choice(('', '', '-'))}{digits or 0}e{tens}"))


def made_scalar(chance):
    """Makes a value that holds no others."""
    way = chance.random()
    if way < 0.45:
        return made_number(chance)
    return chance.choice(TEXTS) if way < 0.85 else chance.choice((None, True, False))


def made_chain(chance):
    """Makes a value that nests as deep as a member of a document may, or a little less."""
    value, deepest = chance.choice(([], Object(()), made_scalar(chance))), chance.choice(
        (110, 126, 127, 127)
    )
    while document_reports.depth_of(value) < deepest:
        value = [value] if chance.random() < 0.5 else Object(((chance.choice(NAMES), value),))
    return value


def made_value(chance, depth=0):
    """Makes a value."""
    way = chance.random()
    if depth == 1 and way < 0.008:
        return made_chain(chance)
    if depth >= DEEP or way < 0.55:
        return made_scalar(chance)
    count = chance.choice((0, 1, 2, 2, 3, 4))
    if way < 0.75:
        return [made_value(chance, depth + 1) for _ in range(count)]
    return Object(
        tuple((name, made_value(chance, depth + 1)) for name in chance.sample(NAMES, count))
    )


def placed(value, steps, part, chance):
    """Returns a value in which steps lead to a part, with as few changes as that needs."""
    if not steps:
        return part
    step, rest = steps[0], steps[1:]
    if isinstance(step, int):
        items = value if isinstance(value, list) else []
        items = items + [made_scalar(chance) for _ in range(step + 1 - len(items))]
        return [*items[:step], placed(items[step], rest, part, chance), *items[step + 1 :]]
    members = dict(value.members) if isinstance(value, Object) else {}
    return Object(tuple({**members, step: placed(members.get(step), rest, part, chance)}.items()))


# ---- planted differences


def near(value, chance, is_deepest=False):
    """Returns another value that is much like one, and no deeper at the deepest place."""
    if isinstance(value, Number):
        sign, digits, tens = document_reports.number_parts(value.text)
        last = str(int(digits[-1]) % 9 + 1)
        ways = [f"{sign}{digits[:-1]}{last}e{tens}", f"{sign}{digits}1e{tens}"]
        if chance.random() < 0.15:
            return value.text
        ways += [f"{sign}{digits}e{tens + 1}", f"{'' if sign else '-'}{digits}e{tens}"] * (
            digits != "0"
        )
        return document_reports.normal(Number(chance.choice(ways)))
    if isinstance(value, str):
        pairs = {
            "é": "e\u0301",
            "e\u0301": "é",
            "Å": "A\u030a",
            "A\u030a": "Å",
            "null": None,
            "1": Number("1"),
        }
        return pairs.get(value, value + chance.choice(("a", " ", "\0", "é")))
    if isinstance(value, (Object, list)):
        return chance.choice(
            (None, "", Number("0"), [] if isinstance(value, Object) else Object(()))
        )
    others = [None, True, False, "null", "true", "", Number("0")] + [[], Object(())] * (
        not is_deepest
    )
    return chance.choice([it for it in others if it is not value])


def planted_change(path, left, right):
    """Returns a difference as texts."""
    return (document_reports.path_text(path), *map(document_reports.part_text, (left, right)))


def is_on_key(path, keys):
    """Returns whether a key is a part of the value that a path leads to."""
    return any(key[: len(path)] == path for key in keys)


def replaced(value, path, chance, planted):
    """Returns another value."""
    other = near(value, chance, len(path) >= document_reports.DEEPEST)
    planted[planted_change(path, value, other)] += 1
    return other


def altered_chain(value, path, chance, planted):
    """Returns a chain with another value at its end."""
    if isinstance(value, Object) and value.members:
        name, part = value.members[0]
        return Object(((name, altered_chain(part, (*path, name), chance, planted)),))
    if isinstance(value, list) and value:
        return [altered_chain(value[0], (*path, 0), chance, planted)]
    return replaced(value, path, chance, planted)


def altered(value, path, keys, chance, planted):
    """Returns a value with differences, no part of a key changed, and counts where they are."""
    if path in keys:
        return value
    if path and not is_on_key(path, keys):
        if chance.random() < (0.1 if isinstance(value, (Object, list)) else 0.5):
            return replaced(value, path, chance, planted)
        if len(path) == 1 and document_reports.depth_of(value) > 100:
            return altered_chain(value, path, chance, planted)
    if isinstance(value, Object):
        return altered_object(value, path, keys, chance, planted)
    if isinstance(value, list):
        return altered_array(value, path, keys, chance, planted)
    return value


def altered_object(value, path, keys, chance, planted):
    """Returns an object with differences."""
    members = []
    for name, part in value.members:
        at = (*path, name)
        if chance.random() < 0.1 and not is_on_key(at, keys):
            planted[planted_change(at, part, MISSING)] += 1
        else:
            members.append(
                (name, altered(part, at, keys, chance, planted) if chance.random() < 0.4 else part)
            )
    if chance.random() < 0.15:
        name = chance.choice([name for name in NAMES if name not in dict(value.members)])
        members.append((name, part := made_value(chance, len(path) + 1)))
        planted[planted_change((*path, name), MISSING, part)] += 1
    return Object(tuple(members))


def altered_array(value, path, keys, chance, planted):
    """Returns an array with differences."""
    items, at = list(value), (*path, len(value) - 1)
    if items and chance.random() < 0.2 and not is_on_key(at, keys):
        planted[planted_change(at, items.pop(), MISSING)] += 1
        return items
    items = [
        altered(part, (*path, i), keys, chance, planted) if chance.random() < 0.4 else part
        for i, part in enumerate(items)
    ]
    if chance.random() < 0.15:
        items.append(part := made_value(chance, len(path) + 1))
        planted[planted_change((*path, len(value)), MISSING, part)] += 1
    return items


# ---- texts


def written_number(value, chance):
    """Returns a number in one of its notations."""
    sign, digits, tens = document_reports.number_parts(value.text)
    if digits == "0":
        sign, tens = chance.choice(("", "", "-")), chance.choice(
            (0, 0, 0, chance.randrange(-40, 40), BIGGEST)
        )
    if chance.random() < 0.2:
        zeros = chance.choice((1, 2, 30))
        digits, tens = digits + "0" * zeros, tens - zeros
    if 0 < tens < 40 and chance.random() < 0.5:
        digits, tens = digits + "0" * tens, 0
    if -450 < tens < 0 and chance.random() < 0.5:
        digits, point = digits.rjust(1 - tens, "0"), -tens
    else:
        point = chance.choice((0, 0, chance.randrange(len(digits))))
    tens += point
    whole, fraction = (
        digits[: len(digits) - point].lstrip("0") or "0",
        digits[len(digits) - point :],
    )
    text = f"{sign}{whole}.{fraction}" if fraction else f"{sign}{whole}"
    if tens == 0 and chance.random() < 0.8:
        return text
    down = "-" if tens < 0 else chance.choice(("", "+", "-" if tens == 0 else ""))
    return f"{text}{chance.choice('eE')}{down}{'0' * chance.choice((0, 0, 0, 1, 40))}{abs(tens)}"


SHORT = {
    '"': '\\"',
    "\\": "\\\\",
    "/": "\\/",
    "\b": "\\b",
    "\f": "\\f",
    "\n": "\\n",
    "\r": "\\r",
    "\t": "\\t",
}


def written_char(char, rate, chance):
    """Returns a character of a string, as it is or escaped."""
    if char not in '"\\' and char >= " " and chance.random() >= rate:
        return char
    if char in SHORT and chance.random() < 0.6:
        return SHORT[char]
    units = char.encode("utf-16-be")
    digits = (units[at : at + 2].hex() for at in range(0, len(units), 2))
    return "".join("\\u" + (it.upper() if chance.random() < 0.5 else it) for it in digits)


def written(value, chance, blanks, rate):
    """Returns a value as JSON, with these blanks at times, and characters escaped at this rate."""

    def blank():
        return (
            "".join(chance.choice(blanks) for _ in range(chance.choice((0, 0, 1, 2))))
            if blanks
            else ""
        )

    def within(value):
        return f"{blank()}{written(value, chance, blanks, rate)}{blank()}"

    if isinstance(value, Number):
        return written_number(value, chance)
    if isinstance(value, str):
        return '"' + "".join(written_char(char, rate, chance) for char in value) + '"'
    if isinstance(value, list):
        return f"[{','.join(map(within, value)) or blank()}]"
    if isinstance(value, Object):
        members = chance.sample(value.members, len(value.members)) if value.members else ()
        return (
            "{"
            + (",".join(f"{within(name)}:{within(part)}" for name, part in members) or blank())
            + "}"
        )
    return document_reports.compact(value)


def line_of(value, chance):
    """Returns a document as a line, without its end."""
    blanks = chance.choice(("", "", "", " ", " \t\r"))
    text = written(value, chance, blanks, chance.choice((0, 0, 0.3, 1)))
    return (chance.choice((blanks, "")) + text + chance.choice((blanks, ""))).encode()


def file_of(lines, chance):
    """Returns the bytes of a file of these lines."""
    end = chance.choice((b"\n", b"\n", b"\r\n"))
    content = b"".join(line + end for line in lines)
    return content.removesuffix(end) if chance.random() < 0.2 else content


# ---- pairs


def made_keys(steps, chance):
    """Makes a function of the keys that documents of a pair have."""
    members = ("a", Number("1")), ("b", Number("2"))
    names = [
        Object(members),
        Object(members[::-1]),
        Object(()),
        Object((("\U0010ffff", None), ("\ue000", None))),
        [Number("1"), "1"],
        Number("1"),
        "1",
        Number("-1"),
        Number("12e2"),
        Number("15e-1"),
        None,
        True,
        "é",
        "e\u0301",
        "\x9b",
        "x, y",
        "\U0010ffff",
    ]
    numbers = iter(range(1, 1_000_000))
    is_unique = chance.random() < 0.5

    def made_key():
        values = [chance.choice(names) for _ in steps]
        if values and is_unique:
            values[-1] = chance.choice((Number, str))(f"{next(numbers)}")
        return values

    return made_key, is_unique


def made_document(steps, key, chance, lacking=0):
    """Makes a document with a key, each part of which is left out at this rate."""
    count = chance.choice((0, 1, 2, 3, 5))
    value = Object(tuple((name, made_value(chance, 1)) for name in chance.sample(NAMES, count)))
    for path, part in zip(steps, key):
        if chance.random() >= lacking:
            value = placed(value, path, part, chance)
    return value


def altered_rows(rows, steps, chance, planted):
    """Returns documents of which some are changed and some are left out, and counts the
    differences."""
    if steps:
        rows = [value for value in rows if chance.random() < 0.88]
    keys = {tuple(path) for path in steps}
    return [
        altered(value, (), keys, chance, planted) if chance.random() < 0.4 else value
        for value in rows
    ]


def paths_in(value, chance):
    """Makes the steps to a part of a value that is chosen, one more at each step."""
    path = ()
    while document_reports.children(value):
        if isinstance(value, list):
            step = chance.randrange(len(value))
            value = value[step]
        else:
            step, value = chance.choice(value.members)
        path += (step,)
        yield path


def step_word(step, is_first, chance):
    """Returns a step of a pattern as a part of a word."""
    if step is ANY:
        return "[]"
    if isinstance(step, int):
        return f"[{step}]"
    if step and not QUOTED & set(step) and chance.random() < 0.8:
        return step if is_first and step[0] != "-" and chance.random() < 0.8 else f".{step}"
    quoted = json.dumps(step, ensure_ascii=chance.random() < 0.3)
    return "." + quoted.replace(",", "\\u002c")


def pattern_word(path, chance):
    """Returns a word that is a pattern for a path, or for others too."""
    steps = [ANY if isinstance(step, int) and chance.random() < 0.5 else step for step in path]
    if chance.random() < 0.1:
        steps[chance.randrange(len(steps))] = chance.choice((*NAMES, ANY, 0, 1))
    if chance.random() < 0.15:
        steps.append(chance.choice((*NAMES, ANY, 0)))
    return "".join(step_word(step, n == 0, chance) for n, step in enumerate(steps))


def made_patterns(values, most, chance):
    """Makes some words that are patterns for parts of values."""
    words = []
    for _ in range(chance.randrange(1, most + 1)):
        paths = list(paths_in(chance.choice(values), chance)) if values else []
        words.append(pattern_word(chance.choice(paths or [(chance.choice(NAMES),)]), chance))
    return words


def numbers_in(values):
    """Returns the numbers in values."""
    return [
        part
        for value in values
        for part, _ in document_reports.parts(value)
        if isinstance(part, Number)
    ]


def made_bound(numbers, relative, chance):
    """Makes a bound, which is about as large as some differences that are planted."""
    if relative:
        return chance.choice(
            ("0", "1", "2", "0.9", "0.8999", "0.25", "0.1", "1e-1", "1E-2", "1.0e-9", "1.99", "1.5")
        )
    sign, digits, tens = document_reports.number_parts(
        chance.choice(numbers).text if numbers else "1"
    )
    tens = tens + chance.choice((0, 0, 0, -1, 1, len(digits), 400, -400))
    tens = max(min(tens, BIGGEST), -BIGGEST)
    digits = chance.choice(
        ("0", "1", "2", "3", "5", "8", "9.0", "0.9", "20", "999999999999999999")
    )
    return f"{digits}e{tens}"


def made_tolerances(values, chance):
    """Makes some tolerances: words of patterns, bounds, and whether these are parts of the larger
    number."""
    numbers, tolerances = numbers_in(values), []
    words = made_patterns(values, 4, chance) + [
        step_word(it, True, chance) for it in chance.sample(NAMES, 6)
    ]
    for word in chance.sample(words, chance.randrange(1, len(words) + 1)):
        relative = chance.random() < 0.5
        tolerances.append((word, made_bound(numbers, relative, chance), relative))
    return tolerances


def made_rules(values, chance):
    """Makes the rules that say which differences between values are told, which are none for many
    pairs."""
    if chance.random() < 0.5:
        return {"ignored": [], "only": [], "missing_is_null": False, "tolerances": []}
    way = chance.random()
    return {
        "ignored": made_patterns(values, 5, chance) if way < 0.6 else [],
        "only": made_patterns(values, 5, chance) if way > 0.4 else [],
        "missing_is_null": chance.random() < 0.4,
        "tolerances": made_tolerances(values, chance) if chance.random() < 0.6 else [],
    }


def made_options(keys, chance):
    """Makes the options to compare files by these keys."""
    options = {
        "keys": keys,
        "limit": chance.choice((None, None, 0, 1, 3)),
        "json": chance.random() < 0.5,
        "colored": chance.random() < 0.2,
        "unique": bool(keys) and chance.random() < 0.2,
        "null_keys": bool(keys) and chance.random() < 0.2,
        "skip_bad": chance.random() < 0.25,
        "piped": chance.choice((None,) * 10 + (0, 1)),
        "files": chance.sample(FILES, 2),
        "input": chance.random() < 0.1,
        "commas": chance.random() < 0.5,
        "summary": chance.random() < 0.05,
    }
    if chance.random() < 0.1:
        options.update(files=["left.txt", "right"], input=True)
    return options


def with_bad_lines(lines, options, chance):
    """Returns lines with some between them that are no documents."""
    lines, bad = list(lines), BAD_LINES
    if options["keys"] and not options["null_keys"]:
        bad += (b"{}", b"{ }")
    for _ in range(chance.choice((0, 1, 1, 2, 5))):
        lines.insert(chance.randrange(len(lines) + 1), chance.choice(bad))
    return lines


def made_pair(chance, most=8):
    """Makes two files and the options to compare them by, the left one with so many documents at
    most."""
    chosen = chance.sample(PATHS, chance.choice((0, 1, 1, 1, 2)))
    if len({path[0] for _, path in chosen}) < len(chosen):
        chosen = chosen[:1]
    steps = [path for _, path in chosen]
    made_key, is_unique = made_keys(steps, chance)
    options = made_options([word for word, _ in chosen], chance)
    lacking = 0.3 if options["null_keys"] else 0
    left = [
        made_document(steps, made_key(), chance, lacking) for _ in range(chance.randrange(most + 1))
    ]
    if left and not is_unique and chance.random() < 0.3:
        left = chance.choices(left, k=len(left))
    is_same, planted = chance.random() < 0.15, collections.Counter()
    rows = left if is_same else altered_rows(left, steps, chance, planted)
    lines = {id(value): line_of(value, chance) for value in left}
    right = [
        lines[id(value)] if id(value) in lines and chance.random() < 0.3 else line_of(value, chance)
        for value in rows
    ]
    if not is_same:
        right += [
            line_of(made_document(steps, made_key(), chance, lacking), chance)
            for _ in range(chance.randrange(3))
        ]
    if steps and chance.random() < 0.5:
        chance.shuffle(right)
    options |= made_rules([*left, *rows], chance)
    left = [lines[id(value)] for value in left]
    if options["skip_bad"]:
        left, right = (with_bad_lines(side, options, chance) for side in (left, right))
    is_known = is_unique and not lacking or not steps
    return Pair(
        file_of(left, chance), file_of(right, chance), options, planted if is_known else None
    )


# ---- runs


def arguments(options):
    """Returns the words of the program for these options."""
    keys = [",".join(options["keys"])] if options["keys"] and options["commas"] else options["keys"]
    words = [word for key in keys for word in ("--key", key)]
    if options["limit"] is not None:
        words += ["--limit", str(options["limit"])]
    words += ["--format", "json"] * options["json"] + ["--color", "always"] * options["colored"]
    words += ["--unique"] * options["unique"] + ["--missing-is-null"] * options["missing_is_null"]
    words += ["--no-key-is-null"] * options["null_keys"] + ["--skip-bad"] * options["skip_bad"]
    words += ["--summary"] * options["summary"] + ["--markdown"] * options.get("markdown", False)
    for option in ("ignored", "only"):
        patterns = (
            [",".join(options[option])]
            if options[option] and options["commas"]
            else options[option]
        )
        words += [
            word
            for pattern in patterns
            for word in ({"ignored": "--ignore"}.get(option, "--only"), pattern)
        ]
    for word, bound, relative in options["tolerances"]:
        words += ["--relative-tolerance" if relative else "--tolerance", f"{word}={bound}"]
    return words + ["--input", "ndjson"] * (options["input"] or options["piped"] is not None)


def run_pair(program, pair, folder, run=runs.run):
    """Runs the program over a pair in a folder, where one of its files may come by standard
    input."""
    piped, contents = pair.options["piped"], (pair.left_bytes, pair.right_bytes)
    for name, content in zip(pair.options["files"], contents):
        (pathlib.Path(folder) / name).write_bytes(content)
    given = b"" if piped is None else contents[piped]
    words = [*arguments(pair.options), *document_reports.named_files(pair.options)]
    return run([program, "diff", *[word.encode() for word in words]], given, folder)
