"""Pairs of small random tables as CSV texts, with options to compare them by.

Texts are bytes here, a character for each (latin-1), since a CSV file can have bytes that are no
UTF-8.
"""
import collections
import csv
import io
import pathlib

import runs


def as_bytes(text):
    """Returns the UTF-8 of a text, a character for each byte."""
    return text.encode().decode("latin-1")


CELLS = (
    "",
    "a",
    "b",
    "ab",
    "a,b",
    'say "so"',
    "two\nlines",
    "x\r\ny",
    "tab\t",
    "\x1b[31m",
    as_bytes("Å"),
    as_bytes("日本"),
    "\0",
    "null",
    "NULL",
    "0",
    "00",
    "1e5",
    " ",
    " a",
    "\\",
    "=",
    "\x7f",
    "-" * 40,
    "\xff",
    "a;b|c",
    as_bytes("e\u0301"),
    "\xe6\x97",
    as_bytes("\u2028"),
    as_bytes("\x9b31m"),
    as_bytes("\xb0"),
    "\xc2",
)
KEYS = (
    "1",
    "2",
    "3",
    "a",
    "bc",
    "ab",
    "c",
    "",
    "k 1",
    "x,y",
    "\xfe",
    as_bytes("\x9b"),
    as_bytes("é"),
)
# an option splits names at commas, so that none has one
NAMES = ("id", "name", "city", "amount", "note", "x y", 'a"b', as_bytes("Å"))
# numbers, each as its digits and the tens after them
NUMBERS = (
    ("0", 0),
    ("1", 0),
    ("12", 0),
    ("125", -1),
    ("125", -4),
    ("7", 20),
    ("9007199254740993", 0),
)
# what looks like a number and is none, as RFC 8259 writes numbers
NO_NUMBERS = (
    "007",
    "+5",
    ".5",
    "5.",
    "0x1",
    "1e",
    "-",
    "1e5 ",
    " 5",
    "--1",
    "1_0",
    "0.",
    "-01",
    "1.e1",
    "NaN",
    "5\n",
    "1e\xc2\xb2",
    "\xef\xbc\x91",
    "1,5",
    "e5",
    "1e+",
    "00",
)
# bounds of numbers that lie apart, and of those that lie apart by a part of the larger one
BOUNDS = ("0", "0.25", "0.2499", "1", "11", "1e16", "0.24e0")
PARTS = ("0", "0.2", "0.1999", "1", "0.999999999999999999", "2")
FILES = ("left.csv", "right.csv", "le ft.csv", "a=b.csv", "Å.csv")

# `left` and `right` are Tables, `options` a dict, the others the bytes of the files
Pair = collections.namedtuple("Pair", "left right options left_bytes right_bytes")
# the names of the columns, the cells of each row, and the line at which each row begins
Table = collections.namedtuple("Table", "names rows lines")


def written(names, rows, options, chance):
    """Returns a table, and the bytes that it is written as."""
    ends = chance.choice((("\n",), ("\r\n",), ("\n", "\r\n")))
    out, lines = io.StringIO(newline=""), []
    quoting = chance.choice((csv.QUOTE_MINIMAL, csv.QUOTE_ALL))
    delimiter = options["delimiter"] or ","
    writers = [
        csv.writer(out, lineterminator=end, quoting=quoting, delimiter=delimiter) for end in ends
    ]
    records = [names, *rows]
    has_gaps = chance.random() < 0.2
    for record in records:
        # empty lines are no records
        if has_gaps and chance.random() < 0.3:
            out.write("".join(chance.choices(ends, k=chance.randint(1, 3))))
        lines.append(out.getvalue().count("\n") + 1)
        chance.choice(writers).writerow(record)
    text = out.getvalue()
    if chance.random() < 0.2:
        text = text.removesuffix("\n").removesuffix("\r")
    mark = b"\xef\xbb\xbf" if chance.random() < 0.1 else b""
    return table_of(records, lines, options["header"]), mark + text.encode("latin-1")


def table_of(records, lines, has_header):
    """Returns the table that records make. Without a header columns have numbers for names."""
    if has_header:
        return Table(records[0] if records else [], records[1:], lines[1:])
    return Table([str(c + 1) for c in range(len(records[0]) if records else 0)], records, lines)


def number_text(digits, tens, chance):
    """Returns a number of these digits, with tens after them, written in one of many ways."""
    more = chance.choice((0, 0, 1, 2, 3))
    digits, tens = digits + "0" * more, tens - more
    point = chance.randrange(-2, len(digits) + 1)
    whole, fraction = digits[: max(point, 0)] or "0", "0" * max(-point, 0) + digits[max(point, 0) :]
    power = tens + len(fraction)
    sign = "-" if power < 0 else chance.choice(("", "+"))
    exponent = chance.choice("eE") + sign + "0" * chance.randrange(3) + str(abs(power))
    has_exponent = power or chance.random() < 0.2
    return (
        (whole.lstrip("0") or "0")
        + ("." + fraction if fraction else "")
        + (exponent if has_exponent else "")
    )


def numbers_of(chance):
    """Returns some numbers, each as a text with its sign, digits and tens."""
    made = {}
    for digits, tens in chance.sample(NUMBERS, 3):
        sign = chance.choice(("", "", "-"))
        for _ in range(3):
            made[sign + number_text(digits, tens, chance)] = sign, digits, tens
    return made


def written_again(row, numbers, chance):
    """Returns a row with some of these numbers written in other ways."""

    def again(sign, digits, tens):
        return sign + number_text(digits, tens, chance)

    return [
        again(*numbers[cell]) if cell in numbers and chance.random() < 0.5 else cell for cell in row
    ]


def changed_row(row, keys, cells, chance):
    """Returns a row with another cell outside its key at times."""
    row = list(row)
    places = [c for c in range(len(row)) if c not in keys]
    if places and chance.random() < 0.4:
        row[chance.choice(places)] = chance.choice(cells)
    return row


def made_options(names, keys, chance):
    """Makes the options to compare tables of these columns by, where these places are the key."""
    has_header = chance.random() < 0.85
    if not has_header:
        names = [str(c + 1) for c in range(len(names))]
    options = {
        "keys": [names[c] for c in keys],
        "null": chance.choice((None, None, "null", "")),
        "limit": chance.choice((None, None, 0, 1, 3)),
        "common": chance.random() < 0.15,
        "delimiter": chance.choice((None, None, None, None, ";", "\t", "|")),
        "header": has_header,
        "piped": chance.choice((None,) * 10 + (0, 1)),
        "files": chance.sample(FILES, 2),
        "numbers": chance.random() < 0.4,
        "json": chance.random() < 0.5,
        "colored": chance.random() < 0.2,
        "unique": bool(keys) and chance.random() < 0.2,
        "summary": chance.random() < 0.05,
    }
    others = [name for name in names if name not in options["keys"]]
    if others and chance.random() < 0.3:
        options[chance.choice(("ignored", "only"))] = chance.sample(
            others, chance.randrange(1, len(others) + 1)
        )
    if options["numbers"] and chance.random() < 0.4:
        given = [*names, *["none"] * (chance.random() < 0.1)]
        options["texts"] = chance.sample(given, chance.randrange(1, len(given) + 1))
    if others and chance.random() < 0.3:
        options["tolerances"] = made_tolerances(others, chance)
    return options


def made_tolerances(names, chance):
    """Makes tolerances for some of these columns: names with their bounds, and whether these are
    parts of the larger number."""
    made = []
    for _ in range(chance.randrange(1, 4)):
        relative = chance.random() < 0.5
        made.append((chance.choice(names), chance.choice(PARTS if relative else BOUNDS), relative))
    return made


def made_pair(chance):
    """Makes two tables and the options to compare them by."""
    width = chance.randrange(1, 6)
    names = chance.sample(NAMES, width)
    keys = sorted(chance.sample(range(width), chance.randrange(0, min(width, 2) + 1)))
    numbers = numbers_of(chance) if chance.random() < 0.5 else {}
    cells = (
        [*chance.sample(CELLS, 3), *chance.sample(NO_NUMBERS, 3), *numbers] if numbers else CELLS
    )
    key_cells = [*chance.sample(KEYS, 2), chance.choice(NO_NUMBERS), *numbers] if numbers else KEYS

    def made_rows(most):
        count = chance.randrange(0, most)
        return [
            [chance.choice(key_cells if c in keys else cells) for c in range(width)]
            for _ in range(count)
        ]

    # at times more pairs than are compared at once
    left = made_rows(9 if chance.random() < 0.95 else 800)
    right = [
        changed_row(row, keys, cells, chance) for row in left if chance.random() < 0.85
    ] + made_rows(3)
    right = [written_again(row, numbers, chance) for row in right]
    if chance.random() < 0.5:
        chance.shuffle(right)
    options = made_options(names, keys, chance)
    order = chance.sample(range(width), width) if options["header"] else range(width)
    left_names, right_names = list(names), [names[c] for c in order]
    right = [[row[c] for c in order] for row in right]
    if chance.random() < 0.2:
        at = chance.randrange(width + 1)
        right_names.insert(at, "more")
        for row in right:
            row.insert(at, chance.choice(cells))
    left, left_bytes = written(left_names, left, options, chance)
    right, right_bytes = written(right_names, right, options, chance)
    return Pair(left, right, options, left_bytes, right_bytes)


def arguments(options):
    """Returns the words of the program for these options, as bytes."""
    words = []
    for name, word_of in (
        ("keys", "--key"),
        ("ignored", "--ignore"),
        ("only", "--only"),
        ("texts", "--text"),
    ):
        for value in options.get(name, []):
            words += [word_of, value]
    for name, bound, relative in options.get("tolerances", []):
        words += ["--relative-tolerance" if relative else "--tolerance", f"{name}={bound}"]
    for name in ("null", "limit"):
        if options[name] is not None:
            words += [f"--{name}", str(options[name])]
    if options["delimiter"]:
        words += ["--delimiter", options["delimiter"].replace("\t", "\\t")]
    words += ["--common"] * options["common"] + ["--no-header"] * (not options["header"])
    words += ["--format", "json"] * options["json"] + ["--color", "always"] * options["colored"]
    words += ["--unique"] * options["unique"] + ["--numbers"] * options["numbers"]
    words += ["--summary"] * options["summary"] + ["--markdown"] * options.get("markdown", False)
    return [word.encode("latin-1") for word in words]


def named_files(options):
    """Returns the names that the report has for the two files."""
    names = list(map(as_bytes, options["files"]))
    if options["piped"] is not None:
        names[options["piped"]] = "-"
    return names


def run_pair(program, pair, folder, run=runs.run):
    """Runs the program over a pair in a folder, where one of its texts may come by standard
    input."""
    piped, texts = pair.options["piped"], (pair.left_bytes, pair.right_bytes)
    for name, content in zip(pair.options["files"], texts):
        (pathlib.Path(folder) / name).write_bytes(content)
    files = [name.encode("latin-1") for name in named_files(pair.options)]
    given = b"" if piped is None else texts[piped]
    return run([program, "diff", *arguments(pair.options), *files], given, folder)
