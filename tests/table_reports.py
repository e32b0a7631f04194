"""The reports that `dunkelva diff` has to print, worked out from the rows of two tables
(`random_tables.py`)."""
import collections
import decimal
import json
import re
import unicodedata

import random_tables

# `sides` are the rows of both tables in the compared columns `names`, `compared` what their cells
# are compared by, `keys` the places of the key among the columns, `lone` pairs of a side and the
# name of a column that it has alone, `changed` the rows of partners and the places that differ
Comparison = collections.namedtuple(
    "Comparison", "names keys lone sides compared changed removed added same"
)

# a number as RFC 8259 writes it: what stands before its exponent, and the exponent
NUMBER = re.compile(r"(-?(?:0|[1-9][0-9]*)(?:\.[0-9]+)?)(?:[eE]([+-]?[0-9]+))?")
MOST_DIGITS = 30
# a number with a comma, and how many rows are searched for one
WITH_COMMA = re.compile(r"-?(?=[^,]*,)[0-9](?:[0-9.,]*[0-9])?")
MOST_ROWS = 1000
# no message has more bytes of a cell than this
MOST_BYTES = 60


def worth(cell):
    """Returns what a cell is compared by where numbers count: its sign, digits and tens, or the
    text of no number."""
    found = NUMBER.fullmatch(cell)
    if not found:
        return cell
    sign, digits, tens = decimal.Decimal(found[1]).as_tuple()
    text = "".join(map(str, digits)).lstrip("0")
    kept = text.rstrip("0")
    return (sign, kept, tens + int(found[2] or 0) + len(text) - len(kept)) if kept else (0, "", 0)


def is_wide(cell):
    """Returns whether a cell is a number whose exponent has too many digits."""
    found = NUMBER.fullmatch(cell)
    return bool(found and found[2]) and len(found[2].lstrip("+-").lstrip("0")) > MOST_DIGITS


def is_close(left, right, bound, relative):
    """Returns whether two cells are numbers that lie at most a bound apart, or at most that part of
    the larger one."""
    if any(not NUMBER.fullmatch(cell) or is_wide(cell) for cell in (left, right)):
        return False
    with decimal.localcontext(prec=1000, traps=[decimal.Inexact]):
        left, right, most = map(decimal.Decimal, (left, right, bound))
        return abs(left - right) <= (most * max(abs(left), abs(right)) if relative else most)


def is_tolerated(name, left, right, options):
    """Returns whether a tolerance allows two cells of a column to differ."""
    return any(
        column == name and is_close(left, right, bound, relative)
        for column, bound, relative in options.get("tolerances", [])
    )


def partners(left_keys, right_keys):
    """Returns pairs of rows of one key, the first with the first, and the right rows that have
    none."""
    waiting = collections.defaultdict(collections.deque)
    for j, key in enumerate(right_keys):
        waiting[key].append(j)
    pairs = [
        (i, waiting[key].popleft() if waiting[key] else None) for i, key in enumerate(left_keys)
    ]
    return pairs, sorted(j for rows in waiting.values() for j in rows)


def is_chosen(name, options):
    """Returns whether a column is compared."""
    if name in options["keys"]:
        return True
    return name in options.get("only", [name]) and name not in options.get("ignored", [])


def comparison_of(pair):
    """Compares two tables that can be compared."""
    left, right, options = pair.left, pair.right, pair.options
    names = [name for name in left.names if name in right.names and is_chosen(name, options)]
    lone = [
        (side, name)
        for side, table, other in ((0, left, right), (1, right, left))
        for name in table.names
        if name not in other.names and is_chosen(name, options)
    ]
    places = [[table.names.index(name) for name in names] for table in (left, right)]
    sides = [
        [[row[c] for c in columns] for row in table.rows]
        for table, columns in zip((left, right), places)
    ]
    counts = [options["numbers"] and name not in options.get("texts", []) for name in names]
    compared = [
        [[worth(cell) if counts[c] else cell for c, cell in enumerate(row)] for row in rows]
        for rows in sides
    ]
    keys = [names.index(name) for name in options["keys"]]
    pairs, added = partners(*[[tuple(row[k] for k in keys) for row in rows] for rows in compared])
    removed = [i for i, j in pairs if j is None]
    matched = [(i, j) for i, j in pairs if j is not None]

    def are_apart(i, j, c):
        cells = (sides[0][i][c], sides[1][j][c])
        is_same = compared[0][i][c] == compared[1][j][c]
        return not is_same and not is_tolerated(names[c], *cells, options)

    changed = [(i, j, [c for c in range(len(names)) if are_apart(i, j, c)]) for i, j in matched]
    changed = [it for it in changed if it[2]]
    same = len(matched) - len(changed)
    return Comparison(
        names,
        keys,
        [] if options["common"] else lone,
        sides,
        compared,
        changed,
        removed,
        added,
        same,
    )


def status_of(found):
    """Returns the status that a comparison ends with."""
    return 1 if found.lone or found.changed or found.removed or found.added else 0


def column_counts(found):
    """Returns how many cells differ in each column where one does, in the order of the columns."""
    counts = collections.Counter(c for _, _, places in found.changed for c in places)
    return [(found.names[c], counts[c]) for c in sorted(counts)]


def shown(lines, options):
    """Returns the first differences, and how many are left out."""
    if options.get("summary"):
        return [], len(lines)
    limit = 20 if options["limit"] is None else options["limit"] or len(lines)
    return lines[:limit], max(len(lines) - limit, 0)


# ---- the report as text

NAMED = {'"': '\\"', "\\": "\\\\", "\n": "\\n", "\r": "\\r", "\t": "\\t"}
# what is not printed as it is: control characters, also those from U+0080 to U+009F in UTF-8
HIDDEN = re.compile('["\\\\\0-\x1f\x7f]|\xc2[\x80-\x9f]')
RED, GREEN, YELLOW = 31, 32, 33


def quoted(cell):
    """Returns a cell as the report quotes it."""

    def text(found):
        return "".join(NAMED.get(c, f"\\x{ord(c):02x}") for c in found[0])

    return f'"{HIDDEN.sub(text, cell)}"'


def word(cell):
    """Returns a key cell, a name or a file: as it is where it is a plain word, else quoted."""
    plain = cell and all(ord(c) > 32 and c not in '\x7f\xc2"\\,=' for c in cell)
    return cell if plain else quoted(cell)


def text_report(pair):
    """Returns the report that the program has to print as lines to read."""
    found, options = comparison_of(pair), pair.options
    files = [word(file) for file in random_tables.named_files(options)]
    left, right = found.sides

    def row_text(row, i):
        return (
            ",".join(f"{word(found.names[k])}={word(row[k])}" for k in found.keys) or f"row {i + 1}"
        )

    def painted(color, text):
        return f"\x1b[{color}m{text}\x1b[0m" if options["colored"] else text

    def cell_text(color, cell):
        return painted(color, "null" if cell == options["null"] else quoted(cell))

    def changed_text(i, j, places):
        cells = (
            (word(found.names[c]), cell_text(RED, left[i][c]), cell_text(GREEN, right[j][c]))
            for c in places
        )
        changes = ", ".join(f"{name} {before} -> {after}" for name, before, after in cells)
        return f"{painted(YELLOW, f'~ {row_text(left[i], i)}')}  {changes}"

    lines = [changed_text(*it) for it in found.changed]
    lines += [
        painted(RED, f"- {row_text(left[i], i)}  {files[0]} line {pair.left.lines[i]}")
        for i in found.removed
    ]
    lines += [
        painted(GREEN, f"+ {row_text(right[j], j)}  {files[1]} line {pair.right.lines[j]}")
        for j in found.added
    ]
    lines, rest = shown(lines, options)
    lines = [f"! column {word(name)} only in {files[side]}" for side, name in found.lone] + lines
    lines += [f".. and {rest} more"] * (rest > 0 and not options.get("summary"))
    counts = (
        f"{len(found.changed)} changed, {len(found.removed)} removed, {len(found.added)} added, "
        f"{found.same} the same."
    )
    columns = ", ".join(f"{word(name)} {count}" for name, count in column_counts(found))
    lines.append(f"{counts}  By column: {columns}." if columns else counts)
    return "".join(f"{line}\n" for line in lines).encode("latin-1")


# ---- the report as JSON


def as_text(cell):
    """Returns a cell as a string of JSON: what is no UTF-8 in it is replaced."""
    return cell.encode("latin-1").decode("utf-8", errors="replace")


def json_objects(pair):
    """Returns the objects of the lines that the program has to print, each as pairs of a name and a
    value."""
    found, options = comparison_of(pair), pair.options
    left, right = found.sides
    names = list(map(as_text, found.names))

    def key(row):
        return tuple((names[k], as_text(row[k])) for k in found.keys)

    def value(cell):
        return None if cell == options["null"] else as_text(cell)

    def changed(i, j, places):
        changes = tuple(
            (names[c], (("left", value(left[i][c])), ("right", value(right[j][c])))) for c in places
        )
        return (
            ("kind", "changed"),
            ("key", key(left[i])),
            ("left_row", i + 1),
            ("right_row", j + 1),
            ("left_line", pair.left.lines[i]),
            ("right_line", pair.right.lines[j]),
            ("changes", changes),
        )

    def alone(kind, rows, table, i):
        return ("kind", kind), ("key", key(rows[i])), ("row", i + 1), ("line", table.lines[i])

    objects = [changed(*it) for it in found.changed]
    objects += [alone("removed", left, pair.left, i) for i in found.removed]
    objects += [alone("added", right, pair.right, j) for j in found.added]
    objects, rest = shown(objects, options)
    lone = [
        (("kind", "column"), ("column", as_text(name)), ("only_in", ("left", "right")[side]))
        for side, name in found.lone
    ]
    columns = tuple((as_text(name), count) for name, count in column_counts(found))
    counts = (
        ("kind", "counts"),
        ("changed", len(found.changed)),
        ("removed", len(found.removed)),
        ("added", len(found.added)),
        ("same", found.same),
        ("not_shown", rest),
        ("columns", columns),
    )
    return [*lone, *objects, counts]


def objects_of(printed):
    """Returns the objects of JSON lines. A line may have no blank outside of strings, and no
    control character."""
    objects, text = [], printed.decode()
    if not text.endswith("\n"):
        raise ValueError("no end of the last line")
    for line in text.removesuffix("\n").split("\n"):
        if re.search(r"[\0-\x1f\x7f-\x9f]", line) or " " in re.sub(r'"(?:[^"\\]|\\.)*"', "", line):
            raise ValueError(f"a blank or a control character in {line!r}")
        objects.append(json.loads(line, object_pairs_hook=tuple))
    return objects


# ---- what a run has to do


def wide_number(pair):
    """Returns what is said of the first number that counts and whose exponent is too wide, or
    None."""
    found, options = comparison_of(pair), pair.options
    for file, table, rows in zip(
        random_tables.named_files(options), (pair.left, pair.right), found.sides
    ):
        for line, row in zip(table.lines, rows):
            for name, cell in zip(found.names, row):
                if options["numbers"] and name not in options.get("texts", []) and is_wide(cell):
                    return (
                        f"{file}: line {line} has a number in column {name} whose exponent has "
                        "more than 30 digits"
                    )
    return None


def cut_cell(cell):
    """Returns a cell in quotes, cut if it is long, as messages write it."""
    content = cell.encode("latin-1")
    try:
        content.decode()
    except UnicodeDecodeError:
        return "one that is not UTF-8"
    start = content[:MOST_BYTES].decode(errors="ignore").encode().decode("latin-1")
    return in_quotes(start, "latin-1") + (".." if len(start) < len(content) else "")


def key_hint(file, row, keys):
    """Returns the hint at a key that comes twice, for a file that can be read again."""
    return "" if file == "-" else ": " + ", ".join(cut_cell(row[k]) for k in keys)


def repeated_key(pair):
    """Returns what is said of the first row whose key an earlier row of its file has, or None."""
    found = comparison_of(pair)
    files = random_tables.named_files(pair.options)
    sides = zip(files, (pair.left, pair.right), found.compared, found.sides)
    for file, table, rows, whole in sides:
        seen = {}
        for i, row in enumerate(rows):
            first = seen.setdefault(tuple(row[k] for k in found.keys), i)
            if first < i:
                lines = f"lines {table.lines[first]} and {table.lines[i]}"
                hint = key_hint(file, whole[first], found.keys)
                return f"{file}: {lines} have the same key{hint}"
    return None


def key_twice(pair):
    """Returns what is said of a repeated key where keys have to be unique, or None."""
    return repeated_key(pair) if pair.options["unique"] else None


def repeat_warned(said):
    """Returns the line that a run which ends well says of a repeated key."""
    return (
        f"dunkelva: warning: {said}; more keys may be repeated (rows of one key are matched in "
        "their order; --unique refuses them)\n"
    )


def number_with_comma(table, options):
    """Returns what is said of the first number with a comma in a table, in a column whose numbers
    are compared by value, or None."""
    bounded = [name for name, *_ in options.get("tolerances", [])]
    for row in table.rows[:MOST_ROWS]:
        for name, cell in zip(table.names, row):
            is_number = options["numbers"] and name not in options.get("texts", [])
            by_value = is_chosen(name, options) and (is_number or name in bounded)
            if by_value and WITH_COMMA.fullmatch(cell):
                return f'"{cell}" in column {in_quotes(name, "latin-1")}'
    return None


def comma_warned(pair):
    """Returns the line that a run which finds a difference says of a number with a comma, if there
    is one."""
    for file, table in zip(random_tables.named_files(pair.options), (pair.left, pair.right)):
        if file != "-" and (number := number_with_comma(table, pair.options)):
            return (
                f"dunkelva: warning: {file}: {number} is compared as text: numbers have no comma\n"
            )
    return ""


def warned(pair):
    """Returns what a run over two tables that ends well says."""
    options, said = pair.options, ""
    may_repeat = options["keys"] and not options["unique"] and options["piped"] is None
    if may_repeat and (twice := repeated_key(pair)):
        said = repeat_warned(twice)
    if status_of(comparison_of(pair)):
        said += comma_warned(pair)
    return said.encode("latin-1")


def in_message(char):
    """Returns how a message writes a character of a name: as it is, or by an escape of Rust."""
    short = {"\\": "\\\\", '"': '\\"', "\n": "\\n", "\r": "\\r", "\t": "\\t", "\0": "\\0"}
    is_plain = char.isprintable() and unicodedata.category(char) not in ("Mn", "Me")
    return short.get(char) or (char if is_plain else f"\\u{{{ord(char):x}}}")


def in_quotes(name, encoding="utf-8"):
    """Returns a name between quotes, as messages write it. Names of CSV files are bytes, kept as
    characters of Latin-1."""
    text = "".join(map(in_message, name.encode(encoding).decode("utf-8")))
    return f'"{text.encode().decode(encoding)}"'


def choice_fault(pair):
    """Returns what is said of options that name unknown columns or leave none to compare, or
    None."""
    left, right, options = pair.left.names, pair.right.names, pair.options
    for option, names in (("only", "only"), ("ignore", "ignored"), ("text", "texts")):
        for name in options.get(names, []):
            if name not in left and name not in right:
                return f"--{option}: neither file has a column named {in_quotes(name, 'latin-1')}"
    for option, is_relative in (("tolerance", False), ("relative-tolerance", True)):
        for name, _, relative in options.get("tolerances", []):
            if relative == is_relative and name not in left and name not in right:
                return f"--{option}: neither file has a column named {in_quotes(name, 'latin-1')}"
    found = comparison_of(pair)
    lone = [name for name in {*left} ^ {*right} if is_chosen(name, options)]
    is_key_alone = options["common"] and lone and len(found.names) == len(options["keys"])
    is_nothing_left = (left or right) and not found.names and not found.lone
    return "no column is left to compare" if is_nothing_left or is_key_alone else None


def is_report(printed, pair):
    """Returns whether this is the report of two tables."""
    if not pair.options["json"]:
        return printed == text_report(pair)
    try:
        return objects_of(printed) == json_objects(pair)
    except ValueError:
        return False


def is_right(ran, pair):
    """Returns whether a run over two tables that can be compared did as it has to."""
    said = choice_fault(pair)
    if said:
        # a list of columns may follow
        start = f"dunkelva: {said}".encode("latin-1")
        ends = ran.said[len(start) :].startswith(
            (b"\n", b": the columns of ", b": did you mean ", b": is ")
        )
        return ran.status == 2 and not ran.printed and ran.said.startswith(start) and ends
    if wide_number(pair):
        return ran.status == 2 and not ran.printed and b"more than 30 digits" in ran.said
    said = key_twice(pair)
    if said:
        return ran == (2, b"", f"dunkelva: {said}\n".encode("latin-1"))
    return (
        ran.said == warned(pair)
        and ran.status == status_of(comparison_of(pair))
        and is_report(ran.printed, pair)
    )


def wanted(pair):
    """Returns what a run over two tables has to do, in words."""
    said = choice_fault(pair) or wide_number(pair) or key_twice(pair)
    report = json_objects(pair) if pair.options["json"] else text_report(pair)
    return f"status 2: {said}" if said else f"status {status_of(comparison_of(pair))}: {report}"
