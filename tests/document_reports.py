"""The reports that `dunkelva diff` has to print of two files of JSON documents, worked out by
Python's json module.

That module takes a little more than RFC 8259 has: NaN and Infinity, lone surrogates, and names that
come twice. These, and what the program leaves out besides, are looked for here. Numbers keep their
text, and are compared as digits and an exponent of any size.
"""
import collections
import dataclasses
import decimal
import json
import os
import re

import random_tables
import table_reports

DEEPEST = 128
MOST_DIGITS = 30
MOST_TENS = 20
MISSING = object()
LONE = re.compile("[\ud800-\udfff]")
HIGH = re.compile("[\x7f-\x9f]")
NUMBER = re.compile(r"(-?)(\d+)(?:\.(\d+))?(?:[eE]([-+]?)(\d+))?")
STEP = re.compile(r'\[(\d*)\]|(?:^|\.)([^."\[\]]+)|\.("(?:[^"\\]|\\.)*")', re.DOTALL)
ANY = object()
PLAIN = re.compile(r"[A-Za-z0-9_-]+")
LEXEME = re.compile(r'[\[\]{},:]|("(?:[^"\\]|\\.)*"?)([ \t\r]*:)?|[^\[\]{},: \t\r]+', re.DOTALL)
WORD = re.compile(r"true|false|null|-?(?:0|[1-9][0-9]*)(?:\.[0-9]+)?(?:[eE][-+]?[0-9]+)?")
NO_JSON, NO_OBJECT, TWICE = "not valid JSON", "not a JSON object", "an object has a name twice"
WIDE = "an exponent has more than 30 digits"

# a difference between two values: where it is, and both parts; one may be missing
Change = collections.namedtuple("Change", "path left right")
# the pairs of rows that changed with their changes, the rows without a partner, and how many pairs
# are the same
Comparison = collections.namedtuple("Comparison", "changed removed added same")


@dataclasses.dataclass(frozen=True)
class Number:
    """A number as its text."""

    text: str


@dataclasses.dataclass(frozen=True)
class Object:
    """An object as pairs of a name and a value."""

    members: tuple


class Documents(list):
    """The documents of a file, with the numbers of their lines and of the lines that are passed
    over."""

    def __init__(self):
        super().__init__()
        self.numbers, self.skipped = [], []


class Fault(Exception):
    """What may be said of a line that is no document, or of a key that comes twice."""

    def __init__(self, *said):
        super().__init__(said)
        self.said = said


# ---- values


def refuse(word):
    """Refuses NaN and the like."""
    raise ValueError(word)


def parsed(text):
    """Returns the value of a JSON text. Raises a ValueError where it is none."""
    return json.loads(
        text,
        object_pairs_hook=lambda pairs: Object(tuple(pairs)),
        parse_int=Number,
        parse_float=Number,
        parse_constant=refuse,
    )


def children(value):
    """Returns the values that stand right in an array or an object."""
    if isinstance(value, Object):
        return [child for _, child in value.members]
    return value if isinstance(value, list) else []


def parts(value):
    """Makes all values in a value, and itself, with how many arrays and objects each is in."""
    waiting = [(value, 0)]
    while waiting:
        part, depth = waiting.pop()
        yield part, depth
        waiting += [(child, depth + 1) for child in children(part)]


def depth_of(value):
    """Returns how deep arrays and objects nest."""
    return max(depth + isinstance(part, (Object, list)) for part, depth in parts(value))


def texts_of(part):
    """Returns the text of a string, or the names of an object's members."""
    if isinstance(part, Object):
        return "".join(name for name, _ in part.members)
    return part if isinstance(part, str) else ""


def tree_of(line):
    """Returns what the json module reads in a line, and whether that is JSON."""
    try:
        value = parsed(line.decode("utf-8"))
    except (ValueError, RecursionError):
        return None, False
    return value, depth_of(value) <= DEEPEST and not any(
        LONE.search(texts_of(part)) for part, _ in parts(value)
    )


def number_parts(text):
    """Returns a number's sign, its digits without zeros around them, and its exponent."""
    sign, whole, fraction, down, exponent = NUMBER.fullmatch(text).groups(default="")
    digits = (whole + fraction).lstrip("0")
    if not digits:
        return "", "0", 0
    tens = (
        int(f"{down}0{exponent.lstrip('0')}")
        - len(fraction)
        + len(digits)
        - len(digits.rstrip("0"))
    )
    return sign, digits.rstrip("0"), tens


def is_wide(text):
    """Returns whether a number's exponent has more digits than may be."""
    return len((NUMBER.fullmatch(text)[5] or "").lstrip("0")) > MOST_DIGITS


def normal(value):
    """Returns a value with its members in order and its numbers in one form."""
    if isinstance(value, Number):
        sign, digits, tens = number_parts(value.text)
        return Number(f"{sign}{digits}e{tens}" if tens else f"{sign}{digits}")
    if isinstance(value, Object):
        return Object(
            tuple(
                sorted(
                    ((name, normal(child)) for name, child in value.members), key=lambda it: it[0]
                )
            )
        )
    return [normal(child) for child in value] if isinstance(value, list) else value


# ---- texts


def shown(text):
    """Returns a text of JSON without the control characters that may stand in its strings."""
    return HIGH.sub(lambda found: f"\\u{ord(found[0]):04x}", text)


def stored_text(text):
    """Returns a string as JSON, with the control characters that may stand in it."""
    return json.dumps(text, ensure_ascii=False)


def string_text(text):
    """Returns a string as JSON, with no control character in it."""
    return shown(stored_text(text))


def compact(value, string=string_text):
    """Returns a value as JSON without blanks, its numbers as they stand."""
    if isinstance(value, Number):
        return value.text
    if isinstance(value, str):
        return string(value)
    if isinstance(value, list):
        return f"[{','.join(compact(child, string) for child in value)}]"
    if isinstance(value, Object):
        members = (f"{string(name)}:{compact(child, string)}" for name, child in value.members)
        return f"{{{','.join(members)}}}"
    return json.dumps(value)


def part_text(part):
    """Returns what stands for a part that may be missing, its numbers in one form."""
    return "missing" if part is MISSING else compact(normal(part))


def path_text(path):
    """Returns the text of a path, whose names may have control characters from U+007F on."""
    text = ""
    for step in path:
        if isinstance(step, int):
            text += f"[{step}]"
        elif PLAIN.fullmatch(step):
            text += f".{step}" if text else step
        else:
            text += f".{json.dumps(step, ensure_ascii=False)}"
    return text


def steps_of(path):
    """Returns the steps of a path or a pattern that is given as a word, where `[]` is the step to
    any item."""
    return [
        int(place) if place else json.loads(quoted) if quoted else name if name else ANY
        for place, name, quoted in STEP.findall(path)
    ]


def part_at(value, steps):
    """Returns the part that steps lead to, or what stands for none."""
    for step in steps:
        if isinstance(step, int):
            value = value[step] if isinstance(value, list) and step < len(value) else MISSING
        else:
            value = dict(value.members).get(step, MISSING) if isinstance(value, Object) else MISSING
    return value


# ---- places


def kind_of(found):
    """Returns whether a lexeme is a sign, a string, a name, another value or bad."""
    string, colon = found.groups()
    if string is None:
        return found[0] if found[0] in "[]{},:" else "value" if WORD.fullmatch(found[0]) else "bad"
    try:
        return "bad" if LONE.search(json.loads(string)) else "name" if colon else "string"
    except ValueError:
        return "bad"


def tokens_of(text):
    """Makes the tokens of a text, each with its kind and its place: a string and a colon after it
    are a name."""
    return (
        (kind_of(found), found.start(), found[1] or found[0]) for found in LEXEME.finditer(text)
    )


def bad_place(text):
    """Returns the place of the first token that no object of JSON has there, or of the end."""
    opened, may_follow = "", "{"
    for kind, place, _ in tokens_of(text):
        if kind not in may_follow.split() or len(opened) == DEEPEST and kind in "{[":
            return place
        opened = opened + kind if kind in "{[" else opened[:-1] if kind in "}]" else opened
        value = "{ [ string value"
        if kind in ("{", "["):
            may_follow = "name }" if kind == "{" else f"{value} ]"
        elif kind == "name":
            may_follow = value
        elif kind == ",":
            may_follow = "name" if opened[-1] == "{" else value
        else:
            may_follow = f", {'}' if opened[-1] == '{' else ']'}" if opened else ""
    return len(text)


def second_name_place(text):
    """Returns the place of the first name that its object had before."""
    opened = []
    for kind, place, lexeme in tokens_of(text):
        if kind in "{[":
            opened.append(set())
        elif kind in "}]":
            opened.pop()
        elif kind == "name":
            if (name := json.loads(lexeme)) in opened[-1]:
                return place
            opened[-1].add(name)
    return None


def place_of(text, what):
    """Returns the place of what is wrong with a text, or None."""
    if what == NO_JSON:
        return bad_place(text)
    if what == TWICE:
        return second_name_place(text)
    if what == WIDE:
        return next(
            place
            for _, place, lexeme in tokens_of(text)
            if NUMBER.fullmatch(lexeme) and is_wide(lexeme)
        )
    return next(tokens_of(text))[1] if what == NO_OBJECT else None


def fault_text(number, line, what):
    """Returns what is said of a line that is no document, with the column of its fault in
    characters."""
    try:
        place = place_of(line.decode(), what)
    except UnicodeDecodeError as error:
        place = len(line[: error.start].decode())
    return (
        f"line {number}: {what}" if place is None else f"line {number}, column {place + 1}: {what}"
    )


MOST_NAMES, MOST_BYTES = 12, 60


def cut_name(name):
    """Returns a name in quotes, cut if it is long."""
    start = name.encode()[:MOST_BYTES].decode(errors="ignore")
    return table_reports.in_quotes(start) + (".." if start != name else "")


def bytes_apart(one, other):
    """Returns how many bytes of the longer of two names are not in the beginning and the end that
    both have in common, their case aside, and how many are."""
    one, other = (name.encode().lower().replace(b"_", b"-") for name in (one, other))
    start = len(os.path.commonprefix([one, other]))
    most = min(len(one), len(other)) - start
    end = len(os.path.commonprefix([one[::-1][:most], other[::-1][:most]]))
    return max(len(one), len(other)) - start - end, start + end


def distance(one, other):
    """Returns how far a name is from another one, or None where it is not near."""
    if one == other:
        return 0
    if one.encode().lower().replace(b"_", b"-") == other.encode().lower().replace(b"_", b"-"):
        return 1
    apart, common = bytes_apart(one, other)
    return apart + 1 if apart <= 2 <= common else None


def near_path(value, names):
    """Returns the names of a part of a value that are the nearest to these, or None."""
    if not names:
        return []
    if not isinstance(value, Object):
        return None
    near = [(distance(name, names[0]), at) for at, (name, _) in enumerate(value.members)]
    near = sorted(it for it in near if it[0] is not None)
    if not near:
        return None
    name, child = value.members[near[0][1]]
    if not all(re.fullmatch(r"[A-Za-z0-9_-]+", it) for it in (name, names[0])):
        return None
    rest = near_path(child, names[1:])
    return None if rest is None else [name, *rest]


def members_hint(line, key):
    """Returns the hint after what is said of a key that a document lacks."""
    document = tree_of(line)[0]
    names = [name for name, _ in document.members]
    if not names:
        return ""
    more = f" and {len(names) - MOST_NAMES} more" if len(names) > MOST_NAMES else ""
    listed = f"has {', '.join(map(cut_name, names[:MOST_NAMES]))}{more}"
    dotted = key.removeprefix("$").removeprefix("/").replace("/", ".")
    near = near_path(document, dotted.removeprefix(".").split("."))
    if near is None and (key.startswith("$") or "/" in key):
        return f": paths are written as order.id or items[0].sku, and the document {listed}"
    if near is None:
        return f": the document {listed}"
    return f": did you mean {table_reports.in_quotes('.'.join(near))}? The document {listed}"


# what other formats have where JSON has a value, each with its hint
STARTS = {
    "NaN": "JSON has no NaN",
    "Infinity": "JSON has no Infinity",
    "-Infinity": "JSON has no -Infinity",
    "True": "JSON has true, not True",
    "False": "JSON has false, not False",
    "None": "JSON has null, not None",
    "undefined": "JSON has null, not undefined",
    "'": "JSON has double quotes, not single ones",
    "#": "JSON has no comments",
    "//": "JSON has no comments",
    "/*": "JSON has no comments",
}

# and beginnings of numbers of other formats
NUMBERS = {
    "-?0[0-9]": "JSON has no zero before other digits of a number",
    r"\+[0-9.]": "JSON has no + before a number",
    r"-?\.[0-9]": "JSON has a digit before the point, as 0.5",
}
MOST_DEEP = 128


def slip_of(before, rest):
    """Returns the hint at a slip between two parts of a line, or an empty text."""
    if before[-1:] in ("{", ",") and re.match(r"[A-Za-z0-9_]+[ \t\r]*:", rest):
        return ": a name stands in double quotes"
    value, is_json = tree_of(before.encode()) if before.endswith("}") else (None, False)
    if is_json and isinstance(value, Object):
        return ": the document ends before this, and each has a line of its own"
    if before.endswith(",") and rest[:1] in ("}", "]"):
        return ": no comma may stand before } or ]"
    if re.fullmatch(r'"(?:\\.|[^"\\])*\\?', rest, re.S):
        return ": the string never ends"
    if not rest:
        return ": the line ends before the document does"
    is_value = before.endswith((":", "[", ",")) and rest.startswith(("[", "{"))
    bare = re.sub(r'"(?:\\.|[^"\\])*"', "", before)
    if is_value and len(re.findall(r"[\[{]", bare)) - len(re.findall(r"[\]}]", bare)) == MOST_DEEP:
        return ": documents nest at most 128 deep"
    for number, hint in NUMBERS.items():
        if re.match(number, rest):
            return f": {hint}"
    return next((f": {hint}" for start, hint in STARTS.items() if rest.startswith(start)), "")


def hint_of(number, line, what):
    """Returns the hint after what is said of a line that is no document, or an empty text. It is
    said of files that can be read once more."""
    try:
        text = line.decode()
    except UnicodeDecodeError:
        return (
            ": the line is not UTF-8: convert the file, as in <(iconv -f LATIN1 -t UTF-8 FILE)"
        )
    if what.endswith(" is missing") and isinstance(tree_of(line)[0], Object):
        key = what.removeprefix("the key ").removesuffix(" is missing")[1:-1]
        return members_hint(line, key)
    if what not in (NO_JSON, NO_OBJECT):
        return ""
    bare = text.strip(" \t\r")
    if number == 1 and text[:1] == "\ufeff":
        return ": the file begins with a byte order mark: remove it, as tail -c +4 does"
    if number == 1 and bare[:1] == "[":
        return ": the file begins with a list: jq -c '.[]' makes a line of each item"
    if number == 1 and bare == "{":
        return ": the file has documents of many lines: jq -c . makes a line of each"
    if not bare:
        return ": the line is empty: remove it, as grep . does"
    place = place_of(text, what)
    return slip_of(text[:place].rstrip(" \t\r"), text[place:])


# ---- reading


def faults_of(value, keys):
    """Returns what may be said of a value that is no document with these keys."""
    said = [] if isinstance(value, Object) else [NO_OBJECT]
    held = [part for part, _ in parts(value)]
    if any(
        len(dict(part.members)) < len(part.members) for part in held if isinstance(part, Object)
    ):
        said.append(TWICE)
    if any(is_wide(part.text) for part in held if isinstance(part, Number)):
        said.append(WIDE)
    return said + [
        f"the key {table_reports.in_quotes(key)} is missing"
        for key in keys
        if part_at(value, steps_of(key)) is MISSING
    ]


def documents_of(content, options, is_read_again=True):
    """Returns the documents of a file. Raises a Fault of the first line that is none, where none is
    passed over."""
    lines = content.split(b"\n")
    documents, keys = Documents(), [] if options["null_keys"] else options["keys"]
    for number, line in enumerate(lines if lines[-1] else lines[:-1], 1):
        value, is_json = tree_of(line)
        said = faults_of(value, keys) if is_json else [NO_JSON]
        if said and not options.get("skip_bad"):
            hints = [hint_of(number, line, what) if is_read_again else "" for what in said]
            raise Fault(*(fault_text(number, line, what) + hint for what, hint in zip(said, hints)))
        if said:
            documents.skipped.append(number)
        else:
            documents.append(value)
            documents.numbers.append(number)
    return documents


def keys_of(documents, options, string=string_text):
    """Returns the key of each document, as normal texts."""
    paths = [steps_of(key) for key in options["keys"]]
    return [tuple(key_text(part_at(it, path), string) for path in paths) for it in documents]


def key_text(part, string=string_text):
    """Returns the normal text of a part of a key, which is null where there is none."""
    return compact(normal(None if part is MISSING else part), string)


def printed_key(cell):
    """Returns what is printed of a part of a key with this normal text: a number has no exponent,
    unless that of its normal text is above 20 or below -20."""
    if not NUMBER.fullmatch(cell) or abs(number_parts(cell)[2]) > MOST_TENS:
        return cell
    return f"{decimal.Decimal(cell):f}"


# ---- tolerances


def squeezed(terms):
    """Returns whole numbers that compare and add up as these signed digits with their exponents do.

    Where no number has a digit for long, fewer places without one do as well.
    """
    placed = {}
    low, top = None, None
    for tens, digits in sorted({(tens, digits) for _, digits, tens in terms}):
        if low is None:
            low, top, moved = 0, 0, tens
        elif tens - moved > top + 40:
            moved = tens - top - 40
        placed[tens] = tens - moved
        top = max(top, placed[tens] + len(str(digits)))
    return [sign * digits * 10 ** placed[tens] for sign, digits, tens in terms]


def signed(text):
    """Returns a number's sign, its digits as a whole number, and its exponent."""
    sign, digits, tens = number_parts(text)
    return -1 if sign else 1, int(digits), tens


def is_close(left, right, bound, relative):
    """Returns whether two numbers lie at most a bound apart, or at most that part of the larger
    one."""
    own, other, (_, times, tens) = signed(left), signed(right), signed(bound)
    rooms = (
        [(1, times * digits, tens + up) for _, digits, up in (own, other)]
        if relative
        else [(1, times, tens)]
    )
    for room in rooms:
        first, second, most = squeezed([own, other, room])
        if abs(first - second) <= most:
            return True
    return False


# ---- rules


def agrees(pattern, path):
    """Returns whether a pattern and a path lead the same way as far as both go."""
    return all(
        isinstance(step, int) if own is ANY else type(own) is type(step) and own == step
        for own, step in zip(pattern, path)
    )


def is_within(path, words):
    """Returns whether a path leads to a part that one of some words names, or into one."""
    return any(
        len(pattern) <= len(path) and agrees(pattern, path) for pattern in map(steps_of, words)
    )


def is_around(path, words):
    """Returns whether a path leads to a part in which one of some words names others."""
    return any(
        len(pattern) > len(path) and agrees(pattern, path) for pattern in map(steps_of, words)
    )


def is_tolerated(change, tolerances):
    """Returns whether one of some tolerances allows a difference: words of paths with their
    bounds."""
    if not all(isinstance(part, Number) for part in (change.left, change.right)):
        return False
    return any(
        is_within(change.path, [word])
        and is_close(change.left.text, change.right.text, bound, relative)
        for word, bound, relative in tolerances
    )


def is_told(change, options):
    """Returns whether the rules among the options tell a difference."""
    if options.get("missing_is_null") and all(
        part is MISSING or part is None for part in (change.left, change.right)
    ):
        return False
    if is_within(change.path, options.get("ignored", ())) or is_tolerated(
        change, options.get("tolerances", ())
    ):
        return False
    only = options.get("only", ())
    return not only or is_within(change.path, only) or is_around(change.path, only)


# ---- comparing


def changes_between(left, right, path=()):
    """Makes the smallest parts that differ."""
    if isinstance(left, Object) and isinstance(right, Object):
        others, names = dict(right.members), {name for name, _ in left.members}
        pairs = [(name, value, others.get(name, MISSING)) for name, value in left.members]
        pairs += [(name, MISSING, value) for name, value in right.members if name not in names]
    elif isinstance(left, list) and isinstance(right, list):
        pairs = [
            (i, *(side[i] if i < len(side) else MISSING for side in (left, right)))
            for i in range(max(len(left), len(right)))
        ]
    else:
        if part_text(left) != part_text(right):
            yield Change(path, left, right)
        return
    for step, before, after in pairs:
        yield from changes_between(before, after, (*path, step))


def rows_compared(sides, options):
    """Returns the partners among the documents of both sides, and the right ones that have none."""
    if options["keys"]:
        return table_reports.partners(*(keys_of(side, options) for side in sides))
    left, right = map(len, sides)
    return [(i, i if i < right else None) for i in range(left)], list(range(left, right))


def comparison_of(sides, options):
    """Compares the documents of two files."""
    pairs, added = rows_compared(sides, options)
    removed = [i for i, j in pairs if j is None]
    matched = [
        (i, j, [it for it in changes_between(sides[0][i], sides[1][j]) if is_told(it, options)])
        for i, j in pairs
        if j is not None
    ]
    changed = [it for it in matched if it[2]]
    return Comparison(changed, removed, added, len(matched) - len(changed))


def status_of(found):
    """Returns the status that a comparison ends with."""
    return 1 if found.changed or found.removed or found.added else 0


# ---- the reports


def word(text):
    """Returns a name or a file as the report tells it, as bytes."""
    return table_reports.word(random_tables.as_bytes(text)).encode("latin-1")


def text_report(sides, found, options):
    """Returns the report that the program has to print as lines to read."""
    files = [word(file) for file in named_files(options)]
    keys = [keys_of(side, options) for side in sides]
    names = [word(key) for key in options["keys"]]

    def row_text(side, i):
        cells = (
            b"%s=%s" % (name, printed_key(cell).encode())
            for name, cell in zip(names, keys[side][i])
        )
        return b",".join(cells) or b"row %d" % (i + 1)

    def painted(color, text):
        return b"\x1b[%dm%s\x1b[0m" % (color, text) if options["colored"] else text

    def side_text(color, part):
        return painted(color, b"missing" if part is MISSING else compact(part).encode())

    def change_text(change):
        left, right = side_text(table_reports.RED, change.left), side_text(
            table_reports.GREEN, change.right
        )
        return b"%s %s -> %s" % (shown(path_text(change.path)).encode(), left, right)

    def alone_text(color, mark, side, i):
        return painted(
            color,
            b"%s %s  %s line %d" % (mark, row_text(side, i), files[side], sides[side].numbers[i]),
        )

    def skipped_text(side):
        first, *others = sides[side].skipped
        if others:
            return b"Skipped %d lines of %s (the first is line %d)." % (
                1 + len(others),
                files[side],
                first,
            )
        return b"Skipped 1 line of %s (line %d)." % (files[side], first)

    lines = [
        painted(table_reports.YELLOW, b"~ " + row_text(0, i))
        + b"  "
        + b", ".join(map(change_text, changes))
        for i, _, changes in found.changed
    ]
    lines += [alone_text(table_reports.RED, b"-", 0, i) for i in found.removed]
    lines += [alone_text(table_reports.GREEN, b"+", 1, j) for j in found.added]
    lines, rest = table_reports.shown(lines, options)
    lines += [b".. and %d more" % rest] * (rest > 0 and not options.get("summary"))
    lines.append(b"%d changed, %d removed, %d added, %d the same." % counts_of(found))
    lines += [skipped_text(side) for side in range(2) if sides[side].skipped]
    return b"".join(line + b"\n" for line in lines)


def counts_of(found):
    """Returns the counts of a comparison."""
    return len(found.changed), len(found.removed), len(found.added), found.same


def numbered(*pairs):
    """Returns an object whose counts are numbers."""
    return Object(
        tuple((name, Number(str(it)) if isinstance(it, int) else it) for name, it in pairs)
    )


def json_objects(sides, found, options):
    """Returns the objects of the lines that the program has to print."""

    def key(side, i):
        cells = keys_of([sides[side][i]], options)[0]
        return Object(
            tuple(
                (name, parsed(printed_key(cell))) for name, cell in zip(options["keys"], cells)
            )
        )

    def change(it):
        told = [
            (name, part)
            for name, part in (("left", it.left), ("right", it.right))
            if part is not MISSING
        ]
        return Object((("path", path_text(it.path)), *told))

    left, right = (side.numbers for side in sides)
    objects = [
        numbered(
            ("kind", "changed"),
            ("key", key(0, i)),
            ("left_line", left[i]),
            ("right_line", right[j]),
            ("changes", [change(it) for it in changes]),
        )
        for i, j, changes in found.changed
    ]
    objects += [
        numbered(("kind", "removed"), ("key", key(0, i)), ("line", left[i])) for i in found.removed
    ]
    objects += [
        numbered(("kind", "added"), ("key", key(1, j)), ("line", right[j])) for j in found.added
    ]
    objects, rest = table_reports.shown(objects, options)
    skipped = zip(("left_skipped", "right_skipped"), (len(side.skipped) for side in sides))
    return [
        *objects,
        numbered(
            ("kind", "counts"),
            *zip(("changed", "removed", "added", "same"), counts_of(found)),
            ("not_shown", rest),
            *(skipped if options.get("skip_bad") else ()),
        ),
    ]


def objects_of(printed):
    """Returns the objects of JSON lines. A line may have no blank outside of strings, and no
    control character."""
    text = printed.decode()
    if not text.endswith("\n"):
        raise ValueError("no end of the last line")
    lines = text.removesuffix("\n").split("\n")
    for line in lines:
        if re.search(r"[\0-\x1f\x7f-\x9f]", line) or " " in re.sub(r'"(?:[^"\\]|\\.)*"', "", line):
            raise ValueError(f"a blank or a control character in {line!r}")
    return [parsed(line) for line in lines]


# ---- what a run has to do


def named_files(options):
    """Returns the names that the report has for the two files."""
    return ["-" if side == options["piped"] else file for side, file in enumerate(options["files"])]


def key_part(part):
    """Returns a part of a key as messages write it, or None of lists, objects and long numbers."""
    if part is MISSING or part is None or isinstance(part, bool):
        return "null" if part is MISSING else json.dumps(part)
    if isinstance(part, Number):
        return part.text if len(part.text) <= MOST_BYTES else None
    return cut_name(part) if isinstance(part, str) else None


def key_hint(file, document, options):
    """Returns the hint at a key that comes twice, for a file that can be read again."""
    shown = [key_part(part_at(document, steps_of(key))) for key in options["keys"]]
    return "" if file == "-" or None in shown else f": {', '.join(shown)}"


def key_fault(sides, options):
    """Returns what is said of the first document whose key an earlier one of its file has, or
    None."""
    for file, side in zip(named_files(options), sides):
        seen = {}
        for i, key in enumerate(keys_of(side, options)):
            first = seen.setdefault(key, i)
            if first < i:
                lines = f"lines {side.numbers[first]} and {side.numbers[i]}"
                hint = key_hint(file, side[first], options)
                return f"{file}: {lines} have the same key{hint}"
    return None


def faults_said(pair):
    """Returns all lines that may be said of a pair that can't be compared, and the documents of one
    that can."""
    said, sides = [], []
    for file, content in zip(named_files(pair.options), (pair.left_bytes, pair.right_bytes)):
        try:
            sides.append(documents_of(content, pair.options, file != "-"))
        except Fault as fault:
            said += [f"{file}: {what}" for what in fault.said]
    skipping = [
        file
        for file, side in zip(named_files(pair.options), sides)
        if side.skipped and not side.numbers
    ]
    if not said and skipping and not pair.options.get("partition"):
        said = [f"{skipping[0]}: --skip-bad would skip every line"]
    if not said and pair.options["unique"] and (twice := key_fault(sides, pair.options)):
        said = [twice]
    return said, sides


def wanted(pair):
    """Returns the status that a run over a pair has to end with, and its report, or what it may
    say."""
    only, content = pair.options.get("only", ()), b"\n".join((pair.left_bytes, pair.right_bytes))
    if only and set(only) <= set(pair.options.get("ignored", ())):
        return 2, ["nothing is left to compare: --ignore has all that --only has"]
    refused = refused_only(only, content)
    if refused and pair.options["piped"] is None:
        return 2, [refused.decode().removeprefix("dunkelva: ").rstrip("\n")]
    said, sides = faults_said(pair)
    if said:
        return 2, said
    found = comparison_of(sides, pair.options)
    report = (json_objects if pair.options["json"] else text_report)(sides, found, pair.options)
    return status_of(found), report


def has_part(value, pattern):
    """Returns whether a value has a part that a pattern names."""
    parts_here = [value]
    for step in pattern:
        if step is ANY:
            parts_here = [item for part in parts_here if isinstance(part, list) for item in part]
        else:
            inner = [part_at(part, [step]) for part in parts_here]
            parts_here = [part for part in inner if part is not MISSING]
    return bool(parts_here)


def warnings(sought, content, told="document"):
    """Returns the lines that a run which ends well says of paths of options at which no document of
    the files has a part. `sought` has options and paths. Lines that are no documents don't count."""
    trees = [tree_of(line) for line in content.split(b"\n")]
    documents = [tree for tree, is_json in trees if is_json and isinstance(tree, Object)]
    lacking = [
        (option, table_reports.in_quotes(path))
        for option, path in sought
        if documents and not any(has_part(it, steps_of(path)) for it in documents)
    ]
    return b"".join(
        f"dunkelva: warning: {option}: no {told} has a part at {quoted}\n".encode()
        for option, quoted in lacking
    )


def paths_sought(options):
    """Returns the options and paths for which a run over two files looks in documents."""
    tolerances = options.get("tolerances", ())
    return [
        *(("--only", path) for path in options.get("only", ())),
        *(("--ignore", path) for path in options.get("ignored", ())),
        *(("--tolerance", path) for path, _, relative in tolerances if not relative),
        *(("--relative-tolerance", path) for path, _, relative in tolerances if relative),
        *(("--key", path) for path in options["keys"] if options.get("null_keys")),
    ]


def repeats_warned(pair):
    """Returns the line that a run over two files which ends well says of a repeated key, if there
    is one."""
    _, sides = faults_said(pair)
    twice = pair.options["keys"] and not pair.options["unique"] and key_fault(sides, pair.options)
    return table_reports.repeat_warned(twice).encode() if twice else b""


def warned(pair):
    """Returns the lines that a run over a pair which ends well says of a repeated key and of paths
    that no document has. Of a pair with a standard input only paths of --only are looked for, in
    the other file."""
    contents, sought = (pair.left_bytes, pair.right_bytes), paths_sought(pair.options)
    piped = pair.options["piped"]
    if piped is None:
        return repeats_warned(pair) + warnings(sought, b"\n".join(contents))
    of_only = [it for it in sought if it[0] == "--only"]
    told = f"document of {pair.options['files'][1 - piped]}"
    lines = warnings(of_only, contents[1 - piped], told)
    return lines.replace(b"\n", b"; standard input was not looked at again\n")


def refused_only(only, content):
    """Returns the line that a run over two files with this content says if they have documents and
    none has a part at the first step of a path of --only, and else nothing."""
    trees = [tree_of(line) for line in content.split(b"\n")]
    documents = [tree for tree, is_json in trees if is_json and isinstance(tree, Object)]
    starts = [steps_of(path)[:1] for path in only]
    if not only or not documents or any(has_part(it, at) for it in documents for at in starts):
        return b""
    if len(only) > 1:
        return b"dunkelva: --only: no document has a part at one of these paths\n"
    quoted = table_reports.in_quotes(only[0])
    return f"dunkelva: --only: no document has a part at {quoted}\n".encode()


def is_right(ran, pair):
    """Returns whether a run over a pair did as it has to."""
    status, report = wanted(pair)
    if ran.status != status:
        return False
    if status == 2:
        return not ran.printed and ran.said in [f"dunkelva: {what}\n".encode() for what in report]
    try:
        printed = objects_of(ran.printed) if pair.options["json"] else ran.printed
    except (ValueError, RecursionError):
        return False
    return ran.said == warned(pair) and printed == report
