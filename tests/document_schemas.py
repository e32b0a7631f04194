"""Random files of JSON documents, and what `dunkelva schema` has to say of each, and `dunkelva diff
--schema-only` of two.

The documents are those of `random_documents.py`, and of forms whose paths come often. What stands
at each path is found here from the trees that Python's `json` module reads. Half the pairs of files
are read with `--skip-bad`.
"""
import collections
import json
import pathlib

import document_reports
import random_documents
import runs
from document_reports import Number, Object

HEADER = (
    "path",
    "null",
    "missing",
    "truth value",
    "text",
    "object",
    "array",
    "number",
    "distinct",
    "least",
    "greatest",
)
NUMBERS = ("7", "7.0", "70e-1", "0", "-0", "-0.0", "12.50", "1e400", "-1e-400", "1E+2", "100")
KINDS = ("null", "truth value", "number", "text", "object", "array")
FILES = "file.ndjson", "other.ndjson"

# Two files, and whether lines that are no documents are passed over.
Pair = collections.namedtuple("Pair", "contents skip_bad")


# ---- files


def made_part(chance):
    """Makes a value of a form whose paths come often."""
    way = chance.random()
    if way < 0.5:
        return Number(chance.choice(NUMBERS))
    if way < 0.8:
        return chance.choice((None, True, False, "a", "7", "", [], Object(())))
    if way < 0.9:
        return [made_part(chance) for _ in range(chance.randrange(4))]
    names = chance.sample(("price", "n", "a.b"), chance.randrange(4))
    return Object(tuple((name, made_part(chance)) for name in names))


def made_value(chance):
    """Makes a document."""
    if chance.random() < 0.4:
        return random_documents.made_document([], [], chance)
    names = chance.sample(("id", "items", "order", "tags", "x y"), chance.randrange(6))
    return Object(tuple((name, made_part(chance)) for name in names))


def written_line(value, chance):
    """Returns a document as a line, whose numbers are in any notation or as they stand."""
    if chance.random() < 0.5:
        return random_documents.line_of(value, chance)
    return document_reports.compact(value, document_reports.stored_text).encode()


def made_content(values, chance, skip_bad):
    """Returns the bytes of a file of these documents, and of some lines that are none."""
    lines = [written_line(value, chance) for value in values]
    most = chance.choice((0, 1, 2, 4)) if skip_bad else chance.random() < 0.1
    for _ in range(most):
        lines.insert(
            chance.randrange(len(lines) + 1), chance.choice(random_documents.BAD_LINES)
        )
    return random_documents.file_of(lines, chance)


def made_pair(chance):
    """Makes two files. Most documents of the second one are those of the first one."""
    skip_bad = chance.random() < 0.5
    values = [made_value(chance) for _ in range(chance.choice((0, 1, 2, 3, 8, 40)))]
    kept = chance.choice((0, 0.5, 0.9, 1))
    others = [it for it in values if chance.random() < kept]
    others += [made_value(chance) for _ in range(chance.choice((0, 0, 1, 3)))]
    chance.shuffle(others)
    contents = [made_content(it, chance, skip_bad) for it in (values, others)]
    return Pair(contents, skip_bad)


# ---- the account


def parts_of(value, path=""):
    """Makes the parts of a value, each with the text of the path to it."""
    if isinstance(value, list):
        for item in value:
            yield f"{path}[]", item
            yield from parts_of(item, f"{path}[]")
    if isinstance(value, Object):
        for name, part in value.members:
            step = document_reports.path_text(["x", name])[1:]
            below = path + step if path or step.startswith('."') else name
            yield below, part
            yield from parts_of(part, below)


def extremes(texts):
    """Returns how many numbers differ, and the first texts of the least and of the greatest."""
    worth = document_reports.squeezed([document_reports.signed(text) for text in texts])
    if not texts:
        return 0, None, None
    return len(set(worth)), texts[worth.index(min(worth))], texts[worth.index(max(worth))]


def schema_of(path, values, documents, missing):
    """Returns the schema of a path, as its JSON object."""
    distinct, least, greatest = extremes([it.text for it in values if isinstance(it, Number)])
    return {
        "path": path,
        "documents": documents,
        "null": sum(it is None for it in values),
        "missing": missing,
        "truth_value": sum(isinstance(it, bool) for it in values),
        "text": sum(isinstance(it, str) for it in values),
        "object": sum(isinstance(it, Object) for it in values),
        "array": sum(isinstance(it, list) for it in values),
        "number": sum(isinstance(it, Number) for it in values),
        "distinct": distinct,
        "least": least,
        "greatest": greatest,
    }


def schemas_of(documents):
    """Returns the schemas of the paths of documents, in the order in which the paths first come."""
    values, having = {}, {}
    for number, document in enumerate(documents):
        for path, part in parts_of(document):
            values.setdefault(path, []).append(part)
            having.setdefault(path, set()).add(number)
    count = len(documents)
    return [schema_of(path, values[path], count, count - len(having[path])) for path in values]


def kinds_at(schema):
    """Returns the words for the kinds of the values at a path."""
    return [word for word in KINDS if schema[word.replace(" ", "_")]]


def changes_of(left, right):
    """Returns what the schemas of the paths of two files differ in, as JSON objects, and the
    counts."""
    before, after = ({it["path"]: kinds_at(it) for it in side} for side in (left, right))
    found = []
    for path, kinds in before.items():
        if path not in after:
            found.append({"kind": "path", "path": path, "only_in": "left"})
        elif kinds != after[path]:
            found.append({"kind": "type", "path": path, "left": kinds, "right": after[path]})
    added = [path for path in after if path not in before]
    found += [{"kind": "path", "path": path, "only_in": "right"} for path in added]
    removed = sum(path not in after for path in before)
    changed = len(found) - removed - len(added)
    counts = dict(changed=changed, removed=removed, added=len(added))
    return found, {**counts, "same": len(before) - removed - changed}


def change_line(change):
    """Returns the line of a difference between two schemas."""
    path = document_reports.shown(change["path"])
    if change["kind"] == "type":
        return f"~ path {path}  {', '.join(change['left'])} -> {', '.join(change['right'])}"
    return f"! path {path} only in {FILES[change['only_in'] == 'right']}"


def skipped_line(file, numbers):
    """Returns the line that says how many lines of a file are passed over."""
    if len(numbers) == 1:
        return f"Skipped 1 line of {file} (line {numbers[0]})."
    return f"Skipped {len(numbers)} lines of {file} (the first is line {numbers[0]})."


# ---- runs


def text_complaint(text, schemas, documents):
    """Returns what is wrong with the text of schemas, or None."""
    if any(ord(it) < 32 and it != "\n" or 127 <= ord(it) < 160 for it in text):
        return "a control character"
    nouns = (len(documents), "document"), (len(schemas), "path")
    counts = ", ".join(f"1 {noun}" if n == 1 else f"{n} {noun}s" for n, noun in nouns)
    head, names, *lines = text.split("\n")[:-1]
    if documents.skipped and lines.pop() != skipped_line(FILES[0], documents.skipped):
        return "another count of lines that are skipped"
    if head != f"{FILES[0]}: {counts}" or len(lines) != len(schemas):
        return "another head"
    starts, from_ = [], 0
    for name in HEADER:
        from_ = names.index(name, from_)
        starts.append(from_)
    for line, it in zip(lines, schemas):
        shown = [line[a:b].rstrip() for a, b in zip(starts, [*starts[1:], None])]
        members = [it[name.replace(" ", "_")] for name in HEADER]
        if not it["number"]:
            members[HEADER.index("distinct")] = None
        if shown[1:] != ["-" if it is None else str(it) for it in members[1:]]:
            return f"another line: {line!r}"
        if shown[0] != document_reports.shown(it["path"]):
            return f"another path: {line!r}"
        if any(line[start - 2 : start].strip() for start in starts[1:]):
            return f"columns that are not aligned: {line!r}"
    return None


def objects_in(printed):
    """Returns the objects of JSON lines, each as its members in order."""
    return [list(json.loads(it).items()) for it in printed.decode().split("\n")[:-1]]


def documents_in(pair, side):
    """Returns the documents of a file. Raises a Fault where it can't be read."""
    options = {"keys": [], "null_keys": False, "skip_bad": pair.skip_bad}
    documents = document_reports.documents_of(pair.contents[side], options)
    if documents.skipped and not documents:
        raise document_reports.Fault("--skip-bad would skip every line")
    return documents


def run_complaint(command, folder, status, objects):
    """Returns what is wrong with the JSON lines that a command prints, or None."""
    ran = runs.run([*command, "--format", "json"], None, folder)
    wanted = [list(it.items()) for it in objects]
    if ran.status == status and not ran.said and objects_in(ran.printed) == wanted:
        return None
    return f"{runs.ending(ran)} {ran.said!r}\n{ran.printed.decode()}wanted {wanted}"


def fault_complaint(command, folder, file, fault):
    """Returns what is wrong with what a command says of a file that can't be read, or None."""
    ran = runs.run(command, None, folder)
    wanted = [f"dunkelva: {file}: {said}\n".encode() for said in fault.said]
    if ran.status == 2 and not ran.printed and ran.said in wanted:
        return None
    return f"{runs.ending(ran)} {ran.said!r}\nwanted one of {wanted}"


def schema_complaint(program, folder, pair):
    """Returns what is wrong with what the program says of the first of two files, or None."""
    command = [program, "schema", FILES[0], *["--skip-bad"] * pair.skip_bad]
    try:
        documents = documents_in(pair, 0)
    except document_reports.Fault as fault:
        return fault_complaint(command, folder, FILES[0], fault)
    wanted = schemas_of(documents)
    objects = wanted
    if pair.skip_bad:
        objects = [with_skipped(it, len(documents.skipped)) for it in wanted]
    if wrong := run_complaint(command, folder, 0, objects):
        return wrong
    ran = runs.run(command, None, folder)
    if ran.status != 0 or ran.said:
        return f"text: {runs.ending(ran)} {ran.said!r}"
    wrong = text_complaint(ran.printed.decode(), wanted, documents)
    return wrong and f"{wrong}\n{ran.printed.decode()}"


def with_skipped(schema, count):
    """Returns the object of a path with the number of lines that are passed over."""
    members = list(schema.items())
    return dict([*members[:2], ("skipped", count), *members[2:]])


def change_complaint(program, folder, pair):
    """Returns what is wrong with what the program says of two files, or None."""
    command = [program, "diff", "--schema-only", *FILES, *["--skip-bad"] * pair.skip_bad]
    sides = []
    for side, file in enumerate(FILES):
        try:
            sides.append(documents_in(pair, side))
        except document_reports.Fault as fault:
            return fault_complaint(command, folder, file, fault)
    found, counts = changes_of(*map(schemas_of, sides))
    status = int(bool(found))
    skipped = zip(("left_skipped", "right_skipped"), (len(side.skipped) for side in sides))
    last = {"kind": "counts", **counts, **(dict(skipped) if pair.skip_bad else {})}
    if wrong := run_complaint(command, folder, status, [*found, last]):
        return wrong
    lines = [*map(change_line, found)]
    total = ", ".join(f"{n} {way}" for way, n in counts.items())
    lines.append(total.replace(" same", " the same."))
    lines += [skipped_line(file, it.skipped) for file, it in zip(FILES, sides) if it.skipped]
    ran = runs.run(command, None, folder)
    text = "".join(line + "\n" for line in lines)
    if ran.status == status and not ran.said and ran.printed.decode() == text:
        return None
    return f"text: {runs.ending(ran)} {ran.said!r}\n{ran.printed.decode()}wanted {text}"


def complaint_of(program, folder, pair):
    """Returns what is wrong with what the program says of two files, or None."""
    for file, content in zip(FILES, pair.contents):
        (pathlib.Path(folder) / file).write_bytes(content)
    return schema_complaint(program, folder, pair) or change_complaint(program, folder, pair)
