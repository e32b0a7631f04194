#!/usr/bin/env python3
"""Joins the reports of all parts of two files, as JSON lines, to the report of the whole.

usage: join_parts.py LEFT RIGHT REPORT.. [-- OPTION..]

LEFT and RIGHT are the files, and an option is one that the parts were compared with. Of CSV the
first record of LEFT says in which order the columns are. A report is a file of what `dunkelva diff
LEFT RIGHT --partition I/N --format json --limit 0 OPTION..` printed, and all N of them are needed,
the first part's first. Prints what a run without `--partition` prints. Where `--skip-bad` skipped
every line of a file, that is said on standard error, as by such a run, and the status is 2.

Differences stand in the order of the whole: changed rows by their left row, then removed ones, then
added ones by their row; documents by their lines. Each report has this order, so that no more than
a line of each is in memory. Counts are added up, but for those of lines that are passed over, which
each part has.
"""
import csv
import heapq
import json
import os
import re
import sys

RANKS = {b"column": 0, b"changed": 1, b"removed": 2, b"added": 3, b"counts": 4}
KIND = re.compile(rb'\{"kind":"(\w+)"')
# cells and keys are texts or null, so that no other member with such a name is a number
ROW = re.compile(rb'"(?:left_)?row":([0-9]+)')
COUNTS = re.compile(
    rb'\{"kind":"counts","changed":(\d+),"removed":(\d+),"added":(\d+),"same":(\d+),'
    rb'"not_shown":(\d+),?(?:"columns":\{(.*)\})?'
    rb'("left_skipped":\d+,"right_skipped":\d+)?\}\n'
)
SKIPPED = re.compile(rb'"left_skipped":(\d+),"right_skipped":(\d+)')
COLUMN = re.compile(rb'("(?:[^"\\]|\\.)*"):(\d+)')


def place_of(line):
    """Returns what lines are ordered by: their kind, and the number of their row."""
    kind = KIND.match(line)[1]
    return (
        RANKS[kind],
        int(ROW.search(line)[1]) if kind in (b"changed", b"removed", b"added") else 0,
    )


def document_place_of(line):
    """Returns the same of documents, whose keys may be objects with members of any name."""
    kind = KIND.match(line)[1]
    if kind == b"counts":
        return RANKS[kind], 0
    told = json.loads(line, parse_int=str, parse_float=str)
    return RANKS[kind], int(told.get("left_line") or told["line"])


def option_of(options, name):
    """Returns what stands after an option, if it is given."""
    for at, word in enumerate(options):
        if word == name:
            return options[at + 1]
        if word.startswith(name + "="):
            return word.removeprefix(name + "=")
    return None


def hold_documents(left, options):
    """Returns whether the files hold JSON documents, by the option or the name of the left one."""
    given = option_of(options, "--input")
    return left.endswith((".ndjson", ".jsonl")) if given is None else given == "ndjson"


def names_of(left, options):
    """Returns the names of the columns of a file as JSON has them, or None where they are
    numbers."""
    if "--no-header" in options:
        return None
    given = option_of(options, "--delimiter")
    delimiter = {None: "\t" if left.endswith(".tsv") else ",", "\\t": "\t"}.get(given, given)
    with open(left, newline="", encoding="latin-1") as file:
        if file.read(3) != "\xef\xbb\xbf":
            file.seek(0)
        first = next((fields for fields in csv.reader(file, delimiter=delimiter) if fields), [])
    return [name.encode("latin-1").decode("utf-8", "replace") for name in first]


def counts_of(lines, names):
    """Returns the line with the counts of the whole, by those of the parts."""
    totals, columns = [0] * 5, {}
    for line in lines:
        found = COUNTS.fullmatch(line)
        totals = [total + int(count) for total, count in zip(totals, found.groups())]
        for name, count in COLUMN.findall(found[6] or b""):
            columns[name] = columns.get(name, 0) + int(count)
    counts = (
        b'{"kind":"counts","changed":%d,"removed":%d,"added":%d,"same":%d,"not_shown":%d'
        % tuple(totals)
    )
    if found[6] is None:
        return counts + (b"," + found[7] if found[7] else b"") + b"}\n"

    def order(name):
        text = json.loads(name)
        return int(text) if names is None else names.index(text)

    texts = b",".join(name + b":%d" % columns[name] for name in sorted(columns, key=order))
    return counts + b',"columns":{' + texts + b"}}\n"


def without_columns(report, number):
    """Makes the lines of a report, but of the first one alone those of columns that one file has
    alone."""
    return (line for line in report if number == 0 or KIND.match(line)[1] != b"column")


def joined(reports, left, options):
    """Makes the lines of the whole, by the lines of the parts' reports."""
    is_documents = hold_documents(left, options)
    names = None if is_documents else names_of(left, options)
    place, counts = document_place_of if is_documents else place_of, []
    for line in heapq.merge(*(without_columns(it, n) for n, it in enumerate(reports)), key=place):
        if KIND.match(line)[1] == b"counts":
            counts.append(line)
        else:
            yield line
    yield counts_of(counts, names)


def last_line(report):
    """Returns the last line of a file with a report."""
    size, length = report.seek(0, os.SEEK_END), 1 << 12
    while True:
        report.seek(max(size - length, 0))
        lines = report.read().splitlines(True)
        if len(lines) > 1 or length >= size:
            report.seek(0)
            return lines[-1]
        length *= 2


def refusal_of(names, lines):
    """Returns what is said where every line of a file was skipped, or None, by the names of both
    files and the lines with the counts of all parts."""
    counts = [[int(count) for count in COUNTS.fullmatch(line).groups()[:4]] for line in lines]
    kept = [
        sum(changed + removed + same for changed, removed, _, same in counts),
        sum(changed + added + same for changed, _, added, same in counts),
    ]
    skipped = SKIPPED.search(lines[0])
    for side, name in enumerate(names):
        if skipped and int(skipped[side + 1]) and not kept[side]:
            return f"dunkelva: {name}: --skip-bad would skip every line"
    return None


def main(words):
    """Prints the report of the whole. Returns the status 2 where there is none, and else 0."""
    end = words.index("--") if "--" in words else len(words)
    names, reports, options = words[:2], words[2:end], words[end + 1 :]
    files = [open(report, "rb") for report in reports]
    if refusal := refusal_of(names, [last_line(file) for file in files]):
        print(refusal, file=sys.stderr)
        return 2
    sys.stdout.buffer.writelines(joined(files, names[0], options))
    return 0


if __name__ == "__main__":
    sys.exit(main(sys.argv[1:]))
