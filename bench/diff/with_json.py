"""Compares two files of JSON documents by key with a dict. Numbers become floats where they are no
integers.

usage: with_json.py LEFT RIGHT KEY [orjson]      (KEY is names with dots between them)
"""
import functools
import json
import sys


def main(left_file, right_file, key, module="json"):
    """Keeps the left documents by their keys, and goes over the right ones."""
    if module == "orjson":
        import orjson  # pylint: disable=import-outside-toplevel
    loads = orjson.loads if module == "orjson" else json.loads
    names = key.split(".")

    def documents(name):
        with open(name, "rb") as file:
            for line in file:
                document = loads(line)
                yield functools.reduce(dict.__getitem__, names, document), document

    left = dict(documents(left_file))
    changed = added = same = 0
    for name, document in documents(right_file):
        other = left.pop(name, None)
        if other is None:
            added += 1
        elif other != document:
            changed += 1
        else:
            same += 1
    print(f"{changed} changed, {len(left)} removed, {added} added, {same} the same")


if __name__ == "__main__":
    main(*sys.argv[1:])
