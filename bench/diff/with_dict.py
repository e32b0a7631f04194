"""Compares two CSV files by key with a dict. usage: with_dict.py LEFT RIGHT KEY"""
import collections
import csv
import sys


def main(left_file, right_file, key):
    """Keeps the left rows by their keys, and goes over the right ones."""
    with open(left_file, newline="", encoding="utf-8") as file:
        left = {row[key]: row for row in csv.DictReader(file)}
    changed, added, counts = 0, 0, collections.Counter()
    with open(right_file, newline="", encoding="utf-8") as file:
        for row in csv.DictReader(file):
            other = left.pop(row[key], None)
            if other is None:
                added += 1
            elif other != row:
                changed += 1
                counts.update(name for name in row if row[name] != other[name])
    print(f"{changed} changed, {len(left)} removed, {added} added")
    print(dict(counts))


if __name__ == "__main__":
    main(*sys.argv[1:])
