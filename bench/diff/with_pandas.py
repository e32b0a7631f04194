"""Compares two CSV files by key as users of pandas do. usage: with_pandas.py LEFT RIGHT KEY"""
import sys

import pandas


def main(left_file, right_file, key):
    """Joins the files by the key, and counts the rows that differ and the columns that do."""
    left, right = (
        pandas.read_csv(file, dtype=str, keep_default_na=False) for file in (left_file, right_file)
    )
    joined = left.merge(right, on=key, how="outer", suffixes=("", "_right"), indicator=True)
    both = joined[joined["_merge"] == "both"]
    differ = pandas.DataFrame(
        {name: both[name] != both[f"{name}_right"] for name in left.columns if name != key}
    )
    counts = joined["_merge"].value_counts()
    print(
        f"{differ.any(axis=1).sum()} changed, {counts['left_only']} removed, "
        f"{counts['right_only']} added"
    )
    print(differ.sum().to_dict())


if __name__ == "__main__":
    main(*sys.argv[1:])
