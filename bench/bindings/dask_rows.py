#!/usr/bin/python3
"""Times comparisons of Dask data frames beside Dask's own merge.

usage: dask_rows.py [ROWS] [PROCESSES]

Makes two data frames of ROWS rows (10,000,000) in 16 partitions on a local cluster of PROCESSES
processes (4) of one thread each: a key, a number with nulls, a category. The right one has another
order; one row in 1,000 is changed, one in 10,000 removed, one in 10,000 added. Each call runs
twice, by itself on the cluster. Prints the shorter time, the most memory of a process at any
moment, and what was found, which has to be the same. DUNKELVA_LIBRARY names the library where the
package is not installed.
"""
from __future__ import annotations

import logging
import pathlib
import resource
import sys
import time
from typing import Any, Callable, Dict, List, Tuple

import dask.dataframe as dd
import numpy as np
import pandas as pd
from dask.delayed import delayed
from distributed import Client, LocalCluster

PACKAGE = str(pathlib.Path(__file__).resolve().parents[2] / "bindings/python")
sys.path.insert(0, PACKAGE)

import dunkelva.dask  # noqa: E402

PARTS = 16
Found = Tuple[int, ...]


def rows_of(keys: Any, side: str) -> Any:
    """Returns the rows of keys: on the right one number in 1,000 is another."""
    numbers = keys * 7919 % 1_000_003
    if side == "right":
        numbers = numbers + (keys % 1000 == 5)
    return pd.DataFrame({
        "id": keys, "n": pd.arrays.IntegerArray(numbers, keys % 7 == 0),
        "kind": pd.Categorical.from_codes(keys % 3, ["a", "b", "c"])})


def part(side: str, number: int, rows: int) -> Any:
    """Makes a partition: the left one has the keys of a range, the right one scattered keys."""
    if side == "left":
        keys = np.arange(rows * number // PARTS, rows * (number + 1) // PARTS)
        return rows_of(keys[keys % 10_000 != 1], side)
    keys = np.arange(number, rows, PARTS)
    keys = keys[keys % 10_000 != 2]
    return rows_of(np.random.default_rng(number).permutation(keys), side)


def frame(side: str, rows: int) -> Any:
    """Makes a data frame on the workers."""
    parts = [delayed(part)(side, number, rows) for number in range(PARTS)]
    return dd.from_delayed(parts, meta=rows_of(np.arange(0), side), verify_meta=False)


def by_dunkelva(left: Any, right: Any) -> Found:
    """Compares two data frames by key with `dunkelva.dask.diff`."""
    found = dunkelva.dask.diff(left, right, on="id", limit=0)
    return found.same, found.changed, found.removed, found.added


def counts_of(both: Any) -> Any:
    """Counts what differs in rows that were joined: a null is the same as a null."""
    is_both = both["_merge"] == "both"
    same = both["kind_x"].astype(object) == both["kind_y"].astype(object)
    equal = (both["n_x"] == both["n_y"]).fillna(False).astype(bool)
    same &= equal | both["n_x"].isna() & both["n_y"].isna()
    return pd.DataFrame({
        "same": [int((is_both & same).sum())], "changed": [int((is_both & ~same).sum())],
        "removed": [int((both["_merge"] == "left_only").sum())],
        "added": [int((both["_merge"] == "right_only").sum())]})


def by_dask(left: Any, right: Any) -> Found:
    """Joins two data frames by Dask, and counts rows that differ."""
    both = left.merge(right, on="id", how="outer", indicator=True)
    meta = pd.DataFrame({name: [0] for name in ("same", "changed", "removed", "added")})
    counts = both.map_partitions(counts_of, meta=meta).compute().sum()
    return tuple(int(count) for count in counts)


def unique_by_dunkelva(left: Any, _: Any) -> Found:
    """Counts the distinct numbers of the left side by states of distinct values."""
    return (len(dunkelva.dask.unique(left["n"], 0, 1_000_003)),)


def unique_by_dask(left: Any, _: Any) -> Found:
    """Counts them by Dask. Neither call counts the null."""
    return (int(left["n"].nunique().compute()),)


def most_memory() -> int:
    """Returns the most memory that this process has had, in bytes."""
    return resource.getrusage(resource.RUSAGE_SELF).ru_maxrss * 1024


def run(call: Callable[[Any, Any], Found], rows: int, processes: int) -> Tuple[float, int, Found]:
    """Runs a call twice on a cluster of its own."""
    times: List[float] = []
    with LocalCluster(n_workers=processes, threads_per_worker=1, dashboard_address=None,
                      silence_logs=logging.ERROR,
                      env={"PYTHONPATH": PACKAGE}) as cluster, Client(cluster) as client:
        client.run(sys.path.insert, 0, PACKAGE)
        sides = [frame(side, rows) for side in ("left", "right")]
        for _ in range(2):
            start = time.perf_counter()
            found = call(*sides)
            times.append(time.perf_counter() - start)
        memory = max(client.run(most_memory).values())
    return min(times), memory, found


def main() -> None:
    """Times all calls, and prints a table."""
    rows, processes = [int(text) for text in sys.argv[1:]] + [10_000_000, 4][len(sys.argv) - 1:]
    calls: Dict[str, Callable[[Any, Any], Found]] = {
        "diff, dunkelva.dask": by_dunkelva, "diff, Dask's merge": by_dask,
        "unique, dunkelva.dask": unique_by_dunkelva, "unique, Dask's nunique": unique_by_dask}
    seen: Dict[str, Found] = {}
    for name, call in calls.items():
        seconds, memory, found = run(call, rows, processes)
        print(f"{name:24}{seconds:8.1f} s{memory / 2 ** 30:8.2f} GiB  {found}", flush=True)
        if seen.setdefault(name.split(",")[0], found) != found:
            sys.exit(f"{name}: the other call found {seen[name.split(',')[0]]}")


if __name__ == "__main__":
    main()
