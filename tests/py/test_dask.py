"""Data frames of Dask: threads, and two processes on this machine."""
from __future__ import annotations

import random
from typing import Any, Iterator

import dask.dataframe as dd
import numpy as np
import pandas as pd
import pytest
from dask.distributed import Client, LocalCluster

import dunkelva
import dunkelva.dask


def table(rows: int, seed: int = 1) -> Any:
    """Makes a table of columns of several types."""
    rng = np.random.default_rng(seed)
    made = pd.DataFrame({
        "id": np.arange(rows), "half": [f"k{number // 2}" for number in range(rows)],
        "kind": pd.Categorical(rng.integers(0, 5, rows).astype(str)),
        "amount": pd.array(rng.integers(0, 9, rows), dtype="Int32"),
        "when": pd.Timestamp("2024-01-01") + pd.to_timedelta(rng.integers(0, 10 ** 6, rows), "s")})
    made.loc[::7, "amount"] = pd.NA
    made.loc[::11, "when"] = pd.NaT
    return made


def changed(old: Any) -> Any:
    """Changes cells of three rows, removes two, and adds one."""
    new = old.copy()
    new.loc[5, "amount"] = 77
    new.loc[8, "when"] = pd.Timestamp("2030-01-01")
    new.loc[9, "kind"] = "4" if new.loc[9, "kind"] != "4" else "3"
    added = new.iloc[[0]].assign(id=10 ** 6, half="new")
    return pd.concat([new.drop([3, 6]), added], ignore_index=True)


@pytest.fixture(scope="module")
def cluster() -> Iterator[Any]:
    """Two processes, of one thread each."""
    with LocalCluster(n_workers=2, threads_per_worker=1, dashboard_address=None) as started:
        with Client(started) as client:
            yield client


def same(old: Any, new: Any, *, parts: int, **options: Any) -> None:
    """Compares what Dask finds with what is found without it."""
    wanted = dunkelva.diff(old, new, **options)
    found = dunkelva.dask.diff(dd.from_pandas(old, npartitions=parts),
                               dd.from_pandas(new, npartitions=parts + 2), **options)
    assert sorted(found.by_column.items()) == sorted(wanted.by_column.items())
    found.by_column = wanted.by_column
    assert found == wanted and str(found) == str(wanted)


def test_rows_by_processes(cluster: Any) -> None:
    old = table(2000)
    new = old.copy()
    new.loc[5, "amount"] = 77
    sides = [dd.from_pandas(side, npartitions=5) for side in (old, new)]
    mask = dunkelva.dask.equal(*sides)
    assert mask.dtype == bool and mask.npartitions == 5
    assert np.flatnonzero(~mask.compute().to_numpy()).tolist() == [5]


def test_keys_by_processes(cluster: Any) -> None:
    old = table(2000)
    new = changed(old)
    same(old, new.sample(frac=1, random_state=1).reset_index(drop=True), parts=4, on=["id"])
    same(old, new, parts=3, on=["half"], limit=5)
    same(old, new, parts=4, on=["half", "id"], only=["amount"])


def test_random_tables() -> None:
    chance = random.Random(1)
    for rows in (1, 2, 30, 60):
        sides = []
        for count in (rows, rows + chance.randrange(9)):
            sides.append(pd.DataFrame({
                "k": [chance.choice(["a", "b", "c", None]) for _ in range(count)],
                "l": [chance.randrange(3) for _ in range(count)],
                "n": [chance.randrange(2) for _ in range(count)]}))
        same(sides[0], sides[1], parts=3, on=["k"])
        same(sides[0], sides[1], parts=2, on=["l", "k"], ignore=["n"])


def test_refusals() -> None:
    frame = dd.from_pandas(pd.DataFrame({"a": [1, 2], "f": [0.5, 1]}), npartitions=2)
    other = dd.from_pandas(pd.DataFrame({"a": ["1", "2"]}), npartitions=1)
    with pytest.raises(dunkelva.TypesDiffer, match="left has 2 partitions, right has 1"):
        dunkelva.dask.equal(frame, other)
    with pytest.raises(dunkelva.TypesDiffer, match="column 'a' of the key: left is int64"):
        dunkelva.dask.diff(frame, other, on="a")
    with pytest.raises(KeyError, match="right has no column 'f'"):
        dunkelva.dask.diff(frame, other, on="f")
    with pytest.raises(dunkelva.NotServed, match="floats are no keys.* is \"Int64\"$"):
        dunkelva.dask.diff(frame, frame, on="f")
    with pytest.raises(ValueError, match="a shuffle needs a key"):
        dunkelva.dask.diff(frame, frame, on=[])
    with pytest.raises(dunkelva.NotServed, match="column 'f': left is float64"):
        dunkelva.dask.diff(frame, frame, on="a")
    assert dunkelva.dask.diff(frame, frame, on="a", floats_by_bits=True).is_same
