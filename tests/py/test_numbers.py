"""Columns and tables of numbers alone, which every library serves."""
from __future__ import annotations

import datetime
import decimal
from typing import Any

import numpy as np
import pandas as pd
import pytest

import dunkelva
from exported import Exported, Streamed, column, masked


def test_equal() -> None:
    left, right = np.arange(100_003), np.arange(100_003)
    right[::7] += 1
    assert (dunkelva.equal(left, right) == (left == right)).all()
    assert (dunkelva.not_equal(left[::3], right[::3]) == (left != right)[::3]).all()
    hidden = masked([1, 2, 3, 4], mask=[0, 1, 1, 0])
    assert dunkelva.equal(hidden, [1, 2, None, 5]).tolist() == [True, False, True, False]
    frame = pd.DataFrame({"a": [1, 2], "b": pd.array([None, 2], dtype="Int8")})
    other = frame.assign(a=[1, 3])[["b", "a"]]
    assert dunkelva.equal(frame, other).tolist() == [True, False]


@pytest.mark.parametrize("dtype", ["i1", "i2", "i4", "i8", "u1", "u2", "u4", "u8", ">i4"])
def test_equal_plain(dtype: str) -> None:
    """Arrays of one type of whole numbers, of each length, in one piece or not."""
    for rows in (0, 1, 7, 8, 9, 1000, 1 << 17, (1 << 17) + 1):
        left = (np.arange(rows) % 100).astype(dtype)
        right = np.where(np.arange(rows) % 7 == 3, 101, left).astype(dtype)
        wanted = left == right
        same = dunkelva.equal(left, right)
        assert same.dtype == np.bool_ and (same == wanted).all() and same.shape == (rows,)
        assert (dunkelva.equal(left[::-1], right[::-1]) == wanted[::-1]).all()
        left.flags.writeable = False
        assert (dunkelva.equal(left, right) == wanted).all()
        assert (same == wanted).all()  # it is no memory of a later call


def test_not_plain() -> None:
    """Arrays that look like plain ones."""
    rows = np.arange(4)
    assert dunkelva.equal(rows.reshape(2, 2), rows.reshape(2, 2)).tolist() == [True, True]
    assert dunkelva.equal(rows, masked(rows, mask=[1, 0, 0, 0])).tolist() == [
        False, True, True, True]
    for other in (rows[:3], rows.astype("i4"), rows.astype("u8"), rows.astype(">i8")[:2]):
        with pytest.raises(dunkelva.TypesDiffer):
            dunkelva.equal(rows, other)
    with pytest.raises(dunkelva.NotServed):
        dunkelva.equal(rows.astype("f8"), rows.astype("f8"))
    with pytest.raises(dunkelva.TypesDiffer, match="0 dimensions"):
        dunkelva.equal(np.array(1), np.array(1))


def test_compare() -> None:
    days = np.array(["2024-01-01", "NaT", "2024-01-03"], "M8[D]")
    assert dunkelva.compare(days, ">", datetime.date(2024, 1, 2)).tolist() == [False, False, True]
    assert dunkelva.compare(days, "==", days).tolist() == [True, True, True]
    times = days.astype("M8[us]")
    assert dunkelva.compare(times, "<=", datetime.datetime(2024, 1, 1)).tolist() == [
        True, False, False]
    prices = Exported(column("d:9,2,64", [150, None, 250], 1))
    assert dunkelva.compare(prices, "<", decimal.Decimal("1.51")).tolist() == [True, False, False]
    parts: Any = ([1, 2], [3])
    stream = Streamed([column("s", rows, 2) for rows in parts])
    assert dunkelva.compare(stream, "!=", np.array([1, 3, 3], "i2")).tolist() == [
        False, True, False]
    assert dunkelva.compare([2 ** 64 - 1, 1], ">", 2 ** 63).tolist() == [True, False]
    with pytest.raises(dunkelva.TypesDiffer, match="right: -1 is no uint64"):
        dunkelva.compare([2 ** 64 - 1, 1], ">", -1)


def test_sums() -> None:
    assert dunkelva.sum(np.array([2 ** 62, 2 ** 62])) == -2 ** 63
    assert dunkelva.sum(np.array([2 ** 63, 2 ** 63], "u8")) == 0
    assert dunkelva.sum(np.array([], "i4")) is None
    assert dunkelva.sum(masked([1, 2], mask=[1, 1])) is None
    assert dunkelva.sum(np.array([1, 2], "m8[s]")) == np.timedelta64(3, "s")
    assert dunkelva.sum(Exported(column("d:9,2,32", [150, None, 25], 1))) == decimal.Decimal("1.75")
    parts: Any = ([200, 50], [], [None], [50])
    chunks = Streamed([column("C", rows, 3) for rows in parts])
    assert dunkelva.sum(chunks) == 44
    assert dunkelva.reduce_xor(Streamed([column("c", [row], 3) for row in (-1, 5)])) == -6


def test_intervals() -> None:
    """Intervals of months are numbers, those of days and milliseconds are pairs of numbers."""
    day, second = 1, 1000 << 32
    pairs = Exported(column("tiD", [day, second, None, day], 1))
    calls: Any = (dunkelva.sum, dunkelva.min_max, dunkelva.reduce_or, dunkelva.count_ones,
                  dunkelva.negative, lambda it: dunkelva.add(it, it),
                  lambda it: dunkelva.add(it, 1), lambda it: dunkelva.compare(it, "<", it),
                  lambda it: dunkelva.compare(it, "==", it),
                  lambda it: dunkelva.compare(it, "<", 1))
    for call in calls:
        with pytest.raises(dunkelva.NotServed, match="days and milliseconds"):
            call(pairs)
    assert dunkelva.equal(pairs, pairs).all()
    assert dunkelva.is_null(pairs).tolist() == [False, False, True, False]
    distinct: Any = dunkelva.unique(pairs)
    assert distinct.tolist() == [day, second, None]
    assert dunkelva.n_unique(pairs) == 3
    months = Exported(column("tiM", [1, 12, None], 1))
    assert dunkelva.min_max(months) == (1, 12) and dunkelva.sum(months) == 13
    assert dunkelva.compare(months, "<=", months).tolist() == [True, True, False]


def test_extremes() -> None:
    assert dunkelva.min_max(np.array([-128, 127, 0], "i1")) == (-128, 127)
    assert dunkelva.max([2 ** 64 - 1, 1]) == 2 ** 64 - 1
    assert dunkelva.min_max(masked([1, 2], mask=[1, 1])) == (None, None)
    assert dunkelva.min(np.array(["2024-01-02", "NaT"], "M8[D]")) == np.datetime64("2024-01-02")
    parts: Any = ([], [5, None], [None], [-7, 9])
    chunks = Streamed([column("s", rows, 3) for rows in parts])
    assert dunkelva.min_max(chunks) == (-7, 9)
    assert dunkelva.min(Exported(column("d:9,1,32", [15, None], 1))) == decimal.Decimal("1.5")


def test_tables() -> None:
    rng = np.random.default_rng(1)
    left = pd.DataFrame({"id": np.arange(20_000), "n": rng.integers(0, 9, 20_000)})
    right = left.sample(frac=1, random_state=1)[5:]
    right.iloc[7, 1] += 1
    found = dunkelva.diff(left, right, on="id")
    assert (found.same, found.changed, found.removed, found.added) == (19_994, 1, 5, 0)
    one = next(each for each in found.differences if each.kind == "changed")
    assert one.key == (right.iloc[7, 0],) and one.right_row == 7 and one.left_row == one.key[0]
    dunkelva.assert_equal(left, left[::-1], key="id")
