"""Distinct values, beside sets of Python."""
from __future__ import annotations

import datetime
import decimal
import pickle
import random
from typing import Any, List, Optional, Set

import dask.dataframe as dd
import numpy as np
import pandas as pd
import pytest

import dunkelva
import dunkelva.dask
from exported import Exported, Streamed, column, masked


def listed(rows: Any) -> List[Any]:
    """Returns the rows of an array."""
    return list(rows.tolist())


def test_unique() -> None:
    assert listed(dunkelva.unique([5, None, -3, 5])) == [-3, 5, None]
    assert listed(dunkelva.unique(np.array([200, 7, 200], "u1"))) == [7, 200]
    assert dunkelva.unique(np.array([200, 7, 200], "u1")).dtype == np.uint8
    assert listed(dunkelva.unique(masked([1, 2, 1], mask=[1, 0, 1]))) == [2, None]
    assert listed(dunkelva.unique(masked([1, 2], mask=[1, 1]))) == [None]
    assert listed(dunkelva.unique(np.array([], "i4"))) == []
    ends = np.array([2 ** 64 - 1, 2 ** 64 - 3], "u8")
    assert listed(dunkelva.unique(ends)) == [2 ** 64 - 3, 2 ** 64 - 1]
    parts: Any = ([], [5, None], [-7, 5])
    assert listed(dunkelva.unique(Streamed([column("s", rows, 3) for rows in parts]))) == [
        -7, 5, None]
    days = np.array(["2024-01-03", "NaT", "2024-01-01"], "M8[D]")
    assert listed(dunkelva.unique(days)) == [
        datetime.date(2024, 1, 1), datetime.date(2024, 1, 3), None]
    prices = Exported(column("d:9,1,32", [15, 10, 15], 1))
    assert listed(dunkelva.unique(prices)) == [decimal.Decimal("1.0"), decimal.Decimal("1.5")]


def test_n_unique() -> None:
    assert dunkelva.n_unique([5, None, -3, 5]) == 3
    assert dunkelva.n_unique(masked([1, 2], mask=[1, 1])) == 1
    assert dunkelva.n_unique(np.array([], "i4")) == 0
    assert dunkelva.n_unique(pd.Series([1, 2, 2], dtype="Int16")) == 2


def test_wide_ranges() -> None:
    """Rows of a range that is too wide for a state are sorted."""
    ends = [-2 ** 63, 2 ** 63 - 1]
    assert listed(dunkelva.unique(ends)) == ends and dunkelva.n_unique(ends) == 2
    rows = masked([2 ** 64 - 1, 5, 0, 5], mask=[0, 0, 0, 1], dtype="u8")
    assert listed(dunkelva.unique(rows)) == [0, 5, 2 ** 64 - 1, None]
    assert dunkelva.unique(rows).dtype == np.uint64 and dunkelva.n_unique(rows) == 4
    parts: Any = ([], [7, None], [-2 ** 31, 7], [2 ** 31 - 1])
    stream = Streamed([column("i", rows, 3) for rows in parts])
    assert listed(dunkelva.unique(stream)) == [-2 ** 31, 7, 2 ** 31 - 1, None]
    times = np.array(["2024-01-01T00:00:00", "NaT", "1970-01-01T00:00:01"], "M8[ns]")
    found: Any = dunkelva.unique(times)
    assert listed(found.compressed()) == [10 ** 9, 1704067200 * 10 ** 9] and found.mask[-1]
    prices = Exported(column("d:18,2,64", [-10 ** 17, 10 ** 17, 10 ** 17], 1))
    assert listed(dunkelva.unique(prices)) == [
        decimal.Decimal(-10 ** 15), decimal.Decimal(10 ** 15)]


def test_stored_under_nulls() -> None:
    """What lies under a null widens no range past what a state can have."""
    for under in (0, -2 ** 63, 2 ** 63 - 1):
        rows = masked([under, 70, 71, under], mask=[1, 0, 0, 1])
        assert listed(dunkelva.unique(rows)) == [70, 71, None] and dunkelva.n_unique(rows) == 3
    assert listed(dunkelva.unique(masked([-2 ** 63, 2 ** 63 - 1], mask=[1, 1]))) == [None]


def _drifting(chance: random.Random, kind: str, rows: int) -> List[Optional[int]]:
    """Makes rows whose range widens while they are read, in one direction or both."""
    limits = np.iinfo(kind)
    step = chance.choice((0, 1, 30, 2000, 10 ** 6))
    at = chance.choice((limits.min, limits.max, 0, chance.randint(limits.min, limits.max)))
    ways = chance.choice(((1,), (-1,), (1, -1)))
    made: List[Optional[int]] = []
    made += [None] * chance.choice((0, 0, 20))
    for _ in range(rows):
        at = min(max(at + chance.choice(ways) * chance.randint(0, step), limits.min), limits.max)
        made.append(None if chance.random() < 0.3 else at)
    return made


def test_ranges_that_widen(monkeypatch: pytest.MonkeyPatch) -> None:
    """Columns that are read in many steps, beside sets of Python."""
    chance = random.Random("widen")
    has_state = set()
    for case in range(600):
        kind = chance.choice(("i1", "u1", "i2", "i4", "u4", "i8", "u8"))
        monkeypatch.setattr("dunkelva._unique._ROWS", chance.choice((1, 5, 64, 1 << 16)))
        monkeypatch.setattr("dunkelva._unique._FEW_WORDS", chance.choice((1, 20, 1 << 13)))
        rows = _drifting(chance, kind, chance.choice((0, 1, 50, 300)))
        under = chance.choice((0, np.iinfo(kind).min, np.iinfo(kind).max))
        nulls = [row is None for row in rows]
        kept = np.array([under if row is None else row for row in rows], kind)
        side: Any = masked(kept, mask=nulls)
        if case % 3 == 0:
            cut = chance.randint(0, len(rows))
            form = {"i1": "c", "u1": "C", "i2": "s", "i4": "i", "u4": "I", "i8": "l", "u8": "L"}
            side = Streamed([column(form[kind], part, case) for part in (rows[:cut], rows[cut:])])
        wanted: List[Any] = sorted({row for row in rows if row is not None})
        assert listed(dunkelva.unique(side)) == wanted + [None] * (None in rows)
        assert dunkelva.n_unique(side) == len(wanted) + (None in rows)
        has_state.add(dunkelva._unique._state_of(dunkelva._numbers.one_column(side, "")) is None)
    assert has_state == {True, False}


@pytest.mark.parametrize("count", [524_287, 524_288, 524_289, 1_000_000])
def test_beside_the_widest_state(count: int) -> None:
    """Ranges next to the one of the most numbers that a state of few rows has."""
    for low in (-2 ** 63, -count // 2, 2 ** 63 - count):
        rows = [low, low + count - 1, low + count // 2, low]
        assert listed(dunkelva.unique(rows)) == sorted(set(rows))
        assert dunkelva.n_unique([*rows, None]) == 4


def test_ends_of_words() -> None:
    """States whose last number lies at each end of a word and beside it."""
    for count in (1, 64, 127, 128, 129, 256, 300):
        state = dunkelva.Unique(-5, count - 6)
        rows = [row - 5 for row in range(count) if row % 7 in (0, 3) or row == count - 1]
        state.append(np.array(rows))
        assert listed(state.values) == rows and len(state) == len(rows)


def test_refused() -> None:
    for value in (["a"], np.array([1.5]), pd.DataFrame({"a": [1]})):
        with pytest.raises(dunkelva.NotServed):
            dunkelva.unique(value)
    broken = column("l", [1, 2, 3], 3)
    broken.array.buffers[1] = None
    with pytest.raises(dunkelva.BadArray):
        dunkelva.unique(Exported(broken))
    with pytest.raises(ValueError, match="no range from 3 to 2"):
        dunkelva.Unique(3, 2)
    with pytest.raises(dunkelva.TypesDiffer, match="range: 300 is no uint8"):
        dunkelva.Unique(0, 300, "u1")
    state = dunkelva.Unique(0, 9, "i4")
    with pytest.raises(dunkelva.TypesDiffer, match="it is int64, and the state of int32"):
        state.append(np.array([1, 2]))
    with pytest.raises(dunkelva.TypesDiffer, match="from 0 to 8, merged into .* from 0 to 9"):
        state.merge(dunkelva.Unique(0, 8, "i4"))
    with pytest.raises(dunkelva.TypesDiffer, match="a state of int64, merged into one of int32"):
        state.merge(dunkelva.Unique(0, 9, "i8"))
    parts: Any = ([1, None], [10])
    with pytest.raises(dunkelva.OutOfRange, match="outside of the range from 0 to 9"):
        state.append(Streamed([column("i", rows, 3) for rows in parts]))
    assert (len(state), state.has_null) == (0, False)


def test_states() -> None:
    state = dunkelva.Unique(-1, 1, "i1")
    state.append(np.array([1, -1, 1], "i1"))
    assert state.values.tolist() == [-1, 1] and state.values.dtype == np.int8
    assert (state.low, state.high, len(state), state.has_null) == (-1, 1, 2, False)
    assert repr(state) == "<Unique of int8 from -1 to 1: 2>"
    again = pickle.loads(pickle.dumps(state))
    again.append([None, 0])
    assert listed(again.finish()) == [-1, 0, 1, None]
    assert listed(state.finish()) == [-1, 1]
    state.merge(again)
    assert repr(state) == "<Unique of int8 from -1 to 1: 3 and null>"
    days = dunkelva.Unique(datetime.date(2024, 1, 1), datetime.date(2024, 12, 31), "M8[D]")
    days.append(np.array(["2024-02-29", "NaT"], "M8[D]"))
    assert listed(days.finish()) == [datetime.date(2024, 2, 29), None]


def test_merged_with_itself(monkeypatch: pytest.MonkeyPatch) -> None:
    """The state stays as it is, and the library is not called."""
    state = dunkelva.Unique(0, 9)
    state.append([3, None])
    monkeypatch.setattr("dunkelva._unique._merge", None)
    state.merge(state)
    assert listed(state.finish()) == [3, None]


def test_random_states() -> None:
    """Parts of columns, appended to states that are pickled and merged in any order."""
    chance = random.Random("states")
    for kind in ("i1", "u1", "i2", "u4", "i8", "u8"):
        limits = np.iinfo(kind)
        for _ in range(20):
            wide = chance.choice((1, 63, 64, 65, 200, 250))
            low = chance.randint(limits.min, limits.max - wide)
            high = low + wide
            states: List[dunkelva.Unique] = []
            seen: Set[Optional[int]] = set()
            for _ in range(chance.randint(1, 5)):
                rows = [chance.choice((None, low, high, chance.randint(low, high)))
                        for _ in range(chance.choice((0, 1, 9, 300)))]
                seen.update(rows)
                state = dunkelva.Unique(low, high, kind)
                state.append(rows)
                states.append(pickle.loads(pickle.dumps(state)))
            while len(states) > 1:
                chance.shuffle(states)
                states[-1].merge(states.pop(0))
            wanted: List[Any] = sorted(row for row in seen if row is not None)
            assert states[0].values.tolist() == wanted
            assert len(states[0]) == len(wanted) and states[0].has_null == (None in seen)


def test_dask() -> None:
    rows = pd.Series([5, None, 3, 5, 9, 3, None, 7], dtype="Int32")
    for parts in (1, 2, 3, 5):
        found = dunkelva.dask.unique(dd.from_pandas(rows, npartitions=parts), 0, 10)
        assert listed(found.finish()) == [3, 5, 7, 9, None]
    with pytest.raises(dunkelva.OutOfRange):
        dunkelva.dask.unique(dd.from_pandas(rows, npartitions=3), 0, 8)
