"""Arithmetic on columns of numbers."""
from __future__ import annotations

import datetime
import operator
from typing import Any, Callable, Dict, List, Optional

import numpy as np
import pandas as pd
import pytest

import dunkelva
from exported import Exported, Streamed, column, masked


def quotient(one: int, other: int) -> int:
    """Returns the quotient that is rounded toward 0."""
    return abs(one) // abs(other) * (1 if (one < 0) == (other < 0) else -1)


CALLS: Dict[Callable[..., Any], Callable[[int, int], int]] = {
    dunkelva.add: operator.add, dunkelva.subtract: operator.sub, dunkelva.multiply: operator.mul,
    dunkelva.floor_divide: operator.floordiv, dunkelva.truncating_divide: quotient,
    dunkelva.mod: operator.mod}
KINDS = ["i1", "i2", "i4", "i8", "u1", "u2", "u4", "u8"]


def listed(results: Any) -> List[Any]:
    """Returns results as values of Python, nulls as None."""
    rows: List[Any] = results.tolist()
    return rows


def wrapped(number: int, kind: str) -> int:
    """Returns a number, wrapped to a type."""
    limits = np.iinfo(kind)
    least = int(limits.min)
    kept: int = (number - least) % 2 ** int(limits.bits) + least
    return kept


def result(call: Callable[..., Any], one: Optional[int], other: Optional[int],
           kind: str) -> Optional[int]:
    """Returns the result for two rows, by Python's numbers."""
    if one is None or other is None or other == 0 and call in list(CALLS)[3:]:
        return None
    return wrapped(CALLS[call](one, other), kind)


def some_column(rng: Any, kind: str, rows: int) -> Any:
    """Returns numbers of which many lie at an end of the type, and some are null."""
    limits = np.iinfo(kind)
    ends = [int(limits.min), int(limits.max), 0, 1, 2, 7, wrapped(-1, kind)]
    numbers = [ends[place] for place in rng.integers(0, len(ends), rows)]
    return masked(np.array(numbers, kind), mask=rng.integers(0, 4, rows) == 0)


@pytest.mark.parametrize("kind", KINDS)
def test_columns(kind: str) -> None:
    rng = np.random.default_rng(KINDS.index(kind))
    for rows in (0, 1, 63, 64, 65, 1000):
        left, right = some_column(rng, kind, rows), some_column(rng, kind, rows)
        for call in CALLS:
            got = call(left, right)
            assert got.dtype == np.dtype(kind)
            assert listed(got) == [result(call, *pair, kind)
                                    for pair in zip(left.tolist(), right.tolist())]
            assert call(left[::-1][1:], right[1:]).tolist() == [
                result(call, *pair, kind)
                for pair in zip(left[::-1][1:].tolist(), right[1:].tolist())]


@pytest.mark.parametrize("kind", KINDS)
def test_values(kind: str) -> None:
    rng = np.random.default_rng(KINDS.index(kind))
    rows = some_column(rng, kind, 70)
    limits = np.iinfo(kind)
    for value in (int(limits.min), int(limits.max), 0, 1, 3, wrapped(-1, kind)):
        for call in CALLS:
            assert listed(call(rows, value)) == [
                result(call, row, value, kind) for row in rows.tolist()]
            assert listed(call(value, rows)) == [
                result(call, value, row, kind) for row in rows.tolist()]
    assert listed(dunkelva.negative(rows)) == [
        None if row is None else wrapped(-row, kind) for row in rows.tolist()]
    assert listed(dunkelva.absolute(rows)) == [
        None if row is None else wrapped(abs(row), kind) for row in rows.tolist()]


def test_sources() -> None:
    series = pd.Series([1, None, 3], dtype="Int16")
    assert listed(dunkelva.add(series, np.array([1, 2, 3], "i2"))) == [2, None, 6]
    assert listed(dunkelva.subtract(Exported(column("s", [5, None], 1)), [1, 2])) == [4, None]
    parts: Any = ([200, 50], [], [None], [50])
    stream = Streamed([column("C", rows, 3) for rows in parts])
    assert listed(dunkelva.add(stream, 100)) == [44, 150, None, 150]
    stream = Streamed([column("C", rows, 3) for rows in parts])
    assert listed(dunkelva.mod([7, 7, 7, 7], stream)) == [7, 7, None, 7]
    numbers = np.arange(10, dtype="u4")
    plain = dunkelva.multiply(numbers, numbers)
    assert plain.mask is np.ma.nomask and (plain == numbers * numbers).all()
    assert listed(dunkelva.add([2 ** 64 - 1], 1)) == [0]


def test_refusals() -> None:
    wrong: List[Any] = [
        (dunkelva.TypesDiffer, np.array([1], "i4"), np.array([1], "i8")),
        (dunkelva.TypesDiffer, [1, 2], [1]),
        (dunkelva.TypesDiffer, np.array([1], "i1"), 128),
        (dunkelva.TypesDiffer, -1, np.array([1], "u1")),
        (dunkelva.TypesDiffer, [1], None),
        (dunkelva.NotServed, np.array([1.5]), np.array([1.5])),
        (dunkelva.NotServed, [True], [True]),
        (dunkelva.NotServed, np.array(["2024-01-01"], "M8[D]"), datetime.date(2024, 1, 1)),
        (dunkelva.NotServed, {"a": [1]}, {"a": [1]})]
    for error, left, right in wrong:
        for call in CALLS:
            with pytest.raises(error):
                call(left, right)
    with pytest.raises(dunkelva.NotServed, match="column is string"):
        dunkelva.negative(Exported(column("u", [b"a"], 1)))
