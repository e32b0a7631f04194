"""Columns and tables of each source."""
from __future__ import annotations

import datetime
import decimal
from typing import Any, List

import numpy as np
import pandas as pd
import pytest

import dunkelva
from exported import Exported, Streamed, column, masked


def equal(left: Any, right: Any, **options: Any) -> List[bool]:
    """Returns the rows that are equal, as a list."""
    same: Any = dunkelva.equal(left, right, **options)
    assert same.dtype == np.bool_
    return list(same.tolist())


@pytest.mark.parametrize("dtype", ["i1", "i2", "i4", "i8", "u1", "u2", "u4", "u8", ">i4", ">u8"])
def test_numbers_of_numpy(dtype: str) -> None:
    left, right = np.array([1, 2, 3], dtype), np.array([1, 0, 3], dtype)
    assert equal(left, right) == [True, False, True]
    assert equal(left[::2], right[::2]) == [True, True]
    assert equal(left[::-1], [3, 2, None]) == [True, True, False]


def test_arrays_of_numpy() -> None:
    assert equal(np.array([True, False]), np.array([True, True])) == [True, False]
    assert equal(np.array(["a", "bé", ""]), ["a", "be", ""]) == [True, False, True]
    assert equal(np.array([b"ab", b"cd"]), np.array([b"ab", b"ce"])) == [True, False]
    assert equal(np.arange(6).reshape(3, 2), np.array([[0, 1], [2, 9], [4, 5]])) == [
        True, False, True]
    assert equal(np.array([], np.int8), np.array([], np.int8)) == []
    days = np.array(["2024-01-01", "NaT", "1969-12-31"], "M8[D]")
    assert equal(days, [datetime.date(2024, 1, 1), None, datetime.date(1970, 1, 1)]) == [
        True, True, False]
    for unit in ("s", "ms", "us", "ns"):
        times = days.astype(f"M8[{unit}]")
        assert equal(times, times[[0, 0, 2]]) == [True, False, True]
    assert equal(np.array([1, 2], "m8[h]"), np.array([3600, 7201], "m8[s]")) == [True, False]


def test_structured_arrays() -> None:
    kind = [("x", "i4"), ("y", "S2"), ("z", "f8")]
    left = np.array([(1, b"ab", 0.5), (2, b"cd", np.nan)], kind)
    right = np.array([(1, b"ab", 0.5), (2, b"cd", 1)], kind)
    assert equal(left, right, floats_by_bits=True) == [True, False]
    hidden = masked(left, mask=[(0, 1, 0), (0, 0, 1)])
    assert equal(hidden, hidden, floats_by_bits=True) == [True, True]
    assert equal(hidden, left, floats_by_bits=True) == [False, False]


def test_masked_arrays() -> None:
    left = masked([1, 2, 3], mask=[0, 1, 1])
    assert equal(left, masked([1, 9, 3], mask=[0, 1, 0])) == [True, True, False]
    assert equal(left, [1, None, None]) == [True, True, True]
    assert equal(masked(["a", "b"], mask=[0, 1]), ["a", None]) == [True, True]
    assert equal(masked([[1, 2], [3, 4]], mask=[[0, 1], [0, 0]]), [[1, None], [3, 4]]) == [
        True, True]


def test_floats() -> None:
    left, right = np.array([1.0, np.nan, 0.0]), np.array([1.0, np.nan, -0.0])
    assert equal(left, right, floats_by_bits=True) == [True, True, False]
    for dtype in ("f2", "f4"):
        sides = left.astype(dtype), right.astype(dtype)
        assert equal(*sides, floats_by_bits=True) == [True, True, False]
    assert equal([1, 2.5], [1.0, 2], floats_by_bits=True) == [True, False]


def test_series_of_pandas() -> None:
    na = pd.NA
    assert equal(pd.Series(["a", None, "é", np.nan]), pd.Series(["a", None, "e", None])) == [
        True, True, False, True]
    assert equal(pd.Series([1, None, 3], dtype="Int64"), pd.Series([1, na, na], dtype="Int64")) == [
        True, True, False]
    assert equal(pd.Series([True, None], dtype="boolean"), [True, False]) == [True, False]
    assert equal(pd.Series(["a", None], dtype="string"), pd.Series(["a", None])) == [True, True]
    assert equal(pd.Series([1.5, None], dtype="Float64"), [1.5, None], floats_by_bits=True) == [
        True, True]
    categories = pd.Series(pd.Categorical(["a", "b", None]))
    assert equal(categories, pd.Series(pd.Categorical(["a", "c", None]))) == [True, False, True]
    assert equal(categories, ["a", "b", "c"]) == [True, True, False]
    assert dunkelva.is_null(categories).tolist() == [False, False, True]
    assert equal(pd.Categorical([1, 2]), pd.Series(pd.Categorical([1, 3, 2])[:2])) == [True, False]
    zoned = pd.Series(pd.to_datetime(["2024-01-01", None]).tz_localize("Europe/Oslo"))
    assert equal(zoned, zoned[::-1]) == [False, False]
    assert equal(zoned, zoned) == [True, True]
    assert equal(pd.to_timedelta(["1s", None]), pd.Series(pd.to_timedelta(["1s", "2s"]))) == [
        True, False]
    assert equal(pd.Index([1, 2]), np.array([1, 3])) == [True, False]
    assert equal(pd.Series([decimal.Decimal("1.50"), None]), [decimal.Decimal("1.5"), None]) == [
        True, True]
    assert equal(pd.Series([[1], None]), pd.Series([[1], [2]])) == [True, False]
    assert equal(pd.arrays.SparseArray([0, 1, 0]), [0, 1, 1]) == [True, True, False]
    assert equal(pd.Series([], dtype=object), pd.Series([], dtype="string")) == []


def test_data_frames() -> None:
    left = pd.DataFrame({"a": [1, 2], "b": ["x", "y"]}, index=[7, 8])
    right = pd.DataFrame({"b": ["x", "z"], "a": [1, 2]})
    assert equal(left, right) == [True, False]
    assert equal(left, [{"a": 1, "b": "x"}, {"a": 2, "b": None}]) == [True, False]
    assert equal(left, {"a": [1, 3], "b": np.array(["x", "y"])}) == [True, False]
    assert equal(pd.DataFrame(index=[1, 2]), pd.DataFrame(index=[3, 4])) == [True, True]
    assert equal(pd.DataFrame({0: [1]}), {"0": [1]}) == [True]


class Interchanged:
    """A DataFrame that has `__dataframe__` alone."""

    def __init__(self, frame: Any):
        self.frame = frame

    def __dataframe__(self, **options: Any) -> Any:
        return self.frame.__dataframe__(**options)


def test_interchange() -> None:
    frame = pd.DataFrame({
        "n": [1, 2, 3], "f": [0.5, np.nan, 1], "t": ["a", np.nan, "é"], "b": [True, False, True],
        "c": pd.Categorical(["x", None, "y"]), "u": np.array([1, 2, 3], np.uint8),
        "d": pd.to_datetime(["2024-01-01", None, "2024-01-03"])})
    other = frame.copy()
    other.loc[1, "t"] = "b"
    other.loc[2, "c"] = "x"
    assert equal(Interchanged(frame), Interchanged(frame), floats_by_bits=True) == [True] * 3
    assert equal(Interchanged(frame), frame, floats_by_bits=True) == [True] * 3
    assert equal(Interchanged(frame), Interchanged(other), floats_by_bits=True) == [
        True, False, False]
    assert equal(Interchanged(frame[1:]), frame[1:], floats_by_bits=True) == [True] * 2
    nothing = frame[["n", "f", "c", "d"]][:0]  # pandas 1.5 has no texts of no rows
    assert equal(Interchanged(nothing), nothing, floats_by_bits=True) == []


def test_capsules() -> None:
    rows: Any = [(1, b"x"), None, (2, None)]
    kind = ("+s", [("a", "i"), ("b", "u")])
    assert equal(Exported(column(kind, rows, 1)), Exported(column(kind, rows, 2))) == [True] * 3
    assert equal(Exported(column(kind, rows[:1], 1)), [{"a": 1, "b": "x"}]) == [True]
    table: Any = [(1, b"x"), (2, b"y")]
    turned = ("+s", [("b", "u"), ("a", "i")])
    assert equal(Exported(column(kind, table, 1)),
                 Exported(column(turned, [(b"x", 1), (b"z", 2)], 2))) == [True, False]
    frame = pd.DataFrame({"b": ["x", "y"], "a": np.array([1, 2], np.int32)})
    assert equal(Exported(column(("+s", [("a", "i"), ("b", "U")]), table, 1)), frame) == [True] * 2
    for form in ("z", "Z", "vz"):
        assert equal(Exported(column(form, [b"a", None, b"thirteen bytes"], 3)),
                     [b"a", None, b"thirteen bytez"]) == [True, True, False]


AB, BA = ("+s", [("a", "i"), ("b", "u")]), ("+s", [("b", "u"), ("a", "i")])


@pytest.mark.parametrize("seed", range(4))
def test_structs_with_and_without_nulls(seed: int) -> None:
    """Fields of rows are matched by name, whatever rows are null."""
    left: Any = [(1, b"x"), (2, b"y"), None]
    right: Any = [(b"x", 1), (b"z", 2), None]
    for rows, wanted in ((2, [True, False]), (3, [True, False, True])):
        sides = column(AB, left[:rows], seed), column(BA, right[:rows], seed + 9)
        assert equal(Exported(sides[0]), Exported(sides[1])) == wanted
        chunks = [column(BA, part, seed) for part in (right[:1], right[1:rows])]
        assert equal(Exported(sides[0]), Streamed(chunks)) == wanted
        assert equal(Streamed(chunks), Exported(sides[0])) == wanted
        with pytest.raises(dunkelva.TypesDiffer):
            dunkelva.equal(Exported(sides[0]), Exported(column(
                ("+s", [("b", "u"), ("c", "i")]), right[:rows], seed)))
        lists = [Exported(column(("+l", kind), [part[:rows]], seed))
                 for kind, part in ((AB, left), (BA, right))]
        with pytest.raises(dunkelva.TypesDiffer, match="left has the fields"):
            dunkelva.equal(*lists)
        assert dunkelva.is_null(Exported(sides[0])).tolist() == [False, False, True][:rows]
        assert dunkelva.is_null(Streamed(chunks)).tolist() == [False, False, True][:rows]
    table = {"b": ["x", "y"], "a": [1, 2]}
    assert equal(table, Exported(column(AB, left[:2], seed))) == [True, True]
    assert equal(table, Exported(column(AB, [left[0], None], seed))) == [True, False]
    records = np.array([(1, b"x")], [("a", "i4"), ("b", "S1")])
    assert equal(records, records[["b", "a"]]) == [True]


class Batch(Exported):
    """A table of Arrow, as far as its names say that it is one."""

    column_names = ["a", "b"]


def test_tables_have_no_nulls() -> None:
    table: Any = [(1, b"x"), (2, b"y")]
    with pytest.raises(dunkelva.NotServed, match="column: it is a table"):
        dunkelva.is_null(Batch(column(AB, table, 1)))
    with pytest.raises(dunkelva.NotServed, match="column: it is a table"):
        dunkelva.is_null(pd.DataFrame({"a": [1]}))


CHUNKS: Any = ([1, 2], [], [None, 4, 5])


def test_streams() -> None:
    stream = Streamed([column("i", rows, 1) for rows in CHUNKS])
    assert equal(stream, masked([1, 3, 0, 4, 5], mask=[0, 0, 1, 0, 0], dtype="i4")) == [
        True, False, True, True, True]
    assert stream.handed == stream.released == 4
    empty = Streamed([], column(("+l", ("+s", [("a", "u")])), [], 1).schema)
    assert equal(empty, []) == []
    assert empty.handed == empty.released == 1


def test_lists() -> None:
    assert equal([], []) == []
    assert equal([None, None], [None, 1]) == [True, False]
    assert equal([[], [None], None], [[], [], None]) == [True, False, True]
    assert equal([{"a": 1}, {}], [{"a": 1, "b": None}, {"b": 2}]) == [True, False]
    assert equal([2 ** 63, 1], [2 ** 64 - 1, 1]) == [False, True]
    assert equal([2 ** 64, -1], [2 ** 64, 1]) == [True, False]
    assert equal(["\ud800"], ["\ud801"]) == [False]
    when = datetime.datetime(2024, 1, 1, 12, tzinfo=datetime.timezone.utc)
    oslo = when.astimezone(datetime.timezone(datetime.timedelta(hours=1)))
    assert equal([when, when], [oslo, oslo + datetime.timedelta(microseconds=1)]) == [True, False]
    assert equal([datetime.time(1, 2, 3)], [datetime.time(1, 2, 4)]) == [False]
    assert equal([np.int8(1), 2], (1, np.int64(3))) == [True, False]


WHOLE = 2 ** 53 + 1  # no float64 is this number
WRONG: Any = [WHOLE, -WHOLE, np.int64(WHOLE), np.uint64(WHOLE), np.int64(-WHOLE),
              np.longdouble(2 ** 53) + 1]


@pytest.mark.parametrize("number", WRONG)
def test_lists_of_floats_are_exact(number: Any) -> None:
    """A whole number that no float is can't be rounded to one, wherever it is in a list."""
    near = float(2 ** 53)
    column: Any
    for column in ([number, 0.5], [[number], [0.5]], [{"a": number}, {"a": 0.5}],
                   pd.Series([number, 0.5], dtype=object), np.array([number, 0.5], object)):
        for sides in ((column, [0.5, 0.5]), (column, column), ([0.5, 0.5], column)):
            with pytest.raises(dunkelva.TypesDiffer):
                dunkelva.equal(*sides, floats_by_bits=True)
    for column, rows in ((np.array([near]), [number]), (np.array([[near]]), [[number]]),
                         (pd.Series([near], dtype="Float64"), [number]),
                         (pd.Series(pd.Categorical([near])), [number]),
                         ({"a": np.array([near])}, {"a": [number]}),
                         (pd.DataFrame({"a": [near]}), [{"a": number}])):
        for sides in ((column, rows), (rows, column)):
            with pytest.raises(dunkelva.TypesDiffer, match="no float64"):
                dunkelva.equal(*sides, floats_by_bits=True)


@pytest.mark.parametrize("dtype, bits", [("f2", 11), ("f4", 24), ("f8", 53)])
def test_lists_read_as_floats(dtype: str, bits: int) -> None:
    """Whole numbers are exact in a type of floats, and other floats are rounded to it."""
    most = 2 ** bits
    kinds: Any = (int, np.int64, np.uint64)
    for kind in kinds:
        for number in (0, 1, most - 1, most, 2 * most - 2 if bits > 11 else most):
            assert equal(np.array([number], dtype), [kind(number)], floats_by_bits=True) == [True]
        for number in (most + 1, 2 * most - 1):
            with pytest.raises(dunkelva.TypesDiffer, match=f"right: {number} is no float"):
                dunkelva.equal(np.array([most], dtype), [kind(number)], floats_by_bits=True)
    tenth = np.array([0.1], dtype)
    assert equal(tenth, [0.1], floats_by_bits=True) == [True]
    limit = np.array([np.inf, -np.inf, np.nan], dtype)
    assert equal(limit, [float("inf"), np.float32(-np.inf), float("nan")],
                 floats_by_bits=True) == [True] * 3
    for large in (10 ** 400, -10 ** 400, np.longdouble("1e400")):
        with pytest.raises(dunkelva.TypesDiffer, match="is no float"):
            dunkelva.equal(limit[:1], [large], floats_by_bits=True)
    if dtype != "f8":
        with pytest.raises(dunkelva.TypesDiffer, match="right: 1e[+]300 is no float"):
            dunkelva.equal(limit[:1], [1e300], floats_by_bits=True)
    for other in (True, np.True_, decimal.Decimal(1), np.timedelta64(1, "s")):
        with pytest.raises(dunkelva.TypesDiffer, match="right: a row of .* is no float"):
            dunkelva.equal(np.array([1], dtype), [other], floats_by_bits=True)


def test_lists_of_integers_of_numpy() -> None:
    """Integers of numpy of two types are compared as whole numbers, and not as floats."""
    most = 2 ** 63
    assert equal([np.int64(most - 1), np.uint64(most)], [most - 1, most]) == [True, True]
    assert equal([np.uint64(most), np.int64(most - 1)], [most - 1, most]) == [False, False]
    assert equal([np.int64(-1), np.uint64(2 * most - 1)], [-1, 2 * most - 1]) == [True, True]
    assert equal([decimal.Decimal("0.5"), np.uint64(most)], [np.int64(0), most]) == [False, True]
    with pytest.raises(dunkelva.TypesDiffer, match=f"right: {most} is no int64"):
        dunkelva.equal(np.array([-most]), [np.uint64(most)])
    prices = Exported(column("d:9,2", [500], 1))
    assert equal(prices, [np.int8(5)]) == [True]
    for other in (True, np.timedelta64(5, "ns")):
        for side in (prices, np.array([5])):
            with pytest.raises(dunkelva.TypesDiffer, match="right: .* is no (decimal|int64)"):
                dunkelva.equal(side, [other])


def test_lists_of_numpy_times() -> None:
    """Times of other units are neither rounded nor wrapped around."""
    old = np.array(["1500-01-01"], "M8[s]")
    for unit in ("Y", "M", "D", "h", "s", "ms"):
        assert equal(old, [np.datetime64("1500-01-01", unit)]) == [True]
    assert equal([np.datetime64(5000, "ps")], [np.datetime64(5, "ns")]) == [True]
    late = np.datetime64("3000-01-01", "s")
    for wrong, other in ((np.datetime64(1, "ps"), np.datetime64(0, "ns")), (late, late),
                         (np.timedelta64(1, "as"), np.timedelta64(0, "ns")),
                         (np.timedelta64(1, "Y"), np.timedelta64(0, "ns"))):
        with pytest.raises(dunkelva.TypesDiffer, match="is no (timestamp|duration)"):
            dunkelva.equal([wrong], [other])


def test_many_rows() -> None:
    rows = 100_003
    left = np.arange(rows, dtype=np.int32)
    right = left.copy()
    right[::7] += 1
    assert (dunkelva.equal(left, right) == (left == right)).all()
    hidden = [masked(side, mask=np.arange(rows) % step == 0)
              for side, step in ((left, 3), (right, 5))]
    nulls = [side.mask for side in hidden]
    wanted = np.where(nulls[0] | nulls[1], nulls[0] == nulls[1], left == right)
    assert (dunkelva.equal(*hidden) == wanted).all()
    lists = [[place, None] if place % 3 else None for place in range(40_000)]
    others = [row if place % 4 else [1] for place, row in enumerate(lists)]
    assert equal(lists, others) == [one == other for one, other in zip(lists, others)]


def test_lists_of_numpy_spans() -> None:
    days = [np.timedelta64(1, "D"), None, np.timedelta64(0, "ns")]
    hours = [datetime.timedelta(hours=24), None, np.timedelta64(1, "ns")]
    assert equal(days, hours) == [True, True, False]
