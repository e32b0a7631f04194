"""Random columns and tables beside Python's own ==, by hypothesis."""
from __future__ import annotations

import collections
import datetime
import decimal
import operator
import random
from typing import Any, Callable, Dict, List, Tuple

import numpy as np
from hypothesis import given, strategies as st

import dunkelva
from dunkelva import _plain
from exported import Exported, Streamed, arrow, column, trees

_LEAVES: List[st.SearchStrategy[Any]] = [
    st.booleans(), st.integers(-2 ** 63, 2 ** 63 - 1), st.integers(0, 2 ** 64 - 1),
    st.integers(-3, 3), st.text(max_size=3), st.sampled_from(["a", "b", "longer than twelve"]),
    st.binary(max_size=3), st.dates(), st.datetimes(), st.timedeltas(
        datetime.timedelta(days=-9999), datetime.timedelta(days=9999)), st.times(),
    st.decimals(-1000, 1000, allow_nan=False, allow_infinity=False, places=2),
    st.integers(-10 ** 37, 10 ** 37)]


def _nullable(rows: st.SearchStrategy[Any]) -> st.SearchStrategy[Any]:
    return st.none() | rows


def _nested(inner: st.SearchStrategy[st.SearchStrategy[Any]]) -> st.SearchStrategy[
        st.SearchStrategy[Any]]:
    """Returns rows that are lists, or structs whose members are all there."""
    names = st.dictionaries(st.sampled_from(["a", "b", "é", ""]), inner, max_size=3)
    return (inner.map(lambda rows: st.lists(_nullable(rows), max_size=3))
            | names.map(lambda fields: st.fixed_dictionaries(
                {name: _nullable(rows) for name, rows in fields.items()})))


_ROWS = st.recursive(st.sampled_from(_LEAVES), _nested, max_leaves=4)


def _side(rows: st.SearchStrategy[Any]) -> st.SearchStrategy[List[Tuple[Any, Any]]]:
    """Returns pairs of rows, of which about half are the same."""
    row = _nullable(rows)
    return st.lists(row.map(lambda one: (one, one)) | st.tuples(row, row), max_size=20)


@given(_ROWS.flatmap(_side))
def test_rows_of_python(pairs: List[Tuple[Any, Any]]) -> None:
    left, right = [one for one, _ in pairs], [other for _, other in pairs]
    wanted = [one == other for one, other in pairs]
    assert dunkelva.equal(left, right).tolist() == wanted
    assert dunkelva.not_equal(right, left).tolist() == [not same for same in wanted]
    assert dunkelva.equal(left, left).all()


@given(st.integers(0, 2 ** 32), st.sampled_from([0, 1, 7, 8, 63, 64, 65, 130]))
def test_exported_columns(seed: int, rows: int) -> None:
    chance = random.Random(seed)
    kind = trees.some_type(chance, 3)
    left = [arrow.some_value(kind, chance) for _ in range(rows)]
    right = [row if chance.random() < 0.6 else arrow.some_value(kind, chance) for row in left]
    wanted = [one == other for one, other in zip(left, right)]
    sides = [Exported(column(kind, side, seed)) for side in (left, right)]
    assert dunkelva.equal(*sides, floats_by_bits=True).tolist() == wanted
    cuts = [sorted(chance.randrange(rows + 1) for _ in range(chance.randrange(4)))
            for _ in range(2)]
    streams = []
    for side, ends in zip((left, right), cuts):
        chunks = [side[start:end] for start, end in zip([0, *ends], [*ends, rows])]
        streams.append(Streamed([column(kind, chunk, seed) for chunk in chunks]))
    assert dunkelva.equal(*streams, floats_by_bits=True).tolist() == wanted
    assert dunkelva.equal(streams[0], sides[1], floats_by_bits=True).tolist() == wanted
    _found_at_their_places(sides, wanted, streams)


def _found_at_their_places(sides: List[Exported], wanted: List[bool],
                           streams: List[Streamed]) -> None:
    """Looks for the rows that differ, in columns and in streams."""
    different = [row for row, same in enumerate(wanted) if not same]
    for pair in ((sides[0], sides[1]), (streams[0], streams[1])):
        found = dunkelva.diff(pair[0], pair[1], floats_by_bits=True)
        assert found.changed == len(different)
        assert [row for row in different if row in {
            one.left_row for one in found.differences}] == different
        assert len({one.left_row for one in found.differences}) == len(different)


_DTYPES = [np.int8, np.int16, np.int32, np.int64, np.uint8, np.uint16, np.uint32, np.uint64]


def _masked(numbers: List[int], nulls: List[bool], dtype: Any) -> Any:
    masked: Any = np.ma.MaskedArray
    return masked(np.array(numbers, np.uint64).astype(dtype), mask=nulls)


@given(st.sampled_from(_DTYPES), st.lists(st.tuples(
    st.integers(0, 2 ** 64 - 1), st.integers(0, 2 ** 64 - 1), st.booleans(), st.booleans(),
    st.booleans()), max_size=70))
def test_masked_arrays(dtype: Any, cells: List[Tuple[int, int, bool, bool, bool]]) -> None:
    left = _masked([one for one, *_ in cells], [null for _, _, null, _, _ in cells], dtype)
    right = _masked([one if same else other for one, other, _, _, same in cells],
                    [null for _, _, _, null, _ in cells], dtype)
    rows = list(zip(left.tolist(), right.tolist()))
    assert dunkelva.equal(left, right).tolist() == [one == other for one, other in rows]
    assert dunkelva.is_null(left).tolist() == [one is None for one, _ in rows]
    for test, holds in (("<", operator.lt), ("<=", operator.le), (">", operator.gt),
                        (">=", operator.ge)):
        wanted = [one is not None and other is not None and holds(one, other)
                  for one, other in rows]
        assert dunkelva.compare(left, test, right).tolist() == wanted
    _reduced(left, [one for one, _ in rows if one is not None], dtype)


def _reduced(side: Any, present: List[int], dtype: Any) -> None:
    """Compares sums, extremes and bits with those that Python finds."""
    bits = 8 * np.dtype(dtype).itemsize
    total = sum(present) & 2 ** bits - 1
    if np.dtype(dtype).kind == "i" and total >= 2 ** (bits - 1):
        total -= 2 ** bits
    assert dunkelva.sum(side) == (total if present else None)
    assert dunkelva.min(side) == min(present, default=None)
    assert dunkelva.max(side) == max(present, default=None)
    joined: Dict[str, Any] = {"and": None, "or": None, "xor": None}
    for number in present:
        joined = {"and": number if joined["and"] is None else joined["and"] & number,
                  "or": (joined["or"] or 0) | number, "xor": (joined["xor"] or 0) ^ number}
    assert dunkelva.reduce_and(side) == joined["and"]
    assert dunkelva.reduce_or(side) == joined["or"]
    assert dunkelva.reduce_xor(side) == joined["xor"]
    texts: List[Any] = [None if row is None else format(row & 2 ** bits - 1, f"0{bits}b")
             for row in side.tolist()]
    counts: Tuple[Tuple[Any, Callable[[str], int]], ...] = (
        (dunkelva.count_ones, lambda text: text.count("1")),
        (dunkelva.count_zeros, lambda text: text.count("0")),
        (dunkelva.leading_ones, lambda text: len(text) - len(text.lstrip("1"))),
        (dunkelva.leading_zeros, lambda text: len(text) - len(text.lstrip("0"))),
        (dunkelva.trailing_ones, lambda text: len(text) - len(text.rstrip("1"))),
        (dunkelva.trailing_zeros, lambda text: len(text) - len(text.rstrip("0"))))
    for call, count in counts:
        assert call(side).tolist() == [None if text is None else count(text) for text in texts]


@st.composite
def _laid_out(draw: Any) -> Any:
    """Makes an array of numbers that lie one way or another."""
    dtype = np.dtype(draw(st.sampled_from([*_DTYPES, np.longlong])))
    numbers = draw(st.lists(st.integers(0, 2 ** 64 - 1) | st.integers(0, 200), max_size=40))
    rows = np.array(numbers, np.uint64).astype(dtype)
    how = draw(st.sampled_from(["as it is", "every second", "reversed", "other bytes", "odd"]))
    if how == "every second":
        rows = np.repeat(rows, 2)[::2]
    elif how == "reversed":
        rows = rows[::-1]
    elif how == "other bytes":
        rows = rows.astype(dtype.newbyteorder())
    elif how == "odd":
        rows = np.frombuffer(b"." + rows.tobytes(), dtype, offset=1)
    if draw(st.booleans()):
        masked: Any = np.ma.MaskedArray
        return masked(rows, mask=draw(st.lists(
            st.booleans(), min_size=len(rows), max_size=len(rows)) | st.just(np.ma.nomask)))
    rows.flags.writeable = rows.flags.writeable and draw(st.booleans())
    return rows


@given(_laid_out(), st.integers(0, 2 ** 64 - 1))
def test_layouts_of_numpy(rows: Any, number: int) -> None:
    """Equality and distinct values of arrays, wherever their numbers lie and whatever is masked."""
    wanted: List[Any] = rows.tolist()
    assert dunkelva.equal(rows, wanted).all()
    other = rows.copy()
    other[len(wanted) // 2:len(wanted) // 2 + 1] = np.uint64(number).astype(rows.dtype)
    pairs = list(zip(wanted, other.tolist()))
    same = [one == another for one, another in pairs]
    assert dunkelva.equal(rows, other).tolist() == same
    for way in (_plain.equal_by_ctypes, _plain.by_helper()):
        assert way is not None
        found = way(rows, other)
        assert found is None or found.tolist() == same
    present: List[Any] = sorted({row for row in wanted if row is not None})
    seen = present + [None] * (None in wanted)
    distinct: Any = dunkelva.unique(rows)
    assert distinct.tolist() == seen
    assert dunkelva.n_unique(rows) == len(seen)


_KEYS = st.sampled_from([
    st.integers(0, 4), st.sampled_from(["a", "b", "é"]), st.lists(st.integers(0, 1), max_size=2),
    st.sampled_from([decimal.Decimal("1.5"), decimal.Decimal("2")]),
    st.sampled_from([datetime.date(2024, 1, 1), datetime.date(2024, 2, 29)])])


def _table(keys: st.SearchStrategy[Any]) -> st.SearchStrategy[Any]:
    row = st.tuples(_nullable(keys), _nullable(st.integers(0, 2)), _nullable(st.integers(0, 2)),
                    _nullable(st.sampled_from(["x", "y"])))
    return st.tuples(st.lists(row, max_size=12), st.lists(row, max_size=12))


def _columns(rows: List[Any]) -> Dict[str, List[Any]]:
    return {name: [row[place] for row in rows] for place, name in enumerate(("k", "l", "n", "t"))}


@given(_KEYS.flatmap(_table), st.booleans())
def test_tables_by_key(sides: Tuple[List[Any], List[Any]], has_two: bool) -> None:
    """Compares a diff with that of a model, which takes rows from lists by their keys."""
    left, right = sides
    count = 2 if has_two else 1
    found = dunkelva.diff(_columns(left), _columns(right), on=["k", "l"][:count])
    waiting: Dict[str, List[int]] = collections.defaultdict(list)
    for place, row in enumerate(right):
        waiting[repr(row[:count])].append(place)
    wanted: List[Any] = []
    for place, row in enumerate(left):
        partners = waiting[repr(row[:count])]
        if not partners:
            wanted.append(("removed", place, None, None))
            continue
        partner = partners.pop(0)
        wanted += [("changed", place, partner, "klnt"[cell]) for cell in range(count, 4)
                   if row[cell] != right[partner][cell]]
    alone = sorted(place for partners in waiting.values() for place in partners)
    wanted += [("added", None, place, None) for place in alone]
    assert wanted == [(one.kind, one.left_row, one.right_row, one.column)
                      for one in found.differences]
    assert found.removed == sum(one[0] == "removed" for one in wanted)
    assert found.added == len(alone)
    assert found.changed == len({one[1] for one in wanted if one[0] == "changed"})
    assert found.same + found.changed + found.removed == len(left)
    for one in found.differences:
        if one.column is not None and one.left_row is not None and one.right_row is not None:
            cell = "klnt".index(one.column)
            assert (one.left, one.right) == (left[one.left_row][cell], right[one.right_row][cell])
