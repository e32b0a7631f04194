"""Tables compared by key, and what is said of their differences."""
from __future__ import annotations

import pickle
import textwrap
from typing import Any, Callable, Tuple

import numpy as np
import pandas as pd
import pytest

import dunkelva
from exported import Exported, Streamed, column, masked


def said(left: Any, right: Any, **options: Any) -> str:
    """Returns what an assertion says that fails."""
    with pytest.raises(AssertionError) as raised:
        dunkelva.assert_equal(left, right, **options)
    return str(raised.value)


def lines(text: str) -> str:
    """Returns a text without its margin."""
    return textwrap.dedent(text).strip("\n")


OLD = pd.DataFrame({"id": [1, 2, 3, 4], "city": ["Oslo", "Rome", None, "Bonn"],
                    "amount": pd.array([10, None, 12, 13], dtype="Int64"),
                    "day": pd.to_datetime(["2024-01-01", None, "2024-01-03", "2024-01-04"])})


def test_same_tables() -> None:
    turned = OLD.iloc[::-1][["day", "amount", "id", "city"]]
    dunkelva.assert_equal(OLD, turned, key="id")
    dunkelva.assert_equal(OLD, turned, on=["id"])
    dunkelva.assert_equal(OLD, OLD.copy())
    dunkelva.assert_equal([1, None], masked([1, 7], mask=[0, 1]))
    dunkelva.assert_equal({}, {})
    dunkelva.assert_equal([], [{"id": 1}][:0], key="id")


def test_report_by_key() -> None:
    new = OLD.iloc[[3, 2, 0]].copy()
    new.loc[0, "city"] = "Bergen"
    new.loc[3, "day"] = pd.Timestamp("2024-01-04 12:00:00.5")
    new.loc[2, "amount"] = pd.NA
    new.loc[9] = [9, "Kiel", 1, pd.NaT]
    assert said(OLD, new, key="id") == lines("""
        left and right differ: 3 changed, 1 removed, 1 added, 0 the same.  By column: city 1, \
amount 1, day 1.
        id  column  left                 right
        1   city    'Oslo'               'Bergen'
        2   -       row 1                no row
        3   amount  12                   null
        4   day     2024-01-04T00:00:00  2024-01-04T12:00:00.5
        9   -       no row               row 3""")
    assert said(OLD, new, key="id", show=2) == lines("""
        left and right differ: 3 changed, 1 removed, 1 added, 0 the same.  By column: city 1, \
amount 1, day 1.
        id  column  left    right
        1   city    'Oslo'  'Bergen'
        2   -       row 1   no row
        .. and 3 more rows""")


def test_report_by_places() -> None:
    assert said([1, 2, None, 4], [1, 3, 3]) == lines("""
        left and right differ: 2 changed, 1 removed, 1 the same.
        row  left   right
        1    2      3
        2    null   3
        3    row 3  no row""")
    assert said({"a": [1], "b": ["x"]}, {"a": [1, 5], "b": ["y", "z"]}) == lines("""
        left and right differ: 1 changed, 1 added, 0 the same.  By column: b 1.
        row  column  left    right
        0    b       'x'     'y'
        1    -       no row  row 1""")


def test_report_of_columns() -> None:
    left = {"id": [1], "a": [1], "b": ["x"], "c": np.array([1], "i4")}
    right = {"id": [1], "b": ["x"], "c": np.array([1], "i8"), "d": [1], "e": [1]}
    assert said(left, right, key="id") == lines("""
        left and right differ: 1 the same in the other columns.
        Only left has the columns: a.
        Only right has the columns: d, e.
        Column c: left is int32, right is int64.""")
    assert said({"a": ["x"]}, {"a": [1]}) == (
        "left and right differ: 1 the same in the other columns.\n"
        "Column a: left is large_string, right is int64.")
    dunkelva.assert_equal(left, right, key="id", ignore=["a", "c", "d", "e"])
    dunkelva.assert_equal(left, right, key="id", only="b")
    assert said(np.array([1], "i4"), np.array([1], "i8")) == (
        "left and right differ: left is int32, right is int64.")


PERIODS = pd.period_range("2024", periods=2)
UNREADABLE: Any = [PERIODS, pd.interval_range(0, 2), np.array([1j, 2]), pd.Categorical(PERIODS),
                   pd.Categorical([1, "a"]), np.zeros((2, 1, 1))]


@pytest.mark.parametrize("cells", UNREADABLE)
def test_columns_that_cannot_be_read(cells: Any) -> None:
    """They are refused only where they are compared or part of the key."""
    left: Any = {"id": [1, 2], "n": [5, 6], "p": cells}
    right: Any = {"id": [2, 1], "n": [6, 5], "p": cells}
    sides = [(left, right)]
    if np.ndim(cells) == 1:
        sides += [(pd.DataFrame(left), pd.DataFrame(right)), (left, pd.DataFrame(right))]
    for one, other in sides:
        dunkelva.assert_equal(one, other, on="id", ignore="p")
        dunkelva.assert_equal(one, other, on="id", only=["n"])
        assert dunkelva.diff(one, other, ignore=["p"]).changed == 2
        found = dunkelva.diff(one, {"id": [1, 2], "n": [5, 7]}, on="id")
        assert found.left_columns == ("p",) and found.by_column == {"n": 1}
        calls: Tuple[Callable[[], object], ...] = (
            lambda: dunkelva.diff(one, other, on="id"),
            lambda: dunkelva.diff(one, other, on="p"),
            lambda: dunkelva.equal(one, other),
            lambda: dunkelva.diff(one, {"id": [1], "n": [5], "p": [1]}, on="id"))
        for call in calls:
            with pytest.raises((dunkelva.NotServed, dunkelva.TypesDiffer),
                               match="^left: column 'p': "):
                call()
        with pytest.raises((dunkelva.NotServed, dunkelva.TypesDiffer),
                           match="^right: column 'p': "):
            dunkelva.assert_equal({"id": [1], "n": [5], "p": [1]}, other, on="id")


def test_columns_of_periods() -> None:
    table = pd.DataFrame({"id": [1, 2], "p": PERIODS})
    with pytest.raises(dunkelva.NotServed, match=r"^left: column 'p': period\[D\] is not served"):
        dunkelva.diff(table, table, on="id")
    with pytest.raises(dunkelva.NotServed, match="^left: column 't': column 'p': period"):
        dunkelva.diff({"t": table}, {"t": table})
    assert dunkelva.diff(table[["p"]], table[["p"]], ignore="p").same == 2
    assert dunkelva.diff({"p": PERIODS}, {"p": [1, 2]}, ignore="p").same == 2
    with pytest.raises(dunkelva.NotServed, match="^left: column 'a': str is no column"):
        dunkelva.equal({"a": "text"}, {"a": [1]})
    with pytest.raises(dunkelva.TypesDiffer, match=r"left: the columns have 2 \(a\), 1 \(b\)"):
        dunkelva.diff({"a": [1, 2], "b": [1], "p": PERIODS}, {})


def test_columns_of_other_libraries_that_cannot_be_read() -> None:
    held = [column(("+s", [("id", "l"), ("x", "i")]), [(1, 5), (2, 6)], 1) for _ in range(2)]
    for each in held:
        each.schema.children[1].contents.format = b"+r"
    dunkelva.assert_equal(Exported(held[0]), Exported(held[1]), on="id", ignore="x")
    with pytest.raises(dunkelva.NotServed, match="column 'x': left is format"):
        dunkelva.diff(Exported(held[0]), Exported(held[1]), on="id")


def test_long_values() -> None:
    text = said(["x" * 100 + "left" + "y" * 100], ["x" * 100 + "right" + "y" * 100])
    assert "..xxxxxxxxxxlefty" in text and "..xxxxxxxxxxrighty" in text
    assert max(map(len, text.splitlines())) < 100


def test_keys() -> None:
    left = {"a": [1, 1, 2, None, 1], "b": ["x", "x", "y", None, None], "n": [1, 2, 3, 4, 5]}
    right: Any = {"a": [1, None, 2, 1, 1], "b": ["x", None, "y", None, "x"], "n": [1, 4, 3, 5, 2]}
    assert dunkelva.diff(left, right, on=["a", "b"]).is_same
    right["n"][4] = 7
    found = dunkelva.diff(left, right, on=["a", "b"])
    assert found.differences == [dunkelva.Difference("changed", (1, "x"), 1, 4, "n", 2, 7)]
    assert pickle.loads(pickle.dumps(found)) == found
    indexed = OLD.set_index("id")
    assert dunkelva.diff(indexed, indexed[::-1], on="id").is_same
    assert dunkelva.diff(indexed, indexed[1:], on="id").differences == [
        dunkelva.Difference("removed", (1,), left_row=0)]
    for key in (pd.Categorical(["p", "q", "p"]), np.array(["2024-01-01", "NaT", "2024-01-02"],
                                                          "M8[s]"), [[1], None, [1, 2]],
                [b"a", b"", None], [True, False, None], [{"m": 1}, None, {"m": None}]):
        table = pd.DataFrame({"n": [1, 2, 3]}).assign(k=pd.Series(key))
        assert dunkelva.diff(table, table[::-1], on=["k", "n"]).is_same


def test_nested_rows_of_streams() -> None:
    kind = ("+s", [("id", "i"), ("tags", ("+l", "u")), ("kind", ("dict", "c", "u"))])
    rows = [(place, [b"a"] * (place % 3), b"p" if place % 2 else None) for place in range(50)]
    other = [(7, [b"b"], b"q") if row[0] == 7 else row for row in rows if row[0] != 20]
    left = Streamed([column(kind, part, 1) for part in (rows[:10], rows[10:])])
    right = Streamed([column(kind, part, 2) for part in (other[40:], other[5:40], other[:5])])
    found = dunkelva.diff(left, right, on="id")
    assert (found.same, found.changed, found.removed, found.added) == (48, 1, 1, 0)
    assert [(one.key, one.column, one.left, one.right) for one in found.differences] == [
        ((7,), "tags", ["a"], ["b"]), ((7,), "kind", "p", "q"), ((20,), None, None, None)]
    whole = Exported(column(kind, rows, 3))
    assert dunkelva.diff(left, whole, on="id").is_same


def test_rows_of_structs() -> None:
    """Rows that are null on one side alone are compared whole."""
    kinds = ("+s", [("a", "i"), ("b", "u")]), ("+s", [("b", "u"), ("a", "i")])
    left: Any = [(1, b"x"), (2, b"y"), None]
    right: Any = [(b"x", 1), (b"z", 2), None]
    for rows in (2, 3):
        sides = [Exported(column(kind, side[:rows], 1))
                 for kind, side in zip(kinds, (left, right))]
        found = dunkelva.diff(sides[0], sides[1])
        assert (found.same, found.changed, found.types) == (rows - 1, 1, {})
    frame, dicts = pd.DataFrame({"a": [1, 2]}), [{"a": 1}, {"a": 2}]
    dunkelva.assert_equal(frame, dicts)
    dunkelva.assert_equal(dicts, dicts)
    for side in (frame, dicts):
        assert said(side, [{"a": 1}, None]) == lines("""
            left and right differ: 1 changed, 1 the same.
            row  left      right
            1    {'a': 2}  null""")
    mixed = Exported(column(kinds[0], [(1, b"x"), None], 1))
    assert said({"b": ["x", "y"], "a": [1, 2]}, mixed) == lines("""
        left and right differ: 1 changed, 1 the same.
        row  left                right
        1    {'b': 'y', 'a': 2}  null""")
    assert said({"b": ["x", "y"], "a": ["x", "y"]}, mixed).startswith("left and right differ: left")
    with pytest.raises(dunkelva.TypesDiffer, match="has rows that are null: a key needs columns"):
        dunkelva.diff(mixed, mixed, on="a")


def test_values_of_reports() -> None:
    """Reads rows of all types back, as they are shown."""
    for kind, row, shown in (
            ("i", -5, -5), ("L", 2 ** 63, 2 ** 63), ("b", True, True), ("u", b"bytes", "bytes"),
            ("Z", b"\xff", b"\xff"), ("w:3", b"abc", b"abc"), ("tdD", 1, np.datetime64(1, "D")),
            ("tDs", 5, np.timedelta64(5, "s")),
            (("+w:2", "c"), [1, None], [1, None]), (("+m", "u", "i"), [(b"k", 1)], [("k", 1)]),
            (("dict", "C", ("+l", "i")), [1], [1]), (("+s", [("a", "i")]), (3,), {"a": 3})):
        sides = [Exported(column(("+s", [("x", kind)]), [(cell,)], 4)) for cell in (row, None)]
        found = dunkelva.diff(sides[0], sides[1]).differences
        assert [(one.left, one.right) for one in found] == [(shown, None)]


def test_a_diff_is_not_a_truth_value() -> None:
    with pytest.raises(TypeError, match="ask is_same"):
        bool(dunkelva.diff({"a": [1]}, {"a": [1]}))
