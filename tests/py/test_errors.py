"""Messages of exceptions: which argument is refused, and why."""
from __future__ import annotations

import datetime
from typing import Any

import numpy as np
import pandas as pd
import pytest

import dunkelva
from exported import Exported, Streamed, arrow, column

DUPLICATE = pd.DataFrame([[1, 2]], columns=["a", "a"])


@pytest.mark.parametrize("left, right, error, words", [
    ([1], [1, 2], dunkelva.TypesDiffer, "left has 1 rows, right has 2"),
    (np.array([1], "i4"), np.array([1], "i8"), dunkelva.TypesDiffer,
     "left is int32, right is int64"),
    ([1, "a"], [1, 2], dunkelva.TypesDiffer, "left: there are rows of int and of str"),
    ([1, 2], ["a", "b"], dunkelva.TypesDiffer, "left and right: .* rows of int and of str"),
    (np.array([1], "i1"), [300], dunkelva.TypesDiffer, "right: 300 is no int8"),
    ([1.5], np.array([1]), dunkelva.TypesDiffer, "left: a row of float is no int64"),
    (pd.Series(["a"]), pd.Series([1]), dunkelva.TypesDiffer, "left: a row of str is no int64"),
    ([datetime.date(2024, 1, 1)], np.array(["2024-01-01"], "M8[s]"), dunkelva.TypesDiffer,
     r"left: datetime.date\(2024, 1, 1\) is no timestamp\[s\]"),
    (np.array([1.5]), np.array([1.5]), dunkelva.NotServed,
     "left is float64: floats are compared with floats_by_bits=True alone.* \"Int64\"$"),
    ({"a": [1.5]}, {"a": [1.5]}, dunkelva.NotServed, "column 'a': left is float64"),
    ({"a": [1]}, {"b": [1]}, dunkelva.TypesDiffer,
     r"left alone has the columns \['a'\], and right alone has the columns \['b'\]"),
    ({"a": [1]}, {"a": [1], "b": [1]}, dunkelva.TypesDiffer,
     r"^right alone has the columns \['b'\]$"),
    ({"a": [1, 2]}, {"a": [1]}, dunkelva.TypesDiffer, "left has 2 rows, right has 1"),
    ({"a": [1, 2], "b": [1]}, {}, dunkelva.TypesDiffer, r"left: the columns have 2 \(a\), 1 \(b\)"),
    ({"a": ["x"]}, {"a": np.array([1])}, dunkelva.TypesDiffer,
     "column 'a': left: a row of str is no int64"),
    (1, [1], dunkelva.NotServed, "left: int is no column and no table"),
    ([1], "text", dunkelva.NotServed, "right: str is no column"),
    ([1], np.array(1), dunkelva.TypesDiffer, "right: an array of 0 dimensions"),
    (np.array([1j]), [1], dunkelva.NotServed, "left: an array of complex128 is not served"),
    ([object()], [1], dunkelva.TypesDiffer, "left: there is no column of object"),
    (DUPLICATE, DUPLICATE, dunkelva.TypesDiffer, "left: a name comes twice among the columns"),
    (pd.Series(pd.period_range("2024", periods=1)), [1], dunkelva.NotServed, "left: period"),
    (np.array(["2024"], "M8[Y]"), [1], dunkelva.NotServed, "left: .*days or a shorter unit"),
    ([{1: 2}], [{}], dunkelva.TypesDiffer, "left: a struct has the field 1, which is no text"),
    ([[1, ["a"]]], [[]], dunkelva.TypesDiffer, "left: there are rows of int and of list"),
])
def test_message(left: Any, right: Any, error: Any, words: str) -> None:
    with pytest.raises(error, match=words) as raised:
        dunkelva.equal(left, right)
    assert isinstance(raised.value, dunkelva.DunkelvaError)


def test_fields_of_one_name() -> None:
    """Names that come twice are refused, whatever rows are null."""
    kind, rows = ("+s", [("a", "i"), ("a", "i")]), [(1, 2), None]
    for count in (1, 2):
        side = Exported(column(kind, rows[:count], 1))
        with pytest.raises(dunkelva.TypesDiffer, match="left: a name comes twice among the colu"):
            dunkelva.equal(side, side)


def test_fields_that_are_missing() -> None:
    """An array with fewer fields than its type is refused before its fields are matched."""
    rows: Any = [(1, b"x"), None]
    good = Exported(column(("+s", [("b", "u"), ("a", "i")]), [(b"x", 1), None], 5))
    bad = broken(STRUCT, rows, set_children)
    for sides in ((good, bad), (bad, good)):
        with pytest.raises(dunkelva.BadArray):
            dunkelva.equal(*sides)


def test_types_that_differ_inside() -> None:
    kinds = [("+l", ("+s", [("a", "i"), ("b", form)])) for form in ("tsu:UTC", "tsu:Europe/Oslo")]
    sides = [Exported(column(kind, [[(1, 2)]], 1)) for kind in kinds]
    with pytest.raises(dunkelva.TypesDiffer) as raised:
        dunkelva.equal(*sides)
    assert str(raised.value) == (
        "left is timestamp[us, UTC], right is timestamp[us, Europe/Oslo] at [].b")


def broken(kind: Any, rows: Any, change: Any) -> Exported:
    """Exports a column whose structs or buffers were changed."""
    held = column(kind, rows, 5)
    change(held)
    return Exported(held)


def set_bytes(held: Any, buffer: int, place: int, number: int, size: int) -> None:
    """Overwrites a number in a buffer."""
    arrow.ctypes.memmove(held.array.buffers[buffer] + place * size,
                         number.to_bytes(size, "little", signed=True), size)


def set_offset(held: Any) -> None:
    """Lets the second offset of a column of texts go back."""
    set_bytes(held, 1, held.array.offset + 1, -1, 4)


def set_length(held: Any) -> None:
    """Makes an array longer than its children are."""
    held.array.length = 1000


def set_count(held: Any) -> None:
    """Takes a buffer away."""
    held.array.n_buffers -= 1


def set_children(held: Any) -> None:
    """Takes a child away."""
    held.array.n_children -= 1


def set_negative(held: Any) -> None:
    """Makes a length negative."""
    held.array.length = -1


def set_released(held: Any) -> None:
    """Says that the array was released."""
    held.array.release = None


def set_null(held: Any) -> None:
    """Takes the numbers away."""
    held.array.buffers[1] = None


def set_key(held: Any) -> None:
    """Lets a key name an entry that is not there."""
    for place in range(held.array.offset, held.array.offset + held.array.length):
        set_bytes(held, 1, place, 120, 1)


STRUCT = ("+s", [("a", "i"), ("b", "u")])


@pytest.mark.parametrize("kind, rows, change", [
    ("u", [b"ab", b"c", b"d"], set_offset), (STRUCT, [(1, b"x")], set_length),
    (("+w:2", "i"), [[1, 2]], set_length), ("i", [1, 2], set_count), ("u", [b"a"], set_count),
    (STRUCT, [(1, b"x")], set_children), ("i", [1], set_negative), ("i", [1], set_released),
    ("i", [1, 2], set_null), (("dict", "c", "u"), [b"a", b"b"], set_key)])
def test_lies(kind: Any, rows: Any, change: Any) -> None:
    """Lies about lengths, counts and places are refused where they can be seen."""
    good = Exported(column(kind, rows, 5))
    assert dunkelva.equal(good, good).all()
    for side, arguments in (("left", (broken(kind, rows, change), good)),
                            ("right", (good, broken(kind, rows, change)))):
        with pytest.raises((dunkelva.BadArray, dunkelva.TypesDiffer)) as raised:
            dunkelva.equal(*arguments)
        assert side in str(raised.value)
    with pytest.raises(dunkelva.BadArray):
        dunkelva.equal(broken(kind, rows, change), broken(kind, rows, change))


def test_texts() -> None:
    bad = Exported(column("u", [b"\xff"], 1))
    assert dunkelva.equal(bad, bad).all()
    with pytest.raises(dunkelva.BadArray, match="left, string: "):
        dunkelva.equal(bad, bad, check_texts=True)


def test_types_not_served() -> None:
    held = column("i", [1], 1)
    held.schema.format = b"+r"
    with pytest.raises(dunkelva.NotServed, match=r"left is format '\+r', which is not served"):
        dunkelva.equal(Exported(held), Exported(held))


def test_streams() -> None:
    stream = Streamed([column("i", [1], 1), column("i", [2], 1)], fails_at=1)
    with pytest.raises(dunkelva.BadArray, match=r"right: its stream failed: the disk is gone \(5"):
        dunkelva.equal([1, 2], stream)
    assert stream.handed == stream.released == 2


@pytest.mark.parametrize("call, words", [
    (lambda: dunkelva.compare([1], "=", [1]), "'=' is none of the tests"),
    (lambda: dunkelva.compare(["a"], "<", ["b"]), "left and right are large_string"),
    (lambda: dunkelva.compare(["a"], "<", 1), "left is large_string, which is not served here"),
    (lambda: dunkelva.compare([1.5], "<", 1), "left is float64, which is not served here"),
    (lambda: dunkelva.compare(["a"], "==", "b"), "left is large_string, which is not served here"),
    (lambda: dunkelva.compare([1], "==", "b"), "right: a row of str is no int64"),
    (lambda: dunkelva.compare([1], "<", [1, 2]), "left has 1 rows, right has 2"),
    (lambda: dunkelva.compare([1], "<", None), "right: a value for all rows is no null"),
    (lambda: dunkelva.compare({"a": [1]}, "<", {"a": [1]}), "left is a table"),
    (lambda: dunkelva.sum(["a"]), "column is large_string, which is not served here"),
    (lambda: dunkelva.sum(np.array(["2024-01-01"], "M8[D]")), "date32, which has no sum"),
    (lambda: dunkelva.min([1.5]), "column is float64"),
    (lambda: dunkelva.unique(pd.Series([1, None])), "column is float64, .* is \"Int64\"$"),
    (lambda: dunkelva.n_unique(pd.Series([1, None])), "column is float64, .* is \"Int64\"$"),
    (lambda: dunkelva.unique(["a"]), "column is large_string, which is not served here$"),
    (lambda: dunkelva.Unique(0, 9, float), "range: float64 is not served here.* \"Int64\"$"),
    (lambda: dunkelva.count_ones({"a": [1]}), "column: it is a table"),
    (lambda: dunkelva.is_null({"a": [1]}), "column: it is a table"),
    (lambda: dunkelva.diff([1], [1], on="id"), "left is no table"),
    (lambda: dunkelva.diff({"a": [1.5]}, {"a": [1.5]}, on="a"),
     "column 'a' of the key is float64: .* a key has none.* \"Int64\"$"),
    (lambda: dunkelva.diff({"a": [1]}, {"a": ["1"]}, on="a"), "column 'a'"),
])
def test_other_calls(call: Any, words: str) -> None:
    with pytest.raises(ValueError, match=words):
        call()


def test_names_that_are_missing() -> None:
    with pytest.raises(KeyError, match="right has no column 'id' for the key"):
        dunkelva.diff({"id": [1]}, {"a": [1]}, on="id")
    with pytest.raises(KeyError, match="neither left nor right has a column 'x'"):
        dunkelva.assert_equal({"id": [1]}, {"id": [1]}, key="id", ignore="x")
    with pytest.raises(TypeError, match="key is another name for on"):
        dunkelva.assert_equal({"id": [1]}, {"id": [1]}, key="id", on="id")
