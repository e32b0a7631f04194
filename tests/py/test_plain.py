"""Plain arrays of numpy by the helper, by ctypes and by what serves other columns: one result."""
from __future__ import annotations

import concurrent.futures
import ctypes
import importlib
import pickle
import sys
import threading
import time
from typing import Any, Callable, Dict, List

import numpy as np
import pytest

import dunkelva
from dunkelva import _plain
from dunkelva._structs import ArrowArray, ArrowSchema
from exported import masked

_helper = _plain.by_helper()
assert _helper is not None, "the helper was not compiled, or is not loaded"
WAYS: Dict[str, Any] = {"helper": _helper, "ctypes": _plain.equal_by_ctypes}
WHOLE = "bBhHiIlLqQ"


class Kind(np.ndarray):  # type: ignore[type-arg]
    """A class of arrays over that of numpy."""


def _arrays(rows: int) -> Dict[str, Any]:
    """Makes arrays of all kinds. Rows of the same place are mostly the same number."""
    numbers = np.arange(rows) % 100
    made: Dict[str, Any] = {letter: numbers.astype(letter) for letter in WHOLE + "?efdgFDSUO"}
    made.update({f">{size}": numbers.astype(f">{size}") for size in ("i2", "i4", "u8", "f8")})
    small = numbers.astype("i4")
    for name, array in (("i", small), ("l", numbers.copy())):
        array = array.copy()
        array[1::2] = -1
        made[f"{name}, other numbers"] = array
    wide = np.repeat(small, 2)
    readable = small.copy()
    readable.flags.writeable = False
    table = np.zeros(rows, [("a", "i1"), ("b", "i4")])
    table["b"] = numbers
    dtype: Any = np.dtype  # whose types know no metadata
    made.update({
        "strided": wide[::2], "reversed": small[::-1],
        "no stride": np.broadcast_to(small[:1], rows), "read only": readable,
        "not aligned": np.frombuffer(b"." + small.tobytes(), "i4", -1, 1),
        "pickled": pickle.loads(pickle.dumps(small)),
        "metadata": small.astype(dtype("i4", metadata={"unit": "m"})),
        "no dimension": np.array(7), "two": wide.reshape(rows, 2), "fewer": small[:-1],
        "a column": wide.reshape(rows, 2)[:, 1], "one column": small.reshape(rows, 1),
        "structs": table, "a field": table["b"], "records": table.view(np.recarray),
        "masked": masked(small), "some masked": masked(small, mask=numbers % 3 == 0),
        "class": small.view(Kind), "bytes": small.view("V4"), "list": small.tolist(),
        "days": numbers.astype("M8[D]"), "seconds": numbers.astype("m8[s]")})
    return made


def _outcome(left: Any, right: Any) -> Any:
    """Returns the rows that are equal, or what was raised."""
    try:
        same: Any = dunkelva.equal(left, right, floats_by_bits=True)
    except Exception as error:
        return type(error), str(error)
    assert type(same) is np.ndarray and same.dtype == np.bool_ and same.flags.owndata
    return same.tolist()


def _outcomes(monkeypatch: pytest.MonkeyPatch, rows: int, way: Any) -> Dict[Any, Any]:
    """Compares each array with each other one."""
    made = _arrays(rows)
    monkeypatch.setattr(dunkelva, "equal_plain", way)
    return {(one, other): _outcome(left, right) for one, left in made.items()
            for other, right in made.items()}


@pytest.mark.parametrize("rows", [1, 9])
def test_kinds_of_arrays(monkeypatch: pytest.MonkeyPatch, rows: int) -> None:
    wanted = _outcomes(monkeypatch, rows, lambda left, right: None)
    assert wanted["i", "i"] == [True] * rows and "right is int64" in wanted["i", "l"][1]
    for way in WAYS.values():
        found = _outcomes(monkeypatch, rows, way)
        assert {pair: one for pair, one in found.items() if one != wanted[pair]} == {}


@pytest.mark.parametrize("way", WAYS)
def test_no_rows(way: str) -> None:
    for letter in WHOLE:
        none = np.zeros(0, letter)
        assert WAYS[way](none, none) is None
        assert dunkelva.equal(none, none).tolist() == []


@pytest.mark.parametrize("way", WAYS)
def test_plain_arrays_are_served(way: str) -> None:
    """Arrays of whole numbers need no other way, and others do."""
    made = _arrays(5)
    names = [*WHOLE, "i, other numbers", "l, other numbers", "read only", "pickled", "metadata",
             "fewer"]
    for name, array in made.items():
        same = WAYS[way](array, array)
        if name != "not aligned":  # which ctypes serves
            assert (same is not None) == (name in names), name
        assert same is None or same.all()
    assert WAYS[way](made["l"], made["q"]).tolist() == [True] * 5
    for left, right in (("i", "l"), ("i", "I"), ("i", "fewer"), ("i", ">i4"), ("i", "list")):
        assert WAYS[way](made[left], made[right]) is None


@pytest.mark.parametrize("way", WAYS)
def test_many_rows(way: str) -> None:
    """Lengths around those of windows and of short columns, and views that overlap."""
    chance = np.random.default_rng(3)
    for rows in (63, 64, 65, 16383, 16384, 16385, 32768, 32769, 100_003):
        both = chance.integers(0, 3, rows + 1, np.int16)
        left, right = both[1:], both[:-1]
        assert (WAYS[way](left, right) == (left == right)).all()
        assert WAYS[way](left, left).all()


@pytest.mark.parametrize("way", WAYS)
def test_eight_threads(way: str) -> None:
    """Short and long columns, which the threads share."""
    sides = [np.arange(rows) for rows in (100, 5000, 200_000)]
    others = [[left + (left % 8 == number) for number in range(8)] for left in sides]

    def work(number: int) -> bool:
        return all((WAYS[way](left, rights[number]) == (left % 8 != number)).all()
                   for _ in range(20) for left, rights in zip(sides, others))

    with concurrent.futures.ThreadPoolExecutor(8) as pool:
        assert list(pool.map(work, range(8))) == [True] * 8


def _keeping(call: Any = None, empty: Any = np.empty) -> Callable[..., Any]:
    """Returns the function of the helper, over another call or another way to make arrays."""
    address = ctypes.cast(_plain._equal if call is None else call, ctypes.c_void_p).value
    made: Callable[..., Any] = importlib.import_module("dunkelva._quick").keeping(
        (address, np.ndarray, empty, np.dtype(np.bool_)))
    return made


_CALL = ctypes.CFUNCTYPE(ctypes.c_int32, ctypes.POINTER(ArrowSchema), ctypes.POINTER(ArrowArray),
                         ctypes.POINTER(ArrowSchema), ctypes.POINTER(ArrowArray), ctypes.c_uint32,
                         ctypes.c_void_p, ctypes.c_size_t)


def test_what_the_helper_hands_over() -> None:
    sides = np.arange(9, dtype="u2"), np.arange(9, dtype="u2")
    seen: List[Any] = []

    def call(*arguments: Any) -> int:
        for type, rows, side in zip(arguments[0:4:2], arguments[1:4:2], sides):
            one, array = type.contents, rows.contents
            assert one.format == b"S" and one.name == b"" and one.release and array.release
            assert not one.n_children and not one.dictionary and not array.dictionary
            assert (array.length, array.null_count, array.offset, array.n_buffers,
                    array.n_children) == (9, 0, 0, 2, 0)
            assert array.buffers[0] is None and array.buffers[1] == side.ctypes.data
        seen.append((arguments[4], arguments[6]))
        ctypes.memset(arguments[5], 1, 9)
        return 0

    assert _keeping(_CALL(call))(*sides).tolist() == [True] * 9
    assert seen == [(0, 9)]


def test_failures_of_the_helper() -> None:
    """Where a call fails, or memory is lacking, it returns None, and holds on to nothing."""
    array = np.arange(9)

    def refused(*_: Any) -> Any:
        raise MemoryError

    ways = [_keeping(_CALL(lambda *_: 4)), _keeping(empty=refused), _keeping(empty=lambda *_: 7),
            _keeping(empty=lambda rows, _: b"\0" * rows)]
    before = sys.getrefcount(array), sys.getrefcount(None)
    for way in ways:
        for _ in range(100):
            assert way(array, array) is None
    assert sys.getrefcount(array) == before[0]
    assert abs(sys.getrefcount(None) - before[1]) < 50
    array.resize(12, refcheck=False)  # no buffer is held
    for arguments in ((), (array,), (array, None), (None, array), (1, 2), ([1], [1])):
        assert _keeping()(*arguments) is None
    for kept in ((), (1, 2, 3), [1, 2, 3, 4], None):
        with pytest.raises(SystemError):
            importlib.import_module("dunkelva._quick").keeping(kept)


def test_without_the_helper(monkeypatch: pytest.MonkeyPatch) -> None:
    modules: Any = sys.modules
    monkeypatch.setitem(modules, "dunkelva._quick", None)
    assert _plain.by_helper() is None


def test_the_lock_is_let_go() -> None:
    """Counts how often another thread runs while the helper compares a long column."""
    left = np.zeros(20_000_000, np.int64)
    counts = [0]
    stop = threading.Event()

    def count() -> None:
        while not stop.is_set():
            counts[0] += 1
            time.sleep(0)

    other = threading.Thread(target=count)
    other.start()
    try:
        while not counts[0]:
            time.sleep(0.001)
        before = counts[0]
        assert WAYS["helper"](left, left).all()
        during = counts[0] - before
    finally:
        stop.set()
        other.join()
    assert during > 10
