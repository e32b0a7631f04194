#!/usr/bin/python3
"""Times the package for Python beside numpy and pandas.

usage: python.py [ROWS ..]

Prints nanoseconds a row, each the best of many runs, for columns of 16,384, 1,000,000 and 8,000,000
rows or as asked. Calls of one line compute the same, and take turns, so that other work slows all
of them. DUNKELVA_LIBRARY names the library where the package is not installed. A column that the
library does not serve is left out.
"""
from __future__ import annotations

import ctypes
import pathlib
import sys
import time
from typing import Any, Callable, Dict, Iterator, List, Tuple

import numpy as np
import pandas as pd

sys.path.append(str(pathlib.Path(__file__).resolve().parents[2] / "bindings/python"))

import dunkelva  # noqa: E402
from dunkelva import _plain, _structs  # noqa: E402
from dunkelva._types import Type  # noqa: E402

_masked_array: Any = np.ma.masked_array  # which has no types
_capsule = ctypes.pythonapi.PyCapsule_New
_capsule.restype = ctypes.py_object
_capsule.argtypes = [ctypes.c_void_p, ctypes.c_char_p, ctypes.c_void_p]

# Turns that each call takes, and how long one is, in seconds.
ROUNDS, SECONDS = 8, 0.15

Line = Tuple[str, Dict[str, Callable[[], Any]]]


def lines(rows: int) -> Iterator[Line]:
    """Makes what is timed: what is computed, and the calls that compute it."""
    left = np.arange(rows)
    right = left.copy()
    right[::7] += 1
    yield "int64, equal", {"dunkelva": lambda: dunkelva.equal(left, right),
                           "numpy": lambda: left == right}
    small = left.astype(np.int32), right.astype(np.int32)
    yield "int32, equal", {"dunkelva": lambda: dunkelva.equal(*small),
                           "numpy": lambda: small[0] == small[1]}
    masked: List[Any] = [_masked_array(side.astype(np.int32), left % step == 0)
              for side, step in ((left, 3), (right, 5))]
    yield "int32, masked, equal", {"dunkelva": lambda: dunkelva.equal(*masked),
                                   "numpy": lambda: masked[0] == masked[1]}
    yield "int32, masked, sum", {"dunkelva": lambda: dunkelva.sum(masked[0]),
                                 "numpy": lambda: masked[0].sum(dtype=np.int32)}
    yield "int32, masked, min_max", {"dunkelva": lambda: dunkelva.min_max(masked[0]),
                                     "numpy": lambda: (masked[0].min(), masked[0].max())}
    yield "int32, masked, add", {"dunkelva": lambda: dunkelva.add(*masked),
                                 "numpy": lambda: masked[0] + masked[1]}
    yield "int32, masked, mod 7", {"dunkelva": lambda: dunkelva.mod(masked[0], 7),
                                   "numpy": lambda: masked[0] % 7}
    nulls = [pd.Series(pd.arrays.IntegerArray(side.copy(), left % step == 0))
             for side, step in ((left, 3), (right, 5))]
    yield "Int64 with nulls, equal", {
        "dunkelva": lambda: dunkelva.equal(*nulls),
        "numpy": lambda: _equal_masked(nulls), "pandas": lambda: nulls[0] == nulls[1]}
    yield "Int64 with nulls, less", {
        "dunkelva": lambda: dunkelva.compare(nulls[0], "<", nulls[1]),
        "pandas": lambda: nulls[0] < nulls[1]}
    yield "Int64 with nulls, sum", {"dunkelva": lambda: dunkelva.sum(nulls[0]),
                                    "pandas": lambda: nulls[0].sum()}
    yield from distinct(left * 7919 % 50_000, left % 3 == 0)
    texts = [pd.Series((side % 1000).astype(str)).astype(object) for side in (left, right)]
    buffers = [Texts(side) for side in texts]
    yield "texts, equal", {"dunkelva": lambda: dunkelva.equal(*buffers),
                           "pandas": lambda: texts[0] == texts[1]}
    if rows > 1_000_000:
        return
    yield "texts in objects, equal", {"dunkelva": lambda: dunkelva.equal(*texts),
                                      "pandas": lambda: texts[0] == texts[1]}
    words = pd.Categorical.from_codes(left % 3, ["a", "b", "c"])
    kinds = [pd.Series(words), pd.Series(words).shift(1)]
    yield "category, equal", {"dunkelva": lambda: dunkelva.equal(*kinds),
                              "pandas": lambda: kinds[0] == kinds[1]}
    frames = [pd.DataFrame({"id": left, "n": one}) for one in nulls]
    turned = frames[1].sample(frac=1, random_state=1, ignore_index=True)
    yield "two columns by key", {
        "dunkelva": lambda: dunkelva.diff(frames[0], turned, on="id", limit=0),
        "pandas": lambda: _differences(frames[0], turned)}


def distinct(numbers: Any, nulls: Any) -> Iterator[Line]:
    """Makes what is timed of distinct values."""
    plain, codes = pd.Series(numbers), pd.Series(pd.arrays.IntegerArray(numbers, nulls))
    yield "int64, unique", {"dunkelva": lambda: dunkelva.unique(numbers),
                            "numpy": lambda: np.unique(numbers), "pandas": lambda: plain.unique()}
    yield "int64, n_unique", {"dunkelva": lambda: dunkelva.n_unique(numbers),
                              "pandas": lambda: plain.nunique()}
    yield "Int64 with nulls, unique", {"dunkelva": lambda: dunkelva.unique(codes),
                                       "pandas": lambda: codes.unique()}
    yield "Int64 with nulls, n_unique", {"dunkelva": lambda: dunkelva.n_unique(codes),
                                         "pandas": lambda: codes.nunique(dropna=False)}
    chance = np.random.default_rng(1)
    some = pd.Series(pd.arrays.IntegerArray(numbers, chance.random(len(numbers)) < 1 / 3))
    yield "nulls in no order, unique", {"dunkelva": lambda: dunkelva.unique(some),
                                        "pandas": lambda: some.unique()}
    wide = pd.Series(chance.integers(-2 ** 63, 2 ** 63 - 1, len(numbers)))
    yield "wide int64, unique", {"dunkelva": lambda: dunkelva.unique(wide),
                                 "numpy": lambda: np.unique(wide.to_numpy()),
                                 "pandas": lambda: wide.unique()}


class Texts:
    """A column of texts as programs export it that keep them in the layout of Arrow."""

    def __init__(self, objects: Any) -> None:
        texts = [text.encode() for text in objects]
        offsets = np.zeros(len(texts) + 1, np.int32)
        np.cumsum([len(text) for text in texts], out=offsets[1:])
        buffers = [None, offsets, np.frombuffer(b"".join(texts), np.uint8)]
        self._chunk = _structs.make(Type("u"), len(texts), buffers)

    def __arrow_c_array__(self, requested_schema: object = None) -> Tuple[object, object]:
        return (_capsule(ctypes.addressof(self._chunk.schema), b"arrow_schema", None),
                _capsule(ctypes.addressof(self._chunk.array), b"arrow_array", None))


def _equal_masked(sides: List[Any]) -> Any:
    """Compares by numpy, null equal to null alone."""
    left, right = (side.array for side in sides)
    return np.where(left._mask | right._mask, left._mask & right._mask, left._data == right._data)


def _differences(left: Any, right: Any) -> int:
    """Joins by pandas, and counts the rows that differ."""
    both = left.merge(right, on="id", how="outer", indicator=True)
    same = (both["n_x"] == both["n_y"]).fillna(False) | both["n_x"].isna() & both["n_y"].isna()
    return int((~same | (both["_merge"] != "both")).sum())


def best(calls: Dict[str, Callable[[], Any]]) -> Dict[str, float]:
    """Returns the shortest of the times of many runs of each call, in seconds."""
    found: Dict[str, float] = {}
    for _ in range(ROUNDS):
        for name, call in calls.items():
            end = time.perf_counter() + SECONDS
            runs = 0
            while runs == 0 or time.perf_counter() < end:
                start = time.perf_counter()
                call()
                took = time.perf_counter() - start
                found[name] = min(took, found.get(name, took))
                runs += 1
    return found


def main() -> None:
    """Times all calls, and prints a table."""
    helper = "no helper" if _plain.equal_plain is _plain.equal_by_ctypes else "its helper"
    print(f"{pathlib.Path(dunkelva.__file__).parent}, with {helper}", file=sys.stderr)
    print(f"{'ns a row':26}{'rows':>10}{'dunkelva':>10}{'numpy':>10}{'pandas':>10}")
    for rows in [int(text) for text in sys.argv[1:]] or [16_384, 1_000_000, 8_000_000]:
        for what, calls in lines(rows):
            try:
                found = {name: f"{seconds / rows * 1e9:.2f}"
                         for name, seconds in best(calls).items()}
            except dunkelva.NotServed:
                continue
            cells = "".join(f"{found.get(name, '-'):>10}" for name in ("dunkelva", "numpy",
                                                                       "pandas"))
            print(f"{what:26}{rows:>10}{cells}", flush=True)


if __name__ == "__main__":
    main()
