"""Rows of two tables that belong together: those of one key, the n-th with the n-th."""
from __future__ import annotations

from typing import Any, Dict, Hashable, NamedTuple, Sequence, Tuple

import numpy as np
import numpy.typing as npt

from ._library import compare
from ._structs import Column
from ._values import names_of, numbers_of, present_rows

_Places = npt.NDArray[np.int64]


class Matched(NamedTuple):
    """Rows of both sides that belong together, in the order of left, and rows of one side alone."""

    left: _Places
    right: _Places
    only_left: _Places
    only_right: _Places


def match(keys: Sequence[Tuple[Column, Column]], left_rows: int, right_rows: int) -> Matched:
    """Matches rows by columns of the key, or by their places where the key has no column."""
    if not keys:
        both = min(left_rows, right_rows)
        return Matched(np.arange(both), np.arange(both), np.arange(both, left_rows),
                       np.arange(both, right_rows))
    codes: _Places = np.zeros(left_rows + right_rows, np.int64)
    for place, (left, right) in enumerate(keys):
        for side, column in (("left", left), ("right", right)):
            compare(column, column, 0, f"the key of {side}: ")  # refuses a bad array
        more = _codes(left, right)
        codes = more if place == 0 else _numbered(codes * (int(more.max(initial=0)) + 1) + more)
    # for each row: how many rows before it on its side have its key
    nth = np.concatenate([_occurrences(codes[:left_rows]), _occurrences(codes[left_rows:])])
    if nth.any():
        codes = _numbered(codes * (int(nth.max()) + 1) + nth)
    places = np.full(int(codes.max(initial=-1)) + 1, -1, np.int64)
    places[codes[left_rows:]] = np.arange(right_rows)
    partners = places[codes[:left_rows]]
    found = np.flatnonzero(partners >= 0)
    return Matched(found, partners[found], np.flatnonzero(partners < 0),
                   _others(partners[found], right_rows))


def _others(places: _Places, rows: int) -> _Places:
    alone = np.ones(rows, np.bool_)
    alone[places] = False
    return np.flatnonzero(alone)


def _numbered(names: npt.NDArray[Any]) -> _Places:
    """Numbers the different values from 0 on."""
    numbers: _Places = np.unique(names, return_inverse=True)[1].astype(np.int64)
    return numbers


def _occurrences(codes: _Places) -> _Places:
    """Returns for each row how many rows before it have its code."""
    if len(codes) == 0 or int(np.bincount(codes).max()) == 1:
        return np.zeros(len(codes), np.int64)
    order = np.argsort(codes, kind="stable")
    ordered = codes[order]
    is_first = np.concatenate([[True], ordered[1:] != ordered[:-1]])[:len(codes)]
    first = np.maximum.accumulate(np.where(is_first, np.arange(len(codes)), 0))
    counts = np.empty(len(codes), np.int64)
    counts[order] = np.arange(len(codes)) - first
    return counts


def _codes(left: Column, right: Column) -> _Places:
    """Numbers the keys of both sides, first those of left: the same number for the same key."""
    chunks = [*left.chunks, *right.chunks]
    if left.type.number() is not None and left.type.entries is None:
        numbers = np.concatenate([numbers_of(chunk) for chunk in chunks])
        present = np.concatenate([present_rows(chunk) for chunk in chunks])
        codes = np.zeros(len(numbers), np.int64)
        codes[present] = _numbered(numbers[present]) + 1
        return codes
    seen: Dict[Hashable, int] = {}
    return np.array([seen.setdefault(name, len(seen)) for chunk in chunks
                     for name in names_of(chunk)], np.int64)
