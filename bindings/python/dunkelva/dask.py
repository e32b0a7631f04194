"""Comparisons of data frames of Dask. Each partition is compared on the worker that has it."""
from __future__ import annotations

import dataclasses
import pickle
from typing import Any, Iterable, List, Optional, Sequence, Tuple, Union

import numpy as np
import pandas
from dask.base import compute
from dask.delayed import delayed

from . import equal as _equal
from ._diff import Diff, diff as _diff
from ._library import FLOATS_OF_PANDAS, NotServed, TypesDiffer
from ._unique import Unique

__all__ = ["equal", "diff", "unique"]

# The place of a row in the whole table, which decides the order of rows of one key.
_PART, _ROW = "dunkelva: part", "dunkelva: row"


def equal(left: Any, right: Any, *, floats_by_bits: bool = False) -> Any:
    """Compares two data frames of Dask row by row, as `dunkelva.equal` does.

    Partitions are matched by position, so both sides need the same number of partitions, and
    partitions of the same lengths.

    Parameters
    ----------
    left, right : DataFrame of Dask
        The two sides.
    floats_by_bits : bool
        As in `dunkelva.equal`.

    Returns
    -------
    Series of Dask
        For each row True if the two rows are equal. The index is that of `left`.

    Raises
    ------
    TypesDiffer
        If the numbers of partitions differ. `compute` raises the exceptions of `dunkelva.equal`.

    Examples
    --------
    >>> import dask.dataframe as dd, pandas as pd
    >>> old = dd.from_pandas(pd.DataFrame({"a": [1, 2, 3], "b": [5, 6, 7]}), npartitions=2)
    >>> new = dd.from_pandas(pd.DataFrame({"a": [1, 2, 4], "b": [5, 6, 7]}), npartitions=2)
    >>> equal(old, new).compute().tolist()
    [True, True, False]
    """
    if left.npartitions != right.npartitions:
        raise TypesDiffer(f"left has {left.npartitions} partitions, right has {right.npartitions}")

    def part(one: Any, other: Any) -> Any:
        same = _equal(one, other, floats_by_bits=floats_by_bits)
        return pandas.Series(same, index=one.index, name="equal")

    meta = pandas.Series([], dtype=bool, name="equal", index=left._meta.index)
    # partitions belong together by their places: the index is not looked at
    return left.map_partitions(part, right, meta=meta, align_dataframes=False)


def diff(left: Any, right: Any, on: Union[str, Sequence[str]], *,
         only: Optional[Iterable[str]] = None, ignore: Iterable[str] = (),
         floats_by_bits: bool = False, limit: Optional[int] = None) -> Diff:
    """Compares two data frames of Dask. Rows are matched by a key.

    Dask shuffles both sides by the key, and each pair of partitions is compared on one worker. The
    call computes at once.

    Parameters
    ----------
    left, right : DataFrame of Dask
        The two sides.
    on : str or sequence of str
        The columns of the key.
    only, ignore, floats_by_bits, limit
        As in `dunkelva.diff`.

    Returns
    -------
    Diff
        As from `dunkelva.diff`. Rows are numbered from 0 through the whole data frame. Differences
        are in the order of the rows of `left`, and then of the added rows of `right`.

    Raises
    ------
    ValueError
        If `on` is empty.
    KeyError, TypesDiffer, NotServed, BadArray
        As in `dunkelva.diff`.

    Examples
    --------
    >>> import dask.dataframe as dd, pandas as pd
    >>> old = dd.from_pandas(pd.DataFrame({"id": [1, 2, 3], "n": [5, 6, 7]}), npartitions=2)
    >>> new = dd.from_pandas(pd.DataFrame({"id": [3, 1, 4], "n": [7, 8, 9]}), npartitions=2)
    >>> print(diff(old, new, on="id"))
    1 changed, 1 removed, 1 added, 1 the same.  By column: n 1.
    id  column  left    right
    1   n       5       8
    2   -       row 1   no row
    4   -       no row  row 2
    """
    keys = [on] if isinstance(on, str) else list(on)
    if not keys:
        raise ValueError("a shuffle needs a key")
    _check_keys(left, right, keys)
    options = {"only": only if only is None else _listed(only), "ignore": _listed(ignore),
               "floats_by_bits": floats_by_bits, "limit": limit}
    parts = max(left.npartitions, right.npartitions)
    sides = [_placed(side).shuffle(on=keys, npartitions=parts, ignore_index=True).to_delayed()
             for side in (left, right)]
    lengths = [side.map_partitions(len, meta=pandas.Series([], dtype="int64")).to_delayed()
               for side in (left, right)]
    compared = [delayed(_compare)(one, other, keys, options) for one, other in zip(*sides)]
    found, left_lengths, right_lengths = compute(compared, *lengths)
    return _merged(found, _starts(left_lengths), _starts(right_lengths), limit)


def _listed(names: Iterable[str]) -> List[str]:
    return [names] if isinstance(names, str) else list(names)


def _check_keys(left: Any, right: Any, keys: List[str]) -> None:
    """Refuses keys that one side lacks, or that would be shuffled in two ways."""
    for side, frame in (("left", left), ("right", right)):
        for name in keys:
            if name not in frame.columns:
                raise KeyError(f"{side} has no column {name!r} for the key")
    for name in keys:
        types = [frame[name].dtype for frame in (left, right)]
        for side, kind in zip(("left", "right"), types):
            if kind.kind == "f":
                raise NotServed(f"column {name!r} of the key: {side} is {kind}, and floats are no "
                                f"keys. {FLOATS_OF_PANDAS}")
        if types[0] != types[1] and "category" not in map(str, types):
            raise TypesDiffer(f"column {name!r} of the key: left is {types[0]}, right is "
                              f"{types[1]}")


def _placed(frame: Any) -> Any:
    """Adds to each row its partition and its place in that."""
    def part(rows: Any, partition_info: Any = None) -> Any:
        number = 0 if partition_info is None else partition_info["number"]
        return rows.assign(**{_PART: np.int64(number), _ROW: np.arange(len(rows))})

    meta = frame._meta.assign(**{_PART: np.int64(0), _ROW: np.int64(0)})
    return frame.map_partitions(part, meta=meta)


def _compare(left: Any, right: Any, keys: List[str], options: Any) -> Tuple[Diff, Any, Any]:
    """Compares a pair of partitions, and returns the places of rows that differ as well."""
    ordered = [side.sort_values([_PART, _ROW], kind="stable") for side in (left, right)]
    places = [side[[_PART, _ROW]].to_numpy() for side in ordered]
    plain = [side.drop(columns=[_PART, _ROW]) for side in ordered]
    found = _diff(plain[0], plain[1], keys, **options)
    rows = [[(row, tuple(place[row])) for row in {getattr(each, f"{side}_row")
                                                  for each in found.differences} - {None}]
            for side, place in zip(("left", "right"), places)]
    return found, dict(rows[0]), dict(rows[1])


def _starts(lengths: Sequence[int]) -> List[int]:
    return [int(start) for start in np.cumsum([0, *lengths])]


def _merged(found: Sequence[Tuple[Diff, Any, Any]], left_starts: List[int],
            right_starts: List[int], limit: Optional[int]) -> Diff:
    """Adds up what was found in all partitions, with rows counted through the whole table."""
    first = found[0][0]
    total = dataclasses.replace(first, same=0, changed=0, removed=0, added=0, by_column={},
                                differences=[])

    def row(places: Any, starts: List[int], place: Optional[int]) -> Optional[int]:
        return None if place is None else starts[places[place][0]] + int(places[place][1])

    for each, lefts, rights in found:
        for name in ("same", "changed", "removed", "added"):
            setattr(total, name, getattr(total, name) + getattr(each, name))
        for column, count in each.by_column.items():
            total.by_column[column] = total.by_column.get(column, 0) + count
        total.types.update(each.types)
        total.differences += [dataclasses.replace(
            one, left_row=row(lefts, left_starts, one.left_row),
            right_row=row(rights, right_starts, one.right_row)) for one in each.differences]
    total.differences.sort(key=lambda one: (
        one.left_row is None, one.right_row if one.left_row is None else one.left_row))
    del total.differences[len(total.differences) if limit is None else limit:]
    return total


def unique(series: Any, low: object, high: object) -> Unique:
    """Collects the distinct values of a Series of Dask.

    Each worker makes a state of its partitions, and states are merged two by two.

    Parameters
    ----------
    series : Series of Dask
        A column of a type that `dunkelva.compare` takes.
    low, high : value
        The least and the greatest value that the column may have.

    Returns
    -------
    Unique
        The state of the whole column.

    Raises
    ------
    OutOfRange
        If a row is outside of the range.

    Examples
    --------
    >>> import dask.dataframe as dd, pandas as pd
    >>> ages = dd.from_pandas(pd.Series([30, 41, 30, 7], dtype="Int64"), npartitions=2)
    >>> unique(ages, 0, 150).values.tolist()
    [7, 30, 41]
    """
    kind = series.dtype
    states = [delayed(_state_of)(part, low, high, kind) for part in series.to_delayed()]
    while len(states) > 1:
        states = [delayed(_joined)(states[at:at + 2]) for at in range(0, len(states), 2)]
    found: Unique = states[0].compute()
    return found


def _state_of(part: Any, low: object, high: object, kind: object) -> Unique:
    state = Unique(low, high, kind)
    state.append(part)
    return state


def _joined(states: Sequence[Unique]) -> Unique:
    """Merges states into a new one: those of Dask are not written to."""
    made = pickle.loads(pickle.dumps(states[0]))
    for state in states[1:]:
        made.merge(state)
    joined: Unique = made
    return joined
