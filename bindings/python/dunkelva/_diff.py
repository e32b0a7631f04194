"""Two tables compared by key: rows that belong together, what differs in them, and a report."""
from __future__ import annotations

import dataclasses
from typing import Dict, Iterable, List, Optional, Sequence, Tuple, Union

import numpy as np
import numpy.typing as npt

from ._library import FLOATS_BY_BITS, TypesDiffer, compare, compare_rows, not_served
from ._match import Matched, match
from ._sources import Rows, Side, Source, Table, as_rows, pair, pair_rows, read, typed
from ._structs import Column
from ._values import gathered, values_at

_Places = npt.NDArray[np.int64]


@dataclasses.dataclass(frozen=True)
class Difference:
    """One difference between two tables: a cell that differs, or a row that only one side has.

    Attributes
    ----------
    kind : {"changed", "removed", "added"}
        "changed" for a cell that differs, "removed" for a row that only left has, "added" for a row
        that only right has.
    key : tuple
        The values of the key columns in this row. Empty if rows are matched by position.
    left_row, right_row : int or None
        The numbers of the rows, from 0. An added row has no `left_row`, and a removed row has no
        `right_row`.
    column : str or None
        The name of the column with the cell. None for rows that only one side has.
    left, right : object
        The two cells. None for rows that only one side has.
    """

    kind: str
    key: Tuple[object, ...]
    left_row: Optional[int] = None
    right_row: Optional[int] = None
    column: Optional[str] = None
    left: object = None
    right: object = None


@dataclasses.dataclass
class Diff:
    """All differences between two tables. `str` returns a report of them."""

    #: The columns of the key. Empty if rows were matched by position.
    key: Tuple[str, ...]
    #: The numbers of rows that are the same, changed, only in left (removed) or right (added).
    same: int = 0
    changed: int = 0
    removed: int = 0
    added: int = 0
    #: For each column with differences, the number of rows in which it differs.
    by_column: Dict[str, int] = dataclasses.field(default_factory=dict)
    #: The columns that only one side has.
    left_columns: Tuple[str, ...] = ()
    right_columns: Tuple[str, ...] = ()
    #: For each column whose type differs, the two types. Its rows are not compared.
    types: Dict[str, Tuple[str, str]] = dataclasses.field(default_factory=dict)
    #: The first differences, at most `limit`.
    differences: List[Difference] = dataclasses.field(default_factory=list)

    @property
    def is_same(self) -> bool:
        """True if there is no difference."""
        return not (self.changed or self.removed or self.added or self.left_columns
                    or self.right_columns or self.types)

    def __bool__(self) -> bool:
        raise TypeError("a Diff is neither true nor false: ask is_same")

    def __str__(self) -> str:
        from ._report import report
        return report(self)


def diff(left: object, right: object, on: Union[str, Sequence[str]] = (), *,
         only: Optional[Iterable[str]] = None, ignore: Iterable[str] = (),
         floats_by_bits: bool = False, limit: Optional[int] = None) -> Diff:
    """Compares two tables. Rows are matched by a key, or by position.

    Columns are matched by name, in any order. If a key comes more than once, its rows are matched
    in order: the first row of left with the first row of right, and so on. A null in a key is equal
    only to a null. Without a key two columns can be compared as well. If a side is a column, or has
    a row that is null, whole rows are compared.

    Parameters
    ----------
    left, right : table or column
        The two sides.
    on : str or sequence of str
        The columns of the key, or levels of the index of a DataFrame. Without `on` rows are matched
        by position.
    only : str or iterable of str, optional
        The columns to compare, besides those of the key. If not given, all columns are compared.
    ignore : str or iterable of str
        The columns that are not compared. They can have any type.
    floats_by_bits : bool
        As in `equal`.
    limit : int, optional
        The most differences in the result's list `differences`. All differences are counted.

    Returns
    -------
    Diff
        The counts and the differences. A column whose type differs is in `types`, and its rows are
        not compared.

    Raises
    ------
    KeyError
        If a name in `on` is not in both tables, or a name in `only` or `ignore` is in no table.
    TypesDiffer
        If a key column differs in type, or if there is a key and a side is no table.
    NotServed
        If rows of a type can't be compared, or if a key column has floats.
    BadArray
        If an array breaks the rules of Arrow.

    Examples
    --------
    >>> old = {"id": [1, 2, 3], "n": [10, 12, None]}
    >>> new = {"id": [3, 1, 4], "n": [None, 11, 13]}
    >>> found = diff(old, new, on="id")
    >>> found.changed, found.removed, found.added, found.same
    (1, 1, 1, 1)
    >>> print(found)
    1 changed, 1 removed, 1 added, 1 the same.  By column: n 1.
    id  column  left    right
    1   n       10      11
    2   -       row 1   no row
    4   -       no row  row 2
    """
    key = (on,) if isinstance(on, str) else tuple(on)
    sources = read(left, "left"), read(right, "right")
    are_tables = [isinstance(source, Table) or _is_records(source) for source in sources]
    if not key and all(map(len, sources)) and any(are_tables) and not all(are_tables):
        # one side has rows that are no structs, or null: rows are compared whole
        lefts, rights = _one_column(*sources), _one_column(*sources[::-1])
    else:
        lefts = as_table(sources[0], "left", left, key)
        rights = as_table(sources[1], "right", right, key)
    lefts, rights = _filled(lefts, rights), _filled(rights, lefts)
    flags = FLOATS_BY_BITS if floats_by_bits else 0
    if not lefts.columns and not rights.columns and not lefts.rows and not rights.rows:
        return Diff(key)
    for side, table in (("left", lefts), ("right", rights)):
        for name in key:
            if name not in table.columns:
                raise KeyError(f"{side} has no column {name!r} for the key")
    chosen = _chosen(lefts, rights, key, only, ignore)
    found = Diff(key, left_columns=_alone(lefts, rights, chosen),
                 right_columns=_alone(rights, lefts, chosen))
    pairs: Dict[str, Tuple[Column, Column]] = {}
    for name in lefts.columns:
        if name in rights.columns and (name in chosen or name in key):
            sides = _pair(lefts.columns[name], rights.columns[name], name)
            if sides[0].type == sides[1].type:
                pairs[name] = sides
            elif name in key:
                raise TypesDiffer(f"column {name!r} of the key: left is {sides[0].type}, right is "
                                  f"{sides[1].type}")
            else:
                found.types[name] = str(sides[0].type), str(sides[1].type)
    for name in key:
        kind = pairs[name][0].type
        if kind.has_floats():
            raise not_served(f"column {name!r} of the key is {kind}: there is more than one way to "
                             "compare floats, so a key has none", kind)
    matched = match([pairs[name] for name in key], len(lefts), len(rights))
    _fill(found, pairs, matched, flags, limit)
    del found.differences[len(found.differences) if limit is None else limit:]
    return found


def as_table(source: Source, side: str, value: object, key: Tuple[str, ...]) -> Table:
    """Returns a source as a table. A column is a table of one column without a name."""
    if isinstance(source, Rows) and (_is_records(source) or key and not source.values):
        rows = [row for row in source.values if isinstance(row, dict)]
        names = list(dict.fromkeys(str(name) for row in rows for name in row))
        return Table({name: Rows([row.get(name) for row in rows]) for name in names}, len(rows))
    if isinstance(source, Table):
        levels = getattr(getattr(value, "index", None), "names", None) or ()
        for name in key:
            if name not in source.columns and name in levels:
                index = read(value.index.get_level_values(name), side)  # type: ignore[attr-defined]
                assert not isinstance(index, Table)
                source.columns[name] = index
        return source
    if key:
        raise TypesDiffer(f"{side} is no table, or has rows that are null: a key needs columns")
    return Table({"": source}, len(source))


def _pair(left: Side, right: Side, name: str) -> Tuple[Column, Column]:
    """Makes columns of two sides: of one type if possible, or else each of its own type."""
    what = f"column {name!r}: " if name else ""
    try:
        return pair(left, right, what) if name else pair_rows(left, right)
    except TypesDiffer:
        return typed(left, None, what + "left"), typed(right, None, what + "right")


def _filled(table: Table, other: Table) -> Table:
    """Gives a table of no rows and no columns the columns of another."""
    if table.rows or table.columns:
        return table
    return Table({name: Rows([]) for name in other.columns}, 0)


def _is_records(source: Source) -> bool:
    """Says whether a source is a list of dicts, none of which is missing."""
    return isinstance(source, Rows) and len(source) > 0 and all(
        isinstance(row, dict) for row in source.values)


def _one_column(source: Source, other: Source) -> Table:
    """Returns the rows of a source as a table of one column without a name."""
    try:
        rows = as_rows(source, other)
    except TypesDiffer:
        rows = as_rows(source, source)
    return Table({"": rows}, len(source))


def _chosen(left: Table, right: Table, key: Tuple[str, ...], only: Optional[Iterable[str]],
            ignore: Iterable[str]) -> List[str]:
    """Returns the columns to compare, without those of the key."""
    names = list(dict.fromkeys([*left.columns, *right.columns]))
    wanted = None if only is None else [only] if isinstance(only, str) else list(only)
    left_out = [ignore] if isinstance(ignore, str) else list(ignore)
    for name in [*(wanted or ()), *left_out]:
        if name not in names:
            raise KeyError(f"neither left nor right has a column {name!r}")
    return [name for name in names if name not in key and name not in left_out
            and (wanted is None or name in wanted)]


def _alone(one: Table, other: Table, chosen: List[str]) -> Tuple[str, ...]:
    return tuple(name for name in chosen if name in one.columns and name not in other.columns)


def _fill(found: Diff, pairs: Dict[str, Tuple[Column, Column]], matched: Matched, flags: int,
          limit: Optional[int]) -> None:
    """Compares the rows that belong together, counts, and keeps the first differences."""
    rows = len(matched.left)
    same = np.ones(rows, np.bool_)
    by_column: Dict[str, npt.NDArray[np.bool_]] = {}
    for name, (left, right) in pairs.items():
        if name in found.key:
            continue
        equal = _equal_at(left, matched.left, right, matched.right, flags,
                          f"column {name!r}: " if name else "")
        if not equal.all():
            by_column[name] = ~equal
            found.by_column[name] = int(rows - np.count_nonzero(equal))
            same &= equal
    found.same = int(np.count_nonzero(same))
    found.changed = rows - found.same
    found.removed, found.added = len(matched.only_left), len(matched.only_right)
    _keep(found, pairs, matched, np.flatnonzero(~same), by_column, limit)


def _keep(found: Diff, pairs: Dict[str, Tuple[Column, Column]], matched: Matched, changed: _Places,
          by_column: Dict[str, npt.NDArray[np.bool_]], limit: Optional[int]) -> None:
    """Keeps the first differences. `changed` has the places of rows that differ."""
    # the changed or removed rows of left in their order, and then those that right alone has
    order = np.concatenate([matched.left[changed], matched.only_left])
    keys = {name: pairs[name] for name in found.key}
    for place in np.argsort(order, kind="stable"):
        if limit is not None and len(found.differences) >= limit:
            return
        row = int(order[place])
        key = tuple(values_at(keys[name][0], [row])[0] for name in found.key)
        if place >= len(changed):
            found.differences.append(Difference("removed", key, left_row=row))
            continue
        at = int(changed[place])
        for name, differs in by_column.items():
            if differs[at]:
                left, right = pairs[name]
                partner = int(matched.right[at])
                found.differences.append(Difference(
                    "changed", key, row, partner, name, values_at(left, [row])[0],
                    values_at(right, [partner])[0]))
    room = None if limit is None else max(limit - len(found.differences), 0)
    for row in matched.only_right[:room]:
        key = tuple(values_at(keys[name][1], [int(row)])[0] for name in found.key)
        found.differences.append(Difference("added", key, right_row=int(row)))


def _equal_at(left: Column, left_rows: _Places, right: Column, right_rows: _Places, flags: int,
              what: str) -> npt.NDArray[np.bool_]:
    """Compares rows of two columns that belong together."""
    count = len(left_rows)
    if count == 0 or len(left) == len(right) == count and (
            np.array_equal(left_rows, right_rows) and int(left_rows[-1]) == count - 1
            and bool((np.diff(left_rows) == 1).all())):
        if count == 0:
            return np.zeros(0, np.bool_)
        return compare(left, right, flags, what)
    same = np.empty(count, np.bool_)
    left_chunk, left_first = _chunks(left, left_rows)
    right_chunk, right_first = _chunks(right, right_rows)
    both = left_chunk * len(right.chunks) + right_chunk
    for group in np.unique(both):
        at = np.flatnonzero(both == group)
        one, other = divmod(int(group), len(right.chunks))
        same[at] = compare_rows(
            gathered(left.chunks[one], left_rows[at] - left_first[at]), 0,
            gathered(right.chunks[other], right_rows[at] - right_first[at]), 0, len(at), flags,
            what)
    return same


def _chunks(column: Column, rows: _Places) -> Tuple[_Places, _Places]:
    """Returns for each row its chunk, and the first row of that chunk."""
    ends = np.cumsum([len(chunk) for chunk in column.chunks])
    chunk = np.searchsorted(ends, rows, side="right")
    return chunk, np.concatenate([[0], ends])[chunk]


def assert_equal(left: object, right: object, *, on: Union[str, Sequence[str]] = (),
                 key: Union[str, Sequence[str]] = (), only: Optional[Iterable[str]] = None,
                 ignore: Iterable[str] = (), floats_by_bits: bool = False,
                 show: int = 20) -> None:
    """Raises an AssertionError with a report if two tables or two columns differ.

    Parameters
    ----------
    left, right, on, only, ignore, floats_by_bits
        As in `diff`.
    key : str or sequence of str
        Another name for `on`.
    show : int
        The most differences in the report.

    Raises
    ------
    AssertionError
        If there is a difference.
    DunkelvaError, KeyError
        As in `diff`.
    TypeError
        If both `on` and `key` are given.

    Examples
    --------
    >>> assert_equal([1, None, 3], [1, None, 3])
    >>> assert_equal({"id": [1, 2], "n": [5, 6]}, {"id": [2, 1], "n": [7, 5]}, on="id")
    Traceback (most recent call last):
        ...
    AssertionError: left and right differ: 1 changed, 1 the same.  By column: n 1.
    id  column  left  right
    2   n       6     7
    """
    __tracebackhide__ = True
    if on and key:
        raise TypeError("key is another name for on: give one of them")
    found = diff(left, right, on or key, only=only, ignore=ignore, floats_by_bits=floats_by_bits,
                 limit=show)
    if not found.is_same:
        raise AssertionError(f"left and right differ: {found}")
