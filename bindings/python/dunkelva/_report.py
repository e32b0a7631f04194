"""Reports of differences, as lines to read."""
from __future__ import annotations

from typing import TYPE_CHECKING, List, Tuple

if TYPE_CHECKING:
    from ._diff import Diff, Difference

_WIDTH = 40


def report(found: "Diff") -> str:
    """Returns counts, what differs in columns, and a table of the first differences."""
    counts = [f"{number} {what}" for number, what in (
        (found.changed, "changed"), (found.removed, "removed"), (found.added, "added"))
        if number]
    others = " in the other columns" if (
        found.types or found.left_columns or found.right_columns) else ""
    line = ", ".join([*counts, f"{found.same} the same"]) + others + "."
    named = [f"{name} {count}" for name, count in found.by_column.items() if name]
    if named:
        line += f"  By column: {', '.join(named)}."
    lines = [line] if "" not in found.types else []
    for side, names in (("left", found.left_columns), ("right", found.right_columns)):
        if names:
            lines.append(f"Only {side} has the columns: {', '.join(names)}.")
    for name, (left, right) in found.types.items():
        where = f"Column {name}: left" if name else "left"
        lines.append(f"{where} is {left}, right is {right}.")
    lines += _table(found)
    shown = len({_row(difference) for difference in found.differences})
    more = found.changed + found.removed + found.added - shown
    if more > 0:
        lines.append(f".. and {more} more row{'s' if more > 1 else ''}")
    return "\n".join(lines)


def _row(difference: "Difference") -> Tuple[object, object]:
    return difference.left_row, difference.right_row


def _table(found: "Diff") -> List[str]:
    if not found.differences:
        return []
    is_named = any(difference.column for difference in found.differences)
    heads = [*(found.key or ("row",)), *(["column"] if is_named else []), "left", "right"]
    rows = [heads]
    for difference in found.differences:
        key = [repr(part) for part in difference.key]
        if not found.key:
            place = difference.left_row
            key = [str(difference.right_row if place is None else place)]
        rows.append([*map(_cut, key), *([difference.column or "-"] if is_named else []),
                     *_cells(difference)])
    widths = [max(len(row[k]) for row in rows) for k in range(len(heads))]
    return ["  ".join(cell.ljust(width) for cell, width in zip(row, widths)).rstrip()
            for row in rows]


def _cells(difference: "Difference") -> Tuple[str, str]:
    if difference.kind == "removed":
        return f"row {difference.left_row}", "no row"
    if difference.kind == "added":
        return "no row", f"row {difference.right_row}"
    left, right = _text(difference.left), _text(difference.right)
    shared = 0
    while shared < min(len(left), len(right)) and left[shared] == right[shared]:
        shared += 1
    start = shared - 10 if shared > _WIDTH // 2 and max(len(left), len(right)) > _WIDTH else 0
    return _cut(left, start), _cut(right, start)


def _text(value: object) -> str:
    if value is None:
        return "null"
    name = type(value).__name__
    if name == "datetime64":
        whole, _, part = str(value).partition(".")
        return f"{whole}.{part.rstrip('0')}".rstrip(".")
    return str(value) if name in ("timedelta64", "time", "Decimal") else repr(value)


def _cut(text: str, start: int = 0) -> str:
    """Returns a text of at most so many characters, from a place on."""
    front = ".." if start else ""
    end = "" if len(text) - start <= _WIDTH else ".."
    return front + text[start:start + _WIDTH - len(end)] + end
