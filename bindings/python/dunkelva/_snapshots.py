"""Tables as files that the program `dunkelva diff` reads."""
from __future__ import annotations

import csv
import json
import pathlib

import numpy as np

from ._diff import as_table
from ._sources import read, typed
from ._values import values_at


def write(table: object, path: pathlib.Path) -> None:
    """Writes a table as CSV, in which a null is an empty cell, or as JSON documents, one a line."""
    source = as_table(read(table, "the table"), "the table", table, ())
    columns = {name: values_at(typed(side, None, name), range(len(source)))
               for name, side in source.columns.items()}
    rows = zip(*columns.values())
    with path.open("w", newline="", encoding="utf-8") as file:
        if path.suffix == ".csv":
            written = csv.writer(file, lineterminator="\n")
            written.writerow(columns)
            written.writerows(["" if cell is None else _cell(cell) for cell in row] for row in rows)
        elif path.suffix == ".ndjson":
            for row in rows:
                document = dict(zip(columns, row))
                file.write(json.dumps(document, default=_cell, ensure_ascii=False) + "\n")
        else:
            raise ValueError(f"{path.name}: a snapshot ends with .csv or .ndjson")


def _cell(value: object) -> str:
    """Returns a cell as text: nested rows as JSON, bytes in base 16, truth values as in JSON."""
    if isinstance(value, (list, dict, bool)):
        return json.dumps(value, default=_cell, ensure_ascii=False)
    if isinstance(value, bytes):
        return value.hex()
    if isinstance(value, np.timedelta64):
        return f"{value.astype('m8[ns]').astype(np.int64)} ns"
    return str(value)
