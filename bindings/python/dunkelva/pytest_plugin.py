"""A fixture of pytest that compares a table with a stored file by the program `dunkelva diff`.

    def test_orders(dunkelva_snapshot):
        dunkelva_snapshot(orders(), "orders.csv", key="id")

The file is `snapshots/orders.csv` beside the test. `pytest --dunkelva-update` writes it anew.
"""
from __future__ import annotations

import pathlib
import shutil
import subprocess
from typing import Any, Callable, Sequence, Union

import pytest

from ._snapshots import write

Snapshot = Callable[..., None]


def pytest_addoption(parser: Any) -> None:
    """Adds the options of the fixture."""
    group = parser.getgroup("dunkelva")
    group.addoption("--dunkelva-update", action="store_true", help="write snapshots anew")
    group.addoption("--dunkelva-program", default="dunkelva", metavar="FILE",
                    help="the program that compares (default: dunkelva on the PATH)")


@pytest.fixture
def dunkelva_snapshot(request: Any, tmp_path: pathlib.Path) -> Snapshot:
    """Returns a function that compares a table with a stored file.

    The function takes these arguments, and fails the test with a report if table and file differ:

    - `table`: the table.
    - `name`: the name of the file in the folder `snapshots`. It ends with .csv or .ndjson.
    - `key`: a column or a list of columns by which rows are matched. Without `key` rows are matched
      by position.
    - `options`: more options of `dunkelva diff`, such as `["--ignore", "time"]`.
    """
    def check(table: object, name: str, key: Union[str, Sequence[str]] = (),
              options: Sequence[str] = ()) -> None:
        __tracebackhide__ = True
        stored = pathlib.Path(str(request.path)).parent / "snapshots" / name
        if request.config.getoption("--dunkelva-update"):
            stored.parent.mkdir(exist_ok=True)
            write(table, stored)
            return
        if not stored.exists():
            pytest.fail(f"there is no {stored}: pytest --dunkelva-update writes it", pytrace=False)
        asked = request.config.getoption("--dunkelva-program")
        program = shutil.which(asked)
        if program is None:
            pytest.fail(f"there is no program {asked}: --dunkelva-program names it", pytrace=False)
        write(table, tmp_path / name)
        keys = ["--key", key if isinstance(key, str) else ",".join(key)] if key else []
        ran = subprocess.run([program, "diff", str(stored), str(tmp_path / name), *keys, *options],
                             capture_output=True, text=True, check=False)
        if ran.returncode:
            pytest.fail(f"{name} differs from its snapshot:\n{ran.stdout}{ran.stderr}"
                        if ran.returncode == 1 else ran.stderr, pytrace=False)
    return check
