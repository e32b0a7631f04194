"""The fixture of pytest, in runs of their own. PROGRAM names the program that compares."""
from __future__ import annotations

import os
import pathlib
import subprocess
import sys
from typing import List

import pytest

TEST = """
import decimal, datetime
ROWS = [{"id": 1, "city": "Oslo", "n": None, "tags": ["a", None], "ok": True},
        {"id": 2, "city": CITY, "n": decimal.Decimal("1.50"), "tags": None, "ok": False}]
def test_csv(dunkelva_snapshot):
    dunkelva_snapshot(ROWS, "cities.csv", key="id")
def test_ndjson(dunkelva_snapshot):
    dunkelva_snapshot(ROWS, "cities.ndjson", key=["id"], options=["--ignore", "n"])
"""


@pytest.fixture(name="folder")
def make_folder(tmp_path: pathlib.Path) -> pathlib.Path:
    """Makes a folder with a test in it."""
    (tmp_path / "test_cities.py").write_text("CITY = 'Rome'\n" + TEST)
    return tmp_path


def run(folder: pathlib.Path, *options: str, status: int) -> str:
    """Runs the test, and returns what is printed."""
    program = ["--dunkelva-program", os.environ["PROGRAM"]] if "PROGRAM" in os.environ else []
    known: List[str] = [] if os.environ.get("IS_INSTALLED") else ["-p", "dunkelva.pytest_plugin"]
    ran = subprocess.run(
        [sys.executable, "-m", "pytest", "-q", "-p", "no:cacheprovider", *known, *program,
         *options, str(folder)], capture_output=True, text=True, check=False, cwd=folder)
    assert ran.returncode == status, ran.stdout + ran.stderr
    return ran.stdout


def test_written_compared_updated(folder: pathlib.Path) -> None:
    said = run(folder, status=1)
    assert "cities.csv: pytest --dunkelva-update writes it" in said
    assert "2 passed" in run(folder, "--dunkelva-update", status=0)
    stored = folder / "snapshots"
    assert (stored / "cities.csv").read_text() == (
        'id,city,n,tags,ok\n1,Oslo,,"[""a"", null]",true\n2,Rome,1.50,,false\n')
    assert (stored / "cities.ndjson").read_text() == (
        '{"id": 1, "city": "Oslo", "n": null, "tags": ["a", null], "ok": true}\n'
        '{"id": 2, "city": "Rome", "n": "1.50", "tags": null, "ok": false}\n')
    assert "2 passed" in run(folder, status=0)
    (folder / "test_cities.py").write_text("CITY = 'Roma'\n" + TEST)
    said = run(folder, status=1)
    assert '~ id=2  city "Rome" -> "Roma"' in said
    assert "1 changed, 0 removed, 0 added, 1 the same." in said
    assert "2 failed" in said
    assert "2 passed" in run(folder, "--dunkelva-update", status=0)
    assert "2 passed" in run(folder, status=0)


def test_what_is_missing(folder: pathlib.Path) -> None:
    run(folder, "--dunkelva-update", status=0)
    said = run(folder, "--dunkelva-program", "no-such-program", status=1)
    assert "there is no program no-such-program: --dunkelva-program names it" in said
    (folder / "snapshots/cities.csv").write_text("name\nx\n")
    assert "id" in run(folder, status=1)
    (folder / "test_cities.py").write_text(
        "def test(dunkelva_snapshot):\n    dunkelva_snapshot([1], 'x.txt')\n")
    assert "a snapshot ends with .csv or .ndjson" in run(folder, "--dunkelva-update", status=1)
