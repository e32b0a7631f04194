"""The package beside the header of the library, and what it asks of others."""
from __future__ import annotations

import pathlib
import re
import subprocess
import sys

import dunkelva

TOP = pathlib.Path(__file__).resolve().parent.parent.parent
SOURCE = pathlib.Path(dunkelva.__file__).parent


def test_calls_of_the_header() -> None:
    """Every call of the header is used, except the one that writes bits in place of bytes."""
    header = (TOP / "bindings/c/dunkelva.h").read_text()
    calls = set(re.findall(r"\b(dunkelva_[a-z_]+)\(", header)) - {"dunkelva_equal"}
    used = {name for path in SOURCE.glob("_*.py")
            for name in re.findall(r'[".](dunkelva_[a-z_]+)\b', path.read_text())}
    assert used == calls
    assert f'DUNKELVA_VERSION "{dunkelva.__version__}"' in header


def test_numpy_alone_is_imported() -> None:
    code = ("import sys, dunkelva; dunkelva.assert_equal([1], [1]); "
            "print(sorted({'pandas', 'dask', 'pytest', 'hypothesis'} & set(sys.modules)))")
    ran = subprocess.run([sys.executable, "-c", code], capture_output=True, text=True, check=True)
    assert ran.stdout == "[]\n"


def test_names() -> None:
    for name in dunkelva.__all__:
        assert getattr(dunkelva, name).__doc__, name
