"""Types of rows: formats of Arrow, read and named."""
from __future__ import annotations

import functools
from dataclasses import dataclass
from typing import Dict, Optional, Tuple

# Formats of numbers, with the type of numpy that keeps them.
NUMBERS: Dict[str, str] = {
    "c": "i1", "s": "i2", "i": "i4", "l": "i8", "C": "u1", "S": "u2", "I": "u4", "L": "u8",
    "e": "f2", "f": "f4", "g": "f8"}

# Formats of dates, times and spans, with the type of their numbers.
TIMES: Dict[str, str] = {
    "tdD": "i4", "tdm": "i8", "tts": "i4", "ttm": "i4", "ttu": "i8", "ttn": "i8", "tDs": "i8",
    "tDm": "i8", "tDu": "i8", "tDn": "i8", "tiM": "i4", "tiD": "i8"}

_NAMES: Dict[str, str] = {
    "n": "null", "b": "bool", "c": "int8", "s": "int16", "i": "int32", "l": "int64", "C": "uint8",
    "S": "uint16", "I": "uint32", "L": "uint64", "e": "float16", "f": "float32", "g": "float64",
    "z": "binary", "Z": "large_binary", "vz": "binary_view", "u": "string", "U": "large_string",
    "vu": "string_view", "tdD": "date32", "tdm": "date64", "tts": "time32[s]", "ttm": "time32[ms]",
    "ttu": "time64[us]", "ttn": "time64[ns]", "tDs": "duration[s]", "tDm": "duration[ms]",
    "tDu": "duration[us]", "tDn": "duration[ns]", "tiM": "months", "tiD": "days and milliseconds",
    "tin": "months, days and nanoseconds"}
_UNITS = {"s": "s", "m": "ms", "u": "us", "n": "ns"}
_LISTS = {"+l": "list", "+L": "large_list", "+vl": "list_view", "+vL": "large_list_view"}


@dataclass(frozen=True)
class Type:
    """A format, with the names and types inside it and the type of a dictionary's entries."""

    format: str
    children: Tuple[Tuple[str, "Type"], ...] = ()
    entries: Optional["Type"] = None

    def __str__(self) -> str:
        name = self._own_name()
        return name if self.entries is None else f"dictionary<{name}, {self.entries}>"

    def _own_name(self) -> str:
        inner = ", ".join(str(child) for _, child in self.children)
        form = self.format
        if form in _NAMES:
            return _NAMES[form]
        if form in _LISTS:
            return f"{_LISTS[form]}<{inner}>"
        if form.startswith("+w:"):
            return f"fixed_size_list<{inner}>[{form[3:]}]"
        if form == "+s":
            return "struct<" + ", ".join(f"{name}: {child}" for name, child in self.children) + ">"
        if form == "+m":
            return f"map<{inner}>"
        if form.startswith("w:"):
            return f"fixed_size_binary[{form[2:]}]"
        if form.startswith("d:"):
            parts = form[2:].split(",")
            return f"decimal{(parts + ['', '128'])[2] or 128}({', '.join(parts[:2])})"
        if form[:2] == "ts" and form[2:3] in _UNITS:
            zone = form[4:]
            return f"timestamp[{_UNITS[form[2]]}{', ' + zone if zone else ''}]"
        return f"format {form!r}"

    def buffers(self) -> int:
        """Returns how many buffers an array of this type has."""
        form = self.format
        if form == "n":
            return 0
        if form in ("+s", "+ud") or form.startswith("+w:"):
            return 1
        return 3 if form in ("z", "Z", "u", "U", "vz", "vu") else 2

    def number(self) -> Optional[str]:
        """Returns the type of numpy of its numbers, or None where its rows are not numbers."""
        if self.format[:2] == "ts":
            return "i8"
        if self.format[:2] == "d:" and self.format.count(",") == 2:
            return {"32": "i4", "64": "i8"}.get(self.format.rsplit(",", 1)[1])
        return NUMBERS.get(self.format) or TIMES.get(self.format)

    def has_floats(self) -> bool:
        """Says whether there are floats in it."""
        return (self.format in ("e", "f", "g") or any(c.has_floats() for _, c in self.children)
                or self.entries is not None and self.entries.has_floats())

    def difference(self, other: "Type", path: str = "") -> Optional[str]:
        """Returns in words where two types differ first, or None where they are the same."""
        place = f" at {path}" if path else ""
        if (self.entries is None) != (other.entries is None) or self.format != other.format:
            return f"left is {self}, right is {other}{place}"
        if self.entries is not None and other.entries is not None:
            return self.entries.difference(other.entries, path)
        names, others = ([name for name, _ in side.children] for side in (self, other))
        if len(names) != len(others) or self.format == "+s" and names != others:
            return f"left has the fields {names}, right has {others}{place}"
        for (name, child), (_, its) in zip(self.children, other.children):
            inner = f"{path}.{name}" if self.format == "+s" else f"{path}[]"
            found = child.difference(its, inner)
            if found is not None:
                return found
        return None


def type_of_format(text: str, children: Tuple[Tuple[str, Type], ...],
                   entries: Optional[Type]) -> Type:
    """Makes a type."""
    return Type(text, children, entries)


@functools.lru_cache(maxsize=256)
def flat_type(text: str) -> Type:
    """Returns the type of a format without types inside, mostly an object made before."""
    return Type(text)


def list_of(item: Type) -> Type:
    """Returns the type of lists."""
    return Type("+L", (("item", item),))
