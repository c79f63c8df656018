"""Counts from a library, each with the limit in the table of the program."""

from __future__ import annotations

import re
from dataclasses import dataclass
from pathlib import Path

_TOP = Path(__file__).resolve().parents[2]
# An ordinary library should use at most this share of a limit.
MOST_SHARE = 0.1
_LEAST_SHOWN = 0.00001
_TABLE = _TOP / "crates" / "abi_base" / "src" / "limit.rt"
_WORDS = _TOP / "crates" / "explain" / "src" / "limits.rt"


@dataclass(frozen=True)
class Figure:
    """How much of something a library has, and how much it may have."""

    found: int
    limit: int

    @property
    def share(self) -> float:
        return self.found / self.limit if self.limit else 0.0

    def __str__(self) -> str:
        if not self.limit:
            return "none"
        is_shown = self.share >= _LEAST_SHOWN or not self.found
        percentage = f"{100 * self.share:.2g}" if is_shown else f"under {100 * _LEAST_SHOWN:g}"
        return f"{self.found:,} of {self.limit:,} ({percentage} %)"


@dataclass(frozen=True)
class Rate:
    """How many a limit allows: `each` for so many `units`, rounded down, and `base` besides."""

    each: int
    units: int
    base: int

    def allowed(self, units: int) -> int:
        """How many the limit allows for this many units."""
        return self.each * units // self.units + self.base


def _row(table: Path, limit: str, row: str) -> re.Match[str]:
    found = re.search(rf"Limit::{limit} => {row},", table.read_text())
    if found is None:
        raise LookupError(f"{table} has no limit {limit}")
    return found


def rate(limit: str) -> Rate:
    """The row of a limit in the table of the program."""
    found = _row(_TABLE, limit, r"Rate::of\(([0-9_]+), ([0-9_]+), ([0-9_]+)\)")
    return Rate(int(found[1]), int(found[2]), int(found[3]))


def words(limit: str) -> str:
    """The words by which the program names a limit."""
    return _row(_WORDS, limit, '"([^"]+)"')[1]


def figure(limit: str, found: int, units: int) -> Figure:
    """A count, with the limit for this many units."""
    return Figure(found, rate(limit).allowed(units))


def constant(source: str, name: str) -> int:
    """The value of a constant of the program, from its source below crates/."""
    text = (_TOP / "crates" / source).read_text()
    found = re.search(rf"const {name}: \w+ = ([0-9a-fx_]+)(?: << ([0-9]+))?;", text)
    if found is None:
        raise LookupError(f"{source} has no constant {name}")
    return int(found[1], 0) << int(found[2] or 0)
