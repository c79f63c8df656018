"""What a break says has changed: the part of the type, its old and new value, and their unit.

The members `part`, `was` and `is` of a document say it. If a break has none, the words of its row do, whose form
docs/SPECIFICATION.md fixes.
"""

from __future__ import annotations

import re
from dataclasses import dataclass
from typing import Optional

from abi_report.documents import Break

_BITS_OF_BYTE = 8
# The unit of the numbers in the rows of each rule.
_UNITS = {"L2": "bytes", "L4": "bytes", "L7": "bits", "L8": "bits", "L10": "number", "L11": "count", "L12": "count", "X5": "bytes"}
_PARTED = re.compile(r"(?P<words>.*?) ?(?P<was>[^ ]+), now (?P<now>[^ ]+)")
_PARTS = {"L6": re.compile(r"member (?P<part>.*) gone"), "L9": re.compile(r"enumerator (?P<part>.*) gone"),
          "L7": re.compile(r"member (?P<part>.*) at bit"), "L8": re.compile(r"member (?P<part>.*) width"),
          "L10": re.compile(r"enumerator (?P<part>.*)"), "L14": re.compile(r"(?P<part>param [0-9]+|result) in")}
_NONE = "none"


@dataclass(frozen=True)
class Change:
    """A change: the part of the type, if it is one; its old and new value, if the break says them; and the unit."""

    part: Optional[str]
    was: Optional[str]
    now: Optional[str]
    unit: str

    @property
    def amount(self) -> str:
        """The old and the new value with the unit; `none` stands for a missing value."""
        if self.was is None and self.now is None:
            return ""
        return f"{self.was or _NONE} -> {self.now or _NONE}{_suffix(self.unit)}"


def _suffix(unit: str) -> str:
    return "" if unit in ("number", "word", "count", "") else f" {unit}"


def change_of(one: Break) -> Change:
    """What a break says has changed."""
    values = [value for value in (one.was, one.now) if value is not None]
    if values:
        was, now = (None if value is None else value.value for value in (one.was, one.now))
        return Change(one.part or _part(one), was, now, values[0].unit)
    found = _PARTED.fullmatch(one.detail)
    if found is None:
        return Change(one.part or _part(one), None, None, "")
    return Change(one.part or _part(one), found["was"], found["now"], _UNITS.get(one.rule, "word"))


def _part(one: Break) -> Optional[str]:
    pattern = _PARTS.get(one.rule)
    if pattern is None:
        return None
    found = pattern.match(one.detail if one.rule in ("L6", "L9") else _before_numbers(one.detail))
    return None if found is None else found["part"]


def _before_numbers(detail: str) -> str:
    """The words before the old value."""
    found = _PARTED.fullmatch(detail)
    return detail if found is None else found["words"]


def bit_place(bits: int) -> str:
    """The place of a bit in a structure: a byte if the bit begins one, else a bit."""
    return f"byte {bits // _BITS_OF_BYTE}" if bits % _BITS_OF_BYTE == 0 else f"bit {bits}"


def size_of_bits(bits: int) -> str:
    """How many bytes or bits a member has."""
    if bits % _BITS_OF_BYTE:
        return f"{bits} bit{'' if bits == 1 else 's'}"
    return f"{bits // _BITS_OF_BYTE} byte{'' if bits == _BITS_OF_BYTE else 's'}"


def moved(was: str, now: str) -> str:
    """The move of a member between two places, which are counted in bits."""
    old, new = int(was), int(now)
    if old % _BITS_OF_BYTE == 0 and new % _BITS_OF_BYTE == 0:
        return f"byte {old // _BITS_OF_BYTE} -> {new // _BITS_OF_BYTE}"
    return f"bit {old} -> {new}"
