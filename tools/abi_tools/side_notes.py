"""The notes of `abi check` on what no rule judges, as it prints them on standard error beside an answer."""

from __future__ import annotations

import re
from dataclasses import dataclass
from typing import Optional

from abi.answers import CAN_BREAK_CALLERS
from abi_tools.counting import counted

# The variable that asks for notes, and what their lines begin with.
ASKED_BY = "ABI_NOTES"
PREFIX = "abi: note: "
# What the line behind the last note begins with. It is printed only if all notes could be made.
_COUNTS = "exports of OLD: "
# What the last line of a kind says if it has more than ten notes.
_MORE = re.compile(r"and (\d+) more")
# How many notes a reason names.
_NAMED = 5
NOT_MADE = "the notes on what no rule judges, which --strict asks for, could not be made: memory or a limit left none"


@dataclass(frozen=True)
class Weighty:
    """The notes on what can break compiled callers: those that are printed, and how many there are, which may be more."""

    printed: tuple[str, ...]
    count: int

    def reason(self) -> str:
        """Why a strict gate cannot tell, with the first of the notes."""
        more = f"; and {self.count - _NAMED} more" if self.count > _NAMED else ""
        named = "; ".join(self.printed[:_NAMED])
        return f"{counted(self.count, 'difference')} that no rule judges can break compiled callers: {named}{more}"


def weighty(errors: str) -> Optional[Weighty]:
    """Those of the notes on standard error that can break compiled callers; None if the notes could not be made."""
    lines = [line.removeprefix(PREFIX) for line in errors.splitlines() if line.startswith(PREFIX)]
    if not any(line.startswith(_COUNTS) for line in lines):
        return None
    parts = [(line, *line.partition(": ")[::2]) for line in lines]
    found = [(line, _MORE.fullmatch(rest)) for line, kind, rest in parts if kind in CAN_BREAK_CALLERS]
    return Weighty(tuple(line for line, _ in found), sum(int(more[1]) if more else 1 for _, more in found))


def without_notes(errors: str) -> str:
    """What is on standard error besides the notes."""
    return "".join(line for line in errors.splitlines(keepends=True) if not line.startswith(PREFIX))
