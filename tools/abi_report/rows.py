"""The lines of a block as a reader sees them: members that one change moved by one amount stand in one line, with their lines behind it."""

from __future__ import annotations

from dataclasses import dataclass
from itertools import groupby
from typing import Iterator, Optional, Sequence

from abi_report.blocks import Line
from abi_report.changes import size_of_bits
from abi_report.texts_shown import counted

# Fewer members than this keep lines of their own.
_FEWEST = 4
_MEMBER = "member "


@dataclass(frozen=True)
class Row:
    """A line, and the lines that it stands for, if it stands for others."""

    line: Line
    folded: tuple[Line, ...] = ()


def rows_of(lines: Sequence[Line]) -> list[Row]:
    """The rows of the lines of a block."""
    return list(_rows(lines))


def _rows(lines: Sequence[Line]) -> Iterator[Row]:
    before: Optional[Line] = None
    for move, run in groupby(lines, key=_move):
        found = tuple(run)
        if move is None or len(found) < _FEWEST:
            yield from map(Row, found)
        else:
            breaks = tuple(one for line in found for one in line.breaks)
            yield Row(Line("", "", _said(before, found, move), breaks), found)
        before = found[-1]


def _move(line: Line) -> Optional[int]:
    """By how many bits another change moved a member; None for any other line."""
    old, new = line.members
    return new.bit - old.bit if line.is_moved and old is not None and new is not None else None


def _said(before: Optional[Line], found: Sequence[Line], move: int) -> str:
    """The words for members that moved together. The line before them, if it is on a member, is what they are behind."""
    first, last = (line.head.removeprefix(_MEMBER) for line in (found[0], found[-1]))
    way = size_of_bits(abs(move)) + ("" if move > 0 else " towards the start")
    if before is not None and before.head.startswith(_MEMBER) and _move(before) is None:
        return f"the {counted(len(found), 'member')} behind {before.head.removeprefix(_MEMBER)} move by {way}"
    return f"{counted(len(found), 'member')}, {first} to {last}, move by {way}"
