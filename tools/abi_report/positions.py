"""All places in the signature of an export where a pair of changed types stands. A report of `abi` has each pair once."""

from __future__ import annotations

from typing import Iterator, Optional

from abi_report.entries import Entry
from abi_report.records import Records
from abi_report.subjects import Side, Subject

Steps = tuple[str, ...]
_FUNCTIONS = ("subprogram", "subroutine_type")
_STEPS = {"pointer_type": "target", "array_type": "element"}
_DEEPEST = 16

# A type of the old library and one of the new library.
_Pair = tuple[Optional[int], Optional[int]]


def positions(old: Side, new: Side, export: str, subject: Subject) -> list[Steps]:
    """The steps from an export to each place where both types of a subject stand, through pointers and arrays alone, in the order of the
    signature: the result, then the parameters."""
    sides = (old.export(export), new.export(export))
    if old.records is None or new.records is None or sides[0] is None or sides[1] is None:
        return []
    wanted = (subject.old.offset, subject.new.offset)
    found = []
    for step, pair in _parts(old.records, new.records, sides[0], sides[1]):
        below = _below(old.records, new.records, pair, wanted)
        if below is not None:
            found.append((step, *below))
    return found


def _parts(old: Records, new: Records, first: Entry, second: Entry) -> Iterator[tuple[str, _Pair]]:
    """The result and the parameters that two functions have both."""
    if first.tag not in _FUNCTIONS or second.tag not in _FUNCTIONS:
        return
    yield "result", (first.kind, second.kind)
    params = [[one.kind for one in records.entries.children(entry) if one.tag == "formal_parameter"]
              for records, entry in ((old, first), (new, second))]
    for number, pair in enumerate(zip(*params), 1):
        yield f"param {number}", (pair[0], pair[1])


def _below(old: Records, new: Records, pair: _Pair, wanted: _Pair) -> Optional[Steps]:
    """The steps from a pair of types to the wanted pair; None if it is not there."""
    steps: list[str] = []
    for _ in range(_DEEPEST):
        first, second = old.core(pair[0]), new.core(pair[1])
        if first is None or second is None:
            return None
        if _is_same(old, first, wanted[0]) and _is_same(new, second, wanted[1]):
            return tuple(steps)
        if first.tag not in _STEPS or first.tag != second.tag:
            return None
        steps.append(_STEPS[first.tag])
        pair = (first.kind, second.kind)
    return None


def _is_same(records: Records, entry: Entry, offset: Optional[int]) -> bool:
    """Whether an entry is the type at an offset, or the type of that name in another unit."""
    other = records.core(offset)
    if other is None:
        return False
    return entry.offset == other.offset or (entry.name is not None and (entry.tag, entry.name) == (other.tag, other.name))
