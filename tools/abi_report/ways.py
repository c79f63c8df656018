"""The steps from exports to types that changed. If a document does not have them, they are searched for in the old library's types."""

from __future__ import annotations

from collections import deque
from typing import Iterable, Iterator, Optional, Sequence

from abi_report.blocks import Block
from abi_report.entries import Entry
from abi_report.records import RECORDS, Records
from abi_report.subjects import Side

Steps = tuple[str, ...]
# How many types a search visits in all, and how many from one export.
_MOST_TYPES = 20_000
_MOST_OF_EXPORT = 4_000
_FUNCTIONS = ("subprogram", "subroutine_type")


class Ways:
    """The ways from exports to types that changed."""

    def __init__(self, side: Side, wanted: Iterable[tuple[Block, Sequence[str]]]) -> None:
        """Takes the old library, and the blocks with the exports from which ways are wanted."""
        self._side = side
        self._left = _MOST_TYPES
        self._found: dict[tuple[str, int], Steps] = {}
        asked: dict[str, list[Block]] = {}
        for block, exports in wanted:
            known = block.ways
            self._found.update({(export, id(block)): steps for export, steps in known.items()})
            for export in exports:
                if export not in known and block.subject.old.entry is not None:
                    asked.setdefault(export, []).append(block)
        for export, blocks in asked.items():
            self._search(export, blocks)

    def of(self, block: Block, export: str) -> Optional[Steps]:
        """The steps from an export to the type of a block, if they are known."""
        return self._found.get((export, id(block)))

    def _search(self, export: str, blocks: Sequence[Block]) -> None:
        """Searches for the types of blocks from an export, the nearest first."""
        records, start = self._side.records, self._side.export(export)
        if records is None or start is None:
            return
        sought = _Sought(blocks)
        limit = min(self._left, _MOST_OF_EXPORT)
        for entry, steps in reached(records, start, limit):
            self._left -= 1
            for block in sought.taken(entry):
                self._found[(export, id(block))] = steps
            if not sought:
                return


class _Sought:
    """The blocks whose types have not been found yet."""

    def __init__(self, blocks: Sequence[Block]) -> None:
        self._by_offset: dict[int, list[Block]] = {}
        self._by_name: dict[tuple[str, str], list[Block]] = {}
        self._left = {id(block) for block in blocks}
        for block in blocks:
            entry = block.subject.old.entry
            if entry is not None:
                self._by_offset.setdefault(entry.offset, []).append(block)
                if entry.name is not None:
                    self._by_name.setdefault((entry.tag, entry.name), []).append(block)

    def __bool__(self) -> bool:
        return bool(self._left)

    def taken(self, entry: Entry) -> list[Block]:
        """Takes and returns the blocks that an entry matches: by its offset, or by its tag and name if it is in another unit."""
        found = self._by_offset.get(entry.offset) or self._by_name.get((entry.tag, entry.name or "")) or []
        new = [block for block in found if id(block) in self._left]
        self._left -= {id(block) for block in new}
        return new


def reached(records: Records, start: Entry, limit: int) -> Iterator[tuple[Entry, Steps]]:
    """The entries of the types that an export reaches, each with the steps to it: the nearest first, and at most `limit`."""
    first = start.offset if start.tag == "subprogram" else start.kind
    waiting: deque[tuple[Optional[int], Steps]] = deque([(first, ())])
    seen: set[int] = set()
    while waiting and len(seen) < limit:
        offset, steps = waiting.popleft()
        entry = records.entries.at(offset)
        if entry is None or entry.offset in seen:
            continue
        seen.add(entry.offset)
        yield entry, steps
        waiting += [(below, (*steps, *step)) for step, below in below(records, entry)]


def below(records: Records, entry: Entry) -> Iterator[tuple[Steps, Optional[int]]]:
    """The types one step from a type; a typedef or qualifier takes no step."""
    if entry.tag == "pointer_type":
        yield ("target",), entry.kind
    elif entry.tag == "array_type":
        yield ("element",), entry.kind
    elif entry.tag in RECORDS:
        yield from (((f"member {one.label}",), one.kind) for one in records.members(entry))
    elif entry.tag in _FUNCTIONS:
        yield ("result",), entry.kind
        params = [one for one in records.entries.children(entry) if one.tag == "formal_parameter"]
        yield from (((f"param {number}",), one.kind) for number, one in enumerate(params, 1))
    elif entry.tag != "enumeration_type":
        yield (), entry.kind
