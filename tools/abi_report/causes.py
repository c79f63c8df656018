"""Which types changed by themselves, and which only because they hold other types that changed."""

from __future__ import annotations

from typing import Iterable, Iterator, Optional, Sequence

from abi_report.blocks import OF_WHOLE, Block, Line
from abi_report.documents import Place
from abi_report.entries import Entry
from abi_report.subjects import Described, Side

# Rules that a function breaks if a type is passed in another place.
_OF_PLACES = ("L14",)
_DEEPEST = 64

# What identifies a type of the old library across units: its name, and its place if the library has places.
_Key = tuple[str, Optional[Place]]


class Causes:
    """The causes of the changes of types and functions."""

    def __init__(self, blocks: Sequence[Block], old: Side, new: Side) -> None:
        """Takes the blocks of types and functions."""
        self._old = old
        self._new = new
        self._blocks = blocks
        self._by_type = {key: block for block in reversed(blocks) if (key := _key(block.subject.old, old)) is not None}
        self._held = {id(block): list(self._held_by(block)) for block in blocks}

    def ordered(self) -> list[Block]:
        """The blocks: first those that changed by themselves, then those that changed because of them; each after those that it holds."""
        found: dict[int, Block] = {}
        for block in self._blocks:
            self._visit(block, found)
        return sorted(found.values(), key=lambda block: not self.is_own(block))

    def _visit(self, block: Block, found: dict[int, Block]) -> None:
        """Adds the blocks that a block holds, and then the block."""
        waiting = [block]
        entered: set[int] = set()
        while waiting:
            one = waiting[-1]
            new = [] if id(one) in entered else [held for held in self._held[id(one)] if id(held) not in found]
            entered.add(id(one))
            if new:
                waiting += [held for held in reversed(new) if id(held) not in entered]
            if waiting[-1] is one:
                found.setdefault(id(waiting.pop()), one)

    def is_own(self, block: Block) -> bool:
        """Whether a type or function changed by itself."""
        if block.subject.kind == "function":
            return not self._held[id(block)] or _is_declared_otherwise(block) or any(
                rule not in _OF_PLACES for line in block.lines for rule in line.rules)
        return not self._held[id(block)] or any(self._is_own_line(line) for line in block.lines)

    def _is_own_line(self, line: Line) -> bool:
        """Whether a line is more than the consequence of a changed type inside."""
        return line.head not in OF_WHOLE and not line.is_moved and self._type_of(line) is None

    def of(self, block: Block) -> list[Block]:
        """The blocks that changed by themselves and that this one holds, directly or through others."""
        found: dict[int, Block] = {}
        waiting = list(self._held[id(block)])
        entered = {id(block)}
        while waiting:
            one = waiting.pop(0)
            if id(one) in entered:
                continue
            entered.add(id(one))
            if self.is_own(one):
                found[id(one)] = one
            else:
                waiting += self._held[id(one)]
        return list(found.values())

    def word(self, block: Block) -> str:
        """The verb for a type that made others change: grew, shrank or changed."""
        sizes = [side.records.size(described.offset) if side.records is not None else 0
                 for side, described in ((self._old, block.subject.old), (self._new, block.subject.new))]
        if not all(sizes) or sizes[0] == sizes[1]:
            return "changed"
        return "grew" if sizes[1] > sizes[0] else "shrank"

    # ---- what is held by value

    def _held_by(self, block: Block) -> Iterator[Block]:
        """The blocks of types that a type has as parts, or that a function takes or returns by value."""
        entry = block.subject.old.entry
        if block.subject.kind == "function":
            found: Iterable[Optional[Block]] = map(self._type_at, _passed(self._old, entry) if entry is not None else ())
        else:
            found = map(self._type_of, block.lines)
        yield from {id(one): one for one in found if one is not None and one is not block}.values()

    def _type_of(self, line: Line) -> Optional[Block]:
        """The block of a member's type, if the member is declared as before and has another size."""
        old, new = line.members
        if old is None or new is None or old.declaration != new.declaration or old.width == new.width:
            return None
        return self._type_at(old.kind)

    def _type_at(self, offset: Optional[int]) -> Optional[Block]:
        """The block of a type, or of the elements of an array."""
        records = self._old.records
        for _ in range(_DEEPEST):
            core = records.core(offset) if records is not None else None
            if core is None or core.tag != "array_type":
                break
            offset = core.kind
        key = _key(self._old.described(offset), self._old) if offset is not None else None
        return self._by_type.get(key) if key is not None else None


def _key(described: Described, side: Side) -> Optional[_Key]:
    if described.name is None or (described.place is None and side.says_places):
        return None
    return (described.name, described.place)


def _passed(side: Side, function: Entry) -> Iterator[Optional[int]]:
    """The types of the result and the parameters of a function."""
    yield function.kind
    if side.records is not None:
        yield from (one.kind for one in side.records.entries.children(function) if one.tag == "formal_parameter")


def _is_declared_otherwise(block: Block) -> bool:
    return block.subject.old.name != block.subject.new.name
