"""The layouts of a structure in both libraries side by side, with holes and with the changes marked."""

from __future__ import annotations

from dataclasses import dataclass
from difflib import SequenceMatcher
from typing import Callable, Optional, Sequence

from abi_report.records import Member
from abi_report.subjects import Described, Side, Subject

HOLE = "hole"
PADDING = "padding"
BITS_OF_BYTE = 8
# Above this number of names, the rows are matched in the order of the old names alone.
_MOST_MATCHED = 2000


@dataclass(frozen=True)
class Room:
    """Some bits of a structure: a member, or a hole or the padding at the end, which have no type."""

    label: str
    bit: int
    width: int
    type_name: str = ""
    is_free: bool = False

    @property
    def place(self) -> str:
        """Which bytes these are, or which bits if they are not whole bytes."""
        last = self.bit + self.width - 1
        byte, first = divmod(self.bit, BITS_OF_BYTE)
        if first or self.width % BITS_OF_BYTE:
            return f"byte {byte}, bit {first}" if self.width == 1 else f"byte {byte}, bits {first} to {first + self.width - 1}"
        if self.width <= BITS_OF_BYTE:
            return f"byte {byte}"
        return f"bytes {self.bit // BITS_OF_BYTE} to {last // BITS_OF_BYTE}"

    @property
    def bytes(self) -> float:
        """How many bytes these are."""
        return self.width / BITS_OF_BYTE


@dataclass(frozen=True)
class Row:
    """A row: the room in the old and in the new library, and how they differ (`same`, `changed`, `moved`, `gone` or `added`)."""

    old: Optional[Room]
    new: Optional[Room]
    state: str


@dataclass(frozen=True)
class Layouts:
    """Both layouts: how many bytes each structure has, and the rows."""

    old_size: int
    new_size: int
    rows: tuple[Row, ...]

    @property
    def overlaps(self) -> bool:
        """Whether members share bits, as those of unions do."""
        return any(_overlap([room for row in self.rows if (room := side(row)) is not None]) for side in _SIDES)


_SIDES: tuple[Callable[[Row], Optional[Room]], ...] = (lambda row: row.old, lambda row: row.new)


def _overlap(rooms: Sequence[Room]) -> bool:
    """Whether some of these rooms share bits."""
    taken = sorted((room.bit, room.bit + room.width) for room in rooms if room.width)
    return any(one[1] > two[0] for one, two in zip(taken, taken[1:]))


def layouts_of(subject: Subject, old: Side, new: Side) -> Optional[Layouts]:
    """The layouts of a structure or union in both libraries, if both can be read."""
    if old.records is None or new.records is None or subject.kind != "record":
        return None
    before, after = _described(old, subject.old), _described(new, subject.new)
    if before is None or after is None:
        return None
    return Layouts(before[0], after[0], tuple(_beside(before[1], after[1])))


def _described(side: Side, described: Described) -> Optional[tuple[int, list[Room]]]:
    """The size of a structure in bytes, and its rooms."""
    entry = described.entry
    if side.records is None or entry is None or entry.tag not in ("structure_type", "union_type"):
        return None
    size = entry.number("byte_size")
    if size is None:
        return None
    return size, rooms_of(side.records.members(entry), size)


def rooms_of(members: Sequence[Member], size: int) -> list[Room]:
    """The rooms of a structure of `size` bytes, in the order of their first bits: its members and, if no members share bits, the holes
    between them."""
    rooms = sorted((Room(one.label, one.bit, one.width, one.declaration) for one in members), key=_order)
    if _overlap(rooms) or any(room.bit + room.width > BITS_OF_BYTE * size for room in rooms):
        return rooms
    free: list[Room] = []
    at = 0
    # Members without bits, such as arrays without a count, end no hole.
    for room in rooms:
        if room.width and room.bit > at:
            free.append(Room(HOLE, at, room.bit - at, is_free=True))
        if room.width:
            at = room.bit + room.width
    if at < BITS_OF_BYTE * size:
        free.append(Room(PADDING, at, BITS_OF_BYTE * size - at, is_free=True))
    return sorted([*rooms, *free], key=_order)


def _order(room: Room) -> tuple[int, bool]:
    """Sorts rooms by their first bits, and those without bits before others."""
    return room.bit, room.width != 0


def _beside(old: Sequence[Room], new: Sequence[Room]) -> list[Row]:
    """The rooms side by side: members of the same name share a row if their order allows it."""
    before, after = [room.label for room in old], [room.label for room in new]
    if max(len(before), len(after)) > _MOST_MATCHED:
        return _by_name(old, new)
    rows: list[Row] = []
    for _, first, last, start, end in SequenceMatcher(None, before, after, autojunk=False).get_opcodes():
        equal = before[first:last] == after[start:end]
        if equal:
            rows += [_row(one, two) for one, two in zip(old[first:last], new[start:end])]
        else:
            rows += _unlike(old[first:last], new[start:end], set(before), set(after))
    return rows


def _unlike(old: Sequence[Room], new: Sequence[Room], before: set[str], after: set[str]) -> list[Row]:
    """The rows of rooms without a match in order."""
    rows = [Row(room, None, _state_alone(room, after, "gone")) for room in old]
    return rows + [Row(None, room, _state_alone(room, before, "added")) for room in new]


def _state_alone(room: Room, others: set[str], state: str) -> str:
    return "moved" if not room.is_free and room.label in others else state


def _by_name(old: Sequence[Room], new: Sequence[Room]) -> list[Row]:
    partners = {room.label: room for room in new if not room.is_free}
    names = {room.label for room in old}
    rows = [_row(room, partners[room.label]) if room.label in partners else Row(room, None, "gone") for room in old]
    return rows + [Row(None, room, "added") for room in new if room.label not in names]


def _row(old: Room, new: Room) -> Row:
    if (old.width, old.type_name) != (new.width, new.type_name):
        return Row(old, new, "changed")
    return Row(old, new, "same" if old.bit == new.bit else "moved")
