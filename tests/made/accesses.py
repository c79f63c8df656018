"""Accesses, as they are defined: moves, the spots to which they lead in each library, which accesses are open, and which land. This is a
plain walk, which knows no rule of types; crates/accesses states the same in its definitions."""

from __future__ import annotations

from dataclasses import dataclass, field
from enum import Enum, auto
from typing import Iterator

from .shapes import Graph, Piece, Places, Shape, Sort


class Reading(Enum):
    """How accesses are read: as they are defined, or with one change in the definitions."""

    AS_DEFINED = auto()
    WITHOUT_BITS = auto()
    WITHOUT_WIDTHS = auto()
    WITHOUT_NUMBERS_OF_MEMBERS = auto()
    WITHOUT_KINDS = auto()
    WITHOUT_TAGS = auto()
    WITHOUT_SIZES = auto()
    WITHOUT_GROUPS = auto()
    WITHOUT_ALIGNMENTS = auto()
    WITHOUT_COUNTS = auto()
    WITHOUT_VARIADIC = auto()
    WITHOUT_RESULT_PLACE = auto()
    WITHOUT_PARAM_PLACES = auto()
    WITHOUT_ENUMERATORS = auto()
    WITH_TAGS_OF_DEFINITIONS = auto()
    WITH_ALIGNMENTS_OF_FUNCTIONS = auto()
    WITH_ENUMERATORS_WHOLE = auto()
    PAST_MARKED_TYPES = auto()
    PAST_NEW_DECLARATIONS = auto()
    WITH_MARKED_TYPES_COMPARED = auto()
    DIRECT_BEHIND_POINTERS = auto()
    PAST_OLD_DECLARATIONS = auto()
    WITHOUT_PARAM_COUNTS = auto()


# These give the same answer: types that are only declared have no parts, and there are as many places of parameters as parameters.
SAME = (Reading.PAST_OLD_DECLARATIONS, Reading.WITHOUT_PARAM_COUNTS)
# Each of these gives another answer for some types.
WRONG = tuple(reading for reading in Reading if reading is not Reading.AS_DEFINED and reading not in SAME)

# A step of an access: the sort of the part, and the name and the number among those of one sort and name. Parameters have no names.
Move = tuple[Sort, str, int]


@dataclass(frozen=True)
class Spot:
    """Where an access ends in one library: the type, the bit in its object, the width of a bit field, and the way to it."""

    node: int
    bit: int = 0
    width: int = 0
    behind_pointer: bool = False


@dataclass(frozen=True)
class Access:
    """An open access: its spot in each library, and whether the two spots still correspond."""

    old: Spot
    new: Spot | None
    beside: bool = True


@dataclass(frozen=True)
class Task:
    """The types of two libraries with the places of their functions, the marked old types by the way to them, and the types of exports."""

    old: Graph
    new: Graph
    old_places: Places
    new_places: Places
    roots: tuple[tuple[int, int], ...]
    direct: frozenset[int] = field(default_factory=frozenset)
    pointer: frozenset[int] = field(default_factory=frozenset)

    def is_marked(self, spot: Spot) -> bool:
        """Whether a rule file leaves out the type of a spot in the old library."""
        return spot.node in (self.pointer if spot.behind_pointer else self.direct)


def _moves(shape: Shape) -> Iterator[tuple[Move, Piece]]:
    # Each part to which a move leads, with that move.
    seen: dict[tuple[Sort, str], int] = {}
    for piece in shape.pieces:
        if piece.sort is not Sort.ENUMERATOR:
            key = (piece.sort, piece.name)
            seen[key] = seen.get(key, -1) + 1
            yield (*key, seen[key]), piece


def _moved(spot: Spot, piece: Piece, reading: Reading) -> Spot:
    bit = {Sort.MEMBER: spot.bit + piece.bit, Sort.ELEMENT: spot.bit}.get(piece.sort, 0)
    behind = spot.behind_pointer
    if piece.sort is Sort.TARGET:
        behind = behind or reading is not Reading.DIRECT_BEHIND_POINTERS
    elif piece.sort in (Sort.RESULT, Sort.PARAM):
        behind = False
    return Spot(piece.to, bit, piece.width, behind)


def _named(shape: Shape, move: Move, reading: Reading) -> Piece | None:
    sort, name, number = move
    if sort is Sort.MEMBER and reading is Reading.WITHOUT_NUMBERS_OF_MEMBERS:
        number = 0
    return next((piece for found, piece in _moves(shape) if found == (sort, name, number)), None)


def walk(types: Graph, node: int, moves: list[Move]) -> Spot | None:
    """The spot to which moves from a type lead."""
    spot = Spot(node)
    for move in moves:
        piece = _named(types[spot.node], move, Reading.AS_DEFINED)
        if piece is None:
            return None
        spot = _moved(spot, piece, Reading.AS_DEFINED)
    return spot


def _correspond(old: Spot, new: Spot, reading: Reading) -> bool:
    if old.bit != new.bit and reading is not Reading.WITHOUT_BITS:
        return False
    return old.width == new.width or reading is Reading.WITHOUT_WIDTHS


def _goes_on(task: Task, access: Access, reading: Reading) -> bool:
    if task.is_marked(access.old) and reading is not Reading.PAST_MARKED_TYPES:
        return False
    if task.old[access.old.node].declared and reading is not Reading.PAST_OLD_DECLARATIONS:
        return False
    return access.new is None or not task.new[access.new.node].declared or reading is Reading.PAST_NEW_DECLARATIONS


def longer(task: Task, access: Access, reading: Reading) -> Iterator[Access]:
    """The open accesses that extend this one by one step."""
    if not _goes_on(task, access, reading):
        return
    for move, _ in _moves(task.old[access.old.node]):
        named = _named(task.old[access.old.node], move, reading)
        if named is None:
            continue
        old = _moved(access.old, named, reading)
        met = _named(task.new[access.new.node], move, reading) if access.new else None
        new = _moved(access.new, met, reading) if access.new and met else None
        yield Access(old, new, new is not None and access.beside and _correspond(old, new, reading))


def first_accesses(task: Task) -> list[Access]:
    """The accesses without steps."""
    return [Access(Spot(old), Spot(new)) for old, new in task.roots]


def lands(task: Task, access: Access, reading: Reading) -> bool:
    """Whether an open access lands in agreement."""
    if access.new is None or not access.beside:
        return False
    if task.is_marked(access.old) and reading is not Reading.WITH_MARKED_TYPES_COMPARED:
        return True
    return agree(task, access.old.node, access.new.node, reading)


def all_land(task: Task, reading: Reading = Reading.AS_DEFINED) -> bool:
    """Whether all open accesses land in agreement. Two accesses that end alike are followed once."""
    waiting = first_accesses(task)
    seen = set(waiting)
    while waiting:
        access = waiting.pop()
        if not lands(task, access, reading):
            return False
        for extended in longer(task, access, reading):
            if extended not in seen:
                seen.add(extended)
                waiting.append(extended)
    return True


# ---- when two types agree


def _values(shape: Shape) -> dict[tuple[str, int], int]:
    values: dict[tuple[str, int], int] = {}
    for piece in shape.pieces:
        if piece.sort is Sort.ENUMERATOR:
            number = sum(name == piece.name for name, _ in values)
            values[piece.name, number] = piece.value
    return values


def _in_bytes(size: int, value: int) -> int:
    return value % (1 << 8 * size)


def _keeps_values(old: Shape, new: Shape, reading: Reading) -> bool:
    if reading is Reading.WITHOUT_ENUMERATORS:
        return True
    values = _values(new)
    for name, value in _values(old).items():
        if name not in values:
            return False
        found = values[name]
        if reading is Reading.WITH_ENUMERATORS_WHOLE:
            if found != value:
                return False
        elif _in_bytes(old.size, value) != _in_bytes(new.size, found):
            return False
    return True


def _params(shape: Shape) -> int:
    return sum(piece.sort is Sort.PARAM for piece in shape.pieces)


def _agree_in_calls(task: Task, nodes: tuple[int, int], reading: Reading) -> bool:
    old, new = task.old[nodes[0]], task.new[nodes[1]]
    if _params(old) != _params(new) and reading is not Reading.WITHOUT_PARAM_COUNTS:
        return False
    if old.variadic != new.variadic and reading is not Reading.WITHOUT_VARIADIC:
        return False
    was, now = task.old_places.get(nodes[0], ("",)), task.new_places.get(nodes[1], ("",))
    if was[0] != now[0] and reading is not Reading.WITHOUT_RESULT_PLACE:
        return False
    return was[1:] == now[1:] or reading is Reading.WITHOUT_PARAM_PLACES


def _agree_in_numbers(old: Shape, new: Shape, reading: Reading) -> bool:
    if old.size != new.size and reading is not Reading.WITHOUT_SIZES:
        return False
    if old.group != new.group and reading is not Reading.WITHOUT_GROUPS:
        return False
    if old.count != new.count and reading is not Reading.WITHOUT_COUNTS:
        return False
    if old.kind == "void" or (old.kind == "fn" and reading is not Reading.WITH_ALIGNMENTS_OF_FUNCTIONS):
        return True
    return old.align == new.align or reading is Reading.WITHOUT_ALIGNMENTS


def agree(task: Task, old_node: int, new_node: int, reading: Reading) -> bool:
    """Whether two types agree: their kinds are equal, and if one is only declared, their tags are equal; else they agree as definitions."""
    old, new = task.old[old_node], task.new[new_node]
    if old.kind != new.kind and reading is not Reading.WITHOUT_KINDS:
        return False
    if old.declared or new.declared:
        return old.tag == new.tag or reading is Reading.WITHOUT_TAGS
    if old.tag != new.tag and reading is Reading.WITH_TAGS_OF_DEFINITIONS:
        return False
    if not _agree_in_numbers(old, new, reading) or not _agree_in_calls(task, (old_node, new_node), reading):
        return False
    return _keeps_values(old, new, reading)
