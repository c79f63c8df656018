"""Types as plain data, which are easy to make, change and compare, and the shared objects that have them.

A graph is a list of types, of which the first is void. A type stands in a file by two entries, itself and a typedef by which all others
name it: so no two types that others name are alike, and a rule file can name each of them. No typedef names the type of an exported
function."""

from __future__ import annotations

from dataclasses import dataclass, replace
from enum import Enum, auto

from .images import Image, Symbol
from .spelled import address, sections


class Sort(Enum):
    """The sort of a part."""

    MEMBER = auto()
    ENUMERATOR = auto()
    TARGET = auto()
    ELEMENT = auto()
    RESULT = auto()
    PARAM = auto()


@dataclass(frozen=True)
class Piece:
    """A part of a type. Fields that its sort does not use hold 0."""

    sort: Sort
    to: int = 0
    name: str = ""
    bit: int = 0
    width: int = 0
    value: int = 0


@dataclass(frozen=True)
class Shape:
    """A type. The parts of a function are its result and then its parameters."""

    kind: str
    size: int = 0
    pieces: tuple[Piece, ...] = ()
    declared: bool = False
    tag: str = ""
    group: str = ""
    align: int = 0
    count: int = 0
    variadic: bool = False


# A graph, and the places of the result and the parameters of each of its functions.
Graph = tuple[Shape, ...]
Places = dict[int, tuple[str, ...]]

VOID = Shape("void")
WITH_TAGS = ("struct", "union", "enum")


def scalar(size: int, group: str = "int") -> Shape:
    """A scalar of a size in bytes."""
    return Shape("scalar", size, group=group)


def pointer(to: int) -> Shape:
    """A pointer."""
    return Shape("ptr", 8, (Piece(Sort.TARGET, to),))


def array(count: int, to: int) -> Shape:
    """An array of this many elements. `whole` sets its size."""
    return Shape("array", 0, (Piece(Sort.ELEMENT, to),), count=count)


def function(result: int, *params: int) -> Shape:
    """A function."""
    return Shape("fn", 0, (Piece(Sort.RESULT, result), *(Piece(Sort.PARAM, to) for to in params)))


def declared(tag: str) -> Shape:
    """A structure that is only declared."""
    return Shape("struct", declared=True, tag=tag)


def member(name: str, bit: int, to: int) -> Piece:
    """A member."""
    return Piece(Sort.MEMBER, to, name, bit)


def is_object(shape: Shape) -> bool:
    """Whether values may have the type: it is no function, not void and not only declared."""
    return shape.kind not in ("void", "fn") and not shape.declared


def begins(types: Graph, number: int, bit: int = 0) -> bool:
    """Whether a scalar, a pointer or an enumeration of a type at this bit of an object begins in the first eight bytes of the object."""
    shape = types[number]
    if shape.kind in ("struct", "union"):
        return any(begins(types, piece.to, bit + piece.bit) for piece in shape.pieces)
    return begins(types, shape.pieces[0].to, bit) if shape.kind == "array" else bit < 64


def is_whole(types: Graph, shape: Shape) -> bool:
    """Whether the type names only objects of these types by value, but for a result of void."""
    held = (Sort.MEMBER, Sort.ELEMENT, Sort.RESULT, Sort.PARAM)
    return all(
        is_object(types[piece.to]) or (piece.sort is Sort.RESULT and piece.to == 0) for piece in shape.pieces if piece.sort in held
    )


def whole(types: Graph, shape: Shape) -> Shape:
    """The type as it is after these types: an array has the size of all its elements."""
    if shape.kind != "array":
        return shape
    return replace(shape, size=shape.count * types[shape.pieces[0].to].size)


def _part(piece: Piece, number: dict[int, int]) -> str:
    if piece.sort is Sort.MEMBER:
        width = f"+{piece.width}" if piece.width else ""
        return f"{piece.name}@{piece.bit}{width}>{number[piece.to]}"
    return f"{piece.name}={piece.value}" if piece.sort is Sort.ENUMERATOR else f">{number[piece.to]}"


def _entry(shape: Shape, kind: str, number: dict[int, int]) -> str:
    size = f":{shape.count}" if shape.kind == "array" else "" if shape.kind in ("ptr", "fn") or shape.declared else f":{shape.size}"
    name = f"/{shape.tag}" if shape.tag else ""
    align = f"^{shape.align}" if shape.align else ""
    parts = [_part(piece, number) for piece in shape.pieces] + ["..."] * shape.variadic
    return " ".join([f"{kind}{size}{name}{align}{'!' if shape.declared else ''}", *parts])


KINDS = {"fn": "sub"}


class File:
    """A shared object with the types of some graphs, and an export for each of some of them."""

    def __init__(self) -> None:
        self.entries: list[str] = []
        self.symbols: list[Symbol] = []

    def add(self, types: Graph, prefix: str) -> dict[int, int]:
        """Appends the types of a graph, with typedefs of names that begin with the prefix, and returns the number of the entry by which
        each type is named."""
        first = len(self.entries) + 1
        number = {0: 0} | {k: first + 2 * (k - 1) + 1 for k in range(1, len(types))}
        for k, shape in enumerate(types[1:], 1):
            kind = KINDS.get(shape.kind, shape.group if shape.kind == "scalar" else shape.kind)
            self.entries += [_entry(shape, kind, number), f"def/{prefix}_{k} >{number[k] - 1}"]
        return number

    def export(self, name: str, types: Graph, root: int, number: dict[int, int]) -> None:
        """Appends an export with the type of a graph: a function, or else a variable of the type."""
        shape = types[root]
        self.entries.append(_entry(shape, "fn", number) if shape.kind == "fn" else f"var >{number[root]}")
        self.symbols.append(Symbol(name, "none", 0, address(len(self.entries))))

    def to_bytes(self) -> bytes:
        """The bytes of the file."""
        return Image(self.symbols, debug=sections(";".join(self.entries))).to_bytes()
