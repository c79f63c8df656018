"""Structures as `pahole` prints them: where each member is, and which bits pahole says that no member holds."""

from __future__ import annotations

import re
import subprocess
from dataclasses import dataclass, field
from pathlib import Path
from typing import Iterator

# The options leave out what pahole adds so that a compiler would lay its output out in the same way.
COMMAND = ("pahole", "-F", "dwarf", "--suppress_aligned_attribute", "--suppress_packed", "--suppress_force_paddings")

HEAD = re.compile(r"struct (\w+) \{")
INNER = re.compile(r"\t+(?:(?:const|volatile) )*(struct|union|enum)(?: \w+)? ?\{")
PLACE = re.compile(r"/\* *(\d+)(?:: *(\d+))? +(\d+) \*/$")
FIELD_WIDTH = re.compile(r" *:(\d+)$")
ATTRIBUTE = re.compile(r" *__attribute__ *\(\((?:[^()]|\([^()]*\))*\)\)")
FUNCTION_NAME = re.compile(r"\(\*+ *(?:const |volatile |restrict )*(\w+)(?:\[\d*\])*\)")
PLAIN_NAME = re.compile(r"(\w+)(?:\[\d*\])*$")
HOLE = re.compile(r"\t*/\* XXX (\d+) (bit|byte)s? hole, try to pack \*/")
INNER_PADDING = re.compile(r"\t*/\* XXX last struct has (\d+) bytes? of padding")
SIZE = re.compile(r"\t/\* size: (\d+), cachelines: \d+, members: \d+")
PADDING = re.compile(r"\t/\* (bit_)?padding: (\d+)")


@dataclass(frozen=True)
class Member:
    """A member: its name, its first bit, and how many bits it has."""

    name: str
    bit: int
    width: int

    @property
    def end(self) -> int:
        """The bit after its last one."""
        return self.bit + self.width


@dataclass
class Structure:
    """A structure. The members of nameless members take their place."""

    tag: str
    size: int = 0
    members: list[Member] = field(default_factory=list)
    # The runs of bits that pahole says no member holds: for each its first bit, and the bit after its last one. It says nothing of
    # free bits inside a member with a name.
    free: list[tuple[int, int]] = field(default_factory=list)
    # The runs after bit fields at the end of a nameless member, on which pahole says nothing.
    silent: list[tuple[int, int]] = field(default_factory=list)
    is_known: bool = True


@dataclass
class _Block:
    """A structure, union or enumeration that is being read."""

    kind: str
    members: list[Member] = field(default_factory=list)
    # The runs of bits that pahole says no member holds: for each its first bit, and the bit after its last one.
    free: list[tuple[int, int]] = field(default_factory=list)
    # The runs after bit fields at the end of a nameless member, on which pahole says nothing.
    silent: list[tuple[int, int]] = field(default_factory=list)


def _name(declaration: str) -> str:
    """The name in a declaration without its width; empty if there is none."""
    function = FUNCTION_NAME.search(declaration)
    if function:
        return function[1]
    plain = PLAIN_NAME.search(ATTRIBUTE.sub("", declaration).strip())
    return plain[1] if plain else ""


def _member(line: str, place: re.Match[str]) -> Member:
    """The member that a line declares."""
    declaration = line[:place.start()].rstrip().rstrip(";").rstrip()
    if declaration.lstrip().startswith("}"):
        declaration = declaration.lstrip()[1:]
    bit, width = 8 * int(place[1]), 8 * int(place[3])
    field_width = FIELD_WIDTH.search(declaration)
    if place[2] is not None and field_width:
        bit, width = bit + int(place[2]), int(field_width[1])
        declaration = declaration[:field_width.start()]
    return Member(_name(declaration), bit, width)


class _Reader:
    """Reads the lines of one structure."""

    def __init__(self, tag: str) -> None:
        self.structure = Structure(tag)
        self.blocks = [_Block("struct")]
        # The bit after the member that was read last.
        self.end = 0
        self.was_nameless = False
        self.was_field = False
        self.padding = 0

    def _free(self, first: int, end: int) -> None:
        if first < end:
            self.blocks[-1].free.append((first, end))

    def _take(self, line: str, place: re.Match[str]) -> None:
        member = _member(line, place)
        closed = self.blocks.pop() if line.lstrip().startswith("}") else None
        self.was_nameless = member.name == "" and closed is not None
        if self.was_nameless and closed is not None and closed.kind != "enum":
            self.blocks[-1].members += closed.members
            self.blocks[-1].free += closed.free
            self.blocks[-1].silent += closed.silent
            if self.was_field:
                self.blocks[-1].silent.append((self.end, member.end))
        elif member.name:
            self.blocks[-1].members.append(member)
        self.end = member.end
        self.was_field = place[2] is not None

    def _hole(self, hole: re.Match[str]) -> None:
        width = int(hole[1]) * (8 if hole[2] == "byte" else 1)
        self._free(self.end, self.end + width)
        self.end += width

    def read(self, line: str) -> bool:
        """Reads a line. Returns whether it was the last one."""
        if line.startswith("};") or line.startswith("} "):
            self._free(8 * self.structure.size - self.padding, 8 * self.structure.size)
            whole = self.blocks[0]
            self.structure.members, self.structure.free, self.structure.silent = whole.members, whole.free, whole.silent
            return True
        place = PLACE.search(line)
        hole, inner_padding, size, padding, inner = (it.match(line) for it in (HOLE, INNER_PADDING, SIZE, PADDING, INNER))
        if "<ERROR" in line or "BRAIN FART" in line:
            self.structure.is_known = False
        elif hole:
            self._hole(hole)
        elif inner_padding and self.was_nameless:
            self._free(self.end - 8 * int(inner_padding[1]), self.end)
        elif size:
            self.structure.size = int(size[1])
        elif padding:
            # pahole prints first the padding in bytes, and then the padding bits before it
            self.padding += int(padding[2]) * (1 if padding[1] else 8)
        elif place and ";" in line:
            self._take(line, place)
        elif inner:
            self.blocks.append(_Block(inner[1]))
        elif line.lstrip().startswith("}"):
            self.blocks.pop()
        return False


def _structures(text: str) -> Iterator[Structure]:
    reader = None
    for line in text.splitlines():
        head = HEAD.match(line)
        if reader is None and head:
            reader = _Reader(head[1])
        elif reader is not None and reader.read(line):
            yield reader.structure
            reader = None


def structures_of(library: Path) -> list[Structure]:
    """The structures with tags in a library's debug information, if pahole knows all their members."""
    ended = subprocess.run([*COMMAND, str(library)], capture_output=True, text=True, check=False, timeout=60)
    return [it for it in _structures(ended.stdout) if it.is_known]
