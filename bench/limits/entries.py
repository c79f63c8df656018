"""The entries of the debug information of a library, as `readelf --debug-dump=info` prints them. It follows no link to another file, such
as a separate debug file."""

from __future__ import annotations

import re
import subprocess
from dataclasses import dataclass, field
from typing import Iterator, Optional

WRAPPERS = {"typedef", "const_type", "volatile_type", "restrict_type", "atomic_type", "variable"}
AGGREGATES = {"structure_type", "union_type"}
_KEPT = {*WRAPPERS, *AGGREGATES, "array_type", "member"}
# A unit begins with its length in four bytes, which do not count.
_LENGTH = 4
_HEAD = re.compile(r" <([0-9a-f]+)><([0-9a-f]+)>: Abbrev Number: [0-9]+ \(DW_TAG_(\w+)\)")
_ORIGINS = ("DW_AT_abstract_origin", "DW_AT_specification")
_REFERENCE = re.compile(r"<0x([0-9a-f]+)>")


@dataclass
class Unit:
    """A unit: its version, its size in bytes, the offset of its abbreviations, and how many attributes its entries have."""

    version: int = 0
    size: int = 0
    abbreviations: int = 0
    attributes: int = 0


@dataclass
class Entry:
    """The entry of a type or a member, with the members below it."""

    tag: str
    named: bool = False
    declared: bool = False
    type: Optional[int] = None
    members: list[int] = field(default_factory=list)


@dataclass
class Entries:
    """What is read of a library: its units, how many entries there are, types and members by offset, the entries that others complete,
    and the version and offset of the range list of each function."""

    units: list[Unit] = field(default_factory=list)
    count: int = 0
    types: dict[int, Entry] = field(default_factory=dict)
    origins: dict[int, int] = field(default_factory=dict)
    lists: list[tuple[int, int]] = field(default_factory=list)


class _Reader:
    """Reads the lines in order."""

    def __init__(self) -> None:
        self.read = Entries()
        self._parents: dict[int, Entry] = {}
        self._offset = 0
        self._entry = Entry("")

    def take(self, line: str) -> None:
        if line.startswith("    <"):
            self._attribute(line)
        elif line.startswith(" <"):
            self._head(line)
        elif line.startswith("  Compilation Unit @"):
            self.read.units.append(Unit())
        elif line.startswith("   "):
            self._header(line)

    def _header(self, line: str) -> None:
        name, _, value = line.strip().partition(":")
        unit = self.read.units[-1]
        if name == "Length":
            unit.size = int(value.split()[0], 0) + _LENGTH
        elif name == "Version":
            unit.version = int(value)
        elif name == "Abbrev Offset":
            unit.abbreviations = int(value, 0)

    def _head(self, line: str) -> None:
        found = _HEAD.match(line)
        if found is None:
            return
        self.read.count += 1
        depth, self._offset = int(found[1], 16), int(found[2], 16)
        self._entry = Entry(found[3])
        self._parents[depth] = self._entry
        if self._entry.tag in _KEPT:
            self.read.types[self._offset] = self._entry
        if self._entry.tag == "member":
            self._parents[depth - 1].members.append(self._offset)

    def _attribute(self, line: str) -> None:
        unit = self.read.units[-1]
        unit.attributes += 1
        name = line[line.index(">") + 1:].split(None, 1)[0].rstrip(":")
        if name == "DW_AT_name":
            self._entry.named = True
        elif name == "DW_AT_type":
            self._entry.type = _referred(line)
        elif name in _ORIGINS:
            self.read.origins[self._offset] = _referred(line) or 0
        elif name == "DW_AT_declaration":
            self._entry.declared = True
        elif name == "DW_AT_ranges" and self._entry.tag == "subprogram":
            self.read.lists.append((unit.version, int(line.split()[-1], 0)))


def _referred(line: str) -> Optional[int]:
    found = _REFERENCE.search(line)
    return int(found[1], 16) if found else None


def _lines(library: str) -> Iterator[str]:
    command = ["readelf", "--wide", "--debug-dump=info,no-follow-links", library]
    with subprocess.Popen(command, stdout=subprocess.PIPE, stderr=subprocess.DEVNULL, text=True, errors="replace") as process:
        assert process.stdout is not None
        yield from process.stdout


def read_entries(library: str) -> Entries:
    """The entries of a library."""
    reader = _Reader()
    for line in _lines(library):
        reader.take(line)
    return reader.read
