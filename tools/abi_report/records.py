"""Structures, unions and functions as the debug information describes them: members with their places, the types at the end of paths,
and lines in the source."""

from __future__ import annotations

from dataclasses import dataclass, replace
from typing import Optional, Sequence

from abi_report.c_names import Names, count_of
from abi_report.documents import Place
from abi_report.entries import BROKEN, Entries, Entry
from abi_report.source_files import file_names

RECORDS = ("structure_type", "union_type")
_DEFINED = ("subprogram", "variable")
_WRAPPERS = ("typedef", "const_type", "volatile_type", "restrict_type", "atomic_type")
_POINTER_SIZE = 8
_DEEPEST = 64
# DWARF 5, 7.7.1
_PLUS_CONSTANT = 0x23


@dataclass(frozen=True)
class Member:
    """A member of a structure or union: its name, and which one of that name it is; its first bit and its width in bits; the offset of
    its type's entry, and the type as C writes it; whether it is a bit field; where it is declared; and the alignment in bytes that its
    declaration or its type asks for, 0 if neither does."""

    name: str
    number: int
    bit: int
    width: int
    kind: Optional[int]
    type_name: str
    is_bit_field: bool
    place: Optional[Place]
    alignment: int = 0

    @property
    def label(self) -> str:
        """The name of the member in a report."""
        return self.name if self.number == 1 else f"{self.name}#{self.number}"

    @property
    def declaration(self) -> str:
        """The type as C writes it, with the width if it is a bit field."""
        return f"{self.type_name} : {self.width}" if self.is_bit_field else self.type_name


@dataclass(frozen=True)
class Enumerator:
    """An enumerator: its name and its value."""

    name: str
    value: int


class Records:
    """What one library declares."""

    def __init__(self, entries: Entries) -> None:
        self.entries = entries
        self.names = Names(entries)
        self._members: dict[int, list[Member]] = {}
        self._files: dict[int, list[Optional[str]]] = {}

    # ---- types

    def core(self, offset: Optional[int]) -> Optional[Entry]:
        """The type without its typedefs and qualifiers."""
        entry = self.entries.at(offset)
        for _ in range(_DEEPEST):
            if entry is None or entry.tag not in _WRAPPERS:
                return entry
            entry = self.entries.at(entry.kind)
        return None

    def record(self, offset: Optional[int]) -> Optional[Entry]:
        """The structure or union behind typedefs and qualifiers; None if it is another type."""
        entry = self.core(offset)
        return entry if entry is not None and entry.tag in RECORDS else None

    def size(self, offset: Optional[int], depth: int = _DEEPEST) -> int:
        """How many bytes a type has; 0 if that is not known."""
        entry = self.core(offset)
        if entry is None or depth == 0:
            return 0
        size = entry.number("byte_size")
        if size is not None:
            return size
        if entry.tag == "pointer_type":
            return _POINTER_SIZE
        if entry.tag == "array_type":
            size = self.size(entry.kind, depth - 1)
            for one in self.entries.children(entry):
                if one.tag == "subrange_type":
                    size *= count_of(one) or 0
            return size
        return self.size(entry.kind, depth - 1) if entry.tag == "enumeration_type" else 0

    # ---- members

    def members(self, record: Entry) -> list[Member]:
        """The members in the order of the source. The members of a nameless structure or union take its place."""
        if record.offset not in self._members:
            found: list[Member] = []
            self._add_members(record, 0, found, _DEEPEST)
            self._members[record.offset] = found
        return self._members[record.offset]

    def enumerators(self, enumeration: Entry) -> list[Enumerator]:
        """The enumerators whose values can be read, in the order of the source."""
        found = ((one.name, one.number("const_value")) for one in self.entries.children(enumeration) if one.tag == "enumerator")
        return [Enumerator(name, value) for name, value in found if name is not None and value is not None]

    def _add_members(self, record: Entry, base: int, found: list[Member], depth: int) -> None:
        for one in self.entries.children(record):
            if one.tag != "member":
                continue
            bit, width = self._bits(one)
            inner = None if one.name is not None else self.record(one.kind)
            if inner is not None and depth:
                self._add_members(inner, base + bit, found, depth - 1)
            elif one.name is not None:
                found.append(self._member(one, base + bit, width, found))

    def _member(self, entry: Entry, bit: int, width: int, found: Sequence[Member]) -> Member:
        name = entry.name or ""
        number = 1 + sum(member.name == name for member in found)
        return Member(name, number, bit, width, entry.kind, self.names.of(entry.kind), "bit_size" in entry.values, self.place(entry),
                      self._alignment(entry))

    def _alignment(self, member: Entry) -> int:
        """The alignment that a member or its type asks for (DWARF 5, 2.24)."""
        entry: Optional[Entry] = member
        for _ in range(_DEEPEST):
            if entry is None:
                return 0
            found = entry.number("alignment")
            if found:
                return found
            if entry.tag != "member" and entry.tag not in _WRAPPERS and entry.tag != "array_type":
                return 0
            entry = self.entries.at(entry.kind)
        return 0

    def _bits(self, member: Entry) -> tuple[int, int]:
        """The first bit of a member in its structure, and its width in bits (DWARF 5, 5.7.6; DWARF 4, 5.5.6)."""
        at = _location(member)
        width = member.number("bit_size")
        if width is None:
            return 8 * at, 8 * self.size(member.kind)
        first = member.number("data_bit_offset")
        if first is not None:
            return first, width
        before = member.number("bit_offset")
        if before is None:
            return 8 * at, width
        storage = member.number("byte_size") or self.size(member.kind)
        return 8 * at + 8 * storage - before - width, width

    # ---- paths

    def export(self, label: str) -> Optional[Entry]:
        """The function or variable that an export's label names: its definition, or else a declaration."""
        found = list(self.entries.named(label.split("@")[0], _DEFINED))
        return min(found, key=lambda one: ("declaration" in one.values, "external" not in one.values)) if found else None

    def walk(self, export: Entry, steps: Sequence[str]) -> Optional[Entry]:
        """The type at the end of the steps from an export."""
        entry = export if export.tag == "subprogram" else self.entries.at(export.kind)
        for step in steps:
            core = self.core(entry.offset) if entry is not None else None
            entry = self._step(core, step) if core is not None else None
        return entry

    def _step(self, entry: Entry, step: str) -> Optional[Entry]:
        word, _, name = step.partition(" ")
        if word == "param":
            params = [one for one in self.entries.children(entry) if one.tag == "formal_parameter"]
            number = int(name) - 1
            return self.entries.at(params[number].kind) if number < len(params) else None
        if word == "member":
            found = self.member(entry, name)
            return self.entries.at(found.kind) if found is not None else None
        return self.entries.at(entry.kind) if word in ("target", "element", "result") else None

    def member(self, record: Entry, label: str) -> Optional[Member]:
        """The member that a report names."""
        return next((one for one in self.members(record) if one.label == label), None)

    # ---- the source

    def place(self, entry: Entry) -> Optional[Place]:
        """Where an entry is declared, if that is known. For the definition of a function or an object: where a unit that uses it
        declares it, or else where it is defined."""
        own = self._own_place(entry)
        if own is None or not is_definition(entry):
            return own
        declared = self.entries.declaration(entry.name) if entry.name is not None else None
        return (self._own_place(declared) if declared is not None else None) or replace(own, is_definition=True)

    def _own_place(self, entry: Entry) -> Optional[Place]:
        """The place in the entry's own attributes."""
        file, line = entry.number("decl_file"), entry.number("decl_line")
        if file is None or not line:
            return None
        files = self._files_of(entry)
        name = files[file] if 0 <= file < len(files) else None
        return None if name is None else Place(name, line)

    def _files_of(self, entry: Entry) -> list[Optional[str]]:
        """The files of an entry's unit, by number."""
        start = entry.unit.start
        if start not in self._files:
            root = self.entries.root(entry.unit)
            program = root.number("stmt_list") if root is not None else None
            home = root.values.get("comp_dir", "") if root is not None else ""
            try:
                self._files[start] = [] if program is None else file_names(self.entries.sections, program, str(home))
            except BROKEN:
                self._files[start] = []
        return self._files[start]


def is_definition(entry: Entry) -> bool:
    """Whether an entry defines a function or an object, and not only declares it."""
    return entry.tag in _DEFINED and "declaration" not in entry.values


def _location(member: Entry) -> int:
    """The byte of a member: a number, or the expression that adds one."""
    value = member.values.get("data_member_location")
    if isinstance(value, bytes) and value[:1] == bytes([_PLUS_CONSTANT]):
        total = 0
        for place, byte in enumerate(value[1:]):
            total |= (byte & 0x7F) << 7 * place
        return total
    return value if isinstance(value, int) else 0
