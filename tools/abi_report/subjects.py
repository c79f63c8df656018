"""Which type each break belongs to: its subject.

The subject is the innermost structure or union on the way to what broke, since a reader must look at its declaration: if the type of a
member grew, that is a change of the structure with the member. If there is none on the way, the subject is the type itself, or the
function.
"""

from __future__ import annotations

from dataclasses import dataclass
from functools import cached_property
from pathlib import Path
from typing import Optional, Sequence

from abi_report.c_names import Names
from abi_report.documents import Break, Document, Place
from abi_report.entries import BROKEN, Entries, Entry
from abi_report.records import Records, is_definition

# Rules of exports and of the library.
EXPORT_RULES = ("X1", "X2", "X3", "X4", "X5", "X6")
GONE_RULES = ("X2", "X3")
# If the kind or the tag of a type changed, the change is in the declaration that names the type.
_OF_HOLDERS = ("L1", "L5")
_FUNCTIONS = ("subprogram", "subroutine_type")


@dataclass(frozen=True)
class Described:
    """A type of one library: its entry (if it could be read), the entry's offset, its name as C writes it, and its place."""

    entry: Optional[Entry]
    offset: Optional[int]
    name: Optional[str]
    place: Optional[Place]


class Library:
    """The debug information of a library, read when it is first used."""

    def __init__(self, path: Path) -> None:
        self.path = path

    @cached_property
    def records(self) -> Optional[Records]:
        """What the library declares, if that can be read. A file that can be read only once, such as a pipe, is left to `abi-json`."""
        try:
            return Records(Entries(self.path)) if self.path.is_file() else None
        except (*BROKEN, OSError):
            return None

    def prepare(self) -> None:
        """Reads what every report needs."""
        if self.records is not None:
            self.records.entries.prepare()

    @cached_property
    def says_places(self) -> bool:
        """Whether the library says where its source declares things: not if it lacks line tables, as a baseline does."""
        return self.records is None or not self.records.entries.info or ".debug_line" in self.records.entries.sections


class Side:
    """One library of a report: what its document and its debug information say of it."""

    def __init__(self, document: Document, side: str, library: Library) -> None:
        self._document = document
        self._exports: dict[str, Optional[Entry]] = {}
        self._described: dict[Optional[int], Described] = {}
        self._library = library
        self.side = side
        self.path = library.path

    @property
    def records(self) -> Optional[Records]:
        """What the library declares, if that can be read."""
        return self._library.records

    @property
    def says_places(self) -> bool:
        """Whether the library says where its source declares things."""
        return self._library.says_places

    @property
    def names(self) -> Optional[Names]:
        """The names of the library's types."""
        return self.records.names if self.records is not None else None

    def entry(self, offset: Optional[int]) -> Optional[Entry]:
        """The entry at an offset."""
        return self.records.entries.at(offset) if self.records is not None else None

    def export(self, label: str) -> Optional[Entry]:
        """The function or variable of an export."""
        if label not in self._exports:
            self._exports[label] = self.records.export(label) if self.records is not None else None
        return self._exports[label]

    def walk(self, label: str, steps: Sequence[str]) -> Optional[Entry]:
        """The type at the end of the steps from an export."""
        export = self.export(label)
        if export is None or self.records is None:
            return None
        return self.records.walk(export, steps)

    def record(self, label: str, steps: Sequence[str]) -> Optional[Entry]:
        """The structure or union at the end of the steps from an export."""
        found = self.walk(label, steps)
        return self.records.record(found.offset) if found is not None and self.records is not None else None

    def place(self, entry: Optional[Entry], offset: Optional[int]) -> Optional[Place]:
        """Where a type is declared, from the document or else from the debug information."""
        said = self._document.place(self.side, offset)
        if entry is None or self.records is None or (said is not None and not is_definition(entry)):
            return said
        return self.records.place(entry) or said

    def type_name(self, entry: Optional[Entry], offset: Optional[int]) -> Optional[str]:
        """A type as C writes it, from the document or else from the debug information."""
        said = self._document.type_name(self.side, offset)
        if said is not None or entry is None or self.names is None:
            return said
        return self.names.prototype(entry) if entry.tag == "subprogram" else self.names.of(entry.offset)

    def described(self, offset: Optional[int]) -> Described:
        """The type at an offset. Typedefs and qualifiers of a structure, union or enumeration are skipped."""
        if offset not in self._described:
            self._described[offset] = self._described_at(offset)
        return self._described[offset]

    def function(self, label: str, offset: Optional[int]) -> Described:
        """The function of an export. If several functions have one type, the document has the entry of one of them, whatever its name."""
        given, name = self.described(offset), label.split("@")[0]
        if given.entry is None or given.entry.tag not in _FUNCTIONS or given.entry.name == name or self.names is None:
            return given
        own = self.export(label)
        if own is not None and own.tag == "subprogram" and self.names.signature(own) == self.names.signature(given.entry):
            return Described(own, own.offset, self.names.prototype(own), self.place(own, own.offset))
        return Described(given.entry, offset, self.names.of(given.offset, name), None)

    def _described_at(self, offset: Optional[int]) -> Described:
        entry = self.entry(offset)
        if entry is not None and self.records is not None and entry.tag not in _FUNCTIONS:
            core = self.records.core(offset)
            if core is not None and core.tag in ("structure_type", "union_type", "enumeration_type"):
                place = self.place(core, core.offset) or self.place(entry, offset)
                name = self.type_name(core, core.offset) if core.name is not None else self.type_name(entry, offset)
                return Described(core, core.offset, name, place)
        return Described(entry, offset, self.type_name(entry, offset), self.place(entry, offset))


@dataclass(frozen=True)
class Subject:
    """What breaks belong to: the kind (`record`, `type`, `function`, `export` or `library`), both types, and the key by which breaks are
    grouped."""

    kind: str
    old: Described
    new: Described
    key: tuple[object, ...]


class Subjects:
    """The subjects of a document's breaks."""

    def __init__(self, old: Side, new: Side, breaks: Sequence[Break]) -> None:
        self.old = old
        self.new = new
        # Breaks of structures themselves name these structures: their entries, by export and path.
        self._known = {(one.export, one.steps): (one.old_entry, one.new_entry) for one in breaks if one.old_entry is not None}

    def of(self, one: Break) -> tuple[Subject, tuple[str, ...]]:
        """The subject of a break, and the steps from there to what broke."""
        if one.rule in EXPORT_RULES:
            return _of_export(one), ()
        last = _last_record(one.steps)
        if last is not None and (one.rule in _OF_HOLDERS or not self._is_tagged(one)):
            found = self._record(one.export, one.steps[:last])
            if found is not None:
                return found, one.steps[last:]
        return self._of_pair(one), ()

    def _is_tagged(self, one: Break) -> bool:
        """Whether the old type that broke is a structure, union or enumeration itself."""
        if self.old.records is None:
            return False
        core = self.old.records.core(one.old_entry)
        return core is not None and core.tag in ("structure_type", "union_type", "enumeration_type")

    def _record(self, export: str, steps: tuple[str, ...]) -> Optional[Subject]:
        """The structure or union at a path, if both libraries have one."""
        offsets = self._known.get((export, steps), (None, None))
        sides = [self._described_record(side, export, steps, offset) for side, offset in zip((self.old, self.new), offsets)]
        old, new = sides
        if old is None or new is None:
            return None
        return Subject("record", old, new, _record_key(old, new))

    def _described_record(self, side: Side, export: str, steps: Sequence[str], offset: Optional[int]) -> Optional[Described]:
        entry = side.records.record(offset) if side.records is not None and offset is not None else None
        if entry is None:
            entry = side.record(export, steps)
        if entry is None:
            return None
        return Described(entry, entry.offset, side.type_name(entry, entry.offset), side.place(entry, entry.offset))

    def _of_pair(self, one: Break) -> Subject:
        """The types themselves."""
        old, new = self.old.described(one.old_entry), self.new.described(one.new_entry)
        if not one.steps and (old.entry is None or old.entry.tag in _FUNCTIONS):
            sides = self.old.function(one.export, one.old_entry), self.new.function(one.export, one.new_entry)
            return Subject("function", *sides, ("function", one.export))
        if one.rule not in _OF_HOLDERS and self._is_tagged(one):
            return Subject("record", old, new, _record_key(old, new))
        return Subject("type", old, new, ("type", one.old_entry, one.new_entry, None if one.old_entry else one.export))


def _of_export(one: Break) -> Subject:
    """The export or the library that a rule on exports is about."""
    nothing = Described(None, None, None, None)
    if one.rule == "X1":
        return Subject("library", nothing, nothing, ("library",))
    return Subject("export", nothing, nothing, ("export", one.export))


def _record_key(old: Described, new: Described) -> tuple[object, ...]:
    """The key of a structure: types with the same name and place are one to the reader, even if they have several entries."""
    if old.name is None or (old.place is None and new.place is None):
        return ("record", old.offset, new.offset)
    return ("record", old.name, old.place, new.name, new.place)


def _last_record(steps: Sequence[str]) -> Optional[int]:
    """The index of the last step to a member."""
    return next((at for at in range(len(steps) - 1, -1, -1) if steps[at].startswith("member ")), None)
