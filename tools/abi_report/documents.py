"""Reads the documents of `abi-json`."""

from __future__ import annotations

import json
from dataclasses import dataclass, replace
from functools import cached_property
from typing import Any, Mapping, Optional, Sequence

from abi_tools.faults import Fault

from abi_report.runs import Running
from abi_report.texts_shown import path_shown

Json = dict[str, Any]
FORMAT = 1
# The kinds of notes that belong to breaks: another export that reaches the types of a break, and a likely successor of an export that
# is gone.
_AFFECTED = "affected export"
SUCCESSOR = "likely successor"
# The kind of notes on names of types. A break of the same two types makes such a note redundant.
_NAMES = "name of type"
# How a space within a name is printed.
_SPACE = "\\x20"
# The word before the row to which a note of the first kind belongs.
_AS = "as "
# The first letter of the rules on exports, which are not about types.
_OF_EXPORTS = "X"


@dataclass(frozen=True)
class Place:
    """A file of the source and a line in it. `is_definition` says that a function or object is defined there, and that no declaration of
    it is known."""

    file: str
    line: int
    is_definition: bool = False


@dataclass(frozen=True)
class Value:
    """An old or new value: a number with its unit, or a word."""

    value: str
    unit: str


@dataclass(frozen=True)
class Break:
    """A break of the report: the rule and its plain name, the export, the steps to the types, the words of the row, and the entries of
    both types. If the document has them, also `part` (the member, parameter or the like), `was` and `now` (its old and new value), and
    `exports` (all exports that reach both types)."""

    rule: str
    name: str
    export: str
    steps: tuple[str, ...]
    detail: str
    old_entry: Optional[int]
    new_entry: Optional[int]
    part: Optional[str] = None
    was: Optional[Value] = None
    now: Optional[Value] = None
    exports: tuple[str, ...] = ()

    @property
    def path(self) -> str:
        """The steps in one text."""
        return " / ".join(self.steps)

    @property
    def place(self) -> str:
        """The export and the path."""
        return f"{self.export} {self.path}" if self.steps else self.export

    @property
    def row(self) -> str:
        """The row of the text report."""
        return f"{self.rule} {self.place}: {self.detail}"

    @property
    def types(self) -> tuple[object, ...]:
        """A key that is equal for breaks of the same two types."""
        return (self.place,) if self.old_entry is None else (self.old_entry, self.new_entry)

    @property
    def reaching(self) -> tuple[str, ...]:
        """The exports that are known to reach the types."""
        return self.exports or (self.export,)


@dataclass(frozen=True)
class Note:
    """A note: a sentence; or a change that no rule judges, with its kind, the export and the path where it is, and the old and the new
    value."""

    sentence: str = ""
    kind: str = ""
    export: str = ""
    path: str = ""
    was: str = ""
    now: str = ""

    @property
    def place(self) -> str:
        """The export and the path."""
        return f"{self.export} {self.path}".strip()

    @property
    def text(self) -> str:
        """The note without its kind."""
        if not self.kind:
            return self.sentence
        change = " -> ".join(word for word in (self.was, self.now) if word)
        return ": ".join(word for word in (self.place, change) if word).replace(_SPACE, " ")


@dataclass(frozen=True)
class Document:
    """A whole document, with its breaks and the notes to show. Each break has the exports that reach its types."""

    whole: Json
    breaks: tuple[Break, ...] = ()
    notes: tuple[Note, ...] = ()

    @property
    def answer(self) -> str:
        """The answer in a word or two."""
        return str(self.whole["answer"])

    @property
    def status(self) -> int:
        """The exit status of `abi-json`."""
        return int(self.whole["status"])

    @property
    def text(self) -> str:
        """The text that `abi` prints if there are no breaks."""
        return str(self.whole.get("text") or "")

    @cached_property
    def inputs(self) -> Mapping[str, Json]:
        """The inputs, by their role in the command."""
        return {one["input"]: one for one in self.whole["inputs"]}

    def place(self, side: str, entry: Optional[int]) -> Optional[Place]:
        """Where the type of an entry is declared, if the document says so."""
        found = ((self.whole.get("places") or {}).get(side) or {}).get(str(entry))
        return None if found is None else Place(path_shown(str(found["file"])), int(found["line"]))

    def type_name(self, side: str, entry: Optional[int]) -> Optional[str]:
        """The type of an entry as C writes it, if the document says so."""
        found = ((self.whole.get("types") or {}).get(side) or {}).get(str(entry))
        return None if found is None else str(found)

    def counted(self, side: str) -> Optional[tuple[int, int]]:
        """How many exports with a nonzero size a library has, and how many of them have types."""
        found = (self.whole.get("untyped") or {}).get(side)
        return None if found is None else (int(found["all"]), int(found["all"]) - int(found["untyped"]))


def _value(found: Any) -> Optional[Value]:
    return Value(str(found["value"]), str(found.get("unit", ""))) if isinstance(found, dict) else None


def _break(found: Json) -> Break:
    return Break(found["rule"], found["name"], found["export"], tuple(found["steps"]), found["detail"], found["old_entry"],
                 found["new_entry"], found.get("part"), _value(found.get("was")), _value(found.get("is")))


def _note(found: Json) -> Note:
    """A note on what no rule judges."""
    kind, export, path, was, now = (str(found.get(name) or "") for name in ("kind", "export", "path", "was", "is"))
    return Note("", kind, export, path, was, now)


def _shown(breaks: Sequence[Break], notes: Sequence[Note]) -> list[Note]:
    """The notes, without those on the names of types that a break is about."""
    places = {one.place for one in breaks}
    broken = {(note.was, note.now) for note in notes if note.kind == _NAMES and note.place in places}
    return [note for note in notes if note.kind != _NAMES or (note.was, note.now) not in broken]


def _with_exports(breaks: Sequence[Break], notes: Sequence[Json]) -> tuple[Break, ...]:
    """The breaks with all exports that reach their types. Notes name the other exports, at the first row on the same two types."""
    others: dict[str, list[str]] = {}
    for note in notes:
        if note["kind"] == _AFFECTED:
            others.setdefault(note["path"].removeprefix(_AS), []).append(note["export"])
    leading: dict[tuple[object, ...], dict[str, None]] = {}
    for one in breaks:
        beside = () if one.rule.startswith(_OF_EXPORTS) else others.get(one.place, ())
        leading.setdefault(one.types, {}).update(dict.fromkeys((one.export, *beside)))
    return tuple(replace(one, exports=tuple(leading[one.types])) for one in breaks)


def _parsed(text: bytes) -> Json:
    """Parses a document. Raises a fault if it is not a document of the known format."""
    try:
        whole: Json = json.loads(text.decode("utf-8", "replace"))
        if whole["format"] != FORMAT:
            raise Fault(f"abi-json prints the format {whole['format']}; this tool reads the format {FORMAT}")
        return whole
    except (ValueError, KeyError, TypeError) as error:
        raise Fault("abi-json printed no document") from error


def read_document(running: Running) -> Document:
    """The document that a run prints. Raises a fault if it is not a document of the known format."""
    whole = _parsed(running.printed())
    try:
        breaks = tuple(map(_break, whole["breaks"]))
        found = whole.get("side_notes")
        sentences = [Note(str(one)) for one in whole.get("notes") or ()]
        if (missing := whole.get("missing_side_notes")) is not None:
            sentences.append(Note(f"there are no notes: {missing}"))
        beside = [_note(one) for one in found or () if one["kind"] != _AFFECTED]
        return Document(whole, breaks if found is None else _with_exports(breaks, found), (*sentences, *_shown(breaks, beside)))
    except (ValueError, KeyError, TypeError, AttributeError) as error:
        raise Fault("abi-json printed no document") from error
