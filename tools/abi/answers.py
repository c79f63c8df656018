"""What the program says, as data. `docs/report.schema.json` describes the document that it is read from."""

from __future__ import annotations

import enum
from dataclasses import dataclass
from typing import Any, Mapping, Optional, Union

Json = Mapping[str, Any]
# The kinds of notes on what can break callers that were compiled against the old library, though no rule judges it. The other kinds are
# only told.
CAN_BREAK_CALLERS = frozenset((
    "array dimensions", "member in padding", "union without members", "endianity", "calling convention", "address class", "packing",
    "enumerator sign", "defined elsewhere", "thread-local object", "object qualifiers"))


class Verdict(enum.Enum):
    """Whether the new library may replace the old one."""

    YES = "yes"
    NO = "no"


@dataclass(frozen=True)
class Input:
    """A file that was read: its role (`old`, `new`, `rules`), its name as it was given, its SHA-256 in hexadecimal, and its soname. The
    digest is missing if the file could not be read again."""

    role: str
    name: str
    sha256: Optional[str]
    soname: Optional[str]


@dataclass(frozen=True)
class Place:
    """Where a type is declared in the source."""

    file: str
    line: int


@dataclass(frozen=True)
class Value:
    """An old or a new value: a number with its unit (`bytes`, `bits`, `count` or `number`), or a word with the unit `word`."""

    value: Union[int, str]
    unit: str


@dataclass(frozen=True)
class Break:
    """A broken rule: its number as `L2`, its plain name, the export, the steps from it to the types, what the report says, the part (a
    member, a parameter) and its old and new value, and the names and places of both types, as far as the debug information has them."""

    rule: str
    name: str
    export: str
    steps: tuple[str, ...]
    detail: str
    part: Optional[str]
    was: Optional[Value]
    now: Optional[Value]
    old_type: Optional[str]
    new_type: Optional[str]
    old_place: Optional[Place]
    new_place: Optional[Place]

    @property
    def path(self) -> str:
        """The steps in one text, as the report has them."""
        return " / ".join(self.steps)


@dataclass(frozen=True)
class Note:
    """A difference that no rule judges: its kind, where it is, and what was and is there."""

    kind: str
    export: Optional[str]
    path: Optional[str]
    was: Optional[str]
    now: Optional[str]

    @property
    def can_break_callers(self) -> bool:
        """Whether what it names can break callers that were compiled against the old library; else it is only told."""
        return self.kind in CAN_BREAK_CALLERS


@dataclass(frozen=True)
class Answer:
    """A yes or a no. The certificate (bytes) comes with a yes and is empty for a no; the breaks come with a no. `notes` is None if they
    were not asked for, or memory or a limit left none. `sentences` are those that the program has for people."""

    verdict: Verdict
    certificate: bytes
    breaks: tuple[Break, ...]
    notes: Optional[tuple[Note, ...]]
    sentences: tuple[str, ...]
    inputs: tuple[Input, ...]

    def __bool__(self) -> bool:
        """Refuses to be a truth value, since neither a yes nor a no is an error: compare `verdict`."""
        raise TypeError("an answer is no truth value: compare its verdict")


def _value(found: Optional[Json]) -> Optional[Value]:
    return None if found is None else Value(found["value"], str(found["unit"]))


def _place(places: Optional[Json], side: str, entry: Optional[int]) -> Optional[Place]:
    found = ((places or {}).get(side) or {}).get(str(entry))
    return None if found is None else Place(str(found["file"]), int(found["line"]))


def _name(types: Optional[Json], side: str, entry: Optional[int]) -> Optional[str]:
    found = ((types or {}).get(side) or {}).get(str(entry))
    return None if found is None else str(found)


def _break(found: Json, places: Optional[Json], types: Optional[Json]) -> Break:
    old, new = found["old_entry"], found["new_entry"]
    return Break(found["rule"], found["name"], found["export"], tuple(found["steps"]), found["detail"], found["part"],
                 _value(found["was"]), _value(found["is"]), _name(types, "old", old), _name(types, "new", new),
                 _place(places, "old", old), _place(places, "new", new))


def _note(found: Json) -> Note:
    return Note(found["kind"], found["export"], found["path"], found["was"], found["is"])


def read_answer(document: Json) -> Answer:
    """The answer in a document whose answer is yes or no. Raises KeyError, TypeError or ValueError if it is not such a document."""
    notes = document.get("side_notes")
    breaks = tuple(_break(found, document["places"], document.get("types")) for found in document["breaks"])
    inputs = tuple(Input(one["input"], one["name"], one["sha256"], one["soname"]) for one in document["inputs"])
    text = document["text"] or ""
    return Answer(Verdict(document["answer"]), text.encode("utf-8", "surrogateescape"), breaks,
                  None if notes is None else tuple(map(_note, notes)), tuple(document["notes"]), inputs)
