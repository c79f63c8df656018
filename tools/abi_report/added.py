"""What a yes lets pass and a caller can only use with the new library: enumerators that only it has, in enumerations that the certificate
pairs, and members in holes of structures, of which notes tell. No rule judges that, since old callers know neither."""

from __future__ import annotations

import re
from dataclasses import dataclass
from pathlib import Path
from typing import Iterator, Optional, Sequence

from abi.answers import Note
from abi_report.entries import Entries, Entry
from abi_report.judging import labels_of
from abi_report.reaching import Reaching
from abi_report.records import Records

_ENUMERATION = "enumeration_type"
# The kind of notes on members in holes, and what they say of one.
_IN_HOLE = "member in padding"
_MEMBER = re.compile(r"member (.*) at bit -?\d+", re.DOTALL)


@dataclass(frozen=True)
class Added:
    """A type of the old library, whether its members or its enumerators are more in the new one, their names, and the exports that lead
    to it (none if there are too many types to search)."""

    type_name: str
    parts: str
    names: tuple[str, ...]
    exports: tuple[str, ...]


@dataclass(frozen=True)
class _More:
    """A type of the old library, if it is found, or else where it is, and an export that leads to it; and what the new one has more."""

    entry: Optional[Entry]
    place: str
    export: str
    parts: str
    names: tuple[str, ...]


class _Old:
    """The old library, as the search for what exports reach needs it."""

    def __init__(self, path: Path) -> None:
        self.records = Records(Entries(path))

    def export(self, label: str) -> Optional[Entry]:
        """The declaration of an export."""
        return self.records.export(label)


def added(old: Path, new: Path, certificate: str, notes: Sequence[Note]) -> list[Added]:
    """What a yes lets pass, by its certificate and its notes. Raises a fault if a library cannot be read."""
    before = _Old(old)
    found = [*_members(before, notes), *_enumerators(before.records, Records(Entries(new)), certificate)]
    if not found:
        return []
    reaching = Reaching(before, labels_of(old, new)[0])
    # Each unit of a library repeats the types of its headers.
    return list(dict.fromkeys(_added(before.records, reaching, one) for one in found))


def _added(before: Records, reaching: Reaching, more: _More) -> Added:
    if more.entry is None:
        return Added(more.place, more.parts, more.names, (more.export,))
    exports = reaching.of(before, more.entry) or ((more.export,) if more.export else ())
    return Added(before.names.of(more.entry.offset), more.parts, more.names, exports)


def _members(before: _Old, notes: Sequence[Note]) -> Iterator[_More]:
    """The structures of the old library that have a member in a hole in the new one, each with these members."""
    places: dict[tuple[str, str], list[str]] = {}
    for note in notes:
        found = _MEMBER.fullmatch(note.now or "")
        if note.kind == _IN_HOLE and found:
            places.setdefault((note.export or "", note.path or ""), []).append(found[1])
    for (export, path), names in places.items():
        yield _More(_record(before.records, export, path), f"{export} {path}".strip(), export, "members", tuple(names))


def _record(before: Records, export: str, path: str) -> Optional[Entry]:
    """The structure at the end of a path."""
    start = before.export(export)
    end = None if start is None else before.walk(start, path.split(" / ") if path else ())
    return None if end is None else before.record(end.offset)


def _enumerators(before: Records, after: Records, certificate: str) -> Iterator[_More]:
    """The enumerations of the old library that are paired with larger ones, each with its new enumerators."""
    seen: set[tuple[int, int]] = set()
    for words in _pairs(certificate):
        one, two = before.core(int(words[1])), after.core(int(words[2]))
        if one is None or two is None or (one.tag, two.tag) != (_ENUMERATION, _ENUMERATION) or (one.offset, two.offset) in seen:
            continue
        seen.add((one.offset, two.offset))
        known = {known.name for known in before.enumerators(one)}
        more = tuple(found.name for found in after.enumerators(two) if found.name not in known)
        if more:
            yield _More(one, "", "", "enumerators", more)


def _pairs(certificate: str) -> Iterator[Sequence[str]]:
    """The words of the lines on pairs of types."""
    return (words for words in map(str.split, certificate.splitlines()) if words[:1] == ["pair"])
