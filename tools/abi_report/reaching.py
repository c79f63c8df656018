"""Which exports reach the structures that changed, from the old library's debug information. Notes of `abi-json` say it; this is for a
document that has none, as when the notes on thousands of breaks pass a limit."""

from __future__ import annotations

import re
from typing import Mapping, Optional, Protocol, Sequence

from abi_report.documents import Place
from abi_report.entries import Entry
from abi_report.records import Records
from abi_report.ways import below

# How many types a search visits. Past it, the search has no result.
_MOST_TYPES = 200_000
# What identifies a type: its tag, name and place, so that the entries of all units count as one; or the offset of a type without these.
_Key = tuple[object, ...]


class Declared(Protocol):
    """What one library declares, and which declaration an export has."""

    @property
    def records(self) -> Optional[Records]:
        """What it declares, if that can be read."""

    def export(self, label: str) -> Optional[Entry]:
        """The declaration of an export."""


class Reaching:
    """The exports that reach each type."""

    def __init__(self, side: Declared, labels: Sequence[str]) -> None:
        """Searches from these exports of the old library."""
        self._labels = labels
        # For each type, a number whose bit n says whether the export n reaches it.
        self._bits: dict[_Key, int] = {}
        self._named: dict[int, tuple[str, ...]] = {}
        self._below: dict[_Key, list[_Key]] = {}
        self._is_whole = side.records is not None
        if side.records is None:
            return
        starts: dict[_Key, int] = {}
        for number, label in enumerate(labels):
            export = side.export(label)
            key = None if export is None else self._visited(side.records, export.offset if export.tag == "subprogram" else export.kind)
            if key is not None:
                starts[key] = starts.get(key, 0) | 1 << number
        if self._is_whole:
            self._spread(starts)

    def of(self, records: Optional[Records], entry: Optional[Entry]) -> Optional[tuple[str, ...]]:
        """The exports that reach a type; None if that is not known."""
        if records is None or entry is None or not self._is_whole:
            return None
        bits = self._bits.get(_key(records, entry), 0)
        if bits not in self._named:
            self._named[bits] = tuple(self._labels[one.start()] for one in re.finditer("1", bin(bits)[:1:-1]))
        return self._named[bits]

    def _visited(self, records: Records, offset: Optional[int]) -> Optional[_Key]:
        """The key of the type at an offset, after it and all that it reaches were visited; None if there is none."""
        entry = records.entries.at(offset)
        if entry is None:
            return None
        first = _key(records, entry)
        waiting = [] if first in self._below else [(first, entry)]
        while waiting and self._is_whole:
            key, entry = waiting.pop()
            if key not in self._below:
                parts = [(_key(records, one), one) for _, part in below(records, entry) if (one := records.entries.at(part)) is not None]
                self._below[key] = [part for part, _ in parts]
                waiting += [part for part in parts if part[0] not in self._below]
                self._is_whole = len(self._below) <= _MOST_TYPES
        return first

    def _spread(self, starts: Mapping[_Key, int]) -> None:
        """Says of each type which exports reach it: those of the types above it, and those of all types of a circle."""
        for circle in reversed(circles(self._below)):
            bits = 0
            for key in circle:
                bits |= starts.get(key, 0) | self._bits.get(key, 0)
            for key in circle:
                self._bits[key] = bits
            for part in {part for key in circle for part in self._below[key]}.difference(circle):
                self._bits[part] = self._bits.get(part, 0) | bits


def circles(graph: Mapping[_Key, Sequence[_Key]]) -> list[list[_Key]]:
    """The keys of a graph in groups that reach each other, each group behind those that it reaches (Tarjan's algorithm)."""
    found: list[list[_Key]] = []
    numbers: dict[_Key, int] = {}
    lowest: dict[_Key, int] = {}
    path: list[_Key] = []
    on_path: set[_Key] = set()
    for start in graph:
        calls = [] if start in numbers else [(start, iter(graph[start]))]
        while calls:
            key, parts = calls[-1]
            if key not in numbers:
                numbers[key] = lowest[key] = len(numbers)
                path.append(key)
                on_path.add(key)
            part = next((one for one in parts if one not in numbers or one in on_path), None)
            if part is not None and part not in numbers:
                calls.append((part, iter(graph[part])))
            elif part is not None:
                lowest[key] = min(lowest[key], numbers[part])
            else:
                calls.pop()
                if calls:
                    lowest[calls[-1][0]] = min(lowest[calls[-1][0]], lowest[key])
                if lowest[key] == numbers[key]:
                    found.append([*iter(path.pop, key), key])
                    on_path.difference_update(found[-1])
    return found


def _key(records: Records, entry: Entry) -> _Key:
    place: Optional[Place] = records.place(entry) if entry.name is not None and entry.tag != "subprogram" else None
    return (entry.offset,) if place is None else (entry.tag, entry.name, place)
