"""The parts of abbreviation tables and range lists that `abi` reads."""

from __future__ import annotations

from typing import Any, Iterator

from elftools.elf.elffile import ELFFile

from .entries import Entries, Unit
from .figures import Figure, constant, figure

# An abbreviation has at least one byte each for its code, its tag, DW_CHILDREN, and the two numbers of each pair; the last pair is 0 0.
_ABBREVIATION = 5
_PAIR = 2
_IMPLICIT_CONST = 0x21
_ADDRESS = 8
_BASE = b"\xff" * _ADDRESS
_END = b"\0" * (2 * _ADDRESS)
_LISTS = 5
_NO_RANGES = ("DW_RLE_base_address", "DW_RLE_base_addressx")


def contents(elf: ELFFile, name: str) -> bytes:
    section = elf.get_section_by_name(name)
    return bytes(section.data()) if section else b""


class _Numbers:
    """Reads LEB128 numbers."""

    def __init__(self, held: bytes, at: int) -> None:
        self._held = held
        self._at = at

    def byte(self) -> int:
        self._at += 1
        return self._held[self._at - 1]

    def number(self) -> int:
        """An unsigned number. Signed ones are only skipped, so their value does not matter."""
        value = shift = 0
        while True:
            byte = self.byte()
            value |= (byte & 0x7F) << shift
            shift += 7
            if byte < 0x80:
                return value

    def pairs(self) -> Iterator[tuple[int, int]]:
        while True:
            pair = self.number(), self.number()
            if pair[1] == _IMPLICIT_CONST:
                self.number()
            if pair == (0, 0):
                return
            yield pair


def _table_bytes(held: bytes, at: int) -> int:
    """The fewest bytes that the abbreviations of a table can have."""
    numbers = _Numbers(held, at)
    found = 0
    while numbers.number():
        numbers.number()
        numbers.byte()
        found += _ABBREVIATION + _PAIR * sum(1 for _ in numbers.pairs())
    return found


def abbreviations(elf: ELFFile, units: list[Unit]) -> Figure:
    """The tables of all units. A table is read again if the tables that are kept left no room for it."""
    held = contents(elf, ".debug_abbrev")
    most = min(len(held), constant("dwarf_units/src/table.rt", "MOST_KEPT_BYTES"))
    kept: set[int] = set()
    room = found = 0
    for unit in units:
        if unit.abbreviations not in kept:
            size = _table_bytes(held, unit.abbreviations)
            found += size
            if size > room:
                kept, room = set(), most
            room = max(0, room - size)
            kept.add(unit.abbreviations)
    return figure("Abbreviations", found, len(held))


def attributes(units: list[Unit]) -> Figure:
    """The attributes of the entries of a unit, for the unit with the most attributes for each of its bytes."""
    figures = [figure("Attributes", unit.attributes, unit.size) for unit in units]
    return max(figures, key=lambda of_unit: of_unit.share, default=Figure(0, 0))


def _list_bytes(ranges: Any, place: int) -> int:
    """The bytes of a list of version 5 up to its first range."""
    found = 0
    for entry in ranges.get_range_list_at_offset_ex(place):
        if entry.entry_type == "DW_RLE_end_of_list":
            break
        found += entry.entry_length
        if entry.entry_type not in _NO_RANGES:
            break
    return found


def _pair_bytes(held: bytes, place: int) -> int:
    """The bytes of a list of pairs up to its first range."""
    found = 0
    while held[place + found:place + found + 2 * _ADDRESS] not in (_END, b""):
        base = held[place + found:place + found + _ADDRESS] == _BASE
        found += 2 * _ADDRESS
        if not base:
            break
    return found


def range_lists(elf: ELFFile, entries: Entries) -> Figure:
    """The range lists of functions."""
    pairs = contents(elf, ".debug_ranges")
    lists = contents(elf, ".debug_rnglists")
    ranges = elf.get_dwarf_info().range_lists() if entries.lists else None
    found = sum(
        _list_bytes(ranges, place) if version >= _LISTS else _pair_bytes(pairs, place) for version, place in entries.lists
    )
    return figure("RangeLists", found, len(pairs) + len(lists))
