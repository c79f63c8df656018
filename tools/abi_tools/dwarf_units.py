"""The units of `.debug_info` and `.debug_types`: their headers, and a pass over their entries that changes values in place."""

from __future__ import annotations

import struct
from dataclasses import dataclass
from functools import partial
from typing import Callable, Iterator

from abi_tools.dwarf_tables import Bytes, ReadTable, Run, Shifts, Table, fixed_sizes, plan, read_number
from abi_tools.faults import Fault

_FOUR = struct.Struct("<I")
_TWO = struct.Struct("<H")
# Lengths from this value on are reserved; the largest one starts the 64-bit format (DWARF 5, 7.4).
_RESERVED_LENGTHS = 0xFFFFFFF0
_LENGTH_OF_64 = 0xFFFFFFFF
VERSIONS = (2, 3, 4, 5)
# How many bytes follow the offset of the abbreviations, by the type of a unit of version 5 (DWARF 5, 7.5.1): none; those of a type
# signature and a type offset; those of the id of split debug information.
_MORE_BYTES = {1: 0, 2: 12, 3: 0, 4: 8, 5: 8, 6: 12}
_TYPE_UNIT_MORE = 12


@dataclass(frozen=True)
class Unit:
    """The header of a unit: where the unit begins, where its entries begin and end, its version, where the header has the offset of
    the abbreviations, and that offset."""

    start: int
    entries: int
    end: int
    version: int
    table_at: int
    table: int


def units(section: Bytes, where: str, of_types: bool = False) -> Iterator[Unit]:
    """The units of a section; `of_types` says that it is `.debug_types`. Raises a fault, which names `where`, at the first unit that
    is damaged, not of version 2 to 5, or in the 64-bit format."""
    at = 0
    while at < len(section):
        try:
            unit = _unit(section, at, of_types)
        except (IndexError, struct.error) as error:
            raise Fault(f"{where} ends inside the header of the unit at {at}") from error
        except Fault as fault:
            raise Fault(f"{where}: the unit at {at} {fault}") from fault
        yield unit
        at = unit.end


def _unit(section: Bytes, start: int, of_types: bool) -> Unit:
    length = _FOUR.unpack_from(section, start)[0]
    if length == _LENGTH_OF_64:
        raise Fault("is in the 64-bit format of DWARF, which is not read")
    if length >= _RESERVED_LENGTHS or start + 4 + length > len(section):
        raise Fault("does not end inside its section")
    version = _TWO.unpack_from(section, start + 4)[0]
    if version not in VERSIONS:
        raise Fault(f"is of version {version} of DWARF, which is not read")
    table_at, size_at = (start + 8, start + 7) if version == 5 else (start + 6, start + 10)
    if section[size_at] != 8:
        raise Fault("has addresses that are not of eight bytes")
    entries = start + 12 + _more_bytes(section[start + 6]) if version == 5 else start + 11
    if of_types:
        entries += _TYPE_UNIT_MORE
    return Unit(start, entries, start + 4 + length, version, table_at, _FOUR.unpack_from(section, table_at)[0])


def _more_bytes(kind: int) -> int:
    if kind not in _MORE_BYTES:
        raise Fault(f"is of the type {kind}, which is not known")
    return _MORE_BYTES[kind]


class Tables:
    """The abbreviation tables of a section, each read once."""

    def __init__(self, section: Bytes, where: str) -> None:
        self._section = bytes(section)
        self._where = where
        self.read: dict[int, ReadTable] = {}

    def at(self, offset: int) -> ReadTable:
        """The table at an offset. Raises a fault if it does not end in the section."""
        if offset not in self.read:
            try:
                self.read[offset] = ReadTable(self._section, offset)
            except IndexError as error:
                raise Fault(f"{self._where}: the abbreviations at {offset} do not end inside their section") from error
        return self.read[offset]


class Pass:
    """A pass over the entries of units that adds to their values."""

    def __init__(self, tables: Tables, shifts: Shifts, where: str) -> None:
        self._tables = tables
        self._shifts = shifts
        self._where = where
        self._sizes: dict[int, dict[str, int]] = {}
        self._plans: dict[tuple[int, int], dict[int, tuple[Run, ...]]] = {}

    def over(self, section: bytearray, unit: Unit) -> None:
        """Changes the values of a unit's entries in place. Raises a fault if an entry is damaged or has an unknown form."""
        runs = self._plans.setdefault((unit.table, unit.version), {})
        table = self._tables.at(unit.table)
        sizes = self._sizes.setdefault(unit.version, fixed_sizes(unit.version))
        for _ in _checked_pass(section, unit, runs, partial(_planned, table, sizes, self._shifts), self._where):
            pass


def _planned(table: Table, sizes: dict[str, int], shifts: Shifts, code: int) -> tuple[Run, ...]:
    return plan(table[code], sizes, shifts)


def codes_used(section: Bytes, unit: Unit, table: Table, where: str) -> Iterator[int]:
    """The abbreviation codes that the entries of a unit use, each once, in the order of first use. Raises a fault if an entry is
    damaged or has an unknown form."""
    return _checked_pass(section, unit, {}, partial(_planned, table, fixed_sizes(unit.version), Shifts({})), where)


def _checked_pass(section: Bytes, unit: Unit, runs: dict[int, tuple[Run, ...]],
                  planned: Callable[[int], tuple[Run, ...]], where: str) -> Iterator[int]:
    """A pass over the entries of a unit. Raises a fault if one is damaged."""
    try:
        yield from _over_entries(section, unit, runs, planned)
    except (IndexError, ValueError, KeyError, struct.error) as error:
        raise Fault(f"{where}: an entry of the unit at {unit.start} is damaged") from error
    except Fault as fault:
        raise Fault(f"{where}: the unit at {unit.start}: {fault}") from fault


def _over_entries(section: Bytes, unit: Unit, runs: dict[int, tuple[Run, ...]],
                  planned: Callable[[int], tuple[Run, ...]]) -> Iterator[int]:
    """Passes over the entries of a unit, and yields each abbreviation code at its first use. `runs` has the runs planned before."""
    read = _FOUR.unpack_from
    # Only a pass that adds to values writes, and its section is a bytearray.
    write: Callable[..., None] = _FOUR.pack_into
    at, end = unit.entries, unit.end
    while at < end:
        code = section[at]
        at += 1
        if code == 0:
            continue
        if code >= 0x80:
            code, at = read_number(section, at - 1)
        if code not in runs:
            yield code
            runs[code] = planned(code)
        for run in runs[code]:
            for place, more in run.added:
                write(section, at + place, read(section, at + place)[0] + more)
            at += run.size
            if run.step is not None:
                at = run.step(section, at)
    if at != end:
        raise IndexError("the last entry does not end with its unit")
