"""Which code of a library has debug information with types.

Compilers write no types at level 1 (`gcc -g1`, `clang -gline-tables-only`): `abi` then reads each function as `void f(void)`, or
finds none. A unit counts as level 1 if its entries have neither types nor prototypes and import no other unit. A unit whose entries
complete those of other units, as link-time optimization writes it, has types if any unit has some.
"""

from __future__ import annotations

import bisect
import enum
from dataclasses import dataclass
from functools import cached_property
from typing import Iterable, Optional

from abi_tools.debug_contents import DebugContents
from abi_tools.dwarf_tables import ATTRIBUTES, FORMS, TAGS, Table
from abi_tools.dwarf_units import Tables, Unit, codes_used, units
from abi_tools.elf_files import DAMAGED, ElfFile
from abi_tools.unit_code import Range, code_of, is_assembler

_SHOWS_TYPES = (ATTRIBUTES["DW_AT_type"], ATTRIBUTES["DW_AT_prototyped"])
_IMPORTS = TAGS["DW_TAG_imported_unit"]
_ORIGIN = ATTRIBUTES["DW_AT_abstract_origin"]
_IN_ANOTHER_UNIT = FORMS["DW_FORM_ref_addr"]


class _Types(enum.Enum):
    """Where the types of a unit's entries are."""

    HERE = enum.auto()
    IN_OTHER_UNITS = enum.auto()
    NOWHERE = enum.auto()


@dataclass(frozen=True)
class Code:
    """The address ranges of the code of some units, in order. `is_all` is set if the ranges of one unit could not be read: then any
    address may belong to it."""

    ranges: tuple[Range, ...] = ()
    is_all: bool = False

    def has(self, address: int) -> bool:
        """Whether an address may be in this code."""
        number = bisect.bisect_right(self.ranges, (address, _BEHIND)) - 1
        return self.is_all or (number >= 0 and address < self.ranges[number][1])


# Larger than any address.
_BEHIND = 1 << 65


class Levels:
    """The code that has debug information with types, and the code that has some without types."""

    def __init__(self, file: ElfFile) -> None:
        """Finds out which units have types. Raises a fault if this meets damaged debug information."""
        self._sections = DebugContents(file)
        self._tables = Tables(self._sections.get(".debug_abbrev", b""), f"{file.name}: .debug_abbrev")
        where = f"{file.name}: .debug_info"
        info = self._sections.get(".debug_info", b"")
        found = [(unit, _types_of(info, unit, self._tables.at(unit.table), where)) for unit in units(info, where)]
        are_anywhere = any(types is _Types.HERE for _, types in found)
        self._units = [(unit, types is _Types.HERE or types is _Types.IN_OTHER_UNITS and are_anywhere) for unit, types in found]

    @cached_property
    def has_types(self) -> bool:
        """Whether any unit has types."""
        return any(has_types for _, has_types in self._units)

    @cached_property
    def typed(self) -> Code:
        """The code of the units with types."""
        return self._code(True)

    @cached_property
    def untyped(self) -> Code:
        """The code of the units without types."""
        return self._code(False)

    @cached_property
    def assembler(self) -> Code:
        """The code of the units that are written in assembler, as far as it can be read."""
        found = [self._code_of(unit) for unit, _ in self._units if self._is_assembler(unit)]
        return Code(_joined(one for part in found for one in part or ()))

    def _is_assembler(self, unit: Unit) -> bool:
        try:
            return is_assembler(self._sections, unit, self._tables.at(unit.table))
        except DAMAGED:
            return False

    def _code(self, typed: bool) -> Code:
        found = [self._code_of(unit) for unit, has_types in self._units if has_types == typed]
        return Code(_joined(one for part in found for one in part or ()), any(part is None for part in found))

    def _code_of(self, unit: Unit) -> Optional[list[Range]]:
        """The code of a unit; None if it cannot be read."""
        try:
            return code_of(self._sections, unit, self._tables.at(unit.table))
        except DAMAGED:
            return None

    def reason(self) -> str:
        """Why exports have no types, as a predicate to the name of the library."""
        if self.untyped.is_all or self.untyped.ranges:
            return "has debug information without types (of level 1, -g1, or of assembler)"
        return "has no debug information of them" if self.has_types else "has no debug information"


def _types_of(section: bytes, unit: Unit, table: Table, where: str) -> _Types:
    """Where the types of a unit's entries are. Reads no entries after the first one that has types."""
    found = _Types.NOWHERE
    used = (table[code] for code in codes_used(section, unit, table, where) if code in table)
    for one in used:
        if one.tag == _IMPORTS or any(two.attribute in _SHOWS_TYPES for two in one.attributes):
            return _Types.HERE
        if any(two.attribute == _ORIGIN and two.form == _IN_ANOTHER_UNIT for two in one.attributes):
            found = _Types.IN_OTHER_UNITS
    return found


def _joined(ranges: Iterable[Range]) -> tuple[Range, ...]:
    """The ranges in order; ranges that touch or overlap are merged."""
    found: list[Range] = []
    for start, end in sorted(ranges):
        if found and start <= found[-1][1]:
            found[-1] = found[-1][0], max(end, found[-1][1])
        elif start < end:
            found.append((start, end))
    return tuple(found)
