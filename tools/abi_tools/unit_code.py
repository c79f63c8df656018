"""The address ranges of a unit's code, from its root entry and the range lists that it names."""

from __future__ import annotations

import struct
from typing import Iterator, Mapping

from abi_tools.dwarf_tables import ATTRIBUTES, FORM_NAMES, STEPS, Table, fixed_sizes, read_number
from abi_tools.dwarf_units import Unit

_FOUR = struct.Struct("<I")
_EIGHT = struct.Struct("<Q")
_PAIR = struct.Struct("<QQ")
# unit_length, version, debug_info_offset, address_size and segment_selector_size. Pairs follow, at a multiple of their size.
_ADDRESSES_OF_UNIT = struct.Struct("<IHIBB")
_VERSION_OF_LISTS = 5
# In a list up to version 4 this value sets another base address (DWARF 4, 2.17.3).
_LARGEST_ADDRESS = (1 << 64) - 1
# The kinds of entries of a list of version 5 (DWARF 5, 7.25).
_END, _BASE_INDEX, _INDEXES, _INDEX_LENGTH, _OFFSETS, _BASE, _ADDRESSES = range(7)
# Where the addresses and offsets begin, after the header, if the root does not say so (DWARF 5, 7.27 and 7.28).
_FIRST_ADDRESS = 8
_FIRST_LIST = 12
# DW_LANG_Mips_Assembler, which assemblers of all machines write.
_ASSEMBLER = 0x8001
_INDEX_FORMS = ("DW_FORM_addrx", "DW_FORM_addrx1", "DW_FORM_addrx2", "DW_FORM_addrx3", "DW_FORM_addrx4")

Range = tuple[int, int]
Sections = Mapping[str, bytes]
# The forms and values of the root's attributes.
Values = Mapping[int, tuple[str, int]]


def code_of(sections: Sections, unit: Unit, table: Table) -> list[Range]:
    """The start and end of each range of a unit's code. Raises one of `elf_files.DAMAGED` if bytes are damaged."""
    root = Root(sections, unit, _values(sections[".debug_info"], unit, table))
    return list(root.ranges())


def is_assembler(sections: Sections, unit: Unit, table: Table) -> bool:
    """Whether the root of a unit says that it is written in assembler. Raises one of `elf_files.DAMAGED` if bytes are damaged."""
    _, language = _values(sections[".debug_info"], unit, table).get(ATTRIBUTES["DW_AT_language"], ("", 0))
    return language == _ASSEMBLER


def listed_code(section: bytes) -> Iterator[tuple[int, int, int]]:
    """The start and end of each range of code in `.debug_aranges` (DWARF 5, 6.1.2), and where its unit begins. Raises one of
    `elf_files.DAMAGED` if bytes are damaged."""
    at = 0
    while at < len(section):
        length, _, unit, size, segment = _ADDRESSES_OF_UNIT.unpack_from(section, at)
        end = at + 4 + length
        if (size, segment) == (8, 0):
            first = at + _ADDRESSES_OF_UNIT.size + -_ADDRESSES_OF_UNIT.size % _PAIR.size
            yield from ((start, start + count, unit) for start, count in _PAIR.iter_unpack(section[first:end]) if count)
        at = end


def _values(section: bytes, unit: Unit, table: Table) -> Values:
    """The attributes of a unit's root entry, as numbers."""
    code, at = read_number(section, unit.entries)
    sizes = fixed_sizes(unit.version)
    found = {}
    for one in table[code].attributes:
        form = FORM_NAMES.get(one.form, "")
        end = at + sizes[form] if form in sizes else STEPS[form](section, at)
        value = int.from_bytes(section[at:end], "little") if form in sizes else read_number(section, at)[0]
        found[one.attribute] = form, value
        at = end
    return found


class Root:
    """What the root entry of a unit says about addresses."""

    def __init__(self, sections: Sections, unit: Unit, values: Values) -> None:
        self._sections = sections
        self._unit = unit
        self._values = values

    def ranges(self) -> Iterator[Range]:
        """The ranges of the code."""
        if self._has("ranges"):
            yield from self._listed()
        elif self._has("high_pc"):
            start = self._address("low_pc")
            form, end = self._values[ATTRIBUTES["DW_AT_high_pc"]]
            yield start, self._resolved(form, end) if form == "DW_FORM_addr" or form in _INDEX_FORMS else start + end

    def _has(self, name: str) -> bool:
        return ATTRIBUTES[f"DW_AT_{name}"] in self._values

    def _number(self, name: str, default: int) -> int:
        return self._values.get(ATTRIBUTES[f"DW_AT_{name}"], ("", default))[1]

    def _address(self, name: str) -> int:
        return self._resolved(*self._values[ATTRIBUTES[f"DW_AT_{name}"]])

    def _resolved(self, form: str, value: int) -> int:
        return self._indexed(value) if form in _INDEX_FORMS else value

    def _indexed(self, index: int) -> int:
        """The address at an index of `.debug_addr`."""
        return int(_EIGHT.unpack_from(self._sections[".debug_addr"], self._number("addr_base", _FIRST_ADDRESS) + 8 * index)[0])

    def _listed(self) -> Iterator[Range]:
        """The ranges in the list that the root names."""
        form, at = self._values[ATTRIBUTES["DW_AT_ranges"]]
        base = self._address("low_pc") if self._has("low_pc") else 0
        if self._unit.version < _VERSION_OF_LISTS:
            yield from _earlier(self._sections[".debug_ranges"], at, base)
            return
        if form == "DW_FORM_rnglistx":
            first = self._number("rnglists_base", _FIRST_LIST)
            at = first + _FOUR.unpack_from(self._sections[".debug_rnglists"], first + 4 * at)[0]
        yield from self._later(self._sections[".debug_rnglists"], at, base)

    def _later(self, section: bytes, at: int, base: int) -> Iterator[Range]:
        """A list of version 5."""
        while section[at] != _END:
            kind = section[at]
            first, at = _address_at(section, at + 1) if kind >= _BASE else read_number(section, at + 1)
            start = self._indexed(first) if kind in (_BASE_INDEX, _INDEXES, _INDEX_LENGTH) else first
            if kind in (_BASE_INDEX, _BASE):
                base = start
                continue
            end, at = _address_at(section, at) if kind == _ADDRESSES else read_number(section, at)
            yield self._range(kind, base, start, end)

    def _range(self, kind: int, base: int, start: int, end: int) -> Range:
        """The range that an entry of a list describes."""
        if kind == _OFFSETS:
            return base + start, base + end
        if kind == _INDEXES:
            return start, self._indexed(end)
        return start, end if kind == _ADDRESSES else start + end


def _earlier(section: bytes, at: int, base: int) -> Iterator[Range]:
    """A list up to version 4: pairs of addresses, ended by a pair of zeros."""
    while True:
        start, end = _PAIR.unpack_from(section, at)
        at += _PAIR.size
        if start == end == 0:
            return
        if start == _LARGEST_ADDRESS:
            base = end
        else:
            yield base + start, base + end


def _address_at(section: bytes, at: int) -> tuple[int, int]:
    """The address at an offset, and the offset of its end."""
    return int(_EIGHT.unpack_from(section, at)[0]), at + _EIGHT.size
