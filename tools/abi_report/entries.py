"""Entries of debug information (DIEs), read one at a time by their offsets in `.debug_info`.

The answer never rests on what this module reads: it provides names and lines for people. It skips what is damaged or has an unknown
form.
"""

from __future__ import annotations

import bisect
import contextlib
import itertools
import struct
from collections import Counter
from dataclasses import dataclass
from functools import cached_property
from pathlib import Path
from typing import Collection, Iterable, Iterator, Mapping, Optional, Union

from abi_tools.debug_contents import DebugContents
from abi_tools.dwarf_tables import ATTRIBUTES, FORM_NAMES, STEPS, TAGS, Abbreviation, fixed_sizes, read_number
from abi_tools.dwarf_units import Tables, Unit, units
from abi_tools.elf_files import DAMAGED, ElfFile
from abi_tools.faults import Fault
from abi_tools.unit_code import code_of, listed_code

from abi_report.texts_shown import shown

_FOUR = struct.Struct("<I")
_EIGHT = struct.Struct("<Q")
_REFERENCES = {"DW_FORM_ref1": 1, "DW_FORM_ref2": 2, "DW_FORM_ref4": 4, "DW_FORM_ref8": 8}
_NUMBERS = {"DW_FORM_data1": 1, "DW_FORM_data2": 2, "DW_FORM_data4": 4, "DW_FORM_data8": 8, "DW_FORM_addr": 8,
            "DW_FORM_sec_offset": 4, "DW_FORM_flag": 1}
_INDEXES = {"DW_FORM_strx1": 1, "DW_FORM_strx2": 2, "DW_FORM_strx3": 3, "DW_FORM_strx4": 4}
_TEXTS = {"DW_FORM_strp": ".debug_str", "DW_FORM_line_strp": ".debug_line_str"}
_BLOCKS = {"DW_FORM_block1": 1, "DW_FORM_block2": 2, "DW_FORM_block4": 4}
# Where the string offsets begin in `.debug_str_offsets`, after its header (DWARF 5, 7.26), if a unit does not say so.
_FIRST_TEXT_OFFSET = 8
# How many occurrences of a name in `.debug_str` are tried, and how many of its offset in `.debug_info`.
_MOST_TEXTS = 64
_MOST_PLACES = 4096
# For how many names a declaration is searched; and in how many units with a name an entry is searched, if their bytes do not lead to it.
_MOST_DECLARED = 256
# After so many searches for bytes, it takes less time to read all of them once.
_MANY = 1024
_MOST_USERS = 8
# How many bytes the abbreviation code before a name may have.
_CODE_SIZES = (1, 2, 3)
# The first byte of the location of a variable: DW_OP_addr (DWARF 5, 7.7.1).
_AT_ADDRESS = b"\x03"
# Larger than any address.
_BEHIND = 1 << 65

Value = Union[int, str, bytes]
# The exceptions that damaged bytes cause while they are read.
BROKEN = (*DAMAGED, Fault, RecursionError)


@dataclass(frozen=True)
class Entry:
    """An entry: where it begins, its unit, its tag without `DW_TAG_`, the values of its attributes by name without `DW_AT_`, where it
    ends, and whether its children follow there."""

    offset: int
    unit: Unit
    tag: str
    values: Mapping[str, Value]
    end: int
    has_children: bool

    def number(self, name: str) -> Optional[int]:
        """The value of an attribute, if it is a number."""
        value = self.values.get(name)
        return value if isinstance(value, int) else None

    @property
    def name(self) -> Optional[str]:
        """The name, if the entry has one."""
        value = self.values.get("name")
        return value if isinstance(value, str) else None

    @property
    def kind(self) -> Optional[int]:
        """The offset of its type; None for void."""
        return self.number("type")


_TAG_NAMES = {number: name.removeprefix("DW_TAG_") for name, number in TAGS.items()}
_ATTRIBUTE_NAMES = {number: name.removeprefix("DW_AT_") for name, number in ATTRIBUTES.items()}


def _signed(data: bytes, at: int) -> tuple[int, int]:
    """The signed LEB128 number at an offset, and the offset of its end."""
    value, end = read_number(data, at)
    bits = 7 * (end - at)
    return value - (1 << bits) if bits < 64 and value >> (bits - 1) & 1 else value, end


class Entries:
    """The entries of a library."""

    def __init__(self, path: Path) -> None:
        """Reads the units. Raises a fault if the file or a unit is damaged."""
        self.file = ElfFile(path)
        self.sections = DebugContents(self.file)
        self.info = self.sections.get(".debug_info", b"")
        self._abbreviations = self.sections.get(".debug_abbrev", b"")
        self._tables = Tables(self._abbreviations, f"{path}: .debug_abbrev")
        self._units = list(units(self.info, f"{path}: .debug_info"))
        self._starts = [unit.start for unit in self._units]
        self._read: dict[int, Optional[Entry]] = {}
        self._bases: dict[int, int] = {}
        self._indexes: dict[int, dict[str, list[Entry]]] = {}
        self._declarations: dict[str, Optional[Entry]] = {}
        self._names: dict[str, list[bytes]] = {}
        self._places: dict[str, list[int]] = {}
        self._searches: Counter[int] = Counter()
        self._address_searches = 0
        self._all_names: dict[int, dict[str, list[int]]] = {}

    def prepare(self) -> None:
        """Reads the tables by which exports are found."""
        _ = self._addresses, self._code

    def unit_at(self, offset: int) -> Optional[Unit]:
        """The unit in which an offset lies."""
        number = bisect.bisect_right(self._starts, offset) - 1
        unit = self._units[number] if number >= 0 else None
        return unit if unit is not None and unit.entries <= offset < unit.end else None

    def at(self, offset: Optional[int]) -> Optional[Entry]:
        """The entry at an offset, if one can be read there."""
        if offset is None:
            return None
        if offset not in self._read:
            self._read[offset] = self._entry(offset)
        return self._read[offset]

    def _entry(self, offset: int) -> Optional[Entry]:
        unit = self.unit_at(offset)
        if unit is None:
            return None
        try:
            return self._decoded(unit, offset)
        except BROKEN:
            return None

    def _decoded(self, unit: Unit, offset: int) -> Optional[Entry]:
        """The entry at an offset of a unit; None if a list of children ends there."""
        code, at = read_number(self.info, offset)
        if code == 0:
            return None
        abbreviation = self._tables.at(unit.table)[code]
        values, at = self._values(unit, abbreviation, at)
        tag = _TAG_NAMES.get(abbreviation.tag, "")
        return Entry(offset, unit, tag, values, at, abbreviation.has_children)

    def _values(self, unit: Unit, abbreviation: Abbreviation, at: int) -> tuple[dict[str, Value], int]:
        values: dict[str, Value] = {}
        for one in abbreviation.attributes:
            form = FORM_NAMES.get(one.form, "")
            if form == "DW_FORM_implicit_const":
                value: Optional[Value] = _signed(self._abbreviations, one.form_end)[0]
            else:
                value, at = self._value(unit, form, at)
            if value is not None:
                values[_ATTRIBUTE_NAMES.get(one.attribute, "")] = value
        return values, at

    def _value(self, unit: Unit, form: str, at: int) -> tuple[Optional[Value], int]:
        """The value of a form at an offset (None if this tool does not use the form), and the offset of its end."""
        data = self.info
        if form in _REFERENCES:
            end = at + _REFERENCES[form]
            return unit.start + int.from_bytes(data[at:end], "little"), end
        if form in _NUMBERS or form == "DW_FORM_ref_addr":
            end = at + _NUMBERS.get(form, 4)
            return int.from_bytes(data[at:end], "little"), end
        if form in _TEXTS:
            return self._text(_TEXTS[form], _FOUR.unpack_from(data, at)[0]), at + 4
        if form == "DW_FORM_string":
            end = data.index(0, at)
            return shown(data[at:end]), end + 1
        if form in _INDEXES:
            end = at + _INDEXES[form]
            return self._indexed(unit, int.from_bytes(data[at:end], "little")), end
        return self._other(unit, form, at)

    def _other(self, unit: Unit, form: str, at: int) -> tuple[Optional[Value], int]:
        """The same for the forms of variable size, and for those that this tool does not use."""
        data = self.info
        if form == "DW_FORM_flag_present":
            return 1, at
        if form == "DW_FORM_sdata":
            return _signed(data, at)
        if form == "DW_FORM_udata":
            return read_number(data, at)
        if form == "DW_FORM_ref_udata":
            value, end = read_number(data, at)
            return unit.start + value, end
        if form == "DW_FORM_strx":
            value, end = read_number(data, at)
            return self._indexed(unit, value), end
        if form in ("DW_FORM_exprloc", "DW_FORM_block") or form in _BLOCKS:
            end = STEPS[form](data, at)
            start = read_number(data, at)[1] if form not in _BLOCKS else at + _BLOCKS[form]
            return data[start:end], end
        if form in STEPS:
            return None, STEPS[form](data, at)
        return None, at + fixed_sizes(unit.version)[form]

    def _text(self, section: str, offset: int) -> str:
        contents = self.sections[section]
        return shown(contents[offset:contents.index(0, offset)])

    def _indexed(self, unit: Unit, index: int) -> Optional[str]:
        """The string at an index; its unit says where the string offsets begin."""
        if unit.start not in self._bases:
            self._bases[unit.start] = self._base(unit)
        at = self._bases[unit.start] + 4 * index
        return self._text(".debug_str", _FOUR.unpack_from(self.sections[".debug_str_offsets"], at)[0])

    def _base(self, unit: Unit) -> int:
        """Where the string offsets of a unit begin: its root says so, in a form of four bytes."""
        code, at = read_number(self.info, unit.entries)
        for one in self._tables.at(unit.table)[code].attributes:
            form = FORM_NAMES.get(one.form, "")
            if one.attribute == ATTRIBUTES["DW_AT_str_offsets_base"]:
                return int(_FOUR.unpack_from(self.info, at)[0])
            sizes = fixed_sizes(unit.version)
            at = at + sizes[form] if form in sizes else STEPS[form](self.info, at)
        return _FIRST_TEXT_OFFSET

    def children(self, entry: Entry) -> Iterator[Entry]:
        """The children of an entry, up to the first that cannot be read."""
        if not entry.has_children:
            return
        at: Optional[int] = entry.end
        while at is not None:
            child = self.at(at)
            if child is None:
                return
            yield child
            at = self._behind(child)

    def _behind(self, entry: Entry) -> Optional[int]:
        """Where the entry's next sibling begins, or where the list of siblings ends."""
        if not entry.has_children:
            return entry.end
        sibling = entry.number("sibling")
        if sibling is not None and sibling > entry.offset:
            return sibling
        depth, at = 1, entry.end
        while depth:
            below = self.at(at)
            if below is None:
                if at >= entry.unit.end or self.info[at] != 0:
                    return None
                depth, at = depth - 1, at + 1
            else:
                depth, at = depth + below.has_children, below.end
        return at

    def root(self, unit: Unit) -> Optional[Entry]:
        """The root of a unit."""
        return self.at(unit.entries)

    def named(self, name: str, tags: tuple[str, ...]) -> Iterator[Entry]:
        """The entries with this name and one of the tags: those at the addresses of the dynamic symbols with that name, or else the
        external ones in the units there, or in all units, or else those directly below the roots of the units there or of the first
        other units with the name. The names of symbols that are aliases lead to declarations."""
        addresses = self._addresses.get(name, ())
        chosen = list(filter(None, map(self._unit_of, sorted(addresses))))
        near = [entry for unit in chosen for entry in self._named_in(unit, name) if entry.tag in tags]
        yield from ([entry for entry in near if _is_at(entry, addresses)] or list(filter(_is_external, near))
                    or [entry for entry in self._named_anywhere(name) if entry.tag in tags and _is_external(entry)]
                    or self._below_roots(chosen, name, tags) or self._below_roots(self._units_with(name)[:_MOST_USERS], name, tags))

    def declaration(self, name: str) -> Optional[Entry]:
        """The declaration of a function or an object in a unit that uses it, if one of the first units with that name has one."""
        if self._has_indexes:
            return None
        if name not in self._declarations and len(self._declarations) < _MOST_DECLARED:
            found = (one for unit in self._units_with(name)[:_MOST_USERS] for one in self._named_in(unit, name) if _is_declared(one))
            self._declarations[name] = next(found, None)
        return self._declarations.get(name)

    def _below_roots(self, chosen: Iterable[Unit], name: str, tags: tuple[str, ...]) -> list[Entry]:
        return [entry for unit in chosen for entry in self._index(unit).get(name, ()) if entry.tag in tags]

    @property
    def _has_indexes(self) -> bool:
        """Whether entries refer to strings by index, so that a search for the bytes of a name cannot find them."""
        return ".debug_str_offsets" in self.sections

    def _named_in(self, unit: Unit, name: str) -> Iterator[Entry]:
        """The entries of a unit with this name, found by its bytes: gcc writes the name right after the abbreviation code. After many
        searches in one unit its entries are read instead."""
        if self._has_indexes:
            return
        self._searches[unit.start] += 1
        if self._searches[unit.start] > _MANY:
            yield from filter(None, map(self.at, self._names_of(unit).get(name, ())))
            return
        for wanted in self._bytes_of(name):
            for place in _found(self.info, wanted, unit.entries, unit.end):
                yield from self._before(place, name)

    def _names_of(self, unit: Unit) -> dict[str, list[int]]:
        """The offsets of all entries of a unit by name, up to the first that cannot be read."""
        if unit.start not in self._all_names:
            found = self._all_names[unit.start] = {}
            at = unit.entries
            with contextlib.suppress(*BROKEN):
                while at < unit.end:
                    entry = self._decoded(unit, at)
                    if entry is not None and entry.name is not None:
                        found.setdefault(entry.name, []).append(at)
                    at = at + 1 if entry is None else entry.end
        return self._all_names[unit.start]

    def _named_anywhere(self, name: str) -> Iterator[Entry]:
        """The entries of all units with this name, found by its bytes and in the order of the units."""
        for place in self._places_of(name):
            yield from self._before(place, name)

    def _before(self, place: int, name: str) -> Iterator[Entry]:
        """The entry with this name whose abbreviation code ends at a place, if there is one."""
        entries = (self.at(place - size) for size in _CODE_SIZES)
        return (one for one in entries if one is not None and one.name == name and self._is_sound(one))

    def _is_sound(self, entry: Entry) -> bool:
        """Whether there is an entry for the type, and the sibling lies in the unit: other bytes may look like a name by chance."""
        sibling = entry.number("sibling")
        if sibling is not None and not entry.offset < sibling <= entry.unit.end:
            return False
        return entry.kind is None or self.at(entry.kind) is not None

    def _bytes_of(self, name: str) -> list[bytes]:
        """The bytes that an entry may have for a name: the name itself, or the offset of a string in `.debug_str`. A string that is the
        end of another one counts only if there is no other."""
        if name not in self._names:
            wanted = name.encode("ascii", "replace") + b"\0"
            texts = self.sections.get(".debug_str", b"")
            if len(self._names) < _MANY:
                whole = [at + 1 for at in _found(texts, b"\0" + wanted, 0, len(texts))] + [0] * texts.startswith(wanted)
            else:
                whole = self._texts.get(wanted[:-1], [])
            places = whole or _found(texts, wanted, 0, len(texts))
            self._names[name] = [wanted, *map(_FOUR.pack, itertools.islice(places, _MOST_TEXTS))]
        return self._names[name]

    @cached_property
    def _texts(self) -> dict[bytes, list[int]]:
        """The offsets of each whole string of `.debug_str`."""
        found: dict[bytes, list[int]] = {}
        at = 0
        for text in self.sections.get(".debug_str", b"").split(b"\0"):
            found.setdefault(text, []).append(at)
            at += len(text) + 1
        return found

    def _places_of(self, name: str) -> list[int]:
        """The offsets in `.debug_info` of the bytes for a name, in order."""
        if self._has_indexes:
            return []
        if name not in self._places:
            self._places[name] = sorted(place for wanted in self._bytes_of(name) for place in
                                        itertools.islice(_found(self.info, wanted, 0, len(self.info)), _MOST_PLACES))
        return self._places[name]

    def _index(self, unit: Unit) -> dict[str, list[Entry]]:
        """The entries directly below the root of a unit, by name."""
        if unit.start not in self._indexes:
            found: dict[str, list[Entry]] = {}
            root = self.root(unit)
            for entry in self.children(root) if root is not None else ():
                if entry.name is not None:
                    found.setdefault(entry.name, []).append(entry)
            self._indexes[unit.start] = found
        return self._indexes[unit.start]

    # ---- units

    def _unit_of(self, address: int) -> Optional[Unit]:
        """The unit whose code includes an address, or that has a variable there."""
        number = bisect.bisect_right(self._code, (address, _BEHIND)) - 1
        if number >= 0 and address < self._code[number][1]:
            return self._unit_from(self._code[number][2])
        self._address_searches += 1
        if self._address_searches > _MANY:
            return self.unit_at(self._named_addresses.get(address, -1))
        place = self.info.find(_AT_ADDRESS + _EIGHT.pack(address))
        return None if place < 0 else self.unit_at(place)

    @cached_property
    def _named_addresses(self) -> dict[int, int]:
        """Where the bytes that name an address of a variable first stand, for all addresses of symbols."""
        wanted = {_AT_ADDRESS + _EIGHT.pack(address) for found in self._addresses.values() for address in found}
        places: dict[int, int] = {}
        for at in _found(self.info, _AT_ADDRESS, 0, len(self.info)):
            if self.info[at:at + 9] in wanted:
                places.setdefault(_EIGHT.unpack_from(self.info, at + 1)[0], at)
        return places

    def _unit_from(self, start: int) -> Optional[Unit]:
        """The unit that begins at an offset."""
        number = bisect.bisect_left(self._starts, start)
        return self._units[number] if number < len(self._units) and self._starts[number] == start else None

    @cached_property
    def _addresses(self) -> dict[str, set[int]]:
        try:
            return self.file.symbol_addresses()
        except BROKEN:
            return {}

    @cached_property
    def _code(self) -> list[tuple[int, int, int]]:
        """The start and end of each range of code, and where its unit begins, from `.debug_aranges` or else from the roots."""
        try:
            found = sorted(listed_code(self.sections.get(".debug_aranges", b"")))
        except BROKEN:
            found = []
        return found or sorted(self._code_of_roots())

    def _code_of_roots(self) -> Iterator[tuple[int, int, int]]:
        for unit in self._units:
            try:
                yield from [(*part, unit.start) for part in code_of(self.sections, unit, self._tables.at(unit.table))]
            except BROKEN:
                continue

    def _units_with(self, name: str) -> list[Unit]:
        """The units whose bytes may refer to a name. All units, if they refer to strings by index."""
        if self._has_indexes:
            return self._units
        found = {unit.start: unit for unit in map(self.unit_at, self._places_of(name)) if unit is not None}
        return list(found.values())


def _is_at(entry: Entry, addresses: Collection[int]) -> bool:
    """Whether a function or variable is at one of the addresses."""
    place = entry.values.get("location")
    if isinstance(place, bytes):
        return place[:1] == _AT_ADDRESS and int.from_bytes(place[1:], "little") in addresses
    return entry.number("low_pc") in addresses


def _is_external(entry: Entry) -> bool:
    """Whether other units can refer to the function or object of an entry."""
    return "external" in entry.values


def _is_declared(entry: Entry) -> bool:
    """Whether an entry is the external declaration of a function or an object."""
    return entry.tag in ("subprogram", "variable") and {"declaration", "external", "decl_file", "decl_line"} <= entry.values.keys()


def _found(data: bytes, wanted: bytes, start: int, end: int) -> Iterator[int]:
    """The offsets of `wanted` in a part of `data`."""
    at = data.find(wanted, start, end)
    while at >= 0:
        yield at
        at = data.find(wanted, at + 1, end)
