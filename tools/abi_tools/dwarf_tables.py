"""DWARF abbreviations (DWARF 5, 7.5.3), and what a pass over the entries of a unit does for each of them."""

from __future__ import annotations

import re
import struct
from dataclasses import dataclass
from typing import Callable, Iterable, Iterator, Mapping, NamedTuple, Optional, Union

from abi_tools.faults import Fault

Bytes = Union[bytes, bytearray]
# Steps over a value: takes the section and the offset of the value, and returns the offset of its end.
Step = Callable[[Bytes, int], int]

# The forms from 1 on (DWARF 5, 7.5.6); `-` is a number that no form has. The GNU forms follow.
_FORMS_FROM_1 = """addr - block2 block4 data2 data4 data8 string block block1 data1 flag sdata strp udata ref_addr ref1 ref2 ref4 ref8
    ref_udata indirect sec_offset exprloc flag_present strx addrx ref_sup4 strp_sup data16 line_strp ref_sig8 implicit_const
    loclistx rnglistx ref_sup8 strx1 strx2 strx3 strx4 addrx1 addrx2 addrx3 addrx4""".split()
_GNU_FORMS = {"GNU_ref_alt": 0x1F20, "GNU_strp_alt": 0x1F21}
_FORMS = {**{name: number for number, name in enumerate(_FORMS_FROM_1, 1) if name != "-"}, **_GNU_FORMS}
FORMS: Mapping[str, int] = {f"DW_FORM_{name}": number for name, number in _FORMS.items()}
FORM_NAMES: Mapping[int, str] = {number: name for name, number in FORMS.items()}
# The tags that the tools use (DWARF 5, 7.5.3, table 7.3).
TAGS: Mapping[str, int] = {f"DW_TAG_{name}": number for name, number in {
    "array_type": 0x01, "enumeration_type": 0x04, "formal_parameter": 0x05, "member": 0x0D, "pointer_type": 0x0F, "compile_unit": 0x11,
    "structure_type": 0x13, "subroutine_type": 0x15, "typedef": 0x16, "union_type": 0x17, "unspecified_parameters": 0x18,
    "subrange_type": 0x21, "base_type": 0x24, "const_type": 0x26, "enumerator": 0x28, "subprogram": 0x2E, "variable": 0x34,
    "volatile_type": 0x35, "restrict_type": 0x37, "imported_unit": 0x3D, "atomic_type": 0x47}.items()}
# The attributes that the tools use (DWARF 5, 7.5.4, table 7.5).
ATTRIBUTES: Mapping[str, int] = {f"DW_AT_{name}": number for name, number in {
    "sibling": 0x01, "location": 0x02, "name": 0x03, "byte_size": 0x0B, "bit_offset": 0x0C, "bit_size": 0x0D, "stmt_list": 0x10, "language": 0x13,
    "low_pc": 0x11, "high_pc": 0x12, "comp_dir": 0x1B, "const_value": 0x1C, "prototyped": 0x27, "upper_bound": 0x2F, "count": 0x37,
    "abstract_origin": 0x31, "data_member_location": 0x38, "decl_file": 0x3A, "decl_line": 0x3B, "declaration": 0x3C, "external": 0x3F, "type": 0x49,
    "ranges": 0x55, "data_bit_offset": 0x6B, "str_offsets_base": 0x72, "addr_base": 0x73, "rnglists_base": 0x74,
    "alignment": 0x88}.items()}
# The longest LEB128 number that `abi` reads, in bytes.
_LONGEST_NUMBER = 10
_TWO = struct.Struct("<H")
_FOUR = struct.Struct("<I")


def read_number(data: Bytes, at: int) -> tuple[int, int]:
    """The unsigned LEB128 number at an offset, and the offset of its end. Raises IndexError if it does not end."""
    value = data[at]
    at += 1
    if value < 0x80:
        return value, at
    value &= 0x7F
    for shift in range(7, 7 * _LONGEST_NUMBER, 7):
        byte = data[at]
        at += 1
        value |= (byte & 0x7F) << shift
        if byte < 0x80:
            return value, at
    raise IndexError("a number of variable length does not end")


def padded_number(value: int, length: int) -> bytes:
    """The number as unsigned LEB128 in exactly `length` bytes."""
    parts = [value >> 7 * place & 0x7F for place in range(length)]
    return bytes([part | 0x80 for part in parts[:-1]] + parts[-1:])


def _over_number(data: Bytes, at: int) -> int:
    while data[at] >= 0x80:
        at += 1
    return at + 1


def _over_text(data: Bytes, at: int) -> int:
    return data.index(0, at) + 1


def _over_block(data: Bytes, at: int) -> int:
    size, at = read_number(data, at)
    return at + size


STEPS: Mapping[str, Step] = {
    **dict.fromkeys(("DW_FORM_sdata", "DW_FORM_udata", "DW_FORM_ref_udata", "DW_FORM_strx", "DW_FORM_addrx",
                     "DW_FORM_loclistx", "DW_FORM_rnglistx"), _over_number),
    "DW_FORM_string": _over_text,
    **dict.fromkeys(("DW_FORM_block", "DW_FORM_exprloc"), _over_block),
    "DW_FORM_block1": lambda data, at: at + 1 + data[at],
    "DW_FORM_block2": lambda data, at: at + 2 + int(_TWO.unpack_from(data, at)[0]),
    "DW_FORM_block4": lambda data, at: at + 4 + int(_FOUR.unpack_from(data, at)[0]),
}


# The sizes of the forms with a fixed size, in the 32-bit format and for addresses of eight bytes (DWARF 5, 7.5.6). In version 2
# DW_FORM_ref_addr has another size.
_SIZES: Mapping[str, int] = {
    form: size
    for size, forms in {
        0: ("flag_present", "implicit_const"),
        1: ("data1", "flag", "ref1", "strx1", "addrx1"),
        2: ("data2", "ref2", "strx2", "addrx2"),
        3: ("strx3", "addrx3"),
        4: ("data4", "ref4", "strx4", "addrx4", "strp", "line_strp", "strp_sup", "GNU_strp_alt", "sec_offset", "ref_addr",
            "ref_sup4", "GNU_ref_alt"),
        8: ("data8", "ref8", "ref_sig8", "ref_sup8", "addr"),
        16: ("data16",),
    }.items()
    for form in (f"DW_FORM_{name}" for name in forms)
}


def fixed_sizes(version: int) -> dict[str, int]:
    """The sizes of the forms with a fixed size, in units of a version of DWARF."""
    return {**_SIZES, "DW_FORM_ref_addr": 8} if version == 2 else dict(_SIZES)


class AttributeForm(NamedTuple):
    """One attribute of an abbreviation: its number, its form, and the offsets in the section where the form begins and ends."""

    attribute: int
    form: int
    form_at: int
    form_end: int


class Abbreviation(NamedTuple):
    """An abbreviation: the tag, the attributes with their forms, and whether its entries have children."""

    tag: int
    attributes: tuple[AttributeForm, ...]
    has_children: bool


Table = Mapping[int, Abbreviation]


def _encodings(value: int) -> bytes:
    """A pattern for all unsigned LEB128 encodings of a number that `read_number` reads: the shortest one, and those with zeros behind it."""
    size = max(1, (value.bit_length() + 6) // 7)
    short = padded_number(value, size)
    longer = re.escape(short[:-1] + bytes([short[-1] | 0x80])) + rb"\x80{0,%d}\x00" % (_LONGEST_NUMBER - size - 1)
    return rb"(?:%b|%b)" % (re.escape(short), longer)


_NUMBER = rb"[\x80-\xff]{0,%d}[\x00-\x7f]" % (_LONGEST_NUMBER - 1)
_ZERO = rb"\x80{0,%d}\x00" % (_LONGEST_NUMBER - 1)
_CONSTANT = _encodings(FORMS["DW_FORM_implicit_const"])
# An attribute and its form, which are not both 0. A value follows DW_FORM_implicit_const.
_ATTRIBUTE = rb"(?!%b%b)%b(?:%b%b|(?!%b)%b)" % (_ZERO, _ZERO, _NUMBER, _CONSTANT, _NUMBER, _CONSTANT, _NUMBER)
# The code of an abbreviation, its tag, the byte DW_CHILDREN, and the attributes with the pair of zeros that ends them.
_ABBREVIATION = re.compile(rb"(%b)%b[\x00-\xff](?:%b)*%b%b" % (_NUMBER, _NUMBER, _ATTRIBUTE, _ZERO, _ZERO))


def with_form(forms: Iterable[str]) -> re.Pattern[bytes]:
    """A pattern for the beginning of an abbreviation, behind its code, up to the first attribute with one of these forms."""
    wanted = b"|".join(_encodings(FORMS[form]) for form in forms)
    return re.compile(rb"%b[\x00-\xff](?:%b)*?(?!%b%b)%b(?:%b)" % (_NUMBER, _ATTRIBUTE, _ZERO, _ZERO, _NUMBER, wanted))


class ReadTable(Table):
    """The table of abbreviations at an offset, by code. Each is read when it is first used, since a unit uses few of them."""

    def __init__(self, section: bytes, at: int) -> None:
        """Finds the offsets of the abbreviations. Raises IndexError if the table does not end in the section."""
        self._section = section
        self._places: dict[int, int] = {}
        self._read: dict[int, Abbreviation] = {}
        code = read_number(section, at)[0]
        while code:
            found = _ABBREVIATION.match(section, at)
            if found is None:
                raise IndexError("an abbreviation does not end")
            self._places[code] = found.end(1)
            at = found.end()
            code = read_number(section, at)[0]

    def __getitem__(self, code: int) -> Abbreviation:
        found = self._read.get(code)
        if found is None:
            found = self._read[code] = self._at(self._places[code])
        return found

    def __iter__(self) -> Iterator[int]:
        return iter(self._places)

    def __len__(self) -> int:
        return len(self._places)

    def matches(self, pattern: re.Pattern[bytes]) -> bool:
        """Whether the beginning of an abbreviation, behind its code, matches a pattern of `with_form`. No abbreviation is read for it."""
        return any(pattern.match(self._section, at) is not None for at in self._places.values())

    def _at(self, at: int) -> Abbreviation:
        tag, at = read_number(self._section, at)
        return Abbreviation(tag, _read_attributes(self._section, at + 1), self._section[at] != 0)


def _read_attributes(section: Bytes, at: int) -> tuple[AttributeForm, ...]:
    attributes: list[AttributeForm] = []
    while True:
        attribute, form_at = read_number(section, at)
        form, at = read_number(section, form_at)
        if attribute == 0 and form == 0:
            return tuple(attributes)
        attributes.append(AttributeForm(attribute, form, form_at, at))
        if FORM_NAMES.get(form) == "DW_FORM_implicit_const":
            at = _over_number(section, at)


@dataclass(frozen=True)
class Shifts:
    """The amounts to add to values: by the name of the form, and `line` for values of `DW_AT_stmt_list`."""

    forms: Mapping[str, int]
    line: int = 0

    def of(self, attribute: AttributeForm, form: str) -> int:
        """The amount to add to values of this attribute."""
        if attribute.attribute == ATTRIBUTES["DW_AT_stmt_list"]:
            return self.line
        return self.forms.get(form, 0)


@dataclass(frozen=True)
class Run:
    """Consecutive values of fixed size, perhaps followed by one of variable size: how many bytes the fixed values have, what is added
    to them and where, and how to step over the value of variable size."""

    size: int
    added: tuple[tuple[int, int], ...]
    step: Optional[Step]


def plan(abbreviation: Abbreviation, sizes: Mapping[str, int], shifts: Shifts) -> tuple[Run, ...]:
    """The runs of an entry's values. Raises a fault if a form is unknown or cannot be joined."""
    runs = []
    size = 0
    added: list[tuple[int, int]] = []
    for attribute in abbreviation.attributes:
        form = FORM_NAMES.get(attribute.form, "")
        if form in sizes:
            shift = shifts.of(attribute, form)
            if shift:
                added.append((size, shift))
            size += sizes[form]
        elif form in STEPS:
            runs.append(Run(size, tuple(added), STEPS[form]))
            size, added = 0, []
        else:
            raise Fault(f"the form {form or hex(attribute.form)} is not read")
    if size:
        runs.append(Run(size, tuple(added), None))
    return tuple(runs)
