"""Joins debug information with the supplementary file that it refers to (`dwz -m`).

The sections of the supplementary file are appended to the file's own sections. A value that refers to the supplementary file is as
long as one that refers to the same section of the file itself. So the form is replaced in `.debug_abbrev`, in the same number of
bytes, and the value is increased by the length of the file's own section. The values of the supplementary file are increased alike.
"""

from __future__ import annotations

import struct
from dataclasses import dataclass
from typing import Mapping

from abi_tools.dwarf_tables import FORM_NAMES, FORMS, Shifts, padded_number, with_form
from abi_tools.dwarf_units import Pass, Tables, units
from abi_tools.faults import Fault

# The forms that refer to a supplementary file, and those that refer to the same section of the file itself.
REPLACED: Mapping[str, str] = {
    "DW_FORM_GNU_ref_alt": "DW_FORM_ref_addr",
    "DW_FORM_ref_sup4": "DW_FORM_ref_addr",
    "DW_FORM_GNU_strp_alt": "DW_FORM_strp",
    "DW_FORM_strp_sup": "DW_FORM_strp",
}
_EIGHT_BYTES = "DW_FORM_ref_sup8"
_TEXTS = ("DW_FORM_GNU_strp_alt", "DW_FORM_strp_sup")
_LEADING_OUT = with_form((*REPLACED, _EIGHT_BYTES))
# The sections to which those of the supplementary file are appended. The file's other sections stay as they are.
_GROWING = (".debug_info", ".debug_abbrev", ".debug_str", ".debug_line_str", ".debug_line")
# Sections of the file itself that refer to the supplementary file by other means than forms.
LEFT_OUT = (".debug_macro",)
_FOUR = struct.Struct("<I")
_LARGEST = (1 << 32) - 16


@dataclass(frozen=True)
class DebugSections:
    """The contents of sections by name, and the file that they come from."""

    file: str
    contents: Mapping[str, bytes]

    def length(self, name: str) -> int:
        """How many bytes a section has."""
        return len(self.contents.get(name, b""))


def leads_out(own: DebugSections) -> bool:
    """Whether any form in the abbreviations refers to a supplementary file. Raises a fault if units are damaged."""
    tables = Tables(own.contents.get(".debug_abbrev", b""), f"{own.file}: .debug_abbrev")
    for name in (".debug_info", ".debug_types"):
        for unit in units(own.contents.get(name, b""), f"{own.file}: {name}", name == ".debug_types"):
            if unit.table not in tables.read and tables.at(unit.table).matches(_LEADING_OUT):
                return True
    return False


def merge(own: DebugSections, supplementary: DebugSections) -> dict[str, bytes]:
    """The sections of a file, by name, with those of its supplementary file appended. Raises a fault if either file is damaged, in the
    64-bit format of DWARF, or has unknown forms, or if both together are too long."""
    if ".debug_types" in supplementary.contents:
        raise Fault(f"{supplementary.file} has a section .debug_types, which is not read")
    for name in _GROWING:
        if own.length(name) + supplementary.length(name) >= _LARGEST:
            raise Fault(f"{own.file} and {supplementary.file} have too long a section {name} together")
    merged = {name: bytes(part) for name, part in own.contents.items() if name not in LEFT_OUT}
    merged.update(_own_part(own))
    for name, part in _supplementary_part(own, supplementary).items():
        merged[name] = merged.get(name, b"") + part
    return merged


def _own_part(own: DebugSections) -> dict[str, bytes]:
    """The file's own sections, with forms and values that refer to the appended sections."""
    texts, entries = own.length(".debug_str"), own.length(".debug_info")
    shifts = Shifts({form: texts if form in _TEXTS else entries for form in REPLACED})
    tables = Tables(own.contents[".debug_abbrev"], f"{own.file}: .debug_abbrev")
    changed = {}
    for name in (".debug_info", ".debug_types"):
        if name in own.contents:
            where = f"{own.file}: {name}"
            section = bytearray(own.contents[name])
            walk = Pass(tables, shifts, where)
            for unit in units(section, where, name == ".debug_types"):
                _check_forms(tables, unit.table, unit.version, where)
                walk.over(section, unit)
            changed[name] = bytes(section)
    changed[".debug_abbrev"] = _inside_forms(own.contents[".debug_abbrev"], tables)
    return changed


def _check_forms(tables: Tables, table: int, version: int, where: str) -> None:
    """Raises a fault if a form refers to the supplementary file and has no replacement of the same size."""
    forms = {FORM_NAMES.get(one.form) for abbreviation in tables.at(table).values() for one in abbreviation.attributes}
    if _EIGHT_BYTES in forms:
        raise Fault(f"{where} has values of the form {_EIGHT_BYTES}, which are not joined")
    if version == 2 and forms & set(REPLACED):
        raise Fault(f"{where} has units of version 2 of DWARF that refer to a supplementary file")


def _inside_forms(section: bytes, tables: Tables) -> bytes:
    """The abbreviations with forms that refer to the file itself, each in as many bytes as the form that it replaces."""
    changed = bytearray(section)
    for table in tables.read.values():
        for abbreviation in table.values():
            for one in abbreviation.attributes:
                form = REPLACED.get(FORM_NAMES.get(one.form, ""))
                if form is not None:
                    changed[one.form_at:one.form_end] = padded_number(FORMS[form], one.form_end - one.form_at)
    return bytes(changed)


def _supplementary_part(own: DebugSections, supplementary: DebugSections) -> dict[str, bytes]:
    """The sections to append to the file's own: those of the supplementary file, with increased values."""
    where = f"{supplementary.file}: .debug_info"
    shifts = Shifts({"DW_FORM_ref_addr": own.length(".debug_info"), "DW_FORM_strp": own.length(".debug_str"),
                     "DW_FORM_line_strp": own.length(".debug_line_str")}, own.length(".debug_line"))
    section = bytearray(supplementary.contents.get(".debug_info", b""))
    tables = Tables(supplementary.contents.get(".debug_abbrev", b""), f"{supplementary.file}: .debug_abbrev")
    walk = Pass(tables, shifts, where)
    for unit in list(units(section, where)):
        walk.over(section, unit)
        _FOUR.pack_into(section, unit.table_at, unit.table + own.length(".debug_abbrev"))
    parts = {name: supplementary.contents[name] for name in _GROWING if name in supplementary.contents}
    parts[".debug_info"] = bytes(section)
    return parts
