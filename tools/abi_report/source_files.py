"""The source files that a unit refers to by number, from the header of its line program (DWARF 5, 6.2.4; DWARF 4, 6.2.4)."""

from __future__ import annotations

import struct
from pathlib import PurePosixPath
from typing import Mapping, Optional, Sequence

from abi_tools.dwarf_tables import FORM_NAMES, read_number
from abi_tools.faults import Fault

from abi_report.texts_shown import path_shown, shown

_TWO = struct.Struct("<H")
_FOUR = struct.Struct("<I")
# The content types of table entries that count here (DWARF 5, 6.2.4.1): DW_LNCT_path and DW_LNCT_directory_index.
_PATH = 1
_FOLDER = 2
_LATEST = 5
# The sizes of the forms of file entries that are not strings.
_SIZES = {"DW_FORM_data1": 1, "DW_FORM_data2": 2, "DW_FORM_data4": 4, "DW_FORM_data8": 8, "DW_FORM_data16": 16}
_TEXTS = {"DW_FORM_strp": ".debug_str", "DW_FORM_line_strp": ".debug_line_str"}

Sections = Mapping[str, bytes]
Names = list[Optional[str]]


def file_names(sections: Sections, offset: int, home: str) -> Names:
    """The file names, by number. Directories are resolved, relative ones below `home`. Raises one of `entries.BROKEN` if bytes are
    damaged."""
    data = sections[".debug_line"]
    version = _TWO.unpack_from(data, offset + 4)[0]
    if version > _LATEST:
        raise Fault(f"the version {version} of line programs is not read")
    at = offset + 6 + (2 if version == _LATEST else 0) + 4
    # minimum_instruction_length, maximum_operations_per_instruction (from version 4 on), default_is_stmt, line_base, line_range
    at += 5 if version >= 4 else 4
    at += data[at]
    return _later(sections, data, at, home) if version == _LATEST else _earlier(data, at, home)


def _earlier(data: bytes, at: int, home: str) -> Names:
    """The tables up to version 4: strings with a terminating zero, ended by an empty one. Both tables count from 1."""
    folders = [""]
    while data[at]:
        end = data.index(0, at)
        folders.append(shown(data[at:end]))
        at = end + 1
    at += 1
    names: Names = [None]
    while data[at]:
        end = data.index(0, at)
        folder, behind = read_number(data, end + 1)
        names.append(_joined(home, folders[folder], shown(data[at:end])))
        at = read_number(data, read_number(data, behind)[1])[1]
    return names


def _later(sections: Sections, data: bytes, at: int, home: str) -> Names:
    """The tables of version 5: the forms of the entries precede the entries. Both tables count from 0."""
    folders, at = _table(sections, data, at)
    files, at = _table(sections, data, at)
    return [_joined(home, str(folders[_number(one.get(_FOLDER))][_PATH]), str(one[_PATH])) for one in files]


def _table(sections: Sections, data: bytes, at: int) -> tuple[Sequence[Mapping[int, object]], int]:
    formats: list[tuple[int, str]] = []
    count, at = data[at], at + 1
    for _ in range(count):
        content, at = read_number(data, at)
        form, at = read_number(data, at)
        formats.append((content, FORM_NAMES.get(form, "")))
    count, at = read_number(data, at)
    rows = []
    for _ in range(count):
        row: dict[int, object] = {}
        for content, name in formats:
            row[content], at = _value(sections, data, name, at)
        rows.append(row)
    return rows, at


def _value(sections: Sections, data: bytes, form: str, at: int) -> tuple[object, int]:
    if form == "DW_FORM_string":
        end = data.index(0, at)
        return shown(data[at:end]), end + 1
    if form in _TEXTS:
        texts, offset = sections[_TEXTS[form]], _FOUR.unpack_from(data, at)[0]
        return shown(texts[offset:texts.index(0, offset)]), at + 4
    if form == "DW_FORM_udata":
        return read_number(data, at)
    end = at + _SIZES[form]
    return int.from_bytes(data[at:end], "little"), end


def _number(value: object) -> int:
    return value if isinstance(value, int) else 0


def _joined(home: str, folder: str, name: str) -> str:
    return path_shown(str(PurePosixPath(home, folder, name)))
