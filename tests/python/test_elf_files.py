"""What the tools read of ELF files and DWARF, compared with pyelftools."""

from __future__ import annotations

from pathlib import Path
from typing import Any, Callable

import pytest
from conftest import FIRST, needs
from elftools.dwarf.enums import ENUM_DW_AT, ENUM_DW_FORM, ENUM_DW_TAG
from elftools.dwarf.ranges import BaseAddressEntry
from elftools.elf.dynamic import DynamicSection
from elftools.elf.elffile import ELFFile
from elftools.elf.gnuversions import GNUVerNeedSection, GNUVerSymSection
from elftools.elf.sections import NoteSection

from abi_tools.dwarf_tables import ATTRIBUTES, FORMS, TAGS, ReadTable
from abi_tools.dwarf_units import Tables, units
from abi_tools.elf_files import ElfFile
from abi_tools.faults import Fault
from abi_tools.unit_code import code_of, listed_code

Build = Callable[..., Path]

_SYSTEM = sorted(Path("/lib/x86_64-linux-gnu").glob("lib[cmz].so.*"))[:12]
_BUILDS = [(compiler, version, sections) for compiler in ("gcc", "clang") for version in (4, 5)
           for sections in ("-fno-function-sections", "-ffunction-sections")]
_COLD = FIRST + "__attribute__((cold)) int cold(int a) { return a ? area(0) : 1; }\n"


def test_numbers_are_those_of_the_standard() -> None:
    for ours, theirs in ((FORMS, ENUM_DW_FORM), (TAGS, ENUM_DW_TAG), (ATTRIBUTES, ENUM_DW_AT)):
        assert ours.items() <= theirs.items()
    others = {"DW_FORM_null", "DW_FORM_ref", "DW_FORM_GNU_addr_index", "DW_FORM_GNU_str_index", "_default_"}
    assert ENUM_DW_FORM.keys() - FORMS.keys() <= others


def test_tables_of_abbreviations_end_at_zeros_of_any_length() -> None:
    """Abbreviations 1 (a structure with children, a name and a constant of 0 in its form) and 200 (a base type without attributes)."""
    first = bytes([1, 0x13, 1, 0x03, 0x0E, 0x3B, 0x21, 0x00, 0x80, 0x00, 0x80, 0x80, 0x00])
    second = bytes([0xC8, 0x01, 0x24, 0, 0, 0])
    table = ReadTable(b"before" + first + second + b"\x80\x00behind", 6)
    assert list(table) == [1, 200]
    assert (table[1].tag, table[1].has_children, [(one.attribute, one.form) for one in table[1].attributes]) == (
        0x13, True, [(0x03, 0x0E), (0x3B, 0x21)])
    assert (table[200].tag, table[200].has_children, table[200].attributes) == (0x24, False, ())
    for cut in range(1, len(first) + len(second) + 1):
        with pytest.raises(IndexError):
            ReadTable((first + second + b"\0")[:-cut], 0)


@pytest.mark.parametrize("path", _SYSTEM, ids=lambda path: path.name)
def test_headers_of_libraries_of_the_system(path: Path) -> None:
    ours = ElfFile(path)
    with path.open("rb") as stream:
        theirs = ELFFile(stream)
        assert [section.name for section in ours.sections] == [section.name for section in theirs.iter_sections()]
        assert [(section.offset, section.size) for section in ours.sections] == [
            (section["sh_offset"], section["sh_size"]) for section in theirs.iter_sections()]
        notes = [note["n_desc"] for section in theirs.iter_sections() if isinstance(section, NoteSection) for note in section.iter_notes()
                 if note["n_type"] == "NT_GNU_BUILD_ID"]
        sonames = [tag.soname for section in theirs.iter_sections() if isinstance(section, DynamicSection)
                   for tag in section.iter_tags("DT_SONAME")]
        symbols = [symbol.entry.st_value for symbol in theirs.get_section_by_name(".dynsym").iter_symbols()]
        assert ours.segments_end() == max([theirs.header.e_phoff + theirs.header.e_phnum * theirs.header.e_phentsize,
                                           *(segment["p_offset"] + segment["p_filesz"] for segment in theirs.iter_segments())])
    assert [ours.build_id.hex() if ours.build_id else None] == (notes or [None])
    assert [ours.soname] == (sonames or [None])
    assert ours.symbol_values() == symbols
    assert ours.is_shared_object


_PROGRAMS = [path for name in ("bash", "gcc", "python3", "dpkg-deb") for path in [Path("/usr/bin", name)] if path.exists()]


@pytest.mark.parametrize("path", [*_SYSTEM, *_PROGRAMS], ids=lambda path: path.name)
def test_imports_of_files_of_the_system(path: Path) -> None:
    ours = ElfFile(path)
    with path.open("rb") as stream:
        theirs = ELFFile(stream)
        sections = list(theirs.iter_sections())
        needed = [tag.needed for section in sections if isinstance(section, DynamicSection) for tag in section.iter_tags("DT_NEEDED")]
        versions = {one.entry.vna_other: (library.name, one.name) for section in sections if isinstance(section, GNUVerNeedSection)
                    for library, ones in section.iter_versions() for one in ones}
        (indexes,) = [section for section in sections if isinstance(section, GNUVerSymSection)]
        imports = [(symbol.name, versions.get(index if isinstance(index, int) else 0))
                   for number, symbol in enumerate(theirs.get_section_by_name(".dynsym").iter_symbols())
                   for index in [indexes.get_symbol(number).entry.ndx] if symbol.entry.st_shndx == "SHN_UNDEF" and symbol.name]
    assert ours.needed() == needed
    assert list(ours.imports()) == imports and imports


def ranges_of(information: Any, unit: Any) -> list[tuple[int, int]]:
    """The code of a unit, as pyelftools reads it."""
    attributes = unit.get_top_DIE().attributes
    if "DW_AT_ranges" not in attributes:
        if "DW_AT_high_pc" not in attributes:
            return []
        start, end = attributes["DW_AT_low_pc"].value, attributes["DW_AT_high_pc"]
        return [(start, end.value if end.form == "DW_FORM_addr" else start + end.value)]
    base = attributes["DW_AT_low_pc"].value if "DW_AT_low_pc" in attributes else 0
    found = []
    for entry in information.range_lists().get_range_list_at_offset(attributes["DW_AT_ranges"].value, unit):
        if isinstance(entry, BaseAddressEntry):
            base = entry.base_address
        else:
            more = 0 if getattr(entry, "is_absolute", False) else base
            found.append((entry.begin_offset + more, entry.end_offset + more))
    return found


@pytest.mark.parametrize(("compiler", "version", "sections"), _BUILDS)
def test_the_code_of_units(compiler: str, version: int, sections: str, build: Build) -> None:
    needs(compiler)
    path = build("built.so", _COLD, f"-gdwarf-{version}", "-O2", sections, compiler=compiler)
    file = ElfFile(path)
    contents = {name: part for name, (_, part) in file.debug_sections().items()}
    tables = Tables(contents[".debug_abbrev"], "here")
    by_unit = {unit.start: sorted(code_of(contents, unit, tables.at(unit.table))) for unit in units(contents[".debug_info"], "here")}
    ours = list(by_unit.values())
    with path.open("rb") as stream:
        information = ELFFile(stream).get_dwarf_info(relocate_dwarf_sections=False)
        theirs = [sorted(ranges_of(information, unit)) for unit in information.iter_CUs()]
    assert ours == theirs and any(ours)
    listed: dict[int, list[tuple[int, int]]] = {}
    for start, end, unit in listed_code(contents.get(".debug_aranges", b"")):
        listed.setdefault(unit, []).append((start, end))
    assert {unit: sorted(ranges) for unit, ranges in listed.items()} == (by_unit if compiler == "gcc" else {})


def test_files_that_are_none_are_refused(tmp_path: Path, build: Build) -> None:
    whole = build("whole.so", FIRST).read_bytes()
    file = tmp_path / "file"
    for contents, words in ((b"", "is no ELF file"), (b"\x7fELF", "is no ELF file"),
                            (whole[:4] + b"\1" + whole[5:], "is no ELF-64 file"), (whole[:5] + b"\2" + whole[6:], "is no ELF-64 file"),
                            (whole[:60] + b"\0\0" + whole[62:], "damaged in its headers"),
                            (whole[:62] + b"\xf0\0" + whole[64:], "damaged in its headers"), (whole[:-1], "cut short")):
        file.write_bytes(contents)
        with pytest.raises(Fault, match=words):
            ElfFile(file)
    with pytest.raises(Fault, match="there is no file"):
        ElfFile(tmp_path / "none")
