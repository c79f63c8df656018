"""ELF files as the tools write them: a library with sections added at its end, and a file of sections alone."""

from __future__ import annotations

import struct
from dataclasses import dataclass
from typing import Collection, Sequence

from abi_tools.elf_files import SECTION_LAYOUT, SHT_NULL, SHT_PROGBITS, ElfFile, Section
from abi_tools.faults import Fault
from abi_tools.inflating import SHF_COMPRESSED

# Fields of the header of an ELF-64 file (gABI, "ELF Header"), with their offsets.
_PROGRAM_HEADERS_AT = struct.Struct("<Q"), 32
_SECTION_HEADERS_AT = struct.Struct("<Q"), 40
# e_phentsize, e_phnum, e_shentsize, e_shnum, e_shstrndx
_COUNTS_AT = struct.Struct("<HHHHH"), 54
_ENTRY_POINT_AT = struct.Struct("<Q"), 24
_FILE_HEADER_SIZE = 64
# From this number on, the count of sections is not in the file header.
_RESERVED_NUMBERS = 0xFF00
_TABLE_ALIGNMENT = 8
# One page: sections that are not loaded need no larger alignment.
_LARGEST_ALIGNMENT = 4096
_SHT_STRTAB = 3
_NONE = Section(0, "", SHT_NULL, 0, 0, 0, 0, 0, 0, 0, 0)


@dataclass(frozen=True)
class AddedSection:
    """A section to add: its contents, and a section whose header it takes."""

    like: Section
    contents: bytes

    def placed(self, offset: int) -> Section:
        """The header of the section, placed at the offset."""
        return self.like._replace(kind=SHT_PROGBITS, flags=self.like.flags & ~SHF_COMPRESSED, address=0, offset=offset,
                                  size=len(self.contents), link=0, info=0)


def _pad(image: bytearray, alignment: int) -> None:
    """Pads the image to a multiple of the alignment."""
    image.extend(bytes(-len(image) % min(max(alignment, 1), _LARGEST_ALIGNMENT)))


def _kept_end(library: ElfFile, kept: Sequence[Section]) -> int:
    """Where the library's headers, segments and kept sections end in the file."""
    ends = [_FILE_HEADER_SIZE, library.segments_end()]
    ends += [section.offset + section.size for section in kept if section.holds_bytes]
    return min(max(ends), len(library.data))


def with_sections(library: ElfFile, dropped: Collection[str], added: Sequence[AddedSection]) -> bytes:
    """The library with sections added after all others. The other sections keep their numbers and offsets, but those named in
    `dropped` lose their contents, name and type. Raises a fault if there are too many sections."""
    kept = [_NONE if section.name in dropped else section for section in library.sections]
    if len(kept) + len(added) >= _RESERVED_NUMBERS:
        raise Fault(f"{library.name} has too many sections")
    image = bytearray(library.data[:_kept_end(library, kept)])
    placed = []
    for section in added:
        _pad(image, section.like.alignment)
        placed.append(section.placed(len(image)))
        image += section.contents
    names_number = library.names_number
    _write_table(image, [*kept, *placed], names_number, library.raw(library.sections[names_number]))
    return bytes(image)


def sections_alone(library: ElfFile, sections: Sequence[tuple[Section, bytes]]) -> bytes:
    """A file of these sections, in this order and with the links between them, and without segments."""
    image = bytearray(library.data[:_FILE_HEADER_SIZE])
    _PROGRAM_HEADERS_AT[0].pack_into(image, _PROGRAM_HEADERS_AT[1], 0)
    _ENTRY_POINT_AT[0].pack_into(image, _ENTRY_POINT_AT[1], 0)
    numbers = {section.number: place for place, (section, _) in enumerate(sections, 1)}
    table = [_NONE]
    for section, contents in sections:
        _pad(image, min(section.alignment, _TABLE_ALIGNMENT))
        table.append(section._replace(flags=section.flags & ~SHF_COMPRESSED, offset=len(image), size=len(contents),
                                      link=numbers.get(section.link, 0)))
        image += contents
    names = _NONE._replace(name=".shstrtab", kind=_SHT_STRTAB, alignment=1)
    _write_table(image, [*table, names], len(table), b"\0")
    return bytes(image)


def _write_table(image: bytearray, sections: Sequence[Section], names_number: int, first_names: bytes) -> None:
    """Appends the section names, after `first_names`, and the section headers, and updates the file header."""
    names = bytearray(first_names)
    places: dict[str, int] = {}
    for section in sections:
        name = section.name.encode("utf-8", "surrogateescape") + b"\0"
        if name not in names:
            names += name
        places[section.name] = names.index(name)
    names_at = len(image)
    image += names
    _pad(image, _TABLE_ALIGNMENT)
    table_at = len(image)
    for number, section in enumerate(sections):
        if number == names_number:
            section = section._replace(offset=names_at, size=len(names))
        image += section.header(places[section.name])
    _SECTION_HEADERS_AT[0].pack_into(image, _SECTION_HEADERS_AT[1], table_at)
    entry_size, count = _COUNTS_AT[0].unpack_from(image, _COUNTS_AT[1])[:2]
    if not _PROGRAM_HEADERS_AT[0].unpack_from(image, _PROGRAM_HEADERS_AT[1])[0]:
        count = 0
    _COUNTS_AT[0].pack_into(image, _COUNTS_AT[1], entry_size, count, SECTION_LAYOUT.size, len(sections), names_number)
