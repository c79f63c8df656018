"""ELF files as the tools read them: sections and their contents, dynamic symbols, and links to other files. The contents of a section
are read when they are used."""

from __future__ import annotations

import os
import struct
import weakref
from dataclasses import dataclass
from functools import cached_property, lru_cache
from pathlib import Path
from typing import Iterator, NamedTuple, Optional

from abi_tools.faults import Fault
from abi_tools.inflating import SHF_COMPRESSED, inflate, inflate_old

# The exceptions that damaged bytes cause while they are read.
DAMAGED = (struct.error, UnicodeDecodeError, IndexError, KeyError, AttributeError, TypeError, ValueError, OverflowError)

_MAGIC = b"\x7fELF"
# e_ident: the class of the file, and the order of its bytes
_CLASS_AT, _CLASS_64 = 4, 2
_ORDER_AT, _LITTLE_ENDIAN = 5, 1
ET_DYN = 3
EM_X86_64 = 62
# Escape values: the real count or number is in the first section header (gABI, "ELF Header").
_PN_XNUM = 0xFFFF
_SHN_XINDEX = 0xFFFF
SHT_NULL = 0
SHT_PROGBITS = 1
_SHT_DYNAMIC = 6
_SHT_NOTE = 7
SHT_NOBITS = 8
SHT_DYNSYM = 11
SHT_GNU_VERDEF = 0x6FFFFFFD
_SHT_GNU_VERNEED = 0x6FFFFFFE
SHT_GNU_VERSYM = 0x6FFFFFFF
_SHN_UNDEF = 0
_STB_GLOBAL = 1
# The bits of a version index without the hidden bit; vn_version, vn_cnt, vn_file, vn_aux and vn_next; vna_hash, vna_flags,
# vna_other, vna_name and vna_next (GNU symbol versioning).
_VERSION_INDEX = 0x7FFF
_INDEX = struct.Struct("<H")
_NEED = struct.Struct("<HHIII")
_NEEDED_VERSION = struct.Struct("<IHHII")
# Entries of the dynamic table, and symbols (gABI, "Dynamic Section" and "Symbol Table").
_DYNAMIC_ENTRY = struct.Struct("<qQ")
_DT_NULL, _DT_NEEDED, _DT_SONAME = 0, 1, 14
_SYMBOL = struct.Struct("<IBBHQQ")
SYMBOL_SIZE = _SYMBOL.size
# namesz, descsz and type of a note; its parts are aligned to four bytes (gABI, "Note Section").
_NOTE = struct.Struct("<III")
_GNU = b"GNU\0"
_NT_GNU_BUILD_ID = 3
# p_offset and p_filesz of a segment
_SEGMENT = struct.Struct("<8xQ16xQ16x")
# The lengths that a build id may have: a hash, a UUID, or the bytes given to the linker.
_BUILD_ID_LENGTHS = range(1, 65)


class Header(NamedTuple):
    """The header of an ELF-64 file (gABI, "ELF Header"), after `e_ident`."""

    kind: int
    machine: int
    version: int
    entry: int
    segments_at: int
    sections_at: int
    flags: int
    size: int
    segment_size: int
    segments: int
    section_size: int
    sections: int
    names: int


_HEADER = struct.Struct("<16xHHIQQQIHHHHHH")
SECTION_LAYOUT = struct.Struct("<IIQQQQIIQQ")


# How many tables of sections are kept, and how many bytes such a table has at most: a library is read several times in a row.
_KEPT_TABLES = 8
_LARGEST_KEPT_TABLE = 1 << 16


class Section(NamedTuple):
    """A section: its number in the file, and the fields of its header (gABI, "Section Header"), with the name itself in place of the
    name's offset. It is a tuple, since files have many of them and a data class takes four times as long to make."""

    number: int
    name: str
    kind: int
    flags: int
    address: int
    offset: int
    size: int
    link: int
    info: int
    alignment: int
    entry_size: int

    @property
    def holds_bytes(self) -> bool:
        """Whether the section has bytes in the file."""
        return self.kind not in (SHT_NULL, SHT_NOBITS)

    @property
    def is_debug(self) -> bool:
        """Whether this is a debug section, compressed or not."""
        return self.name.startswith((".debug_", ".zdebug_"))

    @property
    def is_compressed(self) -> bool:
        """Whether the section's bytes are compressed."""
        return bool(self.flags & SHF_COMPRESSED) or self.name.startswith(".zdebug_")

    def header(self, name: int) -> bytes:
        """The bytes of the header in a file that has the section's name at the offset `name`."""
        return SECTION_LAYOUT.pack(name, *self[2:])


class _Table(NamedTuple):
    """The sections of a file, and where the last bytes of one of them end."""

    sections: tuple[Section, ...]
    end: int


def _table(headers: bytes, size: int, texts: bytes) -> _Table:
    """The table of sections by their headers, each of `size` bytes. Their names are in `texts`."""
    sections = []
    for number, at in enumerate(range(0, len(headers), size)):
        name, *fields = SECTION_LAYOUT.unpack_from(headers, at)
        end = texts.find(b"\0", name)
        text = texts[name:end if end >= 0 else None]
        sections.append(Section(number, text.decode("utf-8", "surrogateescape"), *fields))
    return _Table(tuple(sections), max((one.offset + one.size for one in sections if one.holds_bytes), default=0))


@lru_cache(_KEPT_TABLES)
def _known_table(headers: bytes, size: int, texts: bytes) -> _Table:
    """The same, kept for the next time."""
    return _table(headers, size, texts)


@dataclass(frozen=True)
class DebugLink:
    """The contents of `.gnu_debuglink`: the name of the debug file, and the CRC-32 of its bytes."""

    name: str
    checksum: int


@dataclass(frozen=True)
class SupplementaryLink:
    """The contents of `.gnu_debugaltlink` or `.debug_sup`: the name of the supplementary file, and its build id or checksum."""

    name: str
    checksum: bytes


class ElfFile:
    """A little-endian ELF-64 file. All its sections lie inside it."""

    def __init__(self, path: Path, name: str = "") -> None:
        """Reads the headers. Faults call the file `name`, or else by its path. Raises a fault if the file is missing or damaged, or of
        another class or byte order."""
        self.path = path
        self.name = name or str(path)
        if not path.is_file():
            raise Fault(f"there is no file {self.name}")
        # If a FIFO or a device has taken the file's place since then, opening it must not wait.
        self._file = os.open(path, os.O_RDONLY | os.O_CLOEXEC | os.O_NONBLOCK)
        weakref.finalize(self, os.close, self._file)
        self.size = os.fstat(self._file).st_size
        self.header = self._read_header()
        try:
            table = self._read_table()
        except DAMAGED as error:
            raise Fault(f"{self.name} is no ELF file, or is damaged in its headers") from error
        self.sections = list(table.sections)
        self._check_ranges(table.end)

    def _bytes(self, offset: int, size: int) -> bytes:
        """Bytes of the file. Raises a fault if it ends before them."""
        parts = []
        while size > 0:
            part = os.pread(self._file, size, offset)
            if not part:
                raise Fault(f"{self.name} is cut short")
            parts.append(part)
            offset, size = offset + len(part), size - len(part)
        return b"".join(parts)

    @cached_property
    def data(self) -> bytes:
        """All bytes of the file."""
        return self._bytes(0, self.size)

    def _read_header(self) -> Header:
        start = self._bytes(0, min(self.size, _HEADER.size))
        if not start.startswith(_MAGIC) or len(start) < _HEADER.size:
            raise Fault(f"{self.name} is no ELF file")
        header = Header(*_HEADER.unpack(start))
        is_64 = start[_CLASS_AT] == _CLASS_64
        if is_64 and header.sections_at + header.section_size * header.sections > self.size:
            raise Fault(f"{self.name} is cut short: its table of sections extends past the end of the file")
        if not is_64 or start[_ORDER_AT] != _LITTLE_ENDIAN:
            raise Fault(f"{self.name} is no ELF-64 file in little endian")
        return header

    def _read_table(self) -> _Table:
        """The table of sections. A count that is too large for the file header is in the first section header."""
        header, layout = self.header, SECTION_LAYOUT
        if not header.sections_at:
            return _Table((), 0)
        first = layout.unpack(self._bytes(header.sections_at, layout.size))
        count = header.sections or first[5]
        if header.section_size < layout.size or header.sections_at + count * header.section_size > self.size:
            raise ValueError("the table of sections does not lie in the file")
        headers = self._bytes(header.sections_at, count * header.section_size)
        texts = self._names(headers)
        if len(headers) + len(texts) > _LARGEST_KEPT_TABLE:
            return _table(headers, header.section_size, texts)
        return _known_table(headers, header.section_size, texts)

    def _names(self, headers: bytes) -> bytes:
        """The names of the sections."""
        if not self.names_number:
            return b""
        _, kind, _, _, offset, size, *_ = SECTION_LAYOUT.unpack_from(headers, self.names_number * self.header.section_size)
        if kind == SHT_NOBITS or offset + size > self.size:
            raise ValueError("the names of the sections do not lie in the file")
        return self._bytes(offset, size)

    @cached_property
    def names_number(self) -> int:
        """The number of the section that holds the section names."""
        number = self.header.names
        if number != _SHN_XINDEX:
            return number
        return int(SECTION_LAYOUT.unpack(self._bytes(self.header.sections_at, SECTION_LAYOUT.size))[6])

    def _check_ranges(self, end: int) -> None:
        if not self.sections:
            raise Fault(f"{self.name} has no sections")
        for section in self.sections if end > self.size else ():
            if section.holds_bytes and section.offset + section.size > self.size:
                raise Fault(f"{self.name} is cut short: its section {section.name} extends past the end of the file")

    def segments_end(self) -> int:
        """Where the program headers and the segments end in the file. Raises a fault if the program headers are damaged."""
        header = self.header
        count = self.sections[0].info if header.segments == _PN_XNUM else header.segments
        try:
            table = self._bytes(header.segments_at, count * header.segment_size)
            rows = [_SEGMENT.unpack_from(table, number * header.segment_size) for number in range(count)]
        except (struct.error, OverflowError, Fault) as error:
            raise Fault(f"{self.name} is damaged in its program headers") from error
        return max([int(header.segments_at) + len(table), *(int(sum(row)) for row in rows)])

    def first(self, name: str) -> Optional[Section]:
        """The first section of this name that has bytes; None if there is none."""
        return next((section for section in self.sections if section.name == name and section.holds_bytes), None)

    def _of_kind(self, kind: int) -> Iterator[Section]:
        return (section for section in self.sections if section.kind == kind)

    def raw(self, section: Section) -> bytes:
        """The bytes of a section as they are in the file."""
        return self._bytes(section.offset, section.size) if section.holds_bytes else b""

    def contents(self, section: Section) -> bytes:
        """The bytes of a section, inflated if they are compressed. Raises a fault if they cannot be inflated."""
        where = f"{self.name}: the section {section.name}"
        if section.flags & SHF_COMPRESSED:
            return inflate(self.raw(section), where)
        if section.name.startswith(".zdebug_"):
            return inflate_old(self.raw(section), where)
        return self.raw(section)

    def debug_headers(self) -> dict[str, Section]:
        """The first debug section of each name, in the order of the file. `.zdebug_` names become `.debug_` names."""
        found: dict[str, Section] = {}
        for section in self.sections:
            if section.is_debug and section.holds_bytes:
                found.setdefault(section.name.replace(".zdebug_", ".debug_", 1), section)
        return found

    def debug_sections(self) -> dict[str, tuple[Section, bytes]]:
        """The same sections with their inflated contents. Raises a fault if a section cannot be inflated."""
        return {name: (section, self.contents(section)) for name, section in self.debug_headers().items()}

    @property
    def has_debug_information(self) -> bool:
        """Whether the file has entries of debug information."""
        return any(self.first(name) is not None for name in (".debug_info", ".zdebug_info"))

    @cached_property
    def build_id(self) -> Optional[bytes]:
        """The build id, if the file has one. Raises a fault if the note is damaged."""
        for section in self._of_kind(_SHT_NOTE):
            if section.name != ".note.gnu.build-id":
                continue
            try:
                for name, kind, described in _notes(self.contents(section)):
                    if (name, kind) == (_GNU, _NT_GNU_BUILD_ID) and len(described) in _BUILD_ID_LENGTHS:
                        return described
            except DAMAGED as error:
                raise Fault(f"{self.name}: the note with the build id is damaged") from error
        return None

    @property
    def debug_link(self) -> Optional[DebugLink]:
        """The contents of `.gnu_debuglink`, if the file has it. Raises a fault if the section is damaged."""
        parted = self._named_file(".gnu_debuglink")
        if parted is None:
            return None
        name, rest = parted
        if len(rest) < 4:
            raise Fault(f"{self.name}: the section .gnu_debuglink is damaged")
        return DebugLink(name, int.from_bytes(rest[-4:], "little"))

    @property
    def supplementary_link(self) -> Optional[SupplementaryLink]:
        """The contents of `.gnu_debugaltlink`, or else of `.debug_sup`, if the file has one of them. Raises a fault if the section is
        damaged."""
        parted = self._named_file(".gnu_debugaltlink")
        if parted is None:
            standard = self._standard_link()
            return None if standard is None or standard[0] else standard[1]
        name, rest = parted
        if len(rest) not in _BUILD_ID_LENGTHS:
            raise Fault(f"{self.name}: the section .gnu_debugaltlink is damaged")
        return SupplementaryLink(name, rest)

    @property
    def checksums(self) -> list[bytes]:
        """What identifies a supplementary file: its build id, and the checksum in its `.debug_sup`, if it has them. Raises a fault if
        one is damaged."""
        standard = self._standard_link()
        own = [standard[1].checksum] if standard is not None and standard[0] else []
        return own if self.build_id is None else [self.build_id, *own]

    def _standard_link(self) -> Optional[tuple[bool, SupplementaryLink]]:
        """The contents of `.debug_sup` (DWARF 5, 7.3.6): whether the file is a supplementary one, and the name and the checksum."""
        section = self.first(".debug_sup")
        if section is None:
            return None
        contents = self.contents(section)
        name, end, rest = contents[3:].partition(b"\0")
        if not end or not rest or rest[0] not in _BUILD_ID_LENGTHS or len(rest) < 1 + rest[0]:
            raise Fault(f"{self.name}: the section .debug_sup is damaged")
        link = SupplementaryLink(name.decode("utf-8", "surrogateescape"), rest[1:1 + rest[0]])
        return contents[2] != 0, link

    def _named_file(self, name: str) -> Optional[tuple[str, bytes]]:
        """The file name at the beginning of a section, and the bytes after it."""
        section = self.first(name)
        if section is None:
            return None
        file, end, rest = self.contents(section).partition(b"\0")
        if not end or not file:
            raise Fault(f"{self.name}: the section {name} is damaged")
        return file.decode("utf-8", "surrogateescape"), rest

    @property
    def is_shared_object(self) -> bool:
        """Whether the file has the type and the machine that `abi` reads."""
        return (self.header.kind, self.header.machine) == (ET_DYN, EM_X86_64)

    @property
    def soname(self) -> Optional[str]:
        """The soname, if the file has one. Raises a fault if the dynamic table is damaged."""
        return next((text for tag, text in self._dynamic_texts() if tag == _DT_SONAME), None)

    def needed(self) -> list[str]:
        """The libraries that the file needs (DT_NEEDED). Raises a fault if the dynamic table is damaged."""
        return list(self.needed_files())

    def needed_files(self) -> Iterator[str]:
        """The same libraries, one after the other."""
        return (text for tag, text in self._dynamic_texts() if tag == _DT_NEEDED)

    def _dynamic_texts(self) -> Iterator[tuple[int, str]]:
        """The tag and the name of each DT_NEEDED and DT_SONAME entry."""
        try:
            for section in self._of_kind(_SHT_DYNAMIC):
                for tag, value in _DYNAMIC_ENTRY.iter_unpack(self.raw(section)):
                    if tag == _DT_NULL:
                        break
                    if tag in (_DT_NEEDED, _DT_SONAME):
                        yield tag, _text(self.raw(self.sections[section.link]), value)
        except DAMAGED as error:
            raise Fault(f"{self.name}: the dynamic table is damaged") from error

    def imports(self) -> Iterator[tuple[str, Optional[tuple[str, str]]]]:
        """The names of the undefined dynamic symbols, each with the file and version that it needs, if it needs one. Raises a fault if a
        table is damaged."""
        return ((name, version) for name, version, _ in self._undefined())

    def strong_imports(self) -> Iterator[tuple[str, str]]:
        """The names of the undefined dynamic symbols that another file must define, each with its version, or an empty text: their
        binding is GLOBAL, and a symbol with the binding WEAK may stay undefined (gABI, "Symbol Table"). Raises a fault as `imports`."""
        return ((name, version[1] if version else "") for name, version, binding in self._undefined() if binding == _STB_GLOBAL)

    def _undefined(self) -> Iterator[tuple[str, Optional[tuple[str, str]], int]]:
        """The names of the undefined dynamic symbols, each with the file and version that it needs, and its binding."""
        try:
            texts, symbols = self._symbols()
            indexes = [index & _VERSION_INDEX for section in self._of_kind(SHT_GNU_VERSYM)
                       for (index,) in _INDEX.iter_unpack(self.raw(section))]
            versions = dict(self._needed_versions())
            for number, symbol in enumerate(symbols):
                name = _text(texts, symbol[0])
                if symbol[3] == _SHN_UNDEF and name:
                    yield name, versions.get(indexes[number] if number < len(indexes) else 0), symbol[1] >> 4
        except DAMAGED as error:
            raise Fault(f"{self.name}: a table of dynamic symbols or of their versions is damaged") from error

    def needed_versions(self) -> Iterator[tuple[str, str]]:
        """The versions that the file needs from other files, each with its file. Raises a fault if their table is damaged."""
        try:
            for _, version in self._needed_versions():
                yield version
        except DAMAGED as error:
            raise Fault(f"{self.name}: the table of needed versions is damaged") from error

    def _needed_versions(self) -> Iterator[tuple[int, tuple[str, str]]]:
        """The versions that the file needs from other files, by index: the other file and the version (GNU symbol versioning)."""
        for section in self._of_kind(_SHT_GNU_VERNEED):
            data, texts = self.raw(section), self.raw(self.sections[section.link])
            at = 0
            for _ in range(section.info):
                _, count, file, first, following = _NEED.unpack_from(data, at)
                place = at + first
                for _ in range(count):
                    _, _, index, name, behind = _NEEDED_VERSION.unpack_from(data, place)
                    yield index & _VERSION_INDEX, (_text(texts, file), _text(texts, name))
                    place += behind
                at += following

    def symbol_values(self) -> list[int]:
        """The values of the dynamic symbols, by number. Raises a fault if the table is damaged."""
        return [symbol[4] for symbol in self._symbols()[1]]

    def symbol_addresses(self) -> dict[str, set[int]]:
        """The nonzero values of the dynamic symbols, by name. Raises a fault if the table is damaged."""
        texts, symbols = self._symbols()
        found: dict[str, set[int]] = {}
        for name, _, _, _, value, _ in symbols:
            if value:
                found.setdefault(_text(texts, name), set()).add(value)
        return found

    def last_defined(self) -> int:
        """How many dynamic symbols there are up to the last one that is defined for others. Raises a fault if the table is damaged."""
        table = next((self.raw(section) for section in self._of_kind(SHT_DYNSYM)), b"")
        for number in range(len(table) // SYMBOL_SIZE, 0, -1):
            _, information, _, section, _, _ = _SYMBOL.unpack_from(table, (number - 1) * SYMBOL_SIZE)
            if information >> 4 and section:
                return number
        return 0

    def _symbols(self) -> tuple[bytes, list[tuple[int, ...]]]:
        """The string table of the dynamic symbols, and the symbols."""
        try:
            for section in self._of_kind(SHT_DYNSYM):
                return self.raw(self.sections[section.link]), list(_SYMBOL.iter_unpack(self.raw(section)))
        except DAMAGED as error:
            raise Fault(f"{self.name}: the table of dynamic symbols is damaged") from error
        return b"", []


def _text(texts: bytes, at: int) -> str:
    """The string at an offset of a string table. Raises ValueError if it does not end."""
    return texts[at:texts.index(b"\0", at)].decode("utf-8", "surrogateescape")


def _notes(section: bytes) -> Iterator[tuple[bytes, int, bytes]]:
    """The notes of a section: the name with its terminating zero, the type, and the descriptor. Raises ValueError if a note does not
    end in the section."""
    at = 0
    while at < len(section):
        name_size, size, kind = _NOTE.unpack_from(section, at)
        name = at + _NOTE.size
        start = name + _up(name_size)
        if start + size > len(section):
            raise ValueError("a note does not end in its section")
        yield section[name:name + name_size], kind, section[start:start + size]
        at = start + _up(size)


def _up(size: int) -> int:
    """The size, rounded up to a multiple of four."""
    return size + -size % 4
