"""Writes shared objects for x86-64: dynamic symbols with versions, a soname, and sections of debug information (System V gABI, chapters 4
and 5; GNU symbol versioning)."""

from __future__ import annotations

import struct
from dataclasses import dataclass, field
from typing import Mapping, Sequence

ELF_HEADER = 64
SECTION_HEADER = 64
SHT_PROGBITS, SHT_STRTAB, SHT_DYNAMIC, SHT_DYNSYM = 1, 3, 6, 11
SHT_GNU_VERDEF, SHT_GNU_VERSYM = 0x6FFFFFFD, 0x6FFFFFFF
DT_NULL, DT_SONAME = 0, 14
STB_GLOBAL = 1
# The types of symbols, from STT_NOTYPE to STT_GNU_IFUNC.
KINDS = {"none": 0, "object": 1, "function": 2, "common": 5, "thread-local": 6, "resolver": 10}
# The first index of a version that has a name.
FIRST_VERSION = 2
VERSYM_HIDDEN = 0x8000


@dataclass(frozen=True)
class Symbol:
    """An exported symbol, or an imported one. An empty version is none; a hidden one is not the default of its name."""

    name: str
    kind: str
    size: int
    value: int
    version: str = ""
    hidden: bool = False
    imported: bool = False


class Strings:
    """A string table."""

    def __init__(self) -> None:
        self.data = bytearray(1)

    def add(self, text: str) -> int:
        """Appends a text, and returns its offset."""
        at = len(self.data)
        self.data += text.encode() + b"\0"
        return at


@dataclass
class Section:
    """A section; `link` is the name of the section to which it refers."""

    name: str
    kind: int
    data: bytes
    link: str = ""
    entry_size: int = 0
    info: int = 0


@dataclass
class Image:
    """The parts of a shared object."""

    symbols: Sequence[Symbol] = ()
    soname: str = ""
    debug: Mapping[str, bytes] = field(default_factory=dict)

    def versions(self) -> list[str]:
        """The names of the versions, each once."""
        return list(dict.fromkeys(symbol.version for symbol in self.symbols if symbol.version))

    def sections(self) -> list[Section]:
        """All sections but the first, which is empty, and the last, which has the names."""
        strings = Strings()
        made = [Section(".dynsym", SHT_DYNSYM, self._dynamic_symbols(strings), ".dynstr", 24, 1)]
        if self.versions():
            indexes = [0] + [self._version_index(symbol) for symbol in self.symbols]
            made.append(Section(".gnu.version", SHT_GNU_VERSYM, struct.pack(f"<{len(indexes)}H", *indexes), ".dynsym", 2))
            made.append(
                Section(".gnu.version_d", SHT_GNU_VERDEF, self._definitions(strings), ".dynstr", 0, len(self.versions()) + 1)
            )
        if self.soname:
            entries = struct.pack("<4Q", DT_SONAME, strings.add(self.soname), DT_NULL, 0)
            made.append(Section(".dynamic", SHT_DYNAMIC, entries, ".dynstr", 16))
        made.append(Section(".dynstr", SHT_STRTAB, bytes(strings.data)))
        made += [Section(name, SHT_PROGBITS, data) for name, data in self.debug.items()]
        return made

    def _dynamic_symbols(self, strings: Strings) -> bytes:
        data = bytes(24)
        for symbol in self.symbols:
            info = STB_GLOBAL << 4 | KINDS[symbol.kind]
            data += struct.pack("<IBBHQQ", strings.add(symbol.name), info, 0, 0 if symbol.imported else 1, symbol.value, symbol.size)
        return data

    def _version_index(self, symbol: Symbol) -> int:
        if not symbol.version:
            return 1
        return self.versions().index(symbol.version) + FIRST_VERSION | (VERSYM_HIDDEN if symbol.hidden else 0)

    def _definitions(self, strings: Strings) -> bytes:
        names = ["base", *self.versions()]
        data = b""
        for index, name in enumerate(names, 1):
            following = 28 if index < len(names) else 0
            flags = 1 if index == 1 else 0
            data += struct.pack("<HHHHIII", 1, flags, index, 1, 0, 20, following)
            data += struct.pack("<II", strings.add(name), 0)
        return data

    def to_bytes(self) -> bytes:
        """The bytes of the file."""
        sections = self.sections()
        names = Strings()
        offsets = [names.add(section.name) for section in sections]
        own_name = names.add(".shstrtab")
        sections.append(Section(".shstrtab", SHT_STRTAB, bytes(names.data)))
        offsets.append(own_name)
        numbers = {section.name: number for number, section in enumerate(sections, 1)}
        contents, headers = b"", bytes(SECTION_HEADER)
        for section, name in zip(sections, offsets):
            link = numbers[section.link] if section.link else 0
            place = ELF_HEADER + len(contents)
            headers += struct.pack(
                "<IIQQQQIIQQ", name, section.kind, 0, 0, place, len(section.data), link, section.info, 1, section.entry_size
            )
            contents += section.data
        identity = b"\x7fELF\x02\x01\x01" + bytes(9)
        header = identity + struct.pack(
            "<HHIQQQIHHHHHH", 3, 62, 1, 0, 0, ELF_HEADER + len(contents), 0, 64, 0, 0, 64, len(sections) + 1, len(sections)
        )
        return header + contents + headers
