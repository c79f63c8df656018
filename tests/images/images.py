"""Small ELF-64 x86-64 shared objects, as bytes: a header, the sections in order and the section table, in the format of the System V
gABI and of GNU symbol versioning, without program headers."""

import struct
from dataclasses import dataclass, field

import units

SHT_PROGBITS = 1
SHT_STRTAB = 3
SHT_DYNAMIC = 6
SHT_DYNSYM = 11
SHT_GNU_VERDEF = 0x6FFFFFFD
SHT_GNU_VERNEED = 0x6FFFFFFE
SHT_GNU_VERSYM = 0x6FFFFFFF

DT_NULL = 0
DT_SONAME = 14

SHN_ABS = 0xFFF1

# st_info: the binding STB_GLOBAL times 16, and the type STT_FUNC or STT_OBJECT
GLOBAL_FUNCTION = 0x12
GLOBAL_OBJECT = 0x11

VER_NDX_LOCAL = 0
VER_NDX_GLOBAL = 1
VERSYM_HIDDEN = 0x8000
VER_FLG_BASE = 1

# the sizes of the 64-bit records, in bytes
SYMBOL_SIZE = 24
DYNAMIC_ENTRY_SIZE = 16
VERSYM_SIZE = 2
VERDEF_SIZE = 20
VERDAUX_SIZE = 8
SECTION_HEADER_SIZE = 64
ALIGNMENT = 8

SECTION_NAMES = b".shstrtab"


@dataclass
class Symbol:
    """A dynamic symbol: unless said otherwise an exported function of 16 bytes at 4096."""

    name: bytes
    info: int = GLOBAL_FUNCTION
    other: int = 0
    section: int = 1
    value: int = 0x1000
    size: int = 16


@dataclass
class Version:
    """A version definition."""

    index: int
    flags: int
    name: bytes


@dataclass
class Section:
    """A section: its name, the fields of its header that do not depend on its place, and its bytes."""

    name: bytes
    kind: int
    data: bytes
    flags: int = 0
    link: int = 0
    info: int = 0
    entry_size: int = 0


@dataclass
class Strings:
    """A string table: a 0 byte, and the names in order, each ended by a 0 byte."""

    data: bytearray = field(default_factory=lambda: bytearray(1))

    def add(self, name: bytes) -> int:
        """Appends a name, and returns its offset."""
        offset = len(self.data)
        self.data += name + b"\0"
        return offset


def marker(name: bytes) -> Symbol:
    """The symbol that a linker adds for a version: a global, absolute object."""
    return Symbol(name, info=GLOBAL_OBJECT, section=SHN_ABS, value=0, size=0)


def padded(data: bytes) -> bytes:
    """The bytes with zeros up to the next multiple of the alignment."""
    return data + bytes(-len(data) % ALIGNMENT)


def symbol_table(symbols: list[Symbol], names: Strings) -> bytes:
    """The reserved symbol 0 and these symbols, whose names go to the string table."""
    table = bytes(SYMBOL_SIZE)
    for symbol in symbols:
        table += struct.pack(
            "<IBBHQQ", names.add(symbol.name), symbol.info, symbol.other, symbol.section, symbol.value, symbol.size
        )
    return table


def definition_table(versions: list[Version], names: Strings) -> bytes:
    """The version definitions, each with one auxiliary entry and no hash; their names go to the string table."""
    table = b""
    for left, version in zip(range(len(versions), 0, -1), versions):
        following = VERDEF_SIZE + VERDAUX_SIZE if left > 1 else 0
        table += struct.pack("<HHHHIII", 1, version.flags, version.index, 1, 0, VERDEF_SIZE, following)
        table += struct.pack("<II", names.add(version.name), 0)
    return table


class Image:
    """A shared object that is built section by section. Sections are numbered from 1 on."""

    def __init__(self) -> None:
        self.sections: list[Section] = []

    def add(self, name: str, data: bytes, kind: int = SHT_PROGBITS, flags: int = 0) -> Section:
        """Appends a section, and returns it."""
        section = Section(name.encode(), kind, data, flags=flags)
        self.sections.append(section)
        return section

    def add_symbols(self, symbols: list[Symbol]) -> None:
        """Appends `.dynsym` and `.dynstr`."""
        names = Strings()
        section = self.add(".dynsym", symbol_table(symbols, names), SHT_DYNSYM)
        section.link, section.info, section.entry_size = len(self.sections) + 1, 1, SYMBOL_SIZE
        self.add(".dynstr", bytes(names.data), SHT_STRTAB)

    def add_version_indexes(self, indexes: list[int]) -> None:
        """Appends `.gnu.version` right after the symbols and their names: the version index of each symbol."""
        data = struct.pack(f"<{len(indexes)}H", *indexes)
        section = self.add(".gnu.version", data, SHT_GNU_VERSYM)
        section.link, section.entry_size = len(self.sections) - 2, VERSYM_SIZE

    def add_versions(self, versions: list[Version]) -> None:
        """Appends `.gnu.version_d` and `.gnu.version_d.str`."""
        names = Strings()
        section = self.add(".gnu.version_d", definition_table(versions, names), SHT_GNU_VERDEF)
        section.link, section.info = len(self.sections) + 1, len(versions)
        self.add(".gnu.version_d.str", bytes(names.data), SHT_STRTAB)

    def add_versioned_symbols(self, symbols: list[Symbol], indexes: list[int], versions: list[Version]) -> None:
        """Appends `.dynsym`, `.dynstr`, `.gnu.version` and `.gnu.version_d`, with all names in `.dynstr`."""
        self.add_symbols(symbols)
        names = Strings(bytearray(self.sections[-1].data))
        self.add_version_indexes(indexes)
        section = self.add(".gnu.version_d", definition_table(versions, names), SHT_GNU_VERDEF)
        section.link, section.info = len(self.sections) - 2, len(versions)
        self.sections[-3].data = bytes(names.data)

    def add_soname(self, name: bytes) -> None:
        """Appends `.dynamic`, with the soname, and `.dynamic.str`."""
        names = Strings()
        table = struct.pack("<QQQQ", DT_SONAME, names.add(name), DT_NULL, 0)
        section = self.add(".dynamic", table, SHT_DYNAMIC)
        section.link, section.entry_size = len(self.sections) + 1, DYNAMIC_ENTRY_SIZE
        self.add(".dynamic.str", bytes(names.data), SHT_STRTAB)

    def add_section_names(self) -> None:
        """Appends `.shstrtab`. Without this call it is the last section."""
        self.add(SECTION_NAMES.decode(), b"", SHT_STRTAB)

    def add_debug(self, abbreviations: bytes, entries: bytes) -> None:
        """Appends `.debug_abbrev` and `.debug_info`."""
        self.add(".debug_abbrev", abbreviations)
        self.add(".debug_info", entries)

    def file(self) -> bytes:
        """The file: its header, the sections, each at a multiple of 8, and the section table. Fields that a reader of sections does
        not need are 0."""
        sections = list(self.sections)
        if SECTION_NAMES not in [section.name for section in sections]:
            sections.append(Section(SECTION_NAMES, SHT_STRTAB, b""))
        names = Strings()
        offsets = [names.add(section.name) for section in sections]
        place = 1 + [section.name for section in sections].index(SECTION_NAMES)
        contents, table = b"", bytes(SECTION_HEADER_SIZE)
        for offset, section in zip(offsets, sections):
            data = bytes(names.data) if section.name == SECTION_NAMES else section.data
            contents = padded(contents)
            table += struct.pack("<IIQQQQ", offset, section.kind, section.flags, 0, 64 + len(contents), len(data))
            table += struct.pack("<IIQQ", section.link, section.info, ALIGNMENT, section.entry_size)
            contents += data
        contents = padded(contents)
        header = b"\x7fELF" + bytes([2, 1, 1]) + bytes(9)
        header += struct.pack("<HHIQQQI", 3, 62, 1, 0, 0, 64 + len(contents), 0)
        header += struct.pack("<HHHHHH", 0, 0, 0, SECTION_HEADER_SIZE, len(sections) + 1, place)
        return header + contents + table


def functions(names: list[bytes]) -> list[Symbol]:
    """Exported functions with these names, each at the next 16 bytes of addresses from 4096 on."""
    return [Symbol(name, value=0x1000 + 16 * k) for k, name in enumerate(names)]


def library(exports: list[bytes], soname: bytes = b"") -> bytes:
    """A library with these exported functions, and with a soname unless it is empty."""
    image = Image()
    image.add_symbols(functions(exports))
    if soname:
        image.add_soname(soname)
    return image.file()


BASE = Version(VER_NDX_GLOBAL, VER_FLG_BASE, b"a.so")


def versioned_function(
    markers: list[bytes], abbreviations: bytes = units.FUNCTION_ABBREVIATIONS, entries: bytes = units.FUNCTION_UNIT
) -> bytes:
    """A library with the function `f` of version `V1`, with markers of that version, and with debug entries."""
    image = Image()
    symbols = [Symbol(b"f")] + [marker(name) for name in markers]
    indexes = [VER_NDX_LOCAL] + [2] * len(symbols)
    image.add_versioned_symbols(symbols, indexes, [BASE, Version(2, 0, b"V1")])
    image.add_section_names()
    image.add_debug(abbreviations, entries)
    return image.file()


def indexed_function() -> bytes:
    """A library with the function `f`, whose name and address the debug entries give by indexes."""
    image = Image()
    image.add_symbols([Symbol(b"f")])
    image.add_debug(units.INDEXED_ABBREVIATIONS, units.INDEXED_UNIT)
    image.add_section_names()
    for name, data in units.INDEX_TABLES:
        image.add(name, data)
    return image.file()


def described(text: str) -> bytes:
    """The library that a text describes. A line has a word and its values:

    soname NAME             a dynamic table with this soname
    version NAME            a version definition, before the symbols that have it
    function NAME [VERSION] an exported function, without a version or with this one as its default, at the next 16 bytes of addresses
                            from 4096 on
    hidden NAME VERSION     the same, with a version that is not the default one
    marker NAME             the symbol that a linker adds for the version of that name
    unit                    a unit of debug entries, of version 5; the lines of its entries follow, as `units.entry` reads them
    """
    soname, versions, symbols, indexes = b"", [BASE], [], [VER_NDX_LOCAL]
    address, bodies = 0x1000, []
    index_of = {"": VER_NDX_GLOBAL}
    for line in text.splitlines():
        kind, name, version = (line.split() + ["", ""])[:3]
        if kind == "soname":
            soname = name.encode()
        elif kind == "version":
            index_of[name] = len(versions) + 1
            versions.append(Version(index_of[name], 0, name.encode()))
        elif kind in ("function", "hidden"):
            symbols.append(Symbol(name.encode(), value=address))
            indexes.append(index_of[version] | (VERSYM_HIDDEN if kind == "hidden" else 0))
            address += 16
        elif kind == "marker":
            symbols.append(marker(name.encode()))
            indexes.append(index_of[name])
        elif kind == "unit":
            bodies.append(b"")
        else:
            bodies[-1] += units.entry(line)
    image = Image()
    if len(versions) > 1:
        image.add_versioned_symbols(symbols, indexes, versions)
    else:
        image.add_symbols(symbols)
    if soname:
        image.add_soname(soname)
    if bodies:
        image.add_debug(units.ENTRY_ABBREVIATIONS, b"".join(map(units.unit, bodies)))
    return image.file()


def changed(data: bytes, changes: str) -> bytes:
    """The bytes, changed by words such as `60=00,ff`, for the bytes 00 and ff from offset 60 on."""
    image = bytearray(data)
    for word in changes.split():
        place, new = word.split("=")
        values = bytes(int(digits, 16) for digits in new.split(","))
        assert int(place) + len(values) <= len(image), f"{word} lies outside"
        image[int(place) : int(place) + len(values)] = values
    return bytes(image)
