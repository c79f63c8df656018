"""Makes shared objects: sections, dynamic symbols and GNU versions (System V gABI)."""

from dataclasses import dataclass, field

from .encode import u16, u32, u64

IDENT = b"\x7fELF\x02\x01\x01" + bytes(9)
SHT_PROGBITS = 1
SHT_STRTAB = 3
SHT_DYNAMIC = 6
SHT_DYNSYM = 11
SHT_GNU_VERDEF = 0x6FFFFFFD
SHT_GNU_VERNEED = 0x6FFFFFFE
SHT_GNU_VERSYM = 0x6FFFFFFF
DT_NEEDED = 1
DT_SONAME = 14
GLOBAL_FUNCTION = 0x12
HEADER_SIZE = 64


@dataclass(frozen=True)
class Section:
    """A section. `link` is the number of its string table, or 0."""

    name: bytes
    kind: int
    contents: bytes
    link: int = 0
    info: int = 0
    entry_size: int = 0
    name_at: int | None = None


@dataclass
class Layout:
    """The contents of sections in a row, and their headers."""

    contents: bytearray = field(default_factory=bytearray)
    headers: bytearray = field(default_factory=lambda: bytearray(HEADER_SIZE))
    names: bytearray = field(default_factory=lambda: bytearray(b"\0"))

    def add(self, section: Section) -> None:
        name = section.name_at
        if name is None:
            name = len(self.names)
            self.names += section.name + b"\0"
        place = HEADER_SIZE + len(self.contents)
        self.headers += u32(name) + u32(section.kind) + u64(0) + u64(0)
        self.headers += u64(place) + u64(len(section.contents))
        self.headers += u32(section.link) + u32(section.info)
        self.headers += u64(1) + u64(section.entry_size)
        self.contents += section.contents


def image(sections: list[Section], names: bytes | None = None) -> bytes:
    """A file of these sections, numbered from 1 on. The section with the names is the last one; if its contents are given, the `name_at`
    of each section is an offset in them."""
    layout = Layout()
    for section in sections:
        layout.add(section)
    behind = b".shstrtab\0"
    at = 0 if names is not None else len(layout.names)
    whole = names if names is not None else bytes(layout.names) + behind
    layout.add(Section(b"", SHT_STRTAB, whole, name_at=at))
    table = HEADER_SIZE + len(layout.contents)
    count = len(sections) + 2
    header = IDENT + u16(3) + u16(62) + u32(1) + u64(0) + u64(0) + u64(table)
    header += u32(0) + u16(0) + u16(0) + u16(0) + u16(HEADER_SIZE)
    if count < 0xFF00:
        header += u16(count) + u16(count - 1)
    else:
        header += u16(0) + u16(0xFFFF)
        layout.headers[32:40] = u64(count)
        layout.headers[40:44] = u32(count - 1)
    return header + bytes(layout.contents) + bytes(layout.headers)


@dataclass(frozen=True)
class Symbol:
    """A dynamic symbol: the offset of its name in the string table, and its value."""

    name_at: int
    value: int
    size: int = 1
    info: int = GLOBAL_FUNCTION
    section: int = 1

    def spelled(self) -> bytes:
        return u32(self.name_at) + bytes([self.info, 0]) + u16(self.section) + u64(self.value) + u64(self.size)


def symbol_sections(symbols: list[Symbol], names: bytes) -> list[Section]:
    """Sections 1 and 2 of an image: the dynamic symbols and their names."""
    table = bytes(24) + b"".join(symbol.spelled() for symbol in symbols)
    return [
        Section(b".dynsym", SHT_DYNSYM, table, link=2, info=1, entry_size=24),
        Section(b".dynstr", SHT_STRTAB, names),
    ]


def soname_section(name_at: int) -> Section:
    """A dynamic table with a soname."""
    table = u64(DT_SONAME) + u64(name_at) + bytes(16)
    return Section(b".dynamic", SHT_DYNAMIC, table, link=2, entry_size=16)


def needed_section(name_at: int, count: int, soname_at: int = 0) -> Section:
    """A dynamic table that asks for the same file again and again, and a soname if there is one."""
    own = u64(DT_SONAME) + u64(soname_at) if soname_at else b""
    table = own + (u64(DT_NEEDED) + u64(name_at)) * count + bytes(16)
    return Section(b".dynamic", SHT_DYNAMIC, table, link=2, entry_size=16)


def version_sections(indexes: list[int], names_at: list[int]) -> list[Section]:
    """The version of each symbol, including symbol 0, and the definitions of the versions 2, 3 and so on, by the offsets of their
    names."""
    table = b"".join(u16(index) for index in indexes)
    definitions = bytearray()
    for number, name_at in enumerate(names_at):
        step = 28 if number + 1 < len(names_at) else 0
        definitions += u16(1) + u16(0) + u16(number + 2) + u16(1) + u32(0) + u32(20) + u32(step)
        definitions += u32(name_at) + u32(0)
    return [
        Section(b".gnu.version", SHT_GNU_VERSYM, table, link=1, entry_size=2),
        Section(b".gnu.version_d", SHT_GNU_VERDEF, bytes(definitions), link=2, info=len(names_at)),
    ]


def need_section(needs: int, entries: int) -> Section:
    """`needs` version needs that share one list of `entries` auxiliary entries; each name is the one at byte 1 of the string table."""
    table = bytearray()
    for number in range(needs):
        step = 16 if number + 1 < needs else 0
        table += u16(1) + u16(entries) + u32(1) + u32(16 * (needs - number)) + u32(step)
    for number in range(entries):
        step = 16 if number + 1 < entries else 0
        table += u32(0) + u16(0) + u16(number % 0x7FFE + 2) + u32(1) + u32(step)
    return Section(b".gnu.version_r", SHT_GNU_VERNEED, bytes(table), link=2, info=needs)
