"""Generated libraries whose names and versions are long, share their bytes, or are many with the same name."""

from .cases import Case, Kind, against, against_itself, applied, listed, noted
from .elf import (
    SHT_GNU_VERNEED,
    SHT_GNU_VERSYM,
    SHT_PROGBITS,
    Section,
    Symbol,
    image,
    need_section,
    needed_section,
    soname_section,
    symbol_sections,
    version_sections,
)
from .encode import short_name, u16, u32

MOST_VERSIONS = 32766


def table_of(names: list[str]) -> tuple[bytes, list[int]]:
    """A string table, and the offset of each string."""
    contents = bytearray(b"\0")
    places = []
    for name in names:
        places.append(len(contents))
        contents += name.encode() + b"\0"
    return bytes(contents), places


def versioned(count: int, version: str) -> bytes:
    """Functions with short names that all have the same version."""
    names, places = table_of([short_name(number) for number in range(count)] + [version])
    symbols = [Symbol(place, 0x1000 + 16 * number) for number, place in enumerate(places[:-1])]
    indexes = [0] + [2] * count
    return image(symbol_sections(symbols, names) + version_sections(indexes, [places[-1]]))


def one_version(count: int) -> Case:
    """Symbols with the same version, which has a long name."""
    return against_itself(versioned(count, "v" * (8 * count)))


def gone(count: int) -> Case:
    """The same, but in the new library all are gone."""
    return against(versioned(count, "v" * (8 * count)), versioned(1, "v"))


def of_versions(count: int, name: str, hidden: int) -> bytes:
    """Symbols with the same name, each with another version."""
    names, places = table_of([short_name(number) for number in range(count)] + [name])
    symbols = [Symbol(places[-1], 0x1000 + 16 * number) for number in range(count)]
    indexes = [0] + [number + 2 | hidden for number in range(count)]
    return image(symbol_sections(symbols, names) + version_sections(indexes, places[:-1]))


def versions(count: int) -> Case:
    """Symbols with the same long name, each with another version."""
    return against_itself(of_versions(count, "f" * (20 * count), 0x8000))


def short_versions(count: int) -> Case:
    """Symbols with the same short name, each with another version."""
    return against_itself(of_versions(count, "f", 0x8000))


def definitions(count: int) -> Case:
    """Version definitions that all have the same long name. No symbol has one of these versions."""
    names = b"\0" + b"v" * (40 * count) + b"\0"
    places = [1] * min(count, MOST_VERSIONS)
    return listed(image(symbol_sections([], names) + version_sections([0], places)))


def shared_needs(count: int) -> Case:
    """Version needs that share one list of auxiliary entries."""
    app = image(symbol_sections([], b"\0v\0") + [need_section(count, min(count, 65535))])
    return applied(app, image(symbol_sections([], b"\0")))


def suffixes(count: int) -> bytes:
    """Symbols whose names are the ends of one text."""
    names = b"\0" + b"s" * count + b"\0"
    return image(symbol_sections([Symbol(1 + number, 0x1000 + number) for number in range(count)], names))


def shared_ends(count: int) -> Case:
    return against_itself(suffixes(count))


def listed_ends(count: int) -> Case:
    return listed(suffixes(count))


def ends_of(text: bytes, count: int) -> bytes:
    """Symbols whose names are all the ends of some texts that differ in their last letters."""
    names = bytearray(b"\0")
    symbols = []
    for number in range(count // len(text)):
        start = len(names)
        names += text + short_name(number).encode() + b"\0"
        symbols += [Symbol(start + place, 0x1000) for place in range(len(text))]
    return image(symbol_sections(symbols, bytes(names)))


def gone_ends(count: int) -> Case:
    """Symbols with long names that share their bytes, each printed as four; all are gone in the new library."""
    return against(ends_of(b"\1" * 2500, count), ends_of(b"\1", 1))


def added_ends(count: int) -> Case:
    """The same names the other way round, with notes: all are new."""
    return noted(ends_of(b"\1", 1), ends_of(b"\1" * 2500, count))


def needed_names(count: int) -> Case:
    """An application that asks for a file with a long name again and again, and never for the library."""
    names = b"\0" + b"n" * (16 * count) + b"\0"
    app = image([*symbol_sections([], names), needed_section(1, count)])
    library = image([*symbol_sections([], b"\0s\0"), soname_section(1)])
    return applied(app, library)


def lacking_names(count: int) -> Case:
    """An application whose imports have long names that share their bytes, each printed as four; the library lacks all of them."""
    strings = bytearray(b"\0s\0v\0")
    symbols = []
    for number in range(count // 2500):
        start = len(strings)
        strings += b"\1" * 2500 + short_name(number).encode() + b"\0"
        symbols += [Symbol(start + place, 0, section=0) for place in range(2500)]
    need = u16(1) + u16(1) + u32(1) + u32(16) + u32(0) + u32(0) + u16(0) + u16(2) + u32(3) + u32(0)
    app = [
        *symbol_sections(symbols, bytes(strings)),
        Section(b".gnu.version", SHT_GNU_VERSYM, u16(0) + u16(2) * len(symbols), link=1, entry_size=2),
        Section(b".gnu.version_r", SHT_GNU_VERNEED, need, link=2, info=1),
        needed_section(1, 1),
    ]
    return applied(image(app), image([*symbol_sections([], b"\0s\0"), soname_section(1)]))


def importing(count: int, file: str, version: str) -> bytes:
    """An application with imports of one name, which all need the same version of the same file."""
    names, (name_at, file_at, version_at) = table_of(["f", file, version])
    need = u16(1) + u16(1) + u32(file_at) + u32(16) + u32(0) + u32(0) + u16(0) + u16(2) + u32(version_at) + u32(0)
    app = [
        *symbol_sections([Symbol(name_at, 0, section=0)] * count, names),
        Section(b".gnu.version", SHT_GNU_VERSYM, u16(0) + u16(2) * count, link=1, entry_size=2),
        Section(b".gnu.version_r", SHT_GNU_VERNEED, need, link=2, info=1),
    ]
    return image(app)


def imports_of_a_file(count: int) -> Case:
    """Imports that need a file with a long name. The soname of the library differs in the last byte."""
    names, (soname_at,) = table_of(["n" * (16 * count) + "t"])
    library = image([*symbol_sections([], names), soname_section(soname_at)])
    return applied(importing(count, "n" * (16 * count) + "s", "v"), library)


def imports_of_a_version(count: int) -> Case:
    """Imports that need a version with a long name. The library defines a version that differs in the last byte,
    and has local symbols, so that the bytes of its exports stay below their limit."""
    names, (name_at, version_at, soname_at) = table_of(["f", "v" * (16 * count) + "t", "s"])
    others = count // 64
    symbols = [Symbol(name_at, 0x1000)] + [Symbol(name_at, 0, info=0)] * others
    versions = version_sections([0, 2] + [0] * others, [version_at])
    library = [*symbol_sections(symbols, names), *versions, soname_section(soname_at)]
    return applied(importing(count, "s", "v" * (16 * count) + "s"), image(library))


def alike_needed_names(count: int) -> Case:
    """An application that asks for a file with a long name again and again. The soname of the library differs in the last byte."""
    app_names, (needed_at,) = table_of(["n" * (16 * count) + "s"])
    names, (soname_at,) = table_of(["n" * (16 * count) + "t"])
    app = image([*symbol_sections([], app_names), needed_section(needed_at, count)])
    library = image([*symbol_sections([], names), soname_section(soname_at)])
    return Case({"app": app, "old": library}, ["app", "app", "old", "old"], with_notes=True)


def hidden_names(count: int) -> Case:
    """Local symbols that all have the same long name."""
    names = b"\0" + b"s" * (20 * count) + b"\0"
    return listed(image(symbol_sections([Symbol(1, 0, info=0)] * count, names)))


def section_names(count: int) -> Case:
    """Sections that all have the same long name."""
    first = symbol_sections([], b"\0")
    names = b"s" * (20 * count) + b"\0"
    sections = [Section(b"", one.kind, one.contents, one.link, one.info, one.entry_size, 0) for one in first]
    sections += [Section(b"", SHT_PROGBITS, b"", name_at=0)] * count
    return listed(image(sections, names))


KINDS = [
    Kind("one_version", "n symbols whose one version has a name of 8 n bytes", one_version, 3000),
    Kind("gone", "the same, and all are gone in the new library", gone, 2000),
    Kind("versions", "n symbols of one name of 20 n bytes with n versions", versions, 600),
    Kind("short_versions", "n symbols of one short name with n versions", short_versions, 6000),
    Kind("definitions", "n definitions of versions, all of one name of 40 n bytes", definitions, 3000),
    Kind("shared_needs", "n needs that share one list of n auxiliary entries, by abi app", shared_needs, 30000),
    Kind("shared_ends", "n symbols whose names are the ends of one text of n bytes", shared_ends, 5000),
    Kind("listed_ends", "the same, by abi exports", listed_ends, 5000),
    Kind("gone_ends", "n symbols whose names are the ends of texts of 2,500 bytes, and all are gone", gone_ends, 5000),
    Kind("added_ends", "the same the other way round, with notes", added_ends, 5000),
    Kind("needed_names", "an application that needs n times a file with a name of 16 n bytes, by abi app", needed_names, 5000),
    Kind("alike_needed_names", "the same, but the library's soname differs from it in the last byte, with notes", alike_needed_names, 5000),
    Kind("imports_of_a_file", "n imports from a file with a name of 16 n bytes, from which the soname differs in the last byte, by abi app",
         imports_of_a_file, 5000),
    Kind("imports_of_a_version", "n imports of a version of 16 n bytes, from which that of the library differs in the last byte, by abi app",
         imports_of_a_version, 5000),
    Kind("lacking_names", "n imports whose names are the ends of texts of 2,500 bytes, all lacking, by abi app", lacking_names, 5000),
    Kind("hidden_names", "n local symbols whose names are one text of 20 n bytes", hidden_names, 5000),
    Kind("section_names", "n sections whose names are one text of 20 n bytes", section_names, 2000),
]
