"""Whole libraries of debug information and exports."""

from .dwarf import SHARED, Abbreviation, Info, table
from .elf import SHT_PROGBITS, Section, Symbol, image, symbol_sections
from .encode import short_name

FIRST_ADDRESS = 0x1000


def addresses(count: int) -> list[int]:
    return [FIRST_ADDRESS + 16 * number for number in range(count)]


def symbols_at(values: list[int]) -> tuple[list[Symbol], bytes]:
    """A function symbol with a short name for each value, and the table of the names."""
    names = bytearray(b"\0")
    symbols = []
    for number, value in enumerate(values):
        symbols.append(Symbol(len(names), value))
        names += short_name(number).encode() + b"\0"
    return symbols, bytes(names)


def debug_sections(info: bytes, abbreviations: bytes, more: dict[str, bytes]) -> list[Section]:
    sections = [
        Section(b".debug_info", SHT_PROGBITS, info),
        Section(b".debug_abbrev", SHT_PROGBITS, abbreviations),
    ]
    return sections + [Section(name.encode(), SHT_PROGBITS, contents) for name, contents in more.items()]


def library(
    info: Info,
    values: list[int],
    further: list[Abbreviation] | None = None,
    more: dict[str, bytes] | None = None,
    abbreviations: bytes | None = None,
) -> bytes:
    """A library with this debug information and a function at each of the values. Its abbreviations are the shared ones and those in
    `further`, unless `abbreviations` gives the whole section."""
    symbols, names = symbols_at(values)
    tables = abbreviations if abbreviations is not None else table(SHARED + (further or []))
    return image(symbol_sections(symbols, names) + debug_sections(bytes(info.bytes), tables, more or {}))


def exporting(values: list[int]) -> bytes:
    """A library without debug information."""
    symbols, names = symbols_at(values)
    return image(symbol_sections(symbols, names))
