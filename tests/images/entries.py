"""Debugging information entries: what `entries` prints, and the faults that it reports."""

from collections.abc import Iterator

import units
from cases import UNREADABLE, YES, Case, lines, rows
from images import Image, Symbol, changed

# The abbreviations and the units that a word names.
ABBREVIATIONS = {"5": units.FUNCTION_ABBREVIATIONS, "4": units.FUNCTION_ABBREVIATIONS, "type": units.TYPE_ABBREVIATIONS}
UNITS = {"5": units.FUNCTION_UNIT, "4": units.FUNCTION_UNIT_4, "type": units.TYPE_UNIT}

# The columns of a line: a unit of version 5 or 4, or a type unit beside one | the entries, separated by semicolons.
LISTS = """\
5|12 0 11;15 1 24;22 1 2e
4|11 0 11;14 1 24;21 1 2e
type|24 0 41;25 1 24;45 0 11;48 1 2e
"""

# The columns of a line: a unit | the first and the last of the sizes to which it is cut | the fault.
CUTS = """\
5|1 11|20 UnitHeader 0
5|12 12|29 Tree 12
5|13 14|28 Cut 12
5|15 15|29 Tree 15
5|16 21|28 Cut 15
5|22 22|29 Tree 22
5|23 36|28 Cut 22
5|37 37|29 Tree 37
4|1 10|20 UnitHeader 0
4|11 11|29 Tree 11
4|12 13|28 Cut 11
4|14 14|29 Tree 14
4|36 36|29 Tree 36
type|1 23|20 UnitHeader 0
type|24 24|29 Tree 24
"""

# The columns of a line: a unit | a change of its abbreviations | a change of its entries | the fault.
DAMAGED = """\
5||0=ff,ff,ff,ff|24 Dwarf64 0
5||0=f0,ff,ff,ff|20 UnitHeader 0
5||4=04|23 AddressSize 0
5||4=03|21 DwarfVersion 0
5||6=02|29 Tree 24
5||6=04|22 UnitType 0
5||7=04|23 AddressSize 0
5||12=07|26 AbbrevCode 12
5||12=00|29 Tree 12
5||13=04|33 Language 12
5|2=02||25 Abbrev 0
5|2=00||29 Tree 15
5|4=02||27 Form 12
5|4=1d||38 Supplementary 12
5|18=02||25 Abbrev 18
type||20=1a|43 TypeOffset 0
5||8=ff|25 Abbrev 255
"""


def shortened(unit: bytes, size: int) -> bytes:
    """The unit, cut to a size, with the length field that fits."""
    return (bytes([max(size - 4, 0)]) + unit[1:])[:size]


def entries(test: str, row: str, file: bytes, status: int, text: str) -> Case:
    return Case(test, row, ["entries", "lib"], {"lib": file}, status, text)


def of_unit(abbreviations: bytes, unit: bytes) -> bytes:
    """A library with these abbreviations and entries, without dynamic symbols."""
    image = Image()
    image.add_debug(abbreviations, unit)
    return image.file()


def is_refused(test: str, row: str, abbreviations: bytes, unit: bytes, fault: str) -> Case:
    return entries(test, row, of_unit(abbreviations, unit), UNREADABLE, f"unreadable library {fault}\n")


def empty_cases() -> Iterator[Case]:
    """Symbols, versions and the dynamic table are not checked, and may be missing."""
    test = "a_library_may_have_no_entries"
    image = Image()
    yield entries(test, "no section", image.file(), YES, "")
    image.add_symbols([Symbol(b"f"), Symbol(b"f")])
    yield entries(test, "two exports of one name", image.file(), YES, "")
    yield entries(test, "no unit", of_unit(units.FUNCTION_ABBREVIATIONS, b""), YES, "")


def cases() -> Iterator[Case]:
    for row in rows(LISTS):
        word, cell = row.split("|")
        yield entries("entries_are_printed", row, of_unit(ABBREVIATIONS[word], UNITS[word]), YES, lines(cell))
    yield from empty_cases()
    for row in rows(CUTS):
        word, sizes, fault = row.split("|")
        first, last = map(int, sizes.split())
        for size in range(first, last + 1):
            unit = shortened(UNITS[word], size)
            yield is_refused("units_that_are_cut_are_refused", row, units.TYPE_ABBREVIATIONS, unit, fault)
    for row in rows(DAMAGED):
        word, of_abbreviations, of_entries, fault = row.split("|")
        abbreviations = changed(units.TYPE_ABBREVIATIONS, of_abbreviations)
        unit = changed(UNITS[word], of_entries)
        yield is_refused("damaged_entries_are_refused", row, abbreviations, unit, fault)
    yield entries("a_short_file_is_refused", "63 zeros", bytes(63), UNREADABLE, "unreadable library 1 ShortFile 63\n")
