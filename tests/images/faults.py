"""The first fault of a library, by its number and its position."""

from collections.abc import Iterator

from cases import Case, breaks, names_fault, refuses, rows
from images import Image, Symbol, changed, library

# The columns of a line: a change of `GOOD` | its fault.
HEADERS = """\
0=7e|2 NotElf 0
3=47|2 NotElf 0
4=01|3 Class 4
5=02|4 Data 5
6=00|5 Version 6
20=02|5 Version 20
23=01|5 Version 20
16=02|6 NotShared 16
17=01|6 NotShared 16
18=03|7 Machine 18
19=01|7 Machine 18
# No table, entries of another size, no section by the number in section 0.
40=00|8 SectionTable 40
58=3f|8 SectionTable 40
60=00|8 SectionTable 40
# A table that ends or begins behind the file.
60=07|8 SectionTable 40
40=f1|8 SectionTable 40
40=ff,ff,ff,ff,ff,ff,ff,ff|8 SectionTable 40
60=00 272=00,00,00,00,00,00,00,04|8 SectionTable 40
# The names' section is the sixth, the seventh, no string table, or section 0.
62=06|8 SectionTable 40
62=07|8 SectionTable 40
62=01|8 SectionTable 40
62=ff,ff|8 SectionTable 40
# The first of several comes.
0=00 4=01|2 NotElf 0
5=02 6=00 16=02|4 Data 5
6=00 20=02|5 Version 6
18=03 40=00|7 Machine 18
"""

# The same for sections.
SECTIONS = """\
# A section that ends or begins behind the file, and the names'.
400=ff,ff|9 SectionRange 2
456=71,02|9 SectionRange 3
456=ff,ff,ff,ff,ff,ff,ff,ff|9 SectionRange 3
593=02|9 SectionRange 5
# A name that begins behind the names, and one that does not end in them.
304=31|10 SectionName 1
240=31|10 SectionName 0
232=78|10 SectionName 5
# The first of several comes, and every range before every name.
18=03 400=ff,ff|7 Machine 18
593=02 304=31|9 SectionRange 5
304=31 368=31|10 SectionName 1
368=31 308=01|10 SectionName 2
"""

# The same for symbols and for the soname.
SYMBOLS = """\
# The type of the symbols.
308=01|12 NoDynamicSymbols 0
# Their entry size, their size, and links to what is no string table.
360=17|13 SymbolTable 0
336=47|13 SymbolTable 0
344=01|13 SymbolTable 0
344=06|13 SymbolTable 0
344=00|13 SymbolTable 0
# The names of the symbols, whose strings have 5 bytes.
64=05|13 SymbolTable 0
88=05|13 SymbolTable 1
112=05|13 SymbolTable 2
140=78|13 SymbolTable 2
# The dynamic table's entry size, its size, and links to what is no string table.
488=0f|14 DynamicTable 0
464=1f|14 DynamicTable 0
472=03|14 DynamicTable 0
472=06|14 DynamicTable 0
# The soname's place, in strings of 6 bytes; then the soname as the second entry.
152=06|14 DynamicTable 0
144=01 160=0e 168=06|14 DynamicTable 1
# Strings that hold nothing, since they take no room in a file, wherever they are said to lie.
500=08 528=ff,ff|14 DynamicTable 0
# The first of several comes.
308=01 488=0f|12 NoDynamicSymbols 0
112=05 152=06|13 SymbolTable 2
112=05 88=05|13 SymbolTable 1
"""

# The columns of a line: a change of the same library, whose second export is made local | the answer about it as the new library.
UNUSUAL = """\
# The number of sections and the names' number stand in section 0.
60=00,00,ff,ff 272=06 280=05|X2 g: gone
# A tag of 0 ends the table before the soname, whose place is wrong.
144=00 160=0e 168=06|X1 -: SONAME a.so, now none;X2 g: gone
# The first of two sonames counts, here a later part of the name.
152=02 160=0e 168=06|X1 -: SONAME a.so, now .so;X2 g: gone
# Without a dynamic table there is no soname.
436=01|X1 -: SONAME a.so, now none;X2 g: gone
"""

# The columns of a line: a section, by its name, and its type and flags in hexadecimal | the fault of a library with it.
BAD_SECTIONS = """\
.debug_info 1 800|11 Compressed 7
.debug_info 1 fff|11 Compressed 7
.debug_ 1 800|11 Compressed 7
.zdebug_info 1 0|11 Compressed 7
.debug_info 1 0|20 UnitHeader 0
.debug_info 1 7ff|20 UnitHeader 0
# Its four bytes are two indexes, and there is one symbol.
v 6fffffff 0|15 VersionTable 0
# It has no string table.
v 6ffffffd 0|16 VersionDefinition 0
"""

# Names that are not in the list above, a flag that matters only for names of debug sections, and the version needs of a library.
# The section of type 8 has no contents in the file.
OTHER_SECTIONS = """\
.debug 1 800
debug_info 1 800
.zdebug 1 0
.text 1 800
.debug_ 1 1000
.debug_abbrev 1 0
.debug_info 8 1000
.debug_info2 1 0
.gnu.version 1 0
.gnu.version_r 6ffffffe 0
"""

# A library of 624 bytes that exports `f` and `g` and has a soname.
#
# Its sections, each with its offset, its size and the offset of its header: 0 with its header at 240; 1 `.dynsym` at 64, 72 and
# 304; 2 `.dynstr` at 136, 5 and 368; 3 `.dynamic` at 144, 32 and 432; 4 `.dynamic.str` at 176, 6 and 496; 5 `.shstrtab` at 184,
# 49 and 560.
GOOD = library([b"f", b"g"], b"a.so")


def of_section(row: str) -> bytes:
    """A library without exports: the symbols, their names, four empty sections, and at the end a section of four bytes."""
    name, kind, flags = row.split()
    image = Image()
    image.add_symbols([])
    for _ in range(4):
        image.add(".comment", b"")
    image.add(name, b"data", int(kind, 16), int(flags, 16))
    return image.file()


def of_symbols(words: str) -> bytes:
    """A library with a symbol for each word: `f` or `g` for a function of that name, `u` for an undefined `f`, `l` for a local `f`."""
    symbols = {
        "f": Symbol(b"f"),
        "g": Symbol(b"g"),
        "u": Symbol(b"f", section=0),
        "l": Symbol(b"f", info=0x02),
    }
    image = Image()
    image.add_symbols([symbols[word] for word in words.split()])
    return image.file()


def damage_cases() -> Iterator[Case]:
    for test, table in [
        ("a_header_is_refused", HEADERS),
        ("a_section_is_refused", SECTIONS),
        ("symbols_and_a_soname_are_refused", SYMBOLS),
    ]:
        for row in rows(table):
            changes, fault = row.split("|")
            yield from refuses(test, row, changed(GOOD, changes), GOOD, fault)


def section_cases() -> Iterator[Case]:
    test = "debug_and_version_sections_are_refused"
    for row in rows(BAD_SECTIONS):
        section, fault = row.split("|")
        bad = of_section(section)
        yield from refuses(test, row, bad, GOOD, fault)
        yield names_fault(test, row, bad, bad, f"old {fault}")
    lines = "X1 -: SONAME a.so, now none;X2 f: gone;X2 g: gone"
    for row in rows(OTHER_SECTIONS):
        yield breaks("other_sections_are_passed_over", row, GOOD, of_section(row), lines)


def twin_cases() -> Iterator[Case]:
    """Two exports of one name are refused; an export beside an undefined or a local symbol of its name is not."""
    none = library([])
    test = "twins_are_refused"
    yield from refuses(test, "f g f", of_symbols("f g f"), none, "18 DuplicateExport 3")
    yield breaks(test, "u f l", of_symbols("u f l"), none, "X2 f: gone")
    test = "neighbours_of_one_name_are_refused"
    yield from refuses(test, "f f", of_symbols("f f"), none, "18 DuplicateExport 2")
    # A fault of the old library is reported before one of the new library that comes earlier in the order of faults.
    yield names_fault("the_old_library_comes_first", "f g f", of_symbols("f g f"), b"", "old 18 DuplicateExport 3")


def cases() -> Iterator[Case]:
    assert len(GOOD) == 624
    yield from damage_cases()
    for row in rows(UNUSUAL):
        changes, lines = row.split("|")
        new = changed(changed(GOOD, "116=02"), changes)
        yield breaks("unusual_libraries_are_readable", row, GOOD, new, lines)
    yield from section_cases()
    yield from twin_cases()
