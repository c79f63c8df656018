"""Damaged libraries: cut files, cut units, changed bytes, and types that contain themselves. Each is the old library of a check against
an intact one."""

from collections.abc import Iterator

import units
from cases import UNREADABLE, YES, Case, certificate, check, lines, rows
from entries import shortened
from images import described, indexed_function, library, versioned_function

# The columns of a row: what is cut, and the smallest and the largest size to which it is cut; the answer of the check, where #
# stands for the size. `versioned` is the file of a versioned function, `indexed` that of one whose names and addresses are given
# by indexes, and `unit` the only unit of the first file, whose length field is then that of the cut unit.
CUTS = """\
versioned 0 63|2|unreadable old 1 ShortFile #;
versioned 64 863|2|unreadable old 8 SectionTable 40;
versioned 864 864|0|bind 1 1;pair 15 15 direct;pair 22 22 direct;end;
indexed 0 63|2|unreadable old 1 ShortFile #;
indexed 64 927|2|unreadable old 8 SectionTable 40;
indexed 928 928|0|bind 1 1;pair 25 15 direct;pair 29 22 direct;end;
unit 0 0|0|bind 1 1;end;
unit 1 11|2|unreadable old 20 UnitHeader 0;
unit 12 12|2|unreadable old 29 Tree 12;
unit 13 14|2|unreadable old 28 Cut 12;
unit 15 15|2|unreadable old 29 Tree 15;
unit 16 21|2|unreadable old 28 Cut 15;
unit 22 22|2|unreadable old 29 Tree 22;
unit 23 36|2|unreadable old 28 Cut 22;
unit 37 37|2|unreadable old 29 Tree 37;
unit 38 38|0|bind 1 1;pair 15 15 direct;pair 22 22 direct;end;
"""

# The columns of a row: whether a byte of the unit or of the abbreviations is changed, its position, its new value, and the answer
# of the check.
CHANGES = """\
unit 4 4|2|unreadable old 23 AddressSize 0;
unit 4 3|2|unreadable old 21 DwarfVersion 0;
unit 6 2|2|unreadable old 29 Tree 24;
unit 7 4|2|unreadable old 23 AddressSize 0;
unit 12 7|2|unreadable old 26 AbbrevCode 12;
unit 12 0|2|unreadable old 29 Tree 12;
unit 13 4|2|unreadable old 33 Language 12;
unit 17 11|2|unreadable old 35 Shape 15;
unit 25 16|2|unreadable old 34 Reference 22;
unit 25 12|2|unreadable old 35 Shape 22;
unit 25 22|2|unreadable old 35 Shape 22;
abbreviations 2 2|2|unreadable old 25 Abbrev 0;
abbreviations 2 0|2|unreadable old 29 Tree 15;
abbreviations 4 2|2|unreadable old 27 Form 12;
abbreviations 4 29|2|unreadable old 38 Supplementary 12;
abbreviations 18 2|2|unreadable old 25 Abbrev 18;
"""

# A structure that is a member of itself.
HOLDS_ITSELF = """\
function f
unit
15 structure s 8
26 member m @15 0
41 end
42 procedure f 4096
53 parameter @15
58 end
"""

# Two structures that contain each other, after a pointer and a typedef.
HOLD_ONE_ANOTHER = """\
function f
unit
15 base int 4 5
36 typedef t @70
43 structure s 8
54 member m @70 0
69 end
70 structure u 8
81 member m @43 0
96 end
97 pointer @36
102 procedure f 4096
113 parameter @97
118 end
"""

# A structure that contains an array of itself, after a pointer.
HOLDS_AN_ARRAY = """\
function f
unit
15 array @30
20 count 2
29 end
30 structure s 8
41 member m @15 0
56 end
57 pointer @30
62 procedure f 4096
73 parameter @57
78 end
"""

WHOLE = versioned_function([])


def checked(test: str, row: str, file: bytes, status: int, answer: str) -> Case:
    """The check of a library against an intact one must have the answer; that of a yes begins after the digests."""
    text = certificate(file, WHOLE, answer) if status == YES else lines(answer)
    return check(test, row, file, WHOLE, status, text)


def cut(part: str, size: int) -> bytes:
    """A library where one part is cut to so many bytes."""
    if part == "unit":
        return versioned_function([], entries=shortened(units.FUNCTION_UNIT, size))
    whole = WHOLE if part == "versioned" else indexed_function()
    return whole[:size]


def with_byte(data: bytes, place: int, value: int) -> bytes:
    """The bytes, with another value at a position."""
    return data[:place] + bytes([value]) + data[place + 1 :]


def damaged(part: str, place: int, value: int) -> bytes:
    """A library where one byte of a part has another value."""
    if part == "unit":
        return versioned_function([], entries=with_byte(units.FUNCTION_UNIT, place, value))
    return versioned_function([], abbreviations=with_byte(units.FUNCTION_ABBREVIATIONS, place, value))


def cases() -> Iterator[Case]:
    for row in rows(CUTS):
        words, status, answer = row.split("|")
        part, least, largest = words.split()
        for size in range(int(least), int(largest) + 1):
            file = cut(part, size)
            yield checked("cut_libraries_are_unreadable", row, file, int(status), answer.replace("#", str(size)))
    for row in rows(CHANGES):
        words, status, answer = row.split("|")
        part, place, value = words.split()
        file = damaged(part, int(place), int(value))
        yield checked("a_changed_byte_is_named", row, file, int(status), answer)
    for row, text, answer in [
        ("holds itself", HOLDS_ITSELF, "unreadable old 36 TooDeep 15"),
        ("hold one another", HOLD_ONE_ANOTHER, "unreadable old 36 TooDeep 36"),
        ("holds an array", HOLDS_AN_ARRAY, "unreadable old 36 TooDeep 15"),
    ]:
        yield checked("no_type_holds_itself", row, described(text), UNREADABLE, answer)
    # The file of a function, cut at each of its bytes.
    whole = library([b"f"])
    for size in range(len(whole)):
        fault = f"1 ShortFile {size}" if size < 64 else "8 SectionTable 40"
        yield check("each_cut_of_a_file_is_unreadable", str(size), whole[:size], whole, UNREADABLE, f"unreadable old {fault}\n")
