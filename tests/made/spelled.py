"""Libraries that rows spell in words.

Types are separated by semicolons; the first has the number 1, and 0 is void. A type is a word for its kind, `:` and its size in bytes (the
count of an array or a vector), `/` and its name, `^` and its alignment, `!` if it is only declared, and its parts:

    int:4  uint:4  float:8  complex:8       scalars; one of `none` has an encoding that does not exist
    ptr >2                                  a pointer to type 2
    struct:16/s n@0>3 v@64+5>1              members with their bit, the width of a bit field after a plus, and their type; also union
    enum:4 A=0 B=-1                         enumerators
    array:8 >1  vector:4 >1                 the type of the elements
    def/t >1  const >1                      a typedef, and a constant type
    fn >0 >2 ...                            the type of the result, those of the parameters, and whether more may follow; also sub, the
                                            type of a function that is no export
    var >1                                  a variable, for the export of an object

A function or a variable with the number n has the address 4096 + 16 * n. The exports of a library are words after its soname, which is
`-` if there is none: a name, a version, a kind, a size and the number of its function or variable, each after a colon. A minus after the
version says that it is not the default one. In a name, `~` stands for a space.
"""

from __future__ import annotations

import re
import struct

from .entries import (
    FORM_ADDR,
    FORM_DATA1,
    FORM_EXPRLOC,
    FORM_FLAG_PRESENT,
    FORM_SDATA,
    Entry,
    Unit,
    sleb,
)
from .images import Image, Symbol

TAGS = {
    "ptr": 0x0F, "struct": 0x13, "union": 0x17, "enum": 0x04, "array": 0x01, "vector": 0x01,
    "def": 0x16, "const": 0x26, "fn": 0x2E, "sub": 0x15, "var": 0x34,
}
# The encodings of scalars (DWARF 5, section 7.8).
ENCODINGS = {"none": 0x00, "bool": 0x02, "complex": 0x03, "float": 0x04, "int": 0x05, "uint": 0x07, "char": 0x06}
TAG_BASE, TAG_MEMBER, TAG_ENUMERATOR, TAG_SUBRANGE, TAG_PARAMETER, TAG_UNSPECIFIED = 0x24, 0x0D, 0x28, 0x21, 0x05, 0x18
AT_LOCATION, AT_BYTE_SIZE, AT_BIT_SIZE, AT_LOW_PC, AT_CONST_VALUE, AT_DECLARATION = 0x02, 0x0B, 0x0D, 0x11, 0x1C, 0x3C
AT_COUNT, AT_ENCODING, AT_DATA_BIT_OFFSET, AT_ALIGNMENT, AT_GNU_VECTOR = 0x37, 0x3E, 0x6B, 0x88, 0x2107
OP_ADDR = 0x03
# An address where no function and no variable is.
NO_FUNCTION = 8
HEAD = re.compile(r"(?P<kind>\w+)(:(?P<size>\d+))?(/(?P<name>[^^!]*))?(\^(?P<align>\d+))?(?P<declared>!)?")
MEMBER = re.compile(r"(?P<name>[^@]*)@(?P<bit>\d+)(\+(?P<width>\d+))?>(?P<type>\d+)")


def address(number: int) -> int:
    """The address of the function or the variable with a number."""
    return 4096 + 16 * number


def _member(word: str) -> Entry:
    found = MEMBER.fullmatch(word)
    assert found, word
    member = Entry(TAG_MEMBER)
    member.name(found["name"])
    member.type(int(found["type"]))
    member.number(AT_DATA_BIT_OFFSET, int(found["bit"]))
    if found["width"]:
        member.number(AT_BIT_SIZE, int(found["width"]))
    return member


def _enumerator(word: str) -> Entry:
    name, value = word.split("=")
    enumerator = Entry(TAG_ENUMERATOR)
    enumerator.name(name)
    enumerator.add(AT_CONST_VALUE, FORM_SDATA, sleb(int(value)))
    return enumerator


def _parameter(word: str) -> Entry:
    if word == "...":
        return Entry(TAG_UNSPECIFIED)
    parameter = Entry(TAG_PARAMETER)
    parameter.type(int(word[1:]))
    return parameter


def _elements(kind: str, count: int) -> Entry:
    elements = Entry(TAGS[kind])
    if kind == "vector":
        elements.add(AT_GNU_VECTOR, FORM_FLAG_PRESENT, b"")
    subrange = Entry(TAG_SUBRANGE)
    subrange.number(AT_COUNT, count)
    elements.children.append(subrange)
    return elements


def _entry(kind: str, size: int | None, number: int) -> Entry:
    if kind in ENCODINGS:
        scalar = Entry(TAG_BASE)
        scalar.add(AT_ENCODING, FORM_DATA1, bytes([ENCODINGS[kind]]))
        return scalar
    if kind in ("array", "vector"):
        return _elements(kind, size or 0)
    entry = Entry(TAGS[kind])
    if kind == "fn":
        entry.add(AT_LOW_PC, FORM_ADDR, struct.pack("<Q", address(number)))
    if kind == "var":
        operation = bytes([OP_ADDR]) + struct.pack("<Q", address(number))
        entry.add(AT_LOCATION, FORM_EXPRLOC, bytes([len(operation)]) + operation)
    return entry


def entry(text: str, number: int) -> Entry:
    """The entry of the type with a number."""
    head, *words = text.split()
    found = HEAD.fullmatch(head)
    assert found, text
    kind, size = found["kind"], int(found["size"]) if found["size"] else None
    made = _entry(kind, size, number)
    made.name((found["name"] or "").replace("~", " "))
    if found["declared"]:
        made.add(AT_DECLARATION, FORM_FLAG_PRESENT, b"")
    elif kind == "ptr":
        made.number(AT_BYTE_SIZE, 8)
    elif size is not None and kind not in ("array", "vector"):
        made.number(AT_BYTE_SIZE, size)
    if found["align"]:
        made.number(AT_ALIGNMENT, int(found["align"]))
    if kind in ("struct", "union"):
        made.children += [_member(word) for word in words]
    elif kind == "enum":
        made.children += [_enumerator(word) for word in words]
    elif words:
        made.type(int(words[0][1:]))
        made.children += [_parameter(word) for word in words[1:]]
    return made


def sections(types: str) -> dict[str, bytes]:
    """The debug information of these types."""
    return Unit().made([entry(text, number) for number, text in enumerate(types.split(";"), 1)])


def _symbol(word: str) -> Symbol:
    name, version, kind, size, number = word.split(":")
    value = address(int(number)) if int(number) else NO_FUNCTION
    return Symbol(name, kind, int(size), value, version.rstrip("-"), version.endswith("-"))


def library(types: str, exports: str) -> bytes:
    """The file of the library with these types and exports."""
    soname, *words = exports.split()
    return Image([_symbol(word) for word in words], "" if soname == "-" else soname, sections(types)).to_bytes()
