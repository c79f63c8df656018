"""Debug entries of small units, in the format of DWARF 5."""

import struct

# The abbreviations of a unit, of a base type and of a function.
FUNCTION_ABBREVIATIONS = (
    b"\x01\x11\x01\x13\x05\x00\x00"
    b"\x02\x24\x00\x0b\x0b\x3e\x0b\x03\x08\x00\x00"
    b"\x03\x2e\x00\x03\x08\x49\x13\x11\x01\x00\x00"
    b"\x00"
)

# A unit of version 5: a function `f`, at 22, that returns the `int` at 15.
FUNCTION_UNIT = (
    b"\x22\x00\x00\x00\x05\x00\x01\x08\x00\x00\x00\x00\x01\x0c\x00"
    b"\x02\x04\x05int\x00"
    b"\x03f\x00\x0f\x00\x00\x00\x00\x10\x00\x00\x00\x00\x00\x00"
    b"\x00"
)

# The same unit in version 4: the function at 21, and the `int` at 14.
FUNCTION_UNIT_4 = (
    b"\x21\x00\x00\x00\x04\x00\x00\x00\x00\x00\x08\x01\x0c\x00"
    b"\x02\x04\x05int\x00"
    b"\x03f\x00\x0e\x00\x00\x00\x00\x10\x00\x00\x00\x00\x00\x00"
    b"\x00"
)

# The same abbreviations and two more: of a type unit, and of a function whose type is a signature.
TYPE_ABBREVIATIONS = (
    FUNCTION_ABBREVIATIONS[:-1] + b"\x04\x41\x01\x00\x00" + b"\x05\x2e\x00\x03\x08\x49\x20\x11\x01\x00\x00" + b"\x00"
)

# A type unit of `int`, and a unit of a function that returns it.
TYPE_UNIT = (
    b"\x1d\x00\x00\x00\x05\x00\x02\x08\x00\x00\x00\x00\x11\x22\x33\x44\x55\x66\x77\x88\x19\x00\x00\x00"
    b"\x04\x02\x04\x05int\x00\x00"
    b"\x1f\x00\x00\x00\x05\x00\x01\x08\x00\x00\x00\x00\x01\x0c\x00"
    b"\x05f\x00\x11\x22\x33\x44\x55\x66\x77\x88\x00\x10\x00\x00\x00\x00\x00\x00"
    b"\x00"
)

# The abbreviations of the function and one more: that of a typedef.
TYPEDEF_ABBREVIATIONS = FUNCTION_ABBREVIATIONS[:-1] + b"\x04\x16\x00\x03\x08\x49\x13\x00\x00" + b"\x00"

# Abbreviations and a unit as clang writes them, with names and addresses given by indexes.
INDEXED_ABBREVIATIONS = (
    b"\x01\x11\x01\x13\x05\x03\x25\x72\x17\x11\x1b\x73\x17\x00\x00"
    b"\x02\x24\x00\x03\x25\x3e\x0b\x0b\x0b\x00\x00"
    b"\x03\x2e\x00\x11\x1b\x03\x25\x49\x13\x00\x00\x00"
)
INDEXED_UNIT = (
    b"\x21\x00\x00\x00\x05\x00\x01\x08\x00\x00\x00\x00"
    b"\x01\x0c\x00\x00\x08\x00\x00\x00\x00\x08\x00\x00\x00"
    b"\x02\x02\x05\x04"
    b"\x03\x00\x01\x19\x00\x00\x00"
    b"\x00"
)
# The tables to which the indexes refer.
INDEX_TABLES = [
    (".debug_str", b"a.c\x00f\x00int\x00"),
    (".debug_str_offsets", b"\x10\x00\x00\x00\x05\x00\x00\x00\x00\x00\x00\x00\x04\x00\x00\x00\x06\x00\x00\x00"),
    (".debug_addr", b"\x0c\x00\x00\x00\x05\x00\x08\x00\x00\x10\x00\x00\x00\x00\x00\x00"),
]

# The abbreviations of the entries that `entry` makes, by code: the code, the tag, whether it has children, and pairs of an attribute
# and its form. Numbers take eight bytes, names are in the entry, and types are offsets from the start of `.debug_info`.
ENTRY_ABBREVIATIONS = (
    b"\x01\x11\x01\x13\x05\x00\x00"
    b"\x02\x24\x00\x03\x08\x0b\x07\x3e\x07\x00\x00"
    b"\x03\x0f\x00\x49\x10\x00\x00"
    b"\x04\x13\x01\x03\x08\x0b\x07\x00\x00"
    b"\x05\x17\x01\x03\x08\x0b\x07\x00\x00"
    b"\x06\x0d\x00\x03\x08\x49\x10\x38\x07\x00\x00"
    b"\x07\x0d\x00\x49\x10\x38\x07\x00\x00"
    b"\x08\x13\x00\x03\x08\x3c\x19\x00\x00"
    b"\x09\x01\x01\x49\x10\x00\x00"
    b"\x0a\x21\x00\x37\x07\x00\x00"
    b"\x0b\x16\x00\x03\x08\x49\x10\x00\x00"
    b"\x0c\x16\x00\x03\x08\x49\x10\x88\x01\x07\x00\x00"
    b"\x0d\x2e\x01\x03\x08\x11\x01\x49\x10\x00\x00"
    b"\x0e\x2e\x01\x03\x08\x11\x01\x00\x00"
    b"\x0f\x05\x00\x49\x10\x00\x00"
    b"\x10\x2e\x00\x31\x10\x00\x00"
    b"\x11\x2e\x00\x11\x01\x31\x10\x00\x00"
    b"\x00"
)

# The kinds of entries, by abbreviation code from 2 on; `end` ends the children of an entry.
KINDS = (
    "base pointer structure union member nameless declared array count typedef aligned function procedure parameter link instance"
).split()


def value(word: str) -> bytes:
    """An offset after `@`, a number, or a name."""
    if word.startswith("@"):
        return struct.pack("<I", int(word[1:]))
    if word.isdigit():
        return struct.pack("<Q", int(word))
    return word.encode() + b"\0"


def entry(line: str) -> bytes:
    """The entry that a line describes. The line has the entry's offset in `.debug_info`, which is only there for the reader, its kind,
    and its values:

    base NAME SIZE ENCODING, pointer @TYPE, declared NAME (a structure that is only declared)
    structure NAME SIZE and union NAME SIZE; their children are member NAME @TYPE OFFSET, and nameless @TYPE OFFSET
    array @TYPE, with the child count COUNT
    typedef NAME @TYPE, and aligned NAME @TYPE ALIGNMENT with an explicit alignment
    function NAME ADDRESS @TYPE, and procedure NAME ADDRESS, which returns nothing; their children are parameter @TYPE
    link @ORIGIN and instance ADDRESS @ORIGIN: a function that only refers to its abstract origin
    end, which ends the children of a structure, a union, an array, a function or a procedure
    """
    _, kind, *values = line.split()
    code = 0 if kind == "end" else 2 + KINDS.index(kind)
    return bytes([code]) + b"".join(map(value, values))


def unit(entries: bytes) -> bytes:
    """A unit of version 5 of a C program, with these entries below its root. The first one is 15 bytes after the unit's start."""
    # The length counts the rest of the header, the root (its code, and the language C 99), and the end of the root's children.
    header = struct.pack("<IHBBI", len(entries) + 12, 5, 1, 8, 0)
    return header + b"\x01\x0c\x00" + entries + b"\x00"
