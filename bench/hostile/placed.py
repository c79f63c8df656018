"""Generated types whose source files and typedefs `abi-json` looks up: measure these kinds with `abi-json` as the program."""

from .cases import Case, Kind, against
from .dwarf import (
    AT_BYTE_SIZE,
    AT_LANGUAGE,
    AT_NAME,
    AT_TYPE,
    C99,
    COMPILE_UNIT,
    DATA1,
    DATA4,
    FREE,
    REF4,
    SEC_OFFSET,
    STRP,
    STRUCTURE,
    TYPEDEF,
    Abbreviation,
    Info,
)
from .encode import short_name, u8, u16, u32, uleb
from .library import addresses, library

AT_STMT_LIST, AT_DECL_FILE, AT_DECL_LINE = 0x10, 0x3A, 0x3B
ROOT, PLACED, LONG_NAMED = FREE, FREE + 1, FREE + 2
FURTHER = [
    Abbreviation(ROOT, COMPILE_UNIT, True, ((AT_LANGUAGE, DATA1), (AT_STMT_LIST, SEC_OFFSET))),
    Abbreviation(PLACED, STRUCTURE, True, ((AT_BYTE_SIZE, DATA4), (AT_DECL_FILE, DATA4), (AT_DECL_LINE, DATA1))),
    Abbreviation(LONG_NAMED, TYPEDEF, False, ((AT_NAME, STRP), (AT_TYPE, REF4))),
]


def line_program(name: bytes, count: int) -> bytes:
    """The header of a line program of DWARF 4 without directories, whose files all have this name."""
    tables = b"\0" + (name + b"\0\0\0\0") * count + b"\0"
    # an instruction has one byte and one operation; no line is a statement; the line base is 0, the line range 1, and the opcode base 1
    fields = u8(1) + u8(1) + u8(0) + u8(0) + u8(1) + u8(1)
    header = u32(len(fields) + len(tables)) + fields + tables
    return u32(2 + len(header)) + u16(4) + header


def structures(count: int, file: int, line: bytes, member_at: int, name: bytes = b"") -> bytes:
    """A library of functions that each take a pointer to a structure of their own, which is declared in this file. With a name, each
    structure has a typedef of this name, to which no function leads."""
    info = Info()
    info.begin(root=uleb(ROOT) + u8(C99) + u32(0))
    number = info.number()
    pointers = []
    for k in range(count):
        structure = info.add(PLACED, u32(8), u32(file), u8(1))
        info.field("x" + short_name(k), number, member_at)
        info.close()
        pointers.append(info.pointer(structure))
        if name:
            info.add(LONG_NAMED, u32(0), u32(structure))
    for address, pointer in zip(addresses(count), pointers):
        info.function(address, pointer)
    info.close()
    info.end()
    return library(info, addresses(count), FURTHER, {".debug_line": line, ".debug_str": name + b"\0"})


def changed(count: int, file: int, line: bytes, name: bytes = b"") -> Case:
    """The member of each structure moves."""
    return against(structures(count, file, line, 0, name), structures(count, file, line, 4, name))


def last_file(count: int) -> Case:
    """Each structure is declared in the last of equally many files."""
    return changed(count, count, line_program(b"a", count))


def long_file_name(count: int) -> Case:
    """All structures are declared in one file, which has a long name."""
    return changed(count, 1, line_program(b"a" * (40 * count), 1))


def long_typedef_name(count: int) -> Case:
    """All structures have typedefs of one long name."""
    return changed(count, 1, line_program(b"a", 1), b"t" * (40 * count))


KINDS = [
    Kind("last_file", "abi-json: n changed structures in the last of n files of a line program", last_file, 4000),
    Kind("long_file_name", "abi-json: n changed structures in a file whose name has 40 n bytes", long_file_name, 1000),
    Kind("long_typedef_name", "abi-json: n changed structures with typedefs of a name of 40 n bytes", long_typedef_name, 1000),
]
