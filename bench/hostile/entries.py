"""Generated debug information whose units, abbreviations, entries and range lists take much time or memory."""

from collections.abc import Sequence

from .cases import Case, Kind, against_itself, listed
from .dwarf import (
    AT_ABSTRACT_ORIGIN,
    AT_CONST_VALUE,
    AT_DECLARATION,
    AT_EXTERNAL,
    AT_LANGUAGE,
    AT_LOW_PC,
    AT_NAME,
    AT_RANGES,
    AT_TYPE,
    ADDR,
    COMPILE_UNIT,
    DATA1,
    ENUMERATION,
    ENUMERATOR,
    CONST_TYPE,
    FLAG,
    FLAG_PRESENT,
    FREE,
    FUNCTION,
    IMPLICIT,
    LEXICAL_BLOCK,
    MEMBER,
    PARAMETER,
    POINTER,
    REF1,
    REF4,
    SEC_OFFSET,
    SHARED,
    STRING,
    STRUCT,
    STRUCTURE,
    SUBROUTINE,
    DATA4,
    UNIT,
    AT_BYTE_SIZE,
    UDATA,
    Abbreviation,
    Info,
    table,
)
from .encode import u8, u16, u32, u64, uleb
from .library import addresses, library

ROOT = Abbreviation(UNIT, COMPILE_UNIT, True, ((AT_LANGUAGE, DATA1),))


# Numbers of attributes that the program does not use. Each differs by 64 from one that it uses: name, location, low_pc, ranges, entry_pc,
# abstract_origin, specification, type and declaration.
BESIDE = (0x43, 0x42, 0x51, 0x15, 0x12, 0x71, 0x07, 0x09, 0x7C)


def beside(count: int) -> tuple[tuple[int, ...], ...]:
    return tuple((BESIDE[number % len(BESIDE)], FLAG_PRESENT) for number in range(count))


def of_one_form(count: int, form: Abbreviation, entry: bytes) -> Case:
    """`count` entries of one abbreviation, each with the bytes `entry`."""
    info = Info()
    info.begin()
    info.bytes += entry * count
    info.close()
    info.end()
    return listed(library(info, [], abbreviations=table([ROOT, form])))


def flags(count: int) -> Case:
    """Functions of one abbreviation that has equally many attributes without bytes."""
    return of_one_form(count, Abbreviation(2, FUNCTION, False, beside(count)), b"\2")


def flags_and_value(count: int) -> Case:
    """Members of one abbreviation that has equally many attributes; only the last one takes bytes."""
    pairs = ((AT_DECLARATION, FLAG_PRESENT),) * count + ((AT_CONST_VALUE, UDATA),)
    return of_one_form(count, Abbreviation(2, MEMBER, False, pairs), b"\2\0")


def flags_of_roots(count: int) -> Case:
    """Units whose roots share an abbreviation with equally many attributes without bytes."""
    pairs = ((AT_LANGUAGE, DATA1),) + ((0x53, FLAG_PRESENT),) * count
    info = Info()
    for _ in range(count):
        info.begin(root=bytes((UNIT, 0x0C)))
        info.end()
    abbreviations = table([Abbreviation(UNIT, COMPILE_UNIT, False, pairs)])
    return listed(library(info, [], abbreviations=abbreviations))


def two_tables(count: int) -> Case:
    """Units that alternate between two tables of equally many abbreviations."""
    root = Abbreviation(UNIT, COMPILE_UNIT, False, ((AT_LANGUAGE, DATA1),))
    further = [Abbreviation(code, MEMBER, False) for code in range(2, count + 1)]
    one = table([root, *further])
    info = Info()
    for number in range(count):
        info.begin(abbreviations_at=number % 2 * len(one))
        info.end()
    return listed(library(info, [], abbreviations=one + one))


def one_chain(count: int) -> Case:
    """Units that share one chain of abbreviations, each from another one on. All roots have the code of the last one."""
    last = Abbreviation(count, COMPILE_UNIT, False, ((AT_LANGUAGE, DATA1),))
    spelled = [Abbreviation(code, MEMBER, False).spelled() for code in range(1, count)]
    info = Info()
    at = 0
    for one in [b"", *spelled]:
        at += len(one)
        info.begin(abbreviations_at=at, root=uleb(count) + u8(0x0C))
        info.end()
    return listed(library(info, [], abbreviations=b"".join(spelled) + last.spelled() + b"\0"))


def ranges(count: int) -> Case:
    """Functions that share one range list, which begins with equally many base addresses."""
    info = Info()
    info.begin()
    for _ in range(count):
        info.add(FREE, u32(0))
    info.close()
    info.end()
    lists = (u8(5) + u64(0x1000)) * count + u8(7) + u64(0x1000) + uleb(1) + u8(0)
    further = [Abbreviation(FREE, FUNCTION, False, ((AT_RANGES, SEC_OFFSET),))]
    return listed(library(info, [0x1000], further, {".debug_rnglists": lists}))


def ends_of_ranges(count: int) -> Case:
    """Functions whose range lists are the ends of one list, so that each has another number of base addresses."""
    info = Info()
    info.begin()
    for number in range(count):
        info.add(FREE, u32(9 * number))
    info.close()
    info.end()
    lists = (u8(5) + u64(0x1000)) * count + u8(7) + u64(0x1000) + uleb(1) + u8(0)
    further = [Abbreviation(FREE, FUNCTION, False, ((AT_RANGES, SEC_OFFSET),))]
    return listed(library(info, [0x1000], further, {".debug_rnglists": lists}))


def pairs_of_ranges(count: int) -> Case:
    """The same in version 4, where pairs select a base address."""
    info = Info()
    root = u8(UNIT) + u8(0x0C)
    info.bytes += u32(0) + u16(4) + u32(0) + u8(8) + root
    for _ in range(count):
        info.add(FREE, u32(0))
    info.close()
    info.end()
    lists = (b"\xff" * 8 + u64(0x1000)) * count + u64(1) + u64(2) + bytes(16)
    further = [Abbreviation(FREE, FUNCTION, False, ((AT_RANGES, SEC_OFFSET),))]
    return listed(library(info, [0x1000], further, {".debug_ranges": lists}))


def of_one_origin(count: int, child: int) -> Case:
    """Functions that all take their parameters from one origin, which has equally many children with the tag `child`."""
    info = Info()
    info.begin()
    origin = info.add(FREE)
    for _ in range(count):
        info.add(FREE + 1)
    info.close()
    values = addresses(count)
    for value in values:
        info.add(FREE + 2, u64(value), u32(origin))
    info.close()
    info.end()
    further = [
        Abbreviation(FREE, FUNCTION, True, ((AT_DECLARATION, FLAG_PRESENT),)),
        Abbreviation(FREE + 1, child, False),
        Abbreviation(FREE + 2, FUNCTION, False, ((AT_LOW_PC, ADDR), (AT_ABSTRACT_ORIGIN, REF4))),
    ]
    return listed(library(info, values, further))


def one_origin(count: int) -> Case:
    return of_one_origin(count, PARAMETER)


def beside_parameters(count: int) -> Case:
    """The same with children that are no parameters, so that no limit counts them."""
    return of_one_origin(count, MEMBER)


def one_address(count: int) -> Case:
    """Exports at the address of one function with equally many parameters."""
    info = Info()
    info.begin()
    info.add(FREE + 1, u64(0x1000))
    info.bytes += u8(FREE) * count
    info.close()
    info.close()
    info.end()
    further = [
        Abbreviation(FREE, PARAMETER, False),
        Abbreviation(FREE + 1, FUNCTION, True, ((AT_LOW_PC, ADDR),)),
    ]
    return listed(library(info, [0x1000] * count, further))


def parameters(count: int) -> Case:
    """One function with parameters of one byte."""
    info = Info()
    info.begin()
    info.add(FREE + 1, u64(0x1000))
    info.bytes += u8(FREE) * count
    info.close()
    info.close()
    info.end()
    further = [
        Abbreviation(FREE, PARAMETER, False),
        Abbreviation(FREE + 1, FUNCTION, True, ((AT_LOW_PC, ADDR),)),
    ]
    return against_itself(library(info, [0x1000], further))


def enumerators(count: int) -> Case:
    """An enumeration with enumerators of one byte, all without a name and with the same value."""
    info = Info()
    info.begin()
    counted = info.add(FREE, u32(4))
    info.bytes += u8(FREE + 1) * count
    info.close()
    info.function(0x1000, counted)
    info.close()
    info.end()
    further = [
        Abbreviation(FREE, ENUMERATION, True, ((AT_BYTE_SIZE, 0x06),)),
        Abbreviation(FREE + 1, ENUMERATOR, False, ((AT_CONST_VALUE, IMPLICIT, 7),)),
    ]
    return against_itself(library(info, [0x1000], further))


def pointers(count: int) -> Case:
    """Pointers of two bytes in units that are small enough for references of one byte."""
    info = Info()
    values = addresses((count + 99) // 100)
    for value in values:
        info.begin()
        first = info.here()
        for number in range(min(100, count)):
            info.add(FREE, u8(first + 2 * number - 2 if number else first + 198))
        info.function(value, first + 198)
        info.close()
        info.end()
    further = [Abbreviation(FREE, POINTER, False, ((AT_TYPE, REF1),))]
    return against_itself(library(info, values, further))


def leaves(count: int) -> Case:
    """Entries of one byte without attributes."""
    info = Info()
    info.begin()
    info.bytes += u8(FREE) * count
    info.close()
    info.end()
    case = listed(library(info, [], [Abbreviation(FREE, MEMBER, False)]))
    return Case(case.files, ["entries", "old"])


def nested(count: int) -> Case:
    """Nested entries: each is a child of the previous one."""
    info = Info()
    info.begin()
    info.bytes += u8(FREE) * count + bytes(count)
    info.close()
    info.end()
    return listed(library(info, [], [Abbreviation(FREE, MEMBER, True)]))


def abbreviations(count: int) -> Case:
    """One unit with a table of abbreviations without attributes, whose codes are far apart."""
    info = Info()
    info.begin()
    info.close()
    info.end()
    far = [Abbreviation(2 * number + 100, MEMBER, False) for number in range(count)]
    return listed(library(info, [], abbreviations=table([*SHARED, *far])))


def asked_names(count: int) -> Case:
    """Pointers whose type comes after attributes without bytes: each look-up passes all of them."""
    pairs = ((AT_EXTERNAL, FLAG_PRESENT),) * count + ((AT_TYPE, REF4),)
    info = Info()
    info.begin()
    whole = info.number()
    for _ in range(count):
        last = info.add(FREE, u32(whole))
    info.function(0x1000, last)
    info.close()
    info.end()
    return listed(library(info, [0x1000], [Abbreviation(FREE, POINTER, False, pairs)]))


def long_number(number: int) -> bytes:
    """A number below 128 as an unsigned LEB128 of ten bytes, which is the most."""
    return u8(number | 0x80) + b"\x80" * 8 + b"\0"


def long_numbers(count: int) -> Case:
    """Pointers whose type comes after an empty name and as many attributes without bytes as a unit may have. These have long numbers,
    so each look-up of the type reads them."""
    info = Info()
    info.begin()
    whole = info.number()
    info.function(0x1000, *[info.add(FREE, b"\0", u32(whole)) for _ in range(count)])
    info.close()
    info.end()
    beside = uleb(AT_NAME) + uleb(STRING) + (long_number(AT_EXTERNAL) + long_number(FLAG_PRESENT)) * 310
    own = uleb(FREE) + uleb(POINTER) + u8(0) + beside + uleb(AT_TYPE) + uleb(REF4) + b"\0\0"
    return listed(library(info, [0x1000], abbreviations=table(SHARED)[:-1] + own + b"\0"))


# An attribute that the program does not use: the producer of a unit.
AT_PRODUCER = 0x25


def typedefs_of(count: int, attributes: Sequence[tuple[int, int]], *values: bytes) -> Case:
    """Typedefs of a structure with these attributes."""
    info = Info()
    info.begin()
    whole = info.add(FREE, *values)
    info.close()
    info.function(0x1000, *[info.typedef("", whole) for _ in range(count)])
    info.close()
    info.end()
    return listed(library(info, [0x1000], [Abbreviation(FREE, STRUCTURE, True, tuple(attributes))]))


def core_behind_text(count: int) -> Case:
    """Typedefs of a structure that has its size and whether it is a declaration behind a long text."""
    attributes = ((AT_PRODUCER, STRING), (AT_BYTE_SIZE, DATA4), (AT_DECLARATION, FLAG))
    return typedefs_of(count, attributes, b"t" * (20 * count) + b"\0", u32(8), u8(0))


def core_declared_by_text(count: int) -> Case:
    """Typedefs of a structure whose attribute `DW_AT_declaration` has a long text as its value."""
    return typedefs_of(count, ((AT_BYTE_SIZE, DATA4), (AT_DECLARATION, STRING)), u32(8), b"t" * (20 * count) + b"\0")


def members_of_origin(count: int, text_of: int, name: bytes) -> Case:
    """Members that take their type, and what they lack, from one other member, which has a long text for an attribute."""
    info = Info()
    info.begin()
    number = info.number()
    origin = info.add(FREE, b"t" * (20 * count) + b"\0", u32(number))
    whole = info.add(STRUCT, u32(8))
    for _ in range(count):
        info.add(FREE + 1, name, u32(origin))
    info.close()
    info.function(0x1000, info.pointer(whole))
    info.close()
    info.end()
    named = ((AT_NAME, STRING),) if name else ()
    further = [
        Abbreviation(FREE, MEMBER, False, ((text_of, STRING), (AT_TYPE, REF4))),
        Abbreviation(FREE + 1, MEMBER, False, (*named, (AT_ABSTRACT_ORIGIN, REF4))),
    ]
    return listed(library(info, [0x1000], further))


def origin_behind_text(count: int) -> Case:
    """Members that take their type from one other member, which has it behind a long text."""
    return members_of_origin(count, AT_PRODUCER, b"m\0")


def origin_named_by_text(count: int) -> Case:
    """Members that take their name, a long text, and their type from one other member."""
    return members_of_origin(count, AT_NAME, b"")


def typedefs_of_blocks(count: int) -> Case:
    """Typedefs of a function type with equally many children that are no parameters."""
    info = Info()
    info.begin()
    called = info.add(FREE)
    info.bytes += u8(FREE + 1) * (20 * count)
    info.close()
    info.function(0x1000, *[info.pointer(info.typedef("", called)) for _ in range(count)])
    info.close()
    info.end()
    further = [Abbreviation(FREE, SUBROUTINE, True), Abbreviation(FREE + 1, LEXICAL_BLOCK, False)]
    return listed(library(info, [0x1000], further))


def one_origin_of_blocks(count: int) -> Case:
    """Functions of one origin with equally many children that are no parameters."""
    info = Info()
    info.begin()
    origin = info.add(FREE)
    info.bytes += u8(FREE + 1) * (40 * count)
    info.close()
    values = addresses(count)
    for value in values:
        info.add(FREE + 2, u64(value), u32(origin))
    info.close()
    info.end()
    further = [
        Abbreviation(FREE, FUNCTION, True, ((AT_DECLARATION, FLAG_PRESENT),)),
        Abbreviation(FREE + 1, LEXICAL_BLOCK, False),
        Abbreviation(FREE + 2, FUNCTION, False, ((AT_LOW_PC, ADDR), (AT_ABSTRACT_ORIGIN, REF4))),
    ]
    return listed(library(info, values, further))


def chained_qualifiers(count: int) -> Case:
    """Qualified types of a chain of 500 qualified types. None has a name."""
    info = Info()
    info.begin()
    inner = info.number()
    for _ in range(500):
        inner = info.add(FREE, u32(inner))
    info.function(0x1000, *[info.add(FREE, u32(inner)) for _ in range(count)])
    info.close()
    info.end()
    return listed(library(info, [0x1000], [Abbreviation(FREE, CONST_TYPE, False, ((AT_TYPE, REF4),))]))


def attributes(count: int) -> Case:
    """A root with `count` attributes without bytes."""
    info = Info()
    info.begin(root=bytes((UNIT, 0x0C)))
    info.end()
    pairs = ((AT_LANGUAGE, DATA1),) + ((0x53, FLAG_PRESENT),) * count
    return listed(library(info, [], abbreviations=table([Abbreviation(UNIT, COMPILE_UNIT, False, pairs)])))


def units(count: int) -> Case:
    """Units of the fewest possible bytes."""
    info = Info()
    for _ in range(count):
        info.begin(root=bytes((UNIT,)))
        info.end()
    return listed(library(info, [], abbreviations=table([Abbreviation(UNIT, COMPILE_UNIT, False)])))


KINDS = [
    Kind("flags", "an abbreviation of n attributes without bytes, n functions of it", flags, 2000),
    Kind("flags_and_value", "an abbreviation of n attributes without bytes and one with, n members of it", flags_and_value, 3000),
    Kind("flags_of_roots", "n units whose root has n attributes without bytes", flags_of_roots, 2000),
    Kind("asked_names", "n pointers behind n attributes without bytes", asked_names, 4000),
    Kind("two_tables", "n units that alternate between two tables of n abbreviations", two_tables, 2000),
    Kind("one_chain", "n units that each begin at another of n abbreviations of one table", one_chain, 2000),
    Kind("ranges", "n functions that share one range list of n base addresses", ranges, 4000),
    Kind("ends_of_ranges", "n functions whose range lists are the ends of one of n base addresses", ends_of_ranges, 4000),
    Kind("pairs_of_ranges", "the same in version 4 of DWARF", pairs_of_ranges, 8000),
    Kind("one_origin", "n functions of one origin with n parameters", one_origin, 800),
    Kind("beside_parameters", "n functions of one origin with n children that are no parameters", beside_parameters, 4000),
    Kind("one_address", "n exports at one function of n parameters", one_address, 4000),
    Kind("parameters", "one function of n parameters of one byte", parameters, 100000),
    Kind("enumerators", "an enumeration of n enumerators of one byte", enumerators, 100000),
    Kind("pointers", "n pointers of two bytes", pointers, 100000),
    Kind("leaves", "n entries of one byte, by abi entries", leaves, 1000000),
    Kind("nested", "n entries of one byte, each inside the one before", nested, 500000),
    Kind("long_numbers", "n pointers behind 310 attributes whose numbers have ten bytes", long_numbers, 5000),
    Kind("core_behind_text", "n typedefs of a structure that has its size behind a text of 20 n bytes", core_behind_text, 3000),
    Kind("origin_behind_text", "n members that take their type from a member with a text of 20 n bytes", origin_behind_text, 3000),
    Kind("core_declared_by_text", "n typedefs of a structure whose declaration is a text of 20 n bytes", core_declared_by_text, 3000),
    Kind("origin_named_by_text", "n members that take a name of 20 n bytes from a member", origin_named_by_text, 3000),
    Kind("typedefs_of_blocks", "n typedefs of a type of functions with 20 n children that are no parameters", typedefs_of_blocks, 1000),
    Kind("one_origin_of_blocks", "n functions of one origin with 40 n children that are no parameters", one_origin_of_blocks, 500),
    Kind("chained_qualifiers", "n qualified types of a chain of 500 qualified types", chained_qualifiers, 5000),
    Kind("attributes", "a root with n attributes without bytes", attributes, 500000),
    Kind("units", "n units of 13 bytes", units, 100000),
    Kind("abbreviations", "n abbreviations of six bytes with codes far apart", abbreviations, 200000),
]
