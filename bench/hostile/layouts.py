"""Generated types that hold much by value, or that have many names."""

from .cases import Case, Kind, against, against_itself, listed
from .dwarf import (
    ADDR,
    AT_BYTE_SIZE,
    AT_LOCATION,
    AT_LOW_PC,
    AT_NAME,
    AT_STR_OFFSETS_BASE,
    AT_TYPE,
    COMPILE_UNIT,
    DATA4,
    EITHER,
    FREE,
    FUNCTION,
    MEMBER,
    PARAMETER,
    REF1,
    REF4,
    ROW,
    SEC_OFFSET,
    STRING,
    STRP,
    STRUCT,
    STRUCTURE,
    STRX1,
    SUBROUTINE,
    TIMES,
    TYPEDEF,
    Abbreviation,
    Info,
)
from .encode import short_name, text, u8, u16, u32, u64
from .library import addresses, library

ADDRESS = 0x1000


def grown(info: Info, code: int, size: int, first: int, doublings: int, nameless: bool) -> int:
    """A structure or union with `first` members of one byte, and then structures that each hold the previous one twice."""
    byte = info.number(1)
    inner = info.add(code, u32(size))
    for number in range(first):
        info.field(short_name(number), byte)
    info.close()
    for _ in range(doublings):
        outer = info.add(code, u32(size))
        for name in ("a", "b"):
            if nameless:
                info.held(inner)
            else:
                info.field(name, inner)
        info.close()
        inner = outer
    return inner


def flat_members(count: int) -> Case:
    """Structures that each hold one nameless structure with 917,504 flat members."""
    info = Info()
    info.begin()
    inner = grown(info, STRUCT, 1, 14, 16, True)
    pointers = []
    for _ in range(count):
        whole = info.add(STRUCT, u32(1))
        info.held(inner)
        info.close()
        pointers.append(info.pointer(whole))
    info.function(ADDRESS, *pointers)
    info.close()
    info.end()
    return listed(library(info, [ADDRESS]))


def leaves_of_arrays(count: int) -> Case:
    """Typedefs of an array of 64 unions of one byte, which have 851,968 leaves."""
    info = Info()
    info.begin()
    inner = grown(info, EITHER, 1, 13, 16, False)
    row = info.add(ROW, u32(inner))
    info.add(TIMES, u32(64))
    info.close()
    info.function(ADDRESS, *[info.typedef(short_name(number), row) for number in range(count)])
    info.close()
    info.end()
    return listed(library(info, [ADDRESS]))


def alignments(count: int) -> Case:
    """Typedefs of a structure of nearly the greatest weight, which a function takes by value."""
    info = Info()
    info.begin()
    inner = grown(info, STRUCT, 100, 13, 16, False)
    info.function(ADDRESS, *[info.typedef(short_name(number), inner) for number in range(count)])
    info.close()
    info.end()
    return listed(library(info, [ADDRESS]))


def with_members(info: Info, size: int, count: int, of_type: int) -> int:
    whole = info.add(STRUCT, u32(size))
    for number in range(count):
        info.field(short_name(number), of_type, 4 * number)
    info.close()
    return whole


def typedefs(count: int) -> Case:
    """Typedefs of a structure with equally many members."""
    info = Info()
    info.begin()
    whole = with_members(info, 4 * count, count, info.number())
    info.function(ADDRESS, *[info.typedef(short_name(number), whole) for number in range(count)])
    info.close()
    info.end()
    return against_itself(library(info, [ADDRESS]))


def padded_typedefs(count: int, padding: int, member: str = "") -> bytes:
    """Typedefs of a structure with equally many members, in a file with some bytes more, so that it may have as many parts."""
    info = Info()
    info.begin()
    number = info.number()
    whole = info.add(STRUCT, u32(4 * count))
    for place in range(count):
        info.field(member + short_name(place), number, 4 * place)
    info.close()
    info.function(ADDRESS, *[info.typedef(short_name(place), whole) for place in range(count)])
    info.close()
    info.end()
    return library(info, [ADDRESS], more={".padding": bytes(padding)})


def copied_typedefs(count: int) -> Case:
    """As many typedefs and members as a file may have, by `abi check` against itself, which copies the library."""
    return against_itself(padded_typedefs(count, count * count // 2))


def spelled_typedefs(count: int) -> Case:
    """The same against a file with one byte more."""
    return against(padded_typedefs(count, count * count // 2), padded_typedefs(count, count * count // 2 + 1))


def broken_typedefs(count: int) -> Case:
    """The same, but in the new library the members are at other places."""
    files = []
    for step in (0, 4):
        info = Info()
        info.begin()
        number = info.number()
        whole = info.add(STRUCT, u32(8 * count))
        for place in range(count):
            info.field(short_name(place), number, 4 * place + step)
        info.close()
        info.function(ADDRESS, *[info.typedef(short_name(place), whole) for place in range(count)])
        info.close()
        info.end()
        files.append(library(info, [ADDRESS]))
    return against(files[0], files[1])


def typedefs_of_chain(links: int, count: int) -> Case:
    """Typedefs of a chain of so many typedefs."""
    info = Info()
    info.begin()
    inner = info.number()
    for _ in range(links):
        inner = info.typedef("", inner)
    info.function(ADDRESS, *[info.typedef("", inner) for _ in range(count)])
    info.close()
    info.end()
    return against_itself(library(info, [ADDRESS]))


def chained_names(count: int) -> Case:
    """Typedefs of a chain of 500 typedefs."""
    return typedefs_of_chain(500, count)


STRUCTURE_NAMED = FREE + 1
FURTHER = [
    Abbreviation(FREE, MEMBER, False, ((AT_NAME, STRP), (AT_TYPE, REF4), (AT_LOCATION, DATA4))),
    Abbreviation(FREE + 1, STRUCTURE, True, ((AT_NAME, STRP), (AT_BYTE_SIZE, DATA4))),
    Abbreviation(FREE + 2, TYPEDEF, False, ((AT_NAME, STRP), (AT_TYPE, REF4))),
]


def member_names(count: int) -> Case:
    """A structure whose members all have one long name."""
    info = Info()
    info.begin()
    number = info.number()
    whole = info.add(STRUCT, u32(4 * count))
    for place in range(count):
        info.add(FREE, u32(0), u32(number), u32(4 * place))
    info.close()
    info.function(ADDRESS, info.pointer(whole))
    info.close()
    info.end()
    return against_itself(library(info, [ADDRESS], FURTHER, {".debug_str": b"n" * (20 * count) + b"\0"}))


def overlapping_names(count: int) -> Case:
    """`abi layout` of a structure whose members all have one long name, overlap, and end outside. Each byte of the name is printed as
    four."""
    info = Info()
    info.begin()
    number = info.number()
    whole = info.add(STRUCTURE_NAMED, u32(1), u32(2))
    for _ in range(count):
        info.add(FREE, u32(3), u32(number), u32(0))
    info.close()
    info.function(ADDRESS, info.pointer(whole))
    info.close()
    info.end()
    strings = b"\0s\0" + b"\1" * 1000 + b"\0"
    return Case({"old": library(info, [ADDRESS], FURTHER, {".debug_str": strings})}, ["layout", "old", "s"])


def long_tag(count: int) -> Case:
    """Typedefs with different names of one structure with a long name."""
    info = Info()
    info.begin()
    whole = info.add(FREE + 1, u32(0), u32(8))
    info.close()
    info.function(ADDRESS, *[info.typedef(short_name(number), whole) for number in range(count)])
    info.close()
    info.end()
    return against_itself(library(info, [ADDRESS], FURTHER, {".debug_str": b"n" * (20 * count) + b"\0"}))


def behind_long_name(count: int) -> Case:
    """Structures that change their sizes, reached through a member with a long name."""
    files = []
    for more in (0, 1):
        info = Info()
        info.begin()
        wholes = []
        for number in range(count):
            wholes.append(info.add(STRUCT, u32(16 * number + more + 4)))
            info.close()
        outer = info.add(STRUCT, u32(8 * count))
        for number, whole in enumerate(wholes):
            info.field(short_name(number), whole, 8 * number)
        info.close()
        root = info.add(STRUCT, u32(8))
        info.add(FREE, u32(0), u32(info.here() + 14), u32(0))
        info.close()
        info.pointer(outer)
        info.function(ADDRESS, root)
        info.close()
        info.end()
        files.append(library(info, [ADDRESS], FURTHER, {".debug_str": b"n" * (10 * count) + b"\0"}))
    return against(files[0], files[1])


def alike_names(count: int) -> Case:
    """`abi verify` on alike typedefs of the same name, of a structure with equally many members."""
    info = Info()
    info.begin()
    whole = with_members(info, 4 * count, count, info.number())
    info.function(ADDRESS, *[info.typedef("t", whole) for _ in range(count)])
    info.close()
    info.end()
    files = {"old": library(info, [ADDRESS])}
    return Case(files, ["verify", "old", "old", "made"], ["check", "old", "old"])


def members(count: int) -> Case:
    """Structures of 40 members, each of three bytes, in units that are small enough for references of one byte."""
    further = [
        Abbreviation(FREE, COMPILE_UNIT, True, ((AT_STR_OFFSETS_BASE, SEC_OFFSET),)),
        Abbreviation(FREE + 1, MEMBER, False, ((AT_NAME, STRX1), (AT_TYPE, REF1))),
    ]
    info = Info()
    values = addresses(count // 40)
    for value in values:
        info.begin(root=u8(FREE) + u32(8))
        number = info.number()
        whole = info.add(STRUCT, u32(4))
        for _ in range(40):
            info.add(FREE + 1, u8(0), u8(number))
        info.close()
        info.function(value, whole)
        info.close()
        info.end()
    more = {".debug_str": b"n\0", ".debug_str_offsets": u32(8) + u16(5) + u16(0) + u32(0)}
    return against_itself(library(info, values, further, more))


def member_list(count: int) -> Case:
    """One structure of members of seven bytes."""
    further = [Abbreviation(FREE, MEMBER, False, ((AT_NAME, STRING), (AT_TYPE, REF1)))]
    info = Info()
    info.begin()
    number = info.number()
    whole = info.add(STRUCT, u32(4))
    for place in range(count):
        info.add(FREE, text(short_name(place)), u8(number))
    info.close()
    info.function(ADDRESS, whole)
    info.close()
    info.end()
    return against_itself(library(info, [ADDRESS], further))


def typedefs_of_functions(count: int) -> Case:
    """Typedefs of a function type with equally many parameters."""
    info = Info()
    info.begin()
    called = info.add(FREE)
    info.bytes += u8(FREE + 1) * count
    info.close()
    info.function(ADDRESS, *[info.pointer(info.typedef("", called)) for _ in range(count)])
    info.close()
    info.end()
    further = [Abbreviation(FREE, SUBROUTINE, True), Abbreviation(FREE + 1, PARAMETER, False)]
    return listed(library(info, [ADDRESS], further))


def declared_names(count: int) -> Case:
    """Functions that all have the same long name in the debug information."""
    further = [Abbreviation(FREE, FUNCTION, False, ((AT_NAME, STRP), (AT_LOW_PC, ADDR)))]
    info = Info()
    info.begin()
    values = addresses(count)
    for value in values:
        info.add(FREE, u32(0), u64(value))
    info.close()
    info.end()
    return listed(library(info, values, further, {".debug_str": b"n" * (40 * count) + b"\0"}))


KINDS = [
    Kind("flat_members", "n structures that each hold one nameless structure of 917,504 flat members", flat_members, 1),
    Kind("leaves_of_arrays", "n typedefs of an array of 64 unions of 851,968 leaves", leaves_of_arrays, 1),
    Kind("alignments", "n typedefs of a structure of weight 983,039", alignments, 50),
    Kind("members", "structures with n members of three bytes in all", members, 100000),
    Kind("member_list", "a structure with n members of six bytes", member_list, 50000),
    Kind("declared_names", "n functions of one name of 40 n bytes", declared_names, 4000),
    Kind("typedefs_of_functions", "n typedefs of a type of functions with n parameters", typedefs_of_functions, 800),
    Kind("typedefs", "n typedefs of a structure of n members", typedefs, 700),
    Kind("copied_typedefs", "n typedefs of a structure of n members, and n n / 2 bytes beside", copied_typedefs, 700),
    Kind("spelled_typedefs", "the same against a library with one byte more", spelled_typedefs, 700),
    Kind("broken_typedefs", "the same, and each member at another place in the new library", broken_typedefs, 300),
    Kind("chained_names", "n typedefs of a chain of 500 typedefs", chained_names, 3000),
    Kind("member_names", "a structure of n members of one name of 20 n bytes", member_names, 1000),
    Kind("overlapping_names", "a structure of n members of one name of 1,000 bytes that overlap, by abi layout", overlapping_names, 500),
    Kind("long_tag", "n typedefs of a structure with a name of 20 n bytes", long_tag, 1500),
    Kind("behind_long_name", "n breaks behind a member with a name of 10 n bytes", behind_long_name, 1500),
    Kind("alike_names", "n alike typedefs of a structure of n members, by abi verify", alike_names, 800),
]
