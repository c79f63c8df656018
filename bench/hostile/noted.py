"""Generated libraries on which notes take much: long names, long paths, and definitions that no export reaches."""

from collections.abc import Callable

from .cases import Case, Kind, noted
from .dwarf import (
    AT_BYTE_SIZE,
    AT_DECLARATION,
    AT_LOCATION,
    AT_NAME,
    AT_TYPE,
    CONST_TYPE,
    DATA4,
    FLAG_PRESENT,
    FREE,
    LEXICAL_BLOCK,
    MEMBER,
    PARAMETER,
    REF4,
    ROW,
    STRING,
    STRP,
    STRUCT,
    STRUCTURE,
    TIMES,
    Abbreviation,
    Info,
)
from .encode import short_name, text, u32, u64, u8
from .layouts import grown
from .library import addresses, library

ADDRESS = 0x1000
LONG_FIELD, LONG_PARAM, DEFINED, DECLARED, ONE_FIELD, BLOCK, QUALIFIED = range(FREE, FREE + 7)
FURTHER = [
    Abbreviation(LONG_FIELD, MEMBER, False, ((AT_NAME, STRP), (AT_TYPE, REF4), (AT_LOCATION, DATA4))),
    Abbreviation(LONG_PARAM, PARAMETER, False, ((AT_NAME, STRP), (AT_TYPE, REF4))),
    Abbreviation(DEFINED, STRUCTURE, True, ((AT_NAME, STRING), (AT_BYTE_SIZE, DATA4))),
    Abbreviation(DECLARED, STRUCTURE, False, ((AT_NAME, STRING), (AT_DECLARATION, FLAG_PRESENT))),
    Abbreviation(ONE_FIELD, MEMBER, False, ((AT_NAME, STRING), (AT_TYPE, REF4))),
]


def parameter_names(count: int) -> Case:
    """A function whose parameters all have one long name, and in the new library a name that is longer by one."""
    files = []
    for step in (0, 1):
        info = Info()
        info.begin()
        number = info.number()
        info.bytes += u8(6) + u64(ADDRESS)
        for _ in range(count):
            info.add(LONG_PARAM, u32(1 - step), u32(number))
        info.close()
        info.close()
        info.end()
        files.append(library(info, [ADDRESS], FURTHER, {".debug_str": b"\1" * (20 * count) + b"\0"}))
    return noted(files[0], files[1])


def defined_elsewhere(
    members: int, add_member: Callable[[Info, int], int], add_type: Callable[[Info], int], strings: bytes = b"\0"
) -> Case:
    """A function that takes a pointer to a structure that is only declared, and its definition in a unit of its own. In the new library it
    has one member more."""
    files = []
    for step in (0, 1):
        info = Info()
        info.begin()
        info.function(ADDRESS, info.pointer(info.add(DECLARED, text("s"))))
        info.close()
        info.end()
        info.begin()
        held = add_type(info)
        info.add(DEFINED, text("s"), u32(0))
        for _ in range(members + step):
            add_member(info, held)
        info.close()
        info.close()
        info.end()
        files.append(library(info, [ADDRESS], FURTHER, {".debug_str": strings}))
    return noted(files[0], files[1])


def short_member(info: Info, held: int) -> int:
    return info.add(ONE_FIELD, b"\0", u32(held))


def long_member(info: Info, held: int) -> int:
    return info.add(LONG_FIELD, u32(0), u32(held), u32(0))


def long_definition(count: int) -> Case:
    """A definition elsewhere whose members all have one long name."""
    return defined_elsewhere(count, long_member, Info.number, b"\1" * (20 * count) + b"\0")


def pointer_to_itself(info: Info) -> int:
    return info.pointer(info.here())


def pointers_elsewhere(count: int) -> Case:
    """A definition elsewhere whose members are all of a type that is a pointer to itself."""
    return defined_elsewhere(count, short_member, pointer_to_itself)


def arrays_elsewhere(count: int) -> Case:
    """A definition elsewhere whose members are all arrays of themselves with many dimensions."""

    def array(info: Info) -> int:
        place = info.here()
        info.add(ROW, u32(place))
        for _ in range(count):
            info.add(TIMES, u32(1))
        info.close()
        return place

    return defined_elsewhere(count, short_member, array)


def kin(count: int) -> Case:
    """Definitions of one name that are all reached, against a declaration."""
    files = []
    for step in (0, 1):
        info = Info()
        info.begin()
        number = info.number()
        pointers = []
        for size in range(count):
            if step:
                pointers.append(info.pointer(info.add(DECLARED, text("s"))))
            else:
                whole = info.add(DEFINED, text("s"), u32(size + 4))
                info.field("m", number)
                info.close()
                pointers.append(info.pointer(whole))
        if step:
            info.add(DEFINED, text("s"), u32(4))
            info.close()
        info.function(ADDRESS, *pointers)
        info.close()
        info.end()
        files.append(library(info, [ADDRESS], FURTHER))
    return noted(files[0], files[1])


def dimensions(count: int) -> Case:
    """Typedefs of an array with equally many dimensions."""
    files = []
    for step in (0, 1):
        info = Info()
        info.begin()
        row = info.add(ROW, u32(info.here() + 5 + 5 * (count + step) + 1))
        for _ in range(count + step):
            info.add(TIMES, u32(1))
        info.close()
        info.number()
        info.function(ADDRESS, *[info.pointer(info.typedef(short_name(number), row)) for number in range(count)])
        info.close()
        info.end()
        files.append(library(info, [ADDRESS]))
    return noted(files[0], files[1])


def renamed_chain(count: int) -> Case:
    """A chain of pointers to structures with other names in the new library, each with its own path."""
    files = []
    for name in ("a", "b"):
        info = Info()
        info.begin()
        for number in range(count):
            info.add(DEFINED, text(name), u32(8 + 16 * number))
            info.field("m", info.here() + 12)
            info.close()
            info.pointer(info.here() + 5 if number + 1 < count else 0)
        last = info.here() - 5
        info.put(last + 1, info.number())
        info.function(ADDRESS, 14)
        info.close()
        info.end()
        files.append(library(info, [ADDRESS], FURTHER))
    return noted(files[0], files[1])


def heavy_members(count: int) -> Case:
    """Typedefs of a structure whose member holds 983,039 types by value."""
    files = []
    for step in (0, 4):
        info = Info()
        info.begin()
        inner = grown(info, STRUCT, 100, 13, 16, False)
        whole = info.add(STRUCT, u32(100 + step))
        info.field("m", inner)
        info.close()
        info.function(ADDRESS, *[info.pointer(info.typedef(short_name(number), whole)) for number in range(count)])
        info.close()
        info.end()
        files.append(library(info, [ADDRESS]))
    return noted(files[0], files[1])


def filled_padding(count: int) -> Case:
    """A structure with equally many new members, all behind the old ones, which fill half of it."""
    files = []
    for members in (count, 2 * count):
        info = Info()
        info.begin()
        number = info.number()
        whole = info.add(STRUCT, u32(8 * count))
        for place in range(members):
            info.field(short_name(place), number, 4 * place)
        info.close()
        info.function(ADDRESS, info.pointer(whole))
        info.close()
        info.end()
        files.append(library(info, [ADDRESS]))
    return noted(files[0], files[1])


def renamed_ring(count: int) -> Case:
    """Rings of structures that hold types of long names."""
    tags = [b"\1" * (64 * count) + letter + b"\0" for letter in (b"a", b"b")]
    files = []
    for step in (0, 1):
        info = Info()
        info.begin()
        held = info.add(DEFINED + 2, u32(0), u32(8))
        info.close()
        typedefs = [info.typedef(short_name(place), held) for place in range(count + step)]
        wholes, pointers = [], []
        for typedef in typedefs:
            wholes.append(info.add(STRUCT, u32(16)))
            info.field("v", typedef, 8)
            pointers.append(info.field("n", 0, 0))
            info.close()
        for place, pointer in enumerate(pointers):
            info.put(pointer + 3, info.pointer(wholes[(place + 1) % len(wholes)]))
        info.function(ADDRESS, wholes[0])
        info.close()
        info.end()
        further = [*FURTHER[:4], Abbreviation(DEFINED + 2, STRUCTURE, True, ((AT_NAME, STRP), (AT_BYTE_SIZE, DATA4)))]
        files.append(library(info, [ADDRESS], further, {".debug_str": tags[step]}))
    return noted(files[0], files[1])


def affected(count: int) -> Case:
    """Exports that all lead to one structure of another size, through a member with a long name."""
    files = []
    for step in (0, 8):
        info = Info()
        info.begin()
        inner = info.add(STRUCT, u32(16 + step))
        info.close()
        pointer = info.pointer(inner)
        outer = info.add(STRUCT, u32(8))
        info.add(LONG_FIELD, u32(0), u32(pointer), u32(0))
        info.close()
        info.function(ADDRESS, outer)
        info.close()
        info.end()
        files.append(library(info, [ADDRESS] * count, FURTHER, {".debug_str": b"\1" * (20 * count) + b"\0"}))
    return noted(files[0], files[1])


def affected_chains(count: int) -> Case:
    """Functions that each take a pointer to a structure of another size: each row looks at all visits."""
    files = []
    values = addresses(count)
    for step in (0, 8):
        info = Info()
        info.begin()
        for number, value in enumerate(values):
            whole = info.add(STRUCT, u32(16 + step + 16 * number))
            info.close()
            info.function(value, info.pointer(whole))
        info.close()
        info.end()
        files.append(library(info, values))
    return noted(files[0], files[1])


def blocks_beside_members(count: int) -> Case:
    """Typedefs of a structure that has children, but no members. In the new library it has one child more."""
    files = []
    for step in (0, 1):
        info = Info()
        info.begin()
        whole = info.add(STRUCT, u32(8))
        info.bytes += u8(BLOCK) * (20 * count + step)
        info.close()
        info.function(ADDRESS, *[info.pointer(info.typedef(short_name(number), whole)) for number in range(count)])
        info.close()
        info.end()
        files.append(library(info, [ADDRESS], [*FURTHER, Abbreviation(BLOCK, LEXICAL_BLOCK, False)]))
    return noted(files[0], files[1])


def noted_qualifiers(count: int) -> Case:
    """Pointers to qualified types of a chain of 500 qualified types. The new library has one function more."""
    files = []
    for step in (0, 1):
        info = Info()
        info.begin()
        inner = info.number()
        for _ in range(500):
            inner = info.add(QUALIFIED, u32(inner))
        info.function(ADDRESS, *[info.pointer(info.add(QUALIFIED, u32(inner))) for _ in range(count)])
        info.close()
        info.end()
        values = addresses(1 + step)
        files.append(library(info, values, [*FURTHER, Abbreviation(QUALIFIED, CONST_TYPE, False, ((AT_TYPE, REF4),))]))
    return noted(files[0], files[1])


def exports_beside_rows(count: int) -> Case:
    """A function whose parameters lead to structures of other sizes, a twentieth of `count`, and `count` exports at one other function.
    Each row looks at all exports."""
    rows = count // 20
    values = [ADDRESS, *[ADDRESS + 16] * count]
    files = []
    for step in (0, 8):
        info = Info()
        info.begin()
        pointers = []
        for number in range(rows):
            whole = info.add(STRUCT, u32(16 + step + 16 * number))
            info.close()
            pointers.append(info.pointer(whole))
        info.function(ADDRESS, *pointers)
        info.function(ADDRESS + 16)
        info.close()
        info.end()
        files.append(library(info, values))
    return noted(files[0], files[1])


KINDS = [
    Kind("parameter_names", "a function of n parameters of one name of 20 n bytes, with notes", parameter_names, 500),
    Kind("long_definition", "a definition elsewhere of n members of one name of 20 n bytes, with notes", long_definition, 500),
    Kind("pointers_elsewhere", "a definition elsewhere of n members that are pointers to themselves, with notes", pointers_elsewhere, 2500),
    Kind(
        "arrays_elsewhere",
        "a definition elsewhere of n members that are arrays of themselves with n dimensions, with notes",
        arrays_elsewhere,
        30,
    ),
    Kind("kin", "n definitions of one name against n declarations, with notes", kin, 500),
    Kind("dimensions", "n typedefs of an array of n dimensions, with notes", dimensions, 1000),
    Kind("renamed_chain", "a chain of n pointers to structures that have another name, with notes", renamed_chain, 1000),
    Kind("heavy_members", "n typedefs of a structure with a member of weight 983,039, with notes", heavy_members, 5),
    Kind("filled_padding", "a structure with n members, and n new ones in its padding, with notes", filled_padding, 4000),
    Kind("renamed_ring", "rings of n and n + 1 typedefs of a structure with a name of 64 n bytes, with notes", renamed_ring, 20),
    Kind("affected", "n exports that lead to a break behind a member with a name of 20 n bytes, with notes", affected, 1000),
    Kind("affected_chains", "n exports that lead each to a break, with notes", affected_chains, 1000),
    Kind(
        "blocks_beside_members",
        "n typedefs of a structure with 20 n children that are no members, with notes",
        blocks_beside_members,
        500,
    ),
    Kind("noted_qualifiers", "n pointers to qualified types of a chain of 500 qualified types, with notes", noted_qualifiers, 2000),
    Kind("exports_beside_rows", "n / 20 rows on types, and n exports that lead to none of them, with notes", exports_beside_rows, 10000),
]
