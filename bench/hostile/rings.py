"""Generated rings of structures of which each meets each, and what they hold costs much at each meeting."""

from collections.abc import Callable

from .cases import Case, Kind, against
from .dwarf import AT_LOCATION, AT_NAME, AT_TYPE, DATA4, FREE, MEMBER, REF4, STRP, STRUCT, Abbreviation, Info
from .encode import short_name, u32
from .library import library

ADDRESS = 0x1000
LONG_FIELD = FREE
FURTHER = [Abbreviation(LONG_FIELD, MEMBER, False, ((AT_NAME, STRP), (AT_TYPE, REF4), (AT_LOCATION, DATA4)))]


# Together they have nearly as many parts as each library may have, however small it is.
IDLE_MEMBERS = 250
IDLE_TYPEDEFS = 256


def idle_typedefs(info: Info, number: int, more: int) -> list[int]:
    """Typedefs of one name of a structure with members. They are alike, so only one of them is compared; but their parts raise the
    limit on parts that are compared."""
    whole = info.add(STRUCT, u32(4 * IDLE_MEMBERS))
    for place in range(IDLE_MEMBERS):
        info.field(short_name(place), number, 4 * place)
    info.close()
    return [info.typedef("i", whole) for _ in range(IDLE_TYPEDEFS)] + [info.typedef("j", number) for _ in range(more)]


def ring(length: int, add_members: Callable[[Info, int], object], size: int, strings: bytes = b"\0", idle: int = 0) -> bytes:
    """Structures that each point to the next one, and each hold another typedef of one structure, whose members `add_members` adds. A
    function takes the first one, and idle typedefs; so many of these are beside."""
    info = Info()
    info.begin()
    number = info.number()
    held = info.add(STRUCT, u32(size))
    add_members(info, number)
    info.close()
    typedefs = [info.typedef(short_name(place), held) for place in range(length)]
    wholes, pointers = [], []
    for typedef in typedefs:
        wholes.append(info.add(STRUCT, u32(size + 8)))
        info.field("v", typedef, 8)
        pointers.append(info.field("n", 0, 0))
        info.close()
    for place, pointer in enumerate(pointers):
        to = info.pointer(wholes[(place + 1) % length])
        # A code of one byte and a name of two come before the type.
        info.put(pointer + 3, to)
    info.function(ADDRESS, wholes[0], *idle_typedefs(info, number, idle))
    info.close()
    info.end()
    return library(info, [ADDRESS], FURTHER, {".debug_str": strings})


def moved_members(count: int) -> Case:
    """Members that are all at another place in the new library."""

    def members(info: Info, number: int, step: int) -> None:
        for place in range(count):
            info.field(short_name(place), number, 4 * place + step)

    files = [
        ring(count + step, lambda info, number: members(info, number, 4 * step), 4 * count + 8) for step in (0, 1)
    ]
    return against(files[0], files[1])


def gone_members(count: int) -> Case:
    """A member with a long name, which is gone in the new library. Each byte of the name is printed as four."""
    names = b"\1" * (64 * count) + b"\0n\0"

    def member(info: Info, number: int, name_at: int) -> None:
        info.add(LONG_FIELD, u32(name_at), u32(number), u32(0))

    old = ring(count, lambda info, number: member(info, number, 0), 8, names)
    return against(old, ring(count + 1, lambda info, number: member(info, number, 64 * count + 1), 8, names))


def long_members(count: int) -> Case:
    """Structures of 64 members with long names that differ in their last byte, in libraries as large as so many pairs and letters need."""
    letters = b"n" * (4 * count)
    names = b"".join(letters + bytes([65 + place]) + b"\0" for place in range(63))

    def members(info: Info, number: int) -> None:
        for place in range(63):
            info.add(LONG_FIELD, u32((len(letters) + 2) * place), u32(number), u32(4 * place))

    files = [ring(count + step, members, 4 * 63, names, 3 * count) for step in (0, 1)]
    return against(files[0], files[1])


KINDS = [
    Kind("moved_members", "rings of n and n + 1 typedefs of a structure of n members, each at another place", moved_members, 50),
    Kind("long_members", "rings of n and n + 1 typedefs of a structure of 63 members with names of 4 n bytes", long_members, 64),
    Kind("gone_members", "rings of n and n + 1 typedefs of a structure whose member with a name of 64 n bytes is gone", gone_members, 40),
]
