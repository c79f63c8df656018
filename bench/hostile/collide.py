"""Keys that collide in a hash map with a fixed seed. A program in C searches for them."""

import subprocess
import tempfile
from pathlib import Path

from .cases import Case, Kind, against, against_itself, listed, noted
from .dwarf import (
    AT_LANGUAGE,
    C99,
    COMPILE_UNIT,
    DATA1,
    FIELD,
    FLAT_CALL,
    NAMED,
    STRUCT,
    STRUCTURE,
    TYPE_UNIT,
    Abbreviation,
    Info,
    table,
)
from .elf import Symbol, image, symbol_sections, version_sections
from .encode import short_name, u8, u32, u64
from .library import library
from .names import MOST_VERSIONS

SEED = 0x243F6A8885A308D3
FACTOR = 0x9E3779B97F4A7C15
MASK = 2**64 - 1
# The average number of entries in a group of slots, at most.
GROUP_LOAD = 9


def folded(state: int, number: int, size: int) -> int:
    """The state of the hasher after a number of `size` bytes, at most 8."""
    product = (state ^ number) * (FACTOR ^ 2 * size)
    return (product & MASK) ^ (product >> 64)


def bits_for(count: int) -> int:
    """How many bits of a hash choose a group in a map of `count` entries."""
    bits = 0
    while GROUP_LOAD << bits < count:
        bits += 1
    return bits


def colliding(count: int, state: int = SEED, form: str = "numbers") -> list[int]:
    """`count` different keys of eight bytes that collide, as numbers. `form` is that of the program."""
    source = Path(__file__).with_name("collide.c")
    with tempfile.TemporaryDirectory() as folder:
        program = f"{folder}/collide"
        subprocess.run(["gcc", "-O2", "-o", program, str(source)], check=True)
        words = [program, str(count), str(bits_for(count)), f"{state:x}", form]
        found = subprocess.run(words, check=True, capture_output=True, text=True).stdout
    return [int(line, 16) for line in found.split()]


def addresses_that_collide(count: int) -> Case:
    """Functions at addresses that collide in a map by address."""
    info = Info()
    info.begin()
    for address in colliding(count):
        info.add(FLAT_CALL, u64(address))
    info.close()
    info.end()
    return listed(library(info, []))


def signatures_that_collide(count: int) -> Case:
    """Type units whose signatures collide in a map by signature."""
    root = Abbreviation(1, TYPE_UNIT, True, ((AT_LANGUAGE, DATA1),))
    empty = Abbreviation(2, STRUCTURE, False)
    info = Info()
    for signature in colliding(count):
        info.begin_type(signature, 26, u8(1) + u8(C99))
        info.add(2)
        info.close()
        info.end()
    return listed(library(info, [], abbreviations=table([root, empty])))


def names_that_collide(count: int) -> Case:
    """Symbols whose names of eight bytes collide in a map by name."""
    names = bytearray(b"\0")
    symbols = []
    # The length is hashed before the bytes.
    for number in colliding(count, folded(SEED, 8, 8), "names"):
        symbols.append(Symbol(len(names), 0x1000))
        names += u64(number) + b"\0"
    return against_itself(image(symbol_sections(symbols, bytes(names))))


# In keys of a sort and a name the sort is hashed first, as the eight bytes of its position in its enum.
MEMBER_SORT = 0


def members_that_collide(count: int) -> Case:
    """A structure of members whose names of eight bytes collide in a map by sort and name."""
    info = Info()
    info.begin()
    number = info.number()
    whole = info.add(STRUCT, u32(4 * count))
    names = colliding(count, folded(folded(SEED, MEMBER_SORT, 8), 8, 8), "names")
    for place, name in enumerate(names):
        info.add(FIELD, u64(name) + b"\0", u32(number), u32(4 * place))
    info.close()
    info.function(0x1000, whole)
    info.close()
    info.end()
    return against_itself(library(info, [0x1000]))


# A text of nine bytes and more is hashed by products whose last factor is that of its last eight bytes, combined with a fixed number.
# For these bytes it is 0, so the hash is 0, whatever stands before them.
LAST_BYTES = u64(0x9E3779B97F4A7C15)


def shapes_that_collide(count: int) -> Case:
    """Typedefs whose names all end with the bytes that make the hash of a shape 0."""
    info = Info()
    info.begin()
    number = info.number()
    typedefs = [info.add(NAMED, short_name(place).encode() + LAST_BYTES + b"\0", u32(number)) for place in range(count)]
    info.function(0x1000, *typedefs)
    info.close()
    info.end()
    return against_itself(library(info, [0x1000]))


def codes_that_collide(count: int) -> Case:
    """Abbreviations whose codes collide in a map by code."""
    tables = table([Abbreviation(1, COMPILE_UNIT, False, ((AT_LANGUAGE, DATA1),))])[:-1]
    tables += b"".join(Abbreviation(code, STRUCTURE, False).spelled() for code in colliding(count))
    info = Info()
    info.begin(root=u8(1) + u8(C99))
    info.end()
    return listed(library(info, [], abbreviations=tables + b"\0"))


def pairs_that_collide(count: int) -> Case:
    """A function whose parameters have other types in the new library, so that the pairs of their numbers collide in a set. Another
    function takes all types, so each has the same number in both libraries: its place."""
    pairs = [(key >> 32, key & 0xFFFFFFFF) for key in colliding(count, SEED, "pairs")]
    most = max(max(pair) for pair in pairs)
    files = []
    for side in (0, 1):
        info = Info()
        info.begin()
        wholes = []
        for size in range(1, most + 1):
            wholes.append(info.add(STRUCT, u32(size)))
            info.close()
        info.function(0x1000, *wholes)
        info.function(0x1010, *[wholes[pair[side] - 1] for pair in pairs])
        info.close()
        info.end()
        files.append(library(info, [0x1000, 0x1010]))
    return against(files[0], files[1])


def versions_that_collide(count: int) -> Case:
    """A new library with functions whose versions are all new and have names that collide in a set, with notes."""
    names = bytearray(b"\0f\0")
    places = []
    for number in colliding(min(count, MOST_VERSIONS), folded(SEED, 8, 8), "names"):
        places.append(len(names))
        names += u64(number) + b"\0"
    symbols = [Symbol(1, 0x1000 + 16 * number) for number in range(len(places))]
    indexes = [0] + [number + 2 for number in range(len(places))]
    new = image(symbol_sections(symbols, bytes(names)) + version_sections(indexes, places))
    return noted(image(symbol_sections([], b"\0")), new)


KINDS = [
    Kind("colliding_addresses", "n functions at addresses that collide in a map", addresses_that_collide, 30000),
    Kind("colliding_signatures", "n type units with signatures that collide in a map", signatures_that_collide, 30000),
    Kind("colliding_shapes", "n typedefs whose names end with the bytes that make all hashes equal", shapes_that_collide, 2000),
    Kind("colliding_codes", "n abbreviations with codes that collide in a map", codes_that_collide, 10000),
    Kind("colliding_names", "n symbols with names that collide in a map", names_that_collide, 30000),
    Kind("colliding_members", "a structure of n members with names that collide in a map", members_that_collide, 10000),
    Kind("colliding_pairs", "a function of n parameters whose pairs of types collide in a set", pairs_that_collide, 20000),
    Kind("colliding_versions", "n new versions with names that collide in a set, with notes", versions_that_collide, 16000),
]
