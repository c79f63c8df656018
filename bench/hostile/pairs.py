"""Generated types of which many pairs are compared."""

from collections.abc import Sequence

from .cases import Case, Kind, against
from .dwarf import STRUCT, Info
from .encode import short_name, u32
from .library import library

ADDRESS = 0x1000


def ring_of_structures(sizes: Sequence[int], members: int = 0) -> bytes:
    """Structures that each point to the next one; the last one points to a typedef of the first."""
    info = Info()
    info.begin()
    number = info.number()
    first = info.here()
    for size in sizes:
        whole = info.add(STRUCT, u32(size))
        for place in range(members):
            info.field(short_name(place), number, 4 * place + 8)
        # The pointer comes after the structure, and leads to the next one.
        info.field("_", info.here() + 12)
        info.close()
        last = info.pointer(info.here() + 5)
    info.put(last + 1, info.typedef("t", first))
    info.function(ADDRESS, whole)
    info.close()
    info.end()
    return library(info, [ADDRESS])


def rings_of_sizes(count: int) -> Case:
    """Two rings of structures. No two structures have the same size."""
    old = ring_of_structures(range(8, 8 + 16 * count, 16))
    return against(old, ring_of_structures(range(16, 16 + 16 * (count + 1), 16)))


def wide_rings(count: int) -> Case:
    """Two rings of structures of the same size, with equally many members."""
    one_size = 8 + 4 * count
    old, new = ([one_size] * length for length in (count, count + 1))
    return against(ring_of_structures(old, count), ring_of_structures(new, count))


def chain(count: int) -> Case:
    """Chains of pointers to structures that each differ in size from their partner."""
    files = []
    for more in (0, 1):
        info = Info()
        info.begin()
        for number in range(count):
            info.add(STRUCT, u32(16 * number + 8 + more))
            info.field("m", info.here() + 12)
            info.close()
            info.pointer(info.here() + 5 if number + 1 < count else 0)
        last = info.here() - 5
        info.put(last + 1, info.number())
        info.function(ADDRESS, 14)
        info.close()
        info.end()
        files.append(library(info, [ADDRESS]))
    return against(files[0], files[1])


def ring_of_pointers(count: int) -> bytes:
    """Pointers, each to a typedef of the next one. No two are alike."""
    info = Info()
    info.begin()
    first = info.here()
    for number in range(count):
        info.pointer(info.here() + 5)
        size = 6 + len(short_name(number))
        info.typedef(short_name(number), info.here() + size if number + 1 < count else first)
    info.function(ADDRESS, first)
    info.close()
    info.end()
    return library(info, [ADDRESS])


def rings(count: int) -> Case:
    return against(ring_of_pointers(count), ring_of_pointers(count + 1))


KINDS = [
    Kind("rings_of_sizes", "two rings of n and n + 1 structures, no two of one size", rings_of_sizes, 40),
    Kind("wide_rings", "rings of n and n + 1 structures with n members", wide_rings, 60),
    Kind("chain", "a chain of n pointers to structures, each of another size", chain, 2000),
    Kind("rings", "rings of n and n + 1 pointers", rings, 500),
    Kind("long_rings", "the same, longer ones", rings, 5000),
]
