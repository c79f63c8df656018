"""Generated certificates whose lines are many and each cost much, with the libraries for which they are."""

from hashlib import sha256

from .cases import Case, Kind
from .dwarf import STRUCT, Info
from .encode import short_name, u32
from .library import library

ADDRESS = 0x1000
NO_RULES = sha256(b"").hexdigest()


def certificate(old: bytes, new: bytes, lines: list[str], version: int = 2) -> bytes:
    """A certificate of two libraries with these lines after the digests."""
    head = [f"yes {version}", f"old {sha256(old).hexdigest()}", f"new {sha256(new).hexdigest()}", f"rules {NO_RULES}"]
    return "\n".join([*head, *lines, "end", ""]).encode()


def pair_lines(pairs: set[tuple[int, int, str]]) -> list[str]:
    """Pair lines in the order of a certificate."""
    return [f"pair {old} {new} {way}" for old, new, way in sorted(pairs)]


class Typedefs:
    """A library with a function that takes typedefs of one structure. `number`, `typedefs` and `function` are its entries."""

    def __init__(self, typedefs: int, members: int, takes: list[int], padding: int = 0) -> None:
        info = Info()
        info.begin()
        self.number = info.number()
        whole = info.add(STRUCT, u32(4 * members))
        for place in range(members):
            info.field(short_name(place), self.number, 4 * place)
        info.close()
        self.typedefs = [info.typedef(short_name(number), whole) for number in range(typedefs)]
        self.function = info.function(ADDRESS, *[self.typedefs[which] for which in takes])
        info.close()
        info.end()
        more = {".padding": bytes(padding)} if padding else {}
        self.bytes = library(info, [ADDRESS], more=more)


def certified_pairs(count: int) -> Case:
    """`abi verify` of a certificate that pairs each of some typedefs with each other one. The library is padded, so that its size
    allows as many members as it can."""
    padding = 22 * count * count
    one = Typedefs(count, 40 * count, list(range(count)), padding)
    pairs = {(old, new, "direct") for old in one.typedefs for new in one.typedefs}
    pairs |= {(0, 0, "direct"), (one.number, one.number, "direct"), (one.function, one.function, "direct")}
    text = certificate(one.bytes, one.bytes, ["bind 1 1", *pair_lines(pairs)])
    return Case({"old": one.bytes, "cert": text}, ["verify", "old", "old", "cert"])


def chain_of(count: int, first_way: str, second_way: str) -> Case:
    """`abi compose` of certificates that pair all typedefs of the first library with one of the middle one, and this with all of the
    last."""
    outer = Typedefs(count, 1, list(range(count)))
    middle = Typedefs(1, 1, [0] * count)
    ways = {"direct", first_way}, {"direct", second_way}
    numbers = {(0, 0, "direct"), *((outer.number, middle.number, way) for way in ("direct", "pointer"))}
    ones = numbers | {(outer.function, middle.function, "direct")}
    ones |= {(one, middle.typedefs[0], way) for one in outer.typedefs for way in ways[0]}
    others = {(new, old, way) for old, new, way in ones if old not in outer.typedefs}
    others |= {(middle.typedefs[0], one, way) for one in outer.typedefs for way in ways[1]}
    files = {
        "first": outer.bytes,
        "middle": middle.bytes,
        "cert1": certificate(outer.bytes, middle.bytes, ["bind 1 1", *pair_lines(ones)]),
        "cert2": certificate(middle.bytes, outer.bytes, ["bind 1 1", *pair_lines(others)]),
    }
    return Case(files, ["compose", "first", "middle", "first", "cert1", "cert2"])


def joined_pairs(count: int) -> Case:
    return chain_of(count, "direct", "direct")


KINDS = [
    Kind("certified_pairs", "n n pair lines of typedefs of a structure with 40 n members, by abi verify", certified_pairs, 30),
    Kind("joined_pairs", "n typedefs that meet one of the middle library, and this n of the last, by abi compose", joined_pairs, 1000),
]
