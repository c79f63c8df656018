"""Random changes of libraries, with knowledge of where headers, numbers and sections are."""

import random
import struct
from dataclasses import dataclass, field
from functools import cached_property

from .parts import Image, Part, apart

# The sections that the program reads, each with how often it is changed.
READ = {
    ".debug_info": 12,
    ".debug_abbrev": 8,
    ".debug_str": 2,
    ".debug_line_str": 1,
    ".debug_str_offsets": 1,
    ".debug_addr": 2,
    ".debug_rnglists": 3,
    ".debug_ranges": 3,
    ".dynsym": 4,
    ".dynstr": 2,
    ".dynamic": 2,
    ".gnu.version": 2,
    ".gnu.version_d": 3,
    ".shstrtab": 1,
}
NUMBERS = (0, 1, 2, 7, 8, 12, 24, 0x7F, 0x80, 0xFF, 0x7FFF, 0x8000, 0xFFFF, 0x7FFFFFFF, 0x80000000, 0xFFFFFFF0, 0xFFFFFFFF)
LARGE = (2**32, 2**60, 2**61, 2**63 - 1, 2**63, 2**64 - 1)


@dataclass
class Base:
    """A sound library: its bytes, the offsets of its entries, and the file that holds it."""

    name: str
    contents: bytes
    entries: list[int] = field(default_factory=list)
    file: str = ""

    @cached_property
    def image(self) -> Image:
        return apart(self.contents)


def number_near(rng: random.Random, old: int, most: int) -> int:
    """A number near the old one, or near an end of the range."""
    choice = rng.randrange(4)
    if choice == 0:
        return (old + rng.choice((-2, -1, 1, 2, 8, -8, 64))) % most
    if choice == 1:
        return rng.choice(NUMBERS) % most
    if choice == 2:
        return rng.choice(LARGE) % most
    return rng.randrange(most)


def put_number(rng: random.Random, body: bytearray, at: int, size: int) -> None:
    """Puts another number into a field of `size` bytes."""
    if at < 0 or at + size > len(body):
        return
    old = int.from_bytes(body[at : at + size], "little")
    body[at : at + size] = number_near(rng, old, 256**size).to_bytes(size, "little")


def change_bits(rng: random.Random, body: bytearray) -> None:
    for _ in range(rng.randint(1, 3)):
        body[rng.randrange(len(body))] ^= 1 << rng.randrange(8)


def change_field(rng: random.Random, body: bytearray) -> None:
    size = rng.choice((1, 1, 2, 4, 4, 8))
    put_number(rng, body, rng.randrange(len(body)) // size * size, size)


def change_leb(rng: random.Random, body: bytearray) -> None:
    """Puts another LEB128 number in place of one, with as many bytes or more."""
    at = rng.randrange(len(body))
    end = at
    while end < len(body) - 1 and body[end] >= 0x80 and end - at < 9:
        end += 1
    size = rng.choice((end - at + 1, end - at + 1, 2, 5, 10, 11))
    spelled = bytearray(rng.randrange(0x80) | 0x80 for _ in range(size))
    spelled[-1] &= 0x7F
    body[at : at + size] = spelled


def copy_part(rng: random.Random, body: bytearray) -> None:
    """Copies bytes from one place over another one."""
    size = min(len(body), rng.choice((1, 4, 8, 12, 16, 24, 40, 64)))
    source, target = (rng.randrange(len(body) - size + 1) for _ in range(2))
    body[target : target + size] = body[source : source + size]


def swap_parts(rng: random.Random, body: bytearray) -> None:
    size = min(len(body) // 2, rng.choice((1, 2, 4, 8, 24, 64)))
    if size == 0:
        return
    one, other = sorted(rng.randrange(len(body) - size + 1) for _ in range(2))
    if other - one >= size:
        body[one : one + size], body[other : other + size] = body[other : other + size], body[one : one + size]


def cut_out(rng: random.Random, body: bytearray) -> None:
    at = rng.randrange(len(body))
    del body[at : at + rng.choice((1, 2, 4, 16, len(body)))]


def put_in(rng: random.Random, body: bytearray) -> None:
    at = rng.randrange(len(body) + 1)
    body[at:at] = bytes(rng.choice((0, 1, 0x7F, 0x80, 0xFF, rng.randrange(256))) for _ in range(rng.choice((1, 2, 4, 8))))


IN_PLACE = (change_bits, change_field, change_field, change_leb, copy_part, swap_parts)
RESIZING = (cut_out, put_in, copy_part, change_leb)


def chosen_part(rng: random.Random, image: Image) -> Part | None:
    there = [part for part in image.parts if part.name in READ and part.contents]
    if not there:
        return None
    return rng.choices(there, [READ[part.name] for part in there])[0]


def change_header(rng: random.Random, body: bytearray) -> None:
    """Changes the file header, or a section header."""
    table = struct.unpack_from("<Q", body, 40)[0]
    if rng.randrange(3) == 0 or table + 64 > len(body):
        put_number(rng, body, rng.choice((4, 5, 6, 16, 18, 20, 58, 60, 62)), rng.choice((1, 2)))
        put_number(rng, body, 40, rng.choice((1, 8))) if rng.randrange(4) == 0 else None
        return
    number = rng.randrange((len(body) - table) // 64)
    at, size = rng.choice(((0, 4), (4, 4), (8, 8), (24, 8), (32, 8), (40, 4), (44, 4), (56, 8)))
    put_number(rng, body, table + 64 * number + at, size)


def change_reference(rng: random.Random, image: Image, base: Base) -> None:
    """Replaces a number of four bytes in an entry with the offset of another entry."""
    part = image.named(".debug_info")
    if part is None or not base.entries or len(part.contents) < 32:
        return
    entry = rng.choice(base.entries)
    at = min(entry + rng.randint(1, 16), len(part.contents) - 4)
    part.contents[at : at + 4] = rng.choice(base.entries).to_bytes(4, "little")


def copy_entry(rng: random.Random, image: Image, base: Base) -> None:
    """Inserts the bytes of one entry at another one, and moves what follows."""
    part = image.named(".debug_info")
    if part is None or len(base.entries) < 3:
        return
    number = rng.randrange(len(base.entries) - 1)
    bytes_of = part.contents[base.entries[number] : base.entries[number + 1]]
    at = rng.choice(base.entries)
    part.contents[at:at] = bytes_of * rng.choice((1, 1, 2, 30))


def mend_unit(image: Image, before: int) -> None:
    """Adjusts the length of the unit to what was inserted or cut out, if there is only one unit."""
    part = image.named(".debug_info")
    if part is None or len(part.contents) < 4:
        return
    length = int.from_bytes(part.contents[:4], "little")
    if length + 4 == before:
        part.contents[:4] = (max(len(part.contents) - 4, 0)).to_bytes(4, "little")


def splice(rng: random.Random, image: Image, other: Image) -> None:
    """Puts a section of another library in place of the section of the same name."""
    part = chosen_part(rng, image)
    donor = other.named(part.name) if part else None
    if part and donor:
        part.contents = bytearray(donor.contents)


def rebuilt(rng: random.Random, base: Base, bases: list[Base]) -> bytes:
    """The library, with sections of other contents or sizes."""
    image = base.image.copy()
    info = image.named(".debug_info")
    before = len(info.contents) if info else 0
    for _ in range(rng.randint(1, 3)):
        match rng.randrange(6):
            case 0:
                splice(rng, image, rng.choice(bases).image)
            case 1:
                change_reference(rng, image, base)
            case 2:
                copy_entry(rng, image, base)
            case _:
                part = chosen_part(rng, image)
                if part and part.contents:
                    rng.choice(RESIZING)(rng, part.contents)
    if rng.randrange(3):
        mend_unit(image, before)
    return image.joined()


def in_place(rng: random.Random, base: Base) -> bytes:
    """The library, with changes that move nothing."""
    body = bytearray(base.contents)
    sections = base.image
    for _ in range(rng.choice((1, 1, 1, 2, 4))):
        part = chosen_part(rng, sections)
        if part is None or rng.randrange(6) == 0:
            change_header(rng, body)
            continue
        at, size = part.fields[4], part.fields[5]
        inner = body[at : at + size]
        if inner:
            rng.choice(IN_PLACE)(rng, inner)
            body[at : at + size] = inner[:size].ljust(size, b"\0")
    return bytes(body)


def damaged(rng: random.Random, bases: list[Base]) -> tuple[Base, bytes]:
    """A library and a damaged copy of it."""
    base = rng.choice(bases)
    choice = rng.randrange(20)
    if choice == 0:
        return base, base.contents[: rng.randrange(len(base.contents))]
    if choice == 1:
        body = bytearray(base.contents)
        change_bits(rng, body)
        return base, bytes(body)
    if choice < 9:
        return base, rebuilt(rng, base, bases)
    return base, in_place(rng, base)
