"""Writes debug information entry by entry (DWARF 5)."""

from dataclasses import dataclass

from .encode import u8, u16, u32, u64, uleb

ARRAY, ENUMERATION, PARAMETER, MEMBER, POINTER, COMPILE_UNIT = 0x01, 0x04, 0x05, 0x0D, 0x0F, 0x11
STRUCTURE, TYPEDEF, UNION, SUBRANGE, BASE, ENUMERATOR, FUNCTION, TYPE_UNIT = 0x13, 0x16, 0x17, 0x21, 0x24, 0x28, 0x2E, 0x41
LEXICAL_BLOCK, SUBROUTINE, CONST_TYPE = 0x0B, 0x15, 0x26

AT_NAME, AT_BYTE_SIZE, AT_LOW_PC, AT_LANGUAGE, AT_CONST_VALUE = 0x03, 0x0B, 0x11, 0x13, 0x1C
AT_ABSTRACT_ORIGIN, AT_COUNT, AT_LOCATION, AT_ENCODING, AT_EXTERNAL = 0x31, 0x37, 0x38, 0x3E, 0x3F
AT_DECLARATION, AT_TYPE, AT_RANGES, AT_STR_OFFSETS_BASE = 0x3C, 0x49, 0x55, 0x72

ADDR, DATA2, DATA4, STRING, DATA1, STRP, UDATA = 0x01, 0x05, 0x06, 0x08, 0x0B, 0x0E, 0x0F
FLAG, REF1, REF4, SEC_OFFSET, FLAG_PRESENT, IMPLICIT, STRX1 = 0x0C, 0x11, 0x13, 0x17, 0x19, 0x21, 0x25

C99 = 0x0C
SIGNED = 5
HEADER_SIZE = 12


@dataclass(frozen=True)
class Abbreviation:
    """An abbreviation. An attribute with the form IMPLICIT has a third number, its value."""

    code: int
    tag: int
    children: bool
    pairs: tuple[tuple[int, ...], ...] = ()

    def spelled(self) -> bytes:
        pairs = b"".join(uleb(number) for pair in self.pairs for number in pair)
        return uleb(self.code) + uleb(self.tag) + u8(self.children) + pairs + b"\0\0"


def table(abbreviations: list[Abbreviation]) -> bytes:
    return b"".join(one.spelled() for one in abbreviations) + b"\0"


# The codes of the abbreviations that most files share.
UNIT, INT, TO, STRUCT, FIELD, CALL, TAKES, NAMED, ROW, TIMES, EITHER, HELD, FLAT_CALL = range(1, 14)
FREE = 14

SHARED = [
    Abbreviation(UNIT, COMPILE_UNIT, True, ((AT_LANGUAGE, DATA1),)),
    Abbreviation(INT, BASE, False, ((AT_BYTE_SIZE, DATA1), (AT_ENCODING, DATA1))),
    Abbreviation(TO, POINTER, False, ((AT_TYPE, REF4),)),
    Abbreviation(STRUCT, STRUCTURE, True, ((AT_BYTE_SIZE, DATA4),)),
    Abbreviation(FIELD, MEMBER, False, ((AT_NAME, STRING), (AT_TYPE, REF4), (AT_LOCATION, DATA4))),
    Abbreviation(CALL, FUNCTION, True, ((AT_LOW_PC, ADDR),)),
    Abbreviation(TAKES, PARAMETER, False, ((AT_TYPE, REF4),)),
    Abbreviation(NAMED, TYPEDEF, False, ((AT_NAME, STRING), (AT_TYPE, REF4))),
    Abbreviation(ROW, ARRAY, True, ((AT_TYPE, REF4),)),
    Abbreviation(TIMES, SUBRANGE, False, ((AT_COUNT, DATA4),)),
    Abbreviation(EITHER, UNION, True, ((AT_BYTE_SIZE, DATA4),)),
    Abbreviation(HELD, MEMBER, False, ((AT_TYPE, REF4), (AT_LOCATION, DATA4))),
    Abbreviation(FLAT_CALL, FUNCTION, False, ((AT_LOW_PC, ADDR),)),
]

UNIT_ROOT = u8(UNIT) + u8(C99)


class Info:
    """The bytes of `.debug_info` while they are written. Offsets are relative to the start of the open unit."""

    def __init__(self) -> None:
        self.bytes = bytearray()
        self.start = 0

    def begin(self, abbreviations_at: int = 0, root: bytes = UNIT_ROOT) -> None:
        self.start = len(self.bytes)
        self.bytes += u32(0) + u16(5) + u8(1) + u8(8) + u32(abbreviations_at) + root

    def begin_type(self, signature: int, type_at: int, root: bytes) -> None:
        """Begins a type unit."""
        self.start = len(self.bytes)
        self.bytes += u32(0) + u16(5) + u8(2) + u8(8) + u32(0) + u64(signature) + u32(type_at) + root

    def end(self) -> None:
        self.bytes[self.start : self.start + 4] = u32(len(self.bytes) - self.start - 4)

    def here(self) -> int:
        return len(self.bytes) - self.start

    def add(self, code: int, *fields: bytes) -> int:
        """Adds an entry, and returns its offset."""
        place = self.here()
        self.bytes += uleb(code)
        for one in fields:
            self.bytes += one
        return place

    def close(self) -> None:
        """Ends a list of children."""
        self.bytes += b"\0"

    def put(self, place: int, number: int) -> None:
        """Fills in a reference of four bytes that was left open."""
        at = self.start + place
        self.bytes[at : at + 4] = u32(number)

    def number(self, size: int = 4) -> int:
        return self.add(INT, u8(size), u8(SIGNED))

    def pointer(self, to: int) -> int:
        return self.add(TO, u32(to))

    def field(self, name: str, of_type: int, at: int = 0) -> int:
        return self.add(FIELD, name.encode() + b"\0", u32(of_type), u32(at))

    def held(self, of_type: int, at: int = 0) -> int:
        return self.add(HELD, u32(of_type), u32(at))

    def typedef(self, name: str, of_type: int) -> int:
        return self.add(NAMED, name.encode() + b"\0", u32(of_type))

    def function(self, address: int, *params: int) -> int:
        """Adds a function with parameters of these types."""
        place = self.add(CALL, u64(address))
        for param in params:
            self.add(TAKES, u32(param))
        self.close()
        return place
