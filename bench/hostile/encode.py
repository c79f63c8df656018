"""Numbers and texts as bytes, in little endian."""


def u8(number: int) -> bytes:
    return number.to_bytes(1, "little")


def u16(number: int) -> bytes:
    return number.to_bytes(2, "little")


def u32(number: int) -> bytes:
    return number.to_bytes(4, "little")


def u64(number: int) -> bytes:
    return number.to_bytes(8, "little")


def uleb(number: int) -> bytes:
    """An unsigned LEB128 number (DWARF 5, section 7.6)."""
    spelled = bytearray()
    while number > 0x7F:
        spelled.append(number & 0x7F | 0x80)
        number >>= 7
    spelled.append(number)
    return bytes(spelled)


def text(letters: str) -> bytes:
    """A text with its terminating zero."""
    return letters.encode() + b"\0"


DIGITS = "abcdefghijklmnopqrstuvwxyz"


def short_name(number: int) -> str:
    """A short name, different for each number."""
    letters = DIGITS[number % 26]
    while number >= 26:
        number //= 26
        letters += DIGITS[number % 26]
    return letters
