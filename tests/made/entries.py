"""Writes the debugging information entries of one unit (DWARF 5, section 7.5)."""

from __future__ import annotations

import struct
from dataclasses import dataclass, field

FORM_ADDR, FORM_BLOCK1, FORM_DATA1, FORM_STRING, FORM_SDATA = 0x01, 0x0A, 0x0B, 0x08, 0x0D
FORM_UDATA, FORM_REF4, FORM_EXPRLOC, FORM_FLAG_PRESENT = 0x0F, 0x13, 0x18, 0x19
TAG_LABEL, TAG_COMPILE_UNIT = 0x0A, 0x11
AT_LANGUAGE, AT_DESCRIPTION = 0x13, 0x5A
LANG_C99 = 0x0C


def uleb(number: int) -> bytes:
    """An unsigned number of variable length."""
    data = b""
    while number >= 0x80:
        data += bytes([number & 0x7F | 0x80])
        number >>= 7
    return data + bytes([number])


def sleb(number: int) -> bytes:
    """A signed number of variable length."""
    data = b""
    while not -0x40 <= number < 0x40:
        data += bytes([number & 0x7F | 0x80])
        number >>= 7
    return data + bytes([number & 0x7F])


@dataclass(frozen=True)
class To:
    """A reference to the entry with a number."""

    number: int


@dataclass
class Entry:
    """An entry: its tag, its attributes, each with its form and its value, and its children."""

    tag: int
    attributes: list[tuple[int, int, bytes | To]] = field(default_factory=list)
    children: list[Entry] = field(default_factory=list)

    def add(self, attribute: int, form: int, value: bytes | To) -> None:
        """Appends an attribute."""
        self.attributes.append((attribute, form, value))

    def name(self, text: str) -> None:
        """Appends a name, unless it is empty."""
        if text:
            self.add(0x03, FORM_STRING, text.encode() + b"\0")

    def number(self, attribute: int, value: int) -> None:
        """Appends an unsigned number."""
        self.add(attribute, FORM_UDATA, uleb(value))

    def type(self, number: int) -> None:
        """Appends a type, unless it is void."""
        if number:
            self.add(0x49, FORM_REF4, To(number))


class Unit:
    """A compile unit of version 5. The entry of number n begins at n times STEP."""

    STEP = 128
    HEADER = 12

    def __init__(self) -> None:
        self.codes: dict[tuple[object, ...], int] = {}
        self.abbreviations = b""
        self.data = bytes(self.HEADER)

    def _code(self, entry: Entry, has_children: bool) -> bytes:
        key = (entry.tag, has_children, *[(attribute, form) for attribute, form, _ in entry.attributes])
        if key not in self.codes:
            self.codes[key] = len(self.codes) + 1
            pairs = b"".join(uleb(attribute) + uleb(form) for attribute, form, _ in entry.attributes)
            self.abbreviations += uleb(self.codes[key]) + uleb(entry.tag) + bytes([has_children]) + pairs + b"\0\0"
        return uleb(self.codes[key])

    def _put(self, entry: Entry, has_children: bool) -> None:
        self.data += self._code(entry, has_children)
        for _, _, value in entry.attributes:
            self.data += value if isinstance(value, bytes) else struct.pack("<I", value.number * self.STEP)

    def put(self, entry: Entry) -> None:
        """Appends an entry with its children."""
        self._put(entry, bool(entry.children))
        for child in entry.children:
            self.put(child)
        if entry.children:
            self.data += b"\0"

    def _pad(self, to: int) -> None:
        # Labels say nothing about types.
        gap = to - len(self.data)
        if gap == 1:
            self.put(Entry(TAG_LABEL))
        elif gap:
            self.put(Entry(TAG_LABEL, [(AT_DESCRIPTION, FORM_BLOCK1, bytes([gap - 2]) + bytes(gap - 2))]))
        assert len(self.data) == to, f"an entry before {to} is too long"

    def made(self, entries: list[Entry]) -> dict[str, bytes]:
        """The sections of the unit with these entries, which have the numbers 1 and up."""
        root = Entry(TAG_COMPILE_UNIT, [(AT_LANGUAGE, FORM_DATA1, bytes([LANG_C99]))])
        self._put(root, True)
        for number, entry in enumerate(entries, 1):
            self._pad(number * self.STEP)
            self.put(entry)
        self.data += b"\0"
        header = struct.pack("<IHBBI", len(self.data) - 4, 5, 1, 8, 0)
        return {".debug_info": header + self.data[self.HEADER :], ".debug_abbrev": self.abbreviations + b"\0"}
