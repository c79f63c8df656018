"""Takes an ELF file apart into its sections, and puts them together again."""

import struct
from dataclasses import dataclass

NOBITS = 8
HEADER = struct.Struct("<IIQQQQIIQQ")


@dataclass
class Part:
    """A section: the ten fields of its header, and its contents."""

    fields: list[int]
    contents: bytearray
    name: str


@dataclass
class Image:
    """A file: its header, and its sections."""

    header: bytearray
    parts: list[Part]

    def copy(self) -> "Image":
        parts = [Part(part.fields.copy(), part.contents.copy(), part.name) for part in self.parts]
        return Image(self.header.copy(), parts)

    def named(self, name: str) -> Part | None:
        for part in self.parts:
            if part.name == name:
                return part
        return None

    def joined(self) -> bytes:
        """The bytes of the file: the header, the contents of all sections, and the section table."""
        body = bytearray(self.header)
        for part in self.parts:
            if part.fields[1] in (0, NOBITS):
                continue
            body += bytes(-len(body) % 8)
            part.fields[4], part.fields[5] = len(body), len(part.contents)
            body += part.contents
        body += bytes(-len(body) % 8)
        struct.pack_into("<Q", body, 40, len(body))
        return bytes(body) + b"".join(HEADER.pack(*part.fields) for part in self.parts)


def text_at(table: bytearray, at: int) -> str:
    return table[at : table.find(b"\0", at)].decode("latin-1")


def apart(contents: bytes) -> Image:
    """Takes a sound file apart."""
    table = struct.unpack_from("<Q", contents, 40)[0]
    count, names = struct.unpack_from("<HH", contents, 60)
    parts = []
    for number in range(count):
        fields = list(HEADER.unpack_from(contents, table + 64 * number))
        bytes_of = b"" if fields[1] in (0, NOBITS) else contents[fields[4] : fields[4] + fields[5]]
        parts.append(Part(fields, bytearray(bytes_of), ""))
    for part in parts:
        part.name = text_at(parts[names].contents, part.fields[0])
    return Image(bytearray(contents[:64]), parts)
