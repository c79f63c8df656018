"""What is in a .rpm: lead, signature, header and payload (rpm's `docs/manual/format_v4.md`)."""

from __future__ import annotations

import stat
import struct
from collections import Counter
from dataclasses import dataclass
from typing import BinaryIO, Iterator, Mapping, NamedTuple, Optional, Sequence

from abi_tools.archives import KINDS, Archive, Kind, Member
from abi_tools.faults import Fault
from abi_tools.limits import LARGEST_HEADER
from abi_tools.shown import name_shown
from abi_tools.streams import PIECE, inflated

MAGIC = b"\xed\xab\xee\xdb"
_LEAD = 96
# A header: its magic bytes with the version, four reserved bytes, the number of its entries, and the bytes of its values.
_HEADER = struct.Struct(">4s4xII")
_HEADER_MAGIC = b"\x8e\xad\xe8\x01"
# An entry: tag, type, offset and count.
_ENTRY = struct.Struct(">IIII")
# RPM_INT16_TYPE, RPM_INT32_TYPE, RPM_INT64_TYPE, RPM_STRING_TYPE and RPM_STRING_ARRAY_TYPE, and the tags that are read
# (`docs/manual/tags.md`).
_INT16, _INT32, _INT64, _STRING, _STRINGS = 3, 4, 5, 6, 8
_VERSION, _RELEASE, _REQUIRES = 1001, 1002, 1049
_PAYLOAD_FORMAT, _PAYLOAD_COMPRESSOR = 1124, 1125
# The files of a package: Oldfilenames, Filesizes and Longfilesizes, Filemodes, Filelinktos, Filedevices, Fileinodes, Dirindexes, Basenames
# and Dirnames.
_OLD_NAMES, _SIZES, _LONG_SIZES, _MODES, _TARGETS, _DEVICES, _INODES = 1027, 1028, 5008, 1030, 1036, 1095, 1096
_FOLDER_NUMBERS, _FILE_NAMES, _FOLDERS = 1116, 1117, 1118
_READ = (_VERSION, _RELEASE, _REQUIRES, _PAYLOAD_FORMAT, _PAYLOAD_COMPRESSOR, _OLD_NAMES, _SIZES, _LONG_SIZES, _MODES, _TARGETS, _DEVICES,
         _INODES, _FOLDER_NUMBERS, _FILE_NAMES, _FOLDERS)
# How many texts an array may have, and how many letters of a text a sentence quotes.
_MOST_TEXTS = 1 << 19
_LONGEST_SAID = 16
_CPIO = "cpio"
# The compressors that rpm names, and the suffixes of `streams.WAYS`.
_WAYS = {"gzip": ".gz", "bzip2": ".bz2", "xz": ".xz", "lzma": ".lzma", "zstd": ".zst"}


@dataclass(frozen=True)
class _Header:
    """A header: of each tag the type, offset and count of its value, the bytes of all values, and how many bytes the header has after its
    first ones."""

    entries: Mapping[int, tuple[int, int, int]]
    values: bytes
    size: int

    def text(self, tag: int, default: str = "") -> str:
        """The text of a tag; the default if it has none."""
        kind, offset, _ = self.entries.get(tag, (0, 0, 0))
        if kind != _STRING:
            return default
        return _decoded(self.values[offset:max(self.values.find(b"\0", offset), offset)])

    def texts(self, tag: int) -> list[str]:
        """The texts of a tag with an array of them; empty if it has none."""
        kind, offset, count = self.entries.get(tag, (0, 0, 0))
        if kind != _STRINGS:
            return []
        return [_decoded(one) for one in self.values[offset:].split(b"\0", count)[:count]]

    def numbers(self, tag: int) -> list[int]:
        """The numbers of a tag; empty if it has none, or if they do not lie in the header."""
        kind, offset, count = self.entries.get(tag, (0, 0, 0))
        form = {_INT16: "H", _INT32: "I", _INT64: "Q"}.get(kind)
        if form is None or offset + count * struct.calcsize(form) > len(self.values):
            return []
        return list(struct.unpack_from(f">{count}{form}", self.values, offset))


class Listed(NamedTuple):
    """What the header says of a file: its kind, the target of a symbolic link, its size, and its device and inode: files that have them in
    common are names of one file. Without an inode a file has one name."""

    kind: Kind
    target: str
    size: int
    inode: Optional[tuple[int, int]]


class Payload(Archive):
    """The archive of the files that a .rpm installs. What rpm installs is what the header says of each file, so an archive that says
    otherwise is refused, as rpm refuses a file that the header does not list."""

    def __init__(self, stream: BinaryIO, file: object) -> None:
        """Reads the headers. Raises a fault that names the package `file` if it is damaged."""
        header = _package_header(stream, file)
        form, way = header.text(_PAYLOAD_FORMAT, _CPIO), header.text(_PAYLOAD_COMPRESSOR, "gzip")
        if form != _CPIO or way not in _WAYS:
            raise Fault(f"{file} has an archive of the form {form[:_LONGEST_SAID]}, compressed by {way[:_LONGEST_SAID]}, which is not read")
        super().__init__(inflated(iter(lambda: stream.read(PIECE), b""), _WAYS[way], file), "cpio", file)
        self._listed = _listed(header, file)

    def members(self) -> Iterator[Member]:
        """The members in order. Raises a fault if the header says otherwise of one."""
        first_names: dict[tuple[int, int], str] = {}
        for member in super().members():
            listed = self._listed.get(_plain(member.name))
            if listed is None or not _agree(member, listed, first_names):
                said = "does not list" if listed is None else "says otherwise of"
                raise Fault(f"{self.file} is refused: its header {said} its member {name_shown(member.name)}")
            yield member


def _agree(member: Member, listed: Listed, first_names: dict[tuple[int, int], str]) -> bool:
    """Whether a member is what the header says: its kind, the target of a link, of which file it is another name (`first_names` has the
    first name of each inode so far), and its size. Of the names of one file only one has contents."""
    kind = Kind.FILE if member.kind is Kind.HARD_LINK else member.kind
    if listed.kind is not kind or kind is Kind.LINK and listed.target != member.target:
        return False
    if kind is not Kind.FILE:
        return True
    name = _plain(member.name)
    first = name if listed.inode is None else first_names.setdefault(listed.inode, name)
    return first == _plain(member.target if member.kind is Kind.HARD_LINK else member.name) and member.size in (
        (listed.size,) if listed.inode is None else (0, listed.size))


def _plain(name: str) -> str:
    """The name of a file as the header spells it."""
    return f"/{name.removeprefix('./').lstrip('/')}"


def _listed(header: _Header, file: object) -> dict[str, Listed]:
    """The files that the header lists."""
    names, targets = _names(header, file), header.texts(_TARGETS)
    kinds = [KINDS.get(stat.S_IFMT(mode), Kind.OTHER) for mode in header.numbers(_MODES)]
    sizes = header.numbers(_SIZES) or header.numbers(_LONG_SIZES)
    inodes = _inodes(header, kinds)
    listed = {_plain(name): one for name, one in zip(names, map(Listed, kinds, targets, sizes, inodes))}
    if not len(listed) == len(names) == len(kinds) == len(targets) == len(sizes) == len(inodes):
        raise Fault(f"{file} is damaged: the lists of files in its header differ, or name a file twice")
    return listed


def _names(header: _Header, file: object) -> list[str]:
    """The names of the files that the header lists."""
    folders, bases, numbers = header.texts(_FOLDERS), header.texts(_FILE_NAMES), header.numbers(_FOLDER_NUMBERS)
    if len(numbers) != len(bases) or any(number >= len(folders) for number in numbers):
        raise Fault(f"{file} is damaged: its header has no folder of a file")
    return [f"{folders[number]}{base}" for number, base in zip(numbers, bases)] or header.texts(_OLD_NAMES)


def _inodes(header: _Header, kinds: Sequence[Kind]) -> list[Optional[tuple[int, int]]]:
    """Of each file that has several names, its device and inode; None for any other."""
    numbers = header.numbers(_INODES) or [0] * len(kinds)
    pairs = list(zip(header.numbers(_DEVICES) or [0] * len(numbers), numbers))
    counts = Counter(pair for pair, kind in zip(pairs, kinds) if kind is Kind.FILE)
    return [pair if counts[pair] > 1 and pair[1] > 0 else None for pair in pairs]


def _decoded(text: bytes) -> str:
    return text.decode("utf-8", "surrogateescape")


def version_and_requires(stream: BinaryIO, file: object) -> tuple[str, list[str]]:
    """The version of a .rpm with its release, and the names of all that it requires. Raises a fault that names the package `file` if it is
    damaged."""
    header = _package_header(stream, file)
    return f"{header.text(_VERSION)}-{header.text(_RELEASE)}", sorted({one for one in header.texts(_REQUIRES) if one})


def _package_header(stream: BinaryIO, file: object) -> _Header:
    """The header of the package, behind the lead and the signature."""
    if len(stream.read(_LEAD)) < _LEAD:
        raise Fault(f"{file} is damaged: it is cut short")
    # The signature ends at a multiple of eight bytes.
    stream.read(-_header(stream, file).size % 8)
    return _header(stream, file)


def _header(stream: BinaryIO, file: object) -> _Header:
    start = stream.read(_HEADER.size)
    if len(start) < _HEADER.size:
        raise Fault(f"{file} is damaged: it is cut short")
    magic, count, size = _HEADER.unpack(start)
    whole = count * _ENTRY.size + size
    if magic != _HEADER_MAGIC or whole > LARGEST_HEADER:
        raise Fault(f"{file} is damaged: it has no header of rpm, or one of more than {LARGEST_HEADER} bytes")
    contents = stream.read(whole)
    if len(contents) < whole:
        raise Fault(f"{file} is damaged: it is cut short")
    read = [(tag, (kind, offset, many)) for tag, kind, offset, many in _ENTRY.iter_unpack(contents[:count * _ENTRY.size]) if tag in _READ]
    entries = dict(read)
    if len(entries) != len(read):
        raise Fault(f"{file} is damaged: its header has a tag twice")
    if any(offset > size or kind == _STRINGS and many > _MOST_TEXTS for kind, offset, many in entries.values()):
        raise Fault(f"{file} is damaged: its header points past its end, or has an array of more than {_MOST_TEXTS} texts")
    return _Header(entries, contents[count * _ENTRY.size:], whole)
