"""The archives in a .deb (deb(5)), chosen as dpkg chooses them."""

from __future__ import annotations

import os
from dataclasses import dataclass
from typing import BinaryIO, Iterator, Optional

from abi_tools.faults import Fault
from abi_tools.shown import name_shown
from abi_tools.streams import PIECE, WAYS, inflated

MAGIC = b"!<arch>\n"
# A header of ar(5): the name, times and modes, the size, and the bytes that end it.
_HEADER = 60
_NAME, _SIZE, _END = slice(0, 16), slice(48, 58), slice(58, 60)
_END_OF_HEADER = b"`\n"
_VERSION, _CONTROL, _DATA = "debian-binary", "control.tar", "data.tar"
_VERSION_2 = b"2."
_LONGEST_VERSION = 64
# The compressions that dpkg takes for the archive of control files.
_WAYS_OF_CONTROL = ("", ".gz", ".xz", ".zst")


@dataclass(frozen=True)
class _Member:
    """A member of the package: its name, where its bytes begin, and how many there are."""

    name: str
    start: int
    size: int


def data_of(stream: BinaryIO, file: object) -> Iterator[bytes]:
    """The archive of the files that a .deb installs, inflated: the first member `data.tar` with a suffix, as for dpkg. Raises a fault
    that names the package `file` if dpkg would refuse the package for its members."""
    return _archive(stream, file, _DATA)


def control_of(stream: BinaryIO, file: object) -> Iterator[bytes]:
    """The archive of the control files of a .deb, inflated."""
    return _archive(stream, file, _CONTROL)


def archives_of(stream: BinaryIO, file: object) -> tuple[Iterator[bytes], Iterator[bytes]]:
    """The archive of the control files and that of the files, which are to be read one after the other."""
    chosen = _chosen(stream, file)
    return _inflated(stream, chosen, file, _CONTROL), _inflated(stream, chosen, file, _DATA)


def _archive(stream: BinaryIO, file: object, kind: str) -> Iterator[bytes]:
    return _inflated(stream, _chosen(stream, file), file, kind)


def _inflated(stream: BinaryIO, chosen: dict[str, _Member], file: object, kind: str) -> Iterator[bytes]:
    member = chosen[kind]
    return inflated(_pieces(stream, member, file), member.name.removeprefix(kind), file)


def _chosen(stream: BinaryIO, file: object) -> dict[str, _Member]:
    """Both archives. The members must be in order: the version, the control files, and the files; members whose names begin with an
    underscore may stand between them, and nothing after the files is read."""
    found: dict[str, _Member] = {}
    for number, member in enumerate(_members(stream, file)):
        if number == 0:
            _check_version(stream, member, file)
        elif not member.name.startswith("_"):
            kind = _DATA if _CONTROL in found else _CONTROL
            suffix = member.name.removeprefix(kind)
            if suffix == member.name or suffix not in (WAYS if kind == _DATA else _WAYS_OF_CONTROL):
                raise Fault(f"{file} is damaged: it has a member {name_shown(member.name)} where {kind} should be")
            found[kind] = member
            if kind == _DATA:
                return found
    raise Fault(f"{file} is damaged: it has no member {_DATA if _CONTROL in found else _CONTROL}")


def _check_version(stream: BinaryIO, member: _Member, file: object) -> None:
    stream.seek(member.start)
    if member.name != _VERSION or not stream.read(min(member.size, _LONGEST_VERSION)).startswith(_VERSION_2):
        raise Fault(f"{file} is damaged: it does not begin with the version 2 of the format")


def _members(stream: BinaryIO, file: object) -> Iterator[_Member]:
    """The members in order. Raises a fault if one is damaged or does not end in the file."""
    end = os.fstat(stream.fileno()).st_size
    at = len(MAGIC)
    while at < end:
        stream.seek(at)
        header = stream.read(_HEADER)
        size = _size(header[_SIZE])
        if len(header) < _HEADER or header[_END] != _END_OF_HEADER or size is None or at + _HEADER + size > end:
            raise Fault(f"{file} is damaged: a member is cut short, or its header is damaged")
        name = header[_NAME].rstrip(b" ").removesuffix(b"/").decode("ascii", "surrogateescape")
        yield _Member(name, at + _HEADER, size)
        # Members begin at even offsets.
        at += _HEADER + size + size % 2


def _size(digits: bytes) -> Optional[int]:
    stripped = digits.rstrip(b" ")
    return int(stripped) if stripped.isdigit() else None


def _pieces(stream: BinaryIO, member: _Member, file: object) -> Iterator[bytes]:
    stream.seek(member.start)
    left = member.size
    while left:
        piece = stream.read(min(left, PIECE))
        if not piece:
            raise Fault(f"{file} is damaged: it is cut short")
        left -= len(piece)
        yield piece
