"""Small .deb files: read once, inflated in memory up to a limit, and unpacked from there. A package that is large, unusual or damaged
is left to the general reader, which also says what is wrong with it."""

from __future__ import annotations

import io
import tarfile
from dataclasses import dataclass
from pathlib import Path
from typing import Iterator, Optional

from abi_tools import deb_files
from abi_tools.archives import Archive
from abi_tools.deb_control import control_in
from abi_tools.faults import Fault
from abi_tools.found_libraries import contents_of
from abi_tools.package_sides import Side
from abi_tools.unpacking import Package, placed

# The sizes that a small package has at most: packed, with all its files unpacked, and of its control archive.
_LARGEST_PACKED = 1 << 20
_LARGEST = 16 << 20
_LARGEST_CONTROL = 1 << 20
# What the readers raise if a package is damaged.
_DAMAGED = (Fault, tarfile.TarError, OSError, EOFError, ValueError, KeyError)


@dataclass(frozen=True)
class SmallPackage:
    """A .deb in memory: its file, the text of its control file, and the bytes of the archive of its files."""

    file: Path
    control: bytes
    plain: bytes

    @staticmethod
    def may_be(file: Path) -> bool:
        """Whether a file may be a small package, by its name and its size."""
        return file.suffix in (".deb", ".ddeb") and file.is_file() and file.stat().st_size <= _LARGEST_PACKED

    @classmethod
    def read(cls, file: Path) -> Optional["SmallPackage"]:
        """The package; None if it is not small, or damaged."""
        if not cls.may_be(file):
            return None
        try:
            with file.open("rb") as stream:
                packed_control, packed = deb_files.archives_of(stream, file)
                control, plain = _plain(packed_control, _LARGEST_CONTROL), _plain(packed, _LARGEST)
            if plain is None or not _is_small(tarfile.open(fileobj=io.BytesIO(plain), mode="r:")):
                return None
            text = None if control is None else control_in(Archive(iter([control]), "tar", file))
        except _DAMAGED:
            return None
        return None if text is None else cls(file, text, plain)


def small_side(packages: list[SmallPackage], root: Path) -> Side:
    """Unpacks the packages below `root`; only the first of them ships libraries. Raises a fault if two have the same file, or if one has
    what dpkg refuses."""
    root.mkdir(mode=0o700)
    found = []
    for number, one in enumerate(packages):
        folder = root / str(number)
        folder.mkdir(mode=0o700)
        found.append(Package(one.file, placed(Archive(iter([one.plain]), "tar", one.file), folder, one.file)))
    return Side.of(found, [contents_of(package) for package in found[:1]])


def _is_small(archive: tarfile.TarFile) -> bool:
    """Whether the files of an archive stay below the limit. Sparse files count with their full size, and an archive with hard links is
    not small, since each name would take as much again."""
    return sum(_LARGEST + 1 if member.islnk() else member.size for member in archive.getmembers()) <= _LARGEST


def _plain(pieces: Iterator[bytes], most: int) -> Optional[bytes]:
    """The bytes of an archive; None if there are more than `most`."""
    parts, count = [], 0
    for piece in pieces:
        count += len(piece)
        if count > most:
            return None
        parts.append(piece)
    return b"".join(parts)
