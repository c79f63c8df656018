"""Reads the packages of distributions as data. Of their contents only ELF files and rule files are kept, in files that are named by
numbers."""

from __future__ import annotations

import os
import zlib
from dataclasses import dataclass
from pathlib import Path, PurePosixPath
from typing import BinaryIO, Iterator, Optional

from abi_tools import deb_files, rpm_files
from abi_tools.archives import Archive, Kind, Member
from abi_tools.faults import Fault
from abi_tools.limits import LARGEST_KEPT, LARGEST_KEPT_FILE, LARGEST_RULES, LONGEST_NAME
from abi_tools.package_trees import Entry, File, Link, Refused, Tree
from abi_tools.shown import name_shown

ELF_MAGIC = b"\x7fELF"
# The rule file in a package's folder of documentation, compressed or not.
_RULES = ("abi.rules", "abi.rules.gz")
_DOCUMENTATION = PurePosixPath("usr/share/doc")
_PIECE = 1 << 20
# zlib's wbits for the gzip format.
_GZIP = 31


@dataclass(frozen=True)
class Package:
    """A package: its file, and what it installs."""

    file: Path
    tree: Tree

    def kept(self) -> Iterator[Path]:
        """The files of this machine that have its contents."""
        return (file.kept for _, file in self.tree.files() if file.kept is not None)

    @property
    def rules(self) -> Optional[str]:
        """The name of its rule file, if it has one. Raises a fault if it has several."""
        found = sorted(name for name, node in self.tree.entries.items() if _is_rule_name(name) and node is not Entry.FOLDER)
        if len(found) > 1:
            raise Fault(f"{self.file} brings several rule files: {', '.join(map(name_shown, found))}")
        return found[0] if found else None

    def rule_text(self) -> bytes:
        """The contents of its rule file, inflated. Raises a fault if it is a link to another file, too long or damaged."""
        name = self.rules
        file = None if name is None else self.tree.file(name)
        if name is None or file is None or file.kept is None:
            raise Fault(f"{self.file} brings {name_shown(name or '')}, which leads to no rule file in the package")
        packed = file.kept.read_bytes()
        plain = packed if not name.endswith(".gz") else _inflated(packed, name)
        if len(plain) > LARGEST_RULES:
            raise Fault(f"{name_shown(name)} has more than {LARGEST_RULES} bytes")
        return plain


def _is_rule_name(name: str) -> bool:
    return name.endswith(_RULES) and PurePosixPath(name).name in _RULES and PurePosixPath(name).parent.parent == _DOCUMENTATION


def _inflated(packed: bytes, name: str) -> bytes:
    try:
        machine = zlib.decompressobj(_GZIP)
        plain = machine.decompress(packed, LARGEST_RULES + 1)
    except zlib.error as error:
        raise Fault(f"{name_shown(name)} cannot be inflated: {error}") from error
    if not machine.eof and len(plain) <= LARGEST_RULES or machine.unused_data:
        raise Fault(f"{name_shown(name)} cannot be inflated: it is cut short, or other bytes follow")
    return plain


def unpack(file: Path, folder: Path) -> Package:
    """Reads a package, and keeps its ELF files and rule files in `folder`, which must be new. Raises a fault if it is damaged, too large
    or no package."""
    if file.is_dir():
        raise Fault(f"{file} is a folder: name the packages in it")
    if not file.is_file():
        raise Fault(f"there is no package {file}")
    with file.open("rb") as stream:
        magic = stream.read(len(deb_files.MAGIC))
        stream.seek(0)
        if magic == deb_files.MAGIC:
            archive = Archive(deb_files.data_of(stream, file), "tar", file)
        elif magic.startswith(rpm_files.MAGIC):
            archive = rpm_files.Payload(stream, file)
        else:
            raise Fault(f"{file} is neither a .deb nor a .rpm")
        return Package(file, placed(archive, folder, file))


def placed(archive: Archive, folder: Path, file: object) -> Tree:
    """What an archive of the package `file` installs. Keeps its ELF files and rule files in `folder`."""
    placing = _Placing(archive, folder, Tree())
    try:
        for member in archive.members():
            placing.take(member)
    except Refused as refused:
        raise Fault(f"{file} is refused: {refused}") from refused
    return placing.tree


@dataclass
class _Placing:
    """Places the members of an archive in a tree."""

    archive: Archive
    folder: Path
    tree: Tree
    kept: int = 0
    number: int = 0

    def take(self, member: Member) -> None:
        """Places a member, and keeps its contents if they are wanted."""
        if member.kind is Kind.FILE:
            node = File()
            self._fill(node, self.tree.place(member.name, node), member)
        elif member.kind is Kind.HARD_LINK:
            self._take_hard_link(member)
        elif member.kind is Kind.LINK:
            if len(member.target) > LONGEST_NAME or not member.target:
                raise Refused(f"its link {name_shown(member.name)} has no target, or one of more than {LONGEST_NAME} bytes")
            self.tree.place(member.name, Link(member.target))
        else:
            self.tree.place(member.name, Entry.FOLDER if member.kind is Kind.FOLDER else Entry.OTHER)

    def _take_hard_link(self, member: Member) -> None:
        """A second name of a file or, as dpkg makes it, of a symbolic link. In a .rpm the last name of a file has its contents."""
        node = self.tree.named(member.target)
        if isinstance(node, Link) and member.size == 0:
            self.tree.place(member.name, node)
            return
        if not isinstance(node, File):
            raise Refused(f"its member {name_shown(member.name)} is a hard link to {name_shown(member.target)}, which it does not bring")
        place = self.tree.place(member.name, node)
        if member.size > 0:
            if node.size > 0:
                raise Refused(f"its member {name_shown(member.name)} is a hard link with contents of its own")
            self._fill(node, place, member)

    def _fill(self, node: File, place: str, member: Member) -> None:
        """Reads the contents of a file, if they are wanted."""
        node.size = member.size
        start = self.archive.read(len(ELF_MAGIC))
        node.is_elf = start == ELF_MAGIC
        is_rules = _is_rule_name(place)
        if not node.is_elf and not is_rules:
            return
        largest = LARGEST_KEPT_FILE if node.is_elf else LARGEST_RULES
        if member.size > largest:
            node.refused = f"it has {member.size} bytes, and no such file of more than {largest} bytes is read"
            return
        self.kept += member.size
        if self.kept > LARGEST_KEPT:
            raise Refused(f"its ELF files have more than {LARGEST_KEPT} bytes together")
        self.number += 1
        node.kept = self.folder / str(self.number)
        with _new_file(node.kept) as output:
            output.write(start)
            for piece in self._pieces():
                output.write(piece)

    def _pieces(self) -> Iterator[bytes]:
        return iter(lambda: self.archive.read(_PIECE), b"")


def _new_file(path: Path) -> BinaryIO:
    """A new file that nobody else may read."""
    return os.fdopen(os.open(path, os.O_WRONLY | os.O_CREAT | os.O_EXCL | os.O_NOFOLLOW | os.O_CLOEXEC, 0o600), "wb")
