"""The names of the headers that a development package installs, read as data: nothing of the package is placed on the disk."""

from __future__ import annotations

from pathlib import Path, PurePosixPath
from typing import Iterator

from abi_tools import deb_files, rpm_files
from abi_tools.archives import Archive, Kind
from abi_tools.faults import Fault
from abi_tools.gate_inputs import first_fault
from abi_tools.limits import MOST_MEMBERS

HEADERS = (".h", ".hh", ".hpp", ".hxx", ".inc")


def header_names(package: Path) -> set[str]:
    """The file names of the headers in a .deb or a .rpm. Raises a fault if it is damaged, too large or no package."""
    first_fault([package])
    return {name for name in _names(package) if PurePosixPath(name).suffix in HEADERS}


def _names(package: Path) -> Iterator[str]:
    """The file names of the files and links in a package."""
    with package.open("rb") as stream:
        magic = stream.read(len(deb_files.MAGIC))
        stream.seek(0)
        if magic == deb_files.MAGIC:
            archive = Archive(deb_files.data_of(stream, package), "tar", package)
        elif magic.startswith(rpm_files.MAGIC):
            archive = rpm_files.Payload(stream, package)
        else:
            raise Fault(f"{package} is neither a .deb nor a .rpm")
        for number, member in enumerate(archive.members()):
            if number >= MOST_MEMBERS:
                raise Fault(f"{package} has more than {MOST_MEMBERS} members")
            if member.kind in (Kind.FILE, Kind.LINK, Kind.HARD_LINK):
                yield member.name.rpartition("/")[2]
