"""What the control file of a .deb says of the package."""

from __future__ import annotations

import re
from dataclasses import dataclass
from pathlib import Path
from typing import Iterator, Mapping, Optional

from abi_tools import deb_files
from abi_tools.archives import Archive, Kind
from abi_tools.faults import Fault
from abi_tools.shown import name_shown

_LARGEST = 1 << 20
# What deb-control(5) and deb-version(7) allow. Nothing else is given to apt.
_NAME = re.compile(r"[a-z0-9][a-z0-9+.-]+")
_VERSION = re.compile(r"[0-9A-Za-z][0-9A-Za-z.+:~-]*")
_ARCHITECTURE = re.compile(r"[a-z0-9][a-z0-9-]*")
_SOURCE = re.compile(r"(\S+)(?: +\((\S+)\))?")
# The ends of the names of packages that have debug information alone.
DEBUG = ("-dbgsym", "-dbg")


@dataclass(frozen=True)
class About:
    """A version of a package: its name, version and architecture, and the name and version of its source package."""

    name: str
    version: str
    architecture: str
    source: tuple[str, str]

    @property
    def is_debug(self) -> bool:
        """Whether it has debug information alone."""
        return self.name.endswith(DEBUG)

    def is_made_beside(self, package: "About") -> bool:
        """Whether it has all debug files of another package: debhelper made it with that."""
        return self.name == f"{package.name}{DEBUG[0]}" and self.version == package.version

    def has_debug_of(self, package: "About") -> bool:
        """Whether it may have the debug files of another package."""
        is_of_source = self.name.endswith(DEBUG[1]) and self.source == package.source
        # A source may have been built several times: `1.2-1` and `1.2-1+b1`.
        return self.is_made_beside(package) or is_of_source and self.version == package.version

    def __str__(self) -> str:
        return f"{self.name} {self.version} {self.architecture}"


def about_fields(fields: Mapping[str, str]) -> Optional[About]:
    """The same by the fields of a control file or of an index; None if one of them is missing, or has no such value."""
    name, version, architecture = (str(fields.get(key, "")) for key in ("Package", "Version", "Architecture"))
    if not (_NAME.fullmatch(name) and _VERSION.fullmatch(version) and _ARCHITECTURE.fullmatch(architecture)):
        return None
    source = _SOURCE.fullmatch(str(fields.get("Source", name)).strip())
    return None if source is None else About(name, version, architecture, (source[1], source[2] or version))


def about(file: Path) -> About:
    """What a .deb says of itself. Raises a fault if it says nothing."""
    # Imported here, since only some commands need it.
    from debian.deb822 import Deb822

    text = control_text(file)
    found = None if text is None else about_fields(Deb822(text.decode("utf-8", "surrogateescape")))
    if found is None:
        raise Fault(f"{name_shown(str(file))} does not say its name, its version and its architecture as a .deb should")
    return found


def control_text(file: Path) -> Optional[bytes]:
    """The control file of a .deb; None if there is none. Raises a fault if the package is damaged."""
    with file.open("rb") as stream:
        if stream.read(len(deb_files.MAGIC)) != deb_files.MAGIC:
            raise Fault(f"{file} is no .deb")
        stream.seek(0)
        return control_in(Archive(deb_files.control_of(stream, file), "tar", file))


def control_in(archive: Archive) -> Optional[bytes]:
    """The control file in the archive of control files; None if there is none. Raises a fault if the archive is damaged."""
    for member in _files(archive):
        if member.removeprefix("./") == "control":
            return archive.read(_LARGEST)
    return None


def _files(archive: Archive) -> Iterator[str]:
    return (member.name for member in archive.members() if member.kind is Kind.FILE)
