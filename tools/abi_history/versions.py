"""The versions of a library as they are given: files, baselines or packages."""

from __future__ import annotations

import shutil
from collections import Counter
from dataclasses import dataclass
from pathlib import Path
from typing import Optional, Sequence

from abi_tools.elf_files import ElfFile
from abi_tools.faults import Fault
from abi_tools.package_judging import joined_or_shipped
from abi_tools.package_sides import PackagedLibrary, Side
from abi_tools.shown import name_shown

_PACKAGES = (".deb", ".ddeb", ".rpm")
# Plugins have other names. Those of libraries are named first, and so many in all.
_LIBRARY, _MOST_NAMED = "lib", 5


@dataclass(frozen=True)
class Given:
    """A version as the command line gives it: its name, and its files: a library or a baseline, or packages of which the first has the
    library and the others its debug information."""

    name: str
    files: tuple[Path, ...]

    @classmethod
    def parsed(cls, text: str) -> "Given":
        """Reads `[NAME=]FILE[,FILE..]`. Raises a fault if a file is missing."""
        name, sign, rest = text.partition("=")
        files = tuple(Path(part) for part in (rest if sign else text).split(","))
        for file in files:
            if not file.is_file():
                raise Fault(f"there is no file {file}")
        return cls(name if sign else _name_of(files[0]), files)

    @property
    def is_package(self) -> bool:
        """Whether the files are packages."""
        return self.files[0].suffix in _PACKAGES

    def put(self, place: Path, work: Path, soname: Optional[str]) -> str:
        """Puts the library, joined with its debug information, in its place, and returns why it could not be joined (empty if it was).
        Raises a fault if there is no such library, or if a package is damaged."""
        if not self.is_package:
            shutil.copyfile(self.files[0], place)
            return ""
        side = Side.unpacked(self.files, work / f"{place.name}-packages", shipping=1)
        contents, fault = joined_or_shipped(_wanted(side, self.files[0], soname), side)
        place.write_bytes(contents)
        return "" if fault is None else str(fault)


def _name_of(file: Path) -> str:
    """The name of a version: the version in the name of a .deb, or else the file's name."""
    parts = file.stem.split("_")
    return parts[1] if file.suffix in _PACKAGES and len(parts) == 3 else file.name


def _wanted(side: Side, package: Path, soname: Optional[str]) -> PackagedLibrary:
    """The library with this soname in a package, or its only one. Raises a fault if there is none, if there are several, or if `abi` cannot
    read it."""
    found = [library for library in side.libraries if library.package.file == package and soname in (None, library.soname)]
    if len(found) != 1:
        named = _listed(sorted({library.soname for library in side.libraries}, key=lambda one: (not one.startswith(_LIBRARY), one)))
        raise Fault(f"{package.name} has {len(found)} libraries{f' {name_shown(soname)}' if soname else ''}"
                    f"{f': name one of {named} by --library' if named else ''}")
    if found[0].trouble:
        raise Fault(f"{package.name}: {name_shown(found[0].name)}: {found[0].trouble}")
    return found[0]


def _listed(names: Sequence[str]) -> str:
    """The first names, and how many more there are."""
    more = f" and {len(names) - _MOST_NAMED} more" if len(names) > _MOST_NAMED else ""
    return f"{', '.join(map(name_shown, names[:_MOST_NAMED]))}{more}"


def soname_of(place: Path) -> str:
    """The soname of a library; empty if it has none, or if it is damaged."""
    try:
        return ElfFile(place).soname or ""
    except Fault:
        return ""


def same_name(versions: Sequence[Given]) -> Optional[str]:
    """A name that two versions have; None if there is none."""
    counts = Counter(version.name for version in versions)
    return next((name for name, count in counts.items() if count > 1), None)
