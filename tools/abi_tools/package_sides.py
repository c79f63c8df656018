"""The libraries of the old and the new packages, and how they are paired."""

from __future__ import annotations

import os
from dataclasses import dataclass
from functools import cached_property
from pathlib import Path
from typing import Iterator, Optional, Sequence

from abi_tools.debuginfod import Debuginfod, ServedPlaces
from abi_tools.found_libraries import Contents, LeftOut, PackagedLibrary, Unreadable, contents_of
from abi_tools.library_names import LibraryNames
from abi_tools.package_conflicts import refuse_conflicts
from abi_tools.package_debug import PackagePlaces
from abi_tools.pairing import Pair, pairs_of, with_unreadable
from abi_tools.shown import name_shown
from abi_tools.unpacking import Package, unpack

__all__ = ["PackagedLibrary", "Pair", "Side", "libraries", "package_rules", "pairs"]


@dataclass(frozen=True)
class Side:
    """One side of the comparison: its packages, what they bring, and the servers of debug files that the packages lack, if there are any.
    Packages of debug information alone are only searched for debug files."""

    packages: tuple[Package, ...]
    contents: tuple[Contents, ...]
    servers: Optional[Debuginfod] = None

    @classmethod
    def of(cls, packages: Sequence[Package], contents: Sequence[Contents]) -> "Side":
        """A side. Raises a fault if the packages cannot be installed together, or not in one way only."""
        refuse_conflicts(packages)
        return cls(tuple(packages), tuple(contents))

    @classmethod
    def unpacked(cls, files: Sequence[Path], root: Path, shipping: Optional[int] = None) -> "Side":
        """Unpacks packages below `root`, which is made. Only the first `shipping` of them ship libraries. Raises a fault if a package is
        damaged, or if two have the same file."""
        root.mkdir(mode=0o700)
        packages = []
        for number, file in enumerate(files):
            folder = root / str(number)
            folder.mkdir(mode=0o700)
            packages.append(unpack(file, folder))
        return cls.of(packages, [contents_of(package) for package in packages[:shipping]])

    @property
    def libraries(self) -> tuple[PackagedLibrary, ...]:
        """Its libraries."""
        return tuple(library for one in self.contents for library in one.libraries)

    @property
    def names(self) -> LibraryNames:
        """Its libraries, and the names that lead to them. Raises a fault if the names are too many."""
        return LibraryNames(self.libraries, [package.tree for package in self.packages])

    @property
    def unreadable(self) -> tuple[Unreadable, ...]:
        """The files that may be libraries and cannot be read."""
        return tuple(file for one in self.contents for file in one.unreadable)

    @property
    def left_out(self) -> tuple[LeftOut, ...]:
        """The libraries that are not judged."""
        return tuple(file for one in self.contents for file in one.left_out)

    @cached_property
    def places(self) -> PackagePlaces:
        """Where the debug files of its libraries lie."""
        return PackagePlaces(self.packages) if self.servers is None else ServedPlaces(self.packages, self.servers)


def libraries(package: Package) -> Iterator[PackagedLibrary]:
    """The libraries of a package."""
    return iter(contents_of(package).libraries)


def pairs(old: Side, new: Side) -> list[Pair]:
    """The libraries of both sides, paired and sorted by name, with a row for each file that may be a library and cannot be read."""
    return with_unreadable(pairs_of(old.names, new.names), old.unreadable, new.unreadable)


def package_rules(pair: Pair, sides: Sequence[Side], folder: Path) -> tuple[Optional[Path], str]:
    """The rule file in the package of the new library, or else in that of the old one, inflated, in `folder`, and a text that names it.
    Raises a fault if a package has several, or one that cannot be read."""
    for library, said in ((pair.new, "new"), (pair.old, "old")):
        name = library.package.rules if library is not None else None
        if library is None or name is None:
            continue
        place = folder / f"{said}.rules"
        text = library.package.rule_text()
        file = os.open(place, os.O_WRONLY | os.O_CREAT | os.O_TRUNC | os.O_NOFOLLOW | os.O_CLOEXEC, 0o600)
        with os.fdopen(file, "wb") as output:
            output.write(text)
        return place, f"{name_shown(name)} ({said})"
    return None, ""
