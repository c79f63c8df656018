"""Finds debug files and supplementary files, as debuggers find the system's below `/`, and checks whether they belong to a library."""

from __future__ import annotations

import os
import zlib
from pathlib import Path, PurePosixPath
from typing import Iterator, Optional, Protocol

from abi_tools.elf_files import ElfFile, SupplementaryLink
from abi_tools.faults import Fault

DEBUG_FOLDER = PurePosixPath("/usr/lib/debug")
# Where `dwz` puts supplementary files in the packages of Debian and Fedora.
SUPPLEMENTARY_FOLDER = DEBUG_FOLDER / ".dwz"
# The system follows as many symbolic links for one name.
_MOST_LINKS = 40


class NoDebugFile(Fault):
    """A library has no debug file."""


class Places(Protocol):
    """Where debug files lie: a folder that stands for `/`, or packages. `said` is a phrase for sentences, such as ` below FOLDER`."""

    said: str

    def named(self, name: PurePosixPath) -> Iterator[ElfFile]:
        """The files that an absolute name leads to, also through links."""

    def linked(self, library: ElfFile, name: str) -> Iterator[ElfFile]:
        """The files that `.gnu_debuglink` of a library may mean by a name."""

    def supplementary(self, debug: ElfFile, link: SupplementaryLink) -> Iterator[ElfFile]:
        """The files that may be the supplementary file of a debug file."""


class FolderPlaces:
    """A folder of this machine that stands for `/`."""

    def __init__(self, root: Path) -> None:
        self._root = root.resolve()
        self.said = "" if self._root == Path("/") else f" below {root}"

    def named(self, name: PurePosixPath) -> Iterator[ElfFile]:
        """The file that a name leads to below the folder."""
        return _read([below(self._root, name)])

    def linked(self, library: ElfFile, name: str) -> Iterator[ElfFile]:
        """Where debuggers look for the file and, if the folder is not `/`, anywhere in the folder of debug files below it."""
        return _read(self._linked(library.path, name))

    def _linked(self, library: Path, name: str) -> Iterator[Optional[Path]]:
        folder = library.resolve().parent
        yield folder / name
        yield folder / ".debug" / name
        if folder.is_relative_to(self._root):
            yield below(self._root, DEBUG_FOLDER / PurePosixPath(folder.relative_to(self._root)) / name)
        if self._root != Path("/"):
            yield from _named_below(self._root, DEBUG_FOLDER, PurePosixPath(name).name)

    def supplementary(self, debug: ElfFile, link: SupplementaryLink) -> Iterator[ElfFile]:
        """The files below the folder, and below the one that holds the debug file's own `usr/lib/debug`."""
        return _read(_supplementary_places(debug.path.resolve(), link, self._root))


def _read(places: Iterator[Optional[Path]] | list[Optional[Path]]) -> Iterator[ElfFile]:
    return (ElfFile(place) for place in places if place is not None and place.is_file())


def below(root: Path, name: PurePosixPath) -> Optional[Path]:
    """The file or folder that a name leads to, also through links, if `root` stands for `/`; None if there is none."""
    at = root
    parts = [part for part in reversed(name.parts) if part != "/"]
    links = 0
    while parts:
        part = parts.pop()
        if part == "..":
            at = at if at == root else at.parent
            continue
        step = at / part
        if not step.is_symlink():
            at = step
            continue
        links += 1
        if links > _MOST_LINKS:
            return None
        target = PurePosixPath(os.readlink(step))
        at = root if target.is_absolute() else at
        parts += [one for one in reversed(target.parts) if one != "/"]
    return at if at.exists() else None


def by_build_id(build_id: bytes) -> PurePosixPath:
    """The name of the debug file or supplementary file with this build id."""
    digits = build_id.hex()
    return DEBUG_FOLDER / ".build-id" / digits[:2] / f"{digits[2:]}.debug"


def _named_below(root: Path, folder: PurePosixPath, name: str) -> Iterator[Path]:
    """All files with this name below a folder, in order."""
    start = below(root, folder)
    if start is None or not start.is_dir():
        return
    for found, folders, files in os.walk(start):
        folders.sort()
        if name in files:
            yield Path(found, name)


def disagreement(library: ElfFile, debug: ElfFile) -> Optional[str]:
    """A sentence that says why a debug file does not belong to a library; None if it does. It belongs if both have the same build id
    or, if one has no build id, if `.gnu_debuglink` has the CRC-32 of the debug file."""
    if library.build_id is not None and debug.build_id is not None:
        if library.build_id == debug.build_id:
            return None
        return (f"{debug.name} is of another build than {library.name}: its build id is {debug.build_id.hex()}, "
                f"not {library.build_id.hex()}")
    link = library.debug_link
    if link is None:
        return f"it cannot be told whether {debug.name} is of the build of {library.name}: both have no build id in common, " \
               "and the library has no section .gnu_debuglink"
    checksum = zlib.crc32(debug.data)
    if checksum == link.checksum:
        return None
    return (f"{debug.name} is of another build than {library.name}: its CRC-32 is {checksum:08x}, "
            f"and .gnu_debuglink has {link.checksum:08x}")


def debug_file(library: ElfFile, places: Places) -> ElfFile:
    """The debug file of a library, found by build id or by `.gnu_debuglink`. Raises a fault if there is none of the library's build."""
    reasons = []
    for debug in _candidates(library, places):
        if debug.path.samefile(library.path):
            continue
        reason = disagreement(library, debug)
        if reason is None:
            return debug
        reasons.append(reason)
    if reasons:
        raise Fault(reasons[0])
    raise NoDebugFile(_nowhere(library, places))


def _candidates(library: ElfFile, places: Places) -> Iterator[ElfFile]:
    if library.build_id is not None:
        yield from places.named(by_build_id(library.build_id))
    link = library.debug_link
    if link is not None:
        yield from places.linked(library, link.name)


def _nowhere(library: ElfFile, places: Places) -> str:
    """Says that there is no debug file, and what to do about it."""
    if library.build_id is None and library.debug_link is None:
        return f"{library.name} has neither a build id nor a section .gnu_debuglink: name its debug file"
    names = [] if library.build_id is None else [str(by_build_id(library.build_id))]
    names += [] if library.debug_link is None else [library.debug_link.name]
    return (f"there is no debug file of {library.name}{places.said} ({', '.join(names)}): "
            "install or unpack the package that brings it")


def supplementary_file(debug: ElfFile, link: SupplementaryLink, places: Places) -> ElfFile:
    """The supplementary file that a debug file names. Raises a fault if there is none, or none with the build id that the debug file
    names."""
    others = []
    for file in places.supplementary(debug, link):
        if link.checksum in file.checksums:
            return file
        others.append(file)
    if others:
        raise Fault(f"{others[0].name} is not the supplementary file of {debug.name}: its build id is not {link.checksum.hex()}")
    raise Fault(f"there is no supplementary file {link.name} (build id {link.checksum.hex()}), to which {debug.name} refers: "
                "install or unpack the package that brings it")


def _supplementary_places(debug: Path, link: SupplementaryLink, root: Path) -> Iterator[Optional[Path]]:
    """Where a supplementary file may lie."""
    roots = [root]
    text = str(debug)
    if f"{DEBUG_FOLDER}/" in text:
        roots.append(Path(text[:text.index(f"{DEBUG_FOLDER}/")] or "/"))
    name = PurePosixPath(link.name)
    for place in roots:
        if name.is_absolute():
            yield below(place, name)
        elif debug.is_relative_to(place):
            yield below(place, PurePosixPath(debug.parent.relative_to(place)) / name)
        yield below(place, by_build_id(link.checksum))
        yield from _named_below(place, SUPPLEMENTARY_FOLDER, name.name)
    if not name.is_absolute():
        yield debug.parent / name
