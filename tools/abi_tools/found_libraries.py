"""Which files of a package are libraries, and what is left out. Whether a file is a library is what the loader reads of it; what `abi`
reads, its sections, must say the same."""

from __future__ import annotations

import bisect
from dataclasses import dataclass, field
from itertools import takewhile
from pathlib import Path, PurePosixPath
from typing import Iterator, Optional

from abi_tools.debug_files import DEBUG_FOLDER
from abi_tools.elf_files import SHT_DYNSYM, SHT_GNU_VERDEF, SHT_GNU_VERSYM, SHT_NOBITS, SYMBOL_SIZE, ElfFile, Section
from abi_tools.faults import Fault
from abi_tools.limits import LARGEST_FILE
from abi_tools.loader_views import LoaderView, Tables, header_of, loader_view
from abi_tools.package_trees import File, Link, Tree
from abi_tools.unpacking import Package

_SHARED = ".so"
# The folder of debug information, relative to the root.
DEBUG = f"{str(DEBUG_FOLDER).lstrip('/')}/"


@dataclass(frozen=True, eq=False)
class PackagedLibrary:
    """A library of a package: its name in the package, with links of folders followed; its file on this machine; its soname (or else
    its file name); the package; and why `abi` cannot read it, if that is known."""

    name: str
    path: Path
    soname: str
    package: Package
    trouble: str = ""

    @property
    def folder(self) -> str:
        """Its folder in the package."""
        return self.name.rpartition("/")[0]

    @property
    def file_name(self) -> str:
        """Its file name."""
        return self.name.rpartition("/")[2]


@dataclass(frozen=True)
class Unreadable:
    """A file that may be a library, and cannot be read: its name in the package, the package, and the reason."""

    name: str
    package: Package
    reason: str


@dataclass(frozen=True)
class LeftOut:
    """A library that is not judged: its name in the package, and the reason."""

    name: str
    reason: str


@dataclass
class Contents:
    """What a package brings: libraries, files that may be some, libraries that are left out, and how many other ELF files (programs,
    objects, debug files). `seen` counts all of them in the list of members."""

    libraries: list[PackagedLibrary] = field(default_factory=list)
    unreadable: list[Unreadable] = field(default_factory=list)
    left_out: list[LeftOut] = field(default_factory=list)
    others: int = 0
    seen: int = 0

    def count(self) -> int:
        """How many files were sorted."""
        return len(self.libraries) + len(self.unreadable) + len(self.left_out) + self.others


def contents_of(package: Package) -> Contents:
    """Sorts the ELF files of a package. Files in the folder of debug information are none of libraries, unless a link from outside leads
    to them."""
    files = [(name, file) for name, file in package.tree.files() if file.is_elf]
    found = Contents(seen=len(files))
    links = DebugLinks(package.tree)
    for name, file in files:
        if name.startswith(DEBUG) and not links.lead_to(name):
            found.others += 1
        else:
            _sort(found, package, name, file)
    return found


class DebugLinks:
    """What links from outside lead to in the folder of debug information, also by way of links in it."""

    def __init__(self, tree: Tree) -> None:
        """Follows the links."""
        self._reached: set[str] = set()
        if not any(name.startswith(DEBUG) for name in tree.entries):
            return
        links = [(name, f"{tree.resolved(name) or ''}/") for name, node in tree.entries.items() if isinstance(node, Link)]
        inside = sorted((name, target) for name, target in links if name.startswith(DEBUG) and target.startswith(DEBUG))
        waiting = [target for name, target in links if target.startswith(DEBUG) and not name.startswith(DEBUG)]
        while waiting:
            place = waiting.pop()
            if place not in self._reached:
                self._reached.add(place)
                links_from = (inside[number] for number in range(bisect.bisect_left(inside, (place, "")), len(inside)))
                waiting += [target for _, target in takewhile(lambda link: link[0].startswith(place), links_from)]

    def __bool__(self) -> bool:
        return bool(self._reached)

    def lead_to(self, name: str) -> bool:
        """Whether a link leads to a file, or to a folder in which it lies."""
        return bool(self._reached) and any(f"{place}/" in self._reached for place in (name, *folders_above(name)))


def folders_above(name: str) -> Iterator[str]:
    """The folders that a file lies in, directly or not; the empty name is that of the root."""
    while name:
        name = name.rpartition("/")[0]
        yield name


def _sort(found: Contents, package: Package, name: str, file: File) -> None:
    """Puts a file where it belongs, or counts it as another one, such as a program or an object."""
    if file.kept is None:
        found.unreadable.append(Unreadable(name, package, file.refused))
        return
    header = header_of(file.kept)
    if header is None or header.is_x86_64 and header.is_dynamic:
        _sort_dynamic(found, package, name, file.kept)
    elif header.is_dynamic and _SHARED in PurePosixPath(name).name:
        found.left_out.append(LeftOut(name, "it is not for x86-64 with 64 bits"))
    else:
        found.others += 1


def _sort_dynamic(found: Contents, package: Package, name: str, path: Path) -> None:
    """The same for a file of type ET_DYN. It is a library if the loader or `abi` sees dynamic symbols in it, and if it has a soname or
    `.so` in its name."""
    sections, troubles = _sections_of(path)
    try:
        view: Optional[LoaderView] = loader_view(path)
    except Fault as fault:
        view, troubles = None, [*troubles, str(fault)]
    if sections is None and view is None:
        found.unreadable.append(Unreadable(name, package, "; ".join(troubles)))
        return
    if sections is not None and sections.is_debug and not (view is not None and view.has_symbols):
        found.others += 1
        return
    soname = view.soname if view is not None else None
    if sections is not None and sections.soname is not None and sections.soname != soname:
        troubles.append("its sections and its segments have different sonames" if soname is not None or view is not None
                        else "its segments are damaged")
        soname = soname or sections.soname
    has_symbols = view is not None and view.has_symbols or sections is not None and sections.has_symbols
    if has_symbols and view is not None and sections is not None and not sections.agrees(view):
        troubles.append("its sections and its segments have different tables of symbols")
    file_name = PurePosixPath(name).name
    if has_symbols and (soname or _SHARED in file_name):
        size = path.stat().st_size
        if size > LARGEST_FILE:
            troubles.append(f"it has {size} bytes, and abi reads no file of more than {LARGEST_FILE} bytes")
        found.libraries.append(PackagedLibrary(name, path, soname or file_name, package, "; ".join(troubles)))
    else:
        found.others += 1


@dataclass(frozen=True)
class _Sections:
    """What the sections of a file say: its soname, whether it has dynamic symbols, whether it is a debug file, which has the headers of
    the library's sections without their bytes, where the tables of symbols begin, how many symbols there are, and how many up to the last
    one that it defines for others."""

    soname: Optional[str]
    has_symbols: bool
    is_debug: bool
    tables: Tables
    count: int
    defined: int

    def agrees(self, view: LoaderView) -> bool:
        """Whether the loader finds the same symbols in the same tables."""
        return self.tables == view.tables and self.defined <= view.hashed <= self.count


def _sections_of(path: Path) -> tuple[Optional[_Sections], list[str]]:
    """What the sections say, and why they say nothing."""
    try:
        file = ElfFile(path, "it")
        symbols, versions, definitions = (_first(file, kind) for kind in (SHT_DYNSYM, SHT_GNU_VERSYM, SHT_GNU_VERDEF))
        names, version_names = (file.sections[one.link] if one is not None and one.link < len(file.sections) else None
                                for one in (symbols, definitions))
        if names is not None and version_names is not None and names.offset != version_names.offset:
            return None, ["its sections have the names of its symbols and of their versions in two places"]
        empty = any(section.name == ".dynsym" and section.kind == SHT_NOBITS for section in file.sections)
        tables = tuple(None if one is None else one.offset for one in (symbols, names, versions, definitions))
        count = 0 if symbols is None else symbols.size // SYMBOL_SIZE
        return _Sections(file.soname, symbols is not None, empty and symbols is None, tables, count, file.last_defined()), []
    except Fault as fault:
        return None, [str(fault)]


def _first(file: ElfFile, kind: int) -> Optional[Section]:
    """The first section of a type, which is the one that `abi` reads."""
    return next((section for section in file.sections if section.kind == kind), None)
