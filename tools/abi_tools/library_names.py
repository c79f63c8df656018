"""By which names programs find the libraries of a side: the names of their files, and those of links that lead to them."""

from __future__ import annotations

import re
from dataclasses import dataclass
from functools import cached_property
from typing import Iterator, Optional, Sequence

from abi_tools.faults import Fault
from abi_tools.found_libraries import DEBUG, DebugLinks, PackagedLibrary, folders_above
from abi_tools.limits import MOST_NAMES
from abi_tools.package_trees import Link, Node, Tree

# The folders of `/` that are links to the folders of the same names in `/usr` on a merged system.
MERGED = ("lib/", "lib32/", "lib64/", "libx32/", "bin/", "sbin/")
# The folders that the loader searches for 64-bit libraries of x86-64 without being told, on Debian or Fedora.
_SEARCHED = ("usr/lib", "usr/lib64", "usr/lib/x86_64-linux-gnu")
# Those that some loaders search: Debian's configuration names folders for local files, and glibc before 2.37 searched for libraries of
# a processor in folders below.
_PERHAPS_SEARCHED = re.compile(r"usr/(local/)?lib(64|/x86_64-linux-gnu)?(/(tls|haswell|xeon_phi|avx512_1|x86_64))*")
_LEVELS = ("", "x86-64-v2", "x86-64-v3", "x86-64-v4")
_LEVEL = re.compile(r"(.*)/glibc-hwcaps/(x86-64-v[234])")


@dataclass(frozen=True)
class Place:
    """Where a library is found: the folder without the level of processors, as on a merged system, and the level."""

    folder: str
    level: int

    @classmethod
    def of(cls, folder: str) -> "Place":
        """The place of a folder."""
        name = merged(folder)
        found = _LEVEL.fullmatch(name)
        return cls(name, 0) if found is None else cls(found[1], _LEVELS.index(found[2]))

    @property
    def is_searched(self) -> bool:
        """Whether each loader searches the folder without being told."""
        return self.folder in _SEARCHED

    @property
    def may_be_searched(self) -> bool:
        """Whether some loader searches the folder without being told."""
        return _PERHAPS_SEARCHED.fullmatch(self.folder) is not None


def merged(folder: str) -> str:
    """A folder as on a system on which `/lib` leads to `/usr/lib`."""
    return f"usr/{folder}" if f"{folder}/".startswith(MERGED) else folder


class LibraryNames:
    """The libraries of a side, and the names that lead to them, as on a merged system on which all packages of the side are
    installed."""

    def __init__(self, libraries: Sequence[PackagedLibrary], trees: Sequence[Tree]) -> None:
        """Finds the names. Raises a fault if they are too many."""
        self.libraries = tuple(libraries)
        self._tree = installed(trees)
        self._places: dict[PackagedLibrary, dict[Place, None]] = {}
        self._files = {merged_name(one.name): one for one in libraries}
        # Of two files of one name on a merged system, such as `lib/libx.so.1` and `usr/lib/libx.so.1`, nothing says which one stays.
        self.doubled = {library for one in libraries for library in (one, self._files[merged_name(one.name)])
                        if self._files[merged_name(one.name)] is not one}
        self.names: dict[str, PackagedLibrary] = {}
        for name, library in self._leading():
            self.names[name] = library
            if len(self.names) > MOST_NAMES:
                raise Fault(f"more than {MOST_NAMES} names lead to libraries of the packages")

    def _leading(self) -> Iterator[tuple[str, PackagedLibrary]]:
        """The names of the files, of links to them, and of the files below links to folders. Links in the folder of debug information
        count if one from outside leads there."""
        yield from self._files.items()
        below: dict[str, list[str]] = {}
        for name in self._files:
            for folder in folders_above(name):
                below.setdefault(folder, []).append(name)
        has_debug = bool(DebugLinks(self._tree))
        for name, node in self._tree.entries.items():
            target = self._tree.resolved(name) if isinstance(node, Link) and (has_debug or not name.startswith(DEBUG)) else None
            if target is None:
                continue
            if target in self._files:
                yield name, self._files[target]
            for file in below.get(target, ()):
                yield f"{name}/{file[len(target):].lstrip('/')}", self._files[file]

    @cached_property
    def _by_library(self) -> dict[PackagedLibrary, list[str]]:
        found: dict[PackagedLibrary, list[str]] = {}
        for name, library in sorted(self.names.items()):
            found.setdefault(library, []).append(name)
        return found

    def library(self, name: str) -> Optional[PackagedLibrary]:
        """The library that a name leads to."""
        found = self._tree.resolved(name)
        return None if found is None else self._files.get(found)

    def has(self, name: str) -> bool:
        """Whether there is anything of this name."""
        folder, _, last = name.rpartition("/")
        above = self._tree.resolved(folder)
        return above is not None and (f"{above}/{last}" if above else last) in self._tree.entries

    def loaded_names(self, library: PackagedLibrary) -> list[str]:
        """The names by which the loader opens a library: those that end in its soname."""
        names = self._by_library.get(library, [merged_name(library.name)])
        return [name for name in names if name.rpartition("/")[2] == library.soname]

    def places(self, library: PackagedLibrary) -> dict[Place, None]:
        """Where a library is found: the place of its file, and those of the names by which the loader opens it."""
        known = self._places.get(library)
        if known is None:
            known = self._places[library] = dict.fromkeys(
                Place.of(name.rpartition("/")[0]) for name in (library.name, *self.loaded_names(library)))
        return known


def installed(trees: Sequence[Tree]) -> Tree:
    """What several packages install on a merged system."""
    entries: dict[str, Node] = {folder.rstrip("/"): Link(f"/usr/{folder}") for folder in MERGED}
    for tree in trees:
        for name, node in tree.entries.items():
            if isinstance(node, Link) or f"{name}/" not in MERGED:
                entries[merged_name(name)] = node
    return Tree(entries)


def merged_name(name: str) -> str:
    """A name as on a system on which `/lib` leads to `/usr/lib`."""
    folder, _, last = name.rpartition("/")
    return f"{merged(folder)}/{last}" if folder else last
