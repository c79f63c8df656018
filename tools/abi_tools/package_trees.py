"""What a package installs: its files, folders and links by the names that they get, with links followed as if the package were the
whole system. No name of a package is ever opened on this machine."""

from __future__ import annotations

import enum
from dataclasses import dataclass, field
from pathlib import Path
from typing import Iterator, Optional, Union

from abi_tools.faults import Fault
from abi_tools.limits import DEEPEST, LONGEST_NAME, MOST_LINKS, MOST_MEMBERS
from abi_tools.shown import name_shown


@dataclass
class File:
    """A file: its size, and where its contents are kept on this machine, if they are. `refused` says why contents that are wanted are
    not kept."""

    size: int = 0
    kept: Optional[Path] = None
    refused: str = ""
    is_elf: bool = False


@dataclass(frozen=True)
class Link:
    """A symbolic link."""

    target: str


class Refused(Fault):
    """A package has what dpkg or rpm would refuse, or too much of it."""


class Entry(enum.Enum):
    """An entry without contents."""

    FOLDER = enum.auto()
    # a device, a FIFO or a socket
    OTHER = enum.auto()


Node = Union[File, Link, Entry]


@dataclass
class Tree:
    """The entries of a package, by name: relative to `/`, without links, `.` and `..` in it."""

    entries: dict[str, Node] = field(default_factory=dict)

    def place(self, name: str, node: Node) -> str:
        """Adds a member of an archive, and returns the name that it gets: its folder is the one that the links so far lead to, as for
        dpkg and rpm. Raises `Refused` if the name is empty or too long, leads out of the package, lies in something that is no folder, or
        is that of another member."""
        parts = _parts(name)
        if not parts and node is Entry.FOLDER:
            return ""
        folder = self.resolved("/".join(parts[:-1])) if parts else None
        if folder is None:
            raise Refused(f"its member {name_shown(name)} has no name, or lies in a loop of links")
        self._make_folder(folder, name)
        place = f"{folder}/{parts[-1]}" if folder else parts[-1]
        if place.count("/") >= DEEPEST or len(place) > LONGEST_NAME:
            raise Refused(f"its member {name_shown(name)} lies deeper than {DEEPEST} folders, or has too long a name")
        if not self._is_known_folder(place, node):
            self._add(place, node, name)
        return place

    def _make_folder(self, folder: str, name: str) -> None:
        """Makes a folder and those above it, where the package has none."""
        for above in (*_above(folder), folder):
            if above and self.entries.setdefault(above, Entry.FOLDER) is not Entry.FOLDER:
                raise Refused(f"its member {name_shown(name)} lies below {name_shown(above)}, which is no folder")

    def _is_known_folder(self, place: str, node: Node) -> bool:
        """Whether a member is a folder that is already there, perhaps by way of a link."""
        if node is not Entry.FOLDER or place not in self.entries:
            return False
        found = self.resolved(place)
        return found is not None and self.entries.get(found, Entry.FOLDER) is Entry.FOLDER

    def _add(self, place: str, node: Node, name: str) -> None:
        known = self.entries.get(place)
        if known is not None and not (isinstance(node, Link) and node == known):
            raise Refused(f"two of its members have the name {name_shown(name)}")
        if len(self.entries) >= MOST_MEMBERS:
            raise Refused(f"it has more than {MOST_MEMBERS} members")
        self.entries[place] = node

    def resolved(self, name: str) -> Optional[str]:
        """The name that a name leads to, as Linux follows links, if the package were the whole system; None if it leads through more
        links than Linux follows."""
        at, links = "", 0
        left = [part for part in reversed(name.split("/")) if part not in ("", ".")]
        while left:
            part = left.pop()
            if part == "..":
                at = at.rpartition("/")[0]
                continue
            step = f"{at}/{part}" if at else part
            node = self.entries.get(step)
            if not isinstance(node, Link):
                at = step
                continue
            links += 1
            if links > MOST_LINKS:
                return None
            at = "" if node.target.startswith("/") else at
            left += [one for one in reversed(node.target.split("/")) if one not in ("", ".")]
        return at

    def named(self, name: str) -> Optional[Node]:
        """The entry of a name whose folder is found through links; None if there is none. It may be a link itself."""
        folder, _, last = name.rstrip("/").rpartition("/")
        above = self.resolved(folder)
        return None if above is None else self.entries.get(f"{above}/{last}" if above else last)

    def file(self, name: str) -> Optional[File]:
        """The file that a name leads to, through links; None if there is none."""
        found = self.resolved(name)
        node = None if found is None else self.entries.get(found)
        return node if isinstance(node, File) else None

    def files(self) -> Iterator[tuple[str, File]]:
        """The files by name, in order."""
        return ((name, node) for name, node in sorted(self.entries.items()) if isinstance(node, File))


def _parts(name: str) -> list[str]:
    """The parts of a member's name. Raises `Refused` if it is too long or leads out of the package."""
    if len(name) > LONGEST_NAME:
        raise Refused(f"it has a member whose name has more than {LONGEST_NAME} bytes")
    parts = [part for part in name.split("/") if part not in ("", ".")]
    if ".." in parts:
        raise Refused(f"it brings a file that lies outside of its folder: {name_shown(name)}")
    return parts


def _above(folder: str) -> Iterator[str]:
    """The folders above a folder, the outermost first."""
    at = folder.find("/")
    while at >= 0:
        yield folder[:at]
        at = folder.find("/", at + 1)
