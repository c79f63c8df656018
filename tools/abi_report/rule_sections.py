"""Sections of a rule file for types that callers do not see."""

from __future__ import annotations

import os
import re
from pathlib import Path, PurePosixPath
from typing import Optional, Sequence, Set

from abi_report.blocks import Block
from abi_report.documents import Place
from abi_report.subjects import Described

_SORTS = {"structure_type": "struct", "union_type": "union", "enumeration_type": "enum"}
# Names that mean the same in a rule file as in C.
_PLAIN = re.compile(r"[A-Za-z_][A-Za-z0-9_$.]*")
# The suffixes of source files that are not headers, and those of headers and the files that headers include.
_SOURCES = (".c", ".s", ".S")
_HEADERS = (".h", ".hh", ".hpp", ".hxx", ".inc")


class Headers:
    """Which types callers see: those that a public header declares. Without known public headers, only a type declared in a source
    file such as `.c` is known to be hidden."""

    def __init__(self, names: Optional[Set[str]] = None) -> None:
        """Takes the file names of the public headers, if they are known. A type counts as public if its header has the same file name as a
        public one, since headers are usually installed in another folder than the one where the library is built."""
        self._names = names

    @classmethod
    def of(cls, folder: Optional[Path], packages: Sequence[Path]) -> "Headers":
        """Finds the headers in a folder and in development packages; other files in them do not count. Raises a fault if a package cannot
        be read."""
        if folder is None and not packages:
            return cls()
        names: Set[str] = set()
        if folder is not None:
            found = (name for _, _, files in os.walk(folder, followlinks=True) for name in files)
            names |= {name for name in found if PurePosixPath(name).suffix in _HEADERS}
        for package in packages:
            # Imported here, since few reports need it.
            from abi_tools.package_headers import header_names

            names |= header_names(package)
        return cls(names)

    def hides(self, place: Optional[Place]) -> bool:
        """Whether callers do not see what is declared at this place. Without a place it counts as visible."""
        if place is None:
            return False
        file = PurePosixPath(place.file)
        return file.suffix in _SOURCES if self._names is None else file.name not in self._names


def rule_section(block: Block, headers: Headers) -> Optional[str]:
    """The section that leaves out the type of a block, if callers do not see it and reach it only through pointers."""
    name = _selector(block.subject.old)
    if block.subject.kind != "record" or name is None or not headers.hides(_place(block)):
        return None
    if not all("target" in one.steps[:len(one.steps) - len(rest)] for one, rest in block.found):
        return None
    return f"[suppress_type]\nlabel = callers hold pointers to it, and never look inside\n{name}\naccessed_through = pointer\n"


def _place(block: Block) -> Optional[Place]:
    """Where the old library declares the type or, if it has no places, where the new one declares the type of that name."""
    old, new = block.subject.old, block.subject.new
    return old.place or (new.place if new.name == old.name else None)


def _selector(described: Described) -> Optional[str]:
    """The properties that name a type."""
    entry = described.entry
    if entry is None or entry.tag not in _SORTS:
        return None
    word, name = (_SORTS[entry.tag], entry.name) if entry.name is not None else ("typedef", described.name)
    if name is None or not _PLAIN.fullmatch(name):
        return None
    return f"name = {name}\ntype_kind = {word}"
