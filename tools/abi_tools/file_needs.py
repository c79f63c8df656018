"""What a library needs of other files, and how much more a new one needs: the loader may refuse it on a system on which the old one runs.

`abi` has a note on each file, version and symbol. A gate counts them, and no count changes an answer.
"""

from __future__ import annotations

from dataclasses import dataclass
from typing import Iterator, Optional, TypeVar

from abi_tools.counting import counted
from abi_tools.elf_files import ElfFile
from abi_tools.faults import Fault

Names = TypeVar("Names", bound="tuple[str, ...]")
# What the entries may weigh together: each one its names and a constant. Names may lie in one another, and entries in one another, so
# that a small file has many of them.
_MOST = 1 << 26
_ENTRY = 256


@dataclass(frozen=True)
class FileNeeds:
    """What a library needs: the files, the versions of files (each with its file), and the symbols that another file must define (each
    with its version, or an empty text)."""

    files: frozenset[str]
    versions: frozenset[tuple[str, str]]
    symbols: frozenset[tuple[str, str]]

    @classmethod
    def read(cls, library: ElfFile) -> Optional["FileNeeds"]:
        """Reads what a library needs. None if a table is damaged or its names are too long: then nothing is counted."""
        room = _Room(_MOST)
        try:
            return cls(frozenset(name for name, in room.take((name,) for name in library.needed_files())),
                       frozenset(room.take(library.needed_versions())), frozenset(room.take(library.strong_imports())))
        except Fault:
            return None

    def more(self, old: "FileNeeds") -> str:
        """What this library needs and an old one does not, in words; empty if that is nothing."""
        counts = ((len(self.files - old.files), "library", "libraries"), (len(self.versions - old.versions), "version", ""),
                  (len(self.symbols - old.symbols), "symbol", ""))
        return ", ".join(counted(count, thing, things) for count, thing, things in counts if count)


class _Room:
    """How much may still be read."""

    def __init__(self, left: int) -> None:
        self.left = left

    def take(self, entries: Iterator[Names]) -> Iterator[Names]:
        """The same entries. Raises a fault where there is no room for one."""
        for entry in entries:
            self.left -= _ENTRY + sum(map(len, entry))
            if self.left < 0:
                raise Fault("the names of what a library needs are too long")
            yield entry
