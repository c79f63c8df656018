"""Which libraries a gate compares: the pairs by soname, and what is left out, new, gone or cannot be read."""

from __future__ import annotations

import os
import re
import stat
from collections import Counter
from dataclasses import dataclass, field
from itertools import chain, count
from pathlib import Path
from typing import Iterator, Optional, Sequence

from abi_tools.elf_files import SHT_DYNSYM, SHT_NOBITS, ElfFile
from abi_tools.faults import Fault
from abi_tools.limits import LARGEST_FILE
from abi_tools.loader_views import header_of

_BASELINE, _SHARED = ".abi", ".so"
_MAGIC = b"\x7fELF"
# What a linker script begins with, or has on its first lines (ld(1), "Scripts").
_SCRIPT_WORDS = (b"GROUP", b"INPUT", b"OUTPUT_FORMAT", b"/*")
_SCRIPT_START = 4096
_OTHER_MACHINE = "it is not for x86-64 with 64 bits"
# What a file name of this machine may have of a name of a library, and how long it may be.
_UNSAFE = re.compile(r"[^A-Za-z0-9._+-]")
_LONGEST = 120
_KINDS = ((stat.S_ISDIR, "a folder"), (stat.S_ISFIFO, "a FIFO"), (stat.S_ISCHR, "a device"), (stat.S_ISBLK, "a device"),
          (stat.S_ISSOCK, "a socket"))


@dataclass(frozen=True)
class Pair:
    """Two libraries to compare, and the name of both: the soname, or else the name of the old file."""

    name: str
    old: Path
    new: Path


@dataclass(frozen=True)
class Named:
    """A file that is not compared, with its name and the reason."""

    name: str
    path: Path
    reason: str = ""


@dataclass
class Inputs:
    """What is compared, and what is not."""

    pairs: list[Pair] = field(default_factory=list)
    gone: list[Named] = field(default_factory=list)
    new: list[Named] = field(default_factory=list)
    unreadable: list[Named] = field(default_factory=list)
    left_out: list[Named] = field(default_factory=list)


def trouble_of(path: Path) -> str:
    """Why a library is not even opened: it is missing, no file, or larger than what `abi` reads. Empty if it can be opened."""
    trouble = _trouble_of_kind(path)
    size = 0 if trouble else path.stat().st_size
    return trouble if size <= LARGEST_FILE else f"{path} has {size} bytes, and abi reads no file of more than {LARGEST_FILE} bytes"


def _trouble_of_kind(path: Path) -> str:
    """Why a path leads to no file, in words; empty if it leads to one."""
    try:
        mode = path.stat().st_mode
    except OSError as error:
        return f"{path}: {error.strerror}"
    return next((f"{path} is {words}, and no file" for is_kind, words in _KINDS if is_kind(mode)), "")


def name_of(path: Path) -> str:
    """The name of a library: its soname, or else its file name without the suffix of baselines."""
    soname = None
    try:
        soname = None if trouble_of(path) else ElfFile(path).soname
    except Fault:
        pass
    return soname or path.name.removesuffix(_BASELINE)


def paired(old: Sequence[Path], new: Sequence[Path]) -> Inputs:
    """Pairs libraries by soname, or by file name if one has none. Each path is a library or a folder of libraries."""
    found = Inputs()
    sides = [_Side.read(paths, found) for paths in (old, new)]
    names = dict.fromkeys([*sides[0].libraries, *sides[1].libraries])
    for name in names:
        first, second = (side.libraries.get(name, []) for side in sides)
        twice = next((place for place, side in (("old", first), ("new", second)) if len(side) > 1), None)
        if twice is not None:
            found.unreadable.append(Named(name, (first or second)[0], f"several {twice} libraries have this name"))
        elif first and second:
            found.pairs.append(Pair(name, first[0], second[0]))
        elif first:
            _add_unpaired(found.gone, found, sides[1], Named(name, first[0]))
        else:
            _add_unpaired(found.new, found, sides[0], Named(name, second[0]))
    return found


def _add_unpaired(where: list[Named], found: Inputs, other: "_Side", one: Named) -> None:
    """Says of a library that the other side does not have it; that cannot be told if a file of the other side cannot be read."""
    if other.is_whole:
        where.append(one)
    else:
        found.unreadable.append(Named(one.name, one.path, "the other side has a file that cannot be read, which may be this library"))


@dataclass
class _Side:
    """The libraries of one side by name, and whether all its files could be read."""

    libraries: dict[str, list[Path]] = field(default_factory=dict)
    is_whole: bool = True

    @classmethod
    def read(cls, paths: Sequence[Path], found: Inputs) -> "_Side":
        """Reads the files and folders of a side. What cannot be read or is left out goes to `found`."""
        side = cls()
        seen: Counter[tuple[int, int]] = Counter()
        for path in paths:
            is_folder = path.is_dir()
            for file in _files_in(path) if is_folder else [path]:
                side._take(file, is_folder, seen, found)
        return side

    def _take(self, file: Path, in_folder: bool, seen: "Counter[tuple[int, int]]", found: Inputs) -> None:
        trouble = trouble_of(file)
        if trouble:
            self._refuse(file, trouble, found)
            return
        status = file.stat()
        identity = status.st_dev, status.st_ino
        seen[identity] += 1
        if seen[identity] > 1:
            return
        try:
            self._sort(file, in_folder, found)
        except (Fault, OSError) as error:
            self._refuse(file, str(error), found)

    def _refuse(self, file: Path, reason: str, found: Inputs) -> None:
        self.is_whole = False
        found.unreadable.append(Named(file.name.removesuffix(_BASELINE), file, reason))

    def _sort(self, file: Path, in_folder: bool, found: Inputs) -> None:
        """Puts a file where it belongs. In a folder, linker scripts, programs, objects and debug files belong nowhere."""
        if in_folder and _is_linker_script(file):
            return
        header = header_of(file)
        if header is not None and _start_of(file, len(_MAGIC)) == _MAGIC and not header.is_x86_64:
            if header.is_dynamic or not in_folder:
                found.left_out.append(Named(file.name, file, _OTHER_MACHINE))
            return
        library = ElfFile(file)
        if in_folder and (not library.is_shared_object or _is_debug_file(library)):
            return
        if not library.is_shared_object:
            raise Fault(f"{file} is no shared object")
        self.libraries.setdefault(library.soname or file.name.removesuffix(_BASELINE), []).append(file)


def _files_in(folder: Path) -> Iterator[Path]:
    """The files in a folder that may be libraries or baselines, by their names, in order. Links that lead nowhere are passed over."""
    with os.scandir(folder) as entries:
        names = sorted(entry.name for entry in entries if entry.name.endswith(_BASELINE) or _SHARED in entry.name)
    for name in names:
        path = folder / name
        if not path.is_dir() and (path.exists() or not path.is_symlink()):
            yield path


def _start_of(file: Path, size: int) -> bytes:
    with file.open("rb") as stream:
        return stream.read(size)


def _is_linker_script(file: Path) -> bool:
    start = _start_of(file, _SCRIPT_START)
    return not start.startswith(_MAGIC) and any(word in start for word in _SCRIPT_WORDS) and b"\0" not in start


def _is_debug_file(library: ElfFile) -> bool:
    """Whether a file has the headers of a library's sections without their bytes."""
    tables = [one.kind for one in library.sections if one.kind == SHT_DYNSYM or one.name == ".dynsym"]
    return bool(tables) and all(kind == SHT_NOBITS for kind in tables)


def first_fault(files: Sequence[Optional[Path]]) -> None:
    """Raises a fault if a file that the arguments name beside the libraries cannot be opened."""
    for file in files:
        trouble = "" if file is None else _trouble_of_kind(file)
        if trouble:
            raise Fault(trouble)


def file_names(names: Sequence[str]) -> dict[str, str]:
    """A file name of this machine for each name of a library: with a number if two would be equal."""
    found: dict[str, str] = {}
    taken: set[str] = set()
    for name in dict.fromkeys(names):
        plain = _UNSAFE.sub("_", name).lstrip(".-")[:_LONGEST] or "_"
        free = (one for one in chain([plain], (f"{plain}-{number}" for number in count(2))) if one.lower() not in taken)
        found[name] = next(free)
        taken.add(found[name].lower())
    return found
