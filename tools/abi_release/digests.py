"""Digests of files, trees, programs, and of the tools themselves."""

from __future__ import annotations

import hashlib
import json
import os
import stat
from functools import lru_cache
from pathlib import Path
from typing import Iterator, NoReturn, Sequence

_PART = 1 << 20
OF_NOTHING = hashlib.sha256(b"").hexdigest()
# The packages whose code decides what is stored.
_TOOLS = ("abi_release", "abi_tools")

# What a file was when it was read: device, inode, size, and the times of its last changes.
State = tuple[int, int, int, int, int]


def digest_of_file(path: Path) -> str:
    """The SHA-256 of a file."""
    digest = hashlib.sha256()
    with path.open("rb", buffering=0) as stream:
        # A small file needs only a small buffer.
        part_size = min(_PART, os.fstat(stream.fileno()).st_size + 1)
        while part := stream.read(part_size):
            digest.update(part)
    return digest.hexdigest()


def state_of(found: os.stat_result) -> State:
    """The state of a file."""
    return found.st_dev, found.st_ino, found.st_size, found.st_mtime_ns, found.st_ctime_ns


def known_digest(path: Path) -> str:
    """The SHA-256 of a file, which is read once as long as its state stays the same: many packages share their debug packages."""
    return _digest_in_state(path, state_of(os.stat(path)))


@lru_cache(maxsize=4096)
def _digest_in_state(path: Path, _state: State) -> str:
    return digest_of_file(path)


def states(places: Sequence[Path]) -> tuple[State, ...]:
    """The states of the files of a side: of its packages, or of all files and links of its tree. Raises OSError if one is gone."""
    return tuple(state_of(found) for _, _, found in _named(places))


def digest_of_files(places: Sequence[Path]) -> str:
    """A digest over the names and digests of packages, or of the files and links of a tree; empty if there are none."""
    digest = hashlib.sha256()
    for name, place, found in _named(places):
        is_link, is_file = stat.S_ISLNK(found.st_mode), stat.S_ISREG(found.st_mode)
        said = os.readlink(place) if is_link else known_digest(place) if is_file else ""
        digest.update(f"{name}\0{said}\0".encode("utf-8", "surrogateescape"))
    return digest.hexdigest() if places else ""


def _named(places: Sequence[Path]) -> Iterator[tuple[str, Path, os.stat_result]]:
    """The files of a side with their names: its packages, which may be links, or the files and links of its tree."""
    if len(places) != 1 or not places[0].is_dir():
        yield from ((place.name, place, os.stat(place)) for place in places)
        return
    for at, folders, files in os.walk(places[0], onerror=_raise):
        folders.sort()
        for name in sorted([*files, *(one for one in folders if os.path.islink(os.path.join(at, one)))]):
            place = Path(at, name)
            yield os.path.relpath(place, places[0]), place, os.lstat(place)


def _raise(error: OSError) -> NoReturn:
    """What cannot be listed has no digest."""
    raise error


def digest_of_json(value: object) -> str:
    """The SHA-256 of a value as JSON."""
    return hashlib.sha256(json.dumps(value, sort_keys=True).encode()).hexdigest()


def program_digest(path: str) -> str:
    """The SHA-256 of the program at `path`."""
    changed = os.stat(path)
    return _digest_at(path, changed.st_mtime_ns, changed.st_size)


@lru_cache(maxsize=2)
def _digest_at(path: str, _time: int, _size: int) -> str:
    return digest_of_file(Path(path))


def digest_of_tools(packages: Sequence[str] = _TOOLS, patterns: Sequence[str] = ("*.py",)) -> str:
    """The SHA-256 of the modules of some packages of the tools. A result that other modules made is made again."""
    folder = Path(__file__).resolve().parent.parent
    named = sorted((f"{package}/{module.name}", digest_of_file(module))
                   for package in packages for pattern in patterns for module in (folder / package).glob(pattern))
    return digest_of_json(named)


# Read when the modules are imported: a worker that runs on while the files change still has the old code.
TOOLS = digest_of_tools()
