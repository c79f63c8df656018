"""Two packages, unpacked on a worker. Each thread keeps the last pair, so that it unpacks once to judge many of their libraries. Packages
that are not small are unpacked once on each host (`package_cache`)."""

from __future__ import annotations

import contextlib
import hashlib
import itertools
import os
import tempfile
import threading
from dataclasses import dataclass, replace
from pathlib import Path
from typing import NamedTuple, Optional, Sequence

from abi_tools.debug_files import NoDebugFile
from abi_tools.found_libraries import contents_of
from abi_tools.package_judging import joined_or_shipped
from abi_tools.package_sides import PackagedLibrary, Pair, Side, pairs
from abi_tools.shown import name_shown
from abi_tools.unpacked_trees import folder_package
from abi_release import workers
from abi_release.digests import State, digest_of_files, known_digest, states
from abi_release.needs import programs
from abi_release.package_cache import KeyedFile, PackageCache
from abi_release.small_packages import SmallPackage, small_side
from abi_release.sources import Work

_SIDES = ("old", "new")
# The folder of unpacked packages in that of the run.
_PACKAGES = "packages"
# Why a library was judged as it was shipped: it has no debug file.
NO_DEBUG_FILE = "no debug file"
# How many bytes a joined library has at most that stays in memory until it is needed in a file.
_MOST_IN_MEMORY = 16 << 20
_CHANGED = "the packages changed, or what was unpacked went away, while they were read"


class Trouble(Exception):
    """Something of this machine and this moment went wrong, so nothing is known of the libraries."""


@dataclass
class Joined:
    """A library, joined with its debug information, or as it was shipped if they cannot be joined; `reason` says why (empty if they were
    joined). It gets a file, `name` in `folder`, at once if it is large, and otherwise by `put`: if its digest leads to an earlier result,
    nobody reads the file."""

    folder: Path
    name: Path
    digest: str
    reason: str
    _contents: Optional[bytes]

    @classmethod
    def of(cls, library: Optional[PackagedLibrary], side: Side, folder: Path, name: str) -> "Joined":
        """Joins a library of a side."""
        assert library is not None
        contents, fault = joined_or_shipped(library, side)
        reason = "" if fault is None else NO_DEBUG_FILE if isinstance(fault, NoDebugFile) else str(fault)
        joined = cls(folder, Path(name), hashlib.sha256(contents).hexdigest(), reason, contents)
        if len(contents) > _MOST_IN_MEMORY:
            joined.put()
        return joined

    def put(self) -> Path:
        """Writes the file, unless it is there, and returns its name."""
        if self._contents is not None:
            (self.folder / self.name).write_bytes(self._contents)
            self._contents = None
        return self.name


class ToUnpack(NamedTuple):
    """Two packages to unpack: their run, how many megabytes of the disk the unpacked packages of a host may take, the packages, their
    files on both sides, and the digests of the sides."""

    run: str
    megabytes: int
    work: Work
    places: tuple[tuple[Path, ...], tuple[Path, ...]]
    digests: tuple[str, ...]


class Unpacked:
    """Two packages on a worker: their files, and the pairs of their libraries to judge. In `folder` are the joined libraries that `abi`
    reads: `old` and `new`."""

    def __init__(self, task: ToUnpack) -> None:
        work = task.work
        self.places = task.places
        self._at = workers.places(task.run)
        self.folder = _work_folder(self._at.disk)
        self.controls: dict[Path, bytes] = {}
        self._trees: Optional[tempfile.TemporaryDirectory[str]] = None
        self._states: tuple[tuple[State, ...], ...] = ()
        try:
            self._states = tuple(map(states, self.places))
            if tuple(map(digest_of_files, self.places)) != task.digests:
                raise Trouble(_CHANGED)
            self.sides = self._small_sides(work) or self._sides(task.megabytes)
        except BaseException:
            self.close()
            raise
        self._kept: dict[str, tuple[Path, Path]] = {}
        self.pairs = {name: pair for name, pair in _by_name(pairs(*self.sides)).items() if not work.only or name in work.only}

    def _small_sides(self, work: Work) -> Optional[tuple[Side, ...]]:
        """Both sides, unpacked to memory; None if a package is not small or is shared, or if there is no room in memory."""
        if self._at.memory is None or work.is_shared:
            return None
        # A large package, which the disk takes, is found before any is inflated.
        if not all(SmallPackage.may_be(place) for of_side in self.places for place in of_side):
            return None
        sides = [[SmallPackage.read(place) for place in of_side] for of_side in self.places]
        packages = [[one for one in side if one is not None] for side in sides]
        if packages != sides:
            return None
        try:
            root = self._new_trees(self._at.memory)
            found = tuple(small_side(of_side, root / name) for name, of_side in zip(_SIDES, packages))
        except OSError:
            self._drop_trees()
            return None
        self.controls = {one.file: one.control for side in packages for one in side}
        return found

    def _sides(self, megabytes: int) -> tuple[Side, ...]:
        """Both sides, unpacked to the disk."""
        root = self._new_trees(self._at.disk)
        packages = self._at.disk / _PACKAGES
        packages.mkdir(mode=0o700, exist_ok=True)
        cache = PackageCache(packages, megabytes)
        return tuple(side_of(cache, of_side, root / name) for name, of_side in zip(_SIDES, self.places))

    def _new_trees(self, folder: Path) -> Path:
        self._trees = tempfile.TemporaryDirectory(prefix="trees-", dir=folder)
        return Path(self._trees.name)

    def _drop_trees(self) -> None:
        if self._trees is not None:
            self._trees.cleanup()
            self._trees = None

    def check(self) -> None:
        """Raises Trouble if a package changed since it was read, or if something that was unpacked is gone: what was found then rests on
        other bytes than those whose digests are known."""
        try:
            is_same = (tuple(map(states, self.places)) == self._states and
                       all(os.path.lexists(file) for side in self.sides for package in side.packages for file in package.kept()))
        except OSError:
            is_same = False
        if not is_same:
            raise Trouble(_CHANGED)

    def plain(self, reason: str) -> str:
        """A reason without the names of the worker's folders."""
        for folder in (self.folder, *([] if self._trees is None else [self._trees.name])):
            reason = reason.replace(f"{folder}/", "")
        return reason

    def joined(self, pair: Pair) -> tuple[Joined, Joined]:
        """Both libraries, joined with their debug information. Their files go to the folder."""
        old, new = (Joined.of(library, side, self.folder, name)
                    for library, side, name in zip((pair.old, pair.new), self.sides, _SIDES))
        return old, new

    def drop_joined(self) -> None:
        """Removes the files of joined libraries, if there are any."""
        for name in _SIDES:
            (self.folder / name).unlink(missing_ok=True)

    def kept(self, pair: Pair) -> tuple[Path, Path]:
        """The same files, which stay in the folder under names of their own: sentences of `abi` name them, so the names must not depend
        on what was asked before."""
        if pair.name not in self._kept:
            old, new = (one.put() for one in self.joined(pair))
            number = list(self.pairs).index(pair.name)
            kept = Path(f"{old}-{number}"), Path(f"{new}-{number}")
            for name, place in zip((old, new), kept):
                os.rename(self.folder / name, self.folder / place)
            self._kept[pair.name] = kept
        return self._kept[pair.name]

    def files(self) -> list[Path]:
        """The ELF files of the old package."""
        return list(programs(self.sides[0].packages[0]).values()) if self.places[0] else []

    def close(self) -> None:
        """Removes what was unpacked, and the files in the folder."""
        self._drop_trees()
        for entry in os.scandir(self.folder):
            if not entry.is_dir():
                os.unlink(entry)


# Each thread's folder for joined libraries. It is kept, since making and removing one for each pair takes longer than unpacking.
_FOLDERS: dict[tuple[int, int, Path], tempfile.TemporaryDirectory[str]] = {}


def _work_folder(disk: Path) -> Path:
    """The folder of this thread, which has no files at this point."""
    key = os.getpid(), threading.get_ident(), disk
    if key not in _FOLDERS or not os.path.isdir(_FOLDERS[key].name):
        _FOLDERS[key] = tempfile.TemporaryDirectory(prefix="joined-", dir=disk)
    return Path(_FOLDERS[key].name)


# What each thread unpacked last.
_LAST: dict[int, tuple[ToUnpack, Unpacked]] = {}


def unpacked(task: ToUnpack) -> Unpacked:
    """Two packages, unpacked. They are reused if the thread unpacked the same ones last, by their digests. Raises a fault if one is
    damaged, and Trouble if they are no longer in their places."""
    known = _LAST.get(threading.get_ident())
    if known is None or known[0] != task or not os.path.isdir(known[1].folder):
        let_go()
        known = _LAST[threading.get_ident()] = task, Unpacked(task)
    return known[1]


def let_go() -> None:
    """Removes what the thread unpacked last."""
    known = _LAST.pop(threading.get_ident(), None)
    if known is not None:
        _close(known[1])


def let_go_of(run: str) -> None:
    """Removes what all threads unpacked last for a run that is over, and the run's folder on this host."""
    for thread, (task, packages) in list(_LAST.items()):
        if task.run == run:
            del _LAST[thread]
            _close(packages)
    workers.leave(run)


def _by_name(found: Sequence[Pair]) -> dict[str, Pair]:
    """Pairs by name. A file that cannot be read may have the name of another pair; the second one then gets a number."""
    by_name: dict[str, Pair] = {}
    for pair in found:
        names = itertools.chain([pair.name], (f"{pair.name} ({number})" for number in itertools.count(2)))
        name = next(name for name in names if name not in by_name)
        by_name[name] = replace(pair, name=name)
    return by_name


def _close(packages: Unpacked) -> None:
    """Removes what was unpacked, unless it is gone already."""
    with contextlib.suppress(OSError):
        packages.close()


def side_of(cache: PackageCache, places: Sequence[Path], root: Path) -> Side:
    """A side: its packages, unpacked, or its tree. The first package ships libraries; the others have their debug information."""
    if len(places) == 1 and places[0].is_dir():
        packages = [folder_package(places[0])]
        refused = next((f"{name_shown(name)}: {file.refused}" for name, file in packages[0].tree.files() if file.refused), "")
        if refused:
            # Its digest was read a moment ago, so this is no statement on the tree.
            raise Trouble(refused)
    else:
        packages = cache.put_side([KeyedFile(place, known_digest(place)) for place in places], root)
    return Side.of(packages, [contents_of(package) for package in packages[:1]])
