"""The packages that are unpacked on this host, each once for all workers of a run that ask for it.

Each package is a folder named by the digest of its file, with a lock beside it. Who asks first unpacks; others wait for the lock. What is
handed out is links to the files, so a folder can go while files of it are still in use. The folders that were used longest ago go first
when all of them together take more than their share of the disk.
"""

from __future__ import annotations

import contextlib
import fcntl
import json
import os
import shutil
from dataclasses import replace
from pathlib import Path
from typing import Any, Iterator, NamedTuple, Optional, Sequence

from abi_tools.package_trees import Entry, File, Link, Node, Tree
from abi_tools.unpacking import Package, unpack

# In the folder of a package: the folder of the files that are kept, and what the package installs.
_FILES, _TREE = "files", "tree"
_DONE, _PART = ".done", ".part"
_OF_LOCK = 0o600
# A file takes blocks of the disk of this many bytes (stat(2)).
_BLOCK = 512
_MEGABYTE = 1 << 20


class KeyedFile(NamedTuple):
    """A package file, and the digest of its bytes."""

    file: Path
    digest: str


class PackageCache:
    """The unpacked packages below a folder, which may take this many megabytes."""

    def __init__(self, folder: Path, megabytes: int) -> None:
        self._folder = folder
        self._most = megabytes * _MEGABYTE

    def put_side(self, files: Sequence[KeyedFile], root: Path) -> list[Package]:
        """Puts the kept files of packages below a new folder `root`, each package's in a folder of its own, as if they were unpacked there.
        Raises a fault if a package is damaged."""
        root.mkdir(mode=0o700)
        packages = []
        for number, one in enumerate(files):
            folder = root / str(number)
            folder.mkdir(mode=0o700)
            with self._locked(one.digest) as lock:
                packages.append(Package(one.file, _linked(self._tree(one, lock), folder)))
        return packages

    @contextlib.contextmanager
    def _locked(self, digest: str) -> Iterator[int]:
        """A context that has the lock of a package."""
        place = self._folder / f"{digest}.lock"
        while True:
            lock = os.open(place, os.O_RDWR | os.O_CREAT | os.O_CLOEXEC | os.O_NOFOLLOW, _OF_LOCK)
            try:
                fcntl.flock(lock, fcntl.LOCK_EX)
                # A lock that was removed keeps nobody out.
                with contextlib.suppress(FileNotFoundError):
                    if os.path.samestat(os.fstat(lock), os.stat(place)):
                        yield lock
                        return
            finally:
                os.close(lock)

    def _tree(self, one: KeyedFile, lock: int) -> Tree:
        """What a package installs. The package is unpacked now if it was not, or if something of it is gone. The time of the lock is that
        of the last use."""
        place = self._folder / f"{one.digest}{_DONE}"
        os.utime(lock)
        known = _known(place)
        if known is not None:
            return known
        part = self._folder / f"{one.digest}{_PART}"
        for left in (part, place):
            shutil.rmtree(left, ignore_errors=True)
        try:
            (part / _FILES).mkdir(mode=0o700, parents=True)
            tree = unpack(one.file, part / _FILES).tree
            (part / _TREE).write_text(json.dumps({name: _said(node) for name, node in tree.entries.items()}), "utf-8")
            os.rename(part, place)
        except BaseException:
            shutil.rmtree(part, ignore_errors=True)
            raise
        self._make_room(one.digest)
        return _moved(tree, place / _FILES)

    def _make_room(self, but: str) -> None:
        """Removes the packages that were used longest ago until the others fit. Leaves those that are in use, and one."""
        found = []
        for entry in os.scandir(self._folder):
            digest, suffix = os.path.splitext(entry.name)
            if suffix == _DONE:
                with contextlib.suppress(FileNotFoundError):
                    found.append((os.stat(self._folder / f"{digest}.lock").st_mtime_ns, digest, _size(Path(entry.path))))
        total = sum(size for _, _, size in found)
        for _, digest, size in sorted(found):
            if total <= self._most:
                return
            if digest != but and self._is_removed(digest):
                total -= size

    def _is_removed(self, digest: str) -> bool:
        """Removes a package unless it is in use; returns whether it did."""
        lock = os.open(self._folder / f"{digest}.lock", os.O_RDWR | os.O_CREAT | os.O_CLOEXEC | os.O_NOFOLLOW, _OF_LOCK)
        try:
            fcntl.flock(lock, fcntl.LOCK_EX | fcntl.LOCK_NB)
            # Under the other name it is not taken for a whole package if this process ends now.
            part = self._folder / f"{digest}{_PART}"
            shutil.rmtree(part, ignore_errors=True)
            os.rename(self._folder / f"{digest}{_DONE}", part)
            shutil.rmtree(part, ignore_errors=True)
            return True
        except (BlockingIOError, FileNotFoundError):
            return False
        finally:
            os.close(lock)


def _known(place: Path) -> Optional[Tree]:
    """What an unpacked package installs; None if it is not unpacked, or not all of it is there."""
    try:
        said = json.loads((place / _TREE).read_text("utf-8"))
    except (OSError, ValueError):
        return None
    tree = Tree({name: _node(node, place / _FILES) for name, node in said.items()})
    return tree if all(map(os.path.lexists, _kept(tree))) else None


def _said(node: Node) -> Any:
    """An entry as JSON."""
    if isinstance(node, File):
        return {"size": node.size, "kept": None if node.kept is None else node.kept.name, "refused": node.refused, "is_elf": node.is_elf}
    return {"target": node.target} if isinstance(node, Link) else node.name


def _node(said: Any, folder: Path) -> Node:
    """The same entry, with its file in a folder."""
    if isinstance(said, str):
        return Entry[said]
    if "target" in said:
        return Link(said["target"])
    return File(said["size"], None if said["kept"] is None else folder / said["kept"], said["refused"], said["is_elf"])


def _kept(tree: Tree) -> set[Path]:
    """The files of this machine that have the contents of a package."""
    return {file.kept for _, file in tree.files() if file.kept is not None}


def _moved(tree: Tree, folder: Path) -> Tree:
    """A tree whose files are in another folder."""
    return Tree({name: replace(node, kept=folder / node.kept.name) if isinstance(node, File) and node.kept is not None else node
                 for name, node in tree.entries.items()})


def _linked(tree: Tree, folder: Path) -> Tree:
    """Links the files of an unpacked package into a folder."""
    for file in _kept(tree):
        os.link(file, folder / file.name, follow_symlinks=False)
    return _moved(tree, folder)


def _size(place: Path) -> int:
    """How many bytes of the disk the files below a folder take."""
    return sum(os.lstat(os.path.join(at, name)).st_blocks * _BLOCK for at, _, files in os.walk(place) for name in files)
