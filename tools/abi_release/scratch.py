"""Folders for work in progress, outside of the folder of results: private to the user, and removed at the end of the run or, if that was
killed, by the next run.

A process that uses a folder holds a shared lock on the file `lock` in it. So a folder whose lock is free belongs to no living process.
"""

from __future__ import annotations

import contextlib
import fcntl
import os
import shutil
import stat
import tempfile
import time
from pathlib import Path
from typing import Optional

from abi_tools.faults import Fault

PREFIX = "abi-release-"
_LOCK = "lock"
_PRIVATE = 0o700
_OF_LOCK = 0o600
# Files here stay in memory (Linux).
IN_MEMORY = Path("/dev/shm")
# A folder without a lock may be one that another process is making right now. After so many seconds it is not.
_MADE_WITHIN = 3600


class Scratch:
    """A private folder that this process uses."""

    def __init__(self, folder: Path, lock: int) -> None:
        self.folder = folder
        self._lock: Optional[int] = lock

    @classmethod
    def new(cls, parent: Path) -> "Scratch":
        """Makes a folder with a name that nobody can foresee. Raises OSError if it cannot be made."""
        return cls._taken(Path(tempfile.mkdtemp(prefix=PREFIX, dir=parent)).resolve())

    @classmethod
    def of_run(cls, run: str, parent: Path) -> "Scratch":
        """The folder of a run on this host, which its workers share; made if it is missing. Raises a fault if there is something else
        under its name, such as a folder of another user."""
        folder = parent.resolve() / f"{PREFIX}{run}"
        while True:
            make_private(folder)
            with contextlib.suppress(FileNotFoundError):
                return cls._taken(folder)

    @classmethod
    def _taken(cls, folder: Path) -> "Scratch":
        """Locks a folder. Raises FileNotFoundError if another process has just removed it."""
        lock = os.open(folder / _LOCK, os.O_RDWR | os.O_CREAT | os.O_CLOEXEC | os.O_NOFOLLOW, _OF_LOCK)
        try:
            fcntl.flock(lock, fcntl.LOCK_SH)
            if not os.path.samestat(os.fstat(lock), os.stat(folder / _LOCK)):
                raise FileNotFoundError(folder)
        except BaseException:
            os.close(lock)
            raise
        return cls(folder, lock)

    def part(self, name: str) -> Path:
        """A folder in this one, made if it is missing."""
        place = self.folder / name
        place.mkdir(mode=_PRIVATE, exist_ok=True)
        return place

    def close(self) -> None:
        """Removes the folder, also if other processes still use it."""
        self._unlock()
        _remove(self.folder)

    def leave(self) -> None:
        """Removes the folder unless another process uses it."""
        self._unlock()
        _remove_unused(self.folder)

    def _unlock(self) -> None:
        if self._lock is not None:
            os.close(self._lock)
            self._lock = None


def make_private(folder: Path) -> None:
    """Makes a folder if it is missing. Raises a fault if it is not a folder of this user, and of nobody else."""
    with contextlib.suppress(FileExistsError):
        folder.mkdir(mode=_PRIVATE)
    _refuse_foreign(folder)


def sweep(parent: Path) -> None:
    """Removes the folders of this user that no living process uses: those of runs that were killed."""
    with contextlib.suppress(OSError):
        for entry in os.scandir(parent):
            if entry.name.startswith(PREFIX):
                _remove_unused(Path(entry.path))


def _refuse_foreign(folder: Path) -> None:
    """Raises a fault unless this is a folder of this user, and of nobody else."""
    found = os.lstat(folder)
    if not stat.S_ISDIR(found.st_mode) or found.st_uid != os.getuid() or stat.S_IMODE(found.st_mode) != _PRIVATE:
        raise Fault(f"{folder} is not a private folder of this user")


def _remove_unused(folder: Path) -> None:
    """Removes a folder of this user if no process has locked it."""
    with contextlib.suppress(OSError, Fault):
        _refuse_foreign(folder)
        try:
            lock = os.open(folder / _LOCK, os.O_RDWR | os.O_CLOEXEC | os.O_NOFOLLOW)
        except FileNotFoundError:
            if time.time() - os.lstat(folder).st_mtime > _MADE_WITHIN:
                _remove(folder)
            return
        try:
            fcntl.flock(lock, fcntl.LOCK_EX | fcntl.LOCK_NB)
            _remove(folder)
        finally:
            os.close(lock)


def _remove(folder: Path) -> None:
    """Removes a folder, and goes on if something in it cannot be removed. A worker may still be writing, so it looks again."""
    for _ in range(3):
        shutil.rmtree(folder, ignore_errors=True)
        if not folder.exists():
            return
