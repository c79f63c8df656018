"""The folder of a run: its files exist whole or not at all, and later runs find what earlier runs left in it."""

from __future__ import annotations

import contextlib
import fcntl
import hashlib
import io
import itertools
import json
import os
from pathlib import Path
from typing import Any, BinaryIO, Callable, Optional, TextIO

from abi_tools.faults import Fault

Json = dict[str, Any]
_PERMISSIONS = 0o644
# Folders for work in progress, which the next run clears.
_BEGUN = ("started", "opened", "unfinished")
# Part of the names of unfinished files: no other process on any machine uses the same.
_OWN_NAME = os.urandom(8).hex()
_NUMBERS = itertools.count()
_SUFFIXES = {"certificate": "cert", "report": "report"}
# The suffix of a note on why a worker ended itself.
_WHY = ".why"


class Store:
    """A folder with a result for each pair of libraries (`results`), a record for each pair of packages (`packages`), the answers of
    `abi app` (`apps`), and work in progress (`started`, `opened`, `unfinished`).

    A file gets its name once it is complete. Only the tables are forced to the disk, since waiting for the disk at each file takes
    longer than judging small libraries. If a machine loses power, a damaged file does not parse or does not match the digests in its
    result, and counts as missing.
    """

    def __init__(self, folder: Path, begun: Optional[Path] = None) -> None:
        """The folder of a run. Notes of begun tasks go to the folder in memory `begun`, if there is one and it has room, or else to
        `started`: on a disk it takes longer to make and to remove a note for each task than to find its result."""
        self.folder = folder
        self._notes = [*([] if begun is None else [begun]), folder / "started"]
        self._unfinished = folder / "unfinished"

    def open(self) -> int:
        """Makes the folder, removes what a killed run left unfinished, and returns a lock, which the process keeps. Raises a fault if
        another run holds it."""
        for name in ("results", "packages", "apps", *_BEGUN):
            (self.folder / name).mkdir(parents=True, exist_ok=True)
        lock = os.open(self.folder / "lock", os.O_RDWR | os.O_CREAT | os.O_CLOEXEC, _PERMISSIONS)
        try:
            fcntl.flock(lock, fcntl.LOCK_EX | fcntl.LOCK_NB)
        except BlockingIOError as error:
            os.close(lock)
            raise Fault(f"another run works in {self.folder}") from error
        for name in _BEGUN:
            for left in (self.folder / name).iterdir():
                left.unlink()
        return lock

    def put(self, name: str, contents: bytes) -> None:
        """Writes a file of the folder under a temporary name, and renames it once it is complete. Raises OSError if it cannot be
        written."""
        self._put(name, lambda stream: stream.write(contents), is_forced=False)

    def write(self, name: str, writer: Callable[[TextIO], None]) -> None:
        """Writes a text in the same way, piece by piece, and forces it to the disk."""

        def write(stream: BinaryIO) -> None:
            text = io.TextIOWrapper(stream, encoding="utf-8", errors="surrogateescape", write_through=False)
            writer(text)
            text.flush()
            text.detach()

        self._put(name, write, is_forced=True)

    def _put(self, name: str, write: Callable[[BinaryIO], object], is_forced: bool) -> None:
        temporary = f"{self._unfinished}/{_OWN_NAME}-{os.getpid()}-{next(_NUMBERS)}"
        file = os.open(temporary, os.O_WRONLY | os.O_CREAT | os.O_EXCL | os.O_CLOEXEC, _PERMISSIONS)
        try:
            with os.fdopen(file, "wb") as stream:
                os.fchmod(file, _PERMISSIONS)
                write(stream)
                if is_forced:
                    stream.flush()
                    os.fsync(stream.fileno())
            _rename(temporary, f"{self.folder}/{name}")
        except BaseException:
            Path(temporary).unlink(missing_ok=True)
            raise

    def put_json(self, name: str, value: Json) -> None:
        """Writes a value in the same way, as JSON."""
        self.put(name, json.dumps(value, sort_keys=True).encode())

    def json(self, name: str) -> Optional[Json]:
        """The JSON object in a file; None if there is no file, or no object in it."""
        try:
            with open(f"{self.folder}/{name}", "rb", buffering=0) as stream:
                value = json.loads(stream.read().decode())
        except (OSError, ValueError):
            return None
        return value if isinstance(value, dict) else None

    def put_result(self, place: str, result: Json, kind: str, text: bytes) -> None:
        """Writes the certificate or report of two libraries, and then their result, which names it."""
        files = {}
        if kind:
            result[kind] = f"{place}.{_SUFFIXES[kind]}"
            self.put(result[kind], text)
            files = {result[kind]: hashlib.sha256(text).hexdigest()}
        self.put_json(f"{place}.json", {**result, "files": files})

    def result(self, place: str) -> Optional[Json]:
        """The result of two libraries; None if it, or its certificate or report, is missing or damaged."""
        result = self.json(f"{place}.json")
        if result is None or not isinstance(result.get("files"), dict):
            return None
        for name, digest in result["files"].items():
            try:
                text = (self.folder / name).read_bytes()
            except OSError:
                return None
            if hashlib.sha256(text).hexdigest() != digest:
                return None
        return result

    def begin(self, task: str, library: str) -> None:
        """Notes that a task has begun, and which library it is judging, in case the worker dies."""
        self._put_note(_note_name(task), os.fsencode(library))

    def begun(self, task: str) -> Optional[str]:
        """The library that a task was judging: empty if it had not come to one, and None if the task had not begun."""
        found = self._noted(_note_name(task))
        return None if found is None else os.fsdecode(found)

    def end(self, task: str) -> None:
        """Notes that a task is done."""
        self._drop_note(_note_name(task))

    def put_why(self, task: str, reason: str) -> None:
        """Notes why a worker ends itself over a task."""
        self._put_note(_note_name(task) + _WHY, reason.encode("utf-8", "surrogateescape"))

    def why(self, task: str) -> str:
        """Why a worker ended itself over a task, which then is forgotten; empty if it did not."""
        reason = self._noted(_note_name(task) + _WHY)
        self._drop_note(_note_name(task) + _WHY)
        return "" if reason is None else reason.decode("utf-8", "surrogateescape")

    def _put_note(self, name: str, text: bytes) -> None:
        """Writes a note to the first folder that takes it. Raises OSError if none does."""
        *others, last = (f"{folder}/{name}" for folder in self._notes)
        for place in others:
            with contextlib.suppress(OSError):
                return _write_over(place, text)
        return _write_over(last, text)

    def _noted(self, name: str) -> Optional[bytes]:
        """The text of a note; None if there is none. A note that was written in two folders says more in the second one."""
        found: Optional[bytes] = None
        for folder in self._notes:
            with contextlib.suppress(OSError):
                found = (folder / name).read_bytes() or found or b""
        return found

    def _drop_note(self, name: str) -> None:
        for folder in self._notes:
            with contextlib.suppress(FileNotFoundError):
                os.unlink(f"{folder}/{name}")

    def drop(self, name: str) -> None:
        """Removes a file."""
        (self.folder / name).unlink(missing_ok=True)


def _note_name(task: str) -> str:
    return hashlib.sha256(os.fsencode(task)).hexdigest()


def _write_over(place: str, text: bytes) -> None:
    """Writes a file in place, which may be there."""
    file = os.open(place, os.O_WRONLY | os.O_CREAT | os.O_TRUNC | os.O_CLOEXEC, _PERMISSIONS)
    try:
        if text:
            os.write(file, text)
    finally:
        os.close(file)


def _rename(temporary: str, place: str) -> None:
    """Gives a file its name, and makes its folder if it is missing."""
    try:
        os.rename(temporary, place)
    except FileNotFoundError:
        os.makedirs(os.path.dirname(place), exist_ok=True)
        os.rename(temporary, place)


def record_name(work: str) -> str:
    """The file of the record of two packages."""
    return f"packages/{work}.json"


def opened_name(work: str) -> str:
    """The file of the unfinished record of two packages, while their libraries are judged."""
    return f"opened/{work}.json"


def app_name(hit: str, work: str) -> str:
    """The file of the answers of `abi app` for the programs of the package `hit` and the libraries of the packages `work`."""
    return f"apps/{hit} asks {work}.json"


def result_name(digest: str) -> str:
    """The file, without its suffix, of the result of two libraries: by the digest of all that it rests on."""
    return f"results/{digest[:2]}/{digest}"
