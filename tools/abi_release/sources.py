"""What the folders of two releases hold: packages or unpacked trees, by name, and how they are paired."""

from __future__ import annotations

import os
import re
from collections import Counter
from dataclasses import dataclass, field
from pathlib import Path
from typing import Iterator, NamedTuple, Optional
from urllib.parse import unquote

from debian.debian_support import Version

from abi_tools.faults import Fault

_SUFFIXES = (".deb", ".ddeb", ".rpm")
_DEB_NAME = re.compile(r"([^_]+)_([^_]+)_([^_]+)\.d?deb")
_RPM_NAME = re.compile(r"(.+)-([^-]+-[^-]+)\.([^.]+)\.rpm")
# Packages for x86-64, and those for all architectures.
_ARCHITECTURES = ("amd64", "all", "x86_64", "noarch")
# The suffixes of packages with debug information: for one package, and for several packages of one source.
_DEBUG_OF_ONE = ("-dbgsym", "-dbg", "-debuginfo")
_DEBUG_OF_SEVERAL = ("-dbg", "-debuginfo", "-debuginfo-common", "-debugsource")
_DEBUG = tuple({*_DEBUG_OF_ONE, *_DEBUG_OF_SEVERAL})
# Folders in the root of an unpacked system or package, and the name of a tree that is the whole folder.
_ROOT_FOLDERS = ("usr", "lib", "lib64", "bin", "opt")
_ROOT = "root"
# Stands between the names of two packages if a library moved from the first to the second.
MOVED = " -> "


class Work(NamedTuple):
    """Two packages to judge, old and new. Each side has names below its folder: that of the package and then those of its debug
    information, or that of one tree; or none, if the side has no such package. If `only` is not empty, only the libraries that it
    names are judged. `is_shared` says that other packages have the same debug information."""

    name: str
    old: tuple[str, ...]
    new: tuple[str, ...]
    only: tuple[str, ...] = ()
    is_shared: bool = False

    @property
    def group(self) -> tuple[str, str]:
        """What orders packages so that those with the same debug information follow one another."""
        return (*self.new[1:], *self.old[1:], self.name)[0], self.name


@dataclass(frozen=True)
class _File:
    """A package file: where it is, and the package's name, version and architecture, all from the name of the file."""

    place: str
    name: str
    version: str
    architecture: str

    @property
    def is_debug(self) -> bool:
        return self.name.endswith(_DEBUG)


@dataclass
class Release:
    """The packages of a folder with the files of each, and how many files were skipped: other architectures, and older versions."""

    packages: dict[str, tuple[str, ...]] = field(default_factory=dict)
    passed_over: Counter[str] = field(default_factory=Counter)

    @classmethod
    def of(cls, folder: Path) -> "Release":
        """The release in a folder. Raises a fault if the folder holds neither packages nor trees."""
        if not folder.is_dir():
            raise Fault(f"there is no folder {folder}")
        release = cls()
        files = release._newest(_file(place) for place in _package_files(folder))
        if files:
            release._take_packages(files)
        else:
            release.packages = _trees(folder)
        if not release.packages:
            raise Fault(f"{folder} holds neither packages nor unpacked trees")
        return release

    def _newest(self, files: Iterator[_File]) -> dict[str, _File]:
        """The newest file of each package name, for the architectures that are read."""
        found: dict[str, _File] = {}
        for file in files:
            if file.architecture not in _ARCHITECTURES:
                self.passed_over["other architectures"] += 1
            elif file.name not in found:
                found[file.name] = file
            else:
                self.passed_over["older versions"] += 1
                if _is_newer(file.version, found[file.name].version):
                    found[file.name] = file
        return found

    def _take_packages(self, files: dict[str, _File]) -> None:
        """Joins each package with those of its debug information: those for its own name, or else those of the same folder and
        version."""
        shared: dict[tuple[str, str], list[str]] = {}
        for file in files.values():
            if file.name.endswith(_DEBUG_OF_SEVERAL):
                shared.setdefault((os.path.dirname(file.place), file.version), []).append(file.place)
        for name, file in sorted(files.items()):
            if file.is_debug:
                continue
            own = [files[one].place for one in (f"{name}{suffix}" for suffix in _DEBUG_OF_ONE)
                   if one in files and files[one].version == file.version]
            debug = own or sorted(shared.get((os.path.dirname(file.place), file.version), ()))
            self.packages[name] = (file.place, *debug)


def works(old: Release, new: Release) -> list[Work]:
    """The packages of both sides, paired and sorted by name."""
    counts = [Counter(place for places in release.packages.values() for place in places[1:]) for release in (old, new)]
    found = []
    for name in sorted({*old.packages, *new.packages}):
        sides = old.packages.get(name, ()), new.packages.get(name, ())
        is_shared = any(count[place] > 1 for count, places in zip(counts, sides) for place in places[1:])
        found.append(Work(name, *sides, is_shared=is_shared))
    return found


def _package_files(folder: Path) -> Iterator[str]:
    """The names of the package files below a folder."""
    for at, folders, files in os.walk(folder):
        folders.sort()
        for name in sorted(files):
            if name.endswith(_SUFFIXES):
                yield os.path.relpath(os.path.join(at, name), folder)


def _file(place: str) -> _File:
    """Reads the name of a package file. A name of an unknown form counts as a package without a version."""
    name = os.path.basename(place)
    fields: Optional[re.Match[str]] = _DEB_NAME.fullmatch(name) or _RPM_NAME.fullmatch(name)
    if fields is None:
        return _File(place, os.path.splitext(name)[0], "0", "all")
    return _File(place, fields.group(1), unquote(fields.group(2)), fields.group(3))


def _is_newer(version: str, other: str) -> bool:
    """Whether a version is newer than another one, in Debian's order, or as text if one is not a Debian version."""
    try:
        return bool(Version(version) > Version(other))
    except ValueError:
        return version > other


def _trees(folder: Path) -> dict[str, tuple[str, ...]]:
    """The trees of a folder: the folder itself if it is the root of one, or else each folder in it."""
    if any((folder / name).is_dir() for name in _ROOT_FOLDERS):
        return {_ROOT: (".",)}
    names = sorted(entry.name for entry in os.scandir(folder) if entry.is_dir() and not entry.name.startswith("."))
    return {name: (name,) for name in names}
