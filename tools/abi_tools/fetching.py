"""Gets what was not given to `abi-packages`: the previous version of a package, and packages of debug information."""

from __future__ import annotations

from dataclasses import dataclass
from pathlib import Path
from typing import Optional, Sequence

from abi_tools.apt_archive import ALL, AptArchive
from abi_tools.deb_control import About, about
from abi_tools.faults import Fault
from abi_tools.shown import name_shown

# The end of the names of packages of headers.
_HEADERS = "-dev"


@dataclass(frozen=True)
class _Package:
    """A package of a side: what it is, and its file, if it is there."""

    about: About
    file: Optional[Path] = None


@dataclass(frozen=True)
class Completed:
    """The files of both sides, and how many of each may ship libraries: packages of debug information come behind these. And sentences on
    what was not given, and on packages without an earlier version or debug information."""

    old: list[Path]
    new: list[Path]
    shipping: tuple[int, int]
    notes: list[str]


def completed(old: Sequence[Path], new: Sequence[Path], folder: Path, mirrors: Sequence[str]) -> Completed:
    """Both sides, with the packages of debug information that they lack, from the archive that apt knows or from mirrors. If `old` is
    empty, it becomes the previous versions of the new packages. What is fetched is kept in `folder`. Raises a fault if a package is no
    .deb, or if there is no previous version of any."""
    archive = AptArchive(folder, mirrors)
    news = [_Package(about(file), file) for file in new]
    olds = [_Package(about(file), file) for file in old] if old else _previous(news, archive)
    sides = _with_debug(olds, archive), _with_debug(news, archive)
    fetched = archive.download(list(dict.fromkeys(one.about for side in sides for one in side if one.file is None)))
    first = {one.about.name for one in olds}
    notes = [note for name, side in zip(("old", "new"), sides) for note in _notes(name, side, (*old, *new))]
    notes += [f"the archive has no version of {one.about.name} before {one.about.version}"
              for one in news if not old and not one.about.is_debug and one.about.name not in first]
    ordered = [sorted(side, key=lambda one: one.about.is_debug) for side in sides]
    before, after = ([one.file or fetched[one.about] for one in side] for side in ordered)
    shipping = [sum(not one.about.is_debug for one in side) for side in sides]
    return Completed(before, after, (shipping[0], shipping[1]), notes)


def _notes(name: str, side: Sequence[_Package], given: Sequence[Path]) -> list[str]:
    """A sentence for each package of a side that was not given, and one on those without debug information."""
    notes = [f"{name}: {f'fetched {one.about}' if one.file is None else f'found {name_shown(str(one.file))}'}"
             for one in side if one.file not in given]
    lacking = sorted(str(one.about) for one in side if _lacks_debug(one, side))
    if lacking:
        notes.append(f"{name}: the archive has no debug information of {', '.join(lacking)}: many archives keep -dbgsym packages apart")
    return notes


def _lacks_debug(package: _Package, side: Sequence[_Package]) -> bool:
    """Whether a side has no debug information of a package that may have libraries, unlike those of headers and those for all architectures."""
    one = package.about
    has_none = one.is_debug or one.architecture == ALL or one.name.endswith(_HEADERS)
    return not has_none and not any(other.about.has_debug_of(one) for other in side)


def _previous(news: Sequence[_Package], archive: AptArchive) -> list[_Package]:
    """The previous versions of packages."""
    packages = [one.about for one in news if not one.about.is_debug]
    found = [_Package(previous) for package in packages for previous in archive.previous(package)]
    if not found:
        names = ", ".join(sorted({str(package) for package in packages}))
        raise Fault(f"the archive has no earlier version of {names or 'a package of libraries'}: name the old packages")
    return found


def _with_debug(side: Sequence[_Package], archive: AptArchive) -> list[_Package]:
    """The packages of a side, and those of debug information that it lacks."""
    found = list(side)
    for one in side:
        if not one.about.is_debug and not any(other.about.is_made_beside(one.about) for other in found):
            known = {other.about for other in found}
            found += _beside(one) or [_Package(debug) for debug in archive.debug_packages(one.about) if debug not in known]
    return found


def _beside(package: _Package) -> list[_Package]:
    """The package of debug information in the folder of a package that is there, where `dpkg-buildpackage` leaves it."""
    if package.file is None:
        return []
    name, version = f"{package.about.name}-dbgsym", package.about.version
    for form in (version.partition(":")[2] or version, version.replace(":", "%3a")):
        for suffix in ("deb", "ddeb"):
            place = package.file.parent / f"{name}_{form}_{package.about.architecture}.{suffix}"
            if place.is_file():
                found = about(place)
                if (found.name, found.version) == (name, version):
                    return [_Package(found, place)]
    return []
