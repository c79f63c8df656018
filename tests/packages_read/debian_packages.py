"""Packages of Debian's main archive: finds the debug packages of libraries, and downloads packages."""

from __future__ import annotations

import re
import subprocess
from dataclasses import dataclass
from pathlib import Path
from typing import Optional, Sequence

_FIELD = re.compile(r"^([A-Z][A-Za-z-]*): (.*)$", re.MULTILINE)
_SAME_VERSION = re.compile(r"([a-z0-9][a-z0-9.+-]*) \(= [^)]*\)")
# Debug packages to skip: of kernels, of tools for other processors, and of libraries with another ABI for this processor.
_PASSED_OVER = re.compile(r"linux-image-.*|binutils-.*|gnumach-.*|lib32.*|libx32.*")
_LIBRARY = re.compile(r"lib.*(?<!-dev)(?<!-dbg)(?<!-common)")
# Debug packages with more bytes are skipped.
_LARGEST = 60 << 20


@dataclass(frozen=True)
class DebugPackage:
    """A debug package, the packages of the same version that it belongs to, and the other debug packages of its source, which may also
    have debug files of the same libraries."""

    name: str
    libraries: tuple[str, ...]
    others: tuple[str, ...]


def debug_packages(names: Sequence[str]) -> list[DebugPackage]:
    """The debug packages with these names, or all of them, without those that belong to no package of libraries."""
    found_names = (line.split(" ")[0] for line in _said("apt-cache", "search", "--names-only", "--", "-dbg$").splitlines())
    fields_of = _fields([name for name in found_names if not _PASSED_OVER.fullmatch(name)])
    sources: dict[tuple[str, str], list[str]] = {}
    for name, fields in fields_of.items():
        sources.setdefault(_source(fields), []).append(name)
    found = []
    for name, fields in fields_of.items():
        libraries = [one for one in _SAME_VERSION.findall(fields.get("Depends", "")) if _LIBRARY.fullmatch(one)]
        if libraries and name in (names or [name]):
            found.append(DebugPackage(name, tuple(libraries), tuple(one for one in sources[_source(fields)] if one != name)))
    return found


def _fields(names: Sequence[str]) -> dict[str, dict[str, str]]:
    """What the archive says of the debug packages that are not too large, sorted by name."""
    paragraphs = _said("apt-cache", "show", "--no-all-versions", *names).split("\n\n")
    all_fields: list[dict[str, str]] = [dict(_FIELD.findall(paragraph)) for paragraph in paragraphs if paragraph]
    return {fields["Package"]: fields for fields in sorted(all_fields, key=lambda one: one["Package"]) if int(fields["Size"]) <= _LARGEST}


def _source(fields: dict[str, str]) -> tuple[str, str]:
    """The source package of a package, and its version."""
    return fields.get("Source", fields["Package"]).split(" ")[0], fields["Version"]


def downloaded(name: str, folder: Path) -> Optional[Path]:
    """The file of a package in a folder, downloaded if it is missing; None if that fails."""
    there = sorted(folder.glob(f"{name}_*.deb"))
    if not there:
        subprocess.run(["apt-get", "download", name], cwd=folder, stdin=subprocess.DEVNULL, capture_output=True, check=False)
        there = sorted(folder.glob(f"{name}_*.deb"))
    return there[-1] if there else None


def _said(*command: str) -> str:
    return subprocess.run(command, stdout=subprocess.PIPE, text=True, check=True).stdout
