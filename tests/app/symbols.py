"""What readelf shows of a program's imports and of a library's exports."""

from __future__ import annotations

import re
import subprocess
from dataclasses import dataclass
from pathlib import Path

SYMBOL = re.compile(r" *\d+: \S+ +\S+ +(\S+) +(GLOBAL|WEAK|UNIQUE) +\S+ +(?:\[.*\] +)?(\S+) (\S+?)(?:@+(\S+) \((\d+)\)|@+(\S+))?$")
NEED_FILE = re.compile(r".* File: (\S+) +Cnt: \d+")
NEED_VERSION = re.compile(r".* Name: (\S+) +Flags: .* Version: (\d+)")


def _readelf(*words: str) -> list[str]:
    done = subprocess.run(["readelf", "--wide", *words], capture_output=True, text=True, check=True)
    return done.stdout.splitlines()


@dataclass(frozen=True)
class Import:
    """A name that a program imports and, if it has a version, the version and the file that it needs it from."""

    name: str
    version: str | None
    file: str | None


@dataclass(frozen=True)
class Export:
    """A line of `exports` in tests/common.bash."""

    number: int
    name: str
    version: str | None
    index: int
    label: str

    @property
    def is_default(self) -> bool:
        return "@@" in self.label


def needs_of(program: str) -> dict[int, tuple[str, str]]:
    """The version and the file for each index in a program's version needs."""
    needs: dict[int, tuple[str, str]] = {}
    file = ""
    for line in _readelf("--version-info", program):
        if found := NEED_FILE.fullmatch(line):
            file = found[1]
        elif found := NEED_VERSION.fullmatch(line):
            needs.setdefault(int(found[2]), (found[1], file))
    return needs


def imports_of(program: str) -> list[Import]:
    """The undefined symbols of a program, and the defined ones whose version comes from another file, such as copied objects."""
    needs = needs_of(program)
    imports = []
    for line in _readelf("--dyn-syms", program):
        symbol = SYMBOL.fullmatch(line.rstrip())
        if symbol is None:
            continue
        section, name, version, index = symbol[3], symbol[4], symbol[5], symbol[6]
        need = needs.get(int(index)) if index else None
        if section != "UND" and need is None:
            continue
        if need is None and version is not None:
            raise ValueError(f"{program}: no need has the index of {name}@{version}")
        imports.append(Import(name, *(need or (None, None))))
    return imports


def exports_in(listing: Path) -> list[Export]:
    """The exports in a listing by `exports`."""
    exports = []
    for line in listing.read_text().splitlines():
        number, name, version, index, label, *_ = line.split("\t")
        exports.append(Export(int(number), name, version or None, int(index), label))
    return exports


def bound_to(wanted: Import, soname: str, exports: list[Export]) -> Export | None:
    """The export to which an import binds. An import with a version binds by name and version, if its file has this soname; one without
    binds as the dynamic loader binds programs that were linked before the library had versions."""
    named = [export for export in exports if export.name == wanted.name]
    if wanted.version is not None:
        return next((it for it in named if it.version == wanted.version), None) if wanted.file == soname else None
    exact = [it for it in named if it.version is None]
    first = [it for it in named if it.index == 2]
    defaults = [it for it in named if it.version is not None and it.is_default]
    return (exact or first or (defaults if len(defaults) == 1 else []) or [None])[0]


def used(program: str, soname: str, exports: list[Export]) -> list[Export]:
    """The exports of a library that a program uses, in order."""
    bound = {bound_to(wanted, soname, exports) for wanted in imports_of(program)}
    return [export for export in exports if export in bound]
