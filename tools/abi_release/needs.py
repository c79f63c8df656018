"""What packages need from others: the packages that they depend on, and what their programs and libraries import."""

from __future__ import annotations

from pathlib import Path
from typing import Iterable, Iterator, Mapping, Optional

from debian.deb822 import Deb822, PkgRelation

from abi_tools import rpm_files
from abi_tools.deb_control import control_text
from abi_tools.debug_files import DEBUG_FOLDER
from abi_tools.elf_files import ElfFile
from abi_tools.faults import Fault
from abi_tools.unpacking import Package

# The first bytes of a little-endian ELF-64 file.
_IDENTITY = b"\x7fELF\x02\x01"
# The key of imports without a version, which therefore name no library.
ANY_LIBRARY = ""

Imports = dict[str, list[str]]


def version_and_depends(package: Path, control: Optional[bytes] = None) -> tuple[str, list[str]]:
    """The version of a package, and all names of packages in its `Depends` and `Pre-Depends`, or of all that a .rpm requires; both empty
    for an unpacked tree. A caller that already has the text of the control file passes it. Raises a fault if the package is damaged."""
    if control is None and package.is_dir():
        return "", []
    if package.suffix == ".rpm":
        with package.open("rb") as stream:
            return rpm_files.version_and_requires(stream, package)
    text = control_text(package) if control is None else control
    if text is None:
        raise Fault(f"{package} is damaged: it has no control file")
    return _of_control(Deb822(text))


def _of_control(control: Deb822) -> tuple[str, list[str]]:
    names: set[str] = set()
    for relations in (control.get("Depends", ""), control.get("Pre-Depends", "")):
        for alternatives in PkgRelation.parse_relations(relations) if relations else ():
            names |= {one["name"] for one in alternatives if one["name"]}
    return str(control.get("Version", "")), sorted(names)


def imports(files: Iterable[Path]) -> Imports:
    """What the files of a package import: for each library that one needs, the names with their versions, and for ANY_LIBRARY the names
    without a version. Files that cannot be read import nothing."""
    found: dict[str, set[str]] = {}
    for path in files:
        with path.open("rb") as stream:
            if stream.read(len(_IDENTITY)) != _IDENTITY:
                continue
        try:
            for library, symbol in _imported(ElfFile(path)):
                found.setdefault(library, set()).update([symbol] if symbol else [])
        except Fault:
            continue
    return {library: sorted(symbols) for library, symbols in sorted(found.items())}


def programs(package: Package) -> dict[str, Path]:
    """The ELF files of a package by name: programs and libraries, but no debug files."""
    return {name: file.kept for name, file in package.tree.files()
            if file.is_elf and file.kept is not None and not f"/{name}".startswith(f"{DEBUG_FOLDER}/")}


def files_that_need(files: Mapping[str, Path]) -> dict[str, list[str]]:
    """For each library, the files of a package that need it."""
    found: dict[str, list[str]] = {}
    for name, path in files.items():
        for library in imports([path]):
            if library != ANY_LIBRARY:
                found.setdefault(library, []).append(name)
    return found


def _imported(file: ElfFile) -> Iterator[tuple[str, str]]:
    """The libraries that a file needs, each with an empty name, and the names that it imports, with their versions."""
    yield from ((library, "") for library in file.needed())
    for name, version in file.imports():
        yield (ANY_LIBRARY, name) if version is None else (version[0], f"{name}@{version[1]}")
