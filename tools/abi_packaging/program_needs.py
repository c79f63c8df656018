"""What programs need of the shared libraries of a system: the libraries (DT_NEEDED of the gABI), and the versions of their symbols
(`.gnu.version_r` of GNU symbol versioning)."""

from __future__ import annotations

import re
from dataclasses import dataclass
from pathlib import Path
from typing import Iterator, Sequence

from abi_tools.faults import Fault

# Versions of symbols of the C library, which are those of its releases.
_LIBC_VERSION = re.compile(r"GLIBC_(\d+(?:\.\d+)+)")
# The libraries of the C library, and those of gcc, with the Debian package of each.
_LIBC = re.compile(r"(libc|libm|libdl|libpthread|librt|libresolv)\.so\.\d+|ld-linux-x86-64\.so\.2")
_LIBGCC = "libgcc_s.so.1"


@dataclass(frozen=True)
class Needs:
    """The shared libraries that programs need, each with the versions of symbols that they use of it."""

    versions: dict[str, tuple[str, ...]]

    def libc(self) -> str:
        """The oldest release of the C library that has all versions, such as 2.34; empty if none is needed."""
        found = [match[1] for names in self.versions.values() for name in names if (match := _LIBC_VERSION.fullmatch(name))]
        return max(found, key=release_number, default="")

    def debian(self) -> list[str]:
        """The dependencies of a Debian package. Raises a fault if a library is in neither package that is known."""
        found = []
        for library in sorted(self.versions):
            if _LIBC.fullmatch(library):
                found.append(f"libc6 (>= {self.libc()})" if self.libc() else "libc6")
            elif library == _LIBGCC:
                found.append("libgcc-s1")
            else:
                raise Fault(f"the programs need {library}, which is neither of the C library nor of gcc: link it statically")
        return list(dict.fromkeys(found))

    def rpm(self) -> list[str]:
        """The dependencies of an RPM package, in the form that rpm gives to libraries for x86-64."""
        return [f"{library}({version})(64bit)" for library, versions in sorted(self.versions.items()) for version in ("", *versions)]


def release_number(text: str) -> tuple[int, ...]:
    """The number of a release of the C library, so that 2.9 is before 2.31. Raises ValueError if it is none."""
    return tuple(int(part) for part in text.split("."))


def needs_of(programs: Sequence[Path], newest_libc: str) -> Needs:
    """What the programs need. Raises a fault if one is no program for x86-64, or needs a newer release of the C library."""
    versions: dict[str, set[str]] = {}
    for program in programs:
        one: dict[str, set[str]] = {}
        for library, version in _needed(program):
            one.setdefault(library, set()).update([version] if version else [])
        libc = Needs({library: tuple(names) for library, names in one.items()}).libc()
        if libc and release_number(libc) > release_number(newest_libc):
            raise Fault(f"{program} needs version {libc} of the C library, which is newer than {newest_libc}: link it statically, or on "
                        f"a system with an older one, or allow it with --libc {libc}")
        for library, names in one.items():
            versions.setdefault(library, set()).update(names)
    return Needs({library: tuple(sorted(names)) for library, names in versions.items()})


def _needed(program: Path) -> Iterator[tuple[str, str]]:
    """Each library that a program needs, and each pair of library and version of symbols. A library alone has an empty version."""
    try:
        from elftools.common.exceptions import ELFError
        from elftools.elf.elffile import ELFFile
    except ModuleNotFoundError as error:
        raise Fault("there is no elftools for Python: install the package python3-pyelftools") from error
    with program.open("rb") as opened:
        try:
            file = ELFFile(opened)
            if file.header.e_machine != "EM_X86_64" or file.header.e_type not in ("ET_EXEC", "ET_DYN"):
                raise Fault(f"{program} is no program for x86-64")
            yield from _of_sections(file)
        except ELFError as error:
            raise Fault(f"{program} is no ELF file that can be read: {error}") from error


def _of_sections(file: object) -> Iterator[tuple[str, str]]:
    """What the dynamic table and the needed versions of a file say."""
    for section in file.iter_sections():  # type: ignore[attr-defined]
        if section.header.sh_type == "SHT_DYNAMIC":
            yield from ((tag.needed, "") for tag in section.iter_tags("DT_NEEDED"))
        elif section.header.sh_type == "SHT_GNU_verneed":
            yield from ((needed.name, one.name) for needed, versions in section.iter_versions() for one in versions)
