"""The licences of what is linked into the programs: of the crates of the prover's kit, of those that these use, and of the C library if
it is linked in."""

from __future__ import annotations

import os
import re
import shutil
import subprocess
from pathlib import Path
from typing import Iterator, Optional, Sequence

from abi_tools.faults import Fault

# Archives that gcc links into a static program, and the folder in which Debian's packages say whose they are.
_ARCHIVES = ("libc.a", "libgcc.a")
_DOCUMENTS = Path("/usr/share/doc")
# A line of a crate's source that takes names from another crate, or from a module of its own.
_USE = re.compile(r"^\s*(?:pub )?use ([a-z0-9_]+)\b", re.MULTILINE)


def crate_licences(sources: Path) -> Iterator[tuple[str, bytes]]:
    """The licences of the kit's crates that `crates.txt` names, and of those that these use, each with a name for its file; and a list of
    them all. Nothing if there is no kit on the PATH. Raises a fault if a crate that `crates.txt` names has no licence."""
    kit = kit_folder()
    if kit is None:
        return
    named = _kit_crates(sources)
    found = {crate: sorted((kit / "rattle" / crate).glob("LICEN[CS]E*")) for crate in _linked(kit / "rattle", named)}
    lacking = [str(kit / "rattle" / crate) for crate in named if not found[crate]]
    if lacking:
        raise Fault(f"the kit has no licence of crates that the programs use: put a file LICENSE into {', '.join(lacking)}")
    yield from ((f"{path.parent.name}.{path.name}", path.read_bytes()) for paths in found.values() for path in paths)
    yield "crates", "".join(map(_line, found.items())).encode()


def _line(found: tuple[str, list[Path]]) -> str:
    """A line of the list of crates: its name and its licences."""
    crate, paths = found
    return f"{crate}: {' '.join(path.name for path in paths) or 'the kit has no licence of its own for it'}\n"


def _linked(crates: Path, named: Sequence[str]) -> list[str]:
    """The crates of a kit that are named, and those that they use, directly or by way of others, in the order of their names."""
    found: set[str] = set()
    waiting = set(named)
    while waiting:
        found |= waiting
        waiting = {used for crate in waiting for used in _used(crates, crate)} - found
    return sorted(found)


def _used(crates: Path, crate: str) -> Iterator[str]:
    """The crates of a kit that the sources of one of them use."""
    texts = (path.read_text(encoding="utf-8") for path in (crates / crate / "src").rglob("*.rt"))
    return (name for text in texts for name in _USE.findall(text) if (crates / name / "src").is_dir())


def kit_folder() -> Optional[Path]:
    """The folder of the kit: the one that has the page which `rt doc` names."""
    if shutil.which("rt") is None:
        return None
    said = subprocess.run(["rt", "doc"], capture_output=True, text=True, check=False)
    page = Path(said.stdout.strip())
    return page.parent if said.returncode == 0 and page.is_absolute() and (page.parent / "rattle").is_dir() else None


def _kit_crates(sources: Path) -> list[str]:
    """The crates on which the crates of the sources stand and which are not of the sources."""
    lines = (line.partition("#")[0].partition(":") for line in (sources / "crates.txt").read_text(encoding="utf-8").splitlines())
    below = {name.strip(): words.split() for name, _, words in lines if name.strip()}
    return sorted({word for words in below.values() for word in words} - set(below))


def library_licences() -> Iterator[tuple[str, bytes]]:
    """The licences of the C library and of gcc's, whose archives are linked into static programs on this system, which must be a
    Debian."""
    for archive in _ARCHIVES:
        said = subprocess.run(["gcc", f"-print-file-name={archive}"], capture_output=True, text=True, check=True)
        package = _package_of(os.path.realpath(said.stdout.strip()))
        copyright_of = _DOCUMENTS / package / "copyright"
        if not copyright_of.is_file():
            raise Fault(f"there is no {copyright_of}, the licence of {archive}, which is linked into the programs")
        yield f"{archive}.copyright", copyright_of.read_bytes()


def _package_of(path: str) -> str:
    """The Debian package that has a file. dpkg knows the files of /lib and of /usr/lib by the names of the packages."""
    for name in (path, path.removeprefix("/usr")):
        said = subprocess.run(["dpkg-query", "--search", name], capture_output=True, text=True, check=False)
        if said.returncode == 0:
            return said.stdout.partition(":")[0]
    raise Fault(f"no Debian package has {path}, which is linked into the programs")
