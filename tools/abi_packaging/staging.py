"""The files of the packages: those of an installation, laid out as they are installed, with one time and fixed permissions."""

from __future__ import annotations

import gzip
import os
import shutil
from dataclasses import dataclass
from pathlib import Path
from typing import Iterator

from abi_tools.faults import Fault

PROGRAMS = ("abi", "abi-json")
_TOOLS = Path("lib/abi/tools")
_MACROS = Path("lib/rpm/macros.d/macros.abi")
# The pages, schemas and recipes, which lie to each other as in the sources. The licence has a name of its own in packages.
_DOCUMENTS = Path("share/doc/abi")
_PAGES = ("README.md", "CHANGELOG.md", "docs", "examples")
_EXECUTABLE, _PLAIN = 0o755, 0o644


@dataclass(frozen=True)
class Installation:
    """What `install.sh` made below a prefix, and the sources that it comes from."""

    prefix: Path
    sources: Path

    @property
    def programs(self) -> list[Path]:
        """The proved programs."""
        return [self.prefix / "bin" / name for name in PROGRAMS]

    def tools(self) -> list[Path]:
        """The scripts of the tools, each of which has a link in the folder `bin`."""
        return sorted(path for path in (self.prefix / _TOOLS).iterdir() if path.is_file())

    def check(self) -> None:
        """Raises a fault if a part is missing, or is not that of the sources, so that the record would be wrong."""
        for path in (*self.programs, self.prefix / _TOOLS):
            if not path.exists():
                raise Fault(f"there is no {path}: {self.prefix} is no folder into which install.sh installed")
        for path in _files(self.prefix / _TOOLS):
            _same(path, self.sources / "tools" / path.relative_to(self.prefix / _TOOLS))
        for path in _files(self.sources / "share"):
            _same(self.prefix / "share" / path.relative_to(self.sources / "share"), path)
        for path in self.pages():
            _same(path, self.sources / path.relative_to(self.prefix / _DOCUMENTS))
        _same(self.prefix / _MACROS, self.sources / "tools/rpm/macros.abi")

    def pages(self) -> list[Path]:
        """The pages, schemas and recipes."""
        return [path for name in _PAGES for path in _files(self.prefix / _DOCUMENTS / name)]


def _files(folder: Path) -> Iterator[Path]:
    """The files below a folder, in order, without what Python compiled; or the file itself."""
    if folder.is_file():
        return iter((folder,))
    return (path for path in sorted(folder.rglob("*")) if path.is_file() and "__pycache__" not in path.parts)


def _same(installed: Path, source: Path) -> None:
    """Raises a fault if an installed file is not that of the sources."""
    if not installed.is_file() or not source.is_file() or installed.read_bytes() != source.read_bytes():
        raise Fault(f"{installed} is not {source} of the sources: install them again")


def stage(installation: Installation, top: Path) -> None:
    """Lays out the files of an installation below `top`, as below `/usr`. Manual pages are compressed."""
    for program in installation.programs:
        place(program.read_bytes(), top / "bin" / program.name, _EXECUTABLE)
    tools = installation.prefix / _TOOLS
    for path in _files(tools):
        place(path.read_bytes(), top / _TOOLS / path.relative_to(tools), _EXECUTABLE if path.parent == tools else _PLAIN)
    for tool in installation.tools():
        (top / "bin" / tool.name).symlink_to(Path("..") / _TOOLS / tool.name)
    share = installation.sources / "share"
    for path in _files(share):
        place_page(path.read_bytes(), top / "share" / path.relative_to(share))
    for path in installation.pages():
        place(path.read_bytes(), top / path.relative_to(installation.prefix), _EXECUTABLE if os.access(path, os.X_OK) else _PLAIN)
    place((installation.prefix / _MACROS).read_bytes(), top / _MACROS)


def place(contents: bytes, path: Path, mode: int = _PLAIN) -> None:
    """Writes a file of a package, with its folders."""
    path.parent.mkdir(parents=True, exist_ok=True)
    path.write_bytes(contents)
    path.chmod(mode)


def place_page(contents: bytes, path: Path) -> None:
    """Writes a file of `share`: a manual page compressed, and any other as it is."""
    if path.parts[-3] == "man":
        place(gzip.compress(contents, 9, mtime=0), path.with_name(f"{path.name}.gz"))
    else:
        place(contents, path)


def settle(top: Path, time: int) -> None:
    """Gives all folders their usual permissions, and all files below `top` one time, so that equal files make equal packages."""
    for path in (*sorted(top.rglob("*"), reverse=True), top):
        if path.is_dir() and not path.is_symlink():
            path.chmod(_EXECUTABLE)
        os.utime(path, (time, time), follow_symlinks=False)


def with_module(root: Path) -> Path:
    """Puts a link to the library `abi` where the Python of Debian looks for modules, and returns the folder of the package."""
    modules = root / "usr/lib/python3/dist-packages"
    modules.mkdir(parents=True)
    (modules / "abi").symlink_to("../../abi/tools/abi")
    return root


def copied(top: Path, to: Path) -> Path:
    """A copy of staged files, with their times."""
    shutil.copytree(top, to, symlinks=True)
    return to
