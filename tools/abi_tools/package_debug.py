"""Debug files and supplementary files in the packages of one side."""

from __future__ import annotations

from functools import cached_property
from pathlib import Path, PurePosixPath
from typing import Iterator, Sequence

from abi_tools.debug_files import DEBUG_FOLDER, SUPPLEMENTARY_FOLDER, by_build_id
from abi_tools.elf_files import ElfFile, SupplementaryLink
from abi_tools.package_trees import File
from abi_tools.shown import name_shown
from abi_tools.unpacking import Package


class PackagePlaces:
    """The files of packages. A link leads to files of its own package alone."""

    said = " in the packages"

    def __init__(self, packages: Sequence[Package]) -> None:
        self._packages = packages

    @cached_property
    def _files(self) -> list[tuple[str, File]]:
        return [found for package in self._packages for found in package.tree.files()]

    @cached_property
    def _names(self) -> dict[Path, str]:
        """The name of each file that is kept."""
        return {file.kept: name for name, file in self._files if file.kept is not None}

    def name_of(self, path: Path) -> str:
        """The name in its package of a file that is kept."""
        return self._names[path]

    def read(self, path: Path) -> ElfFile:
        """A file that is kept. Faults call it by its name in its package."""
        return ElfFile(path, name_shown(self.name_of(path)))

    def named(self, name: PurePosixPath) -> Iterator[ElfFile]:
        """The files that a name leads to, one in each package."""
        for package in self._packages:
            file = package.tree.file(str(name))
            if file is not None and file.kept is not None:
                yield self.read(file.kept)

    def linked(self, library: ElfFile, name: str) -> Iterator[ElfFile]:
        """Where debuggers look for the file, and anywhere in the folder of debug files."""
        folder = PurePosixPath("/", self.name_of(library.path)).parent
        for place in (folder / name, folder / ".debug" / name, PurePosixPath(f"{DEBUG_FOLDER}{folder}") / name):
            yield from self.named(place)
        yield from self._named_below(DEBUG_FOLDER, PurePosixPath(name).name)

    def supplementary(self, debug: ElfFile, link: SupplementaryLink) -> Iterator[ElfFile]:
        """The files by the name in the link, by build id, and by their file name in the folder of supplementary files."""
        folder = PurePosixPath("/", self.name_of(debug.path)).parent
        yield from self.named(folder / link.name)
        yield from self.named(by_build_id(link.checksum))
        yield from self._named_below(SUPPLEMENTARY_FOLDER, PurePosixPath(link.name).name)

    def _named_below(self, folder: PurePosixPath, name: str) -> Iterator[ElfFile]:
        start = f"{str(folder).lstrip('/')}/"
        for place, file in self._files:
            if file.kept is not None and place.startswith(start) and place.endswith(f"/{name}"):
                yield self.read(file.kept)
