"""The debug sections of a file, each read when it is first used."""

from __future__ import annotations

from typing import Iterator, Mapping

from abi_tools.elf_files import ElfFile


class DebugContents(Mapping[str, bytes]):
    """The inflated contents of the sections, by name."""

    def __init__(self, file: ElfFile) -> None:
        """Inflates the compressed sections. Raises a fault if one cannot be inflated."""
        self._file = file
        self._headers = file.debug_headers()
        self._read = {name: file.contents(header) for name, header in self._headers.items() if header.is_compressed}

    def __getitem__(self, name: str) -> bytes:
        if name not in self._read:
            self._read[name] = self._file.contents(self._headers[name])
        return self._read[name]

    def __contains__(self, name: object) -> bool:
        return name in self._headers

    def __iter__(self) -> Iterator[str]:
        return iter(self._headers)

    def __len__(self) -> int:
        return len(self._headers)
