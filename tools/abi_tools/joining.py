"""Joins a library, its debug file and the supplementary file that they name into one file that `abi` reads."""

from __future__ import annotations

from pathlib import Path
from typing import Optional

from abi_tools.debug_files import FolderPlaces, Places, debug_file, disagreement, supplementary_file
from abi_tools.elf_files import ElfFile, Section
from abi_tools.elf_writing import AddedSection, with_sections
from abi_tools.faults import Fault
from abi_tools.limits import LARGEST_FILE
from abi_tools.supplementary import DebugSections, leads_out, merge

# Sections that name another file. A joined file needs none of them.
_LINKS = (".gnu_debuglink", ".gnu_debugaltlink", ".debug_sup")


def join(library_path: Path, root: Path, debug_path: Optional[Path] = None) -> bytes:
    """The library with its debug information in it, uncompressed. The debug file is `debug_path`, or the library itself if it has
    debug information, or else the one found below `root`. The supplementary file is also looked for below `root`. Raises a fault if a
    file is missing, damaged, of another build, too large, or has debug information that cannot be joined."""
    return join_from(ElfFile(library_path), FolderPlaces(root), None if debug_path is None else ElfFile(debug_path))


def join_from(library: ElfFile, places: Places, given: Optional[ElfFile] = None) -> bytes:
    """The same for a library, the debug file that is given, if there is one, and the places of others."""
    debug = _debug_of(library, places, given)
    if not debug.has_debug_information:
        raise Fault(f"{debug.name} has no debug information")
    _check_size(library, debug)
    sections = debug.debug_sections()
    headers = {name: header for name, (header, _) in sections.items()}
    contents = {name: part for name, (_, part) in sections.items()}
    own = DebugSections(debug.name, contents)
    if leads_out(own):
        supplementary = _supplementary_of(library, debug, places)
        _check_size(supplementary)
        other = supplementary.debug_sections()
        contents = merge(own, DebugSections(supplementary.name, {name: part for name, (_, part) in other.items()}))
        headers = {**{name: header for name, (header, _) in other.items()}, **headers}
    return _written(library, headers, contents)


def _check_size(*files: ElfFile) -> None:
    """Raises a fault if a file is longer than what `abi` reads."""
    for file in files:
        if file.size > LARGEST_FILE:
            raise Fault(f"{file.name} has {file.size} bytes, and abi reads no file of more than {LARGEST_FILE} bytes")


def _debug_of(library: ElfFile, places: Places, given: Optional[ElfFile]) -> ElfFile:
    """The file with the debug information of a library."""
    if given is None:
        return library if library.has_debug_information else debug_file(library, places)
    reason = disagreement(library, given)
    if reason is not None:
        raise Fault(reason)
    return given


def _supplementary_of(library: ElfFile, debug: ElfFile, places: Places) -> ElfFile:
    """The supplementary file that the debug file and the library name."""
    link = debug.supplementary_link
    if link is None:
        raise Fault(f"{debug.name} refers to a supplementary file, and does not name it")
    other = library.supplementary_link
    if other is not None and other.checksum != link.checksum:
        raise Fault(f"{library.name} and {debug.name} name supplementary files of two builds")
    return supplementary_file(debug, link, places)


def _written(library: ElfFile, headers: dict[str, Section], contents: dict[str, bytes]) -> bytes:
    """The library with these sections in place of its own debug sections."""
    dropped = {section.name for section in library.sections if section.is_debug or section.name in _LINKS}
    added = [AddedSection(_named(headers[name], name), part) for name, part in contents.items() if name not in _LINKS]
    return with_sections(library, dropped, added)


def _named(header: Section, name: str) -> Section:
    """The header with this name, since a compressed section may have had another one."""
    return header._replace(name=name)
