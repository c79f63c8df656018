"""Baselines: files that keep what `abi` reads of a library, and nothing else."""

from __future__ import annotations

from typing import Iterator

from abi_tools.elf_files import ElfFile, Section
from abi_tools.elf_writing import sections_alone
from abi_tools.faults import Fault
from abi_tools.supplementary import DebugSections, leads_out

# The types of the sections that `abi` finds by type (gABI, "Section Header", and GNU symbol versioning).
_KINDS = {"dynamic symbols": 11, "dynamic table": 6, "defined versions": 0x6FFFFFFD, "needed versions": 0x6FFFFFFE,
          "versions of symbols": 0x6FFFFFFF}
# The sections that it finds by name: the entries, the sections that they refer to, and where code begins.
_NAMES = (".debug_info", ".debug_abbrev", ".debug_str", ".debug_line_str", ".debug_str_offsets", ".debug_addr", ".debug_rnglists",
          ".debug_ranges")
# This note says which build the baseline comes from.
_BUILD_ID = ".note.gnu.build-id"


def baseline(library: ElfFile) -> bytes:
    """The smallest file that `abi` judges as it judges the library. Raises a fault if the library is not a shared object, is damaged,
    or refers to a supplementary file."""
    if not library.is_shared_object:
        raise Fault(f"{library.name} is no shared object for x86-64")
    debug = library.debug_sections()
    if leads_out(DebugSections(library.name, {name: contents for name, (_, contents) in debug.items()})):
        raise Fault(f"{library.name} refers to a supplementary file (dwz -m): join both by join-debug first")
    return sections_alone(library, list(_kept(library)))


def _kept(library: ElfFile) -> Iterator[tuple[Section, bytes]]:
    """The sections that a baseline keeps, in order, with inflated contents."""
    for number in sorted(set(_chosen(library))):
        section = library.sections[number]
        name = section.name.replace(".zdebug_", ".debug_", 1)
        # A compressed section is aligned as its header needs it, and not as its contents do. DWARF needs no alignment.
        yield section._replace(name=name, alignment=1 if section.is_debug else section.alignment), library.contents(section)


def _chosen(library: ElfFile) -> Iterator[int]:
    """The numbers of the first section of each kind and name, and of the string tables that they link to."""
    for kind in _KINDS.values():
        section = next((one for one in library.sections if one.kind == kind), None)
        if section is not None:
            yield section.number
            if 0 < section.link < len(library.sections):
                yield section.link
    for name in (*_NAMES, _BUILD_ID):
        section = library.first(name) or library.first(name.replace(".debug_", ".zdebug_"))
        if section is not None:
            yield section.number
