"""Records and names in the tables of a library: its symbols, versions and needs, as pyelftools reads them."""

from __future__ import annotations

from typing import Any, Iterator, Optional

from elftools.elf.elffile import ELFFile

from .figures import Figure, figure

_SYMBOL = 24
_DEFINITION = 20
_NEED = 16
_AUXILIARY = 16
_INDEX = 0x7FFF


def _section(elf: ELFFile, kind: str) -> Optional[Any]:
    return next((section for section in elf.iter_sections() if section["sh_type"] == kind), None)


def _length(name: str) -> int:
    return len(name.encode())


def _table(limit: str, elf: ELFFile, kind: str, record: int, names: Iterator[str]) -> Figure:
    """Records of one size, each with a name, in the first section of a type."""
    section = _section(elf, kind)
    if section is None:
        return Figure(0, 0)
    strings = elf.get_section(section["sh_link"])
    found = sum(record + _length(name) for name in names)
    return figure(limit, found, section["sh_size"] + strings["sh_size"])


def symbols(elf: ELFFile) -> Figure:
    """Symbols with their names."""
    section = _section(elf, "SHT_DYNSYM")
    names = (symbol.name for symbol in section.iter_symbols()) if section else iter(())
    return _table("Symbols", elf, "SHT_DYNSYM", _SYMBOL, names)


def definitions(elf: ELFFile) -> Figure:
    """Version definitions with their names."""
    return _table("VersionDefinitions", elf, "SHT_GNU_verdef", _DEFINITION, iter(_versions(elf).values()))


def _versions(elf: ELFFile) -> dict[int, str]:
    """The names of the versions that a library defines, by index."""
    section = _section(elf, "SHT_GNU_verdef")
    if section is None:
        return {}
    return {version["vd_ndx"] & _INDEX: next(names).name for version, names in section.iter_versions()}


def exports(elf: ELFFile) -> Figure:
    """The names of defined symbols, each with the name of its version."""
    section = _section(elf, "SHT_DYNSYM")
    if section is None:
        return Figure(0, 0)
    versions = _versions(elf)
    indexes = _section(elf, "SHT_GNU_versym")
    found = 0
    for number, symbol in enumerate(section.iter_symbols()):
        if symbol["st_shndx"] != "SHN_UNDEF":
            index = indexes.get_symbol(number)["ndx"] if indexes else 0
            version = versions.get(index & _INDEX, "") if isinstance(index, int) else ""
            found += _length(symbol.name) + _length(version)
    return figure("ExportNames", found, _SYMBOL * section.num_symbols())


def needs(elf: ELFFile) -> Figure:
    """What a library needs from others: files and versions with their names, as `abi app` reads them from a program."""
    section = _section(elf, "SHT_GNU_verneed")
    if section is None:
        return Figure(0, 0)
    found = 0
    for need, auxiliaries in section.iter_versions():
        found += _NEED + _length(need.name)
        found += sum(_AUXILIARY + _length(auxiliary.name) for auxiliary in auxiliaries)
    strings = elf.get_section(section["sh_link"])
    return figure("VersionNeeds", found, section["sh_size"] + strings["sh_size"])


def imports(elf: ELFFile) -> Figure:
    """The names of the version and of the file that each symbol needs, as `abi app` counts them for a program."""
    needed = _section(elf, "SHT_GNU_verneed")
    indexes = _section(elf, "SHT_GNU_versym")
    if needed is None or indexes is None:
        return Figure(0, 0)
    lengths = {
        auxiliary["vna_other"] & _INDEX: _length(need.name) + _length(auxiliary.name)
        for need, auxiliaries in needed.iter_versions()
        for auxiliary in auxiliaries
    }
    found = 0
    for number in range(1, indexes.num_symbols()):
        index = indexes.get_symbol(number)["ndx"]
        found += lengths.get(index & _INDEX, 0) if isinstance(index, int) else 0
    return figure("ImportNeeds", found, _SYMBOL * indexes.num_symbols())


def soname(elf: ELFFile) -> Figure:
    """The bytes of the soname."""
    dynamic = _section(elf, "SHT_DYNAMIC")
    names = [tag.soname for tag in dynamic.iter_tags("DT_SONAME")] if dynamic else []
    return figure("Soname", _length(names[0]) if names else 0, 0)
