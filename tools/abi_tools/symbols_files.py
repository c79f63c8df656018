"""Reads the files `debian/PACKAGE.symbols` of dpkg (deb-src-symbols(5)), and holds them beside the exports of a library."""

from __future__ import annotations

import re
from dataclasses import dataclass, field
from pathlib import Path
from typing import Iterable, Iterator, Optional, Sequence

from abi_tools.faults import Fault
from abi_tools.gate_inputs import first_fault

_LARGEST = 1 << 24
_DEEPEST = 8
_NAMED = 8
_BASE = "Base"
# A line on a symbol: tags in brackets, the symbol, perhaps in quotes, and the version of the package.
_TAGS = re.compile(r"\(([^()]*)\)")
_QUOTED = re.compile(r"([\"'])(.*?)\1(\S*)(?:\s|$)")
_PLAIN = re.compile(r"(\S+)(?:\s|$)")
_INCLUDE = re.compile(r"(?:\([^()]*\))?#include\s+\"([^\"]*)\"")
# Which words of the tags `arch`, `arch-bits` and `arch-endian` include amd64.
_OURS = {"arch": {"amd64", "any", "linux-any", "any-amd64", "linux-amd64"}, "arch-bits": {"64"}, "arch-endian": {"little"}}
# Symbols of linkers, which dpkg-gensymbols passes over on amd64.
_OF_LINKERS = {"__bss_start", "_edata", "_end", "_init", "_fini", "_DYNAMIC", "__gmon_start__", "_GLOBAL_OFFSET_TABLE_"}


@dataclass(frozen=True)
class Listed:
    """A symbol of a file, `NAME@VERSION`, with its tags: the name of each, and its value."""

    symbol: str
    tags: dict[str, str]

    @property
    def is_of_amd64(self) -> bool:
        """Whether the tags say that amd64 has the symbol."""
        return all(_includes(self.tags[tag], ours) for tag, ours in _OURS.items() if tag in self.tags)

    @property
    def is_pattern(self) -> bool:
        """Whether the symbol stands for others."""
        return any(tag in self.tags for tag in ("c++", "symver", "regex"))

    def matches(self, symbol: str) -> bool:
        """Whether a pattern stands for a symbol. What is demangled matches nothing, since only C is judged."""
        if "c++" in self.tags:
            return False
        if "symver" in self.tags:
            return symbol.partition("@")[2] == self.symbol
        try:
            return "regex" in self.tags and re.search(self.symbol, symbol) is not None
        except re.error:
            return False


def _includes(words: str, ours: set[str]) -> bool:
    """Whether a list of architectures has one of ours. Words with `!` leave them out."""
    found = words.split()
    if any(word.startswith("!") for word in found):
        return not any(word.removeprefix("!") in ours for word in found)
    return any(word in ours for word in found)


@dataclass
class SymbolsFile:
    """A file: its path, and the symbols of each library by soname."""

    path: Path
    libraries: dict[str, list[Listed]] = field(default_factory=dict)

    def remarks(self, soname: str, labels: Iterable[str]) -> list[str]:
        """What the file lists and the exports of a library lack, and what they have more."""
        listed = [one for one in self.libraries[soname] if one.is_of_amd64]
        exports = dict.fromkeys(map(_symbol_of, labels))
        plain = {one.symbol: one for one in listed if not one.is_pattern}
        patterns = [one for one in listed if one.is_pattern]
        lacking = [name for name, one in plain.items() if name not in exports and "optional" not in one.tags and not _is_version(name)]
        rest = [name for name in exports if name not in plain]
        lacking += [f"pattern {one.symbol}" for one in patterns
                    if "optional" not in one.tags and "c++" not in one.tags and not any(map(one.matches, rest))]
        more = [name for name in rest if name.partition("@")[0] not in _OF_LINKERS and not any(one.matches(name) for one in patterns)]
        said = [(lacking, "lists {} that the new library lacks: {}"), (more, "lacks {} that the new library has: {}")]
        return [f"{self.path} {words.format(_counted(len(found)), _named(found))}" for found, words in said if found]


def _counted(count: int) -> str:
    return f"{count} export{'' if count == 1 else 's'}"


def _named(names: Sequence[str]) -> str:
    more = f" and {len(names) - _NAMED} more" if len(names) > _NAMED else ""
    return ", ".join(names[:_NAMED]) + more


def _symbol_of(label: str) -> str:
    """An export as the files name it: `NAME@VERSION`, with the version `Base` if it has none."""
    name, at, version = label.partition("@")
    return f"{name}@{version.removeprefix('@')}" if at else f"{name}@{_BASE}"


def _is_version(symbol: str) -> bool:
    """Whether a symbol stands for a version itself, as linkers make it."""
    name, _, version = symbol.partition("@")
    return name == version


def read_symbols(path: Path) -> SymbolsFile:
    """Reads a file, and those that it includes. Raises a fault if one cannot be read, or has no library before its first symbol."""
    found = SymbolsFile(path)
    at: Optional[str] = None
    for line in _lines(path, _DEEPEST):
        if not line.strip() or line.startswith(("#", "|", "*")):
            continue
        if not line[0].isspace():
            at = line.split()[0]
            found.libraries.setdefault(at, [])
        elif at is None:
            raise Fault(f"{path} is no file of symbols: it names no library before its first symbol")
        elif (listed := _listed(line.strip())) is not None:
            found.libraries[at].append(listed)
    if not found.libraries:
        raise Fault(f"{path} is no file of symbols: it names no library")
    return found


def _lines(path: Path, depth: int) -> Iterator[str]:
    """The lines of a file, with those of included files. These must lie in its folder."""
    first_fault([path])
    with path.open("rb") as stream:
        text = stream.read(_LARGEST + 1)
    if len(text) > _LARGEST:
        raise Fault(f"{path} has more than {_LARGEST} bytes")
    for line in text.decode("utf-8", "surrogateescape").split("\n"):
        included = _INCLUDE.match(line.strip())
        if included is None:
            yield line
            continue
        name = included[1]
        if "/" in name or name in ("", ".", "..") or depth == 0:
            raise Fault(f"{path} includes {name}, which is not in its folder, or is included too deeply")
        yield from _lines(path.parent / name, depth - 1)


def _listed(line: str) -> Optional[Listed]:
    """The symbol of a line, if it has one. A line on a symbol that is missing is a remark of dpkg-gensymbols and begins with `#`."""
    if line.startswith("#"):
        return None
    tags: dict[str, str] = {}
    found = _TAGS.match(line)
    if found is not None:
        tags = {name: value for name, _, value in (one.partition("=") for one in found[1].split("|"))}
        line = line[found.end():].lstrip()
    quoted = _QUOTED.match(line)
    if quoted is not None:
        return Listed(quoted[2] + quoted[3], tags)
    plain = _PLAIN.match(line)
    return None if plain is None else Listed(plain[1], tags)
