"""Compares what `abi` and abidw read of a library."""

from __future__ import annotations

import tempfile
from collections import Counter
from dataclasses import dataclass, field
from pathlib import Path, PurePosixPath
from typing import Sequence

from abi_tools.abi_program import Abi, Export
from abi_tools.elf_files import ElfFile
from abi_tools.faults import Fault
from abi_tools.joining import join_from
from abi_tools.package_sides import PackagedLibrary, Side
from packages_read.abidw_reading import Reading, abidw_reading
from packages_read.readelf_reading import addresses, exports

# The kinds of symbols that abidw lists.
_LISTED = ("FUNC", "IFUNC", "OBJECT", "COMMON", "TLS")
_MOST_NAMED = 6


@dataclass
class PackageLine:
    """The outcome for the libraries of a package: counts, and remarks on libraries that were not read or on which the two differ."""

    package: str
    counts: Counter[str] = field(default_factory=Counter)
    remarks: list[str] = field(default_factory=list)

    def text(self) -> str:
        """The line in Markdown."""
        counts = self.counts
        return (f"| {self.package} | {counts['read']} of {counts['libraries']} | {counts['exports']:,} | {counts['exports of abidw']:,} | "
                f"{counts['typed']:,} | {counts['typed of abidw']:,} | {counts['shown']:,} | {counts['functions']:,} | "
                f"{counts['other parameters']:,} | {'; '.join(self.remarks)} |")


HEAD = """\
| Package | Libraries read | Exports | by abidw | With types | by abidw | by readelf beside abidw | Functions in both | Other parameters | Remarks |
|---|---|---|---|---|---|---|---|---|---|"""


def compared(package: str, files: Sequence[Path]) -> PackageLine:
    """Unpacks a package and those of its debug information, and compares what `abi` and abidw read of each library."""
    line = PackageLine(package)
    with tempfile.TemporaryDirectory(prefix="packages-read-") as folder:
        try:
            side = Side.unpacked(files, Path(folder, "packages"))
        except Fault as fault:
            line.remarks.append(str(fault))
            return line
        digests: set[PurePosixPath] = set()
        for library in side.libraries:
            if library.package.file == files[0] and library.name not in digests:
                digests.add(library.name)
                line.counts["libraries"] += 1
                try:
                    _compare(library, side, Path(folder, "joined.so"), line)
                except Fault as fault:
                    line.remarks.append(f"{library.file_name}: {str(fault).replace(f'{folder}/', '').replace('packages/', '')}")
    return line


def _compare(library: PackagedLibrary, side: Side, joined: Path, line: PackageLine) -> None:
    """Compares one library, and counts. Raises a fault if `abi` cannot read it."""
    joined.write_bytes(join_from(side.places.read(library.path), side.places))
    listed = {export.label: export for export in Abi().exports(joined) if export.kind in _LISTED}
    line.counts["read"] += 1
    line.counts["exports"] += len(listed)
    line.counts["typed"] += sum(export.is_typed for export in listed.values())
    own = Reading(set(listed), {label for label, export in listed.items() if export.is_typed},
                  {label: _parameters(export.said) for label, export in listed.items() if export.said.startswith("params ")})
    try:
        other = abidw_reading(joined)
    except Fault as fault:
        line.counts["shown"] += _shown_by_readelf(library.file_name, str(fault), joined, listed, line)
        return
    more, less = own.typed - other.typed, other.typed - own.typed
    shown = set()
    if more:
        at, values = addresses(joined), ElfFile(joined).symbol_values()
        shown = {label for label in more if values[listed[label].number] in at}
    both = own.parameters.keys() & other.parameters.keys()
    unlike = {label for label in both if own.parameters[label] != other.parameters[label]}
    line.counts.update({"exports of abidw": len(other.exports), "typed of abidw": len(other.typed), "shown": len(shown),
                        "functions": len(both), "other parameters": len(unlike), "compared": 1})
    said = [("exports that abi alone has", own.exports - other.exports), ("exports that abidw alone has", other.exports - own.exports),
            ("types that neither abidw nor readelf shows", more - shown), ("types that abidw alone has", less),
            ("other numbers of parameters", unlike)]
    line.remarks += [f"{library.file_name}: {len(labels)} {what}: {_named(labels)}" for what, labels in said if labels]


def _shown_by_readelf(name: str, fault: str, joined: Path, listed: dict[str, Export], line: PackageLine) -> int:
    """Compares a library that abidw does not read with what readelf shows, and returns for how many of the exports with types readelf
    shows an entry."""
    at, values, found = addresses(joined), ElfFile(joined).symbol_values(), exports(joined)
    shown = [export for export in listed.values() if values[export.number] in at]
    typed = sum(export.is_typed for export in shown)
    alike = "the same" if found == set(listed) else f"{len(found ^ set(listed))} others"
    line.remarks.append(f"{name}: {fault}; readelf lists {len(found):,} exports ({alike}), and shows an entry of {typed:,} of those with "
                        f"types and of {len(shown) - typed:,} of the others")
    return typed


def _parameters(said: str) -> int:
    """How many parameters a line of `abi exports` lists."""
    listed = said.split(" ")[1]
    return 0 if listed == "-" else len(listed.split(","))


def _named(labels: set[str]) -> str:
    """The first of some labels."""
    first = sorted(labels)[:_MOST_NAMED]
    return ", ".join(f"`{label}`" for label in first) + (", .." if len(labels) > len(first) else "")
