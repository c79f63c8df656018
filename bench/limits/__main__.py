"""Measures how much of each limit of `abi` some libraries use.

usage: /usr/bin/python3 -m limits ABI GRAPH_LINES LIBRARY[,CHANGED]..

Prints the table of docs/evidence/LIMITS.md, with a cell for each library: the count, the limit, and the percentage. CHANGED is another build of the
library, for the row on reports. Below the table it prints how deeply types hold each other by value, how much they weigh and how long
chains of origins are, each at most, and the weights of the rule files of examples/. Ends with status 1 if a library uses more than a
tenth of a limit in the table.
"""

from __future__ import annotations

import sys
import tempfile
from dataclasses import dataclass
from pathlib import Path
from typing import Optional

from elftools.elf.elffile import ELFFile

from . import debug_tables, elf_tables, graphs, held, pairs, rule_files
from .entries import read_entries
from .figures import MOST_SHARE, Figure
from .rows import ROWS, Row

_EXAMPLES = Path(__file__).resolve().parents[2] / "examples"
Figures = dict[str, Figure]


@dataclass(frozen=True)
class Programs:
    """The paths of `abi` and tool_graph_lines."""

    abi: str
    graph_lines: str


def _elf_figures(library: str) -> Figures:
    with open(library, "rb") as stream:
        elf = ELFFile(stream)
        return {
            "symbols": elf_tables.symbols(elf),
            "definitions": elf_tables.definitions(elf),
            "exports": elf_tables.exports(elf),
            "needs": elf_tables.needs(elf),
            "imports": elf_tables.imports(elf),
            "soname": elf_tables.soname(elf),
        }


def _type_figures(library: str, nodes: dict[int, graphs.Node]) -> Figures:
    size = Path(library).stat().st_size
    entries = read_entries(library)
    with open(library, "rb") as stream:
        elf = ELFFile(stream)
        return {
            "lists": debug_tables.range_lists(elf, entries),
            "tables": debug_tables.abbreviations(elf, entries.units),
            "attributes": debug_tables.attributes(entries.units),
            "types": graphs.reached_types(nodes, size),
            "flat": graphs.flat_parts(nodes, entries, size),
            "enumerators": graphs.enumerators(nodes, size),
            "parts": graphs.held_parts(nodes, size),
            "letters": graphs.letters(nodes, size),
            "names": graphs.labels(nodes),
            "steps": graphs.walk_steps(nodes),
            "depth": held.deepest(nodes, entries),
            "heaviest": held.heaviest(nodes, entries),
            "chain": held.longest_chain(entries),
        }


def _pair_figures(library: str, changed: Optional[str], abi: str, nodes: dict[int, graphs.Node]) -> Figures:
    """The figures of comparing the library with itself, and with another build."""
    certificate = pairs.run(abi, "check", library, library)
    figures = {"visits": pairs.visits(nodes, certificate), "compared": pairs.compared_parts(nodes, certificate)}
    figures["listing"] = pairs.listing_bytes(pairs.run(abi, "exports", library), library)
    if changed is not None:
        report = pairs.run(abi, "check", library, changed)
        figures["report"] = pairs.report_bytes(report, library, changed)
        figures["breaks"] = pairs.broken_rules(nodes, report)
    return figures | _composed_figures(library, certificate, abi)


def _composed_figures(library: str, certificate: str, abi: str) -> Figures:
    """The figures of composing the certificate of the library against itself with itself."""
    with tempfile.NamedTemporaryFile("w") as copy:
        copy.write(certificate)
        copy.flush()
        composed = pairs.run(abi, "compose", library, library, library, copy.name, copy.name)
    return {
        "joins": pairs.joined_lines(certificate),
        "lines": pairs.composed_lines(composed),
        "certificate": pairs.composed_bytes(composed),
    }


def measured(library: str, changed: Optional[str], programs: Programs) -> Figures:
    """All figures of a library."""
    lines = graphs.read_lines(programs.graph_lines, library)
    nodes = graphs.read_graph(lines)
    declared = {"declared": graphs.declared_letters(lines, Path(library).stat().st_size)}
    pairs_of_types = _pair_figures(library, changed, programs.abi, nodes)
    return _elf_figures(library) | declared | _type_figures(library, nodes) | pairs_of_types


def is_over(figures: Figures, row: Row) -> bool:
    return row.name in figures and figures[row.name].share > MOST_SHARE


def print_table(columns: dict[str, Figures]) -> None:
    print("| What is counted | " + " | ".join(columns) + " |")
    print("|---" * (len(columns) + 1) + "|")
    for row in ROWS:
        cells = (str(figures.get(row.name, "none")) for figures in columns.values())
        print(f"| {row.counted} | " + " | ".join(cells) + " |")


def print_others(columns: dict[str, Figures]) -> None:
    for file, figures in columns.items():
        print(f"{file}: depth by value {figures['depth']}, weight {figures['heaviest']}, chain of origins {figures['chain']}")
    for rules in sorted(_EXAMPLES.rglob("*.rules")):
        print(f"{rules.name}: weight of patterns {rule_files.weight(rules)}")


def main(programs: Programs, words: list[str]) -> int:
    columns = {}
    for library, _, changed in (word.partition(",") for word in words):
        columns[Path(library).name] = measured(library, changed or None, programs)
    print_table(columns)
    print_others(columns)
    over = [f"{file}: {row.name}" for file, figures in columns.items() for row in ROWS if is_over(figures, row)]
    for line in over:
        print(f"more than a tenth: {line}")
    return 1 if over else 0


if __name__ == "__main__":
    if len(sys.argv) < 4:
        sys.exit(__doc__)
    sys.exit(main(Programs(*sys.argv[1:3]), sys.argv[3:]))
