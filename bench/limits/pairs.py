"""What `abi` compares of two libraries: pairs of types, rows of a report and lines of a composed certificate."""

from __future__ import annotations

import subprocess
from collections import Counter
from pathlib import Path

from .figures import Figure, constant, figure
from .graphs import Node, parts

_ROWS = "pair_compare/src/reports/rows.rt"


def run(program: str, *words: str) -> str:
    """What a command of `abi` prints. It must end with yes or no."""
    ended = subprocess.run([program, *words], stdout=subprocess.PIPE, stderr=subprocess.PIPE, text=True)
    if ended.returncode not in (0, 1):
        raise RuntimeError(f"{program} {' '.join(words)}: {ended.returncode} {ended.stderr.strip()}")
    return ended.stdout


def pair_lines(certificate: str) -> list[tuple[int, int]]:
    """The old and the new entry of each pair line."""
    words = (line.split() for line in certificate.splitlines())
    return [(int(line[1]), int(line[2])) for line in words if line[0] == "pair"]


def visits(nodes: dict[int, Node], certificate: str) -> Figure:
    """The pairs of types that were visited, for a library against itself."""
    return figure("Pairs", len(pair_lines(certificate)), 2 * len(nodes))


def compared_parts(nodes: dict[int, Node], certificate: str) -> Figure:
    """The parts of the types of each pair, for a library against itself."""
    found = sum(len(nodes[old].parts) + len(nodes[new].parts) for old, new in pair_lines(certificate))
    return figure("PairParts", found, 2 * parts(nodes))


def broken_rules(nodes: dict[int, Node], report: str) -> Figure:
    """The rows on types, each of which is a broken rule. The other library counts as one of as many types."""
    found = sum(line.startswith("L") for line in report.splitlines()[1:])
    return figure("Breaks", found, 2 * len(nodes))


def joined_lines(certificate: str) -> Figure:
    """The lines that are looked at when a certificate is composed with itself: for each line the type between, and the lines from it."""
    lines = pair_lines(certificate)
    behind = Counter(old for old, _ in lines)
    found = sum(1 + behind[new] for _, new in lines)
    return figure("PairLines", found, 2 * len(lines))


def report_bytes(report: str, old: str, new: str) -> Figure:
    """The rows of a report, each with the bytes that it takes besides its text."""
    row = constant(_ROWS, "ROW")
    found = sum(row + len(line.encode()) for line in report.splitlines()[1:])
    size = Path(old).stat().st_size + Path(new).stat().st_size
    return figure("Report", found, size)


def listing_bytes(listing: str, library: str) -> Figure:
    """The bytes that `exports` prints for a library."""
    return figure("Listing", len(listing.encode()), Path(library).stat().st_size)


def composed_lines(certificate: str) -> Figure:
    """The pair lines of a composed certificate."""
    return figure("ComposedLines", len(pair_lines(certificate)), 0)


def composed_bytes(certificate: str) -> Figure:
    """The bytes of a composed certificate."""
    return figure("Certificate", len(certificate.encode()), 0)
