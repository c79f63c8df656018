"""The numbers and names of faults, from the tables of docs/SPECIFICATION.md; those of certificates and refusals; and the words of
limits (docs/manual/LIMITS.md)."""

import re
from pathlib import Path

SPECIFICATION = (Path(__file__).resolve().parents[2] / "docs" / "SPECIFICATION.md").read_text()


def rows(section: str, row: str) -> dict[int, str]:
    """The numbers and names in the rows of a section's tables."""
    text = SPECIFICATION.split(f"\n## {section}\n")[1].split("\n## ")[0]
    return {int(number): name for number, name in re.findall(row, text, re.MULTILINE)}


def among(faults: dict[int, str], numbers: range) -> dict[int, str]:
    """The faults with these numbers."""
    return {number: name for number, name in faults.items() if number in numbers}


FAULTS = rows("Faults", r"^\| (\d+) \| (\w+) \|")
HEADERS = among(FAULTS, range(1, 12))
SYMBOLS = among(FAULTS, range(12, 20))
LONG = among(FAULTS, range(40, 41))
APPLICATIONS = among(FAULTS, range(41, 43))
ENTRIES = {number: name for number, name in FAULTS.items() if number not in HEADERS | SYMBOLS | LONG | APPLICATIONS}
SAID = rows("What entries say", r"^\| (\d+) (\w+) \|") | rows("Types from entries", r"^\| (\d+) (\w+) \|")
RULES = rows("Rule files", r"^\| (\d+) \| (\w+) \|")
CERTIFICATES = {60: "Line", 61: "Order", 62: "End"}
REFUSALS = {
    70: "OtherInput",
    71: "Soname",
    72: "Bindings",
    73: "ExportRule",
    74: "Alike",
    75: "Root",
    76: "Rule",
    77: "Partner",
}
# What limits count, in the words of docs/manual/LIMITS.md.
LIMITS = {
    "dynamic symbols",
    "version definitions",
    "version needs",
    "names of exports",
    "names under which exports are declared",
    "range lists",
    "abbreviation tables",
    "attributes of a unit",
    "types that exports reach",
    "members and parameters",
    "enumerators",
    "parts by which types are compared",
    "letters of the names of types and parts",
    "names of types",
    "steps to the leaves of types passed by value",
    "pairs of types",
    "parts of pairs of types",
    "broken rules of types",
    "bytes of a report",
    "bytes of a listing",
    "bytes of a soname",
    "weight of patterns",
    "pair lines of a composed certificate",
    "bytes of a composed certificate",
    "work and bytes of notes",
    "tests of sections",
    "exports that reach a break",
}
LIBRARIES = HEADERS | SYMBOLS | ENTRIES | SAID | LONG
# The faults that each input may have.
OF_INPUT = {
    "old": LIBRARIES,
    "new": LIBRARIES,
    "library": LIBRARIES,
    "rules": RULES | LONG,
    "certificate": CERTIFICATES | LONG,
}
