"""Units of debug information that are written by hand: their entries, their faults, and the names and addresses of functions."""

from __future__ import annotations

import re
import struct

from .entries import FORM_ADDR, FORM_STRING, uleb
from .images import Image, Symbol
from .programs import Runs

# The base address, and the sections to which texts and addresses lead. Their bases are 4 and 0.
BASE = 0x2000
NAMED_SECTIONS = {
    ".debug_str": b"de\0fg\0h",
    ".debug_line_str": b"\0",
    ".debug_str_offsets": b"\xaa\xaa\xaa\xaa\x03\0\0\0\x06\0\0\0\x01\0\0",
    ".debug_addr": struct.pack("<2Q", 0x1000, 0x3000),
}
STR_OFFSETS_BASE = struct.pack("<I", 4)
AT_NAME, AT_LOW_PC, AT_RANGES, AT_STR_OFFSETS_BASE, AT_ADDR_BASE, AT_RNGLISTS_BASE = 0x03, 0x11, 0x55, 0x72, 0x73, 0x74
FORM_SEC_OFFSET, FORM_RNGLISTX = 0x17, 0x23
# The entry of the function.
FUNCTION = 50

Sections = dict[str, bytes]
# An attribute, its form and its value.
Attribute = tuple[int, int, bytes]


def unit(row: list[str]) -> Sections:
    """The sections of a row."""
    return {f".debug_{name}": bytes.fromhex(cell) for name, cell in zip(("info", "abbrev", "str", "str_offsets", "addr"), row[1:])}


def changed(sections: Sections, change: str) -> Sections:
    """The same sections with another byte at a position of one."""
    if not change:
        return sections
    section, place, byte = change.split()
    data = bytearray(sections[f".debug_{section}"])
    data[int(place)] = int(byte, 16)
    return {**sections, f".debug_{section}": bytes(data)}


def _fault(told: str) -> str:
    words = told.split()
    return f"{words[3]} {words[4]}" if words[:1] == ["unreadable"] else ""


def fault_of(runs: Runs, sections: Sections) -> str:
    """The fault of a library with these sections, or nothing."""
    runs.write("library", Image(debug=sections).to_bytes())
    return _fault(runs.abi("exports", "library"))


def listed(runs: Runs, sections: Sections) -> str:
    """The entries that `abi entries` prints."""
    runs.write("library", Image(debug=sections).to_bytes())
    return ";".join(runs.abi("entries", "library").splitlines())


def addressed(runs: Runs, sections: Sections, address: int) -> str:
    """The entry of an export at an address, and its name."""
    runs.write("library", Image([Symbol("f", "function", 1, address)], debug=sections).to_bytes())
    found = re.match(r"export f entry (\d+) named (\S+)\n", runs.graph("library"))
    assert found
    return f"{found[1]} {found[2]}"


def graph(runs: Runs, sections: Sections, address: int) -> str:
    """The nodes that are reached from an export at an address, each after the first with its parts, or the fault."""
    runs.write("library", Image([Symbol("f", "function", 1, address)], debug=sections).to_bytes())
    told = runs.graph("library")
    return told.strip() if told.startswith("unreadable") else ";".join(told.splitlines()[2:])


def _table(root: list[Attribute], function: list[Attribute]) -> bytes:
    table = b""
    for code, (tag, has_children, attributes) in enumerate(((0x11, True, root), (0x2E, False, function)), 1):
        pairs = b"".join(uleb(attribute) + uleb(form) for attribute, form, _ in attributes)
        table += bytes([code, tag, has_children]) + pairs + b"\0\0"
    return table + b"\0"


def _function(version: int, has_bases: bool, attributes: list[Attribute]) -> Sections:
    # The name of the root is as long as it takes for the function to be at its place.
    head = struct.pack("<HIB", 4, 0, 8) if version == 4 else struct.pack("<HBBI", 5, 1, 8, 0)
    root = [(AT_LOW_PC, FORM_ADDR, struct.pack("<Q", BASE))]
    if has_bases:
        root.append((AT_STR_OFFSETS_BASE, FORM_SEC_OFFSET, STR_OFFSETS_BASE))
        root += [(base, FORM_SEC_OFFSET, bytes(4)) for base in (AT_ADDR_BASE, AT_RNGLISTS_BASE)]
    length = FUNCTION - 4 - len(head) - 1 - sum(len(value) for _, _, value in root)
    root.append((AT_NAME, FORM_STRING, b"n" * (length - 1) + b"\0"))
    body = head + b"\1" + b"".join(value for _, _, value in root) + b"\2" + b"".join(value for _, _, value in attributes) + b"\0"
    return {".debug_info": struct.pack("<I", len(body)) + body, ".debug_abbrev": _table(root, attributes), **NAMED_SECTIONS}


def _addresses(runs: Runs, sections: Sections, asked: list[int]) -> list[tuple[str, str]] | str:
    # The address and the name of each export that has an entry, or the fault.
    symbols = [Symbol(f"f{at}", "function", 1, at) for at in asked]
    runs.write("library", Image(symbols, debug=sections).to_bytes())
    told = runs.abi("exports", "library")
    if runs.status:
        return _fault(told)
    return re.findall(rf"^export f(\d+) entry {FUNCTION} named (\S+)$", runs.graph("library"), re.M)


def _address(runs: Runs, sections: Sections, wanted: str) -> str:
    found = _addresses(runs, sections, [int(wanted)] if wanted.isdigit() else [0, BASE, 0x1000, 0x3000])
    return found if isinstance(found, str) else found[0][0] if found else "None"


def range_address(runs: Runs, row: list[str], wanted: str) -> str:
    """The wanted address, if that of the function is this one; `None` if it has none of some others; or the fault."""
    place, bases, lists = row
    kind, number = place.split()
    is_index = kind == "index"
    position = uleb(int(number)) if is_index else struct.pack("<I", int(number))
    attribute = (AT_RANGES, FORM_RNGLISTX if is_index else FORM_SEC_OFFSET, position)
    sections = _function(4 if kind == "pairs" else 5, bases == "bases", [attribute])
    data = bytes.fromhex(lists)
    return _address(runs, {**sections, ".debug_rnglists": data, ".debug_ranges": data}, wanted)


def address(runs: Runs, row: list[str], wanted: str) -> str:
    """The same for a function with its own address, in a form."""
    form, value, bases = row
    sections = _function(5, bases == "bases", [(AT_LOW_PC, int(form, 16), bytes.fromhex(value))])
    return _address(runs, sections, wanted)


def text(runs: Runs, row: list[str]) -> str:
    """The name of a function at 4096 that has it in a form, or the fault. A minus stands for an empty name."""
    form, value, bases = row
    name = (AT_NAME, int(form, 16), bytes.fromhex(value))
    sections = _function(5, bases == "bases", [(AT_LOW_PC, FORM_ADDR, struct.pack("<Q", 0x1000)), name])
    found = _addresses(runs, sections, [0x1000])
    return found if isinstance(found, str) else found[0][1]
