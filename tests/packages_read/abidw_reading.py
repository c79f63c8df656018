"""What abidw reads of a library: its exports, which of them have types, and how many parameters functions have."""

from __future__ import annotations

import signal
import subprocess
import xml.etree.ElementTree as ElementTree
from dataclasses import dataclass, field
from pathlib import Path
from typing import Optional

from abi_tools.faults import Fault

# How many seconds of processor time abidw gets for a library, and the status of a process that takes more.
_LONGEST = 1200
_TOO_LONG = -signal.SIGXCPU


@dataclass
class Reading:
    """Exports by label (`name`, `name@VERSION`, `name@@VERSION`): all functions and variables, those with a type, and how many parameters
    each function has."""

    exports: set[str] = field(default_factory=set)
    typed: set[str] = field(default_factory=set)
    parameters: dict[str, int] = field(default_factory=dict)


def abidw_reading(library: Path) -> Reading:
    """What abidw reads of a library. Raises a fault if it fails."""
    command = ["prlimit", f"--cpu={_LONGEST}:", "--", "abidw", "--no-corpus-path", "--no-comp-dir-path", str(library)]
    ended = subprocess.run(command, stdin=subprocess.DEVNULL, capture_output=True, check=False)
    if ended.returncode == _TOO_LONG:
        raise Fault(f"abidw took more than {_LONGEST} seconds")
    if ended.returncode != 0:
        raise Fault(f"abidw ended with status {ended.returncode}")
    corpus = ElementTree.fromstring(ended.stdout)
    aliases = {_label(symbol): symbol.get("alias", "").split(",") for symbol in corpus.iter("elf-symbol")}
    reading = Reading(set(aliases))
    groups = _groups(aliases)
    for declaration in (*corpus.iter("function-decl"), *corpus.iter("var-decl")):
        identifier: Optional[str] = declaration.get("elf-symbol-id")
        if identifier is None:
            continue
        for label in groups.get(identifier, {identifier}):
            reading.typed.add(label)
            if declaration.tag == "function-decl":
                reading.parameters[label] = sum(one.get("is-variadic") != "yes" for one in declaration.iter("parameter"))
    return reading


def _label(symbol: ElementTree.Element) -> str:
    """The label of a symbol, as abidw and `abi` write it."""
    name, version = symbol.get("name", ""), symbol.get("version")
    if version is None:
        return name
    return f"{name}{'@@' if symbol.get('is-default-version') == 'yes' else '@'}{version}"


def _groups(aliases: dict[str, list[str]]) -> dict[str, set[str]]:
    """For each symbol, all symbols at the same address. In `aliases`, the first symbol names the others."""
    groups: dict[str, set[str]] = {}
    for label, others in aliases.items():
        group = {label, *(other for other in others if other)}
        for one in list(group):
            group |= groups.get(one, set())
        for one in group:
            groups[one] = group
    return groups
