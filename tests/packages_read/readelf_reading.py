"""What readelf shows of a library: its exports, and the addresses for which there is an entry of a function or a variable. It decides
if `abi` and abidw differ, or if abidw takes too long."""

from __future__ import annotations

import re
import subprocess
from pathlib import Path

_ENTRY = re.compile(rb" *<[0-9a-f]+><[0-9a-f]+>: Abbrev Number: \d+ \((DW_TAG_\w+)\)")
_LOW = re.compile(rb" *<[0-9a-f]+> +DW_AT_(?:low_pc|entry_pc) *: .*?(?:0x)?([0-9a-f]+)\s*$")
_PLACE = re.compile(rb" *<[0-9a-f]+> +DW_AT_location *:.*\(DW_OP_addr: ([0-9a-f]+)\)")
_SYMBOL = re.compile(r" *\d+: [0-9a-f]+ +\w+ +(?:FUNC|IFUNC|OBJECT|COMMON|TLS) +(?:GLOBAL|WEAK|UNIQUE) +(?:DEFAULT|PROTECTED) +"
                     r"(?!UND)\w+ (\S+)")
_HOLDERS = {b"DW_TAG_subprogram": _LOW, b"DW_TAG_variable": _PLACE}


def addresses(library: Path) -> set[int]:
    """The addresses of functions that have one, and of variables in memory."""
    found: set[int] = set()
    wanted = None
    with subprocess.Popen(["readelf", "--wide", "--debug-dump=info", str(library)], stdin=subprocess.DEVNULL,
                          stdout=subprocess.PIPE, stderr=subprocess.DEVNULL) as process:
        assert process.stdout is not None
        for line in process.stdout:
            entry = _ENTRY.match(line)
            if entry is not None:
                wanted = _HOLDERS.get(entry.group(1))
            elif wanted is not None:
                value = wanted.match(line)
                if value is not None:
                    found.add(int(value.group(1), 16))
    return found


def exports(library: Path) -> set[str]:
    """The functions and variables that a library exports, by label (`name`, `name@VERSION`, `name@@VERSION`)."""
    listed = subprocess.run(["readelf", "--wide", "--dyn-syms", str(library)], stdin=subprocess.DEVNULL, capture_output=True, text=True,
                            check=True).stdout
    return {found.group(1) for line in listed.splitlines() if (found := _SYMBOL.match(line))}
