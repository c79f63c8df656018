#!/usr/bin/env python3
"""Writes a copy of a library in which one dynamic symbol has the version index of local symbols, so that it is not exported.

    hide.py LIBRARY COPY NUMBER
"""

from __future__ import annotations

import re
import subprocess
import sys
from pathlib import Path

VERSYM = re.compile(r" *\[ *\d+\] \.gnu\.version +VERSYM +\S+ (\S+) .*")


def main(library: str, copy: str, number: str) -> None:
    sections = subprocess.run(["readelf", "--wide", "--sections", library], capture_output=True, text=True, check=True)
    offsets = [int(found[1], 16) for line in sections.stdout.splitlines() if (found := VERSYM.fullmatch(line))]
    content = bytearray(Path(library).read_bytes())
    at = offsets[0] + 2 * int(number)
    content[at : at + 2] = b"\0\0"
    Path(copy).write_bytes(content)


if __name__ == "__main__":
    main(*sys.argv[1:])
