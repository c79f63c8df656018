#!/usr/bin/env python3
"""Prints what `abi app` must say of a program and a library that replaces itself, according to readelf.

    uses.py PROGRAM SONAME LISTING [UNUSED]

LISTING has the exports of the library, as `exports` in tests/common.bash lists them. Each export that the program uses is a line
`use LABEL`. With UNUSED, that file gets two lines: the number of the first export that the program uses, and that of the first export
that it does not use and whose name no other export has.
"""

from __future__ import annotations

import sys
from collections import Counter
from pathlib import Path

from symbols import exports_in, used


def main(program: str, soname: str, listing: str, *others: str) -> None:
    exports = exports_in(Path(listing))
    uses = used(program, soname, exports)
    print("yes app")
    for export in uses:
        print(f"use {export.label}")
    if others:
        names = Counter(export.name for export in exports)
        alone = [export for export in exports if names[export.name] == 1]
        first = [next((it.number for it in alone if it in uses), 0), next((it.number for it in alone if it not in uses), 0)]
        Path(others[0]).write_text("".join(f"{number}\n" for number in first))


if __name__ == "__main__":
    main(*sys.argv[1:])
