#!/usr/bin/env python3
"""Compares the layouts that the program prints for a library's structures with what `pahole` prints for them.

    compare.py PROGRAM LIBRARY [--all] [--every N]

It compares each structure (or every N-th) that has a tag, and whose members pahole knows. A structure that no export reaches is left
out; with --all there must be none. It prints a line with the number of layouts, the number of those with overlaps, and the number of
tags that were left out.
"""

from __future__ import annotations

import argparse
import os
import re
import subprocess
import sys
from collections import Counter
from concurrent.futures import ThreadPoolExecutor
from pathlib import Path

import model
from pahole import Structure, structures_of

DONE, REFUSED = 0, 5
NO_TAG = "refused 85 NoTag 0\n"
GAP = re.compile(r"(?:hole|padding) bit (\d+) width (\d+)")


def _bits(runs: list[model.Run]) -> set[int]:
    return set().union(*(range(first, end) for first, end in runs))


def _gaps(lines: list[str]) -> set[int]:
    """The bits of the holes and of the padding that the program prints."""
    gaps = (GAP.fullmatch(line) for line in lines)
    return _bits([(int(gap[1]), int(gap[1]) + int(gap[2])) for gap in gaps if gap])


def _counted(structure: Structure, free: set[int]) -> set[int]:
    """The free bits that pahole counts, together with those on which it says nothing."""
    return _bits(structure.free) | (_bits(structure.silent) & free)


def _difference(structures: list[Structure], lines: list[str]) -> str | None:
    """How the lines differ from what pahole says of each structure with the tag; None if they agree with one."""
    same = [it for it in structures if model.lines(it) == lines]
    if not same:
        return "pahole's members would give\n" + "\n".join("    " + line for line in model.lines(structures[0]))
    if model.clashes(same[0]):
        return None
    free = _gaps(lines)
    if any(_counted(it, free) == free for it in same):
        return None
    return f"pahole counts the free bits {model.runs(_bits(same[0].free))}, not {model.runs(free)}"


def _judged(program: str, library: str, structures: list[Structure], is_whole: bool) -> tuple[str, str | None]:
    """The kind of answer for the structures with one tag, and the difference, if there is one."""
    tag = structures[0].tag
    ended = subprocess.run([program, "layout", library, tag], capture_output=True, text=True, check=False, timeout=60)
    if ended.returncode == REFUSED and ended.stdout == NO_TAG:
        return "not reached", f"{tag}: no structure has the tag" if is_whole else None
    if ended.returncode != DONE:
        return "failed", f"{tag}: status {ended.returncode}: {ended.stdout}{ended.stderr}"
    difference = _difference(structures, ended.stdout.splitlines())
    sort = "with overlaps" if ended.stdout.split("\n", 1)[0].endswith(" overlaps") else "without overlaps"
    return sort, f"{tag}: {difference}; the program prints\n{ended.stdout}" if difference else None


def main() -> int:
    parser = argparse.ArgumentParser()
    parser.add_argument("program")
    parser.add_argument("library")
    parser.add_argument("--all", action="store_true")
    parser.add_argument("--every", type=int, default=1)
    asked = parser.parse_args()
    by_tag: dict[str, list[Structure]] = {}
    for structure in structures_of(Path(asked.library)):
        by_tag.setdefault(structure.tag, []).append(structure)
    tags = sorted(by_tag)[::asked.every]
    with ThreadPoolExecutor(os.cpu_count()) as pool:
        judged = list(pool.map(lambda tag: _judged(asked.program, asked.library, by_tag[tag], asked.all), tags))
    differences = [difference for _, difference in judged if difference]
    print("\n".join(differences), end="\n" if differences else "", file=sys.stderr)
    count = Counter(sort for sort, _ in judged)
    laid = count["with overlaps"] + count["without overlaps"]
    print(f"{laid} {count['with overlaps']} {len(tags) - laid}")
    return 1 if differences or laid == 0 else 0


if __name__ == "__main__":
    sys.exit(main())
