"""Generates files that are meant to take a program much time or memory, and measures it on them.

usage: python3 -m hostile PROGRAM FOLDER [KIND..]: measures, in the folder
       python3 -m hostile --list: names the kinds
       python3 -m hostile --make FOLDER KIND SIZE: writes the files of one kind and size
"""

import os
import sys
from pathlib import Path

from . import certified, collide, entries, layouts, names, noted, pairs, placed, rings, ruled
from .cases import Kind
from .measure import HEAD, Row, run_case

ALL = [*entries.KINDS, *layouts.KINDS, *pairs.KINDS, *rings.KINDS, *names.KINDS, *ruled.KINDS, *certified.KINDS, *noted.KINDS]
ALL += [*collide.KINDS, *placed.KINDS]
RUNS = int(os.environ.get("RUNS", "3"))


def kind_named(name: str) -> Kind:
    for kind in ALL:
        if kind.name == name:
            return kind
    sys.exit(f"there is no kind {name}; --list names them")


def measured(program: str, kind: Kind) -> Row:
    """A row of the table. Only one of the two sizes is in memory at a time."""
    first = kind.first * int(os.environ.get("TIMES", "1"))
    case = kind.make(first)
    small = case.size(), run_case(program, case, RUNS)
    case = kind.make(2 * first)
    large = case.size(), run_case(program, case, RUNS)
    return Row(kind.name, (small[0], large[0]), (small[1], large[1]))


def make(folder: str, name: str, size: int) -> None:
    """Writes the files of a kind, and prints the words of the command."""
    case = kind_named(name).make(size)
    for file, contents in case.files.items():
        Path(folder, file).write_bytes(contents)
    for words in (case.before, case.words):
        if words:
            print("abi " + " ".join(words) + (" >made" if words is case.before else ""))


def table(program: str, folder: str, kinds: list[Kind]) -> int:
    """Prints the table, and returns 1 if a kind exceeds a bound."""
    os.chdir(folder)
    print(HEAD, flush=True)
    over = 0
    for kind in kinds:
        row = measured(program, kind)
        over += bool(row.overs())
        print(row.line(), flush=True)
    print(f"{over} of {len(kinds)} kinds are over the bounds")
    return 1 if over else 0


def main(words: list[str]) -> int:
    match words:
        case ["--list"]:
            for kind in ALL:
                print(f"{kind.name}: {kind.what}; n is {kind.first:,} and twice that")
            return 0
        case ["--make", folder, name, size]:
            make(folder, name, int(size))
            return 0
        case [program, folder, *names_of_kinds] if not program.startswith("-"):
            chosen = [kind_named(name) for name in names_of_kinds] or ALL
            return table(os.path.abspath(program), folder, chosen)
    sys.exit(__doc__)


if __name__ == "__main__":
    sys.exit(main(sys.argv[1:]))
