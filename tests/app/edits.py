#!/usr/bin/env python3
"""Links programs with a library, edits exports and versions of the library, and runs each program with the edited library: it must run
exactly if `abi app` says yes.

    edits.py ABI COUNT

It works in the current folder, and prints how often the answer was yes and how often no.
"""

from __future__ import annotations

import os
import random
import subprocess
import sys
from dataclasses import dataclass
from pathlib import Path

YES, NO = 0, 1
SEED = 37
SONAME = "libmade.so.1"
VERSIONS = ("V1", "V2", "V3")
NAMES = ("alpha", "beta", "gamma", "delta", "epsilon", "zeta")


@dataclass(frozen=True)
class Function:
    """A function of a library, with or without a version."""

    name: str
    version: str | None
    is_default: bool = True

    @property
    def body(self) -> str:
        """The name of its definition."""
        return f"{self.name}_in_{self.version}" if self.version else self.name

    @property
    def label(self) -> str:
        return self.name + (("@@" if self.is_default else "@") + self.version if self.version else "")


Library = frozenset[Function]


def _in_order(library: Library) -> list[Function]:
    return sorted(library, key=lambda it: (it.name, it.version or ""))


def _library_source(library: Library) -> str:
    lines = []
    for it in _in_order(library):
        if it.version:
            lines.append(f'__asm__(".symver {it.body}, {it.label}");')
        lines.append(f"int {it.body}(void) {{ return 0; }}")
    return "\n".join(lines) + "\n"


def _script(library: Library) -> str:
    """A version script with the versions of a library. It exports nothing else."""
    lines = []
    for version in sorted({it.version for it in library if it.version}):
        names = "".join(f" {it.name};" for it in _in_order(library) if it.version == version)
        others = "" if lines else " local: *;"
        lines.append(f"{version} {{ global:{names}{others} }};\n")
    return "".join(lines)


def _compile(*words: str) -> None:
    subprocess.run(["gcc", "-w", *words], check=True)


def build(library: Library, folder: Path) -> Path:
    """Builds the library in a folder of its own, under its soname."""
    folder.mkdir(exist_ok=True)
    source, made = folder / "made.c", folder / SONAME
    source.write_text(_library_source(library))
    words = ["-shared", "-fPIC", f"-Wl,-soname,{SONAME}", "-o", str(made), str(source)]
    if script := _script(library):
        (folder / "made.map").write_text(script)
        words.append(f"-Wl,--version-script={folder / 'made.map'}")
    _compile(*words)
    return made


def link(uses: list[Function], library: Path, program: Path) -> None:
    """Links a program that calls these functions of the library, each in its version."""
    lines = []
    for it in uses:
        if it.version and not it.is_default:
            lines.append(f'__asm__(".symver {it.body}, {it.name}@{it.version}");')
        lines.append(f"int {it.name if it.is_default else it.body}(void);")
    calls = " | ".join(f"{it.name if it.is_default else it.body}()" for it in uses)
    source = program.with_suffix(".c")
    source.write_text("\n".join(lines) + f"\nint main(void) {{ return {calls}; }}\n")
    _compile("-pie", "-fPIC", "-o", str(program), str(source), str(library))


def first_library(chance: random.Random, has_versions: bool) -> Library:
    functions: set[Function] = set()
    for name in NAMES:
        if not has_versions:
            functions.add(Function(name, None))
            continue
        of_name = sorted(chance.sample(VERSIONS, chance.choice((1, 1, 2))))
        functions |= {Function(name, version, version == of_name[-1]) for version in of_name}
    return frozenset(functions)


def _with_default(functions: set[Function], name: str) -> set[Function]:
    """The functions, with the last version of this name as its default version."""
    of_name = sorted(it.version for it in functions if it.name == name and it.version)
    others = {it for it in functions if it.name != name or not it.version}
    return others | {Function(name, version, version == of_name[-1]) for version in of_name}


def edited(chance: random.Random, library: Library, uses: list[Function]) -> Library:
    """The library after one edit of its exports or versions. Half of the edits change an export that the program uses."""
    functions = set(library)
    there = [it for it in uses if it in library]
    one = chance.choice(there if there and chance.random() < 0.5 else _in_order(library))
    version = chance.choice(VERSIONS)
    match chance.choice(("drop", "move", "add", "hide", "new")):
        case "drop" if len(functions) > 1:
            return frozenset(_with_default(functions - {one}, one.name))
        case "move":
            return frozenset(_with_default(functions - {one} | {Function(one.name, version)}, one.name))
        case "add" if one.version:
            return frozenset(_with_default(functions | {Function(one.name, version)}, one.name))
        case "hide" if one.version:
            return frozenset(functions - {one} | {Function(one.name, one.version, False)})
        case _:
            return frozenset(functions | {Function("omega", version if one.version else None)})


def _are_alike(library: Library) -> bool:
    """Whether a linker accepts it: all functions have a version, or none has, and each name has one definition per version."""
    kinds = {it.version is None for it in library}
    bodies = [it.body for it in library]
    defaults = [it.name for it in library if it.is_default]
    return len(kinds) == 1 and len(set(bodies)) == len(bodies) and len(set(defaults)) == len(defaults)


def _moved(chance: random.Random, library: Library, uses: list[Function], has_versions: bool) -> Library:
    """Up to three edits; a library without versions may get them all at once."""
    now = library
    if not has_versions and chance.random() < 0.5:
        now = frozenset(Function(it.name, chance.choice(VERSIONS)) for it in _in_order(now))
    while True:
        new = now
        for _ in range(chance.choice((1, 2, 3))):
            new = edited(chance, new, uses)
        if _are_alike(new):
            return new


def runs(program: Path, folder: Path) -> bool:
    environment = {**os.environ, "LD_LIBRARY_PATH": str(folder.resolve()), "LD_BIND_NOW": "1"}
    return subprocess.run([str(program.resolve())], env=environment, capture_output=True).returncode == 0


def main(abi: str, count: str) -> None:
    chance = random.Random(SEED)
    seen = {YES: 0, NO: 0}
    for number in range(int(count)):
        if number % 8 == 0:
            has_versions = number % 16 == 0
            library = first_library(chance, has_versions)
            old = build(library, Path("old"))
            program = Path("program")
            uses = chance.sample(_in_order(library), 4)
            link(uses, old, program)
            if not runs(program, Path("old")):
                sys.exit("the program does not run with the library that it was linked with")
        new_library = _moved(chance, library, uses, has_versions)
        new = build(new_library, Path("new"))
        said = subprocess.run([abi, "app", str(program), str(old), str(new)], capture_output=True, text=True)
        if said.returncode not in seen:
            sys.exit(f"edit {number}: {said.stdout}{said.stderr}")
        if (said.returncode == YES) != runs(program, Path("new")):
            labels = " ".join(it.label for it in _in_order(new_library))
            sys.exit(f"edit {number}: the program runs where it should not, or the other way round\n{said.stdout}new: {labels}")
        seen[said.returncode] += 1
    print(seen[YES], seen[NO])


if __name__ == "__main__":
    main(*sys.argv[1:])
