"""The texts of docs/evidence/AUDIT.md and docs/evidence/CONTRACTS.md."""

from __future__ import annotations

from itertools import groupby
from pathlib import Path
from typing import Iterable, Iterator

from .contracts import Contract, contracts_of
from .definitions import CRATES, ROOT, Definition, read_module
from .reached import TOP, Reached, Walk

EVIDENCE = ROOT / "docs" / "evidence"

_AUDIT = """\
# What an auditor must read

A proof says that code does what its contract says. Whether the contract says what it should, only a reader can tell. The contract that counts \
is that of `run`, in [{top}]({link}). Here is all that its clauses reach: definitions, types that the code declares and definitions \
mention, and modules of the kit. A mistake in any other definition cannot make a promise of `run` mean something else.

`tests/audit.sh` makes this page from the sources, and fails if it is not up to date. It follows names from definition to definition, so it \
may list one too many, where a variable has the name of a definition.

- {definitions} of {all_definitions} definitions, in {files} of the {all_files} files of `crates/*/specs`: {lines} of {all_lines} lines
- {types} types and traits, in {type_files} files of `crates/*/src`
- {kit} modules of the kit

[The files that no clause of `run` reaches](#files-that-no-clause-of-run-reaches) are listed at the end: its promises do not rest \
on their words.
"""

_CONTRACTS = """\
# The contracts of each crate

What a crate offers to those above it: its laws, the calls of its traits, and the public calls that the code of another crate names. Each has \
the first sentence of its comment and the names of its clauses; `..` stands for a clause without a name. The rest is in the file. Nothing here \
is a promise to users: [PROOFS](../PROOFS.md) has those.

`tests/audit.sh` makes this page from the sources, and fails if it is not up to date.
"""


def counted(number: int) -> str:
    """A number with commas."""
    return f"{number:,}"


def linked(path: Path) -> str:
    """A link from docs/evidence to a file of the repository, by its name inside the crate."""
    parts = path.relative_to(ROOT).parts
    return f"[{'/'.join(parts[2:])}](../../{'/'.join(parts)})"


def crate_of(path: Path) -> str:
    """The crate of a file."""
    return path.relative_to(ROOT).parts[1]


def from_the_top(paths: Iterable[Path]) -> list[Path]:
    """Files in an order in which they can be read: the crates from the top down, in each the files as they were reached."""
    return sorted(paths, key=lambda path: -CRATES.index(crate_of(path)))


def lines_in(path: Path) -> int:
    """How many lines a file has."""
    return len(path.read_text(encoding="utf-8").splitlines())


def subject_of(path: Path) -> str:
    """The first sentence of the comment at the head of a file."""
    lines = path.read_text(encoding="utf-8").splitlines()
    head = [line for number, line in enumerate(lines) if all(before.startswith("--") for before in lines[: number + 1])]
    text = " ".join(line.lstrip("- ").strip() for line in head)
    return text.split(". ")[0].rstrip(".").replace("|", "\\|")


def figures(reached: Reached) -> dict[str, str]:
    """The numbers of the page on what an auditor must read."""
    files = sorted((ROOT / "crates").glob("*/specs/**/*.antt"))
    numbers = {
        "files": len(reached.definitions),
        "all_files": sum(1 for file in files if read_module(file).definitions),
        "definitions": sum(len(made) for made in reached.definitions.values()),
        "all_definitions": sum(len(set(read_module(file).definitions.values())) for file in files),
        "lines": sum(definition.lines for made in reached.definitions.values() for definition in made),
        "all_lines": sum(map(lines_in, files)),
        "types": sum(len(names) for names in reached.types.values()),
        "type_files": len(reached.types),
        "kit": len(reached.kit),
    }
    return {name: counted(number) for name, number in numbers.items()}


def row_of(path: Path, made: list[Definition]) -> str:
    """The row of a file of definitions."""
    own = len(set(read_module(path).definitions.values()))
    lines = sum(definition.lines for definition in made)
    return f"| {linked(path)} | {subject_of(path)} | {len(made)} of {own} | {lines} of {lines_in(path)} |"


def unreached(reached: Reached) -> Iterator[str]:
    """A line for each crate with files of definitions of which none is reached."""
    files = (file for crate in reversed(CRATES) for file in sorted((ROOT / "crates" / crate / "specs").glob("**/*.antt")))
    left = (file for file in files if read_module(file).definitions and file not in reached.definitions)
    for crate, paths in groupby(left, crate_of):
        yield f"- `{crate}`: {', '.join(map(linked, paths))}"


def audit_page() -> str:
    """The page on what an auditor must read."""
    reached = Walk().run()
    top = "/".join(TOP.relative_to(ROOT).parts)
    page = [_AUDIT.format(top=top, link=f"../../{top}", **figures(reached)), "## Definitions\n"]
    page.append("From the top down. The last columns say how many definitions of the file are reached, and how many lines these have.\n")
    for crate, paths in groupby(from_the_top(reached.definitions), crate_of):
        page += [f"### {crate}\n", "| File | What it defines | Definitions | Lines |\n|---|---|---|---|"]
        page += [*(row_of(path, reached.definitions[path]) for path in paths), ""]
    page += ["## Types that the code declares\n", "| Crate | File | Types and traits |\n|---|---|---|"]
    page += [f"| {crate_of(path)} | {linked(path)} | {', '.join(f'`{name}`' for name in reached.types[path])} |"
             for path in from_the_top(reached.types)]
    page += ["\n## Modules of the kit\n", ", ".join(f"`{module.removeprefix('Rattle.')}`" for module in sorted(reached.kit)), ""]
    page += ["## Files that no clause of run reaches\n", "Contracts inside the crates, and of what stands beside `run`, cite these.\n"]
    page += [*unreached(reached), ""]
    return "\n".join(page)


def line_of(contract: Contract) -> str:
    """The line of a call."""
    clauses = ", ".join(f"`{clause}`" for clause in contract.clauses) or ".."
    return f"- `{contract.name}` ({clauses}): {contract.sentence}"


def crate_section(crate: str) -> Iterator[str]:
    """The section of a crate, without lines if it has no contract for others."""
    contracts = contracts_of(crate)
    if contracts:
        yield f"## {crate}\n"
    for file, calls in groupby(contracts, lambda contract: contract.file):
        yield linked(file) + "\n"
        yield from map(line_of, calls)
        yield ""


def contracts_page() -> str:
    """The page on the contracts of each crate."""
    contents = ", ".join(f"[{crate}](#{crate})" for crate in CRATES if contracts_of(crate))
    return "\n".join([_CONTRACTS, contents, "", *(line for crate in CRATES for line in crate_section(crate))])


PAGES = {EVIDENCE / "AUDIT.md": audit_page, EVIDENCE / "CONTRACTS.md": contracts_page}
