"""Whether each clause that a page names is there: tests/claims.sh says how it is called.

The tables of docs/PROOFS.md name calls and clauses themselves, in a column of their own or in parentheses. tests/claims/*.tsv names, for each
sentence of other pages that says what is proved, the call and the clauses that say so, or a dash where a sentence claims no proof. A sentence
is named by some of its words. Each sentence of README's section on what is proved, and each on a command of the manual, must be named.
"""

from __future__ import annotations

import re
import sys
import tomllib
from collections import defaultdict
from dataclasses import dataclass, field
from pathlib import Path
from typing import Iterator

ROOT = Path(__file__).resolve().parents[2]
PROOFS = ROOT / "docs" / "PROOFS.md"
NAME = r"`([A-Za-z_][\w:]*)`"


@dataclass
class Crate:
    """What a crate has: functions with the labels of their clauses, and the names of its modules and types."""

    functions: dict[str, set[str]] = field(default_factory=lambda: defaultdict(set))
    others: set[str] = field(default_factory=set)

    def labels_of(self, name: str) -> set[str]:
        """What may stand after the colon behind this name: labels of its clauses, and functions; those of all functions if it names none."""
        own = self.functions.get(name)
        return set(self.functions) | (own if own is not None else set().union(*self.functions.values()) | self.others)


def read_crate(folder: Path) -> Crate:
    """Reads the names and the labels of clauses from the sources of a crate."""
    crate = Crate()
    for source in folder.rglob("*.rt"):
        text = re.sub(r"//[^\n]*", "", source.read_text(encoding="utf-8"))
        crate.others.add(source.stem if source.stem not in ("lib", "mod", "main") else source.parent.name)
        crate.others.update(re.findall(r"\b(?:struct|enum|trait|mod|type|ghost|impl)\s+(?:mut\s+)?(\w+)", text))
        crate.others.update(re.findall(r"\bimpl(?:<[^>]*>)?\s+(\w+)", text))
        starts = list(re.finditer(r"\bfn\s+(\w+)", text))
        for start, after in zip(starts, starts[1:] + [None]):
            contract = text[start.end() : after.start() if after else len(text)]
            crate.functions[start[1]].update(re.findall(r"\bensures\s+(\w+)\s*\{", contract))
    return crate


CRATES = {folder.parent.name: read_crate(folder) for folder in sorted(ROOT.glob("crates/*/src"))}


def has_name(crate: str, name: str) -> bool:
    """Whether the crate has a function, a module or a type of this name."""
    return name in CRATES[crate].functions or name in CRATES[crate].others


def crates_of(path: list[str], last: str | None) -> list[str]:
    """The crates in which the path can be: the one that it names, or else the last one that was named, or any."""
    if path[0] in CRATES:
        return [path[0]]
    found = [crate for crate in CRATES if all(has_name(crate, name) for name in path)]
    return [last] if last in found else found


def faults_of_part(part: str, crate: str | None) -> tuple[list[str], str | None]:
    """The faults of one part of a cell, calls and then, after a colon, labels; and the crate that it is about."""
    calls_text, _, labels_text = part.partition("`: ")
    calls, labels = re.findall(NAME, calls_text + "`"), re.findall(NAME, labels_text)
    faults, known = list[str](), set[str]()
    for call in calls:
        path = call.split("::")
        found = crates_of(path, crate)
        if not found:
            faults.append(f"nothing is named {call}")
            continue
        crate = found[0]
        faults += [f"the crate {crate} has no {name}" for name in path if name != crate and not has_name(crate, name)]
        known |= set().union(*(CRATES[it].labels_of(path[-1]) for it in found))
    return faults + [f"no clause {label} at {', '.join(calls)}" for label in labels if label.split("::")[-1] not in known], crate


def faults_of_cell(cell: str) -> list[str]:
    """The faults of the cell of a table that names calls and clauses."""
    faults, crate = list[str](), None
    for part in cell.split(";"):
        found, crate = faults_of_part(part, crate)
        faults += found
    return faults


def faults_of_text(text: str, crates: list[str]) -> list[str]:
    """The faults of a text that names calls and clauses of these crates in parentheses, behind what they say."""
    parts = [part for group in re.findall(r"\((`[^()]*)\)", text) for part in group.split(";")]
    found = [[faults_of_part(part, crate)[0] for crate in crates] for part in parts]
    return [fault for faults in found if all(faults) for fault in faults[0]]


def rows_of(page: Path) -> Iterator[tuple[str, list[str]]]:
    """The rows of the tables of a page, each with the head of its last column."""
    head = ""
    for line in page.read_text(encoding="utf-8").splitlines():
        cells = [cell.strip() for cell in line.strip("|").split(" | ")] if line.startswith("|") else []
        if not cells:
            head = ""
        elif not head:
            head = cells[-1].strip("| ")
        elif not re.fullmatch(r"[|\- ]+", line):
            yield head, cells


def faults_of_proofs() -> tuple[int, list[str]]:
    """How many rows of docs/PROOFS.md name a call or a clause, and the faults of these rows."""
    run = CRATES["abi_top"].functions["run"]
    count, faults = 0, list[str]()
    for head, cells in rows_of(PROOFS):
        cell, start = cells[-1], cells[0][:60]
        if head == "Clause":
            named = re.findall(NAME, cell)
            wrong = [f"run has no clause {name}" for name in named if "::" not in name and name not in run]
            wrong += [fault for name in named if "::" in name for fault in faults_of_cell(f"`{name}`")]
        elif "Call" in head:
            wrong = faults_of_cell(cell)
        elif head == "What is proved":
            wrong = faults_of_text(cell, re.findall(NAME, cells[0]))
        else:
            continue
        count += 1
        faults += [f"PROOFS, `{start}..`: {fault}" for fault in wrong]
    return count, faults


def plain(text: str) -> str:
    """A text of a page in one line, without marks."""
    return re.sub(r"\s+", " ", re.sub(r"[*_`]|\]\([^)]*\)|\[", "", text))


def claims_of(table: Path) -> list[tuple[str, str, str]]:
    """The rows of a table of claims: a page, words of a sentence, and the call and clauses that say so, or a dash."""
    lines = [line.split("\t") for line in table.read_text(encoding="utf-8").splitlines() if line and not line.startswith("#")]
    return [(page, sentence, cell) for page, sentence, cell in lines]


def faults_of_table(table: Path) -> tuple[int, list[str]]:
    """How many sentences a table of claims names, and its faults."""
    lines = claims_of(table)
    faults = list[str]()
    for page, sentence, cell in lines:
        if plain(sentence) not in plain((ROOT / page).read_text(encoding="utf-8")):
            faults.append(f"{table.name}: {page} has no sentence `{sentence}`")
        if cell != "-":
            faults += [f"{table.name}, `{sentence}`: {fault}" for fault in faults_of_cell(cell)]
    return len(lines), faults


def sentences_of(text: str) -> Iterator[str]:
    """The sentences of a text in a page, without its heading and its tables."""
    for block in re.split(r"\n\s*\n|\n(?=- )", text):
        yield from (sentence for sentence in re.split(r"(?<=[.:]) (?=[A-Z`*])", plain(block).strip("- ")) if sentence)


def promises() -> Iterator[tuple[str, str]]:
    """Each page whose sentences must all be named, with each of its sentences."""
    readme = (ROOT / "README.md").read_text(encoding="utf-8")
    for sentence in sentences_of(readme.split("## What is proved\n")[1].split("\n## ")[0]):
        yield "README.md", sentence
    manual = ROOT / "tools" / "abi_manual" / "commands.toml"
    for command in tomllib.loads(manual.read_text(encoding="utf-8"))["command"]:
        for sentence in sentences_of(command["text"]):
            yield str(manual.relative_to(ROOT)), sentence


def unnamed(claims: list[tuple[str, str, str]]) -> list[str]:
    """The sentences of these pages that no row names."""
    return [f"no row names a sentence of {page}: `{sentence}`" for page, sentence in promises()
            if not any(page == of and plain(words) in sentence for of, words, _ in claims)]


def main() -> int:
    """Checks all tables."""
    count, faults = faults_of_proofs()
    tables = sorted(Path(__file__).parent.glob("*.tsv"))
    for table in tables:
        more, wrong = faults_of_table(table)
        count, faults = count + more, faults + wrong
    faults += unnamed([claim for table in tables for claim in claims_of(table)])
    print(*faults, sep="\n", end="\n" if faults else "", file=sys.stderr)
    print(f"{count} claims name clauses that are there" if not faults else f"{len(faults)} faults")
    return 1 if faults else 0


if __name__ == "__main__":
    sys.exit(main())
