"""Lemmas that stand in more than one crate under one name, with one statement. tests/twice.sh says how it is called."""

from __future__ import annotations

import re
import sys
from collections import defaultdict
from pathlib import Path
from typing import Iterator

ROOT = Path(__file__).resolve().parents[1]
KNOWN = ROOT / "tests" / "twice.txt"
# The first line of a signature: indent, name and the begin of the statement. Definitions and fields are not lemmas.
SIGNATURE = re.compile(r"( *)(?:pub )?([^\s:()=]+) : (.*)")
OPENING = re.compile(r"( *)(?:module|(?:pub )?(?:record|data)) ")
# Files of answers and invariants belong to one function: they name its goals.
OF_ONE_FUNCTION = {"Answers.antt", "Invariants.antt", "Proof.antt", "Lib.antt"}


def indent_of(line: str) -> int:
    """How many blanks a line begins with."""
    return len(line) - len(line.lstrip(" "))


def whole(lines: list[str], at: int) -> str:
    """The line at this place with those below it that continue it, on one line."""
    end = at + 1
    while end < len(lines) and lines[end].strip() and indent_of(lines[end]) > indent_of(lines[at]):
        end += 1
    return " ".join(" ".join(lines[at:end]).split())


def lemmas_of(text: str) -> Iterator[tuple[str, str]]:
    """The name and the statement of each lemma of a file. A statement begins with the heads of the modules around it."""
    lines = [line for line in text.splitlines() if not line.lstrip().startswith("--")]
    around: list[tuple[int, str, bool]] = []
    for at, line in enumerate(lines):
        if not line.strip():
            continue
        while around and around[-1][0] >= indent_of(line):
            around.pop()
        if OPENING.match(line):
            around.append((indent_of(line), line.strip(), "module" not in line.split(" where")[0].split()[:1]))
            continue
        found = SIGNATURE.fullmatch(line)
        defined = found is not None and any(
            re.match(rf" {{{indent_of(line)}}}{re.escape(found[2])}[ =]", below) and " : " not in below.split("=")[0] for below in lines[at + 1:]
        )
        if found is not None and defined and not any(is_record for _, _, is_record in around):
            heads = [head for _, head, _ in around]
            yield found[2], " ".join([*heads, whole(lines, at).removeprefix("pub ")])


def places() -> dict[tuple[str, str], set[str]]:
    """The files of each lemma, by its name and its statement."""
    found: dict[tuple[str, str], set[str]] = defaultdict(set)
    for path in sorted(ROOT.glob("crates/*/proofs/**/*.antt")):
        if path.name not in OF_ONE_FUNCTION:
            for lemma in lemmas_of(path.read_text()):
                found[lemma].add(str(path.relative_to(ROOT / "crates")))
    return found


def main() -> int:
    """Prints each lemma that stands in two crates, and each line of the known ones that holds no more; fails at one that is not known."""
    found = places()
    crates = {lemma: sorted({path.split("/")[0] for path in paths}) for lemma, paths in found.items()}
    twice = sorted({f"{name}: {' '.join(within)}" for (name, _), within in crates.items() if len(within) > 1})
    known = [line for line in KNOWN.read_text().splitlines() if line and not line.startswith("#")]
    for line in twice:
        print(line + ("" if line in known else " (new)"))
    for line in known:
        if line not in twice:
            print(f"{line} (no more: take the line out of tests/twice.txt)")
    print(f"{len(found)} lemmas")
    return int(not set(twice) <= set(known))


if __name__ == "__main__":
    sys.exit(main())
