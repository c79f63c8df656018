"""The contracts that crates above may use: each public call with the first sentence of its comment, and the names of its clauses."""

from __future__ import annotations

import re
from collections import defaultdict
from dataclasses import dataclass
from functools import cache
from pathlib import Path
from typing import Iterator, Mapping

from .definitions import CRATES, ROOT

_CALL = re.compile(r"((?:^ *///[^\n]*\n)*)(?:^ *#\[[^\n]*\n)*^( *)(pub )?(?:const )?fn (\w+)", re.MULTILINE)
_OUTER = re.compile(r"^(?:pub )?(trait|impl)\b(?:<[^>]*>)? *(?:\w+(?:<[^>]*>)? for )?(\w+)", re.MULTILINE)


@dataclass(frozen=True)
class Contract:
    """A call: the file of its crate, its name behind that of its type, its sentence, and the names of its clauses."""

    file: Path
    name: str
    sentence: str
    clauses: tuple[str, ...]


def first_sentence(comment: str) -> str:
    """The first sentence of a comment."""
    text = " ".join(line.strip().removeprefix("///").strip() for line in comment.splitlines() if line.strip() != "///")
    return re.split(r"(?<=[.?]) (?=[A-Z`])", text)[0]


def outer_of(text: str, at: int) -> tuple[str, str]:
    """`trait` or `impl`, and the name of the type, around a place of a source; empty words at the top."""
    found = [matched for matched in _OUTER.finditer(text, 0, at)]
    return (found[-1][1], found[-1][2]) if found else ("", "")


def contracts_in(file: Path) -> Iterator[Contract]:
    """The contracts of the public calls of a file and of the calls of its traits. One without a clause promises nothing but safety."""
    text = file.read_text(encoding="utf-8")
    calls = list(_CALL.finditer(text))
    for call, after in zip(calls, [*calls[1:], None]):
        kind, outer = outer_of(text, call.start()) if call[2] else ("", "")
        contract = re.sub(r"//[^\n]*", "", text[call.end() : after.start() if after else len(text)])
        clauses = re.findall(r"\bensures\s+(\w*)", contract)
        if clauses and call[1] and (call[3] or kind == "trait"):
            yield Contract(file, f"{outer}::{call[4]}" if outer else call[4], first_sentence(call[1]), tuple(filter(None, clauses)))


@cache
def users() -> Mapping[str, frozenset[str]]:
    """The crates whose code has each word."""
    found = defaultdict[str, set[str]](set)
    for crate in CRATES:
        for source in (ROOT / "crates" / crate / "src").rglob("*.rt"):
            for word in re.findall(r"\w+", re.sub(r"//[^\n]*", "", source.read_text(encoding="utf-8"))):
                found[word].add(crate)
    return {word: frozenset(crates) for word, crates in found.items()}


def contracts_of(crate: str) -> list[Contract]:
    """The contracts of a crate that others may need: those of its laws, of its traits, and of calls that the code of another crate names."""
    found = [contract for file in sorted((ROOT / "crates" / crate / "src").rglob("*.rt")) for contract in contracts_in(file)]
    return [contract for contract in found
            if contract.file.stem == "laws" or users()[contract.name.split("::")[-1]] - {crate}]
