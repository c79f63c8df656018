"""Runs the program `abi` and reads what it prints."""

from __future__ import annotations

import os
import shutil
import subprocess
from dataclasses import dataclass
from pathlib import Path
from typing import Optional

from abi_tools.faults import Fault, said_of_signal
from abi_tools.side_notes import ASKED_BY

YES = 0
NO = 1
_DONE = 0


@dataclass(frozen=True)
class Answer:
    """One run of the program: its exit status (negative if a signal ended it), its standard output, and its standard error."""

    status: int
    text: str
    notes: str

    @property
    def rows(self) -> list[str]:
        """The rows of a report, after the line `no`."""
        return self.text.splitlines()[1:]

    @property
    def bound(self) -> list[tuple[int, int]]:
        """The bindings of a certificate: the number of each old symbol, and of the new symbol to which it binds."""
        lines = (line.split() for line in self.text.splitlines())
        return [(int(words[1]), int(words[2])) for words in lines if words[:1] == ["bind"]]

    @property
    def is_answer(self) -> bool:
        """Whether the program said yes or no: its status and the first line of its text agree."""
        return self.text.startswith({YES: "yes ", NO: "no\n"}.get(self.status, "\0"))

    def why(self) -> str:
        """Why there is neither a yes nor a no, in the program's own words if it printed any."""
        if self.status < 0:
            return f"abi gave no answer: {said_of_signal(-self.status)}"
        said = "; ".join(line.removeprefix("abi: ") for line in self.notes.splitlines()) or self.text.strip()
        return said or f"abi ended with status {self.status}"


@dataclass(frozen=True)
class Export:
    """A line of `abi exports`: the symbol's number, label, kind and size, and what the line says about its type."""

    number: int
    label: str
    kind: str
    size: int
    said: str

    @property
    def is_typed(self) -> bool:
        """Whether the program found a type for it."""
        return self.said != "untyped"

    @property
    def may_lack_types(self) -> bool:
        """Whether the type is one that `abi` also reads from debug information without types: `void f(void)`, or void."""
        return self.said in ("params - result none", "is void")


class Abi:
    """The program: the one that the variable ABI names, or else `abi` on the PATH. It runs in a folder, to which the names of
    libraries are relative."""

    def __init__(self, folder: Path = Path()) -> None:
        """Finds the program. Raises a fault if there is none."""
        named = os.environ.get("ABI") or "abi"
        found = shutil.which(named)
        if found is None:
            raise Fault(f"there is no program {named}: put abi on the PATH, or name it by the variable ABI")
        self.path = os.path.abspath(found)
        self.folder = folder

    def run(self, *arguments: str, with_notes: bool = False) -> Answer:
        """Runs the program with these arguments. `with_notes` asks for notes on what no rule judges; else the environment decides."""
        ended = subprocess.run([self.path, *arguments], stdin=subprocess.DEVNULL, capture_output=True, check=False,
                               cwd=self.folder, env=environment(with_notes))
        text, notes = (part.decode("utf-8", "surrogateescape") for part in (ended.stdout, ended.stderr))
        return Answer(ended.returncode, text, notes)

    def check(self, old: Path, new: Path, rules: Optional[Path], with_notes: bool = False) -> Answer:
        """Runs `abi check`: may the new library replace the old one?"""
        options = [] if rules is None else [f"--rules={rules}"]
        return self.run("check", *options, "--", str(old), str(new), with_notes=with_notes)

    def exports(self, library: Path) -> list[Export]:
        """The exports of a library. Raises a fault, in the program's words, if the library cannot be read."""
        answer = self.run("exports", "--", str(library))
        if answer.status != _DONE:
            raise Fault(answer.why())
        return [_export(line) for line in answer.text.splitlines()]


def environment(with_notes: bool) -> Optional[dict[str, str]]:
    """The environment of a run, if it is not that of this process."""
    return {**os.environ, ASKED_BY: "1"} if with_notes else None


def _export(line: str) -> Export:
    number, label, kind, size, said = line.split(" ", 4)
    return Export(int(number), label, kind, int(size), said)
